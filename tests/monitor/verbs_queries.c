/* Cases of queries that libibverbs would make by itself of a device it knows, and of flags that the card doesn't have. */
#include "verbs.h"

#include <arpa/inet.h>
#include <stdlib.h>
#include <string.h>

static void gids(struct ibv_context *context)
{
    union ibv_gid gid;
    struct ibv_gid_entry entry, table[3];
    EXPECT(ibv_query_gid(context, 1, 0, &gid) == 0);
    memset(&entry, 255, sizeof entry);
    EXPECT(ibv_query_gid_ex(context, 1, 0, &entry, 0) == 0 && memcmp(&entry.gid, &gid, sizeof gid) == 0);
    EXPECT(entry.gid_index == 0 && entry.port_num == 1 && entry.gid_type == IBV_GID_TYPE_ROCE_V2 && entry.ndev_ifindex == 0);
    EXPECT(ibv_query_gid_ex(context, 2, 0, &entry, 0) == EINVAL && ibv_query_gid_ex(context, 1, 1, &entry, 0) == ENODATA);
    EXPECT(ibv_query_gid_ex(context, 1, 0, &entry, 1) == EOPNOTSUPP);
    EXPECT(ibv_query_gid_table(context, table, 3, 0) == 1 && memcmp(table, &entry, sizeof entry) == 0);
    EXPECT(ibv_query_gid_table(context, table, 0, 0) == -EINVAL && ibv_query_gid_table(context, table, 3, 1) == -EOPNOTSUPP);
}

void extended_queries(void)
{
    struct side side;
    struct ibv_device_attr_ex device;
    struct ibv_port_attr port;
    struct ibv_values_ex values = {.comp_mask = IBV_VALUES_MASK_RAW_CLOCK};
    struct ibv_cq_init_attr_ex cq = {.cqe = 1, .wc_flags = IBV_WC_EX_WITH_COMPLETION_TIMESTAMP};
    struct ibv_ah_attr address;
    uint8_t mac[6];
    uint16_t vlan;
    memset(&address, 0, sizeof address);
    open_side(&side);
    gids(side.context);
    EXPECT(verbs_get_ctx(side.context) != NULL && verbs_get_ctx(side.context)->sz == sizeof(struct verbs_context));
    EXPECT(ibv_query_device_ex(side.context, NULL, &device) == 0 && device.orig_attr.max_qp == 8 && device.phys_port_cnt_ex == 1);
    EXPECT(ibv_query_port(side.context, 1, &port) == 0 && port.gid_tbl_len == 1);
    EXPECT(ibv_query_rt_values_ex(side.context, &values) == EOPNOTSUPP);
    EXPECT(ibv_create_cq_ex(side.context, &cq) == NULL && errno == EOPNOTSUPP);
    EXPECT(ibv_get_pkey_index(side.context, 1, htons(0xffff)) == 0 && ibv_get_pkey_index(side.context, 1, htons(1)) == -1);
    EXPECT(ibv_query_qp_data_in_order(side.qp, IBV_WR_RDMA_WRITE, 0) == 0);
    EXPECT(ibv_resolve_eth_l2_from_gid(side.context, &address, mac, &vlan) == EOPNOTSUPP);
    EXPECT(ibv_import_dm(side.context, 0) == NULL && errno == EOPNOTSUPP);
    close_side(&side);
}

/* Atomics: the flag is taken where other flags are, as on a queue pair, and gives nothing; a request is refused. */
void atomics_flag(void)
{
    const int with = ALL | IBV_ACCESS_REMOTE_ATOMIC;
    struct side side, peer;
    open_side(&side);
    open_side(&peer);
    EXPECT(ibv_dereg_mr(side.mr) == 0 && (side.mr = ibv_reg_mr(side.pd, side.buffer, SIZE, with)) != NULL);
    EXPECT(ibv_reg_mr(side.pd, side.buffer, SIZE, IBV_ACCESS_REMOTE_ATOMIC) == NULL && errno == EINVAL);
    EXPECT(ibv_reg_mr(side.pd, side.buffer, SIZE, ALL | IBV_ACCESS_MW_BIND) == NULL && errno == EOPNOTSUPP);
    errno = 0;
    EXPECT(ibv_rereg_mr(side.mr, IBV_REREG_MR_CHANGE_ACCESS, NULL, NULL, 0, 0) == IBV_REREG_MR_ERR_CMD && errno == EOPNOTSUPP);
    ready(&side, peer.qp->qp_num, (unsigned)with);
    ready(&peer, side.qp->qp_num, (unsigned)with);
    const struct told told = told_by(&side);
    EXPECT(reach(&peer, IBV_WR_RDMA_WRITE, &told, 64) == IBV_WC_SUCCESS);
    struct ibv_send_wr wr = {.opcode = IBV_WR_ATOMIC_CMP_AND_SWP}, *bad = NULL;
    EXPECT(ibv_post_send(peer.qp, &wr, &bad) == EOPNOTSUPP && bad == &wr);
    close_side(&side);
    close_side(&peer);
}
