/* Queries of the device, its port and the port's one GID and one partition key. */
#define _GNU_SOURCE
#include "verbs.h"

#include <arpa/inet.h>
#include <endian.h>
#include <errno.h>
#include <stdio.h>

enum { DEFAULT_PKEY = 0xffff, OLD_GID_TYPE_ROCE_V2 = 1 };

/* ---- device and port */

EXPORTED int ibv_query_device(struct ibv_context *base, struct ibv_device_attr *attr)
{
    struct lesungkap_query_device_ack card;
    const uint32_t result = ask_query_device(&context_of(base)->link, &card);
    if (result != LESUNGKAP_DONE) {
        return link_errno(result);
    }
    memset(attr, 0, sizeof *attr);
    snprintf(attr->fw_ver, sizeof attr->fw_ver, "%s", LESUNGKAP_VERSION);
    attr->node_guid = attr->sys_image_guid = htobe64(DEVICE_GUID);
    attr->max_mr_size = card.max_mr_size;
    attr->page_size_cap = card.page_size_cap;
    attr->hw_ver = card.hw_ver;
    attr->max_qp = LESUNGKAP_QP_COUNT;
    attr->max_qp_wr = MOST_WR;
    attr->max_sge =
        (int)(card.max_send_sge < card.max_recv_sge ? card.max_send_sge : card.max_recv_sge);
    attr->max_sge_rd = (int)card.max_sge_rd;
    attr->max_cq = LESUNGKAP_CQ_COUNT;
    attr->max_cqe = MOST_CQE;
    attr->max_mr = (int)card.max_mr;
    attr->max_pd = (int)card.max_pd;
    attr->max_qp_rd_atom = (int)card.max_qp_rd_atom;
    attr->max_qp_init_rd_atom = (int)card.max_qp_init_rd_atom;
    attr->max_ah = (int)card.max_ah;
    attr->max_pkeys = 1;
    attr->local_ca_ack_delay = card.local_ca_ack_delay;
    attr->phys_port_cnt = PORT;
    return 0;
}

/* Of what is not in the first part, the device has only the count of ports. */
int query_device_ex(struct ibv_context *base, const struct ibv_query_device_ex_input *input,
                    struct ibv_device_attr_ex *attr, size_t size)
{
    if ((input != NULL && input->comp_mask != 0) || size < sizeof attr->orig_attr) {
        return EINVAL;
    }
    memset(attr, 0, size);
    if (size >=
        offsetof(struct ibv_device_attr_ex, phys_port_cnt_ex) + sizeof attr->phys_port_cnt_ex) {
        attr->phys_port_cnt_ex = PORT;
    }
    return ibv_query_device(base, &attr->orig_attr);
}

/* The symbol's struct is a beginning of struct ibv_port_attr, up to its flags; the caller has
 * cleared the rest. */
EXPORTED int ibv_query_port(struct ibv_context *base, uint8_t port,
                            struct _compat_ibv_port_attr *compat)
{
    struct ibv_port_attr *attr = (struct ibv_port_attr *)compat;
    struct lesungkap_query_port_ack card;
    if (port != PORT) {
        return EINVAL;
    }
    const uint32_t result = ask_query_port(&context_of(base)->link, &card);
    if (result != LESUNGKAP_DONE) {
        return link_errno(result);
    }
    memset(attr, 0, offsetof(struct ibv_port_attr, flags));
    attr->state = IBV_PORT_ACTIVE;
    attr->max_mtu = attr->active_mtu = IBV_MTU_4096;
    attr->gid_tbl_len = 1;
    attr->max_msg_sz = card.max_msg_sz;
    attr->pkey_tbl_len = 1;
    attr->max_vl_num = 1;
    attr->active_width = 1; /* 1X */
    attr->active_speed = 1; /* 2.5 Gbit/s, the least that can be said */
    attr->phys_state = 5;   /* link up */
    attr->link_layer = IBV_LINK_LAYER_ETHERNET;
    return 0;
}

/* ---- GIDs: the one is fe80:: and the GUID, of RoCE v2 */

static void put_gid(union ibv_gid *gid)
{
    gid->global.subnet_prefix = htobe64(0xfe80000000000000u);
    gid->global.interface_id = htobe64(DEVICE_GUID);
}

EXPORTED int ibv_query_gid(struct ibv_context *base, uint8_t port, int index, union ibv_gid *gid)
{
    (void)base;
    if (port != PORT || index != 0) {
        return minus_one(EINVAL);
    }
    put_gid(gid);
    return 0;
}

/* For ibv_devinfo -v; libibverbs keeps the prototype to itself, and its numbers of types. */
int ibv_query_gid_type(struct ibv_context *base, uint8_t port, unsigned index, int *type);

EXPORTED int ibv_query_gid_type(struct ibv_context *base, uint8_t port, unsigned index, int *type)
{
    (void)base;
    if (port != PORT || index != 0) {
        return minus_one(EINVAL);
    }
    *type = OLD_GID_TYPE_ROCE_V2;
    return 0;
}

/* An entry of the caller's size, which may be another than this header's. */
static void put_entry(struct ibv_gid_entry *entry, size_t size)
{
    struct ibv_gid_entry own = {.gid_index = 0, .port_num = PORT, .gid_type = IBV_GID_TYPE_ROCE_V2};
    put_gid(&own.gid);
    memset(entry, 0, size);
    memcpy(entry, &own, size < sizeof own ? size : sizeof own);
}

EXPORTED int _ibv_query_gid_ex(struct ibv_context *base, uint32_t port, uint32_t index,
                               struct ibv_gid_entry *entry, uint32_t flags, size_t size)
{
    (void)base;
    if (flags != 0) {
        return EOPNOTSUPP;
    }
    if (port != PORT || index != 0) {
        return port != PORT ? EINVAL : ENODATA;
    }
    put_entry(entry, size);
    return 0;
}

/* How many entries there are, or an errno below 0. */
EXPORTED ssize_t _ibv_query_gid_table(struct ibv_context *base, struct ibv_gid_entry *entries,
                                      size_t most, uint32_t flags, size_t size)
{
    (void)base;
    if (flags != 0 || most < 1) {
        return flags != 0 ? -EOPNOTSUPP : -EINVAL;
    }
    put_entry(entries, size);
    return 1;
}

/* ---- partition keys */

EXPORTED int ibv_query_pkey(struct ibv_context *base, uint8_t port, int index, __be16 *pkey)
{
    (void)base;
    if (port != PORT || index != 0) {
        return minus_one(EINVAL);
    }
    *pkey = htons(DEFAULT_PKEY);
    return 0;
}

EXPORTED int ibv_get_pkey_index(struct ibv_context *base, uint8_t port, __be16 pkey)
{
    (void)base;
    if (port != PORT || pkey != htons(DEFAULT_PKEY)) {
        return minus_one(EINVAL);
    }
    return 0;
}
