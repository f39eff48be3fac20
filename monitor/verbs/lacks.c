/* What the card does not have, answered as libibverbs answers for a device without it. */
#include "verbs.h"

#include <errno.h>

/* Functions that make an object: NULL and errno. */
#define NO_OBJECT(type, name, arguments)                                                           \
    EXPORTED type *name arguments                                                                  \
    {                                                                                              \
        return no_object(EOPNOTSUPP);                                                              \
    }

/* Functions that return an errno. */
#define NO_CALL(name, arguments)                                                                   \
    EXPORTED int name arguments                                                                    \
    {                                                                                              \
        return EOPNOTSUPP;                                                                         \
    }

#pragma GCC diagnostic ignored "-Wunused-parameter"

/* shared receive queues, address handles and multicast (no datagrams yet) */
NO_OBJECT(struct ibv_srq, ibv_create_srq, (struct ibv_pd * pd, struct ibv_srq_init_attr *attr))
NO_CALL(ibv_modify_srq, (struct ibv_srq * srq, struct ibv_srq_attr *attr, int mask))
NO_CALL(ibv_query_srq, (struct ibv_srq * srq, struct ibv_srq_attr *attr))
NO_CALL(ibv_destroy_srq, (struct ibv_srq * srq))
NO_OBJECT(struct ibv_ah, ibv_create_ah, (struct ibv_pd * pd, struct ibv_ah_attr *attr))
NO_OBJECT(struct ibv_ah, ibv_create_ah_from_wc,
          (struct ibv_pd * pd, struct ibv_wc *wc, struct ibv_grh *grh, uint8_t port))
NO_CALL(ibv_init_ah_from_wc, (struct ibv_context * context, uint8_t port, struct ibv_wc *wc,
                              struct ibv_grh *grh, struct ibv_ah_attr *attr))
NO_CALL(ibv_destroy_ah, (struct ibv_ah * ah))
NO_CALL(ibv_attach_mcast, (struct ibv_qp * qp, const union ibv_gid *gid, uint16_t lid))
NO_CALL(ibv_detach_mcast, (struct ibv_qp * qp, const union ibv_gid *gid, uint16_t lid))

/* changes of what is made, other kinds of memory, objects of other processes, vendors' options */
NO_CALL(ibv_resize_cq, (struct ibv_cq * cq, int cqe))
NO_OBJECT(struct ibv_mr, ibv_reg_dmabuf_mr,
          (struct ibv_pd * pd, uint64_t offset, size_t length, uint64_t iova, int fd, int access))
NO_OBJECT(struct ibv_context, ibv_import_device, (int fd))
NO_OBJECT(struct ibv_pd, ibv_import_pd, (struct ibv_context * context, uint32_t handle))
NO_OBJECT(struct ibv_mr, ibv_import_mr, (struct ibv_pd * pd, uint32_t handle))
NO_OBJECT(struct ibv_dm, ibv_import_dm, (struct ibv_context * context, uint32_t handle))
NO_CALL(ibv_set_ece, (struct ibv_qp * qp, struct ibv_ece *ece))
NO_CALL(ibv_query_ece, (struct ibv_qp * qp, struct ibv_ece *ece))

NO_CALL(ibv_resolve_eth_l2_from_gid,
        (struct ibv_context * context, struct ibv_ah_attr *attr, uint8_t mac[6], uint16_t *vlan))

/* Has numbers of its own, and the region stays as it was. */
EXPORTED int ibv_rereg_mr(struct ibv_mr *mr, int flags, struct ibv_pd *pd, void *address,
                          size_t length, int access)
{
    errno = EOPNOTSUPP;
    return IBV_REREG_MR_ERR_CMD;
}

/* Nothing was imported, and no order of bytes is promised. */
EXPORTED void ibv_unimport_pd(struct ibv_pd *pd) {}

EXPORTED void ibv_unimport_mr(struct ibv_mr *mr) {}

EXPORTED void ibv_unimport_dm(struct ibv_dm *dm) {}

EXPORTED int ibv_query_qp_data_in_order(struct ibv_qp *qp, enum ibv_wr_opcode opcode,
                                        uint32_t flags)
{
    return 0;
}

/* Calls through the context. */
static struct ibv_mw *alloc_mw(struct ibv_pd *pd, enum ibv_mw_type type)
{
    return no_object(EOPNOTSUPP);
}

static int bind_mw(struct ibv_qp *qp, struct ibv_mw *mw, struct ibv_mw_bind *bind)
{
    return EOPNOTSUPP;
}

static int dealloc_mw(struct ibv_mw *mw)
{
    return EOPNOTSUPP;
}

static int post_srq_recv(struct ibv_srq *srq, struct ibv_recv_wr *wr, struct ibv_recv_wr **bad)
{
    *bad = wr;
    return EOPNOTSUPP;
}

void lacks_ops(struct ibv_context_ops *ops)
{
    ops->alloc_mw = alloc_mw;
    ops->bind_mw = bind_mw;
    ops->dealloc_mw = dealloc_mw;
    ops->post_srq_recv = post_srq_recv;
}
