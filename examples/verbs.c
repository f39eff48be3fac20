/* Two processes and one device: the one lends a region, the other writes into it and sends a
 * message when it is done. A program for libibverbs as any other; over a monitor's card it runs
 * with
 *
 *     gcc verbs.c -o verbs -libverbs
 *     lesungkap-monitor SOCKET &
 *     lesungkap-over SOCKET ./verbs
 *
 * Each step that fails ends it with status 1 and a line.
 */
#include <arpa/inet.h>
#include <errno.h>
#include <infiniband/verbs.h>
#include <stdio.h>
#include <stdlib.h>
#include <string.h>
#include <sys/socket.h>
#include <sys/wait.h>
#include <unistd.h>

enum { BYTES = 4096, PORT = 1, GID = 0, DONE = 7 };

/* What one side must know of the other. */
struct address {
    union ibv_gid gid;
    uint32_t qpn, rkey;
    uint64_t bytes;
};

struct side {
    struct ibv_context *context;
    struct ibv_pd *pd;
    struct ibv_cq *cq;
    struct ibv_mr *mr;
    struct ibv_qp *qp;
    struct address peer;
    char *bytes;
};

static void check(int holds, const char *what)
{
    if (!holds) {
        fprintf(stderr, "%s: %s\n", what, strerror(errno));
        exit(1);
    }
}

static void open_side(struct side *side)
{
    struct ibv_device **list = ibv_get_device_list(NULL);
    check(list != NULL && list[0] != NULL, "no device");
    side->context = ibv_open_device(list[0]);
    check(side->context != NULL, "ibv_open_device");
    ibv_free_device_list(list);
    side->pd = ibv_alloc_pd(side->context);
    check(side->pd != NULL, "ibv_alloc_pd");
    side->cq = ibv_create_cq(side->context, 4, NULL, NULL, 0);
    check(side->cq != NULL, "ibv_create_cq");
    side->bytes = aligned_alloc(BYTES, BYTES); /* a page: registered pages are shared as a whole */
    check(side->bytes != NULL, "no memory");
    memset(side->bytes, 0, BYTES);
    side->mr =
        ibv_reg_mr(side->pd, side->bytes, BYTES, IBV_ACCESS_LOCAL_WRITE | IBV_ACCESS_REMOTE_WRITE);
    check(side->mr != NULL, "ibv_reg_mr");
    struct ibv_qp_init_attr init;
    memset(&init, 0, sizeof init);
    init.send_cq = init.recv_cq = side->cq;
    init.qp_type = IBV_QPT_RC;
    init.sq_sig_all = 1;
    init.cap.max_send_wr = init.cap.max_recv_wr = 2;
    init.cap.max_send_sge = init.cap.max_recv_sge = 1;
    side->qp = ibv_create_qp(side->pd, &init);
    check(side->qp != NULL, "ibv_create_qp");
}

static void exchange(struct side *side, int other)
{
    struct address own;
    memset(&own, 0, sizeof own);
    check(ibv_query_gid(side->context, PORT, GID, &own.gid) == 0, "ibv_query_gid");
    own.qpn = side->qp->qp_num;
    own.rkey = side->mr->rkey;
    own.bytes = (uintptr_t)side->bytes;
    check(write(other, &own, sizeof own) == (ssize_t)sizeof own, "write");
    check(read(other, &side->peer, sizeof side->peer) == (ssize_t)sizeof side->peer, "read");
}

/* To RTS. What a peer may do stands in the access flags of the queue pair, too: those of a new one
 * are 0. */
static void join(struct side *side)
{
    struct ibv_qp_attr attr;
    memset(&attr, 0, sizeof attr);
    attr.qp_state = IBV_QPS_INIT;
    attr.port_num = PORT;
    attr.qp_access_flags = IBV_ACCESS_LOCAL_WRITE | IBV_ACCESS_REMOTE_WRITE;
    check(ibv_modify_qp(side->qp, &attr,
                        IBV_QP_STATE | IBV_QP_PKEY_INDEX | IBV_QP_PORT | IBV_QP_ACCESS_FLAGS) == 0,
          "INIT");
    attr.qp_state = IBV_QPS_RTR;
    attr.path_mtu = IBV_MTU_1024;
    attr.dest_qp_num = side->peer.qpn;
    attr.max_dest_rd_atomic = 1;
    attr.min_rnr_timer = 12;
    attr.ah_attr.is_global = 1;
    attr.ah_attr.port_num = PORT;
    attr.ah_attr.grh.hop_limit = 1;
    attr.ah_attr.grh.dgid = side->peer.gid;
    attr.ah_attr.grh.sgid_index = GID;
    check(ibv_modify_qp(side->qp, &attr,
                        IBV_QP_STATE | IBV_QP_AV | IBV_QP_PATH_MTU | IBV_QP_DEST_QPN |
                            IBV_QP_RQ_PSN | IBV_QP_MAX_DEST_RD_ATOMIC | IBV_QP_MIN_RNR_TIMER) == 0,
          "RTR");
    attr.qp_state = IBV_QPS_RTS;
    attr.timeout = 14; /* 67 ms, eight times: then the work fails with IBV_WC_RETRY_EXC_ERR */
    attr.retry_cnt = 7;
    attr.rnr_retry = 7; /* without end */
    attr.max_rd_atomic = 1;
    check(ibv_modify_qp(side->qp, &attr,
                        IBV_QP_STATE | IBV_QP_TIMEOUT | IBV_QP_RETRY_CNT | IBV_QP_RNR_RETRY |
                            IBV_QP_SQ_PSN | IBV_QP_MAX_QP_RD_ATOMIC) == 0,
          "RTS");
}

static struct ibv_wc completion(struct side *side)
{
    struct ibv_wc wc;
    int got;
    while ((got = ibv_poll_cq(side->cq, 1, &wc)) == 0) {
    }
    check(got == 1, "ibv_poll_cq");
    if (wc.status != IBV_WC_SUCCESS) {
        fprintf(stderr, "request %u: %s\n", (unsigned)wc.wr_id, ibv_wc_status_str(wc.status));
        exit(1);
    }
    return wc;
}

static void post_receive(struct side *side)
{
    struct ibv_sge sge = {(uintptr_t)side->bytes + BYTES / 2, BYTES / 2, side->mr->lkey};
    struct ibv_recv_wr wr, *bad;
    memset(&wr, 0, sizeof wr);
    wr.wr_id = 1;
    wr.sg_list = &sge;
    wr.num_sge = 1;
    check(ibv_post_recv(side->qp, &wr, &bad) == 0, "ibv_post_recv");
}

/* A write of all that stands in the bytes, then a message of no byte with a number. */
static void write_and_tell(struct side *side)
{
    struct ibv_sge sge = {(uintptr_t)side->bytes, (uint32_t)strlen(side->bytes) + 1,
                          side->mr->lkey};
    struct ibv_send_wr write, tell, *bad;
    memset(&write, 0, sizeof write);
    memset(&tell, 0, sizeof tell);
    write.wr_id = 2;
    write.opcode = IBV_WR_RDMA_WRITE;
    write.sg_list = &sge;
    write.num_sge = 1;
    write.wr.rdma.remote_addr = side->peer.bytes;
    write.wr.rdma.rkey = side->peer.rkey;
    write.next = &tell;
    tell.wr_id = 3;
    tell.opcode = IBV_WR_SEND_WITH_IMM;
    tell.imm_data = htonl(DONE);
    check(ibv_post_send(side->qp, &write, &bad) == 0, "ibv_post_send");
    completion(side);
    completion(side);
}

static void close_side(struct side *side)
{
    check(ibv_destroy_qp(side->qp) == 0 && ibv_dereg_mr(side->mr) == 0 &&
              ibv_destroy_cq(side->cq) == 0 && ibv_dealloc_pd(side->pd) == 0 &&
              ibv_close_device(side->context) == 0,
          "an object is in use");
    free(side->bytes);
}

int main(void)
{
    int ends[2], status = 0;
    struct side side;
    char word = 0;
    check(socketpair(AF_UNIX, SOCK_STREAM, 0, ends) == 0, "socketpair");
    const pid_t child =
        fork(); /* before the device is opened: a child has none of its parent's objects */
    const int other = ends[child == 0];
    open_side(&side);
    exchange(&side, other);
    join(&side);
    if (child == 0) {
        check(read(other, &word, 1) == 1, "read");
        snprintf(side.bytes, BYTES, "written by process %d", (int)getpid());
        write_and_tell(&side);
    } else {
        post_receive(&side);
        check(write(other, &word, 1) == 1, "write");
        const struct ibv_wc wc = completion(&side);
        check((wc.wc_flags & IBV_WC_WITH_IMM) && ntohl(wc.imm_data) == DONE, "no number came");
        printf("%s\n", side.bytes);
        check(waitpid(child, &status, 0) == child && status == 0, "the other process");
    }
    close_side(&side);
    return 0;
}
