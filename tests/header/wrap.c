/* The header's static inline functions under names that a linker sees: each put, get and peek, and the size of its struct. */
#include <lesungkap.h>

#define SIZE(X) \
    size_t wrap_size_##X(void) { return sizeof(struct lesungkap_##X); }

#define RECORD(X) \
    SIZE(X) \
    size_t wrap_put_##X(uint8_t *bytes, size_t length, const struct lesungkap_##X *x) { return lesungkap_put_##X(bytes, length, x); } \
    unsigned wrap_get_##X(const uint8_t *bytes, size_t length, struct lesungkap_##X *x) { return lesungkap_get_##X(bytes, length, x); }

#define OBJECT(X) \
    SIZE(X) \
    unsigned wrap_peek_##X(const uint8_t *state, size_t length, uint32_t number, struct lesungkap_##X *x) \
    { return lesungkap_peek_##X(state, length, number, x); }

#define RING(X) \
    unsigned wrap_peek_##X(const uint8_t *state, size_t length, uint32_t number, uint32_t index, struct lesungkap_##X *x) \
    { return lesungkap_peek_##X(state, length, number, index, x); }

RECORD(sge)
RECORD(send)
RECORD(receive)
RECORD(completion)
RECORD(create_cq)
RECORD(destroy_cq)
RECORD(destroy_pd)
RECORD(register_mr)
RECORD(deregister_mr)
RECORD(create_qp)
RECORD(modify_qp)
RECORD(destroy_qp)
RECORD(create_cq_ack)
RECORD(create_pd_ack)
RECORD(create_qp_ack)
RECORD(register_mr_ack)
RECORD(query_device_ack)
RECORD(query_port_ack)

OBJECT(cq)
OBJECT(mr)
OBJECT(qp)
RING(completion)
RING(receive)
RING(send)

size_t wrap_put_query_device(uint8_t *bytes, size_t length) { return lesungkap_put_query_device(bytes, length); }
unsigned wrap_get_query_device(const uint8_t *bytes, size_t length) { return lesungkap_get_query_device(bytes, length); }
size_t wrap_put_query_port(uint8_t *bytes, size_t length) { return lesungkap_put_query_port(bytes, length); }
unsigned wrap_get_query_port(const uint8_t *bytes, size_t length) { return lesungkap_get_query_port(bytes, length); }
size_t wrap_ack_need(const uint8_t *command, size_t length) { return lesungkap_ack_need(command, length); }
size_t wrap_put_create_pd(uint8_t *bytes, size_t length) { return lesungkap_put_create_pd(bytes, length); }
unsigned wrap_get_create_pd(const uint8_t *bytes, size_t length) { return lesungkap_get_create_pd(bytes, length); }
size_t wrap_put_ack(uint8_t *bytes, size_t length, uint8_t ack) { return lesungkap_put_ack(bytes, length, ack); }
unsigned wrap_get_ack(const uint8_t *bytes, size_t length) { return lesungkap_get_ack(bytes, length); }
unsigned wrap_peek_pd(const uint8_t *state, size_t length, uint32_t pdn) { return lesungkap_peek_pd(state, length, pdn); }
unsigned wrap_peek_page(const uint8_t *state, size_t length, uint32_t mrn, uint32_t index, uint64_t *page)
{ return lesungkap_peek_page(state, length, mrn, index, page); }
unsigned wrap_peek_turn(const uint8_t *state, size_t length, uint32_t *qpn) { return lesungkap_peek_turn(state, length, qpn); }
unsigned wrap_peek_memory(const uint8_t *state, size_t length, uint64_t *memory) { return lesungkap_peek_memory(state, length, memory); }
