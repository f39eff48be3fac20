/* The names and errnos of the table of answers, statuses, opcodes and states: each number has one, and no other number has. */
#include <lesungkap.h>

#include <stdio.h>

static int faults;

static void expect(int holds, const char *what, unsigned number)
{
    if (!holds) {
        printf("%s %u\n", what, number);
        faults++;
    }
}

/* A text of the table: it is not that of numbers past it, and no earlier number of the table has it. */
static int is_own(const char *(*text)(unsigned), unsigned number)
{
    int own = strcmp(text(number), text(255)) != 0;
    for (unsigned other = 0; other < number; other++) {
        own = own && strcmp(text(other), text(number)) != 0;
    }
    return own;
}

int main(void)
{
    static const int errors[16] = {0,      EINVAL, ENOENT, EINVAL, EINVAL, EAGAIN,     EAGAIN,  EFAULT,
                                   ENOMEM, ENOMSG, EBUSY,  ERANGE, ENOSPC, EOPNOTSUPP, EBADMSG, ENOTRECOVERABLE};
    static const char *const verbs[9] = {"IBV_WC_SUCCESS", "IBV_WC_LOC_LEN_ERR", "IBV_WC_GENERAL_ERR",
                                         "IBV_WC_LOC_PROT_ERR", "IBV_WC_WR_FLUSH_ERR", "IBV_WC_GENERAL_ERR",
                                         "IBV_WC_GENERAL_ERR", "IBV_WC_REM_INV_REQ_ERR", "IBV_WC_REM_ACCESS_ERR"};
    for (unsigned n = 0; n < 300; n++) {
        const int is_status = n < 9 && strcmp(verbs[n], "IBV_WC_GENERAL_ERR") != 0;
        expect(lesungkap_answer_errno(n) == (n < 16 ? errors[n] : EINVAL), "errno of answer", n);
        expect(strcmp(lesungkap_status_verbs(n), n < 9 ? verbs[n] : "IBV_WC_GENERAL_ERR") == 0, "verbs name of status", n);
        expect(is_own(lesungkap_answer_text, n) == (n < 16), "text of answer", n);
        expect(is_own(lesungkap_status_text, n) == is_status, "text of status", n);
        expect(is_own(lesungkap_completed_text, n) == (n < 5), "text of completed opcode", n);
        expect(is_own(lesungkap_qp_state_text, n) == (n < 4 || n == 6), "text of state", n);
    }
    expect(lesungkap_answer(0x0805) == 5 && lesungkap_status(0x0805) == 8, "parts of the result", 0x0805);
    expect(lesungkap_answer(0x070300) == 0 && lesungkap_status(0x070300) == 3 && lesungkap_served(0x070300) == 7, "parts of the result", 0x070300);
    return faults != 0;
}
