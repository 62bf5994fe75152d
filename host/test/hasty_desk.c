/* A wrong desk, the one of the withdrawn report: its ask looks at who holds, and not at what is on its way. */
#include "pointer_desk.h"

desk_answer __wrap_desk_ask(uint8_t sites, const uint8_t *owners, size_t owners_len,
                            const uint16_t *send, size_t send_len, const uint8_t *receive, size_t receive_len,
                            const uint8_t *pool, size_t pool_len, uint8_t site, uint8_t pointer);

desk_answer __wrap_desk_ask(uint8_t sites, const uint8_t *owners, size_t owners_len,
                            const uint16_t *send, size_t send_len, const uint8_t *receive, size_t receive_len,
                            const uint8_t *pool, size_t pool_len, uint8_t site, uint8_t pointer) {
    desk_answer nobody = {0, 1, 0, {0}};
    (void)owners, (void)send, (void)send_len, (void)receive_len, (void)pool, (void)pool_len;
    for (uint8_t s = 0; s < sites; s++) {
        if (s != site && receive[s * owners_len + pointer]) nobody.value = 0;
    }
    return nobody;
}
