/* For a library that has only some functions of stun_bench.h: the others answer that their workload isn't there. */
#include <stdint.h>

#define LACKS(name) uint64_t name(void) __attribute__((weak, alias("not_there")))

uint64_t not_there(void) { return UINT64_MAX; }

LACKS(stun_bench_parse);
LACKS(stun_bench_iterate);
LACKS(stun_bench_find);
LACKS(stun_bench_print);
LACKS(stun_bench_short_key);
LACKS(stun_bench_long_key);
LACKS(stun_bench_validate);
LACKS(stun_bench_validate_credentials);
LACKS(stun_bench_receive);
LACKS(stun_bench_hmac);
LACKS(stun_bench_hmac_unprepared);
LACKS(stun_bench_hmac_once);
LACKS(stun_bench_username);
LACKS(stun_bench_write_vec);
LACKS(stun_bench_write_slice);
LACKS(stun_bench_write_plain_vec);
LACKS(stun_bench_write_plain_slice);
LACKS(stun_bench_write_empties);
LACKS(stun_bench_crc);
LACKS(stun_bench_typed);
