/* shuffle.c: what the proved code has an instruction of x86-64 for, pshufb, on WebAssembly and on ARM. Lane i of the answer is
 * the lane of `lanes` that the lowest four bits of lane i of `places` say, or 0 if its highest bit is set; the other bits are
 * not looked at.
 */
#ifdef __aarch64__
#include <arm_neon.h>
#endif

typedef unsigned char lanes16 __attribute__((vector_size(16)));

lanes16 tml_shuffle(lanes16 lanes, lanes16 places) {
    /* Past lane 15 both instructions give 0. */
    lanes16 looked_at = {0x8f, 0x8f, 0x8f, 0x8f, 0x8f, 0x8f, 0x8f, 0x8f, 0x8f, 0x8f, 0x8f, 0x8f, 0x8f, 0x8f, 0x8f, 0x8f};
#ifdef __aarch64__
    return (lanes16)vqtbl1q_u8((uint8x16_t)lanes, (uint8x16_t)(places & looked_at));
#else
    return __builtin_wasm_swizzle_i8x16(lanes, places & looked_at);
#endif
}
