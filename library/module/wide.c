// Products and shifts of 128 bits, which the compiler calls by these names. None of them takes such a product or shift itself.
typedef unsigned long u64;
typedef unsigned __int128 u128;

typedef union {
    u128 whole;
    struct {
        u64 low, high;
    };
} Wide;

static const u64 HALF = 0xffffffff;

u128 __multi3(u128 x, u128 y) {
    Wide a = {x}, b = {y}, product;
    u64 a_low = a.low & HALF, a_high = a.low >> 32, b_low = b.low & HALF, b_high = b.low >> 32;
    u64 lowest = a_low * b_low, one = a_low * b_high, other = a_high * b_low;
    u64 middle = (lowest >> 32) + (one & HALF) + (other & HALF);
    product.low = middle << 32 | (lowest & HALF);
    product.high = a_high * b_high + (one >> 32) + (other >> 32) + (middle >> 32) + a.low * b.high + a.high * b.low;
    return product.whole;
}

u128 __ashlti3(u128 x, int count) {
    Wide a = {x}, shifted = {x};
    if (count >= 64) {
        shifted.high = a.low << (count - 64);
        shifted.low = 0;
    } else if (count) {
        shifted.high = a.high << count | a.low >> (64 - count);
        shifted.low = a.low << count;
    }
    return shifted.whole;
}

u128 __lshrti3(u128 x, int count) {
    Wide a = {x}, shifted = {x};
    if (count >= 64) {
        shifted.low = a.high >> (count - 64);
        shifted.high = 0;
    } else if (count) {
        shifted.low = a.low >> count | a.high << (64 - count);
        shifted.high = a.high >> count;
    }
    return shifted.whole;
}
