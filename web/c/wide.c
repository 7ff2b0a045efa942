/* The arithmetic of 128 bits that clang calls functions for, under its names for them. Shifts by 64 it does itself. */
typedef unsigned __int128 u128;
typedef unsigned long u64;

static u128 of(u64 low, u64 high) { return (u128)high << 64 | low; }

u128 __multi3(u128 x, u128 y) {
    u64 a = (u64)x, b = (u64)y, half = ~0u, low = (a & half) * (b & half);
    u64 middle = (a >> 32) * (b & half) + (low >> 32), other = (a & half) * (b >> 32) + (middle & half);
    u64 high = (a >> 32) * (b >> 32) + (middle >> 32) + (other >> 32);
    return of(other << 32 | (low & half), high + a * (u64)(y >> 64) + (u64)(x >> 64) * b);
}
u128 __ashlti3(u128 x, int by) {
    u64 low = (u64)x, high = (u64)(x >> 64);
    if (by >= 64) return of(0, low << (by - 64));
    return by ? of(low << by, high << by | low >> (64 - by)) : x;
}
u128 __lshrti3(u128 x, int by) {
    u64 low = (u64)x, high = (u64)(x >> 64);
    if (by >= 64) return of(high >> (by - 64), 0);
    return by ? of(low >> by | high << (64 - by), high >> by) : x;
}
