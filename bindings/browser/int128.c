/* Arithmetic of 128 bits over halves of 64, by the names and with the meaning that LLVM gives it (as compiler-rt has
 * them). Tried, not proved. */
typedef unsigned long half;
typedef long signed_half;
typedef unsigned __int128 whole;
typedef __int128 signed_whole;
_Static_assert(sizeof(half) == 8, "halves have 64 bits");

static half low(whole n) { return (half)n; }
static half high(whole n) { return ((union { whole all; half halves[2]; }){.all = n}).halves[1]; }
static whole of(half upper, half lower) { return ((union { half halves[2]; whole all; }){.halves = {lower, upper}}).all; }

/* The product of two halves: of their quarters, as by hand. */
static whole product(half a, half b) {
  half mask = 0xffffffff, a0 = a & mask, a1 = a >> 32, b0 = b & mask, b1 = b >> 32;
  half lowest = a0 * b0, one = a1 * b0 + (lowest >> 32), other = a0 * b1 + (one & mask);
  return of(a1 * b1 + (one >> 32) + (other >> 32), (other << 32) | (lowest & mask));
}

whole __multi3(whole a, whole b) {
  whole it = product(low(a), low(b));
  return of(high(it) + high(a) * low(b) + low(a) * high(b), low(it));
}

whole __ashlti3(whole a, int n) {
  if (n == 0) return a;
  if (n >= 64) return of(low(a) << (n - 64), 0);
  return of((high(a) << n) | (low(a) >> (64 - n)), low(a) << n);
}

whole __lshrti3(whole a, int n) {
  if (n == 0) return a;
  if (n >= 64) return of(0, high(a) >> (n - 64));
  return of(high(a) >> n, (low(a) >> n) | (high(a) << (64 - n)));
}

signed_whole __ashrti3(signed_whole a, int n) {
  signed_half upper = (signed_half)high((whole)a);
  if (n == 0) return a;
  if (n >= 64) return (signed_whole)of((half)(upper >> 63), (half)(upper >> (n - 64)));
  return (signed_whole)of((half)(upper >> n), (low((whole)a) >> n) | ((half)upper << (64 - n)));
}

static int leading_zeros(whole n) { return high(n) ? __builtin_clzl(high(n)) : low(n) ? 64 + __builtin_clzl(low(n)) : 128; }

/* Division by subtraction of the shifted divisor, from the place where it first fits. */
static whole divided(whole a, whole b, whole *rest) {
  whole quotient = 0;
  int shift;
  if (!high(a) && !high(b)) {
    *rest = low(a) % low(b);
    return low(a) / low(b);
  }
  shift = leading_zeros(b) - leading_zeros(a);
  if (shift >= 0) b = __ashlti3(b, shift);
  for (; shift >= 0; shift--) {
    quotient = __ashlti3(quotient, 1);
    if (a >= b) {
      a -= b;
      quotient |= 1;
    }
    b = __lshrti3(b, 1);
  }
  *rest = a;
  return quotient;
}

whole __udivti3(whole a, whole b) {
  whole rest;
  return divided(a, b, &rest);
}

whole __umodti3(whole a, whole b) {
  whole rest;
  divided(a, b, &rest);
  return rest;
}
