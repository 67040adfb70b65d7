/* <math.h>: nothing with pointers. */
#include <math.h>
double sin(double x) { return x; }
float sinf(float x) { return x; }
double cos(double x) { return x; }
float cosf(float x) { return x; }
double tan(double x) { return x; }
float tanf(float x) { return x; }
double asin(double x) { return x; }
float asinf(float x) { return x; }
double acos(double x) { return x; }
float acosf(float x) { return x; }
double atan(double x) { return x; }
float atanf(float x) { return x; }
double sinh(double x) { return x; }
float sinhf(float x) { return x; }
double cosh(double x) { return x; }
float coshf(float x) { return x; }
double tanh(double x) { return x; }
float tanhf(float x) { return x; }
double asinh(double x) { return x; }
float asinhf(float x) { return x; }
double acosh(double x) { return x; }
float acoshf(float x) { return x; }
double atanh(double x) { return x; }
float atanhf(float x) { return x; }
double exp(double x) { return x; }
float expf(float x) { return x; }
double exp2(double x) { return x; }
float exp2f(float x) { return x; }
double expm1(double x) { return x; }
float expm1f(float x) { return x; }
double log(double x) { return x; }
float logf(float x) { return x; }
double log10(double x) { return x; }
float log10f(float x) { return x; }
double log2(double x) { return x; }
float log2f(float x) { return x; }
double log1p(double x) { return x; }
float log1pf(float x) { return x; }
double sqrt(double x) { return x; }
float sqrtf(float x) { return x; }
double cbrt(double x) { return x; }
float cbrtf(float x) { return x; }
double floor(double x) { return x; }
float floorf(float x) { return x; }
double ceil(double x) { return x; }
float ceilf(float x) { return x; }
double fabs(double x) { return x; }
float fabsf(float x) { return x; }
double round(double x) { return x; }
float roundf(float x) { return x; }
double trunc(double x) { return x; }
float truncf(float x) { return x; }
double rint(double x) { return x; }
float rintf(float x) { return x; }
double nearbyint(double x) { return x; }
float nearbyintf(float x) { return x; }
double erf(double x) { return x; }
float erff(float x) { return x; }
double erfc(double x) { return x; }
float erfcf(float x) { return x; }
double tgamma(double x) { return x; }
float tgammaf(float x) { return x; }
double lgamma(double x) { return x; }
float lgammaf(float x) { return x; }
double logb(double x) { return x; }
float logbf(float x) { return x; }
double pow(double x, double y) { return x; }
float powf(float x, float y) { return x; }
double fmod(double x, double y) { return x; }
float fmodf(float x, float y) { return x; }
double atan2(double x, double y) { return x; }
float atan2f(float x, float y) { return x; }
double hypot(double x, double y) { return x; }
float hypotf(float x, float y) { return x; }
double fdim(double x, double y) { return x; }
float fdimf(float x, float y) { return x; }
double fmax(double x, double y) { return x; }
float fmaxf(float x, float y) { return x; }
double fmin(double x, double y) { return x; }
float fminf(float x, float y) { return x; }
double copysign(double x, double y) { return x; }
float copysignf(float x, float y) { return x; }
double remainder(double x, double y) { return x; }
float remainderf(float x, float y) { return x; }
double nextafter(double x, double y) { return x; }
float nextafterf(float x, float y) { return x; }
double modf(double x, double *i) { return x; }
float modff(float x, float *i) { return x; }
double frexp(double x, int *e) { return x; }
float frexpf(float x, int *e) { return x; }
double ldexp(double x, int e) { return x; }
float ldexpf(float x, int e) { return x; }
double scalbn(double x, int e) { return x; }
double fma(double x, double y, double z) { return x; }
long lround(double x) { return 0; }
long lrint(double x) { return 0; }
long long llround(double x) { return 0; }
long long llrint(double x) { return 0; }
int ilogb(double x) { return 0; }
int __isnan(double x) { return 0; }
int __isnanf(float x) { return 0; }
int __isinf(double x) { return 0; }
int __isinff(float x) { return 0; }
int __finite(double x) { return 0; }
int __finitef(float x) { return 0; }
int __signbit(double x) { return 0; }
int __fpclassify(double x) { return 0; }
#undef isnan
#undef isinf
int isnan(double x) { return 0; }
int isinf(double x) { return 0; }
int finite(double x) { return 0; }
