/* <zlib.h>: what a stream's allocator is asked for, and files that are given. Bytes don't matter. */
#if __has_include(<zlib.h>)
#include <stdarg.h>
#include <stdlib.h>
#include <string.h>
#include <zlib.h>
static char pta_zip_text[9];
static int pta_begin_zip(z_streamp s)
{
  s->msg = pta_zip_text;
  if (s->zalloc)
    s->state = s->zalloc(s->opaque, 1, 1);
  return 0;
}
static int pta_end_zip(z_streamp s)
{
  if (s->zfree)
    s->zfree(s->opaque, s->state);
  return 0;
}
int deflateInit_(z_streamp s, int a, const char *v, int n) { return pta_begin_zip(s); }
int deflateInit2_(z_streamp s, int a, int b, int c, int d, int e, const char *v, int n) { return pta_begin_zip(s); }
int inflateInit_(z_streamp s, const char *v, int n) { return pta_begin_zip(s); }
int inflateInit2_(z_streamp s, int a, const char *v, int n) { return pta_begin_zip(s); }
int inflateBackInit_(z_streamp s, int a, unsigned char *w, const char *v, int n) { return pta_begin_zip(s); }
int deflateEnd(z_streamp s) { return pta_end_zip(s); }
int inflateEnd(z_streamp s) { return pta_end_zip(s); }
int inflateBackEnd(z_streamp s) { return pta_end_zip(s); }
int deflate(z_streamp s, int n) { return 0; }
int inflate(z_streamp s, int n) { return 0; }
int inflateBack(z_streamp s, in_func give, void *a, out_func take, void *b)
{
  unsigned char *found;
  give(a, &found);
  s->next_in = found;
  return take(b, found, 0);
}
int deflateReset(z_streamp s) { return 0; }
int inflateReset(z_streamp s) { return 0; }
int inflateReset2(z_streamp s, int n) { return 0; }
int inflateSync(z_streamp s) { return 0; }
int deflateParams(z_streamp s, int a, int b) { return 0; }
int deflateSetDictionary(z_streamp s, const Bytef *d, uInt n) { return 0; }
int inflateSetDictionary(z_streamp s, const Bytef *d, uInt n) { return 0; }
int deflateSetHeader(z_streamp s, gz_headerp h) { return 0; }
int inflateGetHeader(z_streamp s, gz_headerp h) { return 0; }
int deflateCopy(z_streamp a, z_streamp b) { *a = *b; return pta_begin_zip(a); }
int inflateCopy(z_streamp a, z_streamp b) { *a = *b; return pta_begin_zip(a); }
uLong deflateBound(z_streamp s, uLong n) { return n; }
uLong compressBound(uLong n) { return n; }
int compress(Bytef *a, uLongf *n, const Bytef *b, uLong m) { return 0; }
int compress2(Bytef *a, uLongf *n, const Bytef *b, uLong m, int l) { return 0; }
int uncompress(Bytef *a, uLongf *n, const Bytef *b, uLong m) { return 0; }
uLong adler32(uLong n, const Bytef *b, uInt m) { return n; }
uLong crc32(uLong n, const Bytef *b, uInt m) { return n; }
uLong crc32_combine(uLong a, uLong b, z_off_t n) { return a; }
const char *zlibVersion(void) { return pta_zip_text; }
uLong zlibCompileFlags(void) { return 0; }
const char *zError(int n) { return pta_zip_text; }
gzFile gzopen(const char *s, const char *m) { return malloc(sizeof(struct gzFile_s)); }
gzFile gzdopen(int n, const char *m) { return malloc(sizeof(struct gzFile_s)); }
int gzbuffer(gzFile f, unsigned n) { return 0; }
int gzsetparams(gzFile f, int a, int b) { return 0; }
int gzread(gzFile f, voidp b, unsigned n) { return 0; }
int gzwrite(gzFile f, voidpc b, unsigned n) { return 0; }
int gzputs(gzFile f, const char *s) { return 0; }
char *gzgets(gzFile f, char *b, int n) { return b; }
int gzputc(gzFile f, int c) { return c; }
int gzungetc(int c, gzFile f) { return c; }
int gzflush(gzFile f, int n) { return 0; }
z_off_t gzseek(gzFile f, z_off_t n, int w) { return 0; }
z_off_t gztell(gzFile f) { return 0; }
int gzrewind(gzFile f) { return 0; }
int gzeof(gzFile f) { return 0; }
int gzdirect(gzFile f) { return 0; }
int gzclose(gzFile f) { return 0; }
int gzclose_r(gzFile f) { return 0; }
int gzclose_w(gzFile f) { return 0; }
const char *gzerror(gzFile f, int *n) { return pta_zip_text; }
void gzclearerr(gzFile f) { }
#undef gzgetc
int gzgetc(gzFile f) { return 0; }
int gzprintf(gzFile f, const char *s, ...) { return 0; }
#endif
