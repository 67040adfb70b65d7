/* <bzlib.h>: what a stream's allocator is asked for, and files that are given. Bytes don't matter. */
#if __has_include(<bzlib.h>)
#include <stdio.h>
#include <stdlib.h>
#include <bzlib.h>
static char pta_bzip_text[9];
static int pta_begin_bzip(bz_stream *s)
{
  if (s->bzalloc)
    s->state = s->bzalloc(s->opaque, 1, 1);
  return 0;
}
static int pta_end_bzip(bz_stream *s)
{
  if (s->bzfree)
    s->bzfree(s->opaque, s->state);
  return 0;
}
int BZ2_bzCompressInit(bz_stream *s, int a, int b, int c) { return pta_begin_bzip(s); }
int BZ2_bzCompress(bz_stream *s, int n) { return 0; }
int BZ2_bzCompressEnd(bz_stream *s) { return pta_end_bzip(s); }
int BZ2_bzDecompressInit(bz_stream *s, int a, int b) { return pta_begin_bzip(s); }
int BZ2_bzDecompress(bz_stream *s) { return 0; }
int BZ2_bzDecompressEnd(bz_stream *s) { return pta_end_bzip(s); }
BZFILE *BZ2_bzReadOpen(int *e, FILE *f, int a, int b, void *u, int n) { return malloc(1); }
void BZ2_bzReadClose(int *e, BZFILE *f) { }
void BZ2_bzReadGetUnused(int *e, BZFILE *f, void **u, int *n) { *u = f; }
int BZ2_bzRead(int *e, BZFILE *f, void *b, int n) { return 0; }
BZFILE *BZ2_bzWriteOpen(int *e, FILE *f, int a, int b, int c) { return malloc(1); }
void BZ2_bzWrite(int *e, BZFILE *f, void *b, int n) { }
void BZ2_bzWriteClose(int *e, BZFILE *f, int a, unsigned *m, unsigned *n) { }
void BZ2_bzWriteClose64(int *e, BZFILE *f, int a, unsigned *k, unsigned *l, unsigned *m, unsigned *n) { }
int BZ2_bzBuffToBuffCompress(char *a, unsigned *n, char *b, unsigned m, int c, int d, int e) { return 0; }
int BZ2_bzBuffToBuffDecompress(char *a, unsigned *n, char *b, unsigned m, int c, int d) { return 0; }
const char *BZ2_bzlibVersion(void) { return pta_bzip_text; }
BZFILE *BZ2_bzopen(const char *s, const char *m) { return malloc(1); }
BZFILE *BZ2_bzdopen(int n, const char *m) { return malloc(1); }
int BZ2_bzread(BZFILE *f, void *b, int n) { return 0; }
int BZ2_bzwrite(BZFILE *f, void *b, int n) { return 0; }
int BZ2_bzflush(BZFILE *f) { return 0; }
void BZ2_bzclose(BZFILE *f) { }
const char *BZ2_bzerror(BZFILE *f, int *n) { return pta_bzip_text; }
#endif
