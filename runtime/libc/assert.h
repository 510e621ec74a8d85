// <assert.h>: an assertion that does not hold aborts the guest. As C has it, the header may be included again, behind
// another meaning of NDEBUG.
#undef assert
#ifdef NDEBUG
#define assert(holds) ((void)0)
#else
_Noreturn void abort(void);
#define assert(holds) ((holds) ? (void)0 : abort())
#endif
#ifndef static_assert
#define static_assert _Static_assert
#endif
