/* C++, and C from C23 on, have these words already. */
#if !defined(__cplusplus) && __STDC_VERSION__ <= 201710L
#define bool _Bool
#define true 1
#define false 0
#endif
