/* What the C library's headers need of a compiler that comes without its own. */
#ifndef STDARG_H
#define STDARG_H
typedef __builtin_va_list va_list;
typedef __builtin_va_list __gnuc_va_list;
#endif
