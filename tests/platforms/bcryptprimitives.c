// The one function of bcryptprimitives.dll that Rust's std calls, over the system's other source of random bytes. wine 8 lacks that library.
#include <windows.h>
#include <ntsecapi.h>

__declspec(dllexport) BOOL WINAPI ProcessPrng(PBYTE bytes, SIZE_T count) { return RtlGenRandom(bytes, (ULONG)count); }
