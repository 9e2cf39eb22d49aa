/*
 * Clears what a call with a secret has left behind: the part of the stack that it used, and the general-purpose,
 * floating-point and vector registers that a function need not preserve (caller-saved registers).
 *
 * For x86-64 and AArch64 with ELF, this is assembly, because C code cannot control which registers and which part of
 * the stack the compiler uses. The registers are cleared first: if a signal arrives after that, the system saves
 * cleared registers on the stack. The stack is written downwards. So if too little of the stack is left, the first
 * access that fails is in the guard page.
 *
 * Other processors and systems use C code, which clears the stack, and for some processors also the registers. On all
 * others, a register keeps its value until it is used again.
 *
 * SPDX-License-Identifier: MIT
 */
#include "clearing.h"

#define TEXT_OF(number) #number
#define AS_TEXT(number) TEXT_OF(number)

#if defined(__ELF__) && defined(__GNUC__) && !defined(__TINYC__) && defined(__x86_64__) && defined(__LP64__)

#include <cpuid.h>

/* The instruction with which the target of an indirect call must begin, if this is compiled with -fcf-protection. */
#if defined(__CET__) && (__CET__ & 1) != 0
#define LANDING "endbr64\n"
#else
#define LANDING ""
#endif

/* True if the processor has the registers of AVX or AVX-512, and the system saves them. Set once, before main. The
 * attribute `used` keeps the compiler from removing them, because only assembly reads them. */
__attribute__((visibility("hidden"), used)) unsigned char minisign_has_avx, minisign_has_avx512;

__attribute__((constructor)) static void detect_registers(void)
{
    unsigned a, b, c, d, xcr0, xcr0_high;

    if (!__get_cpuid(1, &a, &b, &c, &d) || (c & bit_OSXSAVE) == 0 || (c & bit_AVX) == 0) {
        return;
    }
    /* XCR0, bits 1 and 2: SSE and AVX registers; bits 5 to 7: AVX-512 registers. */
    __asm__ __volatile__("xgetbv" : "=a"(xcr0), "=d"(xcr0_high) : "c"(0));
    minisign_has_avx = (xcr0 & 0x6) == 0x6;
    minisign_has_avx512 = (xcr0 & 0xe6) == 0xe6 && __get_cpuid_count(7, 0, &a, &b, &c, &d) && (b & bit_AVX512F) != 0;
}

__asm__(".text\n"
        ".globl minisign_clear_used\n"
        ".hidden minisign_clear_used\n"
        ".type minisign_clear_used, @function\n"
        "minisign_clear_used:\n"
        ".cfi_startproc\n"
        LANDING
        "cmpb $0, minisign_has_avx512(%rip)\n"
        "je 1f\n"
        ".irp number, 16, 17, 18, 19, 20, 21, 22, 23, 24, 25, 26, 27, 28, 29, 30, 31\n"
        "vpxorq %zmm\\number, %zmm\\number, %zmm\\number\n"
        ".endr\n"
        "1:\n"
        "cmpb $0, minisign_has_avx(%rip)\n"
        "je 2f\n"
        "vzeroall\n"
        "2:\n"
        ".irp number, 0, 1, 2, 3, 4, 5, 6, 7, 8, 9, 10, 11, 12, 13, 14, 15\n"
        "pxor %xmm\\number, %xmm\\number\n"
        ".endr\n"
        ".irp name, eax, edx, esi, edi, r8d, r9d, r10d, r11d\n"
        "xorl %\\name, %\\name\n"
        ".endr\n"
        "movl $" AS_TEXT(CLEARED_BYTES) " / 64, %ecx\n"
        "movq %rsp, %rdi\n"
        "subq $" AS_TEXT(CLEARED_BYTES) ", %rsp\n"
        ".cfi_adjust_cfa_offset " AS_TEXT(CLEARED_BYTES) "\n"
        "3:\n"
        "subq $64, %rdi\n"
        "movups %xmm0, 48(%rdi)\n"
        "movups %xmm0, 32(%rdi)\n"
        "movups %xmm0, 16(%rdi)\n"
        "movups %xmm0, (%rdi)\n"
        "decl %ecx\n"
        "jnz 3b\n"
        "addq $" AS_TEXT(CLEARED_BYTES) ", %rsp\n"
        ".cfi_adjust_cfa_offset -" AS_TEXT(CLEARED_BYTES) "\n"
        "ret\n"
        ".cfi_endproc\n"
        ".size minisign_clear_used, . - minisign_clear_used\n");

#elif defined(__ELF__) && defined(__GNUC__) && defined(__aarch64__) && defined(__LP64__)

/* The instruction with which the target of an indirect call must begin, if this is compiled with
 * -mbranch-protection. */
#ifdef __ARM_FEATURE_BTI_DEFAULT
#define LANDING "hint #34\n"
#else
#define LANDING ""
#endif

/* Only the upper halves of v8 to v15 are cleared, because a function has to preserve the lower halves. */
__asm__(".text\n"
        ".globl minisign_clear_used\n"
        ".hidden minisign_clear_used\n"
        ".type minisign_clear_used, %function\n"
        ".balign 4\n"
        "minisign_clear_used:\n"
        ".cfi_startproc\n"
        LANDING
        ".irp number, 0, 1, 2, 3, 4, 5, 6, 7, 16, 17, 18, 19, 20, 21, 22, 23, 24, 25, 26, 27, 28, 29, 30, 31\n"
        "movi v\\number\\().2d, #0\n"
        ".endr\n"
        ".irp number, 8, 9, 10, 11, 12, 13, 14, 15\n"
        "mov v\\number\\().d[1], xzr\n"
        ".endr\n"
        ".irp number, 0, 1, 2, 3, 4, 5, 6, 7, 8, 11, 12, 13, 14, 15, 16, 17\n"
        "mov x\\number, xzr\n"
        ".endr\n"
        "mov x9, sp\n"
        "mov w10, #" AS_TEXT(CLEARED_BYTES) " / 64\n"
        "sub sp, sp, #" AS_TEXT(CLEARED_BYTES) "\n"
        ".cfi_adjust_cfa_offset " AS_TEXT(CLEARED_BYTES) "\n"
        "1:\n"
        "stp xzr, xzr, [x9, #-16]!\n"
        "stp xzr, xzr, [x9, #-16]!\n"
        "stp xzr, xzr, [x9, #-16]!\n"
        "stp xzr, xzr, [x9, #-16]!\n"
        "subs w10, w10, #1\n"
        "b.ne 1b\n"
        "add sp, sp, #" AS_TEXT(CLEARED_BYTES) "\n"
        ".cfi_adjust_cfa_offset -" AS_TEXT(CLEARED_BYTES) "\n"
        "ret\n"
        ".cfi_endproc\n"
        ".size minisign_clear_used, . - minisign_clear_used\n");

#else

#include <stdint.h>

/* Clears the caller-saved registers, on the processors for which there is code here. */
static inline void clear_registers(void)
{
#if defined(__s390x__)
    __asm__ __volatile__(".irp number, 0, 1, 2, 3, 4, 5\n"
                         "lghi %%r\\number, 0\n"
                         ".endr\n"
                         ".irp number, 0, 1, 2, 3, 4, 5, 6, 7\n"
                         "lzdr %%f\\number\n"
                         ".endr\n"
                         : : : "0", "1", "2", "3", "4", "5", "f0", "f1", "f2", "f3", "f4", "f5", "f6", "f7");
#elif defined(__riscv) && __riscv_xlen == 64 && __riscv_flen == 64
    __asm__ __volatile__(".irp name, t0, t1, t2, t3, t4, t5, t6, a0, a1, a2, a3, a4, a5, a6, a7\n"
                         "li \\name, 0\n"
                         ".endr\n"
                         ".irp name, ft0, ft1, ft2, ft3, ft4, ft5, ft6, ft7, ft8, ft9, ft10, ft11, "
                         "fa0, fa1, fa2, fa3, fa4, fa5, fa6, fa7\n"
                         "fmv.d.x \\name, zero\n"
                         ".endr\n"
                         : : : "t0", "t1", "t2", "t3", "t4", "t5", "t6", "a0", "a1", "a2", "a3", "a4", "a5", "a6", "a7",
                           "ft0", "ft1", "ft2", "ft3", "ft4", "ft5", "ft6", "ft7", "ft8", "ft9", "ft10", "ft11", "fa0",
                           "fa1", "fa2", "fa3", "fa4", "fa5", "fa6", "fa7");
#elif defined(__arm__) && defined(__ARM_PCS_VFP)
    __asm__ __volatile__(".irp name, r0, r1, r2, r3, r12\n"
                         "mov \\name, #0\n"
                         ".endr\n"
                         ".irp number, 0, 1, 2, 3, 4, 5, 6, 7\n"
                         "vmov d\\number, r0, r0\n"
                         ".endr\n"
                         : : : "r0", "r1", "r2", "r3", "r12", "d0", "d1", "d2", "d3", "d4", "d5", "d6", "d7");
#endif
}

/* The array is volatile, so that the compiler writes all of it, and downwards. The function is not inlined, because the
 * array must be below the caller's frame, where the call with the secret had its frame. */
#ifdef __GNUC__
__attribute__((noinline))
#endif
void minisign_clear_used(void)
{
    volatile uint64_t used[CLEARED_BYTES / sizeof(uint64_t)];

    clear_registers();
    for (unsigned i = sizeof used / sizeof *used; i > 0; i--) {
        used[i - 1] = 0;
    }
}

#endif
