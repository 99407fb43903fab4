//go:build !listset

#include "textflag.h"

// onTimer handles the signal of a timer. It runs on the stopped thread, and calls no Go code. The signal's value is the
// address of a `stopped`, whose fields have the offsets 0, 4, 8, 12, 16 and 24.
TEXT ·onTimer(SB), NOSPLIT|NOFRAME, $0-0
	MOVQ 24(SI), R12 // the value in the siginfo
	CMPL 0(R12), $0
	JNE  inCall
	MOVL $1, 4(R12)
	RET

inCall:
	MOVL 8(R12), R13
	MOVQ 16(R12), R14
	MOVL 0(R14), R15

sleep:
	LEAQ 24(R12), DI
	MOVL $0, SI
	MOVL $35, AX // nanosleep
	SYSCALL
	DECL R13
	JZ   awake
	MOVL 0(R14), AX
	SUBL R15, AX
	CMPL AX, 12(R12)
	JCS  sleep

awake:
	RET

// afterSignal ends a signal handler.
TEXT ·afterSignal(SB), NOSPLIT|NOFRAME, $0-0
	MOVL $15, AX // rt_sigreturn
	SYSCALL
	INT  $3

// func handlers() (handler, restorer uintptr)
TEXT ·handlers(SB), NOSPLIT, $0-16
	LEAQ ·onTimer(SB), AX
	MOVQ AX, handler+0(FP)
	LEAQ ·afterSignal(SB), AX
	MOVQ AX, restorer+8(FP)
	RET
