# On x86-64 the library stands twice in a program: as proved/x86_64.s, for every processor, and as proved/x86_64-v3.s, for those that
# have AVX2 and what came with it. Each name of the header stands here, and jumps to one of the two.
#
# The choice is made where the program starts or loads the library, before it has a thread that could change the environment, and by the
# first call where that comes earlier still. Every call after it takes one comparison and a jump. The better one is taken where the
# processor has all of x86-64-v3 and the operating system keeps the wide registers (CPUID and XGETBV, as Intel's manual has it).
# LUOSSAVIN_VARIANT=x86_64 in the environment of the process takes the plain one in any case; it is for tests. Any other value is ignored,
# and so is the variable in a program that runs with more rights than its caller (set-user-ID): secure_getenv says that there is none.
#
# Nothing here is proved: it is tested (host/variants). All arguments are passed on as they came, in registers and on the stack.

# 0: not chosen yet; 1: x86_64; 2: x86_64-v3. Threads that choose at once choose the same. Programs that link the archive can look at it,
# as the tests do; the shared library does not export it.
	.section	.bss.luossavin_variant,"aw",@nobits
	.p2align	2
	.globl	luossavin_variant
	.hidden	luossavin_variant
	.type	luossavin_variant,@object
	.size	luossavin_variant, 4
luossavin_variant:
	.zero	4

	.section	.rodata.luossavin_variant,"a",@progbits
.Lluossavin_choose.name:
	.asciz	"LUOSSAVIN_VARIANT"
.Lluossavin_choose.plain:
	.asciz	"x86_64"

	.section	.text.luossavin_choose,"ax",@progbits
	.p2align	4
	.type	luossavin_choose,@function
# Chooses. It leaves every register as it was that an argument can stand in.
luossavin_choose:
	pushq	%rbp
	movq	%rsp, %rbp
	pushq	%rbx
	pushq	%rdi
	pushq	%rsi
	pushq	%rdx
	pushq	%rcx
	pushq	%r8
	pushq	%r9
	andq	$-16, %rsp
	subq	$16, %rsp
	movl	$1, 12(%rsp)

	# the variable, where there is one
	leaq	.Lluossavin_choose.name(%rip), %rdi
	call	secure_getenv@PLT
	testq	%rax, %rax
	je	1f
	movq	%rax, %rdi
	leaq	.Lluossavin_choose.plain(%rip), %rsi
	call	strcmp@PLT
	testl	%eax, %eax
	je	9f

1:	# leaf 1, ECX: SSE3 0, SSSE3 9, FMA 12, CMPXCHG16B 13, SSE4.1 19, SSE4.2 20, MOVBE 22, POPCNT 23, OSXSAVE 27, AVX 28, F16C 29
	xorl	%eax, %eax
	cpuid
	cmpl	$7, %eax
	jb	9f
	movl	$1, %eax
	xorl	%ecx, %ecx
	cpuid
	andl	$0x38d83201, %ecx
	cmpl	$0x38d83201, %ecx
	jne	9f
	# XCR0: the system keeps the registers of SSE (1) and of AVX (2)
	xorl	%ecx, %ecx
	xgetbv
	andl	$6, %eax
	cmpl	$6, %eax
	jne	9f
	# leaf 7, EBX: BMI1 3, AVX2 5, BMI2 8
	movl	$7, %eax
	xorl	%ecx, %ecx
	cpuid
	andl	$0x128, %ebx
	cmpl	$0x128, %ebx
	jne	9f
	# leaf 0x80000001, ECX: LAHF 0, LZCNT 5
	movl	$0x80000000, %eax
	cpuid
	cmpl	$0x80000001, %eax
	jb	9f
	movl	$0x80000001, %eax
	cpuid
	andl	$0x21, %ecx
	cmpl	$0x21, %ecx
	jne	9f
	movl	$2, 12(%rsp)

9:	movl	12(%rsp), %eax
	movl	%eax, luossavin_variant(%rip)
	leaq	-56(%rbp), %rsp
	popq	%r9
	popq	%r8
	popq	%rcx
	popq	%rdx
	popq	%rsi
	popq	%rdi
	popq	%rbx
	popq	%rbp
	ret
	.size	luossavin_choose, .-luossavin_choose

	.section	.init_array,"aw",@init_array
	.p2align	3
	.quad	luossavin_choose

	.macro	luossavin_exported name
	.section	.text.luossavin_\name,"ax",@progbits
	.p2align	4
	.globl	luossavin_\name
	.type	luossavin_\name,@function
luossavin_\name:
	cmpl	$1, luossavin_variant(%rip)
	ja	luossavin_\name\()_x86_64_v3
	je	luossavin_\name\()_x86_64
	call	luossavin_choose
	jmp	luossavin_\name
	.size	luossavin_\name, .-luossavin_\name
	.endm

	luossavin_exported	key_new
	luossavin_exported	key_retire
	luossavin_exported	key_engine
	luossavin_exported	block_encrypt
	luossavin_exported	block_decrypt
	luossavin_exported	encrypt
	luossavin_exported	decrypt
	luossavin_exported	label
	luossavin_exported	edition_seal
	luossavin_exported	edition_open
	luossavin_exported	edition_opens
	luossavin_exported	ctr_start
	luossavin_exported	ctr_piece
	luossavin_exported	ctr_end
	luossavin_exported	seal_start
	luossavin_exported	seal_piece
	luossavin_exported	seal_end
	luossavin_exported	opens_start
	luossavin_exported	opens_piece
	luossavin_exported	opens_end
	luossavin_exported	which
	luossavin_exported	plan_make
	luossavin_exported	plan_accepts
	luossavin_exported	ctr_range
	luossavin_exported	ctr_by_plan
	luossavin_exported	shelf_put
	luossavin_exported	shelf_find
	luossavin_exported	shelf_collect
	luossavin_exported	record
	luossavin_exported	replay
	luossavin_exported	hash_blocks
	luossavin_exported	hash_join

	.purgem	luossavin_exported
	.section	.note.GNU-stack,"",@progbits
	.text
