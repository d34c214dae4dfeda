	.file	"rattle"
	.section	".text.cipher_mode::Sm4Cipher::call.x86_64","ax",@progbits
	.p2align	4
	.type	"cipher_mode::Sm4Cipher::call.x86_64",@function
"cipher_mode::Sm4Cipher::call.x86_64":
	pushq	%rbp
	pushq	%r15
	pushq	%r14
	pushq	%r13
	pushq	%r12
	pushq	%rbx
	subq	$168, %rsp
	movzbl	128(%rsi), %ebp
	movzwl	130(%rsi), %ebx
	testl	%ebp, %ebp
	je	.Lluossavin_x86_64.BB0_3
	cmpl	$1, %ebp
	jne	.Lluossavin_x86_64.BB0_7
	xorl	%eax, %eax
	movl	%ebp, %r14d
	jmp	.Lluossavin_x86_64.BB0_9
.Lluossavin_x86_64.BB0_3:
	movb	$1, %r14b
	cmpq	$16, %r8
	jne	.Lluossavin_x86_64.BB0_8
	movzbl	133(%rsi), %r13d
	testb	%dl, %dl
	jne	.Lluossavin_x86_64.BB0_11
	testb	$1, 132(%rsi)
	je	.Lluossavin_x86_64.BB0_11
	xorl	%ecx, %ecx
	movb	$12, %al
	jmp	.Lluossavin_x86_64.BB0_10
.Lluossavin_x86_64.BB0_7:
	movb	$11, %al
	movb	$1, %r14b
	jmp	.Lluossavin_x86_64.BB0_9
.Lluossavin_x86_64.BB0_8:
	movb	$9, %al
.Lluossavin_x86_64.BB0_9:
	xorl	%ecx, %ecx
.Lluossavin_x86_64.BB0_10:
	xorl	%edx, %edx
	testb	%bpl, %bpl
	cmovnel	%edx, %ebx
	movb	%r14b, (%rdi)
	movb	%al, 1(%rdi)
	movl	$0, 2(%rdi)
	movw	$0, 6(%rdi)
	movq	%rcx, 8(%rdi)
	movq	$0, 16(%rdi)
	movw	%bx, 24(%rdi)
	movl	$0, 26(%rdi)
	movw	$0, 30(%rdi)
	addq	$168, %rsp
	popq	%rbx
	popq	%r12
	popq	%r13
	popq	%r14
	popq	%r15
	popq	%rbp
	retq
.Lluossavin_x86_64.BB0_11:
	cmpq	$16, 224(%rsp)
	jae	.Lluossavin_x86_64.BB0_13
	movb	$5, %al
	jmp	.Lluossavin_x86_64.BB0_9
.Lluossavin_x86_64.BB0_13:
	movq	%r9, %r12
	movq	%rdi, %r15
	xorps	%xmm0, %xmm0
	movaps	%xmm0, (%rsp)
	movups	(%rsi), %xmm0
	movups	16(%rsi), %xmm1
	movdqu	32(%rsi), %xmm2
	movups	48(%rsi), %xmm3
	movaps	%xmm0, 32(%rsp)
	movaps	%xmm1, 48(%rsp)
	movdqa	%xmm2, 64(%rsp)
	movaps	%xmm3, 80(%rsp)
	movups	64(%rsi), %xmm0
	movaps	%xmm0, 96(%rsp)
	movups	80(%rsi), %xmm0
	movaps	%xmm0, 112(%rsp)
	movups	96(%rsi), %xmm0
	movaps	%xmm0, 128(%rsp)
	movups	112(%rsi), %xmm0
	movaps	%xmm0, 144(%rsp)
	cmpb	$1, %dl
	jne	.Lluossavin_x86_64.BB0_15
	leaq	96(%rsp), %rsi
	leaq	32(%rsp), %rdi
	movq	%rcx, %r14
	callq	"core::slice::edits::mirror::<i32>.x86_64"
	movq	%r14, %rcx
.Lluossavin_x86_64.BB0_15:
	decb	%r13b
	xorl	%r14d, %r14d
	cmpb	$3, %r13b
	movzbl	%r13b, %esi
	cmovael	%r14d, %esi
	movdqu	(%rcx), %xmm0
	movdqa	%xmm0, %xmm1
	pxor	%xmm2, %xmm2
	punpckhbw	%xmm2, %xmm1
	pshuflw	$27, %xmm1, %xmm1
	pshufhw	$27, %xmm1, %xmm1
	punpcklbw	%xmm2, %xmm0
	pshuflw	$27, %xmm0, %xmm0
	pshufhw	$27, %xmm0, %xmm0
	packuswb	%xmm1, %xmm0
	movdqa	%xmm0, 16(%rsp)
	movq	%rsp, %rdi
	leaq	32(%rsp), %rdx
	leaq	16(%rsp), %rcx
	callq	"cipher::encrypt.x86_64"
	movdqa	(%rsp), %xmm0
	movdqa	%xmm0, %xmm1
	pxor	%xmm2, %xmm2
	punpckhbw	%xmm2, %xmm1
	pshuflw	$27, %xmm1, %xmm1
	pshufhw	$27, %xmm1, %xmm1
	punpcklbw	%xmm2, %xmm0
	pshuflw	$27, %xmm0, %xmm0
	pshufhw	$27, %xmm0, %xmm0
	packuswb	%xmm1, %xmm0
	movdqu	%xmm0, (%r12)
	movl	$16, %ecx
	xorl	%eax, %eax
	movq	%r15, %rdi
	jmp	.Lluossavin_x86_64.BB0_10
.Lluossavin_x86_64.func_end0:
	.size	"cipher_mode::Sm4Cipher::call.x86_64", .Lluossavin_x86_64.func_end0-"cipher_mode::Sm4Cipher::call.x86_64"

	.section	".text.core::slice::edits::mirror::<i32>.x86_64","ax",@progbits
	.p2align	4
	.type	"core::slice::edits::mirror::<i32>.x86_64",@function
"core::slice::edits::mirror::<i32>.x86_64":
	movl	(%rdi), %eax
	movl	60(%rsi), %ecx
	movl	%ecx, (%rdi)
	movl	%eax, 60(%rsi)
	movl	4(%rdi), %eax
	movl	56(%rsi), %ecx
	movl	%ecx, 4(%rdi)
	movl	%eax, 56(%rsi)
	movl	8(%rdi), %eax
	movl	52(%rsi), %ecx
	movl	%ecx, 8(%rdi)
	movl	%eax, 52(%rsi)
	movl	12(%rdi), %eax
	movl	48(%rsi), %ecx
	movl	%ecx, 12(%rdi)
	movl	%eax, 48(%rsi)
	movl	16(%rdi), %eax
	movl	44(%rsi), %ecx
	movl	%ecx, 16(%rdi)
	movl	%eax, 44(%rsi)
	movl	20(%rdi), %eax
	movl	40(%rsi), %ecx
	movl	%ecx, 20(%rdi)
	movl	%eax, 40(%rsi)
	movl	24(%rdi), %eax
	movl	36(%rsi), %ecx
	movl	%ecx, 24(%rdi)
	movl	%eax, 36(%rsi)
	movl	28(%rdi), %eax
	movl	32(%rsi), %ecx
	movl	%ecx, 28(%rdi)
	movl	%eax, 32(%rsi)
	movl	32(%rdi), %eax
	movl	28(%rsi), %ecx
	movl	%ecx, 32(%rdi)
	movl	%eax, 28(%rsi)
	movl	36(%rdi), %eax
	movl	24(%rsi), %ecx
	movl	%ecx, 36(%rdi)
	movl	%eax, 24(%rsi)
	movl	40(%rdi), %eax
	movl	20(%rsi), %ecx
	movl	%ecx, 40(%rdi)
	movl	%eax, 20(%rsi)
	movl	44(%rdi), %eax
	movl	16(%rsi), %ecx
	movl	%ecx, 44(%rdi)
	movl	%eax, 16(%rsi)
	movl	48(%rdi), %eax
	movl	12(%rsi), %ecx
	movl	%ecx, 48(%rdi)
	movl	%eax, 12(%rsi)
	movl	52(%rdi), %eax
	movl	8(%rsi), %ecx
	movl	%ecx, 52(%rdi)
	movl	%eax, 8(%rsi)
	movl	56(%rdi), %eax
	movl	4(%rsi), %ecx
	movl	%ecx, 56(%rdi)
	movl	%eax, 4(%rsi)
	movl	60(%rdi), %eax
	movl	(%rsi), %ecx
	movl	%ecx, 60(%rdi)
	movl	%eax, (%rsi)
	retq
.Lluossavin_x86_64.func_end1:
	.size	"core::slice::edits::mirror::<i32>.x86_64", .Lluossavin_x86_64.func_end1-"core::slice::edits::mirror::<i32>.x86_64"

	.section	".text.cipher::encrypt.x86_64","ax",@progbits
	.p2align	4
	.type	"cipher::encrypt.x86_64",@function
"cipher::encrypt.x86_64":
	pushq	%rbp
	pushq	%r15
	pushq	%r14
	pushq	%r13
	pushq	%r12
	pushq	%rbx
	subq	$120, %rsp
	movq	%rdi, %r11
	movl	(%rcx), %r14d
	movl	4(%rcx), %r15d
	movl	8(%rcx), %ebp
	movl	12(%rcx), %r10d
	cmpb	$2, %sil
	je	.Lluossavin_x86_64.BB2_9
	movzbl	%sil, %eax
	cmpl	$1, %eax
	jne	.Lluossavin_x86_64.BB2_2
	movq	%r11, 88(%rsp)
	movups	112(%rdx), %xmm0
	movaps	%xmm0, 64(%rsp)
	movups	96(%rdx), %xmm0
	movaps	%xmm0, 48(%rsp)
	movups	80(%rdx), %xmm0
	movaps	%xmm0, 32(%rsp)
	movups	64(%rdx), %xmm0
	movaps	%xmm0, 16(%rsp)
	movups	(%rdx), %xmm0
	movups	16(%rdx), %xmm1
	movups	32(%rdx), %xmm2
	movups	48(%rdx), %xmm3
	movaps	%xmm3, (%rsp)
	movaps	%xmm2, -16(%rsp)
	movaps	%xmm1, -32(%rsp)
	movaps	%xmm0, -48(%rsp)
	leaq	-48(%rsp), %rax
	movl	$32, %ecx
	.p2align	4
.Lluossavin_x86_64.BB2_6:
	movq	%rcx, 96(%rsp)
	xorl	%ecx, %ecx
	movq	%rax, -56(%rsp)
	.p2align	4
.Lluossavin_x86_64.BB2_7:
	movq	%rcx, 112(%rsp)
	movl	%r14d, -60(%rsp)
	movl	%r15d, -72(%rsp)
	movl	%ebp, -64(%rsp)
	movl	%r10d, -68(%rsp)
	movq	-56(%rsp), %rax
	movl	(%rax,%rcx,4), %eax
	movl	%ebp, %ecx
	xorl	%r10d, %eax
	xorl	%r15d, %ecx
	xorl	%eax, %ecx
	movl	%ecx, %r13d
	shrl	%r13d
	movl	%ecx, %ebx
	shrl	$3, %ebx
	movl	%ecx, %edx
	shrl	$4, %edx
	movl	%ecx, %r8d
	movl	%ecx, %r10d
	shrl	$7, %r10d
	shrl	$5, %r8d
	movl	%r8d, %r14d
	movl	%r10d, %edi
	xorl	%edx, %edi
	xorl	%ebx, %r14d
	movl	%edi, %eax
	movq	%rdi, %r11
	xorl	%ecx, %eax
	movl	%r14d, %r15d
	xorl	%ecx, %r15d
	movl	%ecx, %r9d
	shrl	$2, %r9d
	movl	%eax, %edi
	xorl	%ebx, %edi
	movl	%edi, -120(%rsp)
	xorl	%r9d, %edx
	movl	%r15d, %edi
	xorl	%edx, %edi
	movl	%edi, -108(%rsp)
	xorl	%r13d, %ebx
	xorl	%edx, %ebx
	movl	%ebx, -104(%rsp)
	movl	%r11d, -116(%rsp)
	xorl	%r8d, %r11d
	movq	%r11, %rdi
	movq	%r11, 104(%rsp)
	xorl	%r13d, %r8d
	movl	%r8d, %r11d
	xorl	%ecx, %r11d
	movl	%r11d, -76(%rsp)
	movl	%ecx, %r12d
	shrl	$6, %r12d
	movl	%r12d, %edx
	xorl	%r14d, %r12d
	movl	%r14d, %ebx
	movl	%r14d, %ebp
	andl	%ecx, %r14d
	notl	%ecx
	movl	%ecx, -80(%rsp)
	andl	%ecx, %ebp
	movl	%edi, %ecx
	andl	%r11d, %ecx
	xorl	%r13d, %ebp
	xorl	%ecx, %ebp
	xorl	%eax, %ebp
	movl	%eax, %r11d
	movl	%r9d, -100(%rsp)
	xorl	%r9d, %edx
	xorl	%r10d, %ebx
	xorl	%r9d, %r11d
	movl	%edx, %ecx
	xorl	%r13d, %ecx
	movl	%ecx, -124(%rsp)
	movl	%r13d, -112(%rsp)
	movl	%r15d, -96(%rsp)
	movl	%r15d, %edi
	xorl	%edx, %edi
	movl	%edi, -92(%rsp)
	movl	%edx, %r9d
	movl	-116(%rsp), %eax
	movl	%r8d, -128(%rsp)
	xorl	%r8d, %eax
	movl	%eax, -116(%rsp)
	movl	%r11d, %esi
	xorl	%r8d, %esi
	movl	%esi, -88(%rsp)
	movl	%r10d, %edx
	xorl	%r15d, %edx
	movl	%edx, -84(%rsp)
	movl	-120(%rsp), %r10d
	movl	%r10d, %r15d
	xorl	%ecx, %r15d
	andl	%edi, %edx
	movl	%eax, %ecx
	andl	-104(%rsp), %ecx
	xorl	%ecx, %edx
	movl	%esi, %eax
	andl	%r15d, %eax
	xorl	%ecx, %eax
	movl	%ebx, %esi
	xorl	-100(%rsp), %ebx
	notl	%esi
	notl	%r11d
	movl	%r9d, %ecx
	movl	%r9d, %edi
	andl	%esi, %ecx
	movl	-124(%rsp), %r8d
	movl	%r8d, %r9d
	andl	%r11d, %r9d
	xorl	%ecx, %ebx
	xorl	%r9d, %ebx
	movl	-108(%rsp), %r9d
	andl	%r13d, %r9d
	xorl	%r9d, %r12d
	xorl	%ecx, %r12d
	movl	-128(%rsp), %r13d
	notl	%r13d
	movl	%r10d, %ecx
	andl	%r13d, %ecx
	xorl	%ecx, %r14d
	xorl	%edx, %r14d
	xorl	%edx, %ebx
	xorl	%eax, %r12d
	xorl	%eax, %ebp
	notl	%r14d
	movl	%ebx, %eax
	andl	%r14d, %ebx
	movl	%ebx, %edx
	xorl	%ebp, %edx
	xorl	%r12d, %eax
	movl	%edx, %ecx
	andl	%eax, %ecx
	xorl	%r12d, %ecx
	movl	%ebp, %r9d
	xorl	%r14d, %r9d
	xorl	%ebx, %r12d
	andl	%r9d, %r12d
	movl	%r12d, %r9d
	xorl	%ebx, %r12d
	xorl	%ebp, %r9d
	andl	%ebp, %r12d
	xorl	%r12d, %r14d
	xorl	%edx, %r12d
	andl	%ecx, %r12d
	xorl	%eax, %r12d
	andl	%r14d, %edi
	movl	%edi, -128(%rsp)
	movl	%r14d, %ebp
	andl	%esi, %r14d
	xorl	%r9d, %ebp
	movl	%r12d, %esi
	xorl	%ebp, %esi
	andl	%ebp, %r8d
	movl	%r8d, -124(%rsp)
	andl	%r11d, %ebp
	movl	%ecx, %eax
	xorl	%r9d, %eax
	andl	%r9d, -112(%rsp)
	andl	-108(%rsp), %r9d
	movl	%r12d, %ebx
	xorl	%ecx, %ebx
	movl	-96(%rsp), %edx
	andl	%ebx, %edx
	andl	-80(%rsp), %ebx
	andl	%r12d, %r10d
	movl	%r10d, -120(%rsp)
	andl	%r13d, %r12d
	movq	104(%rsp), %rdi
	andl	%ecx, %edi
	andl	-76(%rsp), %ecx
	movl	%esi, %r8d
	xorl	%eax, %r8d
	movl	-116(%rsp), %r10d
	andl	%eax, %r10d
	andl	-104(%rsp), %eax
	movl	-92(%rsp), %r13d
	andl	%r8d, %r13d
	andl	-84(%rsp), %r8d
	andl	%esi, %r15d
	andl	-88(%rsp), %esi
	movl	-128(%rsp), %r11d
	xorl	%edx, %r11d
	xorl	%edx, %r10d
	xorl	%r15d, %edi
	xorl	-112(%rsp), %r15d
	movl	%r11d, %edx
	movl	-124(%rsp), %r11d
	xorl	%edx, %r11d
	xorl	%edx, %r15d
	xorl	%esi, %r9d
	xorl	%eax, %ecx
	xorl	%esi, %ecx
	xorl	%r14d, %r12d
	xorl	%r14d, %eax
	movl	-72(%rsp), %r14d
	xorl	%ebx, %r12d
	xorl	%ebx, %ecx
	xorl	%edi, %ebp
	xorl	%ebp, %r10d
	movl	%ebp, %esi
	movl	-68(%rsp), %ebp
	movl	%r13d, %ebx
	xorl	%r13d, %esi
	xorl	%r11d, %esi
	movl	-120(%rsp), %edx
	xorl	%edx, %ebx
	xorl	%edx, %r11d
	xorl	%r8d, %r9d
	xorl	%r8d, %eax
	xorl	%ebx, %r15d
	xorl	%ebx, %edi
	movq	%rdi, %rdx
	movl	%r9d, %r8d
	xorl	%r12d, %r8d
	xorl	%r11d, %ecx
	xorl	%r11d, %r8d
	movl	%r10d, %edi
	xorl	%r10d, %r9d
	xorl	%r12d, %edi
	xorl	%esi, %eax
	xorl	%r12d, %esi
	notl	%r15d
	andl	$16843009, %r15d
	andl	$16843009, %eax
	leal	(%rax,%r15,2), %eax
	andl	$16843009, %ecx
	addl	%ecx, %ecx
	leal	(%rcx,%rax,4), %eax
	andl	$16843009, %edi
	orl	%eax, %edi
	andl	$16843009, %edx
	andl	$16843009, %r8d
	leal	(%r8,%rdx,2), %eax
	movl	-64(%rsp), %r15d
	notl	%esi
	andl	$16843009, %r9d
	andl	$16843009, %esi
	leal	(%r9,%rsi,2), %ecx
	shll	$4, %edi
	leal	(%rcx,%rax,4), %eax
	orl	%edi, %eax
	xorl	$1364283729, %eax
	movl	%eax, %ecx
	roll	$10, %ecx
	movl	%eax, %edx
	roll	$18, %edx
	xorl	%ecx, %edx
	movq	112(%rsp), %rcx
	movl	%eax, %r10d
	roll	$24, %r10d
	xorl	%eax, %r10d
	roll	$2, %eax
	xorl	-60(%rsp), %eax
	xorl	%eax, %edx
	movq	-56(%rsp), %rax
	xorl	%edx, %r10d
	incq	%rcx
	cmpq	$4, %rcx
	jne	.Lluossavin_x86_64.BB2_7
	addq	$16, %rax
	movq	96(%rsp), %rcx
	addq	$-4, %rcx
	jne	.Lluossavin_x86_64.BB2_6
	movq	88(%rsp), %r11
	jmp	.Lluossavin_x86_64.BB2_11
.Lluossavin_x86_64.BB2_9:
	movups	112(%rdx), %xmm0
	movaps	%xmm0, 64(%rsp)
	movups	96(%rdx), %xmm0
	movaps	%xmm0, 48(%rsp)
	movups	80(%rdx), %xmm0
	movaps	%xmm0, 32(%rsp)
	movups	64(%rdx), %xmm0
	movaps	%xmm0, 16(%rsp)
	movups	(%rdx), %xmm0
	movups	16(%rdx), %xmm1
	movups	32(%rdx), %xmm2
	movups	48(%rdx), %xmm3
	movaps	%xmm3, (%rsp)
	movaps	%xmm2, -16(%rsp)
	movaps	%xmm1, -32(%rsp)
	movaps	%xmm0, -48(%rsp)
	xorl	%ecx, %ecx
	.p2align	4
.Lluossavin_x86_64.BB2_10:
	movl	-48(%rsp,%rcx,4), %edx
	xorl	%r10d, %edx
	movl	%ebp, %eax
	xorl	%r15d, %eax
	xorl	%edx, %eax
	movl	%eax, %edx
	movzbl	%al, %esi
	movzbl	%ah, %edi
	movl	%eax, %r9d
	shrl	$16, %r9d
	shrl	$24, %edx
	leaq	.Lluossavin_x86_64.static.1(%rip), %r8
	movzbl	(%rsi,%r8), %esi
	movzbl	(%rdi,%r8), %eax
	movzbl	%r9b, %edi
	movzbl	(%rdi,%r8), %edi
	movzbl	(%rdx,%r8), %edx
	shll	$24, %edx
	shll	$16, %edi
	shll	$8, %eax
	orl	%esi, %eax
	orl	%edi, %eax
	orl	%edx, %eax
	movl	%eax, %esi
	roll	$2, %esi
	movl	-44(%rsp,%rcx,4), %ebx
	xorl	%r10d, %ebx
	xorl	%ebp, %ebx
	xorl	%r14d, %esi
	movl	%eax, %edx
	movl	%eax, %r14d
	roll	$24, %r14d
	xorl	%eax, %r14d
	roll	$10, %eax
	roll	$18, %edx
	xorl	%eax, %edx
	xorl	%esi, %edx
	xorl	%edx, %r14d
	xorl	%r14d, %ebx
	movl	%ebx, %edx
	movzbl	%bl, %eax
	movzbl	%bh, %esi
	shrl	$16, %ebx
	shrl	$24, %edx
	movzbl	(%rax,%r8), %edi
	movzbl	(%rsi,%r8), %eax
	movzbl	%bl, %esi
	movzbl	(%rsi,%r8), %esi
	movzbl	(%rdx,%r8), %edx
	shll	$24, %edx
	shll	$16, %esi
	shll	$8, %eax
	orl	%edi, %eax
	orl	%esi, %eax
	orl	%edx, %eax
	movl	%eax, %edx
	roll	$2, %edx
	movl	%eax, %esi
	roll	$10, %esi
	movl	%r15d, %edi
	movl	%eax, %r9d
	roll	$18, %r9d
	xorl	%edx, %esi
	xorl	%eax, %edi
	roll	$24, %eax
	xorl	%r9d, %eax
	xorl	%esi, %eax
	movl	%eax, %r15d
	xorl	%edi, %r15d
	movl	-40(%rsp,%rcx,4), %eax
	xorl	%r10d, %eax
	xorl	%r14d, %eax
	xorl	%r15d, %eax
	movl	%eax, %edx
	movzbl	%al, %esi
	movzbl	%ah, %edi
	movl	%eax, %r9d
	shrl	$16, %r9d
	shrl	$24, %edx
	movzbl	(%rsi,%r8), %esi
	movzbl	(%rdi,%r8), %eax
	movzbl	%r9b, %edi
	movzbl	(%rdi,%r8), %edi
	movzbl	(%rdx,%r8), %edx
	shll	$24, %edx
	shll	$16, %edi
	shll	$8, %eax
	orl	%esi, %eax
	orl	%edi, %eax
	orl	%edx, %eax
	movl	%eax, %edx
	roll	$2, %edx
	movl	%ebp, %esi
	movl	%eax, %edi
	roll	$10, %edi
	xorl	%edx, %edi
	movl	%eax, %edx
	roll	$18, %edx
	xorl	%eax, %esi
	roll	$24, %eax
	xorl	%edx, %eax
	xorl	%edi, %eax
	movl	%eax, %ebp
	xorl	%esi, %ebp
	movl	-36(%rsp,%rcx,4), %edx
	xorl	%r14d, %edx
	xorl	%r15d, %edx
	xorl	%ebp, %edx
	movl	%edx, %eax
	movzbl	%dl, %esi
	movzbl	%dh, %ebx
	movl	%edx, %edi
	shrl	$16, %edi
	shrl	$24, %eax
	movzbl	(%rsi,%r8), %esi
	movl	%r10d, %edx
	movzbl	(%rbx,%r8), %r10d
	movzbl	%dil, %edi
	movzbl	(%rdi,%r8), %edi
	movzbl	(%rax,%r8), %eax
	shll	$24, %eax
	shll	$16, %edi
	shll	$8, %r10d
	orl	%esi, %r10d
	orl	%edi, %r10d
	orl	%eax, %r10d
	movl	%r10d, %eax
	roll	$2, %eax
	movl	%r10d, %esi
	roll	$10, %esi
	xorl	%eax, %esi
	movl	%r10d, %eax
	roll	$18, %eax
	xorl	%r10d, %edx
	roll	$24, %r10d
	xorl	%eax, %r10d
	xorl	%esi, %r10d
	xorl	%edx, %r10d
	addq	$4, %rcx
	cmpq	$32, %rcx
	jne	.Lluossavin_x86_64.BB2_10
	jmp	.Lluossavin_x86_64.BB2_11
.Lluossavin_x86_64.BB2_2:
	movups	112(%rdx), %xmm0
	movaps	%xmm0, 64(%rsp)
	movups	96(%rdx), %xmm0
	movaps	%xmm0, 48(%rsp)
	movups	80(%rdx), %xmm0
	movaps	%xmm0, 32(%rsp)
	movups	64(%rdx), %xmm0
	movaps	%xmm0, 16(%rsp)
	movups	(%rdx), %xmm0
	movups	16(%rdx), %xmm1
	movups	32(%rdx), %xmm2
	movups	48(%rdx), %xmm3
	movaps	%xmm3, (%rsp)
	movaps	%xmm2, -16(%rsp)
	movaps	%xmm1, -32(%rsp)
	movaps	%xmm0, -48(%rsp)
	xorl	%eax, %eax
	.p2align	4
.Lluossavin_x86_64.BB2_3:
	movl	%r15d, %edi
	movl	%ebp, %esi
	movl	%r10d, %ecx
	movl	-48(%rsp,%rax,4), %edx
	xorl	%r10d, %edx
	movl	%ebp, %ebx
	xorl	%r15d, %ebx
	xorl	%edx, %ebx
	movzbl	%bl, %r8d
	leaq	.Lluossavin_x86_64.static.0(%rip), %rdx
	movzbl	%bh, %ebp
	movl	%ebx, %r9d
	shrl	$14, %r9d
	andl	$1020, %r9d
	xorl	3072(%rdx,%r8,4), %r14d
	xorl	2048(%rdx,%rbp,4), %r14d
	xorl	1024(%r9,%rdx), %r14d
	shrl	$24, %ebx
	xorl	(%rdx,%rbx,4), %r14d
	movl	-44(%rsp,%rax,4), %ebx
	xorl	%r10d, %ebx
	xorl	%esi, %ebx
	xorl	%r14d, %ebx
	movzbl	%bl, %r8d
	movl	3072(%rdx,%r8,4), %r15d
	movzbl	%bh, %ebp
	movl	%ebx, %r8d
	shrl	$14, %r8d
	andl	$1020, %r8d
	shrl	$24, %ebx
	xorl	2048(%rdx,%rbp,4), %r15d
	xorl	1024(%r8,%rdx), %r15d
	xorl	(%rdx,%rbx,4), %r15d
	xorl	%edi, %r15d
	movl	-40(%rsp,%rax,4), %ebx
	xorl	%r10d, %ebx
	xorl	%r14d, %ebx
	xorl	%r15d, %ebx
	movzbl	%bl, %edi
	movl	3072(%rdx,%rdi,4), %ebp
	movzbl	%bh, %edi
	movl	%ebx, %r8d
	shrl	$14, %r8d
	andl	$1020, %r8d
	shrl	$24, %ebx
	xorl	2048(%rdx,%rdi,4), %ebp
	xorl	1024(%r8,%rdx), %ebp
	xorl	(%rdx,%rbx,4), %ebp
	xorl	%esi, %ebp
	movl	-36(%rsp,%rax,4), %ebx
	xorl	%r14d, %ebx
	xorl	%r15d, %ebx
	xorl	%ebp, %ebx
	movzbl	%bl, %esi
	movl	3072(%rdx,%rsi,4), %r10d
	movzbl	%bh, %esi
	movl	%ebx, %edi
	shrl	$14, %edi
	andl	$1020, %edi
	shrl	$24, %ebx
	xorl	2048(%rdx,%rsi,4), %r10d
	xorl	1024(%rdi,%rdx), %r10d
	xorl	(%rdx,%rbx,4), %r10d
	xorl	%ecx, %r10d
	addq	$4, %rax
	cmpq	$32, %rax
	jne	.Lluossavin_x86_64.BB2_3
.Lluossavin_x86_64.BB2_11:
	movl	%r10d, (%r11)
	movl	%ebp, 4(%r11)
	movl	%r15d, 8(%r11)
	movl	%r14d, 12(%r11)
	addq	$120, %rsp
	popq	%rbx
	popq	%r12
	popq	%r13
	popq	%r14
	popq	%r15
	popq	%rbp
	retq
.Lluossavin_x86_64.func_end2:
	.size	"cipher::encrypt.x86_64", .Lluossavin_x86_64.func_end2-"cipher::encrypt.x86_64"

	.section	".text.pieces::flow::run.x86_64","ax",@progbits
	.p2align	4
	.type	"pieces::flow::run.x86_64",@function
"pieces::flow::run.x86_64":
	pushq	%rbp
	pushq	%r15
	pushq	%r14
	pushq	%r12
	pushq	%rbx
	subq	$256, %rsp
	movq	%rdi, %rbx
	movq	320(%rsp), %rdi
	movq	312(%rsp), %r10
	movq	304(%rsp), %rax
	movups	112(%rdx), %xmm0
	movaps	%xmm0, 240(%rsp)
	movups	96(%rdx), %xmm0
	movaps	%xmm0, 224(%rsp)
	movups	80(%rdx), %xmm0
	movaps	%xmm0, 208(%rsp)
	movups	64(%rdx), %xmm0
	movaps	%xmm0, 192(%rsp)
	movups	(%rdx), %xmm0
	movups	16(%rdx), %xmm1
	movdqu	32(%rdx), %xmm2
	movups	48(%rdx), %xmm3
	movaps	%xmm3, 176(%rsp)
	movdqa	%xmm2, 160(%rsp)
	movaps	%xmm1, 144(%rsp)
	movaps	%xmm0, 128(%rsp)
	movdqu	(%r8), %xmm0
	movdqu	16(%r8), %xmm1
	movdqa	%xmm0, 48(%rsp)
	movdqa	%xmm1, 64(%rsp)
	movl	$16, %edx
	subq	%r9, %rdx
	cmpq	%rdx, %r10
	movq	%rdx, %r8
	cmovbq	%r10, %r8
	testq	%r10, %r10
	je	.Lluossavin_x86_64.BB3_16
	leaq	(%rsp,%r9), %r11
	addq	$64, %r11
	cmpq	$4, %r8
	setb	%bpl
	movq	%rdi, %r14
	subq	%rax, %r14
	cmpq	$16, %r14
	setb	%r14b
	orb	%bpl, %r14b
	je	.Lluossavin_x86_64.BB3_3
	xorl	%r14d, %r14d
	jmp	.Lluossavin_x86_64.BB3_10
.Lluossavin_x86_64.BB3_3:
	cmpq	$16, %r8
	jae	.Lluossavin_x86_64.BB3_5
	xorl	%r14d, %r14d
	jmp	.Lluossavin_x86_64.BB3_7
.Lluossavin_x86_64.BB3_5:
	movl	%r8d, %r14d
	andl	$16, %r14d
	movdqu	(%r11), %xmm0
	movdqu	(%rax), %xmm1
	pxor	%xmm0, %xmm1
	movdqu	%xmm1, (%rdi)
	cmpq	%r14, %r8
	je	.Lluossavin_x86_64.BB3_16
	testb	$12, %r8b
	je	.Lluossavin_x86_64.BB3_10
.Lluossavin_x86_64.BB3_7:
	movq	%r14, %r15
	movl	%r8d, %r14d
	andl	$28, %r14d
	.p2align	4
.Lluossavin_x86_64.BB3_8:
	movl	(%rax,%r15), %ebp
	xorl	(%r11,%r15), %ebp
	movl	%ebp, (%rdi,%r15)
	addq	$4, %r15
	cmpq	%r15, %r14
	jne	.Lluossavin_x86_64.BB3_8
	cmpq	%r14, %r8
	je	.Lluossavin_x86_64.BB3_16
.Lluossavin_x86_64.BB3_10:
	movq	%r8, %r12
	movq	%r14, %r15
	andq	$3, %r12
	je	.Lluossavin_x86_64.BB3_13
	movq	%r14, %r15
	.p2align	4
.Lluossavin_x86_64.BB3_12:
	movzbl	(%rax,%r15), %ebp
	xorb	(%r11,%r15), %bpl
	movb	%bpl, (%rdi,%r15)
	incq	%r15
	decq	%r12
	jne	.Lluossavin_x86_64.BB3_12
.Lluossavin_x86_64.BB3_13:
	subq	%r8, %r14
	cmpq	$-4, %r14
	ja	.Lluossavin_x86_64.BB3_16
	leaq	48(%rsp), %r11
	addq	%r11, %r9
	addq	$19, %r9
	.p2align	4
.Lluossavin_x86_64.BB3_15:
	movzbl	(%rax,%r15), %r11d
	xorb	-3(%r9,%r15), %r11b
	movb	%r11b, (%rdi,%r15)
	movzbl	1(%rax,%r15), %r11d
	xorb	-2(%r9,%r15), %r11b
	movb	%r11b, 1(%rdi,%r15)
	movzbl	2(%rax,%r15), %r11d
	xorb	-1(%r9,%r15), %r11b
	movb	%r11b, 2(%rdi,%r15)
	movzbl	3(%rax,%r15), %r11d
	xorb	(%r9,%r15), %r11b
	movb	%r11b, 3(%rdi,%r15)
	addq	$4, %r15
	cmpq	%r15, %r8
	jne	.Lluossavin_x86_64.BB3_15
.Lluossavin_x86_64.BB3_16:
	subq	%rdx, %r10
	jae	.Lluossavin_x86_64.BB3_18
	leaq	64(%rsp), %rax
	movaps	48(%rsp), %xmm0
	movups	%xmm0, (%rbx)
	movups	(%rax), %xmm0
	jmp	.Lluossavin_x86_64.BB3_22
.Lluossavin_x86_64.BB3_18:
	movq	328(%rsp), %r8
	movq	48(%rsp), %r11
	movl	56(%rsp), %r14d
	movl	60(%rsp), %r9d
	addq	%rdx, %rax
	addq	%rdx, %rdi
	subq	%rdx, %r8
	pxor	%xmm0, %xmm0
	movdqa	%xmm0, 96(%rsp)
	movdqa	%xmm0, 80(%rsp)
	testb	$1, %cl
	je	.Lluossavin_x86_64.BB3_19
	movq	%r11, %rdx
	shrq	$32, %rdx
	bswapl	%r9d
	bswapl	%r14d
	bswapl	%edx
	bswapl	%r11d
	incl	%r9d
	jmp	.Lluossavin_x86_64.BB3_21
.Lluossavin_x86_64.BB3_19:
	bswapq	%r11
	shlq	$32, %r9
	orq	%r14, %r9
	xorl	%edx, %edx
	cmpq	$-1, %r9
	bswapq	%r9
	sete	%dl
	incq	%r9
	addq	%r11, %rdx
	movq	%rdx, %r11
	shrq	$32, %r11
	movq	%r9, %r14
	shrq	$32, %r14
.Lluossavin_x86_64.BB3_21:
	movl	%r11d, 32(%rsp)
	movl	%edx, 36(%rsp)
	movl	%r14d, 40(%rsp)
	movl	%r9d, 44(%rsp)
	addb	$3, %cl
	movq	%r8, 24(%rsp)
	movq	%rdi, 16(%rsp)
	movq	%r10, 8(%rsp)
	movq	%rax, (%rsp)
	movzbl	%sil, %esi
	movzbl	%cl, %ecx
	leaq	80(%rsp), %rdi
	leaq	128(%rsp), %rdx
	leaq	32(%rsp), %r8
	movl	$1, %r9d
	callq	"stream::stream.x86_64"
	movdqa	80(%rsp), %xmm0
	movdqa	96(%rsp), %xmm1
	movdqa	%xmm1, 112(%rsp)
	pxor	%xmm1, %xmm1
	movdqa	%xmm0, %xmm2
	punpckhbw	%xmm1, %xmm2
	pshuflw	$27, %xmm2, %xmm2
	pshufhw	$27, %xmm2, %xmm2
	punpcklbw	%xmm1, %xmm0
	pshuflw	$27, %xmm0, %xmm0
	pshufhw	$27, %xmm0, %xmm0
	packuswb	%xmm2, %xmm0
	movdqu	%xmm0, (%rbx)
	movaps	112(%rsp), %xmm0
.Lluossavin_x86_64.BB3_22:
	movups	%xmm0, 16(%rbx)
	addq	$256, %rsp
	popq	%rbx
	popq	%r12
	popq	%r14
	popq	%r15
	popq	%rbp
	retq
.Lluossavin_x86_64.func_end3:
	.size	"pieces::flow::run.x86_64", .Lluossavin_x86_64.func_end3-"pieces::flow::run.x86_64"

	.section	".text.stream::stream.x86_64","ax",@progbits
	.p2align	4
	.type	"stream::stream.x86_64",@function
"stream::stream.x86_64":
	pushq	%rbp
	pushq	%r15
	pushq	%r14
	pushq	%r13
	pushq	%r12
	pushq	%rbx
	subq	$744, %rsp
	movl	%r9d, %ebp
	movq	%rdi, %r14
	movq	816(%rsp), %rdi
	movq	808(%rsp), %r10
	movq	800(%rsp), %r9
	movl	(%r8), %r15d
	movl	4(%r8), %ebx
	movl	8(%r8), %r11d
	movl	12(%r8), %r8d
	xorps	%xmm0, %xmm0
	movaps	%xmm0, 304(%rsp)
	movzbl	%cl, %ecx
	leaq	.Lluossavin_x86_64.JTI4_0(%rip), %rax
	movq	%rcx, 328(%rsp)
	movslq	(%rax,%rcx,4), %rcx
	addq	%rax, %rcx
	jmpq	*%rcx
.Lluossavin_x86_64.BB4_1:
	movb	$1, %al
	xorl	%r13d, %r13d
	xorl	%ecx, %ecx
	cmpb	$1, %sil
	je	.Lluossavin_x86_64.BB4_6
	jmp	.Lluossavin_x86_64.BB4_37
.Lluossavin_x86_64.BB4_3:
	movb	$1, %r13b
	xorl	%eax, %eax
	xorl	%ecx, %ecx
	cmpb	$1, %sil
	jne	.Lluossavin_x86_64.BB4_37
.Lluossavin_x86_64.BB4_6:
	movups	(%rdx), %xmm0
	movups	16(%rdx), %xmm1
	movups	32(%rdx), %xmm2
	movups	48(%rdx), %xmm3
	movaps	%xmm0, 608(%rsp)
	movaps	%xmm1, 624(%rsp)
	movaps	%xmm2, 640(%rsp)
	movaps	%xmm3, 656(%rsp)
	movups	64(%rdx), %xmm0
	movaps	%xmm0, 672(%rsp)
	movups	80(%rdx), %xmm0
	movaps	%xmm0, 688(%rsp)
	movups	96(%rdx), %xmm0
	movaps	%xmm0, 704(%rsp)
	movups	112(%rdx), %xmm0
	movaps	%xmm0, 720(%rsp)
	movq	%r15, %rsi
	movl	%esi, 160(%rsp)
	movl	%ebx, 164(%rsp)
	movl	%r11d, 168(%rsp)
	movl	%r8d, 172(%rsp)
	movups	(%rdx), %xmm0
	movdqu	16(%rdx), %xmm1
	movdqu	32(%rdx), %xmm2
	movdqu	48(%rdx), %xmm3
	movaps	%xmm0, 464(%rsp)
	movdqa	%xmm1, 480(%rsp)
	movdqa	%xmm2, 496(%rsp)
	movdqa	%xmm3, 512(%rsp)
	movups	64(%rdx), %xmm0
	movaps	%xmm0, 528(%rsp)
	movups	80(%rdx), %xmm0
	movaps	%xmm0, 544(%rsp)
	movups	96(%rdx), %xmm0
	movaps	%xmm0, 560(%rsp)
	movdqu	112(%rdx), %xmm0
	movdqa	%xmm0, 576(%rsp)
	pxor	%xmm0, %xmm0
	movdqa	%xmm0, 96(%rsp)
	movq	$0, 112(%rsp)
	movzbl	%cl, %r15d
	testb	%al, %al
	je	.Lluossavin_x86_64.BB4_12
	movups	112(%rdx), %xmm0
	movaps	%xmm0, 448(%rsp)
	movups	96(%rdx), %xmm0
	movaps	%xmm0, 432(%rsp)
	movups	80(%rdx), %xmm0
	movaps	%xmm0, 416(%rsp)
	movups	64(%rdx), %xmm0
	movaps	%xmm0, 400(%rsp)
	movdqu	(%rdx), %xmm0
	movdqu	16(%rdx), %xmm1
	movdqu	32(%rdx), %xmm2
	movdqu	48(%rdx), %xmm3
	movdqa	%xmm3, 384(%rsp)
	movdqa	%xmm2, 368(%rsp)
	movdqa	%xmm1, 352(%rsp)
	movdqa	%xmm0, 336(%rsp)
	cmpq	$3071, %r10
	ja	.Lluossavin_x86_64.BB4_9
	movl	%esi, 96(%rsp)
	movl	%ebx, 100(%rsp)
	movl	%r11d, 104(%rsp)
	movl	%r8d, 108(%rsp)
	xorl	%r12d, %r12d
	jmp	.Lluossavin_x86_64.BB4_13
.Lluossavin_x86_64.BB4_2:
	movb	$1, %r13b
	xorl	%eax, %eax
	movb	$1, %cl
	cmpb	$1, %sil
	je	.Lluossavin_x86_64.BB4_6
.Lluossavin_x86_64.BB4_37:
	movl	%ebp, 44(%rsp)
	movq	%r14, 80(%rsp)
	movups	112(%rdx), %xmm0
	movaps	%xmm0, 288(%rsp)
	movups	96(%rdx), %xmm0
	movaps	%xmm0, 272(%rsp)
	movups	80(%rdx), %xmm0
	movaps	%xmm0, 256(%rsp)
	movups	64(%rdx), %xmm0
	movaps	%xmm0, 240(%rsp)
	movdqu	(%rdx), %xmm0
	movdqu	16(%rdx), %xmm1
	movdqu	32(%rdx), %xmm2
	movdqu	48(%rdx), %xmm3
	movdqa	%xmm3, 224(%rsp)
	movdqa	%xmm2, 208(%rsp)
	movdqa	%xmm1, 192(%rsp)
	movdqa	%xmm0, 176(%rsp)
	shrq	$4, %r10
	movzbl	%sil, %eax
	movl	%eax, 72(%rsp)
	je	.Lluossavin_x86_64.BB4_38
	movl	$12, %r14d
	movq	%r15, %rax
	jmp	.Lluossavin_x86_64.BB4_40
	.p2align	4
.Lluossavin_x86_64.BB4_44:
	movl	88(%rsp), %eax
	incl	%eax
	movq	152(%rsp), %rbp
	movl	76(%rsp), %ecx
	movl	%ecx, %edi
	movq	64(%rsp), %r15
	movl	%eax, %r13d
	.p2align	4
.Lluossavin_x86_64.BB4_45:
	addq	$16, %r14
	movl	%r13d, %r8d
	movl	%r15d, %r11d
	movl	%edi, %ebx
	movl	%ebp, %eax
	movq	32(%rsp), %r10
	decq	%r10
	je	.Lluossavin_x86_64.BB4_46
.Lluossavin_x86_64.BB4_40:
	movl	%ebx, 76(%rsp)
	movq	%rax, 152(%rsp)
	movl	%r8d, 88(%rsp)
	movq	%r11, 64(%rsp)
	movq	%r10, 32(%rsp)
	movl	%eax, 336(%rsp)
	movl	%ebx, 340(%rsp)
	movl	%r11d, 344(%rsp)
	movl	%r8d, 348(%rsp)
	pxor	%xmm0, %xmm0
	movdqa	%xmm0, 464(%rsp)
	leaq	464(%rsp), %rdi
	leaq	176(%rsp), %rdx
	leaq	336(%rsp), %rcx
	movl	72(%rsp), %esi
	callq	"cipher::encrypt.x86_64"
	movq	800(%rsp), %rsi
	movl	-12(%rsi,%r14), %eax
	movl	-8(%rsi,%r14), %ecx
	bswapl	%eax
	bswapl	%ecx
	movl	-4(%rsi,%r14), %edx
	bswapl	%edx
	movl	(%rsi,%r14), %esi
	bswapl	%esi
	movl	464(%rsp), %ebx
	movl	468(%rsp), %r8d
	movl	472(%rsp), %r9d
	movl	476(%rsp), %r10d
	movl	%ebx, %ebp
	xorl	%eax, %ebp
	movl	%r8d, %edi
	xorl	%ecx, %edi
	movl	%r9d, %r15d
	xorl	%edx, %r15d
	movl	%r10d, %r13d
	xorl	%esi, %r13d
	movl	%ebp, %r11d
	bswapl	%r11d
	movq	816(%rsp), %r12
	movl	%r11d, -12(%r12,%r14)
	movl	%edi, %r11d
	bswapl	%r11d
	movl	%r11d, -8(%r12,%r14)
	movl	%r15d, %r11d
	bswapl	%r11d
	movl	%r11d, -4(%r12,%r14)
	movl	%r13d, %r11d
	bswapl	%r11d
	movl	%r11d, (%r12,%r14)
	leaq	.Lluossavin_x86_64.JTI4_1(%rip), %r11
	movq	328(%rsp), %r12
	movslq	(%r11,%r12,4), %r12
	addq	%r11, %r12
	jmpq	*%r12
.Lluossavin_x86_64.BB4_41:
	movl	%eax, %ebp
	movl	%ecx, %edi
	movl	%edx, %r15d
	movl	%esi, %r13d
	jmp	.Lluossavin_x86_64.BB4_45
.Lluossavin_x86_64.BB4_42:
	movl	%ebx, %ebp
	movl	%r8d, %edi
	movl	%r9d, %r15d
	movl	%r10d, %r13d
	jmp	.Lluossavin_x86_64.BB4_45
.Lluossavin_x86_64.BB4_43:
	movq	152(%rsp), %rax
	shlq	$32, %rax
	movl	76(%rsp), %edi
	orq	%rax, %rdi
	movq	64(%rsp), %rax
	shlq	$32, %rax
	movl	88(%rsp), %r13d
	orq	%rax, %r13
	addq	$1, %r13
	adcq	$0, %rdi
	movq	%rdi, %rbp
	shrq	$32, %rbp
	movq	%r13, %r15
	shrq	$32, %r15
	jmp	.Lluossavin_x86_64.BB4_45
.Lluossavin_x86_64.BB4_38:
	movl	%r15d, %ebp
	movl	%ebx, %edi
	movl	%r11d, %r15d
	movl	%r8d, %r13d
.Lluossavin_x86_64.BB4_46:
	movq	808(%rsp), %rbx
	andq	$15, %rbx
	movl	%ebp, 336(%rsp)
	movl	%edi, 340(%rsp)
	movl	%r15d, 344(%rsp)
	movl	%r13d, 348(%rsp)
	pxor	%xmm0, %xmm0
	movdqa	%xmm0, 464(%rsp)
	setne	%al
	movl	44(%rsp), %ecx
	orb	%al, %cl
	je	.Lluossavin_x86_64.BB4_47
	movq	%rbp, %r12
	movq	%rdi, 32(%rsp)
	leaq	464(%rsp), %rdi
	leaq	176(%rsp), %rdx
	leaq	336(%rsp), %rcx
	movl	72(%rsp), %esi
	callq	"cipher::encrypt.x86_64"
	movq	32(%rsp), %rdi
	movdqa	464(%rsp), %xmm0
	movdqa	%xmm0, %xmm1
	pxor	%xmm2, %xmm2
	punpckhbw	%xmm2, %xmm1
	pshuflw	$27, %xmm1, %xmm1
	pshufhw	$27, %xmm1, %xmm1
	punpcklbw	%xmm2, %xmm0
	pshuflw	$27, %xmm0, %xmm0
	pshufhw	$27, %xmm0, %xmm0
	packuswb	%xmm1, %xmm0
	movdqa	%xmm0, 128(%rsp)
	testq	%rbx, %rbx
	movq	80(%rsp), %r14
	movq	816(%rsp), %r9
	movq	800(%rsp), %r10
	je	.Lluossavin_x86_64.BB4_56
	movq	808(%rsp), %r11
	movq	%r11, %rcx
	andq	$-16, %rcx
	movl	%r11d, %eax
	andl	$3, %eax
	cmpl	$4, %ebx
	jae	.Lluossavin_x86_64.BB4_51
	xorl	%edx, %edx
	jmp	.Lluossavin_x86_64.BB4_54
.Lluossavin_x86_64.BB4_47:
	movdqa	%xmm0, 128(%rsp)
	movq	80(%rsp), %r14
	jmp	.Lluossavin_x86_64.BB4_56
.Lluossavin_x86_64.BB4_12:
	movq	%rdi, (%rsp)
	leaq	96(%rsp), %rdi
	leaq	464(%rsp), %rsi
	leaq	160(%rsp), %rcx
	movl	%r15d, %edx
	movq	%r9, %r8
	movq	%r10, %r9
	callq	"stream::batches::counters.x86_64"
	movq	808(%rsp), %r10
	movq	800(%rsp), %r9
	movq	816(%rsp), %rdi
	movq	112(%rsp), %r12
	jmp	.Lluossavin_x86_64.BB4_13
.Lluossavin_x86_64.BB4_51:
	andl	$12, %r11d
	leaq	(%r10,%rcx), %rsi
	addq	$3, %rsi
	leaq	(%r9,%rcx), %rdi
	addq	$3, %rdi
	xorl	%edx, %edx
	.p2align	4
.Lluossavin_x86_64.BB4_52:
	movzbl	-3(%rsi,%rdx), %r8d
	xorb	128(%rsp,%rdx), %r8b
	movb	%r8b, -3(%rdi,%rdx)
	movzbl	-2(%rsi,%rdx), %r8d
	xorb	129(%rsp,%rdx), %r8b
	movb	%r8b, -2(%rdi,%rdx)
	movzbl	-1(%rsi,%rdx), %r8d
	xorb	130(%rsp,%rdx), %r8b
	movb	%r8b, -1(%rdi,%rdx)
	movzbl	(%rsi,%rdx), %r8d
	xorb	131(%rsp,%rdx), %r8b
	movb	%r8b, (%rdi,%rdx)
	addq	$4, %rdx
	cmpq	%rdx, %r11
	jne	.Lluossavin_x86_64.BB4_52
	testq	%rax, %rax
	movq	%r12, %rbp
	movq	32(%rsp), %rdi
	je	.Lluossavin_x86_64.BB4_56
.Lluossavin_x86_64.BB4_54:
	addq	%rdx, %rcx
	addq	%rcx, %r9
	addq	%rsp, %rdx
	addq	$128, %rdx
	addq	%rcx, %r10
	xorl	%ecx, %ecx
	.p2align	4
.Lluossavin_x86_64.BB4_55:
	movzbl	(%r10,%rcx), %esi
	xorb	(%rdx,%rcx), %sil
	movb	%sil, (%r9,%rcx)
	incq	%rcx
	cmpq	%rcx, %rax
	jne	.Lluossavin_x86_64.BB4_55
.Lluossavin_x86_64.BB4_56:
	movaps	128(%rsp), %xmm0
	jmp	.Lluossavin_x86_64.BB4_57
.Lluossavin_x86_64.BB4_9:
	movups	(%rdx), %xmm0
	movups	16(%rdx), %xmm1
	movups	32(%rdx), %xmm2
	movdqu	48(%rdx), %xmm3
	movaps	%xmm0, 176(%rsp)
	movaps	%xmm1, 192(%rsp)
	movaps	%xmm2, 208(%rsp)
	movdqa	%xmm3, 224(%rsp)
	movups	64(%rdx), %xmm0
	movaps	%xmm0, 240(%rsp)
	movups	80(%rdx), %xmm0
	movaps	%xmm0, 256(%rsp)
	movups	96(%rdx), %xmm0
	movaps	%xmm0, 272(%rsp)
	movups	112(%rdx), %xmm0
	movaps	%xmm0, 288(%rsp)
	movl	%esi, 48(%rsp)
	movl	%ebx, 52(%rsp)
	movl	%r11d, 56(%rsp)
	movl	%r8d, 60(%rsp)
	xorps	%xmm0, %xmm0
	movaps	%xmm0, 592(%rsp)
	leaq	592(%rsp), %rdi
	leaq	176(%rsp), %rdx
	leaq	48(%rsp), %rcx
	movl	$1, %esi
	callq	"cipher::encrypt.x86_64"
	movq	808(%rsp), %r10
	movq	800(%rsp), %r9
	movq	816(%rsp), %rdi
	movdqu	(%r9), %xmm0
	movdqa	592(%rsp), %xmm1
	movdqa	%xmm1, %xmm2
	pxor	%xmm3, %xmm3
	punpckhbw	%xmm3, %xmm2
	pshuflw	$27, %xmm2, %xmm2
	pshufhw	$27, %xmm2, %xmm2
	punpcklbw	%xmm3, %xmm1
	pshuflw	$27, %xmm1, %xmm1
	pshufhw	$27, %xmm1, %xmm1
	packuswb	%xmm2, %xmm1
	pxor	%xmm0, %xmm1
	movdqu	%xmm1, (%rdi)
	leaq	-16(%r10), %rax
	movl	$16, %r12d
	cmpq	$3072, %rax
	jb	.Lluossavin_x86_64.BB4_11
	.p2align	4
.Lluossavin_x86_64.BB4_10:
	movq	%r12, %rbx
	shrq	$4, %rax
	cmpq	$512, %rax
	movl	$512, %r12d
	cmovbq	%rax, %r12
	leaq	(%r9,%rbx), %rcx
	leaq	-16(%r9,%rbx), %rdx
	leaq	(%rdi,%rbx), %r8
	leaq	336(%rsp), %rdi
	movq	%r12, %rsi
	callq	"sliced::encrypt_xored.x86_64"
	movq	808(%rsp), %r10
	movq	800(%rsp), %r9
	movq	816(%rsp), %rdi
	shll	$4, %r12d
	addq	%rbx, %r12
	movq	%r10, %rax
	subq	%r12, %rax
	cmpq	$3071, %rax
	ja	.Lluossavin_x86_64.BB4_10
.Lluossavin_x86_64.BB4_11:
	movdqu	-16(%r9,%r12), %xmm0
	movdqa	%xmm0, %xmm1
	pxor	%xmm2, %xmm2
	punpckhbw	%xmm2, %xmm1
	pshuflw	$27, %xmm1, %xmm1
	pshufhw	$27, %xmm1, %xmm1
	punpcklbw	%xmm2, %xmm0
	pshuflw	$27, %xmm0, %xmm0
	pshufhw	$27, %xmm0, %xmm0
	packuswb	%xmm1, %xmm0
	movdqa	%xmm0, 96(%rsp)
.Lluossavin_x86_64.BB4_13:
	movl	96(%rsp), %eax
	movl	%eax, 48(%rsp)
	movl	100(%rsp), %eax
	movl	%eax, 52(%rsp)
	movl	104(%rsp), %eax
	movl	%eax, 56(%rsp)
	movl	108(%rsp), %eax
	movl	%eax, 60(%rsp)
	leaq	(%r9,%r12), %rax
	movq	%r10, %rbx
	subq	%r12, %rbx
	leaq	(%rdi,%r12), %rcx
	cmpq	$15, %rbx
	ja	.Lluossavin_x86_64.BB4_25
	pxor	%xmm0, %xmm0
	movdqa	%xmm0, 176(%rsp)
	testb	%bpl, %bpl
	jne	.Lluossavin_x86_64.BB4_17
	cmpq	%r12, %r10
	jne	.Lluossavin_x86_64.BB4_17
	movdqa	%xmm0, 336(%rsp)
	jmp	.Lluossavin_x86_64.BB4_24
.Lluossavin_x86_64.BB4_25:
	movq	%rcx, 64(%rsp)
	movq	%rax, 32(%rsp)
	movl	%ebp, 44(%rsp)
	movq	%r14, 80(%rsp)
	pxor	%xmm0, %xmm0
	movdqa	%xmm0, 352(%rsp)
	movdqa	%xmm0, 336(%rsp)
	movq	%rbx, 88(%rsp)
	movq	%rbx, %rbp
	shrq	$10, %rbp
	movl	48(%rsp), %eax
	movl	%eax, 464(%rsp)
	movl	52(%rsp), %eax
	movl	%eax, 468(%rsp)
	movl	56(%rsp), %eax
	movl	%eax, 472(%rsp)
	movl	60(%rsp), %eax
	movl	%eax, 476(%rsp)
	movl	%r15d, %ebx
	movzbl	%r13b, %r15d
	je	.Lluossavin_x86_64.BB4_28
	movq	32(%rsp), %r14
	movq	64(%rsp), %r13
	.p2align	4
.Lluossavin_x86_64.BB4_27:
	movq	%r13, 16(%rsp)
	movq	%r14, 8(%rsp)
	movl	$0, (%rsp)
	leaq	336(%rsp), %rdi
	leaq	608(%rsp), %rsi
	leaq	464(%rsp), %r8
	movl	$64, %r9d
	movl	%r15d, %edx
	movl	%ebx, %ecx
	callq	"stream::few::few.x86_64"
	movdqa	336(%rsp), %xmm0
	movdqa	%xmm0, 464(%rsp)
	addq	$1024, %r13
	addq	$1024, %r14
	decq	%rbp
	jne	.Lluossavin_x86_64.BB4_27
.Lluossavin_x86_64.BB4_28:
	movq	88(%rsp), %r10
	movq	%r10, %rbp
	andq	$-1024, %rbp
	movq	32(%rsp), %rdx
	addq	%rbp, %rdx
	movq	64(%rsp), %rsi
	addq	%rbp, %rsi
	pxor	%xmm0, %xmm0
	movdqa	%xmm0, 192(%rsp)
	movdqa	%xmm0, 176(%rsp)
	movl	%r10d, %r9d
	shrl	$4, %r9d
	andl	$63, %r9d
	movq	%r10, %rax
	andq	$15, %rax
	setne	%al
	movl	44(%rsp), %ecx
	orb	%al, %cl
	movq	%rsi, 16(%rsp)
	movq	%rdx, 8(%rsp)
	movzbl	%cl, %eax
	movl	%eax, (%rsp)
	leaq	176(%rsp), %r13
	leaq	608(%rsp), %rsi
	leaq	464(%rsp), %r8
	movq	%r13, %rdi
	movl	%r15d, %edx
	movl	%ebx, %ecx
	movq	%r10, %rbx
	callq	"stream::few::few.x86_64"
	movq	%rbx, %rdx
	andq	$15, %rdx
	movq	80(%rsp), %r14
	movq	816(%rsp), %r9
	movq	800(%rsp), %r10
	je	.Lluossavin_x86_64.BB4_36
	movl	%ebx, %ecx
	andl	$1008, %ecx
	movl	%ebx, %eax
	andl	$3, %eax
	cmpl	$4, %edx
	jae	.Lluossavin_x86_64.BB4_31
	xorl	%edx, %edx
	jmp	.Lluossavin_x86_64.BB4_34
.Lluossavin_x86_64.BB4_17:
	movq	%rcx, %rbp
	leaq	176(%rsp), %rdi
	leaq	608(%rsp), %rdx
	leaq	48(%rsp), %rcx
	movq	%rax, %r13
	movl	$1, %esi
	movq	%r10, %r15
	callq	"cipher::encrypt.x86_64"
	movdqa	176(%rsp), %xmm0
	movdqa	%xmm0, %xmm1
	pxor	%xmm2, %xmm2
	punpckhbw	%xmm2, %xmm1
	pshuflw	$27, %xmm1, %xmm1
	pshufhw	$27, %xmm1, %xmm1
	punpcklbw	%xmm2, %xmm0
	pshuflw	$27, %xmm0, %xmm0
	pshufhw	$27, %xmm0, %xmm0
	packuswb	%xmm1, %xmm0
	movdqa	%xmm0, 336(%rsp)
	cmpq	%r12, %r15
	je	.Lluossavin_x86_64.BB4_24
	movq	%rbp, %rdi
	movq	%r13, %rsi
	cmpq	$4, %rbx
	setb	%al
	movq	816(%rsp), %rcx
	subq	800(%rsp), %rcx
	cmpq	$32, %rcx
	setb	%cl
	orb	%al, %cl
	je	.Lluossavin_x86_64.BB4_21
	xorl	%eax, %eax
	jmp	.Lluossavin_x86_64.BB4_20
.Lluossavin_x86_64.BB4_31:
	andl	$12, %ebx
	leaq	(%r12,%rbp), %rdx
	addq	%rcx, %rdx
	leaq	(%r10,%rdx), %rsi
	addq	$3, %rsi
	leaq	(%r9,%rdx), %rdi
	addq	$3, %rdi
	xorl	%edx, %edx
	.p2align	4
.Lluossavin_x86_64.BB4_32:
	movzbl	-3(%rsi,%rdx), %r8d
	xorb	192(%rsp,%rdx), %r8b
	movb	%r8b, -3(%rdi,%rdx)
	movzbl	-2(%rsi,%rdx), %r8d
	xorb	193(%rsp,%rdx), %r8b
	movb	%r8b, -2(%rdi,%rdx)
	movzbl	-1(%rsi,%rdx), %r8d
	xorb	194(%rsp,%rdx), %r8b
	movb	%r8b, -1(%rdi,%rdx)
	movzbl	(%rsi,%rdx), %r8d
	xorb	195(%rsp,%rdx), %r8b
	movb	%r8b, (%rdi,%rdx)
	addq	$4, %rdx
	cmpq	%rdx, %rbx
	jne	.Lluossavin_x86_64.BB4_32
	testq	%rax, %rax
	je	.Lluossavin_x86_64.BB4_36
.Lluossavin_x86_64.BB4_34:
	addq	%rdx, %r12
	addq	%rcx, %rbp
	addq	%r12, %rbp
	addq	%rbp, %r9
	leaq	(%rdx,%r13), %rcx
	addq	$16, %rcx
	addq	%rbp, %r10
	xorl	%edx, %edx
	.p2align	4
.Lluossavin_x86_64.BB4_35:
	movzbl	(%r10,%rdx), %esi
	xorb	(%rcx,%rdx), %sil
	movb	%sil, (%r9,%rdx)
	incq	%rdx
	cmpq	%rdx, %rax
	jne	.Lluossavin_x86_64.BB4_35
	jmp	.Lluossavin_x86_64.BB4_36
.Lluossavin_x86_64.BB4_21:
	movl	%ebx, %eax
	andl	$12, %eax
	xorl	%ecx, %ecx
	.p2align	4
.Lluossavin_x86_64.BB4_22:
	movl	(%rsi,%rcx), %edx
	xorl	336(%rsp,%rcx), %edx
	movl	%edx, (%rdi,%rcx)
	addq	$4, %rcx
	cmpq	%rcx, %rax
	jne	.Lluossavin_x86_64.BB4_22
	jmp	.Lluossavin_x86_64.BB4_23
.Lluossavin_x86_64.BB4_20:
	movzbl	(%rsi,%rax), %ecx
	xorb	336(%rsp,%rax), %cl
	movb	%cl, (%rdi,%rax)
	incq	%rax
.Lluossavin_x86_64.BB4_23:
	cmpq	%rax, %rbx
	jne	.Lluossavin_x86_64.BB4_20
.Lluossavin_x86_64.BB4_24:
	movaps	48(%rsp), %xmm0
	movaps	%xmm0, 176(%rsp)
	movdqa	336(%rsp), %xmm0
	movdqa	%xmm0, 192(%rsp)
.Lluossavin_x86_64.BB4_36:
	movl	176(%rsp), %ebp
	movl	180(%rsp), %edi
	movl	184(%rsp), %r15d
	movl	188(%rsp), %r13d
	movaps	192(%rsp), %xmm0
.Lluossavin_x86_64.BB4_57:
	movaps	%xmm0, 304(%rsp)
	movl	%ebp, (%r14)
	movl	%edi, 4(%r14)
	movl	%r15d, 8(%r14)
	movl	%r13d, 12(%r14)
	movaps	304(%rsp), %xmm0
	movups	%xmm0, 16(%r14)
	addq	$744, %rsp
	popq	%rbx
	popq	%r12
	popq	%r13
	popq	%r14
	popq	%r15
	popq	%rbp
	retq
.Lluossavin_x86_64.func_end4:
	.size	"stream::stream.x86_64", .Lluossavin_x86_64.func_end4-"stream::stream.x86_64"
	.section	".rodata.stream::stream.x86_64","a",@progbits
	.p2align	2, 0x0
.Lluossavin_x86_64.JTI4_0:
	.long	.Lluossavin_x86_64.BB4_37-.Lluossavin_x86_64.JTI4_0
	.long	.Lluossavin_x86_64.BB4_1-.Lluossavin_x86_64.JTI4_0
	.long	.Lluossavin_x86_64.BB4_37-.Lluossavin_x86_64.JTI4_0
	.long	.Lluossavin_x86_64.BB4_2-.Lluossavin_x86_64.JTI4_0
	.long	.Lluossavin_x86_64.BB4_3-.Lluossavin_x86_64.JTI4_0
.Lluossavin_x86_64.JTI4_1:
	.long	.Lluossavin_x86_64.BB4_45-.Lluossavin_x86_64.JTI4_1
	.long	.Lluossavin_x86_64.BB4_41-.Lluossavin_x86_64.JTI4_1
	.long	.Lluossavin_x86_64.BB4_42-.Lluossavin_x86_64.JTI4_1
	.long	.Lluossavin_x86_64.BB4_43-.Lluossavin_x86_64.JTI4_1
	.long	.Lluossavin_x86_64.BB4_44-.Lluossavin_x86_64.JTI4_1

	.section	".text.sliced::encrypt_xored.x86_64","ax",@progbits
	.p2align	4
	.type	"sliced::encrypt_xored.x86_64",@function
"sliced::encrypt_xored.x86_64":
	pushq	%rbp
	pushq	%r15
	pushq	%r14
	pushq	%r13
	pushq	%r12
	pushq	%rbx
	subq	$3072, %rsp
	movq	$0, (%rsp)
	subq	$3072, %rsp
	movq	$0, (%rsp)
	subq	$3072, %rsp
	movq	$0, (%rsp)
	subq	$3072, %rsp
	movq	$0, (%rsp)
	subq	$3072, %rsp
	movq	$0, (%rsp)
	subq	$3072, %rsp
	movq	$0, (%rsp)
	subq	$2200, %rsp
	movq	%r8, %rbx
	movq	%rcx, %r14
	movq	%rdx, %r12
	movq	%rsi, %r15
	movq	%rdi, %r13
	leaq	152(%rsp), %rdi
	movl	$8192, %edx
	xorl	%esi, %esi
	callq	memset@PLT
	testq	%r15, %r15
	je	.Lluossavin_x86_64.BB5_3
	xorl	%eax, %eax
	xorl	%ecx, %ecx
	.p2align	4
.Lluossavin_x86_64.BB5_2:
	movq	(%r12,%rax,2), %rdx
	movq	8(%r12,%rax,2), %rsi
	movl	%eax, %edi
	andl	$504, %edi
	movq	%rcx, %r8
	shrq	$6, %r8
	bswapq	%rdx
	addq	%rdi, %r8
	movq	%rdx, 152(%rsp,%r8,8)
	bswapq	%rsi
	movq	%rsi, 4248(%rsp,%r8,8)
	incq	%rcx
	addq	$8, %rax
	cmpq	%rcx, %r15
	jne	.Lluossavin_x86_64.BB5_2
.Lluossavin_x86_64.BB5_3:
	movq	%r15, %rax
	shrq	$6, %rax
	movl	%r15d, %ecx
	andl	$63, %ecx
	cmpq	$1, %rcx
	sbbq	$-1, %rax
	leaq	.Lluossavin_x86_64.static.3(%rip), %rcx
	movq	(%rcx,%rax,8), %rax
	movq	%rax, 8(%rsp)
	movups	(%r13), %xmm0
	movups	16(%r13), %xmm1
	movups	32(%r13), %xmm2
	movups	48(%r13), %xmm3
	movaps	%xmm0, 16(%rsp)
	movaps	%xmm1, 32(%rsp)
	movaps	%xmm2, 48(%rsp)
	movaps	%xmm3, 64(%rsp)
	movups	64(%r13), %xmm0
	movaps	%xmm0, 80(%rsp)
	movups	80(%r13), %xmm0
	movaps	%xmm0, 96(%rsp)
	movups	96(%r13), %xmm0
	movaps	%xmm0, 112(%rsp)
	movups	112(%r13), %xmm0
	movaps	%xmm0, 128(%rsp)
	leaq	16536(%rsp), %rdi
	movl	$4096, %edx
	xorl	%esi, %esi
	callq	memset@PLT
	leaq	10392(%rsp), %rbp
	leaq	152(%rsp), %r13
	movq	%r13, %rdi
	callq	"rows::transpose.x86_64"
	movl	$2048, %edx
	movq	%rbp, %rdi
	movq	%r13, %rsi
	callq	memcpy@PLT
	leaq	2200(%rsp), %rsi
	leaq	8344(%rsp), %rdi
	movl	$2048, %edx
	callq	memcpy@PLT
	leaq	4248(%rsp), %r12
	leaq	14488(%rsp), %rbp
	movq	%r12, %rdi
	callq	"rows::transpose.x86_64"
	movl	$2048, %edx
	movq	%rbp, %rdi
	movq	%r12, %rsi
	callq	memcpy@PLT
	leaq	6296(%rsp), %rsi
	movl	$2048, %edx
	leaq	12440(%rsp), %rdi
	callq	memcpy@PLT
	leaq	16(%rsp), %rsi
	leaq	8344(%rsp), %rdi
	movq	8(%rsp), %rdx
	movq	%r13, %rcx
	callq	"sliced::Planes::rounds_to_rows.x86_64"
	testq	%r15, %r15
	je	.Lluossavin_x86_64.BB5_6
	xorl	%eax, %eax
	xorl	%ecx, %ecx
	.p2align	4
.Lluossavin_x86_64.BB5_5:
	movl	%eax, %edx
	andl	$504, %edx
	movq	%rcx, %rsi
	shrq	$6, %rsi
	addq	%rdx, %rsi
	movq	152(%rsp,%rsi,8), %rdx
	bswapq	%rdx
	movq	8(%r14,%rax,2), %rdi
	xorq	(%r14,%rax,2), %rdx
	movq	%rdx, (%rbx,%rax,2)
	movq	4248(%rsp,%rsi,8), %rdx
	bswapq	%rdx
	xorq	%rdi, %rdx
	movq	%rdx, 8(%rbx,%rax,2)
	incq	%rcx
	addq	$8, %rax
	cmpq	%rcx, %r15
	jne	.Lluossavin_x86_64.BB5_5
.Lluossavin_x86_64.BB5_6:
	addq	$20632, %rsp
	popq	%rbx
	popq	%r12
	popq	%r13
	popq	%r14
	popq	%r15
	popq	%rbp
	retq
.Lluossavin_x86_64.func_end5:
	.size	"sliced::encrypt_xored.x86_64", .Lluossavin_x86_64.func_end5-"sliced::encrypt_xored.x86_64"

	.section	.rodata.cst16,"aM",@progbits,16
	.p2align	4, 0x0
.Lluossavin_x86_64.CPI6_0:
	.long	4294967295
	.long	0
	.long	4294967295
	.long	0
.Lluossavin_x86_64.CPI6_1:
	.short	65535
	.short	0
	.short	65535
	.short	0
	.short	65535
	.short	0
	.short	65535
	.short	0
.Lluossavin_x86_64.CPI6_2:
	.byte	255
	.byte	0
	.byte	255
	.byte	0
	.byte	255
	.byte	0
	.byte	255
	.byte	0
	.byte	255
	.byte	0
	.byte	255
	.byte	0
	.byte	255
	.byte	0
	.byte	255
	.byte	0
.Lluossavin_x86_64.CPI6_3:
	.zero	16,15
.Lluossavin_x86_64.CPI6_4:
	.zero	16,51
.Lluossavin_x86_64.CPI6_5:
	.zero	16,85
	.section	".text.rows::transpose.x86_64","ax",@progbits
	.p2align	4
	.type	"rows::transpose.x86_64",@function
"rows::transpose.x86_64":
	movl	$258, %eax
	.p2align	4
.Lluossavin_x86_64.BB6_1:
	movdqu	-16(%rdi,%rax,8), %xmm0
	movdqu	-2064(%rdi,%rax,8), %xmm1
	movdqu	-2048(%rdi,%rax,8), %xmm2
	movdqa	%xmm1, %xmm3
	psrlq	$32, %xmm3
	movdqa	.Lluossavin_x86_64.CPI6_0(%rip), %xmm4
	movdqa	%xmm0, %xmm5
	pand	%xmm4, %xmm5
	pxor	%xmm3, %xmm5
	movdqa	%xmm5, %xmm3
	psllq	$32, %xmm3
	pxor	%xmm1, %xmm3
	pxor	%xmm0, %xmm5
	movdqu	%xmm3, -2064(%rdi,%rax,8)
	movdqu	%xmm5, -16(%rdi,%rax,8)
	movdqu	(%rdi,%rax,8), %xmm0
	movdqa	%xmm2, %xmm1
	psrlq	$32, %xmm1
	pand	%xmm0, %xmm4
	pxor	%xmm1, %xmm4
	movdqa	%xmm4, %xmm1
	psllq	$32, %xmm1
	pxor	%xmm2, %xmm1
	pxor	%xmm0, %xmm4
	movdqu	%xmm1, -2048(%rdi,%rax,8)
	movdqu	%xmm4, (%rdi,%rax,8)
	addq	$4, %rax
	cmpq	$514, %rax
	jne	.Lluossavin_x86_64.BB6_1
	movl	$130, %eax
	.p2align	4
.Lluossavin_x86_64.BB6_3:
	movdqu	-16(%rdi,%rax,8), %xmm1
	movdqu	-1040(%rdi,%rax,8), %xmm2
	movdqu	-1024(%rdi,%rax,8), %xmm3
	movdqa	%xmm2, %xmm4
	psrlq	$16, %xmm4
	pxor	%xmm1, %xmm4
	movdqa	.Lluossavin_x86_64.CPI6_1(%rip), %xmm0
	movdqa	%xmm4, %xmm5
	pand	%xmm0, %xmm5
	pslld	$16, %xmm4
	pxor	%xmm2, %xmm4
	pxor	%xmm1, %xmm5
	movdqu	%xmm4, -1040(%rdi,%rax,8)
	movdqu	%xmm5, -16(%rdi,%rax,8)
	movdqu	(%rdi,%rax,8), %xmm1
	movdqa	%xmm3, %xmm2
	psrlq	$16, %xmm2
	pxor	%xmm1, %xmm2
	movdqa	%xmm2, %xmm4
	pand	%xmm0, %xmm4
	pslld	$16, %xmm2
	pxor	%xmm3, %xmm2
	pxor	%xmm1, %xmm4
	movdqu	%xmm2, -1024(%rdi,%rax,8)
	movdqu	%xmm4, (%rdi,%rax,8)
	addq	$4, %rax
	cmpq	$258, %rax
	jne	.Lluossavin_x86_64.BB6_3
	movl	$386, %eax
	.p2align	4
.Lluossavin_x86_64.BB6_5:
	movdqu	-16(%rdi,%rax,8), %xmm1
	movdqu	-1040(%rdi,%rax,8), %xmm2
	movdqu	-1024(%rdi,%rax,8), %xmm3
	movdqa	%xmm2, %xmm4
	psrlq	$16, %xmm4
	pxor	%xmm1, %xmm4
	movdqa	%xmm4, %xmm5
	pand	%xmm0, %xmm5
	pslld	$16, %xmm4
	pxor	%xmm2, %xmm4
	pxor	%xmm1, %xmm5
	movdqu	%xmm4, -1040(%rdi,%rax,8)
	movdqu	%xmm5, -16(%rdi,%rax,8)
	movdqu	(%rdi,%rax,8), %xmm1
	movdqa	%xmm3, %xmm2
	psrlq	$16, %xmm2
	pxor	%xmm1, %xmm2
	movdqa	%xmm2, %xmm4
	pand	%xmm0, %xmm4
	pslld	$16, %xmm2
	pxor	%xmm3, %xmm2
	pxor	%xmm1, %xmm4
	movdqu	%xmm2, -1024(%rdi,%rax,8)
	movdqu	%xmm4, (%rdi,%rax,8)
	addq	$4, %rax
	cmpq	$514, %rax
	jne	.Lluossavin_x86_64.BB6_5
	movl	$66, %eax
	.p2align	4
.Lluossavin_x86_64.BB6_7:
	movdqu	-528(%rdi,%rax,8), %xmm1
	movdqu	-512(%rdi,%rax,8), %xmm2
	movdqu	-16(%rdi,%rax,8), %xmm3
	movdqa	%xmm1, %xmm4
	psrlq	$8, %xmm4
	pxor	%xmm3, %xmm4
	movdqa	.Lluossavin_x86_64.CPI6_2(%rip), %xmm0
	movdqa	%xmm4, %xmm5
	pand	%xmm0, %xmm5
	psllw	$8, %xmm4
	pxor	%xmm1, %xmm4
	pxor	%xmm3, %xmm5
	movdqu	%xmm4, -528(%rdi,%rax,8)
	movdqu	%xmm5, -16(%rdi,%rax,8)
	movdqu	(%rdi,%rax,8), %xmm1
	movdqa	%xmm2, %xmm3
	psrlq	$8, %xmm3
	pxor	%xmm1, %xmm3
	movdqa	%xmm3, %xmm4
	pand	%xmm0, %xmm4
	psllw	$8, %xmm3
	pxor	%xmm2, %xmm3
	pxor	%xmm1, %xmm4
	movdqu	%xmm3, -512(%rdi,%rax,8)
	movdqu	%xmm4, (%rdi,%rax,8)
	addq	$4, %rax
	cmpq	$130, %rax
	jne	.Lluossavin_x86_64.BB6_7
	movl	$194, %eax
	.p2align	4
.Lluossavin_x86_64.BB6_9:
	movdqu	-528(%rdi,%rax,8), %xmm1
	movdqu	-512(%rdi,%rax,8), %xmm2
	movdqu	-16(%rdi,%rax,8), %xmm3
	movdqa	%xmm1, %xmm4
	psrlq	$8, %xmm4
	pxor	%xmm3, %xmm4
	movdqa	%xmm4, %xmm5
	pand	%xmm0, %xmm5
	psllw	$8, %xmm4
	pxor	%xmm1, %xmm4
	pxor	%xmm3, %xmm5
	movdqu	%xmm4, -528(%rdi,%rax,8)
	movdqu	%xmm5, -16(%rdi,%rax,8)
	movdqu	(%rdi,%rax,8), %xmm1
	movdqa	%xmm2, %xmm3
	psrlq	$8, %xmm3
	pxor	%xmm1, %xmm3
	movdqa	%xmm3, %xmm4
	pand	%xmm0, %xmm4
	psllw	$8, %xmm3
	pxor	%xmm2, %xmm3
	pxor	%xmm1, %xmm4
	movdqu	%xmm3, -512(%rdi,%rax,8)
	movdqu	%xmm4, (%rdi,%rax,8)
	addq	$4, %rax
	cmpq	$258, %rax
	jne	.Lluossavin_x86_64.BB6_9
	movl	$322, %eax
	.p2align	4
.Lluossavin_x86_64.BB6_11:
	movdqu	-528(%rdi,%rax,8), %xmm1
	movdqu	-512(%rdi,%rax,8), %xmm2
	movdqu	-16(%rdi,%rax,8), %xmm3
	movdqa	%xmm1, %xmm4
	psrlq	$8, %xmm4
	pxor	%xmm3, %xmm4
	movdqa	%xmm4, %xmm5
	pand	%xmm0, %xmm5
	psllw	$8, %xmm4
	pxor	%xmm1, %xmm4
	pxor	%xmm3, %xmm5
	movdqu	%xmm4, -528(%rdi,%rax,8)
	movdqu	%xmm5, -16(%rdi,%rax,8)
	movdqu	(%rdi,%rax,8), %xmm1
	movdqa	%xmm2, %xmm3
	psrlq	$8, %xmm3
	pxor	%xmm1, %xmm3
	movdqa	%xmm3, %xmm4
	pand	%xmm0, %xmm4
	psllw	$8, %xmm3
	pxor	%xmm2, %xmm3
	pxor	%xmm1, %xmm4
	movdqu	%xmm3, -512(%rdi,%rax,8)
	movdqu	%xmm4, (%rdi,%rax,8)
	addq	$4, %rax
	cmpq	$386, %rax
	jne	.Lluossavin_x86_64.BB6_11
	movl	$450, %eax
	.p2align	4
.Lluossavin_x86_64.BB6_13:
	movdqu	-528(%rdi,%rax,8), %xmm1
	movdqu	-512(%rdi,%rax,8), %xmm2
	movdqu	-16(%rdi,%rax,8), %xmm3
	movdqa	%xmm1, %xmm4
	psrlq	$8, %xmm4
	pxor	%xmm3, %xmm4
	movdqa	%xmm4, %xmm5
	pand	%xmm0, %xmm5
	psllw	$8, %xmm4
	pxor	%xmm1, %xmm4
	pxor	%xmm3, %xmm5
	movdqu	%xmm4, -528(%rdi,%rax,8)
	movdqu	%xmm5, -16(%rdi,%rax,8)
	movdqu	(%rdi,%rax,8), %xmm1
	movdqa	%xmm2, %xmm3
	psrlq	$8, %xmm3
	pxor	%xmm1, %xmm3
	movdqa	%xmm3, %xmm4
	pand	%xmm0, %xmm4
	psllw	$8, %xmm3
	pxor	%xmm2, %xmm3
	pxor	%xmm1, %xmm4
	movdqu	%xmm3, -512(%rdi,%rax,8)
	movdqu	%xmm4, (%rdi,%rax,8)
	addq	$4, %rax
	cmpq	$514, %rax
	jne	.Lluossavin_x86_64.BB6_13
	movdqu	256(%rdi), %xmm3
	movdqu	(%rdi), %xmm4
	movdqu	16(%rdi), %xmm5
	movdqu	32(%rdi), %xmm2
	movdqu	48(%rdi), %xmm1
	movdqa	%xmm4, %xmm6
	psrlq	$4, %xmm6
	pxor	%xmm3, %xmm6
	movdqa	.Lluossavin_x86_64.CPI6_3(%rip), %xmm0
	pand	%xmm0, %xmm6
	movdqa	%xmm6, %xmm7
	psllq	$4, %xmm7
	pxor	%xmm4, %xmm7
	pxor	%xmm3, %xmm6
	movdqu	%xmm7, (%rdi)
	movdqu	%xmm6, 256(%rdi)
	movdqu	272(%rdi), %xmm3
	movdqa	%xmm5, %xmm4
	psrlq	$4, %xmm4
	pxor	%xmm3, %xmm4
	pand	%xmm0, %xmm4
	movdqa	%xmm4, %xmm6
	psllq	$4, %xmm6
	pxor	%xmm5, %xmm6
	pxor	%xmm3, %xmm4
	movdqu	%xmm6, 16(%rdi)
	movdqu	%xmm4, 272(%rdi)
	movdqu	288(%rdi), %xmm3
	movdqa	%xmm2, %xmm4
	psrlq	$4, %xmm4
	pxor	%xmm3, %xmm4
	pand	%xmm0, %xmm4
	movdqa	%xmm4, %xmm5
	psllq	$4, %xmm5
	pxor	%xmm2, %xmm5
	pxor	%xmm3, %xmm4
	movdqu	%xmm5, 32(%rdi)
	movdqu	%xmm4, 288(%rdi)
	movdqu	304(%rdi), %xmm2
	movdqa	%xmm1, %xmm3
	psrlq	$4, %xmm3
	pxor	%xmm2, %xmm3
	pand	%xmm0, %xmm3
	movdqa	%xmm3, %xmm4
	psllq	$4, %xmm4
	pxor	%xmm1, %xmm4
	pxor	%xmm2, %xmm3
	movdqu	%xmm4, 48(%rdi)
	movdqu	%xmm3, 304(%rdi)
	movdqu	64(%rdi), %xmm1
	movdqu	320(%rdi), %xmm2
	movdqa	%xmm1, %xmm3
	psrlq	$4, %xmm3
	pxor	%xmm2, %xmm3
	pand	%xmm0, %xmm3
	movdqa	%xmm3, %xmm4
	psllq	$4, %xmm4
	pxor	%xmm1, %xmm4
	pxor	%xmm2, %xmm3
	movdqu	%xmm4, 64(%rdi)
	movdqu	%xmm3, 320(%rdi)
	movdqu	80(%rdi), %xmm1
	movdqu	336(%rdi), %xmm2
	movdqa	%xmm1, %xmm3
	psrlq	$4, %xmm3
	pxor	%xmm2, %xmm3
	pand	%xmm0, %xmm3
	movdqa	%xmm3, %xmm4
	psllq	$4, %xmm4
	pxor	%xmm1, %xmm4
	pxor	%xmm2, %xmm3
	movdqu	%xmm4, 80(%rdi)
	movdqu	%xmm3, 336(%rdi)
	movdqu	96(%rdi), %xmm1
	movdqu	352(%rdi), %xmm2
	movdqa	%xmm1, %xmm3
	psrlq	$4, %xmm3
	pxor	%xmm2, %xmm3
	pand	%xmm0, %xmm3
	movdqa	%xmm3, %xmm4
	psllq	$4, %xmm4
	pxor	%xmm1, %xmm4
	pxor	%xmm2, %xmm3
	movdqu	%xmm4, 96(%rdi)
	movdqu	%xmm3, 352(%rdi)
	movdqu	112(%rdi), %xmm1
	movdqu	368(%rdi), %xmm2
	movdqa	%xmm1, %xmm3
	psrlq	$4, %xmm3
	pxor	%xmm2, %xmm3
	pand	%xmm0, %xmm3
	movdqa	%xmm3, %xmm4
	psllq	$4, %xmm4
	pxor	%xmm1, %xmm4
	pxor	%xmm2, %xmm3
	movdqu	%xmm4, 112(%rdi)
	movdqu	%xmm3, 368(%rdi)
	movdqu	128(%rdi), %xmm1
	movdqu	384(%rdi), %xmm2
	movdqa	%xmm1, %xmm3
	psrlq	$4, %xmm3
	pxor	%xmm2, %xmm3
	pand	%xmm0, %xmm3
	movdqa	%xmm3, %xmm4
	psllq	$4, %xmm4
	pxor	%xmm1, %xmm4
	pxor	%xmm2, %xmm3
	movdqu	%xmm4, 128(%rdi)
	movdqu	%xmm3, 384(%rdi)
	movdqu	144(%rdi), %xmm1
	movdqu	400(%rdi), %xmm2
	movdqa	%xmm1, %xmm3
	psrlq	$4, %xmm3
	pxor	%xmm2, %xmm3
	pand	%xmm0, %xmm3
	movdqa	%xmm3, %xmm4
	psllq	$4, %xmm4
	pxor	%xmm1, %xmm4
	pxor	%xmm2, %xmm3
	movdqu	%xmm4, 144(%rdi)
	movdqu	%xmm3, 400(%rdi)
	movdqu	160(%rdi), %xmm1
	movdqu	416(%rdi), %xmm2
	movdqa	%xmm1, %xmm3
	psrlq	$4, %xmm3
	pxor	%xmm2, %xmm3
	pand	%xmm0, %xmm3
	movdqa	%xmm3, %xmm4
	psllq	$4, %xmm4
	pxor	%xmm1, %xmm4
	pxor	%xmm2, %xmm3
	movdqu	%xmm4, 160(%rdi)
	movdqu	%xmm3, 416(%rdi)
	movdqu	176(%rdi), %xmm1
	movdqu	432(%rdi), %xmm2
	movdqa	%xmm1, %xmm3
	psrlq	$4, %xmm3
	pxor	%xmm2, %xmm3
	pand	%xmm0, %xmm3
	movdqa	%xmm3, %xmm4
	psllq	$4, %xmm4
	pxor	%xmm1, %xmm4
	pxor	%xmm2, %xmm3
	movdqu	%xmm4, 176(%rdi)
	movdqu	%xmm3, 432(%rdi)
	movdqu	192(%rdi), %xmm1
	movdqu	448(%rdi), %xmm2
	movdqa	%xmm1, %xmm3
	psrlq	$4, %xmm3
	pxor	%xmm2, %xmm3
	pand	%xmm0, %xmm3
	movdqa	%xmm3, %xmm4
	psllq	$4, %xmm4
	pxor	%xmm1, %xmm4
	pxor	%xmm2, %xmm3
	movdqu	%xmm4, 192(%rdi)
	movdqu	%xmm3, 448(%rdi)
	movdqu	208(%rdi), %xmm1
	movdqu	464(%rdi), %xmm2
	movdqa	%xmm1, %xmm3
	psrlq	$4, %xmm3
	pxor	%xmm2, %xmm3
	pand	%xmm0, %xmm3
	movdqa	%xmm3, %xmm4
	psllq	$4, %xmm4
	pxor	%xmm1, %xmm4
	pxor	%xmm2, %xmm3
	movdqu	%xmm4, 208(%rdi)
	movdqu	%xmm3, 464(%rdi)
	movdqu	224(%rdi), %xmm1
	movdqu	480(%rdi), %xmm2
	movdqa	%xmm1, %xmm3
	psrlq	$4, %xmm3
	pxor	%xmm2, %xmm3
	pand	%xmm0, %xmm3
	movdqa	%xmm3, %xmm4
	psllq	$4, %xmm4
	pxor	%xmm1, %xmm4
	pxor	%xmm2, %xmm3
	movdqu	%xmm4, 224(%rdi)
	movdqu	%xmm3, 480(%rdi)
	movdqu	240(%rdi), %xmm1
	movdqu	496(%rdi), %xmm2
	movdqa	%xmm1, %xmm3
	psrlq	$4, %xmm3
	pxor	%xmm2, %xmm3
	pand	%xmm0, %xmm3
	movdqa	%xmm3, %xmm4
	psllq	$4, %xmm4
	pxor	%xmm1, %xmm4
	pxor	%xmm2, %xmm3
	movdqu	%xmm4, 240(%rdi)
	movdqu	%xmm3, 496(%rdi)
	movdqu	512(%rdi), %xmm1
	movdqu	768(%rdi), %xmm2
	movdqa	%xmm1, %xmm3
	psrlq	$4, %xmm3
	pxor	%xmm2, %xmm3
	pand	%xmm0, %xmm3
	movdqa	%xmm3, %xmm4
	psllq	$4, %xmm4
	pxor	%xmm1, %xmm4
	pxor	%xmm2, %xmm3
	movdqu	%xmm4, 512(%rdi)
	movdqu	%xmm3, 768(%rdi)
	movdqu	528(%rdi), %xmm1
	movdqu	784(%rdi), %xmm2
	movdqa	%xmm1, %xmm3
	psrlq	$4, %xmm3
	pxor	%xmm2, %xmm3
	pand	%xmm0, %xmm3
	movdqa	%xmm3, %xmm4
	psllq	$4, %xmm4
	pxor	%xmm1, %xmm4
	pxor	%xmm2, %xmm3
	movdqu	%xmm4, 528(%rdi)
	movdqu	%xmm3, 784(%rdi)
	movdqu	544(%rdi), %xmm1
	movdqu	800(%rdi), %xmm2
	movdqa	%xmm1, %xmm3
	psrlq	$4, %xmm3
	pxor	%xmm2, %xmm3
	pand	%xmm0, %xmm3
	movdqa	%xmm3, %xmm4
	psllq	$4, %xmm4
	pxor	%xmm1, %xmm4
	pxor	%xmm2, %xmm3
	movdqu	%xmm4, 544(%rdi)
	movdqu	%xmm3, 800(%rdi)
	movdqu	560(%rdi), %xmm1
	movdqu	816(%rdi), %xmm2
	movdqa	%xmm1, %xmm3
	psrlq	$4, %xmm3
	pxor	%xmm2, %xmm3
	pand	%xmm0, %xmm3
	movdqa	%xmm3, %xmm4
	psllq	$4, %xmm4
	pxor	%xmm1, %xmm4
	pxor	%xmm2, %xmm3
	movdqu	%xmm4, 560(%rdi)
	movdqu	%xmm3, 816(%rdi)
	movdqu	576(%rdi), %xmm1
	movdqu	832(%rdi), %xmm2
	movdqa	%xmm1, %xmm3
	psrlq	$4, %xmm3
	pxor	%xmm2, %xmm3
	pand	%xmm0, %xmm3
	movdqa	%xmm3, %xmm4
	psllq	$4, %xmm4
	pxor	%xmm1, %xmm4
	pxor	%xmm2, %xmm3
	movdqu	%xmm4, 576(%rdi)
	movdqu	%xmm3, 832(%rdi)
	movdqu	592(%rdi), %xmm1
	movdqu	848(%rdi), %xmm2
	movdqa	%xmm1, %xmm3
	psrlq	$4, %xmm3
	pxor	%xmm2, %xmm3
	pand	%xmm0, %xmm3
	movdqa	%xmm3, %xmm4
	psllq	$4, %xmm4
	pxor	%xmm1, %xmm4
	pxor	%xmm2, %xmm3
	movdqu	%xmm4, 592(%rdi)
	movdqu	%xmm3, 848(%rdi)
	movdqu	608(%rdi), %xmm1
	movdqu	864(%rdi), %xmm2
	movdqa	%xmm1, %xmm3
	psrlq	$4, %xmm3
	pxor	%xmm2, %xmm3
	pand	%xmm0, %xmm3
	movdqa	%xmm3, %xmm4
	psllq	$4, %xmm4
	pxor	%xmm1, %xmm4
	pxor	%xmm2, %xmm3
	movdqu	%xmm4, 608(%rdi)
	movdqu	%xmm3, 864(%rdi)
	movdqu	624(%rdi), %xmm1
	movdqu	880(%rdi), %xmm2
	movdqa	%xmm1, %xmm3
	psrlq	$4, %xmm3
	pxor	%xmm2, %xmm3
	pand	%xmm0, %xmm3
	movdqa	%xmm3, %xmm4
	psllq	$4, %xmm4
	pxor	%xmm1, %xmm4
	pxor	%xmm2, %xmm3
	movdqu	%xmm4, 624(%rdi)
	movdqu	%xmm3, 880(%rdi)
	movdqu	640(%rdi), %xmm1
	movdqu	896(%rdi), %xmm2
	movdqa	%xmm1, %xmm3
	psrlq	$4, %xmm3
	pxor	%xmm2, %xmm3
	pand	%xmm0, %xmm3
	movdqa	%xmm3, %xmm4
	psllq	$4, %xmm4
	pxor	%xmm1, %xmm4
	pxor	%xmm2, %xmm3
	movdqu	%xmm4, 640(%rdi)
	movdqu	%xmm3, 896(%rdi)
	movdqu	656(%rdi), %xmm1
	movdqu	912(%rdi), %xmm2
	movdqa	%xmm1, %xmm3
	psrlq	$4, %xmm3
	pxor	%xmm2, %xmm3
	pand	%xmm0, %xmm3
	movdqa	%xmm3, %xmm4
	psllq	$4, %xmm4
	pxor	%xmm1, %xmm4
	pxor	%xmm2, %xmm3
	movdqu	%xmm4, 656(%rdi)
	movdqu	%xmm3, 912(%rdi)
	movdqu	672(%rdi), %xmm1
	movdqu	928(%rdi), %xmm2
	movdqa	%xmm1, %xmm3
	psrlq	$4, %xmm3
	pxor	%xmm2, %xmm3
	pand	%xmm0, %xmm3
	movdqa	%xmm3, %xmm4
	psllq	$4, %xmm4
	pxor	%xmm1, %xmm4
	pxor	%xmm2, %xmm3
	movdqu	%xmm4, 672(%rdi)
	movdqu	%xmm3, 928(%rdi)
	movdqu	688(%rdi), %xmm1
	movdqu	944(%rdi), %xmm2
	movdqa	%xmm1, %xmm3
	psrlq	$4, %xmm3
	pxor	%xmm2, %xmm3
	pand	%xmm0, %xmm3
	movdqa	%xmm3, %xmm4
	psllq	$4, %xmm4
	pxor	%xmm1, %xmm4
	pxor	%xmm2, %xmm3
	movdqu	%xmm4, 688(%rdi)
	movdqu	%xmm3, 944(%rdi)
	movdqu	704(%rdi), %xmm1
	movdqu	960(%rdi), %xmm2
	movdqa	%xmm1, %xmm3
	psrlq	$4, %xmm3
	pxor	%xmm2, %xmm3
	pand	%xmm0, %xmm3
	movdqa	%xmm3, %xmm4
	psllq	$4, %xmm4
	pxor	%xmm1, %xmm4
	pxor	%xmm2, %xmm3
	movdqu	%xmm4, 704(%rdi)
	movdqu	%xmm3, 960(%rdi)
	movdqu	720(%rdi), %xmm1
	movdqu	976(%rdi), %xmm2
	movdqa	%xmm1, %xmm3
	psrlq	$4, %xmm3
	pxor	%xmm2, %xmm3
	pand	%xmm0, %xmm3
	movdqa	%xmm3, %xmm4
	psllq	$4, %xmm4
	pxor	%xmm1, %xmm4
	pxor	%xmm2, %xmm3
	movdqu	%xmm4, 720(%rdi)
	movdqu	%xmm3, 976(%rdi)
	movdqu	736(%rdi), %xmm1
	movdqu	992(%rdi), %xmm2
	movdqa	%xmm1, %xmm3
	psrlq	$4, %xmm3
	pxor	%xmm2, %xmm3
	pand	%xmm0, %xmm3
	movdqa	%xmm3, %xmm4
	psllq	$4, %xmm4
	pxor	%xmm1, %xmm4
	pxor	%xmm2, %xmm3
	movdqu	%xmm4, 736(%rdi)
	movdqu	%xmm3, 992(%rdi)
	movdqu	752(%rdi), %xmm1
	movdqu	1008(%rdi), %xmm2
	movdqa	%xmm1, %xmm3
	psrlq	$4, %xmm3
	pxor	%xmm2, %xmm3
	pand	%xmm0, %xmm3
	movdqa	%xmm3, %xmm4
	psllq	$4, %xmm4
	pxor	%xmm1, %xmm4
	pxor	%xmm2, %xmm3
	movdqu	%xmm4, 752(%rdi)
	movdqu	%xmm3, 1008(%rdi)
	movdqu	1024(%rdi), %xmm1
	movdqu	1280(%rdi), %xmm2
	movdqa	%xmm1, %xmm3
	psrlq	$4, %xmm3
	pxor	%xmm2, %xmm3
	pand	%xmm0, %xmm3
	movdqa	%xmm3, %xmm4
	psllq	$4, %xmm4
	pxor	%xmm1, %xmm4
	pxor	%xmm2, %xmm3
	movdqu	%xmm4, 1024(%rdi)
	movdqu	%xmm3, 1280(%rdi)
	movdqu	1040(%rdi), %xmm1
	movdqu	1296(%rdi), %xmm2
	movdqa	%xmm1, %xmm3
	psrlq	$4, %xmm3
	pxor	%xmm2, %xmm3
	pand	%xmm0, %xmm3
	movdqa	%xmm3, %xmm4
	psllq	$4, %xmm4
	pxor	%xmm1, %xmm4
	pxor	%xmm2, %xmm3
	movdqu	%xmm4, 1040(%rdi)
	movdqu	%xmm3, 1296(%rdi)
	movdqu	1056(%rdi), %xmm1
	movdqu	1312(%rdi), %xmm2
	movdqa	%xmm1, %xmm3
	psrlq	$4, %xmm3
	pxor	%xmm2, %xmm3
	pand	%xmm0, %xmm3
	movdqa	%xmm3, %xmm4
	psllq	$4, %xmm4
	pxor	%xmm1, %xmm4
	pxor	%xmm2, %xmm3
	movdqu	%xmm4, 1056(%rdi)
	movdqu	%xmm3, 1312(%rdi)
	movdqu	1072(%rdi), %xmm1
	movdqu	1328(%rdi), %xmm2
	movdqa	%xmm1, %xmm3
	psrlq	$4, %xmm3
	pxor	%xmm2, %xmm3
	pand	%xmm0, %xmm3
	movdqa	%xmm3, %xmm4
	psllq	$4, %xmm4
	pxor	%xmm1, %xmm4
	pxor	%xmm2, %xmm3
	movdqu	%xmm4, 1072(%rdi)
	movdqu	%xmm3, 1328(%rdi)
	movdqu	1088(%rdi), %xmm1
	movdqu	1344(%rdi), %xmm2
	movdqa	%xmm1, %xmm3
	psrlq	$4, %xmm3
	pxor	%xmm2, %xmm3
	pand	%xmm0, %xmm3
	movdqa	%xmm3, %xmm4
	psllq	$4, %xmm4
	pxor	%xmm1, %xmm4
	pxor	%xmm2, %xmm3
	movdqu	%xmm4, 1088(%rdi)
	movdqu	%xmm3, 1344(%rdi)
	movdqu	1104(%rdi), %xmm1
	movdqu	1360(%rdi), %xmm2
	movdqa	%xmm1, %xmm3
	psrlq	$4, %xmm3
	pxor	%xmm2, %xmm3
	pand	%xmm0, %xmm3
	movdqa	%xmm3, %xmm4
	psllq	$4, %xmm4
	pxor	%xmm1, %xmm4
	pxor	%xmm2, %xmm3
	movdqu	%xmm4, 1104(%rdi)
	movdqu	%xmm3, 1360(%rdi)
	movdqu	1120(%rdi), %xmm1
	movdqu	1376(%rdi), %xmm2
	movdqa	%xmm1, %xmm3
	psrlq	$4, %xmm3
	pxor	%xmm2, %xmm3
	pand	%xmm0, %xmm3
	movdqa	%xmm3, %xmm4
	psllq	$4, %xmm4
	pxor	%xmm1, %xmm4
	pxor	%xmm2, %xmm3
	movdqu	%xmm4, 1120(%rdi)
	movdqu	%xmm3, 1376(%rdi)
	movdqu	1136(%rdi), %xmm1
	movdqu	1392(%rdi), %xmm2
	movdqa	%xmm1, %xmm3
	psrlq	$4, %xmm3
	pxor	%xmm2, %xmm3
	pand	%xmm0, %xmm3
	movdqa	%xmm3, %xmm4
	psllq	$4, %xmm4
	pxor	%xmm1, %xmm4
	pxor	%xmm2, %xmm3
	movdqu	%xmm4, 1136(%rdi)
	movdqu	%xmm3, 1392(%rdi)
	movdqu	1152(%rdi), %xmm1
	movdqu	1408(%rdi), %xmm2
	movdqa	%xmm1, %xmm3
	psrlq	$4, %xmm3
	pxor	%xmm2, %xmm3
	pand	%xmm0, %xmm3
	movdqa	%xmm3, %xmm4
	psllq	$4, %xmm4
	pxor	%xmm1, %xmm4
	pxor	%xmm2, %xmm3
	movdqu	%xmm4, 1152(%rdi)
	movdqu	%xmm3, 1408(%rdi)
	movdqu	1168(%rdi), %xmm1
	movdqu	1424(%rdi), %xmm2
	movdqa	%xmm1, %xmm3
	psrlq	$4, %xmm3
	pxor	%xmm2, %xmm3
	pand	%xmm0, %xmm3
	movdqa	%xmm3, %xmm4
	psllq	$4, %xmm4
	pxor	%xmm1, %xmm4
	pxor	%xmm2, %xmm3
	movdqu	%xmm4, 1168(%rdi)
	movdqu	%xmm3, 1424(%rdi)
	movdqu	1184(%rdi), %xmm1
	movdqu	1440(%rdi), %xmm2
	movdqa	%xmm1, %xmm3
	psrlq	$4, %xmm3
	pxor	%xmm2, %xmm3
	pand	%xmm0, %xmm3
	movdqa	%xmm3, %xmm4
	psllq	$4, %xmm4
	pxor	%xmm1, %xmm4
	pxor	%xmm2, %xmm3
	movdqu	%xmm4, 1184(%rdi)
	movdqu	%xmm3, 1440(%rdi)
	movdqu	1200(%rdi), %xmm1
	movdqu	1456(%rdi), %xmm2
	movdqa	%xmm1, %xmm3
	psrlq	$4, %xmm3
	pxor	%xmm2, %xmm3
	pand	%xmm0, %xmm3
	movdqa	%xmm3, %xmm4
	psllq	$4, %xmm4
	pxor	%xmm1, %xmm4
	pxor	%xmm2, %xmm3
	movdqu	%xmm4, 1200(%rdi)
	movdqu	%xmm3, 1456(%rdi)
	movdqu	1216(%rdi), %xmm1
	movdqu	1472(%rdi), %xmm2
	movdqa	%xmm1, %xmm3
	psrlq	$4, %xmm3
	pxor	%xmm2, %xmm3
	pand	%xmm0, %xmm3
	movdqa	%xmm3, %xmm4
	psllq	$4, %xmm4
	pxor	%xmm1, %xmm4
	pxor	%xmm2, %xmm3
	movdqu	%xmm4, 1216(%rdi)
	movdqu	%xmm3, 1472(%rdi)
	movdqu	1232(%rdi), %xmm1
	movdqu	1488(%rdi), %xmm2
	movdqa	%xmm1, %xmm3
	psrlq	$4, %xmm3
	pxor	%xmm2, %xmm3
	pand	%xmm0, %xmm3
	movdqa	%xmm3, %xmm4
	psllq	$4, %xmm4
	pxor	%xmm1, %xmm4
	pxor	%xmm2, %xmm3
	movdqu	%xmm4, 1232(%rdi)
	movdqu	%xmm3, 1488(%rdi)
	movdqu	1248(%rdi), %xmm1
	movdqu	1504(%rdi), %xmm2
	movdqa	%xmm1, %xmm3
	psrlq	$4, %xmm3
	pxor	%xmm2, %xmm3
	pand	%xmm0, %xmm3
	movdqa	%xmm3, %xmm4
	psllq	$4, %xmm4
	pxor	%xmm1, %xmm4
	pxor	%xmm2, %xmm3
	movdqu	%xmm4, 1248(%rdi)
	movdqu	%xmm3, 1504(%rdi)
	movdqu	1264(%rdi), %xmm1
	movdqu	1520(%rdi), %xmm2
	movdqa	%xmm1, %xmm3
	psrlq	$4, %xmm3
	pxor	%xmm2, %xmm3
	pand	%xmm0, %xmm3
	movdqa	%xmm3, %xmm4
	psllq	$4, %xmm4
	pxor	%xmm1, %xmm4
	pxor	%xmm2, %xmm3
	movdqu	%xmm4, 1264(%rdi)
	movdqu	%xmm3, 1520(%rdi)
	movdqu	1536(%rdi), %xmm1
	movdqu	1792(%rdi), %xmm2
	movdqa	%xmm1, %xmm3
	psrlq	$4, %xmm3
	pxor	%xmm2, %xmm3
	pand	%xmm0, %xmm3
	movdqa	%xmm3, %xmm4
	psllq	$4, %xmm4
	pxor	%xmm1, %xmm4
	pxor	%xmm2, %xmm3
	movdqu	%xmm4, 1536(%rdi)
	movdqu	%xmm3, 1792(%rdi)
	movdqu	1552(%rdi), %xmm1
	movdqu	1808(%rdi), %xmm2
	movdqa	%xmm1, %xmm3
	psrlq	$4, %xmm3
	pxor	%xmm2, %xmm3
	pand	%xmm0, %xmm3
	movdqa	%xmm3, %xmm4
	psllq	$4, %xmm4
	pxor	%xmm1, %xmm4
	pxor	%xmm2, %xmm3
	movdqu	%xmm4, 1552(%rdi)
	movdqu	%xmm3, 1808(%rdi)
	movdqu	1568(%rdi), %xmm1
	movdqu	1824(%rdi), %xmm2
	movdqa	%xmm1, %xmm3
	psrlq	$4, %xmm3
	pxor	%xmm2, %xmm3
	pand	%xmm0, %xmm3
	movdqa	%xmm3, %xmm4
	psllq	$4, %xmm4
	pxor	%xmm1, %xmm4
	pxor	%xmm2, %xmm3
	movdqu	%xmm4, 1568(%rdi)
	movdqu	%xmm3, 1824(%rdi)
	movdqu	1584(%rdi), %xmm1
	movdqu	1840(%rdi), %xmm2
	movdqa	%xmm1, %xmm3
	psrlq	$4, %xmm3
	pxor	%xmm2, %xmm3
	pand	%xmm0, %xmm3
	movdqa	%xmm3, %xmm4
	psllq	$4, %xmm4
	pxor	%xmm1, %xmm4
	pxor	%xmm2, %xmm3
	movdqu	%xmm4, 1584(%rdi)
	movdqu	%xmm3, 1840(%rdi)
	movdqu	1600(%rdi), %xmm1
	movdqu	1856(%rdi), %xmm2
	movdqa	%xmm1, %xmm3
	psrlq	$4, %xmm3
	pxor	%xmm2, %xmm3
	pand	%xmm0, %xmm3
	movdqa	%xmm3, %xmm4
	psllq	$4, %xmm4
	pxor	%xmm1, %xmm4
	pxor	%xmm2, %xmm3
	movdqu	%xmm4, 1600(%rdi)
	movdqu	%xmm3, 1856(%rdi)
	movdqu	1616(%rdi), %xmm1
	movdqu	1872(%rdi), %xmm2
	movdqa	%xmm1, %xmm3
	psrlq	$4, %xmm3
	pxor	%xmm2, %xmm3
	pand	%xmm0, %xmm3
	movdqa	%xmm3, %xmm4
	psllq	$4, %xmm4
	pxor	%xmm1, %xmm4
	pxor	%xmm2, %xmm3
	movdqu	%xmm4, 1616(%rdi)
	movdqu	%xmm3, 1872(%rdi)
	movdqu	1632(%rdi), %xmm1
	movdqu	1888(%rdi), %xmm2
	movdqa	%xmm1, %xmm3
	psrlq	$4, %xmm3
	pxor	%xmm2, %xmm3
	pand	%xmm0, %xmm3
	movdqa	%xmm3, %xmm4
	psllq	$4, %xmm4
	pxor	%xmm1, %xmm4
	pxor	%xmm2, %xmm3
	movdqu	%xmm4, 1632(%rdi)
	movdqu	%xmm3, 1888(%rdi)
	movdqu	1648(%rdi), %xmm1
	movdqu	1904(%rdi), %xmm2
	movdqa	%xmm1, %xmm3
	psrlq	$4, %xmm3
	pxor	%xmm2, %xmm3
	pand	%xmm0, %xmm3
	movdqa	%xmm3, %xmm4
	psllq	$4, %xmm4
	pxor	%xmm1, %xmm4
	pxor	%xmm2, %xmm3
	movdqu	%xmm4, 1648(%rdi)
	movdqu	%xmm3, 1904(%rdi)
	movdqu	1664(%rdi), %xmm1
	movdqu	1920(%rdi), %xmm2
	movdqa	%xmm1, %xmm3
	psrlq	$4, %xmm3
	pxor	%xmm2, %xmm3
	pand	%xmm0, %xmm3
	movdqa	%xmm3, %xmm4
	psllq	$4, %xmm4
	pxor	%xmm1, %xmm4
	pxor	%xmm2, %xmm3
	movdqu	%xmm4, 1664(%rdi)
	movdqu	%xmm3, 1920(%rdi)
	movdqu	1680(%rdi), %xmm1
	movdqu	1936(%rdi), %xmm2
	movdqa	%xmm1, %xmm3
	psrlq	$4, %xmm3
	pxor	%xmm2, %xmm3
	pand	%xmm0, %xmm3
	movdqa	%xmm3, %xmm4
	psllq	$4, %xmm4
	pxor	%xmm1, %xmm4
	pxor	%xmm2, %xmm3
	movdqu	%xmm4, 1680(%rdi)
	movdqu	%xmm3, 1936(%rdi)
	movdqu	1696(%rdi), %xmm1
	movdqu	1952(%rdi), %xmm2
	movdqa	%xmm1, %xmm3
	psrlq	$4, %xmm3
	pxor	%xmm2, %xmm3
	pand	%xmm0, %xmm3
	movdqa	%xmm3, %xmm4
	psllq	$4, %xmm4
	pxor	%xmm1, %xmm4
	pxor	%xmm2, %xmm3
	movdqu	%xmm4, 1696(%rdi)
	movdqu	%xmm3, 1952(%rdi)
	movdqu	1712(%rdi), %xmm1
	movdqu	1968(%rdi), %xmm2
	movdqa	%xmm1, %xmm3
	psrlq	$4, %xmm3
	pxor	%xmm2, %xmm3
	pand	%xmm0, %xmm3
	movdqa	%xmm3, %xmm4
	psllq	$4, %xmm4
	pxor	%xmm1, %xmm4
	pxor	%xmm2, %xmm3
	movdqu	%xmm4, 1712(%rdi)
	movdqu	%xmm3, 1968(%rdi)
	movdqu	1728(%rdi), %xmm1
	movdqu	1984(%rdi), %xmm2
	movdqa	%xmm1, %xmm3
	psrlq	$4, %xmm3
	pxor	%xmm2, %xmm3
	pand	%xmm0, %xmm3
	movdqa	%xmm3, %xmm4
	psllq	$4, %xmm4
	pxor	%xmm1, %xmm4
	pxor	%xmm2, %xmm3
	movdqu	%xmm4, 1728(%rdi)
	movdqu	%xmm3, 1984(%rdi)
	movdqu	1744(%rdi), %xmm1
	movdqu	2000(%rdi), %xmm2
	movdqa	%xmm1, %xmm3
	psrlq	$4, %xmm3
	pxor	%xmm2, %xmm3
	pand	%xmm0, %xmm3
	movdqa	%xmm3, %xmm4
	psllq	$4, %xmm4
	pxor	%xmm1, %xmm4
	pxor	%xmm2, %xmm3
	movdqu	%xmm4, 1744(%rdi)
	movdqu	%xmm3, 2000(%rdi)
	movdqu	1760(%rdi), %xmm1
	movdqu	2016(%rdi), %xmm2
	movdqa	%xmm1, %xmm3
	psrlq	$4, %xmm3
	pxor	%xmm2, %xmm3
	pand	%xmm0, %xmm3
	movdqa	%xmm3, %xmm4
	psllq	$4, %xmm4
	pxor	%xmm1, %xmm4
	pxor	%xmm2, %xmm3
	movdqu	%xmm4, 1760(%rdi)
	movdqu	%xmm3, 2016(%rdi)
	movdqu	1776(%rdi), %xmm1
	movdqu	2032(%rdi), %xmm2
	movdqa	%xmm1, %xmm3
	psrlq	$4, %xmm3
	pxor	%xmm2, %xmm3
	pand	%xmm0, %xmm3
	movdqa	%xmm3, %xmm4
	psllq	$4, %xmm4
	pxor	%xmm1, %xmm4
	pxor	%xmm2, %xmm3
	movdqu	%xmm4, 1776(%rdi)
	movdqu	%xmm3, 2032(%rdi)
	movdqu	2048(%rdi), %xmm1
	movdqu	2304(%rdi), %xmm2
	movdqa	%xmm1, %xmm3
	psrlq	$4, %xmm3
	pxor	%xmm2, %xmm3
	pand	%xmm0, %xmm3
	movdqa	%xmm3, %xmm4
	psllq	$4, %xmm4
	pxor	%xmm1, %xmm4
	pxor	%xmm2, %xmm3
	movdqu	%xmm4, 2048(%rdi)
	movdqu	%xmm3, 2304(%rdi)
	movdqu	2064(%rdi), %xmm1
	movdqu	2320(%rdi), %xmm2
	movdqa	%xmm1, %xmm3
	psrlq	$4, %xmm3
	pxor	%xmm2, %xmm3
	pand	%xmm0, %xmm3
	movdqa	%xmm3, %xmm4
	psllq	$4, %xmm4
	pxor	%xmm1, %xmm4
	pxor	%xmm2, %xmm3
	movdqu	%xmm4, 2064(%rdi)
	movdqu	%xmm3, 2320(%rdi)
	movdqu	2080(%rdi), %xmm1
	movdqu	2336(%rdi), %xmm2
	movdqa	%xmm1, %xmm3
	psrlq	$4, %xmm3
	pxor	%xmm2, %xmm3
	pand	%xmm0, %xmm3
	movdqa	%xmm3, %xmm4
	psllq	$4, %xmm4
	pxor	%xmm1, %xmm4
	pxor	%xmm2, %xmm3
	movdqu	%xmm4, 2080(%rdi)
	movdqu	%xmm3, 2336(%rdi)
	movdqu	2096(%rdi), %xmm1
	movdqu	2352(%rdi), %xmm2
	movdqa	%xmm1, %xmm3
	psrlq	$4, %xmm3
	pxor	%xmm2, %xmm3
	pand	%xmm0, %xmm3
	movdqa	%xmm3, %xmm4
	psllq	$4, %xmm4
	pxor	%xmm1, %xmm4
	pxor	%xmm2, %xmm3
	movdqu	%xmm4, 2096(%rdi)
	movdqu	%xmm3, 2352(%rdi)
	movdqu	2112(%rdi), %xmm1
	movdqu	2368(%rdi), %xmm2
	movdqa	%xmm1, %xmm3
	psrlq	$4, %xmm3
	pxor	%xmm2, %xmm3
	pand	%xmm0, %xmm3
	movdqa	%xmm3, %xmm4
	psllq	$4, %xmm4
	pxor	%xmm1, %xmm4
	pxor	%xmm2, %xmm3
	movdqu	%xmm4, 2112(%rdi)
	movdqu	%xmm3, 2368(%rdi)
	movdqu	2128(%rdi), %xmm1
	movdqu	2384(%rdi), %xmm2
	movdqa	%xmm1, %xmm3
	psrlq	$4, %xmm3
	pxor	%xmm2, %xmm3
	pand	%xmm0, %xmm3
	movdqa	%xmm3, %xmm4
	psllq	$4, %xmm4
	pxor	%xmm1, %xmm4
	pxor	%xmm2, %xmm3
	movdqu	%xmm4, 2128(%rdi)
	movdqu	%xmm3, 2384(%rdi)
	movdqu	2144(%rdi), %xmm1
	movdqu	2400(%rdi), %xmm2
	movdqa	%xmm1, %xmm3
	psrlq	$4, %xmm3
	pxor	%xmm2, %xmm3
	pand	%xmm0, %xmm3
	movdqa	%xmm3, %xmm4
	psllq	$4, %xmm4
	pxor	%xmm1, %xmm4
	pxor	%xmm2, %xmm3
	movdqu	%xmm4, 2144(%rdi)
	movdqu	%xmm3, 2400(%rdi)
	movdqu	2160(%rdi), %xmm1
	movdqu	2416(%rdi), %xmm2
	movdqa	%xmm1, %xmm3
	psrlq	$4, %xmm3
	pxor	%xmm2, %xmm3
	pand	%xmm0, %xmm3
	movdqa	%xmm3, %xmm4
	psllq	$4, %xmm4
	pxor	%xmm1, %xmm4
	pxor	%xmm2, %xmm3
	movdqu	%xmm4, 2160(%rdi)
	movdqu	%xmm3, 2416(%rdi)
	movdqu	2176(%rdi), %xmm1
	movdqu	2432(%rdi), %xmm2
	movdqa	%xmm1, %xmm3
	psrlq	$4, %xmm3
	pxor	%xmm2, %xmm3
	pand	%xmm0, %xmm3
	movdqa	%xmm3, %xmm4
	psllq	$4, %xmm4
	pxor	%xmm1, %xmm4
	pxor	%xmm2, %xmm3
	movdqu	%xmm4, 2176(%rdi)
	movdqu	%xmm3, 2432(%rdi)
	movdqu	2192(%rdi), %xmm1
	movdqu	2448(%rdi), %xmm2
	movdqa	%xmm1, %xmm3
	psrlq	$4, %xmm3
	pxor	%xmm2, %xmm3
	pand	%xmm0, %xmm3
	movdqa	%xmm3, %xmm4
	psllq	$4, %xmm4
	pxor	%xmm1, %xmm4
	pxor	%xmm2, %xmm3
	movdqu	%xmm4, 2192(%rdi)
	movdqu	%xmm3, 2448(%rdi)
	movdqu	2208(%rdi), %xmm1
	movdqu	2464(%rdi), %xmm2
	movdqa	%xmm1, %xmm3
	psrlq	$4, %xmm3
	pxor	%xmm2, %xmm3
	pand	%xmm0, %xmm3
	movdqa	%xmm3, %xmm4
	psllq	$4, %xmm4
	pxor	%xmm1, %xmm4
	pxor	%xmm2, %xmm3
	movdqu	%xmm4, 2208(%rdi)
	movdqu	%xmm3, 2464(%rdi)
	movdqu	2224(%rdi), %xmm1
	movdqu	2480(%rdi), %xmm2
	movdqa	%xmm1, %xmm3
	psrlq	$4, %xmm3
	pxor	%xmm2, %xmm3
	pand	%xmm0, %xmm3
	movdqa	%xmm3, %xmm4
	psllq	$4, %xmm4
	pxor	%xmm1, %xmm4
	pxor	%xmm2, %xmm3
	movdqu	%xmm4, 2224(%rdi)
	movdqu	%xmm3, 2480(%rdi)
	movdqu	2240(%rdi), %xmm1
	movdqu	2496(%rdi), %xmm2
	movdqa	%xmm1, %xmm3
	psrlq	$4, %xmm3
	pxor	%xmm2, %xmm3
	pand	%xmm0, %xmm3
	movdqa	%xmm3, %xmm4
	psllq	$4, %xmm4
	pxor	%xmm1, %xmm4
	pxor	%xmm2, %xmm3
	movdqu	%xmm4, 2240(%rdi)
	movdqu	%xmm3, 2496(%rdi)
	movdqu	2256(%rdi), %xmm1
	movdqu	2512(%rdi), %xmm2
	movdqa	%xmm1, %xmm3
	psrlq	$4, %xmm3
	pxor	%xmm2, %xmm3
	pand	%xmm0, %xmm3
	movdqa	%xmm3, %xmm4
	psllq	$4, %xmm4
	pxor	%xmm1, %xmm4
	pxor	%xmm2, %xmm3
	movdqu	%xmm4, 2256(%rdi)
	movdqu	%xmm3, 2512(%rdi)
	movdqu	2272(%rdi), %xmm1
	movdqu	2528(%rdi), %xmm2
	movdqa	%xmm1, %xmm3
	psrlq	$4, %xmm3
	pxor	%xmm2, %xmm3
	pand	%xmm0, %xmm3
	movdqa	%xmm3, %xmm4
	psllq	$4, %xmm4
	pxor	%xmm1, %xmm4
	pxor	%xmm2, %xmm3
	movdqu	%xmm4, 2272(%rdi)
	movdqu	%xmm3, 2528(%rdi)
	movdqu	2288(%rdi), %xmm1
	movdqu	2544(%rdi), %xmm2
	movdqa	%xmm1, %xmm3
	psrlq	$4, %xmm3
	pxor	%xmm2, %xmm3
	pand	%xmm0, %xmm3
	movdqa	%xmm3, %xmm4
	psllq	$4, %xmm4
	pxor	%xmm1, %xmm4
	pxor	%xmm2, %xmm3
	movdqu	%xmm4, 2288(%rdi)
	movdqu	%xmm3, 2544(%rdi)
	movdqu	2560(%rdi), %xmm1
	movdqu	2816(%rdi), %xmm2
	movdqa	%xmm1, %xmm3
	psrlq	$4, %xmm3
	pxor	%xmm2, %xmm3
	pand	%xmm0, %xmm3
	movdqa	%xmm3, %xmm4
	psllq	$4, %xmm4
	pxor	%xmm1, %xmm4
	pxor	%xmm2, %xmm3
	movdqu	%xmm4, 2560(%rdi)
	movdqu	%xmm3, 2816(%rdi)
	movdqu	2576(%rdi), %xmm1
	movdqu	2832(%rdi), %xmm2
	movdqa	%xmm1, %xmm3
	psrlq	$4, %xmm3
	pxor	%xmm2, %xmm3
	pand	%xmm0, %xmm3
	movdqa	%xmm3, %xmm4
	psllq	$4, %xmm4
	pxor	%xmm1, %xmm4
	pxor	%xmm2, %xmm3
	movdqu	%xmm4, 2576(%rdi)
	movdqu	%xmm3, 2832(%rdi)
	movdqu	2592(%rdi), %xmm1
	movdqu	2848(%rdi), %xmm2
	movdqa	%xmm1, %xmm3
	psrlq	$4, %xmm3
	pxor	%xmm2, %xmm3
	pand	%xmm0, %xmm3
	movdqa	%xmm3, %xmm4
	psllq	$4, %xmm4
	pxor	%xmm1, %xmm4
	pxor	%xmm2, %xmm3
	movdqu	%xmm4, 2592(%rdi)
	movdqu	%xmm3, 2848(%rdi)
	movdqu	2608(%rdi), %xmm1
	movdqu	2864(%rdi), %xmm2
	movdqa	%xmm1, %xmm3
	psrlq	$4, %xmm3
	pxor	%xmm2, %xmm3
	pand	%xmm0, %xmm3
	movdqa	%xmm3, %xmm4
	psllq	$4, %xmm4
	pxor	%xmm1, %xmm4
	pxor	%xmm2, %xmm3
	movdqu	%xmm4, 2608(%rdi)
	movdqu	%xmm3, 2864(%rdi)
	movdqu	2624(%rdi), %xmm1
	movdqu	2880(%rdi), %xmm2
	movdqa	%xmm1, %xmm3
	psrlq	$4, %xmm3
	pxor	%xmm2, %xmm3
	pand	%xmm0, %xmm3
	movdqa	%xmm3, %xmm4
	psllq	$4, %xmm4
	pxor	%xmm1, %xmm4
	pxor	%xmm2, %xmm3
	movdqu	%xmm4, 2624(%rdi)
	movdqu	%xmm3, 2880(%rdi)
	movdqu	2640(%rdi), %xmm1
	movdqu	2896(%rdi), %xmm2
	movdqa	%xmm1, %xmm3
	psrlq	$4, %xmm3
	pxor	%xmm2, %xmm3
	pand	%xmm0, %xmm3
	movdqa	%xmm3, %xmm4
	psllq	$4, %xmm4
	pxor	%xmm1, %xmm4
	pxor	%xmm2, %xmm3
	movdqu	%xmm4, 2640(%rdi)
	movdqu	%xmm3, 2896(%rdi)
	movdqu	2656(%rdi), %xmm1
	movdqu	2912(%rdi), %xmm2
	movdqa	%xmm1, %xmm3
	psrlq	$4, %xmm3
	pxor	%xmm2, %xmm3
	pand	%xmm0, %xmm3
	movdqa	%xmm3, %xmm4
	psllq	$4, %xmm4
	pxor	%xmm1, %xmm4
	pxor	%xmm2, %xmm3
	movdqu	%xmm4, 2656(%rdi)
	movdqu	%xmm3, 2912(%rdi)
	movdqu	2672(%rdi), %xmm1
	movdqu	2928(%rdi), %xmm2
	movdqa	%xmm1, %xmm3
	psrlq	$4, %xmm3
	pxor	%xmm2, %xmm3
	pand	%xmm0, %xmm3
	movdqa	%xmm3, %xmm4
	psllq	$4, %xmm4
	pxor	%xmm1, %xmm4
	pxor	%xmm2, %xmm3
	movdqu	%xmm4, 2672(%rdi)
	movdqu	%xmm3, 2928(%rdi)
	movdqu	2688(%rdi), %xmm1
	movdqu	2944(%rdi), %xmm2
	movdqa	%xmm1, %xmm3
	psrlq	$4, %xmm3
	pxor	%xmm2, %xmm3
	pand	%xmm0, %xmm3
	movdqa	%xmm3, %xmm4
	psllq	$4, %xmm4
	pxor	%xmm1, %xmm4
	pxor	%xmm2, %xmm3
	movdqu	%xmm4, 2688(%rdi)
	movdqu	%xmm3, 2944(%rdi)
	movdqu	2704(%rdi), %xmm1
	movdqu	2960(%rdi), %xmm2
	movdqa	%xmm1, %xmm3
	psrlq	$4, %xmm3
	pxor	%xmm2, %xmm3
	pand	%xmm0, %xmm3
	movdqa	%xmm3, %xmm4
	psllq	$4, %xmm4
	pxor	%xmm1, %xmm4
	pxor	%xmm2, %xmm3
	movdqu	%xmm4, 2704(%rdi)
	movdqu	%xmm3, 2960(%rdi)
	movdqu	2720(%rdi), %xmm1
	movdqu	2976(%rdi), %xmm2
	movdqa	%xmm1, %xmm3
	psrlq	$4, %xmm3
	pxor	%xmm2, %xmm3
	pand	%xmm0, %xmm3
	movdqa	%xmm3, %xmm4
	psllq	$4, %xmm4
	pxor	%xmm1, %xmm4
	pxor	%xmm2, %xmm3
	movdqu	%xmm4, 2720(%rdi)
	movdqu	%xmm3, 2976(%rdi)
	movdqu	2736(%rdi), %xmm1
	movdqu	2992(%rdi), %xmm2
	movdqa	%xmm1, %xmm3
	psrlq	$4, %xmm3
	pxor	%xmm2, %xmm3
	pand	%xmm0, %xmm3
	movdqa	%xmm3, %xmm4
	psllq	$4, %xmm4
	pxor	%xmm1, %xmm4
	pxor	%xmm2, %xmm3
	movdqu	%xmm4, 2736(%rdi)
	movdqu	%xmm3, 2992(%rdi)
	movdqu	2752(%rdi), %xmm1
	movdqu	3008(%rdi), %xmm2
	movdqa	%xmm1, %xmm3
	psrlq	$4, %xmm3
	pxor	%xmm2, %xmm3
	pand	%xmm0, %xmm3
	movdqa	%xmm3, %xmm4
	psllq	$4, %xmm4
	pxor	%xmm1, %xmm4
	pxor	%xmm2, %xmm3
	movdqu	%xmm4, 2752(%rdi)
	movdqu	%xmm3, 3008(%rdi)
	movdqu	2768(%rdi), %xmm1
	movdqu	3024(%rdi), %xmm2
	movdqa	%xmm1, %xmm3
	psrlq	$4, %xmm3
	pxor	%xmm2, %xmm3
	pand	%xmm0, %xmm3
	movdqa	%xmm3, %xmm4
	psllq	$4, %xmm4
	pxor	%xmm1, %xmm4
	pxor	%xmm2, %xmm3
	movdqu	%xmm4, 2768(%rdi)
	movdqu	%xmm3, 3024(%rdi)
	movdqu	2784(%rdi), %xmm1
	movdqu	3040(%rdi), %xmm2
	movdqa	%xmm1, %xmm3
	psrlq	$4, %xmm3
	pxor	%xmm2, %xmm3
	pand	%xmm0, %xmm3
	movdqa	%xmm3, %xmm4
	psllq	$4, %xmm4
	pxor	%xmm1, %xmm4
	pxor	%xmm2, %xmm3
	movdqu	%xmm4, 2784(%rdi)
	movdqu	%xmm3, 3040(%rdi)
	movdqu	2800(%rdi), %xmm1
	movdqu	3056(%rdi), %xmm2
	movdqa	%xmm1, %xmm3
	psrlq	$4, %xmm3
	pxor	%xmm2, %xmm3
	pand	%xmm0, %xmm3
	movdqa	%xmm3, %xmm4
	psllq	$4, %xmm4
	pxor	%xmm1, %xmm4
	pxor	%xmm2, %xmm3
	movdqu	%xmm4, 2800(%rdi)
	movdqu	%xmm3, 3056(%rdi)
	movdqu	3072(%rdi), %xmm1
	movdqu	3328(%rdi), %xmm2
	movdqa	%xmm1, %xmm3
	psrlq	$4, %xmm3
	pxor	%xmm2, %xmm3
	pand	%xmm0, %xmm3
	movdqa	%xmm3, %xmm4
	psllq	$4, %xmm4
	pxor	%xmm1, %xmm4
	pxor	%xmm2, %xmm3
	movdqu	%xmm4, 3072(%rdi)
	movdqu	%xmm3, 3328(%rdi)
	movdqu	3088(%rdi), %xmm1
	movdqu	3344(%rdi), %xmm2
	movdqa	%xmm1, %xmm3
	psrlq	$4, %xmm3
	pxor	%xmm2, %xmm3
	pand	%xmm0, %xmm3
	movdqa	%xmm3, %xmm4
	psllq	$4, %xmm4
	pxor	%xmm1, %xmm4
	pxor	%xmm2, %xmm3
	movdqu	%xmm4, 3088(%rdi)
	movdqu	%xmm3, 3344(%rdi)
	movdqu	3104(%rdi), %xmm1
	movdqu	3360(%rdi), %xmm2
	movdqa	%xmm1, %xmm3
	psrlq	$4, %xmm3
	pxor	%xmm2, %xmm3
	pand	%xmm0, %xmm3
	movdqa	%xmm3, %xmm4
	psllq	$4, %xmm4
	pxor	%xmm1, %xmm4
	pxor	%xmm2, %xmm3
	movdqu	%xmm4, 3104(%rdi)
	movdqu	%xmm3, 3360(%rdi)
	movdqu	3120(%rdi), %xmm1
	movdqu	3376(%rdi), %xmm2
	movdqa	%xmm1, %xmm3
	psrlq	$4, %xmm3
	pxor	%xmm2, %xmm3
	pand	%xmm0, %xmm3
	movdqa	%xmm3, %xmm4
	psllq	$4, %xmm4
	pxor	%xmm1, %xmm4
	pxor	%xmm2, %xmm3
	movdqu	%xmm4, 3120(%rdi)
	movdqu	%xmm3, 3376(%rdi)
	movdqu	3136(%rdi), %xmm1
	movdqu	3392(%rdi), %xmm2
	movdqa	%xmm1, %xmm3
	psrlq	$4, %xmm3
	pxor	%xmm2, %xmm3
	pand	%xmm0, %xmm3
	movdqa	%xmm3, %xmm4
	psllq	$4, %xmm4
	pxor	%xmm1, %xmm4
	pxor	%xmm2, %xmm3
	movdqu	%xmm4, 3136(%rdi)
	movdqu	%xmm3, 3392(%rdi)
	movdqu	3152(%rdi), %xmm1
	movdqu	3408(%rdi), %xmm2
	movdqa	%xmm1, %xmm3
	psrlq	$4, %xmm3
	pxor	%xmm2, %xmm3
	pand	%xmm0, %xmm3
	movdqa	%xmm3, %xmm4
	psllq	$4, %xmm4
	pxor	%xmm1, %xmm4
	pxor	%xmm2, %xmm3
	movdqu	%xmm4, 3152(%rdi)
	movdqu	%xmm3, 3408(%rdi)
	movdqu	3168(%rdi), %xmm1
	movdqu	3424(%rdi), %xmm2
	movdqa	%xmm1, %xmm3
	psrlq	$4, %xmm3
	pxor	%xmm2, %xmm3
	pand	%xmm0, %xmm3
	movdqa	%xmm3, %xmm4
	psllq	$4, %xmm4
	pxor	%xmm1, %xmm4
	pxor	%xmm2, %xmm3
	movdqu	%xmm4, 3168(%rdi)
	movdqu	%xmm3, 3424(%rdi)
	movdqu	3184(%rdi), %xmm1
	movdqu	3440(%rdi), %xmm2
	movdqa	%xmm1, %xmm3
	psrlq	$4, %xmm3
	pxor	%xmm2, %xmm3
	pand	%xmm0, %xmm3
	movdqa	%xmm3, %xmm4
	psllq	$4, %xmm4
	pxor	%xmm1, %xmm4
	pxor	%xmm2, %xmm3
	movdqu	%xmm4, 3184(%rdi)
	movdqu	%xmm3, 3440(%rdi)
	movdqu	3200(%rdi), %xmm1
	movdqu	3456(%rdi), %xmm2
	movdqa	%xmm1, %xmm3
	psrlq	$4, %xmm3
	pxor	%xmm2, %xmm3
	pand	%xmm0, %xmm3
	movdqa	%xmm3, %xmm4
	psllq	$4, %xmm4
	pxor	%xmm1, %xmm4
	pxor	%xmm2, %xmm3
	movdqu	%xmm4, 3200(%rdi)
	movdqu	%xmm3, 3456(%rdi)
	movdqu	3216(%rdi), %xmm1
	movdqu	3472(%rdi), %xmm2
	movdqa	%xmm1, %xmm3
	psrlq	$4, %xmm3
	pxor	%xmm2, %xmm3
	pand	%xmm0, %xmm3
	movdqa	%xmm3, %xmm4
	psllq	$4, %xmm4
	pxor	%xmm1, %xmm4
	pxor	%xmm2, %xmm3
	movdqu	%xmm4, 3216(%rdi)
	movdqu	%xmm3, 3472(%rdi)
	movdqu	3232(%rdi), %xmm1
	movdqu	3488(%rdi), %xmm2
	movdqa	%xmm1, %xmm3
	psrlq	$4, %xmm3
	pxor	%xmm2, %xmm3
	pand	%xmm0, %xmm3
	movdqa	%xmm3, %xmm4
	psllq	$4, %xmm4
	pxor	%xmm1, %xmm4
	pxor	%xmm2, %xmm3
	movdqu	%xmm4, 3232(%rdi)
	movdqu	%xmm3, 3488(%rdi)
	movdqu	3248(%rdi), %xmm1
	movdqu	3504(%rdi), %xmm2
	movdqa	%xmm1, %xmm3
	psrlq	$4, %xmm3
	pxor	%xmm2, %xmm3
	pand	%xmm0, %xmm3
	movdqa	%xmm3, %xmm4
	psllq	$4, %xmm4
	pxor	%xmm1, %xmm4
	pxor	%xmm2, %xmm3
	movdqu	%xmm4, 3248(%rdi)
	movdqu	%xmm3, 3504(%rdi)
	movdqu	3264(%rdi), %xmm1
	movdqu	3520(%rdi), %xmm2
	movdqa	%xmm1, %xmm3
	psrlq	$4, %xmm3
	pxor	%xmm2, %xmm3
	pand	%xmm0, %xmm3
	movdqa	%xmm3, %xmm4
	psllq	$4, %xmm4
	pxor	%xmm1, %xmm4
	pxor	%xmm2, %xmm3
	movdqu	%xmm4, 3264(%rdi)
	movdqu	%xmm3, 3520(%rdi)
	movdqu	3280(%rdi), %xmm1
	movdqu	3536(%rdi), %xmm2
	movdqa	%xmm1, %xmm3
	psrlq	$4, %xmm3
	pxor	%xmm2, %xmm3
	pand	%xmm0, %xmm3
	movdqa	%xmm3, %xmm4
	psllq	$4, %xmm4
	pxor	%xmm1, %xmm4
	pxor	%xmm2, %xmm3
	movdqu	%xmm4, 3280(%rdi)
	movdqu	%xmm3, 3536(%rdi)
	movdqu	3296(%rdi), %xmm1
	movdqu	3552(%rdi), %xmm2
	movdqa	%xmm1, %xmm3
	psrlq	$4, %xmm3
	pxor	%xmm2, %xmm3
	pand	%xmm0, %xmm3
	movdqa	%xmm3, %xmm4
	psllq	$4, %xmm4
	pxor	%xmm1, %xmm4
	pxor	%xmm2, %xmm3
	movdqu	%xmm4, 3296(%rdi)
	movdqu	%xmm3, 3552(%rdi)
	movdqu	3312(%rdi), %xmm1
	movdqu	3568(%rdi), %xmm2
	movdqa	%xmm1, %xmm3
	psrlq	$4, %xmm3
	pxor	%xmm2, %xmm3
	pand	%xmm0, %xmm3
	movdqa	%xmm3, %xmm4
	psllq	$4, %xmm4
	pxor	%xmm1, %xmm4
	pxor	%xmm2, %xmm3
	movdqu	%xmm4, 3312(%rdi)
	movdqu	%xmm3, 3568(%rdi)
	movdqu	3584(%rdi), %xmm1
	movdqu	3840(%rdi), %xmm2
	movdqa	%xmm1, %xmm3
	psrlq	$4, %xmm3
	pxor	%xmm2, %xmm3
	pand	%xmm0, %xmm3
	movdqa	%xmm3, %xmm4
	psllq	$4, %xmm4
	pxor	%xmm1, %xmm4
	pxor	%xmm2, %xmm3
	movdqu	%xmm4, 3584(%rdi)
	movdqu	%xmm3, 3840(%rdi)
	movdqu	3600(%rdi), %xmm1
	movdqu	3856(%rdi), %xmm2
	movdqa	%xmm1, %xmm3
	psrlq	$4, %xmm3
	pxor	%xmm2, %xmm3
	pand	%xmm0, %xmm3
	movdqa	%xmm3, %xmm4
	psllq	$4, %xmm4
	pxor	%xmm1, %xmm4
	pxor	%xmm2, %xmm3
	movdqu	%xmm4, 3600(%rdi)
	movdqu	%xmm3, 3856(%rdi)
	movdqu	3616(%rdi), %xmm1
	movdqu	3872(%rdi), %xmm2
	movdqa	%xmm1, %xmm3
	psrlq	$4, %xmm3
	pxor	%xmm2, %xmm3
	pand	%xmm0, %xmm3
	movdqa	%xmm3, %xmm4
	psllq	$4, %xmm4
	pxor	%xmm1, %xmm4
	pxor	%xmm2, %xmm3
	movdqu	%xmm4, 3616(%rdi)
	movdqu	%xmm3, 3872(%rdi)
	movdqu	3632(%rdi), %xmm1
	movdqu	3888(%rdi), %xmm2
	movdqa	%xmm1, %xmm3
	psrlq	$4, %xmm3
	pxor	%xmm2, %xmm3
	pand	%xmm0, %xmm3
	movdqa	%xmm3, %xmm4
	psllq	$4, %xmm4
	pxor	%xmm1, %xmm4
	pxor	%xmm2, %xmm3
	movdqu	%xmm4, 3632(%rdi)
	movdqu	%xmm3, 3888(%rdi)
	movdqu	3648(%rdi), %xmm1
	movdqu	3904(%rdi), %xmm2
	movdqa	%xmm1, %xmm3
	psrlq	$4, %xmm3
	pxor	%xmm2, %xmm3
	pand	%xmm0, %xmm3
	movdqa	%xmm3, %xmm4
	psllq	$4, %xmm4
	pxor	%xmm1, %xmm4
	pxor	%xmm2, %xmm3
	movdqu	%xmm4, 3648(%rdi)
	movdqu	%xmm3, 3904(%rdi)
	movdqu	3664(%rdi), %xmm1
	movdqu	3920(%rdi), %xmm2
	movdqa	%xmm1, %xmm3
	psrlq	$4, %xmm3
	pxor	%xmm2, %xmm3
	pand	%xmm0, %xmm3
	movdqa	%xmm3, %xmm4
	psllq	$4, %xmm4
	pxor	%xmm1, %xmm4
	pxor	%xmm2, %xmm3
	movdqu	%xmm4, 3664(%rdi)
	movdqu	%xmm3, 3920(%rdi)
	movdqu	3680(%rdi), %xmm1
	movdqu	3936(%rdi), %xmm2
	movdqa	%xmm1, %xmm3
	psrlq	$4, %xmm3
	pxor	%xmm2, %xmm3
	pand	%xmm0, %xmm3
	movdqa	%xmm3, %xmm4
	psllq	$4, %xmm4
	pxor	%xmm1, %xmm4
	pxor	%xmm2, %xmm3
	movdqu	%xmm4, 3680(%rdi)
	movdqu	%xmm3, 3936(%rdi)
	movdqu	3696(%rdi), %xmm1
	movdqu	3952(%rdi), %xmm2
	movdqa	%xmm1, %xmm3
	psrlq	$4, %xmm3
	pxor	%xmm2, %xmm3
	pand	%xmm0, %xmm3
	movdqa	%xmm3, %xmm4
	psllq	$4, %xmm4
	pxor	%xmm1, %xmm4
	pxor	%xmm2, %xmm3
	movdqu	%xmm4, 3696(%rdi)
	movdqu	%xmm3, 3952(%rdi)
	movdqu	3712(%rdi), %xmm1
	movdqu	3968(%rdi), %xmm2
	movdqa	%xmm1, %xmm3
	psrlq	$4, %xmm3
	pxor	%xmm2, %xmm3
	pand	%xmm0, %xmm3
	movdqa	%xmm3, %xmm4
	psllq	$4, %xmm4
	pxor	%xmm1, %xmm4
	pxor	%xmm2, %xmm3
	movdqu	%xmm4, 3712(%rdi)
	movdqu	%xmm3, 3968(%rdi)
	movdqu	3728(%rdi), %xmm1
	movdqu	3984(%rdi), %xmm2
	movdqa	%xmm1, %xmm3
	psrlq	$4, %xmm3
	pxor	%xmm2, %xmm3
	pand	%xmm0, %xmm3
	movdqa	%xmm3, %xmm4
	psllq	$4, %xmm4
	pxor	%xmm1, %xmm4
	pxor	%xmm2, %xmm3
	movdqu	%xmm4, 3728(%rdi)
	movdqu	%xmm3, 3984(%rdi)
	movdqu	3744(%rdi), %xmm1
	movdqu	4000(%rdi), %xmm2
	movdqa	%xmm1, %xmm3
	psrlq	$4, %xmm3
	pxor	%xmm2, %xmm3
	pand	%xmm0, %xmm3
	movdqa	%xmm3, %xmm4
	psllq	$4, %xmm4
	pxor	%xmm1, %xmm4
	pxor	%xmm2, %xmm3
	movdqu	%xmm4, 3744(%rdi)
	movdqu	%xmm3, 4000(%rdi)
	movdqu	3760(%rdi), %xmm1
	movdqu	4016(%rdi), %xmm2
	movdqa	%xmm1, %xmm3
	psrlq	$4, %xmm3
	pxor	%xmm2, %xmm3
	pand	%xmm0, %xmm3
	movdqa	%xmm3, %xmm4
	psllq	$4, %xmm4
	pxor	%xmm1, %xmm4
	pxor	%xmm2, %xmm3
	movdqu	%xmm4, 3760(%rdi)
	movdqu	%xmm3, 4016(%rdi)
	movdqu	3776(%rdi), %xmm1
	movdqu	4032(%rdi), %xmm2
	movdqa	%xmm1, %xmm3
	psrlq	$4, %xmm3
	pxor	%xmm2, %xmm3
	pand	%xmm0, %xmm3
	movdqa	%xmm3, %xmm4
	psllq	$4, %xmm4
	pxor	%xmm1, %xmm4
	pxor	%xmm2, %xmm3
	movdqu	%xmm4, 3776(%rdi)
	movdqu	%xmm3, 4032(%rdi)
	movdqu	3792(%rdi), %xmm1
	movdqu	4048(%rdi), %xmm2
	movdqa	%xmm1, %xmm3
	psrlq	$4, %xmm3
	pxor	%xmm2, %xmm3
	pand	%xmm0, %xmm3
	movdqa	%xmm3, %xmm4
	psllq	$4, %xmm4
	pxor	%xmm1, %xmm4
	pxor	%xmm2, %xmm3
	movdqu	%xmm4, 3792(%rdi)
	movdqu	%xmm3, 4048(%rdi)
	movdqu	3808(%rdi), %xmm1
	movdqu	4064(%rdi), %xmm2
	movdqa	%xmm1, %xmm3
	psrlq	$4, %xmm3
	pxor	%xmm2, %xmm3
	pand	%xmm0, %xmm3
	movdqa	%xmm3, %xmm4
	psllq	$4, %xmm4
	pxor	%xmm1, %xmm4
	pxor	%xmm2, %xmm3
	movdqu	%xmm4, 3808(%rdi)
	movdqu	%xmm3, 4064(%rdi)
	movdqu	3824(%rdi), %xmm1
	movdqu	4080(%rdi), %xmm2
	movdqa	%xmm1, %xmm3
	psrlq	$4, %xmm3
	pxor	%xmm2, %xmm3
	pand	%xmm0, %xmm3
	movdqa	%xmm3, %xmm0
	psllq	$4, %xmm0
	pxor	%xmm1, %xmm0
	pxor	%xmm2, %xmm3
	movdqu	%xmm0, 3824(%rdi)
	movdqu	%xmm3, 4080(%rdi)
	xorl	%eax, %eax
	.p2align	4
.Lluossavin_x86_64.BB6_15:
	movdqu	128(%rdi,%rax), %xmm3
	movdqu	(%rdi,%rax), %xmm4
	movdqu	16(%rdi,%rax), %xmm5
	movdqu	32(%rdi,%rax), %xmm2
	movdqu	48(%rdi,%rax), %xmm1
	movdqa	%xmm4, %xmm6
	psrlq	$2, %xmm6
	pxor	%xmm3, %xmm6
	movdqa	.Lluossavin_x86_64.CPI6_4(%rip), %xmm0
	pand	%xmm0, %xmm6
	movdqa	%xmm6, %xmm7
	psllq	$2, %xmm7
	pxor	%xmm4, %xmm7
	movdqu	%xmm7, (%rdi,%rax)
	pxor	%xmm3, %xmm6
	movdqu	%xmm6, 128(%rdi,%rax)
	movdqu	144(%rdi,%rax), %xmm3
	movdqa	%xmm5, %xmm4
	psrlq	$2, %xmm4
	pxor	%xmm3, %xmm4
	pand	%xmm0, %xmm4
	movdqa	%xmm4, %xmm6
	psllq	$2, %xmm6
	pxor	%xmm5, %xmm6
	movdqu	%xmm6, 16(%rdi,%rax)
	pxor	%xmm3, %xmm4
	movdqu	%xmm4, 144(%rdi,%rax)
	movdqu	160(%rdi,%rax), %xmm3
	movdqa	%xmm2, %xmm4
	psrlq	$2, %xmm4
	pxor	%xmm3, %xmm4
	pand	%xmm0, %xmm4
	movdqa	%xmm4, %xmm5
	psllq	$2, %xmm5
	pxor	%xmm2, %xmm5
	movdqu	%xmm5, 32(%rdi,%rax)
	pxor	%xmm3, %xmm4
	movdqu	%xmm4, 160(%rdi,%rax)
	movdqu	176(%rdi,%rax), %xmm2
	movdqa	%xmm1, %xmm3
	psrlq	$2, %xmm3
	pxor	%xmm2, %xmm3
	pand	%xmm0, %xmm3
	movdqa	%xmm3, %xmm4
	psllq	$2, %xmm4
	pxor	%xmm1, %xmm4
	movdqu	%xmm4, 48(%rdi,%rax)
	pxor	%xmm2, %xmm3
	movdqu	%xmm3, 176(%rdi,%rax)
	movdqu	64(%rdi,%rax), %xmm1
	movdqu	192(%rdi,%rax), %xmm2
	movdqa	%xmm1, %xmm3
	psrlq	$2, %xmm3
	pxor	%xmm2, %xmm3
	pand	%xmm0, %xmm3
	movdqa	%xmm3, %xmm4
	psllq	$2, %xmm4
	pxor	%xmm1, %xmm4
	movdqu	%xmm4, 64(%rdi,%rax)
	pxor	%xmm2, %xmm3
	movdqu	%xmm3, 192(%rdi,%rax)
	movdqu	80(%rdi,%rax), %xmm1
	movdqu	208(%rdi,%rax), %xmm2
	movdqa	%xmm1, %xmm3
	psrlq	$2, %xmm3
	pxor	%xmm2, %xmm3
	pand	%xmm0, %xmm3
	movdqa	%xmm3, %xmm4
	psllq	$2, %xmm4
	pxor	%xmm1, %xmm4
	movdqu	%xmm4, 80(%rdi,%rax)
	pxor	%xmm2, %xmm3
	movdqu	%xmm3, 208(%rdi,%rax)
	movdqu	96(%rdi,%rax), %xmm1
	movdqu	224(%rdi,%rax), %xmm2
	movdqa	%xmm1, %xmm3
	psrlq	$2, %xmm3
	pxor	%xmm2, %xmm3
	pand	%xmm0, %xmm3
	movdqa	%xmm3, %xmm4
	psllq	$2, %xmm4
	pxor	%xmm1, %xmm4
	movdqu	%xmm4, 96(%rdi,%rax)
	pxor	%xmm2, %xmm3
	movdqu	%xmm3, 224(%rdi,%rax)
	movdqu	112(%rdi,%rax), %xmm1
	movdqu	240(%rdi,%rax), %xmm2
	movdqa	%xmm1, %xmm3
	psrlq	$2, %xmm3
	pxor	%xmm2, %xmm3
	pand	%xmm0, %xmm3
	movdqa	%xmm3, %xmm0
	psllq	$2, %xmm0
	pxor	%xmm1, %xmm0
	movdqu	%xmm0, 112(%rdi,%rax)
	pxor	%xmm2, %xmm3
	movdqu	%xmm3, 240(%rdi,%rax)
	addq	$256, %rax
	cmpq	$4096, %rax
	jne	.Lluossavin_x86_64.BB6_15
	xorl	%eax, %eax
	.p2align	4
.Lluossavin_x86_64.BB6_17:
	movdqu	64(%rdi,%rax), %xmm3
	movdqu	(%rdi,%rax), %xmm4
	movdqu	16(%rdi,%rax), %xmm5
	movdqu	32(%rdi,%rax), %xmm2
	movdqu	48(%rdi,%rax), %xmm0
	movdqa	%xmm4, %xmm6
	psrlq	$1, %xmm6
	pxor	%xmm3, %xmm6
	movdqa	.Lluossavin_x86_64.CPI6_5(%rip), %xmm1
	pand	%xmm1, %xmm6
	movdqa	%xmm6, %xmm7
	paddq	%xmm7, %xmm7
	pxor	%xmm4, %xmm7
	movdqu	%xmm7, (%rdi,%rax)
	pxor	%xmm3, %xmm6
	movdqu	%xmm6, 64(%rdi,%rax)
	movdqu	80(%rdi,%rax), %xmm3
	movdqa	%xmm5, %xmm4
	psrlq	$1, %xmm4
	pxor	%xmm3, %xmm4
	pand	%xmm1, %xmm4
	movdqa	%xmm4, %xmm6
	paddq	%xmm6, %xmm6
	pxor	%xmm5, %xmm6
	movdqu	%xmm6, 16(%rdi,%rax)
	pxor	%xmm3, %xmm4
	movdqu	%xmm4, 80(%rdi,%rax)
	movdqu	96(%rdi,%rax), %xmm3
	movdqa	%xmm2, %xmm4
	psrlq	$1, %xmm4
	pxor	%xmm3, %xmm4
	pand	%xmm1, %xmm4
	movdqa	%xmm4, %xmm5
	paddq	%xmm5, %xmm5
	pxor	%xmm2, %xmm5
	movdqu	%xmm5, 32(%rdi,%rax)
	pxor	%xmm3, %xmm4
	movdqu	%xmm4, 96(%rdi,%rax)
	movdqu	112(%rdi,%rax), %xmm2
	movdqa	%xmm0, %xmm3
	psrlq	$1, %xmm3
	pxor	%xmm2, %xmm3
	pand	%xmm1, %xmm3
	movdqa	%xmm3, %xmm1
	paddq	%xmm1, %xmm1
	pxor	%xmm0, %xmm1
	movdqu	%xmm1, 48(%rdi,%rax)
	pxor	%xmm2, %xmm3
	movdqu	%xmm3, 112(%rdi,%rax)
	subq	$-128, %rax
	cmpq	$4096, %rax
	jne	.Lluossavin_x86_64.BB6_17
	retq
.Lluossavin_x86_64.func_end6:
	.size	"rows::transpose.x86_64", .Lluossavin_x86_64.func_end6-"rows::transpose.x86_64"

	.section	".text.sliced::Planes::rounds_to_rows.x86_64","ax",@progbits
	.p2align	4
	.type	"sliced::Planes::rounds_to_rows.x86_64",@function
"sliced::Planes::rounds_to_rows.x86_64":
	pushq	%rbp
	pushq	%r15
	pushq	%r14
	pushq	%r13
	pushq	%r12
	pushq	%rbx
	subq	$136, %rsp
	movq	%rcx, %rbx
	movq	%rdx, %r13
	movq	%rdi, %r14
	movl	(%rsi), %r9d
	movl	4(%rsi), %eax
	movl	%eax, 12(%rsp)
	movl	8(%rsi), %eax
	movl	%eax, 16(%rsp)
	movl	12(%rsi), %eax
	movl	%eax, 20(%rsp)
	movl	16(%rsi), %eax
	movl	%eax, 24(%rsp)
	movl	20(%rsi), %eax
	movl	%eax, 28(%rsp)
	movl	24(%rsi), %eax
	movl	%eax, 32(%rsp)
	movl	28(%rsi), %eax
	movl	%eax, 36(%rsp)
	movl	32(%rsi), %eax
	movl	%eax, 40(%rsp)
	movl	36(%rsi), %eax
	movl	%eax, 44(%rsp)
	movl	40(%rsi), %eax
	movl	%eax, 48(%rsp)
	movl	44(%rsi), %eax
	movl	%eax, 52(%rsp)
	movl	48(%rsi), %eax
	movl	%eax, 56(%rsp)
	movl	52(%rsi), %eax
	movl	%eax, 60(%rsp)
	movl	56(%rsi), %eax
	movl	%eax, 64(%rsp)
	movl	60(%rsi), %eax
	movl	%eax, 68(%rsp)
	movl	64(%rsi), %eax
	movl	%eax, 72(%rsp)
	movl	68(%rsi), %eax
	movl	%eax, 76(%rsp)
	movl	72(%rsi), %eax
	movl	%eax, 80(%rsp)
	movl	76(%rsi), %eax
	movl	%eax, 84(%rsp)
	movl	80(%rsi), %eax
	movl	%eax, 88(%rsp)
	movl	84(%rsi), %eax
	movl	%eax, 92(%rsp)
	movl	88(%rsi), %eax
	movl	%eax, 96(%rsp)
	movl	92(%rsi), %eax
	movl	%eax, 100(%rsp)
	movl	96(%rsi), %eax
	movl	%eax, 104(%rsp)
	movl	100(%rsi), %eax
	movl	%eax, 108(%rsp)
	movl	104(%rsi), %eax
	movl	%eax, 112(%rsp)
	movl	108(%rsi), %eax
	movl	%eax, 116(%rsp)
	movl	112(%rsi), %eax
	movl	%eax, 120(%rsp)
	movl	116(%rsi), %eax
	movl	%eax, 124(%rsp)
	movl	120(%rsi), %eax
	movl	%eax, 128(%rsp)
	movl	124(%rsi), %eax
	movl	%eax, 132(%rsp)
	leaq	2048(%rdi), %r15
	leaq	4096(%rdi), %rbp
	leaq	6144(%rdi), %r12
	leaq	8192(%rdi), %r8
	movq	%rdx, (%rsp)
	movq	%r15, %rsi
	movq	%rbp, %rdx
	movq	%r12, %rcx
	callq	"sliced::round.x86_64"
	movq	%r13, (%rsp)
	movq	%r15, %rdi
	movq	%rbp, %rsi
	movq	%r12, %rdx
	movq	%r14, %rcx
	leaq	8192(%r14), %r8
	movl	12(%rsp), %r9d
	callq	"sliced::round.x86_64"
	movq	%r13, (%rsp)
	movq	%rbp, %rdi
	movq	%r12, %rsi
	movq	%r14, %rdx
	movq	%r15, %rcx
	leaq	8192(%r14), %r8
	movl	16(%rsp), %r9d
	callq	"sliced::round.x86_64"
	movq	%r13, (%rsp)
	movq	%r12, %rdi
	movq	%r14, %rsi
	movq	%r15, %rdx
	movq	%rbp, %rcx
	leaq	8192(%r14), %r8
	movl	20(%rsp), %r9d
	callq	"sliced::round.x86_64"
	movq	%r13, (%rsp)
	movq	%r14, %rdi
	movq	%r15, %rsi
	movq	%rbp, %rdx
	movq	%r12, %rcx
	leaq	8192(%r14), %r8
	movl	24(%rsp), %r9d
	callq	"sliced::round.x86_64"
	movq	%r13, (%rsp)
	movq	%r15, %rdi
	movq	%rbp, %rsi
	movq	%r12, %rdx
	movq	%r14, %rcx
	leaq	8192(%r14), %r8
	movl	28(%rsp), %r9d
	callq	"sliced::round.x86_64"
	movq	%r13, (%rsp)
	movq	%rbp, %rdi
	movq	%r12, %rsi
	movq	%r14, %rdx
	movq	%r15, %rcx
	leaq	8192(%r14), %r8
	movl	32(%rsp), %r9d
	callq	"sliced::round.x86_64"
	movq	%r13, (%rsp)
	movq	%r12, %rdi
	movq	%r14, %rsi
	movq	%r15, %rdx
	movq	%rbp, %rcx
	leaq	8192(%r14), %r8
	movl	36(%rsp), %r9d
	callq	"sliced::round.x86_64"
	movq	%r13, (%rsp)
	movq	%r14, %rdi
	movq	%r15, %rsi
	movq	%rbp, %rdx
	movq	%r12, %rcx
	leaq	8192(%r14), %r8
	movl	40(%rsp), %r9d
	callq	"sliced::round.x86_64"
	movq	%r13, (%rsp)
	movq	%r15, %rdi
	movq	%rbp, %rsi
	movq	%r12, %rdx
	movq	%r14, %rcx
	leaq	8192(%r14), %r8
	movl	44(%rsp), %r9d
	callq	"sliced::round.x86_64"
	movq	%r13, (%rsp)
	movq	%rbp, %rdi
	movq	%r12, %rsi
	movq	%r14, %rdx
	movq	%r15, %rcx
	leaq	8192(%r14), %r8
	movl	48(%rsp), %r9d
	callq	"sliced::round.x86_64"
	movq	%r13, (%rsp)
	movq	%r12, %rdi
	movq	%r14, %rsi
	movq	%r15, %rdx
	movq	%rbp, %rcx
	leaq	8192(%r14), %r8
	movl	52(%rsp), %r9d
	callq	"sliced::round.x86_64"
	movq	%r13, (%rsp)
	movq	%r14, %rdi
	movq	%r15, %rsi
	movq	%rbp, %rdx
	movq	%r12, %rcx
	leaq	8192(%r14), %r8
	movl	56(%rsp), %r9d
	callq	"sliced::round.x86_64"
	movq	%r13, (%rsp)
	movq	%r15, %rdi
	movq	%rbp, %rsi
	movq	%r12, %rdx
	movq	%r14, %rcx
	leaq	8192(%r14), %r8
	movl	60(%rsp), %r9d
	callq	"sliced::round.x86_64"
	movq	%r13, (%rsp)
	movq	%rbp, %rdi
	movq	%r12, %rsi
	movq	%r14, %rdx
	movq	%r15, %rcx
	leaq	8192(%r14), %r8
	movl	64(%rsp), %r9d
	callq	"sliced::round.x86_64"
	movq	%r13, (%rsp)
	movq	%r12, %rdi
	movq	%r14, %rsi
	movq	%r15, %rdx
	movq	%rbp, %rcx
	leaq	8192(%r14), %r8
	movl	68(%rsp), %r9d
	callq	"sliced::round.x86_64"
	movq	%r13, (%rsp)
	movq	%r14, %rdi
	movq	%r15, %rsi
	movq	%rbp, %rdx
	movq	%r12, %rcx
	leaq	8192(%r14), %r8
	movl	72(%rsp), %r9d
	callq	"sliced::round.x86_64"
	movq	%r13, (%rsp)
	movq	%r15, %rdi
	movq	%rbp, %rsi
	movq	%r12, %rdx
	movq	%r14, %rcx
	leaq	8192(%r14), %r8
	movl	76(%rsp), %r9d
	callq	"sliced::round.x86_64"
	movq	%r13, (%rsp)
	movq	%rbp, %rdi
	movq	%r12, %rsi
	movq	%r14, %rdx
	movq	%r15, %rcx
	leaq	8192(%r14), %r8
	movl	80(%rsp), %r9d
	callq	"sliced::round.x86_64"
	movq	%r13, (%rsp)
	movq	%r12, %rdi
	movq	%r14, %rsi
	movq	%r15, %rdx
	movq	%rbp, %rcx
	leaq	8192(%r14), %r8
	movl	84(%rsp), %r9d
	callq	"sliced::round.x86_64"
	movq	%r13, (%rsp)
	movq	%r14, %rdi
	movq	%r15, %rsi
	movq	%rbp, %rdx
	movq	%r12, %rcx
	leaq	8192(%r14), %r8
	movl	88(%rsp), %r9d
	callq	"sliced::round.x86_64"
	movq	%r13, (%rsp)
	movq	%r15, %rdi
	movq	%rbp, %rsi
	movq	%r12, %rdx
	movq	%r14, %rcx
	leaq	8192(%r14), %r8
	movl	92(%rsp), %r9d
	callq	"sliced::round.x86_64"
	movq	%r13, (%rsp)
	movq	%rbp, %rdi
	movq	%r12, %rsi
	movq	%r14, %rdx
	movq	%r15, %rcx
	leaq	8192(%r14), %r8
	movl	96(%rsp), %r9d
	callq	"sliced::round.x86_64"
	movq	%r13, (%rsp)
	movq	%r12, %rdi
	movq	%r14, %rsi
	movq	%r15, %rdx
	movq	%rbp, %rcx
	leaq	8192(%r14), %r8
	movl	100(%rsp), %r9d
	callq	"sliced::round.x86_64"
	movq	%r13, (%rsp)
	movq	%r14, %rdi
	movq	%r15, %rsi
	movq	%rbp, %rdx
	movq	%r12, %rcx
	leaq	8192(%r14), %r8
	movl	104(%rsp), %r9d
	callq	"sliced::round.x86_64"
	movq	%r13, (%rsp)
	movq	%r15, %rdi
	movq	%rbp, %rsi
	movq	%r12, %rdx
	movq	%r14, %rcx
	leaq	8192(%r14), %r8
	movl	108(%rsp), %r9d
	callq	"sliced::round.x86_64"
	movq	%r13, (%rsp)
	movq	%rbp, %rdi
	movq	%r12, %rsi
	movq	%r14, %rdx
	movq	%r15, %rcx
	leaq	8192(%r14), %r8
	movl	112(%rsp), %r9d
	callq	"sliced::round.x86_64"
	movq	%r13, (%rsp)
	movq	%r12, %rdi
	movq	%r14, %rsi
	movq	%r15, %rdx
	movq	%rbp, %rcx
	leaq	8192(%r14), %r8
	movl	116(%rsp), %r9d
	callq	"sliced::round.x86_64"
	movq	%r13, (%rsp)
	movq	%r14, %rdi
	movq	%r15, %rsi
	movq	%rbp, %rdx
	movq	%r12, %rcx
	leaq	8192(%r14), %r8
	movl	120(%rsp), %r9d
	callq	"sliced::round.x86_64"
	movq	%r13, (%rsp)
	movq	%r15, %rdi
	movq	%rbp, %rsi
	movq	%r12, %rdx
	movq	%r14, %rcx
	leaq	8192(%r14), %r8
	movl	124(%rsp), %r9d
	callq	"sliced::round.x86_64"
	movq	%r13, (%rsp)
	movq	%rbp, %rdi
	movq	%r12, %rsi
	movq	%r14, %rdx
	movq	%r15, %rcx
	leaq	8192(%r14), %r8
	movq	%r8, %rbp
	movl	128(%rsp), %r9d
	callq	"sliced::round.x86_64"
	movq	%r13, (%rsp)
	movq	%r12, %r13
	movq	%r12, %rdi
	movq	%r14, %rsi
	movq	%r15, %rdx
	leaq	4096(%r14), %rcx
	movq	%rcx, %r12
	movq	%rbp, %r8
	movl	132(%rsp), %r9d
	callq	"sliced::round.x86_64"
	movq	%rbx, %rax
	subq	%r12, %rax
	cmpq	$2047, %rax
	ja	.Lluossavin_x86_64.BB7_4
	movq	%rbx, %rax
	subq	%r14, %rax
	addq	$-4096, %rax
	cmpq	$32, %rax
	jae	.Lluossavin_x86_64.BB7_2
	xorl	%eax, %eax
	.p2align	4
.Lluossavin_x86_64.BB7_6:
	movq	4096(%r14,%rax,8), %rcx
	movq	%rcx, (%rbx,%rax,8)
	movq	4104(%r14,%rax,8), %rcx
	movq	%rcx, 8(%rbx,%rax,8)
	movq	4112(%r14,%rax,8), %rcx
	movq	%rcx, 16(%rbx,%rax,8)
	movq	4120(%r14,%rax,8), %rcx
	movq	%rcx, 24(%rbx,%rax,8)
	addq	$4, %rax
	cmpq	$256, %rax
	jne	.Lluossavin_x86_64.BB7_6
	jmp	.Lluossavin_x86_64.BB7_7
.Lluossavin_x86_64.BB7_4:
	movq	%r12, %rsi
	movl	$2048, %edx
	movq	%rbx, %rdi
	callq	memmove@PLT
	jmp	.Lluossavin_x86_64.BB7_7
.Lluossavin_x86_64.BB7_2:
	xorl	%eax, %eax
	.p2align	4
.Lluossavin_x86_64.BB7_3:
	movups	4096(%r14,%rax,8), %xmm0
	movups	4112(%r14,%rax,8), %xmm1
	movups	%xmm0, (%rbx,%rax,8)
	movups	%xmm1, 16(%rbx,%rax,8)
	movups	4128(%r14,%rax,8), %xmm0
	movups	4144(%r14,%rax,8), %xmm1
	movups	%xmm0, 32(%rbx,%rax,8)
	movups	%xmm1, 48(%rbx,%rax,8)
	addq	$8, %rax
	cmpq	$256, %rax
	jne	.Lluossavin_x86_64.BB7_3
.Lluossavin_x86_64.BB7_7:
	leaq	2048(%rbx), %rdi
	movq	%rdi, %rax
	subq	%r13, %rax
	cmpq	$2047, %rax
	ja	.Lluossavin_x86_64.BB7_11
	movq	%rbx, %rax
	subq	%r14, %rax
	addq	$-4096, %rax
	cmpq	$32, %rax
	jae	.Lluossavin_x86_64.BB7_9
	xorl	%eax, %eax
	.p2align	4
.Lluossavin_x86_64.BB7_13:
	movq	6144(%r14,%rax,8), %rcx
	movq	%rcx, 2048(%rbx,%rax,8)
	movq	6152(%r14,%rax,8), %rcx
	movq	%rcx, 2056(%rbx,%rax,8)
	movq	6160(%r14,%rax,8), %rcx
	movq	%rcx, 2064(%rbx,%rax,8)
	movq	6168(%r14,%rax,8), %rcx
	movq	%rcx, 2072(%rbx,%rax,8)
	addq	$4, %rax
	cmpq	$256, %rax
	jne	.Lluossavin_x86_64.BB7_13
	jmp	.Lluossavin_x86_64.BB7_14
.Lluossavin_x86_64.BB7_11:
	movl	$2048, %edx
	movq	%r13, %rsi
	callq	memmove@PLT
	jmp	.Lluossavin_x86_64.BB7_14
.Lluossavin_x86_64.BB7_9:
	xorl	%eax, %eax
	.p2align	4
.Lluossavin_x86_64.BB7_10:
	movups	6144(%r14,%rax,8), %xmm0
	movups	6160(%r14,%rax,8), %xmm1
	movups	%xmm0, 2048(%rbx,%rax,8)
	movups	%xmm1, 2064(%rbx,%rax,8)
	movups	6176(%r14,%rax,8), %xmm0
	movups	6192(%r14,%rax,8), %xmm1
	movups	%xmm0, 2080(%rbx,%rax,8)
	movups	%xmm1, 2096(%rbx,%rax,8)
	addq	$8, %rax
	cmpq	$256, %rax
	jne	.Lluossavin_x86_64.BB7_10
.Lluossavin_x86_64.BB7_14:
	movq	%rbx, %rdi
	callq	"rows::transpose.x86_64"
	leaq	4096(%rbx), %r12
	movq	%r12, %rax
	subq	%r14, %rax
	cmpq	$2047, %rax
	ja	.Lluossavin_x86_64.BB7_18
	movq	%rbx, %rax
	subq	%r14, %rax
	addq	$4096, %rax
	cmpq	$32, %rax
	jae	.Lluossavin_x86_64.BB7_16
	xorl	%eax, %eax
	.p2align	4
.Lluossavin_x86_64.BB7_20:
	movq	(%r14,%rax,8), %rcx
	movq	%rcx, 4096(%rbx,%rax,8)
	movq	8(%r14,%rax,8), %rcx
	movq	%rcx, 4104(%rbx,%rax,8)
	movq	16(%r14,%rax,8), %rcx
	movq	%rcx, 4112(%rbx,%rax,8)
	movq	24(%r14,%rax,8), %rcx
	movq	%rcx, 4120(%rbx,%rax,8)
	addq	$4, %rax
	cmpq	$256, %rax
	jne	.Lluossavin_x86_64.BB7_20
	jmp	.Lluossavin_x86_64.BB7_21
.Lluossavin_x86_64.BB7_18:
	movl	$2048, %edx
	movq	%r12, %rdi
	movq	%r14, %rsi
	callq	memmove@PLT
	jmp	.Lluossavin_x86_64.BB7_21
.Lluossavin_x86_64.BB7_16:
	xorl	%eax, %eax
	.p2align	4
.Lluossavin_x86_64.BB7_17:
	movups	(%r14,%rax,8), %xmm0
	movups	16(%r14,%rax,8), %xmm1
	movups	%xmm0, 4096(%rbx,%rax,8)
	movups	%xmm1, 4112(%rbx,%rax,8)
	movups	32(%r14,%rax,8), %xmm0
	movups	48(%r14,%rax,8), %xmm1
	movups	%xmm0, 4128(%rbx,%rax,8)
	movups	%xmm1, 4144(%rbx,%rax,8)
	addq	$8, %rax
	cmpq	$256, %rax
	jne	.Lluossavin_x86_64.BB7_17
.Lluossavin_x86_64.BB7_21:
	leaq	6144(%rbx), %rdi
	movq	%rdi, %rax
	subq	%r15, %rax
	cmpq	$2047, %rax
	ja	.Lluossavin_x86_64.BB7_25
	movq	%rbx, %rax
	subq	%r14, %rax
	addq	$4096, %rax
	cmpq	$32, %rax
	jae	.Lluossavin_x86_64.BB7_23
	xorl	%eax, %eax
	.p2align	4
.Lluossavin_x86_64.BB7_27:
	movq	2048(%r14,%rax,8), %rcx
	movq	%rcx, 6144(%rbx,%rax,8)
	movq	2056(%r14,%rax,8), %rcx
	movq	%rcx, 6152(%rbx,%rax,8)
	movq	2064(%r14,%rax,8), %rcx
	movq	%rcx, 6160(%rbx,%rax,8)
	movq	2072(%r14,%rax,8), %rcx
	movq	%rcx, 6168(%rbx,%rax,8)
	addq	$4, %rax
	cmpq	$256, %rax
	jne	.Lluossavin_x86_64.BB7_27
	jmp	.Lluossavin_x86_64.BB7_28
.Lluossavin_x86_64.BB7_25:
	movl	$2048, %edx
	movq	%r15, %rsi
	callq	memmove@PLT
	jmp	.Lluossavin_x86_64.BB7_28
.Lluossavin_x86_64.BB7_23:
	xorl	%eax, %eax
	.p2align	4
.Lluossavin_x86_64.BB7_24:
	movups	2048(%r14,%rax,8), %xmm0
	movups	2064(%r14,%rax,8), %xmm1
	movups	%xmm0, 6144(%rbx,%rax,8)
	movups	%xmm1, 6160(%rbx,%rax,8)
	movups	2080(%r14,%rax,8), %xmm0
	movups	2096(%r14,%rax,8), %xmm1
	movups	%xmm0, 6176(%rbx,%rax,8)
	movups	%xmm1, 6192(%rbx,%rax,8)
	addq	$8, %rax
	cmpq	$256, %rax
	jne	.Lluossavin_x86_64.BB7_24
.Lluossavin_x86_64.BB7_28:
	movq	%r12, %rdi
	addq	$136, %rsp
	popq	%rbx
	popq	%r12
	popq	%r13
	popq	%r14
	popq	%r15
	popq	%rbp
	jmp	"rows::transpose.x86_64"
.Lluossavin_x86_64.func_end7:
	.size	"sliced::Planes::rounds_to_rows.x86_64", .Lluossavin_x86_64.func_end7-"sliced::Planes::rounds_to_rows.x86_64"

	.section	".text.sliced::round.x86_64","ax",@progbits
	.p2align	4
	.type	"sliced::round.x86_64",@function
"sliced::round.x86_64":
	pushq	%rbp
	pushq	%r15
	pushq	%r14
	pushq	%r13
	pushq	%r12
	pushq	%rbx
	subq	$408, %rsp
	movq	%r8, 32(%rsp)
	movq	%rdi, 328(%rsp)
	cmpq	$0, 464(%rsp)
	je	.Lluossavin_x86_64.BB8_9
	movl	%r9d, %eax
	movq	%rax, 344(%rsp)
	movq	32(%rsp), %r8
	movq	464(%rsp), %rbx
	leaq	(%r8,%rbx,8), %rax
	addq	$1984, %rax
	leaq	(%rsi,%rbx,8), %rdi
	addq	$1984, %rdi
	leaq	(%rdx,%rbx,8), %r10
	addq	$1984, %r10
	leaq	(%rcx,%rbx,8), %r11
	addq	$1984, %r11
	cmpq	%rdi, %r8
	setb	%r9b
	cmpq	%rax, %rsi
	setb	%dil
	andb	%r9b, %dil
	cmpq	%r10, %r8
	setb	%r9b
	cmpq	%rax, %rdx
	setb	%r10b
	andb	%r9b, %r10b
	orb	%dil, %r10b
	cmpq	%r11, %r8
	setb	%dil
	cmpq	%rax, %rcx
	setb	%al
	andb	%dil, %al
	orb	%r10b, %al
	movb	%al, -113(%rsp)
	andq	$-2, %rbx
	movq	%rbx, 336(%rsp)
	leaq	448(%r8), %rax
	addq	$448, %rcx
	addq	$448, %rdx
	addq	$448, %rsi
	xorl	%edi, %edi
	movq	%r8, 40(%rsp)
	jmp	.Lluossavin_x86_64.BB8_2
	.p2align	4
.Lluossavin_x86_64.BB8_8:
	movq	352(%rsp), %rdi
	incq	%rdi
	movq	48(%rsp), %rax
	addq	$512, %rax
	movq	-40(%rsp), %rcx
	addq	$512, %rcx
	movq	-48(%rsp), %rdx
	addq	$512, %rdx
	movq	-56(%rsp), %rsi
	addq	$512, %rsi
	addq	$512, 40(%rsp)
	cmpq	$4, %rdi
	je	.Lluossavin_x86_64.BB8_9
.Lluossavin_x86_64.BB8_2:
	movq	%rax, 48(%rsp)
	movq	%rsi, -56(%rsp)
	movq	%rdx, -48(%rsp)
	movq	%rcx, -40(%rsp)
	cmpq	$1, 464(%rsp)
	sete	%cl
	movq	%rdi, 352(%rsp)
	leaq	(,%rdi,8), %rdx
	xorl	%eax, %eax
	movq	344(%rsp), %rdi
	btq	%rdx, %rdi
	movl	$0, %r8d
	sbbq	%r8, %r8
	leal	1(%rdx), %esi
	btq	%rsi, %rdi
	movl	$0, %r14d
	sbbq	%r14, %r14
	leal	2(%rdx), %esi
	btq	%rsi, %rdi
	movl	$0, %ebp
	sbbq	%rbp, %rbp
	leal	3(%rdx), %esi
	btq	%rsi, %rdi
	movl	$0, %r11d
	sbbq	%r11, %r11
	leal	4(%rdx), %esi
	btq	%rsi, %rdi
	movl	$0, %r15d
	sbbq	%r15, %r15
	leal	5(%rdx), %esi
	btq	%rsi, %rdi
	movl	$0, %esi
	sbbq	%rsi, %rsi
	movq	%rsi, 72(%rsp)
	leal	6(%rdx), %esi
	btq	%rsi, %rdi
	movl	$0, %esi
	sbbq	%rsi, %rsi
	movq	%rsi, 64(%rsp)
	orl	$7, %edx
	btq	%rdx, %rdi
	movl	$0, %ebx
	sbbq	%rbx, %rbx
	orb	-113(%rsp), %cl
	movq	%rbx, 56(%rsp)
	jne	.Lluossavin_x86_64.BB8_6
	movq	%r8, %xmm0
	pshufd	$68, %xmm0, %xmm0
	movdqa	%xmm0, 224(%rsp)
	movq	%r14, %xmm0
	pshufd	$68, %xmm0, %xmm0
	movdqa	%xmm0, 208(%rsp)
	movq	%rbp, %xmm0
	pshufd	$68, %xmm0, %xmm0
	movdqa	%xmm0, 192(%rsp)
	movq	%r11, %xmm0
	pshufd	$68, %xmm0, %xmm0
	movdqa	%xmm0, 176(%rsp)
	movq	%r15, %xmm0
	pshufd	$68, %xmm0, %xmm0
	movdqa	%xmm0, 160(%rsp)
	movq	72(%rsp), %xmm0
	pshufd	$68, %xmm0, %xmm0
	movdqa	%xmm0, 144(%rsp)
	movq	64(%rsp), %xmm0
	pshufd	$68, %xmm0, %xmm0
	movdqa	%xmm0, 128(%rsp)
	movq	%rbx, %xmm0
	pshufd	$68, %xmm0, %xmm0
	movdqa	%xmm0, 112(%rsp)
	xorl	%r10d, %r10d
	movq	-40(%rsp), %rax
	movq	-48(%rsp), %rcx
	movq	-56(%rsp), %rdx
	movq	336(%rsp), %rsi
	movq	48(%rsp), %rdi
	.p2align	4
.Lluossavin_x86_64.BB8_4:
	movdqu	-448(%rdx,%r10,8), %xmm0
	pxor	224(%rsp), %xmm0
	movdqu	-384(%rdx,%r10,8), %xmm1
	pxor	208(%rsp), %xmm1
	movdqu	-320(%rdx,%r10,8), %xmm3
	pxor	192(%rsp), %xmm3
	movdqu	-256(%rdx,%r10,8), %xmm4
	pxor	176(%rsp), %xmm4
	movdqu	-448(%rcx,%r10,8), %xmm2
	movdqu	-384(%rcx,%r10,8), %xmm5
	movdqu	-320(%rcx,%r10,8), %xmm6
	movdqu	-256(%rcx,%r10,8), %xmm7
	movdqu	-448(%rax,%r10,8), %xmm8
	pxor	%xmm2, %xmm8
	pxor	%xmm0, %xmm8
	movdqu	-384(%rax,%r10,8), %xmm14
	pxor	%xmm5, %xmm14
	pxor	%xmm1, %xmm14
	movdqu	-320(%rax,%r10,8), %xmm11
	pxor	%xmm6, %xmm11
	pxor	%xmm3, %xmm11
	movdqu	-256(%rax,%r10,8), %xmm6
	pxor	%xmm7, %xmm6
	pxor	%xmm4, %xmm6
	movdqu	-192(%rdx,%r10,8), %xmm1
	pxor	160(%rsp), %xmm1
	movdqu	-192(%rcx,%r10,8), %xmm3
	movdqu	-192(%rax,%r10,8), %xmm0
	pxor	%xmm3, %xmm0
	pxor	%xmm1, %xmm0
	movdqu	-128(%rdx,%r10,8), %xmm1
	pxor	144(%rsp), %xmm1
	movdqu	-128(%rcx,%r10,8), %xmm3
	movdqu	-128(%rax,%r10,8), %xmm9
	pxor	%xmm3, %xmm9
	pxor	%xmm1, %xmm9
	movdqu	-64(%rdx,%r10,8), %xmm1
	pxor	128(%rsp), %xmm1
	movdqu	-64(%rcx,%r10,8), %xmm3
	movdqu	-64(%rax,%r10,8), %xmm15
	pxor	%xmm3, %xmm15
	pxor	%xmm1, %xmm15
	movdqu	(%rdx,%r10,8), %xmm1
	pxor	112(%rsp), %xmm1
	movdqu	(%rcx,%r10,8), %xmm3
	movdqu	(%rax,%r10,8), %xmm2
	pxor	%xmm3, %xmm2
	pxor	%xmm1, %xmm2
	movdqa	%xmm2, -112(%rsp)
	movdqa	%xmm2, %xmm1
	pxor	%xmm0, %xmm1
	movdqa	%xmm1, %xmm2
	movdqa	%xmm9, %xmm12
	movdqa	%xmm1, %xmm4
	pxor	%xmm9, %xmm1
	movdqa	%xmm1, %xmm5
	movdqa	%xmm1, 96(%rsp)
	movdqa	%xmm6, %xmm3
	pxor	%xmm6, %xmm9
	pxor	%xmm8, %xmm2
	movdqa	%xmm9, %xmm7
	pxor	%xmm8, %xmm7
	movdqa	%xmm8, -80(%rsp)
	pxor	%xmm14, %xmm12
	movdqa	%xmm2, %xmm1
	pxor	%xmm6, %xmm1
	movdqa	%xmm1, %xmm6
	pxor	%xmm11, %xmm0
	movdqa	%xmm7, %xmm1
	pxor	%xmm0, %xmm1
	movdqa	%xmm1, -16(%rsp)
	pxor	%xmm14, %xmm3
	pxor	%xmm0, %xmm3
	movdqa	%xmm3, (%rsp)
	movdqa	%xmm12, %xmm0
	pxor	%xmm8, %xmm0
	movdqa	%xmm0, %xmm3
	movdqa	%xmm0, 16(%rsp)
	movdqa	%xmm8, %xmm0
	pandn	%xmm9, %xmm0
	movdqa	%xmm5, %xmm1
	pand	%xmm3, %xmm1
	pxor	%xmm14, %xmm0
	pxor	%xmm1, %xmm0
	pxor	%xmm2, %xmm0
	movdqa	%xmm2, %xmm8
	movdqa	%xmm15, %xmm5
	pxor	%xmm11, %xmm5
	movdqa	%xmm5, -96(%rsp)
	movdqa	%xmm5, %xmm13
	pxor	%xmm14, %xmm13
	pxor	%xmm11, %xmm8
	movdqa	%xmm7, %xmm1
	movdqa	%xmm7, 288(%rsp)
	pxor	%xmm7, %xmm5
	movdqa	%xmm5, 304(%rsp)
	movdqa	%xmm4, %xmm3
	pxor	%xmm12, %xmm3
	movdqa	%xmm3, 80(%rsp)
	movdqa	%xmm6, %xmm7
	movdqa	%xmm6, 272(%rsp)
	movdqa	%xmm6, %xmm10
	pxor	%xmm13, %xmm10
	movdqa	%xmm8, %xmm2
	pxor	%xmm12, %xmm2
	movdqa	%xmm2, -32(%rsp)
	movdqa	-112(%rsp), %xmm4
	movdqa	%xmm4, %xmm6
	pxor	%xmm1, %xmm4
	movdqa	%xmm4, -112(%rsp)
	movdqa	%xmm3, %xmm1
	pand	(%rsp), %xmm1
	movdqa	%xmm4, %xmm3
	pand	%xmm5, %xmm3
	pxor	%xmm1, %xmm3
	movdqa	%xmm2, %xmm4
	pand	%xmm10, %xmm4
	pxor	%xmm1, %xmm4
	pxor	%xmm9, %xmm6
	movdqa	%xmm6, %xmm1
	movdqa	%xmm6, %xmm2
	movdqa	-96(%rsp), %xmm5
	pandn	%xmm5, %xmm1
	movdqa	%xmm8, %xmm6
	pandn	%xmm13, %xmm6
	pxor	%xmm2, %xmm11
	pxor	%xmm1, %xmm11
	pxor	%xmm6, %xmm11
	pxor	%xmm9, %xmm15
	pxor	%xmm1, %xmm15
	movdqa	-16(%rsp), %xmm1
	pand	%xmm14, %xmm1
	pxor	%xmm1, %xmm15
	movdqa	%xmm12, %xmm1
	pandn	%xmm7, %xmm1
	movdqa	-80(%rsp), %xmm7
	pand	%xmm7, %xmm9
	pxor	%xmm1, %xmm9
	pxor	%xmm3, %xmm11
	pxor	%xmm3, %xmm9
	pxor	%xmm4, %xmm15
	pxor	%xmm4, %xmm0
	pcmpeqd	%xmm3, %xmm3
	movdqa	%xmm9, %xmm1
	pxor	%xmm3, %xmm1
	pandn	%xmm11, %xmm9
	pxor	%xmm15, %xmm11
	movdqa	%xmm9, %xmm6
	pxor	%xmm0, %xmm6
	movdqa	%xmm6, %xmm3
	pand	%xmm11, %xmm3
	pxor	%xmm15, %xmm3
	movdqa	%xmm0, %xmm4
	pxor	%xmm1, %xmm4
	pxor	%xmm9, %xmm15
	pand	%xmm4, %xmm15
	movdqa	%xmm15, %xmm4
	pxor	%xmm9, %xmm15
	pxor	%xmm0, %xmm4
	pand	%xmm0, %xmm15
	pxor	%xmm15, %xmm1
	pxor	%xmm6, %xmm15
	pand	%xmm3, %xmm15
	pxor	%xmm11, %xmm15
	pand	%xmm1, %xmm5
	movdqa	%xmm5, -96(%rsp)
	pandn	%xmm1, %xmm2
	movdqa	%xmm2, 240(%rsp)
	pxor	%xmm4, %xmm1
	movdqa	%xmm15, %xmm9
	pxor	%xmm1, %xmm9
	pand	%xmm1, %xmm13
	pandn	%xmm1, %xmm8
	movdqa	%xmm3, %xmm2
	pxor	%xmm4, %xmm2
	pand	%xmm4, %xmm14
	movdqa	%xmm14, 256(%rsp)
	pand	-16(%rsp), %xmm4
	movdqa	272(%rsp), %xmm11
	pand	%xmm15, %xmm11
	pandn	%xmm15, %xmm12
	pxor	%xmm3, %xmm15
	movdqa	288(%rsp), %xmm6
	pand	%xmm15, %xmm6
	pandn	%xmm15, %xmm7
	movdqa	%xmm7, -80(%rsp)
	movdqa	96(%rsp), %xmm5
	pand	%xmm3, %xmm5
	pand	16(%rsp), %xmm3
	movdqa	%xmm9, %xmm0
	pxor	%xmm2, %xmm0
	movdqa	80(%rsp), %xmm15
	pand	%xmm2, %xmm15
	pand	(%rsp), %xmm2
	movdqa	304(%rsp), %xmm7
	pand	%xmm0, %xmm7
	pand	-112(%rsp), %xmm0
	pand	%xmm9, %xmm10
	pand	-32(%rsp), %xmm9
	movdqa	-96(%rsp), %xmm14
	pxor	%xmm6, %xmm14
	pxor	%xmm6, %xmm15
	pxor	%xmm10, %xmm5
	pxor	%xmm5, %xmm8
	pxor	%xmm14, %xmm13
	pxor	%xmm8, %xmm15
	movdqa	%xmm8, %xmm6
	pxor	%xmm7, %xmm6
	pxor	%xmm13, %xmm6
	pxor	%xmm11, %xmm13
	pxor	%xmm11, %xmm7
	pxor	%xmm9, %xmm4
	pxor	%xmm2, %xmm3
	pxor	%xmm9, %xmm3
	movdqa	240(%rsp), %xmm9
	pxor	%xmm9, %xmm12
	movdqa	-80(%rsp), %xmm1
	pxor	%xmm1, %xmm12
	pxor	%xmm0, %xmm4
	pxor	%xmm1, %xmm3
	movdqa	%xmm4, %xmm1
	pxor	%xmm12, %xmm1
	pxor	%xmm13, %xmm3
	pxor	%xmm13, %xmm1
	pxor	256(%rsp), %xmm10
	pxor	%xmm14, %xmm10
	pxor	%xmm7, %xmm5
	pxor	%xmm7, %xmm10
	pxor	%xmm9, %xmm2
	pxor	%xmm0, %xmm2
	pcmpeqd	%xmm8, %xmm8
	pxor	%xmm8, %xmm2
	pxor	%xmm6, %xmm2
	pxor	%xmm8, %xmm12
	movdqa	%xmm12, %xmm0
	pxor	%xmm6, %xmm12
	pxor	%xmm8, %xmm10
	pcmpeqd	%xmm6, %xmm6
	pxor	%xmm6, %xmm4
	pxor	%xmm15, %xmm0
	pxor	%xmm15, %xmm4
	movdqu	%xmm4, -448(%rdi,%r10,8)
	movdqu	%xmm12, -384(%rdi,%r10,8)
	movdqu	%xmm1, -320(%rdi,%r10,8)
	movdqu	%xmm5, -256(%rdi,%r10,8)
	movdqu	%xmm0, -192(%rdi,%r10,8)
	movdqu	%xmm3, -128(%rdi,%r10,8)
	movdqu	%xmm2, -64(%rdi,%r10,8)
	movdqu	%xmm10, (%rdi,%r10,8)
	addq	$2, %r10
	cmpq	%r10, %rsi
	jne	.Lluossavin_x86_64.BB8_4
	movq	%rsi, %rax
	cmpq	%rsi, 464(%rsp)
	movq	56(%rsp), %rbx
	je	.Lluossavin_x86_64.BB8_8
.Lluossavin_x86_64.BB8_6:
	movq	464(%rsp), %rcx
	subq	%rax, %rcx
	movq	%rcx, 160(%rsp)
	movq	-56(%rsp), %rcx
	leaq	(%rcx,%rax,8), %rcx
	movq	%rcx, 144(%rsp)
	movq	-48(%rsp), %rcx
	leaq	(%rcx,%rax,8), %rcx
	movq	%rcx, 128(%rsp)
	movq	-40(%rsp), %rcx
	leaq	(%rcx,%rax,8), %rcx
	movq	%rcx, 112(%rsp)
	movq	40(%rsp), %rcx
	leaq	(%rcx,%rax,8), %rax
	movq	%rax, 360(%rsp)
	xorl	%ecx, %ecx
	movq	%r8, 400(%rsp)
	movq	%r14, 392(%rsp)
	movq	%rbp, 384(%rsp)
	movq	%r11, 376(%rsp)
	movq	%r15, 368(%rsp)
	.p2align	4
.Lluossavin_x86_64.BB8_7:
	movq	%rcx, -112(%rsp)
	movq	%r11, %rsi
	movq	%rbp, %rdi
	movq	%r8, %r11
	movq	144(%rsp), %rax
	movq	-112(%rsp), %rcx
	movq	-448(%rax,%rcx,8), %rcx
	movq	-112(%rsp), %r8
	movq	-384(%rax,%r8,8), %r8
	movq	128(%rsp), %r13
	movq	-112(%rsp), %r10
	xorq	-448(%r13,%r10,8), %rcx
	movq	112(%rsp), %rbp
	movq	-112(%rsp), %r10
	xorq	-448(%rbp,%r10,8), %rcx
	movq	-112(%rsp), %r10
	xorq	-384(%r13,%r10,8), %r8
	xorq	%r11, %rcx
	movq	-112(%rsp), %r10
	xorq	-384(%rbp,%r10,8), %r8
	movq	-112(%rsp), %r10
	movq	-320(%rax,%r10,8), %r11
	movq	-112(%rsp), %r10
	xorq	-320(%r13,%r10,8), %r11
	movq	-112(%rsp), %r10
	xorq	-320(%rbp,%r10,8), %r11
	xorq	%r14, %r8
	movq	-112(%rsp), %r9
	movq	-256(%rax,%r9,8), %r12
	movq	-112(%rsp), %r9
	xorq	-256(%r13,%r9,8), %r12
	xorq	%rdi, %r11
	movq	-112(%rsp), %rdi
	xorq	-256(%rbp,%rdi,8), %r12
	movq	-112(%rsp), %rdi
	movq	-192(%rax,%rdi,8), %rdi
	movq	-112(%rsp), %r9
	xorq	-192(%r13,%r9,8), %rdi
	movq	-112(%rsp), %r9
	xorq	-192(%rbp,%r9,8), %rdi
	xorq	%rsi, %r12
	movq	-112(%rsp), %rsi
	movq	-128(%rax,%rsi,8), %rsi
	movq	-112(%rsp), %r9
	xorq	-128(%r13,%r9,8), %rsi
	xorq	%r15, %rdi
	movq	-112(%rsp), %r9
	xorq	-128(%rbp,%r9,8), %rsi
	movq	-112(%rsp), %r9
	movq	-64(%rax,%r9,8), %r15
	movq	-112(%rsp), %r9
	xorq	-64(%r13,%r9,8), %r15
	movq	-112(%rsp), %r9
	xorq	-64(%rbp,%r9,8), %r15
	xorq	72(%rsp), %rsi
	movq	-112(%rsp), %r9
	movq	(%rax,%r9,8), %r9
	movq	-112(%rsp), %rax
	xorq	(%r13,%rax,8), %r9
	xorq	64(%rsp), %r15
	movq	-112(%rsp), %rax
	xorq	(%rbp,%rax,8), %r9
	xorq	%rbx, %r9
	movq	%r9, %rax
	movq	%r9, %r10
	movq	%r9, -80(%rsp)
	xorq	%rdi, %rax
	movq	%rax, %r14
	movq	%rax, %rdx
	movq	%rax, -96(%rsp)
	xorq	%rsi, %rdx
	movq	%rdx, %r9
	movq	%rdx, 288(%rsp)
	movq	%rsi, %rbp
	xorq	%r12, %rbp
	xorq	%rcx, %r14
	movq	%rbp, %rbx
	xorq	%rcx, %rbx
	movq	%rbx, 80(%rsp)
	xorq	%r8, %rsi
	movq	%r14, %rdx
	xorq	%r12, %rdx
	movq	%rdx, %r13
	xorq	%r11, %rdi
	movq	%rbx, %rax
	xorq	%rdi, %rax
	movq	%rax, -32(%rsp)
	xorq	%r8, %r12
	movq	%r8, %rdx
	xorq	%rdi, %r12
	movq	%r12, 96(%rsp)
	movq	%r10, %rdi
	xorq	%rbp, %rdi
	movq	%rsi, %rax
	movq	%rsi, %r12
	xorq	%rcx, %rax
	movq	%rax, 304(%rsp)
	movq	%r15, %r10
	xorq	%rbp, %r15
	movq	%rbp, %r8
	andq	%rcx, %rbp
	notq	%rcx
	movq	%rcx, 272(%rsp)
	andq	%rcx, %r8
	movq	%r9, %rcx
	andq	%rax, %rcx
	movq	%rdx, -16(%rsp)
	xorq	%rdx, %r8
	xorq	%rcx, %r8
	xorq	%r14, %r8
	xorq	%r11, %r10
	movq	%r10, 16(%rsp)
	movq	%r10, %rsi
	xorq	%rdx, %rsi
	xorq	%r11, %r14
	movq	80(%rsp), %rcx
	xorq	%rcx, %r10
	movq	%r10, 240(%rsp)
	movq	-96(%rsp), %rax
	xorq	%r12, %rax
	movq	%rax, -96(%rsp)
	movq	%r13, %rbx
	movq	%r13, %r9
	xorq	%rsi, %r9
	movq	%rsi, %r13
	movq	%rsi, 192(%rsp)
	movq	%r9, (%rsp)
	movq	%r14, %rsi
	xorq	%r12, %rsi
	movq	%rsi, 256(%rsp)
	movq	-80(%rsp), %rdx
	xorq	%rcx, %rdx
	movq	%rdx, -80(%rsp)
	movq	%rax, %rcx
	andq	96(%rsp), %rcx
	andq	%r10, %rdx
	xorq	%rcx, %rdx
	movq	%rsi, %rax
	andq	%r9, %rax
	xorq	%rcx, %rax
	movq	%rdi, %rsi
	xorq	%r11, %rdi
	notq	%r14
	movq	%r14, 208(%rsp)
	notq	%rsi
	movq	16(%rsp), %r10
	movq	%r10, %rcx
	andq	%rsi, %rcx
	andq	%r14, %r13
	xorq	%rcx, %rdi
	xorq	%r13, %rdi
	movq	-32(%rsp), %r11
	movq	-16(%rsp), %r13
	andq	%r13, %r11
	xorq	%r11, %r15
	xorq	%rcx, %r15
	notq	%r12
	movq	%r12, 224(%rsp)
	movq	%rbx, %rcx
	andq	%r12, %rcx
	xorq	%rcx, %rbp
	xorq	%rdx, %rdi
	xorq	%rdx, %rbp
	xorq	%rax, %r15
	xorq	%rax, %r8
	notq	%rbp
	movq	%rdi, %rax
	xorq	%r15, %rax
	andq	%rbp, %rdi
	movq	%rdi, %r11
	xorq	%r8, %r11
	movq	%r11, %rdx
	andq	%rax, %rdx
	xorq	%r15, %rdx
	movq	%r8, %rcx
	xorq	%rbp, %rcx
	xorq	%rdi, %r15
	andq	%rcx, %r15
	movq	%r15, %r9
	xorq	%rdi, %r15
	xorq	%r8, %r9
	andq	%r8, %r15
	xorq	%r15, %rbp
	xorq	%r11, %r15
	andq	%rdx, %r15
	xorq	%rax, %r15
	movq	%r10, %r12
	andq	%rbp, %r12
	movq	%rbp, %r8
	andq	%rsi, %rbp
	movq	%rbp, 176(%rsp)
	xorq	%r9, %r8
	movq	%r15, %r11
	xorq	%r8, %r11
	movq	192(%rsp), %rbp
	andq	%r8, %rbp
	andq	208(%rsp), %r8
	movq	%rdx, %rdi
	xorq	%r9, %rdi
	andq	%r9, %r13
	movq	%r13, -16(%rsp)
	andq	-32(%rsp), %r9
	movq	%r15, %rsi
	xorq	%rdx, %rsi
	movq	80(%rsp), %rax
	andq	%rsi, %rax
	andq	272(%rsp), %rsi
	andq	%r15, %rbx
	movq	%rbx, -32(%rsp)
	andq	224(%rsp), %r15
	movq	288(%rsp), %r13
	andq	%rdx, %r13
	andq	304(%rsp), %rdx
	movq	%r11, %r14
	xorq	%rdi, %r14
	movq	-96(%rsp), %rbx
	andq	%rdi, %rbx
	andq	96(%rsp), %rdi
	movq	240(%rsp), %r10
	andq	%r14, %r10
	andq	-80(%rsp), %r14
	movq	(%rsp), %rcx
	andq	%r11, %rcx
	movq	%rcx, (%rsp)
	andq	256(%rsp), %r11
	xorq	%rax, %r12
	movq	%r12, 16(%rsp)
	xorq	%rax, %rbx
	xorq	%rcx, %r13
	xorq	%r13, %r8
	xorq	%r12, %rbp
	xorq	%r8, %rbx
	movq	%r10, %r12
	xorq	%r10, %r8
	xorq	%rbp, %r8
	movq	-32(%rsp), %r10
	xorq	%r10, %rbp
	xorq	%r10, %r12
	xorq	%r11, %r9
	xorq	%rdi, %rdx
	xorq	%r11, %rdx
	movq	176(%rsp), %rcx
	xorq	%rcx, %r15
	xorq	%rsi, %r15
	xorq	%r14, %r9
	xorq	%rsi, %rdx
	movq	%r9, %rax
	xorq	%r15, %rax
	xorq	%rbp, %rdx
	xorq	%rbp, %rax
	movq	(%rsp), %r10
	xorq	-16(%rsp), %r10
	xorq	16(%rsp), %r10
	xorq	%r12, %r13
	xorq	%r12, %r10
	movq	376(%rsp), %r11
	xorq	%rcx, %rdi
	xorq	%r14, %rdi
	movq	392(%rsp), %r14
	xorq	%r8, %rdi
	xorq	%r15, %r8
	xorq	%rbx, %r15
	xorq	%rbx, %r9
	notq	%r9
	movq	360(%rsp), %rsi
	movq	-112(%rsp), %rbx
	movq	%r9, (%rsi,%rbx,8)
	movq	-112(%rsp), %rcx
	notq	%r8
	movq	%r8, 64(%rsi,%rcx,8)
	movq	400(%rsp), %r8
	movq	%rax, 128(%rsi,%rcx,8)
	movq	56(%rsp), %rbx
	movq	%r13, 192(%rsi,%rcx,8)
	notq	%r15
	movq	%r15, 256(%rsi,%rcx,8)
	movq	368(%rsp), %r15
	movq	%rdx, 320(%rsi,%rcx,8)
	notq	%rdi
	movq	%rdi, 384(%rsi,%rcx,8)
	notq	%r10
	movq	%r10, 448(%rsi,%rcx,8)
	movq	384(%rsp), %rbp
	incq	%rcx
	cmpq	%rcx, 160(%rsp)
	jne	.Lluossavin_x86_64.BB8_7
	jmp	.Lluossavin_x86_64.BB8_8
.Lluossavin_x86_64.BB8_9:
	movq	$-256, %rax
	movq	32(%rsp), %rsi
	.p2align	4
.Lluossavin_x86_64.BB8_10:
	movups	2048(%rsi,%rax,8), %xmm0
	movups	2064(%rsi,%rax,8), %xmm1
	movdqu	2080(%rsi,%rax,8), %xmm2
	movdqu	2096(%rsi,%rax,8), %xmm3
	movups	%xmm0, 4096(%rsi,%rax,8)
	movups	%xmm1, 4112(%rsi,%rax,8)
	movdqu	%xmm2, 4128(%rsi,%rax,8)
	movdqu	%xmm3, 4144(%rsi,%rax,8)
	movups	2112(%rsi,%rax,8), %xmm0
	movups	2128(%rsi,%rax,8), %xmm1
	movups	%xmm0, 4160(%rsi,%rax,8)
	movups	%xmm1, 4176(%rsi,%rax,8)
	movdqu	2144(%rsi,%rax,8), %xmm0
	movdqu	2160(%rsi,%rax,8), %xmm1
	movdqu	%xmm0, 4192(%rsi,%rax,8)
	movdqu	%xmm1, 4208(%rsi,%rax,8)
	addq	$16, %rax
	jne	.Lluossavin_x86_64.BB8_10
	movq	328(%rsp), %rdi
	leaq	2048(%rdi), %rax
	leaq	512(%rsi), %rcx
	leaq	4096(%rsi), %rdx
	cmpq	%rdx, %rdi
	setb	%dl
	cmpq	%rax, %rcx
	setb	%al
	testb	%al, %dl
	je	.Lluossavin_x86_64.BB8_12
	xorl	%eax, %eax
	.p2align	4
.Lluossavin_x86_64.BB8_15:
	movq	1920(%rsi,%rax,8), %rcx
	xorq	2048(%rsi,%rax,8), %rcx
	xorq	1408(%rsi,%rax,8), %rcx
	xorq	896(%rsi,%rax,8), %rcx
	xorq	512(%rsi,%rax,8), %rcx
	xorq	%rcx, (%rdi,%rax,8)
	incq	%rax
	cmpq	$256, %rax
	jne	.Lluossavin_x86_64.BB8_15
	jmp	.Lluossavin_x86_64.BB8_16
.Lluossavin_x86_64.BB8_12:
	xorl	%eax, %eax
	.p2align	4
.Lluossavin_x86_64.BB8_13:
	movdqu	2048(%rsi,%rax,8), %xmm0
	movdqu	2064(%rsi,%rax,8), %xmm1
	movdqu	1920(%rsi,%rax,8), %xmm2
	pxor	%xmm0, %xmm2
	movdqu	1936(%rsi,%rax,8), %xmm0
	pxor	%xmm1, %xmm0
	movdqu	1408(%rsi,%rax,8), %xmm1
	movdqu	1424(%rsi,%rax,8), %xmm3
	movdqu	512(%rsi,%rax,8), %xmm4
	movdqu	528(%rsi,%rax,8), %xmm5
	movdqu	896(%rsi,%rax,8), %xmm6
	pxor	%xmm1, %xmm6
	pxor	%xmm2, %xmm6
	movdqu	912(%rsi,%rax,8), %xmm1
	pxor	%xmm3, %xmm1
	pxor	%xmm0, %xmm1
	movdqu	(%rdi,%rax,8), %xmm0
	pxor	%xmm4, %xmm0
	pxor	%xmm6, %xmm0
	movdqu	16(%rdi,%rax,8), %xmm2
	pxor	%xmm5, %xmm2
	pxor	%xmm1, %xmm2
	movdqu	%xmm0, (%rdi,%rax,8)
	movdqu	%xmm2, 16(%rdi,%rax,8)
	addq	$4, %rax
	cmpq	$256, %rax
	jne	.Lluossavin_x86_64.BB8_13
.Lluossavin_x86_64.BB8_16:
	addq	$408, %rsp
	popq	%rbx
	popq	%r12
	popq	%r13
	popq	%r14
	popq	%r15
	popq	%rbp
	retq
.Lluossavin_x86_64.func_end8:
	.size	"sliced::round.x86_64", .Lluossavin_x86_64.func_end8-"sliced::round.x86_64"

	.section	.rodata.cst16,"aM",@progbits,16
	.p2align	4, 0x0
.Lluossavin_x86_64.CPI9_0:
	.zero	16,170
.Lluossavin_x86_64.CPI9_1:
	.zero	16,204
.Lluossavin_x86_64.CPI9_2:
	.zero	16,240
.Lluossavin_x86_64.CPI9_3:
	.quad	-71777214294589696
	.quad	-71777214294589696
.Lluossavin_x86_64.CPI9_4:
	.quad	-281470681808896
	.quad	-281470681808896
.Lluossavin_x86_64.CPI9_5:
	.quad	-4294967296
	.quad	-4294967296
	.section	".text.stream::batches::counters.x86_64","ax",@progbits
	.p2align	4
	.type	"stream::batches::counters.x86_64",@function
"stream::batches::counters.x86_64":
	pushq	%rbp
	pushq	%r15
	pushq	%r14
	pushq	%r13
	pushq	%r12
	pushq	%rbx
	subq	$3072, %rsp
	movq	$0, (%rsp)
	subq	$3072, %rsp
	movq	$0, (%rsp)
	subq	$3072, %rsp
	movq	$0, (%rsp)
	subq	$3072, %rsp
	movq	$0, (%rsp)
	subq	$3072, %rsp
	movq	$0, (%rsp)
	subq	$3072, %rsp
	movq	$0, (%rsp)
	subq	$2712, %rsp
	movq	%rdi, 32(%rsp)
	movups	112(%rsi), %xmm0
	movaps	%xmm0, 384(%rsp)
	movups	96(%rsi), %xmm0
	movaps	%xmm0, 368(%rsp)
	movups	80(%rsi), %xmm0
	movaps	%xmm0, 352(%rsp)
	movups	64(%rsi), %xmm0
	movaps	%xmm0, 336(%rsp)
	movups	(%rsi), %xmm0
	movups	16(%rsi), %xmm1
	movups	32(%rsi), %xmm2
	movups	48(%rsi), %xmm3
	movaps	%xmm3, 320(%rsp)
	movaps	%xmm2, 304(%rsp)
	movaps	%xmm1, 288(%rsp)
	movaps	%xmm0, 272(%rsp)
	movl	(%rcx), %eax
	movq	%rax, (%rsp)
	movl	4(%rcx), %eax
	movq	%rax, 16(%rsp)
	movl	8(%rcx), %eax
	movq	%rax, 8(%rsp)
	movl	12(%rcx), %r15d
	cmpq	$3072, %r9
	jb	.Lluossavin_x86_64.BB9_1
	movl	%edx, %ebx
	movq	21200(%rsp), %rax
	leaq	6808(%rsp), %r14
	addq	$8, %rax
	movq	%rax, 40(%rsp)
	addq	$8, %r8
	xorl	%r10d, %r10d
	movq	%r9, %rax
	movl	%edx, 28(%rsp)
	movq	%r9, 56(%rsp)
	movq	%r8, 48(%rsp)
	jmp	.Lluossavin_x86_64.BB9_3
	.p2align	4
.Lluossavin_x86_64.BB9_10:
	addl	%r12d, %r15d
.Lluossavin_x86_64.BB9_11:
	shlq	$4, %r12
	addq	%r12, %r10
	movq	%r9, %rax
	subq	%r10, %rax
	cmpq	$3071, %rax
	jbe	.Lluossavin_x86_64.BB9_12
.Lluossavin_x86_64.BB9_3:
	movq	%r10, 64(%rsp)
	shrq	$4, %rax
	cmpq	$512, %rax
	movl	$512, %r12d
	cmovbq	%rax, %r12
	movaps	272(%rsp), %xmm0
	movaps	288(%rsp), %xmm1
	movaps	304(%rsp), %xmm2
	movaps	320(%rsp), %xmm3
	movaps	%xmm0, 528(%rsp)
	movaps	%xmm1, 544(%rsp)
	movaps	%xmm2, 560(%rsp)
	movaps	%xmm3, 576(%rsp)
	movaps	336(%rsp), %xmm0
	movaps	%xmm0, 592(%rsp)
	movaps	352(%rsp), %xmm0
	movaps	%xmm0, 608(%rsp)
	movaps	368(%rsp), %xmm0
	movaps	%xmm0, 624(%rsp)
	movaps	384(%rsp), %xmm0
	movaps	%xmm0, 640(%rsp)
	leaq	664(%rsp), %rdi
	movl	$12288, %edx
	xorl	%esi, %esi
	callq	memset@PLT
	leaq	12952(%rsp), %rdi
	movl	$8192, %edx
	xorl	%esi, %esi
	callq	memset@PLT
	xorps	%xmm1, %xmm1
	movaps	%xmm1, 208(%rsp)
	movaps	%xmm1, 224(%rsp)
	movaps	%xmm1, 240(%rsp)
	movaps	%xmm1, 256(%rsp)
	movaps	%xmm1, 464(%rsp)
	movaps	%xmm1, 480(%rsp)
	movaps	%xmm1, 496(%rsp)
	movaps	%xmm1, 512(%rsp)
	movaps	%xmm1, 400(%rsp)
	movaps	%xmm1, 416(%rsp)
	movaps	%xmm1, 432(%rsp)
	movaps	%xmm1, 448(%rsp)
	movaps	.Lluossavin_x86_64.CPI9_0(%rip), %xmm0
	movups	%xmm0, 48(%r14)
	movups	%xmm0, 32(%r14)
	movups	%xmm0, 16(%r14)
	movups	%xmm0, (%r14)
	movaps	.Lluossavin_x86_64.CPI9_1(%rip), %xmm0
	movups	%xmm0, 112(%r14)
	movups	%xmm0, 96(%r14)
	movups	%xmm0, 80(%r14)
	movups	%xmm0, 64(%r14)
	movaps	.Lluossavin_x86_64.CPI9_2(%rip), %xmm0
	movups	%xmm0, 176(%r14)
	movups	%xmm0, 160(%r14)
	movups	%xmm0, 144(%r14)
	movups	%xmm0, 128(%r14)
	movaps	.Lluossavin_x86_64.CPI9_3(%rip), %xmm0
	movups	%xmm0, 7016(%rsp)
	movups	%xmm0, 7000(%rsp)
	movups	%xmm0, 7048(%rsp)
	movups	%xmm0, 7032(%rsp)
	movaps	.Lluossavin_x86_64.CPI9_4(%rip), %xmm0
	movups	%xmm0, 7080(%rsp)
	movups	%xmm0, 7064(%rsp)
	movups	%xmm0, 7112(%rsp)
	movups	%xmm0, 7096(%rsp)
	movdqa	.Lluossavin_x86_64.CPI9_5(%rip), %xmm0
	movdqu	%xmm0, 7144(%rsp)
	movdqu	%xmm0, 7128(%rsp)
	movdqu	%xmm0, 7176(%rsp)
	movdqu	%xmm0, 7160(%rsp)
	movq	$0, 7192(%rsp)
	movq	$-1, 7200(%rsp)
	movq	$0, 7208(%rsp)
	movq	$-1, 7216(%rsp)
	movq	$0, 7224(%rsp)
	movq	$-1, 7232(%rsp)
	movq	$0, 7240(%rsp)
	movq	$-1, 7248(%rsp)
	movups	%xmm1, 448(%r14)
	pcmpeqd	%xmm0, %xmm0
	movdqu	%xmm0, 464(%r14)
	movups	%xmm1, 480(%r14)
	movdqu	%xmm0, 496(%r14)
	movups	%xmm1, 528(%r14)
	movups	%xmm1, 512(%r14)
	movdqu	%xmm0, 560(%r14)
	movdqu	%xmm0, 544(%r14)
	movaps	%xmm1, 192(%rsp)
	movaps	%xmm1, 176(%rsp)
	movaps	%xmm1, 160(%rsp)
	movaps	%xmm1, 144(%rsp)
	leaq	208(%rsp), %rdi
	leaq	144(%rsp), %rcx
	movl	$9, %edx
	movq	%r14, %rsi
	movl	%r15d, %r8d
	callq	"sliced::counters::add_word.x86_64"
	testb	%bl, %bl
	movq	%r15, 72(%rsp)
	je	.Lluossavin_x86_64.BB9_4
	movdqa	208(%rsp), %xmm0
	movaps	224(%rsp), %xmm1
	movaps	240(%rsp), %xmm2
	movaps	256(%rsp), %xmm3
	movaps	%xmm3, 128(%rsp)
	movaps	%xmm2, 112(%rsp)
	movaps	%xmm1, 96(%rsp)
	jmp	.Lluossavin_x86_64.BB9_6
	.p2align	4
.Lluossavin_x86_64.BB9_4:
	pxor	%xmm0, %xmm0
	movdqa	%xmm0, 128(%rsp)
	movdqa	%xmm0, 112(%rsp)
	movdqa	%xmm0, 96(%rsp)
.Lluossavin_x86_64.BB9_6:
	movdqa	%xmm0, 80(%rsp)
	movaps	80(%rsp), %xmm0
	movaps	96(%rsp), %xmm1
	movaps	112(%rsp), %xmm2
	movaps	128(%rsp), %xmm3
	movaps	%xmm3, 192(%rsp)
	movaps	%xmm2, 176(%rsp)
	movaps	%xmm1, 160(%rsp)
	movaps	%xmm0, 144(%rsp)
	xorl	%r13d, %r13d
	leaq	464(%rsp), %rbp
	leaq	144(%rsp), %rbx
	movq	%rbp, %rdi
	leaq	4760(%rsp), %rsi
	xorl	%edx, %edx
	movq	%rbx, %rcx
	movq	8(%rsp), %r8
	callq	"sliced::counters::add_word.x86_64"
	leaq	400(%rsp), %r15
	movq	%r15, %rdi
	leaq	2712(%rsp), %rsi
	xorl	%edx, %edx
	movq	%rbp, %rcx
	movq	16(%rsp), %r8
	callq	"sliced::counters::add_word.x86_64"
	leaq	664(%rsp), %rbp
	movq	%rbx, %rdi
	movq	%rbp, %rsi
	xorl	%edx, %edx
	movq	%r15, %rcx
	movq	(%rsp), %r8
	callq	"sliced::counters::add_word.x86_64"
	leal	63(%r12), %eax
	shrl	$3, %eax
	andl	$248, %eax
	leaq	.Lluossavin_x86_64.static.3(%rip), %rcx
	movq	(%rax,%rcx), %rdx
	leaq	528(%rsp), %rsi
	leaq	12952(%rsp), %rcx
	movq	%rbp, %rdi
	callq	"sliced::Planes::rounds_to_rows.x86_64"
	movq	64(%rsp), %r10
	movq	40(%rsp), %rax
	addq	%r10, %rax
	movq	48(%rsp), %r8
	leaq	(%r8,%r10), %rcx
	xorl	%edx, %edx
	.p2align	4
.Lluossavin_x86_64.BB9_7:
	movl	%r13d, %esi
	andl	$504, %esi
	movq	%rdx, %rdi
	shrq	$6, %rdi
	addq	%rsi, %rdi
	movq	12952(%rsp,%rdi,8), %rsi
	bswapq	%rsi
	movq	(%rcx,%r13,2), %r9
	xorq	-8(%rcx,%r13,2), %rsi
	movq	%rsi, -8(%rax,%r13,2)
	movq	17048(%rsp,%rdi,8), %rsi
	bswapq	%rsi
	xorq	%r9, %rsi
	movq	%rsi, (%rax,%r13,2)
	incq	%rdx
	addq	$8, %r13
	cmpq	%rdx, %r12
	jne	.Lluossavin_x86_64.BB9_7
	movl	28(%rsp), %ebx
	testb	%bl, %bl
	movq	56(%rsp), %r9
	movq	72(%rsp), %r15
	je	.Lluossavin_x86_64.BB9_10
	movq	(%rsp), %rcx
	shlq	$32, %rcx
	movq	16(%rsp), %rax
	movl	%eax, %eax
	orq	%rcx, %rax
	movq	8(%rsp), %rcx
	shlq	$32, %rcx
	movl	%r15d, %r15d
	orq	%rcx, %r15
	addq	%r12, %r15
	adcq	$0, %rax
	movq	%rax, 16(%rsp)
	shrq	$32, %rax
	movq	%rax, (%rsp)
	movq	%r15, %rax
	shrq	$32, %rax
	movq	%rax, 8(%rsp)
	jmp	.Lluossavin_x86_64.BB9_11
.Lluossavin_x86_64.BB9_1:
	xorl	%r10d, %r10d
.Lluossavin_x86_64.BB9_12:
	movq	32(%rsp), %rax
	movq	(%rsp), %rcx
	movl	%ecx, (%rax)
	movq	16(%rsp), %rcx
	movl	%ecx, 4(%rax)
	movq	8(%rsp), %rcx
	movl	%ecx, 8(%rax)
	movl	%r15d, 12(%rax)
	movq	%r10, 16(%rax)
	addq	$21144, %rsp
	popq	%rbx
	popq	%r12
	popq	%r13
	popq	%r14
	popq	%r15
	popq	%rbp
	retq
.Lluossavin_x86_64.func_end9:
	.size	"stream::batches::counters.x86_64", .Lluossavin_x86_64.func_end9-"stream::batches::counters.x86_64"

	.section	".text.sliced::counters::add_word.x86_64","ax",@progbits
	.p2align	4
	.type	"sliced::counters::add_word.x86_64",@function
"sliced::counters::add_word.x86_64":
	subq	$128, %rsp
	movdqu	(%rcx), %xmm0
	movdqu	16(%rcx), %xmm1
	movdqu	32(%rcx), %xmm3
	movdqu	48(%rcx), %xmm2
	movl	%r8d, %eax
	movl	%eax, %ecx
	andl	$1, %ecx
	negq	%rcx
	movq	%rcx, -128(%rsp)
	movq	%rax, %rcx
	shlq	$62, %rcx
	sarq	$63, %rcx
	movq	%rcx, -120(%rsp)
	movq	%rax, %rcx
	shlq	$61, %rcx
	sarq	$63, %rcx
	movq	%rcx, -112(%rsp)
	movq	%rax, %rcx
	shlq	$60, %rcx
	sarq	$63, %rcx
	movq	%rcx, -104(%rsp)
	movq	%rax, %rcx
	shlq	$59, %rcx
	sarq	$63, %rcx
	movq	%rcx, -96(%rsp)
	movq	%rax, %rcx
	shlq	$58, %rcx
	sarq	$63, %rcx
	movq	%rcx, -88(%rsp)
	movq	%rax, %rcx
	shlq	$57, %rcx
	sarq	$63, %rcx
	movq	%rcx, -80(%rsp)
	movsbq	%al, %rcx
	sarq	$7, %rcx
	movq	%rcx, -72(%rsp)
	movq	%rax, %rcx
	shlq	$55, %rcx
	sarq	$63, %rcx
	movq	%rcx, -64(%rsp)
	movq	%rax, %rcx
	shlq	$54, %rcx
	sarq	$63, %rcx
	movq	%rcx, -56(%rsp)
	movq	%rax, %rcx
	shlq	$53, %rcx
	sarq	$63, %rcx
	movq	%rcx, -48(%rsp)
	movq	%rax, %rcx
	shlq	$52, %rcx
	sarq	$63, %rcx
	movq	%rcx, -40(%rsp)
	movq	%rax, %rcx
	shlq	$51, %rcx
	sarq	$63, %rcx
	movq	%rcx, -32(%rsp)
	movq	%rax, %rcx
	shlq	$50, %rcx
	sarq	$63, %rcx
	movq	%rcx, -24(%rsp)
	movq	%rax, %rcx
	shlq	$49, %rcx
	sarq	$63, %rcx
	movq	%rcx, -16(%rsp)
	movswq	%ax, %rcx
	sarq	$15, %rcx
	movq	%rcx, -8(%rsp)
	movq	%rax, %rcx
	shlq	$47, %rcx
	sarq	$63, %rcx
	movq	%rcx, (%rsp)
	movq	%rax, %rcx
	shlq	$46, %rcx
	sarq	$63, %rcx
	movq	%rcx, 8(%rsp)
	movq	%rax, %rcx
	shlq	$45, %rcx
	sarq	$63, %rcx
	movq	%rcx, 16(%rsp)
	movq	%rax, %rcx
	shlq	$44, %rcx
	sarq	$63, %rcx
	movq	%rcx, 24(%rsp)
	movq	%rax, %rcx
	shlq	$43, %rcx
	sarq	$63, %rcx
	movq	%rcx, 32(%rsp)
	movq	%rax, %rcx
	shlq	$42, %rcx
	sarq	$63, %rcx
	movq	%rcx, 40(%rsp)
	movq	%rax, %rcx
	shlq	$41, %rcx
	sarq	$63, %rcx
	movq	%rcx, 48(%rsp)
	movq	%rax, %rcx
	shlq	$40, %rcx
	sarq	$63, %rcx
	movq	%rcx, 56(%rsp)
	movq	%rax, %rcx
	shlq	$39, %rcx
	sarq	$63, %rcx
	movq	%rcx, 64(%rsp)
	movq	%rax, %rcx
	shlq	$38, %rcx
	sarq	$63, %rcx
	movq	%rcx, 72(%rsp)
	movq	%rax, %rcx
	shlq	$37, %rcx
	sarq	$63, %rcx
	movq	%rcx, 80(%rsp)
	movq	%rax, %rcx
	shlq	$36, %rcx
	sarq	$63, %rcx
	movq	%rcx, 88(%rsp)
	movq	%rax, %rcx
	shlq	$35, %rcx
	sarq	$63, %rcx
	movq	%rcx, 96(%rsp)
	movq	%rax, %rcx
	shlq	$34, %rcx
	sarq	$63, %rcx
	movq	%rcx, 104(%rsp)
	shlq	$33, %rax
	sarq	$63, %rax
	movq	%rax, 112(%rsp)
	shrl	$31, %r8d
	negq	%r8
	movq	%r8, 120(%rsp)
	testq	%rdx, %rdx
	je	.Lluossavin_x86_64.BB10_1
	leaq	(,%rdx,8), %rax
	xorl	%ecx, %ecx
	.p2align	4
.Lluossavin_x86_64.BB10_3:
	movdqu	(%rsi,%rcx,8), %xmm7
	movdqu	16(%rsi,%rcx,8), %xmm8
	movdqu	32(%rsi,%rcx,8), %xmm4
	movdqu	48(%rsi,%rcx,8), %xmm5
	movdqa	%xmm7, %xmm9
	pand	%xmm0, %xmm9
	movdqa	%xmm8, %xmm10
	pand	%xmm1, %xmm10
	movq	-128(%rsp,%rcx), %xmm6
	pshufd	$68, %xmm6, %xmm6
	pxor	%xmm0, %xmm7
	movdqa	%xmm6, %xmm0
	pand	%xmm7, %xmm0
	pxor	%xmm9, %xmm0
	pxor	%xmm1, %xmm8
	movdqa	%xmm6, %xmm1
	pand	%xmm8, %xmm1
	pxor	%xmm10, %xmm1
	pxor	%xmm6, %xmm7
	movdqu	%xmm7, (%rsi,%rcx,8)
	pxor	%xmm6, %xmm8
	movdqu	%xmm8, 16(%rsi,%rcx,8)
	movdqa	%xmm4, %xmm7
	pand	%xmm3, %xmm7
	movdqa	%xmm5, %xmm8
	pand	%xmm2, %xmm8
	pxor	%xmm3, %xmm4
	movdqa	%xmm6, %xmm3
	pxor	%xmm4, %xmm3
	pand	%xmm6, %xmm4
	pxor	%xmm7, %xmm4
	pxor	%xmm2, %xmm5
	movdqa	%xmm5, %xmm2
	pand	%xmm6, %xmm2
	pxor	%xmm8, %xmm2
	movdqu	%xmm3, 32(%rsi,%rcx,8)
	pxor	%xmm6, %xmm5
	movdqu	%xmm5, 48(%rsi,%rcx,8)
	addq	$8, %rcx
	movdqa	%xmm4, %xmm3
	cmpq	%rcx, %rax
	jne	.Lluossavin_x86_64.BB10_3
	jmp	.Lluossavin_x86_64.BB10_4
.Lluossavin_x86_64.BB10_1:
	movdqa	%xmm3, %xmm4
.Lluossavin_x86_64.BB10_4:
	shlq	$3, %rdx
	.p2align	4
.Lluossavin_x86_64.BB10_5:
	movq	-128(%rsp,%rdx), %xmm3
	pshufd	$68, %xmm3, %xmm3
	movdqa	%xmm0, %xmm5
	pxor	%xmm3, %xmm5
	movdqu	%xmm5, (%rsi,%rdx,8)
	movdqa	%xmm1, %xmm5
	pxor	%xmm3, %xmm5
	movdqu	%xmm5, 16(%rsi,%rdx,8)
	pand	%xmm3, %xmm1
	pand	%xmm3, %xmm0
	movdqa	%xmm4, %xmm5
	pxor	%xmm3, %xmm5
	movdqu	%xmm5, 32(%rsi,%rdx,8)
	movdqa	%xmm2, %xmm5
	pxor	%xmm3, %xmm5
	movdqu	%xmm5, 48(%rsi,%rdx,8)
	pand	%xmm3, %xmm2
	pand	%xmm3, %xmm4
	addq	$8, %rdx
	cmpq	$256, %rdx
	jne	.Lluossavin_x86_64.BB10_5
	movdqu	%xmm0, (%rdi)
	movdqu	%xmm1, 16(%rdi)
	movdqu	%xmm4, 32(%rdi)
	movdqu	%xmm2, 48(%rdi)
	addq	$128, %rsp
	retq
.Lluossavin_x86_64.func_end10:
	.size	"sliced::counters::add_word.x86_64", .Lluossavin_x86_64.func_end10-"sliced::counters::add_word.x86_64"

	.section	".text.stream::few::few.x86_64","ax",@progbits
	.p2align	4
	.type	"stream::few::few.x86_64",@function
"stream::few::few.x86_64":
	pushq	%rbp
	pushq	%r15
	pushq	%r14
	pushq	%r13
	pushq	%r12
	pushq	%rbx
	subq	$2248, %rsp
	movq	%r9, 16(%rsp)
	movl	%ecx, 12(%rsp)
	movl	%edx, %r15d
	movq	%rdi, 24(%rsp)
	movq	2312(%rsp), %r12
	movups	112(%rsi), %xmm0
	movaps	%xmm0, 144(%rsp)
	movups	96(%rsi), %xmm0
	movaps	%xmm0, 128(%rsp)
	movups	80(%rsi), %xmm0
	movaps	%xmm0, 112(%rsp)
	movups	64(%rsi), %xmm0
	movaps	%xmm0, 96(%rsp)
	movdqu	(%rsi), %xmm0
	movdqu	16(%rsi), %xmm1
	movups	32(%rsi), %xmm2
	movups	48(%rsi), %xmm3
	movaps	%xmm3, 80(%rsp)
	movaps	%xmm2, 64(%rsp)
	movdqa	%xmm1, 48(%rsp)
	movdqa	%xmm0, 32(%rsp)
	movl	(%r8), %r14d
	movl	4(%r8), %ebp
	movl	8(%r8), %ebx
	movl	12(%r8), %r13d
	leaq	168(%rsp), %rdi
	movl	$1040, %edx
	xorl	%esi, %esi
	callq	memset@PLT
	testb	%r15b, %r15b
	je	.Lluossavin_x86_64.BB11_1
	movq	16(%rsp), %r10
	testb	$1, 12(%rsp)
	je	.Lluossavin_x86_64.BB11_11
	shlq	$32, %r14
	orq	%rbp, %r14
	shlq	$32, %rbx
	leaq	(%rbx,%r13), %rax
	leaq	1(%r10), %rcx
	movq	$-1, %rdx
	leaq	180(%rsp), %rsi
	.p2align	4
.Lluossavin_x86_64.BB11_10:
	leaq	(%rbx,%r13), %rdi
	cmpq	%rax, %rdx
	movq	%r14, %r8
	adcq	$0, %r8
	movq	%r8, %r9
	shrq	$32, %r9
	shrq	$32, %rdi
	bswapl	%r9d
	movl	%r9d, -12(%rsi)
	bswapl	%r8d
	movl	%r8d, -8(%rsi)
	bswapl	%edi
	movl	%edi, -4(%rsi)
	movl	%r13d, %edi
	bswapl	%edi
	movl	%edi, (%rsi)
	leaq	(%rcx,%rdx), %rdi
	decq	%rdi
	decq	%rdx
	addq	$16, %rsi
	incq	%r13
	cmpq	$-1, %rdi
	jne	.Lluossavin_x86_64.BB11_10
	jmp	.Lluossavin_x86_64.BB11_17
.Lluossavin_x86_64.BB11_1:
	bswapl	%r14d
	movl	%r14d, 168(%rsp)
	bswapl	%ebp
	movl	%ebp, 172(%rsp)
	bswapl	%ebx
	movl	%ebx, 176(%rsp)
	bswapl	%r13d
	movl	%r13d, 180(%rsp)
	movq	16(%rsp), %r10
	testq	%r10, %r10
	je	.Lluossavin_x86_64.BB11_17
	movl	%r10d, %eax
	andl	$3, %eax
	movl	$1, %ecx
	cmpq	$4, %r10
	jb	.Lluossavin_x86_64.BB11_6
	movq	%r10, %rdx
	andq	$-4, %rdx
	negq	%rdx
	movl	$48, %esi
	.p2align	4
.Lluossavin_x86_64.BB11_4:
	movups	-48(%r12,%rsi), %xmm0
	movups	%xmm0, 136(%rsp,%rsi)
	movups	-32(%r12,%rsi), %xmm0
	movups	%xmm0, 152(%rsp,%rsi)
	movups	-16(%r12,%rsi), %xmm0
	movups	%xmm0, 168(%rsp,%rsi)
	movdqu	(%r12,%rsi), %xmm0
	movdqu	%xmm0, 184(%rsp,%rsi)
	addq	$64, %rsi
	leaq	(%rdx,%rcx), %rdi
	addq	$4, %rdi
	addq	$4, %rcx
	cmpq	$1, %rdi
	jne	.Lluossavin_x86_64.BB11_4
	testq	%rax, %rax
	je	.Lluossavin_x86_64.BB11_17
.Lluossavin_x86_64.BB11_6:
	shlq	$4, %rcx
	leaq	(%rsp,%rcx), %rdx
	addq	$168, %rdx
	addq	%r12, %rcx
	addq	$-16, %rcx
	shll	$4, %eax
	xorl	%esi, %esi
	.p2align	4
.Lluossavin_x86_64.BB11_7:
	movdqu	(%rcx,%rsi), %xmm0
	movdqu	%xmm0, (%rdx,%rsi)
	addq	$16, %rsi
	cmpq	%rsi, %rax
	jne	.Lluossavin_x86_64.BB11_7
	jmp	.Lluossavin_x86_64.BB11_17
.Lluossavin_x86_64.BB11_11:
	bswapl	%r14d
	bswapl	%ebp
	bswapl	%ebx
	testq	%r10, %r10
	je	.Lluossavin_x86_64.BB11_12
	leaq	1(%r10), %rcx
	movabsq	$2305843009213693950, %rdx
	andq	%rcx, %rdx
	leaq	196(%rsp), %rsi
	xorl	%eax, %eax
	movl	%r13d, %edi
	.p2align	4
.Lluossavin_x86_64.BB11_14:
	movl	%r14d, -28(%rsi)
	movl	%ebp, -24(%rsi)
	movl	%ebx, -20(%rsi)
	movl	%edi, %r8d
	bswapl	%r8d
	movl	%r8d, -16(%rsi)
	leal	1(%rdi), %r8d
	movl	%r14d, -12(%rsi)
	movl	%ebp, -8(%rsi)
	movl	%ebx, -4(%rsi)
	bswapl	%r8d
	movl	%r8d, (%rsi)
	addq	$2, %rax
	addl	$2, %edi
	addq	$32, %rsi
	cmpq	%rax, %rdx
	jne	.Lluossavin_x86_64.BB11_14
	testb	$1, %cl
	jne	.Lluossavin_x86_64.BB11_16
	jmp	.Lluossavin_x86_64.BB11_17
.Lluossavin_x86_64.BB11_12:
	xorl	%eax, %eax
.Lluossavin_x86_64.BB11_16:
	addl	%eax, %r13d
	shlq	$4, %rax
	movl	%r14d, 168(%rsp,%rax)
	movl	%ebp, 172(%rsp,%rax)
	movl	%ebx, 176(%rsp,%rax)
	bswapl	%r13d
	movl	%r13d, 180(%rsp,%rax)
.Lluossavin_x86_64.BB11_17:
	leaq	1208(%rsp), %r15
	movl	$1040, %edx
	movq	%r15, %rdi
	xorl	%esi, %esi
	movq	%r10, %rbx
	callq	memset@PLT
	movzbl	2304(%rsp), %esi
	addq	%rbx, %rsi
	leaq	32(%rsp), %rdi
	leaq	168(%rsp), %rdx
	movq	%r15, %rcx
	callq	"sixteen::encrypt.x86_64"
	movq	%rbx, %rax
	shlq	$4, %rax
	testq	%rbx, %rbx
	je	.Lluossavin_x86_64.BB11_28
	movq	2320(%rsp), %rcx
	movq	%rcx, %rdx
	subq	%r12, %rdx
	cmpq	$32, %rdx
	jae	.Lluossavin_x86_64.BB11_21
	xorl	%edx, %edx
	.p2align	4
.Lluossavin_x86_64.BB11_20:
	movzbl	(%r12,%rdx), %esi
	xorb	1208(%rsp,%rdx), %sil
	movb	%sil, (%rcx,%rdx)
	movzbl	1(%r12,%rdx), %esi
	xorb	1209(%rsp,%rdx), %sil
	movb	%sil, 1(%rcx,%rdx)
	movzbl	2(%r12,%rdx), %esi
	xorb	1210(%rsp,%rdx), %sil
	movb	%sil, 2(%rcx,%rdx)
	movzbl	3(%r12,%rdx), %esi
	xorb	1211(%rsp,%rdx), %sil
	movb	%sil, 3(%rcx,%rdx)
	addq	$4, %rdx
	cmpq	%rdx, %rax
	jne	.Lluossavin_x86_64.BB11_20
	jmp	.Lluossavin_x86_64.BB11_28
.Lluossavin_x86_64.BB11_21:
	movq	%rbx, %rdi
	cmpq	$1, %rbx
	jne	.Lluossavin_x86_64.BB11_23
	xorl	%edx, %edx
	.p2align	4
.Lluossavin_x86_64.BB11_27:
	movdqu	1208(%rsp,%rdx), %xmm0
	movdqu	(%r12,%rdx), %xmm1
	pxor	%xmm0, %xmm1
	movdqu	%xmm1, (%rcx,%rdx)
	addq	$16, %rdx
	cmpq	%rdx, %rax
	jne	.Lluossavin_x86_64.BB11_27
	jmp	.Lluossavin_x86_64.BB11_28
.Lluossavin_x86_64.BB11_23:
	movq	%rax, %rdx
	andq	$-32, %rdx
	xorl	%esi, %esi
	.p2align	4
.Lluossavin_x86_64.BB11_24:
	movups	1208(%rsp,%rsi), %xmm0
	movdqu	1224(%rsp,%rsi), %xmm1
	movups	(%r12,%rsi), %xmm2
	xorps	%xmm0, %xmm2
	movdqu	16(%r12,%rsi), %xmm0
	pxor	%xmm1, %xmm0
	movups	%xmm2, (%rcx,%rsi)
	movdqu	%xmm0, 16(%rcx,%rsi)
	addq	$32, %rsi
	cmpq	%rsi, %rdx
	jne	.Lluossavin_x86_64.BB11_24
	cmpq	%rdx, %rax
	jne	.Lluossavin_x86_64.BB11_26
.Lluossavin_x86_64.BB11_28:
	movdqu	168(%rsp,%rax), %xmm0
	pxor	%xmm1, %xmm1
	movdqa	%xmm0, %xmm2
	punpckhbw	%xmm1, %xmm2
	pshuflw	$27, %xmm2, %xmm2
	pshufhw	$27, %xmm2, %xmm2
	punpcklbw	%xmm1, %xmm0
	pshuflw	$27, %xmm0, %xmm0
	pshufhw	$27, %xmm0, %xmm0
	packuswb	%xmm2, %xmm0
	movq	24(%rsp), %rcx
	movdqu	%xmm0, (%rcx)
	movups	1208(%rsp,%rax), %xmm0
	movups	%xmm0, 16(%rcx)
	addq	$2248, %rsp
	popq	%rbx
	popq	%r12
	popq	%r13
	popq	%r14
	popq	%r15
	popq	%rbp
	retq
.Lluossavin_x86_64.BB11_26:
	testb	$1, %dil
	je	.Lluossavin_x86_64.BB11_20
	jmp	.Lluossavin_x86_64.BB11_27
.Lluossavin_x86_64.func_end11:
	.size	"stream::few::few.x86_64", .Lluossavin_x86_64.func_end11-"stream::few::few.x86_64"

	.section	.rodata.cst16,"aM",@progbits,16
	.p2align	4, 0x0
.Lluossavin_x86_64.CPI12_0:
	.zero	16,85
.Lluossavin_x86_64.CPI12_1:
	.zero	16,51
.Lluossavin_x86_64.CPI12_2:
	.zero	16,15
	.section	".text.sixteen::encrypt.x86_64","ax",@progbits
	.p2align	4
	.type	"sixteen::encrypt.x86_64",@function
"sixteen::encrypt.x86_64":
	testq	%rsi, %rsi
	je	.Lluossavin_x86_64.BB12_21
	pushq	%rbp
	pushq	%r15
	pushq	%r14
	pushq	%r13
	pushq	%r12
	pushq	%rbx
	subq	$2024, %rsp
	movq	%rcx, %r13
	movq	%rdx, %r12
	movq	%rsi, %r14
	movq	%rdi, %r15
	leaq	488(%rsp), %rdi
	xorl	%ebx, %ebx
	movl	$1536, %edx
	xorl	%esi, %esi
	callq	memset@PLT
	leaq	(,%r14,4), %r8
	.p2align	4
.Lluossavin_x86_64.BB12_2:
	movl	(%r12,%rbx,4), %eax
	movl	4(%r12,%rbx,4), %ecx
	bswapl	%eax
	bswapl	%ecx
	movl	8(%r12,%rbx,4), %edx
	bswapl	%edx
	movl	12(%r12,%rbx,4), %esi
	bswapl	%esi
	movl	%eax, 488(%rsp,%rbx)
	movl	%ecx, 744(%rsp,%rbx)
	movl	%edx, 1000(%rsp,%rbx)
	movl	%esi, 1256(%rsp,%rbx)
	addq	$4, %rbx
	cmpq	%rbx, %r8
	jne	.Lluossavin_x86_64.BB12_2
	movabsq	$6148914691236517205, %rbp
	movabsq	$3689348814741910323, %r12
	movabsq	$1085102592571150095, %rdx
	leaq	3(%r14), %rax
	movabsq	$4611686018427387900, %rdi
	andq	%rax, %rdi
	leaq	15(%r14), %rax
	shrq	%rax
	movabsq	$2305843009213693944, %rcx
	andq	%rax, %rcx
	leaq	.Lluossavin_x86_64.static.4(%rip), %rax
	movq	(%rcx,%rax), %r9
	movups	112(%r15), %xmm0
	movaps	%xmm0, 464(%rsp)
	movups	96(%r15), %xmm0
	movaps	%xmm0, 448(%rsp)
	movups	80(%r15), %xmm0
	movaps	%xmm0, 432(%rsp)
	movups	64(%r15), %xmm0
	movaps	%xmm0, 416(%rsp)
	movdqu	(%r15), %xmm0
	movdqu	16(%r15), %xmm1
	movdqu	32(%r15), %xmm2
	movdqu	48(%r15), %xmm3
	movq	%rdx, %r15
	movdqa	%xmm3, 400(%rsp)
	movdqa	%xmm2, 384(%rsp)
	movdqa	%xmm1, 368(%rsp)
	movdqa	%xmm0, 352(%rsp)
	movq	%r9, %rax
	andq	$-2, %rax
	movq	%rax, 136(%rsp)
	leaq	12(,%r14,4), %r11
	andq	$-16, %r11
	movb	$3, %bl
	movb	$1, %r14b
	xorl	%r10d, %r10d
	movq	%r13, 288(%rsp)
	movq	%r8, 280(%rsp)
	movq	%rdi, 272(%rsp)
	movq	%r9, 264(%rsp)
	movq	%r11, 256(%rsp)
	.p2align	4
.Lluossavin_x86_64.BB12_4:
	movl	%r10d, %eax
	andl	$3, %eax
	shll	$8, %eax
	addq	%rsp, %rax
	addq	$488, %rax
	movq	%rax, 152(%rsp)
	movzbl	%bl, %eax
	andl	$3, %eax
	shll	$8, %eax
	addq	%rsp, %rax
	addq	$488, %rax
	movzbl	%r14b, %ecx
	andl	$3, %ecx
	shll	$8, %ecx
	addq	%rsp, %rcx
	addq	$488, %rcx
	movl	%r10d, %edx
	shll	$6, %edx
	movzbl	%dl, %edx
	xorl	$128, %edx
	movd	352(%rsp,%r10,4), %xmm0
	pshufd	$0, %xmm0, %xmm0
	leaq	(%rsp,%rdx,4), %rdx
	addq	$488, %rdx
	xorl	%esi, %esi
	.p2align	4
.Lluossavin_x86_64.BB12_5:
	movdqu	(%rcx,%rsi), %xmm1
	pxor	%xmm0, %xmm1
	movdqu	(%rdx,%rsi), %xmm2
	movdqu	(%rax,%rsi), %xmm3
	pxor	%xmm2, %xmm3
	pxor	%xmm1, %xmm3
	movdqu	%xmm3, 1512(%rsp,%rsi)
	addq	$16, %rsi
	cmpq	%rsi, %r11
	jne	.Lluossavin_x86_64.BB12_5
	movq	%r9, %rax
	testq	%r9, %r9
	movq	152(%rsp), %rcx
	je	.Lluossavin_x86_64.BB12_16
	movq	%r10, 144(%rsp)
	cmpq	$1, %r9
	jne	.Lluossavin_x86_64.BB12_12
	xorl	%edx, %edx
	jmp	.Lluossavin_x86_64.BB12_9
	.p2align	4
.Lluossavin_x86_64.BB12_12:
	movq	136(%rsp), %r10
	leaq	1512(%rsp), %r15
	.p2align	4
.Lluossavin_x86_64.BB12_13:
	movq	64(%r15), %xmm0
	movq	(%r15), %xmm4
	punpcklqdq	%xmm0, %xmm4
	movq	72(%r15), %xmm0
	movq	8(%r15), %xmm9
	punpcklqdq	%xmm0, %xmm9
	movq	80(%r15), %xmm0
	movq	16(%r15), %xmm1
	punpcklqdq	%xmm0, %xmm1
	movq	88(%r15), %xmm0
	movq	24(%r15), %xmm6
	punpcklqdq	%xmm0, %xmm6
	movq	96(%r15), %xmm0
	movq	32(%r15), %xmm5
	punpcklqdq	%xmm0, %xmm5
	movq	104(%r15), %xmm0
	movq	40(%r15), %xmm8
	punpcklqdq	%xmm0, %xmm8
	movq	112(%r15), %xmm0
	movq	48(%r15), %xmm2
	punpcklqdq	%xmm0, %xmm2
	movq	120(%r15), %xmm0
	movq	56(%r15), %xmm7
	punpcklqdq	%xmm0, %xmm7
	movdqa	%xmm4, %xmm0
	psrlq	$1, %xmm0
	pxor	%xmm9, %xmm0
	movdqa	.Lluossavin_x86_64.CPI12_0(%rip), %xmm10
	pand	%xmm10, %xmm0
	movdqa	%xmm0, %xmm3
	paddq	%xmm3, %xmm3
	pxor	%xmm4, %xmm3
	pxor	%xmm9, %xmm0
	movdqa	%xmm1, %xmm4
	psrlq	$1, %xmm4
	pxor	%xmm6, %xmm4
	pand	%xmm10, %xmm4
	movdqa	%xmm4, %xmm9
	paddq	%xmm9, %xmm9
	pxor	%xmm1, %xmm9
	pxor	%xmm6, %xmm4
	movdqa	%xmm5, %xmm1
	psrlq	$1, %xmm1
	pxor	%xmm8, %xmm1
	pand	%xmm10, %xmm1
	movdqa	%xmm1, %xmm6
	paddq	%xmm6, %xmm6
	pxor	%xmm5, %xmm6
	pxor	%xmm8, %xmm1
	movdqa	%xmm2, %xmm5
	psrlq	$1, %xmm5
	pxor	%xmm7, %xmm5
	pand	%xmm10, %xmm5
	movdqa	%xmm5, %xmm10
	paddq	%xmm10, %xmm10
	pxor	%xmm2, %xmm10
	pxor	%xmm7, %xmm5
	movdqa	%xmm3, %xmm2
	psrlq	$2, %xmm2
	pxor	%xmm9, %xmm2
	movdqa	.Lluossavin_x86_64.CPI12_1(%rip), %xmm7
	pand	%xmm7, %xmm2
	movdqa	%xmm2, %xmm8
	psllq	$2, %xmm8
	pxor	%xmm3, %xmm8
	pxor	%xmm9, %xmm2
	movdqa	%xmm0, %xmm3
	psrlq	$2, %xmm3
	pxor	%xmm4, %xmm3
	pand	%xmm7, %xmm3
	movdqa	%xmm3, %xmm9
	psllq	$2, %xmm9
	pxor	%xmm0, %xmm9
	pxor	%xmm4, %xmm3
	movdqa	%xmm6, %xmm4
	psrlq	$2, %xmm4
	pxor	%xmm10, %xmm4
	movdqa	%xmm7, %xmm0
	pand	%xmm7, %xmm4
	movdqa	%xmm4, %xmm11
	psllq	$2, %xmm11
	pxor	%xmm6, %xmm11
	pxor	%xmm10, %xmm4
	movdqa	%xmm1, %xmm7
	psrlq	$2, %xmm7
	pxor	%xmm5, %xmm7
	pand	%xmm0, %xmm7
	movdqa	%xmm7, %xmm6
	psllq	$2, %xmm6
	pxor	%xmm1, %xmm6
	pxor	%xmm5, %xmm7
	movdqa	%xmm8, %xmm0
	psrlq	$4, %xmm0
	pxor	%xmm11, %xmm0
	movdqa	.Lluossavin_x86_64.CPI12_2(%rip), %xmm1
	pand	%xmm1, %xmm0
	movdqa	%xmm0, %xmm13
	psllq	$4, %xmm13
	pxor	%xmm8, %xmm13
	pxor	%xmm11, %xmm0
	movdqa	%xmm9, %xmm15
	psrlq	$4, %xmm15
	pxor	%xmm6, %xmm15
	pand	%xmm1, %xmm15
	movdqa	%xmm15, %xmm5
	psllq	$4, %xmm5
	pxor	%xmm9, %xmm5
	pxor	%xmm6, %xmm15
	movdqa	%xmm2, %xmm10
	psrlq	$4, %xmm10
	pxor	%xmm4, %xmm10
	pand	%xmm1, %xmm10
	movdqa	%xmm10, %xmm6
	psllq	$4, %xmm6
	pxor	%xmm2, %xmm6
	pxor	%xmm4, %xmm10
	movdqa	%xmm3, %xmm9
	psrlq	$4, %xmm9
	pxor	%xmm7, %xmm9
	pand	%xmm1, %xmm9
	movdqa	%xmm9, %xmm8
	psllq	$4, %xmm8
	pxor	%xmm3, %xmm8
	pxor	%xmm7, %xmm9
	movdqa	%xmm0, %xmm1
	pxor	%xmm9, %xmm1
	movdqa	%xmm1, %xmm4
	movdqa	%xmm1, %xmm3
	movdqa	%xmm5, %xmm1
	movdqa	%xmm5, %xmm11
	pxor	%xmm15, %xmm11
	movdqa	%xmm3, %xmm2
	pxor	%xmm15, %xmm3
	movdqa	%xmm3, %xmm5
	movdqa	%xmm3, 208(%rsp)
	pxor	%xmm8, %xmm15
	pxor	%xmm13, %xmm4
	movdqa	%xmm13, %xmm7
	movdqa	%xmm13, 16(%rsp)
	pxor	%xmm15, %xmm7
	movdqa	%xmm4, %xmm3
	pxor	%xmm8, %xmm3
	movdqa	%xmm3, %xmm12
	pxor	%xmm6, %xmm0
	movdqa	%xmm7, %xmm3
	movdqa	%xmm7, %xmm14
	pxor	%xmm0, %xmm3
	movdqa	%xmm3, 96(%rsp)
	movdqa	%xmm8, %xmm3
	pxor	%xmm1, %xmm3
	movdqa	%xmm1, %xmm8
	pxor	%xmm0, %xmm3
	movdqa	%xmm3, 80(%rsp)
	movdqa	%xmm11, %xmm1
	pxor	%xmm13, %xmm1
	movdqa	%xmm1, %xmm7
	movdqa	%xmm1, 112(%rsp)
	movdqa	%xmm13, %xmm3
	pandn	%xmm15, %xmm3
	movdqa	%xmm5, %xmm1
	pand	%xmm7, %xmm1
	movdqa	%xmm8, 32(%rsp)
	pxor	%xmm8, %xmm3
	pxor	%xmm1, %xmm3
	pxor	%xmm4, %xmm3
	movdqa	%xmm4, %xmm7
	movdqa	%xmm6, %xmm0
	pxor	%xmm10, %xmm0
	movdqa	%xmm15, %xmm1
	pxor	%xmm9, %xmm1
	movdqa	%xmm1, 64(%rsp)
	movdqa	%xmm0, %xmm13
	pxor	%xmm8, %xmm13
	pxor	%xmm6, %xmm7
	movdqa	%xmm14, 240(%rsp)
	movdqa	%xmm14, %xmm4
	pxor	%xmm0, %xmm4
	movdqa	%xmm0, %xmm5
	movdqa	%xmm0, 48(%rsp)
	movdqa	%xmm4, 160(%rsp)
	pxor	%xmm11, %xmm2
	movdqa	%xmm2, 176(%rsp)
	movdqa	%xmm12, %xmm8
	movdqa	%xmm12, 224(%rsp)
	pxor	%xmm13, %xmm12
	movdqa	%xmm7, %xmm0
	pxor	%xmm11, %xmm0
	movdqa	%xmm0, 192(%rsp)
	pxor	%xmm14, %xmm9
	movdqa	%xmm2, %xmm1
	pand	80(%rsp), %xmm1
	movdqa	%xmm9, %xmm2
	pand	%xmm4, %xmm2
	pxor	%xmm1, %xmm2
	movdqa	%xmm0, %xmm14
	pand	%xmm12, %xmm14
	pxor	%xmm1, %xmm14
	movdqa	64(%rsp), %xmm0
	movdqa	%xmm0, %xmm1
	pandn	%xmm5, %xmm1
	movdqa	%xmm7, %xmm4
	pandn	%xmm13, %xmm4
	pxor	%xmm0, %xmm6
	pxor	%xmm1, %xmm6
	pxor	%xmm4, %xmm6
	pxor	%xmm15, %xmm10
	pxor	%xmm1, %xmm10
	movdqa	96(%rsp), %xmm1
	movdqa	32(%rsp), %xmm0
	pand	%xmm0, %xmm1
	pxor	%xmm1, %xmm10
	movdqa	%xmm11, %xmm1
	pandn	%xmm8, %xmm1
	pand	16(%rsp), %xmm15
	pxor	%xmm1, %xmm15
	pxor	%xmm2, %xmm6
	pxor	%xmm2, %xmm15
	pxor	%xmm14, %xmm10
	pxor	%xmm14, %xmm3
	pcmpeqd	%xmm2, %xmm2
	movdqa	%xmm15, %xmm1
	pxor	%xmm2, %xmm1
	pandn	%xmm6, %xmm15
	pxor	%xmm10, %xmm6
	movdqa	%xmm15, %xmm4
	pxor	%xmm3, %xmm4
	movdqa	%xmm4, %xmm5
	pand	%xmm6, %xmm5
	pxor	%xmm10, %xmm5
	movdqa	%xmm3, %xmm2
	pxor	%xmm1, %xmm2
	pxor	%xmm15, %xmm10
	pand	%xmm2, %xmm10
	movdqa	%xmm10, %xmm2
	pxor	%xmm15, %xmm10
	pxor	%xmm3, %xmm2
	pand	%xmm3, %xmm10
	pxor	%xmm10, %xmm1
	pxor	%xmm4, %xmm10
	pand	%xmm5, %xmm10
	pxor	%xmm6, %xmm10
	movdqa	48(%rsp), %xmm3
	pand	%xmm1, %xmm3
	movdqa	%xmm3, 48(%rsp)
	movdqa	64(%rsp), %xmm8
	pandn	%xmm1, %xmm8
	pxor	%xmm2, %xmm1
	movdqa	%xmm10, %xmm15
	pxor	%xmm1, %xmm15
	pand	%xmm1, %xmm13
	pandn	%xmm1, %xmm7
	movdqa	%xmm5, %xmm14
	pxor	%xmm2, %xmm14
	pand	%xmm2, %xmm0
	movdqa	%xmm0, 32(%rsp)
	pand	96(%rsp), %xmm2
	movdqa	224(%rsp), %xmm4
	pand	%xmm10, %xmm4
	pandn	%xmm10, %xmm11
	pxor	%xmm5, %xmm10
	movdqa	240(%rsp), %xmm1
	pand	%xmm10, %xmm1
	movdqa	16(%rsp), %xmm0
	pandn	%xmm10, %xmm0
	movdqa	%xmm0, 16(%rsp)
	movdqa	208(%rsp), %xmm10
	pand	%xmm5, %xmm10
	pand	112(%rsp), %xmm5
	movdqa	%xmm15, %xmm0
	pxor	%xmm14, %xmm0
	movdqa	176(%rsp), %xmm6
	pand	%xmm14, %xmm6
	pand	80(%rsp), %xmm14
	movdqa	160(%rsp), %xmm3
	pand	%xmm0, %xmm3
	pand	%xmm9, %xmm0
	pand	%xmm15, %xmm12
	pand	192(%rsp), %xmm15
	movdqa	48(%rsp), %xmm9
	pxor	%xmm1, %xmm9
	pxor	%xmm1, %xmm6
	pxor	%xmm12, %xmm10
	pxor	%xmm10, %xmm7
	pxor	%xmm9, %xmm13
	movdqa	%xmm9, %xmm1
	pxor	%xmm7, %xmm6
	movdqa	%xmm6, %xmm9
	movdqa	%xmm7, %xmm6
	movdqa	%xmm3, %xmm7
	pxor	%xmm3, %xmm6
	pxor	%xmm13, %xmm6
	pxor	%xmm4, %xmm13
	pxor	%xmm4, %xmm7
	pxor	%xmm15, %xmm2
	pxor	%xmm14, %xmm5
	pxor	%xmm15, %xmm5
	pxor	%xmm8, %xmm11
	movdqa	16(%rsp), %xmm4
	pxor	%xmm4, %xmm11
	pxor	%xmm4, %xmm5
	pxor	%xmm0, %xmm2
	movdqa	%xmm2, %xmm4
	pxor	%xmm11, %xmm4
	pxor	%xmm13, %xmm5
	pxor	%xmm13, %xmm4
	pxor	32(%rsp), %xmm12
	pxor	%xmm1, %xmm12
	pxor	%xmm7, %xmm10
	pxor	%xmm7, %xmm12
	pxor	%xmm8, %xmm14
	pxor	%xmm0, %xmm14
	pcmpeqd	%xmm3, %xmm3
	pxor	%xmm3, %xmm14
	pxor	%xmm6, %xmm14
	pxor	%xmm3, %xmm11
	movdqa	%xmm11, %xmm0
	pxor	%xmm6, %xmm11
	pxor	%xmm3, %xmm12
	pcmpeqd	%xmm6, %xmm6
	pxor	%xmm9, %xmm0
	pxor	%xmm6, %xmm2
	pxor	%xmm9, %xmm2
	movdqa	%xmm2, %xmm3
	psrlq	$1, %xmm3
	pxor	%xmm11, %xmm3
	movdqa	.Lluossavin_x86_64.CPI12_0(%rip), %xmm8
	pand	%xmm8, %xmm3
	movdqa	%xmm3, %xmm7
	paddq	%xmm7, %xmm7
	pxor	%xmm2, %xmm7
	pxor	%xmm11, %xmm3
	movdqa	%xmm4, %xmm6
	psrlq	$1, %xmm6
	pxor	%xmm10, %xmm6
	pand	%xmm8, %xmm6
	movdqa	%xmm6, %xmm2
	paddq	%xmm2, %xmm2
	pxor	%xmm4, %xmm2
	pxor	%xmm10, %xmm6
	movdqa	%xmm0, %xmm4
	psrlq	$1, %xmm4
	pxor	%xmm5, %xmm4
	pand	%xmm8, %xmm4
	movdqa	%xmm4, %xmm10
	paddq	%xmm10, %xmm10
	pxor	%xmm0, %xmm10
	pxor	%xmm5, %xmm4
	movdqa	%xmm14, %xmm9
	psrlq	$1, %xmm9
	pxor	%xmm12, %xmm9
	pand	%xmm8, %xmm9
	movdqa	%xmm9, %xmm11
	paddq	%xmm11, %xmm11
	pxor	%xmm14, %xmm11
	pxor	%xmm12, %xmm9
	movdqa	%xmm7, %xmm1
	psrlq	$2, %xmm1
	pxor	%xmm2, %xmm1
	movdqa	.Lluossavin_x86_64.CPI12_1(%rip), %xmm8
	pand	%xmm8, %xmm1
	movdqa	%xmm1, %xmm0
	psllq	$2, %xmm0
	pxor	%xmm7, %xmm0
	pxor	%xmm2, %xmm1
	movdqa	%xmm3, %xmm2
	psrlq	$2, %xmm2
	pxor	%xmm6, %xmm2
	pand	%xmm8, %xmm2
	movdqa	%xmm2, %xmm5
	psllq	$2, %xmm5
	pxor	%xmm3, %xmm5
	pxor	%xmm6, %xmm2
	movdqa	%xmm10, %xmm3
	psrlq	$2, %xmm3
	pxor	%xmm11, %xmm3
	pand	%xmm8, %xmm3
	movdqa	%xmm3, %xmm6
	psllq	$2, %xmm6
	pxor	%xmm10, %xmm6
	pxor	%xmm11, %xmm3
	movdqa	%xmm4, %xmm7
	psrlq	$2, %xmm7
	pxor	%xmm9, %xmm7
	pand	%xmm8, %xmm7
	movdqa	%xmm7, %xmm10
	psllq	$2, %xmm10
	pxor	%xmm4, %xmm10
	pxor	%xmm9, %xmm7
	movdqa	%xmm0, %xmm4
	psrlq	$4, %xmm4
	pxor	%xmm6, %xmm4
	movdqa	.Lluossavin_x86_64.CPI12_2(%rip), %xmm12
	pand	%xmm12, %xmm4
	movdqa	%xmm5, %xmm9
	psrlq	$4, %xmm9
	pxor	%xmm10, %xmm9
	pand	%xmm12, %xmm9
	movdqa	%xmm1, %xmm8
	psrlq	$4, %xmm8
	pxor	%xmm3, %xmm8
	pand	%xmm12, %xmm8
	movdqa	%xmm2, %xmm11
	psrlq	$4, %xmm11
	pxor	%xmm7, %xmm11
	pand	%xmm12, %xmm11
	movdqa	%xmm8, %xmm12
	psllq	$4, %xmm12
	pxor	%xmm1, %xmm12
	movdqa	%xmm9, %xmm13
	psllq	$4, %xmm13
	pxor	%xmm5, %xmm13
	movdqa	%xmm4, %xmm1
	psllq	$4, %xmm1
	pxor	%xmm0, %xmm1
	movdqa	%xmm11, %xmm0
	psllq	$4, %xmm0
	pxor	%xmm2, %xmm0
	pxor	%xmm6, %xmm4
	pxor	%xmm10, %xmm9
	pxor	%xmm3, %xmm8
	pxor	%xmm7, %xmm11
	movdqa	%xmm1, %xmm2
	punpcklqdq	%xmm13, %xmm2
	punpckhqdq	%xmm13, %xmm1
	movdqa	%xmm4, %xmm3
	punpcklqdq	%xmm9, %xmm3
	punpckhqdq	%xmm9, %xmm4
	movdqa	%xmm12, %xmm5
	punpcklqdq	%xmm0, %xmm5
	punpckhqdq	%xmm0, %xmm12
	movdqa	%xmm8, %xmm0
	punpcklqdq	%xmm11, %xmm0
	punpckhqdq	%xmm11, %xmm8
	movdqu	%xmm8, 368(%r15)
	movdqu	%xmm0, 304(%r15)
	movdqu	%xmm4, 352(%r15)
	movdqu	%xmm12, 336(%r15)
	movdqu	%xmm3, 288(%r15)
	movdqu	%xmm5, 272(%r15)
	movdqu	%xmm1, 320(%r15)
	movdqu	%xmm2, 256(%r15)
	subq	$-128, %r15
	addq	$-2, %r10
	jne	.Lluossavin_x86_64.BB12_13
	movq	136(%rsp), %rax
	movq	%rax, %rdx
	cmpq	%rax, %r9
	movabsq	$1085102592571150095, %r15
	jne	.Lluossavin_x86_64.BB12_9
	xorl	%eax, %eax
	movq	144(%rsp), %r10
	jmp	.Lluossavin_x86_64.BB12_16
	.p2align	4
.Lluossavin_x86_64.BB12_9:
	movb	%r14b, 14(%rsp)
	movb	%bl, 15(%rsp)
	subq	%rdx, %r9
	shlq	$6, %rdx
	leaq	1824(%rsp), %rax
	addq	%rax, %rdx
	.p2align	4
.Lluossavin_x86_64.BB12_10:
	movq	%r9, 224(%rsp)
	movq	%rdx, 240(%rsp)
	movq	-312(%rdx), %rcx
	movq	-304(%rdx), %rsi
	movq	-296(%rdx), %r9
	movq	-288(%rdx), %r14
	movq	-280(%rdx), %rbx
	movq	-272(%rdx), %rdi
	movq	-264(%rdx), %r10
	movq	-256(%rdx), %r8
	movq	%rcx, %rax
	shrq	%rax
	xorq	%rsi, %rax
	andq	%rbp, %rax
	leaq	(%rax,%rax), %rdx
	xorq	%rcx, %rdx
	xorq	%rsi, %rax
	movq	%r9, %rsi
	shrq	%rsi
	xorq	%r14, %rsi
	andq	%rbp, %rsi
	leaq	(%rsi,%rsi), %r11
	xorq	%r9, %r11
	xorq	%r14, %rsi
	movq	%rbx, %rcx
	shrq	%rcx
	xorq	%rdi, %rcx
	andq	%rbp, %rcx
	leaq	(%rcx,%rcx), %r9
	xorq	%rbx, %r9
	xorq	%rdi, %rcx
	movq	%r10, %rdi
	shrq	%rdi
	xorq	%r8, %rdi
	andq	%rbp, %rdi
	leaq	(%rdi,%rdi), %r14
	xorq	%r10, %r14
	xorq	%r8, %rdi
	movq	%rdx, %r8
	shrq	$2, %r8
	xorq	%r11, %r8
	andq	%r12, %r8
	leaq	(,%r8,4), %rbx
	xorq	%rdx, %rbx
	xorq	%r11, %r8
	movq	%rax, %rdx
	shrq	$2, %rdx
	xorq	%rsi, %rdx
	andq	%r12, %rdx
	leaq	(,%rdx,4), %r11
	xorq	%rax, %r11
	xorq	%rsi, %rdx
	movq	%r9, %r10
	shrq	$2, %r10
	xorq	%r14, %r10
	andq	%r12, %r10
	leaq	(,%r10,4), %rax
	xorq	%r9, %rax
	xorq	%r14, %r10
	movq	%rcx, %r9
	shrq	$2, %r9
	xorq	%rdi, %r9
	andq	%r12, %r9
	leaq	(,%r9,4), %r14
	xorq	%rcx, %r14
	xorq	%rdi, %r9
	movq	%rbx, %rsi
	shrq	$4, %rsi
	xorq	%rax, %rsi
	andq	%r15, %rsi
	movq	%rsi, %rcx
	shlq	$4, %rcx
	xorq	%rbx, %rcx
	xorq	%rax, %rsi
	movq	%r11, %r15
	shrq	$4, %r15
	xorq	%r14, %r15
	movabsq	$1085102592571150095, %rax
	andq	%rax, %r15
	movq	%r15, %rax
	shlq	$4, %rax
	xorq	%r11, %rax
	movq	%rax, %r12
	xorq	%r14, %r15
	movq	%r8, %rax
	shrq	$4, %rax
	xorq	%r10, %rax
	movabsq	$1085102592571150095, %rdi
	andq	%rdi, %rax
	movq	%rax, %rdi
	shlq	$4, %rdi
	xorq	%r8, %rdi
	xorq	%r10, %rax
	movq	%rdx, %r10
	shrq	$4, %r10
	xorq	%r9, %r10
	movabsq	$1085102592571150095, %r8
	andq	%r8, %r10
	movq	%r10, %r8
	shlq	$4, %r8
	xorq	%rdx, %r8
	xorq	%r9, %r10
	movq	%rsi, %r14
	xorq	%r10, %r14
	movq	%r10, %r11
	movq	%r10, 80(%rsp)
	movq	%r14, %rbx
	movq	%r12, %r10
	movq	%r12, %r9
	xorq	%r15, %r10
	movq	%r10, %r12
	movq	%r14, 16(%rsp)
	xorq	%r15, %r14
	movq	%r14, 336(%rsp)
	xorq	%r8, %r15
	xorq	%rcx, %rbx
	movq	%rcx, %r10
	xorq	%r15, %r10
	movq	%rbx, %rdx
	xorq	%r8, %rdx
	movq	%rdx, 112(%rsp)
	xorq	%rdi, %rsi
	movq	%r10, %rdx
	movq	%r10, %r13
	xorq	%rsi, %rdx
	movq	%rdx, 208(%rsp)
	xorq	%r9, %r8
	movq	%r9, 64(%rsp)
	xorq	%rsi, %r8
	movq	%r8, 176(%rsp)
	movq	%r15, %rbp
	xorq	%r11, %rbp
	movq	%rbx, %rdx
	xorq	%rdi, %rdx
	movq	%rdx, 32(%rsp)
	movq	%rbp, 96(%rsp)
	xorq	%rdi, %rbp
	movq	%rdi, %r11
	xorq	%rax, %r11
	movq	%r12, %rdx
	xorq	%rcx, %rdx
	movq	%rdx, %rsi
	movq	%rdx, 344(%rsp)
	xorq	%r15, %rax
	movq	%r15, %rdx
	andq	%rcx, %r15
	notq	%rcx
	movq	%rcx, 328(%rsp)
	andq	%rcx, %rdx
	movq	%r14, %r8
	andq	%rsi, %r8
	xorq	%rdx, %r8
	movq	%r11, %rcx
	xorq	%r9, %rcx
	movq	%rcx, 296(%rsp)
	movq	%r10, 312(%rsp)
	movq	%r10, %rdi
	xorq	%r11, %rdi
	movq	%rdi, 192(%rsp)
	movq	%r11, 160(%rsp)
	movq	16(%rsp), %rdx
	xorq	%r12, %rdx
	movq	%rdx, 16(%rsp)
	movq	112(%rsp), %r10
	movq	%r10, %rsi
	xorq	%rcx, %rsi
	movq	%rsi, 48(%rsp)
	movq	32(%rsp), %r9
	movq	%r9, %rcx
	xorq	%r12, %rcx
	movq	%rcx, 320(%rsp)
	movq	80(%rsp), %r14
	xorq	%r13, %r14
	movq	%r14, 80(%rsp)
	movq	%rdx, %r13
	andq	176(%rsp), %r13
	andq	%rdi, %r14
	xorq	%r13, %r14
	movq	%rcx, %rdi
	andq	%rsi, %rdi
	xorq	%r13, %rdi
	notq	%r9
	movq	%r9, 32(%rsp)
	movq	96(%rsp), %rsi
	notq	%rsi
	movq	%rsi, 96(%rsp)
	movq	%r11, %r13
	andq	%rsi, %r13
	movq	296(%rsp), %r11
	movq	%r11, %rsi
	andq	%r9, %rsi
	xorq	%r13, %rbp
	xorq	%rsi, %rbp
	xorq	%r13, %rax
	movq	208(%rsp), %rsi
	movq	64(%rsp), %r13
	andq	%r13, %rsi
	xorq	%rsi, %rax
	movq	%r12, %rcx
	notq	%rcx
	movq	%rcx, 304(%rsp)
	movq	%r10, %rsi
	movq	%r10, %r12
	andq	%rcx, %rsi
	xorq	%rsi, %r15
	xorq	%r14, %rbp
	xorq	%r14, %r15
	xorq	%r13, %rbx
	movq	%r13, %r14
	xorq	%r8, %rbx
	xorq	%rdi, %rax
	xorq	%rdi, %rbx
	notq	%r15
	movq	%rbp, %rdx
	xorq	%rax, %rdx
	andq	%r15, %rbp
	movq	%rbp, %rsi
	xorq	%rbx, %rsi
	movq	%rsi, %r13
	andq	%rdx, %r13
	xorq	%rax, %r13
	movq	%rbx, %rcx
	xorq	%r15, %rcx
	xorq	%rbp, %rax
	andq	%rcx, %rax
	movq	%rax, %rdi
	xorq	%rbp, %rax
	xorq	%rbx, %rdi
	andq	%rbx, %rax
	xorq	%rax, %r15
	xorq	%rsi, %rax
	andq	%r13, %rax
	xorq	%rdx, %rax
	andq	%r15, 160(%rsp)
	movq	%r15, %rbp
	andq	96(%rsp), %r15
	xorq	%rdi, %rbp
	movq	%rax, %r9
	xorq	%rbp, %r9
	movq	%r11, %r10
	andq	%rbp, %r10
	andq	32(%rsp), %rbp
	movq	%r13, %r8
	xorq	%rdi, %r8
	andq	%rdi, %r14
	movq	%r14, 64(%rsp)
	andq	208(%rsp), %rdi
	movq	%rax, %rdx
	xorq	%r13, %rdx
	movq	312(%rsp), %rcx
	andq	%rdx, %rcx
	andq	328(%rsp), %rdx
	andq	%rax, %r12
	movq	%r12, 112(%rsp)
	andq	304(%rsp), %rax
	movq	336(%rsp), %rsi
	andq	%r13, %rsi
	andq	344(%rsp), %r13
	movq	%r9, %r11
	xorq	%r8, %r11
	movq	16(%rsp), %r12
	andq	%r8, %r12
	andq	176(%rsp), %r8
	andq	%r11, 192(%rsp)
	andq	80(%rsp), %r11
	movq	48(%rsp), %rbx
	andq	%r9, %rbx
	movq	%rbx, 48(%rsp)
	andq	320(%rsp), %r9
	movq	160(%rsp), %r14
	xorq	%rcx, %r14
	xorq	%rcx, %r12
	xorq	%rbx, %rsi
	xorq	%rsi, %rbp
	movq	%rsi, %rbx
	xorq	%r14, %r10
	xorq	%rbp, %r12
	movq	192(%rsp), %rcx
	xorq	%rcx, %rbp
	xorq	%r10, %rbp
	movq	112(%rsp), %rsi
	xorq	%rsi, %r10
	xorq	%rsi, %rcx
	xorq	%r9, %rdi
	xorq	%r8, %r13
	xorq	%r9, %r13
	xorq	%r15, %rax
	xorq	%rdx, %rax
	xorq	%r11, %rdi
	xorq	%rdx, %r13
	movq	%rdi, %rsi
	xorq	%rax, %rsi
	xorq	%r10, %r13
	xorq	%r10, %rsi
	movq	48(%rsp), %r10
	xorq	64(%rsp), %r10
	xorq	%r14, %r10
	xorq	%rcx, %rbx
	xorq	%rcx, %r10
	xorq	%r15, %r8
	movabsq	$1085102592571150095, %r15
	notq	%r10
	xorq	%r11, %r8
	xorq	%rbp, %r8
	notq	%r8
	xorq	%rax, %rbp
	movq	%rax, %r9
	xorq	%r12, %r9
	notq	%r9
	notq	%rbp
	xorq	%r12, %rdi
	notq	%rdi
	movq	%rdi, %rdx
	shrq	%rdx
	xorq	%rbp, %rdx
	movabsq	$6148914691236517205, %rax
	andq	%rax, %rdx
	leaq	(%rdx,%rdx), %rax
	xorq	%rdi, %rax
	xorq	%rbp, %rdx
	movabsq	$6148914691236517205, %rbp
	movq	%rsi, %rdi
	shrq	%rdi
	movq	%rbx, %rcx
	xorq	%rbx, %rdi
	andq	%rbp, %rdi
	leaq	(%rdi,%rdi), %rbx
	xorq	%rsi, %rbx
	xorq	%rcx, %rdi
	movq	%r9, %rsi
	shrq	%rsi
	xorq	%r13, %rsi
	andq	%rbp, %rsi
	leaq	(%rsi,%rsi), %r11
	xorq	%r9, %r11
	xorq	%r13, %rsi
	movq	%r8, %r9
	shrq	%r9
	xorq	%r10, %r9
	andq	%rbp, %r9
	leaq	(%r9,%r9), %r14
	xorq	%r8, %r14
	xorq	%r10, %r9
	movabsq	$3689348814741910323, %r12
	movq	%rax, %rcx
	shrq	$2, %rcx
	xorq	%rbx, %rcx
	andq	%r12, %rcx
	leaq	(,%rcx,4), %r10
	xorq	%rax, %r10
	xorq	%rbx, %rcx
	movq	%rdx, %rax
	shrq	$2, %rax
	xorq	%rdi, %rax
	andq	%r12, %rax
	leaq	(,%rax,4), %r8
	xorq	%rdx, %r8
	xorq	%rdi, %rax
	movq	%r11, %rdi
	shrq	$2, %rdi
	xorq	%r14, %rdi
	andq	%r12, %rdi
	leaq	(,%rdi,4), %rbx
	xorq	%r11, %rbx
	xorq	%r14, %rdi
	movq	%rsi, %rdx
	shrq	$2, %rdx
	xorq	%r9, %rdx
	andq	%r12, %rdx
	leaq	(,%rdx,4), %r14
	xorq	%rsi, %r14
	xorq	%r9, %rdx
	movq	%r10, %rsi
	shrq	$4, %rsi
	xorq	%rbx, %rsi
	andq	%r15, %rsi
	movq	%rsi, %r9
	shlq	$4, %r9
	xorq	%r10, %r9
	xorq	%rbx, %rsi
	movq	%r8, %r10
	shrq	$4, %r10
	xorq	%r14, %r10
	andq	%r15, %r10
	movq	%r10, %r11
	shlq	$4, %r11
	xorq	%r8, %r11
	xorq	%r14, %r10
	movq	%rcx, %r8
	shrq	$4, %r8
	xorq	%rdi, %r8
	andq	%r15, %r8
	movq	%r8, %rbx
	shlq	$4, %rbx
	xorq	%rcx, %rbx
	xorq	%rdi, %r8
	movq	%rax, %rcx
	shrq	$4, %rcx
	xorq	%rdx, %rcx
	andq	%r15, %rcx
	movq	%rcx, %rdi
	shlq	$4, %rdi
	xorq	%rax, %rdi
	xorq	%rdx, %rcx
	movq	240(%rsp), %rdx
	movq	%r9, -56(%rdx)
	movq	%r11, -48(%rdx)
	movq	%rbx, -40(%rdx)
	movq	%rdi, -32(%rdx)
	movq	%rsi, -24(%rdx)
	movq	%r10, -16(%rdx)
	movq	%r8, -8(%rdx)
	movq	%rcx, (%rdx)
	movq	224(%rsp), %r9
	addq	$64, %rdx
	decq	%r9
	jne	.Lluossavin_x86_64.BB12_10
	xorl	%eax, %eax
	movq	288(%rsp), %r13
	movq	280(%rsp), %r8
	movq	272(%rsp), %rdi
	movq	264(%rsp), %r9
	movq	256(%rsp), %r11
	movzbl	15(%rsp), %ebx
	movzbl	14(%rsp), %r14d
	movq	144(%rsp), %r10
	movq	152(%rsp), %rcx
	.p2align	4
.Lluossavin_x86_64.BB12_16:
	movdqu	1768(%rsp,%rax,4), %xmm2
	movdqa	%xmm2, %xmm1
	movdqa	%xmm2, %xmm3
	movdqa	%xmm2, %xmm0
	movdqa	%xmm2, %xmm4
	movdqa	%xmm2, %xmm5
	movdqa	%xmm2, %xmm6
	movdqa	%xmm2, %xmm7
	movdqu	(%rcx,%rax,4), %xmm8
	pxor	%xmm2, %xmm8
	psrld	$30, %xmm2
	pslld	$2, %xmm1
	por	%xmm2, %xmm1
	psrld	$22, %xmm3
	pslld	$10, %xmm0
	por	%xmm3, %xmm0
	pxor	%xmm1, %xmm0
	psrld	$14, %xmm4
	pslld	$18, %xmm5
	por	%xmm4, %xmm5
	psrld	$8, %xmm6
	pslld	$24, %xmm7
	por	%xmm6, %xmm7
	pxor	%xmm5, %xmm7
	pxor	%xmm0, %xmm7
	pxor	%xmm7, %xmm8
	movdqu	%xmm8, (%rcx,%rax,4)
	addq	$4, %rax
	cmpq	%rax, %rdi
	jne	.Lluossavin_x86_64.BB12_16
	incq	%r10
	incb	%bl
	incb	%r14b
	cmpq	$32, %r10
	jne	.Lluossavin_x86_64.BB12_4
	xorl	%eax, %eax
	.p2align	4
.Lluossavin_x86_64.BB12_19:
	movl	1256(%rsp,%rax), %ecx
	movl	1000(%rsp,%rax), %edx
	movl	488(%rsp,%rax), %esi
	movl	744(%rsp,%rax), %edi
	bswapl	%ecx
	movl	%ecx, (%r13,%rax,4)
	bswapl	%edx
	movl	%edx, 4(%r13,%rax,4)
	bswapl	%edi
	movl	%edi, 8(%r13,%rax,4)
	bswapl	%esi
	movl	%esi, 12(%r13,%rax,4)
	addq	$4, %rax
	cmpq	%rax, %r8
	jne	.Lluossavin_x86_64.BB12_19
	addq	$2024, %rsp
	popq	%rbx
	popq	%r12
	popq	%r13
	popq	%r14
	popq	%r15
	popq	%rbp
.Lluossavin_x86_64.BB12_21:
	retq
.Lluossavin_x86_64.func_end12:
	.size	"sixteen::encrypt.x86_64", .Lluossavin_x86_64.func_end12-"sixteen::encrypt.x86_64"

	.section	.rodata.cst16,"aM",@progbits,16
	.p2align	4, 0x0
.Lluossavin_x86_64.CPI13_0:
	.long	286331153
	.long	572662306
	.long	1145324612
	.long	2290649224
.Lluossavin_x86_64.CPI13_1:
	.quad	9223372036854775807
	.quad	9223372036854775807
	.section	".text.ghash::Ghash::absorb_all.x86_64","ax",@progbits
	.p2align	4
	.type	"ghash::Ghash::absorb_all.x86_64",@function
"ghash::Ghash::absorb_all.x86_64":
	pushq	%rbp
	pushq	%r15
	pushq	%r14
	pushq	%r13
	pushq	%r12
	pushq	%rbx
	subq	$1512, %rsp
	movq	%rdi, %rbx
	movups	(%rsi), %xmm0
	movups	16(%rsi), %xmm1
	movaps	%xmm1, 112(%rsp)
	movaps	%xmm0, 96(%rsp)
	xorps	%xmm0, %xmm0
	movaps	%xmm0, 64(%rsp)
	movaps	%xmm0, 80(%rsp)
	cmpq	$255, %rcx
	ja	.Lluossavin_x86_64.BB13_2
	leaq	64(%rsp), %rdi
	leaq	96(%rsp), %rsi
	callq	"ghash::Ghash::absorb_each.x86_64"
	jmp	.Lluossavin_x86_64.BB13_18
.Lluossavin_x86_64.BB13_2:
	movq	%rdx, (%rsp)
	movq	%rbx, 56(%rsp)
	movabsq	$4919131752989213764, %rax
	movabsq	$1229782938247303441, %rbp
	movq	96(%rsp), %r9
	movq	104(%rsp), %rbx
	movq	%r9, %rsi
	shrq	$32, %rsi
	movq	%rbx, %r11
	shrq	$32, %r11
	movl	%esi, %edx
	andl	$286331153, %edx
	movl	%esi, %edi
	andl	$572662306, %edi
	movl	%esi, %r8d
	andl	$1145324612, %r8d
	movq	%rsi, 24(%rsp)
	andl	$-2004318072, %esi
	imulq	%rdx, %rdx
	imulq	%r8, %r8
	xorq	%rdx, %r8
	andq	%rbp, %r8
	imulq	%rdi, %rdi
	imulq	%rsi, %rsi
	xorq	%rdi, %rsi
	andq	%rax, %rsi
	orq	%r8, %rsi
	movl	%r9d, %edx
	andl	$286331153, %edx
	movl	%r9d, %edi
	andl	$572662306, %edi
	movl	%r9d, %r8d
	andl	$1145324612, %r8d
	movq	%r9, 48(%rsp)
	andl	$-2004318072, %r9d
	imulq	%rdx, %rdx
	imulq	%r8, %r8
	xorq	%rdx, %r8
	andq	%rbp, %r8
	imulq	%rdi, %rdi
	imulq	%r9, %r9
	xorq	%rdi, %r9
	andq	%rax, %r9
	orq	%r8, %r9
	movl	%r11d, %r8d
	andl	$286331153, %r8d
	movl	%r11d, %edx
	andl	$572662306, %edx
	movl	%r11d, %r10d
	andl	$1145324612, %r10d
	movq	%r11, 32(%rsp)
	movl	%r11d, %edi
	andl	$-2004318072, %edi
	imulq	%r8, %r8
	imulq	%r10, %r10
	xorq	%r8, %r10
	andq	%rbp, %r10
	imulq	%rdx, %rdx
	imulq	%rdi, %rdi
	xorq	%rdx, %rdi
	andq	%rax, %rdi
	orq	%r10, %rdi
	movl	%ebx, %r10d
	andl	$286331153, %r10d
	movl	%ebx, %edx
	andl	$572662306, %edx
	movl	%ebx, %r11d
	andl	$1145324612, %r11d
	movq	%rbx, 40(%rsp)
	andl	$-2004318072, %ebx
	imulq	%r10, %r10
	imulq	%r11, %r11
	xorq	%r10, %r11
	andq	%rbp, %r11
	imulq	%rdx, %rdx
	imulq	%rbx, %rbx
	xorq	%rdx, %rbx
	andq	%rax, %rbx
	orq	%r11, %rbx
	movq	%rbx, %r14
	movq	%rbx, %rdx
	movq	%rdi, %r15
	shlq	$58, %r15
	leaq	(%rbx,%r9,2), %r11
	leaq	(%r15,%rbx,2), %r9
	shrq	%rbx
	shrq	$6, %r14
	xorq	%rbx, %r14
	leaq	(%rdi,%rdi), %rbx
	shlq	$63, %r10
	shlq	$58, %rdx
	orq	%r10, %rdx
	xorq	%rdx, %rbx
	movq	%rbx, %r10
	shrq	$2, %r10
	movq	%rbx, %r15
	shrq	$7, %rbx
	xorq	%r10, %rbx
	shrq	%r15
	shlq	$63, %r8
	xorq	%rsi, %rdi
	addq	%rdi, %rdi
	xorq	%r15, %rdi
	xorq	%rbx, %rdi
	xorq	%rdi, %rdx
	xorq	%r8, %r11
	xorq	%r14, %r11
	xorq	%r11, %r9
	shrq	$32, %rdx
	movq	%r9, %r10
	shrq	$32, %r10
	movl	%edx, %esi
	andl	$286331153, %esi
	movl	%edx, %r8d
	andl	$572662306, %r8d
	movl	%edx, %ebx
	andl	$1145324612, %ebx
	andl	$-2004318072, %edx
	imulq	%rsi, %rsi
	imulq	%rbx, %rbx
	xorq	%rsi, %rbx
	andq	%rbp, %rbx
	imulq	%r8, %r8
	imulq	%rdx, %rdx
	xorq	%r8, %rdx
	andq	%rax, %rdx
	orq	%rbx, %rdx
	movl	%edi, %esi
	andl	$286331153, %esi
	movl	%edi, %r8d
	andl	$572662306, %r8d
	movl	%edi, %ebx
	andl	$1145324612, %ebx
	andl	$-2004318072, %edi
	imulq	%rsi, %rsi
	imulq	%rbx, %rbx
	xorq	%rsi, %rbx
	andq	%rbp, %rbx
	imulq	%r8, %r8
	imulq	%rdi, %rdi
	xorq	%r8, %rdi
	andq	%rax, %rdi
	orq	%rbx, %rdi
	movl	%r10d, %r8d
	andl	$286331153, %r8d
	movl	%r10d, %esi
	andl	$572662306, %esi
	movl	%r10d, %ebx
	andl	$1145324612, %ebx
	andl	$-2004318072, %r10d
	imulq	%r8, %r8
	imulq	%rbx, %rbx
	xorq	%r8, %rbx
	andq	%rbp, %rbx
	imulq	%rsi, %rsi
	imulq	%r10, %r10
	xorq	%rsi, %r10
	andq	%rax, %r10
	orq	%rbx, %r10
	movl	%r11d, %r14d
	andl	$286331153, %r14d
	movl	%r9d, %esi
	andl	$572662306, %esi
	andl	$1145324612, %r11d
	andl	$-2004318072, %r9d
	imulq	%r14, %r14
	imulq	%r11, %r11
	xorq	%r14, %r11
	andq	%rbp, %r11
	imulq	%rsi, %rsi
	imulq	%r9, %r9
	xorq	%rsi, %r9
	andq	%rax, %r9
	orq	%r11, %r9
	leaq	(%r10,%r10), %rbx
	movq	%r9, %rsi
	xorq	%r10, %rdx
	shlq	$58, %r10
	leaq	(%r9,%rdi,2), %rdi
	shldq	$63, %r9, %r8
	leaq	(%r10,%r9,2), %r11
	shrq	$6, %r9
	shlq	$63, %r14
	shlq	$58, %rsi
	orq	%r14, %rsi
	xorq	%rsi, %rbx
	movq	%rbx, %r10
	shrq	%r10
	movq	%rbx, %r14
	shrq	$2, %r14
	xorq	%r10, %r14
	shrq	$7, %rbx
	xorq	%r14, %rbx
	addq	%rdx, %rdx
	xorq	%rbx, %rdx
	xorq	%rdx, %rsi
	orq	%r9, %r8
	xorq	%rdi, %r8
	xorq	%r8, %r11
	shrq	$32, %rsi
	movq	%r11, %r9
	shrq	$32, %r9
	movl	%esi, %edi
	andl	$286331153, %edi
	movl	%esi, %r10d
	andl	$572662306, %r10d
	movl	%esi, %r14d
	andl	$1145324612, %r14d
	andl	$-2004318072, %esi
	imulq	%rdi, %rdi
	imulq	%r14, %r14
	xorq	%rdi, %r14
	andq	%rbp, %r14
	imulq	%r10, %r10
	imulq	%rsi, %rsi
	xorq	%r10, %rsi
	andq	%rax, %rsi
	orq	%r14, %rsi
	movl	%ebx, %edi
	andl	$286331153, %edi
	movl	%edx, %r10d
	andl	$572662306, %r10d
	andl	$1145324612, %ebx
	andl	$-2004318072, %edx
	imulq	%rdi, %rdi
	imulq	%rbx, %rbx
	xorq	%rdi, %rbx
	andq	%rbp, %rbx
	imulq	%r10, %r10
	imulq	%rdx, %rdx
	xorq	%r10, %rdx
	andq	%rax, %rdx
	orq	%rbx, %rdx
	movl	%r9d, %r10d
	andl	$286331153, %r10d
	movl	%r9d, %edi
	andl	$572662306, %edi
	movl	%r9d, %ebx
	andl	$1145324612, %ebx
	andl	$-2004318072, %r9d
	imulq	%r10, %r10
	imulq	%rbx, %rbx
	xorq	%r10, %rbx
	andq	%rbp, %rbx
	imulq	%rdi, %rdi
	imulq	%r9, %r9
	xorq	%rdi, %r9
	andq	%rax, %r9
	orq	%rbx, %r9
	movl	%r8d, %edi
	andl	$286331153, %edi
	movl	%r11d, %ebx
	andl	$572662306, %ebx
	andl	$1145324612, %r8d
	andl	$-2004318072, %r11d
	imulq	%rdi, %rdi
	imulq	%r8, %r8
	xorq	%rdi, %r8
	andq	%rbp, %r8
	imulq	%rbx, %rbx
	imulq	%r11, %r11
	xorq	%rbx, %r11
	andq	%rax, %r11
	orq	%r8, %r11
	leaq	(%r9,%r9), %r14
	shlq	$63, %rdi
	movq	%r11, %r8
	shlq	$58, %r8
	orq	%rdi, %r8
	xorq	%r8, %r14
	movq	%r14, %rdi
	shrq	%rdi
	movq	%r14, %rbx
	shrq	$2, %rbx
	xorq	%rdi, %rbx
	shrq	$7, %r14
	xorq	%rbx, %r14
	movq	112(%rsp), %rdi
	xorq	%r9, %rsi
	shlq	$58, %r9
	leaq	(%r11,%rdx,2), %rbx
	shldq	$63, %r11, %r10
	leaq	(%r9,%r11,2), %r9
	shrq	$6, %r11
	orq	%r11, %r10
	movq	120(%rsp), %rdx
	movaps	%xmm0, 416(%rsp)
	movaps	%xmm0, 432(%rsp)
	movaps	%xmm0, 128(%rsp)
	movaps	%xmm0, 144(%rsp)
	addq	%rsi, %rsi
	xorq	%r14, %rsi
	xorq	%rsi, %r8
	xorq	%rbx, %r10
	xorq	%r10, %r9
	xorl	%r11d, %r11d
	cmpq	$1024, %rcx
	setae	%r11b
	jb	.Lluossavin_x86_64.BB13_4
	shrq	$32, %r8
	movq	%r9, %rbx
	shrq	$32, %rbx
	movl	%r8d, %r15d
	andl	$286331153, %r15d
	movl	%r8d, %r12d
	andl	$572662306, %r12d
	movl	%r8d, %r13d
	andl	$1145324612, %r13d
	andl	$-2004318072, %r8d
	imulq	%r15, %r15
	imulq	%r13, %r13
	xorq	%r15, %r13
	andq	%rbp, %r13
	imulq	%r12, %r12
	imulq	%r8, %r8
	xorq	%r12, %r8
	andq	%rax, %r8
	orq	%r13, %r8
	movl	%r14d, %r15d
	andl	$286331153, %r15d
	movl	%esi, %r12d
	andl	$572662306, %r12d
	andl	$1145324612, %r14d
	andl	$-2004318072, %esi
	imulq	%r15, %r15
	imulq	%r14, %r14
	xorq	%r15, %r14
	andq	%rbp, %r14
	imulq	%r12, %r12
	imulq	%rsi, %rsi
	xorq	%r12, %rsi
	andq	%rax, %rsi
	orq	%r14, %rsi
	movl	%ebx, %r14d
	andl	$286331153, %r14d
	movl	%ebx, %r15d
	andl	$572662306, %r15d
	movl	%ebx, %r12d
	andl	$1145324612, %r12d
	andl	$-2004318072, %ebx
	imulq	%r14, %r14
	imulq	%r12, %r12
	xorq	%r14, %r12
	andq	%rbp, %r12
	imulq	%r15, %r15
	imulq	%rbx, %rbx
	xorq	%r15, %rbx
	andq	%rax, %rbx
	orq	%r12, %rbx
	movl	%r10d, %r15d
	andl	$286331153, %r15d
	movl	%r9d, %r12d
	andl	$572662306, %r12d
	andl	$1145324612, %r10d
	andl	$-2004318072, %r9d
	imulq	%r15, %r15
	imulq	%r10, %r10
	xorq	%r15, %r10
	andq	%rbp, %r10
	imulq	%r12, %r12
	imulq	%r9, %r9
	xorq	%r12, %r9
	andq	%rax, %r9
	orq	%r10, %r9
	leaq	(%rbx,%rbx), %r10
	leaq	(%r9,%r9), %rax
	movq	%r9, %rbp
	shrq	$6, %rbp
	shlq	$63, %r15
	movq	%r9, %r12
	shlq	$58, %r12
	orq	%r15, %r12
	xorq	%r12, %r10
	movq	%r10, %r15
	shrq	%r15
	movq	%r10, %r13
	shrq	$2, %r13
	xorq	%r15, %r13
	shrq	$7, %r10
	xorq	%r13, %r10
	xorq	%rbx, %r8
	shlq	$58, %rbx
	addq	%r8, %r8
	xorq	%r10, %r8
	xorq	%r12, %r8
	leaq	(%r9,%rsi,2), %rsi
	shrdq	$1, %r14, %r9
	orq	%rbp, %r9
	xorq	%rax, %r9
	orq	%rbx, %r9
	xorq	%rsi, %r9
.Lluossavin_x86_64.BB13_4:
	leaq	8(,%r11,8), %r12
	movq	%r8, %rax
	shrq	$32, %rax
	movd	%eax, %xmm0
	xorl	%r8d, %eax
	movq	%r9, %rsi
	shrq	$32, %rsi
	movq	%r8, 704(%rsp)
	movq	%r9, 712(%rsp)
	pshufd	$0, %xmm0, %xmm0
	movdqa	.Lluossavin_x86_64.CPI13_0(%rip), %xmm1
	pand	%xmm1, %xmm0
	movdqu	%xmm0, 720(%rsp)
	movd	%r8d, %xmm0
	pshufd	$0, %xmm0, %xmm0
	pand	%xmm1, %xmm0
	movdqu	%xmm0, 736(%rsp)
	movd	%eax, %xmm0
	pshufd	$0, %xmm0, %xmm0
	pand	%xmm1, %xmm0
	movdqu	%xmm0, 752(%rsp)
	movd	%esi, %xmm0
	movl	%esi, %eax
	xorl	%r9d, %eax
	movq	%r9, %r10
	xorq	%r8, %r10
	movq	%r10, %rsi
	shrq	$32, %rsi
	pshufd	$0, %xmm0, %xmm0
	pand	%xmm1, %xmm0
	movdqu	%xmm0, 768(%rsp)
	movd	%r9d, %xmm0
	pshufd	$0, %xmm0, %xmm0
	pand	%xmm1, %xmm0
	movdqu	%xmm0, 784(%rsp)
	movd	%eax, %xmm0
	pshufd	$0, %xmm0, %xmm0
	pand	%xmm1, %xmm0
	movdqu	%xmm0, 800(%rsp)
	movd	%esi, %xmm0
	movl	%esi, %eax
	xorl	%r10d, %eax
	leaq	816(%rsp), %r14
	pshufd	$0, %xmm0, %xmm0
	pand	%xmm1, %xmm0
	movdqu	%xmm0, 816(%rsp)
	movd	%r10d, %xmm0
	pshufd	$0, %xmm0, %xmm0
	pand	%xmm1, %xmm0
	movdqu	%xmm0, 832(%rsp)
	movd	%eax, %xmm0
	pshufd	$0, %xmm0, %xmm0
	pand	%xmm1, %xmm0
	movdqu	%xmm0, 848(%rsp)
	pxor	%xmm0, %xmm0
	movdqu	%xmm0, 456(%rsp)
	movdqu	%xmm0, 472(%rsp)
	movdqu	%xmm0, 488(%rsp)
	movdqu	%xmm0, 504(%rsp)
	movdqu	%xmm0, 520(%rsp)
	movdqu	%xmm0, 536(%rsp)
	movdqu	%xmm0, 552(%rsp)
	movdqu	%xmm0, 568(%rsp)
	movdqu	%xmm0, 584(%rsp)
	movdqu	%xmm0, 600(%rsp)
	movdqu	%xmm0, 616(%rsp)
	movdqu	%xmm0, 632(%rsp)
	movdqu	%xmm0, 648(%rsp)
	movdqu	%xmm0, 664(%rsp)
	movdqu	%xmm0, 680(%rsp)
	movq	$0, 696(%rsp)
	movq	%rdi, 448(%rsp)
	leaq	576(%rsp), %r13
	movq	%rdx, 576(%rsp)
	xorl	%eax, %eax
	movq	(%rsp), %rdx
	.p2align	4
.Lluossavin_x86_64.BB13_5:
	movdqu	(%rdx), %xmm1
	movdqu	16(%rdx), %xmm2
	movdqa	%xmm2, %xmm3
	punpckhbw	%xmm0, %xmm3
	pshufd	$78, %xmm3, %xmm3
	pshuflw	$27, %xmm3, %xmm3
	pshufhw	$27, %xmm3, %xmm3
	movdqa	%xmm1, %xmm4
	punpckhbw	%xmm0, %xmm4
	pshufd	$78, %xmm4, %xmm4
	pshuflw	$27, %xmm4, %xmm4
	pshufhw	$27, %xmm4, %xmm4
	packuswb	%xmm3, %xmm4
	punpcklbw	%xmm0, %xmm2
	pshufd	$78, %xmm2, %xmm2
	pshuflw	$27, %xmm2, %xmm2
	pshufhw	$27, %xmm2, %xmm2
	punpcklbw	%xmm0, %xmm1
	pshufd	$78, %xmm1, %xmm1
	pshuflw	$27, %xmm1, %xmm1
	pshufhw	$27, %xmm1, %xmm1
	packuswb	%xmm2, %xmm1
	movdqu	448(%rsp,%rax,8), %xmm2
	pxor	%xmm1, %xmm2
	movdqu	576(%rsp,%rax,8), %xmm1
	pxor	%xmm4, %xmm1
	movdqu	%xmm2, 448(%rsp,%rax,8)
	movdqu	%xmm1, 576(%rsp,%rax,8)
	addq	$2, %rax
	addq	$32, %rdx
	cmpq	%rax, %r12
	jne	.Lluossavin_x86_64.BB13_5
	movq	%rcx, %rbp
	shrq	$4, %rbp
	movq	%rcx, 8(%rsp)
	cmpq	$1024, %rcx
	movl	$4, %ecx
	sbbq	$0, %rcx
	movq	%rcx, 16(%rsp)
	shrq	%cl, %rbp
	cmpq	$2, %rbp
	jb	.Lluossavin_x86_64.BB13_15
	cmpq	$1024, 8(%rsp)
	movl	$8, %r15d
	sbbq	$0, %r15
	movl	$1, %ebx
	.p2align	4
.Lluossavin_x86_64.BB13_8:
	pxor	%xmm0, %xmm0
	movdqa	%xmm0, 272(%rsp)
	movdqa	%xmm0, 256(%rsp)
	movdqa	%xmm0, 240(%rsp)
	movdqa	%xmm0, 224(%rsp)
	movdqa	%xmm0, 208(%rsp)
	movdqa	%xmm0, 192(%rsp)
	movdqa	%xmm0, 176(%rsp)
	movdqa	%xmm0, 160(%rsp)
	xorl	%eax, %eax
	.p2align	4
.Lluossavin_x86_64.BB13_9:
	movdqu	448(%rsp,%rax,8), %xmm0
	movdqu	464(%rsp,%rax,8), %xmm1
	movdqu	576(%rsp,%rax,8), %xmm2
	pxor	%xmm0, %xmm2
	movdqu	592(%rsp,%rax,8), %xmm0
	pxor	%xmm1, %xmm0
	movdqu	%xmm2, 160(%rsp,%rax,8)
	movdqu	%xmm0, 176(%rsp,%rax,8)
	addq	$4, %rax
	cmpq	%rax, %r12
	jne	.Lluossavin_x86_64.BB13_9
	movaps	272(%rsp), %xmm0
	movaps	%xmm0, 1488(%rsp)
	movaps	256(%rsp), %xmm0
	movaps	%xmm0, 1472(%rsp)
	movaps	240(%rsp), %xmm0
	movaps	%xmm0, 1456(%rsp)
	movaps	224(%rsp), %xmm0
	movaps	%xmm0, 1440(%rsp)
	movaps	160(%rsp), %xmm0
	movaps	176(%rsp), %xmm1
	movaps	192(%rsp), %xmm2
	movaps	208(%rsp), %xmm3
	movaps	%xmm3, 1424(%rsp)
	movaps	%xmm2, 1408(%rsp)
	movaps	%xmm1, 1392(%rsp)
	movaps	%xmm0, 1376(%rsp)
	xorps	%xmm0, %xmm0
	movaps	%xmm0, 160(%rsp)
	movaps	%xmm0, 176(%rsp)
	movaps	%xmm0, 192(%rsp)
	movaps	%xmm0, 208(%rsp)
	movaps	%xmm0, 224(%rsp)
	movaps	%xmm0, 240(%rsp)
	movaps	%xmm0, 256(%rsp)
	movaps	%xmm0, 272(%rsp)
	movaps	%xmm0, 288(%rsp)
	movaps	%xmm0, 304(%rsp)
	movaps	%xmm0, 320(%rsp)
	movaps	%xmm0, 336(%rsp)
	movaps	%xmm0, 352(%rsp)
	movaps	%xmm0, 368(%rsp)
	movaps	%xmm0, 384(%rsp)
	movaps	%xmm0, 400(%rsp)
	movaps	%xmm0, 1360(%rsp)
	movaps	%xmm0, 1344(%rsp)
	movaps	%xmm0, 1328(%rsp)
	movaps	%xmm0, 1312(%rsp)
	movaps	%xmm0, 1296(%rsp)
	movaps	%xmm0, 1280(%rsp)
	movaps	%xmm0, 1264(%rsp)
	movaps	%xmm0, 1248(%rsp)
	movaps	%xmm0, 1232(%rsp)
	movaps	%xmm0, 1216(%rsp)
	movaps	%xmm0, 1200(%rsp)
	movaps	%xmm0, 1184(%rsp)
	movaps	%xmm0, 1168(%rsp)
	movaps	%xmm0, 1152(%rsp)
	movaps	%xmm0, 1136(%rsp)
	movaps	%xmm0, 1120(%rsp)
	movaps	%xmm0, 1104(%rsp)
	movaps	%xmm0, 1088(%rsp)
	movaps	%xmm0, 1072(%rsp)
	movaps	%xmm0, 1056(%rsp)
	movaps	%xmm0, 1040(%rsp)
	movaps	%xmm0, 1024(%rsp)
	movaps	%xmm0, 1008(%rsp)
	movaps	%xmm0, 992(%rsp)
	movaps	%xmm0, 976(%rsp)
	movaps	%xmm0, 960(%rsp)
	movaps	%xmm0, 944(%rsp)
	movaps	%xmm0, 928(%rsp)
	movaps	%xmm0, 912(%rsp)
	movaps	%xmm0, 896(%rsp)
	movaps	%xmm0, 880(%rsp)
	movaps	%xmm0, 864(%rsp)
	leaq	448(%rsp), %rdi
	leaq	160(%rsp), %rcx
	leaq	720(%rsp), %rsi
	movq	%r12, %rdx
	callq	"carryless::many::products64.x86_64"
	leaq	1120(%rsp), %rcx
	movq	%r13, %rdi
	leaq	768(%rsp), %rsi
	movq	%r12, %rdx
	callq	"carryless::many::products64.x86_64"
	leaq	1376(%rsp), %rdi
	leaq	864(%rsp), %rcx
	movq	%r14, %rsi
	movq	%r12, %rdx
	callq	"carryless::many::products64.x86_64"
	xorl	%eax, %eax
	.p2align	4
.Lluossavin_x86_64.BB13_11:
	movdqu	160(%rsp,%rax,8), %xmm2
	movdqu	288(%rsp,%rax,8), %xmm3
	movdqu	1120(%rsp,%rax,8), %xmm0
	movdqu	1248(%rsp,%rax,8), %xmm1
	movdqu	864(%rsp,%rax,8), %xmm4
	movdqu	992(%rsp,%rax,8), %xmm6
	pxor	%xmm3, %xmm4
	movdqa	%xmm0, %xmm5
	pxor	%xmm2, %xmm5
	pxor	%xmm4, %xmm5
	pxor	%xmm3, %xmm6
	pxor	%xmm1, %xmm0
	pxor	%xmm6, %xmm0
	movdqa	%xmm5, %xmm3
	psrlq	$63, %xmm3
	paddq	%xmm2, %xmm2
	por	%xmm3, %xmm2
	movdqa	%xmm0, %xmm3
	psrlq	$63, %xmm3
	paddq	%xmm5, %xmm5
	por	%xmm3, %xmm5
	paddq	%xmm0, %xmm0
	movdqa	%xmm1, %xmm4
	psrlq	$63, %xmm4
	por	%xmm4, %xmm0
	movdqa	%xmm1, %xmm3
	paddq	%xmm3, %xmm3
	movdqa	.Lluossavin_x86_64.CPI13_1(%rip), %xmm6
	pand	%xmm1, %xmm6
	movdqa	%xmm3, %xmm7
	psrlq	$2, %xmm7
	pxor	%xmm6, %xmm7
	movdqa	%xmm3, %xmm6
	psrlq	$7, %xmm6
	pxor	%xmm7, %xmm6
	pxor	%xmm5, %xmm6
	movdqa	%xmm1, %xmm5
	psllq	$63, %xmm5
	psllq	$58, %xmm1
	pxor	%xmm5, %xmm1
	pxor	%xmm0, %xmm1
	movdqa	%xmm1, %xmm5
	psrlq	$1, %xmm5
	pxor	%xmm2, %xmm5
	movdqa	%xmm1, %xmm2
	psrlq	$2, %xmm2
	movdqa	%xmm1, %xmm7
	psrlq	$7, %xmm7
	pxor	%xmm2, %xmm7
	pxor	%xmm5, %xmm7
	psllq	$63, %xmm4
	movdqa	%xmm0, %xmm2
	psllq	$62, %xmm2
	pxor	%xmm6, %xmm2
	psllq	$57, %xmm0
	pxor	%xmm4, %xmm0
	pxor	%xmm2, %xmm0
	pxor	%xmm1, %xmm7
	pxor	%xmm3, %xmm0
	movdqu	%xmm7, 448(%rsp,%rax,8)
	movdqu	%xmm0, 576(%rsp,%rax,8)
	addq	$2, %rax
	cmpq	%rax, %r12
	jne	.Lluossavin_x86_64.BB13_11
	movq	%rbx, %rax
	movl	%r15d, %ecx
	shlq	%cl, %rax
	addq	(%rsp), %rax
	xorl	%ecx, %ecx
	.p2align	4
.Lluossavin_x86_64.BB13_13:
	movdqu	(%rax), %xmm0
	movdqu	16(%rax), %xmm1
	pxor	%xmm2, %xmm2
	movdqa	%xmm1, %xmm3
	punpckhbw	%xmm2, %xmm3
	pshufd	$78, %xmm3, %xmm3
	pshuflw	$27, %xmm3, %xmm3
	pshufhw	$27, %xmm3, %xmm3
	movdqa	%xmm0, %xmm4
	punpckhbw	%xmm2, %xmm4
	pshufd	$78, %xmm4, %xmm4
	pshuflw	$27, %xmm4, %xmm4
	pshufhw	$27, %xmm4, %xmm4
	packuswb	%xmm3, %xmm4
	punpcklbw	%xmm2, %xmm1
	pshufd	$78, %xmm1, %xmm1
	pshuflw	$27, %xmm1, %xmm1
	pshufhw	$27, %xmm1, %xmm1
	punpcklbw	%xmm2, %xmm0
	pshufd	$78, %xmm0, %xmm0
	pshuflw	$27, %xmm0, %xmm0
	pshufhw	$27, %xmm0, %xmm0
	packuswb	%xmm1, %xmm0
	movdqu	448(%rsp,%rcx,8), %xmm1
	pxor	%xmm0, %xmm1
	movdqu	576(%rsp,%rcx,8), %xmm0
	pxor	%xmm4, %xmm0
	movdqu	%xmm1, 448(%rsp,%rcx,8)
	movdqu	%xmm0, 576(%rsp,%rcx,8)
	addq	$2, %rcx
	addq	$32, %rax
	cmpq	%rcx, %r12
	jne	.Lluossavin_x86_64.BB13_13
	incq	%rbx
	cmpq	%rbp, %rbx
	jne	.Lluossavin_x86_64.BB13_8
.Lluossavin_x86_64.BB13_15:
	movq	32(%rsp), %rsi
	movl	%esi, %edx
	movq	40(%rsp), %r15
	xorl	%r15d, %edx
	movq	%r15, %rax
	movq	48(%rsp), %r14
	xorq	%r14, %rax
	movq	%rax, %rcx
	shrq	$32, %rcx
	movq	%r14, 160(%rsp)
	movq	%r15, 168(%rsp)
	movq	24(%rsp), %rdi
	movd	%edi, %xmm0
	xorl	%r14d, %edi
	pshufd	$0, %xmm0, %xmm0
	movdqa	.Lluossavin_x86_64.CPI13_0(%rip), %xmm1
	pand	%xmm1, %xmm0
	movdqu	%xmm0, 176(%rsp)
	movd	%r14d, %xmm0
	pshufd	$0, %xmm0, %xmm0
	pand	%xmm1, %xmm0
	movdqu	%xmm0, 192(%rsp)
	movd	%edi, %xmm0
	pshufd	$0, %xmm0, %xmm0
	pand	%xmm1, %xmm0
	movdqu	%xmm0, 208(%rsp)
	movd	%esi, %xmm0
	pshufd	$0, %xmm0, %xmm0
	pand	%xmm1, %xmm0
	movdqu	%xmm0, 224(%rsp)
	movd	%r15d, %xmm0
	pshufd	$0, %xmm0, %xmm0
	pand	%xmm1, %xmm0
	movdqu	%xmm0, 240(%rsp)
	movd	%edx, %xmm0
	pshufd	$0, %xmm0, %xmm0
	pand	%xmm1, %xmm0
	movdqu	%xmm0, 256(%rsp)
	movd	%ecx, %xmm0
	xorl	%eax, %ecx
	pshufd	$0, %xmm0, %xmm0
	pand	%xmm1, %xmm0
	movdqu	%xmm0, 272(%rsp)
	movd	%eax, %xmm0
	pshufd	$0, %xmm0, %xmm0
	pand	%xmm1, %xmm0
	movdqu	%xmm0, 288(%rsp)
	movd	%ecx, %xmm0
	pshufd	$0, %xmm0, %xmm0
	pand	%xmm1, %xmm0
	movdqu	%xmm0, 304(%rsp)
	xorl	%edx, %edx
	xorl	%ebx, %ebx
	xorl	%eax, %eax
	.p2align	4
.Lluossavin_x86_64.BB13_16:
	xorq	448(%rsp,%rbx,8), %rax
	xorq	576(%rsp,%rbx,8), %rdx
	leaq	160(%rsp), %rcx
	movq	%rax, %rdi
	movq	%rdx, %rsi
	movq	%rcx, %rdx
	callq	"field::times.x86_64"
	incq	%rbx
	cmpq	%rbx, %r12
	jne	.Lluossavin_x86_64.BB13_16
	movq	16(%rsp), %rcx
	shlq	%cl, %rbp
	movq	%r14, 128(%rsp)
	movq	%r15, 136(%rsp)
	movq	%rax, 144(%rsp)
	movq	%rdx, 152(%rsp)
	shlq	$4, %rbp
	movq	(%rsp), %rdx
	addq	%rbp, %rdx
	movq	8(%rsp), %rcx
	subq	%rbp, %rcx
	leaq	416(%rsp), %rdi
	leaq	128(%rsp), %rsi
	callq	"ghash::Ghash::absorb_each.x86_64"
	movaps	416(%rsp), %xmm0
	movaps	432(%rsp), %xmm1
	movaps	%xmm1, 80(%rsp)
	movaps	%xmm0, 64(%rsp)
	movq	56(%rsp), %rbx
.Lluossavin_x86_64.BB13_18:
	movaps	64(%rsp), %xmm0
	movaps	80(%rsp), %xmm1
	movups	%xmm1, 16(%rbx)
	movups	%xmm0, (%rbx)
	addq	$1512, %rsp
	popq	%rbx
	popq	%r12
	popq	%r13
	popq	%r14
	popq	%r15
	popq	%rbp
	retq
.Lluossavin_x86_64.func_end13:
	.size	"ghash::Ghash::absorb_all.x86_64", .Lluossavin_x86_64.func_end13-"ghash::Ghash::absorb_all.x86_64"

	.section	.rodata.cst16,"aM",@progbits,16
	.p2align	4, 0x0
.Lluossavin_x86_64.CPI14_0:
	.long	286331153
	.long	572662306
	.long	1145324612
	.long	2290649224
	.section	".text.ghash::Ghash::absorb_each.x86_64","ax",@progbits
	.p2align	4
	.type	"ghash::Ghash::absorb_each.x86_64",@function
"ghash::Ghash::absorb_each.x86_64":
	pushq	%rbp
	pushq	%r15
	pushq	%r14
	pushq	%r13
	pushq	%r12
	pushq	%rbx
	subq	$200, %rsp
	movq	%rcx, %rbx
	movq	%rdx, %r15
	movq	%rdi, 32(%rsp)
	movq	(%rsi), %rbp
	movq	8(%rsi), %rdi
	movq	16(%rsi), %r13
	movq	24(%rsi), %r12
	movq	%rbp, %rax
	shrq	$32, %rax
	movd	%eax, %xmm0
	xorl	%ebp, %eax
	movq	%rdi, %rcx
	shrq	$32, %rcx
	movq	%rbp, 40(%rsp)
	movq	%rdi, 48(%rsp)
	pshufd	$0, %xmm0, %xmm1
	movdqa	.Lluossavin_x86_64.CPI14_0(%rip), %xmm0
	pand	%xmm0, %xmm1
	movdqu	%xmm1, 56(%rsp)
	movd	%ebp, %xmm1
	pshufd	$0, %xmm1, %xmm1
	pand	%xmm0, %xmm1
	movdqu	%xmm1, 72(%rsp)
	movd	%eax, %xmm1
	pshufd	$0, %xmm1, %xmm1
	pand	%xmm0, %xmm1
	movdqu	%xmm1, 88(%rsp)
	movd	%ecx, %xmm1
	movl	%ecx, %eax
	xorl	%edi, %eax
	movq	%rdi, %rcx
	xorq	%rbp, %rcx
	movq	%rcx, %rdx
	shrq	$32, %rdx
	pshufd	$0, %xmm1, %xmm1
	pand	%xmm0, %xmm1
	movdqu	%xmm1, 104(%rsp)
	movq	%rdi, 24(%rsp)
	movd	%edi, %xmm1
	pshufd	$0, %xmm1, %xmm1
	pand	%xmm0, %xmm1
	movdqu	%xmm1, 120(%rsp)
	movd	%eax, %xmm1
	pshufd	$0, %xmm1, %xmm1
	pand	%xmm0, %xmm1
	movdqu	%xmm1, 136(%rsp)
	movd	%edx, %xmm1
	movl	%edx, %eax
	xorl	%ecx, %eax
	pshufd	$0, %xmm1, %xmm1
	pand	%xmm0, %xmm1
	movdqu	%xmm1, 152(%rsp)
	movd	%ecx, %xmm1
	pshufd	$0, %xmm1, %xmm1
	pand	%xmm0, %xmm1
	movdqu	%xmm1, 168(%rsp)
	movd	%eax, %xmm1
	pshufd	$0, %xmm1, %xmm1
	pand	%xmm0, %xmm1
	movdqu	%xmm1, 184(%rsp)
	movq	%rbx, %r14
	shrq	$4, %r14
	movl	%ebx, %eax
	andl	$15, %eax
	cmpq	$1, %rax
	sbbq	$-1, %r14
	testq	%rbx, %rbx
	jne	.Lluossavin_x86_64.BB14_1
.Lluossavin_x86_64.BB14_5:
	movq	32(%rsp), %rax
	movq	%rbp, (%rax)
	movq	24(%rsp), %rcx
	movq	%rcx, 8(%rax)
	movq	%r13, 16(%rax)
	movq	%r12, 24(%rax)
	addq	$200, %rsp
	popq	%rbx
	popq	%r12
	popq	%r13
	popq	%r14
	popq	%r15
	popq	%rbp
	retq
	.p2align	4
.Lluossavin_x86_64.BB14_2:
	movl	(%r15), %eax
	movl	4(%r15), %edx
	bswapl	%eax
	bswapl	%edx
	movl	8(%r15), %ecx
	bswapl	%ecx
	movl	12(%r15), %esi
.Lluossavin_x86_64.BB14_4:
	bswapl	%esi
	shlq	$32, %rax
	movl	%edx, %edi
	orq	%rax, %rdi
	xorq	%r13, %rdi
	shlq	$32, %rcx
	movl	%esi, %esi
	orq	%rcx, %rsi
	xorq	%r12, %rsi
	leaq	40(%rsp), %rdx
	callq	"field::times.x86_64"
	movq	%rax, %r13
	movq	%rdx, %r12
	addq	$-16, %rbx
	addq	$16, %r15
	decq	%r14
	je	.Lluossavin_x86_64.BB14_5
.Lluossavin_x86_64.BB14_1:
	cmpq	$16, %rbx
	jae	.Lluossavin_x86_64.BB14_2
	pxor	%xmm0, %xmm0
	movdqa	%xmm0, (%rsp)
	movq	%rsp, %rdi
	movq	%r15, %rsi
	movq	%rbx, %rdx
	callq	memcpy@PLT
	movl	(%rsp), %eax
	movl	4(%rsp), %edx
	bswapl	%eax
	bswapl	%edx
	movl	8(%rsp), %ecx
	bswapl	%ecx
	movl	12(%rsp), %esi
	jmp	.Lluossavin_x86_64.BB14_4
.Lluossavin_x86_64.func_end14:
	.size	"ghash::Ghash::absorb_each.x86_64", .Lluossavin_x86_64.func_end14-"ghash::Ghash::absorb_each.x86_64"

	.section	.rodata.cst16,"aM",@progbits,16
	.p2align	4, 0x0
.Lluossavin_x86_64.CPI15_0:
	.long	286331153
	.long	286331153
	.zero	4
	.zero	4
.Lluossavin_x86_64.CPI15_1:
	.long	572662306
	.long	572662306
	.zero	4
	.zero	4
.Lluossavin_x86_64.CPI15_2:
	.long	1145324612
	.long	1145324612
	.zero	4
	.zero	4
.Lluossavin_x86_64.CPI15_3:
	.long	2290649224
	.long	2290649224
	.zero	4
	.zero	4
.Lluossavin_x86_64.CPI15_4:
	.zero	16,17
.Lluossavin_x86_64.CPI15_5:
	.zero	16,34
.Lluossavin_x86_64.CPI15_6:
	.zero	16,68
.Lluossavin_x86_64.CPI15_7:
	.zero	16,136
	.section	".text.field::times.x86_64","ax",@progbits
	.p2align	4
	.type	"field::times.x86_64",@function
"field::times.x86_64":
	pushq	%rbp
	pushq	%r15
	pushq	%r14
	pushq	%r13
	pushq	%r12
	pushq	%rbx
	movq	%rsi, %rcx
	xorq	%rdi, %rcx
	movq	%rcx, %rax
	shrq	$32, %rax
	movd	%ecx, %xmm0
	movd	%eax, %xmm1
	punpckldq	%xmm0, %xmm1
	movdqa	%xmm1, -56(%rsp)
	movl	%esi, %r8d
	shrq	$32, %rsi
	movd	%esi, %xmm0
	xorl	%r8d, %esi
	movd	%esi, %xmm1
	movd	%r8d, %xmm2
	punpckldq	%xmm1, %xmm2
	movdqa	%xmm2, -40(%rsp)
	movq	%rdi, %rsi
	shrq	$32, %rsi
	movd	%esi, %xmm10
	xorl	%edi, %esi
	movd	%esi, %xmm7
	punpckldq	%xmm0, %xmm7
	movd	%edi, %xmm0
	punpckldq	%xmm0, %xmm10
	movd	32(%rdx), %xmm0
	movd	16(%rdx), %xmm9
	punpcklqdq	%xmm0, %xmm9
	movd	36(%rdx), %xmm0
	movd	20(%rdx), %xmm8
	punpcklqdq	%xmm0, %xmm8
	movd	40(%rdx), %xmm0
	movd	24(%rdx), %xmm12
	punpcklqdq	%xmm0, %xmm12
	movd	44(%rdx), %xmm0
	movd	28(%rdx), %xmm13
	punpcklqdq	%xmm0, %xmm13
	pxor	%xmm3, %xmm3
	movdqa	%xmm10, %xmm11
	pand	.Lluossavin_x86_64.CPI15_1(%rip), %xmm11
	punpckldq	%xmm3, %xmm11
	movdqa	%xmm13, %xmm0
	pmuludq	%xmm11, %xmm0
	movdqa	.Lluossavin_x86_64.CPI15_2(%rip), %xmm5
	movdqa	%xmm10, %xmm14
	pand	%xmm5, %xmm14
	punpckldq	%xmm3, %xmm14
	movdqa	%xmm12, %xmm1
	pmuludq	%xmm14, %xmm1
	pxor	%xmm0, %xmm1
	movdqa	%xmm10, %xmm0
	pand	.Lluossavin_x86_64.CPI15_0(%rip), %xmm0
	punpckldq	%xmm3, %xmm0
	movdqa	%xmm9, %xmm2
	pmuludq	%xmm0, %xmm2
	pand	.Lluossavin_x86_64.CPI15_3(%rip), %xmm10
	punpckldq	%xmm3, %xmm10
	movdqa	%xmm8, %xmm15
	pmuludq	%xmm10, %xmm15
	pxor	%xmm2, %xmm15
	pxor	%xmm1, %xmm15
	movdqa	%xmm8, %xmm1
	pmuludq	%xmm0, %xmm1
	movdqa	%xmm9, %xmm2
	pmuludq	%xmm11, %xmm2
	pxor	%xmm1, %xmm2
	movdqa	%xmm13, %xmm3
	pmuludq	%xmm14, %xmm3
	movdqa	%xmm12, %xmm1
	pmuludq	%xmm10, %xmm1
	pxor	%xmm3, %xmm1
	pxor	%xmm2, %xmm1
	movdqa	%xmm8, %xmm2
	pmuludq	%xmm11, %xmm2
	pmuludq	%xmm12, %xmm11
	pmuludq	%xmm0, %xmm12
	pmuludq	%xmm13, %xmm0
	pmuludq	%xmm10, %xmm13
	pmuludq	%xmm9, %xmm10
	pmuludq	%xmm14, %xmm9
	pxor	%xmm2, %xmm9
	pxor	%xmm12, %xmm13
	pxor	%xmm9, %xmm13
	pxor	%xmm0, %xmm11
	pmuludq	%xmm8, %xmm14
	pxor	%xmm14, %xmm10
	pxor	%xmm11, %xmm10
	pand	.Lluossavin_x86_64.CPI15_4(%rip), %xmm15
	pand	.Lluossavin_x86_64.CPI15_5(%rip), %xmm1
	pand	.Lluossavin_x86_64.CPI15_6(%rip), %xmm13
	por	%xmm1, %xmm13
	pand	.Lluossavin_x86_64.CPI15_7(%rip), %xmm10
	por	%xmm15, %xmm10
	por	%xmm13, %xmm10
	movd	64(%rdx), %xmm0
	movd	48(%rdx), %xmm14
	punpcklqdq	%xmm0, %xmm14
	movd	68(%rdx), %xmm0
	movd	52(%rdx), %xmm8
	punpcklqdq	%xmm0, %xmm8
	movd	72(%rdx), %xmm0
	movd	56(%rdx), %xmm6
	punpcklqdq	%xmm0, %xmm6
	movd	76(%rdx), %xmm1
	movd	60(%rdx), %xmm4
	punpcklqdq	%xmm1, %xmm4
	movdqa	%xmm7, %xmm15
	movdqa	.Lluossavin_x86_64.CPI15_1(%rip), %xmm11
	pand	%xmm11, %xmm15
	pxor	%xmm0, %xmm0
	punpckldq	%xmm0, %xmm15
	movdqa	%xmm4, %xmm1
	pmuludq	%xmm15, %xmm1
	movdqa	%xmm7, %xmm2
	movdqa	%xmm5, %xmm12
	pand	%xmm5, %xmm2
	punpckldq	%xmm0, %xmm2
	movdqa	%xmm6, %xmm3
	pmuludq	%xmm2, %xmm3
	pxor	%xmm1, %xmm3
	movdqa	%xmm7, %xmm5
	movdqa	.Lluossavin_x86_64.CPI15_0(%rip), %xmm1
	pand	%xmm1, %xmm5
	punpckldq	%xmm0, %xmm5
	movdqa	%xmm14, %xmm1
	pmuludq	%xmm5, %xmm1
	movdqa	.Lluossavin_x86_64.CPI15_3(%rip), %xmm9
	pand	%xmm9, %xmm7
	punpckldq	%xmm0, %xmm7
	pxor	%xmm9, %xmm9
	movdqa	%xmm8, %xmm13
	pmuludq	%xmm7, %xmm13
	pxor	%xmm1, %xmm13
	pxor	%xmm3, %xmm13
	movdqa	%xmm8, %xmm1
	pmuludq	%xmm5, %xmm1
	movdqa	%xmm14, %xmm3
	pmuludq	%xmm15, %xmm3
	pxor	%xmm1, %xmm3
	movdqa	%xmm4, %xmm0
	pmuludq	%xmm2, %xmm0
	movdqa	%xmm6, %xmm1
	pmuludq	%xmm7, %xmm1
	pxor	%xmm0, %xmm1
	pxor	%xmm3, %xmm1
	movdqa	%xmm8, %xmm0
	pmuludq	%xmm15, %xmm0
	pmuludq	%xmm6, %xmm15
	pmuludq	%xmm5, %xmm6
	pmuludq	%xmm4, %xmm5
	pmuludq	%xmm7, %xmm4
	pmuludq	%xmm14, %xmm7
	pmuludq	%xmm2, %xmm14
	pxor	%xmm0, %xmm14
	pxor	%xmm6, %xmm4
	pxor	%xmm14, %xmm4
	pxor	%xmm5, %xmm15
	pmuludq	%xmm8, %xmm2
	pxor	%xmm2, %xmm7
	pxor	%xmm15, %xmm7
	movdqa	.Lluossavin_x86_64.CPI15_4(%rip), %xmm0
	pand	%xmm0, %xmm13
	movdqa	.Lluossavin_x86_64.CPI15_5(%rip), %xmm0
	pand	%xmm0, %xmm1
	movdqa	.Lluossavin_x86_64.CPI15_6(%rip), %xmm0
	pand	%xmm0, %xmm4
	por	%xmm1, %xmm4
	movdqa	.Lluossavin_x86_64.CPI15_7(%rip), %xmm0
	pand	%xmm0, %xmm7
	por	%xmm13, %xmm7
	por	%xmm4, %xmm7
	movdqa	%xmm7, -24(%rsp)
	movd	96(%rdx), %xmm0
	movd	80(%rdx), %xmm14
	punpcklqdq	%xmm0, %xmm14
	movd	100(%rdx), %xmm0
	movd	84(%rdx), %xmm13
	punpcklqdq	%xmm0, %xmm13
	movd	104(%rdx), %xmm1
	movd	88(%rdx), %xmm0
	punpcklqdq	%xmm1, %xmm0
	movd	108(%rdx), %xmm2
	movd	92(%rdx), %xmm1
	punpcklqdq	%xmm2, %xmm1
	movdqa	-40(%rsp), %xmm8
	movdqa	%xmm8, %xmm15
	pand	%xmm11, %xmm15
	punpckldq	%xmm9, %xmm15
	movdqa	%xmm1, %xmm3
	pmuludq	%xmm15, %xmm3
	movdqa	%xmm8, %xmm2
	pand	%xmm12, %xmm2
	punpckldq	%xmm9, %xmm2
	movdqa	%xmm0, %xmm4
	pmuludq	%xmm2, %xmm4
	pxor	%xmm3, %xmm4
	movdqa	%xmm8, %xmm5
	movdqa	.Lluossavin_x86_64.CPI15_0(%rip), %xmm3
	pand	%xmm3, %xmm5
	punpckldq	%xmm9, %xmm5
	movdqa	%xmm14, %xmm6
	pmuludq	%xmm5, %xmm6
	movdqa	.Lluossavin_x86_64.CPI15_3(%rip), %xmm12
	pand	%xmm12, %xmm8
	punpckldq	%xmm9, %xmm8
	movdqa	%xmm13, %xmm3
	pmuludq	%xmm8, %xmm3
	movdqa	%xmm8, %xmm11
	pxor	%xmm6, %xmm3
	pxor	%xmm4, %xmm3
	movdqa	%xmm13, %xmm4
	pmuludq	%xmm5, %xmm4
	movdqa	%xmm14, %xmm6
	pmuludq	%xmm15, %xmm6
	pxor	%xmm4, %xmm6
	movdqa	%xmm1, %xmm7
	pmuludq	%xmm2, %xmm7
	movdqa	%xmm0, %xmm4
	pmuludq	%xmm8, %xmm4
	pxor	%xmm7, %xmm4
	pxor	%xmm6, %xmm4
	movdqa	%xmm13, %xmm6
	pmuludq	%xmm15, %xmm6
	pmuludq	%xmm0, %xmm15
	pmuludq	%xmm5, %xmm0
	pmuludq	%xmm1, %xmm5
	pmuludq	%xmm8, %xmm1
	pmuludq	%xmm14, %xmm11
	pmuludq	%xmm2, %xmm14
	pxor	%xmm6, %xmm14
	pxor	%xmm0, %xmm1
	pxor	%xmm14, %xmm1
	pxor	%xmm5, %xmm15
	pmuludq	%xmm13, %xmm2
	pxor	%xmm2, %xmm11
	pxor	%xmm15, %xmm11
	movdqa	.Lluossavin_x86_64.CPI15_4(%rip), %xmm0
	pand	%xmm0, %xmm3
	movdqa	.Lluossavin_x86_64.CPI15_5(%rip), %xmm0
	pand	%xmm0, %xmm4
	movdqa	.Lluossavin_x86_64.CPI15_6(%rip), %xmm0
	pand	%xmm0, %xmm1
	por	%xmm4, %xmm1
	movdqa	.Lluossavin_x86_64.CPI15_7(%rip), %xmm0
	pand	%xmm0, %xmm11
	por	%xmm3, %xmm11
	por	%xmm1, %xmm11
	movd	128(%rdx), %xmm0
	movd	112(%rdx), %xmm14
	punpcklqdq	%xmm0, %xmm14
	movd	132(%rdx), %xmm0
	movd	116(%rdx), %xmm13
	punpcklqdq	%xmm0, %xmm13
	movd	136(%rdx), %xmm1
	movd	120(%rdx), %xmm0
	punpcklqdq	%xmm1, %xmm0
	movd	140(%rdx), %xmm2
	movd	124(%rdx), %xmm1
	punpcklqdq	%xmm2, %xmm1
	movdqa	-56(%rsp), %xmm6
	movdqa	.Lluossavin_x86_64.CPI15_1(%rip), %xmm7
	pand	%xmm6, %xmm7
	punpckldq	%xmm9, %xmm7
	movdqa	%xmm1, %xmm2
	pmuludq	%xmm7, %xmm2
	movdqa	.Lluossavin_x86_64.CPI15_2(%rip), %xmm8
	pand	%xmm6, %xmm8
	punpckldq	%xmm9, %xmm8
	movdqa	%xmm0, %xmm3
	pmuludq	%xmm8, %xmm3
	pxor	%xmm2, %xmm3
	movdqa	.Lluossavin_x86_64.CPI15_0(%rip), %xmm15
	pand	%xmm6, %xmm15
	pand	%xmm12, %xmm6
	punpckldq	%xmm9, %xmm15
	punpckldq	%xmm9, %xmm6
	movdqa	%xmm14, %xmm4
	pmuludq	%xmm15, %xmm4
	movdqa	%xmm13, %xmm2
	pmuludq	%xmm6, %xmm2
	pxor	%xmm4, %xmm2
	pxor	%xmm3, %xmm2
	movdqa	%xmm13, %xmm3
	pmuludq	%xmm15, %xmm3
	movdqa	%xmm14, %xmm4
	pmuludq	%xmm7, %xmm4
	pxor	%xmm3, %xmm4
	movdqa	%xmm1, %xmm5
	pmuludq	%xmm8, %xmm5
	movdqa	%xmm0, %xmm3
	pmuludq	%xmm6, %xmm3
	pxor	%xmm5, %xmm3
	pxor	%xmm4, %xmm3
	movdqa	%xmm13, %xmm4
	pmuludq	%xmm7, %xmm4
	pmuludq	%xmm0, %xmm7
	pmuludq	%xmm15, %xmm0
	pmuludq	%xmm1, %xmm15
	pmuludq	%xmm6, %xmm1
	pmuludq	%xmm14, %xmm6
	pmuludq	%xmm8, %xmm14
	pxor	%xmm4, %xmm14
	pxor	%xmm0, %xmm1
	pxor	%xmm14, %xmm1
	pxor	%xmm15, %xmm7
	pmuludq	%xmm13, %xmm8
	pxor	%xmm8, %xmm6
	pxor	%xmm7, %xmm6
	pand	.Lluossavin_x86_64.CPI15_4(%rip), %xmm2
	pand	.Lluossavin_x86_64.CPI15_5(%rip), %xmm3
	pand	.Lluossavin_x86_64.CPI15_6(%rip), %xmm1
	por	%xmm3, %xmm1
	pand	.Lluossavin_x86_64.CPI15_7(%rip), %xmm6
	por	%xmm2, %xmm6
	por	%xmm1, %xmm6
	movq	%xmm10, %rdi
	pshufd	$238, %xmm10, %xmm0
	movq	%xmm0, -56(%rsp)
	movq	%rax, %rsi
	xorl	%ecx, %esi
	movl	144(%rdx), %r11d
	movl	148(%rdx), %r14d
	movl	152(%rdx), %r15d
	movl	156(%rdx), %eax
	movl	%esi, %ecx
	andl	$286331153, %ecx
	movq	%r11, %r10
	imulq	%rcx, %r10
	movl	%esi, %r9d
	andl	$572662306, %r9d
	movq	%rax, %rbx
	imulq	%r9, %rbx
	movl	%esi, %r8d
	andl	$1145324612, %r8d
	movq	%r15, %r13
	imulq	%r8, %r13
	xorq	%rbx, %r13
	andl	$-2004318072, %esi
	movq	%r14, %r12
	imulq	%rsi, %r12
	xorq	%r10, %r12
	xorq	%r13, %r12
	movq	%r14, %r10
	imulq	%rcx, %r10
	movq	%r11, %rbx
	imulq	%r9, %rbx
	xorq	%r10, %rbx
	movq	%rax, %r10
	imulq	%r8, %r10
	movq	%r15, %r13
	imulq	%rsi, %r13
	xorq	%r10, %r13
	xorq	%rbx, %r13
	movq	%r15, %r10
	imulq	%rcx, %r10
	movq	%r14, %rbx
	imulq	%r9, %rbx
	movq	%r11, %rbp
	imulq	%r8, %rbp
	xorq	%rbx, %rbp
	movq	%rax, %rdx
	imulq	%rsi, %rdx
	xorq	%r10, %rdx
	xorq	%rbp, %rdx
	movdqa	-24(%rsp), %xmm0
	movq	%xmm0, %rbx
	pshufd	$238, %xmm0, %xmm0
	movq	%xmm0, %r10
	imulq	%rcx, %rax
	imulq	%r9, %r15
	movq	%xmm11, %rcx
	pshufd	$238, %xmm11, %xmm0
	movq	%xmm0, %r9
	xorq	%rax, %r15
	imulq	%r8, %r14
	movq	%xmm6, %r8
	pshufd	$238, %xmm6, %xmm0
	movq	%xmm0, %rbp
	imulq	%rsi, %r11
	xorq	%r14, %r11
	xorq	%r15, %r11
	movabsq	$1229782938247303441, %rax
	andq	%r12, %rax
	movabsq	$2459565876494606882, %r14
	andq	%r13, %r14
	movabsq	$4919131752989213764, %r15
	andq	%rdx, %r15
	orq	%r14, %r15
	orq	%rax, %r15
	movabsq	$-8608480567731124088, %rax
	andq	%r11, %rax
	orq	%r15, %rax
	xorq	%rdi, %rbx
	movq	-56(%rsp), %rsi
	xorq	%rsi, %rbx
	xorq	%r8, %rax
	xorq	%rbp, %rax
	movq	%rbx, %rdx
	shldq	$32, %rax, %rdx
	xorl	%ebx, %eax
	shrq	$32, %rbx
	xorq	%rdi, %rbx
	xorq	%r10, %r9
	xorq	%rcx, %r9
	movq	%r9, %rdi
	shrq	$32, %rdi
	xorq	%r10, %rdi
	shlq	$32, %r9
	xorq	%rcx, %r9
	xorq	%rsi, %rdx
	xorq	%rdi, %rdx
	xorq	%rbx, %r8
	xorq	%rdx, %r8
	shlq	$32, %rax
	xorq	%rsi, %rax
	xorq	%rdi, %rax
	xorq	%r9, %rbp
	xorq	%rax, %rbp
	shldq	$1, %r8, %rbx
	shldq	$1, %rbp, %r8
	shldq	$1, %r9, %rbp
	leaq	(%r9,%r9), %rsi
	movabsq	$9223372036854775807, %rax
	andq	%r9, %rax
	movq	%rsi, %rdx
	shrq	$2, %rdx
	xorq	%rax, %rdx
	movq	%rsi, %rdi
	shrq	$7, %rdi
	xorq	%rdx, %rdi
	xorq	%r8, %rdi
	movq	%rcx, %rax
	shlq	$63, %rax
	shlq	$58, %rcx
	xorq	%rax, %rcx
	xorq	%rbp, %rcx
	movq	%rcx, %rdx
	shrq	%rdx
	xorq	%rbx, %rdx
	movq	%rcx, %r8
	shrq	$2, %r8
	movq	%rcx, %rax
	shrq	$7, %rax
	xorq	%r8, %rax
	xorq	%rdx, %rax
	movq	%rbp, %rdx
	shlq	$63, %rdx
	movq	%rbp, %r8
	shlq	$62, %r8
	xorq	%rdi, %r8
	shlq	$57, %rbp
	xorq	%rdx, %rbp
	xorq	%r8, %rbp
	xorq	%rcx, %rax
	xorq	%rsi, %rbp
	movq	%rbp, %rdx
	popq	%rbx
	popq	%r12
	popq	%r13
	popq	%r14
	popq	%r15
	popq	%rbp
	retq
.Lluossavin_x86_64.func_end15:
	.size	"field::times.x86_64", .Lluossavin_x86_64.func_end15-"field::times.x86_64"

	.section	.rodata.cst16,"aM",@progbits,16
	.p2align	4, 0x0
.Lluossavin_x86_64.CPI16_0:
	.long	286331153
	.long	286331153
	.zero	4
	.zero	4
.Lluossavin_x86_64.CPI16_1:
	.long	572662306
	.long	572662306
	.zero	4
	.zero	4
.Lluossavin_x86_64.CPI16_2:
	.long	1145324612
	.long	1145324612
	.zero	4
	.zero	4
.Lluossavin_x86_64.CPI16_3:
	.long	2290649224
	.long	2290649224
	.zero	4
	.zero	4
.Lluossavin_x86_64.CPI16_4:
	.zero	16,17
.Lluossavin_x86_64.CPI16_5:
	.zero	16,34
.Lluossavin_x86_64.CPI16_6:
	.zero	16,68
.Lluossavin_x86_64.CPI16_7:
	.zero	16,136
	.section	".text.carryless::many::products64.x86_64","ax",@progbits
	.p2align	4
	.type	"carryless::many::products64.x86_64",@function
"carryless::many::products64.x86_64":
	pushq	%rbp
	pushq	%r15
	pushq	%r14
	pushq	%r13
	pushq	%r12
	pushq	%rbx
	subq	$1320, %rsp
	movq	%rdx, %rbp
	movq	%rsi, (%rsp)
	xorps	%xmm0, %xmm0
	movaps	%xmm0, 1104(%rsp)
	movaps	%xmm0, 1088(%rsp)
	movaps	%xmm0, 1072(%rsp)
	movaps	%xmm0, 1056(%rsp)
	movaps	%xmm0, 992(%rsp)
	movaps	%xmm0, 1008(%rsp)
	movaps	%xmm0, 1024(%rsp)
	movaps	%xmm0, 1040(%rsp)
	movaps	%xmm0, 928(%rsp)
	movaps	%xmm0, 944(%rsp)
	movaps	%xmm0, 960(%rsp)
	movaps	%xmm0, 976(%rsp)
	movaps	%xmm0, 800(%rsp)
	movaps	%xmm0, 816(%rsp)
	movaps	%xmm0, 832(%rsp)
	movaps	%xmm0, 848(%rsp)
	movaps	%xmm0, 864(%rsp)
	movaps	%xmm0, 880(%rsp)
	movaps	%xmm0, 896(%rsp)
	movaps	%xmm0, 912(%rsp)
	movaps	%xmm0, 784(%rsp)
	movaps	%xmm0, 768(%rsp)
	movaps	%xmm0, 752(%rsp)
	movaps	%xmm0, 736(%rsp)
	movaps	%xmm0, 720(%rsp)
	movaps	%xmm0, 704(%rsp)
	movaps	%xmm0, 688(%rsp)
	movaps	%xmm0, 672(%rsp)
	movaps	%xmm0, 544(%rsp)
	movaps	%xmm0, 560(%rsp)
	movaps	%xmm0, 576(%rsp)
	movaps	%xmm0, 592(%rsp)
	movaps	%xmm0, 608(%rsp)
	movaps	%xmm0, 624(%rsp)
	movaps	%xmm0, 640(%rsp)
	movaps	%xmm0, 656(%rsp)
	movaps	%xmm0, 208(%rsp)
	movaps	%xmm0, 224(%rsp)
	movaps	%xmm0, 240(%rsp)
	movaps	%xmm0, 256(%rsp)
	movaps	%xmm0, 272(%rsp)
	movaps	%xmm0, 288(%rsp)
	movaps	%xmm0, 304(%rsp)
	movaps	%xmm0, 320(%rsp)
	movaps	%xmm0, 480(%rsp)
	movaps	%xmm0, 496(%rsp)
	movaps	%xmm0, 512(%rsp)
	movaps	%xmm0, 528(%rsp)
	movaps	%xmm0, 416(%rsp)
	movaps	%xmm0, 432(%rsp)
	movaps	%xmm0, 448(%rsp)
	movaps	%xmm0, 464(%rsp)
	movaps	%xmm0, 352(%rsp)
	movaps	%xmm0, 368(%rsp)
	movaps	%xmm0, 384(%rsp)
	movaps	%xmm0, 400(%rsp)
	movl	%ebp, %eax
	andl	$28, %eax
	movdqu	(%rdi), %xmm0
	movdqu	16(%rdi), %xmm1
	pshufd	$232, %xmm0, %xmm2
	psrlq	$32, %xmm0
	pshufd	$232, %xmm1, %xmm3
	psrlq	$32, %xmm1
	pshufd	$232, %xmm0, %xmm0
	pshufd	$232, %xmm1, %xmm1
	movdqa	%xmm0, %xmm4
	pxor	%xmm2, %xmm4
	punpcklqdq	%xmm1, %xmm0
	pxor	%xmm3, %xmm1
	punpcklqdq	%xmm1, %xmm4
	movdqa	%xmm0, 480(%rsp)
	punpcklqdq	%xmm3, %xmm2
	movdqa	%xmm2, 416(%rsp)
	movdqa	%xmm4, 352(%rsp)
	cmpq	$4, %rax
	je	.Lluossavin_x86_64.BB16_4
	movdqu	32(%rdi), %xmm0
	movdqu	48(%rdi), %xmm1
	pshufd	$232, %xmm0, %xmm2
	psrlq	$32, %xmm0
	pshufd	$232, %xmm1, %xmm3
	psrlq	$32, %xmm1
	pshufd	$232, %xmm0, %xmm0
	pshufd	$232, %xmm1, %xmm1
	movdqa	%xmm0, %xmm4
	pxor	%xmm2, %xmm4
	punpcklqdq	%xmm1, %xmm0
	pxor	%xmm3, %xmm1
	punpcklqdq	%xmm1, %xmm4
	movdqa	%xmm0, 496(%rsp)
	punpcklqdq	%xmm3, %xmm2
	movdqa	%xmm2, 432(%rsp)
	movdqa	%xmm4, 368(%rsp)
	cmpl	$8, %eax
	je	.Lluossavin_x86_64.BB16_4
	movdqu	64(%rdi), %xmm0
	movdqu	80(%rdi), %xmm1
	pshufd	$232, %xmm0, %xmm2
	psrlq	$32, %xmm0
	pshufd	$232, %xmm1, %xmm3
	psrlq	$32, %xmm1
	pshufd	$232, %xmm0, %xmm0
	pshufd	$232, %xmm1, %xmm1
	movdqa	%xmm0, %xmm4
	pxor	%xmm2, %xmm4
	punpcklqdq	%xmm1, %xmm0
	pxor	%xmm3, %xmm1
	punpcklqdq	%xmm1, %xmm4
	movdqa	%xmm0, 512(%rsp)
	punpcklqdq	%xmm3, %xmm2
	movdqa	%xmm2, 448(%rsp)
	movdqa	%xmm4, 384(%rsp)
	cmpl	$12, %eax
	je	.Lluossavin_x86_64.BB16_4
	movdqu	96(%rdi), %xmm0
	movdqu	112(%rdi), %xmm1
	pshufd	$232, %xmm0, %xmm2
	psrlq	$32, %xmm0
	pshufd	$232, %xmm1, %xmm3
	psrlq	$32, %xmm1
	pshufd	$232, %xmm0, %xmm0
	pshufd	$232, %xmm1, %xmm1
	movdqa	%xmm0, %xmm4
	pxor	%xmm2, %xmm4
	punpcklqdq	%xmm1, %xmm0
	pxor	%xmm3, %xmm1
	punpcklqdq	%xmm1, %xmm4
	movdqa	%xmm0, 528(%rsp)
	punpcklqdq	%xmm3, %xmm2
	movdqa	%xmm2, 464(%rsp)
	movdqa	%xmm4, 400(%rsp)
.Lluossavin_x86_64.BB16_4:
	movq	%rcx, 344(%rsp)
	cmpq	%rax, %rbp
	je	.Lluossavin_x86_64.BB16_7
	.p2align	4
.Lluossavin_x86_64.BB16_5:
	movq	(%rdi,%rax,8), %rcx
	movq	%rcx, %rdx
	shrq	$32, %rdx
	movl	%edx, 480(%rsp,%rax,4)
	xorl	%ecx, %edx
	movl	%ecx, 416(%rsp,%rax,4)
	movl	%edx, 352(%rsp,%rax,4)
	incq	%rax
	cmpq	%rax, %rbp
	jne	.Lluossavin_x86_64.BB16_5
.Lluossavin_x86_64.BB16_7:
	movaps	480(%rsp), %xmm0
	movaps	496(%rsp), %xmm1
	movaps	512(%rsp), %xmm2
	movaps	528(%rsp), %xmm3
	movaps	%xmm3, 64(%rsp)
	movaps	%xmm2, 48(%rsp)
	movaps	%xmm1, 32(%rsp)
	movaps	%xmm0, 16(%rsp)
	movaps	416(%rsp), %xmm0
	movaps	432(%rsp), %xmm1
	movaps	448(%rsp), %xmm2
	movaps	464(%rsp), %xmm3
	movaps	%xmm0, 80(%rsp)
	movaps	%xmm1, 96(%rsp)
	movaps	%xmm2, 112(%rsp)
	movaps	%xmm3, 128(%rsp)
	movaps	352(%rsp), %xmm0
	movaps	368(%rsp), %xmm1
	movaps	384(%rsp), %xmm2
	movaps	400(%rsp), %xmm3
	movaps	%xmm0, 144(%rsp)
	movaps	%xmm1, 160(%rsp)
	movaps	%xmm2, 176(%rsp)
	movaps	%xmm3, 192(%rsp)
	leaq	1128(%rsp), %rdi
	leaq	16(%rsp), %rsi
	movl	$192, %edx
	callq	memcpy@PLT
	movups	1128(%rsp), %xmm0
	movups	1144(%rsp), %xmm1
	movups	1160(%rsp), %xmm2
	movups	1176(%rsp), %xmm3
	movaps	%xmm0, 1056(%rsp)
	movaps	%xmm1, 1072(%rsp)
	movaps	%xmm2, 1088(%rsp)
	movaps	%xmm3, 1104(%rsp)
	movups	1192(%rsp), %xmm0
	movaps	%xmm0, 992(%rsp)
	movups	1208(%rsp), %xmm0
	movaps	%xmm0, 1008(%rsp)
	movups	1224(%rsp), %xmm0
	movaps	%xmm0, 1024(%rsp)
	movups	1240(%rsp), %xmm0
	movaps	%xmm0, 1040(%rsp)
	movdqu	1256(%rsp), %xmm0
	movups	1272(%rsp), %xmm1
	movups	1288(%rsp), %xmm2
	movups	1304(%rsp), %xmm3
	movaps	%xmm3, 976(%rsp)
	movaps	%xmm2, 960(%rsp)
	movaps	%xmm1, 944(%rsp)
	movdqa	%xmm0, 928(%rsp)
	movq	(%rsp), %rax
	movl	(%rax), %r8d
	movl	4(%rax), %r9d
	movl	8(%rax), %r10d
	movl	12(%rax), %r11d
	pxor	%xmm0, %xmm0
	movdqa	%xmm0, 128(%rsp)
	movdqa	%xmm0, 112(%rsp)
	movdqa	%xmm0, 96(%rsp)
	movdqa	%xmm0, 80(%rsp)
	movdqa	%xmm0, 64(%rsp)
	movdqa	%xmm0, 48(%rsp)
	movdqa	%xmm0, 32(%rsp)
	movdqa	%xmm0, 16(%rsp)
	movl	%ebp, %r12d
	andl	$30, %r12d
	movq	%r8, %xmm1
	pshufd	$68, %xmm1, %xmm1
	movq	%r11, %xmm2
	pshufd	$68, %xmm2, %xmm2
	movq	%r10, %xmm3
	pshufd	$68, %xmm3, %xmm3
	movq	%r9, %xmm4
	pshufd	$68, %xmm4, %xmm4
	leaq	(,%rbp,2), %rax
	andq	$-4, %rax
	xorl	%ecx, %ecx
	.p2align	4
.Lluossavin_x86_64.BB16_8:
	movq	1056(%rsp,%rcx,2), %xmm5
	movdqa	.Lluossavin_x86_64.CPI16_0(%rip), %xmm7
	pand	%xmm5, %xmm7
	punpckldq	%xmm0, %xmm7
	movdqa	%xmm1, %xmm10
	pmuludq	%xmm7, %xmm10
	movdqa	.Lluossavin_x86_64.CPI16_1(%rip), %xmm6
	pand	%xmm5, %xmm6
	punpckldq	%xmm0, %xmm6
	movdqa	%xmm2, %xmm8
	pmuludq	%xmm6, %xmm8
	movdqa	.Lluossavin_x86_64.CPI16_2(%rip), %xmm9
	pand	%xmm5, %xmm9
	punpckldq	%xmm0, %xmm9
	movdqa	%xmm3, %xmm11
	pmuludq	%xmm9, %xmm11
	pxor	%xmm8, %xmm11
	pand	.Lluossavin_x86_64.CPI16_3(%rip), %xmm5
	punpckldq	%xmm0, %xmm5
	movdqa	%xmm4, %xmm8
	pmuludq	%xmm5, %xmm8
	pxor	%xmm10, %xmm8
	pxor	%xmm11, %xmm8
	movdqa	%xmm4, %xmm10
	pmuludq	%xmm7, %xmm10
	movdqa	%xmm1, %xmm11
	pmuludq	%xmm6, %xmm11
	pxor	%xmm10, %xmm11
	movdqa	%xmm2, %xmm12
	pmuludq	%xmm9, %xmm12
	movdqa	%xmm3, %xmm10
	pmuludq	%xmm5, %xmm10
	pxor	%xmm12, %xmm10
	pxor	%xmm11, %xmm10
	movdqa	%xmm3, %xmm12
	pmuludq	%xmm7, %xmm12
	movdqa	%xmm4, %xmm11
	pmuludq	%xmm6, %xmm11
	movdqa	%xmm1, %xmm13
	pmuludq	%xmm9, %xmm13
	pxor	%xmm11, %xmm13
	movdqa	%xmm2, %xmm11
	pmuludq	%xmm5, %xmm11
	pxor	%xmm12, %xmm11
	pxor	%xmm13, %xmm11
	pmuludq	%xmm2, %xmm7
	pmuludq	%xmm3, %xmm6
	pxor	%xmm7, %xmm6
	pmuludq	%xmm4, %xmm9
	pmuludq	%xmm1, %xmm5
	pxor	%xmm9, %xmm5
	pxor	%xmm6, %xmm5
	pand	.Lluossavin_x86_64.CPI16_4(%rip), %xmm8
	pand	.Lluossavin_x86_64.CPI16_5(%rip), %xmm10
	pand	.Lluossavin_x86_64.CPI16_6(%rip), %xmm11
	por	%xmm10, %xmm11
	pand	.Lluossavin_x86_64.CPI16_7(%rip), %xmm5
	por	%xmm8, %xmm5
	por	%xmm11, %xmm5
	movdqu	%xmm5, 16(%rsp,%rcx,4)
	addq	$4, %rcx
	cmpq	%rcx, %rax
	jne	.Lluossavin_x86_64.BB16_8
	cmpq	%r12, %rbp
	movq	%rbp, 8(%rsp)
	je	.Lluossavin_x86_64.BB16_11
	.p2align	4
.Lluossavin_x86_64.BB16_10:
	movl	1056(%rsp,%r12,4), %r15d
	movl	%r15d, %ebx
	andl	$286331153, %ebx
	movq	%rbx, %rdx
	imulq	%r8, %rdx
	movl	%r15d, %ebp
	andl	$572662306, %ebp
	movq	%rbp, %rsi
	imulq	%r11, %rsi
	movl	%r15d, %r14d
	andl	$1145324612, %r14d
	movq	%r14, %r13
	imulq	%r10, %r13
	xorq	%rsi, %r13
	andl	$-2004318072, %r15d
	movq	%r15, %rsi
	imulq	%r9, %rsi
	xorq	%rdx, %rsi
	xorq	%r13, %rsi
	movq	%rbx, %rdx
	imulq	%r9, %rdx
	movq	%rbp, %r13
	imulq	%r8, %r13
	xorq	%rdx, %r13
	movq	%r14, %rcx
	imulq	%r11, %rcx
	movq	%r15, %rdx
	imulq	%r10, %rdx
	xorq	%rcx, %rdx
	xorq	%r13, %rdx
	movq	%rbx, %rcx
	imulq	%r10, %rcx
	movq	%rbp, %r13
	imulq	%r9, %r13
	movq	%r14, %rdi
	imulq	%r8, %rdi
	xorq	%r13, %rdi
	movq	%r15, %r13
	imulq	%r11, %r13
	xorq	%rcx, %r13
	xorq	%rdi, %r13
	imulq	%r11, %rbx
	imulq	%r10, %rbp
	xorq	%rbx, %rbp
	imulq	%r9, %r14
	imulq	%r8, %r15
	xorq	%r14, %r15
	xorq	%rbp, %r15
	movq	8(%rsp), %rbp
	movabsq	$2459565876494606882, %rcx
	andq	%rcx, %rdx
	movabsq	$4919131752989213764, %rcx
	andq	%rcx, %r13
	orq	%rdx, %r13
	movabsq	$1229782938247303441, %rcx
	andq	%rcx, %rsi
	movabsq	$-8608480567731124088, %rcx
	andq	%rcx, %r15
	orq	%rsi, %r15
	orq	%r13, %r15
	movq	%r15, 16(%rsp,%r12,8)
	incq	%r12
	cmpq	%r12, %rbp
	jne	.Lluossavin_x86_64.BB16_10
.Lluossavin_x86_64.BB16_11:
	movdqa	128(%rsp), %xmm0
	movdqa	%xmm0, 320(%rsp)
	movaps	112(%rsp), %xmm1
	movaps	%xmm1, 304(%rsp)
	movaps	96(%rsp), %xmm2
	movaps	%xmm2, 288(%rsp)
	movaps	80(%rsp), %xmm3
	movaps	%xmm3, 272(%rsp)
	movaps	16(%rsp), %xmm4
	movdqa	32(%rsp), %xmm5
	movdqa	48(%rsp), %xmm6
	movdqa	64(%rsp), %xmm7
	movdqa	%xmm7, 256(%rsp)
	movdqa	%xmm6, 240(%rsp)
	movdqa	%xmm5, 224(%rsp)
	movaps	%xmm4, 208(%rsp)
	movaps	%xmm4, 800(%rsp)
	movdqa	%xmm5, 816(%rsp)
	movdqa	%xmm6, 832(%rsp)
	movdqa	%xmm7, 848(%rsp)
	movaps	%xmm3, 864(%rsp)
	movaps	%xmm2, 880(%rsp)
	movaps	%xmm1, 896(%rsp)
	movdqa	%xmm0, 912(%rsp)
	movq	(%rsp), %rcx
	movl	16(%rcx), %r8d
	movl	20(%rcx), %r9d
	movl	24(%rcx), %r10d
	movl	28(%rcx), %r11d
	pxor	%xmm0, %xmm0
	movdqa	%xmm0, 128(%rsp)
	movdqa	%xmm0, 112(%rsp)
	movdqa	%xmm0, 96(%rsp)
	movdqa	%xmm0, 80(%rsp)
	movdqa	%xmm0, 64(%rsp)
	movdqa	%xmm0, 48(%rsp)
	movdqa	%xmm0, 32(%rsp)
	movdqa	%xmm0, 16(%rsp)
	movl	%ebp, %r12d
	andl	$30, %r12d
	movq	%r8, %xmm1
	pshufd	$68, %xmm1, %xmm1
	movq	%r11, %xmm2
	pshufd	$68, %xmm2, %xmm2
	movq	%r10, %xmm3
	pshufd	$68, %xmm3, %xmm3
	movq	%r9, %xmm4
	pshufd	$68, %xmm4, %xmm4
	xorl	%r13d, %r13d
	.p2align	4
.Lluossavin_x86_64.BB16_12:
	movq	992(%rsp,%r13,2), %xmm5
	movdqa	.Lluossavin_x86_64.CPI16_0(%rip), %xmm7
	pand	%xmm5, %xmm7
	punpckldq	%xmm0, %xmm7
	movdqa	%xmm1, %xmm10
	pmuludq	%xmm7, %xmm10
	movdqa	.Lluossavin_x86_64.CPI16_1(%rip), %xmm6
	pand	%xmm5, %xmm6
	punpckldq	%xmm0, %xmm6
	movdqa	%xmm2, %xmm8
	pmuludq	%xmm6, %xmm8
	movdqa	.Lluossavin_x86_64.CPI16_2(%rip), %xmm9
	pand	%xmm5, %xmm9
	punpckldq	%xmm0, %xmm9
	movdqa	%xmm3, %xmm11
	pmuludq	%xmm9, %xmm11
	pxor	%xmm8, %xmm11
	pand	.Lluossavin_x86_64.CPI16_3(%rip), %xmm5
	punpckldq	%xmm0, %xmm5
	movdqa	%xmm4, %xmm8
	pmuludq	%xmm5, %xmm8
	pxor	%xmm10, %xmm8
	pxor	%xmm11, %xmm8
	movdqa	%xmm4, %xmm10
	pmuludq	%xmm7, %xmm10
	movdqa	%xmm1, %xmm11
	pmuludq	%xmm6, %xmm11
	pxor	%xmm10, %xmm11
	movdqa	%xmm2, %xmm12
	pmuludq	%xmm9, %xmm12
	movdqa	%xmm3, %xmm10
	pmuludq	%xmm5, %xmm10
	pxor	%xmm12, %xmm10
	pxor	%xmm11, %xmm10
	movdqa	%xmm3, %xmm12
	pmuludq	%xmm7, %xmm12
	movdqa	%xmm4, %xmm11
	pmuludq	%xmm6, %xmm11
	movdqa	%xmm1, %xmm13
	pmuludq	%xmm9, %xmm13
	pxor	%xmm11, %xmm13
	movdqa	%xmm2, %xmm11
	pmuludq	%xmm5, %xmm11
	pxor	%xmm12, %xmm11
	pxor	%xmm13, %xmm11
	pmuludq	%xmm2, %xmm7
	pmuludq	%xmm3, %xmm6
	pxor	%xmm7, %xmm6
	pmuludq	%xmm4, %xmm9
	pmuludq	%xmm1, %xmm5
	pxor	%xmm9, %xmm5
	pxor	%xmm6, %xmm5
	pand	.Lluossavin_x86_64.CPI16_4(%rip), %xmm8
	pand	.Lluossavin_x86_64.CPI16_5(%rip), %xmm10
	pand	.Lluossavin_x86_64.CPI16_6(%rip), %xmm11
	por	%xmm10, %xmm11
	pand	.Lluossavin_x86_64.CPI16_7(%rip), %xmm5
	por	%xmm8, %xmm5
	por	%xmm11, %xmm5
	movdqu	%xmm5, 16(%rsp,%r13,4)
	addq	$4, %r13
	cmpq	%r13, %rax
	jne	.Lluossavin_x86_64.BB16_12
	jmp	.Lluossavin_x86_64.BB16_14
	.p2align	4
.Lluossavin_x86_64.BB16_13:
	movl	992(%rsp,%r12,4), %r13d
	movl	%r13d, %ebx
	andl	$286331153, %ebx
	movq	%rbx, %rdx
	imulq	%r8, %rdx
	movl	%r13d, %ebp
	andl	$572662306, %ebp
	movq	%rbp, %rsi
	imulq	%r11, %rsi
	movl	%r13d, %ecx
	andl	$1145324612, %ecx
	movq	%rcx, %rdi
	imulq	%r10, %rdi
	xorq	%rsi, %rdi
	andl	$-2004318072, %r13d
	movq	%r13, %r15
	imulq	%r9, %r15
	xorq	%rdx, %r15
	xorq	%rdi, %r15
	movq	%rbx, %rdx
	imulq	%r9, %rdx
	movq	%rbp, %rsi
	imulq	%r8, %rsi
	xorq	%rdx, %rsi
	movq	%rcx, %rdi
	imulq	%r11, %rdi
	movq	%r13, %rdx
	imulq	%r10, %rdx
	xorq	%rdi, %rdx
	xorq	%rsi, %rdx
	movq	%rbx, %rdi
	imulq	%r10, %rdi
	movq	%rbp, %rsi
	imulq	%r9, %rsi
	movq	%rcx, %r14
	imulq	%r8, %r14
	xorq	%rsi, %r14
	movq	%r13, %rsi
	imulq	%r11, %rsi
	xorq	%rdi, %rsi
	xorq	%r14, %rsi
	imulq	%r11, %rbx
	imulq	%r10, %rbp
	xorq	%rbx, %rbp
	imulq	%r9, %rcx
	imulq	%r8, %r13
	xorq	%rcx, %r13
	xorq	%rbp, %r13
	movq	8(%rsp), %rbp
	movabsq	$2459565876494606882, %rcx
	andq	%rcx, %rdx
	movabsq	$4919131752989213764, %rcx
	andq	%rcx, %rsi
	orq	%rdx, %rsi
	movabsq	$1229782938247303441, %rcx
	andq	%rcx, %r15
	movabsq	$-8608480567731124088, %rcx
	andq	%rcx, %r13
	orq	%r15, %r13
	orq	%rsi, %r13
	movq	%r13, 16(%rsp,%r12,8)
	incq	%r12
.Lluossavin_x86_64.BB16_14:
	cmpq	%r12, %rbp
	jne	.Lluossavin_x86_64.BB16_13
	movdqa	128(%rsp), %xmm0
	movdqa	%xmm0, 320(%rsp)
	movaps	112(%rsp), %xmm1
	movaps	%xmm1, 304(%rsp)
	movaps	96(%rsp), %xmm2
	movaps	%xmm2, 288(%rsp)
	movaps	80(%rsp), %xmm3
	movaps	%xmm3, 272(%rsp)
	movaps	16(%rsp), %xmm4
	movdqa	32(%rsp), %xmm5
	movdqa	48(%rsp), %xmm6
	movdqa	64(%rsp), %xmm7
	movdqa	%xmm7, 256(%rsp)
	movdqa	%xmm6, 240(%rsp)
	movdqa	%xmm5, 224(%rsp)
	movaps	%xmm4, 208(%rsp)
	movaps	%xmm4, 672(%rsp)
	movdqa	%xmm5, 688(%rsp)
	movdqa	%xmm6, 704(%rsp)
	movdqa	%xmm7, 720(%rsp)
	movaps	%xmm3, 736(%rsp)
	movaps	%xmm2, 752(%rsp)
	movaps	%xmm1, 768(%rsp)
	movdqa	%xmm0, 784(%rsp)
	movq	(%rsp), %rcx
	movl	32(%rcx), %r8d
	movl	36(%rcx), %r9d
	movl	40(%rcx), %r10d
	movl	44(%rcx), %r11d
	pxor	%xmm0, %xmm0
	movdqa	%xmm0, 128(%rsp)
	movdqa	%xmm0, 112(%rsp)
	movdqa	%xmm0, 96(%rsp)
	movdqa	%xmm0, 80(%rsp)
	movdqa	%xmm0, 64(%rsp)
	movdqa	%xmm0, 48(%rsp)
	movdqa	%xmm0, 32(%rsp)
	movdqa	%xmm0, 16(%rsp)
	movl	%ebp, %r15d
	andl	$30, %r15d
	movq	%r8, %xmm1
	pshufd	$68, %xmm1, %xmm1
	movq	%r11, %xmm2
	pshufd	$68, %xmm2, %xmm2
	movq	%r10, %xmm3
	pshufd	$68, %xmm3, %xmm3
	movq	%r9, %xmm4
	pshufd	$68, %xmm4, %xmm4
	xorl	%r12d, %r12d
	.p2align	4
.Lluossavin_x86_64.BB16_16:
	movq	928(%rsp,%r12,2), %xmm5
	movdqa	.Lluossavin_x86_64.CPI16_0(%rip), %xmm7
	pand	%xmm5, %xmm7
	punpckldq	%xmm0, %xmm7
	movdqa	%xmm1, %xmm10
	pmuludq	%xmm7, %xmm10
	movdqa	.Lluossavin_x86_64.CPI16_1(%rip), %xmm6
	pand	%xmm5, %xmm6
	punpckldq	%xmm0, %xmm6
	movdqa	%xmm2, %xmm8
	pmuludq	%xmm6, %xmm8
	movdqa	.Lluossavin_x86_64.CPI16_2(%rip), %xmm9
	pand	%xmm5, %xmm9
	punpckldq	%xmm0, %xmm9
	movdqa	%xmm3, %xmm11
	pmuludq	%xmm9, %xmm11
	pxor	%xmm8, %xmm11
	pand	.Lluossavin_x86_64.CPI16_3(%rip), %xmm5
	punpckldq	%xmm0, %xmm5
	movdqa	%xmm4, %xmm8
	pmuludq	%xmm5, %xmm8
	pxor	%xmm10, %xmm8
	pxor	%xmm11, %xmm8
	movdqa	%xmm4, %xmm10
	pmuludq	%xmm7, %xmm10
	movdqa	%xmm1, %xmm11
	pmuludq	%xmm6, %xmm11
	pxor	%xmm10, %xmm11
	movdqa	%xmm2, %xmm12
	pmuludq	%xmm9, %xmm12
	movdqa	%xmm3, %xmm10
	pmuludq	%xmm5, %xmm10
	pxor	%xmm12, %xmm10
	pxor	%xmm11, %xmm10
	movdqa	%xmm3, %xmm12
	pmuludq	%xmm7, %xmm12
	movdqa	%xmm4, %xmm11
	pmuludq	%xmm6, %xmm11
	movdqa	%xmm1, %xmm13
	pmuludq	%xmm9, %xmm13
	pxor	%xmm11, %xmm13
	movdqa	%xmm2, %xmm11
	pmuludq	%xmm5, %xmm11
	pxor	%xmm12, %xmm11
	pxor	%xmm13, %xmm11
	pmuludq	%xmm2, %xmm7
	pmuludq	%xmm3, %xmm6
	pxor	%xmm7, %xmm6
	pmuludq	%xmm4, %xmm9
	pmuludq	%xmm1, %xmm5
	pxor	%xmm9, %xmm5
	pxor	%xmm6, %xmm5
	pand	.Lluossavin_x86_64.CPI16_4(%rip), %xmm8
	pand	.Lluossavin_x86_64.CPI16_5(%rip), %xmm10
	pand	.Lluossavin_x86_64.CPI16_6(%rip), %xmm11
	por	%xmm10, %xmm11
	pand	.Lluossavin_x86_64.CPI16_7(%rip), %xmm5
	por	%xmm8, %xmm5
	por	%xmm11, %xmm5
	movdqu	%xmm5, 16(%rsp,%r12,4)
	addq	$4, %r12
	cmpq	%r12, %rax
	jne	.Lluossavin_x86_64.BB16_16
	jmp	.Lluossavin_x86_64.BB16_18
	.p2align	4
.Lluossavin_x86_64.BB16_17:
	movl	928(%rsp,%r15,4), %eax
	movl	%eax, %ebx
	andl	$286331153, %ebx
	movq	%rbx, %rdx
	imulq	%r8, %rdx
	movl	%eax, %r12d
	andl	$572662306, %r12d
	movq	%r12, %rsi
	imulq	%r11, %rsi
	movl	%eax, %ecx
	andl	$1145324612, %ecx
	movq	%rcx, %rdi
	imulq	%r10, %rdi
	xorq	%rsi, %rdi
	andl	$-2004318072, %eax
	movq	%rax, %r13
	imulq	%r9, %r13
	xorq	%rdx, %r13
	xorq	%rdi, %r13
	movq	%rbx, %rdx
	imulq	%r9, %rdx
	movq	%r12, %rsi
	imulq	%r8, %rsi
	xorq	%rdx, %rsi
	movq	%rcx, %rdi
	imulq	%r11, %rdi
	movq	%rax, %rdx
	imulq	%r10, %rdx
	xorq	%rdi, %rdx
	xorq	%rsi, %rdx
	movq	%rbx, %rdi
	imulq	%r10, %rdi
	movq	%r12, %rsi
	imulq	%r9, %rsi
	movq	%rcx, %r14
	imulq	%r8, %r14
	xorq	%rsi, %r14
	movq	%rax, %rsi
	imulq	%r11, %rsi
	xorq	%rdi, %rsi
	xorq	%r14, %rsi
	imulq	%r11, %rbx
	imulq	%r10, %r12
	xorq	%rbx, %r12
	imulq	%r9, %rcx
	imulq	%r8, %rax
	xorq	%rcx, %rax
	xorq	%r12, %rax
	movabsq	$2459565876494606882, %rcx
	andq	%rcx, %rdx
	movabsq	$4919131752989213764, %rcx
	andq	%rcx, %rsi
	orq	%rdx, %rsi
	movabsq	$1229782938247303441, %rcx
	andq	%rcx, %r13
	movabsq	$-8608480567731124088, %rcx
	andq	%rcx, %rax
	orq	%r13, %rax
	orq	%rsi, %rax
	movq	%rax, 16(%rsp,%r15,8)
	incq	%r15
.Lluossavin_x86_64.BB16_18:
	cmpq	%r15, %rbp
	jne	.Lluossavin_x86_64.BB16_17
	movaps	128(%rsp), %xmm0
	movaps	%xmm0, 320(%rsp)
	movaps	112(%rsp), %xmm1
	movaps	%xmm1, 304(%rsp)
	movaps	96(%rsp), %xmm2
	movaps	%xmm2, 288(%rsp)
	movaps	80(%rsp), %xmm3
	movaps	%xmm3, 272(%rsp)
	movaps	16(%rsp), %xmm4
	movaps	32(%rsp), %xmm5
	movaps	48(%rsp), %xmm6
	movaps	64(%rsp), %xmm7
	movaps	%xmm7, 256(%rsp)
	movaps	%xmm6, 240(%rsp)
	movaps	%xmm5, 224(%rsp)
	movaps	%xmm4, 208(%rsp)
	movaps	%xmm4, 544(%rsp)
	movaps	%xmm5, 560(%rsp)
	movaps	%xmm6, 576(%rsp)
	movaps	%xmm7, 592(%rsp)
	movaps	%xmm3, 608(%rsp)
	movaps	%xmm2, 624(%rsp)
	movaps	%xmm1, 640(%rsp)
	movaps	%xmm0, 656(%rsp)
	movl	%ebp, %eax
	andl	$30, %eax
	movdqa	800(%rsp), %xmm0
	movdqa	672(%rsp), %xmm1
	movdqa	544(%rsp), %xmm2
	pxor	%xmm0, %xmm2
	pxor	%xmm1, %xmm2
	movdqa	%xmm2, %xmm3
	psrlq	$32, %xmm3
	pxor	%xmm0, %xmm3
	psllq	$32, %xmm2
	pxor	%xmm1, %xmm2
	movq	344(%rsp), %r8
	movdqu	%xmm3, (%r8)
	movdqu	%xmm2, 128(%r8)
	cmpq	$2, %rax
	je	.Lluossavin_x86_64.BB16_28
	movdqa	816(%rsp), %xmm0
	movdqa	688(%rsp), %xmm1
	movdqa	560(%rsp), %xmm2
	pxor	%xmm0, %xmm2
	pxor	%xmm1, %xmm2
	movdqa	%xmm2, %xmm3
	psrlq	$32, %xmm3
	pxor	%xmm0, %xmm3
	psllq	$32, %xmm2
	pxor	%xmm1, %xmm2
	movdqu	%xmm3, 16(%r8)
	movdqu	%xmm2, 144(%r8)
	cmpl	$4, %eax
	je	.Lluossavin_x86_64.BB16_28
	movdqa	832(%rsp), %xmm0
	movdqa	704(%rsp), %xmm1
	movdqa	576(%rsp), %xmm2
	pxor	%xmm0, %xmm2
	pxor	%xmm1, %xmm2
	movdqa	%xmm2, %xmm3
	psrlq	$32, %xmm3
	pxor	%xmm0, %xmm3
	psllq	$32, %xmm2
	pxor	%xmm1, %xmm2
	movdqu	%xmm3, 32(%r8)
	movdqu	%xmm2, 160(%r8)
	cmpl	$6, %eax
	je	.Lluossavin_x86_64.BB16_28
	movdqa	848(%rsp), %xmm0
	movdqa	720(%rsp), %xmm1
	movdqa	592(%rsp), %xmm2
	pxor	%xmm0, %xmm2
	pxor	%xmm1, %xmm2
	movdqa	%xmm2, %xmm3
	psrlq	$32, %xmm3
	pxor	%xmm0, %xmm3
	psllq	$32, %xmm2
	pxor	%xmm1, %xmm2
	movdqu	%xmm3, 48(%r8)
	movdqu	%xmm2, 176(%r8)
	cmpl	$8, %eax
	je	.Lluossavin_x86_64.BB16_28
	movdqa	864(%rsp), %xmm0
	movdqa	736(%rsp), %xmm1
	movdqa	608(%rsp), %xmm2
	pxor	%xmm0, %xmm2
	pxor	%xmm1, %xmm2
	movdqa	%xmm2, %xmm3
	psrlq	$32, %xmm3
	pxor	%xmm0, %xmm3
	psllq	$32, %xmm2
	pxor	%xmm1, %xmm2
	movdqu	%xmm3, 64(%r8)
	movdqu	%xmm2, 192(%r8)
	cmpl	$10, %eax
	je	.Lluossavin_x86_64.BB16_28
	movdqa	880(%rsp), %xmm0
	movdqa	752(%rsp), %xmm1
	movdqa	624(%rsp), %xmm2
	pxor	%xmm0, %xmm2
	pxor	%xmm1, %xmm2
	movdqa	%xmm2, %xmm3
	psrlq	$32, %xmm3
	pxor	%xmm0, %xmm3
	psllq	$32, %xmm2
	pxor	%xmm1, %xmm2
	movdqu	%xmm3, 80(%r8)
	movdqu	%xmm2, 208(%r8)
	cmpl	$12, %eax
	je	.Lluossavin_x86_64.BB16_28
	movdqa	896(%rsp), %xmm0
	movdqa	768(%rsp), %xmm1
	movdqa	640(%rsp), %xmm2
	pxor	%xmm0, %xmm2
	pxor	%xmm1, %xmm2
	movdqa	%xmm2, %xmm3
	psrlq	$32, %xmm3
	pxor	%xmm0, %xmm3
	psllq	$32, %xmm2
	pxor	%xmm1, %xmm2
	movdqu	%xmm3, 96(%r8)
	movdqu	%xmm2, 224(%r8)
	cmpl	$14, %eax
	je	.Lluossavin_x86_64.BB16_28
	movdqa	912(%rsp), %xmm0
	movdqa	784(%rsp), %xmm1
	movdqa	656(%rsp), %xmm2
	pxor	%xmm0, %xmm2
	pxor	%xmm1, %xmm2
	movdqa	%xmm2, %xmm3
	psrlq	$32, %xmm3
	pxor	%xmm0, %xmm3
	psllq	$32, %xmm2
	pxor	%xmm1, %xmm2
	movdqu	%xmm3, 112(%r8)
	movdqu	%xmm2, 240(%r8)
	jmp	.Lluossavin_x86_64.BB16_28
	.p2align	4
.Lluossavin_x86_64.BB16_27:
	movq	800(%rsp,%rax,8), %rcx
	movq	672(%rsp,%rax,8), %rdx
	movq	544(%rsp,%rax,8), %rsi
	xorq	%rcx, %rsi
	xorq	%rdx, %rsi
	movq	%rsi, %rdi
	shrq	$32, %rdi
	xorq	%rcx, %rdi
	shlq	$32, %rsi
	xorq	%rdx, %rsi
	movq	%rdi, (%r8,%rax,8)
	movq	%rsi, 128(%r8,%rax,8)
	incq	%rax
.Lluossavin_x86_64.BB16_28:
	cmpq	%rax, %rbp
	jne	.Lluossavin_x86_64.BB16_27
	addq	$1320, %rsp
	popq	%rbx
	popq	%r12
	popq	%r13
	popq	%r14
	popq	%r15
	popq	%rbp
	retq
.Lluossavin_x86_64.func_end16:
	.size	"carryless::many::products64.x86_64", .Lluossavin_x86_64.func_end16-"carryless::many::products64.x86_64"

	.section	".text.field::power.x86_64","ax",@progbits
	.p2align	4
	.type	"field::power.x86_64",@function
"field::power.x86_64":
	movabsq	$-9223372036854775808, %rax
	testq	%rdx, %rdx
	je	.Lluossavin_x86_64.BB17_1
	pushq	%rbp
	pushq	%r15
	pushq	%r14
	pushq	%r13
	pushq	%r12
	pushq	%rbx
	pushq	%rax
	movq	%rdx, %rbx
	movq	%rsi, %r14
	movq	%rdi, %r15
	movabsq	$1229782938247303441, %r13
	xorl	%edx, %edx
	jmp	.Lluossavin_x86_64.BB17_4
	.p2align	4
.Lluossavin_x86_64.BB17_6:
	movq	%r15, %rsi
	shrq	$32, %rsi
	movq	%r14, %rcx
	shrq	$32, %rcx
	movl	%esi, %edi
	andl	$286331153, %edi
	movl	%esi, %r8d
	andl	$572662306, %r8d
	movl	%esi, %r9d
	andl	$1145324612, %r9d
	andl	$-2004318072, %esi
	imulq	%rdi, %rdi
	imulq	%r9, %r9
	xorq	%rdi, %r9
	andq	%r13, %r9
	imulq	%r8, %r8
	imulq	%rsi, %rsi
	xorq	%r8, %rsi
	movabsq	$4919131752989213764, %r11
	andq	%r11, %rsi
	orq	%r9, %rsi
	movl	%r15d, %edi
	andl	$286331153, %edi
	movl	%r15d, %r8d
	andl	$572662306, %r8d
	movl	%r15d, %r9d
	andl	$1145324612, %r9d
	andl	$-2004318072, %r15d
	imulq	%rdi, %rdi
	imulq	%r9, %r9
	xorq	%rdi, %r9
	andq	%r13, %r9
	imulq	%r8, %r8
	imulq	%r15, %r15
	xorq	%r8, %r15
	andq	%r11, %r15
	orq	%r9, %r15
	movl	%ecx, %edi
	andl	$286331153, %edi
	movl	%ecx, %r8d
	andl	$572662306, %r8d
	movl	%ecx, %r9d
	andl	$1145324612, %r9d
	andl	$-2004318072, %ecx
	imulq	%rdi, %rdi
	imulq	%r9, %r9
	xorq	%rdi, %r9
	andq	%r13, %r9
	imulq	%r8, %r8
	imulq	%rcx, %rcx
	xorq	%r8, %rcx
	andq	%r11, %rcx
	orq	%r9, %rcx
	movl	%r14d, %r8d
	andl	$286331153, %r8d
	movl	%r14d, %r9d
	andl	$572662306, %r9d
	movl	%r14d, %r10d
	andl	$1145324612, %r10d
	andl	$-2004318072, %r14d
	imulq	%r8, %r8
	imulq	%r10, %r10
	xorq	%r8, %r10
	andq	%r13, %r10
	imulq	%r9, %r9
	imulq	%r14, %r14
	xorq	%r9, %r14
	andq	%r11, %r14
	orq	%r10, %r14
	leaq	(%rcx,%rcx), %r10
	leaq	(%r14,%r14), %r11
	movq	%r14, %rbp
	shrq	%rbp
	movq	%r14, %r9
	shrq	$6, %r9
	xorq	%rbp, %r9
	shlq	$63, %r8
	movq	%r14, %rbp
	shlq	$58, %rbp
	orq	%r8, %rbp
	xorq	%rbp, %r10
	movq	%r10, %r8
	shrq	%r8
	movq	%r10, %r12
	shrq	$2, %r12
	shrq	$7, %r10
	xorq	%r12, %r10
	shlq	$63, %rdi
	movq	%rcx, %r12
	shlq	$58, %r12
	xorq	%r11, %r12
	xorq	%rsi, %rcx
	addq	%rcx, %rcx
	xorq	%r8, %rcx
	xorq	%r10, %rcx
	xorq	%rbp, %rcx
	leaq	(%r14,%r15,2), %r14
	xorq	%rdi, %r14
	xorq	%r9, %r14
	xorq	%r12, %r14
	shrq	%rbx
	movq	%rcx, %r15
	je	.Lluossavin_x86_64.BB17_7
.Lluossavin_x86_64.BB17_4:
	testb	$1, %bl
	je	.Lluossavin_x86_64.BB17_6
	movq	%rax, %rdi
	movq	%rdx, %rsi
	movq	%r15, %rdx
	movq	%r14, %rcx
	callq	"field::galois_mul.x86_64"
	jmp	.Lluossavin_x86_64.BB17_6
.Lluossavin_x86_64.BB17_7:
	addq	$8, %rsp
	popq	%rbx
	popq	%r12
	popq	%r13
	popq	%r14
	popq	%r15
	popq	%rbp
	retq
.Lluossavin_x86_64.BB17_1:
	xorl	%edx, %edx
	retq
.Lluossavin_x86_64.func_end17:
	.size	"field::power.x86_64", .Lluossavin_x86_64.func_end17-"field::power.x86_64"

	.section	.rodata.cst16,"aM",@progbits,16
	.p2align	4, 0x0
.Lluossavin_x86_64.CPI18_0:
	.long	286331153
	.long	572662306
	.long	1145324612
	.long	2290649224
	.section	".text.field::galois_mul.x86_64","ax",@progbits
	.p2align	4
	.type	"field::galois_mul.x86_64",@function
"field::galois_mul.x86_64":
	subq	$168, %rsp
	movq	%rdx, %rax
	shrq	$32, %rax
	movd	%eax, %xmm0
	xorl	%edx, %eax
	movq	%rcx, %r8
	shrq	$32, %r8
	movq	%rdx, 8(%rsp)
	movq	%rcx, 16(%rsp)
	pshufd	$0, %xmm0, %xmm1
	movdqa	.Lluossavin_x86_64.CPI18_0(%rip), %xmm0
	pand	%xmm0, %xmm1
	movdqu	%xmm1, 24(%rsp)
	movd	%edx, %xmm1
	pshufd	$0, %xmm1, %xmm1
	pand	%xmm0, %xmm1
	movdqu	%xmm1, 40(%rsp)
	movd	%eax, %xmm1
	pshufd	$0, %xmm1, %xmm1
	pand	%xmm0, %xmm1
	movdqu	%xmm1, 56(%rsp)
	movd	%r8d, %xmm1
	movl	%r8d, %eax
	xorl	%ecx, %eax
	pshufd	$0, %xmm1, %xmm1
	pand	%xmm0, %xmm1
	movdqu	%xmm1, 72(%rsp)
	movd	%ecx, %xmm1
	xorq	%rdx, %rcx
	movq	%rcx, %rdx
	shrq	$32, %rdx
	pshufd	$0, %xmm1, %xmm1
	pand	%xmm0, %xmm1
	movdqu	%xmm1, 88(%rsp)
	movd	%eax, %xmm1
	pshufd	$0, %xmm1, %xmm1
	pand	%xmm0, %xmm1
	movdqu	%xmm1, 104(%rsp)
	movd	%edx, %xmm1
	movl	%edx, %eax
	xorl	%ecx, %eax
	pshufd	$0, %xmm1, %xmm1
	pand	%xmm0, %xmm1
	movdqu	%xmm1, 120(%rsp)
	movd	%ecx, %xmm1
	pshufd	$0, %xmm1, %xmm1
	pand	%xmm0, %xmm1
	movdqu	%xmm1, 136(%rsp)
	movd	%eax, %xmm1
	pshufd	$0, %xmm1, %xmm1
	pand	%xmm0, %xmm1
	movdqu	%xmm1, 152(%rsp)
	leaq	8(%rsp), %rdx
	callq	"field::times.x86_64"
	addq	$168, %rsp
	retq
.Lluossavin_x86_64.func_end18:
	.size	"field::galois_mul.x86_64", .Lluossavin_x86_64.func_end18-"field::galois_mul.x86_64"

	.section	.rodata.cst16,"aM",@progbits,16
	.p2align	4, 0x0
.Lluossavin_x86_64.CPI19_0:
	.long	286331153
	.long	572662306
	.long	1145324612
	.long	2290649224
	.section	".text.ghash::Ghash::absorb_lengths.x86_64","ax",@progbits
	.p2align	4
	.type	"ghash::Ghash::absorb_lengths.x86_64",@function
"ghash::Ghash::absorb_lengths.x86_64":
	pushq	%r15
	pushq	%r14
	pushq	%rbx
	subq	$160, %rsp
	movq	%rsi, %rax
	movq	%rdi, %rbx
	movq	(%rsi), %r14
	movq	8(%rsi), %r15
	leaq	(,%rdx,8), %rdi
	leaq	(,%rcx,8), %rsi
	movq	%r14, %rcx
	shrq	$32, %rcx
	movd	%ecx, %xmm0
	xorl	%r14d, %ecx
	movq	%r15, %rdx
	shrq	$32, %rdx
	xorq	16(%rax), %rdi
	xorq	24(%rax), %rsi
	movq	%r14, (%rsp)
	movq	%r15, 8(%rsp)
	pshufd	$0, %xmm0, %xmm1
	movdqa	.Lluossavin_x86_64.CPI19_0(%rip), %xmm0
	pand	%xmm0, %xmm1
	movdqu	%xmm1, 16(%rsp)
	movd	%r14d, %xmm1
	pshufd	$0, %xmm1, %xmm1
	pand	%xmm0, %xmm1
	movdqu	%xmm1, 32(%rsp)
	movd	%ecx, %xmm1
	pshufd	$0, %xmm1, %xmm1
	pand	%xmm0, %xmm1
	movdqu	%xmm1, 48(%rsp)
	movd	%edx, %xmm1
	movl	%edx, %eax
	xorl	%r15d, %eax
	movq	%r15, %rcx
	xorq	%r14, %rcx
	movq	%rcx, %rdx
	shrq	$32, %rdx
	pshufd	$0, %xmm1, %xmm1
	pand	%xmm0, %xmm1
	movdqu	%xmm1, 64(%rsp)
	movd	%r15d, %xmm1
	pshufd	$0, %xmm1, %xmm1
	pand	%xmm0, %xmm1
	movdqu	%xmm1, 80(%rsp)
	movd	%eax, %xmm1
	pshufd	$0, %xmm1, %xmm1
	pand	%xmm0, %xmm1
	movdqu	%xmm1, 96(%rsp)
	movd	%edx, %xmm1
	movl	%edx, %eax
	xorl	%ecx, %eax
	pshufd	$0, %xmm1, %xmm1
	pand	%xmm0, %xmm1
	movdqu	%xmm1, 112(%rsp)
	movd	%ecx, %xmm1
	pshufd	$0, %xmm1, %xmm1
	pand	%xmm0, %xmm1
	movdqu	%xmm1, 128(%rsp)
	movd	%eax, %xmm1
	pshufd	$0, %xmm1, %xmm1
	pand	%xmm0, %xmm1
	movdqu	%xmm1, 144(%rsp)
	movq	%rsp, %rdx
	callq	"field::times.x86_64"
	movq	%r14, (%rbx)
	movq	%r15, 8(%rbx)
	movq	%rax, 16(%rbx)
	movq	%rdx, 24(%rbx)
	addq	$160, %rsp
	popq	%rbx
	popq	%r14
	popq	%r15
	retq
.Lluossavin_x86_64.func_end19:
	.size	"ghash::Ghash::absorb_lengths.x86_64", .Lluossavin_x86_64.func_end19-"ghash::Ghash::absorb_lengths.x86_64"

	.section	".text.pieces::hashing::Hashing::take_in.x86_64","ax",@progbits
	.p2align	4
	.type	"pieces::hashing::Hashing::take_in.x86_64",@function
"pieces::hashing::Hashing::take_in.x86_64":
	pushq	%rbp
	pushq	%r15
	pushq	%r14
	pushq	%r13
	pushq	%r12
	pushq	%rbx
	subq	$232, %rsp
	movq	%r8, %r15
	movq	%rcx, %r12
	movq	%rdx, %r13
	movq	%rsi, %r14
	movq	%rdi, 40(%rsp)
	movl	16(%rsi), %eax
	movl	%eax, 12(%rsp)
	movl	20(%rsi), %eax
	movq	%rax, 24(%rsp)
	movl	24(%rsi), %eax
	movq	%rax, 16(%rsp)
	movl	28(%rsi), %eax
	movq	%rax, 32(%rsp)
	movups	32(%rsi), %xmm0
	movaps	%xmm0, 64(%rsp)
	movl	$16, %ebx
	subq	%rdx, %rbx
	cmpq	%r8, %rbx
	movq	%r8, %rbp
	cmovbq	%rbx, %rbp
	xorps	%xmm0, %xmm0
	movaps	%xmm0, 48(%rsp)
	leaq	48(%rsp), %rdi
	leaq	64(%rsp), %rsi
	callq	memcpy@PLT
	leaq	(%rsp,%r13), %rdi
	addq	$48, %rdi
	movq	%r12, %r13
	movq	%r12, %rsi
	movq	%rbp, %rdx
	callq	memcpy@PLT
	subq	%rbx, %r15
	jae	.Lluossavin_x86_64.BB20_2
	movups	(%r14), %xmm0
	movq	40(%rsp), %rax
	movups	%xmm0, (%rax)
	movl	12(%rsp), %ecx
	movl	%ecx, 16(%rax)
	movaps	48(%rsp), %xmm0
	movups	%xmm0, 32(%rax)
	movq	32(%rsp), %r12
	jmp	.Lluossavin_x86_64.BB20_3
.Lluossavin_x86_64.BB20_2:
	movq	%r13, %rbp
	addq	%rbx, %rbp
	xorps	%xmm0, %xmm0
	movaps	%xmm0, 160(%rsp)
	movaps	%xmm0, 144(%rsp)
	movups	(%r14), %xmm0
	movaps	%xmm0, 64(%rsp)
	movl	12(%rsp), %eax
	movl	%eax, 80(%rsp)
	movq	24(%rsp), %rax
	movl	%eax, 84(%rsp)
	movq	16(%rsp), %rax
	movl	%eax, 88(%rsp)
	movq	32(%rsp), %rax
	movl	%eax, 92(%rsp)
	leaq	96(%rsp), %rdx
	movaps	48(%rsp), %xmm0
	movaps	%xmm0, 96(%rsp)
	movl	%r15d, %r13d
	andl	$15, %r13d
	andq	$-16, %r15
	movq	64(%rsp), %rax
	movq	72(%rsp), %rcx
	movq	80(%rsp), %rsi
	movq	88(%rsp), %rdi
	bswapq	%rax
	bswapq	%rcx
	bswapq	%rsi
	bswapq	%rdi
	movq	%rax, 112(%rsp)
	movq	%rcx, 120(%rsp)
	movq	%rsi, 128(%rsp)
	movq	%rdi, 136(%rsp)
	xorps	%xmm0, %xmm0
	movaps	%xmm0, 208(%rsp)
	movaps	%xmm0, 192(%rsp)
	leaq	192(%rsp), %rbx
	leaq	112(%rsp), %rsi
	movl	$16, %ecx
	movq	%rbx, %rdi
	callq	"ghash::Ghash::absorb_each.x86_64"
	leaq	144(%rsp), %rdi
	movq	%rbx, %rsi
	movq	%rbp, %rdx
	movq	%r15, %rcx
	callq	"ghash::Ghash::absorb_all.x86_64"
	movq	160(%rsp), %rax
	movq	168(%rsp), %r12
	movq	%rax, %rbx
	shrq	$32, %rbx
	movq	%r12, %rcx
	shrq	$32, %rcx
	bswapl	%ebx
	bswapl	%eax
	movq	%rax, 24(%rsp)
	bswapl	%ecx
	movq	%rcx, 16(%rsp)
	bswapl	%r12d
	addq	%rbp, %r15
	xorps	%xmm0, %xmm0
	movaps	%xmm0, 112(%rsp)
	leaq	112(%rsp), %rdi
	movq	%r15, %rsi
	movq	%r13, %rdx
	callq	memcpy@PLT
	movaps	112(%rsp), %xmm0
	movaps	%xmm0, 176(%rsp)
	movups	(%r14), %xmm0
	movq	40(%rsp), %rax
	movups	%xmm0, (%rax)
	movl	%ebx, 16(%rax)
	movaps	176(%rsp), %xmm0
	movups	%xmm0, 32(%rax)
.Lluossavin_x86_64.BB20_3:
	movq	24(%rsp), %rcx
	movl	%ecx, 20(%rax)
	movq	16(%rsp), %rcx
	movl	%ecx, 24(%rax)
	movl	%r12d, 28(%rax)
	addq	$232, %rsp
	popq	%rbx
	popq	%r12
	popq	%r13
	popq	%r14
	popq	%r15
	popq	%rbp
	retq
.Lluossavin_x86_64.func_end20:
	.size	"pieces::hashing::Hashing::take_in.x86_64", .Lluossavin_x86_64.func_end20-"pieces::hashing::Hashing::take_in.x86_64"

	.section	".text.pieces::tagging::begin.x86_64","ax",@progbits
	.p2align	4
	.type	"pieces::tagging::begin.x86_64",@function
"pieces::tagging::begin.x86_64":
	pushq	%rbp
	pushq	%r15
	pushq	%r14
	pushq	%r13
	pushq	%r12
	pushq	%rbx
	subq	$296, %rsp
	movq	%r9, %r13
	movq	%r8, 40(%rsp)
	movq	%rcx, 32(%rsp)
	movq	%rdx, %r14
	movq	%rdi, %rbx
	movups	(%rdx), %xmm0
	movups	16(%rdx), %xmm1
	movups	32(%rdx), %xmm2
	movups	48(%rdx), %xmm3
	movaps	%xmm0, 160(%rsp)
	movaps	%xmm1, 176(%rsp)
	movaps	%xmm2, 192(%rsp)
	movaps	%xmm3, 208(%rsp)
	movups	64(%rdx), %xmm0
	movaps	%xmm0, 224(%rsp)
	movups	80(%rdx), %xmm0
	movaps	%xmm0, 240(%rsp)
	movups	96(%rdx), %xmm0
	movaps	%xmm0, 256(%rsp)
	movups	112(%rdx), %xmm0
	movaps	%xmm0, 272(%rsp)
	xorps	%xmm0, %xmm0
	movaps	%xmm0, (%rsp)
	movaps	%xmm0, 112(%rsp)
	movq	%rsp, %rdi
	leaq	160(%rsp), %rdx
	leaq	112(%rsp), %rcx
	movl	%esi, 84(%rsp)
	callq	"cipher::encrypt.x86_64"
	movl	(%rsp), %ebp
	movl	4(%rsp), %eax
	movl	8(%rsp), %r15d
	movl	12(%rsp), %ecx
	movq	%rbp, %r12
	shlq	$32, %r12
	movq	%rax, 72(%rsp)
	orq	%rax, %r12
	movq	%r15, 64(%rsp)
	shlq	$32, %r15
	movq	%rcx, 56(%rsp)
	orq	%rcx, %r15
	movq	352(%rsp), %rcx
	cmpq	$12, %rcx
	jne	.Lluossavin_x86_64.BB21_2
	movl	(%r13), %ecx
	movl	4(%r13), %eax
	bswapl	%ecx
	movq	%rcx, 96(%rsp)
	bswapl	%eax
	movq	%rax, 104(%rsp)
	movl	8(%r13), %eax
	bswapl	%eax
	movq	%rax, 48(%rsp)
	movl	$1, %eax
	movq	%rax, 88(%rsp)
	jmp	.Lluossavin_x86_64.BB21_3
.Lluossavin_x86_64.BB21_2:
	xorps	%xmm0, %xmm0
	movaps	%xmm0, (%rsp)
	movaps	%xmm0, 16(%rsp)
	movq	%r12, 112(%rsp)
	movq	%r15, 120(%rsp)
	movups	%xmm0, 128(%rsp)
	movq	%rsp, %rdi
	leaq	112(%rsp), %rsi
	movq	%r13, %rdx
	movq	%rcx, %r13
	callq	"ghash::Ghash::absorb_all.x86_64"
	leaq	160(%rsp), %rdi
	movq	%rsp, %rsi
	xorl	%edx, %edx
	movq	%r13, %rcx
	callq	"ghash::Ghash::absorb_lengths.x86_64"
	movq	176(%rsp), %rax
	movq	184(%rsp), %rcx
	movq	%rax, 104(%rsp)
	shrq	$32, %rax
	movq	%rax, 96(%rsp)
	movq	%rcx, 88(%rsp)
	shrq	$32, %rcx
	movq	%rcx, 48(%rsp)
.Lluossavin_x86_64.BB21_3:
	xorps	%xmm0, %xmm0
	movaps	%xmm0, 160(%rsp)
	movaps	%xmm0, 176(%rsp)
	movq	%r12, (%rsp)
	movq	%r15, 8(%rsp)
	movups	%xmm0, 16(%rsp)
	leaq	160(%rsp), %rdi
	movq	%rsp, %rsi
	movq	32(%rsp), %rdx
	movq	40(%rsp), %rcx
	callq	"ghash::Ghash::absorb_all.x86_64"
	bswapl	%ebp
	movq	%rbp, 40(%rsp)
	movq	72(%rsp), %rax
	bswapl	%eax
	movq	%rax, 72(%rsp)
	movq	64(%rsp), %rax
	bswapl	%eax
	movq	%rax, 64(%rsp)
	movq	56(%rsp), %rax
	bswapl	%eax
	movq	%rax, 56(%rsp)
	movq	176(%rsp), %rcx
	movq	184(%rsp), %rax
	movq	%rcx, %r15
	shrq	$32, %r15
	movq	%rax, %r12
	shrq	$32, %r12
	bswapl	%r15d
	bswapl	%ecx
	movq	%rcx, 32(%rsp)
	bswapl	%r12d
	bswapl	%eax
	movq	%rax, 152(%rsp)
	movups	(%r14), %xmm0
	movups	16(%r14), %xmm1
	movdqu	32(%r14), %xmm2
	movups	48(%r14), %xmm3
	movaps	%xmm0, 160(%rsp)
	movaps	%xmm1, 176(%rsp)
	movdqa	%xmm2, 192(%rsp)
	movaps	%xmm3, 208(%rsp)
	movups	64(%r14), %xmm0
	movaps	%xmm0, 224(%rsp)
	movups	80(%r14), %xmm0
	movaps	%xmm0, 240(%rsp)
	movups	96(%r14), %xmm0
	movaps	%xmm0, 256(%rsp)
	movups	112(%r14), %xmm0
	movaps	%xmm0, 272(%rsp)
	movq	96(%rsp), %r13
	movl	%r13d, (%rsp)
	movq	104(%rsp), %r14
	movl	%r14d, 4(%rsp)
	movq	48(%rsp), %rax
	movl	%eax, 8(%rsp)
	movq	88(%rsp), %rbp
	movl	%ebp, 12(%rsp)
	xorps	%xmm0, %xmm0
	movaps	%xmm0, 112(%rsp)
	movzbl	84(%rsp), %esi
	leaq	112(%rsp), %rdi
	leaq	160(%rsp), %rdx
	movq	%rsp, %rcx
	callq	"cipher::encrypt.x86_64"
	movdqa	112(%rsp), %xmm0
	movdqa	%xmm0, %xmm1
	pxor	%xmm2, %xmm2
	punpckhbw	%xmm2, %xmm1
	pshuflw	$27, %xmm1, %xmm1
	pshufhw	$27, %xmm1, %xmm1
	punpcklbw	%xmm2, %xmm0
	pshuflw	$27, %xmm0, %xmm0
	pshufhw	$27, %xmm0, %xmm0
	packuswb	%xmm1, %xmm0
	movl	%r13d, (%rbx)
	movl	%r14d, 4(%rbx)
	movq	48(%rsp), %rax
	movl	%eax, 8(%rbx)
	movl	%ebp, 12(%rbx)
	movl	%ebp, 16(%rbx)
	movq	40(%rsp), %rax
	movl	%eax, 20(%rbx)
	movq	72(%rsp), %rax
	movl	%eax, 24(%rbx)
	movq	64(%rsp), %rax
	movl	%eax, 28(%rbx)
	movq	56(%rsp), %rax
	movl	%eax, 32(%rbx)
	movl	%r15d, 36(%rbx)
	movq	32(%rsp), %rax
	movl	%eax, 40(%rbx)
	movl	%r12d, 44(%rbx)
	movq	152(%rsp), %rax
	movl	%eax, 48(%rbx)
	movdqu	%xmm2, 52(%rbx)
	movdqu	%xmm0, 68(%rbx)
	addq	$296, %rsp
	popq	%rbx
	popq	%r12
	popq	%r13
	popq	%r14
	popq	%r15
	popq	%rbp
	retq
.Lluossavin_x86_64.func_end21:
	.size	"pieces::tagging::begin.x86_64", .Lluossavin_x86_64.func_end21-"pieces::tagging::begin.x86_64"

	.section	.rodata.cst16,"aM",@progbits,16
	.p2align	4, 0x0
.Lluossavin_x86_64.CPI22_0:
	.short	13
	.short	0
	.short	12
	.short	11
	.short	10
	.short	9
	.short	8
	.short	7
.Lluossavin_x86_64.CPI22_1:
	.short	6
	.short	5
	.short	4
	.short	3
	.short	2
	.short	1
	.zero	2
	.zero	2
	.section	".text.cipher_mode::Sm4CipherMode::call.x86_64","ax",@progbits
	.p2align	4
	.type	"cipher_mode::Sm4CipherMode::call.x86_64",@function
"cipher_mode::Sm4CipherMode::call.x86_64":
	pushq	%rbp
	pushq	%r15
	pushq	%r14
	pushq	%r13
	pushq	%r12
	pushq	%rbx
	subq	$3072, %rsp
	movq	$0, (%rsp)
	subq	$1688, %rsp
	movzbl	128(%rsi), %r12d
	movzwl	130(%rsi), %ebx
	movzbl	132(%rsi), %eax
	movzbl	133(%rsi), %r10d
	movzbl	136(%rsi), %r11d
	movb	$0, 260(%rsp)
	movl	$0, 256(%rsp)
	movl	$0, 296(%rsp)
	movw	$0, 300(%rsp)
	movl	$0, 168(%rsp)
	movl	$0, 171(%rsp)
	movl	$0, 240(%rsp)
	movl	$0, 243(%rsp)
	pxor	%xmm0, %xmm0
	movdqa	%xmm0, 496(%rsp)
	movdqa	%xmm0, 512(%rsp)
	movdqa	%xmm0, 528(%rsp)
	movdqa	%xmm0, 544(%rsp)
	movdqa	%xmm0, 560(%rsp)
	movdqa	%xmm0, 576(%rsp)
	movdqa	%xmm0, 592(%rsp)
	movdqa	%xmm0, 608(%rsp)
	movl	$0, 623(%rsp)
	testl	%r12d, %r12d
	je	.Lluossavin_x86_64.BB22_3
	cmpl	$1, %r12d
	jne	.Lluossavin_x86_64.BB22_6
	xorl	%eax, %eax
	jmp	.Lluossavin_x86_64.BB22_7
.Lluossavin_x86_64.BB22_3:
	movq	4832(%rsp), %r13
	cmpl	$4, %r11d
	setne	%bpl
	cmpq	$12, %r13
	setne	%r14b
	cmpq	$16, %r13
	je	.Lluossavin_x86_64.BB22_10
	orb	%bpl, %r14b
	je	.Lluossavin_x86_64.BB22_10
	xorl	%ecx, %ecx
	movb	$8, %al
	jmp	.Lluossavin_x86_64.BB22_8
.Lluossavin_x86_64.BB22_6:
	movb	$11, %al
.Lluossavin_x86_64.BB22_7:
	xorl	%ecx, %ecx
.Lluossavin_x86_64.BB22_8:
	movl	$0, 171(%rsp)
	movl	$0, 168(%rsp)
	movb	$1, %bpl
	xorl	%r14d, %r14d
	xorl	%r13d, %r13d
.Lluossavin_x86_64.BB22_9:
	xorl	%edx, %edx
	testb	%r12b, %r12b
	cmovnel	%edx, %ebx
	movb	%bpl, (%rdi)
	movb	%al, 1(%rdi)
	movb	%cl, 2(%rdi)
	movl	256(%rsp), %eax
	movl	%eax, 3(%rdi)
	movzbl	260(%rsp), %eax
	movb	%al, 7(%rdi)
	movq	%r14, 8(%rdi)
	movb	%r13b, 16(%rdi)
	movl	168(%rsp), %eax
	movl	171(%rsp), %ecx
	movl	%eax, 17(%rdi)
	movl	%ecx, 20(%rdi)
	movw	%bx, 24(%rdi)
	movl	296(%rsp), %eax
	movl	%eax, 26(%rdi)
	movzwl	300(%rsp), %eax
	movw	%ax, 30(%rdi)
	addq	$4760, %rsp
	popq	%rbx
	popq	%r12
	popq	%r13
	popq	%r14
	popq	%r15
	popq	%rbp
	retq
.Lluossavin_x86_64.BB22_10:
	testb	%dl, %dl
	jne	.Lluossavin_x86_64.BB22_13
	testb	$1, %al
	je	.Lluossavin_x86_64.BB22_13
	xorl	%ecx, %ecx
	movb	$12, %al
	jmp	.Lluossavin_x86_64.BB22_8
.Lluossavin_x86_64.BB22_13:
	cmpl	$4, %r11d
	sete	%bpl
	cmpq	$16777217, %r8
	setae	%r14b
	movb	$4, %al
	testb	%bpl, %r14b
	jne	.Lluossavin_x86_64.BB22_7
	movq	4816(%rsp), %r14
	leal	-3(%r11), %ebp
	xorl	%r15d, %r15d
	cmpb	$2, %bpl
	setb	%r15b
	shll	$4, %r15d
	orq	$16777216, %r15
	cmpb	$1, %dl
	movl	$16777216, %ebp
	cmoveq	%r15, %rbp
	cmpq	%r14, %rbp
	jb	.Lluossavin_x86_64.BB22_7
	cmpb	$1, %dl
	jne	.Lluossavin_x86_64.BB22_20
	cmpl	$3, %r11d
	jb	.Lluossavin_x86_64.BB22_21
	cmpl	$4, %r11d
	jne	.Lluossavin_x86_64.BB22_32
	cmpq	$15, %r14
	ja	.Lluossavin_x86_64.BB22_21
	movb	$16, %cl
	subb	%r14b, %cl
	movb	$7, %al
	jmp	.Lluossavin_x86_64.BB22_8
.Lluossavin_x86_64.BB22_20:
	testb	%dl, %dl
	je	.Lluossavin_x86_64.BB22_26
.Lluossavin_x86_64.BB22_21:
	leaq	-16(%r14), %rax
	cmpl	$4, %r11d
	cmovneq	%r14, %rax
.Lluossavin_x86_64.BB22_22:
	cmpq	%rax, 4848(%rsp)
	jae	.Lluossavin_x86_64.BB22_24
	movb	$5, %al
	jmp	.Lluossavin_x86_64.BB22_7
.Lluossavin_x86_64.BB22_24:
	movq	4840(%rsp), %rbp
	movl	%r11d, %eax
	leaq	.Lluossavin_x86_64.JTI22_0(%rip), %r11
	movslq	(%r11,%rax,4), %r15
	addq	%r11, %r15
	jmpq	*%r15
.Lluossavin_x86_64.BB22_25:
	testb	%dl, %dl
	setne	%r11b
	jmp	.Lluossavin_x86_64.BB22_30
.Lluossavin_x86_64.BB22_26:
	movq	%r14, %rax
	cmpl	$3, %r11d
	jb	.Lluossavin_x86_64.BB22_22
	cmpl	$4, %r11d
	jne	.Lluossavin_x86_64.BB22_55
	leaq	16(%r14), %rax
	jmp	.Lluossavin_x86_64.BB22_22
.Lluossavin_x86_64.BB22_29:
	movb	$1, %r11b
.Lluossavin_x86_64.BB22_30:
	decb	%r10b
	cmpb	$3, %r10b
	movzbl	%r11b, %r11d
	movzbl	%r10b, %r15d
	cmovael	%r11d, %r15d
	leaq	499(%rsp), %r11
	movups	112(%rsi), %xmm0
	movups	%xmm0, 611(%rsp)
	movups	96(%rsi), %xmm0
	movups	%xmm0, 595(%rsp)
	movups	80(%rsi), %xmm0
	movups	%xmm0, 579(%rsp)
	movups	64(%rsi), %xmm0
	movups	%xmm0, 563(%rsp)
	movups	(%rsi), %xmm0
	movdqu	16(%rsi), %xmm1
	movdqu	32(%rsi), %xmm2
	movups	48(%rsi), %xmm3
	movups	%xmm3, 547(%rsp)
	movdqu	%xmm2, 531(%rsp)
	movdqu	%xmm1, 515(%rsp)
	movups	%xmm0, 499(%rsp)
	movl	$0, 43(%rsp)
	movl	$0, 40(%rsp)
	leaq	.Lluossavin_x86_64.JTI22_1(%rip), %r10
	movslq	(%r10,%rax,4), %rax
	addq	%r10, %rax
	movzbl	%r15b, %r10d
	jmpq	*%rax
.Lluossavin_x86_64.BB22_31:
	movq	4824(%rsp), %rax
	movdqu	(%rax), %xmm0
	pxor	%xmm1, %xmm1
	movdqa	%xmm0, %xmm2
	punpckhbw	%xmm1, %xmm2
	pshuflw	$27, %xmm2, %xmm2
	pshufhw	$27, %xmm2, %xmm2
	punpcklbw	%xmm1, %xmm0
	pshuflw	$27, %xmm0, %xmm0
	pshufhw	$27, %xmm0, %xmm0
	packuswb	%xmm2, %xmm0
	movdqa	%xmm0, 704(%rsp)
	movups	(%rsi), %xmm0
	movdqu	16(%rsi), %xmm1
	movdqu	32(%rsi), %xmm2
	movdqu	48(%rsi), %xmm3
	movaps	%xmm0, 1216(%rsp)
	movdqa	%xmm1, 1232(%rsp)
	movdqa	%xmm2, 1248(%rsp)
	movdqa	%xmm3, 1264(%rsp)
	movups	64(%rsi), %xmm0
	movaps	%xmm0, 1280(%rsp)
	movups	80(%rsi), %xmm0
	movaps	%xmm0, 1296(%rsp)
	movups	96(%rsi), %xmm0
	movaps	%xmm0, 1312(%rsp)
	movdqu	112(%rsi), %xmm0
	movdqa	%xmm0, 1328(%rsp)
	movq	4848(%rsp), %rax
	movq	%rax, 24(%rsp)
	movq	%rbp, 16(%rsp)
	movq	%r14, 8(%rsp)
	movq	%r9, (%rsp)
	movzbl	%dl, %ecx
	leaq	2240(%rsp), %rax
	leaq	1216(%rsp), %rdx
	leaq	704(%rsp), %r8
	xorl	%ebp, %ebp
	movq	%rdi, %r15
	movq	%rax, %rdi
	movl	%r10d, %esi
	xorl	%r9d, %r9d
	callq	"stream::stream.x86_64"
	movq	%r15, %rdi
	movl	$0, 40(%rsp)
	movl	$0, 43(%rsp)
	xorl	%eax, %eax
	xorl	%r13d, %r13d
	jmp	.Lluossavin_x86_64.BB22_166
.Lluossavin_x86_64.BB22_32:
	testq	%r14, %r14
	je	.Lluossavin_x86_64.BB22_56
	testb	$15, %r14b
	je	.Lluossavin_x86_64.BB22_21
	movb	$1, %al
	jmp	.Lluossavin_x86_64.BB22_7
.Lluossavin_x86_64.BB22_35:
	movq	%rdi, 80(%rsp)
	decb	%r10b
	xorl	%eax, %eax
	cmpb	$3, %r10b
	movzbl	%r10b, %r15d
	cmovael	%eax, %r15d
	leaq	499(%rsp), %r11
	movups	112(%rsi), %xmm0
	movups	%xmm0, 611(%rsp)
	movups	96(%rsi), %xmm0
	movups	%xmm0, 595(%rsp)
	movups	80(%rsi), %xmm0
	movups	%xmm0, 579(%rsp)
	movups	64(%rsi), %xmm0
	movups	%xmm0, 563(%rsp)
	movups	(%rsi), %xmm0
	movdqu	16(%rsi), %xmm1
	movdqu	32(%rsi), %xmm2
	movups	48(%rsi), %xmm3
	movups	%xmm3, 547(%rsp)
	movdqu	%xmm2, 531(%rsp)
	movdqu	%xmm1, 515(%rsp)
	movups	%xmm0, 499(%rsp)
	movl	$0, 43(%rsp)
	movl	$0, 40(%rsp)
	jmp	.Lluossavin_x86_64.BB22_54
.Lluossavin_x86_64.BB22_36:
	movl	%r10d, 144(%rsp)
	movq	%rsi, 56(%rsp)
	movq	%rcx, 216(%rsp)
	movq	%r8, 200(%rsp)
	movq	%r9, 48(%rsp)
	movq	%rdi, 80(%rsp)
	leaq	1216(%rsp), %rdi
	movl	%edx, %ebp
	movl	$552, %edx
	xorl	%esi, %esi
	callq	memset@PLT
	leaq	4264(%rsp), %rdi
	movl	$496, %edx
	xorl	%esi, %esi
	callq	memset@PLT
	leaq	-16(%r14), %rax
	movl	%ebp, 92(%rsp)
	testb	%bpl, %bpl
	movl	$0, 176(%rsp)
	movl	$0, 179(%rsp)
	movl	$0, 312(%rsp)
	movl	$0, 315(%rsp)
	movl	$0, 248(%rsp)
	movl	$0, 251(%rsp)
	movl	$0, 304(%rsp)
	movl	$0, 307(%rsp)
	movq	%rax, 224(%rsp)
	movq	%rax, %rbp
	cmoveq	%r14, %rbp
	leaq	3264(%rsp), %rdi
	movl	$496, %edx
	xorl	%esi, %esi
	callq	memset@PLT
	leaq	3760(%rsp), %rdi
	movl	$496, %edx
	xorl	%esi, %esi
	callq	memset@PLT
	cmpq	$479, %rbp
	movq	%rbp, 120(%rsp)
	ja	.Lluossavin_x86_64.BB22_57
	cmpb	$1, %r15b
	jne	.Lluossavin_x86_64.BB22_57
	cmpq	$12, %r13
	movq	56(%rsp), %rax
	jne	.Lluossavin_x86_64.BB22_67
	movq	4824(%rsp), %rcx
	movl	(%rcx), %edx
	movq	%rdx, 72(%rsp)
	movl	4(%rcx), %edx
	movq	%rdx, 96(%rsp)
	movl	8(%rcx), %ebp
	movups	(%rax), %xmm0
	movups	16(%rax), %xmm1
	movups	32(%rax), %xmm2
	movups	48(%rax), %xmm3
	movaps	%xmm0, 368(%rsp)
	movaps	%xmm1, 384(%rsp)
	movaps	%xmm2, 400(%rsp)
	movaps	%xmm3, 416(%rsp)
	movups	64(%rax), %xmm0
	movaps	%xmm0, 432(%rsp)
	movups	80(%rax), %xmm0
	movaps	%xmm0, 448(%rsp)
	movups	96(%rax), %xmm0
	movaps	%xmm0, 464(%rsp)
	movups	112(%rax), %xmm0
	movaps	%xmm0, 480(%rsp)
	movq	120(%rsp), %r13
	shrq	$4, %r13
	leaq	2240(%rsp), %rdi
	xorl	%r15d, %r15d
	movl	$512, %edx
	xorl	%esi, %esi
	callq	memset@PLT
	movq	72(%rsp), %rdi
	movq	96(%rsp), %rsi
	movl	%r13d, %ecx
	shll	$4, %ecx
	addl	$32, %ecx
	andl	$992, %ecx
	movl	$2, %eax
.Lluossavin_x86_64.BB22_40:
	leal	-1(%rax), %edx
	movl	%edi, 2256(%rsp,%r15)
	movl	%esi, 2260(%rsp,%r15)
	movl	%ebp, 2264(%rsp,%r15)
	bswapl	%edx
	movl	%edx, 2268(%rsp,%r15)
	movl	%edi, 2272(%rsp,%r15)
	movl	%esi, 2276(%rsp,%r15)
	movl	%ebp, 2280(%rsp,%r15)
	movl	%eax, %edx
	bswapl	%edx
	movl	%edx, 2284(%rsp,%r15)
	addl	$2, %eax
	addq	$32, %r15
	cmpq	%r15, %rcx
	jne	.Lluossavin_x86_64.BB22_40
	testb	$1, %r13b
	je	.Lluossavin_x86_64.BB22_43
	decl	%eax
	movl	%edi, 2256(%rsp,%r15)
	movl	%esi, 2260(%rsp,%r15)
	movl	%ebp, 2264(%rsp,%r15)
	bswapl	%eax
	movl	%eax, 2268(%rsp,%r15)
.Lluossavin_x86_64.BB22_43:
	bswapl	%edi
	movq	%rdi, 72(%rsp)
	bswapl	%esi
	movq	%rsi, 96(%rsp)
	bswapl	%ebp
	movq	%rbp, 64(%rsp)
	leaq	704(%rsp), %r15
	movl	$512, %edx
	movq	%r15, %rdi
	xorl	%esi, %esi
	callq	memset@PLT
	leaq	3(%r13), %rsi
	leaq	368(%rsp), %rdi
	leaq	2240(%rsp), %rdx
	movq	%r15, %rcx
	callq	"sixteen::encrypt.x86_64"
	movq	704(%rsp), %r15
	movq	712(%rsp), %rbp
	movq	%r15, %rax
	shrq	$32, %rax
	movq	%rax, 184(%rsp)
	movq	%rbp, %rax
	shrq	$32, %rax
	movq	%rax, 232(%rsp)
	leaq	720(%rsp), %rsi
	leaq	4264(%rsp), %rdi
	movl	$496, %edx
	callq	memcpy@PLT
	movq	%rbp, %rdi
	movq	%r15, %rdx
	bswapq	%r15
	movq	%rbp, %rax
	bswapq	%rax
	movb	$1, %sil
	movl	$1, %ecx
	movq	120(%rsp), %rbp
	jmp	.Lluossavin_x86_64.BB22_73
.Lluossavin_x86_64.BB22_44:
	movq	%rdi, %r15
	movq	4824(%rsp), %rax
	movdqu	(%rax), %xmm0
	pxor	%xmm1, %xmm1
	movdqa	%xmm0, %xmm2
	punpckhbw	%xmm1, %xmm2
	pshuflw	$27, %xmm2, %xmm2
	pshufhw	$27, %xmm2, %xmm2
	punpcklbw	%xmm1, %xmm0
	pshuflw	$27, %xmm0, %xmm0
	pshufhw	$27, %xmm0, %xmm0
	packuswb	%xmm2, %xmm0
	movdqa	%xmm0, 704(%rsp)
	movups	(%rsi), %xmm0
	movdqu	16(%rsi), %xmm1
	movdqu	32(%rsi), %xmm2
	movdqu	48(%rsi), %xmm3
	movaps	%xmm0, 1216(%rsp)
	movdqa	%xmm1, 1232(%rsp)
	movdqa	%xmm2, 1248(%rsp)
	movdqa	%xmm3, 1264(%rsp)
	movups	64(%rsi), %xmm0
	movaps	%xmm0, 1280(%rsp)
	movups	80(%rsi), %xmm0
	movaps	%xmm0, 1296(%rsp)
	movups	96(%rsi), %xmm0
	movaps	%xmm0, 1312(%rsp)
	movdqu	112(%rsi), %xmm0
	movdqa	%xmm0, 1328(%rsp)
	movq	4848(%rsp), %rax
	movq	%rax, 24(%rsp)
	movq	%rbp, 16(%rsp)
	movq	%r14, 8(%rsp)
	movq	%r9, (%rsp)
	leaq	2240(%rsp), %rdi
	leaq	1216(%rsp), %rdx
	leaq	704(%rsp), %r8
	xorl	%r13d, %r13d
	movl	%r10d, %esi
	movl	$3, %ecx
	xorl	%r9d, %r9d
	callq	"stream::stream.x86_64"
	testq	%r14, %r14
	je	.Lluossavin_x86_64.BB22_46
	movq	4824(%rsp), %rdi
	movq	8(%rdi), %rax
	movq	%r14, %rcx
	shrq	$4, %rcx
	movl	%r14d, %edx
	andl	$15, %edx
	xorl	%esi, %esi
	negq	%rdx
	sbbq	%rsi, %rsi
	bswapq	%rax
	subq	%rcx, %rsi
	cmpq	$-1, (%rdi)
	sete	%cl
	cmpq	%rsi, %rax
	seta	%r13b
	andb	%cl, %r13b
.Lluossavin_x86_64.BB22_46:
	movq	%r15, %rdi
	movl	$0, 43(%rsp)
	movl	$0, 40(%rsp)
	xorl	%ebp, %ebp
	xorl	%eax, %eax
	jmp	.Lluossavin_x86_64.BB22_166
.Lluossavin_x86_64.BB22_47:
	movl	$0, 3763(%rsp)
	movl	$0, 3760(%rsp)
	movq	4824(%rsp), %rax
	movdqu	(%rax), %xmm0
	pxor	%xmm2, %xmm2
	movdqa	%xmm0, %xmm1
	punpckhbw	%xmm2, %xmm1
	pshuflw	$27, %xmm1, %xmm1
	pshufhw	$27, %xmm1, %xmm1
	punpcklbw	%xmm2, %xmm0
	pshuflw	$27, %xmm0, %xmm0
	pshufhw	$27, %xmm0, %xmm4
	packuswb	%xmm1, %xmm4
	testb	%dl, %dl
	movq	%rdi, 80(%rsp)
	movl	%r10d, 144(%rsp)
	je	.Lluossavin_x86_64.BB22_59
	movups	112(%rsi), %xmm0
	movaps	%xmm0, 816(%rsp)
	movups	96(%rsi), %xmm0
	movaps	%xmm0, 800(%rsp)
	movups	80(%rsi), %xmm0
	movaps	%xmm0, 784(%rsp)
	movups	64(%rsi), %xmm0
	movaps	%xmm0, 768(%rsp)
	movups	(%rsi), %xmm0
	movups	16(%rsi), %xmm1
	movdqu	32(%rsi), %xmm2
	movdqu	48(%rsi), %xmm3
	movdqa	%xmm3, 752(%rsp)
	movdqa	%xmm2, 736(%rsp)
	movaps	%xmm1, 720(%rsp)
	movaps	%xmm0, 704(%rsp)
	leaq	768(%rsp), %rsi
	leaq	704(%rsp), %r13
	movq	%r13, %rdi
	movq	%r9, 48(%rsp)
	movl	%r10d, %ebp
	movdqa	%xmm4, 96(%rsp)
	callq	"core::slice::edits::mirror::<i32>.x86_64"
	pxor	%xmm2, %xmm2
	movdqa	%xmm2, 1216(%rsp)
	leaq	-16(%r14), %rdx
	movq	48(%rsp), %rax
	movdqu	-16(%rax,%r14), %xmm0
	movdqa	%xmm0, %xmm1
	punpckhbw	%xmm2, %xmm1
	pshuflw	$27, %xmm1, %xmm1
	pshufhw	$27, %xmm1, %xmm1
	punpcklbw	%xmm2, %xmm0
	pshuflw	$27, %xmm0, %xmm0
	pshufhw	$27, %xmm0, %xmm0
	packuswb	%xmm1, %xmm0
	movdqa	%xmm0, 2240(%rsp)
	leaq	1216(%rsp), %rdi
	leaq	2240(%rsp), %rcx
	movl	%ebp, %esi
	movq	%rdx, %rbp
	movq	%r13, %rdx
	callq	"cipher::encrypt.x86_64"
	movq	48(%rsp), %rax
	movdqa	96(%rsp), %xmm0
	testq	%rbp, %rbp
	je	.Lluossavin_x86_64.BB22_50
	movdqu	-16(%rax,%rbp), %xmm0
	pxor	%xmm1, %xmm1
	movdqa	%xmm0, %xmm2
	punpckhbw	%xmm1, %xmm2
	pshuflw	$27, %xmm2, %xmm2
	pshufhw	$27, %xmm2, %xmm2
	punpcklbw	%xmm1, %xmm0
	pshuflw	$27, %xmm0, %xmm0
	pshufhw	$27, %xmm0, %xmm0
	packuswb	%xmm2, %xmm0
.Lluossavin_x86_64.BB22_50:
	pshufd	$255, %xmm0, %xmm1
	movd	%xmm1, %ecx
	xorl	1228(%rsp), %ecx
	bswapl	%ecx
	movl	%ecx, %r9d
	shrl	$24, %r9d
	leal	-1(%r9), %edx
	cmpb	$15, %dl
	movq	80(%rsp), %rdi
	ja	.Lluossavin_x86_64.BB22_63
	pshufd	$85, %xmm0, %xmm1
	movd	%xmm1, %edx
	xorl	1220(%rsp), %edx
	pshufd	$238, %xmm0, %xmm1
	movd	%xmm1, %esi
	xorl	1224(%rsp), %esi
	bswapl	%edx
	movl	%edx, %r10d
	bswapl	%esi
	movl	%ecx, %edx
	xorl	%esi, %edx
	movd	%edx, %xmm3
	movl	%ecx, %edx
	xorl	%r10d, %edx
	movd	%edx, %xmm1
	movl	%ecx, %r13d
	movd	%xmm0, %ecx
	xorl	1216(%rsp), %ecx
	bswapl	%ecx
	movl	%r13d, %edx
	xorl	%ecx, %edx
	movd	%edx, %xmm2
	movl	%r13d, %edx
	movzbl	%dh, %edx
	xorl	%r9d, %edx
	movd	%edx, %xmm0
	movl	%esi, %edx
	movzbl	%dh, %edx
	xorl	%r9d, %edx
	movd	%edx, %xmm6
	movl	%r10d, %edx
	movzbl	%dh, %edx
	xorl	%r9d, %edx
	movd	%edx, %xmm4
	movzbl	%ch, %edx
	xorl	%r9d, %edx
	movd	%edx, %xmm5
	movl	%esi, %r11d
	movl	%esi, %edx
	shrl	$16, %edx
	movl	%r10d, %esi
	shrl	$16, %esi
	movzbl	%r13b, %r8d
	xorl	%r9d, %r8d
	movd	%r8d, %xmm7
	movzbl	%cl, %r8d
	xorl	%r9d, %r8d
	psrld	$24, %xmm3
	punpcklwd	%xmm3, %xmm7
	movd	%r8d, %xmm3
	movl	%r11d, 184(%rsp)
	movzbl	%r11b, %r8d
	xorl	%r9d, %r8d
	punpcklwd	%xmm3, %xmm0
	movd	%r8d, %xmm3
	movl	%ecx, 232(%rsp)
	movl	%ecx, %r8d
	shrl	$16, %r8d
	movzbl	%dl, %edx
	xorl	%r9d, %edx
	punpckldq	%xmm7, %xmm0
	movd	%edx, %xmm7
	movl	%r10d, %ecx
	movl	%r10d, 92(%rsp)
	movzbl	%cl, %edx
	xorl	%r9d, %edx
	psrld	$24, %xmm1
	punpcklwd	%xmm1, %xmm3
	movd	%edx, %xmm8
	movl	%r13d, %edx
	movl	%r13d, 216(%rsp)
	shrl	$16, %edx
	movzbl	%r8b, %r8d
	xorl	%r9d, %r8d
	movzbl	%sil, %esi
	xorl	%r9d, %esi
	punpcklwd	%xmm6, %xmm7
	movd	%r9d, %xmm1
	pshuflw	$0, %xmm1, %xmm1
	pshufd	$68, %xmm1, %xmm6
	punpckldq	%xmm3, %xmm7
	movdqa	.Lluossavin_x86_64.CPI22_0(%rip), %xmm1
	paddw	%xmm6, %xmm1
	paddw	.Lluossavin_x86_64.CPI22_1(%rip), %xmm6
	psrlw	$4, %xmm6
	psrlw	$4, %xmm1
	punpcklqdq	%xmm7, %xmm0
	pmullw	%xmm1, %xmm0
	psrld	$24, %xmm2
	punpcklwd	%xmm2, %xmm8
	movd	%esi, %xmm1
	punpcklwd	%xmm4, %xmm1
	punpckldq	%xmm8, %xmm1
	movd	%r8d, %xmm2
	punpcklwd	%xmm5, %xmm2
	punpcklqdq	%xmm2, %xmm1
	pmullw	%xmm6, %xmm1
	pxor	%xmm2, %xmm2
	movdqa	%xmm0, %xmm3
	punpcklwd	%xmm2, %xmm3
	movdqa	%xmm3, %xmm4
	punpckldq	%xmm2, %xmm4
	punpckhwd	%xmm2, %xmm0
	movdqa	%xmm0, %xmm5
	punpckldq	%xmm2, %xmm5
	punpckhdq	%xmm2, %xmm0
	punpckhdq	%xmm2, %xmm3
	movdqa	%xmm1, %xmm6
	punpcklwd	%xmm2, %xmm6
	movdqa	%xmm6, %xmm7
	punpckldq	%xmm2, %xmm7
	paddq	%xmm4, %xmm7
	punpckhwd	%xmm2, %xmm1
	punpckldq	%xmm2, %xmm1
	paddq	%xmm5, %xmm1
	paddq	%xmm7, %xmm1
	punpckhdq	%xmm2, %xmm6
	paddq	%xmm3, %xmm6
	paddq	%xmm0, %xmm6
	paddq	%xmm1, %xmm6
	movq	%xmm6, %rsi
	pshufd	$238, %xmm6, %xmm0
	movq	%xmm0, %r8
	addq	%rsi, %r8
	leal	14(%r9), %esi
	shrl	$4, %esi
	movzbl	%dl, %edx
	xorl	%r9d, %edx
	imulq	%rsi, %rdx
	orq	%r8, %rdx
	je	.Lluossavin_x86_64.BB22_89
	movb	$13, %al
	jmp	.Lluossavin_x86_64.BB22_64
.Lluossavin_x86_64.BB22_53:
	movq	%rdi, 80(%rsp)
.Lluossavin_x86_64.BB22_54:
	movq	4824(%rsp), %rax
	movdqu	(%rax), %xmm0
	pxor	%xmm1, %xmm1
	movdqa	%xmm0, %xmm2
	punpckhbw	%xmm1, %xmm2
	pshuflw	$27, %xmm2, %xmm2
	pshufhw	$27, %xmm2, %xmm2
	punpcklbw	%xmm1, %xmm0
	pshuflw	$27, %xmm0, %xmm0
	pshufhw	$27, %xmm0, %xmm0
	packuswb	%xmm2, %xmm0
	movdqa	%xmm0, 704(%rsp)
	movups	(%r11), %xmm0
	movdqu	16(%r11), %xmm1
	movdqu	32(%r11), %xmm2
	movdqu	48(%r11), %xmm3
	movaps	%xmm0, 1216(%rsp)
	movdqa	%xmm1, 1232(%rsp)
	movdqa	%xmm2, 1248(%rsp)
	movdqa	%xmm3, 1264(%rsp)
	movups	64(%r11), %xmm0
	movaps	%xmm0, 1280(%rsp)
	movups	80(%r11), %xmm0
	movaps	%xmm0, 1296(%rsp)
	movups	96(%r11), %xmm0
	movaps	%xmm0, 1312(%rsp)
	movdqu	112(%r11), %xmm0
	movdqa	%xmm0, 1328(%rsp)
	movq	4848(%rsp), %rax
	movq	%rax, 24(%rsp)
	movq	%rbp, 16(%rsp)
	movq	%r14, 8(%rsp)
	movq	%r9, (%rsp)
	movzbl	%r15b, %esi
	leaq	2240(%rsp), %rdi
	leaq	1216(%rsp), %rdx
	leaq	704(%rsp), %r8
	xorl	%ebp, %ebp
	movl	$2, %ecx
	xorl	%r9d, %r9d
	callq	"stream::stream.x86_64"
	movl	$0, 40(%rsp)
	movl	$0, 43(%rsp)
	xorl	%eax, %eax
	xorl	%r13d, %r13d
	movq	80(%rsp), %rdi
	jmp	.Lluossavin_x86_64.BB22_166
.Lluossavin_x86_64.BB22_55:
	movq	%r14, %rax
	andq	$-16, %rax
	addq	$16, %rax
	jmp	.Lluossavin_x86_64.BB22_22
.Lluossavin_x86_64.BB22_56:
	movb	$6, %al
	jmp	.Lluossavin_x86_64.BB22_7
.Lluossavin_x86_64.BB22_57:
	movq	56(%rsp), %rax
	movups	(%rax), %xmm0
	movups	16(%rax), %xmm1
	movups	32(%rax), %xmm2
	movups	48(%rax), %xmm3
	movaps	%xmm0, 2240(%rsp)
	movaps	%xmm1, 2256(%rsp)
	movaps	%xmm2, 2272(%rsp)
	movaps	%xmm3, 2288(%rsp)
	movups	64(%rax), %xmm0
	movaps	%xmm0, 2304(%rsp)
	movups	80(%rax), %xmm0
	movaps	%xmm0, 2320(%rsp)
	movups	96(%rax), %xmm0
	movaps	%xmm0, 2336(%rsp)
	movups	112(%rax), %xmm0
	movaps	%xmm0, 2352(%rsp)
	xorps	%xmm0, %xmm0
	movaps	%xmm0, 704(%rsp)
	movaps	%xmm0, 368(%rsp)
	leaq	704(%rsp), %rdi
	leaq	2240(%rsp), %rdx
	leaq	368(%rsp), %rcx
	movl	144(%rsp), %esi
	callq	"cipher::encrypt.x86_64"
	movl	704(%rsp), %r15d
	movl	708(%rsp), %eax
	movl	716(%rsp), %ecx
	shlq	$32, %r15
	orq	%rax, %r15
	movl	712(%rsp), %eax
	shlq	$32, %rax
	orq	%rcx, %rax
	cmpq	$12, %r13
	movq	%rax, 136(%rsp)
	jne	.Lluossavin_x86_64.BB22_65
	movq	4824(%rsp), %rdx
	movl	(%rdx), %ecx
	movl	4(%rdx), %eax
	bswapl	%ecx
	movq	%rcx, 72(%rsp)
	bswapl	%eax
	movq	%rax, 96(%rsp)
	movl	8(%rdx), %eax
	bswapl	%eax
	movq	%rax, 64(%rsp)
	movq	$0, 208(%rsp)
	movl	$1, %eax
	movq	%rax, 192(%rsp)
	jmp	.Lluossavin_x86_64.BB22_66
.Lluossavin_x86_64.BB22_59:
	movups	112(%rsi), %xmm0
	movaps	%xmm0, 2352(%rsp)
	movups	96(%rsi), %xmm0
	movaps	%xmm0, 2336(%rsp)
	movups	80(%rsi), %xmm0
	movaps	%xmm0, 2320(%rsp)
	movups	64(%rsi), %xmm0
	movaps	%xmm0, 2304(%rsp)
	movups	(%rsi), %xmm0
	movups	16(%rsi), %xmm1
	movups	32(%rsi), %xmm2
	movups	48(%rsi), %xmm3
	movaps	%xmm3, 2288(%rsp)
	movaps	%xmm2, 2272(%rsp)
	movaps	%xmm1, 2256(%rsp)
	movaps	%xmm0, 2240(%rsp)
	movups	112(%rsi), %xmm0
	movaps	%xmm0, 1328(%rsp)
	movups	96(%rsi), %xmm0
	movaps	%xmm0, 1312(%rsp)
	movups	80(%rsi), %xmm0
	movaps	%xmm0, 1296(%rsp)
	movups	64(%rsi), %xmm0
	movaps	%xmm0, 1280(%rsp)
	movups	(%rsi), %xmm0
	movups	16(%rsi), %xmm1
	movdqu	32(%rsi), %xmm2
	movdqu	48(%rsi), %xmm3
	movdqa	%xmm3, 1264(%rsp)
	movdqa	%xmm2, 1248(%rsp)
	movaps	%xmm1, 1232(%rsp)
	movaps	%xmm0, 1216(%rsp)
	movq	%r14, %r15
	shrq	$4, %r15
	movd	%xmm4, %ebp
	pshufd	$85, %xmm4, %xmm0
	movd	%xmm0, %edx
	pshufd	$238, %xmm4, %xmm0
	movd	%xmm0, %esi
	pshufd	$255, %xmm4, %xmm0
	movd	%xmm0, %r8d
	je	.Lluossavin_x86_64.BB22_62
	movl	$12, %r13d
.Lluossavin_x86_64.BB22_61:
	pxor	%xmm0, %xmm0
	movdqa	%xmm0, 704(%rsp)
	movl	-12(%r9,%r13), %eax
	movl	-8(%r9,%r13), %ecx
	bswapl	%eax
	xorl	%ebp, %eax
	bswapl	%ecx
	xorl	%edx, %ecx
	movl	-4(%r9,%r13), %edx
	bswapl	%edx
	xorl	%esi, %edx
	movl	(%r9,%r13), %esi
	bswapl	%esi
	xorl	%r8d, %esi
	movl	%eax, 3264(%rsp)
	movl	%ecx, 3268(%rsp)
	movl	%edx, 3272(%rsp)
	movl	%esi, 3276(%rsp)
	leaq	704(%rsp), %rdi
	leaq	1216(%rsp), %rdx
	leaq	3264(%rsp), %rcx
	movl	144(%rsp), %esi
	movq	%r9, %rbp
	callq	"cipher::encrypt.x86_64"
	movq	%rbp, %r9
	movl	704(%rsp), %ebp
	movl	708(%rsp), %edx
	movl	712(%rsp), %esi
	movl	716(%rsp), %r8d
	movl	%ebp, %eax
	bswapl	%eax
	movq	4840(%rsp), %rcx
	movl	%eax, -12(%rcx,%r13)
	movl	%edx, %eax
	bswapl	%eax
	movl	%eax, -8(%rcx,%r13)
	movl	%esi, %eax
	bswapl	%eax
	movl	%eax, -4(%rcx,%r13)
	movl	%r8d, %eax
	bswapl	%eax
	movl	%eax, (%rcx,%r13)
	addq	$16, %r13
	decq	%r15
	jne	.Lluossavin_x86_64.BB22_61
.Lluossavin_x86_64.BB22_62:
	movl	%esi, 48(%rsp)
	movq	%r14, %r15
	andq	$-16, %r15
	andl	$15, %r14d
	addq	%r15, %r9
	movb	$16, %al
	subb	%r14b, %al
	movzbl	%al, %eax
	movd	%eax, %xmm0
	punpcklbw	%xmm0, %xmm0
	pshuflw	$0, %xmm0, %xmm0
	pshufd	$68, %xmm0, %xmm0
	movdqa	%xmm0, 1216(%rsp)
	leaq	1216(%rsp), %rdi
	movq	%r9, %rsi
	movl	%edx, %r13d
	movq	%r14, %rdx
	movl	%r8d, %r14d
	callq	memcpy@PLT
	movl	1216(%rsp), %eax
	movl	1220(%rsp), %ecx
	movl	1224(%rsp), %edx
	movl	1228(%rsp), %esi
	pxor	%xmm0, %xmm0
	movdqa	%xmm0, 1216(%rsp)
	bswapl	%eax
	xorl	%ebp, %eax
	bswapl	%ecx
	xorl	%r13d, %ecx
	bswapl	%edx
	xorl	48(%rsp), %edx
	bswapl	%esi
	xorl	%r14d, %esi
	movl	%eax, 704(%rsp)
	movl	%ecx, 708(%rsp)
	movl	%edx, 712(%rsp)
	movl	%esi, 716(%rsp)
	leaq	1216(%rsp), %rdi
	leaq	2240(%rsp), %rdx
	leaq	704(%rsp), %rcx
	movl	144(%rsp), %esi
	callq	"cipher::encrypt.x86_64"
	movdqa	1216(%rsp), %xmm0
	movdqa	%xmm0, %xmm1
	pxor	%xmm2, %xmm2
	punpckhbw	%xmm2, %xmm1
	pshuflw	$27, %xmm1, %xmm1
	pshufhw	$27, %xmm1, %xmm1
	punpcklbw	%xmm2, %xmm0
	pshuflw	$27, %xmm0, %xmm0
	pshufhw	$27, %xmm0, %xmm0
	packuswb	%xmm1, %xmm0
	movq	4840(%rsp), %rax
	movdqu	%xmm0, (%rax,%r15)
	addq	$16, %r15
	jmp	.Lluossavin_x86_64.BB22_164
.Lluossavin_x86_64.BB22_63:
	movb	$2, %al
.Lluossavin_x86_64.BB22_64:
	movl	$0, 43(%rsp)
	movl	$0, 40(%rsp)
	movb	$1, %bpl
	xorl	%r15d, %r15d
	jmp	.Lluossavin_x86_64.BB22_165
.Lluossavin_x86_64.BB22_65:
	xorps	%xmm0, %xmm0
	movaps	%xmm0, 704(%rsp)
	movaps	%xmm0, 720(%rsp)
	movq	%r15, 368(%rsp)
	movq	%rax, 376(%rsp)
	movups	%xmm0, 384(%rsp)
	leaq	704(%rsp), %rbp
	leaq	368(%rsp), %rsi
	movq	%rbp, %rdi
	movq	4824(%rsp), %rdx
	movq	%r13, %rcx
	callq	"ghash::Ghash::absorb_all.x86_64"
	movq	$0, 208(%rsp)
	leaq	2240(%rsp), %rdi
	movq	%rbp, %rsi
	xorl	%edx, %edx
	movq	%r13, %rcx
	callq	"ghash::Ghash::absorb_lengths.x86_64"
	movq	2256(%rsp), %rcx
	movq	2264(%rsp), %rdx
	movq	%rcx, 96(%rsp)
	shrq	$32, %rcx
	movq	%rcx, 72(%rsp)
	movq	%rdx, %rax
	movq	%rdx, 192(%rsp)
	shrq	$32, %rax
	movq	%rax, 64(%rsp)
.Lluossavin_x86_64.BB22_66:
	movq	$0, 184(%rsp)
	movq	$0, 264(%rsp)
	movq	$0, 232(%rsp)
	movq	$0, 56(%rsp)
	jmp	.Lluossavin_x86_64.BB22_72
.Lluossavin_x86_64.BB22_67:
	movups	(%rax), %xmm0
	movups	16(%rax), %xmm1
	movups	32(%rax), %xmm2
	movups	48(%rax), %xmm3
	movaps	%xmm0, 2240(%rsp)
	movaps	%xmm1, 2256(%rsp)
	movaps	%xmm2, 2272(%rsp)
	movaps	%xmm3, 2288(%rsp)
	movups	64(%rax), %xmm0
	movaps	%xmm0, 2304(%rsp)
	movups	80(%rax), %xmm0
	movaps	%xmm0, 2320(%rsp)
	movups	96(%rax), %xmm0
	movaps	%xmm0, 2336(%rsp)
	movups	112(%rax), %xmm0
	movaps	%xmm0, 2352(%rsp)
	xorps	%xmm0, %xmm0
	movaps	%xmm0, 704(%rsp)
	movaps	%xmm0, 368(%rsp)
	leaq	704(%rsp), %rdi
	leaq	2240(%rsp), %rdx
	leaq	368(%rsp), %rcx
	movl	$1, %esi
	callq	"cipher::encrypt.x86_64"
	movl	704(%rsp), %edx
	movl	708(%rsp), %eax
	movl	716(%rsp), %ecx
	shlq	$32, %rdx
	orq	%rax, %rdx
	movl	712(%rsp), %eax
	shlq	$32, %rax
	orq	%rcx, %rax
	xorps	%xmm0, %xmm0
	movaps	%xmm0, 704(%rsp)
	movaps	%xmm0, 720(%rsp)
	movq	%rdx, 128(%rsp)
	movq	%rdx, 368(%rsp)
	movq	%rax, 136(%rsp)
	movq	%rax, 376(%rsp)
	movups	%xmm0, 384(%rsp)
	leaq	704(%rsp), %rbp
	leaq	368(%rsp), %rsi
	movq	%rbp, %rdi
	movq	4824(%rsp), %rdx
	movq	%r13, %rcx
	callq	"ghash::Ghash::absorb_all.x86_64"
	xorl	%r15d, %r15d
	leaq	2240(%rsp), %rdi
	movq	%rbp, %rsi
	xorl	%edx, %edx
	movq	%r13, %rcx
	callq	"ghash::Ghash::absorb_lengths.x86_64"
	movq	2256(%rsp), %rbp
	movq	%rbp, 96(%rsp)
	movq	2264(%rsp), %rax
	movq	%rax, 192(%rsp)
	shrq	$32, %rbp
	shrq	$32, %rax
	movq	%rax, 64(%rsp)
	movq	56(%rsp), %rax
	movups	(%rax), %xmm0
	movups	16(%rax), %xmm1
	movups	32(%rax), %xmm2
	movups	48(%rax), %xmm3
	movaps	%xmm0, 368(%rsp)
	movaps	%xmm1, 384(%rsp)
	movaps	%xmm2, 400(%rsp)
	movaps	%xmm3, 416(%rsp)
	movups	64(%rax), %xmm0
	movaps	%xmm0, 432(%rsp)
	movups	80(%rax), %xmm0
	movaps	%xmm0, 448(%rsp)
	movups	96(%rax), %xmm0
	movaps	%xmm0, 464(%rsp)
	movups	112(%rax), %xmm0
	movaps	%xmm0, 480(%rsp)
	movq	120(%rsp), %r13
	shrq	$4, %r13
	leaq	2240(%rsp), %rdi
	movl	$512, %edx
	xorl	%esi, %esi
	callq	memset@PLT
	movq	%rbp, %rax
	movq	%rbp, 72(%rsp)
	bswapl	%eax
	movq	96(%rsp), %rcx
	bswapl	%ecx
	movq	64(%rsp), %rdx
	bswapl	%edx
	movl	%r13d, %edi
	shll	$4, %edi
	addl	$32, %edi
	andl	$992, %edi
	movq	192(%rsp), %rsi
.Lluossavin_x86_64.BB22_68:
	movl	%eax, 2256(%rsp,%r15)
	movl	%ecx, 2260(%rsp,%r15)
	movl	%edx, 2264(%rsp,%r15)
	movl	%esi, %r8d
	bswapl	%r8d
	movl	%r8d, 2268(%rsp,%r15)
	leal	1(%rsi), %r8d
	movl	%eax, 2272(%rsp,%r15)
	movl	%ecx, 2276(%rsp,%r15)
	movl	%edx, 2280(%rsp,%r15)
	bswapl	%r8d
	movl	%r8d, 2284(%rsp,%r15)
	addl	$2, %esi
	addq	$32, %r15
	cmpq	%r15, %rdi
	jne	.Lluossavin_x86_64.BB22_68
	testb	$1, %r13b
	je	.Lluossavin_x86_64.BB22_71
	movl	%eax, 2256(%rsp,%r15)
	movl	%ecx, 2260(%rsp,%r15)
	movl	%edx, 2264(%rsp,%r15)
	bswapl	%esi
	movl	%esi, 2268(%rsp,%r15)
.Lluossavin_x86_64.BB22_71:
	leaq	704(%rsp), %r15
	movl	$512, %edx
	movq	%r15, %rdi
	xorl	%esi, %esi
	callq	memset@PLT
	addq	$3, %r13
	leaq	368(%rsp), %rdi
	leaq	2240(%rsp), %rdx
	movq	%r13, %rsi
	movq	%r15, %rcx
	callq	"sixteen::encrypt.x86_64"
	movl	704(%rsp), %eax
	movq	%rax, 208(%rsp)
	movl	708(%rsp), %eax
	movq	%rax, 184(%rsp)
	movl	712(%rsp), %eax
	movq	%rax, 264(%rsp)
	movl	716(%rsp), %eax
	movq	%rax, 232(%rsp)
	leaq	720(%rsp), %rsi
	leaq	3760(%rsp), %r13
	movl	$496, %edx
	movq	%r13, %rdi
	callq	memcpy@PLT
	leaq	3264(%rsp), %rdi
	movl	$496, %edx
	movq	%r13, %rsi
	callq	memcpy@PLT
	movb	$1, %al
	movq	%rax, 56(%rsp)
	movq	128(%rsp), %r15
.Lluossavin_x86_64.BB22_72:
	leaq	4264(%rsp), %rdi
	leaq	3264(%rsp), %rsi
	movl	$496, %edx
	callq	memcpy@PLT
	movq	120(%rsp), %rbp
	movq	%rbp, %r13
	shrq	$4, %r13
	movq	136(%rsp), %rax
	movq	192(%rsp), %rcx
	movq	208(%rsp), %rdx
	movq	56(%rsp), %rsi
	movq	264(%rsp), %rdi
.Lluossavin_x86_64.BB22_73:
	movq	%rsi, 56(%rsp)
	movq	%r15, 128(%rsp)
	movq	%r15, 1216(%rsp)
	movq	%rax, 136(%rsp)
	movq	%rax, 1224(%rsp)
	movq	72(%rsp), %rax
	movl	%eax, 1232(%rsp)
	movq	96(%rsp), %rax
	movl	%eax, 1236(%rsp)
	movq	64(%rsp), %rax
	movl	%eax, 1240(%rsp)
	movl	%ecx, 1244(%rsp)
	movb	%sil, 1248(%rsp)
	movl	%edx, 1249(%rsp)
	movq	184(%rsp), %rax
	movl	%eax, 1253(%rsp)
	movl	%edi, 1257(%rsp)
	movq	232(%rsp), %rax
	movl	%eax, 1261(%rsp)
	leaq	1265(%rsp), %rdi
	leaq	4264(%rsp), %rsi
	movq	%rcx, %r15
	movl	$496, %edx
	callq	memcpy@PLT
	movq	%r15, %rcx
	andl	$15, %ebp
	cmpq	$1, %rbp
	sbbq	$-1, %r13
	movl	%ecx, %eax
	notl	%eax
	cmpq	%rax, %r13
	seta	%r13b
	cmpb	$0, 92(%rsp)
	je	.Lluossavin_x86_64.BB22_79
	leaq	499(%rsp), %rax
	movups	(%rax), %xmm0
	movdqu	16(%rax), %xmm1
	movdqu	32(%rax), %xmm2
	movdqu	48(%rax), %xmm3
	movaps	%xmm0, 704(%rsp)
	movdqa	%xmm1, 720(%rsp)
	movdqa	%xmm2, 736(%rsp)
	movdqa	%xmm3, 752(%rsp)
	movups	64(%rax), %xmm0
	movaps	%xmm0, 768(%rsp)
	movups	80(%rax), %xmm0
	movaps	%xmm0, 784(%rsp)
	movups	96(%rax), %xmm0
	movaps	%xmm0, 800(%rsp)
	movdqu	112(%rax), %xmm0
	movdqa	%xmm0, 816(%rsp)
	pxor	%xmm4, %xmm4
	movdqa	%xmm4, 336(%rsp)
	cmpb	$0, 56(%rsp)
	movl	144(%rsp), %esi
	je	.Lluossavin_x86_64.BB22_83
	movl	1265(%rsp), %ecx
	movl	1269(%rsp), %eax
	bswapl	%ecx
	movl	%ecx, 96(%rsp)
	bswapl	%eax
	movl	%eax, 144(%rsp)
	movl	1273(%rsp), %eax
	bswapl	%eax
	movl	%eax, 56(%rsp)
	movl	1277(%rsp), %eax
	bswapl	%eax
	movl	%eax, 72(%rsp)
	movdqa	%xmm4, 3264(%rsp)
	movdqa	%xmm4, 3280(%rsp)
	movdqa	%xmm4, 3760(%rsp)
	movdqa	%xmm4, 3776(%rsp)
	movq	128(%rsp), %rax
	movq	%rax, 368(%rsp)
	movq	136(%rsp), %rax
	movq	%rax, 376(%rsp)
	movdqu	%xmm4, 384(%rsp)
	leaq	3760(%rsp), %r15
	leaq	368(%rsp), %rsi
	movq	%r15, %rdi
	movq	216(%rsp), %rdx
	movq	200(%rsp), %rbp
	movq	%rbp, %rcx
	callq	"ghash::Ghash::absorb_all.x86_64"
	leaq	3264(%rsp), %rdi
	movq	%r15, %rsi
	movq	48(%rsp), %r15
	movq	%r15, %rdx
	leaq	-16(%r14), %rcx
	callq	"ghash::Ghash::absorb_all.x86_64"
	leaq	2240(%rsp), %rdi
	leaq	3264(%rsp), %rsi
	movq	%rbp, %rdx
	leaq	-16(%r14), %rbp
	movq	%rbp, %rcx
	callq	"ghash::Ghash::absorb_lengths.x86_64"
	movq	2256(%rsp), %rcx
	movq	2264(%rsp), %rax
	movq	%rcx, %rdx
	shrq	$32, %rdx
	movq	%rax, %rsi
	shrq	$32, %rsi
	xorl	96(%rsp), %edx
	xorl	144(%rsp), %ecx
	xorl	56(%rsp), %esi
	xorl	72(%rsp), %eax
	movl	-16(%r15,%r14), %edi
	movl	-12(%r15,%r14), %r8d
	bswapl	%edi
	xorl	%edx, %edi
	bswapl	%r8d
	xorl	%ecx, %r8d
	movl	-8(%r15,%r14), %ecx
	bswapl	%ecx
	xorl	%esi, %ecx
	movl	-4(%r15,%r14), %edx
	bswapl	%edx
	xorl	%eax, %edx
	addq	%rdi, %r8
	addq	%r8, %rcx
	orq	%rcx, %rdx
	jne	.Lluossavin_x86_64.BB22_84
	testq	%rbp, %rbp
	movq	80(%rsp), %rdi
	movq	4840(%rsp), %rsi
	movq	%rbp, %r8
	je	.Lluossavin_x86_64.BB22_87
	cmpq	$4, %r8
	setb	%al
	movq	%rsi, %rcx
	subq	%r15, %rcx
	cmpq	$32, %rcx
	setb	%cl
	orb	%al, %cl
	je	.Lluossavin_x86_64.BB22_113
	xorl	%eax, %eax
	jmp	.Lluossavin_x86_64.BB22_153
.Lluossavin_x86_64.BB22_79:
	leaq	499(%rsp), %rax
	movups	(%rax), %xmm0
	movups	16(%rax), %xmm1
	movups	32(%rax), %xmm2
	movdqu	48(%rax), %xmm3
	movaps	%xmm0, 2240(%rsp)
	movaps	%xmm1, 2256(%rsp)
	movaps	%xmm2, 2272(%rsp)
	movdqa	%xmm3, 2288(%rsp)
	movups	64(%rax), %xmm0
	movaps	%xmm0, 2304(%rsp)
	movups	80(%rax), %xmm0
	movaps	%xmm0, 2320(%rsp)
	movups	96(%rax), %xmm0
	movaps	%xmm0, 2336(%rsp)
	movups	112(%rax), %xmm0
	movaps	%xmm0, 2352(%rsp)
	cmpb	$0, 56(%rsp)
	movl	144(%rsp), %r15d
	je	.Lluossavin_x86_64.BB22_85
	movups	1265(%rsp), %xmm0
	movaps	%xmm0, 144(%rsp)
	testq	%r14, %r14
	movq	48(%rsp), %rax
	movq	200(%rsp), %rbp
	movq	216(%rsp), %rdx
	movq	128(%rsp), %r15
	movq	4840(%rsp), %r10
	je	.Lluossavin_x86_64.BB22_139
	cmpq	$4, %r14
	setb	%sil
	movq	%r10, %rdi
	subq	%rax, %rdi
	cmpq	$32, %rdi
	setb	%dil
	orb	%sil, %dil
	je	.Lluossavin_x86_64.BB22_97
	xorl	%esi, %esi
	jmp	.Lluossavin_x86_64.BB22_134
.Lluossavin_x86_64.BB22_83:
	movups	112(%rax), %xmm0
	movaps	%xmm0, 2352(%rsp)
	movups	96(%rax), %xmm0
	movaps	%xmm0, 2336(%rsp)
	movups	80(%rax), %xmm0
	movaps	%xmm0, 2320(%rsp)
	movups	64(%rax), %xmm0
	movaps	%xmm0, 2304(%rsp)
	movdqu	(%rax), %xmm0
	movdqu	16(%rax), %xmm1
	movdqu	32(%rax), %xmm2
	movdqu	48(%rax), %xmm3
	movdqa	%xmm3, 2288(%rsp)
	movdqa	%xmm2, 2272(%rsp)
	movdqa	%xmm1, 2256(%rsp)
	movdqa	%xmm0, 2240(%rsp)
	movq	72(%rsp), %rax
	movl	%eax, 320(%rsp)
	movq	96(%rsp), %rax
	movl	%eax, 324(%rsp)
	movq	64(%rsp), %rax
	movl	%eax, 328(%rsp)
	movl	%ecx, 332(%rsp)
	movdqa	%xmm4, 272(%rsp)
	leaq	272(%rsp), %rdi
	movq	%rcx, 192(%rsp)
	leaq	2240(%rsp), %rdx
	leaq	320(%rsp), %rcx
	callq	"cipher::encrypt.x86_64"
	movl	272(%rsp), %eax
	movl	%eax, 184(%rsp)
	movl	276(%rsp), %eax
	movl	%eax, 92(%rsp)
	movl	280(%rsp), %eax
	movl	%eax, 120(%rsp)
	movl	284(%rsp), %eax
	movl	%eax, 56(%rsp)
	pxor	%xmm0, %xmm0
	movdqa	%xmm0, 3760(%rsp)
	movdqa	%xmm0, 3776(%rsp)
	movdqa	%xmm0, 368(%rsp)
	movdqa	%xmm0, 384(%rsp)
	movq	128(%rsp), %rax
	movq	%rax, 672(%rsp)
	movq	136(%rsp), %rax
	movq	%rax, 680(%rsp)
	movdqu	%xmm0, 688(%rsp)
	leaq	368(%rsp), %r15
	leaq	672(%rsp), %rsi
	movq	%r15, %rdi
	movq	216(%rsp), %rdx
	movq	200(%rsp), %rcx
	callq	"ghash::Ghash::absorb_all.x86_64"
	leaq	3760(%rsp), %rdi
	movq	%r15, %rsi
	movq	48(%rsp), %rbp
	movq	%rbp, %rdx
	leaq	-16(%r14), %r15
	movq	%r15, %rcx
	callq	"ghash::Ghash::absorb_all.x86_64"
	leaq	3264(%rsp), %rdi
	leaq	3760(%rsp), %rsi
	movq	200(%rsp), %rdx
	movq	%r15, %rcx
	callq	"ghash::Ghash::absorb_lengths.x86_64"
	movq	3280(%rsp), %rcx
	movq	3288(%rsp), %rax
	movq	%rcx, %rdx
	shrq	$32, %rdx
	movq	%rax, %rsi
	shrq	$32, %rsi
	xorl	184(%rsp), %edx
	xorl	92(%rsp), %ecx
	xorl	120(%rsp), %esi
	xorl	56(%rsp), %eax
	movl	-16(%rbp,%r14), %edi
	movl	-12(%rbp,%r14), %r8d
	bswapl	%edi
	xorl	%edx, %edi
	bswapl	%r8d
	xorl	%ecx, %r8d
	movl	-8(%rbp,%r14), %ecx
	bswapl	%ecx
	xorl	%esi, %ecx
	movl	-4(%rbp,%r14), %edx
	bswapl	%edx
	xorl	%eax, %edx
	addq	%rdi, %r8
	addq	%r8, %rcx
	orq	%rcx, %rdx
	je	.Lluossavin_x86_64.BB22_86
.Lluossavin_x86_64.BB22_84:
	movb	$3, %al
	movb	$1, %bpl
	xorl	%r8d, %r8d
	xorl	%r13d, %r13d
	movq	80(%rsp), %rdi
	jmp	.Lluossavin_x86_64.BB22_88
.Lluossavin_x86_64.BB22_85:
	leal	1(%rcx), %eax
	movq	72(%rsp), %rdx
	movl	%edx, 272(%rsp)
	movq	96(%rsp), %rdx
	movl	%edx, 276(%rsp)
	movq	64(%rsp), %rdx
	movl	%edx, 280(%rsp)
	movl	%eax, 284(%rsp)
	movq	4848(%rsp), %rax
	movq	%rax, 24(%rsp)
	movq	4840(%rsp), %rax
	movq	%rax, 16(%rsp)
	movq	%r14, 8(%rsp)
	movq	48(%rsp), %rax
	movq	%rax, (%rsp)
	leaq	672(%rsp), %rdi
	leaq	2240(%rsp), %rdx
	leaq	272(%rsp), %r8
	movl	%r15d, %esi
	movq	%rcx, %rbp
	movl	$4, %ecx
	xorl	%r9d, %r9d
	callq	"stream::stream.x86_64"
	movq	72(%rsp), %rax
	movl	%eax, 640(%rsp)
	movq	96(%rsp), %rax
	movl	%eax, 644(%rsp)
	movq	64(%rsp), %rax
	movl	%eax, 648(%rsp)
	movl	%ebp, 652(%rsp)
	xorps	%xmm0, %xmm0
	movaps	%xmm0, 320(%rsp)
	leaq	320(%rsp), %rdi
	leaq	640(%rsp), %rcx
	movl	%r15d, %esi
	leaq	2240(%rsp), %rdx
	callq	"cipher::encrypt.x86_64"
	xorps	%xmm0, %xmm0
	movaps	%xmm0, 3264(%rsp)
	movaps	%xmm0, 3280(%rsp)
	movaps	%xmm0, 3760(%rsp)
	movaps	%xmm0, 3776(%rsp)
	movq	128(%rsp), %rax
	movq	%rax, 368(%rsp)
	movq	136(%rsp), %rax
	movq	%rax, 376(%rsp)
	movups	%xmm0, 384(%rsp)
	leaq	3760(%rsp), %rdi
	leaq	368(%rsp), %rsi
	movq	216(%rsp), %rdx
	movq	200(%rsp), %rbp
	movq	%rbp, %rcx
	callq	"ghash::Ghash::absorb_all.x86_64"
	leaq	3264(%rsp), %r15
	movq	%r15, %rdi
	leaq	3760(%rsp), %rsi
	movq	4840(%rsp), %rdx
	movq	%r14, %rcx
	callq	"ghash::Ghash::absorb_all.x86_64"
	leaq	704(%rsp), %rdi
	movq	%r15, %rsi
	movq	%rbp, %rdx
	movq	%r14, %rcx
	callq	"ghash::Ghash::absorb_lengths.x86_64"
	movq	720(%rsp), %rax
	movq	728(%rsp), %rcx
	movd	%ecx, %xmm0
	shrq	$32, %rcx
	movd	%eax, %xmm1
	shrq	$32, %rax
	movd	%ecx, %xmm2
	punpckldq	%xmm0, %xmm2
	movd	%eax, %xmm0
	punpckldq	%xmm1, %xmm0
	punpcklqdq	%xmm2, %xmm0
	pxor	320(%rsp), %xmm0
	movdqa	%xmm0, %xmm1
	pxor	%xmm2, %xmm2
	punpckhbw	%xmm2, %xmm1
	pshuflw	$27, %xmm1, %xmm1
	pshufhw	$27, %xmm1, %xmm1
	punpcklbw	%xmm2, %xmm0
	pshuflw	$27, %xmm0, %xmm0
	pshufhw	$27, %xmm0, %xmm0
	packuswb	%xmm1, %xmm0
	movq	4840(%rsp), %rax
	movdqu	%xmm0, (%rax,%r14)
	jmp	.Lluossavin_x86_64.BB22_140
.Lluossavin_x86_64.BB22_86:
	movq	192(%rsp), %rcx
	incl	%ecx
	movq	72(%rsp), %rax
	movl	%eax, 336(%rsp)
	movq	96(%rsp), %rax
	movl	%eax, 340(%rsp)
	movq	64(%rsp), %rax
	movl	%eax, 344(%rsp)
	movl	%ecx, 348(%rsp)
	movq	4848(%rsp), %rax
	movq	%rax, 24(%rsp)
	movq	4840(%rsp), %rax
	movq	%rax, 16(%rsp)
	movq	%r15, 8(%rsp)
	movq	%rbp, (%rsp)
	leaq	640(%rsp), %rdi
	leaq	704(%rsp), %rdx
	leaq	336(%rsp), %r8
	movl	144(%rsp), %esi
	movl	$4, %ecx
	xorl	%r9d, %r9d
	callq	"stream::stream.x86_64"
	movq	80(%rsp), %rdi
	movq	%r15, %r8
.Lluossavin_x86_64.BB22_87:
	movl	304(%rsp), %eax
	movl	307(%rsp), %ecx
	movl	%eax, 248(%rsp)
	movl	%ecx, 251(%rsp)
	xorl	%ebp, %ebp
	xorl	%eax, %eax
.Lluossavin_x86_64.BB22_88:
	movl	248(%rsp), %ecx
	movl	251(%rsp), %edx
	movl	%edx, 179(%rsp)
	movl	%ecx, 176(%rsp)
	movq	%r8, %r14
	jmp	.Lluossavin_x86_64.BB22_141
.Lluossavin_x86_64.BB22_89:
	movl	%r9d, %ecx
	movl	$16, %edx
	subq	%rcx, %rdx
	movq	%rdx, 264(%rsp)
	cmpq	$3072, %rbp
	movq	%rbp, 208(%rsp)
	jb	.Lluossavin_x86_64.BB22_99
	cmpb	$1, %r15b
	jne	.Lluossavin_x86_64.BB22_99
	movdqa	%xmm2, 1216(%rsp)
	movdqu	(%rax), %xmm0
	movdqa	%xmm0, %xmm1
	punpckhbw	%xmm2, %xmm1
	pshuflw	$27, %xmm1, %xmm1
	pshufhw	$27, %xmm1, %xmm1
	punpcklbw	%xmm2, %xmm0
	pshuflw	$27, %xmm0, %xmm0
	pshufhw	$27, %xmm0, %xmm0
	packuswb	%xmm1, %xmm0
	movdqa	%xmm0, 2240(%rsp)
	leaq	1216(%rsp), %rdi
	leaq	704(%rsp), %rdx
	leaq	2240(%rsp), %rcx
	movl	$1, %esi
	callq	"cipher::encrypt.x86_64"
	movdqa	1216(%rsp), %xmm0
	pxor	96(%rsp), %xmm0
	movdqa	%xmm0, %xmm1
	pxor	%xmm2, %xmm2
	punpckhbw	%xmm2, %xmm1
	pshuflw	$27, %xmm1, %xmm1
	pshufhw	$27, %xmm1, %xmm1
	punpcklbw	%xmm2, %xmm0
	pshuflw	$27, %xmm0, %xmm0
	pshufhw	$27, %xmm0, %xmm0
	packuswb	%xmm1, %xmm0
	movq	4840(%rsp), %rax
	movdqu	%xmm0, (%rax)
	addq	$-32, %r14
	movl	$16, %ebp
	cmpq	$3072, %r14
	jb	.Lluossavin_x86_64.BB22_95
	movq	208(%rsp), %r13
.Lluossavin_x86_64.BB22_93:
	movq	%rbp, %r15
	shrq	$4, %r14
	cmpq	$512, %r14
	movl	$512, %ebp
	cmovbq	%r14, %rbp
	movq	48(%rsp), %rax
	leaq	(%rax,%r15), %rdx
	leaq	-16(%rax,%r15), %rcx
	movq	4840(%rsp), %rax
	leaq	(%rax,%r15), %r8
	leaq	704(%rsp), %rdi
	movq	%rbp, %rsi
	callq	"sliced::encrypt_xored.x86_64"
	shll	$4, %ebp
	addq	%r15, %rbp
	movq	%r13, %r14
	subq	%rbp, %r14
	cmpq	$3071, %r14
	ja	.Lluossavin_x86_64.BB22_93
	testq	%rbp, %rbp
	je	.Lluossavin_x86_64.BB22_167
.Lluossavin_x86_64.BB22_95:
	movq	48(%rsp), %rax
	movdqu	-16(%rax,%rbp), %xmm0
	movdqa	%xmm0, %xmm1
	pxor	%xmm2, %xmm2
	punpckhbw	%xmm2, %xmm1
	pshuflw	$27, %xmm1, %xmm1
	pshufhw	$27, %xmm1, %xmm1
	punpcklbw	%xmm2, %xmm0
	pshuflw	$27, %xmm0, %xmm0
	pshufhw	$27, %xmm0, %xmm2
	packuswb	%xmm1, %xmm2
.Lluossavin_x86_64.BB22_96:
	addq	%rbp, %rax
	movq	208(%rsp), %rcx
	subq	%rbp, %rcx
	addq	4840(%rsp), %rbp
	movq	%rbp, 224(%rsp)
	movd	%xmm2, %r13d
	pshufd	$85, %xmm2, %xmm0
	movd	%xmm0, %edi
	pshufd	$238, %xmm2, %xmm0
	movd	%xmm0, %r8d
	pshufd	$255, %xmm2, %xmm0
	movd	%xmm0, 64(%rsp)
	jmp	.Lluossavin_x86_64.BB22_101
.Lluossavin_x86_64.BB22_97:
	cmpq	$32, %r14
	jae	.Lluossavin_x86_64.BB22_127
	xorl	%esi, %esi
	jmp	.Lluossavin_x86_64.BB22_131
.Lluossavin_x86_64.BB22_99:
	cmpb	$1, %r15b
	jne	.Lluossavin_x86_64.BB22_142
	movdqa	96(%rsp), %xmm1
	movd	%xmm1, %r13d
	pshufd	$85, %xmm1, %xmm0
	movd	%xmm0, %edi
	pshufd	$238, %xmm1, %xmm0
	movd	%xmm0, %r8d
	pshufd	$255, %xmm1, %xmm0
	movd	%xmm0, 64(%rsp)
	movq	4840(%rsp), %rcx
	movq	%rcx, 224(%rsp)
	movq	%rbp, %rcx
.Lluossavin_x86_64.BB22_101:
	movq	%rcx, 360(%rsp)
	shrq	$10, %rcx
	movq	%rcx, 200(%rsp)
	movq	%rax, 48(%rsp)
	movl	%edi, 128(%rsp)
	movl	%r8d, 120(%rsp)
	je	.Lluossavin_x86_64.BB22_110
	leaq	32(%rax), %r14
	movq	224(%rsp), %rcx
	leaq	48(%rcx), %r15
	xorl	%ecx, %ecx
	movl	%r13d, 192(%rsp)
.Lluossavin_x86_64.BB22_103:
	movq	%rcx, %rdx
	shlq	$10, %rdx
	movl	%edi, %esi
	movl	64(%rsp), %edi
	movq	%rcx, 144(%rsp)
	testq	%rcx, %rcx
	je	.Lluossavin_x86_64.BB22_105
	movl	-16(%rax,%rdx), %r13d
	movl	-12(%rax,%rdx), %esi
	bswapl	%r13d
	bswapl	%esi
	movl	-8(%rax,%rdx), %r8d
	bswapl	%r8d
	movl	-4(%rax,%rdx), %edi
	bswapl	%edi
.Lluossavin_x86_64.BB22_105:
	movl	%esi, 72(%rsp)
	movl	%r8d, 136(%rsp)
	movl	%edi, 56(%rsp)
	addq	%rax, %rdx
	movq	%rdx, 96(%rsp)
	xorl	%ebp, %ebp
	movl	$1008, %edx
	leaq	1232(%rsp), %rdi
	xorl	%esi, %esi
	callq	memset@PLT
	bswapl	%r13d
	movl	%r13d, 1216(%rsp)
	movl	72(%rsp), %eax
	bswapl	%eax
	movl	%eax, 1220(%rsp)
	movl	136(%rsp), %eax
	bswapl	%eax
	movl	%eax, 1224(%rsp)
	movl	56(%rsp), %eax
	bswapl	%eax
	movl	%eax, 1228(%rsp)
.Lluossavin_x86_64.BB22_106:
	movups	-32(%r14,%rbp), %xmm0
	movups	%xmm0, 1232(%rsp,%rbp)
	movups	-16(%r14,%rbp), %xmm0
	movups	%xmm0, 1248(%rsp,%rbp)
	movdqu	(%r14,%rbp), %xmm0
	movdqu	%xmm0, 1264(%rsp,%rbp)
	addq	$48, %rbp
	cmpq	$1008, %rbp
	jne	.Lluossavin_x86_64.BB22_106
	leaq	2240(%rsp), %r13
	xorl	%ebp, %ebp
	movl	$1024, %edx
	movq	%r13, %rdi
	xorl	%esi, %esi
	callq	memset@PLT
	leaq	704(%rsp), %rdi
	movl	$64, %esi
	movq	96(%rsp), %rdx
	movq	%r13, %rcx
	callq	"sixteen::encrypt.x86_64"
	movl	192(%rsp), %r13d
	movl	128(%rsp), %edi
	movl	120(%rsp), %r8d
.Lluossavin_x86_64.BB22_108:
	movups	2240(%rsp,%rbp), %xmm0
	movups	2256(%rsp,%rbp), %xmm1
	movups	1216(%rsp,%rbp), %xmm2
	xorps	%xmm0, %xmm2
	movups	1232(%rsp,%rbp), %xmm0
	xorps	%xmm1, %xmm0
	movups	%xmm2, -48(%r15,%rbp)
	movups	%xmm0, -32(%r15,%rbp)
	movdqu	2272(%rsp,%rbp), %xmm0
	movdqu	2288(%rsp,%rbp), %xmm1
	movdqu	1248(%rsp,%rbp), %xmm2
	pxor	%xmm0, %xmm2
	movdqu	1264(%rsp,%rbp), %xmm0
	pxor	%xmm1, %xmm0
	movdqu	%xmm2, -16(%r15,%rbp)
	movdqu	%xmm0, (%r15,%rbp)
	addq	$64, %rbp
	cmpq	$1024, %rbp
	jne	.Lluossavin_x86_64.BB22_108
	movq	144(%rsp), %rcx
	incq	%rcx
	addq	$1024, %r14
	addq	$1024, %r15
	cmpq	200(%rsp), %rcx
	movq	48(%rsp), %rax
	jne	.Lluossavin_x86_64.BB22_103
.Lluossavin_x86_64.BB22_110:
	movq	360(%rsp), %rbp
	movl	%ebp, %r14d
	shrl	$4, %r14d
	andl	$63, %r14d
	movq	%rbp, %rcx
	andq	$-1024, %rcx
	movq	%rcx, 144(%rsp)
	je	.Lluossavin_x86_64.BB22_115
	movl	-16(%rax,%rcx), %r15d
	movl	-12(%rax,%rcx), %r13d
	movl	-8(%rax,%rcx), %ebp
	movl	-4(%rax,%rcx), %eax
	movl	%eax, 64(%rsp)
	leaq	1232(%rsp), %rdi
	movl	$1008, %edx
	xorl	%esi, %esi
	callq	memset@PLT
	testq	%r14, %r14
	je	.Lluossavin_x86_64.BB22_162
	bswapl	%r15d
	bswapl	%r13d
	movl	%r13d, 128(%rsp)
	bswapl	%ebp
	movl	%ebp, 120(%rsp)
	movl	64(%rsp), %ecx
	bswapl	%ecx
	jmp	.Lluossavin_x86_64.BB22_116
.Lluossavin_x86_64.BB22_113:
	cmpq	$32, %r8
	jae	.Lluossavin_x86_64.BB22_146
	xorl	%eax, %eax
	movq	48(%rsp), %r15
	leaq	-16(%r14), %r8
	jmp	.Lluossavin_x86_64.BB22_150
.Lluossavin_x86_64.BB22_115:
	movl	%r13d, %r15d
	leaq	1232(%rsp), %rdi
	movl	$1008, %edx
	xorl	%esi, %esi
	callq	memset@PLT
	testq	%r14, %r14
	movl	64(%rsp), %ecx
	je	.Lluossavin_x86_64.BB22_162
.Lluossavin_x86_64.BB22_116:
	movq	48(%rsp), %rax
	movq	144(%rsp), %rdi
	leaq	(%rax,%rdi), %r13
	bswapl	%r15d
	movl	%r15d, 1216(%rsp)
	movl	128(%rsp), %eax
	bswapl	%eax
	movl	%eax, 1220(%rsp)
	movl	120(%rsp), %eax
	bswapl	%eax
	movl	%eax, 1224(%rsp)
	bswapl	%ecx
	movl	%ecx, 1228(%rsp)
	cmpl	$1, %r14d
	je	.Lluossavin_x86_64.BB22_123
	leaq	-1(%r14), %rcx
	leal	-2(%r14), %esi
	movl	%ecx, %eax
	andl	$3, %eax
	movl	$1, %edx
	cmpl	$3, %esi
	jb	.Lluossavin_x86_64.BB22_121
	andq	$-4, %rcx
	negq	%rcx
	movl	$48, %esi
.Lluossavin_x86_64.BB22_119:
	movups	-48(%r13,%rsi), %xmm0
	movups	%xmm0, 1184(%rsp,%rsi)
	movups	-32(%r13,%rsi), %xmm0
	movups	%xmm0, 1200(%rsp,%rsi)
	movups	-16(%r13,%rsi), %xmm0
	movups	%xmm0, 1216(%rsp,%rsi)
	movdqu	(%r13,%rsi), %xmm0
	movdqu	%xmm0, 1232(%rsp,%rsi)
	addq	$64, %rsi
	leaq	(%rcx,%rdx), %rdi
	addq	$4, %rdi
	addq	$4, %rdx
	cmpq	$1, %rdi
	jne	.Lluossavin_x86_64.BB22_119
	testq	%rax, %rax
	movq	144(%rsp), %rdi
	je	.Lluossavin_x86_64.BB22_123
.Lluossavin_x86_64.BB22_121:
	shlq	$4, %rdx
	leaq	(%rsp,%rdx), %rcx
	addq	$1216, %rcx
	addq	%rdi, %rdx
	movq	48(%rsp), %rsi
	addq	%rsi, %rdx
	addq	$-16, %rdx
	shll	$4, %eax
	xorl	%esi, %esi
.Lluossavin_x86_64.BB22_122:
	movdqu	(%rdx,%rsi), %xmm0
	movdqu	%xmm0, (%rcx,%rsi)
	addq	$16, %rsi
	cmpq	%rsi, %rax
	jne	.Lluossavin_x86_64.BB22_122
.Lluossavin_x86_64.BB22_123:
	movq	224(%rsp), %rax
	leaq	(%rax,%rdi), %r15
	leaq	2240(%rsp), %rbp
	movl	$1024, %edx
	movq	%rbp, %rdi
	xorl	%esi, %esi
	callq	memset@PLT
	leaq	704(%rsp), %rdi
	movq	%r14, %rsi
	movq	%r13, %rdx
	movq	%rbp, %rcx
	callq	"sixteen::encrypt.x86_64"
	movl	%r14d, %eax
	shll	$4, %eax
	testq	%r14, %r14
	je	.Lluossavin_x86_64.BB22_161
	cmpl	$1, %r14d
	jne	.Lluossavin_x86_64.BB22_157
	xorl	%r14d, %r14d
.Lluossavin_x86_64.BB22_126:
	movdqu	2240(%rsp,%r14), %xmm0
	movdqu	1216(%rsp,%r14), %xmm1
	pxor	%xmm0, %xmm1
	movdqu	%xmm1, (%r15,%r14)
	addq	$16, %r14
	cmpq	%r14, %rax
	jne	.Lluossavin_x86_64.BB22_126
	jmp	.Lluossavin_x86_64.BB22_162
.Lluossavin_x86_64.BB22_127:
	movq	%r14, %rsi
	andq	$-32, %rsi
	xorl	%ecx, %ecx
.Lluossavin_x86_64.BB22_128:
	movups	1281(%rsp,%rcx), %xmm0
	movups	1297(%rsp,%rcx), %xmm1
	movups	(%rax,%rcx), %xmm2
	xorps	%xmm0, %xmm2
	movups	16(%rax,%rcx), %xmm0
	xorps	%xmm1, %xmm0
	movups	%xmm2, (%r10,%rcx)
	movups	%xmm0, 16(%r10,%rcx)
	addq	$32, %rcx
	cmpq	%rcx, %rsi
	jne	.Lluossavin_x86_64.BB22_128
	cmpq	%rsi, %r14
	movq	200(%rsp), %rbp
	movq	216(%rsp), %rdx
	je	.Lluossavin_x86_64.BB22_139
	testb	$28, %r14b
	je	.Lluossavin_x86_64.BB22_134
.Lluossavin_x86_64.BB22_131:
	movq	%rsi, %rdi
	movq	%r14, %rsi
	andq	$-4, %rsi
.Lluossavin_x86_64.BB22_132:
	movl	(%rax,%rdi), %r8d
	xorl	1281(%rsp,%rdi), %r8d
	movl	%r8d, (%r10,%rdi)
	addq	$4, %rdi
	cmpq	%rdi, %rsi
	jne	.Lluossavin_x86_64.BB22_132
	cmpq	%rsi, %r14
	je	.Lluossavin_x86_64.BB22_139
.Lluossavin_x86_64.BB22_134:
	movq	%r14, %r8
	movq	%rsi, %rdi
	andq	$3, %r8
	je	.Lluossavin_x86_64.BB22_137
	movq	%rsi, %rdi
.Lluossavin_x86_64.BB22_136:
	movzbl	(%rax,%rdi), %r9d
	xorb	1281(%rsp,%rdi), %r9b
	movb	%r9b, (%r10,%rdi)
	incq	%rdi
	decq	%r8
	jne	.Lluossavin_x86_64.BB22_136
.Lluossavin_x86_64.BB22_137:
	subq	%r14, %rsi
	cmpq	$-4, %rsi
	ja	.Lluossavin_x86_64.BB22_139
.Lluossavin_x86_64.BB22_138:
	movzbl	(%rax,%rdi), %esi
	xorb	1281(%rsp,%rdi), %sil
	movb	%sil, (%r10,%rdi)
	movzbl	1(%rax,%rdi), %esi
	xorb	1282(%rsp,%rdi), %sil
	movb	%sil, 1(%r10,%rdi)
	movzbl	2(%rax,%rdi), %esi
	xorb	1283(%rsp,%rdi), %sil
	movb	%sil, 2(%r10,%rdi)
	movzbl	3(%rax,%rdi), %esi
	xorb	1284(%rsp,%rdi), %sil
	movb	%sil, 3(%r10,%rdi)
	addq	$4, %rdi
	cmpq	%rdi, %r14
	jne	.Lluossavin_x86_64.BB22_138
.Lluossavin_x86_64.BB22_139:
	xorps	%xmm0, %xmm0
	movaps	%xmm0, 3264(%rsp)
	movaps	%xmm0, 3280(%rsp)
	movaps	%xmm0, 3760(%rsp)
	movaps	%xmm0, 3776(%rsp)
	movq	%r15, 368(%rsp)
	movq	136(%rsp), %rax
	movq	%rax, 376(%rsp)
	movups	%xmm0, 384(%rsp)
	leaq	3760(%rsp), %rdi
	leaq	368(%rsp), %rsi
	movq	%rbp, %rcx
	movq	%r10, %r15
	callq	"ghash::Ghash::absorb_all.x86_64"
	leaq	3264(%rsp), %rdi
	leaq	3760(%rsp), %rsi
	movq	%r15, %rdx
	movq	%r14, %rcx
	callq	"ghash::Ghash::absorb_all.x86_64"
	leaq	704(%rsp), %rdi
	leaq	3264(%rsp), %rsi
	movq	%rbp, %rdx
	movq	%r14, %rcx
	callq	"ghash::Ghash::absorb_lengths.x86_64"
	movq	720(%rsp), %rax
	movq	728(%rsp), %rcx
	movq	%rcx, %rdx
	shrq	$32, %rdx
	movq	%rax, %rsi
	shrq	$32, %rsi
	bswapl	%ecx
	bswapl	%edx
	bswapl	%eax
	bswapl	%esi
	movd	%ecx, %xmm0
	movd	%edx, %xmm1
	punpckldq	%xmm0, %xmm1
	movd	%eax, %xmm0
	movd	%esi, %xmm2
	punpckldq	%xmm0, %xmm2
	punpcklqdq	%xmm1, %xmm2
	pxor	144(%rsp), %xmm2
	movdqu	%xmm2, (%r15,%r14)
.Lluossavin_x86_64.BB22_140:
	addq	$16, %r14
	movl	312(%rsp), %eax
	movl	315(%rsp), %ecx
	movl	%eax, 176(%rsp)
	movl	%ecx, 179(%rsp)
	xorl	%ebp, %ebp
	xorl	%eax, %eax
	movq	80(%rsp), %rdi
.Lluossavin_x86_64.BB22_141:
	movl	176(%rsp), %ecx
	movl	179(%rsp), %edx
	movl	%edx, 43(%rsp)
	movl	%ecx, 40(%rsp)
	jmp	.Lluossavin_x86_64.BB22_166
.Lluossavin_x86_64.BB22_142:
	movq	%rbp, %r14
	shrq	$4, %r14
	movq	4840(%rsp), %r13
	movl	144(%rsp), %ebp
	je	.Lluossavin_x86_64.BB22_163
	xorl	%r15d, %r15d
.Lluossavin_x86_64.BB22_144:
	pxor	%xmm2, %xmm2
	movdqa	%xmm2, 1216(%rsp)
	movdqu	(%rax,%r15), %xmm0
	movdqa	%xmm0, %xmm1
	punpckhbw	%xmm2, %xmm1
	pshuflw	$27, %xmm1, %xmm1
	pshufhw	$27, %xmm1, %xmm1
	punpcklbw	%xmm2, %xmm0
	pshuflw	$27, %xmm0, %xmm0
	pshufhw	$27, %xmm0, %xmm0
	packuswb	%xmm1, %xmm0
	movdqa	%xmm0, 2240(%rsp)
	leaq	1216(%rsp), %rdi
	leaq	704(%rsp), %rdx
	leaq	2240(%rsp), %rcx
	movl	%ebp, %esi
	callq	"cipher::encrypt.x86_64"
	movq	48(%rsp), %rax
	movdqa	96(%rsp), %xmm1
	pxor	1216(%rsp), %xmm1
	movdqa	%xmm1, %xmm0
	pxor	%xmm2, %xmm2
	punpckhbw	%xmm2, %xmm0
	pshuflw	$27, %xmm0, %xmm0
	pshufhw	$27, %xmm0, %xmm0
	punpcklbw	%xmm2, %xmm1
	pshuflw	$27, %xmm1, %xmm1
	pshufhw	$27, %xmm1, %xmm1
	packuswb	%xmm0, %xmm1
	movdqu	%xmm1, (%r13,%r15)
	movdqu	(%rax,%r15), %xmm0
	movdqa	%xmm0, %xmm1
	punpckhbw	%xmm2, %xmm1
	pshuflw	$27, %xmm1, %xmm1
	pshufhw	$27, %xmm1, %xmm1
	punpcklbw	%xmm2, %xmm0
	pshuflw	$27, %xmm0, %xmm0
	pshufhw	$27, %xmm0, %xmm0
	packuswb	%xmm1, %xmm0
	movdqa	%xmm0, 96(%rsp)
	addq	$16, %r15
	decq	%r14
	jne	.Lluossavin_x86_64.BB22_144
	jmp	.Lluossavin_x86_64.BB22_163
.Lluossavin_x86_64.BB22_146:
	leaq	-16(%r14), %rax
	andq	$-32, %rax
	xorl	%ecx, %ecx
	movq	48(%rsp), %r15
.Lluossavin_x86_64.BB22_147:
	movdqu	1281(%rsp,%rcx), %xmm0
	movdqu	1297(%rsp,%rcx), %xmm1
	movdqu	(%r15,%rcx), %xmm2
	pxor	%xmm0, %xmm2
	movdqu	16(%r15,%rcx), %xmm0
	pxor	%xmm1, %xmm0
	movdqu	%xmm2, (%rsi,%rcx)
	movdqu	%xmm0, 16(%rsi,%rcx)
	addq	$32, %rcx
	cmpq	%rcx, %rax
	jne	.Lluossavin_x86_64.BB22_147
	leaq	-16(%r14), %r8
	cmpq	%rax, %r8
	movq	80(%rsp), %rdi
	je	.Lluossavin_x86_64.BB22_87
	testb	$28, %r8b
	je	.Lluossavin_x86_64.BB22_153
.Lluossavin_x86_64.BB22_150:
	movq	%rax, %rcx
	movq	%r8, %rax
	andq	$-4, %rax
.Lluossavin_x86_64.BB22_151:
	movl	(%r15,%rcx), %edx
	xorl	1281(%rsp,%rcx), %edx
	movl	%edx, (%rsi,%rcx)
	addq	$4, %rcx
	cmpq	%rcx, %rax
	jne	.Lluossavin_x86_64.BB22_151
	leaq	-16(%r14), %r8
	cmpq	%rax, %r8
	movq	80(%rsp), %rdi
	je	.Lluossavin_x86_64.BB22_87
.Lluossavin_x86_64.BB22_153:
	movq	%r14, %rcx
	subq	%rax, %rcx
	addq	$-17, %rcx
	andq	$3, %r14
	je	.Lluossavin_x86_64.BB22_155
.Lluossavin_x86_64.BB22_154:
	movzbl	(%r15,%rax), %edx
	xorb	1281(%rsp,%rax), %dl
	movb	%dl, (%rsi,%rax)
	incq	%rax
	decq	%r14
	jne	.Lluossavin_x86_64.BB22_154
.Lluossavin_x86_64.BB22_155:
	cmpq	$3, %rcx
	movq	80(%rsp), %rdi
	movq	224(%rsp), %r8
	jb	.Lluossavin_x86_64.BB22_87
.Lluossavin_x86_64.BB22_156:
	movzbl	(%r15,%rax), %ecx
	xorb	1281(%rsp,%rax), %cl
	movb	%cl, (%rsi,%rax)
	movzbl	1(%r15,%rax), %ecx
	xorb	1282(%rsp,%rax), %cl
	movb	%cl, 1(%rsi,%rax)
	movzbl	2(%r15,%rax), %ecx
	xorb	1283(%rsp,%rax), %cl
	movb	%cl, 2(%rsi,%rax)
	movzbl	3(%r15,%rax), %ecx
	xorb	1284(%rsp,%rax), %cl
	movb	%cl, 3(%rsi,%rax)
	addq	$4, %rax
	cmpq	%rax, %r8
	jne	.Lluossavin_x86_64.BB22_156
	jmp	.Lluossavin_x86_64.BB22_87
.Lluossavin_x86_64.BB22_157:
	movl	%eax, %r14d
	andl	$-32, %r14d
	movq	224(%rsp), %rcx
	movq	144(%rsp), %rdx
	addq	%rdx, %rcx
	addq	$16, %rcx
	xorl	%edx, %edx
.Lluossavin_x86_64.BB22_158:
	movdqu	2240(%rsp,%rdx), %xmm0
	movdqu	2256(%rsp,%rdx), %xmm1
	movdqu	1216(%rsp,%rdx), %xmm2
	pxor	%xmm0, %xmm2
	movdqu	1232(%rsp,%rdx), %xmm0
	pxor	%xmm1, %xmm0
	movdqu	%xmm2, -16(%rcx,%rdx)
	movdqu	%xmm0, (%rcx,%rdx)
	addq	$32, %rdx
	cmpq	%rdx, %r14
	jne	.Lluossavin_x86_64.BB22_158
	cmpl	%r14d, %eax
	je	.Lluossavin_x86_64.BB22_162
	testb	$16, 360(%rsp)
	jne	.Lluossavin_x86_64.BB22_126
.Lluossavin_x86_64.BB22_161:
	movzbl	1216(%rsp,%r14), %ecx
	xorb	2240(%rsp,%r14), %cl
	movb	%cl, (%r15,%r14)
	incq	%r14
	cmpq	%r14, %rax
	jne	.Lluossavin_x86_64.BB22_161
.Lluossavin_x86_64.BB22_162:
	movq	4840(%rsp), %r13
.Lluossavin_x86_64.BB22_163:
	movq	208(%rsp), %r14
	addq	%r14, %r13
	movl	232(%rsp), %eax
	movl	%eax, 1216(%rsp)
	movl	92(%rsp), %eax
	movl	%eax, 1220(%rsp)
	movl	184(%rsp), %eax
	movl	%eax, 1224(%rsp)
	movl	216(%rsp), %eax
	movl	%eax, 1228(%rsp)
	leaq	1216(%rsp), %rsi
	movq	%r13, %rdi
	movq	264(%rsp), %r15
	movq	%r15, %rdx
	callq	memcpy@PLT
	addq	%r14, %r15
.Lluossavin_x86_64.BB22_164:
	movl	3760(%rsp), %eax
	movl	3763(%rsp), %ecx
	movl	%ecx, 43(%rsp)
	movl	%eax, 40(%rsp)
	xorl	%ebp, %ebp
	xorl	%eax, %eax
	movq	80(%rsp), %rdi
.Lluossavin_x86_64.BB22_165:
	xorl	%r13d, %r13d
	movq	%r15, %r14
.Lluossavin_x86_64.BB22_166:
	movl	40(%rsp), %ecx
	movl	43(%rsp), %edx
	movl	%edx, 243(%rsp)
	movl	%ecx, 240(%rsp)
	movl	240(%rsp), %ecx
	movl	243(%rsp), %edx
	movl	%ecx, 168(%rsp)
	movl	%edx, 171(%rsp)
	xorl	%ecx, %ecx
	jmp	.Lluossavin_x86_64.BB22_9
.Lluossavin_x86_64.BB22_167:
	xorl	%ebp, %ebp
	movq	48(%rsp), %rax
	movdqa	96(%rsp), %xmm2
	jmp	.Lluossavin_x86_64.BB22_96
.Lluossavin_x86_64.func_end22:
	.size	"cipher_mode::Sm4CipherMode::call.x86_64", .Lluossavin_x86_64.func_end22-"cipher_mode::Sm4CipherMode::call.x86_64"
	.section	".rodata.cipher_mode::Sm4CipherMode::call.x86_64","a",@progbits
	.p2align	2, 0x0
.Lluossavin_x86_64.JTI22_0:
	.long	.Lluossavin_x86_64.BB22_25-.Lluossavin_x86_64.JTI22_0
	.long	.Lluossavin_x86_64.BB22_35-.Lluossavin_x86_64.JTI22_0
	.long	.Lluossavin_x86_64.BB22_29-.Lluossavin_x86_64.JTI22_0
	.long	.Lluossavin_x86_64.BB22_25-.Lluossavin_x86_64.JTI22_0
	.long	.Lluossavin_x86_64.BB22_29-.Lluossavin_x86_64.JTI22_0
.Lluossavin_x86_64.JTI22_1:
	.long	.Lluossavin_x86_64.BB22_31-.Lluossavin_x86_64.JTI22_1
	.long	.Lluossavin_x86_64.BB22_53-.Lluossavin_x86_64.JTI22_1
	.long	.Lluossavin_x86_64.BB22_44-.Lluossavin_x86_64.JTI22_1
	.long	.Lluossavin_x86_64.BB22_47-.Lluossavin_x86_64.JTI22_1
	.long	.Lluossavin_x86_64.BB22_36-.Lluossavin_x86_64.JTI22_1

	.section	".text.editions::which.x86_64","ax",@progbits
	.p2align	4
	.type	"editions::which.x86_64",@function
"editions::which.x86_64":
	pushq	%rbp
	pushq	%r15
	pushq	%r14
	pushq	%r13
	pushq	%r12
	pushq	%rbx
	subq	$472, %rsp
	movq	552(%rsp), %r13
	cmpq	$64, %r13
	ja	.Lluossavin_x86_64.BB23_36
	movq	544(%rsp), %r14
	movzbl	128(%rsi), %ebp
	movzwl	130(%rsi), %ebx
	movzbl	133(%rsi), %r10d
	xorl	%eax, %eax
	testq	%r13, %r13
	je	.Lluossavin_x86_64.BB23_5
	xorl	%r11d, %r11d
	.p2align	4
.Lluossavin_x86_64.BB23_3:
	addq	(%r14,%r11,8), %rax
	jb	.Lluossavin_x86_64.BB23_36
	incq	%r11
	cmpq	%r11, %r13
	jne	.Lluossavin_x86_64.BB23_3
.Lluossavin_x86_64.BB23_5:
	cmpq	536(%rsp), %rax
	jne	.Lluossavin_x86_64.BB23_36
	movzbl	%bpl, %eax
	testl	%eax, %eax
	movb	%bpl, 11(%rsp)
	je	.Lluossavin_x86_64.BB23_10
	cmpl	$1, %eax
	jne	.Lluossavin_x86_64.BB23_9
	xorl	%ecx, %ecx
	movl	%ebp, %eax
	jmp	.Lluossavin_x86_64.BB23_13
.Lluossavin_x86_64.BB23_36:
	movb	$1, (%rdi)
	xorps	%xmm0, %xmm0
	movups	%xmm0, 1(%rdi)
	movups	%xmm0, 17(%rdi)
	movups	%xmm0, 32(%rdi)
.Lluossavin_x86_64.BB23_37:
	addq	$472, %rsp
	popq	%rbx
	popq	%r12
	popq	%r13
	popq	%r14
	popq	%r15
	popq	%rbp
	retq
.Lluossavin_x86_64.BB23_10:
	movb	$1, %al
	cmpq	$16, %r9
	je	.Lluossavin_x86_64.BB23_15
	cmpq	$12, %r9
	jne	.Lluossavin_x86_64.BB23_12
.Lluossavin_x86_64.BB23_15:
	xorl	%r11d, %r11d
	.p2align	4
.Lluossavin_x86_64.BB23_16:
	cmpq	%r11, %r13
	je	.Lluossavin_x86_64.BB23_19
	cmpq	$16777216, (%r14,%r11,8)
	leaq	1(%r11), %r11
	jbe	.Lluossavin_x86_64.BB23_16
	xorl	%edx, %edx
	movb	$4, %cl
	jmp	.Lluossavin_x86_64.BB23_14
.Lluossavin_x86_64.BB23_9:
	movb	$11, %cl
	movb	$1, %al
	jmp	.Lluossavin_x86_64.BB23_13
.Lluossavin_x86_64.BB23_19:
	cmpq	$16777232, %rcx
	jbe	.Lluossavin_x86_64.BB23_21
	movb	$4, %cl
	jmp	.Lluossavin_x86_64.BB23_13
.Lluossavin_x86_64.BB23_12:
	movb	$8, %cl
.Lluossavin_x86_64.BB23_13:
	xorl	%edx, %edx
.Lluossavin_x86_64.BB23_14:
	xorl	%esi, %esi
	xorl	%r15d, %r15d
	xorl	%ebp, %ebp
	xorl	%r12d, %r12d
.Lluossavin_x86_64.BB23_35:
	xorl	%r8d, %r8d
	cmpb	$0, 11(%rsp)
	cmovnel	%r8d, %ebx
	movb	%al, (%rdi)
	movb	%al, 1(%rdi)
	movb	%cl, 2(%rdi)
	movb	%dl, 3(%rdi)
	movl	$0, 4(%rdi)
	movq	%rsi, 8(%rdi)
	movq	%r15, 16(%rdi)
	movq	%rbp, 24(%rdi)
	movq	%r12, 32(%rdi)
	movw	%bx, 40(%rdi)
	movl	$0, 42(%rdi)
	movw	$0, 46(%rdi)
	jmp	.Lluossavin_x86_64.BB23_37
.Lluossavin_x86_64.BB23_21:
	cmpq	$15, %rcx
	ja	.Lluossavin_x86_64.BB23_23
	movb	$16, %dl
	subb	%cl, %dl
	movb	$7, %cl
	jmp	.Lluossavin_x86_64.BB23_14
.Lluossavin_x86_64.BB23_23:
	decb	%r10b
	cmpb	$3, %r10b
	movzbl	%r10b, %r10d
	movl	$1, %eax
	cmovbl	%r10d, %eax
	movups	(%rsi), %xmm0
	movups	16(%rsi), %xmm1
	movups	32(%rsi), %xmm2
	movups	48(%rsi), %xmm3
	movaps	%xmm0, 336(%rsp)
	movaps	%xmm1, 352(%rsp)
	movaps	%xmm2, 368(%rsp)
	movaps	%xmm3, 384(%rsp)
	movups	64(%rsi), %xmm0
	movaps	%xmm0, 400(%rsp)
	movups	80(%rsi), %xmm0
	movaps	%xmm0, 416(%rsp)
	movups	96(%rsi), %xmm0
	movaps	%xmm0, 432(%rsp)
	movups	112(%rsi), %xmm0
	movaps	%xmm0, 448(%rsp)
	xorps	%xmm0, %xmm0
	movaps	%xmm0, 80(%rsp)
	testq	%r13, %r13
	je	.Lluossavin_x86_64.BB23_24
	movq	%r8, %r12
	movq	%rdx, 120(%rsp)
	movq	%rcx, 112(%rsp)
	movq	%rdi, 104(%rsp)
	movups	(%rsi), %xmm1
	movups	16(%rsi), %xmm2
	movups	32(%rsi), %xmm3
	movups	48(%rsi), %xmm4
	movaps	%xmm1, 208(%rsp)
	movaps	%xmm2, 224(%rsp)
	movaps	%xmm3, 240(%rsp)
	movaps	%xmm4, 256(%rsp)
	movups	64(%rsi), %xmm1
	movaps	%xmm1, 272(%rsp)
	movups	80(%rsi), %xmm1
	movaps	%xmm1, 288(%rsp)
	movups	96(%rsi), %xmm1
	movaps	%xmm1, 304(%rsp)
	movups	112(%rsi), %xmm1
	movaps	%xmm1, 320(%rsp)
	movaps	%xmm0, 16(%rsp)
	movaps	%xmm0, 128(%rsp)
	movzbl	%al, %esi
	leaq	16(%rsp), %rdi
	leaq	208(%rsp), %rdx
	leaq	128(%rsp), %rcx
	movl	%esi, 56(%rsp)
	movq	%r9, %r15
	callq	"cipher::encrypt.x86_64"
	movq	%r15, %rcx
	movl	16(%rsp), %r15d
	movl	20(%rsp), %eax
	movl	28(%rsp), %edx
	shlq	$32, %r15
	orq	%rax, %r15
	movl	24(%rsp), %eax
	shlq	$32, %rax
	orq	%rdx, %rax
	cmpq	$12, %rcx
	movl	%ebx, 12(%rsp)
	jne	.Lluossavin_x86_64.BB23_27
	movl	(%r12), %ecx
	movq	%rax, %rbx
	movl	4(%r12), %eax
	bswapl	%ecx
	bswapl	%eax
	movl	8(%r12), %esi
	bswapl	%esi
	movl	$1, %edx
	jmp	.Lluossavin_x86_64.BB23_28
.Lluossavin_x86_64.BB23_24:
	xorl	%esi, %esi
	xorl	%r15d, %r15d
	xorl	%ebp, %ebp
	xorl	%r12d, %r12d
	jmp	.Lluossavin_x86_64.BB23_34
.Lluossavin_x86_64.BB23_27:
	xorps	%xmm0, %xmm0
	movaps	%xmm0, 16(%rsp)
	movaps	%xmm0, 32(%rsp)
	movq	%r15, 128(%rsp)
	movq	%rax, 136(%rsp)
	movups	%xmm0, 144(%rsp)
	leaq	16(%rsp), %rbp
	leaq	128(%rsp), %rsi
	movq	%rbp, %rdi
	movq	%r12, %rdx
	movq	%rcx, %r12
	movq	%rax, %rbx
	callq	"ghash::Ghash::absorb_all.x86_64"
	leaq	208(%rsp), %rdi
	movq	%rbp, %rsi
	xorl	%edx, %edx
	movq	%r12, %rcx
	callq	"ghash::Ghash::absorb_lengths.x86_64"
	movq	224(%rsp), %rax
	movq	232(%rsp), %rdx
	movq	%rax, %rcx
	shrq	$32, %rcx
	movq	%rdx, %rsi
	shrq	$32, %rsi
.Lluossavin_x86_64.BB23_28:
	movq	%r15, %r12
	movl	%ecx, 128(%rsp)
	movl	%eax, 132(%rsp)
	movl	%esi, 136(%rsp)
	movl	%edx, 140(%rsp)
	leaq	80(%rsp), %rdi
	leaq	336(%rsp), %rdx
	leaq	128(%rsp), %rcx
	movl	56(%rsp), %esi
	callq	"cipher::encrypt.x86_64"
	movq	112(%rsp), %r15
	leaq	-16(%r15), %rbp
	xorps	%xmm0, %xmm0
	movaps	%xmm0, 208(%rsp)
	movaps	%xmm0, 224(%rsp)
	movq	%r12, 16(%rsp)
	movq	%rbx, 24(%rsp)
	movups	%xmm0, 32(%rsp)
	leaq	208(%rsp), %rdi
	leaq	16(%rsp), %rsi
	movq	120(%rsp), %rdx
	movq	%rbp, %rcx
	callq	"ghash::Ghash::absorb_all.x86_64"
	movq	224(%rsp), %rax
	movq	%rax, 184(%rsp)
	movq	232(%rsp), %rax
	movq	%rax, 176(%rsp)
	movq	%rbp, 192(%rsp)
	shrq	$4, %rbp
	movl	%r15d, %eax
	andl	$15, %eax
	cmpq	$1, %rax
	sbbq	$-1, %rbp
	movq	%r12, 200(%rsp)
	movq	%r12, %rdi
	movq	%rbx, 56(%rsp)
	movq	%rbx, %rsi
	movq	%rbp, %rdx
	callq	"field::power.x86_64"
	movq	%rax, 168(%rsp)
	movq	%rdx, 160(%rsp)
	movl	80(%rsp), %eax
	movl	%eax, 76(%rsp)
	movl	84(%rsp), %eax
	movl	%eax, 72(%rsp)
	movl	88(%rsp), %eax
	movl	%eax, 68(%rsp)
	movl	92(%rsp), %eax
	movl	%eax, 64(%rsp)
	xorl	%r15d, %r15d
	xorl	%ebp, %ebp
.Lluossavin_x86_64.BB23_29:
	movq	(%r14,%r15,8), %r12
	movq	528(%rsp), %rax
	leaq	(%rax,%rbp), %rdx
	xorps	%xmm0, %xmm0
	movaps	%xmm0, 208(%rsp)
	movaps	%xmm0, 224(%rsp)
	movq	200(%rsp), %rbx
	movq	%rbx, 16(%rsp)
	movq	56(%rsp), %rax
	movq	%rax, 24(%rsp)
	leaq	16(%rsp), %rax
	movups	%xmm0, 16(%rax)
	leaq	208(%rsp), %rdi
	leaq	16(%rsp), %rsi
	movq	%r12, %rcx
	callq	"ghash::Ghash::absorb_all.x86_64"
	movq	224(%rsp), %rdi
	movq	232(%rsp), %rsi
	movq	168(%rsp), %rdx
	movq	160(%rsp), %rcx
	callq	"field::galois_mul.x86_64"
	xorq	184(%rsp), %rax
	xorq	176(%rsp), %rdx
	movq	%rbx, 16(%rsp)
	movq	56(%rsp), %rcx
	movq	%rcx, 24(%rsp)
	movq	%rax, 32(%rsp)
	movq	%rdx, 40(%rsp)
	leaq	208(%rsp), %rdi
	leaq	16(%rsp), %rsi
	movq	%r12, %rdx
	movq	192(%rsp), %rcx
	callq	"ghash::Ghash::absorb_lengths.x86_64"
	movq	224(%rsp), %rcx
	movq	232(%rsp), %rax
	movq	%rcx, %rdx
	shrq	$32, %rdx
	movq	%rax, %rsi
	shrq	$32, %rsi
	xorl	76(%rsp), %edx
	xorl	72(%rsp), %ecx
	xorl	68(%rsp), %esi
	xorl	64(%rsp), %eax
	movq	112(%rsp), %rdi
	movq	120(%rsp), %r8
	movl	-16(%r8,%rdi), %r9d
	movl	-12(%r8,%rdi), %r10d
	bswapl	%r9d
	xorl	%edx, %r9d
	bswapl	%r10d
	xorl	%ecx, %r10d
	movl	-8(%r8,%rdi), %ecx
	bswapl	%ecx
	xorl	%esi, %ecx
	movl	-4(%r8,%rdi), %edx
	bswapl	%edx
	xorl	%eax, %edx
	addq	%r9, %r10
	addq	%r10, %rcx
	orq	%rcx, %rdx
	je	.Lluossavin_x86_64.BB23_30
	addq	%r12, %rbp
	incq	%r15
	cmpq	%r15, %r13
	jne	.Lluossavin_x86_64.BB23_29
	xorl	%esi, %esi
	xorl	%r15d, %r15d
	xorl	%ebp, %ebp
	xorl	%r12d, %r12d
	jmp	.Lluossavin_x86_64.BB23_33
.Lluossavin_x86_64.BB23_30:
	movl	$1, %esi
.Lluossavin_x86_64.BB23_33:
	movq	104(%rsp), %rdi
	movl	12(%rsp), %ebx
.Lluossavin_x86_64.BB23_34:
	xorl	%eax, %eax
	xorl	%ecx, %ecx
	xorl	%edx, %edx
	jmp	.Lluossavin_x86_64.BB23_35
.Lluossavin_x86_64.func_end23:
	.size	"editions::which.x86_64", .Lluossavin_x86_64.func_end23-"editions::which.x86_64"

	.section	.text.luossavin_block_decrypt_x86_64,"ax",@progbits
	.globl	luossavin_block_decrypt_x86_64
	.hidden	luossavin_block_decrypt_x86_64
	.p2align	4
	.type	luossavin_block_decrypt_x86_64,@function
luossavin_block_decrypt_x86_64:
	subq	$184, %rsp
	movq	%rcx, %rax
	movq	%rsi, %r8
	xorl	%ecx, %ecx
	testq	%rdi, %rdi
	sete	%cl
	shll	$12, %ecx
	addq	%rdi, %rcx
	xorl	%r9d, %r9d
	testq	%rdx, %rdx
	sete	%r9b
	shll	$12, %r9d
	addq	%rdx, %r9
	movl	320(%rsp), %esi
	movzwl	324(%rsp), %edx
	cmpl	$13, %esi
	sete	%dil
	incb	%dil
	testl	%esi, %esi
	movzbl	%dil, %edi
	cmovel	%esi, %edi
	cmpb	$0, 326(%rsp)
	movzbl	327(%rsp), %esi
	movaps	304(%rsp), %xmm0
	movaps	%xmm0, 160(%rsp)
	movaps	288(%rsp), %xmm0
	movaps	%xmm0, 144(%rsp)
	movaps	272(%rsp), %xmm0
	movaps	%xmm0, 128(%rsp)
	movaps	256(%rsp), %xmm0
	movaps	%xmm0, 112(%rsp)
	movaps	192(%rsp), %xmm0
	movaps	208(%rsp), %xmm1
	movaps	224(%rsp), %xmm2
	movaps	240(%rsp), %xmm3
	movaps	%xmm3, 96(%rsp)
	movaps	%xmm2, 80(%rsp)
	movaps	%xmm1, 64(%rsp)
	movaps	%xmm0, 48(%rsp)
	movb	%dil, 176(%rsp)
	movb	$0, 177(%rsp)
	movw	%dx, 178(%rsp)
	setne	180(%rsp)
	movb	%sil, 181(%rsp)
	movw	$0, 182(%rsp)
	xorps	%xmm0, %xmm0
	movaps	%xmm0, 16(%rsp)
	movaps	%xmm0, 32(%rsp)
	movq	%rax, (%rsp)
	leaq	16(%rsp), %rdi
	leaq	48(%rsp), %rsi
	movl	$1, %edx
	callq	"cipher_mode::Sm4Cipher::call.x86_64"
	movzwl	40(%rsp), %eax
	cmpb	$0, 16(%rsp)
	je	.Lluossavin_x86_64.BB24_1
	movzbl	17(%rsp), %edx
	leaq	.Lluossavin_x86_64.switch.table.luossavin_edition_opens_x86_64(%rip), %rsi
	xorl	%ecx, %ecx
	cmpq	$7, %rdx
	movzbl	18(%rsp), %edi
	cmovnel	%ecx, %edi
	movq	(%rsi,%rdx,8), %rsi
	movzbl	%dil, %edi
	shlq	$32, %rdi
	xorl	%edx, %edx
	jmp	.Lluossavin_x86_64.BB24_3
.Lluossavin_x86_64.BB24_1:
	movq	24(%rsp), %rdx
	movzbl	32(%rsp), %ecx
	andl	$1, %ecx
	shlq	$40, %rcx
	xorl	%esi, %esi
	xorl	%edi, %edi
.Lluossavin_x86_64.BB24_3:
	orq	%rcx, %rdi
	shlq	$48, %rax
	orq	%rsi, %rax
	orq	%rdi, %rax
	addq	$184, %rsp
	retq
.Lluossavin_x86_64.func_end24:
	.size	luossavin_block_decrypt_x86_64, .Lluossavin_x86_64.func_end24-luossavin_block_decrypt_x86_64

	.section	.text.luossavin_block_encrypt_x86_64,"ax",@progbits
	.globl	luossavin_block_encrypt_x86_64
	.hidden	luossavin_block_encrypt_x86_64
	.p2align	4
	.type	luossavin_block_encrypt_x86_64,@function
luossavin_block_encrypt_x86_64:
	pushq	%rbp
	pushq	%r15
	pushq	%r14
	pushq	%r12
	pushq	%rbx
	subq	$32, %rsp
	xorl	%r8d, %r8d
	testq	%rdi, %rdi
	sete	%r10b
	xorl	%r14d, %r14d
	testq	%rdx, %rdx
	sete	%r9b
	movl	208(%rsp), %ebp
	movzwl	212(%rsp), %ebx
	cmpl	$13, %ebp
	sete	%al
	incb	%al
	testl	%ebp, %ebp
	movzbl	%al, %eax
	cmovel	%ebp, %eax
	testb	%al, %al
	je	.Lluossavin_x86_64.BB25_4
	movzbl	%al, %eax
	xorl	%edx, %edx
	cmpl	$2, %eax
	jne	.Lluossavin_x86_64.BB25_2
	testl	%ebp, %ebp
	cmovnel	%edx, %ebx
	movl	$13, %r15d
	jmp	.Lluossavin_x86_64.BB25_10
.Lluossavin_x86_64.BB25_4:
	cmpq	$16, %rsi
	jne	.Lluossavin_x86_64.BB25_9
	leaq	80(%rsp), %rax
	cmpb	$0, 134(%rax)
	jne	.Lluossavin_x86_64.BB25_9
	cmpq	$15, %rcx
	ja	.Lluossavin_x86_64.BB25_8
	xorl	%edx, %edx
	testl	%ebp, %ebp
	cmovnel	%edx, %ebx
	movl	$6, %r15d
	jmp	.Lluossavin_x86_64.BB25_10
.Lluossavin_x86_64.BB25_2:
	testl	%ebp, %ebp
	cmovnel	%edx, %ebx
	movl	$1, %r15d
	jmp	.Lluossavin_x86_64.BB25_10
.Lluossavin_x86_64.BB25_9:
	xorl	%eax, %eax
	cmpq	$16, %rsi
	sete	%al
	xorl	%edx, %edx
	testl	%ebp, %ebp
	cmovnel	%edx, %ebx
	leaq	(%rax,%rax,2), %r15
	addq	$11, %r15
	jmp	.Lluossavin_x86_64.BB25_10
.Lluossavin_x86_64.BB25_8:
	movb	%r10b, %r8b
	shll	$12, %r8d
	movb	%r9b, %r14b
	shll	$12, %r14d
	movzbl	215(%rsp), %ecx
	pxor	%xmm2, %xmm2
	movdqa	%xmm2, (%rsp)
	decb	%cl
	xorl	%r15d, %r15d
	cmpb	$3, %cl
	movzbl	%cl, %esi
	cmovael	%r15d, %esi
	movdqu	(%rdi,%r8), %xmm0
	movdqa	%xmm0, %xmm1
	punpckhbw	%xmm2, %xmm1
	pshuflw	$27, %xmm1, %xmm1
	pshufhw	$27, %xmm1, %xmm1
	punpcklbw	%xmm2, %xmm0
	pshuflw	$27, %xmm0, %xmm0
	pshufhw	$27, %xmm0, %xmm0
	packuswb	%xmm1, %xmm0
	movdqa	%xmm0, 16(%rsp)
	movq	%rsp, %rdi
	leaq	16(%rsp), %rcx
	movq	%rdx, %r12
	movq	%rax, %rdx
	callq	"cipher::encrypt.x86_64"
	testl	%ebp, %ebp
	movdqa	(%rsp), %xmm0
	movdqa	%xmm0, %xmm1
	pxor	%xmm2, %xmm2
	punpckhbw	%xmm2, %xmm1
	pshuflw	$27, %xmm1, %xmm1
	pshufhw	$27, %xmm1, %xmm1
	punpcklbw	%xmm2, %xmm0
	pshuflw	$27, %xmm0, %xmm0
	pshufhw	$27, %xmm0, %xmm0
	packuswb	%xmm1, %xmm0
	movdqu	%xmm0, (%r12,%r14)
	cmovnel	%r15d, %ebx
	movl	$16, %edx
.Lluossavin_x86_64.BB25_10:
	movzwl	%bx, %eax
	shlq	$48, %rax
	orq	%r15, %rax
	addq	$32, %rsp
	popq	%rbx
	popq	%r12
	popq	%r14
	popq	%r15
	popq	%rbp
	retq
.Lluossavin_x86_64.func_end25:
	.size	luossavin_block_encrypt_x86_64, .Lluossavin_x86_64.func_end25-luossavin_block_encrypt_x86_64

	.section	.text.luossavin_ctr_by_plan_x86_64,"ax",@progbits
	.globl	luossavin_ctr_by_plan_x86_64
	.hidden	luossavin_ctr_by_plan_x86_64
	.p2align	4
	.type	luossavin_ctr_by_plan_x86_64,@function
luossavin_ctr_by_plan_x86_64:
	pushq	%rbp
	pushq	%r15
	pushq	%r14
	pushq	%r13
	pushq	%r12
	pushq	%rbx
	subq	$1240, %rsp
	testq	%rsi, %rsi
	sete	%r15b
	testq	%rcx, %rcx
	sete	%bpl
	testq	%r9, %r9
	sete	%r14b
	movl	1424(%rsp), %r13d
	movzwl	1428(%rsp), %r12d
	cmpl	$13, %r13d
	sete	%al
	incb	%al
	testl	%r13d, %r13d
	movzbl	%al, %eax
	cmovel	%r13d, %eax
	testb	%al, %al
	je	.Lluossavin_x86_64.BB26_3
	movzbl	%al, %eax
	xorl	%ebx, %ebx
	cmpl	$2, %eax
	jne	.Lluossavin_x86_64.BB26_2
	testl	%r13d, %r13d
	cmovnel	%ebx, %r12d
	movl	$13, %ecx
	jmp	.Lluossavin_x86_64.BB26_27
.Lluossavin_x86_64.BB26_3:
	cmpq	$16, %rdx
	jne	.Lluossavin_x86_64.BB26_24
	movq	%r8, %rbx
	movzbl	1431(%rsp), %eax
	testb	$1, %dil
	jne	.Lluossavin_x86_64.BB26_6
	cmpb	$0, 1430(%rsp)
	je	.Lluossavin_x86_64.BB26_6
	xorl	%ebx, %ebx
	testl	%r13d, %r13d
	cmovnel	%ebx, %r12d
	movl	$14, %ecx
	jmp	.Lluossavin_x86_64.BB26_27
.Lluossavin_x86_64.BB26_2:
	testl	%r13d, %r13d
	cmovnel	%ebx, %r12d
	movl	$1, %ecx
	jmp	.Lluossavin_x86_64.BB26_27
.Lluossavin_x86_64.BB26_24:
	xorl	%ebx, %ebx
	testl	%r13d, %r13d
	cmovnel	%ebx, %r12d
	movl	$10, %ecx
.Lluossavin_x86_64.BB26_27:
	movzwl	%r12w, %eax
	shlq	$48, %rax
	orq	%rcx, %rax
	movq	%rbx, %rdx
	addq	$1240, %rsp
	popq	%rbx
	popq	%r12
	popq	%r13
	popq	%r14
	popq	%r15
	popq	%rbp
	retq
.Lluossavin_x86_64.BB26_6:
	cmpq	$16777216, %rbx
	jbe	.Lluossavin_x86_64.BB26_7
	xorl	%ebx, %ebx
	testl	%r13d, %r13d
	cmovnel	%ebx, %r12d
	movl	$5, %ecx
	jmp	.Lluossavin_x86_64.BB26_27
.Lluossavin_x86_64.BB26_7:
	movb	%al, 32(%rsp)
	movq	%rsi, 168(%rsp)
	movq	%rcx, 48(%rsp)
	movq	%r9, 40(%rsp)
	leaq	1432(%rsp), %rsi
	leaq	208(%rsp), %rdi
	movl	$1032, %edx
	callq	memcpy@PLT
	movq	208(%rsp), %rax
	cmpq	$64, %rax
	ja	.Lluossavin_x86_64.BB26_21
	xorl	%ecx, %ecx
	testq	%rax, %rax
	je	.Lluossavin_x86_64.BB26_14
	xorl	%edx, %edx
	.p2align	4
.Lluossavin_x86_64.BB26_10:
	movq	728(%rsp,%rdx,8), %rsi
	movq	%rbx, %r8
	subq	%rcx, %r8
	cmpq	%r8, %rsi
	sete	%dil
	testb	$15, %sil
	sete	%r9b
	cmpq	%rcx, 216(%rsp,%rdx,8)
	jne	.Lluossavin_x86_64.BB26_21
	leaq	-1(%rsi), %r10
	cmpq	%r8, %r10
	jae	.Lluossavin_x86_64.BB26_21
	orb	%r9b, %dil
	je	.Lluossavin_x86_64.BB26_21
	addq	%rsi, %rcx
	incq	%rdx
	cmpq	%rdx, %rax
	jne	.Lluossavin_x86_64.BB26_10
.Lluossavin_x86_64.BB26_14:
	cmpq	%rbx, %rcx
	jne	.Lluossavin_x86_64.BB26_21
	cmpq	%rbx, 2464(%rsp)
	jae	.Lluossavin_x86_64.BB26_16
	xorl	%ebx, %ebx
	testl	%r13d, %r13d
	cmovnel	%ebx, %r12d
	movl	$6, %ecx
	jmp	.Lluossavin_x86_64.BB26_27
.Lluossavin_x86_64.BB26_21:
	xorl	%ebx, %ebx
	testl	%r13d, %r13d
	cmovnel	%ebx, %r12d
	movl	$18, %ecx
	jmp	.Lluossavin_x86_64.BB26_27
.Lluossavin_x86_64.BB26_16:
	movzbl	32(%rsp), %eax
	decb	%al
	cmpb	$3, %al
	movzbl	%al, %eax
	movl	$1, %ecx
	cmovbl	%eax, %ecx
	movl	%ecx, 56(%rsp)
	leaq	208(%rsp), %rdi
	movl	$1032, %edx
	leaq	1432(%rsp), %rsi
	callq	memcpy@PLT
	movq	208(%rsp), %rax
	movq	%rax, 104(%rsp)
	testq	%rax, %rax
	movq	40(%rsp), %rax
	movq	48(%rsp), %r8
	movl	$0, %r9d
	je	.Lluossavin_x86_64.BB26_20
	movb	%r15b, %r9b
	shll	$12, %r9d
	xorl	%ecx, %ecx
	movb	%bpl, %cl
	shll	$12, %ecx
	addq	%rcx, %r8
	xorl	%ecx, %ecx
	movb	%r14b, %cl
	shll	$12, %ecx
	addq	%rcx, %rax
	xorl	%ecx, %ecx
	xorl	%edx, %edx
	movq	%r8, 48(%rsp)
	movq	%rax, 40(%rsp)
	movq	%r9, 96(%rsp)
.Lluossavin_x86_64.BB26_18:
	cmpq	$64, %rdx
	je	.Lluossavin_x86_64.BB26_20
	movq	216(%rsp,%rdx,8), %rdi
	movq	%rdi, 120(%rsp)
	movq	728(%rsp,%rdx,8), %rsi
	movq	%rsi, 144(%rsp)
	addq	%rcx, %rsi
	movq	%rsi, 160(%rsp)
	leaq	(%r8,%rcx), %rsi
	movq	%rsi, 152(%rsp)
	leaq	(%rax,%rcx), %rsi
	movq	%rsi, 136(%rsp)
	movq	%rdx, 32(%rsp)
	movq	2464(%rsp), %rdx
	subq	%rcx, %rdx
	movq	%rdx, 128(%rsp)
	movq	168(%rsp), %rcx
	movq	(%rcx,%r9), %rbp
	movq	8(%rcx,%r9), %r15
	movq	%rdi, %rcx
	bswapq	%rbp
	shrq	$4, %rcx
	bswapq	%r15
	addq	%rcx, %r15
	adcq	$0, %rbp
	movq	%rbp, %rcx
	shrq	$32, %rcx
	movq	%r15, %r14
	shrq	$32, %r14
	movl	%ecx, 64(%rsp)
	bswapl	%ecx
	movq	%rcx, 112(%rsp)
	movl	%ebp, 68(%rsp)
	bswapl	%ebp
	movl	%r14d, 72(%rsp)
	bswapl	%r14d
	movl	%r15d, 76(%rsp)
	bswapl	%r15d
	xorps	%xmm0, %xmm0
	movaps	%xmm0, 176(%rsp)
	movzbl	56(%rsp), %esi
	movl	%esi, 60(%rsp)
	leaq	176(%rsp), %rdi
	leaq	64(%rsp), %rcx
	leaq	1296(%rsp), %rdx
	callq	"cipher::encrypt.x86_64"
	movdqa	176(%rsp), %xmm0
	movdqa	%xmm0, %xmm1
	pxor	%xmm2, %xmm2
	punpckhbw	%xmm2, %xmm1
	pshuflw	$27, %xmm1, %xmm1
	pshufhw	$27, %xmm1, %xmm1
	punpcklbw	%xmm2, %xmm0
	pshuflw	$27, %xmm0, %xmm0
	pshufhw	$27, %xmm0, %xmm0
	packuswb	%xmm1, %xmm0
	movq	112(%rsp), %rax
	movl	%eax, 64(%rsp)
	movl	%ebp, 68(%rsp)
	movl	%r14d, 72(%rsp)
	movl	%r15d, 76(%rsp)
	movdqu	%xmm0, 80(%rsp)
	movq	120(%rsp), %r9
	andl	$15, %r9d
	movq	128(%rsp), %rax
	movq	%rax, 24(%rsp)
	movq	136(%rsp), %rax
	movq	%rax, 16(%rsp)
	movq	144(%rsp), %rax
	movq	%rax, 8(%rsp)
	movq	152(%rsp), %rax
	movq	%rax, (%rsp)
	leaq	176(%rsp), %rdi
	leaq	64(%rsp), %r8
	movl	60(%rsp), %esi
	leaq	1296(%rsp), %rdx
	xorl	%ecx, %ecx
	callq	"pieces::flow::run.x86_64"
	movq	32(%rsp), %rdx
	movq	96(%rsp), %r9
	movq	48(%rsp), %r8
	movq	40(%rsp), %rax
	incq	%rdx
	movq	160(%rsp), %rcx
	cmpq	%rdx, 104(%rsp)
	jne	.Lluossavin_x86_64.BB26_18
.Lluossavin_x86_64.BB26_20:
	xorl	%ecx, %ecx
	testl	%r13d, %r13d
	cmovnel	%ecx, %r12d
	jmp	.Lluossavin_x86_64.BB26_27
.Lluossavin_x86_64.func_end26:
	.size	luossavin_ctr_by_plan_x86_64, .Lluossavin_x86_64.func_end26-luossavin_ctr_by_plan_x86_64

	.section	.text.luossavin_ctr_end_x86_64,"ax",@progbits
	.globl	luossavin_ctr_end_x86_64
	.hidden	luossavin_ctr_end_x86_64
	.p2align	4
	.type	luossavin_ctr_end_x86_64,@function
luossavin_ctr_end_x86_64:
	pushq	%rbp
	pushq	%r15
	pushq	%r14
	pushq	%r13
	pushq	%r12
	pushq	%rbx
	subq	$200, %rsp
	movq	%rdi, %rbx
	leaq	256(%rsp), %rsi
	movq	416(%rsp), %r8
	movq	424(%rsp), %r12
	movq	432(%rsp), %rdi
	movl	440(%rsp), %r15d
	movq	%r8, %r13
	shrq	$32, %r13
	movq	%r12, %r14
	shrq	$32, %r14
	movzwl	444(%rsp), %eax
	movw	%ax, 6(%rsp)
	movzwl	446(%rsp), %edx
	xorps	%xmm0, %xmm0
	movaps	%xmm0, 32(%rsp)
	movaps	%xmm0, 48(%rsp)
	movaps	%xmm0, 64(%rsp)
	movaps	%xmm0, 80(%rsp)
	movaps	%xmm0, 96(%rsp)
	movaps	%xmm0, 112(%rsp)
	movaps	%xmm0, 128(%rsp)
	movaps	%xmm0, 144(%rsp)
	movaps	%xmm0, 160(%rsp)
	movaps	%xmm0, 176(%rsp)
	movq	$0, 190(%rsp)
	cmpq	$14, %r15
	movq	%rdx, 24(%rsp)
	movq	%rdi, 16(%rsp)
	movq	%r8, 8(%rsp)
	ja	.Lluossavin_x86_64.BB27_6
	leaq	.Lluossavin_x86_64.JTI27_0(%rip), %rax
	movslq	(%rax,%r15,4), %rcx
	addq	%rax, %rcx
	jmpq	*%rcx
.Lluossavin_x86_64.BB27_2:
	cmpq	$16777216, %rdi
	jbe	.Lluossavin_x86_64.BB27_9
.Lluossavin_x86_64.BB27_3:
	leaq	38(%rsp), %rdi
	movl	$160, %edx
	callq	memcpy@PLT
	movl	$5, %ecx
	jmp	.Lluossavin_x86_64.BB27_12
.Lluossavin_x86_64.BB27_4:
	leaq	38(%rsp), %rdi
	movl	$160, %edx
	callq	memcpy@PLT
	movl	$1, %r15d
	xorl	%eax, %eax
	movl	$1, %ecx
	jmp	.Lluossavin_x86_64.BB27_13
.Lluossavin_x86_64.BB27_5:
	leaq	38(%rsp), %rdi
	movl	$160, %edx
	callq	memcpy@PLT
	movl	$14, %r15d
	xorl	%eax, %eax
	movl	$14, %ecx
	jmp	.Lluossavin_x86_64.BB27_13
.Lluossavin_x86_64.BB27_6:
	leaq	38(%rsp), %rdi
	movl	$160, %edx
	callq	memcpy@PLT
	movl	$12, %ecx
.Lluossavin_x86_64.BB27_12:
	xorl	%eax, %eax
	jmp	.Lluossavin_x86_64.BB27_13
.Lluossavin_x86_64.BB27_7:
	leaq	38(%rsp), %rdi
	movl	$160, %edx
	callq	memcpy@PLT
	movl	$10, %r15d
	xorl	%eax, %eax
	movl	$10, %ecx
	jmp	.Lluossavin_x86_64.BB27_13
.Lluossavin_x86_64.BB27_8:
	leaq	38(%rsp), %rdi
	movl	$160, %edx
	callq	memcpy@PLT
	movl	$13, %r15d
	xorl	%eax, %eax
	movl	$13, %ecx
	jmp	.Lluossavin_x86_64.BB27_13
.Lluossavin_x86_64.BB27_9:
	movl	$12, %r15d
	testq	%rdi, %rdi
	je	.Lluossavin_x86_64.BB27_11
	movq	%rdi, %rax
	shrq	$4, %rax
	andl	$15, %edi
	movq	$0, 24(%rsp)
	negq	%rdi
	movl	$0, %ecx
	sbbq	%rcx, %rcx
	subq	%rax, %rcx
	bswapq	%r12
	cmpq	$-1, %r8
	sete	%dl
	cmpq	%rcx, %r12
	seta	%al
	andb	%dl, %al
	movq	$0, 16(%rsp)
	xorl	%r14d, %r14d
	xorl	%r12d, %r12d
	xorl	%r13d, %r13d
	movq	$0, 8(%rsp)
	xorl	%ecx, %ecx
.Lluossavin_x86_64.BB27_13:
	leaq	38(%rsp), %rsi
	movl	%ecx, (%rbx)
	movb	$0, 4(%rbx)
	movb	%al, 5(%rbx)
	movzwl	6(%rsp), %ebp
	movw	%bp, 6(%rbx)
	movq	$0, 8(%rbx)
	leaq	16(%rbx), %rdi
	movl	$160, %edx
	callq	memcpy@PLT
	movq	8(%rsp), %rax
	movl	%eax, 176(%rbx)
	movl	%r13d, 180(%rbx)
	movl	%r12d, 184(%rbx)
	movl	%r14d, 188(%rbx)
	movq	16(%rsp), %rax
	movq	%rax, 192(%rbx)
	movl	%r15d, 200(%rbx)
	movw	%bp, 204(%rbx)
	movq	24(%rsp), %rax
	movw	%ax, 206(%rbx)
	movq	%rbx, %rax
	addq	$200, %rsp
	popq	%rbx
	popq	%r12
	popq	%r13
	popq	%r14
	popq	%r15
	popq	%rbp
	retq
.Lluossavin_x86_64.BB27_11:
	movq	$0, 24(%rsp)
	movq	$0, 16(%rsp)
	xorl	%r14d, %r14d
	xorl	%r12d, %r12d
	xorl	%r13d, %r13d
	movq	$0, 8(%rsp)
	xorl	%ecx, %ecx
	jmp	.Lluossavin_x86_64.BB27_12
.Lluossavin_x86_64.func_end27:
	.size	luossavin_ctr_end_x86_64, .Lluossavin_x86_64.func_end27-luossavin_ctr_end_x86_64
	.section	.rodata.luossavin_ctr_end_x86_64,"a",@progbits
	.p2align	2, 0x0
.Lluossavin_x86_64.JTI27_0:
	.long	.Lluossavin_x86_64.BB27_2-.Lluossavin_x86_64.JTI27_0
	.long	.Lluossavin_x86_64.BB27_4-.Lluossavin_x86_64.JTI27_0
	.long	.Lluossavin_x86_64.BB27_6-.Lluossavin_x86_64.JTI27_0
	.long	.Lluossavin_x86_64.BB27_6-.Lluossavin_x86_64.JTI27_0
	.long	.Lluossavin_x86_64.BB27_6-.Lluossavin_x86_64.JTI27_0
	.long	.Lluossavin_x86_64.BB27_3-.Lluossavin_x86_64.JTI27_0
	.long	.Lluossavin_x86_64.BB27_6-.Lluossavin_x86_64.JTI27_0
	.long	.Lluossavin_x86_64.BB27_6-.Lluossavin_x86_64.JTI27_0
	.long	.Lluossavin_x86_64.BB27_6-.Lluossavin_x86_64.JTI27_0
	.long	.Lluossavin_x86_64.BB27_6-.Lluossavin_x86_64.JTI27_0
	.long	.Lluossavin_x86_64.BB27_7-.Lluossavin_x86_64.JTI27_0
	.long	.Lluossavin_x86_64.BB27_6-.Lluossavin_x86_64.JTI27_0
	.long	.Lluossavin_x86_64.BB27_6-.Lluossavin_x86_64.JTI27_0
	.long	.Lluossavin_x86_64.BB27_8-.Lluossavin_x86_64.JTI27_0
	.long	.Lluossavin_x86_64.BB27_5-.Lluossavin_x86_64.JTI27_0

	.section	.text.luossavin_ctr_piece_x86_64,"ax",@progbits
	.globl	luossavin_ctr_piece_x86_64
	.hidden	luossavin_ctr_piece_x86_64
	.p2align	4
	.type	luossavin_ctr_piece_x86_64,@function
luossavin_ctr_piece_x86_64:
	pushq	%rbp
	pushq	%r15
	pushq	%r14
	pushq	%r13
	pushq	%r12
	pushq	%rbx
	subq	$264, %rsp
	movq	%rsi, %rax
	movq	%rdi, %rbx
	xorl	%r9d, %r9d
	testq	%rsi, %rsi
	sete	%r11b
	xorl	%edi, %edi
	testq	%rcx, %rcx
	sete	%sil
	movq	496(%rsp), %r14
	movl	504(%rsp), %r12d
	movzwl	508(%rsp), %ebp
	movzbl	510(%rsp), %r13d
	movzbl	511(%rsp), %r10d
	movl	%r10d, 32(%rsp)
	xorps	%xmm0, %xmm0
	movaps	%xmm0, 64(%rsp)
	movaps	%xmm0, 48(%rsp)
	cmpq	$14, %r12
	ja	.Lluossavin_x86_64.BB28_9
	leaq	.Lluossavin_x86_64.JTI28_0(%rip), %r10
	movslq	(%r10,%r12,4), %r15
	addq	%r10, %r15
	jmpq	*%r15
.Lluossavin_x86_64.BB28_3:
	movq	%rdx, %r10
	addq	%r14, %r10
	movq	$-1, %r15
	cmovaeq	%r10, %r15
	cmpq	$16777216, %r15
	jbe	.Lluossavin_x86_64.BB28_4
.Lluossavin_x86_64.BB28_6:
	leaq	80(%rsp), %rdi
	movl	$176, %edx
	leaq	320(%rsp), %rsi
	callq	memcpy@PLT
	movl	$5, %ecx
	jmp	.Lluossavin_x86_64.BB28_12
.Lluossavin_x86_64.BB28_2:
	leaq	80(%rsp), %rdi
	movl	$176, %edx
	leaq	320(%rsp), %rsi
	callq	memcpy@PLT
	movl	$1, %ecx
	jmp	.Lluossavin_x86_64.BB28_12
.Lluossavin_x86_64.BB28_11:
	leaq	80(%rsp), %rdi
	movl	$176, %edx
	leaq	320(%rsp), %rsi
	callq	memcpy@PLT
	movl	$14, %ecx
	jmp	.Lluossavin_x86_64.BB28_12
.Lluossavin_x86_64.BB28_9:
	leaq	80(%rsp), %rdi
	movl	$176, %edx
	leaq	320(%rsp), %rsi
	callq	memcpy@PLT
	movl	$12, %ecx
	jmp	.Lluossavin_x86_64.BB28_12
.Lluossavin_x86_64.BB28_8:
	leaq	80(%rsp), %rdi
	movl	$176, %edx
	leaq	320(%rsp), %rsi
	callq	memcpy@PLT
	movl	$10, %ecx
	jmp	.Lluossavin_x86_64.BB28_12
.Lluossavin_x86_64.BB28_10:
	leaq	80(%rsp), %rdi
	movl	$176, %edx
	leaq	320(%rsp), %rsi
	callq	memcpy@PLT
	movl	$13, %ecx
.Lluossavin_x86_64.BB28_12:
	xorl	%eax, %eax
	movl	32(%rsp), %r15d
.Lluossavin_x86_64.BB28_13:
	movl	%ecx, (%rbx)
	movw	$0, 4(%rbx)
	movw	%bp, 6(%rbx)
	movq	%rax, 8(%rbx)
	leaq	16(%rbx), %rdi
	leaq	80(%rsp), %rsi
	movl	$176, %edx
	callq	memcpy@PLT
	movq	%r14, 192(%rbx)
	movl	%r12d, 200(%rbx)
	movw	%bp, 204(%rbx)
	movb	%r13b, 206(%rbx)
	movb	%r15b, 207(%rbx)
	movq	%rbx, %rax
	addq	$264, %rsp
	popq	%rbx
	popq	%r12
	popq	%r13
	popq	%r14
	popq	%r15
	popq	%rbp
	retq
.Lluossavin_x86_64.BB28_4:
	cmpq	%rdx, %r8
	jae	.Lluossavin_x86_64.BB28_5
	leaq	80(%rsp), %rdi
	movl	$176, %edx
	leaq	320(%rsp), %rsi
	callq	memcpy@PLT
	movl	$6, %ecx
	jmp	.Lluossavin_x86_64.BB28_12
.Lluossavin_x86_64.BB28_5:
	movb	%r11b, %r9b
	shll	$12, %r9d
	addq	%r9, %rax
	movb	%sil, %dil
	shll	$12, %edi
	addq	%rdi, %rcx
	leal	-1(%r13), %edi
	cmpb	$3, %dil
	movzbl	%dil, %edi
	movl	$1, %r9d
	cmovbl	%edi, %r9d
	leaq	320(%rsp), %rsi
	movq	%r10, 40(%rsp)
	leaq	128(%rsi), %r10
	andl	$15, %r14d
	movq	%r8, 24(%rsp)
	movq	%rcx, 16(%rsp)
	movq	%rdx, 8(%rsp)
	movq	%rax, (%rsp)
	leaq	48(%rsp), %rdi
	xorl	%r15d, %r15d
	movq	%rsi, %rax
	movl	%r9d, %esi
	movq	%rdx, 32(%rsp)
	movq	%rax, %rdx
	xorl	%ecx, %ecx
	movq	%r10, %r8
	movq	%r14, %r9
	callq	"pieces::flow::run.x86_64"
	movq	32(%rsp), %rax
	leaq	320(%rsp), %rcx
	movups	112(%rcx), %xmm0
	movaps	%xmm0, 192(%rsp)
	movups	96(%rcx), %xmm0
	movaps	%xmm0, 176(%rsp)
	movups	80(%rcx), %xmm0
	movaps	%xmm0, 160(%rsp)
	movups	64(%rcx), %xmm0
	movaps	%xmm0, 144(%rsp)
	movups	(%rcx), %xmm0
	movups	16(%rcx), %xmm1
	movups	32(%rcx), %xmm2
	movups	48(%rcx), %xmm3
	movaps	%xmm3, 128(%rsp)
	movaps	%xmm2, 112(%rsp)
	movaps	%xmm1, 96(%rsp)
	movaps	%xmm0, 80(%rsp)
	movaps	48(%rsp), %xmm0
	movaps	64(%rsp), %xmm1
	movaps	%xmm0, 208(%rsp)
	movaps	%xmm1, 224(%rsp)
	movups	160(%rcx), %xmm0
	movaps	%xmm0, 240(%rsp)
	movq	40(%rsp), %r14
	xorl	%ecx, %ecx
	jmp	.Lluossavin_x86_64.BB28_13
.Lluossavin_x86_64.func_end28:
	.size	luossavin_ctr_piece_x86_64, .Lluossavin_x86_64.func_end28-luossavin_ctr_piece_x86_64
	.section	.rodata.luossavin_ctr_piece_x86_64,"a",@progbits
	.p2align	2, 0x0
.Lluossavin_x86_64.JTI28_0:
	.long	.Lluossavin_x86_64.BB28_3-.Lluossavin_x86_64.JTI28_0
	.long	.Lluossavin_x86_64.BB28_2-.Lluossavin_x86_64.JTI28_0
	.long	.Lluossavin_x86_64.BB28_9-.Lluossavin_x86_64.JTI28_0
	.long	.Lluossavin_x86_64.BB28_9-.Lluossavin_x86_64.JTI28_0
	.long	.Lluossavin_x86_64.BB28_9-.Lluossavin_x86_64.JTI28_0
	.long	.Lluossavin_x86_64.BB28_6-.Lluossavin_x86_64.JTI28_0
	.long	.Lluossavin_x86_64.BB28_9-.Lluossavin_x86_64.JTI28_0
	.long	.Lluossavin_x86_64.BB28_9-.Lluossavin_x86_64.JTI28_0
	.long	.Lluossavin_x86_64.BB28_9-.Lluossavin_x86_64.JTI28_0
	.long	.Lluossavin_x86_64.BB28_9-.Lluossavin_x86_64.JTI28_0
	.long	.Lluossavin_x86_64.BB28_8-.Lluossavin_x86_64.JTI28_0
	.long	.Lluossavin_x86_64.BB28_9-.Lluossavin_x86_64.JTI28_0
	.long	.Lluossavin_x86_64.BB28_9-.Lluossavin_x86_64.JTI28_0
	.long	.Lluossavin_x86_64.BB28_10-.Lluossavin_x86_64.JTI28_0
	.long	.Lluossavin_x86_64.BB28_11-.Lluossavin_x86_64.JTI28_0

	.section	.text.luossavin_ctr_range_x86_64,"ax",@progbits
	.globl	luossavin_ctr_range_x86_64
	.hidden	luossavin_ctr_range_x86_64
	.p2align	4
	.type	luossavin_ctr_range_x86_64,@function
luossavin_ctr_range_x86_64:
	pushq	%rbp
	pushq	%r15
	pushq	%r14
	pushq	%r13
	pushq	%r12
	pushq	%rbx
	subq	$152, %rsp
	movq	%r9, %rbx
	movq	%rcx, 40(%rsp)
	movq	344(%rsp), %r14
	xorl	%ecx, %ecx
	testq	%rsi, %rsi
	sete	%r15b
	xorl	%r10d, %r10d
	testq	%r8, %r8
	sete	%bpl
	xorl	%r9d, %r9d
	testq	%r14, %r14
	sete	%r11b
	movl	336(%rsp), %r13d
	movzwl	340(%rsp), %r12d
	cmpl	$13, %r13d
	sete	%al
	incb	%al
	testl	%r13d, %r13d
	movzbl	%al, %eax
	cmovel	%r13d, %eax
	testb	%al, %al
	je	.Lluossavin_x86_64.BB29_3
	movzbl	%al, %eax
	xorl	%ebx, %ebx
	cmpl	$2, %eax
	jne	.Lluossavin_x86_64.BB29_2
	testl	%r13d, %r13d
	cmovnel	%ebx, %r12d
	movl	$13, %r14d
	jmp	.Lluossavin_x86_64.BB29_14
.Lluossavin_x86_64.BB29_3:
	cmpq	$16, %rdx
	jne	.Lluossavin_x86_64.BB29_11
	movzbl	343(%rsp), %edx
	testb	$1, %dil
	jne	.Lluossavin_x86_64.BB29_6
	cmpb	$0, 342(%rsp)
	je	.Lluossavin_x86_64.BB29_6
	xorl	%ebx, %ebx
	testl	%r13d, %r13d
	cmovnel	%ebx, %r12d
	movl	$14, %r14d
	jmp	.Lluossavin_x86_64.BB29_14
.Lluossavin_x86_64.BB29_2:
	testl	%r13d, %r13d
	cmovnel	%ebx, %r12d
	movl	$1, %r14d
	jmp	.Lluossavin_x86_64.BB29_14
.Lluossavin_x86_64.BB29_11:
	xorl	%ebx, %ebx
	testl	%r13d, %r13d
	cmovnel	%ebx, %r12d
	movl	$10, %r14d
.Lluossavin_x86_64.BB29_14:
	movzwl	%r12w, %eax
	shlq	$48, %rax
	orq	%r14, %rax
	movq	%rbx, %rdx
	addq	$152, %rsp
	popq	%rbx
	popq	%r12
	popq	%r13
	popq	%r14
	popq	%r15
	popq	%rbp
	retq
.Lluossavin_x86_64.BB29_6:
	movq	%rbx, %rax
	addq	40(%rsp), %rax
	movq	$-1, %rdi
	cmovaeq	%rax, %rdi
	cmpq	$16777216, %rdi
	jbe	.Lluossavin_x86_64.BB29_7
	xorl	%ebx, %ebx
	testl	%r13d, %r13d
	cmovnel	%ebx, %r12d
	movl	$5, %r14d
	jmp	.Lluossavin_x86_64.BB29_14
.Lluossavin_x86_64.BB29_7:
	cmpq	%rbx, 352(%rsp)
	jae	.Lluossavin_x86_64.BB29_8
	xorl	%ebx, %ebx
	testl	%r13d, %r13d
	cmovnel	%ebx, %r12d
	movl	$6, %r14d
	jmp	.Lluossavin_x86_64.BB29_14
.Lluossavin_x86_64.BB29_8:
	movb	%r15b, %cl
	shll	$12, %ecx
	movb	%bpl, %r10b
	shll	$12, %r10d
	addq	%r10, %r8
	movq	%r8, 96(%rsp)
	movb	%r11b, %r9b
	shll	$12, %r9d
	addq	%r9, %r14
	decb	%dl
	cmpb	$3, %dl
	movzbl	%dl, %eax
	movl	$1, %edx
	cmovbl	%eax, %edx
	movl	%edx, 52(%rsp)
	movq	(%rsi,%rcx), %r15
	movq	8(%rsi,%rcx), %rbp
	movq	40(%rsp), %rax
	bswapq	%r15
	shrq	$4, %rax
	bswapq	%rbp
	addq	%rax, %rbp
	adcq	$0, %r15
	movq	%r15, %rax
	shrq	$32, %rax
	movq	%rbp, %rsi
	shrq	$32, %rsi
	movl	%eax, 56(%rsp)
	bswapl	%eax
	movq	%rax, 104(%rsp)
	movl	%r15d, 60(%rsp)
	bswapl	%r15d
	movl	%esi, 64(%rsp)
	bswapl	%esi
	movq	%rsi, 88(%rsp)
	movl	%ebp, 68(%rsp)
	bswapl	%ebp
	xorps	%xmm0, %xmm0
	movaps	%xmm0, 112(%rsp)
	leaq	112(%rsp), %rdi
	leaq	56(%rsp), %rcx
	movl	%edx, %esi
	leaq	208(%rsp), %rdx
	callq	"cipher::encrypt.x86_64"
	movdqa	112(%rsp), %xmm0
	movdqa	%xmm0, %xmm1
	pxor	%xmm2, %xmm2
	punpckhbw	%xmm2, %xmm1
	pshuflw	$27, %xmm1, %xmm1
	pshufhw	$27, %xmm1, %xmm1
	punpcklbw	%xmm2, %xmm0
	pshuflw	$27, %xmm0, %xmm0
	pshufhw	$27, %xmm0, %xmm0
	packuswb	%xmm1, %xmm0
	movq	104(%rsp), %rax
	movl	%eax, 56(%rsp)
	movl	%r15d, 60(%rsp)
	movq	88(%rsp), %rax
	movl	%eax, 64(%rsp)
	movl	%ebp, 68(%rsp)
	movdqu	%xmm0, 72(%rsp)
	movq	40(%rsp), %r9
	andl	$15, %r9d
	movq	352(%rsp), %rax
	movq	%rax, 24(%rsp)
	movq	%r14, 16(%rsp)
	movq	%rbx, 8(%rsp)
	movq	96(%rsp), %rax
	movq	%rax, (%rsp)
	leaq	112(%rsp), %rdi
	xorl	%r14d, %r14d
	leaq	56(%rsp), %r8
	movl	52(%rsp), %esi
	leaq	208(%rsp), %rdx
	xorl	%ecx, %ecx
	callq	"pieces::flow::run.x86_64"
	testl	%r13d, %r13d
	cmovnel	%r14d, %r12d
	jmp	.Lluossavin_x86_64.BB29_14
.Lluossavin_x86_64.func_end29:
	.size	luossavin_ctr_range_x86_64, .Lluossavin_x86_64.func_end29-luossavin_ctr_range_x86_64

	.section	.text.luossavin_ctr_start_x86_64,"ax",@progbits
	.globl	luossavin_ctr_start_x86_64
	.hidden	luossavin_ctr_start_x86_64
	.p2align	4
	.type	luossavin_ctr_start_x86_64,@function
luossavin_ctr_start_x86_64:
	pushq	%rbp
	pushq	%r15
	pushq	%r14
	pushq	%r13
	pushq	%r12
	pushq	%rbx
	subq	$184, %rsp
	movq	%rdi, %rax
	xorl	%r8d, %r8d
	testq	%rdx, %rdx
	sete	%r9b
	movl	368(%rsp), %r11d
	cmpl	$13, %r11d
	sete	%r10b
	incb	%r10b
	xorl	%edi, %edi
	testl	%r11d, %r11d
	movzbl	%r10b, %r10d
	cmovel	%r11d, %r10d
	movl	372(%rsp), %ebx
	cmovel	%ebx, %edi
	testb	%r10b, %r10b
	je	.Lluossavin_x86_64.BB30_3
	movzbl	%r10b, %ecx
	pxor	%xmm0, %xmm0
	cmpl	$2, %ecx
	jne	.Lluossavin_x86_64.BB30_2
	movdqa	%xmm0, 112(%rsp)
	movdqa	%xmm0, 96(%rsp)
	movdqa	%xmm0, 80(%rsp)
	movdqa	%xmm0, 64(%rsp)
	movdqa	%xmm0, 48(%rsp)
	movdqa	%xmm0, 32(%rsp)
	movdqa	%xmm0, 16(%rsp)
	movdqa	%xmm0, (%rsp)
	movq	$0, 126(%rsp)
	xorl	%r14d, %r14d
	movl	$13, %ecx
	jmp	.Lluossavin_x86_64.BB30_10
.Lluossavin_x86_64.BB30_3:
	cmpq	$16, %rcx
	jne	.Lluossavin_x86_64.BB30_7
	movzbl	375(%rsp), %r14d
	testb	$1, %sil
	jne	.Lluossavin_x86_64.BB30_6
	cmpb	$0, 374(%rsp)
	je	.Lluossavin_x86_64.BB30_6
	pxor	%xmm0, %xmm0
	movdqa	%xmm0, 112(%rsp)
	movdqa	%xmm0, 96(%rsp)
	movdqa	%xmm0, 80(%rsp)
	movdqa	%xmm0, 64(%rsp)
	movdqa	%xmm0, 48(%rsp)
	movdqa	%xmm0, 32(%rsp)
	movdqa	%xmm0, 16(%rsp)
	movdqa	%xmm0, (%rsp)
	movq	$0, 126(%rsp)
	xorl	%r14d, %r14d
	movl	$14, %ecx
	jmp	.Lluossavin_x86_64.BB30_10
.Lluossavin_x86_64.BB30_2:
	movdqa	%xmm0, 112(%rsp)
	movdqa	%xmm0, 96(%rsp)
	movdqa	%xmm0, 80(%rsp)
	movdqa	%xmm0, 64(%rsp)
	movdqa	%xmm0, 48(%rsp)
	movdqa	%xmm0, 32(%rsp)
	movdqa	%xmm0, 16(%rsp)
	movdqa	%xmm0, (%rsp)
	movq	$0, 126(%rsp)
	xorl	%r14d, %r14d
	movl	$1, %ecx
	jmp	.Lluossavin_x86_64.BB30_10
.Lluossavin_x86_64.BB30_7:
	pxor	%xmm0, %xmm0
	movdqa	%xmm0, 112(%rsp)
	movdqa	%xmm0, 96(%rsp)
	movdqa	%xmm0, 80(%rsp)
	movdqa	%xmm0, 64(%rsp)
	movdqa	%xmm0, 48(%rsp)
	movdqa	%xmm0, 32(%rsp)
	movdqa	%xmm0, 16(%rsp)
	movdqa	%xmm0, (%rsp)
	movq	$0, 126(%rsp)
	xorl	%r14d, %r14d
	movl	$10, %ecx
.Lluossavin_x86_64.BB30_10:
	xorl	%ebp, %ebp
	xorl	%r15d, %r15d
	xorl	%r12d, %r12d
	xorl	%r13d, %r13d
.Lluossavin_x86_64.BB30_11:
	movl	%ecx, (%rax)
	movw	$0, 4(%rax)
	movw	%di, 6(%rax)
	movq	$0, 8(%rax)
	movups	6(%rsp), %xmm1
	movups	22(%rsp), %xmm2
	movups	38(%rsp), %xmm3
	movups	54(%rsp), %xmm4
	movups	%xmm1, 16(%rax)
	movups	%xmm2, 32(%rax)
	movups	%xmm3, 48(%rax)
	movups	%xmm4, 64(%rax)
	movups	70(%rsp), %xmm1
	movups	%xmm1, 80(%rax)
	movups	86(%rsp), %xmm1
	movups	%xmm1, 96(%rax)
	movups	102(%rsp), %xmm1
	movups	%xmm1, 112(%rax)
	movups	118(%rsp), %xmm1
	movups	%xmm1, 128(%rax)
	movl	%r13d, 144(%rax)
	movl	%r12d, 148(%rax)
	movl	%r15d, 152(%rax)
	movl	%ebp, 156(%rax)
	movdqu	%xmm0, 160(%rax)
	movl	%r13d, 176(%rax)
	movl	%r12d, 180(%rax)
	movl	%r15d, 184(%rax)
	movl	%ebp, 188(%rax)
	movq	$0, 192(%rax)
	movl	%ecx, 200(%rax)
	movw	%di, 204(%rax)
	movb	%r14b, 206(%rax)
	movb	$0, 207(%rax)
	addq	$184, %rsp
	popq	%rbx
	popq	%r12
	popq	%r13
	popq	%r14
	popq	%r15
	popq	%rbp
	retq
.Lluossavin_x86_64.BB30_6:
	leaq	240(%rsp), %r10
	movb	%r9b, %r8b
	shll	$12, %r8d
	leal	-1(%r14), %ecx
	cmpb	$3, %cl
	movzbl	%cl, %ecx
	movl	$1, %esi
	cmovbl	%ecx, %esi
	movl	(%rdx,%r8), %r13d
	movl	4(%rdx,%r8), %r12d
	movl	%r13d, %ecx
	bswapl	%ecx
	movl	%r12d, %edi
	bswapl	%edi
	movl	8(%rdx,%r8), %r15d
	movl	%r15d, %r9d
	bswapl	%r9d
	movl	12(%rdx,%r8), %ebp
	movl	%ebp, %edx
	bswapl	%edx
	movl	%ecx, 136(%rsp)
	movl	%edi, 140(%rsp)
	movl	%r9d, 144(%rsp)
	movl	%edx, 148(%rsp)
	xorps	%xmm0, %xmm0
	movaps	%xmm0, 160(%rsp)
	leaq	160(%rsp), %rdi
	leaq	136(%rsp), %rcx
	movq	%r10, %rdx
	movq	%rax, 152(%rsp)
	callq	"cipher::encrypt.x86_64"
	movq	152(%rsp), %rax
	movdqa	160(%rsp), %xmm0
	movdqa	%xmm0, %xmm1
	pxor	%xmm2, %xmm2
	punpckhbw	%xmm2, %xmm1
	pshuflw	$27, %xmm1, %xmm1
	pshufhw	$27, %xmm1, %xmm1
	punpcklbw	%xmm2, %xmm0
	pshuflw	$27, %xmm0, %xmm0
	pshufhw	$27, %xmm0, %xmm0
	packuswb	%xmm1, %xmm0
	leaq	240(%rsp), %rcx
	movups	(%rcx), %xmm1
	movups	16(%rcx), %xmm2
	movups	32(%rcx), %xmm3
	movups	48(%rcx), %xmm4
	movups	%xmm1, 6(%rsp)
	movups	%xmm2, 22(%rsp)
	movups	%xmm3, 38(%rsp)
	movups	%xmm4, 54(%rsp)
	movups	64(%rcx), %xmm1
	movups	%xmm1, 70(%rsp)
	movups	80(%rcx), %xmm1
	movups	%xmm1, 86(%rsp)
	movups	96(%rcx), %xmm1
	movups	%xmm1, 102(%rsp)
	movups	112(%rcx), %xmm1
	movups	%xmm1, 118(%rsp)
	xorl	%ecx, %ecx
	movl	%ebx, %edi
	jmp	.Lluossavin_x86_64.BB30_11
.Lluossavin_x86_64.func_end30:
	.size	luossavin_ctr_start_x86_64, .Lluossavin_x86_64.func_end30-luossavin_ctr_start_x86_64

	.section	.text.luossavin_hash_blocks_x86_64,"ax",@progbits
	.globl	luossavin_hash_blocks_x86_64
	.hidden	luossavin_hash_blocks_x86_64
	.p2align	4
	.type	luossavin_hash_blocks_x86_64,@function
luossavin_hash_blocks_x86_64:
	subq	$72, %rsp
	xorl	%eax, %eax
	testq	%rdx, %rdx
	sete	%al
	shll	$12, %eax
	addq	%rax, %rdx
	xorps	%xmm0, %xmm0
	movaps	%xmm0, (%rsp)
	movaps	%xmm0, 16(%rsp)
	movq	%rdi, 40(%rsp)
	movq	%rsi, 48(%rsp)
	movups	%xmm0, 56(%rsp)
	movq	%rsp, %rdi
	leaq	40(%rsp), %rsi
	callq	"ghash::Ghash::absorb_all.x86_64"
	movq	16(%rsp), %rax
	movq	24(%rsp), %rdx
	addq	$72, %rsp
	retq
.Lluossavin_x86_64.func_end31:
	.size	luossavin_hash_blocks_x86_64, .Lluossavin_x86_64.func_end31-luossavin_hash_blocks_x86_64

	.section	.text.luossavin_hash_join_x86_64,"ax",@progbits
	.globl	luossavin_hash_join_x86_64
	.hidden	luossavin_hash_join_x86_64
	.p2align	4
	.type	luossavin_hash_join_x86_64,@function
luossavin_hash_join_x86_64:
	pushq	%r15
	pushq	%r14
	pushq	%r12
	pushq	%rbx
	pushq	%rax
	movq	%r9, %rbx
	movq	%r8, %r14
	movq	%rcx, %r15
	movq	%rdx, %r12
	movq	48(%rsp), %rdx
	callq	"field::power.x86_64"
	movq	%rdx, %rcx
	movq	%r12, %rdi
	movq	%r15, %rsi
	movq	%rax, %rdx
	callq	"field::galois_mul.x86_64"
	xorq	%r14, %rax
	xorq	%rbx, %rdx
	addq	$8, %rsp
	popq	%rbx
	popq	%r12
	popq	%r14
	popq	%r15
	retq
.Lluossavin_x86_64.func_end32:
	.size	luossavin_hash_join_x86_64, .Lluossavin_x86_64.func_end32-luossavin_hash_join_x86_64

	.section	.text.luossavin_key_new_x86_64,"ax",@progbits
	.globl	luossavin_key_new_x86_64
	.hidden	luossavin_key_new_x86_64
	.p2align	4
	.type	luossavin_key_new_x86_64,@function
luossavin_key_new_x86_64:
	pushq	%rbp
	pushq	%r15
	pushq	%r14
	pushq	%r13
	pushq	%r12
	pushq	%rbx
	subq	$120, %rsp
	xorl	%r8d, %r8d
	testq	%rsi, %rsi
	sete	%al
	cmpq	$16, %rdx
	jne	.Lluossavin_x86_64.BB33_5
	leal	-65536(%rcx), %edx
	cmpl	$-65535, %edx
	jae	.Lluossavin_x86_64.BB33_2
	xorps	%xmm0, %xmm0
	movaps	%xmm0, 64(%rsp)
	movaps	%xmm0, 48(%rsp)
	movaps	%xmm0, 32(%rsp)
	movaps	%xmm0, 16(%rsp)
	movaps	%xmm0, (%rsp)
	movaps	%xmm0, -16(%rsp)
	movaps	%xmm0, -32(%rsp)
	movaps	%xmm0, -48(%rsp)
	movl	$13, %ecx
	jmp	.Lluossavin_x86_64.BB33_7
.Lluossavin_x86_64.BB33_5:
	xorps	%xmm0, %xmm0
	movaps	%xmm0, 64(%rsp)
	movaps	%xmm0, 48(%rsp)
	movaps	%xmm0, 32(%rsp)
	movaps	%xmm0, 16(%rsp)
	movaps	%xmm0, (%rsp)
	movaps	%xmm0, -16(%rsp)
	movaps	%xmm0, -32(%rsp)
	movaps	%xmm0, -48(%rsp)
	movl	$1, %ecx
.Lluossavin_x86_64.BB33_7:
	xorl	%eax, %eax
	jmp	.Lluossavin_x86_64.BB33_8
.Lluossavin_x86_64.BB33_2:
	movq	%rcx, 88(%rsp)
	movq	%rdi, 96(%rsp)
	movb	%al, %r8b
	shll	$12, %r8d
	movl	$-960843357, %ecx
	xorl	(%rsi,%r8), %ecx
	xorps	%xmm0, %xmm0
	movl	$1345563222, %edx
	xorl	4(%rsi,%r8), %edx
	movl	$-1752072857, %edi
	xorl	8(%rsi,%r8), %edi
	movl	$-601722702, %eax
	xorl	12(%rsi,%r8), %eax
	movaps	%xmm0, 64(%rsp)
	movaps	%xmm0, 48(%rsp)
	movaps	%xmm0, 32(%rsp)
	movaps	%xmm0, 16(%rsp)
	movaps	%xmm0, (%rsp)
	movaps	%xmm0, -16(%rsp)
	movaps	%xmm0, -32(%rsp)
	movaps	%xmm0, -48(%rsp)
	bswapl	%ecx
	bswapl	%edx
	bswapl	%edi
	bswapl	%eax
	xorl	%esi, %esi
	.p2align	4
.Lluossavin_x86_64.BB33_3:
	movq	%rsi, 112(%rsp)
	movl	%ecx, -52(%rsp)
	movl	%edx, -56(%rsp)
	movl	%edi, %r8d
	movl	%edi, -64(%rsp)
	leaq	.Lluossavin_x86_64.static.5(%rip), %rcx
	movl	%eax, %edi
	movl	%eax, -60(%rsp)
	movl	(%rsi,%rcx), %ecx
	movl	%r8d, %eax
	xorl	%edx, %eax
	xorl	%edi, %ecx
	xorl	%ecx, %eax
	movl	%eax, %r9d
	movl	%eax, %ebp
	shrl	%r9d
	shrl	$3, %ebp
	movl	%eax, %ecx
	movl	%eax, %r11d
	shrl	$4, %ecx
	movl	%eax, %r15d
	shrl	$7, %r15d
	movl	%r15d, %esi
	shrl	$5, %r11d
	xorl	%ecx, %esi
	movl	%esi, %edi
	movl	%r11d, %edx
	movl	%esi, -108(%rsp)
	xorl	%r11d, %esi
	movq	%rsi, %r8
	movq	%rsi, 104(%rsp)
	xorl	%r9d, %edx
	movl	%edx, -112(%rsp)
	xorl	%ebp, %r11d
	movl	%eax, %esi
	notl	%esi
	movl	%esi, %ebx
	movl	%esi, -72(%rsp)
	movl	%edx, %esi
	xorl	%eax, %esi
	movl	%esi, %r10d
	movl	%esi, -68(%rsp)
	movl	%r8d, %esi
	andl	%r10d, %esi
	movl	%r11d, %r14d
	andl	%ebx, %r14d
	xorl	%r9d, %r14d
	xorl	%esi, %r14d
	movl	%eax, %r13d
	shrl	$6, %r13d
	xorl	%eax, %edi
	movl	%r11d, %r12d
	xorl	%eax, %r12d
	movl	%r13d, %ebx
	xorl	%r11d, %r13d
	movl	%r11d, %r8d
	andl	%eax, %r11d
	shrl	$2, %eax
	xorl	%eax, %ecx
	movl	%edi, %edx
	xorl	%ebp, %edx
	movl	%edx, -120(%rsp)
	movl	%r12d, %edx
	xorl	%ecx, %edx
	movl	%edx, -88(%rsp)
	xorl	%r9d, %ebp
	xorl	%ecx, %ebp
	movl	%ebp, -104(%rsp)
	xorl	%edi, %r14d
	movl	%edi, %ebp
	xorl	%r15d, %r8d
	xorl	%eax, %ebx
	xorl	%eax, %ebp
	movl	%r8d, %ecx
	xorl	%eax, %r8d
	movl	%ebp, %r10d
	notl	%ebp
	notl	%ecx
	movl	%ecx, -92(%rsp)
	movl	%ebx, %eax
	movl	%r9d, -100(%rsp)
	xorl	%r9d, %eax
	movl	%eax, -116(%rsp)
	movl	%ebx, %esi
	movl	%ebx, -96(%rsp)
	andl	%ecx, %esi
	movl	%eax, %ecx
	andl	%ebp, %ecx
	xorl	%esi, %r8d
	xorl	%ecx, %r8d
	andl	%r9d, %edx
	xorl	%edx, %r13d
	movl	-108(%rsp), %eax
	movl	-112(%rsp), %r9d
	xorl	%r9d, %eax
	movl	%eax, -108(%rsp)
	movl	%r12d, %ecx
	movl	%r12d, -84(%rsp)
	xorl	%ebx, %r12d
	movl	%r10d, %edx
	xorl	%r9d, %edx
	movl	%edx, -80(%rsp)
	movl	%r15d, %edi
	xorl	%ecx, %edi
	movl	%edi, -76(%rsp)
	movl	-120(%rsp), %r10d
	movl	%r10d, %ebx
	movl	-116(%rsp), %r15d
	xorl	%r15d, %ebx
	movl	%edi, %ecx
	andl	%r12d, %ecx
	movl	%eax, %edi
	andl	-104(%rsp), %edi
	xorl	%edi, %ecx
	andl	%ebx, %edx
	xorl	%edi, %edx
	xorl	%esi, %r13d
	notl	%r9d
	movl	%r9d, -112(%rsp)
	movl	%r10d, %esi
	andl	%r9d, %esi
	xorl	%esi, %r11d
	xorl	%ecx, %r8d
	xorl	%ecx, %r11d
	xorl	%edx, %r13d
	xorl	%edx, %r14d
	notl	%r11d
	movl	%r8d, %ecx
	xorl	%r13d, %ecx
	andl	%r11d, %r8d
	movl	%r8d, %esi
	xorl	%r14d, %esi
	movl	%esi, %r9d
	andl	%ecx, %r9d
	movl	%r14d, %edi
	xorl	%r11d, %edi
	xorl	%r13d, %r9d
	xorl	%r8d, %r13d
	andl	%edi, %r13d
	movl	%r13d, %edi
	xorl	%r8d, %r13d
	andl	%r14d, %r13d
	xorl	%r13d, %r11d
	xorl	%esi, %r13d
	xorl	%r14d, %edi
	andl	%r9d, %r13d
	xorl	%ecx, %r13d
	movl	-96(%rsp), %esi
	andl	%r11d, %esi
	movl	%r11d, %r8d
	andl	-92(%rsp), %r11d
	xorl	%edi, %r8d
	movl	%r13d, %edx
	xorl	%r8d, %edx
	andl	%r8d, %r15d
	movl	%r15d, -116(%rsp)
	andl	%ebp, %r8d
	movl	%r9d, %r14d
	xorl	%edi, %r14d
	andl	%edi, -100(%rsp)
	andl	-88(%rsp), %edi
	andl	%r13d, %r10d
	movl	%r10d, -120(%rsp)
	movl	%r13d, %ebp
	andl	-112(%rsp), %r13d
	xorl	%r9d, %ebp
	movl	-84(%rsp), %eax
	andl	%ebp, %eax
	andl	-72(%rsp), %ebp
	movq	104(%rsp), %r15
	andl	%r9d, %r15d
	andl	-68(%rsp), %r9d
	andl	%edx, %ebx
	movl	%edx, %ecx
	andl	-80(%rsp), %edx
	xorl	%r14d, %ecx
	movl	-108(%rsp), %r10d
	andl	%r14d, %r10d
	andl	-104(%rsp), %r14d
	xorl	%eax, %esi
	xorl	%eax, %r10d
	andl	%ecx, %r12d
	andl	-76(%rsp), %ecx
	xorl	%edx, %edi
	xorl	%r14d, %r9d
	xorl	%edx, %r9d
	movq	%r15, %rdx
	xorl	%ebx, %edx
	xorl	-100(%rsp), %ebx
	xorl	%r11d, %r13d
	xorl	%ebp, %r13d
	xorl	%ebp, %r9d
	movl	-116(%rsp), %r15d
	xorl	%esi, %r15d
	xorl	%esi, %ebx
	xorl	%edx, %r8d
	xorl	%r8d, %r10d
	movl	%r8d, %esi
	xorl	%r12d, %esi
	movl	-120(%rsp), %r8d
	xorl	%r8d, %r12d
	xorl	%r12d, %edx
	movq	%rdx, %rbp
	xorl	%r12d, %ebx
	xorl	%r15d, %esi
	xorl	%r8d, %r15d
	xorl	%r11d, %r14d
	xorl	%ecx, %edi
	xorl	%ecx, %r14d
	movl	%edi, %ecx
	xorl	%r13d, %ecx
	movl	%r10d, %edx
	xorl	%r10d, %edi
	xorl	%esi, %r14d
	xorl	%r13d, %edx
	xorl	%r13d, %esi
	xorl	%r15d, %r9d
	xorl	%r15d, %ecx
	notl	%ebx
	andl	$16843009, %ebx
	andl	$16843009, %r14d
	leal	(%r14,%rbx,2), %r8d
	andl	$16843009, %r9d
	addl	%r9d, %r9d
	leal	(%r9,%r8,4), %eax
	andl	$16843009, %ebp
	andl	$16843009, %ecx
	leal	(%rcx,%rbp,2), %ecx
	andl	$16843009, %edx
	orl	%eax, %edx
	shll	$4, %edx
	leal	(%rdx,%rcx,4), %ecx
	movl	-64(%rsp), %edx
	notl	%esi
	andl	$16843009, %esi
	andl	$16843009, %edi
	leal	(%rdi,%rsi,2), %eax
	movq	112(%rsp), %rsi
	movl	-60(%rsp), %edi
	xorl	$16843009, %eax
	xorl	$1347440720, %ecx
	addl	%ecx, %eax
	movl	%eax, %ecx
	roll	$13, %ecx
	xorl	%eax, %ecx
	roll	$23, %eax
	xorl	-52(%rsp), %eax
	xorl	%ecx, %eax
	movl	-56(%rsp), %ecx
	movl	%eax, -48(%rsp,%rsi)
	addq	$4, %rsi
	cmpq	$128, %rsi
	jne	.Lluossavin_x86_64.BB33_3
	movq	96(%rsp), %rdi
	movq	88(%rsp), %rax
	xorl	%ecx, %ecx
.Lluossavin_x86_64.BB33_8:
	movaps	64(%rsp), %xmm0
	movups	%xmm0, 112(%rdi)
	movaps	48(%rsp), %xmm0
	movups	%xmm0, 96(%rdi)
	movaps	32(%rsp), %xmm0
	movups	%xmm0, 80(%rdi)
	movaps	16(%rsp), %xmm0
	movups	%xmm0, 64(%rdi)
	movaps	-48(%rsp), %xmm0
	movaps	-32(%rsp), %xmm1
	movaps	-16(%rsp), %xmm2
	movaps	(%rsp), %xmm3
	movups	%xmm3, 48(%rdi)
	movups	%xmm2, 32(%rdi)
	movups	%xmm1, 16(%rdi)
	movups	%xmm0, (%rdi)
	movl	%ecx, 128(%rdi)
	movw	%ax, 132(%rdi)
	movw	$0, 134(%rdi)
	movq	%rdi, %rax
	addq	$120, %rsp
	popq	%rbx
	popq	%r12
	popq	%r13
	popq	%r14
	popq	%r15
	popq	%rbp
	retq
.Lluossavin_x86_64.func_end33:
	.size	luossavin_key_new_x86_64, .Lluossavin_x86_64.func_end33-luossavin_key_new_x86_64

	.section	.text.luossavin_key_retire_x86_64,"ax",@progbits
	.globl	luossavin_key_retire_x86_64
	.hidden	luossavin_key_retire_x86_64
	.p2align	4
	.type	luossavin_key_retire_x86_64,@function
luossavin_key_retire_x86_64:
	movq	%rdi, %rax
	movl	136(%rsp), %ecx
	movzwl	140(%rsp), %edx
	movzbl	143(%rsp), %esi
	testl	%ecx, %ecx
	movzbl	142(%rsp), %edi
	movl	$1, %r8d
	cmovnel	%edi, %r8d
	movaps	120(%rsp), %xmm0
	movups	%xmm0, 112(%rax)
	movaps	104(%rsp), %xmm0
	movups	%xmm0, 96(%rax)
	movaps	88(%rsp), %xmm0
	movups	%xmm0, 80(%rax)
	movaps	72(%rsp), %xmm0
	movups	%xmm0, 64(%rax)
	movaps	8(%rsp), %xmm0
	movaps	24(%rsp), %xmm1
	movaps	40(%rsp), %xmm2
	movaps	56(%rsp), %xmm3
	movups	%xmm3, 48(%rax)
	movups	%xmm2, 32(%rax)
	movups	%xmm1, 16(%rax)
	movups	%xmm0, (%rax)
	movl	%ecx, 128(%rax)
	movw	%dx, 132(%rax)
	movb	%r8b, 134(%rax)
	movb	%sil, 135(%rax)
	retq
.Lluossavin_x86_64.func_end34:
	.size	luossavin_key_retire_x86_64, .Lluossavin_x86_64.func_end34-luossavin_key_retire_x86_64

	.section	.text.luossavin_label_x86_64,"ax",@progbits
	.globl	luossavin_label_x86_64
	.hidden	luossavin_label_x86_64
	.p2align	4
	.type	luossavin_label_x86_64,@function
luossavin_label_x86_64:
	movzwl	%si, %eax
	bswapq	%rax
	shrq	$16, %rax
	movl	%edi, %ecx
	shll	$8, %ecx
	andl	$16711680, %ecx
	movl	%edi, %edx
	shrl	$8, %edx
	andl	$65280, %edx
	andl	$-16776961, %edi
	bswapl	%edi
	orq	%rdi, %rax
	orq	%rcx, %rax
	orq	%rdx, %rax
	retq
.Lluossavin_x86_64.func_end35:
	.size	luossavin_label_x86_64, .Lluossavin_x86_64.func_end35-luossavin_label_x86_64

	.section	.text.luossavin_opens_end_x86_64,"ax",@progbits
	.globl	luossavin_opens_end_x86_64
	.hidden	luossavin_opens_end_x86_64
	.p2align	4
	.type	luossavin_opens_end_x86_64,@function
luossavin_opens_end_x86_64:
	pushq	%rbp
	pushq	%r15
	pushq	%r14
	pushq	%r13
	pushq	%r12
	pushq	%rbx
	subq	$152, %rsp
	movq	%rdi, %rax
	leaq	208(%rsp), %r8
	xorl	%r13d, %r13d
	testq	%rsi, %rsi
	sete	%r9b
	movl	256(%rsp), %ecx
	movq	%rcx, (%rsp)
	movl	260(%rsp), %r12d
	movl	264(%rsp), %ebx
	movl	268(%rsp), %r15d
	movq	272(%rsp), %r14
	movq	280(%rsp), %r11
	movl	288(%rsp), %ecx
	movq	%rcx, 8(%rsp)
	movl	292(%rsp), %edi
	movzwl	296(%rsp), %ebp
	cmpq	$14, %rdi
	ja	.Lluossavin_x86_64.BB36_7
	leaq	.Lluossavin_x86_64.JTI36_0(%rip), %rcx
	movslq	(%rcx,%rdi,4), %r10
	addq	%rcx, %r10
	jmpq	*%r10
.Lluossavin_x86_64.BB36_8:
	cmpq	$16777217, %r14
	setae	%cl
	cmpq	$16777217, %r11
	setae	%r10b
	orb	%cl, %r10b
	movl	$1025, %ecx
	jne	.Lluossavin_x86_64.BB36_11
	cmpq	$16, %rdx
	jne	.Lluossavin_x86_64.BB36_10
	movq	%rax, 112(%rsp)
	movb	%r9b, %r13b
	shll	$12, %r13d
	movq	%r11, 104(%rsp)
	andl	$15, %r11d
	xorps	%xmm0, %xmm0
	movaps	%xmm0, 64(%rsp)
	movaps	%xmm0, 80(%rsp)
	movups	(%r8), %xmm0
	movups	16(%r8), %xmm1
	movups	32(%r8), %xmm2
	movaps	%xmm0, 16(%rsp)
	movaps	%xmm1, 32(%rsp)
	movaps	%xmm2, 48(%rsp)
	leaq	48(%rsp), %rdx
	movq	16(%rsp), %rax
	movq	24(%rsp), %rdi
	movq	32(%rsp), %r8
	movq	40(%rsp), %r9
	bswapq	%rax
	bswapq	%rdi
	bswapq	%r8
	bswapq	%r9
	movq	%rax, 120(%rsp)
	movq	%rdi, 128(%rsp)
	movq	%r8, 136(%rsp)
	movq	%r9, 144(%rsp)
	leaq	64(%rsp), %rdi
	leaq	120(%rsp), %rax
	movq	%rsi, 96(%rsp)
	movq	%rax, %rsi
	movq	%r11, %rcx
	callq	"ghash::Ghash::absorb_all.x86_64"
	leaq	120(%rsp), %rdi
	leaq	64(%rsp), %rsi
	movq	%r14, %rdx
	movq	104(%rsp), %r14
	movq	%r14, %rcx
	callq	"ghash::Ghash::absorb_lengths.x86_64"
	movq	136(%rsp), %rcx
	movq	144(%rsp), %rax
	movq	%rcx, %rsi
	shrq	$32, %rsi
	movq	%rax, %rdx
	shrq	$32, %rdx
	bswapl	%esi
	bswapl	%ecx
	bswapl	%edx
	bswapl	%eax
	movq	96(%rsp), %rdi
	xorl	(%rdi,%r13), %esi
	xorl	(%rsp), %esi
	bswapl	%esi
	xorl	4(%rdi,%r13), %ecx
	xorl	%r12d, %ecx
	bswapl	%ecx
	xorl	8(%rdi,%r13), %edx
	xorl	%ebx, %edx
	bswapl	%edx
	xorl	12(%rdi,%r13), %eax
	xorl	%r15d, %eax
	bswapl	%eax
	addq	%rsi, %rcx
	addq	%rcx, %rdx
	movq	$0, (%rsp)
	orq	%rdx, %rax
	je	.Lluossavin_x86_64.BB36_14
	movl	$769, %ecx
	xorl	%edx, %edx
	jmp	.Lluossavin_x86_64.BB36_15
.Lluossavin_x86_64.BB36_3:
	movl	$1025, %ecx
	jmp	.Lluossavin_x86_64.BB36_11
.Lluossavin_x86_64.BB36_6:
	movl	$3073, %ecx
	jmp	.Lluossavin_x86_64.BB36_11
.Lluossavin_x86_64.BB36_7:
	movl	$2561, %ecx
	jmp	.Lluossavin_x86_64.BB36_11
.Lluossavin_x86_64.BB36_2:
	movq	%rdi, %rcx
	jmp	.Lluossavin_x86_64.BB36_11
.Lluossavin_x86_64.BB36_4:
	movl	$2049, %ecx
	jmp	.Lluossavin_x86_64.BB36_11
.Lluossavin_x86_64.BB36_5:
	movl	$2817, %ecx
.Lluossavin_x86_64.BB36_11:
	leaq	298(%rsp), %rdx
	movups	(%r8), %xmm0
	movups	16(%r8), %xmm1
	movups	32(%r8), %xmm2
	movaps	%xmm2, 48(%rsp)
	movaps	%xmm1, 32(%rsp)
	movaps	%xmm0, 16(%rsp)
	movl	(%rdx), %esi
	movl	%esi, 64(%rsp)
	movzwl	4(%rdx), %edx
	movw	%dx, 68(%rsp)
	movl	%ecx, %esi
	shrl	$16, %esi
	xorl	%edx, %edx
	movq	8(%rsp), %r13
	testb	%cl, %cl
	je	.Lluossavin_x86_64.BB36_17
.Lluossavin_x86_64.BB36_18:
	movzbl	%ch, %edx
	leaq	.Lluossavin_x86_64.switch.table.luossavin_which_x86_64(%rip), %r8
	movl	(%r8,%rdx,4), %r8d
	andl	$65280, %ecx
	xorl	%edx, %edx
	cmpl	$1792, %ecx
	movzbl	%sil, %ecx
	cmovnel	%edx, %ecx
	jmp	.Lluossavin_x86_64.BB36_19
.Lluossavin_x86_64.BB36_10:
	movl	%edx, %ecx
	shll	$16, %ecx
	movl	$1048576, %esi
	subl	%ecx, %esi
	andl	$16711680, %esi
	orq	$1793, %rsi
	cmpq	$17, %rdx
	movl	$1793, %ecx
	cmovbq	%rsi, %rcx
	jmp	.Lluossavin_x86_64.BB36_11
.Lluossavin_x86_64.BB36_14:
	addq	$15, %r14
	shrq	$4, %r14
	movq	8(%rsp), %r13
	notl	%r13d
	cmpq	%r13, %r14
	seta	%dl
	xorl	%ecx, %ecx
.Lluossavin_x86_64.BB36_15:
	xorps	%xmm0, %xmm0
	movaps	%xmm0, 48(%rsp)
	movaps	%xmm0, 32(%rsp)
	movaps	%xmm0, 16(%rsp)
	movl	$0, 64(%rsp)
	movw	$0, 68(%rsp)
	movl	$12, %edi
	xorl	%esi, %esi
	xorl	%r12d, %r12d
	xorl	%ebx, %ebx
	xorl	%r15d, %r15d
	xorl	%r14d, %r14d
	xorl	%r11d, %r11d
	xorl	%r13d, %r13d
	movq	112(%rsp), %rax
	testb	%cl, %cl
	jne	.Lluossavin_x86_64.BB36_18
.Lluossavin_x86_64.BB36_17:
	xorl	%r8d, %r8d
	xorl	%ecx, %ecx
.Lluossavin_x86_64.BB36_19:
	movl	%r8d, (%rax)
	movb	%cl, 4(%rax)
	movb	%dl, 5(%rax)
	movw	%bp, 6(%rax)
	movq	$0, 8(%rax)
	movaps	16(%rsp), %xmm0
	movaps	32(%rsp), %xmm1
	movaps	48(%rsp), %xmm2
	movups	%xmm0, 16(%rax)
	movups	%xmm1, 32(%rax)
	movups	%xmm2, 48(%rax)
	movq	(%rsp), %rcx
	movl	%ecx, 64(%rax)
	movl	%r12d, 68(%rax)
	movl	%ebx, 72(%rax)
	movl	%r15d, 76(%rax)
	movq	%r14, 80(%rax)
	movq	%r11, 88(%rax)
	movl	%r13d, 96(%rax)
	movl	%edi, 100(%rax)
	movw	%bp, 104(%rax)
	movl	64(%rsp), %ecx
	movl	%ecx, 106(%rax)
	movzwl	68(%rsp), %ecx
	movw	%cx, 110(%rax)
	addq	$152, %rsp
	popq	%rbx
	popq	%r12
	popq	%r13
	popq	%r14
	popq	%r15
	popq	%rbp
	retq
.Lluossavin_x86_64.func_end36:
	.size	luossavin_opens_end_x86_64, .Lluossavin_x86_64.func_end36-luossavin_opens_end_x86_64
	.section	.rodata.luossavin_opens_end_x86_64,"a",@progbits
	.p2align	2, 0x0
.Lluossavin_x86_64.JTI36_0:
	.long	.Lluossavin_x86_64.BB36_8-.Lluossavin_x86_64.JTI36_0
	.long	.Lluossavin_x86_64.BB36_2-.Lluossavin_x86_64.JTI36_0
	.long	.Lluossavin_x86_64.BB36_7-.Lluossavin_x86_64.JTI36_0
	.long	.Lluossavin_x86_64.BB36_7-.Lluossavin_x86_64.JTI36_0
	.long	.Lluossavin_x86_64.BB36_7-.Lluossavin_x86_64.JTI36_0
	.long	.Lluossavin_x86_64.BB36_3-.Lluossavin_x86_64.JTI36_0
	.long	.Lluossavin_x86_64.BB36_7-.Lluossavin_x86_64.JTI36_0
	.long	.Lluossavin_x86_64.BB36_7-.Lluossavin_x86_64.JTI36_0
	.long	.Lluossavin_x86_64.BB36_7-.Lluossavin_x86_64.JTI36_0
	.long	.Lluossavin_x86_64.BB36_7-.Lluossavin_x86_64.JTI36_0
	.long	.Lluossavin_x86_64.BB36_4-.Lluossavin_x86_64.JTI36_0
	.long	.Lluossavin_x86_64.BB36_7-.Lluossavin_x86_64.JTI36_0
	.long	.Lluossavin_x86_64.BB36_7-.Lluossavin_x86_64.JTI36_0
	.long	.Lluossavin_x86_64.BB36_5-.Lluossavin_x86_64.JTI36_0
	.long	.Lluossavin_x86_64.BB36_6-.Lluossavin_x86_64.JTI36_0

	.section	.text.luossavin_opens_piece_x86_64,"ax",@progbits
	.globl	luossavin_opens_piece_x86_64
	.hidden	luossavin_opens_piece_x86_64
	.p2align	4
	.type	luossavin_opens_piece_x86_64,@function
luossavin_opens_piece_x86_64:
	pushq	%rbp
	pushq	%r15
	pushq	%r14
	pushq	%r12
	pushq	%rbx
	subq	$96, %rsp
	movq	%rdx, %r8
	movq	%rsi, %rcx
	movq	%rdi, %rax
	leaq	144(%rsp), %rbx
	xorl	%esi, %esi
	testq	%rcx, %rcx
	sete	%dil
	movq	208(%rsp), %r14
	movq	216(%rsp), %rdx
	movq	224(%rsp), %xmm4
	pshufd	$85, %xmm4, %xmm0
	movd	%xmm0, %r9d
	movzwl	232(%rsp), %ebp
	cmpl	$14, %r9d
	ja	.Lluossavin_x86_64.BB37_8
	leaq	.Lluossavin_x86_64.JTI37_0(%rip), %r10
	movslq	(%r10,%r9,4), %r9
	addq	%r10, %r9
	jmpq	*%r9
.Lluossavin_x86_64.BB37_3:
	movq	%r8, %r15
	addq	%rdx, %r15
	movq	$-1, %r9
	cmovaeq	%r15, %r9
	cmpq	$16777216, %r14
	ja	.Lluossavin_x86_64.BB37_6
	cmpq	$16777216, %r9
	ja	.Lluossavin_x86_64.BB37_6
	movb	%dil, %sil
	shll	$12, %esi
	addq	%rsi, %rcx
	andl	$15, %edx
	leaq	16(%rsp), %rdi
	movq	%rbx, %rsi
	movq	%rax, %r12
	movdqa	%xmm4, 80(%rsp)
	callq	"pieces::hashing::Hashing::take_in.x86_64"
	movdqa	80(%rsp), %xmm4
	movq	%r12, %rax
	movups	48(%rbx), %xmm0
	movaps	%xmm0, 64(%rsp)
	movl	$0, 8(%rsp)
	movw	$0, 12(%rsp)
	xorl	%ecx, %ecx
	movq	%r15, %rdx
	jmp	.Lluossavin_x86_64.BB37_11
.Lluossavin_x86_64.BB37_6:
	movups	(%rbx), %xmm0
	movups	16(%rbx), %xmm1
	movups	32(%rbx), %xmm2
	movups	48(%rbx), %xmm3
	movaps	%xmm3, 64(%rsp)
	movaps	%xmm2, 48(%rsp)
	movaps	%xmm1, 32(%rsp)
	movaps	%xmm0, 16(%rsp)
	movl	90(%rbx), %ecx
	movl	%ecx, 8(%rsp)
	movzwl	94(%rbx), %ecx
	movw	%cx, 12(%rsp)
	movl	$5, %ecx
	jmp	.Lluossavin_x86_64.BB37_11
.Lluossavin_x86_64.BB37_2:
	movups	(%rbx), %xmm0
	movups	16(%rbx), %xmm1
	movups	32(%rbx), %xmm2
	movups	48(%rbx), %xmm3
	movaps	%xmm3, 64(%rsp)
	movaps	%xmm2, 48(%rsp)
	movaps	%xmm1, 32(%rsp)
	movaps	%xmm0, 16(%rsp)
	movl	90(%rbx), %ecx
	movl	%ecx, 8(%rsp)
	movzwl	94(%rbx), %ecx
	movw	%cx, 12(%rsp)
	movl	$1, %ecx
	jmp	.Lluossavin_x86_64.BB37_11
.Lluossavin_x86_64.BB37_10:
	movups	(%rbx), %xmm0
	movups	16(%rbx), %xmm1
	movups	32(%rbx), %xmm2
	movups	48(%rbx), %xmm3
	movaps	%xmm3, 64(%rsp)
	movaps	%xmm2, 48(%rsp)
	movaps	%xmm1, 32(%rsp)
	movaps	%xmm0, 16(%rsp)
	movl	90(%rbx), %ecx
	movl	%ecx, 8(%rsp)
	movzwl	94(%rbx), %ecx
	movw	%cx, 12(%rsp)
	movl	$14, %ecx
	jmp	.Lluossavin_x86_64.BB37_11
.Lluossavin_x86_64.BB37_8:
	movups	(%rbx), %xmm0
	movups	16(%rbx), %xmm1
	movups	32(%rbx), %xmm2
	movups	48(%rbx), %xmm3
	movaps	%xmm3, 64(%rsp)
	movaps	%xmm2, 48(%rsp)
	movaps	%xmm1, 32(%rsp)
	movaps	%xmm0, 16(%rsp)
	movl	90(%rbx), %ecx
	movl	%ecx, 8(%rsp)
	movzwl	94(%rbx), %ecx
	movw	%cx, 12(%rsp)
	movl	$12, %ecx
	jmp	.Lluossavin_x86_64.BB37_11
.Lluossavin_x86_64.BB37_7:
	movups	(%rbx), %xmm0
	movups	16(%rbx), %xmm1
	movups	32(%rbx), %xmm2
	movups	48(%rbx), %xmm3
	movaps	%xmm3, 64(%rsp)
	movaps	%xmm2, 48(%rsp)
	movaps	%xmm1, 32(%rsp)
	movaps	%xmm0, 16(%rsp)
	movl	90(%rbx), %ecx
	movl	%ecx, 8(%rsp)
	movzwl	94(%rbx), %ecx
	movw	%cx, 12(%rsp)
	movl	$10, %ecx
	jmp	.Lluossavin_x86_64.BB37_11
.Lluossavin_x86_64.BB37_9:
	movups	(%rbx), %xmm0
	movups	16(%rbx), %xmm1
	movups	32(%rbx), %xmm2
	movups	48(%rbx), %xmm3
	movaps	%xmm3, 64(%rsp)
	movaps	%xmm2, 48(%rsp)
	movaps	%xmm1, 32(%rsp)
	movaps	%xmm0, 16(%rsp)
	movl	90(%rbx), %ecx
	movl	%ecx, 8(%rsp)
	movzwl	94(%rbx), %ecx
	movw	%cx, 12(%rsp)
	movl	$13, %ecx
.Lluossavin_x86_64.BB37_11:
	movl	%ecx, (%rax)
	movw	$0, 4(%rax)
	movw	%bp, 6(%rax)
	movq	$0, 8(%rax)
	movaps	16(%rsp), %xmm0
	movaps	32(%rsp), %xmm1
	movaps	48(%rsp), %xmm2
	movaps	64(%rsp), %xmm3
	movups	%xmm0, 16(%rax)
	movups	%xmm1, 32(%rax)
	movups	%xmm2, 48(%rax)
	movups	%xmm3, 64(%rax)
	movq	%r14, 80(%rax)
	movq	%rdx, 88(%rax)
	movq	%xmm4, 96(%rax)
	movw	%bp, 104(%rax)
	movl	8(%rsp), %ecx
	movl	%ecx, 106(%rax)
	movzwl	12(%rsp), %ecx
	movw	%cx, 110(%rax)
	addq	$96, %rsp
	popq	%rbx
	popq	%r12
	popq	%r14
	popq	%r15
	popq	%rbp
	retq
.Lluossavin_x86_64.func_end37:
	.size	luossavin_opens_piece_x86_64, .Lluossavin_x86_64.func_end37-luossavin_opens_piece_x86_64
	.section	.rodata.luossavin_opens_piece_x86_64,"a",@progbits
	.p2align	2, 0x0
.Lluossavin_x86_64.JTI37_0:
	.long	.Lluossavin_x86_64.BB37_3-.Lluossavin_x86_64.JTI37_0
	.long	.Lluossavin_x86_64.BB37_2-.Lluossavin_x86_64.JTI37_0
	.long	.Lluossavin_x86_64.BB37_8-.Lluossavin_x86_64.JTI37_0
	.long	.Lluossavin_x86_64.BB37_8-.Lluossavin_x86_64.JTI37_0
	.long	.Lluossavin_x86_64.BB37_8-.Lluossavin_x86_64.JTI37_0
	.long	.Lluossavin_x86_64.BB37_6-.Lluossavin_x86_64.JTI37_0
	.long	.Lluossavin_x86_64.BB37_8-.Lluossavin_x86_64.JTI37_0
	.long	.Lluossavin_x86_64.BB37_8-.Lluossavin_x86_64.JTI37_0
	.long	.Lluossavin_x86_64.BB37_8-.Lluossavin_x86_64.JTI37_0
	.long	.Lluossavin_x86_64.BB37_8-.Lluossavin_x86_64.JTI37_0
	.long	.Lluossavin_x86_64.BB37_7-.Lluossavin_x86_64.JTI37_0
	.long	.Lluossavin_x86_64.BB37_8-.Lluossavin_x86_64.JTI37_0
	.long	.Lluossavin_x86_64.BB37_8-.Lluossavin_x86_64.JTI37_0
	.long	.Lluossavin_x86_64.BB37_9-.Lluossavin_x86_64.JTI37_0
	.long	.Lluossavin_x86_64.BB37_10-.Lluossavin_x86_64.JTI37_0

	.section	.text.luossavin_opens_start_x86_64,"ax",@progbits
	.globl	luossavin_opens_start_x86_64
	.hidden	luossavin_opens_start_x86_64
	.p2align	4
	.type	luossavin_opens_start_x86_64,@function
luossavin_opens_start_x86_64:
	pushq	%rbp
	pushq	%r15
	pushq	%r14
	pushq	%rbx
	subq	$248, %rsp
	movq	%rcx, %r9
	movq	%rsi, %rcx
	movq	%rdi, %rax
	xorl	%r11d, %r11d
	testq	%rsi, %rsi
	sete	%r14b
	xorl	%edi, %edi
	testq	%r9, %r9
	sete	%bl
	movl	416(%rsp), %ebp
	cmpl	$13, %ebp
	sete	%r10b
	incb	%r10b
	xorl	%esi, %esi
	testl	%ebp, %ebp
	movzbl	%r10b, %r10d
	cmovel	%ebp, %r10d
	movl	420(%rsp), %ebp
	cmovel	%ebp, %esi
	testb	%r10b, %r10b
	je	.Lluossavin_x86_64.BB38_3
	movzbl	%r10b, %ecx
	xorps	%xmm0, %xmm0
	cmpl	$2, %ecx
	jne	.Lluossavin_x86_64.BB38_2
	movaps	%xmm0, 64(%rsp)
	movaps	%xmm0, 48(%rsp)
	movaps	%xmm0, 32(%rsp)
	movaps	%xmm0, 16(%rsp)
	movq	$0, 78(%rsp)
	movl	$0, 8(%rsp)
	movw	$0, 12(%rsp)
	xorl	%ecx, %ecx
	movl	$13, %edx
	jmp	.Lluossavin_x86_64.BB38_10
.Lluossavin_x86_64.BB38_3:
	movzbl	423(%rsp), %r15d
	cmpq	$16, %r8
	je	.Lluossavin_x86_64.BB38_5
	cmpq	$12, %r8
	jne	.Lluossavin_x86_64.BB38_8
.Lluossavin_x86_64.BB38_5:
	cmpq	$16777216, %rdx
	jbe	.Lluossavin_x86_64.BB38_6
	xorps	%xmm0, %xmm0
	movaps	%xmm0, 64(%rsp)
	movaps	%xmm0, 48(%rsp)
	movaps	%xmm0, 32(%rsp)
	movaps	%xmm0, 16(%rsp)
	movq	$0, 78(%rsp)
	movl	$0, 8(%rsp)
	movw	$0, 12(%rsp)
	xorl	%ecx, %ecx
	movl	$5, %edx
	jmp	.Lluossavin_x86_64.BB38_10
.Lluossavin_x86_64.BB38_2:
	movaps	%xmm0, 64(%rsp)
	movaps	%xmm0, 48(%rsp)
	movaps	%xmm0, 32(%rsp)
	movaps	%xmm0, 16(%rsp)
	movq	$0, 78(%rsp)
	movl	$0, 8(%rsp)
	movw	$0, 12(%rsp)
	xorl	%ecx, %ecx
	movl	$1, %edx
	jmp	.Lluossavin_x86_64.BB38_10
.Lluossavin_x86_64.BB38_6:
	leaq	288(%rsp), %r10
	movb	%r14b, %r11b
	shll	$12, %r11d
	addq	%r11, %rcx
	movb	%bl, %dil
	shll	$12, %edi
	addq	%rdi, %r9
	decb	%r15b
	cmpb	$3, %r15b
	movzbl	%r15b, %edi
	movl	$1, %esi
	cmovbl	%edi, %esi
	movq	%r8, (%rsp)
	leaq	92(%rsp), %rdi
	movq	%rdx, %rbx
	movq	%r10, %rdx
	movq	%rbx, %r8
	movq	%rax, %r14
	callq	"pieces::tagging::begin.x86_64"
	movq	%r14, %rax
	movl	108(%rsp), %ecx
	movups	112(%rsp), %xmm0
	movaps	%xmm0, 176(%rsp)
	movups	128(%rsp), %xmm1
	movaps	%xmm1, 192(%rsp)
	movups	144(%rsp), %xmm2
	movups	160(%rsp), %xmm3
	movups	%xmm0, 22(%rsp)
	movups	%xmm1, 38(%rsp)
	movups	%xmm2, 54(%rsp)
	movups	%xmm3, 70(%rsp)
	movl	$0, 8(%rsp)
	movw	$0, 12(%rsp)
	xorl	%edx, %edx
	movl	%ebp, %esi
	jmp	.Lluossavin_x86_64.BB38_11
.Lluossavin_x86_64.BB38_8:
	xorps	%xmm0, %xmm0
	movaps	%xmm0, 64(%rsp)
	movaps	%xmm0, 48(%rsp)
	movaps	%xmm0, 32(%rsp)
	movaps	%xmm0, 16(%rsp)
	movq	$0, 78(%rsp)
	movl	$0, 8(%rsp)
	movw	$0, 12(%rsp)
	xorl	%ecx, %ecx
	movl	$10, %edx
.Lluossavin_x86_64.BB38_10:
	xorl	%ebx, %ebx
.Lluossavin_x86_64.BB38_11:
	movl	%edx, (%rax)
	movw	$0, 4(%rax)
	movw	%si, 6(%rax)
	movq	$0, 8(%rax)
	movups	22(%rsp), %xmm0
	movups	38(%rsp), %xmm1
	movups	54(%rsp), %xmm2
	movq	70(%rsp), %rdi
	movq	78(%rsp), %r8
	movups	%xmm0, 16(%rax)
	movups	%xmm1, 32(%rax)
	movups	%xmm2, 48(%rax)
	movq	%rdi, 64(%rax)
	movq	%r8, 72(%rax)
	movq	%rbx, 80(%rax)
	movq	$0, 88(%rax)
	movl	%ecx, 96(%rax)
	movl	%edx, 100(%rax)
	movw	%si, 104(%rax)
	movl	8(%rsp), %ecx
	movl	%ecx, 106(%rax)
	movzwl	12(%rsp), %ecx
	movw	%cx, 110(%rax)
	addq	$248, %rsp
	popq	%rbx
	popq	%r14
	popq	%r15
	popq	%rbp
	retq
.Lluossavin_x86_64.func_end38:
	.size	luossavin_opens_start_x86_64, .Lluossavin_x86_64.func_end38-luossavin_opens_start_x86_64

	.section	.text.luossavin_plan_accepts_x86_64,"ax",@progbits
	.globl	luossavin_plan_accepts_x86_64
	.hidden	luossavin_plan_accepts_x86_64
	.p2align	4
	.type	luossavin_plan_accepts_x86_64,@function
luossavin_plan_accepts_x86_64:
	pushq	%rbx
	subq	$1040, %rsp
	movq	%rdi, %rbx
	leaq	8(%rsp), %rdi
	leaq	1056(%rsp), %rsi
	movl	$1032, %edx
	callq	memcpy@PLT
	movq	8(%rsp), %rcx
	cmpq	$64, %rcx
	jbe	.Lluossavin_x86_64.BB39_2
	xorl	%eax, %eax
.Lluossavin_x86_64.BB39_9:
	addq	$1040, %rsp
	popq	%rbx
	retq
.Lluossavin_x86_64.BB39_2:
	xorl	%edx, %edx
	testq	%rcx, %rcx
	je	.Lluossavin_x86_64.BB39_8
	xorl	%esi, %esi
	.p2align	4
.Lluossavin_x86_64.BB39_4:
	movq	528(%rsp,%rsi,8), %rdi
	movq	%rbx, %r9
	subq	%rdx, %r9
	cmpq	%r9, %rdi
	sete	%r8b
	testb	$15, %dil
	sete	%r10b
	xorl	%eax, %eax
	cmpq	%rdx, 16(%rsp,%rsi,8)
	jne	.Lluossavin_x86_64.BB39_9
	leaq	-1(%rdi), %r11
	cmpq	%r9, %r11
	jae	.Lluossavin_x86_64.BB39_9
	orb	%r10b, %r8b
	je	.Lluossavin_x86_64.BB39_9
	addq	%rdi, %rdx
	incq	%rsi
	cmpq	%rsi, %rcx
	jne	.Lluossavin_x86_64.BB39_4
.Lluossavin_x86_64.BB39_8:
	cmpq	%rbx, %rdx
	sete	%al
	addq	$1040, %rsp
	popq	%rbx
	retq
.Lluossavin_x86_64.func_end39:
	.size	luossavin_plan_accepts_x86_64, .Lluossavin_x86_64.func_end39-luossavin_plan_accepts_x86_64

	.section	.text.luossavin_record_x86_64,"ax",@progbits
	.globl	luossavin_record_x86_64
	.hidden	luossavin_record_x86_64
	.p2align	4
	.type	luossavin_record_x86_64,@function
luossavin_record_x86_64:
	pushq	%rbp
	pushq	%r15
	pushq	%r14
	pushq	%r13
	pushq	%r12
	pushq	%rbx
	subq	$72, %rsp
	movl	%edx, 24(%rsp)
	movq	%rcx, 8(%rsp)
	testq	%rcx, %rcx
	sete	%r12b
	testq	%r9, %r9
	sete	%bpl
	cmpq	$0, 136(%rsp)
	sete	%bl
	cmpq	$0, 168(%rsp)
	sete	%r11b
	cmpq	$0, 184(%rsp)
	sete	%dl
	cmpl	$255, %esi
	movl	$255, %ecx
	cmovael	%ecx, %esi
	movq	%r8, %rax
	movq	152(%rsp), %r8
	movl	$4294967295, %r10d
	cmpq	%r10, %r8
	cmovbq	%r8, %r10
	movq	%r10, 64(%rsp)
	movl	160(%rsp), %r8d
	cmpl	$255, %r8d
	cmovbl	%r8d, %ecx
	movl	%ecx, 36(%rsp)
	cmpq	$16385, %rax
	setae	%r8b
	movq	128(%rsp), %rcx
	cmpq	$16385, %rcx
	setae	%r13b
	orb	%r8b, %r13b
	movq	144(%rsp), %r10
	cmpq	$16385, %r10
	setae	%r8b
	movq	176(%rsp), %r14
	cmpq	$16401, %r14
	setae	%r15b
	orb	%r8b, %r15b
	orb	%r13b, %r15b
	jne	.Lluossavin_x86_64.BB40_3
	addq	%rax, %rcx
	leaq	(%rcx,%r10), %r8
	addq	%r14, %r8
	addq	$27, %r8
	cmpq	%r8, 192(%rsp)
	jae	.Lluossavin_x86_64.BB40_6
	movl	$6, %eax
	jmp	.Lluossavin_x86_64.BB40_4
.Lluossavin_x86_64.BB40_3:
	movl	$24, %eax
.Lluossavin_x86_64.BB40_4:
	xorl	%edx, %edx
.Lluossavin_x86_64.BB40_5:
	addq	$72, %rsp
	popq	%rbx
	popq	%r12
	popq	%r13
	popq	%r14
	popq	%r15
	popq	%rbp
	retq
.Lluossavin_x86_64.BB40_6:
	movq	%rcx, 56(%rsp)
	xorl	%r10d, %r10d
	movb	%r12b, %r10b
	shll	$12, %r10d
	xorl	%ecx, %ecx
	movb	%bpl, %cl
	xorl	%ebp, %ebp
	movb	%bl, %bpl
	movl	%esi, %ebx
	movq	8(%rsp), %rsi
	addq	%r10, %rsi
	shll	$12, %ecx
	xorl	%r14d, %r14d
	movb	%r11b, %r14b
	xorl	%r12d, %r12d
	movb	%dl, %r12b
	shll	$12, %r12d
	movq	%rax, 16(%rsp)
	movq	184(%rsp), %rax
	movq	16(%rsp), %r15
	addq	%r12, %rax
	andb	$1, %dil
	movw	$21076, (%rax)
	movb	%dil, 2(%rax)
	movq	%rcx, 40(%rsp)
	leaq	(%r9,%rcx), %r13
	shll	$12, %ebp
	shll	$12, %r14d
	movb	%bl, 3(%rax)
	movl	24(%rsp), %ecx
	movb	%ch, 4(%rax)
	movb	%cl, 5(%rax)
	movl	%r15d, %edx
	bswapl	%edx
	movl	%edx, 6(%rax)
	movq	%rax, 24(%rsp)
	leaq	10(%rax), %rdi
	movq	%rdi, %rdx
	subq	%rsi, %rdx
	cmpq	%r15, %rdx
	movq	%r8, 48(%rsp)
	jae	.Lluossavin_x86_64.BB40_16
	cmpq	$4, %r15
	jb	.Lluossavin_x86_64.BB40_9
	movq	24(%rsp), %rdx
	subq	%rsi, %rdx
	addq	$10, %rdx
	cmpq	$32, %rdx
	jae	.Lluossavin_x86_64.BB40_23
.Lluossavin_x86_64.BB40_9:
	movq	%r10, %rcx
	movq	%r9, %rbx
	xorl	%edx, %edx
.Lluossavin_x86_64.BB40_10:
	movq	%r15, %r9
	movq	%rdx, %r8
	andq	$3, %r9
	je	.Lluossavin_x86_64.BB40_13
	movq	%rdx, %r8
	.p2align	4
.Lluossavin_x86_64.BB40_12:
	movzbl	(%rsi,%r8), %r10d
	movb	%r10b, (%rdi,%r8)
	incq	%r8
	decq	%r9
	jne	.Lluossavin_x86_64.BB40_12
.Lluossavin_x86_64.BB40_13:
	subq	%r15, %rdx
	cmpq	$-4, %rdx
	ja	.Lluossavin_x86_64.BB40_17
	movq	8(%rsp), %rax
	addq	%rcx, %rax
	addq	$3, %rax
	movq	184(%rsp), %rcx
	addq	%r12, %rcx
	addq	$13, %rcx
	.p2align	4
.Lluossavin_x86_64.BB40_15:
	movzbl	-3(%rax,%r8), %edx
	movb	%dl, -3(%rcx,%r8)
	movzbl	-2(%rax,%r8), %edx
	movb	%dl, -2(%rcx,%r8)
	movzbl	-1(%rax,%r8), %edx
	movb	%dl, -1(%rcx,%r8)
	movzbl	(%rax,%r8), %edx
	movb	%dl, (%rcx,%r8)
	addq	$4, %r8
	cmpq	%r8, %r15
	jne	.Lluossavin_x86_64.BB40_15
	jmp	.Lluossavin_x86_64.BB40_17
.Lluossavin_x86_64.BB40_16:
	movq	%r9, %rbx
	movq	%r15, %rdx
	callq	memmove@PLT
.Lluossavin_x86_64.BB40_17:
	movq	%r15, %rcx
	movq	%r12, %r15
	movq	136(%rsp), %rax
	movq	%rbp, 8(%rsp)
	addq	%rax, %rbp
	movq	128(%rsp), %r9
	movl	%r9d, %eax
	bswapl	%eax
	movq	24(%rsp), %rdx
	movl	%eax, 10(%rdx,%rcx)
	leaq	(%rdx,%rcx), %r12
	addq	$14, %r12
	movq	%r12, %rax
	subq	%r13, %rax
	cmpq	%r9, %rax
	jae	.Lluossavin_x86_64.BB40_20
	cmpq	$4, %r9
	jb	.Lluossavin_x86_64.BB40_19
	movq	16(%rsp), %rax
	leaq	(%r15,%rax), %rcx
	movq	184(%rsp), %rax
	addq	%rcx, %rax
	subq	%r13, %rax
	addq	$14, %rax
	cmpq	$32, %rax
	jae	.Lluossavin_x86_64.BB40_25
.Lluossavin_x86_64.BB40_19:
	xorl	%eax, %eax
.Lluossavin_x86_64.BB40_41:
	movq	%r9, %rdx
	movq	%rax, %rcx
	andq	$3, %rdx
	je	.Lluossavin_x86_64.BB40_44
	movq	%rax, %rcx
	.p2align	4
.Lluossavin_x86_64.BB40_43:
	movzbl	(%r13,%rcx), %esi
	movb	%sil, (%r12,%rcx)
	incq	%rcx
	decq	%rdx
	jne	.Lluossavin_x86_64.BB40_43
.Lluossavin_x86_64.BB40_44:
	subq	%r9, %rax
	cmpq	$-4, %rax
	ja	.Lluossavin_x86_64.BB40_47
	movq	40(%rsp), %rax
	addq	%rbx, %rax
	addq	$3, %rax
	movq	16(%rsp), %rdx
	addq	%r15, %rdx
	movq	184(%rsp), %rsi
	addq	%rsi, %rdx
	addq	$17, %rdx
	.p2align	4
.Lluossavin_x86_64.BB40_46:
	movzbl	-3(%rax,%rcx), %esi
	movb	%sil, -3(%rdx,%rcx)
	movzbl	-2(%rax,%rcx), %esi
	movb	%sil, -2(%rdx,%rcx)
	movzbl	-1(%rax,%rcx), %esi
	movb	%sil, -1(%rdx,%rcx)
	movzbl	(%rax,%rcx), %esi
	movb	%sil, (%rdx,%rcx)
	addq	$4, %rcx
	cmpq	%rcx, %r9
	jne	.Lluossavin_x86_64.BB40_46
	jmp	.Lluossavin_x86_64.BB40_47
.Lluossavin_x86_64.BB40_20:
	movq	%r12, %rdi
	movq	%r13, %rsi
	movq	%r9, %rdx
	callq	memmove@PLT
	movq	128(%rsp), %r9
.Lluossavin_x86_64.BB40_47:
	movq	168(%rsp), %rax
	leaq	(%rax,%r14), %r13
	movq	144(%rsp), %rcx
	movq	56(%rsp), %rax
	leaq	(%rcx,%rax), %rbx
	addq	$18, %rbx
	movl	%ecx, %eax
	bswapl	%eax
	movl	%eax, (%r12,%r9)
	leaq	(%r12,%r9), %rdi
	addq	$4, %rdi
	movq	%rcx, %r12
	movq	%rdi, %rax
	subq	%rbp, %rax
	cmpq	%rcx, %rax
	jae	.Lluossavin_x86_64.BB40_50
	cmpq	$4, %r12
	movq	%r15, %r10
	jae	.Lluossavin_x86_64.BB40_51
	xorl	%eax, %eax
	movq	176(%rsp), %r11
	movq	16(%rsp), %r15
	jmp	.Lluossavin_x86_64.BB40_62
.Lluossavin_x86_64.BB40_50:
	movq	%rbp, %rsi
	movq	%r12, %rdx
	callq	memmove@PLT
	movq	128(%rsp), %r9
	movq	%r15, %r10
	movq	176(%rsp), %r11
	movq	16(%rsp), %r15
	jmp	.Lluossavin_x86_64.BB40_68
.Lluossavin_x86_64.BB40_51:
	leaq	(%r10,%r9), %rcx
	movq	16(%rsp), %r15
	addq	%r15, %rcx
	movq	184(%rsp), %rax
	addq	%rcx, %rax
	subq	%rbp, %rax
	addq	$18, %rax
	cmpq	$32, %rax
	movq	176(%rsp), %r11
	jae	.Lluossavin_x86_64.BB40_53
	xorl	%eax, %eax
	jmp	.Lluossavin_x86_64.BB40_62
.Lluossavin_x86_64.BB40_23:
	cmpq	$32, %r15
	jae	.Lluossavin_x86_64.BB40_27
	movq	%r10, %rcx
	movq	%r9, %rbx
	xorl	%edx, %edx
	jmp	.Lluossavin_x86_64.BB40_31
.Lluossavin_x86_64.BB40_25:
	cmpq	$32, %r9
	jae	.Lluossavin_x86_64.BB40_34
	xorl	%eax, %eax
	jmp	.Lluossavin_x86_64.BB40_38
.Lluossavin_x86_64.BB40_53:
	cmpq	$32, %r12
	jae	.Lluossavin_x86_64.BB40_55
	xorl	%eax, %eax
	jmp	.Lluossavin_x86_64.BB40_59
.Lluossavin_x86_64.BB40_27:
	movq	%r9, %rbx
	movl	%r15d, %edx
	andl	$32736, %edx
	movq	8(%rsp), %rax
	movq	%r10, %rcx
	leaq	(%r10,%rax), %r9
	addq	$16, %r9
	movq	184(%rsp), %rax
	leaq	(%r12,%rax), %r10
	addq	$26, %r10
	xorl	%r11d, %r11d
	.p2align	4
.Lluossavin_x86_64.BB40_28:
	movups	-16(%r9,%r11), %xmm0
	movups	(%r9,%r11), %xmm1
	movups	%xmm0, -16(%r10,%r11)
	movups	%xmm1, (%r10,%r11)
	addq	$32, %r11
	cmpq	%r11, %rdx
	jne	.Lluossavin_x86_64.BB40_28
	cmpq	%rdx, %r15
	je	.Lluossavin_x86_64.BB40_17
	testb	$28, %r15b
	je	.Lluossavin_x86_64.BB40_10
.Lluossavin_x86_64.BB40_31:
	movq	%rdx, %r8
	movl	%r15d, %edx
	andl	$32764, %edx
	.p2align	4
.Lluossavin_x86_64.BB40_32:
	movl	(%rsi,%r8), %r9d
	movl	%r9d, (%rdi,%r8)
	addq	$4, %r8
	cmpq	%r8, %rdx
	jne	.Lluossavin_x86_64.BB40_32
	cmpq	%rdx, %r15
	jne	.Lluossavin_x86_64.BB40_10
	jmp	.Lluossavin_x86_64.BB40_17
.Lluossavin_x86_64.BB40_34:
	movl	%r9d, %eax
	andl	$32736, %eax
	movq	40(%rsp), %rdx
	addq	%rbx, %rdx
	addq	$16, %rdx
	movq	184(%rsp), %rsi
	addq	%rsi, %rcx
	addq	$30, %rcx
	xorl	%esi, %esi
	.p2align	4
.Lluossavin_x86_64.BB40_35:
	movups	-16(%rdx,%rsi), %xmm0
	movups	(%rdx,%rsi), %xmm1
	movups	%xmm0, -16(%rcx,%rsi)
	movups	%xmm1, (%rcx,%rsi)
	addq	$32, %rsi
	cmpq	%rsi, %rax
	jne	.Lluossavin_x86_64.BB40_35
	cmpq	%rax, %r9
	je	.Lluossavin_x86_64.BB40_47
	testb	$28, %r9b
	je	.Lluossavin_x86_64.BB40_41
.Lluossavin_x86_64.BB40_38:
	movq	%rax, %rcx
	movl	%r9d, %eax
	andl	$32764, %eax
	.p2align	4
.Lluossavin_x86_64.BB40_39:
	movl	(%r13,%rcx), %edx
	movl	%edx, (%r12,%rcx)
	addq	$4, %rcx
	cmpq	%rcx, %rax
	jne	.Lluossavin_x86_64.BB40_39
	cmpq	%rax, %r9
	je	.Lluossavin_x86_64.BB40_47
	jmp	.Lluossavin_x86_64.BB40_41
.Lluossavin_x86_64.BB40_55:
	movl	%r12d, %eax
	andl	$32736, %eax
	movq	136(%rsp), %rdx
	movq	8(%rsp), %rsi
	addq	%rsi, %rdx
	addq	$16, %rdx
	movq	184(%rsp), %rsi
	addq	%rsi, %rcx
	addq	$34, %rcx
	xorl	%esi, %esi
	.p2align	4
.Lluossavin_x86_64.BB40_56:
	movups	-16(%rdx,%rsi), %xmm0
	movups	(%rdx,%rsi), %xmm1
	movups	%xmm0, -16(%rcx,%rsi)
	movups	%xmm1, (%rcx,%rsi)
	addq	$32, %rsi
	cmpq	%rsi, %rax
	jne	.Lluossavin_x86_64.BB40_56
	cmpq	%rax, %r12
	je	.Lluossavin_x86_64.BB40_68
	testb	$28, %r12b
	je	.Lluossavin_x86_64.BB40_62
.Lluossavin_x86_64.BB40_59:
	movq	%rax, %rsi
	movl	%r12d, %eax
	andl	$32764, %eax
	movq	%rax, %rcx
	subq	%rsi, %rcx
	movq	8(%rsp), %rdx
	addq	%rsi, %rdx
	addq	136(%rsp), %rdx
	addq	%r10, %rsi
	addq	%r9, %rsi
	addq	%r15, %rsi
	movq	184(%rsp), %rdi
	addq	%rdi, %rsi
	addq	$18, %rsi
	xorl	%edi, %edi
	.p2align	4
.Lluossavin_x86_64.BB40_60:
	movl	(%rdx,%rdi), %r8d
	movl	%r8d, (%rsi,%rdi)
	addq	$4, %rdi
	cmpq	%rdi, %rcx
	jne	.Lluossavin_x86_64.BB40_60
	cmpq	%rax, %r12
	je	.Lluossavin_x86_64.BB40_68
.Lluossavin_x86_64.BB40_62:
	movq	%r12, %rdx
	movq	%rax, %rcx
	andq	$3, %rdx
	je	.Lluossavin_x86_64.BB40_65
	leaq	(%r10,%rax), %rcx
	addq	%r9, %rcx
	addq	%r15, %rcx
	movq	184(%rsp), %rsi
	addq	%rcx, %rsi
	addq	$18, %rsi
	xorl	%edi, %edi
	movq	%rax, %rcx
	.p2align	4
.Lluossavin_x86_64.BB40_64:
	movzbl	(%rbp,%rcx), %r8d
	movb	%r8b, (%rsi,%rdi)
	incq	%rcx
	incq	%rdi
	cmpq	%rdi, %rdx
	jne	.Lluossavin_x86_64.BB40_64
.Lluossavin_x86_64.BB40_65:
	subq	%r12, %rax
	cmpq	$-4, %rax
	ja	.Lluossavin_x86_64.BB40_68
	movq	%r12, %rax
	subq	%rcx, %rax
	movq	8(%rsp), %rsi
	addq	%rcx, %rsi
	movq	136(%rsp), %rdx
	addq	%rsi, %rdx
	addq	$3, %rdx
	addq	%r10, %rcx
	addq	%r9, %rcx
	addq	%r15, %rcx
	movq	184(%rsp), %rsi
	addq	%rsi, %rcx
	addq	$21, %rcx
	xorl	%esi, %esi
	.p2align	4
.Lluossavin_x86_64.BB40_67:
	movzbl	-3(%rdx,%rsi), %edi
	movb	%dil, -3(%rcx,%rsi)
	movzbl	-2(%rdx,%rsi), %edi
	movb	%dil, -2(%rcx,%rsi)
	movzbl	-1(%rdx,%rsi), %edi
	movb	%dil, -1(%rcx,%rsi)
	movzbl	(%rdx,%rsi), %edi
	movb	%dil, (%rcx,%rsi)
	addq	$4, %rsi
	cmpq	%rsi, %rax
	jne	.Lluossavin_x86_64.BB40_67
.Lluossavin_x86_64.BB40_68:
	movq	64(%rsp), %rdx
	movl	%edx, %eax
	shrl	$24, %eax
	movl	%edx, %ecx
	shrl	$16, %ecx
	movq	24(%rsp), %rsi
	movb	%al, (%rsi,%rbx)
	movb	%cl, 1(%rsi,%rbx)
	movb	%dh, 2(%rsi,%rbx)
	movb	%dl, 3(%rsi,%rbx)
	movl	36(%rsp), %eax
	movb	%al, 4(%rsi,%rbx)
	movl	%r11d, %eax
	bswapl	%eax
	movl	%eax, 5(%rsi,%rbx)
	leaq	(%rsi,%rbx), %rdi
	addq	$9, %rdi
	movq	%rdi, %rax
	subq	%r13, %rax
	cmpq	%r11, %rax
	jae	.Lluossavin_x86_64.BB40_71
	cmpq	$4, %r11
	movq	48(%rsp), %rdx
	jb	.Lluossavin_x86_64.BB40_70
	leaq	(%r10,%r12), %rcx
	addq	%r9, %rcx
	addq	%r15, %rcx
	movq	184(%rsp), %rax
	addq	%rcx, %rax
	subq	%r13, %rax
	addq	$27, %rax
	cmpq	$32, %rax
	jae	.Lluossavin_x86_64.BB40_74
.Lluossavin_x86_64.BB40_70:
	xorl	%eax, %eax
.Lluossavin_x86_64.BB40_83:
	movq	%r11, %rcx
	movq	%rax, %rsi
	andq	$3, %rcx
	je	.Lluossavin_x86_64.BB40_86
	leaq	(%r10,%rax), %rsi
	addq	%r12, %rsi
	addq	128(%rsp), %rsi
	addq	%r15, %rsi
	movq	184(%rsp), %rdi
	addq	%rsi, %rdi
	addq	$27, %rdi
	xorl	%r8d, %r8d
	movq	%rax, %rsi
	.p2align	4
.Lluossavin_x86_64.BB40_85:
	movzbl	(%r13,%rsi), %r9d
	movb	%r9b, (%rdi,%r8)
	incq	%rsi
	incq	%r8
	cmpq	%r8, %rcx
	jne	.Lluossavin_x86_64.BB40_85
.Lluossavin_x86_64.BB40_86:
	subq	%r11, %rax
	cmpq	$-4, %rax
	ja	.Lluossavin_x86_64.BB40_89
	subq	%rsi, %r11
	addq	%rsi, %r14
	movq	168(%rsp), %rax
	addq	%r14, %rax
	addq	$3, %rax
	addq	%rsi, %r10
	addq	%r12, %r10
	addq	128(%rsp), %r10
	addq	%r15, %r10
	movq	184(%rsp), %rcx
	addq	%r10, %rcx
	addq	$30, %rcx
	xorl	%esi, %esi
	.p2align	4
.Lluossavin_x86_64.BB40_88:
	movzbl	-3(%rax,%rsi), %edi
	movb	%dil, -3(%rcx,%rsi)
	movzbl	-2(%rax,%rsi), %edi
	movb	%dil, -2(%rcx,%rsi)
	movzbl	-1(%rax,%rsi), %edi
	movb	%dil, -1(%rcx,%rsi)
	movzbl	(%rax,%rsi), %edi
	movb	%dil, (%rcx,%rsi)
	addq	$4, %rsi
	cmpq	%rsi, %r11
	jne	.Lluossavin_x86_64.BB40_88
.Lluossavin_x86_64.BB40_89:
	xorl	%eax, %eax
	jmp	.Lluossavin_x86_64.BB40_5
.Lluossavin_x86_64.BB40_71:
	movq	%r13, %rsi
	movq	%r11, %rdx
	callq	memmove@PLT
	xorl	%eax, %eax
	movq	48(%rsp), %rdx
	jmp	.Lluossavin_x86_64.BB40_5
.Lluossavin_x86_64.BB40_74:
	cmpq	$32, %r11
	jae	.Lluossavin_x86_64.BB40_76
	xorl	%eax, %eax
	jmp	.Lluossavin_x86_64.BB40_80
.Lluossavin_x86_64.BB40_76:
	movl	%r11d, %eax
	andl	$32736, %eax
	movq	168(%rsp), %rsi
	addq	%r14, %rsi
	addq	$16, %rsi
	movq	184(%rsp), %rdi
	addq	%rdi, %rcx
	addq	$43, %rcx
	xorl	%edi, %edi
	.p2align	4
.Lluossavin_x86_64.BB40_77:
	movups	-16(%rsi,%rdi), %xmm0
	movups	(%rsi,%rdi), %xmm1
	movups	%xmm0, -16(%rcx,%rdi)
	movups	%xmm1, (%rcx,%rdi)
	addq	$32, %rdi
	cmpq	%rdi, %rax
	jne	.Lluossavin_x86_64.BB40_77
	cmpq	%rax, %r11
	je	.Lluossavin_x86_64.BB40_89
	testb	$28, %r11b
	je	.Lluossavin_x86_64.BB40_83
.Lluossavin_x86_64.BB40_80:
	movq	%rax, %rdi
	movl	%r11d, %eax
	andl	$32764, %eax
	movq	%rax, %rcx
	subq	%rdi, %rcx
	leaq	(%r14,%rdi), %rsi
	addq	168(%rsp), %rsi
	addq	%r10, %rdi
	addq	%r12, %rdi
	addq	%r9, %rdi
	addq	%r15, %rdi
	movq	184(%rsp), %r8
	addq	%r8, %rdi
	addq	$27, %rdi
	xorl	%r8d, %r8d
	.p2align	4
.Lluossavin_x86_64.BB40_81:
	movl	(%rsi,%r8), %r9d
	movl	%r9d, (%rdi,%r8)
	addq	$4, %r8
	cmpq	%r8, %rcx
	jne	.Lluossavin_x86_64.BB40_81
	cmpq	%rax, %r11
	je	.Lluossavin_x86_64.BB40_89
	jmp	.Lluossavin_x86_64.BB40_83
.Lluossavin_x86_64.func_end40:
	.size	luossavin_record_x86_64, .Lluossavin_x86_64.func_end40-luossavin_record_x86_64

	.section	.text.luossavin_replay_x86_64,"ax",@progbits
	.globl	luossavin_replay_x86_64
	.hidden	luossavin_replay_x86_64
	.p2align	4
	.type	luossavin_replay_x86_64,@function
luossavin_replay_x86_64:
	pushq	%rbp
	pushq	%r15
	pushq	%r14
	pushq	%r13
	pushq	%r12
	pushq	%rbx
	subq	$3072, %rsp
	movq	$0, (%rsp)
	subq	$3072, %rsp
	movq	$0, (%rsp)
	subq	$3072, %rsp
	movq	$0, (%rsp)
	subq	$3072, %rsp
	movq	$0, (%rsp)
	subq	$3072, %rsp
	movq	$0, (%rsp)
	subq	$2808, %rsp
	movq	%rdx, 336(%rsp)
	movq	%rsi, 200(%rsp)
	movq	%rdi, %rax
	movq	18224(%rsp), %rcx
	movl	18360(%rsp), %edi
	movzwl	18364(%rsp), %r9d
	movl	%r9d, 160(%rsp)
	movl	19176(%rsp), %edx
	cmpl	$13, %edx
	sete	%sil
	incb	%sil
	testl	%edx, %edx
	movzbl	%sil, %esi
	cmovel	%edx, %esi
	movl	%esi, %r8d
	movl	%esi, 192(%rsp)
	movl	19040(%rsp), %edx
	cmpl	$13, %edx
	sete	%sil
	incb	%sil
	testl	%edx, %edx
	movzbl	%sil, %esi
	cmovel	%edx, %esi
	movl	%esi, %r11d
	movl	%esi, 184(%rsp)
	movl	18904(%rsp), %edx
	cmpl	$13, %edx
	sete	%sil
	incb	%sil
	testl	%edx, %edx
	movzbl	%sil, %esi
	cmovel	%edx, %esi
	movl	%esi, %ebx
	movl	%esi, 88(%rsp)
	movl	18768(%rsp), %edx
	cmpl	$13, %edx
	sete	%sil
	incb	%sil
	testl	%edx, %edx
	movzbl	%sil, %esi
	cmovel	%edx, %esi
	movl	%esi, %r10d
	movl	%esi, 96(%rsp)
	movl	18632(%rsp), %edx
	cmpl	$13, %edx
	sete	%sil
	incb	%sil
	testl	%edx, %edx
	movzbl	%sil, %esi
	cmovel	%edx, %esi
	movl	%esi, %ebp
	movl	%esi, 120(%rsp)
	movl	18496(%rsp), %edx
	cmpl	$13, %edx
	sete	%sil
	incb	%sil
	testl	%edx, %edx
	movzbl	%sil, %esi
	cmovel	%edx, %esi
	movl	%esi, %r14d
	movl	%esi, 144(%rsp)
	movl	19312(%rsp), %edx
	cmpl	$13, %edi
	sete	%sil
	incb	%sil
	testl	%edi, %edi
	movzbl	%sil, %esi
	movl	%edi, 48(%rsp)
	cmovel	%edi, %esi
	movl	%esi, %edi
	movl	%esi, 56(%rsp)
	cmpl	$13, %edx
	sete	%sil
	incb	%sil
	testl	%edx, %edx
	movzbl	%sil, %esi
	cmovel	%edx, %esi
	movl	%esi, 80(%rsp)
	movzbl	18366(%rsp), %edx
	movb	%dl, 72(%rsp)
	testb	%dl, %dl
	setne	668(%rsp)
	movzbl	18502(%rsp), %edx
	movb	%dl, 64(%rsp)
	testb	%dl, %dl
	movq	%rcx, 528(%rsp)
	movups	18232(%rsp), %xmm0
	movups	18248(%rsp), %xmm1
	movups	18264(%rsp), %xmm2
	movups	18280(%rsp), %xmm3
	movups	%xmm0, 536(%rsp)
	movups	%xmm1, 552(%rsp)
	movups	%xmm2, 568(%rsp)
	movups	%xmm3, 584(%rsp)
	movups	18296(%rsp), %xmm0
	movups	%xmm0, 600(%rsp)
	movups	18312(%rsp), %xmm0
	movups	%xmm0, 616(%rsp)
	movups	18328(%rsp), %xmm0
	movups	%xmm0, 632(%rsp)
	movups	18344(%rsp), %xmm0
	movups	%xmm0, 648(%rsp)
	movb	%dil, 664(%rsp)
	movb	$0, 665(%rsp)
	movw	%r9w, 666(%rsp)
	movzbl	18367(%rsp), %edx
	movb	%dl, 168(%rsp)
	movb	%dl, 669(%rsp)
	movw	$0, 670(%rsp)
	setne	804(%rsp)
	movzbl	18638(%rsp), %edx
	movb	%dl, 152(%rsp)
	testb	%dl, %dl
	movaps	18480(%rsp), %xmm0
	movups	%xmm0, 784(%rsp)
	movaps	18464(%rsp), %xmm0
	movups	%xmm0, 768(%rsp)
	movaps	18448(%rsp), %xmm0
	movups	%xmm0, 752(%rsp)
	movaps	18432(%rsp), %xmm0
	movups	%xmm0, 736(%rsp)
	movaps	18368(%rsp), %xmm0
	movaps	18384(%rsp), %xmm1
	movaps	18400(%rsp), %xmm2
	movaps	18416(%rsp), %xmm3
	movups	%xmm3, 720(%rsp)
	movups	%xmm2, 704(%rsp)
	movups	%xmm1, 688(%rsp)
	movups	%xmm0, 672(%rsp)
	movb	%r14b, 800(%rsp)
	movb	$0, 801(%rsp)
	movzwl	18500(%rsp), %edx
	movw	%dx, 136(%rsp)
	movw	%dx, 802(%rsp)
	movzbl	18503(%rsp), %edx
	movb	%dl, 128(%rsp)
	movb	%dl, 805(%rsp)
	movw	$0, 806(%rsp)
	setne	940(%rsp)
	movzbl	18774(%rsp), %edx
	movb	%dl, 104(%rsp)
	testb	%dl, %dl
	movups	18616(%rsp), %xmm0
	movups	%xmm0, 920(%rsp)
	movups	18600(%rsp), %xmm0
	movups	%xmm0, 904(%rsp)
	movups	18584(%rsp), %xmm0
	movups	%xmm0, 888(%rsp)
	movups	18568(%rsp), %xmm0
	movups	%xmm0, 872(%rsp)
	movups	18504(%rsp), %xmm0
	movups	18520(%rsp), %xmm1
	movups	18536(%rsp), %xmm2
	movups	18552(%rsp), %xmm3
	movups	%xmm3, 856(%rsp)
	movups	%xmm2, 840(%rsp)
	movups	%xmm1, 824(%rsp)
	movups	%xmm0, 808(%rsp)
	movb	%bpl, 936(%rsp)
	movb	$0, 937(%rsp)
	movzwl	18636(%rsp), %edx
	movw	%dx, 112(%rsp)
	movw	%dx, 938(%rsp)
	movzbl	18639(%rsp), %r13d
	movb	%r13b, 941(%rsp)
	movw	$0, 942(%rsp)
	setne	1076(%rsp)
	movzbl	18910(%rsp), %r14d
	testb	%r14b, %r14b
	movaps	18752(%rsp), %xmm0
	movups	%xmm0, 1056(%rsp)
	movaps	18736(%rsp), %xmm0
	movups	%xmm0, 1040(%rsp)
	movaps	18720(%rsp), %xmm0
	movups	%xmm0, 1024(%rsp)
	movaps	18704(%rsp), %xmm0
	movups	%xmm0, 1008(%rsp)
	movaps	18640(%rsp), %xmm0
	movaps	18656(%rsp), %xmm1
	movaps	18672(%rsp), %xmm2
	movaps	18688(%rsp), %xmm3
	movups	%xmm3, 992(%rsp)
	movups	%xmm2, 976(%rsp)
	movups	%xmm1, 960(%rsp)
	movups	%xmm0, 944(%rsp)
	movb	%r10b, 1072(%rsp)
	movb	$0, 1073(%rsp)
	movzwl	18772(%rsp), %r12d
	movw	%r12w, 1074(%rsp)
	movzbl	18775(%rsp), %r15d
	movb	%r15b, 1077(%rsp)
	movw	$0, 1078(%rsp)
	movups	18888(%rsp), %xmm0
	movups	%xmm0, 1192(%rsp)
	movups	18872(%rsp), %xmm0
	movups	%xmm0, 1176(%rsp)
	movups	18856(%rsp), %xmm0
	movups	%xmm0, 1160(%rsp)
	movups	18840(%rsp), %xmm0
	movups	%xmm0, 1144(%rsp)
	movups	18776(%rsp), %xmm0
	movups	18792(%rsp), %xmm1
	movups	18808(%rsp), %xmm2
	movups	18824(%rsp), %xmm3
	movups	%xmm3, 1128(%rsp)
	movups	%xmm2, 1112(%rsp)
	movups	%xmm1, 1096(%rsp)
	movups	%xmm0, 1080(%rsp)
	setne	1212(%rsp)
	movzbl	19046(%rsp), %r10d
	testb	%r10b, %r10b
	movb	%bl, 1208(%rsp)
	movb	$0, 1209(%rsp)
	movzwl	18908(%rsp), %ebp
	movw	%bp, 1210(%rsp)
	movzbl	18911(%rsp), %ebx
	movb	%bl, 1213(%rsp)
	movw	$0, 1214(%rsp)
	movaps	19024(%rsp), %xmm0
	movups	%xmm0, 1328(%rsp)
	movaps	19008(%rsp), %xmm0
	movups	%xmm0, 1312(%rsp)
	movaps	18992(%rsp), %xmm0
	movups	%xmm0, 1296(%rsp)
	movaps	18976(%rsp), %xmm0
	movups	%xmm0, 1280(%rsp)
	movaps	18912(%rsp), %xmm0
	movaps	18928(%rsp), %xmm1
	movaps	18944(%rsp), %xmm2
	movaps	18960(%rsp), %xmm3
	movups	%xmm3, 1264(%rsp)
	movups	%xmm2, 1248(%rsp)
	movups	%xmm1, 1232(%rsp)
	movups	%xmm0, 1216(%rsp)
	setne	1348(%rsp)
	movzbl	19182(%rsp), %edx
	testb	%dl, %dl
	movb	%r11b, 1344(%rsp)
	movb	$0, 1345(%rsp)
	movzwl	19044(%rsp), %r11d
	movw	%r11w, 1346(%rsp)
	movzbl	19047(%rsp), %r9d
	movb	%r9b, 1349(%rsp)
	movw	$0, 1350(%rsp)
	movups	19160(%rsp), %xmm0
	movups	%xmm0, 1464(%rsp)
	movups	19144(%rsp), %xmm0
	movups	%xmm0, 1448(%rsp)
	movups	19128(%rsp), %xmm0
	movups	%xmm0, 1432(%rsp)
	movups	19112(%rsp), %xmm0
	movups	%xmm0, 1416(%rsp)
	movups	19048(%rsp), %xmm0
	movups	19064(%rsp), %xmm1
	movups	19080(%rsp), %xmm2
	movups	19096(%rsp), %xmm3
	movups	%xmm3, 1400(%rsp)
	movups	%xmm2, 1384(%rsp)
	movups	%xmm1, 1368(%rsp)
	movups	%xmm0, 1352(%rsp)
	setne	1484(%rsp)
	movzbl	19318(%rsp), %edi
	testb	%dil, %dil
	movb	%r8b, 1480(%rsp)
	movb	$0, 1481(%rsp)
	movzwl	19180(%rsp), %esi
	movw	%si, 1482(%rsp)
	movzbl	19183(%rsp), %r8d
	movb	%r8b, 1485(%rsp)
	movw	$0, 1486(%rsp)
	movaps	19296(%rsp), %xmm0
	movups	%xmm0, 1600(%rsp)
	movaps	19280(%rsp), %xmm0
	movups	%xmm0, 1584(%rsp)
	movaps	19264(%rsp), %xmm0
	movups	%xmm0, 1568(%rsp)
	movaps	19248(%rsp), %xmm0
	movups	%xmm0, 1552(%rsp)
	movaps	19184(%rsp), %xmm0
	movaps	19200(%rsp), %xmm1
	movaps	19216(%rsp), %xmm2
	movaps	19232(%rsp), %xmm3
	movups	%xmm3, 1536(%rsp)
	movups	%xmm2, 1520(%rsp)
	movups	%xmm1, 1504(%rsp)
	movups	%xmm0, 1488(%rsp)
	setne	1620(%rsp)
	cmpb	$0, 72(%rsp)
	movups	18344(%rsp), %xmm0
	movups	%xmm0, 1888(%rsp)
	movups	18328(%rsp), %xmm0
	movups	%xmm0, 1872(%rsp)
	movups	18312(%rsp), %xmm0
	movups	%xmm0, 1856(%rsp)
	movups	18296(%rsp), %xmm0
	movups	%xmm0, 1840(%rsp)
	movups	18232(%rsp), %xmm0
	movups	18248(%rsp), %xmm1
	movups	18264(%rsp), %xmm2
	movups	18280(%rsp), %xmm3
	movups	%xmm3, 1824(%rsp)
	movups	%xmm2, 1808(%rsp)
	movups	%xmm1, 1792(%rsp)
	movups	%xmm0, 1776(%rsp)
	movaps	18368(%rsp), %xmm0
	movups	%xmm0, 1912(%rsp)
	movaps	18384(%rsp), %xmm0
	movups	%xmm0, 1928(%rsp)
	movaps	18400(%rsp), %xmm0
	movups	%xmm0, 1944(%rsp)
	movaps	18416(%rsp), %xmm0
	movups	%xmm0, 1960(%rsp)
	movaps	18432(%rsp), %xmm0
	movups	%xmm0, 1976(%rsp)
	movaps	18448(%rsp), %xmm0
	movups	%xmm0, 1992(%rsp)
	movaps	18464(%rsp), %xmm0
	movups	%xmm0, 2008(%rsp)
	movaps	18480(%rsp), %xmm0
	movups	%xmm0, 2024(%rsp)
	movups	18616(%rsp), %xmm0
	movups	%xmm0, 2160(%rsp)
	movups	18600(%rsp), %xmm0
	movups	%xmm0, 2144(%rsp)
	movups	18584(%rsp), %xmm0
	movups	%xmm0, 2128(%rsp)
	movups	18568(%rsp), %xmm0
	movups	%xmm0, 2112(%rsp)
	movups	18504(%rsp), %xmm0
	movups	18520(%rsp), %xmm1
	movups	18536(%rsp), %xmm2
	movups	18552(%rsp), %xmm3
	movups	%xmm3, 2096(%rsp)
	movups	%xmm2, 2080(%rsp)
	movups	%xmm1, 2064(%rsp)
	movups	%xmm0, 2048(%rsp)
	movaps	18640(%rsp), %xmm0
	movups	%xmm0, 2184(%rsp)
	movaps	18656(%rsp), %xmm0
	movups	%xmm0, 2200(%rsp)
	movaps	18672(%rsp), %xmm0
	movups	%xmm0, 2216(%rsp)
	movaps	18688(%rsp), %xmm0
	movups	%xmm0, 2232(%rsp)
	movaps	18704(%rsp), %xmm0
	movups	%xmm0, 2248(%rsp)
	movaps	18720(%rsp), %xmm0
	movups	%xmm0, 2264(%rsp)
	movaps	18736(%rsp), %xmm0
	movups	%xmm0, 2280(%rsp)
	movaps	18752(%rsp), %xmm0
	movups	%xmm0, 2296(%rsp)
	movups	18888(%rsp), %xmm0
	movups	%xmm0, 2432(%rsp)
	movups	18872(%rsp), %xmm0
	movups	%xmm0, 2416(%rsp)
	movups	18856(%rsp), %xmm0
	movups	%xmm0, 2400(%rsp)
	movups	18840(%rsp), %xmm0
	movups	%xmm0, 2384(%rsp)
	movups	18776(%rsp), %xmm0
	movups	18792(%rsp), %xmm1
	movups	18808(%rsp), %xmm2
	movups	18824(%rsp), %xmm3
	movups	%xmm3, 2368(%rsp)
	movups	%xmm2, 2352(%rsp)
	movups	%xmm1, 2336(%rsp)
	movups	%xmm0, 2320(%rsp)
	movaps	19024(%rsp), %xmm0
	movups	%xmm0, 2568(%rsp)
	movaps	19008(%rsp), %xmm0
	movups	%xmm0, 2552(%rsp)
	movaps	18992(%rsp), %xmm0
	movups	%xmm0, 2536(%rsp)
	movaps	18976(%rsp), %xmm0
	movups	%xmm0, 2520(%rsp)
	movaps	18960(%rsp), %xmm0
	movups	%xmm0, 2504(%rsp)
	movaps	18944(%rsp), %xmm0
	movups	%xmm0, 2488(%rsp)
	movaps	18928(%rsp), %xmm0
	movups	%xmm0, 2472(%rsp)
	movaps	18912(%rsp), %xmm0
	movups	%xmm0, 2456(%rsp)
	movups	19160(%rsp), %xmm0
	movups	%xmm0, 2704(%rsp)
	movups	19144(%rsp), %xmm0
	movups	%xmm0, 2688(%rsp)
	movups	19128(%rsp), %xmm0
	movups	%xmm0, 2672(%rsp)
	movups	19112(%rsp), %xmm0
	movups	%xmm0, 2656(%rsp)
	movups	19048(%rsp), %xmm0
	movups	19064(%rsp), %xmm1
	movups	19080(%rsp), %xmm2
	movups	19096(%rsp), %xmm3
	movups	%xmm3, 2640(%rsp)
	movups	%xmm2, 2624(%rsp)
	movups	%xmm1, 2608(%rsp)
	movups	%xmm0, 2592(%rsp)
	setne	1908(%rsp)
	cmpb	$0, 64(%rsp)
	setne	2044(%rsp)
	cmpb	$0, 152(%rsp)
	setne	2180(%rsp)
	cmpb	$0, 104(%rsp)
	setne	2316(%rsp)
	testb	%r14b, %r14b
	movl	160(%rsp), %r14d
	setne	2452(%rsp)
	testb	%r10b, %r10b
	movq	200(%rsp), %r10
	setne	2588(%rsp)
	testb	%dl, %dl
	setne	2724(%rsp)
	movq	%rcx, 1768(%rsp)
	movl	56(%rsp), %edx
	movb	%dl, 1904(%rsp)
	movb	$0, 1905(%rsp)
	movw	%r14w, 1906(%rsp)
	movzbl	168(%rsp), %edx
	movb	%dl, 1909(%rsp)
	movw	$0, 1910(%rsp)
	movl	144(%rsp), %edx
	movb	%dl, 2040(%rsp)
	movb	$0, 2041(%rsp)
	movzwl	136(%rsp), %edx
	movw	%dx, 2042(%rsp)
	movzbl	128(%rsp), %edx
	movb	%dl, 2045(%rsp)
	movw	$0, 2046(%rsp)
	movl	120(%rsp), %edx
	movb	%dl, 2176(%rsp)
	movb	$0, 2177(%rsp)
	movzwl	112(%rsp), %edx
	movw	%dx, 2178(%rsp)
	movb	%r13b, 2181(%rsp)
	movw	$0, 2182(%rsp)
	movl	96(%rsp), %edx
	movb	%dl, 2312(%rsp)
	movb	$0, 2313(%rsp)
	movw	%r12w, 2314(%rsp)
	movb	%r15b, 2317(%rsp)
	movw	$0, 2318(%rsp)
	movl	88(%rsp), %edx
	movb	%dl, 2448(%rsp)
	movb	$0, 2449(%rsp)
	movw	%bp, 2450(%rsp)
	movb	%bl, 2453(%rsp)
	movw	$0, 2454(%rsp)
	movl	184(%rsp), %edx
	movb	%dl, 2584(%rsp)
	movb	$0, 2585(%rsp)
	movw	%r11w, 2586(%rsp)
	movb	%r9b, 2589(%rsp)
	movw	$0, 2590(%rsp)
	movl	192(%rsp), %edx
	movb	%dl, 2720(%rsp)
	movb	$0, 2721(%rsp)
	movw	%si, 2722(%rsp)
	testb	%dil, %dil
	movaps	19296(%rsp), %xmm0
	movaps	%xmm0, 512(%rsp)
	movaps	19280(%rsp), %xmm0
	movaps	%xmm0, 496(%rsp)
	movaps	19264(%rsp), %xmm0
	movaps	%xmm0, 480(%rsp)
	movaps	19248(%rsp), %xmm0
	movaps	%xmm0, 464(%rsp)
	movaps	19184(%rsp), %xmm0
	movaps	19200(%rsp), %xmm1
	movaps	19216(%rsp), %xmm2
	movaps	19232(%rsp), %xmm3
	movaps	%xmm3, 448(%rsp)
	movaps	%xmm2, 432(%rsp)
	movaps	%xmm1, 416(%rsp)
	movaps	%xmm0, 400(%rsp)
	movb	%r8b, 2725(%rsp)
	movw	$0, 2726(%rsp)
	setne	2860(%rsp)
	movl	80(%rsp), %edx
	movb	%dl, 1616(%rsp)
	movaps	400(%rsp), %xmm0
	movaps	416(%rsp), %xmm1
	movaps	432(%rsp), %xmm2
	movaps	448(%rsp), %xmm3
	movups	%xmm0, 2728(%rsp)
	movups	%xmm1, 2744(%rsp)
	movups	%xmm2, 2760(%rsp)
	movups	%xmm3, 2776(%rsp)
	movaps	464(%rsp), %xmm0
	movups	%xmm0, 2792(%rsp)
	movaps	480(%rsp), %xmm0
	movups	%xmm0, 2808(%rsp)
	movaps	496(%rsp), %xmm0
	movups	%xmm0, 2824(%rsp)
	movaps	512(%rsp), %xmm0
	movups	%xmm0, 2840(%rsp)
	movb	%dl, 2856(%rsp)
	movzwl	19316(%rsp), %edx
	movzbl	19319(%rsp), %esi
	movb	$0, 1617(%rsp)
	movw	%dx, 1618(%rsp)
	movb	%sil, 1621(%rsp)
	movw	$0, 1622(%rsp)
	movb	$0, 2857(%rsp)
	movw	%dx, 2858(%rsp)
	xorl	%edx, %edx
	testq	%r10, %r10
	movb	%sil, 2861(%rsp)
	sete	%sil
	movw	$0, 2862(%rsp)
	cmpq	$8, %rcx
	ja	.Lluossavin_x86_64.BB41_17
	movb	%sil, %dl
	shll	$12, %edx
	addq	%rdx, %r10
	leaq	1912(%rsp), %rdx
	movq	$-1, %rsi
	leaq	1908(%rsp), %rdi
	.p2align	4
.Lluossavin_x86_64.BB41_2:
	incq	%rsi
	cmpq	%rsi, %rcx
	je	.Lluossavin_x86_64.BB41_4
	cmpb	$0, (%rdi)
	leaq	136(%rdi), %rdi
	je	.Lluossavin_x86_64.BB41_2
.Lluossavin_x86_64.BB41_17:
	movl	$26, %ecx
	xorl	%r8d, %r8d
	movq	$0, 184(%rsp)
	movq	$0, 64(%rsp)
	movq	$0, 72(%rsp)
	xorl	%r13d, %r13d
	xorl	%ebx, %ebx
	xorl	%esi, %esi
	xorl	%ebp, %ebp
	xorl	%r10d, %r10d
	xorl	%r9d, %r9d
	xorl	%r12d, %r12d
	xorl	%r14d, %r14d
	movq	$0, 144(%rsp)
	movq	$0, 152(%rsp)
	movq	$0, 88(%rsp)
	movq	$0, 96(%rsp)
	movq	$0, 104(%rsp)
	movq	$0, 112(%rsp)
	movq	$0, 120(%rsp)
	movq	$0, 128(%rsp)
	movq	$0, 136(%rsp)
	movq	$0, 160(%rsp)
	movq	$0, 168(%rsp)
	movq	$0, 56(%rsp)
	movq	$0, 80(%rsp)
	movq	$0, 192(%rsp)
	xorl	%r15d, %r15d
	xorl	%r11d, %r11d
	xorl	%edi, %edi
.Lluossavin_x86_64.BB41_60:
	xorl	%edx, %edx
	cmpq	$1, %r15
	cmovneq	%rdx, %r11
	cmovneq	%rdx, %rdi
	movq	192(%rsp), %rdx
.Lluossavin_x86_64.BB41_61:
	movl	%ecx, (%rax)
	movl	%r15d, 4(%rax)
	movq	%r8, 8(%rax)
	movq	%r11, 16(%rax)
	movq	%rdi, 24(%rax)
	movq	184(%rsp), %rcx
	movq	%rcx, 32(%rax)
	movq	64(%rsp), %rcx
	movq	%rcx, 40(%rax)
	movq	72(%rsp), %rcx
	movq	%rcx, 48(%rax)
	movq	%r13, 56(%rax)
	movq	%rbx, 64(%rax)
	movq	%rsi, 72(%rax)
	movq	%rbp, 80(%rax)
	movq	%r10, 88(%rax)
	movq	%r9, 96(%rax)
	movq	%r12, 104(%rax)
	movq	%r14, 112(%rax)
	movq	144(%rsp), %rcx
	movq	%rcx, 120(%rax)
	movq	152(%rsp), %rcx
	movq	%rcx, 128(%rax)
	movq	88(%rsp), %rcx
	movq	%rcx, 136(%rax)
	movq	96(%rsp), %rcx
	movq	%rcx, 144(%rax)
	movq	104(%rsp), %rcx
	movq	%rcx, 152(%rax)
	movq	112(%rsp), %rcx
	movq	%rcx, 160(%rax)
	movq	120(%rsp), %rcx
	movq	%rcx, 168(%rax)
	movq	128(%rsp), %rcx
	movq	%rcx, 176(%rax)
	movq	136(%rsp), %rcx
	movq	%rcx, 184(%rax)
	movq	160(%rsp), %rcx
	movq	%rcx, 192(%rax)
	movq	168(%rsp), %rcx
	movq	%rcx, 200(%rax)
	movq	56(%rsp), %rcx
	movq	%rcx, 208(%rax)
	xorps	%xmm0, %xmm0
	movups	%xmm0, 328(%rax)
	movups	%xmm0, 312(%rax)
	movups	%xmm0, 296(%rax)
	movups	%xmm0, 280(%rax)
	movups	%xmm0, 264(%rax)
	movups	%xmm0, 248(%rax)
	movups	%xmm0, 232(%rax)
	movups	%xmm0, 216(%rax)
	movq	80(%rsp), %rcx
	movq	%rcx, 344(%rax)
	movq	%rdx, 352(%rax)
	addq	$18168, %rsp
	popq	%rbx
	popq	%r12
	popq	%r13
	popq	%r14
	popq	%r15
	popq	%rbp
	retq
.Lluossavin_x86_64.BB41_4:
	testq	%rcx, %rcx
	je	.Lluossavin_x86_64.BB41_18
	decq	%rcx
	je	.Lluossavin_x86_64.BB41_18
	xorl	%esi, %esi
	cmpl	$0, 48(%rsp)
	cmovnel	%esi, %r14d
	leaq	2042(%rsp), %rsi
.Lluossavin_x86_64.BB41_11:
	xorl	%edi, %edi
	movq	%rsi, %r8
	.p2align	4
.Lluossavin_x86_64.BB41_13:
	cmpb	$0, -2(%r8)
	jne	.Lluossavin_x86_64.BB41_14
	movzwl	(%r8), %r9d
	cmpw	%r14w, %r9w
	jne	.Lluossavin_x86_64.BB41_12
	jmp	.Lluossavin_x86_64.BB41_17
	.p2align	4
.Lluossavin_x86_64.BB41_14:
	xorl	%r9d, %r9d
	cmpw	%r14w, %r9w
	je	.Lluossavin_x86_64.BB41_17
.Lluossavin_x86_64.BB41_12:
	incq	%rdi
	addq	$136, %r8
	cmpq	%rdi, %rcx
	jne	.Lluossavin_x86_64.BB41_13
	cmpb	$0, 128(%rdx)
	jne	.Lluossavin_x86_64.BB41_8
	movzwl	130(%rdx), %r14d
	addq	$136, %rdx
	addq	$136, %rsi
	decq	%rcx
	jne	.Lluossavin_x86_64.BB41_11
	jmp	.Lluossavin_x86_64.BB41_18
.Lluossavin_x86_64.BB41_8:
	xorl	%r14d, %r14d
	addq	$136, %rdx
	addq	$136, %rsi
	decq	%rcx
	jne	.Lluossavin_x86_64.BB41_11
.Lluossavin_x86_64.BB41_18:
	movq	336(%rsp), %r15
	testq	%r15, %r15
	je	.Lluossavin_x86_64.BB41_19
	movq	528(%rsp), %rcx
	movq	%rcx, 360(%rsp)
	xorl	%edi, %edi
	movq	%r15, %r14
	xorl	%esi, %esi
	xorl	%ecx, %ecx
	xorl	%edx, %edx
	xorl	%r12d, %r12d
	movq	$0, 72(%rsp)
	xorl	%r11d, %r11d
	xorl	%r9d, %r9d
	xorl	%ebx, %ebx
	xorl	%r13d, %r13d
	xorl	%ebp, %ebp
	movq	$0, 248(%rsp)
	movq	$0, 240(%rsp)
	movq	$0, 232(%rsp)
	movq	$0, 224(%rsp)
	movq	$0, 48(%rsp)
	movq	$0, 56(%rsp)
	movq	$0, 168(%rsp)
	movq	$0, 160(%rsp)
	movq	$0, 152(%rsp)
	movq	$0, 144(%rsp)
	movq	$0, 136(%rsp)
	movq	$0, 128(%rsp)
	movq	$0, 120(%rsp)
	movq	$0, 112(%rsp)
	movq	$0, 104(%rsp)
	movq	$0, 96(%rsp)
	movq	$0, 88(%rsp)
.Lluossavin_x86_64.BB41_21:
	movq	%r12, 192(%rsp)
	movq	%rcx, 184(%rsp)
	movq	%rsi, 304(%rsp)
	movq	%r15, %r8
	subq	%r14, %r8
	movl	$23, %ecx
	cmpq	$6, %r14
	movq	%r9, 80(%rsp)
	movq	%r11, 64(%rsp)
	movq	%rbx, 328(%rsp)
	movq	%r13, 320(%rsp)
	movq	%rbp, 312(%rsp)
	movq	%rdx, 296(%rsp)
	movq	%rdi, 288(%rsp)
	jb	.Lluossavin_x86_64.BB41_58
	cmpb	$84, (%r10)
	movq	48(%rsp), %r12
	jne	.Lluossavin_x86_64.BB41_59
	cmpb	$82, 1(%r10)
	jne	.Lluossavin_x86_64.BB41_59
	cmpq	$10, %r14
	jb	.Lluossavin_x86_64.BB41_59
	movzbl	2(%r10), %ebp
	cmpb	$1, %bpl
	ja	.Lluossavin_x86_64.BB41_59
	addq	$-10, %r14
	movl	6(%r10), %edi
	bswapl	%edi
	subq	%rdi, %r14
	jb	.Lluossavin_x86_64.BB41_59
	cmpq	$4, %r14
	jb	.Lluossavin_x86_64.BB41_59
	leaq	(%r10,%rdi), %rdx
	addq	$10, %rdx
	addq	$-4, %r14
	movl	(%rdx), %esi
	bswapl	%esi
	subq	%rsi, %r14
	jb	.Lluossavin_x86_64.BB41_59
	cmpq	$4, %r14
	jb	.Lluossavin_x86_64.BB41_59
	leaq	(%rdx,%rsi), %r13
	addq	$4, %r13
	addq	$-4, %r14
	movl	(%r13), %ebx
	bswapl	%ebx
	subq	%rbx, %r14
	jb	.Lluossavin_x86_64.BB41_59
	cmpq	$5, %r14
	jb	.Lluossavin_x86_64.BB41_59
	movq	%rdx, 280(%rsp)
	leaq	-5(%r14), %rdx
	cmpq	$4, %rdx
	jb	.Lluossavin_x86_64.BB41_59
	movq	%r10, 272(%rsp)
	addq	$4, %r13
	leaq	(%rbx,%r13), %rdx
	addq	$-9, %r14
	movl	5(%rdx), %r15d
	bswapl	%r15d
	subq	%r15, %r14
	jb	.Lluossavin_x86_64.BB41_59
	movb	%bpl, 47(%rsp)
	movl	(%r13,%rbx), %ecx
	bswapl	%ecx
	cmpl	$16400, %ecx
	movl	$16400, %ebp
	cmovbl	%ecx, %ebp
	movq	%rdi, 216(%rsp)
	cmpl	$16385, %edi
	setae	%cl
	movq	%rsi, 264(%rsp)
	cmpl	$16385, %esi
	setae	%sil
	orb	%cl, %sil
	cmpl	$16385, %ebx
	setae	%dil
	orb	%sil, %dil
	cmpl	$16401, %r15d
	setae	%cl
	orb	%dil, %cl
	movq	360(%rsp), %rsi
	testq	%rsi, %rsi
	je	.Lluossavin_x86_64.BB41_57
	testb	%cl, %cl
	jne	.Lluossavin_x86_64.BB41_57
	movq	272(%rsp), %rdi
	movzbl	3(%rdi), %r11d
	movzwl	4(%rdi), %ecx
	addq	$10, %rdi
	movq	%rdi, 352(%rsp)
	addq	$4, 280(%rsp)
	rolw	$8, %cx
	movzbl	4(%r13,%rbx), %edi
	movl	%edi, 180(%rsp)
	addq	%r15, %rdx
	addq	$9, %rdx
	leaq	666(%rsp), %r12
	.p2align	4
.Lluossavin_x86_64.BB41_37:
	cmpb	$0, -2(%r12)
	jne	.Lluossavin_x86_64.BB41_38
	movzwl	(%r12), %edi
	cmpw	%cx, %di
	jne	.Lluossavin_x86_64.BB41_39
	jmp	.Lluossavin_x86_64.BB41_43
	.p2align	4
.Lluossavin_x86_64.BB41_38:
	xorl	%edi, %edi
	cmpw	%cx, %di
	je	.Lluossavin_x86_64.BB41_43
.Lluossavin_x86_64.BB41_39:
	addq	$136, %r12
	decq	%rsi
	jne	.Lluossavin_x86_64.BB41_37
	jmp	.Lluossavin_x86_64.BB41_40
.Lluossavin_x86_64.BB41_43:
	movq	%r8, 344(%rsp)
	movq	%rdx, 200(%rsp)
	movq	%rax, 256(%rsp)
	leaq	1768(%rsp), %rdi
	movq	$0, 208(%rsp)
	movl	$16400, %edx
	xorl	%esi, %esi
	movb	%r11b, 46(%rsp)
	callq	memset@PLT
	movzbl	46(%rsp), %r11d
	movl	$0, 1764(%rsp)
	xorps	%xmm0, %xmm0
	movaps	%xmm0, 368(%rsp)
	movaps	%xmm0, 384(%rsp)
	cmpb	$4, %r11b
	ja	.Lluossavin_x86_64.BB41_44
	addq	$-130, %r12
	leaq	1628(%rsp), %rdi
	movl	$136, %edx
	movq	%r12, %rsi
	movl	%r11d, %r12d
	callq	memcpy@PLT
	movb	%r12b, 1764(%rsp)
	movq	%rbp, 32(%rsp)
	leaq	1768(%rsp), %rax
	movq	%rax, 24(%rsp)
	movq	%rbx, 16(%rsp)
	movq	%r13, 8(%rsp)
	movq	264(%rsp), %rax
	movq	%rax, (%rsp)
	movzbl	47(%rsp), %edx
	leaq	368(%rsp), %rdi
	leaq	1628(%rsp), %rsi
	movq	352(%rsp), %rcx
	movq	216(%rsp), %r8
	movq	280(%rsp), %r9
	callq	"cipher_mode::Sm4CipherMode::call.x86_64"
	cmpb	$0, 368(%rsp)
	je	.Lluossavin_x86_64.BB41_46
	movzbl	369(%rsp), %eax
	leaq	.Lluossavin_x86_64.switch.table.luossavin_which_x86_64(%rip), %rcx
	movl	(%rcx,%rax,4), %edx
	movq	$0, 208(%rsp)
	jmp	.Lluossavin_x86_64.BB41_48
.Lluossavin_x86_64.BB41_44:
	movl	$7, %edx
	movq	256(%rsp), %rax
	movq	200(%rsp), %r10
	movq	80(%rsp), %r9
	movq	72(%rsp), %r12
	movq	64(%rsp), %r13
	movq	56(%rsp), %rbp
	movq	216(%rsp), %rdi
	jmp	.Lluossavin_x86_64.BB41_49
.Lluossavin_x86_64.BB41_46:
	xorl	%edx, %edx
	movq	376(%rsp), %rax
	movq	%rax, 208(%rsp)
.Lluossavin_x86_64.BB41_48:
	movq	256(%rsp), %rax
	movq	200(%rsp), %r10
	movq	80(%rsp), %r9
	movq	72(%rsp), %r12
	movq	64(%rsp), %r13
	movq	56(%rsp), %rbp
	movq	216(%rsp), %rdi
	movzbl	46(%rsp), %r11d
.Lluossavin_x86_64.BB41_49:
	movl	180(%rsp), %ecx
	movb	$1, %sil
	cmpl	%ecx, %edx
	jne	.Lluossavin_x86_64.BB41_54
	cmpq	%r15, 208(%rsp)
	jne	.Lluossavin_x86_64.BB41_54
	addq	%rbx, %rdi
	addq	264(%rsp), %rdi
	movq	272(%rsp), %rcx
	addq	%rdi, %rcx
	addq	$27, %rcx
	xorl	%edi, %edi
	.p2align	4
.Lluossavin_x86_64.BB41_52:
	cmpq	%rdi, %r15
	setne	%sil
	je	.Lluossavin_x86_64.BB41_54
	movzbl	(%rcx,%rdi), %r8d
	cmpb	1768(%rsp,%rdi), %r8b
	leaq	1(%rdi), %rdi
	je	.Lluossavin_x86_64.BB41_52
.Lluossavin_x86_64.BB41_54:
	movq	%r13, 1776(%rsp)
	movq	%r12, 1784(%rsp)
	movq	320(%rsp), %rcx
	movq	%rcx, 1792(%rsp)
	movq	328(%rsp), %rcx
	movq	%rcx, 1800(%rsp)
	movq	248(%rsp), %rcx
	movq	%rcx, 1808(%rsp)
	movq	312(%rsp), %rcx
	movq	%rcx, 1816(%rsp)
	movq	232(%rsp), %rcx
	movq	%rcx, 1824(%rsp)
	movq	240(%rsp), %rcx
	movq	%rcx, 1832(%rsp)
	movq	48(%rsp), %rcx
	movq	%rcx, 1840(%rsp)
	movq	224(%rsp), %rcx
	movq	%rcx, 1848(%rsp)
	movq	144(%rsp), %rcx
	movq	%rcx, 1856(%rsp)
	movq	152(%rsp), %rcx
	movq	%rcx, 1864(%rsp)
	movq	88(%rsp), %rcx
	movq	%rcx, 1872(%rsp)
	movq	96(%rsp), %rcx
	movq	%rcx, 1880(%rsp)
	movq	104(%rsp), %rcx
	movq	%rcx, 1888(%rsp)
	movq	112(%rsp), %rcx
	movq	%rcx, 1896(%rsp)
	movq	120(%rsp), %rcx
	movq	%rcx, 1904(%rsp)
	movq	128(%rsp), %rcx
	movq	%rcx, 1912(%rsp)
	movq	136(%rsp), %rcx
	movq	%rcx, 1920(%rsp)
	movq	160(%rsp), %rcx
	movq	%rcx, 1928(%rsp)
	movq	168(%rsp), %rcx
	movq	%rcx, 1936(%rsp)
	movq	%rbp, 1944(%rsp)
	movq	184(%rsp), %rbx
	leaq	1(%rbx), %rcx
	movq	%rcx, 1768(%rsp)
	movzbl	%r11b, %edi
	cmpb	$5, %r11b
	movl	$5, %r8d
	cmovbl	%edi, %r8d
	movzbl	%r8b, %edi
	incq	1776(%rsp,%rdi,8)
	movl	%edx, %edx
	incq	1824(%rsp,%rdx,8)
	addq	264(%rsp), %r9
	movq	208(%rsp), %r12
	addq	192(%rsp), %r12
	movq	296(%rsp), %r8
	testq	%r8, %r8
	movq	304(%rsp), %rdx
	cmovneq	%rdx, %rbx
	movq	344(%rsp), %rdi
	movq	288(%rsp), %r11
	cmovneq	%r11, %rdi
	testb	%sil, %sil
	cmoveq	%r11, %rdi
	movq	%rbx, %rsi
	cmoveq	%rdx, %rsi
	movl	$1, %edx
	cmoveq	%r8, %rdx
	movq	1776(%rsp), %r11
	movq	1784(%rsp), %r8
	movq	%r8, 72(%rsp)
	movq	1792(%rsp), %r13
	movq	1800(%rsp), %rbx
	movq	1808(%rsp), %r8
	movq	%r8, 248(%rsp)
	movq	1816(%rsp), %rbp
	movq	1824(%rsp), %r8
	movq	%r8, 232(%rsp)
	movq	1832(%rsp), %r8
	movq	%r8, 240(%rsp)
	movq	1840(%rsp), %r8
	movq	%r8, 48(%rsp)
	movq	1848(%rsp), %r8
	movq	%r8, 224(%rsp)
	movq	1856(%rsp), %r8
	movq	%r8, 144(%rsp)
	movq	1864(%rsp), %r8
	movq	%r8, 152(%rsp)
	movq	1872(%rsp), %r8
	movq	%r8, 88(%rsp)
	movq	1880(%rsp), %r8
	movq	%r8, 96(%rsp)
	movq	1888(%rsp), %r8
	movq	%r8, 104(%rsp)
	movq	1896(%rsp), %r8
	movq	%r8, 112(%rsp)
	movq	1904(%rsp), %r8
	movq	%r8, 120(%rsp)
	movq	1912(%rsp), %r8
	movq	%r8, 128(%rsp)
	movq	1920(%rsp), %r8
	movq	%r8, 136(%rsp)
	movq	1928(%rsp), %r8
	movq	%r8, 160(%rsp)
	movq	1936(%rsp), %r8
	movq	%r8, 168(%rsp)
	movq	1944(%rsp), %r8
	movq	%r8, 56(%rsp)
	testq	%r14, %r14
	movq	336(%rsp), %r15
	jne	.Lluossavin_x86_64.BB41_21
	movq	%r11, 64(%rsp)
	movq	%r9, 80(%rsp)
	movq	%rsi, %r11
	movq	248(%rsp), %rsi
	movq	240(%rsp), %r9
	movq	232(%rsp), %r10
	movq	224(%rsp), %r14
	jmp	.Lluossavin_x86_64.BB41_56
.Lluossavin_x86_64.BB41_19:
	movq	$0, 88(%rsp)
	movq	$0, 96(%rsp)
	movq	$0, 104(%rsp)
	movq	$0, 112(%rsp)
	movq	$0, 120(%rsp)
	movq	$0, 128(%rsp)
	movq	$0, 136(%rsp)
	movq	$0, 144(%rsp)
	movq	$0, 152(%rsp)
	movq	$0, 160(%rsp)
	movq	$0, 168(%rsp)
	movq	$0, 56(%rsp)
	movq	$0, 48(%rsp)
	xorl	%r14d, %r14d
	xorl	%r10d, %r10d
	xorl	%r9d, %r9d
	xorl	%esi, %esi
	xorl	%ebp, %ebp
	xorl	%r13d, %r13d
	xorl	%ebx, %ebx
	movq	$0, 80(%rsp)
	movq	$0, 64(%rsp)
	movq	$0, 72(%rsp)
	xorl	%r12d, %r12d
	xorl	%edx, %edx
	xorl	%ecx, %ecx
	xorl	%r11d, %r11d
	xorl	%edi, %edi
.Lluossavin_x86_64.BB41_56:
	testq	%rdx, %rdx
	cmoveq	%rdx, %r11
	cmoveq	%rdx, %rdi
	xorl	%r8d, %r8d
	movq	%rdx, %r15
	movq	%r12, %rdx
	movq	%rcx, 184(%rsp)
	movq	48(%rsp), %r12
	xorl	%ecx, %ecx
	jmp	.Lluossavin_x86_64.BB41_61
.Lluossavin_x86_64.BB41_40:
	movl	$25, %ecx
.Lluossavin_x86_64.BB41_58:
	movq	48(%rsp), %r12
.Lluossavin_x86_64.BB41_59:
	movq	328(%rsp), %rbx
	movq	320(%rsp), %r13
	movq	312(%rsp), %rbp
	movq	248(%rsp), %rsi
	movq	240(%rsp), %r9
	movq	232(%rsp), %r10
	movq	224(%rsp), %r14
	movq	304(%rsp), %r11
	movq	296(%rsp), %r15
	movq	288(%rsp), %rdi
	jmp	.Lluossavin_x86_64.BB41_60
.Lluossavin_x86_64.BB41_57:
	movzbl	%cl, %ecx
	xorl	$25, %ecx
	jmp	.Lluossavin_x86_64.BB41_58
.Lluossavin_x86_64.func_end41:
	.size	luossavin_replay_x86_64, .Lluossavin_x86_64.func_end41-luossavin_replay_x86_64

	.section	.text.luossavin_seal_end_x86_64,"ax",@progbits
	.globl	luossavin_seal_end_x86_64
	.hidden	luossavin_seal_end_x86_64
	.p2align	4
	.type	luossavin_seal_end_x86_64,@function
luossavin_seal_end_x86_64:
	pushq	%rbp
	pushq	%r15
	pushq	%r14
	pushq	%r13
	pushq	%r12
	pushq	%rbx
	subq	$488, %rsp
	movq	%rdi, %rbx
	leaq	544(%rsp), %r12
	xorl	%r14d, %r14d
	testq	%rsi, %rsi
	sete	%al
	movzbl	752(%rsp), %ecx
	movq	%rcx, 64(%rsp)
	movzbl	753(%rsp), %ecx
	movq	%rcx, 72(%rsp)
	movzbl	754(%rsp), %ecx
	movq	%rcx, 80(%rsp)
	movzbl	755(%rsp), %ecx
	movq	%rcx, 88(%rsp)
	movzbl	756(%rsp), %ecx
	movq	%rcx, 96(%rsp)
	movzbl	757(%rsp), %ecx
	movq	%rcx, 112(%rsp)
	movzbl	758(%rsp), %ecx
	movq	%rcx, 128(%rsp)
	movzbl	759(%rsp), %ecx
	movq	%rcx, 152(%rsp)
	movzbl	760(%rsp), %r10d
	xorps	%xmm0, %xmm0
	movaps	%xmm0, 416(%rsp)
	movaps	%xmm0, 400(%rsp)
	movaps	%xmm0, 384(%rsp)
	movaps	%xmm0, 368(%rsp)
	movaps	%xmm0, 352(%rsp)
	movaps	%xmm0, 336(%rsp)
	movaps	%xmm0, 320(%rsp)
	movaps	%xmm0, 304(%rsp)
	movaps	%xmm0, 288(%rsp)
	movaps	%xmm0, 272(%rsp)
	movaps	%xmm0, 256(%rsp)
	movaps	%xmm0, 240(%rsp)
	movaps	%xmm0, 224(%rsp)
	movq	$0, 430(%rsp)
	movzbl	761(%rsp), %ecx
	movq	%rcx, 104(%rsp)
	movzbl	762(%rsp), %ecx
	movq	%rcx, 120(%rsp)
	movzbl	763(%rsp), %ecx
	movq	%rcx, 136(%rsp)
	movzbl	764(%rsp), %ecx
	movq	%rcx, 144(%rsp)
	movzbl	765(%rsp), %r11d
	movzbl	766(%rsp), %r9d
	movzbl	767(%rsp), %r8d
	movq	768(%rsp), %r15
	movq	776(%rsp), %rbp
	movl	784(%rsp), %ecx
	movq	%rcx, (%rsp)
	movl	788(%rsp), %r13d
	movzwl	792(%rsp), %ecx
	movw	%cx, 14(%rsp)
	cmpq	$14, %r13
	movq	%r8, 184(%rsp)
	movq	%r9, 176(%rsp)
	movq	%r10, 168(%rsp)
	movq	%r11, 160(%rsp)
	ja	.Lluossavin_x86_64.BB42_10
	leaq	.Lluossavin_x86_64.JTI42_0(%rip), %rcx
	movslq	(%rcx,%r13,4), %rdi
	addq	%rcx, %rdi
	jmpq	*%rdi
.Lluossavin_x86_64.BB42_3:
	cmpq	$16777217, %r15
	setae	%cl
	cmpq	$16777217, %rbp
	setae	%dil
	orb	%cl, %dil
	je	.Lluossavin_x86_64.BB42_4
.Lluossavin_x86_64.BB42_6:
	leaq	230(%rsp), %rdi
	movl	$208, %edx
	movq	%r12, %rsi
	callq	memcpy@PLT
	movl	250(%r12), %eax
	movl	%eax, 16(%rsp)
	movzwl	254(%r12), %eax
	movw	%ax, 20(%rsp)
	movl	$5, %ecx
	xorl	%eax, %eax
	jmp	.Lluossavin_x86_64.BB42_13
.Lluossavin_x86_64.BB42_2:
	leaq	230(%rsp), %rdi
	movl	$208, %edx
	movq	%r12, %rsi
	callq	memcpy@PLT
	movl	250(%r12), %eax
	movl	%eax, 16(%rsp)
	movzwl	254(%r12), %eax
	movw	%ax, 20(%rsp)
	movl	$1, %r13d
	xorl	%eax, %eax
	movl	$1, %ecx
	jmp	.Lluossavin_x86_64.BB42_13
.Lluossavin_x86_64.BB42_12:
	leaq	230(%rsp), %rdi
	movl	$208, %edx
	movq	%r12, %rsi
	callq	memcpy@PLT
	movl	250(%r12), %eax
	movl	%eax, 16(%rsp)
	movzwl	254(%r12), %eax
	movw	%ax, 20(%rsp)
	movl	$14, %r13d
	xorl	%eax, %eax
	movl	$14, %ecx
	jmp	.Lluossavin_x86_64.BB42_13
.Lluossavin_x86_64.BB42_10:
	leaq	230(%rsp), %rdi
	movl	$208, %edx
	movq	%r12, %rsi
	callq	memcpy@PLT
	movl	250(%r12), %eax
	movl	%eax, 16(%rsp)
	movzwl	254(%r12), %eax
	movw	%ax, 20(%rsp)
	movl	$12, %ecx
	xorl	%eax, %eax
	jmp	.Lluossavin_x86_64.BB42_13
.Lluossavin_x86_64.BB42_9:
	leaq	230(%rsp), %rdi
	movl	$208, %edx
	movq	%r12, %rsi
	callq	memcpy@PLT
	movl	250(%r12), %eax
	movl	%eax, 16(%rsp)
	movzwl	254(%r12), %eax
	movw	%ax, 20(%rsp)
	movl	$10, %r13d
	xorl	%eax, %eax
	movl	$10, %ecx
	jmp	.Lluossavin_x86_64.BB42_13
.Lluossavin_x86_64.BB42_11:
	leaq	230(%rsp), %rdi
	movl	$208, %edx
	movq	%r12, %rsi
	callq	memcpy@PLT
	movl	250(%r12), %eax
	movl	%eax, 16(%rsp)
	movzwl	254(%r12), %eax
	movw	%ax, 20(%rsp)
	movl	$13, %r13d
	xorl	%eax, %eax
	movl	$13, %ecx
.Lluossavin_x86_64.BB42_13:
	xorl	%edx, %edx
	movq	(%rsp), %r14
.Lluossavin_x86_64.BB42_14:
	leaq	230(%rsp), %rsi
	movl	%ecx, (%rbx)
	movb	$0, 4(%rbx)
	movb	%al, 5(%rbx)
	movzwl	14(%rsp), %r12d
	movw	%r12w, 6(%rbx)
	movq	%rdx, 8(%rbx)
	leaq	16(%rbx), %rdi
	movl	$208, %edx
	callq	memcpy@PLT
	movq	64(%rsp), %rax
	movb	%al, 224(%rbx)
	movq	72(%rsp), %rax
	movb	%al, 225(%rbx)
	movq	80(%rsp), %rax
	movb	%al, 226(%rbx)
	movq	88(%rsp), %rax
	movb	%al, 227(%rbx)
	movq	96(%rsp), %rax
	movb	%al, 228(%rbx)
	movq	112(%rsp), %rax
	movb	%al, 229(%rbx)
	movq	128(%rsp), %rax
	movb	%al, 230(%rbx)
	movq	152(%rsp), %rax
	movb	%al, 231(%rbx)
	movq	168(%rsp), %rax
	movb	%al, 232(%rbx)
	movq	104(%rsp), %rax
	movb	%al, 233(%rbx)
	movq	120(%rsp), %rax
	movb	%al, 234(%rbx)
	movq	136(%rsp), %rax
	movb	%al, 235(%rbx)
	movq	144(%rsp), %rax
	movb	%al, 236(%rbx)
	movq	160(%rsp), %rax
	movb	%al, 237(%rbx)
	movq	176(%rsp), %rax
	movb	%al, 238(%rbx)
	movq	184(%rsp), %rax
	movb	%al, 239(%rbx)
	movq	%r15, 240(%rbx)
	movq	%rbp, 248(%rbx)
	movl	%r14d, 256(%rbx)
	movl	%r13d, 260(%rbx)
	movw	%r12w, 264(%rbx)
	movzwl	20(%rsp), %eax
	movw	%ax, 270(%rbx)
	movl	16(%rsp), %eax
	movl	%eax, 266(%rbx)
	movq	%rbx, %rax
	addq	$488, %rsp
	popq	%rbx
	popq	%r12
	popq	%r13
	popq	%r14
	popq	%r15
	popq	%rbp
	retq
.Lluossavin_x86_64.BB42_4:
	cmpq	$16, %rdx
	jae	.Lluossavin_x86_64.BB42_5
	leaq	230(%rsp), %rdi
	movl	$208, %edx
	movq	%r12, %rsi
	callq	memcpy@PLT
	movl	250(%r12), %eax
	movl	%eax, 16(%rsp)
	movzwl	254(%r12), %eax
	movw	%ax, 20(%rsp)
	movl	$6, %ecx
	xorl	%r13d, %r13d
	xorl	%eax, %eax
	jmp	.Lluossavin_x86_64.BB42_13
.Lluossavin_x86_64.BB42_5:
	movb	%al, %r14b
	shll	$12, %r14d
	movl	%ebp, %ecx
	andl	$15, %ecx
	movaps	%xmm0, 448(%rsp)
	movaps	%xmm0, 464(%rsp)
	movups	160(%r12), %xmm0
	movups	176(%r12), %xmm1
	movups	192(%r12), %xmm2
	movaps	%xmm0, 16(%rsp)
	movaps	%xmm1, 32(%rsp)
	movaps	%xmm2, 48(%rsp)
	leaq	48(%rsp), %rdx
	movq	16(%rsp), %rax
	movq	24(%rsp), %rdi
	movq	32(%rsp), %r8
	movq	40(%rsp), %r9
	bswapq	%rax
	bswapq	%rdi
	bswapq	%r8
	bswapq	%r9
	movq	%rax, 192(%rsp)
	movq	%rdi, 200(%rsp)
	movq	%r8, 208(%rsp)
	movq	%r9, 216(%rsp)
	leaq	448(%rsp), %rdi
	leaq	192(%rsp), %r12
	movq	%rsi, %r13
	movq	%r12, %rsi
	callq	"ghash::Ghash::absorb_all.x86_64"
	movq	%r12, %rdi
	leaq	448(%rsp), %rsi
	movq	%r15, %rdx
	movq	%rbp, %rcx
	callq	"ghash::Ghash::absorb_lengths.x86_64"
	movq	208(%rsp), %rax
	movq	%rax, %rdx
	shrq	$32, %rdx
	bswapl	%edx
	movq	64(%rsp), %rsi
	xorb	%dl, %sil
	movq	216(%rsp), %rcx
	movb	%sil, (%r13,%r14)
	movl	%edx, %esi
	shrl	$8, %esi
	movq	72(%rsp), %rdi
	xorb	%sil, %dil
	movb	%dil, 1(%r13,%r14)
	movl	%edx, %esi
	shrl	$16, %esi
	movq	80(%rsp), %rdi
	xorb	%sil, %dil
	movb	%dil, 2(%r13,%r14)
	shrl	$24, %edx
	movq	88(%rsp), %rsi
	xorb	%dl, %sil
	movb	%sil, 3(%r13,%r14)
	bswapl	%eax
	movq	96(%rsp), %rsi
	xorb	%al, %sil
	movb	%sil, 4(%r13,%r14)
	movl	%eax, %edx
	shrl	$8, %edx
	movq	112(%rsp), %rsi
	xorb	%dl, %sil
	movb	%sil, 5(%r13,%r14)
	movl	%eax, %edx
	shrl	$16, %edx
	movq	128(%rsp), %rsi
	xorb	%dl, %sil
	movb	%sil, 6(%r13,%r14)
	shrl	$24, %eax
	movq	152(%rsp), %rdx
	xorb	%al, %dl
	movq	%rcx, %rax
	shrq	$32, %rax
	bswapl	%eax
	bswapl	%ecx
	movb	%dl, 7(%r13,%r14)
	movq	168(%rsp), %rsi
	xorb	%al, %sil
	movl	%eax, %edx
	shrl	$8, %edx
	movb	%sil, 8(%r13,%r14)
	movl	%eax, %esi
	shrl	$16, %esi
	shrl	$24, %eax
	movq	104(%rsp), %rdi
	xorb	%dl, %dil
	movb	%dil, 9(%r13,%r14)
	movq	120(%rsp), %rdx
	xorb	%sil, %dl
	movb	%dl, 10(%r13,%r14)
	movq	136(%rsp), %rdx
	xorb	%al, %dl
	movb	%dl, 11(%r13,%r14)
	movq	144(%rsp), %rax
	xorb	%cl, %al
	movb	%al, 12(%r13,%r14)
	movl	%ecx, %eax
	shrl	$8, %eax
	movq	160(%rsp), %rdx
	xorb	%al, %dl
	movb	%dl, 13(%r13,%r14)
	movl	%ecx, %eax
	shrl	$16, %eax
	movq	176(%rsp), %rdx
	xorb	%al, %dl
	movb	%dl, 14(%r13,%r14)
	shrl	$24, %ecx
	movq	184(%rsp), %rax
	xorb	%cl, %al
	movb	%al, 15(%r13,%r14)
	addq	$15, %rbp
	shrq	$4, %rbp
	movq	(%rsp), %rax
	notl	%eax
	cmpq	%rax, %rbp
	seta	%al
	xorps	%xmm0, %xmm0
	movaps	%xmm0, 416(%rsp)
	movaps	%xmm0, 400(%rsp)
	movaps	%xmm0, 384(%rsp)
	movaps	%xmm0, 368(%rsp)
	movaps	%xmm0, 352(%rsp)
	movaps	%xmm0, 336(%rsp)
	movaps	%xmm0, 320(%rsp)
	movaps	%xmm0, 304(%rsp)
	movaps	%xmm0, 288(%rsp)
	movaps	%xmm0, 272(%rsp)
	movaps	%xmm0, 256(%rsp)
	movaps	%xmm0, 240(%rsp)
	movaps	%xmm0, 224(%rsp)
	movq	$0, 430(%rsp)
	movl	$0, 16(%rsp)
	movw	$0, 20(%rsp)
	movl	$16, %edx
	xorl	%r14d, %r14d
	movl	$12, %r13d
	xorl	%ebp, %ebp
	xorl	%r15d, %r15d
	movq	$0, 184(%rsp)
	movq	$0, 176(%rsp)
	movq	$0, 160(%rsp)
	movq	$0, 144(%rsp)
	movq	$0, 136(%rsp)
	movq	$0, 120(%rsp)
	movq	$0, 104(%rsp)
	movq	$0, 168(%rsp)
	movq	$0, 152(%rsp)
	movq	$0, 128(%rsp)
	movq	$0, 112(%rsp)
	movq	$0, 96(%rsp)
	movq	$0, 88(%rsp)
	movq	$0, 80(%rsp)
	movq	$0, 72(%rsp)
	movq	$0, 64(%rsp)
	xorl	%ecx, %ecx
	jmp	.Lluossavin_x86_64.BB42_14
.Lluossavin_x86_64.func_end42:
	.size	luossavin_seal_end_x86_64, .Lluossavin_x86_64.func_end42-luossavin_seal_end_x86_64
	.section	.rodata.luossavin_seal_end_x86_64,"a",@progbits
	.p2align	2, 0x0
.Lluossavin_x86_64.JTI42_0:
	.long	.Lluossavin_x86_64.BB42_3-.Lluossavin_x86_64.JTI42_0
	.long	.Lluossavin_x86_64.BB42_2-.Lluossavin_x86_64.JTI42_0
	.long	.Lluossavin_x86_64.BB42_10-.Lluossavin_x86_64.JTI42_0
	.long	.Lluossavin_x86_64.BB42_10-.Lluossavin_x86_64.JTI42_0
	.long	.Lluossavin_x86_64.BB42_10-.Lluossavin_x86_64.JTI42_0
	.long	.Lluossavin_x86_64.BB42_6-.Lluossavin_x86_64.JTI42_0
	.long	.Lluossavin_x86_64.BB42_10-.Lluossavin_x86_64.JTI42_0
	.long	.Lluossavin_x86_64.BB42_10-.Lluossavin_x86_64.JTI42_0
	.long	.Lluossavin_x86_64.BB42_10-.Lluossavin_x86_64.JTI42_0
	.long	.Lluossavin_x86_64.BB42_10-.Lluossavin_x86_64.JTI42_0
	.long	.Lluossavin_x86_64.BB42_9-.Lluossavin_x86_64.JTI42_0
	.long	.Lluossavin_x86_64.BB42_10-.Lluossavin_x86_64.JTI42_0
	.long	.Lluossavin_x86_64.BB42_10-.Lluossavin_x86_64.JTI42_0
	.long	.Lluossavin_x86_64.BB42_11-.Lluossavin_x86_64.JTI42_0
	.long	.Lluossavin_x86_64.BB42_12-.Lluossavin_x86_64.JTI42_0

	.section	.text.luossavin_seal_piece_x86_64,"ax",@progbits
	.globl	luossavin_seal_piece_x86_64
	.hidden	luossavin_seal_piece_x86_64
	.p2align	4
	.type	luossavin_seal_piece_x86_64,@function
luossavin_seal_piece_x86_64:
	pushq	%rbp
	pushq	%r15
	pushq	%r14
	pushq	%r13
	pushq	%r12
	pushq	%rbx
	subq	$584, %rsp
	movq	%r8, 72(%rsp)
	movq	%rcx, %r13
	movq	%rdx, %r12
	movq	%rsi, %rbp
	movq	%rdi, %rbx
	leaq	640(%rsp), %rsi
	xorl	%r15d, %r15d
	testq	%rbp, %rbp
	sete	46(%rsp)
	testq	%rcx, %rcx
	sete	47(%rsp)
	movq	864(%rsp), %rax
	movq	%rax, 64(%rsp)
	movq	872(%rsp), %rax
	movq	%rax, 56(%rsp)
	movl	884(%rsp), %r14d
	movsd	880(%rsp), %xmm0
	movaps	%xmm0, 112(%rsp)
	movzwl	888(%rsp), %eax
	movw	%ax, 38(%rsp)
	movzbl	890(%rsp), %eax
	movq	%rax, 48(%rsp)
	leaq	360(%rsp), %rdi
	movl	$224, %edx
	callq	memcpy@PLT
	xorps	%xmm0, %xmm0
	movaps	%xmm0, 80(%rsp)
	movaps	%xmm0, 96(%rsp)
	cmpq	$14, %r14
	ja	.Lluossavin_x86_64.BB43_10
	leaq	.Lluossavin_x86_64.JTI43_0(%rip), %rax
	movslq	(%rax,%r14,4), %rcx
	addq	%rax, %rcx
	jmpq	*%rcx
.Lluossavin_x86_64.BB43_3:
	movq	%r12, %rcx
	addq	56(%rsp), %rcx
	movq	$-1, %rax
	cmovaeq	%rcx, %rax
	cmpq	$16777216, 64(%rsp)
	ja	.Lluossavin_x86_64.BB43_7
	cmpq	$16777216, %rax
	ja	.Lluossavin_x86_64.BB43_7
	movq	72(%rsp), %rdx
	cmpq	%r12, %rdx
	jae	.Lluossavin_x86_64.BB43_6
	leaq	128(%rsp), %rdi
	movl	$224, %edx
	leaq	640(%rsp), %r14
	movq	%r14, %rsi
	callq	memcpy@PLT
	movl	251(%r14), %eax
	movl	%eax, 40(%rsp)
	movzbl	255(%r14), %eax
	movb	%al, 44(%rsp)
	movl	$6, %eax
	jmp	.Lluossavin_x86_64.BB43_13
.Lluossavin_x86_64.BB43_7:
	leaq	128(%rsp), %rdi
	movl	$224, %edx
	leaq	640(%rsp), %r14
	movq	%r14, %rsi
	callq	memcpy@PLT
	movl	251(%r14), %eax
	movl	%eax, 40(%rsp)
	movzbl	255(%r14), %eax
	movb	%al, 44(%rsp)
	movl	$5, %eax
	jmp	.Lluossavin_x86_64.BB43_13
.Lluossavin_x86_64.BB43_2:
	leaq	128(%rsp), %rdi
	movl	$224, %edx
	leaq	640(%rsp), %r14
	movq	%r14, %rsi
	callq	memcpy@PLT
	movl	251(%r14), %eax
	movl	%eax, 40(%rsp)
	movzbl	255(%r14), %eax
	movb	%al, 44(%rsp)
	movl	$1, %eax
	jmp	.Lluossavin_x86_64.BB43_13
.Lluossavin_x86_64.BB43_12:
	leaq	128(%rsp), %rdi
	movl	$224, %edx
	leaq	640(%rsp), %r14
	movq	%r14, %rsi
	callq	memcpy@PLT
	movl	251(%r14), %eax
	movl	%eax, 40(%rsp)
	movzbl	255(%r14), %eax
	movb	%al, 44(%rsp)
	movl	$14, %eax
	jmp	.Lluossavin_x86_64.BB43_13
.Lluossavin_x86_64.BB43_10:
	leaq	128(%rsp), %rdi
	movl	$224, %edx
	leaq	640(%rsp), %r14
	movq	%r14, %rsi
	callq	memcpy@PLT
	movl	251(%r14), %eax
	movl	%eax, 40(%rsp)
	movzbl	255(%r14), %eax
	movb	%al, 44(%rsp)
	movl	$12, %eax
	jmp	.Lluossavin_x86_64.BB43_13
.Lluossavin_x86_64.BB43_9:
	leaq	128(%rsp), %rdi
	movl	$224, %edx
	leaq	640(%rsp), %r14
	movq	%r14, %rsi
	callq	memcpy@PLT
	movl	251(%r14), %eax
	movl	%eax, 40(%rsp)
	movzbl	255(%r14), %eax
	movb	%al, 44(%rsp)
	movl	$10, %eax
	jmp	.Lluossavin_x86_64.BB43_13
.Lluossavin_x86_64.BB43_11:
	leaq	128(%rsp), %rdi
	movl	$224, %edx
	leaq	640(%rsp), %r14
	movq	%r14, %rsi
	callq	memcpy@PLT
	movl	251(%r14), %eax
	movl	%eax, 40(%rsp)
	movzbl	255(%r14), %eax
	movb	%al, 44(%rsp)
	movl	$13, %eax
.Lluossavin_x86_64.BB43_13:
	xorl	%r12d, %r12d
	movzwl	38(%rsp), %ebp
	movq	48(%rsp), %r14
.Lluossavin_x86_64.BB43_14:
	movl	%eax, (%rbx)
	movw	$0, 4(%rbx)
	movw	%bp, 6(%rbx)
	movq	%r12, 8(%rbx)
	leaq	16(%rbx), %rdi
	leaq	128(%rsp), %rsi
	movl	$224, %edx
	callq	memcpy@PLT
	movq	64(%rsp), %rax
	movq	%rax, 240(%rbx)
	movq	56(%rsp), %rax
	movq	%rax, 248(%rbx)
	movaps	112(%rsp), %xmm0
	movlps	%xmm0, 256(%rbx)
	movw	%bp, 264(%rbx)
	movb	%r14b, 266(%rbx)
	movl	40(%rsp), %eax
	movl	%eax, 267(%rbx)
	movzbl	44(%rsp), %eax
	movb	%al, 271(%rbx)
	movq	%rbx, %rax
	addq	$584, %rsp
	popq	%rbx
	popq	%r12
	popq	%r13
	popq	%r14
	popq	%r15
	popq	%rbp
	retq
.Lluossavin_x86_64.BB43_6:
	movzbl	46(%rsp), %eax
	movb	%al, %r15b
	shll	$12, %r15d
	addq	%r15, %rbp
	xorl	%eax, %eax
	movzbl	47(%rsp), %esi
	movb	%sil, %al
	shll	$12, %eax
	addq	%rax, %r13
	movq	56(%rsp), %r15
	andl	$15, %r15d
	movq	48(%rsp), %r14
	leal	-1(%r14), %eax
	cmpb	$3, %al
	movzbl	%al, %eax
	movl	$1, %esi
	cmovbl	%eax, %esi
	leaq	640(%rsp), %rax
	leaq	128(%rax), %r8
	movq	%rdx, 24(%rsp)
	movq	%r13, 16(%rsp)
	movq	%r12, 8(%rsp)
	movq	%rbp, (%rsp)
	leaq	80(%rsp), %rdi
	movq	%rax, %rdx
	movq	%rcx, %rbp
	movl	$1, %ecx
	movq	%r15, %r9
	callq	"pieces::flow::run.x86_64"
	leaq	520(%rsp), %rsi
	leaq	288(%rsp), %rdi
	movq	%r15, %rdx
	movq	%r13, %rcx
	movq	%r12, %r8
	callq	"pieces::hashing::Hashing::take_in.x86_64"
	leaq	640(%rsp), %rax
	movups	112(%rax), %xmm0
	movaps	%xmm0, 240(%rsp)
	movups	96(%rax), %xmm0
	movaps	%xmm0, 224(%rsp)
	movups	80(%rax), %xmm0
	movaps	%xmm0, 208(%rsp)
	movups	64(%rax), %xmm0
	movaps	%xmm0, 192(%rsp)
	movups	(%rax), %xmm0
	movups	16(%rax), %xmm1
	movups	32(%rax), %xmm2
	movups	48(%rax), %xmm3
	movaps	%xmm3, 176(%rsp)
	movaps	%xmm2, 160(%rsp)
	movaps	%xmm1, 144(%rsp)
	movaps	%xmm0, 128(%rsp)
	movaps	80(%rsp), %xmm0
	movaps	96(%rsp), %xmm1
	movaps	%xmm0, 256(%rsp)
	movaps	%xmm1, 272(%rsp)
	movups	208(%rax), %xmm0
	movaps	%xmm0, 336(%rsp)
	movl	$0, 40(%rsp)
	movb	$0, 44(%rsp)
	xorl	%eax, %eax
	movq	%rbp, 56(%rsp)
	movzwl	38(%rsp), %ebp
	jmp	.Lluossavin_x86_64.BB43_14
.Lluossavin_x86_64.func_end43:
	.size	luossavin_seal_piece_x86_64, .Lluossavin_x86_64.func_end43-luossavin_seal_piece_x86_64
	.section	.rodata.luossavin_seal_piece_x86_64,"a",@progbits
	.p2align	2, 0x0
.Lluossavin_x86_64.JTI43_0:
	.long	.Lluossavin_x86_64.BB43_3-.Lluossavin_x86_64.JTI43_0
	.long	.Lluossavin_x86_64.BB43_2-.Lluossavin_x86_64.JTI43_0
	.long	.Lluossavin_x86_64.BB43_10-.Lluossavin_x86_64.JTI43_0
	.long	.Lluossavin_x86_64.BB43_10-.Lluossavin_x86_64.JTI43_0
	.long	.Lluossavin_x86_64.BB43_10-.Lluossavin_x86_64.JTI43_0
	.long	.Lluossavin_x86_64.BB43_7-.Lluossavin_x86_64.JTI43_0
	.long	.Lluossavin_x86_64.BB43_10-.Lluossavin_x86_64.JTI43_0
	.long	.Lluossavin_x86_64.BB43_10-.Lluossavin_x86_64.JTI43_0
	.long	.Lluossavin_x86_64.BB43_10-.Lluossavin_x86_64.JTI43_0
	.long	.Lluossavin_x86_64.BB43_10-.Lluossavin_x86_64.JTI43_0
	.long	.Lluossavin_x86_64.BB43_9-.Lluossavin_x86_64.JTI43_0
	.long	.Lluossavin_x86_64.BB43_10-.Lluossavin_x86_64.JTI43_0
	.long	.Lluossavin_x86_64.BB43_10-.Lluossavin_x86_64.JTI43_0
	.long	.Lluossavin_x86_64.BB43_11-.Lluossavin_x86_64.JTI43_0
	.long	.Lluossavin_x86_64.BB43_12-.Lluossavin_x86_64.JTI43_0

	.section	.text.luossavin_seal_start_x86_64,"ax",@progbits
	.globl	luossavin_seal_start_x86_64
	.hidden	luossavin_seal_start_x86_64
	.p2align	4
	.type	luossavin_seal_start_x86_64,@function
luossavin_seal_start_x86_64:
	pushq	%rbp
	pushq	%r15
	pushq	%r14
	pushq	%r13
	pushq	%r12
	pushq	%rbx
	subq	$328, %rsp
	movq	%rcx, %r9
	movq	%rsi, %rcx
	movq	%rdi, %rax
	xorl	%r10d, %r10d
	testq	%rsi, %rsi
	sete	%bpl
	xorl	%edi, %edi
	testq	%r9, %r9
	sete	%r11b
	movl	512(%rsp), %ebx
	cmpl	$13, %ebx
	sete	%r14b
	incb	%r14b
	xorl	%esi, %esi
	testl	%ebx, %ebx
	movzbl	%r14b, %r14d
	cmovel	%ebx, %r14d
	movl	516(%rsp), %ebx
	cmovel	%ebx, %esi
	testb	%r14b, %r14b
	je	.Lluossavin_x86_64.BB44_3
	movzbl	%r14b, %ecx
	pxor	%xmm0, %xmm0
	cmpl	$2, %ecx
	jne	.Lluossavin_x86_64.BB44_2
	movdqa	%xmm0, 192(%rsp)
	movdqa	%xmm0, 176(%rsp)
	movdqa	%xmm0, 160(%rsp)
	movdqa	%xmm0, 144(%rsp)
	movdqa	%xmm0, 128(%rsp)
	movdqa	%xmm0, 112(%rsp)
	movdqa	%xmm0, 96(%rsp)
	movdqa	%xmm0, 80(%rsp)
	movq	$0, 206(%rsp)
	movdqa	%xmm0, 32(%rsp)
	movdqa	%xmm0, 48(%rsp)
	movdqa	%xmm0, 64(%rsp)
	movdqa	%xmm0, 16(%rsp)
	movl	$0, 8(%rsp)
	movb	$0, 12(%rsp)
	xorl	%edi, %edi
	movl	$13, %ecx
	jmp	.Lluossavin_x86_64.BB44_12
.Lluossavin_x86_64.BB44_3:
	movzbl	518(%rsp), %r14d
	movzbl	519(%rsp), %r15d
	cmpq	$16, %r8
	je	.Lluossavin_x86_64.BB44_5
	cmpq	$12, %r8
	jne	.Lluossavin_x86_64.BB44_9
.Lluossavin_x86_64.BB44_5:
	testb	%r14b, %r14b
	je	.Lluossavin_x86_64.BB44_6
	pxor	%xmm0, %xmm0
	movdqa	%xmm0, 192(%rsp)
	movdqa	%xmm0, 176(%rsp)
	movdqa	%xmm0, 160(%rsp)
	movdqa	%xmm0, 144(%rsp)
	movdqa	%xmm0, 128(%rsp)
	movdqa	%xmm0, 112(%rsp)
	movdqa	%xmm0, 96(%rsp)
	movdqa	%xmm0, 80(%rsp)
	movq	$0, 206(%rsp)
	movdqa	%xmm0, 32(%rsp)
	movdqa	%xmm0, 48(%rsp)
	movdqa	%xmm0, 64(%rsp)
	movdqa	%xmm0, 16(%rsp)
	movl	$0, 8(%rsp)
	movb	$0, 12(%rsp)
	xorl	%edi, %edi
	movl	$14, %ecx
	jmp	.Lluossavin_x86_64.BB44_12
.Lluossavin_x86_64.BB44_2:
	movdqa	%xmm0, 192(%rsp)
	movdqa	%xmm0, 176(%rsp)
	movdqa	%xmm0, 160(%rsp)
	movdqa	%xmm0, 144(%rsp)
	movdqa	%xmm0, 128(%rsp)
	movdqa	%xmm0, 112(%rsp)
	movdqa	%xmm0, 96(%rsp)
	movdqa	%xmm0, 80(%rsp)
	movq	$0, 206(%rsp)
	movdqa	%xmm0, 32(%rsp)
	movdqa	%xmm0, 48(%rsp)
	movdqa	%xmm0, 64(%rsp)
	movdqa	%xmm0, 16(%rsp)
	movl	$0, 8(%rsp)
	movb	$0, 12(%rsp)
	xorl	%edi, %edi
	movl	$1, %ecx
	jmp	.Lluossavin_x86_64.BB44_12
.Lluossavin_x86_64.BB44_9:
	pxor	%xmm0, %xmm0
	movdqa	%xmm0, 192(%rsp)
	movdqa	%xmm0, 176(%rsp)
	movdqa	%xmm0, 160(%rsp)
	movdqa	%xmm0, 144(%rsp)
	movdqa	%xmm0, 128(%rsp)
	movdqa	%xmm0, 112(%rsp)
	movdqa	%xmm0, 96(%rsp)
	movdqa	%xmm0, 80(%rsp)
	movq	$0, 206(%rsp)
	movdqa	%xmm0, 32(%rsp)
	movdqa	%xmm0, 48(%rsp)
	movdqa	%xmm0, 64(%rsp)
	movdqa	%xmm0, 16(%rsp)
	movl	$0, 8(%rsp)
	movb	$0, 12(%rsp)
	xorl	%edi, %edi
	movl	$10, %ecx
	jmp	.Lluossavin_x86_64.BB44_12
.Lluossavin_x86_64.BB44_6:
	cmpq	$16777216, %rdx
	jbe	.Lluossavin_x86_64.BB44_7
	pxor	%xmm0, %xmm0
	movdqa	%xmm0, 192(%rsp)
	movdqa	%xmm0, 176(%rsp)
	movdqa	%xmm0, 160(%rsp)
	movdqa	%xmm0, 144(%rsp)
	movdqa	%xmm0, 128(%rsp)
	movdqa	%xmm0, 112(%rsp)
	movdqa	%xmm0, 96(%rsp)
	movdqa	%xmm0, 80(%rsp)
	movq	$0, 206(%rsp)
	movdqa	%xmm0, 32(%rsp)
	movdqa	%xmm0, 48(%rsp)
	movdqa	%xmm0, 64(%rsp)
	movdqa	%xmm0, 16(%rsp)
	movl	$0, 8(%rsp)
	movb	$0, 12(%rsp)
	xorl	%edi, %edi
	movl	$5, %ecx
.Lluossavin_x86_64.BB44_12:
	xorl	%edx, %edx
	xorl	%r14d, %r14d
	xorl	%r12d, %r12d
	xorl	%r13d, %r13d
	xorl	%ebp, %ebp
	xorl	%r15d, %r15d
.Lluossavin_x86_64.BB44_13:
	movl	%ecx, (%rax)
	movw	$0, 4(%rax)
	movw	%si, 6(%rax)
	movq	$0, 8(%rax)
	movups	86(%rsp), %xmm1
	movups	102(%rsp), %xmm2
	movups	118(%rsp), %xmm3
	movups	134(%rsp), %xmm4
	movups	%xmm1, 16(%rax)
	movups	%xmm2, 32(%rax)
	movups	%xmm3, 48(%rax)
	movups	%xmm4, 64(%rax)
	movups	150(%rsp), %xmm1
	movups	%xmm1, 80(%rax)
	movups	166(%rsp), %xmm1
	movups	%xmm1, 96(%rax)
	movups	182(%rsp), %xmm1
	movups	%xmm1, 112(%rax)
	movups	198(%rsp), %xmm1
	movups	%xmm1, 128(%rax)
	movl	%r15d, 144(%rax)
	movl	%ebp, 148(%rax)
	movl	%r13d, 152(%rax)
	movl	%r12d, 156(%rax)
	movdqu	%xmm0, 160(%rax)
	movaps	32(%rsp), %xmm0
	movaps	48(%rsp), %xmm1
	movaps	64(%rsp), %xmm2
	movups	%xmm2, 208(%rax)
	movups	%xmm1, 192(%rax)
	movups	%xmm0, 176(%rax)
	movaps	16(%rsp), %xmm0
	movups	%xmm0, 224(%rax)
	movq	%r14, 240(%rax)
	movq	$0, 248(%rax)
	movl	%edx, 256(%rax)
	movl	%ecx, 260(%rax)
	movw	%si, 264(%rax)
	movb	%dil, 266(%rax)
	movzbl	12(%rsp), %ecx
	movb	%cl, 271(%rax)
	movl	8(%rsp), %ecx
	movl	%ecx, 267(%rax)
	addq	$328, %rsp
	popq	%rbx
	popq	%r12
	popq	%r13
	popq	%r14
	popq	%r15
	popq	%rbp
	retq
.Lluossavin_x86_64.BB44_7:
	leaq	384(%rsp), %r12
	movb	%bpl, %r10b
	shll	$12, %r10d
	addq	%r10, %rcx
	movb	%r11b, %dil
	shll	$12, %edi
	addq	%rdi, %r9
	movq	%r15, 224(%rsp)
	leal	-1(%r15), %esi
	cmpb	$3, %sil
	movzbl	%sil, %esi
	movl	$1, %r14d
	cmovbl	%esi, %r14d
	movq	%r8, (%rsp)
	leaq	244(%rsp), %rdi
	movl	%r14d, %esi
	movq	%rdx, 216(%rsp)
	movq	%r12, %rdx
	movq	216(%rsp), %r8
	movq	%rax, 232(%rsp)
	callq	"pieces::tagging::begin.x86_64"
	movl	244(%rsp), %r15d
	movl	248(%rsp), %ebp
	movl	252(%rsp), %r13d
	movl	256(%rsp), %r12d
	incl	%r12d
	movl	%r15d, 32(%rsp)
	bswapl	%r15d
	movl	%ebp, 36(%rsp)
	bswapl	%ebp
	movl	%r13d, 40(%rsp)
	bswapl	%r13d
	movl	%r12d, 44(%rsp)
	bswapl	%r12d
	xorps	%xmm0, %xmm0
	movaps	%xmm0, 16(%rsp)
	leaq	16(%rsp), %rdi
	leaq	32(%rsp), %rcx
	movl	%r14d, %esi
	leaq	384(%rsp), %rdx
	callq	"cipher::encrypt.x86_64"
	movq	224(%rsp), %rdi
	movq	216(%rsp), %r14
	movq	232(%rsp), %rax
	movdqa	16(%rsp), %xmm0
	movdqa	%xmm0, %xmm1
	pxor	%xmm2, %xmm2
	punpckhbw	%xmm2, %xmm1
	pshuflw	$27, %xmm1, %xmm1
	pshufhw	$27, %xmm1, %xmm1
	punpcklbw	%xmm2, %xmm0
	pshuflw	$27, %xmm0, %xmm0
	pshufhw	$27, %xmm0, %xmm0
	packuswb	%xmm1, %xmm0
	movl	260(%rsp), %edx
	leaq	384(%rsp), %rcx
	movups	(%rcx), %xmm1
	movups	16(%rcx), %xmm2
	movups	32(%rcx), %xmm3
	movups	48(%rcx), %xmm4
	movups	%xmm1, 86(%rsp)
	movups	%xmm2, 102(%rsp)
	movups	%xmm3, 118(%rsp)
	movups	%xmm4, 134(%rsp)
	movups	64(%rcx), %xmm1
	movups	%xmm1, 150(%rsp)
	movups	80(%rcx), %xmm1
	movups	%xmm1, 166(%rsp)
	movups	96(%rcx), %xmm1
	movups	%xmm1, 182(%rsp)
	movups	112(%rcx), %xmm1
	movups	%xmm1, 198(%rsp)
	movups	264(%rsp), %xmm1
	movups	280(%rsp), %xmm2
	movups	296(%rsp), %xmm3
	movaps	%xmm3, 64(%rsp)
	movaps	%xmm2, 48(%rsp)
	movaps	%xmm1, 32(%rsp)
	movups	312(%rsp), %xmm1
	movaps	%xmm1, 16(%rsp)
	movl	$0, 8(%rsp)
	movb	$0, 12(%rsp)
	xorl	%ecx, %ecx
	movl	%ebx, %esi
	jmp	.Lluossavin_x86_64.BB44_13
.Lluossavin_x86_64.func_end44:
	.size	luossavin_seal_start_x86_64, .Lluossavin_x86_64.func_end44-luossavin_seal_start_x86_64

	.section	.text.luossavin_shelf_find_x86_64,"ax",@progbits
	.globl	luossavin_shelf_find_x86_64
	.hidden	luossavin_shelf_find_x86_64
	.p2align	4
	.type	luossavin_shelf_find_x86_64,@function
luossavin_shelf_find_x86_64:
	movq	%rdi, %rax
	xorl	%edi, %edi
	testq	%rsi, %rsi
	sete	%r9b
	cmpq	$65537, %rdx
	setae	%r10b
	cmpq	%rcx, %rdx
	setb	%dl
	orb	%r10b, %dl
	movl	$19, %edx
	jne	.Lluossavin_x86_64.BB45_3
	cmpq	$12, %rcx
	jae	.Lluossavin_x86_64.BB45_4
	xorl	%edx, %edx
	testq	%rcx, %rcx
	sete	%dl
	leal	(%rdx,%rdx,2), %edx
	addl	$19, %edx
.Lluossavin_x86_64.BB45_3:
	xorl	%r9d, %r9d
	xorl	%r10d, %r10d
	jmp	.Lluossavin_x86_64.BB45_32
.Lluossavin_x86_64.BB45_4:
	pushq	%rbp
	pushq	%r15
	pushq	%r14
	pushq	%r13
	pushq	%r12
	pushq	%rbx
	movb	%r9b, %dil
	shll	$12, %edi
	addq	%rdi, %rsi
	xorl	%edi, %edi
	movq	%rcx, %r9
	movq	%rsi, %r10
	jmp	.Lluossavin_x86_64.BB45_6
	.p2align	4
.Lluossavin_x86_64.BB45_5:
	leaq	12(%r11), %rbx
	subq	%rbx, %r9
	addq	%r11, %r10
	addq	$12, %r10
	addq	%rbx, %rdi
	cmpq	$11, %r9
	jbe	.Lluossavin_x86_64.BB45_19
.Lluossavin_x86_64.BB45_6:
	cmpb	$82, (%r10)
	jne	.Lluossavin_x86_64.BB45_19
	movzbl	1(%r10), %ebx
	cmpl	$88, %ebx
	je	.Lluossavin_x86_64.BB45_9
	cmpl	$68, %ebx
	jne	.Lluossavin_x86_64.BB45_19
.Lluossavin_x86_64.BB45_9:
	leaq	-12(%r9), %r14
	movl	8(%r10), %r11d
	bswapl	%r11d
	cmpq	%r11, %r14
	jb	.Lluossavin_x86_64.BB45_19
	cmpb	$68, %bl
	jne	.Lluossavin_x86_64.BB45_5
	movl	2(%r10), %ebx
	movq	%rdi, %r14
	movq	%rsi, %r12
	.p2align	4
.Lluossavin_x86_64.BB45_12:
	cmpq	$12, %r14
	jb	.Lluossavin_x86_64.BB45_5
	movq	%r12, %r15
	cmpb	$82, (%r12)
	jne	.Lluossavin_x86_64.BB45_5
	movzbl	1(%r15), %ebp
	cmpl	$88, %ebp
	je	.Lluossavin_x86_64.BB45_16
	cmpl	$68, %ebp
	jne	.Lluossavin_x86_64.BB45_5
.Lluossavin_x86_64.BB45_16:
	leaq	-12(%r14), %r13
	movl	8(%r15), %r12d
	bswapl	%r12d
	cmpq	%r12, %r13
	jb	.Lluossavin_x86_64.BB45_5
	leaq	12(%r12), %r13
	subq	%r13, %r14
	addq	%r15, %r12
	addq	$12, %r12
	cmpb	$68, %bpl
	jne	.Lluossavin_x86_64.BB45_12
	cmpl	%ebx, 2(%r15)
	jne	.Lluossavin_x86_64.BB45_12
.Lluossavin_x86_64.BB45_19:
	cmpq	%rcx, %rdi
	jne	.Lluossavin_x86_64.BB45_29
	xorl	%edi, %edi
	jmp	.Lluossavin_x86_64.BB45_22
	.p2align	4
.Lluossavin_x86_64.BB45_21:
	subq	%r10, %rcx
	addq	%r10, %rsi
	addq	%r10, %rdi
	xorl	%r9d, %r9d
	movl	$0, %r10d
	cmpq	$11, %rcx
	jbe	.Lluossavin_x86_64.BB45_31
.Lluossavin_x86_64.BB45_22:
	movl	$22, %edx
	cmpb	$82, (%rsi)
	jne	.Lluossavin_x86_64.BB45_29
	movzbl	1(%rsi), %r11d
	cmpl	$88, %r11d
	je	.Lluossavin_x86_64.BB45_25
	cmpl	$68, %r11d
	jne	.Lluossavin_x86_64.BB45_29
.Lluossavin_x86_64.BB45_25:
	leaq	-12(%rcx), %rbx
	movl	8(%rsi), %r10d
	bswapl	%r10d
	xorl	%r9d, %r9d
	cmpq	%r10, %rbx
	jb	.Lluossavin_x86_64.BB45_30
	addq	$12, %r10
	cmpb	$68, %r11b
	jne	.Lluossavin_x86_64.BB45_21
	movl	2(%rsi), %r9d
	bswapl	%r9d
	cmpl	%r8d, %r9d
	jne	.Lluossavin_x86_64.BB45_21
	movq	%rdi, %r9
	xorl	%edx, %edx
	jmp	.Lluossavin_x86_64.BB45_31
.Lluossavin_x86_64.BB45_29:
	xorl	%r9d, %r9d
.Lluossavin_x86_64.BB45_30:
	xorl	%r10d, %r10d
.Lluossavin_x86_64.BB45_31:
	popq	%rbx
	popq	%r12
	popq	%r13
	popq	%r14
	popq	%r15
	popq	%rbp
.Lluossavin_x86_64.BB45_32:
	movl	%edx, (%rax)
	movl	$0, 4(%rax)
	movq	%r9, 8(%rax)
	movq	%r10, 16(%rax)
	retq
.Lluossavin_x86_64.func_end45:
	.size	luossavin_shelf_find_x86_64, .Lluossavin_x86_64.func_end45-luossavin_shelf_find_x86_64

	.section	.text.luossavin_key_engine_x86_64,"ax",@progbits
	.globl	luossavin_key_engine_x86_64
	.hidden	luossavin_key_engine_x86_64
	.p2align	4
	.type	luossavin_key_engine_x86_64,@function
luossavin_key_engine_x86_64:
	movq	%rdi, %rax
	movl	136(%rsp), %ecx
	movzwl	140(%rsp), %edx
	movzbl	142(%rsp), %edi
	xorl	%r8d, %r8d
	cmpl	$4, %esi
	cmovbl	%esi, %r8d
	movaps	120(%rsp), %xmm0
	movups	%xmm0, 112(%rax)
	movaps	104(%rsp), %xmm0
	movups	%xmm0, 96(%rax)
	movaps	88(%rsp), %xmm0
	movups	%xmm0, 80(%rax)
	movaps	72(%rsp), %xmm0
	movups	%xmm0, 64(%rax)
	movaps	8(%rsp), %xmm0
	movaps	24(%rsp), %xmm1
	movaps	40(%rsp), %xmm2
	movaps	56(%rsp), %xmm3
	movups	%xmm3, 48(%rax)
	movups	%xmm2, 32(%rax)
	movups	%xmm1, 16(%rax)
	movups	%xmm0, (%rax)
	movl	%ecx, 128(%rax)
	movw	%dx, 132(%rax)
	movb	%dil, 134(%rax)
	movb	%r8b, 135(%rax)
	retq
.Lluossavin_x86_64.func_end46:
	.size	luossavin_key_engine_x86_64, .Lluossavin_x86_64.func_end46-luossavin_key_engine_x86_64

	.section	.text.luossavin_plan_make_x86_64,"ax",@progbits
	.globl	luossavin_plan_make_x86_64
	.hidden	luossavin_plan_make_x86_64
	.p2align	4
	.type	luossavin_plan_make_x86_64,@function
luossavin_plan_make_x86_64:
	pushq	%rbp
	pushq	%r15
	pushq	%r14
	pushq	%r12
	pushq	%rbx
	subq	$1040, %rsp
	movq	%rdi, %rbx
	leaq	-65(%rdx), %rax
	movl	$17, %ebp
	cmpq	$-64, %rax
	jb	.Lluossavin_x86_64.BB47_9
	movl	$5, %ebp
	cmpq	$16777216, %rsi
	jbe	.Lluossavin_x86_64.BB47_2
.Lluossavin_x86_64.BB47_9:
	leaq	8(%rsp), %rdi
	movl	$1032, %edx
	xorl	%esi, %esi
	callq	memset@PLT
	jmp	.Lluossavin_x86_64.BB47_10
.Lluossavin_x86_64.BB47_2:
	leaq	15(%rsi), %rax
	shrq	$4, %rax
	movq	%rdx, %rcx
	xorl	%edx, %edx
	divl	%ecx
	movl	%eax, %r14d
	xorl	%r15d, %r15d
	cmpl	$1, %edx
	sbbq	$-1, %r14
	shlq	$4, %r14
	leaq	16(%rsp), %rdi
	movl	$1024, %edx
	movq	%rsi, %r12
	xorl	%esi, %esi
	callq	memset@PLT
	movq	%r12, %rcx
	movl	$1, %eax
	.p2align	4
.Lluossavin_x86_64.BB47_3:
	movq	%r15, %rsi
	imulq	%r14, %rsi
	movq	%rcx, %rdx
	subq	%rsi, %rdx
	jbe	.Lluossavin_x86_64.BB47_7
	movq	%rsi, 8(%rsp,%rax,8)
	cmpq	%r14, %rdx
	cmovaeq	%r14, %rdx
	movq	%rdx, 520(%rsp,%rax,8)
	movq	%r15, %rdx
	orq	$1, %rdx
	imulq	%r14, %rdx
	movq	%rcx, %rsi
	subq	%rdx, %rsi
	jbe	.Lluossavin_x86_64.BB47_8
	movq	%rdx, 16(%rsp,%rax,8)
	cmpq	%r14, %rsi
	cmovaeq	%r14, %rsi
	movq	%rsi, 528(%rsp,%rax,8)
	addq	$2, %r15
	addq	$2, %rax
	cmpq	$65, %rax
	jne	.Lluossavin_x86_64.BB47_3
	movl	$64, %eax
	jmp	.Lluossavin_x86_64.BB47_8
.Lluossavin_x86_64.BB47_7:
	decq	%rax
.Lluossavin_x86_64.BB47_8:
	movq	%rax, 8(%rsp)
	xorl	%ebp, %ebp
.Lluossavin_x86_64.BB47_10:
	movl	%ebp, (%rbx)
	leaq	16(%rbx), %rdi
	movq	$0, 4(%rbx)
	movl	$0, 12(%rbx)
	leaq	8(%rsp), %rsi
	movl	$1032, %edx
	callq	memcpy@PLT
	movq	%rbx, %rax
	addq	$1040, %rsp
	popq	%rbx
	popq	%r12
	popq	%r14
	popq	%r15
	popq	%rbp
	retq
.Lluossavin_x86_64.func_end47:
	.size	luossavin_plan_make_x86_64, .Lluossavin_x86_64.func_end47-luossavin_plan_make_x86_64

	.section	.text.luossavin_decrypt_x86_64,"ax",@progbits
	.globl	luossavin_decrypt_x86_64
	.hidden	luossavin_decrypt_x86_64
	.p2align	4
	.type	luossavin_decrypt_x86_64,@function
luossavin_decrypt_x86_64:
	pushq	%rbp
	pushq	%r15
	pushq	%r14
	pushq	%rbx
	subq	$232, %rsp
	movq	%rdx, %rax
	movl	400(%rsp), %r15d
	movzwl	404(%rsp), %r10d
	movzbl	406(%rsp), %ebp
	movzbl	407(%rsp), %edx
	xorps	%xmm0, %xmm0
	movaps	%xmm0, 48(%rsp)
	movaps	%xmm0, 64(%rsp)
	movl	$0, 216(%rsp)
	cmpl	$4, %edi
	ja	.Lluossavin_x86_64.BB48_1
	movq	424(%rsp), %r11
	movq	416(%rsp), %r14
	xorl	%ebx, %ebx
	testq	%r14, %r14
	sete	%bl
	shll	$12, %ebx
	addq	%r14, %rbx
	xorl	%r14d, %r14d
	testq	%r9, %r9
	sete	%r14b
	shll	$12, %r14d
	addq	%r9, %r14
	xorl	%r9d, %r9d
	testq	%rcx, %rcx
	sete	%r9b
	shll	$12, %r9d
	addq	%rcx, %r9
	xorl	%ecx, %ecx
	testq	%rsi, %rsi
	sete	%cl
	shll	$12, %ecx
	addq	%rsi, %rcx
	cmpl	$13, %r15d
	sete	%sil
	incb	%sil
	testl	%r15d, %r15d
	movzbl	%sil, %esi
	cmovel	%r15d, %esi
	leaq	272(%rsp), %r15
	testb	%bpl, %bpl
	movups	112(%r15), %xmm0
	movaps	%xmm0, 192(%rsp)
	movups	96(%r15), %xmm0
	movaps	%xmm0, 176(%rsp)
	movups	80(%r15), %xmm0
	movaps	%xmm0, 160(%rsp)
	movups	64(%r15), %xmm0
	movaps	%xmm0, 144(%rsp)
	movups	(%r15), %xmm0
	movups	16(%r15), %xmm1
	movups	32(%r15), %xmm2
	movups	48(%r15), %xmm3
	movaps	%xmm3, 128(%rsp)
	movaps	%xmm2, 112(%rsp)
	movaps	%xmm1, 96(%rsp)
	movaps	%xmm0, 80(%rsp)
	movb	%sil, 208(%rsp)
	movb	$0, 209(%rsp)
	movw	%r10w, 210(%rsp)
	setne	212(%rsp)
	movq	408(%rsp), %rsi
	movb	%dl, 213(%rsp)
	movw	$0, 214(%rsp)
	movb	%dil, 216(%rsp)
	movq	%r11, 32(%rsp)
	movq	%rbx, 24(%rsp)
	movq	%rsi, 16(%rsp)
	movq	%r14, 8(%rsp)
	movq	%r8, (%rsp)
	leaq	48(%rsp), %rdi
	leaq	80(%rsp), %rsi
	movl	$1, %edx
	movq	%rax, %r8
	callq	"cipher_mode::Sm4CipherMode::call.x86_64"
	movzwl	72(%rsp), %eax
	cmpb	$0, 48(%rsp)
	je	.Lluossavin_x86_64.BB48_3
	movzbl	49(%rsp), %esi
	xorl	%edx, %edx
	cmpl	$7, %esi
	leaq	.Lluossavin_x86_64.switch.table.luossavin_edition_opens_x86_64(%rip), %rdi
	movzbl	50(%rsp), %ecx
	cmovnel	%edx, %ecx
	movzbl	%cl, %ecx
	shlq	$32, %rcx
	orq	(%rdi,%rsi,8), %rcx
	jmp	.Lluossavin_x86_64.BB48_5
.Lluossavin_x86_64.BB48_1:
	movl	$7, %ecx
	xorl	%eax, %eax
	xorl	%edx, %edx
	jmp	.Lluossavin_x86_64.BB48_5
.Lluossavin_x86_64.BB48_3:
	movzbl	64(%rsp), %ecx
	movq	56(%rsp), %rdx
	andl	$1, %ecx
	shlq	$40, %rcx
.Lluossavin_x86_64.BB48_5:
	movzwl	%ax, %eax
	shlq	$48, %rax
	orq	%rcx, %rax
	addq	$232, %rsp
	popq	%rbx
	popq	%r14
	popq	%r15
	popq	%rbp
	retq
.Lluossavin_x86_64.func_end48:
	.size	luossavin_decrypt_x86_64, .Lluossavin_x86_64.func_end48-luossavin_decrypt_x86_64

	.section	.text.luossavin_edition_open_x86_64,"ax",@progbits
	.globl	luossavin_edition_open_x86_64
	.hidden	luossavin_edition_open_x86_64
	.p2align	4
	.type	luossavin_edition_open_x86_64,@function
luossavin_edition_open_x86_64:
	pushq	%rbp
	pushq	%r15
	pushq	%r14
	pushq	%r12
	pushq	%rbx
	subq	$224, %rsp
	movq	%r9, %r10
	movl	%esi, %ebx
	movl	%edi, %eax
	movq	416(%rsp), %rsi
	movq	408(%rsp), %r11
	xorl	%r9d, %r9d
	testq	%rdx, %rdx
	sete	%r9b
	shll	$12, %r9d
	addq	%rdx, %r9
	xorl	%edx, %edx
	testq	%r8, %r8
	sete	%dl
	shll	$12, %edx
	addq	%r8, %rdx
	xorl	%edi, %edi
	testq	%r11, %r11
	sete	%dil
	shll	$12, %edi
	addq	%r11, %rdi
	movaps	384(%rsp), %xmm0
	movaps	%xmm0, 192(%rsp)
	movaps	368(%rsp), %xmm0
	movaps	%xmm0, 176(%rsp)
	movaps	352(%rsp), %xmm0
	movaps	%xmm0, 160(%rsp)
	movaps	336(%rsp), %xmm0
	movaps	%xmm0, 144(%rsp)
	movaps	272(%rsp), %xmm0
	movaps	288(%rsp), %xmm1
	movaps	304(%rsp), %xmm2
	movaps	320(%rsp), %xmm3
	movaps	%xmm3, 128(%rsp)
	movaps	%xmm2, 112(%rsp)
	movaps	%xmm1, 96(%rsp)
	movaps	%xmm0, 80(%rsp)
	movl	400(%rsp), %ebp
	movzwl	404(%rsp), %r11d
	movzbl	407(%rsp), %r8d
	movl	%eax, %r14d
	shrl	$24, %r14d
	movl	%eax, %r15d
	shrl	$16, %r15d
	cmpl	$13, %ebp
	sete	%r12b
	incb	%r12b
	testl	%ebp, %ebp
	movzbl	%r12b, %r12d
	cmovel	%ebp, %r12d
	cmpb	$0, 406(%rsp)
	movb	%r14b, 42(%rsp)
	movb	%r15b, 43(%rsp)
	movb	%ah, 44(%rsp)
	movb	%al, 45(%rsp)
	movb	%bh, 46(%rsp)
	movb	%bl, 47(%rsp)
	xorps	%xmm0, %xmm0
	movl	$4, 216(%rsp)
	movb	%r12b, 208(%rsp)
	movb	$0, 209(%rsp)
	movw	%r11w, 210(%rsp)
	setne	212(%rsp)
	movaps	%xmm0, 64(%rsp)
	movaps	%xmm0, 48(%rsp)
	movb	%r8b, 213(%rsp)
	movw	$0, 214(%rsp)
	movq	%rsi, 32(%rsp)
	movq	%rdi, 24(%rsp)
	movq	%r10, 16(%rsp)
	movq	%rdx, 8(%rsp)
	movq	%rcx, (%rsp)
	leaq	48(%rsp), %rdi
	leaq	80(%rsp), %rsi
	leaq	42(%rsp), %rcx
	movl	$6, %r8d
	movl	$1, %edx
	callq	"cipher_mode::Sm4CipherMode::call.x86_64"
	movzwl	72(%rsp), %eax
	cmpb	$0, 48(%rsp)
	je	.Lluossavin_x86_64.BB49_1
	movzbl	49(%rsp), %edx
	xorl	%ecx, %ecx
	cmpl	$7, %edx
	leaq	.Lluossavin_x86_64.switch.table.luossavin_edition_opens_x86_64(%rip), %rsi
	movzbl	50(%rsp), %edi
	cmovnel	%ecx, %edi
	movq	(%rsi,%rdx,8), %rsi
	movzbl	%dil, %edi
	shlq	$32, %rdi
	xorl	%edx, %edx
	jmp	.Lluossavin_x86_64.BB49_3
.Lluossavin_x86_64.BB49_1:
	movzbl	64(%rsp), %ecx
	movq	56(%rsp), %rdx
	andl	$1, %ecx
	shlq	$40, %rcx
	xorl	%esi, %esi
	xorl	%edi, %edi
.Lluossavin_x86_64.BB49_3:
	orq	%rcx, %rdi
	shlq	$48, %rax
	orq	%rsi, %rax
	orq	%rdi, %rax
	addq	$224, %rsp
	popq	%rbx
	popq	%r12
	popq	%r14
	popq	%r15
	popq	%rbp
	retq
.Lluossavin_x86_64.func_end49:
	.size	luossavin_edition_open_x86_64, .Lluossavin_x86_64.func_end49-luossavin_edition_open_x86_64

	.section	.text.luossavin_edition_seal_x86_64,"ax",@progbits
	.globl	luossavin_edition_seal_x86_64
	.hidden	luossavin_edition_seal_x86_64
	.p2align	4
	.type	luossavin_edition_seal_x86_64,@function
luossavin_edition_seal_x86_64:
	pushq	%rbp
	pushq	%r15
	pushq	%r14
	pushq	%r12
	pushq	%rbx
	subq	$224, %rsp
	movq	%r9, %r10
	movl	%esi, %ebx
	movl	%edi, %eax
	movq	416(%rsp), %rsi
	movq	408(%rsp), %r11
	xorl	%r9d, %r9d
	testq	%rdx, %rdx
	sete	%r9b
	shll	$12, %r9d
	addq	%rdx, %r9
	xorl	%edx, %edx
	testq	%r8, %r8
	sete	%dl
	shll	$12, %edx
	addq	%r8, %rdx
	xorl	%edi, %edi
	testq	%r11, %r11
	sete	%dil
	shll	$12, %edi
	addq	%r11, %rdi
	movaps	384(%rsp), %xmm0
	movaps	%xmm0, 192(%rsp)
	movaps	368(%rsp), %xmm0
	movaps	%xmm0, 176(%rsp)
	movaps	352(%rsp), %xmm0
	movaps	%xmm0, 160(%rsp)
	movaps	336(%rsp), %xmm0
	movaps	%xmm0, 144(%rsp)
	movaps	272(%rsp), %xmm0
	movaps	288(%rsp), %xmm1
	movaps	304(%rsp), %xmm2
	movaps	320(%rsp), %xmm3
	movaps	%xmm3, 128(%rsp)
	movaps	%xmm2, 112(%rsp)
	movaps	%xmm1, 96(%rsp)
	movaps	%xmm0, 80(%rsp)
	movl	400(%rsp), %ebp
	movzwl	404(%rsp), %r11d
	movzbl	407(%rsp), %r8d
	movl	%eax, %r14d
	shrl	$24, %r14d
	movl	%eax, %r15d
	shrl	$16, %r15d
	cmpl	$13, %ebp
	sete	%r12b
	incb	%r12b
	testl	%ebp, %ebp
	movzbl	%r12b, %r12d
	cmovel	%ebp, %r12d
	cmpb	$0, 406(%rsp)
	movb	%r14b, 42(%rsp)
	movb	%r15b, 43(%rsp)
	movb	%ah, 44(%rsp)
	movb	%al, 45(%rsp)
	movb	%bh, 46(%rsp)
	movb	%bl, 47(%rsp)
	xorps	%xmm0, %xmm0
	movl	$4, 216(%rsp)
	movb	%r12b, 208(%rsp)
	movb	$0, 209(%rsp)
	movw	%r11w, 210(%rsp)
	setne	212(%rsp)
	movaps	%xmm0, 64(%rsp)
	movaps	%xmm0, 48(%rsp)
	movb	%r8b, 213(%rsp)
	movw	$0, 214(%rsp)
	movq	%rsi, 32(%rsp)
	movq	%rdi, 24(%rsp)
	movq	%r10, 16(%rsp)
	movq	%rdx, 8(%rsp)
	movq	%rcx, (%rsp)
	leaq	48(%rsp), %rdi
	leaq	80(%rsp), %rsi
	xorl	%ebx, %ebx
	leaq	42(%rsp), %rcx
	movl	$6, %r8d
	xorl	%edx, %edx
	callq	"cipher_mode::Sm4CipherMode::call.x86_64"
	movzwl	72(%rsp), %eax
	cmpb	$0, 48(%rsp)
	je	.Lluossavin_x86_64.BB50_1
	movzbl	49(%rsp), %ecx
	cmpl	$7, %ecx
	leaq	.Lluossavin_x86_64.switch.table.luossavin_edition_opens_x86_64(%rip), %rdx
	movzbl	50(%rsp), %esi
	cmovnel	%ebx, %esi
	movq	(%rdx,%rcx,8), %rcx
	movzbl	%sil, %esi
	shlq	$32, %rsi
	xorl	%edx, %edx
	jmp	.Lluossavin_x86_64.BB50_3
.Lluossavin_x86_64.BB50_1:
	movzbl	64(%rsp), %ebx
	movq	56(%rsp), %rdx
	andl	$1, %ebx
	shlq	$40, %rbx
	xorl	%ecx, %ecx
	xorl	%esi, %esi
.Lluossavin_x86_64.BB50_3:
	orq	%rbx, %rsi
	shlq	$48, %rax
	orq	%rcx, %rax
	orq	%rsi, %rax
	addq	$224, %rsp
	popq	%rbx
	popq	%r12
	popq	%r14
	popq	%r15
	popq	%rbp
	retq
.Lluossavin_x86_64.func_end50:
	.size	luossavin_edition_seal_x86_64, .Lluossavin_x86_64.func_end50-luossavin_edition_seal_x86_64

	.section	.text.luossavin_encrypt_x86_64,"ax",@progbits
	.globl	luossavin_encrypt_x86_64
	.hidden	luossavin_encrypt_x86_64
	.p2align	4
	.type	luossavin_encrypt_x86_64,@function
luossavin_encrypt_x86_64:
	pushq	%rbp
	pushq	%r15
	pushq	%r14
	pushq	%rbx
	subq	$232, %rsp
	movq	%rdx, %rax
	movl	400(%rsp), %r15d
	movzwl	404(%rsp), %r10d
	movzbl	406(%rsp), %ebp
	movzbl	407(%rsp), %edx
	xorps	%xmm0, %xmm0
	movaps	%xmm0, 48(%rsp)
	movaps	%xmm0, 64(%rsp)
	movl	$0, 216(%rsp)
	cmpl	$4, %edi
	ja	.Lluossavin_x86_64.BB51_1
	movq	424(%rsp), %r11
	movq	416(%rsp), %r14
	xorl	%ebx, %ebx
	testq	%r14, %r14
	sete	%bl
	shll	$12, %ebx
	addq	%r14, %rbx
	xorl	%r14d, %r14d
	testq	%r9, %r9
	sete	%r14b
	shll	$12, %r14d
	addq	%r9, %r14
	xorl	%r9d, %r9d
	testq	%rcx, %rcx
	sete	%r9b
	shll	$12, %r9d
	addq	%rcx, %r9
	xorl	%ecx, %ecx
	testq	%rsi, %rsi
	sete	%cl
	shll	$12, %ecx
	addq	%rsi, %rcx
	cmpl	$13, %r15d
	sete	%sil
	incb	%sil
	testl	%r15d, %r15d
	movzbl	%sil, %esi
	cmovel	%r15d, %esi
	leaq	272(%rsp), %r15
	testb	%bpl, %bpl
	movups	112(%r15), %xmm0
	movaps	%xmm0, 192(%rsp)
	movups	96(%r15), %xmm0
	movaps	%xmm0, 176(%rsp)
	movups	80(%r15), %xmm0
	movaps	%xmm0, 160(%rsp)
	movups	64(%r15), %xmm0
	movaps	%xmm0, 144(%rsp)
	movups	(%r15), %xmm0
	movups	16(%r15), %xmm1
	movups	32(%r15), %xmm2
	movups	48(%r15), %xmm3
	movaps	%xmm3, 128(%rsp)
	movaps	%xmm2, 112(%rsp)
	movaps	%xmm1, 96(%rsp)
	movaps	%xmm0, 80(%rsp)
	movb	%sil, 208(%rsp)
	movb	$0, 209(%rsp)
	movw	%r10w, 210(%rsp)
	setne	212(%rsp)
	movq	408(%rsp), %rsi
	movb	%dl, 213(%rsp)
	movw	$0, 214(%rsp)
	movb	%dil, 216(%rsp)
	movq	%r11, 32(%rsp)
	movq	%rbx, 24(%rsp)
	movq	%rsi, 16(%rsp)
	movq	%r14, 8(%rsp)
	movq	%r8, (%rsp)
	leaq	48(%rsp), %rdi
	leaq	80(%rsp), %rsi
	xorl	%ebx, %ebx
	xorl	%edx, %edx
	movq	%rax, %r8
	callq	"cipher_mode::Sm4CipherMode::call.x86_64"
	movzwl	72(%rsp), %eax
	cmpb	$0, 48(%rsp)
	je	.Lluossavin_x86_64.BB51_3
	movzbl	49(%rsp), %edx
	cmpl	$7, %edx
	leaq	.Lluossavin_x86_64.switch.table.luossavin_edition_opens_x86_64(%rip), %rsi
	movzbl	50(%rsp), %ecx
	cmovnel	%ebx, %ecx
	movzbl	%cl, %ecx
	shlq	$32, %rcx
	orq	(%rsi,%rdx,8), %rcx
	jmp	.Lluossavin_x86_64.BB51_5
.Lluossavin_x86_64.BB51_1:
	movl	$7, %ecx
	xorl	%eax, %eax
	xorl	%ebx, %ebx
	jmp	.Lluossavin_x86_64.BB51_5
.Lluossavin_x86_64.BB51_3:
	movzbl	64(%rsp), %ecx
	movq	56(%rsp), %rbx
	andl	$1, %ecx
	shlq	$40, %rcx
.Lluossavin_x86_64.BB51_5:
	movzwl	%ax, %eax
	shlq	$48, %rax
	orq	%rcx, %rax
	movq	%rbx, %rdx
	addq	$232, %rsp
	popq	%rbx
	popq	%r14
	popq	%r15
	popq	%rbp
	retq
.Lluossavin_x86_64.func_end51:
	.size	luossavin_encrypt_x86_64, .Lluossavin_x86_64.func_end51-luossavin_encrypt_x86_64

	.section	.text.luossavin_edition_opens_x86_64,"ax",@progbits
	.globl	luossavin_edition_opens_x86_64
	.hidden	luossavin_edition_opens_x86_64
	.p2align	4
	.type	luossavin_edition_opens_x86_64,@function
luossavin_edition_opens_x86_64:
	pushq	%rbp
	pushq	%rbx
	subq	$232, %rsp
	movl	%esi, %eax
	movl	%edi, %ebx
	xorl	%esi, %esi
	testq	%rdx, %rdx
	sete	%sil
	shll	$12, %esi
	addq	%rsi, %rdx
	xorl	%esi, %esi
	testq	%r8, %r8
	sete	%sil
	shll	$12, %esi
	addq	%rsi, %r8
	movl	384(%rsp), %r10d
	movzwl	388(%rsp), %edi
	movzbl	391(%rsp), %esi
	xorps	%xmm0, %xmm0
	movaps	%xmm0, 48(%rsp)
	movaps	%xmm0, 64(%rsp)
	movaps	%xmm0, 80(%rsp)
	movl	%ebx, %r11d
	shrl	$24, %r11d
	movl	%ebx, %ebp
	shrl	$16, %ebp
	movb	%r11b, 34(%rsp)
	movb	%bpl, 35(%rsp)
	movb	%bh, 36(%rsp)
	movb	%bl, 37(%rsp)
	movb	%ah, 38(%rsp)
	cmpl	$13, %r10d
	sete	%r11b
	incb	%r11b
	testl	%r10d, %r10d
	movzbl	%r11b, %r11d
	cmovel	%r10d, %r11d
	cmpb	$0, 390(%rsp)
	movaps	256(%rsp), %xmm0
	movaps	272(%rsp), %xmm1
	movaps	288(%rsp), %xmm2
	movaps	304(%rsp), %xmm3
	movaps	%xmm0, 96(%rsp)
	movaps	%xmm1, 112(%rsp)
	movaps	%xmm2, 128(%rsp)
	movaps	%xmm3, 144(%rsp)
	movaps	320(%rsp), %xmm0
	movaps	%xmm0, 160(%rsp)
	movaps	336(%rsp), %xmm0
	movaps	%xmm0, 176(%rsp)
	movaps	352(%rsp), %xmm0
	movaps	%xmm0, 192(%rsp)
	movaps	368(%rsp), %xmm0
	movaps	%xmm0, 208(%rsp)
	movb	%r11b, 224(%rsp)
	movb	$0, 225(%rsp)
	movw	%di, 226(%rsp)
	setne	228(%rsp)
	movb	%al, 39(%rsp)
	movq	$6, 40(%rsp)
	movb	%sil, 229(%rsp)
	movw	$0, 230(%rsp)
	leaq	40(%rsp), %rax
	movq	%rax, 16(%rsp)
	leaq	34(%rsp), %rax
	movq	%rax, (%rsp)
	movq	$1, 24(%rsp)
	movq	$6, 8(%rsp)
	leaq	48(%rsp), %rdi
	leaq	96(%rsp), %rsi
	callq	"editions::which.x86_64"
	movzwl	88(%rsp), %eax
	cmpb	$0, 48(%rsp)
	je	.Lluossavin_x86_64.BB52_1
	xorl	%edx, %edx
	cmpb	$0, 49(%rsp)
	je	.Lluossavin_x86_64.BB52_3
	movzbl	50(%rsp), %esi
	leaq	.Lluossavin_x86_64.switch.table.luossavin_edition_opens_x86_64(%rip), %rcx
	movq	(%rcx,%rsi,8), %rcx
	cmpq	$7, %rsi
	movzbl	51(%rsp), %esi
	cmovel	%esi, %edx
	movzbl	%dl, %edx
	shlq	$32, %rdx
	jmp	.Lluossavin_x86_64.BB52_5
.Lluossavin_x86_64.BB52_1:
	xorl	%ecx, %ecx
	cmpb	$1, 56(%rsp)
	setne	%cl
	shll	$2, %ecx
	xorl	%edx, %edx
	jmp	.Lluossavin_x86_64.BB52_5
.Lluossavin_x86_64.BB52_3:
	movl	$16, %ecx
.Lluossavin_x86_64.BB52_5:
	orq	%rdx, %rcx
	shlq	$48, %rax
	orq	%rcx, %rax
	xorl	%edx, %edx
	addq	$232, %rsp
	popq	%rbx
	popq	%rbp
	retq
.Lluossavin_x86_64.func_end52:
	.size	luossavin_edition_opens_x86_64, .Lluossavin_x86_64.func_end52-luossavin_edition_opens_x86_64

	.section	.text.luossavin_which_x86_64,"ax",@progbits
	.globl	luossavin_which_x86_64
	.hidden	luossavin_which_x86_64
	.p2align	4
	.type	luossavin_which_x86_64,@function
luossavin_which_x86_64:
	pushq	%rbp
	pushq	%r15
	pushq	%r14
	pushq	%rbx
	subq	$216, %rsp
	movq	%r8, %rax
	movq	%rcx, %r10
	movq	%rdx, %rcx
	movq	%rdi, %rbx
	movq	392(%rsp), %rdi
	movq	408(%rsp), %r11
	movq	400(%rsp), %r14
	xorl	%edx, %edx
	testq	%rsi, %rsi
	sete	%dl
	shll	$12, %edx
	addq	%rsi, %rdx
	xorl	%r8d, %r8d
	testq	%r10, %r10
	sete	%r8b
	shll	$12, %r8d
	addq	%r10, %r8
	xorl	%esi, %esi
	testq	%r9, %r9
	sete	%sil
	shll	$12, %esi
	addq	%r9, %rsi
	xorl	%r9d, %r9d
	testq	%r14, %r14
	sete	%r9b
	shll	$12, %r9d
	addq	%r14, %r9
	movl	384(%rsp), %r14d
	movzwl	388(%rsp), %ebp
	movzbl	391(%rsp), %r10d
	xorps	%xmm4, %xmm4
	movaps	%xmm4, 32(%rsp)
	cmpl	$13, %r14d
	sete	%r15b
	incb	%r15b
	testl	%r14d, %r14d
	movzbl	%r15b, %r15d
	cmovel	%r14d, %r15d
	cmpb	$0, 390(%rsp)
	movaps	256(%rsp), %xmm0
	movaps	272(%rsp), %xmm1
	movaps	288(%rsp), %xmm2
	movaps	304(%rsp), %xmm3
	movaps	%xmm0, 80(%rsp)
	movaps	%xmm1, 96(%rsp)
	movaps	%xmm2, 112(%rsp)
	movaps	%xmm3, 128(%rsp)
	movaps	320(%rsp), %xmm0
	movaps	%xmm0, 144(%rsp)
	movaps	336(%rsp), %xmm0
	movaps	%xmm0, 160(%rsp)
	movaps	352(%rsp), %xmm0
	movaps	%xmm0, 176(%rsp)
	movaps	368(%rsp), %xmm0
	movaps	%xmm0, 192(%rsp)
	movb	%r15b, 208(%rsp)
	movb	$0, 209(%rsp)
	movw	%bp, 210(%rsp)
	setne	212(%rsp)
	movaps	%xmm4, 48(%rsp)
	movaps	%xmm4, 64(%rsp)
	movb	%r10b, 213(%rsp)
	movw	$0, 214(%rsp)
	movq	%r11, 24(%rsp)
	movq	%r9, 16(%rsp)
	movq	%rdi, 8(%rsp)
	movq	%rsi, (%rsp)
	leaq	32(%rsp), %rdi
	leaq	80(%rsp), %rsi
	movq	%rax, %r9
	callq	"editions::which.x86_64"
	movzwl	72(%rsp), %eax
	cmpb	$0, 32(%rsp)
	je	.Lluossavin_x86_64.BB53_5
	cmpb	$0, 33(%rsp)
	je	.Lluossavin_x86_64.BB53_2
	movzbl	34(%rsp), %ecx
	leaq	.Lluossavin_x86_64.switch.table.luossavin_which_x86_64(%rip), %rdx
	movl	(%rdx,%rcx,4), %esi
	xorl	%edx, %edx
	cmpq	$7, %rcx
	movzbl	35(%rsp), %ecx
	cmovnel	%edx, %ecx
	jmp	.Lluossavin_x86_64.BB53_3
.Lluossavin_x86_64.BB53_5:
	xorl	%ecx, %ecx
	cmpb	$1, 40(%rsp)
	movl	$0, %esi
	movl	$0, %edx
	movl	$0, %edi
	xorps	%xmm0, %xmm0
	jne	.Lluossavin_x86_64.BB53_7
	movl	48(%rsp), %edi
	movups	56(%rsp), %xmm0
	movl	$1, %edx
	xorl	%ecx, %ecx
	xorl	%esi, %esi
	jmp	.Lluossavin_x86_64.BB53_7
.Lluossavin_x86_64.BB53_2:
	xorl	%ecx, %ecx
	movl	$16, %esi
	xorl	%edx, %edx
.Lluossavin_x86_64.BB53_3:
	xorl	%edi, %edi
	xorps	%xmm0, %xmm0
.Lluossavin_x86_64.BB53_7:
	movl	%esi, (%rbx)
	movb	%cl, 4(%rbx)
	movb	$0, 5(%rbx)
	movw	%ax, 6(%rbx)
	movq	$0, 8(%rbx)
	movl	%edx, 16(%rbx)
	movl	%edi, 20(%rbx)
	movups	%xmm0, 24(%rbx)
	movq	%rbx, %rax
	addq	$216, %rsp
	popq	%rbx
	popq	%r14
	popq	%r15
	popq	%rbp
	retq
.Lluossavin_x86_64.func_end53:
	.size	luossavin_which_x86_64, .Lluossavin_x86_64.func_end53-luossavin_which_x86_64

	.section	.text.luossavin_shelf_collect_x86_64,"ax",@progbits
	.globl	luossavin_shelf_collect_x86_64
	.hidden	luossavin_shelf_collect_x86_64
	.p2align	4
	.type	luossavin_shelf_collect_x86_64,@function
luossavin_shelf_collect_x86_64:
	pushq	%rbp
	pushq	%r15
	pushq	%r14
	pushq	%r13
	pushq	%r12
	pushq	%rbx
	xorl	%ecx, %ecx
	testq	%rdi, %rdi
	sete	%al
	cmpq	$65537, %rsi
	setae	%r8b
	cmpq	%rdx, %rsi
	setb	%sil
	orb	%r8b, %sil
	jne	.Lluossavin_x86_64.BB54_64
	cmpq	$12, %rdx
	jae	.Lluossavin_x86_64.BB54_2
	testq	%rdx, %rdx
	jne	.Lluossavin_x86_64.BB54_64
	xorl	%eax, %eax
	xorl	%edx, %edx
	jmp	.Lluossavin_x86_64.BB54_65
.Lluossavin_x86_64.BB54_2:
	movb	%al, %cl
	shll	$12, %ecx
	leaq	(%rdi,%rcx), %rax
	xorl	%esi, %esi
	movq	%rdx, %r8
	movq	%rax, %r9
	jmp	.Lluossavin_x86_64.BB54_3
	.p2align	4
.Lluossavin_x86_64.BB54_16:
	leaq	12(%r10), %r11
	subq	%r11, %r8
	addq	%r10, %r9
	addq	$12, %r9
	addq	%r11, %rsi
	cmpq	$11, %r8
	jbe	.Lluossavin_x86_64.BB54_17
.Lluossavin_x86_64.BB54_3:
	cmpb	$82, (%r9)
	jne	.Lluossavin_x86_64.BB54_17
	movzbl	1(%r9), %r11d
	cmpl	$88, %r11d
	je	.Lluossavin_x86_64.BB54_6
	cmpl	$68, %r11d
	jne	.Lluossavin_x86_64.BB54_17
.Lluossavin_x86_64.BB54_6:
	leaq	-12(%r8), %rbx
	movl	8(%r9), %r10d
	bswapl	%r10d
	cmpq	%r10, %rbx
	jb	.Lluossavin_x86_64.BB54_17
	cmpb	$68, %r11b
	jne	.Lluossavin_x86_64.BB54_16
	movl	2(%r9), %r11d
	movq	%rsi, %rbx
	movq	%rax, %r15
	.p2align	4
.Lluossavin_x86_64.BB54_9:
	cmpq	$12, %rbx
	jb	.Lluossavin_x86_64.BB54_16
	movq	%r15, %r14
	cmpb	$82, (%r15)
	jne	.Lluossavin_x86_64.BB54_16
	movzbl	1(%r14), %ebp
	cmpl	$88, %ebp
	je	.Lluossavin_x86_64.BB54_13
	cmpl	$68, %ebp
	jne	.Lluossavin_x86_64.BB54_16
.Lluossavin_x86_64.BB54_13:
	leaq	-12(%rbx), %r12
	movl	8(%r14), %r15d
	bswapl	%r15d
	cmpq	%r15, %r12
	jb	.Lluossavin_x86_64.BB54_16
	leaq	12(%r15), %r12
	subq	%r12, %rbx
	addq	%r14, %r15
	addq	$12, %r15
	cmpb	$68, %bpl
	jne	.Lluossavin_x86_64.BB54_9
	cmpl	%r11d, 2(%r14)
	jne	.Lluossavin_x86_64.BB54_9
.Lluossavin_x86_64.BB54_17:
	cmpq	%rdx, %rsi
	jne	.Lluossavin_x86_64.BB54_64
	movabsq	$8589934560, %r11
	leaq	(%rcx,%rdi), %r9
	addq	$16, %r9
	leaq	3(%rcx,%rdi), %rsi
	movq	%rsi, -8(%rsp)
	leaq	-4(%rcx,%rdi), %rsi
	movq	%rsi, -24(%rsp)
	leaq	4(%rcx,%rdi), %rsi
	movq	%rsi, -16(%rsp)
	addq	%rdi, %rcx
	decq	%rcx
	movq	%rcx, -32(%rsp)
	xorl	%ecx, %ecx
	movq	%rdx, %rsi
	xorl	%ebx, %ebx
	jmp	.Lluossavin_x86_64.BB54_19
.Lluossavin_x86_64.BB54_64:
	movl	$19, %eax
.Lluossavin_x86_64.BB54_65:
	popq	%rbx
	popq	%r12
	popq	%r13
	popq	%r14
	popq	%r15
	popq	%rbp
	retq
	.p2align	4
.Lluossavin_x86_64.BB54_62:
	addq	%rsi, %rcx
.Lluossavin_x86_64.BB54_63:
	addq	%r8, %rbx
	addq	$12, %rbx
	movq	%rdx, %rsi
	subq	%rbx, %rsi
	cmpq	$12, %rsi
	jb	.Lluossavin_x86_64.BB54_20
.Lluossavin_x86_64.BB54_19:
	cmpb	$82, (%rax,%rbx)
	jne	.Lluossavin_x86_64.BB54_20
	leaq	(%rax,%rbx), %r12
	movzbl	1(%r12), %ebp
	cmpl	$88, %ebp
	je	.Lluossavin_x86_64.BB54_25
	cmpl	$68, %ebp
	jne	.Lluossavin_x86_64.BB54_20
.Lluossavin_x86_64.BB54_25:
	addq	$-12, %rsi
	movl	8(%r12), %r8d
	bswapl	%r8d
	cmpq	%r8, %rsi
	jb	.Lluossavin_x86_64.BB54_20
	cmpb	$68, %bpl
	jne	.Lluossavin_x86_64.BB54_63
	leaq	12(%r8), %rsi
	movq	%rcx, %r10
	subq	%rbx, %r10
	jbe	.Lluossavin_x86_64.BB54_28
	movq	%rbx, %r10
	subq	%rcx, %r10
	movq	%rsi, %r13
	cmpq	$32, %r10
	jb	.Lluossavin_x86_64.BB54_56
	cmpl	$20, %r8d
	jae	.Lluossavin_x86_64.BB54_51
	xorl	%r12d, %r12d
	jmp	.Lluossavin_x86_64.BB54_48
	.p2align	4
.Lluossavin_x86_64.BB54_28:
	leaq	(%rax,%rcx), %r13
	cmpq	$32, %r10
	jae	.Lluossavin_x86_64.BB54_30
	xorl	%r15d, %r15d
	jmp	.Lluossavin_x86_64.BB54_39
.Lluossavin_x86_64.BB54_30:
	cmpl	$20, %r8d
	jae	.Lluossavin_x86_64.BB54_32
	xorl	%r15d, %r15d
	jmp	.Lluossavin_x86_64.BB54_36
.Lluossavin_x86_64.BB54_51:
	movq	%rsi, %r12
	andq	%r11, %r12
	leaq	(%rbx,%r8), %r15
	movq	-24(%rsp), %rdi
	addq	%rdi, %r15
	leaq	(%rcx,%r8), %r14
	addq	%rdi, %r14
	movq	%rsi, %r13
	andq	$-32, %r13
	negq	%r13
	xorl	%r10d, %r10d
	.p2align	4
.Lluossavin_x86_64.BB54_52:
	movups	-16(%r15,%r10), %xmm0
	movups	(%r15,%r10), %xmm1
	movups	%xmm1, (%r14,%r10)
	movups	%xmm0, -16(%r14,%r10)
	addq	$-32, %r10
	cmpq	%r10, %r13
	jne	.Lluossavin_x86_64.BB54_52
	cmpq	%r12, %rsi
	je	.Lluossavin_x86_64.BB54_62
	testb	$24, %sil
	je	.Lluossavin_x86_64.BB54_55
.Lluossavin_x86_64.BB54_48:
	movq	%r9, %rdi
	movq	%r11, %r9
	leaq	24(%r11), %r15
	andq	%rsi, %r15
	movl	%esi, %r13d
	andl	$7, %r13d
	leaq	(%rbx,%r8), %rbp
	subq	%r12, %rbp
	movq	-16(%rsp), %r10
	addq	%r10, %rbp
	leaq	(%rcx,%r8), %r14
	subq	%r12, %r14
	addq	%r10, %r14
	subq	%r15, %r12
	xorl	%r10d, %r10d
	.p2align	4
.Lluossavin_x86_64.BB54_49:
	movq	(%rbp,%r10), %r11
	movq	%r11, (%r14,%r10)
	addq	$-8, %r10
	cmpq	%r10, %r12
	jne	.Lluossavin_x86_64.BB54_49
	cmpq	%r15, %rsi
	movq	%r9, %r11
	movq	%rdi, %r9
	je	.Lluossavin_x86_64.BB54_62
.Lluossavin_x86_64.BB54_56:
	movq	%r13, %r12
	movq	%r13, %r15
	andq	$3, %r12
	je	.Lluossavin_x86_64.BB54_59
.Lluossavin_x86_64.BB54_57:
	movq	-32(%rsp), %rdi
	leaq	(%rdi,%rcx), %r14
	leaq	(%rdi,%rbx), %rbp
	movq	%r13, %r15
	.p2align	4
.Lluossavin_x86_64.BB54_58:
	movzbl	(%rbp,%r15), %r10d
	movb	%r10b, (%r14,%r15)
	decq	%r15
	decq	%r12
	jne	.Lluossavin_x86_64.BB54_58
.Lluossavin_x86_64.BB54_59:
	decq	%r13
	cmpq	$3, %r13
	jb	.Lluossavin_x86_64.BB54_62
	movq	-32(%rsp), %rdi
	leaq	(%rdi,%rcx), %r14
	leaq	(%rdi,%rbx), %r12
	movq	%r15, %r13
	.p2align	4
.Lluossavin_x86_64.BB54_61:
	movzbl	(%r12,%r15), %r10d
	movb	%r10b, (%r14,%r15)
	movzbl	-1(%r12,%r15), %r10d
	movb	%r10b, -1(%r14,%r15)
	movzbl	-2(%r12,%r15), %r10d
	movb	%r10b, -2(%r14,%r15)
	addq	$-4, %r13
	movzbl	-3(%r12,%r15), %r10d
	movb	%r10b, -3(%r14,%r15)
	movq	%r13, %r15
	jne	.Lluossavin_x86_64.BB54_61
	jmp	.Lluossavin_x86_64.BB54_62
.Lluossavin_x86_64.BB54_32:
	movq	%rsi, %r15
	andq	%r11, %r15
	leaq	(%r9,%rcx), %r14
	leaq	(%r9,%rbx), %rbp
	xorl	%r10d, %r10d
	.p2align	4
.Lluossavin_x86_64.BB54_33:
	movups	-16(%rbp,%r10), %xmm0
	movups	(%rbp,%r10), %xmm1
	movups	%xmm0, -16(%r14,%r10)
	movups	%xmm1, (%r14,%r10)
	addq	$32, %r10
	cmpq	%r10, %r15
	jne	.Lluossavin_x86_64.BB54_33
	cmpq	%r15, %rsi
	je	.Lluossavin_x86_64.BB54_62
	testb	$28, %sil
	je	.Lluossavin_x86_64.BB54_39
.Lluossavin_x86_64.BB54_36:
	movq	%r15, %r10
	leaq	28(%r11), %r15
	andq	%rsi, %r15
	.p2align	4
.Lluossavin_x86_64.BB54_37:
	movl	(%r12,%r10), %ebp
	movl	%ebp, (%r13,%r10)
	addq	$4, %r10
	cmpq	%r10, %r15
	jne	.Lluossavin_x86_64.BB54_37
	cmpq	%r15, %rsi
	je	.Lluossavin_x86_64.BB54_62
.Lluossavin_x86_64.BB54_39:
	movq	%r8, %r14
	movq	%r15, %rbp
	andq	$3, %r14
	je	.Lluossavin_x86_64.BB54_42
	movq	%r15, %rbp
	.p2align	4
.Lluossavin_x86_64.BB54_41:
	movzbl	(%r12,%rbp), %r10d
	movb	%r10b, (%r13,%rbp)
	incq	%rbp
	decq	%r14
	jne	.Lluossavin_x86_64.BB54_41
.Lluossavin_x86_64.BB54_42:
	negq	%r15
	leaq	(%r8,%r15), %r10
	addq	$11, %r10
	cmpq	$3, %r10
	jb	.Lluossavin_x86_64.BB54_62
	movq	-8(%rsp), %rdi
	leaq	(%rdi,%rcx), %r14
	leaq	(%rdi,%rbx), %r15
	.p2align	4
.Lluossavin_x86_64.BB54_44:
	movzbl	-3(%r15,%rbp), %r10d
	movb	%r10b, -3(%r14,%rbp)
	movzbl	-2(%r15,%rbp), %r10d
	movb	%r10b, -2(%r14,%rbp)
	movzbl	-1(%r15,%rbp), %r10d
	movb	%r10b, -1(%r14,%rbp)
	movzbl	(%r15,%rbp), %r10d
	movb	%r10b, (%r14,%rbp)
	addq	$4, %rbp
	cmpq	%rbp, %rsi
	jne	.Lluossavin_x86_64.BB54_44
	jmp	.Lluossavin_x86_64.BB54_62
.Lluossavin_x86_64.BB54_55:
	movl	%esi, %r13d
	andl	$31, %r13d
	movq	%r13, %r12
	movq	%r13, %r15
	andq	$3, %r12
	jne	.Lluossavin_x86_64.BB54_57
	jmp	.Lluossavin_x86_64.BB54_59
.Lluossavin_x86_64.BB54_20:
	xorl	%eax, %eax
	movq	%rcx, %rdx
	jmp	.Lluossavin_x86_64.BB54_65
.Lluossavin_x86_64.func_end54:
	.size	luossavin_shelf_collect_x86_64, .Lluossavin_x86_64.func_end54-luossavin_shelf_collect_x86_64

	.section	.text.luossavin_shelf_put_x86_64,"ax",@progbits
	.globl	luossavin_shelf_put_x86_64
	.hidden	luossavin_shelf_put_x86_64
	.p2align	4
	.type	luossavin_shelf_put_x86_64,@function
luossavin_shelf_put_x86_64:
	pushq	%rbp
	pushq	%r15
	pushq	%r14
	pushq	%r13
	pushq	%r12
	pushq	%rbx
	subq	$88, %rsp
	xorl	%r12d, %r12d
	testq	%rdi, %rdi
	sete	%r11b
	testq	%r9, %r9
	sete	%bl
	cmpq	$65537, %rsi
	setae	%al
	cmpq	%rdx, %rsi
	setb	%r10b
	orb	%al, %r10b
	movl	$19, %eax
	jne	.Lluossavin_x86_64.BB55_114
	movb	%bl, 40(%rsp)
	movl	%r8d, 4(%rsp)
	movb	%r11b, %r12b
	shll	$12, %r12d
	leaq	(%rdi,%r12), %r8
	cmpq	$12, %rdx
	jae	.Lluossavin_x86_64.BB55_4
	testq	%rdx, %rdx
	jne	.Lluossavin_x86_64.BB55_114
	movq	%r8, %rbp
	movl	$12, %r10d
	jmp	.Lluossavin_x86_64.BB55_30
.Lluossavin_x86_64.BB55_4:
	movq	%r12, 24(%rsp)
	movq	%rdi, 32(%rsp)
	movq	%r9, 16(%rsp)
	xorl	%r11d, %r11d
	movq	%rdx, %r15
	movq	%r8, %rbp
	movq	%r8, %r12
	jmp	.Lluossavin_x86_64.BB55_6
	.p2align	4
.Lluossavin_x86_64.BB55_5:
	leaq	12(%r14), %rdi
	subq	%rdi, %r15
	addq	%r14, %r12
	addq	$12, %r12
	addq	%rdi, %r11
	cmpq	$11, %r15
	jbe	.Lluossavin_x86_64.BB55_19
.Lluossavin_x86_64.BB55_6:
	cmpb	$82, (%r12)
	jne	.Lluossavin_x86_64.BB55_19
	movzbl	1(%r12), %r8d
	cmpl	$88, %r8d
	je	.Lluossavin_x86_64.BB55_9
	cmpl	$68, %r8d
	jne	.Lluossavin_x86_64.BB55_19
.Lluossavin_x86_64.BB55_9:
	leaq	-12(%r15), %r9
	movl	8(%r12), %r14d
	bswapl	%r14d
	cmpq	%r14, %r9
	jb	.Lluossavin_x86_64.BB55_19
	cmpb	$68, %r8b
	jne	.Lluossavin_x86_64.BB55_5
	movl	2(%r12), %r13d
	movq	%r11, %rbx
	movq	%rbp, %r9
	.p2align	4
.Lluossavin_x86_64.BB55_12:
	cmpq	$12, %rbx
	jb	.Lluossavin_x86_64.BB55_5
	movq	%r9, %r10
	cmpb	$82, (%r9)
	jne	.Lluossavin_x86_64.BB55_5
	movzbl	1(%r10), %r8d
	cmpl	$88, %r8d
	je	.Lluossavin_x86_64.BB55_16
	cmpl	$68, %r8d
	jne	.Lluossavin_x86_64.BB55_5
.Lluossavin_x86_64.BB55_16:
	leaq	-12(%rbx), %rdi
	movl	8(%r10), %r9d
	bswapl	%r9d
	cmpq	%r9, %rdi
	jb	.Lluossavin_x86_64.BB55_5
	leaq	12(%r9), %rdi
	subq	%rdi, %rbx
	addq	%r10, %r9
	addq	$12, %r9
	cmpb	$68, %r8b
	jne	.Lluossavin_x86_64.BB55_12
	cmpl	%r13d, 2(%r10)
	jne	.Lluossavin_x86_64.BB55_12
.Lluossavin_x86_64.BB55_19:
	cmpq	%rdx, %r11
	jne	.Lluossavin_x86_64.BB55_114
	xorl	%eax, %eax
	movq	%rdx, %rbx
	movq	%rbp, %r14
	movq	16(%rsp), %r9
	movq	32(%rsp), %rdi
	movq	24(%rsp), %r12
	jmp	.Lluossavin_x86_64.BB55_22
	.p2align	4
.Lluossavin_x86_64.BB55_21:
	leaq	12(%r11), %r15
	subq	%r15, %rbx
	addq	%r11, %r14
	addq	$12, %r14
	xorl	%r11d, %r11d
	cmpl	%r8d, %ecx
	cmoveq	%r11, %r15
	cmpb	$68, %r10b
	cmovneq	%r11, %r15
	addq	%r15, %rax
	cmpq	$11, %rbx
	jbe	.Lluossavin_x86_64.BB55_29
.Lluossavin_x86_64.BB55_22:
	cmpb	$82, (%r14)
	jne	.Lluossavin_x86_64.BB55_29
	movzbl	1(%r14), %r10d
	cmpl	$88, %r10d
	je	.Lluossavin_x86_64.BB55_25
	cmpl	$68, %r10d
	jne	.Lluossavin_x86_64.BB55_29
.Lluossavin_x86_64.BB55_25:
	leaq	-12(%rbx), %r8
	movl	8(%r14), %r11d
	bswapl	%r11d
	cmpq	%r11, %r8
	jb	.Lluossavin_x86_64.BB55_29
	movl	2(%r14), %r8d
	bswapl	%r8d
	cmpl	%ecx, %r8d
	jne	.Lluossavin_x86_64.BB55_21
	movzwl	6(%r14), %r15d
	rolw	$8, %r15w
	cmpw	%r15w, 4(%rsp)
	ja	.Lluossavin_x86_64.BB55_21
	movl	$20, %eax
	jmp	.Lluossavin_x86_64.BB55_114
.Lluossavin_x86_64.BB55_29:
	addq	$12, %rax
	movq	$-1, %r10
	cmovaeq	%rax, %r10
.Lluossavin_x86_64.BB55_30:
	movq	144(%rsp), %rbx
	addq	%rbx, %r10
	movq	$-1, %r8
	cmovbq	%r8, %r10
	movl	$21, %eax
	cmpq	%r10, %rsi
	jb	.Lluossavin_x86_64.BB55_114
	xorl	%r10d, %r10d
	movzbl	40(%rsp), %eax
	movb	%al, %r10b
	shll	$12, %r10d
	movq	%rsi, %rax
	movq	%r10, 40(%rsp)
	leaq	(%r9,%r10), %rsi
	movq	%rdx, %r10
	addq	$12, %r10
	cmovbq	%r8, %r10
	addq	%rbx, %r10
	cmovbq	%r8, %r10
	cmpq	%r10, %rax
	movq	%r9, 16(%rsp)
	movq	%rdi, 32(%rsp)
	movq	%r12, 24(%rsp)
	jae	.Lluossavin_x86_64.BB55_34
	cmpq	$12, %rdx
	jae	.Lluossavin_x86_64.BB55_36
	xorl	%r15d, %r15d
	jmp	.Lluossavin_x86_64.BB55_92
.Lluossavin_x86_64.BB55_34:
	cmpq	$12, %rdx
	jae	.Lluossavin_x86_64.BB55_80
	movq	%rdx, %r15
	jmp	.Lluossavin_x86_64.BB55_92
.Lluossavin_x86_64.BB55_36:
	movabsq	$8589934560, %r9
	leaq	(%r12,%rdi), %rax
	addq	$16, %rax
	movq	%rax, 64(%rsp)
	leaq	3(%r12,%rdi), %rax
	movq	%rax, 80(%rsp)
	leaq	-4(%r12,%rdi), %rax
	movq	%rax, 56(%rsp)
	leaq	4(%r12,%rdi), %rax
	movq	%rax, 72(%rsp)
	leaq	(%r12,%rdi), %rax
	decq	%rax
	movq	%rax, 48(%rsp)
	xorl	%r15d, %r15d
	movq	%rdx, %rax
	xorl	%r12d, %r12d
	movq	%rbp, 8(%rsp)
	jmp	.Lluossavin_x86_64.BB55_39
.Lluossavin_x86_64.BB55_37:
	leaq	12(%r13), %rax
	addq	%rax, %r15
	movq	144(%rsp), %rbx
.Lluossavin_x86_64.BB55_38:
	addq	%r13, %r12
	addq	$12, %r12
	movq	%rdx, %rax
	subq	%r12, %rax
	cmpq	$12, %rax
	movq	8(%rsp), %rbp
	jb	.Lluossavin_x86_64.BB55_92
.Lluossavin_x86_64.BB55_39:
	cmpb	$82, (%rbp,%r12)
	jne	.Lluossavin_x86_64.BB55_92
	addq	%r12, %rbp
	movzbl	1(%rbp), %r8d
	cmpl	$88, %r8d
	je	.Lluossavin_x86_64.BB55_42
	cmpl	$68, %r8d
	jne	.Lluossavin_x86_64.BB55_91
.Lluossavin_x86_64.BB55_42:
	addq	$-12, %rax
	movl	8(%rbp), %r13d
	bswapl	%r13d
	cmpq	%r13, %rax
	jb	.Lluossavin_x86_64.BB55_91
	cmpb	$68, %r8b
	jne	.Lluossavin_x86_64.BB55_38
	movl	2(%rbp), %eax
	bswapl	%eax
	cmpl	%eax, %ecx
	je	.Lluossavin_x86_64.BB55_38
	leaq	12(%r13), %r11
	movq	%r15, %rax
	subq	%r12, %rax
	jbe	.Lluossavin_x86_64.BB55_49
	movq	%r12, %rax
	subq	%r15, %rax
	movq	%r11, %rbx
	cmpq	$32, %rax
	jb	.Lluossavin_x86_64.BB55_60
	cmpl	$20, %r13d
	jae	.Lluossavin_x86_64.BB55_53
	xorl	%eax, %eax
	leaq	12(%r13), %rbx
	jmp	.Lluossavin_x86_64.BB55_57
.Lluossavin_x86_64.BB55_49:
	movq	8(%rsp), %rdi
	leaq	(%rdi,%r15), %rbx
	cmpq	$32, %rax
	jae	.Lluossavin_x86_64.BB55_51
	xorl	%r14d, %r14d
	jmp	.Lluossavin_x86_64.BB55_73
.Lluossavin_x86_64.BB55_51:
	cmpl	$20, %r13d
	jae	.Lluossavin_x86_64.BB55_66
	xorl	%r14d, %r14d
	jmp	.Lluossavin_x86_64.BB55_70
.Lluossavin_x86_64.BB55_53:
	leaq	12(%r13), %r11
	movq	%r11, %rax
	andq	%r9, %rax
	leaq	(%r12,%r13), %r10
	movq	56(%rsp), %rdi
	addq	%rdi, %r10
	leaq	(%r15,%r13), %r8
	addq	%rdi, %r8
	andq	$-32, %r11
	negq	%r11
	xorl	%ebx, %ebx
	.p2align	4
.Lluossavin_x86_64.BB55_54:
	movups	-16(%r10,%rbx), %xmm0
	movups	(%r10,%rbx), %xmm1
	movups	%xmm1, (%r8,%rbx)
	movups	%xmm0, -16(%r8,%rbx)
	addq	$-32, %rbx
	cmpq	%rbx, %r11
	jne	.Lluossavin_x86_64.BB55_54
	leaq	12(%r13), %rdi
	cmpq	%rax, %rdi
	je	.Lluossavin_x86_64.BB55_37
	leaq	12(%r13), %rbx
	testb	$24, %bl
	je	.Lluossavin_x86_64.BB55_79
.Lluossavin_x86_64.BB55_57:
	movq	%r9, %r14
	leaq	24(%r9), %r10
	andq	%rbx, %r10
	andl	$7, %ebx
	leaq	(%r12,%r13), %r11
	subq	%rax, %r11
	movq	72(%rsp), %rdi
	addq	%rdi, %r11
	leaq	(%r15,%r13), %r8
	subq	%rax, %r8
	addq	%rdi, %r8
	subq	%r10, %rax
	xorl	%r9d, %r9d
	.p2align	4
.Lluossavin_x86_64.BB55_58:
	movq	(%r11,%r9), %rdi
	movq	%rdi, (%r8,%r9)
	addq	$-8, %r9
	cmpq	%r9, %rax
	jne	.Lluossavin_x86_64.BB55_58
	leaq	12(%r13), %rax
	cmpq	%r10, %rax
	movq	%r14, %r9
	je	.Lluossavin_x86_64.BB55_37
.Lluossavin_x86_64.BB55_60:
	movq	%rbx, %r10
	movq	%rbx, %rax
	andq	$3, %r10
	je	.Lluossavin_x86_64.BB55_63
.Lluossavin_x86_64.BB55_61:
	movq	48(%rsp), %rax
	leaq	(%rax,%r15), %r8
	leaq	(%rax,%r12), %r11
	movq	%rbx, %rax
	.p2align	4
.Lluossavin_x86_64.BB55_62:
	movzbl	(%r11,%rax), %edi
	movb	%dil, (%r8,%rax)
	decq	%rax
	decq	%r10
	jne	.Lluossavin_x86_64.BB55_62
.Lluossavin_x86_64.BB55_63:
	decq	%rbx
	cmpq	$3, %rbx
	jb	.Lluossavin_x86_64.BB55_37
	movq	48(%rsp), %rdi
	leaq	(%rdi,%r15), %r8
	leaq	(%rdi,%r12), %r10
	movq	%rax, %r11
	.p2align	4
.Lluossavin_x86_64.BB55_65:
	movzbl	(%r10,%rax), %edi
	movb	%dil, (%r8,%rax)
	movzbl	-1(%r10,%rax), %edi
	movb	%dil, -1(%r8,%rax)
	movzbl	-2(%r10,%rax), %edi
	movb	%dil, -2(%r8,%rax)
	addq	$-4, %r11
	movzbl	-3(%r10,%rax), %edi
	movb	%dil, -3(%r8,%rax)
	movq	%r11, %rax
	jne	.Lluossavin_x86_64.BB55_65
	jmp	.Lluossavin_x86_64.BB55_37
.Lluossavin_x86_64.BB55_66:
	movq	%r11, %r14
	andq	%r9, %r14
	movq	64(%rsp), %rdi
	leaq	(%rdi,%r15), %rax
	leaq	(%rdi,%r12), %r8
	xorl	%r10d, %r10d
	.p2align	4
.Lluossavin_x86_64.BB55_67:
	movups	-16(%r8,%r10), %xmm0
	movups	(%r8,%r10), %xmm1
	movups	%xmm0, -16(%rax,%r10)
	movups	%xmm1, (%rax,%r10)
	addq	$32, %r10
	cmpq	%r10, %r14
	jne	.Lluossavin_x86_64.BB55_67
	cmpq	%r14, %r11
	je	.Lluossavin_x86_64.BB55_37
	leaq	12(%r13), %rax
	testb	$28, %al
	je	.Lluossavin_x86_64.BB55_73
.Lluossavin_x86_64.BB55_70:
	movq	%r14, %rax
	leaq	28(%r9), %r14
	leaq	12(%r13), %r8
	andq	%r8, %r14
	.p2align	4
.Lluossavin_x86_64.BB55_71:
	movl	(%rbp,%rax), %edi
	movl	%edi, (%rbx,%rax)
	addq	$4, %rax
	cmpq	%rax, %r14
	jne	.Lluossavin_x86_64.BB55_71
	cmpq	%r14, %r8
	je	.Lluossavin_x86_64.BB55_37
.Lluossavin_x86_64.BB55_73:
	movq	%r13, %r8
	movq	%r14, %rax
	andq	$3, %r8
	je	.Lluossavin_x86_64.BB55_76
	movq	%r14, %rax
	.p2align	4
.Lluossavin_x86_64.BB55_75:
	movzbl	(%rbp,%rax), %edi
	movb	%dil, (%rbx,%rax)
	incq	%rax
	decq	%r8
	jne	.Lluossavin_x86_64.BB55_75
.Lluossavin_x86_64.BB55_76:
	negq	%r14
	leaq	(%r14,%r13), %rdi
	addq	$11, %rdi
	cmpq	$3, %rdi
	jb	.Lluossavin_x86_64.BB55_37
	movq	80(%rsp), %rdi
	leaq	(%rdi,%r15), %r8
	leaq	(%rdi,%r12), %r10
	.p2align	4
.Lluossavin_x86_64.BB55_78:
	movzbl	-3(%r10,%rax), %edi
	movb	%dil, -3(%r8,%rax)
	movzbl	-2(%r10,%rax), %edi
	movb	%dil, -2(%r8,%rax)
	movzbl	-1(%r10,%rax), %edi
	movb	%dil, -1(%r8,%rax)
	movzbl	(%r10,%rax), %edi
	movb	%dil, (%r8,%rax)
	addq	$4, %rax
	leaq	12(%r13), %rdi
	cmpq	%rax, %rdi
	jne	.Lluossavin_x86_64.BB55_78
	jmp	.Lluossavin_x86_64.BB55_37
.Lluossavin_x86_64.BB55_79:
	andl	$31, %ebx
	movq	%rbx, %r10
	movq	%rbx, %rax
	andq	$3, %r10
	jne	.Lluossavin_x86_64.BB55_61
	jmp	.Lluossavin_x86_64.BB55_63
.Lluossavin_x86_64.BB55_80:
	xorl	%eax, %eax
	movq	%rdx, %rbx
	movq	%rbp, %r11
	jmp	.Lluossavin_x86_64.BB55_82
.Lluossavin_x86_64.BB55_81:
	leaq	12(%r8), %r10
	subq	%r10, %rbx
	addq	%r8, %r11
	addq	$12, %r11
	addq	%r8, %rax
	addq	$12, %rax
	cmpq	$12, %rbx
	jb	.Lluossavin_x86_64.BB55_89
.Lluossavin_x86_64.BB55_82:
	cmpb	$82, (%r11)
	jne	.Lluossavin_x86_64.BB55_89
	movzbl	1(%r11), %r10d
	cmpl	$88, %r10d
	je	.Lluossavin_x86_64.BB55_85
	cmpl	$68, %r10d
	jne	.Lluossavin_x86_64.BB55_89
.Lluossavin_x86_64.BB55_85:
	leaq	-12(%rbx), %r14
	movl	8(%r11), %r8d
	bswapl	%r8d
	cmpq	%r8, %r14
	jb	.Lluossavin_x86_64.BB55_89
	cmpb	$68, %r10b
	jne	.Lluossavin_x86_64.BB55_81
	movl	2(%r11), %r10d
	bswapl	%r10d
	cmpl	%ecx, %r10d
	jne	.Lluossavin_x86_64.BB55_81
	movb	$88, 1(%rbp,%rax)
.Lluossavin_x86_64.BB55_89:
	movq	%rdx, %r15
	movq	144(%rsp), %rbx
	jmp	.Lluossavin_x86_64.BB55_92
.Lluossavin_x86_64.BB55_91:
	movq	8(%rsp), %rbp
.Lluossavin_x86_64.BB55_92:
	movl	%ecx, %edx
	shrl	$8, %edx
	movl	%ebx, %eax
	bswapl	%eax
	movzwl	4(%rsp), %edi
	bswapq	%rdi
	movzbl	%cl, %r8d
	shlq	$40, %r8
	orq	%rdi, %r8
	movzbl	%dl, %edi
	shlq	$32, %rdi
	orq	%r8, %rdi
	shll	$8, %ecx
	andl	$-16777216, %ecx
	orq	%rdi, %rcx
	andl	$16711680, %edx
	addq	%rdx, %rcx
	addq	$17490, %rcx
	movq	%rcx, (%rbp,%r15)
	movl	%eax, 8(%rbp,%r15)
	leaq	(%r15,%rbp), %rax
	addq	$12, %rax
	movq	%rax, %rcx
	subq	%rsi, %rcx
	cmpq	%rbx, %rcx
	jae	.Lluossavin_x86_64.BB55_95
	cmpq	$4, %rbx
	jae	.Lluossavin_x86_64.BB55_96
	xorl	%ecx, %ecx
	movq	32(%rsp), %r9
	movq	24(%rsp), %r11
	jmp	.Lluossavin_x86_64.BB55_107
.Lluossavin_x86_64.BB55_95:
	movq	%rax, %rdi
	movq	%rbx, %rdx
	callq	memmove@PLT
	jmp	.Lluossavin_x86_64.BB55_113
.Lluossavin_x86_64.BB55_96:
	movq	24(%rsp), %r11
	leaq	(%r11,%r15), %r8
	movq	32(%rsp), %r9
	leaq	(%r8,%r9), %rcx
	subq	%rsi, %rcx
	addq	$12, %rcx
	cmpq	$32, %rcx
	jae	.Lluossavin_x86_64.BB55_98
	xorl	%ecx, %ecx
	jmp	.Lluossavin_x86_64.BB55_107
.Lluossavin_x86_64.BB55_98:
	cmpq	$32, %rbx
	jae	.Lluossavin_x86_64.BB55_100
	xorl	%ecx, %ecx
	jmp	.Lluossavin_x86_64.BB55_104
.Lluossavin_x86_64.BB55_100:
	movq	%rbx, %rcx
	andq	$-32, %rcx
	movq	16(%rsp), %rdx
	movq	40(%rsp), %rdi
	addq	%rdi, %rdx
	addq	$16, %rdx
	addq	%r9, %r8
	addq	$28, %r8
	xorl	%r10d, %r10d
.Lluossavin_x86_64.BB55_101:
	movups	-16(%rdx,%r10), %xmm0
	movups	(%rdx,%r10), %xmm1
	movups	%xmm0, -16(%r8,%r10)
	movups	%xmm1, (%r8,%r10)
	addq	$32, %r10
	cmpq	%r10, %rcx
	jne	.Lluossavin_x86_64.BB55_101
	cmpq	%rcx, %rbx
	je	.Lluossavin_x86_64.BB55_113
	testb	$28, %bl
	je	.Lluossavin_x86_64.BB55_107
.Lluossavin_x86_64.BB55_104:
	movq	%rcx, %rdx
	movq	%rbx, %rcx
	andq	$-4, %rcx
	.p2align	4
.Lluossavin_x86_64.BB55_105:
	movl	(%rsi,%rdx), %edi
	movl	%edi, (%rax,%rdx)
	addq	$4, %rdx
	cmpq	%rdx, %rcx
	jne	.Lluossavin_x86_64.BB55_105
	cmpq	%rcx, %rbx
	je	.Lluossavin_x86_64.BB55_113
.Lluossavin_x86_64.BB55_107:
	movq	%rbx, %r8
	movq	%rcx, %rdx
	andq	$3, %r8
	je	.Lluossavin_x86_64.BB55_110
	movq	%rcx, %rdx
	.p2align	4
.Lluossavin_x86_64.BB55_109:
	movzbl	(%rsi,%rdx), %edi
	movb	%dil, (%rax,%rdx)
	incq	%rdx
	decq	%r8
	jne	.Lluossavin_x86_64.BB55_109
.Lluossavin_x86_64.BB55_110:
	subq	%rbx, %rcx
	cmpq	$-4, %rcx
	ja	.Lluossavin_x86_64.BB55_113
	movq	16(%rsp), %rax
	movq	40(%rsp), %rcx
	addq	%rcx, %rax
	addq	$3, %rax
	addq	%r15, %r11
	leaq	(%r9,%r11), %rcx
	addq	$15, %rcx
	.p2align	4
.Lluossavin_x86_64.BB55_112:
	movzbl	-3(%rax,%rdx), %esi
	movb	%sil, -3(%rcx,%rdx)
	movzbl	-2(%rax,%rdx), %esi
	movb	%sil, -2(%rcx,%rdx)
	movzbl	-1(%rax,%rdx), %esi
	movb	%sil, -1(%rcx,%rdx)
	movzbl	(%rax,%rdx), %esi
	movb	%sil, (%rcx,%rdx)
	addq	$4, %rdx
	cmpq	%rdx, %rbx
	jne	.Lluossavin_x86_64.BB55_112
.Lluossavin_x86_64.BB55_113:
	leaq	(%rbx,%r15), %rdx
	addq	$12, %rdx
	xorl	%eax, %eax
.Lluossavin_x86_64.BB55_114:
	addq	$88, %rsp
	popq	%rbx
	popq	%r12
	popq	%r13
	popq	%r14
	popq	%r15
	popq	%rbp
	retq
.Lluossavin_x86_64.func_end55:
	.size	luossavin_shelf_put_x86_64, .Lluossavin_x86_64.func_end55-luossavin_shelf_put_x86_64

	.type	.Lluossavin_x86_64.static.0,@object
	.section	.rodata..Lluossavin_x86_64.static.0,"a",@progbits
	.p2align	2, 0x0
.Lluossavin_x86_64.static.0:
	.ascii	"[[\325\216BB\222\320\247\247\352M\373\373\375\00633\317\374\207\207\342e\364\364=\311\336\336\265kXX\026N\332\332\264nPP\024D\013\013\301\312\240\240(\210\357\357\370\027\260\260,\234\024\024\005\021\254\254+\207\235\235f\373jj\230\362\331\331w\256\250\250*\202\372\372\274F\020\020\004\024\017\017\300\317\252\252\250\002\021\021ETLL\023_\230\230&\276%%Hm\032\032\204\236\030\030\006\036ff\233\375rr\236\354\t\tCJAAQ\020\323\323\367$FF\223\325\277\277\354Sbb\232\370\351\351{\222\314\3143\377QQU\004,,\013'\r\rBO\267\267\356Y??\314\363\262\262\256\034\211\211c\352\223\223\347t\316\316\261\177pp\034l\246\246\253\r''\312\355  \b(\243\243\353HVV\227\301\002\002\202\200\177\177\334\243RR\226\304\353\353\371\022\325\325t\241>>\215\263\374\374?\303\232\232\244>\035\035F[\034\034\007\033\236\236\245;\363\363\377\f\317\317\360?\315\315r\277\\\\\027K\352\352\270R\016\016\201\217eeX=\360\360<\314dd\031}\233\233\345~\026\026\207\221==Ns\242\242\252\b\241\241i\310\255\255j\307\006\006\203\205\312\312\260z\305\305p\265\221\221e\364kk\331\262..\211\247\343\343\373\030\257\257\350G<<\0173--Jg\301\301q\260YYW\016vv\237\351\324\3245\341xx\036f\220\220$\26488\0166yy_&\215\215b\357aaY8GG\322\225\212\212\240*\224\224%\261\210\210\"\252\361\361}\214\354\354;\327\004\004\001\005\204\204!\245\341\341y\230\036\036\205\233SS\327\204\000\000\000\000\031\031G^]]V\013~~\235\343OO\320\237\234\234'\273IIS\03211M|\330\3306\356\b\b\002\n\237\237\344{\202\202\242 \023\023\307\324##\313\350zz\234\346\253\253\351B\376\376\275C**\210\242KK\321\232\001\001A@\037\037\304\333\340\3408\330\326\326\267a\216\216\241/\337\337\364+\313\313\361:;;\315\366\347\347\372\035\205\205`\345TT\025A\206\206\243%\203\203\343`\272\272\254\026uu\\)\222\222\2464nn\231\367\320\3204\344hh\032rUUT\001\266\266\257\031NN\221\337\310\3102\372\300\3000\360\327\327\366!22\216\274\306\306\263u\217\217\340ott\035i\333\333\365.\213\213\341j\270\270.\226\n\n\200\212\231\231g\376++\311\342\201\201a\340\003\003\303\300\244\244)\215\214\214#\257\256\256\251\00744\r9MMR\03799Ov\275\275n\323WW\326\201oo\330\267\334\3347\353\025\025DQ{{\335\246\367\367\376\t::\214\266\274\274/\223\f\f\003\017\377\377\374\003\251\251k\302\311\311s\272\265\265l\331\261\261m\334mmZ7EEP\02566\217\271ll\033w\276\276\255\023JJ\220\332\356\356\271Www\336\251\362\362\276L\375\375~\203DD\021Ugg\332\275qq],\005\005@E||\037c@@\020Pii[2cc\333\270((\n\"\007\007\302\305\304\3041\365\"\"\212\250\226\226\247177\316\371\355\355z\227\366\366\277I\264\264-\231\321\321u\244CC\323\220HH\022Z\342\342\272X\227\227\346q\322\322\266d\302\302\262p&&\213\255\245\245h\315^^\225\313))Kb00\f<ZZ\224\316\335\335v\253\371\371\177\206\225\225d\361\346\346\273]\307\307\3625$$\t-\027\027\306\321\271\271o\326\033\033\305\336\022\022\206\224``\030x\303\303\3630\365\365|\211\263\263\357\\\350\350:\322ss\337\25455Ly\200\200 \240\345\345x\235\273\273\355V}}^#\370\370>\306__\324\213//\310\347\344\3449\335!!Ih[\325\216[B\222\320B\247\352M\247\373\375\006\3733\317\3743\207\342e\207\364=\311\364\336\265k\336X\026NX\332\264n\332P\024DP\013\301\312\013\240(\210\240\357\370\027\357\260,\234\260\024\005\021\024\254+\207\254\235f\373\235j\230\362j\331w\256\331\250*\202\250\372\274F\372\020\004\024\020\017\300\317\017\252\250\002\252\021ET\021L\023_L\230&\276\230%Hm%\032\204\236\032\030\006\036\030f\233\375fr\236\354r\tCJ\tAQ\020A\323\367$\323F\223\325F\277\354S\277b\232\370b\351{\222\351\3143\377\314QU\004Q,\013',\rBO\r\267\356Y\267?\314\363?\262\256\034\262\211c\352\211\223\347t\223\316\261\177\316p\034lp\246\253\r\246'\312\355' \b( \243\353H\243V\227\301V\002\202\200\002\177\334\243\177R\226\304R\353\371\022\353\325t\241\325>\215\263>\374?\303\374\232\244>\232\035F[\035\034\007\033\034\236\245;\236\363\377\f\363\317\360?\317\315r\277\315\\\027K\\\352\270R\352\016\201\217\016eX=e\360<\314\360d\031}d\233\345~\233\026\207\221\026=Ns=\242\252\b\242\241i\310\241\255j\307\255\006\203\205\006\312\260z\312\305p\265\305\221e\364\221k\331\262k.\211\247.\343\373\030\343\257\350G\257<\0173<-Jg-\301q\260\301YW\016Yv\237\351v\3245\341\324x\036fx\220$\264\2208\01668y_&y\215b\357\215aY8aG\322\225G\212\240*\212\224%\261\224\210\"\252\210\361}\214\361\354;\327\354\004\001\005\004\204!\245\204\341y\230\341\036\205\233\036S\327\204S\000\000\000\000\031G^\031]V\013]~\235\343~O\320\237O\234'\273\234IS\032I1M|1\3306\356\330\b\002\n\b\237\344{\237\202\242 \202\023\307\324\023#\313\350#z\234\346z\253\351B\253\376\275C\376*\210\242*K\321\232K\001A@\001\037\304\333\037\3408\330\340\326\267a\326\216\241/\216\337\364+\337\313\361:\313;\315\366;\347\372\035\347\205`\345\205T\025AT\206\243%\206\203\343`\203\272\254\026\272u\\)u\222\2464\222n\231\367n\3204\344\320h\032rhUT\001U\266\257\031\266N\221\337N\3102\372\310\3000\360\300\327\366!\3272\216\2742\306\263u\306\217\340o\217t\035it\333\365.\333\213\341j\213\270.\226\270\n\200\212\n\231g\376\231+\311\342+\201a\340\201\003\303\300\003\244)\215\244\214#\257\214\256\251\007\2564\r94MR\037M9Ov9\275n\323\275W\326\201Wo\330\267o\3347\353\334\025DQ\025{\335\246{\367\376\t\367:\214\266:\274/\223\274\f\003\017\f\377\374\003\377\251k\302\251\311s\272\311\265l\331\265\261m\334\261mZ7mEP\025E6\217\2716l\033wl\276\255\023\276J\220\332J\356\271W\356w\336\251w\362\276L\362\375~\203\375D\021UDg\332\275gq],q\005@E\005|\037c|@\020P@i[2ic\333\270c(\n\"(\007\302\305\007\3041\365\304\"\212\250\"\226\2471\2267\316\3717\355z\227\355\366\277I\366\264-\231\264\321u\244\321C\323\220CH\022ZH\342\272X\342\227\346q\227\322\266d\322\302\262p\302&\213\255&\245h\315\245^\225\313^)Kb)0\f<0Z\224\316Z\335v\253\335\371\177\206\371\225d\361\225\346\273]\346\307\3625\307$\t-$\027\306\321\027\271o\326\271\033\305\336\033\022\206\224\022`\030x`\303\3630\303\365|\211\365\263\357\\\263\350:\322\350s\337\254s5Ly5\200 \240\200\345x\235\345\273\355V\273}^#}\370>\306\370_\324\213_/\310\347/\3449\335\344!Ih!\325\216[[\222\320BB\352M\247\247\375\006\373\373\317\37433\342e\207\207=\311\364\364\265k\336\336\026NXX\264n\332\332\024DPP\301\312\013\013(\210\240\240\370\027\357\357,\234\260\260\005\021\024\024+\207\254\254f\373\235\235\230\362jjw\256\331\331*\202\250\250\274F\372\372\004\024\020\020\300\317\017\017\250\002\252\252ET\021\021\023_LL&\276\230\230Hm%%\204\236\032\032\006\036\030\030\233\375ff\236\354rrCJ\t\tQ\020AA\367$\323\323\223\325FF\354S\277\277\232\370bb{\222\351\3513\377\314\314U\004QQ\013',,BO\r\r\356Y\267\267\314\363??\256\034\262\262c\352\211\211\347t\223\223\261\177\316\316\034lpp\253\r\246\246\312\355''\b(  \353H\243\243\227\301VV\202\200\002\002\334\243\177\177\226\304RR\371\022\353\353t\241\325\325\215\263>>?\303\374\374\244>\232\232F[\035\035\007\033\034\034\245;\236\236\377\f\363\363\360?\317\317r\277\315\315\027K\\\\\270R\352\352\201\217\016\016X=ee<\314\360\360\031}dd\345~\233\233\207\221\026\026Ns==\252\b\242\242i\310\241\241j\307\255\255\203\205\006\006\260z\312\312p\265\305\305e\364\221\221\331\262kk\211\247..\373\030\343\343\350G\257\257\0173<<Jg--q\260\301\301W\016YY\237\351vv5\341\324\324\036fxx$\264\220\220\016688_&yyb\357\215\215Y8aa\322\225GG\240*\212\212%\261\224\224\"\252\210\210}\214\361\361;\327\354\354\001\005\004\004!\245\204\204y\230\341\341\205\233\036\036\327\204SS\000\000\000\000G^\031\031V\013]]\235\343~~\320\237OO'\273\234\234S\032IIM|116\356\330\330\002\n\b\b\344{\237\237\242 \202\202\307\324\023\023\313\350##\234\346zz\351B\253\253\275C\376\376\210\242**\321\232KKA@\001\001\304\333\037\0378\330\340\340\267a\326\326\241/\216\216\364+\337\337\361:\313\313\315\366;;\372\035\347\347`\345\205\205\025ATT\243%\206\206\343`\203\203\254\026\272\272\\)uu\2464\222\222\231\367nn4\344\320\320\032rhhT\001UU\257\031\266\266\221\337NN2\372\310\3100\360\300\300\366!\327\327\216\27422\263u\306\306\340o\217\217\035itt\365.\333\333\341j\213\213.\226\270\270\200\212\n\ng\376\231\231\311\342++a\340\201\201\303\300\003\003)\215\244\244#\257\214\214\251\007\256\256\r944R\037MMOv99n\323\275\275\326\201WW\330\267oo7\353\334\334DQ\025\025\335\246{{\376\t\367\367\214\266::/\223\274\274\003\017\f\f\374\003\377\377k\302\251\251s\272\311\311l\331\265\265m\334\261\261Z7mmP\025EE\217\27166\033wll\255\023\276\276\220\332JJ\271W\356\356\336\251ww\276L\362\362~\203\375\375\021UDD\332\275gg],qq@E\005\005\037c||\020P@@[2ii\333\270cc\n\"((\302\305\007\0071\365\304\304\212\250\"\"\2471\226\226\316\37177z\227\355\355\277I\366\366-\231\264\264u\244\321\321\323\220CC\022ZHH\272X\342\342\346q\227\227\266d\322\322\262p\302\302\213\255&&h\315\245\245\225\313^^Kb))\f<00\224\316ZZv\253\335\335\177\206\371\371d\361\225\225\273]\346\346\3625\307\307\t-$$\306\321\027\027o\326\271\271\305\336\033\033\206\224\022\022\030x``\3630\303\303|\211\365\365\357\\\263\263:\322\350\350\337\254ssLy55 \240\200\200x\235\345\345\355V\273\273^#}}>\306\370\370\324\213__\310\347//9\335\344\344Ih!!\216[[\325\320BB\222M\247\247\352\006\373\373\375\37433\317e\207\207\342\311\364\364=k\336\336\265NXX\026n\332\332\264DPP\024\312\013\013\301\210\240\240(\027\357\357\370\234\260\260,\021\024\024\005\207\254\254+\373\235\235f\362jj\230\256\331\331w\202\250\250*F\372\372\274\024\020\020\004\317\017\017\300\002\252\252\250T\021\021E_LL\023\276\230\230&m%%H\236\032\032\204\036\030\030\006\375ff\233\354rr\236J\t\tC\020AAQ$\323\323\367\325FF\223S\277\277\354\370bb\232\222\351\351{\377\314\3143\004QQU',,\013O\r\rBY\267\267\356\363??\314\034\262\262\256\352\211\211ct\223\223\347\177\316\316\261lpp\034\r\246\246\253\355''\312(  \bH\243\243\353\301VV\227\200\002\002\202\243\177\177\334\304RR\226\022\353\353\371\241\325\325t\263>>\215\303\374\374?>\232\232\244[\035\035F\033\034\034\007;\236\236\245\f\363\363\377?\317\317\360\277\315\315rK\\\\\027R\352\352\270\217\016\016\201=eeX\314\360\360<}dd\031~\233\233\345\221\026\026\207s==N\b\242\242\252\310\241\241i\307\255\255j\205\006\006\203z\312\312\260\265\305\305p\364\221\221e\262kk\331\247..\211\030\343\343\373G\257\257\3503<<\017g--J\260\301\301q\016YYW\351vv\237\341\324\3245fxx\036\264\220\220$688\016&yy_\357\215\215b8aaY\225GG\322*\212\212\240\261\224\224%\252\210\210\"\214\361\361}\327\354\354;\005\004\004\001\245\204\204!\230\341\341y\233\036\036\205\204SS\327\000\000\000\000^\031\031G\013]]V\343~~\235\237OO\320\273\234\234'\032IIS|11M\356\330\3306\n\b\b\002{\237\237\344 \202\202\242\324\023\023\307\350##\313\346zz\234B\253\253\351C\376\376\275\242**\210\232KK\321@\001\001A\333\037\037\304\330\340\3408a\326\326\267/\216\216\241+\337\337\364:\313\313\361\366;;\315\035\347\347\372\345\205\205`ATT\025%\206\206\243`\203\203\343\026\272\272\254)uu\\4\222\222\246\367nn\231\344\320\3204rhh\032\001UUT\031\266\266\257\337NN\221\372\310\3102\360\300\3000!\327\327\366\27422\216u\306\306\263o\217\217\340itt\035.\333\333\365j\213\213\341\226\270\270.\212\n\n\200\376\231\231g\342++\311\340\201\201a\300\003\003\303\215\244\244)\257\214\214#\007\256\256\251944\r\037MMRv99O\323\275\275n\201WW\326\267oo\330\353\334\3347Q\025\025D\246{{\335\t\367\367\376\266::\214\223\274\274/\017\f\f\003\003\377\377\374\302\251\251k\272\311\311s\331\265\265l\334\261\261m7mmZ\025EEP\27166\217wll\033\023\276\276\255\332JJ\220W\356\356\271\251ww\336L\362\362\276\203\375\375~UDD\021\275gg\332,qq]E\005\005@c||\037P@@\0202ii[\270cc\333\"((\n\305\007\007\302\365\304\3041\250\"\"\2121\226\226\247\37177\316\227\355\355zI\366\366\277\231\264\264-\244\321\321u\220CC\323ZHH\022X\342\342\272q\227\227\346d\322\322\266p\302\302\262\255&&\213\315\245\245h\313^^\225b))K<00\f\316ZZ\224\253\335\335v\206\371\371\177\361\225\225d]\346\346\2735\307\307\362-$$\t\321\027\027\306\326\271\271o\336\033\033\305\224\022\022\206x``\0300\303\303\363\211\365\365|\\\263\263\357\322\350\350:\254ss\337y55L\240\200\200 \235\345\345xV\273\273\355#}}^\306\370\370>\213__\324\347//\310\335\344\3449h!!I"
	.size	.Lluossavin_x86_64.static.0, 4096

	.type	.Lluossavin_x86_64.static.1,@object
	.section	.rodata..Lluossavin_x86_64.static.1,"a",@progbits
.Lluossavin_x86_64.static.1:
	.ascii	"\326\220\351\376\314\341=\267\026\266\024\302(\373,\005+g\232v*\276\004\303\252D\023&I\206\006\231\234BP\364\221\357\230z3T\013C\355\317\254b\344\263\034\251\311\b\350\225\200\337\224\372u\217?\246G\007\247\374\363s\027\272\203Y<\031\346\205O\250hk\201\262qd\332\213\370\353\017KpV\2355\036$\016^cX\321\242%\"|;\001!x\207\324\000FW\237\323'RL6\002\347\240\304\310\236\352\277\212\322@\3078\265\243\367\362\316\371a\025\241\340\256]\244\2334\032U\255\22320\365\214\261\343\035\366\342.\202f\312`\300)#\253\rSNo\325\3337E\336\375\216/\003\377jrml[Q\215\033\257\222\273\335\274\177\021\331\\A\037\020Z\330\n\3011\210\245\315{\275-t\320\022\270\345\264\260\211i\227J\f\226w~e\271\361\t\305n\306\204\030\360}\354:\334M y\356_>\327\3139H"
	.size	.Lluossavin_x86_64.static.1, 256

	.type	.Lluossavin_x86_64.static.3,@object
	.section	.rodata..Lluossavin_x86_64.static.3,"a",@progbits
	.p2align	3, 0x0
.Lluossavin_x86_64.static.3:
	.asciz	"\000\000\000\000\000\000\000\000\002\000\000\000\000\000\000\000\002\000\000\000\000\000\000\000\004\000\000\000\000\000\000\000\004\000\000\000\000\000\000\000\006\000\000\000\000\000\000\000\006\000\000\000\000\000\000\000\b\000\000\000\000\000\000\000\b\000\000\000\000\000\000"
	.size	.Lluossavin_x86_64.static.3, 72

	.type	.Lluossavin_x86_64.static.4,@object
	.section	.rodata..Lluossavin_x86_64.static.4,"a",@progbits
	.p2align	3, 0x0
.Lluossavin_x86_64.static.4:
	.asciz	"\001\000\000\000\000\000\000\000\001\000\000\000\000\000\000\000\002\000\000\000\000\000\000\000\004\000\000\000\000\000\000\000\004\000\000\000\000\000\000"
	.size	.Lluossavin_x86_64.static.4, 40

	.type	.Lluossavin_x86_64.static.5,@object
	.section	.rodata..Lluossavin_x86_64.static.5,"a",@progbits
	.p2align	2, 0x0
.Lluossavin_x86_64.static.5:
	.ascii	"\025\016\007\0001*#\034MF?8ib[T\205~wp\241\232\223\214\275\266\257\250\331\322\313\304\365\356\347\340\021\n\003\374-&\037\030IB;4e^WP\201zsl\235\226\217\210\271\262\253\244\325\316\307\300\361\352\343\334\r\006\377\370)\"\033\024E>70aZSL}voh\231\222\213\204\265\256\247\240\321\312\303\274\355\346\337\330\t\002\373\364%\036\027\020A:3,]VOHyrkd"
	.size	.Lluossavin_x86_64.static.5, 128

	.type	.Lluossavin_x86_64.switch.table.luossavin_edition_opens_x86_64,@object
	.section	.rodata..Lluossavin_x86_64.switch.table.luossavin_edition_opens_x86_64,"a",@progbits
	.p2align	3, 0x0
.Lluossavin_x86_64.switch.table.luossavin_edition_opens_x86_64:
	.quad	1
	.quad	2
	.quad	3
	.quad	4
	.quad	5
	.quad	6
	.quad	8
	.quad	9
	.quad	10
	.quad	11
	.quad	12
	.quad	13
	.quad	14
	.quad	15
	.size	.Lluossavin_x86_64.switch.table.luossavin_edition_opens_x86_64, 112

	.type	.Lluossavin_x86_64.switch.table.luossavin_which_x86_64,@object
	.section	.rodata..Lluossavin_x86_64.switch.table.luossavin_which_x86_64,"a",@progbits
	.p2align	2, 0x0
.Lluossavin_x86_64.switch.table.luossavin_which_x86_64:
	.long	1
	.long	2
	.long	3
	.long	4
	.long	5
	.long	6
	.long	8
	.long	9
	.long	10
	.long	11
	.long	12
	.long	13
	.long	14
	.long	15
	.size	.Lluossavin_x86_64.switch.table.luossavin_which_x86_64, 56

	.section	".note.GNU-stack","",@progbits
