	.file	"rattle"
	.section	.rodata.cst16,"aM",@progbits,16
	.p2align	4, 0x0
.Lluossavin_x86_64_v3.CPI0_0:
	.byte	3
	.byte	2
	.byte	1
	.byte	0
	.byte	7
	.byte	6
	.byte	5
	.byte	4
	.byte	11
	.byte	10
	.byte	9
	.byte	8
	.byte	15
	.byte	14
	.byte	13
	.byte	12
	.section	".text.cipher_mode::Sm4Cipher::call.x86_64_v3","ax",@progbits
	.p2align	4
	.type	"cipher_mode::Sm4Cipher::call.x86_64_v3",@function
"cipher_mode::Sm4Cipher::call.x86_64_v3":
	pushq	%rbp
	pushq	%r15
	pushq	%r14
	pushq	%r13
	pushq	%r12
	pushq	%rbx
	subq	$168, %rsp
	movzbl	128(%rsi), %ebp
	movzwl	130(%rsi), %ebx
	testl	%ebp, %ebp
	je	.Lluossavin_x86_64_v3.BB0_3
	cmpl	$1, %ebp
	jne	.Lluossavin_x86_64_v3.BB0_7
	xorl	%eax, %eax
	movl	%ebp, %r14d
	jmp	.Lluossavin_x86_64_v3.BB0_9
.Lluossavin_x86_64_v3.BB0_3:
	movb	$1, %r14b
	cmpq	$16, %r8
	jne	.Lluossavin_x86_64_v3.BB0_8
	movzbl	133(%rsi), %r13d
	testb	%dl, %dl
	jne	.Lluossavin_x86_64_v3.BB0_11
	testb	$1, 132(%rsi)
	je	.Lluossavin_x86_64_v3.BB0_11
	xorl	%ecx, %ecx
	movb	$12, %al
	jmp	.Lluossavin_x86_64_v3.BB0_10
.Lluossavin_x86_64_v3.BB0_7:
	movb	$11, %al
	movb	$1, %r14b
	jmp	.Lluossavin_x86_64_v3.BB0_9
.Lluossavin_x86_64_v3.BB0_8:
	movb	$9, %al
.Lluossavin_x86_64_v3.BB0_9:
	xorl	%ecx, %ecx
.Lluossavin_x86_64_v3.BB0_10:
	xorl	%edx, %edx
	testb	%bpl, %bpl
	cmovnel	%edx, %ebx
	movb	%r14b, (%rdi)
	movb	%al, 1(%rdi)
	movl	$0, 2(%rdi)
	movw	$0, 6(%rdi)
	movq	%rcx, 8(%rdi)
	movq	$0, 16(%rdi)
	movw	%bx, 24(%rdi)
	movl	$0, 26(%rdi)
	movw	$0, 30(%rdi)
	addq	$168, %rsp
	popq	%rbx
	popq	%r12
	popq	%r13
	popq	%r14
	popq	%r15
	popq	%rbp
	retq
.Lluossavin_x86_64_v3.BB0_11:
	cmpq	$16, 224(%rsp)
	jae	.Lluossavin_x86_64_v3.BB0_13
	movb	$5, %al
	jmp	.Lluossavin_x86_64_v3.BB0_9
.Lluossavin_x86_64_v3.BB0_13:
	movq	%r9, %r12
	movq	%rdi, %r15
	vxorps	%xmm0, %xmm0, %xmm0
	vmovaps	%xmm0, (%rsp)
	vmovups	(%rsi), %ymm0
	vmovups	32(%rsi), %ymm1
	vmovups	64(%rsi), %ymm2
	vmovups	96(%rsi), %ymm3
	vmovups	%ymm0, 32(%rsp)
	vmovups	%ymm1, 64(%rsp)
	vmovups	%ymm2, 96(%rsp)
	vmovups	%ymm3, 128(%rsp)
	cmpb	$1, %dl
	jne	.Lluossavin_x86_64_v3.BB0_15
	leaq	96(%rsp), %rsi
	leaq	32(%rsp), %rdi
	movq	%rcx, %r14
	vzeroupper
	callq	"core::slice::edits::mirror::<i32>.x86_64_v3"
	movq	%r14, %rcx
.Lluossavin_x86_64_v3.BB0_15:
	decb	%r13b
	xorl	%r14d, %r14d
	cmpb	$3, %r13b
	movzbl	%r13b, %esi
	cmovael	%r14d, %esi
	vmovdqu	(%rcx), %xmm0
	vpshufb	.Lluossavin_x86_64_v3.CPI0_0(%rip), %xmm0, %xmm0
	vmovdqa	%xmm0, 16(%rsp)
	movq	%rsp, %rdi
	leaq	32(%rsp), %rdx
	leaq	16(%rsp), %rcx
	vzeroupper
	callq	"cipher::encrypt.x86_64_v3"
	vmovdqa	(%rsp), %xmm0
	vpshufb	.Lluossavin_x86_64_v3.CPI0_0(%rip), %xmm0, %xmm0
	vmovdqu	%xmm0, (%r12)
	movl	$16, %ecx
	xorl	%eax, %eax
	movq	%r15, %rdi
	jmp	.Lluossavin_x86_64_v3.BB0_10
.Lluossavin_x86_64_v3.func_end0:
	.size	"cipher_mode::Sm4Cipher::call.x86_64_v3", .Lluossavin_x86_64_v3.func_end0-"cipher_mode::Sm4Cipher::call.x86_64_v3"

	.section	".text.core::slice::edits::mirror::<i32>.x86_64_v3","ax",@progbits
	.p2align	4
	.type	"core::slice::edits::mirror::<i32>.x86_64_v3",@function
"core::slice::edits::mirror::<i32>.x86_64_v3":
	movl	(%rdi), %eax
	movl	60(%rsi), %ecx
	movl	%ecx, (%rdi)
	movl	%eax, 60(%rsi)
	movl	4(%rdi), %eax
	movl	56(%rsi), %ecx
	movl	%ecx, 4(%rdi)
	movl	%eax, 56(%rsi)
	movl	8(%rdi), %eax
	movl	52(%rsi), %ecx
	movl	%ecx, 8(%rdi)
	movl	%eax, 52(%rsi)
	movl	12(%rdi), %eax
	movl	48(%rsi), %ecx
	movl	%ecx, 12(%rdi)
	movl	%eax, 48(%rsi)
	movl	16(%rdi), %eax
	movl	44(%rsi), %ecx
	movl	%ecx, 16(%rdi)
	movl	%eax, 44(%rsi)
	movl	20(%rdi), %eax
	movl	40(%rsi), %ecx
	movl	%ecx, 20(%rdi)
	movl	%eax, 40(%rsi)
	movl	24(%rdi), %eax
	movl	36(%rsi), %ecx
	movl	%ecx, 24(%rdi)
	movl	%eax, 36(%rsi)
	movl	28(%rdi), %eax
	movl	32(%rsi), %ecx
	movl	%ecx, 28(%rdi)
	movl	%eax, 32(%rsi)
	movl	32(%rdi), %eax
	movl	28(%rsi), %ecx
	movl	%ecx, 32(%rdi)
	movl	%eax, 28(%rsi)
	movl	36(%rdi), %eax
	movl	24(%rsi), %ecx
	movl	%ecx, 36(%rdi)
	movl	%eax, 24(%rsi)
	movl	40(%rdi), %eax
	movl	20(%rsi), %ecx
	movl	%ecx, 40(%rdi)
	movl	%eax, 20(%rsi)
	movl	44(%rdi), %eax
	movl	16(%rsi), %ecx
	movl	%ecx, 44(%rdi)
	movl	%eax, 16(%rsi)
	movl	48(%rdi), %eax
	movl	12(%rsi), %ecx
	movl	%ecx, 48(%rdi)
	movl	%eax, 12(%rsi)
	movl	52(%rdi), %eax
	movl	8(%rsi), %ecx
	movl	%ecx, 52(%rdi)
	movl	%eax, 8(%rsi)
	movl	56(%rdi), %eax
	movl	4(%rsi), %ecx
	movl	%ecx, 56(%rdi)
	movl	%eax, 4(%rsi)
	movl	60(%rdi), %eax
	movl	(%rsi), %ecx
	movl	%ecx, 60(%rdi)
	movl	%eax, (%rsi)
	retq
.Lluossavin_x86_64_v3.func_end1:
	.size	"core::slice::edits::mirror::<i32>.x86_64_v3", .Lluossavin_x86_64_v3.func_end1-"core::slice::edits::mirror::<i32>.x86_64_v3"

	.section	".text.cipher::encrypt.x86_64_v3","ax",@progbits
	.p2align	4
	.type	"cipher::encrypt.x86_64_v3",@function
"cipher::encrypt.x86_64_v3":
	pushq	%rbp
	pushq	%r15
	pushq	%r14
	pushq	%r13
	pushq	%r12
	pushq	%rbx
	subq	$120, %rsp
	movq	%rdi, %r11
	movl	(%rcx), %r14d
	movl	4(%rcx), %r12d
	movl	8(%rcx), %ebp
	movl	12(%rcx), %r10d
	cmpb	$2, %sil
	je	.Lluossavin_x86_64_v3.BB2_9
	movzbl	%sil, %eax
	cmpl	$1, %eax
	jne	.Lluossavin_x86_64_v3.BB2_2
	movq	%r11, -48(%rsp)
	vmovups	(%rdx), %ymm0
	vmovups	32(%rdx), %ymm1
	vmovups	64(%rdx), %ymm2
	vmovups	96(%rdx), %ymm3
	vmovups	%ymm3, 80(%rsp)
	vmovups	%ymm2, 48(%rsp)
	vmovups	%ymm1, 16(%rsp)
	vmovups	%ymm0, -16(%rsp)
	leaq	-16(%rsp), %rax
	movl	$32, %ecx
	.p2align	4
.Lluossavin_x86_64_v3.BB2_6:
	movq	%rcx, -40(%rsp)
	xorl	%ecx, %ecx
	movq	%rax, -56(%rsp)
	.p2align	4
.Lluossavin_x86_64_v3.BB2_7:
	movq	%rcx, -24(%rsp)
	movl	%r14d, -60(%rsp)
	movl	%r12d, -64(%rsp)
	movl	%ebp, %r13d
	movl	%ebp, -72(%rsp)
	movl	%r10d, -68(%rsp)
	movq	-56(%rsp), %rax
	movl	(%rax,%rcx,4), %eax
	xorl	%r10d, %eax
	xorl	%r12d, %r13d
	xorl	%eax, %r13d
	movl	%r13d, %eax
	shrl	%eax
	movl	%eax, %edx
	movl	%r13d, %r12d
	shrl	$2, %r12d
	movl	%r13d, %r10d
	shrl	$3, %r10d
	movl	%r13d, %ecx
	shrl	$4, %ecx
	movl	%r13d, %eax
	shrl	$5, %eax
	movl	%r13d, %r8d
	shrl	$7, %r8d
	movl	%eax, %r15d
	xorl	%r10d, %r15d
	movl	%r8d, %edi
	movl	%r8d, %ebx
	xorl	%ecx, %edi
	movl	%edi, %esi
	movq	%rdi, %r8
	xorl	%r13d, %esi
	movl	%r15d, %r14d
	xorl	%r13d, %r14d
	movl	%esi, %ebp
	xorl	%r10d, %ebp
	xorl	%r12d, %ecx
	movl	%r14d, %edi
	xorl	%ecx, %edi
	movl	%edi, -128(%rsp)
	xorl	%edx, %r10d
	xorl	%ecx, %r10d
	movl	%r10d, -108(%rsp)
	movl	%r8d, -112(%rsp)
	xorl	%eax, %r8d
	movq	%r8, -32(%rsp)
	movl	%eax, %edi
	xorl	%edx, %edi
	movl	%edx, %ecx
	movl	%edx, -116(%rsp)
	movl	%edi, %edx
	xorl	%r13d, %edx
	movl	%edx, -76(%rsp)
	movl	%r8d, %eax
	andl	%edx, %eax
	andnl	%r15d, %r13d, %edx
	movl	%r13d, -96(%rsp)
	xorl	%ecx, %edx
	xorl	%eax, %edx
	xorl	%esi, %edx
	movl	%esi, %r8d
	shrl	$6, %r13d
	movl	%r13d, %esi
	xorl	%r12d, %esi
	movl	%esi, -100(%rsp)
	movl	%r15d, %r9d
	xorl	%ebx, %r9d
	movl	%esi, %r11d
	xorl	%ecx, %r11d
	movl	%r11d, -104(%rsp)
	xorl	%r12d, %r8d
	movl	%r14d, %eax
	movl	%r14d, -92(%rsp)
	movl	%r14d, %r10d
	xorl	%esi, %r10d
	movl	%r10d, -88(%rsp)
	movl	-112(%rsp), %ecx
	xorl	%edi, %ecx
	movl	%ecx, -112(%rsp)
	movl	%ebp, %r14d
	xorl	%r11d, %r14d
	movl	%r8d, %esi
	movl	%r8d, -120(%rsp)
	xorl	%edi, %esi
	movl	%esi, -84(%rsp)
	xorl	%eax, %ebx
	movl	%ebx, -80(%rsp)
	movl	%ecx, %eax
	andl	-108(%rsp), %eax
	movl	%ebx, %r11d
	andl	%r10d, %r11d
	xorl	%eax, %r11d
	movl	%esi, %ecx
	andl	%r14d, %ecx
	xorl	%eax, %ecx
	movl	%r9d, -124(%rsp)
	xorl	%r9d, %r12d
	movl	-100(%rsp), %esi
	andnl	%esi, %r9d, %eax
	xorl	%eax, %r12d
	movl	-104(%rsp), %r10d
	andnl	%r10d, %r8d, %ebx
	xorl	%ebx, %r12d
	xorl	%r15d, %r13d
	xorl	%eax, %r13d
	movl	-128(%rsp), %eax
	andl	-116(%rsp), %eax
	xorl	%eax, %r13d
	movl	-96(%rsp), %r9d
	andl	%r9d, %r15d
	andnl	%ebp, %edi, %eax
	xorl	%eax, %r15d
	xorl	%r11d, %r12d
	xorl	%r11d, %r15d
	xorl	%ecx, %r13d
	xorl	%ecx, %edx
	andnl	%r12d, %r15d, %ecx
	xorl	%r13d, %r12d
	notl	%r15d
	movl	%ecx, %ebx
	xorl	%edx, %ebx
	movl	%ebx, %eax
	andl	%r12d, %eax
	xorl	%r13d, %eax
	movl	%edx, %r11d
	xorl	%r15d, %r11d
	xorl	%ecx, %r13d
	andl	%r11d, %r13d
	movl	%r13d, %r11d
	xorl	%ecx, %r13d
	xorl	%edx, %r11d
	andl	%edx, %r13d
	xorl	%r13d, %r15d
	xorl	%ebx, %r13d
	andl	%eax, %r13d
	xorl	%r12d, %r13d
	andl	%r15d, %esi
	movl	-124(%rsp), %ecx
	andnl	%r15d, %ecx, %ecx
	movl	%ecx, -124(%rsp)
	xorl	%r11d, %r15d
	movl	%r13d, %r12d
	xorl	%r15d, %r12d
	andl	%r15d, %r10d
	movl	-120(%rsp), %ecx
	andnl	%r15d, %ecx, %ecx
	movl	%eax, %r15d
	xorl	%r11d, %r15d
	andl	%r11d, -116(%rsp)
	andl	-128(%rsp), %r11d
	andl	%r13d, %ebp
	movl	%ebp, -120(%rsp)
	andnl	%r13d, %edi, %ebx
	xorl	%eax, %r13d
	movl	-92(%rsp), %r8d
	andl	%r13d, %r8d
	andnl	%r13d, %r9d, %edx
	movl	%edx, -128(%rsp)
	movq	-32(%rsp), %r13
	andl	%eax, %r13d
	andl	-76(%rsp), %eax
	movl	%r12d, %ebp
	xorl	%r15d, %ebp
	movl	-112(%rsp), %edx
	andl	%r15d, %edx
	andl	-108(%rsp), %r15d
	movl	-88(%rsp), %edi
	andl	%ebp, %edi
	andl	-80(%rsp), %ebp
	andl	%r12d, %r14d
	andl	-84(%rsp), %r12d
	xorl	%r8d, %esi
	movl	%esi, %r9d
	xorl	%r8d, %edx
	xorl	%r14d, %r13d
	xorl	%r13d, %ecx
	xorl	%esi, %r10d
	xorl	%ecx, %edx
	movl	%ecx, %esi
	xorl	%edi, %esi
	xorl	%r10d, %esi
	movl	%r10d, %r8d
	movl	-120(%rsp), %ecx
	xorl	%ecx, %r8d
	xorl	%ecx, %edi
	xorl	%r12d, %r11d
	xorl	%r15d, %eax
	xorl	%r12d, %eax
	movl	-124(%rsp), %r10d
	xorl	%r10d, %ebx
	movl	-128(%rsp), %ecx
	xorl	%ecx, %ebx
	xorl	%ecx, %eax
	xorl	%ebp, %r11d
	movl	%r11d, %ecx
	xorl	%ebx, %ecx
	xorl	%r8d, %eax
	xorl	%r8d, %ecx
	xorl	-116(%rsp), %r14d
	xorl	%r9d, %r14d
	movl	-72(%rsp), %r12d
	xorl	%edi, %r13d
	xorl	%edi, %r14d
	xorl	%r10d, %r15d
	xorl	%ebp, %r15d
	movl	-68(%rsp), %ebp
	xorl	%esi, %r15d
	xorl	%edx, %r11d
	xorl	%ebx, %edx
	xorl	%ebx, %esi
	notl	%r14d
	andl	$16843009, %r14d
	andl	$16843009, %r15d
	leal	(%r15,%r14,2), %edi
	andl	$16843009, %eax
	addl	%eax, %eax
	leal	(%rax,%rdi,4), %eax
	andl	$16843009, %edx
	orl	%eax, %edx
	andl	$16843009, %r13d
	andl	$16843009, %ecx
	leal	(%rcx,%r13,2), %eax
	movl	-64(%rsp), %r14d
	notl	%esi
	andl	$16843009, %esi
	andl	$16843009, %r11d
	leal	(%r11,%rsi,2), %ecx
	shll	$4, %edx
	leal	(%rcx,%rax,4), %eax
	orl	%edx, %eax
	xorl	$1364283729, %eax
	rorxl	$30, %eax, %ecx
	xorl	-60(%rsp), %ecx
	rorxl	$22, %eax, %edx
	rorxl	$14, %eax, %esi
	xorl	%edx, %esi
	xorl	%ecx, %esi
	movq	-24(%rsp), %rcx
	rorxl	$8, %eax, %r10d
	xorl	%eax, %r10d
	movq	-56(%rsp), %rax
	xorl	%esi, %r10d
	incq	%rcx
	cmpq	$4, %rcx
	jne	.Lluossavin_x86_64_v3.BB2_7
	addq	$16, %rax
	movq	-40(%rsp), %rcx
	addq	$-4, %rcx
	jne	.Lluossavin_x86_64_v3.BB2_6
	movq	-48(%rsp), %r11
	jmp	.Lluossavin_x86_64_v3.BB2_11
.Lluossavin_x86_64_v3.BB2_9:
	vmovups	(%rdx), %ymm0
	vmovups	32(%rdx), %ymm1
	vmovups	64(%rdx), %ymm2
	vmovups	96(%rdx), %ymm3
	vmovups	%ymm3, 80(%rsp)
	vmovups	%ymm2, 48(%rsp)
	vmovups	%ymm1, 16(%rsp)
	vmovups	%ymm0, -16(%rsp)
	xorl	%ecx, %ecx
	.p2align	4
.Lluossavin_x86_64_v3.BB2_10:
	movl	-16(%rsp,%rcx,4), %edx
	xorl	%r10d, %edx
	movl	%ebp, %eax
	xorl	%r12d, %eax
	xorl	%edx, %eax
	movl	%eax, %edx
	movzbl	%al, %esi
	movzbl	%ah, %edi
	movl	%eax, %r8d
	shrl	$16, %r8d
	shrl	$24, %edx
	leaq	.Lluossavin_x86_64_v3.static.1(%rip), %rax
	movzbl	(%rsi,%rax), %esi
	movzbl	(%rdi,%rax), %edi
	movzbl	%r8b, %r8d
	movzbl	(%r8,%rax), %r8d
	movzbl	(%rdx,%rax), %edx
	shll	$24, %edx
	shll	$16, %r8d
	shll	$8, %edi
	orl	%esi, %edi
	orl	%r8d, %edi
	orl	%edx, %edi
	rorxl	$30, %edi, %edx
	xorl	%r14d, %edx
	rorxl	$22, %edi, %esi
	rorxl	$14, %edi, %r8d
	xorl	%esi, %r8d
	xorl	%edx, %r8d
	rorxl	$8, %edi, %r14d
	xorl	%edi, %r14d
	xorl	%r8d, %r14d
	movl	-12(%rsp,%rcx,4), %edx
	xorl	%r10d, %edx
	xorl	%ebp, %edx
	xorl	%r14d, %edx
	movl	%edx, %esi
	movzbl	%dl, %edi
	movzbl	%dh, %ebx
	shrl	$16, %edx
	shrl	$24, %esi
	movzbl	(%rdi,%rax), %edi
	movzbl	(%rbx,%rax), %r8d
	movzbl	%dl, %edx
	movzbl	(%rdx,%rax), %edx
	movzbl	(%rsi,%rax), %esi
	shll	$24, %esi
	shll	$16, %edx
	shll	$8, %r8d
	orl	%edi, %r8d
	orl	%edx, %r8d
	orl	%esi, %r8d
	rorxl	$30, %r8d, %edx
	rorxl	$22, %r8d, %esi
	xorl	%edx, %esi
	rorxl	$14, %r8d, %edx
	rorxl	$8, %r8d, %edi
	xorl	%edx, %edi
	xorl	%esi, %edi
	xorl	%r8d, %r12d
	xorl	%edi, %r12d
	movl	-8(%rsp,%rcx,4), %edx
	xorl	%r10d, %edx
	xorl	%r14d, %edx
	xorl	%r12d, %edx
	movl	%edx, %esi
	movzbl	%dl, %edi
	movzbl	%dh, %ebx
	shrl	$16, %edx
	shrl	$24, %esi
	movzbl	(%rdi,%rax), %edi
	movzbl	(%rbx,%rax), %r8d
	movzbl	%dl, %edx
	movzbl	(%rdx,%rax), %edx
	movzbl	(%rsi,%rax), %esi
	shll	$24, %esi
	shll	$16, %edx
	shll	$8, %r8d
	orl	%edi, %r8d
	orl	%edx, %r8d
	orl	%esi, %r8d
	rorxl	$30, %r8d, %edx
	rorxl	$22, %r8d, %esi
	xorl	%edx, %esi
	rorxl	$14, %r8d, %edx
	rorxl	$8, %r8d, %edi
	xorl	%edx, %edi
	xorl	%esi, %edi
	xorl	%r8d, %ebp
	xorl	%edi, %ebp
	movl	-4(%rsp,%rcx,4), %edx
	xorl	%r14d, %edx
	xorl	%r12d, %edx
	xorl	%ebp, %edx
	movl	%edx, %esi
	movzbl	%dl, %edi
	movzbl	%dh, %ebx
	shrl	$16, %edx
	shrl	$24, %esi
	movzbl	(%rdi,%rax), %edi
	movzbl	(%rbx,%rax), %r8d
	movzbl	%dl, %edx
	movzbl	(%rdx,%rax), %edx
	movzbl	(%rsi,%rax), %eax
	shll	$24, %eax
	shll	$16, %edx
	shll	$8, %r8d
	orl	%edi, %r8d
	orl	%edx, %r8d
	orl	%eax, %r8d
	rorxl	$30, %r8d, %eax
	rorxl	$22, %r8d, %edx
	xorl	%eax, %edx
	rorxl	$14, %r8d, %eax
	rorxl	$8, %r8d, %esi
	xorl	%eax, %esi
	xorl	%edx, %esi
	xorl	%r8d, %r10d
	xorl	%esi, %r10d
	addq	$4, %rcx
	cmpq	$32, %rcx
	jne	.Lluossavin_x86_64_v3.BB2_10
	jmp	.Lluossavin_x86_64_v3.BB2_11
.Lluossavin_x86_64_v3.BB2_2:
	vmovups	(%rdx), %ymm0
	vmovups	32(%rdx), %ymm1
	vmovups	64(%rdx), %ymm2
	vmovups	96(%rdx), %ymm3
	vmovups	%ymm3, 80(%rsp)
	vmovups	%ymm2, 48(%rsp)
	vmovups	%ymm1, 16(%rsp)
	vmovups	%ymm0, -16(%rsp)
	xorl	%eax, %eax
	.p2align	4
.Lluossavin_x86_64_v3.BB2_3:
	movl	%r12d, %edi
	movl	%ebp, %esi
	movl	%r10d, %ecx
	movl	-16(%rsp,%rax,4), %edx
	xorl	%r10d, %edx
	movl	%ebp, %ebx
	xorl	%r12d, %ebx
	xorl	%edx, %ebx
	movzbl	%bl, %r8d
	leaq	.Lluossavin_x86_64_v3.static.0(%rip), %rdx
	movzbl	%bh, %ebp
	movl	%ebx, %r9d
	shrl	$14, %r9d
	andl	$1020, %r9d
	shrl	$24, %ebx
	xorl	3072(%rdx,%r8,4), %r14d
	xorl	2048(%rdx,%rbp,4), %r14d
	xorl	1024(%r9,%rdx), %r14d
	xorl	(%rdx,%rbx,4), %r14d
	movl	-12(%rsp,%rax,4), %ebx
	xorl	%r10d, %ebx
	xorl	%esi, %ebx
	xorl	%r14d, %ebx
	movzbl	%bl, %r8d
	movl	3072(%rdx,%r8,4), %r12d
	movzbl	%bh, %ebp
	movl	%ebx, %r8d
	shrl	$14, %r8d
	andl	$1020, %r8d
	shrl	$24, %ebx
	xorl	2048(%rdx,%rbp,4), %r12d
	xorl	1024(%r8,%rdx), %r12d
	xorl	(%rdx,%rbx,4), %r12d
	xorl	%edi, %r12d
	movl	-8(%rsp,%rax,4), %ebx
	xorl	%r10d, %ebx
	xorl	%r14d, %ebx
	xorl	%r12d, %ebx
	movzbl	%bl, %edi
	movl	3072(%rdx,%rdi,4), %ebp
	movzbl	%bh, %edi
	movl	%ebx, %r8d
	shrl	$14, %r8d
	andl	$1020, %r8d
	xorl	2048(%rdx,%rdi,4), %ebp
	xorl	1024(%r8,%rdx), %ebp
	shrl	$24, %ebx
	xorl	(%rdx,%rbx,4), %ebp
	xorl	%esi, %ebp
	movl	-4(%rsp,%rax,4), %ebx
	xorl	%r14d, %ebx
	xorl	%r12d, %ebx
	xorl	%ebp, %ebx
	movzbl	%bl, %esi
	movl	3072(%rdx,%rsi,4), %r10d
	movzbl	%bh, %esi
	movl	%ebx, %edi
	shrl	$14, %edi
	andl	$1020, %edi
	shrl	$24, %ebx
	xorl	2048(%rdx,%rsi,4), %r10d
	xorl	1024(%rdi,%rdx), %r10d
	xorl	(%rdx,%rbx,4), %r10d
	xorl	%ecx, %r10d
	addq	$4, %rax
	cmpq	$32, %rax
	jne	.Lluossavin_x86_64_v3.BB2_3
.Lluossavin_x86_64_v3.BB2_11:
	movl	%r10d, (%r11)
	movl	%ebp, 4(%r11)
	movl	%r12d, 8(%r11)
	movl	%r14d, 12(%r11)
	addq	$120, %rsp
	popq	%rbx
	popq	%r12
	popq	%r13
	popq	%r14
	popq	%r15
	popq	%rbp
	vzeroupper
	retq
.Lluossavin_x86_64_v3.func_end2:
	.size	"cipher::encrypt.x86_64_v3", .Lluossavin_x86_64_v3.func_end2-"cipher::encrypt.x86_64_v3"

	.section	.rodata.cst16,"aM",@progbits,16
	.p2align	4, 0x0
.Lluossavin_x86_64_v3.CPI3_0:
	.byte	3
	.byte	2
	.byte	1
	.byte	0
	.byte	7
	.byte	6
	.byte	5
	.byte	4
	.byte	11
	.byte	10
	.byte	9
	.byte	8
	.byte	15
	.byte	14
	.byte	13
	.byte	12
	.section	".text.pieces::flow::run.x86_64_v3","ax",@progbits
	.p2align	4
	.type	"pieces::flow::run.x86_64_v3",@function
"pieces::flow::run.x86_64_v3":
	pushq	%rbp
	pushq	%r15
	pushq	%r14
	pushq	%r12
	pushq	%rbx
	subq	$256, %rsp
	movq	%rdi, %rbx
	movq	320(%rsp), %rax
	movq	312(%rsp), %rdi
	vmovups	(%rdx), %ymm0
	vmovups	32(%rdx), %ymm1
	vmovups	64(%rdx), %ymm2
	vmovups	96(%rdx), %ymm3
	vmovups	%ymm3, 224(%rsp)
	vmovups	%ymm2, 192(%rsp)
	vmovups	%ymm1, 160(%rsp)
	movq	304(%rsp), %rdx
	vmovups	%ymm0, 128(%rsp)
	vmovups	(%r8), %ymm0
	vmovups	%ymm0, 48(%rsp)
	movl	$16, %r8d
	subq	%r9, %r8
	cmpq	%r8, %rdi
	movq	%r8, %r10
	cmovbq	%rdi, %r10
	testq	%rdi, %rdi
	je	.Lluossavin_x86_64_v3.BB3_16
	leaq	(%rsp,%r9), %r11
	addq	$64, %r11
	cmpq	$4, %r10
	setb	%bpl
	movq	%rax, %r14
	subq	%rdx, %r14
	cmpq	$16, %r14
	setb	%r14b
	orb	%bpl, %r14b
	je	.Lluossavin_x86_64_v3.BB3_3
	xorl	%r14d, %r14d
	jmp	.Lluossavin_x86_64_v3.BB3_10
.Lluossavin_x86_64_v3.BB3_3:
	cmpq	$16, %r10
	jae	.Lluossavin_x86_64_v3.BB3_5
	xorl	%r14d, %r14d
	jmp	.Lluossavin_x86_64_v3.BB3_7
.Lluossavin_x86_64_v3.BB3_5:
	movl	%r10d, %r14d
	vmovups	(%rdx), %xmm0
	vxorps	(%r11), %xmm0, %xmm0
	andl	$16, %r14d
	vmovups	%xmm0, (%rax)
	cmpq	%r14, %r10
	je	.Lluossavin_x86_64_v3.BB3_16
	testb	$12, %r10b
	je	.Lluossavin_x86_64_v3.BB3_10
.Lluossavin_x86_64_v3.BB3_7:
	movq	%r14, %r15
	movl	%r10d, %r14d
	andl	$28, %r14d
	.p2align	4
.Lluossavin_x86_64_v3.BB3_8:
	movl	(%rdx,%r15), %ebp
	xorl	(%r11,%r15), %ebp
	movl	%ebp, (%rax,%r15)
	addq	$4, %r15
	cmpq	%r15, %r14
	jne	.Lluossavin_x86_64_v3.BB3_8
	cmpq	%r14, %r10
	je	.Lluossavin_x86_64_v3.BB3_16
.Lluossavin_x86_64_v3.BB3_10:
	movl	%r10d, %r12d
	subl	%r14d, %r12d
	movq	%r14, %r15
	andl	$7, %r12d
	je	.Lluossavin_x86_64_v3.BB3_13
	negq	%r12
	movq	%r14, %r15
	.p2align	4
.Lluossavin_x86_64_v3.BB3_12:
	movzbl	(%rdx,%r15), %ebp
	xorb	(%r11,%r15), %bpl
	movb	%bpl, (%rax,%r15)
	incq	%r15
	incq	%r12
	jne	.Lluossavin_x86_64_v3.BB3_12
.Lluossavin_x86_64_v3.BB3_13:
	subq	%r10, %r14
	cmpq	$-8, %r14
	ja	.Lluossavin_x86_64_v3.BB3_16
	leaq	48(%rsp), %r11
	addq	%r11, %r9
	addq	$23, %r9
	.p2align	4
.Lluossavin_x86_64_v3.BB3_15:
	movzbl	(%rdx,%r15), %r11d
	xorb	-7(%r9,%r15), %r11b
	movb	%r11b, (%rax,%r15)
	movzbl	1(%rdx,%r15), %r11d
	xorb	-6(%r9,%r15), %r11b
	movb	%r11b, 1(%rax,%r15)
	movzbl	2(%rdx,%r15), %r11d
	xorb	-5(%r9,%r15), %r11b
	movb	%r11b, 2(%rax,%r15)
	movzbl	3(%rdx,%r15), %r11d
	xorb	-4(%r9,%r15), %r11b
	movb	%r11b, 3(%rax,%r15)
	movzbl	4(%rdx,%r15), %r11d
	xorb	-3(%r9,%r15), %r11b
	movb	%r11b, 4(%rax,%r15)
	movzbl	5(%rdx,%r15), %r11d
	xorb	-2(%r9,%r15), %r11b
	movb	%r11b, 5(%rax,%r15)
	movzbl	6(%rdx,%r15), %r11d
	xorb	-1(%r9,%r15), %r11b
	movb	%r11b, 6(%rax,%r15)
	movzbl	7(%rdx,%r15), %r11d
	xorb	(%r9,%r15), %r11b
	movb	%r11b, 7(%rax,%r15)
	addq	$8, %r15
	cmpq	%r15, %r10
	jne	.Lluossavin_x86_64_v3.BB3_15
.Lluossavin_x86_64_v3.BB3_16:
	subq	%r8, %rdi
	jae	.Lluossavin_x86_64_v3.BB3_18
	vmovaps	48(%rsp), %xmm0
	vmovups	%xmm0, (%rbx)
	leaq	64(%rsp), %rax
	vmovups	(%rax), %xmm0
	jmp	.Lluossavin_x86_64_v3.BB3_22
.Lluossavin_x86_64_v3.BB3_18:
	movq	328(%rsp), %r9
	movq	48(%rsp), %r11
	movl	56(%rsp), %r14d
	movl	60(%rsp), %r10d
	addq	%r8, %rdx
	addq	%r8, %rax
	subq	%r8, %r9
	vxorps	%xmm0, %xmm0, %xmm0
	vmovups	%ymm0, 96(%rsp)
	testb	$1, %cl
	je	.Lluossavin_x86_64_v3.BB3_19
	movq	%r11, %r8
	shrq	$32, %r8
	bswapl	%r10d
	bswapl	%r14d
	bswapl	%r8d
	bswapl	%r11d
	incl	%r10d
	jmp	.Lluossavin_x86_64_v3.BB3_21
.Lluossavin_x86_64_v3.BB3_19:
	bswapq	%r11
	shlq	$32, %r10
	orq	%r14, %r10
	xorl	%r8d, %r8d
	cmpq	$-1, %r10
	bswapq	%r10
	sete	%r8b
	incq	%r10
	addq	%r11, %r8
	movq	%r8, %r11
	shrq	$32, %r11
	movq	%r10, %r14
	shrq	$32, %r14
.Lluossavin_x86_64_v3.BB3_21:
	movl	%r11d, 32(%rsp)
	movl	%r8d, 36(%rsp)
	movl	%r14d, 40(%rsp)
	movl	%r10d, 44(%rsp)
	addb	$3, %cl
	movq	%r9, 24(%rsp)
	movq	%rax, 16(%rsp)
	movq	%rdi, 8(%rsp)
	movq	%rdx, (%rsp)
	movzbl	%sil, %esi
	movzbl	%cl, %ecx
	leaq	96(%rsp), %rdi
	leaq	128(%rsp), %rdx
	leaq	32(%rsp), %r8
	movl	$1, %r9d
	vzeroupper
	callq	"stream::stream.x86_64_v3"
	vmovdqa	96(%rsp), %xmm0
	vmovaps	112(%rsp), %xmm1
	vmovaps	%xmm1, 80(%rsp)
	vpshufb	.Lluossavin_x86_64_v3.CPI3_0(%rip), %xmm0, %xmm0
	vmovdqu	%xmm0, (%rbx)
	vmovaps	80(%rsp), %xmm0
.Lluossavin_x86_64_v3.BB3_22:
	vmovups	%xmm0, 16(%rbx)
	addq	$256, %rsp
	popq	%rbx
	popq	%r12
	popq	%r14
	popq	%r15
	popq	%rbp
	vzeroupper
	retq
.Lluossavin_x86_64_v3.func_end3:
	.size	"pieces::flow::run.x86_64_v3", .Lluossavin_x86_64_v3.func_end3-"pieces::flow::run.x86_64_v3"

	.section	.rodata.cst16,"aM",@progbits,16
	.p2align	4, 0x0
.Lluossavin_x86_64_v3.CPI4_0:
	.byte	3
	.byte	2
	.byte	1
	.byte	0
	.byte	7
	.byte	6
	.byte	5
	.byte	4
	.byte	11
	.byte	10
	.byte	9
	.byte	8
	.byte	15
	.byte	14
	.byte	13
	.byte	12
.Lluossavin_x86_64_v3.CPI4_1:
	.long	0
	.long	0
	.long	0
	.long	1
	.section	".text.stream::stream.x86_64_v3","ax",@progbits
	.p2align	4
	.type	"stream::stream.x86_64_v3",@function
"stream::stream.x86_64_v3":
	pushq	%rbp
	pushq	%r15
	pushq	%r14
	pushq	%r13
	pushq	%r12
	pushq	%rbx
	subq	$696, %rsp
	movq	%rdi, %rbp
	movq	768(%rsp), %rbx
	movq	752(%rsp), %r14
	vmovdqu	(%r8), %xmm4
	vxorps	%xmm0, %xmm0, %xmm0
	vmovaps	%xmm0, 96(%rsp)
	movzbl	%cl, %r13d
	leaq	.Lluossavin_x86_64_v3.JTI4_0(%rip), %rax
	movslq	(%rax,%r13,4), %rcx
	addq	%rax, %rcx
	movl	%r9d, 36(%rsp)
	jmpq	*%rcx
.Lluossavin_x86_64_v3.BB4_1:
	movb	$1, %al
	xorl	%edi, %edi
	xorl	%ecx, %ecx
	cmpb	$1, %sil
	je	.Lluossavin_x86_64_v3.BB4_3
.Lluossavin_x86_64_v3.BB4_7:
	movq	%rbp, 40(%rsp)
	vmovdqu	(%rdx), %ymm0
	vmovdqu	32(%rdx), %ymm1
	vmovdqu	64(%rdx), %ymm2
	vmovdqu	96(%rdx), %ymm3
	vmovdqu	%ymm3, 240(%rsp)
	vmovdqu	%ymm2, 208(%rsp)
	vmovdqu	%ymm1, 176(%rsp)
	vmovdqu	%ymm0, 144(%rsp)
	movq	760(%rsp), %rbp
	shrq	$4, %rbp
	movzbl	%sil, %r12d
	je	.Lluossavin_x86_64_v3.BB4_15
	xorl	%r15d, %r15d
	jmp	.Lluossavin_x86_64_v3.BB4_11
	.p2align	4
.Lluossavin_x86_64_v3.BB4_9:
	vmovdqa	64(%rsp), %xmm0
	vpaddd	.Lluossavin_x86_64_v3.CPI4_1(%rip), %xmm0, %xmm3
	.p2align	4
.Lluossavin_x86_64_v3.BB4_10:
	addq	$16, %r15
	vmovdqa	%xmm3, %xmm4
	decq	%rbp
	je	.Lluossavin_x86_64_v3.BB4_16
.Lluossavin_x86_64_v3.BB4_11:
	vmovdqa	%xmm4, 64(%rsp)
	vmovdqa	%xmm4, 288(%rsp)
	vpxor	%xmm0, %xmm0, %xmm0
	vmovdqa	%xmm0, 432(%rsp)
	leaq	432(%rsp), %rdi
	leaq	144(%rsp), %rdx
	leaq	288(%rsp), %rcx
	movl	%r12d, %esi
	vzeroupper
	callq	"cipher::encrypt.x86_64_v3"
	vmovdqu	(%r14,%r15), %xmm0
	vmovdqa	.Lluossavin_x86_64_v3.CPI4_0(%rip), %xmm2
	vpshufb	%xmm2, %xmm0, %xmm0
	vmovdqa	432(%rsp), %xmm1
	vpxor	%xmm0, %xmm1, %xmm3
	vpshufb	%xmm2, %xmm3, %xmm2
	vmovdqu	%xmm2, (%rbx,%r15)
	leaq	.Lluossavin_x86_64_v3.JTI4_1(%rip), %rax
	movslq	(%rax,%r13,4), %rcx
	addq	%rax, %rcx
	jmpq	*%rcx
.Lluossavin_x86_64_v3.BB4_12:
	vmovdqa	%xmm0, %xmm3
	jmp	.Lluossavin_x86_64_v3.BB4_10
.Lluossavin_x86_64_v3.BB4_13:
	vmovdqa	%xmm1, %xmm3
	jmp	.Lluossavin_x86_64_v3.BB4_10
.Lluossavin_x86_64_v3.BB4_14:
	vmovdqa	64(%rsp), %xmm0
	vmovd	%xmm0, %eax
	vpextrd	$1, %xmm0, %ecx
	vpextrd	$2, %xmm0, %edx
	vpextrd	$3, %xmm0, %esi
	shlq	$32, %rdx
	orq	%rsi, %rdx
	shlq	$32, %rax
	orq	%rcx, %rax
	addq	$1, %rdx
	adcq	$0, %rax
	movq	%rdx, %rcx
	shrq	$32, %rcx
	movq	%rax, %rsi
	shrq	$32, %rsi
	vmovd	%esi, %xmm0
	vpinsrd	$1, %eax, %xmm0, %xmm0
	vpinsrd	$2, %ecx, %xmm0, %xmm0
	vpinsrd	$3, %edx, %xmm0, %xmm3
	jmp	.Lluossavin_x86_64_v3.BB4_10
.Lluossavin_x86_64_v3.BB4_15:
	vmovdqa	%xmm4, %xmm3
.Lluossavin_x86_64_v3.BB4_16:
	movq	760(%rsp), %r13
	movq	%r13, %r15
	andq	$15, %r15
	vmovdqa	%xmm3, 288(%rsp)
	vpxor	%xmm0, %xmm0, %xmm0
	vmovdqa	%xmm0, 432(%rsp)
	setne	%al
	movl	36(%rsp), %ecx
	orb	%al, %cl
	je	.Lluossavin_x86_64_v3.BB4_20
	leaq	432(%rsp), %rdi
	leaq	144(%rsp), %rdx
	leaq	288(%rsp), %rcx
	movl	%r12d, %esi
	vmovdqa	%xmm3, 64(%rsp)
	vzeroupper
	callq	"cipher::encrypt.x86_64_v3"
	vmovdqa	64(%rsp), %xmm3
	vmovdqa	432(%rsp), %xmm0
	vpshufb	.Lluossavin_x86_64_v3.CPI4_0(%rip), %xmm0, %xmm0
	vmovdqa	%xmm0, 48(%rsp)
	testq	%r15, %r15
	movq	40(%rsp), %rbp
	je	.Lluossavin_x86_64_v3.BB4_27
	movq	%r13, %rcx
	andq	$-16, %rcx
	movl	%r13d, %eax
	andl	$7, %eax
	cmpl	$8, %r15d
	jae	.Lluossavin_x86_64_v3.BB4_22
	xorl	%edx, %edx
	jmp	.Lluossavin_x86_64_v3.BB4_25
.Lluossavin_x86_64_v3.BB4_20:
	vmovdqa	%xmm0, 48(%rsp)
	movq	40(%rsp), %rbp
	jmp	.Lluossavin_x86_64_v3.BB4_27
.Lluossavin_x86_64_v3.BB4_2:
	movb	$1, %dil
	xorl	%eax, %eax
	xorl	%ecx, %ecx
	cmpb	$1, %sil
	jne	.Lluossavin_x86_64_v3.BB4_7
.Lluossavin_x86_64_v3.BB4_3:
	vmovups	(%rdx), %ymm0
	vmovups	32(%rdx), %ymm1
	vmovups	64(%rdx), %ymm2
	vmovups	96(%rdx), %ymm3
	vmovups	%ymm0, 560(%rsp)
	vmovups	%ymm1, 592(%rsp)
	vmovups	%ymm2, 624(%rsp)
	vmovups	%ymm3, 656(%rsp)
	vmovdqa	%xmm4, 416(%rsp)
	vmovdqu	(%rdx), %ymm0
	vmovdqu	32(%rdx), %ymm1
	vmovdqu	64(%rdx), %ymm2
	vmovups	96(%rdx), %ymm3
	vmovdqu	%ymm0, 432(%rsp)
	vmovdqu	%ymm1, 464(%rsp)
	vmovdqu	%ymm2, 496(%rsp)
	vmovups	%ymm3, 528(%rsp)
	vpxor	%xmm0, %xmm0, %xmm0
	vmovdqa	%xmm0, 112(%rsp)
	movq	$0, 128(%rsp)
	movzbl	%cl, %r8d
	testb	%al, %al
	movl	%r8d, 64(%rsp)
	je	.Lluossavin_x86_64_v3.BB4_21
	vmovdqu	(%rdx), %ymm0
	vmovdqu	32(%rdx), %ymm1
	vmovdqu	64(%rdx), %ymm2
	vmovups	96(%rdx), %ymm3
	vmovups	%ymm3, 384(%rsp)
	vmovdqu	%ymm2, 352(%rsp)
	vmovdqu	%ymm1, 320(%rsp)
	vmovdqu	%ymm0, 288(%rsp)
	movq	760(%rsp), %r13
	cmpq	$3072, %r13
	jae	.Lluossavin_x86_64_v3.BB4_28
	xorl	%r12d, %r12d
	jmp	.Lluossavin_x86_64_v3.BB4_31
.Lluossavin_x86_64_v3.BB4_6:
	movb	$1, %dil
	xorl	%eax, %eax
	movb	$1, %cl
	cmpb	$1, %sil
	je	.Lluossavin_x86_64_v3.BB4_3
	jmp	.Lluossavin_x86_64_v3.BB4_7
.Lluossavin_x86_64_v3.BB4_21:
	movq	%rbx, (%rsp)
	movl	%edi, %r12d
	leaq	112(%rsp), %rdi
	leaq	432(%rsp), %rsi
	leaq	416(%rsp), %rcx
	movl	%r8d, %edx
	movq	%r14, %r8
	movq	760(%rsp), %r13
	movl	%r9d, %r15d
	movq	%r13, %r9
	vzeroupper
	callq	"stream::batches::counters.x86_64_v3"
	movl	%r12d, %edi
	movl	%r15d, %r9d
	movq	128(%rsp), %r12
	jmp	.Lluossavin_x86_64_v3.BB4_32
.Lluossavin_x86_64_v3.BB4_22:
	andl	$8, %r13d
	leaq	(%r14,%rcx), %rsi
	addq	$7, %rsi
	leaq	(%rbx,%rcx), %rdi
	addq	$7, %rdi
	xorl	%edx, %edx
	.p2align	4
.Lluossavin_x86_64_v3.BB4_23:
	movzbl	-7(%rsi,%rdx), %r8d
	xorb	48(%rsp,%rdx), %r8b
	movb	%r8b, -7(%rdi,%rdx)
	movzbl	-6(%rsi,%rdx), %r8d
	xorb	49(%rsp,%rdx), %r8b
	movb	%r8b, -6(%rdi,%rdx)
	movzbl	-5(%rsi,%rdx), %r8d
	xorb	50(%rsp,%rdx), %r8b
	movb	%r8b, -5(%rdi,%rdx)
	movzbl	-4(%rsi,%rdx), %r8d
	xorb	51(%rsp,%rdx), %r8b
	movb	%r8b, -4(%rdi,%rdx)
	movzbl	-3(%rsi,%rdx), %r8d
	xorb	52(%rsp,%rdx), %r8b
	movb	%r8b, -3(%rdi,%rdx)
	movzbl	-2(%rsi,%rdx), %r8d
	xorb	53(%rsp,%rdx), %r8b
	movb	%r8b, -2(%rdi,%rdx)
	movzbl	-1(%rsi,%rdx), %r8d
	xorb	54(%rsp,%rdx), %r8b
	movb	%r8b, -1(%rdi,%rdx)
	movzbl	(%rsi,%rdx), %r8d
	xorb	55(%rsp,%rdx), %r8b
	movb	%r8b, (%rdi,%rdx)
	addq	$8, %rdx
	cmpq	%rdx, %r13
	jne	.Lluossavin_x86_64_v3.BB4_23
	testq	%rax, %rax
	je	.Lluossavin_x86_64_v3.BB4_27
.Lluossavin_x86_64_v3.BB4_25:
	addq	%rdx, %rcx
	addq	%rcx, %rbx
	addq	%rsp, %rdx
	addq	$48, %rdx
	addq	%rcx, %r14
	xorl	%ecx, %ecx
	.p2align	4
.Lluossavin_x86_64_v3.BB4_26:
	movzbl	(%r14,%rcx), %esi
	xorb	(%rdx,%rcx), %sil
	movb	%sil, (%rbx,%rcx)
	incq	%rcx
	cmpq	%rcx, %rax
	jne	.Lluossavin_x86_64_v3.BB4_26
.Lluossavin_x86_64_v3.BB4_27:
	vmovaps	48(%rsp), %xmm0
	jmp	.Lluossavin_x86_64_v3.BB4_56
.Lluossavin_x86_64_v3.BB4_28:
	movl	%edi, 40(%rsp)
	vmovups	(%rdx), %ymm0
	vmovdqu	32(%rdx), %ymm1
	vmovdqu	64(%rdx), %ymm2
	vmovups	96(%rdx), %ymm3
	vmovups	%ymm0, 144(%rsp)
	vmovdqu	%ymm1, 176(%rsp)
	vmovdqu	%ymm2, 208(%rsp)
	vmovups	%ymm3, 240(%rsp)
	vmovdqa	%xmm4, 80(%rsp)
	vxorps	%xmm0, %xmm0, %xmm0
	vmovaps	%xmm0, 272(%rsp)
	leaq	272(%rsp), %rdi
	leaq	144(%rsp), %rdx
	leaq	80(%rsp), %rcx
	movl	$1, %esi
	vzeroupper
	callq	"cipher::encrypt.x86_64_v3"
	vmovdqa	272(%rsp), %xmm0
	vpshufb	.Lluossavin_x86_64_v3.CPI4_0(%rip), %xmm0, %xmm0
	vpxor	(%r14), %xmm0, %xmm0
	vmovdqu	%xmm0, (%rbx)
	leaq	-16(%r13), %rax
	movl	$16, %r12d
	cmpq	$3072, %rax
	jb	.Lluossavin_x86_64_v3.BB4_30
	.p2align	4
.Lluossavin_x86_64_v3.BB4_29:
	movq	%r12, %r15
	shrq	$4, %rax
	cmpq	$512, %rax
	movl	$512, %r12d
	cmovbq	%rax, %r12
	leaq	(%r14,%r15), %rcx
	leaq	-16(%r14,%r15), %rdx
	leaq	(%rbx,%r15), %r8
	leaq	288(%rsp), %rdi
	movq	%r12, %rsi
	callq	"sliced::encrypt_xored.x86_64_v3"
	shll	$4, %r12d
	addq	%r15, %r12
	movq	%r13, %rax
	subq	%r12, %rax
	cmpq	$3071, %rax
	ja	.Lluossavin_x86_64_v3.BB4_29
.Lluossavin_x86_64_v3.BB4_30:
	vmovdqu	-16(%r14,%r12), %xmm0
	vpshufb	.Lluossavin_x86_64_v3.CPI4_0(%rip), %xmm0, %xmm4
	movl	36(%rsp), %r9d
	movl	40(%rsp), %edi
.Lluossavin_x86_64_v3.BB4_31:
	vmovdqa	%xmm4, 112(%rsp)
.Lluossavin_x86_64_v3.BB4_32:
	vmovdqa	112(%rsp), %xmm0
	vmovdqa	%xmm0, 80(%rsp)
	movq	%r13, %r15
	subq	%r12, %r15
	cmpq	$15, %r15
	ja	.Lluossavin_x86_64_v3.BB4_36
	vpxor	%xmm0, %xmm0, %xmm0
	vmovdqa	%xmm0, 144(%rsp)
	testb	%r9b, %r9b
	jne	.Lluossavin_x86_64_v3.BB4_42
	cmpq	%r12, %r13
	jne	.Lluossavin_x86_64_v3.BB4_42
	vmovdqa	%xmm0, 288(%rsp)
	jmp	.Lluossavin_x86_64_v3.BB4_54
.Lluossavin_x86_64_v3.BB4_36:
	movq	%rbp, 40(%rsp)
	vpxor	%xmm0, %xmm0, %xmm0
	vmovdqu	%ymm0, 288(%rsp)
	movq	%r15, 136(%rsp)
	movq	%r15, %rbp
	shrq	$10, %rbp
	vmovaps	80(%rsp), %xmm0
	vmovaps	%xmm0, 432(%rsp)
	movzbl	%dil, %edx
	movl	64(%rsp), %ecx
	je	.Lluossavin_x86_64_v3.BB4_39
	movq	752(%rsp), %rax
	leaq	(%rax,%r12), %r13
	movq	768(%rsp), %rax
	leaq	(%rax,%r12), %r15
	.p2align	4
.Lluossavin_x86_64_v3.BB4_38:
	movq	%r15, 16(%rsp)
	movq	%r13, 8(%rsp)
	movl	$0, (%rsp)
	leaq	288(%rsp), %rdi
	leaq	560(%rsp), %rsi
	leaq	432(%rsp), %r8
	movl	$64, %r9d
	movl	%ecx, %ebx
	movl	%edx, %r14d
	vzeroupper
	callq	"stream::few::few.x86_64_v3"
	movl	%r14d, %edx
	movl	%ebx, %ecx
	vmovaps	288(%rsp), %xmm0
	vmovaps	%xmm0, 432(%rsp)
	addq	$1024, %r15
	addq	$1024, %r13
	decq	%rbp
	jne	.Lluossavin_x86_64_v3.BB4_38
.Lluossavin_x86_64_v3.BB4_39:
	movq	136(%rsp), %r15
	movq	%r15, %r13
	andq	$-1024, %r13
	movq	752(%rsp), %r14
	leaq	(%r14,%r12), %r8
	addq	%r13, %r8
	movq	768(%rsp), %rbx
	leaq	(%rbx,%r12), %rsi
	addq	%r13, %rsi
	vxorps	%xmm0, %xmm0, %xmm0
	vmovups	%ymm0, 144(%rsp)
	movl	%r15d, %r9d
	shrl	$4, %r9d
	andl	$63, %r9d
	movq	%r15, %rax
	andq	$15, %rax
	setne	%al
	movl	36(%rsp), %edi
	orb	%al, %dil
	movq	%rsi, 16(%rsp)
	movq	%r8, 8(%rsp)
	movzbl	%dil, %eax
	movl	%eax, (%rsp)
	leaq	144(%rsp), %rdi
	leaq	560(%rsp), %rsi
	leaq	432(%rsp), %r8
	vzeroupper
	callq	"stream::few::few.x86_64_v3"
	movq	%r15, %rdx
	andq	$15, %rdx
	movq	40(%rsp), %rbp
	je	.Lluossavin_x86_64_v3.BB4_55
	movl	%r15d, %ecx
	andl	$1008, %ecx
	movl	%r15d, %eax
	andl	$7, %eax
	cmpl	$8, %edx
	jae	.Lluossavin_x86_64_v3.BB4_45
	xorl	%edx, %edx
	jmp	.Lluossavin_x86_64_v3.BB4_48
.Lluossavin_x86_64_v3.BB4_42:
	leaq	144(%rsp), %rdi
	leaq	560(%rsp), %rdx
	leaq	80(%rsp), %rcx
	movl	$1, %esi
	vzeroupper
	callq	"cipher::encrypt.x86_64_v3"
	leaq	(%rbx,%r12), %rdi
	leaq	(%r14,%r12), %rsi
	vmovdqa	144(%rsp), %xmm0
	vpshufb	.Lluossavin_x86_64_v3.CPI4_0(%rip), %xmm0, %xmm0
	vmovdqa	%xmm0, 288(%rsp)
	cmpq	%r12, %r13
	je	.Lluossavin_x86_64_v3.BB4_54
	cmpq	$8, %r15
	setb	%al
	subq	%r14, %rbx
	cmpq	$64, %rbx
	setb	%cl
	orb	%al, %cl
	je	.Lluossavin_x86_64_v3.BB4_50
	xorl	%eax, %eax
	jmp	.Lluossavin_x86_64_v3.BB4_52
.Lluossavin_x86_64_v3.BB4_45:
	andl	$8, %r15d
	leaq	(%r12,%r13), %rdx
	addq	%rcx, %rdx
	leaq	(%r14,%rdx), %rsi
	addq	$7, %rsi
	leaq	(%rbx,%rdx), %rdi
	addq	$7, %rdi
	xorl	%edx, %edx
	.p2align	4
.Lluossavin_x86_64_v3.BB4_46:
	movzbl	-7(%rsi,%rdx), %r8d
	xorb	160(%rsp,%rdx), %r8b
	movb	%r8b, -7(%rdi,%rdx)
	movzbl	-6(%rsi,%rdx), %r8d
	xorb	161(%rsp,%rdx), %r8b
	movb	%r8b, -6(%rdi,%rdx)
	movzbl	-5(%rsi,%rdx), %r8d
	xorb	162(%rsp,%rdx), %r8b
	movb	%r8b, -5(%rdi,%rdx)
	movzbl	-4(%rsi,%rdx), %r8d
	xorb	163(%rsp,%rdx), %r8b
	movb	%r8b, -4(%rdi,%rdx)
	movzbl	-3(%rsi,%rdx), %r8d
	xorb	164(%rsp,%rdx), %r8b
	movb	%r8b, -3(%rdi,%rdx)
	movzbl	-2(%rsi,%rdx), %r8d
	xorb	165(%rsp,%rdx), %r8b
	movb	%r8b, -2(%rdi,%rdx)
	movzbl	-1(%rsi,%rdx), %r8d
	xorb	166(%rsp,%rdx), %r8b
	movb	%r8b, -1(%rdi,%rdx)
	movzbl	(%rsi,%rdx), %r8d
	xorb	167(%rsp,%rdx), %r8b
	movb	%r8b, (%rdi,%rdx)
	addq	$8, %rdx
	cmpq	%rdx, %r15
	jne	.Lluossavin_x86_64_v3.BB4_46
	testq	%rax, %rax
	je	.Lluossavin_x86_64_v3.BB4_55
.Lluossavin_x86_64_v3.BB4_48:
	addq	%rdx, %r12
	addq	%rcx, %r13
	addq	%r12, %r13
	addq	%r13, %rbx
	leaq	144(%rsp), %rcx
	addq	%rdx, %rcx
	addq	$16, %rcx
	addq	%r13, %r14
	xorl	%edx, %edx
	.p2align	4
.Lluossavin_x86_64_v3.BB4_49:
	movzbl	(%r14,%rdx), %esi
	xorb	(%rcx,%rdx), %sil
	movb	%sil, (%rbx,%rdx)
	incq	%rdx
	cmpq	%rdx, %rax
	jne	.Lluossavin_x86_64_v3.BB4_49
	jmp	.Lluossavin_x86_64_v3.BB4_55
.Lluossavin_x86_64_v3.BB4_50:
	movl	%r15d, %eax
	andl	$8, %eax
	xorl	%ecx, %ecx
	.p2align	4
.Lluossavin_x86_64_v3.BB4_51:
	movq	(%rsi,%rcx), %rdx
	xorq	288(%rsp,%rcx), %rdx
	movq	%rdx, (%rdi,%rcx)
	addq	$8, %rcx
	cmpq	%rcx, %rax
	jne	.Lluossavin_x86_64_v3.BB4_51
	jmp	.Lluossavin_x86_64_v3.BB4_53
.Lluossavin_x86_64_v3.BB4_52:
	movzbl	(%rsi,%rax), %ecx
	xorb	288(%rsp,%rax), %cl
	movb	%cl, (%rdi,%rax)
	incq	%rax
.Lluossavin_x86_64_v3.BB4_53:
	cmpq	%rax, %r15
	jne	.Lluossavin_x86_64_v3.BB4_52
.Lluossavin_x86_64_v3.BB4_54:
	vmovaps	80(%rsp), %xmm0
	vmovaps	%xmm0, 144(%rsp)
	vmovaps	288(%rsp), %xmm0
	vmovaps	%xmm0, 160(%rsp)
.Lluossavin_x86_64_v3.BB4_55:
	vmovdqa	144(%rsp), %xmm3
	vmovaps	160(%rsp), %xmm0
.Lluossavin_x86_64_v3.BB4_56:
	vmovaps	%xmm0, 96(%rsp)
	vmovdqu	%xmm3, (%rbp)
	vmovaps	96(%rsp), %xmm0
	vmovups	%xmm0, 16(%rbp)
	addq	$696, %rsp
	popq	%rbx
	popq	%r12
	popq	%r13
	popq	%r14
	popq	%r15
	popq	%rbp
	vzeroupper
	retq
.Lluossavin_x86_64_v3.func_end4:
	.size	"stream::stream.x86_64_v3", .Lluossavin_x86_64_v3.func_end4-"stream::stream.x86_64_v3"
	.section	".rodata.stream::stream.x86_64_v3","a",@progbits
	.p2align	2, 0x0
.Lluossavin_x86_64_v3.JTI4_0:
	.long	.Lluossavin_x86_64_v3.BB4_7-.Lluossavin_x86_64_v3.JTI4_0
	.long	.Lluossavin_x86_64_v3.BB4_1-.Lluossavin_x86_64_v3.JTI4_0
	.long	.Lluossavin_x86_64_v3.BB4_7-.Lluossavin_x86_64_v3.JTI4_0
	.long	.Lluossavin_x86_64_v3.BB4_6-.Lluossavin_x86_64_v3.JTI4_0
	.long	.Lluossavin_x86_64_v3.BB4_2-.Lluossavin_x86_64_v3.JTI4_0
.Lluossavin_x86_64_v3.JTI4_1:
	.long	.Lluossavin_x86_64_v3.BB4_10-.Lluossavin_x86_64_v3.JTI4_1
	.long	.Lluossavin_x86_64_v3.BB4_12-.Lluossavin_x86_64_v3.JTI4_1
	.long	.Lluossavin_x86_64_v3.BB4_13-.Lluossavin_x86_64_v3.JTI4_1
	.long	.Lluossavin_x86_64_v3.BB4_14-.Lluossavin_x86_64_v3.JTI4_1
	.long	.Lluossavin_x86_64_v3.BB4_9-.Lluossavin_x86_64_v3.JTI4_1

	.section	.rodata.cst32,"aM",@progbits,32
	.p2align	5, 0x0
.Lluossavin_x86_64_v3.CPI5_0:
	.byte	7
	.byte	6
	.byte	5
	.byte	4
	.byte	3
	.byte	2
	.byte	1
	.byte	0
	.byte	15
	.byte	14
	.byte	13
	.byte	12
	.byte	11
	.byte	10
	.byte	9
	.byte	8
	.byte	7
	.byte	6
	.byte	5
	.byte	4
	.byte	3
	.byte	2
	.byte	1
	.byte	0
	.byte	15
	.byte	14
	.byte	13
	.byte	12
	.byte	11
	.byte	10
	.byte	9
	.byte	8
	.section	.rodata.cst16,"aM",@progbits,16
	.p2align	4, 0x0
.Lluossavin_x86_64_v3.CPI5_1:
	.byte	7
	.byte	6
	.byte	5
	.byte	4
	.byte	3
	.byte	2
	.byte	1
	.byte	0
	.byte	15
	.byte	14
	.byte	13
	.byte	12
	.byte	11
	.byte	10
	.byte	9
	.byte	8
	.section	".text.sliced::encrypt_xored.x86_64_v3","ax",@progbits
	.p2align	4
	.type	"sliced::encrypt_xored.x86_64_v3",@function
"sliced::encrypt_xored.x86_64_v3":
	pushq	%rbp
	pushq	%r15
	pushq	%r14
	pushq	%r13
	pushq	%r12
	pushq	%rbx
	subq	$3072, %rsp
	movq	$0, (%rsp)
	subq	$3072, %rsp
	movq	$0, (%rsp)
	subq	$3072, %rsp
	movq	$0, (%rsp)
	subq	$3072, %rsp
	movq	$0, (%rsp)
	subq	$3072, %rsp
	movq	$0, (%rsp)
	subq	$3072, %rsp
	movq	$0, (%rsp)
	subq	$2200, %rsp
	movq	%r8, %rbx
	movq	%rcx, %r14
	movq	%rdx, %r13
	movq	%rsi, %r15
	movq	%rdi, %r12
	leaq	152(%rsp), %rdi
	movl	$8192, %edx
	xorl	%esi, %esi
	callq	memset@PLT
	testq	%r15, %r15
	je	.Lluossavin_x86_64_v3.BB5_7
	cmpq	$1, %r15
	jne	.Lluossavin_x86_64_v3.BB5_3
	xorl	%eax, %eax
	jmp	.Lluossavin_x86_64_v3.BB5_6
.Lluossavin_x86_64_v3.BB5_3:
	movq	%r15, %rcx
	andq	$-2, %rcx
	movl	$8, %edx
	xorl	%eax, %eax
	.p2align	4
.Lluossavin_x86_64_v3.BB5_4:
	movq	-16(%r13,%rdx,2), %rsi
	movq	-8(%r13,%rdx,2), %rdi
	leal	-8(%rdx), %r8d
	andl	$496, %r8d
	movq	%rax, %r9
	shrq	$6, %r9
	addq	%r9, %r8
	movbeq	%rsi, 152(%rsp,%r8,8)
	movbeq	%rdi, 4248(%rsp,%r8,8)
	movq	(%r13,%rdx,2), %rsi
	movq	8(%r13,%rdx,2), %rdi
	movl	%edx, %r8d
	andl	$504, %r8d
	addq	%r9, %r8
	movbeq	%rsi, 152(%rsp,%r8,8)
	movbeq	%rdi, 4248(%rsp,%r8,8)
	addq	$2, %rax
	addq	$16, %rdx
	cmpq	%rax, %rcx
	jne	.Lluossavin_x86_64_v3.BB5_4
	testb	$1, %r15b
	je	.Lluossavin_x86_64_v3.BB5_7
.Lluossavin_x86_64_v3.BB5_6:
	movq	%rax, %rcx
	shlq	$4, %rcx
	movq	(%r13,%rcx), %rdx
	movq	8(%r13,%rcx), %rcx
	movl	%eax, %esi
	andl	$63, %esi
	shrq	$6, %rax
	leaq	(%rax,%rsi,8), %rax
	movbeq	%rdx, 152(%rsp,%rax,8)
	movbeq	%rcx, 4248(%rsp,%rax,8)
.Lluossavin_x86_64_v3.BB5_7:
	movq	%r15, %rax
	shrq	$6, %rax
	movl	%r15d, %ecx
	andl	$63, %ecx
	cmpq	$1, %rcx
	sbbq	$-1, %rax
	leaq	.Lluossavin_x86_64_v3.static.3(%rip), %rcx
	vmovdqu	(%r12), %ymm0
	vmovdqu	32(%r12), %ymm1
	vmovdqu	64(%r12), %ymm2
	vmovdqu	96(%r12), %ymm3
	vmovdqu	%ymm0, 16(%rsp)
	vmovdqu	%ymm1, 48(%rsp)
	vmovdqu	%ymm2, 80(%rsp)
	movq	(%rcx,%rax,8), %rax
	movq	%rax, 8(%rsp)
	vmovdqu	%ymm3, 112(%rsp)
	leaq	16536(%rsp), %rdi
	movl	$4096, %edx
	xorl	%esi, %esi
	vzeroupper
	callq	memset@PLT
	leaq	10392(%rsp), %rbp
	leaq	152(%rsp), %r13
	movq	%r13, %rdi
	callq	"rows::transpose.x86_64_v3"
	movl	$2048, %edx
	movq	%rbp, %rdi
	movq	%r13, %rsi
	callq	memcpy@PLT
	leaq	2200(%rsp), %rsi
	leaq	8344(%rsp), %rdi
	movl	$2048, %edx
	callq	memcpy@PLT
	leaq	4248(%rsp), %r12
	leaq	14488(%rsp), %rbp
	movq	%r12, %rdi
	callq	"rows::transpose.x86_64_v3"
	movl	$2048, %edx
	movq	%rbp, %rdi
	movq	%r12, %rsi
	callq	memcpy@PLT
	leaq	6296(%rsp), %rsi
	movl	$2048, %edx
	leaq	12440(%rsp), %rdi
	callq	memcpy@PLT
	leaq	16(%rsp), %rsi
	leaq	8344(%rsp), %rdi
	movq	8(%rsp), %rdx
	movq	%r13, %rcx
	callq	"sliced::Planes::rounds_to_rows.x86_64_v3"
	testq	%r15, %r15
	je	.Lluossavin_x86_64_v3.BB5_24
	cmpq	$24, %r15
	jb	.Lluossavin_x86_64_v3.BB5_9
	leaq	-1(%r15), %rcx
	movq	%rcx, %rdx
	shlq	$4, %rdx
	leaq	(%r14,%rdx), %rsi
	xorl	%eax, %eax
	cmpq	%r14, %rsi
	jb	.Lluossavin_x86_64_v3.BB5_19
	leaq	(%rbx,%rdx), %rsi
	cmpq	%rbx, %rsi
	jb	.Lluossavin_x86_64_v3.BB5_19
	leaq	8(%rbx), %rsi
	addq	%rbx, %rdx
	addq	$8, %rdx
	cmpq	%rsi, %rdx
	jb	.Lluossavin_x86_64_v3.BB5_19
	shrq	$60, %rcx
	jne	.Lluossavin_x86_64_v3.BB5_19
	movq	%r15, %rax
	shlq	$4, %rax
	leaq	(%r14,%rax), %rcx
	addq	%rbx, %rax
	cmpq	%rax, %r14
	setb	%al
	cmpq	%rcx, %rbx
	setb	%cl
	testb	%cl, %al
	je	.Lluossavin_x86_64_v3.BB5_16
.Lluossavin_x86_64_v3.BB5_9:
	xorl	%eax, %eax
.Lluossavin_x86_64_v3.BB5_19:
	movq	%rax, %rcx
	orq	$1, %rcx
	testb	$1, %r15b
	je	.Lluossavin_x86_64_v3.BB5_21
	movq	%rax, %rdx
	shlq	$4, %rdx
	movl	%eax, %esi
	andl	$60, %esi
	shrq	$6, %rax
	leaq	(%rax,%rsi,8), %rax
	vmovq	4248(%rsp,%rax,8), %xmm0
	vmovq	152(%rsp,%rax,8), %xmm1
	vpunpcklqdq	%xmm0, %xmm1, %xmm0
	vpshufb	.Lluossavin_x86_64_v3.CPI5_1(%rip), %xmm0, %xmm0
	vpxor	(%r14,%rdx), %xmm0, %xmm0
	vmovdqu	%xmm0, (%rbx,%rdx)
	movq	%rcx, %rax
.Lluossavin_x86_64_v3.BB5_21:
	cmpq	%rcx, %r15
	je	.Lluossavin_x86_64_v3.BB5_24
	leaq	8(,%rax,8), %rcx
	.p2align	4
.Lluossavin_x86_64_v3.BB5_23:
	leal	-8(%rcx), %edx
	andl	$504, %edx
	movq	%rax, %rsi
	shrq	$6, %rsi
	addq	%rdx, %rsi
	vmovq	4248(%rsp,%rsi,8), %xmm0
	vmovq	152(%rsp,%rsi,8), %xmm1
	vpunpcklqdq	%xmm0, %xmm1, %xmm0
	vmovdqa	.Lluossavin_x86_64_v3.CPI5_1(%rip), %xmm1
	vpshufb	%xmm1, %xmm0, %xmm0
	vpxor	-16(%r14,%rcx,2), %xmm0, %xmm0
	vmovdqu	%xmm0, -16(%rbx,%rcx,2)
	leaq	1(%rax), %rdx
	movl	%ecx, %esi
	andl	$504, %esi
	shrq	$6, %rdx
	addq	%rsi, %rdx
	vmovq	4248(%rsp,%rdx,8), %xmm0
	vmovq	152(%rsp,%rdx,8), %xmm2
	vpunpcklqdq	%xmm0, %xmm2, %xmm0
	vpshufb	%xmm1, %xmm0, %xmm0
	vpxor	(%r14,%rcx,2), %xmm0, %xmm0
	vmovdqu	%xmm0, (%rbx,%rcx,2)
	addq	$2, %rax
	addq	$16, %rcx
	cmpq	%rax, %r15
	jne	.Lluossavin_x86_64_v3.BB5_23
.Lluossavin_x86_64_v3.BB5_24:
	addq	$20632, %rsp
	popq	%rbx
	popq	%r12
	popq	%r13
	popq	%r14
	popq	%r15
	popq	%rbp
	vzeroupper
	retq
.Lluossavin_x86_64_v3.BB5_16:
	movabsq	$2305843009213693948, %rax
	andq	%r15, %rax
	xorl	%ecx, %ecx
	xorl	%edx, %edx
	.p2align	4
.Lluossavin_x86_64_v3.BB5_17:
	vmovdqu	(%r14,%rcx,2), %ymm0
	vmovdqu	32(%r14,%rcx,2), %ymm1
	vpunpcklqdq	%ymm1, %ymm0, %ymm2
	vpermq	$216, %ymm2, %ymm2
	vpunpckhqdq	%ymm1, %ymm0, %ymm0
	vpermq	$216, %ymm0, %ymm0
	movl	%ecx, %esi
	andl	$480, %esi
	movq	%rdx, %rdi
	shrq	$6, %rdi
	addq	%rsi, %rdi
	vmovq	344(%rsp,%rdi,8), %xmm1
	vmovq	280(%rsp,%rdi,8), %xmm3
	vpunpcklqdq	%xmm1, %xmm3, %xmm1
	vmovq	216(%rsp,%rdi,8), %xmm3
	vmovq	152(%rsp,%rdi,8), %xmm4
	vpunpcklqdq	%xmm3, %xmm4, %xmm3
	vinserti128	$1, %xmm1, %ymm3, %ymm1
	vbroadcasti128	.Lluossavin_x86_64_v3.CPI5_1(%rip), %ymm3
	vpshufb	%ymm3, %ymm1, %ymm1
	vpxor	%ymm2, %ymm1, %ymm1
	vmovq	4440(%rsp,%rdi,8), %xmm2
	vmovq	4376(%rsp,%rdi,8), %xmm4
	vpunpcklqdq	%xmm2, %xmm4, %xmm2
	vmovq	4312(%rsp,%rdi,8), %xmm4
	vmovq	4248(%rsp,%rdi,8), %xmm5
	vpunpcklqdq	%xmm4, %xmm5, %xmm4
	vinserti128	$1, %xmm2, %ymm4, %ymm2
	vpshufb	%ymm3, %ymm2, %ymm2
	vpxor	%ymm0, %ymm2, %ymm0
	vpermq	$96, %ymm0, %ymm2
	vpermq	$212, %ymm1, %ymm3
	vpblendd	$204, %ymm2, %ymm3, %ymm2
	vpermq	$232, %ymm0, %ymm0
	vpermq	$246, %ymm1, %ymm1
	vpblendd	$204, %ymm0, %ymm1, %ymm0
	vmovdqu	%ymm0, 32(%rbx,%rcx,2)
	vmovdqu	%ymm2, (%rbx,%rcx,2)
	addq	$4, %rdx
	addq	$32, %rcx
	cmpq	%rdx, %rax
	jne	.Lluossavin_x86_64_v3.BB5_17
	cmpq	%rax, %r15
	je	.Lluossavin_x86_64_v3.BB5_24
	jmp	.Lluossavin_x86_64_v3.BB5_19
.Lluossavin_x86_64_v3.func_end5:
	.size	"sliced::encrypt_xored.x86_64_v3", .Lluossavin_x86_64_v3.func_end5-"sliced::encrypt_xored.x86_64_v3"

	.section	.rodata,"a",@progbits
	.p2align	1, 0x0
.Lluossavin_x86_64_v3.CPI6_0:
	.byte	255
	.byte	0
	.section	.rodata.cst8,"aM",@progbits,8
	.p2align	3, 0x0
.Lluossavin_x86_64_v3.CPI6_1:
	.quad	1085102592571150095
.Lluossavin_x86_64_v3.CPI6_2:
	.quad	3689348814741910323
.Lluossavin_x86_64_v3.CPI6_3:
	.quad	6148914691236517205
	.section	".text.rows::transpose.x86_64_v3","ax",@progbits
	.p2align	4
	.type	"rows::transpose.x86_64_v3",@function
"rows::transpose.x86_64_v3":
	movl	$268, %eax
	.p2align	4
.Lluossavin_x86_64_v3.BB6_1:
	vmovdqu	-96(%rdi,%rax,8), %ymm0
	vmovdqu	-64(%rdi,%rax,8), %ymm1
	vmovdqu	-2144(%rdi,%rax,8), %ymm2
	vmovdqu	-2112(%rdi,%rax,8), %ymm3
	vmovdqu	-2080(%rdi,%rax,8), %ymm4
	vmovdqu	-2048(%rdi,%rax,8), %ymm5
	vpsrlq	$32, %ymm2, %ymm6
	vpsrlq	$32, %ymm3, %ymm7
	vpxor	%xmm8, %xmm8, %xmm8
	vpblendd	$170, %ymm8, %ymm0, %ymm9
	vpxor	%ymm6, %ymm9, %ymm6
	vpblendd	$170, %ymm8, %ymm1, %ymm9
	vpxor	%ymm7, %ymm9, %ymm7
	vpsllq	$32, %ymm6, %ymm9
	vpsllq	$32, %ymm7, %ymm10
	vpxor	%ymm2, %ymm9, %ymm2
	vpxor	%ymm3, %ymm10, %ymm3
	vpxor	%ymm0, %ymm6, %ymm0
	vpxor	%ymm1, %ymm7, %ymm1
	vmovdqu	%ymm2, -2144(%rdi,%rax,8)
	vmovdqu	%ymm3, -2112(%rdi,%rax,8)
	vmovdqu	%ymm0, -96(%rdi,%rax,8)
	vmovdqu	%ymm1, -64(%rdi,%rax,8)
	vmovdqu	-32(%rdi,%rax,8), %ymm0
	vmovdqu	(%rdi,%rax,8), %ymm1
	vpsrlq	$32, %ymm4, %ymm2
	vpsrlq	$32, %ymm5, %ymm3
	vpblendd	$170, %ymm8, %ymm0, %ymm6
	vpxor	%ymm2, %ymm6, %ymm2
	vpblendd	$170, %ymm8, %ymm1, %ymm6
	vpxor	%ymm3, %ymm6, %ymm3
	vpsllq	$32, %ymm2, %ymm6
	vpsllq	$32, %ymm3, %ymm7
	vpxor	%ymm4, %ymm6, %ymm4
	vpxor	%ymm5, %ymm7, %ymm5
	vpxor	%ymm0, %ymm2, %ymm0
	vpxor	%ymm1, %ymm3, %ymm1
	vmovdqu	%ymm4, -2080(%rdi,%rax,8)
	vmovdqu	%ymm5, -2048(%rdi,%rax,8)
	vmovdqu	%ymm0, -32(%rdi,%rax,8)
	vmovdqu	%ymm1, (%rdi,%rax,8)
	addq	$16, %rax
	cmpq	$524, %rax
	jne	.Lluossavin_x86_64_v3.BB6_1
	movl	$140, %eax
	.p2align	4
.Lluossavin_x86_64_v3.BB6_3:
	vmovdqu	-96(%rdi,%rax,8), %ymm0
	vmovdqu	-64(%rdi,%rax,8), %ymm1
	vmovdqu	-1120(%rdi,%rax,8), %ymm2
	vmovdqu	-1088(%rdi,%rax,8), %ymm3
	vmovdqu	-1056(%rdi,%rax,8), %ymm4
	vmovdqu	-1024(%rdi,%rax,8), %ymm5
	vpsrlq	$16, %ymm2, %ymm6
	vpsrlq	$16, %ymm3, %ymm7
	vpxor	%ymm0, %ymm6, %ymm6
	vpxor	%ymm1, %ymm7, %ymm7
	vpxor	%xmm8, %xmm8, %xmm8
	vpblendw	$170, %ymm8, %ymm6, %ymm9
	vpblendw	$170, %ymm8, %ymm7, %ymm10
	vpslld	$16, %ymm6, %ymm6
	vpslld	$16, %ymm7, %ymm7
	vpxor	%ymm2, %ymm6, %ymm2
	vpxor	%ymm3, %ymm7, %ymm3
	vpxor	%ymm0, %ymm9, %ymm0
	vpxor	%ymm1, %ymm10, %ymm1
	vmovdqu	%ymm2, -1120(%rdi,%rax,8)
	vmovdqu	%ymm3, -1088(%rdi,%rax,8)
	vmovdqu	%ymm0, -96(%rdi,%rax,8)
	vmovdqu	%ymm1, -64(%rdi,%rax,8)
	vmovdqu	-32(%rdi,%rax,8), %ymm0
	vmovdqu	(%rdi,%rax,8), %ymm1
	vpsrlq	$16, %ymm4, %ymm2
	vpsrlq	$16, %ymm5, %ymm3
	vpxor	%ymm0, %ymm2, %ymm2
	vpxor	%ymm1, %ymm3, %ymm3
	vpblendw	$170, %ymm8, %ymm2, %ymm6
	vpblendw	$170, %ymm8, %ymm3, %ymm7
	vpslld	$16, %ymm2, %ymm2
	vpslld	$16, %ymm3, %ymm3
	vpxor	%ymm4, %ymm2, %ymm2
	vpxor	%ymm5, %ymm3, %ymm3
	vpxor	%ymm0, %ymm6, %ymm0
	vpxor	%ymm1, %ymm7, %ymm1
	vmovdqu	%ymm2, -1056(%rdi,%rax,8)
	vmovdqu	%ymm3, -1024(%rdi,%rax,8)
	vmovdqu	%ymm0, -32(%rdi,%rax,8)
	vmovdqu	%ymm1, (%rdi,%rax,8)
	addq	$16, %rax
	cmpq	$268, %rax
	jne	.Lluossavin_x86_64_v3.BB6_3
	movl	$396, %eax
	.p2align	4
.Lluossavin_x86_64_v3.BB6_5:
	vmovdqu	-96(%rdi,%rax,8), %ymm0
	vmovdqu	-64(%rdi,%rax,8), %ymm1
	vmovdqu	-1120(%rdi,%rax,8), %ymm2
	vmovdqu	-1088(%rdi,%rax,8), %ymm3
	vmovdqu	-1056(%rdi,%rax,8), %ymm4
	vmovdqu	-1024(%rdi,%rax,8), %ymm5
	vpsrlq	$16, %ymm2, %ymm6
	vpsrlq	$16, %ymm3, %ymm7
	vpxor	%ymm0, %ymm6, %ymm6
	vpxor	%ymm1, %ymm7, %ymm7
	vpxor	%xmm8, %xmm8, %xmm8
	vpblendw	$170, %ymm8, %ymm6, %ymm9
	vpblendw	$170, %ymm8, %ymm7, %ymm10
	vpslld	$16, %ymm6, %ymm6
	vpslld	$16, %ymm7, %ymm7
	vpxor	%ymm2, %ymm6, %ymm2
	vpxor	%ymm3, %ymm7, %ymm3
	vpxor	%ymm0, %ymm9, %ymm0
	vpxor	%ymm1, %ymm10, %ymm1
	vmovdqu	%ymm2, -1120(%rdi,%rax,8)
	vmovdqu	%ymm3, -1088(%rdi,%rax,8)
	vmovdqu	%ymm0, -96(%rdi,%rax,8)
	vmovdqu	%ymm1, -64(%rdi,%rax,8)
	vmovdqu	-32(%rdi,%rax,8), %ymm0
	vmovdqu	(%rdi,%rax,8), %ymm1
	vpsrlq	$16, %ymm4, %ymm2
	vpsrlq	$16, %ymm5, %ymm3
	vpxor	%ymm0, %ymm2, %ymm2
	vpxor	%ymm1, %ymm3, %ymm3
	vpblendw	$170, %ymm8, %ymm2, %ymm6
	vpblendw	$170, %ymm8, %ymm3, %ymm7
	vpslld	$16, %ymm2, %ymm2
	vpslld	$16, %ymm3, %ymm3
	vpxor	%ymm4, %ymm2, %ymm2
	vpxor	%ymm5, %ymm3, %ymm3
	vpxor	%ymm0, %ymm6, %ymm0
	vpxor	%ymm1, %ymm7, %ymm1
	vmovdqu	%ymm2, -1056(%rdi,%rax,8)
	vmovdqu	%ymm3, -1024(%rdi,%rax,8)
	vmovdqu	%ymm0, -32(%rdi,%rax,8)
	vmovdqu	%ymm1, (%rdi,%rax,8)
	addq	$16, %rax
	cmpq	$524, %rax
	jne	.Lluossavin_x86_64_v3.BB6_5
	vmovdqu	512(%rdi), %ymm1
	vmovdqu	544(%rdi), %ymm2
	vmovdqu	(%rdi), %ymm3
	vmovdqu	32(%rdi), %ymm4
	vmovdqu	64(%rdi), %ymm5
	vmovdqu	96(%rdi), %ymm6
	vpsrlq	$8, %ymm3, %ymm0
	vpsrlq	$8, %ymm4, %ymm7
	vpxor	%ymm1, %ymm0, %ymm8
	vpxor	%ymm2, %ymm7, %ymm7
	vpbroadcastw	.Lluossavin_x86_64_v3.CPI6_0(%rip), %ymm0
	vpand	%ymm0, %ymm8, %ymm9
	vpand	%ymm0, %ymm7, %ymm10
	vpsllw	$8, %ymm8, %ymm8
	vpsllw	$8, %ymm7, %ymm7
	vpxor	%ymm3, %ymm8, %ymm3
	vpxor	%ymm4, %ymm7, %ymm4
	vpxor	%ymm1, %ymm9, %ymm1
	vpxor	%ymm2, %ymm10, %ymm2
	vmovdqu	%ymm3, (%rdi)
	vmovdqu	%ymm4, 32(%rdi)
	vmovdqu	%ymm1, 512(%rdi)
	vmovdqu	%ymm2, 544(%rdi)
	vmovdqu	576(%rdi), %ymm1
	vmovdqu	608(%rdi), %ymm2
	vpsrlq	$8, %ymm5, %ymm3
	vpsrlq	$8, %ymm6, %ymm4
	vpxor	%ymm1, %ymm3, %ymm3
	vpxor	%ymm2, %ymm4, %ymm4
	vpand	%ymm0, %ymm3, %ymm7
	vpand	%ymm0, %ymm4, %ymm8
	vpsllw	$8, %ymm3, %ymm3
	vpsllw	$8, %ymm4, %ymm4
	vpxor	%ymm5, %ymm3, %ymm3
	vpxor	%ymm6, %ymm4, %ymm4
	vpxor	%ymm1, %ymm7, %ymm1
	vpxor	%ymm2, %ymm8, %ymm2
	vmovdqu	%ymm3, 64(%rdi)
	vmovdqu	%ymm4, 96(%rdi)
	vmovdqu	%ymm1, 576(%rdi)
	vmovdqu	%ymm2, 608(%rdi)
	vmovdqu	128(%rdi), %ymm1
	vmovdqu	160(%rdi), %ymm2
	vmovdqu	640(%rdi), %ymm3
	vmovdqu	672(%rdi), %ymm4
	vpsrlq	$8, %ymm1, %ymm5
	vpsrlq	$8, %ymm2, %ymm6
	vpxor	%ymm3, %ymm5, %ymm5
	vpxor	%ymm4, %ymm6, %ymm6
	vpand	%ymm0, %ymm5, %ymm7
	vpand	%ymm0, %ymm6, %ymm8
	vpsllw	$8, %ymm5, %ymm5
	vpsllw	$8, %ymm6, %ymm6
	vpxor	%ymm1, %ymm5, %ymm1
	vpxor	%ymm2, %ymm6, %ymm2
	vpxor	%ymm3, %ymm7, %ymm3
	vpxor	%ymm4, %ymm8, %ymm4
	vmovdqu	%ymm1, 128(%rdi)
	vmovdqu	%ymm2, 160(%rdi)
	vmovdqu	%ymm3, 640(%rdi)
	vmovdqu	%ymm4, 672(%rdi)
	vmovdqu	192(%rdi), %ymm1
	vmovdqu	224(%rdi), %ymm2
	vmovdqu	704(%rdi), %ymm3
	vmovdqu	736(%rdi), %ymm4
	vpsrlq	$8, %ymm1, %ymm5
	vpsrlq	$8, %ymm2, %ymm6
	vpxor	%ymm3, %ymm5, %ymm5
	vpxor	%ymm4, %ymm6, %ymm6
	vpand	%ymm0, %ymm5, %ymm7
	vpand	%ymm0, %ymm6, %ymm8
	vpsllw	$8, %ymm5, %ymm5
	vpsllw	$8, %ymm6, %ymm6
	vpxor	%ymm1, %ymm5, %ymm1
	vpxor	%ymm2, %ymm6, %ymm2
	vpxor	%ymm3, %ymm7, %ymm3
	vpxor	%ymm4, %ymm8, %ymm4
	vmovdqu	%ymm1, 192(%rdi)
	vmovdqu	%ymm2, 224(%rdi)
	vmovdqu	%ymm3, 704(%rdi)
	vmovdqu	%ymm4, 736(%rdi)
	vmovdqu	256(%rdi), %ymm1
	vmovdqu	288(%rdi), %ymm2
	vmovdqu	768(%rdi), %ymm3
	vmovdqu	800(%rdi), %ymm4
	vpsrlq	$8, %ymm1, %ymm5
	vpsrlq	$8, %ymm2, %ymm6
	vpxor	%ymm3, %ymm5, %ymm5
	vpxor	%ymm4, %ymm6, %ymm6
	vpand	%ymm0, %ymm5, %ymm7
	vpand	%ymm0, %ymm6, %ymm8
	vpsllw	$8, %ymm5, %ymm5
	vpsllw	$8, %ymm6, %ymm6
	vpxor	%ymm1, %ymm5, %ymm1
	vpxor	%ymm2, %ymm6, %ymm2
	vpxor	%ymm3, %ymm7, %ymm3
	vpxor	%ymm4, %ymm8, %ymm4
	vmovdqu	%ymm1, 256(%rdi)
	vmovdqu	%ymm2, 288(%rdi)
	vmovdqu	%ymm3, 768(%rdi)
	vmovdqu	%ymm4, 800(%rdi)
	vmovdqu	320(%rdi), %ymm1
	vmovdqu	352(%rdi), %ymm2
	vmovdqu	832(%rdi), %ymm3
	vmovdqu	864(%rdi), %ymm4
	vpsrlq	$8, %ymm1, %ymm5
	vpsrlq	$8, %ymm2, %ymm6
	vpxor	%ymm3, %ymm5, %ymm5
	vpxor	%ymm4, %ymm6, %ymm6
	vpand	%ymm0, %ymm5, %ymm7
	vpand	%ymm0, %ymm6, %ymm8
	vpsllw	$8, %ymm5, %ymm5
	vpsllw	$8, %ymm6, %ymm6
	vpxor	%ymm1, %ymm5, %ymm1
	vpxor	%ymm2, %ymm6, %ymm2
	vpxor	%ymm3, %ymm7, %ymm3
	vpxor	%ymm4, %ymm8, %ymm4
	vmovdqu	%ymm1, 320(%rdi)
	vmovdqu	%ymm2, 352(%rdi)
	vmovdqu	%ymm3, 832(%rdi)
	vmovdqu	%ymm4, 864(%rdi)
	vmovdqu	384(%rdi), %ymm1
	vmovdqu	416(%rdi), %ymm2
	vmovdqu	896(%rdi), %ymm3
	vmovdqu	928(%rdi), %ymm4
	vpsrlq	$8, %ymm1, %ymm5
	vpsrlq	$8, %ymm2, %ymm6
	vpxor	%ymm3, %ymm5, %ymm5
	vpxor	%ymm4, %ymm6, %ymm6
	vpand	%ymm0, %ymm5, %ymm7
	vpand	%ymm0, %ymm6, %ymm8
	vpsllw	$8, %ymm5, %ymm5
	vpsllw	$8, %ymm6, %ymm6
	vpxor	%ymm1, %ymm5, %ymm1
	vpxor	%ymm2, %ymm6, %ymm2
	vpxor	%ymm3, %ymm7, %ymm3
	vpxor	%ymm4, %ymm8, %ymm4
	vmovdqu	%ymm1, 384(%rdi)
	vmovdqu	%ymm2, 416(%rdi)
	vmovdqu	%ymm3, 896(%rdi)
	vmovdqu	%ymm4, 928(%rdi)
	vmovdqu	448(%rdi), %ymm1
	vmovdqu	480(%rdi), %ymm2
	vmovdqu	960(%rdi), %ymm3
	vmovdqu	992(%rdi), %ymm4
	vpsrlq	$8, %ymm1, %ymm5
	vpsrlq	$8, %ymm2, %ymm6
	vpxor	%ymm3, %ymm5, %ymm5
	vpxor	%ymm4, %ymm6, %ymm6
	vpand	%ymm0, %ymm5, %ymm7
	vpand	%ymm0, %ymm6, %ymm8
	vpsllw	$8, %ymm5, %ymm5
	vpsllw	$8, %ymm6, %ymm6
	vpxor	%ymm1, %ymm5, %ymm1
	vpxor	%ymm2, %ymm6, %ymm2
	vpxor	%ymm3, %ymm7, %ymm3
	vpxor	%ymm4, %ymm8, %ymm4
	vmovdqu	%ymm1, 448(%rdi)
	vmovdqu	%ymm2, 480(%rdi)
	vmovdqu	%ymm3, 960(%rdi)
	vmovdqu	%ymm4, 992(%rdi)
	vmovdqu	1024(%rdi), %ymm1
	vmovdqu	1056(%rdi), %ymm2
	vmovdqu	1536(%rdi), %ymm3
	vmovdqu	1568(%rdi), %ymm4
	vpsrlq	$8, %ymm1, %ymm5
	vpsrlq	$8, %ymm2, %ymm6
	vpxor	%ymm3, %ymm5, %ymm5
	vpxor	%ymm4, %ymm6, %ymm6
	vpand	%ymm0, %ymm5, %ymm7
	vpand	%ymm0, %ymm6, %ymm8
	vpsllw	$8, %ymm5, %ymm5
	vpsllw	$8, %ymm6, %ymm6
	vpxor	%ymm1, %ymm5, %ymm1
	vpxor	%ymm2, %ymm6, %ymm2
	vpxor	%ymm3, %ymm7, %ymm3
	vpxor	%ymm4, %ymm8, %ymm4
	vmovdqu	%ymm1, 1024(%rdi)
	vmovdqu	%ymm2, 1056(%rdi)
	vmovdqu	%ymm3, 1536(%rdi)
	vmovdqu	%ymm4, 1568(%rdi)
	vmovdqu	1088(%rdi), %ymm1
	vmovdqu	1120(%rdi), %ymm2
	vmovdqu	1600(%rdi), %ymm3
	vmovdqu	1632(%rdi), %ymm4
	vpsrlq	$8, %ymm1, %ymm5
	vpsrlq	$8, %ymm2, %ymm6
	vpxor	%ymm3, %ymm5, %ymm5
	vpxor	%ymm4, %ymm6, %ymm6
	vpand	%ymm0, %ymm5, %ymm7
	vpand	%ymm0, %ymm6, %ymm8
	vpsllw	$8, %ymm5, %ymm5
	vpsllw	$8, %ymm6, %ymm6
	vpxor	%ymm1, %ymm5, %ymm1
	vpxor	%ymm2, %ymm6, %ymm2
	vpxor	%ymm3, %ymm7, %ymm3
	vpxor	%ymm4, %ymm8, %ymm4
	vmovdqu	%ymm1, 1088(%rdi)
	vmovdqu	%ymm2, 1120(%rdi)
	vmovdqu	%ymm3, 1600(%rdi)
	vmovdqu	%ymm4, 1632(%rdi)
	vmovdqu	1152(%rdi), %ymm1
	vmovdqu	1184(%rdi), %ymm2
	vmovdqu	1664(%rdi), %ymm3
	vmovdqu	1696(%rdi), %ymm4
	vpsrlq	$8, %ymm1, %ymm5
	vpsrlq	$8, %ymm2, %ymm6
	vpxor	%ymm3, %ymm5, %ymm5
	vpxor	%ymm4, %ymm6, %ymm6
	vpand	%ymm0, %ymm5, %ymm7
	vpand	%ymm0, %ymm6, %ymm8
	vpsllw	$8, %ymm5, %ymm5
	vpsllw	$8, %ymm6, %ymm6
	vpxor	%ymm1, %ymm5, %ymm1
	vpxor	%ymm2, %ymm6, %ymm2
	vpxor	%ymm3, %ymm7, %ymm3
	vpxor	%ymm4, %ymm8, %ymm4
	vmovdqu	%ymm1, 1152(%rdi)
	vmovdqu	%ymm2, 1184(%rdi)
	vmovdqu	%ymm3, 1664(%rdi)
	vmovdqu	%ymm4, 1696(%rdi)
	vmovdqu	1216(%rdi), %ymm1
	vmovdqu	1248(%rdi), %ymm2
	vmovdqu	1728(%rdi), %ymm3
	vmovdqu	1760(%rdi), %ymm4
	vpsrlq	$8, %ymm1, %ymm5
	vpsrlq	$8, %ymm2, %ymm6
	vpxor	%ymm3, %ymm5, %ymm5
	vpxor	%ymm4, %ymm6, %ymm6
	vpand	%ymm0, %ymm5, %ymm7
	vpand	%ymm0, %ymm6, %ymm8
	vpsllw	$8, %ymm5, %ymm5
	vpsllw	$8, %ymm6, %ymm6
	vpxor	%ymm1, %ymm5, %ymm1
	vpxor	%ymm2, %ymm6, %ymm2
	vpxor	%ymm3, %ymm7, %ymm3
	vpxor	%ymm4, %ymm8, %ymm4
	vmovdqu	%ymm1, 1216(%rdi)
	vmovdqu	%ymm2, 1248(%rdi)
	vmovdqu	%ymm3, 1728(%rdi)
	vmovdqu	%ymm4, 1760(%rdi)
	vmovdqu	1280(%rdi), %ymm1
	vmovdqu	1312(%rdi), %ymm2
	vmovdqu	1792(%rdi), %ymm3
	vmovdqu	1824(%rdi), %ymm4
	vpsrlq	$8, %ymm1, %ymm5
	vpsrlq	$8, %ymm2, %ymm6
	vpxor	%ymm3, %ymm5, %ymm5
	vpxor	%ymm4, %ymm6, %ymm6
	vpand	%ymm0, %ymm5, %ymm7
	vpand	%ymm0, %ymm6, %ymm8
	vpsllw	$8, %ymm5, %ymm5
	vpsllw	$8, %ymm6, %ymm6
	vpxor	%ymm1, %ymm5, %ymm1
	vpxor	%ymm2, %ymm6, %ymm2
	vpxor	%ymm3, %ymm7, %ymm3
	vpxor	%ymm4, %ymm8, %ymm4
	vmovdqu	%ymm1, 1280(%rdi)
	vmovdqu	%ymm2, 1312(%rdi)
	vmovdqu	%ymm3, 1792(%rdi)
	vmovdqu	%ymm4, 1824(%rdi)
	vmovdqu	1344(%rdi), %ymm1
	vmovdqu	1376(%rdi), %ymm2
	vmovdqu	1856(%rdi), %ymm3
	vmovdqu	1888(%rdi), %ymm4
	vpsrlq	$8, %ymm1, %ymm5
	vpsrlq	$8, %ymm2, %ymm6
	vpxor	%ymm3, %ymm5, %ymm5
	vpxor	%ymm4, %ymm6, %ymm6
	vpand	%ymm0, %ymm5, %ymm7
	vpand	%ymm0, %ymm6, %ymm8
	vpsllw	$8, %ymm5, %ymm5
	vpsllw	$8, %ymm6, %ymm6
	vpxor	%ymm1, %ymm5, %ymm1
	vpxor	%ymm2, %ymm6, %ymm2
	vpxor	%ymm3, %ymm7, %ymm3
	vpxor	%ymm4, %ymm8, %ymm4
	vmovdqu	%ymm1, 1344(%rdi)
	vmovdqu	%ymm2, 1376(%rdi)
	vmovdqu	%ymm3, 1856(%rdi)
	vmovdqu	%ymm4, 1888(%rdi)
	vmovdqu	1408(%rdi), %ymm1
	vmovdqu	1440(%rdi), %ymm2
	vmovdqu	1920(%rdi), %ymm3
	vmovdqu	1952(%rdi), %ymm4
	vpsrlq	$8, %ymm1, %ymm5
	vpsrlq	$8, %ymm2, %ymm6
	vpxor	%ymm3, %ymm5, %ymm5
	vpxor	%ymm4, %ymm6, %ymm6
	vpand	%ymm0, %ymm5, %ymm7
	vpand	%ymm0, %ymm6, %ymm8
	vpsllw	$8, %ymm5, %ymm5
	vpsllw	$8, %ymm6, %ymm6
	vpxor	%ymm1, %ymm5, %ymm1
	vpxor	%ymm2, %ymm6, %ymm2
	vpxor	%ymm3, %ymm7, %ymm3
	vpxor	%ymm4, %ymm8, %ymm4
	vmovdqu	%ymm1, 1408(%rdi)
	vmovdqu	%ymm2, 1440(%rdi)
	vmovdqu	%ymm3, 1920(%rdi)
	vmovdqu	%ymm4, 1952(%rdi)
	vmovdqu	1472(%rdi), %ymm1
	vmovdqu	1504(%rdi), %ymm2
	vmovdqu	1984(%rdi), %ymm3
	vmovdqu	2016(%rdi), %ymm4
	vpsrlq	$8, %ymm1, %ymm5
	vpsrlq	$8, %ymm2, %ymm6
	vpxor	%ymm3, %ymm5, %ymm5
	vpxor	%ymm4, %ymm6, %ymm6
	vpand	%ymm0, %ymm5, %ymm7
	vpand	%ymm0, %ymm6, %ymm8
	vpsllw	$8, %ymm5, %ymm5
	vpsllw	$8, %ymm6, %ymm6
	vpxor	%ymm1, %ymm5, %ymm1
	vpxor	%ymm2, %ymm6, %ymm2
	vpxor	%ymm3, %ymm7, %ymm3
	vpxor	%ymm4, %ymm8, %ymm4
	vmovdqu	%ymm1, 1472(%rdi)
	vmovdqu	%ymm2, 1504(%rdi)
	vmovdqu	%ymm3, 1984(%rdi)
	vmovdqu	%ymm4, 2016(%rdi)
	vmovdqu	2048(%rdi), %ymm1
	vmovdqu	2080(%rdi), %ymm2
	vmovdqu	2560(%rdi), %ymm3
	vmovdqu	2592(%rdi), %ymm4
	vpsrlq	$8, %ymm1, %ymm5
	vpsrlq	$8, %ymm2, %ymm6
	vpxor	%ymm3, %ymm5, %ymm5
	vpxor	%ymm4, %ymm6, %ymm6
	vpand	%ymm0, %ymm5, %ymm7
	vpand	%ymm0, %ymm6, %ymm8
	vpsllw	$8, %ymm5, %ymm5
	vpsllw	$8, %ymm6, %ymm6
	vpxor	%ymm1, %ymm5, %ymm1
	vpxor	%ymm2, %ymm6, %ymm2
	vpxor	%ymm3, %ymm7, %ymm3
	vpxor	%ymm4, %ymm8, %ymm4
	vmovdqu	%ymm1, 2048(%rdi)
	vmovdqu	%ymm2, 2080(%rdi)
	vmovdqu	%ymm3, 2560(%rdi)
	vmovdqu	%ymm4, 2592(%rdi)
	vmovdqu	2112(%rdi), %ymm1
	vmovdqu	2144(%rdi), %ymm2
	vmovdqu	2624(%rdi), %ymm3
	vmovdqu	2656(%rdi), %ymm4
	vpsrlq	$8, %ymm1, %ymm5
	vpsrlq	$8, %ymm2, %ymm6
	vpxor	%ymm3, %ymm5, %ymm5
	vpxor	%ymm4, %ymm6, %ymm6
	vpand	%ymm0, %ymm5, %ymm7
	vpand	%ymm0, %ymm6, %ymm8
	vpsllw	$8, %ymm5, %ymm5
	vpsllw	$8, %ymm6, %ymm6
	vpxor	%ymm1, %ymm5, %ymm1
	vpxor	%ymm2, %ymm6, %ymm2
	vpxor	%ymm3, %ymm7, %ymm3
	vpxor	%ymm4, %ymm8, %ymm4
	vmovdqu	%ymm1, 2112(%rdi)
	vmovdqu	%ymm2, 2144(%rdi)
	vmovdqu	%ymm3, 2624(%rdi)
	vmovdqu	%ymm4, 2656(%rdi)
	vmovdqu	2176(%rdi), %ymm1
	vmovdqu	2208(%rdi), %ymm2
	vmovdqu	2688(%rdi), %ymm3
	vmovdqu	2720(%rdi), %ymm4
	vpsrlq	$8, %ymm1, %ymm5
	vpsrlq	$8, %ymm2, %ymm6
	vpxor	%ymm3, %ymm5, %ymm5
	vpxor	%ymm4, %ymm6, %ymm6
	vpand	%ymm0, %ymm5, %ymm7
	vpand	%ymm0, %ymm6, %ymm8
	vpsllw	$8, %ymm5, %ymm5
	vpsllw	$8, %ymm6, %ymm6
	vpxor	%ymm1, %ymm5, %ymm1
	vpxor	%ymm2, %ymm6, %ymm2
	vpxor	%ymm3, %ymm7, %ymm3
	vpxor	%ymm4, %ymm8, %ymm4
	vmovdqu	%ymm1, 2176(%rdi)
	vmovdqu	%ymm2, 2208(%rdi)
	vmovdqu	%ymm3, 2688(%rdi)
	vmovdqu	%ymm4, 2720(%rdi)
	vmovdqu	2240(%rdi), %ymm1
	vmovdqu	2272(%rdi), %ymm2
	vmovdqu	2752(%rdi), %ymm3
	vmovdqu	2784(%rdi), %ymm4
	vpsrlq	$8, %ymm1, %ymm5
	vpsrlq	$8, %ymm2, %ymm6
	vpxor	%ymm3, %ymm5, %ymm5
	vpxor	%ymm4, %ymm6, %ymm6
	vpand	%ymm0, %ymm5, %ymm7
	vpand	%ymm0, %ymm6, %ymm8
	vpsllw	$8, %ymm5, %ymm5
	vpsllw	$8, %ymm6, %ymm6
	vpxor	%ymm1, %ymm5, %ymm1
	vpxor	%ymm2, %ymm6, %ymm2
	vpxor	%ymm3, %ymm7, %ymm3
	vpxor	%ymm4, %ymm8, %ymm4
	vmovdqu	%ymm1, 2240(%rdi)
	vmovdqu	%ymm2, 2272(%rdi)
	vmovdqu	%ymm3, 2752(%rdi)
	vmovdqu	%ymm4, 2784(%rdi)
	vmovdqu	2304(%rdi), %ymm1
	vmovdqu	2336(%rdi), %ymm2
	vmovdqu	2816(%rdi), %ymm3
	vmovdqu	2848(%rdi), %ymm4
	vpsrlq	$8, %ymm1, %ymm5
	vpsrlq	$8, %ymm2, %ymm6
	vpxor	%ymm3, %ymm5, %ymm5
	vpxor	%ymm4, %ymm6, %ymm6
	vpand	%ymm0, %ymm5, %ymm7
	vpand	%ymm0, %ymm6, %ymm8
	vpsllw	$8, %ymm5, %ymm5
	vpsllw	$8, %ymm6, %ymm6
	vpxor	%ymm1, %ymm5, %ymm1
	vpxor	%ymm2, %ymm6, %ymm2
	vpxor	%ymm3, %ymm7, %ymm3
	vpxor	%ymm4, %ymm8, %ymm4
	vmovdqu	%ymm1, 2304(%rdi)
	vmovdqu	%ymm2, 2336(%rdi)
	vmovdqu	%ymm3, 2816(%rdi)
	vmovdqu	%ymm4, 2848(%rdi)
	vmovdqu	2368(%rdi), %ymm1
	vmovdqu	2400(%rdi), %ymm2
	vmovdqu	2880(%rdi), %ymm3
	vmovdqu	2912(%rdi), %ymm4
	vpsrlq	$8, %ymm1, %ymm5
	vpsrlq	$8, %ymm2, %ymm6
	vpxor	%ymm3, %ymm5, %ymm5
	vpxor	%ymm4, %ymm6, %ymm6
	vpand	%ymm0, %ymm5, %ymm7
	vpand	%ymm0, %ymm6, %ymm8
	vpsllw	$8, %ymm5, %ymm5
	vpsllw	$8, %ymm6, %ymm6
	vpxor	%ymm1, %ymm5, %ymm1
	vpxor	%ymm2, %ymm6, %ymm2
	vpxor	%ymm3, %ymm7, %ymm3
	vpxor	%ymm4, %ymm8, %ymm4
	vmovdqu	%ymm1, 2368(%rdi)
	vmovdqu	%ymm2, 2400(%rdi)
	vmovdqu	%ymm3, 2880(%rdi)
	vmovdqu	%ymm4, 2912(%rdi)
	vmovdqu	2432(%rdi), %ymm1
	vmovdqu	2464(%rdi), %ymm2
	vmovdqu	2944(%rdi), %ymm3
	vmovdqu	2976(%rdi), %ymm4
	vpsrlq	$8, %ymm1, %ymm5
	vpsrlq	$8, %ymm2, %ymm6
	vpxor	%ymm3, %ymm5, %ymm5
	vpxor	%ymm4, %ymm6, %ymm6
	vpand	%ymm0, %ymm5, %ymm7
	vpand	%ymm0, %ymm6, %ymm8
	vpsllw	$8, %ymm5, %ymm5
	vpsllw	$8, %ymm6, %ymm6
	vpxor	%ymm1, %ymm5, %ymm1
	vpxor	%ymm2, %ymm6, %ymm2
	vpxor	%ymm3, %ymm7, %ymm3
	vpxor	%ymm4, %ymm8, %ymm4
	vmovdqu	%ymm1, 2432(%rdi)
	vmovdqu	%ymm2, 2464(%rdi)
	vmovdqu	%ymm3, 2944(%rdi)
	vmovdqu	%ymm4, 2976(%rdi)
	vmovdqu	2496(%rdi), %ymm1
	vmovdqu	2528(%rdi), %ymm2
	vmovdqu	3008(%rdi), %ymm3
	vmovdqu	3040(%rdi), %ymm4
	vpsrlq	$8, %ymm1, %ymm5
	vpsrlq	$8, %ymm2, %ymm6
	vpxor	%ymm3, %ymm5, %ymm5
	vpxor	%ymm4, %ymm6, %ymm6
	vpand	%ymm0, %ymm5, %ymm7
	vpand	%ymm0, %ymm6, %ymm8
	vpsllw	$8, %ymm5, %ymm5
	vpsllw	$8, %ymm6, %ymm6
	vpxor	%ymm1, %ymm5, %ymm1
	vpxor	%ymm2, %ymm6, %ymm2
	vpxor	%ymm3, %ymm7, %ymm3
	vpxor	%ymm4, %ymm8, %ymm4
	vmovdqu	%ymm1, 2496(%rdi)
	vmovdqu	%ymm2, 2528(%rdi)
	vmovdqu	%ymm3, 3008(%rdi)
	vmovdqu	%ymm4, 3040(%rdi)
	vmovdqu	3072(%rdi), %ymm1
	vmovdqu	3104(%rdi), %ymm2
	vmovdqu	3584(%rdi), %ymm3
	vmovdqu	3616(%rdi), %ymm4
	vpsrlq	$8, %ymm1, %ymm5
	vpsrlq	$8, %ymm2, %ymm6
	vpxor	%ymm3, %ymm5, %ymm5
	vpxor	%ymm4, %ymm6, %ymm6
	vpand	%ymm0, %ymm5, %ymm7
	vpand	%ymm0, %ymm6, %ymm8
	vpsllw	$8, %ymm5, %ymm5
	vpsllw	$8, %ymm6, %ymm6
	vpxor	%ymm1, %ymm5, %ymm1
	vpxor	%ymm2, %ymm6, %ymm2
	vpxor	%ymm3, %ymm7, %ymm3
	vpxor	%ymm4, %ymm8, %ymm4
	vmovdqu	%ymm1, 3072(%rdi)
	vmovdqu	%ymm2, 3104(%rdi)
	vmovdqu	%ymm3, 3584(%rdi)
	vmovdqu	%ymm4, 3616(%rdi)
	vmovdqu	3136(%rdi), %ymm1
	vmovdqu	3168(%rdi), %ymm2
	vmovdqu	3648(%rdi), %ymm3
	vmovdqu	3680(%rdi), %ymm4
	vpsrlq	$8, %ymm1, %ymm5
	vpsrlq	$8, %ymm2, %ymm6
	vpxor	%ymm3, %ymm5, %ymm5
	vpxor	%ymm4, %ymm6, %ymm6
	vpand	%ymm0, %ymm5, %ymm7
	vpand	%ymm0, %ymm6, %ymm8
	vpsllw	$8, %ymm5, %ymm5
	vpsllw	$8, %ymm6, %ymm6
	vpxor	%ymm1, %ymm5, %ymm1
	vpxor	%ymm2, %ymm6, %ymm2
	vpxor	%ymm3, %ymm7, %ymm3
	vpxor	%ymm4, %ymm8, %ymm4
	vmovdqu	%ymm1, 3136(%rdi)
	vmovdqu	%ymm2, 3168(%rdi)
	vmovdqu	%ymm3, 3648(%rdi)
	vmovdqu	%ymm4, 3680(%rdi)
	vmovdqu	3200(%rdi), %ymm1
	vmovdqu	3232(%rdi), %ymm2
	vmovdqu	3712(%rdi), %ymm3
	vmovdqu	3744(%rdi), %ymm4
	vpsrlq	$8, %ymm1, %ymm5
	vpsrlq	$8, %ymm2, %ymm6
	vpxor	%ymm3, %ymm5, %ymm5
	vpxor	%ymm4, %ymm6, %ymm6
	vpand	%ymm0, %ymm5, %ymm7
	vpand	%ymm0, %ymm6, %ymm8
	vpsllw	$8, %ymm5, %ymm5
	vpsllw	$8, %ymm6, %ymm6
	vpxor	%ymm1, %ymm5, %ymm1
	vpxor	%ymm2, %ymm6, %ymm2
	vpxor	%ymm3, %ymm7, %ymm3
	vpxor	%ymm4, %ymm8, %ymm4
	vmovdqu	%ymm1, 3200(%rdi)
	vmovdqu	%ymm2, 3232(%rdi)
	vmovdqu	%ymm3, 3712(%rdi)
	vmovdqu	%ymm4, 3744(%rdi)
	vmovdqu	3264(%rdi), %ymm1
	vmovdqu	3296(%rdi), %ymm2
	vmovdqu	3776(%rdi), %ymm3
	vmovdqu	3808(%rdi), %ymm4
	vpsrlq	$8, %ymm1, %ymm5
	vpsrlq	$8, %ymm2, %ymm6
	vpxor	%ymm3, %ymm5, %ymm5
	vpxor	%ymm4, %ymm6, %ymm6
	vpand	%ymm0, %ymm5, %ymm7
	vpand	%ymm0, %ymm6, %ymm8
	vpsllw	$8, %ymm5, %ymm5
	vpsllw	$8, %ymm6, %ymm6
	vpxor	%ymm1, %ymm5, %ymm1
	vpxor	%ymm2, %ymm6, %ymm2
	vpxor	%ymm3, %ymm7, %ymm3
	vpxor	%ymm4, %ymm8, %ymm4
	vmovdqu	%ymm1, 3264(%rdi)
	vmovdqu	%ymm2, 3296(%rdi)
	vmovdqu	%ymm3, 3776(%rdi)
	vmovdqu	%ymm4, 3808(%rdi)
	vmovdqu	3328(%rdi), %ymm1
	vmovdqu	3360(%rdi), %ymm2
	vmovdqu	3840(%rdi), %ymm3
	vmovdqu	3872(%rdi), %ymm4
	vpsrlq	$8, %ymm1, %ymm5
	vpsrlq	$8, %ymm2, %ymm6
	vpxor	%ymm3, %ymm5, %ymm5
	vpxor	%ymm4, %ymm6, %ymm6
	vpand	%ymm0, %ymm5, %ymm7
	vpand	%ymm0, %ymm6, %ymm8
	vpsllw	$8, %ymm5, %ymm5
	vpsllw	$8, %ymm6, %ymm6
	vpxor	%ymm1, %ymm5, %ymm1
	vpxor	%ymm2, %ymm6, %ymm2
	vpxor	%ymm3, %ymm7, %ymm3
	vpxor	%ymm4, %ymm8, %ymm4
	vmovdqu	%ymm1, 3328(%rdi)
	vmovdqu	%ymm2, 3360(%rdi)
	vmovdqu	%ymm3, 3840(%rdi)
	vmovdqu	%ymm4, 3872(%rdi)
	vmovdqu	3392(%rdi), %ymm1
	vmovdqu	3424(%rdi), %ymm2
	vmovdqu	3904(%rdi), %ymm3
	vmovdqu	3936(%rdi), %ymm4
	vpsrlq	$8, %ymm1, %ymm5
	vpsrlq	$8, %ymm2, %ymm6
	vpxor	%ymm3, %ymm5, %ymm5
	vpxor	%ymm4, %ymm6, %ymm6
	vpand	%ymm0, %ymm5, %ymm7
	vpand	%ymm0, %ymm6, %ymm8
	vpsllw	$8, %ymm5, %ymm5
	vpsllw	$8, %ymm6, %ymm6
	vpxor	%ymm1, %ymm5, %ymm1
	vpxor	%ymm2, %ymm6, %ymm2
	vpxor	%ymm3, %ymm7, %ymm3
	vpxor	%ymm4, %ymm8, %ymm4
	vmovdqu	%ymm1, 3392(%rdi)
	vmovdqu	%ymm2, 3424(%rdi)
	vmovdqu	%ymm3, 3904(%rdi)
	vmovdqu	%ymm4, 3936(%rdi)
	vmovdqu	3456(%rdi), %ymm1
	vmovdqu	3488(%rdi), %ymm2
	vmovdqu	3968(%rdi), %ymm3
	vmovdqu	4000(%rdi), %ymm4
	vpsrlq	$8, %ymm1, %ymm5
	vpsrlq	$8, %ymm2, %ymm6
	vpxor	%ymm3, %ymm5, %ymm5
	vpxor	%ymm4, %ymm6, %ymm6
	vpand	%ymm0, %ymm5, %ymm7
	vpand	%ymm0, %ymm6, %ymm8
	vpsllw	$8, %ymm5, %ymm5
	vpsllw	$8, %ymm6, %ymm6
	vpxor	%ymm1, %ymm5, %ymm1
	vpxor	%ymm2, %ymm6, %ymm2
	vpxor	%ymm3, %ymm7, %ymm3
	vpxor	%ymm4, %ymm8, %ymm4
	vmovdqu	%ymm1, 3456(%rdi)
	vmovdqu	%ymm2, 3488(%rdi)
	vmovdqu	%ymm3, 3968(%rdi)
	vmovdqu	%ymm4, 4000(%rdi)
	vmovdqu	3520(%rdi), %ymm1
	vmovdqu	3552(%rdi), %ymm2
	vmovdqu	4032(%rdi), %ymm3
	vmovdqu	4064(%rdi), %ymm4
	vpsrlq	$8, %ymm1, %ymm5
	vpsrlq	$8, %ymm2, %ymm6
	vpxor	%ymm3, %ymm5, %ymm5
	vpxor	%ymm4, %ymm6, %ymm6
	vpand	%ymm0, %ymm5, %ymm7
	vpand	%ymm0, %ymm6, %ymm0
	vpsllw	$8, %ymm5, %ymm5
	vpsllw	$8, %ymm6, %ymm6
	vpxor	%ymm1, %ymm5, %ymm1
	vpxor	%ymm2, %ymm6, %ymm2
	vpxor	%ymm3, %ymm7, %ymm3
	vpxor	%ymm4, %ymm0, %ymm0
	vmovdqu	%ymm1, 3520(%rdi)
	vmovdqu	%ymm2, 3552(%rdi)
	vmovdqu	%ymm3, 4032(%rdi)
	vmovdqu	%ymm0, 4064(%rdi)
	vmovdqu	(%rdi), %ymm1
	vmovdqu	32(%rdi), %ymm2
	vmovdqu	256(%rdi), %ymm3
	vmovdqu	288(%rdi), %ymm4
	vpsrlq	$4, %ymm1, %ymm0
	vpsrlq	$4, %ymm2, %ymm5
	vpxor	%ymm3, %ymm0, %ymm6
	vpxor	%ymm4, %ymm5, %ymm5
	vpbroadcastq	.Lluossavin_x86_64_v3.CPI6_1(%rip), %ymm0
	vpand	%ymm0, %ymm6, %ymm6
	vpand	%ymm0, %ymm5, %ymm5
	vpsllq	$4, %ymm6, %ymm7
	vpsllq	$4, %ymm5, %ymm8
	vpxor	%ymm1, %ymm7, %ymm1
	vpxor	%ymm2, %ymm8, %ymm2
	vpxor	%ymm3, %ymm6, %ymm3
	vmovdqu	%ymm1, (%rdi)
	vmovdqu	%ymm2, 32(%rdi)
	vmovdqu	%ymm3, 256(%rdi)
	vpxor	%ymm4, %ymm5, %ymm1
	vmovdqu	%ymm1, 288(%rdi)
	vmovdqu	64(%rdi), %ymm1
	vmovdqu	96(%rdi), %ymm2
	vmovdqu	320(%rdi), %ymm3
	vmovdqu	352(%rdi), %ymm4
	vpsrlq	$4, %ymm1, %ymm5
	vpsrlq	$4, %ymm2, %ymm6
	vpxor	%ymm3, %ymm5, %ymm5
	vpxor	%ymm4, %ymm6, %ymm6
	vpand	%ymm0, %ymm5, %ymm5
	vpand	%ymm0, %ymm6, %ymm6
	vpsllq	$4, %ymm5, %ymm7
	vpsllq	$4, %ymm6, %ymm8
	vpxor	%ymm1, %ymm7, %ymm1
	vpxor	%ymm2, %ymm8, %ymm2
	vpxor	%ymm3, %ymm5, %ymm3
	vmovdqu	%ymm1, 64(%rdi)
	vmovdqu	%ymm2, 96(%rdi)
	vmovdqu	%ymm3, 320(%rdi)
	vpxor	%ymm4, %ymm6, %ymm1
	vmovdqu	%ymm1, 352(%rdi)
	vmovdqu	128(%rdi), %ymm1
	vmovdqu	160(%rdi), %ymm2
	vmovdqu	384(%rdi), %ymm3
	vmovdqu	416(%rdi), %ymm4
	vpsrlq	$4, %ymm1, %ymm5
	vpsrlq	$4, %ymm2, %ymm6
	vpxor	%ymm3, %ymm5, %ymm5
	vpxor	%ymm4, %ymm6, %ymm6
	vpand	%ymm0, %ymm5, %ymm5
	vpand	%ymm0, %ymm6, %ymm6
	vpsllq	$4, %ymm5, %ymm7
	vpsllq	$4, %ymm6, %ymm8
	vpxor	%ymm1, %ymm7, %ymm1
	vpxor	%ymm2, %ymm8, %ymm2
	vpxor	%ymm3, %ymm5, %ymm3
	vmovdqu	%ymm1, 128(%rdi)
	vmovdqu	%ymm2, 160(%rdi)
	vmovdqu	%ymm3, 384(%rdi)
	vpxor	%ymm4, %ymm6, %ymm1
	vmovdqu	%ymm1, 416(%rdi)
	vmovdqu	192(%rdi), %ymm1
	vmovdqu	224(%rdi), %ymm2
	vmovdqu	448(%rdi), %ymm3
	vmovdqu	480(%rdi), %ymm4
	vpsrlq	$4, %ymm1, %ymm5
	vpsrlq	$4, %ymm2, %ymm6
	vpxor	%ymm3, %ymm5, %ymm5
	vpxor	%ymm4, %ymm6, %ymm6
	vpand	%ymm0, %ymm5, %ymm5
	vpand	%ymm0, %ymm6, %ymm6
	vpsllq	$4, %ymm5, %ymm7
	vpsllq	$4, %ymm6, %ymm8
	vpxor	%ymm1, %ymm7, %ymm1
	vpxor	%ymm2, %ymm8, %ymm2
	vpxor	%ymm3, %ymm5, %ymm3
	vmovdqu	%ymm1, 192(%rdi)
	vmovdqu	%ymm2, 224(%rdi)
	vmovdqu	%ymm3, 448(%rdi)
	vpxor	%ymm4, %ymm6, %ymm1
	vmovdqu	%ymm1, 480(%rdi)
	vmovdqu	512(%rdi), %ymm1
	vmovdqu	544(%rdi), %ymm2
	vmovdqu	768(%rdi), %ymm3
	vmovdqu	800(%rdi), %ymm4
	vpsrlq	$4, %ymm1, %ymm5
	vpsrlq	$4, %ymm2, %ymm6
	vpxor	%ymm3, %ymm5, %ymm5
	vpxor	%ymm4, %ymm6, %ymm6
	vpand	%ymm0, %ymm5, %ymm5
	vpand	%ymm0, %ymm6, %ymm6
	vpsllq	$4, %ymm5, %ymm7
	vpsllq	$4, %ymm6, %ymm8
	vpxor	%ymm1, %ymm7, %ymm1
	vpxor	%ymm2, %ymm8, %ymm2
	vpxor	%ymm3, %ymm5, %ymm3
	vmovdqu	%ymm1, 512(%rdi)
	vmovdqu	%ymm2, 544(%rdi)
	vmovdqu	%ymm3, 768(%rdi)
	vpxor	%ymm4, %ymm6, %ymm1
	vmovdqu	%ymm1, 800(%rdi)
	vmovdqu	576(%rdi), %ymm1
	vmovdqu	608(%rdi), %ymm2
	vmovdqu	832(%rdi), %ymm3
	vmovdqu	864(%rdi), %ymm4
	vpsrlq	$4, %ymm1, %ymm5
	vpsrlq	$4, %ymm2, %ymm6
	vpxor	%ymm3, %ymm5, %ymm5
	vpxor	%ymm4, %ymm6, %ymm6
	vpand	%ymm0, %ymm5, %ymm5
	vpand	%ymm0, %ymm6, %ymm6
	vpsllq	$4, %ymm5, %ymm7
	vpsllq	$4, %ymm6, %ymm8
	vpxor	%ymm1, %ymm7, %ymm1
	vpxor	%ymm2, %ymm8, %ymm2
	vpxor	%ymm3, %ymm5, %ymm3
	vmovdqu	%ymm1, 576(%rdi)
	vmovdqu	%ymm2, 608(%rdi)
	vmovdqu	%ymm3, 832(%rdi)
	vpxor	%ymm4, %ymm6, %ymm1
	vmovdqu	%ymm1, 864(%rdi)
	vmovdqu	640(%rdi), %ymm1
	vmovdqu	672(%rdi), %ymm2
	vmovdqu	896(%rdi), %ymm3
	vmovdqu	928(%rdi), %ymm4
	vpsrlq	$4, %ymm1, %ymm5
	vpsrlq	$4, %ymm2, %ymm6
	vpxor	%ymm3, %ymm5, %ymm5
	vpxor	%ymm4, %ymm6, %ymm6
	vpand	%ymm0, %ymm5, %ymm5
	vpand	%ymm0, %ymm6, %ymm6
	vpsllq	$4, %ymm5, %ymm7
	vpsllq	$4, %ymm6, %ymm8
	vpxor	%ymm1, %ymm7, %ymm1
	vpxor	%ymm2, %ymm8, %ymm2
	vpxor	%ymm3, %ymm5, %ymm3
	vmovdqu	%ymm1, 640(%rdi)
	vmovdqu	%ymm2, 672(%rdi)
	vmovdqu	%ymm3, 896(%rdi)
	vpxor	%ymm4, %ymm6, %ymm1
	vmovdqu	%ymm1, 928(%rdi)
	vmovdqu	704(%rdi), %ymm1
	vmovdqu	736(%rdi), %ymm2
	vmovdqu	960(%rdi), %ymm3
	vmovdqu	992(%rdi), %ymm4
	vpsrlq	$4, %ymm1, %ymm5
	vpsrlq	$4, %ymm2, %ymm6
	vpxor	%ymm3, %ymm5, %ymm5
	vpxor	%ymm4, %ymm6, %ymm6
	vpand	%ymm0, %ymm5, %ymm5
	vpand	%ymm0, %ymm6, %ymm6
	vpsllq	$4, %ymm5, %ymm7
	vpsllq	$4, %ymm6, %ymm8
	vpxor	%ymm1, %ymm7, %ymm1
	vpxor	%ymm2, %ymm8, %ymm2
	vpxor	%ymm3, %ymm5, %ymm3
	vmovdqu	%ymm1, 704(%rdi)
	vmovdqu	%ymm2, 736(%rdi)
	vmovdqu	%ymm3, 960(%rdi)
	vpxor	%ymm4, %ymm6, %ymm1
	vmovdqu	%ymm1, 992(%rdi)
	vmovdqu	1024(%rdi), %ymm1
	vmovdqu	1056(%rdi), %ymm2
	vmovdqu	1280(%rdi), %ymm3
	vmovdqu	1312(%rdi), %ymm4
	vpsrlq	$4, %ymm1, %ymm5
	vpsrlq	$4, %ymm2, %ymm6
	vpxor	%ymm3, %ymm5, %ymm5
	vpxor	%ymm4, %ymm6, %ymm6
	vpand	%ymm0, %ymm5, %ymm5
	vpand	%ymm0, %ymm6, %ymm6
	vpsllq	$4, %ymm5, %ymm7
	vpsllq	$4, %ymm6, %ymm8
	vpxor	%ymm1, %ymm7, %ymm1
	vpxor	%ymm2, %ymm8, %ymm2
	vpxor	%ymm3, %ymm5, %ymm3
	vmovdqu	%ymm1, 1024(%rdi)
	vmovdqu	%ymm2, 1056(%rdi)
	vmovdqu	%ymm3, 1280(%rdi)
	vpxor	%ymm4, %ymm6, %ymm1
	vmovdqu	%ymm1, 1312(%rdi)
	vmovdqu	1088(%rdi), %ymm1
	vmovdqu	1120(%rdi), %ymm2
	vmovdqu	1344(%rdi), %ymm3
	vmovdqu	1376(%rdi), %ymm4
	vpsrlq	$4, %ymm1, %ymm5
	vpsrlq	$4, %ymm2, %ymm6
	vpxor	%ymm3, %ymm5, %ymm5
	vpxor	%ymm4, %ymm6, %ymm6
	vpand	%ymm0, %ymm5, %ymm5
	vpand	%ymm0, %ymm6, %ymm6
	vpsllq	$4, %ymm5, %ymm7
	vpsllq	$4, %ymm6, %ymm8
	vpxor	%ymm1, %ymm7, %ymm1
	vpxor	%ymm2, %ymm8, %ymm2
	vpxor	%ymm3, %ymm5, %ymm3
	vmovdqu	%ymm1, 1088(%rdi)
	vmovdqu	%ymm2, 1120(%rdi)
	vmovdqu	%ymm3, 1344(%rdi)
	vpxor	%ymm4, %ymm6, %ymm1
	vmovdqu	%ymm1, 1376(%rdi)
	vmovdqu	1152(%rdi), %ymm1
	vmovdqu	1184(%rdi), %ymm2
	vmovdqu	1408(%rdi), %ymm3
	vmovdqu	1440(%rdi), %ymm4
	vpsrlq	$4, %ymm1, %ymm5
	vpsrlq	$4, %ymm2, %ymm6
	vpxor	%ymm3, %ymm5, %ymm5
	vpxor	%ymm4, %ymm6, %ymm6
	vpand	%ymm0, %ymm5, %ymm5
	vpand	%ymm0, %ymm6, %ymm6
	vpsllq	$4, %ymm5, %ymm7
	vpsllq	$4, %ymm6, %ymm8
	vpxor	%ymm1, %ymm7, %ymm1
	vpxor	%ymm2, %ymm8, %ymm2
	vpxor	%ymm3, %ymm5, %ymm3
	vmovdqu	%ymm1, 1152(%rdi)
	vmovdqu	%ymm2, 1184(%rdi)
	vmovdqu	%ymm3, 1408(%rdi)
	vpxor	%ymm4, %ymm6, %ymm1
	vmovdqu	%ymm1, 1440(%rdi)
	vmovdqu	1216(%rdi), %ymm1
	vmovdqu	1248(%rdi), %ymm2
	vmovdqu	1472(%rdi), %ymm3
	vmovdqu	1504(%rdi), %ymm4
	vpsrlq	$4, %ymm1, %ymm5
	vpsrlq	$4, %ymm2, %ymm6
	vpxor	%ymm3, %ymm5, %ymm5
	vpxor	%ymm4, %ymm6, %ymm6
	vpand	%ymm0, %ymm5, %ymm5
	vpand	%ymm0, %ymm6, %ymm6
	vpsllq	$4, %ymm5, %ymm7
	vpsllq	$4, %ymm6, %ymm8
	vpxor	%ymm1, %ymm7, %ymm1
	vpxor	%ymm2, %ymm8, %ymm2
	vpxor	%ymm3, %ymm5, %ymm3
	vmovdqu	%ymm1, 1216(%rdi)
	vmovdqu	%ymm2, 1248(%rdi)
	vmovdqu	%ymm3, 1472(%rdi)
	vpxor	%ymm4, %ymm6, %ymm1
	vmovdqu	%ymm1, 1504(%rdi)
	vmovdqu	1536(%rdi), %ymm1
	vmovdqu	1568(%rdi), %ymm2
	vmovdqu	1792(%rdi), %ymm3
	vmovdqu	1824(%rdi), %ymm4
	vpsrlq	$4, %ymm1, %ymm5
	vpsrlq	$4, %ymm2, %ymm6
	vpxor	%ymm3, %ymm5, %ymm5
	vpxor	%ymm4, %ymm6, %ymm6
	vpand	%ymm0, %ymm5, %ymm5
	vpand	%ymm0, %ymm6, %ymm6
	vpsllq	$4, %ymm5, %ymm7
	vpsllq	$4, %ymm6, %ymm8
	vpxor	%ymm1, %ymm7, %ymm1
	vpxor	%ymm2, %ymm8, %ymm2
	vpxor	%ymm3, %ymm5, %ymm3
	vmovdqu	%ymm1, 1536(%rdi)
	vmovdqu	%ymm2, 1568(%rdi)
	vmovdqu	%ymm3, 1792(%rdi)
	vpxor	%ymm4, %ymm6, %ymm1
	vmovdqu	%ymm1, 1824(%rdi)
	vmovdqu	1600(%rdi), %ymm1
	vmovdqu	1632(%rdi), %ymm2
	vmovdqu	1856(%rdi), %ymm3
	vmovdqu	1888(%rdi), %ymm4
	vpsrlq	$4, %ymm1, %ymm5
	vpsrlq	$4, %ymm2, %ymm6
	vpxor	%ymm3, %ymm5, %ymm5
	vpxor	%ymm4, %ymm6, %ymm6
	vpand	%ymm0, %ymm5, %ymm5
	vpand	%ymm0, %ymm6, %ymm6
	vpsllq	$4, %ymm5, %ymm7
	vpsllq	$4, %ymm6, %ymm8
	vpxor	%ymm1, %ymm7, %ymm1
	vpxor	%ymm2, %ymm8, %ymm2
	vpxor	%ymm3, %ymm5, %ymm3
	vmovdqu	%ymm1, 1600(%rdi)
	vmovdqu	%ymm2, 1632(%rdi)
	vmovdqu	%ymm3, 1856(%rdi)
	vpxor	%ymm4, %ymm6, %ymm1
	vmovdqu	%ymm1, 1888(%rdi)
	vmovdqu	1664(%rdi), %ymm1
	vmovdqu	1696(%rdi), %ymm2
	vmovdqu	1920(%rdi), %ymm3
	vmovdqu	1952(%rdi), %ymm4
	vpsrlq	$4, %ymm1, %ymm5
	vpsrlq	$4, %ymm2, %ymm6
	vpxor	%ymm3, %ymm5, %ymm5
	vpxor	%ymm4, %ymm6, %ymm6
	vpand	%ymm0, %ymm5, %ymm5
	vpand	%ymm0, %ymm6, %ymm6
	vpsllq	$4, %ymm5, %ymm7
	vpsllq	$4, %ymm6, %ymm8
	vpxor	%ymm1, %ymm7, %ymm1
	vpxor	%ymm2, %ymm8, %ymm2
	vpxor	%ymm3, %ymm5, %ymm3
	vmovdqu	%ymm1, 1664(%rdi)
	vmovdqu	%ymm2, 1696(%rdi)
	vmovdqu	%ymm3, 1920(%rdi)
	vpxor	%ymm4, %ymm6, %ymm1
	vmovdqu	%ymm1, 1952(%rdi)
	vmovdqu	1728(%rdi), %ymm1
	vmovdqu	1760(%rdi), %ymm2
	vmovdqu	1984(%rdi), %ymm3
	vmovdqu	2016(%rdi), %ymm4
	vpsrlq	$4, %ymm1, %ymm5
	vpsrlq	$4, %ymm2, %ymm6
	vpxor	%ymm3, %ymm5, %ymm5
	vpxor	%ymm4, %ymm6, %ymm6
	vpand	%ymm0, %ymm5, %ymm5
	vpand	%ymm0, %ymm6, %ymm6
	vpsllq	$4, %ymm5, %ymm7
	vpsllq	$4, %ymm6, %ymm8
	vpxor	%ymm1, %ymm7, %ymm1
	vpxor	%ymm2, %ymm8, %ymm2
	vpxor	%ymm3, %ymm5, %ymm3
	vmovdqu	%ymm1, 1728(%rdi)
	vmovdqu	%ymm2, 1760(%rdi)
	vmovdqu	%ymm3, 1984(%rdi)
	vpxor	%ymm4, %ymm6, %ymm1
	vmovdqu	%ymm1, 2016(%rdi)
	vmovdqu	2048(%rdi), %ymm1
	vmovdqu	2080(%rdi), %ymm2
	vmovdqu	2304(%rdi), %ymm3
	vmovdqu	2336(%rdi), %ymm4
	vpsrlq	$4, %ymm1, %ymm5
	vpsrlq	$4, %ymm2, %ymm6
	vpxor	%ymm3, %ymm5, %ymm5
	vpxor	%ymm4, %ymm6, %ymm6
	vpand	%ymm0, %ymm5, %ymm5
	vpand	%ymm0, %ymm6, %ymm6
	vpsllq	$4, %ymm5, %ymm7
	vpsllq	$4, %ymm6, %ymm8
	vpxor	%ymm1, %ymm7, %ymm1
	vpxor	%ymm2, %ymm8, %ymm2
	vpxor	%ymm3, %ymm5, %ymm3
	vmovdqu	%ymm1, 2048(%rdi)
	vmovdqu	%ymm2, 2080(%rdi)
	vmovdqu	%ymm3, 2304(%rdi)
	vpxor	%ymm4, %ymm6, %ymm1
	vmovdqu	%ymm1, 2336(%rdi)
	vmovdqu	2112(%rdi), %ymm1
	vmovdqu	2144(%rdi), %ymm2
	vmovdqu	2368(%rdi), %ymm3
	vmovdqu	2400(%rdi), %ymm4
	vpsrlq	$4, %ymm1, %ymm5
	vpsrlq	$4, %ymm2, %ymm6
	vpxor	%ymm3, %ymm5, %ymm5
	vpxor	%ymm4, %ymm6, %ymm6
	vpand	%ymm0, %ymm5, %ymm5
	vpand	%ymm0, %ymm6, %ymm6
	vpsllq	$4, %ymm5, %ymm7
	vpsllq	$4, %ymm6, %ymm8
	vpxor	%ymm1, %ymm7, %ymm1
	vpxor	%ymm2, %ymm8, %ymm2
	vpxor	%ymm3, %ymm5, %ymm3
	vmovdqu	%ymm1, 2112(%rdi)
	vmovdqu	%ymm2, 2144(%rdi)
	vmovdqu	%ymm3, 2368(%rdi)
	vpxor	%ymm4, %ymm6, %ymm1
	vmovdqu	%ymm1, 2400(%rdi)
	vmovdqu	2176(%rdi), %ymm1
	vmovdqu	2208(%rdi), %ymm2
	vmovdqu	2432(%rdi), %ymm3
	vmovdqu	2464(%rdi), %ymm4
	vpsrlq	$4, %ymm1, %ymm5
	vpsrlq	$4, %ymm2, %ymm6
	vpxor	%ymm3, %ymm5, %ymm5
	vpxor	%ymm4, %ymm6, %ymm6
	vpand	%ymm0, %ymm5, %ymm5
	vpand	%ymm0, %ymm6, %ymm6
	vpsllq	$4, %ymm5, %ymm7
	vpsllq	$4, %ymm6, %ymm8
	vpxor	%ymm1, %ymm7, %ymm1
	vpxor	%ymm2, %ymm8, %ymm2
	vpxor	%ymm3, %ymm5, %ymm3
	vmovdqu	%ymm1, 2176(%rdi)
	vmovdqu	%ymm2, 2208(%rdi)
	vmovdqu	%ymm3, 2432(%rdi)
	vpxor	%ymm4, %ymm6, %ymm1
	vmovdqu	%ymm1, 2464(%rdi)
	vmovdqu	2240(%rdi), %ymm1
	vmovdqu	2272(%rdi), %ymm2
	vmovdqu	2496(%rdi), %ymm3
	vmovdqu	2528(%rdi), %ymm4
	vpsrlq	$4, %ymm1, %ymm5
	vpsrlq	$4, %ymm2, %ymm6
	vpxor	%ymm3, %ymm5, %ymm5
	vpxor	%ymm4, %ymm6, %ymm6
	vpand	%ymm0, %ymm5, %ymm5
	vpand	%ymm0, %ymm6, %ymm6
	vpsllq	$4, %ymm5, %ymm7
	vpsllq	$4, %ymm6, %ymm8
	vpxor	%ymm1, %ymm7, %ymm1
	vpxor	%ymm2, %ymm8, %ymm2
	vpxor	%ymm3, %ymm5, %ymm3
	vmovdqu	%ymm1, 2240(%rdi)
	vmovdqu	%ymm2, 2272(%rdi)
	vmovdqu	%ymm3, 2496(%rdi)
	vpxor	%ymm4, %ymm6, %ymm1
	vmovdqu	%ymm1, 2528(%rdi)
	vmovdqu	2560(%rdi), %ymm1
	vmovdqu	2592(%rdi), %ymm2
	vmovdqu	2816(%rdi), %ymm3
	vmovdqu	2848(%rdi), %ymm4
	vpsrlq	$4, %ymm1, %ymm5
	vpsrlq	$4, %ymm2, %ymm6
	vpxor	%ymm3, %ymm5, %ymm5
	vpxor	%ymm4, %ymm6, %ymm6
	vpand	%ymm0, %ymm5, %ymm5
	vpand	%ymm0, %ymm6, %ymm6
	vpsllq	$4, %ymm5, %ymm7
	vpsllq	$4, %ymm6, %ymm8
	vpxor	%ymm1, %ymm7, %ymm1
	vpxor	%ymm2, %ymm8, %ymm2
	vpxor	%ymm3, %ymm5, %ymm3
	vmovdqu	%ymm1, 2560(%rdi)
	vmovdqu	%ymm2, 2592(%rdi)
	vmovdqu	%ymm3, 2816(%rdi)
	vpxor	%ymm4, %ymm6, %ymm1
	vmovdqu	%ymm1, 2848(%rdi)
	vmovdqu	2624(%rdi), %ymm1
	vmovdqu	2656(%rdi), %ymm2
	vmovdqu	2880(%rdi), %ymm3
	vmovdqu	2912(%rdi), %ymm4
	vpsrlq	$4, %ymm1, %ymm5
	vpsrlq	$4, %ymm2, %ymm6
	vpxor	%ymm3, %ymm5, %ymm5
	vpxor	%ymm4, %ymm6, %ymm6
	vpand	%ymm0, %ymm5, %ymm5
	vpand	%ymm0, %ymm6, %ymm6
	vpsllq	$4, %ymm5, %ymm7
	vpsllq	$4, %ymm6, %ymm8
	vpxor	%ymm1, %ymm7, %ymm1
	vpxor	%ymm2, %ymm8, %ymm2
	vpxor	%ymm3, %ymm5, %ymm3
	vmovdqu	%ymm1, 2624(%rdi)
	vmovdqu	%ymm2, 2656(%rdi)
	vmovdqu	%ymm3, 2880(%rdi)
	vpxor	%ymm4, %ymm6, %ymm1
	vmovdqu	%ymm1, 2912(%rdi)
	vmovdqu	2688(%rdi), %ymm1
	vmovdqu	2720(%rdi), %ymm2
	vmovdqu	2944(%rdi), %ymm3
	vmovdqu	2976(%rdi), %ymm4
	vpsrlq	$4, %ymm1, %ymm5
	vpsrlq	$4, %ymm2, %ymm6
	vpxor	%ymm3, %ymm5, %ymm5
	vpxor	%ymm4, %ymm6, %ymm6
	vpand	%ymm0, %ymm5, %ymm5
	vpand	%ymm0, %ymm6, %ymm6
	vpsllq	$4, %ymm5, %ymm7
	vpsllq	$4, %ymm6, %ymm8
	vpxor	%ymm1, %ymm7, %ymm1
	vpxor	%ymm2, %ymm8, %ymm2
	vpxor	%ymm3, %ymm5, %ymm3
	vmovdqu	%ymm1, 2688(%rdi)
	vmovdqu	%ymm2, 2720(%rdi)
	vmovdqu	%ymm3, 2944(%rdi)
	vpxor	%ymm4, %ymm6, %ymm1
	vmovdqu	%ymm1, 2976(%rdi)
	vmovdqu	2752(%rdi), %ymm1
	vmovdqu	2784(%rdi), %ymm2
	vmovdqu	3008(%rdi), %ymm3
	vmovdqu	3040(%rdi), %ymm4
	vpsrlq	$4, %ymm1, %ymm5
	vpsrlq	$4, %ymm2, %ymm6
	vpxor	%ymm3, %ymm5, %ymm5
	vpxor	%ymm4, %ymm6, %ymm6
	vpand	%ymm0, %ymm5, %ymm5
	vpand	%ymm0, %ymm6, %ymm6
	vpsllq	$4, %ymm5, %ymm7
	vpsllq	$4, %ymm6, %ymm8
	vpxor	%ymm1, %ymm7, %ymm1
	vpxor	%ymm2, %ymm8, %ymm2
	vpxor	%ymm3, %ymm5, %ymm3
	vmovdqu	%ymm1, 2752(%rdi)
	vmovdqu	%ymm2, 2784(%rdi)
	vmovdqu	%ymm3, 3008(%rdi)
	vpxor	%ymm4, %ymm6, %ymm1
	vmovdqu	%ymm1, 3040(%rdi)
	vmovdqu	3072(%rdi), %ymm1
	vmovdqu	3104(%rdi), %ymm2
	vmovdqu	3328(%rdi), %ymm3
	vmovdqu	3360(%rdi), %ymm4
	vpsrlq	$4, %ymm1, %ymm5
	vpsrlq	$4, %ymm2, %ymm6
	vpxor	%ymm3, %ymm5, %ymm5
	vpxor	%ymm4, %ymm6, %ymm6
	vpand	%ymm0, %ymm5, %ymm5
	vpand	%ymm0, %ymm6, %ymm6
	vpsllq	$4, %ymm5, %ymm7
	vpsllq	$4, %ymm6, %ymm8
	vpxor	%ymm1, %ymm7, %ymm1
	vpxor	%ymm2, %ymm8, %ymm2
	vpxor	%ymm3, %ymm5, %ymm3
	vmovdqu	%ymm1, 3072(%rdi)
	vmovdqu	%ymm2, 3104(%rdi)
	vmovdqu	%ymm3, 3328(%rdi)
	vpxor	%ymm4, %ymm6, %ymm1
	vmovdqu	%ymm1, 3360(%rdi)
	vmovdqu	3136(%rdi), %ymm1
	vmovdqu	3168(%rdi), %ymm2
	vmovdqu	3392(%rdi), %ymm3
	vmovdqu	3424(%rdi), %ymm4
	vpsrlq	$4, %ymm1, %ymm5
	vpsrlq	$4, %ymm2, %ymm6
	vpxor	%ymm3, %ymm5, %ymm5
	vpxor	%ymm4, %ymm6, %ymm6
	vpand	%ymm0, %ymm5, %ymm5
	vpand	%ymm0, %ymm6, %ymm6
	vpsllq	$4, %ymm5, %ymm7
	vpsllq	$4, %ymm6, %ymm8
	vpxor	%ymm1, %ymm7, %ymm1
	vpxor	%ymm2, %ymm8, %ymm2
	vpxor	%ymm3, %ymm5, %ymm3
	vmovdqu	%ymm1, 3136(%rdi)
	vmovdqu	%ymm2, 3168(%rdi)
	vmovdqu	%ymm3, 3392(%rdi)
	vpxor	%ymm4, %ymm6, %ymm1
	vmovdqu	%ymm1, 3424(%rdi)
	vmovdqu	3200(%rdi), %ymm1
	vmovdqu	3232(%rdi), %ymm2
	vmovdqu	3456(%rdi), %ymm3
	vmovdqu	3488(%rdi), %ymm4
	vpsrlq	$4, %ymm1, %ymm5
	vpsrlq	$4, %ymm2, %ymm6
	vpxor	%ymm3, %ymm5, %ymm5
	vpxor	%ymm4, %ymm6, %ymm6
	vpand	%ymm0, %ymm5, %ymm5
	vpand	%ymm0, %ymm6, %ymm6
	vpsllq	$4, %ymm5, %ymm7
	vpsllq	$4, %ymm6, %ymm8
	vpxor	%ymm1, %ymm7, %ymm1
	vpxor	%ymm2, %ymm8, %ymm2
	vpxor	%ymm3, %ymm5, %ymm3
	vmovdqu	%ymm1, 3200(%rdi)
	vmovdqu	%ymm2, 3232(%rdi)
	vmovdqu	%ymm3, 3456(%rdi)
	vpxor	%ymm4, %ymm6, %ymm1
	vmovdqu	%ymm1, 3488(%rdi)
	vmovdqu	3264(%rdi), %ymm1
	vmovdqu	3296(%rdi), %ymm2
	vmovdqu	3520(%rdi), %ymm3
	vmovdqu	3552(%rdi), %ymm4
	vpsrlq	$4, %ymm1, %ymm5
	vpsrlq	$4, %ymm2, %ymm6
	vpxor	%ymm3, %ymm5, %ymm5
	vpxor	%ymm4, %ymm6, %ymm6
	vpand	%ymm0, %ymm5, %ymm5
	vpand	%ymm0, %ymm6, %ymm6
	vpsllq	$4, %ymm5, %ymm7
	vpsllq	$4, %ymm6, %ymm8
	vpxor	%ymm1, %ymm7, %ymm1
	vpxor	%ymm2, %ymm8, %ymm2
	vpxor	%ymm3, %ymm5, %ymm3
	vmovdqu	%ymm1, 3264(%rdi)
	vmovdqu	%ymm2, 3296(%rdi)
	vmovdqu	%ymm3, 3520(%rdi)
	vpxor	%ymm4, %ymm6, %ymm1
	vmovdqu	%ymm1, 3552(%rdi)
	vmovdqu	3584(%rdi), %ymm1
	vmovdqu	3616(%rdi), %ymm2
	vmovdqu	3840(%rdi), %ymm3
	vmovdqu	3872(%rdi), %ymm4
	vpsrlq	$4, %ymm1, %ymm5
	vpsrlq	$4, %ymm2, %ymm6
	vpxor	%ymm3, %ymm5, %ymm5
	vpxor	%ymm4, %ymm6, %ymm6
	vpand	%ymm0, %ymm5, %ymm5
	vpand	%ymm0, %ymm6, %ymm6
	vpsllq	$4, %ymm5, %ymm7
	vpsllq	$4, %ymm6, %ymm8
	vpxor	%ymm1, %ymm7, %ymm1
	vpxor	%ymm2, %ymm8, %ymm2
	vpxor	%ymm3, %ymm5, %ymm3
	vmovdqu	%ymm1, 3584(%rdi)
	vmovdqu	%ymm2, 3616(%rdi)
	vmovdqu	%ymm3, 3840(%rdi)
	vpxor	%ymm4, %ymm6, %ymm1
	vmovdqu	%ymm1, 3872(%rdi)
	vmovdqu	3648(%rdi), %ymm1
	vmovdqu	3680(%rdi), %ymm2
	vmovdqu	3904(%rdi), %ymm3
	vmovdqu	3936(%rdi), %ymm4
	vpsrlq	$4, %ymm1, %ymm5
	vpsrlq	$4, %ymm2, %ymm6
	vpxor	%ymm3, %ymm5, %ymm5
	vpxor	%ymm4, %ymm6, %ymm6
	vpand	%ymm0, %ymm5, %ymm5
	vpand	%ymm0, %ymm6, %ymm6
	vpsllq	$4, %ymm5, %ymm7
	vpsllq	$4, %ymm6, %ymm8
	vpxor	%ymm1, %ymm7, %ymm1
	vpxor	%ymm2, %ymm8, %ymm2
	vpxor	%ymm3, %ymm5, %ymm3
	vmovdqu	%ymm1, 3648(%rdi)
	vmovdqu	%ymm2, 3680(%rdi)
	vmovdqu	%ymm3, 3904(%rdi)
	vpxor	%ymm4, %ymm6, %ymm1
	vmovdqu	%ymm1, 3936(%rdi)
	vmovdqu	3712(%rdi), %ymm1
	vmovdqu	3744(%rdi), %ymm2
	vmovdqu	3968(%rdi), %ymm3
	vmovdqu	4000(%rdi), %ymm4
	vpsrlq	$4, %ymm1, %ymm5
	vpsrlq	$4, %ymm2, %ymm6
	vpxor	%ymm3, %ymm5, %ymm5
	vpxor	%ymm4, %ymm6, %ymm6
	vpand	%ymm0, %ymm5, %ymm5
	vpand	%ymm0, %ymm6, %ymm6
	vpsllq	$4, %ymm5, %ymm7
	vpsllq	$4, %ymm6, %ymm8
	vpxor	%ymm1, %ymm7, %ymm1
	vpxor	%ymm2, %ymm8, %ymm2
	vpxor	%ymm3, %ymm5, %ymm3
	vmovdqu	%ymm1, 3712(%rdi)
	vmovdqu	%ymm2, 3744(%rdi)
	vmovdqu	%ymm3, 3968(%rdi)
	vpxor	%ymm4, %ymm6, %ymm1
	vmovdqu	%ymm1, 4000(%rdi)
	vmovdqu	3776(%rdi), %ymm1
	vmovdqu	3808(%rdi), %ymm2
	vmovdqu	4032(%rdi), %ymm3
	vmovdqu	4064(%rdi), %ymm4
	vpsrlq	$4, %ymm1, %ymm5
	vpsrlq	$4, %ymm2, %ymm6
	vpxor	%ymm3, %ymm5, %ymm5
	vpxor	%ymm4, %ymm6, %ymm6
	vpand	%ymm0, %ymm5, %ymm5
	vpand	%ymm0, %ymm6, %ymm0
	vpsllq	$4, %ymm5, %ymm6
	vpsllq	$4, %ymm0, %ymm7
	vpxor	%ymm1, %ymm6, %ymm1
	vpxor	%ymm2, %ymm7, %ymm2
	vpxor	%ymm3, %ymm5, %ymm3
	vmovdqu	%ymm1, 3776(%rdi)
	vmovdqu	%ymm2, 3808(%rdi)
	vmovdqu	%ymm3, 4032(%rdi)
	vpxor	%ymm4, %ymm0, %ymm0
	vmovdqu	%ymm0, 4064(%rdi)
	xorl	%eax, %eax
	.p2align	4
.Lluossavin_x86_64_v3.BB6_7:
	vmovdqu	128(%rdi,%rax), %ymm1
	vmovdqu	(%rdi,%rax), %ymm2
	vmovdqu	32(%rdi,%rax), %ymm3
	vmovdqu	64(%rdi,%rax), %ymm4
	vmovdqu	96(%rdi,%rax), %ymm0
	vpsrlq	$2, %ymm2, %ymm5
	vpxor	%ymm1, %ymm5, %ymm5
	vpbroadcastq	.Lluossavin_x86_64_v3.CPI6_2(%rip), %ymm6
	vpand	%ymm6, %ymm5, %ymm5
	vpsllq	$2, %ymm5, %ymm7
	vpxor	%ymm2, %ymm7, %ymm2
	vmovdqu	%ymm2, (%rdi,%rax)
	vpxor	%ymm1, %ymm5, %ymm1
	vmovdqu	%ymm1, 128(%rdi,%rax)
	vmovdqu	160(%rdi,%rax), %ymm1
	vpsrlq	$2, %ymm3, %ymm2
	vpxor	%ymm1, %ymm2, %ymm2
	vpand	%ymm6, %ymm2, %ymm2
	vpsllq	$2, %ymm2, %ymm5
	vpxor	%ymm3, %ymm5, %ymm3
	vmovdqu	%ymm3, 32(%rdi,%rax)
	vpxor	%ymm1, %ymm2, %ymm1
	vmovdqu	%ymm1, 160(%rdi,%rax)
	vmovdqu	192(%rdi,%rax), %ymm1
	vpsrlq	$2, %ymm4, %ymm2
	vpxor	%ymm1, %ymm2, %ymm2
	vpand	%ymm6, %ymm2, %ymm2
	vpsllq	$2, %ymm2, %ymm3
	vpxor	%ymm4, %ymm3, %ymm3
	vmovdqu	%ymm3, 64(%rdi,%rax)
	vpxor	%ymm1, %ymm2, %ymm1
	vmovdqu	%ymm1, 192(%rdi,%rax)
	vmovdqu	224(%rdi,%rax), %ymm1
	vpsrlq	$2, %ymm0, %ymm2
	vpxor	%ymm1, %ymm2, %ymm2
	vpand	%ymm6, %ymm2, %ymm2
	vpsllq	$2, %ymm2, %ymm3
	vpxor	%ymm0, %ymm3, %ymm0
	vmovdqu	%ymm0, 96(%rdi,%rax)
	vpxor	%ymm1, %ymm2, %ymm0
	vmovdqu	%ymm0, 224(%rdi,%rax)
	addq	$256, %rax
	cmpq	$4096, %rax
	jne	.Lluossavin_x86_64_v3.BB6_7
	xorl	%eax, %eax
	.p2align	4
.Lluossavin_x86_64_v3.BB6_9:
	vmovdqu	(%rdi,%rax), %ymm0
	vmovdqu	32(%rdi,%rax), %ymm1
	vmovdqu	64(%rdi,%rax), %ymm2
	vmovdqu	96(%rdi,%rax), %ymm3
	vpsrlq	$1, %ymm0, %ymm4
	vpxor	%ymm2, %ymm4, %ymm4
	vpbroadcastq	.Lluossavin_x86_64_v3.CPI6_3(%rip), %ymm5
	vpand	%ymm5, %ymm4, %ymm4
	vpaddq	%ymm4, %ymm4, %ymm6
	vpxor	%ymm0, %ymm6, %ymm0
	vmovdqu	%ymm0, (%rdi,%rax)
	vpxor	%ymm2, %ymm4, %ymm0
	vmovdqu	%ymm0, 64(%rdi,%rax)
	vpsrlq	$1, %ymm1, %ymm0
	vpxor	%ymm3, %ymm0, %ymm0
	vpand	%ymm5, %ymm0, %ymm0
	vpaddq	%ymm0, %ymm0, %ymm2
	vpxor	%ymm1, %ymm2, %ymm1
	vmovdqu	%ymm1, 32(%rdi,%rax)
	vpxor	%ymm3, %ymm0, %ymm0
	vmovdqu	%ymm0, 96(%rdi,%rax)
	vmovdqu	128(%rdi,%rax), %ymm0
	vmovdqu	192(%rdi,%rax), %ymm1
	vpsrlq	$1, %ymm0, %ymm2
	vpxor	%ymm1, %ymm2, %ymm2
	vpand	%ymm5, %ymm2, %ymm2
	vpaddq	%ymm2, %ymm2, %ymm3
	vpxor	%ymm0, %ymm3, %ymm0
	vmovdqu	%ymm0, 128(%rdi,%rax)
	vpxor	%ymm1, %ymm2, %ymm0
	vmovdqu	%ymm0, 192(%rdi,%rax)
	vmovdqu	160(%rdi,%rax), %ymm0
	vmovdqu	224(%rdi,%rax), %ymm1
	vpsrlq	$1, %ymm0, %ymm2
	vpxor	%ymm1, %ymm2, %ymm2
	vpand	%ymm5, %ymm2, %ymm2
	vpaddq	%ymm2, %ymm2, %ymm3
	vpxor	%ymm0, %ymm3, %ymm0
	vmovdqu	%ymm0, 160(%rdi,%rax)
	vpxor	%ymm1, %ymm2, %ymm0
	vmovdqu	%ymm0, 224(%rdi,%rax)
	addq	$256, %rax
	cmpq	$4096, %rax
	jne	.Lluossavin_x86_64_v3.BB6_9
	vzeroupper
	retq
.Lluossavin_x86_64_v3.func_end6:
	.size	"rows::transpose.x86_64_v3", .Lluossavin_x86_64_v3.func_end6-"rows::transpose.x86_64_v3"

	.section	".text.sliced::Planes::rounds_to_rows.x86_64_v3","ax",@progbits
	.p2align	4
	.type	"sliced::Planes::rounds_to_rows.x86_64_v3",@function
"sliced::Planes::rounds_to_rows.x86_64_v3":
	pushq	%rbp
	pushq	%r15
	pushq	%r14
	pushq	%r13
	pushq	%r12
	pushq	%rbx
	subq	$136, %rsp
	movq	%rcx, %rbx
	movq	%rdx, %r13
	movq	%rdi, %r14
	movl	(%rsi), %r9d
	movl	4(%rsi), %eax
	movl	%eax, 12(%rsp)
	movl	8(%rsi), %eax
	movl	%eax, 16(%rsp)
	movl	12(%rsi), %eax
	movl	%eax, 20(%rsp)
	movl	16(%rsi), %eax
	movl	%eax, 24(%rsp)
	movl	20(%rsi), %eax
	movl	%eax, 28(%rsp)
	movl	24(%rsi), %eax
	movl	%eax, 32(%rsp)
	movl	28(%rsi), %eax
	movl	%eax, 36(%rsp)
	movl	32(%rsi), %eax
	movl	%eax, 40(%rsp)
	movl	36(%rsi), %eax
	movl	%eax, 44(%rsp)
	movl	40(%rsi), %eax
	movl	%eax, 48(%rsp)
	movl	44(%rsi), %eax
	movl	%eax, 52(%rsp)
	movl	48(%rsi), %eax
	movl	%eax, 56(%rsp)
	movl	52(%rsi), %eax
	movl	%eax, 60(%rsp)
	movl	56(%rsi), %eax
	movl	%eax, 64(%rsp)
	movl	60(%rsi), %eax
	movl	%eax, 68(%rsp)
	movl	64(%rsi), %eax
	movl	%eax, 72(%rsp)
	movl	68(%rsi), %eax
	movl	%eax, 76(%rsp)
	movl	72(%rsi), %eax
	movl	%eax, 80(%rsp)
	movl	76(%rsi), %eax
	movl	%eax, 84(%rsp)
	movl	80(%rsi), %eax
	movl	%eax, 88(%rsp)
	movl	84(%rsi), %eax
	movl	%eax, 92(%rsp)
	movl	88(%rsi), %eax
	movl	%eax, 96(%rsp)
	movl	92(%rsi), %eax
	movl	%eax, 100(%rsp)
	movl	96(%rsi), %eax
	movl	%eax, 104(%rsp)
	movl	100(%rsi), %eax
	movl	%eax, 108(%rsp)
	movl	104(%rsi), %eax
	movl	%eax, 112(%rsp)
	movl	108(%rsi), %eax
	movl	%eax, 116(%rsp)
	movl	112(%rsi), %eax
	movl	%eax, 120(%rsp)
	movl	116(%rsi), %eax
	movl	%eax, 124(%rsp)
	movl	120(%rsi), %eax
	movl	%eax, 128(%rsp)
	movl	124(%rsi), %eax
	movl	%eax, 132(%rsp)
	leaq	2048(%rdi), %r12
	leaq	4096(%rdi), %rbp
	leaq	6144(%rdi), %r15
	leaq	8192(%rdi), %r8
	movq	%rdx, (%rsp)
	movq	%r12, %rsi
	movq	%rbp, %rdx
	movq	%r15, %rcx
	callq	"sliced::round.x86_64_v3"
	movq	%r13, (%rsp)
	movq	%r12, %rdi
	movq	%rbp, %rsi
	movq	%r15, %rdx
	movq	%r14, %rcx
	leaq	8192(%r14), %r8
	movl	12(%rsp), %r9d
	callq	"sliced::round.x86_64_v3"
	movq	%r13, (%rsp)
	movq	%rbp, %rdi
	movq	%r15, %rsi
	movq	%r14, %rdx
	movq	%r12, %rcx
	leaq	8192(%r14), %r8
	movl	16(%rsp), %r9d
	callq	"sliced::round.x86_64_v3"
	movq	%r13, (%rsp)
	movq	%r15, %rdi
	movq	%r14, %rsi
	movq	%r12, %rdx
	movq	%rbp, %rcx
	leaq	8192(%r14), %r8
	movl	20(%rsp), %r9d
	callq	"sliced::round.x86_64_v3"
	movq	%r13, (%rsp)
	movq	%r14, %rdi
	movq	%r12, %rsi
	movq	%rbp, %rdx
	movq	%r15, %rcx
	leaq	8192(%r14), %r8
	movl	24(%rsp), %r9d
	callq	"sliced::round.x86_64_v3"
	movq	%r13, (%rsp)
	movq	%r12, %rdi
	movq	%rbp, %rsi
	movq	%r15, %rdx
	movq	%r14, %rcx
	leaq	8192(%r14), %r8
	movl	28(%rsp), %r9d
	callq	"sliced::round.x86_64_v3"
	movq	%r13, (%rsp)
	movq	%rbp, %rdi
	movq	%r15, %rsi
	movq	%r14, %rdx
	movq	%r12, %rcx
	leaq	8192(%r14), %r8
	movl	32(%rsp), %r9d
	callq	"sliced::round.x86_64_v3"
	movq	%r13, (%rsp)
	movq	%r15, %rdi
	movq	%r14, %rsi
	movq	%r12, %rdx
	movq	%rbp, %rcx
	leaq	8192(%r14), %r8
	movl	36(%rsp), %r9d
	callq	"sliced::round.x86_64_v3"
	movq	%r13, (%rsp)
	movq	%r14, %rdi
	movq	%r12, %rsi
	movq	%rbp, %rdx
	movq	%r15, %rcx
	leaq	8192(%r14), %r8
	movl	40(%rsp), %r9d
	callq	"sliced::round.x86_64_v3"
	movq	%r13, (%rsp)
	movq	%r12, %rdi
	movq	%rbp, %rsi
	movq	%r15, %rdx
	movq	%r14, %rcx
	leaq	8192(%r14), %r8
	movl	44(%rsp), %r9d
	callq	"sliced::round.x86_64_v3"
	movq	%r13, (%rsp)
	movq	%rbp, %rdi
	movq	%r15, %rsi
	movq	%r14, %rdx
	movq	%r12, %rcx
	leaq	8192(%r14), %r8
	movl	48(%rsp), %r9d
	callq	"sliced::round.x86_64_v3"
	movq	%r13, (%rsp)
	movq	%r15, %rdi
	movq	%r14, %rsi
	movq	%r12, %rdx
	movq	%rbp, %rcx
	leaq	8192(%r14), %r8
	movl	52(%rsp), %r9d
	callq	"sliced::round.x86_64_v3"
	movq	%r13, (%rsp)
	movq	%r14, %rdi
	movq	%r12, %rsi
	movq	%rbp, %rdx
	movq	%r15, %rcx
	leaq	8192(%r14), %r8
	movl	56(%rsp), %r9d
	callq	"sliced::round.x86_64_v3"
	movq	%r13, (%rsp)
	movq	%r12, %rdi
	movq	%rbp, %rsi
	movq	%r15, %rdx
	movq	%r14, %rcx
	leaq	8192(%r14), %r8
	movl	60(%rsp), %r9d
	callq	"sliced::round.x86_64_v3"
	movq	%r13, (%rsp)
	movq	%rbp, %rdi
	movq	%r15, %rsi
	movq	%r14, %rdx
	movq	%r12, %rcx
	leaq	8192(%r14), %r8
	movl	64(%rsp), %r9d
	callq	"sliced::round.x86_64_v3"
	movq	%r13, (%rsp)
	movq	%r15, %rdi
	movq	%r14, %rsi
	movq	%r12, %rdx
	movq	%rbp, %rcx
	leaq	8192(%r14), %r8
	movl	68(%rsp), %r9d
	callq	"sliced::round.x86_64_v3"
	movq	%r13, (%rsp)
	movq	%r14, %rdi
	movq	%r12, %rsi
	movq	%rbp, %rdx
	movq	%r15, %rcx
	leaq	8192(%r14), %r8
	movl	72(%rsp), %r9d
	callq	"sliced::round.x86_64_v3"
	movq	%r13, (%rsp)
	movq	%r12, %rdi
	movq	%rbp, %rsi
	movq	%r15, %rdx
	movq	%r14, %rcx
	leaq	8192(%r14), %r8
	movl	76(%rsp), %r9d
	callq	"sliced::round.x86_64_v3"
	movq	%r13, (%rsp)
	movq	%rbp, %rdi
	movq	%r15, %rsi
	movq	%r14, %rdx
	movq	%r12, %rcx
	leaq	8192(%r14), %r8
	movl	80(%rsp), %r9d
	callq	"sliced::round.x86_64_v3"
	movq	%r13, (%rsp)
	movq	%r15, %rdi
	movq	%r14, %rsi
	movq	%r12, %rdx
	movq	%rbp, %rcx
	leaq	8192(%r14), %r8
	movl	84(%rsp), %r9d
	callq	"sliced::round.x86_64_v3"
	movq	%r13, (%rsp)
	movq	%r14, %rdi
	movq	%r12, %rsi
	movq	%rbp, %rdx
	movq	%r15, %rcx
	leaq	8192(%r14), %r8
	movl	88(%rsp), %r9d
	callq	"sliced::round.x86_64_v3"
	movq	%r13, (%rsp)
	movq	%r12, %rdi
	movq	%rbp, %rsi
	movq	%r15, %rdx
	movq	%r14, %rcx
	leaq	8192(%r14), %r8
	movl	92(%rsp), %r9d
	callq	"sliced::round.x86_64_v3"
	movq	%r13, (%rsp)
	movq	%rbp, %rdi
	movq	%r15, %rsi
	movq	%r14, %rdx
	movq	%r12, %rcx
	leaq	8192(%r14), %r8
	movl	96(%rsp), %r9d
	callq	"sliced::round.x86_64_v3"
	movq	%r13, (%rsp)
	movq	%r15, %rdi
	movq	%r14, %rsi
	movq	%r12, %rdx
	movq	%rbp, %rcx
	leaq	8192(%r14), %r8
	movl	100(%rsp), %r9d
	callq	"sliced::round.x86_64_v3"
	movq	%r13, (%rsp)
	movq	%r14, %rdi
	movq	%r12, %rsi
	movq	%rbp, %rdx
	movq	%r15, %rcx
	leaq	8192(%r14), %r8
	movl	104(%rsp), %r9d
	callq	"sliced::round.x86_64_v3"
	movq	%r13, (%rsp)
	movq	%r12, %rdi
	movq	%rbp, %rsi
	movq	%r15, %rdx
	movq	%r14, %rcx
	leaq	8192(%r14), %r8
	movl	108(%rsp), %r9d
	callq	"sliced::round.x86_64_v3"
	movq	%r13, (%rsp)
	movq	%rbp, %rdi
	movq	%r15, %rsi
	movq	%r14, %rdx
	movq	%r12, %rcx
	leaq	8192(%r14), %r8
	movl	112(%rsp), %r9d
	callq	"sliced::round.x86_64_v3"
	movq	%r13, (%rsp)
	movq	%r15, %rdi
	movq	%r14, %rsi
	movq	%r12, %rdx
	movq	%rbp, %rcx
	leaq	8192(%r14), %r8
	movl	116(%rsp), %r9d
	callq	"sliced::round.x86_64_v3"
	movq	%r13, (%rsp)
	movq	%r14, %rdi
	movq	%r12, %rsi
	movq	%rbp, %rdx
	movq	%r15, %rcx
	leaq	8192(%r14), %r8
	movl	120(%rsp), %r9d
	callq	"sliced::round.x86_64_v3"
	movq	%r13, (%rsp)
	movq	%r12, %rdi
	movq	%rbp, %rsi
	movq	%r15, %rdx
	movq	%r14, %rcx
	leaq	8192(%r14), %r8
	movq	%r8, %r12
	movl	124(%rsp), %r9d
	callq	"sliced::round.x86_64_v3"
	movq	%r13, (%rsp)
	movq	%rbp, %rdi
	movq	%r15, %rsi
	movq	%r14, %rdx
	leaq	2048(%r14), %rcx
	movq	%rcx, %r15
	movq	%r12, %r8
	movq	%r12, %rbp
	movl	128(%rsp), %r9d
	callq	"sliced::round.x86_64_v3"
	movq	%r13, (%rsp)
	movq	%r15, %r13
	leaq	6144(%r14), %r15
	movq	%r15, %rdi
	movq	%r14, %rsi
	movq	%r13, %rdx
	leaq	4096(%r14), %rcx
	movq	%rcx, %r12
	movq	%rbp, %r8
	movl	132(%rsp), %r9d
	callq	"sliced::round.x86_64_v3"
	movq	%rbx, %rax
	subq	%r12, %rax
	cmpq	$2047, %rax
	ja	.Lluossavin_x86_64_v3.BB7_5
	movq	%rbx, %rax
	subq	%r14, %rax
	addq	$-4096, %rax
	cmpq	$127, %rax
	ja	.Lluossavin_x86_64_v3.BB7_4
	xorl	%eax, %eax
	.p2align	4
.Lluossavin_x86_64_v3.BB7_3:
	movq	4096(%r14,%rax,8), %rcx
	movq	%rcx, (%rbx,%rax,8)
	movq	4104(%r14,%rax,8), %rcx
	movq	%rcx, 8(%rbx,%rax,8)
	movq	4112(%r14,%rax,8), %rcx
	movq	%rcx, 16(%rbx,%rax,8)
	movq	4120(%r14,%rax,8), %rcx
	movq	%rcx, 24(%rbx,%rax,8)
	movq	4128(%r14,%rax,8), %rcx
	movq	%rcx, 32(%rbx,%rax,8)
	movq	4136(%r14,%rax,8), %rcx
	movq	%rcx, 40(%rbx,%rax,8)
	movq	4144(%r14,%rax,8), %rcx
	movq	%rcx, 48(%rbx,%rax,8)
	movq	4152(%r14,%rax,8), %rcx
	movq	%rcx, 56(%rbx,%rax,8)
	addq	$8, %rax
	cmpq	$256, %rax
	jne	.Lluossavin_x86_64_v3.BB7_3
	jmp	.Lluossavin_x86_64_v3.BB7_6
.Lluossavin_x86_64_v3.BB7_5:
	movq	%r12, %rsi
	movl	$2048, %edx
	movq	%rbx, %rdi
	callq	memmove@PLT
	jmp	.Lluossavin_x86_64_v3.BB7_6
.Lluossavin_x86_64_v3.BB7_4:
	vmovups	4096(%r14), %ymm0
	vmovups	4128(%r14), %ymm1
	vmovups	4160(%r14), %ymm2
	vmovups	4192(%r14), %ymm3
	vmovups	%ymm0, (%rbx)
	vmovups	%ymm1, 32(%rbx)
	vmovups	%ymm2, 64(%rbx)
	vmovups	%ymm3, 96(%rbx)
	vmovups	4224(%r14), %ymm0
	vmovups	4256(%r14), %ymm1
	vmovups	4288(%r14), %ymm2
	vmovups	4320(%r14), %ymm3
	vmovups	%ymm0, 128(%rbx)
	vmovups	%ymm1, 160(%rbx)
	vmovups	%ymm2, 192(%rbx)
	vmovups	%ymm3, 224(%rbx)
	vmovups	4352(%r14), %ymm0
	vmovups	4384(%r14), %ymm1
	vmovups	4416(%r14), %ymm2
	vmovups	4448(%r14), %ymm3
	vmovups	%ymm0, 256(%rbx)
	vmovups	%ymm1, 288(%rbx)
	vmovups	%ymm2, 320(%rbx)
	vmovups	%ymm3, 352(%rbx)
	vmovups	4480(%r14), %ymm0
	vmovups	4512(%r14), %ymm1
	vmovups	4544(%r14), %ymm2
	vmovups	4576(%r14), %ymm3
	vmovups	%ymm0, 384(%rbx)
	vmovups	%ymm1, 416(%rbx)
	vmovups	%ymm2, 448(%rbx)
	vmovups	%ymm3, 480(%rbx)
	vmovups	4608(%r14), %ymm0
	vmovups	4640(%r14), %ymm1
	vmovups	4672(%r14), %ymm2
	vmovups	4704(%r14), %ymm3
	vmovups	%ymm0, 512(%rbx)
	vmovups	%ymm1, 544(%rbx)
	vmovups	%ymm2, 576(%rbx)
	vmovups	%ymm3, 608(%rbx)
	vmovups	4736(%r14), %ymm0
	vmovups	4768(%r14), %ymm1
	vmovups	4800(%r14), %ymm2
	vmovups	4832(%r14), %ymm3
	vmovups	%ymm0, 640(%rbx)
	vmovups	%ymm1, 672(%rbx)
	vmovups	%ymm2, 704(%rbx)
	vmovups	%ymm3, 736(%rbx)
	vmovups	4864(%r14), %ymm0
	vmovups	4896(%r14), %ymm1
	vmovups	4928(%r14), %ymm2
	vmovups	4960(%r14), %ymm3
	vmovups	%ymm0, 768(%rbx)
	vmovups	%ymm1, 800(%rbx)
	vmovups	%ymm2, 832(%rbx)
	vmovups	%ymm3, 864(%rbx)
	vmovups	4992(%r14), %ymm0
	vmovups	5024(%r14), %ymm1
	vmovups	5056(%r14), %ymm2
	vmovups	5088(%r14), %ymm3
	vmovups	%ymm0, 896(%rbx)
	vmovups	%ymm1, 928(%rbx)
	vmovups	%ymm2, 960(%rbx)
	vmovups	%ymm3, 992(%rbx)
	vmovups	5120(%r14), %ymm0
	vmovups	5152(%r14), %ymm1
	vmovups	5184(%r14), %ymm2
	vmovups	5216(%r14), %ymm3
	vmovups	%ymm0, 1024(%rbx)
	vmovups	%ymm1, 1056(%rbx)
	vmovups	%ymm2, 1088(%rbx)
	vmovups	%ymm3, 1120(%rbx)
	vmovups	5248(%r14), %ymm0
	vmovups	5280(%r14), %ymm1
	vmovups	5312(%r14), %ymm2
	vmovups	5344(%r14), %ymm3
	vmovups	%ymm0, 1152(%rbx)
	vmovups	%ymm1, 1184(%rbx)
	vmovups	%ymm2, 1216(%rbx)
	vmovups	%ymm3, 1248(%rbx)
	vmovups	5376(%r14), %ymm0
	vmovups	5408(%r14), %ymm1
	vmovups	5440(%r14), %ymm2
	vmovups	5472(%r14), %ymm3
	vmovups	%ymm0, 1280(%rbx)
	vmovups	%ymm1, 1312(%rbx)
	vmovups	%ymm2, 1344(%rbx)
	vmovups	%ymm3, 1376(%rbx)
	vmovups	5504(%r14), %ymm0
	vmovups	5536(%r14), %ymm1
	vmovups	5568(%r14), %ymm2
	vmovups	5600(%r14), %ymm3
	vmovups	%ymm0, 1408(%rbx)
	vmovups	%ymm1, 1440(%rbx)
	vmovups	%ymm2, 1472(%rbx)
	vmovups	%ymm3, 1504(%rbx)
	vmovups	5632(%r14), %ymm0
	vmovups	5664(%r14), %ymm1
	vmovups	5696(%r14), %ymm2
	vmovups	5728(%r14), %ymm3
	vmovups	%ymm0, 1536(%rbx)
	vmovups	%ymm1, 1568(%rbx)
	vmovups	%ymm2, 1600(%rbx)
	vmovups	%ymm3, 1632(%rbx)
	vmovups	5760(%r14), %ymm0
	vmovups	5792(%r14), %ymm1
	vmovups	5824(%r14), %ymm2
	vmovups	5856(%r14), %ymm3
	vmovups	%ymm0, 1664(%rbx)
	vmovups	%ymm1, 1696(%rbx)
	vmovups	%ymm2, 1728(%rbx)
	vmovups	%ymm3, 1760(%rbx)
	vmovups	5888(%r14), %ymm0
	vmovups	5920(%r14), %ymm1
	vmovups	5952(%r14), %ymm2
	vmovups	5984(%r14), %ymm3
	vmovups	%ymm0, 1792(%rbx)
	vmovups	%ymm1, 1824(%rbx)
	vmovups	%ymm2, 1856(%rbx)
	vmovups	%ymm3, 1888(%rbx)
	vmovups	6016(%r14), %ymm0
	vmovups	6048(%r14), %ymm1
	vmovups	6080(%r14), %ymm2
	vmovups	6112(%r14), %ymm3
	vmovups	%ymm0, 1920(%rbx)
	vmovups	%ymm1, 1952(%rbx)
	vmovups	%ymm2, 1984(%rbx)
	vmovups	%ymm3, 2016(%rbx)
.Lluossavin_x86_64_v3.BB7_6:
	leaq	2048(%rbx), %rdi
	movq	%rdi, %rax
	subq	%r15, %rax
	cmpq	$2047, %rax
	ja	.Lluossavin_x86_64_v3.BB7_11
	movq	%rbx, %rax
	subq	%r14, %rax
	addq	$-4096, %rax
	cmpq	$127, %rax
	ja	.Lluossavin_x86_64_v3.BB7_10
	xorl	%eax, %eax
	.p2align	4
.Lluossavin_x86_64_v3.BB7_9:
	movq	6144(%r14,%rax,8), %rcx
	movq	%rcx, 2048(%rbx,%rax,8)
	movq	6152(%r14,%rax,8), %rcx
	movq	%rcx, 2056(%rbx,%rax,8)
	movq	6160(%r14,%rax,8), %rcx
	movq	%rcx, 2064(%rbx,%rax,8)
	movq	6168(%r14,%rax,8), %rcx
	movq	%rcx, 2072(%rbx,%rax,8)
	movq	6176(%r14,%rax,8), %rcx
	movq	%rcx, 2080(%rbx,%rax,8)
	movq	6184(%r14,%rax,8), %rcx
	movq	%rcx, 2088(%rbx,%rax,8)
	movq	6192(%r14,%rax,8), %rcx
	movq	%rcx, 2096(%rbx,%rax,8)
	movq	6200(%r14,%rax,8), %rcx
	movq	%rcx, 2104(%rbx,%rax,8)
	addq	$8, %rax
	cmpq	$256, %rax
	jne	.Lluossavin_x86_64_v3.BB7_9
	jmp	.Lluossavin_x86_64_v3.BB7_12
.Lluossavin_x86_64_v3.BB7_11:
	movl	$2048, %edx
	movq	%r15, %rsi
	vzeroupper
	callq	memmove@PLT
	jmp	.Lluossavin_x86_64_v3.BB7_12
.Lluossavin_x86_64_v3.BB7_10:
	vmovups	6144(%r14), %ymm0
	vmovups	6176(%r14), %ymm1
	vmovups	6208(%r14), %ymm2
	vmovups	6240(%r14), %ymm3
	vmovups	%ymm0, 2048(%rbx)
	vmovups	%ymm1, 2080(%rbx)
	vmovups	%ymm2, 2112(%rbx)
	vmovups	%ymm3, 2144(%rbx)
	vmovups	6272(%r14), %ymm0
	vmovups	6304(%r14), %ymm1
	vmovups	6336(%r14), %ymm2
	vmovups	6368(%r14), %ymm3
	vmovups	%ymm0, 2176(%rbx)
	vmovups	%ymm1, 2208(%rbx)
	vmovups	%ymm2, 2240(%rbx)
	vmovups	%ymm3, 2272(%rbx)
	vmovups	6400(%r14), %ymm0
	vmovups	6432(%r14), %ymm1
	vmovups	6464(%r14), %ymm2
	vmovups	6496(%r14), %ymm3
	vmovups	%ymm0, 2304(%rbx)
	vmovups	%ymm1, 2336(%rbx)
	vmovups	%ymm2, 2368(%rbx)
	vmovups	%ymm3, 2400(%rbx)
	vmovups	6528(%r14), %ymm0
	vmovups	6560(%r14), %ymm1
	vmovups	6592(%r14), %ymm2
	vmovups	6624(%r14), %ymm3
	vmovups	%ymm0, 2432(%rbx)
	vmovups	%ymm1, 2464(%rbx)
	vmovups	%ymm2, 2496(%rbx)
	vmovups	%ymm3, 2528(%rbx)
	vmovups	6656(%r14), %ymm0
	vmovups	6688(%r14), %ymm1
	vmovups	6720(%r14), %ymm2
	vmovups	6752(%r14), %ymm3
	vmovups	%ymm0, 2560(%rbx)
	vmovups	%ymm1, 2592(%rbx)
	vmovups	%ymm2, 2624(%rbx)
	vmovups	%ymm3, 2656(%rbx)
	vmovups	6784(%r14), %ymm0
	vmovups	6816(%r14), %ymm1
	vmovups	6848(%r14), %ymm2
	vmovups	6880(%r14), %ymm3
	vmovups	%ymm0, 2688(%rbx)
	vmovups	%ymm1, 2720(%rbx)
	vmovups	%ymm2, 2752(%rbx)
	vmovups	%ymm3, 2784(%rbx)
	vmovups	6912(%r14), %ymm0
	vmovups	6944(%r14), %ymm1
	vmovups	6976(%r14), %ymm2
	vmovups	7008(%r14), %ymm3
	vmovups	%ymm0, 2816(%rbx)
	vmovups	%ymm1, 2848(%rbx)
	vmovups	%ymm2, 2880(%rbx)
	vmovups	%ymm3, 2912(%rbx)
	vmovups	7040(%r14), %ymm0
	vmovups	7072(%r14), %ymm1
	vmovups	7104(%r14), %ymm2
	vmovups	7136(%r14), %ymm3
	vmovups	%ymm0, 2944(%rbx)
	vmovups	%ymm1, 2976(%rbx)
	vmovups	%ymm2, 3008(%rbx)
	vmovups	%ymm3, 3040(%rbx)
	vmovups	7168(%r14), %ymm0
	vmovups	7200(%r14), %ymm1
	vmovups	7232(%r14), %ymm2
	vmovups	7264(%r14), %ymm3
	vmovups	%ymm0, 3072(%rbx)
	vmovups	%ymm1, 3104(%rbx)
	vmovups	%ymm2, 3136(%rbx)
	vmovups	%ymm3, 3168(%rbx)
	vmovups	7296(%r14), %ymm0
	vmovups	7328(%r14), %ymm1
	vmovups	7360(%r14), %ymm2
	vmovups	7392(%r14), %ymm3
	vmovups	%ymm0, 3200(%rbx)
	vmovups	%ymm1, 3232(%rbx)
	vmovups	%ymm2, 3264(%rbx)
	vmovups	%ymm3, 3296(%rbx)
	vmovups	7424(%r14), %ymm0
	vmovups	7456(%r14), %ymm1
	vmovups	7488(%r14), %ymm2
	vmovups	7520(%r14), %ymm3
	vmovups	%ymm0, 3328(%rbx)
	vmovups	%ymm1, 3360(%rbx)
	vmovups	%ymm2, 3392(%rbx)
	vmovups	%ymm3, 3424(%rbx)
	vmovups	7552(%r14), %ymm0
	vmovups	7584(%r14), %ymm1
	vmovups	7616(%r14), %ymm2
	vmovups	7648(%r14), %ymm3
	vmovups	%ymm0, 3456(%rbx)
	vmovups	%ymm1, 3488(%rbx)
	vmovups	%ymm2, 3520(%rbx)
	vmovups	%ymm3, 3552(%rbx)
	vmovups	7680(%r14), %ymm0
	vmovups	7712(%r14), %ymm1
	vmovups	7744(%r14), %ymm2
	vmovups	7776(%r14), %ymm3
	vmovups	%ymm0, 3584(%rbx)
	vmovups	%ymm1, 3616(%rbx)
	vmovups	%ymm2, 3648(%rbx)
	vmovups	%ymm3, 3680(%rbx)
	vmovups	7808(%r14), %ymm0
	vmovups	7840(%r14), %ymm1
	vmovups	7872(%r14), %ymm2
	vmovups	7904(%r14), %ymm3
	vmovups	%ymm0, 3712(%rbx)
	vmovups	%ymm1, 3744(%rbx)
	vmovups	%ymm2, 3776(%rbx)
	vmovups	%ymm3, 3808(%rbx)
	vmovups	7936(%r14), %ymm0
	vmovups	7968(%r14), %ymm1
	vmovups	8000(%r14), %ymm2
	vmovups	8032(%r14), %ymm3
	vmovups	%ymm0, 3840(%rbx)
	vmovups	%ymm1, 3872(%rbx)
	vmovups	%ymm2, 3904(%rbx)
	vmovups	%ymm3, 3936(%rbx)
	vmovups	8064(%r14), %ymm0
	vmovups	8096(%r14), %ymm1
	vmovups	8128(%r14), %ymm2
	vmovups	8160(%r14), %ymm3
	vmovups	%ymm0, 3968(%rbx)
	vmovups	%ymm1, 4000(%rbx)
	vmovups	%ymm2, 4032(%rbx)
	vmovups	%ymm3, 4064(%rbx)
.Lluossavin_x86_64_v3.BB7_12:
	movq	%rbx, %rdi
	vzeroupper
	callq	"rows::transpose.x86_64_v3"
	leaq	4096(%rbx), %r12
	movq	%r12, %rax
	subq	%r14, %rax
	cmpq	$2047, %rax
	ja	.Lluossavin_x86_64_v3.BB7_17
	movq	%rbx, %rax
	subq	%r14, %rax
	addq	$4096, %rax
	cmpq	$127, %rax
	ja	.Lluossavin_x86_64_v3.BB7_16
	xorl	%eax, %eax
	.p2align	4
.Lluossavin_x86_64_v3.BB7_15:
	movq	(%r14,%rax,8), %rcx
	movq	%rcx, 4096(%rbx,%rax,8)
	movq	8(%r14,%rax,8), %rcx
	movq	%rcx, 4104(%rbx,%rax,8)
	movq	16(%r14,%rax,8), %rcx
	movq	%rcx, 4112(%rbx,%rax,8)
	movq	24(%r14,%rax,8), %rcx
	movq	%rcx, 4120(%rbx,%rax,8)
	movq	32(%r14,%rax,8), %rcx
	movq	%rcx, 4128(%rbx,%rax,8)
	movq	40(%r14,%rax,8), %rcx
	movq	%rcx, 4136(%rbx,%rax,8)
	movq	48(%r14,%rax,8), %rcx
	movq	%rcx, 4144(%rbx,%rax,8)
	movq	56(%r14,%rax,8), %rcx
	movq	%rcx, 4152(%rbx,%rax,8)
	addq	$8, %rax
	cmpq	$256, %rax
	jne	.Lluossavin_x86_64_v3.BB7_15
	jmp	.Lluossavin_x86_64_v3.BB7_18
.Lluossavin_x86_64_v3.BB7_17:
	movl	$2048, %edx
	movq	%r12, %rdi
	movq	%r14, %rsi
	callq	memmove@PLT
	jmp	.Lluossavin_x86_64_v3.BB7_18
.Lluossavin_x86_64_v3.BB7_16:
	vmovups	(%r14), %ymm0
	vmovups	32(%r14), %ymm1
	vmovups	64(%r14), %ymm2
	vmovups	96(%r14), %ymm3
	vmovups	%ymm0, 4096(%rbx)
	vmovups	%ymm1, 4128(%rbx)
	vmovups	%ymm2, 4160(%rbx)
	vmovups	%ymm3, 4192(%rbx)
	vmovups	128(%r14), %ymm0
	vmovups	160(%r14), %ymm1
	vmovups	192(%r14), %ymm2
	vmovups	224(%r14), %ymm3
	vmovups	%ymm0, 4224(%rbx)
	vmovups	%ymm1, 4256(%rbx)
	vmovups	%ymm2, 4288(%rbx)
	vmovups	%ymm3, 4320(%rbx)
	vmovups	256(%r14), %ymm0
	vmovups	288(%r14), %ymm1
	vmovups	320(%r14), %ymm2
	vmovups	352(%r14), %ymm3
	vmovups	%ymm0, 4352(%rbx)
	vmovups	%ymm1, 4384(%rbx)
	vmovups	%ymm2, 4416(%rbx)
	vmovups	%ymm3, 4448(%rbx)
	vmovups	384(%r14), %ymm0
	vmovups	416(%r14), %ymm1
	vmovups	448(%r14), %ymm2
	vmovups	480(%r14), %ymm3
	vmovups	%ymm0, 4480(%rbx)
	vmovups	%ymm1, 4512(%rbx)
	vmovups	%ymm2, 4544(%rbx)
	vmovups	%ymm3, 4576(%rbx)
	vmovups	512(%r14), %ymm0
	vmovups	544(%r14), %ymm1
	vmovups	576(%r14), %ymm2
	vmovups	608(%r14), %ymm3
	vmovups	%ymm0, 4608(%rbx)
	vmovups	%ymm1, 4640(%rbx)
	vmovups	%ymm2, 4672(%rbx)
	vmovups	%ymm3, 4704(%rbx)
	vmovups	640(%r14), %ymm0
	vmovups	672(%r14), %ymm1
	vmovups	704(%r14), %ymm2
	vmovups	736(%r14), %ymm3
	vmovups	%ymm0, 4736(%rbx)
	vmovups	%ymm1, 4768(%rbx)
	vmovups	%ymm2, 4800(%rbx)
	vmovups	%ymm3, 4832(%rbx)
	vmovups	768(%r14), %ymm0
	vmovups	800(%r14), %ymm1
	vmovups	832(%r14), %ymm2
	vmovups	864(%r14), %ymm3
	vmovups	%ymm0, 4864(%rbx)
	vmovups	%ymm1, 4896(%rbx)
	vmovups	%ymm2, 4928(%rbx)
	vmovups	%ymm3, 4960(%rbx)
	vmovups	896(%r14), %ymm0
	vmovups	928(%r14), %ymm1
	vmovups	960(%r14), %ymm2
	vmovups	992(%r14), %ymm3
	vmovups	%ymm0, 4992(%rbx)
	vmovups	%ymm1, 5024(%rbx)
	vmovups	%ymm2, 5056(%rbx)
	vmovups	%ymm3, 5088(%rbx)
	vmovups	1024(%r14), %ymm0
	vmovups	1056(%r14), %ymm1
	vmovups	1088(%r14), %ymm2
	vmovups	1120(%r14), %ymm3
	vmovups	%ymm0, 5120(%rbx)
	vmovups	%ymm1, 5152(%rbx)
	vmovups	%ymm2, 5184(%rbx)
	vmovups	%ymm3, 5216(%rbx)
	vmovups	1152(%r14), %ymm0
	vmovups	1184(%r14), %ymm1
	vmovups	1216(%r14), %ymm2
	vmovups	1248(%r14), %ymm3
	vmovups	%ymm0, 5248(%rbx)
	vmovups	%ymm1, 5280(%rbx)
	vmovups	%ymm2, 5312(%rbx)
	vmovups	%ymm3, 5344(%rbx)
	vmovups	1280(%r14), %ymm0
	vmovups	1312(%r14), %ymm1
	vmovups	1344(%r14), %ymm2
	vmovups	1376(%r14), %ymm3
	vmovups	%ymm0, 5376(%rbx)
	vmovups	%ymm1, 5408(%rbx)
	vmovups	%ymm2, 5440(%rbx)
	vmovups	%ymm3, 5472(%rbx)
	vmovups	1408(%r14), %ymm0
	vmovups	1440(%r14), %ymm1
	vmovups	1472(%r14), %ymm2
	vmovups	1504(%r14), %ymm3
	vmovups	%ymm0, 5504(%rbx)
	vmovups	%ymm1, 5536(%rbx)
	vmovups	%ymm2, 5568(%rbx)
	vmovups	%ymm3, 5600(%rbx)
	vmovups	1536(%r14), %ymm0
	vmovups	1568(%r14), %ymm1
	vmovups	1600(%r14), %ymm2
	vmovups	1632(%r14), %ymm3
	vmovups	%ymm0, 5632(%rbx)
	vmovups	%ymm1, 5664(%rbx)
	vmovups	%ymm2, 5696(%rbx)
	vmovups	%ymm3, 5728(%rbx)
	vmovups	1664(%r14), %ymm0
	vmovups	1696(%r14), %ymm1
	vmovups	1728(%r14), %ymm2
	vmovups	1760(%r14), %ymm3
	vmovups	%ymm0, 5760(%rbx)
	vmovups	%ymm1, 5792(%rbx)
	vmovups	%ymm2, 5824(%rbx)
	vmovups	%ymm3, 5856(%rbx)
	vmovups	1792(%r14), %ymm0
	vmovups	1824(%r14), %ymm1
	vmovups	1856(%r14), %ymm2
	vmovups	1888(%r14), %ymm3
	vmovups	%ymm0, 5888(%rbx)
	vmovups	%ymm1, 5920(%rbx)
	vmovups	%ymm2, 5952(%rbx)
	vmovups	%ymm3, 5984(%rbx)
	vmovups	1920(%r14), %ymm0
	vmovups	1952(%r14), %ymm1
	vmovups	1984(%r14), %ymm2
	vmovups	2016(%r14), %ymm3
	vmovups	%ymm0, 6016(%rbx)
	vmovups	%ymm1, 6048(%rbx)
	vmovups	%ymm2, 6080(%rbx)
	vmovups	%ymm3, 6112(%rbx)
.Lluossavin_x86_64_v3.BB7_18:
	leaq	6144(%rbx), %rdi
	movq	%rdi, %rax
	subq	%r13, %rax
	cmpq	$2047, %rax
	ja	.Lluossavin_x86_64_v3.BB7_23
	movq	%rbx, %rax
	subq	%r14, %rax
	addq	$4096, %rax
	cmpq	$127, %rax
	ja	.Lluossavin_x86_64_v3.BB7_22
	xorl	%eax, %eax
	.p2align	4
.Lluossavin_x86_64_v3.BB7_21:
	movq	2048(%r14,%rax,8), %rcx
	movq	%rcx, 6144(%rbx,%rax,8)
	movq	2056(%r14,%rax,8), %rcx
	movq	%rcx, 6152(%rbx,%rax,8)
	movq	2064(%r14,%rax,8), %rcx
	movq	%rcx, 6160(%rbx,%rax,8)
	movq	2072(%r14,%rax,8), %rcx
	movq	%rcx, 6168(%rbx,%rax,8)
	movq	2080(%r14,%rax,8), %rcx
	movq	%rcx, 6176(%rbx,%rax,8)
	movq	2088(%r14,%rax,8), %rcx
	movq	%rcx, 6184(%rbx,%rax,8)
	movq	2096(%r14,%rax,8), %rcx
	movq	%rcx, 6192(%rbx,%rax,8)
	movq	2104(%r14,%rax,8), %rcx
	movq	%rcx, 6200(%rbx,%rax,8)
	addq	$8, %rax
	cmpq	$256, %rax
	jne	.Lluossavin_x86_64_v3.BB7_21
	jmp	.Lluossavin_x86_64_v3.BB7_24
.Lluossavin_x86_64_v3.BB7_23:
	movl	$2048, %edx
	movq	%r13, %rsi
	vzeroupper
	callq	memmove@PLT
	jmp	.Lluossavin_x86_64_v3.BB7_24
.Lluossavin_x86_64_v3.BB7_22:
	vmovups	2048(%r14), %ymm0
	vmovups	2080(%r14), %ymm1
	vmovups	2112(%r14), %ymm2
	vmovups	2144(%r14), %ymm3
	vmovups	%ymm0, 6144(%rbx)
	vmovups	%ymm1, 6176(%rbx)
	vmovups	%ymm2, 6208(%rbx)
	vmovups	%ymm3, 6240(%rbx)
	vmovups	2176(%r14), %ymm0
	vmovups	2208(%r14), %ymm1
	vmovups	2240(%r14), %ymm2
	vmovups	2272(%r14), %ymm3
	vmovups	%ymm0, 6272(%rbx)
	vmovups	%ymm1, 6304(%rbx)
	vmovups	%ymm2, 6336(%rbx)
	vmovups	%ymm3, 6368(%rbx)
	vmovups	2304(%r14), %ymm0
	vmovups	2336(%r14), %ymm1
	vmovups	2368(%r14), %ymm2
	vmovups	2400(%r14), %ymm3
	vmovups	%ymm0, 6400(%rbx)
	vmovups	%ymm1, 6432(%rbx)
	vmovups	%ymm2, 6464(%rbx)
	vmovups	%ymm3, 6496(%rbx)
	vmovups	2432(%r14), %ymm0
	vmovups	2464(%r14), %ymm1
	vmovups	2496(%r14), %ymm2
	vmovups	2528(%r14), %ymm3
	vmovups	%ymm0, 6528(%rbx)
	vmovups	%ymm1, 6560(%rbx)
	vmovups	%ymm2, 6592(%rbx)
	vmovups	%ymm3, 6624(%rbx)
	vmovups	2560(%r14), %ymm0
	vmovups	2592(%r14), %ymm1
	vmovups	2624(%r14), %ymm2
	vmovups	2656(%r14), %ymm3
	vmovups	%ymm0, 6656(%rbx)
	vmovups	%ymm1, 6688(%rbx)
	vmovups	%ymm2, 6720(%rbx)
	vmovups	%ymm3, 6752(%rbx)
	vmovups	2688(%r14), %ymm0
	vmovups	2720(%r14), %ymm1
	vmovups	2752(%r14), %ymm2
	vmovups	2784(%r14), %ymm3
	vmovups	%ymm0, 6784(%rbx)
	vmovups	%ymm1, 6816(%rbx)
	vmovups	%ymm2, 6848(%rbx)
	vmovups	%ymm3, 6880(%rbx)
	vmovups	2816(%r14), %ymm0
	vmovups	2848(%r14), %ymm1
	vmovups	2880(%r14), %ymm2
	vmovups	2912(%r14), %ymm3
	vmovups	%ymm0, 6912(%rbx)
	vmovups	%ymm1, 6944(%rbx)
	vmovups	%ymm2, 6976(%rbx)
	vmovups	%ymm3, 7008(%rbx)
	vmovups	2944(%r14), %ymm0
	vmovups	2976(%r14), %ymm1
	vmovups	3008(%r14), %ymm2
	vmovups	3040(%r14), %ymm3
	vmovups	%ymm0, 7040(%rbx)
	vmovups	%ymm1, 7072(%rbx)
	vmovups	%ymm2, 7104(%rbx)
	vmovups	%ymm3, 7136(%rbx)
	vmovups	3072(%r14), %ymm0
	vmovups	3104(%r14), %ymm1
	vmovups	3136(%r14), %ymm2
	vmovups	3168(%r14), %ymm3
	vmovups	%ymm0, 7168(%rbx)
	vmovups	%ymm1, 7200(%rbx)
	vmovups	%ymm2, 7232(%rbx)
	vmovups	%ymm3, 7264(%rbx)
	vmovups	3200(%r14), %ymm0
	vmovups	3232(%r14), %ymm1
	vmovups	3264(%r14), %ymm2
	vmovups	3296(%r14), %ymm3
	vmovups	%ymm0, 7296(%rbx)
	vmovups	%ymm1, 7328(%rbx)
	vmovups	%ymm2, 7360(%rbx)
	vmovups	%ymm3, 7392(%rbx)
	vmovups	3328(%r14), %ymm0
	vmovups	3360(%r14), %ymm1
	vmovups	3392(%r14), %ymm2
	vmovups	3424(%r14), %ymm3
	vmovups	%ymm0, 7424(%rbx)
	vmovups	%ymm1, 7456(%rbx)
	vmovups	%ymm2, 7488(%rbx)
	vmovups	%ymm3, 7520(%rbx)
	vmovups	3456(%r14), %ymm0
	vmovups	3488(%r14), %ymm1
	vmovups	3520(%r14), %ymm2
	vmovups	3552(%r14), %ymm3
	vmovups	%ymm0, 7552(%rbx)
	vmovups	%ymm1, 7584(%rbx)
	vmovups	%ymm2, 7616(%rbx)
	vmovups	%ymm3, 7648(%rbx)
	vmovups	3584(%r14), %ymm0
	vmovups	3616(%r14), %ymm1
	vmovups	3648(%r14), %ymm2
	vmovups	3680(%r14), %ymm3
	vmovups	%ymm0, 7680(%rbx)
	vmovups	%ymm1, 7712(%rbx)
	vmovups	%ymm2, 7744(%rbx)
	vmovups	%ymm3, 7776(%rbx)
	vmovups	3712(%r14), %ymm0
	vmovups	3744(%r14), %ymm1
	vmovups	3776(%r14), %ymm2
	vmovups	3808(%r14), %ymm3
	vmovups	%ymm0, 7808(%rbx)
	vmovups	%ymm1, 7840(%rbx)
	vmovups	%ymm2, 7872(%rbx)
	vmovups	%ymm3, 7904(%rbx)
	vmovups	3840(%r14), %ymm0
	vmovups	3872(%r14), %ymm1
	vmovups	3904(%r14), %ymm2
	vmovups	3936(%r14), %ymm3
	vmovups	%ymm0, 7936(%rbx)
	vmovups	%ymm1, 7968(%rbx)
	vmovups	%ymm2, 8000(%rbx)
	vmovups	%ymm3, 8032(%rbx)
	vmovups	3968(%r14), %ymm0
	vmovups	4000(%r14), %ymm1
	vmovups	4032(%r14), %ymm2
	vmovups	4064(%r14), %ymm3
	vmovups	%ymm0, 8064(%rbx)
	vmovups	%ymm1, 8096(%rbx)
	vmovups	%ymm2, 8128(%rbx)
	vmovups	%ymm3, 8160(%rbx)
.Lluossavin_x86_64_v3.BB7_24:
	movq	%r12, %rdi
	addq	$136, %rsp
	popq	%rbx
	popq	%r12
	popq	%r13
	popq	%r14
	popq	%r15
	popq	%rbp
	vzeroupper
	jmp	"rows::transpose.x86_64_v3"
.Lluossavin_x86_64_v3.func_end7:
	.size	"sliced::Planes::rounds_to_rows.x86_64_v3", .Lluossavin_x86_64_v3.func_end7-"sliced::Planes::rounds_to_rows.x86_64_v3"

	.section	".text.sliced::round.x86_64_v3","ax",@progbits
	.p2align	4
	.type	"sliced::round.x86_64_v3",@function
"sliced::round.x86_64_v3":
	pushq	%rbp
	pushq	%r15
	pushq	%r14
	pushq	%r13
	pushq	%r12
	pushq	%rbx
	subq	$808, %rsp
	movq	%r8, -96(%rsp)
	movq	%rdi, -24(%rsp)
	cmpq	$0, 864(%rsp)
	je	.Lluossavin_x86_64_v3.BB8_9
	movl	%r9d, %eax
	movq	%rax, -8(%rsp)
	movq	-96(%rsp), %r8
	movq	864(%rsp), %rbx
	leaq	(%r8,%rbx,8), %rax
	addq	$1984, %rax
	leaq	(%rsi,%rbx,8), %rdi
	addq	$1984, %rdi
	leaq	(%rdx,%rbx,8), %r10
	addq	$1984, %r10
	leaq	(%rcx,%rbx,8), %r11
	addq	$1984, %r11
	cmpq	%rdi, %r8
	setb	%r9b
	cmpq	%rax, %rsi
	setb	%dil
	andb	%r9b, %dil
	cmpq	%r10, %r8
	setb	%r9b
	cmpq	%rax, %rdx
	setb	%r10b
	andb	%r9b, %r10b
	orb	%dil, %r10b
	cmpq	%r11, %r8
	setb	%dil
	cmpq	%rax, %rcx
	setb	%al
	andb	%dil, %al
	orb	%r10b, %al
	movb	%al, -121(%rsp)
	andq	$-4, %rbx
	movq	%rbx, -16(%rsp)
	leaq	448(%r8), %rax
	addq	$448, %rcx
	addq	$448, %rdx
	addq	$448, %rsi
	xorl	%edi, %edi
	movq	%r8, -88(%rsp)
	jmp	.Lluossavin_x86_64_v3.BB8_2
	.p2align	4
.Lluossavin_x86_64_v3.BB8_8:
	movq	(%rsp), %rdi
	incq	%rdi
	movq	-80(%rsp), %rax
	addq	$512, %rax
	movq	-104(%rsp), %rcx
	addq	$512, %rcx
	movq	-112(%rsp), %rdx
	addq	$512, %rdx
	movq	-120(%rsp), %rsi
	addq	$512, %rsi
	addq	$512, -88(%rsp)
	cmpq	$4, %rdi
	je	.Lluossavin_x86_64_v3.BB8_9
.Lluossavin_x86_64_v3.BB8_2:
	movq	%rax, -80(%rsp)
	movq	%rsi, -120(%rsp)
	movq	%rdx, -112(%rsp)
	movq	%rcx, -104(%rsp)
	cmpq	$4, 864(%rsp)
	setb	%cl
	movq	%rdi, (%rsp)
	leaq	(,%rdi,8), %rdx
	xorl	%eax, %eax
	movq	-8(%rsp), %rdi
	btq	%rdx, %rdi
	movl	$0, %r9d
	sbbq	%r9, %r9
	leal	1(%rdx), %esi
	btq	%rsi, %rdi
	movl	$0, %r10d
	sbbq	%r10, %r10
	leal	2(%rdx), %esi
	btq	%rsi, %rdi
	movl	$0, %ebx
	sbbq	%rbx, %rbx
	leal	3(%rdx), %esi
	btq	%rsi, %rdi
	movl	$0, %r14d
	sbbq	%r14, %r14
	movq	%r14, %r11
	leal	4(%rdx), %esi
	btq	%rsi, %rdi
	movl	$0, %esi
	sbbq	%rsi, %rsi
	movq	%rsi, -72(%rsp)
	leal	5(%rdx), %esi
	btq	%rsi, %rdi
	movl	$0, %r12d
	sbbq	%r12, %r12
	leal	6(%rdx), %esi
	btq	%rsi, %rdi
	movl	$0, %r13d
	sbbq	%r13, %r13
	orl	$7, %edx
	btq	%rdx, %rdi
	movl	$0, %r15d
	sbbq	%r15, %r15
	orb	-121(%rsp), %cl
	jne	.Lluossavin_x86_64_v3.BB8_6
	vmovq	%r9, %xmm0
	vpbroadcastq	%xmm0, %ymm0
	vmovdqu	%ymm0, 544(%rsp)
	vmovq	%r10, %xmm0
	vpbroadcastq	%xmm0, %ymm0
	vmovdqu	%ymm0, 512(%rsp)
	vmovq	%rbx, %xmm0
	vpbroadcastq	%xmm0, %ymm0
	vmovdqu	%ymm0, 480(%rsp)
	vmovq	%r11, %xmm0
	vpbroadcastq	%xmm0, %ymm0
	vmovdqu	%ymm0, 448(%rsp)
	vmovsd	-72(%rsp), %xmm0
	vbroadcastsd	%xmm0, %ymm0
	vmovups	%ymm0, 416(%rsp)
	vmovq	%r12, %xmm0
	vpbroadcastq	%xmm0, %ymm0
	vmovdqu	%ymm0, 768(%rsp)
	vmovq	%r13, %xmm0
	vpbroadcastq	%xmm0, %ymm0
	vmovdqu	%ymm0, 736(%rsp)
	vmovq	%r15, %xmm0
	vpbroadcastq	%xmm0, %ymm0
	vmovdqu	%ymm0, 704(%rsp)
	xorl	%eax, %eax
	movq	-104(%rsp), %rcx
	movq	-112(%rsp), %rdx
	movq	-120(%rsp), %rsi
	movq	-16(%rsp), %rdi
	movq	-80(%rsp), %r8
	.p2align	4
.Lluossavin_x86_64_v3.BB8_4:
	vmovdqu	544(%rsp), %ymm0
	vpxor	-448(%rsi,%rax,8), %ymm0, %ymm0
	vpxor	-448(%rdx,%rax,8), %ymm0, %ymm0
	vpxor	-448(%rcx,%rax,8), %ymm0, %ymm3
	vmovdqu	512(%rsp), %ymm0
	vpxor	-384(%rsi,%rax,8), %ymm0, %ymm0
	vpxor	-384(%rdx,%rax,8), %ymm0, %ymm0
	vpxor	-384(%rcx,%rax,8), %ymm0, %ymm11
	vmovdqu	480(%rsp), %ymm0
	vpxor	-320(%rsi,%rax,8), %ymm0, %ymm0
	vpxor	-320(%rdx,%rax,8), %ymm0, %ymm0
	vpxor	-320(%rcx,%rax,8), %ymm0, %ymm4
	vmovdqu	448(%rsp), %ymm0
	vpxor	-256(%rsi,%rax,8), %ymm0, %ymm0
	vpxor	-256(%rdx,%rax,8), %ymm0, %ymm0
	vpxor	-256(%rcx,%rax,8), %ymm0, %ymm7
	vmovdqu	416(%rsp), %ymm0
	vpxor	-192(%rsi,%rax,8), %ymm0, %ymm0
	vpxor	-192(%rdx,%rax,8), %ymm0, %ymm0
	vpxor	-192(%rcx,%rax,8), %ymm0, %ymm2
	vmovdqu	768(%rsp), %ymm0
	vpxor	-128(%rsi,%rax,8), %ymm0, %ymm0
	vpxor	-128(%rdx,%rax,8), %ymm0, %ymm0
	vpxor	-128(%rcx,%rax,8), %ymm0, %ymm10
	vmovdqu	736(%rsp), %ymm0
	vpxor	-64(%rsi,%rax,8), %ymm0, %ymm0
	vpxor	-64(%rdx,%rax,8), %ymm0, %ymm0
	vpxor	-64(%rcx,%rax,8), %ymm0, %ymm6
	vmovdqu	%ymm6, 192(%rsp)
	vmovdqu	704(%rsp), %ymm0
	vpxor	(%rsi,%rax,8), %ymm0, %ymm0
	vpxor	(%rdx,%rax,8), %ymm0, %ymm0
	vpxor	(%rcx,%rax,8), %ymm0, %ymm9
	vpxor	%ymm7, %ymm10, %ymm8
	vpxor	%ymm2, %ymm9, %ymm12
	vmovdqa	%ymm3, %ymm0
	vmovdqu	%ymm3, 640(%rsp)
	vpxor	%ymm3, %ymm12, %ymm3
	vpxor	%ymm0, %ymm8, %ymm15
	vpxor	%ymm11, %ymm10, %ymm14
	vpxor	%ymm4, %ymm6, %ymm6
	vpxor	%ymm7, %ymm3, %ymm13
	vmovdqu	%ymm3, 128(%rsp)
	vpxor	%ymm4, %ymm2, %ymm1
	vmovdqu	%ymm1, 608(%rsp)
	vpxor	%ymm6, %ymm15, %ymm2
	vmovdqu	%ymm2, 256(%rsp)
	vmovdqu	%ymm15, 576(%rsp)
	vpxor	%ymm10, %ymm12, %ymm10
	vmovdqu	%ymm10, -64(%rsp)
	vpxor	%ymm14, %ymm12, %ymm12
	vmovdqu	%ymm12, 96(%rsp)
	vpxor	%ymm7, %ymm11, %ymm7
	vpxor	%ymm1, %ymm7, %ymm7
	vmovdqu	%ymm7, 384(%rsp)
	vpxor	%ymm15, %ymm9, %ymm10
	vmovdqu	%ymm10, 288(%rsp)
	vpand	%ymm7, %ymm12, %ymm12
	vpand	%ymm2, %ymm10, %ymm7
	vpxor	%ymm7, %ymm12, %ymm5
	vmovdqu	%ymm6, 160(%rsp)
	vpxor	%ymm6, %ymm11, %ymm10
	vmovdqu	%ymm10, 224(%rsp)
	vpxor	%ymm4, %ymm3, %ymm1
	vpxor	%ymm10, %ymm13, %ymm0
	vmovdqu	%ymm0, 320(%rsp)
	vmovdqa	%ymm13, %ymm3
	vpxor	%ymm1, %ymm14, %ymm7
	vmovdqu	%ymm1, 64(%rsp)
	vmovdqu	%ymm7, 352(%rsp)
	vpand	%ymm0, %ymm7, %ymm15
	vpxor	%ymm12, %ymm15, %ymm15
	vpxor	%ymm8, %ymm9, %ymm7
	vpxor	%ymm7, %ymm4, %ymm4
	vpandn	%ymm6, %ymm7, %ymm12
	vpxor	%ymm4, %ymm12, %ymm4
	vpandn	%ymm10, %ymm1, %ymm13
	vpxor	%ymm4, %ymm13, %ymm4
	vpxor	192(%rsp), %ymm8, %ymm13
	vpxor	%ymm12, %ymm13, %ymm13
	vmovdqu	576(%rsp), %ymm10
	vpxor	608(%rsp), %ymm10, %ymm0
	vmovdqu	%ymm0, 192(%rsp)
	vmovdqa	%ymm11, %ymm6
	vmovdqu	%ymm11, 672(%rsp)
	vpand	%ymm0, %ymm11, %ymm2
	vpxor	%ymm2, %ymm13, %ymm2
	vpandn	%ymm3, %ymm14, %ymm13
	vmovdqa	%ymm3, %ymm11
	vmovdqu	640(%rsp), %ymm3
	vpand	%ymm3, %ymm8, %ymm12
	vpxor	%ymm13, %ymm12, %ymm12
	vpxor	%ymm5, %ymm4, %ymm13
	vpxor	%ymm5, %ymm12, %ymm1
	vpandn	%ymm8, %ymm3, %ymm0
	vpxor	%ymm6, %ymm0, %ymm0
	vpxor	%ymm3, %ymm14, %ymm8
	vmovdqa	%ymm14, %ymm6
	vpand	-64(%rsp), %ymm8, %ymm12
	vpxor	%ymm0, %ymm12, %ymm0
	vpxor	128(%rsp), %ymm0, %ymm0
	vpxor	%ymm2, %ymm15, %ymm2
	vpxor	%ymm0, %ymm15, %ymm12
	vpcmpeqd	%ymm0, %ymm0, %ymm0
	vpxor	%ymm0, %ymm1, %ymm15
	vpandn	%ymm13, %ymm1, %ymm0
	vpxor	%ymm2, %ymm13, %ymm1
	vpxor	%ymm0, %ymm12, %ymm13
	vpand	%ymm1, %ymm13, %ymm5
	vpxor	%ymm2, %ymm5, %ymm5
	vpxor	%ymm2, %ymm0, %ymm2
	vpxor	%ymm15, %ymm12, %ymm4
	vpand	%ymm4, %ymm2, %ymm2
	vpxor	%ymm0, %ymm2, %ymm4
	vpxor	%ymm2, %ymm12, %ymm0
	vpand	%ymm4, %ymm12, %ymm2
	vpxor	%ymm2, %ymm15, %ymm4
	vpxor	%ymm2, %ymm13, %ymm2
	vpand	%ymm5, %ymm2, %ymm2
	vpxor	%ymm1, %ymm2, %ymm12
	vpxor	%ymm5, %ymm12, %ymm1
	vpand	%ymm1, %ymm10, %ymm2
	vpandn	%ymm1, %ymm3, %ymm9
	vpand	160(%rsp), %ymm4, %ymm13
	vpandn	%ymm4, %ymm7, %ymm1
	vmovdqu	%ymm1, 160(%rsp)
	vpxor	%ymm0, %ymm4, %ymm3
	vpand	224(%rsp), %ymm3, %ymm10
	vmovdqu	64(%rsp), %ymm1
	vpandn	%ymm3, %ymm1, %ymm14
	vpxor	%ymm3, %ymm12, %ymm15
	vpand	%ymm11, %ymm12, %ymm7
	vpandn	%ymm12, %ymm6, %ymm1
	vmovdqu	%ymm1, 224(%rsp)
	vpand	672(%rsp), %ymm0, %ymm1
	vmovdqu	%ymm1, 64(%rsp)
	vpand	192(%rsp), %ymm0, %ymm11
	vpxor	%ymm0, %ymm5, %ymm3
	vpand	-64(%rsp), %ymm5, %ymm12
	vpand	%ymm5, %ymm8, %ymm8
	vpand	96(%rsp), %ymm3, %ymm1
	vpand	384(%rsp), %ymm3, %ymm6
	vpxor	%ymm3, %ymm15, %ymm3
	vpand	256(%rsp), %ymm3, %ymm0
	vpand	288(%rsp), %ymm3, %ymm3
	vpand	320(%rsp), %ymm15, %ymm4
	vpand	352(%rsp), %ymm15, %ymm15
	vpxor	%ymm2, %ymm13, %ymm5
	vpxor	%ymm1, %ymm2, %ymm1
	vpxor	%ymm4, %ymm12, %ymm12
	vpxor	%ymm14, %ymm12, %ymm13
	vpxor	%ymm5, %ymm10, %ymm10
	vpxor	%ymm1, %ymm13, %ymm2
	vpxor	%ymm0, %ymm13, %ymm1
	vpxor	%ymm7, %ymm0, %ymm0
	vpxor	%ymm7, %ymm10, %ymm7
	vpxor	%ymm1, %ymm10, %ymm1
	vpxor	%ymm11, %ymm15, %ymm10
	vpxor	%ymm6, %ymm8, %ymm8
	vpxor	%ymm15, %ymm8, %ymm8
	vmovdqu	160(%rsp), %ymm13
	vpxor	224(%rsp), %ymm13, %ymm11
	vpxor	%ymm9, %ymm11, %ymm11
	vpxor	%ymm3, %ymm10, %ymm10
	vpxor	%ymm9, %ymm8, %ymm8
	vpxor	%ymm11, %ymm10, %ymm9
	vpxor	%ymm7, %ymm8, %ymm8
	vpxor	%ymm7, %ymm9, %ymm7
	vpxor	64(%rsp), %ymm4, %ymm4
	vpxor	%ymm5, %ymm4, %ymm4
	vpxor	%ymm0, %ymm12, %ymm5
	vpxor	%ymm0, %ymm4, %ymm0
	vpxor	%ymm6, %ymm13, %ymm4
	vpxor	%ymm3, %ymm4, %ymm3
	vpcmpeqd	%ymm4, %ymm4, %ymm4
	vpxor	%ymm4, %ymm0, %ymm0
	vpxor	%ymm4, %ymm3, %ymm3
	vpxor	%ymm4, %ymm11, %ymm4
	vpcmpeqd	%ymm6, %ymm6, %ymm6
	vpxor	%ymm6, %ymm10, %ymm6
	vpxor	%ymm3, %ymm1, %ymm3
	vpxor	%ymm1, %ymm4, %ymm1
	vpxor	%ymm2, %ymm4, %ymm4
	vpxor	%ymm6, %ymm2, %ymm2
	vmovdqu	%ymm2, -448(%r8,%rax,8)
	vmovdqu	%ymm1, -384(%r8,%rax,8)
	vmovdqu	%ymm7, -320(%r8,%rax,8)
	vmovdqu	%ymm5, -256(%r8,%rax,8)
	vmovdqu	%ymm4, -192(%r8,%rax,8)
	vmovdqu	%ymm8, -128(%r8,%rax,8)
	vmovdqu	%ymm3, -64(%r8,%rax,8)
	vmovdqu	%ymm0, (%r8,%rax,8)
	addq	$4, %rax
	cmpq	%rax, %rdi
	jne	.Lluossavin_x86_64_v3.BB8_4
	movq	%rdi, %rax
	cmpq	%rdi, 864(%rsp)
	je	.Lluossavin_x86_64_v3.BB8_8
.Lluossavin_x86_64_v3.BB8_6:
	movq	864(%rsp), %rcx
	subq	%rax, %rcx
	movq	%rcx, 544(%rsp)
	movq	-120(%rsp), %rcx
	leaq	(%rcx,%rax,8), %rcx
	movq	%rcx, 512(%rsp)
	movq	-112(%rsp), %rcx
	leaq	(%rcx,%rax,8), %rcx
	movq	%rcx, 480(%rsp)
	movq	-104(%rsp), %rcx
	leaq	(%rcx,%rax,8), %rcx
	movq	%rcx, 448(%rsp)
	movq	-88(%rsp), %rcx
	leaq	(%rcx,%rax,8), %rax
	movq	%rax, 416(%rsp)
	xorl	%edi, %edi
	movq	%r9, 56(%rsp)
	movq	%r10, 48(%rsp)
	movq	%rbx, 40(%rsp)
	movq	%r11, 32(%rsp)
	movq	%r12, 24(%rsp)
	movq	%r13, 16(%rsp)
	movq	%r15, 8(%rsp)
	.p2align	4
.Lluossavin_x86_64_v3.BB8_7:
	movq	%r15, %rbp
	movq	%r11, %rsi
	movq	512(%rsp), %r13
	movq	-448(%r13,%rdi,8), %rcx
	movq	480(%rsp), %r11
	xorq	-448(%r11,%rdi,8), %rcx
	movq	-384(%r13,%rdi,8), %rax
	movq	448(%rsp), %r15
	xorq	-448(%r15,%rdi,8), %rcx
	xorq	%r9, %rcx
	xorq	-384(%r11,%rdi,8), %rax
	xorq	-384(%r15,%rdi,8), %rax
	xorq	%r10, %rax
	movq	%rax, %r8
	movq	-320(%r13,%rdi,8), %rdx
	xorq	-320(%r11,%rdi,8), %rdx
	xorq	-320(%r15,%rdi,8), %rdx
	xorq	%rbx, %rdx
	movq	-256(%r13,%rdi,8), %rbx
	xorq	-256(%r11,%rdi,8), %rbx
	xorq	-256(%r15,%rdi,8), %rbx
	xorq	%rsi, %rbx
	movq	-192(%r13,%rdi,8), %rax
	xorq	-192(%r11,%rdi,8), %rax
	xorq	-192(%r15,%rdi,8), %rax
	xorq	-72(%rsp), %rax
	movq	-128(%r13,%rdi,8), %rsi
	xorq	-128(%r11,%rdi,8), %rsi
	xorq	-128(%r15,%rdi,8), %rsi
	xorq	%r12, %rsi
	movq	(%r13,%rdi,8), %r10
	xorq	(%r11,%rdi,8), %r10
	xorq	(%r15,%rdi,8), %r10
	xorq	%rbp, %r10
	movq	%r10, 288(%rsp)
	xorq	%rax, %r10
	movq	%r10, %r9
	movq	%r10, %r12
	movq	%rsi, %r10
	movq	%r12, -64(%rsp)
	xorq	%rsi, %r12
	movq	%r12, 192(%rsp)
	xorq	%rbx, %rsi
	xorq	%rcx, %r9
	movq	%rsi, %rbp
	xorq	%rcx, %rbp
	movq	%rbp, 320(%rsp)
	xorq	%r8, %r10
	movq	%r9, %r14
	xorq	%rbx, %r14
	movq	%r14, 256(%rsp)
	xorq	%rdx, %rax
	movq	%rbp, %r14
	xorq	%rax, %r14
	movq	%r14, 96(%rsp)
	xorq	%r8, %rbx
	xorq	%rax, %rbx
	movq	%rbx, 384(%rsp)
	movq	%r10, %rbx
	movq	%rcx, 352(%rsp)
	xorq	%rcx, %rbx
	movq	%rbx, 224(%rsp)
	movq	%r12, %rax
	andq	%rbx, %rax
	andnq	%rsi, %rcx, %rbp
	movq	%r8, %rbx
	xorq	%r8, %rbp
	xorq	%rax, %rbp
	movq	-64(%r13,%rdi,8), %r8
	xorq	-64(%r11,%rdi,8), %r8
	xorq	-64(%r15,%rdi,8), %r8
	xorq	%r9, %rbp
	movq	%r9, %r15
	xorq	16(%rsp), %r8
	movq	%r8, %r9
	xorq	%rdx, %r9
	movq	%r9, 128(%rsp)
	movq	%r9, %r12
	xorq	%rbx, %r12
	movq	%rbx, %r11
	xorq	%rdx, %r15
	movq	%r15, 576(%rsp)
	movq	320(%rsp), %rax
	xorq	%rax, %r9
	movq	%r9, 672(%rsp)
	movq	-64(%rsp), %rcx
	movq	%r10, 64(%rsp)
	xorq	%r10, %rcx
	movq	%rcx, -64(%rsp)
	movq	256(%rsp), %rbx
	movq	%rbx, %r14
	xorq	%r12, %r14
	movq	%r14, 640(%rsp)
	xorq	%r10, %r15
	movq	%r15, 160(%rsp)
	movq	288(%rsp), %r13
	movq	%r13, %r10
	xorq	%rax, %r13
	movq	%r13, 288(%rsp)
	movq	%rcx, %rax
	andq	384(%rsp), %rax
	andq	%r9, %r13
	xorq	%rax, %r13
	movq	%r15, %rcx
	andq	%r14, %rcx
	xorq	%rax, %rcx
	xorq	%rsi, %r10
	xorq	%r10, %rdx
	movq	128(%rsp), %r9
	andnq	%r9, %r10, %rax
	movq	%r10, %r15
	xorq	%rax, %rdx
	movq	576(%rsp), %r14
	andnq	%r12, %r14, %r10
	xorq	%r10, %rdx
	xorq	%rsi, %r8
	xorq	%rax, %r8
	movq	96(%rsp), %rax
	andq	%r11, %rax
	xorq	%rax, %r8
	andq	352(%rsp), %rsi
	movq	64(%rsp), %rax
	andnq	%rbx, %rax, %rax
	xorq	%rax, %rsi
	xorq	%r13, %rdx
	xorq	%r13, %rsi
	xorq	%rcx, %r8
	xorq	%rcx, %rbp
	andnq	%rdx, %rsi, %rcx
	xorq	%r8, %rdx
	notq	%rsi
	movq	%rcx, %r10
	xorq	%rbp, %r10
	movq	%r10, %r13
	andq	%rdx, %r13
	xorq	%r8, %r13
	movq	%rbp, %rax
	xorq	%rsi, %rax
	xorq	%rcx, %r8
	andq	%rax, %r8
	movq	%r8, %rax
	xorq	%rcx, %r8
	xorq	%rbp, %rax
	andq	%rbp, %r8
	xorq	%r8, %rsi
	xorq	%r10, %r8
	andq	%r13, %r8
	xorq	%rdx, %r8
	movq	%r9, %rbx
	andq	%rsi, %rbx
	andnq	%rsi, %r15, %rcx
	movq	%rcx, 608(%rsp)
	xorq	%rax, %rsi
	movq	%r8, %r15
	xorq	%rsi, %r15
	andq	%rsi, %r12
	andnq	%rsi, %r14, %r9
	movq	%r13, %rdx
	xorq	%rax, %rdx
	andq	%rax, %r11
	movq	%r11, 128(%rsp)
	andq	96(%rsp), %rax
	andq	%r8, 256(%rsp)
	movq	64(%rsp), %rcx
	andnq	%r8, %rcx, %r14
	xorq	%r13, %r8
	movq	320(%rsp), %r11
	andq	%r8, %r11
	movq	352(%rsp), %rcx
	andnq	%r8, %rcx, %rcx
	movq	%rcx, 96(%rsp)
	movq	192(%rsp), %rbp
	andq	%r13, %rbp
	andq	224(%rsp), %r13
	movq	%r15, %r8
	xorq	%rdx, %r8
	movq	-64(%rsp), %rsi
	andq	%rdx, %rsi
	andq	384(%rsp), %rdx
	movq	672(%rsp), %r10
	andq	%r8, %r10
	andq	288(%rsp), %r8
	movq	640(%rsp), %rcx
	andq	%r15, %rcx
	andq	160(%rsp), %r15
	xorq	%r11, %rbx
	xorq	%r11, %rsi
	xorq	%rcx, %rbp
	xorq	%rbp, %r9
	xorq	%rbx, %r12
	xorq	%r9, %rsi
	movq	%rsi, -64(%rsp)
	movq	%r10, %r11
	xorq	%r10, %r9
	xorq	%r12, %r9
	movq	256(%rsp), %r10
	xorq	%r10, %r12
	xorq	%r10, %r11
	xorq	%r15, %rax
	xorq	%rdx, %r13
	xorq	%r15, %r13
	movq	608(%rsp), %rsi
	xorq	%rsi, %r14
	movq	96(%rsp), %r10
	xorq	%r10, %r14
	xorq	%r8, %rax
	xorq	%r10, %r13
	movq	8(%rsp), %r15
	movq	%rax, %r10
	xorq	%r14, %r10
	xorq	%r12, %r13
	xorq	%r12, %r10
	movq	24(%rsp), %r12
	xorq	128(%rsp), %rcx
	xorq	%rbx, %rcx
	xorq	%r11, %rbp
	xorq	%r11, %rcx
	movq	%rcx, %rbx
	movq	32(%rsp), %r11
	xorq	%rsi, %rdx
	xorq	%r8, %rdx
	xorq	%r9, %rdx
	xorq	%r14, %r9
	movq	-64(%rsp), %rcx
	xorq	%rcx, %r14
	xorq	%rcx, %rax
	notq	%rax
	movq	416(%rsp), %rcx
	movq	%rax, (%rcx,%rdi,8)
	notq	%r9
	movq	%r9, 64(%rcx,%rdi,8)
	movq	56(%rsp), %r9
	movq	%r10, 128(%rcx,%rdi,8)
	movq	48(%rsp), %r10
	movq	%rbp, 192(%rcx,%rdi,8)
	notq	%r14
	movq	%r14, 256(%rcx,%rdi,8)
	movq	%r13, 320(%rcx,%rdi,8)
	notq	%rdx
	movq	%rdx, 384(%rcx,%rdi,8)
	notq	%rbx
	movq	%rbx, 448(%rcx,%rdi,8)
	movq	40(%rsp), %rbx
	incq	%rdi
	cmpq	%rdi, 544(%rsp)
	jne	.Lluossavin_x86_64_v3.BB8_7
	jmp	.Lluossavin_x86_64_v3.BB8_8
.Lluossavin_x86_64_v3.BB8_9:
	movq	-96(%rsp), %rsi
	vmovups	(%rsi), %ymm0
	vmovups	32(%rsi), %ymm1
	vmovups	64(%rsi), %ymm2
	vmovups	96(%rsi), %ymm3
	vmovups	%ymm0, 2048(%rsi)
	vmovups	%ymm1, 2080(%rsi)
	vmovups	%ymm2, 2112(%rsi)
	vmovups	%ymm3, 2144(%rsi)
	vmovups	128(%rsi), %ymm0
	vmovups	160(%rsi), %ymm1
	vmovups	192(%rsi), %ymm2
	vmovups	224(%rsi), %ymm3
	vmovups	%ymm0, 2176(%rsi)
	vmovups	%ymm1, 2208(%rsi)
	vmovups	%ymm2, 2240(%rsi)
	vmovups	%ymm3, 2272(%rsi)
	vmovups	256(%rsi), %ymm0
	vmovups	288(%rsi), %ymm1
	vmovups	320(%rsi), %ymm2
	vmovups	352(%rsi), %ymm3
	vmovups	%ymm0, 2304(%rsi)
	vmovups	%ymm1, 2336(%rsi)
	vmovups	%ymm2, 2368(%rsi)
	vmovups	%ymm3, 2400(%rsi)
	vmovups	384(%rsi), %ymm0
	vmovups	416(%rsi), %ymm1
	vmovups	448(%rsi), %ymm2
	vmovups	480(%rsi), %ymm3
	vmovups	%ymm0, 2432(%rsi)
	vmovups	%ymm1, 2464(%rsi)
	vmovups	%ymm2, 2496(%rsi)
	vmovups	%ymm3, 2528(%rsi)
	vmovups	512(%rsi), %ymm0
	vmovups	544(%rsi), %ymm1
	vmovups	576(%rsi), %ymm2
	vmovups	608(%rsi), %ymm3
	vmovups	%ymm0, 2560(%rsi)
	vmovups	%ymm1, 2592(%rsi)
	vmovups	%ymm2, 2624(%rsi)
	vmovups	%ymm3, 2656(%rsi)
	vmovups	640(%rsi), %ymm0
	vmovups	672(%rsi), %ymm1
	vmovups	704(%rsi), %ymm2
	vmovups	736(%rsi), %ymm3
	vmovups	%ymm0, 2688(%rsi)
	vmovups	%ymm1, 2720(%rsi)
	vmovups	%ymm2, 2752(%rsi)
	vmovups	%ymm3, 2784(%rsi)
	vmovups	768(%rsi), %ymm0
	vmovups	800(%rsi), %ymm1
	vmovups	832(%rsi), %ymm2
	vmovups	864(%rsi), %ymm3
	vmovups	%ymm0, 2816(%rsi)
	vmovups	%ymm1, 2848(%rsi)
	vmovups	%ymm2, 2880(%rsi)
	vmovups	%ymm3, 2912(%rsi)
	vmovups	896(%rsi), %ymm0
	vmovups	928(%rsi), %ymm1
	vmovups	960(%rsi), %ymm2
	vmovups	992(%rsi), %ymm3
	vmovups	%ymm0, 2944(%rsi)
	vmovups	%ymm1, 2976(%rsi)
	vmovups	%ymm2, 3008(%rsi)
	vmovups	%ymm3, 3040(%rsi)
	vmovups	1024(%rsi), %ymm0
	vmovups	1056(%rsi), %ymm1
	vmovups	1088(%rsi), %ymm2
	vmovups	1120(%rsi), %ymm3
	vmovups	%ymm0, 3072(%rsi)
	vmovups	%ymm1, 3104(%rsi)
	vmovups	%ymm2, 3136(%rsi)
	vmovups	%ymm3, 3168(%rsi)
	vmovups	1152(%rsi), %ymm0
	vmovups	1184(%rsi), %ymm1
	vmovups	1216(%rsi), %ymm2
	vmovups	1248(%rsi), %ymm3
	vmovups	%ymm0, 3200(%rsi)
	vmovups	%ymm1, 3232(%rsi)
	vmovups	%ymm2, 3264(%rsi)
	vmovups	%ymm3, 3296(%rsi)
	vmovups	1280(%rsi), %ymm0
	vmovups	1312(%rsi), %ymm1
	vmovups	1344(%rsi), %ymm2
	vmovups	1376(%rsi), %ymm3
	vmovups	%ymm0, 3328(%rsi)
	vmovups	%ymm1, 3360(%rsi)
	vmovups	%ymm2, 3392(%rsi)
	vmovups	%ymm3, 3424(%rsi)
	vmovups	1408(%rsi), %ymm0
	vmovups	1440(%rsi), %ymm1
	vmovups	1472(%rsi), %ymm2
	vmovups	1504(%rsi), %ymm3
	vmovups	%ymm0, 3456(%rsi)
	vmovups	%ymm1, 3488(%rsi)
	vmovups	%ymm2, 3520(%rsi)
	vmovups	%ymm3, 3552(%rsi)
	vmovups	1536(%rsi), %ymm0
	vmovups	1568(%rsi), %ymm1
	vmovups	1600(%rsi), %ymm2
	vmovups	1632(%rsi), %ymm3
	vmovups	%ymm0, 3584(%rsi)
	vmovups	%ymm1, 3616(%rsi)
	vmovups	%ymm2, 3648(%rsi)
	vmovups	%ymm3, 3680(%rsi)
	vmovups	1664(%rsi), %ymm0
	vmovups	1696(%rsi), %ymm1
	vmovups	1728(%rsi), %ymm2
	vmovups	1760(%rsi), %ymm3
	vmovups	%ymm0, 3712(%rsi)
	vmovups	%ymm1, 3744(%rsi)
	vmovups	%ymm2, 3776(%rsi)
	vmovups	%ymm3, 3808(%rsi)
	vmovups	1792(%rsi), %ymm0
	vmovups	1824(%rsi), %ymm1
	vmovups	1856(%rsi), %ymm2
	vmovups	1888(%rsi), %ymm3
	vmovups	%ymm0, 3840(%rsi)
	vmovups	%ymm1, 3872(%rsi)
	vmovups	%ymm2, 3904(%rsi)
	vmovups	%ymm3, 3936(%rsi)
	vmovups	1920(%rsi), %ymm0
	vmovups	1952(%rsi), %ymm1
	vmovups	1984(%rsi), %ymm2
	vmovups	2016(%rsi), %ymm3
	vmovups	%ymm0, 3968(%rsi)
	vmovups	%ymm1, 4000(%rsi)
	vmovups	%ymm2, 4032(%rsi)
	vmovups	%ymm3, 4064(%rsi)
	leaq	512(%rsi), %rax
	movq	-24(%rsp), %rdi
	leaq	2048(%rdi), %rcx
	leaq	4096(%rsi), %rdx
	cmpq	%rdx, %rdi
	setb	%dl
	cmpq	%rcx, %rax
	setb	%al
	testb	%al, %dl
	je	.Lluossavin_x86_64_v3.BB8_10
	xorl	%eax, %eax
	.p2align	4
.Lluossavin_x86_64_v3.BB8_13:
	movq	1920(%rsi,%rax,8), %rcx
	xorq	2048(%rsi,%rax,8), %rcx
	xorq	1408(%rsi,%rax,8), %rcx
	xorq	896(%rsi,%rax,8), %rcx
	xorq	512(%rsi,%rax,8), %rcx
	xorq	%rcx, (%rdi,%rax,8)
	movq	1928(%rsi,%rax,8), %rcx
	xorq	2056(%rsi,%rax,8), %rcx
	xorq	1416(%rsi,%rax,8), %rcx
	xorq	904(%rsi,%rax,8), %rcx
	xorq	520(%rsi,%rax,8), %rcx
	xorq	%rcx, 8(%rdi,%rax,8)
	addq	$2, %rax
	cmpq	$256, %rax
	jne	.Lluossavin_x86_64_v3.BB8_13
	jmp	.Lluossavin_x86_64_v3.BB8_14
.Lluossavin_x86_64_v3.BB8_10:
	xorl	%eax, %eax
	.p2align	4
.Lluossavin_x86_64_v3.BB8_11:
	vmovups	1920(%rsi,%rax,8), %ymm0
	vmovups	1952(%rsi,%rax,8), %ymm1
	vmovups	1984(%rsi,%rax,8), %ymm2
	vmovups	2016(%rsi,%rax,8), %ymm3
	vxorps	2048(%rsi,%rax,8), %ymm0, %ymm0
	vxorps	2080(%rsi,%rax,8), %ymm1, %ymm1
	vxorps	2112(%rsi,%rax,8), %ymm2, %ymm2
	vxorps	2144(%rsi,%rax,8), %ymm3, %ymm3
	vxorps	1408(%rsi,%rax,8), %ymm0, %ymm0
	vxorps	1440(%rsi,%rax,8), %ymm1, %ymm1
	vxorps	1472(%rsi,%rax,8), %ymm2, %ymm2
	vxorps	1504(%rsi,%rax,8), %ymm3, %ymm3
	vxorps	896(%rsi,%rax,8), %ymm0, %ymm0
	vxorps	928(%rsi,%rax,8), %ymm1, %ymm1
	vxorps	960(%rsi,%rax,8), %ymm2, %ymm2
	vxorps	992(%rsi,%rax,8), %ymm3, %ymm3
	vxorps	512(%rsi,%rax,8), %ymm0, %ymm0
	vxorps	544(%rsi,%rax,8), %ymm1, %ymm1
	vxorps	576(%rsi,%rax,8), %ymm2, %ymm2
	vxorps	608(%rsi,%rax,8), %ymm3, %ymm3
	vxorps	(%rdi,%rax,8), %ymm0, %ymm0
	vxorps	32(%rdi,%rax,8), %ymm1, %ymm1
	vxorps	64(%rdi,%rax,8), %ymm2, %ymm2
	vxorps	96(%rdi,%rax,8), %ymm3, %ymm3
	vmovups	%ymm0, (%rdi,%rax,8)
	vmovups	%ymm1, 32(%rdi,%rax,8)
	vmovups	%ymm2, 64(%rdi,%rax,8)
	vmovups	%ymm3, 96(%rdi,%rax,8)
	addq	$16, %rax
	cmpq	$256, %rax
	jne	.Lluossavin_x86_64_v3.BB8_11
.Lluossavin_x86_64_v3.BB8_14:
	addq	$808, %rsp
	popq	%rbx
	popq	%r12
	popq	%r13
	popq	%r14
	popq	%r15
	popq	%rbp
	vzeroupper
	retq
.Lluossavin_x86_64_v3.func_end8:
	.size	"sliced::round.x86_64_v3", .Lluossavin_x86_64_v3.func_end8-"sliced::round.x86_64_v3"

	.section	.rodata.cst32,"aM",@progbits,32
	.p2align	5, 0x0
.Lluossavin_x86_64_v3.CPI9_0:
	.zero	32,170
.Lluossavin_x86_64_v3.CPI9_1:
	.zero	32,204
.Lluossavin_x86_64_v3.CPI9_2:
	.zero	32,240
.Lluossavin_x86_64_v3.CPI9_7:
	.byte	7
	.byte	6
	.byte	5
	.byte	4
	.byte	3
	.byte	2
	.byte	1
	.byte	0
	.byte	15
	.byte	14
	.byte	13
	.byte	12
	.byte	11
	.byte	10
	.byte	9
	.byte	8
	.byte	7
	.byte	6
	.byte	5
	.byte	4
	.byte	3
	.byte	2
	.byte	1
	.byte	0
	.byte	15
	.byte	14
	.byte	13
	.byte	12
	.byte	11
	.byte	10
	.byte	9
	.byte	8
	.section	.rodata.cst8,"aM",@progbits,8
	.p2align	3, 0x0
.Lluossavin_x86_64_v3.CPI9_3:
	.quad	-71777214294589696
.Lluossavin_x86_64_v3.CPI9_4:
	.quad	-281470681808896
.Lluossavin_x86_64_v3.CPI9_5:
	.quad	-4294967296
	.section	.rodata.cst16,"aM",@progbits,16
	.p2align	4, 0x0
.Lluossavin_x86_64_v3.CPI9_6:
	.quad	0
	.quad	-1
.Lluossavin_x86_64_v3.CPI9_8:
	.byte	7
	.byte	6
	.byte	5
	.byte	4
	.byte	3
	.byte	2
	.byte	1
	.byte	0
	.byte	15
	.byte	14
	.byte	13
	.byte	12
	.byte	11
	.byte	10
	.byte	9
	.byte	8
	.section	.rodata.cst4,"aM",@progbits,4
	.p2align	2, 0x0
.Lluossavin_x86_64_v3.CPI9_9:
	.zero	4,170
.Lluossavin_x86_64_v3.CPI9_10:
	.zero	4,204
.Lluossavin_x86_64_v3.CPI9_11:
	.zero	4,240
	.section	".text.stream::batches::counters.x86_64_v3","ax",@progbits
	.p2align	4
	.type	"stream::batches::counters.x86_64_v3",@function
"stream::batches::counters.x86_64_v3":
	pushq	%rbp
	pushq	%r15
	pushq	%r14
	pushq	%r13
	pushq	%r12
	pushq	%rbx
	subq	$3072, %rsp
	movq	$0, (%rsp)
	subq	$3072, %rsp
	movq	$0, (%rsp)
	subq	$3072, %rsp
	movq	$0, (%rsp)
	subq	$3072, %rsp
	movq	$0, (%rsp)
	subq	$3072, %rsp
	movq	$0, (%rsp)
	subq	$3072, %rsp
	movq	$0, (%rsp)
	subq	$2712, %rsp
	vmovdqu	(%rsi), %ymm0
	vmovdqu	32(%rsi), %ymm1
	vmovdqu	64(%rsi), %ymm2
	vmovdqu	96(%rsi), %ymm3
	vmovdqu	%ymm3, 368(%rsp)
	vmovdqu	%ymm2, 336(%rsp)
	vmovdqu	%ymm1, 304(%rsp)
	movq	%r8, 48(%rsp)
	movq	%rdi, 64(%rsp)
	vmovdqu	%ymm0, 272(%rsp)
	movl	(%rcx), %eax
	movq	%rax, 8(%rsp)
	movl	4(%rcx), %eax
	movq	%rax, 16(%rsp)
	movl	8(%rcx), %r15d
	movl	12(%rcx), %r14d
	cmpq	$3072, %r9
	jb	.Lluossavin_x86_64_v3.BB9_1
	movl	%edx, %ebp
	movq	21200(%rsp), %rax
	addq	$8, %rax
	movq	%rax, 72(%rsp)
	xorl	%ebx, %ebx
	movq	%r9, %rax
	movl	%edx, 36(%rsp)
	movq	%r9, 40(%rsp)
	jmp	.Lluossavin_x86_64_v3.BB9_3
	.p2align	4
.Lluossavin_x86_64_v3.BB9_23:
	movl	4(%rsp), %r14d
	addl	%r12d, %r14d
.Lluossavin_x86_64_v3.BB9_24:
	addq	%rax, %rbx
	movq	%r9, %rax
	subq	%rbx, %rax
	cmpq	$3071, %rax
	jbe	.Lluossavin_x86_64_v3.BB9_25
.Lluossavin_x86_64_v3.BB9_3:
	shrq	$4, %rax
	cmpq	$512, %rax
	movl	$512, %r12d
	cmovbq	%rax, %r12
	vmovups	272(%rsp), %ymm0
	vmovdqu	304(%rsp), %ymm1
	vmovdqu	336(%rsp), %ymm2
	vmovdqu	368(%rsp), %ymm3
	vmovups	%ymm0, 528(%rsp)
	vmovdqu	%ymm1, 560(%rsp)
	vmovdqu	%ymm2, 592(%rsp)
	vmovdqu	%ymm3, 624(%rsp)
	leaq	8856(%rsp), %rdi
	movl	$12288, %edx
	xorl	%esi, %esi
	vzeroupper
	callq	memset@PLT
	leaq	664(%rsp), %rdi
	movl	$8192, %edx
	xorl	%esi, %esi
	callq	memset@PLT
	vpxor	%xmm2, %xmm2, %xmm2
	vmovdqu	%ymm2, 208(%rsp)
	vmovdqu	%ymm2, 240(%rsp)
	vmovdqu	%ymm2, 464(%rsp)
	vmovdqu	%ymm2, 496(%rsp)
	vmovdqu	%ymm2, 400(%rsp)
	vmovdqu	%ymm2, 432(%rsp)
	vbroadcastss	.Lluossavin_x86_64_v3.CPI9_9(%rip), %ymm0
	leaq	15000(%rsp), %rsi
	vmovups	%ymm0, 32(%rsi)
	vmovups	%ymm0, (%rsi)
	vbroadcastss	.Lluossavin_x86_64_v3.CPI9_10(%rip), %ymm0
	vmovups	%ymm0, 96(%rsi)
	vmovups	%ymm0, 64(%rsi)
	vbroadcastss	.Lluossavin_x86_64_v3.CPI9_11(%rip), %ymm0
	vmovups	%ymm0, 160(%rsi)
	vmovups	%ymm0, 128(%rsi)
	vbroadcastsd	.Lluossavin_x86_64_v3.CPI9_3(%rip), %ymm0
	vmovups	%ymm0, 15192(%rsp)
	vmovups	%ymm0, 15224(%rsp)
	vbroadcastsd	.Lluossavin_x86_64_v3.CPI9_4(%rip), %ymm0
	vmovups	%ymm0, 15256(%rsp)
	vmovups	%ymm0, 15288(%rsp)
	vbroadcastsd	.Lluossavin_x86_64_v3.CPI9_5(%rip), %ymm0
	vmovups	%ymm0, 15320(%rsp)
	vmovups	%ymm0, 15352(%rsp)
	vbroadcasti128	.Lluossavin_x86_64_v3.CPI9_6(%rip), %ymm0
	vmovdqu	%ymm0, 15384(%rsp)
	vmovdqu	%ymm0, 15416(%rsp)
	vpxor	%xmm0, %xmm0, %xmm0
	vmovdqu	%xmm0, 448(%rsi)
	vpcmpeqd	%xmm1, %xmm1, %xmm1
	vmovdqu	%xmm1, 464(%rsi)
	vmovdqu	%xmm0, 480(%rsi)
	vmovdqu	%xmm1, 496(%rsi)
	vmovdqu	%ymm2, 512(%rsi)
	vpcmpeqd	%ymm0, %ymm0, %ymm0
	vmovdqu	%ymm0, 544(%rsi)
	vmovdqu	%ymm2, 112(%rsp)
	vmovdqu	%ymm2, 80(%rsp)
	leaq	208(%rsp), %rdi
	leaq	80(%rsp), %rcx
	movl	$9, %edx
	movl	%r14d, %r8d
	vzeroupper
	callq	"sliced::counters::add_word.x86_64_v3"
	testb	%bpl, %bpl
	movl	%r14d, 4(%rsp)
	je	.Lluossavin_x86_64_v3.BB9_4
	vmovdqu	208(%rsp), %ymm0
	vmovdqu	240(%rsp), %ymm1
	vmovdqu	%ymm1, 176(%rsp)
	jmp	.Lluossavin_x86_64_v3.BB9_6
	.p2align	4
.Lluossavin_x86_64_v3.BB9_4:
	vpxor	%xmm0, %xmm0, %xmm0
	vmovdqu	%ymm0, 176(%rsp)
.Lluossavin_x86_64_v3.BB9_6:
	vmovdqu	%ymm0, 144(%rsp)
	movq	48(%rsp), %rax
	leaq	(%rax,%rbx), %r13
	movq	21200(%rsp), %rax
	leaq	(%rax,%rbx), %rbp
	vmovdqu	144(%rsp), %ymm0
	vmovdqu	176(%rsp), %ymm1
	vmovdqu	%ymm1, 112(%rsp)
	vmovdqu	%ymm0, 80(%rsp)
	xorl	%r14d, %r14d
	movq	%rbx, 56(%rsp)
	leaq	464(%rsp), %rbx
	leaq	80(%rsp), %rcx
	movq	%rbx, %rdi
	leaq	12952(%rsp), %rsi
	xorl	%edx, %edx
	movq	%r15, 24(%rsp)
	movl	%r15d, %r8d
	vzeroupper
	callq	"sliced::counters::add_word.x86_64_v3"
	leaq	400(%rsp), %r15
	movq	%r15, %rdi
	leaq	10904(%rsp), %rsi
	xorl	%edx, %edx
	movq	%rbx, %rcx
	movq	16(%rsp), %r8
	callq	"sliced::counters::add_word.x86_64_v3"
	leaq	8856(%rsp), %rbx
	leaq	80(%rsp), %rdi
	movq	%rbx, %rsi
	xorl	%edx, %edx
	movq	%r15, %rcx
	movq	8(%rsp), %r8
	callq	"sliced::counters::add_word.x86_64_v3"
	leal	63(%r12), %eax
	shrl	$3, %eax
	andl	$248, %eax
	leaq	.Lluossavin_x86_64_v3.static.3(%rip), %rcx
	movq	(%rax,%rcx), %rdx
	leaq	528(%rsp), %rsi
	leaq	664(%rsp), %rcx
	movq	%rbx, %rdi
	callq	"sliced::Planes::rounds_to_rows.x86_64_v3"
	movq	%r12, %rax
	shlq	$4, %rax
	leaq	(%rax,%rbp), %rcx
	addq	$-16, %rcx
	cmpq	%rbp, %rcx
	jb	.Lluossavin_x86_64_v3.BB9_7
	movq	72(%rsp), %rcx
	movq	56(%rsp), %rbx
	addq	%rbx, %rcx
	leaq	(%rax,%rcx), %rdx
	addq	$-16, %rdx
	cmpq	%rcx, %rdx
	movq	40(%rsp), %r9
	jb	.Lluossavin_x86_64_v3.BB9_9
	leaq	(%rax,%r13), %rcx
	addq	$-16, %rcx
	cmpq	%r13, %rcx
	movq	24(%rsp), %r15
	jb	.Lluossavin_x86_64_v3.BB9_16
	leaq	(%rbx,%rax), %rcx
	movq	48(%rsp), %rdx
	addq	%rcx, %rdx
	addq	21200(%rsp), %rcx
	cmpq	%rcx, %r13
	setb	%cl
	cmpq	%rdx, %rbp
	setb	%dl
	testb	%dl, %cl
	je	.Lluossavin_x86_64_v3.BB9_13
	xorl	%r14d, %r14d
	movq	%r14, %rcx
	orq	$1, %rcx
	testb	$1, %r12b
	jne	.Lluossavin_x86_64_v3.BB9_17
	jmp	.Lluossavin_x86_64_v3.BB9_18
	.p2align	4
.Lluossavin_x86_64_v3.BB9_13:
	movl	%r12d, %r14d
	andl	$1020, %r14d
	xorl	%ecx, %ecx
	xorl	%edx, %edx
	.p2align	4
.Lluossavin_x86_64_v3.BB9_14:
	vmovdqu	(%r13,%rcx,2), %ymm0
	vmovdqu	32(%r13,%rcx,2), %ymm1
	vpunpcklqdq	%ymm1, %ymm0, %ymm2
	vpermq	$216, %ymm2, %ymm2
	vpunpckhqdq	%ymm1, %ymm0, %ymm0
	vpermq	$216, %ymm0, %ymm0
	movl	%ecx, %esi
	andl	$480, %esi
	movq	%rdx, %rdi
	shrq	$6, %rdi
	addq	%rsi, %rdi
	vmovq	856(%rsp,%rdi,8), %xmm1
	vmovq	792(%rsp,%rdi,8), %xmm3
	vpunpcklqdq	%xmm1, %xmm3, %xmm1
	vmovq	728(%rsp,%rdi,8), %xmm3
	vmovq	664(%rsp,%rdi,8), %xmm4
	vpunpcklqdq	%xmm3, %xmm4, %xmm3
	vinserti128	$1, %xmm1, %ymm3, %ymm1
	vbroadcasti128	.Lluossavin_x86_64_v3.CPI9_8(%rip), %ymm3
	vpshufb	%ymm3, %ymm1, %ymm1
	vpxor	%ymm2, %ymm1, %ymm1
	vmovq	4952(%rsp,%rdi,8), %xmm2
	vmovq	4888(%rsp,%rdi,8), %xmm4
	vpunpcklqdq	%xmm2, %xmm4, %xmm2
	vmovq	4824(%rsp,%rdi,8), %xmm4
	vmovq	4760(%rsp,%rdi,8), %xmm5
	vpunpcklqdq	%xmm4, %xmm5, %xmm4
	vinserti128	$1, %xmm2, %ymm4, %ymm2
	vpshufb	%ymm3, %ymm2, %ymm2
	vpxor	%ymm0, %ymm2, %ymm0
	vpermq	$96, %ymm0, %ymm2
	vpermq	$212, %ymm1, %ymm3
	vpblendd	$204, %ymm2, %ymm3, %ymm2
	vpermq	$232, %ymm0, %ymm0
	vpermq	$246, %ymm1, %ymm1
	vpblendd	$204, %ymm0, %ymm1, %ymm0
	vmovdqu	%ymm0, 32(%rbp,%rcx,2)
	vmovdqu	%ymm2, (%rbp,%rcx,2)
	addq	$4, %rdx
	addq	$32, %rcx
	cmpq	%rdx, %r14
	jne	.Lluossavin_x86_64_v3.BB9_14
	cmpq	%r14, %r12
	jne	.Lluossavin_x86_64_v3.BB9_16
	jmp	.Lluossavin_x86_64_v3.BB9_21
.Lluossavin_x86_64_v3.BB9_7:
	movq	24(%rsp), %r15
	movq	40(%rsp), %r9
	movq	56(%rsp), %rbx
	.p2align	4
.Lluossavin_x86_64_v3.BB9_16:
	movq	%r14, %rcx
	orq	$1, %rcx
	testb	$1, %r12b
	je	.Lluossavin_x86_64_v3.BB9_18
.Lluossavin_x86_64_v3.BB9_17:
	movl	%r14d, %edx
	shll	$4, %edx
	movl	%r14d, %esi
	andl	$60, %esi
	shrl	$6, %r14d
	leal	(%r14,%rsi,8), %esi
	vmovq	4760(%rsp,%rsi,8), %xmm0
	vmovq	664(%rsp,%rsi,8), %xmm1
	vpunpcklqdq	%xmm0, %xmm1, %xmm0
	vpshufb	.Lluossavin_x86_64_v3.CPI9_8(%rip), %xmm0, %xmm0
	vpxor	(%r13,%rdx), %xmm0, %xmm0
	vmovdqu	%xmm0, (%rbp,%rdx)
	movq	%rcx, %r14
.Lluossavin_x86_64_v3.BB9_18:
	cmpq	%rcx, %r12
	je	.Lluossavin_x86_64_v3.BB9_21
	leaq	8(,%r14,8), %rcx
	.p2align	4
.Lluossavin_x86_64_v3.BB9_20:
	leal	-8(%rcx), %edx
	andl	$504, %edx
	movq	%r14, %rsi
	shrq	$6, %rsi
	addq	%rdx, %rsi
	vmovq	4760(%rsp,%rsi,8), %xmm0
	vmovq	664(%rsp,%rsi,8), %xmm1
	vpunpcklqdq	%xmm0, %xmm1, %xmm0
	vmovdqa	.Lluossavin_x86_64_v3.CPI9_8(%rip), %xmm1
	vpshufb	%xmm1, %xmm0, %xmm0
	vpxor	-16(%r13,%rcx,2), %xmm0, %xmm0
	vmovdqu	%xmm0, -16(%rbp,%rcx,2)
	leaq	1(%r14), %rdx
	movl	%ecx, %esi
	andl	$504, %esi
	shrq	$6, %rdx
	addq	%rsi, %rdx
	vmovq	4760(%rsp,%rdx,8), %xmm0
	vmovq	664(%rsp,%rdx,8), %xmm2
	vpunpcklqdq	%xmm0, %xmm2, %xmm0
	vpshufb	%xmm1, %xmm0, %xmm0
	vpxor	(%r13,%rcx,2), %xmm0, %xmm0
	vmovdqu	%xmm0, (%rbp,%rcx,2)
	addq	$2, %r14
	addq	$16, %rcx
	cmpq	%r14, %r12
	jne	.Lluossavin_x86_64_v3.BB9_20
.Lluossavin_x86_64_v3.BB9_21:
	movl	36(%rsp), %ebp
	testb	%bpl, %bpl
	je	.Lluossavin_x86_64_v3.BB9_23
	movq	8(%rsp), %rcx
	shlq	$32, %rcx
	movq	16(%rsp), %rdx
	movl	%edx, %edx
	orq	%rcx, %rdx
	shlq	$32, %r15
	movl	4(%rsp), %ecx
	orq	%r15, %rcx
	addq	%rcx, %r12
	adcq	$0, %rdx
	movq	%rdx, 16(%rsp)
	shrq	$32, %rdx
	movq	%rdx, 8(%rsp)
	movq	%r12, %r15
	shrq	$32, %r15
	movl	%r12d, %r14d
	jmp	.Lluossavin_x86_64_v3.BB9_24
.Lluossavin_x86_64_v3.BB9_9:
	movq	24(%rsp), %r15
	movq	%r14, %rcx
	orq	$1, %rcx
	testb	$1, %r12b
	jne	.Lluossavin_x86_64_v3.BB9_17
	jmp	.Lluossavin_x86_64_v3.BB9_18
.Lluossavin_x86_64_v3.BB9_1:
	xorl	%ebx, %ebx
.Lluossavin_x86_64_v3.BB9_25:
	movq	64(%rsp), %rax
	movq	8(%rsp), %rcx
	movl	%ecx, (%rax)
	movq	16(%rsp), %rcx
	movl	%ecx, 4(%rax)
	movl	%r15d, 8(%rax)
	movl	%r14d, 12(%rax)
	movq	%rbx, 16(%rax)
	addq	$21144, %rsp
	popq	%rbx
	popq	%r12
	popq	%r13
	popq	%r14
	popq	%r15
	popq	%rbp
	vzeroupper
	retq
.Lluossavin_x86_64_v3.func_end9:
	.size	"stream::batches::counters.x86_64_v3", .Lluossavin_x86_64_v3.func_end9-"stream::batches::counters.x86_64_v3"

	.section	.rodata.cst32,"aM",@progbits,32
	.p2align	5, 0x0
.Lluossavin_x86_64_v3.CPI10_0:
	.quad	62
	.quad	61
	.quad	60
	.quad	59
.Lluossavin_x86_64_v3.CPI10_1:
	.quad	58
	.quad	57
	.quad	56
	.quad	55
.Lluossavin_x86_64_v3.CPI10_2:
	.quad	54
	.quad	53
	.quad	52
	.quad	51
.Lluossavin_x86_64_v3.CPI10_3:
	.quad	50
	.quad	49
	.quad	48
	.quad	47
.Lluossavin_x86_64_v3.CPI10_4:
	.quad	46
	.quad	45
	.quad	44
	.quad	43
.Lluossavin_x86_64_v3.CPI10_5:
	.quad	42
	.quad	41
	.quad	40
	.quad	39
.Lluossavin_x86_64_v3.CPI10_6:
	.quad	38
	.quad	37
	.quad	36
	.quad	35
	.section	".text.sliced::counters::add_word.x86_64_v3","ax",@progbits
	.p2align	4
	.type	"sliced::counters::add_word.x86_64_v3",@function
"sliced::counters::add_word.x86_64_v3":
	subq	$128, %rsp
	vmovdqu	(%rcx), %ymm1
	vmovdqu	32(%rcx), %ymm0
	movl	%r8d, %eax
	movl	%eax, %r9d
	andl	$1, %r9d
	negq	%r9
	movq	%rax, %rcx
	vmovq	%rax, %xmm2
	movq	%r9, -128(%rsp)
	vpbroadcastq	%xmm2, %ymm2
	vpsllvq	.Lluossavin_x86_64_v3.CPI10_0(%rip), %ymm2, %ymm3
	vpxor	%xmm4, %xmm4, %xmm4
	vpcmpgtq	%ymm3, %ymm4, %ymm3
	vmovdqu	%ymm3, -120(%rsp)
	shlq	$34, %rcx
	vpsllvq	.Lluossavin_x86_64_v3.CPI10_1(%rip), %ymm2, %ymm3
	vpcmpgtq	%ymm3, %ymm4, %ymm3
	vmovdqu	%ymm3, -88(%rsp)
	vpsllvq	.Lluossavin_x86_64_v3.CPI10_2(%rip), %ymm2, %ymm3
	sarq	$63, %rcx
	vpcmpgtq	%ymm3, %ymm4, %ymm3
	vmovdqu	%ymm3, -56(%rsp)
	shlq	$33, %rax
	vpsllvq	.Lluossavin_x86_64_v3.CPI10_3(%rip), %ymm2, %ymm3
	vpcmpgtq	%ymm3, %ymm4, %ymm3
	vmovdqu	%ymm3, -24(%rsp)
	vpsllvq	.Lluossavin_x86_64_v3.CPI10_4(%rip), %ymm2, %ymm3
	sarq	$63, %rax
	vpcmpgtq	%ymm3, %ymm4, %ymm3
	vmovdqu	%ymm3, 8(%rsp)
	shrl	$31, %r8d
	vpsllvq	.Lluossavin_x86_64_v3.CPI10_5(%rip), %ymm2, %ymm3
	vpcmpgtq	%ymm3, %ymm4, %ymm3
	vmovdqu	%ymm3, 40(%rsp)
	vpsllvq	.Lluossavin_x86_64_v3.CPI10_6(%rip), %ymm2, %ymm2
	negq	%r8
	vpcmpgtq	%ymm2, %ymm4, %ymm2
	vmovdqu	%ymm2, 72(%rsp)
	movq	%rcx, 104(%rsp)
	movq	%rax, 112(%rsp)
	movq	%r8, 120(%rsp)
	testq	%rdx, %rdx
	je	.Lluossavin_x86_64_v3.BB10_7
	cmpq	$1, %rdx
	jne	.Lluossavin_x86_64_v3.BB10_3
	xorl	%eax, %eax
	jmp	.Lluossavin_x86_64_v3.BB10_6
.Lluossavin_x86_64_v3.BB10_3:
	movl	%edx, %ecx
	andl	$14, %ecx
	leaq	96(%rsi), %r8
	xorl	%eax, %eax
	.p2align	4
.Lluossavin_x86_64_v3.BB10_4:
	vmovdqu	-96(%r8), %ymm2
	vmovdqu	-64(%r8), %ymm3
	vmovdqu	-32(%r8), %ymm4
	vmovdqu	(%r8), %ymm5
	vpxor	%ymm1, %ymm2, %ymm6
	vpand	%ymm1, %ymm2, %ymm1
	vpbroadcastq	-128(%rsp,%rax,8), %ymm2
	vpand	%ymm6, %ymm2, %ymm7
	vpxor	%ymm1, %ymm7, %ymm1
	vpxor	%ymm6, %ymm2, %ymm6
	vmovdqu	%ymm6, -96(%r8)
	vpxor	%ymm0, %ymm3, %ymm6
	vpand	%ymm0, %ymm3, %ymm0
	vpand	%ymm2, %ymm6, %ymm3
	vpxor	%ymm0, %ymm3, %ymm0
	vpxor	%ymm2, %ymm6, %ymm2
	vmovdqu	%ymm2, -64(%r8)
	vpxor	%ymm1, %ymm4, %ymm2
	vpand	%ymm1, %ymm4, %ymm1
	vpbroadcastq	-120(%rsp,%rax,8), %ymm3
	vpand	%ymm2, %ymm3, %ymm4
	vpxor	%ymm1, %ymm4, %ymm1
	vpxor	%ymm2, %ymm3, %ymm2
	vmovdqu	%ymm2, -32(%r8)
	vpxor	%ymm0, %ymm5, %ymm2
	vpand	%ymm0, %ymm5, %ymm0
	vpand	%ymm3, %ymm2, %ymm4
	vpxor	%ymm3, %ymm2, %ymm2
	vmovdqu	%ymm2, (%r8)
	vpxor	%ymm0, %ymm4, %ymm0
	addq	$2, %rax
	subq	$-128, %r8
	cmpq	%rax, %rcx
	jne	.Lluossavin_x86_64_v3.BB10_4
	testb	$1, %dl
	je	.Lluossavin_x86_64_v3.BB10_7
.Lluossavin_x86_64_v3.BB10_6:
	movq	%rax, %rcx
	shlq	$6, %rcx
	vmovdqu	(%rsi,%rcx), %ymm2
	vmovdqu	32(%rsi,%rcx), %ymm3
	vpxor	%ymm1, %ymm2, %ymm4
	vpand	%ymm1, %ymm2, %ymm1
	vpbroadcastq	-128(%rsp,%rax,8), %ymm2
	vpand	%ymm4, %ymm2, %ymm5
	vpxor	%ymm4, %ymm2, %ymm4
	vmovdqu	%ymm4, (%rsi,%rcx)
	vpxor	%ymm1, %ymm5, %ymm1
	vpxor	%ymm0, %ymm3, %ymm4
	vpand	%ymm0, %ymm3, %ymm0
	vpand	%ymm2, %ymm4, %ymm3
	vpxor	%ymm0, %ymm3, %ymm0
	vpxor	%ymm2, %ymm4, %ymm2
	vmovdqu	%ymm2, 32(%rsi,%rcx)
.Lluossavin_x86_64_v3.BB10_7:
	movl	%edx, %eax
	negl	%eax
	andl	$3, %eax
	je	.Lluossavin_x86_64_v3.BB10_10
	movq	%rdx, %rcx
	shlq	$6, %rcx
	addq	%rsi, %rcx
	addq	$32, %rcx
	shll	$6, %eax
	xorl	%r8d, %r8d
	.p2align	4
.Lluossavin_x86_64_v3.BB10_9:
	vpbroadcastq	-128(%rsp,%rdx,8), %ymm2
	vpxor	%ymm2, %ymm1, %ymm3
	vmovdqu	%ymm3, -32(%rcx,%r8)
	vpand	%ymm2, %ymm1, %ymm1
	vpxor	%ymm2, %ymm0, %ymm3
	vmovdqu	%ymm3, (%rcx,%r8)
	vpand	%ymm2, %ymm0, %ymm0
	incq	%rdx
	addq	$64, %r8
	cmpq	%r8, %rax
	jne	.Lluossavin_x86_64_v3.BB10_9
.Lluossavin_x86_64_v3.BB10_10:
	shlq	$3, %rdx
	.p2align	4
.Lluossavin_x86_64_v3.BB10_11:
	vpbroadcastq	-128(%rsp,%rdx), %ymm2
	vpxor	%ymm2, %ymm1, %ymm3
	vmovdqu	%ymm3, (%rsi,%rdx,8)
	vpand	%ymm2, %ymm1, %ymm1
	vpxor	%ymm2, %ymm0, %ymm3
	vmovdqu	%ymm3, 32(%rsi,%rdx,8)
	vpand	%ymm2, %ymm0, %ymm0
	vpbroadcastq	-120(%rsp,%rdx), %ymm2
	vpxor	%ymm2, %ymm1, %ymm3
	vmovdqu	%ymm3, 64(%rsi,%rdx,8)
	vpand	%ymm2, %ymm1, %ymm1
	vpxor	%ymm2, %ymm0, %ymm3
	vmovdqu	%ymm3, 96(%rsi,%rdx,8)
	vpand	%ymm2, %ymm0, %ymm0
	vpbroadcastq	-112(%rsp,%rdx), %ymm2
	vpxor	%ymm2, %ymm1, %ymm3
	vmovdqu	%ymm3, 128(%rsi,%rdx,8)
	vpand	%ymm2, %ymm1, %ymm1
	vpxor	%ymm2, %ymm0, %ymm3
	vmovdqu	%ymm3, 160(%rsi,%rdx,8)
	vpbroadcastq	-104(%rsp,%rdx), %ymm3
	vpxor	%ymm3, %ymm1, %ymm4
	vmovdqu	%ymm4, 192(%rsi,%rdx,8)
	vpand	%ymm2, %ymm0, %ymm0
	vpxor	%ymm3, %ymm0, %ymm2
	vmovdqu	%ymm2, 224(%rsi,%rdx,8)
	vpand	%ymm3, %ymm1, %ymm1
	vpand	%ymm3, %ymm0, %ymm0
	addq	$32, %rdx
	cmpq	$256, %rdx
	jne	.Lluossavin_x86_64_v3.BB10_11
	vmovdqu	%ymm1, (%rdi)
	vmovdqu	%ymm0, 32(%rdi)
	addq	$128, %rsp
	vzeroupper
	retq
.Lluossavin_x86_64_v3.func_end10:
	.size	"sliced::counters::add_word.x86_64_v3", .Lluossavin_x86_64_v3.func_end10-"sliced::counters::add_word.x86_64_v3"

	.section	.rodata.cst16,"aM",@progbits,16
	.p2align	4, 0x0
.Lluossavin_x86_64_v3.CPI11_0:
	.byte	3
	.byte	2
	.byte	1
	.byte	0
	.byte	7
	.byte	6
	.byte	5
	.byte	4
	.byte	11
	.byte	10
	.byte	9
	.byte	8
	.byte	15
	.byte	14
	.byte	13
	.byte	12
.Lluossavin_x86_64_v3.CPI11_5:
	.long	0
	.long	1
	.long	2
	.long	3
	.section	.rodata.cst4,"aM",@progbits,4
	.p2align	2, 0x0
.Lluossavin_x86_64_v3.CPI11_1:
	.long	4
.Lluossavin_x86_64_v3.CPI11_2:
	.long	8
.Lluossavin_x86_64_v3.CPI11_3:
	.long	12
.Lluossavin_x86_64_v3.CPI11_10:
	.long	16
	.section	.rodata.cst32,"aM",@progbits,32
	.p2align	5, 0x0
.Lluossavin_x86_64_v3.CPI11_4:
	.long	0
	.long	0
	.long	0
	.long	0
	.long	1
	.long	1
	.long	1
	.long	1
.Lluossavin_x86_64_v3.CPI11_6:
	.zero	4
	.zero	4
	.long	0
	.long	4
	.zero	4
	.zero	4
	.long	1
	.long	5
.Lluossavin_x86_64_v3.CPI11_7:
	.long	0
	.long	4
	.zero	4
	.zero	4
	.long	1
	.long	5
	.zero	4
	.zero	4
.Lluossavin_x86_64_v3.CPI11_8:
	.zero	4
	.zero	4
	.long	2
	.long	6
	.zero	4
	.zero	4
	.long	3
	.long	7
.Lluossavin_x86_64_v3.CPI11_9:
	.long	2
	.long	6
	.zero	4
	.zero	4
	.long	3
	.long	7
	.zero	4
	.zero	4
.Lluossavin_x86_64_v3.CPI11_11:
	.quad	0
	.quad	1
	.quad	2
	.quad	3
.Lluossavin_x86_64_v3.CPI11_14:
	.long	5
	.long	4
	.zero	4
	.zero	4
	.long	7
	.long	6
	.zero	4
	.zero	4
.Lluossavin_x86_64_v3.CPI11_15:
	.zero	4
	.zero	4
	.long	5
	.long	4
	.zero	4
	.zero	4
	.long	7
	.long	6
.Lluossavin_x86_64_v3.CPI11_16:
	.long	1
	.long	0
	.zero	4
	.zero	4
	.long	3
	.long	2
	.zero	4
	.zero	4
.Lluossavin_x86_64_v3.CPI11_17:
	.zero	4
	.zero	4
	.long	1
	.long	0
	.zero	4
	.zero	4
	.long	3
	.long	2
.Lluossavin_x86_64_v3.CPI11_18:
	.byte	3
	.byte	2
	.byte	1
	.byte	0
	.byte	7
	.byte	6
	.byte	5
	.byte	4
	.byte	11
	.byte	10
	.byte	9
	.byte	8
	.byte	15
	.byte	14
	.byte	13
	.byte	12
	.byte	3
	.byte	2
	.byte	1
	.byte	0
	.byte	7
	.byte	6
	.byte	5
	.byte	4
	.byte	11
	.byte	10
	.byte	9
	.byte	8
	.byte	15
	.byte	14
	.byte	13
	.byte	12
	.section	.rodata.cst8,"aM",@progbits,8
	.p2align	3, 0x0
.Lluossavin_x86_64_v3.CPI11_12:
	.quad	9223372036854775807
.Lluossavin_x86_64_v3.CPI11_13:
	.quad	-9223372036854775808
.Lluossavin_x86_64_v3.CPI11_19:
	.quad	4
	.section	".text.stream::few::few.x86_64_v3","ax",@progbits
	.p2align	4
	.type	"stream::few::few.x86_64_v3",@function
"stream::few::few.x86_64_v3":
	pushq	%rbp
	pushq	%r15
	pushq	%r14
	pushq	%r13
	pushq	%r12
	pushq	%rbx
	subq	$2264, %rsp
	movq	%r9, %rbx
	movl	%ecx, %ebp
	movl	%edx, %r12d
	movq	%rdi, %r14
	movq	2328(%rsp), %r13
	vmovups	(%rsi), %ymm0
	vmovdqu	32(%rsi), %ymm1
	vmovdqu	64(%rsi), %ymm2
	vmovdqu	96(%rsi), %ymm3
	vmovdqu	%ymm3, 144(%rsp)
	vmovdqu	%ymm2, 112(%rsp)
	vmovdqu	%ymm1, 80(%rsp)
	vmovups	%ymm0, 48(%rsp)
	vmovups	(%r8), %xmm0
	vmovaps	%xmm0, (%rsp)
	leaq	1216(%rsp), %r15
	movl	$1040, %edx
	movq	%r15, %rdi
	xorl	%esi, %esi
	vzeroupper
	callq	memset@PLT
	testb	%r12b, %r12b
	je	.Lluossavin_x86_64_v3.BB11_1
	testb	$1, %bpl
	je	.Lluossavin_x86_64_v3.BB11_16
	vpshufd	$177, (%rsp), %xmm0
	leaq	1(%rbx), %rax
	cmpq	$3, %rbx
	movzbl	2320(%rsp), %ebp
	jae	.Lluossavin_x86_64_v3.BB11_11
	xorl	%ecx, %ecx
	jmp	.Lluossavin_x86_64_v3.BB11_14
.Lluossavin_x86_64_v3.BB11_1:
	vmovdqa	(%rsp), %xmm0
	vpshufb	.Lluossavin_x86_64_v3.CPI11_0(%rip), %xmm0, %xmm0
	vmovdqa	%xmm0, 1216(%rsp)
	testq	%rbx, %rbx
	movzbl	2320(%rsp), %ebp
	je	.Lluossavin_x86_64_v3.BB11_29
	movl	$1, %eax
	cmpq	$4, %rbx
	jb	.Lluossavin_x86_64_v3.BB11_6
	movabsq	$1152921504606846972, %rcx
	andq	%rbx, %rcx
	leaq	1(%rcx), %rax
	xorl	%edx, %edx
	movq	%rcx, %rsi
	.p2align	4
.Lluossavin_x86_64_v3.BB11_4:
	vmovdqu	(%r13,%rdx), %ymm0
	vmovdqu	32(%r13,%rdx), %ymm1
	vmovdqu	%ymm1, 1264(%rsp,%rdx)
	vmovdqu	%ymm0, 1232(%rsp,%rdx)
	addq	$64, %rdx
	addq	$-4, %rsi
	jne	.Lluossavin_x86_64_v3.BB11_4
	cmpq	%rcx, %rbx
	je	.Lluossavin_x86_64_v3.BB11_29
.Lluossavin_x86_64_v3.BB11_6:
	movq	%rbx, %rcx
	subq	%rax, %rcx
	incq	%rcx
	shlq	$4, %rax
	.p2align	4
.Lluossavin_x86_64_v3.BB11_7:
	vmovdqu	-16(%r13,%rax), %xmm0
	vmovdqa	%xmm0, 1216(%rsp,%rax)
	addq	$16, %rax
	decq	%rcx
	jne	.Lluossavin_x86_64_v3.BB11_7
	jmp	.Lluossavin_x86_64_v3.BB11_29
.Lluossavin_x86_64_v3.BB11_16:
	vmovdqa	(%rsp), %xmm7
	vpshufb	.Lluossavin_x86_64_v3.CPI11_0(%rip), %xmm7, %xmm0
	vpextrd	$2, %xmm7, %eax
	bswapl	%eax
	cmpq	$3, %rbx
	movzbl	2320(%rsp), %ebp
	jae	.Lluossavin_x86_64_v3.BB11_18
	xorl	%esi, %esi
	jmp	.Lluossavin_x86_64_v3.BB11_27
.Lluossavin_x86_64_v3.BB11_11:
	movabsq	$2305843009213693948, %rcx
	andq	%rax, %rcx
	vpermq	$85, %ymm0, %ymm1
	vpbroadcastq	%xmm0, %ymm2
	vmovdqa	.Lluossavin_x86_64_v3.CPI11_11(%rip), %ymm3
	movq	%rcx, %rdx
	.p2align	4
.Lluossavin_x86_64_v3.BB11_12:
	vpaddq	%ymm1, %ymm3, %ymm4
	vpbroadcastq	.Lluossavin_x86_64_v3.CPI11_12(%rip), %ymm5
	vpxor	%ymm5, %ymm3, %ymm5
	vpbroadcastq	.Lluossavin_x86_64_v3.CPI11_13(%rip), %ymm6
	vpxor	%ymm6, %ymm1, %ymm6
	vpcmpgtq	%ymm5, %ymm6, %ymm5
	vpsubq	%ymm5, %ymm2, %ymm5
	vmovdqa	.Lluossavin_x86_64_v3.CPI11_14(%rip), %ymm6
	vpermd	%ymm5, %ymm6, %ymm6
	vmovdqa	.Lluossavin_x86_64_v3.CPI11_15(%rip), %ymm7
	vpermd	%ymm4, %ymm7, %ymm7
	vpblendd	$204, %ymm7, %ymm6, %ymm6
	vmovdqa	.Lluossavin_x86_64_v3.CPI11_16(%rip), %ymm7
	vpermd	%ymm5, %ymm7, %ymm5
	vmovdqa	.Lluossavin_x86_64_v3.CPI11_17(%rip), %ymm7
	vpermd	%ymm4, %ymm7, %ymm4
	vpblendd	$204, %ymm4, %ymm5, %ymm4
	vbroadcasti128	.Lluossavin_x86_64_v3.CPI11_0(%rip), %ymm5
	vpshufb	%ymm5, %ymm4, %ymm4
	vpshufb	%ymm5, %ymm6, %ymm5
	vmovdqu	%ymm5, 32(%r15)
	vmovdqu	%ymm4, (%r15)
	vpbroadcastq	.Lluossavin_x86_64_v3.CPI11_19(%rip), %ymm4
	vpaddq	%ymm4, %ymm3, %ymm3
	addq	$64, %r15
	addq	$-4, %rdx
	jne	.Lluossavin_x86_64_v3.BB11_12
	cmpq	%rcx, %rax
	je	.Lluossavin_x86_64_v3.BB11_29
.Lluossavin_x86_64_v3.BB11_14:
	vpextrq	$1, %xmm0, %rdx
	movq	%rcx, %rsi
	shlq	$4, %rsi
	addq	%rsp, %rsi
	addq	$1216, %rsi
	movq	%rcx, %rdi
	notq	%rdi
	.p2align	4
.Lluossavin_x86_64_v3.BB11_15:
	xorl	%r8d, %r8d
	cmpq	%rdi, %rdx
	seta	%r8b
	vmovd	%r8d, %xmm1
	vmovq	%rcx, %xmm2
	vpunpcklqdq	%xmm2, %xmm1, %xmm1
	vpaddq	%xmm1, %xmm0, %xmm1
	vpshufd	$177, %xmm1, %xmm1
	vpshufb	.Lluossavin_x86_64_v3.CPI11_0(%rip), %xmm1, %xmm1
	vmovdqa	%xmm1, (%rsi)
	incq	%rcx
	addq	$16, %rsi
	decq	%rdi
	cmpq	%rcx, %rax
	jne	.Lluossavin_x86_64_v3.BB11_15
	jmp	.Lluossavin_x86_64_v3.BB11_29
.Lluossavin_x86_64_v3.BB11_18:
	leaq	1(%rbx), %rcx
	movabsq	$2305843009213693948, %rdx
	vmovd	%eax, %xmm8
	vpshufd	$255, %xmm7, %xmm2
	cmpq	$15, %rbx
	jae	.Lluossavin_x86_64_v3.BB11_20
	xorl	%esi, %esi
	jmp	.Lluossavin_x86_64_v3.BB11_24
.Lluossavin_x86_64_v3.BB11_20:
	leaq	-12(%rdx), %rsi
	andq	%rcx, %rsi
	vmovdqa	%xmm8, 16(%rsp)
	vpbroadcastd	%xmm8, %xmm3
	vpbroadcastd	.Lluossavin_x86_64_v3.CPI11_1(%rip), %xmm4
	vpaddd	%xmm4, %xmm2, %xmm1
	vmovdqa	%xmm1, 32(%rsp)
	vpbroadcastd	.Lluossavin_x86_64_v3.CPI11_2(%rip), %xmm5
	vpaddd	%xmm5, %xmm2, %xmm5
	vpbroadcastd	.Lluossavin_x86_64_v3.CPI11_3(%rip), %xmm6
	vpaddd	%xmm6, %xmm2, %xmm6
	vmovdqa	.Lluossavin_x86_64_v3.CPI11_4(%rip), %ymm7
	vpermd	%ymm0, %ymm7, %ymm7
	vmovdqa	.Lluossavin_x86_64_v3.CPI11_5(%rip), %xmm8
	leaq	1408(%rsp), %rdi
	movq	%rsi, %r8
	.p2align	4
.Lluossavin_x86_64_v3.BB11_21:
	vpaddd	%xmm2, %xmm8, %xmm9
	vpaddd	32(%rsp), %xmm8, %xmm10
	vpaddd	%xmm5, %xmm8, %xmm11
	vpaddd	%xmm6, %xmm8, %xmm12
	vmovdqa	.Lluossavin_x86_64_v3.CPI11_0(%rip), %xmm13
	vpshufb	%xmm13, %xmm9, %xmm9
	vpshufb	%xmm13, %xmm10, %xmm10
	vpshufb	%xmm13, %xmm11, %xmm11
	vinserti128	$1, %xmm9, %ymm3, %ymm9
	vmovdqa	.Lluossavin_x86_64_v3.CPI11_6(%rip), %ymm14
	vpermd	%ymm9, %ymm14, %ymm15
	vmovdqa	.Lluossavin_x86_64_v3.CPI11_8(%rip), %ymm1
	vpermd	%ymm9, %ymm1, %ymm9
	vmovdqa	.Lluossavin_x86_64_v3.CPI11_9(%rip), %ymm4
	vpermd	%ymm7, %ymm4, %ymm4
	vpblendd	$204, %ymm9, %ymm4, %ymm9
	vmovdqu	%ymm9, -160(%rdi)
	vmovdqa	.Lluossavin_x86_64_v3.CPI11_7(%rip), %ymm9
	vpermd	%ymm7, %ymm9, %ymm9
	vpblendd	$204, %ymm15, %ymm9, %ymm15
	vmovdqu	%ymm15, -192(%rdi)
	vpshufb	%xmm13, %xmm12, %xmm12
	vinserti128	$1, %xmm10, %ymm3, %ymm10
	vpermd	%ymm10, %ymm14, %ymm13
	vpblendd	$204, %ymm13, %ymm9, %ymm13
	vpermd	%ymm10, %ymm1, %ymm10
	vpblendd	$204, %ymm10, %ymm4, %ymm10
	vmovdqu	%ymm10, -96(%rdi)
	vmovdqu	%ymm13, -128(%rdi)
	vinserti128	$1, %xmm11, %ymm3, %ymm10
	vpermd	%ymm10, %ymm14, %ymm11
	vpermd	%ymm10, %ymm1, %ymm10
	vpblendd	$204, %ymm10, %ymm4, %ymm10
	vmovdqu	%ymm10, -32(%rdi)
	vpblendd	$204, %ymm11, %ymm9, %ymm10
	vmovdqu	%ymm10, -64(%rdi)
	vinserti128	$1, %xmm12, %ymm3, %ymm10
	vpermd	%ymm10, %ymm14, %ymm11
	vpblendd	$204, %ymm11, %ymm9, %ymm9
	vpermd	%ymm10, %ymm1, %ymm1
	vpblendd	$204, %ymm1, %ymm4, %ymm1
	vmovdqu	%ymm1, 32(%rdi)
	vmovdqu	%ymm9, (%rdi)
	vpbroadcastd	.Lluossavin_x86_64_v3.CPI11_10(%rip), %xmm1
	vpaddd	%xmm1, %xmm8, %xmm8
	addq	$256, %rdi
	addq	$-16, %r8
	jne	.Lluossavin_x86_64_v3.BB11_21
	cmpq	%rsi, %rcx
	vmovdqa	(%rsp), %xmm7
	vmovdqa	16(%rsp), %xmm8
	je	.Lluossavin_x86_64_v3.BB11_29
	testb	$12, %cl
	je	.Lluossavin_x86_64_v3.BB11_27
.Lluossavin_x86_64_v3.BB11_24:
	andq	%rcx, %rdx
	vmovd	%esi, %xmm1
	vpbroadcastd	%xmm1, %xmm1
	vpor	.Lluossavin_x86_64_v3.CPI11_5(%rip), %xmm1, %xmm3
	vmovdqa	.Lluossavin_x86_64_v3.CPI11_4(%rip), %ymm1
	vpermd	%ymm0, %ymm1, %ymm4
	movq	%rsi, %rdi
	subq	%rdx, %rdi
	shlq	$4, %rsi
	addq	%rsp, %rsi
	addq	$1216, %rsi
	.p2align	4
.Lluossavin_x86_64_v3.BB11_25:
	vpaddd	%xmm3, %xmm2, %xmm1
	vpshufb	.Lluossavin_x86_64_v3.CPI11_0(%rip), %xmm1, %xmm1
	vpbroadcastd	%xmm8, %xmm5
	vinserti128	$1, %xmm1, %ymm5, %ymm1
	vmovdqa	.Lluossavin_x86_64_v3.CPI11_6(%rip), %ymm5
	vpermd	%ymm1, %ymm5, %ymm5
	vmovdqa	.Lluossavin_x86_64_v3.CPI11_7(%rip), %ymm6
	vpermd	%ymm4, %ymm6, %ymm6
	vpblendd	$204, %ymm5, %ymm6, %ymm5
	vmovdqa	.Lluossavin_x86_64_v3.CPI11_8(%rip), %ymm6
	vpermd	%ymm1, %ymm6, %ymm1
	vmovdqa	.Lluossavin_x86_64_v3.CPI11_9(%rip), %ymm6
	vpermd	%ymm4, %ymm6, %ymm6
	vpblendd	$204, %ymm1, %ymm6, %ymm1
	vmovdqu	%ymm1, 32(%rsi)
	vmovdqu	%ymm5, (%rsi)
	vpbroadcastd	.Lluossavin_x86_64_v3.CPI11_1(%rip), %xmm1
	vpaddd	%xmm1, %xmm3, %xmm3
	addq	$64, %rsi
	addq	$4, %rdi
	jne	.Lluossavin_x86_64_v3.BB11_25
	movq	%rdx, %rsi
	cmpq	%rdx, %rcx
	je	.Lluossavin_x86_64_v3.BB11_29
.Lluossavin_x86_64_v3.BB11_27:
	vpextrd	$3, %xmm7, %edi
	movq	%rbx, %rcx
	subq	%rsi, %rcx
	incq	%rcx
	movq	%rsi, %rdx
	shlq	$4, %rdx
	addq	%r15, %rdx
	addq	$12, %rdx
	addl	%edi, %esi
	.p2align	4
.Lluossavin_x86_64_v3.BB11_28:
	vmovq	%xmm0, -12(%rdx)
	movl	%eax, -4(%rdx)
	movbel	%esi, (%rdx)
	addq	$16, %rdx
	incl	%esi
	decq	%rcx
	jne	.Lluossavin_x86_64_v3.BB11_28
.Lluossavin_x86_64_v3.BB11_29:
	leaq	176(%rsp), %r15
	movl	$1040, %edx
	movq	%r15, %rdi
	xorl	%esi, %esi
	vzeroupper
	callq	memset@PLT
	movzbl	%bpl, %esi
	addq	%rbx, %rsi
	leaq	48(%rsp), %rdi
	leaq	1216(%rsp), %rdx
	movq	%r15, %rcx
	callq	"sixteen::encrypt.x86_64_v3"
	movq	%rbx, %rax
	shlq	$4, %rax
	testq	%rbx, %rbx
	je	.Lluossavin_x86_64_v3.BB11_40
	movq	2336(%rsp), %rcx
	movq	%rcx, %rdx
	subq	%r13, %rdx
	cmpq	$128, %rdx
	jae	.Lluossavin_x86_64_v3.BB11_33
	xorl	%edx, %edx
	.p2align	4
.Lluossavin_x86_64_v3.BB11_32:
	movzbl	(%r13,%rdx), %esi
	xorb	176(%rsp,%rdx), %sil
	movb	%sil, (%rcx,%rdx)
	movzbl	1(%r13,%rdx), %esi
	xorb	177(%rsp,%rdx), %sil
	movb	%sil, 1(%rcx,%rdx)
	movzbl	2(%r13,%rdx), %esi
	xorb	178(%rsp,%rdx), %sil
	movb	%sil, 2(%rcx,%rdx)
	movzbl	3(%r13,%rdx), %esi
	xorb	179(%rsp,%rdx), %sil
	movb	%sil, 3(%rcx,%rdx)
	movzbl	4(%r13,%rdx), %esi
	xorb	180(%rsp,%rdx), %sil
	movb	%sil, 4(%rcx,%rdx)
	movzbl	5(%r13,%rdx), %esi
	xorb	181(%rsp,%rdx), %sil
	movb	%sil, 5(%rcx,%rdx)
	movzbl	6(%r13,%rdx), %esi
	xorb	182(%rsp,%rdx), %sil
	movb	%sil, 6(%rcx,%rdx)
	movzbl	7(%r13,%rdx), %esi
	xorb	183(%rsp,%rdx), %sil
	movb	%sil, 7(%rcx,%rdx)
	addq	$8, %rdx
	cmpq	%rdx, %rax
	jne	.Lluossavin_x86_64_v3.BB11_32
	jmp	.Lluossavin_x86_64_v3.BB11_40
.Lluossavin_x86_64_v3.BB11_33:
	cmpq	$8, %rbx
	jae	.Lluossavin_x86_64_v3.BB11_35
	xorl	%edx, %edx
	jmp	.Lluossavin_x86_64_v3.BB11_39
.Lluossavin_x86_64_v3.BB11_35:
	movq	%rax, %rdx
	andq	$-128, %rdx
	xorl	%esi, %esi
	.p2align	4
.Lluossavin_x86_64_v3.BB11_36:
	vmovdqu	(%r13,%rsi), %ymm0
	vmovdqu	32(%r13,%rsi), %ymm1
	vmovdqu	64(%r13,%rsi), %ymm2
	vmovdqu	96(%r13,%rsi), %ymm3
	vpxor	176(%rsp,%rsi), %ymm0, %ymm0
	vpxor	208(%rsp,%rsi), %ymm1, %ymm1
	vpxor	240(%rsp,%rsi), %ymm2, %ymm2
	vpxor	272(%rsp,%rsi), %ymm3, %ymm3
	vmovdqu	%ymm0, (%rcx,%rsi)
	vmovdqu	%ymm1, 32(%rcx,%rsi)
	vmovdqu	%ymm2, 64(%rcx,%rsi)
	vmovdqu	%ymm3, 96(%rcx,%rsi)
	subq	$-128, %rsi
	cmpq	%rsi, %rdx
	jne	.Lluossavin_x86_64_v3.BB11_36
	cmpq	%rdx, %rax
	je	.Lluossavin_x86_64_v3.BB11_40
	testb	$7, %bl
	je	.Lluossavin_x86_64_v3.BB11_32
	.p2align	4
.Lluossavin_x86_64_v3.BB11_39:
	vmovdqu	(%r13,%rdx), %xmm0
	vpxor	176(%rsp,%rdx), %xmm0, %xmm0
	vmovdqu	%xmm0, (%rcx,%rdx)
	addq	$16, %rdx
	cmpq	%rdx, %rax
	jne	.Lluossavin_x86_64_v3.BB11_39
.Lluossavin_x86_64_v3.BB11_40:
	vmovdqa	1216(%rsp,%rax), %xmm0
	vpshufb	.Lluossavin_x86_64_v3.CPI11_0(%rip), %xmm0, %xmm0
	vmovdqu	%xmm0, (%r14)
	vmovups	176(%rsp,%rax), %xmm0
	vmovups	%xmm0, 16(%r14)
	addq	$2264, %rsp
	popq	%rbx
	popq	%r12
	popq	%r13
	popq	%r14
	popq	%r15
	popq	%rbp
	vzeroupper
	retq
.Lluossavin_x86_64_v3.func_end11:
	.size	"stream::few::few.x86_64_v3", .Lluossavin_x86_64_v3.func_end11-"stream::few::few.x86_64_v3"

	.section	.rodata.cst32,"aM",@progbits,32
	.p2align	5, 0x0
.Lluossavin_x86_64_v3.CPI12_0:
	.byte	3
	.byte	2
	.byte	1
	.byte	0
	.byte	7
	.byte	6
	.byte	5
	.byte	4
	.byte	11
	.byte	10
	.byte	9
	.byte	8
	.byte	15
	.byte	14
	.byte	13
	.byte	12
	.byte	3
	.byte	2
	.byte	1
	.byte	0
	.byte	7
	.byte	6
	.byte	5
	.byte	4
	.byte	11
	.byte	10
	.byte	9
	.byte	8
	.byte	15
	.byte	14
	.byte	13
	.byte	12
.Lluossavin_x86_64_v3.CPI12_9:
	.byte	1
	.byte	2
	.byte	3
	.byte	0
	.byte	5
	.byte	6
	.byte	7
	.byte	4
	.byte	9
	.byte	10
	.byte	11
	.byte	8
	.byte	13
	.byte	14
	.byte	15
	.byte	12
	.byte	17
	.byte	18
	.byte	19
	.byte	16
	.byte	21
	.byte	22
	.byte	23
	.byte	20
	.byte	25
	.byte	26
	.byte	27
	.byte	24
	.byte	29
	.byte	30
	.byte	31
	.byte	28
	.section	.rodata.cst8,"aM",@progbits,8
	.p2align	3, 0x0
.Lluossavin_x86_64_v3.CPI12_1:
	.long	0
	.long	4
.Lluossavin_x86_64_v3.CPI12_2:
	.long	1
	.long	5
.Lluossavin_x86_64_v3.CPI12_3:
	.long	2
	.long	6
.Lluossavin_x86_64_v3.CPI12_4:
	.long	3
	.long	7
.Lluossavin_x86_64_v3.CPI12_5:
	.quad	6148914691236517205
.Lluossavin_x86_64_v3.CPI12_6:
	.quad	3689348814741910323
.Lluossavin_x86_64_v3.CPI12_7:
	.quad	1085102592571150095
	.section	.rodata.cst16,"aM",@progbits,16
	.p2align	4, 0x0
.Lluossavin_x86_64_v3.CPI12_8:
	.zero	16,51
.Lluossavin_x86_64_v3.CPI12_10:
	.byte	3
	.byte	2
	.byte	1
	.byte	0
	.byte	7
	.byte	6
	.byte	5
	.byte	4
	.byte	11
	.byte	10
	.byte	9
	.byte	8
	.byte	15
	.byte	14
	.byte	13
	.byte	12
	.section	.rodata.cst4,"aM",@progbits,4
	.p2align	2, 0x0
.Lluossavin_x86_64_v3.CPI12_11:
	.zero	4,51
	.section	".text.sixteen::encrypt.x86_64_v3","ax",@progbits
	.p2align	4
	.type	"sixteen::encrypt.x86_64_v3",@function
"sixteen::encrypt.x86_64_v3":
	testq	%rsi, %rsi
	je	.Lluossavin_x86_64_v3.BB12_47
	pushq	%rbp
	pushq	%r15
	pushq	%r14
	pushq	%r13
	pushq	%r12
	pushq	%rbx
	subq	$2328, %rsp
	movq	%rdx, %r12
	movq	%rsi, %r14
	movq	%rdi, %r15
	movq	%rcx, 24(%rsp)
	movabsq	$2305843009213693944, %r13
	leaq	792(%rsp), %rdi
	xorl	%ebx, %ebx
	movl	$1536, %edx
	xorl	%esi, %esi
	callq	memset@PLT
	cmpq	$8, %r14
	jae	.Lluossavin_x86_64_v3.BB12_3
	movq	%r13, %r8
	jmp	.Lluossavin_x86_64_v3.BB12_6
.Lluossavin_x86_64_v3.BB12_3:
	movq	%r14, %rbx
	andq	%r13, %rbx
	leaq	(,%r14,4), %rax
	andq	$-32, %rax
	xorl	%ecx, %ecx
	movq	%r13, %r8
	.p2align	4
.Lluossavin_x86_64_v3.BB12_4:
	vmovdqu	(%r12,%rcx,4), %ymm1
	vmovdqu	32(%r12,%rcx,4), %ymm0
	vmovdqu	64(%r12,%rcx,4), %ymm2
	vmovdqu	96(%r12,%rcx,4), %ymm3
	vbroadcasti128	.Lluossavin_x86_64_v3.CPI12_10(%rip), %ymm4
	vpshufb	%ymm4, %ymm0, %ymm0
	vpshufb	%ymm4, %ymm1, %ymm1
	vpshufb	%ymm4, %ymm2, %ymm2
	vpshufb	%ymm4, %ymm3, %ymm3
	vpbroadcastq	.Lluossavin_x86_64_v3.CPI12_1(%rip), %ymm4
	vpermd	%ymm3, %ymm4, %ymm5
	vpermd	%ymm2, %ymm4, %ymm6
	vpblendd	$192, %ymm5, %ymm6, %ymm5
	vextracti128	$1, %ymm1, %xmm6
	vpunpckldq	%xmm6, %xmm1, %xmm7
	vpermd	%ymm0, %ymm4, %ymm4
	vpblendd	$12, %xmm4, %xmm7, %xmm4
	vpblendd	$240, %ymm5, %ymm4, %ymm4
	vpbroadcastq	.Lluossavin_x86_64_v3.CPI12_2(%rip), %ymm5
	vpermd	%ymm3, %ymm5, %ymm7
	vpermd	%ymm2, %ymm5, %ymm8
	vpblendd	$192, %ymm7, %ymm8, %ymm7
	vextracti128	$1, %ymm0, %xmm8
	vpunpckldq	%xmm8, %xmm0, %xmm9
	vpermd	%ymm1, %ymm5, %ymm5
	vpblendd	$12, %xmm9, %xmm5, %xmm5
	vpblendd	$240, %ymm7, %ymm5, %ymm5
	vpbroadcastq	.Lluossavin_x86_64_v3.CPI12_3(%rip), %ymm7
	vpermd	%ymm3, %ymm7, %ymm9
	vpermd	%ymm2, %ymm7, %ymm10
	vpblendd	$192, %ymm9, %ymm10, %ymm9
	vpunpckhdq	%xmm6, %xmm1, %xmm6
	vpermd	%ymm0, %ymm7, %ymm7
	vpblendd	$12, %xmm7, %xmm6, %xmm6
	vpblendd	$240, %ymm9, %ymm6, %ymm6
	vpbroadcastq	.Lluossavin_x86_64_v3.CPI12_4(%rip), %ymm7
	vpermd	%ymm3, %ymm7, %ymm3
	vpermd	%ymm2, %ymm7, %ymm2
	vpblendd	$192, %ymm3, %ymm2, %ymm2
	vpunpckhdq	%xmm8, %xmm0, %xmm0
	vpermd	%ymm1, %ymm7, %ymm1
	vpblendd	$12, %xmm0, %xmm1, %xmm0
	vpblendd	$240, %ymm2, %ymm0, %ymm0
	vmovdqu	%ymm4, 792(%rsp,%rcx)
	vmovdqu	%ymm5, 1048(%rsp,%rcx)
	vmovdqu	%ymm6, 1304(%rsp,%rcx)
	vmovdqu	%ymm0, 1560(%rsp,%rcx)
	addq	$32, %rcx
	cmpq	%rcx, %rax
	jne	.Lluossavin_x86_64_v3.BB12_4
	cmpq	%rbx, %r14
	je	.Lluossavin_x86_64_v3.BB12_8
.Lluossavin_x86_64_v3.BB12_6:
	movq	%rbx, %rax
	shlq	$4, %rax
	addq	%r12, %rax
	addq	$12, %rax
	.p2align	4
.Lluossavin_x86_64_v3.BB12_7:
	movl	-12(%rax), %ecx
	movl	-8(%rax), %edx
	movl	-4(%rax), %esi
	movl	(%rax), %edi
	movbel	%ecx, 792(%rsp,%rbx,4)
	movbel	%edx, 1048(%rsp,%rbx,4)
	movbel	%esi, 1304(%rsp,%rbx,4)
	movbel	%edi, 1560(%rsp,%rbx,4)
	incq	%rbx
	addq	$16, %rax
	cmpq	%rbx, %r14
	jne	.Lluossavin_x86_64_v3.BB12_7
.Lluossavin_x86_64_v3.BB12_8:
	movabsq	$6148914691236517205, %r12
	leaq	3(%r14), %rdx
	movabsq	$4611686018427387896, %rsi
	leaq	4(%rsi), %r11
	andq	%rdx, %r11
	leaq	15(%r14), %rax
	shrq	%rax
	andq	%r8, %rax
	leaq	.Lluossavin_x86_64_v3.static.4(%rip), %rcx
	vmovdqu	(%r15), %ymm0
	vmovdqu	32(%r15), %ymm1
	vmovdqu	64(%r15), %ymm2
	vmovdqu	96(%r15), %ymm3
	vmovdqu	%ymm3, 752(%rsp)
	vmovdqu	%ymm2, 720(%rsp)
	vmovdqu	%ymm1, 688(%rsp)
	vmovdqu	%ymm0, 656(%rsp)
	movq	(%rax,%rcx), %rax
	andq	%rdx, %rsi
	movq	%rsi, 56(%rsp)
	movq	%rax, 16(%rsp)
	andq	$-4, %rax
	movq	%rax, 32(%rsp)
	leaq	12(,%r14,4), %rbx
	andq	$-32, %rbx
	andq	$-4, %rdx
	negq	%rdx
	movq	%rdx, 104(%rsp)
	movb	$3, %al
	movb	$1, %cl
	xorl	%r9d, %r9d
	movq	%r14, 112(%rsp)
	movq	%r11, 48(%rsp)
	movq	%rbx, 40(%rsp)
	jmp	.Lluossavin_x86_64_v3.BB12_9
	.p2align	4
.Lluossavin_x86_64_v3.BB12_30:
	incq	%r9
	movzbl	15(%rsp), %eax
	incb	%al
	movzbl	14(%rsp), %ecx
	incb	%cl
	cmpq	$32, %r9
	je	.Lluossavin_x86_64_v3.BB12_31
.Lluossavin_x86_64_v3.BB12_9:
	movb	%al, 15(%rsp)
	movzbl	%al, %eax
	andl	$3, %eax
	shll	$8, %eax
	movb	%cl, 14(%rsp)
	movzbl	%cl, %ecx
	andl	$3, %ecx
	shll	$8, %ecx
	movl	%r9d, %edx
	shll	$6, %edx
	movzbl	%dl, %esi
	xorq	$128, %rsi
	movq	%r9, 120(%rsp)
	movl	656(%rsp,%r9,4), %edx
	cmpq	$5, %r14
	jae	.Lluossavin_x86_64_v3.BB12_11
	xorl	%r9d, %r9d
	jmp	.Lluossavin_x86_64_v3.BB12_14
	.p2align	4
.Lluossavin_x86_64_v3.BB12_11:
	leaq	(%rsp,%rax), %rdi
	addq	$792, %rdi
	leaq	792(%rsp,%rcx), %r8
	vmovd	%edx, %xmm0
	vpbroadcastd	%xmm0, %ymm0
	leaq	(%rsp,%rsi,4), %r9
	addq	$792, %r9
	xorl	%r10d, %r10d
	.p2align	4
.Lluossavin_x86_64_v3.BB12_12:
	vpxor	(%r8,%r10), %ymm0, %ymm1
	vpxor	(%r9,%r10), %ymm1, %ymm1
	vpxor	(%rdi,%r10), %ymm1, %ymm1
	vmovdqu	%ymm1, 1816(%rsp,%r10)
	addq	$32, %r10
	cmpq	%r10, %rbx
	jne	.Lluossavin_x86_64_v3.BB12_12
	movq	56(%rsp), %rdi
	movq	%rdi, %r9
	cmpq	%rdi, %r11
	je	.Lluossavin_x86_64_v3.BB12_16
.Lluossavin_x86_64_v3.BB12_14:
	movq	104(%rsp), %rdi
	addq	%r9, %rdi
	leaq	(%rsp,%r9,4), %r8
	addq	$792, %r8
	addq	%r9, %rsi
	leaq	(%rsp,%rsi,4), %rsi
	addq	$792, %rsi
	.p2align	4
.Lluossavin_x86_64_v3.BB12_15:
	movl	(%r8,%rcx), %r9d
	xorl	(%rsi), %r9d
	xorl	(%r8,%rax), %r9d
	xorl	%edx, %r9d
	movl	%r9d, 1024(%r8)
	addq	$4, %r8
	addq	$4, %rsi
	incq	%rdi
	jne	.Lluossavin_x86_64_v3.BB12_15
.Lluossavin_x86_64_v3.BB12_16:
	cmpq	$0, 16(%rsp)
	je	.Lluossavin_x86_64_v3.BB12_24
	cmpq	$4, 16(%rsp)
	jae	.Lluossavin_x86_64_v3.BB12_19
	xorl	%ecx, %ecx
	jmp	.Lluossavin_x86_64_v3.BB12_22
	.p2align	4
.Lluossavin_x86_64_v3.BB12_19:
	movq	32(%rsp), %r9
	leaq	2072(%rsp), %r11
	.p2align	4
.Lluossavin_x86_64_v3.BB12_20:
	vmovq	-64(%r11), %xmm0
	vmovq	-128(%r11), %xmm1
	vpunpcklqdq	%xmm0, %xmm1, %xmm0
	vmovq	-192(%r11), %xmm1
	vmovq	-256(%r11), %xmm2
	vpunpcklqdq	%xmm1, %xmm2, %xmm1
	vinserti128	$1, %xmm0, %ymm1, %ymm0
	vmovq	-56(%r11), %xmm1
	vmovq	-120(%r11), %xmm2
	vpunpcklqdq	%xmm1, %xmm2, %xmm1
	vmovq	-184(%r11), %xmm2
	vmovq	-248(%r11), %xmm3
	vpunpcklqdq	%xmm2, %xmm3, %xmm2
	vinserti128	$1, %xmm1, %ymm2, %ymm1
	vmovq	-48(%r11), %xmm2
	vmovq	-112(%r11), %xmm3
	vpunpcklqdq	%xmm2, %xmm3, %xmm2
	vmovq	-176(%r11), %xmm3
	vmovq	-240(%r11), %xmm4
	vpunpcklqdq	%xmm3, %xmm4, %xmm3
	vinserti128	$1, %xmm2, %ymm3, %ymm2
	vmovq	-40(%r11), %xmm3
	vmovq	-104(%r11), %xmm4
	vpunpcklqdq	%xmm3, %xmm4, %xmm3
	vmovq	-168(%r11), %xmm4
	vmovq	-232(%r11), %xmm5
	vpunpcklqdq	%xmm4, %xmm5, %xmm4
	vinserti128	$1, %xmm3, %ymm4, %ymm3
	vmovq	-32(%r11), %xmm4
	vmovq	-96(%r11), %xmm5
	vpunpcklqdq	%xmm4, %xmm5, %xmm4
	vmovq	-160(%r11), %xmm5
	vmovq	-224(%r11), %xmm6
	vpunpcklqdq	%xmm5, %xmm6, %xmm5
	vinserti128	$1, %xmm4, %ymm5, %ymm4
	vmovq	-24(%r11), %xmm5
	vmovq	-88(%r11), %xmm6
	vpunpcklqdq	%xmm5, %xmm6, %xmm5
	vmovq	-152(%r11), %xmm6
	vmovq	-216(%r11), %xmm7
	vpunpcklqdq	%xmm6, %xmm7, %xmm6
	vinserti128	$1, %xmm5, %ymm6, %ymm5
	vmovq	-16(%r11), %xmm6
	vmovq	-80(%r11), %xmm7
	vpunpcklqdq	%xmm6, %xmm7, %xmm6
	vmovq	-144(%r11), %xmm7
	vmovq	-208(%r11), %xmm8
	vpunpcklqdq	%xmm7, %xmm8, %xmm7
	vinserti128	$1, %xmm6, %ymm7, %ymm6
	vmovq	-8(%r11), %xmm7
	vmovq	-72(%r11), %xmm8
	vpunpcklqdq	%xmm7, %xmm8, %xmm7
	vmovq	-136(%r11), %xmm8
	vmovq	-200(%r11), %xmm9
	vpunpcklqdq	%xmm8, %xmm9, %xmm8
	vinserti128	$1, %xmm7, %ymm8, %ymm7
	vpsrlq	$1, %ymm0, %ymm8
	vpxor	%ymm1, %ymm8, %ymm8
	vpbroadcastq	.Lluossavin_x86_64_v3.CPI12_5(%rip), %ymm10
	vmovdqu	%ymm10, 336(%rsp)
	vpand	%ymm10, %ymm8, %ymm8
	vpaddq	%ymm8, %ymm8, %ymm9
	vpxor	%ymm0, %ymm9, %ymm0
	vpxor	%ymm1, %ymm8, %ymm1
	vpsrlq	$1, %ymm2, %ymm8
	vpxor	%ymm3, %ymm8, %ymm8
	vpand	%ymm10, %ymm8, %ymm8
	vpaddq	%ymm8, %ymm8, %ymm9
	vpxor	%ymm2, %ymm9, %ymm2
	vpxor	%ymm3, %ymm8, %ymm3
	vpsrlq	$1, %ymm4, %ymm8
	vpxor	%ymm5, %ymm8, %ymm8
	vpand	%ymm10, %ymm8, %ymm8
	vpaddq	%ymm8, %ymm8, %ymm9
	vpxor	%ymm4, %ymm9, %ymm4
	vpxor	%ymm5, %ymm8, %ymm5
	vpsrlq	$1, %ymm6, %ymm8
	vpxor	%ymm7, %ymm8, %ymm8
	vpand	%ymm10, %ymm8, %ymm8
	vpaddq	%ymm8, %ymm8, %ymm9
	vpxor	%ymm6, %ymm9, %ymm6
	vpxor	%ymm7, %ymm8, %ymm7
	vpsrlq	$2, %ymm0, %ymm8
	vpxor	%ymm2, %ymm8, %ymm8
	vpbroadcastq	.Lluossavin_x86_64_v3.CPI12_6(%rip), %ymm10
	vmovdqu	%ymm10, 144(%rsp)
	vpand	%ymm10, %ymm8, %ymm8
	vpsllq	$2, %ymm8, %ymm9
	vpxor	%ymm0, %ymm9, %ymm9
	vpxor	%ymm2, %ymm8, %ymm0
	vpsrlq	$2, %ymm1, %ymm2
	vpxor	%ymm2, %ymm3, %ymm2
	vpand	%ymm2, %ymm10, %ymm2
	vpsllq	$2, %ymm2, %ymm8
	vpxor	%ymm1, %ymm8, %ymm1
	vpxor	%ymm3, %ymm2, %ymm2
	vpsrlq	$2, %ymm4, %ymm3
	vpxor	%ymm3, %ymm6, %ymm3
	vpand	%ymm3, %ymm10, %ymm3
	vpsllq	$2, %ymm3, %ymm8
	vpxor	%ymm4, %ymm8, %ymm8
	vpxor	%ymm6, %ymm3, %ymm6
	vpsrlq	$2, %ymm5, %ymm3
	vpxor	%ymm3, %ymm7, %ymm3
	vpand	%ymm3, %ymm10, %ymm3
	vpsllq	$2, %ymm3, %ymm4
	vpxor	%ymm5, %ymm4, %ymm5
	vpxor	%ymm7, %ymm3, %ymm11
	vpsrlq	$4, %ymm9, %ymm3
	vpxor	%ymm3, %ymm8, %ymm3
	vpbroadcastq	.Lluossavin_x86_64_v3.CPI12_7(%rip), %ymm10
	vmovdqu	%ymm10, 432(%rsp)
	vpand	%ymm3, %ymm10, %ymm3
	vpsllq	$4, %ymm3, %ymm4
	vpxor	%ymm4, %ymm9, %ymm12
	vpxor	%ymm3, %ymm8, %ymm8
	vpsrlq	$4, %ymm1, %ymm3
	vpxor	%ymm3, %ymm5, %ymm3
	vpand	%ymm3, %ymm10, %ymm9
	vpsllq	$4, %ymm9, %ymm3
	vpxor	%ymm1, %ymm3, %ymm3
	vpxor	%ymm5, %ymm9, %ymm9
	vpsrlq	$4, %ymm0, %ymm1
	vpxor	%ymm1, %ymm6, %ymm1
	vpand	%ymm1, %ymm10, %ymm5
	vpsllq	$4, %ymm5, %ymm1
	vpxor	%ymm0, %ymm1, %ymm7
	vpxor	%ymm6, %ymm5, %ymm14
	vmovdqu	%ymm14, 240(%rsp)
	vpsrlq	$4, %ymm2, %ymm0
	vpxor	%ymm0, %ymm11, %ymm0
	vpand	%ymm0, %ymm10, %ymm0
	vpsllq	$4, %ymm0, %ymm5
	vpxor	%ymm2, %ymm5, %ymm2
	vpxor	%ymm0, %ymm11, %ymm13
	vpxor	%ymm2, %ymm9, %ymm4
	vpxor	%ymm13, %ymm8, %ymm10
	vmovdqu	%ymm12, 208(%rsp)
	vpxor	%ymm12, %ymm10, %ymm11
	vmovdqa	%ymm3, %ymm0
	vpxor	%ymm3, %ymm9, %ymm6
	vpxor	%ymm2, %ymm11, %ymm1
	vmovdqu	%ymm1, 64(%rsp)
	vmovdqu	%ymm11, 464(%rsp)
	vpxor	%ymm7, %ymm8, %ymm8
	vpxor	%ymm9, %ymm10, %ymm3
	vmovdqu	%ymm3, 176(%rsp)
	vpxor	%ymm6, %ymm10, %ymm9
	vmovdqu	%ymm9, 592(%rsp)
	vpxor	%ymm2, %ymm0, %ymm2
	vpxor	%ymm2, %ymm8, %ymm2
	vmovdqu	%ymm2, 624(%rsp)
	vpxor	%ymm4, %ymm12, %ymm15
	vpxor	%ymm7, %ymm14, %ymm3
	vpxor	%ymm3, %ymm15, %ymm10
	vmovdqu	%ymm10, 368(%rsp)
	vpxor	%ymm13, %ymm15, %ymm14
	vmovdqu	%ymm14, 400(%rsp)
	vpand	%ymm2, %ymm9, %ymm12
	vpand	%ymm10, %ymm14, %ymm9
	vpxor	%ymm12, %ymm9, %ymm5
	vpxor	%ymm0, %ymm3, %ymm2
	vmovdqa	%ymm0, %ymm10
	vpxor	%ymm7, %ymm11, %ymm1
	vmovdqu	64(%rsp), %ymm9
	vpxor	%ymm2, %ymm9, %ymm11
	vmovdqu	%ymm2, 272(%rsp)
	vmovdqu	%ymm11, 528(%rsp)
	vpxor	%ymm6, %ymm1, %ymm0
	vmovdqu	%ymm1, 304(%rsp)
	vmovdqu	%ymm0, 560(%rsp)
	vpand	%ymm0, %ymm11, %ymm14
	vpxor	%ymm12, %ymm14, %ymm14
	vpxor	%ymm4, %ymm13, %ymm13
	vpxor	%ymm7, %ymm13, %ymm0
	vpandn	%ymm3, %ymm13, %ymm12
	vmovdqa	%ymm3, %ymm7
	vpxor	%ymm0, %ymm12, %ymm0
	vpandn	%ymm2, %ymm1, %ymm11
	vpxor	%ymm0, %ymm11, %ymm1
	vpxor	240(%rsp), %ymm4, %ymm11
	vpxor	%ymm12, %ymm11, %ymm11
	vpxor	%ymm8, %ymm15, %ymm0
	vmovdqu	%ymm0, 240(%rsp)
	vpand	%ymm0, %ymm10, %ymm8
	vpxor	%ymm8, %ymm11, %ymm11
	vpandn	%ymm9, %ymm6, %ymm8
	vmovdqu	208(%rsp), %ymm3
	vpand	%ymm4, %ymm3, %ymm12
	vpxor	%ymm8, %ymm12, %ymm8
	vpxor	%ymm5, %ymm1, %ymm1
	vpxor	%ymm5, %ymm8, %ymm2
	vpandn	%ymm4, %ymm3, %ymm0
	vpxor	%ymm0, %ymm10, %ymm0
	vmovdqa	%ymm10, %ymm4
	vpxor	%ymm3, %ymm6, %ymm5
	vmovdqu	%ymm5, 496(%rsp)
	vpand	176(%rsp), %ymm5, %ymm12
	vpxor	%ymm0, %ymm12, %ymm0
	vpxor	464(%rsp), %ymm0, %ymm0
	vpxor	%ymm14, %ymm11, %ymm11
	vpxor	%ymm0, %ymm14, %ymm12
	vpcmpeqd	%ymm0, %ymm0, %ymm0
	vpxor	%ymm0, %ymm2, %ymm14
	vpandn	%ymm1, %ymm2, %ymm0
	vpxor	%ymm1, %ymm11, %ymm1
	vpxor	%ymm0, %ymm12, %ymm2
	vpand	%ymm1, %ymm2, %ymm5
	vpxor	%ymm5, %ymm11, %ymm5
	vpxor	%ymm0, %ymm11, %ymm11
	vpxor	%ymm14, %ymm12, %ymm8
	vpand	%ymm8, %ymm11, %ymm8
	vpxor	%ymm0, %ymm8, %ymm11
	vpxor	%ymm12, %ymm8, %ymm0
	vpand	%ymm12, %ymm11, %ymm8
	vpxor	%ymm14, %ymm8, %ymm12
	vpxor	%ymm2, %ymm8, %ymm2
	vpand	%ymm5, %ymm2, %ymm2
	vpxor	%ymm1, %ymm2, %ymm8
	vpxor	%ymm5, %ymm8, %ymm1
	vpand	%ymm1, %ymm15, %ymm11
	vpandn	%ymm1, %ymm3, %ymm9
	vpand	%ymm7, %ymm12, %ymm14
	vpandn	%ymm12, %ymm13, %ymm15
	vpxor	%ymm0, %ymm12, %ymm3
	vpand	272(%rsp), %ymm3, %ymm1
	vmovdqu	%ymm1, 272(%rsp)
	vmovdqu	304(%rsp), %ymm1
	vpandn	%ymm3, %ymm1, %ymm10
	vpxor	%ymm3, %ymm8, %ymm7
	vpand	64(%rsp), %ymm8, %ymm12
	vpandn	%ymm8, %ymm6, %ymm1
	vmovdqu	%ymm1, 304(%rsp)
	vpand	%ymm4, %ymm0, %ymm1
	vmovdqu	%ymm1, 64(%rsp)
	vpand	240(%rsp), %ymm0, %ymm13
	vpxor	%ymm0, %ymm5, %ymm4
	vpand	176(%rsp), %ymm5, %ymm8
	vpand	496(%rsp), %ymm5, %ymm6
	vpand	592(%rsp), %ymm4, %ymm2
	vpand	624(%rsp), %ymm4, %ymm3
	vpxor	%ymm4, %ymm7, %ymm4
	vpand	368(%rsp), %ymm4, %ymm0
	vpand	400(%rsp), %ymm4, %ymm4
	vpand	528(%rsp), %ymm7, %ymm5
	vpand	560(%rsp), %ymm7, %ymm1
	vpxor	%ymm14, %ymm11, %ymm7
	vpxor	%ymm2, %ymm11, %ymm2
	vpxor	%ymm5, %ymm8, %ymm11
	vpxor	%ymm10, %ymm11, %ymm10
	vpxor	272(%rsp), %ymm7, %ymm14
	vpxor	%ymm2, %ymm10, %ymm8
	vpxor	%ymm0, %ymm10, %ymm2
	vpxor	%ymm0, %ymm12, %ymm0
	vpxor	%ymm12, %ymm14, %ymm10
	vpxor	%ymm2, %ymm14, %ymm12
	vpxor	%ymm1, %ymm13, %ymm2
	vpxor	%ymm6, %ymm3, %ymm6
	vpxor	%ymm1, %ymm6, %ymm1
	vpxor	304(%rsp), %ymm15, %ymm6
	vpxor	%ymm6, %ymm9, %ymm6
	vpxor	%ymm1, %ymm9, %ymm1
	vpxor	%ymm4, %ymm2, %ymm9
	vpxor	%ymm1, %ymm10, %ymm2
	vpxor	%ymm6, %ymm9, %ymm1
	vpxor	%ymm1, %ymm10, %ymm1
	vpxor	64(%rsp), %ymm5, %ymm5
	vpxor	%ymm7, %ymm5, %ymm5
	vpxor	%ymm0, %ymm11, %ymm7
	vpxor	%ymm0, %ymm5, %ymm0
	vpxor	%ymm3, %ymm15, %ymm3
	vpxor	%ymm4, %ymm3, %ymm3
	vpcmpeqd	%ymm4, %ymm4, %ymm4
	vpxor	%ymm4, %ymm0, %ymm0
	vpxor	%ymm4, %ymm3, %ymm3
	vpxor	%ymm3, %ymm12, %ymm3
	vpxor	%ymm4, %ymm6, %ymm4
	vpcmpeqd	%ymm6, %ymm6, %ymm6
	vpxor	%ymm4, %ymm12, %ymm5
	vpxor	%ymm4, %ymm8, %ymm4
	vpxor	%ymm6, %ymm9, %ymm6
	vpxor	%ymm6, %ymm8, %ymm6
	vpsrlq	$1, %ymm6, %ymm8
	vpxor	%ymm5, %ymm8, %ymm8
	vmovdqu	336(%rsp), %ymm10
	vpand	%ymm10, %ymm8, %ymm8
	vpaddq	%ymm8, %ymm8, %ymm9
	vpxor	%ymm6, %ymm9, %ymm6
	vpxor	%ymm5, %ymm8, %ymm5
	vpsrlq	$1, %ymm1, %ymm8
	vpxor	%ymm7, %ymm8, %ymm8
	vpand	%ymm10, %ymm8, %ymm8
	vpaddq	%ymm8, %ymm8, %ymm9
	vpxor	%ymm1, %ymm9, %ymm9
	vpxor	%ymm7, %ymm8, %ymm7
	vpsrlq	$1, %ymm4, %ymm1
	vpxor	%ymm2, %ymm1, %ymm1
	vpand	%ymm1, %ymm10, %ymm1
	vpaddq	%ymm1, %ymm1, %ymm8
	vpxor	%ymm4, %ymm8, %ymm4
	vpxor	%ymm2, %ymm1, %ymm8
	vpsrlq	$1, %ymm3, %ymm1
	vpxor	%ymm0, %ymm1, %ymm1
	vpand	%ymm1, %ymm10, %ymm1
	vpaddq	%ymm1, %ymm1, %ymm2
	vpxor	%ymm3, %ymm2, %ymm3
	vpxor	%ymm0, %ymm1, %ymm10
	vpsrlq	$2, %ymm6, %ymm0
	vpxor	%ymm0, %ymm9, %ymm0
	vmovdqu	144(%rsp), %ymm11
	vpand	%ymm0, %ymm11, %ymm0
	vpsllq	$2, %ymm0, %ymm1
	vpxor	%ymm6, %ymm1, %ymm1
	vpxor	%ymm0, %ymm9, %ymm0
	vpsrlq	$2, %ymm5, %ymm2
	vpxor	%ymm7, %ymm2, %ymm2
	vpand	%ymm2, %ymm11, %ymm2
	vpsllq	$2, %ymm2, %ymm6
	vpxor	%ymm5, %ymm6, %ymm5
	vpxor	%ymm7, %ymm2, %ymm2
	vpsrlq	$2, %ymm4, %ymm6
	vpxor	%ymm6, %ymm3, %ymm6
	vpand	%ymm6, %ymm11, %ymm6
	vpsllq	$2, %ymm6, %ymm7
	vpxor	%ymm4, %ymm7, %ymm4
	vpxor	%ymm3, %ymm6, %ymm3
	vpsrlq	$2, %ymm8, %ymm6
	vpxor	%ymm6, %ymm10, %ymm6
	vpand	%ymm6, %ymm11, %ymm6
	vpsllq	$2, %ymm6, %ymm7
	vpxor	%ymm7, %ymm8, %ymm7
	vpxor	%ymm6, %ymm10, %ymm6
	vpsrlq	$4, %ymm1, %ymm8
	vpxor	%ymm4, %ymm8, %ymm8
	vmovdqu	432(%rsp), %ymm12
	vpand	%ymm12, %ymm8, %ymm8
	vpsrlq	$4, %ymm5, %ymm9
	vpxor	%ymm7, %ymm9, %ymm9
	vpand	%ymm12, %ymm9, %ymm9
	vpsrlq	$4, %ymm0, %ymm10
	vpxor	%ymm3, %ymm10, %ymm10
	vpand	%ymm12, %ymm10, %ymm10
	vpsrlq	$4, %ymm2, %ymm11
	vpxor	%ymm6, %ymm11, %ymm11
	vpand	%ymm12, %ymm11, %ymm11
	vpsllq	$4, %ymm9, %ymm12
	vpxor	%ymm5, %ymm12, %ymm5
	vpsllq	$4, %ymm8, %ymm12
	vpxor	%ymm1, %ymm12, %ymm1
	vpsllq	$4, %ymm10, %ymm12
	vpxor	%ymm0, %ymm12, %ymm0
	vpsllq	$4, %ymm11, %ymm12
	vpxor	%ymm2, %ymm12, %ymm2
	vpxor	%ymm4, %ymm8, %ymm4
	vpxor	%ymm7, %ymm9, %ymm7
	vpxor	%ymm3, %ymm10, %ymm3
	vpxor	%ymm6, %ymm11, %ymm6
	vinserti128	$1, %xmm0, %ymm1, %ymm8
	vinserti128	$1, %xmm2, %ymm5, %ymm9
	vpunpcklqdq	%ymm9, %ymm8, %ymm10
	vpunpckhqdq	%ymm9, %ymm8, %ymm8
	vpunpcklqdq	%ymm5, %ymm1, %ymm9
	vpunpcklqdq	%ymm2, %ymm0, %ymm11
	vperm2i128	$49, %ymm11, %ymm9, %ymm9
	vpunpckhqdq	%ymm5, %ymm1, %ymm1
	vpunpckhqdq	%ymm2, %ymm0, %ymm0
	vperm2i128	$49, %ymm0, %ymm1, %ymm0
	vinserti128	$1, %xmm6, %ymm7, %ymm1
	vinserti128	$1, %xmm3, %ymm4, %ymm2
	vpunpcklqdq	%ymm1, %ymm2, %ymm5
	vpunpckhqdq	%ymm1, %ymm2, %ymm1
	vpunpcklqdq	%ymm7, %ymm4, %ymm2
	vpunpcklqdq	%ymm6, %ymm3, %ymm11
	vperm2i128	$49, %ymm11, %ymm2, %ymm2
	vpunpckhqdq	%ymm7, %ymm4, %ymm4
	vpunpckhqdq	%ymm6, %ymm3, %ymm3
	vperm2i128	$49, %ymm3, %ymm4, %ymm3
	vmovdqu	%ymm3, 224(%r11)
	vmovdqu	%ymm2, 160(%r11)
	vmovdqu	%ymm1, 96(%r11)
	vmovdqu	%ymm5, 32(%r11)
	vmovdqu	%ymm0, 192(%r11)
	vmovdqu	%ymm9, 128(%r11)
	vmovdqu	%ymm8, 64(%r11)
	vmovdqu	%ymm10, (%r11)
	addq	$256, %r11
	addq	$-4, %r9
	jne	.Lluossavin_x86_64_v3.BB12_20
	movq	32(%rsp), %rax
	movq	%rax, %rcx
	cmpq	%rax, 16(%rsp)
	je	.Lluossavin_x86_64_v3.BB12_24
.Lluossavin_x86_64_v3.BB12_22:
	movq	16(%rsp), %rdx
	subq	%rcx, %rdx
	shlq	$6, %rcx
	leaq	1816(%rsp), %rax
	addq	%rax, %rcx
	.p2align	4
.Lluossavin_x86_64_v3.BB12_23:
	movq	%rdx, 592(%rsp)
	movq	%rcx, 624(%rsp)
	movq	(%rcx), %rsi
	movq	8(%rcx), %rdi
	movq	16(%rcx), %rbx
	movq	24(%rcx), %r14
	movq	32(%rcx), %r11
	movq	40(%rcx), %r9
	movq	48(%rcx), %r8
	movq	56(%rcx), %rdx
	movq	%rsi, %rcx
	shrq	%rcx
	xorq	%rdi, %rcx
	andq	%r12, %rcx
	leaq	(%rcx,%rcx), %rax
	xorq	%rsi, %rax
	xorq	%rdi, %rcx
	movq	%rbx, %rdi
	shrq	%rdi
	xorq	%r14, %rdi
	andq	%r12, %rdi
	leaq	(%rdi,%rdi), %r10
	xorq	%rbx, %r10
	xorq	%r14, %rdi
	movq	%r11, %rsi
	shrq	%rsi
	xorq	%r9, %rsi
	andq	%r12, %rsi
	leaq	(%rsi,%rsi), %rbx
	xorq	%r11, %rbx
	xorq	%r9, %rsi
	movq	%r8, %r9
	shrq	%r9
	xorq	%rdx, %r9
	andq	%r12, %r9
	leaq	(%r9,%r9), %r14
	xorq	%r8, %r14
	xorq	%rdx, %r9
	movq	%rax, %rdx
	shrq	$2, %rdx
	xorq	%r10, %rdx
	movabsq	$3689348814741910323, %r12
	andq	%r12, %rdx
	leaq	(,%rdx,4), %r11
	xorq	%rax, %r11
	xorq	%r10, %rdx
	movq	%rcx, %rax
	shrq	$2, %rax
	xorq	%rdi, %rax
	andq	%r12, %rax
	leaq	(,%rax,4), %r10
	xorq	%rcx, %r10
	xorq	%rdi, %rax
	movq	%rbx, %r8
	shrq	$2, %r8
	xorq	%r14, %r8
	andq	%r12, %r8
	leaq	(,%r8,4), %r15
	xorq	%rbx, %r15
	xorq	%r14, %r8
	movq	%rsi, %rdi
	shrq	$2, %rdi
	xorq	%r9, %rdi
	andq	%r12, %rdi
	leaq	(,%rdi,4), %rbx
	xorq	%rsi, %rbx
	xorq	%r9, %rdi
	movq	%r11, %rcx
	shrq	$4, %rcx
	xorq	%r15, %rcx
	movabsq	$1085102592571150095, %r12
	andq	%r12, %rcx
	movq	%rcx, %r14
	shlq	$4, %r14
	xorq	%r11, %r14
	xorq	%r15, %rcx
	movq	%r10, %rsi
	shrq	$4, %rsi
	xorq	%rbx, %rsi
	andq	%r12, %rsi
	movq	%rsi, %r9
	shlq	$4, %r9
	xorq	%r10, %r9
	movq	%r9, %r10
	xorq	%rbx, %rsi
	movq	%rdx, %r13
	shrq	$4, %r13
	xorq	%r8, %r13
	andq	%r12, %r13
	movq	%r13, %r9
	shlq	$4, %r9
	xorq	%rdx, %r9
	xorq	%r8, %r13
	movq	%rax, %rbx
	shrq	$4, %rbx
	xorq	%rdi, %rbx
	movabsq	$1085102592571150095, %rdx
	andq	%rdx, %rbx
	movq	%rbx, %r11
	shlq	$4, %r11
	xorq	%rax, %r11
	xorq	%rdi, %rbx
	movq	%rcx, %rax
	xorq	%rbx, %rax
	movq	%rax, %r15
	movq	%r10, %rdx
	xorq	%rsi, %rdx
	movq	%rdx, %r12
	movq	%rdx, 368(%rsp)
	movq	%rax, 64(%rsp)
	xorq	%rsi, %rax
	movq	%rax, %rdi
	movq	%rax, 176(%rsp)
	movq	%rsi, %rax
	xorq	%r11, %rax
	xorq	%r14, %r15
	movq	%r14, %rsi
	movq	%r14, %r8
	xorq	%rax, %rsi
	movq	%r15, %rdx
	xorq	%r11, %rdx
	movq	%rdx, %r14
	movq	%rdx, 336(%rsp)
	xorq	%r9, %rcx
	movq	%rsi, %rdx
	xorq	%rcx, %rdx
	movq	%rdx, 144(%rsp)
	xorq	%r10, %r11
	xorq	%rcx, %r11
	movq	%r11, 432(%rsp)
	movq	%r12, %rcx
	movq	%r8, 464(%rsp)
	xorq	%r8, %rcx
	movq	%rcx, 560(%rsp)
	movq	%rdi, %rdx
	andq	%rcx, %rdx
	andnq	%rax, %r8, %rcx
	movq	%r10, 400(%rsp)
	xorq	%r10, %rcx
	xorq	%rdx, %rcx
	xorq	%r15, %rcx
	movq	%r9, %r12
	xorq	%r13, %r12
	movq	%rax, %r8
	xorq	%rbx, %r8
	movq	%r12, %rbp
	xorq	%r10, %rbp
	xorq	%r9, %r15
	movq	%rsi, %rdx
	movq	%rsi, 496(%rsp)
	movq	%rsi, %rdi
	xorq	%r12, %rdi
	movq	%rdi, 240(%rsp)
	movq	64(%rsp), %rsi
	movq	368(%rsp), %r10
	xorq	%r10, %rsi
	movq	%rsi, 64(%rsp)
	movq	%r14, %r11
	xorq	%rbp, %r11
	movq	%r11, 272(%rsp)
	movq	%r15, %r14
	xorq	%r10, %r14
	movq	%r14, 304(%rsp)
	xorq	%rdx, %rbx
	movq	%rbx, 528(%rsp)
	movq	%rsi, %rdx
	andq	432(%rsp), %rdx
	movq	%rbx, %rsi
	andq	%rdi, %rsi
	xorq	%rdx, %rsi
	movq	%r14, %r10
	andq	%r11, %r10
	xorq	%rdx, %r10
	movq	%r8, 208(%rsp)
	xorq	%r8, %r9
	andnq	%r12, %r8, %rdx
	movq	%r12, %r8
	xorq	%rdx, %r9
	andnq	%rbp, %r15, %r14
	movq	%r15, %r12
	xorq	%r14, %r9
	xorq	%rax, %r13
	xorq	%rdx, %r13
	movq	144(%rsp), %rdx
	andq	400(%rsp), %rdx
	xorq	%rdx, %r13
	movq	464(%rsp), %r15
	andq	%r15, %rax
	movq	368(%rsp), %rbx
	movq	336(%rsp), %rdi
	andnq	%rdi, %rbx, %rdx
	xorq	%rdx, %rax
	xorq	%rsi, %r9
	xorq	%rsi, %rax
	xorq	%r10, %r13
	xorq	%r10, %rcx
	andnq	%r9, %rax, %r10
	xorq	%r13, %r9
	notq	%rax
	movq	%r10, %r14
	xorq	%rcx, %r14
	movq	%r14, %r11
	andq	%r9, %r11
	xorq	%r13, %r11
	movq	%rcx, %rdx
	xorq	%rax, %rdx
	xorq	%r10, %r13
	andq	%rdx, %r13
	movq	%r13, %rdx
	xorq	%r10, %r13
	xorq	%rcx, %rdx
	andq	%rcx, %r13
	xorq	%r13, %rax
	xorq	%r14, %r13
	andq	%r11, %r13
	xorq	%r9, %r13
	andq	%rax, %r8
	movq	%r8, 128(%rsp)
	movq	208(%rsp), %rcx
	andnq	%rax, %rcx, %rcx
	movq	%rcx, 208(%rsp)
	xorq	%rdx, %rax
	movq	%r13, %r14
	xorq	%rax, %r14
	andq	%rax, %rbp
	movq	%rbp, 136(%rsp)
	andnq	%rax, %r12, %r10
	movq	%r11, %rsi
	xorq	%rdx, %rsi
	movq	400(%rsp), %r8
	andq	%rdx, %r8
	andq	144(%rsp), %rdx
	andq	%r13, %rdi
	movq	%rdi, 336(%rsp)
	andnq	%r13, %rbx, %r9
	xorq	%r11, %r13
	movq	496(%rsp), %rbx
	andq	%r13, %rbx
	andnq	%r13, %r15, %rax
	movq	%rax, 144(%rsp)
	movq	176(%rsp), %rdi
	andq	%r11, %rdi
	andq	560(%rsp), %r11
	movq	%r14, %r15
	xorq	%rsi, %r15
	movq	64(%rsp), %rbp
	andq	%rsi, %rbp
	andq	432(%rsp), %rsi
	movq	240(%rsp), %rcx
	andq	%r15, %rcx
	andq	528(%rsp), %r15
	movq	272(%rsp), %r13
	andq	%r14, %r13
	andq	304(%rsp), %r14
	movq	128(%rsp), %rax
	xorq	%rbx, %rax
	xorq	%rbx, %rbp
	xorq	%r13, %rdi
	movq	%rdi, 176(%rsp)
	xorq	%rdi, %r10
	movq	136(%rsp), %rbx
	xorq	%rax, %rbx
	movq	%rax, %rdi
	xorq	%r10, %rbp
	movq	%rbp, %r12
	xorq	%rcx, %r10
	xorq	%rbx, %r10
	movq	336(%rsp), %rax
	xorq	%rax, %rbx
	xorq	%rax, %rcx
	movq	%rcx, %rbp
	xorq	%r14, %rdx
	xorq	%rsi, %r11
	xorq	%r14, %r11
	movq	208(%rsp), %rax
	xorq	%rax, %r9
	movq	144(%rsp), %rcx
	xorq	%rcx, %r9
	xorq	%rcx, %r11
	xorq	%r8, %r13
	xorq	%rdi, %r13
	xorq	%rax, %rsi
	xorq	%r15, %rdx
	xorq	%r15, %rsi
	movq	%rdx, %rdi
	xorq	%r9, %rdi
	xorq	%r10, %rsi
	xorq	%r9, %r10
	movq	%r9, %r14
	xorq	%r12, %r14
	xorq	%r12, %rdx
	xorq	%rbp, %r13
	xorq	176(%rsp), %rbp
	xorq	%rbx, %r11
	xorq	%rbx, %rdi
	notq	%r13
	notq	%rsi
	notq	%r14
	notq	%r10
	notq	%rdx
	movq	%rdx, %rcx
	shrq	%rcx
	xorq	%r10, %rcx
	movabsq	$6148914691236517205, %rbx
	andq	%rbx, %rcx
	leaq	(%rcx,%rcx), %rax
	xorq	%r10, %rcx
	xorq	%rdx, %rax
	movq	%rdi, %r9
	shrq	%r9
	xorq	%rbp, %r9
	andq	%rbx, %r9
	leaq	(%r9,%r9), %r10
	xorq	%rbp, %r9
	xorq	%rdi, %r10
	movq	%r14, %rdi
	shrq	%rdi
	xorq	%r11, %rdi
	andq	%rbx, %rdi
	leaq	(%rdi,%rdi), %r8
	xorq	%r11, %rdi
	xorq	%r14, %r8
	movq	%rsi, %rdx
	shrq	%rdx
	xorq	%r13, %rdx
	movq	%rbx, %r12
	andq	%rbx, %rdx
	leaq	(%rdx,%rdx), %r14
	xorq	%r13, %rdx
	xorq	%rsi, %r14
	vmovq	%rax, %xmm0
	movq	%rax, %r11
	shrq	$2, %r11
	xorq	%r10, %r11
	vmovq	%r11, %xmm2
	vmovq	%rcx, %xmm1
	shrq	$2, %rcx
	xorq	%r9, %rcx
	vmovq	%rcx, %xmm6
	movq	624(%rsp), %rcx
	vmovq	%r10, %xmm4
	vmovq	%r9, %xmm5
	vmovq	%rdi, %xmm3
	shrq	$2, %rdi
	xorq	%rdx, %rdi
	vmovq	%rdi, %xmm7
	vmovq	%r8, %xmm8
	shrq	$2, %r8
	xorq	%r14, %r8
	vmovq	%r8, %xmm9
	vmovq	%rdx, %xmm10
	movq	592(%rsp), %rdx
	vmovq	%r14, %xmm11
	vpunpcklqdq	%xmm6, %xmm2, %xmm2
	vpbroadcastd	.Lluossavin_x86_64_v3.CPI12_11(%rip), %xmm6
	vpand	%xmm6, %xmm2, %xmm2
	vpsllq	$2, %xmm2, %xmm12
	vinserti128	$1, %xmm2, %ymm12, %ymm2
	vpunpcklqdq	%xmm1, %xmm0, %xmm0
	vpunpcklqdq	%xmm5, %xmm4, %xmm1
	vinserti128	$1, %xmm1, %ymm0, %ymm0
	vpxor	%ymm0, %ymm2, %ymm0
	vpunpcklqdq	%xmm7, %xmm9, %xmm1
	vpand	%xmm6, %xmm1, %xmm1
	vpsllq	$2, %xmm1, %xmm2
	vinserti128	$1, %xmm1, %ymm2, %ymm1
	vpunpcklqdq	%xmm3, %xmm8, %xmm2
	vpunpcklqdq	%xmm10, %xmm11, %xmm3
	vinserti128	$1, %xmm3, %ymm2, %ymm2
	vpxor	%ymm2, %ymm1, %ymm1
	vpsrlq	$4, %ymm0, %ymm2
	vpxor	%ymm2, %ymm1, %ymm2
	vpbroadcastq	.Lluossavin_x86_64_v3.CPI12_7(%rip), %ymm3
	vpand	%ymm3, %ymm2, %ymm2
	vpsllq	$4, %ymm2, %ymm3
	vpxor	%ymm0, %ymm3, %ymm0
	vmovdqu	%ymm0, 256(%rcx)
	vpxor	%ymm1, %ymm2, %ymm0
	vmovdqu	%ymm0, 288(%rcx)
	addq	$64, %rcx
	decq	%rdx
	jne	.Lluossavin_x86_64_v3.BB12_23
.Lluossavin_x86_64_v3.BB12_24:
	movq	120(%rsp), %r9
	movl	%r9d, %eax
	andl	$3, %eax
	shll	$8, %eax
	addq	%rsp, %rax
	addq	$792, %rax
	movq	112(%rsp), %r14
	xorl	%ecx, %ecx
	cmpq	$5, %r14
	jae	.Lluossavin_x86_64_v3.BB12_26
	movq	48(%rsp), %r11
	movq	40(%rsp), %rbx
	jmp	.Lluossavin_x86_64_v3.BB12_29
	.p2align	4
.Lluossavin_x86_64_v3.BB12_26:
	movq	48(%rsp), %r11
	movq	40(%rsp), %rbx
	.p2align	4
.Lluossavin_x86_64_v3.BB12_27:
	vmovdqu	2072(%rsp,%rcx), %ymm0
	vpsrld	$30, %ymm0, %ymm1
	vpslld	$2, %ymm0, %ymm2
	vpor	%ymm1, %ymm2, %ymm1
	vpsrld	$22, %ymm0, %ymm2
	vpslld	$10, %ymm0, %ymm3
	vpor	%ymm2, %ymm3, %ymm2
	vpxor	%ymm1, %ymm2, %ymm1
	vpsrld	$14, %ymm0, %ymm2
	vpslld	$18, %ymm0, %ymm3
	vpor	%ymm2, %ymm3, %ymm2
	vpshufb	.Lluossavin_x86_64_v3.CPI12_9(%rip), %ymm0, %ymm3
	vpxor	%ymm3, %ymm2, %ymm2
	vpxor	%ymm2, %ymm1, %ymm1
	vpxor	(%rax,%rcx), %ymm1, %ymm1
	vpxor	%ymm0, %ymm1, %ymm0
	vmovdqu	%ymm0, (%rax,%rcx)
	addq	$32, %rcx
	cmpq	%rcx, %rbx
	jne	.Lluossavin_x86_64_v3.BB12_27
	movq	56(%rsp), %rdx
	movq	%rdx, %rcx
	cmpq	%rdx, %r11
	je	.Lluossavin_x86_64_v3.BB12_30
	.p2align	4
.Lluossavin_x86_64_v3.BB12_29:
	movl	2072(%rsp,%rcx,4), %edx
	rorxl	$30, %edx, %esi
	rorxl	$22, %edx, %edi
	xorl	%esi, %edi
	rorxl	$14, %edx, %esi
	rorxl	$8, %edx, %r8d
	xorl	%esi, %r8d
	xorl	%edi, %r8d
	xorl	(%rax,%rcx,4), %r8d
	xorl	%edx, %r8d
	movl	%r8d, (%rax,%rcx,4)
	incq	%rcx
	cmpq	%rcx, %r11
	jne	.Lluossavin_x86_64_v3.BB12_29
	jmp	.Lluossavin_x86_64_v3.BB12_30
.Lluossavin_x86_64_v3.BB12_31:
	cmpq	$32, %r14
	jae	.Lluossavin_x86_64_v3.BB12_33
	xorl	%eax, %eax
	movq	24(%rsp), %r8
	jmp	.Lluossavin_x86_64_v3.BB12_41
.Lluossavin_x86_64_v3.BB12_33:
	leaq	-1(%r14), %rcx
	movq	%rcx, %rdx
	shlq	$4, %rdx
	movq	24(%rsp), %r8
	leaq	12(%r8), %rsi
	leaq	(%r8,%rdx), %rdi
	addq	$12, %rdi
	xorl	%eax, %eax
	cmpq	%rsi, %rdi
	jb	.Lluossavin_x86_64_v3.BB12_41
	leaq	8(%r8), %rsi
	leaq	(%r8,%rdx), %rdi
	addq	$8, %rdi
	cmpq	%rsi, %rdi
	jb	.Lluossavin_x86_64_v3.BB12_41
	leaq	(%r8,%rdx), %rsi
	cmpq	%r8, %rsi
	jb	.Lluossavin_x86_64_v3.BB12_41
	leaq	4(%r8), %rsi
	addq	%r8, %rdx
	addq	$4, %rdx
	cmpq	%rsi, %rdx
	jb	.Lluossavin_x86_64_v3.BB12_41
	shrq	$60, %rcx
	jne	.Lluossavin_x86_64_v3.BB12_41
	movabsq	$2305843009213693944, %rax
	andq	%r14, %rax
	leaq	(,%r14,4), %rcx
	andq	$-32, %rcx
	xorl	%edx, %edx
	.p2align	4
.Lluossavin_x86_64_v3.BB12_39:
	vmovdqu	1560(%rsp,%rdx), %ymm0
	vmovdqu	1304(%rsp,%rdx), %ymm1
	vmovdqu	1048(%rsp,%rdx), %ymm2
	vmovdqu	792(%rsp,%rdx), %ymm3
	vpunpckldq	%ymm3, %ymm2, %ymm4
	vpermq	$232, %ymm4, %ymm4
	vpunpckldq	%ymm1, %ymm0, %ymm5
	vpermq	$246, %ymm5, %ymm5
	vpblendd	$204, %ymm4, %ymm5, %ymm4
	vpunpckhdq	%ymm3, %ymm2, %ymm2
	vpermq	$232, %ymm2, %ymm2
	vpunpckhdq	%ymm1, %ymm0, %ymm0
	vpermq	$246, %ymm0, %ymm0
	vpblendd	$204, %ymm2, %ymm0, %ymm0
	vmovdqu	792(%rsp,%rdx), %xmm1
	vmovdqu	1048(%rsp,%rdx), %xmm2
	vmovdqu	1304(%rsp,%rdx), %xmm3
	vpunpckhdq	%xmm1, %xmm2, %xmm5
	vpermq	$96, %ymm5, %ymm5
	vmovdqu	1560(%rsp,%rdx), %xmm6
	vpunpckhdq	%xmm3, %xmm6, %xmm7
	vpermq	$212, %ymm7, %ymm7
	vpblendd	$204, %ymm5, %ymm7, %ymm5
	vpunpckldq	%xmm1, %xmm2, %xmm1
	vpermq	$96, %ymm1, %ymm1
	vpunpckldq	%xmm3, %xmm6, %xmm2
	vpermq	$212, %ymm2, %ymm2
	vpblendd	$204, %ymm1, %ymm2, %ymm1
	vbroadcasti128	.Lluossavin_x86_64_v3.CPI12_10(%rip), %ymm2
	vpshufb	%ymm2, %ymm1, %ymm1
	vpshufb	%ymm2, %ymm5, %ymm3
	vpshufb	%ymm2, %ymm0, %ymm0
	vpshufb	%ymm2, %ymm4, %ymm2
	vmovdqu	%ymm2, 64(%r8,%rdx,4)
	vmovdqu	%ymm0, 96(%r8,%rdx,4)
	vmovdqu	%ymm3, 32(%r8,%rdx,4)
	vmovdqu	%ymm1, (%r8,%rdx,4)
	addq	$32, %rdx
	cmpq	%rdx, %rcx
	jne	.Lluossavin_x86_64_v3.BB12_39
	cmpq	%rax, %r14
	je	.Lluossavin_x86_64_v3.BB12_46
.Lluossavin_x86_64_v3.BB12_41:
	movq	%rax, %rcx
	orq	$1, %rcx
	testb	$1, %r14b
	je	.Lluossavin_x86_64_v3.BB12_43
	vmovd	1560(%rsp,%rax,4), %xmm0
	vpinsrd	$1, 1304(%rsp,%rax,4), %xmm0, %xmm0
	vpinsrd	$2, 1048(%rsp,%rax,4), %xmm0, %xmm0
	vpinsrd	$3, 792(%rsp,%rax,4), %xmm0, %xmm0
	shlq	$4, %rax
	vpshufb	.Lluossavin_x86_64_v3.CPI12_10(%rip), %xmm0, %xmm0
	vmovdqu	%xmm0, (%r8,%rax)
	movq	%rcx, %rax
.Lluossavin_x86_64_v3.BB12_43:
	cmpq	%rcx, %r14
	je	.Lluossavin_x86_64_v3.BB12_46
	movq	%rax, %rcx
	shlq	$4, %rcx
	addq	%r8, %rcx
	addq	$16, %rcx
	.p2align	4
.Lluossavin_x86_64_v3.BB12_45:
	vmovd	1560(%rsp,%rax,4), %xmm0
	vpinsrd	$1, 1304(%rsp,%rax,4), %xmm0, %xmm0
	vpinsrd	$2, 1048(%rsp,%rax,4), %xmm0, %xmm0
	vpinsrd	$3, 792(%rsp,%rax,4), %xmm0, %xmm0
	vmovdqa	.Lluossavin_x86_64_v3.CPI12_10(%rip), %xmm1
	vpshufb	%xmm1, %xmm0, %xmm0
	vmovdqu	%xmm0, -16(%rcx)
	vmovd	1564(%rsp,%rax,4), %xmm0
	vpinsrd	$1, 1308(%rsp,%rax,4), %xmm0, %xmm0
	vpinsrd	$2, 1052(%rsp,%rax,4), %xmm0, %xmm0
	vpinsrd	$3, 796(%rsp,%rax,4), %xmm0, %xmm0
	vpshufb	%xmm1, %xmm0, %xmm0
	vmovdqu	%xmm0, (%rcx)
	addq	$2, %rax
	addq	$32, %rcx
	cmpq	%rax, %r14
	jne	.Lluossavin_x86_64_v3.BB12_45
.Lluossavin_x86_64_v3.BB12_46:
	addq	$2328, %rsp
	popq	%rbx
	popq	%r12
	popq	%r13
	popq	%r14
	popq	%r15
	popq	%rbp
.Lluossavin_x86_64_v3.BB12_47:
	vzeroupper
	retq
.Lluossavin_x86_64_v3.func_end12:
	.size	"sixteen::encrypt.x86_64_v3", .Lluossavin_x86_64_v3.func_end12-"sixteen::encrypt.x86_64_v3"

	.section	.rodata.cst32,"aM",@progbits,32
	.p2align	5, 0x0
.Lluossavin_x86_64_v3.CPI13_0:
	.long	0
	.long	0
	.long	0
	.long	0
	.long	1
	.long	1
	.long	1
	.long	1
.Lluossavin_x86_64_v3.CPI13_2:
	.byte	7
	.byte	6
	.byte	5
	.byte	4
	.byte	3
	.byte	2
	.byte	1
	.byte	0
	.byte	15
	.byte	14
	.byte	13
	.byte	12
	.byte	11
	.byte	10
	.byte	9
	.byte	8
	.byte	7
	.byte	6
	.byte	5
	.byte	4
	.byte	3
	.byte	2
	.byte	1
	.byte	0
	.byte	15
	.byte	14
	.byte	13
	.byte	12
	.byte	11
	.byte	10
	.byte	9
	.byte	8
	.section	.rodata.cst16,"aM",@progbits,16
	.p2align	4, 0x0
.Lluossavin_x86_64_v3.CPI13_1:
	.long	286331153
	.long	572662306
	.long	1145324612
	.long	2290649224
.Lluossavin_x86_64_v3.CPI13_4:
	.byte	7
	.byte	6
	.byte	5
	.byte	4
	.byte	3
	.byte	2
	.byte	1
	.byte	0
	.byte	15
	.byte	14
	.byte	13
	.byte	12
	.byte	11
	.byte	10
	.byte	9
	.byte	8
	.section	.rodata.cst8,"aM",@progbits,8
	.p2align	3, 0x0
.Lluossavin_x86_64_v3.CPI13_3:
	.quad	9223372036854775807
	.section	".text.ghash::Ghash::absorb_all.x86_64_v3","ax",@progbits
	.p2align	4
	.type	"ghash::Ghash::absorb_all.x86_64_v3",@function
"ghash::Ghash::absorb_all.x86_64_v3":
	pushq	%rbp
	pushq	%r15
	pushq	%r14
	pushq	%r13
	pushq	%r12
	pushq	%rbx
	subq	$1544, %rsp
	movq	%rdi, %rbx
	vmovups	(%rsi), %ymm0
	vmovups	%ymm0, 64(%rsp)
	vxorps	%xmm0, %xmm0, %xmm0
	vmovups	%ymm0, 384(%rsp)
	cmpq	$255, %rcx
	ja	.Lluossavin_x86_64_v3.BB13_2
	leaq	384(%rsp), %rdi
	leaq	64(%rsp), %rsi
	vzeroupper
	callq	"ghash::Ghash::absorb_each.x86_64_v3"
	jmp	.Lluossavin_x86_64_v3.BB13_19
.Lluossavin_x86_64_v3.BB13_2:
	movq	%rbx, 56(%rsp)
	movabsq	$4919131752989213764, %rax
	movabsq	$1229782938247303441, %rbp
	movq	64(%rsp), %r13
	movq	72(%rsp), %rbx
	movq	%r13, %rsi
	shrq	$32, %rsi
	movq	%rbx, %r14
	shrq	$32, %r14
	movl	%esi, %r9d
	andl	$286331153, %r9d
	movl	%esi, %edi
	andl	$572662306, %edi
	movl	%esi, %r8d
	andl	$1145324612, %r8d
	movq	%rsi, 24(%rsp)
	andl	$-2004318072, %esi
	imulq	%r9, %r9
	imulq	%r8, %r8
	xorq	%r9, %r8
	andq	%rbp, %r8
	imulq	%rdi, %rdi
	imulq	%rsi, %rsi
	xorq	%rdi, %rsi
	andq	%rax, %rsi
	orq	%r8, %rsi
	movl	%r13d, %r10d
	andl	$286331153, %r10d
	movl	%r13d, %edi
	andl	$572662306, %edi
	movl	%r13d, %r8d
	andl	$1145324612, %r8d
	movl	%r13d, %r9d
	andl	$-2004318072, %r9d
	imulq	%r10, %r10
	imulq	%r8, %r8
	xorq	%r10, %r8
	andq	%rbp, %r8
	imulq	%rdi, %rdi
	imulq	%r9, %r9
	xorq	%rdi, %r9
	andq	%rax, %r9
	orq	%r8, %r9
	movl	%r14d, %r8d
	andl	$286331153, %r8d
	movl	%r14d, %r11d
	andl	$572662306, %r11d
	movl	%r14d, %r10d
	andl	$1145324612, %r10d
	movq	%r14, 32(%rsp)
	movl	%r14d, %edi
	andl	$-2004318072, %edi
	imulq	%r8, %r8
	imulq	%r10, %r10
	xorq	%r8, %r10
	andq	%rbp, %r10
	imulq	%r11, %r11
	imulq	%rdi, %rdi
	xorq	%r11, %rdi
	andq	%rax, %rdi
	orq	%r10, %rdi
	movl	%ebx, %r10d
	andl	$286331153, %r10d
	movl	%ebx, %r14d
	andl	$572662306, %r14d
	movl	%ebx, %r11d
	andl	$1145324612, %r11d
	movq	%rbx, 40(%rsp)
	andl	$-2004318072, %ebx
	imulq	%r10, %r10
	imulq	%r11, %r11
	xorq	%r10, %r11
	andq	%rbp, %r11
	imulq	%r14, %r14
	imulq	%rbx, %rbx
	xorq	%r14, %rbx
	andq	%rax, %rbx
	orq	%r11, %rbx
	movq	%rbx, %r14
	movq	%rbx, %r12
	movq	%rdi, %r15
	shlq	$58, %r15
	leaq	(%rbx,%r9,2), %r11
	leaq	(%r15,%rbx,2), %r9
	shrq	%rbx
	shrq	$6, %r14
	xorq	%rbx, %r14
	leaq	(%rdi,%rdi), %rbx
	shlq	$63, %r10
	shlq	$58, %r12
	orq	%r10, %r12
	xorq	%r12, %rbx
	movq	%rbx, %r10
	shrq	$2, %r10
	movq	%rbx, %r15
	shrq	$7, %rbx
	xorq	%r10, %rbx
	shrq	%r15
	shlq	$63, %r8
	xorq	%rsi, %rdi
	addq	%rdi, %rdi
	xorq	%r15, %rdi
	xorq	%rbx, %rdi
	xorq	%rdi, %r12
	xorq	%r8, %r11
	xorq	%r14, %r11
	xorq	%r11, %r9
	shrq	$32, %r12
	movq	%r9, %r10
	shrq	$32, %r10
	movl	%r12d, %esi
	andl	$286331153, %esi
	movl	%r12d, %r8d
	andl	$572662306, %r8d
	movl	%r12d, %ebx
	andl	$1145324612, %ebx
	andl	$-2004318072, %r12d
	imulq	%rsi, %rsi
	imulq	%rbx, %rbx
	xorq	%rsi, %rbx
	andq	%rbp, %rbx
	imulq	%r8, %r8
	imulq	%r12, %r12
	xorq	%r8, %r12
	andq	%rax, %r12
	orq	%rbx, %r12
	movl	%edi, %esi
	andl	$286331153, %esi
	movl	%edi, %r8d
	andl	$572662306, %r8d
	movl	%edi, %ebx
	andl	$1145324612, %ebx
	andl	$-2004318072, %edi
	imulq	%rsi, %rsi
	imulq	%rbx, %rbx
	xorq	%rsi, %rbx
	andq	%rbp, %rbx
	imulq	%r8, %r8
	imulq	%rdi, %rdi
	xorq	%r8, %rdi
	andq	%rax, %rdi
	orq	%rbx, %rdi
	movl	%r10d, %r8d
	andl	$286331153, %r8d
	movl	%r10d, %esi
	andl	$572662306, %esi
	movl	%r10d, %ebx
	andl	$1145324612, %ebx
	andl	$-2004318072, %r10d
	imulq	%r8, %r8
	imulq	%rbx, %rbx
	xorq	%r8, %rbx
	andq	%rbp, %rbx
	imulq	%rsi, %rsi
	imulq	%r10, %r10
	xorq	%rsi, %r10
	andq	%rax, %r10
	orq	%rbx, %r10
	movl	%r11d, %r14d
	andl	$286331153, %r14d
	movl	%r9d, %esi
	andl	$572662306, %esi
	andl	$1145324612, %r11d
	andl	$-2004318072, %r9d
	imulq	%r14, %r14
	imulq	%r11, %r11
	xorq	%r14, %r11
	andq	%rbp, %r11
	imulq	%rsi, %rsi
	imulq	%r9, %r9
	xorq	%rsi, %r9
	andq	%rax, %r9
	orq	%r11, %r9
	leaq	(%r10,%r10), %rbx
	movq	%r9, %rsi
	xorq	%r10, %r12
	shlq	$58, %r10
	leaq	(%r9,%rdi,2), %rdi
	shldq	$63, %r9, %r8
	leaq	(%r10,%r9,2), %r11
	shrq	$6, %r9
	shlq	$63, %r14
	shlq	$58, %rsi
	orq	%r14, %rsi
	xorq	%rsi, %rbx
	movq	%rbx, %r10
	shrq	%r10
	movq	%rbx, %r14
	shrq	$2, %r14
	xorq	%r10, %r14
	shrq	$7, %rbx
	xorq	%r14, %rbx
	addq	%r12, %r12
	xorq	%rbx, %r12
	xorq	%r12, %rsi
	orq	%r9, %r8
	xorq	%rdi, %r8
	xorq	%r8, %r11
	shrq	$32, %rsi
	movq	%r11, %r10
	shrq	$32, %r10
	movl	%esi, %edi
	andl	$286331153, %edi
	movl	%esi, %r9d
	andl	$572662306, %r9d
	movl	%esi, %r14d
	andl	$1145324612, %r14d
	andl	$-2004318072, %esi
	imulq	%rdi, %rdi
	imulq	%r14, %r14
	xorq	%rdi, %r14
	andq	%rbp, %r14
	imulq	%r9, %r9
	imulq	%rsi, %rsi
	xorq	%r9, %rsi
	andq	%rax, %rsi
	orq	%r14, %rsi
	movl	%ebx, %edi
	andl	$286331153, %edi
	movl	%r12d, %r9d
	andl	$572662306, %r9d
	andl	$1145324612, %ebx
	andl	$-2004318072, %r12d
	imulq	%rdi, %rdi
	imulq	%rbx, %rbx
	xorq	%rdi, %rbx
	andq	%rbp, %rbx
	imulq	%r9, %r9
	imulq	%r12, %r12
	xorq	%r9, %r12
	andq	%rax, %r12
	orq	%rbx, %r12
	movl	%r10d, %r9d
	andl	$286331153, %r9d
	movl	%r10d, %edi
	andl	$572662306, %edi
	movl	%r10d, %ebx
	andl	$1145324612, %ebx
	andl	$-2004318072, %r10d
	imulq	%r9, %r9
	imulq	%rbx, %rbx
	xorq	%r9, %rbx
	andq	%rbp, %rbx
	imulq	%rdi, %rdi
	imulq	%r10, %r10
	xorq	%rdi, %r10
	andq	%rax, %r10
	orq	%rbx, %r10
	movl	%r8d, %edi
	andl	$286331153, %edi
	movl	%r11d, %ebx
	andl	$572662306, %ebx
	andl	$1145324612, %r8d
	andl	$-2004318072, %r11d
	imulq	%rdi, %rdi
	imulq	%r8, %r8
	xorq	%rdi, %r8
	andq	%rbp, %r8
	imulq	%rbx, %rbx
	imulq	%r11, %r11
	xorq	%rbx, %r11
	andq	%rax, %r11
	orq	%r8, %r11
	leaq	(%r10,%r10), %r14
	shlq	$63, %rdi
	movq	%r11, %r8
	shlq	$58, %r8
	orq	%rdi, %r8
	xorq	%r8, %r14
	movq	%r14, %rdi
	shrq	%rdi
	movq	%r14, %rbx
	shrq	$2, %rbx
	xorq	%rdi, %rbx
	shrq	$7, %r14
	xorq	%rbx, %r14
	movq	80(%rsp), %r15
	xorq	%r10, %rsi
	shlq	$58, %r10
	leaq	(%r11,%r12,2), %rbx
	shldq	$63, %r11, %r9
	leaq	(%r10,%r11,2), %r10
	shrq	$6, %r11
	orq	%r11, %r9
	movq	88(%rsp), %rdi
	vmovups	%ymm0, 672(%rsp)
	vmovups	%ymm0, 96(%rsp)
	addq	%rsi, %rsi
	xorq	%r14, %rsi
	xorq	%rsi, %r8
	xorq	%rbx, %r9
	xorq	%r9, %r10
	xorl	%r11d, %r11d
	cmpq	$1024, %rcx
	setae	%r11b
	movq	%r13, 48(%rsp)
	jb	.Lluossavin_x86_64_v3.BB13_4
	shrq	$32, %r8
	movq	%r10, %rbx
	shrq	$32, %rbx
	movq	%r15, 8(%rsp)
	movl	%r8d, %r15d
	andl	$286331153, %r15d
	movl	%r8d, %r12d
	andl	$572662306, %r12d
	movl	%r8d, %r13d
	andl	$1145324612, %r13d
	andl	$-2004318072, %r8d
	imulq	%r15, %r15
	imulq	%r13, %r13
	xorq	%r15, %r13
	andq	%rbp, %r13
	imulq	%r12, %r12
	imulq	%r8, %r8
	xorq	%r12, %r8
	andq	%rax, %r8
	orq	%r13, %r8
	movl	%r14d, %r15d
	andl	$286331153, %r15d
	movl	%esi, %r12d
	andl	$572662306, %r12d
	andl	$1145324612, %r14d
	andl	$-2004318072, %esi
	imulq	%r15, %r15
	imulq	%r14, %r14
	xorq	%r15, %r14
	andq	%rbp, %r14
	imulq	%r12, %r12
	imulq	%rsi, %rsi
	xorq	%r12, %rsi
	andq	%rax, %rsi
	orq	%r14, %rsi
	movl	%ebx, %r14d
	andl	$286331153, %r14d
	movl	%ebx, %r15d
	andl	$572662306, %r15d
	movl	%ebx, %r12d
	andl	$1145324612, %r12d
	andl	$-2004318072, %ebx
	imulq	%r14, %r14
	imulq	%r12, %r12
	xorq	%r14, %r12
	andq	%rbp, %r12
	imulq	%r15, %r15
	imulq	%rbx, %rbx
	xorq	%r15, %rbx
	andq	%rax, %rbx
	orq	%r12, %rbx
	movl	%r9d, %r15d
	andl	$286331153, %r15d
	movl	%r10d, %r12d
	andl	$572662306, %r12d
	andl	$1145324612, %r9d
	andl	$-2004318072, %r10d
	imulq	%r15, %r15
	imulq	%r9, %r9
	xorq	%r15, %r9
	andq	%rbp, %r9
	imulq	%r12, %r12
	imulq	%r10, %r10
	xorq	%r12, %r10
	andq	%rax, %r10
	orq	%r9, %r10
	leaq	(%rbx,%rbx), %r9
	leaq	(%r10,%r10), %rax
	movq	%r10, %rbp
	shrq	$6, %rbp
	shlq	$63, %r15
	movq	%r10, %r12
	shlq	$58, %r12
	orq	%r15, %r12
	xorq	%r12, %r9
	movq	%r9, %r15
	shrq	%r15
	movq	%r9, %r13
	shrq	$2, %r13
	xorq	%r15, %r13
	movq	8(%rsp), %r15
	shrq	$7, %r9
	xorq	%r13, %r9
	xorq	%rbx, %r8
	shlq	$58, %rbx
	addq	%r8, %r8
	xorq	%r12, %r8
	xorq	%r9, %r8
	leaq	(%r10,%rsi,2), %rsi
	shrdq	$1, %r14, %r10
	orq	%rbp, %r10
	xorq	%rax, %r10
	orq	%rbx, %r10
	xorq	%rsi, %r10
.Lluossavin_x86_64_v3.BB13_4:
	movq	%r8, %rax
	shrq	$32, %rax
	movq	%r10, %rsi
	shrq	$32, %rsi
	movq	%r8, 736(%rsp)
	movq	%r10, 744(%rsp)
	vmovd	%eax, %xmm0
	vpinsrd	$1, %r8d, %xmm0, %xmm0
	vmovdqa	.Lluossavin_x86_64_v3.CPI13_0(%rip), %ymm2
	vpermd	%ymm0, %ymm2, %ymm0
	vbroadcasti128	.Lluossavin_x86_64_v3.CPI13_1(%rip), %ymm1
	vpand	%ymm1, %ymm0, %ymm0
	vmovdqu	%ymm0, 752(%rsp)
	xorl	%r8d, %eax
	vmovd	%eax, %xmm0
	vpinsrd	$1, %esi, %xmm0, %xmm0
	leaq	8(,%r11,8), %r12
	movl	%esi, %eax
	xorl	%r10d, %eax
	movq	%r10, %r9
	xorq	%r8, %r9
	movq	%r9, %rsi
	shrq	$32, %rsi
	vpermd	%ymm0, %ymm2, %ymm0
	vpand	%ymm1, %ymm0, %ymm0
	vmovdqu	%ymm0, 784(%rsp)
	vmovd	%r10d, %xmm0
	vpinsrd	$1, %eax, %xmm0, %xmm0
	vpermd	%ymm0, %ymm2, %ymm0
	vpand	%ymm1, %ymm0, %ymm0
	vmovdqu	%ymm0, 816(%rsp)
	vmovd	%esi, %xmm0
	vpinsrd	$1, %r9d, %xmm0, %xmm0
	vpermd	%ymm0, %ymm2, %ymm0
	xorl	%r9d, %esi
	vpand	%ymm1, %ymm0, %ymm0
	vmovdqu	%ymm0, 848(%rsp)
	vmovd	%esi, %xmm0
	vpbroadcastd	%xmm0, %xmm0
	vmovdqu	%ymm1, 704(%rsp)
	vpand	%xmm1, %xmm0, %xmm0
	vmovdqu	%xmm0, 880(%rsp)
	vpxor	%xmm0, %xmm0, %xmm0
	vmovdqu	%ymm0, 232(%rsp)
	vmovdqu	%ymm0, 136(%rsp)
	vmovdqu	%ymm0, 168(%rsp)
	vmovdqu	%ymm0, 200(%rsp)
	vmovdqu	%ymm0, 264(%rsp)
	vmovdqu	%ymm0, 296(%rsp)
	vmovdqu	%ymm0, 328(%rsp)
	vmovdqu	%ymm0, 352(%rsp)
	movq	%r15, 128(%rsp)
	movq	%rdi, 256(%rsp)
	xorl	%eax, %eax
	movq	%rdx, 8(%rsp)
	.p2align	4
.Lluossavin_x86_64_v3.BB13_5:
	vmovdqu	(%rdx), %ymm0
	vmovdqu	32(%rdx), %ymm1
	vbroadcasti128	.Lluossavin_x86_64_v3.CPI13_4(%rip), %ymm2
	vpshufb	%ymm2, %ymm1, %ymm1
	vpshufb	%ymm2, %ymm0, %ymm0
	vpunpcklqdq	%ymm1, %ymm0, %ymm2
	vpermq	$216, %ymm2, %ymm2
	vpunpckhqdq	%ymm1, %ymm0, %ymm0
	vpermq	$216, %ymm0, %ymm0
	vpxor	128(%rsp,%rax,8), %ymm2, %ymm1
	vpxor	256(%rsp,%rax,8), %ymm0, %ymm0
	vmovdqu	%ymm1, 128(%rsp,%rax,8)
	vmovdqu	%ymm0, 256(%rsp,%rax,8)
	addq	$4, %rax
	addq	$64, %rdx
	cmpq	%rax, %r12
	jne	.Lluossavin_x86_64_v3.BB13_5
	movq	%rcx, %rax
	shrq	$4, %rax
	movq	%rcx, %r15
	cmpq	$1024, %rcx
	movl	$4, %ecx
	sbbq	$0, %rcx
	movq	%rcx, 16(%rsp)
	shrxq	%rcx, %rax, %r14
	cmpq	$2, %r14
	jb	.Lluossavin_x86_64_v3.BB13_16
	cmpq	$1024, %r15
	movl	$8, %r13d
	sbbq	$0, %r13
	movl	%r12d, %ebp
	andl	$-16, %ebp
	movl	$1, %ebx
	.p2align	4
.Lluossavin_x86_64_v3.BB13_8:
	vpxor	%xmm0, %xmm0, %xmm0
	vmovdqu	%ymm0, 512(%rsp)
	vmovdqu	%ymm0, 480(%rsp)
	vmovdqu	%ymm0, 448(%rsp)
	vmovdqu	%ymm0, 416(%rsp)
	xorl	%eax, %eax
	cmpq	$1024, %r15
	jae	.Lluossavin_x86_64_v3.BB13_9
	.p2align	4
.Lluossavin_x86_64_v3.BB13_10:
	vmovdqu	128(%rsp,%rax,8), %ymm0
	vpxor	256(%rsp,%rax,8), %ymm0, %ymm0
	vmovdqu	%ymm0, 416(%rsp,%rax,8)
	addq	$4, %rax
	cmpq	%rax, %r12
	jne	.Lluossavin_x86_64_v3.BB13_10
	jmp	.Lluossavin_x86_64_v3.BB13_11
	.p2align	4
.Lluossavin_x86_64_v3.BB13_9:
	vmovdqu	128(%rsp,%rax,8), %ymm0
	vmovdqu	160(%rsp,%rax,8), %ymm1
	vmovdqu	192(%rsp,%rax,8), %ymm2
	vmovdqu	224(%rsp,%rax,8), %ymm3
	vpxor	256(%rsp,%rax,8), %ymm0, %ymm0
	vpxor	288(%rsp,%rax,8), %ymm1, %ymm1
	vpxor	320(%rsp,%rax,8), %ymm2, %ymm2
	vpxor	352(%rsp,%rax,8), %ymm3, %ymm3
	vmovdqu	%ymm0, 416(%rsp,%rax,8)
	vmovdqu	%ymm1, 448(%rsp,%rax,8)
	vmovdqu	%ymm2, 480(%rsp,%rax,8)
	vmovdqu	%ymm3, 512(%rsp,%rax,8)
	addq	$16, %rax
	cmpq	%rax, %rbp
	jne	.Lluossavin_x86_64_v3.BB13_9
.Lluossavin_x86_64_v3.BB13_11:
	vmovups	448(%rsp), %ymm0
	vmovups	480(%rsp), %ymm1
	vmovups	512(%rsp), %ymm2
	vmovups	%ymm2, 1504(%rsp)
	vmovups	%ymm1, 1472(%rsp)
	vmovups	%ymm0, 1440(%rsp)
	vmovups	416(%rsp), %ymm0
	vmovups	%ymm0, 1408(%rsp)
	vxorps	%xmm0, %xmm0, %xmm0
	vmovups	%ymm0, 416(%rsp)
	vmovups	%ymm0, 448(%rsp)
	vmovups	%ymm0, 480(%rsp)
	vmovups	%ymm0, 512(%rsp)
	vmovups	%ymm0, 544(%rsp)
	vmovups	%ymm0, 576(%rsp)
	vmovups	%ymm0, 608(%rsp)
	vmovups	%ymm0, 640(%rsp)
	vmovups	%ymm0, 1376(%rsp)
	vmovups	%ymm0, 1344(%rsp)
	vmovups	%ymm0, 1312(%rsp)
	vmovups	%ymm0, 1280(%rsp)
	vmovups	%ymm0, 1248(%rsp)
	vmovups	%ymm0, 1216(%rsp)
	vmovups	%ymm0, 1184(%rsp)
	vmovups	%ymm0, 1152(%rsp)
	vmovups	%ymm0, 1120(%rsp)
	vmovups	%ymm0, 1088(%rsp)
	vmovups	%ymm0, 1056(%rsp)
	vmovups	%ymm0, 1024(%rsp)
	vmovups	%ymm0, 992(%rsp)
	vmovups	%ymm0, 960(%rsp)
	vmovups	%ymm0, 928(%rsp)
	vmovups	%ymm0, 896(%rsp)
	leaq	128(%rsp), %rdi
	leaq	416(%rsp), %rcx
	leaq	752(%rsp), %rsi
	movq	%r12, %rdx
	vzeroupper
	callq	"carryless::many::products64.x86_64_v3"
	leaq	1152(%rsp), %rcx
	leaq	256(%rsp), %rdi
	leaq	800(%rsp), %rsi
	movq	%r12, %rdx
	callq	"carryless::many::products64.x86_64_v3"
	leaq	1408(%rsp), %rdi
	leaq	896(%rsp), %rcx
	leaq	848(%rsp), %rsi
	movq	%r12, %rdx
	callq	"carryless::many::products64.x86_64_v3"
	xorl	%eax, %eax
	.p2align	4
.Lluossavin_x86_64_v3.BB13_12:
	vmovdqu	416(%rsp,%rax,8), %ymm0
	vmovdqu	544(%rsp,%rax,8), %ymm1
	vmovdqu	1152(%rsp,%rax,8), %ymm2
	vpxor	896(%rsp,%rax,8), %ymm1, %ymm3
	vmovdqu	1280(%rsp,%rax,8), %ymm4
	vpxor	%ymm0, %ymm2, %ymm5
	vpxor	1024(%rsp,%rax,8), %ymm1, %ymm1
	vpxor	%ymm5, %ymm3, %ymm3
	vpxor	%ymm4, %ymm2, %ymm2
	vpxor	%ymm2, %ymm1, %ymm1
	vpsrlq	$63, %ymm3, %ymm2
	vpaddq	%ymm0, %ymm0, %ymm0
	vpor	%ymm2, %ymm0, %ymm0
	vpsrlq	$63, %ymm1, %ymm2
	vpaddq	%ymm3, %ymm3, %ymm3
	vpor	%ymm2, %ymm3, %ymm2
	vpaddq	%ymm1, %ymm1, %ymm1
	vpsrlq	$63, %ymm4, %ymm3
	vpor	%ymm3, %ymm1, %ymm1
	vpaddq	%ymm4, %ymm4, %ymm5
	vpbroadcastq	.Lluossavin_x86_64_v3.CPI13_3(%rip), %ymm6
	vpand	%ymm6, %ymm4, %ymm6
	vpsrlq	$2, %ymm5, %ymm7
	vpxor	%ymm7, %ymm6, %ymm6
	vpsrlq	$7, %ymm5, %ymm7
	vpxor	%ymm7, %ymm6, %ymm6
	vpxor	%ymm2, %ymm6, %ymm2
	vpsllq	$63, %ymm4, %ymm6
	vpsllq	$58, %ymm4, %ymm4
	vpxor	%ymm4, %ymm6, %ymm4
	vpxor	%ymm1, %ymm4, %ymm4
	vpsrlq	$1, %ymm4, %ymm6
	vpxor	%ymm6, %ymm0, %ymm0
	vpsrlq	$2, %ymm4, %ymm6
	vpsrlq	$7, %ymm4, %ymm7
	vpxor	%ymm7, %ymm6, %ymm6
	vpxor	%ymm6, %ymm0, %ymm0
	vpsllq	$63, %ymm3, %ymm3
	vpsllq	$62, %ymm1, %ymm6
	vpxor	%ymm6, %ymm2, %ymm2
	vpsllq	$57, %ymm1, %ymm1
	vpxor	%ymm1, %ymm3, %ymm1
	vpxor	%ymm1, %ymm2, %ymm1
	vpxor	%ymm4, %ymm0, %ymm0
	vpxor	%ymm5, %ymm1, %ymm1
	vmovdqu	%ymm0, 128(%rsp,%rax,8)
	vmovdqu	%ymm1, 256(%rsp,%rax,8)
	addq	$4, %rax
	cmpq	%rax, %r12
	jne	.Lluossavin_x86_64_v3.BB13_12
	shlxq	%r13, %rbx, %rax
	addq	8(%rsp), %rax
	xorl	%ecx, %ecx
	vbroadcasti128	.Lluossavin_x86_64_v3.CPI13_4(%rip), %ymm3
	.p2align	4
.Lluossavin_x86_64_v3.BB13_14:
	vmovdqu	(%rax), %ymm0
	vmovdqu	32(%rax), %ymm1
	vpshufb	%ymm3, %ymm1, %ymm1
	vpshufb	%ymm3, %ymm0, %ymm0
	vpunpcklqdq	%ymm1, %ymm0, %ymm2
	vpermq	$216, %ymm2, %ymm2
	vpunpckhqdq	%ymm1, %ymm0, %ymm0
	vpermq	$216, %ymm0, %ymm0
	vpxor	128(%rsp,%rcx,8), %ymm2, %ymm1
	vpxor	256(%rsp,%rcx,8), %ymm0, %ymm0
	vmovdqu	%ymm1, 128(%rsp,%rcx,8)
	vmovdqu	%ymm0, 256(%rsp,%rcx,8)
	addq	$4, %rcx
	addq	$64, %rax
	cmpq	%rcx, %r12
	jne	.Lluossavin_x86_64_v3.BB13_14
	incq	%rbx
	cmpq	%r14, %rbx
	jne	.Lluossavin_x86_64_v3.BB13_8
.Lluossavin_x86_64_v3.BB13_16:
	movq	24(%rsp), %rdx
	vmovd	%edx, %xmm0
	movq	48(%rsp), %r13
	vpinsrd	$1, %r13d, %xmm0, %xmm0
	vmovdqa	.Lluossavin_x86_64_v3.CPI13_0(%rip), %ymm2
	vpermd	%ymm0, %ymm2, %ymm0
	xorl	%r13d, %edx
	movq	40(%rsp), %rbp
	movq	%rbp, %rax
	xorq	%r13, %rax
	movq	%rax, %rcx
	shrq	$32, %rcx
	movq	%r13, 416(%rsp)
	movq	%rbp, 424(%rsp)
	vmovdqu	704(%rsp), %ymm1
	vpand	%ymm1, %ymm0, %ymm0
	vmovdqu	%ymm0, 432(%rsp)
	vmovd	%edx, %xmm0
	movq	32(%rsp), %rdx
	vpinsrd	$1, %edx, %xmm0, %xmm0
	xorl	%ebp, %edx
	vpermd	%ymm0, %ymm2, %ymm0
	vpand	%ymm1, %ymm0, %ymm0
	vmovdqu	%ymm0, 464(%rsp)
	vmovd	%ebp, %xmm0
	vpinsrd	$1, %edx, %xmm0, %xmm0
	vpermd	%ymm0, %ymm2, %ymm0
	vpand	%ymm1, %ymm0, %ymm0
	vmovdqu	%ymm0, 496(%rsp)
	vmovd	%ecx, %xmm0
	vpinsrd	$1, %eax, %xmm0, %xmm0
	vpermd	%ymm0, %ymm2, %ymm0
	xorl	%eax, %ecx
	vpand	%ymm1, %ymm0, %ymm0
	vmovdqu	%ymm0, 528(%rsp)
	vmovd	%ecx, %xmm0
	vpbroadcastd	%xmm0, %xmm0
	vpand	%xmm1, %xmm0, %xmm0
	vmovdqu	%xmm0, 560(%rsp)
	xorl	%edx, %edx
	xorl	%ebx, %ebx
	xorl	%eax, %eax
	.p2align	4
.Lluossavin_x86_64_v3.BB13_17:
	xorq	128(%rsp,%rbx,8), %rax
	xorq	256(%rsp,%rbx,8), %rdx
	leaq	416(%rsp), %rcx
	movq	%rax, %rdi
	movq	%rdx, %rsi
	movq	%rcx, %rdx
	vzeroupper
	callq	"field::times.x86_64_v3"
	incq	%rbx
	cmpq	%rbx, %r12
	jne	.Lluossavin_x86_64_v3.BB13_17
	movq	16(%rsp), %rcx
	shlxq	%rcx, %r14, %rsi
	movq	%r13, 96(%rsp)
	movq	%rbp, 104(%rsp)
	movq	%rax, 112(%rsp)
	movq	%rdx, 120(%rsp)
	shlq	$4, %rsi
	movq	8(%rsp), %rdx
	addq	%rsi, %rdx
	subq	%rsi, %r15
	leaq	672(%rsp), %rdi
	leaq	96(%rsp), %rsi
	movq	%r15, %rcx
	callq	"ghash::Ghash::absorb_each.x86_64_v3"
	vmovups	672(%rsp), %ymm0
	vmovups	%ymm0, 384(%rsp)
	movq	56(%rsp), %rbx
.Lluossavin_x86_64_v3.BB13_19:
	vmovups	384(%rsp), %ymm0
	vmovups	%ymm0, (%rbx)
	addq	$1544, %rsp
	popq	%rbx
	popq	%r12
	popq	%r13
	popq	%r14
	popq	%r15
	popq	%rbp
	vzeroupper
	retq
.Lluossavin_x86_64_v3.func_end13:
	.size	"ghash::Ghash::absorb_all.x86_64_v3", .Lluossavin_x86_64_v3.func_end13-"ghash::Ghash::absorb_all.x86_64_v3"

	.section	.rodata.cst32,"aM",@progbits,32
	.p2align	5, 0x0
.Lluossavin_x86_64_v3.CPI14_0:
	.long	0
	.long	0
	.long	0
	.long	0
	.long	1
	.long	1
	.long	1
	.long	1
	.section	.rodata.cst16,"aM",@progbits,16
	.p2align	4, 0x0
.Lluossavin_x86_64_v3.CPI14_1:
	.long	286331153
	.long	572662306
	.long	1145324612
	.long	2290649224
.Lluossavin_x86_64_v3.CPI14_2:
	.byte	3
	.byte	2
	.byte	1
	.byte	0
	.byte	7
	.byte	6
	.byte	5
	.byte	4
	.byte	11
	.byte	10
	.byte	9
	.byte	8
	.byte	15
	.byte	14
	.byte	13
	.byte	12
	.section	".text.ghash::Ghash::absorb_each.x86_64_v3","ax",@progbits
	.p2align	4
	.type	"ghash::Ghash::absorb_each.x86_64_v3",@function
"ghash::Ghash::absorb_each.x86_64_v3":
	pushq	%rbp
	pushq	%r15
	pushq	%r14
	pushq	%r13
	pushq	%r12
	pushq	%rbx
	subq	$200, %rsp
	movq	%rcx, %rbx
	movq	%rdx, %r15
	movq	%rdi, 8(%rsp)
	movq	(%rsi), %rbp
	movq	8(%rsi), %rdi
	movq	16(%rsi), %r13
	movq	24(%rsi), %r12
	movq	%rbp, %rax
	shrq	$32, %rax
	movq	%rdi, %rcx
	shrq	$32, %rcx
	movq	%rbp, 40(%rsp)
	vmovd	%eax, %xmm0
	vpinsrd	$1, %ebp, %xmm0, %xmm0
	movq	%rdi, 48(%rsp)
	vmovdqa	.Lluossavin_x86_64_v3.CPI14_0(%rip), %ymm1
	vpermd	%ymm0, %ymm1, %ymm2
	xorl	%ebp, %eax
	vbroadcasti128	.Lluossavin_x86_64_v3.CPI14_1(%rip), %ymm0
	vpand	%ymm0, %ymm2, %ymm2
	vmovdqu	%ymm2, 56(%rsp)
	vmovd	%eax, %xmm2
	vpinsrd	$1, %ecx, %xmm2, %xmm2
	movl	%ecx, %eax
	xorl	%edi, %eax
	movq	%rdi, %rcx
	vpermd	%ymm2, %ymm1, %ymm2
	vpand	%ymm0, %ymm2, %ymm2
	vmovdqu	%ymm2, 88(%rsp)
	xorq	%rbp, %rcx
	movq	%rcx, %rdx
	movq	%rdi, (%rsp)
	vmovd	%edi, %xmm2
	vpinsrd	$1, %eax, %xmm2, %xmm2
	vpermd	%ymm2, %ymm1, %ymm2
	vpand	%ymm0, %ymm2, %ymm2
	vmovdqu	%ymm2, 120(%rsp)
	shrq	$32, %rdx
	vmovd	%edx, %xmm2
	vpinsrd	$1, %ecx, %xmm2, %xmm2
	vpermd	%ymm2, %ymm1, %ymm1
	vpand	%ymm0, %ymm1, %ymm1
	vmovdqu	%ymm1, 152(%rsp)
	xorl	%ecx, %edx
	vmovd	%edx, %xmm1
	vpbroadcastd	%xmm1, %xmm1
	vpand	%xmm0, %xmm1, %xmm0
	vmovdqu	%xmm0, 184(%rsp)
	movq	%rbx, %r14
	shrq	$4, %r14
	movl	%ebx, %eax
	andl	$15, %eax
	cmpq	$1, %rax
	sbbq	$-1, %r14
	testq	%rbx, %rbx
	jne	.Lluossavin_x86_64_v3.BB14_1
.Lluossavin_x86_64_v3.BB14_5:
	movq	8(%rsp), %rax
	movq	%rbp, (%rax)
	movq	(%rsp), %rcx
	movq	%rcx, 8(%rax)
	movq	%r13, 16(%rax)
	movq	%r12, 24(%rax)
	addq	$200, %rsp
	popq	%rbx
	popq	%r12
	popq	%r13
	popq	%r14
	popq	%r15
	popq	%rbp
	vzeroupper
	retq
	.p2align	4
.Lluossavin_x86_64_v3.BB14_2:
	vmovdqu	(%r15), %xmm0
.Lluossavin_x86_64_v3.BB14_4:
	vpshufb	.Lluossavin_x86_64_v3.CPI14_2(%rip), %xmm0, %xmm0
	vmovd	%xmm0, %eax
	shlq	$32, %rax
	vpextrd	$1, %xmm0, %edi
	orq	%rax, %rdi
	xorq	%r13, %rdi
	vpextrd	$2, %xmm0, %eax
	shlq	$32, %rax
	vpextrd	$3, %xmm0, %esi
	orq	%rax, %rsi
	xorq	%r12, %rsi
	leaq	40(%rsp), %rdx
	vzeroupper
	callq	"field::times.x86_64_v3"
	movq	%rax, %r13
	movq	%rdx, %r12
	addq	$-16, %rbx
	addq	$16, %r15
	decq	%r14
	je	.Lluossavin_x86_64_v3.BB14_5
.Lluossavin_x86_64_v3.BB14_1:
	cmpq	$16, %rbx
	jae	.Lluossavin_x86_64_v3.BB14_2
	vpxor	%xmm0, %xmm0, %xmm0
	vmovdqa	%xmm0, 16(%rsp)
	leaq	16(%rsp), %rdi
	movq	%r15, %rsi
	movq	%rbx, %rdx
	vzeroupper
	callq	memcpy@PLT
	vmovdqa	16(%rsp), %xmm0
	jmp	.Lluossavin_x86_64_v3.BB14_4
.Lluossavin_x86_64_v3.func_end14:
	.size	"ghash::Ghash::absorb_each.x86_64_v3", .Lluossavin_x86_64_v3.func_end14-"ghash::Ghash::absorb_each.x86_64_v3"

	.section	.rodata.cst16,"aM",@progbits,16
	.p2align	4, 0x0
.Lluossavin_x86_64_v3.CPI15_0:
	.zero	4
	.zero	4
	.long	0
	.long	4
.Lluossavin_x86_64_v3.CPI15_1:
	.long	1
	.long	5
	.zero	4
	.zero	4
.Lluossavin_x86_64_v3.CPI15_2:
	.zero	4
	.zero	4
	.long	2
	.long	6
.Lluossavin_x86_64_v3.CPI15_3:
	.long	3
	.long	7
	.zero	4
	.zero	4
.Lluossavin_x86_64_v3.CPI15_13:
	.long	1
	.long	5
	.long	0
	.long	0
.Lluossavin_x86_64_v3.CPI15_15:
	.long	3
	.long	7
	.long	0
	.long	0
	.section	.rodata.cst4,"aM",@progbits,4
	.p2align	2, 0x0
.Lluossavin_x86_64_v3.CPI15_4:
	.long	286331153
.Lluossavin_x86_64_v3.CPI15_5:
	.long	572662306
.Lluossavin_x86_64_v3.CPI15_6:
	.long	1145324612
.Lluossavin_x86_64_v3.CPI15_7:
	.long	2290649224
	.section	.rodata.cst8,"aM",@progbits,8
	.p2align	3, 0x0
.Lluossavin_x86_64_v3.CPI15_8:
	.quad	1229782938247303441
.Lluossavin_x86_64_v3.CPI15_9:
	.quad	2459565876494606882
.Lluossavin_x86_64_v3.CPI15_10:
	.quad	4919131752989213764
.Lluossavin_x86_64_v3.CPI15_11:
	.quad	-8608480567731124088
.Lluossavin_x86_64_v3.CPI15_12:
	.long	0
	.long	4
.Lluossavin_x86_64_v3.CPI15_14:
	.long	2
	.long	6
	.section	".text.field::times.x86_64_v3","ax",@progbits
	.p2align	4
	.type	"field::times.x86_64_v3",@function
"field::times.x86_64_v3":
	pushq	%rbp
	pushq	%r15
	pushq	%r14
	pushq	%r13
	pushq	%r12
	pushq	%rbx
	movq	%rsi, %rax
	shrq	$32, %rax
	movq	%rdi, %rcx
	shrq	$32, %rcx
	vmovd	%ecx, %xmm0
	xorl	%edi, %ecx
	vpinsrd	$1, %edi, %xmm0, %xmm0
	vpinsrd	$2, %ecx, %xmm0, %xmm0
	vpinsrd	$3, %eax, %xmm0, %xmm5
	vmovdqu	32(%rdx), %xmm1
	vmovdqu	16(%rdx), %ymm2
	vpunpckldq	%xmm1, %xmm2, %xmm3
	vmovdqu	48(%rdx), %ymm4
	vpbroadcastq	.Lluossavin_x86_64_v3.CPI15_12(%rip), %xmm0
	vpermd	%ymm4, %ymm0, %ymm6
	vpblendd	$12, %xmm6, %xmm3, %xmm6
	vmovdqu	64(%rdx), %xmm3
	vpunpckldq	%xmm3, %xmm4, %xmm8
	vmovq	.Lluossavin_x86_64_v3.CPI15_13(%rip), %xmm0
	vpermd	%ymm2, %ymm0, %ymm9
	vpblendd	$12, %xmm8, %xmm9, %xmm10
	vpunpckhdq	%xmm1, %xmm2, %xmm1
	vpbroadcastq	.Lluossavin_x86_64_v3.CPI15_14(%rip), %xmm0
	vpermd	%ymm4, %ymm0, %ymm9
	vpblendd	$12, %xmm9, %xmm1, %xmm13
	vpunpckhdq	%xmm3, %xmm4, %xmm3
	vmovq	.Lluossavin_x86_64_v3.CPI15_15(%rip), %xmm0
	vpermd	%ymm2, %ymm0, %ymm2
	vpblendd	$12, %xmm3, %xmm2, %xmm4
	vpbroadcastd	.Lluossavin_x86_64_v3.CPI15_4(%rip), %xmm0
	vmovdqa	%xmm0, -88(%rsp)
	vpbroadcastd	.Lluossavin_x86_64_v3.CPI15_5(%rip), %xmm3
	vpand	%xmm3, %xmm5, %xmm9
	vpmovzxdq	%xmm9, %ymm9
	vpmovzxdq	%xmm4, %ymm11
	vpmuludq	%ymm9, %ymm11, %ymm14
	vpbroadcastd	.Lluossavin_x86_64_v3.CPI15_6(%rip), %xmm4
	vpand	%xmm4, %xmm5, %xmm12
	vpmovzxdq	%xmm12, %ymm12
	vpmovzxdq	%xmm13, %ymm13
	vpmuludq	%ymm12, %ymm13, %ymm15
	vpxor	%ymm14, %ymm15, %ymm14
	vpand	%xmm0, %xmm5, %xmm15
	vpmovzxdq	%xmm15, %ymm15
	vpmovzxdq	%xmm6, %ymm0
	vpbroadcastd	.Lluossavin_x86_64_v3.CPI15_7(%rip), %xmm6
	vpand	%xmm6, %xmm5, %xmm5
	vpmovzxdq	%xmm5, %ymm5
	vpmovzxdq	%xmm10, %ymm10
	vpmuludq	%ymm0, %ymm15, %ymm1
	vpmuludq	%ymm5, %ymm10, %ymm7
	vpxor	%ymm1, %ymm7, %ymm1
	vpxor	%ymm1, %ymm14, %ymm1
	vpmuludq	%ymm15, %ymm10, %ymm7
	vpmuludq	%ymm0, %ymm9, %ymm14
	vpxor	%ymm7, %ymm14, %ymm7
	vpmuludq	%ymm12, %ymm11, %ymm14
	vpmuludq	%ymm5, %ymm13, %ymm8
	vpxor	%ymm14, %ymm8, %ymm8
	vpxor	%ymm7, %ymm8, %ymm7
	vpmuludq	%ymm9, %ymm10, %ymm8
	vpmuludq	%ymm0, %ymm12, %ymm14
	vpxor	%ymm14, %ymm8, %ymm8
	vpmuludq	%ymm15, %ymm13, %ymm14
	vpmuludq	%ymm5, %ymm11, %ymm2
	vpxor	%ymm2, %ymm14, %ymm2
	vpxor	%ymm2, %ymm8, %ymm2
	vpmuludq	%ymm15, %ymm11, %ymm8
	vpmuludq	%ymm9, %ymm13, %ymm9
	vpxor	%ymm8, %ymm9, %ymm8
	vpmuludq	%ymm12, %ymm10, %ymm9
	vpmuludq	%ymm5, %ymm0, %ymm0
	vpxor	%ymm0, %ymm9, %ymm0
	vpxor	%ymm0, %ymm8, %ymm0
	vpbroadcastq	.Lluossavin_x86_64_v3.CPI15_8(%rip), %ymm5
	vmovdqu	%ymm5, -40(%rsp)
	vpand	%ymm5, %ymm1, %ymm1
	vpbroadcastq	.Lluossavin_x86_64_v3.CPI15_9(%rip), %ymm10
	vpand	%ymm7, %ymm10, %ymm5
	vpbroadcastq	.Lluossavin_x86_64_v3.CPI15_10(%rip), %ymm11
	vpand	%ymm2, %ymm11, %ymm2
	vpor	%ymm5, %ymm2, %ymm2
	vpbroadcastq	.Lluossavin_x86_64_v3.CPI15_11(%rip), %ymm12
	vpand	%ymm0, %ymm12, %ymm0
	vpor	%ymm0, %ymm1, %ymm0
	vpor	%ymm0, %ymm2, %ymm0
	vmovdqu	%ymm0, -72(%rsp)
	vmovdqu	96(%rdx), %xmm1
	vmovdqu	80(%rdx), %ymm2
	vmovdqu	112(%rdx), %ymm7
	vpbroadcastq	.Lluossavin_x86_64_v3.CPI15_12(%rip), %xmm0
	vpermd	%ymm7, %ymm0, %ymm5
	vpunpckldq	%xmm1, %xmm2, %xmm8
	vpblendd	$12, %xmm5, %xmm8, %xmm8
	vmovq	.Lluossavin_x86_64_v3.CPI15_13(%rip), %xmm0
	vpermd	%ymm2, %ymm0, %ymm5
	vmovdqu	128(%rdx), %xmm13
	vpunpckldq	%xmm13, %xmm7, %xmm14
	vpblendd	$12, %xmm14, %xmm5, %xmm5
	vpunpckhdq	%xmm1, %xmm2, %xmm1
	vpbroadcastq	.Lluossavin_x86_64_v3.CPI15_14(%rip), %xmm0
	vpermd	%ymm7, %ymm0, %ymm14
	vpblendd	$12, %xmm14, %xmm1, %xmm14
	movl	%esi, %ecx
	movl	%eax, %r8d
	xorl	%esi, %r8d
	xorq	%rdi, %rsi
	movq	%rsi, %rax
	shrq	$32, %rax
	vmovd	%ecx, %xmm1
	vpinsrd	$1, %r8d, %xmm1, %xmm1
	vpinsrd	$2, %eax, %xmm1, %xmm1
	vpinsrd	$3, %esi, %xmm1, %xmm15
	vpunpckhdq	%xmm13, %xmm7, %xmm1
	vmovq	.Lluossavin_x86_64_v3.CPI15_15(%rip), %xmm0
	vpermd	%ymm2, %ymm0, %ymm2
	vpblendd	$12, %xmm1, %xmm2, %xmm7
	vpand	-88(%rsp), %xmm15, %xmm1
	vpmovzxdq	%xmm1, %ymm2
	vpmovzxdq	%xmm8, %ymm1
	vpand	%xmm3, %xmm15, %xmm3
	vpmovzxdq	%xmm3, %ymm3
	vpmovzxdq	%xmm7, %ymm7
	vpmuludq	%ymm3, %ymm7, %ymm8
	vpand	%xmm4, %xmm15, %xmm4
	vpmovzxdq	%xmm4, %ymm4
	vpmovzxdq	%xmm14, %ymm13
	vpmuludq	%ymm4, %ymm13, %ymm14
	vpxor	%ymm8, %ymm14, %ymm8
	vpmuludq	%ymm2, %ymm1, %ymm14
	vpand	%xmm6, %xmm15, %xmm6
	vpmovzxdq	%xmm6, %ymm6
	vpmovzxdq	%xmm5, %ymm5
	vpmuludq	%ymm6, %ymm5, %ymm15
	vpxor	%ymm14, %ymm15, %ymm14
	vpxor	%ymm8, %ymm14, %ymm8
	vpmuludq	%ymm2, %ymm5, %ymm14
	vpmuludq	%ymm3, %ymm1, %ymm15
	vpxor	%ymm15, %ymm14, %ymm14
	vpmuludq	%ymm4, %ymm7, %ymm15
	vpmuludq	%ymm6, %ymm13, %ymm0
	vpxor	%ymm0, %ymm15, %ymm0
	vpxor	%ymm0, %ymm14, %ymm0
	vpmuludq	%ymm3, %ymm5, %ymm14
	vpmuludq	%ymm4, %ymm1, %ymm15
	vpxor	%ymm15, %ymm14, %ymm14
	vpmuludq	%ymm2, %ymm13, %ymm15
	vpmuludq	%ymm6, %ymm7, %ymm9
	vpxor	%ymm9, %ymm15, %ymm9
	vpxor	%ymm9, %ymm14, %ymm9
	vpmuludq	%ymm2, %ymm7, %ymm2
	vpmuludq	%ymm3, %ymm13, %ymm3
	vpxor	%ymm2, %ymm3, %ymm2
	vpmuludq	%ymm4, %ymm5, %ymm3
	vpmuludq	%ymm6, %ymm1, %ymm1
	vpxor	%ymm1, %ymm3, %ymm1
	vpxor	%ymm2, %ymm1, %ymm1
	vpand	-40(%rsp), %ymm8, %ymm2
	vpand	%ymm0, %ymm10, %ymm0
	vpand	%ymm11, %ymm9, %ymm3
	vpor	%ymm0, %ymm3, %ymm0
	vpand	%ymm1, %ymm12, %ymm1
	vpor	%ymm1, %ymm2, %ymm1
	vpor	%ymm1, %ymm0, %ymm1
	xorl	%esi, %eax
	movl	144(%rdx), %edi
	movl	148(%rdx), %r8d
	movl	152(%rdx), %r9d
	movl	156(%rdx), %ecx
	movl	%eax, %edx
	andl	$286331153, %edx
	movq	%rdi, %rbx
	imulq	%rdx, %rbx
	movl	%eax, %esi
	andl	$572662306, %esi
	movq	%rcx, %r11
	imulq	%rsi, %r11
	movl	%eax, %r10d
	andl	$1145324612, %r10d
	movq	%r9, %r14
	imulq	%r10, %r14
	xorq	%r11, %r14
	andl	$-2004318072, %eax
	movq	%r8, %r11
	imulq	%rax, %r11
	xorq	%rbx, %r11
	xorq	%r14, %r11
	movq	%r8, %rbx
	imulq	%rdx, %rbx
	movq	%rdi, %r14
	imulq	%rsi, %r14
	xorq	%rbx, %r14
	movq	%rcx, %rbx
	imulq	%r10, %rbx
	movq	%r9, %r15
	imulq	%rax, %r15
	xorq	%rbx, %r15
	xorq	%r14, %r15
	movq	%r9, %rbx
	imulq	%rdx, %rbx
	movq	%r8, %r14
	imulq	%rsi, %r14
	movq	%rdi, %r12
	imulq	%r10, %r12
	xorq	%r14, %r12
	movq	%rcx, %rbp
	imulq	%rax, %rbp
	xorq	%rbx, %rbp
	xorq	%r12, %rbp
	vmovdqu	-72(%rsp), %ymm0
	vmovq	%xmm0, %r13
	vpextrq	$1, %xmm0, %rbx
	vextracti128	$1, %ymm0, %xmm0
	vmovq	%xmm0, %r14
	vpextrq	$1, %xmm0, -72(%rsp)
	imulq	%rdx, %rcx
	imulq	%rsi, %r9
	xorq	%rcx, %r9
	imulq	%r10, %r8
	vmovq	%xmm1, %rsi
	vpextrq	$1, %xmm1, %rcx
	vextracti128	$1, %ymm1, %xmm0
	vmovq	%xmm0, %r10
	vpextrq	$1, %xmm0, %r12
	imulq	%rax, %rdi
	xorq	%r8, %rdi
	xorq	%r9, %rdi
	movabsq	$1229782938247303441, %rax
	andq	%r11, %rax
	movabsq	$2459565876494606882, %rdx
	andq	%r15, %rdx
	movabsq	$4919131752989213764, %r8
	andq	%rbp, %r8
	orq	%rdx, %r8
	orq	%rax, %r8
	movabsq	$-8608480567731124088, %rax
	andq	%rdi, %rax
	orq	%r8, %rax
	movq	%r13, %rdi
	xorq	%rbx, %rdi
	xorq	%r14, %rdi
	xorq	%r10, %rax
	xorq	%r12, %rax
	movq	%rdi, %r8
	shldq	$32, %rax, %r8
	xorl	%edi, %eax
	shrq	$32, %rdi
	xorq	%r13, %rdi
	xorq	%rsi, %rcx
	movq	-72(%rsp), %r9
	xorq	%r9, %rcx
	movq	%rcx, %rdx
	shrq	$32, %rdx
	xorq	%r9, %rdx
	shlq	$32, %rcx
	xorq	%rsi, %rcx
	shlq	$32, %rax
	xorq	%rbx, %rax
	xorq	%rdx, %rbx
	xorq	%r8, %rbx
	xorq	%rdi, %r10
	xorq	%rbx, %r10
	xorq	%r12, %rdx
	xorq	%rax, %rdx
	xorq	%rcx, %rdx
	shldq	$1, %r10, %rdi
	shldq	$1, %rdx, %r10
	shldq	$1, %rcx, %rdx
	movb	$63, %al
	bzhiq	%rax, %rcx, %rax
	addq	%rcx, %rcx
	movq	%rcx, %r9
	shrq	$2, %r9
	xorq	%rax, %r9
	movq	%rcx, %r8
	shrq	$7, %r8
	xorq	%r9, %r8
	xorq	%r10, %r8
	movq	%rsi, %rax
	shlq	$63, %rax
	shlq	$58, %rsi
	xorq	%rax, %rsi
	xorq	%rdx, %rsi
	movq	%rsi, %r9
	shrq	%r9
	xorq	%rdi, %r9
	movq	%rsi, %rdi
	shrq	$2, %rdi
	movq	%rsi, %rax
	shrq	$7, %rax
	xorq	%rdi, %rax
	xorq	%r9, %rax
	movq	%rdx, %rdi
	shlq	$63, %rdi
	movq	%rdx, %r9
	shlq	$62, %r9
	xorq	%r8, %r9
	shlq	$57, %rdx
	xorq	%rdi, %rdx
	xorq	%r9, %rdx
	xorq	%rsi, %rax
	xorq	%rcx, %rdx
	popq	%rbx
	popq	%r12
	popq	%r13
	popq	%r14
	popq	%r15
	popq	%rbp
	vzeroupper
	retq
.Lluossavin_x86_64_v3.func_end15:
	.size	"field::times.x86_64_v3", .Lluossavin_x86_64_v3.func_end15-"field::times.x86_64_v3"

	.section	.rodata.cst16,"aM",@progbits,16
	.p2align	4, 0x0
.Lluossavin_x86_64_v3.CPI16_0:
	.long	1
	.long	3
	.long	5
	.long	7
.Lluossavin_x86_64_v3.CPI16_10:
	.long	1145324612
	.long	286331153
	.zero	4
	.zero	4
.Lluossavin_x86_64_v3.CPI16_11:
	.long	286331153
	.long	2290649224
	.long	572662306
	.long	1145324612
.Lluossavin_x86_64_v3.CPI16_12:
	.long	572662306
	.long	2290649224
	.zero	4
	.zero	4
	.section	.rodata.cst32,"aM",@progbits,32
	.p2align	5, 0x0
.Lluossavin_x86_64_v3.CPI16_1:
	.long	0
	.long	2
	.long	4
	.long	6
	.long	4
	.long	6
	.long	6
	.long	7
.Lluossavin_x86_64_v3.CPI16_13:
	.quad	4919131752989213764
	.quad	2459565876494606882
	.quad	-8608480567731124088
	.quad	1229782938247303441
	.section	.rodata.cst4,"aM",@progbits,4
	.p2align	2, 0x0
.Lluossavin_x86_64_v3.CPI16_2:
	.long	286331153
.Lluossavin_x86_64_v3.CPI16_3:
	.long	572662306
.Lluossavin_x86_64_v3.CPI16_4:
	.long	1145324612
.Lluossavin_x86_64_v3.CPI16_5:
	.long	2290649224
	.section	.rodata.cst8,"aM",@progbits,8
	.p2align	3, 0x0
.Lluossavin_x86_64_v3.CPI16_6:
	.quad	1229782938247303441
.Lluossavin_x86_64_v3.CPI16_7:
	.quad	2459565876494606882
.Lluossavin_x86_64_v3.CPI16_8:
	.quad	4919131752989213764
.Lluossavin_x86_64_v3.CPI16_9:
	.quad	-8608480567731124088
	.section	".text.carryless::many::products64.x86_64_v3","ax",@progbits
	.p2align	4
	.type	"carryless::many::products64.x86_64_v3",@function
"carryless::many::products64.x86_64_v3":
	subq	$1512, %rsp
	vxorps	%xmm0, %xmm0, %xmm0
	vmovups	%ymm0, 1024(%rsp)
	vmovups	%ymm0, 992(%rsp)
	vmovups	%ymm0, 928(%rsp)
	vmovups	%ymm0, 960(%rsp)
	vmovups	%ymm0, 864(%rsp)
	vmovups	%ymm0, 896(%rsp)
	vmovups	%ymm0, 672(%rsp)
	vmovups	%ymm0, 704(%rsp)
	vmovups	%ymm0, 736(%rsp)
	vmovups	%ymm0, 768(%rsp)
	vmovups	%ymm0, 544(%rsp)
	vmovups	%ymm0, 576(%rsp)
	vmovups	%ymm0, 608(%rsp)
	vmovups	%ymm0, 640(%rsp)
	vmovups	%ymm0, 512(%rsp)
	vmovups	%ymm0, 480(%rsp)
	vmovups	%ymm0, 448(%rsp)
	vmovups	%ymm0, 416(%rsp)
	vmovups	%ymm0, 384(%rsp)
	vmovups	%ymm0, 352(%rsp)
	vmovups	%ymm0, 320(%rsp)
	vmovups	%ymm0, 288(%rsp)
	vmovups	%ymm0, -128(%rsp)
	vmovups	%ymm0, -96(%rsp)
	vmovups	%ymm0, 224(%rsp)
	vmovups	%ymm0, 256(%rsp)
	vmovups	%ymm0, 160(%rsp)
	vmovups	%ymm0, 192(%rsp)
	movl	%edx, %eax
	andl	$24, %eax
	vmovdqu	(%rdi), %ymm2
	vmovdqu	32(%rdi), %ymm3
	vmovdqa	.Lluossavin_x86_64_v3.CPI16_0(%rip), %xmm0
	vpermd	%ymm2, %ymm0, %ymm4
	vpermd	%ymm3, %ymm0, %ymm5
	vmovdqa	.Lluossavin_x86_64_v3.CPI16_1(%rip), %ymm1
	vpermd	%ymm2, %ymm1, %ymm2
	vpermd	%ymm3, %ymm1, %ymm3
	vpxor	%xmm2, %xmm4, %xmm6
	vmovdqa	%xmm4, -128(%rsp)
	vmovdqa	%xmm5, -112(%rsp)
	vmovdqa	%xmm2, 224(%rsp)
	vmovdqa	%xmm3, 240(%rsp)
	vmovdqa	%xmm6, 160(%rsp)
	vpxor	%xmm3, %xmm5, %xmm2
	vmovdqa	%xmm2, 176(%rsp)
	cmpq	$8, %rax
	je	.Lluossavin_x86_64_v3.BB16_3
	vmovdqu	64(%rdi), %ymm2
	vmovdqu	96(%rdi), %ymm3
	vpermd	%ymm2, %ymm0, %ymm4
	vpermd	%ymm3, %ymm0, %ymm0
	vpermd	%ymm2, %ymm1, %ymm2
	vpermd	%ymm3, %ymm1, %ymm1
	vpxor	%xmm2, %xmm4, %xmm3
	vpxor	%xmm1, %xmm0, %xmm5
	vmovdqa	%xmm4, -96(%rsp)
	vmovdqa	%xmm0, -80(%rsp)
	vmovdqa	%xmm2, 256(%rsp)
	vmovdqa	%xmm1, 272(%rsp)
	vmovdqa	%xmm3, 192(%rsp)
	vmovdqa	%xmm5, 208(%rsp)
	jmp	.Lluossavin_x86_64_v3.BB16_3
	.p2align	4
.Lluossavin_x86_64_v3.BB16_2:
	movq	(%rdi,%rax,8), %r8
	movq	%r8, %r9
	shrq	$32, %r9
	movl	%r9d, -128(%rsp,%rax,4)
	xorl	%r8d, %r9d
	movl	%r8d, 224(%rsp,%rax,4)
	movl	%r9d, 160(%rsp,%rax,4)
	incq	%rax
.Lluossavin_x86_64_v3.BB16_3:
	cmpq	%rax, %rdx
	jne	.Lluossavin_x86_64_v3.BB16_2
	vmovups	-128(%rsp), %ymm0
	vmovups	-96(%rsp), %ymm1
	vmovdqu	224(%rsp), %ymm2
	vmovdqu	256(%rsp), %ymm3
	vmovdqu	160(%rsp), %ymm4
	vmovdqu	192(%rsp), %ymm5
	vmovups	%ymm0, 1120(%rsp)
	vmovups	%ymm1, 1152(%rsp)
	vmovdqu	%ymm2, 1184(%rsp)
	vmovdqu	%ymm3, 1216(%rsp)
	vmovdqu	%ymm4, 1248(%rsp)
	vmovdqu	%ymm5, 1280(%rsp)
	vmovups	%ymm1, 1024(%rsp)
	vmovups	%ymm0, 992(%rsp)
	vmovups	1184(%rsp), %ymm0
	vmovups	1216(%rsp), %ymm1
	vmovups	%ymm1, 960(%rsp)
	vmovups	%ymm0, 928(%rsp)
	vmovups	1280(%rsp), %ymm0
	vmovups	%ymm0, 896(%rsp)
	vmovups	1248(%rsp), %ymm0
	vmovups	%ymm0, 864(%rsp)
	movl	8(%rsi), %eax
	movl	12(%rsi), %r8d
	vpmovzxdq	(%rsi), %xmm0
	vxorps	%xmm1, %xmm1, %xmm1
	vmovups	%ymm1, -32(%rsp)
	vmovups	%ymm1, -64(%rsp)
	vmovups	%ymm1, -96(%rsp)
	vmovups	%ymm1, -128(%rsp)
	vpermq	$20, %ymm0, %ymm1
	vmovdqu	%ymm1, 1088(%rsp)
	movl	%edx, %edi
	andl	$28, %edi
	vpbroadcastq	%xmm0, %ymm1
	vmovdqu	%ymm1, 96(%rsp)
	vmovq	%r8, %xmm1
	vpbroadcastq	%xmm1, %ymm1
	vmovdqu	%ymm1, 32(%rsp)
	vmovq	%rax, %xmm1
	vpbroadcastq	%xmm1, %ymm1
	vmovdqu	%ymm1, (%rsp)
	vpermq	$65, %ymm0, %ymm1
	vmovdqu	%ymm1, 1056(%rsp)
	vpermq	$85, %ymm0, %ymm0
	vmovdqu	%ymm0, 128(%rsp)
	leaq	(%rdx,%rdx), %rax
	andq	$-8, %rax
	xorl	%r8d, %r8d
	.p2align	4
.Lluossavin_x86_64_v3.BB16_5:
	vmovdqu	992(%rsp,%r8,2), %xmm7
	vpbroadcastd	.Lluossavin_x86_64_v3.CPI16_2(%rip), %xmm0
	vmovdqa	%xmm0, 80(%rsp)
	vpand	%xmm0, %xmm7, %xmm1
	vpmovzxdq	%xmm1, %ymm5
	vmovdqu	96(%rsp), %ymm10
	vpmuludq	%ymm5, %ymm10, %ymm1
	vpsrlq	$32, %ymm10, %ymm4
	vpmuludq	%ymm5, %ymm4, %ymm2
	vpsllq	$32, %ymm2, %ymm2
	vpaddq	%ymm2, %ymm1, %ymm14
	vpbroadcastd	.Lluossavin_x86_64_v3.CPI16_3(%rip), %xmm0
	vmovdqa	%xmm0, 64(%rsp)
	vpand	%xmm0, %xmm7, %xmm2
	vpmovzxdq	%xmm2, %ymm6
	vmovdqu	32(%rsp), %ymm13
	vpmuludq	%ymm6, %ymm13, %ymm15
	vpbroadcastd	.Lluossavin_x86_64_v3.CPI16_4(%rip), %xmm2
	vpand	%xmm2, %xmm7, %xmm3
	vpmovzxdq	%xmm3, %ymm8
	vmovdqu	(%rsp), %ymm9
	vpmuludq	%ymm8, %ymm9, %ymm11
	vpbroadcastd	.Lluossavin_x86_64_v3.CPI16_5(%rip), %xmm3
	vpand	%xmm3, %xmm7, %xmm7
	vpmovzxdq	%xmm7, %ymm0
	vmovdqu	128(%rsp), %ymm12
	vpmuludq	%ymm0, %ymm12, %ymm7
	vpxor	%ymm7, %ymm11, %ymm7
	vpxor	%ymm7, %ymm15, %ymm7
	vpxor	%ymm7, %ymm14, %ymm7
	vpmuludq	%ymm5, %ymm12, %ymm11
	vpmuludq	%ymm6, %ymm10, %ymm14
	vpmuludq	%ymm6, %ymm4, %ymm15
	vpsllq	$32, %ymm15, %ymm15
	vpaddq	%ymm15, %ymm14, %ymm14
	vpmuludq	%ymm8, %ymm13, %ymm15
	vpmuludq	%ymm0, %ymm9, %ymm1
	vpxor	%ymm1, %ymm11, %ymm1
	vpxor	%ymm1, %ymm15, %ymm1
	vpxor	%ymm1, %ymm14, %ymm1
	vpmuludq	%ymm5, %ymm9, %ymm11
	vpmuludq	%ymm6, %ymm12, %ymm14
	vpxor	%ymm11, %ymm14, %ymm11
	vpmuludq	%ymm8, %ymm10, %ymm14
	vpmuludq	%ymm4, %ymm8, %ymm15
	vpsllq	$32, %ymm15, %ymm15
	vpaddq	%ymm15, %ymm14, %ymm14
	vpmuludq	%ymm0, %ymm13, %ymm15
	vpxor	%ymm15, %ymm11, %ymm11
	vpxor	%ymm14, %ymm11, %ymm11
	vpmuludq	%ymm6, %ymm9, %ymm6
	vpmuludq	%ymm8, %ymm12, %ymm8
	vpxor	%ymm6, %ymm8, %ymm6
	vpmuludq	%ymm5, %ymm13, %ymm5
	vpxor	%ymm5, %ymm6, %ymm5
	vpmuludq	%ymm0, %ymm10, %ymm6
	vpmuludq	%ymm0, %ymm4, %ymm0
	vpsllq	$32, %ymm0, %ymm0
	vpaddq	%ymm0, %ymm6, %ymm0
	vpxor	%ymm0, %ymm5, %ymm0
	vpbroadcastq	.Lluossavin_x86_64_v3.CPI16_6(%rip), %ymm4
	vpand	%ymm4, %ymm7, %ymm8
	vpbroadcastq	.Lluossavin_x86_64_v3.CPI16_7(%rip), %ymm5
	vpand	%ymm5, %ymm1, %ymm1
	vpbroadcastq	.Lluossavin_x86_64_v3.CPI16_8(%rip), %ymm14
	vpand	%ymm14, %ymm11, %ymm7
	vpor	%ymm1, %ymm7, %ymm1
	vpbroadcastq	.Lluossavin_x86_64_v3.CPI16_9(%rip), %ymm15
	vpand	%ymm0, %ymm15, %ymm0
	vpor	%ymm0, %ymm8, %ymm0
	vpor	%ymm0, %ymm1, %ymm0
	vmovdqu	%ymm0, -128(%rsp,%r8,4)
	addq	$8, %r8
	cmpq	%r8, %rax
	jne	.Lluossavin_x86_64_v3.BB16_5
	vmovdqa	%xmm3, 96(%rsp)
	vmovdqa	%xmm2, 128(%rsp)
	cmpq	%rdi, %rdx
	vmovdqu	1088(%rsp), %ymm2
	vmovdqu	32(%rsp), %ymm3
	vmovdqu	(%rsp), %ymm6
	vmovdqu	1056(%rsp), %ymm7
	je	.Lluossavin_x86_64_v3.BB16_8
	.p2align	4
.Lluossavin_x86_64_v3.BB16_7:
	vpbroadcastd	992(%rsp,%rdi,4), %xmm0
	vpand	.Lluossavin_x86_64_v3.CPI16_10(%rip), %xmm0, %xmm1
	vpand	.Lluossavin_x86_64_v3.CPI16_11(%rip), %xmm0, %xmm8
	vpmovzxdq	%xmm1, %xmm1
	vpand	.Lluossavin_x86_64_v3.CPI16_12(%rip), %xmm0, %xmm0
	vinserti128	$1, %xmm1, %ymm1, %ymm1
	vpmovzxdq	%xmm0, %xmm0
	vpermq	$80, %ymm0, %ymm11
	vpmuludq	%ymm7, %ymm11, %ymm11
	vpmovzxdq	%xmm8, %ymm8
	vinserti128	$1, %xmm0, %ymm0, %ymm0
	vpblendd	$195, %ymm1, %ymm0, %ymm0
	vpshufd	$78, %ymm0, %ymm0
	vpmuludq	%ymm3, %ymm0, %ymm0
	vpmuludq	%ymm6, %ymm8, %ymm8
	vpmuludq	%ymm2, %ymm1, %ymm1
	vpxor	%ymm1, %ymm11, %ymm1
	vpxor	%ymm1, %ymm8, %ymm1
	vpxor	%ymm0, %ymm1, %ymm0
	vpand	.Lluossavin_x86_64_v3.CPI16_13(%rip), %ymm0, %ymm0
	vextracti128	$1, %ymm0, %xmm1
	vpor	%xmm1, %xmm0, %xmm0
	vpshufd	$238, %xmm0, %xmm1
	vpor	%xmm1, %xmm0, %xmm0
	vmovq	%xmm0, -128(%rsp,%rdi,8)
	incq	%rdi
	cmpq	%rdi, %rdx
	jne	.Lluossavin_x86_64_v3.BB16_7
.Lluossavin_x86_64_v3.BB16_8:
	vmovups	-128(%rsp), %ymm0
	vmovups	-96(%rsp), %ymm1
	vmovdqu	-64(%rsp), %ymm8
	vmovups	-32(%rsp), %ymm9
	vmovups	%ymm9, 384(%rsp)
	vmovdqu	%ymm8, 352(%rsp)
	vmovups	%ymm1, 320(%rsp)
	vmovups	%ymm0, 288(%rsp)
	vmovups	%ymm0, 672(%rsp)
	vmovups	%ymm1, 704(%rsp)
	vmovdqu	%ymm8, 736(%rsp)
	vmovups	%ymm9, 768(%rsp)
	movl	24(%rsi), %r8d
	vpmovzxdq	16(%rsi), %xmm0
	movl	28(%rsi), %r9d
	vxorps	%xmm1, %xmm1, %xmm1
	vmovups	%ymm1, -32(%rsp)
	vmovups	%ymm1, -64(%rsp)
	vmovups	%ymm1, -96(%rsp)
	vpermq	$20, %ymm0, %ymm2
	vmovdqu	%ymm2, 32(%rsp)
	vmovups	%ymm1, -128(%rsp)
	movl	%edx, %edi
	andl	$28, %edi
	vpbroadcastq	%xmm0, %ymm12
	vmovq	%r9, %xmm1
	vpbroadcastq	%xmm1, %ymm9
	vmovq	%r8, %xmm1
	vpbroadcastq	%xmm1, %ymm10
	vpermq	$65, %ymm0, %ymm1
	vmovdqu	%ymm1, (%rsp)
	vpermq	$85, %ymm0, %ymm13
	xorl	%r8d, %r8d
	vmovdqu	%ymm14, 832(%rsp)
	vmovdqu	%ymm15, 800(%rsp)
	.p2align	4
.Lluossavin_x86_64_v3.BB16_9:
	vmovdqu	928(%rsp,%r8,2), %xmm0
	vpand	80(%rsp), %xmm0, %xmm1
	vpmovzxdq	%xmm1, %ymm15
	vpmuludq	%ymm15, %ymm12, %ymm1
	vpsrlq	$32, %ymm12, %ymm14
	vpmuludq	%ymm15, %ymm14, %ymm8
	vpsllq	$32, %ymm8, %ymm8
	vpaddq	%ymm1, %ymm8, %ymm1
	vpand	64(%rsp), %xmm0, %xmm8
	vpmovzxdq	%xmm8, %ymm2
	vpmuludq	%ymm2, %ymm9, %ymm8
	vpand	128(%rsp), %xmm0, %xmm11
	vpmovzxdq	%xmm11, %ymm3
	vmovdqa	%ymm4, %ymm6
	vpmuludq	%ymm3, %ymm10, %ymm4
	vpand	96(%rsp), %xmm0, %xmm0
	vpmovzxdq	%xmm0, %ymm11
	vpmuludq	%ymm11, %ymm13, %ymm0
	vpxor	%ymm4, %ymm0, %ymm0
	vpxor	%ymm0, %ymm8, %ymm0
	vpxor	%ymm1, %ymm0, %ymm8
	vpmuludq	%ymm15, %ymm13, %ymm0
	vpmuludq	%ymm2, %ymm12, %ymm1
	vpmuludq	%ymm2, %ymm14, %ymm4
	vpsllq	$32, %ymm4, %ymm4
	vpaddq	%ymm4, %ymm1, %ymm1
	vpmuludq	%ymm3, %ymm9, %ymm4
	vmovdqa	%ymm5, %ymm7
	vpmuludq	%ymm11, %ymm10, %ymm5
	vpxor	%ymm5, %ymm0, %ymm0
	vpxor	%ymm4, %ymm0, %ymm0
	vpxor	%ymm1, %ymm0, %ymm0
	vpmuludq	%ymm15, %ymm10, %ymm1
	vpmuludq	%ymm2, %ymm13, %ymm4
	vpxor	%ymm1, %ymm4, %ymm1
	vpmuludq	%ymm3, %ymm12, %ymm4
	vpmuludq	%ymm3, %ymm14, %ymm5
	vpsllq	$32, %ymm5, %ymm5
	vpaddq	%ymm5, %ymm4, %ymm4
	vpmuludq	%ymm11, %ymm9, %ymm5
	vpxor	%ymm5, %ymm1, %ymm1
	vmovdqa	%ymm7, %ymm5
	vpxor	%ymm4, %ymm1, %ymm1
	vpmuludq	%ymm2, %ymm10, %ymm2
	vpmuludq	%ymm3, %ymm13, %ymm3
	vpxor	%ymm2, %ymm3, %ymm2
	vpmuludq	%ymm15, %ymm9, %ymm3
	vmovdqu	800(%rsp), %ymm15
	vpxor	%ymm3, %ymm2, %ymm2
	vpmuludq	%ymm11, %ymm14, %ymm3
	vmovdqu	832(%rsp), %ymm14
	vpmuludq	%ymm11, %ymm12, %ymm4
	vpsllq	$32, %ymm3, %ymm3
	vpaddq	%ymm3, %ymm4, %ymm3
	vmovdqa	%ymm6, %ymm4
	vpxor	%ymm3, %ymm2, %ymm2
	vpand	%ymm7, %ymm0, %ymm0
	vpand	%ymm1, %ymm14, %ymm1
	vpor	%ymm0, %ymm1, %ymm0
	vpand	%ymm6, %ymm8, %ymm1
	vpand	%ymm2, %ymm15, %ymm2
	vpor	%ymm2, %ymm1, %ymm1
	vpor	%ymm1, %ymm0, %ymm0
	vmovdqu	%ymm0, -128(%rsp,%r8,4)
	addq	$8, %r8
	cmpq	%r8, %rax
	jne	.Lluossavin_x86_64_v3.BB16_9
	cmpq	%rdi, %rdx
	vmovdqu	32(%rsp), %ymm4
	vmovdqu	(%rsp), %ymm5
	je	.Lluossavin_x86_64_v3.BB16_12
	.p2align	4
.Lluossavin_x86_64_v3.BB16_11:
	vpbroadcastd	928(%rsp,%rdi,4), %xmm0
	vpand	.Lluossavin_x86_64_v3.CPI16_10(%rip), %xmm0, %xmm1
	vpand	.Lluossavin_x86_64_v3.CPI16_11(%rip), %xmm0, %xmm2
	vpmovzxdq	%xmm1, %xmm1
	vpand	.Lluossavin_x86_64_v3.CPI16_12(%rip), %xmm0, %xmm0
	vinserti128	$1, %xmm1, %ymm1, %ymm1
	vpmovzxdq	%xmm0, %xmm0
	vpermq	$80, %ymm0, %ymm3
	vpmuludq	%ymm5, %ymm3, %ymm3
	vpmovzxdq	%xmm2, %ymm2
	vinserti128	$1, %xmm0, %ymm0, %ymm0
	vpblendd	$195, %ymm1, %ymm0, %ymm0
	vpshufd	$78, %ymm0, %ymm0
	vpmuludq	%ymm0, %ymm9, %ymm0
	vpmuludq	%ymm2, %ymm10, %ymm2
	vpmuludq	%ymm4, %ymm1, %ymm1
	vpxor	%ymm3, %ymm1, %ymm1
	vpxor	%ymm2, %ymm1, %ymm1
	vpxor	%ymm0, %ymm1, %ymm0
	vpand	.Lluossavin_x86_64_v3.CPI16_13(%rip), %ymm0, %ymm0
	vextracti128	$1, %ymm0, %xmm1
	vpor	%xmm1, %xmm0, %xmm0
	vpshufd	$238, %xmm0, %xmm1
	vpor	%xmm1, %xmm0, %xmm0
	vmovq	%xmm0, -128(%rsp,%rdi,8)
	incq	%rdi
	cmpq	%rdi, %rdx
	jne	.Lluossavin_x86_64_v3.BB16_11
.Lluossavin_x86_64_v3.BB16_12:
	vmovups	-128(%rsp), %ymm0
	vmovups	-96(%rsp), %ymm1
	vmovups	-64(%rsp), %ymm2
	vmovdqu	-32(%rsp), %ymm3
	vmovdqu	%ymm3, 384(%rsp)
	vmovups	%ymm2, 352(%rsp)
	vmovups	%ymm1, 320(%rsp)
	vmovups	%ymm0, 288(%rsp)
	vmovups	%ymm0, 544(%rsp)
	vmovups	%ymm1, 576(%rsp)
	vmovups	%ymm2, 608(%rsp)
	vmovdqu	%ymm3, 640(%rsp)
	movl	40(%rsi), %edi
	vpmovzxdq	32(%rsi), %xmm0
	movl	44(%rsi), %r8d
	vxorps	%xmm1, %xmm1, %xmm1
	vmovups	%ymm1, -32(%rsp)
	vmovups	%ymm1, -64(%rsp)
	vmovups	%ymm1, -96(%rsp)
	vpermq	$20, %ymm0, %ymm2
	vmovdqu	%ymm2, 32(%rsp)
	vmovups	%ymm1, -128(%rsp)
	movl	%edx, %esi
	andl	$28, %esi
	vpbroadcastq	%xmm0, %ymm12
	vmovq	%r8, %xmm1
	vpbroadcastq	%xmm1, %ymm9
	vmovq	%rdi, %xmm1
	vpbroadcastq	%xmm1, %ymm10
	vpermq	$65, %ymm0, %ymm1
	vmovdqu	%ymm1, (%rsp)
	vpermq	$85, %ymm0, %ymm13
	xorl	%edi, %edi
	.p2align	4
.Lluossavin_x86_64_v3.BB16_13:
	vmovdqu	864(%rsp,%rdi,2), %xmm0
	vpand	80(%rsp), %xmm0, %xmm1
	vpmovzxdq	%xmm1, %ymm15
	vpmuludq	%ymm15, %ymm12, %ymm1
	vpsrlq	$32, %ymm12, %ymm14
	vpmuludq	%ymm15, %ymm14, %ymm2
	vpsllq	$32, %ymm2, %ymm2
	vpaddq	%ymm2, %ymm1, %ymm1
	vpand	64(%rsp), %xmm0, %xmm2
	vpmovzxdq	%xmm2, %ymm2
	vpmuludq	%ymm2, %ymm9, %ymm3
	vpand	128(%rsp), %xmm0, %xmm4
	vpmovzxdq	%xmm4, %ymm4
	vpmuludq	%ymm4, %ymm10, %ymm5
	vpand	96(%rsp), %xmm0, %xmm0
	vpmovzxdq	%xmm0, %ymm11
	vpmuludq	%ymm11, %ymm13, %ymm0
	vpxor	%ymm5, %ymm0, %ymm0
	vpxor	%ymm3, %ymm0, %ymm0
	vpxor	%ymm1, %ymm0, %ymm8
	vpmuludq	%ymm15, %ymm13, %ymm0
	vpmuludq	%ymm2, %ymm12, %ymm1
	vpmuludq	%ymm2, %ymm14, %ymm3
	vpsllq	$32, %ymm3, %ymm3
	vpaddq	%ymm3, %ymm1, %ymm1
	vpmuludq	%ymm4, %ymm9, %ymm3
	vpmuludq	%ymm11, %ymm10, %ymm5
	vpxor	%ymm5, %ymm0, %ymm0
	vpxor	%ymm3, %ymm0, %ymm0
	vpxor	%ymm1, %ymm0, %ymm0
	vpmuludq	%ymm15, %ymm10, %ymm1
	vpmuludq	%ymm2, %ymm13, %ymm3
	vpxor	%ymm1, %ymm3, %ymm1
	vpmuludq	%ymm4, %ymm12, %ymm3
	vpmuludq	%ymm4, %ymm14, %ymm5
	vpsllq	$32, %ymm5, %ymm5
	vpaddq	%ymm5, %ymm3, %ymm3
	vpmuludq	%ymm11, %ymm9, %ymm5
	vpxor	%ymm5, %ymm1, %ymm1
	vpxor	%ymm3, %ymm1, %ymm1
	vpmuludq	%ymm2, %ymm10, %ymm2
	vpmuludq	%ymm4, %ymm13, %ymm3
	vpxor	%ymm2, %ymm3, %ymm2
	vpmuludq	%ymm15, %ymm9, %ymm3
	vpxor	%ymm3, %ymm2, %ymm2
	vpmuludq	%ymm11, %ymm14, %ymm3
	vpmuludq	%ymm11, %ymm12, %ymm4
	vpsllq	$32, %ymm3, %ymm3
	vpaddq	%ymm3, %ymm4, %ymm3
	vpxor	%ymm3, %ymm2, %ymm2
	vpand	%ymm7, %ymm0, %ymm0
	vpand	832(%rsp), %ymm1, %ymm1
	vpor	%ymm0, %ymm1, %ymm0
	vpand	%ymm6, %ymm8, %ymm1
	vpand	800(%rsp), %ymm2, %ymm2
	vpor	%ymm2, %ymm1, %ymm1
	vpor	%ymm1, %ymm0, %ymm0
	vmovdqu	%ymm0, -128(%rsp,%rdi,4)
	addq	$8, %rdi
	cmpq	%rdi, %rax
	jne	.Lluossavin_x86_64_v3.BB16_13
	cmpq	%rsi, %rdx
	vmovdqu	32(%rsp), %ymm4
	vmovdqu	(%rsp), %ymm5
	je	.Lluossavin_x86_64_v3.BB16_16
	.p2align	4
.Lluossavin_x86_64_v3.BB16_15:
	vpbroadcastd	864(%rsp,%rsi,4), %xmm0
	vpand	.Lluossavin_x86_64_v3.CPI16_10(%rip), %xmm0, %xmm1
	vpand	.Lluossavin_x86_64_v3.CPI16_11(%rip), %xmm0, %xmm2
	vpmovzxdq	%xmm1, %xmm1
	vpand	.Lluossavin_x86_64_v3.CPI16_12(%rip), %xmm0, %xmm0
	vinserti128	$1, %xmm1, %ymm1, %ymm1
	vpmovzxdq	%xmm0, %xmm0
	vpermq	$80, %ymm0, %ymm3
	vpmuludq	%ymm5, %ymm3, %ymm3
	vpmovzxdq	%xmm2, %ymm2
	vinserti128	$1, %xmm0, %ymm0, %ymm0
	vpblendd	$195, %ymm1, %ymm0, %ymm0
	vpshufd	$78, %ymm0, %ymm0
	vpmuludq	%ymm0, %ymm9, %ymm0
	vpmuludq	%ymm2, %ymm10, %ymm2
	vpmuludq	%ymm4, %ymm1, %ymm1
	vpxor	%ymm3, %ymm1, %ymm1
	vpxor	%ymm2, %ymm1, %ymm1
	vpxor	%ymm0, %ymm1, %ymm0
	vpand	.Lluossavin_x86_64_v3.CPI16_13(%rip), %ymm0, %ymm0
	vextracti128	$1, %ymm0, %xmm1
	vpor	%xmm1, %xmm0, %xmm0
	vpshufd	$238, %xmm0, %xmm1
	vpor	%xmm1, %xmm0, %xmm0
	vmovq	%xmm0, -128(%rsp,%rsi,8)
	incq	%rsi
	cmpq	%rsi, %rdx
	jne	.Lluossavin_x86_64_v3.BB16_15
.Lluossavin_x86_64_v3.BB16_16:
	vmovups	-128(%rsp), %ymm0
	vmovups	-96(%rsp), %ymm1
	vmovups	-64(%rsp), %ymm2
	vmovups	-32(%rsp), %ymm3
	vmovups	%ymm3, 384(%rsp)
	vmovups	%ymm2, 352(%rsp)
	vmovups	%ymm1, 320(%rsp)
	vmovups	%ymm0, 288(%rsp)
	vmovups	%ymm0, 416(%rsp)
	vmovups	%ymm1, 448(%rsp)
	vmovups	%ymm2, 480(%rsp)
	vmovups	%ymm3, 512(%rsp)
	movl	%edx, %eax
	andl	$28, %eax
	vmovdqu	672(%rsp), %ymm0
	vmovdqu	544(%rsp), %ymm1
	vpxor	416(%rsp), %ymm0, %ymm2
	vpxor	%ymm1, %ymm2, %ymm2
	vpsrlq	$32, %ymm2, %ymm3
	vpxor	%ymm0, %ymm3, %ymm0
	vpsllq	$32, %ymm2, %ymm2
	vmovdqu	%ymm0, (%rcx)
	vpxor	%ymm1, %ymm2, %ymm0
	vmovdqu	%ymm0, 128(%rcx)
	cmpq	$4, %rax
	je	.Lluossavin_x86_64_v3.BB16_21
	vmovdqu	704(%rsp), %ymm0
	vmovdqu	576(%rsp), %ymm1
	vpxor	448(%rsp), %ymm0, %ymm2
	vpxor	%ymm1, %ymm2, %ymm2
	vpsrlq	$32, %ymm2, %ymm3
	vpxor	%ymm0, %ymm3, %ymm0
	vpsllq	$32, %ymm2, %ymm2
	vmovdqu	%ymm0, 32(%rcx)
	vpxor	%ymm1, %ymm2, %ymm0
	vmovdqu	%ymm0, 160(%rcx)
	cmpl	$8, %eax
	je	.Lluossavin_x86_64_v3.BB16_21
	vmovdqu	736(%rsp), %ymm0
	vmovdqu	608(%rsp), %ymm1
	vpxor	480(%rsp), %ymm0, %ymm2
	vpxor	%ymm1, %ymm2, %ymm2
	vpsrlq	$32, %ymm2, %ymm3
	vpxor	%ymm0, %ymm3, %ymm0
	vpsllq	$32, %ymm2, %ymm2
	vmovdqu	%ymm0, 64(%rcx)
	vpxor	%ymm1, %ymm2, %ymm0
	vmovdqu	%ymm0, 192(%rcx)
	cmpl	$12, %eax
	je	.Lluossavin_x86_64_v3.BB16_21
	vmovdqu	768(%rsp), %ymm0
	vmovdqu	640(%rsp), %ymm1
	vpxor	512(%rsp), %ymm0, %ymm2
	vpxor	%ymm1, %ymm2, %ymm2
	vpsrlq	$32, %ymm2, %ymm3
	vpxor	%ymm0, %ymm3, %ymm0
	vpsllq	$32, %ymm2, %ymm2
	vpxor	%ymm1, %ymm2, %ymm1
	vmovdqu	%ymm0, 96(%rcx)
	vmovdqu	%ymm1, 224(%rcx)
	jmp	.Lluossavin_x86_64_v3.BB16_21
	.p2align	4
.Lluossavin_x86_64_v3.BB16_20:
	movq	672(%rsp,%rax,8), %rsi
	movq	544(%rsp,%rax,8), %rdi
	movq	416(%rsp,%rax,8), %r8
	xorq	%rsi, %r8
	xorq	%rdi, %r8
	movq	%r8, %r9
	shrq	$32, %r9
	xorq	%rsi, %r9
	shlq	$32, %r8
	xorq	%rdi, %r8
	movq	%r9, (%rcx,%rax,8)
	movq	%r8, 128(%rcx,%rax,8)
	incq	%rax
.Lluossavin_x86_64_v3.BB16_21:
	cmpq	%rax, %rdx
	jne	.Lluossavin_x86_64_v3.BB16_20
	addq	$1512, %rsp
	vzeroupper
	retq
.Lluossavin_x86_64_v3.func_end16:
	.size	"carryless::many::products64.x86_64_v3", .Lluossavin_x86_64_v3.func_end16-"carryless::many::products64.x86_64_v3"

	.section	".text.field::power.x86_64_v3","ax",@progbits
	.p2align	4
	.type	"field::power.x86_64_v3",@function
"field::power.x86_64_v3":
	movabsq	$-9223372036854775808, %rax
	testq	%rdx, %rdx
	je	.Lluossavin_x86_64_v3.BB17_1
	pushq	%rbp
	pushq	%r15
	pushq	%r14
	pushq	%r13
	pushq	%r12
	pushq	%rbx
	pushq	%rax
	movq	%rdx, %rbx
	movq	%rsi, %r14
	movq	%rdi, %r15
	movabsq	$1229782938247303441, %r13
	xorl	%edx, %edx
	jmp	.Lluossavin_x86_64_v3.BB17_4
	.p2align	4
.Lluossavin_x86_64_v3.BB17_6:
	movq	%r15, %rsi
	shrq	$32, %rsi
	movq	%r14, %rcx
	shrq	$32, %rcx
	movl	%esi, %edi
	andl	$286331153, %edi
	movl	%esi, %r8d
	andl	$572662306, %r8d
	movl	%esi, %r9d
	andl	$1145324612, %r9d
	andl	$-2004318072, %esi
	imulq	%rdi, %rdi
	imulq	%r9, %r9
	xorq	%rdi, %r9
	andq	%r13, %r9
	imulq	%r8, %r8
	imulq	%rsi, %rsi
	xorq	%r8, %rsi
	movabsq	$4919131752989213764, %r11
	andq	%r11, %rsi
	orq	%r9, %rsi
	movl	%r15d, %edi
	andl	$286331153, %edi
	movl	%r15d, %r8d
	andl	$572662306, %r8d
	movl	%r15d, %r9d
	andl	$1145324612, %r9d
	andl	$-2004318072, %r15d
	imulq	%rdi, %rdi
	imulq	%r9, %r9
	xorq	%rdi, %r9
	andq	%r13, %r9
	imulq	%r8, %r8
	imulq	%r15, %r15
	xorq	%r8, %r15
	andq	%r11, %r15
	orq	%r9, %r15
	movl	%ecx, %edi
	andl	$286331153, %edi
	movl	%ecx, %r8d
	andl	$572662306, %r8d
	movl	%ecx, %r9d
	andl	$1145324612, %r9d
	andl	$-2004318072, %ecx
	imulq	%rdi, %rdi
	imulq	%r9, %r9
	xorq	%rdi, %r9
	andq	%r13, %r9
	imulq	%r8, %r8
	imulq	%rcx, %rcx
	xorq	%r8, %rcx
	andq	%r11, %rcx
	orq	%r9, %rcx
	movl	%r14d, %r8d
	andl	$286331153, %r8d
	movl	%r14d, %r9d
	andl	$572662306, %r9d
	movl	%r14d, %r10d
	andl	$1145324612, %r10d
	andl	$-2004318072, %r14d
	imulq	%r8, %r8
	imulq	%r10, %r10
	xorq	%r8, %r10
	andq	%r13, %r10
	imulq	%r9, %r9
	imulq	%r14, %r14
	xorq	%r9, %r14
	andq	%r11, %r14
	orq	%r10, %r14
	leaq	(%rcx,%rcx), %r10
	leaq	(%r14,%r14), %r11
	movq	%r14, %rbp
	shrq	%rbp
	movq	%r14, %r9
	shrq	$6, %r9
	xorq	%rbp, %r9
	shlq	$63, %r8
	movq	%r14, %rbp
	shlq	$58, %rbp
	orq	%r8, %rbp
	xorq	%rbp, %r10
	movq	%r10, %r8
	shrq	%r8
	movq	%r10, %r12
	shrq	$2, %r12
	shrq	$7, %r10
	xorq	%r12, %r10
	shlq	$63, %rdi
	movq	%rcx, %r12
	shlq	$58, %r12
	xorq	%r11, %r12
	xorq	%rsi, %rcx
	addq	%rcx, %rcx
	xorq	%r8, %rcx
	xorq	%r10, %rcx
	xorq	%rbp, %rcx
	leaq	(%r14,%r15,2), %r14
	xorq	%rdi, %r14
	xorq	%r9, %r14
	xorq	%r12, %r14
	shrq	%rbx
	movq	%rcx, %r15
	je	.Lluossavin_x86_64_v3.BB17_7
.Lluossavin_x86_64_v3.BB17_4:
	testb	$1, %bl
	je	.Lluossavin_x86_64_v3.BB17_6
	movq	%rax, %rdi
	movq	%rdx, %rsi
	movq	%r15, %rdx
	movq	%r14, %rcx
	callq	"field::galois_mul.x86_64_v3"
	jmp	.Lluossavin_x86_64_v3.BB17_6
.Lluossavin_x86_64_v3.BB17_7:
	addq	$8, %rsp
	popq	%rbx
	popq	%r12
	popq	%r13
	popq	%r14
	popq	%r15
	popq	%rbp
	retq
.Lluossavin_x86_64_v3.BB17_1:
	xorl	%edx, %edx
	retq
.Lluossavin_x86_64_v3.func_end17:
	.size	"field::power.x86_64_v3", .Lluossavin_x86_64_v3.func_end17-"field::power.x86_64_v3"

	.section	.rodata.cst32,"aM",@progbits,32
	.p2align	5, 0x0
.Lluossavin_x86_64_v3.CPI18_0:
	.long	0
	.long	0
	.long	0
	.long	0
	.long	1
	.long	1
	.long	1
	.long	1
	.section	.rodata.cst16,"aM",@progbits,16
	.p2align	4, 0x0
.Lluossavin_x86_64_v3.CPI18_1:
	.long	286331153
	.long	572662306
	.long	1145324612
	.long	2290649224
	.section	".text.field::galois_mul.x86_64_v3","ax",@progbits
	.p2align	4
	.type	"field::galois_mul.x86_64_v3",@function
"field::galois_mul.x86_64_v3":
	subq	$168, %rsp
	movq	%rdx, %rax
	shrq	$32, %rax
	movq	%rcx, %r8
	shrq	$32, %r8
	movq	%rdx, 8(%rsp)
	movq	%rcx, 16(%rsp)
	vmovd	%eax, %xmm0
	vpinsrd	$1, %edx, %xmm0, %xmm0
	vmovdqa	.Lluossavin_x86_64_v3.CPI18_0(%rip), %ymm1
	vpermd	%ymm0, %ymm1, %ymm2
	vbroadcasti128	.Lluossavin_x86_64_v3.CPI18_1(%rip), %ymm0
	vpand	%ymm0, %ymm2, %ymm2
	vmovdqu	%ymm2, 24(%rsp)
	xorl	%edx, %eax
	vmovd	%eax, %xmm2
	vpinsrd	$1, %r8d, %xmm2, %xmm2
	movl	%r8d, %eax
	xorl	%ecx, %eax
	vpermd	%ymm2, %ymm1, %ymm2
	vpand	%ymm0, %ymm2, %ymm2
	vmovdqu	%ymm2, 56(%rsp)
	vmovd	%ecx, %xmm2
	xorq	%rdx, %rcx
	movq	%rcx, %rdx
	shrq	$32, %rdx
	vpinsrd	$1, %eax, %xmm2, %xmm2
	vpermd	%ymm2, %ymm1, %ymm2
	vpand	%ymm0, %ymm2, %ymm2
	vmovdqu	%ymm2, 88(%rsp)
	vmovd	%edx, %xmm2
	vpinsrd	$1, %ecx, %xmm2, %xmm2
	vpermd	%ymm2, %ymm1, %ymm1
	xorl	%ecx, %edx
	vpand	%ymm0, %ymm1, %ymm1
	vmovdqu	%ymm1, 120(%rsp)
	vmovd	%edx, %xmm1
	vpbroadcastd	%xmm1, %xmm1
	vpand	%xmm0, %xmm1, %xmm0
	vmovdqu	%xmm0, 152(%rsp)
	leaq	8(%rsp), %rdx
	vzeroupper
	callq	"field::times.x86_64_v3"
	addq	$168, %rsp
	retq
.Lluossavin_x86_64_v3.func_end18:
	.size	"field::galois_mul.x86_64_v3", .Lluossavin_x86_64_v3.func_end18-"field::galois_mul.x86_64_v3"

	.section	.rodata.cst32,"aM",@progbits,32
	.p2align	5, 0x0
.Lluossavin_x86_64_v3.CPI19_0:
	.long	0
	.long	0
	.long	0
	.long	0
	.long	1
	.long	1
	.long	1
	.long	1
	.section	.rodata.cst16,"aM",@progbits,16
	.p2align	4, 0x0
.Lluossavin_x86_64_v3.CPI19_1:
	.long	286331153
	.long	572662306
	.long	1145324612
	.long	2290649224
	.section	".text.ghash::Ghash::absorb_lengths.x86_64_v3","ax",@progbits
	.p2align	4
	.type	"ghash::Ghash::absorb_lengths.x86_64_v3",@function
"ghash::Ghash::absorb_lengths.x86_64_v3":
	pushq	%r15
	pushq	%r14
	pushq	%rbx
	subq	$160, %rsp
	movq	%rsi, %r8
	movq	(%rsi), %r14
	movq	8(%rsi), %r15
	leaq	(,%rdx,8), %rax
	leaq	(,%rcx,8), %rsi
	movq	%r14, %rdx
	shrq	$32, %rdx
	movq	%r15, %rcx
	xorq	16(%r8), %rax
	xorq	24(%r8), %rsi
	shrq	$32, %rcx
	movq	%r14, (%rsp)
	movq	%r15, 8(%rsp)
	vmovd	%edx, %xmm0
	vpinsrd	$1, %r14d, %xmm0, %xmm0
	vmovdqa	.Lluossavin_x86_64_v3.CPI19_0(%rip), %ymm1
	vpermd	%ymm0, %ymm1, %ymm2
	vbroadcasti128	.Lluossavin_x86_64_v3.CPI19_1(%rip), %ymm0
	vpand	%ymm0, %ymm2, %ymm2
	vmovdqu	%ymm2, 16(%rsp)
	xorl	%r14d, %edx
	vmovd	%edx, %xmm2
	vpinsrd	$1, %ecx, %xmm2, %xmm2
	movq	%rdi, %rbx
	xorl	%r15d, %ecx
	movq	%r15, %rdx
	xorq	%r14, %rdx
	movq	%rdx, %rdi
	shrq	$32, %rdi
	vpermd	%ymm2, %ymm1, %ymm2
	vpand	%ymm0, %ymm2, %ymm2
	vmovdqu	%ymm2, 48(%rsp)
	vmovd	%r15d, %xmm2
	vpinsrd	$1, %ecx, %xmm2, %xmm2
	vpermd	%ymm2, %ymm1, %ymm2
	vpand	%ymm0, %ymm2, %ymm2
	vmovdqu	%ymm2, 80(%rsp)
	vmovd	%edi, %xmm2
	vpinsrd	$1, %edx, %xmm2, %xmm2
	vpermd	%ymm2, %ymm1, %ymm1
	xorl	%edx, %edi
	vpand	%ymm0, %ymm1, %ymm1
	vmovdqu	%ymm1, 112(%rsp)
	vmovd	%edi, %xmm1
	vpbroadcastd	%xmm1, %xmm1
	vpand	%xmm0, %xmm1, %xmm0
	vmovdqu	%xmm0, 144(%rsp)
	movq	%rsp, %rdx
	movq	%rax, %rdi
	vzeroupper
	callq	"field::times.x86_64_v3"
	movq	%r14, (%rbx)
	movq	%r15, 8(%rbx)
	movq	%rax, 16(%rbx)
	movq	%rdx, 24(%rbx)
	addq	$160, %rsp
	popq	%rbx
	popq	%r14
	popq	%r15
	retq
.Lluossavin_x86_64_v3.func_end19:
	.size	"ghash::Ghash::absorb_lengths.x86_64_v3", .Lluossavin_x86_64_v3.func_end19-"ghash::Ghash::absorb_lengths.x86_64_v3"

	.section	.rodata.cst32,"aM",@progbits,32
	.p2align	5, 0x0
.Lluossavin_x86_64_v3.CPI20_0:
	.byte	7
	.byte	6
	.byte	5
	.byte	4
	.byte	3
	.byte	2
	.byte	1
	.byte	0
	.byte	15
	.byte	14
	.byte	13
	.byte	12
	.byte	11
	.byte	10
	.byte	9
	.byte	8
	.byte	7
	.byte	6
	.byte	5
	.byte	4
	.byte	3
	.byte	2
	.byte	1
	.byte	0
	.byte	15
	.byte	14
	.byte	13
	.byte	12
	.byte	11
	.byte	10
	.byte	9
	.byte	8
	.section	".text.pieces::hashing::Hashing::take_in.x86_64_v3","ax",@progbits
	.p2align	4
	.type	"pieces::hashing::Hashing::take_in.x86_64_v3",@function
"pieces::hashing::Hashing::take_in.x86_64_v3":
	pushq	%rbp
	pushq	%r15
	pushq	%r14
	pushq	%r13
	pushq	%r12
	pushq	%rbx
	subq	$232, %rsp
	movq	%r8, %r15
	movq	%rdx, %r13
	vmovups	16(%rsi), %xmm0
	vmovaps	%xmm0, 16(%rsp)
	movq	%rsi, 8(%rsp)
	vmovups	32(%rsi), %xmm0
	vmovaps	%xmm0, 96(%rsp)
	movl	$16, %r14d
	subq	%rdx, %r14
	cmpq	%r8, %r14
	movq	%r8, %rbp
	cmovbq	%r14, %rbp
	movq	%rcx, %r12
	movq	%rdi, %rbx
	vxorps	%xmm0, %xmm0, %xmm0
	vmovaps	%xmm0, 32(%rsp)
	leaq	32(%rsp), %rdi
	leaq	96(%rsp), %rsi
	callq	memcpy@PLT
	leaq	(%rsp,%r13), %rdi
	addq	$32, %rdi
	movq	%r12, %r13
	movq	%r12, %rsi
	movq	%rbp, %rdx
	callq	memcpy@PLT
	subq	%r14, %r15
	jae	.Lluossavin_x86_64_v3.BB20_2
	movq	8(%rsp), %rax
	vmovups	(%rax), %xmm0
	vmovups	%xmm0, (%rbx)
	vmovdqa	16(%rsp), %xmm1
	vmovd	%xmm1, 16(%rbx)
	vmovaps	32(%rsp), %xmm0
	vmovups	%xmm0, 32(%rbx)
	vpextrd	$1, %xmm1, %ebp
	vpextrd	$2, %xmm1, %r13d
	vpextrd	$3, %xmm1, %r14d
	jmp	.Lluossavin_x86_64_v3.BB20_3
.Lluossavin_x86_64_v3.BB20_2:
	vxorps	%xmm0, %xmm0, %xmm0
	vmovups	%ymm0, 160(%rsp)
	movq	8(%rsp), %rax
	vmovups	(%rax), %xmm1
	vmovaps	%xmm1, 96(%rsp)
	addq	%r14, %r13
	movq	%r13, 56(%rsp)
	vmovaps	16(%rsp), %xmm1
	vmovaps	%xmm1, 112(%rsp)
	leaq	128(%rsp), %rdx
	vmovaps	32(%rsp), %xmm1
	vmovaps	%xmm1, 128(%rsp)
	movl	%r15d, %eax
	andl	$15, %eax
	movq	%rax, 16(%rsp)
	andq	$-16, %r15
	vmovdqu	96(%rsp), %ymm1
	vpshufb	.Lluossavin_x86_64_v3.CPI20_0(%rip), %ymm1, %ymm1
	vmovdqu	%ymm1, 64(%rsp)
	vmovups	%ymm0, 192(%rsp)
	leaq	192(%rsp), %rbp
	leaq	64(%rsp), %rsi
	movl	$16, %ecx
	movq	%rbp, %rdi
	vzeroupper
	callq	"ghash::Ghash::absorb_each.x86_64_v3"
	leaq	160(%rsp), %rdi
	movq	%rbp, %rsi
	movq	%r13, %rdx
	movq	%r15, %rcx
	callq	"ghash::Ghash::absorb_all.x86_64_v3"
	movq	176(%rsp), %rbp
	movq	184(%rsp), %r14
	movq	%rbp, %r12
	shrq	$32, %r12
	movq	%r14, %r13
	shrq	$32, %r13
	bswapl	%ebp
	bswapl	%r13d
	bswapl	%r14d
	addq	56(%rsp), %r15
	vxorps	%xmm0, %xmm0, %xmm0
	vmovaps	%xmm0, 64(%rsp)
	leaq	64(%rsp), %rdi
	movq	%r15, %rsi
	movq	16(%rsp), %rdx
	callq	memcpy@PLT
	vmovaps	64(%rsp), %xmm0
	vmovaps	%xmm0, 144(%rsp)
	movq	8(%rsp), %rax
	vmovups	(%rax), %xmm0
	vmovups	%xmm0, (%rbx)
	movbel	%r12d, 16(%rbx)
	vmovaps	144(%rsp), %xmm0
	vmovups	%xmm0, 32(%rbx)
.Lluossavin_x86_64_v3.BB20_3:
	movl	%ebp, 20(%rbx)
	movl	%r13d, 24(%rbx)
	movl	%r14d, 28(%rbx)
	addq	$232, %rsp
	popq	%rbx
	popq	%r12
	popq	%r13
	popq	%r14
	popq	%r15
	popq	%rbp
	retq
.Lluossavin_x86_64_v3.func_end20:
	.size	"pieces::hashing::Hashing::take_in.x86_64_v3", .Lluossavin_x86_64_v3.func_end20-"pieces::hashing::Hashing::take_in.x86_64_v3"

	.section	.rodata.cst32,"aM",@progbits,32
	.p2align	5, 0x0
.Lluossavin_x86_64_v3.CPI21_0:
	.byte	3
	.byte	2
	.byte	1
	.byte	0
	.byte	7
	.byte	6
	.byte	5
	.byte	4
	.byte	11
	.byte	10
	.byte	9
	.byte	8
	.byte	15
	.byte	14
	.byte	13
	.byte	12
	.byte	3
	.byte	2
	.byte	1
	.byte	0
	.byte	7
	.byte	6
	.byte	5
	.byte	4
	.byte	11
	.byte	10
	.byte	9
	.byte	8
	.byte	15
	.byte	14
	.byte	13
	.byte	12
	.section	.rodata.cst16,"aM",@progbits,16
	.p2align	4, 0x0
.Lluossavin_x86_64_v3.CPI21_1:
	.byte	3
	.byte	2
	.byte	1
	.byte	0
	.byte	7
	.byte	6
	.byte	5
	.byte	4
	.byte	11
	.byte	10
	.byte	9
	.byte	8
	.byte	15
	.byte	14
	.byte	13
	.byte	12
	.section	".text.pieces::tagging::begin.x86_64_v3","ax",@progbits
	.p2align	4
	.type	"pieces::tagging::begin.x86_64_v3",@function
"pieces::tagging::begin.x86_64_v3":
	pushq	%rbp
	pushq	%r15
	pushq	%r14
	pushq	%r13
	pushq	%r12
	pushq	%rbx
	subq	$312, %rsp
	movq	%r9, %r13
	movq	%r8, 112(%rsp)
	movq	%rcx, 88(%rsp)
	movq	%rdx, %r14
	movq	%rdi, %rbx
	vmovups	(%rdx), %ymm0
	vmovups	32(%rdx), %ymm1
	vmovups	64(%rdx), %ymm2
	vmovups	96(%rdx), %ymm3
	vmovups	%ymm0, 144(%rsp)
	vmovups	%ymm1, 176(%rsp)
	vmovups	%ymm2, 208(%rsp)
	movq	368(%rsp), %r15
	vmovups	%ymm3, 240(%rsp)
	vxorps	%xmm0, %xmm0, %xmm0
	vmovaps	%xmm0, 16(%rsp)
	vmovaps	%xmm0, 48(%rsp)
	leaq	16(%rsp), %rdi
	leaq	144(%rsp), %rdx
	leaq	48(%rsp), %rcx
	movl	%esi, 12(%rsp)
	vzeroupper
	callq	"cipher::encrypt.x86_64_v3"
	vmovaps	16(%rsp), %xmm0
	vmovups	%ymm0, 272(%rsp)
	vshufps	$177, %xmm0, %xmm0, %xmm1
	cmpq	$12, %r15
	jne	.Lluossavin_x86_64_v3.BB21_2
	movbel	(%r13), %r15d
	movbel	4(%r13), %ebp
	movbel	8(%r13), %r13d
	movl	$1, %r12d
	jmp	.Lluossavin_x86_64_v3.BB21_3
.Lluossavin_x86_64_v3.BB21_2:
	vxorps	%xmm0, %xmm0, %xmm0
	vmovups	%ymm0, 16(%rsp)
	vmovaps	%xmm1, 48(%rsp)
	vxorps	%xmm0, %xmm0, %xmm0
	vmovaps	%xmm0, 64(%rsp)
	leaq	16(%rsp), %r12
	leaq	48(%rsp), %rsi
	movq	%r12, %rdi
	movq	%r13, %rdx
	movq	%r15, %rcx
	vmovaps	%xmm1, 96(%rsp)
	vzeroupper
	callq	"ghash::Ghash::absorb_all.x86_64_v3"
	leaq	144(%rsp), %rdi
	movq	%r12, %rsi
	xorl	%edx, %edx
	movq	%r15, %rcx
	callq	"ghash::Ghash::absorb_lengths.x86_64_v3"
	vmovaps	96(%rsp), %xmm1
	movq	160(%rsp), %rbp
	movq	168(%rsp), %r12
	movq	%rbp, %r15
	shrq	$32, %r15
	movq	%r12, %r13
	shrq	$32, %r13
.Lluossavin_x86_64_v3.BB21_3:
	vxorps	%xmm0, %xmm0, %xmm0
	vmovups	%ymm0, 144(%rsp)
	vmovups	%xmm1, 16(%rsp)
	vxorps	%xmm0, %xmm0, %xmm0
	vmovups	%xmm0, 32(%rsp)
	leaq	144(%rsp), %rdi
	leaq	16(%rsp), %rsi
	movq	88(%rsp), %rdx
	movq	112(%rsp), %rcx
	vzeroupper
	callq	"ghash::Ghash::absorb_all.x86_64_v3"
	vpshufd	$177, 160(%rsp), %xmm0
	vmovdqu	272(%rsp), %ymm1
	vinserti128	$1, %xmm0, %ymm1, %ymm0
	vpshufb	.Lluossavin_x86_64_v3.CPI21_0(%rip), %ymm0, %ymm0
	vmovdqu	%ymm0, 112(%rsp)
	vmovups	(%r14), %ymm0
	vmovups	32(%r14), %ymm1
	vmovups	64(%r14), %ymm2
	vmovups	96(%r14), %ymm3
	vmovups	%ymm0, 144(%rsp)
	vmovups	%ymm1, 176(%rsp)
	vmovups	%ymm2, 208(%rsp)
	vmovups	%ymm3, 240(%rsp)
	movl	%r15d, 16(%rsp)
	movl	%ebp, 20(%rsp)
	movl	%r13d, 24(%rsp)
	movl	%r12d, 28(%rsp)
	vxorps	%xmm0, %xmm0, %xmm0
	vmovaps	%xmm0, 48(%rsp)
	movzbl	12(%rsp), %esi
	leaq	48(%rsp), %rdi
	leaq	144(%rsp), %rdx
	leaq	16(%rsp), %rcx
	vzeroupper
	callq	"cipher::encrypt.x86_64_v3"
	vmovdqa	48(%rsp), %xmm0
	vbroadcasti128	.Lluossavin_x86_64_v3.CPI21_1(%rip), %ymm1
	vpshufb	%xmm1, %xmm0, %xmm0
	movl	%r15d, (%rbx)
	movl	%ebp, 4(%rbx)
	movl	%r13d, 8(%rbx)
	movl	%r12d, 12(%rbx)
	movl	%r12d, 16(%rbx)
	vmovups	112(%rsp), %ymm1
	vmovups	%ymm1, 20(%rbx)
	vxorps	%xmm1, %xmm1, %xmm1
	vmovups	%xmm1, 52(%rbx)
	vmovdqu	%xmm0, 68(%rbx)
	addq	$312, %rsp
	popq	%rbx
	popq	%r12
	popq	%r13
	popq	%r14
	popq	%r15
	popq	%rbp
	vzeroupper
	retq
.Lluossavin_x86_64_v3.func_end21:
	.size	"pieces::tagging::begin.x86_64_v3", .Lluossavin_x86_64_v3.func_end21-"pieces::tagging::begin.x86_64_v3"

	.section	.rodata.cst16,"aM",@progbits,16
	.p2align	4, 0x0
.Lluossavin_x86_64_v3.CPI22_0:
	.byte	3
	.byte	2
	.byte	1
	.byte	0
	.byte	7
	.byte	6
	.byte	5
	.byte	4
	.byte	128
	.byte	128
	.byte	128
	.byte	128
	.byte	128
	.byte	128
	.byte	128
	.byte	128
.Lluossavin_x86_64_v3.CPI22_1:
	.long	0
	.long	1
	.long	2
	.long	3
.Lluossavin_x86_64_v3.CPI22_2:
	.long	4
	.long	5
	.long	6
	.long	7
.Lluossavin_x86_64_v3.CPI22_3:
	.byte	3
	.byte	2
	.byte	1
	.byte	0
	.byte	7
	.byte	6
	.byte	5
	.byte	4
	.byte	11
	.byte	10
	.byte	9
	.byte	8
	.byte	15
	.byte	14
	.byte	13
	.byte	12
.Lluossavin_x86_64_v3.CPI22_6:
	.long	8
	.long	9
	.long	10
	.long	11
.Lluossavin_x86_64_v3.CPI22_7:
	.long	12
	.long	13
	.long	14
	.long	15
.Lluossavin_x86_64_v3.CPI22_8:
	.long	16
	.long	17
	.long	18
	.long	19
.Lluossavin_x86_64_v3.CPI22_9:
	.long	20
	.long	21
	.long	22
	.long	23
.Lluossavin_x86_64_v3.CPI22_10:
	.long	16777216
	.long	33554432
	.long	50331648
	.long	67108864
.Lluossavin_x86_64_v3.CPI22_11:
	.long	83886080
	.long	100663296
	.long	117440512
	.long	134217728
.Lluossavin_x86_64_v3.CPI22_12:
	.long	150994944
	.long	167772160
	.long	184549376
	.long	201326592
.Lluossavin_x86_64_v3.CPI22_13:
	.long	218103808
	.long	234881024
	.long	251658240
	.long	268435456
.Lluossavin_x86_64_v3.CPI22_14:
	.long	285212672
	.long	301989888
	.long	318767104
	.long	335544320
.Lluossavin_x86_64_v3.CPI22_15:
	.long	352321536
	.long	369098752
	.long	385875968
	.long	402653184
.Lluossavin_x86_64_v3.CPI22_16:
	.byte	3
	.byte	2
	.byte	1
	.byte	0
	.byte	7
	.byte	6
	.byte	5
	.byte	4
	.zero	1
	.zero	1
	.zero	1
	.zero	1
	.zero	1
	.zero	1
	.zero	1
	.zero	1
.Lluossavin_x86_64_v3.CPI22_17:
	.long	16
	.long	8
	.zero	4
	.zero	4
.Lluossavin_x86_64_v3.CPI22_18:
	.long	16
	.long	8
	.long	0
	.long	0
.Lluossavin_x86_64_v3.CPI22_19:
	.byte	255
	.byte	0
	.byte	0
	.byte	0
	.byte	255
	.byte	0
	.byte	0
	.byte	0
	.byte	255
	.byte	0
	.byte	0
	.byte	0
	.byte	0
	.byte	0
	.byte	0
	.byte	0
.Lluossavin_x86_64_v3.CPI22_20:
	.zero	4
	.long	24
	.zero	4
	.zero	4
.Lluossavin_x86_64_v3.CPI22_22:
	.short	13
	.short	0
	.short	12
	.short	11
	.short	10
	.short	9
	.short	8
	.short	7
.Lluossavin_x86_64_v3.CPI22_27:
	.long	0
	.long	2
	.long	4
	.long	6
	.section	.rodata.cst32,"aM",@progbits,32
	.p2align	5, 0x0
.Lluossavin_x86_64_v3.CPI22_4:
	.zero	4
	.zero	4
	.long	0
	.long	4
	.zero	4
	.zero	4
	.long	1
	.long	5
.Lluossavin_x86_64_v3.CPI22_5:
	.zero	4
	.zero	4
	.long	2
	.long	6
	.zero	4
	.zero	4
	.long	3
	.long	7
.Lluossavin_x86_64_v3.CPI22_21:
	.quad	6
	.quad	5
	.quad	4
	.quad	3
.Lluossavin_x86_64_v3.CPI22_25:
	.zero	4
	.long	0
	.zero	4
	.long	2
	.zero	4
	.zero	4
	.long	2
	.long	1
.Lluossavin_x86_64_v3.CPI22_26:
	.byte	0
	.byte	1
	.byte	4
	.byte	5
	.zero	1
	.zero	1
	.zero	1
	.zero	1
	.byte	8
	.byte	9
	.byte	12
	.byte	13
	.zero	1
	.zero	1
	.zero	1
	.zero	1
	.byte	16
	.byte	17
	.byte	20
	.byte	21
	.zero	1
	.zero	1
	.zero	1
	.zero	1
	.byte	24
	.byte	25
	.byte	28
	.byte	29
	.zero	1
	.zero	1
	.zero	1
	.zero	1
	.section	.rodata.cst4,"aM",@progbits,4
	.p2align	2, 0x0
.Lluossavin_x86_64_v3.CPI22_23:
	.long	3
.Lluossavin_x86_64_v3.CPI22_24:
	.long	255
.Lluossavin_x86_64_v3.CPI22_28:
	.long	24
	.section	".text.cipher_mode::Sm4CipherMode::call.x86_64_v3","ax",@progbits
	.p2align	4
	.type	"cipher_mode::Sm4CipherMode::call.x86_64_v3",@function
"cipher_mode::Sm4CipherMode::call.x86_64_v3":
	pushq	%rbp
	pushq	%r15
	pushq	%r14
	pushq	%r13
	pushq	%r12
	pushq	%rbx
	subq	$3072, %rsp
	movq	$0, (%rsp)
	subq	$1704, %rsp
	movzbl	128(%rsi), %r12d
	movzwl	130(%rsi), %ebx
	movzbl	132(%rsi), %eax
	movzbl	133(%rsi), %r10d
	movzbl	136(%rsi), %r11d
	movb	$0, 172(%rsp)
	movl	$0, 168(%rsp)
	movl	$0, 232(%rsp)
	movw	$0, 236(%rsp)
	movl	$0, 128(%rsp)
	movl	$0, 131(%rsp)
	movl	$0, 152(%rsp)
	movl	$0, 155(%rsp)
	vpxor	%xmm0, %xmm0, %xmm0
	vmovdqu	%ymm0, 2112(%rsp)
	vmovdqu	%ymm0, 2144(%rsp)
	vmovdqu	%ymm0, 2176(%rsp)
	vmovdqu	%ymm0, 2208(%rsp)
	movl	$0, 2239(%rsp)
	testl	%r12d, %r12d
	je	.Lluossavin_x86_64_v3.BB22_3
	cmpl	$1, %r12d
	jne	.Lluossavin_x86_64_v3.BB22_6
	xorl	%eax, %eax
	jmp	.Lluossavin_x86_64_v3.BB22_7
.Lluossavin_x86_64_v3.BB22_3:
	movq	4848(%rsp), %r13
	cmpl	$4, %r11d
	setne	%bpl
	cmpq	$12, %r13
	setne	%r14b
	cmpq	$16, %r13
	je	.Lluossavin_x86_64_v3.BB22_10
	orb	%bpl, %r14b
	je	.Lluossavin_x86_64_v3.BB22_10
	xorl	%ecx, %ecx
	movb	$8, %al
	jmp	.Lluossavin_x86_64_v3.BB22_8
.Lluossavin_x86_64_v3.BB22_6:
	movb	$11, %al
.Lluossavin_x86_64_v3.BB22_7:
	xorl	%ecx, %ecx
.Lluossavin_x86_64_v3.BB22_8:
	movl	$0, 131(%rsp)
	movl	$0, 128(%rsp)
	movb	$1, %bpl
	xorl	%r14d, %r14d
	xorl	%r13d, %r13d
.Lluossavin_x86_64_v3.BB22_9:
	xorl	%edx, %edx
	testb	%r12b, %r12b
	cmovnel	%edx, %ebx
	movb	%bpl, (%rdi)
	movb	%al, 1(%rdi)
	movb	%cl, 2(%rdi)
	movl	168(%rsp), %eax
	movl	%eax, 3(%rdi)
	movzbl	172(%rsp), %eax
	movb	%al, 7(%rdi)
	movq	%r14, 8(%rdi)
	movb	%r13b, 16(%rdi)
	movl	128(%rsp), %eax
	movl	131(%rsp), %ecx
	movl	%eax, 17(%rdi)
	movl	%ecx, 20(%rdi)
	movw	%bx, 24(%rdi)
	movl	232(%rsp), %eax
	movl	%eax, 26(%rdi)
	movzwl	236(%rsp), %eax
	movw	%ax, 30(%rdi)
	addq	$4776, %rsp
	popq	%rbx
	popq	%r12
	popq	%r13
	popq	%r14
	popq	%r15
	popq	%rbp
	vzeroupper
	retq
.Lluossavin_x86_64_v3.BB22_10:
	testb	%dl, %dl
	jne	.Lluossavin_x86_64_v3.BB22_13
	testb	$1, %al
	je	.Lluossavin_x86_64_v3.BB22_13
	xorl	%ecx, %ecx
	movb	$12, %al
	jmp	.Lluossavin_x86_64_v3.BB22_8
.Lluossavin_x86_64_v3.BB22_13:
	cmpl	$4, %r11d
	sete	%bpl
	cmpq	$16777217, %r8
	setae	%r14b
	movb	$4, %al
	testb	%bpl, %r14b
	jne	.Lluossavin_x86_64_v3.BB22_7
	movq	4832(%rsp), %r14
	leal	-3(%r11), %ebp
	xorl	%r15d, %r15d
	cmpb	$2, %bpl
	setb	%r15b
	shll	$4, %r15d
	orq	$16777216, %r15
	cmpb	$1, %dl
	movl	$16777216, %ebp
	cmoveq	%r15, %rbp
	cmpq	%r14, %rbp
	jb	.Lluossavin_x86_64_v3.BB22_7
	cmpb	$1, %dl
	jne	.Lluossavin_x86_64_v3.BB22_20
	cmpl	$3, %r11d
	jb	.Lluossavin_x86_64_v3.BB22_21
	cmpl	$4, %r11d
	jne	.Lluossavin_x86_64_v3.BB22_32
	cmpq	$15, %r14
	ja	.Lluossavin_x86_64_v3.BB22_21
	movb	$16, %cl
	subb	%r14b, %cl
	movb	$7, %al
	jmp	.Lluossavin_x86_64_v3.BB22_8
.Lluossavin_x86_64_v3.BB22_20:
	testb	%dl, %dl
	je	.Lluossavin_x86_64_v3.BB22_26
.Lluossavin_x86_64_v3.BB22_21:
	leaq	-16(%r14), %rax
	cmpl	$4, %r11d
	cmovneq	%r14, %rax
.Lluossavin_x86_64_v3.BB22_22:
	cmpq	%rax, 4864(%rsp)
	jae	.Lluossavin_x86_64_v3.BB22_24
	movb	$5, %al
	jmp	.Lluossavin_x86_64_v3.BB22_7
.Lluossavin_x86_64_v3.BB22_24:
	movl	%r11d, %eax
	leaq	.Lluossavin_x86_64_v3.JTI22_0(%rip), %r11
	movslq	(%r11,%rax,4), %r15
	addq	%r11, %r15
	jmpq	*%r15
.Lluossavin_x86_64_v3.BB22_25:
	testb	%dl, %dl
	setne	%r11b
	jmp	.Lluossavin_x86_64_v3.BB22_30
.Lluossavin_x86_64_v3.BB22_26:
	movq	%r14, %rax
	cmpl	$3, %r11d
	jb	.Lluossavin_x86_64_v3.BB22_22
	cmpl	$4, %r11d
	jne	.Lluossavin_x86_64_v3.BB22_52
	leaq	16(%r14), %rax
	jmp	.Lluossavin_x86_64_v3.BB22_22
.Lluossavin_x86_64_v3.BB22_29:
	movb	$1, %r11b
.Lluossavin_x86_64_v3.BB22_30:
	decb	%r10b
	cmpb	$3, %r10b
	movzbl	%r11b, %r11d
	movzbl	%r10b, %ebp
	cmovael	%r11d, %ebp
	leaq	2115(%rsp), %r11
	vmovups	(%rsi), %ymm0
	vmovups	32(%rsi), %ymm1
	vmovups	64(%rsi), %ymm2
	vmovups	96(%rsi), %ymm3
	vmovups	%ymm3, 2211(%rsp)
	vmovups	%ymm2, 2179(%rsp)
	vmovups	%ymm1, 2147(%rsp)
	vmovups	%ymm0, 2115(%rsp)
	movl	$0, 43(%rsp)
	movl	$0, 40(%rsp)
	leaq	.Lluossavin_x86_64_v3.JTI22_1(%rip), %r10
	movslq	(%r10,%rax,4), %rax
	addq	%r10, %rax
	movzbl	%bpl, %r10d
	jmpq	*%rax
.Lluossavin_x86_64_v3.BB22_31:
	movq	4840(%rsp), %rax
	vmovdqu	(%rax), %xmm0
	vpshufb	.Lluossavin_x86_64_v3.CPI22_3(%rip), %xmm0, %xmm0
	vmovdqa	%xmm0, 544(%rsp)
	vmovdqu	(%rsi), %ymm0
	vmovdqu	32(%rsi), %ymm1
	vmovdqu	64(%rsi), %ymm2
	vmovdqu	96(%rsi), %ymm3
	vmovdqu	%ymm0, 2256(%rsp)
	vmovdqu	%ymm1, 2288(%rsp)
	vmovdqu	%ymm2, 2320(%rsp)
	vmovdqu	%ymm3, 2352(%rsp)
	movq	4864(%rsp), %rax
	movq	%rax, 24(%rsp)
	movq	4856(%rsp), %rax
	movq	%rax, 16(%rsp)
	movq	%r14, 8(%rsp)
	movq	%r9, (%rsp)
	movzbl	%dl, %ecx
	leaq	1056(%rsp), %rax
	leaq	2256(%rsp), %rdx
	leaq	544(%rsp), %r8
	xorl	%ebp, %ebp
	movq	%rdi, %r15
	movq	%rax, %rdi
	movl	%r10d, %esi
	xorl	%r9d, %r9d
	vzeroupper
	callq	"stream::stream.x86_64_v3"
	movq	%r15, %rdi
	movl	$0, 40(%rsp)
	movl	$0, 43(%rsp)
	xorl	%eax, %eax
	xorl	%r13d, %r13d
	jmp	.Lluossavin_x86_64_v3.BB22_170
.Lluossavin_x86_64_v3.BB22_32:
	testq	%r14, %r14
	je	.Lluossavin_x86_64_v3.BB22_53
	testb	$15, %r14b
	je	.Lluossavin_x86_64_v3.BB22_21
	movb	$1, %al
	jmp	.Lluossavin_x86_64_v3.BB22_7
.Lluossavin_x86_64_v3.BB22_35:
	movq	%rdi, %r15
	decb	%r10b
	xorl	%eax, %eax
	cmpb	$3, %r10b
	movzbl	%r10b, %ebp
	cmovael	%eax, %ebp
	leaq	2115(%rsp), %r11
	vmovups	(%rsi), %ymm0
	vmovups	32(%rsi), %ymm1
	vmovups	64(%rsi), %ymm2
	vmovups	96(%rsi), %ymm3
	vmovups	%ymm3, 2211(%rsp)
	vmovups	%ymm2, 2179(%rsp)
	vmovups	%ymm1, 2147(%rsp)
	vmovups	%ymm0, 2115(%rsp)
	movl	$0, 43(%rsp)
	movl	$0, 40(%rsp)
	jmp	.Lluossavin_x86_64_v3.BB22_51
.Lluossavin_x86_64_v3.BB22_36:
	movl	%r10d, 192(%rsp)
	movq	%rsi, 72(%rsp)
	movq	%rcx, 184(%rsp)
	movq	%r8, 176(%rsp)
	movq	%r9, 48(%rsp)
	movq	%rdi, 88(%rsp)
	leaq	2256(%rsp), %rdi
	movl	%edx, 480(%rsp)
	movl	$552, %edx
	xorl	%esi, %esi
	vzeroupper
	callq	memset@PLT
	leaq	-16(%r14), %rax
	movq	%rax, 472(%rsp)
	vxorps	%xmm0, %xmm0, %xmm0
	vmovups	%ymm0, 4272(%rsp)
	vmovups	%ymm0, 4304(%rsp)
	vmovups	%ymm0, 4336(%rsp)
	vmovups	%ymm0, 4368(%rsp)
	vmovups	%ymm0, 4400(%rsp)
	vmovups	%ymm0, 4432(%rsp)
	vmovups	%ymm0, 4464(%rsp)
	vmovups	%ymm0, 4496(%rsp)
	vmovups	%ymm0, 4528(%rsp)
	vmovups	%ymm0, 4560(%rsp)
	vmovups	%ymm0, 4592(%rsp)
	vmovups	%ymm0, 4624(%rsp)
	vmovups	%ymm0, 4656(%rsp)
	vmovups	%ymm0, 4688(%rsp)
	vmovups	%ymm0, 4720(%rsp)
	vmovups	%ymm0, 4736(%rsp)
	cmpb	$0, 480(%rsp)
	movl	$0, 136(%rsp)
	movl	$0, 139(%rsp)
	movl	$0, 283(%rsp)
	movl	$0, 280(%rsp)
	movl	$0, 160(%rsp)
	movl	$0, 163(%rsp)
	movl	$0, 272(%rsp)
	cmoveq	%r14, %rax
	vmovups	%ymm0, 3776(%rsp)
	vmovups	%ymm0, 3808(%rsp)
	vmovups	%ymm0, 3840(%rsp)
	vmovups	%ymm0, 3872(%rsp)
	vmovups	%ymm0, 3904(%rsp)
	vmovups	%ymm0, 3936(%rsp)
	vmovups	%ymm0, 3968(%rsp)
	vmovups	%ymm0, 4000(%rsp)
	vmovups	%ymm0, 4032(%rsp)
	vmovups	%ymm0, 4064(%rsp)
	vmovups	%ymm0, 4096(%rsp)
	vmovups	%ymm0, 4128(%rsp)
	vmovups	%ymm0, 4160(%rsp)
	vmovups	%ymm0, 4192(%rsp)
	vmovups	%ymm0, 4224(%rsp)
	vmovups	%ymm0, 4240(%rsp)
	vmovups	%ymm0, 3280(%rsp)
	vmovups	%ymm0, 3312(%rsp)
	vmovups	%ymm0, 3344(%rsp)
	vmovups	%ymm0, 3376(%rsp)
	vmovups	%ymm0, 3408(%rsp)
	vmovups	%ymm0, 3440(%rsp)
	vmovups	%ymm0, 3472(%rsp)
	vmovups	%ymm0, 3504(%rsp)
	vmovups	%ymm0, 3536(%rsp)
	vmovups	%ymm0, 3568(%rsp)
	vmovups	%ymm0, 3600(%rsp)
	vmovups	%ymm0, 3632(%rsp)
	vmovups	%ymm0, 3664(%rsp)
	vmovups	%ymm0, 3696(%rsp)
	vmovups	%ymm0, 3728(%rsp)
	movl	$0, 275(%rsp)
	vmovups	%ymm0, 3744(%rsp)
	movq	%rax, 56(%rsp)
	cmpq	$479, %rax
	ja	.Lluossavin_x86_64_v3.BB22_54
	cmpb	$1, %bpl
	jne	.Lluossavin_x86_64_v3.BB22_54
	cmpq	$12, %r13
	movq	72(%rsp), %r15
	jne	.Lluossavin_x86_64_v3.BB22_63
	movq	4840(%rsp), %rax
	vmovq	(%rax), %xmm0
	movl	8(%rax), %edi
	vmovdqu	(%r15), %ymm1
	vmovdqu	32(%r15), %ymm2
	vmovdqu	64(%r15), %ymm3
	vmovdqu	96(%r15), %ymm4
	vmovdqu	%ymm1, 336(%rsp)
	vmovdqu	%ymm2, 368(%rsp)
	vmovdqu	%ymm3, 400(%rsp)
	vmovdqu	%ymm4, 432(%rsp)
	movq	56(%rsp), %rcx
	movq	%rcx, %r13
	shrq	$4, %r13
	vpxor	%xmm1, %xmm1, %xmm1
	vmovdqu	%ymm1, 1056(%rsp)
	vmovdqu	%ymm1, 1088(%rsp)
	vmovdqu	%ymm1, 1120(%rsp)
	vmovdqu	%ymm1, 1152(%rsp)
	vmovdqu	%ymm1, 1184(%rsp)
	vmovdqu	%ymm1, 1216(%rsp)
	vmovdqu	%ymm1, 1248(%rsp)
	vmovdqu	%ymm1, 1280(%rsp)
	vmovdqu	%ymm1, 1312(%rsp)
	vmovdqu	%ymm1, 1344(%rsp)
	vmovdqu	%ymm1, 1376(%rsp)
	vmovdqu	%ymm1, 1408(%rsp)
	vmovdqu	%ymm1, 1440(%rsp)
	vmovdqu	%ymm1, 1472(%rsp)
	vmovdqu	%ymm1, 1504(%rsp)
	vmovdqu	%ymm1, 1536(%rsp)
	leaq	2(%r13), %rax
	cmpq	$96, %rcx
	jae	.Lluossavin_x86_64_v3.BB22_74
	xorl	%ecx, %ecx
	jmp	.Lluossavin_x86_64_v3.BB22_78
.Lluossavin_x86_64_v3.BB22_41:
	movq	%rdi, %r15
	movq	4840(%rsp), %rbp
	vmovdqu	(%rbp), %xmm0
	vpshufb	.Lluossavin_x86_64_v3.CPI22_3(%rip), %xmm0, %xmm0
	vmovdqa	%xmm0, 544(%rsp)
	vmovdqu	(%rsi), %ymm0
	vmovdqu	32(%rsi), %ymm1
	vmovdqu	64(%rsi), %ymm2
	vmovdqu	96(%rsi), %ymm3
	vmovdqu	%ymm0, 2256(%rsp)
	vmovdqu	%ymm1, 2288(%rsp)
	vmovdqu	%ymm2, 2320(%rsp)
	vmovdqu	%ymm3, 2352(%rsp)
	movq	4864(%rsp), %rax
	movq	%rax, 24(%rsp)
	movq	4856(%rsp), %rax
	movq	%rax, 16(%rsp)
	movq	%r14, 8(%rsp)
	movq	%r9, (%rsp)
	leaq	1056(%rsp), %rdi
	leaq	2256(%rsp), %rdx
	leaq	544(%rsp), %r8
	xorl	%r13d, %r13d
	movl	%r10d, %esi
	movl	$3, %ecx
	xorl	%r9d, %r9d
	vzeroupper
	callq	"stream::stream.x86_64_v3"
	testq	%r14, %r14
	je	.Lluossavin_x86_64_v3.BB22_43
	movq	8(%rbp), %rax
	movq	%r14, %rcx
	shrq	$4, %rcx
	movl	%r14d, %edx
	andl	$15, %edx
	xorl	%esi, %esi
	negq	%rdx
	sbbq	%rsi, %rsi
	bswapq	%rax
	subq	%rcx, %rsi
	cmpq	$-1, (%rbp)
	sete	%cl
	cmpq	%rsi, %rax
	seta	%r13b
	andb	%cl, %r13b
.Lluossavin_x86_64_v3.BB22_43:
	movq	%r15, %rdi
	movl	$0, 43(%rsp)
	movl	$0, 40(%rsp)
	xorl	%ebp, %ebp
	xorl	%eax, %eax
	jmp	.Lluossavin_x86_64_v3.BB22_170
.Lluossavin_x86_64_v3.BB22_44:
	movl	$0, 3283(%rsp)
	movl	$0, 3280(%rsp)
	movq	4840(%rsp), %rax
	vmovdqu	(%rax), %xmm0
	vpshufb	.Lluossavin_x86_64_v3.CPI22_3(%rip), %xmm0, %xmm4
	testb	%dl, %dl
	movq	%rdi, 88(%rsp)
	movl	%r10d, 192(%rsp)
	je	.Lluossavin_x86_64_v3.BB22_56
	vmovups	(%rsi), %ymm0
	vmovdqu	32(%rsi), %ymm1
	vmovdqu	64(%rsi), %ymm2
	vmovdqu	96(%rsi), %ymm3
	vmovdqu	%ymm3, 640(%rsp)
	vmovdqu	%ymm2, 608(%rsp)
	vmovdqu	%ymm1, 576(%rsp)
	vmovups	%ymm0, 544(%rsp)
	leaq	608(%rsp), %rsi
	leaq	544(%rsp), %rdi
	movq	%r9, 48(%rsp)
	movl	%r10d, %r13d
	vmovdqa	%xmm4, 96(%rsp)
	vzeroupper
	callq	"core::slice::edits::mirror::<i32>.x86_64_v3"
	vxorps	%xmm0, %xmm0, %xmm0
	vmovaps	%xmm0, 2256(%rsp)
	leaq	-16(%r14), %r15
	movq	48(%rsp), %rax
	vmovdqu	-16(%rax,%r14), %xmm0
	vpshufb	.Lluossavin_x86_64_v3.CPI22_3(%rip), %xmm0, %xmm0
	vmovdqa	%xmm0, 1056(%rsp)
	leaq	2256(%rsp), %rdi
	leaq	1056(%rsp), %rcx
	movl	%r13d, %esi
	leaq	544(%rsp), %rdx
	callq	"cipher::encrypt.x86_64_v3"
	movq	48(%rsp), %r11
	vmovdqa	96(%rsp), %xmm0
	testq	%r15, %r15
	je	.Lluossavin_x86_64_v3.BB22_47
	vmovdqu	-16(%r11,%r15), %xmm0
	vpshufb	.Lluossavin_x86_64_v3.CPI22_3(%rip), %xmm0, %xmm0
.Lluossavin_x86_64_v3.BB22_47:
	movq	%r15, 56(%rsp)
	vpxor	2256(%rsp), %xmm0, %xmm0
	vpshufb	.Lluossavin_x86_64_v3.CPI22_3(%rip), %xmm0, %xmm7
	vpextrd	$3, %xmm7, %esi
	movl	%esi, %ecx
	shrl	$24, %ecx
	leal	-1(%rcx), %edx
	cmpb	$15, %dl
	movq	88(%rsp), %rdi
	ja	.Lluossavin_x86_64_v3.BB22_59
	vmovd	%xmm7, %eax
	movzbl	%ah, %edx
	shrl	$16, %eax
	xorl	%ecx, %edx
	movzbl	%al, %eax
	vpshufd	$170, %xmm7, %xmm0
	vpsrlvd	.Lluossavin_x86_64_v3.CPI22_17(%rip), %xmm0, %xmm0
	xorl	%ecx, %eax
	movl	%ecx, %r10d
	leal	1(%rcx), %r9d
	shrl	$4, %r9d
	imulq	%rdx, %r9
	leal	2(%rcx), %r8d
	shrl	$4, %r8d
	vpshufd	$213, %xmm7, %xmm1
	vpsrlvd	.Lluossavin_x86_64_v3.CPI22_18(%rip), %xmm1, %xmm1
	imulq	%rax, %r8
	addq	%r9, %r8
	movl	%esi, %r9d
	shrl	$16, %r9d
	vpbroadcastd	%xmm7, %xmm2
	vpand	.Lluossavin_x86_64_v3.CPI22_19(%rip), %xmm1, %xmm3
	vpxor	%xmm2, %xmm1, %xmm1
	vpbroadcastd	.Lluossavin_x86_64_v3.CPI22_28(%rip), %xmm2
	vpinsrd	$0, %ecx, %xmm2, %xmm2
	vpshufd	$64, %xmm2, %xmm2
	vpxor	%xmm2, %xmm3, %xmm3
	vpsrlvd	%xmm2, %xmm1, %xmm1
	vpblendd	$8, %xmm1, %xmm3, %xmm1
	vmovq	%r10, %xmm2
	vpbroadcastq	%xmm2, %ymm2
	vpaddq	.Lluossavin_x86_64_v3.CPI22_21(%rip), %ymm2, %ymm2
	vpsrlq	$4, %ymm2, %ymm2
	vpmovzxdq	%xmm1, %ymm1
	vpmuldq	%ymm1, %ymm2, %ymm1
	vmovd	%ecx, %xmm2
	vpbroadcastw	%xmm2, %xmm2
	vpaddw	.Lluossavin_x86_64_v3.CPI22_22(%rip), %xmm2, %xmm2
	vpsrlw	$4, %xmm2, %xmm2
	vpbroadcastd	.Lluossavin_x86_64_v3.CPI22_23(%rip), %ymm3
	vpermd	%ymm7, %ymm3, %ymm3
	vpbroadcastd	.Lluossavin_x86_64_v3.CPI22_24(%rip), %ymm4
	vpblendd	$12, %ymm3, %ymm4, %ymm4
	vmovdqa	.Lluossavin_x86_64_v3.CPI22_25(%rip), %ymm5
	vpermd	%ymm7, %ymm5, %ymm5
	vmovd	%esi, %xmm6
	vpsrld	$8, %xmm6, %xmm6
	vpblendd	$1, %xmm6, %xmm5, %xmm6
	movl	$255, %eax
	vpinsrd	$2, %eax, %xmm6, %xmm6
	vpblendd	$15, %ymm6, %ymm5, %ymm6
	vpbroadcastq	%xmm0, %ymm0
	vpblendd	$48, %ymm0, %ymm6, %ymm0
	vpand	%ymm0, %ymm4, %ymm0
	vpxor	%ymm5, %ymm3, %ymm3
	vmovd	%ecx, %xmm4
	vpbroadcastd	%xmm4, %ymm4
	vpxor	%ymm4, %ymm0, %ymm0
	vpsrld	$24, %ymm3, %ymm3
	vpblendd	$136, %ymm3, %ymm0, %ymm0
	vpshufb	.Lluossavin_x86_64_v3.CPI22_26(%rip), %ymm0, %ymm0
	vmovdqa	.Lluossavin_x86_64_v3.CPI22_27(%rip), %xmm3
	vpermd	%ymm0, %ymm3, %ymm0
	vpmullw	%xmm0, %xmm2, %xmm0
	vpshufd	$238, %xmm0, %xmm2
	vpmovzxwq	%xmm2, %ymm2
	vpmovzxwq	%xmm0, %ymm0
	vpaddq	%ymm1, %ymm0, %ymm0
	vpaddq	%ymm2, %ymm0, %ymm0
	vextracti128	$1, %ymm0, %xmm1
	vpaddq	%xmm1, %xmm0, %xmm0
	vpshufd	$238, %xmm0, %xmm1
	vpaddq	%xmm1, %xmm0, %xmm0
	vmovq	%xmm0, %rax
	addq	%r8, %rax
	leal	14(%rcx), %edx
	shrl	$4, %edx
	movzbl	%r9b, %esi
	xorl	%ecx, %esi
	imulq	%rdx, %rsi
	orq	%rax, %rsi
	je	.Lluossavin_x86_64_v3.BB22_97
	movb	$13, %al
	jmp	.Lluossavin_x86_64_v3.BB22_60
.Lluossavin_x86_64_v3.BB22_50:
	movq	%rdi, %r15
.Lluossavin_x86_64_v3.BB22_51:
	movq	4840(%rsp), %rax
	vmovdqu	(%rax), %xmm0
	vpshufb	.Lluossavin_x86_64_v3.CPI22_3(%rip), %xmm0, %xmm0
	vmovdqa	%xmm0, 544(%rsp)
	vmovdqu	(%r11), %ymm0
	vmovdqu	32(%r11), %ymm1
	vmovdqu	64(%r11), %ymm2
	vmovdqu	96(%r11), %ymm3
	vmovdqu	%ymm0, 2256(%rsp)
	vmovdqu	%ymm1, 2288(%rsp)
	vmovdqu	%ymm2, 2320(%rsp)
	vmovdqu	%ymm3, 2352(%rsp)
	movq	4864(%rsp), %rax
	movq	%rax, 24(%rsp)
	movq	4856(%rsp), %rax
	movq	%rax, 16(%rsp)
	movq	%r14, 8(%rsp)
	movq	%r9, (%rsp)
	movzbl	%bpl, %esi
	leaq	1056(%rsp), %rdi
	leaq	2256(%rsp), %rdx
	leaq	544(%rsp), %r8
	xorl	%ebp, %ebp
	movl	$2, %ecx
	xorl	%r9d, %r9d
	vzeroupper
	callq	"stream::stream.x86_64_v3"
	movl	$0, 40(%rsp)
	movl	$0, 43(%rsp)
	xorl	%eax, %eax
	xorl	%r13d, %r13d
	movq	%r15, %rdi
	jmp	.Lluossavin_x86_64_v3.BB22_170
.Lluossavin_x86_64_v3.BB22_52:
	movq	%r14, %rax
	andq	$-16, %rax
	addq	$16, %rax
	jmp	.Lluossavin_x86_64_v3.BB22_22
.Lluossavin_x86_64_v3.BB22_53:
	movb	$6, %al
	jmp	.Lluossavin_x86_64_v3.BB22_7
.Lluossavin_x86_64_v3.BB22_54:
	movq	72(%rsp), %rax
	vmovdqu	(%rax), %ymm0
	vmovdqu	32(%rax), %ymm1
	vmovdqu	64(%rax), %ymm2
	vmovdqu	96(%rax), %ymm3
	vmovdqu	%ymm0, 1056(%rsp)
	vmovdqu	%ymm1, 1088(%rsp)
	vmovdqu	%ymm2, 1120(%rsp)
	vmovdqu	%ymm3, 1152(%rsp)
	vpxor	%xmm0, %xmm0, %xmm0
	vmovdqa	%xmm0, 544(%rsp)
	vmovdqa	%xmm0, 336(%rsp)
	leaq	544(%rsp), %rdi
	leaq	1056(%rsp), %rdx
	leaq	336(%rsp), %rcx
	movl	192(%rsp), %esi
	vzeroupper
	callq	"cipher::encrypt.x86_64_v3"
	movl	544(%rsp), %edx
	movl	548(%rsp), %eax
	movl	556(%rsp), %ecx
	shlq	$32, %rdx
	orq	%rax, %rdx
	movl	552(%rsp), %eax
	shlq	$32, %rax
	orq	%rcx, %rax
	cmpq	$12, %r13
	movq	%rdx, 96(%rsp)
	movq	%rax, 120(%rsp)
	jne	.Lluossavin_x86_64_v3.BB22_61
	movq	4840(%rsp), %rcx
	movbel	(%rcx), %eax
	movq	%rax, 72(%rsp)
	movbel	4(%rcx), %eax
	movq	%rax, 144(%rsp)
	movbel	8(%rcx), %eax
	movq	%rax, 80(%rsp)
	movq	$0, 312(%rsp)
	movl	$1, %eax
	movq	%rax, 64(%rsp)
	jmp	.Lluossavin_x86_64_v3.BB22_62
.Lluossavin_x86_64_v3.BB22_56:
	vmovups	(%rsi), %ymm0
	vmovups	32(%rsi), %ymm1
	vmovups	64(%rsi), %ymm2
	vmovups	96(%rsi), %ymm3
	vmovups	%ymm3, 1152(%rsp)
	vmovups	%ymm2, 1120(%rsp)
	vmovups	%ymm1, 1088(%rsp)
	vmovups	%ymm0, 1056(%rsp)
	vmovdqu	(%rsi), %ymm0
	vmovdqu	32(%rsi), %ymm1
	vmovdqu	64(%rsi), %ymm2
	vmovdqu	96(%rsi), %ymm3
	vmovdqu	%ymm3, 2352(%rsp)
	vmovdqu	%ymm2, 2320(%rsp)
	vmovdqu	%ymm1, 2288(%rsp)
	vmovdqu	%ymm0, 2256(%rsp)
	movq	%r14, %r15
	shrq	$4, %r15
	je	.Lluossavin_x86_64_v3.BB22_72
	xorl	%r13d, %r13d
.Lluossavin_x86_64_v3.BB22_58:
	vpxor	%xmm0, %xmm0, %xmm0
	vmovdqa	%xmm0, 544(%rsp)
	vmovdqu	(%r9,%r13), %xmm0
	vpshufb	.Lluossavin_x86_64_v3.CPI22_3(%rip), %xmm0, %xmm0
	vpxor	%xmm4, %xmm0, %xmm0
	vmovdqa	%xmm0, 3776(%rsp)
	leaq	544(%rsp), %rdi
	leaq	2256(%rsp), %rdx
	leaq	3776(%rsp), %rcx
	movl	192(%rsp), %esi
	movq	%r9, %rbp
	vzeroupper
	callq	"cipher::encrypt.x86_64_v3"
	movq	%rbp, %r9
	movq	4856(%rsp), %rbp
	vmovdqa	544(%rsp), %xmm4
	vpshufb	.Lluossavin_x86_64_v3.CPI22_3(%rip), %xmm4, %xmm0
	vmovdqu	%xmm0, (%rbp,%r13)
	addq	$16, %r13
	decq	%r15
	jne	.Lluossavin_x86_64_v3.BB22_58
	jmp	.Lluossavin_x86_64_v3.BB22_73
.Lluossavin_x86_64_v3.BB22_59:
	movb	$2, %al
.Lluossavin_x86_64_v3.BB22_60:
	movl	$0, 43(%rsp)
	movl	$0, 40(%rsp)
	movb	$1, %bpl
	xorl	%r15d, %r15d
	jmp	.Lluossavin_x86_64_v3.BB22_169
.Lluossavin_x86_64_v3.BB22_61:
	vpxor	%xmm0, %xmm0, %xmm0
	vmovdqu	%ymm0, 544(%rsp)
	movq	%rdx, 336(%rsp)
	movq	%rax, 344(%rsp)
	vpxor	%xmm0, %xmm0, %xmm0
	vmovdqu	%xmm0, 352(%rsp)
	leaq	544(%rsp), %r15
	leaq	336(%rsp), %rsi
	movq	%r15, %rdi
	movq	4840(%rsp), %rdx
	movq	%r13, %rcx
	vzeroupper
	callq	"ghash::Ghash::absorb_all.x86_64_v3"
	movq	$0, 312(%rsp)
	leaq	1056(%rsp), %rdi
	movq	%r15, %rsi
	xorl	%edx, %edx
	movq	%r13, %rcx
	callq	"ghash::Ghash::absorb_lengths.x86_64_v3"
	movq	1072(%rsp), %rcx
	movq	1080(%rsp), %rdx
	movq	%rcx, 144(%rsp)
	shrq	$32, %rcx
	movq	%rcx, 72(%rsp)
	movq	%rdx, %rax
	movq	%rdx, 64(%rsp)
	shrq	$32, %rax
	movq	%rax, 80(%rsp)
.Lluossavin_x86_64_v3.BB22_62:
	movq	$0, 264(%rsp)
	xorl	%r15d, %r15d
	movq	$0, 256(%rsp)
	xorl	%ebp, %ebp
	jmp	.Lluossavin_x86_64_v3.BB22_71
.Lluossavin_x86_64_v3.BB22_63:
	vmovups	(%r15), %ymm0
	vmovups	32(%r15), %ymm1
	vmovups	64(%r15), %ymm2
	vmovups	96(%r15), %ymm3
	vmovups	%ymm0, 1056(%rsp)
	vmovups	%ymm1, 1088(%rsp)
	vmovups	%ymm2, 1120(%rsp)
	vmovups	%ymm3, 1152(%rsp)
	vxorps	%xmm0, %xmm0, %xmm0
	vmovaps	%xmm0, 544(%rsp)
	vmovaps	%xmm0, 336(%rsp)
	leaq	544(%rsp), %rdi
	leaq	1056(%rsp), %rdx
	leaq	336(%rsp), %rcx
	movl	$1, %esi
	vzeroupper
	callq	"cipher::encrypt.x86_64_v3"
	movl	544(%rsp), %edx
	movl	548(%rsp), %eax
	movl	556(%rsp), %ecx
	shlq	$32, %rdx
	orq	%rax, %rdx
	movl	552(%rsp), %eax
	shlq	$32, %rax
	orq	%rcx, %rax
	vxorps	%xmm0, %xmm0, %xmm0
	vmovups	%ymm0, 544(%rsp)
	movq	%rdx, 96(%rsp)
	movq	%rdx, 336(%rsp)
	movq	%rax, 120(%rsp)
	movq	%rax, 344(%rsp)
	vxorps	%xmm0, %xmm0, %xmm0
	vmovups	%xmm0, 352(%rsp)
	leaq	544(%rsp), %rdi
	leaq	336(%rsp), %rsi
	movq	4840(%rsp), %rdx
	movq	%r13, %rcx
	vzeroupper
	callq	"ghash::Ghash::absorb_all.x86_64_v3"
	xorl	%ebp, %ebp
	leaq	1056(%rsp), %rdi
	leaq	544(%rsp), %rsi
	xorl	%edx, %edx
	movq	%r13, %rcx
	callq	"ghash::Ghash::absorb_lengths.x86_64_v3"
	movq	1072(%rsp), %r8
	movq	1080(%rsp), %r10
	movq	%r8, %r9
	shrq	$32, %r9
	movq	%r10, %rdi
	shrq	$32, %rdi
	vmovups	(%r15), %ymm0
	vmovdqu	32(%r15), %ymm1
	vmovdqu	64(%r15), %ymm2
	vmovdqu	96(%r15), %ymm3
	vmovups	%ymm0, 336(%rsp)
	vmovdqu	%ymm1, 368(%rsp)
	vmovdqu	%ymm2, 400(%rsp)
	vmovdqu	%ymm3, 432(%rsp)
	movq	56(%rsp), %rcx
	movq	%rcx, %rsi
	vxorps	%xmm0, %xmm0, %xmm0
	vmovups	%ymm0, 1056(%rsp)
	vmovups	%ymm0, 1088(%rsp)
	vmovups	%ymm0, 1120(%rsp)
	vmovups	%ymm0, 1152(%rsp)
	vmovups	%ymm0, 1184(%rsp)
	vmovups	%ymm0, 1216(%rsp)
	vmovups	%ymm0, 1248(%rsp)
	vmovups	%ymm0, 1280(%rsp)
	vmovups	%ymm0, 1312(%rsp)
	vmovups	%ymm0, 1344(%rsp)
	vmovups	%ymm0, 1376(%rsp)
	vmovups	%ymm0, 1408(%rsp)
	vmovups	%ymm0, 1440(%rsp)
	vmovups	%ymm0, 1472(%rsp)
	vmovups	%ymm0, 1504(%rsp)
	vmovups	%ymm0, 1536(%rsp)
	shrq	$4, %rsi
	vmovd	%r9d, %xmm0
	vpinsrd	$1, %r8d, %xmm0, %xmm0
	vpshufb	.Lluossavin_x86_64_v3.CPI22_0(%rip), %xmm0, %xmm0
	movl	%edi, %eax
	bswapl	%eax
	cmpq	$96, %rcx
	jb	.Lluossavin_x86_64_v3.BB22_68
	leaq	2(%rsi), %rcx
	movl	%ecx, %ebp
	andl	$56, %ebp
	vmovd	%r10d, %xmm1
	vpbroadcastd	%xmm1, %xmm4
	vmovd	%eax, %xmm1
	vpaddd	.Lluossavin_x86_64_v3.CPI22_1(%rip), %xmm4, %xmm2
	vpbroadcastd	%xmm1, %xmm1
	vpaddd	.Lluossavin_x86_64_v3.CPI22_2(%rip), %xmm4, %xmm3
	vmovdqa	.Lluossavin_x86_64_v3.CPI22_3(%rip), %xmm5
	vpshufb	%xmm5, %xmm2, %xmm2
	vpshufb	%xmm5, %xmm3, %xmm6
	vinserti128	$1, %xmm2, %ymm1, %ymm7
	vmovdqa	.Lluossavin_x86_64_v3.CPI22_4(%rip), %ymm2
	vpermd	%ymm7, %ymm2, %ymm3
	vpermq	$68, %ymm0, %ymm8
	vpblendd	$204, %ymm3, %ymm8, %ymm9
	vmovdqa	.Lluossavin_x86_64_v3.CPI22_5(%rip), %ymm3
	vpermd	%ymm7, %ymm3, %ymm7
	vpblendd	$204, %ymm7, %ymm8, %ymm7
	vmovdqu	%ymm7, 1104(%rsp)
	vmovdqu	%ymm9, 1072(%rsp)
	vinserti128	$1, %xmm6, %ymm1, %ymm6
	vpermd	%ymm6, %ymm2, %ymm7
	vpermd	%ymm6, %ymm3, %ymm6
	vpblendd	$204, %ymm6, %ymm8, %ymm6
	vmovdqu	%ymm6, 1168(%rsp)
	vpblendd	$204, %ymm7, %ymm8, %ymm6
	vmovdqu	%ymm6, 1136(%rsp)
	cmpq	$8, %rbp
	je	.Lluossavin_x86_64_v3.BB22_67
	vpaddd	.Lluossavin_x86_64_v3.CPI22_6(%rip), %xmm4, %xmm6
	vpaddd	.Lluossavin_x86_64_v3.CPI22_7(%rip), %xmm4, %xmm7
	vpshufb	%xmm5, %xmm6, %xmm6
	vpshufb	%xmm5, %xmm7, %xmm7
	vinserti128	$1, %xmm6, %ymm1, %ymm6
	vpermd	%ymm6, %ymm2, %ymm8
	vpermq	$68, %ymm0, %ymm9
	vpblendd	$204, %ymm8, %ymm9, %ymm8
	vpermd	%ymm6, %ymm3, %ymm6
	vpblendd	$204, %ymm6, %ymm9, %ymm6
	vmovdqu	%ymm6, 1232(%rsp)
	vmovdqu	%ymm8, 1200(%rsp)
	vinserti128	$1, %xmm7, %ymm1, %ymm6
	vpermd	%ymm6, %ymm2, %ymm7
	vpermd	%ymm6, %ymm3, %ymm6
	vpblendd	$204, %ymm6, %ymm9, %ymm6
	vmovdqu	%ymm6, 1296(%rsp)
	vpblendd	$204, %ymm7, %ymm9, %ymm6
	vmovdqu	%ymm6, 1264(%rsp)
	cmpl	$16, %ebp
	je	.Lluossavin_x86_64_v3.BB22_67
	vpaddd	.Lluossavin_x86_64_v3.CPI22_8(%rip), %xmm4, %xmm6
	vpaddd	.Lluossavin_x86_64_v3.CPI22_9(%rip), %xmm4, %xmm4
	vpshufb	%xmm5, %xmm6, %xmm6
	vpshufb	%xmm5, %xmm4, %xmm4
	vinserti128	$1, %xmm6, %ymm1, %ymm5
	vpermd	%ymm5, %ymm2, %ymm6
	vpermq	$68, %ymm0, %ymm7
	vpermd	%ymm5, %ymm3, %ymm5
	vpblendd	$204, %ymm5, %ymm7, %ymm5
	vmovdqu	%ymm5, 1360(%rsp)
	vpblendd	$204, %ymm6, %ymm7, %ymm5
	vmovdqu	%ymm5, 1328(%rsp)
	vinserti128	$1, %xmm4, %ymm1, %ymm1
	vpermd	%ymm1, %ymm2, %ymm2
	vpblendd	$204, %ymm2, %ymm7, %ymm2
	vpermd	%ymm1, %ymm3, %ymm1
	vpblendd	$204, %ymm1, %ymm7, %ymm1
	vmovdqu	%ymm1, 1424(%rsp)
	vmovdqu	%ymm2, 1392(%rsp)
.Lluossavin_x86_64_v3.BB22_67:
	cmpq	%rbp, %rcx
	je	.Lluossavin_x86_64_v3.BB22_70
.Lluossavin_x86_64_v3.BB22_68:
	movq	%rsi, %rcx
	subq	%rbp, %rcx
	addq	$2, %rcx
	movl	%ebp, %edx
	shll	$4, %edx
	leaq	1056(%rsp), %r11
	addq	%r11, %rdx
	addq	$28, %rdx
	addl	%r10d, %ebp
.Lluossavin_x86_64_v3.BB22_69:
	vmovq	%xmm0, -12(%rdx)
	movl	%eax, -4(%rdx)
	movbel	%ebp, (%rdx)
	addq	$16, %rdx
	incl	%ebp
	decq	%rcx
	jne	.Lluossavin_x86_64_v3.BB22_69
.Lluossavin_x86_64_v3.BB22_70:
	movq	%r10, 64(%rsp)
	movq	%r9, 72(%rsp)
	movq	%r8, 144(%rsp)
	movq	%rdi, 80(%rsp)
	vpxor	%xmm0, %xmm0, %xmm0
	vmovdqu	%ymm0, 1024(%rsp)
	vmovdqu	%ymm0, 992(%rsp)
	vmovdqu	%ymm0, 960(%rsp)
	vmovdqu	%ymm0, 928(%rsp)
	vmovdqu	%ymm0, 896(%rsp)
	vmovdqu	%ymm0, 864(%rsp)
	vmovdqu	%ymm0, 832(%rsp)
	vmovdqu	%ymm0, 800(%rsp)
	vmovdqu	%ymm0, 768(%rsp)
	vmovdqu	%ymm0, 736(%rsp)
	vmovdqu	%ymm0, 704(%rsp)
	vmovdqu	%ymm0, 672(%rsp)
	vmovdqu	%ymm0, 640(%rsp)
	vmovdqu	%ymm0, 608(%rsp)
	vmovdqu	%ymm0, 576(%rsp)
	vmovdqu	%ymm0, 544(%rsp)
	addq	$3, %rsi
	leaq	336(%rsp), %rdi
	leaq	1056(%rsp), %rdx
	leaq	544(%rsp), %rcx
	vzeroupper
	callq	"sixteen::encrypt.x86_64_v3"
	movl	544(%rsp), %eax
	movq	%rax, 312(%rsp)
	movl	548(%rsp), %eax
	movq	%rax, 264(%rsp)
	movl	552(%rsp), %r15d
	movl	556(%rsp), %eax
	movq	%rax, 256(%rsp)
	leaq	560(%rsp), %rsi
	leaq	3280(%rsp), %r13
	movl	$496, %edx
	movq	%r13, %rdi
	callq	memcpy@PLT
	leaq	3776(%rsp), %rdi
	movl	$496, %edx
	movq	%r13, %rsi
	callq	memcpy@PLT
	movb	$1, %bpl
.Lluossavin_x86_64_v3.BB22_71:
	leaq	4272(%rsp), %rdi
	leaq	3776(%rsp), %rsi
	movl	$496, %edx
	callq	memcpy@PLT
	movq	56(%rsp), %r13
	shrq	$4, %r13
	movq	96(%rsp), %rax
	movq	120(%rsp), %rcx
	movq	312(%rsp), %rsi
	movq	%r15, %rdi
	jmp	.Lluossavin_x86_64_v3.BB22_81
.Lluossavin_x86_64_v3.BB22_72:
	movq	4856(%rsp), %rbp
.Lluossavin_x86_64_v3.BB22_73:
	vmovdqa	%xmm4, 96(%rsp)
	movq	%r14, %r15
	andq	$-16, %r15
	andl	$15, %r14d
	addq	%r15, %r9
	movl	$16, %eax
	subl	%r14d, %eax
	imull	$16843009, %eax, %eax
	vmovd	%eax, %xmm0
	vpbroadcastd	%xmm0, %xmm0
	vmovdqa	%xmm0, 2256(%rsp)
	leaq	2256(%rsp), %rdi
	movq	%r9, %rsi
	movq	%r14, %rdx
	vzeroupper
	callq	memcpy@PLT
	vmovdqa	2256(%rsp), %xmm0
	vpxor	%xmm1, %xmm1, %xmm1
	vmovdqa	%xmm1, 2256(%rsp)
	vpshufb	.Lluossavin_x86_64_v3.CPI22_3(%rip), %xmm0, %xmm0
	vpxor	96(%rsp), %xmm0, %xmm0
	vmovdqa	%xmm0, 544(%rsp)
	leaq	2256(%rsp), %rdi
	leaq	1056(%rsp), %rdx
	leaq	544(%rsp), %rcx
	movl	192(%rsp), %esi
	callq	"cipher::encrypt.x86_64_v3"
	vmovdqa	2256(%rsp), %xmm0
	vpshufb	.Lluossavin_x86_64_v3.CPI22_3(%rip), %xmm0, %xmm0
	vmovdqu	%xmm0, (%rbp,%r15)
	addq	$16, %r15
	jmp	.Lluossavin_x86_64_v3.BB22_168
.Lluossavin_x86_64_v3.BB22_74:
	vmovd	%edi, %xmm1
	vpbroadcastd	%xmm1, %xmm1
	vinserti128	$1, .Lluossavin_x86_64_v3.CPI22_10(%rip), %ymm1, %ymm4
	movl	%eax, %ecx
	vmovdqa	.Lluossavin_x86_64_v3.CPI22_4(%rip), %ymm2
	vpermd	%ymm4, %ymm2, %ymm3
	vpermq	$68, %ymm0, %ymm5
	vpblendd	$204, %ymm3, %ymm5, %ymm6
	vmovdqa	.Lluossavin_x86_64_v3.CPI22_5(%rip), %ymm3
	vpermd	%ymm4, %ymm3, %ymm4
	vpblendd	$204, %ymm4, %ymm5, %ymm4
	vmovdqu	%ymm4, 1104(%rsp)
	vmovdqu	%ymm6, 1072(%rsp)
	andl	$56, %ecx
	vinserti128	$1, .Lluossavin_x86_64_v3.CPI22_11(%rip), %ymm1, %ymm4
	vpermd	%ymm4, %ymm2, %ymm6
	vpermd	%ymm4, %ymm3, %ymm4
	vpblendd	$204, %ymm4, %ymm5, %ymm4
	vmovdqu	%ymm4, 1168(%rsp)
	vpblendd	$204, %ymm6, %ymm5, %ymm4
	vmovdqu	%ymm4, 1136(%rsp)
	cmpq	$8, %rcx
	je	.Lluossavin_x86_64_v3.BB22_77
	vinserti128	$1, .Lluossavin_x86_64_v3.CPI22_12(%rip), %ymm1, %ymm4
	vpermd	%ymm4, %ymm2, %ymm5
	vpermq	$68, %ymm0, %ymm6
	vpblendd	$204, %ymm5, %ymm6, %ymm5
	vpermd	%ymm4, %ymm3, %ymm4
	vpblendd	$204, %ymm4, %ymm6, %ymm4
	vmovdqu	%ymm4, 1232(%rsp)
	vmovdqu	%ymm5, 1200(%rsp)
	vinserti128	$1, .Lluossavin_x86_64_v3.CPI22_13(%rip), %ymm1, %ymm4
	vpermd	%ymm4, %ymm2, %ymm5
	vpermd	%ymm4, %ymm3, %ymm4
	vpblendd	$204, %ymm4, %ymm6, %ymm4
	vmovdqu	%ymm4, 1296(%rsp)
	vpblendd	$204, %ymm5, %ymm6, %ymm4
	vmovdqu	%ymm4, 1264(%rsp)
	cmpl	$16, %ecx
	je	.Lluossavin_x86_64_v3.BB22_77
	vinserti128	$1, .Lluossavin_x86_64_v3.CPI22_14(%rip), %ymm1, %ymm4
	vpermd	%ymm4, %ymm2, %ymm5
	vpermq	$68, %ymm0, %ymm6
	vpblendd	$204, %ymm5, %ymm6, %ymm5
	vpermd	%ymm4, %ymm3, %ymm4
	vpblendd	$204, %ymm4, %ymm6, %ymm4
	vmovdqu	%ymm4, 1360(%rsp)
	vmovdqu	%ymm5, 1328(%rsp)
	vinserti128	$1, .Lluossavin_x86_64_v3.CPI22_15(%rip), %ymm1, %ymm1
	vpermd	%ymm1, %ymm2, %ymm2
	vpblendd	$204, %ymm2, %ymm6, %ymm2
	vpermd	%ymm1, %ymm3, %ymm1
	vpblendd	$204, %ymm1, %ymm6, %ymm1
	vmovdqu	%ymm1, 1424(%rsp)
	vmovdqu	%ymm2, 1392(%rsp)
.Lluossavin_x86_64_v3.BB22_77:
	cmpq	%rcx, %rax
	je	.Lluossavin_x86_64_v3.BB22_80
.Lluossavin_x86_64_v3.BB22_78:
	movl	%ecx, %edx
	shll	$4, %edx
	leaq	1056(%rsp), %rsi
	addq	%rsi, %rdx
	addq	$28, %rdx
.Lluossavin_x86_64_v3.BB22_79:
	incq	%rcx
	vmovq	%xmm0, -12(%rdx)
	movl	%edi, -4(%rdx)
	movbel	%ecx, (%rdx)
	addq	$16, %rdx
	cmpq	%rcx, %rax
	jne	.Lluossavin_x86_64_v3.BB22_79
.Lluossavin_x86_64_v3.BB22_80:
	vmovd	%xmm0, %eax
	bswapl	%eax
	movq	%rax, 72(%rsp)
	vpextrd	$1, %xmm0, %eax
	bswapl	%eax
	movq	%rax, 144(%rsp)
	vpxor	%xmm0, %xmm0, %xmm0
	vmovdqu	%ymm0, 1024(%rsp)
	vmovdqu	%ymm0, 992(%rsp)
	vmovdqu	%ymm0, 960(%rsp)
	vmovdqu	%ymm0, 928(%rsp)
	vmovdqu	%ymm0, 896(%rsp)
	vmovdqu	%ymm0, 864(%rsp)
	vmovdqu	%ymm0, 832(%rsp)
	vmovdqu	%ymm0, 800(%rsp)
	vmovdqu	%ymm0, 768(%rsp)
	vmovdqu	%ymm0, 736(%rsp)
	vmovdqu	%ymm0, 704(%rsp)
	vmovdqu	%ymm0, 672(%rsp)
	vmovdqu	%ymm0, 640(%rsp)
	vmovdqu	%ymm0, 608(%rsp)
	vmovdqu	%ymm0, 576(%rsp)
	bswapl	%edi
	movq	%rdi, 80(%rsp)
	vmovdqu	%ymm0, 544(%rsp)
	leaq	3(%r13), %rsi
	leaq	336(%rsp), %rdi
	leaq	1056(%rsp), %rdx
	leaq	544(%rsp), %rcx
	vzeroupper
	callq	"sixteen::encrypt.x86_64_v3"
	movq	544(%rsp), %r15
	movq	552(%rsp), %rbp
	movq	%r15, %rax
	shrq	$32, %rax
	movq	%rax, 264(%rsp)
	movq	%rbp, %rax
	shrq	$32, %rax
	movq	%rax, 256(%rsp)
	leaq	560(%rsp), %rsi
	leaq	4272(%rsp), %rdi
	movl	$496, %edx
	callq	memcpy@PLT
	movq	%rbp, %rdi
	movq	%r15, %rsi
	movq	%r15, %rax
	bswapq	%rax
	movq	%rbp, %rcx
	bswapq	%rcx
	movb	$1, %bpl
	movl	$1, %edx
	movq	%rdx, 64(%rsp)
.Lluossavin_x86_64_v3.BB22_81:
	movq	%rax, 96(%rsp)
	movq	%rax, 2256(%rsp)
	movq	%rcx, 120(%rsp)
	movq	%rcx, 2264(%rsp)
	movq	72(%rsp), %rax
	movl	%eax, 2272(%rsp)
	movq	144(%rsp), %rax
	movl	%eax, 2276(%rsp)
	movq	80(%rsp), %rax
	movl	%eax, 2280(%rsp)
	movq	64(%rsp), %r15
	movl	%r15d, 2284(%rsp)
	movb	%bpl, 2288(%rsp)
	movl	%esi, 2289(%rsp)
	movq	264(%rsp), %rax
	movl	%eax, 2293(%rsp)
	movl	%edi, 2297(%rsp)
	movq	256(%rsp), %rax
	movl	%eax, 2301(%rsp)
	leaq	2305(%rsp), %rdi
	leaq	4272(%rsp), %rsi
	movl	$496, %edx
	callq	memcpy@PLT
	movq	56(%rsp), %rax
	andl	$15, %eax
	cmpq	$1, %rax
	sbbq	$-1, %r13
	notl	%r15d
	cmpq	%r15, %r13
	seta	%r13b
	cmpb	$0, 480(%rsp)
	je	.Lluossavin_x86_64_v3.BB22_87
	leaq	2115(%rsp), %rax
	vmovups	(%rax), %ymm0
	vmovups	32(%rax), %ymm1
	vmovups	64(%rax), %ymm2
	vmovups	96(%rax), %ymm3
	vmovups	%ymm0, 544(%rsp)
	vmovups	%ymm1, 576(%rsp)
	vmovups	%ymm2, 608(%rsp)
	vmovups	%ymm3, 640(%rsp)
	vpxor	%xmm4, %xmm4, %xmm4
	vmovdqa	%xmm4, 320(%rsp)
	testb	%bpl, %bpl
	movl	192(%rsp), %esi
	je	.Lluossavin_x86_64_v3.BB22_91
	movbel	2313(%rsp), %eax
	movl	%eax, 56(%rsp)
	movbel	2317(%rsp), %eax
	movl	%eax, 192(%rsp)
	vxorps	%xmm0, %xmm0, %xmm0
	vmovups	%ymm0, 3776(%rsp)
	vmovups	%ymm0, 3280(%rsp)
	movq	96(%rsp), %rax
	movq	%rax, 336(%rsp)
	movq	120(%rsp), %rax
	movq	%rax, 344(%rsp)
	vmovdqu	%xmm4, 352(%rsp)
	leaq	3280(%rsp), %r15
	leaq	336(%rsp), %rsi
	movq	%r15, %rdi
	movq	184(%rsp), %rdx
	movq	176(%rsp), %rbp
	movq	%rbp, %rcx
	vzeroupper
	callq	"ghash::Ghash::absorb_all.x86_64_v3"
	leaq	3776(%rsp), %rdi
	movq	%r15, %rsi
	movq	48(%rsp), %r15
	movq	%r15, %rdx
	leaq	-16(%r14), %rcx
	callq	"ghash::Ghash::absorb_all.x86_64_v3"
	leaq	1056(%rsp), %rdi
	leaq	3776(%rsp), %rsi
	movq	%rbp, %rdx
	leaq	-16(%r14), %rbp
	movq	%rbp, %rcx
	callq	"ghash::Ghash::absorb_lengths.x86_64_v3"
	movq	1072(%rsp), %rax
	movq	1080(%rsp), %rcx
	movq	%rax, %rdx
	shrq	$32, %rdx
	movq	%rcx, %rsi
	shrq	$32, %rsi
	xorl	56(%rsp), %esi
	xorl	192(%rsp), %ecx
	movbel	-8(%r15,%r14), %edi
	xorl	%esi, %edi
	movbel	-4(%r15,%r14), %esi
	xorl	%ecx, %esi
	vmovq	2305(%rsp), %xmm0
	vmovdqa	.Lluossavin_x86_64_v3.CPI22_3(%rip), %xmm1
	vpshufb	%xmm1, %xmm0, %xmm0
	vmovd	%edx, %xmm2
	vpinsrd	$1, %eax, %xmm2, %xmm2
	vmovq	-16(%r15,%r14), %xmm3
	vpshufb	%xmm1, %xmm3, %xmm1
	vpxor	%xmm1, %xmm0, %xmm0
	vpxor	%xmm2, %xmm0, %xmm0
	vpextrd	$1, %xmm0, %eax
	vmovd	%xmm0, %ecx
	addq	%rcx, %rdi
	addq	%rax, %rdi
	orq	%rdi, %rsi
	jne	.Lluossavin_x86_64_v3.BB22_92
	testq	%rbp, %rbp
	movq	88(%rsp), %rdi
	movq	4856(%rsp), %rsi
	movq	%rbp, %r8
	je	.Lluossavin_x86_64_v3.BB22_95
	cmpq	$8, %r8
	setb	%al
	movq	%rsi, %rcx
	subq	%r15, %rcx
	cmpq	$128, %rcx
	setb	%cl
	orb	%al, %cl
	je	.Lluossavin_x86_64_v3.BB22_117
	xorl	%eax, %eax
	jmp	.Lluossavin_x86_64_v3.BB22_156
.Lluossavin_x86_64_v3.BB22_87:
	leaq	2115(%rsp), %rax
	vmovups	(%rax), %ymm0
	vmovdqu	32(%rax), %ymm1
	vmovdqu	64(%rax), %ymm2
	vmovups	%ymm0, 1056(%rsp)
	vmovdqu	%ymm1, 1088(%rsp)
	vmovdqu	%ymm2, 1120(%rsp)
	vmovups	96(%rax), %ymm0
	vmovups	%ymm0, 1152(%rsp)
	testb	%bpl, %bpl
	movl	192(%rsp), %esi
	je	.Lluossavin_x86_64_v3.BB22_93
	vmovups	2305(%rsp), %xmm0
	vmovaps	%xmm0, 192(%rsp)
	testq	%r14, %r14
	movq	48(%rsp), %rax
	movq	176(%rsp), %rbp
	movq	184(%rsp), %rdx
	movq	4856(%rsp), %r15
	je	.Lluossavin_x86_64_v3.BB22_142
	cmpq	$8, %r14
	setb	%sil
	movq	%r15, %rdi
	subq	%rax, %rdi
	cmpq	$128, %rdi
	setb	%dil
	orb	%sil, %dil
	je	.Lluossavin_x86_64_v3.BB22_105
	xorl	%esi, %esi
	jmp	.Lluossavin_x86_64_v3.BB22_137
.Lluossavin_x86_64_v3.BB22_91:
	vmovups	(%rax), %ymm0
	vmovups	32(%rax), %ymm1
	vmovups	64(%rax), %ymm2
	vmovdqu	96(%rax), %ymm3
	vmovdqu	%ymm3, 1152(%rsp)
	vmovups	%ymm2, 1120(%rsp)
	vmovups	%ymm1, 1088(%rsp)
	vmovups	%ymm0, 1056(%rsp)
	movq	72(%rsp), %rax
	movl	%eax, 288(%rsp)
	movq	144(%rsp), %rax
	movl	%eax, 292(%rsp)
	movq	80(%rsp), %rax
	movl	%eax, 296(%rsp)
	movq	64(%rsp), %rax
	movl	%eax, 300(%rsp)
	vmovdqa	%xmm4, 240(%rsp)
	leaq	240(%rsp), %rdi
	leaq	1056(%rsp), %rdx
	leaq	288(%rsp), %rcx
	vzeroupper
	callq	"cipher::encrypt.x86_64_v3"
	movl	248(%rsp), %eax
	movl	%eax, 480(%rsp)
	movl	252(%rsp), %eax
	movl	%eax, 56(%rsp)
	vxorps	%xmm0, %xmm0, %xmm0
	vmovups	%ymm0, 3280(%rsp)
	vmovups	%ymm0, 336(%rsp)
	movq	96(%rsp), %rax
	movq	%rax, 2080(%rsp)
	movq	120(%rsp), %rax
	movq	%rax, 2088(%rsp)
	vxorps	%xmm0, %xmm0, %xmm0
	vmovups	%xmm0, 2096(%rsp)
	leaq	336(%rsp), %r15
	leaq	2080(%rsp), %rsi
	movq	%r15, %rdi
	movq	184(%rsp), %rdx
	movq	176(%rsp), %rbp
	movq	%rbp, %rcx
	vzeroupper
	callq	"ghash::Ghash::absorb_all.x86_64_v3"
	leaq	3280(%rsp), %rdi
	movq	%r15, %rsi
	movq	48(%rsp), %r15
	movq	%r15, %rdx
	leaq	-16(%r14), %rcx
	callq	"ghash::Ghash::absorb_all.x86_64_v3"
	leaq	3776(%rsp), %rdi
	leaq	3280(%rsp), %rsi
	movq	%rbp, %rdx
	leaq	-16(%r14), %rbp
	movq	%rbp, %rcx
	callq	"ghash::Ghash::absorb_lengths.x86_64_v3"
	movq	3792(%rsp), %rax
	movq	3800(%rsp), %rcx
	movq	%rax, %rdx
	shrq	$32, %rdx
	movq	%rcx, %rsi
	shrq	$32, %rsi
	xorl	480(%rsp), %esi
	xorl	56(%rsp), %ecx
	vmovq	240(%rsp), %xmm0
	vmovd	%edx, %xmm1
	vpinsrd	$1, %eax, %xmm1, %xmm1
	vmovq	-16(%r15,%r14), %xmm2
	vpshufb	.Lluossavin_x86_64_v3.CPI22_16(%rip), %xmm2, %xmm2
	vpxor	%xmm2, %xmm0, %xmm0
	vpxor	%xmm1, %xmm0, %xmm0
	movbel	-8(%r15,%r14), %eax
	movbel	-4(%r15,%r14), %edx
	xorl	%esi, %eax
	xorl	%ecx, %edx
	vpextrd	$1, %xmm0, %ecx
	vmovd	%xmm0, %esi
	addq	%rsi, %rax
	addq	%rcx, %rax
	orq	%rax, %rdx
	je	.Lluossavin_x86_64_v3.BB22_94
.Lluossavin_x86_64_v3.BB22_92:
	movb	$3, %al
	movb	$1, %bpl
	xorl	%r8d, %r8d
	xorl	%r13d, %r13d
	movq	88(%rsp), %rdi
	jmp	.Lluossavin_x86_64_v3.BB22_96
.Lluossavin_x86_64_v3.BB22_93:
	movq	64(%rsp), %rax
	incl	%eax
	movq	72(%rsp), %rcx
	movl	%ecx, 240(%rsp)
	movq	144(%rsp), %rbp
	movl	%ebp, 244(%rsp)
	movq	80(%rsp), %r15
	movl	%r15d, 248(%rsp)
	movl	%eax, 252(%rsp)
	movq	4864(%rsp), %rax
	movq	%rax, 24(%rsp)
	movq	4856(%rsp), %rax
	movq	%rax, 16(%rsp)
	movq	%r14, 8(%rsp)
	movq	48(%rsp), %rax
	movq	%rax, (%rsp)
	leaq	2080(%rsp), %rdi
	leaq	1056(%rsp), %rdx
	leaq	240(%rsp), %r8
	movl	$4, %ecx
	xorl	%r9d, %r9d
	vzeroupper
	callq	"stream::stream.x86_64_v3"
	movq	72(%rsp), %rax
	movl	%eax, 512(%rsp)
	movl	%ebp, 516(%rsp)
	movl	%r15d, 520(%rsp)
	movq	64(%rsp), %rax
	movl	%eax, 524(%rsp)
	vxorps	%xmm0, %xmm0, %xmm0
	vmovaps	%xmm0, 288(%rsp)
	leaq	288(%rsp), %rdi
	leaq	512(%rsp), %rcx
	movl	192(%rsp), %esi
	leaq	1056(%rsp), %rdx
	callq	"cipher::encrypt.x86_64_v3"
	vxorps	%xmm0, %xmm0, %xmm0
	vmovups	%ymm0, 3776(%rsp)
	vmovups	%ymm0, 3280(%rsp)
	movq	96(%rsp), %rax
	movq	%rax, 336(%rsp)
	movq	120(%rsp), %rax
	movq	%rax, 344(%rsp)
	vxorps	%xmm0, %xmm0, %xmm0
	vmovups	%xmm0, 352(%rsp)
	leaq	3280(%rsp), %rdi
	leaq	336(%rsp), %rsi
	movq	184(%rsp), %rdx
	movq	176(%rsp), %rbp
	movq	%rbp, %rcx
	vzeroupper
	callq	"ghash::Ghash::absorb_all.x86_64_v3"
	leaq	3776(%rsp), %r15
	movq	%r15, %rdi
	leaq	3280(%rsp), %rsi
	movq	4856(%rsp), %rdx
	movq	%r14, %rcx
	callq	"ghash::Ghash::absorb_all.x86_64_v3"
	leaq	544(%rsp), %rdi
	movq	%r15, %rsi
	movq	%rbp, %rdx
	movq	%r14, %rcx
	callq	"ghash::Ghash::absorb_lengths.x86_64_v3"
	vpshufd	$177, 560(%rsp), %xmm0
	vpxor	288(%rsp), %xmm0, %xmm0
	vpshufb	.Lluossavin_x86_64_v3.CPI22_3(%rip), %xmm0, %xmm0
	movq	4856(%rsp), %rax
	vmovdqu	%xmm0, (%rax,%r14)
	jmp	.Lluossavin_x86_64_v3.BB22_143
.Lluossavin_x86_64_v3.BB22_94:
	movq	64(%rsp), %rcx
	incl	%ecx
	movq	72(%rsp), %rax
	movl	%eax, 320(%rsp)
	movq	144(%rsp), %rax
	movl	%eax, 324(%rsp)
	movq	80(%rsp), %rax
	movl	%eax, 328(%rsp)
	movl	%ecx, 332(%rsp)
	movq	4864(%rsp), %rax
	movq	%rax, 24(%rsp)
	movq	4856(%rsp), %rax
	movq	%rax, 16(%rsp)
	movq	%rbp, 8(%rsp)
	movq	%r15, (%rsp)
	leaq	512(%rsp), %rdi
	leaq	544(%rsp), %rdx
	leaq	320(%rsp), %r8
	movl	192(%rsp), %esi
	movl	$4, %ecx
	xorl	%r9d, %r9d
	callq	"stream::stream.x86_64_v3"
	movq	88(%rsp), %rdi
	movq	%rbp, %r8
.Lluossavin_x86_64_v3.BB22_95:
	movl	272(%rsp), %eax
	movl	275(%rsp), %ecx
	movl	%eax, 160(%rsp)
	movl	%ecx, 163(%rsp)
	xorl	%ebp, %ebp
	xorl	%eax, %eax
.Lluossavin_x86_64_v3.BB22_96:
	movl	160(%rsp), %ecx
	movl	163(%rsp), %edx
	movl	%edx, 139(%rsp)
	movl	%ecx, 136(%rsp)
	movq	%r8, %r14
	jmp	.Lluossavin_x86_64_v3.BB22_144
.Lluossavin_x86_64_v3.BB22_97:
	vmovdqu	%ymm7, 480(%rsp)
	movl	$16, %ecx
	subq	%r10, %rcx
	leaq	-16(%r14), %rax
	cmpq	$3072, %rax
	movq	%rcx, 72(%rsp)
	jb	.Lluossavin_x86_64_v3.BB22_107
	cmpb	$1, %bpl
	jne	.Lluossavin_x86_64_v3.BB22_107
	vpxor	%xmm0, %xmm0, %xmm0
	vmovdqa	%xmm0, 2256(%rsp)
	vmovdqu	(%r11), %xmm0
	vpshufb	.Lluossavin_x86_64_v3.CPI22_3(%rip), %xmm0, %xmm0
	vmovdqa	%xmm0, 1056(%rsp)
	leaq	2256(%rsp), %rdi
	leaq	544(%rsp), %rdx
	leaq	1056(%rsp), %rcx
	movl	$1, %esi
	vzeroupper
	callq	"cipher::encrypt.x86_64_v3"
	vmovdqa	96(%rsp), %xmm0
	vpxor	2256(%rsp), %xmm0, %xmm0
	vpshufb	.Lluossavin_x86_64_v3.CPI22_3(%rip), %xmm0, %xmm0
	movq	4856(%rsp), %r13
	vmovdqu	%xmm0, (%r13)
	addq	$-32, %r14
	movl	$16, %r13d
	cmpq	$3072, %r14
	jb	.Lluossavin_x86_64_v3.BB22_103
	movq	56(%rsp), %rbp
.Lluossavin_x86_64_v3.BB22_101:
	movq	%r13, %r15
	shrq	$4, %r14
	cmpq	$512, %r14
	movl	$512, %r13d
	cmovbq	%r14, %r13
	movq	48(%rsp), %rax
	leaq	(%rax,%r15), %rdx
	leaq	-16(%rax,%r15), %rcx
	movq	4856(%rsp), %rax
	leaq	(%rax,%r15), %r8
	leaq	544(%rsp), %rdi
	movq	%r13, %rsi
	callq	"sliced::encrypt_xored.x86_64_v3"
	shll	$4, %r13d
	addq	%r15, %r13
	movq	%rbp, %r14
	subq	%r13, %r14
	cmpq	$3071, %r14
	ja	.Lluossavin_x86_64_v3.BB22_101
	testq	%r13, %r13
	je	.Lluossavin_x86_64_v3.BB22_171
.Lluossavin_x86_64_v3.BB22_103:
	movq	48(%rsp), %rax
	vmovdqu	-16(%rax,%r13), %xmm0
	vpshufb	.Lluossavin_x86_64_v3.CPI22_3(%rip), %xmm0, %xmm0
.Lluossavin_x86_64_v3.BB22_104:
	addq	%r13, %rax
	movq	%rax, 48(%rsp)
	movq	56(%rsp), %rax
	subq	%r13, %rax
	addq	4856(%rsp), %r13
	movq	%r13, 64(%rsp)
	jmp	.Lluossavin_x86_64_v3.BB22_109
.Lluossavin_x86_64_v3.BB22_105:
	cmpq	$128, %r14
	jae	.Lluossavin_x86_64_v3.BB22_130
	xorl	%esi, %esi
	jmp	.Lluossavin_x86_64_v3.BB22_134
.Lluossavin_x86_64_v3.BB22_107:
	cmpb	$1, %bpl
	jne	.Lluossavin_x86_64_v3.BB22_145
	movq	4856(%rsp), %rax
	movq	%rax, 64(%rsp)
	movq	56(%rsp), %rax
	vmovdqa	96(%rsp), %xmm0
.Lluossavin_x86_64_v3.BB22_109:
	movq	%rax, 80(%rsp)
	shrq	$10, %rax
	movq	%rax, 120(%rsp)
	vmovdqa	%xmm0, 96(%rsp)
	je	.Lluossavin_x86_64_v3.BB22_114
	movq	64(%rsp), %rax
	leaq	992(%rax), %r14
	xorl	%r15d, %r15d
	movq	48(%rsp), %r13
	jmp	.Lluossavin_x86_64_v3.BB22_112
.Lluossavin_x86_64_v3.BB22_111:
	vmovdqa	%xmm0, 192(%rsp)
	movl	$976, %edx
	leaq	1072(%rsp), %rdi
	xorl	%esi, %esi
	vzeroupper
	callq	memset@PLT
	vmovdqa	192(%rsp), %xmm0
	vpshufb	.Lluossavin_x86_64_v3.CPI22_3(%rip), %xmm0, %xmm0
	vmovdqa	%xmm0, 1056(%rsp)
	vmovups	(%r13), %ymm0
	vmovups	32(%r13), %ymm1
	vmovups	%ymm0, 1072(%rsp)
	vmovups	%ymm1, 1104(%rsp)
	vmovups	64(%r13), %ymm0
	vmovups	96(%r13), %ymm1
	vmovups	%ymm1, 1168(%rsp)
	vmovups	%ymm0, 1136(%rsp)
	vmovups	128(%r13), %ymm0
	vmovups	160(%r13), %ymm1
	vmovups	%ymm1, 1232(%rsp)
	vmovups	%ymm0, 1200(%rsp)
	vmovups	192(%r13), %ymm0
	vmovups	224(%r13), %ymm1
	vmovups	%ymm1, 1296(%rsp)
	vmovups	%ymm0, 1264(%rsp)
	vmovups	256(%r13), %ymm0
	vmovups	288(%r13), %ymm1
	vmovups	%ymm1, 1360(%rsp)
	vmovups	%ymm0, 1328(%rsp)
	vmovups	320(%r13), %ymm0
	vmovups	352(%r13), %ymm1
	vmovups	%ymm1, 1424(%rsp)
	vmovups	%ymm0, 1392(%rsp)
	vmovups	384(%r13), %ymm0
	vmovups	416(%r13), %ymm1
	vmovups	%ymm1, 1488(%rsp)
	vmovups	%ymm0, 1456(%rsp)
	vmovups	448(%r13), %ymm0
	vmovups	480(%r13), %ymm1
	vmovups	%ymm1, 1552(%rsp)
	vmovups	%ymm0, 1520(%rsp)
	vmovups	512(%r13), %ymm0
	vmovups	544(%r13), %ymm1
	vmovups	%ymm1, 1616(%rsp)
	vmovups	%ymm0, 1584(%rsp)
	vmovups	576(%r13), %ymm0
	vmovups	608(%r13), %ymm1
	vmovups	%ymm1, 1680(%rsp)
	vmovups	%ymm0, 1648(%rsp)
	vmovups	640(%r13), %ymm0
	vmovups	672(%r13), %ymm1
	vmovups	%ymm1, 1744(%rsp)
	vmovups	%ymm0, 1712(%rsp)
	vmovups	704(%r13), %ymm0
	vmovups	736(%r13), %ymm1
	vmovups	%ymm1, 1808(%rsp)
	vmovups	%ymm0, 1776(%rsp)
	vmovups	768(%r13), %ymm0
	vmovups	800(%r13), %ymm1
	vmovups	%ymm1, 1872(%rsp)
	vmovups	%ymm0, 1840(%rsp)
	vmovups	832(%r13), %ymm0
	vmovups	864(%r13), %ymm1
	vmovups	%ymm1, 1936(%rsp)
	vmovups	%ymm0, 1904(%rsp)
	vmovups	896(%r13), %ymm0
	vmovups	928(%r13), %ymm1
	vmovups	%ymm1, 2000(%rsp)
	vmovups	%ymm0, 1968(%rsp)
	vmovups	960(%r13), %xmm0
	vmovaps	%xmm0, 2032(%rsp)
	vmovups	976(%r13), %ymm0
	vmovups	%ymm0, 192(%rsp)
	leaq	2256(%rsp), %rbp
	movl	$1024, %edx
	movq	%rbp, %rdi
	xorl	%esi, %esi
	vzeroupper
	callq	memset@PLT
	leaq	544(%rsp), %rdi
	movl	$64, %esi
	movq	%r13, %rdx
	movq	%rbp, %rcx
	callq	"sixteen::encrypt.x86_64_v3"
	vmovups	1056(%rsp), %ymm0
	vmovups	1088(%rsp), %ymm1
	vxorps	2256(%rsp), %ymm0, %ymm0
	vxorps	2288(%rsp), %ymm1, %ymm1
	vmovups	%ymm0, -992(%r14)
	vmovups	%ymm1, -960(%r14)
	vmovups	1120(%rsp), %ymm0
	vmovups	1152(%rsp), %ymm1
	vxorps	2320(%rsp), %ymm0, %ymm0
	vxorps	2352(%rsp), %ymm1, %ymm1
	vmovups	%ymm0, -928(%r14)
	vmovups	%ymm1, -896(%r14)
	vmovups	1184(%rsp), %ymm0
	vmovups	1216(%rsp), %ymm1
	vxorps	2384(%rsp), %ymm0, %ymm0
	vxorps	2416(%rsp), %ymm1, %ymm1
	vmovups	%ymm0, -864(%r14)
	vmovups	%ymm1, -832(%r14)
	vmovups	1248(%rsp), %ymm0
	vmovups	1280(%rsp), %ymm1
	vxorps	2448(%rsp), %ymm0, %ymm0
	vxorps	2480(%rsp), %ymm1, %ymm1
	vmovups	%ymm0, -800(%r14)
	vmovups	%ymm1, -768(%r14)
	vmovups	1312(%rsp), %ymm0
	vmovups	1344(%rsp), %ymm1
	vxorps	2512(%rsp), %ymm0, %ymm0
	vxorps	2544(%rsp), %ymm1, %ymm1
	vmovups	%ymm0, -736(%r14)
	vmovups	%ymm1, -704(%r14)
	vmovups	1376(%rsp), %ymm0
	vmovups	1408(%rsp), %ymm1
	vxorps	2576(%rsp), %ymm0, %ymm0
	vxorps	2608(%rsp), %ymm1, %ymm1
	vmovups	%ymm0, -672(%r14)
	vmovups	%ymm1, -640(%r14)
	vmovups	1440(%rsp), %ymm0
	vmovups	1472(%rsp), %ymm1
	vxorps	2640(%rsp), %ymm0, %ymm0
	vxorps	2672(%rsp), %ymm1, %ymm1
	vmovups	%ymm0, -608(%r14)
	vmovups	%ymm1, -576(%r14)
	vmovups	1504(%rsp), %ymm0
	vmovups	1536(%rsp), %ymm1
	vxorps	2704(%rsp), %ymm0, %ymm0
	vxorps	2736(%rsp), %ymm1, %ymm1
	vmovups	%ymm0, -544(%r14)
	vmovups	%ymm1, -512(%r14)
	vmovups	1568(%rsp), %ymm0
	vmovups	1600(%rsp), %ymm1
	vxorps	2768(%rsp), %ymm0, %ymm0
	vxorps	2800(%rsp), %ymm1, %ymm1
	vmovups	%ymm0, -480(%r14)
	vmovups	%ymm1, -448(%r14)
	vmovups	1632(%rsp), %ymm0
	vmovups	1664(%rsp), %ymm1
	vxorps	2832(%rsp), %ymm0, %ymm0
	vxorps	2864(%rsp), %ymm1, %ymm1
	vmovups	%ymm0, -416(%r14)
	vmovups	%ymm1, -384(%r14)
	vmovups	1696(%rsp), %ymm0
	vmovups	1728(%rsp), %ymm1
	vxorps	2896(%rsp), %ymm0, %ymm0
	vxorps	2928(%rsp), %ymm1, %ymm1
	vmovups	%ymm0, -352(%r14)
	vmovups	%ymm1, -320(%r14)
	vmovups	1760(%rsp), %ymm0
	vmovups	1792(%rsp), %ymm1
	vxorps	2960(%rsp), %ymm0, %ymm0
	vxorps	2992(%rsp), %ymm1, %ymm1
	vmovups	%ymm0, -288(%r14)
	vmovups	%ymm1, -256(%r14)
	vmovups	1824(%rsp), %ymm0
	vmovups	1856(%rsp), %ymm1
	vxorps	3024(%rsp), %ymm0, %ymm0
	vxorps	3056(%rsp), %ymm1, %ymm1
	vmovups	%ymm0, -224(%r14)
	vmovups	%ymm1, -192(%r14)
	vmovups	1888(%rsp), %ymm0
	vmovups	1920(%rsp), %ymm1
	vxorps	3088(%rsp), %ymm0, %ymm0
	vxorps	3120(%rsp), %ymm1, %ymm1
	vmovups	%ymm0, -160(%r14)
	vmovups	%ymm1, -128(%r14)
	vmovups	1952(%rsp), %ymm0
	vmovups	1984(%rsp), %ymm1
	vxorps	3152(%rsp), %ymm0, %ymm0
	vxorps	3184(%rsp), %ymm1, %ymm1
	vmovups	%ymm0, -96(%r14)
	vmovups	%ymm1, -64(%r14)
	vmovups	2016(%rsp), %ymm0
	vxorps	3216(%rsp), %ymm0, %ymm0
	vmovdqu	192(%rsp), %ymm1
	vpxor	3248(%rsp), %ymm1, %ymm1
	vmovups	%ymm0, -32(%r14)
	vmovdqu	%ymm1, (%r14)
	incq	%r15
	addq	$1024, %r14
	addq	$1024, %r13
	cmpq	%r15, 120(%rsp)
	vmovdqa	96(%rsp), %xmm0
	je	.Lluossavin_x86_64_v3.BB22_114
.Lluossavin_x86_64_v3.BB22_112:
	testq	%r15, %r15
	je	.Lluossavin_x86_64_v3.BB22_111
	vmovdqu	-16(%r13), %xmm0
	vpshufb	.Lluossavin_x86_64_v3.CPI22_3(%rip), %xmm0, %xmm0
	jmp	.Lluossavin_x86_64_v3.BB22_111
.Lluossavin_x86_64_v3.BB22_114:
	movq	80(%rsp), %rax
	movl	%eax, %r14d
	shrl	$4, %r14d
	andl	$63, %r14d
	movq	%rax, %r15
	andq	$-1024, %r15
	je	.Lluossavin_x86_64_v3.BB22_119
	movq	48(%rsp), %rax
	vmovdqu	-16(%rax,%r15), %xmm0
	vmovdqa	%xmm0, 192(%rsp)
	leaq	2272(%rsp), %rdi
	movl	$1008, %edx
	xorl	%esi, %esi
	vzeroupper
	callq	memset@PLT
	testq	%r14, %r14
	je	.Lluossavin_x86_64_v3.BB22_166
	vmovdqa	192(%rsp), %xmm0
	vpshufb	.Lluossavin_x86_64_v3.CPI22_3(%rip), %xmm0, %xmm0
	vmovdqa	%xmm0, 96(%rsp)
	jmp	.Lluossavin_x86_64_v3.BB22_120
.Lluossavin_x86_64_v3.BB22_117:
	cmpq	$128, %r8
	jae	.Lluossavin_x86_64_v3.BB22_149
	xorl	%eax, %eax
	movq	48(%rsp), %r15
	leaq	-16(%r14), %r8
	jmp	.Lluossavin_x86_64_v3.BB22_153
.Lluossavin_x86_64_v3.BB22_119:
	leaq	2272(%rsp), %rdi
	movl	$1008, %edx
	xorl	%esi, %esi
	vzeroupper
	callq	memset@PLT
	testq	%r14, %r14
	je	.Lluossavin_x86_64_v3.BB22_166
.Lluossavin_x86_64_v3.BB22_120:
	vmovdqa	96(%rsp), %xmm0
	vpshufb	.Lluossavin_x86_64_v3.CPI22_3(%rip), %xmm0, %xmm0
	movq	48(%rsp), %rax
	leaq	(%rax,%r15), %r13
	vmovdqa	%xmm0, 2256(%rsp)
	cmpl	$1, %r14d
	je	.Lluossavin_x86_64_v3.BB22_127
	leaq	-1(%r14), %rcx
	movl	$1, %eax
	cmpq	$4, %rcx
	jb	.Lluossavin_x86_64_v3.BB22_125
	movq	%rcx, %rdx
	andq	$-4, %rdx
	leaq	1(%rdx), %rax
	xorl	%esi, %esi
	movq	%rdx, %rdi
.Lluossavin_x86_64_v3.BB22_123:
	vmovdqu	(%r13,%rsi), %ymm0
	vmovdqu	32(%r13,%rsi), %ymm1
	vmovdqu	%ymm1, 2304(%rsp,%rsi)
	vmovdqu	%ymm0, 2272(%rsp,%rsi)
	addq	$64, %rsi
	addq	$-4, %rdi
	jne	.Lluossavin_x86_64_v3.BB22_123
	cmpl	%edx, %ecx
	je	.Lluossavin_x86_64_v3.BB22_127
.Lluossavin_x86_64_v3.BB22_125:
	movq	%r14, %rcx
	subq	%rax, %rcx
	shlq	$4, %rax
	movq	48(%rsp), %rdx
	addq	%r15, %rdx
	addq	$-16, %rdx
.Lluossavin_x86_64_v3.BB22_126:
	vmovdqu	(%rdx,%rax), %xmm0
	vmovdqa	%xmm0, 2256(%rsp,%rax)
	addq	$16, %rax
	decq	%rcx
	jne	.Lluossavin_x86_64_v3.BB22_126
.Lluossavin_x86_64_v3.BB22_127:
	movq	64(%rsp), %rax
	movq	%r15, 192(%rsp)
	leaq	(%rax,%r15), %rbp
	leaq	1056(%rsp), %rdi
	xorl	%r15d, %r15d
	movl	$1024, %edx
	xorl	%esi, %esi
	vzeroupper
	callq	memset@PLT
	leaq	544(%rsp), %rdi
	movq	%r14, %rsi
	movq	%r13, %rdx
	leaq	1056(%rsp), %rcx
	callq	"sixteen::encrypt.x86_64_v3"
	movl	%r14d, %eax
	shll	$4, %eax
	testq	%r14, %r14
	je	.Lluossavin_x86_64_v3.BB22_165
	cmpl	$4, %r14d
	jae	.Lluossavin_x86_64_v3.BB22_160
	xorl	%r15d, %r15d
	jmp	.Lluossavin_x86_64_v3.BB22_164
.Lluossavin_x86_64_v3.BB22_130:
	movq	%r14, %rsi
	andq	$-128, %rsi
	xorl	%ecx, %ecx
.Lluossavin_x86_64_v3.BB22_131:
	vmovups	(%rax,%rcx), %ymm0
	vmovdqu	32(%rax,%rcx), %ymm1
	vmovdqu	64(%rax,%rcx), %ymm2
	vmovdqu	96(%rax,%rcx), %ymm3
	vxorps	2321(%rsp,%rcx), %ymm0, %ymm0
	vpxor	2353(%rsp,%rcx), %ymm1, %ymm1
	vpxor	2385(%rsp,%rcx), %ymm2, %ymm2
	vpxor	2417(%rsp,%rcx), %ymm3, %ymm3
	vmovups	%ymm0, (%r15,%rcx)
	vmovdqu	%ymm1, 32(%r15,%rcx)
	vmovdqu	%ymm2, 64(%r15,%rcx)
	vmovdqu	%ymm3, 96(%r15,%rcx)
	subq	$-128, %rcx
	cmpq	%rcx, %rsi
	jne	.Lluossavin_x86_64_v3.BB22_131
	cmpq	%rsi, %r14
	movq	176(%rsp), %rbp
	movq	184(%rsp), %rdx
	je	.Lluossavin_x86_64_v3.BB22_142
	testb	$120, %r14b
	je	.Lluossavin_x86_64_v3.BB22_137
.Lluossavin_x86_64_v3.BB22_134:
	movq	%rsi, %rdi
	movq	%r14, %rsi
	andq	$-8, %rsi
.Lluossavin_x86_64_v3.BB22_135:
	movq	(%rax,%rdi), %r8
	xorq	2321(%rsp,%rdi), %r8
	movq	%r8, (%r15,%rdi)
	addq	$8, %rdi
	cmpq	%rdi, %rsi
	jne	.Lluossavin_x86_64_v3.BB22_135
	cmpq	%rsi, %r14
	je	.Lluossavin_x86_64_v3.BB22_142
.Lluossavin_x86_64_v3.BB22_137:
	movq	%r14, %r8
	movq	%rsi, %rdi
	andq	$7, %r8
	je	.Lluossavin_x86_64_v3.BB22_140
	movq	%rsi, %rdi
.Lluossavin_x86_64_v3.BB22_139:
	movzbl	(%rax,%rdi), %r9d
	xorb	2321(%rsp,%rdi), %r9b
	movb	%r9b, (%r15,%rdi)
	incq	%rdi
	decq	%r8
	jne	.Lluossavin_x86_64_v3.BB22_139
.Lluossavin_x86_64_v3.BB22_140:
	subq	%r14, %rsi
	cmpq	$-8, %rsi
	ja	.Lluossavin_x86_64_v3.BB22_142
.Lluossavin_x86_64_v3.BB22_141:
	movzbl	(%rax,%rdi), %esi
	xorb	2321(%rsp,%rdi), %sil
	movb	%sil, (%r15,%rdi)
	movzbl	1(%rax,%rdi), %esi
	xorb	2322(%rsp,%rdi), %sil
	movb	%sil, 1(%r15,%rdi)
	movzbl	2(%rax,%rdi), %esi
	xorb	2323(%rsp,%rdi), %sil
	movb	%sil, 2(%r15,%rdi)
	movzbl	3(%rax,%rdi), %esi
	xorb	2324(%rsp,%rdi), %sil
	movb	%sil, 3(%r15,%rdi)
	movzbl	4(%rax,%rdi), %esi
	xorb	2325(%rsp,%rdi), %sil
	movb	%sil, 4(%r15,%rdi)
	movzbl	5(%rax,%rdi), %esi
	xorb	2326(%rsp,%rdi), %sil
	movb	%sil, 5(%r15,%rdi)
	movzbl	6(%rax,%rdi), %esi
	xorb	2327(%rsp,%rdi), %sil
	movb	%sil, 6(%r15,%rdi)
	movzbl	7(%rax,%rdi), %esi
	xorb	2328(%rsp,%rdi), %sil
	movb	%sil, 7(%r15,%rdi)
	addq	$8, %rdi
	cmpq	%rdi, %r14
	jne	.Lluossavin_x86_64_v3.BB22_141
.Lluossavin_x86_64_v3.BB22_142:
	vxorps	%xmm0, %xmm0, %xmm0
	vmovups	%ymm0, 3776(%rsp)
	vmovups	%ymm0, 3280(%rsp)
	movq	96(%rsp), %rax
	movq	%rax, 336(%rsp)
	movq	120(%rsp), %rax
	movq	%rax, 344(%rsp)
	vxorps	%xmm0, %xmm0, %xmm0
	vmovups	%xmm0, 352(%rsp)
	leaq	3280(%rsp), %rdi
	leaq	336(%rsp), %rsi
	movq	%rbp, %rcx
	vzeroupper
	callq	"ghash::Ghash::absorb_all.x86_64_v3"
	leaq	3776(%rsp), %rdi
	leaq	3280(%rsp), %rsi
	movq	%r15, %rdx
	movq	%r14, %rcx
	callq	"ghash::Ghash::absorb_all.x86_64_v3"
	leaq	544(%rsp), %rdi
	leaq	3776(%rsp), %rsi
	movq	%rbp, %rdx
	movq	%r14, %rcx
	callq	"ghash::Ghash::absorb_lengths.x86_64_v3"
	vpshufd	$177, 560(%rsp), %xmm0
	vpshufb	.Lluossavin_x86_64_v3.CPI22_3(%rip), %xmm0, %xmm0
	vpxor	192(%rsp), %xmm0, %xmm0
	vmovdqu	%xmm0, (%r15,%r14)
.Lluossavin_x86_64_v3.BB22_143:
	addq	$16, %r14
	movl	280(%rsp), %eax
	movl	283(%rsp), %ecx
	movl	%eax, 136(%rsp)
	movl	%ecx, 139(%rsp)
	xorl	%ebp, %ebp
	xorl	%eax, %eax
	movq	88(%rsp), %rdi
.Lluossavin_x86_64_v3.BB22_144:
	movl	136(%rsp), %ecx
	movl	139(%rsp), %edx
	movl	%edx, 43(%rsp)
	movl	%ecx, 40(%rsp)
	jmp	.Lluossavin_x86_64_v3.BB22_170
.Lluossavin_x86_64_v3.BB22_145:
	movq	56(%rsp), %r14
	shrq	$4, %r14
	movq	4856(%rsp), %r13
	movl	192(%rsp), %ebp
	je	.Lluossavin_x86_64_v3.BB22_167
	xorl	%r15d, %r15d
.Lluossavin_x86_64_v3.BB22_147:
	vpxor	%xmm0, %xmm0, %xmm0
	vmovdqa	%xmm0, 2256(%rsp)
	vmovdqu	(%r11,%r15), %xmm0
	vpshufb	.Lluossavin_x86_64_v3.CPI22_3(%rip), %xmm0, %xmm0
	vmovdqa	%xmm0, 1056(%rsp)
	leaq	2256(%rsp), %rdi
	leaq	544(%rsp), %rdx
	leaq	1056(%rsp), %rcx
	movl	%ebp, %esi
	vzeroupper
	callq	"cipher::encrypt.x86_64_v3"
	movq	48(%rsp), %r11
	vmovdqa	96(%rsp), %xmm0
	vpxor	2256(%rsp), %xmm0, %xmm0
	vmovdqa	.Lluossavin_x86_64_v3.CPI22_3(%rip), %xmm1
	vpshufb	%xmm1, %xmm0, %xmm0
	vmovdqu	%xmm0, (%r13,%r15)
	vmovdqu	(%r11,%r15), %xmm0
	vpshufb	%xmm1, %xmm0, %xmm0
	vmovdqa	%xmm0, 96(%rsp)
	addq	$16, %r15
	decq	%r14
	jne	.Lluossavin_x86_64_v3.BB22_147
	jmp	.Lluossavin_x86_64_v3.BB22_167
.Lluossavin_x86_64_v3.BB22_149:
	leaq	-16(%r14), %rax
	andq	$-128, %rax
	xorl	%ecx, %ecx
	movq	48(%rsp), %r15
.Lluossavin_x86_64_v3.BB22_150:
	vmovdqu	(%r15,%rcx), %ymm0
	vmovdqu	32(%r15,%rcx), %ymm1
	vmovdqu	64(%r15,%rcx), %ymm2
	vmovdqu	96(%r15,%rcx), %ymm3
	vpxor	2321(%rsp,%rcx), %ymm0, %ymm0
	vpxor	2353(%rsp,%rcx), %ymm1, %ymm1
	vpxor	2385(%rsp,%rcx), %ymm2, %ymm2
	vpxor	2417(%rsp,%rcx), %ymm3, %ymm3
	vmovdqu	%ymm0, (%rsi,%rcx)
	vmovdqu	%ymm1, 32(%rsi,%rcx)
	vmovdqu	%ymm2, 64(%rsi,%rcx)
	vmovdqu	%ymm3, 96(%rsi,%rcx)
	subq	$-128, %rcx
	cmpq	%rcx, %rax
	jne	.Lluossavin_x86_64_v3.BB22_150
	leaq	-16(%r14), %r8
	cmpq	%rax, %r8
	movq	88(%rsp), %rdi
	je	.Lluossavin_x86_64_v3.BB22_95
	testb	$120, %r8b
	je	.Lluossavin_x86_64_v3.BB22_156
.Lluossavin_x86_64_v3.BB22_153:
	movq	%rax, %rcx
	movq	%r8, %rax
	andq	$-8, %rax
.Lluossavin_x86_64_v3.BB22_154:
	movq	(%r15,%rcx), %rdx
	xorq	2321(%rsp,%rcx), %rdx
	movq	%rdx, (%rsi,%rcx)
	addq	$8, %rcx
	cmpq	%rcx, %rax
	jne	.Lluossavin_x86_64_v3.BB22_154
	leaq	-16(%r14), %r8
	cmpq	%rax, %r8
	movq	88(%rsp), %rdi
	je	.Lluossavin_x86_64_v3.BB22_95
.Lluossavin_x86_64_v3.BB22_156:
	movq	%r14, %rcx
	subq	%rax, %rcx
	addq	$-17, %rcx
	andq	$7, %r14
	je	.Lluossavin_x86_64_v3.BB22_158
.Lluossavin_x86_64_v3.BB22_157:
	movzbl	(%r15,%rax), %edx
	xorb	2321(%rsp,%rax), %dl
	movb	%dl, (%rsi,%rax)
	incq	%rax
	decq	%r14
	jne	.Lluossavin_x86_64_v3.BB22_157
.Lluossavin_x86_64_v3.BB22_158:
	cmpq	$7, %rcx
	movq	88(%rsp), %rdi
	movq	472(%rsp), %r8
	jb	.Lluossavin_x86_64_v3.BB22_95
.Lluossavin_x86_64_v3.BB22_159:
	movzbl	(%r15,%rax), %ecx
	xorb	2321(%rsp,%rax), %cl
	movb	%cl, (%rsi,%rax)
	movzbl	1(%r15,%rax), %ecx
	xorb	2322(%rsp,%rax), %cl
	movb	%cl, 1(%rsi,%rax)
	movzbl	2(%r15,%rax), %ecx
	xorb	2323(%rsp,%rax), %cl
	movb	%cl, 2(%rsi,%rax)
	movzbl	3(%r15,%rax), %ecx
	xorb	2324(%rsp,%rax), %cl
	movb	%cl, 3(%rsi,%rax)
	movzbl	4(%r15,%rax), %ecx
	xorb	2325(%rsp,%rax), %cl
	movb	%cl, 4(%rsi,%rax)
	movzbl	5(%r15,%rax), %ecx
	xorb	2326(%rsp,%rax), %cl
	movb	%cl, 5(%rsi,%rax)
	movzbl	6(%r15,%rax), %ecx
	xorb	2327(%rsp,%rax), %cl
	movb	%cl, 6(%rsi,%rax)
	movzbl	7(%r15,%rax), %ecx
	xorb	2328(%rsp,%rax), %cl
	movb	%cl, 7(%rsi,%rax)
	addq	$8, %rax
	cmpq	%rax, %r8
	jne	.Lluossavin_x86_64_v3.BB22_159
	jmp	.Lluossavin_x86_64_v3.BB22_95
.Lluossavin_x86_64_v3.BB22_160:
	movl	%eax, %r15d
	andl	$-64, %r15d
	movq	64(%rsp), %rcx
	movq	192(%rsp), %rdx
	addq	%rdx, %rcx
	addq	$32, %rcx
	xorl	%edx, %edx
.Lluossavin_x86_64_v3.BB22_161:
	vmovdqu	2256(%rsp,%rdx), %ymm0
	vmovdqu	2288(%rsp,%rdx), %ymm1
	vpxor	1056(%rsp,%rdx), %ymm0, %ymm0
	vpxor	1088(%rsp,%rdx), %ymm1, %ymm1
	vmovdqu	%ymm0, -32(%rcx,%rdx)
	vmovdqu	%ymm1, (%rcx,%rdx)
	addq	$64, %rdx
	cmpq	%rdx, %r15
	jne	.Lluossavin_x86_64_v3.BB22_161
	cmpl	%r15d, %eax
	je	.Lluossavin_x86_64_v3.BB22_166
	testb	$48, 80(%rsp)
	je	.Lluossavin_x86_64_v3.BB22_165
.Lluossavin_x86_64_v3.BB22_164:
	vmovdqa	2256(%rsp,%r15), %xmm0
	vpxor	1056(%rsp,%r15), %xmm0, %xmm0
	vmovdqu	%xmm0, (%rbp,%r15)
	addq	$16, %r15
	cmpq	%r15, %rax
	jne	.Lluossavin_x86_64_v3.BB22_164
	jmp	.Lluossavin_x86_64_v3.BB22_166
.Lluossavin_x86_64_v3.BB22_165:
	movzbl	2256(%rsp,%r15), %ecx
	xorb	1056(%rsp,%r15), %cl
	movb	%cl, (%rbp,%r15)
	incq	%r15
	cmpq	%r15, %rax
	jne	.Lluossavin_x86_64_v3.BB22_165
.Lluossavin_x86_64_v3.BB22_166:
	movq	4856(%rsp), %r13
.Lluossavin_x86_64_v3.BB22_167:
	movq	56(%rsp), %r14
	addq	%r14, %r13
	vmovdqu	480(%rsp), %ymm0
	vmovdqa	%xmm0, 2256(%rsp)
	leaq	2256(%rsp), %rsi
	movq	%r13, %rdi
	movq	72(%rsp), %r15
	movq	%r15, %rdx
	vzeroupper
	callq	memcpy@PLT
	addq	%r14, %r15
.Lluossavin_x86_64_v3.BB22_168:
	movl	3280(%rsp), %eax
	movl	3283(%rsp), %ecx
	movl	%ecx, 43(%rsp)
	movl	%eax, 40(%rsp)
	xorl	%ebp, %ebp
	xorl	%eax, %eax
	movq	88(%rsp), %rdi
.Lluossavin_x86_64_v3.BB22_169:
	xorl	%r13d, %r13d
	movq	%r15, %r14
.Lluossavin_x86_64_v3.BB22_170:
	movl	40(%rsp), %ecx
	movl	43(%rsp), %edx
	movl	%edx, 155(%rsp)
	movl	%ecx, 152(%rsp)
	movl	152(%rsp), %ecx
	movl	155(%rsp), %edx
	movl	%ecx, 128(%rsp)
	movl	%edx, 131(%rsp)
	xorl	%ecx, %ecx
	jmp	.Lluossavin_x86_64_v3.BB22_9
.Lluossavin_x86_64_v3.BB22_171:
	xorl	%r13d, %r13d
	movq	48(%rsp), %rax
	vmovdqa	96(%rsp), %xmm0
	jmp	.Lluossavin_x86_64_v3.BB22_104
.Lluossavin_x86_64_v3.func_end22:
	.size	"cipher_mode::Sm4CipherMode::call.x86_64_v3", .Lluossavin_x86_64_v3.func_end22-"cipher_mode::Sm4CipherMode::call.x86_64_v3"
	.section	".rodata.cipher_mode::Sm4CipherMode::call.x86_64_v3","a",@progbits
	.p2align	2, 0x0
.Lluossavin_x86_64_v3.JTI22_0:
	.long	.Lluossavin_x86_64_v3.BB22_25-.Lluossavin_x86_64_v3.JTI22_0
	.long	.Lluossavin_x86_64_v3.BB22_35-.Lluossavin_x86_64_v3.JTI22_0
	.long	.Lluossavin_x86_64_v3.BB22_29-.Lluossavin_x86_64_v3.JTI22_0
	.long	.Lluossavin_x86_64_v3.BB22_25-.Lluossavin_x86_64_v3.JTI22_0
	.long	.Lluossavin_x86_64_v3.BB22_29-.Lluossavin_x86_64_v3.JTI22_0
.Lluossavin_x86_64_v3.JTI22_1:
	.long	.Lluossavin_x86_64_v3.BB22_31-.Lluossavin_x86_64_v3.JTI22_1
	.long	.Lluossavin_x86_64_v3.BB22_50-.Lluossavin_x86_64_v3.JTI22_1
	.long	.Lluossavin_x86_64_v3.BB22_41-.Lluossavin_x86_64_v3.JTI22_1
	.long	.Lluossavin_x86_64_v3.BB22_44-.Lluossavin_x86_64_v3.JTI22_1
	.long	.Lluossavin_x86_64_v3.BB22_36-.Lluossavin_x86_64_v3.JTI22_1

	.section	.rodata.cst16,"aM",@progbits,16
	.p2align	4, 0x0
.Lluossavin_x86_64_v3.CPI23_0:
	.byte	3
	.byte	2
	.byte	1
	.byte	0
	.byte	7
	.byte	6
	.byte	5
	.byte	4
	.byte	11
	.byte	10
	.byte	9
	.byte	8
	.byte	15
	.byte	14
	.byte	13
	.byte	12
.Lluossavin_x86_64_v3.CPI23_1:
	.byte	3
	.byte	2
	.byte	1
	.byte	0
	.byte	7
	.byte	6
	.byte	5
	.byte	4
	.zero	1
	.zero	1
	.zero	1
	.zero	1
	.zero	1
	.zero	1
	.zero	1
	.zero	1
	.section	".text.editions::which.x86_64_v3","ax",@progbits
	.p2align	4
	.type	"editions::which.x86_64_v3",@function
"editions::which.x86_64_v3":
	pushq	%rbp
	pushq	%r15
	pushq	%r14
	pushq	%r13
	pushq	%r12
	pushq	%rbx
	subq	$472, %rsp
	movq	552(%rsp), %rbp
	cmpq	$64, %rbp
	ja	.Lluossavin_x86_64_v3.BB23_36
	movq	544(%rsp), %r14
	movzbl	128(%rsi), %r13d
	movzwl	130(%rsi), %ebx
	movzbl	133(%rsi), %r10d
	xorl	%eax, %eax
	testq	%rbp, %rbp
	je	.Lluossavin_x86_64_v3.BB23_5
	xorl	%r11d, %r11d
	.p2align	4
.Lluossavin_x86_64_v3.BB23_3:
	addq	(%r14,%r11,8), %rax
	jb	.Lluossavin_x86_64_v3.BB23_36
	incq	%r11
	cmpq	%r11, %rbp
	jne	.Lluossavin_x86_64_v3.BB23_3
.Lluossavin_x86_64_v3.BB23_5:
	cmpq	536(%rsp), %rax
	jne	.Lluossavin_x86_64_v3.BB23_36
	movzbl	%r13b, %eax
	testl	%eax, %eax
	movb	%r13b, 11(%rsp)
	je	.Lluossavin_x86_64_v3.BB23_10
	cmpl	$1, %eax
	jne	.Lluossavin_x86_64_v3.BB23_9
	xorl	%ecx, %ecx
	movl	%r13d, %eax
	jmp	.Lluossavin_x86_64_v3.BB23_13
.Lluossavin_x86_64_v3.BB23_36:
	movb	$1, (%rdi)
	vpxor	%xmm0, %xmm0, %xmm0
	vmovdqu	%ymm0, 1(%rdi)
	vmovdqu	%ymm0, 16(%rdi)
.Lluossavin_x86_64_v3.BB23_37:
	addq	$472, %rsp
	popq	%rbx
	popq	%r12
	popq	%r13
	popq	%r14
	popq	%r15
	popq	%rbp
	vzeroupper
	retq
.Lluossavin_x86_64_v3.BB23_10:
	movb	$1, %al
	cmpq	$16, %r9
	je	.Lluossavin_x86_64_v3.BB23_15
	cmpq	$12, %r9
	jne	.Lluossavin_x86_64_v3.BB23_12
.Lluossavin_x86_64_v3.BB23_15:
	xorl	%r11d, %r11d
	.p2align	4
.Lluossavin_x86_64_v3.BB23_16:
	cmpq	%r11, %rbp
	je	.Lluossavin_x86_64_v3.BB23_19
	cmpq	$16777216, (%r14,%r11,8)
	leaq	1(%r11), %r11
	jbe	.Lluossavin_x86_64_v3.BB23_16
	xorl	%edx, %edx
	movb	$4, %cl
	jmp	.Lluossavin_x86_64_v3.BB23_14
.Lluossavin_x86_64_v3.BB23_9:
	movb	$11, %cl
	movb	$1, %al
	jmp	.Lluossavin_x86_64_v3.BB23_13
.Lluossavin_x86_64_v3.BB23_19:
	cmpq	$16777232, %rcx
	jbe	.Lluossavin_x86_64_v3.BB23_21
	movb	$4, %cl
	jmp	.Lluossavin_x86_64_v3.BB23_13
.Lluossavin_x86_64_v3.BB23_12:
	movb	$8, %cl
.Lluossavin_x86_64_v3.BB23_13:
	xorl	%edx, %edx
.Lluossavin_x86_64_v3.BB23_14:
	xorl	%esi, %esi
	xorl	%r15d, %r15d
	xorl	%r13d, %r13d
	xorl	%r12d, %r12d
.Lluossavin_x86_64_v3.BB23_35:
	xorl	%r8d, %r8d
	cmpb	$0, 11(%rsp)
	cmovnel	%r8d, %ebx
	movb	%al, (%rdi)
	movb	%al, 1(%rdi)
	movb	%cl, 2(%rdi)
	movb	%dl, 3(%rdi)
	movl	$0, 4(%rdi)
	movq	%rsi, 8(%rdi)
	movq	%r15, 16(%rdi)
	movq	%r13, 24(%rdi)
	movq	%r12, 32(%rdi)
	movw	%bx, 40(%rdi)
	movl	$0, 42(%rdi)
	movw	$0, 46(%rdi)
	jmp	.Lluossavin_x86_64_v3.BB23_37
.Lluossavin_x86_64_v3.BB23_21:
	cmpq	$15, %rcx
	ja	.Lluossavin_x86_64_v3.BB23_23
	movb	$16, %dl
	subb	%cl, %dl
	movb	$7, %cl
	jmp	.Lluossavin_x86_64_v3.BB23_14
.Lluossavin_x86_64_v3.BB23_23:
	decb	%r10b
	cmpb	$3, %r10b
	movzbl	%r10b, %r10d
	movl	$1, %eax
	cmovbl	%r10d, %eax
	vmovdqu	(%rsi), %ymm0
	vmovdqu	32(%rsi), %ymm1
	vmovups	64(%rsi), %ymm2
	vmovups	96(%rsi), %ymm3
	vmovdqu	%ymm0, 336(%rsp)
	vmovdqu	%ymm1, 368(%rsp)
	vmovups	%ymm2, 400(%rsp)
	vmovups	%ymm3, 432(%rsp)
	vpxor	%xmm0, %xmm0, %xmm0
	vmovdqa	%xmm0, 96(%rsp)
	testq	%rbp, %rbp
	je	.Lluossavin_x86_64_v3.BB23_24
	movq	%r8, %r12
	movq	%rdx, 88(%rsp)
	movq	%rcx, 80(%rsp)
	movq	%rdi, 72(%rsp)
	vmovdqu	(%rsi), %ymm1
	vmovups	32(%rsi), %ymm2
	vmovups	64(%rsi), %ymm3
	vmovups	96(%rsi), %ymm4
	vmovdqu	%ymm1, 176(%rsp)
	vmovups	%ymm2, 208(%rsp)
	vmovups	%ymm3, 240(%rsp)
	vmovups	%ymm4, 272(%rsp)
	vmovdqa	%xmm0, 16(%rsp)
	vmovdqa	%xmm0, 112(%rsp)
	movzbl	%al, %esi
	leaq	16(%rsp), %rdi
	leaq	176(%rsp), %rdx
	leaq	112(%rsp), %rcx
	movl	%esi, 56(%rsp)
	movq	%r9, %r15
	vzeroupper
	callq	"cipher::encrypt.x86_64_v3"
	movq	%r15, %rcx
	movl	16(%rsp), %r15d
	movl	20(%rsp), %eax
	movl	28(%rsp), %edx
	shlq	$32, %r15
	orq	%rax, %r15
	movl	24(%rsp), %eax
	shlq	$32, %rax
	orq	%rdx, %rax
	cmpq	$12, %rcx
	movl	%ebx, 12(%rsp)
	jne	.Lluossavin_x86_64_v3.BB23_27
	vmovq	(%r12), %xmm0
	vpshufb	.Lluossavin_x86_64_v3.CPI23_0(%rip), %xmm0, %xmm0
	movbel	8(%r12), %ecx
	movq	%rax, %rbx
	movl	$1, %eax
	jmp	.Lluossavin_x86_64_v3.BB23_28
.Lluossavin_x86_64_v3.BB23_24:
	xorl	%esi, %esi
	xorl	%r15d, %r15d
	xorl	%r13d, %r13d
	xorl	%r12d, %r12d
	jmp	.Lluossavin_x86_64_v3.BB23_34
.Lluossavin_x86_64_v3.BB23_27:
	vpxor	%xmm0, %xmm0, %xmm0
	vmovdqu	%ymm0, 16(%rsp)
	movq	%r15, 112(%rsp)
	movq	%rax, 120(%rsp)
	vpxor	%xmm0, %xmm0, %xmm0
	vmovdqu	%xmm0, 128(%rsp)
	leaq	16(%rsp), %r13
	leaq	112(%rsp), %rsi
	movq	%r13, %rdi
	movq	%r12, %rdx
	movq	%rcx, %r12
	movq	%rax, %rbx
	vzeroupper
	callq	"ghash::Ghash::absorb_all.x86_64_v3"
	leaq	176(%rsp), %rdi
	movq	%r13, %rsi
	xorl	%edx, %edx
	movq	%r12, %rcx
	callq	"ghash::Ghash::absorb_lengths.x86_64_v3"
	movq	192(%rsp), %rdx
	movq	200(%rsp), %rax
	movq	%rdx, %rsi
	shrq	$32, %rsi
	movq	%rax, %rcx
	shrq	$32, %rcx
	vmovd	%esi, %xmm0
	vpinsrd	$1, %edx, %xmm0, %xmm0
.Lluossavin_x86_64_v3.BB23_28:
	movq	%r15, %r12
	vmovq	%xmm0, 112(%rsp)
	movl	%ecx, 120(%rsp)
	movl	%eax, 124(%rsp)
	leaq	96(%rsp), %rdi
	leaq	336(%rsp), %rdx
	leaq	112(%rsp), %rcx
	movl	56(%rsp), %esi
	callq	"cipher::encrypt.x86_64_v3"
	movq	80(%rsp), %r15
	leaq	-16(%r15), %r13
	vpxor	%xmm0, %xmm0, %xmm0
	vmovdqu	%ymm0, 176(%rsp)
	movq	%r12, 16(%rsp)
	movq	%rbx, 24(%rsp)
	vpxor	%xmm0, %xmm0, %xmm0
	vmovdqu	%xmm0, 32(%rsp)
	leaq	176(%rsp), %rdi
	leaq	16(%rsp), %rsi
	movq	88(%rsp), %rdx
	movq	%r13, %rcx
	vzeroupper
	callq	"ghash::Ghash::absorb_all.x86_64_v3"
	vmovaps	192(%rsp), %xmm0
	vmovaps	%xmm0, 320(%rsp)
	movq	%r13, 160(%rsp)
	shrq	$4, %r13
	movl	%r15d, %eax
	andl	$15, %eax
	cmpq	$1, %rax
	sbbq	$-1, %r13
	movq	%r12, 168(%rsp)
	movq	%r12, %rdi
	movq	%rbx, 56(%rsp)
	movq	%rbx, %rsi
	movq	%r13, %rdx
	callq	"field::power.x86_64_v3"
	movq	%rax, 152(%rsp)
	movq	%rdx, 144(%rsp)
	vmovq	96(%rsp), %xmm0
	vmovdqa	%xmm0, 304(%rsp)
	movl	104(%rsp), %eax
	movl	%eax, 68(%rsp)
	movl	108(%rsp), %eax
	movl	%eax, 64(%rsp)
	xorl	%r15d, %r15d
	xorl	%r13d, %r13d
.Lluossavin_x86_64_v3.BB23_29:
	movq	(%r14,%r15,8), %r12
	movq	528(%rsp), %rax
	leaq	(%rax,%r13), %rdx
	vpxor	%xmm0, %xmm0, %xmm0
	vmovdqu	%ymm0, 176(%rsp)
	movq	168(%rsp), %rbx
	movq	%rbx, 16(%rsp)
	movq	56(%rsp), %rax
	movq	%rax, 24(%rsp)
	vpxor	%xmm0, %xmm0, %xmm0
	leaq	16(%rsp), %rax
	vmovdqu	%xmm0, 16(%rax)
	leaq	176(%rsp), %rdi
	leaq	16(%rsp), %rsi
	movq	%r12, %rcx
	vzeroupper
	callq	"ghash::Ghash::absorb_all.x86_64_v3"
	movq	192(%rsp), %rdi
	movq	200(%rsp), %rsi
	movq	152(%rsp), %rdx
	movq	144(%rsp), %rcx
	callq	"field::galois_mul.x86_64_v3"
	movq	%rbx, 16(%rsp)
	movq	56(%rsp), %rcx
	movq	%rcx, 24(%rsp)
	vmovq	%rdx, %xmm0
	vmovq	%rax, %xmm1
	vpunpcklqdq	%xmm0, %xmm1, %xmm0
	vpxor	320(%rsp), %xmm0, %xmm0
	vmovdqu	%xmm0, 32(%rsp)
	leaq	176(%rsp), %rdi
	leaq	16(%rsp), %rsi
	movq	%r12, %rdx
	movq	160(%rsp), %rcx
	callq	"ghash::Ghash::absorb_lengths.x86_64_v3"
	movq	192(%rsp), %rax
	movq	200(%rsp), %rcx
	movq	%rax, %rdx
	shrq	$32, %rdx
	movq	%rcx, %rsi
	shrq	$32, %rsi
	movq	80(%rsp), %rdi
	movq	88(%rsp), %r8
	movbel	-8(%r8,%rdi), %r9d
	xorl	68(%rsp), %esi
	xorl	%esi, %r9d
	movbel	-4(%r8,%rdi), %esi
	xorl	64(%rsp), %ecx
	vmovd	%edx, %xmm0
	vpinsrd	$1, %eax, %xmm0, %xmm0
	xorl	%ecx, %esi
	vmovq	-16(%r8,%rdi), %xmm1
	vpshufb	.Lluossavin_x86_64_v3.CPI23_1(%rip), %xmm1, %xmm1
	vpxor	304(%rsp), %xmm1, %xmm1
	vpxor	%xmm0, %xmm1, %xmm0
	vpextrd	$1, %xmm0, %eax
	vmovd	%xmm0, %ecx
	addq	%rcx, %r9
	addq	%rax, %r9
	orq	%r9, %rsi
	je	.Lluossavin_x86_64_v3.BB23_30
	addq	%r12, %r13
	incq	%r15
	cmpq	%r15, %rbp
	jne	.Lluossavin_x86_64_v3.BB23_29
	xorl	%esi, %esi
	xorl	%r15d, %r15d
	xorl	%r13d, %r13d
	xorl	%r12d, %r12d
	jmp	.Lluossavin_x86_64_v3.BB23_33
.Lluossavin_x86_64_v3.BB23_30:
	movl	$1, %esi
.Lluossavin_x86_64_v3.BB23_33:
	movq	72(%rsp), %rdi
	movl	12(%rsp), %ebx
.Lluossavin_x86_64_v3.BB23_34:
	xorl	%eax, %eax
	xorl	%ecx, %ecx
	xorl	%edx, %edx
	jmp	.Lluossavin_x86_64_v3.BB23_35
.Lluossavin_x86_64_v3.func_end23:
	.size	"editions::which.x86_64_v3", .Lluossavin_x86_64_v3.func_end23-"editions::which.x86_64_v3"

	.section	.text.luossavin_block_decrypt_x86_64_v3,"ax",@progbits
	.globl	luossavin_block_decrypt_x86_64_v3
	.hidden	luossavin_block_decrypt_x86_64_v3
	.p2align	4
	.type	luossavin_block_decrypt_x86_64_v3,@function
luossavin_block_decrypt_x86_64_v3:
	subq	$184, %rsp
	movq	%rcx, %rax
	movq	%rsi, %r8
	xorl	%ecx, %ecx
	testq	%rdi, %rdi
	sete	%cl
	shll	$12, %ecx
	addq	%rdi, %rcx
	xorl	%r9d, %r9d
	testq	%rdx, %rdx
	sete	%r9b
	shll	$12, %r9d
	addq	%rdx, %r9
	movl	320(%rsp), %edx
	movzwl	324(%rsp), %esi
	cmpl	$13, %edx
	sete	%dil
	incb	%dil
	testl	%edx, %edx
	movzbl	%dil, %edi
	cmovel	%edx, %edi
	cmpb	$0, 326(%rsp)
	vmovups	192(%rsp), %ymm0
	vmovups	224(%rsp), %ymm1
	vmovups	256(%rsp), %ymm2
	vmovups	288(%rsp), %ymm3
	vmovups	%ymm3, 144(%rsp)
	vmovups	%ymm2, 112(%rsp)
	vmovups	%ymm1, 80(%rsp)
	vmovups	%ymm0, 48(%rsp)
	movzbl	327(%rsp), %edx
	movb	%dil, 176(%rsp)
	movb	$0, 177(%rsp)
	movw	%si, 178(%rsp)
	setne	180(%rsp)
	movb	%dl, 181(%rsp)
	movw	$0, 182(%rsp)
	vxorps	%xmm0, %xmm0, %xmm0
	vmovups	%ymm0, 16(%rsp)
	movq	%rax, (%rsp)
	leaq	16(%rsp), %rdi
	leaq	48(%rsp), %rsi
	movl	$1, %edx
	vzeroupper
	callq	"cipher_mode::Sm4Cipher::call.x86_64_v3"
	movzwl	40(%rsp), %eax
	cmpb	$0, 16(%rsp)
	je	.Lluossavin_x86_64_v3.BB24_1
	movzbl	17(%rsp), %edx
	leaq	.Lluossavin_x86_64_v3.switch.table.luossavin_edition_opens_x86_64_v3(%rip), %rsi
	xorl	%ecx, %ecx
	cmpq	$7, %rdx
	movzbl	18(%rsp), %edi
	cmovnel	%ecx, %edi
	movq	(%rsi,%rdx,8), %rsi
	movzbl	%dil, %edi
	shlq	$32, %rdi
	xorl	%edx, %edx
	jmp	.Lluossavin_x86_64_v3.BB24_3
.Lluossavin_x86_64_v3.BB24_1:
	movq	24(%rsp), %rdx
	movzbl	32(%rsp), %ecx
	andl	$1, %ecx
	shlq	$40, %rcx
	xorl	%esi, %esi
	xorl	%edi, %edi
.Lluossavin_x86_64_v3.BB24_3:
	orq	%rcx, %rdi
	shlq	$48, %rax
	orq	%rsi, %rax
	orq	%rdi, %rax
	addq	$184, %rsp
	retq
.Lluossavin_x86_64_v3.func_end24:
	.size	luossavin_block_decrypt_x86_64_v3, .Lluossavin_x86_64_v3.func_end24-luossavin_block_decrypt_x86_64_v3

	.section	.rodata.cst16,"aM",@progbits,16
	.p2align	4, 0x0
.Lluossavin_x86_64_v3.CPI25_0:
	.byte	3
	.byte	2
	.byte	1
	.byte	0
	.byte	7
	.byte	6
	.byte	5
	.byte	4
	.byte	11
	.byte	10
	.byte	9
	.byte	8
	.byte	15
	.byte	14
	.byte	13
	.byte	12
	.section	.text.luossavin_block_encrypt_x86_64_v3,"ax",@progbits
	.globl	luossavin_block_encrypt_x86_64_v3
	.hidden	luossavin_block_encrypt_x86_64_v3
	.p2align	4
	.type	luossavin_block_encrypt_x86_64_v3,@function
luossavin_block_encrypt_x86_64_v3:
	pushq	%rbp
	pushq	%r15
	pushq	%r14
	pushq	%r12
	pushq	%rbx
	subq	$32, %rsp
	xorl	%r8d, %r8d
	testq	%rdi, %rdi
	sete	%r10b
	xorl	%r14d, %r14d
	testq	%rdx, %rdx
	sete	%r9b
	movl	208(%rsp), %ebp
	movzwl	212(%rsp), %ebx
	cmpl	$13, %ebp
	sete	%al
	incb	%al
	testl	%ebp, %ebp
	movzbl	%al, %eax
	cmovel	%ebp, %eax
	testb	%al, %al
	je	.Lluossavin_x86_64_v3.BB25_4
	movzbl	%al, %eax
	xorl	%edx, %edx
	cmpl	$2, %eax
	jne	.Lluossavin_x86_64_v3.BB25_2
	testl	%ebp, %ebp
	cmovnel	%edx, %ebx
	movl	$13, %r15d
	jmp	.Lluossavin_x86_64_v3.BB25_10
.Lluossavin_x86_64_v3.BB25_4:
	cmpq	$16, %rsi
	jne	.Lluossavin_x86_64_v3.BB25_9
	leaq	80(%rsp), %rax
	cmpb	$0, 134(%rax)
	jne	.Lluossavin_x86_64_v3.BB25_9
	cmpq	$15, %rcx
	ja	.Lluossavin_x86_64_v3.BB25_8
	xorl	%edx, %edx
	testl	%ebp, %ebp
	cmovnel	%edx, %ebx
	movl	$6, %r15d
	jmp	.Lluossavin_x86_64_v3.BB25_10
.Lluossavin_x86_64_v3.BB25_2:
	testl	%ebp, %ebp
	cmovnel	%edx, %ebx
	movl	$1, %r15d
	jmp	.Lluossavin_x86_64_v3.BB25_10
.Lluossavin_x86_64_v3.BB25_9:
	xorl	%eax, %eax
	cmpq	$16, %rsi
	sete	%al
	xorl	%edx, %edx
	testl	%ebp, %ebp
	cmovnel	%edx, %ebx
	leaq	(%rax,%rax,2), %r15
	addq	$11, %r15
	jmp	.Lluossavin_x86_64_v3.BB25_10
.Lluossavin_x86_64_v3.BB25_8:
	movb	%r10b, %r8b
	shll	$12, %r8d
	movb	%r9b, %r14b
	shll	$12, %r14d
	vxorps	%xmm0, %xmm0, %xmm0
	vmovaps	%xmm0, (%rsp)
	movzbl	215(%rsp), %ecx
	decb	%cl
	xorl	%r15d, %r15d
	cmpb	$3, %cl
	movzbl	%cl, %esi
	cmovael	%r15d, %esi
	vmovdqu	(%rdi,%r8), %xmm0
	vpshufb	.Lluossavin_x86_64_v3.CPI25_0(%rip), %xmm0, %xmm0
	vmovdqa	%xmm0, 16(%rsp)
	movq	%rsp, %rdi
	leaq	16(%rsp), %rcx
	movq	%rdx, %r12
	movq	%rax, %rdx
	callq	"cipher::encrypt.x86_64_v3"
	vmovdqa	(%rsp), %xmm0
	vpshufb	.Lluossavin_x86_64_v3.CPI25_0(%rip), %xmm0, %xmm0
	vmovdqu	%xmm0, (%r12,%r14)
	testl	%ebp, %ebp
	cmovnel	%r15d, %ebx
	movl	$16, %edx
.Lluossavin_x86_64_v3.BB25_10:
	movzwl	%bx, %eax
	shlq	$48, %rax
	orq	%r15, %rax
	addq	$32, %rsp
	popq	%rbx
	popq	%r12
	popq	%r14
	popq	%r15
	popq	%rbp
	retq
.Lluossavin_x86_64_v3.func_end25:
	.size	luossavin_block_encrypt_x86_64_v3, .Lluossavin_x86_64_v3.func_end25-luossavin_block_encrypt_x86_64_v3

	.section	.rodata.cst32,"aM",@progbits,32
	.p2align	5, 0x0
.Lluossavin_x86_64_v3.CPI26_0:
	.byte	3
	.byte	2
	.byte	1
	.byte	0
	.byte	7
	.byte	6
	.byte	5
	.byte	4
	.byte	11
	.byte	10
	.byte	9
	.byte	8
	.byte	15
	.byte	14
	.byte	13
	.byte	12
	.byte	3
	.byte	2
	.byte	1
	.byte	0
	.byte	7
	.byte	6
	.byte	5
	.byte	4
	.byte	11
	.byte	10
	.byte	9
	.byte	8
	.byte	15
	.byte	14
	.byte	13
	.byte	12
	.section	.text.luossavin_ctr_by_plan_x86_64_v3,"ax",@progbits
	.globl	luossavin_ctr_by_plan_x86_64_v3
	.hidden	luossavin_ctr_by_plan_x86_64_v3
	.p2align	4
	.type	luossavin_ctr_by_plan_x86_64_v3,@function
luossavin_ctr_by_plan_x86_64_v3:
	pushq	%rbp
	pushq	%r15
	pushq	%r14
	pushq	%r13
	pushq	%r12
	pushq	%rbx
	subq	$1256, %rsp
	testq	%rsi, %rsi
	sete	%r15b
	testq	%rcx, %rcx
	sete	%bpl
	testq	%r9, %r9
	sete	%r14b
	movl	1440(%rsp), %r13d
	movzwl	1444(%rsp), %r12d
	cmpl	$13, %r13d
	sete	%al
	incb	%al
	testl	%r13d, %r13d
	movzbl	%al, %eax
	cmovel	%r13d, %eax
	testb	%al, %al
	je	.Lluossavin_x86_64_v3.BB26_3
	movzbl	%al, %eax
	xorl	%ebx, %ebx
	cmpl	$2, %eax
	jne	.Lluossavin_x86_64_v3.BB26_2
	testl	%r13d, %r13d
	cmovnel	%ebx, %r12d
	movl	$13, %ecx
	jmp	.Lluossavin_x86_64_v3.BB26_27
.Lluossavin_x86_64_v3.BB26_3:
	cmpq	$16, %rdx
	jne	.Lluossavin_x86_64_v3.BB26_24
	movq	%r8, %rbx
	movzbl	1447(%rsp), %eax
	testb	$1, %dil
	jne	.Lluossavin_x86_64_v3.BB26_6
	cmpb	$0, 1446(%rsp)
	je	.Lluossavin_x86_64_v3.BB26_6
	xorl	%ebx, %ebx
	testl	%r13d, %r13d
	cmovnel	%ebx, %r12d
	movl	$14, %ecx
	jmp	.Lluossavin_x86_64_v3.BB26_27
.Lluossavin_x86_64_v3.BB26_2:
	testl	%r13d, %r13d
	cmovnel	%ebx, %r12d
	movl	$1, %ecx
	jmp	.Lluossavin_x86_64_v3.BB26_27
.Lluossavin_x86_64_v3.BB26_24:
	xorl	%ebx, %ebx
	testl	%r13d, %r13d
	cmovnel	%ebx, %r12d
	movl	$10, %ecx
.Lluossavin_x86_64_v3.BB26_27:
	movzwl	%r12w, %eax
	shlq	$48, %rax
	orq	%rcx, %rax
	movq	%rbx, %rdx
	addq	$1256, %rsp
	popq	%rbx
	popq	%r12
	popq	%r13
	popq	%r14
	popq	%r15
	popq	%rbp
	retq
.Lluossavin_x86_64_v3.BB26_6:
	cmpq	$16777216, %rbx
	jbe	.Lluossavin_x86_64_v3.BB26_7
	xorl	%ebx, %ebx
	testl	%r13d, %r13d
	cmovnel	%ebx, %r12d
	movl	$5, %ecx
	jmp	.Lluossavin_x86_64_v3.BB26_27
.Lluossavin_x86_64_v3.BB26_7:
	movb	%al, 40(%rsp)
	movq	%rsi, 120(%rsp)
	movq	%rcx, 56(%rsp)
	movq	%r9, 48(%rsp)
	leaq	1448(%rsp), %rsi
	leaq	224(%rsp), %rdi
	movl	$1032, %edx
	callq	memcpy@PLT
	movq	224(%rsp), %rax
	cmpq	$64, %rax
	ja	.Lluossavin_x86_64_v3.BB26_21
	xorl	%ecx, %ecx
	testq	%rax, %rax
	je	.Lluossavin_x86_64_v3.BB26_14
	xorl	%edx, %edx
	.p2align	4
.Lluossavin_x86_64_v3.BB26_10:
	movq	744(%rsp,%rdx,8), %rsi
	movq	%rbx, %r8
	subq	%rcx, %r8
	cmpq	%r8, %rsi
	sete	%dil
	testb	$15, %sil
	sete	%r9b
	cmpq	%rcx, 232(%rsp,%rdx,8)
	jne	.Lluossavin_x86_64_v3.BB26_21
	leaq	-1(%rsi), %r10
	cmpq	%r8, %r10
	jae	.Lluossavin_x86_64_v3.BB26_21
	orb	%r9b, %dil
	je	.Lluossavin_x86_64_v3.BB26_21
	addq	%rsi, %rcx
	incq	%rdx
	cmpq	%rdx, %rax
	jne	.Lluossavin_x86_64_v3.BB26_10
.Lluossavin_x86_64_v3.BB26_14:
	cmpq	%rbx, %rcx
	jne	.Lluossavin_x86_64_v3.BB26_21
	cmpq	%rbx, 2480(%rsp)
	jae	.Lluossavin_x86_64_v3.BB26_16
	xorl	%ebx, %ebx
	testl	%r13d, %r13d
	cmovnel	%ebx, %r12d
	movl	$6, %ecx
	jmp	.Lluossavin_x86_64_v3.BB26_27
.Lluossavin_x86_64_v3.BB26_21:
	xorl	%ebx, %ebx
	testl	%r13d, %r13d
	cmovnel	%ebx, %r12d
	movl	$18, %ecx
	jmp	.Lluossavin_x86_64_v3.BB26_27
.Lluossavin_x86_64_v3.BB26_16:
	movzbl	40(%rsp), %eax
	decb	%al
	cmpb	$3, %al
	movzbl	%al, %eax
	movl	$1, %ecx
	cmovbl	%eax, %ecx
	movl	%ecx, 68(%rsp)
	leaq	224(%rsp), %rdi
	movl	$1032, %edx
	leaq	1448(%rsp), %rsi
	callq	memcpy@PLT
	movq	224(%rsp), %rax
	movq	%rax, 80(%rsp)
	testq	%rax, %rax
	movq	48(%rsp), %rax
	movq	56(%rsp), %r8
	movl	$0, %r9d
	je	.Lluossavin_x86_64_v3.BB26_20
	movb	%r15b, %r9b
	shll	$12, %r9d
	xorl	%ecx, %ecx
	movb	%bpl, %cl
	shll	$12, %ecx
	addq	%rcx, %r8
	xorl	%ecx, %ecx
	movb	%r14b, %cl
	shll	$12, %ecx
	addq	%rcx, %rax
	xorl	%ecx, %ecx
	xorl	%r14d, %r14d
	movq	%r8, 56(%rsp)
	movq	%rax, 48(%rsp)
	movq	%r9, 72(%rsp)
.Lluossavin_x86_64_v3.BB26_18:
	cmpq	$64, %r14
	je	.Lluossavin_x86_64_v3.BB26_20
	movq	232(%rsp,%r14,8), %rsi
	movq	%rsi, 112(%rsp)
	movq	2480(%rsp), %rdx
	subq	%rcx, %rdx
	movq	%rdx, 40(%rsp)
	movq	120(%rsp), %rdx
	movbeq	(%rdx,%r9), %rdi
	movbeq	8(%rdx,%r9), %rdx
	shrq	$4, %rsi
	vxorps	%xmm0, %xmm0, %xmm0
	vmovaps	%xmm0, 160(%rsp)
	addq	%rsi, %rdx
	adcq	$0, %rdi
	movq	%rdi, %rsi
	shrq	$32, %rsi
	vmovd	%esi, %xmm0
	movl	%esi, 128(%rsp)
	movq	%rdx, %rsi
	vpinsrd	$1, %edi, %xmm0, %xmm0
	shrq	$32, %rsi
	vpinsrd	$2, %esi, %xmm0, %xmm0
	movl	%edi, 132(%rsp)
	movq	744(%rsp,%r14,8), %r15
	vpinsrd	$3, %edx, %xmm0, %xmm0
	vmovdqu	%ymm0, 192(%rsp)
	movl	%esi, 136(%rsp)
	leaq	(%r15,%rcx), %rsi
	movq	%rsi, 104(%rsp)
	movl	%edx, 140(%rsp)
	leaq	(%r8,%rcx), %rdx
	movq	%rdx, 96(%rsp)
	addq	%rax, %rcx
	movq	%rcx, 88(%rsp)
	movzbl	68(%rsp), %ebp
	leaq	160(%rsp), %rdi
	leaq	128(%rsp), %rcx
	movl	%ebp, %esi
	leaq	1312(%rsp), %rdx
	vzeroupper
	callq	"cipher::encrypt.x86_64_v3"
	vmovdqu	192(%rsp), %ymm0
	vinserti128	$1, 160(%rsp), %ymm0, %ymm0
	vpshufb	.Lluossavin_x86_64_v3.CPI26_0(%rip), %ymm0, %ymm0
	vmovdqu	%ymm0, 128(%rsp)
	movq	112(%rsp), %r9
	andl	$15, %r9d
	movq	40(%rsp), %rax
	movq	%rax, 24(%rsp)
	movq	88(%rsp), %rax
	movq	%rax, 16(%rsp)
	movq	%r15, 8(%rsp)
	movq	96(%rsp), %rax
	movq	%rax, (%rsp)
	leaq	160(%rsp), %rdi
	leaq	128(%rsp), %r8
	movl	%ebp, %esi
	leaq	1312(%rsp), %rdx
	xorl	%ecx, %ecx
	vzeroupper
	callq	"pieces::flow::run.x86_64_v3"
	movq	72(%rsp), %r9
	movq	56(%rsp), %r8
	movq	48(%rsp), %rax
	incq	%r14
	movq	104(%rsp), %rcx
	cmpq	%r14, 80(%rsp)
	jne	.Lluossavin_x86_64_v3.BB26_18
.Lluossavin_x86_64_v3.BB26_20:
	xorl	%ecx, %ecx
	testl	%r13d, %r13d
	cmovnel	%ecx, %r12d
	jmp	.Lluossavin_x86_64_v3.BB26_27
.Lluossavin_x86_64_v3.func_end26:
	.size	luossavin_ctr_by_plan_x86_64_v3, .Lluossavin_x86_64_v3.func_end26-luossavin_ctr_by_plan_x86_64_v3

	.section	.text.luossavin_ctr_end_x86_64_v3,"ax",@progbits
	.globl	luossavin_ctr_end_x86_64_v3
	.hidden	luossavin_ctr_end_x86_64_v3
	.p2align	4
	.type	luossavin_ctr_end_x86_64_v3,@function
luossavin_ctr_end_x86_64_v3:
	pushq	%rbp
	pushq	%r15
	pushq	%r14
	pushq	%rbx
	subq	$40, %rsp
	movq	%rdi, %rax
	leaq	80(%rsp), %rbx
	movq	240(%rsp), %r8
	movq	248(%rsp), %rdx
	movq	256(%rsp), %rdi
	movl	264(%rsp), %r9d
	movq	%r8, %r11
	shrq	$32, %r11
	movq	%rdx, %r10
	shrq	$32, %r10
	movzwl	268(%rsp), %ecx
	movzwl	270(%rsp), %esi
	vxorps	%xmm0, %xmm0, %xmm0
	vmovups	%ymm0, -128(%rsp)
	vmovups	%ymm0, -96(%rsp)
	vmovups	%ymm0, -64(%rsp)
	vmovups	%ymm0, -32(%rsp)
	vmovups	%ymm0, (%rsp)
	movq	$0, 30(%rsp)
	cmpq	$14, %r9
	ja	.Lluossavin_x86_64_v3.BB27_6
	leaq	.Lluossavin_x86_64_v3.JTI27_0(%rip), %r14
	movslq	(%r14,%r9,4), %r15
	addq	%r14, %r15
	jmpq	*%r15
.Lluossavin_x86_64_v3.BB27_2:
	cmpq	$16777216, %rdi
	jbe	.Lluossavin_x86_64_v3.BB27_9
.Lluossavin_x86_64_v3.BB27_3:
	vmovups	128(%rbx), %ymm0
	vmovups	%ymm0, 6(%rsp)
	vmovups	(%rbx), %ymm0
	vmovups	32(%rbx), %ymm1
	vmovups	64(%rbx), %ymm2
	vmovups	96(%rbx), %ymm3
	vmovups	%ymm3, -26(%rsp)
	vmovups	%ymm2, -58(%rsp)
	vmovups	%ymm1, -90(%rsp)
	vmovups	%ymm0, -122(%rsp)
	movl	$5, %ebp
	jmp	.Lluossavin_x86_64_v3.BB27_12
.Lluossavin_x86_64_v3.BB27_4:
	vmovups	128(%rbx), %ymm0
	vmovups	%ymm0, 6(%rsp)
	vmovups	(%rbx), %ymm0
	vmovups	32(%rbx), %ymm1
	vmovups	64(%rbx), %ymm2
	vmovups	96(%rbx), %ymm3
	vmovups	%ymm3, -26(%rsp)
	vmovups	%ymm2, -58(%rsp)
	vmovups	%ymm1, -90(%rsp)
	vmovups	%ymm0, -122(%rsp)
	movl	$1, %r9d
	xorl	%ebx, %ebx
	movl	$1, %ebp
	jmp	.Lluossavin_x86_64_v3.BB27_13
.Lluossavin_x86_64_v3.BB27_5:
	vmovups	128(%rbx), %ymm0
	vmovups	%ymm0, 6(%rsp)
	vmovups	(%rbx), %ymm0
	vmovups	32(%rbx), %ymm1
	vmovups	64(%rbx), %ymm2
	vmovups	96(%rbx), %ymm3
	vmovups	%ymm3, -26(%rsp)
	vmovups	%ymm2, -58(%rsp)
	vmovups	%ymm1, -90(%rsp)
	vmovups	%ymm0, -122(%rsp)
	movl	$14, %r9d
	xorl	%ebx, %ebx
	movl	$14, %ebp
	jmp	.Lluossavin_x86_64_v3.BB27_13
.Lluossavin_x86_64_v3.BB27_6:
	vmovups	128(%rbx), %ymm0
	vmovups	%ymm0, 6(%rsp)
	vmovups	(%rbx), %ymm0
	vmovups	32(%rbx), %ymm1
	vmovups	64(%rbx), %ymm2
	vmovups	96(%rbx), %ymm3
	vmovups	%ymm3, -26(%rsp)
	vmovups	%ymm2, -58(%rsp)
	vmovups	%ymm1, -90(%rsp)
	vmovups	%ymm0, -122(%rsp)
	movl	$12, %ebp
.Lluossavin_x86_64_v3.BB27_12:
	xorl	%ebx, %ebx
	jmp	.Lluossavin_x86_64_v3.BB27_13
.Lluossavin_x86_64_v3.BB27_7:
	vmovups	128(%rbx), %ymm0
	vmovups	%ymm0, 6(%rsp)
	vmovups	(%rbx), %ymm0
	vmovups	32(%rbx), %ymm1
	vmovups	64(%rbx), %ymm2
	vmovups	96(%rbx), %ymm3
	vmovups	%ymm3, -26(%rsp)
	vmovups	%ymm2, -58(%rsp)
	vmovups	%ymm1, -90(%rsp)
	vmovups	%ymm0, -122(%rsp)
	movl	$10, %r9d
	xorl	%ebx, %ebx
	movl	$10, %ebp
	jmp	.Lluossavin_x86_64_v3.BB27_13
.Lluossavin_x86_64_v3.BB27_8:
	vmovups	128(%rbx), %ymm0
	vmovups	%ymm0, 6(%rsp)
	vmovups	(%rbx), %ymm0
	vmovups	32(%rbx), %ymm1
	vmovups	64(%rbx), %ymm2
	vmovups	96(%rbx), %ymm3
	vmovups	%ymm3, -26(%rsp)
	vmovups	%ymm2, -58(%rsp)
	vmovups	%ymm1, -90(%rsp)
	vmovups	%ymm0, -122(%rsp)
	movl	$13, %r9d
	xorl	%ebx, %ebx
	movl	$13, %ebp
	jmp	.Lluossavin_x86_64_v3.BB27_13
.Lluossavin_x86_64_v3.BB27_9:
	movl	$12, %r9d
	testq	%rdi, %rdi
	je	.Lluossavin_x86_64_v3.BB27_11
	movq	%rdi, %r10
	shrq	$4, %r10
	andl	$15, %edi
	xorl	%esi, %esi
	negq	%rdi
	movl	$0, %edi
	sbbq	%rdi, %rdi
	subq	%r10, %rdi
	bswapq	%rdx
	cmpq	$-1, %r8
	sete	%r8b
	cmpq	%rdi, %rdx
	seta	%bl
	andb	%r8b, %bl
	xorl	%edi, %edi
	xorl	%r10d, %r10d
	xorl	%edx, %edx
	xorl	%r11d, %r11d
	xorl	%r8d, %r8d
	xorl	%ebp, %ebp
.Lluossavin_x86_64_v3.BB27_13:
	movl	%ebp, (%rax)
	movb	$0, 4(%rax)
	movb	%bl, 5(%rax)
	movw	%cx, 6(%rax)
	movq	$0, 8(%rax)
	vmovups	-122(%rsp), %ymm0
	vmovups	-90(%rsp), %ymm1
	vmovups	-58(%rsp), %ymm2
	vmovups	-26(%rsp), %ymm3
	vmovups	%ymm0, 16(%rax)
	vmovups	%ymm1, 48(%rax)
	vmovups	%ymm2, 80(%rax)
	vmovups	%ymm3, 112(%rax)
	vmovups	6(%rsp), %ymm0
	vmovups	%ymm0, 144(%rax)
	movl	%r8d, 176(%rax)
	movl	%r11d, 180(%rax)
	movl	%edx, 184(%rax)
	movl	%r10d, 188(%rax)
	movq	%rdi, 192(%rax)
	movl	%r9d, 200(%rax)
	movw	%cx, 204(%rax)
	movw	%si, 206(%rax)
	addq	$40, %rsp
	popq	%rbx
	popq	%r14
	popq	%r15
	popq	%rbp
	vzeroupper
	retq
.Lluossavin_x86_64_v3.BB27_11:
	xorl	%esi, %esi
	xorl	%edi, %edi
	xorl	%r10d, %r10d
	xorl	%edx, %edx
	xorl	%r11d, %r11d
	xorl	%r8d, %r8d
	xorl	%ebp, %ebp
	jmp	.Lluossavin_x86_64_v3.BB27_12
.Lluossavin_x86_64_v3.func_end27:
	.size	luossavin_ctr_end_x86_64_v3, .Lluossavin_x86_64_v3.func_end27-luossavin_ctr_end_x86_64_v3
	.section	.rodata.luossavin_ctr_end_x86_64_v3,"a",@progbits
	.p2align	2, 0x0
.Lluossavin_x86_64_v3.JTI27_0:
	.long	.Lluossavin_x86_64_v3.BB27_2-.Lluossavin_x86_64_v3.JTI27_0
	.long	.Lluossavin_x86_64_v3.BB27_4-.Lluossavin_x86_64_v3.JTI27_0
	.long	.Lluossavin_x86_64_v3.BB27_6-.Lluossavin_x86_64_v3.JTI27_0
	.long	.Lluossavin_x86_64_v3.BB27_6-.Lluossavin_x86_64_v3.JTI27_0
	.long	.Lluossavin_x86_64_v3.BB27_6-.Lluossavin_x86_64_v3.JTI27_0
	.long	.Lluossavin_x86_64_v3.BB27_3-.Lluossavin_x86_64_v3.JTI27_0
	.long	.Lluossavin_x86_64_v3.BB27_6-.Lluossavin_x86_64_v3.JTI27_0
	.long	.Lluossavin_x86_64_v3.BB27_6-.Lluossavin_x86_64_v3.JTI27_0
	.long	.Lluossavin_x86_64_v3.BB27_6-.Lluossavin_x86_64_v3.JTI27_0
	.long	.Lluossavin_x86_64_v3.BB27_6-.Lluossavin_x86_64_v3.JTI27_0
	.long	.Lluossavin_x86_64_v3.BB27_7-.Lluossavin_x86_64_v3.JTI27_0
	.long	.Lluossavin_x86_64_v3.BB27_6-.Lluossavin_x86_64_v3.JTI27_0
	.long	.Lluossavin_x86_64_v3.BB27_6-.Lluossavin_x86_64_v3.JTI27_0
	.long	.Lluossavin_x86_64_v3.BB27_8-.Lluossavin_x86_64_v3.JTI27_0
	.long	.Lluossavin_x86_64_v3.BB27_5-.Lluossavin_x86_64_v3.JTI27_0

	.section	.text.luossavin_ctr_piece_x86_64_v3,"ax",@progbits
	.globl	luossavin_ctr_piece_x86_64_v3
	.hidden	luossavin_ctr_piece_x86_64_v3
	.p2align	4
	.type	luossavin_ctr_piece_x86_64_v3,@function
luossavin_ctr_piece_x86_64_v3:
	pushq	%rbp
	pushq	%r15
	pushq	%r14
	pushq	%r13
	pushq	%r12
	pushq	%rbx
	subq	$280, %rsp
	movq	%rdi, %rax
	leaq	336(%rsp), %rbx
	xorl	%r10d, %r10d
	testq	%rsi, %rsi
	sete	%r13b
	xorl	%edi, %edi
	testq	%rcx, %rcx
	sete	%r11b
	movq	512(%rsp), %r9
	movq	%r9, 40(%rsp)
	movl	520(%rsp), %r14d
	movzwl	524(%rsp), %ebp
	movzbl	526(%rsp), %r9d
	movq	%r9, 32(%rsp)
	movzbl	527(%rsp), %r9d
	vxorps	%xmm0, %xmm0, %xmm0
	vmovups	%ymm0, 240(%rsp)
	cmpq	$14, %r14
	ja	.Lluossavin_x86_64_v3.BB28_9
	leaq	.Lluossavin_x86_64_v3.JTI28_0(%rip), %r15
	movslq	(%r15,%r14,4), %r12
	addq	%r15, %r12
	jmpq	*%r12
.Lluossavin_x86_64_v3.BB28_3:
	movq	%rdx, %r12
	addq	40(%rsp), %r12
	movq	$-1, %r15
	cmovaeq	%r12, %r15
	cmpq	$16777216, %r15
	jbe	.Lluossavin_x86_64_v3.BB28_4
.Lluossavin_x86_64_v3.BB28_6:
	vmovups	144(%rbx), %ymm0
	vmovups	%ymm0, 192(%rsp)
	vmovups	128(%rbx), %ymm0
	vmovups	%ymm0, 176(%rsp)
	vmovups	(%rbx), %ymm0
	vmovups	32(%rbx), %ymm1
	vmovups	64(%rbx), %ymm2
	vmovups	96(%rbx), %ymm3
	vmovups	%ymm3, 144(%rsp)
	vmovups	%ymm2, 112(%rsp)
	vmovups	%ymm1, 80(%rsp)
	vmovups	%ymm0, 48(%rsp)
	movl	$5, %edx
	jmp	.Lluossavin_x86_64_v3.BB28_12
.Lluossavin_x86_64_v3.BB28_2:
	vmovups	144(%rbx), %ymm0
	vmovups	%ymm0, 192(%rsp)
	vmovups	128(%rbx), %ymm0
	vmovups	%ymm0, 176(%rsp)
	vmovups	(%rbx), %ymm0
	vmovups	32(%rbx), %ymm1
	vmovups	64(%rbx), %ymm2
	vmovups	96(%rbx), %ymm3
	vmovups	%ymm3, 144(%rsp)
	vmovups	%ymm2, 112(%rsp)
	vmovups	%ymm1, 80(%rsp)
	vmovups	%ymm0, 48(%rsp)
	movl	$1, %edx
	jmp	.Lluossavin_x86_64_v3.BB28_12
.Lluossavin_x86_64_v3.BB28_11:
	vmovups	144(%rbx), %ymm0
	vmovups	%ymm0, 192(%rsp)
	vmovups	128(%rbx), %ymm0
	vmovups	%ymm0, 176(%rsp)
	vmovups	(%rbx), %ymm0
	vmovups	32(%rbx), %ymm1
	vmovups	64(%rbx), %ymm2
	vmovups	96(%rbx), %ymm3
	vmovups	%ymm3, 144(%rsp)
	vmovups	%ymm2, 112(%rsp)
	vmovups	%ymm1, 80(%rsp)
	vmovups	%ymm0, 48(%rsp)
	movl	$14, %edx
	jmp	.Lluossavin_x86_64_v3.BB28_12
.Lluossavin_x86_64_v3.BB28_9:
	vmovups	144(%rbx), %ymm0
	vmovups	%ymm0, 192(%rsp)
	vmovups	128(%rbx), %ymm0
	vmovups	%ymm0, 176(%rsp)
	vmovups	(%rbx), %ymm0
	vmovups	32(%rbx), %ymm1
	vmovups	64(%rbx), %ymm2
	vmovups	96(%rbx), %ymm3
	vmovups	%ymm3, 144(%rsp)
	vmovups	%ymm2, 112(%rsp)
	vmovups	%ymm1, 80(%rsp)
	vmovups	%ymm0, 48(%rsp)
	movl	$12, %edx
	jmp	.Lluossavin_x86_64_v3.BB28_12
.Lluossavin_x86_64_v3.BB28_8:
	vmovups	144(%rbx), %ymm0
	vmovups	%ymm0, 192(%rsp)
	vmovups	128(%rbx), %ymm0
	vmovups	%ymm0, 176(%rsp)
	vmovups	(%rbx), %ymm0
	vmovups	32(%rbx), %ymm1
	vmovups	64(%rbx), %ymm2
	vmovups	96(%rbx), %ymm3
	vmovups	%ymm3, 144(%rsp)
	vmovups	%ymm2, 112(%rsp)
	vmovups	%ymm1, 80(%rsp)
	vmovups	%ymm0, 48(%rsp)
	movl	$10, %edx
	jmp	.Lluossavin_x86_64_v3.BB28_12
.Lluossavin_x86_64_v3.BB28_10:
	vmovups	144(%rbx), %ymm0
	vmovups	%ymm0, 192(%rsp)
	vmovups	128(%rbx), %ymm0
	vmovups	%ymm0, 176(%rsp)
	vmovups	(%rbx), %ymm0
	vmovups	32(%rbx), %ymm1
	vmovups	64(%rbx), %ymm2
	vmovups	96(%rbx), %ymm3
	vmovups	%ymm3, 144(%rsp)
	vmovups	%ymm2, 112(%rsp)
	vmovups	%ymm1, 80(%rsp)
	vmovups	%ymm0, 48(%rsp)
	movl	$13, %edx
.Lluossavin_x86_64_v3.BB28_12:
	xorl	%ecx, %ecx
	movq	32(%rsp), %r15
	movl	%r9d, %r12d
.Lluossavin_x86_64_v3.BB28_13:
	movl	%edx, (%rax)
	movw	$0, 4(%rax)
	movw	%bp, 6(%rax)
	movq	%rcx, 8(%rax)
	vmovups	48(%rsp), %ymm0
	vmovups	80(%rsp), %ymm1
	vmovups	112(%rsp), %ymm2
	vmovups	144(%rsp), %ymm3
	vmovups	%ymm0, 16(%rax)
	vmovups	%ymm1, 48(%rax)
	vmovups	%ymm2, 80(%rax)
	vmovups	%ymm3, 112(%rax)
	vmovups	176(%rsp), %ymm0
	vmovups	%ymm0, 144(%rax)
	vmovups	192(%rsp), %ymm0
	vmovups	%ymm0, 160(%rax)
	movq	40(%rsp), %rcx
	movq	%rcx, 192(%rax)
	movl	%r14d, 200(%rax)
	movw	%bp, 204(%rax)
	movb	%r15b, 206(%rax)
	movb	%r12b, 207(%rax)
	addq	$280, %rsp
	popq	%rbx
	popq	%r12
	popq	%r13
	popq	%r14
	popq	%r15
	popq	%rbp
	vzeroupper
	retq
.Lluossavin_x86_64_v3.BB28_4:
	cmpq	%rdx, %r8
	jae	.Lluossavin_x86_64_v3.BB28_5
	vmovups	144(%rbx), %ymm0
	vmovups	%ymm0, 192(%rsp)
	vmovups	128(%rbx), %ymm0
	vmovups	%ymm0, 176(%rsp)
	vmovups	(%rbx), %ymm0
	vmovups	32(%rbx), %ymm1
	vmovups	64(%rbx), %ymm2
	vmovups	96(%rbx), %ymm3
	vmovups	%ymm3, 144(%rsp)
	vmovups	%ymm2, 112(%rsp)
	vmovups	%ymm1, 80(%rsp)
	vmovups	%ymm0, 48(%rsp)
	movl	$6, %edx
	jmp	.Lluossavin_x86_64_v3.BB28_12
.Lluossavin_x86_64_v3.BB28_5:
	movb	%r13b, %r10b
	shll	$12, %r10d
	addq	%r10, %rsi
	movb	%r11b, %dil
	shll	$12, %edi
	addq	%rdi, %rcx
	movq	32(%rsp), %r15
	leal	-1(%r15), %edi
	cmpb	$3, %dil
	movzbl	%dil, %edi
	movl	$1, %r10d
	cmovbl	%edi, %r10d
	leaq	128(%rbx), %r11
	movq	40(%rsp), %r9
	andl	$15, %r9d
	movq	%r8, 24(%rsp)
	movq	%rcx, 16(%rsp)
	movq	%rdx, 8(%rsp)
	movq	%rsi, (%rsp)
	leaq	240(%rsp), %rdi
	movq	%r12, 40(%rsp)
	xorl	%r12d, %r12d
	movl	%r10d, %esi
	movq	%rdx, 232(%rsp)
	movq	%rbx, %rdx
	xorl	%ecx, %ecx
	movq	%r11, %r8
	movq	%rax, %r13
	vzeroupper
	callq	"pieces::flow::run.x86_64_v3"
	movq	232(%rsp), %rcx
	movq	%r13, %rax
	vmovups	(%rbx), %ymm0
	vmovups	32(%rbx), %ymm1
	vmovups	64(%rbx), %ymm2
	vmovups	96(%rbx), %ymm3
	vmovups	%ymm3, 144(%rsp)
	vmovups	%ymm2, 112(%rsp)
	vmovups	%ymm1, 80(%rsp)
	vmovups	%ymm0, 48(%rsp)
	vmovups	240(%rsp), %ymm0
	vmovups	%ymm0, 176(%rsp)
	vmovups	160(%rbx), %xmm0
	vmovaps	%xmm0, 208(%rsp)
	xorl	%edx, %edx
	jmp	.Lluossavin_x86_64_v3.BB28_13
.Lluossavin_x86_64_v3.func_end28:
	.size	luossavin_ctr_piece_x86_64_v3, .Lluossavin_x86_64_v3.func_end28-luossavin_ctr_piece_x86_64_v3
	.section	.rodata.luossavin_ctr_piece_x86_64_v3,"a",@progbits
	.p2align	2, 0x0
.Lluossavin_x86_64_v3.JTI28_0:
	.long	.Lluossavin_x86_64_v3.BB28_3-.Lluossavin_x86_64_v3.JTI28_0
	.long	.Lluossavin_x86_64_v3.BB28_2-.Lluossavin_x86_64_v3.JTI28_0
	.long	.Lluossavin_x86_64_v3.BB28_9-.Lluossavin_x86_64_v3.JTI28_0
	.long	.Lluossavin_x86_64_v3.BB28_9-.Lluossavin_x86_64_v3.JTI28_0
	.long	.Lluossavin_x86_64_v3.BB28_9-.Lluossavin_x86_64_v3.JTI28_0
	.long	.Lluossavin_x86_64_v3.BB28_6-.Lluossavin_x86_64_v3.JTI28_0
	.long	.Lluossavin_x86_64_v3.BB28_9-.Lluossavin_x86_64_v3.JTI28_0
	.long	.Lluossavin_x86_64_v3.BB28_9-.Lluossavin_x86_64_v3.JTI28_0
	.long	.Lluossavin_x86_64_v3.BB28_9-.Lluossavin_x86_64_v3.JTI28_0
	.long	.Lluossavin_x86_64_v3.BB28_9-.Lluossavin_x86_64_v3.JTI28_0
	.long	.Lluossavin_x86_64_v3.BB28_8-.Lluossavin_x86_64_v3.JTI28_0
	.long	.Lluossavin_x86_64_v3.BB28_9-.Lluossavin_x86_64_v3.JTI28_0
	.long	.Lluossavin_x86_64_v3.BB28_9-.Lluossavin_x86_64_v3.JTI28_0
	.long	.Lluossavin_x86_64_v3.BB28_10-.Lluossavin_x86_64_v3.JTI28_0
	.long	.Lluossavin_x86_64_v3.BB28_11-.Lluossavin_x86_64_v3.JTI28_0

	.section	.rodata.cst32,"aM",@progbits,32
	.p2align	5, 0x0
.Lluossavin_x86_64_v3.CPI29_0:
	.byte	3
	.byte	2
	.byte	1
	.byte	0
	.byte	7
	.byte	6
	.byte	5
	.byte	4
	.byte	11
	.byte	10
	.byte	9
	.byte	8
	.byte	15
	.byte	14
	.byte	13
	.byte	12
	.byte	3
	.byte	2
	.byte	1
	.byte	0
	.byte	7
	.byte	6
	.byte	5
	.byte	4
	.byte	11
	.byte	10
	.byte	9
	.byte	8
	.byte	15
	.byte	14
	.byte	13
	.byte	12
	.section	.text.luossavin_ctr_range_x86_64_v3,"ax",@progbits
	.globl	luossavin_ctr_range_x86_64_v3
	.hidden	luossavin_ctr_range_x86_64_v3
	.p2align	4
	.type	luossavin_ctr_range_x86_64_v3,@function
luossavin_ctr_range_x86_64_v3:
	pushq	%rbp
	pushq	%r15
	pushq	%r14
	pushq	%r13
	pushq	%r12
	pushq	%rbx
	subq	$152, %rsp
	movq	%r9, %rbx
	movq	%rcx, 32(%rsp)
	movq	344(%rsp), %r14
	xorl	%ecx, %ecx
	testq	%rsi, %rsi
	sete	%r15b
	xorl	%r10d, %r10d
	testq	%r8, %r8
	sete	%bpl
	xorl	%r9d, %r9d
	testq	%r14, %r14
	sete	%r11b
	movl	336(%rsp), %r13d
	movzwl	340(%rsp), %r12d
	cmpl	$13, %r13d
	sete	%al
	incb	%al
	testl	%r13d, %r13d
	movzbl	%al, %eax
	cmovel	%r13d, %eax
	testb	%al, %al
	je	.Lluossavin_x86_64_v3.BB29_3
	movzbl	%al, %eax
	xorl	%ebx, %ebx
	cmpl	$2, %eax
	jne	.Lluossavin_x86_64_v3.BB29_2
	testl	%r13d, %r13d
	cmovnel	%ebx, %r12d
	movl	$13, %r14d
	jmp	.Lluossavin_x86_64_v3.BB29_14
.Lluossavin_x86_64_v3.BB29_3:
	cmpq	$16, %rdx
	jne	.Lluossavin_x86_64_v3.BB29_11
	movzbl	343(%rsp), %edx
	testb	$1, %dil
	jne	.Lluossavin_x86_64_v3.BB29_6
	cmpb	$0, 342(%rsp)
	je	.Lluossavin_x86_64_v3.BB29_6
	xorl	%ebx, %ebx
	testl	%r13d, %r13d
	cmovnel	%ebx, %r12d
	movl	$14, %r14d
	jmp	.Lluossavin_x86_64_v3.BB29_14
.Lluossavin_x86_64_v3.BB29_2:
	testl	%r13d, %r13d
	cmovnel	%ebx, %r12d
	movl	$1, %r14d
	jmp	.Lluossavin_x86_64_v3.BB29_14
.Lluossavin_x86_64_v3.BB29_11:
	xorl	%ebx, %ebx
	testl	%r13d, %r13d
	cmovnel	%ebx, %r12d
	movl	$10, %r14d
.Lluossavin_x86_64_v3.BB29_14:
	movzwl	%r12w, %eax
	shlq	$48, %rax
	orq	%r14, %rax
	movq	%rbx, %rdx
	addq	$152, %rsp
	popq	%rbx
	popq	%r12
	popq	%r13
	popq	%r14
	popq	%r15
	popq	%rbp
	retq
.Lluossavin_x86_64_v3.BB29_6:
	movq	%rbx, %rax
	addq	32(%rsp), %rax
	movq	$-1, %rdi
	cmovaeq	%rax, %rdi
	cmpq	$16777216, %rdi
	jbe	.Lluossavin_x86_64_v3.BB29_7
	xorl	%ebx, %ebx
	testl	%r13d, %r13d
	cmovnel	%ebx, %r12d
	movl	$5, %r14d
	jmp	.Lluossavin_x86_64_v3.BB29_14
.Lluossavin_x86_64_v3.BB29_7:
	cmpq	%rbx, 352(%rsp)
	jae	.Lluossavin_x86_64_v3.BB29_8
	xorl	%ebx, %ebx
	testl	%r13d, %r13d
	cmovnel	%ebx, %r12d
	movl	$6, %r14d
	jmp	.Lluossavin_x86_64_v3.BB29_14
.Lluossavin_x86_64_v3.BB29_8:
	movb	%r15b, %cl
	shll	$12, %ecx
	movb	%bpl, %r10b
	shll	$12, %r10d
	addq	%r10, %r8
	movq	%r8, 40(%rsp)
	movb	%r11b, %r9b
	shll	$12, %r9d
	addq	%r9, %r14
	decb	%dl
	cmpb	$3, %dl
	movzbl	%dl, %eax
	movl	$1, %ebp
	cmovbl	%eax, %ebp
	movq	32(%rsp), %r15
	movq	%r15, %rax
	movbeq	(%rsi,%rcx), %rdx
	movbeq	8(%rsi,%rcx), %rcx
	shrq	$4, %rax
	vxorps	%xmm0, %xmm0, %xmm0
	vmovaps	%xmm0, 80(%rsp)
	addq	%rax, %rcx
	adcq	$0, %rdx
	movq	%rdx, %rax
	shrq	$32, %rax
	movq	%rcx, %rsi
	shrq	$32, %rsi
	vmovd	%eax, %xmm0
	vpinsrd	$1, %edx, %xmm0, %xmm0
	vpinsrd	$2, %esi, %xmm0, %xmm0
	vpinsrd	$3, %ecx, %xmm0, %xmm0
	vmovdqu	%ymm0, 112(%rsp)
	movl	%eax, 48(%rsp)
	movl	%edx, 52(%rsp)
	movl	%esi, 56(%rsp)
	movl	%ecx, 60(%rsp)
	leaq	80(%rsp), %rdi
	leaq	48(%rsp), %rcx
	movl	%ebp, %esi
	leaq	208(%rsp), %rdx
	vzeroupper
	callq	"cipher::encrypt.x86_64_v3"
	vmovdqu	112(%rsp), %ymm0
	vinserti128	$1, 80(%rsp), %ymm0, %ymm0
	vpshufb	.Lluossavin_x86_64_v3.CPI29_0(%rip), %ymm0, %ymm0
	vmovdqu	%ymm0, 48(%rsp)
	andl	$15, %r15d
	movq	352(%rsp), %rax
	movq	%rax, 24(%rsp)
	movq	%r14, 16(%rsp)
	movq	%rbx, 8(%rsp)
	movq	40(%rsp), %rax
	movq	%rax, (%rsp)
	leaq	80(%rsp), %rdi
	xorl	%r14d, %r14d
	leaq	48(%rsp), %r8
	movl	%ebp, %esi
	leaq	208(%rsp), %rdx
	xorl	%ecx, %ecx
	movq	%r15, %r9
	vzeroupper
	callq	"pieces::flow::run.x86_64_v3"
	testl	%r13d, %r13d
	cmovnel	%r14d, %r12d
	jmp	.Lluossavin_x86_64_v3.BB29_14
.Lluossavin_x86_64_v3.func_end29:
	.size	luossavin_ctr_range_x86_64_v3, .Lluossavin_x86_64_v3.func_end29-luossavin_ctr_range_x86_64_v3

	.section	.rodata.cst16,"aM",@progbits,16
	.p2align	4, 0x0
.Lluossavin_x86_64_v3.CPI30_0:
	.byte	3
	.byte	2
	.byte	1
	.byte	0
	.byte	7
	.byte	6
	.byte	5
	.byte	4
	.byte	11
	.byte	10
	.byte	9
	.byte	8
	.byte	15
	.byte	14
	.byte	13
	.byte	12
	.section	.text.luossavin_ctr_start_x86_64_v3,"ax",@progbits
	.globl	luossavin_ctr_start_x86_64_v3
	.hidden	luossavin_ctr_start_x86_64_v3
	.p2align	4
	.type	luossavin_ctr_start_x86_64_v3,@function
luossavin_ctr_start_x86_64_v3:
	pushq	%rbp
	pushq	%r15
	pushq	%r14
	pushq	%rbx
	subq	$216, %rsp
	movq	%rdi, %rax
	xorl	%r8d, %r8d
	testq	%rdx, %rdx
	sete	%r9b
	movl	384(%rsp), %r11d
	cmpl	$13, %r11d
	sete	%r10b
	incb	%r10b
	xorl	%edi, %edi
	testl	%r11d, %r11d
	movzbl	%r10b, %r10d
	cmovel	%r11d, %r10d
	movl	388(%rsp), %ebp
	cmovel	%ebp, %edi
	testb	%r10b, %r10b
	je	.Lluossavin_x86_64_v3.BB30_3
	movzbl	%r10b, %ecx
	vpxor	%xmm0, %xmm0, %xmm0
	cmpl	$2, %ecx
	jne	.Lluossavin_x86_64_v3.BB30_2
	vmovdqu	%ymm0, 96(%rsp)
	vmovdqu	%ymm0, 64(%rsp)
	vmovdqu	%ymm0, 32(%rsp)
	vmovdqu	%ymm0, (%rsp)
	movq	$0, 126(%rsp)
	vpxor	%xmm5, %xmm5, %xmm5
	movl	$13, %ecx
	jmp	.Lluossavin_x86_64_v3.BB30_10
.Lluossavin_x86_64_v3.BB30_3:
	cmpq	$16, %rcx
	jne	.Lluossavin_x86_64_v3.BB30_7
	movzbl	391(%rsp), %r14d
	testb	$1, %sil
	jne	.Lluossavin_x86_64_v3.BB30_6
	cmpb	$0, 390(%rsp)
	je	.Lluossavin_x86_64_v3.BB30_6
	vpxor	%xmm0, %xmm0, %xmm0
	vmovdqu	%ymm0, 96(%rsp)
	vmovdqu	%ymm0, 64(%rsp)
	vmovdqu	%ymm0, 32(%rsp)
	vmovdqu	%ymm0, (%rsp)
	movq	$0, 126(%rsp)
	vpxor	%xmm5, %xmm5, %xmm5
	movl	$14, %ecx
	jmp	.Lluossavin_x86_64_v3.BB30_10
.Lluossavin_x86_64_v3.BB30_2:
	vmovdqu	%ymm0, 96(%rsp)
	vmovdqu	%ymm0, 64(%rsp)
	vmovdqu	%ymm0, 32(%rsp)
	vmovdqu	%ymm0, (%rsp)
	movq	$0, 126(%rsp)
	vpxor	%xmm5, %xmm5, %xmm5
	movl	$1, %ecx
	jmp	.Lluossavin_x86_64_v3.BB30_10
.Lluossavin_x86_64_v3.BB30_7:
	vpxor	%xmm0, %xmm0, %xmm0
	vmovdqu	%ymm0, 96(%rsp)
	vmovdqu	%ymm0, 64(%rsp)
	vmovdqu	%ymm0, 32(%rsp)
	vmovdqu	%ymm0, (%rsp)
	movq	$0, 126(%rsp)
	vpxor	%xmm5, %xmm5, %xmm5
	movl	$10, %ecx
.Lluossavin_x86_64_v3.BB30_10:
	xorl	%r14d, %r14d
.Lluossavin_x86_64_v3.BB30_11:
	movl	%ecx, (%rax)
	movw	$0, 4(%rax)
	movw	%di, 6(%rax)
	movq	$0, 8(%rax)
	vmovups	6(%rsp), %ymm1
	vmovups	38(%rsp), %ymm2
	vmovups	70(%rsp), %ymm3
	vmovups	102(%rsp), %xmm4
	movq	118(%rsp), %rdx
	movq	126(%rsp), %rsi
	vmovups	%ymm1, 16(%rax)
	vmovups	%ymm2, 48(%rax)
	vmovups	%ymm3, 80(%rax)
	vmovups	%xmm4, 112(%rax)
	movq	%rdx, 128(%rax)
	movq	%rsi, 136(%rax)
	vmovdqu	%ymm0, 144(%rax)
	vmovdqu	%xmm5, 176(%rax)
	movq	$0, 192(%rax)
	movl	%ecx, 200(%rax)
	movw	%di, 204(%rax)
	movb	%r14b, 206(%rax)
	movb	$0, 207(%rax)
	addq	$216, %rsp
	popq	%rbx
	popq	%r14
	popq	%r15
	popq	%rbp
	vzeroupper
	retq
.Lluossavin_x86_64_v3.BB30_6:
	leaq	256(%rsp), %rbx
	movb	%r9b, %r8b
	shll	$12, %r8d
	leal	-1(%r14), %ecx
	cmpb	$3, %cl
	movzbl	%cl, %ecx
	movl	$1, %esi
	cmovbl	%ecx, %esi
	vxorps	%xmm0, %xmm0, %xmm0
	vmovaps	%xmm0, 144(%rsp)
	vmovdqu	(%rdx,%r8), %xmm0
	vmovdqu	%ymm0, 176(%rsp)
	vpshufb	.Lluossavin_x86_64_v3.CPI30_0(%rip), %xmm0, %xmm0
	vmovdqa	%xmm0, 160(%rsp)
	leaq	144(%rsp), %rdi
	leaq	160(%rsp), %rcx
	movq	%rbx, %rdx
	movq	%rax, %r15
	vzeroupper
	callq	"cipher::encrypt.x86_64_v3"
	vmovdqu	176(%rsp), %ymm5
	movq	%r15, %rax
	vmovdqa	144(%rsp), %xmm0
	vpshufb	.Lluossavin_x86_64_v3.CPI30_0(%rip), %xmm0, %xmm0
	vmovups	(%rbx), %ymm1
	vmovups	32(%rbx), %ymm2
	vmovups	64(%rbx), %ymm3
	vmovups	96(%rbx), %ymm4
	vmovups	%ymm1, 6(%rsp)
	vmovups	%ymm2, 38(%rsp)
	vmovups	%ymm3, 70(%rsp)
	vmovups	%ymm4, 102(%rsp)
	vinserti128	$1, %xmm0, %ymm5, %ymm0
	xorl	%ecx, %ecx
	movl	%ebp, %edi
	jmp	.Lluossavin_x86_64_v3.BB30_11
.Lluossavin_x86_64_v3.func_end30:
	.size	luossavin_ctr_start_x86_64_v3, .Lluossavin_x86_64_v3.func_end30-luossavin_ctr_start_x86_64_v3

	.section	.text.luossavin_hash_blocks_x86_64_v3,"ax",@progbits
	.globl	luossavin_hash_blocks_x86_64_v3
	.hidden	luossavin_hash_blocks_x86_64_v3
	.p2align	4
	.type	luossavin_hash_blocks_x86_64_v3,@function
luossavin_hash_blocks_x86_64_v3:
	subq	$72, %rsp
	xorl	%eax, %eax
	testq	%rdx, %rdx
	sete	%al
	shll	$12, %eax
	addq	%rax, %rdx
	vxorps	%xmm0, %xmm0, %xmm0
	vmovups	%ymm0, (%rsp)
	movq	%rdi, 40(%rsp)
	movq	%rsi, 48(%rsp)
	vxorps	%xmm0, %xmm0, %xmm0
	vmovups	%xmm0, 56(%rsp)
	movq	%rsp, %rdi
	leaq	40(%rsp), %rsi
	vzeroupper
	callq	"ghash::Ghash::absorb_all.x86_64_v3"
	movq	16(%rsp), %rax
	movq	24(%rsp), %rdx
	addq	$72, %rsp
	retq
.Lluossavin_x86_64_v3.func_end31:
	.size	luossavin_hash_blocks_x86_64_v3, .Lluossavin_x86_64_v3.func_end31-luossavin_hash_blocks_x86_64_v3

	.section	.text.luossavin_hash_join_x86_64_v3,"ax",@progbits
	.globl	luossavin_hash_join_x86_64_v3
	.hidden	luossavin_hash_join_x86_64_v3
	.p2align	4
	.type	luossavin_hash_join_x86_64_v3,@function
luossavin_hash_join_x86_64_v3:
	pushq	%r15
	pushq	%r14
	pushq	%r12
	pushq	%rbx
	pushq	%rax
	movq	%r9, %rbx
	movq	%r8, %r14
	movq	%rcx, %r15
	movq	%rdx, %r12
	movq	48(%rsp), %rdx
	callq	"field::power.x86_64_v3"
	movq	%rdx, %rcx
	movq	%r12, %rdi
	movq	%r15, %rsi
	movq	%rax, %rdx
	callq	"field::galois_mul.x86_64_v3"
	xorq	%r14, %rax
	xorq	%rbx, %rdx
	addq	$8, %rsp
	popq	%rbx
	popq	%r12
	popq	%r14
	popq	%r15
	retq
.Lluossavin_x86_64_v3.func_end32:
	.size	luossavin_hash_join_x86_64_v3, .Lluossavin_x86_64_v3.func_end32-luossavin_hash_join_x86_64_v3

	.section	.rodata.cst16,"aM",@progbits,16
	.p2align	4, 0x0
.Lluossavin_x86_64_v3.CPI33_0:
	.byte	15
	.byte	14
	.byte	13
	.byte	12
	.byte	11
	.byte	10
	.byte	9
	.byte	8
	.byte	7
	.byte	6
	.byte	5
	.byte	4
	.byte	3
	.byte	2
	.byte	1
	.byte	0
.Lluossavin_x86_64_v3.CPI33_1:
	.long	2993693404
	.long	1736282519
	.long	1453994832
	.long	2746333894
	.section	.text.luossavin_key_new_x86_64_v3,"ax",@progbits
	.globl	luossavin_key_new_x86_64_v3
	.hidden	luossavin_key_new_x86_64_v3
	.p2align	4
	.type	luossavin_key_new_x86_64_v3,@function
luossavin_key_new_x86_64_v3:
	pushq	%rbp
	pushq	%r15
	pushq	%r14
	pushq	%r13
	pushq	%r12
	pushq	%rbx
	subq	$104, %rsp
	xorl	%eax, %eax
	testq	%rsi, %rsi
	sete	%r8b
	cmpq	$16, %rdx
	jne	.Lluossavin_x86_64_v3.BB33_5
	leal	-65536(%rcx), %edx
	cmpl	$-65535, %edx
	jae	.Lluossavin_x86_64_v3.BB33_2
	vpxor	%xmm0, %xmm0, %xmm0
	vmovdqu	%ymm0, 64(%rsp)
	vmovdqu	%ymm0, 32(%rsp)
	vmovdqu	%ymm0, (%rsp)
	vmovdqu	%ymm0, -32(%rsp)
	movl	$13, %ecx
	jmp	.Lluossavin_x86_64_v3.BB33_7
.Lluossavin_x86_64_v3.BB33_5:
	vpxor	%xmm0, %xmm0, %xmm0
	vmovdqu	%ymm0, 64(%rsp)
	vmovdqu	%ymm0, 32(%rsp)
	vmovdqu	%ymm0, (%rsp)
	vmovdqu	%ymm0, -32(%rsp)
	movl	$1, %ecx
.Lluossavin_x86_64_v3.BB33_7:
	xorl	%eax, %eax
	jmp	.Lluossavin_x86_64_v3.BB33_8
.Lluossavin_x86_64_v3.BB33_2:
	movq	%rcx, -64(%rsp)
	movq	%rdi, -56(%rsp)
	movb	%r8b, %al
	vxorps	%xmm0, %xmm0, %xmm0
	vmovups	%ymm0, 64(%rsp)
	vmovups	%ymm0, 32(%rsp)
	vmovups	%ymm0, (%rsp)
	vmovups	%ymm0, -32(%rsp)
	shll	$12, %eax
	vmovdqu	(%rsi,%rax), %xmm0
	vpshufb	.Lluossavin_x86_64_v3.CPI33_0(%rip), %xmm0, %xmm0
	vpxor	.Lluossavin_x86_64_v3.CPI33_1(%rip), %xmm0, %xmm0
	xorl	%edx, %edx
	.p2align	4
.Lluossavin_x86_64_v3.BB33_3:
	movq	%rdx, -40(%rsp)
	leaq	.Lluossavin_x86_64_v3.static.5(%rip), %rax
	vmovd	%xmm0, %ecx
	xorl	(%rdx,%rax), %ecx
	vpextrd	$1, %xmm0, %eax
	vpextrd	$2, %xmm0, %r11d
	xorl	%eax, %r11d
	xorl	%ecx, %r11d
	movl	%r11d, %edx
	shrl	%edx
	movl	%r11d, %r10d
	shrl	$2, %r10d
	movl	%r11d, %esi
	shrl	$3, %esi
	movl	%r11d, %eax
	shrl	$4, %eax
	movl	%r11d, %ebx
	shrl	$5, %ebx
	movl	%r11d, %edi
	shrl	$7, %edi
	movl	%edi, %r9d
	movl	%edi, %r13d
	xorl	%eax, %r9d
	movl	%r9d, %r8d
	movl	%ebx, %r15d
	movl	%r9d, %ebp
	xorl	%ebx, %r9d
	movq	%r9, -48(%rsp)
	xorl	%esi, %ebx
	xorl	%r11d, %r8d
	movl	%ebx, %edi
	xorl	%r11d, %edi
	xorl	%edx, %r15d
	movl	%r8d, %ecx
	xorl	%esi, %ecx
	movl	%ecx, -92(%rsp)
	xorl	%r10d, %eax
	movl	%edi, %ecx
	movl	%edi, %r12d
	xorl	%eax, %ecx
	movl	%ecx, -112(%rsp)
	xorl	%edx, %esi
	movl	%edx, %ecx
	xorl	%eax, %esi
	movl	%esi, -108(%rsp)
	movl	%r15d, %edx
	xorl	%r11d, %edx
	movl	%edx, -68(%rsp)
	movl	%r9d, %eax
	andl	%edx, %eax
	andnl	%ebx, %r11d, %edi
	movl	%r11d, -100(%rsp)
	movl	%ecx, -120(%rsp)
	xorl	%ecx, %edi
	xorl	%eax, %edi
	xorl	%r8d, %edi
	shrl	$6, %r11d
	movl	%r11d, %r14d
	xorl	%r10d, %r14d
	movl	%ebx, %r9d
	movl	%r13d, %eax
	xorl	%r13d, %r9d
	movl	%r14d, %edx
	xorl	%ecx, %edx
	movl	%edx, -124(%rsp)
	xorl	%r10d, %r8d
	movl	%r12d, %r13d
	movl	%r12d, -84(%rsp)
	movl	%r12d, %esi
	xorl	%r14d, %esi
	movl	%esi, -80(%rsp)
	movl	%ebp, %ecx
	movl	%r15d, -104(%rsp)
	xorl	%r15d, %ecx
	movl	%ecx, -116(%rsp)
	movl	-92(%rsp), %ebp
	movl	%ebp, %r12d
	xorl	%edx, %r12d
	movl	%r8d, %edx
	movl	%r8d, -88(%rsp)
	xorl	%r15d, %edx
	movl	%edx, -72(%rsp)
	xorl	%r13d, %eax
	movl	%eax, %r13d
	movl	%eax, -76(%rsp)
	movl	%ecx, %eax
	andl	-108(%rsp), %eax
	andl	%esi, %r13d
	xorl	%eax, %r13d
	movl	%edx, %ecx
	andl	%r12d, %ecx
	xorl	%eax, %ecx
	movl	%r9d, -128(%rsp)
	xorl	%r9d, %r10d
	andnl	%r14d, %r9d, %eax
	movl	%r14d, %esi
	xorl	%eax, %r10d
	movl	-124(%rsp), %edx
	andnl	%edx, %r8d, %r15d
	xorl	%r15d, %r10d
	xorl	%ebx, %r11d
	xorl	%eax, %r11d
	movl	-112(%rsp), %eax
	movl	-120(%rsp), %r14d
	andl	%r14d, %eax
	xorl	%eax, %r11d
	movl	-100(%rsp), %r9d
	andl	%r9d, %ebx
	movl	-104(%rsp), %r8d
	andnl	%ebp, %r8d, %eax
	xorl	%eax, %ebx
	xorl	%r13d, %r10d
	xorl	%r13d, %ebx
	xorl	%ecx, %r11d
	xorl	%ecx, %edi
	andnl	%r10d, %ebx, %ecx
	xorl	%r11d, %r10d
	notl	%ebx
	movl	%ecx, %r15d
	xorl	%edi, %r15d
	movl	%r15d, %eax
	andl	%r10d, %eax
	xorl	%r11d, %eax
	movl	%edi, %r13d
	xorl	%ebx, %r13d
	xorl	%ecx, %r11d
	andl	%r13d, %r11d
	movl	%r11d, %r13d
	xorl	%ecx, %r11d
	xorl	%edi, %r13d
	andl	%edi, %r11d
	xorl	%r11d, %ebx
	xorl	%r15d, %r11d
	andl	%eax, %r11d
	xorl	%r10d, %r11d
	andl	%ebx, %esi
	movl	%esi, -96(%rsp)
	movl	-128(%rsp), %ecx
	andnl	%ebx, %ecx, %ecx
	movl	%ecx, -128(%rsp)
	movl	%ebx, %ecx
	xorl	%r13d, %ecx
	movl	%r11d, %ebx
	xorl	%ecx, %ebx
	andl	%ecx, %edx
	movl	%edx, -124(%rsp)
	movl	-88(%rsp), %edx
	andnl	%ecx, %edx, %esi
	movl	%eax, %ecx
	xorl	%r13d, %ecx
	andl	%r13d, %r14d
	movl	%r14d, -120(%rsp)
	andl	-112(%rsp), %r13d
	movl	%ebp, %r15d
	andl	%r11d, %r15d
	andnl	%r11d, %r8d, %r10d
	xorl	%eax, %r11d
	movl	-84(%rsp), %edx
	andl	%r11d, %edx
	andnl	%r11d, %r9d, %r14d
	movq	-48(%rsp), %rdi
	andl	%eax, %edi
	andl	-68(%rsp), %eax
	movl	%ebx, %r11d
	xorl	%ecx, %r11d
	movl	-116(%rsp), %r8d
	andl	%ecx, %r8d
	andl	-108(%rsp), %ecx
	movl	-80(%rsp), %ebp
	andl	%r11d, %ebp
	andl	-76(%rsp), %r11d
	andl	%ebx, %r12d
	andl	-72(%rsp), %ebx
	movl	-96(%rsp), %r9d
	xorl	%edx, %r9d
	xorl	%edx, %r8d
	xorl	%r12d, %edi
	xorl	%edi, %esi
	movl	-124(%rsp), %edx
	xorl	%r9d, %edx
	xorl	%esi, %r8d
	movl	%r8d, -116(%rsp)
	movl	%esi, %r8d
	xorl	%ebp, %r8d
	xorl	%edx, %r8d
	movl	%edx, %esi
	xorl	%r15d, %esi
	xorl	%r15d, %ebp
	xorl	%ebx, %r13d
	xorl	%ecx, %eax
	xorl	%ebx, %eax
	movl	-128(%rsp), %ebx
	xorl	%ebx, %r10d
	xorl	%r14d, %r10d
	xorl	%r11d, %r13d
	xorl	%r14d, %eax
	movl	%r13d, %edx
	xorl	%r10d, %edx
	xorl	%esi, %eax
	xorl	%esi, %edx
	xorl	-120(%rsp), %r12d
	xorl	%r9d, %r12d
	xorl	%ebp, %edi
	xorl	%ebp, %r12d
	xorl	%ebx, %ecx
	xorl	%r11d, %ecx
	xorl	%r8d, %ecx
	movl	-116(%rsp), %esi
	xorl	%esi, %r13d
	xorl	%r10d, %esi
	xorl	%r10d, %r8d
	notl	%r12d
	andl	$16843009, %r12d
	andl	$16843009, %ecx
	leal	(%rcx,%r12,2), %ecx
	andl	$16843009, %eax
	addl	%eax, %eax
	leal	(%rax,%rcx,4), %eax
	andl	$16843009, %esi
	orl	%eax, %esi
	andl	$16843009, %edi
	andl	$16843009, %edx
	leal	(%rdx,%rdi,2), %eax
	shll	$4, %esi
	leal	(%rsi,%rax,4), %eax
	notl	%r8d
	xorl	$1347440720, %eax
	andl	$16843009, %r8d
	andl	$16843009, %r13d
	leal	(%r13,%r8,2), %ecx
	xorl	$16843009, %ecx
	addl	%eax, %ecx
	rorxl	$9, %ecx, %eax
	vpextrd	$3, %xmm0, %edx
	xorl	%eax, %edx
	rorxl	$19, %ecx, %eax
	xorl	%ecx, %eax
	xorl	%edx, %eax
	movq	-40(%rsp), %rdx
	movl	%eax, -32(%rsp,%rdx)
	vpshufd	$144, %xmm0, %xmm0
	vpinsrd	$0, %eax, %xmm0, %xmm0
	addq	$4, %rdx
	cmpq	$128, %rdx
	jne	.Lluossavin_x86_64_v3.BB33_3
	movq	-56(%rsp), %rdi
	movq	-64(%rsp), %rax
	xorl	%ecx, %ecx
.Lluossavin_x86_64_v3.BB33_8:
	vmovups	-32(%rsp), %ymm0
	vmovups	(%rsp), %ymm1
	vmovups	32(%rsp), %ymm2
	vmovups	64(%rsp), %ymm3
	vmovups	%ymm3, 96(%rdi)
	vmovups	%ymm2, 64(%rdi)
	vmovups	%ymm1, 32(%rdi)
	vmovups	%ymm0, (%rdi)
	movl	%ecx, 128(%rdi)
	movw	%ax, 132(%rdi)
	movw	$0, 134(%rdi)
	movq	%rdi, %rax
	addq	$104, %rsp
	popq	%rbx
	popq	%r12
	popq	%r13
	popq	%r14
	popq	%r15
	popq	%rbp
	vzeroupper
	retq
.Lluossavin_x86_64_v3.func_end33:
	.size	luossavin_key_new_x86_64_v3, .Lluossavin_x86_64_v3.func_end33-luossavin_key_new_x86_64_v3

	.section	.text.luossavin_key_retire_x86_64_v3,"ax",@progbits
	.globl	luossavin_key_retire_x86_64_v3
	.hidden	luossavin_key_retire_x86_64_v3
	.p2align	4
	.type	luossavin_key_retire_x86_64_v3,@function
luossavin_key_retire_x86_64_v3:
	movq	%rdi, %rax
	movl	136(%rsp), %ecx
	movzwl	140(%rsp), %edx
	movzbl	143(%rsp), %esi
	testl	%ecx, %ecx
	movzbl	142(%rsp), %edi
	movl	$1, %r8d
	cmovnel	%edi, %r8d
	vmovups	8(%rsp), %ymm0
	vmovups	40(%rsp), %ymm1
	vmovups	72(%rsp), %ymm2
	vmovups	104(%rsp), %ymm3
	vmovups	%ymm3, 96(%rax)
	vmovups	%ymm2, 64(%rax)
	vmovups	%ymm1, 32(%rax)
	vmovups	%ymm0, (%rax)
	movl	%ecx, 128(%rax)
	movw	%dx, 132(%rax)
	movb	%r8b, 134(%rax)
	movb	%sil, 135(%rax)
	vzeroupper
	retq
.Lluossavin_x86_64_v3.func_end34:
	.size	luossavin_key_retire_x86_64_v3, .Lluossavin_x86_64_v3.func_end34-luossavin_key_retire_x86_64_v3

	.section	.text.luossavin_label_x86_64_v3,"ax",@progbits
	.globl	luossavin_label_x86_64_v3
	.hidden	luossavin_label_x86_64_v3
	.p2align	4
	.type	luossavin_label_x86_64_v3,@function
luossavin_label_x86_64_v3:
	movzwl	%si, %eax
	bswapq	%rax
	shrq	$16, %rax
	movl	%edi, %ecx
	shll	$8, %ecx
	andl	$16711680, %ecx
	movl	%edi, %edx
	shrl	$8, %edx
	andl	$65280, %edx
	andl	$-16776961, %edi
	bswapl	%edi
	orq	%rdi, %rax
	orq	%rcx, %rax
	orq	%rdx, %rax
	retq
.Lluossavin_x86_64_v3.func_end35:
	.size	luossavin_label_x86_64_v3, .Lluossavin_x86_64_v3.func_end35-luossavin_label_x86_64_v3

	.section	.rodata.cst32,"aM",@progbits,32
	.p2align	5, 0x0
.Lluossavin_x86_64_v3.CPI36_0:
	.byte	7
	.byte	6
	.byte	5
	.byte	4
	.byte	3
	.byte	2
	.byte	1
	.byte	0
	.byte	15
	.byte	14
	.byte	13
	.byte	12
	.byte	11
	.byte	10
	.byte	9
	.byte	8
	.byte	7
	.byte	6
	.byte	5
	.byte	4
	.byte	3
	.byte	2
	.byte	1
	.byte	0
	.byte	15
	.byte	14
	.byte	13
	.byte	12
	.byte	11
	.byte	10
	.byte	9
	.byte	8
	.section	.rodata.cst16,"aM",@progbits,16
	.p2align	4, 0x0
.Lluossavin_x86_64_v3.CPI36_1:
	.byte	3
	.byte	2
	.byte	1
	.byte	0
	.byte	7
	.byte	6
	.byte	5
	.byte	4
	.zero	1
	.zero	1
	.zero	1
	.zero	1
	.zero	1
	.zero	1
	.zero	1
	.zero	1
.Lluossavin_x86_64_v3.CPI36_2:
	.byte	3
	.byte	2
	.byte	1
	.byte	0
	.byte	7
	.byte	6
	.byte	5
	.byte	4
	.byte	0
	.byte	0
	.byte	0
	.byte	0
	.byte	0
	.byte	0
	.byte	0
	.byte	0
	.section	.text.luossavin_opens_end_x86_64_v3,"ax",@progbits
	.globl	luossavin_opens_end_x86_64_v3
	.hidden	luossavin_opens_end_x86_64_v3
	.p2align	4
	.type	luossavin_opens_end_x86_64_v3,@function
luossavin_opens_end_x86_64_v3:
	pushq	%rbp
	pushq	%r15
	pushq	%r14
	pushq	%r13
	pushq	%r12
	pushq	%rbx
	subq	$152, %rsp
	movq	%rdi, %rax
	leaq	208(%rsp), %r8
	xorl	%r15d, %r15d
	testq	%rsi, %rsi
	sete	%r9b
	vmovdqa	256(%rsp), %xmm2
	movq	272(%rsp), %r14
	movq	280(%rsp), %rbx
	movl	288(%rsp), %r13d
	movl	292(%rsp), %edi
	movzwl	296(%rsp), %ebp
	cmpq	$14, %rdi
	ja	.Lluossavin_x86_64_v3.BB36_7
	leaq	.Lluossavin_x86_64_v3.JTI36_0(%rip), %rcx
	movslq	(%rcx,%rdi,4), %r10
	addq	%rcx, %r10
	jmpq	*%r10
.Lluossavin_x86_64_v3.BB36_8:
	cmpq	$16777217, %r14
	setae	%cl
	cmpq	$16777217, %rbx
	setae	%r10b
	orb	%cl, %r10b
	movl	$1025, %ecx
	jne	.Lluossavin_x86_64_v3.BB36_11
	cmpq	$16, %rdx
	jne	.Lluossavin_x86_64_v3.BB36_10
	movq	%rax, 40(%rsp)
	movb	%r9b, %r15b
	shll	$12, %r15d
	movl	%ebx, %ecx
	andl	$15, %ecx
	vxorps	%xmm0, %xmm0, %xmm0
	vmovups	%ymm0, (%rsp)
	vmovups	(%r8), %ymm0
	vmovups	16(%r8), %ymm1
	vmovups	%ymm0, 48(%rsp)
	vmovups	%ymm1, 64(%rsp)
	leaq	80(%rsp), %rdx
	vmovdqu	48(%rsp), %ymm0
	vpshufb	.Lluossavin_x86_64_v3.CPI36_0(%rip), %ymm0, %ymm0
	vmovdqu	%ymm0, 96(%rsp)
	movq	%rsp, %rdi
	leaq	96(%rsp), %rax
	movq	%rsi, %r12
	movq	%rax, %rsi
	vmovdqa	%xmm2, 128(%rsp)
	vzeroupper
	callq	"ghash::Ghash::absorb_all.x86_64_v3"
	leaq	96(%rsp), %rdi
	movq	%rsp, %rsi
	movq	%r14, %rdx
	movq	%rbx, %rcx
	callq	"ghash::Ghash::absorb_lengths.x86_64_v3"
	movq	112(%rsp), %rcx
	movq	120(%rsp), %rdx
	movq	%rcx, %rsi
	shrq	$32, %rsi
	movq	%rdx, %rdi
	shrq	$32, %rdi
	bswapl	%edi
	bswapl	%edx
	xorl	8(%r12,%r15), %edi
	vmovdqa	128(%rsp), %xmm3
	vpextrd	$2, %xmm3, %eax
	xorl	%edi, %eax
	bswapl	%eax
	xorl	12(%r12,%r15), %edx
	vpextrd	$3, %xmm3, %edi
	xorl	%edx, %edi
	bswapl	%edi
	vmovd	%esi, %xmm0
	vpinsrd	$1, %ecx, %xmm0, %xmm0
	vmovq	.Lluossavin_x86_64_v3.CPI36_2(%rip), %xmm1
	vpshufb	%xmm1, %xmm0, %xmm0
	vmovq	(%r12,%r15), %xmm2
	vpxor	%xmm3, %xmm2, %xmm2
	vpxor	%xmm2, %xmm0, %xmm0
	vpshufb	%xmm1, %xmm0, %xmm0
	vmovd	%xmm0, %ecx
	vpextrd	$1, %xmm0, %edx
	addq	%rcx, %rdx
	addq	%rdx, %rax
	xorl	%edx, %edx
	orq	%rax, %rdi
	je	.Lluossavin_x86_64_v3.BB36_14
	movl	$769, %ecx
	xorl	%esi, %esi
	jmp	.Lluossavin_x86_64_v3.BB36_15
.Lluossavin_x86_64_v3.BB36_3:
	movl	$1025, %ecx
	jmp	.Lluossavin_x86_64_v3.BB36_11
.Lluossavin_x86_64_v3.BB36_6:
	movl	$3073, %ecx
	jmp	.Lluossavin_x86_64_v3.BB36_11
.Lluossavin_x86_64_v3.BB36_7:
	movl	$2561, %ecx
	jmp	.Lluossavin_x86_64_v3.BB36_11
.Lluossavin_x86_64_v3.BB36_2:
	movq	%rdi, %rcx
	jmp	.Lluossavin_x86_64_v3.BB36_11
.Lluossavin_x86_64_v3.BB36_4:
	movl	$2049, %ecx
	jmp	.Lluossavin_x86_64_v3.BB36_11
.Lluossavin_x86_64_v3.BB36_5:
	movl	$2817, %ecx
.Lluossavin_x86_64_v3.BB36_11:
	leaq	298(%rsp), %rdx
	vmovdqu	(%r8), %ymm0
	vmovdqu	16(%r8), %ymm1
	vmovdqu	%ymm1, 64(%rsp)
	vmovdqu	%ymm0, 48(%rsp)
	movl	(%rdx), %esi
	movl	%esi, (%rsp)
	movzwl	4(%rdx), %edx
	movw	%dx, 4(%rsp)
	movl	%ecx, %edx
	shrl	$16, %edx
	xorl	%esi, %esi
	testb	%cl, %cl
	je	.Lluossavin_x86_64_v3.BB36_17
.Lluossavin_x86_64_v3.BB36_18:
	movzbl	%ch, %esi
	leaq	.Lluossavin_x86_64_v3.switch.table.luossavin_which_x86_64_v3(%rip), %r8
	movl	(%r8,%rsi,4), %r8d
	andl	$65280, %ecx
	xorl	%esi, %esi
	cmpl	$1792, %ecx
	movzbl	%dl, %ecx
	cmovnel	%esi, %ecx
	jmp	.Lluossavin_x86_64_v3.BB36_19
.Lluossavin_x86_64_v3.BB36_10:
	movl	%edx, %ecx
	shll	$16, %ecx
	movl	$1048576, %esi
	subl	%ecx, %esi
	andl	$16711680, %esi
	orq	$1793, %rsi
	cmpq	$17, %rdx
	movl	$1793, %ecx
	cmovbq	%rsi, %rcx
	jmp	.Lluossavin_x86_64_v3.BB36_11
.Lluossavin_x86_64_v3.BB36_14:
	addq	$15, %rbx
	shrq	$4, %rbx
	notl	%r13d
	cmpq	%r13, %rbx
	seta	%sil
	xorl	%ecx, %ecx
.Lluossavin_x86_64_v3.BB36_15:
	vpxor	%xmm0, %xmm0, %xmm0
	vmovdqu	%ymm0, 64(%rsp)
	vmovdqu	%ymm0, 48(%rsp)
	movl	$0, (%rsp)
	movw	$0, 4(%rsp)
	vpxor	%xmm2, %xmm2, %xmm2
	movl	$12, %edi
	xorl	%r14d, %r14d
	xorl	%ebx, %ebx
	xorl	%r13d, %r13d
	movq	40(%rsp), %rax
	testb	%cl, %cl
	jne	.Lluossavin_x86_64_v3.BB36_18
.Lluossavin_x86_64_v3.BB36_17:
	xorl	%r8d, %r8d
	xorl	%ecx, %ecx
.Lluossavin_x86_64_v3.BB36_19:
	movl	%r8d, (%rax)
	movb	%cl, 4(%rax)
	movb	%sil, 5(%rax)
	movw	%bp, 6(%rax)
	movq	$0, 8(%rax)
	vmovups	48(%rsp), %ymm0
	vmovups	64(%rsp), %ymm1
	vmovups	%ymm0, 16(%rax)
	vmovups	%ymm1, 32(%rax)
	vmovdqu	%xmm2, 64(%rax)
	movq	%r14, 80(%rax)
	movq	%rbx, 88(%rax)
	movl	%r13d, 96(%rax)
	movl	%edi, 100(%rax)
	movw	%bp, 104(%rax)
	movl	(%rsp), %ecx
	movl	%ecx, 106(%rax)
	movzwl	4(%rsp), %ecx
	movw	%cx, 110(%rax)
	addq	$152, %rsp
	popq	%rbx
	popq	%r12
	popq	%r13
	popq	%r14
	popq	%r15
	popq	%rbp
	vzeroupper
	retq
.Lluossavin_x86_64_v3.func_end36:
	.size	luossavin_opens_end_x86_64_v3, .Lluossavin_x86_64_v3.func_end36-luossavin_opens_end_x86_64_v3
	.section	.rodata.luossavin_opens_end_x86_64_v3,"a",@progbits
	.p2align	2, 0x0
.Lluossavin_x86_64_v3.JTI36_0:
	.long	.Lluossavin_x86_64_v3.BB36_8-.Lluossavin_x86_64_v3.JTI36_0
	.long	.Lluossavin_x86_64_v3.BB36_2-.Lluossavin_x86_64_v3.JTI36_0
	.long	.Lluossavin_x86_64_v3.BB36_7-.Lluossavin_x86_64_v3.JTI36_0
	.long	.Lluossavin_x86_64_v3.BB36_7-.Lluossavin_x86_64_v3.JTI36_0
	.long	.Lluossavin_x86_64_v3.BB36_7-.Lluossavin_x86_64_v3.JTI36_0
	.long	.Lluossavin_x86_64_v3.BB36_3-.Lluossavin_x86_64_v3.JTI36_0
	.long	.Lluossavin_x86_64_v3.BB36_7-.Lluossavin_x86_64_v3.JTI36_0
	.long	.Lluossavin_x86_64_v3.BB36_7-.Lluossavin_x86_64_v3.JTI36_0
	.long	.Lluossavin_x86_64_v3.BB36_7-.Lluossavin_x86_64_v3.JTI36_0
	.long	.Lluossavin_x86_64_v3.BB36_7-.Lluossavin_x86_64_v3.JTI36_0
	.long	.Lluossavin_x86_64_v3.BB36_4-.Lluossavin_x86_64_v3.JTI36_0
	.long	.Lluossavin_x86_64_v3.BB36_7-.Lluossavin_x86_64_v3.JTI36_0
	.long	.Lluossavin_x86_64_v3.BB36_7-.Lluossavin_x86_64_v3.JTI36_0
	.long	.Lluossavin_x86_64_v3.BB36_5-.Lluossavin_x86_64_v3.JTI36_0
	.long	.Lluossavin_x86_64_v3.BB36_6-.Lluossavin_x86_64_v3.JTI36_0

	.section	.text.luossavin_opens_piece_x86_64_v3,"ax",@progbits
	.globl	luossavin_opens_piece_x86_64_v3
	.hidden	luossavin_opens_piece_x86_64_v3
	.p2align	4
	.type	luossavin_opens_piece_x86_64_v3,@function
luossavin_opens_piece_x86_64_v3:
	pushq	%rbp
	pushq	%r15
	pushq	%r14
	pushq	%r12
	pushq	%rbx
	subq	$96, %rsp
	movq	%rdx, %r8
	movq	%rsi, %rcx
	movq	%rdi, %rax
	leaq	144(%rsp), %rbx
	xorl	%esi, %esi
	testq	%rcx, %rcx
	sete	%dil
	movq	208(%rsp), %r14
	movq	216(%rsp), %rdx
	movq	224(%rsp), %r9
	vmovq	%r9, %xmm3
	shrq	$32, %r9
	movzwl	232(%rsp), %ebp
	cmpl	$14, %r9d
	ja	.Lluossavin_x86_64_v3.BB37_8
	leaq	.Lluossavin_x86_64_v3.JTI37_0(%rip), %r10
	movslq	(%r10,%r9,4), %r9
	addq	%r10, %r9
	jmpq	*%r9
.Lluossavin_x86_64_v3.BB37_3:
	movq	%r8, %r15
	addq	%rdx, %r15
	movq	$-1, %r9
	cmovaeq	%r15, %r9
	cmpq	$16777216, %r14
	ja	.Lluossavin_x86_64_v3.BB37_6
	cmpq	$16777216, %r9
	ja	.Lluossavin_x86_64_v3.BB37_6
	movb	%dil, %sil
	shll	$12, %esi
	addq	%rsi, %rcx
	andl	$15, %edx
	leaq	16(%rsp), %rdi
	movq	%rbx, %rsi
	movq	%rax, %r12
	vmovdqa	%xmm3, 80(%rsp)
	callq	"pieces::hashing::Hashing::take_in.x86_64_v3"
	vmovdqa	80(%rsp), %xmm3
	movq	%r12, %rax
	vmovups	48(%rbx), %xmm0
	vmovaps	%xmm0, 64(%rsp)
	movl	$0, 8(%rsp)
	movw	$0, 12(%rsp)
	xorl	%ecx, %ecx
	movq	%r15, %rdx
	jmp	.Lluossavin_x86_64_v3.BB37_11
.Lluossavin_x86_64_v3.BB37_6:
	vmovups	32(%rbx), %ymm0
	vmovups	%ymm0, 48(%rsp)
	vmovups	(%rbx), %ymm0
	vmovups	%ymm0, 16(%rsp)
	movl	90(%rbx), %ecx
	movl	%ecx, 8(%rsp)
	movzwl	94(%rbx), %ecx
	movw	%cx, 12(%rsp)
	movl	$5, %ecx
	jmp	.Lluossavin_x86_64_v3.BB37_11
.Lluossavin_x86_64_v3.BB37_2:
	vmovups	32(%rbx), %ymm0
	vmovups	%ymm0, 48(%rsp)
	vmovups	(%rbx), %ymm0
	vmovups	%ymm0, 16(%rsp)
	movl	90(%rbx), %ecx
	movl	%ecx, 8(%rsp)
	movzwl	94(%rbx), %ecx
	movw	%cx, 12(%rsp)
	movl	$1, %ecx
	jmp	.Lluossavin_x86_64_v3.BB37_11
.Lluossavin_x86_64_v3.BB37_10:
	vmovups	32(%rbx), %ymm0
	vmovups	%ymm0, 48(%rsp)
	vmovups	(%rbx), %ymm0
	vmovups	%ymm0, 16(%rsp)
	movl	90(%rbx), %ecx
	movl	%ecx, 8(%rsp)
	movzwl	94(%rbx), %ecx
	movw	%cx, 12(%rsp)
	movl	$14, %ecx
	jmp	.Lluossavin_x86_64_v3.BB37_11
.Lluossavin_x86_64_v3.BB37_8:
	vmovups	32(%rbx), %ymm0
	vmovups	%ymm0, 48(%rsp)
	vmovups	(%rbx), %ymm0
	vmovups	%ymm0, 16(%rsp)
	movl	90(%rbx), %ecx
	movl	%ecx, 8(%rsp)
	movzwl	94(%rbx), %ecx
	movw	%cx, 12(%rsp)
	movl	$12, %ecx
	jmp	.Lluossavin_x86_64_v3.BB37_11
.Lluossavin_x86_64_v3.BB37_7:
	vmovups	32(%rbx), %ymm0
	vmovups	%ymm0, 48(%rsp)
	vmovups	(%rbx), %ymm0
	vmovups	%ymm0, 16(%rsp)
	movl	90(%rbx), %ecx
	movl	%ecx, 8(%rsp)
	movzwl	94(%rbx), %ecx
	movw	%cx, 12(%rsp)
	movl	$10, %ecx
	jmp	.Lluossavin_x86_64_v3.BB37_11
.Lluossavin_x86_64_v3.BB37_9:
	vmovups	32(%rbx), %ymm0
	vmovups	%ymm0, 48(%rsp)
	vmovups	(%rbx), %ymm0
	vmovups	%ymm0, 16(%rsp)
	movl	90(%rbx), %ecx
	movl	%ecx, 8(%rsp)
	movzwl	94(%rbx), %ecx
	movw	%cx, 12(%rsp)
	movl	$13, %ecx
.Lluossavin_x86_64_v3.BB37_11:
	movl	%ecx, (%rax)
	movw	$0, 4(%rax)
	movw	%bp, 6(%rax)
	movq	$0, 8(%rax)
	vmovups	16(%rsp), %ymm0
	vmovups	48(%rsp), %xmm1
	vmovups	64(%rsp), %xmm2
	vmovups	%ymm0, 16(%rax)
	vmovups	%xmm1, 48(%rax)
	vmovups	%xmm2, 64(%rax)
	movq	%r14, 80(%rax)
	movq	%rdx, 88(%rax)
	vmovq	%xmm3, 96(%rax)
	movw	%bp, 104(%rax)
	movl	8(%rsp), %ecx
	movl	%ecx, 106(%rax)
	movzwl	12(%rsp), %ecx
	movw	%cx, 110(%rax)
	addq	$96, %rsp
	popq	%rbx
	popq	%r12
	popq	%r14
	popq	%r15
	popq	%rbp
	vzeroupper
	retq
.Lluossavin_x86_64_v3.func_end37:
	.size	luossavin_opens_piece_x86_64_v3, .Lluossavin_x86_64_v3.func_end37-luossavin_opens_piece_x86_64_v3
	.section	.rodata.luossavin_opens_piece_x86_64_v3,"a",@progbits
	.p2align	2, 0x0
.Lluossavin_x86_64_v3.JTI37_0:
	.long	.Lluossavin_x86_64_v3.BB37_3-.Lluossavin_x86_64_v3.JTI37_0
	.long	.Lluossavin_x86_64_v3.BB37_2-.Lluossavin_x86_64_v3.JTI37_0
	.long	.Lluossavin_x86_64_v3.BB37_8-.Lluossavin_x86_64_v3.JTI37_0
	.long	.Lluossavin_x86_64_v3.BB37_8-.Lluossavin_x86_64_v3.JTI37_0
	.long	.Lluossavin_x86_64_v3.BB37_8-.Lluossavin_x86_64_v3.JTI37_0
	.long	.Lluossavin_x86_64_v3.BB37_6-.Lluossavin_x86_64_v3.JTI37_0
	.long	.Lluossavin_x86_64_v3.BB37_8-.Lluossavin_x86_64_v3.JTI37_0
	.long	.Lluossavin_x86_64_v3.BB37_8-.Lluossavin_x86_64_v3.JTI37_0
	.long	.Lluossavin_x86_64_v3.BB37_8-.Lluossavin_x86_64_v3.JTI37_0
	.long	.Lluossavin_x86_64_v3.BB37_8-.Lluossavin_x86_64_v3.JTI37_0
	.long	.Lluossavin_x86_64_v3.BB37_7-.Lluossavin_x86_64_v3.JTI37_0
	.long	.Lluossavin_x86_64_v3.BB37_8-.Lluossavin_x86_64_v3.JTI37_0
	.long	.Lluossavin_x86_64_v3.BB37_8-.Lluossavin_x86_64_v3.JTI37_0
	.long	.Lluossavin_x86_64_v3.BB37_9-.Lluossavin_x86_64_v3.JTI37_0
	.long	.Lluossavin_x86_64_v3.BB37_10-.Lluossavin_x86_64_v3.JTI37_0

	.section	.text.luossavin_opens_start_x86_64_v3,"ax",@progbits
	.globl	luossavin_opens_start_x86_64_v3
	.hidden	luossavin_opens_start_x86_64_v3
	.p2align	4
	.type	luossavin_opens_start_x86_64_v3,@function
luossavin_opens_start_x86_64_v3:
	pushq	%rbp
	pushq	%r15
	pushq	%r14
	pushq	%rbx
	subq	$248, %rsp
	movq	%rcx, %r9
	movq	%rsi, %rcx
	movq	%rdi, %rax
	xorl	%r11d, %r11d
	testq	%rsi, %rsi
	sete	%r14b
	xorl	%edi, %edi
	testq	%r9, %r9
	sete	%bl
	movl	416(%rsp), %ebp
	cmpl	$13, %ebp
	sete	%r10b
	incb	%r10b
	xorl	%esi, %esi
	testl	%ebp, %ebp
	movzbl	%r10b, %r10d
	cmovel	%ebp, %r10d
	movl	420(%rsp), %ebp
	cmovel	%ebp, %esi
	testb	%r10b, %r10b
	je	.Lluossavin_x86_64_v3.BB38_3
	movzbl	%r10b, %ecx
	vxorps	%xmm0, %xmm0, %xmm0
	cmpl	$2, %ecx
	jne	.Lluossavin_x86_64_v3.BB38_2
	vmovups	%ymm0, 48(%rsp)
	vmovups	%ymm0, 16(%rsp)
	movq	$0, 78(%rsp)
	movl	$0, 8(%rsp)
	movw	$0, 12(%rsp)
	xorl	%ecx, %ecx
	movl	$13, %edx
	jmp	.Lluossavin_x86_64_v3.BB38_10
.Lluossavin_x86_64_v3.BB38_3:
	movzbl	423(%rsp), %r15d
	cmpq	$16, %r8
	je	.Lluossavin_x86_64_v3.BB38_5
	cmpq	$12, %r8
	jne	.Lluossavin_x86_64_v3.BB38_8
.Lluossavin_x86_64_v3.BB38_5:
	cmpq	$16777216, %rdx
	jbe	.Lluossavin_x86_64_v3.BB38_6
	vxorps	%xmm0, %xmm0, %xmm0
	vmovups	%ymm0, 48(%rsp)
	vmovups	%ymm0, 16(%rsp)
	movq	$0, 78(%rsp)
	movl	$0, 8(%rsp)
	movw	$0, 12(%rsp)
	xorl	%ecx, %ecx
	movl	$5, %edx
	jmp	.Lluossavin_x86_64_v3.BB38_10
.Lluossavin_x86_64_v3.BB38_2:
	vmovups	%ymm0, 48(%rsp)
	vmovups	%ymm0, 16(%rsp)
	movq	$0, 78(%rsp)
	movl	$0, 8(%rsp)
	movw	$0, 12(%rsp)
	xorl	%ecx, %ecx
	movl	$1, %edx
	jmp	.Lluossavin_x86_64_v3.BB38_10
.Lluossavin_x86_64_v3.BB38_6:
	leaq	288(%rsp), %r10
	movb	%r14b, %r11b
	shll	$12, %r11d
	addq	%r11, %rcx
	movb	%bl, %dil
	shll	$12, %edi
	addq	%rdi, %r9
	decb	%r15b
	cmpb	$3, %r15b
	movzbl	%r15b, %edi
	movl	$1, %esi
	cmovbl	%edi, %esi
	movq	%r8, (%rsp)
	leaq	164(%rsp), %rdi
	movq	%rdx, %rbx
	movq	%r10, %rdx
	movq	%rbx, %r8
	movq	%rax, %r14
	callq	"pieces::tagging::begin.x86_64_v3"
	movq	%r14, %rax
	vmovups	184(%rsp), %ymm0
	vmovups	%ymm0, 96(%rsp)
	vmovups	200(%rsp), %ymm0
	vmovups	%ymm0, 112(%rsp)
	vmovups	232(%rsp), %xmm0
	vmovaps	%xmm0, 144(%rsp)
	vmovups	96(%rsp), %ymm0
	vmovups	%ymm0, 22(%rsp)
	vmovups	128(%rsp), %xmm0
	vmovups	%xmm0, 54(%rsp)
	vmovups	144(%rsp), %xmm0
	vmovups	%xmm0, 70(%rsp)
	movl	180(%rsp), %ecx
	movl	$0, 8(%rsp)
	movw	$0, 12(%rsp)
	xorl	%edx, %edx
	movl	%ebp, %esi
	jmp	.Lluossavin_x86_64_v3.BB38_11
.Lluossavin_x86_64_v3.BB38_8:
	vxorps	%xmm0, %xmm0, %xmm0
	vmovups	%ymm0, 48(%rsp)
	vmovups	%ymm0, 16(%rsp)
	movq	$0, 78(%rsp)
	movl	$0, 8(%rsp)
	movw	$0, 12(%rsp)
	xorl	%ecx, %ecx
	movl	$10, %edx
.Lluossavin_x86_64_v3.BB38_10:
	xorl	%ebx, %ebx
.Lluossavin_x86_64_v3.BB38_11:
	movl	%edx, (%rax)
	movw	$0, 4(%rax)
	movw	%si, 6(%rax)
	movq	$0, 8(%rax)
	vmovups	22(%rsp), %ymm0
	vmovups	54(%rsp), %xmm1
	movq	70(%rsp), %rdi
	movq	78(%rsp), %r8
	vmovups	%ymm0, 16(%rax)
	vmovups	%xmm1, 48(%rax)
	movq	%rdi, 64(%rax)
	movq	%r8, 72(%rax)
	movq	%rbx, 80(%rax)
	movq	$0, 88(%rax)
	movl	%ecx, 96(%rax)
	movl	%edx, 100(%rax)
	movw	%si, 104(%rax)
	movl	8(%rsp), %ecx
	movl	%ecx, 106(%rax)
	movzwl	12(%rsp), %ecx
	movw	%cx, 110(%rax)
	addq	$248, %rsp
	popq	%rbx
	popq	%r14
	popq	%r15
	popq	%rbp
	vzeroupper
	retq
.Lluossavin_x86_64_v3.func_end38:
	.size	luossavin_opens_start_x86_64_v3, .Lluossavin_x86_64_v3.func_end38-luossavin_opens_start_x86_64_v3

	.section	.text.luossavin_plan_accepts_x86_64_v3,"ax",@progbits
	.globl	luossavin_plan_accepts_x86_64_v3
	.hidden	luossavin_plan_accepts_x86_64_v3
	.p2align	4
	.type	luossavin_plan_accepts_x86_64_v3,@function
luossavin_plan_accepts_x86_64_v3:
	pushq	%rbx
	subq	$1040, %rsp
	movq	%rdi, %rbx
	leaq	8(%rsp), %rdi
	leaq	1056(%rsp), %rsi
	movl	$1032, %edx
	callq	memcpy@PLT
	movq	8(%rsp), %rcx
	cmpq	$64, %rcx
	jbe	.Lluossavin_x86_64_v3.BB39_2
	xorl	%eax, %eax
.Lluossavin_x86_64_v3.BB39_9:
	addq	$1040, %rsp
	popq	%rbx
	retq
.Lluossavin_x86_64_v3.BB39_2:
	xorl	%edx, %edx
	testq	%rcx, %rcx
	je	.Lluossavin_x86_64_v3.BB39_8
	xorl	%esi, %esi
	.p2align	4
.Lluossavin_x86_64_v3.BB39_4:
	movq	528(%rsp,%rsi,8), %rdi
	movq	%rbx, %r9
	subq	%rdx, %r9
	cmpq	%r9, %rdi
	sete	%r8b
	testb	$15, %dil
	sete	%r10b
	xorl	%eax, %eax
	cmpq	%rdx, 16(%rsp,%rsi,8)
	jne	.Lluossavin_x86_64_v3.BB39_9
	leaq	-1(%rdi), %r11
	cmpq	%r9, %r11
	jae	.Lluossavin_x86_64_v3.BB39_9
	orb	%r10b, %r8b
	je	.Lluossavin_x86_64_v3.BB39_9
	addq	%rdi, %rdx
	incq	%rsi
	cmpq	%rsi, %rcx
	jne	.Lluossavin_x86_64_v3.BB39_4
.Lluossavin_x86_64_v3.BB39_8:
	cmpq	%rbx, %rdx
	sete	%al
	addq	$1040, %rsp
	popq	%rbx
	retq
.Lluossavin_x86_64_v3.func_end39:
	.size	luossavin_plan_accepts_x86_64_v3, .Lluossavin_x86_64_v3.func_end39-luossavin_plan_accepts_x86_64_v3

	.section	.text.luossavin_record_x86_64_v3,"ax",@progbits
	.globl	luossavin_record_x86_64_v3
	.hidden	luossavin_record_x86_64_v3
	.p2align	4
	.type	luossavin_record_x86_64_v3,@function
luossavin_record_x86_64_v3:
	pushq	%rbp
	pushq	%r15
	pushq	%r14
	pushq	%r13
	pushq	%r12
	pushq	%rbx
	subq	$72, %rsp
	movq	%rcx, 8(%rsp)
	testq	%rcx, %rcx
	sete	%r12b
	testq	%r9, %r9
	sete	%bpl
	cmpq	$0, 136(%rsp)
	sete	%bl
	cmpq	$0, 168(%rsp)
	sete	%al
	cmpq	$0, 184(%rsp)
	sete	24(%rsp)
	cmpl	$255, %esi
	movl	$255, %ecx
	cmovael	%ecx, %esi
	movq	%r8, %r11
	movq	152(%rsp), %r8
	movl	$4294967295, %r10d
	cmpq	%r10, %r8
	cmovbq	%r8, %r10
	movq	%r10, 64(%rsp)
	movl	160(%rsp), %r8d
	cmpl	$255, %r8d
	cmovbl	%r8d, %ecx
	movl	%ecx, 20(%rsp)
	cmpq	$16385, %r11
	setae	%r8b
	movq	128(%rsp), %rcx
	cmpq	$16385, %rcx
	setae	%r13b
	orb	%r8b, %r13b
	movq	144(%rsp), %r10
	cmpq	$16385, %r10
	setae	%r8b
	movq	176(%rsp), %r14
	cmpq	$16401, %r14
	setae	%r15b
	orb	%r8b, %r15b
	orb	%r13b, %r15b
	jne	.Lluossavin_x86_64_v3.BB40_3
	addq	%r11, %rcx
	leaq	(%rcx,%r10), %r8
	addq	%r14, %r8
	addq	$27, %r8
	cmpq	%r8, 192(%rsp)
	jae	.Lluossavin_x86_64_v3.BB40_6
	movl	$6, %eax
	jmp	.Lluossavin_x86_64_v3.BB40_4
.Lluossavin_x86_64_v3.BB40_3:
	movl	$24, %eax
.Lluossavin_x86_64_v3.BB40_4:
	xorl	%edx, %edx
.Lluossavin_x86_64_v3.BB40_5:
	addq	$72, %rsp
	popq	%rbx
	popq	%r12
	popq	%r13
	popq	%r14
	popq	%r15
	popq	%rbp
	vzeroupper
	retq
.Lluossavin_x86_64_v3.BB40_6:
	movq	%rcx, 56(%rsp)
	xorl	%r10d, %r10d
	movb	%r12b, %r10b
	shll	$12, %r10d
	xorl	%ecx, %ecx
	movb	%bpl, %cl
	xorl	%ebp, %ebp
	movb	%bl, %bpl
	movl	%esi, %ebx
	movq	8(%rsp), %rsi
	addq	%r10, %rsi
	shll	$12, %ecx
	xorl	%r12d, %r12d
	movb	%al, %r12b
	xorl	%r14d, %r14d
	movzbl	24(%rsp), %eax
	movb	%al, %r14b
	shll	$12, %r14d
	movq	184(%rsp), %r15
	leaq	(%r15,%r14), %rax
	andb	$1, %dil
	movw	$21076, (%rax)
	movb	%dil, 2(%rax)
	movq	%rcx, 40(%rsp)
	leaq	(%r9,%rcx), %r13
	shll	$12, %ebp
	movb	%bl, 3(%rax)
	movb	%dh, 4(%rax)
	movb	%dl, 5(%rax)
	movbel	%r11d, 6(%rax)
	shll	$12, %r12d
	movq	%r12, 32(%rsp)
	movq	%rax, 24(%rsp)
	leaq	10(%rax), %rdi
	movq	%rdi, %rdx
	subq	%rsi, %rdx
	cmpq	%r11, %rdx
	movq	%r11, %r15
	movq	%r8, 48(%rsp)
	jae	.Lluossavin_x86_64_v3.BB40_16
	cmpq	$8, %r11
	jb	.Lluossavin_x86_64_v3.BB40_9
	movq	24(%rsp), %rdx
	subq	%rsi, %rdx
	addq	$10, %rdx
	cmpq	$128, %rdx
	jae	.Lluossavin_x86_64_v3.BB40_23
.Lluossavin_x86_64_v3.BB40_9:
	movq	%r10, %rcx
	movq	%r9, %rbx
	xorl	%edx, %edx
.Lluossavin_x86_64_v3.BB40_10:
	movq	%r11, %r9
	movq	%rdx, %r8
	andq	$7, %r9
	je	.Lluossavin_x86_64_v3.BB40_13
	movq	%rdx, %r8
	.p2align	4
.Lluossavin_x86_64_v3.BB40_12:
	movzbl	(%rsi,%r8), %r10d
	movb	%r10b, (%rdi,%r8)
	incq	%r8
	decq	%r9
	jne	.Lluossavin_x86_64_v3.BB40_12
.Lluossavin_x86_64_v3.BB40_13:
	subq	%r11, %rdx
	cmpq	$-8, %rdx
	ja	.Lluossavin_x86_64_v3.BB40_17
	movq	8(%rsp), %rax
	addq	%rcx, %rax
	addq	$7, %rax
	movq	184(%rsp), %rcx
	addq	%r14, %rcx
	addq	$17, %rcx
	.p2align	4
.Lluossavin_x86_64_v3.BB40_15:
	movzbl	-7(%rax,%r8), %edx
	movb	%dl, -7(%rcx,%r8)
	movzbl	-6(%rax,%r8), %edx
	movb	%dl, -6(%rcx,%r8)
	movzbl	-5(%rax,%r8), %edx
	movb	%dl, -5(%rcx,%r8)
	movzbl	-4(%rax,%r8), %edx
	movb	%dl, -4(%rcx,%r8)
	movzbl	-3(%rax,%r8), %edx
	movb	%dl, -3(%rcx,%r8)
	movzbl	-2(%rax,%r8), %edx
	movb	%dl, -2(%rcx,%r8)
	movzbl	-1(%rax,%r8), %edx
	movb	%dl, -1(%rcx,%r8)
	movzbl	(%rax,%r8), %edx
	movb	%dl, (%rcx,%r8)
	addq	$8, %r8
	cmpq	%r8, %r11
	jne	.Lluossavin_x86_64_v3.BB40_15
	jmp	.Lluossavin_x86_64_v3.BB40_17
.Lluossavin_x86_64_v3.BB40_16:
	movq	%r9, %rbx
	movq	%r11, %rdx
	callq	memmove@PLT
	movq	%r15, %r11
.Lluossavin_x86_64_v3.BB40_17:
	movq	128(%rsp), %r9
	movq	24(%rsp), %rcx
	movbel	%r9d, 10(%rcx,%r11)
	movq	136(%rsp), %rax
	movq	%rbp, 8(%rsp)
	addq	%rax, %rbp
	leaq	(%rcx,%r11), %r12
	addq	$14, %r12
	movq	%r12, %rax
	subq	%r13, %rax
	cmpq	%r9, %rax
	jae	.Lluossavin_x86_64_v3.BB40_20
	cmpq	$8, %r9
	jb	.Lluossavin_x86_64_v3.BB40_19
	leaq	(%r14,%r11), %rdx
	movq	184(%rsp), %rax
	addq	%rdx, %rax
	subq	%r13, %rax
	addq	$14, %rax
	cmpq	$128, %rax
	jae	.Lluossavin_x86_64_v3.BB40_25
.Lluossavin_x86_64_v3.BB40_19:
	xorl	%eax, %eax
.Lluossavin_x86_64_v3.BB40_41:
	movq	%r9, %rdx
	movq	%rax, %rcx
	andq	$7, %rdx
	je	.Lluossavin_x86_64_v3.BB40_44
	movq	%rax, %rcx
	.p2align	4
.Lluossavin_x86_64_v3.BB40_43:
	movzbl	(%r13,%rcx), %esi
	movb	%sil, (%r12,%rcx)
	incq	%rcx
	decq	%rdx
	jne	.Lluossavin_x86_64_v3.BB40_43
.Lluossavin_x86_64_v3.BB40_44:
	subq	%r9, %rax
	cmpq	$-8, %rax
	ja	.Lluossavin_x86_64_v3.BB40_47
	movq	40(%rsp), %rax
	addq	%rbx, %rax
	addq	$7, %rax
	leaq	(%r14,%r11), %rdx
	movq	184(%rsp), %rsi
	addq	%rsi, %rdx
	addq	$21, %rdx
	.p2align	4
.Lluossavin_x86_64_v3.BB40_46:
	movzbl	-7(%rax,%rcx), %esi
	movb	%sil, -7(%rdx,%rcx)
	movzbl	-6(%rax,%rcx), %esi
	movb	%sil, -6(%rdx,%rcx)
	movzbl	-5(%rax,%rcx), %esi
	movb	%sil, -5(%rdx,%rcx)
	movzbl	-4(%rax,%rcx), %esi
	movb	%sil, -4(%rdx,%rcx)
	movzbl	-3(%rax,%rcx), %esi
	movb	%sil, -3(%rdx,%rcx)
	movzbl	-2(%rax,%rcx), %esi
	movb	%sil, -2(%rdx,%rcx)
	movzbl	-1(%rax,%rcx), %esi
	movb	%sil, -1(%rdx,%rcx)
	movzbl	(%rax,%rcx), %esi
	movb	%sil, (%rdx,%rcx)
	addq	$8, %rcx
	cmpq	%rcx, %r9
	jne	.Lluossavin_x86_64_v3.BB40_46
	jmp	.Lluossavin_x86_64_v3.BB40_47
.Lluossavin_x86_64_v3.BB40_20:
	movq	%r12, %rdi
	movq	%r13, %rsi
	movq	%r9, %rdx
	vzeroupper
	callq	memmove@PLT
	movq	128(%rsp), %r9
	movq	%r15, %r11
.Lluossavin_x86_64_v3.BB40_47:
	movq	168(%rsp), %rax
	movq	32(%rsp), %rcx
	leaq	(%rax,%rcx), %r13
	movq	144(%rsp), %rax
	movbel	%eax, (%r12,%r9)
	movq	56(%rsp), %rcx
	leaq	18(%rax,%rcx), %rbx
	leaq	(%r12,%r9), %rdi
	addq	$4, %rdi
	movq	%rax, %r12
	movq	%rdi, %rax
	subq	%rbp, %rax
	cmpq	%r12, %rax
	jae	.Lluossavin_x86_64_v3.BB40_50
	cmpq	$8, %r12
	movq	176(%rsp), %r10
	jae	.Lluossavin_x86_64_v3.BB40_51
	xorl	%eax, %eax
	movl	20(%rsp), %r15d
	jmp	.Lluossavin_x86_64_v3.BB40_62
.Lluossavin_x86_64_v3.BB40_50:
	movq	%rbp, %rsi
	movq	%r12, %rdx
	vzeroupper
	callq	memmove@PLT
	movq	128(%rsp), %r9
	movq	%r15, %r11
	movq	176(%rsp), %r10
	movl	20(%rsp), %r15d
	jmp	.Lluossavin_x86_64_v3.BB40_68
.Lluossavin_x86_64_v3.BB40_51:
	leaq	(%r14,%r9), %rdx
	addq	%r11, %rdx
	movq	184(%rsp), %rax
	addq	%rdx, %rax
	subq	%rbp, %rax
	addq	$18, %rax
	cmpq	$128, %rax
	movl	20(%rsp), %r15d
	jae	.Lluossavin_x86_64_v3.BB40_53
	xorl	%eax, %eax
	jmp	.Lluossavin_x86_64_v3.BB40_62
.Lluossavin_x86_64_v3.BB40_23:
	cmpq	$128, %r11
	jae	.Lluossavin_x86_64_v3.BB40_27
	movq	%r10, %rcx
	movq	%r9, %rbx
	xorl	%edx, %edx
	jmp	.Lluossavin_x86_64_v3.BB40_31
.Lluossavin_x86_64_v3.BB40_25:
	cmpq	$128, %r9
	jae	.Lluossavin_x86_64_v3.BB40_34
	xorl	%eax, %eax
	jmp	.Lluossavin_x86_64_v3.BB40_38
.Lluossavin_x86_64_v3.BB40_53:
	cmpq	$128, %r12
	jae	.Lluossavin_x86_64_v3.BB40_55
	xorl	%eax, %eax
	jmp	.Lluossavin_x86_64_v3.BB40_59
.Lluossavin_x86_64_v3.BB40_27:
	movq	%r9, %rbx
	movl	%r11d, %edx
	andl	$32640, %edx
	movq	8(%rsp), %rax
	movq	%r10, %rcx
	leaq	(%r10,%rax), %r9
	addq	$96, %r9
	movq	184(%rsp), %rax
	leaq	(%r14,%rax), %r10
	addq	$106, %r10
	xorl	%r11d, %r11d
	.p2align	4
.Lluossavin_x86_64_v3.BB40_28:
	vmovups	-96(%r9,%r11), %ymm0
	vmovups	-64(%r9,%r11), %ymm1
	vmovups	-32(%r9,%r11), %ymm2
	vmovups	(%r9,%r11), %ymm3
	vmovups	%ymm0, -96(%r10,%r11)
	vmovups	%ymm1, -64(%r10,%r11)
	vmovups	%ymm2, -32(%r10,%r11)
	vmovups	%ymm3, (%r10,%r11)
	subq	$-128, %r11
	cmpq	%r11, %rdx
	jne	.Lluossavin_x86_64_v3.BB40_28
	movq	%r15, %r11
	cmpq	%rdx, %r15
	je	.Lluossavin_x86_64_v3.BB40_17
	testb	$120, %r11b
	je	.Lluossavin_x86_64_v3.BB40_10
.Lluossavin_x86_64_v3.BB40_31:
	movq	%rdx, %r8
	movl	%r11d, %edx
	andl	$32760, %edx
	.p2align	4
.Lluossavin_x86_64_v3.BB40_32:
	movq	(%rsi,%r8), %r9
	movq	%r9, (%rdi,%r8)
	addq	$8, %r8
	cmpq	%r8, %rdx
	jne	.Lluossavin_x86_64_v3.BB40_32
	cmpq	%rdx, %r11
	jne	.Lluossavin_x86_64_v3.BB40_10
	jmp	.Lluossavin_x86_64_v3.BB40_17
.Lluossavin_x86_64_v3.BB40_34:
	movl	%r9d, %eax
	andl	$32640, %eax
	movq	40(%rsp), %rcx
	addq	%rbx, %rcx
	addq	$96, %rcx
	movq	184(%rsp), %rsi
	addq	%rsi, %rdx
	addq	$110, %rdx
	xorl	%esi, %esi
	.p2align	4
.Lluossavin_x86_64_v3.BB40_35:
	vmovups	-96(%rcx,%rsi), %ymm0
	vmovups	-64(%rcx,%rsi), %ymm1
	vmovups	-32(%rcx,%rsi), %ymm2
	vmovups	(%rcx,%rsi), %ymm3
	vmovups	%ymm0, -96(%rdx,%rsi)
	vmovups	%ymm1, -64(%rdx,%rsi)
	vmovups	%ymm2, -32(%rdx,%rsi)
	vmovups	%ymm3, (%rdx,%rsi)
	subq	$-128, %rsi
	cmpq	%rsi, %rax
	jne	.Lluossavin_x86_64_v3.BB40_35
	cmpq	%rax, %r9
	je	.Lluossavin_x86_64_v3.BB40_47
	testb	$120, %r9b
	je	.Lluossavin_x86_64_v3.BB40_41
.Lluossavin_x86_64_v3.BB40_38:
	movq	%rax, %rcx
	movl	%r9d, %eax
	andl	$32760, %eax
	.p2align	4
.Lluossavin_x86_64_v3.BB40_39:
	movq	(%r13,%rcx), %rdx
	movq	%rdx, (%r12,%rcx)
	addq	$8, %rcx
	cmpq	%rcx, %rax
	jne	.Lluossavin_x86_64_v3.BB40_39
	cmpq	%rax, %r9
	je	.Lluossavin_x86_64_v3.BB40_47
	jmp	.Lluossavin_x86_64_v3.BB40_41
.Lluossavin_x86_64_v3.BB40_55:
	movl	%r12d, %eax
	andl	$32640, %eax
	movq	136(%rsp), %rcx
	movq	8(%rsp), %rsi
	addq	%rsi, %rcx
	addq	$96, %rcx
	movq	184(%rsp), %rsi
	addq	%rsi, %rdx
	addq	$114, %rdx
	xorl	%esi, %esi
	.p2align	4
.Lluossavin_x86_64_v3.BB40_56:
	vmovups	-96(%rcx,%rsi), %ymm0
	vmovups	-64(%rcx,%rsi), %ymm1
	vmovups	-32(%rcx,%rsi), %ymm2
	vmovups	(%rcx,%rsi), %ymm3
	vmovups	%ymm0, -96(%rdx,%rsi)
	vmovups	%ymm1, -64(%rdx,%rsi)
	vmovups	%ymm2, -32(%rdx,%rsi)
	vmovups	%ymm3, (%rdx,%rsi)
	subq	$-128, %rsi
	cmpq	%rsi, %rax
	jne	.Lluossavin_x86_64_v3.BB40_56
	cmpq	%rax, %r12
	je	.Lluossavin_x86_64_v3.BB40_68
	testb	$120, %r12b
	je	.Lluossavin_x86_64_v3.BB40_62
.Lluossavin_x86_64_v3.BB40_59:
	movq	%rax, %rsi
	movl	%r12d, %eax
	andl	$32760, %eax
	movq	%rax, %rcx
	subq	%rsi, %rcx
	movq	8(%rsp), %rdx
	addq	%rsi, %rdx
	addq	136(%rsp), %rdx
	addq	%r14, %rsi
	addq	%r9, %rsi
	addq	%r11, %rsi
	movq	184(%rsp), %rdi
	addq	%rdi, %rsi
	addq	$18, %rsi
	xorl	%edi, %edi
	.p2align	4
.Lluossavin_x86_64_v3.BB40_60:
	movq	(%rdx,%rdi), %r8
	movq	%r8, (%rsi,%rdi)
	addq	$8, %rdi
	cmpq	%rdi, %rcx
	jne	.Lluossavin_x86_64_v3.BB40_60
	cmpq	%rax, %r12
	je	.Lluossavin_x86_64_v3.BB40_68
.Lluossavin_x86_64_v3.BB40_62:
	movq	%r12, %rdx
	movq	%rax, %rcx
	andq	$7, %rdx
	je	.Lluossavin_x86_64_v3.BB40_65
	leaq	(%r14,%rax), %rcx
	addq	%r9, %rcx
	addq	%r11, %rcx
	movq	184(%rsp), %rsi
	addq	%rcx, %rsi
	addq	$18, %rsi
	xorl	%edi, %edi
	movq	%rax, %rcx
	.p2align	4
.Lluossavin_x86_64_v3.BB40_64:
	movzbl	(%rbp,%rcx), %r8d
	movb	%r8b, (%rsi,%rdi)
	incq	%rcx
	incq	%rdi
	cmpq	%rdi, %rdx
	jne	.Lluossavin_x86_64_v3.BB40_64
.Lluossavin_x86_64_v3.BB40_65:
	subq	%r12, %rax
	cmpq	$-8, %rax
	ja	.Lluossavin_x86_64_v3.BB40_68
	movq	%r12, %rax
	subq	%rcx, %rax
	movq	8(%rsp), %rsi
	addq	%rcx, %rsi
	movq	136(%rsp), %rdx
	addq	%rsi, %rdx
	addq	$7, %rdx
	addq	%r14, %rcx
	addq	%r9, %rcx
	addq	%r11, %rcx
	movq	184(%rsp), %rsi
	addq	%rsi, %rcx
	addq	$25, %rcx
	xorl	%esi, %esi
	.p2align	4
.Lluossavin_x86_64_v3.BB40_67:
	movzbl	-7(%rdx,%rsi), %edi
	movb	%dil, -7(%rcx,%rsi)
	movzbl	-6(%rdx,%rsi), %edi
	movb	%dil, -6(%rcx,%rsi)
	movzbl	-5(%rdx,%rsi), %edi
	movb	%dil, -5(%rcx,%rsi)
	movzbl	-4(%rdx,%rsi), %edi
	movb	%dil, -4(%rcx,%rsi)
	movzbl	-3(%rdx,%rsi), %edi
	movb	%dil, -3(%rcx,%rsi)
	movzbl	-2(%rdx,%rsi), %edi
	movb	%dil, -2(%rcx,%rsi)
	movzbl	-1(%rdx,%rsi), %edi
	movb	%dil, -1(%rcx,%rsi)
	movzbl	(%rdx,%rsi), %edi
	movb	%dil, (%rcx,%rsi)
	addq	$8, %rsi
	cmpq	%rsi, %rax
	jne	.Lluossavin_x86_64_v3.BB40_67
.Lluossavin_x86_64_v3.BB40_68:
	movq	64(%rsp), %rdx
	movl	%edx, %eax
	shrl	$24, %eax
	movl	%edx, %ecx
	shrl	$16, %ecx
	movq	24(%rsp), %rsi
	movb	%al, (%rsi,%rbx)
	movb	%cl, 1(%rsi,%rbx)
	movb	%dh, 2(%rsi,%rbx)
	movb	%dl, 3(%rsi,%rbx)
	movb	%r15b, 4(%rsi,%rbx)
	movbel	%r10d, 5(%rsi,%rbx)
	leaq	(%rsi,%rbx), %rdi
	addq	$9, %rdi
	movq	%rdi, %rax
	subq	%r13, %rax
	cmpq	%r10, %rax
	jae	.Lluossavin_x86_64_v3.BB40_71
	cmpq	$8, %r10
	movq	48(%rsp), %rdx
	jb	.Lluossavin_x86_64_v3.BB40_70
	leaq	(%r14,%r12), %rcx
	addq	%r9, %rcx
	addq	%r11, %rcx
	movq	184(%rsp), %rax
	addq	%rcx, %rax
	subq	%r13, %rax
	addq	$27, %rax
	cmpq	$128, %rax
	jae	.Lluossavin_x86_64_v3.BB40_74
.Lluossavin_x86_64_v3.BB40_70:
	xorl	%eax, %eax
.Lluossavin_x86_64_v3.BB40_83:
	movq	%r10, %rcx
	movq	%rax, %rsi
	andq	$7, %rcx
	je	.Lluossavin_x86_64_v3.BB40_86
	leaq	(%r14,%rax), %rsi
	addq	%r12, %rsi
	addq	128(%rsp), %rsi
	addq	%r11, %rsi
	movq	184(%rsp), %rdi
	addq	%rsi, %rdi
	addq	$27, %rdi
	xorl	%r8d, %r8d
	movq	%rax, %rsi
	.p2align	4
.Lluossavin_x86_64_v3.BB40_85:
	movzbl	(%r13,%rsi), %r9d
	movb	%r9b, (%rdi,%r8)
	incq	%rsi
	incq	%r8
	cmpq	%r8, %rcx
	jne	.Lluossavin_x86_64_v3.BB40_85
.Lluossavin_x86_64_v3.BB40_86:
	subq	%r10, %rax
	cmpq	$-8, %rax
	ja	.Lluossavin_x86_64_v3.BB40_89
	subq	%rsi, %r10
	movq	32(%rsp), %r15
	addq	%rsi, %r15
	movq	168(%rsp), %rax
	addq	%r15, %rax
	addq	$7, %rax
	addq	%rsi, %r14
	addq	%r12, %r14
	addq	128(%rsp), %r14
	addq	%r11, %r14
	movq	184(%rsp), %rcx
	addq	%r14, %rcx
	addq	$34, %rcx
	xorl	%esi, %esi
	.p2align	4
.Lluossavin_x86_64_v3.BB40_88:
	movzbl	-7(%rax,%rsi), %edi
	movb	%dil, -7(%rcx,%rsi)
	movzbl	-6(%rax,%rsi), %edi
	movb	%dil, -6(%rcx,%rsi)
	movzbl	-5(%rax,%rsi), %edi
	movb	%dil, -5(%rcx,%rsi)
	movzbl	-4(%rax,%rsi), %edi
	movb	%dil, -4(%rcx,%rsi)
	movzbl	-3(%rax,%rsi), %edi
	movb	%dil, -3(%rcx,%rsi)
	movzbl	-2(%rax,%rsi), %edi
	movb	%dil, -2(%rcx,%rsi)
	movzbl	-1(%rax,%rsi), %edi
	movb	%dil, -1(%rcx,%rsi)
	movzbl	(%rax,%rsi), %edi
	movb	%dil, (%rcx,%rsi)
	addq	$8, %rsi
	cmpq	%rsi, %r10
	jne	.Lluossavin_x86_64_v3.BB40_88
.Lluossavin_x86_64_v3.BB40_89:
	xorl	%eax, %eax
	jmp	.Lluossavin_x86_64_v3.BB40_5
.Lluossavin_x86_64_v3.BB40_71:
	movq	%r13, %rsi
	movq	%r10, %rdx
	vzeroupper
	callq	memmove@PLT
	xorl	%eax, %eax
	movq	48(%rsp), %rdx
	jmp	.Lluossavin_x86_64_v3.BB40_5
.Lluossavin_x86_64_v3.BB40_74:
	cmpq	$128, %r10
	jae	.Lluossavin_x86_64_v3.BB40_76
	xorl	%eax, %eax
	jmp	.Lluossavin_x86_64_v3.BB40_80
.Lluossavin_x86_64_v3.BB40_76:
	movl	%r10d, %eax
	andl	$32640, %eax
	movq	168(%rsp), %rsi
	movq	32(%rsp), %rdi
	addq	%rdi, %rsi
	addq	$96, %rsi
	movq	184(%rsp), %rdi
	addq	%rdi, %rcx
	addq	$123, %rcx
	xorl	%edi, %edi
	.p2align	4
.Lluossavin_x86_64_v3.BB40_77:
	vmovups	-96(%rsi,%rdi), %ymm0
	vmovups	-64(%rsi,%rdi), %ymm1
	vmovups	-32(%rsi,%rdi), %ymm2
	vmovups	(%rsi,%rdi), %ymm3
	vmovups	%ymm0, -96(%rcx,%rdi)
	vmovups	%ymm1, -64(%rcx,%rdi)
	vmovups	%ymm2, -32(%rcx,%rdi)
	vmovups	%ymm3, (%rcx,%rdi)
	subq	$-128, %rdi
	cmpq	%rdi, %rax
	jne	.Lluossavin_x86_64_v3.BB40_77
	cmpq	%rax, %r10
	je	.Lluossavin_x86_64_v3.BB40_89
	testb	$120, %r10b
	je	.Lluossavin_x86_64_v3.BB40_83
.Lluossavin_x86_64_v3.BB40_80:
	movq	%rax, %rdi
	movl	%r10d, %eax
	andl	$32760, %eax
	movq	%rax, %rcx
	subq	%rdi, %rcx
	movq	32(%rsp), %rsi
	addq	%rdi, %rsi
	addq	168(%rsp), %rsi
	addq	%r14, %rdi
	addq	%r12, %rdi
	addq	%r9, %rdi
	addq	%r11, %rdi
	movq	184(%rsp), %r8
	addq	%r8, %rdi
	addq	$27, %rdi
	xorl	%r8d, %r8d
	.p2align	4
.Lluossavin_x86_64_v3.BB40_81:
	movq	(%rsi,%r8), %r9
	movq	%r9, (%rdi,%r8)
	addq	$8, %r8
	cmpq	%r8, %rcx
	jne	.Lluossavin_x86_64_v3.BB40_81
	cmpq	%rax, %r10
	je	.Lluossavin_x86_64_v3.BB40_89
	jmp	.Lluossavin_x86_64_v3.BB40_83
.Lluossavin_x86_64_v3.func_end40:
	.size	luossavin_record_x86_64_v3, .Lluossavin_x86_64_v3.func_end40-luossavin_record_x86_64_v3

	.section	.text.luossavin_replay_x86_64_v3,"ax",@progbits
	.globl	luossavin_replay_x86_64_v3
	.hidden	luossavin_replay_x86_64_v3
	.p2align	4
	.type	luossavin_replay_x86_64_v3,@function
luossavin_replay_x86_64_v3:
	pushq	%rbp
	pushq	%r15
	pushq	%r14
	pushq	%r13
	pushq	%r12
	pushq	%rbx
	subq	$3072, %rsp
	movq	$0, (%rsp)
	subq	$3072, %rsp
	movq	$0, (%rsp)
	subq	$3072, %rsp
	movq	$0, (%rsp)
	subq	$3072, %rsp
	movq	$0, (%rsp)
	subq	$3072, %rsp
	movq	$0, (%rsp)
	subq	$2824, %rsp
	movl	19192(%rsp), %eax
	cmpl	$13, %eax
	sete	%cl
	incb	%cl
	testl	%eax, %eax
	movzbl	%cl, %r13d
	cmovel	%eax, %r13d
	movl	19056(%rsp), %eax
	cmpl	$13, %eax
	sete	%cl
	incb	%cl
	testl	%eax, %eax
	movzbl	%cl, %ecx
	cmovel	%eax, %ecx
	movl	%ecx, %r8d
	movl	%ecx, 208(%rsp)
	movl	18920(%rsp), %eax
	cmpl	$13, %eax
	sete	%cl
	incb	%cl
	testl	%eax, %eax
	movzbl	%cl, %ecx
	cmovel	%eax, %ecx
	movl	%ecx, %r9d
	movl	%ecx, 200(%rsp)
	movl	18784(%rsp), %eax
	cmpl	$13, %eax
	sete	%cl
	incb	%cl
	testl	%eax, %eax
	movzbl	%cl, %ecx
	cmovel	%eax, %ecx
	movl	%ecx, %ebp
	movl	%ecx, 96(%rsp)
	movl	18648(%rsp), %eax
	cmpl	$13, %eax
	sete	%cl
	incb	%cl
	testl	%eax, %eax
	movzbl	%cl, %ecx
	cmovel	%eax, %ecx
	movl	%ecx, %r10d
	movl	%ecx, 120(%rsp)
	movl	18512(%rsp), %eax
	cmpl	$13, %eax
	sete	%cl
	incb	%cl
	testl	%eax, %eax
	movzbl	%cl, %ecx
	cmovel	%eax, %ecx
	movl	%ecx, %ebx
	movl	%ecx, 48(%rsp)
	movl	18376(%rsp), %ecx
	cmpl	$13, %ecx
	sete	%al
	incb	%al
	testl	%ecx, %ecx
	movzbl	%al, %eax
	movl	%ecx, 80(%rsp)
	cmovel	%ecx, %eax
	movl	%eax, %r14d
	movl	%eax, 56(%rsp)
	movl	19328(%rsp), %eax
	cmpl	$13, %eax
	sete	%cl
	incb	%cl
	testl	%eax, %eax
	movzbl	%cl, %ecx
	cmovel	%eax, %ecx
	movl	%ecx, 176(%rsp)
	vmovups	18248(%rsp), %ymm0
	vmovups	18280(%rsp), %ymm1
	vmovups	18312(%rsp), %ymm2
	vmovups	18344(%rsp), %ymm3
	vmovups	%ymm3, 1888(%rsp)
	vmovups	%ymm2, 1856(%rsp)
	vmovups	%ymm1, 1824(%rsp)
	vmovups	%ymm0, 1792(%rsp)
	vmovups	18384(%rsp), %ymm0
	vmovups	%ymm0, 1928(%rsp)
	vmovups	18416(%rsp), %ymm0
	vmovups	%ymm0, 1960(%rsp)
	vmovups	18448(%rsp), %ymm0
	vmovups	%ymm0, 1992(%rsp)
	vmovups	18480(%rsp), %ymm0
	vmovups	%ymm0, 2024(%rsp)
	vmovups	18520(%rsp), %ymm0
	vmovups	%ymm0, 2064(%rsp)
	vmovups	18552(%rsp), %ymm0
	vmovups	%ymm0, 2096(%rsp)
	vmovups	18584(%rsp), %ymm0
	vmovups	%ymm0, 2128(%rsp)
	vmovups	18616(%rsp), %ymm0
	vmovups	%ymm0, 2160(%rsp)
	vmovups	18656(%rsp), %ymm0
	vmovups	18688(%rsp), %ymm1
	vmovups	18720(%rsp), %ymm2
	vmovups	18752(%rsp), %ymm3
	vmovups	%ymm3, 2296(%rsp)
	vmovups	%ymm2, 2264(%rsp)
	vmovups	%ymm1, 2232(%rsp)
	vmovups	%ymm0, 2200(%rsp)
	vmovups	18792(%rsp), %ymm0
	vmovups	%ymm0, 2336(%rsp)
	vmovups	18824(%rsp), %ymm0
	vmovups	%ymm0, 2368(%rsp)
	vmovups	18856(%rsp), %ymm0
	vmovups	%ymm0, 2400(%rsp)
	vmovups	18888(%rsp), %ymm0
	vmovups	%ymm0, 2432(%rsp)
	movq	%rdx, 344(%rsp)
	movq	%rsi, 256(%rsp)
	movq	%rdi, %r11
	vmovups	18928(%rsp), %ymm0
	vmovups	%ymm0, 2472(%rsp)
	movq	18240(%rsp), %rcx
	vmovups	18960(%rsp), %ymm0
	vmovups	%ymm0, 2504(%rsp)
	movzwl	18380(%rsp), %eax
	movl	%eax, 152(%rsp)
	vmovups	18992(%rsp), %ymm0
	vmovups	%ymm0, 2536(%rsp)
	movzbl	18382(%rsp), %edx
	movb	%dl, 160(%rsp)
	vmovups	19024(%rsp), %ymm0
	vmovups	%ymm0, 2568(%rsp)
	vmovups	19064(%rsp), %ymm0
	vmovups	19096(%rsp), %ymm1
	vmovups	19128(%rsp), %ymm2
	vmovups	19160(%rsp), %ymm3
	vmovups	%ymm3, 2704(%rsp)
	vmovups	%ymm2, 2672(%rsp)
	vmovups	%ymm1, 2640(%rsp)
	vmovups	%ymm0, 2608(%rsp)
	testb	%dl, %dl
	setne	548(%rsp)
	movzbl	18383(%rsp), %edx
	movb	%dl, 168(%rsp)
	movq	%rcx, 408(%rsp)
	vmovups	18248(%rsp), %ymm0
	vmovups	18280(%rsp), %ymm1
	vmovups	18312(%rsp), %ymm2
	vmovups	18344(%rsp), %ymm3
	vmovups	%ymm0, 416(%rsp)
	vmovups	%ymm1, 448(%rsp)
	vmovups	%ymm2, 480(%rsp)
	vmovups	%ymm3, 512(%rsp)
	movb	%r14b, 544(%rsp)
	movb	$0, 545(%rsp)
	movw	%ax, 546(%rsp)
	movb	%dl, 549(%rsp)
	movw	$0, 550(%rsp)
	vmovups	18384(%rsp), %ymm0
	vmovups	18416(%rsp), %ymm1
	vmovups	18448(%rsp), %ymm2
	vmovups	%ymm0, 552(%rsp)
	vmovups	%ymm1, 584(%rsp)
	vmovups	%ymm2, 616(%rsp)
	vmovups	18480(%rsp), %ymm0
	vmovups	%ymm0, 648(%rsp)
	movzbl	18518(%rsp), %eax
	movb	%al, 128(%rsp)
	testb	%al, %al
	setne	684(%rsp)
	movb	%bl, 680(%rsp)
	movb	$0, 681(%rsp)
	movzwl	18516(%rsp), %eax
	movw	%ax, 144(%rsp)
	movw	%ax, 682(%rsp)
	movzbl	18519(%rsp), %eax
	movb	%al, 136(%rsp)
	movb	%al, 685(%rsp)
	movw	$0, 686(%rsp)
	vmovups	18552(%rsp), %ymm0
	vmovups	18584(%rsp), %ymm1
	vmovups	18616(%rsp), %ymm2
	vmovups	%ymm2, 784(%rsp)
	vmovups	%ymm1, 752(%rsp)
	vmovups	%ymm0, 720(%rsp)
	vmovups	18520(%rsp), %ymm0
	vmovups	%ymm0, 688(%rsp)
	movzbl	18654(%rsp), %ebx
	testb	%bl, %bl
	setne	820(%rsp)
	movb	%r10b, 816(%rsp)
	movb	$0, 817(%rsp)
	movzwl	18652(%rsp), %eax
	movw	%ax, 112(%rsp)
	movw	%ax, 818(%rsp)
	movzbl	18655(%rsp), %eax
	movb	%al, 104(%rsp)
	movb	%al, 821(%rsp)
	movw	$0, 822(%rsp)
	vmovups	18688(%rsp), %ymm0
	vmovups	18720(%rsp), %ymm1
	vmovups	18752(%rsp), %ymm2
	vmovups	%ymm2, 920(%rsp)
	vmovups	%ymm1, 888(%rsp)
	vmovups	%ymm0, 856(%rsp)
	vmovups	18656(%rsp), %ymm0
	vmovups	%ymm0, 824(%rsp)
	movzbl	18790(%rsp), %r10d
	testb	%r10b, %r10b
	setne	956(%rsp)
	movb	%bpl, 952(%rsp)
	movb	$0, 953(%rsp)
	movzwl	18788(%rsp), %eax
	movw	%ax, 88(%rsp)
	movw	%ax, 954(%rsp)
	movzbl	18791(%rsp), %eax
	movb	%al, 64(%rsp)
	movb	%al, 957(%rsp)
	movw	$0, 958(%rsp)
	vmovups	18824(%rsp), %ymm0
	vmovups	18856(%rsp), %ymm1
	vmovups	18888(%rsp), %ymm2
	vmovups	%ymm2, 1056(%rsp)
	vmovups	%ymm1, 1024(%rsp)
	vmovups	%ymm0, 992(%rsp)
	vmovups	18792(%rsp), %ymm0
	vmovups	%ymm0, 960(%rsp)
	movzbl	18926(%rsp), %esi
	testb	%sil, %sil
	setne	1092(%rsp)
	movb	%r9b, 1088(%rsp)
	movb	$0, 1089(%rsp)
	movzwl	18924(%rsp), %r14d
	movw	%r14w, 1090(%rsp)
	movzbl	18927(%rsp), %ebp
	movb	%bpl, 1093(%rsp)
	movw	$0, 1094(%rsp)
	vmovups	18960(%rsp), %ymm0
	vmovups	18992(%rsp), %ymm1
	vmovups	19024(%rsp), %ymm2
	vmovups	%ymm2, 1192(%rsp)
	vmovups	%ymm1, 1160(%rsp)
	vmovups	%ymm0, 1128(%rsp)
	vmovups	18928(%rsp), %ymm0
	vmovups	%ymm0, 1096(%rsp)
	movzbl	19062(%rsp), %r12d
	testb	%r12b, %r12b
	setne	1228(%rsp)
	movb	%r8b, 1224(%rsp)
	movb	$0, 1225(%rsp)
	movzwl	19060(%rsp), %r9d
	movw	%r9w, 1226(%rsp)
	movzbl	19063(%rsp), %r8d
	movb	%r8b, 1229(%rsp)
	movw	$0, 1230(%rsp)
	vmovups	19096(%rsp), %ymm0
	vmovups	19128(%rsp), %ymm1
	vmovups	19160(%rsp), %ymm2
	vmovups	%ymm2, 1328(%rsp)
	vmovups	%ymm1, 1296(%rsp)
	vmovups	%ymm0, 1264(%rsp)
	vmovups	19064(%rsp), %ymm0
	vmovups	%ymm0, 1232(%rsp)
	movzbl	19198(%rsp), %r15d
	testb	%r15b, %r15b
	setne	1364(%rsp)
	movb	%r13b, 1360(%rsp)
	movb	$0, 1361(%rsp)
	movzwl	19196(%rsp), %eax
	movw	%ax, 1362(%rsp)
	movzbl	19199(%rsp), %edx
	movb	%dl, 1365(%rsp)
	movw	$0, 1366(%rsp)
	vmovups	19232(%rsp), %ymm0
	vmovups	19264(%rsp), %ymm1
	vmovups	19296(%rsp), %ymm2
	vmovups	%ymm2, 1464(%rsp)
	vmovups	%ymm1, 1432(%rsp)
	vmovups	%ymm0, 1400(%rsp)
	vmovups	19200(%rsp), %ymm0
	vmovups	%ymm0, 1368(%rsp)
	movzbl	19334(%rsp), %edi
	testb	%dil, %dil
	setne	1500(%rsp)
	cmpb	$0, 160(%rsp)
	setne	1924(%rsp)
	cmpb	$0, 128(%rsp)
	setne	2060(%rsp)
	testb	%bl, %bl
	movl	152(%rsp), %ebx
	setne	2196(%rsp)
	testb	%r10b, %r10b
	movq	256(%rsp), %r10
	setne	2332(%rsp)
	testb	%sil, %sil
	setne	2468(%rsp)
	testb	%r12b, %r12b
	setne	2604(%rsp)
	testb	%r15b, %r15b
	setne	2740(%rsp)
	movq	%rcx, 1784(%rsp)
	movl	56(%rsp), %esi
	movb	%sil, 1920(%rsp)
	movb	$0, 1921(%rsp)
	movw	%bx, 1922(%rsp)
	movzbl	168(%rsp), %esi
	movb	%sil, 1925(%rsp)
	movw	$0, 1926(%rsp)
	movl	48(%rsp), %esi
	movb	%sil, 2056(%rsp)
	movb	$0, 2057(%rsp)
	movzwl	144(%rsp), %esi
	movw	%si, 2058(%rsp)
	movzbl	136(%rsp), %esi
	movb	%sil, 2061(%rsp)
	movw	$0, 2062(%rsp)
	movl	120(%rsp), %esi
	movb	%sil, 2192(%rsp)
	movb	$0, 2193(%rsp)
	movzwl	112(%rsp), %esi
	movw	%si, 2194(%rsp)
	movzbl	104(%rsp), %esi
	movb	%sil, 2197(%rsp)
	movw	$0, 2198(%rsp)
	movl	96(%rsp), %esi
	movb	%sil, 2328(%rsp)
	movb	$0, 2329(%rsp)
	movzwl	88(%rsp), %esi
	movw	%si, 2330(%rsp)
	movzbl	64(%rsp), %esi
	movb	%sil, 2333(%rsp)
	movw	$0, 2334(%rsp)
	movl	200(%rsp), %esi
	movb	%sil, 2464(%rsp)
	movb	$0, 2465(%rsp)
	movw	%r14w, 2466(%rsp)
	movb	%bpl, 2469(%rsp)
	movw	$0, 2470(%rsp)
	movl	208(%rsp), %esi
	movb	%sil, 2600(%rsp)
	movb	$0, 2601(%rsp)
	movw	%r9w, 2602(%rsp)
	movb	%r8b, 2605(%rsp)
	movw	$0, 2606(%rsp)
	movb	%r13b, 2736(%rsp)
	vmovups	19296(%rsp), %ymm0
	vmovups	%ymm0, 1600(%rsp)
	movb	$0, 2737(%rsp)
	movw	%ax, 2738(%rsp)
	vmovups	19264(%rsp), %ymm0
	vmovups	%ymm0, 1568(%rsp)
	testb	%dil, %dil
	vmovups	19232(%rsp), %ymm0
	vmovups	%ymm0, 1536(%rsp)
	vmovups	19200(%rsp), %ymm0
	vmovups	%ymm0, 1504(%rsp)
	movb	%dl, 2741(%rsp)
	movw	$0, 2742(%rsp)
	setne	2876(%rsp)
	vmovdqu	1504(%rsp), %ymm0
	vmovdqu	1536(%rsp), %ymm1
	vmovups	1568(%rsp), %ymm2
	vmovups	1600(%rsp), %ymm3
	vmovdqu	%ymm0, 2744(%rsp)
	vmovdqu	%ymm1, 2776(%rsp)
	vmovups	%ymm2, 2808(%rsp)
	vmovups	%ymm3, 2840(%rsp)
	movl	176(%rsp), %eax
	movb	%al, 1496(%rsp)
	movb	%al, 2872(%rsp)
	movzwl	19332(%rsp), %eax
	movzbl	19335(%rsp), %edx
	movb	$0, 1497(%rsp)
	movw	%ax, 1498(%rsp)
	movb	%dl, 1501(%rsp)
	movw	$0, 1502(%rsp)
	movb	$0, 2873(%rsp)
	movw	%ax, 2874(%rsp)
	xorl	%eax, %eax
	testq	%r10, %r10
	movb	%dl, 2877(%rsp)
	sete	%dl
	movw	$0, 2878(%rsp)
	cmpq	$8, %rcx
	ja	.Lluossavin_x86_64_v3.BB41_17
	movb	%dl, %al
	shll	$12, %eax
	addq	%rax, %r10
	leaq	1928(%rsp), %rdx
	movq	$-1, %rax
	leaq	1924(%rsp), %rsi
	.p2align	4
.Lluossavin_x86_64_v3.BB41_2:
	incq	%rax
	cmpq	%rax, %rcx
	je	.Lluossavin_x86_64_v3.BB41_4
	cmpb	$0, (%rsi)
	leaq	136(%rsi), %rsi
	je	.Lluossavin_x86_64_v3.BB41_2
.Lluossavin_x86_64_v3.BB41_17:
	movl	$26, %ecx
	xorl	%edi, %edi
	movq	$0, 64(%rsp)
	movq	$0, 160(%rsp)
	movq	$0, 152(%rsp)
	movq	$0, 168(%rsp)
	xorl	%r8d, %r8d
	xorl	%r15d, %r15d
	xorl	%r9d, %r9d
	xorl	%esi, %esi
	xorl	%edx, %edx
	xorl	%r12d, %r12d
	xorl	%r14d, %r14d
	movq	$0, 56(%rsp)
	movq	$0, 176(%rsp)
	movq	$0, 88(%rsp)
	movq	$0, 96(%rsp)
	movq	$0, 104(%rsp)
	movq	$0, 112(%rsp)
	movq	$0, 120(%rsp)
	movq	$0, 128(%rsp)
	movq	$0, 136(%rsp)
	movq	$0, 144(%rsp)
	movq	$0, 48(%rsp)
	movq	$0, 208(%rsp)
	xorl	%ebx, %ebx
	movq	$0, 200(%rsp)
	xorl	%r13d, %r13d
	xorl	%r10d, %r10d
	xorl	%ebp, %ebp
.Lluossavin_x86_64_v3.BB41_60:
	xorl	%eax, %eax
	cmpq	$1, %r13
	cmovneq	%rax, %r10
	cmovneq	%rax, %rbp
	movl	%ecx, %eax
	movq	208(%rsp), %rcx
.Lluossavin_x86_64_v3.BB41_61:
	movl	%eax, (%r11)
	movl	%r13d, 4(%r11)
	movq	%rdi, 8(%r11)
	movq	%r10, 16(%r11)
	movq	%rbp, 24(%r11)
	movq	64(%rsp), %rax
	movq	%rax, 32(%r11)
	movq	160(%rsp), %rax
	movq	%rax, 40(%r11)
	movq	152(%rsp), %rax
	movq	%rax, 48(%r11)
	movq	168(%rsp), %rax
	movq	%rax, 56(%r11)
	movq	%r8, 64(%r11)
	movq	%r15, 72(%r11)
	movq	%r9, 80(%r11)
	movq	%rsi, 88(%r11)
	movq	%rdx, 96(%r11)
	movq	%r12, 104(%r11)
	movq	%r14, 112(%r11)
	movq	56(%rsp), %rax
	movq	%rax, 120(%r11)
	movq	176(%rsp), %rax
	movq	%rax, 128(%r11)
	movq	88(%rsp), %rax
	movq	%rax, 136(%r11)
	movq	96(%rsp), %rax
	movq	%rax, 144(%r11)
	movq	104(%rsp), %rax
	movq	%rax, 152(%r11)
	movq	112(%rsp), %rax
	movq	%rax, 160(%r11)
	movq	120(%rsp), %rax
	movq	%rax, 168(%r11)
	movq	128(%rsp), %rax
	movq	%rax, 176(%r11)
	movq	136(%rsp), %rax
	movq	%rax, 184(%r11)
	movq	144(%rsp), %rax
	movq	%rax, 192(%r11)
	movq	48(%rsp), %rax
	movq	%rax, 200(%r11)
	movq	%rcx, 208(%r11)
	vpxor	%xmm0, %xmm0, %xmm0
	vmovdqu	%ymm0, 312(%r11)
	vmovdqu	%ymm0, 280(%r11)
	vmovdqu	%ymm0, 248(%r11)
	vmovdqu	%ymm0, 216(%r11)
	movq	%rbx, 344(%r11)
	movq	200(%rsp), %rax
	movq	%rax, 352(%r11)
	movq	%r11, %rax
	addq	$18184, %rsp
	popq	%rbx
	popq	%r12
	popq	%r13
	popq	%r14
	popq	%r15
	popq	%rbp
	vzeroupper
	retq
.Lluossavin_x86_64_v3.BB41_4:
	testq	%rcx, %rcx
	je	.Lluossavin_x86_64_v3.BB41_18
	decq	%rcx
	je	.Lluossavin_x86_64_v3.BB41_18
	xorl	%eax, %eax
	cmpl	$0, 80(%rsp)
	cmovnel	%eax, %ebx
	leaq	2058(%rsp), %rax
.Lluossavin_x86_64_v3.BB41_11:
	xorl	%esi, %esi
	movq	%rax, %rdi
	.p2align	4
.Lluossavin_x86_64_v3.BB41_13:
	cmpb	$0, -2(%rdi)
	jne	.Lluossavin_x86_64_v3.BB41_14
	movzwl	(%rdi), %r8d
	cmpw	%bx, %r8w
	jne	.Lluossavin_x86_64_v3.BB41_12
	jmp	.Lluossavin_x86_64_v3.BB41_17
	.p2align	4
.Lluossavin_x86_64_v3.BB41_14:
	xorl	%r8d, %r8d
	cmpw	%bx, %r8w
	je	.Lluossavin_x86_64_v3.BB41_17
.Lluossavin_x86_64_v3.BB41_12:
	incq	%rsi
	addq	$136, %rdi
	cmpq	%rsi, %rcx
	jne	.Lluossavin_x86_64_v3.BB41_13
	cmpb	$0, 128(%rdx)
	jne	.Lluossavin_x86_64_v3.BB41_8
	movzwl	130(%rdx), %ebx
	addq	$136, %rdx
	addq	$136, %rax
	decq	%rcx
	jne	.Lluossavin_x86_64_v3.BB41_11
	jmp	.Lluossavin_x86_64_v3.BB41_18
.Lluossavin_x86_64_v3.BB41_8:
	xorl	%ebx, %ebx
	addq	$136, %rdx
	addq	$136, %rax
	decq	%rcx
	jne	.Lluossavin_x86_64_v3.BB41_11
.Lluossavin_x86_64_v3.BB41_18:
	movq	344(%rsp), %r8
	testq	%r8, %r8
	je	.Lluossavin_x86_64_v3.BB41_19
	movq	%r10, 256(%rsp)
	movq	408(%rsp), %rax
	movq	%rax, 360(%rsp)
	xorl	%r13d, %r13d
	movq	%r8, %r15
	xorl	%r9d, %r9d
	movq	$0, 64(%rsp)
	xorl	%eax, %eax
	xorl	%r12d, %r12d
	movq	$0, 152(%rsp)
	xorl	%ebp, %ebp
	movq	$0, 192(%rsp)
	movq	$0, 80(%rsp)
	xorl	%edi, %edi
	movq	$0, 240(%rsp)
	movq	$0, 232(%rsp)
	xorl	%edx, %edx
	movq	$0, 248(%rsp)
	xorl	%ebx, %ebx
	xorl	%r14d, %r14d
	xorl	%ecx, %ecx
	movq	$0, 48(%rsp)
	movq	$0, 144(%rsp)
	xorl	%r10d, %r10d
	xorl	%esi, %esi
	movq	$0, 136(%rsp)
	movq	$0, 128(%rsp)
	movq	$0, 120(%rsp)
	movq	$0, 112(%rsp)
	movq	$0, 104(%rsp)
	movq	$0, 96(%rsp)
	movq	$0, 88(%rsp)
.Lluossavin_x86_64_v3.BB41_21:
	movq	%r10, 176(%rsp)
	movq	%rcx, 208(%rsp)
	movq	%rbp, 160(%rsp)
	movq	%rdi, 168(%rsp)
	movq	%r12, 200(%rsp)
	movq	%r9, 336(%rsp)
	movq	%r13, %rbp
	movq	256(%rsp), %r12
	movq	%r8, %rdi
	subq	%r15, %rdi
	movl	$23, %ecx
	cmpq	$6, %r15
	movq	%rsi, 56(%rsp)
	movq	%rdx, 224(%rsp)
	movq	%rax, 328(%rsp)
	jb	.Lluossavin_x86_64_v3.BB41_22
	cmpb	$84, (%r12)
	jne	.Lluossavin_x86_64_v3.BB41_22
	cmpb	$82, 1(%r12)
	jne	.Lluossavin_x86_64_v3.BB41_22
	cmpq	$10, %r15
	jb	.Lluossavin_x86_64_v3.BB41_22
	movzbl	2(%r12), %r10d
	cmpb	$1, %r10b
	ja	.Lluossavin_x86_64_v3.BB41_22
	addq	$-10, %r15
	movbel	6(%r12), %edx
	subq	%rdx, %r15
	jb	.Lluossavin_x86_64_v3.BB41_22
	cmpq	$4, %r15
	jb	.Lluossavin_x86_64_v3.BB41_22
	leaq	(%r12,%rdx), %rax
	addq	$10, %rax
	addq	$-4, %r15
	movbel	(%rax), %r13d
	subq	%r13, %r15
	jb	.Lluossavin_x86_64_v3.BB41_22
	cmpq	$4, %r15
	jb	.Lluossavin_x86_64_v3.BB41_22
	movq	%r12, 320(%rsp)
	movq	%rax, 312(%rsp)
	leaq	(%rax,%r13), %r12
	addq	$4, %r12
	addq	$-4, %r15
	movbel	(%r12), %eax
	movq	%rax, 296(%rsp)
	subq	%rax, %r15
	jb	.Lluossavin_x86_64_v3.BB41_22
	movq	%r14, %rsi
	movq	%rbx, %r14
	cmpq	$5, %r15
	jb	.Lluossavin_x86_64_v3.BB41_59
	leaq	-5(%r15), %rax
	cmpq	$4, %rax
	jb	.Lluossavin_x86_64_v3.BB41_59
	movb	%r10b, 47(%rsp)
	addq	$4, %r12
	movq	296(%rsp), %rax
	leaq	(%r12,%rax), %r10
	addq	$-9, %r15
	movbel	5(%r10), %ebx
	subq	%rbx, %r15
	jb	.Lluossavin_x86_64_v3.BB41_59
	movq	%rsi, 280(%rsp)
	movq	%r14, 288(%rsp)
	movl	(%r12,%rax), %ecx
	bswapl	%ecx
	cmpl	$16400, %ecx
	movl	$16400, %r14d
	cmovbl	%ecx, %r14d
	movq	%rdx, 304(%rsp)
	cmpl	$16385, %edx
	setae	%cl
	cmpl	$16385, %r13d
	setae	%dl
	orb	%cl, %dl
	cmpl	$16385, %eax
	setae	%sil
	orb	%dl, %sil
	movq	%rbx, 216(%rsp)
	cmpl	$16401, %ebx
	setae	%cl
	orb	%sil, %cl
	movq	360(%rsp), %rdx
	testq	%rdx, %rdx
	je	.Lluossavin_x86_64_v3.BB41_57
	testb	%cl, %cl
	jne	.Lluossavin_x86_64_v3.BB41_57
	movq	320(%rsp), %rsi
	movzbl	3(%rsi), %r8d
	movzwl	4(%rsi), %ecx
	addq	$10, %rsi
	movq	%rsi, 352(%rsp)
	addq	$4, 312(%rsp)
	movzbl	4(%r12,%rax), %eax
	movl	%eax, 188(%rsp)
	rolw	$8, %cx
	movq	216(%rsp), %rsi
	leaq	(%r10,%rsi), %rax
	addq	$9, %rax
	leaq	546(%rsp), %rbx
	.p2align	4
.Lluossavin_x86_64_v3.BB41_38:
	cmpb	$0, -2(%rbx)
	jne	.Lluossavin_x86_64_v3.BB41_39
	movzwl	(%rbx), %esi
	cmpw	%cx, %si
	jne	.Lluossavin_x86_64_v3.BB41_40
	jmp	.Lluossavin_x86_64_v3.BB41_44
	.p2align	4
.Lluossavin_x86_64_v3.BB41_39:
	xorl	%esi, %esi
	cmpw	%cx, %si
	je	.Lluossavin_x86_64_v3.BB41_44
.Lluossavin_x86_64_v3.BB41_40:
	addq	$136, %rbx
	decq	%rdx
	jne	.Lluossavin_x86_64_v3.BB41_38
	jmp	.Lluossavin_x86_64_v3.BB41_41
.Lluossavin_x86_64_v3.BB41_44:
	movq	%rdi, 264(%rsp)
	movq	%rax, 256(%rsp)
	movq	%r11, 272(%rsp)
	leaq	1784(%rsp), %rdi
	movq	$0, 72(%rsp)
	movl	$16400, %edx
	xorl	%esi, %esi
	movb	%r8b, 46(%rsp)
	vzeroupper
	callq	memset@PLT
	movzbl	46(%rsp), %ecx
	movl	$0, 1768(%rsp)
	vpxor	%xmm0, %xmm0, %xmm0
	vmovdqu	%ymm0, 368(%rsp)
	cmpb	$4, %cl
	ja	.Lluossavin_x86_64_v3.BB41_45
	addq	$-130, %rbx
	movq	128(%rbx), %rax
	movq	%rax, 1760(%rsp)
	vmovups	32(%rbx), %ymm0
	vmovdqu	64(%rbx), %ymm1
	vmovups	96(%rbx), %ymm2
	vmovups	%ymm2, 1728(%rsp)
	vmovdqu	%ymm1, 1696(%rsp)
	vmovups	%ymm0, 1664(%rsp)
	vmovdqu	(%rbx), %ymm0
	vmovdqu	%ymm0, 1632(%rsp)
	movb	%cl, 1768(%rsp)
	movq	%r14, 32(%rsp)
	leaq	1784(%rsp), %rax
	movq	%rax, 24(%rsp)
	movq	296(%rsp), %rax
	movq	%rax, 16(%rsp)
	movq	%r12, 8(%rsp)
	movq	%r13, %rbx
	movq	%r13, (%rsp)
	movzbl	47(%rsp), %edx
	leaq	368(%rsp), %rdi
	leaq	1632(%rsp), %rsi
	movq	352(%rsp), %rcx
	movq	304(%rsp), %r8
	movq	312(%rsp), %r9
	vzeroupper
	callq	"cipher_mode::Sm4CipherMode::call.x86_64_v3"
	cmpb	$0, 368(%rsp)
	je	.Lluossavin_x86_64_v3.BB41_47
	movzbl	369(%rsp), %eax
	leaq	.Lluossavin_x86_64_v3.switch.table.luossavin_which_x86_64_v3(%rip), %rcx
	movl	(%rcx,%rax,4), %edx
	movq	$0, 72(%rsp)
	jmp	.Lluossavin_x86_64_v3.BB41_49
.Lluossavin_x86_64_v3.BB41_45:
	movq	%r13, %rbx
	movl	$7, %edx
	jmp	.Lluossavin_x86_64_v3.BB41_49
.Lluossavin_x86_64_v3.BB41_47:
	xorl	%edx, %edx
	movq	376(%rsp), %rax
	movq	%rax, 72(%rsp)
.Lluossavin_x86_64_v3.BB41_49:
	movq	272(%rsp), %r11
	movq	192(%rsp), %r10
	movq	264(%rsp), %r13
	movq	56(%rsp), %r14
	movq	224(%rsp), %r12
	movq	48(%rsp), %r8
	movq	216(%rsp), %r9
	movl	188(%rsp), %ecx
	movb	$1, %al
	cmpl	%ecx, %edx
	jne	.Lluossavin_x86_64_v3.BB41_54
	cmpq	%r9, 72(%rsp)
	jne	.Lluossavin_x86_64_v3.BB41_54
	movq	304(%rsp), %rcx
	addq	296(%rsp), %rcx
	addq	%rbx, %rcx
	movq	320(%rsp), %rax
	addq	%rax, %rcx
	addq	$27, %rcx
	xorl	%esi, %esi
	.p2align	4
.Lluossavin_x86_64_v3.BB41_52:
	cmpq	%rsi, %r9
	setne	%al
	je	.Lluossavin_x86_64_v3.BB41_54
	movzbl	(%rcx,%rsi), %edi
	cmpb	1784(%rsp,%rsi), %dil
	leaq	1(%rsi), %rsi
	je	.Lluossavin_x86_64_v3.BB41_52
.Lluossavin_x86_64_v3.BB41_54:
	movq	88(%rsp), %rcx
	movq	%rcx, 1888(%rsp)
	movq	96(%rsp), %rcx
	movq	%rcx, 1896(%rsp)
	movq	104(%rsp), %rcx
	movq	%rcx, 1904(%rsp)
	movq	112(%rsp), %rcx
	movq	%rcx, 1912(%rsp)
	movq	120(%rsp), %rcx
	movq	%rcx, 1920(%rsp)
	movq	128(%rsp), %rcx
	movq	%rcx, 1928(%rsp)
	movq	136(%rsp), %rcx
	movq	%rcx, 1936(%rsp)
	movq	144(%rsp), %rcx
	movq	%rcx, 1944(%rsp)
	movzbl	46(%rsp), %ecx
	cmpb	$5, %cl
	movzbl	%cl, %ecx
	movl	$5, %esi
	cmovbl	%ecx, %esi
	addq	%rbx, %r10
	movq	%r10, 192(%rsp)
	movq	72(%rsp), %r10
	addq	200(%rsp), %r10
	movq	328(%rsp), %rbx
	testq	%rbx, %rbx
	movq	64(%rsp), %rdi
	leaq	1(%rdi), %r9
	movq	336(%rsp), %rcx
	cmovneq	%rcx, %rdi
	movq	%r8, 1952(%rsp)
	cmovneq	%rbp, %r13
	testb	%al, %al
	cmoveq	%rbp, %r13
	cmoveq	%rcx, %rdi
	movq	208(%rsp), %rax
	movq	%rax, 1960(%rsp)
	movl	$1, %eax
	cmoveq	%rbx, %rax
	vmovsd	160(%rsp), %xmm0
	vmovsd	152(%rsp), %xmm1
	movq	%r9, 64(%rsp)
	movq	%r9, 1784(%rsp)
	movq	%rdi, %r9
	vmovlhps	%xmm1, %xmm0, %xmm0
	vmovups	%xmm0, 1792(%rsp)
	vmovsd	168(%rsp), %xmm0
	vmovsd	80(%rsp), %xmm1
	vmovlhps	%xmm1, %xmm0, %xmm0
	vmovups	%xmm0, 1808(%rsp)
	vmovsd	232(%rsp), %xmm0
	vmovsd	240(%rsp), %xmm1
	vmovlhps	%xmm1, %xmm0, %xmm0
	vmovups	%xmm0, 1824(%rsp)
	vmovq	248(%rsp), %xmm0
	vmovq	%r12, %xmm1
	movq	%r10, %r12
	vpunpcklqdq	%xmm1, %xmm0, %xmm0
	vmovdqu	%xmm0, 1840(%rsp)
	vmovsd	280(%rsp), %xmm0
	vmovsd	288(%rsp), %xmm1
	vmovlhps	%xmm1, %xmm0, %xmm0
	vmovups	%xmm0, 1856(%rsp)
	vmovq	%r14, %xmm0
	vmovq	176(%rsp), %xmm1
	vpunpcklqdq	%xmm1, %xmm0, %xmm0
	vmovdqu	%xmm0, 1872(%rsp)
	movzbl	%sil, %esi
	incq	1792(%rsp,%rsi,8)
	movl	%edx, %edx
	incq	1840(%rsp,%rdx,8)
	movq	1880(%rsp), %r10
	movq	1872(%rsp), %rsi
	movq	1864(%rsp), %rbx
	movq	1856(%rsp), %r14
	movq	1848(%rsp), %rdx
	movq	1840(%rsp), %rdi
	movq	%rdi, 248(%rsp)
	movq	1832(%rsp), %rdi
	movq	%rdi, 240(%rsp)
	movq	1824(%rsp), %rdi
	movq	%rdi, 232(%rsp)
	movq	1816(%rsp), %rdi
	movq	%rdi, 80(%rsp)
	movq	1808(%rsp), %rdi
	movq	1792(%rsp), %rbp
	movq	1800(%rsp), %rcx
	movq	%rcx, 152(%rsp)
	movq	1888(%rsp), %rcx
	movq	%rcx, 88(%rsp)
	movq	1896(%rsp), %rcx
	movq	%rcx, 96(%rsp)
	movq	1904(%rsp), %rcx
	movq	%rcx, 104(%rsp)
	movq	1912(%rsp), %rcx
	movq	%rcx, 112(%rsp)
	movq	1920(%rsp), %rcx
	movq	%rcx, 120(%rsp)
	movq	1928(%rsp), %rcx
	movq	%rcx, 128(%rsp)
	movq	1936(%rsp), %rcx
	movq	%rcx, 136(%rsp)
	movq	1944(%rsp), %rcx
	movq	%rcx, 144(%rsp)
	movq	1952(%rsp), %rcx
	movq	%rcx, 48(%rsp)
	movq	1960(%rsp), %rcx
	testq	%r15, %r15
	movq	344(%rsp), %r8
	jne	.Lluossavin_x86_64_v3.BB41_21
	movq	%r12, 72(%rsp)
	movq	%r14, %r12
	movq	%rbx, %r14
	movq	%rsi, 56(%rsp)
	movq	%r10, 176(%rsp)
	movq	192(%rsp), %rbx
	movq	%rbp, 160(%rsp)
	movq	%rdi, 168(%rsp)
	movq	%r9, %r10
	movq	248(%rsp), %rsi
	movq	240(%rsp), %r9
	movq	232(%rsp), %r15
	movq	64(%rsp), %r8
	jmp	.Lluossavin_x86_64_v3.BB41_56
.Lluossavin_x86_64_v3.BB41_19:
	movq	$0, 88(%rsp)
	movq	$0, 96(%rsp)
	movq	$0, 104(%rsp)
	movq	$0, 112(%rsp)
	movq	$0, 120(%rsp)
	movq	$0, 128(%rsp)
	movq	$0, 136(%rsp)
	movq	$0, 56(%rsp)
	movq	$0, 176(%rsp)
	movq	$0, 144(%rsp)
	movq	$0, 48(%rsp)
	xorl	%ecx, %ecx
	xorl	%r12d, %r12d
	xorl	%r14d, %r14d
	xorl	%esi, %esi
	xorl	%edx, %edx
	xorl	%r15d, %r15d
	xorl	%r9d, %r9d
	movq	$0, 168(%rsp)
	movq	$0, 80(%rsp)
	xorl	%ebx, %ebx
	movq	$0, 160(%rsp)
	movq	$0, 152(%rsp)
	movq	$0, 72(%rsp)
	xorl	%eax, %eax
	xorl	%r8d, %r8d
	xorl	%r10d, %r10d
	xorl	%r13d, %r13d
.Lluossavin_x86_64_v3.BB41_56:
	testq	%rax, %rax
	cmoveq	%rax, %r10
	cmoveq	%rax, %r13
	movq	%r13, %rbp
	xorl	%edi, %edi
	movq	%rax, %r13
	movq	72(%rsp), %rax
	movq	%rax, 200(%rsp)
	movq	%r8, 64(%rsp)
	movq	80(%rsp), %r8
	xorl	%eax, %eax
	jmp	.Lluossavin_x86_64_v3.BB41_61
.Lluossavin_x86_64_v3.BB41_41:
	movl	$25, %ecx
.Lluossavin_x86_64_v3.BB41_58:
	movq	288(%rsp), %r14
	movq	280(%rsp), %rsi
	jmp	.Lluossavin_x86_64_v3.BB41_59
.Lluossavin_x86_64_v3.BB41_22:
	movq	%r14, %rsi
	movq	%rbx, %r14
.Lluossavin_x86_64_v3.BB41_59:
	movq	80(%rsp), %r8
	movq	%rsi, %r12
	movq	192(%rsp), %rbx
	movq	224(%rsp), %rdx
	movq	248(%rsp), %rsi
	movq	240(%rsp), %r9
	movq	232(%rsp), %r15
	movq	336(%rsp), %r10
	movq	328(%rsp), %r13
	jmp	.Lluossavin_x86_64_v3.BB41_60
.Lluossavin_x86_64_v3.BB41_57:
	movzbl	%cl, %ecx
	xorl	$25, %ecx
	jmp	.Lluossavin_x86_64_v3.BB41_58
.Lluossavin_x86_64_v3.func_end41:
	.size	luossavin_replay_x86_64_v3, .Lluossavin_x86_64_v3.func_end41-luossavin_replay_x86_64_v3

	.section	.rodata.cst32,"aM",@progbits,32
	.p2align	5, 0x0
.Lluossavin_x86_64_v3.CPI42_0:
	.byte	7
	.byte	6
	.byte	5
	.byte	4
	.byte	3
	.byte	2
	.byte	1
	.byte	0
	.byte	15
	.byte	14
	.byte	13
	.byte	12
	.byte	11
	.byte	10
	.byte	9
	.byte	8
	.byte	7
	.byte	6
	.byte	5
	.byte	4
	.byte	3
	.byte	2
	.byte	1
	.byte	0
	.byte	15
	.byte	14
	.byte	13
	.byte	12
	.byte	11
	.byte	10
	.byte	9
	.byte	8
.Lluossavin_x86_64_v3.CPI42_1:
	.long	2
	.long	2
	.long	2
	.long	2
	.long	3
	.long	3
	.long	3
	.long	3
.Lluossavin_x86_64_v3.CPI42_2:
	.byte	0
	.byte	128
	.byte	128
	.byte	128
	.byte	5
	.byte	128
	.byte	128
	.byte	128
	.byte	10
	.byte	128
	.byte	128
	.byte	128
	.byte	15
	.byte	128
	.byte	128
	.byte	128
	.byte	16
	.byte	128
	.byte	128
	.byte	128
	.byte	21
	.byte	128
	.byte	128
	.byte	128
	.byte	26
	.byte	128
	.byte	128
	.byte	128
	.byte	31
	.byte	128
	.byte	128
	.byte	128
	.section	.rodata.cst16,"aM",@progbits,16
	.p2align	4, 0x0
.Lluossavin_x86_64_v3.CPI42_3:
	.byte	7
	.byte	6
	.byte	5
	.byte	4
	.byte	3
	.byte	2
	.byte	1
	.byte	0
	.byte	15
	.byte	14
	.byte	13
	.byte	12
	.byte	11
	.byte	10
	.byte	9
	.byte	8
	.section	.text.luossavin_seal_end_x86_64_v3,"ax",@progbits
	.globl	luossavin_seal_end_x86_64_v3
	.hidden	luossavin_seal_end_x86_64_v3
	.p2align	4
	.type	luossavin_seal_end_x86_64_v3,@function
luossavin_seal_end_x86_64_v3:
	pushq	%rbp
	pushq	%r15
	pushq	%r14
	pushq	%r13
	pushq	%r12
	pushq	%rbx
	subq	$360, %rsp
	movq	%rdi, %rax
	leaq	416(%rsp), %rdi
	xorl	%r15d, %r15d
	testq	%rsi, %rsi
	sete	%r8b
	vmovaps	624(%rsp), %xmm4
	movq	640(%rsp), %r14
	movq	648(%rsp), %rbx
	movl	656(%rsp), %r13d
	movl	660(%rsp), %ecx
	vxorps	%xmm0, %xmm0, %xmm0
	vmovups	%ymm0, 48(%rsp)
	vmovups	%ymm0, 80(%rsp)
	vmovups	%ymm0, 112(%rsp)
	vmovups	%ymm0, 144(%rsp)
	vmovups	%ymm0, 176(%rsp)
	vmovups	%ymm0, 208(%rsp)
	movzwl	664(%rsp), %ebp
	vmovups	%ymm0, 230(%rsp)
	cmpq	$14, %rcx
	ja	.Lluossavin_x86_64_v3.BB42_10
	leaq	.Lluossavin_x86_64_v3.JTI42_0(%rip), %r9
	movslq	(%r9,%rcx,4), %r10
	addq	%r9, %r10
	jmpq	*%r10
.Lluossavin_x86_64_v3.BB42_3:
	cmpq	$16777217, %r14
	setae	%r9b
	cmpq	$16777217, %rbx
	setae	%r10b
	orb	%r9b, %r10b
	je	.Lluossavin_x86_64_v3.BB42_4
.Lluossavin_x86_64_v3.BB42_6:
	vmovups	176(%rdi), %ymm0
	vmovups	%ymm0, 230(%rsp)
	vmovups	160(%rdi), %ymm0
	vmovups	%ymm0, 214(%rsp)
	vmovups	128(%rdi), %ymm0
	vmovups	%ymm0, 182(%rsp)
	vmovdqu	(%rdi), %ymm0
	vmovdqu	32(%rdi), %ymm1
	vmovups	64(%rdi), %ymm2
	vmovups	96(%rdi), %ymm3
	vmovups	%ymm3, 150(%rsp)
	vmovups	%ymm2, 118(%rsp)
	vmovdqu	%ymm1, 86(%rsp)
	vmovdqu	%ymm0, 54(%rsp)
	movl	250(%rdi), %edx
	movl	%edx, (%rsp)
	movzwl	254(%rdi), %edx
	movw	%dx, 4(%rsp)
	movl	$5, %esi
	xorl	%edx, %edx
	jmp	.Lluossavin_x86_64_v3.BB42_13
.Lluossavin_x86_64_v3.BB42_2:
	vmovups	176(%rdi), %ymm0
	vmovups	%ymm0, 230(%rsp)
	vmovups	160(%rdi), %ymm0
	vmovups	%ymm0, 214(%rsp)
	vmovups	128(%rdi), %ymm0
	vmovups	%ymm0, 182(%rsp)
	vmovdqu	(%rdi), %ymm0
	vmovdqu	32(%rdi), %ymm1
	vmovups	64(%rdi), %ymm2
	vmovups	96(%rdi), %ymm3
	vmovups	%ymm3, 150(%rsp)
	vmovups	%ymm2, 118(%rsp)
	vmovdqu	%ymm1, 86(%rsp)
	vmovdqu	%ymm0, 54(%rsp)
	movl	250(%rdi), %ecx
	movl	%ecx, (%rsp)
	movzwl	254(%rdi), %ecx
	movw	%cx, 4(%rsp)
	movl	$1, %ecx
	xorl	%edx, %edx
	movl	$1, %esi
	jmp	.Lluossavin_x86_64_v3.BB42_13
.Lluossavin_x86_64_v3.BB42_12:
	vmovups	176(%rdi), %ymm0
	vmovups	%ymm0, 230(%rsp)
	vmovups	160(%rdi), %ymm0
	vmovups	%ymm0, 214(%rsp)
	vmovups	128(%rdi), %ymm0
	vmovups	%ymm0, 182(%rsp)
	vmovdqu	(%rdi), %ymm0
	vmovdqu	32(%rdi), %ymm1
	vmovups	64(%rdi), %ymm2
	vmovups	96(%rdi), %ymm3
	vmovups	%ymm3, 150(%rsp)
	vmovups	%ymm2, 118(%rsp)
	vmovdqu	%ymm1, 86(%rsp)
	vmovdqu	%ymm0, 54(%rsp)
	movl	250(%rdi), %ecx
	movl	%ecx, (%rsp)
	movzwl	254(%rdi), %ecx
	movw	%cx, 4(%rsp)
	movl	$14, %ecx
	xorl	%edx, %edx
	movl	$14, %esi
	jmp	.Lluossavin_x86_64_v3.BB42_13
.Lluossavin_x86_64_v3.BB42_10:
	vmovups	176(%rdi), %ymm0
	vmovups	%ymm0, 230(%rsp)
	vmovups	160(%rdi), %ymm0
	vmovups	%ymm0, 214(%rsp)
	vmovups	128(%rdi), %ymm0
	vmovups	%ymm0, 182(%rsp)
	vmovdqu	(%rdi), %ymm0
	vmovdqu	32(%rdi), %ymm1
	vmovups	64(%rdi), %ymm2
	vmovups	96(%rdi), %ymm3
	vmovups	%ymm3, 150(%rsp)
	vmovups	%ymm2, 118(%rsp)
	vmovdqu	%ymm1, 86(%rsp)
	vmovdqu	%ymm0, 54(%rsp)
	movl	250(%rdi), %edx
	movl	%edx, (%rsp)
	movzwl	254(%rdi), %edx
	movw	%dx, 4(%rsp)
	movl	$12, %esi
	xorl	%edx, %edx
	jmp	.Lluossavin_x86_64_v3.BB42_13
.Lluossavin_x86_64_v3.BB42_9:
	vmovups	176(%rdi), %ymm0
	vmovups	%ymm0, 230(%rsp)
	vmovups	160(%rdi), %ymm0
	vmovups	%ymm0, 214(%rsp)
	vmovups	128(%rdi), %ymm0
	vmovups	%ymm0, 182(%rsp)
	vmovdqu	(%rdi), %ymm0
	vmovdqu	32(%rdi), %ymm1
	vmovups	64(%rdi), %ymm2
	vmovups	96(%rdi), %ymm3
	vmovups	%ymm3, 150(%rsp)
	vmovups	%ymm2, 118(%rsp)
	vmovdqu	%ymm1, 86(%rsp)
	vmovdqu	%ymm0, 54(%rsp)
	movl	250(%rdi), %ecx
	movl	%ecx, (%rsp)
	movzwl	254(%rdi), %ecx
	movw	%cx, 4(%rsp)
	movl	$10, %ecx
	xorl	%edx, %edx
	movl	$10, %esi
	jmp	.Lluossavin_x86_64_v3.BB42_13
.Lluossavin_x86_64_v3.BB42_11:
	vmovups	176(%rdi), %ymm0
	vmovups	%ymm0, 230(%rsp)
	vmovups	160(%rdi), %ymm0
	vmovups	%ymm0, 214(%rsp)
	vmovups	128(%rdi), %ymm0
	vmovups	%ymm0, 182(%rsp)
	vmovdqu	(%rdi), %ymm0
	vmovdqu	32(%rdi), %ymm1
	vmovups	64(%rdi), %ymm2
	vmovups	96(%rdi), %ymm3
	vmovups	%ymm3, 150(%rsp)
	vmovups	%ymm2, 118(%rsp)
	vmovdqu	%ymm1, 86(%rsp)
	vmovdqu	%ymm0, 54(%rsp)
	movl	250(%rdi), %ecx
	movl	%ecx, (%rsp)
	movzwl	254(%rdi), %ecx
	movw	%cx, 4(%rsp)
	movl	$13, %ecx
	xorl	%edx, %edx
	movl	$13, %esi
.Lluossavin_x86_64_v3.BB42_13:
	xorl	%edi, %edi
.Lluossavin_x86_64_v3.BB42_14:
	movl	%esi, (%rax)
	movb	$0, 4(%rax)
	movb	%dl, 5(%rax)
	movw	%bp, 6(%rax)
	movq	%rdi, 8(%rax)
	vmovups	54(%rsp), %ymm0
	vmovups	86(%rsp), %ymm1
	vmovups	118(%rsp), %ymm2
	vmovups	150(%rsp), %ymm3
	vmovups	%ymm0, 16(%rax)
	vmovups	%ymm1, 48(%rax)
	vmovups	%ymm2, 80(%rax)
	vmovups	%ymm3, 112(%rax)
	vmovups	182(%rsp), %ymm0
	vmovups	%ymm0, 144(%rax)
	vmovups	214(%rsp), %ymm0
	vmovups	%ymm0, 176(%rax)
	vmovups	230(%rsp), %ymm0
	vmovups	%ymm0, 192(%rax)
	vmovups	%xmm4, 224(%rax)
	movq	%r14, 240(%rax)
	movq	%rbx, 248(%rax)
	movl	%r13d, 256(%rax)
	movl	%ecx, 260(%rax)
	movw	%bp, 264(%rax)
	movl	(%rsp), %ecx
	movl	%ecx, 266(%rax)
	movzwl	4(%rsp), %ecx
	movw	%cx, 270(%rax)
	addq	$360, %rsp
	popq	%rbx
	popq	%r12
	popq	%r13
	popq	%r14
	popq	%r15
	popq	%rbp
	vzeroupper
	retq
.Lluossavin_x86_64_v3.BB42_4:
	cmpq	$16, %rdx
	jae	.Lluossavin_x86_64_v3.BB42_5
	vmovups	176(%rdi), %ymm0
	vmovups	%ymm0, 230(%rsp)
	vmovups	160(%rdi), %ymm0
	vmovups	%ymm0, 214(%rsp)
	vmovups	128(%rdi), %ymm0
	vmovups	%ymm0, 182(%rsp)
	vmovdqu	(%rdi), %ymm0
	vmovdqu	32(%rdi), %ymm1
	vmovups	64(%rdi), %ymm2
	vmovups	96(%rdi), %ymm3
	vmovups	%ymm3, 150(%rsp)
	vmovups	%ymm2, 118(%rsp)
	vmovdqu	%ymm1, 86(%rsp)
	vmovdqu	%ymm0, 54(%rsp)
	movl	250(%rdi), %ecx
	movl	%ecx, (%rsp)
	movzwl	254(%rdi), %ecx
	movw	%cx, 4(%rsp)
	movl	$6, %esi
	xorl	%ecx, %ecx
	xorl	%edx, %edx
	jmp	.Lluossavin_x86_64_v3.BB42_13
.Lluossavin_x86_64_v3.BB42_5:
	movb	%r8b, %r15b
	shll	$12, %r15d
	movl	%ebx, %ecx
	andl	$15, %ecx
	vmovups	%ymm0, 320(%rsp)
	vmovups	160(%rdi), %ymm0
	vmovups	176(%rdi), %ymm1
	vmovups	%ymm0, (%rsp)
	vmovups	%ymm1, 16(%rsp)
	leaq	32(%rsp), %rdx
	vmovdqu	(%rsp), %ymm0
	vpshufb	.Lluossavin_x86_64_v3.CPI42_0(%rip), %ymm0, %ymm0
	vmovdqu	%ymm0, 288(%rsp)
	leaq	320(%rsp), %rdi
	leaq	288(%rsp), %r8
	movq	%rsi, 264(%rsp)
	movq	%r8, %rsi
	movq	%rax, %r12
	vmovaps	%xmm4, 272(%rsp)
	vzeroupper
	callq	"ghash::Ghash::absorb_all.x86_64_v3"
	leaq	288(%rsp), %rdi
	leaq	320(%rsp), %rsi
	movq	%r14, %rdx
	movq	%rbx, %rcx
	callq	"ghash::Ghash::absorb_lengths.x86_64_v3"
	movq	%r12, %rax
	vmovdqu	304(%rsp), %xmm0
	vbroadcasti128	.Lluossavin_x86_64_v3.CPI42_3(%rip), %ymm1
	vpshufb	%xmm1, %xmm0, %xmm0
	vmovdqa	.Lluossavin_x86_64_v3.CPI42_1(%rip), %ymm1
	vpermd	%ymm0, %ymm1, %ymm1
	vpmovzxbd	%xmm0, %ymm0
	vpshufb	.Lluossavin_x86_64_v3.CPI42_2(%rip), %ymm1, %ymm1
	vpackusdw	%ymm1, %ymm0, %ymm0
	vextracti128	$1, %ymm0, %xmm1
	vpackuswb	%xmm1, %xmm0, %xmm0
	vpshufd	$216, %xmm0, %xmm0
	vpxor	272(%rsp), %xmm0, %xmm0
	movq	264(%rsp), %rcx
	vmovdqu	%xmm0, (%rcx,%r15)
	addq	$15, %rbx
	shrq	$4, %rbx
	notl	%r13d
	cmpq	%r13, %rbx
	seta	%dl
	vpxor	%xmm0, %xmm0, %xmm0
	vmovdqu	%ymm0, 230(%rsp)
	vmovdqu	%ymm0, 208(%rsp)
	vmovdqu	%ymm0, 176(%rsp)
	vmovdqu	%ymm0, 144(%rsp)
	vmovdqu	%ymm0, 112(%rsp)
	vmovdqu	%ymm0, 80(%rsp)
	vmovdqu	%ymm0, 48(%rsp)
	movl	$0, (%rsp)
	movw	$0, 4(%rsp)
	vxorps	%xmm4, %xmm4, %xmm4
	movl	$16, %edi
	xorl	%r13d, %r13d
	movl	$12, %ecx
	xorl	%ebx, %ebx
	xorl	%r14d, %r14d
	xorl	%esi, %esi
	jmp	.Lluossavin_x86_64_v3.BB42_14
.Lluossavin_x86_64_v3.func_end42:
	.size	luossavin_seal_end_x86_64_v3, .Lluossavin_x86_64_v3.func_end42-luossavin_seal_end_x86_64_v3
	.section	.rodata.luossavin_seal_end_x86_64_v3,"a",@progbits
	.p2align	2, 0x0
.Lluossavin_x86_64_v3.JTI42_0:
	.long	.Lluossavin_x86_64_v3.BB42_3-.Lluossavin_x86_64_v3.JTI42_0
	.long	.Lluossavin_x86_64_v3.BB42_2-.Lluossavin_x86_64_v3.JTI42_0
	.long	.Lluossavin_x86_64_v3.BB42_10-.Lluossavin_x86_64_v3.JTI42_0
	.long	.Lluossavin_x86_64_v3.BB42_10-.Lluossavin_x86_64_v3.JTI42_0
	.long	.Lluossavin_x86_64_v3.BB42_10-.Lluossavin_x86_64_v3.JTI42_0
	.long	.Lluossavin_x86_64_v3.BB42_6-.Lluossavin_x86_64_v3.JTI42_0
	.long	.Lluossavin_x86_64_v3.BB42_10-.Lluossavin_x86_64_v3.JTI42_0
	.long	.Lluossavin_x86_64_v3.BB42_10-.Lluossavin_x86_64_v3.JTI42_0
	.long	.Lluossavin_x86_64_v3.BB42_10-.Lluossavin_x86_64_v3.JTI42_0
	.long	.Lluossavin_x86_64_v3.BB42_10-.Lluossavin_x86_64_v3.JTI42_0
	.long	.Lluossavin_x86_64_v3.BB42_9-.Lluossavin_x86_64_v3.JTI42_0
	.long	.Lluossavin_x86_64_v3.BB42_10-.Lluossavin_x86_64_v3.JTI42_0
	.long	.Lluossavin_x86_64_v3.BB42_10-.Lluossavin_x86_64_v3.JTI42_0
	.long	.Lluossavin_x86_64_v3.BB42_11-.Lluossavin_x86_64_v3.JTI42_0
	.long	.Lluossavin_x86_64_v3.BB42_12-.Lluossavin_x86_64_v3.JTI42_0

	.section	.text.luossavin_seal_piece_x86_64_v3,"ax",@progbits
	.globl	luossavin_seal_piece_x86_64_v3
	.hidden	luossavin_seal_piece_x86_64_v3
	.p2align	4
	.type	luossavin_seal_piece_x86_64_v3,@function
luossavin_seal_piece_x86_64_v3:
	pushq	%rbp
	pushq	%r15
	pushq	%r14
	pushq	%r13
	pushq	%r12
	pushq	%rbx
	subq	$568, %rsp
	movq	%rdi, %rax
	leaq	624(%rsp), %r14
	xorl	%r9d, %r9d
	testq	%rsi, %rsi
	sete	%r11b
	xorl	%edi, %edi
	testq	%rcx, %rcx
	sete	40(%rsp)
	movq	848(%rsp), %r13
	movq	856(%rsp), %rbx
	movl	868(%rsp), %r15d
	vmovups	624(%rsp), %ymm0
	vmovups	656(%rsp), %ymm1
	vmovups	688(%rsp), %ymm2
	vmovups	720(%rsp), %ymm3
	vmovups	%ymm0, 336(%rsp)
	vmovups	%ymm1, 368(%rsp)
	vmovups	%ymm2, 400(%rsp)
	vmovups	%ymm3, 432(%rsp)
	vmovsd	864(%rsp), %xmm4
	vmovups	752(%rsp), %ymm0
	vmovups	%ymm0, 464(%rsp)
	movzwl	872(%rsp), %ebp
	vmovups	784(%rsp), %ymm0
	vmovups	%ymm0, 496(%rsp)
	movzbl	874(%rsp), %r12d
	vmovups	816(%rsp), %ymm0
	vmovups	%ymm0, 528(%rsp)
	vxorps	%xmm0, %xmm0, %xmm0
	vmovups	%ymm0, 304(%rsp)
	cmpq	$14, %r15
	ja	.Lluossavin_x86_64_v3.BB43_10
	leaq	.Lluossavin_x86_64_v3.JTI43_0(%rip), %r10
	movslq	(%r10,%r15,4), %r15
	addq	%r10, %r15
	jmpq	*%r15
.Lluossavin_x86_64_v3.BB43_3:
	movq	%rdx, %r10
	addq	%rbx, %r10
	movq	$-1, %r15
	cmovaeq	%r10, %r15
	cmpq	$16777216, %r13
	ja	.Lluossavin_x86_64_v3.BB43_7
	cmpq	$16777216, %r15
	ja	.Lluossavin_x86_64_v3.BB43_7
	cmpq	%rdx, %r8
	jae	.Lluossavin_x86_64_v3.BB43_6
	vmovups	192(%r14), %ymm0
	vmovups	%ymm0, 240(%rsp)
	vmovups	160(%r14), %ymm0
	vmovups	%ymm0, 208(%rsp)
	vmovups	128(%r14), %ymm0
	vmovups	%ymm0, 176(%rsp)
	vmovups	(%r14), %ymm0
	vmovups	32(%r14), %ymm1
	vmovups	64(%r14), %ymm2
	vmovups	96(%r14), %ymm3
	vmovups	%ymm3, 144(%rsp)
	vmovups	%ymm2, 112(%rsp)
	vmovups	%ymm1, 80(%rsp)
	vmovups	%ymm0, 48(%rsp)
	movl	251(%r14), %ecx
	movl	%ecx, 32(%rsp)
	movzbl	255(%r14), %ecx
	movb	%cl, 36(%rsp)
	movl	$6, %edx
	jmp	.Lluossavin_x86_64_v3.BB43_13
.Lluossavin_x86_64_v3.BB43_7:
	vmovups	192(%r14), %ymm0
	vmovups	%ymm0, 240(%rsp)
	vmovups	160(%r14), %ymm0
	vmovups	%ymm0, 208(%rsp)
	vmovups	128(%r14), %ymm0
	vmovups	%ymm0, 176(%rsp)
	vmovups	(%r14), %ymm0
	vmovups	32(%r14), %ymm1
	vmovups	64(%r14), %ymm2
	vmovups	96(%r14), %ymm3
	vmovups	%ymm3, 144(%rsp)
	vmovups	%ymm2, 112(%rsp)
	vmovups	%ymm1, 80(%rsp)
	vmovups	%ymm0, 48(%rsp)
	movl	251(%r14), %ecx
	movl	%ecx, 32(%rsp)
	movzbl	255(%r14), %ecx
	movb	%cl, 36(%rsp)
	movl	$5, %edx
	jmp	.Lluossavin_x86_64_v3.BB43_13
.Lluossavin_x86_64_v3.BB43_2:
	vmovups	192(%r14), %ymm0
	vmovups	%ymm0, 240(%rsp)
	vmovups	160(%r14), %ymm0
	vmovups	%ymm0, 208(%rsp)
	vmovups	128(%r14), %ymm0
	vmovups	%ymm0, 176(%rsp)
	vmovups	(%r14), %ymm0
	vmovups	32(%r14), %ymm1
	vmovups	64(%r14), %ymm2
	vmovups	96(%r14), %ymm3
	vmovups	%ymm3, 144(%rsp)
	vmovups	%ymm2, 112(%rsp)
	vmovups	%ymm1, 80(%rsp)
	vmovups	%ymm0, 48(%rsp)
	movl	251(%r14), %ecx
	movl	%ecx, 32(%rsp)
	movzbl	255(%r14), %ecx
	movb	%cl, 36(%rsp)
	movl	$1, %edx
	jmp	.Lluossavin_x86_64_v3.BB43_13
.Lluossavin_x86_64_v3.BB43_12:
	vmovups	192(%r14), %ymm0
	vmovups	%ymm0, 240(%rsp)
	vmovups	160(%r14), %ymm0
	vmovups	%ymm0, 208(%rsp)
	vmovups	128(%r14), %ymm0
	vmovups	%ymm0, 176(%rsp)
	vmovups	(%r14), %ymm0
	vmovups	32(%r14), %ymm1
	vmovups	64(%r14), %ymm2
	vmovups	96(%r14), %ymm3
	vmovups	%ymm3, 144(%rsp)
	vmovups	%ymm2, 112(%rsp)
	vmovups	%ymm1, 80(%rsp)
	vmovups	%ymm0, 48(%rsp)
	movl	251(%r14), %ecx
	movl	%ecx, 32(%rsp)
	movzbl	255(%r14), %ecx
	movb	%cl, 36(%rsp)
	movl	$14, %edx
	jmp	.Lluossavin_x86_64_v3.BB43_13
.Lluossavin_x86_64_v3.BB43_10:
	vmovups	192(%r14), %ymm0
	vmovups	%ymm0, 240(%rsp)
	vmovups	160(%r14), %ymm0
	vmovups	%ymm0, 208(%rsp)
	vmovups	128(%r14), %ymm0
	vmovups	%ymm0, 176(%rsp)
	vmovups	(%r14), %ymm0
	vmovups	32(%r14), %ymm1
	vmovups	64(%r14), %ymm2
	vmovups	96(%r14), %ymm3
	vmovups	%ymm3, 144(%rsp)
	vmovups	%ymm2, 112(%rsp)
	vmovups	%ymm1, 80(%rsp)
	vmovups	%ymm0, 48(%rsp)
	movl	251(%r14), %ecx
	movl	%ecx, 32(%rsp)
	movzbl	255(%r14), %ecx
	movb	%cl, 36(%rsp)
	movl	$12, %edx
	jmp	.Lluossavin_x86_64_v3.BB43_13
.Lluossavin_x86_64_v3.BB43_9:
	vmovups	192(%r14), %ymm0
	vmovups	%ymm0, 240(%rsp)
	vmovups	160(%r14), %ymm0
	vmovups	%ymm0, 208(%rsp)
	vmovups	128(%r14), %ymm0
	vmovups	%ymm0, 176(%rsp)
	vmovups	(%r14), %ymm0
	vmovups	32(%r14), %ymm1
	vmovups	64(%r14), %ymm2
	vmovups	96(%r14), %ymm3
	vmovups	%ymm3, 144(%rsp)
	vmovups	%ymm2, 112(%rsp)
	vmovups	%ymm1, 80(%rsp)
	vmovups	%ymm0, 48(%rsp)
	movl	251(%r14), %ecx
	movl	%ecx, 32(%rsp)
	movzbl	255(%r14), %ecx
	movb	%cl, 36(%rsp)
	movl	$10, %edx
	jmp	.Lluossavin_x86_64_v3.BB43_13
.Lluossavin_x86_64_v3.BB43_11:
	vmovups	192(%r14), %ymm0
	vmovups	%ymm0, 240(%rsp)
	vmovups	160(%r14), %ymm0
	vmovups	%ymm0, 208(%rsp)
	vmovups	128(%r14), %ymm0
	vmovups	%ymm0, 176(%rsp)
	vmovups	(%r14), %ymm0
	vmovups	32(%r14), %ymm1
	vmovups	64(%r14), %ymm2
	vmovups	96(%r14), %ymm3
	vmovups	%ymm3, 144(%rsp)
	vmovups	%ymm2, 112(%rsp)
	vmovups	%ymm1, 80(%rsp)
	vmovups	%ymm0, 48(%rsp)
	movl	251(%r14), %ecx
	movl	%ecx, 32(%rsp)
	movzbl	255(%r14), %ecx
	movb	%cl, 36(%rsp)
	movl	$13, %edx
.Lluossavin_x86_64_v3.BB43_13:
	xorl	%ecx, %ecx
.Lluossavin_x86_64_v3.BB43_14:
	movl	%edx, (%rax)
	movw	$0, 4(%rax)
	movw	%bp, 6(%rax)
	movq	%rcx, 8(%rax)
	vmovups	48(%rsp), %ymm0
	vmovups	80(%rsp), %ymm1
	vmovups	112(%rsp), %ymm2
	vmovups	144(%rsp), %ymm3
	vmovups	%ymm0, 16(%rax)
	vmovups	%ymm1, 48(%rax)
	vmovups	%ymm2, 80(%rax)
	vmovups	%ymm3, 112(%rax)
	vmovups	176(%rsp), %ymm0
	vmovups	%ymm0, 144(%rax)
	vmovups	208(%rsp), %ymm0
	vmovups	%ymm0, 176(%rax)
	vmovups	240(%rsp), %ymm0
	vmovups	%ymm0, 208(%rax)
	movq	%r13, 240(%rax)
	movq	%rbx, 248(%rax)
	vmovlps	%xmm4, 256(%rax)
	movw	%bp, 264(%rax)
	movb	%r12b, 266(%rax)
	movl	32(%rsp), %ecx
	movl	%ecx, 267(%rax)
	movzbl	36(%rsp), %ecx
	movb	%cl, 271(%rax)
	addq	$568, %rsp
	popq	%rbx
	popq	%r12
	popq	%r13
	popq	%r14
	popq	%r15
	popq	%rbp
	vzeroupper
	retq
.Lluossavin_x86_64_v3.BB43_6:
	movb	%r11b, %r9b
	shll	$12, %r9d
	addq	%r9, %rsi
	movzbl	40(%rsp), %r9d
	movb	%r9b, %dil
	shll	$12, %edi
	addq	%rdi, %rcx
	movq	%rcx, 272(%rsp)
	andl	$15, %ebx
	leal	-1(%r12), %edi
	cmpb	$3, %dil
	movzbl	%dil, %edi
	movl	$1, %r9d
	cmovbl	%edi, %r9d
	movq	%r10, %r15
	leaq	128(%r14), %r10
	movq	%r8, 24(%rsp)
	movq	%rcx, 16(%rsp)
	movq	%rdx, 8(%rsp)
	movq	%rsi, (%rsp)
	leaq	304(%rsp), %rdi
	movl	%r9d, %esi
	movq	%rdx, 40(%rsp)
	movq	%r14, %rdx
	movl	$1, %ecx
	movq	%r10, %r8
	movq	%rbx, %r9
	movq	%rax, 280(%rsp)
	vmovaps	%xmm4, 288(%rsp)
	vzeroupper
	callq	"pieces::flow::run.x86_64_v3"
	leaq	496(%rsp), %rsi
	leaq	208(%rsp), %rdi
	movq	%rbx, %rdx
	movq	272(%rsp), %rcx
	movq	40(%rsp), %r8
	callq	"pieces::hashing::Hashing::take_in.x86_64_v3"
	vmovaps	288(%rsp), %xmm4
	movq	40(%rsp), %rcx
	movq	280(%rsp), %rax
	vmovups	(%r14), %ymm0
	vmovups	32(%r14), %ymm1
	vmovups	64(%r14), %ymm2
	vmovups	96(%r14), %ymm3
	vmovups	%ymm3, 144(%rsp)
	vmovups	%ymm2, 112(%rsp)
	vmovups	%ymm1, 80(%rsp)
	vmovups	%ymm0, 48(%rsp)
	vmovups	304(%rsp), %ymm0
	vmovups	%ymm0, 176(%rsp)
	vmovups	208(%r14), %xmm0
	vmovaps	%xmm0, 256(%rsp)
	movl	$0, 32(%rsp)
	movb	$0, 36(%rsp)
	xorl	%edx, %edx
	movq	%r15, %rbx
	jmp	.Lluossavin_x86_64_v3.BB43_14
.Lluossavin_x86_64_v3.func_end43:
	.size	luossavin_seal_piece_x86_64_v3, .Lluossavin_x86_64_v3.func_end43-luossavin_seal_piece_x86_64_v3
	.section	.rodata.luossavin_seal_piece_x86_64_v3,"a",@progbits
	.p2align	2, 0x0
.Lluossavin_x86_64_v3.JTI43_0:
	.long	.Lluossavin_x86_64_v3.BB43_3-.Lluossavin_x86_64_v3.JTI43_0
	.long	.Lluossavin_x86_64_v3.BB43_2-.Lluossavin_x86_64_v3.JTI43_0
	.long	.Lluossavin_x86_64_v3.BB43_10-.Lluossavin_x86_64_v3.JTI43_0
	.long	.Lluossavin_x86_64_v3.BB43_10-.Lluossavin_x86_64_v3.JTI43_0
	.long	.Lluossavin_x86_64_v3.BB43_10-.Lluossavin_x86_64_v3.JTI43_0
	.long	.Lluossavin_x86_64_v3.BB43_7-.Lluossavin_x86_64_v3.JTI43_0
	.long	.Lluossavin_x86_64_v3.BB43_10-.Lluossavin_x86_64_v3.JTI43_0
	.long	.Lluossavin_x86_64_v3.BB43_10-.Lluossavin_x86_64_v3.JTI43_0
	.long	.Lluossavin_x86_64_v3.BB43_10-.Lluossavin_x86_64_v3.JTI43_0
	.long	.Lluossavin_x86_64_v3.BB43_10-.Lluossavin_x86_64_v3.JTI43_0
	.long	.Lluossavin_x86_64_v3.BB43_9-.Lluossavin_x86_64_v3.JTI43_0
	.long	.Lluossavin_x86_64_v3.BB43_10-.Lluossavin_x86_64_v3.JTI43_0
	.long	.Lluossavin_x86_64_v3.BB43_10-.Lluossavin_x86_64_v3.JTI43_0
	.long	.Lluossavin_x86_64_v3.BB43_11-.Lluossavin_x86_64_v3.JTI43_0
	.long	.Lluossavin_x86_64_v3.BB43_12-.Lluossavin_x86_64_v3.JTI43_0

	.section	.rodata.cst16,"aM",@progbits,16
	.p2align	4, 0x0
.Lluossavin_x86_64_v3.CPI44_0:
	.long	0
	.long	0
	.long	0
	.long	1
	.section	.rodata.cst32,"aM",@progbits,32
	.p2align	5, 0x0
.Lluossavin_x86_64_v3.CPI44_1:
	.byte	3
	.byte	2
	.byte	1
	.byte	0
	.byte	7
	.byte	6
	.byte	5
	.byte	4
	.byte	11
	.byte	10
	.byte	9
	.byte	8
	.byte	15
	.byte	14
	.byte	13
	.byte	12
	.byte	3
	.byte	2
	.byte	1
	.byte	0
	.byte	7
	.byte	6
	.byte	5
	.byte	4
	.byte	11
	.byte	10
	.byte	9
	.byte	8
	.byte	15
	.byte	14
	.byte	13
	.byte	12
	.section	.text.luossavin_seal_start_x86_64_v3,"ax",@progbits
	.globl	luossavin_seal_start_x86_64_v3
	.hidden	luossavin_seal_start_x86_64_v3
	.p2align	4
	.type	luossavin_seal_start_x86_64_v3,@function
luossavin_seal_start_x86_64_v3:
	pushq	%rbp
	pushq	%r15
	pushq	%r14
	pushq	%r13
	pushq	%r12
	pushq	%rbx
	subq	$344, %rsp
	movq	%rcx, %r9
	movq	%rsi, %rcx
	movq	%rdi, %rax
	xorl	%r10d, %r10d
	testq	%rsi, %rsi
	sete	%bpl
	xorl	%edi, %edi
	testq	%r9, %r9
	sete	%r11b
	movl	528(%rsp), %r14d
	cmpl	$13, %r14d
	sete	%bl
	incb	%bl
	xorl	%esi, %esi
	testl	%r14d, %r14d
	movzbl	%bl, %ebx
	cmovel	%r14d, %ebx
	movl	532(%rsp), %r12d
	cmovel	%r12d, %esi
	testb	%bl, %bl
	je	.Lluossavin_x86_64_v3.BB44_3
	movzbl	%bl, %ecx
	vpxor	%xmm0, %xmm0, %xmm0
	cmpl	$2, %ecx
	jne	.Lluossavin_x86_64_v3.BB44_2
	vmovdqu	%ymm0, 176(%rsp)
	vmovdqu	%ymm0, 144(%rsp)
	vmovdqu	%ymm0, 112(%rsp)
	vmovdqu	%ymm0, 80(%rsp)
	vmovdqu	%ymm0, 32(%rsp)
	movq	$0, 206(%rsp)
	vmovdqu	%ymm0, 48(%rsp)
	vxorps	%xmm1, %xmm1, %xmm1
	vmovaps	%xmm1, 16(%rsp)
	movl	$0, 8(%rsp)
	movb	$0, 12(%rsp)
	xorl	%r15d, %r15d
	movl	$13, %ecx
	jmp	.Lluossavin_x86_64_v3.BB44_12
.Lluossavin_x86_64_v3.BB44_3:
	movzbl	534(%rsp), %ebx
	movzbl	535(%rsp), %r15d
	cmpq	$16, %r8
	je	.Lluossavin_x86_64_v3.BB44_5
	cmpq	$12, %r8
	jne	.Lluossavin_x86_64_v3.BB44_9
.Lluossavin_x86_64_v3.BB44_5:
	testb	%bl, %bl
	je	.Lluossavin_x86_64_v3.BB44_6
	vpxor	%xmm0, %xmm0, %xmm0
	vmovdqu	%ymm0, 176(%rsp)
	vmovdqu	%ymm0, 144(%rsp)
	vmovdqu	%ymm0, 112(%rsp)
	vmovdqu	%ymm0, 80(%rsp)
	vmovdqu	%ymm0, 32(%rsp)
	movq	$0, 206(%rsp)
	vmovdqu	%ymm0, 48(%rsp)
	vxorps	%xmm1, %xmm1, %xmm1
	vmovaps	%xmm1, 16(%rsp)
	movl	$0, 8(%rsp)
	movb	$0, 12(%rsp)
	xorl	%r15d, %r15d
	movl	$14, %ecx
	jmp	.Lluossavin_x86_64_v3.BB44_12
.Lluossavin_x86_64_v3.BB44_2:
	vmovdqu	%ymm0, 176(%rsp)
	vmovdqu	%ymm0, 144(%rsp)
	vmovdqu	%ymm0, 112(%rsp)
	vmovdqu	%ymm0, 80(%rsp)
	vmovdqu	%ymm0, 32(%rsp)
	movq	$0, 206(%rsp)
	vmovdqu	%ymm0, 48(%rsp)
	vxorps	%xmm1, %xmm1, %xmm1
	vmovaps	%xmm1, 16(%rsp)
	movl	$0, 8(%rsp)
	movb	$0, 12(%rsp)
	xorl	%r15d, %r15d
	movl	$1, %ecx
	jmp	.Lluossavin_x86_64_v3.BB44_12
.Lluossavin_x86_64_v3.BB44_9:
	vpxor	%xmm0, %xmm0, %xmm0
	vmovdqu	%ymm0, 176(%rsp)
	vmovdqu	%ymm0, 144(%rsp)
	vmovdqu	%ymm0, 112(%rsp)
	vmovdqu	%ymm0, 80(%rsp)
	vmovdqu	%ymm0, 32(%rsp)
	movq	$0, 206(%rsp)
	vmovdqu	%ymm0, 48(%rsp)
	vxorps	%xmm1, %xmm1, %xmm1
	vmovaps	%xmm1, 16(%rsp)
	movl	$0, 8(%rsp)
	movb	$0, 12(%rsp)
	xorl	%r15d, %r15d
	movl	$10, %ecx
	jmp	.Lluossavin_x86_64_v3.BB44_12
.Lluossavin_x86_64_v3.BB44_6:
	cmpq	$16777216, %rdx
	jbe	.Lluossavin_x86_64_v3.BB44_7
	vpxor	%xmm0, %xmm0, %xmm0
	vmovdqu	%ymm0, 176(%rsp)
	vmovdqu	%ymm0, 144(%rsp)
	vmovdqu	%ymm0, 112(%rsp)
	vmovdqu	%ymm0, 80(%rsp)
	vmovdqu	%ymm0, 32(%rsp)
	movq	$0, 206(%rsp)
	vmovdqu	%ymm0, 48(%rsp)
	vxorps	%xmm1, %xmm1, %xmm1
	vmovaps	%xmm1, 16(%rsp)
	movl	$0, 8(%rsp)
	movb	$0, 12(%rsp)
	xorl	%r15d, %r15d
	movl	$5, %ecx
.Lluossavin_x86_64_v3.BB44_12:
	xorl	%edx, %edx
	xorl	%r14d, %r14d
.Lluossavin_x86_64_v3.BB44_13:
	movl	%ecx, (%rax)
	movw	$0, 4(%rax)
	movw	%si, 6(%rax)
	movq	$0, 8(%rax)
	vmovups	86(%rsp), %ymm1
	vmovups	118(%rsp), %ymm2
	vmovups	150(%rsp), %ymm3
	vmovups	182(%rsp), %ymm4
	vmovups	%ymm1, 16(%rax)
	vmovups	%ymm2, 48(%rax)
	vmovups	%ymm3, 80(%rax)
	vmovups	%ymm4, 112(%rax)
	vmovdqu	%ymm0, 144(%rax)
	vmovups	32(%rsp), %ymm0
	vmovups	48(%rsp), %ymm1
	vmovups	%ymm0, 176(%rax)
	vmovups	%ymm1, 192(%rax)
	vmovaps	16(%rsp), %xmm0
	vmovups	%xmm0, 224(%rax)
	movq	%r14, 240(%rax)
	movq	$0, 248(%rax)
	movl	%edx, 256(%rax)
	movl	%ecx, 260(%rax)
	movw	%si, 264(%rax)
	movb	%r15b, 266(%rax)
	movzbl	12(%rsp), %ecx
	movb	%cl, 271(%rax)
	movl	8(%rsp), %ecx
	movl	%ecx, 267(%rax)
	addq	$344, %rsp
	popq	%rbx
	popq	%r12
	popq	%r13
	popq	%r14
	popq	%r15
	popq	%rbp
	vzeroupper
	retq
.Lluossavin_x86_64_v3.BB44_7:
	leaq	400(%rsp), %rbx
	movb	%bpl, %r10b
	shll	$12, %r10d
	addq	%r10, %rcx
	movb	%r11b, %dil
	shll	$12, %edi
	addq	%rdi, %r9
	leal	-1(%r15), %esi
	cmpb	$3, %sil
	movzbl	%sil, %esi
	movl	$1, %ebp
	cmovbl	%esi, %ebp
	movq	%r8, (%rsp)
	leaq	256(%rsp), %rdi
	movl	%ebp, %esi
	movq	%rdx, %r14
	movq	%rbx, %rdx
	movq	%r14, %r8
	movq	%rax, %r13
	callq	"pieces::tagging::begin.x86_64_v3"
	vxorps	%xmm0, %xmm0, %xmm0
	vmovaps	%xmm0, 16(%rsp)
	vmovdqa	256(%rsp), %xmm0
	vmovdqa	%xmm0, 240(%rsp)
	vpaddd	.Lluossavin_x86_64_v3.CPI44_0(%rip), %xmm0, %xmm0
	vmovdqa	%xmm0, 224(%rsp)
	vmovdqa	%xmm0, 32(%rsp)
	leaq	16(%rsp), %rdi
	leaq	32(%rsp), %rcx
	movl	%ebp, %esi
	movq	%rbx, %rdx
	callq	"cipher::encrypt.x86_64_v3"
	movq	%r13, %rax
	vmovdqa	224(%rsp), %xmm0
	vpblendd	$7, 240(%rsp), %xmm0, %xmm0
	vinserti128	$1, 16(%rsp), %ymm0, %ymm0
	vpshufb	.Lluossavin_x86_64_v3.CPI44_1(%rip), %ymm0, %ymm0
	vmovups	(%rbx), %ymm1
	vmovups	32(%rbx), %ymm2
	vmovups	64(%rbx), %ymm3
	vmovups	96(%rbx), %ymm4
	vmovups	%ymm1, 86(%rsp)
	vmovups	%ymm2, 118(%rsp)
	vmovups	%ymm3, 150(%rsp)
	vmovups	%ymm4, 182(%rsp)
	vmovups	276(%rsp), %ymm1
	vmovups	%ymm1, 32(%rsp)
	vmovups	292(%rsp), %ymm1
	vmovups	%ymm1, 48(%rsp)
	vmovups	324(%rsp), %xmm1
	vmovaps	%xmm1, 16(%rsp)
	movl	272(%rsp), %edx
	movl	$0, 8(%rsp)
	movb	$0, 12(%rsp)
	xorl	%ecx, %ecx
	movl	%r12d, %esi
	jmp	.Lluossavin_x86_64_v3.BB44_13
.Lluossavin_x86_64_v3.func_end44:
	.size	luossavin_seal_start_x86_64_v3, .Lluossavin_x86_64_v3.func_end44-luossavin_seal_start_x86_64_v3

	.section	.text.luossavin_shelf_find_x86_64_v3,"ax",@progbits
	.globl	luossavin_shelf_find_x86_64_v3
	.hidden	luossavin_shelf_find_x86_64_v3
	.p2align	4
	.type	luossavin_shelf_find_x86_64_v3,@function
luossavin_shelf_find_x86_64_v3:
	movq	%rdi, %rax
	xorl	%edi, %edi
	testq	%rsi, %rsi
	sete	%r9b
	cmpq	$65537, %rdx
	setae	%r10b
	cmpq	%rcx, %rdx
	setb	%dl
	orb	%r10b, %dl
	movl	$19, %edx
	jne	.Lluossavin_x86_64_v3.BB45_3
	cmpq	$12, %rcx
	jae	.Lluossavin_x86_64_v3.BB45_4
	xorl	%edx, %edx
	testq	%rcx, %rcx
	sete	%dl
	leal	(%rdx,%rdx,2), %edx
	addl	$19, %edx
.Lluossavin_x86_64_v3.BB45_3:
	xorl	%edi, %edi
	xorl	%r10d, %r10d
	jmp	.Lluossavin_x86_64_v3.BB45_32
.Lluossavin_x86_64_v3.BB45_4:
	pushq	%rbp
	pushq	%r15
	pushq	%r14
	pushq	%r13
	pushq	%r12
	pushq	%rbx
	movb	%r9b, %dil
	shll	$12, %edi
	addq	%rdi, %rsi
	xorl	%edi, %edi
	movq	%rcx, %r9
	movq	%rsi, %r10
	jmp	.Lluossavin_x86_64_v3.BB45_6
	.p2align	4
.Lluossavin_x86_64_v3.BB45_5:
	leaq	12(%r11), %rbx
	subq	%rbx, %r9
	addq	%r11, %r10
	addq	$12, %r10
	addq	%rbx, %rdi
	cmpq	$11, %r9
	jbe	.Lluossavin_x86_64_v3.BB45_19
.Lluossavin_x86_64_v3.BB45_6:
	cmpb	$82, (%r10)
	jne	.Lluossavin_x86_64_v3.BB45_19
	movzbl	1(%r10), %ebx
	cmpl	$88, %ebx
	je	.Lluossavin_x86_64_v3.BB45_9
	cmpl	$68, %ebx
	jne	.Lluossavin_x86_64_v3.BB45_19
.Lluossavin_x86_64_v3.BB45_9:
	leaq	-12(%r9), %r14
	movbel	8(%r10), %r11d
	cmpq	%r11, %r14
	jb	.Lluossavin_x86_64_v3.BB45_19
	cmpb	$68, %bl
	jne	.Lluossavin_x86_64_v3.BB45_5
	movl	2(%r10), %ebx
	movq	%rdi, %r14
	movq	%rsi, %r12
	.p2align	4
.Lluossavin_x86_64_v3.BB45_12:
	cmpq	$12, %r14
	jb	.Lluossavin_x86_64_v3.BB45_5
	movq	%r12, %r15
	cmpb	$82, (%r12)
	jne	.Lluossavin_x86_64_v3.BB45_5
	movzbl	1(%r15), %ebp
	cmpl	$88, %ebp
	je	.Lluossavin_x86_64_v3.BB45_16
	cmpl	$68, %ebp
	jne	.Lluossavin_x86_64_v3.BB45_5
.Lluossavin_x86_64_v3.BB45_16:
	leaq	-12(%r14), %r13
	movbel	8(%r15), %r12d
	cmpq	%r12, %r13
	jb	.Lluossavin_x86_64_v3.BB45_5
	leaq	12(%r12), %r13
	subq	%r13, %r14
	addq	%r15, %r12
	addq	$12, %r12
	cmpb	$68, %bpl
	jne	.Lluossavin_x86_64_v3.BB45_12
	cmpl	%ebx, 2(%r15)
	jne	.Lluossavin_x86_64_v3.BB45_12
.Lluossavin_x86_64_v3.BB45_19:
	cmpq	%rcx, %rdi
	jne	.Lluossavin_x86_64_v3.BB45_29
	xorl	%r9d, %r9d
	jmp	.Lluossavin_x86_64_v3.BB45_22
	.p2align	4
.Lluossavin_x86_64_v3.BB45_21:
	subq	%r10, %rcx
	addq	%r10, %rsi
	addq	%r10, %r9
	xorl	%edi, %edi
	movl	$0, %r10d
	cmpq	$11, %rcx
	jbe	.Lluossavin_x86_64_v3.BB45_31
.Lluossavin_x86_64_v3.BB45_22:
	movl	$22, %edx
	cmpb	$82, (%rsi)
	jne	.Lluossavin_x86_64_v3.BB45_29
	movzbl	1(%rsi), %r11d
	cmpl	$88, %r11d
	je	.Lluossavin_x86_64_v3.BB45_25
	cmpl	$68, %r11d
	jne	.Lluossavin_x86_64_v3.BB45_29
.Lluossavin_x86_64_v3.BB45_25:
	leaq	-12(%rcx), %rbx
	movbel	8(%rsi), %r10d
	xorl	%edi, %edi
	cmpq	%r10, %rbx
	jb	.Lluossavin_x86_64_v3.BB45_30
	addq	$12, %r10
	cmpb	$68, %r11b
	jne	.Lluossavin_x86_64_v3.BB45_21
	movbel	2(%rsi), %edi
	cmpl	%r8d, %edi
	jne	.Lluossavin_x86_64_v3.BB45_21
	movq	%r9, %rdi
	xorl	%edx, %edx
	jmp	.Lluossavin_x86_64_v3.BB45_31
.Lluossavin_x86_64_v3.BB45_29:
	xorl	%edi, %edi
.Lluossavin_x86_64_v3.BB45_30:
	xorl	%r10d, %r10d
.Lluossavin_x86_64_v3.BB45_31:
	popq	%rbx
	popq	%r12
	popq	%r13
	popq	%r14
	popq	%r15
	popq	%rbp
.Lluossavin_x86_64_v3.BB45_32:
	movl	%edx, (%rax)
	movl	$0, 4(%rax)
	movq	%rdi, 8(%rax)
	movq	%r10, 16(%rax)
	retq
.Lluossavin_x86_64_v3.func_end45:
	.size	luossavin_shelf_find_x86_64_v3, .Lluossavin_x86_64_v3.func_end45-luossavin_shelf_find_x86_64_v3

	.section	.text.luossavin_key_engine_x86_64_v3,"ax",@progbits
	.globl	luossavin_key_engine_x86_64_v3
	.hidden	luossavin_key_engine_x86_64_v3
	.p2align	4
	.type	luossavin_key_engine_x86_64_v3,@function
luossavin_key_engine_x86_64_v3:
	movq	%rdi, %rax
	movl	136(%rsp), %ecx
	movzwl	140(%rsp), %edx
	movzbl	142(%rsp), %edi
	xorl	%r8d, %r8d
	cmpl	$4, %esi
	cmovbl	%esi, %r8d
	vmovups	8(%rsp), %ymm0
	vmovups	40(%rsp), %ymm1
	vmovups	72(%rsp), %ymm2
	vmovups	104(%rsp), %ymm3
	vmovups	%ymm3, 96(%rax)
	vmovups	%ymm2, 64(%rax)
	vmovups	%ymm1, 32(%rax)
	vmovups	%ymm0, (%rax)
	movl	%ecx, 128(%rax)
	movw	%dx, 132(%rax)
	movb	%dil, 134(%rax)
	movb	%r8b, 135(%rax)
	vzeroupper
	retq
.Lluossavin_x86_64_v3.func_end46:
	.size	luossavin_key_engine_x86_64_v3, .Lluossavin_x86_64_v3.func_end46-luossavin_key_engine_x86_64_v3

	.section	.text.luossavin_plan_make_x86_64_v3,"ax",@progbits
	.globl	luossavin_plan_make_x86_64_v3
	.hidden	luossavin_plan_make_x86_64_v3
	.p2align	4
	.type	luossavin_plan_make_x86_64_v3,@function
luossavin_plan_make_x86_64_v3:
	pushq	%rbp
	pushq	%r15
	pushq	%r14
	pushq	%r12
	pushq	%rbx
	subq	$1040, %rsp
	movq	%rdi, %rbx
	leaq	-65(%rdx), %rax
	movl	$17, %ebp
	cmpq	$-64, %rax
	jb	.Lluossavin_x86_64_v3.BB47_13
	movl	$5, %ebp
	cmpq	$16777216, %rsi
	jbe	.Lluossavin_x86_64_v3.BB47_2
.Lluossavin_x86_64_v3.BB47_13:
	leaq	8(%rsp), %rdi
	movl	$1032, %edx
	xorl	%esi, %esi
	callq	memset@PLT
	jmp	.Lluossavin_x86_64_v3.BB47_14
.Lluossavin_x86_64_v3.BB47_2:
	leaq	15(%rsi), %rax
	shrq	$4, %rax
	movq	%rdx, %rcx
	xorl	%edx, %edx
	divl	%ecx
	movl	%eax, %r14d
	xorl	%r15d, %r15d
	cmpl	$1, %edx
	sbbq	$-1, %r14
	shlq	$4, %r14
	leaq	16(%rsp), %rdi
	movl	$1024, %edx
	movq	%rsi, %r12
	xorl	%esi, %esi
	callq	memset@PLT
	movq	%r12, %rcx
	movl	$2, %eax
	.p2align	4
.Lluossavin_x86_64_v3.BB47_3:
	movq	%r15, %rsi
	imulq	%r14, %rsi
	movq	%rcx, %rdx
	subq	%rsi, %rdx
	jbe	.Lluossavin_x86_64_v3.BB47_9
	movq	%rsi, (%rsp,%rax,8)
	cmpq	%r14, %rdx
	cmovaeq	%r14, %rdx
	movq	%rdx, 512(%rsp,%rax,8)
	movq	%r15, %rdx
	orq	$1, %rdx
	imulq	%r14, %rdx
	movq	%rcx, %rsi
	subq	%rdx, %rsi
	jbe	.Lluossavin_x86_64_v3.BB47_10
	movq	%rdx, 8(%rsp,%rax,8)
	cmpq	%r14, %rsi
	cmovaeq	%r14, %rsi
	movq	%rsi, 520(%rsp,%rax,8)
	movq	%r15, %rdx
	orq	$2, %rdx
	imulq	%r14, %rdx
	movq	%rcx, %rsi
	subq	%rdx, %rsi
	jbe	.Lluossavin_x86_64_v3.BB47_12
	movq	%rdx, 16(%rsp,%rax,8)
	cmpq	%r14, %rsi
	cmovaeq	%r14, %rsi
	movq	%rsi, 528(%rsp,%rax,8)
	movq	%r15, %rdx
	orq	$3, %rdx
	imulq	%r14, %rdx
	movq	%rcx, %rsi
	subq	%rdx, %rsi
	jbe	.Lluossavin_x86_64_v3.BB47_11
	movq	%rdx, 24(%rsp,%rax,8)
	cmpq	%r14, %rsi
	cmovaeq	%r14, %rsi
	movq	%rsi, 536(%rsp,%rax,8)
	addq	$4, %r15
	addq	$4, %rax
	cmpq	$66, %rax
	jne	.Lluossavin_x86_64_v3.BB47_3
	movl	$64, %eax
	jmp	.Lluossavin_x86_64_v3.BB47_12
.Lluossavin_x86_64_v3.BB47_9:
	addq	$-2, %rax
	jmp	.Lluossavin_x86_64_v3.BB47_12
.Lluossavin_x86_64_v3.BB47_10:
	decq	%rax
	jmp	.Lluossavin_x86_64_v3.BB47_12
.Lluossavin_x86_64_v3.BB47_11:
	incq	%rax
.Lluossavin_x86_64_v3.BB47_12:
	movq	%rax, 8(%rsp)
	xorl	%ebp, %ebp
.Lluossavin_x86_64_v3.BB47_14:
	movl	%ebp, (%rbx)
	leaq	16(%rbx), %rdi
	movq	$0, 4(%rbx)
	movl	$0, 12(%rbx)
	leaq	8(%rsp), %rsi
	movl	$1032, %edx
	callq	memcpy@PLT
	movq	%rbx, %rax
	addq	$1040, %rsp
	popq	%rbx
	popq	%r12
	popq	%r14
	popq	%r15
	popq	%rbp
	retq
.Lluossavin_x86_64_v3.func_end47:
	.size	luossavin_plan_make_x86_64_v3, .Lluossavin_x86_64_v3.func_end47-luossavin_plan_make_x86_64_v3

	.section	.text.luossavin_decrypt_x86_64_v3,"ax",@progbits
	.globl	luossavin_decrypt_x86_64_v3
	.hidden	luossavin_decrypt_x86_64_v3
	.p2align	4
	.type	luossavin_decrypt_x86_64_v3,@function
luossavin_decrypt_x86_64_v3:
	pushq	%rbp
	pushq	%r15
	pushq	%r14
	pushq	%rbx
	subq	$232, %rsp
	movq	%rdx, %rax
	movl	400(%rsp), %r15d
	movzwl	404(%rsp), %r10d
	movzbl	406(%rsp), %ebp
	movzbl	407(%rsp), %edx
	vxorps	%xmm0, %xmm0, %xmm0
	vmovups	%ymm0, 48(%rsp)
	movl	$0, 216(%rsp)
	cmpl	$4, %edi
	ja	.Lluossavin_x86_64_v3.BB48_1
	movq	424(%rsp), %r11
	movq	416(%rsp), %r14
	xorl	%ebx, %ebx
	testq	%r14, %r14
	sete	%bl
	shll	$12, %ebx
	addq	%r14, %rbx
	xorl	%r14d, %r14d
	testq	%r9, %r9
	sete	%r14b
	shll	$12, %r14d
	addq	%r9, %r14
	xorl	%r9d, %r9d
	testq	%rcx, %rcx
	sete	%r9b
	shll	$12, %r9d
	addq	%rcx, %r9
	xorl	%ecx, %ecx
	testq	%rsi, %rsi
	sete	%cl
	shll	$12, %ecx
	addq	%rsi, %rcx
	cmpl	$13, %r15d
	sete	%sil
	incb	%sil
	testl	%r15d, %r15d
	movzbl	%sil, %esi
	cmovel	%r15d, %esi
	leaq	272(%rsp), %r15
	testb	%bpl, %bpl
	vmovups	(%r15), %ymm0
	vmovups	32(%r15), %ymm1
	vmovups	64(%r15), %ymm2
	vmovups	96(%r15), %ymm3
	vmovups	%ymm3, 176(%rsp)
	vmovups	%ymm2, 144(%rsp)
	vmovups	%ymm1, 112(%rsp)
	vmovups	%ymm0, 80(%rsp)
	movb	%sil, 208(%rsp)
	movb	$0, 209(%rsp)
	movw	%r10w, 210(%rsp)
	setne	212(%rsp)
	movq	408(%rsp), %rsi
	movb	%dl, 213(%rsp)
	movw	$0, 214(%rsp)
	movb	%dil, 216(%rsp)
	movq	%r11, 32(%rsp)
	movq	%rbx, 24(%rsp)
	movq	%rsi, 16(%rsp)
	movq	%r14, 8(%rsp)
	movq	%r8, (%rsp)
	leaq	48(%rsp), %rdi
	leaq	80(%rsp), %rsi
	movl	$1, %edx
	movq	%rax, %r8
	vzeroupper
	callq	"cipher_mode::Sm4CipherMode::call.x86_64_v3"
	movzwl	72(%rsp), %eax
	cmpb	$0, 48(%rsp)
	je	.Lluossavin_x86_64_v3.BB48_3
	movzbl	49(%rsp), %esi
	xorl	%edx, %edx
	cmpl	$7, %esi
	leaq	.Lluossavin_x86_64_v3.switch.table.luossavin_edition_opens_x86_64_v3(%rip), %rdi
	movzbl	50(%rsp), %ecx
	cmovnel	%edx, %ecx
	movzbl	%cl, %ecx
	shlq	$32, %rcx
	orq	(%rdi,%rsi,8), %rcx
	jmp	.Lluossavin_x86_64_v3.BB48_5
.Lluossavin_x86_64_v3.BB48_1:
	movl	$7, %ecx
	xorl	%eax, %eax
	xorl	%edx, %edx
	jmp	.Lluossavin_x86_64_v3.BB48_5
.Lluossavin_x86_64_v3.BB48_3:
	movzbl	64(%rsp), %ecx
	movq	56(%rsp), %rdx
	andl	$1, %ecx
	shlq	$40, %rcx
.Lluossavin_x86_64_v3.BB48_5:
	movzwl	%ax, %eax
	shlq	$48, %rax
	orq	%rcx, %rax
	addq	$232, %rsp
	popq	%rbx
	popq	%r14
	popq	%r15
	popq	%rbp
	vzeroupper
	retq
.Lluossavin_x86_64_v3.func_end48:
	.size	luossavin_decrypt_x86_64_v3, .Lluossavin_x86_64_v3.func_end48-luossavin_decrypt_x86_64_v3

	.section	.rodata.cst16,"aM",@progbits,16
	.p2align	4, 0x0
.Lluossavin_x86_64_v3.CPI49_0:
	.byte	3
	.byte	6
	.byte	9
	.byte	12
	.zero	1
	.zero	1
	.zero	1
	.zero	1
	.zero	1
	.zero	1
	.zero	1
	.zero	1
	.zero	1
	.zero	1
	.zero	1
	.zero	1
	.section	.text.luossavin_edition_open_x86_64_v3,"ax",@progbits
	.globl	luossavin_edition_open_x86_64_v3
	.hidden	luossavin_edition_open_x86_64_v3
	.p2align	4
	.type	luossavin_edition_open_x86_64_v3,@function
luossavin_edition_open_x86_64_v3:
	pushq	%rbx
	subq	$224, %rsp
	movq	%r9, %rax
	movl	%esi, %ebx
	movq	384(%rsp), %rsi
	movq	376(%rsp), %r10
	xorl	%r9d, %r9d
	testq	%rdx, %rdx
	sete	%r9b
	shll	$12, %r9d
	addq	%rdx, %r9
	xorl	%edx, %edx
	testq	%r8, %r8
	sete	%dl
	shll	$12, %edx
	addq	%r8, %rdx
	xorl	%r8d, %r8d
	testq	%r10, %r10
	sete	%r8b
	shll	$12, %r8d
	addq	%r10, %r8
	vmovups	240(%rsp), %ymm0
	vmovups	272(%rsp), %ymm1
	vmovups	304(%rsp), %ymm2
	vmovups	336(%rsp), %ymm3
	vmovups	%ymm3, 176(%rsp)
	vmovups	%ymm2, 144(%rsp)
	vmovups	%ymm1, 112(%rsp)
	vmovups	%ymm0, 80(%rsp)
	movl	368(%rsp), %r10d
	movzwl	372(%rsp), %r11d
	vmovd	%edi, %xmm0
	vpbroadcastd	%xmm0, %xmm0
	vpshufb	.Lluossavin_x86_64_v3.CPI49_0(%rip), %xmm0, %xmm0
	vmovd	%xmm0, 40(%rsp)
	movzbl	375(%rsp), %edi
	movb	%bh, 44(%rsp)
	movb	%bl, 45(%rsp)
	cmpl	$13, %r10d
	sete	%bl
	incb	%bl
	testl	%r10d, %r10d
	movzbl	%bl, %ebx
	cmovel	%r10d, %ebx
	cmpb	$0, 374(%rsp)
	vpxor	%xmm0, %xmm0, %xmm0
	movl	$4, 216(%rsp)
	movb	%bl, 208(%rsp)
	movb	$0, 209(%rsp)
	movw	%r11w, 210(%rsp)
	setne	212(%rsp)
	vmovdqu	%ymm0, 48(%rsp)
	movb	%dil, 213(%rsp)
	movw	$0, 214(%rsp)
	movq	%rsi, 32(%rsp)
	movq	%r8, 24(%rsp)
	movq	%rax, 16(%rsp)
	movq	%rdx, 8(%rsp)
	movq	%rcx, (%rsp)
	leaq	48(%rsp), %rdi
	leaq	80(%rsp), %rsi
	leaq	40(%rsp), %rcx
	movl	$6, %r8d
	movl	$1, %edx
	vzeroupper
	callq	"cipher_mode::Sm4CipherMode::call.x86_64_v3"
	movzwl	72(%rsp), %eax
	cmpb	$0, 48(%rsp)
	je	.Lluossavin_x86_64_v3.BB49_1
	movzbl	49(%rsp), %edx
	xorl	%ecx, %ecx
	cmpl	$7, %edx
	leaq	.Lluossavin_x86_64_v3.switch.table.luossavin_edition_opens_x86_64_v3(%rip), %rsi
	movzbl	50(%rsp), %edi
	cmovnel	%ecx, %edi
	movq	(%rsi,%rdx,8), %rsi
	movzbl	%dil, %edi
	shlq	$32, %rdi
	xorl	%edx, %edx
	jmp	.Lluossavin_x86_64_v3.BB49_3
.Lluossavin_x86_64_v3.BB49_1:
	movzbl	64(%rsp), %ecx
	movq	56(%rsp), %rdx
	andl	$1, %ecx
	shlq	$40, %rcx
	xorl	%esi, %esi
	xorl	%edi, %edi
.Lluossavin_x86_64_v3.BB49_3:
	orq	%rcx, %rdi
	shlq	$48, %rax
	orq	%rsi, %rax
	orq	%rdi, %rax
	addq	$224, %rsp
	popq	%rbx
	retq
.Lluossavin_x86_64_v3.func_end49:
	.size	luossavin_edition_open_x86_64_v3, .Lluossavin_x86_64_v3.func_end49-luossavin_edition_open_x86_64_v3

	.section	.rodata.cst16,"aM",@progbits,16
	.p2align	4, 0x0
.Lluossavin_x86_64_v3.CPI50_0:
	.byte	3
	.byte	6
	.byte	9
	.byte	12
	.zero	1
	.zero	1
	.zero	1
	.zero	1
	.zero	1
	.zero	1
	.zero	1
	.zero	1
	.zero	1
	.zero	1
	.zero	1
	.zero	1
	.section	.text.luossavin_edition_seal_x86_64_v3,"ax",@progbits
	.globl	luossavin_edition_seal_x86_64_v3
	.hidden	luossavin_edition_seal_x86_64_v3
	.p2align	4
	.type	luossavin_edition_seal_x86_64_v3,@function
luossavin_edition_seal_x86_64_v3:
	pushq	%rbx
	subq	$224, %rsp
	movq	%r9, %rax
	movl	%esi, %ebx
	movq	384(%rsp), %rsi
	movq	376(%rsp), %r10
	xorl	%r9d, %r9d
	testq	%rdx, %rdx
	sete	%r9b
	shll	$12, %r9d
	addq	%rdx, %r9
	xorl	%edx, %edx
	testq	%r8, %r8
	sete	%dl
	shll	$12, %edx
	addq	%r8, %rdx
	xorl	%r8d, %r8d
	testq	%r10, %r10
	sete	%r8b
	shll	$12, %r8d
	addq	%r10, %r8
	vmovups	240(%rsp), %ymm0
	vmovups	272(%rsp), %ymm1
	vmovups	304(%rsp), %ymm2
	vmovups	336(%rsp), %ymm3
	vmovups	%ymm3, 176(%rsp)
	vmovups	%ymm2, 144(%rsp)
	vmovups	%ymm1, 112(%rsp)
	vmovups	%ymm0, 80(%rsp)
	movl	368(%rsp), %r10d
	movzwl	372(%rsp), %r11d
	vmovd	%edi, %xmm0
	vpbroadcastd	%xmm0, %xmm0
	vpshufb	.Lluossavin_x86_64_v3.CPI50_0(%rip), %xmm0, %xmm0
	vmovd	%xmm0, 40(%rsp)
	movzbl	375(%rsp), %edi
	movb	%bh, 44(%rsp)
	movb	%bl, 45(%rsp)
	cmpl	$13, %r10d
	sete	%bl
	incb	%bl
	testl	%r10d, %r10d
	movzbl	%bl, %ebx
	cmovel	%r10d, %ebx
	cmpb	$0, 374(%rsp)
	vpxor	%xmm0, %xmm0, %xmm0
	movl	$4, 216(%rsp)
	movb	%bl, 208(%rsp)
	movb	$0, 209(%rsp)
	movw	%r11w, 210(%rsp)
	setne	212(%rsp)
	vmovdqu	%ymm0, 48(%rsp)
	movb	%dil, 213(%rsp)
	movw	$0, 214(%rsp)
	movq	%rsi, 32(%rsp)
	movq	%r8, 24(%rsp)
	movq	%rax, 16(%rsp)
	movq	%rdx, 8(%rsp)
	movq	%rcx, (%rsp)
	leaq	48(%rsp), %rdi
	leaq	80(%rsp), %rsi
	xorl	%ebx, %ebx
	leaq	40(%rsp), %rcx
	movl	$6, %r8d
	xorl	%edx, %edx
	vzeroupper
	callq	"cipher_mode::Sm4CipherMode::call.x86_64_v3"
	movzwl	72(%rsp), %eax
	cmpb	$0, 48(%rsp)
	je	.Lluossavin_x86_64_v3.BB50_1
	movzbl	49(%rsp), %ecx
	cmpl	$7, %ecx
	leaq	.Lluossavin_x86_64_v3.switch.table.luossavin_edition_opens_x86_64_v3(%rip), %rdx
	movzbl	50(%rsp), %esi
	cmovnel	%ebx, %esi
	movq	(%rdx,%rcx,8), %rcx
	movzbl	%sil, %esi
	shlq	$32, %rsi
	xorl	%edx, %edx
	jmp	.Lluossavin_x86_64_v3.BB50_3
.Lluossavin_x86_64_v3.BB50_1:
	movzbl	64(%rsp), %ebx
	movq	56(%rsp), %rdx
	andl	$1, %ebx
	shlq	$40, %rbx
	xorl	%ecx, %ecx
	xorl	%esi, %esi
.Lluossavin_x86_64_v3.BB50_3:
	orq	%rbx, %rsi
	shlq	$48, %rax
	orq	%rcx, %rax
	orq	%rsi, %rax
	addq	$224, %rsp
	popq	%rbx
	retq
.Lluossavin_x86_64_v3.func_end50:
	.size	luossavin_edition_seal_x86_64_v3, .Lluossavin_x86_64_v3.func_end50-luossavin_edition_seal_x86_64_v3

	.section	.text.luossavin_encrypt_x86_64_v3,"ax",@progbits
	.globl	luossavin_encrypt_x86_64_v3
	.hidden	luossavin_encrypt_x86_64_v3
	.p2align	4
	.type	luossavin_encrypt_x86_64_v3,@function
luossavin_encrypt_x86_64_v3:
	pushq	%rbp
	pushq	%r15
	pushq	%r14
	pushq	%rbx
	subq	$232, %rsp
	movq	%rdx, %rax
	movl	400(%rsp), %r15d
	movzwl	404(%rsp), %r10d
	movzbl	406(%rsp), %ebp
	movzbl	407(%rsp), %edx
	vxorps	%xmm0, %xmm0, %xmm0
	vmovups	%ymm0, 48(%rsp)
	movl	$0, 216(%rsp)
	cmpl	$4, %edi
	ja	.Lluossavin_x86_64_v3.BB51_1
	movq	424(%rsp), %r11
	movq	416(%rsp), %r14
	xorl	%ebx, %ebx
	testq	%r14, %r14
	sete	%bl
	shll	$12, %ebx
	addq	%r14, %rbx
	xorl	%r14d, %r14d
	testq	%r9, %r9
	sete	%r14b
	shll	$12, %r14d
	addq	%r9, %r14
	xorl	%r9d, %r9d
	testq	%rcx, %rcx
	sete	%r9b
	shll	$12, %r9d
	addq	%rcx, %r9
	xorl	%ecx, %ecx
	testq	%rsi, %rsi
	sete	%cl
	shll	$12, %ecx
	addq	%rsi, %rcx
	cmpl	$13, %r15d
	sete	%sil
	incb	%sil
	testl	%r15d, %r15d
	movzbl	%sil, %esi
	cmovel	%r15d, %esi
	leaq	272(%rsp), %r15
	testb	%bpl, %bpl
	vmovups	(%r15), %ymm0
	vmovups	32(%r15), %ymm1
	vmovups	64(%r15), %ymm2
	vmovups	96(%r15), %ymm3
	vmovups	%ymm3, 176(%rsp)
	vmovups	%ymm2, 144(%rsp)
	vmovups	%ymm1, 112(%rsp)
	vmovups	%ymm0, 80(%rsp)
	movb	%sil, 208(%rsp)
	movb	$0, 209(%rsp)
	movw	%r10w, 210(%rsp)
	setne	212(%rsp)
	movq	408(%rsp), %rsi
	movb	%dl, 213(%rsp)
	movw	$0, 214(%rsp)
	movb	%dil, 216(%rsp)
	movq	%r11, 32(%rsp)
	movq	%rbx, 24(%rsp)
	movq	%rsi, 16(%rsp)
	movq	%r14, 8(%rsp)
	movq	%r8, (%rsp)
	leaq	48(%rsp), %rdi
	leaq	80(%rsp), %rsi
	xorl	%ebx, %ebx
	xorl	%edx, %edx
	movq	%rax, %r8
	vzeroupper
	callq	"cipher_mode::Sm4CipherMode::call.x86_64_v3"
	movzwl	72(%rsp), %eax
	cmpb	$0, 48(%rsp)
	je	.Lluossavin_x86_64_v3.BB51_3
	movzbl	49(%rsp), %edx
	cmpl	$7, %edx
	leaq	.Lluossavin_x86_64_v3.switch.table.luossavin_edition_opens_x86_64_v3(%rip), %rsi
	movzbl	50(%rsp), %ecx
	cmovnel	%ebx, %ecx
	movzbl	%cl, %ecx
	shlq	$32, %rcx
	orq	(%rsi,%rdx,8), %rcx
	jmp	.Lluossavin_x86_64_v3.BB51_5
.Lluossavin_x86_64_v3.BB51_1:
	movl	$7, %ecx
	xorl	%eax, %eax
	xorl	%ebx, %ebx
	jmp	.Lluossavin_x86_64_v3.BB51_5
.Lluossavin_x86_64_v3.BB51_3:
	movzbl	64(%rsp), %ecx
	movq	56(%rsp), %rbx
	andl	$1, %ecx
	shlq	$40, %rcx
.Lluossavin_x86_64_v3.BB51_5:
	movzwl	%ax, %eax
	shlq	$48, %rax
	orq	%rcx, %rax
	movq	%rbx, %rdx
	addq	$232, %rsp
	popq	%rbx
	popq	%r14
	popq	%r15
	popq	%rbp
	vzeroupper
	retq
.Lluossavin_x86_64_v3.func_end51:
	.size	luossavin_encrypt_x86_64_v3, .Lluossavin_x86_64_v3.func_end51-luossavin_encrypt_x86_64_v3

	.section	.rodata.cst16,"aM",@progbits,16
	.p2align	4, 0x0
.Lluossavin_x86_64_v3.CPI52_0:
	.byte	3
	.byte	6
	.byte	9
	.byte	12
	.zero	1
	.zero	1
	.zero	1
	.zero	1
	.zero	1
	.zero	1
	.zero	1
	.zero	1
	.zero	1
	.zero	1
	.zero	1
	.zero	1
	.section	.text.luossavin_edition_opens_x86_64_v3,"ax",@progbits
	.globl	luossavin_edition_opens_x86_64_v3
	.hidden	luossavin_edition_opens_x86_64_v3
	.p2align	4
	.type	luossavin_edition_opens_x86_64_v3,@function
luossavin_edition_opens_x86_64_v3:
	subq	$232, %rsp
	movl	%esi, %eax
	xorl	%esi, %esi
	testq	%rdx, %rdx
	sete	%sil
	shll	$12, %esi
	addq	%rsi, %rdx
	xorl	%esi, %esi
	testq	%r8, %r8
	sete	%sil
	shll	$12, %esi
	addq	%rsi, %r8
	movl	368(%rsp), %r11d
	movzwl	372(%rsp), %r10d
	movzbl	375(%rsp), %esi
	vxorps	%xmm0, %xmm0, %xmm0
	vmovups	%ymm0, 48(%rsp)
	vmovups	%ymm0, 64(%rsp)
	vmovd	%edi, %xmm0
	vpbroadcastd	%xmm0, %xmm0
	vpshufb	.Lluossavin_x86_64_v3.CPI52_0(%rip), %xmm0, %xmm0
	vmovd	%xmm0, 32(%rsp)
	movb	%ah, 36(%rsp)
	cmpl	$13, %r11d
	sete	%dil
	incb	%dil
	testl	%r11d, %r11d
	movzbl	%dil, %edi
	cmovel	%r11d, %edi
	cmpb	$0, 374(%rsp)
	vmovups	240(%rsp), %ymm0
	vmovups	272(%rsp), %ymm1
	vmovups	304(%rsp), %ymm2
	vmovups	336(%rsp), %ymm3
	vmovups	%ymm0, 96(%rsp)
	vmovups	%ymm1, 128(%rsp)
	vmovups	%ymm2, 160(%rsp)
	vmovups	%ymm3, 192(%rsp)
	movb	%dil, 224(%rsp)
	movb	$0, 225(%rsp)
	movw	%r10w, 226(%rsp)
	setne	228(%rsp)
	movb	%al, 37(%rsp)
	movq	$6, 40(%rsp)
	movb	%sil, 229(%rsp)
	movw	$0, 230(%rsp)
	leaq	40(%rsp), %rax
	movq	%rax, 16(%rsp)
	leaq	32(%rsp), %rax
	movq	%rax, (%rsp)
	movq	$1, 24(%rsp)
	movq	$6, 8(%rsp)
	leaq	48(%rsp), %rdi
	leaq	96(%rsp), %rsi
	vzeroupper
	callq	"editions::which.x86_64_v3"
	movzwl	88(%rsp), %eax
	cmpb	$0, 48(%rsp)
	je	.Lluossavin_x86_64_v3.BB52_1
	xorl	%edx, %edx
	cmpb	$0, 49(%rsp)
	je	.Lluossavin_x86_64_v3.BB52_3
	movzbl	50(%rsp), %esi
	leaq	.Lluossavin_x86_64_v3.switch.table.luossavin_edition_opens_x86_64_v3(%rip), %rcx
	movq	(%rcx,%rsi,8), %rcx
	cmpq	$7, %rsi
	movzbl	51(%rsp), %esi
	cmovel	%esi, %edx
	movzbl	%dl, %edx
	shlq	$32, %rdx
	jmp	.Lluossavin_x86_64_v3.BB52_5
.Lluossavin_x86_64_v3.BB52_1:
	xorl	%ecx, %ecx
	cmpb	$1, 56(%rsp)
	setne	%cl
	shll	$2, %ecx
	xorl	%edx, %edx
	jmp	.Lluossavin_x86_64_v3.BB52_5
.Lluossavin_x86_64_v3.BB52_3:
	movl	$16, %ecx
.Lluossavin_x86_64_v3.BB52_5:
	orq	%rdx, %rcx
	shlq	$48, %rax
	orq	%rcx, %rax
	xorl	%edx, %edx
	addq	$232, %rsp
	retq
.Lluossavin_x86_64_v3.func_end52:
	.size	luossavin_edition_opens_x86_64_v3, .Lluossavin_x86_64_v3.func_end52-luossavin_edition_opens_x86_64_v3

	.section	.text.luossavin_which_x86_64_v3,"ax",@progbits
	.globl	luossavin_which_x86_64_v3
	.hidden	luossavin_which_x86_64_v3
	.p2align	4
	.type	luossavin_which_x86_64_v3,@function
luossavin_which_x86_64_v3:
	pushq	%rbp
	pushq	%r15
	pushq	%r14
	pushq	%rbx
	subq	$216, %rsp
	movq	%r8, %rax
	movq	%rcx, %r10
	movq	%rdx, %rcx
	movq	%rdi, %rbx
	movq	392(%rsp), %rdi
	movq	408(%rsp), %r11
	movq	400(%rsp), %r14
	xorl	%edx, %edx
	testq	%rsi, %rsi
	sete	%dl
	shll	$12, %edx
	addq	%rsi, %rdx
	xorl	%r8d, %r8d
	testq	%r10, %r10
	sete	%r8b
	shll	$12, %r8d
	addq	%r10, %r8
	xorl	%esi, %esi
	testq	%r9, %r9
	sete	%sil
	shll	$12, %esi
	addq	%r9, %rsi
	xorl	%r9d, %r9d
	testq	%r14, %r14
	sete	%r9b
	shll	$12, %r9d
	addq	%r14, %r9
	movl	384(%rsp), %r10d
	movzwl	388(%rsp), %ebp
	vxorps	%xmm0, %xmm0, %xmm0
	vmovups	%ymm0, 32(%rsp)
	movzbl	391(%rsp), %r14d
	cmpl	$13, %r10d
	sete	%r15b
	incb	%r15b
	testl	%r10d, %r10d
	movzbl	%r15b, %r15d
	cmovel	%r10d, %r15d
	cmpb	$0, 390(%rsp)
	vmovups	256(%rsp), %ymm1
	vmovups	288(%rsp), %ymm2
	vmovups	320(%rsp), %ymm3
	vmovups	%ymm1, 80(%rsp)
	vmovups	352(%rsp), %ymm1
	vmovups	%ymm2, 112(%rsp)
	vmovups	%ymm3, 144(%rsp)
	vmovups	%ymm1, 176(%rsp)
	movb	%r15b, 208(%rsp)
	movb	$0, 209(%rsp)
	movw	%bp, 210(%rsp)
	setne	212(%rsp)
	vmovups	%ymm0, 48(%rsp)
	movb	%r14b, 213(%rsp)
	movw	$0, 214(%rsp)
	movq	%r11, 24(%rsp)
	movq	%r9, 16(%rsp)
	movq	%rdi, 8(%rsp)
	movq	%rsi, (%rsp)
	leaq	32(%rsp), %rdi
	leaq	80(%rsp), %rsi
	movq	%rax, %r9
	vzeroupper
	callq	"editions::which.x86_64_v3"
	movzwl	72(%rsp), %eax
	cmpb	$0, 32(%rsp)
	je	.Lluossavin_x86_64_v3.BB53_3
	vxorps	%xmm0, %xmm0, %xmm0
	cmpb	$0, 33(%rsp)
	je	.Lluossavin_x86_64_v3.BB53_5
	movzbl	34(%rsp), %ecx
	leaq	.Lluossavin_x86_64_v3.switch.table.luossavin_which_x86_64_v3(%rip), %rdx
	movl	(%rdx,%rcx,4), %esi
	xorl	%edx, %edx
	cmpq	$7, %rcx
	movzbl	35(%rsp), %ecx
	cmovnel	%edx, %ecx
	jmp	.Lluossavin_x86_64_v3.BB53_8
.Lluossavin_x86_64_v3.BB53_3:
	cmpb	$1, 40(%rsp)
	jne	.Lluossavin_x86_64_v3.BB53_6
	movl	48(%rsp), %edi
	vmovups	56(%rsp), %xmm0
	movl	$1, %edx
	xorl	%ecx, %ecx
	xorl	%esi, %esi
	jmp	.Lluossavin_x86_64_v3.BB53_9
.Lluossavin_x86_64_v3.BB53_5:
	xorl	%ecx, %ecx
	movl	$16, %esi
	jmp	.Lluossavin_x86_64_v3.BB53_7
.Lluossavin_x86_64_v3.BB53_6:
	vxorps	%xmm0, %xmm0, %xmm0
	xorl	%ecx, %ecx
	xorl	%esi, %esi
.Lluossavin_x86_64_v3.BB53_7:
	xorl	%edx, %edx
.Lluossavin_x86_64_v3.BB53_8:
	xorl	%edi, %edi
.Lluossavin_x86_64_v3.BB53_9:
	movl	%esi, (%rbx)
	movb	%cl, 4(%rbx)
	movb	$0, 5(%rbx)
	movw	%ax, 6(%rbx)
	movq	$0, 8(%rbx)
	movl	%edx, 16(%rbx)
	movl	%edi, 20(%rbx)
	vmovups	%xmm0, 24(%rbx)
	movq	%rbx, %rax
	addq	$216, %rsp
	popq	%rbx
	popq	%r14
	popq	%r15
	popq	%rbp
	retq
.Lluossavin_x86_64_v3.func_end53:
	.size	luossavin_which_x86_64_v3, .Lluossavin_x86_64_v3.func_end53-luossavin_which_x86_64_v3

	.section	.text.luossavin_shelf_collect_x86_64_v3,"ax",@progbits
	.globl	luossavin_shelf_collect_x86_64_v3
	.hidden	luossavin_shelf_collect_x86_64_v3
	.p2align	4
	.type	luossavin_shelf_collect_x86_64_v3,@function
luossavin_shelf_collect_x86_64_v3:
	pushq	%rbp
	pushq	%r15
	pushq	%r14
	pushq	%r13
	pushq	%r12
	pushq	%rbx
	xorl	%ecx, %ecx
	testq	%rdi, %rdi
	sete	%al
	cmpq	$65537, %rsi
	setae	%r8b
	cmpq	%rdx, %rsi
	setb	%sil
	orb	%r8b, %sil
	jne	.Lluossavin_x86_64_v3.BB54_64
	cmpq	$12, %rdx
	jae	.Lluossavin_x86_64_v3.BB54_2
	testq	%rdx, %rdx
	jne	.Lluossavin_x86_64_v3.BB54_64
	xorl	%eax, %eax
	xorl	%edx, %edx
	jmp	.Lluossavin_x86_64_v3.BB54_65
.Lluossavin_x86_64_v3.BB54_2:
	movb	%al, %cl
	shll	$12, %ecx
	leaq	(%rdi,%rcx), %rax
	xorl	%esi, %esi
	movq	%rdx, %r8
	movq	%rax, %r9
	jmp	.Lluossavin_x86_64_v3.BB54_3
	.p2align	4
.Lluossavin_x86_64_v3.BB54_16:
	leaq	12(%r10), %r11
	subq	%r11, %r8
	addq	%r10, %r9
	addq	$12, %r9
	addq	%r11, %rsi
	cmpq	$11, %r8
	jbe	.Lluossavin_x86_64_v3.BB54_17
.Lluossavin_x86_64_v3.BB54_3:
	cmpb	$82, (%r9)
	jne	.Lluossavin_x86_64_v3.BB54_17
	movzbl	1(%r9), %r11d
	cmpl	$88, %r11d
	je	.Lluossavin_x86_64_v3.BB54_6
	cmpl	$68, %r11d
	jne	.Lluossavin_x86_64_v3.BB54_17
.Lluossavin_x86_64_v3.BB54_6:
	leaq	-12(%r8), %rbx
	movbel	8(%r9), %r10d
	cmpq	%r10, %rbx
	jb	.Lluossavin_x86_64_v3.BB54_17
	cmpb	$68, %r11b
	jne	.Lluossavin_x86_64_v3.BB54_16
	movl	2(%r9), %r11d
	movq	%rsi, %rbx
	movq	%rax, %r15
	.p2align	4
.Lluossavin_x86_64_v3.BB54_9:
	cmpq	$12, %rbx
	jb	.Lluossavin_x86_64_v3.BB54_16
	movq	%r15, %r14
	cmpb	$82, (%r15)
	jne	.Lluossavin_x86_64_v3.BB54_16
	movzbl	1(%r14), %ebp
	cmpl	$88, %ebp
	je	.Lluossavin_x86_64_v3.BB54_13
	cmpl	$68, %ebp
	jne	.Lluossavin_x86_64_v3.BB54_16
.Lluossavin_x86_64_v3.BB54_13:
	leaq	-12(%rbx), %r12
	movbel	8(%r14), %r15d
	cmpq	%r15, %r12
	jb	.Lluossavin_x86_64_v3.BB54_16
	leaq	12(%r15), %r12
	subq	%r12, %rbx
	addq	%r14, %r15
	addq	$12, %r15
	cmpb	$68, %bpl
	jne	.Lluossavin_x86_64_v3.BB54_9
	cmpl	%r11d, 2(%r14)
	jne	.Lluossavin_x86_64_v3.BB54_9
.Lluossavin_x86_64_v3.BB54_17:
	cmpq	%rdx, %rsi
	jne	.Lluossavin_x86_64_v3.BB54_64
	leaq	(%rcx,%rdi), %rsi
	addq	$96, %rsi
	movq	%rsi, -16(%rsp)
	leaq	7(%rcx,%rdi), %rsi
	movq	%rsi, -8(%rsp)
	leaq	-20(%rcx,%rdi), %rsi
	movq	%rsi, -24(%rsp)
	leaq	(%rcx,%rdi), %r11
	addq	$-4, %r11
	addq	%rcx, %rdi
	decq	%rdi
	xorl	%ecx, %ecx
	movq	%rdx, %rsi
	xorl	%ebx, %ebx
	jmp	.Lluossavin_x86_64_v3.BB54_19
.Lluossavin_x86_64_v3.BB54_64:
	movl	$19, %eax
.Lluossavin_x86_64_v3.BB54_65:
	popq	%rbx
	popq	%r12
	popq	%r13
	popq	%r14
	popq	%r15
	popq	%rbp
	vzeroupper
	retq
	.p2align	4
.Lluossavin_x86_64_v3.BB54_62:
	addq	%rsi, %rcx
.Lluossavin_x86_64_v3.BB54_63:
	addq	%r8, %rbx
	addq	$12, %rbx
	movq	%rdx, %rsi
	subq	%rbx, %rsi
	cmpq	$12, %rsi
	jb	.Lluossavin_x86_64_v3.BB54_20
.Lluossavin_x86_64_v3.BB54_19:
	cmpb	$82, (%rax,%rbx)
	jne	.Lluossavin_x86_64_v3.BB54_20
	leaq	(%rax,%rbx), %r12
	movzbl	1(%r12), %r10d
	cmpl	$88, %r10d
	je	.Lluossavin_x86_64_v3.BB54_25
	cmpl	$68, %r10d
	jne	.Lluossavin_x86_64_v3.BB54_20
.Lluossavin_x86_64_v3.BB54_25:
	addq	$-12, %rsi
	movbel	8(%r12), %r8d
	cmpq	%r8, %rsi
	jb	.Lluossavin_x86_64_v3.BB54_20
	cmpb	$68, %r10b
	jne	.Lluossavin_x86_64_v3.BB54_63
	leaq	12(%r8), %rsi
	movq	%rcx, %r10
	subq	%rbx, %r10
	jbe	.Lluossavin_x86_64_v3.BB54_28
	cmpl	$4, %r8d
	setb	%r9b
	movq	%rbx, %r10
	subq	%rcx, %r10
	cmpq	$128, %r10
	setb	%r10b
	orb	%r9b, %r10b
	movq	%rsi, %r13
	jne	.Lluossavin_x86_64_v3.BB54_56
	cmpl	$116, %r8d
	jae	.Lluossavin_x86_64_v3.BB54_51
	xorl	%r12d, %r12d
	jmp	.Lluossavin_x86_64_v3.BB54_48
	.p2align	4
.Lluossavin_x86_64_v3.BB54_28:
	leaq	(%rax,%rcx), %r13
	cmpq	$128, %r10
	jae	.Lluossavin_x86_64_v3.BB54_30
	xorl	%r15d, %r15d
	jmp	.Lluossavin_x86_64_v3.BB54_39
.Lluossavin_x86_64_v3.BB54_30:
	cmpl	$116, %r8d
	jae	.Lluossavin_x86_64_v3.BB54_32
	xorl	%r15d, %r15d
	jmp	.Lluossavin_x86_64_v3.BB54_36
.Lluossavin_x86_64_v3.BB54_51:
	movq	%rsi, %r12
	movabsq	$8589934464, %r9
	andq	%r9, %r12
	leaq	(%rbx,%r8), %r14
	movq	-24(%rsp), %r9
	addq	%r9, %r14
	leaq	(%rcx,%r8), %r15
	addq	%r9, %r15
	movq	%rsi, %r13
	andq	$-128, %r13
	negq	%r13
	xorl	%r10d, %r10d
	.p2align	4
.Lluossavin_x86_64_v3.BB54_52:
	vmovups	-96(%r14,%r10), %ymm0
	vmovups	-64(%r14,%r10), %ymm1
	vmovups	-32(%r14,%r10), %ymm2
	vmovups	(%r14,%r10), %ymm3
	vmovups	%ymm3, (%r15,%r10)
	vmovups	%ymm2, -32(%r15,%r10)
	vmovups	%ymm1, -64(%r15,%r10)
	vmovups	%ymm0, -96(%r15,%r10)
	addq	$-128, %r10
	cmpq	%r10, %r13
	jne	.Lluossavin_x86_64_v3.BB54_52
	cmpq	%r12, %rsi
	je	.Lluossavin_x86_64_v3.BB54_62
	testb	$112, %sil
	je	.Lluossavin_x86_64_v3.BB54_55
.Lluossavin_x86_64_v3.BB54_48:
	movabsq	$8589934464, %r9
	leaq	112(%r9), %r15
	andq	%rsi, %r15
	movl	%esi, %r13d
	andl	$15, %r13d
	leaq	(%rbx,%r8), %r14
	subq	%r12, %r14
	addq	%r11, %r14
	leaq	(%rcx,%r8), %rbp
	subq	%r12, %rbp
	addq	%r11, %rbp
	subq	%r15, %r12
	xorl	%r10d, %r10d
	.p2align	4
.Lluossavin_x86_64_v3.BB54_49:
	vmovups	(%r14,%r10), %xmm0
	vmovups	%xmm0, (%rbp,%r10)
	addq	$-16, %r10
	cmpq	%r10, %r12
	jne	.Lluossavin_x86_64_v3.BB54_49
	cmpq	%r15, %rsi
	je	.Lluossavin_x86_64_v3.BB54_62
.Lluossavin_x86_64_v3.BB54_56:
	movq	%r13, %r14
	movq	%r13, %r15
	andq	$7, %r14
	je	.Lluossavin_x86_64_v3.BB54_59
.Lluossavin_x86_64_v3.BB54_57:
	leaq	(%rdi,%rcx), %r10
	leaq	(%rdi,%rbx), %r12
	movq	%r13, %r15
	.p2align	4
.Lluossavin_x86_64_v3.BB54_58:
	movzbl	(%r12,%r15), %r9d
	movb	%r9b, (%r10,%r15)
	decq	%r15
	decq	%r14
	jne	.Lluossavin_x86_64_v3.BB54_58
.Lluossavin_x86_64_v3.BB54_59:
	decq	%r13
	cmpq	$7, %r13
	jb	.Lluossavin_x86_64_v3.BB54_62
	leaq	(%rdi,%rcx), %r14
	leaq	(%rdi,%rbx), %r12
	movq	%r15, %r13
	.p2align	4
.Lluossavin_x86_64_v3.BB54_61:
	movzbl	(%r12,%r15), %r9d
	movb	%r9b, (%r14,%r15)
	movzbl	-1(%r12,%r15), %r9d
	movb	%r9b, -1(%r14,%r15)
	movzbl	-2(%r12,%r15), %r9d
	movb	%r9b, -2(%r14,%r15)
	movzbl	-3(%r12,%r15), %r9d
	movb	%r9b, -3(%r14,%r15)
	movzbl	-4(%r12,%r15), %r9d
	movb	%r9b, -4(%r14,%r15)
	movzbl	-5(%r12,%r15), %r9d
	movb	%r9b, -5(%r14,%r15)
	movzbl	-6(%r12,%r15), %r9d
	movb	%r9b, -6(%r14,%r15)
	addq	$-8, %r13
	movzbl	-7(%r12,%r15), %r9d
	movb	%r9b, -7(%r14,%r15)
	movq	%r13, %r15
	jne	.Lluossavin_x86_64_v3.BB54_61
	jmp	.Lluossavin_x86_64_v3.BB54_62
.Lluossavin_x86_64_v3.BB54_32:
	movq	%rsi, %r15
	movabsq	$8589934464, %r9
	andq	%r9, %r15
	movq	-16(%rsp), %r9
	leaq	(%r9,%rcx), %r14
	leaq	(%r9,%rbx), %rbp
	xorl	%r10d, %r10d
	.p2align	4
.Lluossavin_x86_64_v3.BB54_33:
	vmovups	-96(%rbp,%r10), %ymm0
	vmovups	-64(%rbp,%r10), %ymm1
	vmovups	-32(%rbp,%r10), %ymm2
	vmovups	(%rbp,%r10), %ymm3
	vmovups	%ymm0, -96(%r14,%r10)
	vmovups	%ymm1, -64(%r14,%r10)
	vmovups	%ymm2, -32(%r14,%r10)
	vmovups	%ymm3, (%r14,%r10)
	subq	$-128, %r10
	cmpq	%r10, %r15
	jne	.Lluossavin_x86_64_v3.BB54_33
	cmpq	%r15, %rsi
	je	.Lluossavin_x86_64_v3.BB54_62
	testb	$120, %sil
	je	.Lluossavin_x86_64_v3.BB54_39
.Lluossavin_x86_64_v3.BB54_36:
	movq	%r15, %r10
	movabsq	$8589934464, %r9
	leaq	120(%r9), %r15
	andq	%rsi, %r15
	.p2align	4
.Lluossavin_x86_64_v3.BB54_37:
	movq	(%r12,%r10), %r14
	movq	%r14, (%r13,%r10)
	addq	$8, %r10
	cmpq	%r10, %r15
	jne	.Lluossavin_x86_64_v3.BB54_37
	cmpq	%r15, %rsi
	je	.Lluossavin_x86_64_v3.BB54_62
.Lluossavin_x86_64_v3.BB54_39:
	movl	%r8d, %r14d
	andl	$7, %r14d
	movq	%r15, %rbp
	cmpq	$4, %r14
	je	.Lluossavin_x86_64_v3.BB54_42
	movl	$1, %r10d
	movq	%r15, %rbp
	.p2align	4
.Lluossavin_x86_64_v3.BB54_41:
	movzbl	(%r12,%rbp), %r9d
	movb	%r9b, (%r13,%rbp)
	incq	%rbp
	movq	%r14, %r9
	xorq	%r10, %r9
	incq	%r10
	cmpq	$4, %r9
	jne	.Lluossavin_x86_64_v3.BB54_41
.Lluossavin_x86_64_v3.BB54_42:
	negq	%r15
	leaq	(%r8,%r15), %r9
	addq	$11, %r9
	cmpq	$7, %r9
	jb	.Lluossavin_x86_64_v3.BB54_62
	movq	-8(%rsp), %r9
	leaq	(%r9,%rcx), %r14
	leaq	(%r9,%rbx), %r15
	.p2align	4
.Lluossavin_x86_64_v3.BB54_44:
	movzbl	-7(%r15,%rbp), %r9d
	movb	%r9b, -7(%r14,%rbp)
	movzbl	-6(%r15,%rbp), %r9d
	movb	%r9b, -6(%r14,%rbp)
	movzbl	-5(%r15,%rbp), %r9d
	movb	%r9b, -5(%r14,%rbp)
	movzbl	-4(%r15,%rbp), %r9d
	movb	%r9b, -4(%r14,%rbp)
	movzbl	-3(%r15,%rbp), %r9d
	movb	%r9b, -3(%r14,%rbp)
	movzbl	-2(%r15,%rbp), %r9d
	movb	%r9b, -2(%r14,%rbp)
	movzbl	-1(%r15,%rbp), %r9d
	movb	%r9b, -1(%r14,%rbp)
	movzbl	(%r15,%rbp), %r9d
	movb	%r9b, (%r14,%rbp)
	addq	$8, %rbp
	cmpq	%rbp, %rsi
	jne	.Lluossavin_x86_64_v3.BB54_44
	jmp	.Lluossavin_x86_64_v3.BB54_62
.Lluossavin_x86_64_v3.BB54_55:
	movl	%esi, %r13d
	andl	$127, %r13d
	movq	%r13, %r14
	movq	%r13, %r15
	andq	$7, %r14
	jne	.Lluossavin_x86_64_v3.BB54_57
	jmp	.Lluossavin_x86_64_v3.BB54_59
.Lluossavin_x86_64_v3.BB54_20:
	xorl	%eax, %eax
	movq	%rcx, %rdx
	jmp	.Lluossavin_x86_64_v3.BB54_65
.Lluossavin_x86_64_v3.func_end54:
	.size	luossavin_shelf_collect_x86_64_v3, .Lluossavin_x86_64_v3.func_end54-luossavin_shelf_collect_x86_64_v3

	.section	.text.luossavin_shelf_put_x86_64_v3,"ax",@progbits
	.globl	luossavin_shelf_put_x86_64_v3
	.hidden	luossavin_shelf_put_x86_64_v3
	.p2align	4
	.type	luossavin_shelf_put_x86_64_v3,@function
luossavin_shelf_put_x86_64_v3:
	pushq	%rbp
	pushq	%r15
	pushq	%r14
	pushq	%r13
	pushq	%r12
	pushq	%rbx
	subq	$88, %rsp
	xorl	%r12d, %r12d
	testq	%rdi, %rdi
	sete	%r11b
	testq	%r9, %r9
	sete	%bl
	cmpq	$65537, %rsi
	setae	%al
	cmpq	%rdx, %rsi
	setb	%r10b
	orb	%al, %r10b
	movl	$19, %eax
	jne	.Lluossavin_x86_64_v3.BB55_112
	movb	%bl, 48(%rsp)
	movl	%r8d, 20(%rsp)
	movb	%r11b, %r12b
	shll	$12, %r12d
	leaq	(%rdi,%r12), %r8
	cmpq	$12, %rdx
	jae	.Lluossavin_x86_64_v3.BB55_4
	testq	%rdx, %rdx
	jne	.Lluossavin_x86_64_v3.BB55_112
	movq	%r8, %rbp
	movl	$12, %r10d
	jmp	.Lluossavin_x86_64_v3.BB55_30
.Lluossavin_x86_64_v3.BB55_4:
	movq	%r12, 32(%rsp)
	movq	%rdi, 8(%rsp)
	movq	%r9, 40(%rsp)
	xorl	%r11d, %r11d
	movq	%rdx, %r15
	movq	%r8, %rbp
	movq	%r8, %r12
	jmp	.Lluossavin_x86_64_v3.BB55_6
	.p2align	4
.Lluossavin_x86_64_v3.BB55_5:
	leaq	12(%r13), %rdi
	subq	%rdi, %r15
	addq	%r13, %r12
	addq	$12, %r12
	addq	%rdi, %r11
	cmpq	$11, %r15
	jbe	.Lluossavin_x86_64_v3.BB55_19
.Lluossavin_x86_64_v3.BB55_6:
	cmpb	$82, (%r12)
	jne	.Lluossavin_x86_64_v3.BB55_19
	movzbl	1(%r12), %r8d
	cmpl	$88, %r8d
	je	.Lluossavin_x86_64_v3.BB55_9
	cmpl	$68, %r8d
	jne	.Lluossavin_x86_64_v3.BB55_19
.Lluossavin_x86_64_v3.BB55_9:
	leaq	-12(%r15), %r9
	movbel	8(%r12), %r13d
	cmpq	%r13, %r9
	jb	.Lluossavin_x86_64_v3.BB55_19
	cmpb	$68, %r8b
	jne	.Lluossavin_x86_64_v3.BB55_5
	movl	2(%r12), %r14d
	movq	%r11, %rbx
	movq	%rbp, %r9
	.p2align	4
.Lluossavin_x86_64_v3.BB55_12:
	cmpq	$12, %rbx
	jb	.Lluossavin_x86_64_v3.BB55_5
	movq	%r9, %r10
	cmpb	$82, (%r9)
	jne	.Lluossavin_x86_64_v3.BB55_5
	movzbl	1(%r10), %r8d
	cmpl	$88, %r8d
	je	.Lluossavin_x86_64_v3.BB55_16
	cmpl	$68, %r8d
	jne	.Lluossavin_x86_64_v3.BB55_5
.Lluossavin_x86_64_v3.BB55_16:
	leaq	-12(%rbx), %rdi
	movbel	8(%r10), %r9d
	cmpq	%r9, %rdi
	jb	.Lluossavin_x86_64_v3.BB55_5
	leaq	12(%r9), %rdi
	subq	%rdi, %rbx
	addq	%r10, %r9
	addq	$12, %r9
	cmpb	$68, %r8b
	jne	.Lluossavin_x86_64_v3.BB55_12
	cmpl	%r14d, 2(%r10)
	jne	.Lluossavin_x86_64_v3.BB55_12
.Lluossavin_x86_64_v3.BB55_19:
	cmpq	%rdx, %r11
	jne	.Lluossavin_x86_64_v3.BB55_112
	xorl	%eax, %eax
	movq	%rdx, %rbx
	movq	%rbp, %r14
	movq	40(%rsp), %r9
	movq	8(%rsp), %rdi
	movq	32(%rsp), %r12
	jmp	.Lluossavin_x86_64_v3.BB55_22
	.p2align	4
.Lluossavin_x86_64_v3.BB55_21:
	leaq	12(%r8), %r15
	subq	%r15, %rbx
	addq	%r8, %r14
	addq	$12, %r14
	xorl	%r8d, %r8d
	cmpl	%r11d, %ecx
	cmoveq	%r8, %r15
	cmpb	$68, %r10b
	cmovneq	%r8, %r15
	addq	%r15, %rax
	cmpq	$11, %rbx
	jbe	.Lluossavin_x86_64_v3.BB55_29
.Lluossavin_x86_64_v3.BB55_22:
	cmpb	$82, (%r14)
	jne	.Lluossavin_x86_64_v3.BB55_29
	movzbl	1(%r14), %r10d
	cmpl	$88, %r10d
	je	.Lluossavin_x86_64_v3.BB55_25
	cmpl	$68, %r10d
	jne	.Lluossavin_x86_64_v3.BB55_29
.Lluossavin_x86_64_v3.BB55_25:
	leaq	-12(%rbx), %r11
	movbel	8(%r14), %r8d
	cmpq	%r8, %r11
	jb	.Lluossavin_x86_64_v3.BB55_29
	movbel	2(%r14), %r11d
	cmpl	%ecx, %r11d
	jne	.Lluossavin_x86_64_v3.BB55_21
	movbew	6(%r14), %r15w
	cmpw	%r15w, 20(%rsp)
	ja	.Lluossavin_x86_64_v3.BB55_21
	movl	$20, %eax
	jmp	.Lluossavin_x86_64_v3.BB55_112
.Lluossavin_x86_64_v3.BB55_29:
	addq	$12, %rax
	movq	$-1, %r10
	cmovaeq	%rax, %r10
.Lluossavin_x86_64_v3.BB55_30:
	movq	144(%rsp), %r11
	addq	%r11, %r10
	movq	$-1, %r8
	cmovbq	%r8, %r10
	movl	$21, %eax
	cmpq	%r10, %rsi
	jb	.Lluossavin_x86_64_v3.BB55_112
	xorl	%r10d, %r10d
	movzbl	48(%rsp), %eax
	movb	%al, %r10b
	shll	$12, %r10d
	movq	%rsi, %rax
	movq	%r10, 48(%rsp)
	leaq	(%r9,%r10), %rsi
	movq	%rdx, %r10
	addq	$12, %r10
	cmovbq	%r8, %r10
	addq	%r11, %r10
	cmovbq	%r8, %r10
	cmpq	%r10, %rax
	movq	%r9, 40(%rsp)
	movq	%rdi, 8(%rsp)
	jae	.Lluossavin_x86_64_v3.BB55_34
	cmpq	$12, %rdx
	jae	.Lluossavin_x86_64_v3.BB55_40
	xorl	%r9d, %r9d
	jmp	.Lluossavin_x86_64_v3.BB55_36
.Lluossavin_x86_64_v3.BB55_34:
	cmpq	$12, %rdx
	jae	.Lluossavin_x86_64_v3.BB55_84
.Lluossavin_x86_64_v3.BB55_35:
	movq	%rdx, %r9
.Lluossavin_x86_64_v3.BB55_36:
	movl	%ecx, %eax
	movzwl	20(%rsp), %edx
	bswapq	%rdx
	shrl	$8, %eax
	movzbl	%cl, %edi
	shlq	$40, %rdi
	orq	%rdx, %rdi
	movzbl	%al, %edx
	shlq	$32, %rdx
	orq	%rdi, %rdx
	shll	$8, %ecx
	andl	$-16777216, %ecx
	orq	%rdx, %rcx
	andl	$16711680, %eax
	addq	%rcx, %rax
	addq	$17490, %rax
	movq	%rax, (%rbp,%r9)
	movq	144(%rsp), %rbx
	movbel	%ebx, 8(%rbp,%r9)
	leaq	(%r9,%rbp), %rax
	addq	$12, %rax
	movq	%rax, %rcx
	subq	%rsi, %rcx
	cmpq	%rbx, %rcx
	jae	.Lluossavin_x86_64_v3.BB55_39
	cmpq	$8, %rbx
	jb	.Lluossavin_x86_64_v3.BB55_38
	leaq	(%r12,%r9), %r8
	movq	8(%rsp), %rcx
	addq	%r8, %rcx
	subq	%rsi, %rcx
	addq	$12, %rcx
	cmpq	$128, %rcx
	jae	.Lluossavin_x86_64_v3.BB55_95
.Lluossavin_x86_64_v3.BB55_38:
	xorl	%ecx, %ecx
.Lluossavin_x86_64_v3.BB55_105:
	movq	%rbx, %r10
	movq	%rcx, %rdx
	andq	$7, %r10
	je	.Lluossavin_x86_64_v3.BB55_108
	movq	%rcx, %rdx
	.p2align	4
.Lluossavin_x86_64_v3.BB55_107:
	movzbl	(%rsi,%rdx), %edi
	movb	%dil, (%rax,%rdx)
	incq	%rdx
	decq	%r10
	jne	.Lluossavin_x86_64_v3.BB55_107
.Lluossavin_x86_64_v3.BB55_108:
	subq	%rbx, %rcx
	cmpq	$-8, %rcx
	ja	.Lluossavin_x86_64_v3.BB55_111
	movq	40(%rsp), %rax
	movq	48(%rsp), %rcx
	addq	%rcx, %rax
	addq	$7, %rax
	addq	%r9, %r12
	movq	8(%rsp), %rcx
	addq	%r12, %rcx
	addq	$19, %rcx
	.p2align	4
.Lluossavin_x86_64_v3.BB55_110:
	movzbl	-7(%rax,%rdx), %esi
	movb	%sil, -7(%rcx,%rdx)
	movzbl	-6(%rax,%rdx), %esi
	movb	%sil, -6(%rcx,%rdx)
	movzbl	-5(%rax,%rdx), %esi
	movb	%sil, -5(%rcx,%rdx)
	movzbl	-4(%rax,%rdx), %esi
	movb	%sil, -4(%rcx,%rdx)
	movzbl	-3(%rax,%rdx), %esi
	movb	%sil, -3(%rcx,%rdx)
	movzbl	-2(%rax,%rdx), %esi
	movb	%sil, -2(%rcx,%rdx)
	movzbl	-1(%rax,%rdx), %esi
	movb	%sil, -1(%rcx,%rdx)
	movzbl	(%rax,%rdx), %esi
	movb	%sil, (%rcx,%rdx)
	addq	$8, %rdx
	cmpq	%rdx, %rbx
	jne	.Lluossavin_x86_64_v3.BB55_110
	jmp	.Lluossavin_x86_64_v3.BB55_111
.Lluossavin_x86_64_v3.BB55_39:
	movq	%rax, %rdi
	movq	%rbx, %rdx
	movq	%r9, %r14
	vzeroupper
	callq	memmove@PLT
	movq	%r14, %r9
.Lluossavin_x86_64_v3.BB55_111:
	leaq	(%rbx,%r9), %rdx
	addq	$12, %rdx
	xorl	%eax, %eax
.Lluossavin_x86_64_v3.BB55_112:
	addq	$88, %rsp
	popq	%rbx
	popq	%r12
	popq	%r13
	popq	%r14
	popq	%r15
	popq	%rbp
	vzeroupper
	retq
.Lluossavin_x86_64_v3.BB55_40:
	leaq	(%r12,%rdi), %rax
	addq	$96, %rax
	movq	%rax, 64(%rsp)
	leaq	7(%r12,%rdi), %rax
	movq	%rax, 72(%rsp)
	leaq	-20(%r12,%rdi), %rax
	movq	%rax, 56(%rsp)
	leaq	-4(%r12,%rdi), %rax
	movq	%rax, 80(%rsp)
	leaq	(%r12,%rdi), %rax
	decq	%rax
	movq	%rax, 32(%rsp)
	xorl	%r9d, %r9d
	movq	%rdx, %rax
	xorl	%r13d, %r13d
	movq	%rbp, 24(%rsp)
	jmp	.Lluossavin_x86_64_v3.BB55_43
.Lluossavin_x86_64_v3.BB55_41:
	addq	%r8, %r9
.Lluossavin_x86_64_v3.BB55_42:
	addq	%r12, %r13
	addq	$12, %r13
	movq	%rdx, %rax
	subq	%r13, %rax
	cmpq	$12, %rax
	movq	%r15, %r12
	movq	24(%rsp), %rbp
	jb	.Lluossavin_x86_64_v3.BB55_36
.Lluossavin_x86_64_v3.BB55_43:
	cmpb	$82, (%rbp,%r13)
	jne	.Lluossavin_x86_64_v3.BB55_36
	addq	%r13, %rbp
	movzbl	1(%rbp), %r8d
	cmpl	$88, %r8d
	je	.Lluossavin_x86_64_v3.BB55_46
	cmpl	$68, %r8d
	jne	.Lluossavin_x86_64_v3.BB55_113
.Lluossavin_x86_64_v3.BB55_46:
	movq	%r12, %r15
	addq	$-12, %rax
	movbel	8(%rbp), %r12d
	cmpq	%r12, %rax
	jb	.Lluossavin_x86_64_v3.BB55_97
	cmpb	$68, %r8b
	jne	.Lluossavin_x86_64_v3.BB55_42
	movbel	2(%rbp), %eax
	cmpl	%eax, %ecx
	je	.Lluossavin_x86_64_v3.BB55_42
	leaq	12(%r12), %r8
	movq	%r9, %rax
	subq	%r13, %rax
	jbe	.Lluossavin_x86_64_v3.BB55_53
	cmpl	$4, %r12d
	setb	%al
	movq	%r13, %rdi
	subq	%r9, %rdi
	cmpq	$128, %rdi
	setb	%dil
	orb	%al, %dil
	movq	%r8, %rbx
	jne	.Lluossavin_x86_64_v3.BB55_64
	cmpl	$116, %r12d
	jae	.Lluossavin_x86_64_v3.BB55_57
	xorl	%eax, %eax
	jmp	.Lluossavin_x86_64_v3.BB55_61
.Lluossavin_x86_64_v3.BB55_53:
	movq	24(%rsp), %rdi
	leaq	(%rdi,%r9), %rbx
	cmpq	$128, %rax
	jae	.Lluossavin_x86_64_v3.BB55_55
	xorl	%r14d, %r14d
	jmp	.Lluossavin_x86_64_v3.BB55_77
.Lluossavin_x86_64_v3.BB55_55:
	cmpl	$116, %r12d
	jae	.Lluossavin_x86_64_v3.BB55_70
	xorl	%r14d, %r14d
	jmp	.Lluossavin_x86_64_v3.BB55_74
.Lluossavin_x86_64_v3.BB55_57:
	movq	%r8, %rax
	movabsq	$8589934464, %rdi
	andq	%rdi, %rax
	leaq	(%r12,%r13), %r10
	movq	56(%rsp), %rdi
	addq	%rdi, %r10
	leaq	(%r9,%r12), %r11
	addq	%rdi, %r11
	movq	%r8, %rdi
	movq	%r8, %rbx
	andq	$-128, %rbx
	negq	%rbx
	xorl	%r8d, %r8d
	.p2align	4
.Lluossavin_x86_64_v3.BB55_58:
	vmovups	-96(%r10,%r8), %ymm0
	vmovups	-64(%r10,%r8), %ymm1
	vmovups	-32(%r10,%r8), %ymm2
	vmovups	(%r10,%r8), %ymm3
	vmovups	%ymm3, (%r11,%r8)
	vmovups	%ymm2, -32(%r11,%r8)
	vmovups	%ymm1, -64(%r11,%r8)
	vmovups	%ymm0, -96(%r11,%r8)
	addq	$-128, %r8
	cmpq	%r8, %rbx
	jne	.Lluossavin_x86_64_v3.BB55_58
	movq	%rdi, %r8
	cmpq	%rax, %rdi
	je	.Lluossavin_x86_64_v3.BB55_41
	testb	$112, %r8b
	je	.Lluossavin_x86_64_v3.BB55_83
.Lluossavin_x86_64_v3.BB55_61:
	movabsq	$8589934464, %rdi
	leaq	112(%rdi), %r10
	andq	%r8, %r10
	movq	%r8, %rbp
	movl	%r8d, %ebx
	andl	$15, %ebx
	leaq	(%r12,%r13), %r11
	subq	%rax, %r11
	movq	80(%rsp), %r14
	addq	%r14, %r11
	movq	%r9, %rdi
	leaq	(%r9,%r12), %r8
	subq	%rax, %r8
	addq	%r14, %r8
	subq	%r10, %rax
	xorl	%r9d, %r9d
	.p2align	4
.Lluossavin_x86_64_v3.BB55_62:
	vmovups	(%r11,%r9), %xmm0
	vmovups	%xmm0, (%r8,%r9)
	addq	$-16, %r9
	cmpq	%r9, %rax
	jne	.Lluossavin_x86_64_v3.BB55_62
	movq	%rbp, %r8
	cmpq	%r10, %rbp
	movq	%rdi, %r9
	je	.Lluossavin_x86_64_v3.BB55_41
.Lluossavin_x86_64_v3.BB55_64:
	movq	%r8, %r14
	movq	%rbx, %r10
	movq	%rbx, %rax
	andq	$7, %r10
	je	.Lluossavin_x86_64_v3.BB55_67
	movq	32(%rsp), %rax
	leaq	(%rax,%r9), %r8
	leaq	(%rax,%r13), %r11
	movq	%rbx, %rax
	.p2align	4
.Lluossavin_x86_64_v3.BB55_66:
	movzbl	(%r11,%rax), %edi
	movb	%dil, (%r8,%rax)
	decq	%rax
	decq	%r10
	jne	.Lluossavin_x86_64_v3.BB55_66
.Lluossavin_x86_64_v3.BB55_67:
	decq	%rbx
	cmpq	$7, %rbx
	movq	%r14, %r8
	jb	.Lluossavin_x86_64_v3.BB55_41
	movq	32(%rsp), %rdi
	leaq	(%rdi,%r9), %r10
	leaq	(%rdi,%r13), %r11
	movq	%rax, %rbx
	.p2align	4
.Lluossavin_x86_64_v3.BB55_69:
	movzbl	(%r11,%rax), %edi
	movb	%dil, (%r10,%rax)
	movzbl	-1(%r11,%rax), %edi
	movb	%dil, -1(%r10,%rax)
	movzbl	-2(%r11,%rax), %edi
	movb	%dil, -2(%r10,%rax)
	movzbl	-3(%r11,%rax), %edi
	movb	%dil, -3(%r10,%rax)
	movzbl	-4(%r11,%rax), %edi
	movb	%dil, -4(%r10,%rax)
	movzbl	-5(%r11,%rax), %edi
	movb	%dil, -5(%r10,%rax)
	movzbl	-6(%r11,%rax), %edi
	movb	%dil, -6(%r10,%rax)
	addq	$-8, %rbx
	movzbl	-7(%r11,%rax), %edi
	movb	%dil, -7(%r10,%rax)
	movq	%rbx, %rax
	jne	.Lluossavin_x86_64_v3.BB55_69
	jmp	.Lluossavin_x86_64_v3.BB55_41
.Lluossavin_x86_64_v3.BB55_70:
	movq	%r8, %r11
	movq	%r8, %r14
	movabsq	$8589934464, %rax
	andq	%rax, %r14
	movq	64(%rsp), %rdi
	leaq	(%rdi,%r9), %rax
	leaq	(%rdi,%r13), %r8
	xorl	%r10d, %r10d
	.p2align	4
.Lluossavin_x86_64_v3.BB55_71:
	vmovups	-96(%r8,%r10), %ymm0
	vmovups	-64(%r8,%r10), %ymm1
	vmovups	-32(%r8,%r10), %ymm2
	vmovups	(%r8,%r10), %ymm3
	vmovups	%ymm0, -96(%rax,%r10)
	vmovups	%ymm1, -64(%rax,%r10)
	vmovups	%ymm2, -32(%rax,%r10)
	vmovups	%ymm3, (%rax,%r10)
	subq	$-128, %r10
	cmpq	%r10, %r14
	jne	.Lluossavin_x86_64_v3.BB55_71
	movq	%r11, %r8
	cmpq	%r14, %r11
	je	.Lluossavin_x86_64_v3.BB55_41
	testb	$120, %r8b
	je	.Lluossavin_x86_64_v3.BB55_77
.Lluossavin_x86_64_v3.BB55_74:
	movq	%r14, %rax
	movabsq	$8589934464, %rdi
	leaq	120(%rdi), %r14
	andq	%r8, %r14
	.p2align	4
.Lluossavin_x86_64_v3.BB55_75:
	movq	(%rbp,%rax), %rdi
	movq	%rdi, (%rbx,%rax)
	addq	$8, %rax
	cmpq	%rax, %r14
	jne	.Lluossavin_x86_64_v3.BB55_75
	cmpq	%r14, %r8
	je	.Lluossavin_x86_64_v3.BB55_41
.Lluossavin_x86_64_v3.BB55_77:
	movq	%r8, %r11
	movl	%r12d, %r10d
	andl	$7, %r10d
	movq	%r14, %rax
	cmpq	$4, %r10
	je	.Lluossavin_x86_64_v3.BB55_80
	movl	$1, %r8d
	movq	%r14, %rax
	.p2align	4
.Lluossavin_x86_64_v3.BB55_79:
	movzbl	(%rbp,%rax), %edi
	movb	%dil, (%rbx,%rax)
	incq	%rax
	movq	%r10, %rdi
	xorq	%r8, %rdi
	incq	%r8
	cmpq	$4, %rdi
	jne	.Lluossavin_x86_64_v3.BB55_79
.Lluossavin_x86_64_v3.BB55_80:
	negq	%r14
	leaq	(%r12,%r14), %rdi
	addq	$11, %rdi
	cmpq	$7, %rdi
	movq	%r11, %r8
	jb	.Lluossavin_x86_64_v3.BB55_41
	movq	72(%rsp), %rdi
	leaq	(%rdi,%r9), %r10
	leaq	(%rdi,%r13), %r11
	.p2align	4
.Lluossavin_x86_64_v3.BB55_82:
	movzbl	-7(%r11,%rax), %edi
	movb	%dil, -7(%r10,%rax)
	movzbl	-6(%r11,%rax), %edi
	movb	%dil, -6(%r10,%rax)
	movzbl	-5(%r11,%rax), %edi
	movb	%dil, -5(%r10,%rax)
	movzbl	-4(%r11,%rax), %edi
	movb	%dil, -4(%r10,%rax)
	movzbl	-3(%r11,%rax), %edi
	movb	%dil, -3(%r10,%rax)
	movzbl	-2(%r11,%rax), %edi
	movb	%dil, -2(%r10,%rax)
	movzbl	-1(%r11,%rax), %edi
	movb	%dil, -1(%r10,%rax)
	movzbl	(%r11,%rax), %edi
	movb	%dil, (%r10,%rax)
	addq	$8, %rax
	cmpq	%rax, %r8
	jne	.Lluossavin_x86_64_v3.BB55_82
	jmp	.Lluossavin_x86_64_v3.BB55_41
.Lluossavin_x86_64_v3.BB55_83:
	movl	%r8d, %ebx
	andl	$127, %ebx
	jmp	.Lluossavin_x86_64_v3.BB55_64
.Lluossavin_x86_64_v3.BB55_84:
	xorl	%eax, %eax
	movq	%rdx, %r11
	movq	%rbp, %rbx
	jmp	.Lluossavin_x86_64_v3.BB55_86
.Lluossavin_x86_64_v3.BB55_85:
	leaq	12(%r8), %r10
	subq	%r10, %r11
	addq	%r8, %rbx
	addq	$12, %rbx
	addq	%r8, %rax
	addq	$12, %rax
	cmpq	$12, %r11
	jb	.Lluossavin_x86_64_v3.BB55_35
.Lluossavin_x86_64_v3.BB55_86:
	cmpb	$82, (%rbx)
	jne	.Lluossavin_x86_64_v3.BB55_35
	movzbl	1(%rbx), %r10d
	cmpl	$88, %r10d
	je	.Lluossavin_x86_64_v3.BB55_89
	cmpl	$68, %r10d
	jne	.Lluossavin_x86_64_v3.BB55_35
.Lluossavin_x86_64_v3.BB55_89:
	leaq	-12(%r11), %r14
	movbel	8(%rbx), %r8d
	cmpq	%r8, %r14
	jb	.Lluossavin_x86_64_v3.BB55_35
	cmpb	$68, %r10b
	jne	.Lluossavin_x86_64_v3.BB55_85
	movbel	2(%rbx), %r10d
	cmpl	%ecx, %r10d
	jne	.Lluossavin_x86_64_v3.BB55_85
	movb	$88, 1(%rbp,%rax)
	jmp	.Lluossavin_x86_64_v3.BB55_35
.Lluossavin_x86_64_v3.BB55_95:
	cmpq	$128, %rbx
	jae	.Lluossavin_x86_64_v3.BB55_98
	xorl	%ecx, %ecx
	jmp	.Lluossavin_x86_64_v3.BB55_102
.Lluossavin_x86_64_v3.BB55_97:
	movq	%r15, %r12
	movq	24(%rsp), %rbp
	jmp	.Lluossavin_x86_64_v3.BB55_36
.Lluossavin_x86_64_v3.BB55_98:
	movq	%rbx, %rcx
	andq	$-128, %rcx
	movq	40(%rsp), %rdx
	movq	48(%rsp), %rdi
	addq	%rdi, %rdx
	addq	$96, %rdx
	movq	8(%rsp), %rdi
	addq	%rdi, %r8
	addq	$108, %r8
	xorl	%r10d, %r10d
.Lluossavin_x86_64_v3.BB55_99:
	vmovups	-96(%rdx,%r10), %ymm0
	vmovups	-64(%rdx,%r10), %ymm1
	vmovups	-32(%rdx,%r10), %ymm2
	vmovups	(%rdx,%r10), %ymm3
	vmovups	%ymm0, -96(%r8,%r10)
	vmovups	%ymm1, -64(%r8,%r10)
	vmovups	%ymm2, -32(%r8,%r10)
	vmovups	%ymm3, (%r8,%r10)
	subq	$-128, %r10
	cmpq	%r10, %rcx
	jne	.Lluossavin_x86_64_v3.BB55_99
	cmpq	%rcx, %rbx
	je	.Lluossavin_x86_64_v3.BB55_111
	testb	$120, %bl
	je	.Lluossavin_x86_64_v3.BB55_105
.Lluossavin_x86_64_v3.BB55_102:
	movq	%rcx, %rdx
	movq	%rbx, %rcx
	andq	$-8, %rcx
	.p2align	4
.Lluossavin_x86_64_v3.BB55_103:
	movq	(%rsi,%rdx), %rdi
	movq	%rdi, (%rax,%rdx)
	addq	$8, %rdx
	cmpq	%rdx, %rcx
	jne	.Lluossavin_x86_64_v3.BB55_103
	cmpq	%rcx, %rbx
	je	.Lluossavin_x86_64_v3.BB55_111
	jmp	.Lluossavin_x86_64_v3.BB55_105
.Lluossavin_x86_64_v3.BB55_113:
	movq	24(%rsp), %rbp
	jmp	.Lluossavin_x86_64_v3.BB55_36
.Lluossavin_x86_64_v3.func_end55:
	.size	luossavin_shelf_put_x86_64_v3, .Lluossavin_x86_64_v3.func_end55-luossavin_shelf_put_x86_64_v3

	.type	.Lluossavin_x86_64_v3.static.0,@object
	.section	.rodata..Lluossavin_x86_64_v3.static.0,"a",@progbits
	.p2align	2, 0x0
.Lluossavin_x86_64_v3.static.0:
	.ascii	"[[\325\216BB\222\320\247\247\352M\373\373\375\00633\317\374\207\207\342e\364\364=\311\336\336\265kXX\026N\332\332\264nPP\024D\013\013\301\312\240\240(\210\357\357\370\027\260\260,\234\024\024\005\021\254\254+\207\235\235f\373jj\230\362\331\331w\256\250\250*\202\372\372\274F\020\020\004\024\017\017\300\317\252\252\250\002\021\021ETLL\023_\230\230&\276%%Hm\032\032\204\236\030\030\006\036ff\233\375rr\236\354\t\tCJAAQ\020\323\323\367$FF\223\325\277\277\354Sbb\232\370\351\351{\222\314\3143\377QQU\004,,\013'\r\rBO\267\267\356Y??\314\363\262\262\256\034\211\211c\352\223\223\347t\316\316\261\177pp\034l\246\246\253\r''\312\355  \b(\243\243\353HVV\227\301\002\002\202\200\177\177\334\243RR\226\304\353\353\371\022\325\325t\241>>\215\263\374\374?\303\232\232\244>\035\035F[\034\034\007\033\236\236\245;\363\363\377\f\317\317\360?\315\315r\277\\\\\027K\352\352\270R\016\016\201\217eeX=\360\360<\314dd\031}\233\233\345~\026\026\207\221==Ns\242\242\252\b\241\241i\310\255\255j\307\006\006\203\205\312\312\260z\305\305p\265\221\221e\364kk\331\262..\211\247\343\343\373\030\257\257\350G<<\0173--Jg\301\301q\260YYW\016vv\237\351\324\3245\341xx\036f\220\220$\26488\0166yy_&\215\215b\357aaY8GG\322\225\212\212\240*\224\224%\261\210\210\"\252\361\361}\214\354\354;\327\004\004\001\005\204\204!\245\341\341y\230\036\036\205\233SS\327\204\000\000\000\000\031\031G^]]V\013~~\235\343OO\320\237\234\234'\273IIS\03211M|\330\3306\356\b\b\002\n\237\237\344{\202\202\242 \023\023\307\324##\313\350zz\234\346\253\253\351B\376\376\275C**\210\242KK\321\232\001\001A@\037\037\304\333\340\3408\330\326\326\267a\216\216\241/\337\337\364+\313\313\361:;;\315\366\347\347\372\035\205\205`\345TT\025A\206\206\243%\203\203\343`\272\272\254\026uu\\)\222\222\2464nn\231\367\320\3204\344hh\032rUUT\001\266\266\257\031NN\221\337\310\3102\372\300\3000\360\327\327\366!22\216\274\306\306\263u\217\217\340ott\035i\333\333\365.\213\213\341j\270\270.\226\n\n\200\212\231\231g\376++\311\342\201\201a\340\003\003\303\300\244\244)\215\214\214#\257\256\256\251\00744\r9MMR\03799Ov\275\275n\323WW\326\201oo\330\267\334\3347\353\025\025DQ{{\335\246\367\367\376\t::\214\266\274\274/\223\f\f\003\017\377\377\374\003\251\251k\302\311\311s\272\265\265l\331\261\261m\334mmZ7EEP\02566\217\271ll\033w\276\276\255\023JJ\220\332\356\356\271Www\336\251\362\362\276L\375\375~\203DD\021Ugg\332\275qq],\005\005@E||\037c@@\020Pii[2cc\333\270((\n\"\007\007\302\305\304\3041\365\"\"\212\250\226\226\247177\316\371\355\355z\227\366\366\277I\264\264-\231\321\321u\244CC\323\220HH\022Z\342\342\272X\227\227\346q\322\322\266d\302\302\262p&&\213\255\245\245h\315^^\225\313))Kb00\f<ZZ\224\316\335\335v\253\371\371\177\206\225\225d\361\346\346\273]\307\307\3625$$\t-\027\027\306\321\271\271o\326\033\033\305\336\022\022\206\224``\030x\303\303\3630\365\365|\211\263\263\357\\\350\350:\322ss\337\25455Ly\200\200 \240\345\345x\235\273\273\355V}}^#\370\370>\306__\324\213//\310\347\344\3449\335!!Ih[\325\216[B\222\320B\247\352M\247\373\375\006\3733\317\3743\207\342e\207\364=\311\364\336\265k\336X\026NX\332\264n\332P\024DP\013\301\312\013\240(\210\240\357\370\027\357\260,\234\260\024\005\021\024\254+\207\254\235f\373\235j\230\362j\331w\256\331\250*\202\250\372\274F\372\020\004\024\020\017\300\317\017\252\250\002\252\021ET\021L\023_L\230&\276\230%Hm%\032\204\236\032\030\006\036\030f\233\375fr\236\354r\tCJ\tAQ\020A\323\367$\323F\223\325F\277\354S\277b\232\370b\351{\222\351\3143\377\314QU\004Q,\013',\rBO\r\267\356Y\267?\314\363?\262\256\034\262\211c\352\211\223\347t\223\316\261\177\316p\034lp\246\253\r\246'\312\355' \b( \243\353H\243V\227\301V\002\202\200\002\177\334\243\177R\226\304R\353\371\022\353\325t\241\325>\215\263>\374?\303\374\232\244>\232\035F[\035\034\007\033\034\236\245;\236\363\377\f\363\317\360?\317\315r\277\315\\\027K\\\352\270R\352\016\201\217\016eX=e\360<\314\360d\031}d\233\345~\233\026\207\221\026=Ns=\242\252\b\242\241i\310\241\255j\307\255\006\203\205\006\312\260z\312\305p\265\305\221e\364\221k\331\262k.\211\247.\343\373\030\343\257\350G\257<\0173<-Jg-\301q\260\301YW\016Yv\237\351v\3245\341\324x\036fx\220$\264\2208\01668y_&y\215b\357\215aY8aG\322\225G\212\240*\212\224%\261\224\210\"\252\210\361}\214\361\354;\327\354\004\001\005\004\204!\245\204\341y\230\341\036\205\233\036S\327\204S\000\000\000\000\031G^\031]V\013]~\235\343~O\320\237O\234'\273\234IS\032I1M|1\3306\356\330\b\002\n\b\237\344{\237\202\242 \202\023\307\324\023#\313\350#z\234\346z\253\351B\253\376\275C\376*\210\242*K\321\232K\001A@\001\037\304\333\037\3408\330\340\326\267a\326\216\241/\216\337\364+\337\313\361:\313;\315\366;\347\372\035\347\205`\345\205T\025AT\206\243%\206\203\343`\203\272\254\026\272u\\)u\222\2464\222n\231\367n\3204\344\320h\032rhUT\001U\266\257\031\266N\221\337N\3102\372\310\3000\360\300\327\366!\3272\216\2742\306\263u\306\217\340o\217t\035it\333\365.\333\213\341j\213\270.\226\270\n\200\212\n\231g\376\231+\311\342+\201a\340\201\003\303\300\003\244)\215\244\214#\257\214\256\251\007\2564\r94MR\037M9Ov9\275n\323\275W\326\201Wo\330\267o\3347\353\334\025DQ\025{\335\246{\367\376\t\367:\214\266:\274/\223\274\f\003\017\f\377\374\003\377\251k\302\251\311s\272\311\265l\331\265\261m\334\261mZ7mEP\025E6\217\2716l\033wl\276\255\023\276J\220\332J\356\271W\356w\336\251w\362\276L\362\375~\203\375D\021UDg\332\275gq],q\005@E\005|\037c|@\020P@i[2ic\333\270c(\n\"(\007\302\305\007\3041\365\304\"\212\250\"\226\2471\2267\316\3717\355z\227\355\366\277I\366\264-\231\264\321u\244\321C\323\220CH\022ZH\342\272X\342\227\346q\227\322\266d\322\302\262p\302&\213\255&\245h\315\245^\225\313^)Kb)0\f<0Z\224\316Z\335v\253\335\371\177\206\371\225d\361\225\346\273]\346\307\3625\307$\t-$\027\306\321\027\271o\326\271\033\305\336\033\022\206\224\022`\030x`\303\3630\303\365|\211\365\263\357\\\263\350:\322\350s\337\254s5Ly5\200 \240\200\345x\235\345\273\355V\273}^#}\370>\306\370_\324\213_/\310\347/\3449\335\344!Ih!\325\216[[\222\320BB\352M\247\247\375\006\373\373\317\37433\342e\207\207=\311\364\364\265k\336\336\026NXX\264n\332\332\024DPP\301\312\013\013(\210\240\240\370\027\357\357,\234\260\260\005\021\024\024+\207\254\254f\373\235\235\230\362jjw\256\331\331*\202\250\250\274F\372\372\004\024\020\020\300\317\017\017\250\002\252\252ET\021\021\023_LL&\276\230\230Hm%%\204\236\032\032\006\036\030\030\233\375ff\236\354rrCJ\t\tQ\020AA\367$\323\323\223\325FF\354S\277\277\232\370bb{\222\351\3513\377\314\314U\004QQ\013',,BO\r\r\356Y\267\267\314\363??\256\034\262\262c\352\211\211\347t\223\223\261\177\316\316\034lpp\253\r\246\246\312\355''\b(  \353H\243\243\227\301VV\202\200\002\002\334\243\177\177\226\304RR\371\022\353\353t\241\325\325\215\263>>?\303\374\374\244>\232\232F[\035\035\007\033\034\034\245;\236\236\377\f\363\363\360?\317\317r\277\315\315\027K\\\\\270R\352\352\201\217\016\016X=ee<\314\360\360\031}dd\345~\233\233\207\221\026\026Ns==\252\b\242\242i\310\241\241j\307\255\255\203\205\006\006\260z\312\312p\265\305\305e\364\221\221\331\262kk\211\247..\373\030\343\343\350G\257\257\0173<<Jg--q\260\301\301W\016YY\237\351vv5\341\324\324\036fxx$\264\220\220\016688_&yyb\357\215\215Y8aa\322\225GG\240*\212\212%\261\224\224\"\252\210\210}\214\361\361;\327\354\354\001\005\004\004!\245\204\204y\230\341\341\205\233\036\036\327\204SS\000\000\000\000G^\031\031V\013]]\235\343~~\320\237OO'\273\234\234S\032IIM|116\356\330\330\002\n\b\b\344{\237\237\242 \202\202\307\324\023\023\313\350##\234\346zz\351B\253\253\275C\376\376\210\242**\321\232KKA@\001\001\304\333\037\0378\330\340\340\267a\326\326\241/\216\216\364+\337\337\361:\313\313\315\366;;\372\035\347\347`\345\205\205\025ATT\243%\206\206\343`\203\203\254\026\272\272\\)uu\2464\222\222\231\367nn4\344\320\320\032rhhT\001UU\257\031\266\266\221\337NN2\372\310\3100\360\300\300\366!\327\327\216\27422\263u\306\306\340o\217\217\035itt\365.\333\333\341j\213\213.\226\270\270\200\212\n\ng\376\231\231\311\342++a\340\201\201\303\300\003\003)\215\244\244#\257\214\214\251\007\256\256\r944R\037MMOv99n\323\275\275\326\201WW\330\267oo7\353\334\334DQ\025\025\335\246{{\376\t\367\367\214\266::/\223\274\274\003\017\f\f\374\003\377\377k\302\251\251s\272\311\311l\331\265\265m\334\261\261Z7mmP\025EE\217\27166\033wll\255\023\276\276\220\332JJ\271W\356\356\336\251ww\276L\362\362~\203\375\375\021UDD\332\275gg],qq@E\005\005\037c||\020P@@[2ii\333\270cc\n\"((\302\305\007\0071\365\304\304\212\250\"\"\2471\226\226\316\37177z\227\355\355\277I\366\366-\231\264\264u\244\321\321\323\220CC\022ZHH\272X\342\342\346q\227\227\266d\322\322\262p\302\302\213\255&&h\315\245\245\225\313^^Kb))\f<00\224\316ZZv\253\335\335\177\206\371\371d\361\225\225\273]\346\346\3625\307\307\t-$$\306\321\027\027o\326\271\271\305\336\033\033\206\224\022\022\030x``\3630\303\303|\211\365\365\357\\\263\263:\322\350\350\337\254ssLy55 \240\200\200x\235\345\345\355V\273\273^#}}>\306\370\370\324\213__\310\347//9\335\344\344Ih!!\216[[\325\320BB\222M\247\247\352\006\373\373\375\37433\317e\207\207\342\311\364\364=k\336\336\265NXX\026n\332\332\264DPP\024\312\013\013\301\210\240\240(\027\357\357\370\234\260\260,\021\024\024\005\207\254\254+\373\235\235f\362jj\230\256\331\331w\202\250\250*F\372\372\274\024\020\020\004\317\017\017\300\002\252\252\250T\021\021E_LL\023\276\230\230&m%%H\236\032\032\204\036\030\030\006\375ff\233\354rr\236J\t\tC\020AAQ$\323\323\367\325FF\223S\277\277\354\370bb\232\222\351\351{\377\314\3143\004QQU',,\013O\r\rBY\267\267\356\363??\314\034\262\262\256\352\211\211ct\223\223\347\177\316\316\261lpp\034\r\246\246\253\355''\312(  \bH\243\243\353\301VV\227\200\002\002\202\243\177\177\334\304RR\226\022\353\353\371\241\325\325t\263>>\215\303\374\374?>\232\232\244[\035\035F\033\034\034\007;\236\236\245\f\363\363\377?\317\317\360\277\315\315rK\\\\\027R\352\352\270\217\016\016\201=eeX\314\360\360<}dd\031~\233\233\345\221\026\026\207s==N\b\242\242\252\310\241\241i\307\255\255j\205\006\006\203z\312\312\260\265\305\305p\364\221\221e\262kk\331\247..\211\030\343\343\373G\257\257\3503<<\017g--J\260\301\301q\016YYW\351vv\237\341\324\3245fxx\036\264\220\220$688\016&yy_\357\215\215b8aaY\225GG\322*\212\212\240\261\224\224%\252\210\210\"\214\361\361}\327\354\354;\005\004\004\001\245\204\204!\230\341\341y\233\036\036\205\204SS\327\000\000\000\000^\031\031G\013]]V\343~~\235\237OO\320\273\234\234'\032IIS|11M\356\330\3306\n\b\b\002{\237\237\344 \202\202\242\324\023\023\307\350##\313\346zz\234B\253\253\351C\376\376\275\242**\210\232KK\321@\001\001A\333\037\037\304\330\340\3408a\326\326\267/\216\216\241+\337\337\364:\313\313\361\366;;\315\035\347\347\372\345\205\205`ATT\025%\206\206\243`\203\203\343\026\272\272\254)uu\\4\222\222\246\367nn\231\344\320\3204rhh\032\001UUT\031\266\266\257\337NN\221\372\310\3102\360\300\3000!\327\327\366\27422\216u\306\306\263o\217\217\340itt\035.\333\333\365j\213\213\341\226\270\270.\212\n\n\200\376\231\231g\342++\311\340\201\201a\300\003\003\303\215\244\244)\257\214\214#\007\256\256\251944\r\037MMRv99O\323\275\275n\201WW\326\267oo\330\353\334\3347Q\025\025D\246{{\335\t\367\367\376\266::\214\223\274\274/\017\f\f\003\003\377\377\374\302\251\251k\272\311\311s\331\265\265l\334\261\261m7mmZ\025EEP\27166\217wll\033\023\276\276\255\332JJ\220W\356\356\271\251ww\336L\362\362\276\203\375\375~UDD\021\275gg\332,qq]E\005\005@c||\037P@@\0202ii[\270cc\333\"((\n\305\007\007\302\365\304\3041\250\"\"\2121\226\226\247\37177\316\227\355\355zI\366\366\277\231\264\264-\244\321\321u\220CC\323ZHH\022X\342\342\272q\227\227\346d\322\322\266p\302\302\262\255&&\213\315\245\245h\313^^\225b))K<00\f\316ZZ\224\253\335\335v\206\371\371\177\361\225\225d]\346\346\2735\307\307\362-$$\t\321\027\027\306\326\271\271o\336\033\033\305\224\022\022\206x``\0300\303\303\363\211\365\365|\\\263\263\357\322\350\350:\254ss\337y55L\240\200\200 \235\345\345xV\273\273\355#}}^\306\370\370>\213__\324\347//\310\335\344\3449h!!I"
	.size	.Lluossavin_x86_64_v3.static.0, 4096

	.type	.Lluossavin_x86_64_v3.static.1,@object
	.section	.rodata..Lluossavin_x86_64_v3.static.1,"a",@progbits
.Lluossavin_x86_64_v3.static.1:
	.ascii	"\326\220\351\376\314\341=\267\026\266\024\302(\373,\005+g\232v*\276\004\303\252D\023&I\206\006\231\234BP\364\221\357\230z3T\013C\355\317\254b\344\263\034\251\311\b\350\225\200\337\224\372u\217?\246G\007\247\374\363s\027\272\203Y<\031\346\205O\250hk\201\262qd\332\213\370\353\017KpV\2355\036$\016^cX\321\242%\"|;\001!x\207\324\000FW\237\323'RL6\002\347\240\304\310\236\352\277\212\322@\3078\265\243\367\362\316\371a\025\241\340\256]\244\2334\032U\255\22320\365\214\261\343\035\366\342.\202f\312`\300)#\253\rSNo\325\3337E\336\375\216/\003\377jrml[Q\215\033\257\222\273\335\274\177\021\331\\A\037\020Z\330\n\3011\210\245\315{\275-t\320\022\270\345\264\260\211i\227J\f\226w~e\271\361\t\305n\306\204\030\360}\354:\334M y\356_>\327\3139H"
	.size	.Lluossavin_x86_64_v3.static.1, 256

	.type	.Lluossavin_x86_64_v3.static.3,@object
	.section	.rodata..Lluossavin_x86_64_v3.static.3,"a",@progbits
	.p2align	3, 0x0
.Lluossavin_x86_64_v3.static.3:
	.asciz	"\000\000\000\000\000\000\000\000\002\000\000\000\000\000\000\000\002\000\000\000\000\000\000\000\004\000\000\000\000\000\000\000\004\000\000\000\000\000\000\000\006\000\000\000\000\000\000\000\006\000\000\000\000\000\000\000\b\000\000\000\000\000\000\000\b\000\000\000\000\000\000"
	.size	.Lluossavin_x86_64_v3.static.3, 72

	.type	.Lluossavin_x86_64_v3.static.4,@object
	.section	.rodata..Lluossavin_x86_64_v3.static.4,"a",@progbits
	.p2align	3, 0x0
.Lluossavin_x86_64_v3.static.4:
	.asciz	"\001\000\000\000\000\000\000\000\001\000\000\000\000\000\000\000\002\000\000\000\000\000\000\000\004\000\000\000\000\000\000\000\004\000\000\000\000\000\000"
	.size	.Lluossavin_x86_64_v3.static.4, 40

	.type	.Lluossavin_x86_64_v3.static.5,@object
	.section	.rodata..Lluossavin_x86_64_v3.static.5,"a",@progbits
	.p2align	2, 0x0
.Lluossavin_x86_64_v3.static.5:
	.ascii	"\025\016\007\0001*#\034MF?8ib[T\205~wp\241\232\223\214\275\266\257\250\331\322\313\304\365\356\347\340\021\n\003\374-&\037\030IB;4e^WP\201zsl\235\226\217\210\271\262\253\244\325\316\307\300\361\352\343\334\r\006\377\370)\"\033\024E>70aZSL}voh\231\222\213\204\265\256\247\240\321\312\303\274\355\346\337\330\t\002\373\364%\036\027\020A:3,]VOHyrkd"
	.size	.Lluossavin_x86_64_v3.static.5, 128

	.type	.Lluossavin_x86_64_v3.switch.table.luossavin_edition_opens_x86_64_v3,@object
	.section	.rodata..Lluossavin_x86_64_v3.switch.table.luossavin_edition_opens_x86_64_v3,"a",@progbits
	.p2align	3, 0x0
.Lluossavin_x86_64_v3.switch.table.luossavin_edition_opens_x86_64_v3:
	.quad	1
	.quad	2
	.quad	3
	.quad	4
	.quad	5
	.quad	6
	.quad	8
	.quad	9
	.quad	10
	.quad	11
	.quad	12
	.quad	13
	.quad	14
	.quad	15
	.size	.Lluossavin_x86_64_v3.switch.table.luossavin_edition_opens_x86_64_v3, 112

	.type	.Lluossavin_x86_64_v3.switch.table.luossavin_which_x86_64_v3,@object
	.section	.rodata..Lluossavin_x86_64_v3.switch.table.luossavin_which_x86_64_v3,"a",@progbits
	.p2align	2, 0x0
.Lluossavin_x86_64_v3.switch.table.luossavin_which_x86_64_v3:
	.long	1
	.long	2
	.long	3
	.long	4
	.long	5
	.long	6
	.long	8
	.long	9
	.long	10
	.long	11
	.long	12
	.long	13
	.long	14
	.long	15
	.size	.Lluossavin_x86_64_v3.switch.table.luossavin_which_x86_64_v3, 56

	.section	".note.GNU-stack","",@progbits
