	.file	"rattle"
	.section	".text.cipher_mode::Sm4Cipher::call","ax",@progbits
	.p2align	2
	.type	"cipher_mode::Sm4Cipher::call",@function
"cipher_mode::Sm4Cipher::call":
	sub	sp, sp, #224
	stp	x20, x19, [sp, #208]
	ldrb	w20, [x1, #128]
	ldrh	w19, [x1, #130]
	str	x30, [sp, #160]
	stp	x24, x23, [sp, #176]
	stp	x22, x21, [sp, #192]
	cbz	w20, .Lluossavin.BB0_3
	cmp	w20, #1
	b.ne	.Lluossavin.BB0_7
	mov	w9, wzr
	mov	x8, xzr
	mov	w10, w20
	b	.Lluossavin.BB0_10
.Lluossavin.BB0_3:
	cmp	x4, #16
	b.ne	.Lluossavin.BB0_8
	ldrb	w23, [x1, #133]
	tst	w2, #0xff
	b.ne	.Lluossavin.BB0_11
	ldrb	w8, [x1, #132]
	tbz	w8, #0, .Lluossavin.BB0_11
	mov	x8, xzr
	mov	w9, #12
	b	.Lluossavin.BB0_9
.Lluossavin.BB0_7:
	mov	x8, xzr
	mov	w9, #11
	b	.Lluossavin.BB0_9
.Lluossavin.BB0_8:
	mov	x8, xzr
	mov	w9, #9
.Lluossavin.BB0_9:
	mov	w10, #1
.Lluossavin.BB0_10:
	cmp	w20, #0
	stp	x8, xzr, [x0, #8]
	ldr	x30, [sp, #160]
	csel	w8, w19, wzr, eq
	ldp	x20, x19, [sp, #208]
	ldp	x22, x21, [sp, #192]
	strb	w10, [x0]
	ldp	x24, x23, [sp, #176]
	strb	w9, [x0, #1]
	stur	wzr, [x0, #2]
	strh	wzr, [x0, #6]
	strh	w8, [x0, #24]
	stur	wzr, [x0, #26]
	strh	wzr, [x0, #30]
	add	sp, sp, #224
	ret
.Lluossavin.BB0_11:
	cmp	x6, #16
	b.hs	.Lluossavin.BB0_13
	mov	x8, xzr
	mov	w9, #5
	b	.Lluossavin.BB0_9
.Lluossavin.BB0_13:
	ldp	q0, q1, [x1, #64]
	mov	x22, x5
	mov	x21, x0
	stp	xzr, xzr, [sp, #16]
	stp	q0, q1, [sp, #96]
	ldp	q2, q0, [x1, #96]
	stp	q2, q0, [sp, #128]
	ldp	q1, q0, [x1]
	stp	q1, q0, [sp, #32]
	ldp	q2, q0, [x1, #32]
	stp	q2, q0, [sp, #64]
	tbz	w2, #0, .Lluossavin.BB0_15
	add	x8, sp, #32
	add	x0, sp, #32
	mov	x24, x3
	add	x1, x8, #64
	bl	"core::slice::edits::mirror::<i32>"
	mov	x3, x24
.Lluossavin.BB0_15:
	ldr	q0, [x3]
	sub	w8, w23, #1
	add	x0, sp, #16
	cmp	w8, #3
	add	x2, sp, #32
	mov	x3, sp
	rev32	v0.16b, v0.16b
	csel	w1, w8, wzr, lo
	str	q0, [sp]
	bl	"cipher::encrypt"
	ldr	q0, [sp, #16]
	mov	w10, wzr
	mov	w9, wzr
	mov	w8, #16
	mov	x0, x21
	rev32	v0.16b, v0.16b
	str	q0, [x22]
	b	.Lluossavin.BB0_10
.Lluossavin.func_end0:
	.size	"cipher_mode::Sm4Cipher::call", .Lluossavin.func_end0-"cipher_mode::Sm4Cipher::call"

	.section	".text.core::slice::edits::mirror::<i32>","ax",@progbits
	.p2align	2
	.type	"core::slice::edits::mirror::<i32>",@function
"core::slice::edits::mirror::<i32>":
	ldr	w8, [x1, #60]
	ldr	w9, [x0]
	str	w8, [x0]
	str	w9, [x1, #60]
	ldr	w8, [x1, #56]
	ldr	w9, [x0, #4]
	str	w8, [x0, #4]
	str	w9, [x1, #56]
	ldr	w8, [x1, #52]
	ldr	w9, [x0, #8]
	str	w8, [x0, #8]
	str	w9, [x1, #52]
	ldr	w8, [x1, #48]
	ldr	w9, [x0, #12]
	str	w8, [x0, #12]
	str	w9, [x1, #48]
	ldr	w8, [x1, #44]
	ldr	w9, [x0, #16]
	str	w8, [x0, #16]
	str	w9, [x1, #44]
	ldr	w8, [x1, #40]
	ldr	w9, [x0, #20]
	str	w8, [x0, #20]
	str	w9, [x1, #40]
	ldr	w8, [x1, #36]
	ldr	w9, [x0, #24]
	str	w8, [x0, #24]
	str	w9, [x1, #36]
	ldr	w8, [x1, #32]
	ldr	w9, [x0, #28]
	str	w8, [x0, #28]
	str	w9, [x1, #32]
	ldr	w8, [x1, #28]
	ldr	w9, [x0, #32]
	str	w8, [x0, #32]
	str	w9, [x1, #28]
	ldr	w8, [x1, #24]
	ldr	w9, [x0, #36]
	str	w8, [x0, #36]
	str	w9, [x1, #24]
	ldr	w8, [x1, #20]
	ldr	w9, [x0, #40]
	str	w8, [x0, #40]
	str	w9, [x1, #20]
	ldr	w8, [x1, #16]
	ldr	w9, [x0, #44]
	str	w8, [x0, #44]
	str	w9, [x1, #16]
	ldr	w8, [x1, #12]
	ldr	w9, [x0, #48]
	str	w8, [x0, #48]
	str	w9, [x1, #12]
	ldr	w8, [x1, #8]
	ldr	w9, [x0, #52]
	str	w8, [x0, #52]
	str	w9, [x1, #8]
	ldr	w8, [x1, #4]
	ldr	w9, [x0, #56]
	str	w8, [x0, #56]
	str	w9, [x1, #4]
	ldr	w8, [x1]
	ldr	w9, [x0, #60]
	str	w8, [x0, #60]
	str	w9, [x1]
	ret
.Lluossavin.func_end1:
	.size	"core::slice::edits::mirror::<i32>", .Lluossavin.func_end1-"core::slice::edits::mirror::<i32>"

	.section	".text.cipher::encrypt","ax",@progbits
	.p2align	2
	.type	"cipher::encrypt",@function
"cipher::encrypt":
	sub	sp, sp, #256
	ldp	w4, w10, [x3]
	ldp	w9, w11, [x3, #8]
	and	w12, w1, #0xff
	stp	x29, x30, [sp, #160]
	cmp	w12, #2
	stp	x28, x27, [sp, #176]
	stp	x26, x25, [sp, #192]
	stp	x24, x23, [sp, #208]
	stp	x22, x21, [sp, #224]
	stp	x20, x19, [sp, #240]
	b.eq	.Lluossavin.BB2_7
	cmp	w12, #1
	b.ne	.Lluossavin.BB2_9
	ldp	q0, q1, [x2, #64]
	add	x8, sp, #32
	str	x0, [sp, #8]
	mov	w12, #32
	stp	q0, q1, [sp, #96]
	ldp	q0, q2, [x2, #96]
	stp	q0, q2, [sp, #128]
	ldp	q1, q0, [x2]
	stp	q1, q0, [sp, #32]
	ldp	q2, q0, [x2, #32]
	stp	q2, q0, [sp, #64]
.Lluossavin.BB2_3:
	mov	x16, xzr
	str	x12, [sp, #16]
.Lluossavin.BB2_4:
	mov	w17, w11
	ldr	w11, [x8, x16]
	str	w4, [sp, #28]
	eor	w18, w17, w9
	add	x16, x16, #4
	eor	w18, w18, w10
	cmp	x16, #16
	eor	w18, w18, w11
	lsr	x2, x18, #4
	lsr	x26, x18, #7
	lsr	x3, x18, #3
	lsr	x19, x18, #5
	lsr	x28, x18, #2
	lsr	x29, x18, #6
	lsr	x11, x18, #1
	eor	w24, w26, w2
	eor	w30, w19, w3
	eor	w27, w29, w28
	eor	w15, w24, w18
	eor	w1, w19, w11
	eor	w21, w2, w28
	eor	w23, w30, w18
	eor	w20, w27, w11
	eor	w7, w15, w3
	eor	w22, w15, w28
	eor	w0, w3, w11
	eor	w25, w30, w26
	eor	w6, w23, w21
	eor	w2, w23, w27
	eor	w5, w24, w1
	eor	w3, w7, w20
	eor	w4, w22, w1
	eor	w21, w0, w21
	eor	w24, w24, w19
	eor	w19, w23, w26
	bic	w0, w27, w25
	and	w14, w5, w21
	and	w12, w19, w2
	and	w13, w4, w3
	eor	w28, w28, w25
	eor	w12, w12, w14
	eor	w13, w13, w14
	bic	w14, w20, w22
	eor	w28, w28, w0
	eor	w29, w29, w30
	eor	w26, w1, w18
	eor	w14, w28, w14
	bic	w28, w30, w18
	eor	w0, w29, w0
	bic	w29, w7, w1
	and	w30, w30, w18
	eor	w28, w28, w11
	eor	w29, w30, w29
	and	w30, w24, w26
	eor	w14, w14, w12
	eor	w28, w28, w30
	and	w30, w6, w11
	eor	w12, w29, w12
	eor	w0, w0, w30
	eor	w15, w28, w15
	eor	w0, w0, w13
	eor	w13, w15, w13
	bic	w15, w14, w12
	eon	w28, w12, w13
	eor	w29, w15, w0
	eor	w14, w14, w0
	and	w28, w29, w28
	eor	w29, w15, w13
	eor	w15, w28, w15
	and	w30, w29, w14
	and	w15, w15, w13
	eor	w0, w30, w0
	eor	w13, w28, w13
	eor	w29, w15, w29
	eon	w12, w12, w15
	and	w11, w13, w11
	and	w15, w29, w0
	and	w27, w12, w27
	eor	w14, w15, w14
	eor	w15, w12, w13
	bic	w12, w12, w25
	and	w20, w15, w20
	bic	w22, w15, w22
	eor	w15, w14, w15
	eor	w25, w14, w0
	and	w7, w14, w7
	bic	w14, w14, w1
	and	w1, w13, w6
	eor	w13, w0, w13
	and	w6, w0, w24
	and	w3, w15, w3
	and	w23, w25, w23
	and	w0, w0, w26
	and	w5, w13, w5
	and	w21, w13, w21
	eor	w13, w15, w13
	eor	w6, w3, w6
	and	w2, w13, w2
	and	w13, w13, w19
	and	w15, w15, w4
	eor	w4, w23, w27
	eor	w5, w23, w5
	eor	w19, w6, w22
	eor	w0, w21, w0
	eor	w11, w3, w11
	bic	w18, w25, w18
	eor	w20, w4, w20
	eor	w5, w5, w19
	eor	w19, w19, w2
	eor	w2, w2, w7
	eor	w1, w15, w1
	eor	w15, w0, w15
	eor	w14, w14, w12
	eor	w11, w11, w4
	eor	w12, w12, w21
	eor	w7, w20, w7
	eor	w19, w19, w20
	eor	w14, w14, w18
	eor	w15, w15, w18
	eor	w18, w1, w13
	eor	w12, w12, w13
	eor	w13, w2, w6
	eon	w11, w11, w2
	mov	w2, #33686018
	mov	w3, #16843009
	eor	w0, w18, w14
	eor	w15, w15, w7
	eor	w12, w12, w19
	eor	w1, w5, w14
	eon	w14, w19, w14
	and	w11, w2, w11, lsl #1
	eor	w0, w0, w7
	eor	w18, w5, w18
	and	w12, w12, w3
	and	w15, w2, w15, lsl #1
	and	w13, w2, w13, lsl #1
	and	w14, w2, w14, lsl #1
	orr	w11, w12, w11
	and	w12, w0, w3
	and	w18, w18, w3
	orr	w11, w15, w11, lsl #2
	orr	w12, w13, w12
	orr	w13, w18, w14
	mov	w4, w10
	orr	w12, w13, w12, lsl #2
	and	w13, w1, w3
	mov	w10, w9
	orr	w11, w11, w13
	mov	w9, w17
	orr	w11, w12, w11, lsl #4
	mov	w12, #20817
	movk	w12, #20817, lsl #16
	eor	w11, w11, w12
	ldr	w12, [sp, #28]
	eor	w12, w12, w11, ror #30
	eor	w12, w12, w11, ror #22
	eor	w12, w12, w11, ror #14
	eor	w12, w12, w11, ror #8
	eor	w11, w12, w11
	b.ne	.Lluossavin.BB2_4
	ldr	x12, [sp, #16]
	add	x8, x8, #16
	subs	x12, x12, #4
	b.ne	.Lluossavin.BB2_3
	ldr	x0, [sp, #8]
	b	.Lluossavin.BB2_11
.Lluossavin.BB2_7:
	ldp	q0, q1, [x2, #64]
	mov	x12, xzr
	stp	q0, q1, [sp, #96]
	ldp	q0, q2, [x2, #96]
	stp	q0, q2, [sp, #128]
	ldp	q1, q0, [x2]
	stp	q1, q0, [sp, #32]
	ldp	q2, q0, [x2, #32]
	stp	q2, q0, [sp, #64]
.Lluossavin.BB2_8:
	add	x13, sp, #32
	eor	w15, w11, w9
	add	x14, x13, x12
	eor	w16, w15, w10
	add	x12, x12, #16
	ldp	w13, w17, [x14]
	cmp	x12, #128
	eor	w16, w16, w13
	adrp	x13, .Lluossavin.static.1
	add	x13, x13, :lo12:.Lluossavin.static.1
	ubfx	x18, x16, #8, #8
	and	x1, x16, #0xff
	eor	w15, w15, w17
	ldrb	w2, [x13, x1]
	ubfx	x1, x16, #16, #8
	lsr	x16, x16, #24
	ldrb	w18, [x13, x18]
	ldrb	w1, [x13, x1]
	ldrb	w16, [x13, x16]
	orr	w18, w2, w18, lsl #8
	orr	w18, w18, w1, lsl #16
	orr	w16, w18, w16, lsl #24
	eor	w8, w4, w16, ror #30
	eor	w8, w8, w16, ror #22
	eor	w8, w8, w16, ror #14
	eor	w8, w8, w16, ror #8
	eor	w4, w8, w16
	eor	w15, w15, w4
	ubfx	x16, x15, #8, #8
	and	x17, x15, #0xff
	ubfx	x18, x15, #16, #8
	ldrb	w17, [x13, x17]
	lsr	x15, x15, #24
	ldrb	w16, [x13, x16]
	ldrb	w18, [x13, x18]
	ldrb	w15, [x13, x15]
	orr	w16, w17, w16, lsl #8
	ldp	w17, w14, [x14, #8]
	orr	w16, w16, w18, lsl #16
	orr	w15, w16, w15, lsl #24
	eor	w14, w4, w14
	ror	w16, w15, #22
	eor	w10, w10, w15
	eor	w16, w16, w15, ror #30
	eor	w16, w16, w15, ror #14
	eor	w16, w16, w15, ror #8
	eor	w15, w11, w17
	eor	w15, w15, w4
	eor	w10, w16, w10
	eor	w15, w15, w10
	eor	w14, w14, w10
	ubfx	x16, x15, #8, #8
	and	x17, x15, #0xff
	ubfx	x18, x15, #16, #8
	ldrb	w17, [x13, x17]
	lsr	x15, x15, #24
	ldrb	w16, [x13, x16]
	ldrb	w18, [x13, x18]
	ldrb	w15, [x13, x15]
	orr	w16, w17, w16, lsl #8
	orr	w16, w16, w18, lsl #16
	orr	w15, w16, w15, lsl #24
	ror	w16, w15, #22
	eor	w8, w9, w15
	eor	w16, w16, w15, ror #30
	eor	w16, w16, w15, ror #14
	eor	w16, w16, w15, ror #8
	eor	w9, w16, w8
	eor	w14, w14, w9
	ubfx	x15, x14, #8, #8
	and	x16, x14, #0xff
	ubfx	x17, x14, #16, #8
	ldrb	w16, [x13, x16]
	lsr	x14, x14, #24
	ldrb	w15, [x13, x15]
	ldrb	w17, [x13, x17]
	ldrb	w13, [x13, x14]
	orr	w15, w16, w15, lsl #8
	orr	w14, w15, w17, lsl #16
	orr	w13, w14, w13, lsl #24
	ror	w14, w13, #22
	eor	w11, w11, w13
	eor	w14, w14, w13, ror #30
	eor	w14, w14, w13, ror #14
	eor	w14, w14, w13, ror #8
	eor	w11, w14, w11
	b.ne	.Lluossavin.BB2_8
	b	.Lluossavin.BB2_11
.Lluossavin.BB2_9:
	ldp	q0, q1, [x2, #64]
	mov	x12, xzr
	stp	q0, q1, [sp, #96]
	ldp	q0, q2, [x2, #96]
	stp	q0, q2, [sp, #128]
	ldp	q1, q0, [x2]
	stp	q1, q0, [sp, #32]
	ldp	q2, q0, [x2, #32]
	stp	q2, q0, [sp, #64]
.Lluossavin.BB2_10:
	add	x13, sp, #32
	eor	w15, w11, w9
	add	x14, x13, x12
	eor	w16, w15, w10
	add	x12, x12, #16
	ldp	w13, w17, [x14]
	cmp	x12, #128
	eor	w13, w16, w13
	eor	w15, w15, w17
	ubfiz	w16, w13, #2, #8
	lsr	w18, w13, #6
	lsr	w1, w13, #14
	lsr	w2, w13, #22
	adrp	x13, .Lluossavin.static.0
	add	x13, x13, :lo12:.Lluossavin.static.0
	add	x16, x13, x16
	and	w18, w18, #0x3fc
	and	w1, w1, #0x3fc
	and	x2, x2, #0x3fc
	ldr	w16, [x16, #3072]
	add	x18, x13, x18
	add	x1, x13, x1
	ldr	w2, [x13, x2]
	ldr	w18, [x18, #2048]
	ldr	w1, [x1, #1024]
	eor	w8, w16, w4
	eor	w8, w8, w18
	eor	w16, w1, w2
	eor	w4, w8, w16
	eor	w15, w15, w4
	lsr	w17, w15, #6
	lsr	w18, w15, #14
	ubfiz	w16, w15, #2, #8
	lsr	w15, w15, #22
	and	w17, w17, #0x3fc
	and	w18, w18, #0x3fc
	add	x16, x13, x16
	and	x15, x15, #0x3fc
	add	x17, x13, x17
	add	x18, x13, x18
	ldr	w16, [x16, #3072]
	ldr	w15, [x13, x15]
	ldr	w17, [x17, #2048]
	ldr	w18, [x18, #1024]
	ldp	w1, w14, [x14, #8]
	eor	w16, w16, w17
	eor	w15, w18, w15
	eor	w15, w16, w15
	eor	w17, w11, w1
	eor	w10, w15, w10
	eor	w14, w4, w14
	eor	w16, w17, w4
	eor	w14, w14, w10
	eor	w15, w16, w10
	lsr	w17, w15, #6
	lsr	w18, w15, #14
	ubfiz	w16, w15, #2, #8
	lsr	w15, w15, #22
	and	w17, w17, #0x3fc
	and	w18, w18, #0x3fc
	add	x16, x13, x16
	and	x15, x15, #0x3fc
	add	x17, x13, x17
	add	x18, x13, x18
	ldr	w16, [x16, #3072]
	ldr	w15, [x13, x15]
	ldr	w17, [x17, #2048]
	ldr	w18, [x18, #1024]
	eor	w16, w16, w17
	eor	w15, w18, w15
	eor	w15, w16, w15
	eor	w9, w15, w9
	eor	w14, w14, w9
	lsr	w16, w14, #6
	lsr	w17, w14, #14
	ubfiz	w15, w14, #2, #8
	lsr	w14, w14, #22
	and	w16, w16, #0x3fc
	and	w17, w17, #0x3fc
	add	x15, x13, x15
	add	x16, x13, x16
	add	x17, x13, x17
	and	x14, x14, #0x3fc
	ldr	w15, [x15, #3072]
	ldr	w16, [x16, #2048]
	ldr	w17, [x17, #1024]
	ldr	w13, [x13, x14]
	eor	w14, w15, w16
	eor	w13, w17, w13
	eor	w13, w14, w13
	eor	w11, w13, w11
	b.ne	.Lluossavin.BB2_10
.Lluossavin.BB2_11:
	ldp	x20, x19, [sp, #240]
	stp	w11, w9, [x0]
	ldp	x22, x21, [sp, #224]
	stp	w10, w4, [x0, #8]
	ldp	x24, x23, [sp, #208]
	ldp	x26, x25, [sp, #192]
	ldp	x28, x27, [sp, #176]
	ldp	x29, x30, [sp, #160]
	add	sp, sp, #256
	ret
.Lluossavin.func_end2:
	.size	"cipher::encrypt", .Lluossavin.func_end2-"cipher::encrypt"

	.section	".text.pieces::flow::run","ax",@progbits
	.p2align	2
	.type	"pieces::flow::run",@function
"pieces::flow::run":
	sub	sp, sp, #272
	ldp	q0, q1, [x2, #64]
	mov	w8, #16
	sub	x8, x8, x5
	ldr	x9, [sp, #272]
	add	x10, sp, #16
	cmp	x7, x8
	stp	x30, x19, [sp, #256]
	mov	x19, x0
	stp	q0, q1, [sp, #112]
	ldp	q2, q0, [x2, #96]
	add	x10, x10, #16
	csel	x11, x7, x8, lo
	str	x29, [sp, #240]
	stp	q2, q0, [sp, #144]
	ldp	q1, q0, [x2]
	stp	q1, q0, [sp, #48]
	ldp	q2, q0, [x2, #32]
	ldp	q1, q3, [x4]
	stp	q2, q0, [sp, #80]
	stp	q1, q3, [sp, #16]
	cbz	x7, .Lluossavin.BB3_12
	cmp	x11, #4
	mov	x12, xzr
	b.lo	.Lluossavin.BB3_10
	sub	x13, x9, x6
	cmp	x13, #16
	b.lo	.Lluossavin.BB3_10
	cmp	x11, #16
	b.hs	.Lluossavin.BB3_5
	mov	x12, xzr
	b	.Lluossavin.BB3_7
.Lluossavin.BB3_5:
	ldr	q0, [x10, x5]
	ldr	q1, [x6]
	and	x12, x11, #0x10
	cmp	x11, x12
	eor	v0.16b, v1.16b, v0.16b
	str	q0, [x9]
	b.eq	.Lluossavin.BB3_12
	tst	x11, #0xc
	b.eq	.Lluossavin.BB3_10
.Lluossavin.BB3_7:
	mov	x16, x12
	add	x15, sp, #16
	and	x12, x11, #0x1c
	add	x14, x16, x5
	sub	x13, x16, x12
	add	x15, x14, x15
	add	x14, x9, x16
	add	x16, x6, x16
	add	x15, x15, #16
.Lluossavin.BB3_8:
	ldr	s0, [x15], #4
	adds	x13, x13, #4
	ldr	s1, [x16], #4
	zip1	v0.8b, v0.8b, v0.8b
	zip1	v1.8b, v1.8b, v1.8b
	eor	v0.8b, v1.8b, v0.8b
	uzp1	v0.8b, v0.8b, v0.8b
	st1	{ v0.s }[0], [x14], #4
	b.ne	.Lluossavin.BB3_8
	cmp	x11, x12
	b.eq	.Lluossavin.BB3_12
.Lluossavin.BB3_10:
	add	x13, x12, x5
	add	x14, sp, #16
	sub	x11, x11, x12
	add	x14, x13, x14
	add	x13, x9, x12
	add	x12, x6, x12
	add	x14, x14, #16
.Lluossavin.BB3_11:
	ldrb	w15, [x14], #1
	subs	x11, x11, #1
	ldrb	w16, [x12], #1
	eor	w15, w16, w15
	strb	w15, [x13], #1
	b.ne	.Lluossavin.BB3_11
.Lluossavin.BB3_12:
	subs	x7, x7, x8
	b.hs	.Lluossavin.BB3_14
	ldr	q0, [sp, #16]
	ldr	q1, [x10]
	stp	q0, q1, [x19]
	ldp	x30, x19, [sp, #256]
	ldr	x29, [sp, #240]
	add	sp, sp, #272
	ret
.Lluossavin.BB3_14:
	movi	v0.2d, #0000000000000000
	ldr	x10, [sp, #280]
	ldr	x12, [sp, #16]
	ldp	w11, w13, [sp, #24]
	add	x9, x9, x8
	sub	x10, x10, x8
	stp	q0, q0, [sp, #192]
	tbz	w3, #0, .Lluossavin.BB3_16
	lsr	x14, x12, #32
	rev	w15, w13
	rev	w13, w11
	rev	w11, w14
	rev	w14, w12
	add	w12, w15, #1
	b	.Lluossavin.BB3_17
.Lluossavin.BB3_16:
	orr	x11, x11, x13, lsl #32
	rev	x13, x12
	rev	x12, x11
	cmn	x11, #1
	add	x12, x12, #1
	cinc	x11, x13, eq
	lsr	x14, x11, #32
	lsr	x13, x12, #32
.Lluossavin.BB3_17:
	add	x0, sp, #192
	add	x2, sp, #48
	add	w3, w3, #3
	add	x4, sp, #224
	add	x6, x6, x8
	mov	w5, #1
	stp	w14, w11, [sp, #224]
	stp	w13, w12, [sp, #232]
	stp	x9, x10, [sp]
	bl	"stream::stream"
	ldp	q0, q1, [sp, #192]
	rev32	v0.16b, v0.16b
	str	q1, [sp, #176]
	stp	q0, q1, [x19]
	ldp	x30, x19, [sp, #256]
	ldr	x29, [sp, #240]
	add	sp, sp, #272
	ret
.Lluossavin.func_end3:
	.size	"pieces::flow::run", .Lluossavin.func_end3-"pieces::flow::run"

	.section	".text.stream::stream","ax",@progbits
	.p2align	2
	.type	"stream::stream",@function
"stream::stream":
	stp	x29, x30, [sp, #-96]!
	stp	x28, x27, [sp, #16]
	stp	x26, x25, [sp, #32]
	stp	x24, x23, [sp, #48]
	stp	x22, x21, [sp, #64]
	stp	x20, x19, [sp, #80]
	sub	sp, sp, #672
	ldr	x8, [sp, #768]
	mov	x22, x7
	mov	x20, x6
	ldp	w29, w28, [x4]
	ldp	w21, w23, [x4, #8]
	str	x8, [sp, #24]
	and	w8, w3, #0xff
	mov	w27, w3
	mov	w26, w1
	cmp	w8, #1
	stp	x0, xzr, [sp, #40]
	str	xzr, [sp, #56]
	str	w5, [sp, #36]
	b.le	.Lluossavin.BB4_4
	cmp	w8, #2
	b.eq	.Lluossavin.BB4_6
	cmp	w8, #4
	b.ne	.Lluossavin.BB4_25
	mov	w8, wzr
	mov	w25, wzr
	mov	w24, #1
	and	w9, w26, #0xff
	cmp	w9, #1
	b.ne	.Lluossavin.BB4_6
	b	.Lluossavin.BB4_26
.Lluossavin.BB4_4:
	cbz	w8, .Lluossavin.BB4_6
	mov	w24, wzr
	mov	w25, wzr
	mov	w8, #1
	and	w9, w26, #0xff
	cmp	w9, #1
	b.eq	.Lluossavin.BB4_26
.Lluossavin.BB4_6:
	ldp	q0, q1, [x2, #64]
	lsr	x24, x22, #4
	stp	q0, q1, [sp, #592]
	ldp	q0, q2, [x2, #96]
	stp	q0, q2, [sp, #624]
	ldp	q1, q0, [x2]
	stp	q1, q0, [sp, #528]
	ldp	q2, q0, [x2, #32]
	stp	q2, q0, [sp, #560]
	cbz	x24, .Lluossavin.BB4_18
	ldr	x8, [sp, #24]
	add	x25, x20, #8
	add	x19, x8, #8
	b	.Lluossavin.BB4_10
.Lluossavin.BB4_8:
	mov	w29, w8
	mov	w28, w9
	mov	w21, w12
	mov	w23, w13
.Lluossavin.BB4_9:
	subs	x24, x24, #1
	add	x25, x25, #16
	add	x19, x19, #16
	b.eq	.Lluossavin.BB4_18
.Lluossavin.BB4_10:
	add	x0, sp, #240
	add	x2, sp, #528
	add	x3, sp, #368
	mov	w1, w26
	str	w29, [sp, #368]
	str	w28, [sp, #372]
	str	w21, [sp, #376]
	str	w23, [sp, #380]
	stp	xzr, xzr, [sp, #240]
	bl	"cipher::encrypt"
	ldp	w10, w11, [x25, #-8]
	ldp	w8, w9, [sp, #240]
	ldp	w14, w15, [x25]
	rev	w10, w10
	rev	w11, w11
	ldp	w12, w13, [sp, #248]
	eor	w16, w8, w10
	eor	w17, w9, w11
	rev	w14, w14
	rev	w15, w15
	rev	w1, w16
	rev	w2, w17
	eor	w18, w12, w14
	eor	w0, w13, w15
	stp	w1, w2, [x19, #-8]
	and	w1, w27, #0xff
	rev	w2, w18
	rev	w3, w0
	cmp	w1, #1
	stp	w2, w3, [x19]
	b.le	.Lluossavin.BB4_14
	cmp	w1, #2
	b.eq	.Lluossavin.BB4_8
	cmp	w1, #3
	b.ne	.Lluossavin.BB4_16
	mov	w8, w23
	mov	w9, w28
	orr	x8, x8, x21, lsl #32
	orr	x9, x9, x29, lsl #32
	adds	x23, x8, #1
	cinc	x28, x9, hs
	lsr	x21, x23, #32
	lsr	x29, x28, #32
	b	.Lluossavin.BB4_9
.Lluossavin.BB4_14:
	cbnz	w1, .Lluossavin.BB4_17
	mov	w29, w16
	mov	w28, w17
	mov	w21, w18
	mov	w23, w0
	b	.Lluossavin.BB4_9
.Lluossavin.BB4_16:
	add	w23, w23, #1
	b	.Lluossavin.BB4_9
.Lluossavin.BB4_17:
	mov	w29, w10
	mov	w28, w11
	mov	w21, w14
	mov	w23, w15
	b	.Lluossavin.BB4_9
.Lluossavin.BB4_18:
	ldr	w8, [sp, #36]
	and	x19, x22, #0xf
	str	w29, [sp, #368]
	str	w28, [sp, #372]
	str	w21, [sp, #376]
	str	w23, [sp, #380]
	stp	xzr, xzr, [sp, #240]
	tbnz	w8, #0, .Lluossavin.BB4_21
	cbnz	x19, .Lluossavin.BB4_21
	ldr	x14, [sp, #40]
	str	xzr, [sp, #664]
	str	xzr, [sp, #656]
	b	.Lluossavin.BB4_24
.Lluossavin.BB4_21:
	add	x0, sp, #240
	add	x2, sp, #528
	add	x3, sp, #368
	mov	w1, w26
	bl	"cipher::encrypt"
	ldr	q0, [sp, #240]
	ldr	x14, [sp, #40]
	rev32	v0.16b, v0.16b
	str	q0, [sp, #656]
	cbz	x19, .Lluossavin.BB4_24
	ldr	x10, [sp, #24]
	and	x9, x22, #0xfffffffffffffff0
	add	x8, x20, x9
	add	x9, x10, x9
	add	x10, sp, #656
.Lluossavin.BB4_23:
	ldrb	w11, [x10], #1
	subs	x19, x19, #1
	ldrb	w12, [x8], #1
	eor	w11, w12, w11
	strb	w11, [x9], #1
	b.ne	.Lluossavin.BB4_23
.Lluossavin.BB4_24:
	ldr	q0, [sp, #656]
	b	.Lluossavin.BB4_54
.Lluossavin.BB4_25:
	mov	w8, wzr
	mov	w24, #1
	mov	w25, #1
	and	w9, w26, #0xff
	cmp	w9, #1
	b.ne	.Lluossavin.BB4_6
.Lluossavin.BB4_26:
	ldp	q0, q2, [x2, #64]
	ldr	q16, [x2, #32]
	ldp	q4, q3, [x2, #48]
	stp	w29, w28, [sp, #224]
	stp	w21, w23, [sp, #232]
	ldp	q5, q6, [x2, #80]
	stp	q0, q2, [sp, #128]
	ldp	q1, q0, [x2, #96]
	stp	q16, q4, [sp, #272]
	stp	q3, q5, [sp, #304]
	stp	q1, q0, [sp, #160]
	ldp	q2, q0, [x2]
	stp	xzr, xzr, [sp, #200]
	str	xzr, [sp, #192]
	stp	q2, q0, [sp, #64]
	ldp	q1, q0, [x2, #32]
	ldp	q7, q2, [x2]
	stp	q1, q0, [sp, #96]
	ldr	q0, [x2, #112]
	stp	q7, q2, [sp, #240]
	stp	q6, q0, [sp, #336]
	cbz	w8, .Lluossavin.BB4_29
	ldp	q0, q1, [x2, #64]
	cmp	x22, #3071
	ldr	x27, [sp, #24]
	stp	q0, q1, [sp, #432]
	ldp	q0, q2, [x2, #96]
	stp	q0, q2, [sp, #464]
	ldp	q1, q0, [x2]
	stp	q1, q0, [sp, #368]
	ldp	q2, q0, [x2, #32]
	stp	q2, q0, [sp, #400]
	b.hi	.Lluossavin.BB4_30
	mov	x19, xzr
	stp	w29, w28, [sp, #192]
	stp	w21, w23, [sp, #200]
	b	.Lluossavin.BB4_33
.Lluossavin.BB4_29:
	ldr	x27, [sp, #24]
	add	x0, sp, #192
	add	x1, sp, #240
	add	x3, sp, #224
	mov	w2, w25
	mov	x4, x20
	mov	x5, x22
	mov	x6, x27
	bl	"stream::batches::counters"
	ldr	x19, [sp, #208]
	b	.Lluossavin.BB4_33
.Lluossavin.BB4_30:
	ldp	q0, q1, [x2, #64]
	add	x0, sp, #496
	add	x3, sp, #512
	mov	w1, #1
	str	w29, [sp, #512]
	str	w28, [sp, #516]
	stp	q0, q1, [sp, #592]
	ldp	q0, q2, [x2, #96]
	str	w21, [sp, #520]
	str	w23, [sp, #524]
	stp	q0, q2, [sp, #624]
	ldp	q1, q0, [x2]
	stp	xzr, xzr, [sp, #496]
	stp	q1, q0, [sp, #528]
	ldp	q2, q0, [x2, #32]
	add	x2, sp, #528
	stp	q2, q0, [sp, #560]
	bl	"cipher::encrypt"
	ldr	q0, [sp, #496]
	ldr	q1, [x20]
	sub	x8, x22, #16
	cmp	x8, #3072
	mov	w19, #16
	rev32	v0.16b, v0.16b
	eor	v0.16b, v0.16b, v1.16b
	str	q0, [x27]
	b.lo	.Lluossavin.BB4_32
.Lluossavin.BB4_31:
	lsr	x8, x8, #4
	mov	w9, #512
	add	x0, sp, #368
	add	x3, x20, x19
	add	x4, x27, x19
	cmp	x8, #512
	csel	x26, x8, x9, lo
	add	x8, x20, x19
	sub	x2, x8, #16
	mov	x1, x26
	bl	"sliced::encrypt_xored"
	add	x19, x19, x26, lsl #4
	sub	x8, x22, x19
	cmp	x8, #3071
	b.hi	.Lluossavin.BB4_31
.Lluossavin.BB4_32:
	add	x8, x20, x19
	ldur	q0, [x8, #-16]
	rev32	v0.16b, v0.16b
	str	q0, [sp, #192]
.Lluossavin.BB4_33:
	ldr	q0, [sp, #192]
	sub	x21, x22, x19
	add	x23, x20, x19
	cmp	x21, #15
	add	x26, x27, x19
	str	q0, [sp, #512]
	b.hi	.Lluossavin.BB4_37
	ldr	w8, [sp, #36]
	str	xzr, [sp, #536]
	str	xzr, [sp, #528]
	tbnz	w8, #0, .Lluossavin.BB4_44
	cmp	x22, x19
	b.ne	.Lluossavin.BB4_44
	ldr	x14, [sp, #40]
	stp	xzr, xzr, [sp, #368]
	b	.Lluossavin.BB4_52
.Lluossavin.BB4_37:
	movi	v1.2d, #0000000000000000
	lsr	x19, x21, #10
	ldr	q0, [sp, #512]
	str	q0, [sp, #240]
	stp	q1, q1, [sp, #368]
	cbz	x19, .Lluossavin.BB4_40
	mov	x20, x23
	mov	x22, x26
.Lluossavin.BB4_39:
	add	x0, sp, #368
	add	x1, sp, #64
	add	x4, sp, #240
	mov	w2, w24
	mov	w3, w25
	mov	w5, #64
	mov	w6, wzr
	mov	x7, x20
	str	x22, [sp]
	bl	"stream::few::few"
	ldr	q0, [sp, #368]
	subs	x19, x19, #1
	add	x22, x22, #1024
	add	x20, x20, #1024
	str	q0, [sp, #240]
	b.ne	.Lluossavin.BB4_39
.Lluossavin.BB4_40:
	and	x8, x21, #0xfffffffffffffc00
	movi	v0.2d, #0000000000000000
	ubfx	x5, x21, #4, #6
	add	x20, x23, x8
	add	x22, x26, x8
	ldr	w8, [sp, #36]
	ands	x19, x21, #0xf
	add	x0, sp, #528
	add	x1, sp, #64
	csinc	w6, w8, wzr, eq
	add	x4, sp, #240
	mov	w2, w24
	mov	w3, w25
	mov	x7, x20
	stp	q0, q0, [sp, #528]
	add	x23, sp, #528
	str	x22, [sp]
	bl	"stream::few::few"
	cbz	x19, .Lluossavin.BB4_43
	and	x10, x21, #0x3f0
	add	x8, x23, #16
	add	x9, x20, x10
	add	x10, x22, x10
.Lluossavin.BB4_42:
	ldrb	w11, [x8], #1
	subs	x19, x19, #1
	ldrb	w12, [x9], #1
	eor	w11, w12, w11
	strb	w11, [x10], #1
	b.ne	.Lluossavin.BB4_42
.Lluossavin.BB4_43:
	ldr	x14, [sp, #40]
	b	.Lluossavin.BB4_53
.Lluossavin.BB4_44:
	add	x0, sp, #528
	add	x2, sp, #64
	add	x3, sp, #512
	mov	w1, #1
	bl	"cipher::encrypt"
	ldr	q0, [sp, #528]
	ldr	x14, [sp, #40]
	cmp	x22, x19
	rev32	v0.16b, v0.16b
	str	q0, [sp, #368]
	b.eq	.Lluossavin.BB4_52
	cmp	x21, #8
	mov	x8, xzr
	b.lo	.Lluossavin.BB4_50
	sub	x9, x27, x20
	cmp	x9, #32
	b.lo	.Lluossavin.BB4_50
	and	x8, x21, #0x8
	add	x9, sp, #368
	and	x10, x21, #0x8
.Lluossavin.BB4_48:
	ldr	d0, [x9], #8
	subs	x10, x10, #8
	ldr	d1, [x23], #8
	eor	v0.8b, v1.8b, v0.8b
	str	d0, [x26], #8
	b.ne	.Lluossavin.BB4_48
	cmp	x21, x8
	b.eq	.Lluossavin.BB4_52
.Lluossavin.BB4_50:
	sub	x9, x22, x8
	add	x11, x19, x8
	add	x12, sp, #368
	sub	x9, x9, x19
	add	x10, x27, x11
	orr	x8, x12, x8
	add	x11, x20, x11
.Lluossavin.BB4_51:
	ldrb	w12, [x8], #1
	subs	x9, x9, #1
	ldrb	w13, [x11], #1
	eor	w12, w13, w12
	strb	w12, [x10], #1
	b.ne	.Lluossavin.BB4_51
.Lluossavin.BB4_52:
	ldr	q0, [sp, #512]
	ldr	q1, [sp, #368]
	stp	q0, q1, [sp, #528]
.Lluossavin.BB4_53:
	ldr	q0, [sp, #544]
	ldr	w29, [sp, #528]
	ldr	w28, [sp, #532]
	ldr	w21, [sp, #536]
	ldr	w23, [sp, #540]
.Lluossavin.BB4_54:
	str	q0, [sp, #48]
	ldr	q0, [sp, #48]
	stp	w29, w28, [x14]
	stp	w21, w23, [x14, #8]
	str	q0, [x14, #16]
	add	sp, sp, #672
	ldp	x20, x19, [sp, #80]
	ldp	x22, x21, [sp, #64]
	ldp	x24, x23, [sp, #48]
	ldp	x26, x25, [sp, #32]
	ldp	x28, x27, [sp, #16]
	ldp	x29, x30, [sp], #96
	ret
.Lluossavin.func_end4:
	.size	"stream::stream", .Lluossavin.func_end4-"stream::stream"

	.section	".text.sliced::encrypt_xored","ax",@progbits
	.p2align	2
	.type	"sliced::encrypt_xored",@function
"sliced::encrypt_xored":
	stp	x29, x30, [sp, #-80]!
	sub	x9, sp, #4, lsl #12
	stp	x26, x25, [sp, #16]
	sub	x9, x9, #2048
	stp	x24, x23, [sp, #32]
	stp	x22, x21, [sp, #48]
	stp	x20, x19, [sp, #64]
.Lluossavin.BB5_1:
	sub	sp, sp, #3072
	cmp	sp, x9
	str	xzr, [sp]
	b.ne	.Lluossavin.BB5_1
	sub	sp, sp, #2176
	mov	x23, x2
	mov	x19, x1
	mov	x22, x0
	mov	x0, sp
	mov	w1, wzr
	mov	w2, #8192
	str	xzr, [sp]
	mov	x21, x4
	mov	x20, x3
	mov	x24, sp
	bl	memset
	cbz	x19, .Lluossavin.BB5_5
	mov	x8, xzr
	mov	x9, xzr
	add	x10, x24, #1, lsl #12
	add	x11, x23, #8
.Lluossavin.BB5_4:
	and	x12, x8, #0x1f8
	ldp	x13, x14, [x11, #-8]
	add	x12, x12, x9, lsr #6
	add	x9, x9, #1
	mov	x15, sp
	cmp	x19, x9
	add	x8, x8, #8
	add	x11, x11, #16
	rev	x13, x13
	rev	x14, x14
	str	x13, [x15, x12, lsl #3]
	str	x14, [x10, x12, lsl #3]
	b.ne	.Lluossavin.BB5_4
.Lluossavin.BB5_5:
	ldp	q0, q1, [x22, #64]
	lsr	x8, x19, #6
	tst	x19, #0x3f
	adrp	x9, .Lluossavin.static.3
	add	x9, x9, :lo12:.Lluossavin.static.3
	cinc	x8, x8, ne
	add	x25, sp, #2, lsl #12
	mov	w1, wzr
	str	q0, [sp, #20544]
	ldp	q0, q2, [x22, #96]
	str	q1, [sp, #20560]
	add	x0, x25, #2, lsl #12
	mov	w2, #4096
	str	q0, [sp, #20576]
	ldp	q1, q0, [x22]
	str	q2, [sp, #20592]
	str	q1, [sp, #20480]
	str	q0, [sp, #20496]
	ldp	q1, q0, [x22, #32]
	ldr	x22, [x9, x8, lsl #3]
	str	q1, [sp, #20512]
	str	q0, [sp, #20528]
	bl	memset
	mov	x0, sp
	bl	"rows::transpose"
	add	x0, x25, #2048
	mov	x1, sp
	mov	w2, #2048
	bl	memcpy
	add	x0, sp, #2, lsl #12
	add	x1, x24, #2048
	mov	w2, #2048
	bl	memcpy
	add	x0, x24, #1, lsl #12
	add	x23, x24, #1, lsl #12
	mov	w26, #6144
	bl	"rows::transpose"
	add	x0, x25, x26
	add	x1, x24, #1, lsl #12
	mov	w2, #2048
	bl	memcpy
	add	x0, x25, #1, lsl #12
	add	x1, x24, x26
	mov	w2, #2048
	bl	memcpy
	add	x0, sp, #2, lsl #12
	add	x1, sp, #5, lsl #12
	mov	x3, sp
	mov	x2, x22
	bl	"sliced::Planes::rounds_to_rows"
	cbz	x19, .Lluossavin.BB5_8
	mov	x8, xzr
	mov	x9, xzr
	add	x10, x21, #8
	add	x11, x20, #8
.Lluossavin.BB5_7:
	and	x12, x8, #0x1f8
	mov	x13, sp
	add	x8, x8, #8
	add	x12, x12, x9, lsr #6
	ldp	x14, x15, [x11, #-8]
	add	x9, x9, #1
	add	x11, x11, #16
	ldr	x13, [x13, x12, lsl #3]
	ldr	x12, [x23, x12, lsl #3]
	cmp	x19, x9
	rev	x13, x13
	rev	x12, x12
	eor	x13, x13, x14
	eor	x12, x12, x15
	stp	x13, x12, [x10, #-8]
	add	x10, x10, #16
	b.ne	.Lluossavin.BB5_7
.Lluossavin.BB5_8:
	add	sp, sp, #5, lsl #12
	add	sp, sp, #128
	ldp	x20, x19, [sp, #64]
	ldp	x22, x21, [sp, #48]
	ldp	x24, x23, [sp, #32]
	ldp	x26, x25, [sp, #16]
	ldp	x29, x30, [sp], #80
	ret
.Lluossavin.func_end5:
	.size	"sliced::encrypt_xored", .Lluossavin.func_end5-"sliced::encrypt_xored"

	.section	".text.rows::transpose","ax",@progbits
	.p2align	2
	.type	"rows::transpose",@function
"rows::transpose":
	mov	x8, xzr
.Lluossavin.BB6_1:
	movi	v0.2d, #0x000000ffffffff
	add	x9, x0, x8
	add	x8, x8, #16
	ldr	q1, [x9]
	ldr	q2, [x9, #2048]
	cmp	x8, #2048
	ushr	v3.2d, v1.2d, #32
	and	v0.16b, v2.16b, v0.16b
	eor	v0.16b, v0.16b, v3.16b
	shl	v3.2d, v0.2d, #32
	eor	v0.16b, v0.16b, v2.16b
	eor	v1.16b, v3.16b, v1.16b
	str	q0, [x9, #2048]
	str	q1, [x9]
	b.ne	.Lluossavin.BB6_1
	mov	x8, xzr
.Lluossavin.BB6_3:
	add	x9, x0, x8
	movi	v3.2d, #0x00ffff0000ffff
	add	x8, x8, #16
	ldr	q0, [x9]
	ldr	q2, [x9, #1024]
	cmp	x8, #1024
	ushr	v1.2d, v0.2d, #16
	eor	v1.16b, v1.16b, v2.16b
	and	v1.16b, v1.16b, v3.16b
	shl	v3.2d, v1.2d, #16
	eor	v1.16b, v1.16b, v2.16b
	eor	v0.16b, v3.16b, v0.16b
	str	q1, [x9, #1024]
	str	q0, [x9]
	b.ne	.Lluossavin.BB6_3
	mov	x8, xzr
.Lluossavin.BB6_5:
	add	x9, x0, x8
	movi	v3.2d, #0x00ffff0000ffff
	add	x8, x8, #16
	ldr	q0, [x9, #2048]
	ldr	q2, [x9, #3072]
	cmp	x8, #1024
	ushr	v1.2d, v0.2d, #16
	eor	v1.16b, v1.16b, v2.16b
	and	v1.16b, v1.16b, v3.16b
	shl	v3.2d, v1.2d, #16
	eor	v1.16b, v1.16b, v2.16b
	eor	v0.16b, v3.16b, v0.16b
	str	q1, [x9, #3072]
	str	q0, [x9, #2048]
	b.ne	.Lluossavin.BB6_5
	mov	x8, xzr
.Lluossavin.BB6_7:
	add	x9, x0, x8
	add	x8, x8, #16
	ldr	q0, [x9]
	ldr	q2, [x9, #512]
	cmp	x8, #512
	ushr	v1.2d, v0.2d, #8
	eor	v1.16b, v1.16b, v2.16b
	bic	v1.8h, #255, lsl #8
	shl	v3.2d, v1.2d, #8
	eor	v1.16b, v1.16b, v2.16b
	eor	v0.16b, v3.16b, v0.16b
	str	q1, [x9, #512]
	str	q0, [x9]
	b.ne	.Lluossavin.BB6_7
	mov	x8, xzr
.Lluossavin.BB6_9:
	add	x9, x0, x8
	add	x8, x8, #16
	ldr	q0, [x9, #1024]
	ldr	q2, [x9, #1536]
	cmp	x8, #512
	ushr	v1.2d, v0.2d, #8
	eor	v1.16b, v1.16b, v2.16b
	bic	v1.8h, #255, lsl #8
	shl	v3.2d, v1.2d, #8
	eor	v1.16b, v1.16b, v2.16b
	eor	v0.16b, v3.16b, v0.16b
	str	q1, [x9, #1536]
	str	q0, [x9, #1024]
	b.ne	.Lluossavin.BB6_9
	mov	x8, xzr
.Lluossavin.BB6_11:
	add	x9, x0, x8
	add	x8, x8, #16
	ldr	q0, [x9, #2048]
	ldr	q2, [x9, #2560]
	cmp	x8, #512
	ushr	v1.2d, v0.2d, #8
	eor	v1.16b, v1.16b, v2.16b
	bic	v1.8h, #255, lsl #8
	shl	v3.2d, v1.2d, #8
	eor	v1.16b, v1.16b, v2.16b
	eor	v0.16b, v3.16b, v0.16b
	str	q1, [x9, #2560]
	str	q0, [x9, #2048]
	b.ne	.Lluossavin.BB6_11
	mov	x8, xzr
.Lluossavin.BB6_13:
	add	x9, x0, x8
	add	x8, x8, #16
	ldr	q0, [x9, #3072]
	ldr	q2, [x9, #3584]
	cmp	x8, #512
	ushr	v1.2d, v0.2d, #8
	eor	v1.16b, v1.16b, v2.16b
	bic	v1.8h, #255, lsl #8
	shl	v3.2d, v1.2d, #8
	eor	v1.16b, v1.16b, v2.16b
	eor	v0.16b, v3.16b, v0.16b
	str	q1, [x9, #3584]
	str	q0, [x9, #3072]
	b.ne	.Lluossavin.BB6_13
	ldp	q1, q3, [x0]
	movi	v0.16b, #15
	ldp	q4, q7, [x0, #32]
	mov	x8, x0
	ldp	q20, q22, [x0, #256]
	mov	w9, #16
	ushr	v2.2d, v1.2d, #4
	ushr	v5.2d, v3.2d, #4
	ushr	v6.2d, v4.2d, #4
	ushr	v17.2d, v7.2d, #4
	ldp	q19, q16, [x0, #288]
	eor	v2.16b, v2.16b, v20.16b
	eor	v5.16b, v5.16b, v22.16b
	eor	v23.16b, v6.16b, v19.16b
	eor	v24.16b, v17.16b, v16.16b
	and	v25.16b, v2.16b, v0.16b
	ldp	q18, q17, [x0, #64]
	and	v26.16b, v5.16b, v0.16b
	ldp	q21, q6, [x0, #320]
	and	v23.16b, v23.16b, v0.16b
	and	v24.16b, v24.16b, v0.16b
	ushr	v27.2d, v18.2d, #4
	shl	v28.2d, v25.2d, #4
	eor	v20.16b, v25.16b, v20.16b
	shl	v25.2d, v26.2d, #4
	ushr	v29.2d, v17.2d, #4
	eor	v22.16b, v26.16b, v22.16b
	shl	v26.2d, v23.2d, #4
	shl	v30.2d, v24.2d, #4
	eor	v19.16b, v23.16b, v19.16b
	ldp	q2, q5, [x0, #96]
	eor	v27.16b, v27.16b, v21.16b
	eor	v1.16b, v28.16b, v1.16b
	stp	q20, q22, [x0, #256]
	eor	v3.16b, v25.16b, v3.16b
	eor	v20.16b, v29.16b, v6.16b
	eor	v4.16b, v26.16b, v4.16b
	eor	v7.16b, v30.16b, v7.16b
	and	v22.16b, v27.16b, v0.16b
	ushr	v28.2d, v2.2d, #4
	stp	q1, q3, [x0]
	ushr	v1.2d, v5.2d, #4
	eor	v3.16b, v24.16b, v16.16b
	and	v20.16b, v20.16b, v0.16b
	stp	q4, q7, [x0, #32]
	ldp	q23, q4, [x0, #352]
	shl	v16.2d, v22.2d, #4
	stp	q19, q3, [x0, #288]
	shl	v7.2d, v20.2d, #4
	eor	v6.16b, v20.16b, v6.16b
	eor	v1.16b, v1.16b, v4.16b
	eor	v19.16b, v28.16b, v23.16b
	eor	v16.16b, v16.16b, v18.16b
	eor	v18.16b, v22.16b, v21.16b
	eor	v17.16b, v7.16b, v17.16b
	ldp	q3, q7, [x8, #128]!
	and	v20.16b, v1.16b, v0.16b
	and	v19.16b, v19.16b, v0.16b
	stp	q18, q6, [x0, #320]
	ldp	q22, q26, [x8, #256]
	stp	q16, q17, [x0, #64]
	ushr	v21.2d, v3.2d, #4
	ushr	v24.2d, v7.2d, #4
	ldr	q28, [x8, #3936]
	shl	v16.2d, v20.2d, #4
	shl	v25.2d, v19.2d, #4
	eor	v18.16b, v19.16b, v23.16b
	eor	v4.16b, v20.16b, v4.16b
	ldr	q30, [x8, #3952]
	eor	v17.16b, v21.16b, v22.16b
	eor	v21.16b, v24.16b, v26.16b
	eor	v16.16b, v16.16b, v5.16b
	ldp	q1, q5, [x8, #32]
	eor	v6.16b, v25.16b, v2.16b
	stp	q18, q4, [x0, #352]
	and	v19.16b, v21.16b, v0.16b
	ldp	q21, q25, [x8, #288]
	ushr	v20.2d, v1.2d, #4
	and	v17.16b, v17.16b, v0.16b
	ushr	v23.2d, v5.2d, #4
	stp	q6, q16, [x0, #96]
	shl	v6.2d, v19.2d, #4
	eor	v18.16b, v19.16b, v26.16b
	eor	v16.16b, v20.16b, v21.16b
	shl	v24.2d, v17.2d, #4
	eor	v20.16b, v23.16b, v25.16b
	eor	v17.16b, v17.16b, v22.16b
	ldp	q22, q26, [x8, #320]
	eor	v6.16b, v6.16b, v7.16b
	and	v7.16b, v16.16b, v0.16b
	ldp	q2, q16, [x8, #64]
	eor	v4.16b, v24.16b, v3.16b
	and	v19.16b, v20.16b, v0.16b
	stp	q17, q18, [x8, #256]
	ushr	v20.2d, v2.2d, #4
	ushr	v23.2d, v16.2d, #4
	shl	v24.2d, v7.2d, #4
	stp	q4, q6, [x8]
	shl	v4.2d, v19.2d, #4
	eor	v7.16b, v7.16b, v21.16b
	eor	v17.16b, v19.16b, v25.16b
	eor	v6.16b, v20.16b, v22.16b
	eor	v20.16b, v23.16b, v26.16b
	eor	v1.16b, v24.16b, v1.16b
	eor	v4.16b, v4.16b, v5.16b
	stp	q7, q17, [x8, #288]
	and	v5.16b, v6.16b, v0.16b
	ldp	q3, q6, [x8, #96]
	and	v18.16b, v20.16b, v0.16b
	stp	q1, q4, [x8, #32]
	ldp	q20, q4, [x8, #352]
	ushr	v19.2d, v3.2d, #4
	ushr	v21.2d, v6.2d, #4
	shl	v1.2d, v5.2d, #4
	shl	v23.2d, v18.2d, #4
	eor	v18.16b, v18.16b, v26.16b
	eor	v19.16b, v19.16b, v20.16b
	eor	v7.16b, v21.16b, v4.16b
	eor	v1.16b, v1.16b, v2.16b
	eor	v2.16b, v5.16b, v22.16b
	eor	v16.16b, v23.16b, v16.16b
	and	v17.16b, v19.16b, v0.16b
	ldp	q5, q19, [x8, #384]
	and	v7.16b, v7.16b, v0.16b
	stp	q1, q16, [x8, #64]
	ldp	q22, q16, [x8, #640]
	stp	q2, q18, [x8, #320]
	ushr	v21.2d, v5.2d, #4
	ushr	v23.2d, v19.2d, #4
	shl	v1.2d, v17.2d, #4
	shl	v24.2d, v7.2d, #4
	eor	v4.16b, v7.16b, v4.16b
	eor	v21.16b, v21.16b, v22.16b
	eor	v2.16b, v23.16b, v16.16b
	eor	v1.16b, v1.16b, v3.16b
	eor	v3.16b, v17.16b, v20.16b
	ldp	q17, q20, [x8, #416]
	eor	v6.16b, v24.16b, v6.16b
	and	v18.16b, v21.16b, v0.16b
	and	v7.16b, v2.16b, v0.16b
	ushr	v2.2d, v17.2d, #4
	ushr	v23.2d, v20.2d, #4
	stp	q3, q4, [x8, #352]
	stp	q1, q6, [x8, #96]
	ldp	q21, q6, [x8, #672]
	shl	v1.2d, v18.2d, #4
	shl	v24.2d, v7.2d, #4
	eor	v7.16b, v7.16b, v16.16b
	eor	v2.16b, v2.16b, v21.16b
	eor	v3.16b, v23.16b, v6.16b
	eor	v4.16b, v1.16b, v5.16b
	eor	v5.16b, v18.16b, v22.16b
	eor	v18.16b, v24.16b, v19.16b
	and	v19.16b, v2.16b, v0.16b
	ldp	q1, q2, [x8, #448]
	and	v16.16b, v3.16b, v0.16b
	ldp	q23, q3, [x8, #704]
	stp	q4, q18, [x8, #384]
	ushr	v22.2d, v1.2d, #4
	ushr	v24.2d, v2.2d, #4
	shl	v4.2d, v19.2d, #4
	shl	v18.2d, v16.2d, #4
	stp	q5, q7, [x8, #640]
	eor	v7.16b, v19.16b, v21.16b
	eor	v6.16b, v16.16b, v6.16b
	eor	v22.16b, v22.16b, v23.16b
	eor	v5.16b, v24.16b, v3.16b
	eor	v4.16b, v4.16b, v17.16b
	eor	v18.16b, v18.16b, v20.16b
	ldp	q17, q20, [x8, #480]
	stp	q7, q6, [x8, #672]
	and	v19.16b, v22.16b, v0.16b
	and	v5.16b, v5.16b, v0.16b
	ushr	v16.2d, v17.2d, #4
	ushr	v22.2d, v20.2d, #4
	stp	q4, q18, [x8, #416]
	ldp	q21, q18, [x8, #736]
	shl	v4.2d, v19.2d, #4
	shl	v24.2d, v5.2d, #4
	eor	v19.16b, v19.16b, v23.16b
	eor	v3.16b, v5.16b, v3.16b
	eor	v16.16b, v16.16b, v21.16b
	eor	v6.16b, v22.16b, v18.16b
	eor	v22.16b, v4.16b, v1.16b
	ldp	q7, q1, [x8, #512]
	eor	v2.16b, v24.16b, v2.16b
	ldp	q24, q4, [x8, #768]
	and	v16.16b, v16.16b, v0.16b
	and	v6.16b, v6.16b, v0.16b
	stp	q19, q3, [x8, #704]
	ushr	v23.2d, v7.2d, #4
	ushr	v25.2d, v1.2d, #4
	stp	q22, q2, [x8, #448]
	shl	v2.2d, v16.2d, #4
	shl	v22.2d, v6.2d, #4
	eor	v16.16b, v16.16b, v21.16b
	eor	v5.16b, v23.16b, v24.16b
	eor	v23.16b, v25.16b, v4.16b
	eor	v18.16b, v6.16b, v18.16b
	eor	v17.16b, v2.16b, v17.16b
	ldp	q3, q2, [x8, #544]
	and	v19.16b, v5.16b, v0.16b
	eor	v5.16b, v22.16b, v20.16b
	and	v20.16b, v23.16b, v0.16b
	stp	q16, q18, [x8, #736]
	ushr	v21.2d, v3.2d, #4
	ushr	v23.2d, v2.2d, #4
	stp	q17, q5, [x8, #480]
	ldp	q6, q5, [x8, #800]
	shl	v22.2d, v19.2d, #4
	shl	v17.2d, v20.2d, #4
	eor	v18.16b, v19.16b, v24.16b
	eor	v4.16b, v20.16b, v4.16b
	ldp	q20, q24, [x8, #832]
	eor	v21.16b, v21.16b, v6.16b
	eor	v19.16b, v23.16b, v5.16b
	eor	v7.16b, v22.16b, v7.16b
	ldp	q16, q22, [x8, #576]
	eor	v1.16b, v17.16b, v1.16b
	stp	q18, q4, [x8, #768]
	and	v17.16b, v21.16b, v0.16b
	and	v19.16b, v19.16b, v0.16b
	ushr	v21.2d, v16.2d, #4
	ushr	v23.2d, v22.2d, #4
	stp	q7, q1, [x8, #512]
	shl	v1.2d, v17.2d, #4
	shl	v18.2d, v19.2d, #4
	eor	v6.16b, v17.16b, v6.16b
	eor	v7.16b, v21.16b, v20.16b
	eor	v21.16b, v23.16b, v24.16b
	eor	v5.16b, v19.16b, v5.16b
	eor	v23.16b, v1.16b, v3.16b
	ldp	q4, q1, [x8, #608]
	and	v7.16b, v7.16b, v0.16b
	and	v17.16b, v21.16b, v0.16b
	eor	v18.16b, v18.16b, v2.16b
	ldp	q3, q2, [x8, #864]
	stp	q6, q5, [x8, #800]
	ushr	v21.2d, v4.2d, #4
	ushr	v25.2d, v1.2d, #4
	shl	v19.2d, v7.2d, #4
	shl	v26.2d, v17.2d, #4
	stp	q23, q18, [x8, #544]
	eor	v7.16b, v7.16b, v20.16b
	eor	v17.16b, v17.16b, v24.16b
	ldr	q24, [x8, #1168]
	eor	v21.16b, v21.16b, v3.16b
	eor	v18.16b, v25.16b, v2.16b
	eor	v16.16b, v19.16b, v16.16b
	eor	v5.16b, v26.16b, v22.16b
	ldr	q22, [x8, #1152]
	ldp	q19, q20, [x8, #896]
	stp	q7, q17, [x8, #832]
	and	v6.16b, v21.16b, v0.16b
	and	v18.16b, v18.16b, v0.16b
	stp	q16, q5, [x8, #576]
	ushr	v16.2d, v19.2d, #4
	ushr	v23.2d, v20.2d, #4
	shl	v5.2d, v6.2d, #4
	shl	v21.2d, v18.2d, #4
	eor	v3.16b, v6.16b, v3.16b
	ldr	q6, [x8, #1184]
	eor	v2.16b, v18.16b, v2.16b
	eor	v7.16b, v23.16b, v24.16b
	ldr	q23, [x8, #1264]
	eor	v4.16b, v5.16b, v4.16b
	eor	v5.16b, v16.16b, v22.16b
	eor	v1.16b, v21.16b, v1.16b
	ldp	q25, q16, [x8, #928]
	ldr	q21, [x8, #1200]
	and	v7.16b, v7.16b, v0.16b
	stp	q3, q2, [x8, #864]
	stp	q4, q1, [x8, #608]
	and	v4.16b, v5.16b, v0.16b
	ushr	v17.2d, v25.2d, #4
	ushr	v5.2d, v16.2d, #4
	shl	v18.2d, v7.2d, #4
	eor	v7.16b, v7.16b, v24.16b
	shl	v1.2d, v4.2d, #4
	eor	v4.16b, v4.16b, v22.16b
	ldr	q22, [x8, #1216]
	eor	v17.16b, v17.16b, v6.16b
	eor	v5.16b, v5.16b, v21.16b
	str	q7, [x8, #1168]
	eor	v2.16b, v1.16b, v19.16b
	str	q4, [x8, #1152]
	and	v17.16b, v17.16b, v0.16b
	and	v3.16b, v5.16b, v0.16b
	eor	v5.16b, v18.16b, v20.16b
	ldp	q1, q4, [x8, #960]
	shl	v18.2d, v17.2d, #4
	shl	v20.2d, v3.2d, #4
	stp	q2, q5, [x8, #896]
	ushr	v19.2d, v1.2d, #4
	ushr	v5.2d, v4.2d, #4
	eor	v17.16b, v17.16b, v6.16b
	ldr	q6, [x8, #1232]
	eor	v2.16b, v18.16b, v25.16b
	eor	v7.16b, v20.16b, v16.16b
	ldr	q20, [x8, #1248]
	eor	v18.16b, v19.16b, v22.16b
	eor	v5.16b, v5.16b, v6.16b
	str	q17, [x8, #1184]
	eor	v17.16b, v3.16b, v21.16b
	stp	q2, q7, [x8, #928]
	ldp	q2, q3, [x8, #992]
	and	v16.16b, v18.16b, v0.16b
	and	v18.16b, v5.16b, v0.16b
	ldr	q7, [x8, #1024]
	str	q17, [x8, #1200]
	ushr	v5.2d, v2.2d, #4
	ushr	v21.2d, v3.2d, #4
	ushr	v24.2d, v7.2d, #4
	shl	v19.2d, v16.2d, #4
	eor	v22.16b, v16.16b, v22.16b
	shl	v25.2d, v18.2d, #4
	ldr	q16, [x8, #1040]
	eor	v18.16b, v18.16b, v6.16b
	ldr	q6, [x8, #1296]
	eor	v26.16b, v5.16b, v20.16b
	eor	v17.16b, v21.16b, v23.16b
	ldr	q5, [x8, #1280]
	eor	v1.16b, v19.16b, v1.16b
	str	q22, [x8, #1216]
	eor	v4.16b, v25.16b, v4.16b
	eor	v19.16b, v24.16b, v5.16b
	ushr	v22.2d, v16.2d, #4
	ldr	q25, [x8, #1312]
	and	v21.16b, v26.16b, v0.16b
	and	v24.16b, v17.16b, v0.16b
	ldr	q17, [x8, #1056]
	stp	q1, q4, [x8, #960]
	and	v19.16b, v19.16b, v0.16b
	eor	v4.16b, v22.16b, v6.16b
	ushr	v22.2d, v17.2d, #4
	shl	v1.2d, v21.2d, #4
	eor	v20.16b, v21.16b, v20.16b
	shl	v21.2d, v24.2d, #4
	str	q18, [x8, #1232]
	shl	v18.2d, v19.2d, #4
	and	v26.16b, v4.16b, v0.16b
	ldr	q4, [x8, #1072]
	eor	v2.16b, v1.16b, v2.16b
	str	q20, [x8, #1248]
	eor	v3.16b, v21.16b, v3.16b
	eor	v20.16b, v22.16b, v25.16b
	ushr	v22.2d, v4.2d, #4
	eor	v21.16b, v24.16b, v23.16b
	eor	v18.16b, v18.16b, v7.16b
	shl	v23.2d, v26.2d, #4
	ldr	q1, [x8, #1328]
	stp	q2, q3, [x8, #992]
	ldr	q7, [x8, #1088]
	eor	v5.16b, v19.16b, v5.16b
	and	v3.16b, v20.16b, v0.16b
	eor	v19.16b, v22.16b, v1.16b
	str	q21, [x8, #1264]
	ushr	v20.2d, v7.2d, #4
	str	q18, [x8, #1024]
	eor	v18.16b, v23.16b, v16.16b
	ldr	q16, [x8, #1344]
	ldr	q2, [x8, #1104]
	str	q5, [x8, #1280]
	shl	v21.2d, v3.2d, #4
	and	v5.16b, v19.16b, v0.16b
	eor	v19.16b, v26.16b, v6.16b
	eor	v20.16b, v20.16b, v16.16b
	ushr	v22.2d, v2.2d, #4
	str	q18, [x8, #1040]
	ldr	q6, [x8, #1360]
	eor	v18.16b, v3.16b, v25.16b
	ldr	q3, [x8, #1120]
	eor	v17.16b, v21.16b, v17.16b
	shl	v21.2d, v5.2d, #4
	str	q19, [x8, #1296]
	and	v19.16b, v20.16b, v0.16b
	eor	v20.16b, v22.16b, v6.16b
	ldr	q22, [x8, #1136]
	str	q18, [x8, #1312]
	ldr	q18, [x8, #1376]
	ldr	q25, [x8, #1408]
	str	q17, [x8, #1056]
	ushr	v17.2d, v3.2d, #4
	eor	v4.16b, v21.16b, v4.16b
	shl	v21.2d, v19.2d, #4
	ushr	v23.2d, v22.2d, #4
	and	v20.16b, v20.16b, v0.16b
	eor	v1.16b, v5.16b, v1.16b
	ldr	q5, [x8, #1664]
	eor	v24.16b, v17.16b, v18.16b
	ldr	q17, [x8, #1392]
	str	q4, [x8, #1072]
	eor	v4.16b, v21.16b, v7.16b
	ushr	v21.2d, v25.2d, #4
	eor	v7.16b, v23.16b, v17.16b
	shl	v23.2d, v20.2d, #4
	str	q1, [x8, #1328]
	and	v24.16b, v24.16b, v0.16b
	eor	v1.16b, v19.16b, v16.16b
	ldr	q16, [x8, #1424]
	str	q4, [x8, #1088]
	eor	v4.16b, v21.16b, v5.16b
	and	v7.16b, v7.16b, v0.16b
	eor	v2.16b, v23.16b, v2.16b
	ushr	v21.2d, v16.2d, #4
	shl	v19.2d, v24.2d, #4
	str	q1, [x8, #1344]
	eor	v1.16b, v20.16b, v6.16b
	ldr	q20, [x8, #1680]
	and	v23.16b, v4.16b, v0.16b
	ldr	q4, [x8, #1440]
	shl	v6.2d, v7.2d, #4
	str	q2, [x8, #1104]
	eor	v18.16b, v24.16b, v18.16b
	eor	v2.16b, v19.16b, v3.16b
	eor	v3.16b, v21.16b, v20.16b
	ushr	v19.2d, v4.2d, #4
	str	q1, [x8, #1360]
	ldr	q1, [x8, #1696]
	eor	v17.16b, v7.16b, v17.16b
	eor	v21.16b, v6.16b, v22.16b
	shl	v22.2d, v23.2d, #4
	ldr	q6, [x8, #1456]
	and	v3.16b, v3.16b, v0.16b
	str	q18, [x8, #1376]
	eor	v18.16b, v19.16b, v1.16b
	str	q2, [x8, #1120]
	ldr	q7, [x8, #1712]
	ldr	q2, [x8, #1472]
	str	q21, [x8, #1136]
	ushr	v21.2d, v6.2d, #4
	eor	v19.16b, v22.16b, v25.16b
	shl	v22.2d, v3.2d, #4
	str	q17, [x8, #1392]
	and	v18.16b, v18.16b, v0.16b
	eor	v5.16b, v23.16b, v5.16b
	eor	v20.16b, v3.16b, v20.16b
	ldr	q3, [x8, #1488]
	eor	v17.16b, v21.16b, v7.16b
	ushr	v21.2d, v2.2d, #4
	str	q19, [x8, #1408]
	eor	v19.16b, v22.16b, v16.16b
	ldr	q16, [x8, #1728]
	shl	v22.2d, v18.2d, #4
	str	q5, [x8, #1664]
	ldr	q25, [x8, #1520]
	eor	v1.16b, v18.16b, v1.16b
	and	v23.16b, v17.16b, v0.16b
	eor	v5.16b, v21.16b, v16.16b
	ushr	v17.2d, v3.2d, #4
	str	q19, [x8, #1424]
	ldr	q19, [x8, #1504]
	eor	v4.16b, v22.16b, v4.16b
	str	q20, [x8, #1680]
	ldr	q20, [x8, #1744]
	ldr	q18, [x8, #1536]
	shl	v21.2d, v23.2d, #4
	and	v22.16b, v5.16b, v0.16b
	ushr	v5.2d, v19.2d, #4
	eor	v24.16b, v17.16b, v20.16b
	ldr	q17, [x8, #1760]
	str	q4, [x8, #1440]
	str	q1, [x8, #1696]
	eor	v1.16b, v23.16b, v7.16b
	eor	v4.16b, v21.16b, v6.16b
	eor	v6.16b, v5.16b, v17.16b
	ushr	v21.2d, v25.2d, #4
	ldr	q5, [x8, #1776]
	shl	v26.2d, v22.2d, #4
	and	v24.16b, v24.16b, v0.16b
	str	q1, [x8, #1712]
	eor	v1.16b, v22.16b, v16.16b
	ldr	q22, [x8, #1792]
	str	q4, [x8, #1456]
	and	v7.16b, v6.16b, v0.16b
	eor	v4.16b, v21.16b, v5.16b
	eor	v2.16b, v26.16b, v2.16b
	shl	v6.2d, v24.2d, #4
	ushr	v21.2d, v18.2d, #4
	eor	v20.16b, v24.16b, v20.16b
	str	q1, [x8, #1728]
	ldr	q1, [x8, #1808]
	shl	v16.2d, v7.2d, #4
	and	v23.16b, v4.16b, v0.16b
	ldr	q4, [x8, #1552]
	str	q2, [x8, #1472]
	eor	v2.16b, v6.16b, v3.16b
	eor	v3.16b, v21.16b, v22.16b
	ushr	v21.2d, v4.2d, #4
	ldr	q6, [x8, #1568]
	str	q20, [x8, #1744]
	eor	v16.16b, v16.16b, v19.16b
	shl	v19.2d, v23.2d, #4
	eor	v17.16b, v7.16b, v17.16b
	and	v3.16b, v3.16b, v0.16b
	str	q2, [x8, #1488]
	ldr	q7, [x8, #1824]
	eor	v20.16b, v21.16b, v1.16b
	ldr	q2, [x8, #1584]
	eor	v5.16b, v23.16b, v5.16b
	str	q16, [x8, #1504]
	eor	v16.16b, v19.16b, v25.16b
	ushr	v19.2d, v6.2d, #4
	shl	v21.2d, v3.2d, #4
	str	q17, [x8, #1760]
	ldr	q25, [x8, #1632]
	and	v20.16b, v20.16b, v0.16b
	str	q5, [x8, #1776]
	eor	v17.16b, v19.16b, v7.16b
	ushr	v19.2d, v2.2d, #4
	str	q16, [x8, #1520]
	ldr	q16, [x8, #1840]
	eor	v18.16b, v21.16b, v18.16b
	eor	v21.16b, v3.16b, v22.16b
	ldr	q3, [x8, #1600]
	shl	v22.2d, v20.2d, #4
	eor	v1.16b, v20.16b, v1.16b
	and	v23.16b, v17.16b, v0.16b
	eor	v5.16b, v19.16b, v16.16b
	ldr	q19, [x8, #1616]
	ushr	v17.2d, v3.2d, #4
	str	q21, [x8, #1792]
	ldr	q21, [x8, #1856]
	str	q18, [x8, #1536]
	eor	v4.16b, v22.16b, v4.16b
	ushr	v20.2d, v25.2d, #4
	shl	v18.2d, v23.2d, #4
	and	v22.16b, v5.16b, v0.16b
	ushr	v5.2d, v19.2d, #4
	eor	v24.16b, v17.16b, v21.16b
	ldr	q17, [x8, #1872]
	str	q1, [x8, #1808]
	str	q4, [x8, #1552]
	eor	v1.16b, v23.16b, v7.16b
	eor	v4.16b, v18.16b, v6.16b
	eor	v6.16b, v5.16b, v17.16b
	ldr	q5, [x8, #1888]
	shl	v26.2d, v22.2d, #4
	and	v24.16b, v24.16b, v0.16b
	ldr	q18, [x8, #1648]
	str	q1, [x8, #1824]
	eor	v1.16b, v22.16b, v16.16b
	ldr	q22, [x8, #1904]
	str	q4, [x8, #1568]
	and	v7.16b, v6.16b, v0.16b
	eor	v4.16b, v20.16b, v5.16b
	eor	v2.16b, v26.16b, v2.16b
	shl	v6.2d, v24.2d, #4
	ushr	v20.2d, v18.2d, #4
	str	q1, [x8, #1840]
	ldr	q1, [x8, #2176]
	shl	v16.2d, v7.2d, #4
	and	v23.16b, v4.16b, v0.16b
	ldr	q4, [x8, #1920]
	str	q2, [x8, #1584]
	eor	v2.16b, v6.16b, v3.16b
	eor	v3.16b, v20.16b, v22.16b
	eor	v20.16b, v24.16b, v21.16b
	ushr	v21.2d, v4.2d, #4
	ldr	q6, [x8, #1936]
	eor	v16.16b, v16.16b, v19.16b
	shl	v19.2d, v23.2d, #4
	eor	v17.16b, v7.16b, v17.16b
	and	v3.16b, v3.16b, v0.16b
	str	q2, [x8, #1600]
	ldr	q7, [x8, #2192]
	str	q20, [x8, #1856]
	eor	v20.16b, v21.16b, v1.16b
	ldr	q2, [x8, #1952]
	str	q16, [x8, #1616]
	eor	v16.16b, v19.16b, v25.16b
	ushr	v19.2d, v6.2d, #4
	shl	v21.2d, v3.2d, #4
	str	q17, [x8, #1872]
	eor	v5.16b, v23.16b, v5.16b
	and	v20.16b, v20.16b, v0.16b
	ldr	q25, [x8, #2000]
	eor	v17.16b, v19.16b, v7.16b
	ushr	v19.2d, v2.2d, #4
	str	q16, [x8, #1632]
	ldr	q16, [x8, #2208]
	eor	v18.16b, v21.16b, v18.16b
	eor	v21.16b, v3.16b, v22.16b
	ldr	q3, [x8, #1968]
	shl	v22.2d, v20.2d, #4
	str	q5, [x8, #1888]
	and	v23.16b, v17.16b, v0.16b
	eor	v5.16b, v19.16b, v16.16b
	ldr	q19, [x8, #1984]
	ushr	v17.2d, v3.2d, #4
	str	q21, [x8, #1904]
	ldr	q21, [x8, #2224]
	str	q18, [x8, #1648]
	eor	v4.16b, v22.16b, v4.16b
	eor	v1.16b, v20.16b, v1.16b
	shl	v18.2d, v23.2d, #4
	and	v22.16b, v5.16b, v0.16b
	ushr	v5.2d, v19.2d, #4
	eor	v24.16b, v17.16b, v21.16b
	ldr	q17, [x8, #2240]
	ushr	v20.2d, v25.2d, #4
	str	q4, [x8, #1920]
	eor	v4.16b, v18.16b, v6.16b
	eor	v6.16b, v5.16b, v17.16b
	ldr	q5, [x8, #2256]
	shl	v26.2d, v22.2d, #4
	and	v24.16b, v24.16b, v0.16b
	str	q1, [x8, #2176]
	eor	v1.16b, v23.16b, v7.16b
	ldr	q18, [x8, #2016]
	str	q4, [x8, #1936]
	and	v7.16b, v6.16b, v0.16b
	eor	v4.16b, v20.16b, v5.16b
	eor	v2.16b, v26.16b, v2.16b
	shl	v6.2d, v24.2d, #4
	ushr	v20.2d, v18.2d, #4
	str	q1, [x8, #2192]
	eor	v1.16b, v22.16b, v16.16b
	ldr	q22, [x8, #2272]
	shl	v16.2d, v7.2d, #4
	and	v23.16b, v4.16b, v0.16b
	ldr	q4, [x8, #2032]
	str	q2, [x8, #1952]
	eor	v2.16b, v6.16b, v3.16b
	eor	v3.16b, v20.16b, v22.16b
	eor	v20.16b, v24.16b, v21.16b
	ushr	v21.2d, v4.2d, #4
	str	q1, [x8, #2208]
	eor	v16.16b, v16.16b, v19.16b
	shl	v19.2d, v23.2d, #4
	ldr	q1, [x8, #2288]
	ldr	q6, [x8, #2048]
	and	v3.16b, v3.16b, v0.16b
	eor	v17.16b, v7.16b, v17.16b
	str	q20, [x8, #2224]
	eor	v20.16b, v21.16b, v1.16b
	ldr	q7, [x8, #2304]
	str	q16, [x8, #1984]
	eor	v16.16b, v19.16b, v25.16b
	ushr	v19.2d, v6.2d, #4
	str	q2, [x8, #1968]
	ldr	q2, [x8, #2064]
	shl	v21.2d, v3.2d, #4
	str	q17, [x8, #2240]
	and	v20.16b, v20.16b, v0.16b
	eor	v5.16b, v23.16b, v5.16b
	eor	v17.16b, v19.16b, v7.16b
	ushr	v19.2d, v2.2d, #4
	str	q16, [x8, #2000]
	ldr	q16, [x8, #2320]
	eor	v18.16b, v21.16b, v18.16b
	eor	v21.16b, v3.16b, v22.16b
	ldr	q3, [x8, #2080]
	shl	v22.2d, v20.2d, #4
	str	q5, [x8, #2256]
	and	v23.16b, v17.16b, v0.16b
	eor	v5.16b, v19.16b, v16.16b
	ldr	q19, [x8, #2096]
	ushr	v17.2d, v3.2d, #4
	str	q21, [x8, #2272]
	ldr	q21, [x8, #2336]
	str	q18, [x8, #2016]
	eor	v4.16b, v22.16b, v4.16b
	ldr	q25, [x8, #2112]
	shl	v18.2d, v23.2d, #4
	and	v22.16b, v5.16b, v0.16b
	ushr	v5.2d, v19.2d, #4
	eor	v24.16b, v17.16b, v21.16b
	ldr	q17, [x8, #2352]
	eor	v1.16b, v20.16b, v1.16b
	str	q4, [x8, #2032]
	ushr	v20.2d, v25.2d, #4
	eor	v4.16b, v18.16b, v6.16b
	eor	v6.16b, v5.16b, v17.16b
	ldr	q5, [x8, #2368]
	shl	v26.2d, v22.2d, #4
	and	v24.16b, v24.16b, v0.16b
	str	q1, [x8, #2288]
	eor	v1.16b, v23.16b, v7.16b
	ldr	q18, [x8, #2128]
	str	q4, [x8, #2048]
	and	v7.16b, v6.16b, v0.16b
	eor	v4.16b, v20.16b, v5.16b
	eor	v2.16b, v26.16b, v2.16b
	shl	v6.2d, v24.2d, #4
	ushr	v20.2d, v18.2d, #4
	str	q1, [x8, #2304]
	eor	v1.16b, v22.16b, v16.16b
	ldr	q22, [x8, #2384]
	shl	v16.2d, v7.2d, #4
	and	v23.16b, v4.16b, v0.16b
	ldr	q4, [x8, #2144]
	str	q2, [x8, #2064]
	eor	v2.16b, v6.16b, v3.16b
	eor	v3.16b, v20.16b, v22.16b
	eor	v20.16b, v24.16b, v21.16b
	ushr	v21.2d, v4.2d, #4
	str	q1, [x8, #2320]
	eor	v16.16b, v16.16b, v19.16b
	shl	v19.2d, v23.2d, #4
	ldr	q1, [x8, #2400]
	ldr	q6, [x8, #2160]
	and	v3.16b, v3.16b, v0.16b
	eor	v17.16b, v7.16b, v17.16b
	str	q20, [x8, #2336]
	eor	v20.16b, v21.16b, v1.16b
	ldr	q7, [x8, #2416]
	str	q16, [x8, #2096]
	eor	v16.16b, v19.16b, v25.16b
	ushr	v19.2d, v6.2d, #4
	str	q2, [x8, #2080]
	ldr	q2, [x8, #2432]
	shl	v21.2d, v3.2d, #4
	str	q17, [x8, #2352]
	and	v20.16b, v20.16b, v0.16b
	eor	v5.16b, v23.16b, v5.16b
	eor	v17.16b, v19.16b, v7.16b
	ushr	v19.2d, v2.2d, #4
	str	q16, [x8, #2112]
	ldr	q16, [x8, #2688]
	eor	v18.16b, v21.16b, v18.16b
	eor	v21.16b, v3.16b, v22.16b
	ldr	q3, [x8, #2448]
	shl	v22.2d, v20.2d, #4
	str	q5, [x8, #2368]
	and	v23.16b, v17.16b, v0.16b
	eor	v5.16b, v19.16b, v16.16b
	ldr	q19, [x8, #2464]
	ushr	v17.2d, v3.2d, #4
	str	q21, [x8, #2384]
	ldr	q21, [x8, #2704]
	str	q18, [x8, #2128]
	eor	v4.16b, v22.16b, v4.16b
	ldr	q25, [x8, #2480]
	shl	v18.2d, v23.2d, #4
	and	v22.16b, v5.16b, v0.16b
	ushr	v5.2d, v19.2d, #4
	eor	v24.16b, v17.16b, v21.16b
	ldr	q17, [x8, #2720]
	eor	v1.16b, v20.16b, v1.16b
	str	q4, [x8, #2144]
	ushr	v20.2d, v25.2d, #4
	eor	v4.16b, v18.16b, v6.16b
	eor	v6.16b, v5.16b, v17.16b
	ldr	q5, [x8, #2736]
	shl	v26.2d, v22.2d, #4
	and	v24.16b, v24.16b, v0.16b
	str	q1, [x8, #2400]
	eor	v1.16b, v23.16b, v7.16b
	ldr	q18, [x8, #2496]
	str	q4, [x8, #2160]
	and	v7.16b, v6.16b, v0.16b
	eor	v4.16b, v20.16b, v5.16b
	eor	v2.16b, v26.16b, v2.16b
	shl	v6.2d, v24.2d, #4
	ushr	v20.2d, v18.2d, #4
	str	q1, [x8, #2416]
	eor	v1.16b, v22.16b, v16.16b
	ldr	q22, [x8, #2752]
	shl	v16.2d, v7.2d, #4
	and	v23.16b, v4.16b, v0.16b
	ldr	q4, [x8, #2512]
	str	q2, [x8, #2432]
	eor	v2.16b, v6.16b, v3.16b
	eor	v3.16b, v20.16b, v22.16b
	eor	v20.16b, v24.16b, v21.16b
	ushr	v21.2d, v4.2d, #4
	str	q1, [x8, #2688]
	eor	v16.16b, v16.16b, v19.16b
	shl	v19.2d, v23.2d, #4
	ldr	q1, [x8, #2768]
	ldr	q6, [x8, #2528]
	and	v3.16b, v3.16b, v0.16b
	eor	v17.16b, v7.16b, v17.16b
	str	q20, [x8, #2704]
	eor	v20.16b, v21.16b, v1.16b
	ldr	q7, [x8, #2784]
	str	q16, [x8, #2464]
	eor	v16.16b, v19.16b, v25.16b
	ushr	v19.2d, v6.2d, #4
	str	q2, [x8, #2448]
	ldr	q2, [x8, #2544]
	shl	v21.2d, v3.2d, #4
	str	q17, [x8, #2720]
	and	v20.16b, v20.16b, v0.16b
	eor	v5.16b, v23.16b, v5.16b
	eor	v17.16b, v19.16b, v7.16b
	ushr	v19.2d, v2.2d, #4
	str	q16, [x8, #2480]
	ldr	q16, [x8, #2800]
	eor	v18.16b, v21.16b, v18.16b
	eor	v21.16b, v3.16b, v22.16b
	ldr	q3, [x8, #2560]
	shl	v22.2d, v20.2d, #4
	str	q5, [x8, #2736]
	and	v23.16b, v17.16b, v0.16b
	eor	v5.16b, v19.16b, v16.16b
	ldr	q19, [x8, #2576]
	ushr	v17.2d, v3.2d, #4
	str	q21, [x8, #2752]
	ldr	q21, [x8, #2816]
	str	q18, [x8, #2496]
	eor	v4.16b, v22.16b, v4.16b
	ldr	q25, [x8, #2592]
	shl	v18.2d, v23.2d, #4
	and	v22.16b, v5.16b, v0.16b
	ushr	v5.2d, v19.2d, #4
	eor	v24.16b, v17.16b, v21.16b
	ldr	q17, [x8, #2832]
	eor	v1.16b, v20.16b, v1.16b
	str	q4, [x8, #2512]
	ushr	v20.2d, v25.2d, #4
	eor	v4.16b, v18.16b, v6.16b
	eor	v6.16b, v5.16b, v17.16b
	ldr	q5, [x8, #2848]
	shl	v26.2d, v22.2d, #4
	and	v24.16b, v24.16b, v0.16b
	str	q1, [x8, #2768]
	eor	v1.16b, v23.16b, v7.16b
	ldr	q18, [x8, #2608]
	str	q4, [x8, #2528]
	and	v7.16b, v6.16b, v0.16b
	eor	v4.16b, v20.16b, v5.16b
	eor	v2.16b, v26.16b, v2.16b
	shl	v6.2d, v24.2d, #4
	ushr	v20.2d, v18.2d, #4
	str	q1, [x8, #2784]
	eor	v1.16b, v22.16b, v16.16b
	ldr	q22, [x8, #2864]
	shl	v16.2d, v7.2d, #4
	and	v23.16b, v4.16b, v0.16b
	ldr	q4, [x8, #2624]
	str	q2, [x8, #2544]
	eor	v2.16b, v6.16b, v3.16b
	eor	v3.16b, v20.16b, v22.16b
	eor	v20.16b, v24.16b, v21.16b
	ushr	v21.2d, v4.2d, #4
	str	q1, [x8, #2800]
	eor	v16.16b, v16.16b, v19.16b
	shl	v19.2d, v23.2d, #4
	ldr	q1, [x8, #2880]
	ldr	q6, [x8, #2640]
	and	v3.16b, v3.16b, v0.16b
	eor	v17.16b, v7.16b, v17.16b
	str	q20, [x8, #2816]
	eor	v20.16b, v21.16b, v1.16b
	ldr	q7, [x8, #2896]
	str	q16, [x8, #2576]
	eor	v16.16b, v19.16b, v25.16b
	ushr	v19.2d, v6.2d, #4
	str	q2, [x8, #2560]
	ldr	q2, [x8, #2656]
	shl	v21.2d, v3.2d, #4
	str	q17, [x8, #2832]
	and	v20.16b, v20.16b, v0.16b
	eor	v5.16b, v23.16b, v5.16b
	eor	v17.16b, v19.16b, v7.16b
	ushr	v19.2d, v2.2d, #4
	str	q16, [x8, #2592]
	ldr	q16, [x8, #2912]
	eor	v18.16b, v21.16b, v18.16b
	eor	v21.16b, v3.16b, v22.16b
	ldr	q3, [x8, #2672]
	shl	v22.2d, v20.2d, #4
	str	q5, [x8, #2848]
	and	v23.16b, v17.16b, v0.16b
	eor	v5.16b, v19.16b, v16.16b
	ldr	q19, [x8, #2944]
	ushr	v17.2d, v3.2d, #4
	str	q21, [x8, #2864]
	ldr	q21, [x8, #2928]
	str	q18, [x8, #2608]
	eor	v4.16b, v22.16b, v4.16b
	ldr	q25, [x8, #2960]
	shl	v18.2d, v23.2d, #4
	and	v22.16b, v5.16b, v0.16b
	ushr	v5.2d, v19.2d, #4
	eor	v24.16b, v17.16b, v21.16b
	ldr	q17, [x8, #3200]
	eor	v1.16b, v20.16b, v1.16b
	str	q4, [x8, #2624]
	ushr	v20.2d, v25.2d, #4
	eor	v4.16b, v18.16b, v6.16b
	eor	v6.16b, v5.16b, v17.16b
	ldr	q5, [x8, #3216]
	shl	v26.2d, v22.2d, #4
	and	v24.16b, v24.16b, v0.16b
	str	q1, [x8, #2880]
	eor	v1.16b, v23.16b, v7.16b
	ldr	q18, [x8, #2976]
	str	q4, [x8, #2640]
	and	v7.16b, v6.16b, v0.16b
	eor	v4.16b, v20.16b, v5.16b
	eor	v2.16b, v26.16b, v2.16b
	shl	v6.2d, v24.2d, #4
	ushr	v20.2d, v18.2d, #4
	str	q1, [x8, #2896]
	eor	v1.16b, v22.16b, v16.16b
	ldr	q22, [x8, #3232]
	shl	v16.2d, v7.2d, #4
	and	v23.16b, v4.16b, v0.16b
	ldr	q4, [x8, #2992]
	str	q2, [x8, #2656]
	eor	v2.16b, v6.16b, v3.16b
	eor	v3.16b, v20.16b, v22.16b
	eor	v20.16b, v24.16b, v21.16b
	ushr	v21.2d, v4.2d, #4
	str	q1, [x8, #2912]
	eor	v16.16b, v16.16b, v19.16b
	shl	v19.2d, v23.2d, #4
	ldr	q1, [x8, #3248]
	ldr	q6, [x8, #3008]
	and	v3.16b, v3.16b, v0.16b
	eor	v17.16b, v7.16b, v17.16b
	str	q20, [x8, #2928]
	eor	v20.16b, v21.16b, v1.16b
	ldr	q7, [x8, #3264]
	str	q16, [x8, #2944]
	eor	v16.16b, v19.16b, v25.16b
	ushr	v19.2d, v6.2d, #4
	str	q2, [x8, #2672]
	shl	v21.2d, v3.2d, #4
	ldr	q2, [x8, #3024]
	str	q17, [x8, #3200]
	and	v20.16b, v20.16b, v0.16b
	eor	v5.16b, v23.16b, v5.16b
	eor	v17.16b, v19.16b, v7.16b
	ushr	v19.2d, v2.2d, #4
	str	q16, [x8, #2960]
	eor	v18.16b, v21.16b, v18.16b
	ldr	q16, [x8, #3280]
	eor	v21.16b, v3.16b, v22.16b
	ldr	q3, [x8, #3040]
	shl	v22.2d, v20.2d, #4
	str	q5, [x8, #3216]
	and	v23.16b, v17.16b, v0.16b
	eor	v5.16b, v19.16b, v16.16b
	ldr	q19, [x8, #3056]
	ushr	v17.2d, v3.2d, #4
	str	q21, [x8, #3232]
	ldr	q21, [x8, #3296]
	str	q18, [x8, #2976]
	eor	v4.16b, v22.16b, v4.16b
	ldr	q25, [x8, #3072]
	shl	v18.2d, v23.2d, #4
	and	v22.16b, v5.16b, v0.16b
	ushr	v5.2d, v19.2d, #4
	eor	v24.16b, v17.16b, v21.16b
	ldr	q17, [x8, #3312]
	eor	v1.16b, v20.16b, v1.16b
	str	q4, [x8, #2992]
	ushr	v20.2d, v25.2d, #4
	eor	v4.16b, v18.16b, v6.16b
	eor	v6.16b, v5.16b, v17.16b
	shl	v26.2d, v22.2d, #4
	and	v24.16b, v24.16b, v0.16b
	ldr	q5, [x8, #3328]
	str	q1, [x8, #3248]
	eor	v1.16b, v23.16b, v7.16b
	ldr	q18, [x8, #3088]
	str	q4, [x8, #3008]
	eor	v4.16b, v20.16b, v5.16b
	and	v7.16b, v6.16b, v0.16b
	eor	v2.16b, v26.16b, v2.16b
	shl	v6.2d, v24.2d, #4
	ushr	v20.2d, v18.2d, #4
	str	q1, [x8, #3264]
	eor	v1.16b, v22.16b, v16.16b
	ldr	q16, [x8, #3344]
	and	v23.16b, v4.16b, v0.16b
	ldr	q4, [x8, #3104]
	shl	v22.2d, v7.2d, #4
	str	q2, [x8, #3024]
	eor	v2.16b, v6.16b, v3.16b
	eor	v3.16b, v20.16b, v16.16b
	eor	v20.16b, v24.16b, v21.16b
	ushr	v21.2d, v4.2d, #4
	str	q1, [x8, #3280]
	ldr	q1, [x8, #3360]
	eor	v19.16b, v22.16b, v19.16b
	shl	v22.2d, v23.2d, #4
	and	v3.16b, v3.16b, v0.16b
	ldr	q6, [x8, #3120]
	eor	v17.16b, v7.16b, v17.16b
	str	q20, [x8, #3296]
	eor	v20.16b, v21.16b, v1.16b
	ldr	q7, [x8, #3376]
	ushr	v21.2d, v6.2d, #4
	str	q19, [x8, #3056]
	eor	v19.16b, v22.16b, v25.16b
	shl	v22.2d, v3.2d, #4
	str	q2, [x8, #3040]
	ldr	q2, [x8, #3136]
	str	q17, [x8, #3312]
	and	v17.16b, v20.16b, v0.16b
	eor	v20.16b, v23.16b, v5.16b
	eor	v21.16b, v21.16b, v7.16b
	ushr	v23.2d, v2.2d, #4
	str	q19, [x8, #3072]
	eor	v18.16b, v22.16b, v18.16b
	ldr	q5, [x8, #3392]
	eor	v16.16b, v3.16b, v16.16b
	shl	v19.2d, v17.2d, #4
	ldr	q3, [x8, #3152]
	str	q20, [x8, #3328]
	and	v20.16b, v21.16b, v0.16b
	eor	v21.16b, v23.16b, v5.16b
	ldr	q22, [x8, #3168]
	str	q18, [x8, #3088]
	ushr	v18.2d, v3.2d, #4
	ldr	q25, [x8, #3184]
	eor	v4.16b, v19.16b, v4.16b
	ldr	q19, [x8, #3408]
	ushr	v24.2d, v22.2d, #4
	shl	v23.2d, v20.2d, #4
	and	v21.16b, v21.16b, v0.16b
	str	q16, [x8, #3344]
	eor	v18.16b, v18.16b, v19.16b
	ldr	q16, [x8, #3424]
	eor	v1.16b, v17.16b, v1.16b
	str	q4, [x8, #3104]
	ushr	v17.2d, v25.2d, #4
	ldr	q26, [x8, #3472]
	eor	v4.16b, v23.16b, v6.16b
	eor	v6.16b, v24.16b, v16.16b
	shl	v23.2d, v21.2d, #4
	and	v18.16b, v18.16b, v0.16b
	ldr	q24, [x8, #3440]
	str	q1, [x8, #3360]
	eor	v1.16b, v20.16b, v7.16b
	ldr	q7, [x8, #3456]
	str	q4, [x8, #3120]
	eor	v4.16b, v17.16b, v24.16b
	and	v20.16b, v6.16b, v0.16b
	eor	v2.16b, v23.16b, v2.16b
	shl	v6.2d, v18.2d, #4
	ushr	v17.2d, v7.2d, #4
	str	q1, [x8, #3376]
	eor	v1.16b, v21.16b, v5.16b
	ldr	q5, [x8, #3712]
	and	v23.16b, v4.16b, v0.16b
	shl	v21.2d, v20.2d, #4
	ldr	q4, [x8, #3488]
	str	q2, [x8, #3136]
	eor	v2.16b, v6.16b, v3.16b
	eor	v3.16b, v17.16b, v5.16b
	ushr	v17.2d, v26.2d, #4
	ldr	q6, [x8, #3728]
	str	q1, [x8, #3392]
	eor	v1.16b, v18.16b, v19.16b
	shl	v19.2d, v23.2d, #4
	eor	v18.16b, v21.16b, v22.16b
	and	v21.16b, v3.16b, v0.16b
	str	q2, [x8, #3152]
	eor	v2.16b, v20.16b, v16.16b
	eor	v3.16b, v17.16b, v6.16b
	ushr	v17.2d, v4.2d, #4
	eor	v16.16b, v19.16b, v25.16b
	str	q1, [x8, #3408]
	ldr	q1, [x8, #3744]
	str	q18, [x8, #3168]
	eor	v18.16b, v23.16b, v24.16b
	shl	v19.2d, v21.2d, #4
	and	v20.16b, v3.16b, v0.16b
	str	q2, [x8, #3424]
	ldr	q2, [x8, #3504]
	str	q16, [x8, #3184]
	eor	v16.16b, v17.16b, v1.16b
	ldr	q3, [x8, #3520]
	str	q18, [x8, #3440]
	eor	v17.16b, v19.16b, v7.16b
	eor	v18.16b, v21.16b, v5.16b
	shl	v19.2d, v20.2d, #4
	ushr	v21.2d, v2.2d, #4
	ldr	q7, [x8, #3760]
	and	v22.16b, v16.16b, v0.16b
	ushr	v23.2d, v3.2d, #4
	ldr	q5, [x8, #3776]
	str	q17, [x8, #3456]
	ldr	q16, [x8, #3536]
	eor	v6.16b, v20.16b, v6.16b
	eor	v17.16b, v19.16b, v26.16b
	eor	v19.16b, v21.16b, v7.16b
	str	q18, [x8, #3712]
	shl	v18.2d, v22.2d, #4
	eor	v21.16b, v23.16b, v5.16b
	ushr	v20.2d, v16.2d, #4
	ldr	q23, [x8, #3552]
	ldr	q24, [x8, #3808]
	ldr	q25, [x8, #3568]
	str	q17, [x8, #3472]
	and	v17.16b, v19.16b, v0.16b
	ldr	q19, [x8, #3792]
	eor	v4.16b, v18.16b, v4.16b
	and	v18.16b, v21.16b, v0.16b
	ushr	v21.2d, v23.2d, #4
	eor	v20.16b, v20.16b, v19.16b
	str	q6, [x8, #3728]
	eor	v1.16b, v22.16b, v1.16b
	shl	v6.2d, v17.2d, #4
	ldr	q26, [x8, #3824]
	str	q4, [x8, #3488]
	eor	v4.16b, v21.16b, v24.16b
	ushr	v21.2d, v25.2d, #4
	and	v20.16b, v20.16b, v0.16b
	str	q1, [x8, #3744]
	shl	v22.2d, v18.2d, #4
	eor	v1.16b, v6.16b, v2.16b
	ldr	q6, [x8, #3584]
	eor	v2.16b, v17.16b, v7.16b
	eor	v7.16b, v21.16b, v26.16b
	and	v4.16b, v4.16b, v0.16b
	shl	v17.2d, v20.2d, #4
	ushr	v21.2d, v6.2d, #4
	eor	v3.16b, v22.16b, v3.16b
	str	q1, [x8, #3504]
	eor	v1.16b, v18.16b, v5.16b
	ldr	q18, [x8, #3840]
	and	v5.16b, v7.16b, v0.16b
	str	q2, [x8, #3760]
	shl	v2.2d, v4.2d, #4
	eor	v7.16b, v17.16b, v16.16b
	eor	v16.16b, v21.16b, v18.16b
	str	q3, [x8, #3520]
	str	q1, [x8, #3776]
	eor	v1.16b, v20.16b, v19.16b
	ldr	q3, [x8, #3600]
	shl	v17.2d, v5.2d, #4
	eor	v4.16b, v4.16b, v24.16b
	eor	v2.16b, v2.16b, v23.16b
	str	q7, [x8, #3536]
	and	v7.16b, v16.16b, v0.16b
	ushr	v16.2d, v3.2d, #4
	str	q1, [x8, #3792]
	ldr	q1, [x8, #3856]
	eor	v5.16b, v5.16b, v26.16b
	eor	v17.16b, v17.16b, v25.16b
	str	q4, [x8, #3808]
	ldr	q22, [x8, #3664]
	shl	v4.2d, v7.2d, #4
	str	q2, [x8, #3552]
	eor	v16.16b, v16.16b, v1.16b
	ldr	q2, [x8, #3616]
	str	q5, [x8, #3824]
	ldr	q5, [x8, #3872]
	str	q17, [x8, #3568]
	eor	v7.16b, v7.16b, v18.16b
	ushr	v23.2d, v22.2d, #4
	eor	v17.16b, v4.16b, v6.16b
	ushr	v19.2d, v2.2d, #4
	ldr	q4, [x8, #3632]
	and	v16.16b, v16.16b, v0.16b
	ldr	q6, [x8, #3648]
	ldr	q24, [x8, #3680]
	ushr	v18.2d, v4.2d, #4
	str	q7, [x8, #3840]
	ldr	q26, [x8, #3696]
	str	q17, [x8, #3584]
	eor	v17.16b, v19.16b, v5.16b
	ldr	q19, [x8, #3888]
	shl	v20.2d, v16.2d, #4
	ushr	v21.2d, v6.2d, #4
	ushr	v25.2d, v24.2d, #4
	eor	v7.16b, v18.16b, v19.16b
	ldr	q18, [x8, #3904]
	eor	v1.16b, v16.16b, v1.16b
	and	v17.16b, v17.16b, v0.16b
	eor	v3.16b, v20.16b, v3.16b
	eor	v20.16b, v21.16b, v18.16b
	ldr	q21, [x8, #3920]
	and	v7.16b, v7.16b, v0.16b
	eor	v25.16b, v25.16b, v28.16b
	str	q1, [x8, #3856]
	shl	v27.2d, v17.2d, #4
	eor	v23.16b, v23.16b, v21.16b
	eor	v5.16b, v17.16b, v5.16b
	and	v16.16b, v20.16b, v0.16b
	ushr	v20.2d, v26.2d, #4
	str	q3, [x8, #3600]
	shl	v29.2d, v7.2d, #4
	eor	v2.16b, v27.16b, v2.16b
	and	v3.16b, v23.16b, v0.16b
	str	q5, [x8, #3872]
	shl	v17.2d, v16.2d, #4
	eor	v20.16b, v20.16b, v30.16b
	eor	v1.16b, v29.16b, v4.16b
	and	v4.16b, v25.16b, v0.16b
	str	q2, [x8, #3616]
	eor	v2.16b, v7.16b, v19.16b
	shl	v7.2d, v3.2d, #4
	eor	v5.16b, v17.16b, v6.16b
	and	v0.16b, v20.16b, v0.16b
	eor	v3.16b, v3.16b, v21.16b
	str	q1, [x8, #3632]
	eor	v1.16b, v16.16b, v18.16b
	shl	v6.2d, v4.2d, #4
	str	q2, [x8, #3888]
	eor	v2.16b, v7.16b, v22.16b
	str	q5, [x8, #3648]
	shl	v5.2d, v0.2d, #4
	eor	v0.16b, v0.16b, v30.16b
	str	q1, [x8, #3904]
	eor	v1.16b, v6.16b, v24.16b
	str	q2, [x8, #3664]
	eor	v2.16b, v4.16b, v28.16b
	str	q3, [x8, #3920]
	eor	v3.16b, v5.16b, v26.16b
	str	q1, [x8, #3680]
	str	q2, [x8, #3936]
	str	q3, [x8, #3696]
	str	q0, [x8, #3952]
.Lluossavin.BB6_15:
	ldp	x10, x13, [x8]
	subs	x9, x9, #1
	ldp	x11, x12, [x8, #-128]
	ldp	x15, x1, [x8, #16]
	ldp	x17, x18, [x8, #-112]
	eor	x14, x10, x11, lsr #2
	eor	x16, x13, x12, lsr #2
	and	x14, x14, #0x3333333333333333
	and	x16, x16, #0x3333333333333333
	eor	x2, x15, x17, lsr #2
	eor	x10, x14, x10
	eor	x13, x16, x13
	eor	x11, x11, x14, lsl #2
	stp	x10, x13, [x8]
	eor	x10, x12, x16, lsl #2
	eor	x12, x1, x18, lsr #2
	and	x13, x2, #0x3333333333333333
	stp	x11, x10, [x8, #-128]
	and	x10, x12, #0x3333333333333333
	eor	x11, x17, x13, lsl #2
	eor	x16, x18, x10, lsl #2
	ldp	x14, x17, [x8, #32]
	eor	x13, x13, x15
	eor	x10, x10, x1
	stp	x11, x16, [x8, #-112]
	ldp	x12, x11, [x8, #-96]
	stp	x13, x10, [x8, #16]
	eor	x18, x14, x12, lsr #2
	eor	x16, x17, x11, lsr #2
	and	x15, x18, #0x3333333333333333
	eor	x10, x12, x15, lsl #2
	and	x12, x16, #0x3333333333333333
	eor	x14, x15, x14
	eor	x11, x11, x12, lsl #2
	ldp	x16, x18, [x8, #48]
	eor	x12, x12, x17
	stp	x10, x11, [x8, #-96]
	ldp	x13, x10, [x8, #-80]
	stp	x14, x12, [x8, #32]
	eor	x1, x16, x13, lsr #2
	eor	x15, x18, x10, lsr #2
	and	x11, x1, #0x3333333333333333
	eor	x12, x13, x11, lsl #2
	and	x13, x15, #0x3333333333333333
	eor	x11, x11, x16
	eor	x10, x10, x13, lsl #2
	ldp	x15, x17, [x8, #64]
	eor	x13, x13, x18
	stp	x12, x10, [x8, #-80]
	ldp	x14, x12, [x8, #-64]
	stp	x11, x13, [x8, #48]
	eor	x1, x15, x14, lsr #2
	eor	x16, x17, x12, lsr #2
	and	x10, x1, #0x3333333333333333
	and	x13, x16, #0x3333333333333333
	eor	x11, x14, x10, lsl #2
	ldp	x14, x18, [x8, #-48]
	ldp	x16, x1, [x8, #80]
	eor	x12, x12, x13, lsl #2
	eor	x10, x10, x15
	eor	x13, x13, x17
	stp	x11, x12, [x8, #-64]
	ldp	x15, x2, [x8, #-32]
	eor	x11, x16, x14, lsr #2
	eor	x12, x1, x18, lsr #2
	stp	x10, x13, [x8, #64]
	ldp	x17, x3, [x8, #96]
	and	x11, x11, #0x3333333333333333
	and	x12, x12, #0x3333333333333333
	eor	x14, x14, x11, lsl #2
	eor	x10, x11, x16
	eor	x11, x18, x12, lsl #2
	eor	x4, x17, x15, lsr #2
	eor	x12, x12, x1
	stp	x14, x11, [x8, #-48]
	eor	x14, x3, x2, lsr #2
	and	x13, x4, #0x3333333333333333
	ldp	x16, x18, [x8, #-16]
	eor	x11, x15, x13, lsl #2
	and	x14, x14, #0x3333333333333333
	stp	x10, x12, [x8, #80]
	ldp	x15, x1, [x8, #112]
	eor	x10, x2, x14, lsl #2
	eor	x13, x13, x17
	eor	x14, x14, x3
	stp	x11, x10, [x8, #-32]
	eor	x12, x15, x16, lsr #2
	eor	x11, x1, x18, lsr #2
	stp	x13, x14, [x8, #96]
	and	x10, x12, #0x3333333333333333
	and	x11, x11, #0x3333333333333333
	eor	x12, x16, x10, lsl #2
	eor	x13, x18, x11, lsl #2
	eor	x10, x10, x15
	eor	x11, x11, x1
	stp	x12, x13, [x8, #-16]
	stp	x10, x11, [x8, #112]
	add	x8, x8, #256
	b.ne	.Lluossavin.BB6_15
	add	x8, x0, #64
	mov	w9, #32
.Lluossavin.BB6_17:
	ldp	x10, x13, [x8]
	subs	x9, x9, #1
	ldp	x11, x12, [x8, #-64]
	ldp	x14, x15, [x8, #-48]
	ldp	x17, x18, [x8, #16]
	eor	x16, x10, x11, lsr #1
	eor	x0, x13, x12, lsr #1
	and	x16, x16, #0x5555555555555555
	and	x0, x0, #0x5555555555555555
	eor	x3, x17, x14, lsr #1
	eor	x11, x11, x16, lsl #1
	eor	x10, x16, x10
	eor	x16, x18, x15, lsr #1
	eor	x12, x12, x0, lsl #1
	and	x3, x3, #0x5555555555555555
	eor	x13, x0, x13
	eor	x14, x14, x3, lsl #1
	stp	x10, x13, [x8]
	eor	x10, x3, x17
	stp	x11, x12, [x8, #-64]
	and	x11, x16, #0x5555555555555555
	ldp	x1, x12, [x8, #-32]
	eor	x13, x15, x11, lsl #1
	ldp	x2, x16, [x8, #32]
	eor	x11, x11, x18
	stp	x14, x13, [x8, #-48]
	stp	x10, x11, [x8, #16]
	eor	x0, x2, x1, lsr #1
	eor	x15, x16, x12, lsr #1
	and	x14, x0, #0x5555555555555555
	and	x15, x15, #0x5555555555555555
	eor	x13, x1, x14, lsl #1
	ldp	x17, x1, [x8, #48]
	ldp	x18, x0, [x8, #-16]
	eor	x10, x12, x15, lsl #1
	eor	x12, x14, x2
	eor	x14, x15, x16
	stp	x13, x10, [x8, #-32]
	eor	x11, x17, x18, lsr #1
	eor	x13, x1, x0, lsr #1
	stp	x12, x14, [x8, #32]
	and	x10, x11, #0x5555555555555555
	and	x13, x13, #0x5555555555555555
	eor	x11, x18, x10, lsl #1
	eor	x12, x0, x13, lsl #1
	eor	x10, x10, x17
	stp	x11, x12, [x8, #-16]
	eor	x11, x13, x1
	stp	x10, x11, [x8, #48]
	add	x8, x8, #128
	b.ne	.Lluossavin.BB6_17
	ret
.Lluossavin.func_end6:
	.size	"rows::transpose", .Lluossavin.func_end6-"rows::transpose"

	.section	".text.sliced::Planes::rounds_to_rows","ax",@progbits
	.p2align	2
	.type	"sliced::Planes::rounds_to_rows",@function
"sliced::Planes::rounds_to_rows":
	sub	sp, sp, #208
	stp	x26, x25, [sp, #144]
	add	x4, x0, #2, lsl #12
	ldp	w25, w9, [x1, #24]
	ldp	w10, w11, [x1, #32]
	stp	x24, x23, [sp, #160]
	mov	x23, x2
	add	x2, x0, #1, lsl #12
	ldp	w5, w24, [x1]
	stp	w9, w10, [sp, #12]
	mov	x6, x23
	ldp	w9, w10, [x1, #40]
	stp	x29, x30, [sp, #112]
	stp	x28, x27, [sp, #128]
	stp	w11, w9, [sp, #20]
	ldp	w9, w11, [x1, #48]
	stp	x22, x21, [sp, #176]
	add	x21, x0, #2048
	ldp	w29, w28, [x1, #8]
	stp	w10, w9, [sp, #28]
	ldp	w9, w10, [x1, #56]
	ldp	w27, w26, [x1, #16]
	stp	x20, x19, [sp, #192]
	mov	x19, x3
	mov	x20, x0
	stp	w11, w9, [sp, #36]
	ldp	w9, w11, [x1, #64]
	stp	w10, w9, [sp, #44]
	ldp	w9, w10, [x1, #72]
	stp	w11, w9, [sp, #52]
	ldp	w9, w11, [x1, #80]
	stp	w10, w9, [sp, #60]
	ldp	w9, w10, [x1, #88]
	stp	w11, w9, [sp, #68]
	ldp	w9, w11, [x1, #96]
	stp	w10, w9, [sp, #76]
	ldp	w9, w10, [x1, #104]
	stp	w11, w9, [sp, #84]
	ldp	w9, w11, [x1, #112]
	stp	w10, w9, [sp, #92]
	ldp	w9, w8, [x1, #120]
	add	x1, x0, #2048
	str	w8, [sp, #108]
	mov	w8, #6144
	add	x22, x0, x8
	stp	w11, w9, [sp, #100]
	mov	x3, x22
	bl	"sliced::round"
	add	x0, x20, #2048
	add	x1, x20, #1, lsl #12
	add	x4, x20, #2, lsl #12
	mov	x2, x22
	mov	x3, x20
	mov	w5, w24
	mov	x6, x23
	bl	"sliced::round"
	add	x0, x20, #1, lsl #12
	add	x3, x20, #2048
	add	x4, x20, #2, lsl #12
	mov	x1, x22
	mov	x2, x20
	mov	w5, w29
	mov	x6, x23
	bl	"sliced::round"
	add	x2, x20, #2048
	add	x3, x20, #1, lsl #12
	add	x4, x20, #2, lsl #12
	mov	x0, x22
	mov	x1, x20
	mov	w5, w28
	mov	x6, x23
	bl	"sliced::round"
	add	x1, x20, #2048
	add	x2, x20, #1, lsl #12
	add	x4, x20, #2, lsl #12
	mov	x0, x20
	mov	x3, x22
	mov	w5, w27
	mov	x6, x23
	bl	"sliced::round"
	add	x0, x20, #2048
	add	x1, x20, #1, lsl #12
	add	x4, x20, #2, lsl #12
	mov	x2, x22
	mov	x3, x20
	mov	w5, w26
	mov	x6, x23
	bl	"sliced::round"
	add	x0, x20, #1, lsl #12
	add	x3, x20, #2048
	add	x4, x20, #2, lsl #12
	mov	x1, x22
	mov	x2, x20
	mov	w5, w25
	mov	x6, x23
	bl	"sliced::round"
	ldr	w5, [sp, #12]
	add	x2, x20, #2048
	add	x3, x20, #1, lsl #12
	add	x4, x20, #2, lsl #12
	mov	x0, x22
	mov	x1, x20
	mov	x6, x23
	bl	"sliced::round"
	ldr	w5, [sp, #16]
	add	x1, x20, #2048
	add	x2, x20, #1, lsl #12
	add	x4, x20, #2, lsl #12
	mov	x0, x20
	mov	x3, x22
	mov	x6, x23
	bl	"sliced::round"
	ldr	w5, [sp, #20]
	add	x0, x20, #2048
	add	x1, x20, #1, lsl #12
	add	x4, x20, #2, lsl #12
	mov	x2, x22
	mov	x3, x20
	mov	x6, x23
	bl	"sliced::round"
	ldr	w5, [sp, #24]
	add	x0, x20, #1, lsl #12
	add	x3, x20, #2048
	add	x4, x20, #2, lsl #12
	mov	x1, x22
	mov	x2, x20
	mov	x6, x23
	bl	"sliced::round"
	ldr	w5, [sp, #28]
	add	x2, x20, #2048
	add	x3, x20, #1, lsl #12
	add	x4, x20, #2, lsl #12
	mov	x0, x22
	mov	x1, x20
	mov	x6, x23
	bl	"sliced::round"
	ldr	w5, [sp, #32]
	add	x1, x20, #2048
	add	x2, x20, #1, lsl #12
	add	x4, x20, #2, lsl #12
	mov	x0, x20
	mov	x3, x22
	mov	x6, x23
	bl	"sliced::round"
	ldr	w5, [sp, #36]
	add	x0, x20, #2048
	add	x1, x20, #1, lsl #12
	add	x4, x20, #2, lsl #12
	mov	x2, x22
	mov	x3, x20
	mov	x6, x23
	bl	"sliced::round"
	ldr	w5, [sp, #40]
	add	x0, x20, #1, lsl #12
	add	x3, x20, #2048
	add	x4, x20, #2, lsl #12
	mov	x1, x22
	mov	x2, x20
	mov	x6, x23
	bl	"sliced::round"
	ldr	w5, [sp, #44]
	add	x2, x20, #2048
	add	x3, x20, #1, lsl #12
	add	x4, x20, #2, lsl #12
	mov	x0, x22
	mov	x1, x20
	mov	x6, x23
	bl	"sliced::round"
	ldr	w5, [sp, #48]
	add	x1, x20, #2048
	add	x2, x20, #1, lsl #12
	add	x4, x20, #2, lsl #12
	mov	x0, x20
	mov	x3, x22
	mov	x6, x23
	bl	"sliced::round"
	ldr	w5, [sp, #52]
	add	x0, x20, #2048
	add	x1, x20, #1, lsl #12
	add	x4, x20, #2, lsl #12
	mov	x2, x22
	mov	x3, x20
	mov	x6, x23
	bl	"sliced::round"
	ldr	w5, [sp, #56]
	add	x0, x20, #1, lsl #12
	add	x3, x20, #2048
	add	x4, x20, #2, lsl #12
	mov	x1, x22
	mov	x2, x20
	mov	x6, x23
	bl	"sliced::round"
	ldr	w5, [sp, #60]
	add	x2, x20, #2048
	add	x3, x20, #1, lsl #12
	add	x4, x20, #2, lsl #12
	mov	x0, x22
	mov	x1, x20
	mov	x6, x23
	bl	"sliced::round"
	ldr	w5, [sp, #64]
	add	x1, x20, #2048
	add	x2, x20, #1, lsl #12
	add	x4, x20, #2, lsl #12
	mov	x0, x20
	mov	x3, x22
	mov	x6, x23
	bl	"sliced::round"
	ldr	w5, [sp, #68]
	add	x0, x20, #2048
	add	x1, x20, #1, lsl #12
	add	x4, x20, #2, lsl #12
	mov	x2, x22
	mov	x3, x20
	mov	x6, x23
	bl	"sliced::round"
	ldr	w5, [sp, #72]
	add	x0, x20, #1, lsl #12
	add	x3, x20, #2048
	add	x4, x20, #2, lsl #12
	mov	x1, x22
	mov	x2, x20
	mov	x6, x23
	bl	"sliced::round"
	ldr	w5, [sp, #76]
	add	x2, x20, #2048
	add	x3, x20, #1, lsl #12
	add	x4, x20, #2, lsl #12
	mov	x0, x22
	mov	x1, x20
	mov	x6, x23
	bl	"sliced::round"
	ldr	w5, [sp, #80]
	add	x1, x20, #2048
	add	x2, x20, #1, lsl #12
	add	x4, x20, #2, lsl #12
	mov	x0, x20
	mov	x3, x22
	mov	x6, x23
	bl	"sliced::round"
	ldr	w5, [sp, #84]
	add	x0, x20, #2048
	add	x1, x20, #1, lsl #12
	add	x4, x20, #2, lsl #12
	mov	x2, x22
	mov	x3, x20
	mov	x6, x23
	bl	"sliced::round"
	ldr	w5, [sp, #88]
	add	x0, x20, #1, lsl #12
	add	x3, x20, #2048
	add	x4, x20, #2, lsl #12
	mov	x1, x22
	mov	x2, x20
	mov	x6, x23
	bl	"sliced::round"
	ldr	w5, [sp, #92]
	add	x2, x20, #2048
	add	x3, x20, #1, lsl #12
	add	x4, x20, #2, lsl #12
	mov	x0, x22
	mov	x1, x20
	mov	x6, x23
	bl	"sliced::round"
	ldr	w5, [sp, #96]
	add	x1, x20, #2048
	add	x2, x20, #1, lsl #12
	add	x4, x20, #2, lsl #12
	mov	x0, x20
	mov	x3, x22
	mov	x6, x23
	bl	"sliced::round"
	ldr	w5, [sp, #100]
	add	x0, x20, #2048
	add	x1, x20, #1, lsl #12
	add	x4, x20, #2, lsl #12
	mov	x2, x22
	mov	x3, x20
	mov	x6, x23
	bl	"sliced::round"
	ldr	w5, [sp, #104]
	add	x0, x20, #1, lsl #12
	add	x3, x20, #2048
	add	x4, x20, #2, lsl #12
	mov	x1, x22
	mov	x2, x20
	mov	x6, x23
	bl	"sliced::round"
	ldr	w5, [sp, #108]
	add	x2, x20, #2048
	add	x3, x20, #1, lsl #12
	add	x4, x20, #2, lsl #12
	mov	x0, x22
	mov	x1, x20
	mov	x6, x23
	bl	"sliced::round"
	add	x10, x20, #1, lsl #12
	sub	x8, x19, x10
	cmp	x8, #2047
	b.hi	.Lluossavin.BB7_4
	sub	x8, x19, x20
	sub	x8, x8, #1, lsl #12
	cmp	x8, #32
	b.hs	.Lluossavin.BB7_5
	mov	x8, xzr
.Lluossavin.BB7_3:
	ldr	x9, [x10, x8]
	str	x9, [x19, x8]
	add	x8, x8, #8
	cmp	x8, #2048
	b.ne	.Lluossavin.BB7_3
	b	.Lluossavin.BB7_7
.Lluossavin.BB7_4:
	add	x1, x20, #1, lsl #12
	mov	x0, x19
	mov	w2, #2048
	bl	memmove
	b	.Lluossavin.BB7_7
.Lluossavin.BB7_5:
	mov	w8, #4112
	add	x9, x19, #16
	mov	w10, #256
	add	x8, x20, x8
.Lluossavin.BB7_6:
	ldp	q0, q1, [x8, #-16]
	subs	x10, x10, #4
	add	x8, x8, #32
	stp	q0, q1, [x9, #-16]
	add	x9, x9, #32
	b.ne	.Lluossavin.BB7_6
.Lluossavin.BB7_7:
	add	x8, x19, #2048
	sub	x9, x8, x22
	cmp	x9, #2047
	b.hi	.Lluossavin.BB7_11
	sub	x9, x19, x20
	sub	x9, x9, #1, lsl #12
	cmp	x9, #32
	b.hs	.Lluossavin.BB7_12
	mov	x9, xzr
.Lluossavin.BB7_10:
	ldr	x10, [x22, x9]
	str	x10, [x8, x9]
	add	x9, x9, #8
	cmp	x9, #2048
	b.ne	.Lluossavin.BB7_10
	b	.Lluossavin.BB7_14
.Lluossavin.BB7_11:
	add	x0, x19, #2048
	mov	x1, x22
	mov	w2, #2048
	bl	memmove
	b	.Lluossavin.BB7_14
.Lluossavin.BB7_12:
	mov	w8, #6160
	add	x9, x19, #2064
	mov	w10, #256
	add	x8, x20, x8
.Lluossavin.BB7_13:
	ldp	q0, q1, [x8, #-16]
	subs	x10, x10, #4
	add	x8, x8, #32
	stp	q0, q1, [x9, #-16]
	add	x9, x9, #32
	b.ne	.Lluossavin.BB7_13
.Lluossavin.BB7_14:
	mov	x0, x19
	bl	"rows::transpose"
	add	x22, x19, #1, lsl #12
	sub	x8, x22, x20
	cmp	x8, #2047
	b.hi	.Lluossavin.BB7_18
	sub	x8, x19, x20
	add	x8, x8, #1, lsl #12
	cmp	x8, #32
	b.hs	.Lluossavin.BB7_19
	mov	x8, xzr
.Lluossavin.BB7_17:
	ldr	x9, [x20, x8]
	str	x9, [x22, x8]
	add	x8, x8, #8
	cmp	x8, #2048
	b.ne	.Lluossavin.BB7_17
	b	.Lluossavin.BB7_21
.Lluossavin.BB7_18:
	add	x0, x19, #1, lsl #12
	mov	x1, x20
	mov	w2, #2048
	bl	memmove
	b	.Lluossavin.BB7_21
.Lluossavin.BB7_19:
	mov	w9, #4112
	add	x8, x20, #16
	mov	w10, #256
	add	x9, x19, x9
.Lluossavin.BB7_20:
	ldp	q0, q1, [x8, #-16]
	subs	x10, x10, #4
	add	x8, x8, #32
	stp	q0, q1, [x9, #-16]
	add	x9, x9, #32
	b.ne	.Lluossavin.BB7_20
.Lluossavin.BB7_21:
	mov	w8, #6144
	add	x0, x19, x8
	sub	x8, x0, x21
	cmp	x8, #2047
	b.hi	.Lluossavin.BB7_25
	sub	x8, x19, x20
	add	x8, x8, #1, lsl #12
	cmp	x8, #32
	b.hs	.Lluossavin.BB7_26
	mov	x8, xzr
.Lluossavin.BB7_24:
	ldr	x9, [x21, x8]
	str	x9, [x0, x8]
	add	x8, x8, #8
	cmp	x8, #2048
	b.ne	.Lluossavin.BB7_24
	b	.Lluossavin.BB7_28
.Lluossavin.BB7_25:
	mov	x1, x21
	mov	w2, #2048
	bl	memmove
	b	.Lluossavin.BB7_28
.Lluossavin.BB7_26:
	mov	w9, #6160
	add	x8, x20, #2064
	mov	w10, #256
	add	x9, x19, x9
.Lluossavin.BB7_27:
	ldp	q0, q1, [x8, #-16]
	subs	x10, x10, #4
	add	x8, x8, #32
	stp	q0, q1, [x9, #-16]
	add	x9, x9, #32
	b.ne	.Lluossavin.BB7_27
.Lluossavin.BB7_28:
	mov	x0, x22
	ldp	x20, x19, [sp, #192]
	ldp	x22, x21, [sp, #176]
	ldp	x24, x23, [sp, #160]
	ldp	x26, x25, [sp, #144]
	ldp	x28, x27, [sp, #128]
	ldp	x29, x30, [sp, #112]
	add	sp, sp, #208
	b	"rows::transpose"
.Lluossavin.func_end7:
	.size	"sliced::Planes::rounds_to_rows", .Lluossavin.func_end7-"sliced::Planes::rounds_to_rows"

	.section	".text.sliced::round","ax",@progbits
	.p2align	2
	.type	"sliced::round",@function
"sliced::round":
	sub	sp, sp, #432
	stp	d15, d14, [sp, #272]
	stp	d13, d12, [sp, #288]
	stp	d11, d10, [sp, #304]
	stp	d9, d8, [sp, #320]
	stp	x29, x30, [sp, #336]
	stp	x28, x27, [sp, #352]
	stp	x26, x25, [sp, #368]
	stp	x24, x23, [sp, #384]
	stp	x22, x21, [sp, #400]
	stp	x20, x19, [sp, #416]
	stp	x0, x4, [sp, #16]
	stp	x2, x3, [sp, #104]
	str	x1, [sp, #96]
	cbz	x6, .Lluossavin.BB8_10
	lsl	x8, x6, #3
	ldp	x15, x14, [sp, #96]
	ldr	x12, [sp, #24]
	ldr	x13, [sp, #112]
	mov	x16, xzr
	add	x8, x8, #1984
	add	x9, x15, x8
	add	x10, x12, x8
	add	x25, x15, #256
	cmp	x12, x9
	add	x9, x14, x8
	add	x8, x13, x8
	ccmp	x15, x10, #2, lo
	add	x24, x14, #256
	add	x23, x13, #256
	cset	w11, lo
	cmp	x12, x9
	ccmp	x14, x10, #2, lo
	csinc	w9, w11, wzr, hs
	cmp	x12, x8
	mov	w8, w5
	stp	x8, x6, [sp, #48]
	ccmp	x13, x10, #2, lo
	and	x8, x6, #0xfffffffffffffffe
	str	x8, [sp, #32]
	csinc	w8, w9, wzr, hs
	str	w8, [sp, #44]
	add	x8, x12, #256
	str	x8, [sp, #120]
	b	.Lluossavin.BB8_3
.Lluossavin.BB8_2:
	ldr	x8, [sp, #120]
	ldp	x25, x16, [sp, #80]
	ldp	x23, x24, [sp, #64]
	ldr	x6, [sp, #56]
	add	x9, x8, #512
	ldp	x11, x8, [sp, #96]
	add	x16, x16, #1
	add	x25, x25, #512
	add	x10, x11, #512
	add	x24, x24, #512
	add	x23, x23, #512
	cmp	x16, #4
	add	x8, x8, #512
	stp	x10, x8, [sp, #96]
	ldr	x8, [sp, #112]
	add	x8, x8, #512
	stp	x8, x9, [sp, #112]
	b.eq	.Lluossavin.BB8_10
.Lluossavin.BB8_3:
	lsl	x8, x16, #3
	ldr	x17, [sp, #48]
	mov	w10, #2
	mov	w9, #1
	bfi	x10, x16, #3, #60
	mov	w14, #6
	lsr	x8, x17, x8
	bfi	x9, x16, #3, #60
	mov	w11, #3
	mov	w12, #4
	mov	w13, #5
	mov	w15, #7
	sbfx	x18, x8, #0, #1
	lsr	x8, x17, x10
	bfi	x14, x16, #3, #60
	lsr	x9, x17, x9
	bfi	x11, x16, #3, #60
	bfi	x12, x16, #3, #60
	bfi	x13, x16, #3, #60
	bfi	x15, x16, #3, #60
	sbfx	x2, x8, #0, #1
	lsr	x8, x17, x14
	sbfx	x0, x9, #0, #1
	lsr	x9, x17, x11
	lsr	x10, x17, x12
	lsr	x11, x17, x13
	lsr	x12, x17, x15
	sbfx	x7, x8, #0, #1
	ldr	w8, [sp, #44]
	cmp	x6, #1
	sbfx	x3, x9, #0, #1
	sbfx	x4, x10, #0, #1
	sbfx	x5, x11, #0, #1
	sbfx	x19, x12, #0, #1
	csinc	w8, w8, wzr, ne
	stp	x25, x16, [sp, #80]
	stp	x23, x24, [sp, #64]
	tbz	w8, #0, .Lluossavin.BB8_5
	mov	x8, xzr
	b	.Lluossavin.BB8_8
.Lluossavin.BB8_5:
	dup	v0.2d, x18
	dup	v1.2d, x0
	ldr	x22, [sp, #120]
	dup	v5.2d, x5
	dup	v6.2d, x7
	and	x26, x6, #0xfffffffffffffffe
	dup	v7.2d, x19
	str	q0, [sp, #256]
	dup	v0.2d, x2
	stp	q0, q1, [sp, #160]
	dup	v1.2d, x3
	dup	v0.2d, x4
	stp	q0, q1, [sp, #128]
.Lluossavin.BB8_6:
	ldur	q16, [x25, #-256]
	ldr	q0, [sp, #256]
	subs	x26, x26, #2
	ldur	q17, [x24, #-256]
	ldur	q18, [x23, #-256]
	ldur	q19, [x25, #-128]
	eor	v16.16b, v16.16b, v0.16b
	ldr	q0, [sp, #160]
	ldur	q20, [x24, #-128]
	ldur	q21, [x23, #-128]
	eor	v17.16b, v17.16b, v18.16b
	ldr	q22, [x23]
	eor	v18.16b, v19.16b, v0.16b
	ldp	q1, q0, [sp, #128]
	eor	v19.16b, v20.16b, v21.16b
	ldr	q20, [x25]
	ldr	q21, [x24]
	ldur	q24, [x24, #-64]
	eor	v16.16b, v16.16b, v17.16b
	ldur	q25, [x23, #-64]
	eor	v20.16b, v20.16b, v1.16b
	eor	v21.16b, v21.16b, v22.16b
	ldur	q23, [x25, #-64]
	eor	v24.16b, v24.16b, v25.16b
	ldr	q25, [x25, #192]
	ldr	q27, [x24, #192]
	ldr	q28, [x23, #192]
	ldr	q29, [x24, #64]
	eor	v23.16b, v23.16b, v0.16b
	eor	v20.16b, v20.16b, v21.16b
	ldr	q21, [x25, #64]
	ldr	q30, [x23, #64]
	eor	v25.16b, v25.16b, v7.16b
	eor	v27.16b, v27.16b, v28.16b
	ldur	q22, [x25, #-192]
	eor	v21.16b, v21.16b, v5.16b
	eor	v29.16b, v29.16b, v30.16b
	ldur	q26, [x24, #-192]
	ldr	q28, [x25, #128]
	ldr	q31, [x24, #128]
	ldr	q8, [x23, #128]
	ldur	q9, [x23, #-192]
	ldr	q0, [sp, #176]
	eor	v11.16b, v25.16b, v27.16b
	eor	v28.16b, v28.16b, v6.16b
	eor	v30.16b, v31.16b, v8.16b
	eor	v31.16b, v21.16b, v29.16b
	eor	v17.16b, v22.16b, v0.16b
	eor	v22.16b, v26.16b, v9.16b
	eor	v26.16b, v23.16b, v24.16b
	eor	v8.16b, v18.16b, v19.16b
	add	x25, x25, #16
	add	x24, x24, #16
	eor	v12.16b, v28.16b, v30.16b
	eor	v28.16b, v11.16b, v20.16b
	add	x23, x23, #16
	eor	v25.16b, v17.16b, v22.16b
	eor	v13.16b, v31.16b, v26.16b
	eor	v30.16b, v20.16b, v8.16b
	eor	v9.16b, v28.16b, v16.16b
	eor	v23.16b, v12.16b, v8.16b
	eor	v19.16b, v13.16b, v16.16b
	eor	v22.16b, v31.16b, v25.16b
	eor	v24.16b, v11.16b, v13.16b
	eor	v10.16b, v26.16b, v25.16b
	eor	v12.16b, v13.16b, v12.16b
	eor	v17.16b, v9.16b, v26.16b
	eor	v20.16b, v23.16b, v25.16b
	eor	v21.16b, v9.16b, v8.16b
	eor	v29.16b, v19.16b, v30.16b
	eor	v18.16b, v23.16b, v19.16b
	eor	v27.16b, v28.16b, v22.16b
	bic	v14.16b, v23.16b, v24.16b
	eor	v15.16b, v8.16b, v24.16b
	eor	v30.16b, v10.16b, v30.16b
	eor	v10.16b, v28.16b, v31.16b
	eor	v8.16b, v22.16b, v16.16b
	eor	v28.16b, v11.16b, v19.16b
	bic	v11.16b, v13.16b, v16.16b
	eor	v26.16b, v17.16b, v20.16b
	eor	v31.16b, v21.16b, v22.16b
	bic	v0.16b, v20.16b, v21.16b
	bic	v1.16b, v17.16b, v22.16b
	eor	v15.16b, v15.16b, v14.16b
	and	v2.16b, v10.16b, v8.16b
	and	v3.16b, v27.16b, v30.16b
	and	v4.16b, v28.16b, v18.16b
	and	v13.16b, v13.16b, v16.16b
	eor	v11.16b, v11.16b, v25.16b
	eor	v12.16b, v12.16b, v14.16b
	eor	v0.16b, v15.16b, v0.16b
	and	v15.16b, v29.16b, v25.16b
	and	v14.16b, v31.16b, v26.16b
	eor	v4.16b, v3.16b, v4.16b
	eor	v1.16b, v13.16b, v1.16b
	eor	v2.16b, v11.16b, v2.16b
	eor	v3.16b, v14.16b, v3.16b
	eor	v11.16b, v12.16b, v15.16b
	eor	v0.16b, v0.16b, v4.16b
	eor	v1.16b, v1.16b, v4.16b
	eor	v2.16b, v2.16b, v9.16b
	eor	v4.16b, v11.16b, v3.16b
	mvn	v9.16b, v1.16b
	eor	v2.16b, v2.16b, v3.16b
	bic	v1.16b, v0.16b, v1.16b
	eor	v0.16b, v0.16b, v4.16b
	eor	v3.16b, v2.16b, v9.16b
	eor	v11.16b, v1.16b, v4.16b
	and	v3.16b, v11.16b, v3.16b
	eor	v11.16b, v1.16b, v2.16b
	eor	v1.16b, v3.16b, v1.16b
	and	v12.16b, v11.16b, v0.16b
	and	v1.16b, v1.16b, v2.16b
	eor	v4.16b, v12.16b, v4.16b
	eor	v2.16b, v3.16b, v2.16b
	eor	v11.16b, v1.16b, v11.16b
	eor	v1.16b, v1.16b, v9.16b
	and	v25.16b, v2.16b, v25.16b
	and	v10.16b, v4.16b, v10.16b
	and	v3.16b, v11.16b, v4.16b
	eor	v9.16b, v1.16b, v2.16b
	and	v23.16b, v1.16b, v23.16b
	bic	v1.16b, v1.16b, v24.16b
	eor	v0.16b, v3.16b, v0.16b
	eor	v3.16b, v4.16b, v2.16b
	and	v2.16b, v2.16b, v29.16b
	bic	v21.16b, v9.16b, v21.16b
	and	v20.16b, v9.16b, v20.16b
	eor	v11.16b, v0.16b, v9.16b
	eor	v29.16b, v0.16b, v4.16b
	and	v4.16b, v4.16b, v8.16b
	and	v24.16b, v3.16b, v27.16b
	bic	v22.16b, v0.16b, v22.16b
	and	v0.16b, v0.16b, v17.16b
	and	v26.16b, v11.16b, v26.16b
	and	v27.16b, v11.16b, v31.16b
	eor	v31.16b, v11.16b, v3.16b
	and	v19.16b, v29.16b, v19.16b
	and	v3.16b, v3.16b, v30.16b
	bic	v16.16b, v29.16b, v16.16b
	eor	v22.16b, v22.16b, v1.16b
	eor	v29.16b, v26.16b, v10.16b
	and	v28.16b, v31.16b, v28.16b
	eor	v2.16b, v27.16b, v2.16b
	eor	v23.16b, v19.16b, v23.16b
	and	v17.16b, v31.16b, v18.16b
	eor	v4.16b, v3.16b, v4.16b
	eor	v18.16b, v19.16b, v24.16b
	eor	v19.16b, v25.16b, v26.16b
	eor	v22.16b, v22.16b, v16.16b
	eor	v21.16b, v29.16b, v21.16b
	eor	v2.16b, v2.16b, v28.16b
	eor	v1.16b, v3.16b, v1.16b
	eor	v20.16b, v23.16b, v20.16b
	eor	v3.16b, v4.16b, v27.16b
	eor	v4.16b, v19.16b, v23.16b
	eor	v19.16b, v17.16b, v0.16b
	eor	v17.16b, v21.16b, v17.16b
	eor	v18.16b, v18.16b, v21.16b
	eor	v21.16b, v2.16b, v22.16b
	eor	v0.16b, v20.16b, v0.16b
	eor	v3.16b, v3.16b, v16.16b
	eor	v1.16b, v1.16b, v28.16b
	eor	v4.16b, v4.16b, v19.16b
	eor	v16.16b, v17.16b, v20.16b
	eor	v17.16b, v19.16b, v29.16b
	eor	v2.16b, v18.16b, v2.16b
	eor	v19.16b, v21.16b, v0.16b
	eor	v0.16b, v3.16b, v0.16b
	eor	v3.16b, v22.16b, v18.16b
	mvn	v4.16b, v4.16b
	stur	q17, [x22, #-64]
	eor	v17.16b, v22.16b, v16.16b
	eor	v1.16b, v16.16b, v1.16b
	mvn	v2.16b, v2.16b
	str	q0, [x22, #64]
	mvn	v0.16b, v3.16b
	stur	q19, [x22, #-128]
	mvn	v3.16b, v17.16b
	mvn	v1.16b, v1.16b
	str	q4, [x22, #192]
	stur	q2, [x22, #-256]
	str	q0, [x22]
	stur	q3, [x22, #-192]
	str	q1, [x22, #128]
	add	x22, x22, #16
	b.ne	.Lluossavin.BB8_6
	ldr	x8, [sp, #32]
	cmp	x6, x8
	and	x8, x6, #0xfffffffffffffffe
	b.eq	.Lluossavin.BB8_2
.Lluossavin.BB8_8:
	ldr	x9, [sp, #56]
	ldp	x25, x24, [sp, #112]
	ldp	x27, x26, [sp, #96]
	stp	x0, x18, [sp, #240]
	sub	x9, x9, x8
	lsl	x8, x8, #3
	stp	x3, x2, [sp, #224]
	stp	x5, x4, [sp, #208]
	str	x8, [sp, #176]
	stp	x19, x7, [sp, #192]
.Lluossavin.BB8_9:
	ldr	x22, [sp, #176]
	str	x9, [sp, #256]
	add	x8, x27, x22
	add	x9, x26, x22
	add	x10, x25, x22
	ldr	x11, [x8]
	ldr	x12, [x9]
	ldr	x13, [x10]
	ldr	x14, [x8, #64]
	ldr	x15, [x9, #64]
	ldr	x16, [x10, #64]
	eor	x11, x11, x12
	eor	x12, x13, x18
	ldr	x17, [x10, #128]
	eor	x13, x14, x15
	eor	x14, x16, x0
	ldr	x15, [x8, #128]
	ldr	x16, [x9, #128]
	ldr	x0, [x8, #192]
	ldr	x1, [x9, #192]
	eor	x29, x11, x12
	eor	x28, x13, x14
	ldr	x11, [x10, #192]
	eor	x12, x15, x16
	eor	x13, x17, x2
	eor	x14, x0, x1
	ldr	x15, [x8, #256]
	ldr	x16, [x9, #256]
	ldr	x0, [x10, #256]
	ldr	x1, [x8, #320]
	ldr	x2, [x9, #320]
	eor	x11, x11, x3
	eor	x17, x12, x13
	eor	x12, x15, x16
	eor	x13, x0, x4
	eor	x15, x1, x2
	ldr	x16, [x8, #448]
	ldr	x0, [x9, #448]
	ldr	x1, [x10, #448]
	eor	x11, x14, x11
	ldr	x14, [x10, #320]
	ldr	x8, [x8, #384]
	ldr	x9, [x9, #384]
	ldr	x10, [x10, #384]
	eor	x16, x16, x0
	eor	x0, x1, x19
	eor	x14, x14, x5
	eor	x12, x12, x13
	eor	x18, x16, x0
	eor	x8, x8, x9
	eor	x9, x10, x7
	eor	x3, x15, x14
	eor	x5, x18, x12
	eor	x7, x8, x9
	eor	x19, x3, x11
	eor	x20, x5, x29
	eor	x16, x7, x17
	eor	x14, x19, x29
	eor	x10, x3, x28
	eor	x0, x20, x11
	eor	x8, x12, x17
	eor	x2, x16, x28
	eor	x1, x20, x17
	eor	x9, x11, x28
	eor	x4, x18, x19
	eor	x30, x16, x14
	eor	x12, x5, x10
	eor	x11, x0, x2
	eor	x6, x1, x10
	eor	x15, x9, x8
	eor	x9, x5, x3
	eor	x3, x18, x14
	bic	x18, x16, x4
	and	x5, x12, x15
	and	x21, x3, x30
	and	x23, x6, x11
	eor	x17, x17, x4
	eor	x21, x5, x21
	eor	x5, x23, x5
	bic	x23, x2, x1
	eor	x17, x17, x18
	eor	x7, x19, x7
	eor	x13, x14, x8
	eor	x8, x10, x29
	eor	x17, x17, x23
	bic	x23, x19, x29
	eor	x18, x7, x18
	bic	x7, x0, x10
	and	x19, x19, x29
	eor	x7, x19, x7
	and	x19, x9, x8
	eor	x23, x23, x28
	eor	x19, x23, x19
	and	x23, x13, x28
	eor	x17, x17, x21
	eor	x18, x18, x23
	eor	x7, x7, x21
	eor	x19, x19, x20
	eor	x18, x18, x5
	eor	x5, x19, x5
	bic	x19, x17, x7
	eon	x20, x7, x5
	eor	x21, x19, x18
	eor	x17, x17, x18
	and	x20, x21, x20
	eor	x21, x19, x5
	add	x27, x27, #8
	eor	x19, x20, x19
	and	x23, x21, x17
	add	x26, x26, #8
	and	x19, x19, x5
	eor	x18, x23, x18
	eor	x5, x20, x5
	eor	x21, x19, x21
	eon	x7, x7, x19
	and	x13, x5, x13
	and	x21, x21, x18
	and	x20, x7, x16
	bic	x16, x7, x4
	eor	x17, x21, x17
	eor	x4, x7, x5
	and	x9, x18, x9
	eor	x19, x17, x18
	and	x2, x4, x2
	bic	x1, x4, x1
	eor	x4, x17, x4
	and	x0, x17, x0
	bic	x17, x17, x10
	and	x10, x5, x28
	eor	x5, x18, x5
	and	x8, x18, x8
	eor	x18, x4, x5
	and	x11, x4, x11
	and	x14, x19, x14
	and	x12, x5, x12
	and	x15, x5, x15
	and	x5, x18, x30
	and	x18, x18, x3
	and	x3, x4, x6
	eor	x9, x11, x9
	bic	x7, x19, x29
	eor	x4, x14, x20
	eor	x12, x14, x12
	eor	x14, x9, x1
	eor	x17, x17, x16
	eor	x13, x3, x13
	eor	x1, x4, x2
	eor	x17, x17, x7
	eor	x12, x12, x14
	eor	x14, x14, x5
	eor	x13, x13, x18
	eor	x2, x5, x0
	eor	x0, x1, x0
	eor	x14, x14, x1
	eor	x8, x15, x8
	eon	x1, x12, x13
	eor	x13, x13, x17
	eor	x8, x8, x3
	add	x3, x24, x22
	eor	x13, x13, x0
	eor	x9, x2, x9
	eor	x8, x8, x7
	stur	x13, [x3, #-128]
	eor	x13, x15, x16
	stur	x9, [x3, #-64]
	eor	x9, x10, x11
	eor	x8, x8, x0
	eor	x10, x14, x13
	eor	x9, x9, x4
	stur	x1, [x3, #-256]
	eon	x1, x17, x14
	eon	x12, x17, x12
	eon	x10, x10, x18
	str	x8, [x3, #64]
	eon	x8, x9, x2
	ldr	x9, [sp, #256]
	ldp	x7, x5, [sp, #200]
	stur	x1, [x3, #-192]
	str	x12, [x3]
	ldp	x0, x18, [sp, #240]
	str	x10, [x3, #128]
	ldr	x19, [sp, #192]
	ldr	x2, [sp, #232]
	str	x8, [x3, #192]
	ldp	x4, x3, [sp, #216]
	subs	x9, x9, #1
	add	x25, x25, #8
	add	x24, x24, #8
	b.ne	.Lluossavin.BB8_9
	b	.Lluossavin.BB8_2
.Lluossavin.BB8_10:
	ldr	x15, [sp, #24]
	mov	w8, #256
	mov	x9, x15
.Lluossavin.BB8_11:
	ldp	q0, q1, [x9]
	subs	x8, x8, #4
	str	q0, [x9, #2048]
	str	q1, [x9, #2064]
	add	x9, x9, #32
	b.ne	.Lluossavin.BB8_11
	ldr	x16, [sp, #16]
	add	x8, x15, #1, lsl #12
	cmp	x16, x8
	b.hs	.Lluossavin.BB8_16
	add	x8, x16, #2048
	add	x9, x15, #512
	cmp	x9, x8
	b.hs	.Lluossavin.BB8_16
	mov	w8, #256
.Lluossavin.BB8_15:
	ldr	x9, [x15, #2048]
	ldr	x10, [x15, #1920]
	subs	x8, x8, #1
	ldr	x11, [x15, #1408]
	ldr	x12, [x15, #896]
	ldr	x13, [x15, #512]
	ldr	x14, [x16]
	eor	x9, x10, x9
	add	x15, x15, #8
	eor	x10, x11, x12
	eor	x9, x9, x10
	eor	x10, x13, x14
	eor	x9, x9, x10
	str	x9, [x16], #8
	b.ne	.Lluossavin.BB8_15
	b	.Lluossavin.BB8_18
.Lluossavin.BB8_16:
	mov	x8, xzr
	add	x9, x16, #16
.Lluossavin.BB8_17:
	add	x10, x15, x8
	add	x11, x9, x8
	add	x8, x8, #32
	ldp	q4, q7, [x10, #896]
	ldr	q0, [x10, #2048]
	ldr	q1, [x10, #2064]
	ldr	q2, [x10, #1920]
	ldr	q3, [x10, #1408]
	ldr	q5, [x10, #1936]
	ldr	q6, [x10, #1424]
	cmp	x8, #2048
	eor	v0.16b, v2.16b, v0.16b
	eor	v2.16b, v3.16b, v4.16b
	eor	v1.16b, v5.16b, v1.16b
	eor	v4.16b, v6.16b, v7.16b
	ldp	q5, q6, [x10, #512]
	ldp	q3, q7, [x11, #-16]
	eor	v0.16b, v0.16b, v2.16b
	eor	v1.16b, v1.16b, v4.16b
	eor	v3.16b, v5.16b, v3.16b
	eor	v2.16b, v6.16b, v7.16b
	eor	v0.16b, v0.16b, v3.16b
	eor	v1.16b, v1.16b, v2.16b
	stp	q0, q1, [x11, #-16]
	b.ne	.Lluossavin.BB8_17
.Lluossavin.BB8_18:
	ldp	x20, x19, [sp, #416]
	ldp	x22, x21, [sp, #400]
	ldp	x24, x23, [sp, #384]
	ldp	x26, x25, [sp, #368]
	ldp	x28, x27, [sp, #352]
	ldp	x29, x30, [sp, #336]
	ldp	d9, d8, [sp, #320]
	ldp	d11, d10, [sp, #304]
	ldp	d13, d12, [sp, #288]
	ldp	d15, d14, [sp, #272]
	add	sp, sp, #432
	ret
.Lluossavin.func_end8:
	.size	"sliced::round", .Lluossavin.func_end8-"sliced::round"

	.section	.rodata.cst16,"aM",@progbits,16
	.p2align	4, 0x0
.Lluossavin.CPI9_0:
	.xword	0
	.xword	-1
	.section	".text.stream::batches::counters","ax",@progbits
	.p2align	2
	.type	"stream::batches::counters",@function
"stream::batches::counters":
	stp	x29, x30, [sp, #-96]!
	sub	x9, sp, #4, lsl #12
	stp	x28, x27, [sp, #16]
	sub	x9, x9, #2048
	stp	x26, x25, [sp, #32]
	stp	x24, x23, [sp, #48]
	stp	x22, x21, [sp, #64]
	stp	x20, x19, [sp, #80]
.Lluossavin.BB9_1:
	sub	sp, sp, #3072
	cmp	sp, x9
	str	xzr, [sp]
	b.ne	.Lluossavin.BB9_1
	sub	sp, sp, #2720
	str	xzr, [sp]
	cmp	x5, #3072
	ldp	q0, q1, [x1, #64]
	str	x0, [sp, #8]
	ldp	w8, w22, [x3]
	stp	q0, q1, [sp, #160]
	ldp	q2, q0, [x1, #96]
	str	x8, [sp, #88]
	ldp	w8, w24, [x3, #8]
	stp	q2, q0, [sp, #192]
	ldp	q1, q0, [x1]
	str	x8, [sp, #80]
	stp	q1, q0, [sp, #96]
	ldp	q0, q1, [x1, #32]
	stp	q0, q1, [sp, #128]
	b.lo	.Lluossavin.BB9_12
	add	x11, sp, #2, lsl #12
	mov	w8, #6144
	mov	w9, #6208
	add	x11, x11, #224
	mov	w10, #6272
	mov	x25, x5
	add	x26, x11, x8
	mov	w8, #6592
	add	x29, x11, x9
	add	x8, x11, x8
	mov	w9, #6624
	add	x19, x11, x10
	str	x8, [sp, #64]
	mov	w8, #6608
	mov	w10, #6640
	add	x8, x11, x8
	mov	w23, w2
	mov	x27, xzr
	str	x8, [sp, #56]
	add	x8, x11, x9
	mov	w9, #6688
	str	x8, [sp, #48]
	add	x8, x11, x10
	add	x10, sp, #224
	str	x8, [sp, #40]
	mov	w8, #6656
	add	x20, x11, x9
	add	x8, x11, x8
	add	x9, x6, #8
	add	x28, x10, #1, lsl #12
	str	x8, [sp, #32]
	add	x8, x4, #8
	stp	x8, x9, [sp, #16]
	mov	x8, x5
	str	w2, [sp, #76]
	b	.Lluossavin.BB9_5
.Lluossavin.BB9_4:
	add	w24, w24, w21
	add	x27, x27, x21, lsl #4
	sub	x8, x25, x27
	cmp	x8, #3071
	b.ls	.Lluossavin.BB9_13
.Lluossavin.BB9_5:
	ldp	q0, q1, [sp, #160]
	lsr	x8, x8, #4
	add	x0, sp, #2, lsl #12
	mov	w9, #512
	mov	w1, wzr
	cmp	x8, #512
	add	x0, x0, #224
	mov	w2, #12288
	str	q0, [sp, #20768]
	ldp	q0, q2, [sp, #192]
	str	q1, [sp, #20784]
	csel	x21, x8, x9, lo
	str	q0, [sp, #20800]
	ldp	q1, q0, [sp, #96]
	str	q2, [sp, #20816]
	str	q0, [sp, #20720]
	ldp	q2, q0, [sp, #128]
	str	q1, [sp, #20704]
	str	q2, [sp, #20736]
	str	q0, [sp, #20752]
	bl	memset
	add	x0, sp, #224
	mov	w1, wzr
	mov	w2, #8192
	bl	memset
	movi	v0.16b, #170
	adrp	x8, .Lluossavin.CPI9_0
	movi	v1.16b, #204
	movi	v2.2d, #0000000000000000
	add	x0, sp, #5, lsl #12
	add	x3, sp, #5, lsl #12
	add	x0, x0, #544
	add	x3, x3, #352
	mov	x1, x26
	mov	w2, #9
	mov	w4, w24
	stp	q0, q0, [x26]
	stp	q0, q0, [x26, #32]
	movi	v0.16b, #240
	stp	q1, q1, [x29]
	stp	q1, q1, [x29, #32]
	movi	v1.2d, #0xff00ff00ff00ff00
	str	q2, [sp, #21024]
	stp	q0, q0, [x19]
	stp	q0, q0, [x19, #32]
	movi	v0.2d, #0xffff0000ffff0000
	str	q2, [sp, #21040]
	str	q1, [sp, #14752]
	str	q1, [sp, #14768]
	str	q0, [sp, #14816]
	str	q0, [sp, #14832]
	str	q0, [sp, #14848]
	str	q0, [sp, #14864]
	movi	v0.2d, #0xffffffff00000000
	str	q1, [sp, #14784]
	str	q1, [sp, #14800]
	str	q2, [sp, #21056]
	str	q0, [sp, #14880]
	str	q0, [sp, #14896]
	str	q0, [sp, #14912]
	str	q0, [sp, #14928]
	ldr	q0, [x8, :lo12:.Lluossavin.CPI9_0]
	ldp	x9, x8, [sp, #56]
	str	q2, [sp, #21072]
	str	q0, [sp, #14944]
	str	q0, [sp, #14960]
	stp	xzr, xzr, [x8]
	mov	x8, #-1
	stp	x8, x8, [x9]
	ldp	x9, x10, [sp, #40]
	str	q0, [sp, #14976]
	str	q0, [sp, #14992]
	movi	v0.2d, #0xffffffffffffffff
	stp	x8, x8, [x9]
	ldr	x8, [sp, #32]
	str	q2, [sp, #20960]
	str	q2, [sp, #20976]
	str	q2, [sp, #20992]
	str	q2, [sp, #21008]
	str	q2, [sp, #20896]
	str	q2, [sp, #20912]
	str	q2, [sp, #20928]
	str	q2, [sp, #20944]
	stp	xzr, xzr, [x10]
	stp	q2, q2, [x8]
	stp	q0, q0, [x20]
	str	q2, [sp, #20880]
	str	q2, [sp, #20864]
	str	q2, [sp, #20848]
	str	q2, [sp, #20832]
	bl	"sliced::counters::add_word"
	tbz	w23, #0, .Lluossavin.BB9_7
	ldr	q0, [sp, #21024]
	ldr	q1, [sp, #21040]
	ldr	q2, [sp, #21072]
	str	q0, [sp, #21088]
	ldr	q0, [sp, #21056]
	str	q1, [sp, #21104]
	str	q0, [sp, #21120]
	str	q2, [sp, #21136]
	b	.Lluossavin.BB9_8
.Lluossavin.BB9_7:
	movi	v0.2d, #0000000000000000
	str	q0, [sp, #21136]
	str	q0, [sp, #21120]
	str	q0, [sp, #21104]
	str	q0, [sp, #21088]
.Lluossavin.BB9_8:
	ldr	q0, [sp, #21088]
	add	x23, sp, #2, lsl #12
	ldr	q1, [sp, #21104]
	ldr	q2, [sp, #21136]
	add	x0, sp, #5, lsl #12
	add	x23, x23, #224
	str	q0, [sp, #20832]
	ldr	q0, [sp, #21120]
	add	x3, sp, #5, lsl #12
	add	x0, x0, #480
	add	x1, x23, #1, lsl #12
	add	x3, x3, #352
	mov	x2, xzr
	ldr	x4, [sp, #80]
	str	q1, [sp, #20848]
	str	q0, [sp, #20864]
	str	q2, [sp, #20880]
	bl	"sliced::counters::add_word"
	add	x0, sp, #5, lsl #12
	add	x3, sp, #5, lsl #12
	add	x1, x23, #2048
	add	x0, x0, #416
	add	x3, x3, #480
	mov	x2, xzr
	mov	w4, w22
	bl	"sliced::counters::add_word"
	add	x0, sp, #5, lsl #12
	add	x1, sp, #2, lsl #12
	add	x3, sp, #5, lsl #12
	add	x0, x0, #352
	add	x1, x1, #224
	add	x3, x3, #416
	mov	x2, xzr
	ldr	x4, [sp, #88]
	bl	"sliced::counters::add_word"
	add	w8, w21, #63
	adrp	x9, .Lluossavin.static.3
	add	x9, x9, :lo12:.Lluossavin.static.3
	lsr	w8, w8, #3
	add	x0, sp, #2, lsl #12
	add	x1, sp, #5, lsl #12
	add	x0, x0, #224
	add	x1, x1, #224
	add	x3, sp, #224
	and	x8, x8, #0xf8
	add	x23, sp, #224
	ldr	x2, [x9, x8]
	bl	"sliced::Planes::rounds_to_rows"
	ldp	x11, x10, [sp, #16]
	mov	x8, xzr
	mov	x9, xzr
	add	x10, x10, x27
	add	x11, x11, x27
.Lluossavin.BB9_9:
	and	x12, x8, #0x1f8
	ldp	x14, x15, [x11, #-8]
	add	x12, x12, x9, lsr #6
	add	x9, x9, #1
	add	x8, x8, #8
	cmp	x21, x9
	add	x11, x11, #16
	ldr	x13, [x23, x12, lsl #3]
	ldr	x12, [x28, x12, lsl #3]
	rev	x13, x13
	rev	x12, x12
	eor	x13, x13, x14
	eor	x12, x12, x15
	stp	x13, x12, [x10, #-8]
	add	x10, x10, #16
	b.ne	.Lluossavin.BB9_9
	ldr	w23, [sp, #76]
	cbz	w23, .Lluossavin.BB9_4
	ldp	x11, x10, [sp, #80]
	mov	w8, w24
	mov	w9, w22
	orr	x8, x8, x11, lsl #32
	orr	x9, x9, x10, lsl #32
	adds	x24, x21, x8
	cinc	x22, x9, hs
	lsr	x9, x24, #32
	lsr	x8, x22, #32
	stp	x9, x8, [sp, #80]
	add	x27, x27, x21, lsl #4
	sub	x8, x25, x27
	cmp	x8, #3071
	b.hi	.Lluossavin.BB9_5
	b	.Lluossavin.BB9_13
.Lluossavin.BB9_12:
	mov	x27, xzr
.Lluossavin.BB9_13:
	ldp	x9, x10, [sp, #80]
	ldr	x8, [sp, #8]
	str	x27, [x8, #16]
	stp	w10, w22, [x8]
	stp	w9, w24, [x8, #8]
	add	sp, sp, #5, lsl #12
	add	sp, sp, #672
	ldp	x20, x19, [sp, #80]
	ldp	x22, x21, [sp, #64]
	ldp	x24, x23, [sp, #48]
	ldp	x26, x25, [sp, #32]
	ldp	x28, x27, [sp, #16]
	ldp	x29, x30, [sp], #96
	ret
.Lluossavin.func_end9:
	.size	"stream::batches::counters", .Lluossavin.func_end9-"stream::batches::counters"

	.section	.rodata.cst16,"aM",@progbits,16
	.p2align	4, 0x0
.Lluossavin.CPI10_0:
	.xword	62
	.xword	61
.Lluossavin.CPI10_1:
	.xword	60
	.xword	59
.Lluossavin.CPI10_2:
	.xword	58
	.xword	57
.Lluossavin.CPI10_3:
	.xword	56
	.xword	55
.Lluossavin.CPI10_4:
	.xword	54
	.xword	53
.Lluossavin.CPI10_5:
	.xword	52
	.xword	51
.Lluossavin.CPI10_6:
	.xword	50
	.xword	49
.Lluossavin.CPI10_7:
	.xword	48
	.xword	47
.Lluossavin.CPI10_8:
	.xword	46
	.xword	45
.Lluossavin.CPI10_9:
	.xword	44
	.xword	43
.Lluossavin.CPI10_10:
	.xword	42
	.xword	41
.Lluossavin.CPI10_11:
	.xword	40
	.xword	39
.Lluossavin.CPI10_12:
	.xword	38
	.xword	37
.Lluossavin.CPI10_13:
	.xword	36
	.xword	35
.Lluossavin.CPI10_14:
	.xword	34
	.xword	33
	.section	".text.sliced::counters::add_word","ax",@progbits
	.p2align	2
	.type	"sliced::counters::add_word",@function
"sliced::counters::add_word":
	sub	sp, sp, #320
	mov	w13, w4
	adrp	x8, .Lluossavin.CPI10_0
	adrp	x9, .Lluossavin.CPI10_1
	dup	v0.2d, x13
	ldr	q1, [x8, :lo12:.Lluossavin.CPI10_0]
	adrp	x8, .Lluossavin.CPI10_2
	ldr	q2, [x9, :lo12:.Lluossavin.CPI10_1]
	ldr	q3, [x8, :lo12:.Lluossavin.CPI10_2]
	adrp	x8, .Lluossavin.CPI10_5
	adrp	x10, .Lluossavin.CPI10_3
	ldr	q6, [x8, :lo12:.Lluossavin.CPI10_5]
	adrp	x9, .Lluossavin.CPI10_4
	ushl	v1.2d, v0.2d, v1.2d
	ushl	v2.2d, v0.2d, v2.2d
	ushl	v3.2d, v0.2d, v3.2d
	ldr	q4, [x10, :lo12:.Lluossavin.CPI10_3]
	adrp	x10, .Lluossavin.CPI10_6
	ushl	v6.2d, v0.2d, v6.2d
	ldr	q7, [x10, :lo12:.Lluossavin.CPI10_6]
	ldr	q5, [x9, :lo12:.Lluossavin.CPI10_4]
	adrp	x8, .Lluossavin.CPI10_7
	cmlt	v1.2d, v1.2d, #0
	cmlt	v2.2d, v2.2d, #0
	cmlt	v3.2d, v3.2d, #0
	ushl	v4.2d, v0.2d, v4.2d
	ushl	v5.2d, v0.2d, v5.2d
	mov	x16, sp
	sbfx	x9, x13, #0, #1
	ldp	x12, x10, [x3]
	stur	q1, [sp, #8]
	ushl	v1.2d, v0.2d, v7.2d
	neg	x17, x13, lsr #31
	stur	q2, [sp, #24]
	cmlt	v2.2d, v6.2d, #0
	cmlt	v4.2d, v4.2d, #0
	stur	q3, [sp, #40]
	ldr	q3, [x8, :lo12:.Lluossavin.CPI10_7]
	adrp	x8, .Lluossavin.CPI10_8
	cmlt	v1.2d, v1.2d, #0
	cmlt	v5.2d, v5.2d, #0
	str	x9, [sp]
	stur	q2, [sp, #88]
	ushl	v2.2d, v0.2d, v3.2d
	ldr	q3, [x8, :lo12:.Lluossavin.CPI10_8]
	adrp	x8, .Lluossavin.CPI10_9
	stur	q4, [sp, #56]
	stur	q1, [sp, #104]
	ushl	v1.2d, v0.2d, v3.2d
	ldr	q3, [x8, :lo12:.Lluossavin.CPI10_9]
	adrp	x8, .Lluossavin.CPI10_10
	stur	q5, [sp, #72]
	cmlt	v2.2d, v2.2d, #0
	ldr	q4, [x8, :lo12:.Lluossavin.CPI10_10]
	adrp	x8, .Lluossavin.CPI10_11
	ushl	v3.2d, v0.2d, v3.2d
	ldr	q5, [x8, :lo12:.Lluossavin.CPI10_11]
	adrp	x8, .Lluossavin.CPI10_12
	cmlt	v1.2d, v1.2d, #0
	ldr	q6, [x8, :lo12:.Lluossavin.CPI10_12]
	ushl	v4.2d, v0.2d, v4.2d
	stur	q2, [sp, #120]
	ushl	v2.2d, v0.2d, v5.2d
	cmlt	v3.2d, v3.2d, #0
	adrp	x8, .Lluossavin.CPI10_13
	ushl	v5.2d, v0.2d, v6.2d
	stur	q1, [x16, #136]
	cmlt	v1.2d, v4.2d, #0
	ldr	q4, [x8, :lo12:.Lluossavin.CPI10_13]
	adrp	x8, .Lluossavin.CPI10_14
	stur	q3, [x16, #152]
	cmlt	v2.2d, v2.2d, #0
	cmlt	v3.2d, v5.2d, #0
	ldr	q5, [x8, :lo12:.Lluossavin.CPI10_14]
	stp	x17, x29, [sp, #248]
	stur	q1, [x16, #168]
	ushl	v1.2d, v0.2d, v4.2d
	ushl	v0.2d, v0.2d, v5.2d
	ldp	x8, x11, [x3, #16]
	ldp	x9, x14, [x3, #32]
	stp	x24, x23, [sp, #272]
	cmlt	v1.2d, v1.2d, #0
	ldp	x13, x15, [x3, #48]
	cmlt	v0.2d, v0.2d, #0
	stp	x22, x21, [sp, #288]
	stp	x20, x19, [sp, #304]
	stur	q2, [x16, #184]
	stur	q3, [x16, #200]
	stur	q1, [x16, #216]
	stur	q0, [x16, #232]
	cbz	x2, .Lluossavin.BB10_3
	add	x16, x1, #32
	mov	x17, sp
	mov	x18, x2
.Lluossavin.BB10_2:
	ldp	x4, x5, [x16, #-32]
	subs	x18, x18, #1
	ldp	x6, x7, [x16, #-16]
	ldr	x3, [x17], #8
	eor	x19, x4, x12
	ldp	x20, x21, [x16]
	and	x12, x4, x12
	eor	x4, x3, x19
	and	x19, x3, x19
	eor	x24, x5, x10
	eor	x12, x19, x12
	and	x10, x5, x10
	eor	x19, x3, x24
	and	x5, x3, x24
	eor	x24, x6, x8
	ldp	x22, x23, [x16, #16]
	eor	x10, x5, x10
	and	x8, x6, x8
	and	x5, x3, x24
	eor	x6, x7, x11
	stp	x4, x19, [x16, #-32]
	eor	x4, x3, x24
	eor	x8, x5, x8
	eor	x5, x3, x6
	and	x11, x7, x11
	and	x6, x3, x6
	eor	x7, x20, x9
	stp	x4, x5, [x16, #-16]
	eor	x11, x6, x11
	and	x9, x20, x9
	and	x5, x3, x7
	eor	x6, x21, x14
	eor	x4, x3, x7
	eor	x9, x5, x9
	eor	x5, x3, x6
	and	x14, x21, x14
	and	x6, x3, x6
	eor	x7, x22, x13
	stp	x4, x5, [x16]
	eor	x14, x6, x14
	and	x13, x22, x13
	and	x5, x3, x7
	eor	x6, x23, x15
	eor	x4, x3, x7
	eor	x13, x5, x13
	eor	x5, x6, x3
	and	x15, x23, x15
	and	x3, x6, x3
	stp	x4, x5, [x16, #16]
	add	x16, x16, #64
	eor	x15, x3, x15
	b.ne	.Lluossavin.BB10_2
.Lluossavin.BB10_3:
	add	x17, x1, x2, lsl #6
	lsl	x16, x2, #3
	add	x17, x17, #32
.Lluossavin.BB10_4:
	mov	x18, sp
	ldr	x18, [x18, x16]
	add	x16, x16, #8
	cmp	x16, #256
	eor	x1, x12, x18
	eor	x2, x10, x18
	and	x12, x12, x18
	stp	x1, x2, [x17, #-32]
	eor	x1, x8, x18
	eor	x2, x11, x18
	stp	x1, x2, [x17, #-16]
	eor	x1, x9, x18
	eor	x2, x14, x18
	stp	x1, x2, [x17]
	eor	x1, x13, x18
	eor	x2, x15, x18
	and	x10, x10, x18
	and	x8, x8, x18
	and	x11, x11, x18
	and	x9, x9, x18
	and	x14, x14, x18
	and	x13, x13, x18
	stp	x1, x2, [x17, #16]
	and	x15, x15, x18
	add	x17, x17, #64
	b.ne	.Lluossavin.BB10_4
	ldp	x20, x19, [sp, #304]
	ldr	x29, [sp, #256]
	ldp	x22, x21, [sp, #288]
	stp	x12, x10, [x0]
	stp	x8, x11, [x0, #16]
	ldp	x24, x23, [sp, #272]
	stp	x9, x14, [x0, #32]
	stp	x13, x15, [x0, #48]
	add	sp, sp, #320
	ret
.Lluossavin.func_end10:
	.size	"sliced::counters::add_word", .Lluossavin.func_end10-"sliced::counters::add_word"

	.section	.rodata.cst16,"aM",@progbits,16
	.p2align	4, 0x0
.Lluossavin.CPI11_0:
	.word	0
	.word	1
	.word	2
	.word	3
.Lluossavin.CPI11_1:
	.xword	2
	.xword	3
.Lluossavin.CPI11_2:
	.xword	0
	.xword	1
	.section	".text.stream::few::few","ax",@progbits
	.p2align	2
	.type	"stream::few::few",@function
"stream::few::few":
	stp	x29, x30, [sp, #-64]!
	stp	x24, x23, [sp, #16]
	stp	x22, x21, [sp, #32]
	stp	x20, x19, [sp, #48]
	sub	sp, sp, #2224
	str	xzr, [sp]
	mov	x19, x0
	and	w24, w2, #0xff
	ldr	q0, [x4]
	add	x0, sp, #1056
	mov	w2, #1040
	mov	x20, x7
	mov	w22, w6
	mov	x21, x5
	str	q0, [sp]
	ldp	q0, q1, [x1, #64]
	mov	w23, w3
	str	q0, [sp, #2160]
	ldp	q2, q0, [x1, #96]
	str	q1, [sp, #2176]
	str	q0, [sp, #2208]
	ldp	q1, q0, [x1]
	str	q2, [sp, #2192]
	str	q0, [sp, #2112]
	ldp	q2, q0, [x1, #32]
	mov	w1, wzr
	str	q1, [sp, #2096]
	str	q2, [sp, #2128]
	str	q0, [sp, #2144]
	bl	memset
	cbz	w24, .Lluossavin.BB11_4
	ldr	q22, [sp]
	tbz	w23, #0, .Lluossavin.BB11_7
	ext	v0.16b, v22.16b, v22.16b, #8
	cmp	x21, #3
	add	x8, x21, #1
	zip1	v1.2s, v22.2s, v0.2s
	zip2	v0.2s, v22.2s, v0.2s
	shll	v1.2d, v1.2s, #32
	ushll	v0.2d, v0.2s, #0
	orr	v0.16b, v1.16b, v0.16b
	b.hs	.Lluossavin.BB11_9
	mov	x9, xzr
	b	.Lluossavin.BB11_12
.Lluossavin.BB11_4:
	ldr	q0, [sp]
	rev32	v0.16b, v0.16b
	str	q0, [sp, #1056]
	cbz	x21, .Lluossavin.BB11_24
	cmp	x21, #4
	b.hs	.Lluossavin.BB11_19
	mov	w8, #1
	b	.Lluossavin.BB11_22
.Lluossavin.BB11_7:
	mov	w8, v22.s[2]
	rev32	v0.16b, v22.16b
	cmp	x21, #7
	rev	w8, w8
	b.hs	.Lluossavin.BB11_14
	mov	x9, xzr
	b	.Lluossavin.BB11_17
.Lluossavin.BB11_9:
	dup	v1.2d, v0.d[1]
	adrp	x9, .Lluossavin.CPI11_1
	adrp	x10, .Lluossavin.CPI11_2
	dup	v2.2d, v0.d[0]
	ldr	q3, [x9, :lo12:.Lluossavin.CPI11_1]
	ldr	q4, [x10, :lo12:.Lluossavin.CPI11_2]
	and	x9, x8, #0x1ffffffffffffffc
	add	x10, sp, #1056
	and	x11, x8, #0x1ffffffffffffffc
.Lluossavin.BB11_10:
	mvn	v5.16b, v4.16b
	mvn	v6.16b, v3.16b
	mov	w12, #4
	add	v17.2d, v4.2d, v1.2d
	add	v18.2d, v3.2d, v1.2d
	subs	x11, x11, #4
	addhn	v19.2s, v4.2d, v1.2d
	cmhi	v6.2d, v1.2d, v6.2d
	cmhi	v5.2d, v1.2d, v5.2d
	sub	v7.2d, v2.2d, v5.2d
	sub	v16.2d, v2.2d, v6.2d
	subhn	v5.2s, v2.2d, v5.2d
	addhn2	v19.4s, v3.2d, v1.2d
	uzp1	v7.4s, v7.4s, v16.4s
	subhn2	v5.4s, v2.2d, v6.2d
	uzp1	v6.4s, v17.4s, v18.4s
	rev32	v21.16b, v7.16b
	rev32	v20.16b, v5.16b
	dup	v5.2d, x12
	rev32	v23.16b, v6.16b
	rev32	v22.16b, v19.16b
	add	v3.2d, v3.2d, v5.2d
	add	v4.2d, v4.2d, v5.2d
	st4	{ v20.4s, v21.4s, v22.4s, v23.4s }, [x10], #64
	b.ne	.Lluossavin.BB11_10
	cmp	x8, x9
	b.eq	.Lluossavin.BB11_24
.Lluossavin.BB11_12:
	mov	x10, v0.d[1]
	mvn	x11, x9
.Lluossavin.BB11_13:
	cmp	x10, x11
	sub	x11, x11, #1
	cset	w12, hi
	fmov	d1, x12
	add	x12, sp, #1056
	mov	v1.d[1], x9
	add	v1.2d, v0.2d, v1.2d
	ushr	v2.2d, v1.2d, #32
	zip2	v3.2d, v2.2d, v1.2d
	zip1	v1.2d, v2.2d, v1.2d
	uzp1	v1.4s, v1.4s, v3.4s
	rev32	v1.16b, v1.16b
	str	q1, [x12, x9, lsl #4]
	add	x9, x9, #1
	cmp	x8, x9
	b.ne	.Lluossavin.BB11_13
	b	.Lluossavin.BB11_24
.Lluossavin.BB11_14:
	movi	v6.4s, #4
	dup	v1.4s, v22.s[3]
	adrp	x11, .Lluossavin.CPI11_0
	dup	v3.4s, v0.s[1]
	fmov	s16, w8
	add	x10, x21, #1
	dup	v2.4s, v0.s[0]
	ldr	q7, [x11, :lo12:.Lluossavin.CPI11_0]
	add	x11, sp, #1056
	and	x9, x10, #0x1ffffffffffffff8
	add	x11, x11, #64
	and	x12, x10, #0x1ffffffffffffff8
	add	v6.4s, v1.4s, v6.4s
.Lluossavin.BB11_15:
	add	v17.4s, v7.4s, v6.4s
	add	v18.4s, v1.4s, v7.4s
	sub	x13, x11, #64
	movi	v21.4s, #8
	subs	x12, x12, #8
	rev32	v5.16b, v17.16b
	rev32	v20.16b, v18.16b
	dup	v4.4s, v16.s[0]
	mov	v17.16b, v2.16b
	mov	v18.16b, v3.16b
	add	v7.4s, v7.4s, v21.4s
	mov	v19.16b, v4.16b
	st4	{ v2.4s, v3.4s, v4.4s, v5.4s }, [x11]
	add	x11, x11, #128
	st4	{ v17.4s, v18.4s, v19.4s, v20.4s }, [x13]
	b.ne	.Lluossavin.BB11_15
	cmp	x10, x9
	b.eq	.Lluossavin.BB11_24
.Lluossavin.BB11_17:
	mov	w12, v22.s[3]
	add	x10, sp, #1056
	add	x11, x10, x9, lsl #4
	sub	x10, x21, x9
	add	x10, x10, #1
	orr	x11, x11, #0xc
	add	w9, w12, w9
.Lluossavin.BB11_18:
	rev	w12, w9
	stur	d0, [x11, #-12]
	subs	x10, x10, #1
	stp	w8, w12, [x11, #-4]
	add	x11, x11, #16
	add	w9, w9, #1
	b.ne	.Lluossavin.BB11_18
	b	.Lluossavin.BB11_24
.Lluossavin.BB11_19:
	and	x9, x21, #0xffffffffffffffc
	add	x10, sp, #1056
	and	x11, x21, #0xffffffffffffffc
	orr	x8, x9, #0x1
	add	x10, x10, #16
	mov	x12, x20
.Lluossavin.BB11_20:
	ldr	q0, [x12], #16
	subs	x11, x11, #1
	str	q0, [x10], #16
	b.ne	.Lluossavin.BB11_20
	cmp	x21, x9
	b.eq	.Lluossavin.BB11_24
.Lluossavin.BB11_22:
	lsl	x9, x8, #4
	sub	x8, x21, x8
	add	x10, sp, #1056
	add	x8, x8, #1
	add	x11, x9, x20
	add	x9, x10, x9
	sub	x10, x11, #16
.Lluossavin.BB11_23:
	ldr	q0, [x10], #16
	subs	x8, x8, #1
	str	q0, [x9], #16
	b.ne	.Lluossavin.BB11_23
.Lluossavin.BB11_24:
	add	x0, sp, #16
	mov	w1, wzr
	mov	w2, #1040
	add	x23, sp, #16
	bl	memset
	add	x1, x21, w22, uxtw
	add	x0, sp, #2096
	add	x2, sp, #1056
	add	x3, sp, #16
	add	x22, sp, #1056
	bl	"sixteen::encrypt"
	lsl	x8, x21, #4
	cbz	x21, .Lluossavin.BB11_36
	ldr	x9, [sp, #2288]
	sub	x10, x9, x20
	cmp	x10, #32
	b.hs	.Lluossavin.BB11_29
	mov	x10, xzr
.Lluossavin.BB11_27:
	add	x12, sp, #16
	sub	x11, x10, x8
	add	x9, x9, x10
	add	x12, x12, x10
	add	x10, x20, x10
.Lluossavin.BB11_28:
	ldrb	w13, [x12], #1
	adds	x11, x11, #1
	ldrb	w14, [x10], #1
	eor	w13, w14, w13
	strb	w13, [x9], #1
	b.lo	.Lluossavin.BB11_28
	b	.Lluossavin.BB11_36
.Lluossavin.BB11_29:
	cmp	x21, #1
	b.ne	.Lluossavin.BB11_33
	mov	x10, xzr
.Lluossavin.BB11_31:
	add	x12, sp, #16
	sub	x11, x10, x8
	add	x9, x9, x10
	add	x12, x12, x10
	add	x10, x20, x10
.Lluossavin.BB11_32:
	ldr	q0, [x12], #16
	adds	x11, x11, #16
	ldr	q1, [x10], #16
	eor	v0.16b, v1.16b, v0.16b
	str	q0, [x9], #16
	b.ne	.Lluossavin.BB11_32
	b	.Lluossavin.BB11_36
.Lluossavin.BB11_33:
	add	x12, sp, #16
	and	x10, x8, #0xffffffffffffffe0
	add	x11, x9, #16
	add	x12, x12, #16
	add	x13, x20, #16
	and	x14, x8, #0xffffffffffffffe0
.Lluossavin.BB11_34:
	ldp	q0, q3, [x13, #-16]
	subs	x14, x14, #32
	ldp	q1, q2, [x12, #-16]
	add	x12, x12, #32
	add	x13, x13, #32
	eor	v0.16b, v0.16b, v1.16b
	eor	v1.16b, v3.16b, v2.16b
	stp	q0, q1, [x11, #-16]
	add	x11, x11, #32
	b.ne	.Lluossavin.BB11_34
	cmp	x8, x10
	b.ne	.Lluossavin.BB11_37
.Lluossavin.BB11_36:
	ldr	q0, [x22, x8]
	ldr	q1, [x23, x8]
	rev32	v0.16b, v0.16b
	stp	q0, q1, [x19]
	add	sp, sp, #2224
	ldp	x20, x19, [sp, #48]
	ldp	x22, x21, [sp, #32]
	ldp	x24, x23, [sp, #16]
	ldp	x29, x30, [sp], #64
	ret
.Lluossavin.BB11_37:
	tbz	w21, #0, .Lluossavin.BB11_27
	b	.Lluossavin.BB11_31
.Lluossavin.func_end11:
	.size	"stream::few::few", .Lluossavin.func_end11-"stream::few::few"

	.section	".text.sixteen::encrypt","ax",@progbits
	.p2align	2
	.type	"sixteen::encrypt",@function
"sixteen::encrypt":
	cbz	x1, .Lluossavin.BB12_37
	stp	d15, d14, [sp, #-160]!
	stp	d13, d12, [sp, #16]
	stp	d11, d10, [sp, #32]
	stp	d9, d8, [sp, #48]
	stp	x29, x30, [sp, #64]
	stp	x28, x27, [sp, #80]
	stp	x26, x25, [sp, #96]
	stp	x24, x23, [sp, #112]
	stp	x22, x21, [sp, #128]
	stp	x20, x19, [sp, #144]
	sub	sp, sp, #1776
	str	xzr, [sp]
	mov	x22, x2
	mov	x21, x0
	stp	x3, x1, [sp, #16]
	add	x0, sp, #112
	mov	w1, wzr
	mov	w2, #1536
	add	x23, sp, #112
	bl	memset
	ldr	x15, [sp, #24]
	cmp	x15, #4
	b.hs	.Lluossavin.BB12_3
	mov	x8, xzr
	b	.Lluossavin.BB12_6
.Lluossavin.BB12_3:
	and	x8, x15, #0x1ffffffffffffffc
	add	x9, sp, #112
	mov	x10, x22
	and	x11, x15, #0x1ffffffffffffffc
.Lluossavin.BB12_4:
	ldp	q1, q0, [x10, #32]
	subs	x11, x11, #4
	ldp	q3, q2, [x10], #64
	rev32	v0.16b, v0.16b
	rev32	v1.16b, v1.16b
	rev32	v2.16b, v2.16b
	rev32	v3.16b, v3.16b
	zip1	v4.4s, v1.4s, v0.4s
	trn1	v7.4s, v1.4s, v0.4s
	zip2	v0.4s, v1.4s, v0.4s
	uzp2	v5.4s, v3.4s, v2.4s
	trn2	v6.4s, v3.4s, v2.4s
	zip2	v16.4s, v3.4s, v2.4s
	zip1	v2.4s, v3.4s, v2.4s
	ext	v17.16b, v1.16b, v4.16b, #8
	uzp2	v1.4s, v5.4s, v3.4s
	mov	v6.d[1], v4.d[1]
	mov	v16.d[1], v7.d[1]
	mov	v2.d[1], v17.d[1]
	mov	v1.d[1], v0.d[1]
	str	q6, [x9, #256]
	str	q16, [x9, #512]
	str	q2, [x9]
	str	q1, [x9, #768]
	add	x9, x9, #16
	b.ne	.Lluossavin.BB12_4
	cmp	x15, x8
	b.eq	.Lluossavin.BB12_8
.Lluossavin.BB12_6:
	add	x10, x22, x8, lsl #4
	add	x9, x23, x8, lsl #2
	sub	x8, x15, x8
	add	x10, x10, #8
.Lluossavin.BB12_7:
	ldp	w11, w12, [x10, #-8]
	ldp	w13, w14, [x10], #16
	subs	x8, x8, #1
	rev	w11, w11
	rev	w12, w12
	str	w11, [x9]
	rev	w11, w13
	str	w12, [x9, #256]
	rev	w12, w14
	str	w11, [x9, #512]
	str	w12, [x9, #768]
	add	x9, x9, #4
	b.ne	.Lluossavin.BB12_7
.Lluossavin.BB12_8:
	ldp	q0, q1, [x21, #64]
	add	x9, x15, #15
	lsr	x9, x9, #1
	adrp	x10, .Lluossavin.static.4
	add	x10, x10, :lo12:.Lluossavin.static.4
	add	x13, x15, #3
	add	x11, sp, #112
	mov	x12, xzr
	str	q0, [sp, #1712]
	ldp	q0, q2, [x21, #96]
	str	q1, [sp, #1728]
	and	x9, x9, #0x1ffffffffffffff8
	add	x8, x11, #1024
	ldr	x9, [x10, x9]
	and	x10, x13, #0x3ffffffffffffffc
	and	x13, x13, #0xfffffffffffffffc
	str	q0, [sp, #1744]
	ldp	q0, q1, [x21]
	str	q2, [sp, #1760]
	neg	x11, x13
	mov	w13, #3
	stp	x9, x8, [sp, #56]
	and	x8, x9, #0xfffffffffffffffe
	mov	w14, #1
	str	q0, [sp, #1648]
	ldp	q2, q0, [x21, #32]
	str	q1, [sp, #1664]
	str	x10, [sp, #48]
	str	q2, [sp, #1680]
	str	q0, [sp, #1696]
	stp	x8, x11, [sp, #32]
.Lluossavin.BB12_9:
	add	x16, sp, #1648
	ubfiz	x17, x12, #6, #2
	ubfiz	x15, x12, #8, #2
	add	x18, x16, x12, lsl #2
	add	x1, sp, #112
	mov	x2, x10
	eor	x0, x17, #0x80
	ubfiz	x17, x13, #8, #2
	ld1r	{ v0.4s }, [x18]
	ubfiz	x18, x14, #8, #2
	lsl	x0, x0, #2
.Lluossavin.BB12_10:
	ldr	q1, [x1, x18]
	ldr	q2, [x1, x0]
	subs	x2, x2, #4
	ldr	q3, [x1, x17]
	eor	v1.16b, v1.16b, v0.16b
	eor	v2.16b, v2.16b, v3.16b
	eor	v1.16b, v1.16b, v2.16b
	str	q1, [x1, #1024]
	add	x1, x1, #16
	b.ne	.Lluossavin.BB12_10
	mov	x18, x9
	cbz	x9, .Lluossavin.BB12_21
	cmp	x9, #1
	b.ne	.Lluossavin.BB12_14
	mov	x18, xzr
	b	.Lluossavin.BB12_18
.Lluossavin.BB12_14:
	ldr	x17, [sp, #64]
	and	x18, x9, #0xfffffffffffffffe
.Lluossavin.BB12_15:
	ldp	d1, d5, [x17]
	add	x0, x17, #64
	ldp	d2, d6, [x17, #16]
	add	x1, x17, #72
	ldp	d4, d7, [x17, #32]
	movi	v0.16b, #85
	ld1	{ v1.d }[1], [x0]
	add	x0, x17, #80
	ld1	{ v5.d }[1], [x1]
	add	x1, x17, #96
	ldp	d3, d17, [x17, #48]
	ld1	{ v4.d }[1], [x1]
	ld1	{ v2.d }[1], [x0]
	add	x0, x17, #112
	ushr	v16.2d, v1.2d, #1
	add	x1, x17, #104
	subs	x18, x18, #2
	ld1	{ v3.d }[1], [x0]
	add	x0, x17, #88
	ld1	{ v7.d }[1], [x1]
	ushr	v18.2d, v4.2d, #1
	ld1	{ v6.d }[1], [x0]
	ushr	v19.2d, v2.2d, #1
	eor	v16.16b, v16.16b, v5.16b
	add	x0, x17, #120
	ld1	{ v17.d }[1], [x0]
	ushr	v20.2d, v3.2d, #1
	eor	v18.16b, v18.16b, v7.16b
	eor	v19.16b, v19.16b, v6.16b
	and	v16.16b, v16.16b, v0.16b
	eor	v20.16b, v20.16b, v17.16b
	and	v18.16b, v18.16b, v0.16b
	and	v19.16b, v19.16b, v0.16b
	add	v21.2d, v16.2d, v16.2d
	eor	v16.16b, v16.16b, v5.16b
	and	v20.16b, v20.16b, v0.16b
	add	v22.2d, v18.2d, v18.2d
	add	v23.2d, v19.2d, v19.2d
	eor	v19.16b, v19.16b, v6.16b
	eor	v5.16b, v21.16b, v1.16b
	eor	v6.16b, v18.16b, v7.16b
	ushr	v7.2d, v16.2d, #2
	add	v18.2d, v20.2d, v20.2d
	movi	v1.16b, #51
	eor	v17.16b, v20.16b, v17.16b
	eor	v4.16b, v22.16b, v4.16b
	eor	v2.16b, v23.16b, v2.16b
	ushr	v21.2d, v5.2d, #2
	ushr	v20.2d, v6.2d, #2
	eor	v7.16b, v19.16b, v7.16b
	eor	v3.16b, v18.16b, v3.16b
	ushr	v18.2d, v4.2d, #2
	eor	v21.16b, v2.16b, v21.16b
	eor	v20.16b, v17.16b, v20.16b
	and	v7.16b, v7.16b, v1.16b
	eor	v18.16b, v3.16b, v18.16b
	and	v21.16b, v21.16b, v1.16b
	and	v20.16b, v20.16b, v1.16b
	shl	v22.2d, v7.2d, #2
	eor	v7.16b, v7.16b, v19.16b
	and	v18.16b, v18.16b, v1.16b
	shl	v19.2d, v21.2d, #2
	shl	v23.2d, v20.2d, #2
	eor	v21.16b, v21.16b, v2.16b
	eor	v16.16b, v22.16b, v16.16b
	eor	v17.16b, v20.16b, v17.16b
	movi	v2.16b, #15
	shl	v20.2d, v18.2d, #2
	eor	v3.16b, v18.16b, v3.16b
	ushr	v18.2d, v7.2d, #4
	eor	v5.16b, v19.16b, v5.16b
	eor	v6.16b, v23.16b, v6.16b
	ushr	v22.2d, v21.2d, #4
	ushr	v19.2d, v16.2d, #4
	eor	v4.16b, v20.16b, v4.16b
	eor	v18.16b, v17.16b, v18.16b
	ushr	v20.2d, v5.2d, #4
	eor	v22.16b, v3.16b, v22.16b
	eor	v19.16b, v6.16b, v19.16b
	and	v18.16b, v18.16b, v2.16b
	eor	v20.16b, v4.16b, v20.16b
	and	v22.16b, v22.16b, v2.16b
	and	v19.16b, v19.16b, v2.16b
	shl	v24.2d, v18.2d, #4
	eor	v23.16b, v18.16b, v17.16b
	and	v20.16b, v20.16b, v2.16b
	shl	v26.2d, v22.2d, #4
	shl	v25.2d, v19.2d, #4
	eor	v18.16b, v19.16b, v6.16b
	eor	v19.16b, v22.16b, v3.16b
	eor	v7.16b, v24.16b, v7.16b
	shl	v6.2d, v20.2d, #4
	eor	v17.16b, v20.16b, v4.16b
	eor	v22.16b, v26.16b, v21.16b
	eor	v3.16b, v25.16b, v16.16b
	eor	v24.16b, v18.16b, v7.16b
	eor	v4.16b, v6.16b, v5.16b
	eor	v25.16b, v17.16b, v23.16b
	eor	v6.16b, v22.16b, v19.16b
	eor	v5.16b, v3.16b, v18.16b
	eor	v27.16b, v17.16b, v22.16b
	eor	v17.16b, v3.16b, v7.16b
	eor	v16.16b, v24.16b, v23.16b
	eor	v28.16b, v19.16b, v24.16b
	eor	v29.16b, v25.16b, v4.16b
	eor	v20.16b, v4.16b, v24.16b
	eor	v19.16b, v6.16b, v3.16b
	eor	v21.16b, v25.16b, v5.16b
	eor	v17.16b, v17.16b, v27.16b
	eor	v26.16b, v25.16b, v18.16b
	eor	v18.16b, v5.16b, v4.16b
	bic	v30.16b, v6.16b, v16.16b
	bic	v31.16b, v24.16b, v4.16b
	eor	v8.16b, v22.16b, v16.16b
	and	v9.16b, v4.16b, v24.16b
	eor	v7.16b, v29.16b, v7.16b
	eor	v24.16b, v29.16b, v22.16b
	eor	v22.16b, v20.16b, v6.16b
	eor	v23.16b, v20.16b, v23.16b
	eor	v25.16b, v20.16b, v27.16b
	and	v27.16b, v26.16b, v18.16b
	and	v10.16b, v21.16b, v17.16b
	eor	v8.16b, v8.16b, v30.16b
	eor	v31.16b, v31.16b, v3.16b
	eor	v11.16b, v7.16b, v19.16b
	eor	v12.16b, v24.16b, v5.16b
	bic	v13.16b, v19.16b, v24.16b
	bic	v14.16b, v7.16b, v5.16b
	and	v15.16b, v23.16b, v22.16b
	eor	v28.16b, v28.16b, v30.16b
	and	v30.16b, v25.16b, v3.16b
	eor	v27.16b, v31.16b, v27.16b
	and	v31.16b, v12.16b, v11.16b
	eor	v8.16b, v8.16b, v13.16b
	eor	v9.16b, v9.16b, v14.16b
	eor	v13.16b, v15.16b, v10.16b
	eor	v28.16b, v28.16b, v30.16b
	eor	v27.16b, v27.16b, v29.16b
	eor	v30.16b, v31.16b, v10.16b
	eor	v29.16b, v8.16b, v13.16b
	eor	v31.16b, v9.16b, v13.16b
	eor	v28.16b, v28.16b, v30.16b
	eor	v27.16b, v27.16b, v30.16b
	mvn	v8.16b, v31.16b
	bic	v30.16b, v29.16b, v31.16b
	eor	v29.16b, v29.16b, v28.16b
	eor	v31.16b, v27.16b, v8.16b
	eor	v9.16b, v30.16b, v28.16b
	and	v31.16b, v9.16b, v31.16b
	eor	v9.16b, v30.16b, v27.16b
	eor	v30.16b, v31.16b, v30.16b
	and	v10.16b, v9.16b, v29.16b
	eor	v31.16b, v31.16b, v27.16b
	and	v30.16b, v30.16b, v27.16b
	eor	v28.16b, v10.16b, v28.16b
	and	v25.16b, v31.16b, v25.16b
	and	v3.16b, v31.16b, v3.16b
	eor	v9.16b, v30.16b, v9.16b
	eor	v30.16b, v30.16b, v8.16b
	and	v13.16b, v28.16b, v26.16b
	and	v18.16b, v28.16b, v18.16b
	and	v27.16b, v9.16b, v28.16b
	eor	v8.16b, v30.16b, v31.16b
	eor	v9.16b, v28.16b, v31.16b
	bic	v16.16b, v30.16b, v16.16b
	eor	v27.16b, v27.16b, v29.16b
	and	v21.16b, v9.16b, v21.16b
	bic	v24.16b, v8.16b, v24.16b
	and	v19.16b, v8.16b, v19.16b
	and	v17.16b, v9.16b, v17.16b
	eor	v29.16b, v27.16b, v8.16b
	eor	v10.16b, v27.16b, v28.16b
	bic	v5.16b, v27.16b, v5.16b
	eor	v18.16b, v17.16b, v18.16b
	and	v7.16b, v27.16b, v7.16b
	and	v26.16b, v29.16b, v11.16b
	and	v11.16b, v29.16b, v12.16b
	eor	v29.16b, v29.16b, v9.16b
	and	v12.16b, v30.16b, v6.16b
	and	v20.16b, v10.16b, v20.16b
	bic	v4.16b, v10.16b, v4.16b
	eor	v5.16b, v5.16b, v16.16b
	eor	v16.16b, v17.16b, v16.16b
	eor	v6.16b, v26.16b, v13.16b
	and	v22.16b, v29.16b, v22.16b
	and	v23.16b, v29.16b, v23.16b
	eor	v29.16b, v20.16b, v12.16b
	eor	v20.16b, v20.16b, v21.16b
	eor	v21.16b, v11.16b, v25.16b
	eor	v5.16b, v5.16b, v4.16b
	eor	v18.16b, v18.16b, v11.16b
	eor	v3.16b, v3.16b, v26.16b
	eor	v24.16b, v6.16b, v24.16b
	eor	v16.16b, v16.16b, v23.16b
	eor	v19.16b, v29.16b, v19.16b
	eor	v21.16b, v21.16b, v23.16b
	eor	v4.16b, v18.16b, v4.16b
	eor	v3.16b, v3.16b, v29.16b
	eor	v20.16b, v20.16b, v24.16b
	eor	v24.16b, v24.16b, v22.16b
	eor	v17.16b, v24.16b, v19.16b
	eor	v24.16b, v20.16b, v21.16b
	eor	v19.16b, v19.16b, v7.16b
	eor	v21.16b, v21.16b, v5.16b
	eor	v20.16b, v5.16b, v20.16b
	eor	v7.16b, v22.16b, v7.16b
	eor	v5.16b, v5.16b, v17.16b
	mvn	v23.16b, v24.16b
	eor	v16.16b, v17.16b, v16.16b
	eor	v18.16b, v21.16b, v19.16b
	mvn	v17.16b, v20.16b
	eor	v6.16b, v7.16b, v6.16b
	eor	v3.16b, v3.16b, v7.16b
	eor	v4.16b, v4.16b, v19.16b
	mvn	v5.16b, v5.16b
	ushr	v20.2d, v23.2d, #1
	mvn	v16.16b, v16.16b
	ushr	v7.2d, v18.2d, #1
	ushr	v19.2d, v17.2d, #1
	mvn	v3.16b, v3.16b
	eor	v20.16b, v20.16b, v5.16b
	ushr	v21.2d, v16.2d, #1
	eor	v7.16b, v7.16b, v6.16b
	eor	v19.16b, v19.16b, v4.16b
	and	v20.16b, v20.16b, v0.16b
	eor	v21.16b, v21.16b, v3.16b
	and	v7.16b, v7.16b, v0.16b
	and	v19.16b, v19.16b, v0.16b
	add	v22.2d, v20.2d, v20.2d
	and	v0.16b, v21.16b, v0.16b
	eor	v5.16b, v20.16b, v5.16b
	add	v21.2d, v7.2d, v7.2d
	eor	v6.16b, v7.16b, v6.16b
	eor	v4.16b, v19.16b, v4.16b
	eor	v20.16b, v22.16b, v23.16b
	add	v22.2d, v19.2d, v19.2d
	ushr	v19.2d, v5.2d, #2
	eor	v7.16b, v21.16b, v18.16b
	add	v18.2d, v0.2d, v0.2d
	eor	v0.16b, v0.16b, v3.16b
	ushr	v3.2d, v4.2d, #2
	eor	v17.16b, v22.16b, v17.16b
	ushr	v21.2d, v20.2d, #2
	eor	v16.16b, v18.16b, v16.16b
	eor	v18.16b, v19.16b, v6.16b
	eor	v3.16b, v0.16b, v3.16b
	ushr	v19.2d, v17.2d, #2
	eor	v21.16b, v21.16b, v7.16b
	and	v18.16b, v18.16b, v1.16b
	and	v3.16b, v3.16b, v1.16b
	eor	v19.16b, v16.16b, v19.16b
	and	v21.16b, v21.16b, v1.16b
	shl	v22.2d, v18.2d, #2
	eor	v6.16b, v18.16b, v6.16b
	eor	v0.16b, v3.16b, v0.16b
	shl	v3.2d, v3.2d, #2
	and	v1.16b, v19.16b, v1.16b
	shl	v19.2d, v21.2d, #2
	eor	v7.16b, v21.16b, v7.16b
	eor	v5.16b, v22.16b, v5.16b
	eor	v3.16b, v3.16b, v4.16b
	shl	v18.2d, v1.2d, #2
	eor	v19.16b, v19.16b, v20.16b
	eor	v1.16b, v1.16b, v16.16b
	ushr	v16.2d, v6.2d, #4
	ushr	v20.2d, v7.2d, #4
	eor	v4.16b, v18.16b, v17.16b
	ushr	v17.2d, v5.2d, #4
	ushr	v18.2d, v19.2d, #4
	eor	v16.16b, v0.16b, v16.16b
	eor	v20.16b, v1.16b, v20.16b
	eor	v17.16b, v3.16b, v17.16b
	eor	v18.16b, v4.16b, v18.16b
	and	v16.16b, v16.16b, v2.16b
	and	v20.16b, v20.16b, v2.16b
	and	v17.16b, v17.16b, v2.16b
	and	v2.16b, v18.16b, v2.16b
	eor	v0.16b, v16.16b, v0.16b
	eor	v1.16b, v20.16b, v1.16b
	shl	v16.2d, v16.2d, #4
	shl	v18.2d, v20.2d, #4
	eor	v3.16b, v17.16b, v3.16b
	eor	v4.16b, v2.16b, v4.16b
	shl	v17.2d, v17.2d, #4
	shl	v2.2d, v2.2d, #4
	zip1	v20.2d, v1.2d, v0.2d
	zip2	v0.2d, v1.2d, v0.2d
	eor	v6.16b, v16.16b, v6.16b
	eor	v7.16b, v18.16b, v7.16b
	zip2	v1.2d, v4.2d, v3.2d
	eor	v5.16b, v17.16b, v5.16b
	zip1	v3.2d, v4.2d, v3.2d
	eor	v2.16b, v2.16b, v19.16b
	zip1	v4.2d, v7.2d, v6.2d
	zip2	v6.2d, v7.2d, v6.2d
	stp	q3, q20, [x17, #288]
	stp	q1, q0, [x17, #352]
	zip2	v0.2d, v2.2d, v5.2d
	zip1	v1.2d, v2.2d, v5.2d
	stp	q1, q4, [x17, #256]
	stp	q0, q6, [x17, #320]
	add	x17, x17, #128
	b.ne	.Lluossavin.BB12_15
	ldr	x8, [sp, #32]
	and	x18, x9, #0xfffffffffffffffe
	cmp	x9, x8
	b.ne	.Lluossavin.BB12_18
	mov	x18, xzr
	b	.Lluossavin.BB12_21
.Lluossavin.BB12_18:
	ldr	x8, [sp, #64]
	sub	x10, x9, x18
	stp	x15, x14, [sp, #72]
	stp	x13, x12, [sp, #88]
	add	x17, x8, x18, lsl #6
.Lluossavin.BB12_19:
	ldp	x0, x1, [x17]
	str	x10, [sp, #104]
	ldp	x2, x3, [x17, #16]
	ldp	x4, x5, [x17, #32]
	ldp	x6, x7, [x17, #48]
	eor	x21, x1, x0, lsr #1
	eor	x22, x3, x2, lsr #1
	eor	x23, x5, x4, lsr #1
	and	x21, x21, #0x5555555555555555
	eor	x24, x7, x6, lsr #1
	and	x22, x22, #0x5555555555555555
	eor	x0, x0, x21, lsl #1
	and	x23, x23, #0x5555555555555555
	eor	x2, x2, x22, lsl #1
	eor	x1, x21, x1
	and	x24, x24, #0x5555555555555555
	eor	x4, x4, x23, lsl #1
	eor	x5, x23, x5
	eor	x6, x6, x24, lsl #1
	eor	x21, x2, x0, lsr #2
	eor	x3, x22, x3
	eor	x7, x24, x7
	eor	x22, x3, x1, lsr #2
	eor	x23, x6, x4, lsr #2
	eor	x24, x7, x5, lsr #2
	and	x21, x21, #0x3333333333333333
	eor	x0, x0, x21, lsl #2
	and	x22, x22, #0x3333333333333333
	eor	x2, x21, x2
	and	x23, x23, #0x3333333333333333
	and	x24, x24, #0x3333333333333333
	eor	x1, x1, x22, lsl #2
	eor	x4, x4, x23, lsl #2
	eor	x5, x5, x24, lsl #2
	eor	x3, x22, x3
	eor	x7, x24, x7
	eor	x6, x23, x6
	eor	x22, x4, x0, lsr #4
	eor	x23, x7, x3, lsr #4
	eor	x24, x6, x2, lsr #4
	eor	x21, x5, x1, lsr #4
	and	x22, x22, #0xf0f0f0f0f0f0f0f
	eor	x0, x0, x22, lsl #4
	eor	x22, x22, x4
	and	x4, x23, #0xf0f0f0f0f0f0f0f
	and	x23, x24, #0xf0f0f0f0f0f0f0f
	and	x21, x21, #0xf0f0f0f0f0f0f0f
	eor	x25, x3, x4, lsl #4
	eor	x28, x4, x7
	eor	x20, x2, x23, lsl #4
	eor	x1, x1, x21, lsl #4
	eor	x30, x21, x5
	eor	x12, x22, x28
	eor	x19, x23, x6
	eor	x11, x30, x25
	eor	x13, x12, x0
	eor	x23, x20, x19
	eor	x4, x0, x11
	eor	x2, x1, x30
	eor	x21, x13, x25
	eor	x22, x22, x20
	eor	x3, x11, x28
	eor	x27, x23, x1
	eor	x5, x13, x20
	eor	x25, x1, x25
	eor	x6, x4, x22
	eor	x24, x4, x23
	eor	x26, x12, x2
	eor	x29, x21, x27
	eor	x7, x5, x2
	eor	x22, x25, x22
	eor	x30, x12, x30
	eor	x25, x4, x28
	bic	x12, x23, x3
	eor	x20, x20, x3
	eor	x28, x2, x0
	bic	x10, x27, x5
	bic	x14, x11, x0
	and	x8, x26, x22
	and	x16, x25, x24
	eor	x20, x20, x12
	and	x18, x7, x29
	bic	x15, x21, x2
	eor	x16, x16, x8
	eor	x10, x20, x10
	and	x20, x30, x28
	eor	x8, x18, x8
	eor	x18, x19, x11
	and	x11, x0, x11
	eor	x14, x14, x1
	and	x9, x6, x1
	eor	x12, x18, x12
	eor	x11, x11, x15
	eor	x14, x14, x20
	eor	x10, x10, x16
	eor	x9, x12, x9
	eor	x11, x11, x16
	eor	x12, x14, x13
	eor	x9, x9, x8
	eor	x8, x12, x8
	bic	x12, x10, x11
	eor	x10, x10, x9
	eon	x13, x11, x8
	eor	x14, x12, x9
	and	x13, x14, x13
	eor	x14, x12, x8
	eor	x12, x13, x12
	and	x15, x14, x10
	and	x12, x12, x8
	eor	x9, x15, x9
	eor	x8, x13, x8
	eor	x14, x12, x14
	eon	x11, x11, x12
	and	x1, x8, x1
	and	x12, x14, x9
	eor	x13, x11, x8
	eor	x14, x9, x8
	eor	x10, x12, x10
	and	x18, x11, x23
	and	x23, x14, x26
	eor	x12, x10, x13
	eor	x15, x10, x9
	and	x20, x10, x21
	and	x21, x9, x30
	and	x26, x12, x29
	eor	x16, x12, x14
	and	x19, x13, x27
	and	x4, x15, x4
	bic	x11, x11, x3
	bic	x13, x13, x5
	and	x8, x8, x6
	bic	x15, x15, x0
	bic	x10, x10, x2
	and	x9, x9, x28
	and	x14, x14, x22
	and	x12, x12, x7
	eor	x0, x26, x21
	and	x24, x16, x24
	and	x16, x16, x25
	eor	x18, x4, x18
	eor	x13, x0, x13
	eor	x10, x10, x11
	eor	x8, x12, x8
	eor	x9, x14, x9
	eor	x2, x18, x19
	eor	x10, x10, x15
	eor	x5, x13, x24
	eor	x4, x4, x23
	eor	x6, x24, x20
	eor	x8, x8, x16
	eor	x9, x9, x12
	eor	x3, x2, x20
	eor	x13, x4, x13
	eor	x2, x5, x2
	eor	x12, x6, x0
	eor	x9, x9, x15
	eor	x15, x1, x26
	eor	x0, x8, x10
	eor	x11, x14, x11
	eor	x15, x15, x18
	eor	x18, x0, x3
	eor	x11, x2, x11
	eor	x14, x10, x2
	eon	x0, x13, x8
	eor	x9, x9, x3
	eor	x15, x15, x6
	eor	x1, x11, x16
	eon	x11, x11, x16
	eon	x16, x14, x0, lsr #1
	eon	x0, x10, x13
	eor	x2, x12, x18, lsr #1
	eor	x0, x9, x0, lsr #1
	eon	x11, x15, x11, lsr #1
	eor	x8, x13, x8
	and	x16, x16, #0x5555555555555555
	eor	x10, x10, x13
	and	x13, x2, #0x5555555555555555
	and	x0, x0, #0x5555555555555555
	and	x11, x11, #0x5555555555555555
	eon	x8, x8, x16, lsl #1
	eor	x18, x18, x13, lsl #1
	eon	x10, x10, x0, lsl #1
	eon	x1, x1, x11, lsl #1
	eon	x14, x14, x16
	eor	x12, x13, x12
	eor	x9, x0, x9
	eon	x11, x15, x11
	eor	x13, x18, x8, lsr #2
	eor	x15, x1, x10, lsr #2
	eor	x16, x12, x14, lsr #2
	eor	x0, x11, x9, lsr #2
	and	x13, x13, #0x3333333333333333
	and	x15, x15, #0x3333333333333333
	and	x16, x16, #0x3333333333333333
	and	x0, x0, #0x3333333333333333
	eor	x8, x8, x13, lsl #2
	eor	x10, x10, x15, lsl #2
	eor	x14, x14, x16, lsl #2
	eor	x9, x9, x0, lsl #2
	eor	x13, x13, x18
	eor	x12, x16, x12
	eor	x15, x15, x1
	eor	x18, x10, x8, lsr #4
	eor	x16, x9, x14, lsr #4
	eor	x11, x0, x11
	eor	x0, x15, x13, lsr #4
	eor	x1, x11, x12, lsr #4
	and	x18, x18, #0xf0f0f0f0f0f0f0f
	and	x16, x16, #0xf0f0f0f0f0f0f0f
	eor	x8, x8, x18, lsl #4
	eor	x14, x14, x16, lsl #4
	and	x0, x0, #0xf0f0f0f0f0f0f0f
	and	x1, x1, #0xf0f0f0f0f0f0f0f
	eor	x13, x13, x0, lsl #4
	eor	x10, x18, x10
	stp	x8, x14, [x17, #256]
	eor	x8, x12, x1, lsl #4
	stp	x13, x8, [x17, #272]
	eor	x8, x16, x9
	eor	x9, x0, x15
	stp	x10, x8, [x17, #288]
	ldr	x10, [sp, #104]
	eor	x8, x1, x11
	stp	x9, x8, [x17, #304]
	add	x17, x17, #64
	subs	x10, x10, #1
	b.ne	.Lluossavin.BB12_19
	ldp	x13, x12, [sp, #88]
	mov	x18, xzr
	ldp	x10, x9, [sp, #48]
	ldr	x11, [sp, #40]
	ldp	x15, x14, [sp, #72]
.Lluossavin.BB12_21:
	add	x8, sp, #112
	add	x17, x8, x18, lsl #2
	add	x18, x11, x18
.Lluossavin.BB12_22:
	ldr	q0, [x17, #1280]
	adds	x18, x18, #4
	shl	v1.4s, v0.4s, #2
	shl	v2.4s, v0.4s, #10
	shl	v3.4s, v0.4s, #18
	shl	v4.4s, v0.4s, #24
	usra	v1.4s, v0.4s, #30
	usra	v2.4s, v0.4s, #22
	usra	v3.4s, v0.4s, #14
	usra	v4.4s, v0.4s, #8
	eor	v1.16b, v2.16b, v1.16b
	eor	v2.16b, v3.16b, v4.16b
	ldr	q3, [x17, x15]
	eor	v0.16b, v3.16b, v0.16b
	eor	v1.16b, v1.16b, v2.16b
	eor	v0.16b, v1.16b, v0.16b
	str	q0, [x17, x15]
	add	x17, x17, #16
	b.ne	.Lluossavin.BB12_22
	add	x12, x12, #1
	add	w13, w13, #1
	add	w14, w14, #1
	cmp	x12, #32
	b.ne	.Lluossavin.BB12_9
	ldr	x13, [sp, #24]
	cmp	x13, #12
	b.hs	.Lluossavin.BB12_26
	ldr	x14, [sp, #16]
	mov	x8, xzr
	b	.Lluossavin.BB12_34
.Lluossavin.BB12_26:
	sub	x9, x13, #1
	ldr	x14, [sp, #16]
	lsl	x10, x9, #4
	add	x8, x14, #12
	add	x11, x8, x10
	cmp	x11, x8
	mov	x8, xzr
	b.lo	.Lluossavin.BB12_34
	add	x11, x14, #8
	add	x12, x11, x10
	cmp	x12, x11
	b.lo	.Lluossavin.BB12_34
	add	x11, x14, x10
	cmp	x11, x14
	b.lo	.Lluossavin.BB12_34
	add	x11, x14, #4
	add	x10, x11, x10
	cmp	x10, x11
	b.lo	.Lluossavin.BB12_34
	lsr	x9, x9, #60
	cbnz	x9, .Lluossavin.BB12_34
	and	x8, x13, #0x1ffffffffffffffc
	add	x9, sp, #112
	mov	x10, x14
	and	x11, x13, #0x1ffffffffffffffc
.Lluossavin.BB12_32:
	ldr	q0, [x9, #512]
	ldr	q1, [x9, #768]
	subs	x11, x11, #4
	rev32	v3.16b, v0.16b
	ldr	q0, [x9]
	rev32	v2.16b, v1.16b
	ldr	q1, [x9, #256]
	add	x9, x9, #16
	rev32	v5.16b, v0.16b
	rev32	v4.16b, v1.16b
	st4	{ v2.4s, v3.4s, v4.4s, v5.4s }, [x10], #64
	b.ne	.Lluossavin.BB12_32
	cmp	x13, x8
	b.eq	.Lluossavin.BB12_36
.Lluossavin.BB12_34:
	add	x9, sp, #112
	add	x10, x14, x8, lsl #4
	add	x9, x9, x8, lsl #2
	sub	x8, x13, x8
	add	x10, x10, #8
.Lluossavin.BB12_35:
	ldr	w11, [x9, #768]
	ldr	w12, [x9, #512]
	subs	x8, x8, #1
	ldr	w13, [x9, #256]
	ldr	w14, [x9], #4
	rev	w11, w11
	rev	w12, w12
	stp	w11, w12, [x10, #-8]
	rev	w11, w13
	rev	w12, w14
	stp	w11, w12, [x10], #16
	b.ne	.Lluossavin.BB12_35
.Lluossavin.BB12_36:
	add	sp, sp, #1776
	ldp	x20, x19, [sp, #144]
	ldp	x22, x21, [sp, #128]
	ldp	x24, x23, [sp, #112]
	ldp	x26, x25, [sp, #96]
	ldp	x28, x27, [sp, #80]
	ldp	x29, x30, [sp, #64]
	ldp	d9, d8, [sp, #48]
	ldp	d11, d10, [sp, #32]
	ldp	d13, d12, [sp, #16]
	ldp	d15, d14, [sp], #160
.Lluossavin.BB12_37:
	ret
.Lluossavin.func_end12:
	.size	"sixteen::encrypt", .Lluossavin.func_end12-"sixteen::encrypt"

	.section	.rodata.cst16,"aM",@progbits,16
	.p2align	4, 0x0
.Lluossavin.CPI13_0:
	.word	286331153
	.word	572662306
	.word	1145324612
	.word	2290649224
	.section	".text.ghash::Ghash::absorb_all","ax",@progbits
	.p2align	2
	.type	"ghash::Ghash::absorb_all",@function
"ghash::Ghash::absorb_all":
	stp	x29, x30, [sp, #-96]!
	stp	x28, x27, [sp, #16]
	stp	x26, x25, [sp, #32]
	stp	x24, x23, [sp, #48]
	stp	x22, x21, [sp, #64]
	stp	x20, x19, [sp, #80]
	sub	sp, sp, #1648
	str	xzr, [sp]
	movi	v0.2d, #0000000000000000
	mov	x21, x3
	ldp	q1, q2, [x1]
	mov	x20, x2
	mov	x19, x0
	cmp	x3, #255
	stp	q0, q0, [sp, #80]
	stp	q1, q2, [sp, #112]
	b.hi	.Lluossavin.BB13_2
	add	x0, sp, #80
	add	x1, sp, #112
	mov	x2, x20
	mov	x3, x21
	bl	"ghash::Ghash::absorb_each"
	b	.Lluossavin.BB13_18
.Lluossavin.BB13_2:
	ldp	x6, x25, [sp, #112]
	cmp	x21, #1024
	stp	q0, q0, [sp, #144]
	stp	q0, q0, [sp, #592]
	lsr	x22, x6, #32
	lsr	x9, x25, #32
	str	x19, [sp, #64]
	and	x8, x22, #0x1111111111111111
	stp	x9, x6, [sp, #48]
	and	x7, x22, #0x2222222222222222
	mul	x12, x8, x8
	and	x8, x22, #0x4444444444444444
	str	x22, [sp, #40]
	mul	x13, x8, x8
	and	x8, x9, #0x1111111111111111
	mul	x14, x8, x8
	and	x8, x9, #0x4444444444444444
	mul	x15, x8, x8
	and	x8, x9, #0x2222222222222222
	eor	x12, x12, x13
	mul	x16, x8, x8
	and	x8, x9, #0x8888888888888888
	mov	w9, #286331153
	and	x10, x6, x9
	and	x0, x25, x9
	and	x12, x12, #0x1111111111111111
	mul	x17, x8, x8
	mov	w8, #1145324612
	and	x11, x6, x8
	and	x2, x25, x8
	eor	x15, x14, x15
	umull	x18, w10, w10
	mov	w10, #572662306
	and	x15, x15, #0x1111111111111111
	umull	x1, w11, w11
	mov	w11, #-2004318072
	and	x3, x25, x10
	and	x4, x25, x11
	umull	x0, w0, w0
	and	x5, x6, x10
	umull	x2, w2, w2
	and	x6, x6, x11
	eor	x16, x16, x17
	umull	x3, w3, w3
	eor	x18, x18, x1
	and	x16, x16, #0x4444444444444444
	umull	x4, w4, w4
	and	x18, x18, #0x1111111111111111
	orr	x15, x15, x16
	umull	x5, w5, w5
	eor	x2, x0, x2
	umull	x6, w6, w6
	and	x2, x2, #0x1111111111111111
	eor	x3, x3, x4
	mul	x4, x7, x7
	and	x7, x22, #0x8888888888888888
	and	x3, x3, #0x4444444444444444
	orr	x1, x2, x3
	mul	x2, x7, x7
	eor	x3, x5, x6
	lsl	x5, x1, #58
	and	x3, x3, #0x4444444444444444
	orr	x13, x18, x3
	orr	x17, x5, x0, lsl #63
	orr	x13, x1, x13, lsl #1
	eor	x16, x4, x2
	eor	x18, x17, x15, lsl #1
	eor	x13, x13, x14, lsl #63
	and	x16, x16, #0x4444444444444444
	lsl	x14, x15, #58
	orr	x12, x12, x16
	lsr	x16, x18, #1
	eor	x13, x13, x1, lsr #1
	eor	x12, x15, x12
	eor	x12, x16, x12, lsl #1
	eor	x16, x13, x1, lsr #6
	orr	x13, x14, x1, lsl #1
	eor	x12, x12, x18, lsr #2
	and	x1, x16, x9
	umull	x1, w1, w1
	eor	x12, x12, x18, lsr #7
	eor	x18, x16, x13
	and	x16, x16, x8
	lsr	x14, x18, #32
	and	x2, x18, x10
	and	x18, x18, x11
	umull	x16, w16, w16
	eor	x13, x12, x17
	and	x15, x14, #0x1111111111111111
	and	x0, x14, #0x4444444444444444
	umull	x2, w2, w2
	umull	x18, w18, w18
	and	x3, x14, #0x2222222222222222
	and	x14, x14, #0x8888888888888888
	mul	x15, x15, x15
	eor	x16, x1, x16
	lsr	x13, x13, #32
	and	x16, x16, #0x1111111111111111
	mul	x0, x0, x0
	eor	x18, x2, x18
	and	x4, x13, #0x4444444444444444
	and	x18, x18, #0x4444444444444444
	and	x17, x13, #0x1111111111111111
	mul	x3, x3, x3
	orr	x16, x18, x16
	mul	x14, x14, x14
	eor	x18, x15, x0
	lsl	x0, x16, #58
	extr	x15, x15, x16, #1
	mul	x2, x4, x4
	and	x4, x13, #0x2222222222222222
	and	x13, x13, #0x8888888888888888
	and	x18, x18, #0x1111111111111111
	orr	x0, x0, x1, lsl #63
	orr	x15, x15, x16, lsr #6
	mul	x17, x17, x17
	eor	x14, x3, x14
	and	x14, x14, #0x4444444444444444
	mul	x4, x4, x4
	orr	x18, x18, x14
	mul	x13, x13, x13
	eor	x14, x0, x18, lsl #1
	eor	x17, x17, x2
	and	x2, x12, x8
	lsr	x1, x14, #2
	and	x17, x17, #0x1111111111111111
	umull	x2, w2, w2
	eor	x1, x1, x14, lsr #1
	eor	x13, x4, x13
	and	x13, x13, #0x4444444444444444
	eor	x14, x1, x14, lsr #7
	and	x1, x12, x10
	orr	x13, x17, x13
	and	x17, x12, x9
	and	x12, x12, x11
	eor	x13, x13, x18
	umull	x17, w17, w17
	lsl	x18, x18, #58
	eor	x13, x14, x13, lsl #1
	umull	x1, w1, w1
	umull	x12, w12, w12
	eor	x0, x13, x0
	eor	x17, x17, x2
	lsr	x0, x0, #32
	and	x17, x17, #0x1111111111111111
	eor	x12, x1, x12
	and	x12, x12, #0x4444444444444444
	and	x1, x0, #0x1111111111111111
	orr	x17, x17, x12
	mul	x12, x1, x1
	orr	x1, x16, x17, lsl #1
	orr	x16, x18, x16, lsl #1
	and	x17, x0, #0x4444444444444444
	mul	x17, x17, x17
	eor	x1, x1, x15
	and	x15, x0, #0x2222222222222222
	eor	x2, x1, x16
	and	x4, x1, x9
	and	x1, x1, x8
	lsr	x3, x2, #32
	and	x5, x2, x10
	and	x2, x2, x11
	mul	x16, x15, x15
	and	x15, x0, #0x8888888888888888
	and	x0, x3, #0x4444444444444444
	and	x6, x3, #0x2222222222222222
	eor	x17, x12, x17
	umull	x4, w4, w4
	and	x17, x17, #0x1111111111111111
	add	x12, sp, #176
	umull	x1, w1, w1
	umull	x5, w5, w5
	umull	x2, w2, w2
	mul	x18, x15, x15
	and	x15, x3, #0x1111111111111111
	and	x3, x3, #0x8888888888888888
	eor	x1, x4, x1
	mul	x15, x15, x15
	eor	x2, x5, x2
	and	x1, x1, #0x1111111111111111
	and	x2, x2, #0x4444444444444444
	mul	x0, x0, x0
	orr	x1, x2, x1
	lsl	x2, x1, #58
	eor	x16, x16, x18
	and	x18, x14, x9
	mul	x6, x6, x6
	and	x14, x14, x8
	and	x16, x16, #0x4444444444444444
	orr	x2, x2, x4, lsl #63
	and	x4, x13, x10
	and	x13, x13, x11
	mul	x3, x3, x3
	orr	x16, x17, x16
	eor	x0, x15, x0
	extr	x15, x15, x1, #1
	and	x0, x0, #0x1111111111111111
	umull	x18, w18, w18
	umull	x14, w14, w14
	orr	x15, x15, x1, lsr #6
	umull	x4, w4, w4
	eor	x3, x6, x3
	umull	x5, w13, w13
	and	x3, x3, #0x4444444444444444
	eor	x17, x18, x14
	orr	x0, x0, x3
	and	x17, x17, #0x1111111111111111
	eor	x3, x2, x0, lsl #1
	eor	x4, x4, x5
	eor	x16, x16, x0
	and	x4, x4, #0x4444444444444444
	ldp	x14, x13, [sp, #128]
	lsr	x18, x3, #2
	orr	x17, x4, x17
	lsl	x4, x0, #58
	orr	x0, x1, x17, lsl #1
	eor	x18, x18, x3, lsr #1
	orr	x1, x4, x1, lsl #1
	eor	x0, x0, x15
	eor	x18, x18, x3, lsr #7
	mov	w3, #8
	eor	x15, x0, x1
	eor	x17, x18, x16, lsl #1
	mov	w16, #16
	csel	x22, x3, x16, lo
	eor	x16, x17, x2
	b.lo	.Lluossavin.BB13_4
	and	x1, x0, x9
	and	x2, x15, x10
	and	x3, x15, x11
	and	x0, x0, x8
	umull	x1, w1, w1
	lsr	x16, x16, #32
	umull	x2, w2, w2
	lsr	x15, x15, #32
	umull	x3, w3, w3
	and	x4, x16, x9
	and	x5, x16, x8
	umull	x0, w0, w0
	and	x6, x15, x9
	and	x7, x15, x10
	umull	x4, w4, w4
	and	x9, x18, x9
	eor	x2, x2, x3
	umull	x5, w5, w5
	and	x3, x15, x8
	eor	x0, x1, x0
	and	x15, x15, x11
	and	x2, x2, #0x4444444444444444
	and	x0, x0, #0x1111111111111111
	umull	x6, w6, w6
	and	x8, x18, x8
	umull	x7, w7, w7
	orr	x0, x2, x0
	eor	x4, x4, x5
	umull	x15, w15, w15
	lsl	x5, x0, #58
	umull	x2, w3, w3
	and	x3, x16, x10
	and	x16, x16, x11
	orr	x1, x5, x1, lsl #63
	umull	x3, w3, w3
	and	x10, x17, x10
	eor	x15, x7, x15
	umull	x16, w16, w16
	and	x11, x17, x11
	eor	x2, x6, x2
	and	x15, x15, #0x4444444444444444
	umull	x9, w9, w9
	and	x2, x2, #0x1111111111111111
	umull	x8, w8, w8
	orr	x15, x2, x15
	umull	x10, w10, w10
	extr	x2, x6, x0, #1
	eor	x18, x1, x15, lsl #1
	umull	x11, w11, w11
	eor	x16, x3, x16
	eor	x8, x9, x8
	and	x3, x4, #0x1111111111111111
	and	x16, x16, #0x4444444444444444
	lsr	x17, x18, #1
	orr	x16, x3, x16
	and	x8, x8, #0x1111111111111111
	eor	x10, x10, x11
	eor	x9, x17, x18, lsr #2
	orr	x17, x2, x0, lsr #6
	and	x10, x10, #0x4444444444444444
	orr	x8, x10, x8
	eor	x10, x16, x15
	eor	x9, x9, x18, lsr #7
	eor	x11, x17, x0, lsl #1
	orr	x8, x0, x8, lsl #1
	eor	x9, x9, x10, lsl #1
	orr	x10, x11, x15, lsl #58
	eor	x16, x9, x1
	eor	x15, x10, x8
.Lluossavin.BB13_4:
	lsr	x8, x16, #32
	adrp	x10, .Lluossavin.CPI13_0
	dup	v1.4s, w16
	lsr	x9, x15, #32
	ldr	q7, [x10, :lo12:.Lluossavin.CPI13_0]
	eor	x10, x15, x16
	dup	v0.4s, w8
	eor	w8, w8, w16
	dup	v5.4s, w10
	dup	v2.4s, w8
	dup	v4.4s, w9
	and	v1.16b, v1.16b, v7.16b
	lsr	x8, x10, #32
	eor	w9, w9, w15
	dup	v3.4s, w15
	and	v0.16b, v0.16b, v7.16b
	dup	v6.4s, w9
	add	x19, sp, #432
	and	v2.16b, v2.16b, v7.16b
	and	v4.16b, v4.16b, v7.16b
	str	q7, [sp, #16]
	and	v3.16b, v3.16b, v7.16b
	stp	x16, x15, [sp, #432]
	stp	q0, q1, [sp, #448]
	dup	v0.4s, w8
	eor	w8, w8, w10
	stp	q2, q4, [sp, #480]
	and	v2.16b, v5.16b, v7.16b
	dup	v1.4s, w8
	and	v6.16b, v6.16b, v7.16b
	add	x8, sp, #176
	mov	x10, x22
	and	v0.16b, v0.16b, v7.16b
	add	x23, x8, #128
	mov	x8, x20
	and	v1.16b, v1.16b, v7.16b
	mov	x9, x23
	str	xzr, [sp, #424]
	stp	q3, q6, [sp, #512]
	stp	q0, q2, [sp, #544]
	movi	v0.2d, #0000000000000000
	str	q1, [sp, #576]
	str	x14, [sp, #176]
	stur	q0, [sp, #184]
	stur	q0, [sp, #200]
	stur	q0, [x12, #40]
	stur	q0, [x12, #56]
	stur	q0, [x12, #72]
	stur	q0, [x12, #88]
	stur	q0, [x12, #104]
	stur	q0, [x12, #120]
	stur	q0, [x12, #136]
	stur	q0, [x12, #152]
	stur	q0, [x12, #168]
	stur	q0, [x12, #184]
	stur	q0, [x12, #200]
	stur	q0, [x12, #216]
	stur	q0, [x12, #232]
	str	x13, [sp, #304]
.Lluossavin.BB13_5:
	ldp	q1, q0, [x8], #32
	ldr	q3, [x9]
	subs	x10, x10, #2
	rev64	v0.16b, v0.16b
	rev64	v1.16b, v1.16b
	zip1	v2.2d, v1.2d, v0.2d
	zip2	v0.2d, v1.2d, v0.2d
	ldur	q1, [x9, #-128]
	eor	v1.16b, v1.16b, v2.16b
	eor	v0.16b, v3.16b, v0.16b
	stur	q1, [x9, #-128]
	str	q0, [x9], #16
	b.ne	.Lluossavin.BB13_5
	lsr	x8, x21, #4
	cmp	x21, #1024
	mov	w9, #3
	cinc	x9, x9, hs
	str	x21, [sp, #72]
	lsr	x29, x8, x9
	str	x9, [sp, #8]
	cmp	x29, #2
	b.lo	.Lluossavin.BB13_15
	ldr	x11, [sp, #72]
	add	x8, sp, #1136
	add	x9, sp, #880
	add	x10, sp, #624
	add	x28, x8, #128
	mov	w8, #7
	cmp	x11, #1024
	add	x26, x9, #128
	add	x27, x10, #128
	cinc	x21, x8, hs
	mov	w24, #1
.Lluossavin.BB13_8:
	movi	v0.2d, #0000000000000000
	mov	x8, xzr
	mov	x9, x22
	str	q0, [sp, #1632]
	str	q0, [sp, #1616]
	str	q0, [sp, #1600]
	str	q0, [sp, #1584]
	str	q0, [sp, #1568]
	str	q0, [sp, #1552]
	str	q0, [sp, #1536]
	str	q0, [sp, #1520]
.Lluossavin.BB13_9:
	add	x10, sp, #176
	subs	x9, x9, #4
	add	x10, x10, x8
	ldp	q0, q3, [x10]
	ldp	q1, q2, [x10, #128]
	add	x10, sp, #1520
	add	x10, x10, x8
	add	x8, x8, #32
	eor	v0.16b, v0.16b, v1.16b
	eor	v1.16b, v3.16b, v2.16b
	stp	q0, q1, [x10]
	b.ne	.Lluossavin.BB13_9
	ldr	q0, [sp, #1584]
	ldr	q2, [sp, #1632]
	add	x0, sp, #176
	ldr	q1, [sp, #1600]
	ldr	q3, [sp, #1552]
	add	x1, x19, #16
	str	q0, [sp, #1456]
	ldr	q0, [sp, #1616]
	add	x3, sp, #1136
	str	q2, [sp, #1504]
	movi	v2.2d, #0000000000000000
	mov	x2, x22
	str	q0, [sp, #1488]
	ldr	q0, [sp, #1536]
	str	q1, [sp, #1472]
	ldr	q1, [sp, #1520]
	str	q0, [sp, #1408]
	ldr	q0, [sp, #1568]
	str	q1, [sp, #1392]
	str	q3, [sp, #1424]
	str	q0, [sp, #1440]
	str	q2, [sp, #1376]
	str	q2, [sp, #1360]
	str	q2, [sp, #1344]
	str	q2, [sp, #1328]
	str	q2, [sp, #1312]
	str	q2, [sp, #1296]
	str	q2, [sp, #1280]
	str	q2, [sp, #1264]
	str	q2, [sp, #1248]
	str	q2, [sp, #1232]
	str	q2, [sp, #1216]
	str	q2, [sp, #1200]
	str	q2, [sp, #1184]
	str	q2, [sp, #1168]
	str	q2, [sp, #1152]
	str	q2, [sp, #1136]
	str	q2, [sp, #1120]
	str	q2, [sp, #1104]
	str	q2, [sp, #1088]
	str	q2, [sp, #1072]
	str	q2, [sp, #1056]
	str	q2, [sp, #1040]
	stp	q2, q2, [sp, #624]
	stp	q2, q2, [sp, #656]
	stp	q2, q2, [sp, #688]
	stp	q2, q2, [sp, #720]
	stp	q2, q2, [sp, #752]
	stp	q2, q2, [sp, #784]
	stp	q2, q2, [sp, #816]
	stp	q2, q2, [sp, #848]
	stp	q2, q2, [sp, #880]
	stp	q2, q2, [sp, #912]
	stp	q2, q2, [sp, #944]
	stp	q2, q2, [sp, #976]
	stp	q2, q2, [sp, #1008]
	bl	"carryless::many::products64"
	add	x1, x19, #64
	add	x3, sp, #880
	mov	x0, x23
	mov	x2, x22
	bl	"carryless::many::products64"
	add	x0, sp, #1392
	add	x1, x19, #112
	add	x3, sp, #624
	mov	x2, x22
	bl	"carryless::many::products64"
	mov	x8, x26
	mov	x9, x27
	mov	x10, x28
	mov	x11, x23
	mov	x12, x22
.Lluossavin.BB13_11:
	ldr	q0, [x10]
	ldur	q1, [x8, #-128]
	movi	v6.2d, #0xffffffffffffffff
	ldr	q2, [x8], #16
	ldr	q3, [x9]
	ldur	q4, [x10, #-128]
	ldur	q5, [x9, #-128]
	subs	x12, x12, #2
	eor	v3.16b, v0.16b, v3.16b
	eor	v7.16b, v1.16b, v2.16b
	shl	v16.2d, v2.2d, #63
	eor	v0.16b, v0.16b, v5.16b
	eor	v1.16b, v1.16b, v4.16b
	add	v5.2d, v2.2d, v2.2d
	fneg	v6.2d, v6.2d
	shl	v17.2d, v2.2d, #58
	add	x10, x10, #16
	eor	v3.16b, v3.16b, v7.16b
	add	x9, x9, #16
	eor	v0.16b, v0.16b, v1.16b
	ushr	v1.2d, v5.2d, #2
	ushr	v7.2d, v5.2d, #7
	add	v18.2d, v3.2d, v3.2d
	and	v6.16b, v2.16b, v6.16b
	add	v19.2d, v0.2d, v0.2d
	eor	v1.16b, v1.16b, v7.16b
	eor	v7.16b, v16.16b, v17.16b
	usra	v18.2d, v2.2d, #63
	add	v2.2d, v4.2d, v4.2d
	usra	v19.2d, v3.2d, #63
	eor	v1.16b, v6.16b, v1.16b
	eor	v3.16b, v7.16b, v18.16b
	usra	v2.2d, v0.2d, #63
	shl	v0.2d, v18.2d, #63
	shl	v4.2d, v18.2d, #62
	shl	v6.2d, v18.2d, #57
	eor	v1.16b, v1.16b, v19.16b
	ushr	v7.2d, v3.2d, #1
	ushr	v16.2d, v3.2d, #2
	ushr	v17.2d, v3.2d, #7
	eor	v1.16b, v1.16b, v4.16b
	eor	v0.16b, v0.16b, v6.16b
	eor	v2.16b, v2.16b, v7.16b
	eor	v4.16b, v16.16b, v17.16b
	eor	v0.16b, v1.16b, v0.16b
	eor	v1.16b, v2.16b, v4.16b
	eor	v0.16b, v0.16b, v5.16b
	eor	v1.16b, v1.16b, v3.16b
	str	q0, [x11]
	stur	q1, [x11, #-128]
	add	x11, x11, #16
	b.ne	.Lluossavin.BB13_11
	lsl	x8, x24, x21
	mov	x9, x23
	mov	x10, x22
	add	x8, x20, x8
.Lluossavin.BB13_13:
	ldp	q1, q0, [x8], #32
	ldr	q3, [x9]
	subs	x10, x10, #2
	rev64	v0.16b, v0.16b
	rev64	v1.16b, v1.16b
	zip1	v2.2d, v1.2d, v0.2d
	zip2	v0.2d, v1.2d, v0.2d
	ldur	q1, [x9, #-128]
	eor	v1.16b, v1.16b, v2.16b
	eor	v0.16b, v3.16b, v0.16b
	stur	q1, [x9, #-128]
	str	q0, [x9], #16
	b.ne	.Lluossavin.BB13_13
	add	x24, x24, #1
	cmp	x24, x29
	b.ne	.Lluossavin.BB13_8
.Lluossavin.BB13_15:
	ldr	x8, [sp, #40]
	ldr	x19, [sp, #56]
	dup	v4.4s, w25
	ldr	q6, [sp, #16]
	mov	x1, xzr
	mov	x0, xzr
	dup	v0.4s, w8
	eor	w8, w8, w19
	dup	v1.4s, w19
	dup	v2.4s, w8
	ldr	x8, [sp, #48]
	eor	x9, x25, x19
	str	x19, [sp, #1136]
	dup	v3.4s, w8
	and	v0.16b, v0.16b, v6.16b
	eor	w8, w8, w25
	and	v1.16b, v1.16b, v6.16b
	dup	v5.4s, w8
	and	v2.16b, v2.16b, v6.16b
	lsr	x8, x9, #32
	str	x25, [sp, #1144]
	str	q0, [sp, #1152]
	and	v0.16b, v3.16b, v6.16b
	and	v3.16b, v4.16b, v6.16b
	str	q1, [sp, #1168]
	dup	v1.4s, w8
	eor	w8, w8, w9
	str	q2, [sp, #1184]
	dup	v2.4s, w8
	and	v4.16b, v5.16b, v6.16b
	str	q0, [sp, #1200]
	dup	v0.4s, w9
	and	v1.16b, v1.16b, v6.16b
	str	q3, [sp, #1216]
	and	v2.16b, v2.16b, v6.16b
	str	q4, [sp, #1232]
	and	v0.16b, v0.16b, v6.16b
	str	q1, [sp, #1248]
	str	q2, [sp, #1280]
	str	q0, [sp, #1264]
.Lluossavin.BB13_16:
	ldur	x8, [x23, #-128]
	ldr	x9, [x23], #8
	add	x2, sp, #1136
	eor	x0, x8, x0
	eor	x1, x9, x1
	bl	"field::times"
	subs	x22, x22, #1
	b.ne	.Lluossavin.BB13_16
	ldr	x8, [sp, #8]
	ldr	x9, [sp, #72]
	stp	x0, x1, [sp, #160]
	add	x0, sp, #592
	add	x1, sp, #144
	stp	x19, x25, [sp, #144]
	lsl	x8, x29, x8
	lsl	x8, x8, #4
	sub	x3, x9, x8
	add	x2, x20, x8
	bl	"ghash::Ghash::absorb_each"
	ldp	q0, q1, [sp, #592]
	ldr	x19, [sp, #64]
	stp	q0, q1, [sp, #80]
.Lluossavin.BB13_18:
	ldp	q0, q1, [sp, #80]
	stp	q0, q1, [x19]
	add	sp, sp, #1648
	ldp	x20, x19, [sp, #80]
	ldp	x22, x21, [sp, #64]
	ldp	x24, x23, [sp, #48]
	ldp	x26, x25, [sp, #32]
	ldp	x28, x27, [sp, #16]
	ldp	x29, x30, [sp], #96
	ret
.Lluossavin.func_end13:
	.size	"ghash::Ghash::absorb_all", .Lluossavin.func_end13-"ghash::Ghash::absorb_all"

	.section	.rodata.cst16,"aM",@progbits,16
	.p2align	4, 0x0
.Lluossavin.CPI14_0:
	.word	286331153
	.word	572662306
	.word	1145324612
	.word	2290649224
	.section	".text.ghash::Ghash::absorb_each","ax",@progbits
	.p2align	2
	.type	"ghash::Ghash::absorb_each",@function
"ghash::Ghash::absorb_each":
	sub	sp, sp, #256
	stp	x24, x23, [sp, #208]
	ldp	x23, x24, [x1]
	adrp	x9, .Lluossavin.CPI14_0
	stp	x22, x21, [sp, #224]
	tst	x3, #0xf
	ldr	q0, [x9, :lo12:.Lluossavin.CPI14_0]
	ldp	x21, x22, [x1, #16]
	lsr	x8, x23, #32
	lsr	x9, x24, #32
	dup	v2.4s, w23
	eor	x10, x24, x23
	dup	v4.4s, w24
	stp	x26, x25, [sp, #192]
	dup	v1.4s, w8
	eor	w8, w8, w23
	dup	v5.4s, w9
	dup	v3.4s, w8
	eor	w9, w9, w24
	lsr	x8, x10, #32
	and	v2.16b, v2.16b, v0.16b
	dup	v6.4s, w9
	stp	x20, x19, [sp, #240]
	and	v1.16b, v1.16b, v0.16b
	and	v5.16b, v5.16b, v0.16b
	dup	v7.4s, w8
	and	v3.16b, v3.16b, v0.16b
	eor	w8, w8, w10
	mov	x19, x0
	str	x30, [sp, #176]
	stp	q1, q2, [sp, #16]
	and	v1.16b, v4.16b, v0.16b
	dup	v2.4s, w10
	stp	q3, q5, [sp, #48]
	and	v3.16b, v6.16b, v0.16b
	dup	v5.4s, w8
	and	v4.16b, v7.16b, v0.16b
	lsr	x8, x3, #4
	stp	x23, x24, [sp]
	stp	q1, q3, [sp, #80]
	and	v1.16b, v2.16b, v0.16b
	and	v0.16b, v5.16b, v0.16b
	cinc	x25, x8, ne
	stp	q4, q1, [sp, #112]
	str	q0, [sp, #144]
	cbz	x3, .Lluossavin.BB14_6
	mov	x20, x2
	b	.Lluossavin.BB14_4
.Lluossavin.BB14_2:
	ldr	q0, [x20]
.Lluossavin.BB14_3:
	rev32	v0.16b, v0.16b
	mov	x2, sp
	mov	w8, v0.s[1]
	mov	w9, v0.s[2]
	mov	w10, v0.s[3]
	fmov	w11, s0
	orr	x8, x8, x11, lsl #32
	orr	x9, x10, x9, lsl #32
	eor	x0, x8, x21
	eor	x1, x9, x22
	bl	"field::times"
	mov	x21, x0
	mov	x22, x1
	sub	x25, x25, #1
	add	x20, x20, #16
	mov	x3, x26
	cbz	x25, .Lluossavin.BB14_6
.Lluossavin.BB14_4:
	subs	x26, x3, #16
	b.hs	.Lluossavin.BB14_2
	add	x0, sp, #160
	mov	x1, x20
	mov	x2, x3
	stp	xzr, xzr, [sp, #160]
	bl	memcpy
	ldr	q0, [sp, #160]
	b	.Lluossavin.BB14_3
.Lluossavin.BB14_6:
	stp	x23, x24, [x19]
	ldp	x24, x23, [sp, #208]
	stp	x21, x22, [x19, #16]
	ldr	x30, [sp, #176]
	ldp	x20, x19, [sp, #240]
	ldp	x22, x21, [sp, #224]
	ldp	x26, x25, [sp, #192]
	add	sp, sp, #256
	ret
.Lluossavin.func_end14:
	.size	"ghash::Ghash::absorb_each", .Lluossavin.func_end14-"ghash::Ghash::absorb_each"

	.section	".text.field::times","ax",@progbits
	.p2align	2
	.type	"field::times",@function
"field::times":
	stp	d15, d14, [sp, #-80]!
	stp	d13, d12, [sp, #16]
	stp	d11, d10, [sp, #32]
	stp	d9, d8, [sp, #48]
	str	x29, [sp, #64]
	sub	sp, sp, #528
	lsr	x8, x0, #32
	movi	v2.8b, #34
	add	x9, x2, #16
	movi	v5.8b, #68
	ld4	{ v6.2s, v7.2s, v8.2s, v9.2s }, [x9]
	movi	v4.8b, #17
	fmov	s0, w8
	movi	v19.8b, #136
	eor	w10, w8, w0
	fmov	s3, w10
	lsr	x11, x1, #32
	add	x12, x2, #48
	ld4	{ v15.2s, v16.2s, v17.2s, v18.2s }, [x12]
	movi	v21.8b, #34
	movi	v24.8b, #68
	mov	v0.s[1], w0
	movi	v20.8b, #136
	fmov	s22, w1
	mov	v3.s[1], w11
	eor	w10, w11, w1
	eor	x8, x1, x0
	lsr	x9, x8, #32
	mov	v22.s[1], w10
	add	x10, x2, #80
	and	v2.8b, v0.8b, v2.8b
	and	v5.8b, v0.8b, v5.8b
	and	v1.8b, v0.8b, v4.8b
	and	v0.8b, v0.8b, v19.8b
	umull	v23.2d, v9.2s, v2.2s
	umull	v19.2d, v8.2s, v5.2s
	umull	v29.2d, v6.2s, v1.2s
	umull	v25.2d, v8.2s, v1.2s
	umull	v10.2d, v9.2s, v0.2s
	umull	v27.2d, v8.2s, v2.2s
	umull	v14.2d, v6.2s, v0.2s
	umull	v13.2d, v6.2s, v5.2s
	umull	v31.2d, v7.2s, v5.2s
	stp	q19, q23, [sp, #432]
	umull	v23.2d, v7.2s, v0.2s
	umull	v19.2d, v7.2s, v1.2s
	stp	q23, q19, [sp, #400]
	umull	v23.2d, v6.2s, v2.2s
	umull	v19.2d, v9.2s, v5.2s
	stp	q19, q23, [sp, #368]
	umull	v19.2d, v8.2s, v0.2s
	and	v0.8b, v3.8b, v24.8b
	movi	v23.8b, #17
	fmov	s8, w9
	eor	w9, w9, w8
	and	w13, w9, #0x11111111
	and	w15, w9, #0x22222222
	and	w17, w9, #0x44444444
	umull	v12.2d, v17.2s, v0.2s
	and	w9, w9, #0x88888888
	str	q19, [sp, #336]
	umull	v19.2d, v7.2s, v2.2s
	and	v2.8b, v3.8b, v20.8b
	mov	v8.s[1], w8
	ldp	w8, w11, [x2, #144]
	umull	v28.2d, v16.2s, v2.2s
	str	q19, [sp, #304]
	and	v19.8b, v3.8b, v4.8b
	umull	v4.2d, v9.2s, v1.2s
	and	v1.8b, v3.8b, v21.8b
	umull	x14, w8, w13
	umull	x0, w11, w9
	umull	v3.2d, v16.2s, v19.2s
	umull	v11.2d, v15.2s, v19.2s
	umull	x1, w11, w13
	umull	v24.2d, v18.2s, v1.2s
	umull	x6, w11, w15
	eor	x14, x0, x14
	umull	x11, w11, w17
	str	q3, [sp, #512]
	umull	v3.2d, v17.2s, v19.2s
	stp	q25, q3, [sp, #480]
	umull	v3.2d, v18.2s, v19.2s
	movi	v25.8b, #136
	str	q3, [sp, #464]
	umull	v3.2d, v15.2s, v1.2s
	stp	q4, q3, [sp, #272]
	umull	v3.2d, v16.2s, v1.2s
	umull	v1.2d, v17.2s, v1.2s
	ld4	{ v4.2s, v5.2s, v6.2s, v7.2s }, [x10]
	add	x10, x2, #112
	str	q3, [sp, #320]
	umull	v3.2d, v18.2s, v0.2s
	str	q1, [sp, #352]
	umull	v1.2d, v15.2s, v0.2s
	umull	v0.2d, v16.2s, v0.2s
	stp	q1, q3, [sp, #224]
	umull	v1.2d, v17.2s, v2.2s
	str	q0, [sp, #256]
	umull	v0.2d, v18.2s, v2.2s
	stp	q1, q0, [sp, #176]
	umull	v3.2d, v15.2s, v2.2s
	and	v0.8b, v22.8b, v23.8b
	and	v16.8b, v22.8b, v21.8b
	movi	v23.8b, #68
	and	v18.8b, v22.8b, v25.8b
	umull	v9.2d, v4.2s, v0.2s
	umull	v2.2d, v5.2s, v0.2s
	umull	v1.2d, v6.2s, v0.2s
	umull	v0.2d, v7.2s, v0.2s
	and	v17.8b, v22.8b, v23.8b
	umull	v22.2d, v5.2s, v18.2s
	umull	v30.2d, v7.2s, v16.2s
	umull	v15.2d, v6.2s, v18.2s
	str	q0, [sp, #208]
	umull	v0.2d, v5.2s, v16.2s
	umull	v26.2d, v6.2s, v17.2s
	str	q1, [sp, #96]
	umull	v1.2d, v4.2s, v16.2s
	stp	q2, q0, [sp, #64]
	umull	v0.2d, v6.2s, v16.2s
	umull	v16.2d, v7.2s, v18.2s
	stp	q3, q0, [sp, #144]
	umull	v0.2d, v7.2s, v17.2s
	str	q16, [sp]
	stp	q0, q1, [sp, #16]
	umull	v0.2d, v4.2s, v17.2s
	umull	v1.2d, v4.2s, v18.2s
	eor	v7.16b, v31.16b, v14.16b
	and	v14.8b, v8.8b, v25.8b
	ldr	q4, [sp, #400]
	str	q0, [sp, #48]
	umull	v0.2d, v5.2s, v17.2s
	eor	v21.16b, v4.16b, v29.16b
	ldp	q5, q4, [sp, #432]
	eor	v29.16b, v5.16b, v4.16b
	ldr	q4, [sp, #416]
	ldr	q5, [sp, #384]
	stp	q1, q0, [sp, #112]
	ld4	{ v0.2s, v1.2s, v2.2s, v3.2s }, [x10]
	eor	v20.16b, v4.16b, v5.16b
	ldr	q4, [sp, #368]
	ldr	q5, [sp, #336]
	ldp	w10, w12, [x2, #152]
	eor	v19.16b, v5.16b, v4.16b
	ldr	q4, [sp, #304]
	eor	v5.16b, v28.16b, v11.16b
	umull	x2, w8, w15
	eor	v17.16b, v4.16b, v13.16b
	movi	v4.8b, #17
	umull	x16, w12, w15
	umull	x18, w10, w17
	umull	x3, w12, w17
	eor	x0, x1, x2
	umull	x4, w10, w9
	and	v18.8b, v8.8b, v4.8b
	ldr	q4, [sp, #480]
	umull	x5, w10, w13
	eor	x16, x18, x16
	umull	x18, w8, w17
	eor	v16.16b, v4.16b, v10.16b
	ldr	q4, [sp, #272]
	umull	v10.2d, v3.2s, v14.2s
	umull	v25.2d, v0.2s, v18.2s
	umull	x2, w12, w9
	eor	x1, x4, x3
	eor	v6.16b, v27.16b, v4.16b
	and	v27.8b, v8.8b, v23.8b
	umull	v23.2d, v1.2s, v18.2s
	eor	v4.16b, v12.16b, v24.16b
	movi	v24.8b, #34
	umull	x12, w12, w13
	umull	x10, w10, w15
	eor	x13, x14, x16
	eor	x15, x6, x18
	umull	v31.2d, v3.2s, v27.2s
	umull	v11.2d, v0.2s, v27.2s
	umull	v13.2d, v1.2s, v27.2s
	stp	q23, q25, [sp, #400]
	umull	v23.2d, v2.2s, v18.2s
	umull	v18.2d, v3.2s, v18.2s
	and	v24.8b, v8.8b, v24.8b
	umull	x8, w8, w9
	eor	x16, x5, x2
	eor	x10, x10, x12
	eor	x14, x0, x1
	eor	x9, x15, x16
	and	x9, x9, #0x4444444444444444
	str	q18, [sp, #480]
	umull	v18.2d, v2.2s, v24.2s
	umull	v28.2d, v3.2s, v24.2s
	umull	v8.2d, v0.2s, v24.2s
	umull	v12.2d, v1.2s, v24.2s
	umull	v24.2d, v2.2s, v27.2s
	umull	v27.2d, v1.2s, v14.2s
	eor	x8, x11, x8
	and	x11, x14, #0x2222222222222222
	eor	x8, x8, x10
	and	x10, x13, #0x1111111111111111
	orr	x9, x9, x11
	stp	q18, q23, [sp, #432]
	umull	v18.2d, v2.2s, v14.2s
	umull	v14.2d, v0.2s, v14.2s
	eor	v3.16b, v5.16b, v4.16b
	ldr	q4, [sp, #512]
	ldr	q5, [sp, #288]
	eor	v0.16b, v21.16b, v29.16b
	eor	v2.16b, v17.16b, v16.16b
	eor	v29.16b, v7.16b, v6.16b
	eor	v4.16b, v4.16b, v5.16b
	ldp	q7, q5, [sp, #224]
	ldp	q6, q16, [sp, #176]
	ldr	q17, [sp, #144]
	eor	v1.16b, v20.16b, v19.16b
	ldr	q19, [sp, #352]
	eor	v20.16b, v26.16b, v30.16b
	ldp	q21, q23, [sp, #64]
	ldr	q26, [sp]
	eor	v5.16b, v6.16b, v5.16b
	ldr	q6, [sp, #320]
	eor	v18.16b, v18.16b, v31.16b
	movi	v30.16b, #68
	and	x8, x8, #0x8888888888888888
	eor	v6.16b, v6.16b, v7.16b
	ldp	q31, q7, [sp, #480]
	orr	x8, x10, x8
	eor	v4.16b, v4.16b, v5.16b
	orr	x8, x9, x8
	eor	v7.16b, v7.16b, v16.16b
	ldr	q16, [sp, #256]
	and	v2.16b, v2.16b, v30.16b
	eor	v16.16b, v16.16b, v17.16b
	ldr	q17, [sp, #464]
	eor	v5.16b, v6.16b, v7.16b
	eor	v17.16b, v19.16b, v17.16b
	eor	v19.16b, v22.16b, v9.16b
	ldp	q22, q25, [sp, #16]
	and	v5.16b, v5.16b, v30.16b
	eor	v7.16b, v19.16b, v20.16b
	ldp	q20, q19, [sp, #112]
	eor	v21.16b, v21.16b, v25.16b
	ldr	q25, [sp, #48]
	eor	v22.16b, v15.16b, v22.16b
	eor	v6.16b, v16.16b, v17.16b
	eor	v23.16b, v23.16b, v25.16b
	ldr	q25, [sp, #96]
	eor	v19.16b, v19.16b, v20.16b
	eor	v16.16b, v21.16b, v22.16b
	ldr	q20, [sp, #208]
	ldr	q21, [sp, #160]
	eor	v25.16b, v25.16b, v26.16b
	eor	v22.16b, v24.16b, v28.16b
	eor	v24.16b, v12.16b, v11.16b
	eor	v20.16b, v21.16b, v20.16b
	eor	v28.16b, v13.16b, v14.16b
	eor	v17.16b, v23.16b, v25.16b
	ldp	q23, q21, [sp, #400]
	movi	v25.16b, #17
	eor	v19.16b, v19.16b, v20.16b
	eor	v23.16b, v23.16b, v8.16b
	ldp	q8, q26, [sp, #432]
	eor	v21.16b, v27.16b, v21.16b
	movi	v27.16b, #34
	and	v17.16b, v17.16b, v30.16b
	and	v0.16b, v0.16b, v25.16b
	and	v3.16b, v3.16b, v25.16b
	and	v7.16b, v7.16b, v25.16b
	eor	v26.16b, v26.16b, v10.16b
	eor	v31.16b, v8.16b, v31.16b
	movi	v8.16b, #136
	eor	v20.16b, v21.16b, v22.16b
	eor	v18.16b, v23.16b, v18.16b
	and	v1.16b, v1.16b, v27.16b
	and	v4.16b, v4.16b, v27.16b
	and	v16.16b, v16.16b, v27.16b
	eor	v21.16b, v24.16b, v26.16b
	eor	v22.16b, v28.16b, v31.16b
	and	v29.16b, v29.16b, v8.16b
	and	v6.16b, v6.16b, v8.16b
	and	v19.16b, v19.16b, v8.16b
	and	v20.16b, v20.16b, v25.16b
	and	v18.16b, v18.16b, v27.16b
	orr	v1.16b, v2.16b, v1.16b
	and	v21.16b, v21.16b, v30.16b
	and	v22.16b, v22.16b, v8.16b
	orr	v2.16b, v5.16b, v4.16b
	orr	v0.16b, v0.16b, v29.16b
	orr	v3.16b, v3.16b, v6.16b
	orr	v4.16b, v17.16b, v16.16b
	orr	v5.16b, v7.16b, v19.16b
	orr	v6.16b, v21.16b, v18.16b
	orr	v7.16b, v20.16b, v22.16b
	orr	v0.16b, v1.16b, v0.16b
	orr	v1.16b, v2.16b, v3.16b
	orr	v2.16b, v4.16b, v5.16b
	orr	v3.16b, v6.16b, v7.16b
	mov	x10, v0.d[1]
	mov	x11, v1.d[1]
	fmov	x9, d0
	mov	x12, v2.d[1]
	fmov	x14, d1
	fmov	x16, d2
	mov	x13, v3.d[1]
	fmov	x15, d3
	eor	x14, x9, x14
	eor	x8, x15, x8
	eor	x14, x14, x10
	eor	x12, x11, x12
	eor	x8, x8, x13
	eor	x12, x12, x16
	eor	x9, x9, x14, lsr #32
	extr	x17, x14, x8, #32
	eor	x11, x11, x12, lsr #32
	eor	x12, x16, x12, lsl #32
	eor	w8, w8, w14
	eor	x15, x15, x9
	eor	x17, x10, x17
	eor	x8, x10, x8, lsl #32
	eor	x14, x17, x11
	eor	x10, x14, x15
	lsl	x14, x12, #1
	eor	x8, x8, x11
	eor	x11, x13, x12
	and	x13, x12, #0x7fffffffffffffff
	extr	x9, x9, x10, #63
	eor	x8, x8, x11
	lsl	x11, x16, #63
	eor	x13, x13, x14, lsr #2
	extr	x15, x10, x8, #63
	extr	x8, x8, x12, #63
	eor	x11, x11, x16, lsl #58
	eor	x12, x13, x14, lsr #7
	eor	x10, x11, x8
	eor	x11, x12, x15
	eor	x9, x9, x10, lsr #1
	eor	x11, x11, x8, lsl #62
	eor	x9, x9, x10, lsr #2
	eor	x11, x11, x8, lsl #63
	eor	x9, x9, x10, lsr #7
	eor	x8, x11, x8, lsl #57
	eor	x0, x9, x10
	eor	x1, x8, x14
	add	sp, sp, #528
	ldp	d9, d8, [sp, #48]
	ldr	x29, [sp, #64]
	ldp	d11, d10, [sp, #32]
	ldp	d13, d12, [sp, #16]
	ldp	d15, d14, [sp], #80
	ret
.Lluossavin.func_end15:
	.size	"field::times", .Lluossavin.func_end15-"field::times"

	.section	".text.carryless::many::products64","ax",@progbits
	.p2align	2
	.type	"carryless::many::products64",@function
"carryless::many::products64":
	stp	d15, d14, [sp, #-160]!
	stp	d13, d12, [sp, #16]
	stp	d11, d10, [sp, #32]
	stp	d9, d8, [sp, #48]
	stp	x29, x30, [sp, #64]
	stp	x28, x27, [sp, #80]
	stp	x26, x25, [sp, #96]
	stp	x24, x23, [sp, #112]
	stp	x22, x21, [sp, #128]
	stp	x20, x19, [sp, #144]
	sub	sp, sp, #1312
	str	xzr, [sp]
	movi	v0.2d, #0000000000000000
	and	x8, x2, #0x18
	ldp	q2, q1, [x0]
	cmp	x8, #8
	ldp	q4, q3, [x0, #32]
	uzp2	v5.4s, v2.4s, v1.4s
	uzp1	v1.4s, v2.4s, v1.4s
	stp	q0, q0, [sp, #32]
	uzp2	v2.4s, v4.4s, v3.4s
	uzp1	v3.4s, v4.4s, v3.4s
	stp	q0, q0, [sp, #64]
	stp	q0, q0, [sp, #96]
	stp	q0, q0, [sp, #128]
	stp	q0, q0, [sp, #352]
	stp	q0, q0, [sp, #384]
	stp	q0, q0, [sp, #416]
	stp	q0, q0, [sp, #448]
	stp	q0, q0, [sp, #480]
	stp	q0, q0, [sp, #512]
	stp	q0, q0, [sp, #544]
	stp	q0, q0, [sp, #576]
	stp	q0, q0, [sp, #608]
	stp	q0, q0, [sp, #640]
	stp	q0, q0, [sp, #672]
	stp	q0, q0, [sp, #704]
	stp	q0, q0, [sp, #736]
	stp	q0, q0, [sp, #768]
	stp	q0, q0, [sp, #800]
	stp	q0, q0, [sp, #832]
	stp	q0, q0, [sp, #864]
	stp	q0, q0, [sp, #896]
	str	q0, [sp, #1088]
	str	q0, [sp, #1104]
	str	q0, [sp, #1024]
	str	q0, [sp, #1040]
	stp	q0, q0, [sp, #960]
	eor	v0.16b, v5.16b, v1.16b
	str	q2, [sp, #1072]
	eor	v2.16b, v2.16b, v3.16b
	str	q5, [sp, #1056]
	stp	q1, q3, [sp, #992]
	stp	q0, q2, [sp, #928]
	b.eq	.Lluossavin.BB16_2
	ldp	q1, q0, [x0, #64]
	ldp	q3, q2, [x0, #96]
	uzp2	v4.4s, v1.4s, v0.4s
	uzp1	v0.4s, v1.4s, v0.4s
	uzp2	v5.4s, v3.4s, v2.4s
	uzp1	v1.4s, v3.4s, v2.4s
	eor	v2.16b, v4.16b, v0.16b
	str	q4, [sp, #1088]
	eor	v3.16b, v5.16b, v1.16b
	str	q5, [sp, #1104]
	str	q0, [sp, #1024]
	str	q1, [sp, #1040]
	stp	q2, q3, [sp, #960]
.Lluossavin.BB16_2:
	subs	x8, x2, x8
	b.eq	.Lluossavin.BB16_5
	lsr	x9, x2, #3
	add	x10, sp, #928
	add	x11, sp, #992
	add	x13, sp, #1056
	lsl	x12, x9, #5
	add	x9, x0, x9, lsl #6
	add	x10, x10, x12
	add	x11, x11, x12
	add	x12, x13, x12
.Lluossavin.BB16_4:
	ldr	x13, [x9], #8
	subs	x8, x8, #1
	lsr	x14, x13, #32
	str	w13, [x11], #4
	eor	w15, w14, w13
	str	w14, [x12], #4
	str	w15, [x10], #4
	b.ne	.Lluossavin.BB16_4
.Lluossavin.BB16_5:
	ldr	q1, [sp, #1072]
	ldr	q2, [sp, #1104]
	and	x9, x2, #0x1c
	ldr	q0, [sp, #1056]
	ldp	q20, q21, [sp, #960]
	str	q1, [sp, #1136]
	cmp	x9, #4
	str	q2, [sp, #1168]
	ldp	q1, q2, [sp, #992]
	str	q0, [sp, #1120]
	ldr	q0, [sp, #1088]
	ldr	q3, [sp, #1136]
	str	q21, [sp, #1296]
	ldp	q23, q24, [sp, #928]
	str	q0, [sp, #1152]
	ldr	q0, [sp, #1024]
	str	q1, [sp, #1184]
	ldr	q1, [sp, #1120]
	ldr	q30, [sp, #1152]
	str	q2, [sp, #1200]
	ldr	q2, [sp, #1040]
	str	q20, [sp, #1280]
	str	q0, [sp, #1216]
	movi	v0.16b, #17
	stp	q1, q3, [sp, #160]
	movi	v1.16b, #34
	movi	v3.16b, #68
	stp	q20, q21, [sp, #320]
	ldr	q20, [sp, #1184]
	ldr	q21, [sp, #1200]
	str	q2, [sp, #1232]
	movi	v2.16b, #136
	ldp	q5, q22, [sp, #160]
	stp	q20, q21, [sp, #224]
	ldr	q20, [sp, #1216]
	ldr	q21, [sp, #1232]
	str	q24, [sp, #1264]
	str	q23, [sp, #1248]
	stp	q20, q21, [sp, #256]
	ldr	q21, [sp, #1168]
	stp	q5, q22, [sp, #864]
	ldp	w13, w14, [x1]
	ldp	w15, w16, [x1, #8]
	ldr	q19, [sp, #864]
	stp	q30, q21, [sp, #192]
	dup	v4.4s, w13
	dup	v17.4s, w14
	ldp	q21, q22, [sp, #192]
	dup	v5.4s, w16
	and	v6.16b, v19.16b, v0.16b
	and	v7.16b, v19.16b, v1.16b
	dup	v16.4s, w15
	and	v18.16b, v19.16b, v2.16b
	and	v19.16b, v19.16b, v3.16b
	stp	q23, q24, [sp, #288]
	stp	q21, q22, [sp, #896]
	ldp	q21, q22, [sp, #224]
	umull	v25.2d, v4.2s, v6.2s
	umull2	v23.2d, v4.4s, v6.4s
	umull2	v26.2d, v5.4s, v7.4s
	umull	v24.2d, v17.2s, v18.2s
	umull2	v27.2d, v17.4s, v18.4s
	umull2	v28.2d, v16.4s, v19.4s
	stp	q21, q22, [sp, #800]
	ldp	q21, q22, [sp, #256]
	umull	v29.2d, v5.2s, v7.2s
	umull	v31.2d, v16.2s, v19.2s
	umull	v30.2d, v5.2s, v19.2s
	umull	v8.2d, v16.2s, v18.2s
	umull2	v10.2d, v5.4s, v18.4s
	umull	v11.2d, v5.2s, v18.2s
	eor	v23.16b, v27.16b, v23.16b
	eor	v20.16b, v24.16b, v25.16b
	eor	v24.16b, v28.16b, v26.16b
	umull2	v25.2d, v17.4s, v6.4s
	umull	v26.2d, v17.2s, v6.2s
	umull2	v27.2d, v4.4s, v7.4s
	umull	v28.2d, v4.2s, v7.2s
	stp	q21, q22, [sp, #832]
	umull2	v12.2d, v17.4s, v19.4s
	ldp	q9, q22, [sp, #288]
	eor	v21.16b, v23.16b, v24.16b
	eor	v23.16b, v31.16b, v29.16b
	umull2	v29.2d, v16.4s, v6.4s
	umull	v31.2d, v17.2s, v7.2s
	eor	v25.16b, v25.16b, v27.16b
	eor	v27.16b, v8.16b, v30.16b
	umull2	v30.2d, v17.4s, v7.4s
	eor	v24.16b, v26.16b, v28.16b
	stp	q9, q22, [sp, #736]
	umull2	v26.2d, v5.4s, v19.4s
	umull2	v22.2d, v16.4s, v18.4s
	umull	v28.2d, v16.2s, v6.2s
	umull2	v8.2d, v4.4s, v19.4s
	umull	v9.2d, v4.2s, v19.2s
	umull2	v13.2d, v4.4s, v18.4s
	umull2	v14.2d, v5.4s, v6.4s
	umull	v5.2d, v5.2s, v6.2s
	umull2	v6.2d, v16.4s, v7.4s
	umull	v7.2d, v16.2s, v7.2s
	umull	v16.2d, v17.2s, v19.2s
	umull	v4.2d, v4.2s, v18.2s
	eor	v17.16b, v22.16b, v26.16b
	eor	v19.16b, v30.16b, v8.16b
	eor	v22.16b, v28.16b, v11.16b
	eor	v18.16b, v31.16b, v9.16b
	eor	v26.16b, v29.16b, v10.16b
	eor	v28.16b, v12.16b, v13.16b
	eor	v6.16b, v6.16b, v14.16b
	eor	v5.16b, v7.16b, v5.16b
	eor	v7.16b, v20.16b, v23.16b
	eor	v4.16b, v16.16b, v4.16b
	eor	v16.16b, v24.16b, v27.16b
	eor	v17.16b, v25.16b, v17.16b
	eor	v19.16b, v19.16b, v26.16b
	eor	v18.16b, v18.16b, v22.16b
	movi	v31.2d, #0000000000000000
	eor	v6.16b, v28.16b, v6.16b
	ldp	q29, q30, [sp, #320]
	eor	v4.16b, v4.16b, v5.16b
	and	v5.16b, v7.16b, v0.16b
	and	v7.16b, v21.16b, v0.16b
	and	v17.16b, v17.16b, v1.16b
	and	v16.16b, v16.16b, v1.16b
	and	v19.16b, v19.16b, v3.16b
	and	v6.16b, v6.16b, v2.16b
	and	v18.16b, v18.16b, v3.16b
	stp	q29, q30, [sp, #768]
	and	v4.16b, v4.16b, v2.16b
	str	q31, [sp, #1232]
	orr	v17.16b, v19.16b, v17.16b
	str	q31, [sp, #1216]
	orr	v6.16b, v7.16b, v6.16b
	orr	v7.16b, v18.16b, v16.16b
	str	q31, [sp, #1200]
	orr	v4.16b, v5.16b, v4.16b
	str	q31, [sp, #1184]
	str	q31, [sp, #1168]
	orr	v5.16b, v17.16b, v6.16b
	str	q31, [sp, #1152]
	orr	v4.16b, v7.16b, v4.16b
	str	q31, [sp, #1136]
	str	q31, [sp, #1120]
	str	q5, [sp, #1136]
	str	q4, [sp, #1120]
	b.eq	.Lluossavin.BB16_9
	ldr	q16, [sp, #880]
	dup	v4.4s, w13
	dup	v6.4s, w14
	dup	v7.4s, w16
	dup	v19.4s, w15
	cmp	x9, #8
	and	v5.16b, v16.16b, v0.16b
	and	v17.16b, v16.16b, v1.16b
	and	v18.16b, v16.16b, v2.16b
	and	v16.16b, v16.16b, v3.16b
	movi	v2.16b, #34
	movi	v1.16b, #17
	umull	v20.2d, v4.2s, v5.2s
	umull2	v21.2d, v4.4s, v5.4s
	umull	v22.2d, v7.2s, v17.2s
	umull2	v23.2d, v7.4s, v17.4s
	umull2	v24.2d, v6.4s, v18.4s
	umull2	v25.2d, v19.4s, v16.4s
	umull	v26.2d, v19.2s, v16.2s
	umull	v27.2d, v6.2s, v18.2s
	umull2	v28.2d, v7.4s, v16.4s
	umull	v29.2d, v7.2s, v16.2s
	umull	v30.2d, v19.2s, v18.2s
	umull2	v31.2d, v19.4s, v18.4s
	umull	v8.2d, v19.2s, v5.2s
	umull2	v9.2d, v19.4s, v5.4s
	umull2	v10.2d, v6.4s, v17.4s
	eor	v3.16b, v24.16b, v21.16b
	eor	v23.16b, v25.16b, v23.16b
	umull2	v24.2d, v6.4s, v5.4s
	eor	v20.16b, v27.16b, v20.16b
	eor	v22.16b, v26.16b, v22.16b
	umull	v25.2d, v6.2s, v5.2s
	umull2	v26.2d, v4.4s, v17.4s
	umull	v27.2d, v4.2s, v17.2s
	umull	v11.2d, v6.2s, v17.2s
	umull2	v12.2d, v4.4s, v16.4s
	umull	v13.2d, v4.2s, v16.2s
	umull2	v14.2d, v7.4s, v18.4s
	umull	v15.2d, v19.2s, v17.2s
	umull2	v17.2d, v19.4s, v17.4s
	umull2	v19.2d, v6.4s, v16.4s
	umull	v6.2d, v6.2s, v16.2s
	umull2	v16.2d, v7.4s, v5.4s
	umull2	v0.2d, v4.4s, v18.4s
	umull	v5.2d, v7.2s, v5.2s
	umull	v7.2d, v7.2s, v18.2s
	umull	v4.2d, v4.2s, v18.2s
	eor	v18.16b, v25.16b, v27.16b
	eor	v24.16b, v24.16b, v26.16b
	eor	v25.16b, v30.16b, v29.16b
	eor	v26.16b, v31.16b, v28.16b
	eor	v27.16b, v11.16b, v13.16b
	eor	v28.16b, v10.16b, v12.16b
	eor	v29.16b, v9.16b, v14.16b
	eor	v0.16b, v19.16b, v0.16b
	eor	v16.16b, v17.16b, v16.16b
	eor	v7.16b, v8.16b, v7.16b
	eor	v4.16b, v6.16b, v4.16b
	eor	v5.16b, v15.16b, v5.16b
	movi	v21.16b, #136
	eor	v6.16b, v3.16b, v23.16b
	movi	v3.16b, #68
	eor	v17.16b, v20.16b, v22.16b
	eor	v19.16b, v24.16b, v26.16b
	eor	v20.16b, v28.16b, v29.16b
	eor	v0.16b, v0.16b, v16.16b
	eor	v16.16b, v18.16b, v25.16b
	eor	v7.16b, v27.16b, v7.16b
	eor	v4.16b, v4.16b, v5.16b
	and	v6.16b, v6.16b, v1.16b
	and	v5.16b, v17.16b, v1.16b
	and	v17.16b, v19.16b, v2.16b
	and	v18.16b, v20.16b, v3.16b
	and	v0.16b, v0.16b, v21.16b
	and	v1.16b, v16.16b, v2.16b
	and	v3.16b, v7.16b, v3.16b
	and	v2.16b, v4.16b, v21.16b
	orr	v4.16b, v18.16b, v17.16b
	orr	v0.16b, v6.16b, v0.16b
	orr	v1.16b, v3.16b, v1.16b
	orr	v2.16b, v5.16b, v2.16b
	orr	v0.16b, v4.16b, v0.16b
	orr	v1.16b, v1.16b, v2.16b
	str	q0, [sp, #1168]
	str	q1, [sp, #1152]
	b.eq	.Lluossavin.BB16_9
	movi	v0.16b, #17
	movi	v2.16b, #34
	ldr	q4, [sp, #896]
	movi	v3.16b, #136
	movi	v1.16b, #68
	cmp	x9, #12
	dup	v5.4s, w13
	dup	v6.4s, w14
	dup	v16.4s, w16
	dup	v19.4s, w15
	and	v7.16b, v4.16b, v0.16b
	and	v17.16b, v4.16b, v2.16b
	and	v18.16b, v4.16b, v3.16b
	and	v4.16b, v4.16b, v1.16b
	umull	v20.2d, v5.2s, v7.2s
	umull2	v21.2d, v5.4s, v7.4s
	umull	v22.2d, v16.2s, v17.2s
	umull2	v23.2d, v16.4s, v17.4s
	umull2	v24.2d, v6.4s, v18.4s
	umull2	v25.2d, v19.4s, v4.4s
	umull	v26.2d, v19.2s, v4.2s
	umull	v27.2d, v6.2s, v18.2s
	umull2	v28.2d, v16.4s, v4.4s
	umull	v29.2d, v16.2s, v4.2s
	umull	v30.2d, v19.2s, v18.2s
	umull2	v31.2d, v19.4s, v18.4s
	umull	v8.2d, v19.2s, v7.2s
	umull2	v9.2d, v19.4s, v7.4s
	umull2	v10.2d, v6.4s, v17.4s
	eor	v21.16b, v24.16b, v21.16b
	eor	v23.16b, v25.16b, v23.16b
	umull2	v24.2d, v6.4s, v7.4s
	eor	v20.16b, v27.16b, v20.16b
	eor	v22.16b, v26.16b, v22.16b
	umull	v25.2d, v6.2s, v7.2s
	umull2	v26.2d, v5.4s, v17.4s
	umull	v27.2d, v5.2s, v17.2s
	umull	v11.2d, v6.2s, v17.2s
	umull2	v12.2d, v5.4s, v4.4s
	umull	v13.2d, v5.2s, v4.2s
	umull	v15.2d, v19.2s, v17.2s
	umull2	v17.2d, v19.4s, v17.4s
	umull2	v19.2d, v6.4s, v4.4s
	umull	v4.2d, v6.2s, v4.2s
	umull2	v6.2d, v16.4s, v7.4s
	umull2	v0.2d, v5.4s, v18.4s
	umull2	v14.2d, v16.4s, v18.4s
	umull	v7.2d, v16.2s, v7.2s
	umull	v16.2d, v16.2s, v18.2s
	umull	v5.2d, v5.2s, v18.2s
	eor	v18.16b, v25.16b, v27.16b
	eor	v25.16b, v30.16b, v29.16b
	eor	v24.16b, v24.16b, v26.16b
	eor	v26.16b, v31.16b, v28.16b
	eor	v27.16b, v11.16b, v13.16b
	eor	v28.16b, v10.16b, v12.16b
	eor	v0.16b, v19.16b, v0.16b
	eor	v6.16b, v17.16b, v6.16b
	eor	v29.16b, v9.16b, v14.16b
	eor	v16.16b, v8.16b, v16.16b
	eor	v4.16b, v4.16b, v5.16b
	eor	v5.16b, v15.16b, v7.16b
	eor	v7.16b, v21.16b, v23.16b
	eor	v17.16b, v20.16b, v22.16b
	eor	v19.16b, v24.16b, v26.16b
	eor	v0.16b, v0.16b, v6.16b
	eor	v6.16b, v18.16b, v25.16b
	movi	v18.16b, #17
	eor	v20.16b, v28.16b, v29.16b
	eor	v16.16b, v27.16b, v16.16b
	eor	v4.16b, v4.16b, v5.16b
	and	v0.16b, v0.16b, v3.16b
	and	v6.16b, v6.16b, v2.16b
	and	v5.16b, v17.16b, v18.16b
	and	v7.16b, v7.16b, v18.16b
	and	v17.16b, v19.16b, v2.16b
	and	v18.16b, v20.16b, v1.16b
	and	v16.16b, v16.16b, v1.16b
	and	v4.16b, v4.16b, v3.16b
	orr	v0.16b, v7.16b, v0.16b
	orr	v17.16b, v18.16b, v17.16b
	orr	v6.16b, v16.16b, v6.16b
	orr	v4.16b, v5.16b, v4.16b
	orr	v0.16b, v17.16b, v0.16b
	orr	v4.16b, v6.16b, v4.16b
	str	q0, [sp, #1200]
	str	q4, [sp, #1184]
	b.eq	.Lluossavin.BB16_9
	movi	v2.16b, #136
	ldr	q0, [sp, #912]
	movi	v1.16b, #17
	movi	v3.16b, #34
	dup	v4.4s, w13
	dup	v6.4s, w14
	dup	v7.4s, w16
	dup	v18.4s, w15
	and	v17.16b, v0.16b, v2.16b
	movi	v2.16b, #68
	and	v5.16b, v0.16b, v1.16b
	and	v16.16b, v0.16b, v3.16b
	umull2	v20.2d, v4.4s, v5.4s
	umull2	v23.2d, v6.4s, v17.4s
	umull	v19.2d, v4.2s, v5.2s
	and	v0.16b, v0.16b, v2.16b
	umull	v21.2d, v7.2s, v16.2s
	umull2	v22.2d, v7.4s, v16.4s
	umull	v26.2d, v6.2s, v17.2s
	umull2	v30.2d, v18.4s, v17.4s
	umull	v29.2d, v18.2s, v17.2s
	umull	v31.2d, v18.2s, v5.2s
	umull2	v8.2d, v18.4s, v5.4s
	umull2	v9.2d, v6.4s, v16.4s
	umull	v25.2d, v18.2s, v0.2s
	umull2	v24.2d, v18.4s, v0.4s
	eor	v20.16b, v23.16b, v20.16b
	umull2	v23.2d, v6.4s, v5.4s
	umull2	v27.2d, v7.4s, v0.4s
	umull	v28.2d, v7.2s, v0.2s
	eor	v19.16b, v26.16b, v19.16b
	umull	v26.2d, v4.2s, v16.2s
	umull	v10.2d, v6.2s, v16.2s
	umull2	v11.2d, v4.4s, v0.4s
	umull	v12.2d, v4.2s, v0.2s
	umull	v14.2d, v18.2s, v16.2s
	eor	v21.16b, v25.16b, v21.16b
	umull2	v25.2d, v4.4s, v16.4s
	eor	v22.16b, v24.16b, v22.16b
	umull	v24.2d, v6.2s, v5.2s
	umull2	v16.2d, v18.4s, v16.4s
	umull2	v18.2d, v6.4s, v0.4s
	umull	v0.2d, v6.2s, v0.2s
	umull2	v6.2d, v7.4s, v5.4s
	umull2	v15.2d, v4.4s, v17.4s
	umull	v5.2d, v7.2s, v5.2s
	umull	v4.2d, v4.2s, v17.2s
	umull2	v13.2d, v7.4s, v17.4s
	umull	v7.2d, v7.2s, v17.2s
	eor	v23.16b, v23.16b, v25.16b
	eor	v25.16b, v30.16b, v27.16b
	eor	v17.16b, v24.16b, v26.16b
	eor	v24.16b, v29.16b, v28.16b
	eor	v26.16b, v10.16b, v12.16b
	eor	v6.16b, v16.16b, v6.16b
	eor	v16.16b, v19.16b, v21.16b
	eor	v27.16b, v9.16b, v11.16b
	eor	v0.16b, v0.16b, v4.16b
	eor	v4.16b, v14.16b, v5.16b
	eor	v19.16b, v23.16b, v25.16b
	eor	v28.16b, v8.16b, v13.16b
	eor	v18.16b, v18.16b, v15.16b
	eor	v7.16b, v31.16b, v7.16b
	eor	v5.16b, v20.16b, v22.16b
	eor	v17.16b, v17.16b, v24.16b
	eor	v0.16b, v0.16b, v4.16b
	and	v4.16b, v16.16b, v1.16b
	and	v16.16b, v19.16b, v3.16b
	movi	v19.16b, #136
	eor	v20.16b, v27.16b, v28.16b
	eor	v6.16b, v18.16b, v6.16b
	eor	v7.16b, v26.16b, v7.16b
	and	v5.16b, v5.16b, v1.16b
	and	v1.16b, v17.16b, v3.16b
	and	v18.16b, v20.16b, v2.16b
	and	v6.16b, v6.16b, v19.16b
	and	v3.16b, v7.16b, v2.16b
	and	v0.16b, v0.16b, v19.16b
	orr	v2.16b, v18.16b, v16.16b
	orr	v5.16b, v5.16b, v6.16b
	orr	v1.16b, v3.16b, v1.16b
	orr	v0.16b, v4.16b, v0.16b
	orr	v2.16b, v2.16b, v5.16b
	orr	v0.16b, v1.16b, v0.16b
	str	q2, [sp, #1232]
	str	q0, [sp, #1216]
.Lluossavin.BB16_9:
	lsr	x12, x2, #2
	mov	w8, #-2004318072
	subs	x17, x2, x9
	mov	w9, #1145324612
	mov	w10, #572662306
	mov	w11, #286331153
	b.eq	.Lluossavin.BB16_12
	add	x18, sp, #1120
	add	x0, sp, #864
	add	x18, x18, x12, lsl #5
	add	x0, x0, x12, lsl #4
.Lluossavin.BB16_11:
	ldr	w4, [x0], #4
	subs	x17, x17, #1
	and	w5, w4, w11
	and	w6, w4, w10
	and	w19, w4, w9
	and	w4, w4, w8
	umull	x7, w13, w5
	umull	x20, w16, w6
	umull	x21, w15, w19
	umull	x22, w14, w4
	umull	x23, w14, w5
	umull	x24, w13, w6
	eor	x20, x21, x20
	umull	x25, w16, w19
	eor	x7, x22, x7
	umull	x26, w15, w4
	eor	x7, x7, x20
	umull	x27, w15, w5
	eor	x21, x23, x24
	umull	x28, w14, w6
	umull	x29, w13, w19
	eor	x22, x26, x25
	umull	x30, w16, w4
	eor	x20, x21, x22
	umull	x5, w16, w5
	umull	x6, w15, w6
	eor	x21, x28, x29
	umull	x19, w14, w19
	eor	x22, x27, x30
	umull	x4, w13, w4
	eor	x5, x6, x5
	eor	x6, x21, x22
	and	x6, x6, #0x4444444444444444
	eor	x4, x19, x4
	eor	x4, x4, x5
	and	x5, x7, #0x1111111111111111
	and	x7, x20, #0x2222222222222222
	and	x4, x4, #0x8888888888888888
	orr	x6, x6, x7
	orr	x4, x5, x4
	orr	x4, x6, x4
	str	x4, [x18], #8
	b.ne	.Lluossavin.BB16_11
.Lluossavin.BB16_12:
	movi	v0.16b, #17
	movi	v1.16b, #34
	ldr	q20, [sp, #800]
	movi	v2.16b, #68
	movi	v3.16b, #136
	ldr	q7, [sp, #1120]
	ldp	w13, w14, [x1, #16]
	ldp	w15, w16, [x1, #24]
	and	v25.16b, v20.16b, v0.16b
	and	v21.16b, v20.16b, v1.16b
	ldr	q22, [sp, #1136]
	dup	v6.4s, w13
	dup	v18.4s, w14
	and	v19.16b, v20.16b, v2.16b
	dup	v16.4s, w16
	dup	v17.4s, w15
	and	v20.16b, v20.16b, v3.16b
	ldr	q23, [sp, #1152]
	ldr	q24, [sp, #1168]
	stp	q7, q22, [sp, #32]
	umull2	v26.2d, v6.4s, v25.4s
	stp	q7, q22, [sp, #608]
	umull2	v30.2d, v6.4s, v21.4s
	umull2	v27.2d, v16.4s, v21.4s
	umull2	v28.2d, v17.4s, v19.4s
	umull2	v29.2d, v18.4s, v20.4s
	stp	q23, q24, [sp, #64]
	umull	v7.2d, v16.2s, v21.2s
	umull	v22.2d, v17.2s, v19.2s
	stp	q23, q24, [sp, #640]
	umull	v23.2d, v6.2s, v25.2s
	umull	v24.2d, v18.2s, v20.2s
	umull	v31.2d, v6.2s, v21.2s
	umull	v8.2d, v16.2s, v19.2s
	umull	v9.2d, v17.2s, v20.2s
	eor	v26.16b, v29.16b, v26.16b
	eor	v27.16b, v28.16b, v27.16b
	umull2	v28.2d, v18.4s, v25.4s
	umull	v29.2d, v18.2s, v25.2s
	umull2	v10.2d, v16.4s, v19.4s
	umull2	v11.2d, v17.4s, v20.4s
	ldr	q4, [sp, #1216]
	ldr	q5, [sp, #1232]
	eor	v7.16b, v22.16b, v7.16b
	umull2	v12.2d, v6.4s, v20.4s
	and	x17, x2, #0x1c
	stp	q4, q5, [sp, #128]
	cmp	x17, #4
	stp	q4, q5, [sp, #704]
	eor	v4.16b, v24.16b, v23.16b
	eor	v5.16b, v26.16b, v27.16b
	eor	v22.16b, v29.16b, v31.16b
	eor	v23.16b, v28.16b, v30.16b
	eor	v24.16b, v9.16b, v8.16b
	eor	v26.16b, v11.16b, v10.16b
	umull	v27.2d, v17.2s, v25.2s
	umull2	v28.2d, v17.4s, v25.4s
	umull2	v29.2d, v18.4s, v21.4s
	umull	v30.2d, v18.2s, v21.2s
	umull2	v31.2d, v6.4s, v19.4s
	umull	v8.2d, v6.2s, v19.2s
	umull2	v9.2d, v16.4s, v20.4s
	umull	v10.2d, v16.2s, v20.2s
	umull2	v11.2d, v16.4s, v25.4s
	umull	v16.2d, v16.2s, v25.2s
	umull	v25.2d, v17.2s, v21.2s
	umull2	v17.2d, v17.4s, v21.4s
	umull2	v21.2d, v18.4s, v19.4s
	umull	v18.2d, v18.2s, v19.2s
	ldr	q19, [sp, #1184]
	umull	v6.2d, v6.2s, v20.2s
	eor	v29.16b, v29.16b, v31.16b
	eor	v20.16b, v30.16b, v8.16b
	ldr	q30, [sp, #1200]
	eor	v27.16b, v27.16b, v10.16b
	eor	v28.16b, v28.16b, v9.16b
	eor	v16.16b, v25.16b, v16.16b
	eor	v4.16b, v4.16b, v7.16b
	stp	q19, q30, [sp, #96]
	eor	v21.16b, v21.16b, v12.16b
	eor	v17.16b, v17.16b, v11.16b
	stp	q19, q30, [sp, #672]
	eor	v6.16b, v18.16b, v6.16b
	eor	v7.16b, v22.16b, v24.16b
	eor	v18.16b, v23.16b, v26.16b
	eor	v22.16b, v29.16b, v28.16b
	eor	v19.16b, v20.16b, v27.16b
	eor	v17.16b, v21.16b, v17.16b
	and	v4.16b, v4.16b, v0.16b
	and	v5.16b, v5.16b, v0.16b
	eor	v6.16b, v6.16b, v16.16b
	and	v7.16b, v7.16b, v1.16b
	movi	v31.2d, #0000000000000000
	and	v16.16b, v18.16b, v1.16b
	and	v18.16b, v22.16b, v2.16b
	and	v19.16b, v19.16b, v2.16b
	and	v17.16b, v17.16b, v3.16b
	and	v6.16b, v6.16b, v3.16b
	str	q31, [sp, #1232]
	orr	v16.16b, v18.16b, v16.16b
	orr	v7.16b, v19.16b, v7.16b
	str	q31, [sp, #1216]
	orr	v5.16b, v5.16b, v17.16b
	str	q31, [sp, #1200]
	orr	v4.16b, v4.16b, v6.16b
	str	q31, [sp, #1184]
	orr	v5.16b, v16.16b, v5.16b
	str	q31, [sp, #1168]
	orr	v4.16b, v7.16b, v4.16b
	str	q31, [sp, #1152]
	str	q31, [sp, #1136]
	str	q31, [sp, #1120]
	str	q5, [sp, #1136]
	str	q4, [sp, #1120]
	b.eq	.Lluossavin.BB16_16
	ldr	q16, [sp, #816]
	dup	v4.4s, w13
	dup	v6.4s, w14
	dup	v7.4s, w16
	dup	v19.4s, w15
	cmp	x17, #8
	and	v5.16b, v16.16b, v0.16b
	and	v18.16b, v16.16b, v3.16b
	and	v17.16b, v16.16b, v1.16b
	and	v16.16b, v16.16b, v2.16b
	movi	v3.16b, #68
	movi	v2.16b, #34
	movi	v1.16b, #17
	umull2	v21.2d, v4.4s, v5.4s
	umull2	v24.2d, v6.4s, v18.4s
	umull	v20.2d, v4.2s, v5.2s
	umull	v22.2d, v7.2s, v17.2s
	umull2	v23.2d, v7.4s, v17.4s
	umull2	v25.2d, v19.4s, v16.4s
	umull	v26.2d, v19.2s, v16.2s
	umull	v27.2d, v6.2s, v18.2s
	umull2	v28.2d, v7.4s, v16.4s
	umull	v29.2d, v7.2s, v16.2s
	umull	v30.2d, v19.2s, v18.2s
	umull2	v31.2d, v19.4s, v18.4s
	eor	v0.16b, v24.16b, v21.16b
	umull2	v24.2d, v6.4s, v5.4s
	umull	v8.2d, v19.2s, v5.2s
	eor	v23.16b, v25.16b, v23.16b
	umull	v25.2d, v6.2s, v5.2s
	umull2	v9.2d, v19.4s, v5.4s
	eor	v20.16b, v27.16b, v20.16b
	eor	v22.16b, v26.16b, v22.16b
	umull2	v26.2d, v4.4s, v17.4s
	str	q0, [sp, #16]
	umull	v27.2d, v4.2s, v17.2s
	umull2	v10.2d, v6.4s, v17.4s
	umull	v11.2d, v6.2s, v17.2s
	umull2	v12.2d, v4.4s, v16.4s
	umull	v13.2d, v4.2s, v16.2s
	umull2	v14.2d, v7.4s, v18.4s
	umull	v15.2d, v19.2s, v17.2s
	umull2	v17.2d, v19.4s, v17.4s
	umull2	v19.2d, v6.4s, v16.4s
	umull	v6.2d, v6.2s, v16.2s
	umull2	v16.2d, v7.4s, v5.4s
	umull2	v0.2d, v4.4s, v18.4s
	umull	v5.2d, v7.2s, v5.2s
	umull	v7.2d, v7.2s, v18.2s
	umull	v4.2d, v4.2s, v18.2s
	eor	v18.16b, v25.16b, v27.16b
	eor	v24.16b, v24.16b, v26.16b
	eor	v25.16b, v30.16b, v29.16b
	eor	v26.16b, v31.16b, v28.16b
	eor	v27.16b, v11.16b, v13.16b
	eor	v28.16b, v10.16b, v12.16b
	eor	v29.16b, v9.16b, v14.16b
	eor	v16.16b, v17.16b, v16.16b
	eor	v0.16b, v19.16b, v0.16b
	eor	v7.16b, v8.16b, v7.16b
	eor	v5.16b, v15.16b, v5.16b
	eor	v4.16b, v6.16b, v4.16b
	ldr	q6, [sp, #16]
	movi	v21.16b, #136
	eor	v17.16b, v20.16b, v22.16b
	eor	v19.16b, v24.16b, v26.16b
	eor	v20.16b, v28.16b, v29.16b
	eor	v6.16b, v6.16b, v23.16b
	eor	v0.16b, v0.16b, v16.16b
	eor	v16.16b, v18.16b, v25.16b
	eor	v7.16b, v27.16b, v7.16b
	eor	v4.16b, v4.16b, v5.16b
	and	v5.16b, v17.16b, v1.16b
	and	v17.16b, v19.16b, v2.16b
	and	v18.16b, v20.16b, v3.16b
	and	v6.16b, v6.16b, v1.16b
	and	v0.16b, v0.16b, v21.16b
	and	v1.16b, v16.16b, v2.16b
	and	v2.16b, v7.16b, v3.16b
	and	v3.16b, v4.16b, v21.16b
	orr	v4.16b, v18.16b, v17.16b
	orr	v0.16b, v6.16b, v0.16b
	orr	v1.16b, v2.16b, v1.16b
	orr	v2.16b, v5.16b, v3.16b
	orr	v0.16b, v4.16b, v0.16b
	orr	v1.16b, v1.16b, v2.16b
	str	q0, [sp, #1168]
	str	q1, [sp, #1152]
	b.eq	.Lluossavin.BB16_16
	movi	v0.16b, #17
	movi	v2.16b, #34
	ldr	q4, [sp, #832]
	movi	v3.16b, #136
	movi	v1.16b, #68
	cmp	x17, #12
	dup	v5.4s, w13
	dup	v6.4s, w14
	dup	v16.4s, w16
	dup	v19.4s, w15
	and	v7.16b, v4.16b, v0.16b
	and	v17.16b, v4.16b, v2.16b
	and	v18.16b, v4.16b, v3.16b
	and	v4.16b, v4.16b, v1.16b
	umull	v20.2d, v5.2s, v7.2s
	umull2	v21.2d, v5.4s, v7.4s
	umull	v22.2d, v16.2s, v17.2s
	umull2	v23.2d, v16.4s, v17.4s
	umull2	v24.2d, v6.4s, v18.4s
	umull2	v25.2d, v19.4s, v4.4s
	umull	v26.2d, v19.2s, v4.2s
	umull	v27.2d, v6.2s, v18.2s
	umull2	v28.2d, v16.4s, v4.4s
	umull	v29.2d, v16.2s, v4.2s
	umull	v30.2d, v19.2s, v18.2s
	umull2	v31.2d, v19.4s, v18.4s
	umull	v8.2d, v19.2s, v7.2s
	umull2	v9.2d, v19.4s, v7.4s
	umull2	v10.2d, v6.4s, v17.4s
	eor	v21.16b, v24.16b, v21.16b
	eor	v23.16b, v25.16b, v23.16b
	umull2	v24.2d, v6.4s, v7.4s
	eor	v20.16b, v27.16b, v20.16b
	eor	v22.16b, v26.16b, v22.16b
	umull	v25.2d, v6.2s, v7.2s
	umull2	v26.2d, v5.4s, v17.4s
	umull	v27.2d, v5.2s, v17.2s
	umull	v11.2d, v6.2s, v17.2s
	umull2	v12.2d, v5.4s, v4.4s
	umull	v13.2d, v5.2s, v4.2s
	umull	v15.2d, v19.2s, v17.2s
	umull2	v17.2d, v19.4s, v17.4s
	umull2	v19.2d, v6.4s, v4.4s
	umull	v4.2d, v6.2s, v4.2s
	umull2	v6.2d, v16.4s, v7.4s
	umull2	v0.2d, v5.4s, v18.4s
	umull2	v14.2d, v16.4s, v18.4s
	umull	v7.2d, v16.2s, v7.2s
	umull	v16.2d, v16.2s, v18.2s
	umull	v5.2d, v5.2s, v18.2s
	eor	v18.16b, v25.16b, v27.16b
	eor	v25.16b, v30.16b, v29.16b
	eor	v24.16b, v24.16b, v26.16b
	eor	v26.16b, v31.16b, v28.16b
	eor	v27.16b, v11.16b, v13.16b
	eor	v28.16b, v10.16b, v12.16b
	eor	v0.16b, v19.16b, v0.16b
	eor	v6.16b, v17.16b, v6.16b
	eor	v29.16b, v9.16b, v14.16b
	eor	v16.16b, v8.16b, v16.16b
	eor	v4.16b, v4.16b, v5.16b
	eor	v5.16b, v15.16b, v7.16b
	eor	v7.16b, v21.16b, v23.16b
	eor	v17.16b, v20.16b, v22.16b
	eor	v19.16b, v24.16b, v26.16b
	eor	v0.16b, v0.16b, v6.16b
	eor	v6.16b, v18.16b, v25.16b
	movi	v18.16b, #17
	eor	v20.16b, v28.16b, v29.16b
	eor	v16.16b, v27.16b, v16.16b
	eor	v4.16b, v4.16b, v5.16b
	and	v0.16b, v0.16b, v3.16b
	and	v6.16b, v6.16b, v2.16b
	and	v5.16b, v17.16b, v18.16b
	and	v7.16b, v7.16b, v18.16b
	and	v17.16b, v19.16b, v2.16b
	and	v18.16b, v20.16b, v1.16b
	and	v16.16b, v16.16b, v1.16b
	and	v4.16b, v4.16b, v3.16b
	orr	v0.16b, v7.16b, v0.16b
	orr	v17.16b, v18.16b, v17.16b
	orr	v6.16b, v16.16b, v6.16b
	orr	v4.16b, v5.16b, v4.16b
	orr	v0.16b, v17.16b, v0.16b
	orr	v4.16b, v6.16b, v4.16b
	str	q0, [sp, #1200]
	str	q4, [sp, #1184]
	b.eq	.Lluossavin.BB16_16
	movi	v2.16b, #136
	ldr	q0, [sp, #848]
	movi	v1.16b, #17
	movi	v3.16b, #34
	dup	v4.4s, w13
	dup	v6.4s, w14
	dup	v7.4s, w16
	dup	v18.4s, w15
	and	v17.16b, v0.16b, v2.16b
	movi	v2.16b, #68
	and	v5.16b, v0.16b, v1.16b
	and	v16.16b, v0.16b, v3.16b
	umull2	v20.2d, v4.4s, v5.4s
	umull2	v23.2d, v6.4s, v17.4s
	umull	v19.2d, v4.2s, v5.2s
	and	v0.16b, v0.16b, v2.16b
	umull	v21.2d, v7.2s, v16.2s
	umull2	v22.2d, v7.4s, v16.4s
	umull	v26.2d, v6.2s, v17.2s
	umull2	v30.2d, v18.4s, v17.4s
	umull	v29.2d, v18.2s, v17.2s
	umull	v31.2d, v18.2s, v5.2s
	umull2	v8.2d, v18.4s, v5.4s
	umull2	v9.2d, v6.4s, v16.4s
	umull	v25.2d, v18.2s, v0.2s
	umull2	v24.2d, v18.4s, v0.4s
	eor	v20.16b, v23.16b, v20.16b
	umull2	v23.2d, v6.4s, v5.4s
	umull2	v27.2d, v7.4s, v0.4s
	umull	v28.2d, v7.2s, v0.2s
	eor	v19.16b, v26.16b, v19.16b
	umull	v26.2d, v4.2s, v16.2s
	umull	v10.2d, v6.2s, v16.2s
	umull2	v11.2d, v4.4s, v0.4s
	umull	v12.2d, v4.2s, v0.2s
	umull	v14.2d, v18.2s, v16.2s
	eor	v21.16b, v25.16b, v21.16b
	umull2	v25.2d, v4.4s, v16.4s
	eor	v22.16b, v24.16b, v22.16b
	umull	v24.2d, v6.2s, v5.2s
	umull2	v16.2d, v18.4s, v16.4s
	umull2	v18.2d, v6.4s, v0.4s
	umull	v0.2d, v6.2s, v0.2s
	umull2	v6.2d, v7.4s, v5.4s
	umull2	v15.2d, v4.4s, v17.4s
	umull	v5.2d, v7.2s, v5.2s
	umull	v4.2d, v4.2s, v17.2s
	umull2	v13.2d, v7.4s, v17.4s
	umull	v7.2d, v7.2s, v17.2s
	eor	v23.16b, v23.16b, v25.16b
	eor	v25.16b, v30.16b, v27.16b
	eor	v17.16b, v24.16b, v26.16b
	eor	v24.16b, v29.16b, v28.16b
	eor	v26.16b, v10.16b, v12.16b
	eor	v6.16b, v16.16b, v6.16b
	eor	v16.16b, v19.16b, v21.16b
	eor	v27.16b, v9.16b, v11.16b
	eor	v0.16b, v0.16b, v4.16b
	eor	v4.16b, v14.16b, v5.16b
	eor	v19.16b, v23.16b, v25.16b
	eor	v28.16b, v8.16b, v13.16b
	eor	v18.16b, v18.16b, v15.16b
	eor	v7.16b, v31.16b, v7.16b
	eor	v5.16b, v20.16b, v22.16b
	eor	v17.16b, v17.16b, v24.16b
	eor	v0.16b, v0.16b, v4.16b
	and	v4.16b, v16.16b, v1.16b
	and	v16.16b, v19.16b, v3.16b
	movi	v19.16b, #136
	eor	v20.16b, v27.16b, v28.16b
	eor	v6.16b, v18.16b, v6.16b
	eor	v7.16b, v26.16b, v7.16b
	and	v5.16b, v5.16b, v1.16b
	and	v1.16b, v17.16b, v3.16b
	and	v18.16b, v20.16b, v2.16b
	and	v6.16b, v6.16b, v19.16b
	and	v3.16b, v7.16b, v2.16b
	and	v0.16b, v0.16b, v19.16b
	orr	v2.16b, v18.16b, v16.16b
	orr	v5.16b, v5.16b, v6.16b
	orr	v1.16b, v3.16b, v1.16b
	orr	v0.16b, v4.16b, v0.16b
	orr	v2.16b, v2.16b, v5.16b
	orr	v0.16b, v1.16b, v0.16b
	str	q2, [sp, #1232]
	str	q0, [sp, #1216]
.Lluossavin.BB16_16:
	subs	x17, x2, x17
	b.eq	.Lluossavin.BB16_19
	add	x18, sp, #1120
	add	x0, sp, #800
	add	x18, x18, x12, lsl #5
	add	x0, x0, x12, lsl #4
.Lluossavin.BB16_18:
	ldr	w4, [x0], #4
	subs	x17, x17, #1
	and	w5, w4, w11
	and	w6, w4, w10
	and	w19, w4, w9
	and	w4, w4, w8
	umull	x7, w13, w5
	umull	x20, w16, w6
	umull	x21, w15, w19
	umull	x22, w14, w4
	umull	x23, w14, w5
	umull	x24, w13, w6
	eor	x20, x21, x20
	umull	x25, w16, w19
	eor	x7, x22, x7
	umull	x26, w15, w4
	eor	x7, x7, x20
	umull	x27, w15, w5
	eor	x21, x23, x24
	umull	x28, w14, w6
	umull	x29, w13, w19
	eor	x22, x26, x25
	umull	x30, w16, w4
	eor	x20, x21, x22
	umull	x5, w16, w5
	umull	x6, w15, w6
	eor	x21, x28, x29
	umull	x19, w14, w19
	eor	x22, x27, x30
	umull	x4, w13, w4
	eor	x5, x6, x5
	eor	x6, x21, x22
	and	x6, x6, #0x4444444444444444
	eor	x4, x19, x4
	eor	x4, x4, x5
	and	x5, x7, #0x1111111111111111
	and	x7, x20, #0x2222222222222222
	and	x4, x4, #0x8888888888888888
	orr	x6, x6, x7
	orr	x4, x5, x4
	orr	x4, x6, x4
	str	x4, [x18], #8
	b.ne	.Lluossavin.BB16_18
.Lluossavin.BB16_19:
	movi	v0.16b, #17
	movi	v1.16b, #34
	ldr	q20, [sp, #736]
	movi	v2.16b, #68
	movi	v3.16b, #136
	ldr	q7, [sp, #1120]
	ldp	w13, w14, [x1, #32]
	ldp	w15, w16, [x1, #40]
	and	v25.16b, v20.16b, v0.16b
	and	v21.16b, v20.16b, v1.16b
	ldr	q22, [sp, #1136]
	dup	v6.4s, w13
	dup	v18.4s, w14
	and	v19.16b, v20.16b, v2.16b
	dup	v16.4s, w16
	dup	v17.4s, w15
	and	v20.16b, v20.16b, v3.16b
	ldr	q23, [sp, #1152]
	ldr	q24, [sp, #1168]
	stp	q7, q22, [sp, #32]
	umull2	v26.2d, v6.4s, v25.4s
	stp	q7, q22, [sp, #480]
	umull2	v30.2d, v6.4s, v21.4s
	umull2	v27.2d, v16.4s, v21.4s
	umull2	v28.2d, v17.4s, v19.4s
	umull2	v29.2d, v18.4s, v20.4s
	stp	q23, q24, [sp, #64]
	umull	v7.2d, v16.2s, v21.2s
	umull	v22.2d, v17.2s, v19.2s
	stp	q23, q24, [sp, #512]
	umull	v23.2d, v6.2s, v25.2s
	umull	v24.2d, v18.2s, v20.2s
	umull	v31.2d, v6.2s, v21.2s
	umull	v8.2d, v16.2s, v19.2s
	umull	v9.2d, v17.2s, v20.2s
	eor	v26.16b, v29.16b, v26.16b
	eor	v27.16b, v28.16b, v27.16b
	umull2	v28.2d, v18.4s, v25.4s
	umull	v29.2d, v18.2s, v25.2s
	umull2	v10.2d, v16.4s, v19.4s
	umull2	v11.2d, v17.4s, v20.4s
	ldr	q4, [sp, #1216]
	ldr	q5, [sp, #1232]
	eor	v7.16b, v22.16b, v7.16b
	umull2	v12.2d, v6.4s, v20.4s
	and	x17, x2, #0x1c
	stp	q4, q5, [sp, #128]
	cmp	x17, #4
	stp	q4, q5, [sp, #576]
	eor	v4.16b, v24.16b, v23.16b
	eor	v5.16b, v26.16b, v27.16b
	eor	v22.16b, v29.16b, v31.16b
	eor	v23.16b, v28.16b, v30.16b
	eor	v24.16b, v9.16b, v8.16b
	eor	v26.16b, v11.16b, v10.16b
	umull	v27.2d, v17.2s, v25.2s
	umull2	v28.2d, v17.4s, v25.4s
	umull2	v29.2d, v18.4s, v21.4s
	umull	v30.2d, v18.2s, v21.2s
	umull2	v31.2d, v6.4s, v19.4s
	umull	v8.2d, v6.2s, v19.2s
	umull2	v9.2d, v16.4s, v20.4s
	umull	v10.2d, v16.2s, v20.2s
	umull2	v11.2d, v16.4s, v25.4s
	umull	v16.2d, v16.2s, v25.2s
	umull	v25.2d, v17.2s, v21.2s
	umull2	v17.2d, v17.4s, v21.4s
	umull2	v21.2d, v18.4s, v19.4s
	umull	v18.2d, v18.2s, v19.2s
	ldr	q19, [sp, #1184]
	umull	v6.2d, v6.2s, v20.2s
	eor	v29.16b, v29.16b, v31.16b
	eor	v20.16b, v30.16b, v8.16b
	ldr	q30, [sp, #1200]
	eor	v27.16b, v27.16b, v10.16b
	eor	v28.16b, v28.16b, v9.16b
	eor	v16.16b, v25.16b, v16.16b
	eor	v4.16b, v4.16b, v7.16b
	stp	q19, q30, [sp, #96]
	eor	v21.16b, v21.16b, v12.16b
	eor	v17.16b, v17.16b, v11.16b
	stp	q19, q30, [sp, #544]
	eor	v6.16b, v18.16b, v6.16b
	eor	v7.16b, v22.16b, v24.16b
	eor	v18.16b, v23.16b, v26.16b
	eor	v22.16b, v29.16b, v28.16b
	eor	v19.16b, v20.16b, v27.16b
	eor	v17.16b, v21.16b, v17.16b
	and	v4.16b, v4.16b, v0.16b
	and	v5.16b, v5.16b, v0.16b
	eor	v6.16b, v6.16b, v16.16b
	and	v7.16b, v7.16b, v1.16b
	movi	v31.2d, #0000000000000000
	and	v16.16b, v18.16b, v1.16b
	and	v18.16b, v22.16b, v2.16b
	and	v19.16b, v19.16b, v2.16b
	and	v17.16b, v17.16b, v3.16b
	and	v6.16b, v6.16b, v3.16b
	str	q31, [sp, #1232]
	orr	v16.16b, v18.16b, v16.16b
	orr	v7.16b, v19.16b, v7.16b
	str	q31, [sp, #1216]
	orr	v5.16b, v5.16b, v17.16b
	str	q31, [sp, #1200]
	orr	v4.16b, v4.16b, v6.16b
	str	q31, [sp, #1184]
	orr	v5.16b, v16.16b, v5.16b
	str	q31, [sp, #1168]
	orr	v4.16b, v7.16b, v4.16b
	str	q31, [sp, #1152]
	str	q31, [sp, #1136]
	str	q31, [sp, #1120]
	str	q5, [sp, #1136]
	str	q4, [sp, #1120]
	b.eq	.Lluossavin.BB16_23
	ldr	q16, [sp, #752]
	dup	v4.4s, w13
	dup	v6.4s, w14
	dup	v7.4s, w16
	dup	v19.4s, w15
	cmp	x17, #8
	and	v5.16b, v16.16b, v0.16b
	and	v18.16b, v16.16b, v3.16b
	and	v17.16b, v16.16b, v1.16b
	and	v16.16b, v16.16b, v2.16b
	movi	v3.16b, #68
	movi	v2.16b, #34
	movi	v1.16b, #17
	umull2	v21.2d, v4.4s, v5.4s
	umull2	v24.2d, v6.4s, v18.4s
	umull	v20.2d, v4.2s, v5.2s
	umull	v22.2d, v7.2s, v17.2s
	umull2	v23.2d, v7.4s, v17.4s
	umull2	v25.2d, v19.4s, v16.4s
	umull	v26.2d, v19.2s, v16.2s
	umull	v27.2d, v6.2s, v18.2s
	umull2	v28.2d, v7.4s, v16.4s
	umull	v29.2d, v7.2s, v16.2s
	umull	v30.2d, v19.2s, v18.2s
	umull2	v31.2d, v19.4s, v18.4s
	eor	v0.16b, v24.16b, v21.16b
	umull2	v24.2d, v6.4s, v5.4s
	umull	v8.2d, v19.2s, v5.2s
	eor	v23.16b, v25.16b, v23.16b
	umull	v25.2d, v6.2s, v5.2s
	umull2	v9.2d, v19.4s, v5.4s
	eor	v20.16b, v27.16b, v20.16b
	eor	v22.16b, v26.16b, v22.16b
	umull2	v26.2d, v4.4s, v17.4s
	str	q0, [sp, #16]
	umull	v27.2d, v4.2s, v17.2s
	umull2	v10.2d, v6.4s, v17.4s
	umull	v11.2d, v6.2s, v17.2s
	umull2	v12.2d, v4.4s, v16.4s
	umull	v13.2d, v4.2s, v16.2s
	umull2	v14.2d, v7.4s, v18.4s
	umull	v15.2d, v19.2s, v17.2s
	umull2	v17.2d, v19.4s, v17.4s
	umull2	v19.2d, v6.4s, v16.4s
	umull	v6.2d, v6.2s, v16.2s
	umull2	v16.2d, v7.4s, v5.4s
	umull2	v0.2d, v4.4s, v18.4s
	umull	v5.2d, v7.2s, v5.2s
	umull	v7.2d, v7.2s, v18.2s
	umull	v4.2d, v4.2s, v18.2s
	eor	v18.16b, v25.16b, v27.16b
	eor	v24.16b, v24.16b, v26.16b
	eor	v25.16b, v30.16b, v29.16b
	eor	v26.16b, v31.16b, v28.16b
	eor	v27.16b, v11.16b, v13.16b
	eor	v28.16b, v10.16b, v12.16b
	eor	v29.16b, v9.16b, v14.16b
	eor	v16.16b, v17.16b, v16.16b
	eor	v0.16b, v19.16b, v0.16b
	eor	v7.16b, v8.16b, v7.16b
	eor	v5.16b, v15.16b, v5.16b
	eor	v4.16b, v6.16b, v4.16b
	ldr	q6, [sp, #16]
	movi	v21.16b, #136
	eor	v17.16b, v20.16b, v22.16b
	eor	v19.16b, v24.16b, v26.16b
	eor	v20.16b, v28.16b, v29.16b
	eor	v6.16b, v6.16b, v23.16b
	eor	v0.16b, v0.16b, v16.16b
	eor	v16.16b, v18.16b, v25.16b
	eor	v7.16b, v27.16b, v7.16b
	eor	v4.16b, v4.16b, v5.16b
	and	v5.16b, v17.16b, v1.16b
	and	v17.16b, v19.16b, v2.16b
	and	v18.16b, v20.16b, v3.16b
	and	v6.16b, v6.16b, v1.16b
	and	v0.16b, v0.16b, v21.16b
	and	v1.16b, v16.16b, v2.16b
	and	v2.16b, v7.16b, v3.16b
	and	v3.16b, v4.16b, v21.16b
	orr	v4.16b, v18.16b, v17.16b
	orr	v0.16b, v6.16b, v0.16b
	orr	v1.16b, v2.16b, v1.16b
	orr	v2.16b, v5.16b, v3.16b
	orr	v0.16b, v4.16b, v0.16b
	orr	v1.16b, v1.16b, v2.16b
	str	q0, [sp, #1168]
	str	q1, [sp, #1152]
	b.eq	.Lluossavin.BB16_23
	movi	v0.16b, #17
	movi	v2.16b, #34
	ldr	q4, [sp, #768]
	movi	v3.16b, #136
	movi	v1.16b, #68
	cmp	x17, #12
	dup	v5.4s, w13
	dup	v6.4s, w14
	dup	v16.4s, w16
	dup	v19.4s, w15
	and	v7.16b, v4.16b, v0.16b
	and	v17.16b, v4.16b, v2.16b
	and	v18.16b, v4.16b, v3.16b
	and	v4.16b, v4.16b, v1.16b
	umull	v20.2d, v5.2s, v7.2s
	umull2	v21.2d, v5.4s, v7.4s
	umull	v22.2d, v16.2s, v17.2s
	umull2	v23.2d, v16.4s, v17.4s
	umull2	v24.2d, v6.4s, v18.4s
	umull2	v25.2d, v19.4s, v4.4s
	umull	v26.2d, v19.2s, v4.2s
	umull	v27.2d, v6.2s, v18.2s
	umull2	v28.2d, v16.4s, v4.4s
	umull	v29.2d, v16.2s, v4.2s
	umull	v30.2d, v19.2s, v18.2s
	umull2	v31.2d, v19.4s, v18.4s
	umull	v8.2d, v19.2s, v7.2s
	umull2	v9.2d, v19.4s, v7.4s
	umull2	v10.2d, v6.4s, v17.4s
	eor	v21.16b, v24.16b, v21.16b
	eor	v23.16b, v25.16b, v23.16b
	umull2	v24.2d, v6.4s, v7.4s
	eor	v20.16b, v27.16b, v20.16b
	eor	v22.16b, v26.16b, v22.16b
	umull	v25.2d, v6.2s, v7.2s
	umull2	v26.2d, v5.4s, v17.4s
	umull	v27.2d, v5.2s, v17.2s
	umull	v11.2d, v6.2s, v17.2s
	umull2	v12.2d, v5.4s, v4.4s
	umull	v13.2d, v5.2s, v4.2s
	umull	v15.2d, v19.2s, v17.2s
	umull2	v17.2d, v19.4s, v17.4s
	umull2	v19.2d, v6.4s, v4.4s
	umull	v4.2d, v6.2s, v4.2s
	umull2	v6.2d, v16.4s, v7.4s
	umull2	v0.2d, v5.4s, v18.4s
	umull2	v14.2d, v16.4s, v18.4s
	umull	v7.2d, v16.2s, v7.2s
	umull	v16.2d, v16.2s, v18.2s
	umull	v5.2d, v5.2s, v18.2s
	eor	v18.16b, v25.16b, v27.16b
	eor	v25.16b, v30.16b, v29.16b
	eor	v24.16b, v24.16b, v26.16b
	eor	v26.16b, v31.16b, v28.16b
	eor	v27.16b, v11.16b, v13.16b
	eor	v28.16b, v10.16b, v12.16b
	eor	v0.16b, v19.16b, v0.16b
	eor	v6.16b, v17.16b, v6.16b
	eor	v29.16b, v9.16b, v14.16b
	eor	v16.16b, v8.16b, v16.16b
	eor	v4.16b, v4.16b, v5.16b
	eor	v5.16b, v15.16b, v7.16b
	eor	v7.16b, v21.16b, v23.16b
	eor	v17.16b, v20.16b, v22.16b
	eor	v19.16b, v24.16b, v26.16b
	eor	v0.16b, v0.16b, v6.16b
	eor	v6.16b, v18.16b, v25.16b
	movi	v18.16b, #17
	eor	v20.16b, v28.16b, v29.16b
	eor	v16.16b, v27.16b, v16.16b
	eor	v4.16b, v4.16b, v5.16b
	and	v0.16b, v0.16b, v3.16b
	and	v6.16b, v6.16b, v2.16b
	and	v5.16b, v17.16b, v18.16b
	and	v7.16b, v7.16b, v18.16b
	and	v17.16b, v19.16b, v2.16b
	and	v18.16b, v20.16b, v1.16b
	and	v16.16b, v16.16b, v1.16b
	and	v4.16b, v4.16b, v3.16b
	orr	v0.16b, v7.16b, v0.16b
	orr	v17.16b, v18.16b, v17.16b
	orr	v6.16b, v16.16b, v6.16b
	orr	v4.16b, v5.16b, v4.16b
	orr	v0.16b, v17.16b, v0.16b
	orr	v4.16b, v6.16b, v4.16b
	str	q0, [sp, #1200]
	str	q4, [sp, #1184]
	b.eq	.Lluossavin.BB16_23
	movi	v2.16b, #136
	ldr	q0, [sp, #784]
	movi	v1.16b, #17
	movi	v3.16b, #34
	dup	v4.4s, w13
	dup	v6.4s, w14
	dup	v7.4s, w16
	dup	v18.4s, w15
	and	v17.16b, v0.16b, v2.16b
	movi	v2.16b, #68
	and	v5.16b, v0.16b, v1.16b
	and	v16.16b, v0.16b, v3.16b
	umull2	v20.2d, v4.4s, v5.4s
	umull2	v23.2d, v6.4s, v17.4s
	umull	v19.2d, v4.2s, v5.2s
	and	v0.16b, v0.16b, v2.16b
	umull	v21.2d, v7.2s, v16.2s
	umull2	v22.2d, v7.4s, v16.4s
	umull	v26.2d, v6.2s, v17.2s
	umull2	v30.2d, v18.4s, v17.4s
	umull	v29.2d, v18.2s, v17.2s
	umull	v31.2d, v18.2s, v5.2s
	umull2	v8.2d, v18.4s, v5.4s
	umull2	v9.2d, v6.4s, v16.4s
	umull	v25.2d, v18.2s, v0.2s
	umull2	v24.2d, v18.4s, v0.4s
	eor	v20.16b, v23.16b, v20.16b
	umull2	v23.2d, v6.4s, v5.4s
	umull2	v27.2d, v7.4s, v0.4s
	umull	v28.2d, v7.2s, v0.2s
	eor	v19.16b, v26.16b, v19.16b
	umull	v26.2d, v4.2s, v16.2s
	umull	v10.2d, v6.2s, v16.2s
	umull2	v11.2d, v4.4s, v0.4s
	umull	v12.2d, v4.2s, v0.2s
	umull	v14.2d, v18.2s, v16.2s
	eor	v21.16b, v25.16b, v21.16b
	umull2	v25.2d, v4.4s, v16.4s
	eor	v22.16b, v24.16b, v22.16b
	umull	v24.2d, v6.2s, v5.2s
	umull2	v16.2d, v18.4s, v16.4s
	umull2	v18.2d, v6.4s, v0.4s
	umull	v0.2d, v6.2s, v0.2s
	umull2	v6.2d, v7.4s, v5.4s
	umull2	v15.2d, v4.4s, v17.4s
	umull	v5.2d, v7.2s, v5.2s
	umull	v4.2d, v4.2s, v17.2s
	umull2	v13.2d, v7.4s, v17.4s
	umull	v7.2d, v7.2s, v17.2s
	eor	v23.16b, v23.16b, v25.16b
	eor	v25.16b, v30.16b, v27.16b
	eor	v17.16b, v24.16b, v26.16b
	eor	v24.16b, v29.16b, v28.16b
	eor	v26.16b, v10.16b, v12.16b
	eor	v6.16b, v16.16b, v6.16b
	eor	v16.16b, v19.16b, v21.16b
	eor	v27.16b, v9.16b, v11.16b
	eor	v0.16b, v0.16b, v4.16b
	eor	v4.16b, v14.16b, v5.16b
	eor	v19.16b, v23.16b, v25.16b
	eor	v28.16b, v8.16b, v13.16b
	eor	v18.16b, v18.16b, v15.16b
	eor	v7.16b, v31.16b, v7.16b
	eor	v5.16b, v20.16b, v22.16b
	eor	v17.16b, v17.16b, v24.16b
	eor	v0.16b, v0.16b, v4.16b
	and	v4.16b, v16.16b, v1.16b
	and	v16.16b, v19.16b, v3.16b
	movi	v19.16b, #136
	eor	v20.16b, v27.16b, v28.16b
	eor	v6.16b, v18.16b, v6.16b
	eor	v7.16b, v26.16b, v7.16b
	and	v5.16b, v5.16b, v1.16b
	and	v1.16b, v17.16b, v3.16b
	and	v18.16b, v20.16b, v2.16b
	and	v6.16b, v6.16b, v19.16b
	and	v3.16b, v7.16b, v2.16b
	and	v0.16b, v0.16b, v19.16b
	orr	v2.16b, v18.16b, v16.16b
	orr	v5.16b, v5.16b, v6.16b
	orr	v1.16b, v3.16b, v1.16b
	orr	v0.16b, v4.16b, v0.16b
	orr	v2.16b, v2.16b, v5.16b
	orr	v0.16b, v1.16b, v0.16b
	str	q2, [sp, #1232]
	str	q0, [sp, #1216]
.Lluossavin.BB16_23:
	subs	x17, x2, x17
	b.eq	.Lluossavin.BB16_26
	add	x18, sp, #1120
	add	x0, sp, #736
	add	x18, x18, x12, lsl #5
	add	x12, x0, x12, lsl #4
.Lluossavin.BB16_25:
	ldr	w0, [x12], #4
	subs	x17, x17, #1
	and	w1, w0, w11
	and	w4, w0, w10
	and	w6, w0, w9
	and	w0, w0, w8
	umull	x5, w13, w1
	umull	x7, w16, w4
	umull	x19, w15, w6
	umull	x20, w14, w0
	umull	x21, w14, w1
	umull	x22, w13, w4
	eor	x7, x19, x7
	umull	x23, w16, w6
	eor	x5, x20, x5
	umull	x24, w15, w0
	eor	x5, x5, x7
	umull	x25, w15, w1
	eor	x19, x21, x22
	umull	x26, w14, w4
	umull	x27, w13, w6
	eor	x20, x24, x23
	umull	x28, w16, w0
	eor	x7, x19, x20
	umull	x1, w16, w1
	umull	x4, w15, w4
	eor	x19, x26, x27
	umull	x6, w14, w6
	eor	x20, x25, x28
	umull	x0, w13, w0
	eor	x1, x4, x1
	eor	x4, x19, x20
	and	x4, x4, #0x4444444444444444
	eor	x0, x6, x0
	eor	x0, x0, x1
	and	x1, x5, #0x1111111111111111
	and	x5, x7, #0x2222222222222222
	and	x0, x0, #0x8888888888888888
	orr	x4, x4, x5
	orr	x0, x1, x0
	orr	x0, x4, x0
	str	x0, [x18], #8
	b.ne	.Lluossavin.BB16_25
.Lluossavin.BB16_26:
	ldr	q0, [sp, #1136]
	ldr	q1, [sp, #1120]
	and	x8, x2, #0x1e
	ldr	q5, [sp, #608]
	ldr	q16, [sp, #480]
	cmp	x8, #2
	stp	q1, q0, [sp, #32]
	ldr	q4, [sp, #1216]
	ldr	q7, [sp, #1232]
	stp	q1, q0, [sp, #352]
	ldr	q2, [sp, #1184]
	ldr	q3, [sp, #1200]
	ldr	q6, [sp, #352]
	stp	q4, q7, [sp, #128]
	ldr	q1, [sp, #1152]
	stp	q2, q3, [sp, #96]
	eor	v6.16b, v5.16b, v6.16b
	stp	q2, q3, [sp, #416]
	stp	q4, q7, [sp, #448]
	eor	v0.16b, v6.16b, v16.16b
	ldr	q6, [sp, #1168]
	stp	q1, q6, [sp, #64]
	ushr	v4.2d, v0.2d, #32
	shl	v0.2d, v0.2d, #32
	stp	q1, q6, [sp, #384]
	eor	v2.16b, v4.16b, v5.16b
	eor	v0.16b, v0.16b, v16.16b
	str	q2, [x3]
	str	q0, [x3, #128]
	b.eq	.Lluossavin.BB16_34
	ldr	q0, [sp, #624]
	ldr	q1, [sp, #368]
	cmp	x8, #4
	ldr	q2, [sp, #496]
	eor	v1.16b, v0.16b, v1.16b
	eor	v1.16b, v1.16b, v2.16b
	ushr	v3.2d, v1.2d, #32
	shl	v1.2d, v1.2d, #32
	eor	v0.16b, v3.16b, v0.16b
	eor	v1.16b, v1.16b, v2.16b
	str	q0, [x3, #16]
	str	q1, [x3, #144]
	b.eq	.Lluossavin.BB16_34
	ldr	q0, [sp, #640]
	ldr	q1, [sp, #384]
	cmp	x8, #6
	ldr	q2, [sp, #512]
	eor	v1.16b, v0.16b, v1.16b
	eor	v1.16b, v1.16b, v2.16b
	ushr	v3.2d, v1.2d, #32
	shl	v1.2d, v1.2d, #32
	eor	v0.16b, v3.16b, v0.16b
	eor	v1.16b, v1.16b, v2.16b
	str	q0, [x3, #32]
	str	q1, [x3, #160]
	b.eq	.Lluossavin.BB16_34
	ldr	q0, [sp, #656]
	ldr	q1, [sp, #400]
	cmp	x8, #8
	ldr	q2, [sp, #528]
	eor	v1.16b, v0.16b, v1.16b
	eor	v1.16b, v1.16b, v2.16b
	ushr	v3.2d, v1.2d, #32
	shl	v1.2d, v1.2d, #32
	eor	v0.16b, v3.16b, v0.16b
	eor	v1.16b, v1.16b, v2.16b
	str	q0, [x3, #48]
	str	q1, [x3, #176]
	b.eq	.Lluossavin.BB16_34
	ldr	q0, [sp, #672]
	ldr	q1, [sp, #416]
	cmp	x8, #10
	ldr	q2, [sp, #544]
	eor	v1.16b, v0.16b, v1.16b
	eor	v1.16b, v1.16b, v2.16b
	ushr	v3.2d, v1.2d, #32
	shl	v1.2d, v1.2d, #32
	eor	v0.16b, v3.16b, v0.16b
	eor	v1.16b, v1.16b, v2.16b
	str	q0, [x3, #64]
	str	q1, [x3, #192]
	b.eq	.Lluossavin.BB16_34
	ldr	q0, [sp, #688]
	ldr	q1, [sp, #432]
	cmp	x8, #12
	ldr	q2, [sp, #560]
	eor	v1.16b, v0.16b, v1.16b
	eor	v1.16b, v1.16b, v2.16b
	ushr	v3.2d, v1.2d, #32
	shl	v1.2d, v1.2d, #32
	eor	v0.16b, v3.16b, v0.16b
	eor	v1.16b, v1.16b, v2.16b
	str	q0, [x3, #80]
	str	q1, [x3, #208]
	b.eq	.Lluossavin.BB16_34
	ldr	q0, [sp, #704]
	ldr	q1, [sp, #448]
	cmp	x8, #14
	ldr	q2, [sp, #576]
	eor	v1.16b, v0.16b, v1.16b
	eor	v1.16b, v1.16b, v2.16b
	ushr	v3.2d, v1.2d, #32
	shl	v1.2d, v1.2d, #32
	eor	v0.16b, v3.16b, v0.16b
	eor	v1.16b, v1.16b, v2.16b
	str	q0, [x3, #96]
	str	q1, [x3, #224]
	b.eq	.Lluossavin.BB16_34
	ldr	q0, [sp, #720]
	ldr	q1, [sp, #464]
	ldr	q2, [sp, #592]
	eor	v1.16b, v0.16b, v1.16b
	eor	v1.16b, v1.16b, v2.16b
	ushr	v3.2d, v1.2d, #32
	shl	v1.2d, v1.2d, #32
	eor	v0.16b, v3.16b, v0.16b
	eor	v1.16b, v1.16b, v2.16b
	str	q0, [x3, #112]
	str	q1, [x3, #240]
.Lluossavin.BB16_34:
	subs	x8, x2, x8
	b.eq	.Lluossavin.BB16_37
	lsl	x9, x2, #3
	add	x10, sp, #352
	add	x11, sp, #608
	add	x13, sp, #480
	and	x12, x9, #0xfffffffffffffff0
	add	x9, x10, x12
	add	x10, x12, x3
	add	x11, x11, x12
	add	x10, x10, #128
	add	x12, x13, x12
.Lluossavin.BB16_36:
	ldr	x13, [x11], #8
	subs	x8, x8, #1
	ldr	x14, [x9], #8
	ldr	x15, [x12], #8
	eor	x14, x13, x14
	eor	x14, x14, x15
	eor	x13, x13, x14, lsr #32
	eor	x14, x15, x14, lsl #32
	stur	x13, [x10, #-128]
	str	x14, [x10], #8
	b.ne	.Lluossavin.BB16_36
.Lluossavin.BB16_37:
	add	sp, sp, #1312
	ldp	x20, x19, [sp, #144]
	ldp	x22, x21, [sp, #128]
	ldp	x24, x23, [sp, #112]
	ldp	x26, x25, [sp, #96]
	ldp	x28, x27, [sp, #80]
	ldp	x29, x30, [sp, #64]
	ldp	d9, d8, [sp, #48]
	ldp	d11, d10, [sp, #32]
	ldp	d13, d12, [sp, #16]
	ldp	d15, d14, [sp], #160
	ret
.Lluossavin.func_end16:
	.size	"carryless::many::products64", .Lluossavin.func_end16-"carryless::many::products64"

	.section	".text.field::power","ax",@progbits
	.p2align	2
	.type	"field::power",@function
"field::power":
	cbz	x2, .Lluossavin.BB17_6
	stp	x30, x25, [sp, #-64]!
	stp	x24, x23, [sp, #16]
	mov	w23, #1145324612
	mov	w24, #572662306
	stp	x22, x21, [sp, #32]
	mov	x21, x0
	mov	w22, #-2004318072
	stp	x20, x19, [sp, #48]
	mov	x19, x2
	mov	x20, x1
	mov	x1, xzr
	mov	x0, #-9223372036854775808
	mov	w25, #286331153
	b	.Lluossavin.BB17_3
.Lluossavin.BB17_2:
	lsr	x8, x21, #32
	and	x12, x21, x25
	and	x13, x21, x23
	umull	x12, w12, w12
	and	x15, x21, x24
	and	x16, x21, x22
	and	x9, x8, x25
	and	x10, x8, x23
	and	x11, x8, x24
	umull	x9, w9, w9
	and	x8, x8, x22
	and	x18, x20, x24
	umull	x10, w10, w10
	lsr	x14, x20, #32
	lsr	x19, x19, #1
	umull	x11, w11, w11
	umull	x8, w8, w8
	and	x17, x14, x25
	umull	x13, w13, w13
	eor	x9, x9, x10
	and	x10, x20, x22
	umull	x15, w15, w15
	and	x9, x9, #0x1111111111111111
	umull	x16, w16, w16
	eor	x8, x11, x8
	and	x11, x20, x25
	umull	x18, w18, w18
	eor	x12, x12, x13
	and	x13, x20, x23
	umull	x10, w10, w10
	and	x12, x12, #0x1111111111111111
	and	x8, x8, #0x4444444444444444
	umull	x11, w11, w11
	eor	x15, x15, x16
	and	x16, x14, x23
	umull	x13, w13, w13
	and	x15, x15, #0x4444444444444444
	orr	x8, x9, x8
	eor	x10, x18, x10
	and	x18, x14, x24
	and	x14, x14, x22
	umull	x17, w17, w17
	and	x10, x10, #0x4444444444444444
	orr	x12, x12, x15
	umull	x16, w16, w16
	eor	x13, x11, x13
	umull	x18, w18, w18
	and	x13, x13, #0x1111111111111111
	umull	x14, w14, w14
	orr	x10, x13, x10
	eor	x13, x17, x16
	lsl	x15, x10, #58
	orr	x12, x10, x12, lsl #1
	and	x13, x13, #0x1111111111111111
	eor	x14, x18, x14
	orr	x11, x15, x11, lsl #63
	eor	x12, x12, x17, lsl #63
	and	x14, x14, #0x4444444444444444
	orr	x9, x13, x14
	eor	x12, x12, x10, lsr #1
	eor	x8, x9, x8
	eor	x13, x11, x9, lsl #1
	lsl	x8, x8, #1
	eor	x12, x12, x10, lsr #6
	eor	x8, x8, x13, lsr #1
	eor	x10, x12, x10, lsl #1
	eor	x8, x8, x13, lsr #2
	eor	x20, x10, x9, lsl #58
	eor	x8, x8, x13, lsr #7
	eor	x21, x8, x11
	cbz	x19, .Lluossavin.BB17_5
.Lluossavin.BB17_3:
	tbz	w19, #0, .Lluossavin.BB17_2
	mov	x2, x21
	mov	x3, x20
	bl	"field::galois_mul"
	b	.Lluossavin.BB17_2
.Lluossavin.BB17_5:
	ldp	x20, x19, [sp, #48]
	ldp	x22, x21, [sp, #32]
	ldp	x24, x23, [sp, #16]
	ldp	x30, x25, [sp], #64
	ret
.Lluossavin.BB17_6:
	mov	x1, xzr
	mov	x0, #-9223372036854775808
	ret
.Lluossavin.func_end17:
	.size	"field::power", .Lluossavin.func_end17-"field::power"

	.section	.rodata.cst16,"aM",@progbits,16
	.p2align	4, 0x0
.Lluossavin.CPI18_0:
	.word	286331153
	.word	572662306
	.word	1145324612
	.word	2290649224
	.section	".text.field::galois_mul","ax",@progbits
	.p2align	2
	.type	"field::galois_mul",@function
"field::galois_mul":
	sub	sp, sp, #176
	lsr	x8, x2, #32
	adrp	x9, .Lluossavin.CPI18_0
	dup	v2.4s, w2
	lsr	x10, x3, #32
	ldr	q1, [x9, :lo12:.Lluossavin.CPI18_0]
	eor	x9, x3, x2
	dup	v0.4s, w8
	eor	w8, w8, w2
	dup	v5.4s, w3
	dup	v3.4s, w8
	dup	v4.4s, w10
	and	v2.16b, v2.16b, v1.16b
	eor	w8, w10, w3
	stp	x2, x3, [sp]
	mov	x2, sp
	and	v0.16b, v0.16b, v1.16b
	dup	v6.4s, w8
	lsr	x8, x9, #32
	and	v3.16b, v3.16b, v1.16b
	str	x30, [sp, #160]
	stp	q0, q2, [sp, #16]
	and	v0.16b, v4.16b, v1.16b
	dup	v2.4s, w8
	eor	w8, w8, w9
	and	v4.16b, v5.16b, v1.16b
	and	v5.16b, v6.16b, v1.16b
	stp	q3, q0, [sp, #48]
	dup	v3.4s, w9
	dup	v0.4s, w8
	and	v2.16b, v2.16b, v1.16b
	stp	q4, q5, [sp, #80]
	and	v3.16b, v3.16b, v1.16b
	and	v0.16b, v0.16b, v1.16b
	stp	q2, q3, [sp, #112]
	str	q0, [sp, #144]
	bl	"field::times"
	ldr	x30, [sp, #160]
	add	sp, sp, #176
	ret
.Lluossavin.func_end18:
	.size	"field::galois_mul", .Lluossavin.func_end18-"field::galois_mul"

	.section	.rodata.cst16,"aM",@progbits,16
	.p2align	4, 0x0
.Lluossavin.CPI19_0:
	.word	286331153
	.word	572662306
	.word	1145324612
	.word	2290649224
	.section	".text.ghash::Ghash::absorb_lengths","ax",@progbits
	.p2align	2
	.type	"ghash::Ghash::absorb_lengths",@function
"ghash::Ghash::absorb_lengths":
	sub	sp, sp, #192
	stp	x30, x21, [sp, #160]
	adrp	x9, .Lluossavin.CPI19_0
	stp	x20, x19, [sp, #176]
	ldp	x20, x21, [x1]
	ldr	q0, [x9, :lo12:.Lluossavin.CPI19_0]
	mov	x19, x0
	lsr	x8, x20, #32
	dup	v2.4s, w20
	lsr	x9, x21, #32
	dup	v5.4s, w21
	stp	x20, x21, [sp]
	dup	v1.4s, w8
	eor	w8, w8, w20
	dup	v4.4s, w9
	dup	v3.4s, w8
	and	v2.16b, v2.16b, v0.16b
	eor	x8, x21, x20
	lsr	x10, x8, #32
	eor	w9, w9, w21
	and	v1.16b, v1.16b, v0.16b
	dup	v6.4s, w9
	and	v3.16b, v3.16b, v0.16b
	eor	w9, w10, w8
	stp	q1, q2, [sp, #16]
	and	v1.16b, v4.16b, v0.16b
	dup	v2.4s, w10
	and	v4.16b, v5.16b, v0.16b
	and	v5.16b, v6.16b, v0.16b
	stp	q3, q1, [sp, #48]
	dup	v3.4s, w8
	dup	v1.4s, w9
	ldp	x8, x9, [x1, #16]
	and	v2.16b, v2.16b, v0.16b
	stp	q4, q5, [sp, #80]
	and	v3.16b, v3.16b, v0.16b
	and	v0.16b, v1.16b, v0.16b
	eor	x0, x8, x2, lsl #3
	eor	x1, x9, x3, lsl #3
	mov	x2, sp
	stp	q2, q3, [sp, #112]
	str	q0, [sp, #144]
	bl	"field::times"
	stp	x20, x21, [x19]
	ldp	x30, x21, [sp, #160]
	stp	x0, x1, [x19, #16]
	ldp	x20, x19, [sp, #176]
	add	sp, sp, #192
	ret
.Lluossavin.func_end19:
	.size	"ghash::Ghash::absorb_lengths", .Lluossavin.func_end19-"ghash::Ghash::absorb_lengths"

	.section	".text.pieces::hashing::Hashing::take_in","ax",@progbits
	.p2align	2
	.type	"pieces::hashing::Hashing::take_in",@function
"pieces::hashing::Hashing::take_in":
	sub	sp, sp, #288
	stp	x29, x30, [sp, #192]
	mov	w8, #16
	ldr	q0, [x1, #32]
	ldp	w29, w9, [x1, #16]
	stp	x28, x27, [sp, #208]
	sub	x28, x8, x2
	stp	x26, x25, [sp, #224]
	cmp	x28, x4
	mov	x25, x3
	ldp	w27, w26, [x1, #24]
	stp	x20, x19, [sp, #272]
	mov	x20, x1
	mov	x19, x0
	add	x0, sp, #32
	add	x1, sp, #80
	stp	x24, x23, [sp, #240]
	stp	x22, x21, [sp, #256]
	mov	x22, x4
	mov	x23, x2
	str	w9, [sp, #12]
	csel	x24, x28, x4, lo
	add	x21, sp, #32
	str	q0, [sp, #80]
	stp	xzr, xzr, [sp, #32]
	bl	memcpy
	add	x0, x21, x23
	mov	x1, x25
	mov	x2, x24
	bl	memcpy
	subs	x22, x22, x28
	b.hs	.Lluossavin.BB20_2
	ldr	q0, [x20]
	ldr	q1, [sp, #32]
	ldr	w25, [sp, #12]
	str	w29, [x19, #16]
	str	q0, [x19]
	str	q1, [x19, #32]
	b	.Lluossavin.BB20_3
.Lluossavin.BB20_2:
	ldr	q0, [x20]
	ldr	w8, [sp, #12]
	add	x0, sp, #128
	stp	w27, w26, [sp, #104]
	ldr	q2, [sp, #32]
	add	x1, sp, #160
	stp	w29, w8, [sp, #96]
	add	x8, sp, #80
	mov	w3, #16
	str	q0, [sp, #80]
	movi	v0.2d, #0000000000000000
	add	x2, x8, #32
	ldp	q1, q3, [sp, #80]
	add	x21, x25, x28
	and	x23, x22, #0xfffffffffffffff0
	rev64	v1.16b, v1.16b
	stp	q0, q0, [sp, #48]
	stp	q2, q0, [sp, #112]
	rev64	v2.16b, v3.16b
	str	q0, [sp, #144]
	stp	q1, q2, [sp, #160]
	bl	"ghash::Ghash::absorb_each"
	add	x0, sp, #48
	add	x1, sp, #128
	and	x3, x22, #0xfffffffffffffff0
	mov	x2, x21
	bl	"ghash::Ghash::absorb_all"
	ldp	w8, w9, [sp, #64]
	ldp	w10, w11, [sp, #72]
	add	x0, sp, #160
	add	x1, x21, x23
	and	x2, x22, #0xf
	stp	xzr, xzr, [sp, #160]
	rev	w24, w9
	rev	w25, w8
	rev	w27, w11
	rev	w26, w10
	bl	memcpy
	ldr	q0, [sp, #160]
	ldr	q1, [x20]
	str	w24, [x19, #16]
	str	q0, [sp, #16]
	str	q1, [x19]
	str	q0, [x19, #32]
.Lluossavin.BB20_3:
	stp	w25, w27, [x19, #20]
	ldp	x22, x21, [sp, #256]
	str	w26, [x19, #28]
	ldp	x20, x19, [sp, #272]
	ldp	x24, x23, [sp, #240]
	ldp	x26, x25, [sp, #224]
	ldp	x28, x27, [sp, #208]
	ldp	x29, x30, [sp, #192]
	add	sp, sp, #288
	ret
.Lluossavin.func_end20:
	.size	"pieces::hashing::Hashing::take_in", .Lluossavin.func_end20-"pieces::hashing::Hashing::take_in"

	.section	.rodata.cst16,"aM",@progbits,16
	.p2align	4, 0x0
.Lluossavin.CPI21_0:
	.xword	-32
	.xword	0
	.section	".text.pieces::tagging::begin","ax",@progbits
	.p2align	2
	.type	"pieces::tagging::begin",@function
"pieces::tagging::begin":
	sub	sp, sp, #336
	ldp	q0, q1, [x2, #64]
	stp	x22, x21, [sp, #304]
	stp	x20, x19, [sp, #320]
	mov	x21, x2
	mov	x19, x0
	stp	x3, x4, [sp, #8]
	add	x0, sp, #80
	add	x3, sp, #48
	stp	q0, q1, [sp, #176]
	ldp	q2, q0, [x2, #96]
	stp	x29, x30, [sp, #240]
	stp	x28, x27, [sp, #256]
	stp	q2, q0, [sp, #208]
	ldp	q1, q0, [x2]
	stp	x26, x25, [sp, #272]
	mov	x25, x5
	stp	x24, x23, [sp, #288]
	mov	x24, x6
	stp	q1, q0, [sp, #112]
	ldp	q2, q0, [x2, #32]
	add	x2, sp, #112
	stp	xzr, xzr, [sp, #80]
	stp	xzr, xzr, [sp, #48]
	stp	q2, q0, [sp, #144]
	str	w1, [sp, #44]
	bl	"cipher::encrypt"
	ldp	w8, w27, [sp, #80]
	ldp	w28, w29, [sp, #88]
	cmp	x24, #12
	orr	x20, x27, x8, lsl #32
	str	x8, [sp, #32]
	orr	x26, x29, x28, lsl #32
	b.ne	.Lluossavin.BB21_2
	ldp	w8, w9, [x25]
	ldr	w10, [x25, #8]
	mov	w23, #1
	rev	w24, w8
	rev	w25, w9
	rev	w22, w10
	b	.Lluossavin.BB21_3
.Lluossavin.BB21_2:
	movi	v0.2d, #0000000000000000
	add	x0, sp, #80
	add	x1, sp, #48
	mov	x2, x25
	mov	x3, x24
	stp	x20, x26, [sp, #48]
	stp	xzr, xzr, [sp, #64]
	stp	q0, q0, [sp, #80]
	bl	"ghash::Ghash::absorb_all"
	add	x0, sp, #112
	add	x1, sp, #80
	mov	x2, xzr
	mov	x3, x24
	bl	"ghash::Ghash::absorb_lengths"
	ldp	w25, w24, [sp, #128]
	ldp	w23, w22, [sp, #136]
.Lluossavin.BB21_3:
	movi	v0.2d, #0000000000000000
	ldp	x2, x3, [sp, #8]
	add	x0, sp, #112
	add	x1, sp, #80
	stp	x20, x26, [sp, #80]
	stp	xzr, xzr, [sp, #96]
	stp	q0, q0, [sp, #112]
	bl	"ghash::Ghash::absorb_all"
	ldp	q1, q2, [x21, #64]
	adrp	x8, .Lluossavin.CPI21_0
	ldr	q0, [sp, #128]
	ldr	q5, [x8, :lo12:.Lluossavin.CPI21_0]
	add	x0, sp, #48
	ldr	x8, [sp, #32]
	ldr	w1, [sp, #44]
	add	x2, sp, #112
	dup	v4.2d, v0.d[1]
	dup	v0.2d, v0.d[0]
	stp	q1, q2, [sp, #176]
	ldp	q3, q1, [x21, #96]
	add	x3, sp, #80
	stp	w24, w25, [sp, #80]
	rev	w20, w8
	rev	w26, w28
	ushl	v0.2d, v0.2d, v5.2d
	stp	w22, w23, [sp, #88]
	stp	q3, q1, [sp, #208]
	ushl	v3.2d, v4.2d, v5.2d
	ldp	q2, q1, [x21]
	stp	xzr, xzr, [sp, #48]
	uzp1	v0.4s, v0.4s, v3.4s
	stp	q2, q1, [sp, #112]
	ldp	q4, q1, [x21, #32]
	rev	w21, w27
	rev	w27, w29
	rev32	v0.16b, v0.16b
	stp	q4, q1, [sp, #144]
	str	q0, [sp, #16]
	bl	"cipher::encrypt"
	ldr	q0, [sp, #48]
	ldr	q1, [sp, #16]
	stp	w24, w25, [x19]
	stp	w22, w23, [x19, #8]
	ldp	x29, x30, [sp, #240]
	rev32	v0.16b, v0.16b
	stp	w23, w20, [x19, #16]
	stp	w21, w26, [x19, #24]
	ldp	x22, x21, [sp, #304]
	str	w27, [x19, #32]
	ldp	x24, x23, [sp, #288]
	stur	q1, [x19, #36]
	ldp	x26, x25, [sp, #272]
	stur	xzr, [x19, #60]
	ldp	x28, x27, [sp, #256]
	stur	xzr, [x19, #52]
	stur	q0, [x19, #68]
	ldp	x20, x19, [sp, #320]
	add	sp, sp, #336
	ret
.Lluossavin.func_end21:
	.size	"pieces::tagging::begin", .Lluossavin.func_end21-"pieces::tagging::begin"

	.section	.rodata.cst16,"aM",@progbits,16
	.p2align	4, 0x0
.Lluossavin.CPI22_0:
	.xword	-32
	.xword	0
.Lluossavin.CPI22_1:
	.word	0
	.word	1
	.word	2
	.word	3
.Lluossavin.CPI22_2:
	.word	4
	.word	5
	.word	6
	.word	7
.Lluossavin.CPI22_3:
	.word	8
	.word	9
	.word	10
	.word	11
.Lluossavin.CPI22_4:
	.word	12
	.word	13
	.word	14
	.word	15
.Lluossavin.CPI22_5:
	.word	16
	.word	17
	.word	18
	.word	19
.Lluossavin.CPI22_6:
	.word	20
	.word	21
	.word	22
	.word	23
.Lluossavin.CPI22_7:
	.word	83886080
	.word	100663296
	.word	117440512
	.word	134217728
.Lluossavin.CPI22_8:
	.word	16777216
	.word	33554432
	.word	50331648
	.word	67108864
.Lluossavin.CPI22_9:
	.word	218103808
	.word	234881024
	.word	251658240
	.word	268435456
.Lluossavin.CPI22_10:
	.word	150994944
	.word	167772160
	.word	184549376
	.word	201326592
.Lluossavin.CPI22_11:
	.word	352321536
	.word	369098752
	.word	385875968
	.word	402653184
.Lluossavin.CPI22_12:
	.word	285212672
	.word	301989888
	.word	318767104
	.word	335544320
.Lluossavin.CPI22_15:
	.word	4294967280
	.word	4294967288
	.word	0
	.word	0
.Lluossavin.CPI22_17:
	.hword	13
	.hword	0
	.hword	12
	.hword	11
	.hword	10
	.hword	9
	.hword	8
	.hword	7
	.section	.rodata.cst8,"aM",@progbits,8
	.p2align	3, 0x0
.Lluossavin.CPI22_13:
	.word	4294967272
	.word	0
.Lluossavin.CPI22_14:
	.word	4294967280
	.word	4294967288
.Lluossavin.CPI22_16:
	.hword	6
	.hword	5
	.hword	4
	.hword	3
	.section	".text.cipher_mode::Sm4CipherMode::call","ax",@progbits
	.p2align	2
	.type	"cipher_mode::Sm4CipherMode::call",@function
"cipher_mode::Sm4CipherMode::call":
	stp	x29, x30, [sp, #-96]!
	stp	x28, x27, [sp, #16]
	stp	x26, x25, [sp, #32]
	stp	x24, x23, [sp, #48]
	stp	x22, x21, [sp, #64]
	stp	x20, x19, [sp, #80]
	sub	sp, sp, #3072
	str	xzr, [sp]
	sub	sp, sp, #2560
	movi	v0.2d, #0000000000000000
	str	xzr, [sp]
	add	x8, sp, #876
	str	wzr, [sp, #1128]
	ldrb	w27, [x1, #128]
	ldrh	w28, [x1, #130]
	stur	wzr, [x8, #255]
	ldrb	w10, [x1, #132]
	ldrb	w8, [x1, #133]
	ldrb	w9, [x1, #136]
	add	x29, sp, #1152
	str	wzr, [sp, #1144]
	strb	wzr, [sp, #1148]
	str	wzr, [sp, #1136]
	strh	wzr, [sp, #1140]
	str	wzr, [sp, #1296]
	stur	wzr, [x29, #147]
	str	q0, [sp, #1152]
	str	q0, [sp, #1168]
	str	q0, [sp, #1184]
	str	q0, [sp, #1200]
	str	q0, [sp, #1216]
	str	q0, [sp, #1232]
	str	q0, [sp, #1248]
	str	q0, [x29, #112]
	stur	wzr, [x29, #127]
	cbz	w27, .Lluossavin.BB22_3
	mov	w8, wzr
	cmp	w27, #1
	mov	w10, wzr
	b.eq	.Lluossavin.BB22_13
	mov	w10, wzr
	mov	w8, #11
	b	.Lluossavin.BB22_13
.Lluossavin.BB22_3:
	ldr	x25, [sp, #5728]
	cmp	x25, #12
	ccmp	w9, #4, #0, eq
	cset	w11, ne
	cmp	x25, #16
	b.eq	.Lluossavin.BB22_6
	tbz	w11, #0, .Lluossavin.BB22_6
	mov	w10, wzr
	mov	w8, #8
	b	.Lluossavin.BB22_13
.Lluossavin.BB22_6:
	tst	w2, #0xff
	b.ne	.Lluossavin.BB22_9
	tbz	w10, #0, .Lluossavin.BB22_9
	mov	w10, wzr
	mov	w8, #12
	b	.Lluossavin.BB22_13
.Lluossavin.BB22_9:
	mov	w10, #16777216
	cmp	x4, x10
	b.ls	.Lluossavin.BB22_11
	cmp	w9, #4
	b.eq	.Lluossavin.BB22_12
.Lluossavin.BB22_11:
	sub	w11, w9, #3
	mov	w12, #1
	and	w10, w2, #0xff
	movk	w12, #256, lsl #16
	cmp	w11, #2
	ccmp	w10, #1, #0, lo
	add	x11, x12, #15
	mov	w12, #16777216
	csel	x11, x11, x12, eq
	cmp	x11, x6
	b.hs	.Lluossavin.BB22_15
.Lluossavin.BB22_12:
	mov	w10, wzr
	mov	w8, #4
.Lluossavin.BB22_13:
	add	x9, sp, #876
	mov	x20, xzr
	mov	w25, wzr
	stur	wzr, [x9, #255]
	mov	w9, #1
	str	wzr, [sp, #1128]
.Lluossavin.BB22_14:
	strb	w9, [x0]
	ldrb	w9, [sp, #1148]
	cmp	w27, #0
	strb	w8, [x0, #1]
	ldr	w8, [sp, #1144]
	strb	w9, [x0, #7]
	add	x9, sp, #876
	stur	w8, [x0, #3]
	ldr	w8, [sp, #1128]
	ldur	w9, [x9, #255]
	strb	w10, [x0, #2]
	stur	w8, [x0, #17]
	csel	w8, w28, wzr, eq
	str	w9, [x0, #20]
	ldr	w9, [sp, #1136]
	strh	w8, [x0, #24]
	ldrh	w8, [sp, #1140]
	str	x20, [x0, #8]
	strb	w25, [x0, #16]
	stur	w9, [x0, #26]
	strh	w8, [x0, #30]
	add	sp, sp, #1, lsl #12
	add	sp, sp, #1536
	ldp	x20, x19, [sp, #80]
	ldp	x22, x21, [sp, #64]
	ldp	x24, x23, [sp, #48]
	ldp	x26, x25, [sp, #32]
	ldp	x28, x27, [sp, #16]
	ldp	x29, x30, [sp], #96
	ret
.Lluossavin.BB22_15:
	cmp	w10, #1
	b.ne	.Lluossavin.BB22_20
	cmp	w9, #3
	b.lo	.Lluossavin.BB22_21
	cmp	w9, #4
	b.ne	.Lluossavin.BB22_43
	cmp	x6, #15
	b.hi	.Lluossavin.BB22_21
	mov	w8, #16
	sub	w10, w8, w6
	mov	w8, #7
	b	.Lluossavin.BB22_13
.Lluossavin.BB22_20:
	tst	w2, #0xff
	b.eq	.Lluossavin.BB22_27
.Lluossavin.BB22_21:
	sub	x10, x6, #16
	cmp	w9, #4
	csel	x10, x6, x10, ne
.Lluossavin.BB22_22:
	ldr	x19, [sp, #5744]
	cmp	x19, x10
	b.hs	.Lluossavin.BB22_24
	mov	w10, wzr
	mov	w8, #5
	b	.Lluossavin.BB22_13
.Lluossavin.BB22_24:
	ldr	x26, [sp, #5736]
	cmp	w9, #1
	add	x22, sp, #3888
	str	x6, [sp, #1104]
	b.le	.Lluossavin.BB22_30
	cmp	w9, #2
	mov	w10, #1
	b.eq	.Lluossavin.BB22_32
	cmp	w9, #3
	b.eq	.Lluossavin.BB22_31
	b	.Lluossavin.BB22_32
.Lluossavin.BB22_27:
	cmp	w9, #3
	mov	x10, x6
	b.lo	.Lluossavin.BB22_22
	cmp	w9, #4
	b.ne	.Lluossavin.BB22_56
	add	x10, x6, #16
	b	.Lluossavin.BB22_22
.Lluossavin.BB22_30:
	cbnz	w9, .Lluossavin.BB22_46
.Lluossavin.BB22_31:
	tst	w2, #0xff
	cset	w10, ne
.Lluossavin.BB22_32:
	ldp	q0, q1, [x1, #64]
	add	x11, sp, #964
	sub	w8, w8, #1
	stur	wzr, [x29, #155]
	cmp	w8, #3
	str	wzr, [sp, #1304]
	stur	q0, [x11, #255]
	add	x11, sp, #980
	csel	w21, w8, w10, lo
	stur	q1, [x11, #255]
	ldp	q0, q1, [x1, #96]
	add	x11, sp, #996
	add	x8, sp, #948
	cmp	w9, #1
	stur	q0, [x11, #255]
	add	x11, sp, #900
	stur	q1, [x29, #115]
	ldp	q0, q1, [x1]
	stur	q0, [x11, #255]
	add	x11, sp, #916
	stur	q1, [x11, #255]
	ldp	q0, q1, [x1, #32]
	add	x11, sp, #932
	stur	q1, [x8, #255]
	add	x8, sp, #1152
	orr	x24, x8, #0x3
	stur	q0, [x11, #255]
	b.le	.Lluossavin.BB22_41
	cmp	w9, #2
	b.eq	.Lluossavin.BB22_47
	cmp	w9, #3
	b.ne	.Lluossavin.BB22_49
	ldr	q0, [x7]
	mov	x25, x5
	tst	w2, #0xff
	stur	wzr, [x22, #3]
	rev32	v17.16b, v0.16b
	str	wzr, [sp, #3888]
	b.eq	.Lluossavin.BB22_62
	ldp	q0, q1, [x1, #64]
	add	x8, sp, #1, lsl #12
	mov	x19, x0
	add	x8, x8, #784
	add	x0, sp, #1, lsl #12
	add	x0, x0, #784
	mov	x20, x6
	str	q17, [sp, #1088]
	str	q0, [x22, #1056]
	ldp	q0, q2, [x1, #96]
	str	q1, [x22, #1072]
	str	q0, [x22, #1088]
	ldp	q0, q1, [x1]
	str	q2, [x22, #1104]
	stp	q0, q1, [x22, #992]
	ldp	q2, q0, [x1, #32]
	add	x1, x8, #64
	str	q2, [x22, #1024]
	str	q0, [x22, #1040]
	bl	"core::slice::edits::mirror::<i32>"
	sub	x24, x20, #16
	add	x2, sp, #1, lsl #12
	add	x0, sp, #2336
	add	x20, x25, x24
	add	x2, x2, #784
	add	x3, sp, #1312
	ldr	q0, [x20]
	mov	w1, w21
	str	xzr, [sp, #2344]
	str	xzr, [sp, #2336]
	rev32	v0.16b, v0.16b
	str	q0, [x29, #160]
	bl	"cipher::encrypt"
	ldr	q0, [sp, #1088]
	cbz	x24, .Lluossavin.BB22_38
	ldur	q0, [x20, #-16]
	rev32	v0.16b, v0.16b
.Lluossavin.BB22_38:
	ldr	q1, [x29, #1184]
	mov	w8, #24
	mov	x0, x19
	eor	v0.16b, v1.16b, v0.16b
	rev32	v18.16b, v0.16b
	dup	v0.2s, v18.s[3]
	mov	v0.s[1], w8
	adrp	x8, .Lluossavin.CPI22_13
	ldr	d1, [x8, :lo12:.Lluossavin.CPI22_13]
	ushl	v0.2s, v0.2s, v1.2s
	fmov	w8, s0
	sub	w9, w8, #1
	cmp	w9, #15
	b.hi	.Lluossavin.BB22_66
	dup	v1.2s, v18.s[2]
	dup	v2.4s, v18.s[1]
	adrp	x10, .Lluossavin.CPI22_14
	mov	w9, v18.s[3]
	ldr	d4, [x10, :lo12:.Lluossavin.CPI22_14]
	rev64	v3.4s, v18.4s
	ext	v5.16b, v18.16b, v18.16b, #8
	adrp	x10, .Lluossavin.CPI22_15
	zip1	v7.4s, v0.4s, v0.4s
	uzp2	v6.4s, v2.4s, v18.4s
	movi	v16.2d, #0x0000ff000000ff
	adrp	x11, .Lluossavin.CPI22_17
	ushl	v1.2s, v1.2s, v4.2s
	ldr	q4, [x10, :lo12:.Lluossavin.CPI22_15]
	eor	v2.16b, v18.16b, v2.16b
	lsr	w10, w9, #8
	eor	v17.16b, v18.16b, v3.16b
	add	x12, x8, #2
	mov	v7.s[2], v0.s[0]
	dup	v0.4s, v0.s[0]
	add	x13, x8, #14
	mov	v3.s[0], w10
	mov	v1.d[1], v5.d[0]
	ushl	v4.4s, v6.4s, v4.4s
	mov	w10, #255
	dup	v5.4s, v18.s[0]
	ushr	v2.4s, v2.4s, #24
	lsr	x12, x12, #4
	ubfx	w9, w9, #16, #8
	lsr	x13, x13, #4
	and	v6.16b, v4.16b, v16.16b
	mov	v3.s[2], w10
	and	v1.16b, v1.16b, v16.16b
	mov	v16.s[2], v18.s[3]
	eor	v4.16b, v4.16b, v5.16b
	neg	v5.4s, v7.4s
	adrp	x10, .Lluossavin.CPI22_16
	eor	v6.16b, v6.16b, v7.16b
	ldr	q7, [x11, :lo12:.Lluossavin.CPI22_17]
	add	x11, x8, #1
	eor	v1.16b, v1.16b, v0.16b
	lsr	x11, x11, #4
	eor	w9, w9, w8
	and	v3.16b, v16.16b, v3.16b
	ushr	v16.4s, v17.4s, #24
	ushl	v4.4s, v4.4s, v5.4s
	ldr	d5, [x10, :lo12:.Lluossavin.CPI22_16]
	fmov	w10, s18
	umull	x9, w13, w9
	mov	v1.s[3], v2.s[3]
	eor	v0.16b, v3.16b, v0.16b
	dup	v3.8h, w8
	mov	v6.s[3], v4.s[3]
	ubfx	w14, w10, #16, #8
	ubfx	w10, w10, #8, #8
	mov	v0.s[3], v16.s[3]
	add	v2.4h, v3.4h, v5.4h
	add	v3.8h, v3.8h, v7.8h
	xtn	v4.4h, v6.4s
	eor	w14, w8, w14
	eor	w10, w8, w10
	uzp1	v0.8h, v0.8h, v1.8h
	ushr	v1.4h, v2.4h, #4
	ushr	v2.8h, v3.8h, #4
	mul	v1.4h, v1.4h, v4.4h
	mul	v0.8h, v2.8h, v0.8h
	ushll	v1.4s, v1.4h, #0
	ushll	v2.4s, v0.4h, #0
	ushll2	v0.4s, v0.8h, #0
	uaddl	v3.2d, v2.2s, v1.2s
	uaddl2	v1.2d, v2.4s, v1.4s
	uaddw2	v1.2d, v1.2d, v0.4s
	uaddw	v0.2d, v3.2d, v0.2s
	add	v0.2d, v0.2d, v1.2d
	addp	d0, v0.2d
	fmov	x15, d0
	umaddl	x12, w12, w14, x15
	umaddl	x10, w11, w10, x12
	orr	x9, x10, x9
	cbz	x9, .Lluossavin.BB22_102
	mov	w8, #13
	b	.Lluossavin.BB22_67
.Lluossavin.BB22_41:
	cbnz	w9, .Lluossavin.BB22_54
	ldp	q0, q2, [x1, #64]
	add	x4, sp, #1, lsl #12
	ldr	q1, [x7]
	ldr	x7, [sp, #1104]
	mov	x6, x5
	mov	w5, wzr
	mov	w3, w2
	add	x2, sp, #2336
	str	q0, [x29, #1248]
	rev32	v1.16b, v1.16b
	add	x4, x4, #784
	str	q2, [x29, #1264]
	ldp	q0, q2, [x1, #96]
	str	q0, [x29, #1280]
	str	q2, [x29, #1296]
	ldp	q0, q2, [x1]
	str	q1, [x22, #992]
	str	q0, [x29, #1184]
	ldp	q0, q1, [x1, #32]
	stp	x26, x19, [sp]
	mov	x19, x0
	add	x0, sp, #1312
	mov	w1, w21
	str	q2, [x29, #1200]
	str	q0, [x29, #1216]
	str	q1, [x29, #1232]
	bl	"stream::stream"
	ldr	x20, [sp, #1104]
	mov	x0, x19
	mov	w9, wzr
	mov	w8, wzr
	mov	w25, wzr
	str	wzr, [sp, #1304]
	stur	wzr, [x29, #155]
	b	.Lluossavin.BB22_170
.Lluossavin.BB22_43:
	cbz	x6, .Lluossavin.BB22_57
	tst	x6, #0xf
	b.eq	.Lluossavin.BB22_21
	mov	w10, wzr
	mov	w8, #1
	b	.Lluossavin.BB22_13
.Lluossavin.BB22_46:
	ldp	q0, q1, [x1, #64]
	add	x9, sp, #964
	sub	w8, w8, #1
	mov	x6, x5
	mov	x23, x0
	cmp	w8, #3
	stur	wzr, [x29, #155]
	stur	q0, [x9, #255]
	add	x9, sp, #980
	csel	w21, w8, wzr, lo
	stur	q1, [x9, #255]
	ldp	q0, q1, [x1, #96]
	add	x9, sp, #996
	str	wzr, [sp, #1304]
	stur	q0, [x9, #255]
	add	x9, sp, #900
	stur	q1, [x29, #115]
	ldp	q0, q1, [x1]
	stur	q0, [x9, #255]
	add	x9, sp, #916
	stur	q1, [x9, #255]
	ldp	q0, q1, [x1, #32]
	add	x9, sp, #932
	stur	q0, [x9, #255]
	add	x9, sp, #948
	stur	q1, [x9, #255]
	add	x9, sp, #1152
	orr	x24, x9, #0x3
	b	.Lluossavin.BB22_55
.Lluossavin.BB22_47:
	ldp	q0, q2, [x1, #64]
	mov	x24, x7
	ldr	q1, [x7]
	add	x4, sp, #1, lsl #12
	ldr	x7, [sp, #1104]
	mov	x23, x0
	mov	x6, x5
	mov	w5, wzr
	str	q0, [x29, #1248]
	rev32	v1.16b, v1.16b
	add	x0, sp, #1312
	str	q2, [x29, #1264]
	ldp	q0, q2, [x1, #96]
	add	x2, sp, #2336
	add	x4, x4, #784
	mov	w3, #3
	str	q0, [x29, #1280]
	str	q2, [x29, #1296]
	ldp	q0, q2, [x1]
	str	q1, [x22, #992]
	str	q0, [x29, #1184]
	ldp	q0, q1, [x1, #32]
	mov	w1, w21
	str	q2, [x29, #1200]
	stp	x26, x19, [sp]
	str	q0, [x29, #1216]
	str	q1, [x29, #1232]
	bl	"stream::stream"
	ldr	x20, [sp, #1104]
	cbz	x20, .Lluossavin.BB22_60
	tst	x20, #0xf
	ldp	x9, x8, [x24]
	csetm	x10, ne
	sub	x10, x10, x20, lsr #4
	rev	x8, x8
	cmn	x9, #1
	ccmp	x8, x10, #0, eq
	cset	w25, hi
	b	.Lluossavin.BB22_61
.Lluossavin.BB22_49:
	mov	x20, x1
	str	x0, [sp, #912]
	add	x0, sp, #2336
	mov	w1, wzr
	str	w2, [sp, #1056]
	mov	w2, #552
	str	x7, [sp, #1040]
	add	x23, sp, #3360
	str	x3, [sp, #928]
	str	x4, [sp, #944]
	str	x5, [sp, #960]
	bl	memset
	ldr	x8, [sp, #1104]
	ldr	w9, [sp, #1056]
	movi	v0.2d, #0000000000000000
	stur	wzr, [x23, #27]
	sub	x10, x8, #16
	tst	w9, #0xff
	str	wzr, [sp, #3384]
	str	x10, [sp, #848]
	csel	x10, x8, x10, eq
	lsr	x15, x10, #4
	cmp	x10, #479
	stp	q0, q0, [x23, #32]
	stp	q0, q0, [x23, #64]
	stp	q0, q0, [x23, #96]
	stp	q0, q0, [x23, #128]
	stp	q0, q0, [x23, #160]
	stp	q0, q0, [x23, #192]
	stp	q0, q0, [x23, #224]
	stp	q0, q0, [x23, #256]
	stp	q0, q0, [x23, #288]
	stp	q0, q0, [x23, #320]
	stp	q0, q0, [x23, #352]
	stp	q0, q0, [x23, #384]
	stp	q0, q0, [x23, #416]
	stp	q0, q0, [x23, #448]
	stp	q0, q0, [x23, #480]
	str	q0, [x23, #512]
	str	wzr, [sp, #3376]
	stur	wzr, [x23, #19]
	str	wzr, [sp, #3368]
	stur	wzr, [x23, #11]
	str	wzr, [sp, #3360]
	stur	wzr, [x23, #3]
	stp	q0, q0, [x22]
	stp	q0, q0, [x22, #32]
	stp	q0, q0, [x22, #64]
	stp	q0, q0, [x22, #96]
	stp	q0, q0, [x22, #128]
	stp	q0, q0, [x22, #160]
	stp	q0, q0, [x22, #192]
	stp	q0, q0, [x22, #224]
	stp	q0, q0, [x22, #256]
	stp	q0, q0, [x22, #288]
	stp	q0, q0, [x22, #320]
	stp	q0, q0, [x22, #352]
	stp	q0, q0, [x22, #384]
	stp	q0, q0, [x22, #416]
	stp	q0, q0, [x22, #448]
	stp	q0, q0, [x22, #480]
	stp	q0, q0, [x22, #512]
	stp	q0, q0, [x22, #544]
	stp	q0, q0, [x22, #576]
	stp	q0, q0, [x22, #608]
	stp	q0, q0, [x22, #640]
	stp	q0, q0, [x22, #672]
	stp	q0, q0, [x22, #704]
	stp	q0, q0, [x22, #736]
	stp	q0, q0, [x22, #768]
	stp	q0, q0, [x22, #800]
	stp	q0, q0, [x22, #832]
	stp	q0, q0, [x22, #864]
	stp	q0, q0, [x22, #896]
	stp	q0, q0, [x22, #928]
	stp	q0, q0, [x22, #960]
	str	x26, [sp, #72]
	str	x10, [sp, #992]
	str	x15, [sp, #976]
	b.hi	.Lluossavin.BB22_58
	and	w8, w21, #0xff
	cmp	w8, #1
	b.ne	.Lluossavin.BB22_58
	cmp	x25, #12
	b.ne	.Lluossavin.BB22_69
	ldp	q0, q1, [x20, #64]
	cmp	x10, #96
	ldr	x8, [sp, #1040]
	add	x9, sp, #1312
	str	q0, [x22, #1568]
	ldp	q0, q2, [x20, #96]
	str	q1, [x22, #1584]
	str	q0, [x22, #1600]
	ldp	q0, q1, [x20]
	str	q2, [x22, #1616]
	movi	v2.2d, #0000000000000000
	str	q0, [x22, #1504]
	str	q1, [x22, #1520]
	ldp	q0, q1, [x20, #32]
	stp	q2, q2, [x29, #160]
	stp	q2, q2, [x29, #192]
	str	q0, [x22, #1536]
	ldr	d0, [x8]
	ldr	w8, [x8, #8]
	str	q1, [x22, #1552]
	stp	q2, q2, [x29, #224]
	stp	q2, q2, [x29, #256]
	stp	q2, q2, [x29, #288]
	stp	q2, q2, [x29, #320]
	stp	q2, q2, [x29, #352]
	stp	q2, q2, [x29, #384]
	stp	q2, q2, [x29, #416]
	stp	q2, q2, [x29, #448]
	stp	q2, q2, [x29, #480]
	stp	q2, q2, [x29, #512]
	stp	q2, q2, [x29, #544]
	stp	q2, q2, [x29, #576]
	stp	q2, q2, [x29, #608]
	stp	q2, q2, [x29, #640]
	b.hs	.Lluossavin.BB22_78
	mov	x10, xzr
	b	.Lluossavin.BB22_82
.Lluossavin.BB22_54:
	mov	x6, x5
	mov	x23, x0
.Lluossavin.BB22_55:
	ldp	q0, q2, [x24, #64]
	add	x4, sp, #1, lsl #12
	ldr	q1, [x7]
	ldr	x20, [sp, #1104]
	mov	w5, wzr
	add	x0, sp, #1312
	add	x2, sp, #2336
	add	x4, x4, #784
	str	q0, [x29, #1248]
	rev32	v1.16b, v1.16b
	mov	w1, w21
	str	q2, [x29, #1264]
	ldp	q0, q2, [x24, #96]
	mov	w3, #2
	mov	x7, x20
	stp	x26, x19, [sp]
	str	q0, [x29, #1280]
	str	q2, [x29, #1296]
	ldp	q0, q2, [x24]
	str	q1, [x22, #992]
	str	q0, [x29, #1184]
	ldp	q0, q1, [x24, #32]
	str	q2, [x29, #1200]
	str	q0, [x29, #1216]
	str	q1, [x29, #1232]
	bl	"stream::stream"
	mov	w9, wzr
	mov	w8, wzr
	mov	w25, wzr
	str	wzr, [sp, #1304]
	mov	x0, x23
	stur	wzr, [x29, #155]
	b	.Lluossavin.BB22_170
.Lluossavin.BB22_56:
	and	x10, x6, #0xfffffffffffffff0
	add	x10, x10, #16
	b	.Lluossavin.BB22_22
.Lluossavin.BB22_57:
	mov	w10, wzr
	mov	w8, #6
	b	.Lluossavin.BB22_13
.Lluossavin.BB22_58:
	ldp	q0, q1, [x20, #64]
	add	x0, sp, #1, lsl #12
	add	x3, sp, #1, lsl #12
	add	x0, x0, #784
	add	x2, sp, #1312
	add	x3, x3, #1296
	mov	w1, w21
	str	xzr, [sp, #4888]
	stp	q0, q1, [x29, #224]
	ldp	q0, q2, [x20, #96]
	str	xzr, [sp, #4880]
	str	xzr, [sp, #5400]
	stp	q0, q2, [x29, #256]
	ldp	q1, q0, [x20]
	str	xzr, [sp, #5392]
	stp	q1, q0, [x29, #160]
	ldp	q2, q0, [x20, #32]
	stp	q2, q0, [x29, #192]
	bl	"cipher::encrypt"
	ldr	w8, [sp, #4884]
	ldr	w9, [sp, #4880]
	cmp	x25, #12
	ldr	w10, [sp, #4892]
	ldr	w11, [sp, #4888]
	orr	x9, x8, x9, lsl #32
	orr	x8, x10, x11, lsl #32
	str	x9, [sp, #1072]
	str	x8, [sp, #1088]
	b.ne	.Lluossavin.BB22_68
	ldr	x8, [sp, #1040]
	mov	w25, wzr
	str	xzr, [sp, #896]
	mov	w20, wzr
	str	xzr, [sp, #880]
	mov	w26, wzr
	ldp	w9, w10, [x8]
	ldr	w8, [x8, #8]
	rev	w8, w8
	rev	w23, w9
	rev	w9, w10
	str	w8, [sp, #1024]
	mov	w8, #1
	str	x9, [sp, #1008]
	str	w8, [sp, #1040]
	b	.Lluossavin.BB22_77
.Lluossavin.BB22_60:
	mov	w25, wzr
.Lluossavin.BB22_61:
	mov	x0, x23
	mov	w9, wzr
	mov	w8, wzr
	stur	wzr, [x29, #155]
	str	wzr, [sp, #1304]
	b	.Lluossavin.BB22_170
.Lluossavin.BB22_62:
	ldp	q0, q2, [x1, #64]
	lsr	x20, x6, #4
	ldp	q4, q3, [x1, #48]
	mov	x19, x0
	ldp	q5, q6, [x1, #80]
	ldr	q16, [x1, #32]
	stp	q0, q2, [x29, #224]
	ldp	q1, q0, [x1, #96]
	str	q3, [x29, #1248]
	str	q5, [x29, #1264]
	stp	q1, q0, [x29, #256]
	ldp	q2, q0, [x1]
	str	q6, [x29, #1280]
	str	q16, [x29, #1216]
	stp	q2, q0, [x29, #160]
	ldp	q1, q0, [x1, #32]
	ldp	q7, q2, [x1]
	str	q4, [x29, #1232]
	stp	q1, q0, [x29, #192]
	ldr	q0, [x1, #112]
	str	q7, [x29, #1184]
	str	q0, [x29, #1296]
	str	q2, [x29, #1200]
	cbz	x20, .Lluossavin.BB22_65
	mov	x23, x25
	mov	x24, x26
.Lluossavin.BB22_64:
	ldr	q0, [x23], #16
	add	x0, sp, #1, lsl #12
	add	x3, sp, #1, lsl #12
	add	x0, x0, #784
	add	x2, sp, #2336
	rev32	v0.16b, v0.16b
	add	x3, x3, #288
	mov	w1, w21
	str	xzr, [sp, #4888]
	str	xzr, [sp, #4880]
	eor	v0.16b, v0.16b, v17.16b
	str	q0, [x22, #496]
	bl	"cipher::encrypt"
	ldr	q17, [x22, #992]
	subs	x20, x20, #1
	rev32	v0.16b, v17.16b
	str	q0, [x24], #16
	b.ne	.Lluossavin.BB22_64
.Lluossavin.BB22_65:
	ldr	x8, [sp, #1104]
	mov	w9, #16
	mov	w10, #16843009
	add	x0, sp, #2336
	str	q17, [sp, #1088]
	and	x2, x8, #0xf
	and	x20, x8, #0xfffffffffffffff0
	sub	w9, w9, w2
	add	x1, x25, x20
	mul	w9, w9, w10
	dup	v0.4s, w9
	str	q0, [x29, #1184]
	bl	memcpy
	ldr	q0, [x29, #1184]
	ldr	q1, [sp, #1088]
	add	x3, sp, #1, lsl #12
	add	x0, sp, #2336
	add	x2, sp, #1312
	add	x3, x3, #784
	rev32	v0.16b, v0.16b
	mov	w1, w21
	str	xzr, [sp, #2344]
	str	xzr, [sp, #2336]
	eor	v0.16b, v0.16b, v1.16b
	str	q0, [x22, #992]
	bl	"cipher::encrypt"
	ldr	q0, [x29, #1184]
	rev32	v0.16b, v0.16b
	str	q0, [x26, x20]
	add	x20, x20, #16
	b	.Lluossavin.BB22_168
.Lluossavin.BB22_66:
	mov	w8, #2
.Lluossavin.BB22_67:
	mov	x20, xzr
	stur	wzr, [x29, #155]
	mov	w9, #1
	str	wzr, [sp, #1304]
	mov	w25, wzr
	b	.Lluossavin.BB22_170
.Lluossavin.BB22_68:
	movi	v0.2d, #0000000000000000
	add	x0, sp, #1, lsl #12
	add	x1, sp, #1, lsl #12
	ldr	x2, [sp, #1040]
	add	x0, x0, #784
	add	x1, x1, #1296
	mov	x3, x25
	str	x9, [sp, #5392]
	str	x8, [sp, #5400]
	stp	q0, q0, [x22, #992]
	str	xzr, [sp, #5416]
	str	xzr, [sp, #5408]
	bl	"ghash::Ghash::absorb_all"
	add	x1, sp, #1, lsl #12
	add	x0, sp, #1312
	mov	x2, xzr
	add	x1, x1, #784
	mov	x3, x25
	bl	"ghash::Ghash::absorb_lengths"
	ldr	w8, [sp, #1328]
	ldr	w23, [sp, #1332]
	mov	w25, wzr
	str	xzr, [sp, #896]
	mov	w20, wzr
	mov	w26, wzr
	str	x8, [sp, #1008]
	ldr	w8, [sp, #1340]
	str	xzr, [sp, #880]
	str	w8, [sp, #1024]
	ldr	w8, [sp, #1336]
	str	w8, [sp, #1040]
	b	.Lluossavin.BB22_77
.Lluossavin.BB22_69:
	ldp	q0, q1, [x20, #64]
	add	x0, sp, #1, lsl #12
	add	x3, sp, #1, lsl #12
	add	x0, x0, #784
	add	x2, sp, #1312
	add	x3, x3, #1296
	mov	w1, #1
	str	xzr, [sp, #4888]
	stp	q0, q1, [x29, #224]
	ldp	q0, q2, [x20, #96]
	str	xzr, [sp, #4880]
	str	xzr, [sp, #5400]
	stp	q0, q2, [x29, #256]
	ldp	q1, q0, [x20]
	str	xzr, [sp, #5392]
	stp	q1, q0, [x29, #160]
	ldp	q2, q0, [x20, #32]
	stp	q2, q0, [x29, #192]
	bl	"cipher::encrypt"
	movi	v0.2d, #0000000000000000
	ldr	w8, [sp, #4884]
	ldr	w9, [sp, #4880]
	ldr	w10, [sp, #4892]
	ldr	w11, [sp, #4888]
	add	x0, sp, #1, lsl #12
	orr	x9, x8, x9, lsl #32
	add	x1, sp, #1, lsl #12
	ldr	x2, [sp, #1040]
	orr	x8, x10, x11, lsl #32
	add	x0, x0, #784
	add	x1, x1, #1296
	mov	x3, x25
	stp	q0, q0, [x22, #992]
	str	x9, [sp, #1072]
	str	x9, [sp, #5392]
	str	x8, [sp, #1088]
	str	x8, [sp, #5400]
	str	xzr, [sp, #5416]
	str	xzr, [sp, #5408]
	bl	"ghash::Ghash::absorb_all"
	add	x1, sp, #1, lsl #12
	add	x0, sp, #1312
	mov	x2, xzr
	add	x1, x1, #784
	mov	x3, x25
	add	x25, sp, #1312
	bl	"ghash::Ghash::absorb_lengths"
	ldp	q0, q1, [x20, #64]
	adrp	x9, .Lluossavin.CPI22_0
	ldr	x15, [sp, #1328]
	movi	v2.2d, #0000000000000000
	ldr	w14, [sp, #1340]
	ldr	x13, [sp, #976]
	ldr	w16, [sp, #1336]
	mov	x8, xzr
	str	q0, [x22, #1568]
	str	q1, [x22, #1584]
	ldp	q0, q1, [x20, #96]
	stp	q2, q2, [x29, #224]
	stp	q2, q2, [x29, #256]
	str	q0, [x22, #1600]
	str	q1, [x22, #1616]
	ldp	q0, q1, [x20]
	stp	q2, q2, [x29, #288]
	stp	q2, q2, [x29, #320]
	str	q0, [x22, #1504]
	str	q1, [x22, #1520]
	ldp	q0, q1, [x20, #32]
	stp	q2, q2, [x29, #352]
	stp	q2, q2, [x29, #384]
	str	q0, [x22, #1536]
	dup	v0.2d, x15
	str	q1, [x22, #1552]
	ldr	q1, [x9, :lo12:.Lluossavin.CPI22_0]
	ldr	x9, [sp, #992]
	stp	q2, q2, [x29, #416]
	ushl	v0.2d, v0.2d, v1.2d
	movi	v1.2d, #0000000000000000
	cmp	x9, #96
	rev	w9, w14
	stp	q2, q2, [x29, #448]
	stp	q2, q2, [x29, #480]
	xtn	v0.2s, v0.2d
	stp	q2, q2, [x29, #512]
	stp	q1, q1, [x29, #160]
	stp	q1, q1, [x29, #192]
	stp	q2, q2, [x29, #544]
	str	q0, [sp, #864]
	rev32	v0.8b, v0.8b
	stp	q2, q2, [x29, #576]
	stp	q2, q2, [x29, #608]
	stp	q2, q2, [x29, #640]
	b.lo	.Lluossavin.BB22_74
	dup	v1.4s, w16
	adrp	x8, .Lluossavin.CPI22_2
	dup	v18.4s, w9
	ldr	q2, [x8, :lo12:.Lluossavin.CPI22_2]
	adrp	x8, .Lluossavin.CPI22_1
	add	x10, x13, #2
	ldr	q3, [x8, :lo12:.Lluossavin.CPI22_1]
	add	x8, x25, #16
	add	x11, x25, #80
	add	v2.4s, v1.4s, v2.4s
	rev32	v19.16b, v2.16b
	add	v2.4s, v1.4s, v3.4s
	dup	v17.4s, v0.s[1]
	dup	v16.4s, v0.s[0]
	rev32	v5.16b, v2.16b
	mov	v2.16b, v16.16b
	st4	{ v16.4s, v17.4s, v18.4s, v19.4s }, [x11]
	mov	v3.16b, v17.16b
	mov	v4.16b, v18.16b
	st4	{ v2.4s, v3.4s, v4.4s, v5.4s }, [x8]
	and	x8, x10, #0x38
	cmp	x8, #8
	b.eq	.Lluossavin.BB22_73
	adrp	x11, .Lluossavin.CPI22_4
	cmp	x8, #16
	ldr	q2, [x11, :lo12:.Lluossavin.CPI22_4]
	adrp	x11, .Lluossavin.CPI22_3
	ldr	q6, [x11, :lo12:.Lluossavin.CPI22_3]
	add	x11, sp, #1312
	add	v2.4s, v1.4s, v2.4s
	add	x12, x11, #144
	add	v6.4s, v1.4s, v6.4s
	rev32	v5.16b, v2.16b
	dup	v3.4s, v0.s[1]
	dup	v2.4s, v0.s[0]
	dup	v4.4s, v18.s[0]
	rev32	v19.16b, v6.16b
	mov	v16.16b, v2.16b
	mov	v17.16b, v3.16b
	mov	v18.16b, v4.16b
	st4	{ v16.4s, v17.4s, v18.4s, v19.4s }, [x12]
	add	x12, x11, #208
	st4	{ v2.4s, v3.4s, v4.4s, v5.4s }, [x12]
	b.eq	.Lluossavin.BB22_73
	adrp	x12, .Lluossavin.CPI22_6
	ldr	q6, [x12, :lo12:.Lluossavin.CPI22_6]
	adrp	x12, .Lluossavin.CPI22_5
	ldr	q7, [x12, :lo12:.Lluossavin.CPI22_5]
	add	x12, x11, #272
	add	x11, x11, #336
	add	v6.4s, v1.4s, v6.4s
	add	v1.4s, v1.4s, v7.4s
	rev32	v5.16b, v6.16b
	dup	v3.4s, v0.s[1]
	rev32	v19.16b, v1.16b
	dup	v2.4s, v0.s[0]
	mov	v16.16b, v2.16b
	st4	{ v2.4s, v3.4s, v4.4s, v5.4s }, [x11]
	mov	v17.16b, v3.16b
	mov	v18.16b, v4.16b
	st4	{ v16.4s, v17.4s, v18.4s, v19.4s }, [x12]
.Lluossavin.BB22_73:
	cmp	x10, x8
	b.eq	.Lluossavin.BB22_76
.Lluossavin.BB22_74:
	add	x11, x25, x8, lsl #4
	sub	x10, x13, x8
	add	w8, w8, w16
	add	x10, x10, #2
	add	x11, x11, #28
.Lluossavin.BB22_75:
	rev	w12, w8
	stur	d0, [x11, #-12]
	subs	x10, x10, #1
	stp	w9, w12, [x11, #-4]
	add	x11, x11, #16
	add	w8, w8, #1
	b.ne	.Lluossavin.BB22_75
.Lluossavin.BB22_76:
	movi	v0.2d, #0000000000000000
	add	x0, sp, #1, lsl #12
	add	x3, sp, #1, lsl #12
	add	x26, sp, #1, lsl #12
	add	x0, x0, #1296
	add	x1, x13, #3
	add	x2, sp, #1312
	add	x3, x3, #784
	str	w16, [sp, #1040]
	str	x15, [sp, #1008]
	add	x26, x26, #784
	str	w14, [sp, #1024]
	str	q0, [x22, #1488]
	str	q0, [x22, #1472]
	str	q0, [x22, #1456]
	str	q0, [x22, #1440]
	str	q0, [x22, #1424]
	str	q0, [x22, #1408]
	str	q0, [x22, #1392]
	str	q0, [x22, #1376]
	str	q0, [x22, #1360]
	str	q0, [x22, #1344]
	str	q0, [x22, #1328]
	str	q0, [x22, #1312]
	str	q0, [x22, #1296]
	str	q0, [x22, #1280]
	str	q0, [x22, #1264]
	str	q0, [x22, #1248]
	str	q0, [x22, #1232]
	str	q0, [x22, #1216]
	str	q0, [x22, #1200]
	str	q0, [x22, #1184]
	str	q0, [x22, #1168]
	str	q0, [x22, #1152]
	str	q0, [x22, #1136]
	str	q0, [x22, #1120]
	str	q0, [x22, #1104]
	str	q0, [x22, #1088]
	str	q0, [x22, #1072]
	str	q0, [x22, #1056]
	str	q0, [x22, #1040]
	stp	q0, q0, [x22, #1008]
	str	q0, [x22, #992]
	bl	"sixteen::encrypt"
	ldr	w8, [sp, #4884]
	ldr	w25, [sp, #4880]
	add	x0, sp, #3888
	ldr	w20, [sp, #4888]
	add	x1, x26, #16
	mov	w2, #496
	str	x8, [sp, #896]
	ldr	w8, [sp, #4892]
	str	x8, [sp, #880]
	bl	memcpy
	add	x0, sp, #1, lsl #12
	add	x1, sp, #3888
	mov	w2, #496
	add	x0, x0, #288
	bl	memcpy
	ldr	q0, [sp, #864]
	mov	w26, #1
	fmov	w23, s0
.Lluossavin.BB22_77:
	add	x1, sp, #1, lsl #12
	add	x0, sp, #3392
	mov	w2, #496
	add	x1, x1, #288
	bl	memcpy
	ldr	x8, [sp, #1088]
	ldr	x9, [sp, #1072]
	b	.Lluossavin.BB22_85
.Lluossavin.BB22_78:
	dup	v18.4s, w8
	adrp	x11, .Lluossavin.CPI22_8
	adrp	x10, .Lluossavin.CPI22_7
	dup	v17.4s, v0.s[1]
	ldr	q4, [x11, :lo12:.Lluossavin.CPI22_8]
	add	x11, x15, #2
	dup	v16.4s, v0.s[0]
	add	x12, x9, #80
	ldr	q19, [x10, :lo12:.Lluossavin.CPI22_7]
	mov	v1.16b, v16.16b
	add	x10, x9, #16
	mov	v2.16b, v17.16b
	mov	v3.16b, v18.16b
	st4	{ v16.4s, v17.4s, v18.4s, v19.4s }, [x12]
	st4	{ v1.4s, v2.4s, v3.4s, v4.4s }, [x10]
	and	x10, x11, #0x38
	cmp	x10, #8
	b.eq	.Lluossavin.BB22_81
	dup	v2.4s, v0.s[1]
	adrp	x13, .Lluossavin.CPI22_10
	adrp	x12, .Lluossavin.CPI22_9
	dup	v1.4s, v0.s[0]
	cmp	x10, #16
	dup	v3.4s, v18.s[0]
	ldr	q19, [x13, :lo12:.Lluossavin.CPI22_10]
	ldr	q4, [x12, :lo12:.Lluossavin.CPI22_9]
	mov	v16.16b, v1.16b
	add	x12, sp, #1312
	mov	v17.16b, v2.16b
	add	x13, x12, #144
	mov	v18.16b, v3.16b
	st4	{ v16.4s, v17.4s, v18.4s, v19.4s }, [x13]
	add	x13, x12, #208
	st4	{ v1.4s, v2.4s, v3.4s, v4.4s }, [x13]
	b.eq	.Lluossavin.BB22_81
	dup	v2.4s, v0.s[1]
	adrp	x14, .Lluossavin.CPI22_12
	adrp	x13, .Lluossavin.CPI22_11
	dup	v1.4s, v0.s[0]
	ldr	q19, [x14, :lo12:.Lluossavin.CPI22_12]
	ldr	q4, [x13, :lo12:.Lluossavin.CPI22_11]
	mov	v16.16b, v1.16b
	add	x13, x12, #272
	mov	v17.16b, v2.16b
	add	x12, x12, #336
	mov	v18.16b, v3.16b
	st4	{ v1.4s, v2.4s, v3.4s, v4.4s }, [x12]
	st4	{ v16.4s, v17.4s, v18.4s, v19.4s }, [x13]
.Lluossavin.BB22_81:
	cmp	x11, x10
	b.eq	.Lluossavin.BB22_84
.Lluossavin.BB22_82:
	add	x11, x9, x10, lsl #4
	sub	x9, x15, x10
	add	w10, w10, #1
	add	x9, x9, #2
	add	x11, x11, #28
.Lluossavin.BB22_83:
	rev	w12, w10
	stur	d0, [x11, #-12]
	subs	x9, x9, #1
	stp	w8, w12, [x11, #-4]
	add	x11, x11, #16
	add	w10, w10, #1
	b.ne	.Lluossavin.BB22_83
.Lluossavin.BB22_84:
	mov	w9, v0.s[1]
	movi	v1.2d, #0000000000000000
	add	x0, sp, #1, lsl #12
	fmov	w10, s0
	add	x3, sp, #1, lsl #12
	rev	w8, w8
	add	x26, sp, #1, lsl #12
	add	x0, x0, #1296
	add	x1, x15, #3
	add	x2, sp, #1312
	add	x3, x3, #784
	str	w8, [sp, #1024]
	rev	w9, w9
	str	q1, [x22, #1488]
	rev	w23, w10
	str	q1, [x22, #1472]
	add	x26, x26, #784
	str	q1, [x22, #1456]
	str	q1, [x22, #1440]
	str	q1, [x22, #1424]
	str	q1, [x22, #1408]
	str	q1, [x22, #1392]
	str	q1, [x22, #1376]
	str	q1, [x22, #1360]
	str	q1, [x22, #1344]
	str	q1, [x22, #1328]
	str	q1, [x22, #1312]
	str	q1, [x22, #1296]
	str	q1, [x22, #1280]
	str	q1, [x22, #1264]
	str	q1, [x22, #1248]
	str	q1, [x22, #1232]
	str	q1, [x22, #1216]
	str	q1, [x22, #1200]
	str	q1, [x22, #1184]
	str	q1, [x22, #1168]
	str	q1, [x22, #1152]
	str	q1, [x22, #1136]
	str	q1, [x22, #1120]
	str	q1, [x22, #1104]
	str	q1, [x22, #1088]
	str	q1, [x22, #1072]
	str	q1, [x22, #1056]
	str	q1, [x22, #1040]
	stp	q1, q1, [x22, #1008]
	str	x9, [sp, #1008]
	str	q1, [x22, #992]
	bl	"sixteen::encrypt"
	ldr	x25, [sp, #4880]
	ldr	x20, [sp, #4888]
	add	x0, sp, #3392
	add	x1, x26, #16
	mov	w2, #496
	lsr	x8, x25, #32
	str	x8, [sp, #896]
	lsr	x8, x20, #32
	str	x8, [sp, #880]
	bl	memcpy
	mov	w10, #1
	rev	x9, x25
	rev	x8, x20
	str	w10, [sp, #1040]
	mov	w26, #1
.Lluossavin.BB22_85:
	str	x8, [sp, #1088]
	ldr	x10, [sp, #880]
	add	x1, sp, #3392
	str	x8, [sp, #2344]
	ldr	x8, [sp, #1008]
	mov	w2, #496
	str	x9, [sp, #1072]
	str	w8, [sp, #2356]
	ldr	w8, [sp, #1024]
	str	x9, [sp, #2336]
	add	x9, sp, #2336
	str	w8, [sp, #2360]
	ldr	x8, [sp, #896]
	str	w23, [sp, #864]
	stur	w8, [x9, #37]
	ldr	w8, [sp, #1056]
	str	w23, [sp, #2352]
	ldr	w23, [sp, #1040]
	stur	w20, [x9, #41]
	and	w20, w8, #0xff
	add	x8, sp, #2336
	add	x0, x8, #49
	str	w23, [sp, #2364]
	strb	w26, [sp, #2368]
	stur	w25, [x9, #33]
	stur	w10, [x9, #45]
	bl	memcpy
	ldr	x8, [sp, #992]
	mvn	w9, w23
	tst	x8, #0xf
	ldr	x8, [sp, #976]
	cinc	x8, x8, ne
	cmp	x8, x9
	cset	w25, hi
	cbz	w20, .Lluossavin.BB22_93
	ldp	q0, q1, [x24, #64]
	str	xzr, [sp, #5560]
	str	xzr, [sp, #5552]
	str	q0, [x22, #1056]
	ldp	q0, q2, [x24, #96]
	str	q1, [x22, #1072]
	str	q0, [x22, #1088]
	ldp	q0, q1, [x24]
	str	q2, [x22, #1104]
	stp	q0, q1, [x22, #992]
	ldp	q2, q0, [x24, #32]
	str	q2, [x22, #1024]
	str	q0, [x22, #1040]
	cbz	w26, .Lluossavin.BB22_99
	movi	v0.2d, #0000000000000000
	ldr	x8, [sp, #1072]
	add	x11, sp, #2336
	ldr	x21, [sp, #944]
	ldur	w9, [x11, #53]
	ldur	w10, [x11, #57]
	str	x8, [sp, #5392]
	ldur	w8, [x11, #49]
	add	x1, sp, #1, lsl #12
	ldur	w11, [x11, #61]
	ldr	x12, [sp, #1088]
	add	x0, sp, #3888
	ldr	x2, [sp, #928]
	add	x1, x1, #1296
	mov	x3, x21
	stp	q0, q0, [x22]
	rev	w19, w8
	rev	w20, w9
	stp	q0, q0, [x22, #496]
	rev	w23, w10
	rev	w26, w11
	str	x12, [sp, #5400]
	str	xzr, [sp, #5416]
	str	xzr, [sp, #5408]
	bl	"ghash::Ghash::absorb_all"
	ldr	x22, [sp, #1104]
	ldr	x24, [sp, #960]
	add	x0, sp, #1, lsl #12
	add	x0, x0, #288
	add	x1, sp, #3888
	sub	x3, x22, #16
	mov	x2, x24
	bl	"ghash::Ghash::absorb_all"
	add	x1, sp, #1, lsl #12
	add	x0, sp, #1312
	sub	x3, x22, #16
	add	x1, x1, #288
	mov	x2, x21
	bl	"ghash::Ghash::absorb_lengths"
	add	x13, x24, x22
	ldr	w8, [sp, #1332]
	ldr	w10, [sp, #1328]
	ldp	w14, w15, [x13, #-16]
	ldp	w16, w13, [x13, #-8]
	ldr	w12, [sp, #1340]
	ldr	w11, [sp, #1336]
	eor	w8, w19, w8
	eor	w10, w20, w10
	rev	w14, w14
	rev	w15, w15
	eor	w12, w23, w12
	rev	w16, w16
	eor	w8, w8, w14
	eor	w10, w10, w15
	eor	w11, w26, w11
	rev	w13, w13
	eor	w12, w12, w16
	add	x8, x10, x8
	eor	w10, w11, w13
	add	x8, x8, x12
	orr	x8, x8, x10
	cbnz	x8, .Lluossavin.BB22_100
	ldr	x0, [sp, #912]
	ldr	x20, [sp, #848]
	add	x14, sp, #3360
	cbz	x20, .Lluossavin.BB22_147
	cmp	x20, #8
	mov	x8, xzr
	b.lo	.Lluossavin.BB22_145
	ldr	x10, [sp, #72]
	sub	x10, x10, x24
	cmp	x10, #32
	b.lo	.Lluossavin.BB22_145
	cmp	x20, #32
	b.hs	.Lluossavin.BB22_138
	ldr	x24, [sp, #960]
	ldr	x20, [sp, #848]
	mov	x8, xzr
	b	.Lluossavin.BB22_142
.Lluossavin.BB22_93:
	ldp	q0, q1, [x24, #64]
	stp	q0, q1, [x29, #224]
	ldp	q0, q2, [x24, #96]
	stp	q0, q2, [x29, #256]
	ldp	q1, q0, [x24]
	stp	q1, q0, [x29, #160]
	ldp	q2, q0, [x24, #32]
	stp	q2, q0, [x29, #192]
	cbz	w26, .Lluossavin.BB22_101
	add	x8, sp, #2336
	ldr	x9, [sp, #960]
	ldr	x10, [sp, #1104]
	ldur	q0, [x8, #49]
	ldr	x21, [sp, #944]
	ldr	x2, [sp, #928]
	ldr	x19, [sp, #72]
	str	q0, [sp, #1056]
	cbz	x10, .Lluossavin.BB22_136
	cmp	x10, #8
	mov	x8, xzr
	b.lo	.Lluossavin.BB22_134
	sub	x11, x19, x9
	cmp	x11, #32
	b.lo	.Lluossavin.BB22_134
	cmp	x10, #32
	b.hs	.Lluossavin.BB22_127
	mov	x8, xzr
	b	.Lluossavin.BB22_131
.Lluossavin.BB22_99:
	ldp	q0, q1, [x24, #64]
	add	x0, sp, #1, lsl #12
	ldr	x8, [sp, #1008]
	ldr	w23, [sp, #864]
	add	x3, sp, #1, lsl #12
	add	x0, x0, #1472
	add	x2, sp, #1312
	add	x3, x3, #1488
	stp	q0, q1, [x29, #224]
	ldp	q0, q2, [x24, #96]
	str	w8, [sp, #5588]
	ldr	w8, [sp, #1024]
	mov	w1, w21
	str	w23, [sp, #5584]
	stp	q0, q2, [x29, #256]
	ldp	q1, q0, [x24]
	str	w8, [sp, #5592]
	ldr	w8, [sp, #1040]
	str	xzr, [sp, #5576]
	stp	q1, q0, [x29, #160]
	ldp	q2, q0, [x24, #32]
	str	w8, [sp, #5596]
	str	xzr, [sp, #5568]
	stp	q2, q0, [x29, #192]
	bl	"cipher::encrypt"
	ldr	x8, [sp, #1072]
	movi	v0.2d, #0000000000000000
	ldr	x24, [sp, #944]
	add	x0, sp, #1, lsl #12
	add	x1, sp, #1, lsl #12
	ldr	x2, [sp, #928]
	str	x8, [sp, #5600]
	ldr	w8, [sp, #5568]
	ldr	w26, [sp, #5572]
	add	x0, x0, #1296
	add	x1, x1, #1504
	mov	x3, x24
	str	w8, [sp, #1056]
	ldr	x8, [sp, #1088]
	stp	q0, q0, [x22]
	str	x8, [sp, #5608]
	ldr	w8, [sp, #5576]
	str	q0, [x22, #1504]
	str	w8, [sp, #1088]
	ldr	w8, [sp, #5580]
	str	q0, [x22, #1520]
	str	w8, [sp, #1072]
	str	xzr, [sp, #5624]
	str	xzr, [sp, #5616]
	bl	"ghash::Ghash::absorb_all"
	ldr	x20, [sp, #1104]
	ldr	x22, [sp, #960]
	add	x1, sp, #1, lsl #12
	add	x0, sp, #3888
	add	x1, x1, #1296
	sub	x3, x20, #16
	mov	x2, x22
	bl	"ghash::Ghash::absorb_all"
	add	x0, sp, #1, lsl #12
	add	x1, sp, #3888
	sub	x3, x20, #16
	add	x0, x0, #288
	mov	x2, x24
	bl	"ghash::Ghash::absorb_lengths"
	ldr	w11, [sp, #4412]
	ldr	w15, [sp, #1088]
	add	x12, x22, x20
	ldr	w8, [sp, #4404]
	ldr	w13, [sp, #1056]
	ldr	w10, [sp, #4408]
	eor	w11, w15, w11
	ldr	w15, [sp, #1072]
	ldr	w9, [sp, #4400]
	eor	w8, w13, w8
	ldp	w13, w14, [x12, #-16]
	eor	w10, w15, w10
	eor	w9, w26, w9
	ldp	w15, w12, [x12, #-8]
	rev	w13, w13
	rev	w14, w14
	eor	w8, w8, w13
	eor	w9, w9, w14
	rev	w15, w15
	rev	w12, w12
	add	x8, x9, x8
	eor	w11, w11, w15
	eor	w9, w10, w12
	add	x8, x8, x11
	orr	x8, x8, x9
	cbz	x8, .Lluossavin.BB22_109
.Lluossavin.BB22_100:
	ldr	x0, [sp, #912]
	mov	x20, xzr
	mov	w25, wzr
	mov	w8, #3
	mov	w9, #1
	add	x14, sp, #3360
	b	.Lluossavin.BB22_148
.Lluossavin.BB22_101:
	ldr	w8, [sp, #1040]
	ldr	x20, [sp, #1104]
	add	x0, sp, #1, lsl #12
	ldr	w23, [sp, #864]
	ldr	x26, [sp, #1008]
	add	x4, sp, #1, lsl #12
	ldr	w24, [sp, #1024]
	str	x19, [sp, #8]
	add	w8, w8, #1
	ldr	x6, [sp, #960]
	ldr	x19, [sp, #72]
	mov	w5, wzr
	add	x0, x0, #1504
	add	x2, sp, #1312
	add	x4, x4, #1472
	mov	w1, w21
	mov	w3, #4
	mov	x7, x20
	str	w23, [sp, #5568]
	str	w26, [sp, #5572]
	str	w24, [sp, #5576]
	str	w8, [sp, #5580]
	str	x19, [sp]
	bl	"stream::stream"
	ldr	w8, [sp, #1040]
	add	x0, sp, #1, lsl #12
	add	x3, sp, #1, lsl #12
	add	x0, x0, #1488
	add	x2, sp, #1312
	add	x3, x3, #1424
	mov	w1, w21
	str	w23, [sp, #5520]
	str	w26, [sp, #5524]
	str	w24, [sp, #5528]
	str	w8, [sp, #5532]
	str	xzr, [sp, #5592]
	str	xzr, [sp, #5584]
	bl	"cipher::encrypt"
	movi	v0.2d, #0000000000000000
	ldr	x8, [sp, #1072]
	ldr	x21, [sp, #944]
	add	x1, sp, #1, lsl #12
	ldr	x2, [sp, #928]
	add	x0, sp, #3888
	str	x8, [sp, #5392]
	ldr	x8, [sp, #1088]
	add	x1, x1, #1296
	mov	x3, x21
	str	xzr, [sp, #5416]
	stp	q0, q0, [x22]
	stp	q0, q0, [x22, #496]
	str	x8, [sp, #5400]
	str	xzr, [sp, #5408]
	bl	"ghash::Ghash::absorb_all"
	add	x0, sp, #1, lsl #12
	add	x1, sp, #3888
	mov	x2, x19
	add	x0, x0, #288
	mov	x3, x20
	bl	"ghash::Ghash::absorb_all"
	add	x0, sp, #1, lsl #12
	add	x1, sp, #1, lsl #12
	mov	x2, x21
	add	x0, x0, #784
	add	x1, x1, #288
	mov	x3, x20
	bl	"ghash::Ghash::absorb_lengths"
	ldr	q0, [x22, #1008]
	adrp	x8, .Lluossavin.CPI22_0
	ldr	q2, [x8, :lo12:.Lluossavin.CPI22_0]
	dup	v1.2d, v0.d[0]
	dup	v0.2d, v0.d[1]
	ushl	v0.2d, v0.2d, v2.2d
	ushl	v1.2d, v1.2d, v2.2d
	uzp1	v0.4s, v1.4s, v0.4s
	ldr	q1, [x22, #1696]
	eor	v0.16b, v1.16b, v0.16b
	rev32	v0.16b, v0.16b
	b	.Lluossavin.BB22_137
.Lluossavin.BB22_102:
	mov	w9, #16
	cmp	x24, #3072
	str	q18, [sp, #48]
	sub	x9, x9, x8
	str	x9, [sp, #40]
	b.lo	.Lluossavin.BB22_110
	and	w8, w21, #0xff
	cmp	w8, #1
	b.ne	.Lluossavin.BB22_110
	ldr	q0, [x25]
	add	x2, sp, #1, lsl #12
	add	x0, sp, #2336
	add	x2, x2, #784
	add	x3, sp, #1312
	mov	w1, #1
	rev32	v0.16b, v0.16b
	str	xzr, [sp, #2344]
	str	xzr, [sp, #2336]
	str	q0, [x29, #160]
	bl	"cipher::encrypt"
	ldr	q0, [x29, #1184]
	ldr	q1, [sp, #1088]
	mov	w21, #16
	ldr	x8, [sp, #1104]
	str	x26, [sp, #72]
	eor	v0.16b, v0.16b, v1.16b
	sub	x8, x8, #32
	cmp	x8, #3072
	rev32	v0.16b, v0.16b
	str	q0, [x26]
	b.lo	.Lluossavin.BB22_107
.Lluossavin.BB22_105:
	lsr	x8, x8, #4
	mov	w9, #512
	add	x11, x25, x21
	add	x0, sp, #1, lsl #12
	sub	x3, x11, #16
	add	x2, x25, x21
	cmp	x8, #512
	add	x0, x0, #784
	add	x4, x26, x21
	csel	x20, x8, x9, lo
	mov	x1, x20
	bl	"sliced::encrypt_xored"
	add	x21, x21, x20, lsl #4
	sub	x8, x24, x21
	cmp	x8, #3071
	b.hi	.Lluossavin.BB22_105
	cbz	x21, .Lluossavin.BB22_171
.Lluossavin.BB22_107:
	add	x8, x25, x21
	ldur	q0, [x8, #-16]
	rev32	v0.16b, v0.16b
.Lluossavin.BB22_108:
	ldr	x8, [sp, #72]
	add	x25, x25, x21
	sub	x9, x24, x21
	add	x8, x8, x21
	str	x8, [sp, #32]
	b	.Lluossavin.BB22_112
.Lluossavin.BB22_109:
	ldr	x8, [sp, #1008]
	ldr	x20, [sp, #848]
	add	x0, sp, #1, lsl #12
	ldr	w9, [sp, #1024]
	add	x2, sp, #1, lsl #12
	add	x4, sp, #1, lsl #12
	str	w8, [sp, #5556]
	ldr	w8, [sp, #1040]
	mov	x6, x22
	mov	w5, wzr
	add	x0, x0, #1424
	add	x2, x2, #784
	add	w8, w8, #1
	add	x4, x4, #1456
	mov	w1, w21
	str	w8, [sp, #5564]
	ldr	x8, [sp, #72]
	mov	w3, #4
	mov	x7, x20
	str	w23, [sp, #5552]
	str	w9, [sp, #5560]
	stp	x8, x19, [sp]
	bl	"stream::stream"
	ldr	x0, [sp, #912]
	add	x14, sp, #3360
	b	.Lluossavin.BB22_147
.Lluossavin.BB22_110:
	and	w8, w21, #0xff
	cmp	w8, #1
	b.ne	.Lluossavin.BB22_124
	ldr	q0, [sp, #1088]
	mov	x9, x24
	str	x26, [sp, #72]
	str	x26, [sp, #32]
.Lluossavin.BB22_112:
	lsr	x21, x9, #10
	str	x9, [sp, #24]
	str	q0, [sp, #1088]
	cbz	x21, .Lluossavin.BB22_117
	ldr	x26, [sp, #32]
	mov	x23, xzr
	mov	x20, x25
	b	.Lluossavin.BB22_115
.Lluossavin.BB22_114:
	rev32	v0.16b, v0.16b
	ldp	q2, q1, [x20]
	add	x0, sp, #2336
	mov	w1, wzr
	mov	w2, #1024
	stp	q2, q1, [sp, #96]
	str	q0, [sp, #80]
	ldp	q1, q0, [x20, #32]
	stp	q1, q0, [sp, #128]
	ldp	q1, q0, [x20, #64]
	stp	q1, q0, [sp, #160]
	ldp	q1, q0, [x20, #96]
	stp	q1, q0, [sp, #192]
	ldp	q1, q0, [x20, #128]
	stp	q1, q0, [sp, #224]
	ldp	q1, q0, [x20, #160]
	stp	q1, q0, [sp, #256]
	ldp	q1, q0, [x20, #192]
	stp	q1, q0, [sp, #288]
	ldp	q1, q0, [x20, #224]
	stp	q1, q0, [sp, #320]
	ldp	q1, q0, [x20, #256]
	stp	q1, q0, [sp, #352]
	ldp	q1, q0, [x20, #288]
	stp	q1, q0, [sp, #384]
	ldp	q1, q0, [x20, #320]
	stp	q1, q0, [sp, #416]
	ldp	q1, q0, [x20, #352]
	stp	q1, q0, [sp, #448]
	ldp	q1, q0, [x20, #384]
	stp	q1, q0, [sp, #480]
	ldp	q1, q0, [x20, #416]
	stp	q1, q0, [sp, #512]
	ldp	q1, q0, [x20, #448]
	stp	q1, q0, [sp, #544]
	ldp	q1, q0, [x20, #480]
	stp	q1, q0, [sp, #576]
	ldp	q1, q0, [x20, #512]
	stp	q1, q0, [sp, #608]
	ldp	q1, q0, [x20, #544]
	stp	q1, q0, [sp, #640]
	ldp	q1, q0, [x20, #576]
	stp	q1, q0, [sp, #672]
	ldp	q1, q0, [x20, #608]
	stp	q1, q0, [sp, #704]
	ldp	q1, q0, [x20, #640]
	stp	q1, q0, [sp, #736]
	ldp	q1, q0, [x20, #672]
	stp	q1, q0, [sp, #768]
	ldp	q1, q0, [x20, #704]
	stp	q1, q0, [sp, #800]
	ldp	q1, q0, [x20, #736]
	stp	q1, q0, [sp, #832]
	ldp	q1, q0, [x20, #768]
	stp	q1, q0, [sp, #864]
	ldp	q1, q0, [x20, #800]
	stp	q1, q0, [sp, #896]
	ldp	q1, q0, [x20, #832]
	stp	q1, q0, [sp, #928]
	ldp	q1, q0, [x20, #864]
	stp	q1, q0, [sp, #960]
	ldp	q1, q0, [x20, #896]
	stp	q1, q0, [sp, #992]
	ldp	q1, q0, [x20, #928]
	str	q1, [sp, #1024]
	str	q0, [sp, #1040]
	ldp	q1, q0, [x20, #960]
	str	q0, [sp, #1104]
	ldr	q0, [x20, #992]
	str	q1, [sp, #1056]
	str	q0, [sp, #1072]
	bl	memset
	add	x0, sp, #1, lsl #12
	add	x3, sp, #2336
	mov	w1, #64
	add	x0, x0, #784
	mov	x2, x20
	bl	"sixteen::encrypt"
	ldp	q2, q3, [sp, #80]
	add	x23, x23, #1
	ldr	q0, [x29, #1184]
	ldr	q1, [x29, #1200]
	cmp	x21, x23
	ldp	q4, q5, [sp, #112]
	add	x20, x20, #1024
	eor	v0.16b, v0.16b, v2.16b
	eor	v1.16b, v3.16b, v1.16b
	ldr	q3, [x29, #1232]
	ldr	q2, [x29, #1216]
	eor	v3.16b, v5.16b, v3.16b
	ldp	q6, q5, [sp, #144]
	eor	v2.16b, v4.16b, v2.16b
	ldr	q4, [x29, #1248]
	stp	q0, q1, [x26]
	ldr	q0, [x29, #1264]
	ldr	q1, [x29, #1280]
	eor	v4.16b, v6.16b, v4.16b
	eor	v0.16b, v5.16b, v0.16b
	stp	q2, q3, [x26, #32]
	ldr	q2, [x29, #1296]
	ldr	q3, [sp, #176]
	stp	q4, q0, [x26, #64]
	ldp	q4, q0, [sp, #192]
	eor	v1.16b, v3.16b, v1.16b
	ldr	q3, [x29, #1312]
	eor	v2.16b, v4.16b, v2.16b
	ldr	q4, [x29, #1328]
	eor	v0.16b, v0.16b, v3.16b
	ldr	q3, [x29, #1344]
	stp	q1, q2, [x26, #96]
	ldp	q1, q2, [sp, #224]
	eor	v1.16b, v1.16b, v4.16b
	ldr	q4, [x29, #1360]
	eor	v2.16b, v2.16b, v3.16b
	ldr	q3, [x29, #1376]
	stp	q0, q1, [x26, #128]
	ldp	q0, q1, [sp, #256]
	eor	v0.16b, v0.16b, v4.16b
	ldr	q4, [x29, #1392]
	eor	v1.16b, v1.16b, v3.16b
	ldr	q3, [x29, #1408]
	stp	q2, q0, [x26, #160]
	ldp	q2, q0, [sp, #288]
	eor	v2.16b, v2.16b, v4.16b
	ldr	q4, [x29, #1424]
	eor	v0.16b, v0.16b, v3.16b
	ldr	q3, [x29, #1440]
	stp	q1, q2, [x26, #192]
	ldp	q1, q2, [sp, #320]
	eor	v1.16b, v1.16b, v4.16b
	ldr	q4, [x29, #1456]
	eor	v2.16b, v2.16b, v3.16b
	ldr	q3, [x29, #1472]
	stp	q0, q1, [x26, #224]
	ldp	q0, q1, [sp, #352]
	eor	v0.16b, v0.16b, v4.16b
	ldr	q4, [x29, #1488]
	eor	v1.16b, v1.16b, v3.16b
	ldr	q3, [x29, #1504]
	stp	q2, q0, [x26, #256]
	ldp	q2, q0, [sp, #384]
	eor	v2.16b, v2.16b, v4.16b
	ldr	q4, [x29, #1520]
	eor	v0.16b, v0.16b, v3.16b
	ldr	q3, [x29, #1536]
	stp	q1, q2, [x26, #288]
	ldp	q1, q2, [sp, #416]
	eor	v1.16b, v1.16b, v4.16b
	ldr	q4, [x29, #1552]
	eor	v2.16b, v2.16b, v3.16b
	ldr	q3, [x29, #1568]
	stp	q0, q1, [x26, #320]
	ldp	q0, q1, [sp, #448]
	eor	v0.16b, v0.16b, v4.16b
	ldr	q4, [x29, #1584]
	eor	v1.16b, v1.16b, v3.16b
	ldr	q3, [x29, #1600]
	stp	q2, q0, [x26, #352]
	ldp	q2, q0, [sp, #480]
	eor	v2.16b, v2.16b, v4.16b
	ldr	q4, [x29, #1616]
	eor	v0.16b, v0.16b, v3.16b
	ldr	q3, [x29, #1632]
	stp	q1, q2, [x26, #384]
	ldp	q1, q2, [sp, #512]
	eor	v1.16b, v1.16b, v4.16b
	ldr	q4, [x29, #1648]
	eor	v2.16b, v2.16b, v3.16b
	ldr	q3, [x29, #1664]
	stp	q0, q1, [x26, #416]
	ldp	q0, q1, [sp, #544]
	eor	v0.16b, v0.16b, v4.16b
	ldr	q4, [x29, #1680]
	eor	v1.16b, v1.16b, v3.16b
	ldr	q3, [x29, #1696]
	stp	q2, q0, [x26, #448]
	ldp	q2, q0, [sp, #576]
	eor	v2.16b, v2.16b, v4.16b
	ldr	q4, [x29, #1712]
	eor	v0.16b, v0.16b, v3.16b
	ldr	q3, [x29, #1728]
	stp	q1, q2, [x26, #480]
	ldp	q1, q2, [sp, #608]
	eor	v1.16b, v1.16b, v4.16b
	ldr	q4, [x29, #1744]
	eor	v2.16b, v2.16b, v3.16b
	ldr	q3, [x29, #1760]
	stp	q0, q1, [x26, #512]
	ldp	q0, q1, [sp, #640]
	eor	v0.16b, v0.16b, v4.16b
	ldr	q4, [x29, #1776]
	eor	v1.16b, v1.16b, v3.16b
	ldr	q3, [x29, #1792]
	stp	q2, q0, [x26, #544]
	ldp	q2, q0, [sp, #672]
	eor	v2.16b, v2.16b, v4.16b
	ldr	q4, [x29, #1808]
	eor	v0.16b, v0.16b, v3.16b
	ldr	q3, [x29, #1824]
	stp	q1, q2, [x26, #576]
	ldp	q1, q2, [sp, #704]
	eor	v1.16b, v1.16b, v4.16b
	ldr	q4, [x29, #1840]
	eor	v2.16b, v2.16b, v3.16b
	ldr	q3, [x29, #1856]
	stp	q0, q1, [x26, #608]
	ldp	q0, q1, [sp, #736]
	eor	v0.16b, v0.16b, v4.16b
	ldr	q4, [x29, #1872]
	eor	v1.16b, v1.16b, v3.16b
	ldr	q3, [x29, #1888]
	stp	q2, q0, [x26, #640]
	ldp	q2, q0, [sp, #768]
	eor	v2.16b, v2.16b, v4.16b
	ldr	q4, [x29, #1904]
	eor	v0.16b, v0.16b, v3.16b
	ldr	q3, [x29, #1920]
	stp	q1, q2, [x26, #672]
	ldp	q1, q2, [sp, #800]
	eor	v1.16b, v1.16b, v4.16b
	ldr	q4, [x29, #1936]
	eor	v2.16b, v2.16b, v3.16b
	ldr	q3, [x29, #1952]
	stp	q0, q1, [x26, #704]
	ldp	q0, q1, [sp, #832]
	eor	v0.16b, v0.16b, v4.16b
	ldr	q4, [x29, #1968]
	eor	v1.16b, v1.16b, v3.16b
	ldr	q3, [x29, #1984]
	stp	q2, q0, [x26, #736]
	ldp	q2, q0, [sp, #864]
	eor	v2.16b, v2.16b, v4.16b
	ldr	q4, [x29, #2000]
	eor	v0.16b, v0.16b, v3.16b
	ldr	q3, [x29, #2016]
	stp	q1, q2, [x26, #768]
	ldp	q1, q2, [sp, #896]
	eor	v1.16b, v1.16b, v4.16b
	ldr	q4, [x29, #2032]
	eor	v2.16b, v2.16b, v3.16b
	ldr	q3, [x29, #2048]
	stp	q0, q1, [x26, #800]
	ldp	q0, q1, [sp, #928]
	eor	v0.16b, v0.16b, v4.16b
	ldr	q4, [x29, #2064]
	eor	v1.16b, v1.16b, v3.16b
	ldr	q3, [x29, #2080]
	stp	q2, q0, [x26, #832]
	ldp	q2, q0, [sp, #960]
	eor	v2.16b, v2.16b, v4.16b
	ldr	q4, [x29, #2096]
	eor	v0.16b, v0.16b, v3.16b
	ldr	q3, [x29, #2112]
	stp	q1, q2, [x26, #864]
	ldp	q1, q2, [sp, #992]
	eor	v1.16b, v1.16b, v4.16b
	ldr	q4, [x29, #2128]
	eor	v2.16b, v2.16b, v3.16b
	ldr	q3, [x29, #2144]
	stp	q0, q1, [x26, #896]
	ldr	q0, [sp, #1024]
	ldr	q1, [sp, #1040]
	eor	v0.16b, v0.16b, v4.16b
	ldr	q4, [x29, #2160]
	eor	v1.16b, v1.16b, v3.16b
	ldr	q3, [x29, #2176]
	stp	q2, q0, [x26, #928]
	ldr	q2, [sp, #1056]
	ldr	q0, [sp, #1104]
	eor	v2.16b, v2.16b, v4.16b
	ldr	q4, [x29, #2192]
	eor	v0.16b, v0.16b, v3.16b
	ldr	q3, [sp, #1072]
	eor	v3.16b, v3.16b, v4.16b
	stp	q1, q2, [x26, #960]
	stp	q0, q3, [x26, #992]
	ldr	q0, [sp, #1088]
	add	x26, x26, #1024
	b.eq	.Lluossavin.BB22_117
.Lluossavin.BB22_115:
	cbz	x23, .Lluossavin.BB22_114
	ldur	q0, [x20, #-16]
	rev32	v0.16b, v0.16b
	b	.Lluossavin.BB22_114
.Lluossavin.BB22_117:
	ldr	x8, [sp, #24]
	ubfx	x20, x8, #4, #6
	ands	x23, x8, #0xfffffffffffffc00
	b.eq	.Lluossavin.BB22_120
	add	x8, x25, x23
	mov	w1, wzr
	mov	w2, #1008
	ldur	q0, [x8, #-16]
	add	x8, sp, #2336
	add	x0, x8, #16
	str	q0, [sp, #1104]
	bl	memset
	cbz	x20, .Lluossavin.BB22_166
	ldr	q0, [sp, #1104]
	rev32	v0.16b, v0.16b
	str	q0, [sp, #1088]
	b	.Lluossavin.BB22_121
.Lluossavin.BB22_120:
	add	x8, sp, #2336
	mov	w1, wzr
	mov	w2, #1008
	add	x0, x8, #16
	bl	memset
	cbz	x20, .Lluossavin.BB22_166
.Lluossavin.BB22_121:
	ldr	q0, [sp, #1088]
	subs	x9, x20, #1
	add	x21, x25, x23
	rev32	v0.16b, v0.16b
	str	q0, [x29, #1184]
	b.eq	.Lluossavin.BB22_155
	cmp	x9, #4
	b.hs	.Lluossavin.BB22_150
	mov	w8, #1
	b	.Lluossavin.BB22_153
.Lluossavin.BB22_124:
	lsr	x20, x24, #4
	cbz	x20, .Lluossavin.BB22_167
	mov	x23, x26
.Lluossavin.BB22_126:
	ldr	q0, [x25]
	add	x2, sp, #1, lsl #12
	add	x0, sp, #2336
	add	x2, x2, #784
	add	x3, sp, #1312
	mov	w1, w21
	rev32	v0.16b, v0.16b
	str	xzr, [sp, #2344]
	str	xzr, [sp, #2336]
	str	q0, [x29, #160]
	bl	"cipher::encrypt"
	ldr	q0, [x29, #1184]
	ldr	q1, [sp, #1088]
	subs	x20, x20, #1
	eor	v0.16b, v0.16b, v1.16b
	rev32	v0.16b, v0.16b
	str	q0, [x23], #16
	ldr	q0, [x25], #16
	rev32	v0.16b, v0.16b
	str	q0, [sp, #1088]
	b.ne	.Lluossavin.BB22_126
	b	.Lluossavin.BB22_167
.Lluossavin.BB22_127:
	add	x13, sp, #2336
	and	x11, x10, #0x18
	and	x8, x10, #0xffffffffffffffe0
	mov	x14, x19
	add	x12, x19, #16
	add	x9, x9, #16
	add	x13, x13, #81
	and	x10, x10, #0xffffffffffffffe0
.Lluossavin.BB22_128:
	ldp	q0, q3, [x9, #-16]
	subs	x10, x10, #32
	ldp	q1, q2, [x13, #-16]
	add	x9, x9, #32
	add	x13, x13, #32
	eor	v0.16b, v0.16b, v1.16b
	eor	v1.16b, v3.16b, v2.16b
	stp	q0, q1, [x12, #-16]
	add	x12, x12, #32
	b.ne	.Lluossavin.BB22_128
	ldr	x10, [sp, #1104]
	ldr	x9, [sp, #960]
	mov	x19, x14
	ldr	x21, [sp, #944]
	ldr	x2, [sp, #928]
	cmp	x10, x8
	b.eq	.Lluossavin.BB22_136
	cbz	x11, .Lluossavin.BB22_134
.Lluossavin.BB22_131:
	mov	x13, x8
	add	x11, sp, #2336
	and	x8, x10, #0xfffffffffffffff8
	add	x12, x13, x11
	sub	x10, x13, x8
	mov	x14, x19
	add	x11, x19, x13
	add	x12, x12, #65
	add	x9, x9, x13
.Lluossavin.BB22_132:
	ldr	d0, [x12], #8
	adds	x10, x10, #8
	ldr	d1, [x9], #8
	eor	v0.8b, v1.8b, v0.8b
	str	d0, [x11], #8
	b.ne	.Lluossavin.BB22_132
	ldr	x10, [sp, #1104]
	ldr	x9, [sp, #960]
	mov	x19, x14
	ldr	x21, [sp, #944]
	ldr	x2, [sp, #928]
	cmp	x10, x8
	b.eq	.Lluossavin.BB22_136
.Lluossavin.BB22_134:
	add	x11, sp, #2336
	sub	x10, x10, x8
	add	x12, x8, x11
	add	x11, x19, x8
	add	x8, x9, x8
	add	x12, x12, #65
.Lluossavin.BB22_135:
	ldrb	w9, [x12], #1
	subs	x10, x10, #1
	ldrb	w13, [x8], #1
	eor	w9, w13, w9
	strb	w9, [x11], #1
	b.ne	.Lluossavin.BB22_135
.Lluossavin.BB22_136:
	movi	v0.2d, #0000000000000000
	ldr	x8, [sp, #1072]
	add	x1, sp, #1, lsl #12
	add	x0, sp, #3888
	add	x1, x1, #1296
	mov	x3, x21
	str	x8, [sp, #5392]
	ldr	x8, [sp, #1088]
	str	xzr, [sp, #5416]
	stp	q0, q0, [x22]
	stp	q0, q0, [x22, #496]
	str	x8, [sp, #5400]
	str	xzr, [sp, #5408]
	bl	"ghash::Ghash::absorb_all"
	add	x0, sp, #1, lsl #12
	ldr	x3, [sp, #1104]
	add	x1, sp, #3888
	add	x0, x0, #288
	mov	x2, x19
	bl	"ghash::Ghash::absorb_all"
	add	x0, sp, #1, lsl #12
	add	x1, sp, #1, lsl #12
	ldr	x3, [sp, #1104]
	add	x0, x0, #784
	add	x1, x1, #288
	mov	x2, x21
	bl	"ghash::Ghash::absorb_lengths"
	ldr	q0, [x22, #1008]
	adrp	x8, .Lluossavin.CPI22_0
	ldr	x20, [sp, #1104]
	ldr	q2, [x8, :lo12:.Lluossavin.CPI22_0]
	dup	v1.2d, v0.d[0]
	dup	v0.2d, v0.d[1]
	ushl	v0.2d, v0.2d, v2.2d
	ushl	v1.2d, v1.2d, v2.2d
	uzp1	v0.4s, v1.4s, v0.4s
	ldr	q1, [sp, #1056]
	rev32	v0.16b, v0.16b
	eor	v0.16b, v0.16b, v1.16b
.Lluossavin.BB22_137:
	add	x14, sp, #3360
	ldr	w10, [sp, #3376]
	ldr	x0, [sp, #912]
	ldur	w11, [x14, #19]
	str	q0, [x19, x20]
	mov	w9, wzr
	mov	w8, wzr
	str	w10, [sp, #3384]
	add	x20, x20, #16
	b	.Lluossavin.BB22_149
.Lluossavin.BB22_138:
	ldr	x13, [sp, #848]
	ldr	x9, [sp, #960]
	add	x12, sp, #2336
	ldr	x11, [sp, #72]
	add	x12, x12, #81
	and	x10, x13, #0x18
	and	x8, x13, #0xffffffffffffffe0
	add	x9, x9, #16
	add	x11, x11, #16
	and	x13, x13, #0xffffffffffffffe0
.Lluossavin.BB22_139:
	ldp	q0, q3, [x9, #-16]
	subs	x13, x13, #32
	ldp	q1, q2, [x12, #-16]
	add	x9, x9, #32
	add	x12, x12, #32
	eor	v0.16b, v0.16b, v1.16b
	eor	v1.16b, v3.16b, v2.16b
	stp	q0, q1, [x11, #-16]
	add	x11, x11, #32
	b.ne	.Lluossavin.BB22_139
	ldr	x20, [sp, #848]
	ldr	x0, [sp, #912]
	add	x14, sp, #3360
	ldr	x24, [sp, #960]
	ldr	x22, [sp, #1104]
	cmp	x20, x8
	b.eq	.Lluossavin.BB22_147
	cbz	x10, .Lluossavin.BB22_145
.Lluossavin.BB22_142:
	mov	x12, x8
	add	x10, sp, #2336
	and	x8, x20, #0xfffffffffffffff8
	add	x11, x12, x10
	ldr	x10, [sp, #72]
	sub	x9, x12, x8
	add	x11, x11, #65
	add	x10, x10, x12
	add	x12, x24, x12
.Lluossavin.BB22_143:
	ldr	d0, [x11], #8
	adds	x9, x9, #8
	ldr	d1, [x12], #8
	eor	v0.8b, v1.8b, v0.8b
	str	d0, [x10], #8
	b.ne	.Lluossavin.BB22_143
	ldr	x20, [sp, #848]
	ldr	x0, [sp, #912]
	add	x14, sp, #3360
	ldr	x24, [sp, #960]
	ldr	x22, [sp, #1104]
	cmp	x20, x8
	b.eq	.Lluossavin.BB22_147
.Lluossavin.BB22_145:
	add	x10, sp, #2336
	sub	x9, x22, x8
	add	x11, x8, x10
	ldr	x10, [sp, #72]
	sub	x9, x9, #16
	add	x11, x11, #65
	add	x10, x10, x8
	add	x8, x24, x8
.Lluossavin.BB22_146:
	ldrb	w12, [x11], #1
	subs	x9, x9, #1
	ldrb	w13, [x8], #1
	eor	w12, w13, w12
	strb	w12, [x10], #1
	b.ne	.Lluossavin.BB22_146
.Lluossavin.BB22_147:
	ldr	w10, [sp, #3360]
	ldur	w11, [x14, #3]
	mov	w9, wzr
	mov	w8, wzr
	str	w10, [sp, #3368]
	stur	w11, [x14, #11]
.Lluossavin.BB22_148:
	ldr	w10, [sp, #3368]
	ldur	w11, [x14, #11]
	str	w10, [sp, #3384]
.Lluossavin.BB22_149:
	stur	w11, [x14, #27]
	ldr	w10, [sp, #3384]
	mov	w11, w11
	b	.Lluossavin.BB22_169
.Lluossavin.BB22_150:
	and	x10, x9, #0xfffffffffffffffc
	add	x11, sp, #2336
	and	x12, x9, #0xfffffffffffffffc
	orr	x8, x10, #0x1
	add	x11, x11, #16
	add	x13, x25, x23
.Lluossavin.BB22_151:
	ldr	q0, [x13], #16
	subs	x12, x12, #1
	str	q0, [x11], #16
	b.ne	.Lluossavin.BB22_151
	cmp	x9, x10
	b.eq	.Lluossavin.BB22_155
.Lluossavin.BB22_153:
	lsl	x9, x8, #4
	add	x10, x23, x25
	add	x11, sp, #2336
	sub	x8, x20, x8
	add	x10, x10, x9
	add	x9, x11, x9
	sub	x10, x10, #16
.Lluossavin.BB22_154:
	ldr	q0, [x10], #16
	subs	x8, x8, #1
	str	q0, [x9], #16
	b.ne	.Lluossavin.BB22_154
.Lluossavin.BB22_155:
	add	x0, sp, #1312
	mov	w1, wzr
	mov	w2, #1024
	add	x25, sp, #1312
	bl	memset
	add	x0, sp, #1, lsl #12
	add	x3, sp, #1312
	mov	x1, x20
	add	x0, x0, #784
	mov	x2, x21
	bl	"sixteen::encrypt"
	lsl	x8, x20, #4
	cbz	x20, .Lluossavin.BB22_164
	cmp	x20, #1
	b.ne	.Lluossavin.BB22_160
	mov	x20, xzr
.Lluossavin.BB22_158:
	ldr	x12, [sp, #32]
	add	x9, x20, x23
	add	x10, sp, #1312
	add	x11, sp, #2336
	sub	x8, x20, x8
	add	x10, x10, x20
	add	x9, x12, x9
	add	x11, x11, x20
.Lluossavin.BB22_159:
	ldr	q0, [x10], #16
	adds	x8, x8, #16
	ldr	q1, [x11], #16
	eor	v0.16b, v1.16b, v0.16b
	str	q0, [x9], #16
	b.ne	.Lluossavin.BB22_159
	b	.Lluossavin.BB22_166
.Lluossavin.BB22_160:
	ldr	x9, [sp, #32]
	add	x10, sp, #1312
	add	x11, sp, #2336
	and	x20, x8, #0x3e0
	add	x10, x10, #16
	add	x11, x11, #16
	add	x9, x23, x9
	and	x12, x8, #0x3e0
	add	x9, x9, #16
.Lluossavin.BB22_161:
	ldp	q0, q3, [x11, #-16]
	subs	x12, x12, #32
	ldp	q1, q2, [x10, #-16]
	add	x10, x10, #32
	add	x11, x11, #32
	eor	v0.16b, v0.16b, v1.16b
	eor	v1.16b, v3.16b, v2.16b
	stp	q0, q1, [x9, #-16]
	add	x9, x9, #32
	b.ne	.Lluossavin.BB22_161
	cmp	x8, x20
	b.eq	.Lluossavin.BB22_166
	ldr	x9, [sp, #24]
	tbnz	w9, #4, .Lluossavin.BB22_158
.Lluossavin.BB22_164:
	ldr	x10, [sp, #32]
	add	x9, x20, x23
	add	x11, sp, #2336
	sub	x8, x20, x8
	add	x11, x11, x20
	add	x9, x10, x9
	add	x10, x25, x20
.Lluossavin.BB22_165:
	ldrb	w12, [x10], #1
	adds	x8, x8, #1
	ldrb	w13, [x11], #1
	eor	w12, w13, w12
	strb	w12, [x9], #1
	b.lo	.Lluossavin.BB22_165
.Lluossavin.BB22_166:
	ldr	x26, [sp, #72]
.Lluossavin.BB22_167:
	ldr	x20, [sp, #40]
	ldr	q0, [sp, #48]
	add	x0, x26, x24
	add	x1, sp, #2336
	mov	x2, x20
	str	q0, [x29, #1184]
	bl	memcpy
	add	x20, x20, x24
.Lluossavin.BB22_168:
	ldr	w10, [sp, #3888]
	ldur	w11, [x22, #3]
	mov	w9, wzr
	mov	w8, wzr
	mov	x0, x19
	mov	w25, wzr
.Lluossavin.BB22_169:
	str	w10, [sp, #1304]
	stur	w11, [x29, #155]
.Lluossavin.BB22_170:
	ldr	w11, [sp, #1304]
	ldur	w12, [x29, #155]
	mov	w10, wzr
	str	w11, [sp, #1296]
	stur	w12, [x29, #147]
	mov	w12, w12
	ldr	w11, [sp, #1296]
	str	w11, [sp, #1128]
	add	x11, sp, #876
	stur	w12, [x11, #255]
	b	.Lluossavin.BB22_14
.Lluossavin.BB22_171:
	ldr	q0, [sp, #1088]
	b	.Lluossavin.BB22_108
.Lluossavin.func_end22:
	.size	"cipher_mode::Sm4CipherMode::call", .Lluossavin.func_end22-"cipher_mode::Sm4CipherMode::call"

	.section	.rodata.cst16,"aM",@progbits,16
	.p2align	4, 0x0
.Lluossavin.CPI23_0:
	.xword	-32
	.xword	0
	.section	".text.editions::which","ax",@progbits
	.p2align	2
	.type	"editions::which",@function
"editions::which":
	stp	x29, x30, [sp, #-96]!
	stp	x28, x27, [sp, #16]
	stp	x26, x25, [sp, #32]
	stp	x24, x23, [sp, #48]
	stp	x22, x21, [sp, #64]
	stp	x20, x19, [sp, #80]
	sub	sp, sp, #416
	ldr	x27, [sp, #520]
	cmp	x27, #64
	b.hi	.Lluossavin.BB23_9
	ldr	x28, [sp, #512]
	ldrb	w26, [x1, #128]
	mov	x9, xzr
	ldrh	w25, [x1, #130]
	ldrb	w8, [x1, #133]
	cbz	x27, .Lluossavin.BB23_5
	mov	x10, x28
	mov	x11, x27
.Lluossavin.BB23_3:
	ldr	x12, [x10], #8
	cmn	x12, x9
	b.hs	.Lluossavin.BB23_9
	subs	x11, x11, #1
	add	x9, x12, x9
	b.ne	.Lluossavin.BB23_3
.Lluossavin.BB23_5:
	cmp	x9, x7
	b.ne	.Lluossavin.BB23_9
	cbz	w26, .Lluossavin.BB23_11
	cmp	w26, #1
	b.ne	.Lluossavin.BB23_16
	mov	w10, wzr
	mov	w9, wzr
	mov	x8, xzr
	mov	x29, xzr
	mov	x22, xzr
	mov	x19, xzr
	mov	w11, w26
	b	.Lluossavin.BB23_34
.Lluossavin.BB23_9:
	movi	v0.2d, #0000000000000000
	mov	w8, #1
	strb	w8, [x0]
	stur	q0, [x0, #1]
	stur	q0, [x0, #17]
	str	q0, [x0, #32]
.Lluossavin.BB23_10:
	add	sp, sp, #416
	ldp	x20, x19, [sp, #80]
	ldp	x22, x21, [sp, #64]
	ldp	x24, x23, [sp, #48]
	ldp	x26, x25, [sp, #32]
	ldp	x28, x27, [sp, #16]
	ldp	x29, x30, [sp], #96
	ret
.Lluossavin.BB23_11:
	cmp	x5, #16
	b.eq	.Lluossavin.BB23_13
	cmp	x5, #12
	b.ne	.Lluossavin.BB23_19
.Lluossavin.BB23_13:
	mov	x9, xzr
.Lluossavin.BB23_14:
	cmp	x27, x9
	b.eq	.Lluossavin.BB23_17
	ldr	x10, [x28, x9, lsl #3]
	mov	w11, #16777216
	add	x9, x9, #1
	cmp	x10, x11
	b.ls	.Lluossavin.BB23_14
	b	.Lluossavin.BB23_18
.Lluossavin.BB23_16:
	mov	w9, wzr
	mov	x8, xzr
	mov	x29, xzr
	mov	x22, xzr
	mov	x19, xzr
	mov	w10, #11
	mov	w11, #1
	b	.Lluossavin.BB23_34
.Lluossavin.BB23_17:
	mov	w9, #16
	movk	w9, #256, lsl #16
	cmp	x3, x9
	b.ls	.Lluossavin.BB23_20
.Lluossavin.BB23_18:
	mov	w9, wzr
	mov	x8, xzr
	mov	x29, xzr
	mov	x22, xzr
	mov	x19, xzr
	mov	w10, #4
	mov	w11, #1
	b	.Lluossavin.BB23_34
.Lluossavin.BB23_19:
	mov	w9, wzr
	mov	x8, xzr
	mov	x29, xzr
	mov	x22, xzr
	mov	x19, xzr
	mov	w10, #8
	mov	w11, #1
	b	.Lluossavin.BB23_34
.Lluossavin.BB23_20:
	cmp	x3, #15
	b.hi	.Lluossavin.BB23_22
	mov	w9, #16
	mov	x8, xzr
	mov	x29, xzr
	mov	x22, xzr
	mov	x19, xzr
	sub	w9, w9, w3
	mov	w10, #7
	mov	w11, #1
	b	.Lluossavin.BB23_34
.Lluossavin.BB23_22:
	ldp	q0, q1, [x1, #64]
	sub	w8, w8, #1
	cmp	w8, #3
	stp	xzr, xzr, [sp, #80]
	csinc	w19, w8, wzr, lo
	stp	q0, q1, [sp, #160]
	ldp	q0, q2, [x1, #96]
	stp	q0, q2, [sp, #192]
	ldp	q1, q0, [x1]
	stp	q1, q0, [sp, #96]
	ldp	q2, q0, [x1, #32]
	stp	q2, q0, [sp, #128]
	cbz	x27, .Lluossavin.BB23_25
	ldp	q0, q1, [x1, #64]
	mov	x29, x2
	mov	x24, x3
	str	x0, [sp, #8]
	add	x0, sp, #384
	add	x2, sp, #224
	add	x3, sp, #352
	mov	x22, x4
	stp	q0, q1, [sp, #288]
	ldp	q0, q2, [x1, #96]
	str	x6, [sp, #72]
	add	x23, sp, #224
	mov	x20, x5
	stp	xzr, xzr, [sp, #384]
	stp	q0, q2, [sp, #320]
	ldp	q1, q0, [x1]
	stp	xzr, xzr, [sp, #352]
	stp	q1, q0, [sp, #224]
	ldp	q2, q0, [x1, #32]
	mov	w1, w19
	stp	q2, q0, [sp, #256]
	bl	"cipher::encrypt"
	ldr	w8, [sp, #388]
	ldr	w9, [sp, #384]
	mov	x3, x20
	ldr	w10, [sp, #396]
	ldr	w11, [sp, #392]
	cmp	x20, #12
	orr	x20, x8, x9, lsl #32
	orr	x21, x10, x11, lsl #32
	b.ne	.Lluossavin.BB23_26
	ldr	d0, [x22]
	ldr	w8, [x22, #8]
	mov	w9, #1
	rev32	v0.8b, v0.8b
	rev	w8, w8
	b	.Lluossavin.BB23_27
.Lluossavin.BB23_25:
	mov	x8, xzr
	mov	x29, xzr
	mov	x22, xzr
	mov	x19, xzr
	b	.Lluossavin.BB23_33
.Lluossavin.BB23_26:
	movi	v0.2d, #0000000000000000
	add	x0, sp, #384
	add	x1, sp, #352
	mov	x2, x22
	stp	x20, x21, [sp, #352]
	mov	x22, x3
	stp	xzr, xzr, [sp, #368]
	stp	q0, q0, [sp, #384]
	bl	"ghash::Ghash::absorb_all"
	add	x0, sp, #224
	add	x1, sp, #384
	mov	x2, xzr
	mov	x3, x22
	bl	"ghash::Ghash::absorb_lengths"
	add	x8, x23, #16
	ld1r	{ v0.2d }, [x8]
	adrp	x8, .Lluossavin.CPI23_0
	ldr	q1, [x8, :lo12:.Lluossavin.CPI23_0]
	ldp	w9, w8, [sp, #248]
	ushl	v0.2d, v0.2d, v1.2d
	xtn	v0.2s, v0.2d
.Lluossavin.BB23_27:
	add	x0, sp, #80
	add	x2, sp, #96
	add	x3, sp, #352
	mov	w1, w19
	str	d0, [sp, #352]
	str	w8, [sp, #360]
	str	w9, [sp, #364]
	bl	"cipher::encrypt"
	movi	v0.2d, #0000000000000000
	add	x0, sp, #224
	add	x1, sp, #384
	sub	x3, x24, #16
	mov	x2, x29
	stp	x20, x21, [sp, #384]
	stp	xzr, xzr, [sp, #400]
	sub	x22, x24, #16
	mov	x19, x29
	stp	q0, q0, [sp, #224]
	bl	"ghash::Ghash::absorb_all"
	lsr	x8, x22, #4
	ldp	x11, x9, [sp, #240]
	tst	x24, #0xf
	sub	x10, x24, #16
	mov	x0, x20
	cinc	x2, x8, ne
	mov	x1, x21
	stp	x11, x10, [sp, #56]
	str	x9, [sp, #48]
	bl	"field::power"
	ldp	w9, w8, [sp, #80]
	mov	x29, xzr
	mov	x22, xzr
	add	x23, x19, x24
	stp	x1, x0, [sp, #32]
	stp	w8, w9, [sp, #24]
	ldp	w8, w24, [sp, #88]
	str	w8, [sp, #20]
.Lluossavin.BB23_28:
	movi	v0.2d, #0000000000000000
	add	x8, sp, #384
	ldr	x19, [x28, x29, lsl #3]
	stp	xzr, xzr, [x8, #16]
	ldr	x8, [sp, #72]
	add	x0, sp, #224
	add	x1, sp, #384
	mov	x3, x19
	stp	x20, x21, [sp, #384]
	add	x2, x8, x22
	stp	q0, q0, [sp, #224]
	bl	"ghash::Ghash::absorb_all"
	ldp	x0, x1, [sp, #240]
	ldp	x3, x2, [sp, #32]
	bl	"field::galois_mul"
	ldp	x9, x8, [sp, #48]
	mov	x2, x19
	ldr	x3, [sp, #64]
	stp	x20, x21, [sp, #384]
	eor	x8, x0, x8
	eor	x9, x1, x9
	add	x0, sp, #224
	add	x1, sp, #384
	stp	x8, x9, [sp, #400]
	bl	"ghash::Ghash::absorb_lengths"
	ldp	w8, w9, [sp, #240]
	ldp	w14, w15, [sp, #24]
	ldp	w10, w11, [sp, #248]
	ldp	w12, w13, [x23, #-16]
	eor	w8, w14, w8
	ldr	w14, [sp, #20]
	eor	w9, w15, w9
	eor	w10, w24, w10
	eor	w11, w14, w11
	rev	w12, w12
	rev	w13, w13
	ldp	w14, w15, [x23, #-8]
	eor	w9, w9, w12
	eor	w8, w8, w13
	add	x8, x8, x9
	rev	w14, w14
	rev	w12, w15
	eor	w11, w11, w14
	eor	w9, w10, w12
	add	x8, x8, x11
	orr	x8, x8, x9
	cbz	x8, .Lluossavin.BB23_31
	add	x29, x29, #1
	add	x22, x19, x22
	cmp	x27, x29
	b.ne	.Lluossavin.BB23_28
	mov	x8, xzr
	mov	x29, xzr
	mov	x22, xzr
	mov	x19, xzr
	b	.Lluossavin.BB23_32
.Lluossavin.BB23_31:
	mov	w8, #1
.Lluossavin.BB23_32:
	ldr	x0, [sp, #8]
.Lluossavin.BB23_33:
	mov	w11, wzr
	mov	w10, wzr
	mov	w9, wzr
.Lluossavin.BB23_34:
	cmp	w26, #0
	stp	x8, x29, [x0, #8]
	csel	w8, w25, wzr, eq
	strb	w11, [x0]
	strb	w11, [x0, #1]
	strb	w10, [x0, #2]
	strb	w9, [x0, #3]
	str	wzr, [x0, #4]
	stp	x22, x19, [x0, #24]
	strh	w8, [x0, #40]
	stur	wzr, [x0, #42]
	strh	wzr, [x0, #46]
	b	.Lluossavin.BB23_10
.Lluossavin.func_end23:
	.size	"editions::which", .Lluossavin.func_end23-"editions::which"

	.section	.text.luossavin_block_decrypt,"ax",@progbits
	.globl	luossavin_block_decrypt
	.p2align	2
	.type	luossavin_block_decrypt,@function
luossavin_block_decrypt:
	sub	sp, sp, #192
	ldp	q0, q1, [x0, #64]
	mov	w10, #4096
	cmp	x1, #0
	ldr	w12, [x0, #128]
	mov	w13, #1
	csel	x11, x10, xzr, eq
	cmp	x3, #0
	mov	x8, x3
	stp	q0, q1, [sp, #64]
	ldp	q0, q1, [x0, #96]
	csel	x10, x10, xzr, eq
	cmp	w12, #13
	mov	x9, x1
	cinc	w13, w13, eq
	cmp	w12, #0
	ldrb	w12, [x0, #134]
	stp	q0, q1, [sp, #96]
	ldp	q0, q1, [x0]
	csel	w13, wzr, w13, eq
	ldrh	w14, [x0, #132]
	cmp	w12, #0
	strb	w13, [sp, #128]
	ldrb	w13, [x0, #135]
	mov	x6, x4
	stp	q0, q1, [sp]
	ldp	q0, q1, [x0, #32]
	mov	x4, x2
	cset	w12, ne
	add	x0, sp, #144
	mov	x1, sp
	add	x3, x9, x11
	add	x5, x8, x10
	stp	q0, q1, [sp, #32]
	movi	v0.2d, #0000000000000000
	mov	w2, #1
	str	x30, [sp, #176]
	strb	wzr, [sp, #129]
	strh	w14, [sp, #130]
	strb	w12, [sp, #132]
	strb	w13, [sp, #133]
	strh	wzr, [sp, #134]
	stp	q0, q0, [sp, #144]
	bl	"cipher_mode::Sm4Cipher::call"
	ldrb	w9, [sp, #144]
	ldrh	w8, [sp, #168]
	cbz	w9, .Lluossavin.BB24_2
	ldrb	w10, [sp, #145]
	ldrb	w11, [sp, #146]
	adrp	x12, .Lluossavin.switch.table.luossavin_edition_opens
	add	x12, x12, :lo12:.Lluossavin.switch.table.luossavin_edition_opens
	mov	x1, xzr
	cmp	w10, #7
	ldr	x10, [x12, x10, lsl #3]
	csel	w11, w11, wzr, eq
	lsl	x11, x11, #32
	orr	x8, x10, x8, lsl #48
	ldr	x30, [sp, #176]
	orr	x8, x8, x11
	orr	x0, x8, xzr
	add	sp, sp, #192
	ret
.Lluossavin.BB24_2:
	ldrb	w9, [sp, #160]
	ldr	x1, [sp, #152]
	and	w9, w9, #0x1
	lsl	x9, x9, #40
	orr	x8, xzr, x8, lsl #48
	ldr	x30, [sp, #176]
	orr	x8, x8, xzr
	orr	x0, x8, x9
	add	sp, sp, #192
	ret
.Lluossavin.func_end24:
	.size	luossavin_block_decrypt, .Lluossavin.func_end24-luossavin_block_decrypt

	.section	.text.luossavin_block_encrypt,"ax",@progbits
	.globl	luossavin_block_encrypt
	.p2align	2
	.type	luossavin_block_encrypt,@function
luossavin_block_encrypt:
	sub	sp, sp, #80
	stp	x20, x19, [sp, #64]
	cmp	x1, #0
	mov	w9, #4096
	ldr	w20, [x0, #128]
	csel	x8, x9, xzr, eq
	cmp	x3, #0
	stp	x22, x21, [sp, #48]
	csel	x21, x9, xzr, eq
	mov	w9, #1
	cmp	w20, #13
	ldrh	w19, [x0, #132]
	str	x30, [sp, #32]
	cinc	w9, w9, eq
	cmp	w20, #0
	csel	w9, wzr, w9, eq
	cbz	w9, .Lluossavin.BB25_3
	cmp	w9, #2
	b.ne	.Lluossavin.BB25_7
	cmp	w20, #0
	mov	x1, xzr
	mov	w9, #13
	b	.Lluossavin.BB25_8
.Lluossavin.BB25_3:
	cmp	x2, #16
	b.ne	.Lluossavin.BB25_9
	ldrb	w9, [x0, #134]
	cbnz	w9, .Lluossavin.BB25_9
	cmp	x4, #15
	b.hi	.Lluossavin.BB25_10
	cmp	w20, #0
	mov	x1, xzr
	mov	w9, #6
	b	.Lluossavin.BB25_8
.Lluossavin.BB25_7:
	cmp	w20, #0
	mov	x1, xzr
	mov	w9, #1
.Lluossavin.BB25_8:
	csel	w8, w19, wzr, eq
	ldp	x20, x19, [sp, #64]
	orr	x0, x9, x8, lsl #48
	ldp	x22, x21, [sp, #48]
	ldr	x30, [sp, #32]
	add	sp, sp, #80
	ret
.Lluossavin.BB25_9:
	cmp	w20, #0
	mov	w9, #14
	mov	w10, #11
	csel	w8, w19, wzr, eq
	cmp	x2, #16
	mov	x1, xzr
	csel	x9, x10, x9, ne
	ldp	x20, x19, [sp, #64]
	orr	x0, x9, x8, lsl #48
	ldp	x22, x21, [sp, #48]
	ldr	x30, [sp, #32]
	add	sp, sp, #80
	ret
.Lluossavin.BB25_10:
	ldr	q0, [x1, x8]
	ldrb	w8, [x0, #135]
	mov	x2, x0
	add	x0, sp, #16
	mov	x22, x3
	mov	x3, sp
	rev32	v0.16b, v0.16b
	sub	w8, w8, #1
	stp	xzr, xzr, [sp, #16]
	cmp	w8, #3
	csel	w1, w8, wzr, lo
	str	q0, [sp]
	bl	"cipher::encrypt"
	ldr	q0, [sp, #16]
	cmp	w20, #0
	csel	w8, w19, wzr, eq
	mov	w1, #16
	rev32	v0.16b, v0.16b
	str	q0, [x22, x21]
	ldp	x20, x19, [sp, #64]
	orr	x0, xzr, x8, lsl #48
	ldp	x22, x21, [sp, #48]
	ldr	x30, [sp, #32]
	add	sp, sp, #80
	ret
.Lluossavin.func_end25:
	.size	luossavin_block_encrypt, .Lluossavin.func_end25-luossavin_block_encrypt

	.section	.text.luossavin_ctr_by_plan,"ax",@progbits
	.globl	luossavin_ctr_by_plan
	.p2align	2
	.type	luossavin_ctr_by_plan,@function
luossavin_ctr_by_plan:
	stp	x29, x30, [sp, #-96]!
	stp	x28, x27, [sp, #16]
	stp	x26, x25, [sp, #32]
	stp	x24, x23, [sp, #48]
	stp	x22, x21, [sp, #64]
	stp	x20, x19, [sp, #80]
	sub	sp, sp, #1344
	str	xzr, [sp]
	cmp	x2, #0
	mov	w8, #4096
	csel	x21, x8, xzr, eq
	cmp	x5, #0
	ldr	w23, [x0, #128]
	csel	x26, x8, xzr, eq
	cmp	x7, #0
	ldrh	w22, [x0, #132]
	csel	x27, x8, xzr, eq
	cmp	w23, #13
	mov	w8, #1
	cinc	w8, w8, eq
	cmp	w23, #0
	csel	w8, wzr, w8, eq
	cbz	w8, .Lluossavin.BB26_3
	cmp	w8, #2
	b.ne	.Lluossavin.BB26_7
	cmp	w23, #0
	mov	x19, xzr
	mov	w9, #13
	b	.Lluossavin.BB26_9
.Lluossavin.BB26_3:
	cmp	x3, #16
	b.ne	.Lluossavin.BB26_8
	ldrb	w20, [x0, #135]
	mov	x19, x6
	tbnz	w1, #0, .Lluossavin.BB26_10
	ldrb	w8, [x0, #134]
	cbz	w8, .Lluossavin.BB26_10
	cmp	w23, #0
	mov	x19, xzr
	mov	w9, #14
	b	.Lluossavin.BB26_9
.Lluossavin.BB26_7:
	cmp	w23, #0
	mov	x19, xzr
	mov	w9, #1
	b	.Lluossavin.BB26_9
.Lluossavin.BB26_8:
	cmp	w23, #0
	mov	x19, xzr
	mov	w9, #10
.Lluossavin.BB26_9:
	csel	w8, w22, wzr, eq
	orr	x0, x9, x8, lsl #48
	mov	x1, x19
	add	sp, sp, #1344
	ldp	x20, x19, [sp, #80]
	ldp	x22, x21, [sp, #64]
	ldp	x24, x23, [sp, #48]
	ldp	x26, x25, [sp, #32]
	ldp	x28, x27, [sp, #16]
	ldp	x29, x30, [sp], #96
	ret
.Lluossavin.BB26_10:
	mov	w8, #16777216
	cmp	x19, x8
	b.ls	.Lluossavin.BB26_12
	cmp	w23, #0
	mov	x19, xzr
	mov	w9, #5
	b	.Lluossavin.BB26_9
.Lluossavin.BB26_12:
	mov	x29, x2
	mov	x25, x0
	add	x0, sp, #120
	mov	x1, x4
	mov	w2, #1032
	mov	x24, x5
	str	x7, [sp, #112]
	mov	x28, x4
	bl	memcpy
	ldr	x9, [sp, #120]
	cmp	x9, #64
	b.hi	.Lluossavin.BB26_22
	mov	x8, x25
	mov	x1, x28
	mov	x10, xzr
	cbz	x9, .Lluossavin.BB26_19
	add	x11, sp, #120
	add	x11, x11, #8
.Lluossavin.BB26_15:
	ldr	x12, [x11, #512]
	ldr	x15, [x11], #8
	sub	x14, x19, x10
	tst	x12, #0xf
	ccmp	x12, x14, #4, ne
	cset	w13, eq
	cmp	x15, x10
	b.ne	.Lluossavin.BB26_22
	sub	x15, x12, #1
	cmp	x15, x14
	b.hs	.Lluossavin.BB26_22
	cbz	w13, .Lluossavin.BB26_22
	subs	x9, x9, #1
	add	x10, x12, x10
	b.ne	.Lluossavin.BB26_15
.Lluossavin.BB26_19:
	cmp	x10, x19
	b.ne	.Lluossavin.BB26_22
	ldr	x9, [sp, #1440]
	cmp	x9, x19
	str	x9, [sp, #64]
	b.hs	.Lluossavin.BB26_23
	cmp	w23, #0
	mov	x19, xzr
	mov	w9, #6
	b	.Lluossavin.BB26_9
.Lluossavin.BB26_22:
	cmp	w23, #0
	mov	x19, xzr
	mov	w9, #18
	b	.Lluossavin.BB26_9
.Lluossavin.BB26_23:
	ldp	q0, q1, [x8, #64]
	add	x10, sp, #1152
	sub	w9, w20, #1
	add	x0, sp, #120
	mov	w2, #1032
	cmp	w9, #3
	stp	q0, q1, [x10, #64]
	ldp	q0, q2, [x8, #96]
	stp	q0, q2, [x10, #96]
	ldp	q1, q0, [x8]
	stp	q1, q0, [x10]
	ldp	q1, q0, [x8, #32]
	csinc	w8, w9, wzr, lo
	str	w8, [sp, #60]
	stp	q1, q0, [x10, #32]
	bl	memcpy
	ldr	x28, [sp, #120]
	cbz	x28, .Lluossavin.BB26_27
	add	x8, x29, x21
	mov	x25, xzr
	str	x8, [sp, #48]
	add	x8, x24, x26
	add	x26, sp, #120
	str	x8, [sp, #40]
	ldr	x8, [sp, #112]
	mov	x24, #-64
	add	x8, x8, x27
	str	x8, [sp, #32]
.Lluossavin.BB26_25:
	cbz	x24, .Lluossavin.BB26_27
	ldr	x9, [sp, #48]
	ldr	x10, [x26, #8]!
	ldr	x11, [x26, #512]
	ldr	w21, [sp, #60]
	add	x0, sp, #1280
	ldp	x9, x8, [x9]
	add	x2, sp, #1152
	str	x10, [sp, #112]
	add	x3, sp, #1312
	mov	w1, w21
	str	xzr, [sp, #1288]
	sub	x28, x28, #1
	rev	x8, x8
	rev	x9, x9
	str	xzr, [sp, #1280]
	adds	x20, x8, x10, lsr #4
	ldr	x10, [sp, #32]
	cinc	x8, x9, hs
	add	x10, x10, x25
	lsr	x9, x8, #32
	lsr	x29, x20, #32
	stp	x11, x10, [sp, #88]
	ldr	x10, [sp, #64]
	str	w8, [sp, #1316]
	rev	w8, w8
	rev	w27, w9
	sub	x10, x10, x25
	str	w9, [sp, #1312]
	str	x10, [sp, #80]
	add	x10, x11, x25
	str	w29, [sp, #1320]
	str	x10, [sp, #104]
	str	w20, [sp, #1324]
	str	w8, [sp, #76]
	bl	"cipher::encrypt"
	fmov	s0, w29
	ldr	d1, [sp, #1280]
	ldr	w8, [sp, #76]
	ldr	d2, [sp, #1288]
	ldp	x10, x7, [sp, #80]
	str	w8, [sp, #1316]
	add	x8, sp, #1152
	mov	w3, wzr
	mov	v0.s[1], w20
	add	x0, sp, #1280
	add	x2, sp, #1152
	add	x4, sp, #1312
	mov	w1, w21
	str	w27, [sp, #1312]
	mov	v0.d[1], v1.d[0]
	rev32	v1.8b, v2.8b
	rev32	v0.16b, v0.16b
	str	d1, [sp, #1336]
	stur	q0, [x8, #168]
	ldr	x8, [sp, #112]
	and	x5, x8, #0xf
	ldr	x8, [sp, #40]
	add	x6, x8, x25
	ldr	x8, [sp, #96]
	stp	x8, x10, [sp]
	bl	"pieces::flow::run"
	ldr	x25, [sp, #104]
	add	x24, x24, #1
	cbnz	x28, .Lluossavin.BB26_25
.Lluossavin.BB26_27:
	cmp	w23, #0
	mov	x9, xzr
	b	.Lluossavin.BB26_9
.Lluossavin.func_end26:
	.size	luossavin_ctr_by_plan, .Lluossavin.func_end26-luossavin_ctr_by_plan

	.section	.text.luossavin_ctr_end,"ax",@progbits
	.globl	luossavin_ctr_end
	.p2align	2
	.type	luossavin_ctr_end,@function
luossavin_ctr_end:
	movi	v0.2d, #0000000000000000
	stp	q0, q0, [sp, #-176]!
	ldp	x12, x11, [x0, #160]
	mov	x14, sp
	ldr	w1, [x0, #184]
	ldr	x10, [x0, #176]
	ldrh	w9, [x0, #188]
	ldrb	w15, [x0, #190]
	ldrb	w13, [x0, #191]
	stp	q0, q0, [sp, #32]
	lsr	x17, x12, #32
	lsr	x16, x11, #32
	cmp	w1, #9
	stp	q0, q0, [sp, #64]
	stp	q0, q0, [sp, #96]
	stp	q0, q0, [sp, #128]
	stur	xzr, [x14, #158]
	b.gt	.Lluossavin.BB27_4
	cbz	w1, .Lluossavin.BB27_8
	cmp	w1, #1
	b.eq	.Lluossavin.BB27_12
	cmp	w1, #5
	b.eq	.Lluossavin.BB27_9
	b	.Lluossavin.BB27_11
.Lluossavin.BB27_4:
	cmp	w1, #10
	b.eq	.Lluossavin.BB27_10
	cmp	w1, #13
	b.eq	.Lluossavin.BB27_13
	cmp	w1, #14
	b.ne	.Lluossavin.BB27_11
	ldp	q0, q1, [x0, #96]
	mov	w18, wzr
	stur	q0, [sp, #102]
	stur	q1, [sp, #118]
	ldp	q0, q1, [x0, #128]
	stur	q0, [x14, #134]
	stur	q1, [x14, #150]
	ldp	q0, q1, [x0, #32]
	stur	q0, [sp, #38]
	stur	q1, [sp, #54]
	ldp	q0, q1, [x0, #64]
	stur	q0, [sp, #70]
	stur	q1, [sp, #86]
	ldp	q0, q1, [x0]
	mov	w0, #14
	b	.Lluossavin.BB27_14
.Lluossavin.BB27_8:
	mov	w18, #16777216
	cmp	x10, x18
	b.ls	.Lluossavin.BB27_16
.Lluossavin.BB27_9:
	ldp	q0, q1, [x0, #96]
	mov	w18, wzr
	stur	q0, [sp, #102]
	stur	q1, [sp, #118]
	ldp	q0, q1, [x0, #128]
	stur	q0, [x14, #134]
	stur	q1, [x14, #150]
	ldp	q0, q1, [x0, #32]
	stur	q0, [sp, #38]
	stur	q1, [sp, #54]
	ldp	q0, q1, [x0, #64]
	stur	q0, [sp, #70]
	stur	q1, [sp, #86]
	ldp	q0, q1, [x0]
	mov	w0, #5
	b	.Lluossavin.BB27_14
.Lluossavin.BB27_10:
	ldp	q0, q1, [x0, #96]
	mov	w18, wzr
	stur	q0, [sp, #102]
	stur	q1, [sp, #118]
	ldp	q0, q1, [x0, #128]
	stur	q0, [x14, #134]
	stur	q1, [x14, #150]
	ldp	q0, q1, [x0, #32]
	stur	q0, [sp, #38]
	stur	q1, [sp, #54]
	ldp	q0, q1, [x0, #64]
	stur	q0, [sp, #70]
	stur	q1, [sp, #86]
	ldp	q0, q1, [x0]
	mov	w0, #10
	b	.Lluossavin.BB27_14
.Lluossavin.BB27_11:
	ldp	q0, q1, [x0, #96]
	mov	w18, wzr
	stur	q0, [sp, #102]
	stur	q1, [sp, #118]
	ldp	q0, q1, [x0, #128]
	stur	q0, [x14, #134]
	stur	q1, [x14, #150]
	ldp	q0, q1, [x0, #32]
	stur	q0, [sp, #38]
	stur	q1, [sp, #54]
	ldp	q0, q1, [x0, #64]
	stur	q0, [sp, #70]
	stur	q1, [sp, #86]
	ldp	q0, q1, [x0]
	mov	w0, #12
	b	.Lluossavin.BB27_14
.Lluossavin.BB27_12:
	ldp	q0, q1, [x0, #96]
	mov	w18, wzr
	stur	q0, [sp, #102]
	stur	q1, [sp, #118]
	ldp	q0, q1, [x0, #128]
	stur	q0, [x14, #134]
	stur	q1, [x14, #150]
	ldp	q0, q1, [x0, #32]
	stur	q0, [sp, #38]
	stur	q1, [sp, #54]
	ldp	q0, q1, [x0, #64]
	stur	q0, [sp, #70]
	stur	q1, [sp, #86]
	ldp	q0, q1, [x0]
	mov	w0, #1
	b	.Lluossavin.BB27_14
.Lluossavin.BB27_13:
	ldp	q0, q1, [x0, #96]
	mov	w18, wzr
	stur	q0, [sp, #102]
	stur	q1, [sp, #118]
	ldp	q0, q1, [x0, #128]
	stur	q0, [x14, #134]
	stur	q1, [x14, #150]
	ldp	q0, q1, [x0, #32]
	stur	q0, [sp, #38]
	stur	q1, [sp, #54]
	ldp	q0, q1, [x0, #64]
	stur	q0, [sp, #70]
	stur	q1, [sp, #86]
	ldp	q0, q1, [x0]
	mov	w0, #13
.Lluossavin.BB27_14:
	stur	q0, [sp, #6]
	stur	q1, [sp, #22]
.Lluossavin.BB27_15:
	ldur	q0, [sp, #102]
	ldur	q1, [sp, #118]
	ldur	q2, [x14, #134]
	str	w0, [x8]
	stp	q0, q1, [x8, #112]
	ldur	q0, [x14, #150]
	ldur	q1, [sp, #38]
	strb	wzr, [x8, #4]
	stp	q2, q0, [x8, #144]
	ldur	q0, [sp, #54]
	ldur	q2, [sp, #70]
	strb	w18, [x8, #5]
	stp	q1, q0, [x8, #48]
	ldur	q0, [sp, #86]
	ldur	q1, [sp, #6]
	strh	w9, [x8, #6]
	stp	q2, q0, [x8, #80]
	ldur	q0, [sp, #22]
	str	xzr, [x8, #8]
	stp	q1, q0, [x8, #16]
	stp	w12, w17, [x8, #176]
	stp	w11, w16, [x8, #184]
	str	x10, [x8, #192]
	str	w1, [x8, #200]
	strh	w9, [x8, #204]
	strb	w15, [x8, #206]
	strb	w13, [x8, #207]
	add	sp, sp, #176
	ret
.Lluossavin.BB27_16:
	cbz	x10, .Lluossavin.BB27_18
	tst	x10, #0xf
	rev	x11, x11
	csetm	x13, ne
	cmn	x12, #1
	sub	x10, x13, x10, lsr #4
	ccmp	x11, x10, #0, eq
	cset	w18, hi
	b	.Lluossavin.BB27_19
.Lluossavin.BB27_18:
	mov	w18, wzr
.Lluossavin.BB27_19:
	mov	w13, wzr
	mov	w15, wzr
	mov	x10, xzr
	mov	w16, wzr
	mov	w11, wzr
	mov	w17, wzr
	mov	w12, wzr
	mov	w0, wzr
	mov	w1, #12
	b	.Lluossavin.BB27_15
.Lluossavin.func_end27:
	.size	luossavin_ctr_end, .Lluossavin.func_end27-luossavin_ctr_end

	.section	.text.luossavin_ctr_piece,"ax",@progbits
	.globl	luossavin_ctr_piece
	.p2align	2
	.type	luossavin_ctr_piece,@function
luossavin_ctr_piece:
	stp	x29, x30, [sp, #-64]!
	stp	x24, x23, [sp, #16]
	stp	x22, x21, [sp, #32]
	stp	x20, x19, [sp, #48]
	sub	sp, sp, #560
	ldp	q0, q1, [x0, #112]
	cmp	x1, #0
	mov	w9, #4096
	ldr	w20, [x0, #184]
	ldr	x23, [x0, #176]
	csel	x10, x9, xzr, eq
	cmp	x3, #0
	ldrh	w21, [x0, #188]
	stp	q0, q1, [sp, #496]
	ldp	q2, q0, [x0, #144]
	csel	x11, x9, xzr, eq
	ldrb	w22, [x0, #190]
	ldrb	w9, [x0, #191]
	cmp	w20, #9
	stp	q2, q0, [sp, #528]
	ldp	q2, q1, [x0, #48]
	ldp	q0, q3, [x0, #80]
	stp	q1, q0, [sp, #448]
	ldp	q0, q1, [x0]
	str	q3, [sp, #480]
	stp	q0, q1, [sp, #384]
	movi	v1.2d, #0000000000000000
	ldr	q0, [x0, #32]
	stp	q0, q2, [sp, #416]
	stp	q1, q1, [sp, #352]
	b.gt	.Lluossavin.BB28_4
	cbz	w20, .Lluossavin.BB28_8
	cmp	w20, #1
	b.eq	.Lluossavin.BB28_12
	cmp	w20, #5
	b.eq	.Lluossavin.BB28_9
	b	.Lluossavin.BB28_11
.Lluossavin.BB28_4:
	cmp	w20, #10
	b.eq	.Lluossavin.BB28_10
	cmp	w20, #13
	b.eq	.Lluossavin.BB28_13
	cmp	w20, #14
	b.ne	.Lluossavin.BB28_11
	ldp	q0, q1, [x0, #128]
	mov	x19, xzr
	ldr	q2, [x0, #160]
	ldr	q3, [x0, #112]
	mov	w10, #14
	b	.Lluossavin.BB28_16
.Lluossavin.BB28_8:
	adds	x12, x2, x23
	mov	w13, #16777216
	csinv	x12, x12, xzr, lo
	cmp	x12, x13
	b.ls	.Lluossavin.BB28_14
.Lluossavin.BB28_9:
	ldp	q0, q1, [x0, #128]
	mov	x19, xzr
	ldr	q2, [x0, #160]
	ldr	q3, [x0, #112]
	mov	w10, #5
	b	.Lluossavin.BB28_16
.Lluossavin.BB28_10:
	ldp	q0, q1, [x0, #128]
	mov	x19, xzr
	ldr	q2, [x0, #160]
	ldr	q3, [x0, #112]
	mov	w10, #10
	b	.Lluossavin.BB28_16
.Lluossavin.BB28_11:
	ldp	q0, q1, [x0, #128]
	mov	x19, xzr
	ldr	q2, [x0, #160]
	ldr	q3, [x0, #112]
	mov	w10, #12
	b	.Lluossavin.BB28_16
.Lluossavin.BB28_12:
	ldp	q0, q1, [x0, #128]
	mov	x19, xzr
	ldr	q2, [x0, #160]
	ldr	q3, [x0, #112]
	mov	w10, #1
	b	.Lluossavin.BB28_16
.Lluossavin.BB28_13:
	ldp	q0, q1, [x0, #128]
	mov	x19, xzr
	ldr	q2, [x0, #160]
	ldr	q3, [x0, #112]
	mov	w10, #13
	b	.Lluossavin.BB28_16
.Lluossavin.BB28_14:
	cmp	x4, x2
	b.hs	.Lluossavin.BB28_18
	ldp	q0, q1, [x0, #128]
	mov	x19, xzr
	ldr	q2, [x0, #160]
	ldr	q3, [x0, #112]
	mov	w10, #6
.Lluossavin.BB28_16:
	stp	q0, q1, [sp, #144]
	ldp	q0, q1, [x0, #48]
	str	q2, [sp, #176]
	str	q3, [sp, #128]
	stp	q0, q1, [sp, #64]
	ldp	q1, q0, [x0, #80]
	stp	q1, q0, [sp, #96]
	ldp	q0, q2, [x0, #16]
	ldr	q1, [x0]
	stp	q1, q0, [sp, #16]
	str	q2, [sp, #48]
.Lluossavin.BB28_17:
	ldp	q0, q1, [sp, #144]
	ldr	q2, [sp, #176]
	str	w10, [x8]
	str	q2, [x8, #176]
	stp	q0, q1, [x8, #144]
	ldp	q0, q1, [sp, #80]
	strh	wzr, [x8, #4]
	strh	w21, [x8, #6]
	stp	q0, q1, [x8, #80]
	ldp	q0, q2, [sp, #112]
	str	x19, [x8, #8]
	str	x23, [x8, #192]
	stp	q0, q2, [x8, #112]
	ldp	q1, q0, [sp, #16]
	str	w20, [x8, #200]
	strh	w21, [x8, #204]
	stp	q1, q0, [x8, #16]
	ldp	q0, q2, [sp, #48]
	strb	w22, [x8, #206]
	strb	w9, [x8, #207]
	stp	q0, q2, [x8, #48]
	add	sp, sp, #560
	ldp	x20, x19, [sp, #48]
	ldp	x22, x21, [sp, #32]
	ldp	x24, x23, [sp, #16]
	ldp	x29, x30, [sp], #64
	ret
.Lluossavin.BB28_18:
	ldp	q0, q1, [x0, #64]
	sub	w9, w22, #1
	cmp	w9, #3
	add	x11, x3, x11
	mov	x19, x2
	csinc	w9, w9, wzr, lo
	mov	w3, wzr
	add	x2, sp, #224
	stp	q0, q1, [sp, #288]
	ldp	q0, q2, [x0, #96]
	and	x5, x23, #0xf
	add	x6, x1, x10
	mov	w1, w9
	mov	x7, x19
	mov	x24, x8
	stp	q0, q2, [sp, #320]
	ldp	q1, q0, [x0]
	stp	q1, q0, [sp, #224]
	ldp	q2, q0, [x0, #32]
	stp	q2, q0, [sp, #256]
	ldp	q2, q1, [x0, #128]
	stp	x11, x4, [sp]
	add	x0, sp, #352
	add	x4, sp, #192
	stp	q2, q1, [sp, #192]
	bl	"pieces::flow::run"
	ldp	q0, q1, [sp, #448]
	mov	x8, x24
	mov	w9, wzr
	mov	w10, wzr
	add	x23, x23, x19
	stp	q0, q1, [sp, #80]
	ldp	q0, q2, [sp, #480]
	stp	q0, q2, [sp, #112]
	ldp	q1, q0, [sp, #384]
	stp	q1, q0, [sp, #16]
	ldp	q2, q0, [sp, #416]
	stp	q2, q0, [sp, #48]
	ldp	q2, q1, [sp, #352]
	ldr	q0, [sp, #544]
	stp	q2, q1, [sp, #144]
	str	q0, [sp, #176]
	b	.Lluossavin.BB28_17
.Lluossavin.func_end28:
	.size	luossavin_ctr_piece, .Lluossavin.func_end28-luossavin_ctr_piece

	.section	.text.luossavin_ctr_range,"ax",@progbits
	.globl	luossavin_ctr_range
	.p2align	2
	.type	luossavin_ctr_range,@function
luossavin_ctr_range:
	sub	sp, sp, #336
	cmp	x2, #0
	mov	w8, #4096
	stp	x22, x21, [sp, #304]
	csel	x9, x8, xzr, eq
	cmp	x5, #0
	ldr	w22, [x0, #128]
	stp	x24, x23, [sp, #288]
	csel	x23, x8, xzr, eq
	cmp	x7, #0
	csel	x8, x8, xzr, eq
	cmp	w22, #13
	mov	w10, #1
	cinc	w10, w10, eq
	cmp	w22, #0
	ldrh	w21, [x0, #132]
	csel	w10, wzr, w10, eq
	stp	x29, x30, [sp, #240]
	stp	x28, x27, [sp, #256]
	stp	x26, x25, [sp, #272]
	stp	x20, x19, [sp, #320]
	cbz	w10, .Lluossavin.BB29_3
	cmp	w10, #2
	b.ne	.Lluossavin.BB29_7
	cmp	w22, #0
	mov	x19, xzr
	mov	w9, #13
	b	.Lluossavin.BB29_9
.Lluossavin.BB29_3:
	cmp	x3, #16
	b.ne	.Lluossavin.BB29_8
	ldrb	w10, [x0, #135]
	mov	x19, x6
	tbnz	w1, #0, .Lluossavin.BB29_10
	ldrb	w11, [x0, #134]
	cbz	w11, .Lluossavin.BB29_10
	cmp	w22, #0
	mov	x19, xzr
	mov	w9, #14
	b	.Lluossavin.BB29_9
.Lluossavin.BB29_7:
	cmp	w22, #0
	mov	x19, xzr
	mov	w9, #1
	b	.Lluossavin.BB29_9
.Lluossavin.BB29_8:
	cmp	w22, #0
	mov	x19, xzr
	mov	w9, #10
.Lluossavin.BB29_9:
	csel	w8, w21, wzr, eq
	mov	x1, x19
	ldp	x20, x19, [sp, #320]
	ldp	x22, x21, [sp, #304]
	orr	x0, x9, x8, lsl #48
	ldp	x24, x23, [sp, #288]
	ldp	x26, x25, [sp, #272]
	ldp	x28, x27, [sp, #256]
	ldp	x29, x30, [sp, #240]
	add	sp, sp, #336
	ret
.Lluossavin.BB29_10:
	adds	x11, x19, x4
	mov	w12, #16777216
	csinv	x11, x11, xzr, lo
	cmp	x11, x12
	b.ls	.Lluossavin.BB29_12
	cmp	w22, #0
	mov	x19, xzr
	mov	w9, #5
	b	.Lluossavin.BB29_9
.Lluossavin.BB29_12:
	ldr	x24, [sp, #336]
	cmp	x24, x19
	b.hs	.Lluossavin.BB29_14
	cmp	w22, #0
	mov	x19, xzr
	mov	w9, #6
	b	.Lluossavin.BB29_9
.Lluossavin.BB29_14:
	ldp	q0, q1, [x0, #64]
	add	x9, x2, x9
	ldp	x11, x9, [x9]
	sub	w10, w10, #1
	cmp	w10, #3
	add	x8, x7, x8
	mov	x2, x0
	stp	q0, q1, [sp, #176]
	ldp	q2, q0, [x0, #96]
	rev	x9, x9
	csinc	w1, w10, wzr, lo
	rev	x10, x11
	adds	x25, x9, x4, lsr #4
	add	x3, sp, #80
	str	w1, [sp, #36]
	stp	q2, q0, [sp, #208]
	ldp	q1, q0, [x0]
	cinc	x9, x10, hs
	lsr	x26, x25, #32
	stp	x8, xzr, [sp, #40]
	lsr	x10, x9, #32
	str	xzr, [sp, #56]
	rev	w29, w9
	stp	q1, q0, [sp, #112]
	ldp	q2, q0, [x0, #32]
	add	x0, sp, #48
	stp	w10, w9, [sp, #80]
	rev	w28, w10
	stp	w26, w25, [sp, #88]
	mov	x27, x5
	mov	x20, x4
	stp	q2, q0, [sp, #144]
	bl	"cipher::encrypt"
	fmov	s0, w26
	ldp	d1, d2, [sp, #48]
	ldr	w1, [sp, #36]
	ldr	x8, [sp, #40]
	mov	w3, wzr
	add	x0, sp, #48
	add	x2, sp, #112
	add	x4, sp, #80
	mov	v0.s[1], w25
	and	x5, x20, #0xf
	add	x6, x27, x23
	mov	x7, x19
	stp	w28, w29, [sp, #80]
	stp	x8, x24, [sp]
	mov	v0.d[1], v1.d[0]
	rev32	v1.8b, v2.8b
	rev32	v0.16b, v0.16b
	str	d1, [sp, #104]
	stur	q0, [sp, #88]
	bl	"pieces::flow::run"
	cmp	w22, #0
	mov	x9, xzr
	b	.Lluossavin.BB29_9
.Lluossavin.func_end29:
	.size	luossavin_ctr_range, .Lluossavin.func_end29-luossavin_ctr_range

	.section	.text.luossavin_ctr_start,"ax",@progbits
	.globl	luossavin_ctr_start
	.p2align	2
	.type	luossavin_ctr_start,@function
luossavin_ctr_start:
	sub	sp, sp, #272
	ldr	w9, [x0, #128]
	cmp	x2, #0
	mov	w10, #4096
	stp	x22, x21, [sp, #240]
	csel	x10, x10, xzr, eq
	mov	w11, #1
	cmp	w9, #13
	ldrh	w21, [x0, #132]
	stp	x29, x30, [sp, #224]
	cinc	w11, w11, eq
	cmp	w9, #0
	stp	x20, x19, [sp, #256]
	csel	w11, wzr, w11, eq
	csel	w9, w21, wzr, eq
	cbz	w11, .Lluossavin.BB30_3
	cmp	w11, #2
	b.ne	.Lluossavin.BB30_7
	movi	v4.2d, #0000000000000000
	mov	w20, wzr
	mov	w10, wzr
	mov	w11, wzr
	mov	w12, wzr
	mov	w13, wzr
	stur	xzr, [sp, #174]
	movi	v0.2d, #0000000000000000
	mov	w14, #13
	b	.Lluossavin.BB30_9
.Lluossavin.BB30_3:
	cmp	x3, #16
	b.ne	.Lluossavin.BB30_8
	ldrb	w20, [x0, #135]
	tbnz	w1, #0, .Lluossavin.BB30_11
	ldrb	w11, [x0, #134]
	cbz	w11, .Lluossavin.BB30_11
	movi	v4.2d, #0000000000000000
	movi	v0.2d, #0000000000000000
	mov	w20, wzr
	mov	w10, wzr
	mov	w11, wzr
	mov	w12, wzr
	mov	w13, wzr
	mov	w14, #14
	stur	xzr, [sp, #174]
	b	.Lluossavin.BB30_9
.Lluossavin.BB30_7:
	movi	v4.2d, #0000000000000000
	mov	w20, wzr
	mov	w10, wzr
	mov	w11, wzr
	mov	w12, wzr
	mov	w13, wzr
	stur	xzr, [sp, #174]
	movi	v0.2d, #0000000000000000
	mov	w14, #1
	b	.Lluossavin.BB30_9
.Lluossavin.BB30_8:
	movi	v4.2d, #0000000000000000
	mov	w20, wzr
	mov	w10, wzr
	mov	w11, wzr
	mov	w12, wzr
	mov	w13, wzr
	stur	xzr, [sp, #174]
	movi	v0.2d, #0000000000000000
	mov	w14, #10
.Lluossavin.BB30_9:
	stp	q4, q4, [sp, #80]
	stp	q4, q4, [sp, #112]
	stp	q4, q4, [sp, #144]
	stp	q4, q4, [sp, #48]
.Lluossavin.BB30_10:
	ldur	q1, [sp, #118]
	ldur	q2, [sp, #134]
	ldur	q3, [sp, #150]
	strb	w20, [x8, #206]
	ldp	x20, x19, [sp, #256]
	stp	q1, q2, [x8, #80]
	ldur	q1, [sp, #166]
	ldur	q2, [sp, #54]
	str	w14, [x8]
	ldp	x22, x21, [sp, #240]
	stp	q3, q1, [x8, #112]
	ldur	q1, [sp, #70]
	ldur	q3, [sp, #86]
	strh	wzr, [x8, #4]
	ldp	x29, x30, [sp, #224]
	stp	q2, q1, [x8, #16]
	ldur	q1, [sp, #102]
	strh	w9, [x8, #6]
	str	xzr, [x8, #8]
	stp	q3, q1, [x8, #48]
	stp	w13, w12, [x8, #144]
	stur	q4, [x8, #152]
	stur	q0, [x8, #168]
	stp	w11, w10, [x8, #184]
	str	xzr, [x8, #192]
	str	w14, [x8, #200]
	strh	w9, [x8, #204]
	strb	wzr, [x8, #207]
	add	sp, sp, #272
	ret
.Lluossavin.BB30_11:
	add	x9, x2, x10
	sub	w10, w20, #1
	mov	x19, x0
	ldr	q0, [x9]
	ldr	d1, [x9]
	cmp	w10, #3
	csinc	w1, w10, wzr, lo
	add	x0, sp, #192
	add	x3, sp, #208
	stp	q1, q0, [sp, #16]
	rev32	v0.16b, v0.16b
	mov	x2, x19
	ldr	d1, [x9, #8]
	mov	x22, x8
	stp	xzr, xzr, [sp, #192]
	str	q1, [sp]
	str	q0, [sp, #208]
	bl	"cipher::encrypt"
	ldp	q0, q3, [x19, #64]
	mov	x8, x22
	ldp	d1, d2, [sp, #192]
	mov	w14, wzr
	mov	w9, w21
	stur	q0, [sp, #118]
	rev32	v0.8b, v2.8b
	ldp	q4, q2, [x19, #96]
	rev32	v1.8b, v1.8b
	stur	q3, [sp, #134]
	stur	q2, [sp, #166]
	ldp	q3, q2, [x19]
	stur	q4, [sp, #150]
	ldr	q4, [sp]
	stur	q3, [sp, #54]
	mov	v4.d[1], v1.d[0]
	ldp	q5, q3, [sp, #16]
	stur	q2, [sp, #70]
	ldp	q1, q2, [x19, #32]
	mov	v0.d[1], v5.d[0]
	mov	w12, v3.s[1]
	mov	w11, v3.s[2]
	mov	w10, v3.s[3]
	stur	q1, [sp, #86]
	fmov	w13, s3
	stur	q2, [sp, #102]
	b	.Lluossavin.BB30_10
.Lluossavin.func_end30:
	.size	luossavin_ctr_start, .Lluossavin.func_end30-luossavin_ctr_start

	.section	.text.luossavin_hash_blocks,"ax",@progbits
	.globl	luossavin_hash_blocks
	.p2align	2
	.type	luossavin_hash_blocks,@function
luossavin_hash_blocks:
	movi	v0.2d, #0000000000000000
	mov	w8, #4096
	cmp	x2, #0
	csel	x8, x8, xzr, eq
	stp	x0, x1, [sp, #-80]!
	add	x0, sp, #32
	mov	x1, sp
	add	x2, x2, x8
	str	x30, [sp, #64]
	stp	xzr, xzr, [sp, #16]
	stp	q0, q0, [sp, #32]
	bl	"ghash::Ghash::absorb_all"
	ldp	x0, x1, [sp, #48]
	ldr	x30, [sp, #64]
	add	sp, sp, #80
	ret
.Lluossavin.func_end31:
	.size	luossavin_hash_blocks, .Lluossavin.func_end31-luossavin_hash_blocks

	.section	.text.luossavin_hash_join,"ax",@progbits
	.globl	luossavin_hash_join
	.p2align	2
	.type	luossavin_hash_join,@function
luossavin_hash_join:
	str	x30, [sp, #-48]!
	stp	x22, x21, [sp, #16]
	mov	x22, x2
	mov	x2, x6
	stp	x20, x19, [sp, #32]
	mov	x19, x5
	mov	x20, x4
	mov	x21, x3
	bl	"field::power"
	mov	x2, x0
	mov	x3, x1
	mov	x0, x22
	mov	x1, x21
	bl	"field::galois_mul"
	eor	x0, x0, x20
	eor	x1, x1, x19
	ldp	x20, x19, [sp, #32]
	ldp	x22, x21, [sp, #16]
	ldr	x30, [sp], #48
	ret
.Lluossavin.func_end32:
	.size	luossavin_hash_join, .Lluossavin.func_end32-luossavin_hash_join

	.section	.text.luossavin_key_new,"ax",@progbits
	.globl	luossavin_key_new
	.p2align	2
	.type	luossavin_key_new,@function
luossavin_key_new:
	sub	sp, sp, #240
	cmp	x0, #0
	mov	w9, #4096
	stp	x29, x30, [sp, #144]
	csel	x10, x9, xzr, eq
	cmp	x1, #16
	stp	x28, x27, [sp, #160]
	stp	x26, x25, [sp, #176]
	stp	x24, x23, [sp, #192]
	stp	x22, x21, [sp, #208]
	stp	x20, x19, [sp, #224]
	b.ne	.Lluossavin.BB33_3
	sub	w9, w2, #16, lsl #12
	cmn	w9, #16, lsl #12
	b.hi	.Lluossavin.BB33_5
	movi	v0.2d, #0000000000000000
	mov	w10, wzr
	mov	w9, #13
	b	.Lluossavin.BB33_4
.Lluossavin.BB33_3:
	movi	v0.2d, #0000000000000000
	mov	w10, wzr
	mov	w9, #1
.Lluossavin.BB33_4:
	stp	q0, q0, [sp, #48]
	stp	q0, q0, [sp, #80]
	stp	q0, q0, [sp, #112]
	stp	q0, q0, [sp, #16]
	b	.Lluossavin.BB33_8
.Lluossavin.BB33_5:
	add	x10, x0, x10
	mov	w11, #45475
	movi	v0.2d, #0000000000000000
	ldp	w13, w14, [x10]
	movk	w11, #50874, lsl #16
	mov	w12, #43606
	str	x8, [sp]
	ldp	w15, w16, [x10, #8]
	eor	w13, w13, w11
	mov	w10, #32103
	mov	w11, #28850
	movk	w12, #20531, lsl #16
	movk	w10, #38801, lsl #16
	movk	w11, #56354, lsl #16
	eor	w14, w14, w12
	eor	w8, w15, w10
	eor	w16, w16, w11
	mov	x9, xzr
	mov	w15, #16843009
	rev	w12, w13
	rev	w13, w14
	rev	w14, w8
	rev	w16, w16
	str	w2, [sp, #8]
	stp	q0, q0, [sp, #16]
	stp	q0, q0, [sp, #48]
	stp	q0, q0, [sp, #80]
	stp	q0, q0, [sp, #112]
.Lluossavin.BB33_6:
	str	w12, [sp, #12]
	mov	w12, w13
	mov	w13, w14
	mov	w14, w16
	adrp	x16, .Lluossavin.static.5
	add	x16, x16, :lo12:.Lluossavin.static.5
	ldr	w16, [x16, x9]
	eor	w17, w14, w13
	eor	w17, w17, w12
	eor	w17, w17, w16
	lsr	x0, x17, #4
	lsr	x25, x17, #7
	lsr	x1, x17, #3
	lsr	x7, x17, #5
	lsr	x27, x17, #2
	lsr	x28, x17, #6
	lsr	x16, x17, #1
	eor	w23, w25, w0
	eor	w29, w7, w1
	eor	w26, w28, w27
	eor	w30, w23, w17
	eor	w18, w7, w16
	eor	w20, w0, w27
	eor	w22, w29, w17
	eor	w19, w26, w16
	eor	w6, w30, w1
	eor	w21, w30, w27
	eor	w10, w1, w16
	eor	w24, w29, w25
	eor	w5, w22, w20
	eor	w0, w22, w26
	eor	w3, w23, w18
	eor	w4, w6, w19
	eor	w1, w21, w18
	eor	w20, w10, w20
	eor	w23, w23, w7
	eor	w7, w22, w25
	bic	w10, w26, w24
	and	w2, w3, w20
	and	w8, w7, w0
	and	w11, w1, w4
	eor	w27, w27, w24
	eor	w8, w8, w2
	eor	w11, w11, w2
	bic	w2, w19, w21
	eor	w27, w27, w10
	eor	w28, w28, w29
	eor	w25, w18, w17
	eor	w2, w27, w2
	bic	w27, w29, w17
	eor	w10, w28, w10
	bic	w28, w6, w18
	and	w29, w29, w17
	eor	w27, w27, w16
	eor	w28, w29, w28
	and	w29, w23, w25
	eor	w2, w2, w8
	eor	w27, w27, w29
	and	w29, w5, w16
	eor	w8, w28, w8
	eor	w10, w10, w29
	eor	w27, w27, w30
	eor	w10, w10, w11
	eor	w11, w27, w11
	bic	w27, w2, w8
	eon	w28, w8, w11
	eor	w29, w27, w10
	eor	w2, w2, w10
	and	w28, w29, w28
	eor	w29, w27, w11
	eor	w27, w28, w27
	and	w30, w29, w2
	and	w27, w27, w11
	eor	w10, w30, w10
	eor	w11, w28, w11
	eor	w29, w27, w29
	eon	w8, w8, w27
	and	w16, w11, w16
	and	w29, w29, w10
	and	w26, w8, w26
	bic	w24, w8, w24
	eor	w2, w29, w2
	eor	w8, w8, w11
	and	w19, w8, w19
	bic	w21, w8, w21
	eor	w8, w2, w8
	eor	w27, w2, w10
	and	w6, w2, w6
	bic	w18, w2, w18
	and	w2, w11, w5
	eor	w11, w10, w11
	and	w5, w10, w23
	and	w4, w8, w4
	and	w22, w27, w22
	and	w10, w10, w25
	and	w3, w11, w3
	and	w20, w11, w20
	eor	w11, w8, w11
	eor	w5, w4, w5
	and	w0, w11, w0
	and	w11, w11, w7
	and	w8, w8, w1
	eor	w1, w22, w26
	eor	w7, w5, w21
	eor	w16, w4, w16
	eor	w10, w20, w10
	bic	w17, w27, w17
	eor	w19, w1, w19
	eor	w21, w7, w0
	eor	w0, w0, w6
	eor	w16, w16, w1
	eor	w18, w18, w24
	eor	w1, w24, w20
	eor	w10, w10, w8
	eor	w6, w19, w6
	eor	w19, w21, w19
	eor	w18, w18, w17
	eor	w10, w10, w17
	eor	w17, w1, w11
	eon	w16, w16, w0
	mov	w4, #33686018
	eor	w10, w10, w6
	eor	w17, w17, w19
	and	w16, w4, w16, lsl #1
	eor	w1, w22, w3
	and	w17, w17, w15
	and	w10, w4, w10, lsl #1
	eor	w8, w8, w2
	eor	w1, w1, w7
	orr	w16, w17, w16
	eor	w8, w8, w11
	orr	w10, w10, w16, lsl #2
	eor	w11, w1, w18
	eor	w16, w0, w5
	eor	w17, w8, w18
	and	w11, w11, w15
	eor	w8, w1, w8
	eor	w17, w17, w6
	orr	w10, w10, w11
	and	w11, w4, w16, lsl #1
	eon	w16, w19, w18
	and	w17, w17, w15
	lsl	w10, w10, #4
	orr	w11, w11, w17
	and	w16, w4, w16, lsl #1
	and	w8, w8, w15
	orr	w10, w10, w11, lsl #2
	mov	w11, #20560
	orr	w8, w16, w8
	movk	w11, #20560, lsl #16
	eor	w10, w10, w11
	eor	w8, w8, w15
	add	x11, sp, #16
	add	w8, w10, w8
	ldr	w10, [sp, #12]
	eor	w10, w10, w8, ror #9
	eor	w10, w10, w8, ror #19
	eor	w16, w10, w8
	str	w16, [x11, x9]
	add	x9, x9, #4
	cmp	x9, #128
	b.ne	.Lluossavin.BB33_6
	ldr	w10, [sp, #8]
	ldr	x8, [sp]
	mov	w9, wzr
.Lluossavin.BB33_8:
	ldp	q0, q1, [sp, #80]
	str	w9, [x8, #128]
	ldp	x20, x19, [sp, #224]
	strh	w10, [x8, #132]
	strh	wzr, [x8, #134]
	ldp	x22, x21, [sp, #208]
	stp	q0, q1, [x8, #64]
	ldp	q0, q2, [sp, #112]
	ldp	x24, x23, [sp, #192]
	ldp	x26, x25, [sp, #176]
	stp	q0, q2, [x8, #96]
	ldp	q1, q0, [sp, #16]
	ldp	x28, x27, [sp, #160]
	ldp	x29, x30, [sp, #144]
	stp	q1, q0, [x8]
	ldp	q2, q0, [sp, #48]
	stp	q2, q0, [x8, #32]
	add	sp, sp, #240
	ret
.Lluossavin.func_end33:
	.size	luossavin_key_new, .Lluossavin.func_end33-luossavin_key_new

	.section	.text.luossavin_key_retire,"ax",@progbits
	.globl	luossavin_key_retire
	.p2align	2
	.type	luossavin_key_retire,@function
luossavin_key_retire:
	ldr	w9, [x0, #128]
	ldrb	w11, [x0, #134]
	ldrh	w10, [x0, #132]
	ldp	q0, q1, [x0, #96]
	ldrb	w12, [x0, #135]
	cmp	w9, #0
	ldp	q2, q3, [x0]
	ldp	q4, q5, [x0, #32]
	ldp	q6, q7, [x0, #64]
	str	w9, [x8, #128]
	csinc	w9, w11, wzr, ne
	stp	q2, q3, [x8]
	stp	q4, q5, [x8, #32]
	stp	q6, q7, [x8, #64]
	stp	q0, q1, [x8, #96]
	strh	w10, [x8, #132]
	strb	w9, [x8, #134]
	strb	w12, [x8, #135]
	ret
.Lluossavin.func_end34:
	.size	luossavin_key_retire, .Lluossavin.func_end34-luossavin_key_retire

	.section	.text.luossavin_label,"ax",@progbits
	.globl	luossavin_label
	.p2align	2
	.type	luossavin_label,@function
luossavin_label:
	and	x8, x1, #0xffff
	lsl	w9, w0, #8
	lsr	w10, w0, #8
	and	w11, w0, #0xff0000ff
	rev	x8, x8
	rev	w11, w11
	and	w9, w9, #0xff0000
	and	w10, w10, #0xff00
	orr	x8, x11, x8, lsr #16
	orr	x9, x9, x10
	orr	x0, x8, x9
	ret
.Lluossavin.func_end35:
	.size	luossavin_label, .Lluossavin.func_end35-luossavin_label

	.section	.text.luossavin_opens_end,"ax",@progbits
	.globl	luossavin_opens_end
	.p2align	2
	.type	luossavin_opens_end,@function
luossavin_opens_end:
	sub	sp, sp, #208
	mov	w9, #4096
	cmp	x1, #0
	stp	x22, x21, [sp, #176]
	csel	x11, x9, xzr, eq
	stp	x26, x25, [sp, #144]
	ldrh	w21, [x0, #88]
	ldp	w22, w9, [x0, #80]
	stp	x24, x23, [sp, #160]
	stp	x20, x19, [sp, #192]
	ldp	x20, x19, [x0, #64]
	ldp	w25, w23, [x0, #48]
	ldp	w26, w24, [x0, #56]
	cmp	w9, #9
	str	x30, [sp, #112]
	stp	x28, x27, [sp, #128]
	b.gt	.Lluossavin.BB36_5
	cbz	w9, .Lluossavin.BB36_9
	cmp	w9, #1
	b.eq	.Lluossavin.BB36_16
	cmp	w9, #5
	b.ne	.Lluossavin.BB36_15
	mov	w10, #1025
	b	.Lluossavin.BB36_18
.Lluossavin.BB36_5:
	cmp	w9, #10
	b.eq	.Lluossavin.BB36_14
	cmp	w9, #13
	b.eq	.Lluossavin.BB36_17
	cmp	w9, #14
	b.ne	.Lluossavin.BB36_15
	mov	w10, #3073
	b	.Lluossavin.BB36_18
.Lluossavin.BB36_9:
	mov	w10, #16777216
	cmp	x20, x10
	mov	w10, #1025
	b.hi	.Lluossavin.BB36_18
	mov	w12, #16777216
	cmp	x19, x12
	b.hi	.Lluossavin.BB36_18
	cmp	x2, #16
	b.ne	.Lluossavin.BB36_20
	ldp	q0, q1, [x0]
	movi	v3.2d, #0000000000000000
	mov	x27, x8
	ldr	q2, [x0, #32]
	add	x8, sp, #64
	add	x28, x1, x11
	add	x0, sp, #32
	mov	x1, sp
	stp	q0, q1, [sp, #64]
	add	x2, x8, #32
	and	x3, x19, #0xf
	ldp	q0, q1, [sp, #64]
	str	q2, [sp, #96]
	stp	q3, q3, [sp, #32]
	rev64	v0.16b, v0.16b
	rev64	v1.16b, v1.16b
	stp	q0, q1, [sp]
	bl	"ghash::Ghash::absorb_all"
	mov	x0, sp
	add	x1, sp, #32
	mov	x2, x20
	mov	x3, x19
	bl	"ghash::Ghash::absorb_lengths"
	ldp	w8, w9, [sp, #16]
	ldp	w10, w11, [sp, #24]
	ldp	w12, w13, [x28]
	rev	w9, w9
	rev	w8, w8
	ldp	w14, w15, [x28, #8]
	rev	w11, w11
	eor	w9, w9, w25
	eor	w8, w8, w23
	rev	w10, w10
	eor	w9, w9, w12
	eor	w11, w11, w26
	eor	w8, w8, w13
	rev	w9, w9
	eor	w11, w11, w14
	rev	w8, w8
	eor	w10, w10, w24
	rev	w11, w11
	eor	w10, w10, w15
	add	x8, x8, x9
	rev	w9, w10
	add	x8, x8, x11
	orr	x8, x8, x9
	cbz	x8, .Lluossavin.BB36_21
	mov	w11, wzr
	mov	w10, #769
	b	.Lluossavin.BB36_22
.Lluossavin.BB36_14:
	mov	w10, #2049
	b	.Lluossavin.BB36_18
.Lluossavin.BB36_15:
	mov	w10, #2561
	b	.Lluossavin.BB36_18
.Lluossavin.BB36_16:
	mov	x10, x9
	b	.Lluossavin.BB36_18
.Lluossavin.BB36_17:
	mov	w10, #2817
.Lluossavin.BB36_18:
	ldp	q0, q1, [x0]
	mov	w11, wzr
	ldr	q2, [x0, #32]
	ldur	w13, [x0, #90]
	lsr	x12, x10, #16
	ldurh	w14, [x0, #94]
	stp	q0, q1, [sp, #64]
	str	q2, [sp, #96]
	str	w13, [sp, #32]
	strh	w14, [sp, #36]
	tst	x10, #0xff
	b.eq	.Lluossavin.BB36_23
.Lluossavin.BB36_19:
	ubfx	x13, x10, #8, #8
	adrp	x14, .Lluossavin.switch.table.luossavin_which
	add	x14, x14, :lo12:.Lluossavin.switch.table.luossavin_which
	and	x15, x10, #0xff00
	mov	w11, wzr
	ldr	w10, [x14, x13, lsl #2]
	cmp	x15, #1792
	csel	w12, w12, wzr, eq
	b	.Lluossavin.BB36_24
.Lluossavin.BB36_20:
	mov	w10, #1048576
	mov	w11, #1793
	cmp	x2, #17
	sub	w10, w10, w2, lsl #16
	and	x10, x10, #0xff0000
	orr	x10, x10, x11
	csel	x10, x10, x11, lo
	b	.Lluossavin.BB36_18
.Lluossavin.BB36_21:
	add	x8, x19, #15
	mvn	w9, w22
	mov	x10, xzr
	cmp	x9, x8, lsr #4
	cset	w11, lo
.Lluossavin.BB36_22:
	movi	v0.2d, #0000000000000000
	mov	x8, x27
	mov	w12, wzr
	mov	w25, wzr
	mov	w23, wzr
	mov	w26, wzr
	mov	w24, wzr
	mov	x20, xzr
	mov	x19, xzr
	mov	w22, wzr
	mov	w9, #12
	str	wzr, [sp, #32]
	stp	q0, q0, [sp, #80]
	str	q0, [sp, #64]
	strh	wzr, [sp, #36]
	tst	x10, #0xff
	b.ne	.Lluossavin.BB36_19
.Lluossavin.BB36_23:
	mov	w10, wzr
	mov	w12, wzr
.Lluossavin.BB36_24:
	ldp	q0, q1, [sp, #64]
	str	w10, [x8]
	strh	w21, [x8, #6]
	ldrh	w10, [sp, #36]
	ldr	x30, [sp, #112]
	stp	w25, w23, [x8, #64]
	ldp	x28, x27, [sp, #128]
	stp	q0, q1, [x8, #16]
	ldr	q0, [sp, #96]
	stp	w26, w24, [x8, #72]
	ldp	x24, x23, [sp, #160]
	stp	x20, x19, [x8, #80]
	ldp	x20, x19, [sp, #192]
	stp	w22, w9, [x8, #96]
	ldr	w9, [sp, #32]
	strh	w21, [x8, #104]
	ldp	x22, x21, [sp, #176]
	strb	w12, [x8, #4]
	ldp	x26, x25, [sp, #144]
	strb	w11, [x8, #5]
	str	xzr, [x8, #8]
	str	q0, [x8, #48]
	stur	w9, [x8, #106]
	strh	w10, [x8, #110]
	add	sp, sp, #208
	ret
.Lluossavin.func_end36:
	.size	luossavin_opens_end, .Lluossavin.func_end36-luossavin_opens_end

	.section	.text.luossavin_opens_piece,"ax",@progbits
	.globl	luossavin_opens_piece
	.p2align	2
	.type	luossavin_opens_piece,@function
luossavin_opens_piece:
	sub	sp, sp, #144
	ldr	d3, [x0, #80]
	stp	x24, x23, [sp, #96]
	cmp	x1, #0
	stp	x22, x21, [sp, #112]
	ldp	x22, x23, [x0, #64]
	mov	w10, v3.s[1]
	mov	w9, #4096
	ldrh	w21, [x0, #88]
	csel	x9, x9, xzr, eq
	str	x30, [sp, #80]
	stp	x20, x19, [sp, #128]
	cmp	w10, #9
	b.gt	.Lluossavin.BB37_4
	cbz	w10, .Lluossavin.BB37_8
	cmp	w10, #1
	b.eq	.Lluossavin.BB37_14
	cmp	w10, #5
	b.eq	.Lluossavin.BB37_11
	b	.Lluossavin.BB37_13
.Lluossavin.BB37_4:
	cmp	w10, #10
	b.eq	.Lluossavin.BB37_12
	cmp	w10, #13
	b.eq	.Lluossavin.BB37_15
	cmp	w10, #14
	b.ne	.Lluossavin.BB37_13
	ldp	q0, q1, [x0]
	ldur	w9, [x0, #90]
	ldrh	w10, [x0, #94]
	str	w9, [sp, #88]
	mov	w9, #14
	b	.Lluossavin.BB37_16
.Lluossavin.BB37_8:
	adds	x10, x2, x23
	mov	w11, #16777216
	csinv	x10, x10, xzr, lo
	cmp	x22, x11
	b.hi	.Lluossavin.BB37_11
	mov	w11, #16777216
	cmp	x10, x11
	b.hi	.Lluossavin.BB37_11
	mov	x19, x0
	mov	x20, x2
	add	x0, sp, #16
	and	x2, x23, #0xf
	add	x3, x1, x9
	mov	x1, x19
	mov	x4, x20
	mov	x24, x8
	str	q3, [sp]
	bl	"pieces::hashing::Hashing::take_in"
	ldr	q0, [x19, #48]
	ldr	q3, [sp]
	mov	x8, x24
	mov	w9, wzr
	str	wzr, [sp, #88]
	add	x23, x23, x20
	str	q0, [sp, #64]
	strh	wzr, [sp, #92]
	b	.Lluossavin.BB37_17
.Lluossavin.BB37_11:
	ldp	q0, q1, [x0]
	ldur	w9, [x0, #90]
	ldrh	w10, [x0, #94]
	str	w9, [sp, #88]
	mov	w9, #5
	b	.Lluossavin.BB37_16
.Lluossavin.BB37_12:
	ldp	q0, q1, [x0]
	ldur	w9, [x0, #90]
	ldrh	w10, [x0, #94]
	str	w9, [sp, #88]
	mov	w9, #10
	b	.Lluossavin.BB37_16
.Lluossavin.BB37_13:
	ldp	q0, q1, [x0]
	ldur	w9, [x0, #90]
	ldrh	w10, [x0, #94]
	str	w9, [sp, #88]
	mov	w9, #12
	b	.Lluossavin.BB37_16
.Lluossavin.BB37_14:
	ldp	q0, q1, [x0]
	ldur	w9, [x0, #90]
	ldrh	w10, [x0, #94]
	str	w9, [sp, #88]
	mov	w9, #1
	b	.Lluossavin.BB37_16
.Lluossavin.BB37_15:
	ldp	q0, q1, [x0]
	ldur	w9, [x0, #90]
	ldrh	w10, [x0, #94]
	str	w9, [sp, #88]
	mov	w9, #13
.Lluossavin.BB37_16:
	stp	q0, q1, [sp, #16]
	ldp	q0, q2, [x0, #32]
	stp	q0, q2, [sp, #48]
	strh	w10, [sp, #92]
.Lluossavin.BB37_17:
	ldp	q0, q1, [sp, #16]
	str	w9, [x8]
	strh	w21, [x8, #6]
	ldrh	w9, [sp, #92]
	ldr	w10, [sp, #88]
	stp	x22, x23, [x8, #80]
	ldr	x30, [sp, #80]
	stp	q0, q1, [x8, #16]
	ldp	q2, q0, [sp, #48]
	strh	w21, [x8, #104]
	ldp	x20, x19, [sp, #128]
	strh	wzr, [x8, #4]
	ldp	x22, x21, [sp, #112]
	str	xzr, [x8, #8]
	ldp	x24, x23, [sp, #96]
	stp	q2, q0, [x8, #48]
	str	d3, [x8, #96]
	strh	w9, [x8, #110]
	stur	w10, [x8, #106]
	add	sp, sp, #144
	ret
.Lluossavin.func_end37:
	.size	luossavin_opens_piece, .Lluossavin.func_end37-luossavin_opens_piece

	.section	.text.luossavin_opens_start,"ax",@progbits
	.globl	luossavin_opens_start
	.p2align	2
	.type	luossavin_opens_start,@function
luossavin_opens_start:
	sub	sp, sp, #304
	cmp	x1, #0
	mov	w9, #4096
	ldr	w10, [x0, #128]
	csel	x11, x9, xzr, eq
	cmp	x3, #0
	stp	x22, x21, [sp, #272]
	csel	x12, x9, xzr, eq
	cmp	w10, #13
	mov	w9, #1
	ldrh	w21, [x0, #132]
	cinc	w9, w9, eq
	cmp	w10, #0
	stp	x20, x19, [sp, #288]
	csel	w10, wzr, w9, eq
	add	x20, sp, #92
	csel	w9, w21, wzr, eq
	stp	x29, x30, [sp, #256]
	cbz	w10, .Lluossavin.BB38_3
	cmp	w10, #2
	b.ne	.Lluossavin.BB38_7
	movi	v0.2d, #0000000000000000
	mov	w10, wzr
	mov	x19, xzr
	mov	w11, #13
	stur	xzr, [x20, #146]
	b	.Lluossavin.BB38_10
.Lluossavin.BB38_3:
	ldrb	w10, [x0, #135]
	mov	x6, x4
	cmp	x4, #16
	b.eq	.Lluossavin.BB38_5
	cmp	x6, #12
	b.ne	.Lluossavin.BB38_9
.Lluossavin.BB38_5:
	mov	w13, #16777216
	cmp	x2, x13
	b.ls	.Lluossavin.BB38_8
	movi	v0.2d, #0000000000000000
	mov	w10, wzr
	mov	x19, xzr
	stur	xzr, [x20, #146]
	mov	w11, #5
	b	.Lluossavin.BB38_10
.Lluossavin.BB38_7:
	movi	v0.2d, #0000000000000000
	mov	w10, wzr
	mov	x19, xzr
	stur	xzr, [x20, #146]
	mov	w11, #1
	b	.Lluossavin.BB38_10
.Lluossavin.BB38_8:
	sub	w9, w10, #1
	mov	x10, x0
	mov	x13, x3
	cmp	w9, #3
	mov	x19, x2
	add	x0, sp, #92
	csinc	w9, w9, wzr, lo
	add	x3, x1, x11
	add	x5, x13, x12
	mov	w1, w9
	mov	x2, x10
	mov	x4, x19
	mov	x22, x8
	bl	"pieces::tagging::begin"
	ldp	q0, q1, [sp, #112]
	mov	x8, x22
	ldur	q2, [x20, #52]
	ldr	w10, [sp, #108]
	mov	w11, wzr
	strh	wzr, [sp, #12]
	mov	w9, w21
	stp	q0, q1, [sp, #16]
	stur	q0, [x20, #90]
	ldur	q0, [x20, #68]
	stur	q1, [x20, #106]
	stur	q2, [x20, #122]
	stur	q0, [x20, #138]
	str	wzr, [sp, #8]
	b	.Lluossavin.BB38_11
.Lluossavin.BB38_9:
	movi	v0.2d, #0000000000000000
	mov	w10, wzr
	mov	x19, xzr
	stur	xzr, [x20, #146]
	mov	w11, #10
.Lluossavin.BB38_10:
	str	wzr, [sp, #8]
	stur	q0, [x20, #132]
	stur	q0, [x20, #116]
	stur	q0, [x20, #100]
	stur	q0, [x20, #84]
	strh	wzr, [sp, #12]
.Lluossavin.BB38_11:
	ldur	q0, [x20, #90]
	ldur	q1, [x20, #106]
	strh	w9, [x8, #6]
	ldur	q2, [x20, #122]
	stp	x19, xzr, [x8, #80]
	stp	q0, q1, [x8, #16]
	ldur	q0, [x20, #138]
	stp	w10, w11, [x8, #96]
	ldr	w10, [sp, #8]
	strh	w9, [x8, #104]
	ldrh	w9, [sp, #12]
	ldp	x20, x19, [sp, #288]
	str	w11, [x8]
	strh	wzr, [x8, #4]
	ldp	x22, x21, [sp, #272]
	str	xzr, [x8, #8]
	ldp	x29, x30, [sp, #256]
	stp	q2, q0, [x8, #48]
	stur	w10, [x8, #106]
	strh	w9, [x8, #110]
	add	sp, sp, #304
	ret
.Lluossavin.func_end38:
	.size	luossavin_opens_start, .Lluossavin.func_end38-luossavin_opens_start

	.section	.text.luossavin_plan_accepts,"ax",@progbits
	.globl	luossavin_plan_accepts
	.p2align	2
	.type	luossavin_plan_accepts,@function
luossavin_plan_accepts:
	str	x29, [sp, #-32]!
	stp	x30, x19, [sp, #16]
	sub	sp, sp, #1040
	mov	x19, x1
	mov	x1, x0
	add	x0, sp, #8
	mov	w2, #1032
	str	xzr, [sp]
	bl	memcpy
	ldr	x8, [sp, #8]
	cmp	x8, #64
	b.ls	.Lluossavin.BB39_3
	mov	w0, wzr
.Lluossavin.BB39_2:
	add	sp, sp, #1040
	ldp	x30, x19, [sp, #16]
	ldr	x29, [sp], #32
	ret
.Lluossavin.BB39_3:
	mov	x9, xzr
	cbz	x8, .Lluossavin.BB39_9
	add	x10, sp, #8
	add	x10, x10, #8
.Lluossavin.BB39_5:
	ldr	x11, [x10, #512]
	ldr	x14, [x10], #8
	sub	x13, x19, x9
	mov	w0, wzr
	tst	x11, #0xf
	ccmp	x11, x13, #4, ne
	cset	w12, eq
	cmp	x14, x9
	b.ne	.Lluossavin.BB39_2
	sub	x14, x11, #1
	cmp	x14, x13
	b.hs	.Lluossavin.BB39_2
	cbz	w12, .Lluossavin.BB39_2
	subs	x8, x8, #1
	add	x9, x11, x9
	b.ne	.Lluossavin.BB39_5
.Lluossavin.BB39_9:
	cmp	x9, x19
	cset	w0, eq
	add	sp, sp, #1040
	ldp	x30, x19, [sp, #16]
	ldr	x29, [sp], #32
	ret
.Lluossavin.func_end39:
	.size	luossavin_plan_accepts, .Lluossavin.func_end39-luossavin_plan_accepts

	.section	.text.luossavin_record,"ax",@progbits
	.globl	luossavin_record
	.p2align	2
	.type	luossavin_record,@function
luossavin_record:
	sub	sp, sp, #176
	cmp	x3, #0
	mov	w10, #4096
	stp	x24, x23, [sp, #128]
	ldr	x24, [sp, #200]
	csel	x9, x10, xzr, eq
	cmp	x5, #0
	stp	x26, x25, [sp, #112]
	ldr	x25, [sp, #216]
	mov	w8, w1
	stp	x22, x21, [sp, #144]
	csel	x21, x10, xzr, eq
	cmp	x7, #0
	csel	x17, x10, xzr, eq
	cmp	x24, #0
	stp	x28, x27, [sp, #96]
	csel	x27, x10, xzr, eq
	cmp	x25, #0
	ldr	x13, [sp, #184]
	ldr	w12, [sp, #192]
	csel	x15, x10, xzr, eq
	cmp	w1, #255
	mov	w10, #255
	mov	w14, #-1
	mov	x1, xzr
	csel	w11, w8, w10, lo
	cmp	x13, x14
	mov	w8, #24
	csel	x28, x13, x14, lo
	cmp	w12, #255
	stp	x29, x30, [sp, #80]
	csel	w16, w12, w10, lo
	cmp	x4, #4, lsl #12
	stp	x20, x19, [sp, #160]
	b.hi	.Lluossavin.BB40_64
	cmp	x6, #4, lsl #12
	b.hi	.Lluossavin.BB40_64
	ldr	x20, [sp, #176]
	cmp	x20, #4, lsl #12
	b.hi	.Lluossavin.BB40_64
	ldr	x19, [sp, #208]
	mov	w10, #16400
	cmp	x19, x10
	b.hi	.Lluossavin.BB40_64
	add	x8, x4, x6
	add	x8, x8, x20
	add	x18, x8, #18
	ldr	x8, [sp, #224]
	add	x10, x18, x19
	add	x10, x10, #9
	cmp	x8, x10
	b.hs	.Lluossavin.BB40_6
	mov	x1, xzr
	mov	w8, #6
	b	.Lluossavin.BB40_64
.Lluossavin.BB40_6:
	add	x29, x25, x15
	mov	w8, #21076
	add	x1, x3, x9
	strh	w8, [x29]
	lsr	w8, w2, #8
	and	w12, w0, #0x1
	strb	w11, [x29, #3]
	add	x11, x29, #10
	strb	w8, [x29, #4]
	sub	x8, x11, x1
	rev	w11, w4
	strb	w2, [x29, #5]
	cmp	x8, x4
	add	x2, x5, x21
	strb	w12, [x29, #2]
	stur	w11, [x29, #6]
	str	x10, [sp, #72]
	str	x5, [sp, #16]
	str	w16, [sp, #68]
	str	x18, [sp, #56]
	stp	x27, x19, [sp, #32]
	str	x21, [sp]
	b.hs	.Lluossavin.BB40_12
	cmp	x4, #8
	b.lo	.Lluossavin.BB40_9
	add	x8, x15, x25
	add	x11, x9, x3
	sub	x8, x8, x11
	add	x8, x8, #10
	cmp	x8, #32
	b.hs	.Lluossavin.BB40_19
.Lluossavin.BB40_9:
	mov	x8, xzr
.Lluossavin.BB40_10:
	add	x10, x15, x8
	add	x9, x9, x8
	sub	x8, x4, x8
	add	x10, x10, x25
	add	x9, x3, x9
	add	x10, x10, #10
.Lluossavin.BB40_11:
	ldrb	w11, [x9], #1
	subs	x8, x8, #1
	strb	w11, [x10], #1
	b.ne	.Lluossavin.BB40_11
	b	.Lluossavin.BB40_13
.Lluossavin.BB40_12:
	add	x0, x29, #10
	mov	x27, x20
	mov	x20, x2
	mov	x2, x4
	mov	x22, x6
	mov	x26, x4
	mov	x23, x7
	mov	x21, x15
	mov	x19, x25
	mov	x25, x29
	mov	x29, x28
	mov	x28, x24
	mov	x24, x17
	bl	memmove
	mov	x2, x20
	mov	x20, x27
	mov	x17, x24
	mov	x24, x28
	mov	x28, x29
	mov	x29, x25
	mov	x25, x19
	mov	x15, x21
	mov	x7, x23
	mov	x4, x26
	mov	x6, x22
.Lluossavin.BB40_13:
	add	x8, x29, x4
	rev	w10, w6
	add	x22, x7, x17
	add	x23, x8, #14
	stur	w10, [x8, #10]
	sub	x9, x23, x2
	str	x7, [sp, #24]
	cmp	x9, x6
	str	x17, [sp, #8]
	str	x29, [sp, #48]
	b.hs	.Lluossavin.BB40_16
	ldr	x26, [sp, #32]
	cmp	x6, #8
	b.hs	.Lluossavin.BB40_17
	ldr	x8, [sp, #16]
	ldr	x14, [sp]
	mov	x9, xzr
	b	.Lluossavin.BB40_37
.Lluossavin.BB40_16:
	mov	x0, x23
	mov	x1, x2
	mov	x2, x6
	mov	x21, x6
	mov	x26, x4
	mov	x29, x15
	bl	memmove
	mov	x4, x26
	ldr	x26, [sp, #32]
	mov	x15, x29
	mov	x6, x21
	b	.Lluossavin.BB40_39
.Lluossavin.BB40_17:
	add	x8, x15, x4
	ldr	x14, [sp]
	add	x9, x8, x25
	ldr	x8, [sp, #16]
	add	x10, x14, x8
	sub	x9, x9, x10
	add	x9, x9, #14
	cmp	x9, #32
	b.hs	.Lluossavin.BB40_21
	mov	x9, xzr
	b	.Lluossavin.BB40_37
.Lluossavin.BB40_19:
	cmp	x4, #32
	b.hs	.Lluossavin.BB40_23
	mov	x8, xzr
	b	.Lluossavin.BB40_27
.Lluossavin.BB40_21:
	cmp	x6, #32
	b.hs	.Lluossavin.BB40_30
	mov	x9, xzr
	b	.Lluossavin.BB40_34
.Lluossavin.BB40_23:
	add	x12, x9, x3
	add	x13, x15, x25
	and	x11, x4, #0x18
	and	x8, x4, #0x7fe0
	add	x12, x12, #16
	add	x13, x13, #26
	and	x14, x4, #0x7fe0
.Lluossavin.BB40_24:
	ldp	q0, q1, [x12, #-16]
	subs	x14, x14, #32
	add	x12, x12, #32
	stp	q0, q1, [x13, #-16]
	add	x13, x13, #32
	b.ne	.Lluossavin.BB40_24
	cmp	x4, x8
	b.eq	.Lluossavin.BB40_13
	cbz	x11, .Lluossavin.BB40_10
.Lluossavin.BB40_27:
	mov	x10, x8
	and	x8, x4, #0x7ff8
	add	x11, x15, x10
	add	x12, x9, x10
	sub	x10, x10, x8
	add	x13, x11, x25
	add	x11, x3, x12
	add	x12, x13, #10
.Lluossavin.BB40_28:
	ldr	d0, [x11], #8
	adds	x10, x10, #8
	str	d0, [x12], #8
	b.ne	.Lluossavin.BB40_28
	cmp	x4, x8
	b.eq	.Lluossavin.BB40_13
	b	.Lluossavin.BB40_10
.Lluossavin.BB40_30:
	add	x11, x15, x4
	add	x12, x14, x8
	and	x10, x6, #0x18
	add	x13, x11, x25
	and	x9, x6, #0x7fe0
	add	x11, x12, #16
	add	x12, x13, #30
	and	x13, x6, #0x7fe0
.Lluossavin.BB40_31:
	ldp	q0, q1, [x11, #-16]
	subs	x13, x13, #32
	add	x11, x11, #32
	stp	q0, q1, [x12, #-16]
	add	x12, x12, #32
	b.ne	.Lluossavin.BB40_31
	cmp	x6, x9
	b.eq	.Lluossavin.BB40_39
	cbz	x10, .Lluossavin.BB40_37
.Lluossavin.BB40_34:
	mov	x10, x9
	and	x9, x6, #0x7ff8
	add	x11, x15, x10
	add	x12, x14, x10
	sub	x10, x10, x9
	add	x11, x11, x4
	add	x13, x11, x25
	add	x11, x8, x12
	add	x12, x13, #14
.Lluossavin.BB40_35:
	ldr	d0, [x11], #8
	adds	x10, x10, #8
	str	d0, [x12], #8
	b.ne	.Lluossavin.BB40_35
	cmp	x6, x9
	b.eq	.Lluossavin.BB40_39
.Lluossavin.BB40_37:
	add	x10, x15, x9
	add	x11, x14, x9
	sub	x9, x6, x9
	add	x10, x10, x4
	add	x8, x8, x11
	add	x10, x10, x25
	add	x10, x10, #14
.Lluossavin.BB40_38:
	ldrb	w11, [x8], #1
	subs	x9, x9, #1
	strb	w11, [x10], #1
	b.ne	.Lluossavin.BB40_38
.Lluossavin.BB40_39:
	add	x0, x23, x6
	rev	w8, w20
	add	x21, x24, x26
	str	w8, [x0], #4
	sub	x8, x0, x22
	cmp	x8, x20
	b.hs	.Lluossavin.BB40_42
	ldr	x18, [sp, #48]
	cmp	x20, #8
	b.hs	.Lluossavin.BB40_43
	ldr	x8, [sp, #24]
	ldr	w14, [sp, #68]
	mov	x9, xzr
	ldr	x16, [sp, #8]
	ldr	x17, [sp, #56]
	ldr	x2, [sp, #40]
	b	.Lluossavin.BB40_54
.Lluossavin.BB40_42:
	mov	x1, x22
	mov	x2, x20
	mov	x22, x6
	mov	x23, x4
	mov	x27, x15
	bl	memmove
	ldp	x18, x17, [sp, #48]
	mov	x15, x27
	ldr	w14, [sp, #68]
	ldr	x2, [sp, #40]
	mov	x4, x23
	mov	x6, x22
	b	.Lluossavin.BB40_56
.Lluossavin.BB40_43:
	add	x8, x15, x6
	ldr	x16, [sp, #8]
	ldr	w14, [sp, #68]
	add	x8, x8, x4
	ldr	x17, [sp, #56]
	ldr	x2, [sp, #40]
	add	x9, x8, x25
	ldr	x8, [sp, #24]
	add	x10, x16, x8
	sub	x9, x9, x10
	add	x9, x9, #18
	cmp	x9, #32
	b.hs	.Lluossavin.BB40_45
	mov	x9, xzr
	b	.Lluossavin.BB40_54
.Lluossavin.BB40_45:
	cmp	x20, #32
	b.hs	.Lluossavin.BB40_47
	mov	x9, xzr
	b	.Lluossavin.BB40_51
.Lluossavin.BB40_47:
	add	x9, x15, x6
	add	x12, x16, x8
	and	x10, x20, #0x18
	add	x11, x9, x4
	and	x9, x20, #0x7fe0
	add	x13, x11, x25
	add	x11, x12, #16
	add	x12, x13, #34
	and	x13, x20, #0x7fe0
.Lluossavin.BB40_48:
	ldp	q0, q1, [x11, #-16]
	subs	x13, x13, #32
	add	x11, x11, #32
	stp	q0, q1, [x12, #-16]
	add	x12, x12, #32
	b.ne	.Lluossavin.BB40_48
	cmp	x20, x9
	b.eq	.Lluossavin.BB40_56
	cbz	x10, .Lluossavin.BB40_54
.Lluossavin.BB40_51:
	mov	x10, x9
	add	x9, x15, x9
	add	x11, x6, x4
	add	x11, x9, x11
	and	x9, x20, #0x7ff8
	add	x12, x16, x10
	add	x13, x11, x25
	sub	x10, x10, x9
	add	x11, x8, x12
	add	x12, x13, #18
.Lluossavin.BB40_52:
	ldr	d0, [x11], #8
	adds	x10, x10, #8
	str	d0, [x12], #8
	b.ne	.Lluossavin.BB40_52
	cmp	x20, x9
	b.eq	.Lluossavin.BB40_56
.Lluossavin.BB40_54:
	add	x10, x15, x9
	add	x11, x6, x4
	add	x10, x10, x11
	add	x11, x16, x9
	sub	x9, x20, x9
	add	x10, x10, x25
	add	x8, x8, x11
	add	x10, x10, #18
.Lluossavin.BB40_55:
	ldrb	w11, [x8], #1
	subs	x9, x9, #1
	strb	w11, [x10], #1
	b.ne	.Lluossavin.BB40_55
.Lluossavin.BB40_56:
	lsr	x8, x28, #24
	add	x9, x18, x17
	lsr	x10, x28, #16
	add	x0, x9, #9
	lsr	x11, x28, #8
	strb	w28, [x9, #3]
	strb	w8, [x9]
	sub	x8, x0, x21
	strb	w10, [x9, #1]
	rev	w10, w2
	cmp	x8, x2
	strb	w11, [x9, #2]
	strb	w14, [x9, #4]
	stur	w10, [x9, #5]
	b.hs	.Lluossavin.BB40_62
	ldr	x1, [sp, #72]
	cmp	x2, #8
	b.lo	.Lluossavin.BB40_59
	add	x8, x15, x20
	add	x9, x6, x4
	add	x8, x8, x9
	add	x9, x26, x24
	add	x8, x8, x25
	sub	x8, x8, x9
	add	x8, x8, #27
	cmp	x8, #32
	b.hs	.Lluossavin.BB40_65
.Lluossavin.BB40_59:
	mov	x8, xzr
.Lluossavin.BB40_60:
	add	x9, x15, x8
	add	x10, x6, x4
	add	x9, x9, x20
	add	x9, x9, x10
	add	x10, x26, x8
	sub	x8, x2, x8
	add	x11, x9, x25
	add	x9, x24, x10
	add	x10, x11, #27
.Lluossavin.BB40_61:
	ldrb	w11, [x9], #1
	subs	x8, x8, #1
	strb	w11, [x10], #1
	b.ne	.Lluossavin.BB40_61
	b	.Lluossavin.BB40_64
.Lluossavin.BB40_62:
	mov	x1, x21
	bl	memmove
	ldr	x1, [sp, #72]
.Lluossavin.BB40_63:
	mov	x8, xzr
.Lluossavin.BB40_64:
	ldp	x20, x19, [sp, #160]
	mov	x0, x8
	ldp	x22, x21, [sp, #144]
	ldp	x24, x23, [sp, #128]
	ldp	x26, x25, [sp, #112]
	ldp	x28, x27, [sp, #96]
	ldp	x29, x30, [sp, #80]
	add	sp, sp, #176
	ret
.Lluossavin.BB40_65:
	cmp	x2, #32
	b.hs	.Lluossavin.BB40_67
	mov	x8, xzr
	b	.Lluossavin.BB40_71
.Lluossavin.BB40_67:
	add	x8, x15, x20
	add	x10, x6, x4
	add	x11, x26, x24
	add	x10, x8, x10
	and	x9, x2, #0x18
	and	x8, x2, #0x7fe0
	add	x12, x10, x25
	add	x10, x11, #16
	add	x11, x12, #43
	and	x12, x2, #0x7fe0
.Lluossavin.BB40_68:
	ldp	q0, q1, [x10, #-16]
	subs	x12, x12, #32
	add	x10, x10, #32
	stp	q0, q1, [x11, #-16]
	add	x11, x11, #32
	b.ne	.Lluossavin.BB40_68
	cmp	x2, x8
	b.eq	.Lluossavin.BB40_63
	cbz	x9, .Lluossavin.BB40_60
.Lluossavin.BB40_71:
	mov	x9, x8
	add	x8, x15, x8
	add	x10, x6, x4
	add	x8, x8, x20
	add	x11, x26, x9
	add	x10, x8, x10
	and	x8, x2, #0x7ff8
	add	x12, x10, x25
	sub	x9, x9, x8
	add	x10, x24, x11
	add	x11, x12, #27
.Lluossavin.BB40_72:
	ldr	d0, [x10], #8
	adds	x9, x9, #8
	str	d0, [x11], #8
	b.ne	.Lluossavin.BB40_72
	cmp	x2, x8
	b.ne	.Lluossavin.BB40_60
	b	.Lluossavin.BB40_63
.Lluossavin.func_end40:
	.size	luossavin_record, .Lluossavin.func_end40-luossavin_record

	.section	.text.luossavin_replay,"ax",@progbits
	.globl	luossavin_replay
	.p2align	2
	.type	luossavin_replay,@function
luossavin_replay:
	stp	x29, x30, [sp, #-96]!
	sub	x9, sp, #3, lsl #12
	stp	x28, x27, [sp, #16]
	sub	x9, x9, #3072
	stp	x26, x25, [sp, #32]
	stp	x24, x23, [sp, #48]
	stp	x22, x21, [sp, #64]
	stp	x20, x19, [sp, #80]
.Lluossavin.BB41_1:
	sub	sp, sp, #3072
	cmp	sp, x9
	str	xzr, [sp]
	b.ne	.Lluossavin.BB41_1
	sub	sp, sp, #2800
	str	xzr, [sp]
	add	x10, x0, #280
	add	x9, sp, #1584
	ldp	q3, q0, [x10, #16]
	add	x12, x9, #280
	ldp	q5, q1, [x10]
	add	x15, x0, #552
	ldp	q19, q16, [x15, #32]
	add	x13, x9, #552
	ldp	q4, q2, [x10, #32]
	add	x11, x0, #824
	stp	q5, q3, [x12]
	ldp	q5, q6, [x10, #96]
	stp	q19, q16, [x13, #32]
	ldp	q22, q21, [x15, #80]
	stp	q4, q2, [x12, #32]
	add	x16, sp, #488
	cmp	x1, #0
	stp	q5, q6, [x12, #96]
	ldp	q5, q7, [x10, #64]
	ldp	q29, q26, [x11, #80]
	add	x18, x16, #552
	ldp	q17, q6, [x10, #48]
	add	x20, x16, #824
	stp	q5, q7, [x12, #64]
	add	x12, x9, #824
	ldr	q2, [x10]
	ldp	q18, q7, [x15, #16]
	ldr	w14, [x0, #952]
	ldrb	w17, [x0, #822]
	ldr	q16, [x15]
	ldrb	w5, [x0, #550]
	ldr	w6, [x0, #544]
	ldrb	w7, [x0, #414]
	ldr	w19, [x0, #408]
	ldrb	w21, [x0, #278]
	ldr	w22, [x0, #272]
	strb	wzr, [sp, #625]
	strh	wzr, [sp, #630]
	ldp	q20, q5, [x15]
	strb	wzr, [sp, #761]
	ldp	q4, q3, [x10, #80]
	strh	wzr, [sp, #766]
	stp	q20, q18, [x13]
	ldp	q20, q19, [x15, #96]
	stp	q16, q5, [x18]
	ldp	q23, q18, [x15, #64]
	strb	wzr, [sp, #897]
	stp	q20, q19, [x13, #96]
	ldp	q24, q19, [x11, #32]
	stp	q23, q22, [x13, #64]
	ldp	q23, q25, [x11, #16]
	strh	wzr, [sp, #902]
	ldp	q27, q20, [x15, #48]
	stp	q24, q19, [x12, #32]
	ldr	q24, [x11]
	strb	wzr, [sp, #1033]
	ldp	q19, q22, [x11]
	stp	q7, q27, [x18, #32]
	stp	q20, q18, [x18, #64]
	stp	q19, q23, [x12]
	ldp	q19, q28, [x11, #96]
	stp	q24, q22, [x20]
	ldp	q30, q23, [x11, #64]
	strh	wzr, [sp, #1038]
	stp	q19, q28, [x12, #96]
	ldp	q28, q19, [x11, #48]
	stp	q30, q29, [x12, #64]
	add	x12, x16, #280
	ldur	q29, [x0, #72]
	stp	q2, q1, [x12]
	ldur	q30, [x0, #88]
	stp	q0, q17, [x12, #32]
	ldr	q0, [x10, #112]
	mov	w10, #4096
	csel	x10, x10, xzr, eq
	stp	q6, q4, [x12, #64]
	stp	q3, q0, [x12, #96]
	ldrb	w12, [x0, #958]
	stur	q29, [x16, #72]
	ldur	q29, [x0, #104]
	cmp	w12, #0
	mov	w12, #1
	stur	q30, [x16, #88]
	cset	w13, ne
	cmp	w14, #13
	ldur	q30, [x0, #120]
	cinc	w3, w12, eq
	cmp	w14, #0
	stur	q29, [x16, #104]
	csel	w14, wzr, w3, eq
	cmp	w17, #0
	ldr	w3, [x0, #816]
	cset	w17, ne
	ldur	q29, [x0, #8]
	stur	q30, [x16, #120]
	cmp	w3, #13
	ldur	q30, [x0, #24]
	stp	q25, q28, [x20, #32]
	stur	q29, [x16, #8]
	ldur	q29, [x0, #40]
	stur	q30, [x16, #24]
	ldur	q30, [x0, #56]
	stur	q29, [x16, #40]
	ldp	q1, q0, [x0, #448]
	stur	q30, [x16, #56]
	ldp	q29, q30, [x0, #208]
	stp	q19, q23, [x20, #64]
	stp	q1, q0, [x16, #448]
	ldp	q0, q2, [x0, #416]
	stp	q29, q30, [x16, #208]
	ldp	q31, q29, [x0, #240]
	strb	w14, [sp, #1440]
	stp	q0, q2, [x16, #416]
	ldp	q0, q1, [x0, #512]
	stp	q31, q29, [x16, #240]
	ldp	q30, q29, [x0, #144]
	strb	w14, [sp, #2536]
	ldrh	w14, [x0, #956]
	stp	q0, q1, [x16, #512]
	ldp	q0, q1, [x0, #480]
	stp	q30, q29, [x16, #144]
	ldp	q31, q29, [x0, #176]
	strh	w14, [sp, #1442]
	stp	q0, q1, [x16, #480]
	ldr	q0, [x15, #112]
	cinc	w15, w12, eq
	cmp	w3, #0
	ldrb	w3, [x0, #686]
	stp	q31, q29, [x16, #176]
	csel	w15, wzr, w15, eq
	stp	q21, q0, [x18, #96]
	cmp	w3, #0
	ldr	w3, [x0, #680]
	strh	w14, [sp, #2538]
	cset	w18, ne
	ldr	w14, [x0, #1088]
	strb	w13, [sp, #1444]
	cmp	w3, #13
	strb	w13, [sp, #2540]
	ldrb	w13, [x0, #959]
	cinc	w4, w12, eq
	cmp	w3, #0
	strb	w15, [sp, #1304]
	csel	w3, wzr, w4, eq
	cmp	w5, #0
	strb	w13, [sp, #1445]
	cset	w4, ne
	cmp	w6, #13
	strb	w13, [sp, #2541]
	cinc	w5, w12, eq
	cmp	w6, #0
	ldrh	w13, [x0, #1092]
	csel	w5, wzr, w5, eq
	cmp	w7, #0
	strb	w15, [sp, #2400]
	cset	w6, ne
	cmp	w19, #13
	strh	w13, [sp, #1578]
	strh	w13, [sp, #2674]
	ldr	x13, [x0]
	ldrb	w15, [x0, #823]
	strb	w6, [sp, #900]
	ldp	q1, q0, [x0, #720]
	strb	w6, [sp, #1996]
	strb	w5, [sp, #1032]
	stp	q1, q0, [x16, #720]
	ldp	q1, q0, [x0, #688]
	strb	w5, [sp, #2128]
	strb	w4, [sp, #1036]
	stp	q1, q0, [x16, #688]
	ldp	q1, q0, [x0, #784]
	strb	w4, [sp, #2132]
	strb	w3, [sp, #1168]
	stp	q1, q0, [x16, #784]
	ldp	q1, q0, [x0, #752]
	strb	w3, [sp, #2264]
	strb	w18, [sp, #1172]
	stp	q1, q0, [x16, #752]
	ldr	q0, [x11, #112]
	cinc	w11, w12, eq
	cmp	w19, #0
	strb	w18, [sp, #2268]
	stp	q26, q0, [x20, #96]
	ldp	q1, q0, [x0, #992]
	csel	w7, wzr, w11, eq
	cmp	w21, #0
	ldrb	w20, [x0, #142]
	cset	w19, ne
	cmp	w22, #13
	strb	w7, [sp, #896]
	stp	q1, q0, [x16, #992]
	ldp	q0, q2, [x0, #960]
	ldr	q1, [x0, #1072]
	cinc	w11, w12, eq
	cmp	w22, #0
	csel	w21, wzr, w11, eq
	ldr	w11, [x0, #136]
	cmp	w20, #0
	stp	q0, q2, [x16, #960]
	ldr	q0, [x0, #1056]
	ldr	q2, [x0, #1040]
	str	q1, [x16, #1072]
	ldr	q1, [x0, #1024]
	cset	w20, ne
	str	q0, [x16, #1056]
	ldur	q0, [x0, #72]
	cmp	w11, #13
	str	q1, [x16, #1024]
	ldur	q1, [x0, #88]
	cinc	w22, w12, eq
	stur	q0, [x9, #72]
	ldur	q0, [x0, #104]
	cmp	w11, #0
	stur	q1, [x9, #88]
	ldur	q1, [x0, #120]
	stur	q0, [x9, #104]
	ldur	q0, [x0, #8]
	stur	q1, [x9, #120]
	ldur	q1, [x0, #24]
	stur	q0, [x9, #8]
	ldur	q0, [x0, #40]
	str	q2, [x16, #1040]
	csel	w16, wzr, w22, eq
	cmp	w14, #13
	stur	q0, [x9, #40]
	ldp	q0, q2, [x0, #176]
	stur	q1, [x9, #24]
	ldur	q1, [x0, #56]
	cinc	w12, w12, eq
	strb	w16, [sp, #624]
	cmp	w14, #0
	stur	q1, [x9, #56]
	csel	w12, wzr, w12, eq
	str	q2, [sp, #1776]
	ldp	q2, q1, [x0, #144]
	str	q0, [sp, #1760]
	strb	w16, [sp, #1720]
	ldrb	w16, [x0, #143]
	str	q1, [sp, #1744]
	ldp	q1, q0, [x0, #240]
	str	q2, [sp, #1728]
	strb	w16, [sp, #629]
	str	q0, [sp, #1840]
	ldp	q0, q2, [x0, #208]
	str	q1, [sp, #1824]
	strb	w16, [sp, #1725]
	ldrh	w16, [x0, #276]
	str	q2, [sp, #1808]
	ldp	q2, q1, [x0, #448]
	str	q0, [sp, #1792]
	strh	w16, [sp, #762]
	str	q1, [sp, #2048]
	ldp	q1, q0, [x0, #416]
	str	q2, [sp, #2032]
	strh	w16, [sp, #1858]
	ldrb	w16, [x0, #279]
	str	q0, [sp, #2016]
	ldp	q0, q2, [x0, #512]
	str	q1, [sp, #2000]
	strb	w16, [sp, #765]
	str	q2, [sp, #2112]
	ldp	q2, q1, [x0, #480]
	str	q0, [sp, #2096]
	strb	w16, [sp, #1861]
	ldrh	w16, [x0, #412]
	str	q1, [sp, #2080]
	ldp	q1, q0, [x0, #720]
	str	q2, [sp, #2064]
	strh	w16, [sp, #898]
	str	q0, [sp, #2320]
	ldp	q0, q2, [x0, #688]
	str	q1, [sp, #2304]
	strh	w16, [sp, #1994]
	ldrb	w16, [x0, #415]
	str	q2, [sp, #2288]
	ldp	q2, q1, [x0, #784]
	str	q0, [sp, #2272]
	strb	w16, [sp, #901]
	str	q1, [sp, #2384]
	ldp	q1, q0, [x0, #752]
	strb	w16, [sp, #1997]
	ldrh	w16, [x0, #548]
	strb	w12, [sp, #1576]
	str	q0, [sp, #2352]
	str	q1, [sp, #2336]
	ldp	q1, q0, [x0, #992]
	strh	w16, [sp, #1034]
	strh	w16, [sp, #2130]
	ldrb	w16, [x0, #551]
	stp	q1, q0, [sp, #384]
	ldp	q1, q0, [x0, #960]
	strb	w12, [sp, #2672]
	ldrb	w12, [x0, #1094]
	strb	w16, [sp, #1037]
	stp	q1, q0, [sp, #352]
	ldr	q0, [x0, #1072]
	ldr	q1, [x0, #1056]
	strb	w16, [sp, #2133]
	ldrh	w16, [x0, #684]
	cmp	w12, #0
	stp	q1, q0, [sp, #448]
	ldr	q0, [x0, #1040]
	ldr	q1, [x0, #1024]
	cset	w12, ne
	strh	w16, [sp, #1170]
	cmp	x13, #8
	stp	q1, q0, [sp, #416]
	ldp	q0, q1, [sp, #416]
	strh	w16, [sp, #2266]
	ldrb	w16, [x0, #687]
	strb	w12, [sp, #1580]
	strb	w12, [sp, #2676]
	ldrb	w12, [x0, #1095]
	str	q0, [sp, #2608]
	str	q1, [sp, #2624]
	ldp	q0, q1, [sp, #448]
	str	q2, [sp, #2368]
	strb	w16, [sp, #1173]
	str	q0, [sp, #2640]
	str	q1, [sp, #2656]
	ldp	q0, q1, [sp, #352]
	strb	w16, [sp, #2269]
	ldrh	w16, [x0, #820]
	strb	w12, [sp, #1581]
	str	q0, [sp, #2544]
	ldp	q2, q0, [sp, #384]
	strb	w12, [sp, #2677]
	ldrh	w12, [x0, #140]
	strb	w20, [sp, #628]
	strb	w20, [sp, #1724]
	strb	w21, [sp, #760]
	strb	w21, [sp, #1856]
	strb	w19, [sp, #764]
	strb	w19, [sp, #1860]
	strb	w7, [sp, #1992]
	strh	w16, [sp, #1306]
	strh	w16, [sp, #2402]
	strb	w17, [sp, #1308]
	strb	w17, [sp, #2404]
	strb	w15, [sp, #1309]
	strb	w15, [sp, #2405]
	str	x13, [sp, #488]
	strh	w12, [sp, #626]
	strb	wzr, [sp, #1169]
	strh	wzr, [sp, #1174]
	strb	wzr, [sp, #1305]
	strh	wzr, [sp, #1310]
	strb	wzr, [sp, #1441]
	strh	wzr, [sp, #1446]
	strb	wzr, [sp, #1577]
	strh	wzr, [sp, #1582]
	str	x13, [sp, #1584]
	strb	wzr, [sp, #1721]
	strh	w12, [sp, #1722]
	strh	wzr, [sp, #1726]
	strb	wzr, [sp, #1857]
	strh	wzr, [sp, #1862]
	strb	wzr, [sp, #1993]
	strh	wzr, [sp, #1998]
	strb	wzr, [sp, #2129]
	strh	wzr, [sp, #2134]
	strb	wzr, [sp, #2265]
	strh	wzr, [sp, #2270]
	strb	wzr, [sp, #2401]
	strh	wzr, [sp, #2406]
	strb	wzr, [sp, #2537]
	strh	wzr, [sp, #2542]
	str	q1, [sp, #2560]
	str	q2, [sp, #2576]
	str	q0, [sp, #2592]
	strb	wzr, [sp, #2673]
	strh	wzr, [sp, #2678]
	b.hi	.Lluossavin.BB41_6
	add	x10, x1, x10
	add	x14, x9, #140
	str	x10, [sp, #344]
	add	x10, x9, #144
	add	x9, x13, #1
.Lluossavin.BB41_4:
	subs	x9, x9, #1
	b.eq	.Lluossavin.BB41_8
	ldrb	w15, [x14], #136
	tbz	w15, #0, .Lluossavin.BB41_4
.Lluossavin.BB41_6:
	mov	x17, xzr
	mov	x18, xzr
	mov	w10, wzr
	mov	x19, xzr
	mov	x15, xzr
	mov	x16, xzr
	mov	x29, xzr
	mov	x13, xzr
	mov	x14, xzr
	mov	x0, xzr
	mov	x1, xzr
	mov	x3, xzr
	mov	x4, xzr
	mov	x6, xzr
	mov	x25, xzr
	mov	x21, xzr
	mov	x2, xzr
	mov	x12, xzr
	mov	x22, xzr
	mov	x5, xzr
	mov	x26, xzr
	mov	x7, xzr
	mov	x23, xzr
	mov	x30, xzr
	mov	x28, xzr
	mov	x27, xzr
	mov	x20, xzr
	mov	x24, xzr
	mov	x11, xzr
	mov	w9, #26
.Lluossavin.BB41_7:
	movi	v0.2d, #0000000000000000
	stp	w9, w10, [x8]
	stp	x19, x18, [x8, #8]
	stp	x17, x29, [x8, #24]
	stp	x11, x24, [x8, #40]
	stp	x20, x27, [x8, #56]
	stp	x28, x30, [x8, #72]
	stp	x23, x7, [x8, #88]
	stp	x26, x5, [x8, #104]
	stp	x22, x12, [x8, #120]
	stp	x2, x21, [x8, #136]
	stp	x25, x6, [x8, #152]
	stp	x4, x3, [x8, #168]
	stp	x1, x0, [x8, #184]
	stp	x14, x13, [x8, #200]
	str	q0, [x8, #216]!
	stp	q0, q0, [x8, #32]
	stp	q0, q0, [x8, #64]
	stp	q0, q0, [x8, #96]
	str	q0, [x8, #16]
	stp	x16, x15, [x8, #128]
	add	sp, sp, #4, lsl #12
	add	sp, sp, #1776
	ldp	x20, x19, [sp, #80]
	ldp	x22, x21, [sp, #64]
	ldp	x24, x23, [sp, #48]
	ldp	x26, x25, [sp, #32]
	ldp	x28, x27, [sp, #16]
	ldp	x29, x30, [sp], #96
	ret
.Lluossavin.BB41_8:
	cbz	x13, .Lluossavin.BB41_15
	subs	x9, x13, #1
	b.eq	.Lluossavin.BB41_15
	cmp	w11, #0
	add	x11, sp, #1584
	csel	w12, w12, wzr, eq
	add	x11, x11, #274
.Lluossavin.BB41_11:
	mov	x13, x11
	mov	x14, x9
.Lluossavin.BB41_12:
	ldurb	w15, [x13, #-2]
	ldrh	w16, [x13], #136
	cmp	w15, #0
	csel	w15, w16, wzr, eq
	and	w15, w15, #0xffff
	cmp	w15, w12, uxth
	b.eq	.Lluossavin.BB41_6
	subs	x14, x14, #1
	b.ne	.Lluossavin.BB41_12
	ldrb	w12, [x10, #128]
	ldrh	w13, [x10, #130]
	add	x10, x10, #136
	sub	x9, x9, #1
	add	x11, x11, #136
	cmp	w12, #0
	csel	w12, w13, wzr, eq
	cbnz	x9, .Lluossavin.BB41_11
.Lluossavin.BB41_15:
	mov	x17, xzr
	mov	x18, xzr
	cbz	x2, .Lluossavin.BB41_48
	ldr	x10, [sp, #488]
	add	x9, sp, #1584
	mov	x29, xzr
	add	x11, x9, #8
	add	x9, x9, #56
	mov	x15, xzr
	str	x10, [sp, #328]
	add	x10, sp, #488
	mov	x24, xzr
	mov	x16, xzr
	mov	x27, xzr
	mov	x20, xzr
	mov	x30, xzr
	mov	x28, xzr
	mov	x7, xzr
	mov	x23, xzr
	mov	x5, xzr
	mov	x26, xzr
	mov	x13, xzr
	mov	x14, xzr
	mov	x0, xzr
	mov	x12, xzr
	mov	x22, xzr
	mov	x1, xzr
	mov	x3, xzr
	mov	x4, xzr
	mov	x6, xzr
	mov	x25, xzr
	mov	x21, xzr
	stp	x9, x11, [sp, #184]
	add	x9, x10, #138
	mov	x10, x2
	stp	xzr, xzr, [sp, #304]
	str	xzr, [sp, #320]
	str	x9, [sp, #216]
	str	x2, [sp, #200]
.Lluossavin.BB41_17:
	cmp	x10, #6
	sub	x19, x2, x10
	str	x20, [sp, #296]
	b.lo	.Lluossavin.BB41_59
	ldr	x11, [sp, #344]
	ldrb	w9, [x11]
	cmp	w9, #84
	mov	w9, #23
	b.ne	.Lluossavin.BB41_54
	mov	x20, x10
	ldrb	w10, [x11, #1]
	cmp	w10, #82
	b.ne	.Lluossavin.BB41_54
	subs	x10, x20, #10
	b.lo	.Lluossavin.BB41_54
	ldrb	w20, [x11, #2]
	cmp	w20, #1
	b.hi	.Lluossavin.BB41_54
	ldur	w9, [x11, #6]
	str	x21, [sp, #288]
	rev	w21, w9
	subs	x9, x10, x21
	b.lo	.Lluossavin.BB41_57
	subs	x10, x9, #4
	b.lo	.Lluossavin.BB41_57
	str	x22, [sp, #280]
	add	x22, x11, #10
	add	x9, x22, x21
	ldr	w11, [x9]
	rev	w11, w11
	subs	x10, x10, x11
	str	x11, [sp, #336]
	b.lo	.Lluossavin.BB41_58
	subs	x10, x10, #4
	b.lo	.Lluossavin.BB41_58
	stp	x28, x23, [sp, #264]
	add	x23, x9, #4
	ldr	x9, [sp, #336]
	add	x9, x23, x9
	ldr	w11, [x9]
	rev	w28, w11
	subs	x10, x10, x28
	b.lo	.Lluossavin.BB41_56
	subs	x11, x10, #5
	b.lo	.Lluossavin.BB41_56
	cmp	x11, #4
	b.lo	.Lluossavin.BB41_56
	stp	x25, x24, [sp, #248]
	add	x24, x9, #4
	sub	x10, x10, #9
	add	x9, x24, x28
	ldur	w11, [x9, #5]
	rev	w25, w11
	subs	x10, x10, x25
	b.lo	.Lluossavin.BB41_62
	str	x10, [sp, #208]
	ldr	w10, [x9]
	mov	w11, #16400
	rev	w10, w10
	cmp	w10, w11
	csel	w10, w10, w11, lo
	cmp	w21, #4, lsl #12
	stp	x10, x24, [sp, #168]
	ldr	x24, [sp, #336]
	mov	w10, #16384
	ccmp	w24, w10, #2, ls
	ccmp	w28, w10, #2, ls
	ccmp	w25, w11, #2, ls
	ldr	x11, [sp, #328]
	cset	w10, hi
	cbz	x11, .Lluossavin.BB41_63
	tbnz	w10, #0, .Lluossavin.BB41_63
	str	x12, [sp, #240]
	ldr	x12, [sp, #344]
	ldrb	w2, [x9, #4]
	stp	x27, x26, [sp, #224]
	add	x26, x9, #9
	ldr	x27, [sp, #216]
	ldrb	w10, [x12, #4]
	ldrb	w11, [x12, #5]
	ldrb	w24, [x12, #3]
	orr	w9, w11, w10, lsl #8
	add	x10, x26, x25
	str	x10, [sp, #344]
	ldr	x10, [sp, #328]
.Lluossavin.BB41_33:
	ldurb	w11, [x27, #-2]
	ldrh	w12, [x27]
	cmp	w11, #0
	csel	w11, w12, wzr, eq
	cmp	w9, w11, uxth
	b.eq	.Lluossavin.BB41_35
	subs	x10, x10, #1
	add	x27, x27, #136
	b.ne	.Lluossavin.BB41_33
	b	.Lluossavin.BB41_49
.Lluossavin.BB41_35:
	str	w2, [sp, #40]
	mov	w2, #16400
	stp	x1, x0, [sp, #96]
	add	x0, sp, #1584
	mov	w1, wzr
	stp	x30, x7, [sp, #48]
	stp	x6, x5, [sp, #64]
	stp	x4, x3, [sp, #80]
	stp	x14, x13, [sp, #112]
	stp	x18, x17, [sp, #128]
	stp	x16, x15, [sp, #144]
	str	x8, [sp, #160]
	bl	memset
	movi	v0.2d, #0000000000000000
	add	x10, sp, #4, lsl #12
	cmp	w24, #4
	add	x10, x10, #1600
	str	w24, [sp, #44]
	str	wzr, [x10, #168]
	str	q0, [sp, #17984]
	str	q0, [sp, #18000]
	b.hi	.Lluossavin.BB41_38
	sub	x8, x27, #130
	add	x0, sp, #4, lsl #12
	add	x1, sp, #4, lsl #12
	ldp	q0, q1, [x8, #96]
	ldr	x9, [x8, #128]
	ldr	x6, [sp, #336]
	add	x0, x0, #1600
	add	x1, x1, #1632
	str	x9, [sp, #18144]
	ldp	x9, x7, [sp, #168]
	str	q0, [sp, #18112]
	mov	w2, w20
	mov	x3, x22
	str	q1, [sp, #18128]
	ldp	q0, q1, [x8, #32]
	mov	x4, x21
	mov	x5, x23
	strb	w24, [x10, #168]
	str	x28, [sp]
	str	q0, [sp, #18048]
	ldp	q0, q2, [x8, #64]
	str	q1, [sp, #18064]
	str	q0, [sp, #18080]
	ldp	q0, q1, [x8]
	add	x8, sp, #1584
	str	q2, [sp, #18096]
	stp	x8, x9, [sp, #8]
	str	q1, [sp, #18032]
	str	q0, [sp, #18016]
	bl	"cipher_mode::Sm4CipherMode::call"
	add	x9, sp, #4, lsl #12
	add	x9, x9, #1600
	ldrb	w8, [x9]
	cbz	w8, .Lluossavin.BB41_39
	ldrb	w8, [x9, #1]
	adrp	x9, .Lluossavin.switch.table.luossavin_which
	add	x9, x9, :lo12:.Lluossavin.switch.table.luossavin_which
	ldr	w10, [x9, x8, lsl #2]
	mov	x9, xzr
	b	.Lluossavin.BB41_40
.Lluossavin.BB41_38:
	mov	x9, xzr
	mov	w10, #7
	b	.Lluossavin.BB41_40
.Lluossavin.BB41_39:
	ldr	x9, [sp, #17992]
	mov	w10, wzr
.Lluossavin.BB41_40:
	ldp	x15, x8, [sp, #152]
	ldr	w11, [sp, #40]
	ldp	x17, x16, [sp, #136]
	ldr	x2, [sp, #200]
	cmp	w10, w11
	mov	w11, #1
	ldr	x22, [sp, #48]
	ldp	x0, x18, [sp, #120]
	ldr	x27, [sp, #224]
	ldr	x28, [sp, #272]
	str	x9, [sp, #272]
	ldp	x3, x1, [sp, #104]
	ldp	x5, x4, [sp, #88]
	ldp	x7, x6, [sp, #72]
	ldp	x21, x20, [sp, #56]
	ldp	x24, x23, [sp, #232]
	b.ne	.Lluossavin.BB41_45
	cmp	x9, x25
	b.ne	.Lluossavin.BB41_45
	add	x12, sp, #1584
.Lluossavin.BB41_43:
	subs	x25, x25, #1
	cset	w11, hs
	b.lo	.Lluossavin.BB41_45
	ldrb	w13, [x26], #1
	ldrb	w14, [x12], #1
	cmp	w13, w14
	b.eq	.Lluossavin.BB41_43
.Lluossavin.BB41_45:
	ldr	x12, [sp, #320]
	ldr	w9, [sp, #44]
	str	x0, [sp, #1760]
	str	x27, [sp, #1616]
	str	x12, [sp, #1592]
	ldr	x12, [sp, #256]
	cmp	w9, #5
	str	x22, [sp, #1632]
	str	x12, [sp, #1600]
	ldr	x12, [sp, #296]
	str	x28, [sp, #1640]
	str	x12, [sp, #1608]
	ldr	x12, [sp, #264]
	str	x21, [sp, #1648]
	str	x12, [sp, #1624]
	ldr	x12, [sp, #280]
	str	x24, [sp, #1656]
	str	x12, [sp, #1672]
	ldr	x12, [sp, #312]
	str	x7, [sp, #1664]
	str	x12, [sp, #1688]
	ldr	x12, [sp, #288]
	str	x23, [sp, #1680]
	str	x12, [sp, #1696]
	ldr	x12, [sp, #248]
	str	x20, [sp, #1712]
	str	x12, [sp, #1704]
	mov	w12, #5
	csel	w12, w9, w12, lo
	ldp	x0, x9, [sp, #184]
	str	x6, [sp, #1720]
	str	x5, [sp, #1728]
	ldr	x13, [x9, w12, uxtw #3]
	str	x4, [sp, #1736]
	str	x3, [sp, #1744]
	add	x13, x13, #1
	str	x13, [x9, w12, uxtw #3]
	ldr	x9, [sp, #336]
	str	x1, [sp, #1752]
	ldr	x13, [sp, #1592]
	ldr	x24, [sp, #1600]
	add	x16, x16, x9
	ldr	x9, [sp, #304]
	ldr	x14, [x0, w10, uxtw #3]
	ldr	x20, [sp, #1608]
	ldr	x27, [sp, #1616]
	ldr	x28, [sp, #1624]
	cmp	x9, #0
	add	x14, x14, #1
	str	x14, [x0, w10, uxtw #3]
	cset	w10, eq
	ldr	x30, [sp, #1632]
	ldr	x23, [sp, #1640]
	tst	w11, w10
	ldr	x10, [sp, #1688]
	ldr	x7, [sp, #1648]
	ldr	x26, [sp, #1656]
	ldr	x5, [sp, #1664]
	csel	x17, x19, x17, ne
	stp	x10, x13, [sp, #312]
	ldr	x10, [sp, #272]
	ldr	x22, [sp, #1672]
	ldr	x12, [sp, #1680]
	csel	x18, x29, x18, ne
	ldr	x21, [sp, #1696]
	cmp	w11, #0
	ldr	x25, [sp, #1704]
	ldr	x6, [sp, #1712]
	ldr	x4, [sp, #1720]
	ldr	x3, [sp, #1728]
	ldr	x1, [sp, #1736]
	ldr	x0, [sp, #1744]
	ldr	x14, [sp, #1752]
	ldr	x13, [sp, #1760]
	add	x15, x10, x15
	ldr	x10, [sp, #208]
	add	x29, x29, #1
	csinc	x9, x9, xzr, eq
	str	x9, [sp, #304]
	cbnz	x10, .Lluossavin.BB41_17
	ldr	x9, [sp, #304]
	cbz	x9, .Lluossavin.BB41_64
	mov	x19, xzr
	mov	w9, wzr
	mov	w10, #1
	b	.Lluossavin.BB41_61
.Lluossavin.BB41_48:
	mov	w10, wzr
	mov	x19, xzr
	mov	x15, xzr
	mov	x16, xzr
	mov	x29, xzr
	mov	x13, xzr
	mov	x14, xzr
	mov	x0, xzr
	mov	x1, xzr
	mov	x3, xzr
	mov	x4, xzr
	mov	x6, xzr
	mov	x25, xzr
	mov	x21, xzr
	mov	x12, xzr
	mov	x22, xzr
	mov	x5, xzr
	mov	x26, xzr
	mov	x7, xzr
	mov	x23, xzr
	mov	x30, xzr
	mov	x28, xzr
	mov	x27, xzr
	mov	x20, xzr
	mov	x24, xzr
	mov	x11, xzr
	mov	w9, wzr
	b	.Lluossavin.BB41_7
.Lluossavin.BB41_49:
	ldp	x26, x12, [sp, #232]
	mov	w9, #25
	ldr	x27, [sp, #224]
.Lluossavin.BB41_50:
	ldp	x25, x24, [sp, #248]
.Lluossavin.BB41_51:
	ldp	x28, x23, [sp, #264]
.Lluossavin.BB41_52:
	ldr	x22, [sp, #280]
.Lluossavin.BB41_53:
	ldr	x21, [sp, #288]
.Lluossavin.BB41_54:
	ldr	x10, [sp, #304]
	cbz	x10, .Lluossavin.BB41_60
.Lluossavin.BB41_55:
	ldr	x20, [sp, #296]
	mov	w10, #1
	b	.Lluossavin.BB41_61
.Lluossavin.BB41_56:
	mov	w9, #23
	b	.Lluossavin.BB41_51
.Lluossavin.BB41_57:
	mov	w9, #23
	b	.Lluossavin.BB41_53
.Lluossavin.BB41_58:
	mov	w9, #23
	b	.Lluossavin.BB41_52
.Lluossavin.BB41_59:
	mov	w9, #23
	ldr	x10, [sp, #304]
	cbnz	x10, .Lluossavin.BB41_55
.Lluossavin.BB41_60:
	ldr	x20, [sp, #296]
	mov	x17, xzr
	mov	x18, xzr
.Lluossavin.BB41_61:
	ldp	x2, x11, [sp, #312]
	b	.Lluossavin.BB41_7
.Lluossavin.BB41_62:
	mov	w9, #23
	b	.Lluossavin.BB41_50
.Lluossavin.BB41_63:
	cmp	w10, #0
	mov	w9, #24
	cinc	w9, w9, eq
	b	.Lluossavin.BB41_50
.Lluossavin.BB41_64:
	mov	x17, xzr
	mov	x18, xzr
	mov	w10, wzr
	mov	x19, xzr
	b	.Lluossavin.BB41_61
.Lluossavin.func_end41:
	.size	luossavin_replay, .Lluossavin.func_end41-luossavin_replay

	.section	.rodata.cst16,"aM",@progbits,16
	.p2align	4, 0x0
.Lluossavin.CPI42_0:
	.xword	-32
	.xword	0
.Lluossavin.CPI42_1:
	.word	0
	.word	4294967288
	.word	4294967280
	.word	4294967272
	.section	.text.luossavin_seal_end,"ax",@progbits
	.globl	luossavin_seal_end
	.p2align	2
	.type	luossavin_seal_end,@function
luossavin_seal_end:
	sub	sp, sp, #448
	stp	x24, x23, [sp, #400]
	movi	v0.2d, #0000000000000000
	cmp	x1, #0
	ldp	w23, w12, [x0, #240]
	stp	x20, x19, [sp, #432]
	ldp	x19, x20, [x0, #224]
	stp	x22, x21, [sp, #416]
	mov	w9, #4096
	ldr	q4, [x0, #208]
	ldrh	w21, [x0, #248]
	stp	x26, x25, [sp, #384]
	add	x22, sp, #16
	csel	x26, x9, xzr, eq
	cmp	w12, #9
	str	x29, [sp, #352]
	stp	x30, x27, [sp, #368]
	stp	q0, q0, [sp, #16]
	stp	q0, q0, [sp, #48]
	stp	q0, q0, [sp, #80]
	stp	q0, q0, [sp, #112]
	stp	q0, q0, [sp, #144]
	stp	q0, q0, [sp, #176]
	str	q0, [sp, #208]
	stur	xzr, [x22, #206]
	b.gt	.Lluossavin.BB42_4
	cbz	w12, .Lluossavin.BB42_8
	cmp	w12, #1
	b.eq	.Lluossavin.BB42_15
	cmp	w12, #5
	b.eq	.Lluossavin.BB42_12
	b	.Lluossavin.BB42_14
.Lluossavin.BB42_4:
	cmp	w12, #10
	b.eq	.Lluossavin.BB42_13
	cmp	w12, #13
	b.eq	.Lluossavin.BB42_16
	cmp	w12, #14
	b.ne	.Lluossavin.BB42_14
	ldp	q0, q1, [x0, #144]
	umov	w11, v4.b[0]
	umov	w13, v4.b[1]
	umov	w14, v4.b[2]
	umov	w15, v4.b[3]
	umov	w16, v4.b[4]
	umov	w17, v4.b[5]
	ldur	w12, [x0, #250]
	stur	q0, [x22, #150]
	ldp	q2, q0, [x0, #176]
	stur	q1, [x22, #166]
	umov	w18, v4.b[6]
	umov	w1, v4.b[7]
	umov	w2, v4.b[8]
	umov	w3, v4.b[9]
	umov	w4, v4.b[10]
	stur	q0, [x22, #198]
	ldp	q1, q0, [x0, #80]
	umov	w5, v4.b[11]
	umov	w6, v4.b[12]
	umov	w7, v4.b[13]
	umov	w24, v4.b[14]
	umov	w25, v4.b[15]
	stur	q2, [x22, #182]
	stur	q1, [sp, #102]
	ldp	q1, q3, [x0, #112]
	stur	q0, [sp, #118]
	mov	w9, wzr
	mov	x10, xzr
	str	w12, [sp, #304]
	mov	w12, #14
	stur	q1, [sp, #134]
	ldp	q0, q1, [x0, #16]
	stur	q3, [x22, #134]
	ldr	q3, [x0]
	stur	q0, [sp, #38]
	ldp	q0, q2, [x0, #48]
	ldurh	w0, [x0, #254]
	stur	q1, [sp, #54]
	stur	q3, [sp, #22]
	strh	w0, [sp, #308]
	mov	w0, #14
	stur	q0, [sp, #70]
	stur	q2, [sp, #86]
	b	.Lluossavin.BB42_17
.Lluossavin.BB42_8:
	mov	w9, #16777216
	cmp	x19, x9
	b.hi	.Lluossavin.BB42_12
	mov	w9, #16777216
	cmp	x20, x9
	b.hi	.Lluossavin.BB42_12
	cmp	x2, #16
	b.hs	.Lluossavin.BB42_18
	ldp	q0, q1, [x0, #144]
	mov	w12, wzr
	ldur	w26, [x0, #250]
	mov	w9, wzr
	mov	x10, xzr
	umov	w11, v4.b[0]
	umov	w13, v4.b[1]
	umov	w14, v4.b[2]
	stur	q0, [x22, #150]
	ldp	q2, q0, [x0, #176]
	stur	q1, [x22, #166]
	umov	w15, v4.b[3]
	umov	w16, v4.b[4]
	umov	w17, v4.b[5]
	umov	w18, v4.b[6]
	umov	w1, v4.b[7]
	stur	q0, [x22, #198]
	ldp	q1, q0, [x0, #80]
	stur	q2, [x22, #182]
	umov	w2, v4.b[8]
	umov	w3, v4.b[9]
	umov	w4, v4.b[10]
	umov	w5, v4.b[11]
	umov	w6, v4.b[12]
	stur	q1, [sp, #102]
	ldp	q1, q3, [x0, #112]
	stur	q0, [sp, #118]
	umov	w7, v4.b[13]
	umov	w24, v4.b[14]
	umov	w25, v4.b[15]
	str	w26, [sp, #304]
	stur	q1, [sp, #134]
	ldp	q0, q1, [x0, #16]
	stur	q3, [x22, #134]
	ldr	q3, [x0]
	stur	q0, [sp, #38]
	ldp	q0, q2, [x0, #48]
	ldurh	w0, [x0, #254]
	stur	q1, [sp, #54]
	stur	q3, [sp, #22]
	stur	q0, [sp, #70]
	stur	q2, [sp, #86]
	strh	w0, [sp, #308]
	mov	w0, #6
	b	.Lluossavin.BB42_17
.Lluossavin.BB42_12:
	ldp	q0, q1, [x0, #144]
	mov	w9, wzr
	ldur	w26, [x0, #250]
	mov	x10, xzr
	umov	w11, v4.b[0]
	umov	w13, v4.b[1]
	umov	w14, v4.b[2]
	umov	w15, v4.b[3]
	stur	q0, [x22, #150]
	ldp	q2, q0, [x0, #176]
	stur	q1, [x22, #166]
	umov	w16, v4.b[4]
	umov	w17, v4.b[5]
	umov	w18, v4.b[6]
	umov	w1, v4.b[7]
	umov	w2, v4.b[8]
	stur	q0, [x22, #198]
	ldp	q1, q0, [x0, #80]
	stur	q2, [x22, #182]
	umov	w3, v4.b[9]
	umov	w4, v4.b[10]
	umov	w5, v4.b[11]
	umov	w6, v4.b[12]
	umov	w7, v4.b[13]
	stur	q1, [sp, #102]
	ldp	q1, q3, [x0, #112]
	stur	q0, [sp, #118]
	umov	w24, v4.b[14]
	umov	w25, v4.b[15]
	str	w26, [sp, #304]
	stur	q1, [sp, #134]
	ldp	q0, q1, [x0, #16]
	stur	q3, [x22, #134]
	ldr	q3, [x0]
	stur	q0, [sp, #38]
	ldp	q0, q2, [x0, #48]
	ldurh	w0, [x0, #254]
	stur	q1, [sp, #54]
	stur	q3, [sp, #22]
	stur	q0, [sp, #70]
	stur	q2, [sp, #86]
	strh	w0, [sp, #308]
	mov	w0, #5
	b	.Lluossavin.BB42_17
.Lluossavin.BB42_13:
	ldp	q0, q1, [x0, #144]
	mov	w9, wzr
	ldur	w12, [x0, #250]
	mov	x10, xzr
	umov	w11, v4.b[0]
	umov	w13, v4.b[1]
	umov	w14, v4.b[2]
	umov	w15, v4.b[3]
	stur	q0, [x22, #150]
	ldp	q2, q0, [x0, #176]
	stur	q1, [x22, #166]
	umov	w16, v4.b[4]
	umov	w17, v4.b[5]
	umov	w18, v4.b[6]
	umov	w1, v4.b[7]
	umov	w2, v4.b[8]
	stur	q0, [x22, #198]
	ldp	q1, q0, [x0, #80]
	stur	q2, [x22, #182]
	umov	w3, v4.b[9]
	umov	w4, v4.b[10]
	umov	w5, v4.b[11]
	umov	w6, v4.b[12]
	umov	w7, v4.b[13]
	stur	q1, [sp, #102]
	ldp	q1, q3, [x0, #112]
	stur	q0, [sp, #118]
	umov	w24, v4.b[14]
	umov	w25, v4.b[15]
	str	w12, [sp, #304]
	mov	w12, #10
	stur	q1, [sp, #134]
	ldp	q0, q1, [x0, #16]
	stur	q3, [x22, #134]
	ldr	q3, [x0]
	stur	q0, [sp, #38]
	ldp	q0, q2, [x0, #48]
	ldurh	w0, [x0, #254]
	stur	q1, [sp, #54]
	stur	q3, [sp, #22]
	stur	q0, [sp, #70]
	stur	q2, [sp, #86]
	strh	w0, [sp, #308]
	mov	w0, #10
	b	.Lluossavin.BB42_17
.Lluossavin.BB42_14:
	ldp	q0, q1, [x0, #144]
	mov	w9, wzr
	ldur	w26, [x0, #250]
	mov	x10, xzr
	umov	w11, v4.b[0]
	umov	w13, v4.b[1]
	umov	w14, v4.b[2]
	umov	w15, v4.b[3]
	stur	q0, [x22, #150]
	ldp	q2, q0, [x0, #176]
	stur	q1, [x22, #166]
	umov	w16, v4.b[4]
	umov	w17, v4.b[5]
	umov	w18, v4.b[6]
	umov	w1, v4.b[7]
	umov	w2, v4.b[8]
	stur	q0, [x22, #198]
	ldp	q1, q0, [x0, #80]
	stur	q2, [x22, #182]
	umov	w3, v4.b[9]
	umov	w4, v4.b[10]
	umov	w5, v4.b[11]
	umov	w6, v4.b[12]
	umov	w7, v4.b[13]
	stur	q1, [sp, #102]
	ldp	q1, q3, [x0, #112]
	stur	q0, [sp, #118]
	umov	w24, v4.b[14]
	umov	w25, v4.b[15]
	str	w26, [sp, #304]
	stur	q1, [sp, #134]
	ldp	q0, q1, [x0, #16]
	stur	q3, [x22, #134]
	ldr	q3, [x0]
	stur	q0, [sp, #38]
	ldp	q0, q2, [x0, #48]
	ldurh	w0, [x0, #254]
	stur	q1, [sp, #54]
	stur	q3, [sp, #22]
	stur	q0, [sp, #70]
	stur	q2, [sp, #86]
	strh	w0, [sp, #308]
	mov	w0, #12
	b	.Lluossavin.BB42_17
.Lluossavin.BB42_15:
	ldp	q0, q1, [x0, #144]
	mov	w9, wzr
	ldur	w12, [x0, #250]
	mov	x10, xzr
	umov	w11, v4.b[0]
	umov	w13, v4.b[1]
	umov	w14, v4.b[2]
	umov	w15, v4.b[3]
	stur	q0, [x22, #150]
	ldp	q2, q0, [x0, #176]
	stur	q1, [x22, #166]
	umov	w16, v4.b[4]
	umov	w17, v4.b[5]
	umov	w18, v4.b[6]
	umov	w1, v4.b[7]
	umov	w2, v4.b[8]
	stur	q0, [x22, #198]
	ldp	q1, q0, [x0, #80]
	stur	q2, [x22, #182]
	umov	w3, v4.b[9]
	umov	w4, v4.b[10]
	umov	w5, v4.b[11]
	umov	w6, v4.b[12]
	umov	w7, v4.b[13]
	stur	q1, [sp, #102]
	ldp	q1, q3, [x0, #112]
	stur	q0, [sp, #118]
	umov	w24, v4.b[14]
	umov	w25, v4.b[15]
	str	w12, [sp, #304]
	mov	w12, #1
	stur	q1, [sp, #134]
	ldp	q0, q1, [x0, #16]
	stur	q3, [x22, #134]
	ldr	q3, [x0]
	stur	q0, [sp, #38]
	ldp	q0, q2, [x0, #48]
	ldurh	w0, [x0, #254]
	stur	q1, [sp, #54]
	stur	q3, [sp, #22]
	stur	q0, [sp, #70]
	stur	q2, [sp, #86]
	strh	w0, [sp, #308]
	mov	w0, #1
	b	.Lluossavin.BB42_17
.Lluossavin.BB42_16:
	ldp	q0, q1, [x0, #144]
	mov	w9, wzr
	ldur	w12, [x0, #250]
	mov	x10, xzr
	umov	w11, v4.b[0]
	umov	w13, v4.b[1]
	umov	w14, v4.b[2]
	umov	w15, v4.b[3]
	stur	q0, [x22, #150]
	ldp	q2, q0, [x0, #176]
	stur	q1, [x22, #166]
	umov	w16, v4.b[4]
	umov	w17, v4.b[5]
	umov	w18, v4.b[6]
	umov	w1, v4.b[7]
	umov	w2, v4.b[8]
	stur	q0, [x22, #198]
	ldp	q1, q0, [x0, #80]
	stur	q2, [x22, #182]
	umov	w3, v4.b[9]
	umov	w4, v4.b[10]
	umov	w5, v4.b[11]
	umov	w6, v4.b[12]
	umov	w7, v4.b[13]
	stur	q1, [sp, #102]
	ldp	q1, q3, [x0, #112]
	stur	q0, [sp, #118]
	umov	w24, v4.b[14]
	umov	w25, v4.b[15]
	str	w12, [sp, #304]
	mov	w12, #13
	stur	q1, [sp, #134]
	ldp	q0, q1, [x0, #16]
	stur	q3, [x22, #134]
	ldr	q3, [x0]
	stur	q0, [sp, #38]
	ldp	q0, q2, [x0, #48]
	ldurh	w0, [x0, #254]
	stur	q1, [sp, #54]
	stur	q3, [sp, #22]
	stur	q0, [sp, #70]
	stur	q2, [sp, #86]
	strh	w0, [sp, #308]
	mov	w0, #13
.Lluossavin.BB42_17:
	ldur	q0, [x22, #166]
	ldur	q1, [x22, #182]
	ldur	q2, [x22, #198]
	strb	w9, [x8, #5]
	ldr	w9, [sp, #304]
	ldr	x29, [sp, #352]
	stp	q0, q1, [x8, #176]
	ldur	q0, [sp, #118]
	ldur	q1, [sp, #134]
	str	q2, [x8, #208]
	ldur	q2, [x22, #150]
	stp	q0, q1, [x8, #112]
	ldur	q0, [x22, #134]
	ldur	q1, [sp, #54]
	strh	w21, [x8, #6]
	ldp	x30, x27, [sp, #368]
	stp	q0, q2, [x8, #144]
	ldur	q0, [sp, #70]
	ldur	q2, [sp, #102]
	strb	w11, [x8, #224]
	ldrh	w11, [sp, #308]
	stp	q1, q0, [x8, #48]
	ldur	q0, [sp, #86]
	ldur	q1, [sp, #38]
	strb	w24, [x8, #238]
	stp	q0, q2, [x8, #80]
	ldur	q0, [sp, #22]
	strb	w25, [x8, #239]
	ldp	x26, x25, [sp, #384]
	stp	x19, x20, [x8, #240]
	ldp	x20, x19, [sp, #432]
	str	w23, [x8, #256]
	ldp	x24, x23, [sp, #400]
	strh	w21, [x8, #264]
	ldp	x22, x21, [sp, #416]
	str	x10, [x8, #8]
	add	x10, x8, #266
	str	w0, [x8]
	strb	wzr, [x8, #4]
	stp	q0, q1, [x8, #16]
	strb	w13, [x8, #225]
	strb	w14, [x8, #226]
	strb	w15, [x8, #227]
	strb	w16, [x8, #228]
	strb	w17, [x8, #229]
	strb	w18, [x8, #230]
	strb	w1, [x8, #231]
	strb	w2, [x8, #232]
	strb	w3, [x8, #233]
	strb	w4, [x8, #234]
	strb	w5, [x8, #235]
	strb	w6, [x8, #236]
	strb	w7, [x8, #237]
	str	w12, [x8, #260]
	str	w9, [x10]
	strh	w11, [x8, #270]
	add	sp, sp, #448
	ret
.Lluossavin.BB42_18:
	ldp	q0, q1, [x0, #160]
	movi	v3.2d, #0000000000000000
	ldr	q2, [x0, #192]
	add	x9, sp, #304
	add	x0, sp, #272
	mov	x27, x1
	add	x1, sp, #240
	add	x2, x9, #32
	stp	q0, q1, [sp, #304]
	and	x3, x20, #0xf
	mov	x24, x8
	ldp	q0, q1, [sp, #304]
	str	q2, [sp, #336]
	stp	q3, q3, [sp, #272]
	str	q4, [sp]
	rev64	v0.16b, v0.16b
	rev64	v1.16b, v1.16b
	stp	q0, q1, [sp, #240]
	bl	"ghash::Ghash::absorb_all"
	add	x0, sp, #240
	add	x1, sp, #272
	mov	x2, x19
	mov	x3, x20
	bl	"ghash::Ghash::absorb_lengths"
	ldr	q0, [sp, #256]
	adrp	x9, .Lluossavin.CPI42_0
	movi	v5.2d, #0000000000000000
	ldr	q2, [x9, :lo12:.Lluossavin.CPI42_0]
	adrp	x9, .Lluossavin.CPI42_1
	mvn	w10, w23
	dup	v1.2d, v0.d[0]
	dup	v0.2d, v0.d[1]
	mov	x8, x24
	mov	x19, xzr
	mov	w25, wzr
	mov	w24, wzr
	mov	w7, wzr
	mov	w6, wzr
	mov	w5, wzr
	ushl	v0.2d, v0.2d, v2.2d
	ushl	v1.2d, v1.2d, v2.2d
	mov	w4, wzr
	mov	w3, wzr
	mov	w2, wzr
	mov	w1, wzr
	mov	w18, wzr
	mov	w17, wzr
	mov	w16, wzr
	uzp1	v0.4s, v1.4s, v0.4s
	ldr	q1, [x9, :lo12:.Lluossavin.CPI42_1]
	add	x9, x20, #15
	cmp	x10, x9, lsr #4
	mov	w15, wzr
	mov	w14, wzr
	mov	w13, wzr
	mov	w11, wzr
	mov	w0, wzr
	stp	q5, q5, [sp, #16]
	mov	w12, #12
	cset	w9, lo
	rev32	v0.16b, v0.16b
	stp	q5, q5, [sp, #48]
	mov	w10, #16
	stp	q5, q5, [sp, #80]
	mov	w23, wzr
	mov	x20, xzr
	stp	q5, q5, [sp, #112]
	stp	q5, q5, [sp, #144]
	dup	v2.4s, v0.s[1]
	dup	v3.4s, v0.s[2]
	dup	v4.4s, v0.s[3]
	dup	v0.4s, v0.s[0]
	stp	q5, q5, [sp, #176]
	str	q5, [sp, #208]
	ushl	v2.4s, v2.4s, v1.4s
	ushl	v4.4s, v4.4s, v1.4s
	stur	xzr, [x22, #206]
	ushl	v0.4s, v0.4s, v1.4s
	ushl	v1.4s, v3.4s, v1.4s
	strh	wzr, [sp, #308]
	str	wzr, [sp, #304]
	uzp1	v1.8h, v1.8h, v4.8h
	uzp1	v0.8h, v0.8h, v2.8h
	uzp1	v0.16b, v0.16b, v1.16b
	ldr	q1, [sp]
	eor	v0.16b, v1.16b, v0.16b
	str	q0, [x27, x26]
	b	.Lluossavin.BB42_17
.Lluossavin.func_end42:
	.size	luossavin_seal_end, .Lluossavin.func_end42-luossavin_seal_end

	.section	.text.luossavin_seal_piece,"ax",@progbits
	.globl	luossavin_seal_piece
	.p2align	2
	.type	luossavin_seal_piece,@function
luossavin_seal_piece:
	str	d8, [sp, #-96]!
	stp	x29, x30, [sp, #16]
	stp	x26, x25, [sp, #32]
	stp	x24, x23, [sp, #48]
	stp	x22, x21, [sp, #64]
	stp	x20, x19, [sp, #80]
	sub	sp, sp, #672
	ldp	q0, q1, [x0, #160]
	add	x21, sp, #32
	movi	v3.2d, #0000000000000000
	ldr	w11, [x0, #244]
	cmp	x1, #0
	mov	w9, #4096
	ldp	x22, x23, [x0, #224]
	stp	q0, q1, [x21, #576]
	ldp	q2, q0, [x0, #192]
	csel	x10, x9, xzr, eq
	cmp	x3, #0
	ldr	d8, [x0, #240]
	ldrh	w25, [x0, #248]
	ldrb	w24, [x0, #250]
	csel	x9, x9, xzr, eq
	stp	q2, q0, [x21, #608]
	ldp	q1, q0, [x0, #96]
	cmp	w11, #9
	stp	q3, q3, [x21, #384]
	stp	q1, q0, [x21, #512]
	ldp	q1, q0, [x0, #128]
	stp	q1, q0, [x21, #544]
	ldp	q2, q0, [x0, #32]
	stp	q2, q0, [x21, #448]
	ldp	q1, q0, [x0, #64]
	stp	q1, q0, [x21, #480]
	ldp	q2, q0, [x0]
	stp	q2, q0, [x21, #416]
	b.gt	.Lluossavin.BB43_4
	cbz	w11, .Lluossavin.BB43_8
	cmp	w11, #1
	b.eq	.Lluossavin.BB43_15
	cmp	w11, #5
	b.eq	.Lluossavin.BB43_12
	b	.Lluossavin.BB43_14
.Lluossavin.BB43_4:
	cmp	w11, #10
	b.eq	.Lluossavin.BB43_13
	cmp	w11, #13
	b.eq	.Lluossavin.BB43_16
	cmp	w11, #14
	b.ne	.Lluossavin.BB43_14
	ldp	q0, q1, [x0, #160]
	mov	x19, xzr
	ldur	w9, [x0, #251]
	ldurb	w10, [x0, #255]
	stp	q0, q1, [x21, #160]
	ldp	q0, q2, [x0, #192]
	str	w9, [sp, #24]
	mov	w9, #14
	b	.Lluossavin.BB43_17
.Lluossavin.BB43_8:
	adds	x11, x2, x23
	mov	w12, #16777216
	csinv	x11, x11, xzr, lo
	cmp	x22, x12
	b.hi	.Lluossavin.BB43_12
	mov	w12, #16777216
	cmp	x11, x12
	b.hi	.Lluossavin.BB43_12
	cmp	x4, x2
	b.hs	.Lluossavin.BB43_19
	ldp	q0, q1, [x0, #160]
	mov	x19, xzr
	ldur	w9, [x0, #251]
	ldurb	w10, [x0, #255]
	stp	q0, q1, [x21, #160]
	ldp	q0, q2, [x0, #192]
	str	w9, [sp, #24]
	mov	w9, #6
	b	.Lluossavin.BB43_17
.Lluossavin.BB43_12:
	ldp	q0, q1, [x0, #160]
	mov	x19, xzr
	ldur	w9, [x0, #251]
	ldurb	w10, [x0, #255]
	stp	q0, q1, [x21, #160]
	ldp	q0, q2, [x0, #192]
	str	w9, [sp, #24]
	mov	w9, #5
	b	.Lluossavin.BB43_17
.Lluossavin.BB43_13:
	ldp	q0, q1, [x0, #160]
	mov	x19, xzr
	ldur	w9, [x0, #251]
	ldurb	w10, [x0, #255]
	stp	q0, q1, [x21, #160]
	ldp	q0, q2, [x0, #192]
	str	w9, [sp, #24]
	mov	w9, #10
	b	.Lluossavin.BB43_17
.Lluossavin.BB43_14:
	ldp	q0, q1, [x0, #160]
	mov	x19, xzr
	ldur	w9, [x0, #251]
	ldurb	w10, [x0, #255]
	stp	q0, q1, [x21, #160]
	ldp	q0, q2, [x0, #192]
	str	w9, [sp, #24]
	mov	w9, #12
	b	.Lluossavin.BB43_17
.Lluossavin.BB43_15:
	ldp	q0, q1, [x0, #160]
	mov	x19, xzr
	ldur	w9, [x0, #251]
	ldurb	w10, [x0, #255]
	stp	q0, q1, [x21, #160]
	ldp	q0, q2, [x0, #192]
	str	w9, [sp, #24]
	mov	w9, #1
	b	.Lluossavin.BB43_17
.Lluossavin.BB43_16:
	ldp	q0, q1, [x0, #160]
	mov	x19, xzr
	ldur	w9, [x0, #251]
	ldurb	w10, [x0, #255]
	stp	q0, q1, [x21, #160]
	ldp	q0, q2, [x0, #192]
	str	w9, [sp, #24]
	mov	w9, #13
.Lluossavin.BB43_17:
	strb	w10, [sp, #28]
	stp	q0, q2, [x21, #192]
	ldp	q1, q0, [x0, #96]
	stp	q1, q0, [sp, #128]
	ldp	q2, q0, [x0, #128]
	stp	q2, q0, [x21, #128]
	ldp	q1, q0, [x0, #32]
	stp	q1, q0, [sp, #64]
	ldp	q2, q0, [x0, #64]
	stp	q2, q0, [sp, #96]
	ldp	q1, q0, [x0]
	stp	q1, q0, [sp, #32]
.Lluossavin.BB43_18:
	ldp	q0, q1, [x21, #160]
	add	x10, x8, #267
	str	w9, [x8]
	ldr	w9, [sp, #24]
	ldrb	w11, [sp, #28]
	strh	wzr, [x8, #4]
	stp	q0, q1, [x8, #176]
	ldp	q2, q0, [x21, #192]
	strh	w25, [x8, #6]
	str	x19, [x8, #8]
	stp	q2, q0, [x8, #208]
	ldp	q1, q0, [sp, #128]
	stp	x22, x23, [x8, #240]
	str	d8, [x8, #256]
	stp	q1, q0, [x8, #112]
	ldp	q2, q0, [x21, #128]
	strh	w25, [x8, #264]
	strb	w24, [x8, #266]
	stp	q2, q0, [x8, #144]
	ldp	q1, q0, [sp, #64]
	str	w9, [x10]
	strb	w11, [x8, #271]
	stp	q1, q0, [x8, #48]
	ldp	q2, q0, [sp, #96]
	stp	q2, q0, [x8, #80]
	ldp	q1, q0, [sp, #32]
	stp	q1, q0, [x8, #16]
	add	sp, sp, #672
	ldp	x20, x19, [sp, #80]
	ldp	x22, x21, [sp, #64]
	ldp	x24, x23, [sp, #48]
	ldp	x26, x25, [sp, #32]
	ldp	x29, x30, [sp, #16]
	ldr	d8, [sp], #96
	ret
.Lluossavin.BB43_19:
	ldp	q0, q1, [x0, #64]
	sub	w11, w24, #1
	cmp	w11, #3
	add	x20, x3, x9
	mov	x19, x2
	csinc	w9, w11, wzr, lo
	add	x2, sp, #288
	and	x5, x23, #0xf
	stp	q0, q1, [x21, #320]
	ldp	q0, q2, [x0, #96]
	add	x6, x1, x10
	mov	w1, w9
	mov	w3, #1
	mov	x7, x19
	mov	x26, x8
	stp	q0, q2, [x21, #352]
	ldp	q1, q0, [x0]
	stp	q1, q0, [x21, #256]
	ldp	q2, q0, [x0, #32]
	stp	q2, q0, [x21, #288]
	ldp	q2, q1, [x0, #128]
	stp	x20, x4, [sp]
	add	x0, sp, #416
	add	x4, sp, #256
	stp	q2, q1, [x21, #224]
	bl	"pieces::flow::run"
	add	x8, sp, #448
	add	x9, sp, #32
	and	x2, x23, #0xf
	add	x0, x9, #160
	add	x1, x8, #160
	mov	x3, x20
	mov	x4, x19
	bl	"pieces::hashing::Hashing::take_in"
	ldp	q0, q1, [x21, #480]
	mov	x8, x26
	mov	w9, wzr
	str	wzr, [sp, #24]
	add	x23, x23, x19
	strb	wzr, [sp, #28]
	stp	q0, q1, [sp, #96]
	ldp	q0, q2, [x21, #512]
	stp	q0, q2, [sp, #128]
	ldp	q1, q0, [x21, #416]
	stp	q1, q0, [sp, #32]
	ldp	q2, q0, [x21, #448]
	stp	q2, q0, [sp, #64]
	ldp	q2, q1, [x21, #384]
	ldr	q0, [x21, #624]
	stp	q2, q1, [x21, #128]
	str	q0, [x21, #208]
	b	.Lluossavin.BB43_18
.Lluossavin.func_end43:
	.size	luossavin_seal_piece, .Lluossavin.func_end43-luossavin_seal_piece

	.section	.rodata.cst16,"aM",@progbits,16
	.p2align	4, 0x0
.Lluossavin.CPI44_0:
	.word	0
	.word	0
	.word	0
	.word	1
	.section	.text.luossavin_seal_start,"ax",@progbits
	.globl	luossavin_seal_start
	.p2align	2
	.type	luossavin_seal_start,@function
luossavin_seal_start:
	sub	sp, sp, #448
	cmp	x1, #0
	mov	w9, #4096
	ldr	w12, [x0, #128]
	csel	x10, x9, xzr, eq
	cmp	x3, #0
	stp	x26, x25, [sp, #384]
	csel	x11, x9, xzr, eq
	cmp	w12, #13
	mov	w9, #1
	ldrh	w26, [x0, #132]
	cinc	w9, w9, eq
	cmp	w12, #0
	stp	x22, x21, [sp, #416]
	csel	w12, wzr, w9, eq
	add	x22, sp, #192
	csel	w9, w26, wzr, eq
	str	x29, [sp, #352]
	stp	x30, x27, [sp, #368]
	stp	x24, x23, [sp, #400]
	stp	x20, x19, [sp, #432]
	cbz	w12, .Lluossavin.BB44_3
	cmp	w12, #2
	b.ne	.Lluossavin.BB44_7
	movi	v0.2d, #0000000000000000
	mov	w23, wzr
	mov	w10, wzr
	mov	x20, xzr
	mov	w24, wzr
	mov	w25, wzr
	stur	xzr, [x22, #126]
	movi	v1.2d, #0000000000000000
	mov	w11, #13
	b	.Lluossavin.BB44_11
.Lluossavin.BB44_3:
	ldrb	w12, [x0, #134]
	ldrb	w23, [x0, #135]
	mov	x6, x4
	cmp	x4, #16
	b.eq	.Lluossavin.BB44_5
	cmp	x6, #12
	b.ne	.Lluossavin.BB44_8
.Lluossavin.BB44_5:
	cbz	w12, .Lluossavin.BB44_9
	movi	v0.2d, #0000000000000000
	movi	v1.2d, #0000000000000000
	mov	w23, wzr
	mov	w10, wzr
	mov	x20, xzr
	mov	w24, wzr
	mov	w25, wzr
	mov	w11, #14
	stur	xzr, [x22, #126]
	b	.Lluossavin.BB44_11
.Lluossavin.BB44_7:
	movi	v0.2d, #0000000000000000
	mov	w23, wzr
	mov	w10, wzr
	mov	x20, xzr
	mov	w24, wzr
	mov	w25, wzr
	stur	xzr, [x22, #126]
	movi	v1.2d, #0000000000000000
	mov	w11, #1
	b	.Lluossavin.BB44_11
.Lluossavin.BB44_8:
	movi	v0.2d, #0000000000000000
	mov	w23, wzr
	mov	w10, wzr
	mov	x20, xzr
	mov	w24, wzr
	mov	w25, wzr
	stur	xzr, [x22, #126]
	movi	v1.2d, #0000000000000000
	mov	w11, #10
	b	.Lluossavin.BB44_11
.Lluossavin.BB44_9:
	mov	w12, #16777216
	cmp	x2, x12
	b.ls	.Lluossavin.BB44_13
	movi	v0.2d, #0000000000000000
	mov	w23, wzr
	mov	w10, wzr
	mov	x20, xzr
	mov	w24, wzr
	mov	w25, wzr
	stur	xzr, [x22, #126]
	movi	v1.2d, #0000000000000000
	mov	w11, #5
.Lluossavin.BB44_11:
	stp	xzr, xzr, [sp, #336]
	stp	q0, q0, [x22]
	stp	q0, q0, [x22, #32]
	stp	q0, q0, [x22, #64]
	stp	q0, q0, [x22, #96]
	stp	q0, q0, [sp, #48]
	str	q0, [sp, #80]
	str	wzr, [sp, #40]
.Lluossavin.BB44_12:
	ldur	q2, [x22, #70]
	ldur	q3, [x22, #86]
	ldur	q4, [x22, #102]
	stur	q0, [x8, #152]
	ldr	x29, [sp, #352]
	stp	q2, q3, [x8, #80]
	ldur	q2, [x22, #118]
	ldur	q3, [x22, #6]
	str	d1, [x8, #168]
	ldp	q0, q1, [sp, #48]
	stp	q4, q2, [x8, #112]
	ldur	q2, [x22, #22]
	ldur	q4, [x22, #38]
	strb	wzr, [sp, #44]
	ldp	x30, x27, [sp, #368]
	stp	q3, q2, [x8, #16]
	ldur	q2, [x22, #54]
	strh	w9, [x8, #6]
	stp	q4, q2, [x8, #48]
	ldr	q2, [sp, #80]
	stp	w25, w24, [x8, #144]
	ldp	x26, x25, [sp, #384]
	stp	q0, q1, [x8, #176]
	ldr	q0, [x22, #144]
	stp	x20, xzr, [x8, #240]
	ldp	x20, x19, [sp, #432]
	str	w10, [x8, #256]
	ldr	w10, [sp, #40]
	strh	w9, [x8, #264]
	and	w9, wzr, #0xff
	strb	w23, [x8, #266]
	ldp	x22, x21, [sp, #416]
	str	w11, [x8]
	ldp	x24, x23, [sp, #400]
	str	w11, [x8, #260]
	add	x11, x8, #267
	strh	wzr, [x8, #4]
	str	xzr, [x8, #8]
	stp	q2, q0, [x8, #208]
	strb	w9, [x8, #271]
	str	w10, [x11]
	add	sp, sp, #448
	ret
.Lluossavin.BB44_13:
	sub	w9, w23, #1
	mov	x19, x0
	mov	x20, x2
	cmp	w9, #3
	add	x0, sp, #96
	mov	x2, x19
	csinc	w21, w9, wzr, lo
	mov	x9, x3
	add	x3, x1, x10
	add	x5, x9, x11
	mov	w1, w21
	mov	x4, x20
	mov	x27, x8
	bl	"pieces::tagging::begin"
	ldr	q1, [sp, #96]
	adrp	x8, .Lluossavin.CPI44_0
	ldr	w9, [sp, #96]
	ldr	q0, [x8, :lo12:.Lluossavin.CPI44_0]
	add	x0, sp, #336
	add	x3, sp, #48
	mov	w8, v1.s[1]
	mov	w1, w21
	mov	x2, x19
	add	v0.4s, v1.4s, v0.4s
	stp	q0, q1, [sp]
	rev	w25, w9
	stp	xzr, xzr, [sp, #336]
	rev	w24, w8
	str	q0, [sp, #48]
	bl	"cipher::encrypt"
	ldp	q1, q2, [x19, #64]
	mov	x8, x27
	ldp	q3, q0, [sp]
	mov	w11, wzr
	ldr	w10, [sp, #112]
	str	wzr, [sp, #40]
	mov	w9, w26
	stur	q1, [x22, #70]
	stur	q2, [x22, #86]
	ldp	q1, q2, [x19, #96]
	zip2	v0.4s, v3.4s, v0.4s
	stur	q1, [x22, #102]
	stur	q2, [x22, #118]
	ldp	q1, q2, [x19]
	ext	v0.16b, v0.16b, v3.16b, #4
	ldp	d3, d4, [sp, #336]
	stur	q1, [x22, #6]
	stur	q2, [x22, #22]
	ldp	q1, q2, [x19, #32]
	mov	v0.d[1], v3.d[0]
	ldur	q3, [sp, #148]
	stur	q1, [x22, #38]
	ldur	q1, [sp, #116]
	stur	q2, [x22, #54]
	ldur	q2, [sp, #132]
	str	q3, [sp, #80]
	rev32	v0.16b, v0.16b
	stp	q1, q2, [sp, #48]
	ldur	q2, [sp, #164]
	rev32	v1.8b, v4.8b
	str	q2, [x22, #144]
	b	.Lluossavin.BB44_12
.Lluossavin.func_end44:
	.size	luossavin_seal_start, .Lluossavin.func_end44-luossavin_seal_start

	.section	.text.luossavin_shelf_find,"ax",@progbits
	.globl	luossavin_shelf_find
	.p2align	2
	.type	luossavin_shelf_find,@function
luossavin_shelf_find:
	cmp	x0, #0
	mov	w9, #4096
	mov	x10, xzr
	csel	x9, x9, xzr, eq
	cmp	x1, #16, lsl #12
	mov	w12, #19
	b.hi	.Lluossavin.BB45_5
	cmp	x1, x2
	mov	x11, x10
	b.lo	.Lluossavin.BB45_4
	cmp	x2, #12
	b.hs	.Lluossavin.BB45_6
	cmp	x2, #0
	mov	w9, #19
	mov	w12, #22
	mov	x10, xzr
	mov	x11, xzr
	csel	w12, w12, w9, eq
.Lluossavin.BB45_4:
	stp	w12, wzr, [x8]
	stp	x10, x11, [x8, #8]
	ret
.Lluossavin.BB45_5:
	stp	w12, wzr, [x8]
	stp	x10, x10, [x8, #8]
	ret
.Lluossavin.BB45_6:
	add	x9, x0, x9
	mov	x10, xzr
	mov	x11, x2
	mov	x12, x9
	b	.Lluossavin.BB45_8
.Lluossavin.BB45_7:
	add	x13, x13, #12
	sub	x11, x11, x13
	add	x12, x12, x13
	add	x10, x13, x10
	cmp	x11, #11
	b.ls	.Lluossavin.BB45_21
.Lluossavin.BB45_8:
	ldrb	w13, [x12]
	cmp	w13, #82
	b.ne	.Lluossavin.BB45_21
	ldrb	w14, [x12, #1]
	cmp	w14, #88
	b.eq	.Lluossavin.BB45_11
	cmp	w14, #68
	b.ne	.Lluossavin.BB45_21
.Lluossavin.BB45_11:
	ldr	w13, [x12, #8]
	sub	x15, x11, #12
	rev	w13, w13
	cmp	x15, x13
	b.lo	.Lluossavin.BB45_21
	cmp	w14, #68
	b.ne	.Lluossavin.BB45_7
	ldur	w14, [x12, #2]
	mov	x15, x10
	mov	x18, x9
.Lluossavin.BB45_14:
	subs	x17, x15, #12
	b.lo	.Lluossavin.BB45_7
	mov	x16, x18
	ldrb	w18, [x18]
	cmp	w18, #82
	b.ne	.Lluossavin.BB45_7
	ldrb	w18, [x16, #1]
	cmp	w18, #88
	b.eq	.Lluossavin.BB45_18
	cmp	w18, #68
	b.ne	.Lluossavin.BB45_7
.Lluossavin.BB45_18:
	ldr	w0, [x16, #8]
	rev	w0, w0
	cmp	x17, x0
	b.lo	.Lluossavin.BB45_7
	add	x17, x0, #12
	cmp	w18, #68
	add	x18, x16, x17
	sub	x15, x15, x17
	b.ne	.Lluossavin.BB45_14
	ldur	w16, [x16, #2]
	cmp	w16, w14
	b.ne	.Lluossavin.BB45_14
.Lluossavin.BB45_21:
	cmp	x10, x2
	b.ne	.Lluossavin.BB45_31
	mov	x13, xzr
	b	.Lluossavin.BB45_24
.Lluossavin.BB45_23:
	sub	x2, x2, x11
	mov	x10, xzr
	add	x9, x9, x11
	cmp	x2, #11
	add	x13, x11, x13
	mov	w12, #22
	mov	x11, xzr
	b.ls	.Lluossavin.BB45_4
.Lluossavin.BB45_24:
	ldrb	w10, [x9]
	cmp	w10, #82
	b.ne	.Lluossavin.BB45_32
	ldrb	w10, [x9, #1]
	cmp	w10, #88
	b.eq	.Lluossavin.BB45_27
	cmp	w10, #68
	b.ne	.Lluossavin.BB45_32
.Lluossavin.BB45_27:
	ldr	w11, [x9, #8]
	sub	x12, x2, #12
	rev	w11, w11
	cmp	x12, x11
	b.lo	.Lluossavin.BB45_32
	cmp	w10, #68
	add	x11, x11, #12
	b.ne	.Lluossavin.BB45_23
	ldur	w10, [x9, #2]
	rev	w10, w10
	cmp	w10, w3
	b.ne	.Lluossavin.BB45_23
	stp	wzr, wzr, [x8]
	stp	x13, x11, [x8, #8]
	ret
.Lluossavin.BB45_31:
	mov	w12, #19
	stp	w12, wzr, [x8]
	stp	xzr, xzr, [x8, #8]
	ret
.Lluossavin.BB45_32:
	mov	w12, #22
	stp	w12, wzr, [x8]
	stp	xzr, xzr, [x8, #8]
	ret
.Lluossavin.func_end45:
	.size	luossavin_shelf_find, .Lluossavin.func_end45-luossavin_shelf_find

	.section	.text.luossavin_key_engine,"ax",@progbits
	.globl	luossavin_key_engine
	.p2align	2
	.type	luossavin_key_engine,@function
luossavin_key_engine:
	ldr	w9, [x0, #128]
	ldp	q0, q1, [x0, #96]
	ldp	q2, q3, [x0]
	cmp	w1, #3
	ldp	q4, q5, [x0, #32]
	ldrh	w10, [x0, #132]
	ldrb	w11, [x0, #134]
	ldp	q6, q7, [x0, #64]
	str	w9, [x8, #128]
	csel	w9, wzr, w1, hi
	stp	q2, q3, [x8]
	stp	q4, q5, [x8, #32]
	stp	q6, q7, [x8, #64]
	stp	q0, q1, [x8, #96]
	strh	w10, [x8, #132]
	strb	w11, [x8, #134]
	strb	w9, [x8, #135]
	ret
.Lluossavin.func_end46:
	.size	luossavin_key_engine, .Lluossavin.func_end46-luossavin_key_engine

	.section	.text.luossavin_plan_make,"ax",@progbits
	.globl	luossavin_plan_make
	.p2align	2
	.type	luossavin_plan_make,@function
luossavin_plan_make:
	str	x29, [sp, #-48]!
	stp	x30, x21, [sp, #16]
	stp	x20, x19, [sp, #32]
	sub	sp, sp, #1040
	sub	x9, x1, #65
	mov	x19, x8
	str	xzr, [sp]
	cmn	x9, #64
	b.hs	.Lluossavin.BB47_2
	mov	w20, #17
	b	.Lluossavin.BB47_4
.Lluossavin.BB47_2:
	mov	w8, #16777216
	cmp	x0, x8
	b.ls	.Lluossavin.BB47_5
	mov	w20, #5
.Lluossavin.BB47_4:
	add	x0, sp, #8
	mov	w1, wzr
	mov	w2, #1032
	bl	memset
	b	.Lluossavin.BB47_9
.Lluossavin.BB47_5:
	add	x8, x0, #15
	mov	x21, x0
	mov	w2, #1024
	lsr	x8, x8, #4
	udiv	w9, w8, w1
	msub	w8, w9, w1, w8
	mov	w1, wzr
	cmp	w8, #0
	cinc	x8, x9, ne
	lsl	x20, x8, #4
	add	x8, sp, #8
	add	x0, x8, #8
	bl	memset
	mov	x9, x21
	mov	x8, xzr
.Lluossavin.BB47_6:
	mul	x10, x8, x20
	subs	x11, x9, x10
	b.ls	.Lluossavin.BB47_8
	add	x12, sp, #8
	cmp	x11, x20
	add	x12, x12, x8, lsl #3
	add	x8, x8, #1
	csel	x11, x11, x20, lo
	cmp	x8, #64
	str	x10, [x12, #8]
	str	x11, [x12, #520]
	b.ne	.Lluossavin.BB47_6
.Lluossavin.BB47_8:
	mov	w20, wzr
	str	x8, [sp, #8]
.Lluossavin.BB47_9:
	add	x0, x19, #16
	add	x1, sp, #8
	mov	w2, #1032
	str	w20, [x19]
	stur	xzr, [x19, #4]
	str	wzr, [x19, #12]
	bl	memcpy
	add	sp, sp, #1040
	ldp	x20, x19, [sp, #32]
	ldp	x30, x21, [sp, #16]
	ldr	x29, [sp], #48
	ret
.Lluossavin.func_end47:
	.size	luossavin_plan_make, .Lluossavin.func_end47-luossavin_plan_make

	.section	.text.luossavin_decrypt,"ax",@progbits
	.globl	luossavin_decrypt
	.p2align	2
	.type	luossavin_decrypt,@function
luossavin_decrypt:
	sub	sp, sp, #224
	movi	v0.2d, #0000000000000000
	ldr	w14, [x1, #128]
	ldrh	w11, [x1, #132]
	ldrb	w13, [x1, #134]
	ldrb	w12, [x1, #135]
	cmp	w0, #4
	str	x30, [sp, #208]
	str	wzr, [sp, #168]
	stp	q0, q0, [sp, #176]
	b.hi	.Lluossavin.BB48_3
	ldr	x15, [sp, #224]
	ldp	q0, q1, [x1, #64]
	mov	w16, #4096
	mov	x9, x5
	mov	x10, x3
	cmp	x15, #0
	mov	w3, #1
	strh	w11, [sp, #162]
	csel	x17, x16, xzr, eq
	cmp	x6, #0
	stp	q0, q1, [sp, #96]
	ldp	q0, q1, [x1]
	csel	x18, x16, xzr, eq
	cmp	x4, #0
	ldp	q2, q3, [x1, #96]
	csel	x5, x16, xzr, eq
	cmp	x2, #0
	ldr	x11, [sp, #232]
	csel	x16, x16, xzr, eq
	cmp	w14, #13
	stp	q0, q1, [sp, #32]
	ldp	q0, q1, [x1, #32]
	cinc	w1, w3, eq
	cmp	w14, #0
	mov	x8, x7
	strb	w12, [sp, #165]
	csel	w14, wzr, w1, eq
	cmp	w13, #0
	add	x12, x15, x17
	cset	w13, ne
	strb	w0, [sp, #168]
	add	x0, sp, #176
	add	x1, sp, #32
	add	x3, x2, x16
	add	x5, x4, x5
	add	x7, x6, x18
	mov	w2, #1
	mov	x4, x10
	mov	x6, x9
	stp	q0, q1, [sp, #64]
	stp	q2, q3, [sp, #128]
	strb	w14, [sp, #160]
	strb	wzr, [sp, #161]
	strb	w13, [sp, #164]
	strh	wzr, [sp, #166]
	stp	x12, x11, [sp, #8]
	str	x8, [sp]
	bl	"cipher_mode::Sm4CipherMode::call"
	ldrb	w9, [sp, #176]
	ldrh	w8, [sp, #200]
	cbz	w9, .Lluossavin.BB48_4
	ldrb	w9, [sp, #177]
	ldrb	w10, [sp, #178]
	adrp	x11, .Lluossavin.switch.table.luossavin_edition_opens
	add	x11, x11, :lo12:.Lluossavin.switch.table.luossavin_edition_opens
	mov	x1, xzr
	cmp	x9, #7
	ldr	x9, [x11, x9, lsl #3]
	csel	w10, w10, wzr, eq
	and	w10, w10, #0xff
	orr	x9, x9, x10, lsl #32
	ldr	x30, [sp, #208]
	orr	x0, x9, x8, lsl #48
	add	sp, sp, #224
	ret
.Lluossavin.BB48_3:
	mov	w8, wzr
	mov	x1, xzr
	mov	w9, #7
	ldr	x30, [sp, #208]
	orr	x0, x9, x8, lsl #48
	add	sp, sp, #224
	ret
.Lluossavin.BB48_4:
	ldrb	w9, [sp, #192]
	ldr	x1, [sp, #184]
	and	w9, w9, #0x1
	lsl	x9, x9, #40
	ldr	x30, [sp, #208]
	orr	x0, x9, x8, lsl #48
	add	sp, sp, #224
	ret
.Lluossavin.func_end48:
	.size	luossavin_decrypt, .Lluossavin.func_end48-luossavin_decrypt

	.section	.rodata.cst16,"aM",@progbits,16
	.p2align	4, 0x0
.Lluossavin.CPI49_0:
	.word	4294967272
	.word	4294967280
	.word	4294967288
	.word	0
	.section	.text.luossavin_edition_open,"ax",@progbits
	.globl	luossavin_edition_open
	.p2align	2
	.type	luossavin_edition_open,@function
luossavin_edition_open:
	sub	sp, sp, #224
	ldp	q0, q1, [x0, #64]
	adrp	x11, .Lluossavin.CPI49_0
	dup	v2.4s, w1
	ldr	q4, [x11, :lo12:.Lluossavin.CPI49_0]
	lsr	w13, w2, #8
	mov	w12, #4096
	cmp	x3, #0
	ldr	w15, [x0, #128]
	stp	q0, q1, [sp, #96]
	ldp	q3, q0, [x0, #96]
	ushl	v1.4s, v2.4s, v4.4s
	strb	w13, [sp, #28]
	csel	x13, x12, xzr, eq
	cmp	x5, #0
	add	x11, sp, #176
	mov	w14, #1
	stp	q3, q0, [sp, #128]
	ldp	q2, q0, [x0]
	xtn	v1.4h, v1.4s
	csel	x16, x12, xzr, eq
	cmp	x7, #0
	mov	x9, x5
	mov	x10, x3
	mov	x8, x6
	stp	q2, q0, [sp, #32]
	ldp	q3, q0, [x0, #32]
	mov	x6, x4
	strb	w2, [sp, #29]
	add	x1, sp, #32
	add	x3, sp, #24
	add	x5, x10, x13
	mov	w2, #1
	stp	q3, q0, [sp, #64]
	movi	v0.2d, #0000000000000000
	mov	w4, #6
	str	x30, [sp, #208]
	strb	wzr, [sp, #161]
	strh	wzr, [sp, #166]
	stp	q0, q0, [x11]
	csel	x11, x12, xzr, eq
	cmp	w15, #13
	mov	w12, #4
	cinc	w14, w14, eq
	cmp	w15, #0
	uzp1	v1.8b, v1.8b, v0.8b
	ldrb	w15, [x0, #134]
	str	w12, [sp, #168]
	csel	w12, wzr, w14, eq
	ldrh	w14, [x0, #132]
	add	x11, x7, x11
	strb	w12, [sp, #160]
	cmp	w15, #0
	ldrb	w12, [x0, #135]
	strh	w14, [sp, #162]
	ldr	x14, [sp, #224]
	cset	w15, ne
	add	x0, sp, #176
	add	x7, x9, x16
	str	s1, [sp, #24]
	strb	w15, [sp, #164]
	strb	w12, [sp, #165]
	stp	x11, x14, [sp, #8]
	str	x8, [sp]
	bl	"cipher_mode::Sm4CipherMode::call"
	ldrb	w9, [sp, #176]
	ldrh	w8, [sp, #200]
	cbz	w9, .Lluossavin.BB49_2
	ldrb	w10, [sp, #177]
	ldrb	w11, [sp, #178]
	adrp	x12, .Lluossavin.switch.table.luossavin_edition_opens
	add	x12, x12, :lo12:.Lluossavin.switch.table.luossavin_edition_opens
	mov	x1, xzr
	cmp	x10, #7
	ldr	x10, [x12, x10, lsl #3]
	csel	w11, w11, wzr, eq
	and	w11, w11, #0xff
	lsl	x11, x11, #32
	orr	x8, x10, x8, lsl #48
	ldr	x30, [sp, #208]
	orr	x8, x8, xzr
	orr	x0, x8, x11
	add	sp, sp, #224
	ret
.Lluossavin.BB49_2:
	ldrb	w9, [sp, #192]
	ldr	x1, [sp, #184]
	and	w9, w9, #0x1
	lsl	x9, x9, #40
	orr	x8, xzr, x8, lsl #48
	ldr	x30, [sp, #208]
	orr	x8, x8, x9
	orr	x0, x8, xzr
	add	sp, sp, #224
	ret
.Lluossavin.func_end49:
	.size	luossavin_edition_open, .Lluossavin.func_end49-luossavin_edition_open

	.section	.rodata.cst16,"aM",@progbits,16
	.p2align	4, 0x0
.Lluossavin.CPI50_0:
	.word	4294967272
	.word	4294967280
	.word	4294967288
	.word	0
	.section	.text.luossavin_edition_seal,"ax",@progbits
	.globl	luossavin_edition_seal
	.p2align	2
	.type	luossavin_edition_seal,@function
luossavin_edition_seal:
	sub	sp, sp, #224
	ldp	q0, q1, [x0, #64]
	adrp	x11, .Lluossavin.CPI50_0
	dup	v2.4s, w1
	ldr	q4, [x11, :lo12:.Lluossavin.CPI50_0]
	lsr	w13, w2, #8
	mov	w12, #4096
	cmp	x3, #0
	ldr	w15, [x0, #128]
	stp	q0, q1, [sp, #96]
	ldp	q3, q0, [x0, #96]
	ushl	v1.4s, v2.4s, v4.4s
	strb	w13, [sp, #28]
	csel	x13, x12, xzr, eq
	cmp	x5, #0
	add	x11, sp, #176
	mov	w14, #1
	stp	q3, q0, [sp, #128]
	ldp	q2, q0, [x0]
	xtn	v1.4h, v1.4s
	csel	x16, x12, xzr, eq
	cmp	x7, #0
	mov	x9, x5
	mov	x10, x3
	mov	x8, x6
	stp	q2, q0, [sp, #32]
	ldp	q3, q0, [x0, #32]
	mov	x6, x4
	strb	w2, [sp, #29]
	mov	w2, wzr
	add	x1, sp, #32
	add	x3, sp, #24
	add	x5, x10, x13
	stp	q3, q0, [sp, #64]
	movi	v0.2d, #0000000000000000
	mov	w4, #6
	str	x30, [sp, #208]
	strb	wzr, [sp, #161]
	strh	wzr, [sp, #166]
	stp	q0, q0, [x11]
	csel	x11, x12, xzr, eq
	cmp	w15, #13
	mov	w12, #4
	cinc	w14, w14, eq
	cmp	w15, #0
	uzp1	v1.8b, v1.8b, v0.8b
	ldrb	w15, [x0, #134]
	str	w12, [sp, #168]
	csel	w12, wzr, w14, eq
	ldrh	w14, [x0, #132]
	add	x11, x7, x11
	strb	w12, [sp, #160]
	cmp	w15, #0
	ldrb	w12, [x0, #135]
	strh	w14, [sp, #162]
	ldr	x14, [sp, #224]
	cset	w15, ne
	add	x0, sp, #176
	add	x7, x9, x16
	str	s1, [sp, #24]
	strb	w15, [sp, #164]
	strb	w12, [sp, #165]
	stp	x11, x14, [sp, #8]
	str	x8, [sp]
	bl	"cipher_mode::Sm4CipherMode::call"
	ldrb	w9, [sp, #176]
	ldrh	w8, [sp, #200]
	cbz	w9, .Lluossavin.BB50_2
	ldrb	w10, [sp, #177]
	ldrb	w11, [sp, #178]
	adrp	x12, .Lluossavin.switch.table.luossavin_edition_opens
	add	x12, x12, :lo12:.Lluossavin.switch.table.luossavin_edition_opens
	mov	x1, xzr
	cmp	x10, #7
	ldr	x10, [x12, x10, lsl #3]
	csel	w11, w11, wzr, eq
	and	w11, w11, #0xff
	lsl	x11, x11, #32
	orr	x8, x10, x8, lsl #48
	ldr	x30, [sp, #208]
	orr	x8, x8, xzr
	orr	x0, x8, x11
	add	sp, sp, #224
	ret
.Lluossavin.BB50_2:
	ldrb	w9, [sp, #192]
	ldr	x1, [sp, #184]
	and	w9, w9, #0x1
	lsl	x9, x9, #40
	orr	x8, xzr, x8, lsl #48
	ldr	x30, [sp, #208]
	orr	x8, x8, x9
	orr	x0, x8, xzr
	add	sp, sp, #224
	ret
.Lluossavin.func_end50:
	.size	luossavin_edition_seal, .Lluossavin.func_end50-luossavin_edition_seal

	.section	.text.luossavin_encrypt,"ax",@progbits
	.globl	luossavin_encrypt
	.p2align	2
	.type	luossavin_encrypt,@function
luossavin_encrypt:
	sub	sp, sp, #224
	movi	v0.2d, #0000000000000000
	ldr	w14, [x1, #128]
	ldrh	w11, [x1, #132]
	ldrb	w13, [x1, #134]
	ldrb	w12, [x1, #135]
	cmp	w0, #4
	str	x30, [sp, #208]
	str	wzr, [sp, #168]
	stp	q0, q0, [sp, #176]
	b.hi	.Lluossavin.BB51_3
	ldr	x15, [sp, #224]
	ldp	q0, q1, [x1, #64]
	mov	w16, #4096
	mov	x9, x5
	mov	x10, x3
	cmp	x15, #0
	mov	w3, #1
	strh	w11, [sp, #162]
	csel	x17, x16, xzr, eq
	cmp	x6, #0
	stp	q0, q1, [sp, #96]
	ldp	q0, q1, [x1]
	csel	x18, x16, xzr, eq
	cmp	x4, #0
	ldp	q2, q3, [x1, #96]
	csel	x5, x16, xzr, eq
	cmp	x2, #0
	ldr	x11, [sp, #232]
	csel	x16, x16, xzr, eq
	cmp	w14, #13
	stp	q0, q1, [sp, #32]
	ldp	q0, q1, [x1, #32]
	cinc	w1, w3, eq
	cmp	w14, #0
	mov	x8, x7
	strb	w12, [sp, #165]
	csel	w14, wzr, w1, eq
	cmp	w13, #0
	add	x12, x15, x17
	cset	w13, ne
	strb	w0, [sp, #168]
	add	x0, sp, #176
	strb	w13, [sp, #164]
	mov	x13, x2
	mov	w2, wzr
	add	x1, sp, #32
	add	x3, x13, x16
	add	x5, x4, x5
	add	x7, x6, x18
	mov	x4, x10
	mov	x6, x9
	stp	q0, q1, [sp, #64]
	stp	q2, q3, [sp, #128]
	strb	w14, [sp, #160]
	strb	wzr, [sp, #161]
	strh	wzr, [sp, #166]
	stp	x12, x11, [sp, #8]
	str	x8, [sp]
	bl	"cipher_mode::Sm4CipherMode::call"
	ldrb	w9, [sp, #176]
	ldrh	w8, [sp, #200]
	cbz	w9, .Lluossavin.BB51_4
	ldrb	w9, [sp, #177]
	ldrb	w10, [sp, #178]
	adrp	x11, .Lluossavin.switch.table.luossavin_edition_opens
	add	x11, x11, :lo12:.Lluossavin.switch.table.luossavin_edition_opens
	mov	x1, xzr
	cmp	x9, #7
	ldr	x9, [x11, x9, lsl #3]
	csel	w10, w10, wzr, eq
	and	w10, w10, #0xff
	orr	x9, x9, x10, lsl #32
	ldr	x30, [sp, #208]
	orr	x0, x9, x8, lsl #48
	add	sp, sp, #224
	ret
.Lluossavin.BB51_3:
	mov	w8, wzr
	mov	x1, xzr
	mov	w9, #7
	ldr	x30, [sp, #208]
	orr	x0, x9, x8, lsl #48
	add	sp, sp, #224
	ret
.Lluossavin.BB51_4:
	ldrb	w9, [sp, #192]
	ldr	x1, [sp, #184]
	and	w9, w9, #0x1
	lsl	x9, x9, #40
	ldr	x30, [sp, #208]
	orr	x0, x9, x8, lsl #48
	add	sp, sp, #224
	ret
.Lluossavin.func_end51:
	.size	luossavin_encrypt, .Lluossavin.func_end51-luossavin_encrypt

	.section	.rodata.cst16,"aM",@progbits,16
	.p2align	4, 0x0
.Lluossavin.CPI52_0:
	.word	4294967272
	.word	4294967280
	.word	4294967288
	.word	0
	.section	.text.luossavin_edition_opens,"ax",@progbits
	.globl	luossavin_edition_opens
	.p2align	2
	.type	luossavin_edition_opens,@function
luossavin_edition_opens:
	sub	sp, sp, #240
	ldp	q0, q1, [x0, #64]
	adrp	x10, .Lluossavin.CPI52_0
	dup	v2.4s, w1
	ldr	q3, [x10, :lo12:.Lluossavin.CPI52_0]
	mov	w10, #4096
	mov	w11, #6
	cmp	x3, #0
	ldr	w13, [x0, #128]
	stp	q0, q1, [sp, #80]
	ldp	q0, q1, [x0, #96]
	ushl	v2.4s, v2.4s, v3.4s
	lsr	w14, w2, #8
	str	x11, [sp, #216]
	csel	x11, x10, xzr, eq
	cmp	x5, #0
	mov	w12, #1
	stp	q0, q1, [sp, #112]
	ldp	q0, q1, [x0]
	csel	x10, x10, xzr, eq
	cmp	w13, #13
	strb	w14, [sp, #236]
	cinc	w14, w12, eq
	cmp	w13, #0
	ldrb	w13, [x0, #134]
	stp	q0, q1, [sp, #16]
	xtn	v1.4h, v2.4s
	movi	v4.2d, #0000000000000000
	ldp	q3, q0, [x0, #32]
	csel	w14, wzr, w14, eq
	cmp	w13, #0
	ldrb	w13, [x0, #135]
	mov	x8, x6
	mov	x9, x4
	ldrh	w15, [x0, #132]
	strb	w2, [sp, #237]
	uzp1	v1.8b, v1.8b, v0.8b
	strb	w14, [sp, #144]
	cset	w14, ne
	strb	w13, [sp, #149]
	add	x13, sp, #216
	add	x0, sp, #160
	add	x1, sp, #16
	add	x2, x3, x11
	add	x4, x5, x10
	add	x6, sp, #232
	mov	x3, x9
	mov	x5, x8
	mov	w7, #6
	str	x30, [sp, #224]
	stp	q3, q0, [sp, #48]
	stp	q4, q4, [sp, #160]
	str	q4, [sp, #192]
	str	s1, [sp, #232]
	strb	wzr, [sp, #145]
	strh	w15, [sp, #146]
	strb	w14, [sp, #148]
	strh	wzr, [sp, #150]
	stp	x13, x12, [sp]
	bl	"editions::which"
	ldrb	w9, [sp, #160]
	ldrh	w8, [sp, #200]
	cbz	w9, .Lluossavin.BB52_3
	ldrb	w9, [sp, #161]
	cbz	w9, .Lluossavin.BB52_4
	ldrb	w9, [sp, #162]
	ldrb	w10, [sp, #163]
	adrp	x11, .Lluossavin.switch.table.luossavin_edition_opens
	add	x11, x11, :lo12:.Lluossavin.switch.table.luossavin_edition_opens
	cmp	w9, #7
	csel	w12, w10, wzr, eq
	ldr	x10, [x11, x9, lsl #3]
	lsl	x9, x12, #32
	orr	x8, x10, x8, lsl #48
	ldr	x30, [sp, #224]
	mov	x1, xzr
	orr	x0, x8, x9
	add	sp, sp, #240
	ret
.Lluossavin.BB52_3:
	ldrb	w10, [sp, #168]
	cmp	w10, #1
	mov	w10, #4
	csel	x10, xzr, x10, eq
	orr	x8, x10, x8, lsl #48
	ldr	x30, [sp, #224]
	mov	x1, xzr
	orr	x0, x8, xzr
	add	sp, sp, #240
	ret
.Lluossavin.BB52_4:
	mov	w10, #16
	orr	x8, x10, x8, lsl #48
	ldr	x30, [sp, #224]
	mov	x1, xzr
	orr	x0, x8, xzr
	add	sp, sp, #240
	ret
.Lluossavin.func_end52:
	.size	luossavin_edition_opens, .Lluossavin.func_end52-luossavin_edition_opens

	.section	.text.luossavin_which,"ax",@progbits
	.globl	luossavin_which
	.p2align	2
	.type	luossavin_which,@function
luossavin_which:
	sub	sp, sp, #224
	ldp	q0, q1, [x0, #64]
	cmp	x1, #0
	stp	x30, x19, [sp, #208]
	mov	x19, x8
	mov	w8, #4096
	csel	x13, x8, xzr, eq
	cmp	x3, #0
	ldr	w16, [x0, #128]
	stp	q0, q1, [sp, #80]
	ldp	q0, q1, [x0, #96]
	csel	x14, x8, xzr, eq
	cmp	x5, #0
	mov	w17, #1
	csel	x15, x8, xzr, eq
	cmp	x7, #0
	movi	v2.2d, #0000000000000000
	csel	x8, x8, xzr, eq
	cmp	w16, #13
	stp	q0, q1, [sp, #112]
	ldp	q0, q1, [x0]
	cinc	w17, w17, eq
	cmp	w16, #0
	ldrb	w16, [x0, #134]
	mov	x12, x6
	csel	w17, wzr, w17, eq
	mov	x9, x4
	mov	x10, x2
	cmp	w16, #0
	stp	q0, q1, [sp, #16]
	mov	x11, x1
	ldp	q0, q1, [x0, #32]
	strb	w17, [sp, #144]
	cset	w17, ne
	ldrh	w18, [x0, #132]
	ldrb	w16, [x0, #135]
	strb	w17, [sp, #148]
	ldr	x17, [sp, #224]
	add	x8, x7, x8
	add	x0, sp, #160
	add	x1, sp, #16
	add	x2, x11, x13
	add	x4, x3, x14
	add	x6, x5, x15
	mov	x3, x10
	mov	x5, x9
	mov	x7, x12
	stp	q0, q1, [sp, #48]
	stp	q2, q2, [sp, #160]
	str	q2, [sp, #192]
	strb	wzr, [sp, #145]
	strh	w18, [sp, #146]
	strb	w16, [sp, #149]
	strh	wzr, [sp, #150]
	stp	x8, x17, [sp]
	bl	"editions::which"
	ldrb	w9, [sp, #160]
	ldrh	w8, [sp, #200]
	cbz	w9, .Lluossavin.BB53_3
	ldrb	w9, [sp, #161]
	cbz	w9, .Lluossavin.BB53_5
	ldrb	w11, [sp, #162]
	ldrb	w13, [sp, #163]
	adrp	x12, .Lluossavin.switch.table.luossavin_which
	add	x12, x12, :lo12:.Lluossavin.switch.table.luossavin_which
	mov	w9, wzr
	mov	w10, wzr
	ldr	w12, [x12, x11, lsl #2]
	cmp	w11, #7
	movi	v0.2d, #0000000000000000
	csel	w11, w13, wzr, eq
	b	.Lluossavin.BB53_8
.Lluossavin.BB53_3:
	ldrb	w9, [sp, #168]
	cmp	w9, #1
	b.ne	.Lluossavin.BB53_6
	ldr	w10, [sp, #176]
	ldur	q0, [sp, #184]
	mov	w11, wzr
	mov	w12, wzr
	b	.Lluossavin.BB53_8
.Lluossavin.BB53_5:
	mov	w11, wzr
	mov	w10, wzr
	mov	w12, #16
	b	.Lluossavin.BB53_7
.Lluossavin.BB53_6:
	mov	w11, wzr
	mov	w12, wzr
	mov	w9, wzr
	mov	w10, wzr
.Lluossavin.BB53_7:
	movi	v0.2d, #0000000000000000
.Lluossavin.BB53_8:
	str	w12, [x19]
	strb	w11, [x19, #4]
	strb	wzr, [x19, #5]
	strh	w8, [x19, #6]
	str	xzr, [x19, #8]
	stp	w9, w10, [x19, #16]
	stur	q0, [x19, #24]
	ldp	x30, x19, [sp, #208]
	add	sp, sp, #224
	ret
.Lluossavin.func_end53:
	.size	luossavin_which, .Lluossavin.func_end53-luossavin_which

	.section	.text.luossavin_shelf_collect,"ax",@progbits
	.globl	luossavin_shelf_collect
	.p2align	2
	.type	luossavin_shelf_collect,@function
luossavin_shelf_collect:
	mov	w9, #4096
	cmp	x0, #0
	mov	x8, x1
	csel	x11, x9, xzr, eq
	cmp	x1, #16, lsl #12
	mov	x1, x2
	b.hi	.Lluossavin.BB54_22
	cmp	x8, x1
	b.lo	.Lluossavin.BB54_22
	cmp	x1, #12
	b.hs	.Lluossavin.BB54_5
	cbnz	x1, .Lluossavin.BB54_22
	mov	x0, xzr
	ret
.Lluossavin.BB54_5:
	mov	x9, xzr
	add	x8, x0, x11
	mov	x10, x1
	add	x12, x0, x11
	b	.Lluossavin.BB54_7
.Lluossavin.BB54_6:
	add	x13, x13, #12
	sub	x10, x10, x13
	add	x12, x12, x13
	add	x9, x13, x9
	cmp	x10, #11
	b.ls	.Lluossavin.BB54_20
.Lluossavin.BB54_7:
	ldrb	w13, [x12]
	cmp	w13, #82
	b.ne	.Lluossavin.BB54_20
	ldrb	w14, [x12, #1]
	cmp	w14, #88
	b.eq	.Lluossavin.BB54_10
	cmp	w14, #68
	b.ne	.Lluossavin.BB54_20
.Lluossavin.BB54_10:
	ldr	w13, [x12, #8]
	sub	x15, x10, #12
	rev	w13, w13
	cmp	x15, x13
	b.lo	.Lluossavin.BB54_20
	cmp	w14, #68
	b.ne	.Lluossavin.BB54_6
	ldur	w14, [x12, #2]
	mov	x15, x9
	add	x18, x0, x11
.Lluossavin.BB54_13:
	subs	x17, x15, #12
	b.lo	.Lluossavin.BB54_6
	mov	x16, x18
	ldrb	w18, [x18]
	cmp	w18, #82
	b.ne	.Lluossavin.BB54_6
	ldrb	w18, [x16, #1]
	cmp	w18, #88
	b.eq	.Lluossavin.BB54_17
	cmp	w18, #68
	b.ne	.Lluossavin.BB54_6
.Lluossavin.BB54_17:
	ldr	w2, [x16, #8]
	rev	w2, w2
	cmp	x17, x2
	b.lo	.Lluossavin.BB54_6
	add	x17, x2, #12
	cmp	w18, #68
	add	x18, x16, x17
	sub	x15, x15, x17
	b.ne	.Lluossavin.BB54_13
	ldur	w16, [x16, #2]
	cmp	w16, w14
	b.ne	.Lluossavin.BB54_13
.Lluossavin.BB54_20:
	cmp	x9, x1
	b.ne	.Lluossavin.BB54_22
	add	x11, x0, x11
	mov	x9, xzr
	mov	x10, xzr
	add	x12, x11, #16
	sub	x13, x11, #4
	add	x14, x11, #4
	sub	x15, x11, #1
	mov	x16, x1
	b	.Lluossavin.BB54_25
.Lluossavin.BB54_22:
	mov	w0, #19
	ret
.Lluossavin.BB54_23:
	add	x9, x16, x9
.Lluossavin.BB54_24:
	add	x10, x16, x10
	sub	x16, x1, x10
	cmp	x16, #12
	b.lo	.Lluossavin.BB54_57
.Lluossavin.BB54_25:
	add	x17, x8, x10
	ldrb	w18, [x17]
	cmp	w18, #82
	b.ne	.Lluossavin.BB54_57
	ldrb	w18, [x17, #1]
	cmp	w18, #88
	b.eq	.Lluossavin.BB54_28
	cmp	w18, #68
	b.ne	.Lluossavin.BB54_57
.Lluossavin.BB54_28:
	ldr	w17, [x17, #8]
	sub	x16, x16, #12
	rev	w17, w17
	cmp	x16, x17
	b.lo	.Lluossavin.BB54_57
	cmp	w18, #68
	add	x16, x17, #12
	b.ne	.Lluossavin.BB54_24
	subs	x18, x9, x10
	b.ls	.Lluossavin.BB54_34
	sub	x18, x10, x9
	add	x0, x17, #12
	cmp	x18, #32
	b.lo	.Lluossavin.BB54_45
	cmp	w17, #20
	b.hs	.Lluossavin.BB54_38
	mov	x18, xzr
	b	.Lluossavin.BB54_42
.Lluossavin.BB54_34:
	cmp	x18, #32
	b.hs	.Lluossavin.BB54_36
	mov	x18, xzr
	b	.Lluossavin.BB54_54
.Lluossavin.BB54_36:
	cmp	w17, #20
	b.hs	.Lluossavin.BB54_47
	mov	x18, xzr
	b	.Lluossavin.BB54_51
.Lluossavin.BB54_38:
	add	x2, x10, x17
	add	x3, x9, x17
	and	x0, x16, #0x18
	and	x18, x16, #0x1ffffffe0
	add	x2, x13, x2
	add	x3, x13, x3
	and	x4, x16, #0x1ffffffe0
.Lluossavin.BB54_39:
	ldp	q1, q0, [x2, #-16]
	sub	x4, x4, #32
	sub	x2, x2, #32
	stp	q1, q0, [x3, #-16]
	sub	x3, x3, #32
	cbnz	x4, .Lluossavin.BB54_39
	cmp	x16, x18
	b.eq	.Lluossavin.BB54_23
	cbz	x0, .Lluossavin.BB54_56
.Lluossavin.BB54_42:
	add	x3, x10, x17
	add	x17, x9, x17
	and	x2, x16, #0x1fffffff8
	sub	x3, x3, x18
	sub	x4, x17, x18
	and	x0, x16, #0x7
	add	x17, x14, x3
	add	x3, x14, x4
	sub	x18, x18, x2
.Lluossavin.BB54_43:
	ldr	d0, [x17], #-8
	adds	x18, x18, #8
	str	d0, [x3], #-8
	b.ne	.Lluossavin.BB54_43
	cmp	x16, x2
	b.eq	.Lluossavin.BB54_23
.Lluossavin.BB54_45:
	add	x18, x0, x9
	add	x2, x0, x10
	neg	x17, x0
	add	x18, x15, x18
	add	x0, x15, x2
.Lluossavin.BB54_46:
	ldrb	w2, [x0], #-1
	adds	x17, x17, #1
	strb	w2, [x18], #-1
	b.lo	.Lluossavin.BB54_46
	b	.Lluossavin.BB54_23
.Lluossavin.BB54_47:
	and	x0, x16, #0x18
	and	x18, x16, #0x1ffffffe0
	add	x2, x12, x10
	add	x3, x12, x9
	and	x4, x16, #0x1ffffffe0
.Lluossavin.BB54_48:
	ldp	q0, q1, [x2, #-16]
	subs	x4, x4, #32
	add	x2, x2, #32
	stp	q0, q1, [x3, #-16]
	add	x3, x3, #32
	b.ne	.Lluossavin.BB54_48
	cmp	x16, x18
	b.eq	.Lluossavin.BB54_23
	cbz	x0, .Lluossavin.BB54_54
.Lluossavin.BB54_51:
	mov	x0, x18
	and	x18, x16, #0x1fffffff8
	add	x2, x9, x0
	add	x3, x0, x10
	sub	x0, x0, x18
	add	x2, x11, x2
	add	x3, x11, x3
.Lluossavin.BB54_52:
	ldr	d0, [x3], #8
	adds	x0, x0, #8
	str	d0, [x2], #8
	b.ne	.Lluossavin.BB54_52
	cmp	x16, x18
	b.eq	.Lluossavin.BB54_23
.Lluossavin.BB54_54:
	sub	x17, x17, x18
	add	x0, x18, x9
	add	x2, x18, x10
	add	x17, x17, #12
	add	x18, x11, x0
	add	x0, x11, x2
.Lluossavin.BB54_55:
	ldrb	w2, [x0], #1
	subs	x17, x17, #1
	strb	w2, [x18], #1
	b.ne	.Lluossavin.BB54_55
	b	.Lluossavin.BB54_23
.Lluossavin.BB54_56:
	and	x0, x16, #0x1f
	b	.Lluossavin.BB54_45
.Lluossavin.BB54_57:
	mov	x0, xzr
	mov	x1, x9
	ret
.Lluossavin.func_end54:
	.size	luossavin_shelf_collect, .Lluossavin.func_end54-luossavin_shelf_collect

	.section	.text.luossavin_shelf_put,"ax",@progbits
	.globl	luossavin_shelf_put
	.p2align	2
	.type	luossavin_shelf_put,@function
luossavin_shelf_put:
	stp	x30, x23, [sp, #-48]!
	cmp	x0, #0
	mov	w9, #4096
	mov	x8, x1
	csel	x10, x9, xzr, eq
	cmp	x5, #0
	mov	x1, x2
	csel	x11, x9, xzr, eq
	cmp	x8, #16, lsl #12
	mov	w9, #19
	stp	x22, x21, [sp, #16]
	stp	x20, x19, [sp, #32]
	b.hi	.Lluossavin.BB55_5
	cmp	x8, x1
	b.lo	.Lluossavin.BB55_5
	cmp	x1, #12
	and	w12, w4, #0xffff
	add	x9, x0, x10
	b.hs	.Lluossavin.BB55_6
	cbz	x1, .Lluossavin.BB55_34
	mov	w9, #19
.Lluossavin.BB55_5:
	ldp	x20, x19, [sp, #32]
	mov	x0, x9
	ldp	x22, x21, [sp, #16]
	ldp	x30, x23, [sp], #48
	ret
.Lluossavin.BB55_6:
	mov	x13, xzr
	mov	x14, x1
	add	x15, x0, x10
	b	.Lluossavin.BB55_8
.Lluossavin.BB55_7:
	add	x16, x16, #12
	sub	x14, x14, x16
	add	x15, x15, x16
	add	x13, x16, x13
	cmp	x14, #11
	b.ls	.Lluossavin.BB55_21
.Lluossavin.BB55_8:
	ldrb	w16, [x15]
	cmp	w16, #82
	b.ne	.Lluossavin.BB55_21
	ldrb	w17, [x15, #1]
	cmp	w17, #88
	b.eq	.Lluossavin.BB55_11
	cmp	w17, #68
	b.ne	.Lluossavin.BB55_21
.Lluossavin.BB55_11:
	ldr	w16, [x15, #8]
	sub	x18, x14, #12
	rev	w16, w16
	cmp	x18, x16
	b.lo	.Lluossavin.BB55_21
	cmp	w17, #68
	b.ne	.Lluossavin.BB55_7
	ldur	w17, [x15, #2]
	mov	x18, x13
	add	x7, x0, x10
.Lluossavin.BB55_14:
	subs	x4, x18, #12
	b.lo	.Lluossavin.BB55_7
	mov	x2, x7
	ldrb	w7, [x7]
	cmp	w7, #82
	b.ne	.Lluossavin.BB55_7
	ldrb	w7, [x2, #1]
	cmp	w7, #88
	b.eq	.Lluossavin.BB55_18
	cmp	w7, #68
	b.ne	.Lluossavin.BB55_7
.Lluossavin.BB55_18:
	ldr	w19, [x2, #8]
	rev	w19, w19
	cmp	x4, x19
	b.lo	.Lluossavin.BB55_7
	add	x4, x19, #12
	cmp	w7, #68
	add	x7, x2, x4
	sub	x18, x18, x4
	b.ne	.Lluossavin.BB55_14
	ldur	w2, [x2, #2]
	cmp	w2, w17
	b.ne	.Lluossavin.BB55_14
.Lluossavin.BB55_21:
	cmp	x13, x1
	b.ne	.Lluossavin.BB55_31
	mov	x13, xzr
	mov	x14, x1
	add	x15, x0, x10
	b	.Lluossavin.BB55_24
.Lluossavin.BB55_23:
	cmp	w3, w18
	mov	w18, #68
	add	x17, x17, #12
	ccmp	w16, w18, #0, ne
	sub	x14, x14, x17
	add	x15, x15, x17
	csel	x16, x17, xzr, eq
	cmp	x14, #11
	add	x13, x16, x13
	b.ls	.Lluossavin.BB55_32
.Lluossavin.BB55_24:
	ldrb	w16, [x15]
	cmp	w16, #82
	b.ne	.Lluossavin.BB55_32
	ldrb	w16, [x15, #1]
	cmp	w16, #88
	b.eq	.Lluossavin.BB55_27
	cmp	w16, #68
	b.ne	.Lluossavin.BB55_32
.Lluossavin.BB55_27:
	ldr	w17, [x15, #8]
	sub	x18, x14, #12
	rev	w17, w17
	cmp	x18, x17
	b.lo	.Lluossavin.BB55_32
	ldur	w18, [x15, #2]
	rev	w18, w18
	cmp	w18, w3
	b.ne	.Lluossavin.BB55_23
	ldrh	w2, [x15, #6]
	rev16	w2, w2
	cmp	w12, w2
	b.hi	.Lluossavin.BB55_23
	mov	w9, #20
	ldp	x20, x19, [sp, #32]
	mov	x0, x9
	ldp	x22, x21, [sp, #16]
	ldp	x30, x23, [sp], #48
	ret
.Lluossavin.BB55_31:
	mov	w9, #19
	ldp	x20, x19, [sp, #32]
	mov	x0, x9
	ldp	x22, x21, [sp, #16]
	ldp	x30, x23, [sp], #48
	ret
.Lluossavin.BB55_32:
	adds	x13, x13, #12
	csinv	x13, x13, xzr, lo
	adds	x13, x6, x13
	csinv	x13, x13, xzr, lo
	cmp	x8, x13
	b.hs	.Lluossavin.BB55_35
.Lluossavin.BB55_33:
	mov	w9, #21
	ldp	x20, x19, [sp, #32]
	mov	x0, x9
	ldp	x22, x21, [sp, #16]
	ldp	x30, x23, [sp], #48
	ret
.Lluossavin.BB55_34:
	mov	w13, #12
	adds	x13, x6, x13
	csinv	x13, x13, xzr, lo
	cmp	x8, x13
	b.lo	.Lluossavin.BB55_33
.Lluossavin.BB55_35:
	adds	x13, x1, #12
	csinv	x13, x13, xzr, lo
	adds	x13, x6, x13
	csinv	x13, x13, xzr, lo
	cmp	x8, x13
	add	x8, x5, x11
	b.hs	.Lluossavin.BB55_38
	cmp	x1, #12
	b.hs	.Lluossavin.BB55_48
	mov	x19, xzr
	b	.Lluossavin.BB55_40
.Lluossavin.BB55_38:
	cmp	x1, #12
	b.hs	.Lluossavin.BB55_84
.Lluossavin.BB55_39:
	mov	x19, x1
.Lluossavin.BB55_40:
	lsr	w13, w3, #8
	rev	x12, x12
	and	w14, w3, #0xff
	lsl	w15, w3, #8
	ubfx	w16, w3, #8, #8
	orr	x12, x12, x14, lsl #40
	add	x14, x9, x19
	and	w13, w13, #0xff0000
	and	w9, w15, #0xff000000
	mov	w15, #17490
	orr	x12, x12, x16, lsl #32
	orr	x13, x9, x13
	add	x9, x14, #12
	orr	x13, x13, x15
	sub	x15, x9, x8
	orr	x12, x12, x13
	rev	w13, w6
	cmp	x15, x6
	str	x12, [x14]
	str	w13, [x14, #8]
	b.hs	.Lluossavin.BB55_46
	cmp	x6, #8
	b.lo	.Lluossavin.BB55_43
	add	x8, x10, x19
	add	x9, x11, x5
	add	x8, x8, x0
	sub	x8, x8, x9
	add	x8, x8, #12
	cmp	x8, #32
	b.hs	.Lluossavin.BB55_93
.Lluossavin.BB55_43:
	mov	x8, xzr
.Lluossavin.BB55_44:
	add	x9, x10, x19
	add	x10, x8, x0
	add	x11, x11, x8
	add	x10, x9, x10
	sub	x8, x6, x8
	add	x9, x5, x11
	add	x10, x10, #12
.Lluossavin.BB55_45:
	ldrb	w11, [x9], #1
	subs	x8, x8, #1
	strb	w11, [x10], #1
	b.ne	.Lluossavin.BB55_45
	b	.Lluossavin.BB55_47
.Lluossavin.BB55_46:
	mov	x0, x9
	mov	x1, x8
	mov	x2, x6
	mov	x20, x6
	bl	memmove
	mov	x6, x20
.Lluossavin.BB55_47:
	add	x8, x6, x19
	mov	x9, xzr
	add	x1, x8, #12
	ldp	x20, x19, [sp, #32]
	mov	x0, x9
	ldp	x22, x21, [sp, #16]
	ldp	x30, x23, [sp], #48
	ret
.Lluossavin.BB55_48:
	add	x14, x0, x10
	mov	x19, xzr
	mov	x13, xzr
	add	x15, x14, #16
	sub	x16, x14, #4
	add	x17, x14, #4
	sub	x18, x14, #1
	mov	x2, x1
	b	.Lluossavin.BB55_51
.Lluossavin.BB55_49:
	add	x19, x2, x19
.Lluossavin.BB55_50:
	add	x13, x2, x13
	sub	x2, x1, x13
	cmp	x2, #12
	b.lo	.Lluossavin.BB55_40
.Lluossavin.BB55_51:
	add	x7, x9, x13
	ldrb	w4, [x7]
	cmp	w4, #82
	b.ne	.Lluossavin.BB55_40
	ldrb	w20, [x7, #1]
	cmp	w20, #88
	b.eq	.Lluossavin.BB55_54
	cmp	w20, #68
	b.ne	.Lluossavin.BB55_40
.Lluossavin.BB55_54:
	ldr	w4, [x7, #8]
	sub	x2, x2, #12
	rev	w4, w4
	cmp	x2, x4
	b.lo	.Lluossavin.BB55_40
	cmp	w20, #68
	add	x2, x4, #12
	b.ne	.Lluossavin.BB55_50
	ldur	w7, [x7, #2]
	rev	w7, w7
	cmp	w3, w7
	b.eq	.Lluossavin.BB55_50
	subs	x7, x19, x13
	b.ls	.Lluossavin.BB55_61
	sub	x7, x13, x19
	add	x20, x4, #12
	cmp	x7, #32
	b.lo	.Lluossavin.BB55_72
	cmp	w4, #20
	b.hs	.Lluossavin.BB55_65
	mov	x7, xzr
	b	.Lluossavin.BB55_69
.Lluossavin.BB55_61:
	cmp	x7, #32
	b.hs	.Lluossavin.BB55_63
	mov	x7, xzr
	b	.Lluossavin.BB55_81
.Lluossavin.BB55_63:
	cmp	w4, #20
	b.hs	.Lluossavin.BB55_74
	mov	x7, xzr
	b	.Lluossavin.BB55_78
.Lluossavin.BB55_65:
	add	x21, x13, x4
	add	x22, x19, x4
	and	x20, x2, #0x18
	and	x7, x2, #0x1ffffffe0
	add	x21, x16, x21
	add	x22, x16, x22
	and	x23, x2, #0x1ffffffe0
.Lluossavin.BB55_66:
	ldp	q1, q0, [x21, #-16]
	sub	x23, x23, #32
	sub	x21, x21, #32
	stp	q1, q0, [x22, #-16]
	sub	x22, x22, #32
	cbnz	x23, .Lluossavin.BB55_66
	cmp	x2, x7
	b.eq	.Lluossavin.BB55_49
	cbz	x20, .Lluossavin.BB55_83
.Lluossavin.BB55_69:
	add	x22, x13, x4
	add	x4, x19, x4
	and	x21, x2, #0x1fffffff8
	sub	x22, x22, x7
	sub	x23, x4, x7
	and	x20, x2, #0x7
	add	x4, x17, x22
	add	x22, x17, x23
	sub	x7, x7, x21
.Lluossavin.BB55_70:
	ldr	d0, [x4], #-8
	adds	x7, x7, #8
	str	d0, [x22], #-8
	b.ne	.Lluossavin.BB55_70
	cmp	x2, x21
	b.eq	.Lluossavin.BB55_49
.Lluossavin.BB55_72:
	add	x7, x20, x19
	add	x21, x20, x13
	neg	x4, x20
	add	x7, x18, x7
	add	x20, x18, x21
.Lluossavin.BB55_73:
	ldrb	w21, [x20], #-1
	adds	x4, x4, #1
	strb	w21, [x7], #-1
	b.lo	.Lluossavin.BB55_73
	b	.Lluossavin.BB55_49
.Lluossavin.BB55_74:
	and	x20, x2, #0x18
	and	x7, x2, #0x1ffffffe0
	add	x21, x15, x13
	add	x22, x15, x19
	and	x23, x2, #0x1ffffffe0
.Lluossavin.BB55_75:
	ldp	q0, q1, [x21, #-16]
	subs	x23, x23, #32
	add	x21, x21, #32
	stp	q0, q1, [x22, #-16]
	add	x22, x22, #32
	b.ne	.Lluossavin.BB55_75
	cmp	x2, x7
	b.eq	.Lluossavin.BB55_49
	cbz	x20, .Lluossavin.BB55_81
.Lluossavin.BB55_78:
	mov	x20, x7
	and	x7, x2, #0x1fffffff8
	add	x21, x19, x20
	add	x22, x20, x13
	sub	x20, x20, x7
	add	x21, x14, x21
	add	x22, x14, x22
.Lluossavin.BB55_79:
	ldr	d0, [x22], #8
	adds	x20, x20, #8
	str	d0, [x21], #8
	b.ne	.Lluossavin.BB55_79
	cmp	x2, x7
	b.eq	.Lluossavin.BB55_49
.Lluossavin.BB55_81:
	sub	x4, x4, x7
	add	x20, x7, x19
	add	x21, x7, x13
	add	x4, x4, #12
	add	x7, x14, x20
	add	x20, x14, x21
.Lluossavin.BB55_82:
	ldrb	w21, [x20], #1
	subs	x4, x4, #1
	strb	w21, [x7], #1
	b.ne	.Lluossavin.BB55_82
	b	.Lluossavin.BB55_49
.Lluossavin.BB55_83:
	and	x20, x2, #0x1f
	b	.Lluossavin.BB55_72
.Lluossavin.BB55_84:
	mov	x13, xzr
	mov	x14, x1
	add	x15, x0, x10
	b	.Lluossavin.BB55_86
.Lluossavin.BB55_85:
	add	x16, x17, #12
	sub	x14, x14, x16
	add	x15, x15, x16
	add	x13, x16, x13
	cmp	x14, #12
	b.lo	.Lluossavin.BB55_39
.Lluossavin.BB55_86:
	ldrb	w16, [x15]
	cmp	w16, #82
	b.ne	.Lluossavin.BB55_39
	ldrb	w16, [x15, #1]
	cmp	w16, #88
	b.eq	.Lluossavin.BB55_89
	cmp	w16, #68
	b.ne	.Lluossavin.BB55_39
.Lluossavin.BB55_89:
	ldr	w17, [x15, #8]
	sub	x18, x14, #12
	rev	w17, w17
	cmp	x18, x17
	b.lo	.Lluossavin.BB55_39
	cmp	w16, #68
	b.ne	.Lluossavin.BB55_85
	ldur	w16, [x15, #2]
	rev	w16, w16
	cmp	w16, w3
	b.ne	.Lluossavin.BB55_85
	add	x13, x9, x13
	mov	w14, #88
	strb	w14, [x13, #1]
	b	.Lluossavin.BB55_39
.Lluossavin.BB55_93:
	cmp	x6, #32
	b.hs	.Lluossavin.BB55_95
	mov	x8, xzr
	b	.Lluossavin.BB55_99
.Lluossavin.BB55_95:
	add	x12, x10, x19
	add	x13, x11, x5
	and	x9, x6, #0x18
	add	x14, x12, x0
	and	x8, x6, #0xffffffffffffffe0
	add	x12, x13, #16
	add	x13, x14, #28
	and	x14, x6, #0xffffffffffffffe0
.Lluossavin.BB55_96:
	ldp	q0, q1, [x12, #-16]
	subs	x14, x14, #32
	add	x12, x12, #32
	stp	q0, q1, [x13, #-16]
	add	x13, x13, #32
	b.ne	.Lluossavin.BB55_96
	cmp	x6, x8
	b.eq	.Lluossavin.BB55_47
	cbz	x9, .Lluossavin.BB55_44
.Lluossavin.BB55_99:
	mov	x9, x8
	add	x12, x10, x19
	add	x13, x8, x0
	and	x8, x6, #0xfffffffffffffff8
	add	x14, x11, x9
	add	x13, x12, x13
	sub	x9, x9, x8
	add	x12, x5, x14
	add	x13, x13, #12
.Lluossavin.BB55_100:
	ldr	d0, [x12], #8
	adds	x9, x9, #8
	str	d0, [x13], #8
	b.ne	.Lluossavin.BB55_100
	cmp	x6, x8
	b.eq	.Lluossavin.BB55_47
	b	.Lluossavin.BB55_44
.Lluossavin.func_end55:
	.size	luossavin_shelf_put, .Lluossavin.func_end55-luossavin_shelf_put

	.type	.Lluossavin.static.0,@object
	.section	.rodata..Lluossavin.static.0,"a",@progbits
	.p2align	2, 0x0
.Lluossavin.static.0:
	.ascii	"[[\325\216BB\222\320\247\247\352M\373\373\375\00633\317\374\207\207\342e\364\364=\311\336\336\265kXX\026N\332\332\264nPP\024D\013\013\301\312\240\240(\210\357\357\370\027\260\260,\234\024\024\005\021\254\254+\207\235\235f\373jj\230\362\331\331w\256\250\250*\202\372\372\274F\020\020\004\024\017\017\300\317\252\252\250\002\021\021ETLL\023_\230\230&\276%%Hm\032\032\204\236\030\030\006\036ff\233\375rr\236\354\t\tCJAAQ\020\323\323\367$FF\223\325\277\277\354Sbb\232\370\351\351{\222\314\3143\377QQU\004,,\013'\r\rBO\267\267\356Y??\314\363\262\262\256\034\211\211c\352\223\223\347t\316\316\261\177pp\034l\246\246\253\r''\312\355  \b(\243\243\353HVV\227\301\002\002\202\200\177\177\334\243RR\226\304\353\353\371\022\325\325t\241>>\215\263\374\374?\303\232\232\244>\035\035F[\034\034\007\033\236\236\245;\363\363\377\f\317\317\360?\315\315r\277\\\\\027K\352\352\270R\016\016\201\217eeX=\360\360<\314dd\031}\233\233\345~\026\026\207\221==Ns\242\242\252\b\241\241i\310\255\255j\307\006\006\203\205\312\312\260z\305\305p\265\221\221e\364kk\331\262..\211\247\343\343\373\030\257\257\350G<<\0173--Jg\301\301q\260YYW\016vv\237\351\324\3245\341xx\036f\220\220$\26488\0166yy_&\215\215b\357aaY8GG\322\225\212\212\240*\224\224%\261\210\210\"\252\361\361}\214\354\354;\327\004\004\001\005\204\204!\245\341\341y\230\036\036\205\233SS\327\204\000\000\000\000\031\031G^]]V\013~~\235\343OO\320\237\234\234'\273IIS\03211M|\330\3306\356\b\b\002\n\237\237\344{\202\202\242 \023\023\307\324##\313\350zz\234\346\253\253\351B\376\376\275C**\210\242KK\321\232\001\001A@\037\037\304\333\340\3408\330\326\326\267a\216\216\241/\337\337\364+\313\313\361:;;\315\366\347\347\372\035\205\205`\345TT\025A\206\206\243%\203\203\343`\272\272\254\026uu\\)\222\222\2464nn\231\367\320\3204\344hh\032rUUT\001\266\266\257\031NN\221\337\310\3102\372\300\3000\360\327\327\366!22\216\274\306\306\263u\217\217\340ott\035i\333\333\365.\213\213\341j\270\270.\226\n\n\200\212\231\231g\376++\311\342\201\201a\340\003\003\303\300\244\244)\215\214\214#\257\256\256\251\00744\r9MMR\03799Ov\275\275n\323WW\326\201oo\330\267\334\3347\353\025\025DQ{{\335\246\367\367\376\t::\214\266\274\274/\223\f\f\003\017\377\377\374\003\251\251k\302\311\311s\272\265\265l\331\261\261m\334mmZ7EEP\02566\217\271ll\033w\276\276\255\023JJ\220\332\356\356\271Www\336\251\362\362\276L\375\375~\203DD\021Ugg\332\275qq],\005\005@E||\037c@@\020Pii[2cc\333\270((\n\"\007\007\302\305\304\3041\365\"\"\212\250\226\226\247177\316\371\355\355z\227\366\366\277I\264\264-\231\321\321u\244CC\323\220HH\022Z\342\342\272X\227\227\346q\322\322\266d\302\302\262p&&\213\255\245\245h\315^^\225\313))Kb00\f<ZZ\224\316\335\335v\253\371\371\177\206\225\225d\361\346\346\273]\307\307\3625$$\t-\027\027\306\321\271\271o\326\033\033\305\336\022\022\206\224``\030x\303\303\3630\365\365|\211\263\263\357\\\350\350:\322ss\337\25455Ly\200\200 \240\345\345x\235\273\273\355V}}^#\370\370>\306__\324\213//\310\347\344\3449\335!!Ih[\325\216[B\222\320B\247\352M\247\373\375\006\3733\317\3743\207\342e\207\364=\311\364\336\265k\336X\026NX\332\264n\332P\024DP\013\301\312\013\240(\210\240\357\370\027\357\260,\234\260\024\005\021\024\254+\207\254\235f\373\235j\230\362j\331w\256\331\250*\202\250\372\274F\372\020\004\024\020\017\300\317\017\252\250\002\252\021ET\021L\023_L\230&\276\230%Hm%\032\204\236\032\030\006\036\030f\233\375fr\236\354r\tCJ\tAQ\020A\323\367$\323F\223\325F\277\354S\277b\232\370b\351{\222\351\3143\377\314QU\004Q,\013',\rBO\r\267\356Y\267?\314\363?\262\256\034\262\211c\352\211\223\347t\223\316\261\177\316p\034lp\246\253\r\246'\312\355' \b( \243\353H\243V\227\301V\002\202\200\002\177\334\243\177R\226\304R\353\371\022\353\325t\241\325>\215\263>\374?\303\374\232\244>\232\035F[\035\034\007\033\034\236\245;\236\363\377\f\363\317\360?\317\315r\277\315\\\027K\\\352\270R\352\016\201\217\016eX=e\360<\314\360d\031}d\233\345~\233\026\207\221\026=Ns=\242\252\b\242\241i\310\241\255j\307\255\006\203\205\006\312\260z\312\305p\265\305\221e\364\221k\331\262k.\211\247.\343\373\030\343\257\350G\257<\0173<-Jg-\301q\260\301YW\016Yv\237\351v\3245\341\324x\036fx\220$\264\2208\01668y_&y\215b\357\215aY8aG\322\225G\212\240*\212\224%\261\224\210\"\252\210\361}\214\361\354;\327\354\004\001\005\004\204!\245\204\341y\230\341\036\205\233\036S\327\204S\000\000\000\000\031G^\031]V\013]~\235\343~O\320\237O\234'\273\234IS\032I1M|1\3306\356\330\b\002\n\b\237\344{\237\202\242 \202\023\307\324\023#\313\350#z\234\346z\253\351B\253\376\275C\376*\210\242*K\321\232K\001A@\001\037\304\333\037\3408\330\340\326\267a\326\216\241/\216\337\364+\337\313\361:\313;\315\366;\347\372\035\347\205`\345\205T\025AT\206\243%\206\203\343`\203\272\254\026\272u\\)u\222\2464\222n\231\367n\3204\344\320h\032rhUT\001U\266\257\031\266N\221\337N\3102\372\310\3000\360\300\327\366!\3272\216\2742\306\263u\306\217\340o\217t\035it\333\365.\333\213\341j\213\270.\226\270\n\200\212\n\231g\376\231+\311\342+\201a\340\201\003\303\300\003\244)\215\244\214#\257\214\256\251\007\2564\r94MR\037M9Ov9\275n\323\275W\326\201Wo\330\267o\3347\353\334\025DQ\025{\335\246{\367\376\t\367:\214\266:\274/\223\274\f\003\017\f\377\374\003\377\251k\302\251\311s\272\311\265l\331\265\261m\334\261mZ7mEP\025E6\217\2716l\033wl\276\255\023\276J\220\332J\356\271W\356w\336\251w\362\276L\362\375~\203\375D\021UDg\332\275gq],q\005@E\005|\037c|@\020P@i[2ic\333\270c(\n\"(\007\302\305\007\3041\365\304\"\212\250\"\226\2471\2267\316\3717\355z\227\355\366\277I\366\264-\231\264\321u\244\321C\323\220CH\022ZH\342\272X\342\227\346q\227\322\266d\322\302\262p\302&\213\255&\245h\315\245^\225\313^)Kb)0\f<0Z\224\316Z\335v\253\335\371\177\206\371\225d\361\225\346\273]\346\307\3625\307$\t-$\027\306\321\027\271o\326\271\033\305\336\033\022\206\224\022`\030x`\303\3630\303\365|\211\365\263\357\\\263\350:\322\350s\337\254s5Ly5\200 \240\200\345x\235\345\273\355V\273}^#}\370>\306\370_\324\213_/\310\347/\3449\335\344!Ih!\325\216[[\222\320BB\352M\247\247\375\006\373\373\317\37433\342e\207\207=\311\364\364\265k\336\336\026NXX\264n\332\332\024DPP\301\312\013\013(\210\240\240\370\027\357\357,\234\260\260\005\021\024\024+\207\254\254f\373\235\235\230\362jjw\256\331\331*\202\250\250\274F\372\372\004\024\020\020\300\317\017\017\250\002\252\252ET\021\021\023_LL&\276\230\230Hm%%\204\236\032\032\006\036\030\030\233\375ff\236\354rrCJ\t\tQ\020AA\367$\323\323\223\325FF\354S\277\277\232\370bb{\222\351\3513\377\314\314U\004QQ\013',,BO\r\r\356Y\267\267\314\363??\256\034\262\262c\352\211\211\347t\223\223\261\177\316\316\034lpp\253\r\246\246\312\355''\b(  \353H\243\243\227\301VV\202\200\002\002\334\243\177\177\226\304RR\371\022\353\353t\241\325\325\215\263>>?\303\374\374\244>\232\232F[\035\035\007\033\034\034\245;\236\236\377\f\363\363\360?\317\317r\277\315\315\027K\\\\\270R\352\352\201\217\016\016X=ee<\314\360\360\031}dd\345~\233\233\207\221\026\026Ns==\252\b\242\242i\310\241\241j\307\255\255\203\205\006\006\260z\312\312p\265\305\305e\364\221\221\331\262kk\211\247..\373\030\343\343\350G\257\257\0173<<Jg--q\260\301\301W\016YY\237\351vv5\341\324\324\036fxx$\264\220\220\016688_&yyb\357\215\215Y8aa\322\225GG\240*\212\212%\261\224\224\"\252\210\210}\214\361\361;\327\354\354\001\005\004\004!\245\204\204y\230\341\341\205\233\036\036\327\204SS\000\000\000\000G^\031\031V\013]]\235\343~~\320\237OO'\273\234\234S\032IIM|116\356\330\330\002\n\b\b\344{\237\237\242 \202\202\307\324\023\023\313\350##\234\346zz\351B\253\253\275C\376\376\210\242**\321\232KKA@\001\001\304\333\037\0378\330\340\340\267a\326\326\241/\216\216\364+\337\337\361:\313\313\315\366;;\372\035\347\347`\345\205\205\025ATT\243%\206\206\343`\203\203\254\026\272\272\\)uu\2464\222\222\231\367nn4\344\320\320\032rhhT\001UU\257\031\266\266\221\337NN2\372\310\3100\360\300\300\366!\327\327\216\27422\263u\306\306\340o\217\217\035itt\365.\333\333\341j\213\213.\226\270\270\200\212\n\ng\376\231\231\311\342++a\340\201\201\303\300\003\003)\215\244\244#\257\214\214\251\007\256\256\r944R\037MMOv99n\323\275\275\326\201WW\330\267oo7\353\334\334DQ\025\025\335\246{{\376\t\367\367\214\266::/\223\274\274\003\017\f\f\374\003\377\377k\302\251\251s\272\311\311l\331\265\265m\334\261\261Z7mmP\025EE\217\27166\033wll\255\023\276\276\220\332JJ\271W\356\356\336\251ww\276L\362\362~\203\375\375\021UDD\332\275gg],qq@E\005\005\037c||\020P@@[2ii\333\270cc\n\"((\302\305\007\0071\365\304\304\212\250\"\"\2471\226\226\316\37177z\227\355\355\277I\366\366-\231\264\264u\244\321\321\323\220CC\022ZHH\272X\342\342\346q\227\227\266d\322\322\262p\302\302\213\255&&h\315\245\245\225\313^^Kb))\f<00\224\316ZZv\253\335\335\177\206\371\371d\361\225\225\273]\346\346\3625\307\307\t-$$\306\321\027\027o\326\271\271\305\336\033\033\206\224\022\022\030x``\3630\303\303|\211\365\365\357\\\263\263:\322\350\350\337\254ssLy55 \240\200\200x\235\345\345\355V\273\273^#}}>\306\370\370\324\213__\310\347//9\335\344\344Ih!!\216[[\325\320BB\222M\247\247\352\006\373\373\375\37433\317e\207\207\342\311\364\364=k\336\336\265NXX\026n\332\332\264DPP\024\312\013\013\301\210\240\240(\027\357\357\370\234\260\260,\021\024\024\005\207\254\254+\373\235\235f\362jj\230\256\331\331w\202\250\250*F\372\372\274\024\020\020\004\317\017\017\300\002\252\252\250T\021\021E_LL\023\276\230\230&m%%H\236\032\032\204\036\030\030\006\375ff\233\354rr\236J\t\tC\020AAQ$\323\323\367\325FF\223S\277\277\354\370bb\232\222\351\351{\377\314\3143\004QQU',,\013O\r\rBY\267\267\356\363??\314\034\262\262\256\352\211\211ct\223\223\347\177\316\316\261lpp\034\r\246\246\253\355''\312(  \bH\243\243\353\301VV\227\200\002\002\202\243\177\177\334\304RR\226\022\353\353\371\241\325\325t\263>>\215\303\374\374?>\232\232\244[\035\035F\033\034\034\007;\236\236\245\f\363\363\377?\317\317\360\277\315\315rK\\\\\027R\352\352\270\217\016\016\201=eeX\314\360\360<}dd\031~\233\233\345\221\026\026\207s==N\b\242\242\252\310\241\241i\307\255\255j\205\006\006\203z\312\312\260\265\305\305p\364\221\221e\262kk\331\247..\211\030\343\343\373G\257\257\3503<<\017g--J\260\301\301q\016YYW\351vv\237\341\324\3245fxx\036\264\220\220$688\016&yy_\357\215\215b8aaY\225GG\322*\212\212\240\261\224\224%\252\210\210\"\214\361\361}\327\354\354;\005\004\004\001\245\204\204!\230\341\341y\233\036\036\205\204SS\327\000\000\000\000^\031\031G\013]]V\343~~\235\237OO\320\273\234\234'\032IIS|11M\356\330\3306\n\b\b\002{\237\237\344 \202\202\242\324\023\023\307\350##\313\346zz\234B\253\253\351C\376\376\275\242**\210\232KK\321@\001\001A\333\037\037\304\330\340\3408a\326\326\267/\216\216\241+\337\337\364:\313\313\361\366;;\315\035\347\347\372\345\205\205`ATT\025%\206\206\243`\203\203\343\026\272\272\254)uu\\4\222\222\246\367nn\231\344\320\3204rhh\032\001UUT\031\266\266\257\337NN\221\372\310\3102\360\300\3000!\327\327\366\27422\216u\306\306\263o\217\217\340itt\035.\333\333\365j\213\213\341\226\270\270.\212\n\n\200\376\231\231g\342++\311\340\201\201a\300\003\003\303\215\244\244)\257\214\214#\007\256\256\251944\r\037MMRv99O\323\275\275n\201WW\326\267oo\330\353\334\3347Q\025\025D\246{{\335\t\367\367\376\266::\214\223\274\274/\017\f\f\003\003\377\377\374\302\251\251k\272\311\311s\331\265\265l\334\261\261m7mmZ\025EEP\27166\217wll\033\023\276\276\255\332JJ\220W\356\356\271\251ww\336L\362\362\276\203\375\375~UDD\021\275gg\332,qq]E\005\005@c||\037P@@\0202ii[\270cc\333\"((\n\305\007\007\302\365\304\3041\250\"\"\2121\226\226\247\37177\316\227\355\355zI\366\366\277\231\264\264-\244\321\321u\220CC\323ZHH\022X\342\342\272q\227\227\346d\322\322\266p\302\302\262\255&&\213\315\245\245h\313^^\225b))K<00\f\316ZZ\224\253\335\335v\206\371\371\177\361\225\225d]\346\346\2735\307\307\362-$$\t\321\027\027\306\326\271\271o\336\033\033\305\224\022\022\206x``\0300\303\303\363\211\365\365|\\\263\263\357\322\350\350:\254ss\337y55L\240\200\200 \235\345\345xV\273\273\355#}}^\306\370\370>\213__\324\347//\310\335\344\3449h!!I"
	.size	.Lluossavin.static.0, 4096

	.type	.Lluossavin.static.1,@object
	.section	.rodata..Lluossavin.static.1,"a",@progbits
.Lluossavin.static.1:
	.ascii	"\326\220\351\376\314\341=\267\026\266\024\302(\373,\005+g\232v*\276\004\303\252D\023&I\206\006\231\234BP\364\221\357\230z3T\013C\355\317\254b\344\263\034\251\311\b\350\225\200\337\224\372u\217?\246G\007\247\374\363s\027\272\203Y<\031\346\205O\250hk\201\262qd\332\213\370\353\017KpV\2355\036$\016^cX\321\242%\"|;\001!x\207\324\000FW\237\323'RL6\002\347\240\304\310\236\352\277\212\322@\3078\265\243\367\362\316\371a\025\241\340\256]\244\2334\032U\255\22320\365\214\261\343\035\366\342.\202f\312`\300)#\253\rSNo\325\3337E\336\375\216/\003\377jrml[Q\215\033\257\222\273\335\274\177\021\331\\A\037\020Z\330\n\3011\210\245\315{\275-t\320\022\270\345\264\260\211i\227J\f\226w~e\271\361\t\305n\306\204\030\360}\354:\334M y\356_>\327\3139H"
	.size	.Lluossavin.static.1, 256

	.type	.Lluossavin.static.3,@object
	.section	.rodata..Lluossavin.static.3,"a",@progbits
	.p2align	3, 0x0
.Lluossavin.static.3:
	.asciz	"\000\000\000\000\000\000\000\000\002\000\000\000\000\000\000\000\002\000\000\000\000\000\000\000\004\000\000\000\000\000\000\000\004\000\000\000\000\000\000\000\006\000\000\000\000\000\000\000\006\000\000\000\000\000\000\000\b\000\000\000\000\000\000\000\b\000\000\000\000\000\000"
	.size	.Lluossavin.static.3, 72

	.type	.Lluossavin.static.4,@object
	.section	.rodata..Lluossavin.static.4,"a",@progbits
	.p2align	3, 0x0
.Lluossavin.static.4:
	.asciz	"\001\000\000\000\000\000\000\000\001\000\000\000\000\000\000\000\002\000\000\000\000\000\000\000\004\000\000\000\000\000\000\000\004\000\000\000\000\000\000"
	.size	.Lluossavin.static.4, 40

	.type	.Lluossavin.static.5,@object
	.section	.rodata..Lluossavin.static.5,"a",@progbits
	.p2align	2, 0x0
.Lluossavin.static.5:
	.ascii	"\025\016\007\0001*#\034MF?8ib[T\205~wp\241\232\223\214\275\266\257\250\331\322\313\304\365\356\347\340\021\n\003\374-&\037\030IB;4e^WP\201zsl\235\226\217\210\271\262\253\244\325\316\307\300\361\352\343\334\r\006\377\370)\"\033\024E>70aZSL}voh\231\222\213\204\265\256\247\240\321\312\303\274\355\346\337\330\t\002\373\364%\036\027\020A:3,]VOHyrkd"
	.size	.Lluossavin.static.5, 128

	.type	.Lluossavin.switch.table.luossavin_edition_opens,@object
	.section	.rodata..Lluossavin.switch.table.luossavin_edition_opens,"a",@progbits
	.p2align	3, 0x0
.Lluossavin.switch.table.luossavin_edition_opens:
	.xword	1
	.xword	2
	.xword	3
	.xword	4
	.xword	5
	.xword	6
	.xword	8
	.xword	9
	.xword	10
	.xword	11
	.xword	12
	.xword	13
	.xword	14
	.xword	15
	.size	.Lluossavin.switch.table.luossavin_edition_opens, 112

	.type	.Lluossavin.switch.table.luossavin_which,@object
	.section	.rodata..Lluossavin.switch.table.luossavin_which,"a",@progbits
	.p2align	2, 0x0
.Lluossavin.switch.table.luossavin_which:
	.word	1
	.word	2
	.word	3
	.word	4
	.word	5
	.word	6
	.word	8
	.word	9
	.word	10
	.word	11
	.word	12
	.word	13
	.word	14
	.word	15
	.size	.Lluossavin.switch.table.luossavin_which, 56

	.section	".note.GNU-stack","",@progbits
