# Made by tools/dist from the proved crate aes_c; BUILD says from what. Don't edit it.
	.file	"rattle"
	.globaltype	__stack_pointer, i32
	.functype	aes_permute__lane_keys__expand_lanes (i32, i32, i64) -> ()
	.functype	aes_ctr__add_in_batches__add_keystream____ef80964e0b8d42c0_ (i32, i32, i64, i32, i64) -> ()
	.functype	aes_hybrid__borrowed_cipher__BorrowedCipher__process_blocks____ee6d29ed0cc28f94_ (i32, i32, i64) -> ()
	.functype	aes_hybrid__batches__process_on_planes____a60badf655ff5009_ (i32, i64, i32, i64) -> ()
	.functype	aes_hybrid__plane_keys__store_planes____e29e0540aa8bc136_ (i32, i32, i64) -> ()
	.functype	aes_hybrid__batches__process_batches_and_rest____a60badf655ff5009_ (i32, i64, i32, i64) -> ()
	.functype	aes_soft__soft__ciphers__planes__process_outlined____1a44e25bef607b64_ (i32, i32, i64, i32) -> ()
	.functype	aes_soft__soft__ciphers__planes__EncryptPlaneCipher__process_planes____f2467153fb0a218d_ (i32, i64, i32) -> ()
	.functype	aes_planes__soft__shifts__swap_columns____e29e0540aa8bc136_ (i32, i32, i64, i64) -> ()
	.functype	aes_planes__soft__sbox__sub_bytes____e29e0540aa8bc136_ (i32) -> ()
	.functype	aes_soft__soft__blocks__filled_up__process_filled_up____a60badf655ff5009_ (i32, i64, i32, i64) -> ()
	.functype	aes_cipher__zeroize__zeroize_words____e29e0540aa8bc136_ (i32) -> ()
	.functype	aes_cipher__zeroize__stack__wipe_stack____1792_ () -> ()
	.functype	aes_permute__blocks__process_on_lanes____06aaae76f5856d0a_ (i32, i64, i32, i64) -> ()
	.functype	aes_hybrid__closures__lend_planes____b70de9c75faff52b_ (i32, i64, i32, i64, i32) -> ()
	.functype	aes_hybrid__closures__call_to_work____b70de9c75faff52b_ (i32, i32, i64, i32) -> ()
	.functype	aes_ctr__add_in_batches__add_next____f3c9f23e0dfa84c8_ (i32, i32, i64, i64, i32, i64) -> (i64)
	.functype	aes_cipher__zeroize__stack__wipe_stack____2032_ () -> ()
	.functype	aes_ctr__add_in_batches__add_next____2d16df7ebc44f3ac_ (i32, i32, i64, i64, i32, i64) -> (i64)
	.functype	aes_cipher__zeroize__elements__zeroize_elements____530874d131791bfe_ (i32) -> ()
	.functype	cmac__tags__tag____ef80964e0b8d42c0_ (i32, i32, i32, i64) -> ()
	.functype	cmac__chaining__chain____ef80964e0b8d42c0_ (i32, i32, i32, i64) -> ()
	.functype	cmac__tags__tag_at_end____ef80964e0b8d42c0_ (i32, i32, i32, i32, i64) -> ()
	.functype	aes_cipher__zeroize__stack__wipe_stack____768_ () -> ()
	.functype	cmac__pieces__MessageZeroize__zeroize (i32) -> ()
	.functype	aes_cipher__zeroize__elements__zeroize_elements____331496ca003a3905_ (i32) -> ()
	.functype	cmac__chain_in_pieces__ChainInPieces__extend____ef80964e0b8d42c0_ (i32, i32, i32, i64) -> ()
	.functype	aes_c__kept__fotsgure_aes_set_key (i32, i32, i64) -> (i32)
	.functype	key_wrap__wrapping__wrap____ef80964e0b8d42c0_ (i32, i32, i64, i32, i64) -> (i32)
	.functype	key_wrap__steps__wrap_in_place____ef80964e0b8d42c0_ (i32, i32, i32, i64) -> ()
	.functype	key_wrap__steps__encrypt_halves____ef80964e0b8d42c0_ (i32, i32, i32) -> ()
	.functype	aes_cipher__zeroize__stack__wipe_stack____512_ () -> ()
	.functype	key_wrap__padded__wrap_padded____ef80964e0b8d42c0_ (i32, i32, i64, i32, i64) -> (i32)
	.functype	aes_hybrid__closures__lend_planes____f679257bbe3eb97f_ (i32, i64, i32, i64, i32) -> ()
	.functype	aes_hybrid__closures__call_to_work____f679257bbe3eb97f_ (i32, i32, i64, i32) -> ()
	.functype	aes_soft__soft__ciphers__planes__process_outlined____0cf5cff84c52603c_ (i32, i32, i64, i32) -> ()
	.functype	aes_soft__soft__ciphers__planes__DecryptPlaneCipher__process_planes____f2467153fb0a218d_ (i32, i64, i32) -> ()
	.functype	aes_planes__soft__sbox__inv_sub_bytes____e29e0540aa8bc136_ (i32) -> ()
	.functype	aes_permute__blocks__process_on_lanes____e7683a4e90f73162_ (i32, i64, i32, i64) -> ()
	.functype	aes_c__blocks__fotsgure_aes_decrypt_blocks (i32, i32, i64) -> (i32)
	.functype	aes_hybrid__borrowed_cipher__BorrowedCipher__process_blocks____b6eb981607e07ed4_ (i32, i32, i64) -> ()
	.functype	aes_hybrid__batches__process_on_planes____0fbbf5e423d2a9b1_ (i32, i64, i32, i64) -> ()
	.functype	aes_hybrid__batches__process_batches_and_rest____0fbbf5e423d2a9b1_ (i32, i64, i32, i64) -> ()
	.functype	aes_soft__soft__blocks__filled_up__process_filled_up____0fbbf5e423d2a9b1_ (i32, i64, i32, i64) -> ()
	.functype	key_wrap__wrapping__unwrap____bc4275ba8002e6b4_ (i32, i32, i32, i64, i32, i64) -> ()
	.functype	key_wrap__steps__unwrap_in_place____bc4275ba8002e6b4_ (i32, i32, i32, i64) -> ()
	.functype	key_wrap__steps__decrypt_halves____bc4275ba8002e6b4_ (i32, i32, i32) -> ()
	.functype	aes_cipher__zeroize__elements__zeroize_elements____51e2d7e6a2c2e10f_ (i32) -> ()
	.functype	aes_cipher__blocks__difference (i32, i32) -> (i32)
	.functype	key_wrap__padded__unwrap_padded____bc4275ba8002e6b4_ (i32, i32, i32, i64, i32, i64) -> ()
	.functype	key_wrap__padded__difference (i32, i32, i64) -> (i64)
	.functype	key_wrap__padded__mask_below (i32, i32) -> (i32)
	.functype	aes_c__single_rounds__inverse_mixed (i32) -> ()
	.functype	aes_c__single_rounds__inverse_round (i32, i32) -> ()
	.functype	aes_c__single_rounds__inverse_rounds (i32, i32) -> ()
	.functype	cmac__pieces__Message__is_tag_so_far____ef80964e0b8d42c0_ (i32, i32, i32, i64) -> (i32)
	.functype	cmac__tags__is_tag_start____ef80964e0b8d42c0_ (i32, i32, i64, i32, i64) -> (i32)
	.functype	aes_c__single_rounds__mixed (i32) -> ()
	.functype	aes_c__stream__fotsgure_aes_add_keystream (i32, i32, i32, i64) -> (i32)
	.functype	aes_c__single_rounds__round (i32, i32) -> ()
	.functype	aes_c__single_rounds__rounds (i32, i32) -> ()
	.functype	ccm__mode__decrypt____ef80964e0b8d42c0_ (i32, i32, i32, i64, i32, i64, i32, i64, i32, i64) -> ()
	.functype	ccm__formatting__check (i32, i64, i64, i64) -> ()
	.functype	ccm__message__put_tag____ef80964e0b8d42c0_ (i32, i32, i64, i64, i32, i64, i32, i64, i32) -> ()
	.functype	aes_cipher__zeroize__stack__wipe_stack____1024_ () -> ()
	.functype	ccm__mode__encrypt____ef80964e0b8d42c0_ (i32, i32, i32, i64, i32, i64, i32, i64, i32, i64) -> ()
	.functype	fotsgure_aes_version () -> (i32)
	.functype	fotsgure_aes_set_key (i32, i32, i32) -> (i32)
	.functype	fotsgure_aes_key_length (i32) -> (i32)
	.functype	fotsgure_aes_wipe (i32) -> ()
	.functype	fotsgure_aes_encrypt_blocks (i32, i32, i32) -> (i32)
	.functype	fotsgure_aes_decrypt_blocks (i32, i32, i32) -> (i32)
	.functype	fotsgure_aes_encrypt_blocks_to (i32, i32, i32, i32, i32) -> (i32)
	.functype	fotsgure_aes_decrypt_blocks_to (i32, i32, i32, i32, i32) -> (i32)
	.functype	fotsgure_aes_add_keystream (i32, i32, i32, i32) -> (i32)
	.functype	fotsgure_aes_add_keystream_to (i32, i32, i32, i32, i32, i32) -> (i32)
	.functype	fotsgure_aes_cbc_encrypt (i32, i32, i32, i32) -> (i32)
	.functype	fotsgure_aes_cbc_decrypt (i32, i32, i32, i32) -> (i32)
	.functype	fotsgure_aes_wrap (i32, i32, i32, i32, i32) -> (i32)
	.functype	fotsgure_aes_unwrap (i32, i32, i32, i32, i32) -> (i32)
	.functype	fotsgure_aes_wrap_padded (i32, i32, i32, i32, i32) -> (i32)
	.functype	fotsgure_aes_unwrap_padded (i32, i32, i32, i32, i32, i32) -> (i32)
	.functype	fotsgure_aes_cmac (i32, i32, i32, i32) -> (i32)
	.functype	fotsgure_aes_cmac_verify (i32, i32, i32, i32, i32) -> (i32)
	.functype	fotsgure_aes_cmac_begin (i32, i32) -> (i32)
	.functype	fotsgure_aes_cmac_update (i32, i32, i32, i32) -> (i32)
	.functype	fotsgure_aes_cmac_finish (i32, i32, i32) -> (i32)
	.functype	fotsgure_aes_cmac_accept (i32, i32, i32, i32) -> (i32)
	.functype	fotsgure_aes_cmac_wipe (i32) -> ()
	.functype	fotsgure_aes_ccm_seal (i32, i32, i32, i32, i32, i32, i32, i32, i32) -> (i32)
	.functype	fotsgure_aes_ccm_open (i32, i32, i32, i32, i32, i32, i32, i32, i32) -> (i32)
	.functype	fotsgure_aes_cipher_round (i32, i32) -> ()
	.functype	fotsgure_aes_equiv_inv_cipher_round (i32, i32) -> ()
	.functype	fotsgure_aes_cipher_round_par (i32, i32) -> ()
	.functype	fotsgure_aes_equiv_inv_cipher_round_par (i32, i32) -> ()
	.functype	fotsgure_aes_mix_columns (i32) -> ()
	.functype	fotsgure_aes_inv_mix_columns (i32) -> ()
	.functype	fotsgure_aes_encrypt_blocks_with (i32, i32, i32, i32) -> (i32)
	.functype	fotsgure_aes_decrypt_blocks_with (i32, i32, i32, i32) -> (i32)
	.functype	fotsgure_aes_add_keystream_with (i32, i32, i32, i32, i32) -> (i32)
	.section	.text.aes_permute__lane_keys__expand_lanes,"",@
	.type	aes_permute__lane_keys__expand_lanes,@function # -- Begin function aes_permute__lane_keys__expand_lanes
aes_permute__lane_keys__expand_lanes:   # @aes_permute__lane_keys__expand_lanes
	.functype	aes_permute__lane_keys__expand_lanes (i32, i32, i64) -> ()
	.local  	v128, v128, v128, v128, v128, v128, v128, i32, i32, v128, i32, v128, v128, v128, v128, i32, v128, v128, v128
# %bb.0:                                # %start
	v128.const	0, 1, 28, 29, 45, 44, 49, 48, 39, 38, 59, 58, 10, 11, 22, 23
	local.tee	3
	local.get	1
	v128.load	0:p2align=0
	local.tee	4
	v128.const	15, 15, 15, 15, 15, 15, 15, 15, 15, 15, 15, 15, 15, 15, 15, 15
	local.tee	5
	v128.and
	i8x16.swizzle
	v128.const	0, 134, 253, 123, 142, 8, 115, 245, 119, 241, 138, 12, 249, 127, 4, 130
	local.tee	6
	local.get	4
	i32.const	4
	i8x16.shr_u
	i8x16.swizzle
	v128.xor
	local.set	7
	block   	
	block   	
	block   	
	block   	
	local.get	2
	i32.wrap_i64
	i32.const	-16
	i32.add 
	br_table 	{0, 2, 2, 2, 2, 2, 2, 2, 1, 2} # 2: down to label1
                                        # 1: down to label2
.LBB0_1:                                # %then.1.i
	end_block                               # label3:
	local.get	0
	v128.const	0, 1, 92, 93, 224, 225, 188, 189, 80, 81, 12, 13, 176, 177, 236, 237
	local.tee	8
	local.get	7
	local.get	5
	v128.and
	i8x16.swizzle
	v128.const	0, 178, 181, 7, 58, 136, 143, 61, 172, 30, 25, 171, 150, 36, 35, 145
	local.tee	9
	local.get	7
	i32.const	4
	i8x16.shr_u
	i8x16.swizzle
	v128.xor
	v128.store	0:p2align=0
	i32.const	.Lstatic.0
	local.set	1
	i32.const	16
	local.set	10
	i32.const	48
	local.set	11
	i64.const	10
	local.set	2
.LBB0_2:                                # %join.5.i
                                        # =>This Inner Loop Header: Depth=1
	loop    	                                # label4:
	v128.const	0, 195, 79, 12, 252, 124, 67, 128, 207, 51, 63, 112, 191, 179, 240, 140
	v128.const	128, 1, 9, 14, 13, 11, 7, 6, 15, 2, 12, 5, 10, 4, 3, 8
	local.tee	4
	local.get	4
	local.get	7
	local.get	4
	i8x16.shuffle	13, 14, 15, 12, 13, 14, 15, 12, 13, 14, 15, 12, 13, 14, 15, 12
	local.tee	6
	i32.const	4
	i8x16.shr_u
	local.tee	3
	i8x16.swizzle
	v128.const	128, 2, 1, 15, 9, 5, 14, 12, 13, 4, 11, 10, 7, 8, 6, 3
	local.get	6
	local.get	5
	v128.and
	local.tee	6
	i8x16.swizzle
	local.tee	12
	v128.xor
	i8x16.swizzle
	local.get	3
	local.get	6
	v128.xor
	local.tee	6
	v128.xor
	i8x16.swizzle
	v128.const	0, 230, 114, 183, 229, 198, 197, 35, 81, 180, 3, 113, 32, 151, 82, 148
	local.get	4
	local.get	4
	local.get	6
	i8x16.swizzle
	local.get	12
	v128.xor
	i8x16.swizzle
	local.get	3
	v128.xor
	i8x16.swizzle
	v128.xor
	v128.const	0, 0, 0, 0, 0, 0, 0, 0, 0, 0, 0, 0, 0, 0, 0, 0
	local.tee	4
	local.get	1
	i32.load8_u	0
	local.tee	13
	i32.const	4
	i32.shr_u
	i32.load8_u	.Lstatic.2
	local.get	13
	i32.const	15
	i32.and 
	i32.load8_u	.Lstatic.1
	i32.xor 
	i8x16.replace_lane	0
	local.get	7
	v128.xor
	local.tee	7
	local.get	4
	i8x16.shuffle	16, 16, 16, 16, 0, 1, 2, 3, 4, 5, 6, 7, 8, 9, 10, 11
	local.get	7
	v128.xor
	local.tee	7
	local.get	4
	i8x16.shuffle	16, 16, 16, 16, 16, 16, 16, 16, 0, 1, 2, 3, 4, 5, 6, 7
	v128.xor
	local.get	7
	v128.xor
	v128.const	110, 110, 110, 110, 110, 110, 110, 110, 110, 110, 110, 110, 110, 110, 110, 110
	local.tee	4
	v128.xor
	local.set	7
	block   	
	block   	
	local.get	2
	i64.const	1
	i64.ne  
	br_if   	0                               # 0: down to label6
# %bb.3:                                # %then.4.i427
                                        #   in Loop: Header=BB0_2 Depth=1
	local.get	9
	local.get	7
	i32.const	4
	i8x16.shr_u
	i8x16.swizzle
	local.get	8
	local.get	7
	local.get	5
	v128.and
	i8x16.swizzle
	v128.xor
	v128.const	99, 99, 99, 99, 99, 99, 99, 99, 99, 99, 99, 99, 99, 99, 99, 99
	v128.xor
	local.set	4
	i32.const	160
	local.set	13
	br      	1                               # 1: down to label5
.LBB0_4:                                # %join.6.i
                                        #   in Loop: Header=BB0_2 Depth=1
	end_block                               # label6:
	local.get	7
	local.get	11
	i32.const	48
	i32.and 
	v128.load	.Lstatic.3:p2align=0
	i8x16.swizzle
	local.get	4
	v128.xor
	local.set	4
	local.get	10
	local.set	13
.LBB0_5:                                # %aes_permute__lane_keys__stored_key.exit
                                        #   in Loop: Header=BB0_2 Depth=1
	end_block                               # label5:
	local.get	0
	local.get	13
	i32.add 
	local.get	4
	v128.store	0:p2align=0
	local.get	11
	i32.const	48
	i32.add 
	local.set	11
	local.get	10
	i32.const	16
	i32.add 
	local.set	10
	local.get	1
	i32.const	1
	i32.add 
	local.set	1
	local.get	2
	i64.const	-1
	i64.add 
	local.tee	2
	i64.eqz
	i32.eqz
	br_if   	0                               # 0: up to label4
	br      	3                               # 3: down to label0
.LBB0_6:                                # %then.4.i
	end_loop
	end_block                               # label2:
	local.get	1
	i32.const	23
	i32.add 
	local.get	1
	i32.const	22
	i32.add 
	local.get	1
	i32.const	21
	i32.add 
	local.get	1
	i32.const	20
	i32.add 
	local.get	1
	i32.const	19
	i32.add 
	local.get	1
	i32.const	18
	i32.add 
	local.get	1
	i32.const	17
	i32.add 
	local.get	1
	i32.const	16
	i32.add 
	local.get	4
	local.get	4
	i8x16.shuffle	8, 9, 10, 11, 12, 13, 14, 15, 0, 0, 0, 0, 0, 0, 0, 0
	v128.load8_lane	0, 8
	v128.load8_lane	0, 9
	v128.load8_lane	0, 10
	v128.load8_lane	0, 11
	v128.load8_lane	0, 12
	v128.load8_lane	0, 13
	v128.load8_lane	0, 14
	v128.load8_lane	0, 15
	local.set	4
	local.get	0
	v128.const	0, 1, 92, 93, 224, 225, 188, 189, 80, 81, 12, 13, 176, 177, 236, 237
	local.tee	14
	local.get	7
	local.get	5
	v128.and
	i8x16.swizzle
	v128.const	0, 178, 181, 7, 58, 136, 143, 61, 172, 30, 25, 171, 150, 36, 35, 145
	local.tee	15
	local.get	7
	i32.const	4
	i8x16.shr_u
	i8x16.swizzle
	v128.xor
	v128.store	0:p2align=0
	local.get	3
	local.get	4
	local.get	5
	v128.and
	i8x16.swizzle
	local.get	6
	local.get	4
	i32.const	4
	i8x16.shr_u
	i8x16.swizzle
	v128.xor
	local.set	6
	i64.const	12
	local.set	2
	i32.const	144
	local.set	1
	i32.const	.Lstatic.0
	local.set	10
	i32.const	48
	local.set	11
.LBB0_7:                                # %join.5.i611
                                        # =>This Inner Loop Header: Depth=1
	loop    	                                # label7:
	local.get	0
	local.get	11
	i32.add 
	local.tee	13
	i32.const	-32
	i32.add 
	local.get	6
	v128.const	0, 195, 79, 12, 252, 124, 67, 128, 207, 51, 63, 112, 191, 179, 240, 140
	local.tee	9
	v128.const	128, 1, 9, 14, 13, 11, 7, 6, 15, 2, 12, 5, 10, 4, 3, 8
	local.tee	3
	local.get	3
	local.get	6
	local.get	4
	i8x16.shuffle	13, 14, 15, 12, 13, 14, 15, 12, 13, 14, 15, 12, 13, 14, 15, 12
	local.tee	12
	i32.const	4
	i8x16.shr_u
	local.tee	4
	i8x16.swizzle
	v128.const	128, 2, 1, 15, 9, 5, 14, 12, 13, 4, 11, 10, 7, 8, 6, 3
	local.tee	16
	local.get	12
	local.get	5
	v128.and
	local.tee	12
	i8x16.swizzle
	local.tee	8
	v128.xor
	i8x16.swizzle
	local.get	4
	local.get	12
	v128.xor
	local.tee	12
	v128.xor
	i8x16.swizzle
	v128.const	0, 230, 114, 183, 229, 198, 197, 35, 81, 180, 3, 113, 32, 151, 82, 148
	local.tee	17
	local.get	3
	local.get	3
	local.get	12
	i8x16.swizzle
	local.get	8
	v128.xor
	i8x16.swizzle
	local.get	4
	v128.xor
	i8x16.swizzle
	v128.xor
	v128.const	0, 0, 0, 0, 0, 0, 0, 0, 0, 0, 0, 0, 0, 0, 0, 0
	local.tee	4
	local.get	10
	i32.load8_u	0
	local.tee	18
	i32.const	4
	i32.shr_u
	i32.load8_u	.Lstatic.2
	local.get	18
	i32.const	15
	i32.and 
	i32.load8_u	.Lstatic.1
	i32.xor 
	i8x16.replace_lane	0
	local.get	7
	v128.xor
	local.tee	7
	local.get	4
	i8x16.shuffle	16, 16, 16, 16, 0, 1, 2, 3, 4, 5, 6, 7, 8, 9, 10, 11
	local.get	7
	v128.xor
	local.tee	7
	local.get	4
	i8x16.shuffle	16, 16, 16, 16, 16, 16, 16, 16, 0, 1, 2, 3, 4, 5, 6, 7
	v128.xor
	local.get	7
	v128.xor
	v128.const	110, 110, 110, 110, 110, 110, 110, 110, 110, 110, 110, 110, 110, 110, 110, 110
	local.tee	12
	v128.xor
	local.tee	8
	i8x16.shuffle	8, 9, 10, 11, 12, 13, 14, 15, 16, 17, 18, 19, 20, 21, 22, 23
	local.get	1
	i32.const	-96
	i32.add 
	i32.const	48
	i32.and 
	v128.load	.Lstatic.3:p2align=0
	i8x16.swizzle
	local.get	12
	v128.xor
	v128.store	0:p2align=0
	local.get	13
	i32.const	-16
	i32.add 
	local.get	6
	local.get	4
	i8x16.shuffle	16, 16, 16, 16, 0, 1, 2, 3, 4, 5, 6, 7, 8, 9, 10, 11
	local.get	6
	v128.xor
	local.tee	7
	local.get	4
	i8x16.shuffle	16, 16, 16, 16, 16, 16, 16, 16, 0, 1, 2, 3, 4, 5, 6, 7
	local.get	8
	local.get	4
	i8x16.shuffle	4, 5, 6, 7, 4, 5, 6, 7, 4, 5, 6, 7, 4, 5, 6, 7
	v128.xor
	local.get	7
	v128.xor
	local.tee	7
	local.get	1
	i32.const	-48
	i32.add 
	i32.const	48
	i32.and 
	v128.load	.Lstatic.3:p2align=0
	i8x16.swizzle
	local.get	12
	v128.xor
	v128.store	0:p2align=0
	local.get	7
	local.get	4
	i8x16.shuffle	16, 16, 16, 16, 0, 1, 2, 3, 4, 5, 6, 7, 8, 9, 10, 11
	local.get	7
	v128.xor
	local.tee	6
	local.get	4
	i8x16.shuffle	16, 16, 16, 16, 16, 16, 16, 16, 0, 1, 2, 3, 4, 5, 6, 7
	local.get	9
	local.get	3
	local.get	3
	local.get	7
	local.get	4
	i8x16.shuffle	13, 14, 15, 12, 13, 14, 15, 12, 13, 14, 15, 12, 13, 14, 15, 12
	local.tee	19
	i32.const	4
	i8x16.shr_u
	local.tee	7
	i8x16.swizzle
	local.get	16
	local.get	19
	local.get	5
	v128.and
	local.tee	19
	i8x16.swizzle
	local.tee	16
	v128.xor
	i8x16.swizzle
	local.get	7
	local.get	19
	v128.xor
	local.tee	19
	v128.xor
	i8x16.swizzle
	local.get	17
	local.get	3
	local.get	3
	local.get	19
	i8x16.swizzle
	local.get	16
	v128.xor
	i8x16.swizzle
	local.get	7
	v128.xor
	i8x16.swizzle
	v128.xor
	local.get	4
	local.get	10
	i32.const	1
	i32.add 
	i32.load8_u	0
	local.tee	13
	i32.const	4
	i32.shr_u
	i32.load8_u	.Lstatic.2
	local.get	13
	i32.const	15
	i32.and 
	i32.load8_u	.Lstatic.1
	i32.xor 
	i8x16.replace_lane	0
	local.get	8
	v128.xor
	local.tee	7
	local.get	4
	i8x16.shuffle	16, 16, 16, 16, 0, 1, 2, 3, 4, 5, 6, 7, 8, 9, 10, 11
	local.get	7
	v128.xor
	local.tee	7
	local.get	4
	i8x16.shuffle	16, 16, 16, 16, 16, 16, 16, 16, 0, 1, 2, 3, 4, 5, 6, 7
	v128.xor
	local.get	7
	v128.xor
	local.get	12
	v128.xor
	local.tee	7
	local.get	4
	i8x16.shuffle	4, 5, 6, 7, 4, 5, 6, 7, 4, 5, 6, 7, 4, 5, 6, 7
	v128.xor
	local.set	4
	block   	
	block   	
	local.get	2
	i64.const	3
	i64.ne  
	br_if   	0                               # 0: down to label9
# %bb.8:                                # %then.4.i1339.i
                                        #   in Loop: Header=BB0_7 Depth=1
	local.get	14
	local.get	7
	local.get	5
	v128.and
	i8x16.swizzle
	local.get	15
	local.get	7
	i32.const	4
	i8x16.shr_u
	i8x16.swizzle
	v128.xor
	v128.const	99, 99, 99, 99, 99, 99, 99, 99, 99, 99, 99, 99, 99, 99, 99, 99
	v128.xor
	local.set	3
	i32.const	192
	local.set	13
	br      	1                               # 1: down to label8
.LBB0_9:                                # %join.6.i1337.i
                                        #   in Loop: Header=BB0_7 Depth=1
	end_block                               # label9:
	local.get	7
	local.get	1
	i32.const	48
	i32.and 
	v128.load	.Lstatic.3:p2align=0
	i8x16.swizzle
	local.get	12
	v128.xor
	local.set	3
	local.get	11
	local.set	13
.LBB0_10:                               # %aes_permute__lane_keys__stored_key.exit1342.i
                                        #   in Loop: Header=BB0_7 Depth=1
	end_block                               # label8:
	local.get	4
	local.get	6
	v128.xor
	local.set	6
	local.get	0
	local.get	13
	i32.add 
	local.get	3
	v128.store	0:p2align=0
	local.get	10
	i32.const	2
	i32.add 
	local.set	10
	local.get	1
	i32.const	144
	i32.add 
	local.set	1
	local.get	11
	i32.const	48
	i32.add 
	local.set	11
	local.get	2
	i64.const	-3
	i64.add 
	local.tee	2
	i64.eqz
	i32.eqz
	br_if   	0                               # 0: up to label7
	br      	2                               # 2: down to label0
.LBB0_11:                               # %else.5.i
	end_loop
	end_block                               # label1:
	local.get	1
	i32.const	16
	i32.add 
	v128.load	0:p2align=0
	local.set	4
	local.get	0
	v128.const	0, 1, 92, 93, 224, 225, 188, 189, 80, 81, 12, 13, 176, 177, 236, 237
	local.tee	20
	local.get	7
	local.get	5
	v128.and
	i8x16.swizzle
	v128.const	0, 178, 181, 7, 58, 136, 143, 61, 172, 30, 25, 171, 150, 36, 35, 145
	local.tee	21
	local.get	7
	i32.const	4
	i8x16.shr_u
	i8x16.swizzle
	v128.xor
	v128.store	0:p2align=0
	local.get	0
	local.get	3
	local.get	4
	local.get	5
	v128.and
	i8x16.swizzle
	local.get	6
	local.get	4
	i32.const	4
	i8x16.shr_u
	i8x16.swizzle
	v128.xor
	local.tee	6
	v128.const	110, 110, 110, 110, 110, 110, 110, 110, 110, 110, 110, 110, 110, 110, 110, 110
	local.tee	12
	v128.xor
	local.get	4
	i8x16.shuffle	0, 13, 10, 7, 4, 1, 14, 11, 8, 5, 2, 15, 12, 9, 6, 3
	v128.store	16:p2align=0
	local.get	0
	i32.const	32
	i32.add 
	local.set	1
	i64.const	6
	local.set	2
	i32.const	.Lstatic.0
	local.set	11
	i32.const	96
	local.set	10
.LBB0_12:                               # %join.5.i651
                                        # =>This Inner Loop Header: Depth=1
	loop    	                                # label10:
	local.get	1
	v128.const	0, 230, 114, 183, 229, 198, 197, 35, 81, 180, 3, 113, 32, 151, 82, 148
	local.tee	8
	v128.const	128, 1, 9, 14, 13, 11, 7, 6, 15, 2, 12, 5, 10, 4, 3, 8
	local.tee	4
	local.get	4
	local.get	6
	local.get	4
	i8x16.shuffle	13, 14, 15, 12, 13, 14, 15, 12, 13, 14, 15, 12, 13, 14, 15, 12
	local.tee	9
	i32.const	4
	i8x16.shr_u
	local.tee	3
	local.get	9
	local.get	5
	v128.and
	local.tee	16
	v128.xor
	local.tee	17
	i8x16.swizzle
	v128.const	128, 2, 1, 15, 9, 5, 14, 12, 13, 4, 11, 10, 7, 8, 6, 3
	local.tee	9
	local.get	16
	i8x16.swizzle
	local.tee	19
	v128.xor
	i8x16.swizzle
	local.get	3
	v128.xor
	i8x16.swizzle
	v128.const	0, 195, 79, 12, 252, 124, 67, 128, 207, 51, 63, 112, 191, 179, 240, 140
	local.tee	16
	local.get	4
	local.get	4
	local.get	3
	i8x16.swizzle
	local.get	19
	v128.xor
	i8x16.swizzle
	local.get	17
	v128.xor
	i8x16.swizzle
	v128.xor
	v128.const	0, 0, 0, 0, 0, 0, 0, 0, 0, 0, 0, 0, 0, 0, 0, 0
	local.tee	3
	local.get	11
	i32.load8_u	0
	local.tee	13
	i32.const	4
	i32.shr_u
	i32.load8_u	.Lstatic.2
	local.get	13
	i32.const	15
	i32.and 
	i32.load8_u	.Lstatic.1
	i32.xor 
	i8x16.replace_lane	0
	local.get	7
	v128.xor
	local.tee	7
	local.get	3
	i8x16.shuffle	16, 16, 16, 16, 0, 1, 2, 3, 4, 5, 6, 7, 8, 9, 10, 11
	local.get	7
	v128.xor
	local.tee	7
	local.get	3
	i8x16.shuffle	16, 16, 16, 16, 16, 16, 16, 16, 0, 1, 2, 3, 4, 5, 6, 7
	v128.xor
	local.get	7
	v128.xor
	local.tee	15
	local.get	12
	v128.xor
	local.tee	7
	local.get	10
	i32.const	32
	i32.and 
	v128.load	.Lstatic.3:p2align=0
	i8x16.swizzle
	local.get	12
	v128.xor
	v128.store	0:p2align=0
	local.get	1
	i32.const	16
	i32.add 
	local.get	6
	local.get	3
	i8x16.shuffle	16, 16, 16, 16, 0, 1, 2, 3, 4, 5, 6, 7, 8, 9, 10, 11
	local.get	6
	v128.xor
	local.tee	17
	local.get	3
	i8x16.shuffle	16, 16, 16, 16, 16, 16, 16, 16, 0, 1, 2, 3, 4, 5, 6, 7
	local.get	16
	local.get	4
	local.get	4
	local.get	7
	local.get	4
	i8x16.shuffle	12, 13, 14, 15, 12, 13, 14, 15, 12, 13, 14, 15, 12, 13, 14, 15
	local.tee	19
	i32.const	4
	i8x16.shr_u
	local.tee	6
	i8x16.swizzle
	local.get	9
	local.get	19
	local.get	5
	v128.and
	local.tee	19
	i8x16.swizzle
	local.tee	14
	v128.xor
	i8x16.swizzle
	local.get	6
	local.get	19
	v128.xor
	local.tee	19
	v128.xor
	i8x16.swizzle
	v128.xor
	local.get	8
	local.get	4
	local.get	4
	local.get	19
	i8x16.swizzle
	local.get	14
	v128.xor
	i8x16.swizzle
	local.get	6
	v128.xor
	i8x16.swizzle
	v128.xor
	local.get	17
	v128.xor
	local.get	12
	v128.xor
	local.tee	6
	local.get	10
	i32.const	48
	i32.add 
	i32.const	48
	i32.and 
	v128.load	.Lstatic.3:p2align=0
	i8x16.swizzle
	local.get	12
	v128.xor
	v128.store	0:p2align=0
	local.get	11
	i32.const	1
	i32.add 
	local.set	11
	local.get	10
	i32.const	96
	i32.add 
	local.set	10
	local.get	1
	i32.const	32
	i32.add 
	local.set	1
	local.get	2
	i64.const	-1
	i64.add 
	local.tee	2
	i64.const	0
	i64.ne  
	br_if   	0                               # 0: up to label10
# %bb.13:                               # %aes_planes__expansion__expand_256____05c2c6c54e82e59f_.exit
	end_loop
	local.get	0
	local.get	20
	local.get	15
	v128.const	224, 110, 110, 110, 110, 110, 110, 110, 110, 110, 110, 110, 110, 110, 110, 110
	v128.xor
	local.tee	7
	local.get	3
	i8x16.shuffle	16, 16, 16, 16, 0, 1, 2, 3, 4, 5, 6, 7, 8, 9, 10, 11
	local.get	7
	v128.xor
	local.tee	17
	local.get	3
	i8x16.shuffle	16, 16, 16, 16, 16, 16, 16, 16, 0, 1, 2, 3, 4, 5, 6, 7
	local.get	16
	local.get	4
	local.get	4
	local.get	6
	local.get	4
	i8x16.shuffle	13, 14, 15, 12, 13, 14, 15, 12, 13, 14, 15, 12, 13, 14, 15, 12
	local.tee	3
	i32.const	4
	i8x16.shr_u
	local.tee	7
	i8x16.swizzle
	local.get	9
	local.get	3
	local.get	5
	v128.and
	local.tee	3
	i8x16.swizzle
	local.tee	6
	v128.xor
	i8x16.swizzle
	local.get	7
	local.get	3
	v128.xor
	local.tee	3
	v128.xor
	i8x16.swizzle
	v128.xor
	local.get	8
	local.get	4
	local.get	4
	local.get	3
	i8x16.swizzle
	local.get	6
	v128.xor
	i8x16.swizzle
	local.get	7
	v128.xor
	i8x16.swizzle
	v128.xor
	local.get	17
	v128.xor
	local.get	12
	v128.xor
	local.tee	4
	local.get	5
	v128.and
	i8x16.swizzle
	local.get	21
	local.get	4
	i32.const	4
	i8x16.shr_u
	i8x16.swizzle
	v128.xor
	v128.const	99, 99, 99, 99, 99, 99, 99, 99, 99, 99, 99, 99, 99, 99, 99, 99
	v128.xor
	v128.store	224:p2align=0
.LBB0_14:                               # %aes_planes__expansion__expand____05c2c6c54e82e59f_.exit
	end_block                               # label0:
                                        # fallthrough-return
	end_function
                                        # -- End function
	.section	.text.aes_ctr__add_in_batches__add_keystream____ef80964e0b8d42c0_,"",@
	.type	aes_ctr__add_in_batches__add_keystream____ef80964e0b8d42c0_,@function # -- Begin function aes_ctr__add_in_batches__add_keystream____ef80964e0b8d42c0_
aes_ctr__add_in_batches__add_keystream____ef80964e0b8d42c0_: # @aes_ctr__add_in_batches__add_keystream____ef80964e0b8d42c0_
	.functype	aes_ctr__add_in_batches__add_keystream____ef80964e0b8d42c0_ (i32, i32, i64, i32, i64) -> ()
	.local  	i32, i64, i64, i64, i64, i64, v128, i32, i64
# %bb.0:                                # %start
	global.get	__stack_pointer
	i32.const	304
	i32.sub 
	local.tee	5
	global.set	__stack_pointer
	local.get	5
	local.get	1
	v128.load	0:p2align=0
	v128.store	0:p2align=3
	i64.const	0
	local.set	6
	local.get	5
	i64.const	0
	i64.store	16
	block   	
	block   	
	local.get	4
	i64.const	16
	local.get	2
	i64.const	15
	i64.and 
	local.tee	7
	i64.sub 
	i64.gt_u
	br_if   	0                               # 0: down to label12
# %bb.1:                                # %then.1.i
	local.get	5
	local.get	5
	i64.load	8
	local.tee	8
	i64.const	56
	i64.shl 
	local.get	8
	i64.const	65280
	i64.and 
	i64.const	40
	i64.shl 
	i64.or  
	local.get	8
	i64.const	16711680
	i64.and 
	i64.const	24
	i64.shl 
	local.get	8
	i64.const	4278190080
	i64.and 
	i64.const	8
	i64.shl 
	i64.or  
	i64.or  
	local.get	8
	i64.const	8
	i64.shr_u
	i64.const	4278190080
	i64.and 
	local.get	8
	i64.const	24
	i64.shr_u
	i64.const	16711680
	i64.and 
	i64.or  
	local.get	8
	i64.const	40
	i64.shr_u
	i64.const	65280
	i64.and 
	local.get	8
	i64.const	56
	i64.shr_u
	i64.or  
	i64.or  
	i64.or  
	local.tee	9
	local.get	2
	i64.const	4
	i64.shr_u
	i64.add 
	local.tee	10
	i64x2.splat
	local.get	5
	i64.load	0
	local.tee	8
	i64.const	56
	i64.shl 
	local.get	8
	i64.const	65280
	i64.and 
	i64.const	40
	i64.shl 
	i64.or  
	local.get	8
	i64.const	16711680
	i64.and 
	i64.const	24
	i64.shl 
	local.get	8
	i64.const	4278190080
	i64.and 
	i64.const	8
	i64.shl 
	i64.or  
	i64.or  
	local.get	8
	i64.const	8
	i64.shr_u
	i64.const	4278190080
	i64.and 
	local.get	8
	i64.const	24
	i64.shr_u
	i64.const	16711680
	i64.and 
	i64.or  
	local.get	8
	i64.const	40
	i64.shr_u
	i64.const	65280
	i64.and 
	local.get	8
	i64.const	56
	i64.shr_u
	i64.or  
	i64.or  
	i64.or  
	local.get	10
	local.get	9
	i64.lt_u
	i64.extend_i32_u
	i64.add 
	i64x2.replace_lane	1
	local.get	11
	i8x16.shuffle	15, 14, 13, 12, 11, 10, 9, 8, 7, 6, 5, 4, 3, 2, 1, 0
	v128.store	48:p2align=0
	local.get	0
	i32.const	16
	i32.add 
	i32.load	0:p2align=0
	local.get	0
	i32.const	24
	i32.add 
	i64.load	0:p2align=0
	local.get	5
	i32.const	48
	i32.add 
	i64.const	1
	call	aes_permute__blocks__process_on_lanes____06aaae76f5856d0a_
	block   	
	local.get	7
	i64.eqz
	br_if   	0                               # 0: down to label13
# %bb.2:                                # %then.1.i
	local.get	4
	i64.eqz
	br_if   	0                               # 0: down to label13
# %bb.3:                                # %join.8.i72.i.i.preheader
	i64.const	0
	local.set	8
	block   	
	local.get	4
	i64.const	1
	i64.eq  
	br_if   	0                               # 0: down to label14
# %bb.4:                                # %join.8.i72.i.i.preheader.new
	local.get	4
	i64.const	1
	i64.and 
	local.set	10
	local.get	4
	i64.const	4294967294
	i64.and 
	local.set	9
	local.get	5
	i32.const	48
	i32.add 
	local.get	2
	i32.wrap_i64
	i32.const	15
	i32.and 
	i32.add 
	local.set	0
	i64.const	0
	local.set	8
	local.get	3
	local.set	1
.LBB1_5:                                # %join.8.i72.i.i
                                        # =>This Inner Loop Header: Depth=1
	loop    	                                # label15:
	local.get	1
	local.get	1
	i32.load8_u	0
	local.get	0
	i32.load8_u	0
	i32.xor 
	i32.store8	0
	local.get	1
	i32.const	1
	i32.add 
	local.tee	12
	local.get	12
	i32.load8_u	0
	local.get	0
	i32.const	1
	i32.add 
	i32.load8_u	0
	i32.xor 
	i32.store8	0
	local.get	1
	i32.const	2
	i32.add 
	local.set	1
	local.get	0
	i32.const	2
	i32.add 
	local.set	0
	local.get	9
	local.get	8
	i64.const	2
	i64.add 
	local.tee	8
	i64.ne  
	br_if   	0                               # 0: up to label15
# %bb.6:                                # %join.3.i.i.i.loopexit.unr-lcssa
	end_loop
	local.get	4
	local.set	6
	local.get	10
	i64.eqz
	br_if   	1                               # 1: down to label13
.LBB1_7:                                # %join.8.i72.i.i.epil.preheader
	end_block                               # label14:
	local.get	3
	local.get	8
	i32.wrap_i64
	i32.add 
	local.tee	1
	local.get	1
	i32.load8_u	0
	local.get	5
	i32.const	48
	i32.add 
	local.get	8
	local.get	7
	i64.add 
	i32.wrap_i64
	i32.add 
	i32.load8_u	0
	i32.xor 
	i32.store8	0
	local.get	4
	local.set	6
.LBB1_8:                                # %join.3.i.i.i
	end_block                               # label13:
	block   	
	local.get	4
	local.get	6
	i64.sub 
	local.tee	8
	i64.const	16
	i64.lt_u
	br_if   	0                               # 0: down to label16
# %bb.9:                                # %join.8.i.i.i.preheader
	i64.const	0
	local.get	6
	i64.sub 
	local.set	9
	local.get	3
	local.get	6
	i32.wrap_i64
	local.tee	0
	i32.add 
	local.set	1
	local.get	2
	i32.wrap_i64
	i32.const	15
	i32.and 
	local.get	0
	i32.add 
	local.set	0
.LBB1_10:                               # %join.8.i.i.i
                                        # =>This Inner Loop Header: Depth=1
	loop    	                                # label17:
	local.get	1
	local.get	5
	i32.const	48
	i32.add 
	local.get	0
	i32.const	-16
	i32.and 
	i32.add 
	v128.load	0:p2align=0
	local.get	1
	v128.load	0:p2align=0
	v128.xor
	v128.store	0:p2align=0
	local.get	0
	i32.const	16
	i32.add 
	local.set	0
	local.get	1
	i32.const	16
	i32.add 
	local.set	1
	local.get	4
	local.get	9
	i64.const	-16
	i64.add 
	local.tee	9
	i64.add 
	local.tee	8
	i64.const	15
	i64.gt_u
	br_if   	0                               # 0: up to label17
# %bb.11:                               # %after.4.i.i.i.loopexit
	end_loop
	i64.const	0
	local.get	9
	i64.sub 
	local.set	6
.LBB1_12:                               # %after.4.i.i.i
	end_block                               # label16:
	local.get	6
	local.get	4
	i64.ge_u
	br_if   	1                               # 1: down to label11
# %bb.13:                               # %then.9.i.i.i
	local.get	8
	i64.eqz
	br_if   	1                               # 1: down to label11
# %bb.14:                               # %join.8.i15.i.i.preheader
	local.get	3
	local.get	6
	i32.wrap_i64
	i32.add 
	local.set	1
	local.get	5
	i32.const	48
	i32.add 
	local.get	6
	local.get	7
	i64.add 
	i32.wrap_i64
	i32.const	-16
	i32.and 
	i32.add 
	local.set	0
.LBB1_15:                               # %join.8.i15.i.i
                                        # =>This Inner Loop Header: Depth=1
	loop    	                                # label18:
	local.get	1
	local.get	1
	i32.load8_u	0
	local.get	0
	i32.load8_u	0
	i32.xor 
	i32.store8	0
	local.get	0
	i32.const	1
	i32.add 
	local.set	0
	local.get	1
	i32.const	1
	i32.add 
	local.set	1
	local.get	8
	i64.const	-1
	i64.add 
	local.tee	8
	i64.const	0
	i64.ne  
	br_if   	0                               # 0: up to label18
	br      	2                               # 2: down to label11
.LBB1_16:                               # %else.2.i
	end_loop
	end_block                               # label12:
	local.get	5
	i32.const	0
	i32.store	36
	local.get	5
	local.get	3
	i32.store	32
	local.get	5
	local.get	2
	i64.store	24
	local.get	5
	local.get	4
	i64.store	40
	local.get	5
	local.get	5
	i32.store	16
	block   	
	local.get	4
	local.get	7
	i64.add 
	i64.const	113
	i64.lt_u
	br_if   	0                               # 0: down to label19
# %bb.17:                               # %then.1.i.i
	local.get	0
	i32.load	0:p2align=0
	local.tee	1
	local.get	0
	i64.load	8:p2align=0
	local.tee	8
	local.get	1
	local.get	8
	local.get	5
	i32.const	16
	i32.add 
	call	aes_hybrid__closures__lend_planes____b70de9c75faff52b_
	br      	1                               # 1: down to label11
.LBB1_18:                               # %else.2.i.i
	end_block                               # label19:
	block   	
	block   	
	local.get	7
	i64.eqz
	i32.eqz
	br_if   	0                               # 0: down to label21
# %bb.19:
	i64.const	0
	local.set	7
	br      	1                               # 1: down to label20
.LBB1_20:                               # %then.1.i.i12.i
	end_block                               # label21:
	local.get	0
	local.get	5
	local.get	2
	i64.const	0
	local.get	3
	local.get	4
	call	aes_ctr__add_in_batches__add_next____2d16df7ebc44f3ac_
	local.set	7
.LBB1_21:                               # %join.3.i.i13.i
	end_block                               # label20:
	block   	
	local.get	4
	local.get	7
	i64.sub 
	i64.const	64
	i64.lt_u
	br_if   	0                               # 0: down to label22
# %bb.22:                               # %join.11.lr.ph.i.i.i
	local.get	5
	i64.load	0
	local.tee	8
	i64.const	56
	i64.shl 
	local.get	8
	i64.const	65280
	i64.and 
	i64.const	40
	i64.shl 
	i64.or  
	local.get	8
	i64.const	16711680
	i64.and 
	i64.const	24
	i64.shl 
	local.get	8
	i64.const	4278190080
	i64.and 
	i64.const	8
	i64.shl 
	i64.or  
	i64.or  
	local.get	8
	i64.const	8
	i64.shr_u
	i64.const	4278190080
	i64.and 
	local.get	8
	i64.const	24
	i64.shr_u
	i64.const	16711680
	i64.and 
	i64.or  
	local.get	8
	i64.const	40
	i64.shr_u
	i64.const	65280
	i64.and 
	local.get	8
	i64.const	56
	i64.shr_u
	i64.or  
	i64.or  
	i64.or  
	local.set	13
	local.get	5
	i64.load	8
	local.tee	8
	i64.const	56
	i64.shl 
	local.get	8
	i64.const	65280
	i64.and 
	i64.const	40
	i64.shl 
	i64.or  
	local.get	8
	i64.const	16711680
	i64.and 
	i64.const	24
	i64.shl 
	local.get	8
	i64.const	4278190080
	i64.and 
	i64.const	8
	i64.shl 
	i64.or  
	i64.or  
	local.get	8
	i64.const	8
	i64.shr_u
	i64.const	4278190080
	i64.and 
	local.get	8
	i64.const	24
	i64.shr_u
	i64.const	16711680
	i64.and 
	i64.or  
	local.get	8
	i64.const	40
	i64.shr_u
	i64.const	65280
	i64.and 
	local.get	8
	i64.const	56
	i64.shr_u
	i64.or  
	i64.or  
	i64.or  
	local.set	10
.LBB1_23:                               # %join.11.i.i.i
                                        # =>This Loop Header: Depth=1
                                        #     Child Loop BB1_24 Depth 2
	loop    	                                # label23:
	i32.const	0
	local.set	1
	local.get	5
	i32.const	48
	i32.add 
	i32.const	0
	i32.const	256
	memory.fill	0
	i64.const	4
	local.set	6
	local.get	13
	local.get	10
	local.get	7
	local.get	2
	i64.add 
	i64.const	4
	i64.shr_u
	i64.add 
	local.tee	8
	local.get	10
	i64.lt_u
	i64.extend_i32_u
	i64.add 
	local.set	9
.LBB1_24:                               # %join.5.i.i.i.i.i
                                        #   Parent Loop BB1_23 Depth=1
                                        # =>  This Inner Loop Header: Depth=2
	loop    	                                # label24:
	local.get	5
	i32.const	48
	i32.add 
	local.get	1
	i32.add 
	local.get	8
	i64x2.splat
	local.get	9
	i64x2.replace_lane	1
	local.get	11
	i8x16.shuffle	15, 14, 13, 12, 11, 10, 9, 8, 7, 6, 5, 4, 3, 2, 1, 0
	v128.store	0
	local.get	1
	i32.const	16
	i32.add 
	local.set	1
	local.get	9
	local.get	8
	i64.const	1
	i64.add 
	local.tee	8
	i64.eqz
	i64.extend_i32_u
	i64.add 
	local.set	9
	local.get	6
	i64.const	-1
	i64.add 
	local.tee	6
	i64.const	0
	i64.ne  
	br_if   	0                               # 0: up to label24
# %bb.25:                               # %aes_ctr__counter_blocks__WholeBlockCounterBlocks__put.exit.i.i.i.i
                                        #   in Loop: Header=BB1_23 Depth=1
	end_loop
	local.get	0
	i32.const	16
	i32.add 
	i32.load	0:p2align=0
	local.get	0
	i32.const	24
	i32.add 
	i64.load	0:p2align=0
	local.get	5
	i32.const	48
	i32.add 
	i64.const	4
	call	aes_permute__blocks__process_on_lanes____06aaae76f5856d0a_
	local.get	3
	local.get	7
	i32.wrap_i64
	i32.add 
	local.tee	1
	local.get	5
	v128.load	48
	local.get	1
	v128.load	0:p2align=0
	v128.xor
	v128.store	0:p2align=0
	local.get	1
	i32.const	16
	i32.add 
	local.tee	12
	local.get	5
	v128.load	64
	local.get	12
	v128.load	0:p2align=0
	v128.xor
	v128.store	0:p2align=0
	local.get	1
	i32.const	32
	i32.add 
	local.tee	12
	local.get	5
	v128.load	80
	local.get	12
	v128.load	0:p2align=0
	v128.xor
	v128.store	0:p2align=0
	local.get	1
	i32.const	48
	i32.add 
	local.tee	1
	local.get	5
	v128.load	96
	local.get	1
	v128.load	0:p2align=0
	v128.xor
	v128.store	0:p2align=0
	local.get	4
	local.get	7
	i64.const	64
	i64.add 
	local.tee	7
	i64.sub 
	i64.const	63
	i64.gt_u
	br_if   	0                               # 0: up to label23
.LBB1_26:                               # %loop.13.preheader.i.i.i
	end_loop
	end_block                               # label22:
	local.get	7
	local.get	4
	i64.ge_u
	br_if   	0                               # 0: down to label11
.LBB1_27:                               # %join.16.i.i.i
                                        # =>This Inner Loop Header: Depth=1
	loop    	                                # label25:
	local.get	0
	local.get	5
	local.get	2
	local.get	7
	local.get	3
	local.get	4
	call	aes_ctr__add_in_batches__add_next____2d16df7ebc44f3ac_
	local.tee	7
	local.get	4
	i64.lt_u
	br_if   	0                               # 0: up to label25
.LBB1_28:                               # %aes_ctr__add_in_batches__add_stream____c11b85b865c7c27a_.exit
	end_loop
	end_block                               # label11:
	local.get	5
	i32.const	304
	i32.add 
	global.set	__stack_pointer
                                        # fallthrough-return
	end_function
                                        # -- End function
	.section	.text.aes_hybrid__borrowed_cipher__BorrowedCipher__process_blocks____ee6d29ed0cc28f94_,"",@
	.type	aes_hybrid__borrowed_cipher__BorrowedCipher__process_blocks____ee6d29ed0cc28f94_,@function # -- Begin function aes_hybrid__borrowed_cipher__BorrowedCipher__process_blocks____ee6d29ed0cc28f94_
aes_hybrid__borrowed_cipher__BorrowedCipher__process_blocks____ee6d29ed0cc28f94_: # @aes_hybrid__borrowed_cipher__BorrowedCipher__process_blocks____ee6d29ed0cc28f94_
	.functype	aes_hybrid__borrowed_cipher__BorrowedCipher__process_blocks____ee6d29ed0cc28f94_ (i32, i32, i64) -> ()
	.local  	i64
# %bb.0:                                # %start
	i64.const	0
	local.set	3
	block   	
	local.get	2
	i64.const	15
	i64.lt_u
	br_if   	0                               # 0: down to label26
# %bb.1:                                # %join.6.i
	local.get	0
	i32.load	0:p2align=0
	local.get	0
	i64.load	8:p2align=0
	local.get	1
	local.get	2
	local.get	2
	i64.const	7
	i64.and 
	local.tee	3
	i64.const	0
	local.get	3
	i64.const	6
	i64.lt_u
	i64.select
	i64.sub 
	local.tee	3
	call	aes_hybrid__batches__process_on_planes____a60badf655ff5009_
.LBB2_2:                                # %aes_hybrid__borrowed_cipher__process_first_on_planes____ee6d29ed0cc28f94_.exit
	end_block                               # label26:
	local.get	0
	i32.const	16
	i32.add 
	i32.load	0:p2align=0
	local.get	0
	i32.const	24
	i32.add 
	i64.load	0:p2align=0
	local.get	1
	local.get	3
	i32.wrap_i64
	i32.const	4
	i32.shl 
	i32.add 
	local.get	2
	local.get	3
	i64.sub 
	call	aes_permute__blocks__process_on_lanes____06aaae76f5856d0a_
                                        # fallthrough-return
	end_function
                                        # -- End function
	.section	.text.aes_hybrid__batches__process_on_planes____a60badf655ff5009_,"",@
	.type	aes_hybrid__batches__process_on_planes____a60badf655ff5009_,@function # -- Begin function aes_hybrid__batches__process_on_planes____a60badf655ff5009_
aes_hybrid__batches__process_on_planes____a60badf655ff5009_: # @aes_hybrid__batches__process_on_planes____a60badf655ff5009_
	.functype	aes_hybrid__batches__process_on_planes____a60badf655ff5009_ (i32, i64, i32, i64) -> ()
	.local  	i32
# %bb.0:                                # %start
	global.get	__stack_pointer
	i32.const	1920
	i32.sub 
	local.tee	4
	global.set	__stack_pointer
	local.get	4
	i32.const	128
	i32.add 
	i32.const	0
	i32.const	1792
	memory.fill	0
	local.get	4
	local.get	0
	local.get	1
	call	aes_hybrid__plane_keys__store_planes____e29e0540aa8bc136_
	local.get	4
	local.get	1
	i64.const	3
	i64.shl 
	local.get	2
	local.get	3
	call	aes_hybrid__batches__process_batches_and_rest____a60badf655ff5009_
	local.get	4
	call	aes_cipher__zeroize__zeroize_words____e29e0540aa8bc136_
	call	aes_cipher__zeroize__stack__wipe_stack____1792_
	local.get	4
	i32.const	1920
	i32.add 
	global.set	__stack_pointer
                                        # fallthrough-return
	end_function
                                        # -- End function
	.section	.text.aes_hybrid__plane_keys__store_planes____e29e0540aa8bc136_,"",@
	.type	aes_hybrid__plane_keys__store_planes____e29e0540aa8bc136_,@function # -- Begin function aes_hybrid__plane_keys__store_planes____e29e0540aa8bc136_
aes_hybrid__plane_keys__store_planes____e29e0540aa8bc136_: # @aes_hybrid__plane_keys__store_planes____e29e0540aa8bc136_
	.functype	aes_hybrid__plane_keys__store_planes____e29e0540aa8bc136_ (i32, i32, i64) -> ()
	.local  	v128, v128, v128, v128, v128, v128, v128, v128, v128, i64, i32, i64, i32
# %bb.0:                                # %start
	local.get	0
	local.get	1
	v128.load	0:p2align=0
	local.get	3
	i8x16.shuffle	0, 4, 8, 12, 1, 5, 9, 13, 2, 6, 10, 14, 3, 7, 11, 15
	local.tee	3
	i32.const	7
	i8x16.shr_s
	v128.store	112
	local.get	0
	local.get	3
	v128.const	64, 64, 64, 64, 64, 64, 64, 64, 64, 64, 64, 64, 64, 64, 64, 64
	local.tee	4
	v128.and
	v128.const	0, 0, 0, 0, 0, 0, 0, 0, 0, 0, 0, 0, 0, 0, 0, 0
	local.tee	5
	i8x16.ne
	v128.store	96
	local.get	0
	local.get	3
	v128.const	32, 32, 32, 32, 32, 32, 32, 32, 32, 32, 32, 32, 32, 32, 32, 32
	local.tee	6
	v128.and
	local.get	5
	i8x16.ne
	v128.store	80
	local.get	0
	local.get	3
	v128.const	16, 16, 16, 16, 16, 16, 16, 16, 16, 16, 16, 16, 16, 16, 16, 16
	local.tee	7
	v128.and
	local.get	5
	i8x16.ne
	v128.store	64
	local.get	0
	local.get	3
	v128.const	8, 8, 8, 8, 8, 8, 8, 8, 8, 8, 8, 8, 8, 8, 8, 8
	local.tee	8
	v128.and
	local.get	5
	i8x16.ne
	v128.store	48
	local.get	0
	local.get	3
	v128.const	4, 4, 4, 4, 4, 4, 4, 4, 4, 4, 4, 4, 4, 4, 4, 4
	local.tee	9
	v128.and
	local.get	5
	i8x16.ne
	v128.store	32
	local.get	0
	local.get	3
	v128.const	2, 2, 2, 2, 2, 2, 2, 2, 2, 2, 2, 2, 2, 2, 2, 2
	local.tee	10
	v128.and
	local.get	5
	i8x16.ne
	v128.store	16
	local.get	0
	local.get	3
	v128.const	1, 1, 1, 1, 1, 1, 1, 1, 1, 1, 1, 1, 1, 1, 1, 1
	local.tee	11
	v128.and
	i8x16.neg
	v128.store	0
	block   	
	local.get	2
	i64.const	-1
	i64.add 
	local.tee	12
	i64.const	2
	i64.lt_u
	br_if   	0                               # 0: down to label27
# %bb.1:                                # %join.5.preheader
	local.get	1
	i32.const	16
	i32.add 
	local.set	13
	local.get	2
	i64.const	-2
	i64.add 
	local.set	14
	local.get	0
	local.set	15
.LBB4_2:                                # %join.5
                                        # =>This Inner Loop Header: Depth=1
	loop    	                                # label28:
	local.get	15
	i32.const	240
	i32.add 
	v128.const	0, 1, 92, 93, 224, 225, 188, 189, 80, 81, 12, 13, 176, 177, 236, 237
	local.get	13
	v128.load	0:p2align=0
	local.tee	3
	v128.const	15, 15, 15, 15, 15, 15, 15, 15, 15, 15, 15, 15, 15, 15, 15, 15
	v128.and
	i8x16.swizzle
	v128.const	0, 178, 181, 7, 58, 136, 143, 61, 172, 30, 25, 171, 150, 36, 35, 145
	local.get	3
	i32.const	4
	i8x16.shr_u
	i8x16.swizzle
	v128.xor
	local.get	3
	i8x16.shuffle	0, 4, 8, 12, 1, 5, 9, 13, 2, 6, 10, 14, 3, 7, 11, 15
	local.tee	3
	i32.const	7
	i8x16.shr_s
	v128.store	0
	local.get	15
	i32.const	224
	i32.add 
	local.get	3
	local.get	4
	v128.and
	local.get	5
	i8x16.ne
	v128.store	0
	local.get	15
	i32.const	208
	i32.add 
	local.get	3
	local.get	6
	v128.and
	local.get	5
	i8x16.ne
	v128.store	0
	local.get	15
	i32.const	192
	i32.add 
	local.get	3
	local.get	7
	v128.and
	local.get	5
	i8x16.ne
	v128.store	0
	local.get	15
	i32.const	176
	i32.add 
	local.get	3
	local.get	8
	v128.and
	local.get	5
	i8x16.ne
	v128.store	0
	local.get	15
	i32.const	160
	i32.add 
	local.get	3
	local.get	9
	v128.and
	local.get	5
	i8x16.ne
	v128.store	0
	local.get	15
	i32.const	144
	i32.add 
	local.get	3
	local.get	10
	v128.and
	local.get	5
	i8x16.ne
	v128.store	0
	local.get	15
	i32.const	128
	i32.add 
	local.tee	15
	local.get	3
	local.get	11
	v128.and
	i8x16.neg
	v128.store	0
	local.get	13
	i32.const	16
	i32.add 
	local.set	13
	local.get	14
	i64.const	-1
	i64.add 
	local.tee	14
	i64.const	0
	i64.ne  
	br_if   	0                               # 0: up to label28
.LBB4_3:                                # %after.1
	end_loop
	end_block                               # label27:
	local.get	0
	local.get	2
	i32.wrap_i64
	i32.const	7
	i32.shl 
	i32.add 
	local.tee	15
	i32.const	-16
	i32.add 
	local.get	1
	local.get	12
	i32.wrap_i64
	i32.const	4
	i32.shl 
	i32.add 
	v128.load	0:p2align=0
	local.get	3
	i8x16.shuffle	0, 4, 8, 12, 1, 5, 9, 13, 2, 6, 10, 14, 3, 7, 11, 15
	local.tee	3
	i32.const	7
	i8x16.shr_s
	v128.store	0
	local.get	15
	i32.const	-32
	i32.add 
	local.get	3
	local.get	4
	v128.and
	local.get	5
	i8x16.ne
	v128.store	0
	local.get	15
	i32.const	-48
	i32.add 
	local.get	3
	local.get	6
	v128.and
	local.get	5
	i8x16.ne
	v128.store	0
	local.get	15
	i32.const	-64
	i32.add 
	local.get	3
	local.get	7
	v128.and
	local.get	5
	i8x16.ne
	v128.store	0
	local.get	15
	i32.const	-80
	i32.add 
	local.get	3
	local.get	8
	v128.and
	local.get	5
	i8x16.ne
	v128.store	0
	local.get	15
	i32.const	-96
	i32.add 
	local.get	3
	local.get	9
	v128.and
	local.get	5
	i8x16.ne
	v128.store	0
	local.get	15
	i32.const	-112
	i32.add 
	local.get	3
	local.get	10
	v128.and
	local.get	5
	i8x16.ne
	v128.store	0
	local.get	15
	i32.const	-128
	i32.add 
	local.get	3
	local.get	11
	v128.and
	i8x16.neg
	v128.store	0
                                        # fallthrough-return
	end_function
                                        # -- End function
	.section	.text.aes_hybrid__batches__process_batches_and_rest____a60badf655ff5009_,"",@
	.type	aes_hybrid__batches__process_batches_and_rest____a60badf655ff5009_,@function # -- Begin function aes_hybrid__batches__process_batches_and_rest____a60badf655ff5009_
aes_hybrid__batches__process_batches_and_rest____a60badf655ff5009_: # @aes_hybrid__batches__process_batches_and_rest____a60badf655ff5009_
	.functype	aes_hybrid__batches__process_batches_and_rest____a60badf655ff5009_ (i32, i64, i32, i64) -> ()
	.local  	i32, i64, i64, i64, i32, i32, v128, v128, v128, i32, v128, v128, v128, i32, v128, v128, i32, v128, v128, v128, v128, v128, v128, v128, i32, v128, v128, v128, i32, v128, v128, i32, v128, v128, v128, v128
# %bb.0:                                # %join.5.i.lr.ph
	global.get	__stack_pointer
	i32.const	128
	i32.sub 
	local.tee	4
	global.set	__stack_pointer
	local.get	3
	i64.const	4294967288
	i64.and 
	local.set	5
	local.get	1
	i64.const	3
	i64.shr_u
	i64.const	-1
	i64.add 
	local.set	6
	i64.const	0
	local.set	7
	local.get	2
	local.set	8
.LBB5_1:                                # %join.5.i
                                        # =>This Inner Loop Header: Depth=1
	loop    	                                # label29:
	local.get	4
	local.get	8
	i32.const	64
	i32.add 
	local.tee	9
	v128.load	0:p2align=0
	local.get	10
	i8x16.shuffle	0, 4, 8, 12, 1, 5, 9, 13, 2, 6, 10, 14, 3, 7, 11, 15
	local.tee	11
	i32.const	1
	i8x16.shr_u
	local.tee	12
	local.get	8
	i32.const	80
	i32.add 
	local.tee	13
	v128.load	0:p2align=0
	local.get	10
	i8x16.shuffle	0, 4, 8, 12, 1, 5, 9, 13, 2, 6, 10, 14, 3, 7, 11, 15
	local.tee	14
	v128.const	85, 85, 85, 85, 85, 85, 85, 85, 85, 85, 85, 85, 85, 85, 85, 85
	local.tee	10
	v128.bitselect
	local.tee	15
	i32.const	2
	i8x16.shr_u
	local.tee	16
	local.get	8
	i32.const	96
	i32.add 
	local.tee	17
	v128.load	0:p2align=0
	local.get	10
	i8x16.shuffle	0, 4, 8, 12, 1, 5, 9, 13, 2, 6, 10, 14, 3, 7, 11, 15
	local.tee	18
	i32.const	1
	i8x16.shr_u
	local.tee	19
	local.get	8
	i32.const	112
	i32.add 
	local.tee	20
	v128.load	0:p2align=0
	local.get	10
	i8x16.shuffle	0, 4, 8, 12, 1, 5, 9, 13, 2, 6, 10, 14, 3, 7, 11, 15
	local.tee	21
	local.get	10
	v128.bitselect
	local.tee	22
	v128.const	51, 51, 51, 51, 51, 51, 51, 51, 51, 51, 51, 51, 51, 51, 51, 51
	local.tee	23
	v128.bitselect
	local.tee	24
	v128.const	15, 15, 15, 15, 15, 15, 15, 15, 15, 15, 15, 15, 15, 15, 15, 15
	local.tee	25
	v128.and
	local.get	8
	v128.load	0:p2align=0
	local.get	10
	i8x16.shuffle	0, 4, 8, 12, 1, 5, 9, 13, 2, 6, 10, 14, 3, 7, 11, 15
	local.tee	26
	i32.const	1
	i8x16.shr_u
	local.tee	27
	local.get	8
	i32.const	16
	i32.add 
	local.tee	28
	v128.load	0:p2align=0
	local.get	10
	i8x16.shuffle	0, 4, 8, 12, 1, 5, 9, 13, 2, 6, 10, 14, 3, 7, 11, 15
	local.tee	29
	local.get	10
	v128.bitselect
	local.tee	30
	i32.const	2
	i8x16.shr_u
	local.tee	31
	local.get	8
	i32.const	32
	i32.add 
	local.tee	32
	v128.load	0:p2align=0
	local.get	10
	i8x16.shuffle	0, 4, 8, 12, 1, 5, 9, 13, 2, 6, 10, 14, 3, 7, 11, 15
	local.tee	33
	i32.const	1
	i8x16.shr_u
	local.tee	34
	local.get	8
	i32.const	48
	i32.add 
	local.tee	35
	v128.load	0:p2align=0
	local.get	10
	i8x16.shuffle	0, 4, 8, 12, 1, 5, 9, 13, 2, 6, 10, 14, 3, 7, 11, 15
	local.tee	36
	local.get	10
	v128.bitselect
	local.tee	37
	local.get	23
	v128.bitselect
	local.tee	38
	i32.const	4
	i8x16.shr_u
	v128.xor
	local.tee	39
	local.get	24
	v128.xor
	v128.store	112
	local.get	4
	local.get	39
	i32.const	4
	i8x16.shl
	local.get	38
	v128.xor
	v128.store	48
	local.get	4
	local.get	14
	local.get	12
	v128.xor
	local.get	10
	v128.and
	i32.const	1
	i8x16.shl
	local.get	11
	v128.xor
	local.tee	11
	i32.const	2
	i8x16.shr_u
	local.tee	12
	local.get	21
	local.get	19
	v128.xor
	local.get	10
	v128.and
	i32.const	1
	i8x16.shl
	local.get	18
	v128.xor
	local.tee	14
	local.get	23
	v128.bitselect
	local.tee	18
	local.get	25
	v128.and
	local.get	29
	local.get	27
	v128.xor
	local.get	10
	v128.and
	i32.const	1
	i8x16.shl
	local.get	26
	v128.xor
	local.tee	19
	i32.const	2
	i8x16.shr_u
	local.tee	21
	local.get	36
	local.get	34
	v128.xor
	local.get	10
	v128.and
	i32.const	1
	i8x16.shl
	local.get	33
	v128.xor
	local.tee	24
	local.get	23
	v128.bitselect
	local.tee	26
	i32.const	4
	i8x16.shr_u
	v128.xor
	local.tee	27
	local.get	18
	v128.xor
	v128.store	96
	local.get	4
	local.get	22
	local.get	16
	v128.xor
	local.get	23
	v128.and
	i32.const	2
	i8x16.shl
	local.get	15
	v128.xor
	local.tee	15
	local.get	25
	v128.and
	local.get	37
	local.get	31
	v128.xor
	local.get	23
	v128.and
	i32.const	2
	i8x16.shl
	local.get	30
	v128.xor
	local.tee	16
	i32.const	4
	i8x16.shr_u
	v128.xor
	local.tee	18
	local.get	15
	v128.xor
	v128.store	80
	local.get	4
	local.get	27
	i32.const	4
	i8x16.shl
	local.get	26
	v128.xor
	v128.store	32
	local.get	4
	local.get	18
	i32.const	4
	i8x16.shl
	local.get	16
	v128.xor
	v128.store	16
	local.get	4
	local.get	14
	local.get	12
	v128.xor
	local.get	23
	v128.and
	i32.const	2
	i8x16.shl
	local.get	11
	v128.xor
	local.tee	11
	local.get	25
	v128.and
	local.get	24
	local.get	21
	v128.xor
	local.get	23
	v128.and
	i32.const	2
	i8x16.shl
	local.get	19
	v128.xor
	local.tee	12
	i32.const	4
	i8x16.shr_u
	v128.xor
	local.tee	14
	local.get	11
	v128.xor
	v128.store	64
	local.get	4
	local.get	14
	i32.const	4
	i8x16.shl
	local.get	12
	v128.xor
	v128.store	0
	local.get	0
	local.get	6
	local.get	4
	call	aes_soft__soft__ciphers__planes__EncryptPlaneCipher__process_planes____f2467153fb0a218d_
	local.get	20
	local.get	4
	v128.load	64
	local.tee	11
	i32.const	1
	i8x16.shr_u
	local.tee	12
	local.get	4
	v128.load	80
	local.tee	14
	local.get	10
	v128.bitselect
	local.tee	15
	i32.const	2
	i8x16.shr_u
	local.tee	16
	local.get	4
	v128.load	96
	local.tee	18
	i32.const	1
	i8x16.shr_u
	local.tee	19
	local.get	4
	v128.load	112
	local.tee	21
	local.get	10
	v128.bitselect
	local.tee	22
	local.get	23
	v128.bitselect
	local.tee	24
	local.get	25
	v128.and
	local.get	4
	v128.load	0
	local.tee	26
	i32.const	1
	i8x16.shr_u
	local.tee	27
	local.get	4
	v128.load	16
	local.tee	29
	local.get	10
	v128.bitselect
	local.tee	30
	i32.const	2
	i8x16.shr_u
	local.tee	31
	local.get	4
	v128.load	32
	local.tee	33
	i32.const	1
	i8x16.shr_u
	local.tee	34
	local.get	4
	v128.load	48
	local.tee	36
	local.get	10
	v128.bitselect
	local.tee	37
	local.get	23
	v128.bitselect
	local.tee	38
	i32.const	4
	i8x16.shr_u
	v128.xor
	local.tee	39
	local.get	24
	v128.xor
	local.get	10
	i8x16.shuffle	0, 4, 8, 12, 1, 5, 9, 13, 2, 6, 10, 14, 3, 7, 11, 15
	v128.store	0:p2align=0
	local.get	35
	local.get	39
	i32.const	4
	i8x16.shl
	local.get	38
	v128.xor
	local.get	10
	i8x16.shuffle	0, 4, 8, 12, 1, 5, 9, 13, 2, 6, 10, 14, 3, 7, 11, 15
	v128.store	0:p2align=0
	local.get	17
	local.get	11
	local.get	14
	local.get	12
	v128.xor
	local.get	10
	v128.and
	i32.const	1
	i8x16.shl
	v128.xor
	local.tee	11
	i32.const	2
	i8x16.shr_u
	local.tee	12
	local.get	18
	local.get	21
	local.get	19
	v128.xor
	local.get	10
	v128.and
	i32.const	1
	i8x16.shl
	v128.xor
	local.tee	14
	local.get	23
	v128.bitselect
	local.tee	18
	local.get	25
	v128.and
	local.get	26
	local.get	29
	local.get	27
	v128.xor
	local.get	10
	v128.and
	i32.const	1
	i8x16.shl
	v128.xor
	local.tee	19
	i32.const	2
	i8x16.shr_u
	local.tee	21
	local.get	33
	local.get	36
	local.get	34
	v128.xor
	local.get	10
	v128.and
	i32.const	1
	i8x16.shl
	v128.xor
	local.tee	10
	local.get	23
	v128.bitselect
	local.tee	24
	i32.const	4
	i8x16.shr_u
	v128.xor
	local.tee	26
	local.get	18
	v128.xor
	local.get	10
	i8x16.shuffle	0, 4, 8, 12, 1, 5, 9, 13, 2, 6, 10, 14, 3, 7, 11, 15
	v128.store	0:p2align=0
	local.get	13
	local.get	22
	local.get	16
	v128.xor
	local.get	23
	v128.and
	i32.const	2
	i8x16.shl
	local.get	15
	v128.xor
	local.tee	15
	local.get	25
	v128.and
	local.get	37
	local.get	31
	v128.xor
	local.get	23
	v128.and
	i32.const	2
	i8x16.shl
	local.get	30
	v128.xor
	local.tee	16
	i32.const	4
	i8x16.shr_u
	v128.xor
	local.tee	18
	local.get	15
	v128.xor
	local.get	10
	i8x16.shuffle	0, 4, 8, 12, 1, 5, 9, 13, 2, 6, 10, 14, 3, 7, 11, 15
	v128.store	0:p2align=0
	local.get	32
	local.get	26
	i32.const	4
	i8x16.shl
	local.get	24
	v128.xor
	local.get	10
	i8x16.shuffle	0, 4, 8, 12, 1, 5, 9, 13, 2, 6, 10, 14, 3, 7, 11, 15
	v128.store	0:p2align=0
	local.get	28
	local.get	18
	i32.const	4
	i8x16.shl
	local.get	16
	v128.xor
	local.get	10
	i8x16.shuffle	0, 4, 8, 12, 1, 5, 9, 13, 2, 6, 10, 14, 3, 7, 11, 15
	v128.store	0:p2align=0
	local.get	9
	local.get	14
	local.get	12
	v128.xor
	local.get	23
	v128.and
	i32.const	2
	i8x16.shl
	local.get	11
	v128.xor
	local.tee	11
	local.get	25
	v128.and
	local.get	10
	local.get	21
	v128.xor
	local.get	23
	v128.and
	i32.const	2
	i8x16.shl
	local.get	19
	v128.xor
	local.tee	10
	i32.const	4
	i8x16.shr_u
	v128.xor
	local.tee	23
	local.get	11
	v128.xor
	local.get	10
	i8x16.shuffle	0, 4, 8, 12, 1, 5, 9, 13, 2, 6, 10, 14, 3, 7, 11, 15
	v128.store	0:p2align=0
	local.get	8
	local.get	23
	i32.const	4
	i8x16.shl
	local.get	10
	v128.xor
	local.get	10
	i8x16.shuffle	0, 4, 8, 12, 1, 5, 9, 13, 2, 6, 10, 14, 3, 7, 11, 15
	v128.store	0:p2align=0
	local.get	8
	i32.const	128
	i32.add 
	local.set	8
	local.get	7
	i64.const	8
	i64.add 
	local.tee	7
	local.get	5
	i64.lt_u
	br_if   	0                               # 0: up to label29
# %bb.2:                                # %aes_soft__soft__blocks__slices__process_batches_under____b3f041e12f379511_.exit
	end_loop
	block   	
	local.get	5
	local.get	3
	i64.eq  
	br_if   	0                               # 0: down to label30
# %bb.3:                                # %then.3
	local.get	0
	local.get	1
	local.get	2
	local.get	5
	i32.wrap_i64
	i32.const	4
	i32.shl 
	i32.add 
	local.get	3
	i64.const	7
	i64.and 
	call	aes_soft__soft__blocks__filled_up__process_filled_up____a60badf655ff5009_
.LBB5_4:                                # %join.5
	end_block                               # label30:
	local.get	4
	i32.const	128
	i32.add 
	global.set	__stack_pointer
                                        # fallthrough-return
	end_function
                                        # -- End function
	.section	.text.aes_soft__soft__ciphers__planes__process_outlined____1a44e25bef607b64_,"",@
	.type	aes_soft__soft__ciphers__planes__process_outlined____1a44e25bef607b64_,@function # -- Begin function aes_soft__soft__ciphers__planes__process_outlined____1a44e25bef607b64_
aes_soft__soft__ciphers__planes__process_outlined____1a44e25bef607b64_: # @aes_soft__soft__ciphers__planes__process_outlined____1a44e25bef607b64_
	.functype	aes_soft__soft__ciphers__planes__process_outlined____1a44e25bef607b64_ (i32, i32, i64, i32) -> ()
	.local  	i32, v128, v128, v128, v128, v128, v128, v128, v128, v128, v128, v128, v128, v128, v128, v128, v128, v128, v128, v128, v128, v128, v128, v128, v128
# %bb.0:                                # %start
	global.get	__stack_pointer
	i32.const	128
	i32.sub 
	local.tee	4
	global.set	__stack_pointer
	local.get	4
	local.get	3
	v128.load	64:p2align=0
	local.get	5
	i8x16.shuffle	0, 4, 8, 12, 1, 5, 9, 13, 2, 6, 10, 14, 3, 7, 11, 15
	local.tee	6
	i32.const	1
	i8x16.shr_u
	local.tee	7
	local.get	3
	v128.load	80:p2align=0
	local.get	5
	i8x16.shuffle	0, 4, 8, 12, 1, 5, 9, 13, 2, 6, 10, 14, 3, 7, 11, 15
	local.tee	8
	v128.const	85, 85, 85, 85, 85, 85, 85, 85, 85, 85, 85, 85, 85, 85, 85, 85
	local.tee	5
	v128.bitselect
	local.tee	9
	i32.const	2
	i8x16.shr_u
	local.tee	10
	local.get	3
	v128.load	96:p2align=0
	local.get	5
	i8x16.shuffle	0, 4, 8, 12, 1, 5, 9, 13, 2, 6, 10, 14, 3, 7, 11, 15
	local.tee	11
	i32.const	1
	i8x16.shr_u
	local.tee	12
	local.get	3
	v128.load	112:p2align=0
	local.get	5
	i8x16.shuffle	0, 4, 8, 12, 1, 5, 9, 13, 2, 6, 10, 14, 3, 7, 11, 15
	local.tee	13
	local.get	5
	v128.bitselect
	local.tee	14
	v128.const	51, 51, 51, 51, 51, 51, 51, 51, 51, 51, 51, 51, 51, 51, 51, 51
	local.tee	15
	v128.bitselect
	local.tee	16
	v128.const	15, 15, 15, 15, 15, 15, 15, 15, 15, 15, 15, 15, 15, 15, 15, 15
	local.tee	17
	v128.and
	local.get	3
	v128.load	0:p2align=0
	local.get	5
	i8x16.shuffle	0, 4, 8, 12, 1, 5, 9, 13, 2, 6, 10, 14, 3, 7, 11, 15
	local.tee	18
	i32.const	1
	i8x16.shr_u
	local.tee	19
	local.get	3
	v128.load	16:p2align=0
	local.get	5
	i8x16.shuffle	0, 4, 8, 12, 1, 5, 9, 13, 2, 6, 10, 14, 3, 7, 11, 15
	local.tee	20
	local.get	5
	v128.bitselect
	local.tee	21
	i32.const	2
	i8x16.shr_u
	local.tee	22
	local.get	3
	v128.load	32:p2align=0
	local.get	5
	i8x16.shuffle	0, 4, 8, 12, 1, 5, 9, 13, 2, 6, 10, 14, 3, 7, 11, 15
	local.tee	23
	i32.const	1
	i8x16.shr_u
	local.tee	24
	local.get	3
	v128.load	48:p2align=0
	local.get	5
	i8x16.shuffle	0, 4, 8, 12, 1, 5, 9, 13, 2, 6, 10, 14, 3, 7, 11, 15
	local.tee	25
	local.get	5
	v128.bitselect
	local.tee	26
	local.get	15
	v128.bitselect
	local.tee	27
	i32.const	4
	i8x16.shr_u
	v128.xor
	local.tee	28
	local.get	16
	v128.xor
	v128.store	112
	local.get	4
	local.get	28
	i32.const	4
	i8x16.shl
	local.get	27
	v128.xor
	v128.store	48
	local.get	4
	local.get	8
	local.get	7
	v128.xor
	local.get	5
	v128.and
	i32.const	1
	i8x16.shl
	local.get	6
	v128.xor
	local.tee	6
	i32.const	2
	i8x16.shr_u
	local.tee	7
	local.get	13
	local.get	12
	v128.xor
	local.get	5
	v128.and
	i32.const	1
	i8x16.shl
	local.get	11
	v128.xor
	local.tee	8
	local.get	15
	v128.bitselect
	local.tee	11
	local.get	17
	v128.and
	local.get	20
	local.get	19
	v128.xor
	local.get	5
	v128.and
	i32.const	1
	i8x16.shl
	local.get	18
	v128.xor
	local.tee	12
	i32.const	2
	i8x16.shr_u
	local.tee	13
	local.get	25
	local.get	24
	v128.xor
	local.get	5
	v128.and
	i32.const	1
	i8x16.shl
	local.get	23
	v128.xor
	local.tee	16
	local.get	15
	v128.bitselect
	local.tee	18
	i32.const	4
	i8x16.shr_u
	v128.xor
	local.tee	19
	local.get	11
	v128.xor
	v128.store	96
	local.get	4
	local.get	14
	local.get	10
	v128.xor
	local.get	15
	v128.and
	i32.const	2
	i8x16.shl
	local.get	9
	v128.xor
	local.tee	9
	local.get	17
	v128.and
	local.get	26
	local.get	22
	v128.xor
	local.get	15
	v128.and
	i32.const	2
	i8x16.shl
	local.get	21
	v128.xor
	local.tee	10
	i32.const	4
	i8x16.shr_u
	v128.xor
	local.tee	11
	local.get	9
	v128.xor
	v128.store	80
	local.get	4
	local.get	19
	i32.const	4
	i8x16.shl
	local.get	18
	v128.xor
	v128.store	32
	local.get	4
	local.get	11
	i32.const	4
	i8x16.shl
	local.get	10
	v128.xor
	v128.store	16
	local.get	4
	local.get	8
	local.get	7
	v128.xor
	local.get	15
	v128.and
	i32.const	2
	i8x16.shl
	local.get	6
	v128.xor
	local.tee	6
	local.get	17
	v128.and
	local.get	16
	local.get	13
	v128.xor
	local.get	15
	v128.and
	i32.const	2
	i8x16.shl
	local.get	12
	v128.xor
	local.tee	7
	i32.const	4
	i8x16.shr_u
	v128.xor
	local.tee	8
	local.get	6
	v128.xor
	v128.store	64
	local.get	4
	local.get	8
	i32.const	4
	i8x16.shl
	local.get	7
	v128.xor
	v128.store	0
	local.get	1
	local.get	2
	local.get	4
	call	aes_soft__soft__ciphers__planes__EncryptPlaneCipher__process_planes____f2467153fb0a218d_
	local.get	0
	local.get	4
	v128.load	64
	local.tee	6
	i32.const	1
	i8x16.shr_u
	local.tee	7
	local.get	4
	v128.load	80
	local.tee	8
	local.get	5
	v128.bitselect
	local.tee	9
	i32.const	2
	i8x16.shr_u
	local.tee	10
	local.get	4
	v128.load	96
	local.tee	11
	i32.const	1
	i8x16.shr_u
	local.tee	12
	local.get	4
	v128.load	112
	local.tee	13
	local.get	5
	v128.bitselect
	local.tee	14
	local.get	15
	v128.bitselect
	local.tee	16
	local.get	17
	v128.and
	local.get	4
	v128.load	0
	local.tee	18
	i32.const	1
	i8x16.shr_u
	local.tee	19
	local.get	4
	v128.load	16
	local.tee	20
	local.get	5
	v128.bitselect
	local.tee	21
	i32.const	2
	i8x16.shr_u
	local.tee	22
	local.get	4
	v128.load	32
	local.tee	23
	i32.const	1
	i8x16.shr_u
	local.tee	24
	local.get	4
	v128.load	48
	local.tee	25
	local.get	5
	v128.bitselect
	local.tee	26
	local.get	15
	v128.bitselect
	local.tee	27
	i32.const	4
	i8x16.shr_u
	v128.xor
	local.tee	28
	local.get	16
	v128.xor
	local.get	5
	i8x16.shuffle	0, 4, 8, 12, 1, 5, 9, 13, 2, 6, 10, 14, 3, 7, 11, 15
	v128.store	112:p2align=0
	local.get	0
	local.get	28
	i32.const	4
	i8x16.shl
	local.get	27
	v128.xor
	local.get	5
	i8x16.shuffle	0, 4, 8, 12, 1, 5, 9, 13, 2, 6, 10, 14, 3, 7, 11, 15
	v128.store	48:p2align=0
	local.get	0
	local.get	6
	local.get	8
	local.get	7
	v128.xor
	local.get	5
	v128.and
	i32.const	1
	i8x16.shl
	v128.xor
	local.tee	6
	i32.const	2
	i8x16.shr_u
	local.tee	7
	local.get	11
	local.get	13
	local.get	12
	v128.xor
	local.get	5
	v128.and
	i32.const	1
	i8x16.shl
	v128.xor
	local.tee	8
	local.get	15
	v128.bitselect
	local.tee	11
	local.get	17
	v128.and
	local.get	18
	local.get	20
	local.get	19
	v128.xor
	local.get	5
	v128.and
	i32.const	1
	i8x16.shl
	v128.xor
	local.tee	12
	i32.const	2
	i8x16.shr_u
	local.tee	13
	local.get	23
	local.get	25
	local.get	24
	v128.xor
	local.get	5
	v128.and
	i32.const	1
	i8x16.shl
	v128.xor
	local.tee	5
	local.get	15
	v128.bitselect
	local.tee	16
	i32.const	4
	i8x16.shr_u
	v128.xor
	local.tee	18
	local.get	11
	v128.xor
	local.get	5
	i8x16.shuffle	0, 4, 8, 12, 1, 5, 9, 13, 2, 6, 10, 14, 3, 7, 11, 15
	v128.store	96:p2align=0
	local.get	0
	local.get	14
	local.get	10
	v128.xor
	local.get	15
	v128.and
	i32.const	2
	i8x16.shl
	local.get	9
	v128.xor
	local.tee	9
	local.get	17
	v128.and
	local.get	26
	local.get	22
	v128.xor
	local.get	15
	v128.and
	i32.const	2
	i8x16.shl
	local.get	21
	v128.xor
	local.tee	10
	i32.const	4
	i8x16.shr_u
	v128.xor
	local.tee	11
	local.get	9
	v128.xor
	local.get	5
	i8x16.shuffle	0, 4, 8, 12, 1, 5, 9, 13, 2, 6, 10, 14, 3, 7, 11, 15
	v128.store	80:p2align=0
	local.get	0
	local.get	18
	i32.const	4
	i8x16.shl
	local.get	16
	v128.xor
	local.get	5
	i8x16.shuffle	0, 4, 8, 12, 1, 5, 9, 13, 2, 6, 10, 14, 3, 7, 11, 15
	v128.store	32:p2align=0
	local.get	0
	local.get	11
	i32.const	4
	i8x16.shl
	local.get	10
	v128.xor
	local.get	5
	i8x16.shuffle	0, 4, 8, 12, 1, 5, 9, 13, 2, 6, 10, 14, 3, 7, 11, 15
	v128.store	16:p2align=0
	local.get	0
	local.get	8
	local.get	7
	v128.xor
	local.get	15
	v128.and
	i32.const	2
	i8x16.shl
	local.get	6
	v128.xor
	local.tee	6
	local.get	17
	v128.and
	local.get	5
	local.get	13
	v128.xor
	local.get	15
	v128.and
	i32.const	2
	i8x16.shl
	local.get	12
	v128.xor
	local.tee	5
	i32.const	4
	i8x16.shr_u
	v128.xor
	local.tee	15
	local.get	6
	v128.xor
	local.get	5
	i8x16.shuffle	0, 4, 8, 12, 1, 5, 9, 13, 2, 6, 10, 14, 3, 7, 11, 15
	v128.store	64:p2align=0
	local.get	0
	local.get	15
	i32.const	4
	i8x16.shl
	local.get	5
	v128.xor
	local.get	5
	i8x16.shuffle	0, 4, 8, 12, 1, 5, 9, 13, 2, 6, 10, 14, 3, 7, 11, 15
	v128.store	0:p2align=0
	local.get	4
	i32.const	128
	i32.add 
	global.set	__stack_pointer
                                        # fallthrough-return
	end_function
                                        # -- End function
	.section	.text.aes_soft__soft__ciphers__planes__EncryptPlaneCipher__process_planes____f2467153fb0a218d_,"",@
	.type	aes_soft__soft__ciphers__planes__EncryptPlaneCipher__process_planes____f2467153fb0a218d_,@function # -- Begin function aes_soft__soft__ciphers__planes__EncryptPlaneCipher__process_planes____f2467153fb0a218d_
aes_soft__soft__ciphers__planes__EncryptPlaneCipher__process_planes____f2467153fb0a218d_: # @aes_soft__soft__ciphers__planes__EncryptPlaneCipher__process_planes____f2467153fb0a218d_
	.functype	aes_soft__soft__ciphers__planes__EncryptPlaneCipher__process_planes____f2467153fb0a218d_ (i32, i64, i32) -> ()
	.local  	i32, i64, i64, i32, v128, v128, v128, v128, v128, v128, v128, v128, i32
# %bb.0:                                # %start
	global.get	__stack_pointer
	i32.const	128
	i32.sub 
	local.tee	3
	global.set	__stack_pointer
	local.get	3
	local.get	2
	i32.const	128
	memory.copy	0, 0
	local.get	3
	local.get	3
	v128.load	112
	local.get	0
	v128.load	112
	v128.xor
	v128.store	112
	local.get	3
	local.get	3
	v128.load	96
	local.get	0
	v128.load	96
	v128.xor
	v128.store	96
	local.get	3
	local.get	3
	v128.load	80
	local.get	0
	v128.load	80
	v128.xor
	v128.store	80
	local.get	3
	local.get	3
	v128.load	64
	local.get	0
	v128.load	64
	v128.xor
	v128.store	64
	local.get	3
	local.get	3
	v128.load	48
	local.get	0
	v128.load	48
	v128.xor
	v128.store	48
	local.get	3
	local.get	3
	v128.load	32
	local.get	0
	v128.load	32
	v128.xor
	v128.store	32
	local.get	3
	local.get	3
	v128.load	16
	local.get	0
	v128.load	16
	v128.xor
	v128.store	16
	local.get	3
	local.get	3
	v128.load	0
	local.get	0
	v128.load	0
	v128.xor
	v128.store	0
	block   	
	local.get	1
	i64.const	-2
	i64.add 
	local.tee	4
	i64.const	2
	i64.shr_u
	local.tee	5
	i64.eqz
	br_if   	0                               # 0: down to label31
# %bb.1:                                # %join.7.preheader
	local.get	0
	local.set	6
.LBB7_2:                                # %join.7
                                        # =>This Inner Loop Header: Depth=1
	loop    	                                # label32:
	local.get	3
	call	aes_planes__soft__sbox__sub_bytes____e29e0540aa8bc136_
	local.get	3
	local.get	3
	v128.load	112
	local.tee	7
	local.get	7
	local.get	7
	i8x16.shuffle	5, 6, 7, 4, 9, 10, 11, 8, 13, 14, 15, 12, 1, 2, 3, 0
	local.tee	8
	v128.xor
	local.tee	7
	local.get	7
	i8x16.shuffle	10, 11, 8, 9, 14, 15, 12, 13, 2, 3, 0, 1, 6, 7, 4, 5
	local.get	6
	i32.const	240
	i32.add 
	v128.load	0
	v128.xor
	local.get	8
	v128.xor
	local.get	3
	v128.load	96
	local.tee	8
	local.get	8
	local.get	7
	i8x16.shuffle	5, 6, 7, 4, 9, 10, 11, 8, 13, 14, 15, 12, 1, 2, 3, 0
	local.tee	8
	v128.xor
	local.tee	9
	v128.xor
	v128.store	112
	local.get	3
	local.get	9
	local.get	7
	i8x16.shuffle	10, 11, 8, 9, 14, 15, 12, 13, 2, 3, 0, 1, 6, 7, 4, 5
	local.get	6
	i32.const	224
	i32.add 
	v128.load	0
	v128.xor
	local.get	8
	v128.xor
	local.get	3
	v128.load	80
	local.tee	8
	local.get	8
	local.get	7
	i8x16.shuffle	5, 6, 7, 4, 9, 10, 11, 8, 13, 14, 15, 12, 1, 2, 3, 0
	local.tee	8
	v128.xor
	local.tee	9
	v128.xor
	v128.store	96
	local.get	3
	local.get	9
	local.get	7
	i8x16.shuffle	10, 11, 8, 9, 14, 15, 12, 13, 2, 3, 0, 1, 6, 7, 4, 5
	local.get	6
	i32.const	208
	i32.add 
	v128.load	0
	v128.xor
	local.get	8
	v128.xor
	local.get	3
	v128.load	64
	local.tee	8
	local.get	8
	local.get	7
	i8x16.shuffle	5, 6, 7, 4, 9, 10, 11, 8, 13, 14, 15, 12, 1, 2, 3, 0
	local.tee	8
	v128.xor
	local.tee	9
	v128.xor
	v128.store	80
	local.get	3
	local.get	3
	v128.load	32
	local.tee	10
	local.get	10
	local.get	7
	i8x16.shuffle	5, 6, 7, 4, 9, 10, 11, 8, 13, 14, 15, 12, 1, 2, 3, 0
	local.tee	10
	v128.xor
	local.tee	11
	local.get	7
	i8x16.shuffle	10, 11, 8, 9, 14, 15, 12, 13, 2, 3, 0, 1, 6, 7, 4, 5
	local.get	6
	i32.const	160
	i32.add 
	v128.load	0
	v128.xor
	local.get	10
	v128.xor
	local.get	3
	v128.load	16
	local.tee	10
	local.get	10
	local.get	7
	i8x16.shuffle	5, 6, 7, 4, 9, 10, 11, 8, 13, 14, 15, 12, 1, 2, 3, 0
	local.tee	10
	v128.xor
	local.tee	12
	v128.xor
	v128.store	32
	local.get	3
	local.get	3
	v128.load	0
	local.tee	13
	local.get	13
	local.get	7
	i8x16.shuffle	5, 6, 7, 4, 9, 10, 11, 8, 13, 14, 15, 12, 1, 2, 3, 0
	local.tee	13
	v128.xor
	local.tee	14
	local.get	7
	i8x16.shuffle	10, 11, 8, 9, 14, 15, 12, 13, 2, 3, 0, 1, 6, 7, 4, 5
	local.get	6
	i32.const	128
	i32.add 
	v128.load	0
	v128.xor
	local.get	13
	v128.xor
	local.get	7
	v128.xor
	v128.store	0
	local.get	3
	local.get	9
	local.get	7
	i8x16.shuffle	10, 11, 8, 9, 14, 15, 12, 13, 2, 3, 0, 1, 6, 7, 4, 5
	local.get	6
	i32.const	192
	i32.add 
	v128.load	0
	v128.xor
	local.get	8
	v128.xor
	local.get	3
	v128.load	48
	local.tee	8
	local.get	8
	local.get	7
	i8x16.shuffle	5, 6, 7, 4, 9, 10, 11, 8, 13, 14, 15, 12, 1, 2, 3, 0
	local.tee	8
	v128.xor
	local.tee	9
	v128.xor
	local.get	7
	v128.xor
	v128.store	64
	local.get	3
	local.get	9
	local.get	7
	i8x16.shuffle	10, 11, 8, 9, 14, 15, 12, 13, 2, 3, 0, 1, 6, 7, 4, 5
	local.get	6
	i32.const	176
	i32.add 
	v128.load	0
	v128.xor
	local.get	8
	v128.xor
	local.get	11
	v128.xor
	local.get	7
	v128.xor
	v128.store	48
	local.get	3
	local.get	12
	local.get	7
	i8x16.shuffle	10, 11, 8, 9, 14, 15, 12, 13, 2, 3, 0, 1, 6, 7, 4, 5
	local.get	6
	i32.const	144
	i32.add 
	v128.load	0
	v128.xor
	local.get	10
	v128.xor
	local.get	14
	v128.xor
	local.get	7
	v128.xor
	v128.store	16
	local.get	3
	call	aes_planes__soft__sbox__sub_bytes____e29e0540aa8bc136_
	local.get	3
	local.get	3
	v128.load	112
	local.tee	7
	local.get	7
	local.get	7
	i8x16.shuffle	6, 7, 4, 5, 10, 11, 8, 9, 14, 15, 12, 13, 2, 3, 0, 1
	local.tee	8
	v128.xor
	local.tee	7
	local.get	7
	i8x16.shuffle	8, 9, 10, 11, 12, 13, 14, 15, 0, 1, 2, 3, 4, 5, 6, 7
	local.get	6
	i32.const	368
	i32.add 
	v128.load	0
	v128.xor
	local.get	8
	v128.xor
	local.get	3
	v128.load	96
	local.tee	8
	local.get	8
	local.get	7
	i8x16.shuffle	6, 7, 4, 5, 10, 11, 8, 9, 14, 15, 12, 13, 2, 3, 0, 1
	local.tee	8
	v128.xor
	local.tee	9
	v128.xor
	v128.store	112
	local.get	3
	local.get	9
	local.get	7
	i8x16.shuffle	8, 9, 10, 11, 12, 13, 14, 15, 0, 1, 2, 3, 4, 5, 6, 7
	local.get	6
	i32.const	352
	i32.add 
	v128.load	0
	v128.xor
	local.get	8
	v128.xor
	local.get	3
	v128.load	80
	local.tee	8
	local.get	8
	local.get	7
	i8x16.shuffle	6, 7, 4, 5, 10, 11, 8, 9, 14, 15, 12, 13, 2, 3, 0, 1
	local.tee	8
	v128.xor
	local.tee	9
	v128.xor
	v128.store	96
	local.get	3
	local.get	9
	local.get	7
	i8x16.shuffle	8, 9, 10, 11, 12, 13, 14, 15, 0, 1, 2, 3, 4, 5, 6, 7
	local.get	6
	i32.const	336
	i32.add 
	v128.load	0
	v128.xor
	local.get	8
	v128.xor
	local.get	3
	v128.load	64
	local.tee	8
	local.get	8
	local.get	7
	i8x16.shuffle	6, 7, 4, 5, 10, 11, 8, 9, 14, 15, 12, 13, 2, 3, 0, 1
	local.tee	8
	v128.xor
	local.tee	9
	v128.xor
	v128.store	80
	local.get	3
	local.get	3
	v128.load	32
	local.tee	10
	local.get	10
	local.get	7
	i8x16.shuffle	6, 7, 4, 5, 10, 11, 8, 9, 14, 15, 12, 13, 2, 3, 0, 1
	local.tee	10
	v128.xor
	local.tee	11
	local.get	7
	i8x16.shuffle	8, 9, 10, 11, 12, 13, 14, 15, 0, 1, 2, 3, 4, 5, 6, 7
	local.get	6
	i32.const	288
	i32.add 
	v128.load	0
	v128.xor
	local.get	10
	v128.xor
	local.get	3
	v128.load	16
	local.tee	10
	local.get	10
	local.get	7
	i8x16.shuffle	6, 7, 4, 5, 10, 11, 8, 9, 14, 15, 12, 13, 2, 3, 0, 1
	local.tee	10
	v128.xor
	local.tee	12
	v128.xor
	v128.store	32
	local.get	3
	local.get	3
	v128.load	0
	local.tee	13
	local.get	13
	local.get	7
	i8x16.shuffle	6, 7, 4, 5, 10, 11, 8, 9, 14, 15, 12, 13, 2, 3, 0, 1
	local.tee	13
	v128.xor
	local.tee	14
	local.get	7
	i8x16.shuffle	8, 9, 10, 11, 12, 13, 14, 15, 0, 1, 2, 3, 4, 5, 6, 7
	local.get	6
	i32.const	256
	i32.add 
	v128.load	0
	v128.xor
	local.get	13
	v128.xor
	local.get	7
	v128.xor
	v128.store	0
	local.get	3
	local.get	9
	local.get	7
	i8x16.shuffle	8, 9, 10, 11, 12, 13, 14, 15, 0, 1, 2, 3, 4, 5, 6, 7
	local.get	6
	i32.const	320
	i32.add 
	v128.load	0
	v128.xor
	local.get	8
	v128.xor
	local.get	3
	v128.load	48
	local.tee	8
	local.get	8
	local.get	7
	i8x16.shuffle	6, 7, 4, 5, 10, 11, 8, 9, 14, 15, 12, 13, 2, 3, 0, 1
	local.tee	8
	v128.xor
	local.tee	9
	v128.xor
	local.get	7
	v128.xor
	v128.store	64
	local.get	3
	local.get	9
	local.get	7
	i8x16.shuffle	8, 9, 10, 11, 12, 13, 14, 15, 0, 1, 2, 3, 4, 5, 6, 7
	local.get	6
	i32.const	304
	i32.add 
	v128.load	0
	v128.xor
	local.get	8
	v128.xor
	local.get	11
	v128.xor
	local.get	7
	v128.xor
	v128.store	48
	local.get	3
	local.get	12
	local.get	7
	i8x16.shuffle	8, 9, 10, 11, 12, 13, 14, 15, 0, 1, 2, 3, 4, 5, 6, 7
	local.get	6
	i32.const	272
	i32.add 
	v128.load	0
	v128.xor
	local.get	10
	v128.xor
	local.get	14
	v128.xor
	local.get	7
	v128.xor
	v128.store	16
	local.get	3
	call	aes_planes__soft__sbox__sub_bytes____e29e0540aa8bc136_
	local.get	3
	local.get	3
	v128.load	112
	local.tee	7
	local.get	7
	local.get	7
	i8x16.shuffle	7, 4, 5, 6, 11, 8, 9, 10, 15, 12, 13, 14, 3, 0, 1, 2
	local.tee	8
	v128.xor
	local.tee	7
	local.get	7
	i8x16.shuffle	10, 11, 8, 9, 14, 15, 12, 13, 2, 3, 0, 1, 6, 7, 4, 5
	local.get	6
	i32.const	496
	i32.add 
	v128.load	0
	v128.xor
	local.get	8
	v128.xor
	local.get	3
	v128.load	96
	local.tee	8
	local.get	8
	local.get	7
	i8x16.shuffle	7, 4, 5, 6, 11, 8, 9, 10, 15, 12, 13, 14, 3, 0, 1, 2
	local.tee	8
	v128.xor
	local.tee	9
	v128.xor
	v128.store	112
	local.get	3
	local.get	9
	local.get	7
	i8x16.shuffle	10, 11, 8, 9, 14, 15, 12, 13, 2, 3, 0, 1, 6, 7, 4, 5
	local.get	6
	i32.const	480
	i32.add 
	v128.load	0
	v128.xor
	local.get	8
	v128.xor
	local.get	3
	v128.load	80
	local.tee	8
	local.get	8
	local.get	7
	i8x16.shuffle	7, 4, 5, 6, 11, 8, 9, 10, 15, 12, 13, 14, 3, 0, 1, 2
	local.tee	8
	v128.xor
	local.tee	9
	v128.xor
	v128.store	96
	local.get	3
	local.get	9
	local.get	7
	i8x16.shuffle	10, 11, 8, 9, 14, 15, 12, 13, 2, 3, 0, 1, 6, 7, 4, 5
	local.get	6
	i32.const	464
	i32.add 
	v128.load	0
	v128.xor
	local.get	8
	v128.xor
	local.get	3
	v128.load	64
	local.tee	8
	local.get	8
	local.get	7
	i8x16.shuffle	7, 4, 5, 6, 11, 8, 9, 10, 15, 12, 13, 14, 3, 0, 1, 2
	local.tee	8
	v128.xor
	local.tee	9
	v128.xor
	v128.store	80
	local.get	3
	local.get	3
	v128.load	32
	local.tee	10
	local.get	10
	local.get	7
	i8x16.shuffle	7, 4, 5, 6, 11, 8, 9, 10, 15, 12, 13, 14, 3, 0, 1, 2
	local.tee	10
	v128.xor
	local.tee	11
	local.get	7
	i8x16.shuffle	10, 11, 8, 9, 14, 15, 12, 13, 2, 3, 0, 1, 6, 7, 4, 5
	local.get	6
	i32.const	416
	i32.add 
	v128.load	0
	v128.xor
	local.get	10
	v128.xor
	local.get	3
	v128.load	16
	local.tee	10
	local.get	10
	local.get	7
	i8x16.shuffle	7, 4, 5, 6, 11, 8, 9, 10, 15, 12, 13, 14, 3, 0, 1, 2
	local.tee	10
	v128.xor
	local.tee	12
	v128.xor
	v128.store	32
	local.get	3
	local.get	3
	v128.load	0
	local.tee	13
	local.get	13
	local.get	7
	i8x16.shuffle	7, 4, 5, 6, 11, 8, 9, 10, 15, 12, 13, 14, 3, 0, 1, 2
	local.tee	13
	v128.xor
	local.tee	14
	local.get	7
	i8x16.shuffle	10, 11, 8, 9, 14, 15, 12, 13, 2, 3, 0, 1, 6, 7, 4, 5
	local.get	6
	i32.const	384
	i32.add 
	v128.load	0
	v128.xor
	local.get	13
	v128.xor
	local.get	7
	v128.xor
	v128.store	0
	local.get	3
	local.get	9
	local.get	7
	i8x16.shuffle	10, 11, 8, 9, 14, 15, 12, 13, 2, 3, 0, 1, 6, 7, 4, 5
	local.get	6
	i32.const	448
	i32.add 
	v128.load	0
	v128.xor
	local.get	8
	v128.xor
	local.get	3
	v128.load	48
	local.tee	8
	local.get	8
	local.get	7
	i8x16.shuffle	7, 4, 5, 6, 11, 8, 9, 10, 15, 12, 13, 14, 3, 0, 1, 2
	local.tee	8
	v128.xor
	local.tee	9
	v128.xor
	local.get	7
	v128.xor
	v128.store	64
	local.get	3
	local.get	9
	local.get	7
	i8x16.shuffle	10, 11, 8, 9, 14, 15, 12, 13, 2, 3, 0, 1, 6, 7, 4, 5
	local.get	6
	i32.const	432
	i32.add 
	v128.load	0
	v128.xor
	local.get	8
	v128.xor
	local.get	11
	v128.xor
	local.get	7
	v128.xor
	v128.store	48
	local.get	3
	local.get	12
	local.get	7
	i8x16.shuffle	10, 11, 8, 9, 14, 15, 12, 13, 2, 3, 0, 1, 6, 7, 4, 5
	local.get	6
	i32.const	400
	i32.add 
	v128.load	0
	v128.xor
	local.get	10
	v128.xor
	local.get	14
	v128.xor
	local.get	7
	v128.xor
	v128.store	16
	local.get	3
	call	aes_planes__soft__sbox__sub_bytes____e29e0540aa8bc136_
	local.get	3
	local.get	3
	v128.load	112
	local.tee	7
	local.get	7
	local.get	7
	i8x16.shuffle	4, 5, 6, 7, 8, 9, 10, 11, 12, 13, 14, 15, 0, 1, 2, 3
	local.tee	8
	v128.xor
	local.tee	7
	local.get	7
	i8x16.shuffle	8, 9, 10, 11, 12, 13, 14, 15, 0, 1, 2, 3, 4, 5, 6, 7
	local.get	6
	i32.const	624
	i32.add 
	v128.load	0
	v128.xor
	local.get	8
	v128.xor
	local.get	3
	v128.load	96
	local.tee	8
	local.get	8
	local.get	7
	i8x16.shuffle	4, 5, 6, 7, 8, 9, 10, 11, 12, 13, 14, 15, 0, 1, 2, 3
	local.tee	8
	v128.xor
	local.tee	9
	v128.xor
	v128.store	112
	local.get	3
	local.get	9
	local.get	7
	i8x16.shuffle	8, 9, 10, 11, 12, 13, 14, 15, 0, 1, 2, 3, 4, 5, 6, 7
	local.get	6
	i32.const	608
	i32.add 
	v128.load	0
	v128.xor
	local.get	8
	v128.xor
	local.get	3
	v128.load	80
	local.tee	8
	local.get	8
	local.get	7
	i8x16.shuffle	4, 5, 6, 7, 8, 9, 10, 11, 12, 13, 14, 15, 0, 1, 2, 3
	local.tee	8
	v128.xor
	local.tee	9
	v128.xor
	v128.store	96
	local.get	3
	local.get	9
	local.get	7
	i8x16.shuffle	8, 9, 10, 11, 12, 13, 14, 15, 0, 1, 2, 3, 4, 5, 6, 7
	local.get	6
	i32.const	592
	i32.add 
	v128.load	0
	v128.xor
	local.get	8
	v128.xor
	local.get	3
	v128.load	64
	local.tee	8
	local.get	8
	local.get	7
	i8x16.shuffle	4, 5, 6, 7, 8, 9, 10, 11, 12, 13, 14, 15, 0, 1, 2, 3
	local.tee	8
	v128.xor
	local.tee	9
	v128.xor
	v128.store	80
	local.get	3
	local.get	3
	v128.load	32
	local.tee	10
	local.get	10
	local.get	7
	i8x16.shuffle	4, 5, 6, 7, 8, 9, 10, 11, 12, 13, 14, 15, 0, 1, 2, 3
	local.tee	10
	v128.xor
	local.tee	11
	local.get	7
	i8x16.shuffle	8, 9, 10, 11, 12, 13, 14, 15, 0, 1, 2, 3, 4, 5, 6, 7
	local.get	6
	i32.const	544
	i32.add 
	v128.load	0
	v128.xor
	local.get	10
	v128.xor
	local.get	3
	v128.load	16
	local.tee	10
	local.get	10
	local.get	7
	i8x16.shuffle	4, 5, 6, 7, 8, 9, 10, 11, 12, 13, 14, 15, 0, 1, 2, 3
	local.tee	10
	v128.xor
	local.tee	12
	v128.xor
	v128.store	32
	local.get	3
	local.get	3
	v128.load	0
	local.tee	13
	local.get	13
	local.get	7
	i8x16.shuffle	4, 5, 6, 7, 8, 9, 10, 11, 12, 13, 14, 15, 0, 1, 2, 3
	local.tee	13
	v128.xor
	local.tee	14
	local.get	7
	i8x16.shuffle	8, 9, 10, 11, 12, 13, 14, 15, 0, 1, 2, 3, 4, 5, 6, 7
	local.get	6
	i32.const	512
	i32.add 
	local.tee	15
	v128.load	0
	v128.xor
	local.get	13
	v128.xor
	local.get	7
	v128.xor
	v128.store	0
	local.get	3
	local.get	9
	local.get	7
	i8x16.shuffle	8, 9, 10, 11, 12, 13, 14, 15, 0, 1, 2, 3, 4, 5, 6, 7
	local.get	6
	i32.const	576
	i32.add 
	v128.load	0
	v128.xor
	local.get	8
	v128.xor
	local.get	3
	v128.load	48
	local.tee	8
	local.get	8
	local.get	7
	i8x16.shuffle	4, 5, 6, 7, 8, 9, 10, 11, 12, 13, 14, 15, 0, 1, 2, 3
	local.tee	8
	v128.xor
	local.tee	9
	v128.xor
	local.get	7
	v128.xor
	v128.store	64
	local.get	3
	local.get	9
	local.get	7
	i8x16.shuffle	8, 9, 10, 11, 12, 13, 14, 15, 0, 1, 2, 3, 4, 5, 6, 7
	local.get	6
	i32.const	560
	i32.add 
	v128.load	0
	v128.xor
	local.get	8
	v128.xor
	local.get	11
	v128.xor
	local.get	7
	v128.xor
	v128.store	48
	local.get	3
	local.get	12
	local.get	7
	i8x16.shuffle	8, 9, 10, 11, 12, 13, 14, 15, 0, 1, 2, 3, 4, 5, 6, 7
	local.get	6
	i32.const	528
	i32.add 
	v128.load	0
	v128.xor
	local.get	10
	v128.xor
	local.get	14
	v128.xor
	local.get	7
	v128.xor
	v128.store	16
	local.get	15
	local.set	6
	local.get	5
	i64.const	-1
	i64.add 
	local.tee	5
	i64.const	0
	i64.ne  
	br_if   	0                               # 0: up to label32
.LBB7_3:                                # %after.3
	end_loop
	end_block                               # label31:
	local.get	3
	call	aes_planes__soft__sbox__sub_bytes____e29e0540aa8bc136_
	local.get	3
	local.get	3
	v128.load	112
	local.tee	7
	local.get	7
	local.get	7
	i8x16.shuffle	5, 6, 7, 4, 9, 10, 11, 8, 13, 14, 15, 12, 1, 2, 3, 0
	local.tee	8
	v128.xor
	local.tee	7
	local.get	7
	i8x16.shuffle	10, 11, 8, 9, 14, 15, 12, 13, 2, 3, 0, 1, 6, 7, 4, 5
	local.get	0
	local.get	4
	i64.const	-4
	i64.and 
	local.tee	5
	i32.wrap_i64
	i32.const	7
	i32.shl 
	i32.add 
	local.tee	6
	v128.load	240
	v128.xor
	local.get	8
	v128.xor
	local.get	3
	v128.load	96
	local.tee	8
	local.get	8
	local.get	7
	i8x16.shuffle	5, 6, 7, 4, 9, 10, 11, 8, 13, 14, 15, 12, 1, 2, 3, 0
	local.tee	8
	v128.xor
	local.tee	9
	v128.xor
	v128.store	112
	local.get	3
	local.get	9
	local.get	7
	i8x16.shuffle	10, 11, 8, 9, 14, 15, 12, 13, 2, 3, 0, 1, 6, 7, 4, 5
	local.get	6
	v128.load	224
	v128.xor
	local.get	8
	v128.xor
	local.get	3
	v128.load	80
	local.tee	8
	local.get	8
	local.get	7
	i8x16.shuffle	5, 6, 7, 4, 9, 10, 11, 8, 13, 14, 15, 12, 1, 2, 3, 0
	local.tee	8
	v128.xor
	local.tee	9
	v128.xor
	v128.store	96
	local.get	3
	local.get	9
	local.get	7
	i8x16.shuffle	10, 11, 8, 9, 14, 15, 12, 13, 2, 3, 0, 1, 6, 7, 4, 5
	local.get	6
	v128.load	208
	v128.xor
	local.get	8
	v128.xor
	local.get	3
	v128.load	64
	local.tee	8
	local.get	8
	local.get	7
	i8x16.shuffle	5, 6, 7, 4, 9, 10, 11, 8, 13, 14, 15, 12, 1, 2, 3, 0
	local.tee	8
	v128.xor
	local.tee	9
	v128.xor
	v128.store	80
	local.get	3
	local.get	3
	v128.load	32
	local.tee	10
	local.get	10
	local.get	7
	i8x16.shuffle	5, 6, 7, 4, 9, 10, 11, 8, 13, 14, 15, 12, 1, 2, 3, 0
	local.tee	10
	v128.xor
	local.tee	11
	local.get	7
	i8x16.shuffle	10, 11, 8, 9, 14, 15, 12, 13, 2, 3, 0, 1, 6, 7, 4, 5
	local.get	6
	v128.load	160
	v128.xor
	local.get	10
	v128.xor
	local.get	3
	v128.load	16
	local.tee	10
	local.get	10
	local.get	7
	i8x16.shuffle	5, 6, 7, 4, 9, 10, 11, 8, 13, 14, 15, 12, 1, 2, 3, 0
	local.tee	10
	v128.xor
	local.tee	12
	v128.xor
	v128.store	32
	local.get	3
	local.get	3
	v128.load	0
	local.tee	13
	local.get	13
	local.get	7
	i8x16.shuffle	5, 6, 7, 4, 9, 10, 11, 8, 13, 14, 15, 12, 1, 2, 3, 0
	local.tee	13
	v128.xor
	local.tee	14
	local.get	7
	i8x16.shuffle	10, 11, 8, 9, 14, 15, 12, 13, 2, 3, 0, 1, 6, 7, 4, 5
	local.get	6
	v128.load	128
	v128.xor
	local.get	13
	v128.xor
	local.get	7
	v128.xor
	v128.store	0
	local.get	3
	local.get	9
	local.get	7
	i8x16.shuffle	10, 11, 8, 9, 14, 15, 12, 13, 2, 3, 0, 1, 6, 7, 4, 5
	local.get	6
	v128.load	192
	v128.xor
	local.get	8
	v128.xor
	local.get	3
	v128.load	48
	local.tee	8
	local.get	8
	local.get	7
	i8x16.shuffle	5, 6, 7, 4, 9, 10, 11, 8, 13, 14, 15, 12, 1, 2, 3, 0
	local.tee	8
	v128.xor
	local.tee	9
	v128.xor
	local.get	7
	v128.xor
	v128.store	64
	local.get	3
	local.get	9
	local.get	7
	i8x16.shuffle	10, 11, 8, 9, 14, 15, 12, 13, 2, 3, 0, 1, 6, 7, 4, 5
	local.get	6
	v128.load	176
	v128.xor
	local.get	8
	v128.xor
	local.get	11
	v128.xor
	local.get	7
	v128.xor
	v128.store	48
	local.get	3
	local.get	12
	local.get	7
	i8x16.shuffle	10, 11, 8, 9, 14, 15, 12, 13, 2, 3, 0, 1, 6, 7, 4, 5
	local.get	6
	v128.load	144
	v128.xor
	local.get	10
	v128.xor
	local.get	14
	v128.xor
	local.get	7
	v128.xor
	v128.store	16
	block   	
	block   	
	local.get	5
	i64.const	2
	i64.or  
	local.get	1
	i64.ge_u
	br_if   	0                               # 0: down to label34
# %bb.4:                                # %then.11
	local.get	3
	call	aes_planes__soft__sbox__sub_bytes____e29e0540aa8bc136_
	local.get	3
	local.get	3
	v128.load	112
	local.tee	7
	local.get	7
	local.get	7
	i8x16.shuffle	6, 7, 4, 5, 10, 11, 8, 9, 14, 15, 12, 13, 2, 3, 0, 1
	local.tee	8
	v128.xor
	local.tee	7
	local.get	7
	i8x16.shuffle	8, 9, 10, 11, 12, 13, 14, 15, 0, 1, 2, 3, 4, 5, 6, 7
	local.get	0
	local.get	4
	i32.wrap_i64
	i32.const	7
	i32.shl 
	i32.add 
	local.tee	6
	v128.load	112
	v128.xor
	local.get	8
	v128.xor
	local.get	3
	v128.load	96
	local.tee	8
	local.get	8
	local.get	7
	i8x16.shuffle	6, 7, 4, 5, 10, 11, 8, 9, 14, 15, 12, 13, 2, 3, 0, 1
	local.tee	8
	v128.xor
	local.tee	9
	v128.xor
	v128.store	112
	local.get	3
	local.get	9
	local.get	7
	i8x16.shuffle	8, 9, 10, 11, 12, 13, 14, 15, 0, 1, 2, 3, 4, 5, 6, 7
	local.get	6
	v128.load	96
	v128.xor
	local.get	8
	v128.xor
	local.get	3
	v128.load	80
	local.tee	8
	local.get	8
	local.get	7
	i8x16.shuffle	6, 7, 4, 5, 10, 11, 8, 9, 14, 15, 12, 13, 2, 3, 0, 1
	local.tee	8
	v128.xor
	local.tee	9
	v128.xor
	v128.store	96
	local.get	3
	local.get	9
	local.get	7
	i8x16.shuffle	8, 9, 10, 11, 12, 13, 14, 15, 0, 1, 2, 3, 4, 5, 6, 7
	local.get	6
	v128.load	80
	v128.xor
	local.get	8
	v128.xor
	local.get	3
	v128.load	64
	local.tee	8
	local.get	8
	local.get	7
	i8x16.shuffle	6, 7, 4, 5, 10, 11, 8, 9, 14, 15, 12, 13, 2, 3, 0, 1
	local.tee	8
	v128.xor
	local.tee	9
	v128.xor
	v128.store	80
	local.get	3
	local.get	3
	v128.load	32
	local.tee	10
	local.get	10
	local.get	7
	i8x16.shuffle	6, 7, 4, 5, 10, 11, 8, 9, 14, 15, 12, 13, 2, 3, 0, 1
	local.tee	10
	v128.xor
	local.tee	11
	local.get	7
	i8x16.shuffle	8, 9, 10, 11, 12, 13, 14, 15, 0, 1, 2, 3, 4, 5, 6, 7
	local.get	6
	v128.load	32
	v128.xor
	local.get	10
	v128.xor
	local.get	3
	v128.load	16
	local.tee	10
	local.get	10
	local.get	7
	i8x16.shuffle	6, 7, 4, 5, 10, 11, 8, 9, 14, 15, 12, 13, 2, 3, 0, 1
	local.tee	10
	v128.xor
	local.tee	12
	v128.xor
	v128.store	32
	local.get	3
	local.get	3
	v128.load	0
	local.tee	13
	local.get	13
	local.get	7
	i8x16.shuffle	6, 7, 4, 5, 10, 11, 8, 9, 14, 15, 12, 13, 2, 3, 0, 1
	local.tee	13
	v128.xor
	local.tee	14
	local.get	7
	i8x16.shuffle	8, 9, 10, 11, 12, 13, 14, 15, 0, 1, 2, 3, 4, 5, 6, 7
	local.get	6
	v128.load	0
	v128.xor
	local.get	13
	v128.xor
	local.get	7
	v128.xor
	v128.store	0
	local.get	3
	local.get	9
	local.get	7
	i8x16.shuffle	8, 9, 10, 11, 12, 13, 14, 15, 0, 1, 2, 3, 4, 5, 6, 7
	local.get	6
	v128.load	64
	v128.xor
	local.get	8
	v128.xor
	local.get	3
	v128.load	48
	local.tee	8
	local.get	8
	local.get	7
	i8x16.shuffle	6, 7, 4, 5, 10, 11, 8, 9, 14, 15, 12, 13, 2, 3, 0, 1
	local.tee	8
	v128.xor
	local.tee	9
	v128.xor
	local.get	7
	v128.xor
	v128.store	64
	local.get	3
	local.get	9
	local.get	7
	i8x16.shuffle	8, 9, 10, 11, 12, 13, 14, 15, 0, 1, 2, 3, 4, 5, 6, 7
	local.get	6
	v128.load	48
	v128.xor
	local.get	8
	v128.xor
	local.get	11
	v128.xor
	local.get	7
	v128.xor
	v128.store	48
	local.get	3
	local.get	12
	local.get	7
	i8x16.shuffle	8, 9, 10, 11, 12, 13, 14, 15, 0, 1, 2, 3, 4, 5, 6, 7
	local.get	6
	v128.load	16
	v128.xor
	local.get	10
	v128.xor
	local.get	14
	v128.xor
	local.get	7
	v128.xor
	v128.store	16
	local.get	3
	call	aes_planes__soft__sbox__sub_bytes____e29e0540aa8bc136_
	local.get	3
	local.get	3
	v128.load	112
	local.tee	7
	local.get	7
	local.get	7
	i8x16.shuffle	7, 4, 5, 6, 11, 8, 9, 10, 15, 12, 13, 14, 3, 0, 1, 2
	local.tee	8
	v128.xor
	local.tee	7
	local.get	7
	i8x16.shuffle	10, 11, 8, 9, 14, 15, 12, 13, 2, 3, 0, 1, 6, 7, 4, 5
	local.get	0
	local.get	1
	i32.wrap_i64
	i32.const	7
	i32.shl 
	local.tee	15
	i32.add 
	local.tee	6
	i32.const	-16
	i32.add 
	v128.load	0
	v128.xor
	local.get	8
	v128.xor
	local.get	3
	v128.load	96
	local.tee	8
	local.get	8
	local.get	7
	i8x16.shuffle	7, 4, 5, 6, 11, 8, 9, 10, 15, 12, 13, 14, 3, 0, 1, 2
	local.tee	8
	v128.xor
	local.tee	9
	v128.xor
	v128.store	112
	local.get	3
	local.get	9
	local.get	7
	i8x16.shuffle	10, 11, 8, 9, 14, 15, 12, 13, 2, 3, 0, 1, 6, 7, 4, 5
	local.get	6
	i32.const	-32
	i32.add 
	v128.load	0
	v128.xor
	local.get	8
	v128.xor
	local.get	3
	v128.load	80
	local.tee	8
	local.get	8
	local.get	7
	i8x16.shuffle	7, 4, 5, 6, 11, 8, 9, 10, 15, 12, 13, 14, 3, 0, 1, 2
	local.tee	8
	v128.xor
	local.tee	9
	v128.xor
	v128.store	96
	local.get	3
	local.get	9
	local.get	7
	i8x16.shuffle	10, 11, 8, 9, 14, 15, 12, 13, 2, 3, 0, 1, 6, 7, 4, 5
	local.get	6
	i32.const	-48
	i32.add 
	v128.load	0
	v128.xor
	local.get	8
	v128.xor
	local.get	3
	v128.load	64
	local.tee	8
	local.get	8
	local.get	7
	i8x16.shuffle	7, 4, 5, 6, 11, 8, 9, 10, 15, 12, 13, 14, 3, 0, 1, 2
	local.tee	8
	v128.xor
	local.tee	9
	v128.xor
	v128.store	80
	local.get	3
	local.get	3
	v128.load	32
	local.tee	10
	local.get	10
	local.get	7
	i8x16.shuffle	7, 4, 5, 6, 11, 8, 9, 10, 15, 12, 13, 14, 3, 0, 1, 2
	local.tee	10
	v128.xor
	local.tee	11
	local.get	7
	i8x16.shuffle	10, 11, 8, 9, 14, 15, 12, 13, 2, 3, 0, 1, 6, 7, 4, 5
	local.get	6
	i32.const	-96
	i32.add 
	v128.load	0
	v128.xor
	local.get	10
	v128.xor
	local.get	3
	v128.load	16
	local.tee	10
	local.get	10
	local.get	7
	i8x16.shuffle	7, 4, 5, 6, 11, 8, 9, 10, 15, 12, 13, 14, 3, 0, 1, 2
	local.tee	10
	v128.xor
	local.tee	12
	v128.xor
	v128.store	32
	local.get	3
	local.get	3
	v128.load	0
	local.tee	13
	local.get	13
	local.get	7
	i8x16.shuffle	7, 4, 5, 6, 11, 8, 9, 10, 15, 12, 13, 14, 3, 0, 1, 2
	local.tee	13
	v128.xor
	local.tee	14
	local.get	7
	i8x16.shuffle	10, 11, 8, 9, 14, 15, 12, 13, 2, 3, 0, 1, 6, 7, 4, 5
	local.get	6
	i32.const	-128
	i32.add 
	v128.load	0
	v128.xor
	local.get	13
	v128.xor
	local.get	7
	v128.xor
	v128.store	0
	local.get	3
	local.get	9
	local.get	7
	i8x16.shuffle	10, 11, 8, 9, 14, 15, 12, 13, 2, 3, 0, 1, 6, 7, 4, 5
	local.get	6
	i32.const	-64
	i32.add 
	v128.load	0
	v128.xor
	local.get	8
	v128.xor
	local.get	3
	v128.load	48
	local.tee	8
	local.get	8
	local.get	7
	i8x16.shuffle	7, 4, 5, 6, 11, 8, 9, 10, 15, 12, 13, 14, 3, 0, 1, 2
	local.tee	8
	v128.xor
	local.tee	9
	v128.xor
	local.get	7
	v128.xor
	v128.store	64
	local.get	3
	local.get	9
	local.get	7
	i8x16.shuffle	10, 11, 8, 9, 14, 15, 12, 13, 2, 3, 0, 1, 6, 7, 4, 5
	local.get	6
	i32.const	-80
	i32.add 
	v128.load	0
	v128.xor
	local.get	8
	v128.xor
	local.get	11
	v128.xor
	local.get	7
	v128.xor
	v128.store	48
	local.get	3
	local.get	12
	local.get	7
	i8x16.shuffle	10, 11, 8, 9, 14, 15, 12, 13, 2, 3, 0, 1, 6, 7, 4, 5
	local.get	6
	i32.const	-112
	i32.add 
	v128.load	0
	v128.xor
	local.get	10
	v128.xor
	local.get	14
	v128.xor
	local.get	7
	v128.xor
	v128.store	16
	br      	1                               # 1: down to label33
.LBB7_5:                                # %else.12
	end_block                               # label34:
	local.get	3
	i32.const	16
	i64.const	281470681743360
	i64.const	281470681743360
	call	aes_planes__soft__shifts__swap_columns____e29e0540aa8bc136_
	local.get	1
	i32.wrap_i64
	i32.const	7
	i32.shl 
	local.set	15
.LBB7_6:                                # %join.13
	end_block                               # label33:
	local.get	3
	call	aes_planes__soft__sbox__sub_bytes____e29e0540aa8bc136_
	local.get	3
	local.get	3
	v128.load	112
	local.get	0
	local.get	15
	i32.add 
	local.tee	6
	v128.load	112
	v128.xor
	v128.store	112
	local.get	3
	local.get	3
	v128.load	96
	local.get	6
	v128.load	96
	v128.xor
	v128.store	96
	local.get	3
	local.get	3
	v128.load	80
	local.get	6
	v128.load	80
	v128.xor
	v128.store	80
	local.get	3
	local.get	3
	v128.load	64
	local.get	6
	v128.load	64
	v128.xor
	v128.store	64
	local.get	3
	local.get	3
	v128.load	48
	local.get	6
	v128.load	48
	v128.xor
	v128.store	48
	local.get	3
	local.get	3
	v128.load	32
	local.get	6
	v128.load	32
	v128.xor
	v128.store	32
	local.get	3
	local.get	3
	v128.load	16
	local.get	6
	v128.load	16
	v128.xor
	v128.store	16
	local.get	3
	local.get	3
	v128.load	0
	local.get	6
	v128.load	0
	v128.xor
	v128.store	0
	local.get	2
	local.get	3
	i32.const	128
	memory.copy	0, 0
	local.get	3
	i32.const	128
	i32.add 
	global.set	__stack_pointer
                                        # fallthrough-return
	end_function
                                        # -- End function
	.section	.text.aes_planes__soft__shifts__swap_columns____e29e0540aa8bc136_,"",@
	.type	aes_planes__soft__shifts__swap_columns____e29e0540aa8bc136_,@function # -- Begin function aes_planes__soft__shifts__swap_columns____e29e0540aa8bc136_
aes_planes__soft__shifts__swap_columns____e29e0540aa8bc136_: # @aes_planes__soft__shifts__swap_columns____e29e0540aa8bc136_
	.functype	aes_planes__soft__shifts__swap_columns____e29e0540aa8bc136_ (i32, i32, i64, i64) -> ()
	.local  	v128, i32, v128, v128, v128, v128, v128, v128, v128, v128, v128, v128, v128, v128, v128, v128, v128, v128, v128, v128, v128, v128, v128, v128, v128, v128, v128, v128, i32
# %bb.0:                                # %start
	local.get	0
	v128.load	0
	local.tee	4
	local.get	1
	i32.const	3
	i32.shr_u
	local.tee	5
	i32.const	112
	i32.or  
	i8x16.splat
	v128.const	0, 1, 2, 3, 4, 5, 6, 7, 8, 9, 10, 11, 12, 13, 14, 15
	local.tee	6
	i8x16.add
	v128.const	-113, -113, -113, -113, -113, -113, -113, -113, -113, -113, -113, -113, -113, -113, -113, -113
	local.tee	7
	v128.and
	local.tee	8
	i8x16.swizzle
	local.set	9
	block   	
	local.get	1
	i32.const	7
	i32.and 
	local.tee	1
	i32.eqz
	br_if   	0                               # 0: down to label35
# %bb.1:                                # %join.3.i
	local.get	9
	local.get	1
	i8x16.shr_u
	local.get	4
	local.get	5
	i32.const	113
	i32.add 
	i8x16.splat
	local.get	6
	i8x16.add
	local.get	7
	v128.and
	i8x16.swizzle
	i32.const	8
	local.get	1
	i32.sub 
	i8x16.shl
	v128.or
	local.set	9
.LBB8_2:                                # %aes_planes__soft__word__vector128__shift_right.exit
	end_block                               # label35:
	local.get	0
	v128.load	112
	local.set	10
	local.get	0
	v128.load	96
	local.set	11
	local.get	0
	v128.load	80
	local.set	12
	local.get	0
	v128.load	64
	local.set	13
	local.get	0
	v128.load	48
	local.set	14
	local.get	0
	v128.load	32
	local.set	15
	local.get	0
	v128.load	16
	local.set	16
	local.get	9
	local.get	4
	v128.xor
	local.get	2
	i64x2.splat
	local.get	3
	i64x2.replace_lane	1
	local.tee	9
	v128.and
	local.tee	17
	local.get	6
	local.get	5
	i8x16.splat
	i8x16.sub
	local.tee	18
	i8x16.swizzle
	local.set	19
	block   	
	block   	
	local.get	1
	br_if   	0                               # 0: down to label37
# %bb.3:                                # %then.1.i720
	local.get	10
	local.get	8
	i8x16.swizzle
	local.get	10
	v128.xor
	local.get	9
	v128.and
	local.tee	20
	local.get	18
	i8x16.swizzle
	local.set	21
	local.get	11
	local.get	8
	i8x16.swizzle
	local.get	11
	v128.xor
	local.get	9
	v128.and
	local.tee	22
	local.get	18
	i8x16.swizzle
	local.set	23
	local.get	12
	local.get	8
	i8x16.swizzle
	local.get	12
	v128.xor
	local.get	9
	v128.and
	local.tee	24
	local.get	18
	i8x16.swizzle
	local.set	25
	local.get	13
	local.get	8
	i8x16.swizzle
	local.get	13
	v128.xor
	local.get	9
	v128.and
	local.tee	26
	local.get	18
	i8x16.swizzle
	local.set	27
	local.get	14
	local.get	8
	i8x16.swizzle
	local.get	14
	v128.xor
	local.get	9
	v128.and
	local.tee	28
	local.get	18
	i8x16.swizzle
	local.set	29
	local.get	15
	local.get	8
	i8x16.swizzle
	local.get	15
	v128.xor
	local.get	9
	v128.and
	local.tee	30
	local.get	18
	i8x16.swizzle
	local.set	31
	local.get	16
	local.get	8
	i8x16.swizzle
	local.get	16
	v128.xor
	local.get	9
	v128.and
	local.tee	8
	local.get	18
	i8x16.swizzle
	local.set	9
	br      	1                               # 1: down to label36
.LBB8_4:                                # %join.3.i707
	end_block                               # label37:
	local.get	10
	local.get	8
	i8x16.swizzle
	local.get	1
	i8x16.shr_u
	local.get	10
	local.get	5
	i32.const	113
	i32.add 
	i8x16.splat
	local.get	6
	i8x16.add
	local.get	7
	v128.and
	local.tee	7
	i8x16.swizzle
	i32.const	8
	local.get	1
	i32.sub 
	local.tee	32
	i8x16.shl
	v128.or
	local.get	10
	v128.xor
	local.get	9
	v128.and
	local.tee	20
	local.get	5
	i32.const	-1
	i32.xor 
	i8x16.splat
	local.get	6
	i8x16.add
	local.tee	6
	i8x16.swizzle
	local.get	32
	i8x16.shr_u
	local.get	20
	local.get	18
	i8x16.swizzle
	local.get	1
	i8x16.shl
	v128.or
	local.set	21
	local.get	11
	local.get	8
	i8x16.swizzle
	local.get	1
	i8x16.shr_u
	local.get	11
	local.get	7
	i8x16.swizzle
	local.get	32
	i8x16.shl
	v128.or
	local.get	11
	v128.xor
	local.get	9
	v128.and
	local.tee	22
	local.get	6
	i8x16.swizzle
	local.get	32
	i8x16.shr_u
	local.get	22
	local.get	18
	i8x16.swizzle
	local.get	1
	i8x16.shl
	v128.or
	local.set	23
	local.get	12
	local.get	8
	i8x16.swizzle
	local.get	1
	i8x16.shr_u
	local.get	12
	local.get	7
	i8x16.swizzle
	local.get	32
	i8x16.shl
	v128.or
	local.get	12
	v128.xor
	local.get	9
	v128.and
	local.tee	24
	local.get	6
	i8x16.swizzle
	local.get	32
	i8x16.shr_u
	local.get	24
	local.get	18
	i8x16.swizzle
	local.get	1
	i8x16.shl
	v128.or
	local.set	25
	local.get	13
	local.get	8
	i8x16.swizzle
	local.get	1
	i8x16.shr_u
	local.get	13
	local.get	7
	i8x16.swizzle
	local.get	32
	i8x16.shl
	v128.or
	local.get	13
	v128.xor
	local.get	9
	v128.and
	local.tee	26
	local.get	6
	i8x16.swizzle
	local.get	32
	i8x16.shr_u
	local.get	26
	local.get	18
	i8x16.swizzle
	local.get	1
	i8x16.shl
	v128.or
	local.set	27
	local.get	14
	local.get	8
	i8x16.swizzle
	local.get	1
	i8x16.shr_u
	local.get	14
	local.get	7
	i8x16.swizzle
	local.get	32
	i8x16.shl
	v128.or
	local.get	14
	v128.xor
	local.get	9
	v128.and
	local.tee	28
	local.get	6
	i8x16.swizzle
	local.get	32
	i8x16.shr_u
	local.get	28
	local.get	18
	i8x16.swizzle
	local.get	1
	i8x16.shl
	v128.or
	local.set	29
	local.get	15
	local.get	8
	i8x16.swizzle
	local.get	1
	i8x16.shr_u
	local.get	15
	local.get	7
	i8x16.swizzle
	local.get	32
	i8x16.shl
	v128.or
	local.get	15
	v128.xor
	local.get	9
	v128.and
	local.tee	30
	local.get	6
	i8x16.swizzle
	local.get	32
	i8x16.shr_u
	local.get	30
	local.get	18
	i8x16.swizzle
	local.get	1
	i8x16.shl
	v128.or
	local.set	31
	local.get	16
	local.get	8
	i8x16.swizzle
	local.get	1
	i8x16.shr_u
	local.get	16
	local.get	7
	i8x16.swizzle
	local.get	32
	i8x16.shl
	v128.or
	local.get	16
	v128.xor
	local.get	9
	v128.and
	local.tee	8
	local.get	6
	i8x16.swizzle
	local.get	32
	i8x16.shr_u
	local.get	8
	local.get	18
	i8x16.swizzle
	local.get	1
	i8x16.shl
	v128.or
	local.set	9
	local.get	17
	local.get	6
	i8x16.swizzle
	local.get	32
	i8x16.shr_u
	local.get	19
	local.get	1
	i8x16.shl
	v128.or
	local.set	19
.LBB8_5:                                # %aes_planes__soft__word__vector128__shift_left.exit722
	end_block                               # label36:
	local.get	0
	local.get	20
	local.get	21
	v128.xor
	local.get	10
	v128.xor
	v128.store	112:p2align=0
	local.get	0
	local.get	22
	local.get	23
	v128.xor
	local.get	11
	v128.xor
	v128.store	96:p2align=0
	local.get	0
	local.get	24
	local.get	25
	v128.xor
	local.get	12
	v128.xor
	v128.store	80:p2align=0
	local.get	0
	local.get	26
	local.get	27
	v128.xor
	local.get	13
	v128.xor
	v128.store	64:p2align=0
	local.get	0
	local.get	28
	local.get	29
	v128.xor
	local.get	14
	v128.xor
	v128.store	48:p2align=0
	local.get	0
	local.get	30
	local.get	31
	v128.xor
	local.get	15
	v128.xor
	v128.store	32:p2align=0
	local.get	0
	local.get	8
	local.get	9
	v128.xor
	local.get	16
	v128.xor
	v128.store	16:p2align=0
	local.get	0
	local.get	4
	local.get	19
	v128.xor
	local.get	17
	v128.xor
	v128.store	0:p2align=0
                                        # fallthrough-return
	end_function
                                        # -- End function
	.section	.text.aes_planes__soft__sbox__sub_bytes____e29e0540aa8bc136_,"",@
	.type	aes_planes__soft__sbox__sub_bytes____e29e0540aa8bc136_,@function # -- Begin function aes_planes__soft__sbox__sub_bytes____e29e0540aa8bc136_
aes_planes__soft__sbox__sub_bytes____e29e0540aa8bc136_: # @aes_planes__soft__sbox__sub_bytes____e29e0540aa8bc136_
	.functype	aes_planes__soft__sbox__sub_bytes____e29e0540aa8bc136_ (i32) -> ()
	.local  	v128, v128, v128, v128, v128, v128, v128, v128, v128, v128, v128, v128, v128, v128, v128, v128, v128, v128, v128, v128, v128, v128, v128, v128, v128, v128, v128, v128
# %bb.0:                                # %start
	local.get	0
	local.get	0
	v128.load	96
	local.tee	1
	local.get	0
	v128.load	80
	v128.xor
	local.tee	2
	local.get	0
	v128.load	0
	local.tee	3
	v128.xor
	local.tee	4
	local.get	0
	v128.load	64
	local.tee	5
	v128.xor
	local.tee	6
	local.get	3
	v128.and
	local.get	0
	v128.load	112
	local.tee	7
	local.get	0
	v128.load	32
	local.tee	8
	v128.xor
	local.tee	9
	v128.xor
	local.get	7
	local.get	0
	v128.load	16
	local.tee	10
	v128.xor
	local.tee	11
	local.get	5
	local.get	8
	v128.xor
	local.tee	12
	v128.xor
	local.tee	13
	local.get	0
	v128.load	48
	v128.xor
	local.tee	14
	local.get	8
	v128.xor
	local.tee	8
	local.get	2
	v128.xor
	local.tee	15
	v128.xor
	local.get	8
	local.get	13
	v128.and
	local.tee	16
	v128.xor
	local.get	15
	local.get	9
	v128.and
	local.get	14
	local.get	1
	v128.xor
	local.tee	14
	local.get	7
	local.get	5
	v128.xor
	local.tee	17
	v128.xor
	local.tee	5
	local.get	17
	v128.and
	local.tee	18
	v128.xor
	local.tee	19
	v128.xor
	local.tee	1
	local.get	5
	local.get	2
	v128.xor
	local.tee	2
	local.get	4
	local.get	10
	v128.xor
	local.tee	20
	local.get	4
	v128.and
	v128.xor
	local.get	2
	local.get	11
	v128.and
	local.tee	21
	v128.xor
	local.get	11
	v128.xor
	local.get	5
	local.get	15
	v128.xor
	local.tee	22
	local.get	12
	v128.and
	local.get	18
	v128.xor
	local.tee	18
	v128.xor
	local.tee	10
	local.get	14
	local.get	8
	local.get	3
	v128.xor
	local.tee	23
	local.get	20
	local.get	9
	v128.xor
	local.tee	24
	v128.and
	v128.xor
	local.get	16
	v128.xor
	local.get	18
	v128.xor
	local.tee	16
	v128.and
	local.tee	18
	local.get	10
	local.get	2
	local.get	5
	local.get	3
	v128.xor
	local.tee	25
	local.get	4
	local.get	7
	v128.xor
	local.tee	26
	v128.and
	v128.xor
	local.get	21
	v128.xor
	local.get	7
	v128.xor
	local.get	19
	v128.xor
	local.tee	14
	v128.xor
	v128.bitselect
	local.get	14
	v128.and
	local.tee	19
	local.get	18
	local.get	14
	v128.xor
	local.tee	7
	v128.xor
	local.get	16
	local.get	1
	local.get	7
	v128.bitselect
	local.tee	7
	v128.and
	local.get	16
	local.get	1
	v128.xor
	v128.xor
	local.tee	16
	local.get	19
	local.get	10
	v128.xor
	local.tee	19
	local.get	10
	local.get	14
	local.get	18
	local.get	1
	v128.xor
	v128.bitselect
	local.tee	1
	v128.xor
	local.tee	10
	v128.xor
	local.tee	14
	local.get	7
	local.get	1
	v128.xor
	local.tee	18
	v128.xor
	local.tee	21
	local.get	12
	v128.and
	local.get	18
	local.get	17
	v128.and
	local.tee	12
	v128.xor
	local.tee	17
	local.get	10
	local.get	24
	v128.and
	v128.xor
	local.tee	24
	local.get	19
	local.get	13
	v128.and
	v128.xor
	local.tee	13
	local.get	16
	local.get	7
	v128.xor
	local.tee	27
	local.get	2
	v128.and
	local.tee	2
	local.get	16
	local.get	4
	v128.and
	v128.xor
	local.tee	28
	local.get	21
	local.get	22
	v128.and
	v128.xor
	local.tee	21
	local.get	18
	local.get	5
	v128.and
	v128.xor
	local.tee	4
	v128.xor
	v128.store	112
	local.get	0
	local.get	14
	local.get	9
	v128.and
	local.get	12
	v128.xor
	local.get	4
	v128.xor
	local.get	14
	local.get	15
	v128.and
	local.get	19
	local.get	8
	v128.and
	local.tee	5
	local.get	1
	local.get	3
	v128.and
	v128.xor
	local.tee	9
	v128.xor
	local.get	27
	local.get	11
	v128.and
	local.tee	11
	v128.xor
	local.get	21
	v128.xor
	local.tee	8
	local.get	7
	local.get	26
	v128.and
	v128.xor
	local.tee	15
	v128.xor
	v128.store	80
	local.get	0
	local.get	5
	local.get	10
	local.get	23
	v128.and
	v128.xor
	local.get	28
	v128.xor
	local.get	13
	v128.xor
	local.tee	3
	v128.store	64
	local.get	0
	local.get	24
	local.get	1
	local.get	6
	v128.and
	v128.xor
	local.get	15
	v128.xor
	v128.store	32
	local.get	0
	local.get	17
	local.get	16
	local.get	20
	v128.and
	v128.xor
	local.get	9
	local.get	7
	local.get	25
	v128.and
	v128.xor
	local.get	2
	v128.xor
	local.tee	7
	v128.xor
	local.tee	5
	local.get	8
	v128.xor
	v128.store	16
	local.get	0
	local.get	5
	local.get	11
	v128.xor
	v128.store	0
	local.get	0
	local.get	3
	local.get	4
	v128.xor
	v128.store	96
	local.get	0
	local.get	3
	local.get	7
	v128.xor
	v128.store	48
                                        # fallthrough-return
	end_function
                                        # -- End function
	.section	.text.aes_soft__soft__blocks__filled_up__process_filled_up____a60badf655ff5009_,"",@
	.type	aes_soft__soft__blocks__filled_up__process_filled_up____a60badf655ff5009_,@function # -- Begin function aes_soft__soft__blocks__filled_up__process_filled_up____a60badf655ff5009_
aes_soft__soft__blocks__filled_up__process_filled_up____a60badf655ff5009_: # @aes_soft__soft__blocks__filled_up__process_filled_up____a60badf655ff5009_
	.functype	aes_soft__soft__blocks__filled_up__process_filled_up____a60badf655ff5009_ (i32, i64, i32, i64) -> ()
	.local  	i32, v128, i32, i64
# %bb.0:                                # %start
	global.get	__stack_pointer
	i32.const	384
	i32.sub 
	local.tee	4
	global.set	__stack_pointer
	local.get	4
	i32.const	128
	i32.add 
	i32.const	0
	i32.const	128
	memory.fill	0
	local.get	4
	i32.const	0
	i32.const	128
	memory.fill	0
	local.get	4
	local.get	2
	v128.load	0:p2align=0
	local.tee	5
	v128.store	256:p2align=3
	local.get	4
	local.get	5
	v128.store	272:p2align=3
	local.get	4
	local.get	5
	v128.store	288:p2align=3
	local.get	4
	local.get	5
	v128.store	304:p2align=3
	local.get	4
	local.get	5
	v128.store	320:p2align=3
	local.get	4
	local.get	5
	v128.store	336:p2align=3
	local.get	4
	local.get	5
	v128.store	352:p2align=3
	local.get	4
	local.get	5
	v128.store	368:p2align=3
	local.get	1
	i64.const	3
	i64.shr_u
	i64.const	-1
	i64.add 
	local.set	1
	block   	
	block   	
	local.get	3
	i64.eqz
	br_if   	0                               # 0: down to label39
# %bb.1:                                # %join.8.i
	local.get	4
	local.get	2
	v128.load	0:p2align=0
	v128.store	256:p2align=3
	block   	
	local.get	3
	i64.const	1
	i64.eq  
	local.tee	6
	br_if   	0                               # 0: down to label40
# %bb.2:                                # %join.8.i.1
	local.get	4
	local.get	2
	v128.load	16:p2align=0
	v128.store	272:p2align=3
	local.get	3
	i64.const	2
	i64.eq  
	br_if   	0                               # 0: down to label40
# %bb.3:                                # %join.8.i.2
	local.get	4
	local.get	2
	v128.load	32:p2align=0
	v128.store	288:p2align=3
	local.get	3
	i64.const	3
	i64.eq  
	br_if   	0                               # 0: down to label40
# %bb.4:                                # %join.8.i.3
	local.get	4
	local.get	2
	v128.load	48:p2align=0
	v128.store	304:p2align=3
	local.get	3
	i64.const	4
	i64.eq  
	br_if   	0                               # 0: down to label40
# %bb.5:                                # %join.8.i.4
	local.get	4
	local.get	2
	v128.load	64:p2align=0
	v128.store	320:p2align=3
	local.get	3
	i64.const	5
	i64.eq  
	br_if   	0                               # 0: down to label40
# %bb.6:                                # %join.8.i.5
	local.get	4
	local.get	2
	v128.load	80:p2align=0
	v128.store	336:p2align=3
	local.get	3
	i64.const	6
	i64.eq  
	br_if   	0                               # 0: down to label40
# %bb.7:                                # %join.8.i.6
	local.get	4
	local.get	2
	v128.load	96:p2align=0
	v128.store	352:p2align=3
.LBB10_8:                               # %aes_soft__soft__blocks__filled_up__filled_up____3fb8a7784760496e_.exit
	end_block                               # label40:
	local.get	4
	local.get	0
	local.get	1
	local.get	4
	i32.const	256
	i32.add 
	call	aes_soft__soft__ciphers__planes__process_outlined____1a44e25bef607b64_
	local.get	4
	i32.const	128
	i32.add 
	local.get	4
	i32.const	128
	memory.copy	0, 0
	i64.const	0
	local.set	1
	block   	
	local.get	6
	br_if   	0                               # 0: down to label41
# %bb.9:                                # %aes_soft__soft__blocks__filled_up__filled_up____3fb8a7784760496e_.exit.new
	local.get	3
	i64.const	1
	i64.and 
	local.set	7
	local.get	3
	i64.const	6
	i64.and 
	local.set	3
	i64.const	0
	local.set	1
	local.get	4
	i32.const	128
	i32.add 
	local.set	0
	local.get	2
	local.set	6
.LBB10_10:                              # %join.8.i22
                                        # =>This Inner Loop Header: Depth=1
	loop    	                                # label42:
	local.get	6
	local.get	0
	v128.load	0:p2align=0
	v128.store	0:p2align=0
	local.get	6
	i32.const	16
	i32.add 
	local.get	0
	i32.const	16
	i32.add 
	v128.load	0:p2align=0
	v128.store	0:p2align=0
	local.get	6
	i32.const	32
	i32.add 
	local.set	6
	local.get	0
	i32.const	32
	i32.add 
	local.set	0
	local.get	3
	local.get	1
	i64.const	2
	i64.add 
	local.tee	1
	i64.ne  
	br_if   	0                               # 0: up to label42
# %bb.11:                               # %aes_soft__soft__blocks__filled_up__copy_first____3fb8a7784760496e_.exit.loopexit.unr-lcssa
	end_loop
	local.get	7
	i64.eqz
	br_if   	2                               # 2: down to label38
.LBB10_12:                              # %join.8.i22.epil.preheader
	end_block                               # label41:
	local.get	2
	local.get	1
	i32.wrap_i64
	i32.const	4
	i32.shl 
	local.tee	0
	i32.add 
	local.get	4
	i32.const	128
	i32.add 
	local.get	0
	i32.add 
	v128.load	0:p2align=0
	v128.store	0:p2align=0
	br      	1                               # 1: down to label38
.LBB10_13:                              # %aes_soft__soft__blocks__filled_up__copy_first____3fb8a7784760496e_.exit.critedge
	end_block                               # label39:
	local.get	4
	local.get	0
	local.get	1
	local.get	4
	i32.const	256
	i32.add 
	call	aes_soft__soft__ciphers__planes__process_outlined____1a44e25bef607b64_
	local.get	4
	i32.const	128
	i32.add 
	local.get	4
	i32.const	128
	memory.copy	0, 0
.LBB10_14:                              # %aes_soft__soft__blocks__filled_up__copy_first____3fb8a7784760496e_.exit
	end_block                               # label38:
	local.get	4
	i32.const	384
	i32.add 
	global.set	__stack_pointer
                                        # fallthrough-return
	end_function
                                        # -- End function
	.section	.text.aes_cipher__zeroize__zeroize_words____e29e0540aa8bc136_,"",@
	.type	aes_cipher__zeroize__zeroize_words____e29e0540aa8bc136_,@function # -- Begin function aes_cipher__zeroize__zeroize_words____e29e0540aa8bc136_
aes_cipher__zeroize__zeroize_words____e29e0540aa8bc136_: # @aes_cipher__zeroize__zeroize_words____e29e0540aa8bc136_
	.functype	aes_cipher__zeroize__zeroize_words____e29e0540aa8bc136_ (i32) -> ()
	.local  	i64, i32, i64, i32
# %bb.0:                                # %start
	i64.const	0
	local.set	1
	global.get	__stack_pointer
	i32.const	16
	i32.sub 
	local.tee	2
	i64.const	0
	i64.store	8
	#APP
	#NO_APP
	local.get	2
	i64.load	8
	local.set	3
	#APP
	#NO_APP
	block   	
	block   	
	local.get	3
	i64.const	120
	i64.lt_u
	br_if   	0                               # 0: down to label44
# %bb.1:                                # %aes_cipher__zeroize__observe____ccfd3525e01c7eaa_.exit12
	local.get	0
	i32.const	0
	i32.const	1920
	memory.fill	0
	br      	1                               # 1: down to label43
.LBB11_2:                               # %then.1.i
	end_block                               # label44:
	local.get	0
	local.get	3
	i32.wrap_i64
	i32.const	4
	i32.shl 
	i32.add 
	local.tee	4
	i64.load8_u	0
	local.set	1
	local.get	0
	i32.const	0
	i32.const	1920
	memory.fill	0
	local.get	1
	local.get	4
	i64.load8_u	0
	i64.and 
	local.set	1
.LBB11_3:                               # %aes_cipher__zeroize__observe____ccfd3525e01c7eaa_.exit
	end_block                               # label43:
	#APP
	#NO_APP
	local.get	2
	i64.load	8
	drop
	local.get	2
	local.get	1
	i64.store	8
	#APP
	#NO_APP
                                        # fallthrough-return
	end_function
                                        # -- End function
	.section	.text.aes_cipher__zeroize__stack__wipe_stack____1792_,"",@
	.type	aes_cipher__zeroize__stack__wipe_stack____1792_,@function # -- Begin function aes_cipher__zeroize__stack__wipe_stack____1792_
aes_cipher__zeroize__stack__wipe_stack____1792_: # @aes_cipher__zeroize__stack__wipe_stack____1792_
	.functype	aes_cipher__zeroize__stack__wipe_stack____1792_ () -> ()
	.local  	i32, i64
# %bb.0:                                # %start
	global.get	__stack_pointer
	i32.const	1808
	i32.sub 
	local.tee	0
	global.set	__stack_pointer
	local.get	0
	i32.const	16
	i32.add 
	i32.const	0
	i32.const	1792
	memory.fill	0
	local.get	0
	i64.const	0
	i64.store	8
	#APP
	#NO_APP
	local.get	0
	i64.load	8
	local.set	1
	#APP
	#NO_APP
	block   	
	local.get	1
	i64.const	1792
	i64.ge_u
	br_if   	0                               # 0: down to label45
# %bb.1:                                # %then.1
	local.get	0
	i32.const	16
	i32.add 
	local.get	1
	i32.wrap_i64
	i32.add 
	i64.load8_u	0
	local.set	1
	#APP
	#NO_APP
	local.get	0
	i64.load	8
	drop
	local.get	0
	local.get	1
	i64.store	8
	#APP
	#NO_APP
.LBB12_2:                               # %common.ret
	end_block                               # label45:
	local.get	0
	i32.const	1808
	i32.add 
	global.set	__stack_pointer
                                        # fallthrough-return
	end_function
                                        # -- End function
	.section	.text.aes_permute__blocks__process_on_lanes____06aaae76f5856d0a_,"",@
	.type	aes_permute__blocks__process_on_lanes____06aaae76f5856d0a_,@function # -- Begin function aes_permute__blocks__process_on_lanes____06aaae76f5856d0a_
aes_permute__blocks__process_on_lanes____06aaae76f5856d0a_: # @aes_permute__blocks__process_on_lanes____06aaae76f5856d0a_
	.functype	aes_permute__blocks__process_on_lanes____06aaae76f5856d0a_ (i32, i64, i32, i64) -> ()
	.local  	i64, i64, i64, i32, i32, v128, v128, v128, i32, v128, v128, v128, i64, v128, v128, v128, v128, v128, v128, i32, v128, v128, v128
# %bb.0:                                # %start
	i64.const	0
	local.set	4
	block   	
	local.get	3
	i64.const	2
	i64.lt_u
	br_if   	0                               # 0: down to label46
# %bb.1:                                # %join.5.lr.ph
	local.get	1
	i64.const	-2
	i64.add 
	local.set	5
	local.get	0
	local.get	1
	i64.const	-1
	i64.add 
	local.tee	6
	i32.wrap_i64
	i32.const	4
	i32.shl 
	local.tee	7
	i32.add 
	local.set	8
	local.get	7
	i32.const	48
	i32.and 
	v128.load	.Lstatic.3:p2align=0
	local.set	9
	i64.const	0
	local.set	4
.LBB13_2:                               # %join.5
                                        # =>This Loop Header: Depth=1
                                        #     Child Loop BB13_4 Depth 2
	loop    	                                # label47:
	v128.const	0, 1, 28, 29, 45, 44, 49, 48, 39, 38, 59, 58, 10, 11, 22, 23
	local.tee	10
	local.get	0
	v128.load	0:p2align=0
	local.tee	11
	local.get	2
	local.get	4
	i32.wrap_i64
	i32.const	4
	i32.shl 
	i32.add 
	local.tee	12
	v128.load	16:p2align=0
	v128.xor
	local.tee	13
	v128.const	15, 15, 15, 15, 15, 15, 15, 15, 15, 15, 15, 15, 15, 15, 15, 15
	local.tee	14
	v128.and
	i8x16.swizzle
	v128.const	0, 134, 253, 123, 142, 8, 115, 245, 119, 241, 138, 12, 249, 127, 4, 130
	local.tee	15
	local.get	13
	i32.const	4
	i8x16.shr_u
	i8x16.swizzle
	v128.xor
	local.set	13
	local.get	10
	local.get	11
	local.get	12
	v128.load	0:p2align=0
	v128.xor
	local.tee	11
	local.get	14
	v128.and
	i8x16.swizzle
	local.get	15
	local.get	11
	i32.const	4
	i8x16.shr_u
	i8x16.swizzle
	v128.xor
	local.set	15
	block   	
	local.get	6
	i64.const	2
	i64.lt_u
	br_if   	0                               # 0: down to label48
# %bb.3:                                # %join.5.i1924.preheader
                                        #   in Loop: Header=BB13_2 Depth=1
	i32.const	16
	local.set	7
	local.get	5
	local.set	16
.LBB13_4:                               # %join.5.i1924
                                        #   Parent Loop BB13_2 Depth=1
                                        # =>  This Inner Loop Header: Depth=2
	loop    	                                # label49:
	v128.const	0, 209, 229, 247, 230, 37, 18, 195, 38, 192, 55, 210, 244, 3, 17, 52
	local.tee	17
	v128.const	128, 1, 9, 14, 13, 11, 7, 6, 15, 2, 12, 5, 10, 4, 3, 8
	local.tee	10
	local.get	10
	local.get	13
	i32.const	4
	i8x16.shr_u
	local.tee	11
	local.get	13
	local.get	14
	v128.and
	local.tee	13
	v128.xor
	local.tee	18
	i8x16.swizzle
	v128.const	128, 2, 1, 15, 9, 5, 14, 12, 13, 4, 11, 10, 7, 8, 6, 3
	local.tee	19
	local.get	13
	i8x16.swizzle
	local.tee	13
	v128.xor
	i8x16.swizzle
	local.get	11
	v128.xor
	local.tee	20
	i8x16.swizzle
	v128.const	0, 124, 32, 207, 146, 1, 239, 147, 179, 33, 238, 206, 125, 178, 93, 92
	local.tee	21
	local.get	10
	local.get	10
	local.get	11
	i8x16.swizzle
	local.get	13
	v128.xor
	i8x16.swizzle
	local.get	18
	v128.xor
	local.tee	11
	i8x16.swizzle
	v128.xor
	v128.const	0, 230, 114, 183, 229, 198, 197, 35, 81, 180, 3, 113, 32, 151, 82, 148
	local.tee	22
	local.get	20
	i8x16.swizzle
	v128.const	0, 195, 79, 12, 252, 124, 67, 128, 207, 51, 63, 112, 191, 179, 240, 140
	local.tee	20
	local.get	11
	i8x16.swizzle
	v128.xor
	local.tee	13
	local.get	7
	i32.const	48
	i32.and 
	local.tee	23
	v128.load	.Lstatic.4:p2align=0
	local.tee	11
	i8x16.swizzle
	v128.xor
	local.tee	18
	local.get	11
	i8x16.swizzle
	local.get	13
	local.get	23
	v128.load	.Lstatic.5:p2align=0
	local.tee	24
	i8x16.swizzle
	v128.xor
	local.get	18
	v128.xor
	local.get	0
	local.get	7
	i32.add 
	v128.load	0:p2align=0
	local.tee	25
	v128.xor
	local.set	13
	local.get	17
	local.get	10
	local.get	10
	local.get	15
	i32.const	4
	i8x16.shr_u
	local.tee	18
	local.get	15
	local.get	14
	v128.and
	local.tee	15
	v128.xor
	local.tee	26
	i8x16.swizzle
	local.get	19
	local.get	15
	i8x16.swizzle
	local.tee	15
	v128.xor
	i8x16.swizzle
	local.get	18
	v128.xor
	local.tee	19
	i8x16.swizzle
	local.get	21
	local.get	10
	local.get	10
	local.get	18
	i8x16.swizzle
	local.get	15
	v128.xor
	i8x16.swizzle
	local.get	26
	v128.xor
	local.tee	10
	i8x16.swizzle
	v128.xor
	local.get	22
	local.get	19
	i8x16.swizzle
	local.get	20
	local.get	10
	i8x16.swizzle
	v128.xor
	local.tee	10
	local.get	11
	i8x16.swizzle
	v128.xor
	local.tee	15
	local.get	11
	i8x16.swizzle
	local.get	10
	local.get	24
	i8x16.swizzle
	v128.xor
	local.get	15
	v128.xor
	local.get	25
	v128.xor
	local.set	15
	local.get	7
	i32.const	16
	i32.add 
	local.set	7
	local.get	16
	i64.const	-1
	i64.add 
	local.tee	16
	i64.const	0
	i64.ne  
	br_if   	0                               # 0: up to label49
.LBB13_5:                               # %aes_permute__blocks__process_two_vectors____06aaae76f5856d0a_.exit
                                        #   in Loop: Header=BB13_2 Depth=1
	end_loop
	end_block                               # label48:
	local.get	12
	v128.const	0, 159, 97, 22, 194, 42, 119, 232, 137, 75, 93, 60, 181, 163, 212, 254
	local.tee	18
	v128.const	128, 1, 9, 14, 13, 11, 7, 6, 15, 2, 12, 5, 10, 4, 3, 8
	local.tee	10
	local.get	10
	local.get	13
	i32.const	4
	i8x16.shr_u
	local.tee	11
	local.get	13
	local.get	14
	v128.and
	local.tee	13
	v128.xor
	local.tee	17
	i8x16.swizzle
	v128.const	128, 2, 1, 15, 9, 5, 14, 12, 13, 4, 11, 10, 7, 8, 6, 3
	local.tee	19
	local.get	13
	i8x16.swizzle
	local.tee	13
	v128.xor
	i8x16.swizzle
	local.get	11
	v128.xor
	i8x16.swizzle
	v128.const	0, 203, 215, 176, 33, 141, 103, 172, 123, 90, 234, 61, 70, 246, 145, 28
	local.tee	20
	local.get	10
	local.get	10
	local.get	11
	i8x16.swizzle
	local.get	13
	v128.xor
	i8x16.swizzle
	local.get	17
	v128.xor
	i8x16.swizzle
	v128.xor
	local.get	9
	i8x16.swizzle
	local.get	8
	v128.load	0:p2align=0
	local.tee	13
	v128.xor
	v128.store	16:p2align=0
	local.get	12
	local.get	13
	local.get	18
	local.get	10
	local.get	10
	local.get	15
	i32.const	4
	i8x16.shr_u
	local.tee	11
	local.get	15
	local.get	14
	v128.and
	local.tee	15
	v128.xor
	local.tee	14
	i8x16.swizzle
	local.get	19
	local.get	15
	i8x16.swizzle
	local.tee	15
	v128.xor
	i8x16.swizzle
	local.get	11
	v128.xor
	i8x16.swizzle
	local.get	20
	local.get	10
	local.get	10
	local.get	11
	i8x16.swizzle
	local.get	15
	v128.xor
	i8x16.swizzle
	local.get	14
	v128.xor
	i8x16.swizzle
	v128.xor
	local.get	9
	i8x16.swizzle
	v128.xor
	v128.store	0:p2align=0
	local.get	3
	local.get	4
	i64.const	2
	i64.add 
	local.tee	4
	i64.sub 
	i64.const	1
	i64.gt_u
	br_if   	0                               # 0: up to label47
.LBB13_6:                               # %loop.7.preheader
	end_loop
	end_block                               # label46:
	block   	
	local.get	3
	local.get	4
	i64.eq  
	br_if   	0                               # 0: down to label50
# %bb.7:                                # %join.10.lr.ph
	local.get	1
	i64.const	-2
	i64.add 
	local.set	5
	local.get	0
	local.get	1
	i64.const	-1
	i64.add 
	local.tee	6
	i32.wrap_i64
	i32.const	4
	i32.shl 
	local.tee	7
	i32.add 
	local.set	8
	local.get	7
	i32.const	48
	i32.and 
	v128.load	.Lstatic.3:p2align=0
	local.set	17
.LBB13_8:                               # %join.10
                                        # =>This Loop Header: Depth=1
                                        #     Child Loop BB13_10 Depth 2
	loop    	                                # label51:
	v128.const	0, 1, 28, 29, 45, 44, 49, 48, 39, 38, 59, 58, 10, 11, 22, 23
	local.get	0
	v128.load	0:p2align=0
	local.get	2
	local.get	4
	i32.wrap_i64
	i32.const	4
	i32.shl 
	i32.add 
	local.tee	12
	v128.load	0:p2align=0
	v128.xor
	local.tee	10
	v128.const	15, 15, 15, 15, 15, 15, 15, 15, 15, 15, 15, 15, 15, 15, 15, 15
	local.tee	14
	v128.and
	i8x16.swizzle
	v128.const	0, 134, 253, 123, 142, 8, 115, 245, 119, 241, 138, 12, 249, 127, 4, 130
	local.get	10
	i32.const	4
	i8x16.shr_u
	i8x16.swizzle
	v128.xor
	local.set	11
	block   	
	local.get	6
	i64.const	2
	i64.lt_u
	br_if   	0                               # 0: down to label52
# %bb.9:                                # %join.5.i.preheader
                                        #   in Loop: Header=BB13_8 Depth=1
	local.get	5
	local.set	16
	i32.const	16
	local.set	7
.LBB13_10:                              # %join.5.i
                                        #   Parent Loop BB13_8 Depth=1
                                        # =>  This Inner Loop Header: Depth=2
	loop    	                                # label53:
	local.get	0
	local.get	7
	i32.add 
	v128.load	0:p2align=0
	v128.const	0, 209, 229, 247, 230, 37, 18, 195, 38, 192, 55, 210, 244, 3, 17, 52
	v128.const	128, 1, 9, 14, 13, 11, 7, 6, 15, 2, 12, 5, 10, 4, 3, 8
	local.tee	10
	local.get	10
	local.get	11
	i32.const	4
	i8x16.shr_u
	local.tee	13
	local.get	11
	local.get	14
	v128.and
	local.tee	11
	v128.xor
	local.tee	15
	i8x16.swizzle
	v128.const	128, 2, 1, 15, 9, 5, 14, 12, 13, 4, 11, 10, 7, 8, 6, 3
	local.get	11
	i8x16.swizzle
	local.tee	11
	v128.xor
	i8x16.swizzle
	local.get	13
	v128.xor
	local.tee	18
	i8x16.swizzle
	v128.const	0, 124, 32, 207, 146, 1, 239, 147, 179, 33, 238, 206, 125, 178, 93, 92
	local.get	10
	local.get	10
	local.get	13
	i8x16.swizzle
	local.get	11
	v128.xor
	i8x16.swizzle
	local.get	15
	v128.xor
	local.tee	10
	i8x16.swizzle
	v128.xor
	v128.const	0, 230, 114, 183, 229, 198, 197, 35, 81, 180, 3, 113, 32, 151, 82, 148
	local.get	18
	i8x16.swizzle
	v128.const	0, 195, 79, 12, 252, 124, 67, 128, 207, 51, 63, 112, 191, 179, 240, 140
	local.get	10
	i8x16.swizzle
	v128.xor
	local.tee	10
	local.get	7
	i32.const	48
	i32.and 
	local.tee	23
	v128.load	.Lstatic.4:p2align=0
	local.tee	11
	i8x16.swizzle
	v128.xor
	local.tee	13
	local.get	11
	i8x16.swizzle
	v128.xor
	local.get	10
	local.get	23
	v128.load	.Lstatic.5:p2align=0
	i8x16.swizzle
	v128.xor
	local.get	13
	v128.xor
	local.set	11
	local.get	7
	i32.const	16
	i32.add 
	local.set	7
	local.get	16
	i64.const	-1
	i64.add 
	local.tee	16
	i64.const	0
	i64.ne  
	br_if   	0                               # 0: up to label53
.LBB13_11:                              # %aes_permute__blocks__process_vector____06aaae76f5856d0a_.exit
                                        #   in Loop: Header=BB13_8 Depth=1
	end_loop
	end_block                               # label52:
	local.get	12
	v128.const	0, 159, 97, 22, 194, 42, 119, 232, 137, 75, 93, 60, 181, 163, 212, 254
	v128.const	128, 1, 9, 14, 13, 11, 7, 6, 15, 2, 12, 5, 10, 4, 3, 8
	local.tee	10
	local.get	10
	local.get	11
	i32.const	4
	i8x16.shr_u
	local.tee	13
	local.get	11
	local.get	14
	v128.and
	local.tee	11
	v128.xor
	local.tee	15
	i8x16.swizzle
	v128.const	128, 2, 1, 15, 9, 5, 14, 12, 13, 4, 11, 10, 7, 8, 6, 3
	local.get	11
	i8x16.swizzle
	local.tee	11
	v128.xor
	i8x16.swizzle
	local.get	13
	v128.xor
	i8x16.swizzle
	v128.const	0, 203, 215, 176, 33, 141, 103, 172, 123, 90, 234, 61, 70, 246, 145, 28
	local.get	10
	local.get	10
	local.get	13
	i8x16.swizzle
	local.get	11
	v128.xor
	i8x16.swizzle
	local.get	15
	v128.xor
	i8x16.swizzle
	v128.xor
	local.get	17
	i8x16.swizzle
	local.get	8
	v128.load	0:p2align=0
	v128.xor
	v128.store	0:p2align=0
	local.get	3
	local.get	4
	i64.const	1
	i64.add 
	local.tee	4
	i64.ne  
	br_if   	0                               # 0: up to label51
.LBB13_12:                              # %after.11
	end_loop
	end_block                               # label50:
                                        # fallthrough-return
	end_function
                                        # -- End function
	.section	.text.aes_hybrid__closures__lend_planes____b70de9c75faff52b_,"",@
	.type	aes_hybrid__closures__lend_planes____b70de9c75faff52b_,@function # -- Begin function aes_hybrid__closures__lend_planes____b70de9c75faff52b_
aes_hybrid__closures__lend_planes____b70de9c75faff52b_: # @aes_hybrid__closures__lend_planes____b70de9c75faff52b_
	.functype	aes_hybrid__closures__lend_planes____b70de9c75faff52b_ (i32, i64, i32, i64, i32) -> ()
	.local  	i32
# %bb.0:                                # %start
	global.get	__stack_pointer
	i32.const	1952
	i32.sub 
	local.tee	5
	global.set	__stack_pointer
	local.get	5
	i32.const	160
	i32.add 
	i32.const	0
	i32.const	1792
	memory.fill	0
	local.get	5
	i32.const	32
	i32.add 
	local.get	0
	local.get	1
	call	aes_hybrid__plane_keys__store_planes____e29e0540aa8bc136_
	local.get	5
	local.get	3
	i64.store	24
	local.get	5
	i32.const	0
	i32.store	20
	local.get	5
	local.get	2
	i32.store	16
	local.get	5
	local.get	1
	i64.store	8
	local.get	5
	i32.const	0
	i32.store	4
	local.get	5
	local.get	0
	i32.store	0
	local.get	5
	local.get	5
	i32.const	32
	i32.add 
	local.get	1
	i64.const	3
	i64.shl 
	local.get	4
	call	aes_hybrid__closures__call_to_work____b70de9c75faff52b_
	local.get	5
	i32.const	32
	i32.add 
	call	aes_cipher__zeroize__zeroize_words____e29e0540aa8bc136_
	call	aes_cipher__zeroize__stack__wipe_stack____2032_
	local.get	5
	i32.const	1952
	i32.add 
	global.set	__stack_pointer
                                        # fallthrough-return
	end_function
                                        # -- End function
	.section	.text.aes_hybrid__closures__call_to_work____b70de9c75faff52b_,"",@
	.type	aes_hybrid__closures__call_to_work____b70de9c75faff52b_,@function # -- Begin function aes_hybrid__closures__call_to_work____b70de9c75faff52b_
aes_hybrid__closures__call_to_work____b70de9c75faff52b_: # @aes_hybrid__closures__call_to_work____b70de9c75faff52b_
	.functype	aes_hybrid__closures__call_to_work____b70de9c75faff52b_ (i32, i32, i64, i32) -> ()
	.local  	i32, i32, i64, i64, i64, i64, i64, i64, v128, v128, v128, v128, v128, v128, v128, v128, v128, v128, v128, v128, v128, v128, v128, v128, v128, v128, v128, v128, v128, v128, v128, v128, i32
# %bb.0:                                # %start
	global.get	__stack_pointer
	i32.const	416
	i32.sub 
	local.tee	4
	global.set	__stack_pointer
	local.get	4
	local.get	2
	i64.store	24
	local.get	4
	i32.const	0
	i32.store	20
	local.get	4
	local.get	1
	i32.store	16
	local.get	4
	i32.const	0
	i32.store	12
	local.get	4
	local.get	0
	i32.store	8
	local.get	3
	i32.const	16
	i32.add 
	i32.load	0
	local.set	5
	local.get	3
	i32.const	24
	i32.add 
	i64.load	0
	local.set	6
	local.get	3
	i32.load	0
	local.set	0
	block   	
	block   	
	local.get	3
	i32.const	8
	i32.add 
	i64.load	0
	local.tee	7
	i64.const	15
	i64.and 
	i64.eqz
	i32.eqz
	br_if   	0                               # 0: down to label55
# %bb.1:
	i64.const	0
	local.set	8
	br      	1                               # 1: down to label54
.LBB15_2:                               # %then.1.i.i
	end_block                               # label55:
	local.get	4
	i32.const	8
	i32.add 
	local.get	0
	local.get	7
	i64.const	0
	local.get	5
	local.get	6
	call	aes_ctr__add_in_batches__add_next____f3c9f23e0dfa84c8_
	local.set	8
.LBB15_3:                               # %join.3.i.i
	end_block                               # label54:
	block   	
	local.get	6
	local.get	8
	i64.sub 
	i64.const	128
	i64.lt_u
	br_if   	0                               # 0: down to label56
# %bb.4:                                # %join.11.lr.ph.i.i
	local.get	2
	i64.const	3
	i64.shr_u
	i64.const	-1
	i64.add 
	local.set	9
.LBB15_5:                               # %join.11.i.i
                                        # =>This Loop Header: Depth=1
                                        #     Child Loop BB15_6 Depth 2
	loop    	                                # label57:
	i32.const	0
	local.set	3
	local.get	4
	i32.const	32
	i32.add 
	i32.const	0
	i32.const	256
	memory.fill	0
	i64.const	8
	local.set	10
	local.get	0
	i64.load	0:p2align=0
	local.tee	2
	i64.const	56
	i64.shl 
	local.get	2
	i64.const	65280
	i64.and 
	i64.const	40
	i64.shl 
	i64.or  
	local.get	2
	i64.const	16711680
	i64.and 
	i64.const	24
	i64.shl 
	local.get	2
	i64.const	4278190080
	i64.and 
	i64.const	8
	i64.shl 
	i64.or  
	i64.or  
	local.get	2
	i64.const	8
	i64.shr_u
	i64.const	4278190080
	i64.and 
	local.get	2
	i64.const	24
	i64.shr_u
	i64.const	16711680
	i64.and 
	i64.or  
	local.get	2
	i64.const	40
	i64.shr_u
	i64.const	65280
	i64.and 
	local.get	2
	i64.const	56
	i64.shr_u
	i64.or  
	i64.or  
	i64.or  
	local.get	0
	i64.load	8:p2align=0
	local.tee	2
	i64.const	56
	i64.shl 
	local.get	2
	i64.const	65280
	i64.and 
	i64.const	40
	i64.shl 
	i64.or  
	local.get	2
	i64.const	16711680
	i64.and 
	i64.const	24
	i64.shl 
	local.get	2
	i64.const	4278190080
	i64.and 
	i64.const	8
	i64.shl 
	i64.or  
	i64.or  
	local.get	2
	i64.const	8
	i64.shr_u
	i64.const	4278190080
	i64.and 
	local.get	2
	i64.const	24
	i64.shr_u
	i64.const	16711680
	i64.and 
	i64.or  
	local.get	2
	i64.const	40
	i64.shr_u
	i64.const	65280
	i64.and 
	local.get	2
	i64.const	56
	i64.shr_u
	i64.or  
	i64.or  
	i64.or  
	local.tee	11
	local.get	8
	local.get	7
	i64.add 
	i64.const	4
	i64.shr_u
	i64.add 
	local.tee	2
	local.get	11
	i64.lt_u
	i64.extend_i32_u
	i64.add 
	local.set	11
.LBB15_6:                               # %join.5.i.i.i.i
                                        #   Parent Loop BB15_5 Depth=1
                                        # =>  This Inner Loop Header: Depth=2
	loop    	                                # label58:
	local.get	4
	i32.const	32
	i32.add 
	local.get	3
	i32.add 
	local.get	2
	i64x2.splat
	local.get	11
	i64x2.replace_lane	1
	local.get	12
	i8x16.shuffle	15, 14, 13, 12, 11, 10, 9, 8, 7, 6, 5, 4, 3, 2, 1, 0
	v128.store	0
	local.get	3
	i32.const	16
	i32.add 
	local.set	3
	local.get	11
	local.get	2
	i64.const	1
	i64.add 
	local.tee	2
	i64.eqz
	i64.extend_i32_u
	i64.add 
	local.set	11
	local.get	10
	i64.const	-1
	i64.add 
	local.tee	10
	i64.const	0
	i64.ne  
	br_if   	0                               # 0: up to label58
# %bb.7:                                # %aes_ctr__counter_blocks__WholeBlockCounterBlocks__put.exit.i.i.i
                                        #   in Loop: Header=BB15_5 Depth=1
	end_loop
	local.get	4
	local.get	4
	v128.load	96
	local.get	12
	i8x16.shuffle	0, 4, 8, 12, 1, 5, 9, 13, 2, 6, 10, 14, 3, 7, 11, 15
	local.tee	13
	i32.const	1
	i8x16.shr_u
	local.tee	14
	local.get	4
	v128.load	112
	local.get	12
	i8x16.shuffle	0, 4, 8, 12, 1, 5, 9, 13, 2, 6, 10, 14, 3, 7, 11, 15
	local.tee	15
	v128.const	85, 85, 85, 85, 85, 85, 85, 85, 85, 85, 85, 85, 85, 85, 85, 85
	local.tee	12
	v128.bitselect
	local.tee	16
	i32.const	2
	i8x16.shr_u
	local.tee	17
	local.get	4
	v128.load	128
	local.get	12
	i8x16.shuffle	0, 4, 8, 12, 1, 5, 9, 13, 2, 6, 10, 14, 3, 7, 11, 15
	local.tee	18
	i32.const	1
	i8x16.shr_u
	local.tee	19
	local.get	4
	v128.load	144
	local.get	12
	i8x16.shuffle	0, 4, 8, 12, 1, 5, 9, 13, 2, 6, 10, 14, 3, 7, 11, 15
	local.tee	20
	local.get	12
	v128.bitselect
	local.tee	21
	v128.const	51, 51, 51, 51, 51, 51, 51, 51, 51, 51, 51, 51, 51, 51, 51, 51
	local.tee	22
	v128.bitselect
	local.tee	23
	v128.const	15, 15, 15, 15, 15, 15, 15, 15, 15, 15, 15, 15, 15, 15, 15, 15
	local.tee	24
	v128.and
	local.get	4
	v128.load	32
	local.get	12
	i8x16.shuffle	0, 4, 8, 12, 1, 5, 9, 13, 2, 6, 10, 14, 3, 7, 11, 15
	local.tee	25
	i32.const	1
	i8x16.shr_u
	local.tee	26
	local.get	4
	v128.load	48
	local.get	12
	i8x16.shuffle	0, 4, 8, 12, 1, 5, 9, 13, 2, 6, 10, 14, 3, 7, 11, 15
	local.tee	27
	local.get	12
	v128.bitselect
	local.tee	28
	i32.const	2
	i8x16.shr_u
	local.tee	29
	local.get	4
	v128.load	64
	local.get	12
	i8x16.shuffle	0, 4, 8, 12, 1, 5, 9, 13, 2, 6, 10, 14, 3, 7, 11, 15
	local.tee	30
	i32.const	1
	i8x16.shr_u
	local.tee	31
	local.get	4
	v128.load	80
	local.get	12
	i8x16.shuffle	0, 4, 8, 12, 1, 5, 9, 13, 2, 6, 10, 14, 3, 7, 11, 15
	local.tee	32
	local.get	12
	v128.bitselect
	local.tee	33
	local.get	22
	v128.bitselect
	local.tee	34
	i32.const	4
	i8x16.shr_u
	v128.xor
	local.tee	35
	local.get	23
	v128.xor
	v128.store	400
	local.get	4
	local.get	35
	i32.const	4
	i8x16.shl
	local.get	34
	v128.xor
	v128.store	336
	local.get	4
	local.get	15
	local.get	14
	v128.xor
	local.get	12
	v128.and
	i32.const	1
	i8x16.shl
	local.get	13
	v128.xor
	local.tee	13
	i32.const	2
	i8x16.shr_u
	local.tee	14
	local.get	20
	local.get	19
	v128.xor
	local.get	12
	v128.and
	i32.const	1
	i8x16.shl
	local.get	18
	v128.xor
	local.tee	15
	local.get	22
	v128.bitselect
	local.tee	18
	local.get	24
	v128.and
	local.get	27
	local.get	26
	v128.xor
	local.get	12
	v128.and
	i32.const	1
	i8x16.shl
	local.get	25
	v128.xor
	local.tee	19
	i32.const	2
	i8x16.shr_u
	local.tee	20
	local.get	32
	local.get	31
	v128.xor
	local.get	12
	v128.and
	i32.const	1
	i8x16.shl
	local.get	30
	v128.xor
	local.tee	23
	local.get	22
	v128.bitselect
	local.tee	25
	i32.const	4
	i8x16.shr_u
	v128.xor
	local.tee	26
	local.get	18
	v128.xor
	v128.store	384
	local.get	4
	local.get	21
	local.get	17
	v128.xor
	local.get	22
	v128.and
	i32.const	2
	i8x16.shl
	local.get	16
	v128.xor
	local.tee	16
	local.get	24
	v128.and
	local.get	33
	local.get	29
	v128.xor
	local.get	22
	v128.and
	i32.const	2
	i8x16.shl
	local.get	28
	v128.xor
	local.tee	17
	i32.const	4
	i8x16.shr_u
	v128.xor
	local.tee	18
	local.get	16
	v128.xor
	v128.store	368
	local.get	4
	local.get	26
	i32.const	4
	i8x16.shl
	local.get	25
	v128.xor
	v128.store	320
	local.get	4
	local.get	18
	i32.const	4
	i8x16.shl
	local.get	17
	v128.xor
	v128.store	304
	local.get	4
	local.get	15
	local.get	14
	v128.xor
	local.get	22
	v128.and
	i32.const	2
	i8x16.shl
	local.get	13
	v128.xor
	local.tee	13
	local.get	24
	v128.and
	local.get	23
	local.get	20
	v128.xor
	local.get	22
	v128.and
	i32.const	2
	i8x16.shl
	local.get	19
	v128.xor
	local.tee	14
	i32.const	4
	i8x16.shr_u
	v128.xor
	local.tee	15
	local.get	13
	v128.xor
	v128.store	352
	local.get	4
	local.get	15
	i32.const	4
	i8x16.shl
	local.get	14
	v128.xor
	v128.store	288
	local.get	1
	local.get	9
	local.get	4
	i32.const	288
	i32.add 
	call	aes_soft__soft__ciphers__planes__EncryptPlaneCipher__process_planes____f2467153fb0a218d_
	local.get	4
	local.get	4
	v128.load	352
	local.tee	13
	i32.const	1
	i8x16.shr_u
	local.tee	14
	local.get	4
	v128.load	368
	local.tee	15
	local.get	12
	v128.bitselect
	local.tee	16
	i32.const	2
	i8x16.shr_u
	local.tee	17
	local.get	4
	v128.load	384
	local.tee	18
	i32.const	1
	i8x16.shr_u
	local.tee	19
	local.get	4
	v128.load	400
	local.tee	20
	local.get	12
	v128.bitselect
	local.tee	21
	local.get	22
	v128.bitselect
	local.tee	23
	local.get	24
	v128.and
	local.get	4
	v128.load	288
	local.tee	25
	i32.const	1
	i8x16.shr_u
	local.tee	26
	local.get	4
	v128.load	304
	local.tee	27
	local.get	12
	v128.bitselect
	local.tee	28
	i32.const	2
	i8x16.shr_u
	local.tee	29
	local.get	4
	v128.load	320
	local.tee	30
	i32.const	1
	i8x16.shr_u
	local.tee	31
	local.get	4
	v128.load	336
	local.tee	32
	local.get	12
	v128.bitselect
	local.tee	33
	local.get	22
	v128.bitselect
	local.tee	34
	i32.const	4
	i8x16.shr_u
	v128.xor
	local.tee	35
	local.get	23
	v128.xor
	local.get	12
	i8x16.shuffle	0, 4, 8, 12, 1, 5, 9, 13, 2, 6, 10, 14, 3, 7, 11, 15
	v128.store	144
	local.get	4
	local.get	35
	i32.const	4
	i8x16.shl
	local.get	34
	v128.xor
	local.get	12
	i8x16.shuffle	0, 4, 8, 12, 1, 5, 9, 13, 2, 6, 10, 14, 3, 7, 11, 15
	v128.store	80
	local.get	4
	local.get	13
	local.get	15
	local.get	14
	v128.xor
	local.get	12
	v128.and
	i32.const	1
	i8x16.shl
	v128.xor
	local.tee	13
	i32.const	2
	i8x16.shr_u
	local.tee	14
	local.get	18
	local.get	20
	local.get	19
	v128.xor
	local.get	12
	v128.and
	i32.const	1
	i8x16.shl
	v128.xor
	local.tee	15
	local.get	22
	v128.bitselect
	local.tee	18
	local.get	24
	v128.and
	local.get	25
	local.get	27
	local.get	26
	v128.xor
	local.get	12
	v128.and
	i32.const	1
	i8x16.shl
	v128.xor
	local.tee	19
	i32.const	2
	i8x16.shr_u
	local.tee	20
	local.get	30
	local.get	32
	local.get	31
	v128.xor
	local.get	12
	v128.and
	i32.const	1
	i8x16.shl
	v128.xor
	local.tee	12
	local.get	22
	v128.bitselect
	local.tee	23
	i32.const	4
	i8x16.shr_u
	v128.xor
	local.tee	25
	local.get	18
	v128.xor
	local.get	12
	i8x16.shuffle	0, 4, 8, 12, 1, 5, 9, 13, 2, 6, 10, 14, 3, 7, 11, 15
	v128.store	128
	local.get	4
	local.get	21
	local.get	17
	v128.xor
	local.get	22
	v128.and
	i32.const	2
	i8x16.shl
	local.get	16
	v128.xor
	local.tee	16
	local.get	24
	v128.and
	local.get	33
	local.get	29
	v128.xor
	local.get	22
	v128.and
	i32.const	2
	i8x16.shl
	local.get	28
	v128.xor
	local.tee	17
	i32.const	4
	i8x16.shr_u
	v128.xor
	local.tee	18
	local.get	16
	v128.xor
	local.get	12
	i8x16.shuffle	0, 4, 8, 12, 1, 5, 9, 13, 2, 6, 10, 14, 3, 7, 11, 15
	v128.store	112
	local.get	4
	local.get	25
	i32.const	4
	i8x16.shl
	local.get	23
	v128.xor
	local.get	12
	i8x16.shuffle	0, 4, 8, 12, 1, 5, 9, 13, 2, 6, 10, 14, 3, 7, 11, 15
	v128.store	64
	local.get	4
	local.get	18
	i32.const	4
	i8x16.shl
	local.get	17
	v128.xor
	local.get	12
	i8x16.shuffle	0, 4, 8, 12, 1, 5, 9, 13, 2, 6, 10, 14, 3, 7, 11, 15
	v128.store	48
	local.get	4
	local.get	15
	local.get	14
	v128.xor
	local.get	22
	v128.and
	i32.const	2
	i8x16.shl
	local.get	13
	v128.xor
	local.tee	13
	local.get	24
	v128.and
	local.get	12
	local.get	20
	v128.xor
	local.get	22
	v128.and
	i32.const	2
	i8x16.shl
	local.get	19
	v128.xor
	local.tee	12
	i32.const	4
	i8x16.shr_u
	v128.xor
	local.tee	22
	local.get	13
	v128.xor
	local.get	12
	i8x16.shuffle	0, 4, 8, 12, 1, 5, 9, 13, 2, 6, 10, 14, 3, 7, 11, 15
	v128.store	96
	local.get	4
	local.get	22
	i32.const	4
	i8x16.shl
	local.get	12
	v128.xor
	local.get	12
	i8x16.shuffle	0, 4, 8, 12, 1, 5, 9, 13, 2, 6, 10, 14, 3, 7, 11, 15
	local.tee	12
	v128.store	32
	local.get	5
	local.get	8
	i32.wrap_i64
	i32.add 
	local.tee	3
	local.get	12
	local.get	3
	v128.load	0:p2align=0
	v128.xor
	v128.store	0:p2align=0
	local.get	3
	i32.const	16
	i32.add 
	local.tee	36
	local.get	4
	v128.load	48
	local.get	36
	v128.load	0:p2align=0
	v128.xor
	v128.store	0:p2align=0
	local.get	3
	i32.const	32
	i32.add 
	local.tee	36
	local.get	4
	v128.load	64
	local.get	36
	v128.load	0:p2align=0
	v128.xor
	v128.store	0:p2align=0
	local.get	3
	i32.const	48
	i32.add 
	local.tee	36
	local.get	4
	v128.load	80
	local.get	36
	v128.load	0:p2align=0
	v128.xor
	v128.store	0:p2align=0
	local.get	3
	i32.const	64
	i32.add 
	local.tee	36
	local.get	4
	v128.load	96
	local.get	36
	v128.load	0:p2align=0
	v128.xor
	v128.store	0:p2align=0
	local.get	3
	i32.const	80
	i32.add 
	local.tee	36
	local.get	4
	v128.load	112
	local.get	36
	v128.load	0:p2align=0
	v128.xor
	v128.store	0:p2align=0
	local.get	3
	i32.const	96
	i32.add 
	local.tee	36
	local.get	4
	v128.load	128
	local.get	36
	v128.load	0:p2align=0
	v128.xor
	v128.store	0:p2align=0
	local.get	3
	i32.const	112
	i32.add 
	local.tee	3
	local.get	4
	v128.load	144
	local.get	3
	v128.load	0:p2align=0
	v128.xor
	v128.store	0:p2align=0
	local.get	6
	local.get	8
	i64.const	128
	i64.add 
	local.tee	8
	i64.sub 
	i64.const	127
	i64.gt_u
	br_if   	0                               # 0: up to label57
.LBB15_8:                               # %loop.13.preheader.i.i
	end_loop
	end_block                               # label56:
	block   	
	local.get	8
	local.get	6
	i64.ge_u
	br_if   	0                               # 0: down to label59
.LBB15_9:                               # %join.16.i.i
                                        # =>This Inner Loop Header: Depth=1
	loop    	                                # label60:
	local.get	4
	i32.const	8
	i32.add 
	local.get	0
	local.get	7
	local.get	8
	local.get	5
	local.get	6
	call	aes_ctr__add_in_batches__add_next____f3c9f23e0dfa84c8_
	local.tee	8
	local.get	6
	i64.lt_u
	br_if   	0                               # 0: up to label60
.LBB15_10:                              # %aes_ctr__add_in_batches__AddStreamBlockCipherEncClosure__call____8328edac2e5961b6_.exit
	end_loop
	end_block                               # label59:
	local.get	4
	i32.const	416
	i32.add 
	global.set	__stack_pointer
                                        # fallthrough-return
	end_function
                                        # -- End function
	.section	.text.aes_ctr__add_in_batches__add_next____f3c9f23e0dfa84c8_,"",@
	.type	aes_ctr__add_in_batches__add_next____f3c9f23e0dfa84c8_,@function # -- Begin function aes_ctr__add_in_batches__add_next____f3c9f23e0dfa84c8_
aes_ctr__add_in_batches__add_next____f3c9f23e0dfa84c8_: # @aes_ctr__add_in_batches__add_next____f3c9f23e0dfa84c8_
	.functype	aes_ctr__add_in_batches__add_next____f3c9f23e0dfa84c8_ (i32, i32, i64, i64, i32, i64) -> (i64)
	.local  	i32, i32, i64, i64, i64, i64, v128, i64, v128, v128, v128, v128, v128, v128, v128, v128, v128, v128, v128, v128, v128, v128, v128, v128, v128, v128, v128, v128, v128, v128, v128, i32, i32
# %bb.0:                                # %start
	global.get	__stack_pointer
	i32.const	384
	i32.sub 
	local.tee	6
	global.set	__stack_pointer
	i32.const	0
	local.set	7
	local.get	6
	i32.const	0
	i32.const	256
	memory.fill	0
	i64.const	8
	local.set	8
	local.get	1
	i64.load	0:p2align=0
	local.tee	9
	i64.const	56
	i64.shl 
	local.get	9
	i64.const	65280
	i64.and 
	i64.const	40
	i64.shl 
	i64.or  
	local.get	9
	i64.const	16711680
	i64.and 
	i64.const	24
	i64.shl 
	local.get	9
	i64.const	4278190080
	i64.and 
	i64.const	8
	i64.shl 
	i64.or  
	i64.or  
	local.get	9
	i64.const	8
	i64.shr_u
	i64.const	4278190080
	i64.and 
	local.get	9
	i64.const	24
	i64.shr_u
	i64.const	16711680
	i64.and 
	i64.or  
	local.get	9
	i64.const	40
	i64.shr_u
	i64.const	65280
	i64.and 
	local.get	9
	i64.const	56
	i64.shr_u
	i64.or  
	i64.or  
	i64.or  
	local.get	1
	i64.load	8:p2align=0
	local.tee	9
	i64.const	56
	i64.shl 
	local.get	9
	i64.const	65280
	i64.and 
	i64.const	40
	i64.shl 
	i64.or  
	local.get	9
	i64.const	16711680
	i64.and 
	i64.const	24
	i64.shl 
	local.get	9
	i64.const	4278190080
	i64.and 
	i64.const	8
	i64.shl 
	i64.or  
	i64.or  
	local.get	9
	i64.const	8
	i64.shr_u
	i64.const	4278190080
	i64.and 
	local.get	9
	i64.const	24
	i64.shr_u
	i64.const	16711680
	i64.and 
	i64.or  
	local.get	9
	i64.const	40
	i64.shr_u
	i64.const	65280
	i64.and 
	local.get	9
	i64.const	56
	i64.shr_u
	i64.or  
	i64.or  
	i64.or  
	local.tee	10
	local.get	3
	local.get	2
	i64.add 
	local.tee	11
	i64.const	4
	i64.shr_u
	i64.add 
	local.tee	9
	local.get	10
	i64.lt_u
	i64.extend_i32_u
	i64.add 
	local.set	2
.LBB16_1:                               # %join.5.i.i
                                        # =>This Inner Loop Header: Depth=1
	loop    	                                # label61:
	local.get	6
	local.get	7
	i32.add 
	local.get	9
	i64x2.splat
	local.get	2
	i64x2.replace_lane	1
	local.get	12
	i8x16.shuffle	15, 14, 13, 12, 11, 10, 9, 8, 7, 6, 5, 4, 3, 2, 1, 0
	v128.store	0
	local.get	7
	i32.const	16
	i32.add 
	local.set	7
	local.get	2
	local.get	9
	i64.const	1
	i64.add 
	local.tee	9
	i64.eqz
	i64.extend_i32_u
	i64.add 
	local.set	2
	local.get	8
	i64.const	-1
	i64.add 
	local.tee	8
	i64.const	0
	i64.ne  
	br_if   	0                               # 0: up to label61
# %bb.2:                                # %aes_ctr__counter_blocks__WholeBlockCounterBlocks__put.exit.i
	end_loop
	block   	
	block   	
	local.get	5
	local.get	3
	i64.sub 
	local.tee	9
	i64.const	128
	local.get	11
	i64.const	15
	i64.and 
	local.tee	13
	i64.sub 
	local.tee	2
	local.get	9
	local.get	2
	i64.lt_u
	i64.select
	local.tee	8
	local.get	13
	i64.add 
	local.tee	9
	i64.const	80
	i64.gt_u
	br_if   	0                               # 0: down to label63
# %bb.3:                                # %then.1.i.i
	local.get	0
	i32.load	0
	local.tee	7
	i32.const	16
	i32.add 
	i32.load	0:p2align=0
	local.get	7
	i32.const	24
	i32.add 
	i64.load	0:p2align=0
	local.get	6
	local.get	9
	i64.const	15
	i64.add 
	i64.const	4
	i64.shr_u
	call	aes_permute__blocks__process_on_lanes____06aaae76f5856d0a_
	br      	1                               # 1: down to label62
.LBB16_4:                               # %else.2.i.i
	end_block                               # label63:
	local.get	0
	i32.const	8
	i32.add 
	i32.load	0:p2align=0
	local.set	7
	local.get	0
	i32.const	16
	i32.add 
	i64.load	0:p2align=0
	local.set	9
	local.get	6
	local.get	6
	v128.load	64
	local.get	12
	i8x16.shuffle	0, 4, 8, 12, 1, 5, 9, 13, 2, 6, 10, 14, 3, 7, 11, 15
	local.tee	14
	i32.const	1
	i8x16.shr_u
	local.tee	15
	local.get	6
	v128.load	80
	local.get	12
	i8x16.shuffle	0, 4, 8, 12, 1, 5, 9, 13, 2, 6, 10, 14, 3, 7, 11, 15
	local.tee	16
	v128.const	85, 85, 85, 85, 85, 85, 85, 85, 85, 85, 85, 85, 85, 85, 85, 85
	local.tee	12
	v128.bitselect
	local.tee	17
	i32.const	2
	i8x16.shr_u
	local.tee	18
	local.get	6
	v128.load	96
	local.get	12
	i8x16.shuffle	0, 4, 8, 12, 1, 5, 9, 13, 2, 6, 10, 14, 3, 7, 11, 15
	local.tee	19
	i32.const	1
	i8x16.shr_u
	local.tee	20
	local.get	6
	v128.load	112
	local.get	12
	i8x16.shuffle	0, 4, 8, 12, 1, 5, 9, 13, 2, 6, 10, 14, 3, 7, 11, 15
	local.tee	21
	local.get	12
	v128.bitselect
	local.tee	22
	v128.const	51, 51, 51, 51, 51, 51, 51, 51, 51, 51, 51, 51, 51, 51, 51, 51
	local.tee	23
	v128.bitselect
	local.tee	24
	v128.const	15, 15, 15, 15, 15, 15, 15, 15, 15, 15, 15, 15, 15, 15, 15, 15
	local.tee	25
	v128.and
	local.get	6
	v128.load	0
	local.get	12
	i8x16.shuffle	0, 4, 8, 12, 1, 5, 9, 13, 2, 6, 10, 14, 3, 7, 11, 15
	local.tee	26
	i32.const	1
	i8x16.shr_u
	local.tee	27
	local.get	6
	v128.load	16
	local.get	12
	i8x16.shuffle	0, 4, 8, 12, 1, 5, 9, 13, 2, 6, 10, 14, 3, 7, 11, 15
	local.tee	28
	local.get	12
	v128.bitselect
	local.tee	29
	i32.const	2
	i8x16.shr_u
	local.tee	30
	local.get	6
	v128.load	32
	local.get	12
	i8x16.shuffle	0, 4, 8, 12, 1, 5, 9, 13, 2, 6, 10, 14, 3, 7, 11, 15
	local.tee	31
	i32.const	1
	i8x16.shr_u
	local.tee	32
	local.get	6
	v128.load	48
	local.get	12
	i8x16.shuffle	0, 4, 8, 12, 1, 5, 9, 13, 2, 6, 10, 14, 3, 7, 11, 15
	local.tee	33
	local.get	12
	v128.bitselect
	local.tee	34
	local.get	23
	v128.bitselect
	local.tee	35
	i32.const	4
	i8x16.shr_u
	v128.xor
	local.tee	36
	local.get	24
	v128.xor
	v128.store	368
	local.get	6
	local.get	36
	i32.const	4
	i8x16.shl
	local.get	35
	v128.xor
	v128.store	304
	local.get	6
	local.get	16
	local.get	15
	v128.xor
	local.get	12
	v128.and
	i32.const	1
	i8x16.shl
	local.get	14
	v128.xor
	local.tee	14
	i32.const	2
	i8x16.shr_u
	local.tee	15
	local.get	21
	local.get	20
	v128.xor
	local.get	12
	v128.and
	i32.const	1
	i8x16.shl
	local.get	19
	v128.xor
	local.tee	16
	local.get	23
	v128.bitselect
	local.tee	19
	local.get	25
	v128.and
	local.get	28
	local.get	27
	v128.xor
	local.get	12
	v128.and
	i32.const	1
	i8x16.shl
	local.get	26
	v128.xor
	local.tee	20
	i32.const	2
	i8x16.shr_u
	local.tee	21
	local.get	33
	local.get	32
	v128.xor
	local.get	12
	v128.and
	i32.const	1
	i8x16.shl
	local.get	31
	v128.xor
	local.tee	24
	local.get	23
	v128.bitselect
	local.tee	26
	i32.const	4
	i8x16.shr_u
	v128.xor
	local.tee	27
	local.get	19
	v128.xor
	v128.store	352
	local.get	6
	local.get	22
	local.get	18
	v128.xor
	local.get	23
	v128.and
	i32.const	2
	i8x16.shl
	local.get	17
	v128.xor
	local.tee	17
	local.get	25
	v128.and
	local.get	34
	local.get	30
	v128.xor
	local.get	23
	v128.and
	i32.const	2
	i8x16.shl
	local.get	29
	v128.xor
	local.tee	18
	i32.const	4
	i8x16.shr_u
	v128.xor
	local.tee	19
	local.get	17
	v128.xor
	v128.store	336
	local.get	6
	local.get	27
	i32.const	4
	i8x16.shl
	local.get	26
	v128.xor
	v128.store	288
	local.get	6
	local.get	19
	i32.const	4
	i8x16.shl
	local.get	18
	v128.xor
	v128.store	272
	local.get	6
	local.get	16
	local.get	15
	v128.xor
	local.get	23
	v128.and
	i32.const	2
	i8x16.shl
	local.get	14
	v128.xor
	local.tee	14
	local.get	25
	v128.and
	local.get	24
	local.get	21
	v128.xor
	local.get	23
	v128.and
	i32.const	2
	i8x16.shl
	local.get	20
	v128.xor
	local.tee	15
	i32.const	4
	i8x16.shr_u
	v128.xor
	local.tee	16
	local.get	14
	v128.xor
	v128.store	320
	local.get	6
	local.get	16
	i32.const	4
	i8x16.shl
	local.get	15
	v128.xor
	v128.store	256
	local.get	7
	local.get	9
	i64.const	3
	i64.shr_u
	i64.const	-1
	i64.add 
	local.get	6
	i32.const	256
	i32.add 
	call	aes_soft__soft__ciphers__planes__EncryptPlaneCipher__process_planes____f2467153fb0a218d_
	local.get	6
	local.get	6
	v128.load	320
	local.tee	14
	i32.const	1
	i8x16.shr_u
	local.tee	15
	local.get	6
	v128.load	336
	local.tee	16
	local.get	12
	v128.bitselect
	local.tee	17
	i32.const	2
	i8x16.shr_u
	local.tee	18
	local.get	6
	v128.load	352
	local.tee	19
	i32.const	1
	i8x16.shr_u
	local.tee	20
	local.get	6
	v128.load	368
	local.tee	21
	local.get	12
	v128.bitselect
	local.tee	22
	local.get	23
	v128.bitselect
	local.tee	24
	local.get	25
	v128.and
	local.get	6
	v128.load	256
	local.tee	26
	i32.const	1
	i8x16.shr_u
	local.tee	27
	local.get	6
	v128.load	272
	local.tee	28
	local.get	12
	v128.bitselect
	local.tee	29
	i32.const	2
	i8x16.shr_u
	local.tee	30
	local.get	6
	v128.load	288
	local.tee	31
	i32.const	1
	i8x16.shr_u
	local.tee	32
	local.get	6
	v128.load	304
	local.tee	33
	local.get	12
	v128.bitselect
	local.tee	34
	local.get	23
	v128.bitselect
	local.tee	35
	i32.const	4
	i8x16.shr_u
	v128.xor
	local.tee	36
	local.get	24
	v128.xor
	local.get	12
	i8x16.shuffle	0, 4, 8, 12, 1, 5, 9, 13, 2, 6, 10, 14, 3, 7, 11, 15
	v128.store	112
	local.get	6
	local.get	36
	i32.const	4
	i8x16.shl
	local.get	35
	v128.xor
	local.get	12
	i8x16.shuffle	0, 4, 8, 12, 1, 5, 9, 13, 2, 6, 10, 14, 3, 7, 11, 15
	v128.store	48
	local.get	6
	local.get	14
	local.get	16
	local.get	15
	v128.xor
	local.get	12
	v128.and
	i32.const	1
	i8x16.shl
	v128.xor
	local.tee	14
	i32.const	2
	i8x16.shr_u
	local.tee	15
	local.get	19
	local.get	21
	local.get	20
	v128.xor
	local.get	12
	v128.and
	i32.const	1
	i8x16.shl
	v128.xor
	local.tee	16
	local.get	23
	v128.bitselect
	local.tee	19
	local.get	25
	v128.and
	local.get	26
	local.get	28
	local.get	27
	v128.xor
	local.get	12
	v128.and
	i32.const	1
	i8x16.shl
	v128.xor
	local.tee	20
	i32.const	2
	i8x16.shr_u
	local.tee	21
	local.get	31
	local.get	33
	local.get	32
	v128.xor
	local.get	12
	v128.and
	i32.const	1
	i8x16.shl
	v128.xor
	local.tee	12
	local.get	23
	v128.bitselect
	local.tee	24
	i32.const	4
	i8x16.shr_u
	v128.xor
	local.tee	26
	local.get	19
	v128.xor
	local.get	12
	i8x16.shuffle	0, 4, 8, 12, 1, 5, 9, 13, 2, 6, 10, 14, 3, 7, 11, 15
	v128.store	96
	local.get	6
	local.get	22
	local.get	18
	v128.xor
	local.get	23
	v128.and
	i32.const	2
	i8x16.shl
	local.get	17
	v128.xor
	local.tee	17
	local.get	25
	v128.and
	local.get	34
	local.get	30
	v128.xor
	local.get	23
	v128.and
	i32.const	2
	i8x16.shl
	local.get	29
	v128.xor
	local.tee	18
	i32.const	4
	i8x16.shr_u
	v128.xor
	local.tee	19
	local.get	17
	v128.xor
	local.get	12
	i8x16.shuffle	0, 4, 8, 12, 1, 5, 9, 13, 2, 6, 10, 14, 3, 7, 11, 15
	v128.store	80
	local.get	6
	local.get	26
	i32.const	4
	i8x16.shl
	local.get	24
	v128.xor
	local.get	12
	i8x16.shuffle	0, 4, 8, 12, 1, 5, 9, 13, 2, 6, 10, 14, 3, 7, 11, 15
	v128.store	32
	local.get	6
	local.get	19
	i32.const	4
	i8x16.shl
	local.get	18
	v128.xor
	local.get	12
	i8x16.shuffle	0, 4, 8, 12, 1, 5, 9, 13, 2, 6, 10, 14, 3, 7, 11, 15
	v128.store	16
	local.get	6
	local.get	16
	local.get	15
	v128.xor
	local.get	23
	v128.and
	i32.const	2
	i8x16.shl
	local.get	14
	v128.xor
	local.tee	14
	local.get	25
	v128.and
	local.get	12
	local.get	21
	v128.xor
	local.get	23
	v128.and
	i32.const	2
	i8x16.shl
	local.get	20
	v128.xor
	local.tee	12
	i32.const	4
	i8x16.shr_u
	v128.xor
	local.tee	23
	local.get	14
	v128.xor
	local.get	12
	i8x16.shuffle	0, 4, 8, 12, 1, 5, 9, 13, 2, 6, 10, 14, 3, 7, 11, 15
	v128.store	64
	local.get	6
	local.get	23
	i32.const	4
	i8x16.shl
	local.get	12
	v128.xor
	local.get	12
	i8x16.shuffle	0, 4, 8, 12, 1, 5, 9, 13, 2, 6, 10, 14, 3, 7, 11, 15
	v128.store	0
.LBB16_5:                               # %aes_ctr__keystream__fill_by_backend____f3c9f23e0dfa84c8_.exit
	end_block                               # label62:
	local.get	4
	local.get	3
	i32.wrap_i64
	local.tee	37
	i32.add 
	local.set	38
	block   	
	block   	
	local.get	13
	i64.eqz
	i32.eqz
	br_if   	0                               # 0: down to label65
# %bb.6:
	i64.const	0
	local.set	10
	br      	1                               # 1: down to label64
.LBB16_7:                               # %then.1.i
	end_block                               # label65:
	local.get	8
	i64.const	16
	local.get	13
	i64.sub 
	local.tee	9
	local.get	8
	local.get	9
	i64.lt_u
	i64.select
	local.set	10
	local.get	5
	local.get	3
	i64.eq  
	br_if   	0                               # 0: down to label64
# %bb.8:                                # %join.8.i85.preheader
	i64.const	0
	local.set	9
	block   	
	local.get	10
	i64.const	1
	i64.eq  
	br_if   	0                               # 0: down to label66
# %bb.9:                                # %join.8.i85.preheader.new
	local.get	10
	i64.const	1
	i64.and 
	local.set	5
	local.get	10
	i64.const	30
	i64.and 
	local.set	2
	local.get	6
	local.get	11
	i32.wrap_i64
	i32.const	15
	i32.and 
	i32.or  
	local.set	1
	i64.const	0
	local.set	9
	local.get	38
	local.set	7
.LBB16_10:                              # %join.8.i85
                                        # =>This Inner Loop Header: Depth=1
	loop    	                                # label67:
	local.get	7
	local.get	7
	i32.load8_u	0
	local.get	1
	i32.load8_u	0
	i32.xor 
	i32.store8	0
	local.get	7
	i32.const	1
	i32.add 
	local.tee	0
	local.get	0
	i32.load8_u	0
	local.get	1
	i32.const	1
	i32.add 
	i32.load8_u	0
	i32.xor 
	i32.store8	0
	local.get	7
	i32.const	2
	i32.add 
	local.set	7
	local.get	1
	i32.const	2
	i32.add 
	local.set	1
	local.get	2
	local.get	9
	i64.const	2
	i64.add 
	local.tee	9
	i64.ne  
	br_if   	0                               # 0: up to label67
# %bb.11:                               # %join.3.i.loopexit.unr-lcssa
	end_loop
	local.get	5
	i64.eqz
	br_if   	1                               # 1: down to label64
.LBB16_12:                              # %join.8.i85.epil.preheader
	end_block                               # label66:
	local.get	38
	local.get	9
	i32.wrap_i64
	i32.add 
	local.tee	7
	local.get	7
	i32.load8_u	0
	local.get	6
	local.get	9
	local.get	13
	i64.add 
	i32.wrap_i64
	i32.add 
	i32.load8_u	0
	i32.xor 
	i32.store8	0
.LBB16_13:                              # %join.3.i
	end_block                               # label64:
	block   	
	local.get	8
	local.get	10
	i64.sub 
	local.tee	9
	i64.const	16
	i64.lt_u
	br_if   	0                               # 0: down to label68
# %bb.14:                               # %join.8.i.preheader
	i64.const	0
	local.get	10
	i64.sub 
	local.set	2
	local.get	4
	local.get	10
	i32.wrap_i64
	local.tee	1
	local.get	37
	i32.add 
	i32.add 
	local.set	7
	local.get	11
	i32.wrap_i64
	i32.const	15
	i32.and 
	local.get	1
	i32.add 
	local.set	1
.LBB16_15:                              # %join.8.i
                                        # =>This Inner Loop Header: Depth=1
	loop    	                                # label69:
	local.get	7
	local.get	6
	local.get	1
	i32.const	-16
	i32.and 
	i32.add 
	v128.load	0
	local.get	7
	v128.load	0:p2align=0
	v128.xor
	v128.store	0:p2align=0
	local.get	7
	i32.const	16
	i32.add 
	local.set	7
	local.get	1
	i32.const	16
	i32.add 
	local.set	1
	local.get	8
	local.get	2
	i64.const	-16
	i64.add 
	local.tee	2
	i64.add 
	local.tee	9
	i64.const	15
	i64.gt_u
	br_if   	0                               # 0: up to label69
# %bb.16:                               # %after.4.i.loopexit
	end_loop
	i64.const	0
	local.get	2
	i64.sub 
	local.set	10
.LBB16_17:                              # %after.4.i
	end_block                               # label68:
	block   	
	local.get	10
	local.get	8
	i64.ge_u
	br_if   	0                               # 0: down to label70
# %bb.18:                               # %then.9.i
	local.get	9
	i64.eqz
	br_if   	0                               # 0: down to label70
# %bb.19:                               # %join.8.i28.preheader
	local.get	38
	local.get	10
	i32.wrap_i64
	i32.add 
	local.set	7
	local.get	6
	local.get	10
	local.get	13
	i64.add 
	i32.wrap_i64
	i32.const	-16
	i32.and 
	i32.add 
	local.set	1
.LBB16_20:                              # %join.8.i28
                                        # =>This Inner Loop Header: Depth=1
	loop    	                                # label71:
	local.get	7
	local.get	7
	i32.load8_u	0
	local.get	1
	i32.load8_u	0
	i32.xor 
	i32.store8	0
	local.get	1
	i32.const	1
	i32.add 
	local.set	1
	local.get	7
	i32.const	1
	i32.add 
	local.set	7
	local.get	9
	i64.const	-1
	i64.add 
	local.tee	9
	i64.const	0
	i64.ne  
	br_if   	0                               # 0: up to label71
.LBB16_21:                              # %aes_ctr__add_blocks__add_blocks.exit
	end_loop
	end_block                               # label70:
	local.get	6
	i32.const	384
	i32.add 
	global.set	__stack_pointer
	local.get	8
	local.get	3
	i64.add 
                                        # fallthrough-return
	end_function
                                        # -- End function
	.section	.text.aes_cipher__zeroize__stack__wipe_stack____2032_,"",@
	.type	aes_cipher__zeroize__stack__wipe_stack____2032_,@function # -- Begin function aes_cipher__zeroize__stack__wipe_stack____2032_
aes_cipher__zeroize__stack__wipe_stack____2032_: # @aes_cipher__zeroize__stack__wipe_stack____2032_
	.functype	aes_cipher__zeroize__stack__wipe_stack____2032_ () -> ()
	.local  	i32, i64
# %bb.0:                                # %start
	global.get	__stack_pointer
	i32.const	2048
	i32.sub 
	local.tee	0
	global.set	__stack_pointer
	local.get	0
	i32.const	16
	i32.add 
	i32.const	0
	i32.const	2032
	memory.fill	0
	local.get	0
	i64.const	0
	i64.store	8
	#APP
	#NO_APP
	local.get	0
	i64.load	8
	local.set	1
	#APP
	#NO_APP
	block   	
	local.get	1
	i64.const	2032
	i64.ge_u
	br_if   	0                               # 0: down to label72
# %bb.1:                                # %then.1
	local.get	0
	i32.const	16
	i32.add 
	local.get	1
	i32.wrap_i64
	i32.add 
	i64.load8_u	0
	local.set	1
	#APP
	#NO_APP
	local.get	0
	i64.load	8
	drop
	local.get	0
	local.get	1
	i64.store	8
	#APP
	#NO_APP
.LBB17_2:                               # %common.ret
	end_block                               # label72:
	local.get	0
	i32.const	2048
	i32.add 
	global.set	__stack_pointer
                                        # fallthrough-return
	end_function
                                        # -- End function
	.section	.text.aes_ctr__add_in_batches__add_next____2d16df7ebc44f3ac_,"",@
	.type	aes_ctr__add_in_batches__add_next____2d16df7ebc44f3ac_,@function # -- Begin function aes_ctr__add_in_batches__add_next____2d16df7ebc44f3ac_
aes_ctr__add_in_batches__add_next____2d16df7ebc44f3ac_: # @aes_ctr__add_in_batches__add_next____2d16df7ebc44f3ac_
	.functype	aes_ctr__add_in_batches__add_next____2d16df7ebc44f3ac_ (i32, i32, i64, i64, i32, i64) -> (i64)
	.local  	i32, i32, i64, i64, i64, i64, v128, i64, i32, i32
# %bb.0:                                # %start
	global.get	__stack_pointer
	i32.const	256
	i32.sub 
	local.tee	6
	global.set	__stack_pointer
	i32.const	0
	local.set	7
	local.get	6
	i32.const	0
	i32.const	256
	memory.fill	0
	i64.const	4
	local.set	8
	local.get	1
	i64.load	0:p2align=0
	local.tee	9
	i64.const	56
	i64.shl 
	local.get	9
	i64.const	65280
	i64.and 
	i64.const	40
	i64.shl 
	i64.or  
	local.get	9
	i64.const	16711680
	i64.and 
	i64.const	24
	i64.shl 
	local.get	9
	i64.const	4278190080
	i64.and 
	i64.const	8
	i64.shl 
	i64.or  
	i64.or  
	local.get	9
	i64.const	8
	i64.shr_u
	i64.const	4278190080
	i64.and 
	local.get	9
	i64.const	24
	i64.shr_u
	i64.const	16711680
	i64.and 
	i64.or  
	local.get	9
	i64.const	40
	i64.shr_u
	i64.const	65280
	i64.and 
	local.get	9
	i64.const	56
	i64.shr_u
	i64.or  
	i64.or  
	i64.or  
	local.get	1
	i64.load	8:p2align=0
	local.tee	9
	i64.const	56
	i64.shl 
	local.get	9
	i64.const	65280
	i64.and 
	i64.const	40
	i64.shl 
	i64.or  
	local.get	9
	i64.const	16711680
	i64.and 
	i64.const	24
	i64.shl 
	local.get	9
	i64.const	4278190080
	i64.and 
	i64.const	8
	i64.shl 
	i64.or  
	i64.or  
	local.get	9
	i64.const	8
	i64.shr_u
	i64.const	4278190080
	i64.and 
	local.get	9
	i64.const	24
	i64.shr_u
	i64.const	16711680
	i64.and 
	i64.or  
	local.get	9
	i64.const	40
	i64.shr_u
	i64.const	65280
	i64.and 
	local.get	9
	i64.const	56
	i64.shr_u
	i64.or  
	i64.or  
	i64.or  
	local.tee	10
	local.get	3
	local.get	2
	i64.add 
	local.tee	11
	i64.const	4
	i64.shr_u
	i64.add 
	local.tee	9
	local.get	10
	i64.lt_u
	i64.extend_i32_u
	i64.add 
	local.set	2
.LBB18_1:                               # %join.5.i.i
                                        # =>This Inner Loop Header: Depth=1
	loop    	                                # label73:
	local.get	6
	local.get	7
	i32.add 
	local.get	9
	i64x2.splat
	local.get	2
	i64x2.replace_lane	1
	local.get	12
	i8x16.shuffle	15, 14, 13, 12, 11, 10, 9, 8, 7, 6, 5, 4, 3, 2, 1, 0
	v128.store	0:p2align=0
	local.get	7
	i32.const	16
	i32.add 
	local.set	7
	local.get	2
	local.get	9
	i64.const	1
	i64.add 
	local.tee	9
	i64.eqz
	i64.extend_i32_u
	i64.add 
	local.set	2
	i64.const	0
	local.set	10
	local.get	8
	i64.const	-1
	i64.add 
	local.tee	8
	i64.const	0
	i64.ne  
	br_if   	0                               # 0: up to label73
# %bb.2:                                # %aes_ctr__keystream__fill_by_backend____2d16df7ebc44f3ac_.exit
	end_loop
	local.get	0
	i32.const	16
	i32.add 
	i32.load	0:p2align=0
	local.get	0
	i32.const	24
	i32.add 
	i64.load	0:p2align=0
	local.get	6
	local.get	11
	i64.const	15
	i64.and 
	local.tee	13
	local.get	5
	local.get	3
	i64.sub 
	local.tee	9
	i64.const	64
	local.get	13
	i64.sub 
	local.tee	2
	local.get	9
	local.get	2
	i64.lt_u
	i64.select
	local.tee	8
	i64.add 
	i64.const	15
	i64.add 
	i64.const	4
	i64.shr_u
	call	aes_permute__blocks__process_on_lanes____06aaae76f5856d0a_
	local.get	4
	local.get	3
	i32.wrap_i64
	local.tee	14
	i32.add 
	local.set	15
	block   	
	local.get	13
	i64.eqz
	br_if   	0                               # 0: down to label74
# %bb.3:                                # %then.1.i
	local.get	8
	i64.const	16
	local.get	13
	i64.sub 
	local.tee	9
	local.get	8
	local.get	9
	i64.lt_u
	i64.select
	local.set	10
	local.get	5
	local.get	3
	i64.eq  
	br_if   	0                               # 0: down to label74
# %bb.4:                                # %join.8.i85.preheader
	i64.const	0
	local.set	9
	block   	
	local.get	10
	i64.const	1
	i64.eq  
	br_if   	0                               # 0: down to label75
# %bb.5:                                # %join.8.i85.preheader.new
	local.get	10
	i64.const	1
	i64.and 
	local.set	5
	local.get	10
	i64.const	30
	i64.and 
	local.set	2
	local.get	6
	local.get	11
	i32.wrap_i64
	i32.const	15
	i32.and 
	i32.add 
	local.set	1
	i64.const	0
	local.set	9
	local.get	15
	local.set	7
.LBB18_6:                               # %join.8.i85
                                        # =>This Inner Loop Header: Depth=1
	loop    	                                # label76:
	local.get	7
	local.get	7
	i32.load8_u	0
	local.get	1
	i32.load8_u	0
	i32.xor 
	i32.store8	0
	local.get	7
	i32.const	1
	i32.add 
	local.tee	0
	local.get	0
	i32.load8_u	0
	local.get	1
	i32.const	1
	i32.add 
	i32.load8_u	0
	i32.xor 
	i32.store8	0
	local.get	7
	i32.const	2
	i32.add 
	local.set	7
	local.get	1
	i32.const	2
	i32.add 
	local.set	1
	local.get	2
	local.get	9
	i64.const	2
	i64.add 
	local.tee	9
	i64.ne  
	br_if   	0                               # 0: up to label76
# %bb.7:                                # %join.3.i.loopexit.unr-lcssa
	end_loop
	local.get	5
	i64.eqz
	br_if   	1                               # 1: down to label74
.LBB18_8:                               # %join.8.i85.epil.preheader
	end_block                               # label75:
	local.get	15
	local.get	9
	i32.wrap_i64
	i32.add 
	local.tee	7
	local.get	7
	i32.load8_u	0
	local.get	6
	local.get	9
	local.get	13
	i64.add 
	i32.wrap_i64
	i32.add 
	i32.load8_u	0
	i32.xor 
	i32.store8	0
.LBB18_9:                               # %join.3.i
	end_block                               # label74:
	block   	
	local.get	8
	local.get	10
	i64.sub 
	local.tee	9
	i64.const	16
	i64.lt_u
	br_if   	0                               # 0: down to label77
# %bb.10:                               # %join.8.i.preheader
	i64.const	0
	local.get	10
	i64.sub 
	local.set	2
	local.get	4
	local.get	10
	i32.wrap_i64
	local.tee	1
	local.get	14
	i32.add 
	i32.add 
	local.set	7
	local.get	11
	i32.wrap_i64
	i32.const	15
	i32.and 
	local.get	1
	i32.add 
	local.set	1
.LBB18_11:                              # %join.8.i
                                        # =>This Inner Loop Header: Depth=1
	loop    	                                # label78:
	local.get	7
	local.get	6
	local.get	1
	i32.const	-16
	i32.and 
	i32.add 
	v128.load	0:p2align=0
	local.get	7
	v128.load	0:p2align=0
	v128.xor
	v128.store	0:p2align=0
	local.get	7
	i32.const	16
	i32.add 
	local.set	7
	local.get	1
	i32.const	16
	i32.add 
	local.set	1
	local.get	8
	local.get	2
	i64.const	-16
	i64.add 
	local.tee	2
	i64.add 
	local.tee	9
	i64.const	15
	i64.gt_u
	br_if   	0                               # 0: up to label78
# %bb.12:                               # %after.4.i.loopexit
	end_loop
	i64.const	0
	local.get	2
	i64.sub 
	local.set	10
.LBB18_13:                              # %after.4.i
	end_block                               # label77:
	block   	
	local.get	10
	local.get	8
	i64.ge_u
	br_if   	0                               # 0: down to label79
# %bb.14:                               # %then.9.i
	local.get	9
	i64.eqz
	br_if   	0                               # 0: down to label79
# %bb.15:                               # %join.8.i28.preheader
	local.get	15
	local.get	10
	i32.wrap_i64
	i32.add 
	local.set	7
	local.get	6
	local.get	10
	local.get	13
	i64.add 
	i32.wrap_i64
	i32.const	-16
	i32.and 
	i32.add 
	local.set	1
.LBB18_16:                              # %join.8.i28
                                        # =>This Inner Loop Header: Depth=1
	loop    	                                # label80:
	local.get	7
	local.get	7
	i32.load8_u	0
	local.get	1
	i32.load8_u	0
	i32.xor 
	i32.store8	0
	local.get	1
	i32.const	1
	i32.add 
	local.set	1
	local.get	7
	i32.const	1
	i32.add 
	local.set	7
	local.get	9
	i64.const	-1
	i64.add 
	local.tee	9
	i64.const	0
	i64.ne  
	br_if   	0                               # 0: up to label80
.LBB18_17:                              # %aes_ctr__add_blocks__add_blocks.exit
	end_loop
	end_block                               # label79:
	local.get	6
	i32.const	256
	i32.add 
	global.set	__stack_pointer
	local.get	8
	local.get	3
	i64.add 
                                        # fallthrough-return
	end_function
                                        # -- End function
	.section	.text.aes_cipher__zeroize__elements__zeroize_elements____530874d131791bfe_,"",@
	.type	aes_cipher__zeroize__elements__zeroize_elements____530874d131791bfe_,@function # -- Begin function aes_cipher__zeroize__elements__zeroize_elements____530874d131791bfe_
aes_cipher__zeroize__elements__zeroize_elements____530874d131791bfe_: # @aes_cipher__zeroize__elements__zeroize_elements____530874d131791bfe_
	.functype	aes_cipher__zeroize__elements__zeroize_elements____530874d131791bfe_ (i32) -> ()
	.local  	i64, i32, i64, i32, i32
# %bb.0:                                # %start
	i64.const	0
	local.set	1
	global.get	__stack_pointer
	i32.const	16
	i32.sub 
	local.tee	2
	i64.const	0
	i64.store	8
	#APP
	#NO_APP
	local.get	2
	i64.load	8
	local.set	3
	#APP
	#NO_APP
	block   	
	block   	
	local.get	3
	i64.const	14
	i64.gt_u
	br_if   	0                               # 0: down to label82
# %bb.1:                                # %then.1.i8
	local.get	0
	local.get	3
	i32.wrap_i64
	i32.const	4
	i32.shl 
	i32.add 
	local.tee	4
	i32.load8_u	0
	local.set	5
	local.get	0
	i32.const	0
	i32.const	240
	memory.fill	0
	local.get	5
	local.get	4
	i32.load8_u	0
	i32.and 
	i64.extend_i32_u
	i64.const	255
	i64.and 
	local.set	1
	br      	1                               # 1: down to label81
.LBB19_2:                               # %aes_cipher__zeroize__observe____3f54e6b29a41109e_.exit.critedge
	end_block                               # label82:
	local.get	0
	i32.const	0
	i32.const	240
	memory.fill	0
.LBB19_3:                               # %aes_cipher__zeroize__observe____3f54e6b29a41109e_.exit
	end_block                               # label81:
	#APP
	#NO_APP
	local.get	2
	i64.load	8
	drop
	local.get	2
	local.get	1
	i64.store	8
	#APP
	#NO_APP
                                        # fallthrough-return
	end_function
                                        # -- End function
	.section	.text.cmac__tags__tag____ef80964e0b8d42c0_,"",@
	.type	cmac__tags__tag____ef80964e0b8d42c0_,@function # -- Begin function cmac__tags__tag____ef80964e0b8d42c0_
cmac__tags__tag____ef80964e0b8d42c0_:   # @cmac__tags__tag____ef80964e0b8d42c0_
	.functype	cmac__tags__tag____ef80964e0b8d42c0_ (i32, i32, i32, i64) -> ()
	.local  	i32, v128, i64
# %bb.0:                                # %start
	global.get	__stack_pointer
	i32.const	32
	i32.sub 
	local.tee	4
	global.set	__stack_pointer
	local.get	4
	v128.const	0, 0
	local.tee	5
	v128.store	16:p2align=3
	local.get	4
	local.get	5
	v128.store	0:p2align=3
	local.get	1
	local.get	4
	local.get	2
	local.get	3
	local.get	3
	i64.const	0
	i64.ne  
	i64.extend_i32_u
	i64.sub 
	i64.const	4294967280
	i64.and 
	local.tee	6
	call	cmac__chaining__chain____ef80964e0b8d42c0_
	local.get	4
	i32.const	16
	i32.add 
	local.get	1
	local.get	4
	local.get	2
	local.get	6
	i32.wrap_i64
	i32.add 
	local.get	3
	local.get	6
	i64.sub 
	call	cmac__tags__tag_at_end____ef80964e0b8d42c0_
	local.get	0
	local.get	4
	v128.load	16:p2align=3
	v128.store	0:p2align=0
	local.get	4
	i32.const	32
	i32.add 
	global.set	__stack_pointer
                                        # fallthrough-return
	end_function
                                        # -- End function
	.section	.text.cmac__chaining__chain____ef80964e0b8d42c0_,"",@
	.type	cmac__chaining__chain____ef80964e0b8d42c0_,@function # -- Begin function cmac__chaining__chain____ef80964e0b8d42c0_
cmac__chaining__chain____ef80964e0b8d42c0_: # @cmac__chaining__chain____ef80964e0b8d42c0_
	.functype	cmac__chaining__chain____ef80964e0b8d42c0_ (i32, i32, i32, i64) -> ()
	.local  	i32, i64, i64, v128, i64, i64, i32, i32, v128, v128, v128, v128, v128, i32
# %bb.0:                                # %start
	global.get	__stack_pointer
	i32.const	16
	i32.sub 
	local.set	4
	block   	
	local.get	3
	i64.eqz
	br_if   	0                               # 0: down to label83
# %bb.1:                                # %join.5.lr.ph
	i64.const	0
	local.set	5
	local.get	3
	i64.const	4
	i64.shr_u
	local.get	3
	i64.const	15
	i64.and 
	i64.const	0
	i64.ne  
	i64.extend_i32_u
	i64.add 
	local.set	6
	local.get	1
	v128.load	0:p2align=0
	local.set	7
.LBB21_2:                               # %join.5
                                        # =>This Loop Header: Depth=1
                                        #     Child Loop BB21_6 Depth 2
	loop    	                                # label84:
	local.get	4
	v128.const	0, 0
	v128.store	0
	block   	
	local.get	5
	i64.const	4
	i64.shl 
	local.tee	8
	i64.const	16
	i64.add 
	local.tee	9
	local.get	3
	local.get	9
	local.get	3
	i64.lt_u
	i64.select
	local.get	8
	i64.sub 
	i32.wrap_i64
	local.tee	10
	i32.eqz
	br_if   	0                               # 0: down to label85
# %bb.3:                                # %join.5
                                        #   in Loop: Header=BB21_2 Depth=1
	local.get	4
	local.get	2
	local.get	8
	i32.wrap_i64
	i32.add 
	local.get	10
	memory.copy	0, 0
.LBB21_4:                               # %join.5
                                        #   in Loop: Header=BB21_2 Depth=1
	end_block                               # label85:
	local.get	1
	local.get	4
	v128.load	0
	local.get	7
	v128.xor
	local.tee	7
	v128.store	0:p2align=0
	i32.const	16
	local.set	10
	v128.const	0, 1, 28, 29, 45, 44, 49, 48, 39, 38, 59, 58, 10, 11, 22, 23
	local.get	0
	i32.const	16
	i32.add 
	i32.load	0:p2align=0
	local.tee	11
	v128.load	0:p2align=0
	local.get	7
	v128.xor
	local.tee	7
	v128.const	15, 15, 15, 15, 15, 15, 15, 15, 15, 15, 15, 15, 15, 15, 15, 15
	local.tee	12
	v128.and
	i8x16.swizzle
	v128.const	0, 134, 253, 123, 142, 8, 115, 245, 119, 241, 138, 12, 249, 127, 4, 130
	local.get	7
	i32.const	4
	i8x16.shr_u
	i8x16.swizzle
	v128.xor
	local.set	13
	block   	
	local.get	0
	i32.const	24
	i32.add 
	i64.load	0:p2align=0
	local.tee	8
	i64.const	-1
	i64.add 
	local.tee	9
	i64.const	2
	i64.lt_u
	br_if   	0                               # 0: down to label86
# %bb.5:                                # %join.5.i.i.i.preheader
                                        #   in Loop: Header=BB21_2 Depth=1
	local.get	8
	i64.const	-2
	i64.add 
	local.set	8
.LBB21_6:                               # %join.5.i.i.i
                                        #   Parent Loop BB21_2 Depth=1
                                        # =>  This Inner Loop Header: Depth=2
	loop    	                                # label87:
	local.get	11
	local.get	10
	i32.add 
	v128.load	0:p2align=0
	v128.const	0, 209, 229, 247, 230, 37, 18, 195, 38, 192, 55, 210, 244, 3, 17, 52
	v128.const	128, 1, 9, 14, 13, 11, 7, 6, 15, 2, 12, 5, 10, 4, 3, 8
	local.tee	7
	local.get	7
	local.get	13
	i32.const	4
	i8x16.shr_u
	local.tee	14
	local.get	13
	local.get	12
	v128.and
	local.tee	13
	v128.xor
	local.tee	15
	i8x16.swizzle
	v128.const	128, 2, 1, 15, 9, 5, 14, 12, 13, 4, 11, 10, 7, 8, 6, 3
	local.get	13
	i8x16.swizzle
	local.tee	13
	v128.xor
	i8x16.swizzle
	local.get	14
	v128.xor
	local.tee	16
	i8x16.swizzle
	v128.const	0, 124, 32, 207, 146, 1, 239, 147, 179, 33, 238, 206, 125, 178, 93, 92
	local.get	7
	local.get	7
	local.get	14
	i8x16.swizzle
	local.get	13
	v128.xor
	i8x16.swizzle
	local.get	15
	v128.xor
	local.tee	7
	i8x16.swizzle
	v128.xor
	v128.const	0, 230, 114, 183, 229, 198, 197, 35, 81, 180, 3, 113, 32, 151, 82, 148
	local.get	16
	i8x16.swizzle
	v128.const	0, 195, 79, 12, 252, 124, 67, 128, 207, 51, 63, 112, 191, 179, 240, 140
	local.get	7
	i8x16.swizzle
	v128.xor
	local.tee	7
	local.get	10
	i32.const	48
	i32.and 
	local.tee	17
	v128.load	.Lstatic.4:p2align=0
	local.tee	13
	i8x16.swizzle
	v128.xor
	local.tee	14
	local.get	13
	i8x16.swizzle
	v128.xor
	local.get	7
	local.get	17
	v128.load	.Lstatic.5:p2align=0
	i8x16.swizzle
	v128.xor
	local.get	14
	v128.xor
	local.set	13
	local.get	10
	i32.const	16
	i32.add 
	local.set	10
	local.get	8
	i64.const	-1
	i64.add 
	local.tee	8
	i64.const	0
	i64.ne  
	br_if   	0                               # 0: up to label87
.LBB21_7:                               # %cmac__chaining__chain_block____ef80964e0b8d42c0_.exit
                                        #   in Loop: Header=BB21_2 Depth=1
	end_loop
	end_block                               # label86:
	local.get	1
	v128.const	0, 159, 97, 22, 194, 42, 119, 232, 137, 75, 93, 60, 181, 163, 212, 254
	v128.const	128, 1, 9, 14, 13, 11, 7, 6, 15, 2, 12, 5, 10, 4, 3, 8
	local.tee	7
	local.get	7
	local.get	13
	i32.const	4
	i8x16.shr_u
	local.tee	14
	local.get	13
	local.get	12
	v128.and
	local.tee	13
	v128.xor
	local.tee	15
	i8x16.swizzle
	v128.const	128, 2, 1, 15, 9, 5, 14, 12, 13, 4, 11, 10, 7, 8, 6, 3
	local.get	13
	i8x16.swizzle
	local.tee	13
	v128.xor
	i8x16.swizzle
	local.get	14
	v128.xor
	i8x16.swizzle
	v128.const	0, 203, 215, 176, 33, 141, 103, 172, 123, 90, 234, 61, 70, 246, 145, 28
	local.get	7
	local.get	7
	local.get	14
	i8x16.swizzle
	local.get	13
	v128.xor
	i8x16.swizzle
	local.get	15
	v128.xor
	i8x16.swizzle
	v128.xor
	local.get	9
	i32.wrap_i64
	i32.const	4
	i32.shl 
	local.tee	10
	i32.const	48
	i32.and 
	v128.load	.Lstatic.3:p2align=0
	i8x16.swizzle
	local.get	11
	local.get	10
	i32.add 
	v128.load	0:p2align=0
	v128.xor
	local.tee	7
	v128.store	0:p2align=0
	local.get	5
	i64.const	1
	i64.add 
	local.tee	5
	local.get	6
	i64.ne  
	br_if   	0                               # 0: up to label84
.LBB21_8:                               # %after.1
	end_loop
	end_block                               # label83:
                                        # fallthrough-return
	end_function
                                        # -- End function
	.section	.text.cmac__tags__tag_at_end____ef80964e0b8d42c0_,"",@
	.type	cmac__tags__tag_at_end____ef80964e0b8d42c0_,@function # -- Begin function cmac__tags__tag_at_end____ef80964e0b8d42c0_
cmac__tags__tag_at_end____ef80964e0b8d42c0_: # @cmac__tags__tag_at_end____ef80964e0b8d42c0_
	.functype	cmac__tags__tag_at_end____ef80964e0b8d42c0_ (i32, i32, i32, i32, i64) -> ()
	.local  	i32, i32, v128, i32, v128, v128, v128, v128, i64, i64, i64, v128, v128, v128, v128, v128, v128, v128, v128, v128, i64, i64, i32, i32, i32, i32, i64, i64, i32, i32, i32, i32, i32, i32, i64, i64
# %bb.0:                                # %start
	global.get	__stack_pointer
	i32.const	16
	i32.sub 
	local.set	5
	i32.const	16
	local.set	6
	v128.const	0, 1, 28, 29, 45, 44, 49, 48, 39, 38, 59, 58, 10, 11, 22, 23
	local.tee	7
	local.get	1
	i32.const	16
	i32.add 
	i32.load	0:p2align=0
	local.tee	8
	v128.load	0:p2align=0
	local.tee	9
	v128.const	15, 15, 15, 15, 15, 15, 15, 15, 15, 15, 15, 15, 15, 15, 15, 15
	local.tee	10
	v128.and
	i8x16.swizzle
	v128.const	0, 134, 253, 123, 142, 8, 115, 245, 119, 241, 138, 12, 249, 127, 4, 130
	local.tee	11
	local.get	9
	i32.const	4
	i8x16.shr_u
	i8x16.swizzle
	v128.xor
	local.set	12
	block   	
	local.get	1
	i32.const	24
	i32.add 
	i64.load	0:p2align=0
	local.tee	13
	i64.const	-1
	i64.add 
	local.tee	14
	i64.const	2
	i64.lt_u
	br_if   	0                               # 0: down to label88
# %bb.1:                                # %join.5.i.i.i.i.preheader
	local.get	13
	i64.const	-2
	i64.add 
	local.set	15
.LBB22_2:                               # %join.5.i.i.i.i
                                        # =>This Inner Loop Header: Depth=1
	loop    	                                # label89:
	local.get	8
	local.get	6
	i32.add 
	v128.load	0:p2align=0
	v128.const	0, 209, 229, 247, 230, 37, 18, 195, 38, 192, 55, 210, 244, 3, 17, 52
	v128.const	128, 1, 9, 14, 13, 11, 7, 6, 15, 2, 12, 5, 10, 4, 3, 8
	local.tee	16
	local.get	16
	local.get	12
	i32.const	4
	i8x16.shr_u
	local.tee	17
	local.get	12
	local.get	10
	v128.and
	local.tee	12
	v128.xor
	local.tee	18
	i8x16.swizzle
	v128.const	128, 2, 1, 15, 9, 5, 14, 12, 13, 4, 11, 10, 7, 8, 6, 3
	local.get	12
	i8x16.swizzle
	local.tee	12
	v128.xor
	i8x16.swizzle
	local.get	17
	v128.xor
	local.tee	19
	i8x16.swizzle
	v128.const	0, 124, 32, 207, 146, 1, 239, 147, 179, 33, 238, 206, 125, 178, 93, 92
	local.get	16
	local.get	16
	local.get	17
	i8x16.swizzle
	local.get	12
	v128.xor
	i8x16.swizzle
	local.get	18
	v128.xor
	local.tee	16
	i8x16.swizzle
	v128.xor
	v128.const	0, 230, 114, 183, 229, 198, 197, 35, 81, 180, 3, 113, 32, 151, 82, 148
	local.get	19
	i8x16.swizzle
	v128.const	0, 195, 79, 12, 252, 124, 67, 128, 207, 51, 63, 112, 191, 179, 240, 140
	local.get	16
	i8x16.swizzle
	v128.xor
	local.tee	16
	local.get	6
	i32.const	48
	i32.and 
	local.tee	1
	v128.load	.Lstatic.4:p2align=0
	local.tee	12
	i8x16.swizzle
	v128.xor
	local.tee	17
	local.get	12
	i8x16.swizzle
	v128.xor
	local.get	16
	local.get	1
	v128.load	.Lstatic.5:p2align=0
	i8x16.swizzle
	v128.xor
	local.get	17
	v128.xor
	local.set	12
	local.get	6
	i32.const	16
	i32.add 
	local.set	6
	local.get	15
	i64.const	-1
	i64.add 
	local.tee	15
	i64.const	0
	i64.ne  
	br_if   	0                               # 0: up to label89
.LBB22_3:                               # %cmac__subkeys__subkeys____ef80964e0b8d42c0_.exit.i
	end_loop
	end_block                               # label88:
	local.get	5
	v128.const	0, 0
	v128.store	0
	local.get	8
	local.get	14
	i32.wrap_i64
	i32.const	4
	i32.shl 
	local.tee	6
	i32.add 
	v128.load	0:p2align=0
	local.set	20
	block   	
	local.get	4
	i32.wrap_i64
	local.tee	1
	i32.eqz
	br_if   	0                               # 0: down to label90
# %bb.4:                                # %cmac__subkeys__subkeys____ef80964e0b8d42c0_.exit.i
	local.get	5
	local.get	3
	local.get	1
	memory.copy	0, 0
.LBB22_5:                               # %cmac__subkeys__subkeys____ef80964e0b8d42c0_.exit.i
	end_block                               # label90:
	v128.const	0, 159, 97, 22, 194, 42, 119, 232, 137, 75, 93, 60, 181, 163, 212, 254
	local.tee	21
	v128.const	128, 1, 9, 14, 13, 11, 7, 6, 15, 2, 12, 5, 10, 4, 3, 8
	local.tee	16
	local.get	16
	local.get	12
	i32.const	4
	i8x16.shr_u
	local.tee	17
	local.get	12
	local.get	10
	v128.and
	local.tee	12
	v128.xor
	local.tee	18
	i8x16.swizzle
	v128.const	128, 2, 1, 15, 9, 5, 14, 12, 13, 4, 11, 10, 7, 8, 6, 3
	local.tee	22
	local.get	12
	i8x16.swizzle
	local.tee	12
	v128.xor
	i8x16.swizzle
	local.get	17
	v128.xor
	i8x16.swizzle
	v128.const	0, 203, 215, 176, 33, 141, 103, 172, 123, 90, 234, 61, 70, 246, 145, 28
	local.tee	23
	local.get	16
	local.get	16
	local.get	17
	i8x16.swizzle
	local.get	12
	v128.xor
	i8x16.swizzle
	local.get	18
	v128.xor
	i8x16.swizzle
	v128.xor
	local.get	6
	i32.const	48
	i32.and 
	v128.load	.Lstatic.3:p2align=0
	local.tee	24
	i8x16.swizzle
	local.get	20
	v128.xor
	local.tee	17
	i64x2.extract_lane	1
	local.tee	15
	i64.const	56
	i64.shl 
	local.tee	25
	local.get	15
	i64.const	65280
	i64.and 
	i64.const	40
	i64.shl 
	i64.or  
	local.get	15
	i64.const	16711680
	i64.and 
	i64.const	24
	i64.shl 
	local.get	15
	i64.const	4278190080
	i64.and 
	i64.const	8
	i64.shl 
	i64.or  
	i64.or  
	local.get	15
	i64.const	8
	i64.shr_u
	i64.const	4278190080
	i64.and 
	local.get	15
	i64.const	24
	i64.shr_u
	i64.const	16711680
	i64.and 
	i64.or  
	local.get	15
	i64.const	40
	i64.shr_u
	i64.const	65280
	i64.and 
	local.get	15
	i64.const	56
	i64.shr_u
	i64.or  
	i64.or  
	i64.or  
	i64.const	1
	i64.shl 
	local.tee	26
	i64x2.splat
	local.tee	12
	i8x16.extract_lane_u	6
	local.tee	27
	i64.extend_i32_u
	i64.const	255
	i64.and 
	i64.const	8
	i64.shl 
	local.get	12
	i8x16.extract_lane_u	7
	local.tee	28
	i64.extend_i32_u
	i64.const	255
	i64.and 
	i64.or  
	local.get	12
	i8x16.extract_lane_u	4
	local.tee	29
	i64.extend_i32_u
	i64.const	255
	i64.and 
	i64.const	24
	i64.shl 
	i64.or  
	local.get	12
	i8x16.extract_lane_u	5
	local.tee	30
	i64.extend_i32_u
	i64.const	255
	i64.and 
	i64.const	16
	i64.shl 
	i64.or  
	local.get	12
	i8x16.extract_lane_u	3
	i64.extend_i32_u
	i64.const	255
	i64.and 
	i64.const	32
	i64.shl 
	local.get	12
	i8x16.extract_lane_u	2
	i64.extend_i32_u
	i64.const	255
	i64.and 
	i64.const	40
	i64.shl 
	i64.or  
	i64.or  
	local.tee	31
	local.get	12
	i8x16.extract_lane_u	1
	i64.extend_i32_u
	i64.const	255
	i64.and 
	i64.const	48
	i64.shl 
	local.get	17
	i64x2.extract_lane	0
	local.tee	15
	i64.const	56
	i64.shl 
	local.tee	32
	i64.const	63
	i64.shr_s
	i64.const	135
	i64.and 
	local.get	26
	i64.xor 
	i64.const	56
	i64.shl 
	i64.or  
	i64.or  
	local.set	26
	local.get	16
	local.get	32
	local.get	15
	i64.const	65280
	i64.and 
	i64.const	40
	i64.shl 
	i64.or  
	local.get	15
	i64.const	16711680
	i64.and 
	i64.const	24
	i64.shl 
	local.get	15
	i64.const	4278190080
	i64.and 
	i64.const	8
	i64.shl 
	i64.or  
	i64.or  
	local.get	15
	i64.const	8
	i64.shr_u
	i64.const	4278190080
	i64.and 
	local.get	15
	i64.const	24
	i64.shr_u
	i64.const	16711680
	i64.and 
	i64.or  
	local.get	15
	i64.const	40
	i64.shr_u
	i64.const	65280
	i64.and 
	local.get	15
	i64.const	56
	i64.shr_u
	i64.or  
	i64.or  
	i64.or  
	i64.const	1
	i64.shl 
	local.get	25
	i64.const	63
	i64.shr_u
	i64.or  
	i64x2.replace_lane	1
	local.tee	12
	i8x16.extract_lane_u	8
	local.set	6
	local.get	12
	i8x16.extract_lane_u	9
	local.set	3
	local.get	12
	i8x16.extract_lane_u	10
	local.set	33
	local.get	12
	i8x16.extract_lane_u	11
	local.set	34
	local.get	12
	i8x16.extract_lane_u	12
	local.set	35
	local.get	12
	i8x16.extract_lane_u	13
	local.set	36
	local.get	12
	i8x16.extract_lane_u	14
	local.set	37
	local.get	12
	i8x16.extract_lane_u	15
	local.set	38
	block   	
	block   	
	local.get	4
	i64.const	16
	i64.ne  
	br_if   	0                               # 0: down to label92
# %bb.6:                                # %then.1.i
	local.get	5
	v128.load	0
	local.get	38
	i8x16.splat
	local.get	37
	i8x16.replace_lane	1
	local.get	36
	i8x16.replace_lane	2
	local.get	35
	i8x16.replace_lane	3
	local.get	34
	i8x16.replace_lane	4
	local.get	33
	i8x16.replace_lane	5
	local.get	3
	i8x16.replace_lane	6
	local.get	6
	i8x16.replace_lane	7
	local.get	28
	i8x16.replace_lane	8
	local.get	27
	i8x16.replace_lane	9
	local.get	30
	i8x16.replace_lane	10
	local.get	29
	i8x16.replace_lane	11
	local.get	31
	i64.const	32
	i64.shr_u
	i32.wrap_i64
	i8x16.replace_lane	12
	local.get	31
	i64.const	40
	i64.shr_u
	i32.wrap_i64
	i8x16.replace_lane	13
	local.get	26
	i64.const	48
	i64.shr_u
	i32.wrap_i64
	i8x16.replace_lane	14
	local.get	26
	i64.const	56
	i64.shr_u
	i32.wrap_i64
	i8x16.replace_lane	15
	v128.xor
	local.set	12
	br      	1                               # 1: down to label91
.LBB22_7:                               # %else.2.i
	end_block                               # label92:
	local.get	5
	local.get	1
	i32.add 
	i32.const	128
	i32.store8	0
	local.get	5
	v128.load	0
	local.get	6
	i64.extend_i32_u
	local.tee	4
	i64.const	56
	i64.shl 
	local.get	3
	i64.extend_i32_u
	i64.const	255
	i64.and 
	i64.const	48
	i64.shl 
	local.tee	25
	i64.or  
	local.get	33
	i64.extend_i32_u
	i64.const	255
	i64.and 
	i64.const	40
	i64.shl 
	local.tee	31
	i64.or  
	local.get	34
	i64.extend_i32_u
	i64.const	255
	i64.and 
	i64.const	32
	i64.shl 
	local.tee	32
	i64.or  
	local.get	35
	i64.extend_i32_u
	i64.const	255
	i64.and 
	i64.const	24
	i64.shl 
	i64.or  
	local.get	36
	i64.extend_i32_u
	i64.const	255
	i64.and 
	i64.const	16
	i64.shl 
	i64.or  
	local.get	37
	i64.extend_i32_u
	i64.const	255
	i64.and 
	i64.const	8
	i64.shl 
	i64.or  
	local.get	38
	i64.extend_i32_u
	i64.const	255
	i64.and 
	i64.or  
	local.tee	15
	i64.const	56
	i64.shl 
	local.tee	39
	i64.const	63
	i64.shr_s
	i64.const	135
	i64.and 
	local.get	26
	i64.const	56
	i64.shl 
	local.tee	40
	local.get	26
	i64.const	65280
	i64.and 
	i64.const	40
	i64.shl 
	i64.or  
	local.get	26
	i64.const	16711680
	i64.and 
	i64.const	24
	i64.shl 
	local.get	26
	i64.const	4278190080
	i64.and 
	i64.const	8
	i64.shl 
	i64.or  
	i64.or  
	local.get	26
	i64.const	8
	i64.shr_u
	i64.const	4278190080
	i64.and 
	local.get	26
	i64.const	24
	i64.shr_u
	i64.const	16711680
	i64.and 
	i64.or  
	local.get	26
	i64.const	40
	i64.shr_u
	i64.const	65280
	i64.and 
	local.get	26
	i64.const	56
	i64.shr_u
	i64.or  
	i64.or  
	i64.or  
	i64.const	1
	i64.shl 
	i64.xor 
	i64x2.splat
	local.get	39
	local.get	15
	i64.const	65280
	i64.and 
	i64.const	40
	i64.shl 
	i64.or  
	local.get	15
	i64.const	16711680
	i64.and 
	i64.const	24
	i64.shl 
	local.get	15
	i64.const	4278190080
	i64.and 
	i64.const	8
	i64.shl 
	i64.or  
	i64.or  
	local.get	32
	i64.const	8
	i64.shr_u
	local.get	31
	i64.const	24
	i64.shr_u
	i64.or  
	local.get	25
	i64.const	40
	i64.shr_u
	local.get	4
	i64.const	255
	i64.and 
	i64.or  
	i64.or  
	i64.or  
	i64.const	1
	i64.shl 
	local.get	40
	i64.const	63
	i64.shr_u
	i64.or  
	i64x2.replace_lane	1
	local.get	16
	i8x16.shuffle	15, 14, 13, 12, 11, 10, 9, 8, 7, 6, 5, 4, 3, 2, 1, 0
	v128.xor
	local.set	12
.LBB22_8:                               # %cmac__tags__last_block____ef80964e0b8d42c0_.exit
	end_block                               # label91:
	local.get	7
	local.get	12
	local.get	2
	v128.load	0:p2align=0
	v128.xor
	local.get	9
	v128.xor
	local.tee	12
	local.get	10
	v128.and
	i8x16.swizzle
	local.get	11
	local.get	12
	i32.const	4
	i8x16.shr_u
	i8x16.swizzle
	v128.xor
	local.set	12
	block   	
	local.get	14
	i64.const	2
	i64.lt_u
	br_if   	0                               # 0: down to label93
# %bb.9:                                # %join.5.i.i.preheader
	local.get	13
	i64.const	-2
	i64.add 
	local.set	15
	i32.const	16
	local.set	6
.LBB22_10:                              # %join.5.i.i
                                        # =>This Inner Loop Header: Depth=1
	loop    	                                # label94:
	local.get	8
	local.get	6
	i32.add 
	v128.load	0:p2align=0
	v128.const	0, 209, 229, 247, 230, 37, 18, 195, 38, 192, 55, 210, 244, 3, 17, 52
	local.get	16
	local.get	16
	local.get	12
	i32.const	4
	i8x16.shr_u
	local.tee	17
	local.get	12
	local.get	10
	v128.and
	local.tee	12
	v128.xor
	local.tee	18
	i8x16.swizzle
	local.get	22
	local.get	12
	i8x16.swizzle
	local.tee	12
	v128.xor
	i8x16.swizzle
	local.get	17
	v128.xor
	local.tee	19
	i8x16.swizzle
	v128.const	0, 124, 32, 207, 146, 1, 239, 147, 179, 33, 238, 206, 125, 178, 93, 92
	local.get	16
	local.get	16
	local.get	17
	i8x16.swizzle
	local.get	12
	v128.xor
	i8x16.swizzle
	local.get	18
	v128.xor
	local.tee	12
	i8x16.swizzle
	v128.xor
	v128.const	0, 230, 114, 183, 229, 198, 197, 35, 81, 180, 3, 113, 32, 151, 82, 148
	local.get	19
	i8x16.swizzle
	v128.const	0, 195, 79, 12, 252, 124, 67, 128, 207, 51, 63, 112, 191, 179, 240, 140
	local.get	12
	i8x16.swizzle
	v128.xor
	local.tee	12
	local.get	6
	i32.const	48
	i32.and 
	local.tee	1
	v128.load	.Lstatic.4:p2align=0
	local.tee	17
	i8x16.swizzle
	v128.xor
	local.tee	18
	local.get	17
	i8x16.swizzle
	v128.xor
	local.get	12
	local.get	1
	v128.load	.Lstatic.5:p2align=0
	i8x16.swizzle
	v128.xor
	local.get	18
	v128.xor
	local.set	12
	local.get	6
	i32.const	16
	i32.add 
	local.set	6
	local.get	15
	i64.const	-1
	i64.add 
	local.tee	15
	i64.const	0
	i64.ne  
	br_if   	0                               # 0: up to label94
.LBB22_11:                              # %aes_permute__blocks__process_block____aedbc4fd156a355d_.exit
	end_loop
	end_block                               # label93:
	local.get	0
	local.get	21
	local.get	16
	local.get	16
	local.get	12
	i32.const	4
	i8x16.shr_u
	local.tee	17
	local.get	12
	local.get	10
	v128.and
	local.tee	12
	v128.xor
	local.tee	10
	i8x16.swizzle
	local.get	22
	local.get	12
	i8x16.swizzle
	local.tee	12
	v128.xor
	i8x16.swizzle
	local.get	17
	v128.xor
	i8x16.swizzle
	local.get	23
	local.get	16
	local.get	16
	local.get	17
	i8x16.swizzle
	local.get	12
	v128.xor
	i8x16.swizzle
	local.get	10
	v128.xor
	i8x16.swizzle
	v128.xor
	local.get	24
	i8x16.swizzle
	local.get	20
	v128.xor
	v128.store	0:p2align=0
                                        # fallthrough-return
	end_function
                                        # -- End function
	.section	.text.aes_cipher__zeroize__stack__wipe_stack____768_,"",@
	.type	aes_cipher__zeroize__stack__wipe_stack____768_,@function # -- Begin function aes_cipher__zeroize__stack__wipe_stack____768_
aes_cipher__zeroize__stack__wipe_stack____768_: # @aes_cipher__zeroize__stack__wipe_stack____768_
	.functype	aes_cipher__zeroize__stack__wipe_stack____768_ () -> ()
	.local  	i32, i64
# %bb.0:                                # %start
	global.get	__stack_pointer
	i32.const	784
	i32.sub 
	local.tee	0
	global.set	__stack_pointer
	local.get	0
	i32.const	16
	i32.add 
	i32.const	0
	i32.const	768
	memory.fill	0
	local.get	0
	i64.const	0
	i64.store	8
	#APP
	#NO_APP
	local.get	0
	i64.load	8
	local.set	1
	#APP
	#NO_APP
	block   	
	local.get	1
	i64.const	768
	i64.ge_u
	br_if   	0                               # 0: down to label95
# %bb.1:                                # %then.1
	local.get	0
	i32.const	16
	i32.add 
	local.get	1
	i32.wrap_i64
	i32.add 
	i64.load8_u	0
	local.set	1
	#APP
	#NO_APP
	local.get	0
	i64.load	8
	drop
	local.get	0
	local.get	1
	i64.store	8
	#APP
	#NO_APP
.LBB23_2:                               # %common.ret
	end_block                               # label95:
	local.get	0
	i32.const	784
	i32.add 
	global.set	__stack_pointer
                                        # fallthrough-return
	end_function
                                        # -- End function
	.section	.text.cmac__pieces__MessageZeroize__zeroize,"",@
	.type	cmac__pieces__MessageZeroize__zeroize,@function # -- Begin function cmac__pieces__MessageZeroize__zeroize
cmac__pieces__MessageZeroize__zeroize:  # @cmac__pieces__MessageZeroize__zeroize
	.functype	cmac__pieces__MessageZeroize__zeroize (i32) -> ()
# %bb.0:                                # %start
	local.get	0
	v128.const	0, 0
	v128.store	0:p2align=3
	local.get	0
	i32.const	16
	i32.add 
	call	aes_cipher__zeroize__elements__zeroize_elements____331496ca003a3905_
	local.get	0
	i32.const	32
	i32.add 
	call	aes_cipher__zeroize__elements__zeroize_elements____331496ca003a3905_
                                        # fallthrough-return
	end_function
                                        # -- End function
	.section	.text.aes_cipher__zeroize__elements__zeroize_elements____331496ca003a3905_,"",@
	.type	aes_cipher__zeroize__elements__zeroize_elements____331496ca003a3905_,@function # -- Begin function aes_cipher__zeroize__elements__zeroize_elements____331496ca003a3905_
aes_cipher__zeroize__elements__zeroize_elements____331496ca003a3905_: # @aes_cipher__zeroize__elements__zeroize_elements____331496ca003a3905_
	.functype	aes_cipher__zeroize__elements__zeroize_elements____331496ca003a3905_ (i32) -> ()
	.local  	i32
# %bb.0:                                # %start
	global.get	__stack_pointer
	i32.const	16
	i32.sub 
	local.tee	1
	i64.const	0
	i64.store	8
	#APP
	#NO_APP
	local.get	1
	i64.load	8
	drop
	#APP
	#NO_APP
	local.get	0
	v128.const	0, 0
	v128.store	0:p2align=0
	#APP
	#NO_APP
	local.get	1
	i64.load	8
	drop
	local.get	1
	i64.const	0
	i64.store	8
	#APP
	#NO_APP
                                        # fallthrough-return
	end_function
                                        # -- End function
	.section	.text.cmac__chain_in_pieces__ChainInPieces__extend____ef80964e0b8d42c0_,"",@
	.type	cmac__chain_in_pieces__ChainInPieces__extend____ef80964e0b8d42c0_,@function # -- Begin function cmac__chain_in_pieces__ChainInPieces__extend____ef80964e0b8d42c0_
cmac__chain_in_pieces__ChainInPieces__extend____ef80964e0b8d42c0_: # @cmac__chain_in_pieces__ChainInPieces__extend____ef80964e0b8d42c0_
	.functype	cmac__chain_in_pieces__ChainInPieces__extend____ef80964e0b8d42c0_ (i32, i32, i32, i64) -> ()
	.local  	i64, i64, i64, i64, i32, i32, i32, i32, i64, i32, i32, i32, i64
# %bb.0:                                # %start
	block   	
	block   	
	local.get	3
	i64.const	16
	local.get	0
	i64.load	0
	local.tee	4
	i64.const	16
	local.get	4
	i64.const	16
	i64.lt_u
	i64.select
	local.tee	5
	i64.sub 
	local.tee	6
	i64.gt_u
	br_if   	0                               # 0: down to label97
# %bb.1:                                # %then.1
	local.get	5
	local.get	3
	i64.add 
	local.set	7
	block   	
	local.get	0
	local.get	5
	i32.wrap_i64
	local.tee	8
	i32.add 
	local.tee	9
	i32.const	24
	i32.add 
	local.tee	10
	i64.extend_i32_u
	local.get	2
	i64.extend_i32_u
	i64.sub 
	local.get	3
	i64.ge_u
	br_if   	0                               # 0: down to label98
# %bb.2:                                # %join.7.i.i.i.i.i.i.preheader
	i64.const	0
	local.set	6
	block   	
	local.get	3
	i64.const	16
	i64.lt_u
	br_if   	0                               # 0: down to label99
# %bb.3:                                # %vector.memcheck
	local.get	9
	local.get	2
	i32.sub 
	i32.const	24
	i32.add 
	i32.const	16
	i32.lt_u
	br_if   	0                               # 0: down to label99
# %bb.4:                                # %vector.ph
	local.get	2
	local.set	11
	local.get	3
	i64.const	4294967280
	i64.and 
	local.tee	6
	local.set	4
.LBB26_5:                               # %vector.body
                                        # =>This Inner Loop Header: Depth=1
	loop    	                                # label100:
	local.get	10
	local.get	11
	v128.load	0:p2align=0
	v128.store	0:p2align=0
	local.get	10
	i32.const	16
	i32.add 
	local.set	10
	local.get	11
	i32.const	16
	i32.add 
	local.set	11
	local.get	4
	i64.const	-16
	i64.add 
	local.tee	4
	i64.const	0
	i64.ne  
	br_if   	0                               # 0: up to label100
# %bb.6:                                # %middle.block
	end_loop
	local.get	3
	local.get	6
	i64.eq  
	br_if   	3                               # 3: down to label96
.LBB26_7:                               # %join.7.i.i.i.i.i.i.preheader101
	end_block                               # label99:
	local.get	6
	local.set	5
	block   	
	local.get	3
	i64.const	3
	i64.and 
	local.tee	4
	i64.eqz
	br_if   	0                               # 0: down to label101
# %bb.8:                                # %join.7.i.i.i.i.i.i.prol.preheader
	local.get	6
	local.get	4
	i64.add 
	local.set	5
	local.get	2
	local.get	6
	i32.wrap_i64
	local.tee	11
	i32.add 
	local.set	10
	local.get	11
	local.get	8
	i32.add 
	local.get	0
	i32.add 
	i32.const	24
	i32.add 
	local.set	11
.LBB26_9:                               # %join.7.i.i.i.i.i.i.prol
                                        # =>This Inner Loop Header: Depth=1
	loop    	                                # label102:
	local.get	11
	local.get	10
	i32.load8_u	0
	i32.store8	0
	local.get	11
	i32.const	1
	i32.add 
	local.set	11
	local.get	10
	i32.const	1
	i32.add 
	local.set	10
	local.get	4
	i64.const	-1
	i64.add 
	local.tee	4
	i64.const	0
	i64.ne  
	br_if   	0                               # 0: up to label102
.LBB26_10:                              # %join.7.i.i.i.i.i.i.prol.loopexit
	end_loop
	end_block                               # label101:
	local.get	6
	local.get	3
	i64.sub 
	i64.const	-4
	i64.gt_u
	br_if   	2                               # 2: down to label96
# %bb.11:                               # %join.7.i.i.i.i.i.i.preheader106
	local.get	3
	local.get	5
	i64.sub 
	local.set	4
	local.get	5
	i32.wrap_i64
	local.set	8
.LBB26_12:                              # %join.7.i.i.i.i.i.i
                                        # =>This Inner Loop Header: Depth=1
	loop    	                                # label103:
	local.get	9
	local.get	8
	i32.add 
	local.tee	10
	i32.const	24
	i32.add 
	local.get	2
	local.get	8
	i32.add 
	local.tee	11
	i32.load8_u	0
	i32.store8	0
	local.get	10
	i32.const	25
	i32.add 
	local.get	11
	i32.const	1
	i32.add 
	i32.load8_u	0
	i32.store8	0
	local.get	10
	i32.const	26
	i32.add 
	local.get	11
	i32.const	2
	i32.add 
	i32.load8_u	0
	i32.store8	0
	local.get	10
	i32.const	27
	i32.add 
	local.get	11
	i32.const	3
	i32.add 
	i32.load8_u	0
	i32.store8	0
	local.get	2
	i32.const	4
	i32.add 
	local.set	2
	local.get	9
	i32.const	4
	i32.add 
	local.set	9
	local.get	4
	i64.const	-4
	i64.add 
	local.tee	4
	i64.eqz
	i32.eqz
	br_if   	0                               # 0: up to label103
	br      	3                               # 3: down to label96
.LBB26_13:                              # %apart.2.i.i.i.i.i.i
	end_loop
	end_block                               # label98:
	local.get	3
	i32.wrap_i64
	local.tee	11
	i32.eqz
	br_if   	1                               # 1: down to label96
# %bb.14:                               # %apart.2.i.i.i.i.i.i
	local.get	10
	local.get	2
	local.get	11
	memory.copy	0, 0
	br      	1                               # 1: down to label96
.LBB26_15:                              # %join.3
	end_block                               # label97:
	local.get	3
	local.get	6
	i64.sub 
	local.set	12
	local.get	2
	local.get	6
	i32.wrap_i64
	local.tee	10
	i32.add 
	local.set	13
	block   	
	block   	
	block   	
	local.get	0
	i32.const	24
	i32.add 
	local.tee	8
	local.get	5
	i32.wrap_i64
	local.tee	14
	i32.add 
	local.tee	11
	i64.extend_i32_u
	local.get	2
	i64.extend_i32_u
	i64.sub 
	local.get	6
	i64.ge_u
	br_if   	0                               # 0: down to label106
# %bb.16:                               # %join.7.i.i.i.i.i.i39.preheader
	local.get	4
	i64.eqz
	i32.eqz
	br_if   	1                               # 1: down to label105
# %bb.17:                               # %vector.memcheck73
	local.get	0
	local.get	2
	i32.sub 
	i32.const	24
	i32.add 
	i32.const	16
	i32.lt_u
	br_if   	1                               # 1: down to label105
# %bb.18:                               # %vector.body80
	local.get	11
	local.get	2
	v128.load	0:p2align=0
	v128.store	0:p2align=0
	br      	2                               # 2: down to label104
.LBB26_19:                              # %apart.2.i.i.i.i.i.i37
	end_block                               # label106:
	local.get	10
	i32.eqz
	br_if   	1                               # 1: down to label104
# %bb.20:                               # %apart.2.i.i.i.i.i.i37
	local.get	11
	local.get	2
	local.get	10
	memory.copy	0, 0
	br      	1                               # 1: down to label104
.LBB26_21:                              # %join.7.i.i.i.i.i.i39.preheader100
	end_block                               # label105:
	local.get	6
	i64.const	3
	i64.and 
	local.set	4
	i64.const	0
	local.set	7
	block   	
	local.get	5
	i64.const	-13
	i64.add 
	i64.const	3
	i64.lt_u
	br_if   	0                               # 0: down to label107
# %bb.22:                               # %join.7.i.i.i.i.i.i39.preheader100.new
	local.get	0
	local.get	14
	i32.add 
	local.set	15
	local.get	6
	i64.const	28
	i64.and 
	local.set	6
	i64.const	0
	local.set	7
	i32.const	0
	local.set	10
.LBB26_23:                              # %join.7.i.i.i.i.i.i39
                                        # =>This Inner Loop Header: Depth=1
	loop    	                                # label108:
	local.get	15
	local.get	10
	i32.add 
	local.tee	11
	i32.const	24
	i32.add 
	local.get	2
	local.get	10
	i32.add 
	local.tee	9
	i32.load8_u	0
	i32.store8	0
	local.get	11
	i32.const	25
	i32.add 
	local.get	9
	i32.const	1
	i32.add 
	i32.load8_u	0
	i32.store8	0
	local.get	11
	i32.const	26
	i32.add 
	local.get	9
	i32.const	2
	i32.add 
	i32.load8_u	0
	i32.store8	0
	local.get	11
	i32.const	27
	i32.add 
	local.get	9
	i32.const	3
	i32.add 
	i32.load8_u	0
	i32.store8	0
	local.get	10
	i32.const	4
	i32.add 
	local.set	10
	local.get	6
	local.get	7
	i64.const	4
	i64.add 
	local.tee	7
	i64.ne  
	br_if   	0                               # 0: up to label108
# %bb.24:                               # %core__slice__edits__slice_T__copy_from_slice___i8_20_core__clone__U8Clone___.exit46.loopexit.unr-lcssa
	end_loop
	local.get	4
	i64.eqz
	br_if   	1                               # 1: down to label104
.LBB26_25:                              # %join.7.i.i.i.i.i.i39.epil.preheader
	end_block                               # label107:
	local.get	2
	local.get	7
	i32.wrap_i64
	local.tee	11
	i32.add 
	local.set	10
	local.get	11
	local.get	14
	i32.add 
	local.get	0
	i32.add 
	i32.const	24
	i32.add 
	local.set	11
.LBB26_26:                              # %join.7.i.i.i.i.i.i39.epil
                                        # =>This Inner Loop Header: Depth=1
	loop    	                                # label109:
	local.get	11
	local.get	10
	i32.load8_u	0
	i32.store8	0
	local.get	11
	i32.const	1
	i32.add 
	local.set	11
	local.get	10
	i32.const	1
	i32.add 
	local.set	10
	local.get	4
	i64.const	-1
	i64.add 
	local.tee	4
	i64.const	0
	i64.ne  
	br_if   	0                               # 0: up to label109
.LBB26_27:                              # %core__slice__edits__slice_T__copy_from_slice___i8_20_core__clone__U8Clone___.exit46
	end_loop
	end_block                               # label104:
	local.get	1
	local.get	0
	i32.const	8
	i32.add 
	local.tee	10
	local.get	8
	i64.const	16
	call	cmac__chaining__chain____ef80964e0b8d42c0_
	local.get	1
	local.get	10
	local.get	13
	local.get	12
	i64.const	-1
	i64.add 
	i64.const	-16
	i64.and 
	local.tee	6
	call	cmac__chaining__chain____ef80964e0b8d42c0_
	block   	
	local.get	8
	i64.extend_i32_u
	local.get	13
	local.get	6
	i32.wrap_i64
	local.tee	11
	i32.add 
	local.tee	10
	i64.extend_i32_u
	i64.sub 
	local.get	12
	local.get	6
	i64.sub 
	local.tee	7
	i64.ge_u
	br_if   	0                               # 0: down to label110
# %bb.28:                               # %join.7.i.i.i.i.i.i60.preheader
	i64.const	0
	local.set	16
	block   	
	local.get	7
	i64.const	16
	i64.lt_u
	br_if   	0                               # 0: down to label111
# %bb.29:                               # %vector.memcheck85
	local.get	0
	local.get	14
	i32.add 
	local.get	2
	local.get	11
	i32.add 
	i32.sub 
	i32.const	8
	i32.add 
	i32.const	16
	i32.lt_u
	br_if   	0                               # 0: down to label111
# %bb.30:                               # %vector.ph89
	local.get	7
	local.get	12
	i64.const	15
	i64.and 
	local.tee	12
	i64.sub 
	local.tee	16
	local.set	4
.LBB26_31:                              # %vector.body92
                                        # =>This Inner Loop Header: Depth=1
	loop    	                                # label112:
	local.get	8
	local.get	10
	v128.load	0:p2align=0
	v128.store	0:p2align=0
	local.get	8
	i32.const	16
	i32.add 
	local.set	8
	local.get	10
	i32.const	16
	i32.add 
	local.set	10
	local.get	4
	i64.const	-16
	i64.add 
	local.tee	4
	i64.const	0
	i64.ne  
	br_if   	0                               # 0: up to label112
# %bb.32:                               # %middle.block96
	end_loop
	local.get	12
	i64.eqz
	br_if   	2                               # 2: down to label96
.LBB26_33:                              # %join.7.i.i.i.i.i.i60.preheader99
	end_block                               # label111:
	local.get	16
	i32.wrap_i64
	local.tee	9
	local.get	0
	i32.add 
	i32.const	24
	i32.add 
	local.set	10
	local.get	3
	local.get	5
	i64.add 
	local.get	16
	i64.sub 
	local.get	6
	i64.sub 
	i64.const	-16
	i64.add 
	local.set	4
	local.get	11
	local.get	9
	i32.add 
	local.get	14
	i32.sub 
	local.get	2
	i32.add 
	i32.const	16
	i32.add 
	local.set	2
.LBB26_34:                              # %join.7.i.i.i.i.i.i60
                                        # =>This Inner Loop Header: Depth=1
	loop    	                                # label113:
	local.get	10
	local.get	2
	i32.load8_u	0
	i32.store8	0
	local.get	10
	i32.const	1
	i32.add 
	local.set	10
	local.get	2
	i32.const	1
	i32.add 
	local.set	2
	local.get	4
	i64.const	-1
	i64.add 
	local.tee	4
	i64.eqz
	i32.eqz
	br_if   	0                               # 0: up to label113
	br      	2                               # 2: down to label96
.LBB26_35:                              # %apart.2.i.i.i.i.i.i58
	end_loop
	end_block                               # label110:
	local.get	7
	i32.wrap_i64
	local.tee	2
	i32.eqz
	br_if   	0                               # 0: down to label96
# %bb.36:                               # %apart.2.i.i.i.i.i.i58
	local.get	8
	local.get	10
	local.get	2
	memory.copy	0, 0
	local.get	0
	local.get	7
	i64.store	0
	return
.LBB26_37:                              # %common.ret
	end_block                               # label96:
	local.get	0
	local.get	7
	i64.store	0
                                        # fallthrough-return
	end_function
                                        # -- End function
	.section	.text.aes_c__kept__fotsgure_aes_set_key,"",@
	.type	aes_c__kept__fotsgure_aes_set_key,@function # -- Begin function aes_c__kept__fotsgure_aes_set_key
aes_c__kept__fotsgure_aes_set_key:      # @aes_c__kept__fotsgure_aes_set_key
	.functype	aes_c__kept__fotsgure_aes_set_key (i32, i32, i64) -> (i32)
	.local  	i32, i32, i32, i64, i32, i32, v128, v128, v128, v128
# %bb.0:                                # %start
	block   	
	local.get	2
	i64.const	32
	i64.eq  
	br_if   	0                               # 0: down to label114
# %bb.1:                                # %start
	local.get	2
	i64.const	4294967287
	i64.and 
	i64.const	16
	i64.eq  
	br_if   	0                               # 0: down to label114
# %bb.2:                                # %then.1
	local.get	0
	i32.const	0
	i32.const	484
	memory.fill	0
	i32.const	1
	return
.LBB27_3:                               # %join.3
	end_block                               # label114:
	local.get	0
	i32.const	4
	i32.add 
	local.tee	3
	i32.const	0
	i32.const	240
	memory.fill	0
	local.get	3
	local.get	1
	local.get	2
	call	aes_permute__lane_keys__expand_lanes
	local.get	0
	local.get	2
	i64.store32	0
	local.get	0
	i32.const	244
	i32.add 
	local.tee	4
	i32.const	0
	i32.const	240
	memory.fill	0
	local.get	0
	i32.const	260
	i32.add 
	local.set	5
	local.get	2
	i64.const	2
	i64.shr_u
	local.tee	6
	i64.const	5
	i64.add 
	local.set	2
	local.get	6
	i32.wrap_i64
	i32.const	4
	i32.shl 
	local.tee	7
	i32.const	80
	i32.add 
	local.set	1
	local.get	7
	i32.const	96
	i32.add 
	local.tee	8
	i32.const	32
	i32.and 
	v128.load	.Lstatic.3:p2align=0
	local.set	9
.LBB27_4:                               # %join.5.i
                                        # =>This Inner Loop Header: Depth=1
	loop    	                                # label115:
	local.get	5
	v128.const	0, 28, 68, 88, 151, 139, 211, 207, 138, 150, 206, 210, 29, 1, 89, 69
	v128.const	0, 110, 200, 166, 124, 18, 180, 218, 188, 210, 116, 26, 192, 174, 8, 102
	v128.const	0, 1, 92, 93, 224, 225, 188, 189, 80, 81, 12, 13, 176, 177, 236, 237
	local.get	0
	local.get	1
	i32.add 
	i32.const	4
	i32.add 
	v128.load	0:p2align=0
	local.tee	10
	v128.const	15, 15, 15, 15, 15, 15, 15, 15, 15, 15, 15, 15, 15, 15, 15, 15
	local.tee	11
	v128.and
	i8x16.swizzle
	v128.const	0, 178, 181, 7, 58, 136, 143, 61, 172, 30, 25, 171, 150, 36, 35, 145
	local.get	10
	i32.const	4
	i8x16.shr_u
	i8x16.swizzle
	v128.xor
	v128.const	99, 99, 99, 99, 99, 99, 99, 99, 99, 99, 99, 99, 99, 99, 99, 99
	v128.xor
	local.tee	10
	local.get	11
	v128.and
	local.tee	12
	i8x16.swizzle
	v128.const	0, 74, 121, 51, 55, 125, 78, 4, 217, 147, 160, 234, 238, 164, 151, 221
	local.get	10
	i32.const	4
	i8x16.shr_u
	local.tee	10
	i8x16.swizzle
	v128.xor
	v128.const	0, 219, 20, 207, 167, 124, 179, 104, 168, 115, 188, 103, 15, 212, 27, 192
	local.get	12
	i8x16.swizzle
	v128.const	0, 237, 209, 60, 218, 55, 11, 230, 8, 229, 217, 52, 210, 63, 3, 238
	local.get	10
	i8x16.swizzle
	v128.xor
	local.get	1
	i32.const	48
	i32.and 
	local.tee	7
	v128.load	.Lstatic.6:p2align=0
	i8x16.swizzle
	v128.xor
	local.tee	10
	local.get	11
	v128.and
	i8x16.swizzle
	v128.const	0, 48, 38, 22, 183, 135, 145, 161, 65, 113, 103, 87, 246, 198, 208, 224
	local.get	10
	i32.const	4
	i8x16.shr_u
	i8x16.swizzle
	v128.xor
	local.get	10
	local.get	7
	v128.load	.Lstatic.4:p2align=0
	local.tee	11
	i8x16.swizzle
	v128.xor
	local.tee	12
	local.get	11
	i8x16.swizzle
	local.get	10
	local.get	7
	v128.load	.Lstatic.5:p2align=0
	i8x16.swizzle
	v128.xor
	local.get	12
	v128.xor
	v128.const	44, 44, 44, 44, 44, 44, 44, 44, 44, 44, 44, 44, 44, 44, 44, 44
	v128.xor
	local.get	9
	i8x16.swizzle
	v128.store	0:p2align=0
	local.get	1
	i32.const	-16
	i32.add 
	local.set	1
	local.get	5
	i32.const	16
	i32.add 
	local.set	5
	local.get	2
	i64.const	-1
	i64.add 
	local.tee	2
	i64.const	0
	i64.ne  
	br_if   	0                               # 0: up to label115
# %bb.5:                                # %aes_permute__lane_keys__invert_lanes.exit
	end_loop
	local.get	4
	local.get	8
	i32.add 
	local.get	3
	v128.load	0:p2align=0
	v128.store	0:p2align=0
	local.get	4
	local.get	3
	local.get	8
	i32.add 
	v128.load	0:p2align=0
	v128.store	0:p2align=0
	i32.const	0
                                        # fallthrough-return
	end_function
                                        # -- End function
	.section	.text.key_wrap__wrapping__wrap____ef80964e0b8d42c0_,"",@
	.type	key_wrap__wrapping__wrap____ef80964e0b8d42c0_,@function # -- Begin function key_wrap__wrapping__wrap____ef80964e0b8d42c0_
key_wrap__wrapping__wrap____ef80964e0b8d42c0_: # @key_wrap__wrapping__wrap____ef80964e0b8d42c0_
	.functype	key_wrap__wrapping__wrap____ef80964e0b8d42c0_ (i32, i32, i64, i32, i64) -> (i32)
	.local  	i32, i64, i32, i64, i32, i64, i32, i32
# %bb.0:                                # %start
	i32.const	1
	local.set	5
	block   	
	local.get	2
	i64.const	2
	i64.lt_u
	br_if   	0                               # 0: down to label116
# %bb.1:                                # %start
	local.get	4
	local.get	2
	i64.const	1
	i64.add 
	i64.ne  
	br_if   	0                               # 0: down to label116
# %bb.2:                                # %arm.12
	local.get	3
	i64.const	-6438275382588823898
	i64.store	0:p2align=0
	local.get	4
	i64.const	-1
	i64.add 
	local.set	6
	block   	
	block   	
	local.get	3
	i32.const	8
	i32.add 
	local.tee	7
	i64.extend_i32_u
	local.get	1
	i64.extend_i32_u
	i64.sub 
	local.get	2
	i64.const	3
	i64.shl 
	local.tee	4
	i64.ge_u
	br_if   	0                               # 0: down to label118
# %bb.3:                                # %join.7.i.i.i.i.i.i.preheader
	i64.const	0
	local.set	8
	block   	
	local.get	2
	i64.const	6
	i64.lt_u
	br_if   	0                               # 0: down to label119
# %bb.4:                                # %vector.memcheck
	local.get	3
	local.get	1
	i32.sub 
	i32.const	8
	i32.add 
	i32.const	16
	i32.lt_u
	br_if   	0                               # 0: down to label119
# %bb.5:                                # %vector.ph
	local.get	7
	local.set	5
	local.get	1
	local.set	9
	local.get	2
	i64.const	4294967294
	i64.and 
	local.tee	8
	local.set	4
.LBB28_6:                               # %vector.body
                                        # =>This Inner Loop Header: Depth=1
	loop    	                                # label120:
	local.get	5
	local.get	9
	v128.load	0:p2align=0
	v128.store	0:p2align=0
	local.get	5
	i32.const	16
	i32.add 
	local.set	5
	local.get	9
	i32.const	16
	i32.add 
	local.set	9
	local.get	4
	i64.const	-2
	i64.add 
	local.tee	4
	i64.const	0
	i64.ne  
	br_if   	0                               # 0: up to label120
# %bb.7:                                # %middle.block
	end_loop
	local.get	2
	local.get	8
	i64.eq  
	br_if   	2                               # 2: down to label117
.LBB28_8:                               # %join.7.i.i.i.i.i.i.preheader13
	end_block                               # label119:
	local.get	8
	local.set	10
	block   	
	local.get	2
	local.get	8
	i64.sub 
	i64.const	3
	i64.and 
	local.tee	4
	i64.eqz
	br_if   	0                               # 0: down to label121
# %bb.9:                                # %join.7.i.i.i.i.i.i.prol.preheader
	local.get	8
	local.get	4
	i64.add 
	local.set	10
	local.get	1
	local.get	8
	i32.wrap_i64
	i32.const	3
	i32.shl 
	local.tee	9
	i32.add 
	local.set	5
	local.get	9
	local.get	3
	i32.add 
	i32.const	8
	i32.add 
	local.set	9
.LBB28_10:                              # %join.7.i.i.i.i.i.i.prol
                                        # =>This Inner Loop Header: Depth=1
	loop    	                                # label122:
	local.get	9
	local.get	5
	i64.load	0:p2align=0
	i64.store	0:p2align=0
	local.get	9
	i32.const	8
	i32.add 
	local.set	9
	local.get	5
	i32.const	8
	i32.add 
	local.set	5
	local.get	4
	i64.const	-1
	i64.add 
	local.tee	4
	i64.const	0
	i64.ne  
	br_if   	0                               # 0: up to label122
.LBB28_11:                              # %join.7.i.i.i.i.i.i.prol.loopexit
	end_loop
	end_block                               # label121:
	local.get	8
	local.get	2
	i64.sub 
	i64.const	-4
	i64.gt_u
	br_if   	1                               # 1: down to label117
# %bb.12:                               # %join.7.i.i.i.i.i.i.preheader14
	local.get	2
	local.get	10
	i64.sub 
	local.set	4
	local.get	10
	i32.wrap_i64
	i32.const	3
	i32.shl 
	local.set	11
	local.get	3
	local.set	12
.LBB28_13:                              # %join.7.i.i.i.i.i.i
                                        # =>This Inner Loop Header: Depth=1
	loop    	                                # label123:
	local.get	12
	local.get	11
	i32.add 
	local.tee	5
	i32.const	8
	i32.add 
	local.get	1
	local.get	11
	i32.add 
	local.tee	9
	i64.load	0:p2align=0
	i64.store	0:p2align=0
	local.get	5
	i32.const	16
	i32.add 
	local.get	9
	i32.const	8
	i32.add 
	i64.load	0:p2align=0
	i64.store	0:p2align=0
	local.get	5
	i32.const	24
	i32.add 
	local.get	9
	i32.const	16
	i32.add 
	i64.load	0:p2align=0
	i64.store	0:p2align=0
	local.get	5
	i32.const	32
	i32.add 
	local.get	9
	i32.const	24
	i32.add 
	i64.load	0:p2align=0
	i64.store	0:p2align=0
	local.get	1
	i32.const	32
	i32.add 
	local.set	1
	local.get	12
	i32.const	32
	i32.add 
	local.set	12
	local.get	4
	i64.const	-4
	i64.add 
	local.tee	4
	i64.const	0
	i64.ne  
	br_if   	0                               # 0: up to label123
	br      	2                               # 2: down to label117
.LBB28_14:                              # %apart.2.i.i.i.i.i.i
	end_loop
	end_block                               # label118:
	local.get	4
	i32.wrap_i64
	local.tee	5
	i32.eqz
	br_if   	0                               # 0: down to label117
# %bb.15:                               # %apart.2.i.i.i.i.i.i
	local.get	7
	local.get	1
	local.get	5
	memory.copy	0, 0
.LBB28_16:                              # %core__slice__edits__slice_T__copy_from_slice____76f67ba6cf9709da_.exit
	end_block                               # label117:
	local.get	0
	local.get	3
	local.get	7
	local.get	6
	call	key_wrap__steps__wrap_in_place____ef80964e0b8d42c0_
	i32.const	0
	local.set	5
.LBB28_17:                              # %return.10
	end_block                               # label116:
	local.get	5
                                        # fallthrough-return
	end_function
                                        # -- End function
	.section	.text.key_wrap__steps__wrap_in_place____ef80964e0b8d42c0_,"",@
	.type	key_wrap__steps__wrap_in_place____ef80964e0b8d42c0_,@function # -- Begin function key_wrap__steps__wrap_in_place____ef80964e0b8d42c0_
key_wrap__steps__wrap_in_place____ef80964e0b8d42c0_: # @key_wrap__steps__wrap_in_place____ef80964e0b8d42c0_
	.functype	key_wrap__steps__wrap_in_place____ef80964e0b8d42c0_ (i32, i32, i32, i64) -> ()
	.local  	i64, i32, i64
# %bb.0:                                # %start
	block   	
	local.get	3
	i64.eqz
	br_if   	0                               # 0: down to label124
# %bb.1:                                # %join.5.i.preheader
	i64.const	0
	local.set	4
	local.get	2
	local.set	5
.LBB29_2:                               # %join.5.i
                                        # =>This Inner Loop Header: Depth=1
	loop    	                                # label125:
	local.get	0
	local.get	1
	local.get	5
	call	key_wrap__steps__encrypt_halves____ef80964e0b8d42c0_
	local.get	1
	local.get	1
	i64.load	0:p2align=0
	local.get	4
	i64.const	1
	i64.add 
	local.tee	4
	i64.const	56
	i64.shl 
	local.get	4
	i64.const	65280
	i64.and 
	i64.const	40
	i64.shl 
	i64.or  
	local.get	4
	i64.const	16711680
	i64.and 
	i64.const	24
	i64.shl 
	local.get	4
	i64.const	4278190080
	i64.and 
	i64.const	8
	i64.shl 
	i64.or  
	i64.or  
	local.get	4
	i64.const	8
	i64.shr_u
	i64.const	4278190080
	i64.and 
	local.get	4
	i64.const	24
	i64.shr_u
	i64.const	16711680
	i64.and 
	i64.or  
	local.get	4
	i64.const	40
	i64.shr_u
	i64.const	65280
	i64.and 
	local.get	4
	i64.const	56
	i64.shr_u
	i64.or  
	i64.or  
	i64.or  
	i64.xor 
	i64.store	0:p2align=0
	local.get	5
	i32.const	8
	i32.add 
	local.set	5
	local.get	3
	local.get	4
	i64.ne  
	br_if   	0                               # 0: up to label125
# %bb.3:                                # %join.5.lr.ph.i.1
	end_loop
	i64.const	0
	local.set	6
	local.get	2
	local.set	5
.LBB29_4:                               # %join.5.i.1
                                        # =>This Inner Loop Header: Depth=1
	loop    	                                # label126:
	local.get	0
	local.get	1
	local.get	5
	call	key_wrap__steps__encrypt_halves____ef80964e0b8d42c0_
	local.get	1
	local.get	1
	i64.load	0:p2align=0
	local.get	6
	i64.const	1
	i64.add 
	local.tee	6
	local.get	3
	i64.add 
	local.tee	4
	i64.const	56
	i64.shl 
	local.get	4
	i64.const	65280
	i64.and 
	i64.const	40
	i64.shl 
	i64.or  
	local.get	4
	i64.const	16711680
	i64.and 
	i64.const	24
	i64.shl 
	local.get	4
	i64.const	4278190080
	i64.and 
	i64.const	8
	i64.shl 
	i64.or  
	i64.or  
	local.get	4
	i64.const	8
	i64.shr_u
	i64.const	4278190080
	i64.and 
	local.get	4
	i64.const	24
	i64.shr_u
	i64.const	16711680
	i64.and 
	i64.or  
	local.get	4
	i64.const	40
	i64.shr_u
	i64.const	65280
	i64.and 
	local.get	4
	i64.const	56
	i64.shr_u
	i64.or  
	i64.or  
	i64.or  
	i64.xor 
	i64.store	0:p2align=0
	local.get	5
	i32.const	8
	i32.add 
	local.set	5
	local.get	3
	local.get	6
	i64.ne  
	br_if   	0                               # 0: up to label126
# %bb.5:                                # %join.5.lr.ph.i.2
	end_loop
	local.get	3
	i64.const	1
	i64.shl 
	i64.const	1
	i64.or  
	local.set	4
	local.get	2
	local.set	5
	local.get	3
	local.set	6
.LBB29_6:                               # %join.5.i.2
                                        # =>This Inner Loop Header: Depth=1
	loop    	                                # label127:
	local.get	0
	local.get	1
	local.get	5
	call	key_wrap__steps__encrypt_halves____ef80964e0b8d42c0_
	local.get	1
	local.get	1
	i64.load	0:p2align=0
	local.get	4
	i64.const	56
	i64.shl 
	local.get	4
	i64.const	65280
	i64.and 
	i64.const	40
	i64.shl 
	i64.or  
	local.get	4
	i64.const	16711680
	i64.and 
	i64.const	24
	i64.shl 
	local.get	4
	i64.const	4278190080
	i64.and 
	i64.const	8
	i64.shl 
	i64.or  
	i64.or  
	local.get	4
	i64.const	8
	i64.shr_u
	i64.const	4278190080
	i64.and 
	local.get	4
	i64.const	24
	i64.shr_u
	i64.const	16711680
	i64.and 
	i64.or  
	local.get	4
	i64.const	40
	i64.shr_u
	i64.const	65280
	i64.and 
	local.get	4
	i64.const	56
	i64.shr_u
	i64.or  
	i64.or  
	i64.or  
	i64.xor 
	i64.store	0:p2align=0
	local.get	5
	i32.const	8
	i32.add 
	local.set	5
	local.get	4
	i64.const	1
	i64.add 
	local.set	4
	local.get	6
	i64.const	-1
	i64.add 
	local.tee	6
	i64.const	0
	i64.ne  
	br_if   	0                               # 0: up to label127
# %bb.7:                                # %join.5.lr.ph.i.3
	end_loop
	local.get	3
	i64.const	3
	i64.mul 
	i64.const	1
	i64.add 
	local.set	4
	local.get	2
	local.set	5
	local.get	3
	local.set	6
.LBB29_8:                               # %join.5.i.3
                                        # =>This Inner Loop Header: Depth=1
	loop    	                                # label128:
	local.get	0
	local.get	1
	local.get	5
	call	key_wrap__steps__encrypt_halves____ef80964e0b8d42c0_
	local.get	1
	local.get	1
	i64.load	0:p2align=0
	local.get	4
	i64.const	56
	i64.shl 
	local.get	4
	i64.const	65280
	i64.and 
	i64.const	40
	i64.shl 
	i64.or  
	local.get	4
	i64.const	16711680
	i64.and 
	i64.const	24
	i64.shl 
	local.get	4
	i64.const	4278190080
	i64.and 
	i64.const	8
	i64.shl 
	i64.or  
	i64.or  
	local.get	4
	i64.const	8
	i64.shr_u
	i64.const	4278190080
	i64.and 
	local.get	4
	i64.const	24
	i64.shr_u
	i64.const	16711680
	i64.and 
	i64.or  
	local.get	4
	i64.const	40
	i64.shr_u
	i64.const	65280
	i64.and 
	local.get	4
	i64.const	56
	i64.shr_u
	i64.or  
	i64.or  
	i64.or  
	i64.xor 
	i64.store	0:p2align=0
	local.get	5
	i32.const	8
	i32.add 
	local.set	5
	local.get	4
	i64.const	1
	i64.add 
	local.set	4
	local.get	6
	i64.const	-1
	i64.add 
	local.tee	6
	i64.const	0
	i64.ne  
	br_if   	0                               # 0: up to label128
# %bb.9:                                # %join.5.lr.ph.i.4
	end_loop
	local.get	3
	i64.const	2
	i64.shl 
	i64.const	1
	i64.or  
	local.set	4
	local.get	2
	local.set	5
	local.get	3
	local.set	6
.LBB29_10:                              # %join.5.i.4
                                        # =>This Inner Loop Header: Depth=1
	loop    	                                # label129:
	local.get	0
	local.get	1
	local.get	5
	call	key_wrap__steps__encrypt_halves____ef80964e0b8d42c0_
	local.get	1
	local.get	1
	i64.load	0:p2align=0
	local.get	4
	i64.const	56
	i64.shl 
	local.get	4
	i64.const	65280
	i64.and 
	i64.const	40
	i64.shl 
	i64.or  
	local.get	4
	i64.const	16711680
	i64.and 
	i64.const	24
	i64.shl 
	local.get	4
	i64.const	4278190080
	i64.and 
	i64.const	8
	i64.shl 
	i64.or  
	i64.or  
	local.get	4
	i64.const	8
	i64.shr_u
	i64.const	4278190080
	i64.and 
	local.get	4
	i64.const	24
	i64.shr_u
	i64.const	16711680
	i64.and 
	i64.or  
	local.get	4
	i64.const	40
	i64.shr_u
	i64.const	65280
	i64.and 
	local.get	4
	i64.const	56
	i64.shr_u
	i64.or  
	i64.or  
	i64.or  
	i64.xor 
	i64.store	0:p2align=0
	local.get	5
	i32.const	8
	i32.add 
	local.set	5
	local.get	4
	i64.const	1
	i64.add 
	local.set	4
	local.get	6
	i64.const	-1
	i64.add 
	local.tee	6
	i64.const	0
	i64.ne  
	br_if   	0                               # 0: up to label129
# %bb.11:                               # %join.5.lr.ph.i.5
	end_loop
	local.get	3
	i64.const	5
	i64.mul 
	i64.const	1
	i64.add 
	local.set	4
.LBB29_12:                              # %join.5.i.5
                                        # =>This Inner Loop Header: Depth=1
	loop    	                                # label130:
	local.get	0
	local.get	1
	local.get	2
	call	key_wrap__steps__encrypt_halves____ef80964e0b8d42c0_
	local.get	1
	local.get	1
	i64.load	0:p2align=0
	local.get	4
	i64.const	56
	i64.shl 
	local.get	4
	i64.const	65280
	i64.and 
	i64.const	40
	i64.shl 
	i64.or  
	local.get	4
	i64.const	16711680
	i64.and 
	i64.const	24
	i64.shl 
	local.get	4
	i64.const	4278190080
	i64.and 
	i64.const	8
	i64.shl 
	i64.or  
	i64.or  
	local.get	4
	i64.const	8
	i64.shr_u
	i64.const	4278190080
	i64.and 
	local.get	4
	i64.const	24
	i64.shr_u
	i64.const	16711680
	i64.and 
	i64.or  
	local.get	4
	i64.const	40
	i64.shr_u
	i64.const	65280
	i64.and 
	local.get	4
	i64.const	56
	i64.shr_u
	i64.or  
	i64.or  
	i64.or  
	i64.xor 
	i64.store	0:p2align=0
	local.get	2
	i32.const	8
	i32.add 
	local.set	2
	local.get	4
	i64.const	1
	i64.add 
	local.set	4
	local.get	3
	i64.const	-1
	i64.add 
	local.tee	3
	i64.const	0
	i64.ne  
	br_if   	0                               # 0: up to label130
.LBB29_13:                              # %key_wrap__steps__wrap_turn____ef80964e0b8d42c0_.exit.5
	end_loop
	end_block                               # label124:
                                        # fallthrough-return
	end_function
                                        # -- End function
	.section	.text.key_wrap__steps__encrypt_halves____ef80964e0b8d42c0_,"",@
	.type	key_wrap__steps__encrypt_halves____ef80964e0b8d42c0_,@function # -- Begin function key_wrap__steps__encrypt_halves____ef80964e0b8d42c0_
key_wrap__steps__encrypt_halves____ef80964e0b8d42c0_: # @key_wrap__steps__encrypt_halves____ef80964e0b8d42c0_
	.functype	key_wrap__steps__encrypt_halves____ef80964e0b8d42c0_ (i32, i32, i32) -> ()
	.local  	i32, i32, v128, v128, v128, i64, i64, v128, v128, v128
# %bb.0:                                # %start
	i32.const	16
	local.set	3
	v128.const	0, 1, 28, 29, 45, 44, 49, 48, 39, 38, 59, 58, 10, 11, 22, 23
	local.get	0
	i32.const	16
	i32.add 
	i32.load	0:p2align=0
	local.tee	4
	v128.load	0:p2align=0
	local.get	2
	local.get	1
	v128.load64_zero	0:p2align=0
	v128.load64_lane	0:p2align=0, 1
	v128.xor
	local.tee	5
	v128.const	15, 15, 15, 15, 15, 15, 15, 15, 15, 15, 15, 15, 15, 15, 15, 15
	local.tee	6
	v128.and
	i8x16.swizzle
	v128.const	0, 134, 253, 123, 142, 8, 115, 245, 119, 241, 138, 12, 249, 127, 4, 130
	local.get	5
	i32.const	4
	i8x16.shr_u
	i8x16.swizzle
	v128.xor
	local.set	7
	block   	
	local.get	0
	i32.const	24
	i32.add 
	i64.load	0:p2align=0
	local.tee	8
	i64.const	-1
	i64.add 
	local.tee	9
	i64.const	2
	i64.lt_u
	br_if   	0                               # 0: down to label131
# %bb.1:                                # %join.5.i.i.preheader
	local.get	8
	i64.const	-2
	i64.add 
	local.set	8
.LBB30_2:                               # %join.5.i.i
                                        # =>This Inner Loop Header: Depth=1
	loop    	                                # label132:
	local.get	4
	local.get	3
	i32.add 
	v128.load	0:p2align=0
	v128.const	0, 209, 229, 247, 230, 37, 18, 195, 38, 192, 55, 210, 244, 3, 17, 52
	v128.const	128, 1, 9, 14, 13, 11, 7, 6, 15, 2, 12, 5, 10, 4, 3, 8
	local.tee	5
	local.get	5
	local.get	7
	i32.const	4
	i8x16.shr_u
	local.tee	10
	local.get	7
	local.get	6
	v128.and
	local.tee	7
	v128.xor
	local.tee	11
	i8x16.swizzle
	v128.const	128, 2, 1, 15, 9, 5, 14, 12, 13, 4, 11, 10, 7, 8, 6, 3
	local.get	7
	i8x16.swizzle
	local.tee	7
	v128.xor
	i8x16.swizzle
	local.get	10
	v128.xor
	local.tee	12
	i8x16.swizzle
	v128.const	0, 124, 32, 207, 146, 1, 239, 147, 179, 33, 238, 206, 125, 178, 93, 92
	local.get	5
	local.get	5
	local.get	10
	i8x16.swizzle
	local.get	7
	v128.xor
	i8x16.swizzle
	local.get	11
	v128.xor
	local.tee	5
	i8x16.swizzle
	v128.xor
	v128.const	0, 230, 114, 183, 229, 198, 197, 35, 81, 180, 3, 113, 32, 151, 82, 148
	local.get	12
	i8x16.swizzle
	v128.const	0, 195, 79, 12, 252, 124, 67, 128, 207, 51, 63, 112, 191, 179, 240, 140
	local.get	5
	i8x16.swizzle
	v128.xor
	local.tee	5
	local.get	3
	i32.const	48
	i32.and 
	local.tee	0
	v128.load	.Lstatic.4:p2align=0
	local.tee	7
	i8x16.swizzle
	v128.xor
	local.tee	10
	local.get	7
	i8x16.swizzle
	v128.xor
	local.get	5
	local.get	0
	v128.load	.Lstatic.5:p2align=0
	i8x16.swizzle
	v128.xor
	local.get	10
	v128.xor
	local.set	7
	local.get	3
	i32.const	16
	i32.add 
	local.set	3
	local.get	8
	i64.const	-1
	i64.add 
	local.tee	8
	i64.const	0
	i64.ne  
	br_if   	0                               # 0: up to label132
.LBB30_3:                               # %aes_permute__blocks__process_block____aedbc4fd156a355d_.exit
	end_loop
	end_block                               # label131:
	local.get	1
	v128.const	0, 159, 97, 22, 194, 42, 119, 232, 137, 75, 93, 60, 181, 163, 212, 254
	v128.const	128, 1, 9, 14, 13, 11, 7, 6, 15, 2, 12, 5, 10, 4, 3, 8
	local.tee	5
	local.get	5
	local.get	7
	i32.const	4
	i8x16.shr_u
	local.tee	10
	local.get	7
	local.get	6
	v128.and
	local.tee	7
	v128.xor
	local.tee	11
	i8x16.swizzle
	v128.const	128, 2, 1, 15, 9, 5, 14, 12, 13, 4, 11, 10, 7, 8, 6, 3
	local.get	7
	i8x16.swizzle
	local.tee	7
	v128.xor
	i8x16.swizzle
	local.get	10
	v128.xor
	i8x16.swizzle
	v128.const	0, 203, 215, 176, 33, 141, 103, 172, 123, 90, 234, 61, 70, 246, 145, 28
	local.get	5
	local.get	5
	local.get	10
	i8x16.swizzle
	local.get	7
	v128.xor
	i8x16.swizzle
	local.get	11
	v128.xor
	i8x16.swizzle
	v128.xor
	local.get	9
	i32.wrap_i64
	i32.const	4
	i32.shl 
	local.tee	3
	i32.const	48
	i32.and 
	v128.load	.Lstatic.3:p2align=0
	i8x16.swizzle
	local.get	4
	local.get	3
	i32.add 
	v128.load	0:p2align=0
	v128.xor
	local.tee	5
	v128.store64_lane	0:p2align=0, 0
	local.get	2
	local.get	5
	v128.store64_lane	0:p2align=0, 1
                                        # fallthrough-return
	end_function
                                        # -- End function
	.section	.text.aes_cipher__zeroize__stack__wipe_stack____512_,"",@
	.type	aes_cipher__zeroize__stack__wipe_stack____512_,@function # -- Begin function aes_cipher__zeroize__stack__wipe_stack____512_
aes_cipher__zeroize__stack__wipe_stack____512_: # @aes_cipher__zeroize__stack__wipe_stack____512_
	.functype	aes_cipher__zeroize__stack__wipe_stack____512_ () -> ()
	.local  	i32, i64
# %bb.0:                                # %start
	global.get	__stack_pointer
	i32.const	528
	i32.sub 
	local.tee	0
	global.set	__stack_pointer
	local.get	0
	i32.const	16
	i32.add 
	i32.const	0
	i32.const	512
	memory.fill	0
	local.get	0
	i64.const	0
	i64.store	8
	#APP
	#NO_APP
	local.get	0
	i64.load	8
	local.set	1
	#APP
	#NO_APP
	block   	
	local.get	1
	i64.const	512
	i64.ge_u
	br_if   	0                               # 0: down to label133
# %bb.1:                                # %then.1
	local.get	0
	i32.const	16
	i32.add 
	local.get	1
	i32.wrap_i64
	i32.add 
	i64.load8_u	0
	local.set	1
	#APP
	#NO_APP
	local.get	0
	i64.load	8
	drop
	local.get	0
	local.get	1
	i64.store	8
	#APP
	#NO_APP
.LBB31_2:                               # %common.ret
	end_block                               # label133:
	local.get	0
	i32.const	528
	i32.add 
	global.set	__stack_pointer
                                        # fallthrough-return
	end_function
                                        # -- End function
	.section	.text.key_wrap__padded__wrap_padded____ef80964e0b8d42c0_,"",@
	.type	key_wrap__padded__wrap_padded____ef80964e0b8d42c0_,@function # -- Begin function key_wrap__padded__wrap_padded____ef80964e0b8d42c0_
key_wrap__padded__wrap_padded____ef80964e0b8d42c0_: # @key_wrap__padded__wrap_padded____ef80964e0b8d42c0_
	.functype	key_wrap__padded__wrap_padded____ef80964e0b8d42c0_ (i32, i32, i64, i32, i64) -> (i32)
	.local  	i32, i32, i64, i32, i64, i64, i64, i64, i32, i32
# %bb.0:                                # %start
	global.get	__stack_pointer
	i32.const	16
	i32.sub 
	local.tee	5
	global.set	__stack_pointer
	i32.const	1
	local.set	6
	block   	
	local.get	2
	i64.eqz
	br_if   	0                               # 0: down to label134
# %bb.1:                                # %start
	local.get	4
	local.get	2
	i64.const	7
	i64.add 
	i64.const	3
	i64.shr_u
	i64.const	1
	i64.add 
	i64.ne  
	br_if   	0                               # 0: down to label134
# %bb.2:                                # %arm.5
	local.get	3
	local.get	2
	i64.const	56
	i64.shl 
	local.get	2
	i64.const	65280
	i64.and 
	i64.const	40
	i64.shl 
	i64.or  
	local.get	2
	i64.const	-6460033620986822656
	i64.or  
	local.tee	7
	i64.const	16711680
	i64.and 
	i64.const	24
	i64.shl 
	local.get	7
	i64.const	4278190080
	i64.and 
	i64.const	8
	i64.shl 
	i64.or  
	i64.or  
	local.get	7
	i64.const	8
	i64.shr_u
	i64.const	4278190080
	i64.and 
	local.get	7
	i64.const	24
	i64.shr_u
	i64.const	16711680
	i64.and 
	i64.or  
	local.get	7
	i64.const	40
	i64.shr_u
	i64.const	65280
	i64.and 
	local.get	7
	i64.const	56
	i64.shr_u
	i64.or  
	i64.or  
	i64.or  
	i64.store	0:p2align=0
	local.get	3
	i32.const	8
	i32.add 
	local.set	8
	block   	
	block   	
	local.get	4
	i64.const	-1
	i64.add 
	local.tee	9
	i64.eqz
	br_if   	0                               # 0: down to label136
# %bb.3:                                # %join.5.i.preheader
	i64.const	0
	local.set	10
	block   	
	block   	
	local.get	4
	i64.const	2
	i64.eq  
	br_if   	0                               # 0: down to label138
# %bb.4:                                # %join.5.i.preheader.new
	local.get	9
	i64.const	1
	i64.and 
	local.set	11
	local.get	3
	i32.const	16
	i32.add 
	local.set	6
	local.get	9
	i64.const	-2
	i64.and 
	local.set	12
	local.get	2
	local.set	7
	local.get	1
	local.set	13
	i64.const	0
	local.set	10
.LBB32_5:                               # %join.5.i
                                        # =>This Inner Loop Header: Depth=1
	loop    	                                # label139:
	local.get	5
	i64.const	0
	i64.store	8
	block   	
	local.get	7
	i64.const	8
	local.get	7
	i64.const	8
	i64.lt_u
	i64.select
	i32.wrap_i64
	local.tee	14
	i32.eqz
	br_if   	0                               # 0: down to label140
# %bb.6:                                # %join.5.i
                                        #   in Loop: Header=BB32_5 Depth=1
	local.get	5
	i32.const	8
	i32.add 
	local.get	13
	local.get	14
	memory.copy	0, 0
.LBB32_7:                               # %join.5.i
                                        #   in Loop: Header=BB32_5 Depth=1
	end_block                               # label140:
	local.get	6
	i32.const	-8
	i32.add 
	local.get	5
	i64.load	8
	i64.store	0:p2align=0
	local.get	5
	i64.const	0
	i64.store	8
	block   	
	local.get	7
	i64.const	-8
	i64.add 
	local.tee	4
	i64.const	8
	local.get	4
	i64.const	8
	i64.lt_u
	i64.select
	i32.wrap_i64
	local.tee	14
	i32.eqz
	br_if   	0                               # 0: down to label141
# %bb.8:                                # %join.5.i
                                        #   in Loop: Header=BB32_5 Depth=1
	local.get	5
	i32.const	8
	i32.add 
	local.get	13
	i32.const	8
	i32.add 
	local.get	14
	memory.copy	0, 0
.LBB32_9:                               # %join.5.i
                                        #   in Loop: Header=BB32_5 Depth=1
	end_block                               # label141:
	local.get	6
	local.get	5
	i64.load	8
	i64.store	0:p2align=0
	local.get	7
	i64.const	-16
	i64.add 
	local.set	7
	local.get	13
	i32.const	16
	i32.add 
	local.set	13
	local.get	6
	i32.const	16
	i32.add 
	local.set	6
	local.get	12
	local.get	10
	i64.const	2
	i64.add 
	local.tee	10
	i64.ne  
	br_if   	0                               # 0: up to label139
# %bb.10:                               # %key_wrap__padded__fill.exit.unr-lcssa
	end_loop
	local.get	11
	i64.eqz
	br_if   	1                               # 1: down to label137
.LBB32_11:                              # %join.5.i.epil.preheader
	end_block                               # label138:
	local.get	5
	i64.const	0
	i64.store	8
	local.get	10
	i64.const	3
	i64.shl 
	local.tee	7
	i32.wrap_i64
	local.set	6
	block   	
	local.get	2
	local.get	7
	i64.sub 
	local.tee	7
	i64.const	8
	local.get	7
	i64.const	8
	i64.lt_u
	i64.select
	i32.wrap_i64
	local.tee	13
	i32.eqz
	br_if   	0                               # 0: down to label142
# %bb.12:                               # %join.5.i.epil.preheader
	local.get	5
	i32.const	8
	i32.add 
	local.get	1
	local.get	6
	i32.add 
	local.get	13
	memory.copy	0, 0
.LBB32_13:                              # %join.5.i.epil.preheader
	end_block                               # label142:
	local.get	8
	local.get	6
	i32.add 
	local.get	5
	i64.load	8
	i64.store	0:p2align=0
.LBB32_14:                              # %key_wrap__padded__fill.exit
	end_block                               # label137:
	local.get	9
	i64.const	1
	i64.ne  
	br_if   	0                               # 0: down to label136
# %bb.15:                               # %then.1.i
	local.get	0
	local.get	3
	local.get	8
	call	key_wrap__steps__encrypt_halves____ef80964e0b8d42c0_
	br      	1                               # 1: down to label135
.LBB32_16:                              # %else.2.i
	end_block                               # label136:
	local.get	0
	local.get	3
	local.get	8
	local.get	9
	call	key_wrap__steps__wrap_in_place____ef80964e0b8d42c0_
.LBB32_17:                              # %return.4
	end_block                               # label135:
	i32.const	0
	local.set	6
.LBB32_18:                              # %return.4
	end_block                               # label134:
	local.get	5
	i32.const	16
	i32.add 
	global.set	__stack_pointer
	local.get	6
                                        # fallthrough-return
	end_function
                                        # -- End function
	.section	.text.aes_hybrid__closures__lend_planes____f679257bbe3eb97f_,"",@
	.type	aes_hybrid__closures__lend_planes____f679257bbe3eb97f_,@function # -- Begin function aes_hybrid__closures__lend_planes____f679257bbe3eb97f_
aes_hybrid__closures__lend_planes____f679257bbe3eb97f_: # @aes_hybrid__closures__lend_planes____f679257bbe3eb97f_
	.functype	aes_hybrid__closures__lend_planes____f679257bbe3eb97f_ (i32, i64, i32, i64, i32) -> ()
	.local  	i32
# %bb.0:                                # %start
	global.get	__stack_pointer
	i32.const	1952
	i32.sub 
	local.tee	5
	global.set	__stack_pointer
	local.get	5
	i32.const	160
	i32.add 
	i32.const	0
	i32.const	1792
	memory.fill	0
	local.get	5
	i32.const	32
	i32.add 
	local.get	0
	local.get	1
	call	aes_hybrid__plane_keys__store_planes____e29e0540aa8bc136_
	local.get	5
	local.get	3
	i64.store	24
	local.get	5
	i32.const	0
	i32.store	20
	local.get	5
	local.get	2
	i32.store	16
	local.get	5
	local.get	1
	i64.store	8
	local.get	5
	i32.const	0
	i32.store	4
	local.get	5
	local.get	0
	i32.store	0
	local.get	5
	local.get	5
	i32.const	32
	i32.add 
	local.get	1
	i64.const	3
	i64.shl 
	local.get	4
	call	aes_hybrid__closures__call_to_work____f679257bbe3eb97f_
	local.get	5
	i32.const	32
	i32.add 
	call	aes_cipher__zeroize__zeroize_words____e29e0540aa8bc136_
	call	aes_cipher__zeroize__stack__wipe_stack____2032_
	local.get	5
	i32.const	1952
	i32.add 
	global.set	__stack_pointer
                                        # fallthrough-return
	end_function
                                        # -- End function
	.section	.text.aes_hybrid__closures__call_to_work____f679257bbe3eb97f_,"",@
	.type	aes_hybrid__closures__call_to_work____f679257bbe3eb97f_,@function # -- Begin function aes_hybrid__closures__call_to_work____f679257bbe3eb97f_
aes_hybrid__closures__call_to_work____f679257bbe3eb97f_: # @aes_hybrid__closures__call_to_work____f679257bbe3eb97f_
	.functype	aes_hybrid__closures__call_to_work____f679257bbe3eb97f_ (i32, i32, i64, i32) -> ()
	.local  	i32, i64, i32, i64, i64, i64, i32, i32, i64, i64, i32, i64, i32, v128, v128, v128, i32, v128, v128, v128, i32, v128, v128, i32, v128, v128, v128, v128, v128, v128, v128, i32, v128, v128, v128, i32, v128, v128, i32, v128, v128, v128, v128
# %bb.0:                                # %start
	global.get	__stack_pointer
	i32.const	1152
	i32.sub 
	local.tee	4
	global.set	__stack_pointer
	block   	
	local.get	3
	i32.const	24
	i32.add 
	i64.load	0
	local.tee	5
	i64.eqz
	br_if   	0                               # 0: down to label143
# %bb.1:                                # %join.5.lr.ph.i.i
	local.get	3
	i32.const	16
	i32.add 
	i32.load	0
	local.set	6
	local.get	2
	i64.const	3
	i64.shr_u
	i64.const	-1
	i64.add 
	local.set	7
	i64.const	0
	local.set	8
	local.get	4
	i64.extend_i32_u
	local.set	9
.LBB34_2:                               # %join.5.i.i
                                        # =>This Loop Header: Depth=1
                                        #     Child Loop BB34_9 Depth 2
                                        #     Child Loop BB34_13 Depth 2
                                        #     Child Loop BB34_16 Depth 2
	loop    	                                # label144:
	local.get	4
	i32.const	0
	i32.const	1024
	memory.fill	0
	block   	
	block   	
	local.get	9
	local.get	6
	local.get	8
	i32.wrap_i64
	i32.const	4
	i32.shl 
	local.tee	10
	i32.add 
	local.tee	11
	i64.extend_i32_u
	i64.sub 
	local.get	5
	local.get	8
	i64.sub 
	local.tee	12
	i64.const	64
	local.get	12
	i64.const	64
	i64.lt_u
	i64.select
	local.tee	13
	i64.const	4
	i64.shl 
	local.tee	2
	i64.ge_u
	br_if   	0                               # 0: down to label146
# %bb.3:                                # %join.7.i.i.i.i.i.i.i.preheader.i.i
                                        #   in Loop: Header=BB34_2 Depth=1
	local.get	13
	i32.wrap_i64
	i32.const	4
	i32.shl 
	local.tee	14
	i32.eqz
	br_if   	1                               # 1: down to label145
# %bb.4:                                # %join.7.i.i.i.i.i.i.i.preheader.i.i
                                        #   in Loop: Header=BB34_2 Depth=1
	local.get	4
	local.get	11
	local.get	14
	memory.copy	0, 0
	br      	1                               # 1: down to label145
.LBB34_5:                               # %apart.2.i.i.i.i.i.i.i.i.i
                                        #   in Loop: Header=BB34_2 Depth=1
	end_block                               # label146:
	local.get	2
	i32.wrap_i64
	local.tee	14
	i32.eqz
	br_if   	0                               # 0: down to label145
# %bb.6:                                # %apart.2.i.i.i.i.i.i.i.i.i
                                        #   in Loop: Header=BB34_2 Depth=1
	local.get	4
	local.get	11
	local.get	14
	memory.copy	0, 0
.LBB34_7:                               # %core__slice__edits__slice_T__copy_from_slice____8d9c6ea053e2f245_.exit.i.i.i
                                        #   in Loop: Header=BB34_2 Depth=1
	end_block                               # label145:
	i64.const	0
	local.set	15
	block   	
	local.get	12
	i64.const	8
	i64.lt_u
	br_if   	0                               # 0: down to label147
# %bb.8:                                # %join.5.i.i.i.i.preheader
                                        #   in Loop: Header=BB34_2 Depth=1
	i64.const	0
	local.set	2
	local.get	11
	local.set	14
.LBB34_9:                               # %join.5.i.i.i.i
                                        #   Parent Loop BB34_2 Depth=1
                                        # =>  This Inner Loop Header: Depth=2
	loop    	                                # label148:
	local.get	4
	local.get	14
	i32.const	64
	i32.add 
	local.tee	16
	v128.load	0:p2align=0
	local.get	17
	i8x16.shuffle	0, 4, 8, 12, 1, 5, 9, 13, 2, 6, 10, 14, 3, 7, 11, 15
	local.tee	18
	i32.const	1
	i8x16.shr_u
	local.tee	19
	local.get	14
	i32.const	80
	i32.add 
	local.tee	20
	v128.load	0:p2align=0
	local.get	17
	i8x16.shuffle	0, 4, 8, 12, 1, 5, 9, 13, 2, 6, 10, 14, 3, 7, 11, 15
	local.tee	21
	v128.const	85, 85, 85, 85, 85, 85, 85, 85, 85, 85, 85, 85, 85, 85, 85, 85
	local.tee	17
	v128.bitselect
	local.tee	22
	i32.const	2
	i8x16.shr_u
	local.tee	23
	local.get	14
	i32.const	96
	i32.add 
	local.tee	24
	v128.load	0:p2align=0
	local.get	17
	i8x16.shuffle	0, 4, 8, 12, 1, 5, 9, 13, 2, 6, 10, 14, 3, 7, 11, 15
	local.tee	25
	i32.const	1
	i8x16.shr_u
	local.tee	26
	local.get	14
	i32.const	112
	i32.add 
	local.tee	27
	v128.load	0:p2align=0
	local.get	17
	i8x16.shuffle	0, 4, 8, 12, 1, 5, 9, 13, 2, 6, 10, 14, 3, 7, 11, 15
	local.tee	28
	local.get	17
	v128.bitselect
	local.tee	29
	v128.const	51, 51, 51, 51, 51, 51, 51, 51, 51, 51, 51, 51, 51, 51, 51, 51
	local.tee	30
	v128.bitselect
	local.tee	31
	v128.const	15, 15, 15, 15, 15, 15, 15, 15, 15, 15, 15, 15, 15, 15, 15, 15
	local.tee	32
	v128.and
	local.get	14
	v128.load	0:p2align=0
	local.get	17
	i8x16.shuffle	0, 4, 8, 12, 1, 5, 9, 13, 2, 6, 10, 14, 3, 7, 11, 15
	local.tee	33
	i32.const	1
	i8x16.shr_u
	local.tee	34
	local.get	14
	i32.const	16
	i32.add 
	local.tee	35
	v128.load	0:p2align=0
	local.get	17
	i8x16.shuffle	0, 4, 8, 12, 1, 5, 9, 13, 2, 6, 10, 14, 3, 7, 11, 15
	local.tee	36
	local.get	17
	v128.bitselect
	local.tee	37
	i32.const	2
	i8x16.shr_u
	local.tee	38
	local.get	14
	i32.const	32
	i32.add 
	local.tee	39
	v128.load	0:p2align=0
	local.get	17
	i8x16.shuffle	0, 4, 8, 12, 1, 5, 9, 13, 2, 6, 10, 14, 3, 7, 11, 15
	local.tee	40
	i32.const	1
	i8x16.shr_u
	local.tee	41
	local.get	14
	i32.const	48
	i32.add 
	local.tee	42
	v128.load	0:p2align=0
	local.get	17
	i8x16.shuffle	0, 4, 8, 12, 1, 5, 9, 13, 2, 6, 10, 14, 3, 7, 11, 15
	local.tee	43
	local.get	17
	v128.bitselect
	local.tee	44
	local.get	30
	v128.bitselect
	local.tee	45
	i32.const	4
	i8x16.shr_u
	v128.xor
	local.tee	46
	local.get	31
	v128.xor
	v128.store	1136
	local.get	4
	local.get	46
	i32.const	4
	i8x16.shl
	local.get	45
	v128.xor
	v128.store	1072
	local.get	4
	local.get	21
	local.get	19
	v128.xor
	local.get	17
	v128.and
	i32.const	1
	i8x16.shl
	local.get	18
	v128.xor
	local.tee	18
	i32.const	2
	i8x16.shr_u
	local.tee	19
	local.get	28
	local.get	26
	v128.xor
	local.get	17
	v128.and
	i32.const	1
	i8x16.shl
	local.get	25
	v128.xor
	local.tee	21
	local.get	30
	v128.bitselect
	local.tee	25
	local.get	32
	v128.and
	local.get	36
	local.get	34
	v128.xor
	local.get	17
	v128.and
	i32.const	1
	i8x16.shl
	local.get	33
	v128.xor
	local.tee	26
	i32.const	2
	i8x16.shr_u
	local.tee	28
	local.get	43
	local.get	41
	v128.xor
	local.get	17
	v128.and
	i32.const	1
	i8x16.shl
	local.get	40
	v128.xor
	local.tee	31
	local.get	30
	v128.bitselect
	local.tee	33
	i32.const	4
	i8x16.shr_u
	v128.xor
	local.tee	34
	local.get	25
	v128.xor
	v128.store	1120
	local.get	4
	local.get	29
	local.get	23
	v128.xor
	local.get	30
	v128.and
	i32.const	2
	i8x16.shl
	local.get	22
	v128.xor
	local.tee	22
	local.get	32
	v128.and
	local.get	44
	local.get	38
	v128.xor
	local.get	30
	v128.and
	i32.const	2
	i8x16.shl
	local.get	37
	v128.xor
	local.tee	23
	i32.const	4
	i8x16.shr_u
	v128.xor
	local.tee	25
	local.get	22
	v128.xor
	v128.store	1104
	local.get	4
	local.get	34
	i32.const	4
	i8x16.shl
	local.get	33
	v128.xor
	v128.store	1056
	local.get	4
	local.get	25
	i32.const	4
	i8x16.shl
	local.get	23
	v128.xor
	v128.store	1040
	local.get	4
	local.get	21
	local.get	19
	v128.xor
	local.get	30
	v128.and
	i32.const	2
	i8x16.shl
	local.get	18
	v128.xor
	local.tee	18
	local.get	32
	v128.and
	local.get	31
	local.get	28
	v128.xor
	local.get	30
	v128.and
	i32.const	2
	i8x16.shl
	local.get	26
	v128.xor
	local.tee	19
	i32.const	4
	i8x16.shr_u
	v128.xor
	local.tee	21
	local.get	18
	v128.xor
	v128.store	1088
	local.get	4
	local.get	21
	i32.const	4
	i8x16.shl
	local.get	19
	v128.xor
	v128.store	1024
	local.get	1
	local.get	7
	local.get	4
	i32.const	1024
	i32.add 
	call	aes_soft__soft__ciphers__planes__DecryptPlaneCipher__process_planes____f2467153fb0a218d_
	local.get	27
	local.get	4
	v128.load	1088
	local.tee	18
	i32.const	1
	i8x16.shr_u
	local.tee	19
	local.get	4
	v128.load	1104
	local.tee	21
	local.get	17
	v128.bitselect
	local.tee	22
	i32.const	2
	i8x16.shr_u
	local.tee	23
	local.get	4
	v128.load	1120
	local.tee	25
	i32.const	1
	i8x16.shr_u
	local.tee	26
	local.get	4
	v128.load	1136
	local.tee	28
	local.get	17
	v128.bitselect
	local.tee	29
	local.get	30
	v128.bitselect
	local.tee	31
	local.get	32
	v128.and
	local.get	4
	v128.load	1024
	local.tee	33
	i32.const	1
	i8x16.shr_u
	local.tee	34
	local.get	4
	v128.load	1040
	local.tee	36
	local.get	17
	v128.bitselect
	local.tee	37
	i32.const	2
	i8x16.shr_u
	local.tee	38
	local.get	4
	v128.load	1056
	local.tee	40
	i32.const	1
	i8x16.shr_u
	local.tee	41
	local.get	4
	v128.load	1072
	local.tee	43
	local.get	17
	v128.bitselect
	local.tee	44
	local.get	30
	v128.bitselect
	local.tee	45
	i32.const	4
	i8x16.shr_u
	v128.xor
	local.tee	46
	local.get	31
	v128.xor
	local.get	17
	i8x16.shuffle	0, 4, 8, 12, 1, 5, 9, 13, 2, 6, 10, 14, 3, 7, 11, 15
	v128.store	0:p2align=0
	local.get	42
	local.get	46
	i32.const	4
	i8x16.shl
	local.get	45
	v128.xor
	local.get	17
	i8x16.shuffle	0, 4, 8, 12, 1, 5, 9, 13, 2, 6, 10, 14, 3, 7, 11, 15
	v128.store	0:p2align=0
	local.get	24
	local.get	18
	local.get	21
	local.get	19
	v128.xor
	local.get	17
	v128.and
	i32.const	1
	i8x16.shl
	v128.xor
	local.tee	18
	i32.const	2
	i8x16.shr_u
	local.tee	19
	local.get	25
	local.get	28
	local.get	26
	v128.xor
	local.get	17
	v128.and
	i32.const	1
	i8x16.shl
	v128.xor
	local.tee	21
	local.get	30
	v128.bitselect
	local.tee	25
	local.get	32
	v128.and
	local.get	33
	local.get	36
	local.get	34
	v128.xor
	local.get	17
	v128.and
	i32.const	1
	i8x16.shl
	v128.xor
	local.tee	26
	i32.const	2
	i8x16.shr_u
	local.tee	28
	local.get	40
	local.get	43
	local.get	41
	v128.xor
	local.get	17
	v128.and
	i32.const	1
	i8x16.shl
	v128.xor
	local.tee	17
	local.get	30
	v128.bitselect
	local.tee	31
	i32.const	4
	i8x16.shr_u
	v128.xor
	local.tee	33
	local.get	25
	v128.xor
	local.get	17
	i8x16.shuffle	0, 4, 8, 12, 1, 5, 9, 13, 2, 6, 10, 14, 3, 7, 11, 15
	v128.store	0:p2align=0
	local.get	20
	local.get	29
	local.get	23
	v128.xor
	local.get	30
	v128.and
	i32.const	2
	i8x16.shl
	local.get	22
	v128.xor
	local.tee	22
	local.get	32
	v128.and
	local.get	44
	local.get	38
	v128.xor
	local.get	30
	v128.and
	i32.const	2
	i8x16.shl
	local.get	37
	v128.xor
	local.tee	23
	i32.const	4
	i8x16.shr_u
	v128.xor
	local.tee	25
	local.get	22
	v128.xor
	local.get	17
	i8x16.shuffle	0, 4, 8, 12, 1, 5, 9, 13, 2, 6, 10, 14, 3, 7, 11, 15
	v128.store	0:p2align=0
	local.get	39
	local.get	33
	i32.const	4
	i8x16.shl
	local.get	31
	v128.xor
	local.get	17
	i8x16.shuffle	0, 4, 8, 12, 1, 5, 9, 13, 2, 6, 10, 14, 3, 7, 11, 15
	v128.store	0:p2align=0
	local.get	35
	local.get	25
	i32.const	4
	i8x16.shl
	local.get	23
	v128.xor
	local.get	17
	i8x16.shuffle	0, 4, 8, 12, 1, 5, 9, 13, 2, 6, 10, 14, 3, 7, 11, 15
	v128.store	0:p2align=0
	local.get	16
	local.get	21
	local.get	19
	v128.xor
	local.get	30
	v128.and
	i32.const	2
	i8x16.shl
	local.get	18
	v128.xor
	local.tee	18
	local.get	32
	v128.and
	local.get	17
	local.get	28
	v128.xor
	local.get	30
	v128.and
	i32.const	2
	i8x16.shl
	local.get	26
	v128.xor
	local.tee	17
	i32.const	4
	i8x16.shr_u
	v128.xor
	local.tee	30
	local.get	18
	v128.xor
	local.get	17
	i8x16.shuffle	0, 4, 8, 12, 1, 5, 9, 13, 2, 6, 10, 14, 3, 7, 11, 15
	v128.store	0:p2align=0
	local.get	14
	local.get	30
	i32.const	4
	i8x16.shl
	local.get	17
	v128.xor
	local.get	17
	i8x16.shuffle	0, 4, 8, 12, 1, 5, 9, 13, 2, 6, 10, 14, 3, 7, 11, 15
	v128.store	0:p2align=0
	local.get	14
	i32.const	128
	i32.add 
	local.set	14
	local.get	13
	local.get	2
	i64.const	-8
	i64.add 
	local.tee	2
	i64.add 
	i64.const	7
	i64.gt_u
	br_if   	0                               # 0: up to label148
# %bb.10:                               # %loop.7.preheader.i.i.i.i.loopexit
                                        #   in Loop: Header=BB34_2 Depth=1
	end_loop
	i64.const	0
	local.get	2
	i64.sub 
	local.set	15
.LBB34_11:                              # %loop.7.preheader.i.i.i.i
                                        #   in Loop: Header=BB34_2 Depth=1
	end_block                               # label147:
	block   	
	local.get	13
	local.get	15
	i64.le_u
	br_if   	0                               # 0: down to label149
# %bb.12:                               # %join.10.i.i.i.i.preheader
                                        #   in Loop: Header=BB34_2 Depth=1
	local.get	13
	local.get	15
	i64.sub 
	local.set	2
	local.get	6
	local.get	10
	local.get	15
	i32.wrap_i64
	i32.const	4
	i32.shl 
	i32.add 
	i32.add 
	local.set	14
.LBB34_13:                              # %join.10.i.i.i.i
                                        #   Parent Loop BB34_2 Depth=1
                                        # =>  This Inner Loop Header: Depth=2
	loop    	                                # label150:
	local.get	0
	i32.const	16
	i32.add 
	i32.load	0:p2align=0
	local.get	0
	i32.const	24
	i32.add 
	i64.load	0:p2align=0
	local.get	14
	i64.const	1
	call	aes_permute__blocks__process_on_lanes____e7683a4e90f73162_
	local.get	14
	i32.const	16
	i32.add 
	local.set	14
	local.get	2
	i64.const	-1
	i64.add 
	local.tee	2
	i64.const	0
	i64.ne  
	br_if   	0                               # 0: up to label150
.LBB34_14:                              # %join.7.lr.ph.i.i.i
                                        #   in Loop: Header=BB34_2 Depth=1
	end_loop
	end_block                               # label149:
	local.get	13
	local.get	8
	i64.add 
	local.set	8
	local.get	3
	v128.load	0:p2align=0
	local.set	17
	i64.const	0
	local.set	2
	block   	
	block   	
	local.get	12
	i64.const	1
	i64.eq  
	br_if   	0                               # 0: down to label152
# %bb.15:                               # %join.7.lr.ph.i.i.i.new
                                        #   in Loop: Header=BB34_2 Depth=1
	local.get	13
	i64.const	1
	i64.and 
	local.set	12
	local.get	13
	i64.const	126
	i64.and 
	local.set	13
	i64.const	0
	local.set	2
	local.get	4
	local.set	16
	local.get	11
	local.set	14
.LBB34_16:                              # %join.7.i.i.i
                                        #   Parent Loop BB34_2 Depth=1
                                        # =>  This Inner Loop Header: Depth=2
	loop    	                                # label153:
	local.get	14
	local.get	14
	v128.load	0:p2align=0
	local.get	17
	v128.xor
	v128.store	0:p2align=0
	local.get	3
	local.get	16
	v128.load	0:p2align=0
	local.tee	17
	v128.store	0:p2align=0
	local.get	14
	i32.const	16
	i32.add 
	local.tee	20
	local.get	17
	local.get	20
	v128.load	0:p2align=0
	v128.xor
	v128.store	0:p2align=0
	local.get	3
	local.get	16
	i32.const	16
	i32.add 
	v128.load	0:p2align=0
	local.tee	17
	v128.store	0:p2align=0
	local.get	16
	i32.const	32
	i32.add 
	local.set	16
	local.get	14
	i32.const	32
	i32.add 
	local.set	14
	local.get	13
	local.get	2
	i64.const	2
	i64.add 
	local.tee	2
	i64.ne  
	br_if   	0                               # 0: up to label153
# %bb.17:                               # %cbc__decryption__unchain_part____e6bd2e7595c2ce9d_.exit.loopexit.i.i.unr-lcssa
                                        #   in Loop: Header=BB34_2 Depth=1
	end_loop
	local.get	12
	i64.eqz
	br_if   	1                               # 1: down to label151
.LBB34_18:                              # %join.7.i.i.i.epil.preheader
                                        #   in Loop: Header=BB34_2 Depth=1
	end_block                               # label152:
	local.get	11
	local.get	2
	i32.wrap_i64
	i32.const	4
	i32.shl 
	local.tee	14
	i32.add 
	local.tee	16
	local.get	16
	v128.load	0:p2align=0
	local.get	17
	v128.xor
	v128.store	0:p2align=0
	local.get	3
	local.get	4
	local.get	14
	i32.add 
	v128.load	0:p2align=0
	v128.store	0:p2align=0
.LBB34_19:                              # %cbc__decryption__unchain_part____e6bd2e7595c2ce9d_.exit.loopexit.i.i
                                        #   in Loop: Header=BB34_2 Depth=1
	end_block                               # label151:
	local.get	8
	local.get	5
	i64.lt_u
	br_if   	0                               # 0: up to label144
.LBB34_20:                              # %cbc__decryption__ChainBlockCipherDecClosure__call____e6bd2e7595c2ce9d_.exit
	end_loop
	end_block                               # label143:
	local.get	4
	i32.const	1152
	i32.add 
	global.set	__stack_pointer
                                        # fallthrough-return
	end_function
                                        # -- End function
	.section	.text.aes_soft__soft__ciphers__planes__process_outlined____0cf5cff84c52603c_,"",@
	.type	aes_soft__soft__ciphers__planes__process_outlined____0cf5cff84c52603c_,@function # -- Begin function aes_soft__soft__ciphers__planes__process_outlined____0cf5cff84c52603c_
aes_soft__soft__ciphers__planes__process_outlined____0cf5cff84c52603c_: # @aes_soft__soft__ciphers__planes__process_outlined____0cf5cff84c52603c_
	.functype	aes_soft__soft__ciphers__planes__process_outlined____0cf5cff84c52603c_ (i32, i32, i64, i32) -> ()
	.local  	i32, v128, v128, v128, v128, v128, v128, v128, v128, v128, v128, v128, v128, v128, v128, v128, v128, v128, v128, v128, v128, v128, v128, v128, v128
# %bb.0:                                # %start
	global.get	__stack_pointer
	i32.const	128
	i32.sub 
	local.tee	4
	global.set	__stack_pointer
	local.get	4
	local.get	3
	v128.load	64:p2align=0
	local.get	5
	i8x16.shuffle	0, 4, 8, 12, 1, 5, 9, 13, 2, 6, 10, 14, 3, 7, 11, 15
	local.tee	6
	i32.const	1
	i8x16.shr_u
	local.tee	7
	local.get	3
	v128.load	80:p2align=0
	local.get	5
	i8x16.shuffle	0, 4, 8, 12, 1, 5, 9, 13, 2, 6, 10, 14, 3, 7, 11, 15
	local.tee	8
	v128.const	85, 85, 85, 85, 85, 85, 85, 85, 85, 85, 85, 85, 85, 85, 85, 85
	local.tee	5
	v128.bitselect
	local.tee	9
	i32.const	2
	i8x16.shr_u
	local.tee	10
	local.get	3
	v128.load	96:p2align=0
	local.get	5
	i8x16.shuffle	0, 4, 8, 12, 1, 5, 9, 13, 2, 6, 10, 14, 3, 7, 11, 15
	local.tee	11
	i32.const	1
	i8x16.shr_u
	local.tee	12
	local.get	3
	v128.load	112:p2align=0
	local.get	5
	i8x16.shuffle	0, 4, 8, 12, 1, 5, 9, 13, 2, 6, 10, 14, 3, 7, 11, 15
	local.tee	13
	local.get	5
	v128.bitselect
	local.tee	14
	v128.const	51, 51, 51, 51, 51, 51, 51, 51, 51, 51, 51, 51, 51, 51, 51, 51
	local.tee	15
	v128.bitselect
	local.tee	16
	v128.const	15, 15, 15, 15, 15, 15, 15, 15, 15, 15, 15, 15, 15, 15, 15, 15
	local.tee	17
	v128.and
	local.get	3
	v128.load	0:p2align=0
	local.get	5
	i8x16.shuffle	0, 4, 8, 12, 1, 5, 9, 13, 2, 6, 10, 14, 3, 7, 11, 15
	local.tee	18
	i32.const	1
	i8x16.shr_u
	local.tee	19
	local.get	3
	v128.load	16:p2align=0
	local.get	5
	i8x16.shuffle	0, 4, 8, 12, 1, 5, 9, 13, 2, 6, 10, 14, 3, 7, 11, 15
	local.tee	20
	local.get	5
	v128.bitselect
	local.tee	21
	i32.const	2
	i8x16.shr_u
	local.tee	22
	local.get	3
	v128.load	32:p2align=0
	local.get	5
	i8x16.shuffle	0, 4, 8, 12, 1, 5, 9, 13, 2, 6, 10, 14, 3, 7, 11, 15
	local.tee	23
	i32.const	1
	i8x16.shr_u
	local.tee	24
	local.get	3
	v128.load	48:p2align=0
	local.get	5
	i8x16.shuffle	0, 4, 8, 12, 1, 5, 9, 13, 2, 6, 10, 14, 3, 7, 11, 15
	local.tee	25
	local.get	5
	v128.bitselect
	local.tee	26
	local.get	15
	v128.bitselect
	local.tee	27
	i32.const	4
	i8x16.shr_u
	v128.xor
	local.tee	28
	local.get	16
	v128.xor
	v128.store	112
	local.get	4
	local.get	28
	i32.const	4
	i8x16.shl
	local.get	27
	v128.xor
	v128.store	48
	local.get	4
	local.get	8
	local.get	7
	v128.xor
	local.get	5
	v128.and
	i32.const	1
	i8x16.shl
	local.get	6
	v128.xor
	local.tee	6
	i32.const	2
	i8x16.shr_u
	local.tee	7
	local.get	13
	local.get	12
	v128.xor
	local.get	5
	v128.and
	i32.const	1
	i8x16.shl
	local.get	11
	v128.xor
	local.tee	8
	local.get	15
	v128.bitselect
	local.tee	11
	local.get	17
	v128.and
	local.get	20
	local.get	19
	v128.xor
	local.get	5
	v128.and
	i32.const	1
	i8x16.shl
	local.get	18
	v128.xor
	local.tee	12
	i32.const	2
	i8x16.shr_u
	local.tee	13
	local.get	25
	local.get	24
	v128.xor
	local.get	5
	v128.and
	i32.const	1
	i8x16.shl
	local.get	23
	v128.xor
	local.tee	16
	local.get	15
	v128.bitselect
	local.tee	18
	i32.const	4
	i8x16.shr_u
	v128.xor
	local.tee	19
	local.get	11
	v128.xor
	v128.store	96
	local.get	4
	local.get	14
	local.get	10
	v128.xor
	local.get	15
	v128.and
	i32.const	2
	i8x16.shl
	local.get	9
	v128.xor
	local.tee	9
	local.get	17
	v128.and
	local.get	26
	local.get	22
	v128.xor
	local.get	15
	v128.and
	i32.const	2
	i8x16.shl
	local.get	21
	v128.xor
	local.tee	10
	i32.const	4
	i8x16.shr_u
	v128.xor
	local.tee	11
	local.get	9
	v128.xor
	v128.store	80
	local.get	4
	local.get	19
	i32.const	4
	i8x16.shl
	local.get	18
	v128.xor
	v128.store	32
	local.get	4
	local.get	11
	i32.const	4
	i8x16.shl
	local.get	10
	v128.xor
	v128.store	16
	local.get	4
	local.get	8
	local.get	7
	v128.xor
	local.get	15
	v128.and
	i32.const	2
	i8x16.shl
	local.get	6
	v128.xor
	local.tee	6
	local.get	17
	v128.and
	local.get	16
	local.get	13
	v128.xor
	local.get	15
	v128.and
	i32.const	2
	i8x16.shl
	local.get	12
	v128.xor
	local.tee	7
	i32.const	4
	i8x16.shr_u
	v128.xor
	local.tee	8
	local.get	6
	v128.xor
	v128.store	64
	local.get	4
	local.get	8
	i32.const	4
	i8x16.shl
	local.get	7
	v128.xor
	v128.store	0
	local.get	1
	local.get	2
	local.get	4
	call	aes_soft__soft__ciphers__planes__DecryptPlaneCipher__process_planes____f2467153fb0a218d_
	local.get	0
	local.get	4
	v128.load	64
	local.tee	6
	i32.const	1
	i8x16.shr_u
	local.tee	7
	local.get	4
	v128.load	80
	local.tee	8
	local.get	5
	v128.bitselect
	local.tee	9
	i32.const	2
	i8x16.shr_u
	local.tee	10
	local.get	4
	v128.load	96
	local.tee	11
	i32.const	1
	i8x16.shr_u
	local.tee	12
	local.get	4
	v128.load	112
	local.tee	13
	local.get	5
	v128.bitselect
	local.tee	14
	local.get	15
	v128.bitselect
	local.tee	16
	local.get	17
	v128.and
	local.get	4
	v128.load	0
	local.tee	18
	i32.const	1
	i8x16.shr_u
	local.tee	19
	local.get	4
	v128.load	16
	local.tee	20
	local.get	5
	v128.bitselect
	local.tee	21
	i32.const	2
	i8x16.shr_u
	local.tee	22
	local.get	4
	v128.load	32
	local.tee	23
	i32.const	1
	i8x16.shr_u
	local.tee	24
	local.get	4
	v128.load	48
	local.tee	25
	local.get	5
	v128.bitselect
	local.tee	26
	local.get	15
	v128.bitselect
	local.tee	27
	i32.const	4
	i8x16.shr_u
	v128.xor
	local.tee	28
	local.get	16
	v128.xor
	local.get	5
	i8x16.shuffle	0, 4, 8, 12, 1, 5, 9, 13, 2, 6, 10, 14, 3, 7, 11, 15
	v128.store	112:p2align=0
	local.get	0
	local.get	28
	i32.const	4
	i8x16.shl
	local.get	27
	v128.xor
	local.get	5
	i8x16.shuffle	0, 4, 8, 12, 1, 5, 9, 13, 2, 6, 10, 14, 3, 7, 11, 15
	v128.store	48:p2align=0
	local.get	0
	local.get	6
	local.get	8
	local.get	7
	v128.xor
	local.get	5
	v128.and
	i32.const	1
	i8x16.shl
	v128.xor
	local.tee	6
	i32.const	2
	i8x16.shr_u
	local.tee	7
	local.get	11
	local.get	13
	local.get	12
	v128.xor
	local.get	5
	v128.and
	i32.const	1
	i8x16.shl
	v128.xor
	local.tee	8
	local.get	15
	v128.bitselect
	local.tee	11
	local.get	17
	v128.and
	local.get	18
	local.get	20
	local.get	19
	v128.xor
	local.get	5
	v128.and
	i32.const	1
	i8x16.shl
	v128.xor
	local.tee	12
	i32.const	2
	i8x16.shr_u
	local.tee	13
	local.get	23
	local.get	25
	local.get	24
	v128.xor
	local.get	5
	v128.and
	i32.const	1
	i8x16.shl
	v128.xor
	local.tee	5
	local.get	15
	v128.bitselect
	local.tee	16
	i32.const	4
	i8x16.shr_u
	v128.xor
	local.tee	18
	local.get	11
	v128.xor
	local.get	5
	i8x16.shuffle	0, 4, 8, 12, 1, 5, 9, 13, 2, 6, 10, 14, 3, 7, 11, 15
	v128.store	96:p2align=0
	local.get	0
	local.get	14
	local.get	10
	v128.xor
	local.get	15
	v128.and
	i32.const	2
	i8x16.shl
	local.get	9
	v128.xor
	local.tee	9
	local.get	17
	v128.and
	local.get	26
	local.get	22
	v128.xor
	local.get	15
	v128.and
	i32.const	2
	i8x16.shl
	local.get	21
	v128.xor
	local.tee	10
	i32.const	4
	i8x16.shr_u
	v128.xor
	local.tee	11
	local.get	9
	v128.xor
	local.get	5
	i8x16.shuffle	0, 4, 8, 12, 1, 5, 9, 13, 2, 6, 10, 14, 3, 7, 11, 15
	v128.store	80:p2align=0
	local.get	0
	local.get	18
	i32.const	4
	i8x16.shl
	local.get	16
	v128.xor
	local.get	5
	i8x16.shuffle	0, 4, 8, 12, 1, 5, 9, 13, 2, 6, 10, 14, 3, 7, 11, 15
	v128.store	32:p2align=0
	local.get	0
	local.get	11
	i32.const	4
	i8x16.shl
	local.get	10
	v128.xor
	local.get	5
	i8x16.shuffle	0, 4, 8, 12, 1, 5, 9, 13, 2, 6, 10, 14, 3, 7, 11, 15
	v128.store	16:p2align=0
	local.get	0
	local.get	8
	local.get	7
	v128.xor
	local.get	15
	v128.and
	i32.const	2
	i8x16.shl
	local.get	6
	v128.xor
	local.tee	6
	local.get	17
	v128.and
	local.get	5
	local.get	13
	v128.xor
	local.get	15
	v128.and
	i32.const	2
	i8x16.shl
	local.get	12
	v128.xor
	local.tee	5
	i32.const	4
	i8x16.shr_u
	v128.xor
	local.tee	15
	local.get	6
	v128.xor
	local.get	5
	i8x16.shuffle	0, 4, 8, 12, 1, 5, 9, 13, 2, 6, 10, 14, 3, 7, 11, 15
	v128.store	64:p2align=0
	local.get	0
	local.get	15
	i32.const	4
	i8x16.shl
	local.get	5
	v128.xor
	local.get	5
	i8x16.shuffle	0, 4, 8, 12, 1, 5, 9, 13, 2, 6, 10, 14, 3, 7, 11, 15
	v128.store	0:p2align=0
	local.get	4
	i32.const	128
	i32.add 
	global.set	__stack_pointer
                                        # fallthrough-return
	end_function
                                        # -- End function
	.section	.text.aes_soft__soft__ciphers__planes__DecryptPlaneCipher__process_planes____f2467153fb0a218d_,"",@
	.type	aes_soft__soft__ciphers__planes__DecryptPlaneCipher__process_planes____f2467153fb0a218d_,@function # -- Begin function aes_soft__soft__ciphers__planes__DecryptPlaneCipher__process_planes____f2467153fb0a218d_
aes_soft__soft__ciphers__planes__DecryptPlaneCipher__process_planes____f2467153fb0a218d_: # @aes_soft__soft__ciphers__planes__DecryptPlaneCipher__process_planes____f2467153fb0a218d_
	.functype	aes_soft__soft__ciphers__planes__DecryptPlaneCipher__process_planes____f2467153fb0a218d_ (i32, i64, i32) -> ()
	.local  	i32, i32, i64, i64, i64, v128, v128, v128, v128, v128, v128, v128, v128, v128, v128, v128, v128, v128
# %bb.0:                                # %start
	global.get	__stack_pointer
	i32.const	128
	i32.sub 
	local.tee	3
	global.set	__stack_pointer
	local.get	3
	local.get	2
	i32.const	128
	memory.copy	0, 0
	local.get	3
	local.get	3
	v128.load	112
	local.get	0
	local.get	1
	i32.wrap_i64
	i32.const	7
	i32.shl 
	i32.add 
	local.tee	4
	v128.load	112
	v128.xor
	v128.store	112
	local.get	3
	local.get	3
	v128.load	96
	local.get	4
	v128.load	96
	v128.xor
	v128.store	96
	local.get	3
	local.get	3
	v128.load	80
	local.get	4
	v128.load	80
	v128.xor
	v128.store	80
	local.get	3
	local.get	3
	v128.load	64
	local.get	4
	v128.load	64
	v128.xor
	v128.store	64
	local.get	3
	local.get	3
	v128.load	48
	local.get	4
	v128.load	48
	v128.xor
	v128.store	48
	local.get	3
	local.get	3
	v128.load	32
	local.get	4
	v128.load	32
	v128.xor
	v128.store	32
	local.get	3
	local.get	3
	v128.load	16
	local.get	4
	v128.load	16
	v128.xor
	v128.store	16
	local.get	3
	local.get	3
	v128.load	0
	local.get	4
	v128.load	0
	v128.xor
	v128.store	0
	local.get	1
	i64.const	-2
	i64.add 
	local.tee	5
	i64.const	2
	i64.shr_u
	local.set	6
	local.get	3
	call	aes_planes__soft__sbox__inv_sub_bytes____e29e0540aa8bc136_
	block   	
	block   	
	local.get	5
	i64.const	-4
	i64.and 
	local.tee	7
	i64.const	2
	i64.or  
	local.get	1
	i64.ge_u
	br_if   	0                               # 0: down to label155
# %bb.1:                                # %then.3
	local.get	3
	local.get	3
	v128.load	96
	local.get	4
	i32.const	-32
	i32.add 
	v128.load	0
	v128.xor
	local.tee	8
	local.get	8
	local.get	9
	i8x16.shuffle	7, 4, 5, 6, 11, 8, 9, 10, 15, 12, 13, 14, 3, 0, 1, 2
	v128.xor
	local.tee	10
	local.get	3
	v128.load	112
	local.get	4
	i32.const	-16
	i32.add 
	v128.load	0
	v128.xor
	local.tee	9
	v128.xor
	local.tee	11
	local.get	9
	local.get	9
	local.get	9
	i8x16.shuffle	7, 4, 5, 6, 11, 8, 9, 10, 15, 12, 13, 14, 3, 0, 1, 2
	v128.xor
	local.tee	9
	local.get	3
	v128.load	64
	local.get	4
	i32.const	-64
	i32.add 
	v128.load	0
	v128.xor
	local.tee	12
	local.get	12
	local.get	9
	i8x16.shuffle	7, 4, 5, 6, 11, 8, 9, 10, 15, 12, 13, 14, 3, 0, 1, 2
	v128.xor
	local.tee	13
	local.get	3
	v128.load	80
	local.get	4
	i32.const	-48
	i32.add 
	v128.load	0
	v128.xor
	local.tee	14
	v128.xor
	local.tee	15
	v128.xor
	local.tee	16
	local.get	9
	i8x16.shuffle	10, 11, 8, 9, 14, 15, 12, 13, 2, 3, 0, 1, 6, 7, 4, 5
	v128.xor
	local.get	16
	v128.xor
	v128.store	112
	local.get	3
	local.get	14
	local.get	14
	local.get	9
	i8x16.shuffle	7, 4, 5, 6, 11, 8, 9, 10, 15, 12, 13, 14, 3, 0, 1, 2
	v128.xor
	local.tee	16
	local.get	8
	v128.xor
	local.tee	8
	local.get	3
	v128.load	0
	local.get	4
	i32.const	-128
	i32.add 
	v128.load	0
	v128.xor
	local.tee	14
	local.get	14
	local.get	9
	i8x16.shuffle	7, 4, 5, 6, 11, 8, 9, 10, 15, 12, 13, 14, 3, 0, 1, 2
	v128.xor
	local.tee	17
	v128.xor
	local.tee	18
	local.get	18
	local.get	9
	i8x16.shuffle	10, 11, 8, 9, 14, 15, 12, 13, 2, 3, 0, 1, 6, 7, 4, 5
	v128.xor
	local.get	9
	local.get	14
	v128.xor
	local.tee	18
	v128.xor
	v128.store	0
	local.get	3
	local.get	8
	local.get	12
	local.get	3
	v128.load	48
	local.get	4
	i32.const	-80
	i32.add 
	v128.load	0
	v128.xor
	local.tee	14
	local.get	14
	local.get	9
	i8x16.shuffle	7, 4, 5, 6, 11, 8, 9, 10, 15, 12, 13, 14, 3, 0, 1, 2
	v128.xor
	local.tee	19
	v128.xor
	local.get	9
	v128.xor
	local.tee	20
	local.get	10
	v128.xor
	local.tee	12
	local.get	9
	i8x16.shuffle	10, 11, 8, 9, 14, 15, 12, 13, 2, 3, 0, 1, 6, 7, 4, 5
	v128.xor
	local.get	12
	v128.xor
	v128.store	96
	local.get	3
	local.get	15
	local.get	11
	local.get	16
	v128.xor
	local.get	14
	local.get	3
	v128.load	32
	local.get	4
	i32.const	-96
	i32.add 
	v128.load	0
	v128.xor
	local.tee	12
	local.get	12
	local.get	9
	i8x16.shuffle	7, 4, 5, 6, 11, 8, 9, 10, 15, 12, 13, 14, 3, 0, 1, 2
	v128.xor
	local.tee	10
	v128.xor
	local.get	9
	v128.xor
	local.tee	16
	v128.xor
	local.tee	14
	local.get	9
	i8x16.shuffle	10, 11, 8, 9, 14, 15, 12, 13, 2, 3, 0, 1, 6, 7, 4, 5
	v128.xor
	local.get	14
	v128.xor
	v128.store	80
	local.get	3
	local.get	16
	local.get	8
	local.get	19
	v128.xor
	local.get	3
	v128.load	16
	local.get	4
	i32.const	-112
	i32.add 
	v128.load	0
	v128.xor
	local.tee	14
	local.get	17
	v128.xor
	local.get	9
	v128.xor
	local.tee	9
	v128.xor
	local.tee	15
	local.get	9
	i8x16.shuffle	10, 11, 8, 9, 14, 15, 12, 13, 2, 3, 0, 1, 6, 7, 4, 5
	v128.xor
	local.get	15
	v128.xor
	v128.store	48
	local.get	3
	local.get	14
	local.get	14
	local.get	9
	i8x16.shuffle	7, 4, 5, 6, 11, 8, 9, 10, 15, 12, 13, 14, 3, 0, 1, 2
	v128.xor
	local.tee	14
	local.get	12
	v128.xor
	local.tee	12
	local.get	11
	local.get	10
	v128.xor
	local.get	18
	v128.xor
	local.tee	10
	local.get	9
	i8x16.shuffle	10, 11, 8, 9, 14, 15, 12, 13, 2, 3, 0, 1, 6, 7, 4, 5
	v128.xor
	local.get	10
	v128.xor
	v128.store	32
	local.get	3
	local.get	9
	local.get	11
	local.get	8
	v128.xor
	local.tee	11
	local.get	14
	v128.xor
	local.tee	8
	local.get	9
	i8x16.shuffle	10, 11, 8, 9, 14, 15, 12, 13, 2, 3, 0, 1, 6, 7, 4, 5
	v128.xor
	local.get	8
	v128.xor
	v128.store	16
	local.get	3
	local.get	20
	local.get	11
	local.get	12
	v128.xor
	local.get	13
	v128.xor
	local.tee	9
	local.get	9
	i8x16.shuffle	10, 11, 8, 9, 14, 15, 12, 13, 2, 3, 0, 1, 6, 7, 4, 5
	v128.xor
	local.get	9
	v128.xor
	v128.store	64
	local.get	3
	call	aes_planes__soft__sbox__inv_sub_bytes____e29e0540aa8bc136_
	local.get	3
	local.get	3
	v128.load	96
	local.get	0
	local.get	5
	i32.wrap_i64
	i32.const	7
	i32.shl 
	i32.add 
	local.tee	4
	v128.load	96
	v128.xor
	local.tee	8
	local.get	8
	local.get	9
	i8x16.shuffle	6, 7, 4, 5, 10, 11, 8, 9, 14, 15, 12, 13, 2, 3, 0, 1
	v128.xor
	local.tee	10
	local.get	3
	v128.load	112
	local.get	4
	v128.load	112
	v128.xor
	local.tee	9
	v128.xor
	local.tee	11
	local.get	9
	local.get	9
	local.get	9
	i8x16.shuffle	6, 7, 4, 5, 10, 11, 8, 9, 14, 15, 12, 13, 2, 3, 0, 1
	v128.xor
	local.tee	9
	local.get	3
	v128.load	64
	local.get	4
	v128.load	64
	v128.xor
	local.tee	12
	local.get	12
	local.get	9
	i8x16.shuffle	6, 7, 4, 5, 10, 11, 8, 9, 14, 15, 12, 13, 2, 3, 0, 1
	v128.xor
	local.tee	13
	local.get	3
	v128.load	80
	local.get	4
	v128.load	80
	v128.xor
	local.tee	14
	v128.xor
	local.tee	15
	v128.xor
	local.tee	16
	local.get	9
	i8x16.shuffle	8, 9, 10, 11, 12, 13, 14, 15, 0, 1, 2, 3, 4, 5, 6, 7
	v128.xor
	local.get	16
	v128.xor
	v128.store	112
	local.get	3
	local.get	14
	local.get	14
	local.get	9
	i8x16.shuffle	6, 7, 4, 5, 10, 11, 8, 9, 14, 15, 12, 13, 2, 3, 0, 1
	v128.xor
	local.tee	16
	local.get	8
	v128.xor
	local.tee	8
	local.get	3
	v128.load	0
	local.get	4
	v128.load	0
	v128.xor
	local.tee	14
	local.get	14
	local.get	9
	i8x16.shuffle	6, 7, 4, 5, 10, 11, 8, 9, 14, 15, 12, 13, 2, 3, 0, 1
	v128.xor
	local.tee	17
	v128.xor
	local.tee	18
	local.get	9
	i8x16.shuffle	8, 9, 10, 11, 12, 13, 14, 15, 0, 1, 2, 3, 4, 5, 6, 7
	local.get	18
	v128.xor
	local.get	9
	local.get	14
	v128.xor
	local.tee	18
	v128.xor
	v128.store	0
	local.get	3
	local.get	8
	local.get	12
	local.get	3
	v128.load	48
	local.get	4
	v128.load	48
	v128.xor
	local.tee	14
	local.get	14
	local.get	9
	i8x16.shuffle	6, 7, 4, 5, 10, 11, 8, 9, 14, 15, 12, 13, 2, 3, 0, 1
	v128.xor
	local.tee	19
	v128.xor
	local.get	9
	v128.xor
	local.tee	20
	local.get	10
	v128.xor
	local.tee	12
	local.get	9
	i8x16.shuffle	8, 9, 10, 11, 12, 13, 14, 15, 0, 1, 2, 3, 4, 5, 6, 7
	v128.xor
	local.get	12
	v128.xor
	v128.store	96
	local.get	3
	local.get	15
	local.get	11
	local.get	16
	v128.xor
	local.get	14
	local.get	3
	v128.load	32
	local.get	4
	v128.load	32
	v128.xor
	local.tee	12
	local.get	12
	local.get	9
	i8x16.shuffle	6, 7, 4, 5, 10, 11, 8, 9, 14, 15, 12, 13, 2, 3, 0, 1
	v128.xor
	local.tee	10
	v128.xor
	local.get	9
	v128.xor
	local.tee	16
	v128.xor
	local.tee	14
	local.get	9
	i8x16.shuffle	8, 9, 10, 11, 12, 13, 14, 15, 0, 1, 2, 3, 4, 5, 6, 7
	v128.xor
	local.get	14
	v128.xor
	v128.store	80
	local.get	3
	local.get	16
	local.get	8
	local.get	19
	v128.xor
	local.get	3
	v128.load	16
	local.get	4
	v128.load	16
	v128.xor
	local.tee	14
	local.get	17
	v128.xor
	local.get	9
	v128.xor
	local.tee	9
	v128.xor
	local.tee	15
	local.get	9
	i8x16.shuffle	8, 9, 10, 11, 12, 13, 14, 15, 0, 1, 2, 3, 4, 5, 6, 7
	v128.xor
	local.get	15
	v128.xor
	v128.store	48
	local.get	3
	local.get	14
	local.get	14
	local.get	9
	i8x16.shuffle	6, 7, 4, 5, 10, 11, 8, 9, 14, 15, 12, 13, 2, 3, 0, 1
	v128.xor
	local.tee	14
	local.get	12
	v128.xor
	local.tee	12
	local.get	11
	local.get	10
	v128.xor
	local.get	18
	v128.xor
	local.tee	10
	local.get	9
	i8x16.shuffle	8, 9, 10, 11, 12, 13, 14, 15, 0, 1, 2, 3, 4, 5, 6, 7
	v128.xor
	local.get	10
	v128.xor
	v128.store	32
	local.get	3
	local.get	9
	local.get	11
	local.get	8
	v128.xor
	local.tee	11
	local.get	14
	v128.xor
	local.tee	8
	local.get	9
	i8x16.shuffle	8, 9, 10, 11, 12, 13, 14, 15, 0, 1, 2, 3, 4, 5, 6, 7
	v128.xor
	local.get	8
	v128.xor
	v128.store	16
	local.get	3
	local.get	20
	local.get	11
	local.get	12
	v128.xor
	local.get	13
	v128.xor
	local.tee	9
	local.get	9
	i8x16.shuffle	8, 9, 10, 11, 12, 13, 14, 15, 0, 1, 2, 3, 4, 5, 6, 7
	v128.xor
	local.get	9
	v128.xor
	v128.store	64
	local.get	3
	call	aes_planes__soft__sbox__inv_sub_bytes____e29e0540aa8bc136_
	br      	1                               # 1: down to label154
.LBB36_2:                               # %else.4
	end_block                               # label155:
	local.get	3
	i32.const	16
	i64.const	281470681743360
	i64.const	281470681743360
	call	aes_planes__soft__shifts__swap_columns____e29e0540aa8bc136_
.LBB36_3:                               # %join.5
	end_block                               # label154:
	local.get	3
	local.get	3
	v128.load	96
	local.get	0
	local.get	7
	i32.wrap_i64
	i32.const	7
	i32.shl 
	i32.add 
	local.tee	4
	v128.load	224
	v128.xor
	local.tee	8
	local.get	8
	local.get	9
	i8x16.shuffle	5, 6, 7, 4, 9, 10, 11, 8, 13, 14, 15, 12, 1, 2, 3, 0
	v128.xor
	local.tee	10
	local.get	3
	v128.load	112
	local.get	4
	v128.load	240
	v128.xor
	local.tee	9
	v128.xor
	local.tee	11
	local.get	9
	local.get	9
	local.get	9
	i8x16.shuffle	5, 6, 7, 4, 9, 10, 11, 8, 13, 14, 15, 12, 1, 2, 3, 0
	v128.xor
	local.tee	9
	local.get	3
	v128.load	64
	local.get	4
	v128.load	192
	v128.xor
	local.tee	12
	local.get	12
	local.get	9
	i8x16.shuffle	5, 6, 7, 4, 9, 10, 11, 8, 13, 14, 15, 12, 1, 2, 3, 0
	v128.xor
	local.tee	13
	local.get	3
	v128.load	80
	local.get	4
	v128.load	208
	v128.xor
	local.tee	14
	v128.xor
	local.tee	15
	v128.xor
	local.tee	16
	local.get	9
	i8x16.shuffle	10, 11, 8, 9, 14, 15, 12, 13, 2, 3, 0, 1, 6, 7, 4, 5
	v128.xor
	local.get	16
	v128.xor
	v128.store	112
	local.get	3
	local.get	14
	local.get	14
	local.get	9
	i8x16.shuffle	5, 6, 7, 4, 9, 10, 11, 8, 13, 14, 15, 12, 1, 2, 3, 0
	v128.xor
	local.tee	16
	local.get	8
	v128.xor
	local.tee	8
	local.get	3
	v128.load	0
	local.get	4
	v128.load	128
	v128.xor
	local.tee	14
	local.get	14
	local.get	9
	i8x16.shuffle	5, 6, 7, 4, 9, 10, 11, 8, 13, 14, 15, 12, 1, 2, 3, 0
	v128.xor
	local.tee	17
	v128.xor
	local.tee	18
	local.get	18
	local.get	9
	i8x16.shuffle	10, 11, 8, 9, 14, 15, 12, 13, 2, 3, 0, 1, 6, 7, 4, 5
	v128.xor
	local.get	9
	local.get	14
	v128.xor
	local.tee	18
	v128.xor
	v128.store	0
	local.get	3
	local.get	8
	local.get	12
	local.get	3
	v128.load	48
	local.get	4
	v128.load	176
	v128.xor
	local.tee	14
	local.get	14
	local.get	9
	i8x16.shuffle	5, 6, 7, 4, 9, 10, 11, 8, 13, 14, 15, 12, 1, 2, 3, 0
	v128.xor
	local.tee	19
	v128.xor
	local.get	9
	v128.xor
	local.tee	20
	local.get	10
	v128.xor
	local.tee	12
	local.get	9
	i8x16.shuffle	10, 11, 8, 9, 14, 15, 12, 13, 2, 3, 0, 1, 6, 7, 4, 5
	v128.xor
	local.get	12
	v128.xor
	v128.store	96
	local.get	3
	local.get	15
	local.get	11
	local.get	16
	v128.xor
	local.get	14
	local.get	3
	v128.load	32
	local.get	4
	v128.load	160
	v128.xor
	local.tee	12
	local.get	12
	local.get	9
	i8x16.shuffle	5, 6, 7, 4, 9, 10, 11, 8, 13, 14, 15, 12, 1, 2, 3, 0
	v128.xor
	local.tee	10
	v128.xor
	local.get	9
	v128.xor
	local.tee	16
	v128.xor
	local.tee	14
	local.get	9
	i8x16.shuffle	10, 11, 8, 9, 14, 15, 12, 13, 2, 3, 0, 1, 6, 7, 4, 5
	v128.xor
	local.get	14
	v128.xor
	v128.store	80
	local.get	3
	local.get	16
	local.get	8
	local.get	19
	v128.xor
	local.get	3
	v128.load	16
	local.get	4
	v128.load	144
	v128.xor
	local.tee	14
	local.get	17
	v128.xor
	local.get	9
	v128.xor
	local.tee	9
	v128.xor
	local.tee	15
	local.get	9
	i8x16.shuffle	10, 11, 8, 9, 14, 15, 12, 13, 2, 3, 0, 1, 6, 7, 4, 5
	v128.xor
	local.get	15
	v128.xor
	v128.store	48
	local.get	3
	local.get	14
	local.get	14
	local.get	9
	i8x16.shuffle	5, 6, 7, 4, 9, 10, 11, 8, 13, 14, 15, 12, 1, 2, 3, 0
	v128.xor
	local.tee	14
	local.get	12
	v128.xor
	local.tee	12
	local.get	11
	local.get	10
	v128.xor
	local.get	18
	v128.xor
	local.tee	10
	local.get	9
	i8x16.shuffle	10, 11, 8, 9, 14, 15, 12, 13, 2, 3, 0, 1, 6, 7, 4, 5
	v128.xor
	local.get	10
	v128.xor
	v128.store	32
	local.get	3
	local.get	9
	local.get	11
	local.get	8
	v128.xor
	local.tee	11
	local.get	14
	v128.xor
	local.tee	8
	local.get	9
	i8x16.shuffle	10, 11, 8, 9, 14, 15, 12, 13, 2, 3, 0, 1, 6, 7, 4, 5
	v128.xor
	local.get	8
	v128.xor
	v128.store	16
	local.get	3
	local.get	20
	local.get	11
	local.get	12
	v128.xor
	local.get	13
	v128.xor
	local.tee	9
	local.get	9
	i8x16.shuffle	10, 11, 8, 9, 14, 15, 12, 13, 2, 3, 0, 1, 6, 7, 4, 5
	v128.xor
	local.get	9
	v128.xor
	v128.store	64
	local.get	3
	call	aes_planes__soft__sbox__inv_sub_bytes____e29e0540aa8bc136_
	block   	
	local.get	6
	i64.eqz
	br_if   	0                               # 0: down to label156
# %bb.4:                                # %join.10.preheader
	local.get	6
	i32.wrap_i64
	i32.const	9
	i32.shl 
	local.get	0
	i32.add 
	i32.const	-384
	i32.add 
	local.set	4
.LBB36_5:                               # %join.10
                                        # =>This Inner Loop Header: Depth=1
	loop    	                                # label157:
	local.get	3
	local.get	3
	v128.load	96
	local.get	4
	i32.const	480
	i32.add 
	v128.load	0
	v128.xor
	local.tee	8
	local.get	8
	local.get	9
	i8x16.shuffle	4, 5, 6, 7, 8, 9, 10, 11, 12, 13, 14, 15, 0, 1, 2, 3
	v128.xor
	local.tee	10
	local.get	3
	v128.load	112
	local.get	4
	i32.const	496
	i32.add 
	v128.load	0
	v128.xor
	local.tee	9
	v128.xor
	local.tee	11
	local.get	9
	local.get	9
	local.get	9
	i8x16.shuffle	4, 5, 6, 7, 8, 9, 10, 11, 12, 13, 14, 15, 0, 1, 2, 3
	v128.xor
	local.tee	9
	local.get	3
	v128.load	64
	local.get	4
	i32.const	448
	i32.add 
	v128.load	0
	v128.xor
	local.tee	12
	local.get	12
	local.get	9
	i8x16.shuffle	4, 5, 6, 7, 8, 9, 10, 11, 12, 13, 14, 15, 0, 1, 2, 3
	v128.xor
	local.tee	13
	local.get	3
	v128.load	80
	local.get	4
	i32.const	464
	i32.add 
	v128.load	0
	v128.xor
	local.tee	14
	v128.xor
	local.tee	15
	v128.xor
	local.tee	16
	local.get	9
	i8x16.shuffle	8, 9, 10, 11, 12, 13, 14, 15, 0, 1, 2, 3, 4, 5, 6, 7
	v128.xor
	local.get	16
	v128.xor
	v128.store	112
	local.get	3
	local.get	14
	local.get	14
	local.get	9
	i8x16.shuffle	4, 5, 6, 7, 8, 9, 10, 11, 12, 13, 14, 15, 0, 1, 2, 3
	v128.xor
	local.tee	16
	local.get	8
	v128.xor
	local.tee	8
	local.get	3
	v128.load	0
	local.get	4
	i32.const	384
	i32.add 
	v128.load	0
	v128.xor
	local.tee	14
	local.get	14
	local.get	9
	i8x16.shuffle	4, 5, 6, 7, 8, 9, 10, 11, 12, 13, 14, 15, 0, 1, 2, 3
	v128.xor
	local.tee	17
	v128.xor
	local.tee	18
	local.get	9
	i8x16.shuffle	8, 9, 10, 11, 12, 13, 14, 15, 0, 1, 2, 3, 4, 5, 6, 7
	local.get	18
	v128.xor
	local.get	9
	local.get	14
	v128.xor
	local.tee	18
	v128.xor
	v128.store	0
	local.get	3
	local.get	8
	local.get	12
	local.get	3
	v128.load	48
	local.get	4
	i32.const	432
	i32.add 
	v128.load	0
	v128.xor
	local.tee	14
	local.get	14
	local.get	9
	i8x16.shuffle	4, 5, 6, 7, 8, 9, 10, 11, 12, 13, 14, 15, 0, 1, 2, 3
	v128.xor
	local.tee	19
	v128.xor
	local.get	9
	v128.xor
	local.tee	20
	local.get	10
	v128.xor
	local.tee	12
	local.get	9
	i8x16.shuffle	8, 9, 10, 11, 12, 13, 14, 15, 0, 1, 2, 3, 4, 5, 6, 7
	v128.xor
	local.get	12
	v128.xor
	v128.store	96
	local.get	3
	local.get	15
	local.get	11
	local.get	16
	v128.xor
	local.get	14
	local.get	3
	v128.load	32
	local.get	4
	i32.const	416
	i32.add 
	v128.load	0
	v128.xor
	local.tee	12
	local.get	12
	local.get	9
	i8x16.shuffle	4, 5, 6, 7, 8, 9, 10, 11, 12, 13, 14, 15, 0, 1, 2, 3
	v128.xor
	local.tee	10
	v128.xor
	local.get	9
	v128.xor
	local.tee	16
	v128.xor
	local.tee	14
	local.get	9
	i8x16.shuffle	8, 9, 10, 11, 12, 13, 14, 15, 0, 1, 2, 3, 4, 5, 6, 7
	v128.xor
	local.get	14
	v128.xor
	v128.store	80
	local.get	3
	local.get	16
	local.get	8
	local.get	19
	v128.xor
	local.get	3
	v128.load	16
	local.get	4
	i32.const	400
	i32.add 
	v128.load	0
	v128.xor
	local.tee	14
	local.get	17
	v128.xor
	local.get	9
	v128.xor
	local.tee	9
	v128.xor
	local.tee	15
	local.get	9
	i8x16.shuffle	8, 9, 10, 11, 12, 13, 14, 15, 0, 1, 2, 3, 4, 5, 6, 7
	v128.xor
	local.get	15
	v128.xor
	v128.store	48
	local.get	3
	local.get	14
	local.get	14
	local.get	9
	i8x16.shuffle	4, 5, 6, 7, 8, 9, 10, 11, 12, 13, 14, 15, 0, 1, 2, 3
	v128.xor
	local.tee	14
	local.get	12
	v128.xor
	local.tee	12
	local.get	11
	local.get	10
	v128.xor
	local.get	18
	v128.xor
	local.tee	10
	local.get	9
	i8x16.shuffle	8, 9, 10, 11, 12, 13, 14, 15, 0, 1, 2, 3, 4, 5, 6, 7
	v128.xor
	local.get	10
	v128.xor
	v128.store	32
	local.get	3
	local.get	9
	local.get	11
	local.get	8
	v128.xor
	local.tee	11
	local.get	14
	v128.xor
	local.tee	8
	local.get	9
	i8x16.shuffle	8, 9, 10, 11, 12, 13, 14, 15, 0, 1, 2, 3, 4, 5, 6, 7
	v128.xor
	local.get	8
	v128.xor
	v128.store	16
	local.get	3
	local.get	20
	local.get	11
	local.get	12
	v128.xor
	local.get	13
	v128.xor
	local.tee	9
	local.get	9
	i8x16.shuffle	8, 9, 10, 11, 12, 13, 14, 15, 0, 1, 2, 3, 4, 5, 6, 7
	v128.xor
	local.get	9
	v128.xor
	v128.store	64
	local.get	3
	call	aes_planes__soft__sbox__inv_sub_bytes____e29e0540aa8bc136_
	local.get	3
	local.get	3
	v128.load	96
	local.get	4
	i32.const	352
	i32.add 
	v128.load	0
	v128.xor
	local.tee	8
	local.get	8
	local.get	9
	i8x16.shuffle	7, 4, 5, 6, 11, 8, 9, 10, 15, 12, 13, 14, 3, 0, 1, 2
	v128.xor
	local.tee	10
	local.get	3
	v128.load	112
	local.get	4
	i32.const	368
	i32.add 
	v128.load	0
	v128.xor
	local.tee	9
	v128.xor
	local.tee	11
	local.get	9
	local.get	9
	local.get	9
	i8x16.shuffle	7, 4, 5, 6, 11, 8, 9, 10, 15, 12, 13, 14, 3, 0, 1, 2
	v128.xor
	local.tee	9
	local.get	3
	v128.load	64
	local.get	4
	i32.const	320
	i32.add 
	v128.load	0
	v128.xor
	local.tee	12
	local.get	12
	local.get	9
	i8x16.shuffle	7, 4, 5, 6, 11, 8, 9, 10, 15, 12, 13, 14, 3, 0, 1, 2
	v128.xor
	local.tee	13
	local.get	3
	v128.load	80
	local.get	4
	i32.const	336
	i32.add 
	v128.load	0
	v128.xor
	local.tee	14
	v128.xor
	local.tee	15
	v128.xor
	local.tee	16
	local.get	9
	i8x16.shuffle	10, 11, 8, 9, 14, 15, 12, 13, 2, 3, 0, 1, 6, 7, 4, 5
	v128.xor
	local.get	16
	v128.xor
	v128.store	112
	local.get	3
	local.get	14
	local.get	14
	local.get	9
	i8x16.shuffle	7, 4, 5, 6, 11, 8, 9, 10, 15, 12, 13, 14, 3, 0, 1, 2
	v128.xor
	local.tee	16
	local.get	8
	v128.xor
	local.tee	8
	local.get	3
	v128.load	0
	local.get	4
	i32.const	256
	i32.add 
	v128.load	0
	v128.xor
	local.tee	14
	local.get	14
	local.get	9
	i8x16.shuffle	7, 4, 5, 6, 11, 8, 9, 10, 15, 12, 13, 14, 3, 0, 1, 2
	v128.xor
	local.tee	17
	v128.xor
	local.tee	18
	local.get	18
	local.get	9
	i8x16.shuffle	10, 11, 8, 9, 14, 15, 12, 13, 2, 3, 0, 1, 6, 7, 4, 5
	v128.xor
	local.get	9
	local.get	14
	v128.xor
	local.tee	18
	v128.xor
	v128.store	0
	local.get	3
	local.get	8
	local.get	12
	local.get	3
	v128.load	48
	local.get	4
	i32.const	304
	i32.add 
	v128.load	0
	v128.xor
	local.tee	14
	local.get	14
	local.get	9
	i8x16.shuffle	7, 4, 5, 6, 11, 8, 9, 10, 15, 12, 13, 14, 3, 0, 1, 2
	v128.xor
	local.tee	19
	v128.xor
	local.get	9
	v128.xor
	local.tee	20
	local.get	10
	v128.xor
	local.tee	12
	local.get	9
	i8x16.shuffle	10, 11, 8, 9, 14, 15, 12, 13, 2, 3, 0, 1, 6, 7, 4, 5
	v128.xor
	local.get	12
	v128.xor
	v128.store	96
	local.get	3
	local.get	15
	local.get	11
	local.get	16
	v128.xor
	local.get	14
	local.get	3
	v128.load	32
	local.get	4
	i32.const	288
	i32.add 
	v128.load	0
	v128.xor
	local.tee	12
	local.get	12
	local.get	9
	i8x16.shuffle	7, 4, 5, 6, 11, 8, 9, 10, 15, 12, 13, 14, 3, 0, 1, 2
	v128.xor
	local.tee	10
	v128.xor
	local.get	9
	v128.xor
	local.tee	16
	v128.xor
	local.tee	14
	local.get	9
	i8x16.shuffle	10, 11, 8, 9, 14, 15, 12, 13, 2, 3, 0, 1, 6, 7, 4, 5
	v128.xor
	local.get	14
	v128.xor
	v128.store	80
	local.get	3
	local.get	16
	local.get	8
	local.get	19
	v128.xor
	local.get	3
	v128.load	16
	local.get	4
	i32.const	272
	i32.add 
	v128.load	0
	v128.xor
	local.tee	14
	local.get	17
	v128.xor
	local.get	9
	v128.xor
	local.tee	9
	v128.xor
	local.tee	15
	local.get	9
	i8x16.shuffle	10, 11, 8, 9, 14, 15, 12, 13, 2, 3, 0, 1, 6, 7, 4, 5
	v128.xor
	local.get	15
	v128.xor
	v128.store	48
	local.get	3
	local.get	14
	local.get	14
	local.get	9
	i8x16.shuffle	7, 4, 5, 6, 11, 8, 9, 10, 15, 12, 13, 14, 3, 0, 1, 2
	v128.xor
	local.tee	14
	local.get	12
	v128.xor
	local.tee	12
	local.get	11
	local.get	10
	v128.xor
	local.get	18
	v128.xor
	local.tee	10
	local.get	9
	i8x16.shuffle	10, 11, 8, 9, 14, 15, 12, 13, 2, 3, 0, 1, 6, 7, 4, 5
	v128.xor
	local.get	10
	v128.xor
	v128.store	32
	local.get	3
	local.get	9
	local.get	11
	local.get	8
	v128.xor
	local.tee	11
	local.get	14
	v128.xor
	local.tee	8
	local.get	9
	i8x16.shuffle	10, 11, 8, 9, 14, 15, 12, 13, 2, 3, 0, 1, 6, 7, 4, 5
	v128.xor
	local.get	8
	v128.xor
	v128.store	16
	local.get	3
	local.get	20
	local.get	11
	local.get	12
	v128.xor
	local.get	13
	v128.xor
	local.tee	9
	local.get	9
	i8x16.shuffle	10, 11, 8, 9, 14, 15, 12, 13, 2, 3, 0, 1, 6, 7, 4, 5
	v128.xor
	local.get	9
	v128.xor
	v128.store	64
	local.get	3
	call	aes_planes__soft__sbox__inv_sub_bytes____e29e0540aa8bc136_
	local.get	3
	local.get	3
	v128.load	96
	local.get	4
	i32.const	224
	i32.add 
	v128.load	0
	v128.xor
	local.tee	8
	local.get	8
	local.get	9
	i8x16.shuffle	6, 7, 4, 5, 10, 11, 8, 9, 14, 15, 12, 13, 2, 3, 0, 1
	v128.xor
	local.tee	10
	local.get	3
	v128.load	112
	local.get	4
	i32.const	240
	i32.add 
	v128.load	0
	v128.xor
	local.tee	9
	v128.xor
	local.tee	11
	local.get	9
	local.get	9
	local.get	9
	i8x16.shuffle	6, 7, 4, 5, 10, 11, 8, 9, 14, 15, 12, 13, 2, 3, 0, 1
	v128.xor
	local.tee	9
	local.get	3
	v128.load	64
	local.get	4
	i32.const	192
	i32.add 
	v128.load	0
	v128.xor
	local.tee	12
	local.get	12
	local.get	9
	i8x16.shuffle	6, 7, 4, 5, 10, 11, 8, 9, 14, 15, 12, 13, 2, 3, 0, 1
	v128.xor
	local.tee	13
	local.get	3
	v128.load	80
	local.get	4
	i32.const	208
	i32.add 
	v128.load	0
	v128.xor
	local.tee	14
	v128.xor
	local.tee	15
	v128.xor
	local.tee	16
	local.get	9
	i8x16.shuffle	8, 9, 10, 11, 12, 13, 14, 15, 0, 1, 2, 3, 4, 5, 6, 7
	v128.xor
	local.get	16
	v128.xor
	v128.store	112
	local.get	3
	local.get	14
	local.get	14
	local.get	9
	i8x16.shuffle	6, 7, 4, 5, 10, 11, 8, 9, 14, 15, 12, 13, 2, 3, 0, 1
	v128.xor
	local.tee	16
	local.get	8
	v128.xor
	local.tee	8
	local.get	3
	v128.load	0
	local.get	4
	i32.const	128
	i32.add 
	v128.load	0
	v128.xor
	local.tee	14
	local.get	14
	local.get	9
	i8x16.shuffle	6, 7, 4, 5, 10, 11, 8, 9, 14, 15, 12, 13, 2, 3, 0, 1
	v128.xor
	local.tee	17
	v128.xor
	local.tee	18
	local.get	9
	i8x16.shuffle	8, 9, 10, 11, 12, 13, 14, 15, 0, 1, 2, 3, 4, 5, 6, 7
	local.get	18
	v128.xor
	local.get	9
	local.get	14
	v128.xor
	local.tee	18
	v128.xor
	v128.store	0
	local.get	3
	local.get	8
	local.get	12
	local.get	3
	v128.load	48
	local.get	4
	i32.const	176
	i32.add 
	v128.load	0
	v128.xor
	local.tee	14
	local.get	14
	local.get	9
	i8x16.shuffle	6, 7, 4, 5, 10, 11, 8, 9, 14, 15, 12, 13, 2, 3, 0, 1
	v128.xor
	local.tee	19
	v128.xor
	local.get	9
	v128.xor
	local.tee	20
	local.get	10
	v128.xor
	local.tee	12
	local.get	9
	i8x16.shuffle	8, 9, 10, 11, 12, 13, 14, 15, 0, 1, 2, 3, 4, 5, 6, 7
	v128.xor
	local.get	12
	v128.xor
	v128.store	96
	local.get	3
	local.get	15
	local.get	11
	local.get	16
	v128.xor
	local.get	14
	local.get	3
	v128.load	32
	local.get	4
	i32.const	160
	i32.add 
	v128.load	0
	v128.xor
	local.tee	12
	local.get	12
	local.get	9
	i8x16.shuffle	6, 7, 4, 5, 10, 11, 8, 9, 14, 15, 12, 13, 2, 3, 0, 1
	v128.xor
	local.tee	10
	v128.xor
	local.get	9
	v128.xor
	local.tee	16
	v128.xor
	local.tee	14
	local.get	9
	i8x16.shuffle	8, 9, 10, 11, 12, 13, 14, 15, 0, 1, 2, 3, 4, 5, 6, 7
	v128.xor
	local.get	14
	v128.xor
	v128.store	80
	local.get	3
	local.get	16
	local.get	8
	local.get	19
	v128.xor
	local.get	3
	v128.load	16
	local.get	4
	i32.const	144
	i32.add 
	v128.load	0
	v128.xor
	local.tee	14
	local.get	17
	v128.xor
	local.get	9
	v128.xor
	local.tee	9
	v128.xor
	local.tee	15
	local.get	9
	i8x16.shuffle	8, 9, 10, 11, 12, 13, 14, 15, 0, 1, 2, 3, 4, 5, 6, 7
	v128.xor
	local.get	15
	v128.xor
	v128.store	48
	local.get	3
	local.get	14
	local.get	14
	local.get	9
	i8x16.shuffle	6, 7, 4, 5, 10, 11, 8, 9, 14, 15, 12, 13, 2, 3, 0, 1
	v128.xor
	local.tee	14
	local.get	12
	v128.xor
	local.tee	12
	local.get	11
	local.get	10
	v128.xor
	local.get	18
	v128.xor
	local.tee	10
	local.get	9
	i8x16.shuffle	8, 9, 10, 11, 12, 13, 14, 15, 0, 1, 2, 3, 4, 5, 6, 7
	v128.xor
	local.get	10
	v128.xor
	v128.store	32
	local.get	3
	local.get	9
	local.get	11
	local.get	8
	v128.xor
	local.tee	11
	local.get	14
	v128.xor
	local.tee	8
	local.get	9
	i8x16.shuffle	8, 9, 10, 11, 12, 13, 14, 15, 0, 1, 2, 3, 4, 5, 6, 7
	v128.xor
	local.get	8
	v128.xor
	v128.store	16
	local.get	3
	local.get	20
	local.get	11
	local.get	12
	v128.xor
	local.get	13
	v128.xor
	local.tee	9
	local.get	9
	i8x16.shuffle	8, 9, 10, 11, 12, 13, 14, 15, 0, 1, 2, 3, 4, 5, 6, 7
	v128.xor
	local.get	9
	v128.xor
	v128.store	64
	local.get	3
	call	aes_planes__soft__sbox__inv_sub_bytes____e29e0540aa8bc136_
	local.get	3
	local.get	3
	v128.load	96
	local.get	4
	i32.const	96
	i32.add 
	v128.load	0
	v128.xor
	local.tee	8
	local.get	8
	local.get	9
	i8x16.shuffle	5, 6, 7, 4, 9, 10, 11, 8, 13, 14, 15, 12, 1, 2, 3, 0
	v128.xor
	local.tee	10
	local.get	3
	v128.load	112
	local.get	4
	i32.const	112
	i32.add 
	v128.load	0
	v128.xor
	local.tee	9
	v128.xor
	local.tee	11
	local.get	9
	local.get	9
	local.get	9
	i8x16.shuffle	5, 6, 7, 4, 9, 10, 11, 8, 13, 14, 15, 12, 1, 2, 3, 0
	v128.xor
	local.tee	9
	local.get	3
	v128.load	64
	local.get	4
	i32.const	64
	i32.add 
	v128.load	0
	v128.xor
	local.tee	12
	local.get	12
	local.get	9
	i8x16.shuffle	5, 6, 7, 4, 9, 10, 11, 8, 13, 14, 15, 12, 1, 2, 3, 0
	v128.xor
	local.tee	13
	local.get	3
	v128.load	80
	local.get	4
	i32.const	80
	i32.add 
	v128.load	0
	v128.xor
	local.tee	14
	v128.xor
	local.tee	15
	v128.xor
	local.tee	16
	local.get	9
	i8x16.shuffle	10, 11, 8, 9, 14, 15, 12, 13, 2, 3, 0, 1, 6, 7, 4, 5
	v128.xor
	local.get	16
	v128.xor
	v128.store	112
	local.get	3
	local.get	14
	local.get	14
	local.get	9
	i8x16.shuffle	5, 6, 7, 4, 9, 10, 11, 8, 13, 14, 15, 12, 1, 2, 3, 0
	v128.xor
	local.tee	16
	local.get	8
	v128.xor
	local.tee	8
	local.get	3
	v128.load	0
	local.get	4
	v128.load	0
	v128.xor
	local.tee	14
	local.get	14
	local.get	9
	i8x16.shuffle	5, 6, 7, 4, 9, 10, 11, 8, 13, 14, 15, 12, 1, 2, 3, 0
	v128.xor
	local.tee	17
	v128.xor
	local.tee	18
	local.get	18
	local.get	9
	i8x16.shuffle	10, 11, 8, 9, 14, 15, 12, 13, 2, 3, 0, 1, 6, 7, 4, 5
	v128.xor
	local.get	9
	local.get	14
	v128.xor
	local.tee	18
	v128.xor
	v128.store	0
	local.get	3
	local.get	8
	local.get	12
	local.get	3
	v128.load	48
	local.get	4
	i32.const	48
	i32.add 
	v128.load	0
	v128.xor
	local.tee	14
	local.get	14
	local.get	9
	i8x16.shuffle	5, 6, 7, 4, 9, 10, 11, 8, 13, 14, 15, 12, 1, 2, 3, 0
	v128.xor
	local.tee	19
	v128.xor
	local.get	9
	v128.xor
	local.tee	20
	local.get	10
	v128.xor
	local.tee	12
	local.get	9
	i8x16.shuffle	10, 11, 8, 9, 14, 15, 12, 13, 2, 3, 0, 1, 6, 7, 4, 5
	v128.xor
	local.get	12
	v128.xor
	v128.store	96
	local.get	3
	local.get	15
	local.get	11
	local.get	16
	v128.xor
	local.get	14
	local.get	3
	v128.load	32
	local.get	4
	i32.const	32
	i32.add 
	v128.load	0
	v128.xor
	local.tee	12
	local.get	12
	local.get	9
	i8x16.shuffle	5, 6, 7, 4, 9, 10, 11, 8, 13, 14, 15, 12, 1, 2, 3, 0
	v128.xor
	local.tee	10
	v128.xor
	local.get	9
	v128.xor
	local.tee	16
	v128.xor
	local.tee	14
	local.get	9
	i8x16.shuffle	10, 11, 8, 9, 14, 15, 12, 13, 2, 3, 0, 1, 6, 7, 4, 5
	v128.xor
	local.get	14
	v128.xor
	v128.store	80
	local.get	3
	local.get	16
	local.get	8
	local.get	19
	v128.xor
	local.get	3
	v128.load	16
	local.get	4
	i32.const	16
	i32.add 
	v128.load	0
	v128.xor
	local.tee	14
	local.get	17
	v128.xor
	local.get	9
	v128.xor
	local.tee	9
	v128.xor
	local.tee	15
	local.get	9
	i8x16.shuffle	10, 11, 8, 9, 14, 15, 12, 13, 2, 3, 0, 1, 6, 7, 4, 5
	v128.xor
	local.get	15
	v128.xor
	v128.store	48
	local.get	3
	local.get	14
	local.get	14
	local.get	9
	i8x16.shuffle	5, 6, 7, 4, 9, 10, 11, 8, 13, 14, 15, 12, 1, 2, 3, 0
	v128.xor
	local.tee	14
	local.get	12
	v128.xor
	local.tee	12
	local.get	11
	local.get	10
	v128.xor
	local.get	18
	v128.xor
	local.tee	10
	local.get	9
	i8x16.shuffle	10, 11, 8, 9, 14, 15, 12, 13, 2, 3, 0, 1, 6, 7, 4, 5
	v128.xor
	local.get	10
	v128.xor
	v128.store	32
	local.get	3
	local.get	9
	local.get	11
	local.get	8
	v128.xor
	local.tee	11
	local.get	14
	v128.xor
	local.tee	8
	local.get	9
	i8x16.shuffle	10, 11, 8, 9, 14, 15, 12, 13, 2, 3, 0, 1, 6, 7, 4, 5
	v128.xor
	local.get	8
	v128.xor
	v128.store	16
	local.get	3
	local.get	20
	local.get	11
	local.get	12
	v128.xor
	local.get	13
	v128.xor
	local.tee	9
	local.get	9
	i8x16.shuffle	10, 11, 8, 9, 14, 15, 12, 13, 2, 3, 0, 1, 6, 7, 4, 5
	v128.xor
	local.get	9
	v128.xor
	v128.store	64
	local.get	4
	i32.const	-512
	i32.add 
	local.set	4
	local.get	3
	call	aes_planes__soft__sbox__inv_sub_bytes____e29e0540aa8bc136_
	local.get	6
	i64.const	-1
	i64.add 
	local.tee	6
	i64.const	0
	i64.ne  
	br_if   	0                               # 0: up to label157
.LBB36_6:                               # %after.6
	end_loop
	end_block                               # label156:
	local.get	3
	local.get	3
	v128.load	112
	local.get	0
	v128.load	112
	v128.xor
	v128.store	112
	local.get	3
	local.get	3
	v128.load	96
	local.get	0
	v128.load	96
	v128.xor
	v128.store	96
	local.get	3
	local.get	3
	v128.load	80
	local.get	0
	v128.load	80
	v128.xor
	v128.store	80
	local.get	3
	local.get	3
	v128.load	64
	local.get	0
	v128.load	64
	v128.xor
	v128.store	64
	local.get	3
	local.get	3
	v128.load	48
	local.get	0
	v128.load	48
	v128.xor
	v128.store	48
	local.get	3
	local.get	3
	v128.load	32
	local.get	0
	v128.load	32
	v128.xor
	v128.store	32
	local.get	3
	local.get	3
	v128.load	16
	local.get	0
	v128.load	16
	v128.xor
	v128.store	16
	local.get	3
	local.get	3
	v128.load	0
	local.get	0
	v128.load	0
	v128.xor
	v128.store	0
	local.get	2
	local.get	3
	i32.const	128
	memory.copy	0, 0
	local.get	3
	i32.const	128
	i32.add 
	global.set	__stack_pointer
                                        # fallthrough-return
	end_function
                                        # -- End function
	.section	.text.aes_planes__soft__sbox__inv_sub_bytes____e29e0540aa8bc136_,"",@
	.type	aes_planes__soft__sbox__inv_sub_bytes____e29e0540aa8bc136_,@function # -- Begin function aes_planes__soft__sbox__inv_sub_bytes____e29e0540aa8bc136_
aes_planes__soft__sbox__inv_sub_bytes____e29e0540aa8bc136_: # @aes_planes__soft__sbox__inv_sub_bytes____e29e0540aa8bc136_
	.functype	aes_planes__soft__sbox__inv_sub_bytes____e29e0540aa8bc136_ (i32) -> ()
	.local  	v128, v128, v128, v128, v128, v128, v128, v128, v128, v128, v128, v128, v128, v128, v128, v128, v128, v128, v128, v128, v128, v128, v128, v128, v128, v128, v128
# %bb.0:                                # %start
	local.get	0
	local.get	0
	v128.load	32
	local.tee	1
	local.get	0
	v128.load	16
	local.tee	2
	v128.xor
	local.tee	3
	local.get	0
	v128.load	112
	local.tee	4
	local.get	0
	v128.load	64
	local.tee	5
	v128.xor
	local.tee	6
	local.get	0
	v128.load	96
	local.tee	7
	v128.xor
	local.tee	8
	local.get	6
	v128.and
	v128.xor
	local.get	4
	local.get	7
	v128.xor
	local.tee	9
	local.get	0
	v128.load	48
	local.tee	10
	local.get	0
	v128.load	0
	local.tee	11
	v128.xor
	local.tee	12
	v128.xor
	local.tee	13
	v128.xor
	local.get	9
	local.get	2
	local.get	11
	v128.xor
	local.tee	14
	v128.xor
	local.tee	15
	local.get	7
	local.get	5
	v128.xor
	local.tee	16
	local.get	0
	v128.load	80
	local.tee	17
	local.get	1
	v128.xor
	local.tee	18
	v128.xor
	local.tee	19
	v128.and
	local.tee	20
	v128.xor
	local.get	13
	local.get	5
	local.get	10
	v128.xor
	local.tee	5
	local.get	3
	v128.xor
	local.tee	21
	v128.xor
	local.get	5
	v128.and
	local.tee	22
	local.get	8
	local.get	10
	v128.xor
	local.tee	23
	local.get	21
	v128.and
	v128.xor
	local.tee	24
	v128.xor
	local.tee	1
	local.get	16
	local.get	14
	v128.xor
	local.tee	25
	local.get	4
	local.get	18
	v128.xor
	local.tee	26
	v128.and
	local.get	12
	v128.xor
	local.get	20
	v128.xor
	local.get	22
	local.get	13
	local.get	9
	v128.and
	v128.xor
	local.tee	20
	v128.xor
	local.tee	4
	local.get	1
	local.get	17
	local.get	10
	v128.xor
	local.get	7
	local.get	2
	v128.xor
	local.tee	2
	v128.xor
	local.tee	18
	local.get	5
	local.get	14
	v128.xor
	local.tee	14
	v128.or
	local.get	16
	local.get	5
	local.get	11
	v128.xor
	local.tee	22
	v128.and
	v128.xor
	local.get	24
	v128.xor
	local.tee	7
	v128.and
	local.tee	10
	local.get	18
	local.get	14
	v128.and
	local.get	25
	local.get	17
	v128.xor
	local.tee	24
	local.get	2
	local.get	12
	v128.xor
	local.tee	27
	v128.and
	v128.xor
	local.get	5
	v128.xor
	local.get	17
	v128.xor
	local.get	20
	v128.xor
	local.tee	17
	v128.xor
	v128.bitselect
	local.tee	2
	local.get	7
	local.get	17
	local.get	10
	local.get	4
	v128.xor
	v128.bitselect
	local.tee	11
	v128.xor
	local.tee	12
	local.get	5
	v128.and
	local.get	11
	local.get	25
	v128.and
	local.tee	25
	v128.xor
	local.get	11
	local.get	7
	local.get	17
	v128.xor
	local.get	4
	local.get	7
	v128.and
	v128.andnot
	local.get	10
	v128.xor
	local.tee	5
	v128.xor
	local.tee	20
	local.get	15
	v128.and
	local.get	10
	local.get	1
	local.get	17
	v128.and
	local.get	1
	local.get	4
	v128.xor
	local.tee	7
	v128.and
	v128.xor
	local.get	7
	v128.xor
	local.tee	7
	local.get	5
	v128.xor
	local.tee	10
	local.get	9
	v128.and
	local.tee	17
	v128.xor
	local.tee	1
	v128.xor
	v128.store	0
	local.get	0
	local.get	2
	local.get	7
	v128.xor
	local.tee	4
	local.get	18
	v128.and
	local.tee	9
	local.get	2
	local.get	24
	v128.and
	local.tee	18
	v128.xor
	local.get	12
	local.get	10
	v128.xor
	local.tee	15
	local.get	23
	v128.and
	local.tee	23
	local.get	10
	local.get	13
	v128.and
	local.tee	10
	v128.xor
	local.tee	24
	local.get	4
	local.get	14
	v128.and
	local.tee	4
	local.get	7
	local.get	16
	v128.and
	local.tee	16
	v128.xor
	local.get	12
	local.get	13
	local.get	3
	v128.xor
	v128.and
	local.tee	3
	v128.xor
	local.tee	12
	v128.xor
	local.tee	13
	v128.xor
	v128.store	112
	local.get	0
	local.get	20
	local.get	19
	v128.and
	local.tee	14
	local.get	11
	local.get	26
	v128.and
	local.tee	11
	v128.xor
	local.get	13
	v128.xor
	v128.store	64
	local.get	0
	local.get	14
	local.get	18
	v128.xor
	local.tee	14
	local.get	17
	v128.xor
	local.get	11
	local.get	5
	local.get	6
	v128.and
	v128.xor
	local.tee	17
	local.get	25
	v128.xor
	local.tee	11
	v128.xor
	local.get	15
	local.get	21
	v128.and
	local.get	7
	local.get	22
	v128.and
	local.tee	7
	v128.xor
	local.get	12
	v128.xor
	local.tee	6
	v128.xor
	v128.store	48
	local.get	0
	local.get	23
	local.get	9
	v128.xor
	local.get	6
	v128.xor
	v128.store	16
	local.get	0
	local.get	13
	local.get	7
	local.get	5
	local.get	8
	v128.and
	v128.xor
	local.tee	5
	v128.xor
	local.get	14
	v128.xor
	v128.store	32
	local.get	0
	local.get	5
	local.get	9
	local.get	2
	local.get	27
	v128.and
	v128.xor
	v128.xor
	local.get	3
	v128.xor
	local.tee	5
	local.get	4
	v128.xor
	local.get	11
	v128.xor
	local.get	24
	v128.xor
	v128.store	80
	local.get	0
	local.get	5
	local.get	16
	v128.xor
	local.get	17
	v128.xor
	local.get	10
	v128.xor
	local.get	1
	v128.xor
	v128.store	96
                                        # fallthrough-return
	end_function
                                        # -- End function
	.section	.text.aes_permute__blocks__process_on_lanes____e7683a4e90f73162_,"",@
	.type	aes_permute__blocks__process_on_lanes____e7683a4e90f73162_,@function # -- Begin function aes_permute__blocks__process_on_lanes____e7683a4e90f73162_
aes_permute__blocks__process_on_lanes____e7683a4e90f73162_: # @aes_permute__blocks__process_on_lanes____e7683a4e90f73162_
	.functype	aes_permute__blocks__process_on_lanes____e7683a4e90f73162_ (i32, i64, i32, i64) -> ()
	.local  	i64, i32, i64, i64, i32, i32, v128, v128, v128, i32, v128, v128, v128, i32, i64, v128, v128, v128, v128, v128, v128, v128, i32, v128, v128, v128, v128, v128
# %bb.0:                                # %start
	i64.const	0
	local.set	4
	block   	
	local.get	3
	i64.const	2
	i64.lt_u
	br_if   	0                               # 0: down to label158
# %bb.1:                                # %join.5.lr.ph
	local.get	0
	i32.const	16
	i32.add 
	local.set	5
	local.get	1
	i64.const	-2
	i64.add 
	local.set	6
	local.get	0
	local.get	1
	i64.const	-1
	i64.add 
	local.tee	7
	i32.wrap_i64
	local.tee	8
	i32.const	4
	i32.shl 
	i32.add 
	local.set	9
	local.get	8
	i32.const	48
	i32.mul 
	i32.const	48
	i32.and 
	v128.load	.Lstatic.3:p2align=0
	local.set	10
	i64.const	0
	local.set	4
.LBB38_2:                               # %join.5
                                        # =>This Loop Header: Depth=1
                                        #     Child Loop BB38_4 Depth 2
	loop    	                                # label159:
	v128.const	0, 181, 220, 105, 219, 110, 7, 178, 20, 161, 200, 125, 207, 122, 19, 166
	local.tee	11
	local.get	0
	v128.load	0:p2align=0
	local.tee	12
	local.get	2
	local.get	4
	i32.wrap_i64
	i32.const	4
	i32.shl 
	i32.add 
	local.tee	13
	v128.load	16:p2align=0
	v128.xor
	local.tee	14
	v128.const	15, 15, 15, 15, 15, 15, 15, 15, 15, 15, 15, 15, 15, 15, 15, 15
	local.tee	15
	v128.and
	i8x16.swizzle
	v128.const	0, 167, 168, 15, 237, 74, 69, 226, 209, 118, 121, 222, 60, 155, 148, 51
	local.tee	16
	local.get	14
	i32.const	4
	i8x16.shr_u
	i8x16.swizzle
	v128.xor
	local.set	14
	local.get	11
	local.get	12
	local.get	13
	v128.load	0:p2align=0
	v128.xor
	local.tee	12
	local.get	15
	v128.and
	i8x16.swizzle
	local.get	16
	local.get	12
	i32.const	4
	i8x16.shr_u
	i8x16.swizzle
	v128.xor
	local.set	16
	block   	
	local.get	7
	i64.const	2
	i64.lt_u
	br_if   	0                               # 0: down to label160
# %bb.3:                                # %join.5.i2152.preheader
                                        #   in Loop: Header=BB38_2 Depth=1
	i32.const	48
	local.set	8
	local.get	5
	local.set	17
	local.get	6
	local.set	18
.LBB38_4:                               # %join.5.i2152
                                        #   Parent Loop BB38_2 Depth=1
                                        # =>  This Inner Loop Header: Depth=2
	loop    	                                # label161:
	v128.const	0, 28, 68, 88, 151, 139, 211, 207, 138, 150, 206, 210, 29, 1, 89, 69
	local.tee	19
	v128.const	0, 5, 253, 152, 223, 191, 101, 96, 157, 66, 218, 39, 186, 34, 71, 248
	local.tee	20
	v128.const	128, 1, 9, 14, 13, 11, 7, 6, 15, 2, 12, 5, 10, 4, 3, 8
	local.tee	11
	local.get	11
	local.get	14
	i32.const	4
	i8x16.shr_u
	local.tee	12
	local.get	14
	local.get	15
	v128.and
	local.tee	14
	v128.xor
	local.tee	21
	i8x16.swizzle
	v128.const	128, 2, 1, 15, 9, 5, 14, 12, 13, 4, 11, 10, 7, 8, 6, 3
	local.tee	22
	local.get	14
	i8x16.swizzle
	local.tee	14
	v128.xor
	i8x16.swizzle
	local.get	12
	v128.xor
	local.tee	23
	i8x16.swizzle
	v128.const	0, 41, 235, 82, 166, 54, 185, 144, 123, 221, 143, 100, 31, 77, 244, 194
	local.tee	24
	local.get	11
	local.get	11
	local.get	12
	i8x16.swizzle
	local.get	14
	v128.xor
	i8x16.swizzle
	local.get	21
	v128.xor
	local.tee	14
	i8x16.swizzle
	v128.xor
	v128.const	0, 118, 62, 158, 30, 200, 160, 214, 232, 246, 104, 86, 190, 32, 128, 72
	local.tee	25
	local.get	23
	i8x16.swizzle
	v128.const	0, 91, 164, 122, 207, 74, 222, 133, 33, 238, 148, 48, 17, 107, 181, 255
	local.tee	23
	local.get	14
	i8x16.swizzle
	v128.xor
	local.get	8
	i32.const	48
	i32.and 
	local.tee	26
	v128.load	.Lstatic.6:p2align=0
	local.tee	27
	i8x16.swizzle
	v128.xor
	local.tee	14
	local.get	15
	v128.and
	i8x16.swizzle
	v128.const	0, 48, 38, 22, 183, 135, 145, 161, 65, 113, 103, 87, 246, 198, 208, 224
	local.tee	28
	local.get	14
	i32.const	4
	i8x16.shr_u
	i8x16.swizzle
	v128.xor
	local.get	14
	local.get	26
	v128.load	.Lstatic.4:p2align=0
	local.tee	12
	i8x16.swizzle
	v128.xor
	local.tee	21
	local.get	12
	i8x16.swizzle
	local.get	14
	local.get	26
	v128.load	.Lstatic.5:p2align=0
	local.tee	29
	i8x16.swizzle
	v128.xor
	local.get	21
	v128.xor
	local.get	17
	v128.load	0:p2align=0
	local.tee	30
	v128.xor
	local.set	14
	local.get	19
	local.get	20
	local.get	11
	local.get	11
	local.get	16
	i32.const	4
	i8x16.shr_u
	local.tee	21
	local.get	16
	local.get	15
	v128.and
	local.tee	16
	v128.xor
	local.tee	31
	i8x16.swizzle
	local.get	22
	local.get	16
	i8x16.swizzle
	local.tee	16
	v128.xor
	i8x16.swizzle
	local.get	21
	v128.xor
	local.tee	22
	i8x16.swizzle
	local.get	24
	local.get	11
	local.get	11
	local.get	21
	i8x16.swizzle
	local.get	16
	v128.xor
	i8x16.swizzle
	local.get	31
	v128.xor
	local.tee	11
	i8x16.swizzle
	v128.xor
	local.get	25
	local.get	22
	i8x16.swizzle
	local.get	23
	local.get	11
	i8x16.swizzle
	v128.xor
	local.get	27
	i8x16.swizzle
	v128.xor
	local.tee	11
	local.get	15
	v128.and
	i8x16.swizzle
	local.get	28
	local.get	11
	i32.const	4
	i8x16.shr_u
	i8x16.swizzle
	v128.xor
	local.get	11
	local.get	12
	i8x16.swizzle
	v128.xor
	local.tee	16
	local.get	12
	i8x16.swizzle
	local.get	11
	local.get	29
	i8x16.swizzle
	v128.xor
	local.get	16
	v128.xor
	local.get	30
	v128.xor
	local.set	16
	local.get	8
	i32.const	48
	i32.add 
	local.set	8
	local.get	17
	i32.const	16
	i32.add 
	local.set	17
	local.get	18
	i64.const	-1
	i64.add 
	local.tee	18
	i64.const	0
	i64.ne  
	br_if   	0                               # 0: up to label161
.LBB38_5:                               # %aes_permute__blocks__process_two_vectors____e7683a4e90f73162_.exit
                                        #   in Loop: Header=BB38_2 Depth=1
	end_loop
	end_block                               # label160:
	local.get	13
	v128.const	0, 36, 145, 25, 35, 143, 136, 172, 61, 30, 7, 150, 171, 178, 58, 181
	local.tee	21
	v128.const	128, 1, 9, 14, 13, 11, 7, 6, 15, 2, 12, 5, 10, 4, 3, 8
	local.tee	11
	local.get	11
	local.get	14
	i32.const	4
	i8x16.shr_u
	local.tee	12
	local.get	14
	local.get	15
	v128.and
	local.tee	14
	v128.xor
	local.tee	19
	i8x16.swizzle
	v128.const	128, 2, 1, 15, 9, 5, 14, 12, 13, 4, 11, 10, 7, 8, 6, 3
	local.tee	20
	local.get	14
	i8x16.swizzle
	local.tee	14
	v128.xor
	i8x16.swizzle
	local.get	12
	v128.xor
	i8x16.swizzle
	v128.const	0, 59, 228, 200, 3, 20, 44, 23, 243, 240, 56, 220, 47, 231, 203, 223
	local.tee	22
	local.get	11
	local.get	11
	local.get	12
	i8x16.swizzle
	local.get	14
	v128.xor
	i8x16.swizzle
	local.get	19
	v128.xor
	i8x16.swizzle
	v128.xor
	local.get	10
	i8x16.swizzle
	local.get	9
	v128.load	0:p2align=0
	local.tee	12
	v128.xor
	v128.store	16:p2align=0
	local.get	13
	local.get	12
	local.get	21
	local.get	11
	local.get	11
	local.get	16
	i32.const	4
	i8x16.shr_u
	local.tee	14
	local.get	16
	local.get	15
	v128.and
	local.tee	15
	v128.xor
	local.tee	16
	i8x16.swizzle
	local.get	20
	local.get	15
	i8x16.swizzle
	local.tee	15
	v128.xor
	i8x16.swizzle
	local.get	14
	v128.xor
	i8x16.swizzle
	local.get	22
	local.get	11
	local.get	11
	local.get	14
	i8x16.swizzle
	local.get	15
	v128.xor
	i8x16.swizzle
	local.get	16
	v128.xor
	i8x16.swizzle
	v128.xor
	local.get	10
	i8x16.swizzle
	v128.xor
	v128.store	0:p2align=0
	local.get	3
	local.get	4
	i64.const	2
	i64.add 
	local.tee	4
	i64.sub 
	i64.const	1
	i64.gt_u
	br_if   	0                               # 0: up to label159
.LBB38_6:                               # %loop.7.preheader
	end_loop
	end_block                               # label158:
	block   	
	local.get	3
	local.get	4
	i64.eq  
	br_if   	0                               # 0: down to label162
# %bb.7:                                # %join.10.lr.ph
	local.get	1
	i64.const	-2
	i64.add 
	local.set	6
	local.get	0
	i32.const	16
	i32.add 
	local.set	5
	local.get	0
	local.get	1
	i64.const	-1
	i64.add 
	local.tee	7
	i32.wrap_i64
	local.tee	8
	i32.const	4
	i32.shl 
	i32.add 
	local.set	9
	local.get	8
	i32.const	48
	i32.mul 
	i32.const	48
	i32.and 
	v128.load	.Lstatic.3:p2align=0
	local.set	19
.LBB38_8:                               # %join.10
                                        # =>This Loop Header: Depth=1
                                        #     Child Loop BB38_10 Depth 2
	loop    	                                # label163:
	v128.const	0, 181, 220, 105, 219, 110, 7, 178, 20, 161, 200, 125, 207, 122, 19, 166
	local.get	0
	v128.load	0:p2align=0
	local.get	2
	local.get	4
	i32.wrap_i64
	i32.const	4
	i32.shl 
	i32.add 
	local.tee	13
	v128.load	0:p2align=0
	v128.xor
	local.tee	11
	v128.const	15, 15, 15, 15, 15, 15, 15, 15, 15, 15, 15, 15, 15, 15, 15, 15
	local.tee	12
	v128.and
	i8x16.swizzle
	v128.const	0, 167, 168, 15, 237, 74, 69, 226, 209, 118, 121, 222, 60, 155, 148, 51
	local.get	11
	i32.const	4
	i8x16.shr_u
	i8x16.swizzle
	v128.xor
	local.set	15
	block   	
	local.get	7
	i64.const	2
	i64.lt_u
	br_if   	0                               # 0: down to label164
# %bb.9:                                # %join.5.i.preheader
                                        #   in Loop: Header=BB38_8 Depth=1
	local.get	6
	local.set	18
	local.get	5
	local.set	8
	i32.const	48
	local.set	17
.LBB38_10:                              # %join.5.i
                                        #   Parent Loop BB38_8 Depth=1
                                        # =>  This Inner Loop Header: Depth=2
	loop    	                                # label165:
	local.get	8
	v128.load	0:p2align=0
	v128.const	0, 28, 68, 88, 151, 139, 211, 207, 138, 150, 206, 210, 29, 1, 89, 69
	v128.const	0, 5, 253, 152, 223, 191, 101, 96, 157, 66, 218, 39, 186, 34, 71, 248
	v128.const	128, 1, 9, 14, 13, 11, 7, 6, 15, 2, 12, 5, 10, 4, 3, 8
	local.tee	11
	local.get	11
	local.get	15
	i32.const	4
	i8x16.shr_u
	local.tee	14
	local.get	15
	local.get	12
	v128.and
	local.tee	15
	v128.xor
	local.tee	16
	i8x16.swizzle
	v128.const	128, 2, 1, 15, 9, 5, 14, 12, 13, 4, 11, 10, 7, 8, 6, 3
	local.get	15
	i8x16.swizzle
	local.tee	15
	v128.xor
	i8x16.swizzle
	local.get	14
	v128.xor
	local.tee	21
	i8x16.swizzle
	v128.const	0, 41, 235, 82, 166, 54, 185, 144, 123, 221, 143, 100, 31, 77, 244, 194
	local.get	11
	local.get	11
	local.get	14
	i8x16.swizzle
	local.get	15
	v128.xor
	i8x16.swizzle
	local.get	16
	v128.xor
	local.tee	11
	i8x16.swizzle
	v128.xor
	v128.const	0, 118, 62, 158, 30, 200, 160, 214, 232, 246, 104, 86, 190, 32, 128, 72
	local.get	21
	i8x16.swizzle
	v128.const	0, 91, 164, 122, 207, 74, 222, 133, 33, 238, 148, 48, 17, 107, 181, 255
	local.get	11
	i8x16.swizzle
	v128.xor
	local.get	17
	i32.const	48
	i32.and 
	local.tee	26
	v128.load	.Lstatic.6:p2align=0
	i8x16.swizzle
	v128.xor
	local.tee	11
	local.get	12
	v128.and
	i8x16.swizzle
	v128.const	0, 48, 38, 22, 183, 135, 145, 161, 65, 113, 103, 87, 246, 198, 208, 224
	local.get	11
	i32.const	4
	i8x16.shr_u
	i8x16.swizzle
	v128.xor
	local.get	11
	local.get	26
	v128.load	.Lstatic.4:p2align=0
	local.tee	15
	i8x16.swizzle
	v128.xor
	local.tee	14
	local.get	15
	i8x16.swizzle
	v128.xor
	local.get	11
	local.get	26
	v128.load	.Lstatic.5:p2align=0
	i8x16.swizzle
	v128.xor
	local.get	14
	v128.xor
	local.set	15
	local.get	8
	i32.const	16
	i32.add 
	local.set	8
	local.get	17
	i32.const	48
	i32.add 
	local.set	17
	local.get	18
	i64.const	-1
	i64.add 
	local.tee	18
	i64.const	0
	i64.ne  
	br_if   	0                               # 0: up to label165
.LBB38_11:                              # %aes_permute__blocks__process_vector____e7683a4e90f73162_.exit
                                        #   in Loop: Header=BB38_8 Depth=1
	end_loop
	end_block                               # label164:
	local.get	13
	v128.const	0, 36, 145, 25, 35, 143, 136, 172, 61, 30, 7, 150, 171, 178, 58, 181
	v128.const	128, 1, 9, 14, 13, 11, 7, 6, 15, 2, 12, 5, 10, 4, 3, 8
	local.tee	11
	local.get	11
	local.get	15
	i32.const	4
	i8x16.shr_u
	local.tee	14
	local.get	15
	local.get	12
	v128.and
	local.tee	15
	v128.xor
	local.tee	12
	i8x16.swizzle
	v128.const	128, 2, 1, 15, 9, 5, 14, 12, 13, 4, 11, 10, 7, 8, 6, 3
	local.get	15
	i8x16.swizzle
	local.tee	15
	v128.xor
	i8x16.swizzle
	local.get	14
	v128.xor
	i8x16.swizzle
	v128.const	0, 59, 228, 200, 3, 20, 44, 23, 243, 240, 56, 220, 47, 231, 203, 223
	local.get	11
	local.get	11
	local.get	14
	i8x16.swizzle
	local.get	15
	v128.xor
	i8x16.swizzle
	local.get	12
	v128.xor
	i8x16.swizzle
	v128.xor
	local.get	19
	i8x16.swizzle
	local.get	9
	v128.load	0:p2align=0
	v128.xor
	v128.store	0:p2align=0
	local.get	3
	local.get	4
	i64.const	1
	i64.add 
	local.tee	4
	i64.ne  
	br_if   	0                               # 0: up to label163
.LBB38_12:                              # %after.11
	end_loop
	end_block                               # label162:
                                        # fallthrough-return
	end_function
                                        # -- End function
	.section	.text.aes_c__blocks__fotsgure_aes_decrypt_blocks,"",@
	.type	aes_c__blocks__fotsgure_aes_decrypt_blocks,@function # -- Begin function aes_c__blocks__fotsgure_aes_decrypt_blocks
aes_c__blocks__fotsgure_aes_decrypt_blocks: # @aes_c__blocks__fotsgure_aes_decrypt_blocks
	.functype	aes_c__blocks__fotsgure_aes_decrypt_blocks (i32, i32, i64) -> (i32)
	.local  	i32, i64, i32
# %bb.0:                                # %start
	global.get	__stack_pointer
	i32.const	32
	i32.sub 
	local.tee	3
	global.set	__stack_pointer
	block   	
	block   	
	local.get	0
	i64.load32_u	0
	local.tee	4
	i64.const	32
	i64.eq  
	br_if   	0                               # 0: down to label167
# %bb.1:                                # %start
	i32.const	2
	local.set	5
	local.get	4
	i64.const	4294967287
	i64.and 
	i64.const	16
	i64.ne  
	br_if   	1                               # 1: down to label166
.LBB39_2:                               # %join.3
	end_block                               # label167:
	i32.const	0
	local.set	5
	local.get	3
	i32.const	0
	i32.store	20
	local.get	3
	i32.const	0
	i32.store	4
	local.get	3
	local.get	0
	i32.const	244
	i32.add 
	i32.store	16
	local.get	3
	local.get	0
	i32.const	4
	i32.add 
	i32.store	0
	local.get	3
	local.get	4
	i64.const	2
	i64.shr_u
	i64.const	7
	i64.add 
	local.tee	4
	i64.store	24
	local.get	3
	local.get	4
	i64.store	8
	local.get	3
	local.get	1
	local.get	2
	call	aes_hybrid__borrowed_cipher__BorrowedCipher__process_blocks____b6eb981607e07ed4_
.LBB39_3:                               # %common.ret
	end_block                               # label166:
	local.get	3
	i32.const	32
	i32.add 
	global.set	__stack_pointer
	local.get	5
                                        # fallthrough-return
	end_function
                                        # -- End function
	.section	.text.aes_hybrid__borrowed_cipher__BorrowedCipher__process_blocks____b6eb981607e07ed4_,"",@
	.type	aes_hybrid__borrowed_cipher__BorrowedCipher__process_blocks____b6eb981607e07ed4_,@function # -- Begin function aes_hybrid__borrowed_cipher__BorrowedCipher__process_blocks____b6eb981607e07ed4_
aes_hybrid__borrowed_cipher__BorrowedCipher__process_blocks____b6eb981607e07ed4_: # @aes_hybrid__borrowed_cipher__BorrowedCipher__process_blocks____b6eb981607e07ed4_
	.functype	aes_hybrid__borrowed_cipher__BorrowedCipher__process_blocks____b6eb981607e07ed4_ (i32, i32, i64) -> ()
	.local  	i64
# %bb.0:                                # %start
	i64.const	0
	local.set	3
	block   	
	local.get	2
	i64.const	15
	i64.lt_u
	br_if   	0                               # 0: down to label168
# %bb.1:                                # %join.6.i
	local.get	0
	i32.load	0:p2align=0
	local.get	0
	i64.load	8:p2align=0
	local.get	1
	local.get	2
	local.get	2
	i64.const	7
	i64.and 
	local.tee	3
	i64.const	0
	local.get	3
	i64.const	6
	i64.lt_u
	i64.select
	i64.sub 
	local.tee	3
	call	aes_hybrid__batches__process_on_planes____0fbbf5e423d2a9b1_
.LBB40_2:                               # %aes_hybrid__borrowed_cipher__process_first_on_planes____b6eb981607e07ed4_.exit
	end_block                               # label168:
	local.get	0
	i32.const	16
	i32.add 
	i32.load	0:p2align=0
	local.get	0
	i32.const	24
	i32.add 
	i64.load	0:p2align=0
	local.get	1
	local.get	3
	i32.wrap_i64
	i32.const	4
	i32.shl 
	i32.add 
	local.get	2
	local.get	3
	i64.sub 
	call	aes_permute__blocks__process_on_lanes____e7683a4e90f73162_
                                        # fallthrough-return
	end_function
                                        # -- End function
	.section	.text.aes_hybrid__batches__process_on_planes____0fbbf5e423d2a9b1_,"",@
	.type	aes_hybrid__batches__process_on_planes____0fbbf5e423d2a9b1_,@function # -- Begin function aes_hybrid__batches__process_on_planes____0fbbf5e423d2a9b1_
aes_hybrid__batches__process_on_planes____0fbbf5e423d2a9b1_: # @aes_hybrid__batches__process_on_planes____0fbbf5e423d2a9b1_
	.functype	aes_hybrid__batches__process_on_planes____0fbbf5e423d2a9b1_ (i32, i64, i32, i64) -> ()
	.local  	i32
# %bb.0:                                # %start
	global.get	__stack_pointer
	i32.const	1920
	i32.sub 
	local.tee	4
	global.set	__stack_pointer
	local.get	4
	i32.const	128
	i32.add 
	i32.const	0
	i32.const	1792
	memory.fill	0
	local.get	4
	local.get	0
	local.get	1
	call	aes_hybrid__plane_keys__store_planes____e29e0540aa8bc136_
	local.get	4
	local.get	1
	i64.const	3
	i64.shl 
	local.get	2
	local.get	3
	call	aes_hybrid__batches__process_batches_and_rest____0fbbf5e423d2a9b1_
	local.get	4
	call	aes_cipher__zeroize__zeroize_words____e29e0540aa8bc136_
	call	aes_cipher__zeroize__stack__wipe_stack____1792_
	local.get	4
	i32.const	1920
	i32.add 
	global.set	__stack_pointer
                                        # fallthrough-return
	end_function
                                        # -- End function
	.section	.text.aes_hybrid__batches__process_batches_and_rest____0fbbf5e423d2a9b1_,"",@
	.type	aes_hybrid__batches__process_batches_and_rest____0fbbf5e423d2a9b1_,@function # -- Begin function aes_hybrid__batches__process_batches_and_rest____0fbbf5e423d2a9b1_
aes_hybrid__batches__process_batches_and_rest____0fbbf5e423d2a9b1_: # @aes_hybrid__batches__process_batches_and_rest____0fbbf5e423d2a9b1_
	.functype	aes_hybrid__batches__process_batches_and_rest____0fbbf5e423d2a9b1_ (i32, i64, i32, i64) -> ()
	.local  	i32, i64, i64, i64, i32, i32, v128, v128, v128, i32, v128, v128, v128, i32, v128, v128, i32, v128, v128, v128, v128, v128, v128, v128, i32, v128, v128, v128, i32, v128, v128, i32, v128, v128, v128, v128
# %bb.0:                                # %join.5.i.lr.ph
	global.get	__stack_pointer
	i32.const	128
	i32.sub 
	local.tee	4
	global.set	__stack_pointer
	local.get	3
	i64.const	4294967288
	i64.and 
	local.set	5
	local.get	1
	i64.const	3
	i64.shr_u
	i64.const	-1
	i64.add 
	local.set	6
	i64.const	0
	local.set	7
	local.get	2
	local.set	8
.LBB42_1:                               # %join.5.i
                                        # =>This Inner Loop Header: Depth=1
	loop    	                                # label169:
	local.get	4
	local.get	8
	i32.const	64
	i32.add 
	local.tee	9
	v128.load	0:p2align=0
	local.get	10
	i8x16.shuffle	0, 4, 8, 12, 1, 5, 9, 13, 2, 6, 10, 14, 3, 7, 11, 15
	local.tee	11
	i32.const	1
	i8x16.shr_u
	local.tee	12
	local.get	8
	i32.const	80
	i32.add 
	local.tee	13
	v128.load	0:p2align=0
	local.get	10
	i8x16.shuffle	0, 4, 8, 12, 1, 5, 9, 13, 2, 6, 10, 14, 3, 7, 11, 15
	local.tee	14
	v128.const	85, 85, 85, 85, 85, 85, 85, 85, 85, 85, 85, 85, 85, 85, 85, 85
	local.tee	10
	v128.bitselect
	local.tee	15
	i32.const	2
	i8x16.shr_u
	local.tee	16
	local.get	8
	i32.const	96
	i32.add 
	local.tee	17
	v128.load	0:p2align=0
	local.get	10
	i8x16.shuffle	0, 4, 8, 12, 1, 5, 9, 13, 2, 6, 10, 14, 3, 7, 11, 15
	local.tee	18
	i32.const	1
	i8x16.shr_u
	local.tee	19
	local.get	8
	i32.const	112
	i32.add 
	local.tee	20
	v128.load	0:p2align=0
	local.get	10
	i8x16.shuffle	0, 4, 8, 12, 1, 5, 9, 13, 2, 6, 10, 14, 3, 7, 11, 15
	local.tee	21
	local.get	10
	v128.bitselect
	local.tee	22
	v128.const	51, 51, 51, 51, 51, 51, 51, 51, 51, 51, 51, 51, 51, 51, 51, 51
	local.tee	23
	v128.bitselect
	local.tee	24
	v128.const	15, 15, 15, 15, 15, 15, 15, 15, 15, 15, 15, 15, 15, 15, 15, 15
	local.tee	25
	v128.and
	local.get	8
	v128.load	0:p2align=0
	local.get	10
	i8x16.shuffle	0, 4, 8, 12, 1, 5, 9, 13, 2, 6, 10, 14, 3, 7, 11, 15
	local.tee	26
	i32.const	1
	i8x16.shr_u
	local.tee	27
	local.get	8
	i32.const	16
	i32.add 
	local.tee	28
	v128.load	0:p2align=0
	local.get	10
	i8x16.shuffle	0, 4, 8, 12, 1, 5, 9, 13, 2, 6, 10, 14, 3, 7, 11, 15
	local.tee	29
	local.get	10
	v128.bitselect
	local.tee	30
	i32.const	2
	i8x16.shr_u
	local.tee	31
	local.get	8
	i32.const	32
	i32.add 
	local.tee	32
	v128.load	0:p2align=0
	local.get	10
	i8x16.shuffle	0, 4, 8, 12, 1, 5, 9, 13, 2, 6, 10, 14, 3, 7, 11, 15
	local.tee	33
	i32.const	1
	i8x16.shr_u
	local.tee	34
	local.get	8
	i32.const	48
	i32.add 
	local.tee	35
	v128.load	0:p2align=0
	local.get	10
	i8x16.shuffle	0, 4, 8, 12, 1, 5, 9, 13, 2, 6, 10, 14, 3, 7, 11, 15
	local.tee	36
	local.get	10
	v128.bitselect
	local.tee	37
	local.get	23
	v128.bitselect
	local.tee	38
	i32.const	4
	i8x16.shr_u
	v128.xor
	local.tee	39
	local.get	24
	v128.xor
	v128.store	112
	local.get	4
	local.get	39
	i32.const	4
	i8x16.shl
	local.get	38
	v128.xor
	v128.store	48
	local.get	4
	local.get	14
	local.get	12
	v128.xor
	local.get	10
	v128.and
	i32.const	1
	i8x16.shl
	local.get	11
	v128.xor
	local.tee	11
	i32.const	2
	i8x16.shr_u
	local.tee	12
	local.get	21
	local.get	19
	v128.xor
	local.get	10
	v128.and
	i32.const	1
	i8x16.shl
	local.get	18
	v128.xor
	local.tee	14
	local.get	23
	v128.bitselect
	local.tee	18
	local.get	25
	v128.and
	local.get	29
	local.get	27
	v128.xor
	local.get	10
	v128.and
	i32.const	1
	i8x16.shl
	local.get	26
	v128.xor
	local.tee	19
	i32.const	2
	i8x16.shr_u
	local.tee	21
	local.get	36
	local.get	34
	v128.xor
	local.get	10
	v128.and
	i32.const	1
	i8x16.shl
	local.get	33
	v128.xor
	local.tee	24
	local.get	23
	v128.bitselect
	local.tee	26
	i32.const	4
	i8x16.shr_u
	v128.xor
	local.tee	27
	local.get	18
	v128.xor
	v128.store	96
	local.get	4
	local.get	22
	local.get	16
	v128.xor
	local.get	23
	v128.and
	i32.const	2
	i8x16.shl
	local.get	15
	v128.xor
	local.tee	15
	local.get	25
	v128.and
	local.get	37
	local.get	31
	v128.xor
	local.get	23
	v128.and
	i32.const	2
	i8x16.shl
	local.get	30
	v128.xor
	local.tee	16
	i32.const	4
	i8x16.shr_u
	v128.xor
	local.tee	18
	local.get	15
	v128.xor
	v128.store	80
	local.get	4
	local.get	27
	i32.const	4
	i8x16.shl
	local.get	26
	v128.xor
	v128.store	32
	local.get	4
	local.get	18
	i32.const	4
	i8x16.shl
	local.get	16
	v128.xor
	v128.store	16
	local.get	4
	local.get	14
	local.get	12
	v128.xor
	local.get	23
	v128.and
	i32.const	2
	i8x16.shl
	local.get	11
	v128.xor
	local.tee	11
	local.get	25
	v128.and
	local.get	24
	local.get	21
	v128.xor
	local.get	23
	v128.and
	i32.const	2
	i8x16.shl
	local.get	19
	v128.xor
	local.tee	12
	i32.const	4
	i8x16.shr_u
	v128.xor
	local.tee	14
	local.get	11
	v128.xor
	v128.store	64
	local.get	4
	local.get	14
	i32.const	4
	i8x16.shl
	local.get	12
	v128.xor
	v128.store	0
	local.get	0
	local.get	6
	local.get	4
	call	aes_soft__soft__ciphers__planes__DecryptPlaneCipher__process_planes____f2467153fb0a218d_
	local.get	20
	local.get	4
	v128.load	64
	local.tee	11
	i32.const	1
	i8x16.shr_u
	local.tee	12
	local.get	4
	v128.load	80
	local.tee	14
	local.get	10
	v128.bitselect
	local.tee	15
	i32.const	2
	i8x16.shr_u
	local.tee	16
	local.get	4
	v128.load	96
	local.tee	18
	i32.const	1
	i8x16.shr_u
	local.tee	19
	local.get	4
	v128.load	112
	local.tee	21
	local.get	10
	v128.bitselect
	local.tee	22
	local.get	23
	v128.bitselect
	local.tee	24
	local.get	25
	v128.and
	local.get	4
	v128.load	0
	local.tee	26
	i32.const	1
	i8x16.shr_u
	local.tee	27
	local.get	4
	v128.load	16
	local.tee	29
	local.get	10
	v128.bitselect
	local.tee	30
	i32.const	2
	i8x16.shr_u
	local.tee	31
	local.get	4
	v128.load	32
	local.tee	33
	i32.const	1
	i8x16.shr_u
	local.tee	34
	local.get	4
	v128.load	48
	local.tee	36
	local.get	10
	v128.bitselect
	local.tee	37
	local.get	23
	v128.bitselect
	local.tee	38
	i32.const	4
	i8x16.shr_u
	v128.xor
	local.tee	39
	local.get	24
	v128.xor
	local.get	10
	i8x16.shuffle	0, 4, 8, 12, 1, 5, 9, 13, 2, 6, 10, 14, 3, 7, 11, 15
	v128.store	0:p2align=0
	local.get	35
	local.get	39
	i32.const	4
	i8x16.shl
	local.get	38
	v128.xor
	local.get	10
	i8x16.shuffle	0, 4, 8, 12, 1, 5, 9, 13, 2, 6, 10, 14, 3, 7, 11, 15
	v128.store	0:p2align=0
	local.get	17
	local.get	11
	local.get	14
	local.get	12
	v128.xor
	local.get	10
	v128.and
	i32.const	1
	i8x16.shl
	v128.xor
	local.tee	11
	i32.const	2
	i8x16.shr_u
	local.tee	12
	local.get	18
	local.get	21
	local.get	19
	v128.xor
	local.get	10
	v128.and
	i32.const	1
	i8x16.shl
	v128.xor
	local.tee	14
	local.get	23
	v128.bitselect
	local.tee	18
	local.get	25
	v128.and
	local.get	26
	local.get	29
	local.get	27
	v128.xor
	local.get	10
	v128.and
	i32.const	1
	i8x16.shl
	v128.xor
	local.tee	19
	i32.const	2
	i8x16.shr_u
	local.tee	21
	local.get	33
	local.get	36
	local.get	34
	v128.xor
	local.get	10
	v128.and
	i32.const	1
	i8x16.shl
	v128.xor
	local.tee	10
	local.get	23
	v128.bitselect
	local.tee	24
	i32.const	4
	i8x16.shr_u
	v128.xor
	local.tee	26
	local.get	18
	v128.xor
	local.get	10
	i8x16.shuffle	0, 4, 8, 12, 1, 5, 9, 13, 2, 6, 10, 14, 3, 7, 11, 15
	v128.store	0:p2align=0
	local.get	13
	local.get	22
	local.get	16
	v128.xor
	local.get	23
	v128.and
	i32.const	2
	i8x16.shl
	local.get	15
	v128.xor
	local.tee	15
	local.get	25
	v128.and
	local.get	37
	local.get	31
	v128.xor
	local.get	23
	v128.and
	i32.const	2
	i8x16.shl
	local.get	30
	v128.xor
	local.tee	16
	i32.const	4
	i8x16.shr_u
	v128.xor
	local.tee	18
	local.get	15
	v128.xor
	local.get	10
	i8x16.shuffle	0, 4, 8, 12, 1, 5, 9, 13, 2, 6, 10, 14, 3, 7, 11, 15
	v128.store	0:p2align=0
	local.get	32
	local.get	26
	i32.const	4
	i8x16.shl
	local.get	24
	v128.xor
	local.get	10
	i8x16.shuffle	0, 4, 8, 12, 1, 5, 9, 13, 2, 6, 10, 14, 3, 7, 11, 15
	v128.store	0:p2align=0
	local.get	28
	local.get	18
	i32.const	4
	i8x16.shl
	local.get	16
	v128.xor
	local.get	10
	i8x16.shuffle	0, 4, 8, 12, 1, 5, 9, 13, 2, 6, 10, 14, 3, 7, 11, 15
	v128.store	0:p2align=0
	local.get	9
	local.get	14
	local.get	12
	v128.xor
	local.get	23
	v128.and
	i32.const	2
	i8x16.shl
	local.get	11
	v128.xor
	local.tee	11
	local.get	25
	v128.and
	local.get	10
	local.get	21
	v128.xor
	local.get	23
	v128.and
	i32.const	2
	i8x16.shl
	local.get	19
	v128.xor
	local.tee	10
	i32.const	4
	i8x16.shr_u
	v128.xor
	local.tee	23
	local.get	11
	v128.xor
	local.get	10
	i8x16.shuffle	0, 4, 8, 12, 1, 5, 9, 13, 2, 6, 10, 14, 3, 7, 11, 15
	v128.store	0:p2align=0
	local.get	8
	local.get	23
	i32.const	4
	i8x16.shl
	local.get	10
	v128.xor
	local.get	10
	i8x16.shuffle	0, 4, 8, 12, 1, 5, 9, 13, 2, 6, 10, 14, 3, 7, 11, 15
	v128.store	0:p2align=0
	local.get	8
	i32.const	128
	i32.add 
	local.set	8
	local.get	7
	i64.const	8
	i64.add 
	local.tee	7
	local.get	5
	i64.lt_u
	br_if   	0                               # 0: up to label169
# %bb.2:                                # %aes_soft__soft__blocks__slices__process_batches_under____08d50db34e92a375_.exit
	end_loop
	block   	
	local.get	5
	local.get	3
	i64.eq  
	br_if   	0                               # 0: down to label170
# %bb.3:                                # %then.3
	local.get	0
	local.get	1
	local.get	2
	local.get	5
	i32.wrap_i64
	i32.const	4
	i32.shl 
	i32.add 
	local.get	3
	i64.const	7
	i64.and 
	call	aes_soft__soft__blocks__filled_up__process_filled_up____0fbbf5e423d2a9b1_
.LBB42_4:                               # %join.5
	end_block                               # label170:
	local.get	4
	i32.const	128
	i32.add 
	global.set	__stack_pointer
                                        # fallthrough-return
	end_function
                                        # -- End function
	.section	.text.aes_soft__soft__blocks__filled_up__process_filled_up____0fbbf5e423d2a9b1_,"",@
	.type	aes_soft__soft__blocks__filled_up__process_filled_up____0fbbf5e423d2a9b1_,@function # -- Begin function aes_soft__soft__blocks__filled_up__process_filled_up____0fbbf5e423d2a9b1_
aes_soft__soft__blocks__filled_up__process_filled_up____0fbbf5e423d2a9b1_: # @aes_soft__soft__blocks__filled_up__process_filled_up____0fbbf5e423d2a9b1_
	.functype	aes_soft__soft__blocks__filled_up__process_filled_up____0fbbf5e423d2a9b1_ (i32, i64, i32, i64) -> ()
	.local  	i32, v128, i32, i64
# %bb.0:                                # %start
	global.get	__stack_pointer
	i32.const	384
	i32.sub 
	local.tee	4
	global.set	__stack_pointer
	local.get	4
	i32.const	128
	i32.add 
	i32.const	0
	i32.const	128
	memory.fill	0
	local.get	4
	i32.const	0
	i32.const	128
	memory.fill	0
	local.get	4
	local.get	2
	v128.load	0:p2align=0
	local.tee	5
	v128.store	256:p2align=3
	local.get	4
	local.get	5
	v128.store	272:p2align=3
	local.get	4
	local.get	5
	v128.store	288:p2align=3
	local.get	4
	local.get	5
	v128.store	304:p2align=3
	local.get	4
	local.get	5
	v128.store	320:p2align=3
	local.get	4
	local.get	5
	v128.store	336:p2align=3
	local.get	4
	local.get	5
	v128.store	352:p2align=3
	local.get	4
	local.get	5
	v128.store	368:p2align=3
	local.get	1
	i64.const	3
	i64.shr_u
	i64.const	-1
	i64.add 
	local.set	1
	block   	
	block   	
	local.get	3
	i64.eqz
	br_if   	0                               # 0: down to label172
# %bb.1:                                # %join.8.i
	local.get	4
	local.get	2
	v128.load	0:p2align=0
	v128.store	256:p2align=3
	block   	
	local.get	3
	i64.const	1
	i64.eq  
	local.tee	6
	br_if   	0                               # 0: down to label173
# %bb.2:                                # %join.8.i.1
	local.get	4
	local.get	2
	v128.load	16:p2align=0
	v128.store	272:p2align=3
	local.get	3
	i64.const	2
	i64.eq  
	br_if   	0                               # 0: down to label173
# %bb.3:                                # %join.8.i.2
	local.get	4
	local.get	2
	v128.load	32:p2align=0
	v128.store	288:p2align=3
	local.get	3
	i64.const	3
	i64.eq  
	br_if   	0                               # 0: down to label173
# %bb.4:                                # %join.8.i.3
	local.get	4
	local.get	2
	v128.load	48:p2align=0
	v128.store	304:p2align=3
	local.get	3
	i64.const	4
	i64.eq  
	br_if   	0                               # 0: down to label173
# %bb.5:                                # %join.8.i.4
	local.get	4
	local.get	2
	v128.load	64:p2align=0
	v128.store	320:p2align=3
	local.get	3
	i64.const	5
	i64.eq  
	br_if   	0                               # 0: down to label173
# %bb.6:                                # %join.8.i.5
	local.get	4
	local.get	2
	v128.load	80:p2align=0
	v128.store	336:p2align=3
	local.get	3
	i64.const	6
	i64.eq  
	br_if   	0                               # 0: down to label173
# %bb.7:                                # %join.8.i.6
	local.get	4
	local.get	2
	v128.load	96:p2align=0
	v128.store	352:p2align=3
.LBB43_8:                               # %aes_soft__soft__blocks__filled_up__filled_up____3fb8a7784760496e_.exit
	end_block                               # label173:
	local.get	4
	local.get	0
	local.get	1
	local.get	4
	i32.const	256
	i32.add 
	call	aes_soft__soft__ciphers__planes__process_outlined____0cf5cff84c52603c_
	local.get	4
	i32.const	128
	i32.add 
	local.get	4
	i32.const	128
	memory.copy	0, 0
	i64.const	0
	local.set	1
	block   	
	local.get	6
	br_if   	0                               # 0: down to label174
# %bb.9:                                # %aes_soft__soft__blocks__filled_up__filled_up____3fb8a7784760496e_.exit.new
	local.get	3
	i64.const	1
	i64.and 
	local.set	7
	local.get	3
	i64.const	6
	i64.and 
	local.set	3
	i64.const	0
	local.set	1
	local.get	4
	i32.const	128
	i32.add 
	local.set	0
	local.get	2
	local.set	6
.LBB43_10:                              # %join.8.i22
                                        # =>This Inner Loop Header: Depth=1
	loop    	                                # label175:
	local.get	6
	local.get	0
	v128.load	0:p2align=0
	v128.store	0:p2align=0
	local.get	6
	i32.const	16
	i32.add 
	local.get	0
	i32.const	16
	i32.add 
	v128.load	0:p2align=0
	v128.store	0:p2align=0
	local.get	6
	i32.const	32
	i32.add 
	local.set	6
	local.get	0
	i32.const	32
	i32.add 
	local.set	0
	local.get	3
	local.get	1
	i64.const	2
	i64.add 
	local.tee	1
	i64.ne  
	br_if   	0                               # 0: up to label175
# %bb.11:                               # %aes_soft__soft__blocks__filled_up__copy_first____3fb8a7784760496e_.exit.loopexit.unr-lcssa
	end_loop
	local.get	7
	i64.eqz
	br_if   	2                               # 2: down to label171
.LBB43_12:                              # %join.8.i22.epil.preheader
	end_block                               # label174:
	local.get	2
	local.get	1
	i32.wrap_i64
	i32.const	4
	i32.shl 
	local.tee	0
	i32.add 
	local.get	4
	i32.const	128
	i32.add 
	local.get	0
	i32.add 
	v128.load	0:p2align=0
	v128.store	0:p2align=0
	br      	1                               # 1: down to label171
.LBB43_13:                              # %aes_soft__soft__blocks__filled_up__copy_first____3fb8a7784760496e_.exit.critedge
	end_block                               # label172:
	local.get	4
	local.get	0
	local.get	1
	local.get	4
	i32.const	256
	i32.add 
	call	aes_soft__soft__ciphers__planes__process_outlined____0cf5cff84c52603c_
	local.get	4
	i32.const	128
	i32.add 
	local.get	4
	i32.const	128
	memory.copy	0, 0
.LBB43_14:                              # %aes_soft__soft__blocks__filled_up__copy_first____3fb8a7784760496e_.exit
	end_block                               # label171:
	local.get	4
	i32.const	384
	i32.add 
	global.set	__stack_pointer
                                        # fallthrough-return
	end_function
                                        # -- End function
	.section	.text.key_wrap__wrapping__unwrap____bc4275ba8002e6b4_,"",@
	.type	key_wrap__wrapping__unwrap____bc4275ba8002e6b4_,@function # -- Begin function key_wrap__wrapping__unwrap____bc4275ba8002e6b4_
key_wrap__wrapping__unwrap____bc4275ba8002e6b4_: # @key_wrap__wrapping__unwrap____bc4275ba8002e6b4_
	.functype	key_wrap__wrapping__unwrap____bc4275ba8002e6b4_ (i32, i32, i32, i64, i32, i64) -> ()
	.local  	i32, i32, i32, i64, i64, i64, i64, i32, i32, i32
# %bb.0:                                # %start
	global.get	__stack_pointer
	i32.const	16
	i32.sub 
	local.tee	6
	global.set	__stack_pointer
	i32.const	1
	local.set	7
	i32.const	0
	local.set	8
	block   	
	local.get	5
	i64.const	2
	i64.lt_u
	br_if   	0                               # 0: down to label176
# %bb.1:                                # %start
	local.get	3
	local.get	5
	i64.const	1
	i64.add 
	i64.ne  
	br_if   	0                               # 0: down to label176
# %bb.2:                                # %after.1
	block   	
	block   	
	local.get	4
	i64.extend_i32_u
	local.get	2
	i32.const	8
	i32.add 
	local.tee	7
	i64.extend_i32_u
	i64.sub 
	local.get	3
	i64.const	-1
	i64.add 
	local.tee	9
	i64.const	3
	i64.shl 
	local.tee	10
	i64.ge_u
	br_if   	0                               # 0: down to label178
# %bb.3:                                # %join.7.i.i.i.i.i.i.i.i.preheader
	i64.const	0
	local.set	11
	block   	
	local.get	9
	i64.const	6
	i64.lt_u
	br_if   	0                               # 0: down to label179
# %bb.4:                                # %vector.memcheck
	local.get	4
	local.get	2
	i32.sub 
	i32.const	-8
	i32.add 
	i32.const	16
	i32.lt_u
	br_if   	0                               # 0: down to label179
# %bb.5:                                # %vector.ph
	local.get	4
	local.set	8
	local.get	9
	i64.const	-2
	i64.and 
	local.tee	11
	local.set	10
.LBB44_6:                               # %vector.body
                                        # =>This Inner Loop Header: Depth=1
	loop    	                                # label180:
	local.get	8
	local.get	7
	v128.load	0:p2align=0
	v128.store	0:p2align=0
	local.get	8
	i32.const	16
	i32.add 
	local.set	8
	local.get	7
	i32.const	16
	i32.add 
	local.set	7
	local.get	10
	i64.const	-2
	i64.add 
	local.tee	10
	i64.const	0
	i64.ne  
	br_if   	0                               # 0: up to label180
# %bb.7:                                # %middle.block
	end_loop
	local.get	9
	local.get	11
	i64.eq  
	br_if   	2                               # 2: down to label177
.LBB44_8:                               # %join.7.i.i.i.i.i.i.i.i.preheader12
	end_block                               # label179:
	local.get	3
	local.get	11
	i64.sub 
	i64.const	-2
	i64.add 
	local.set	9
	block   	
	local.get	3
	local.get	11
	i64.const	-1
	i64.xor 
	i64.add 
	i64.const	3
	i64.and 
	local.tee	10
	i64.eqz
	br_if   	0                               # 0: down to label181
# %bb.9:                                # %join.7.i.i.i.i.i.i.i.i.prol.preheader
	local.get	11
	local.get	10
	i64.add 
	local.set	12
	local.get	4
	local.get	11
	i32.wrap_i64
	i32.const	3
	i32.shl 
	local.tee	8
	i32.add 
	local.set	7
	local.get	8
	local.get	2
	i32.add 
	i32.const	8
	i32.add 
	local.set	8
.LBB44_10:                              # %join.7.i.i.i.i.i.i.i.i.prol
                                        # =>This Inner Loop Header: Depth=1
	loop    	                                # label182:
	local.get	7
	local.get	8
	i64.load	0:p2align=0
	i64.store	0:p2align=0
	local.get	7
	i32.const	8
	i32.add 
	local.set	7
	local.get	8
	i32.const	8
	i32.add 
	local.set	8
	local.get	10
	i64.const	-1
	i64.add 
	local.tee	10
	i64.const	0
	i64.ne  
	br_if   	0                               # 0: up to label182
# %bb.11:
	end_loop
	local.get	12
	local.set	11
.LBB44_12:                              # %join.7.i.i.i.i.i.i.i.i.prol.loopexit
	end_block                               # label181:
	local.get	9
	i64.const	3
	i64.lt_u
	br_if   	1                               # 1: down to label177
# %bb.13:                               # %join.7.i.i.i.i.i.i.i.i.preheader13
	local.get	11
	i64.const	-1
	i64.xor 
	local.get	3
	i64.add 
	local.set	10
	local.get	11
	i32.wrap_i64
	i32.const	3
	i32.shl 
	local.set	13
	local.get	2
	local.set	14
	local.get	4
	local.set	15
.LBB44_14:                              # %join.7.i.i.i.i.i.i.i.i
                                        # =>This Inner Loop Header: Depth=1
	loop    	                                # label183:
	local.get	15
	local.get	13
	i32.add 
	local.tee	7
	local.get	14
	local.get	13
	i32.add 
	local.tee	8
	i32.const	8
	i32.add 
	i64.load	0:p2align=0
	i64.store	0:p2align=0
	local.get	7
	i32.const	8
	i32.add 
	local.get	8
	i32.const	16
	i32.add 
	i64.load	0:p2align=0
	i64.store	0:p2align=0
	local.get	7
	i32.const	16
	i32.add 
	local.get	8
	i32.const	24
	i32.add 
	i64.load	0:p2align=0
	i64.store	0:p2align=0
	local.get	7
	i32.const	24
	i32.add 
	local.get	8
	i32.const	32
	i32.add 
	i64.load	0:p2align=0
	i64.store	0:p2align=0
	local.get	14
	i32.const	32
	i32.add 
	local.set	14
	local.get	15
	i32.const	32
	i32.add 
	local.set	15
	local.get	10
	i64.const	-4
	i64.add 
	local.tee	10
	i64.const	0
	i64.ne  
	br_if   	0                               # 0: up to label183
	br      	2                               # 2: down to label177
.LBB44_15:                              # %apart.2.i.i.i.i.i.i.i.i
	end_loop
	end_block                               # label178:
	local.get	10
	i32.wrap_i64
	local.tee	8
	i32.eqz
	br_if   	0                               # 0: down to label177
# %bb.16:                               # %apart.2.i.i.i.i.i.i.i.i
	local.get	4
	local.get	7
	local.get	8
	memory.copy	0, 0
.LBB44_17:                              # %key_wrap__wrapping__unwrap_all____bc4275ba8002e6b4_.exit
	end_block                               # label177:
	local.get	6
	local.get	2
	i64.load	0:p2align=0
	i64.store	0
	local.get	1
	local.get	6
	local.get	4
	local.get	5
	call	key_wrap__steps__unwrap_in_place____bc4275ba8002e6b4_
	local.get	6
	i64.load	0
	local.set	10
	local.get	6
	i64.const	-6438275382588823898
	i64.store	8
	local.get	6
	local.get	10
	i64.store	0
	block   	
	local.get	6
	i32.const	.Lstatic.8
	call	aes_cipher__blocks__difference
	br_if   	0                               # 0: down to label184
# %bb.18:
	i32.const	0
	local.set	8
	i32.const	0
	local.set	7
	br      	1                               # 1: down to label176
.LBB44_19:                              # %loop.5.preheader.i
	end_block                               # label184:
	block   	
	local.get	5
	i32.wrap_i64
	i32.const	3
	i32.shl 
	i32.const	-8
	i32.add 
	local.tee	7
	i32.eqz
	br_if   	0                               # 0: down to label185
# %bb.20:                               # %loop.5.preheader.i
	local.get	4
	i32.const	0
	local.get	7
	memory.fill	0
.LBB44_21:                              # %loop.5.preheader.i
	end_block                               # label185:
	local.get	7
	local.get	4
	i32.add 
	i64.const	0
	i64.store	0:p2align=0
	i32.const	1
	local.set	8
	i32.const	1
	local.set	7
.LBB44_22:                              # %return.10
	end_block                               # label176:
	local.get	0
	local.get	8
	i32.store8	1
	local.get	0
	local.get	7
	i32.store8	0
	local.get	6
	i32.const	16
	i32.add 
	global.set	__stack_pointer
                                        # fallthrough-return
	end_function
                                        # -- End function
	.section	.text.key_wrap__steps__unwrap_in_place____bc4275ba8002e6b4_,"",@
	.type	key_wrap__steps__unwrap_in_place____bc4275ba8002e6b4_,@function # -- Begin function key_wrap__steps__unwrap_in_place____bc4275ba8002e6b4_
key_wrap__steps__unwrap_in_place____bc4275ba8002e6b4_: # @key_wrap__steps__unwrap_in_place____bc4275ba8002e6b4_
	.functype	key_wrap__steps__unwrap_in_place____bc4275ba8002e6b4_ (i32, i32, i32, i64) -> ()
	.local  	i64, i32, i32, i64
# %bb.0:                                # %start
	block   	
	local.get	3
	i64.eqz
	br_if   	0                               # 0: down to label186
# %bb.1:                                # %join.5.lr.ph.i
	local.get	3
	i64.const	6
	i64.mul 
	local.set	4
	local.get	3
	i32.wrap_i64
	local.tee	5
	i32.const	3
	i32.shl 
	local.get	2
	i32.add 
	i32.const	-8
	i32.add 
	local.set	6
	local.get	3
	local.set	7
.LBB45_2:                               # %join.5.i
                                        # =>This Inner Loop Header: Depth=1
	loop    	                                # label187:
	local.get	1
	local.get	4
	i64.const	56
	i64.shl 
	local.get	4
	i64.const	65280
	i64.and 
	i64.const	40
	i64.shl 
	i64.or  
	local.get	4
	i64.const	16711680
	i64.and 
	i64.const	24
	i64.shl 
	local.get	4
	i64.const	4278190080
	i64.and 
	i64.const	8
	i64.shl 
	i64.or  
	i64.or  
	local.get	4
	i64.const	8
	i64.shr_u
	i64.const	4278190080
	i64.and 
	local.get	4
	i64.const	24
	i64.shr_u
	i64.const	16711680
	i64.and 
	i64.or  
	local.get	4
	i64.const	40
	i64.shr_u
	i64.const	65280
	i64.and 
	local.get	4
	i64.const	56
	i64.shr_u
	i64.or  
	i64.or  
	i64.or  
	local.get	1
	i64.load	0:p2align=0
	i64.xor 
	i64.store	0:p2align=0
	local.get	0
	local.get	1
	local.get	6
	call	key_wrap__steps__decrypt_halves____bc4275ba8002e6b4_
	local.get	6
	i32.const	-8
	i32.add 
	local.set	6
	local.get	4
	i64.const	-1
	i64.add 
	local.set	4
	local.get	7
	i64.const	-1
	i64.add 
	local.tee	7
	i64.const	0
	i64.ne  
	br_if   	0                               # 0: up to label187
# %bb.3:                                # %join.5.lr.ph.i.1
	end_loop
	local.get	3
	i64.const	5
	i64.mul 
	local.set	4
	local.get	5
	i32.const	3
	i32.shl 
	local.get	2
	i32.add 
	i32.const	-8
	i32.add 
	local.set	6
	local.get	3
	local.set	7
.LBB45_4:                               # %join.5.i.1
                                        # =>This Inner Loop Header: Depth=1
	loop    	                                # label188:
	local.get	1
	local.get	4
	i64.const	56
	i64.shl 
	local.get	4
	i64.const	65280
	i64.and 
	i64.const	40
	i64.shl 
	i64.or  
	local.get	4
	i64.const	16711680
	i64.and 
	i64.const	24
	i64.shl 
	local.get	4
	i64.const	4278190080
	i64.and 
	i64.const	8
	i64.shl 
	i64.or  
	i64.or  
	local.get	4
	i64.const	8
	i64.shr_u
	i64.const	4278190080
	i64.and 
	local.get	4
	i64.const	24
	i64.shr_u
	i64.const	16711680
	i64.and 
	i64.or  
	local.get	4
	i64.const	40
	i64.shr_u
	i64.const	65280
	i64.and 
	local.get	4
	i64.const	56
	i64.shr_u
	i64.or  
	i64.or  
	i64.or  
	local.get	1
	i64.load	0:p2align=0
	i64.xor 
	i64.store	0:p2align=0
	local.get	0
	local.get	1
	local.get	6
	call	key_wrap__steps__decrypt_halves____bc4275ba8002e6b4_
	local.get	6
	i32.const	-8
	i32.add 
	local.set	6
	local.get	4
	i64.const	-1
	i64.add 
	local.set	4
	local.get	7
	i64.const	-1
	i64.add 
	local.tee	7
	i64.const	0
	i64.ne  
	br_if   	0                               # 0: up to label188
# %bb.5:                                # %join.5.lr.ph.i.2
	end_loop
	local.get	3
	i64.const	2
	i64.shl 
	local.set	4
	local.get	5
	i32.const	3
	i32.shl 
	local.get	2
	i32.add 
	i32.const	-8
	i32.add 
	local.set	6
	local.get	3
	local.set	7
.LBB45_6:                               # %join.5.i.2
                                        # =>This Inner Loop Header: Depth=1
	loop    	                                # label189:
	local.get	1
	local.get	4
	i64.const	56
	i64.shl 
	local.get	4
	i64.const	65280
	i64.and 
	i64.const	40
	i64.shl 
	i64.or  
	local.get	4
	i64.const	16711680
	i64.and 
	i64.const	24
	i64.shl 
	local.get	4
	i64.const	4278190080
	i64.and 
	i64.const	8
	i64.shl 
	i64.or  
	i64.or  
	local.get	4
	i64.const	8
	i64.shr_u
	i64.const	4278190080
	i64.and 
	local.get	4
	i64.const	24
	i64.shr_u
	i64.const	16711680
	i64.and 
	i64.or  
	local.get	4
	i64.const	40
	i64.shr_u
	i64.const	65280
	i64.and 
	local.get	4
	i64.const	56
	i64.shr_u
	i64.or  
	i64.or  
	i64.or  
	local.get	1
	i64.load	0:p2align=0
	i64.xor 
	i64.store	0:p2align=0
	local.get	0
	local.get	1
	local.get	6
	call	key_wrap__steps__decrypt_halves____bc4275ba8002e6b4_
	local.get	6
	i32.const	-8
	i32.add 
	local.set	6
	local.get	4
	i64.const	-1
	i64.add 
	local.set	4
	local.get	7
	i64.const	-1
	i64.add 
	local.tee	7
	i64.const	0
	i64.ne  
	br_if   	0                               # 0: up to label189
# %bb.7:                                # %join.5.lr.ph.i.3
	end_loop
	local.get	3
	i64.const	3
	i64.mul 
	local.set	4
	local.get	5
	i32.const	3
	i32.shl 
	local.get	2
	i32.add 
	i32.const	-8
	i32.add 
	local.set	6
	local.get	3
	local.set	7
.LBB45_8:                               # %join.5.i.3
                                        # =>This Inner Loop Header: Depth=1
	loop    	                                # label190:
	local.get	1
	local.get	4
	i64.const	56
	i64.shl 
	local.get	4
	i64.const	65280
	i64.and 
	i64.const	40
	i64.shl 
	i64.or  
	local.get	4
	i64.const	16711680
	i64.and 
	i64.const	24
	i64.shl 
	local.get	4
	i64.const	4278190080
	i64.and 
	i64.const	8
	i64.shl 
	i64.or  
	i64.or  
	local.get	4
	i64.const	8
	i64.shr_u
	i64.const	4278190080
	i64.and 
	local.get	4
	i64.const	24
	i64.shr_u
	i64.const	16711680
	i64.and 
	i64.or  
	local.get	4
	i64.const	40
	i64.shr_u
	i64.const	65280
	i64.and 
	local.get	4
	i64.const	56
	i64.shr_u
	i64.or  
	i64.or  
	i64.or  
	local.get	1
	i64.load	0:p2align=0
	i64.xor 
	i64.store	0:p2align=0
	local.get	0
	local.get	1
	local.get	6
	call	key_wrap__steps__decrypt_halves____bc4275ba8002e6b4_
	local.get	6
	i32.const	-8
	i32.add 
	local.set	6
	local.get	4
	i64.const	-1
	i64.add 
	local.set	4
	local.get	7
	i64.const	-1
	i64.add 
	local.tee	7
	i64.const	0
	i64.ne  
	br_if   	0                               # 0: up to label190
# %bb.9:                                # %join.5.lr.ph.i.4
	end_loop
	local.get	3
	i64.const	1
	i64.shl 
	local.set	4
	local.get	5
	i32.const	3
	i32.shl 
	local.get	2
	i32.add 
	i32.const	-8
	i32.add 
	local.set	6
	local.get	3
	local.set	7
.LBB45_10:                              # %join.5.i.4
                                        # =>This Inner Loop Header: Depth=1
	loop    	                                # label191:
	local.get	1
	local.get	4
	i64.const	56
	i64.shl 
	local.get	4
	i64.const	65280
	i64.and 
	i64.const	40
	i64.shl 
	i64.or  
	local.get	4
	i64.const	16711680
	i64.and 
	i64.const	24
	i64.shl 
	local.get	4
	i64.const	4278190080
	i64.and 
	i64.const	8
	i64.shl 
	i64.or  
	i64.or  
	local.get	4
	i64.const	8
	i64.shr_u
	i64.const	4278190080
	i64.and 
	local.get	4
	i64.const	24
	i64.shr_u
	i64.const	16711680
	i64.and 
	i64.or  
	local.get	4
	i64.const	40
	i64.shr_u
	i64.const	65280
	i64.and 
	local.get	4
	i64.const	56
	i64.shr_u
	i64.or  
	i64.or  
	i64.or  
	local.get	1
	i64.load	0:p2align=0
	i64.xor 
	i64.store	0:p2align=0
	local.get	0
	local.get	1
	local.get	6
	call	key_wrap__steps__decrypt_halves____bc4275ba8002e6b4_
	local.get	6
	i32.const	-8
	i32.add 
	local.set	6
	local.get	4
	i64.const	-1
	i64.add 
	local.set	4
	local.get	7
	i64.const	-1
	i64.add 
	local.tee	7
	i64.const	0
	i64.ne  
	br_if   	0                               # 0: up to label191
# %bb.11:                               # %join.5.i.5.preheader
	end_loop
	local.get	5
	i32.const	3
	i32.shl 
	local.get	2
	i32.add 
	i32.const	-8
	i32.add 
	local.set	6
.LBB45_12:                              # %join.5.i.5
                                        # =>This Inner Loop Header: Depth=1
	loop    	                                # label192:
	local.get	1
	local.get	3
	i64.const	56
	i64.shl 
	local.get	3
	i64.const	65280
	i64.and 
	i64.const	40
	i64.shl 
	i64.or  
	local.get	3
	i64.const	16711680
	i64.and 
	i64.const	24
	i64.shl 
	local.get	3
	i64.const	4278190080
	i64.and 
	i64.const	8
	i64.shl 
	i64.or  
	i64.or  
	local.get	3
	i64.const	8
	i64.shr_u
	i64.const	4278190080
	i64.and 
	local.get	3
	i64.const	24
	i64.shr_u
	i64.const	16711680
	i64.and 
	i64.or  
	local.get	3
	i64.const	40
	i64.shr_u
	i64.const	65280
	i64.and 
	local.get	3
	i64.const	56
	i64.shr_u
	i64.or  
	i64.or  
	i64.or  
	local.get	1
	i64.load	0:p2align=0
	i64.xor 
	i64.store	0:p2align=0
	local.get	0
	local.get	1
	local.get	6
	call	key_wrap__steps__decrypt_halves____bc4275ba8002e6b4_
	local.get	6
	i32.const	-8
	i32.add 
	local.set	6
	local.get	3
	i64.const	-1
	i64.add 
	local.tee	3
	i64.const	0
	i64.ne  
	br_if   	0                               # 0: up to label192
.LBB45_13:                              # %key_wrap__steps__unwrap_turn____bc4275ba8002e6b4_.exit.5
	end_loop
	end_block                               # label186:
                                        # fallthrough-return
	end_function
                                        # -- End function
	.section	.text.key_wrap__steps__decrypt_halves____bc4275ba8002e6b4_,"",@
	.type	key_wrap__steps__decrypt_halves____bc4275ba8002e6b4_,@function # -- Begin function key_wrap__steps__decrypt_halves____bc4275ba8002e6b4_
key_wrap__steps__decrypt_halves____bc4275ba8002e6b4_: # @key_wrap__steps__decrypt_halves____bc4275ba8002e6b4_
	.functype	key_wrap__steps__decrypt_halves____bc4275ba8002e6b4_ (i32, i32, i32) -> ()
	.local  	i32, i32, v128, v128, v128, i64, i64, i32, v128, v128, v128, i32
# %bb.0:                                # %start
	global.get	__stack_pointer
	i32.const	16
	i32.sub 
	local.tee	3
	global.set	__stack_pointer
	local.get	3
	local.get	2
	i64.load	0:p2align=0
	i64.store	8
	local.get	3
	local.get	1
	i64.load	0:p2align=0
	i64.store	0
	v128.const	0, 181, 220, 105, 219, 110, 7, 178, 20, 161, 200, 125, 207, 122, 19, 166
	local.get	0
	i32.const	16
	i32.add 
	i32.load	0:p2align=0
	local.tee	4
	v128.load	0:p2align=0
	local.get	3
	v128.load	0
	v128.xor
	local.tee	5
	v128.const	15, 15, 15, 15, 15, 15, 15, 15, 15, 15, 15, 15, 15, 15, 15, 15
	local.tee	6
	v128.and
	i8x16.swizzle
	v128.const	0, 167, 168, 15, 237, 74, 69, 226, 209, 118, 121, 222, 60, 155, 148, 51
	local.get	5
	i32.const	4
	i8x16.shr_u
	i8x16.swizzle
	v128.xor
	local.set	7
	block   	
	local.get	0
	i32.const	24
	i32.add 
	i64.load	0:p2align=0
	local.tee	8
	i64.const	-1
	i64.add 
	local.tee	9
	i64.const	2
	i64.lt_u
	br_if   	0                               # 0: down to label193
# %bb.1:                                # %join.5.i.i.preheader
	local.get	8
	i64.const	-2
	i64.add 
	local.set	8
	local.get	4
	i32.const	16
	i32.add 
	local.set	0
	i32.const	48
	local.set	10
.LBB46_2:                               # %join.5.i.i
                                        # =>This Inner Loop Header: Depth=1
	loop    	                                # label194:
	local.get	0
	v128.load	0:p2align=0
	v128.const	0, 28, 68, 88, 151, 139, 211, 207, 138, 150, 206, 210, 29, 1, 89, 69
	v128.const	0, 5, 253, 152, 223, 191, 101, 96, 157, 66, 218, 39, 186, 34, 71, 248
	v128.const	128, 1, 9, 14, 13, 11, 7, 6, 15, 2, 12, 5, 10, 4, 3, 8
	local.tee	5
	local.get	5
	local.get	7
	i32.const	4
	i8x16.shr_u
	local.tee	11
	local.get	7
	local.get	6
	v128.and
	local.tee	7
	v128.xor
	local.tee	12
	i8x16.swizzle
	v128.const	128, 2, 1, 15, 9, 5, 14, 12, 13, 4, 11, 10, 7, 8, 6, 3
	local.get	7
	i8x16.swizzle
	local.tee	7
	v128.xor
	i8x16.swizzle
	local.get	11
	v128.xor
	local.tee	13
	i8x16.swizzle
	v128.const	0, 41, 235, 82, 166, 54, 185, 144, 123, 221, 143, 100, 31, 77, 244, 194
	local.get	5
	local.get	5
	local.get	11
	i8x16.swizzle
	local.get	7
	v128.xor
	i8x16.swizzle
	local.get	12
	v128.xor
	local.tee	5
	i8x16.swizzle
	v128.xor
	v128.const	0, 118, 62, 158, 30, 200, 160, 214, 232, 246, 104, 86, 190, 32, 128, 72
	local.get	13
	i8x16.swizzle
	v128.const	0, 91, 164, 122, 207, 74, 222, 133, 33, 238, 148, 48, 17, 107, 181, 255
	local.get	5
	i8x16.swizzle
	v128.xor
	local.get	10
	i32.const	48
	i32.and 
	local.tee	14
	v128.load	.Lstatic.6:p2align=0
	i8x16.swizzle
	v128.xor
	local.tee	5
	local.get	6
	v128.and
	i8x16.swizzle
	v128.const	0, 48, 38, 22, 183, 135, 145, 161, 65, 113, 103, 87, 246, 198, 208, 224
	local.get	5
	i32.const	4
	i8x16.shr_u
	i8x16.swizzle
	v128.xor
	local.get	5
	local.get	14
	v128.load	.Lstatic.4:p2align=0
	local.tee	7
	i8x16.swizzle
	v128.xor
	local.tee	11
	local.get	7
	i8x16.swizzle
	v128.xor
	local.get	5
	local.get	14
	v128.load	.Lstatic.5:p2align=0
	i8x16.swizzle
	v128.xor
	local.get	11
	v128.xor
	local.set	7
	local.get	0
	i32.const	16
	i32.add 
	local.set	0
	local.get	10
	i32.const	48
	i32.add 
	local.set	10
	local.get	8
	i64.const	-1
	i64.add 
	local.tee	8
	i64.const	0
	i64.ne  
	br_if   	0                               # 0: up to label194
.LBB46_3:                               # %aes_permute__blocks__process_block____d2d6b19aefc59415_.exit
	end_loop
	end_block                               # label193:
	local.get	3
	v128.const	0, 36, 145, 25, 35, 143, 136, 172, 61, 30, 7, 150, 171, 178, 58, 181
	v128.const	128, 1, 9, 14, 13, 11, 7, 6, 15, 2, 12, 5, 10, 4, 3, 8
	local.tee	5
	local.get	5
	local.get	7
	i32.const	4
	i8x16.shr_u
	local.tee	11
	local.get	7
	local.get	6
	v128.and
	local.tee	7
	v128.xor
	local.tee	6
	i8x16.swizzle
	v128.const	128, 2, 1, 15, 9, 5, 14, 12, 13, 4, 11, 10, 7, 8, 6, 3
	local.get	7
	i8x16.swizzle
	local.tee	7
	v128.xor
	i8x16.swizzle
	local.get	11
	v128.xor
	i8x16.swizzle
	v128.const	0, 59, 228, 200, 3, 20, 44, 23, 243, 240, 56, 220, 47, 231, 203, 223
	local.get	5
	local.get	5
	local.get	11
	i8x16.swizzle
	local.get	7
	v128.xor
	i8x16.swizzle
	local.get	6
	v128.xor
	i8x16.swizzle
	v128.xor
	local.get	9
	i32.wrap_i64
	local.tee	0
	i32.const	48
	i32.mul 
	i32.const	48
	i32.and 
	v128.load	.Lstatic.3:p2align=0
	i8x16.swizzle
	local.get	4
	local.get	0
	i32.const	4
	i32.shl 
	i32.add 
	v128.load	0:p2align=0
	v128.xor
	v128.store	0
	local.get	1
	local.get	3
	i64.load	0
	i64.store	0:p2align=0
	local.get	2
	local.get	3
	i64.load	8
	i64.store	0:p2align=0
	local.get	3
	call	aes_cipher__zeroize__elements__zeroize_elements____51e2d7e6a2c2e10f_
	local.get	3
	i32.const	16
	i32.add 
	global.set	__stack_pointer
                                        # fallthrough-return
	end_function
                                        # -- End function
	.section	.text.aes_cipher__zeroize__elements__zeroize_elements____51e2d7e6a2c2e10f_,"",@
	.type	aes_cipher__zeroize__elements__zeroize_elements____51e2d7e6a2c2e10f_,@function # -- Begin function aes_cipher__zeroize__elements__zeroize_elements____51e2d7e6a2c2e10f_
aes_cipher__zeroize__elements__zeroize_elements____51e2d7e6a2c2e10f_: # @aes_cipher__zeroize__elements__zeroize_elements____51e2d7e6a2c2e10f_
	.functype	aes_cipher__zeroize__elements__zeroize_elements____51e2d7e6a2c2e10f_ (i32) -> ()
	.local  	i32
# %bb.0:                                # %start
	global.get	__stack_pointer
	i32.const	16
	i32.sub 
	local.tee	1
	i64.const	0
	i64.store	8
	#APP
	#NO_APP
	local.get	1
	i64.load	8
	drop
	#APP
	#NO_APP
	local.get	0
	v128.const	0, 0
	v128.store	0:p2align=0
	#APP
	#NO_APP
	local.get	1
	i64.load	8
	drop
	local.get	1
	i64.const	0
	i64.store	8
	#APP
	#NO_APP
                                        # fallthrough-return
	end_function
                                        # -- End function
	.section	.text.aes_cipher__blocks__difference,"",@
	.type	aes_cipher__blocks__difference,@function # -- Begin function aes_cipher__blocks__difference
aes_cipher__blocks__difference:         # @aes_cipher__blocks__difference
	.functype	aes_cipher__blocks__difference (i32, i32) -> (i32)
# %bb.0:                                # %start
	local.get	1
	i32.load8_u	15
	local.get	0
	i32.load8_u	15
	i32.xor 
	local.get	1
	i32.load8_u	14
	local.get	0
	i32.load8_u	14
	i32.xor 
	local.get	1
	i32.load8_u	13
	local.get	0
	i32.load8_u	13
	i32.xor 
	local.get	1
	i32.load8_u	12
	local.get	0
	i32.load8_u	12
	i32.xor 
	local.get	1
	i32.load8_u	11
	local.get	0
	i32.load8_u	11
	i32.xor 
	local.get	1
	i32.load8_u	10
	local.get	0
	i32.load8_u	10
	i32.xor 
	local.get	1
	i32.load8_u	9
	local.get	0
	i32.load8_u	9
	i32.xor 
	local.get	1
	i32.load8_u	8
	local.get	0
	i32.load8_u	8
	i32.xor 
	local.get	1
	i32.load8_u	7
	local.get	0
	i32.load8_u	7
	i32.xor 
	local.get	1
	i32.load8_u	6
	local.get	0
	i32.load8_u	6
	i32.xor 
	local.get	1
	i32.load8_u	5
	local.get	0
	i32.load8_u	5
	i32.xor 
	local.get	1
	i32.load8_u	4
	local.get	0
	i32.load8_u	4
	i32.xor 
	local.get	1
	i32.load8_u	3
	local.get	0
	i32.load8_u	3
	i32.xor 
	local.get	1
	i32.load8_u	2
	local.get	0
	i32.load8_u	2
	i32.xor 
	local.get	1
	i32.load8_u	1
	local.get	0
	i32.load8_u	1
	i32.xor 
	local.get	1
	i32.load8_u	0
	local.get	0
	i32.load8_u	0
	i32.xor 
	i32.or  
	i32.or  
	i32.or  
	i32.or  
	i32.or  
	i32.or  
	i32.or  
	i32.or  
	i32.or  
	i32.or  
	i32.or  
	i32.or  
	i32.or  
	i32.or  
	i32.or  
                                        # fallthrough-return
	end_function
                                        # -- End function
	.section	.text.key_wrap__padded__unwrap_padded____bc4275ba8002e6b4_,"",@
	.type	key_wrap__padded__unwrap_padded____bc4275ba8002e6b4_,@function # -- Begin function key_wrap__padded__unwrap_padded____bc4275ba8002e6b4_
key_wrap__padded__unwrap_padded____bc4275ba8002e6b4_: # @key_wrap__padded__unwrap_padded____bc4275ba8002e6b4_
	.functype	key_wrap__padded__unwrap_padded____bc4275ba8002e6b4_ (i32, i32, i32, i64, i32, i64) -> ()
	.local  	i32, i64, i32, i64, i64, i64, i32, i64, i32, i32, i32
# %bb.0:                                # %start
	global.get	__stack_pointer
	i32.const	16
	i32.sub 
	local.tee	6
	global.set	__stack_pointer
	block   	
	block   	
	block   	
	local.get	5
	i64.const	-1
	i64.add 
	local.tee	7
	i64.const	536870911
	i64.gt_u
	br_if   	0                               # 0: down to label197
# %bb.1:                                # %start
	local.get	3
	local.get	5
	i64.const	1
	i64.add 
	i64.eq  
	br_if   	1                               # 1: down to label196
.LBB49_2:                               # %join.5
	end_block                               # label197:
	local.get	0
	i32.const	1
	i32.store16	0:p2align=0
	local.get	0
	i32.const	4
	i32.add 
	i32.const	0
	i32.store	0:p2align=0
	br      	1                               # 1: down to label195
.LBB49_3:                               # %after.1
	end_block                               # label196:
	block   	
	block   	
	local.get	4
	i64.extend_i32_u
	local.get	2
	i32.const	8
	i32.add 
	local.tee	8
	i64.extend_i32_u
	i64.sub 
	local.get	3
	i64.const	-1
	i64.add 
	local.tee	9
	i64.const	3
	i64.shl 
	local.tee	10
	i64.ge_u
	br_if   	0                               # 0: down to label199
# %bb.4:                                # %join.7.i.i.i.i.i.i.i.preheader
	i64.const	0
	local.set	11
	block   	
	local.get	9
	i64.const	6
	i64.lt_u
	br_if   	0                               # 0: down to label200
# %bb.5:                                # %vector.memcheck
	local.get	4
	local.get	2
	i32.sub 
	i32.const	-8
	i32.add 
	i32.const	16
	i32.lt_u
	br_if   	0                               # 0: down to label200
# %bb.6:                                # %vector.ph
	local.get	4
	local.set	12
	local.get	9
	i64.const	-2
	i64.and 
	local.tee	11
	local.set	10
.LBB49_7:                               # %vector.body
                                        # =>This Inner Loop Header: Depth=1
	loop    	                                # label201:
	local.get	12
	local.get	8
	v128.load	0:p2align=0
	v128.store	0:p2align=0
	local.get	12
	i32.const	16
	i32.add 
	local.set	12
	local.get	8
	i32.const	16
	i32.add 
	local.set	8
	local.get	10
	i64.const	-2
	i64.add 
	local.tee	10
	i64.const	0
	i64.ne  
	br_if   	0                               # 0: up to label201
# %bb.8:                                # %middle.block
	end_loop
	local.get	9
	local.get	11
	i64.eq  
	br_if   	2                               # 2: down to label198
.LBB49_9:                               # %join.7.i.i.i.i.i.i.i.preheader33
	end_block                               # label200:
	local.get	3
	local.get	11
	i64.sub 
	i64.const	-2
	i64.add 
	local.set	9
	block   	
	local.get	3
	local.get	11
	i64.const	-1
	i64.xor 
	i64.add 
	i64.const	3
	i64.and 
	local.tee	10
	i64.eqz
	br_if   	0                               # 0: down to label202
# %bb.10:                               # %join.7.i.i.i.i.i.i.i.prol.preheader
	local.get	11
	local.get	10
	i64.add 
	local.set	13
	local.get	4
	local.get	11
	i32.wrap_i64
	i32.const	3
	i32.shl 
	local.tee	12
	i32.add 
	local.set	8
	local.get	12
	local.get	2
	i32.add 
	i32.const	8
	i32.add 
	local.set	12
.LBB49_11:                              # %join.7.i.i.i.i.i.i.i.prol
                                        # =>This Inner Loop Header: Depth=1
	loop    	                                # label203:
	local.get	8
	local.get	12
	i64.load	0:p2align=0
	i64.store	0:p2align=0
	local.get	8
	i32.const	8
	i32.add 
	local.set	8
	local.get	12
	i32.const	8
	i32.add 
	local.set	12
	local.get	10
	i64.const	-1
	i64.add 
	local.tee	10
	i64.const	0
	i64.ne  
	br_if   	0                               # 0: up to label203
# %bb.12:
	end_loop
	local.get	13
	local.set	11
.LBB49_13:                              # %join.7.i.i.i.i.i.i.i.prol.loopexit
	end_block                               # label202:
	local.get	9
	i64.const	3
	i64.lt_u
	br_if   	1                               # 1: down to label198
# %bb.14:                               # %join.7.i.i.i.i.i.i.i.preheader34
	local.get	11
	i64.const	-1
	i64.xor 
	local.get	3
	i64.add 
	local.set	10
	local.get	11
	i32.wrap_i64
	i32.const	3
	i32.shl 
	local.set	14
	local.get	2
	local.set	15
	local.get	4
	local.set	16
.LBB49_15:                              # %join.7.i.i.i.i.i.i.i
                                        # =>This Inner Loop Header: Depth=1
	loop    	                                # label204:
	local.get	16
	local.get	14
	i32.add 
	local.tee	8
	local.get	15
	local.get	14
	i32.add 
	local.tee	12
	i32.const	8
	i32.add 
	i64.load	0:p2align=0
	i64.store	0:p2align=0
	local.get	8
	i32.const	8
	i32.add 
	local.get	12
	i32.const	16
	i32.add 
	i64.load	0:p2align=0
	i64.store	0:p2align=0
	local.get	8
	i32.const	16
	i32.add 
	local.get	12
	i32.const	24
	i32.add 
	i64.load	0:p2align=0
	i64.store	0:p2align=0
	local.get	8
	i32.const	24
	i32.add 
	local.get	12
	i32.const	32
	i32.add 
	i64.load	0:p2align=0
	i64.store	0:p2align=0
	local.get	15
	i32.const	32
	i32.add 
	local.set	15
	local.get	16
	i32.const	32
	i32.add 
	local.set	16
	local.get	10
	i64.const	-4
	i64.add 
	local.tee	10
	i64.const	0
	i64.ne  
	br_if   	0                               # 0: up to label204
	br      	2                               # 2: down to label198
.LBB49_16:                              # %apart.2.i.i.i.i.i.i.i
	end_loop
	end_block                               # label199:
	local.get	10
	i32.wrap_i64
	local.tee	12
	i32.eqz
	br_if   	0                               # 0: down to label198
# %bb.17:                               # %apart.2.i.i.i.i.i.i.i
	local.get	4
	local.get	8
	local.get	12
	memory.copy	0, 0
.LBB49_18:                              # %key_wrap__wrapping__copy_apart.exit
	end_block                               # label198:
	local.get	6
	local.get	2
	i64.load	0:p2align=0
	i64.store	8
	block   	
	block   	
	block   	
	local.get	5
	i64.const	1
	i64.eq  
	br_if   	0                               # 0: down to label207
# %bb.19:                               # %key_wrap__steps__unwrap_string____bc4275ba8002e6b4_.exit
	local.get	1
	local.get	6
	i32.const	8
	i32.add 
	local.get	4
	local.get	5
	call	key_wrap__steps__unwrap_in_place____bc4275ba8002e6b4_
	local.get	6
	i32.const	8
	i32.add 
	local.get	4
	local.get	5
	call	key_wrap__padded__difference
	i64.eqz
	br_if   	1                               # 1: down to label206
# %bb.20:                               # %join.8.i.preheader
	local.get	5
	i32.wrap_i64
	i32.const	3
	i32.shl 
	i32.const	-8
	i32.add 
	local.tee	8
	i32.eqz
	br_if   	2                               # 2: down to label205
# %bb.21:                               # %join.8.i.preheader
	local.get	4
	i32.const	0
	local.get	8
	memory.fill	0
	br      	2                               # 2: down to label205
.LBB49_22:                              # %key_wrap__steps__unwrap_string____bc4275ba8002e6b4_.exit.thread
	end_block                               # label207:
	local.get	1
	local.get	6
	i32.const	8
	i32.add 
	local.get	4
	call	key_wrap__steps__decrypt_halves____bc4275ba8002e6b4_
	local.get	6
	i32.const	8
	i32.add 
	local.get	4
	local.get	5
	call	key_wrap__padded__difference
	i64.eqz
	i32.eqz
	br_if   	1                               # 1: down to label205
.LBB49_23:                              # %join.16
	end_block                               # label206:
	local.get	0
	i32.const	0
	i32.store16	0:p2align=0
	local.get	0
	i32.const	4
	i32.add 
	local.get	6
	i32.load	12
	local.tee	8
	i32.const	16711935
	i32.and 
	i32.const	8
	i32.rotr
	local.get	8
	i32.const	24
	i32.rotr
	i32.const	16711935
	i32.and 
	i32.or  
	i32.store	0:p2align=0
	br      	1                               # 1: down to label195
.LBB49_24:                              # %core__slice__edits__slice_T__fill____1e8902aced0720be_.exit
	end_block                               # label205:
	local.get	4
	local.get	7
	i32.wrap_i64
	i32.const	3
	i32.shl 
	i32.add 
	i64.const	0
	i64.store	0:p2align=0
	local.get	0
	i32.const	4
	i32.add 
	i32.const	0
	i32.store	0:p2align=0
	local.get	0
	i32.const	257
	i32.store16	0:p2align=0
.LBB49_25:                              # %common.ret
	end_block                               # label195:
	local.get	6
	i32.const	16
	i32.add 
	global.set	__stack_pointer
                                        # fallthrough-return
	end_function
                                        # -- End function
	.section	.text.key_wrap__padded__difference,"",@
	.type	key_wrap__padded__difference,@function # -- Begin function key_wrap__padded__difference
key_wrap__padded__difference:           # @key_wrap__padded__difference
	.functype	key_wrap__padded__difference (i32, i32, i64) -> (i64)
	.local  	i32, i64, i32
# %bb.0:                                # %start
	i32.const	0
	local.get	2
	i64.const	3
	i64.shl 
	local.get	0
	i32.const	4
	i32.add 
	i32.load	0:p2align=0
	local.tee	3
	i32.const	16711935
	i32.and 
	i32.const	8
	i32.rotr
	local.get	3
	i32.const	24
	i32.rotr
	i32.const	16711935
	i32.and 
	i32.or  
	i64.extend_i32_u
	i64.sub 
	local.tee	4
	i32.wrap_i64
	i32.const	7
	i32.and 
	local.tee	3
	call	key_wrap__padded__mask_below
	local.set	5
	local.get	4
	i64.const	3
	i64.shr_u
	local.get	0
	i32.load	0:p2align=0
	local.tee	0
	i32.const	16711935
	i32.and 
	i32.const	8
	i32.rotr
	local.get	0
	i32.const	24
	i32.rotr
	i32.const	16711935
	i32.and 
	i32.or  
	i32.const	1504093786
	i32.add 
	i64.extend_i32_u
	i64.or  
	i32.const	1
	local.get	3
	call	key_wrap__padded__mask_below
	local.get	1
	local.get	2
	i32.wrap_i64
	i32.const	3
	i32.shl 
	i32.add 
	local.tee	0
	i32.const	-2
	i32.add 
	i32.load8_u	0
	i32.and 
	local.get	5
	local.get	0
	i32.const	-1
	i32.add 
	i32.load8_u	0
	i32.and 
	i32.or  
	i32.const	2
	local.get	3
	call	key_wrap__padded__mask_below
	local.get	0
	i32.const	-3
	i32.add 
	i32.load8_u	0
	i32.and 
	i32.or  
	i32.const	3
	local.get	3
	call	key_wrap__padded__mask_below
	local.get	0
	i32.const	-4
	i32.add 
	i32.load8_u	0
	i32.and 
	i32.or  
	i32.const	4
	local.get	3
	call	key_wrap__padded__mask_below
	local.get	0
	i32.const	-5
	i32.add 
	i32.load8_u	0
	i32.and 
	i32.or  
	i32.const	5
	local.get	3
	call	key_wrap__padded__mask_below
	local.get	0
	i32.const	-6
	i32.add 
	i32.load8_u	0
	i32.and 
	i32.or  
	i32.const	6
	local.get	3
	call	key_wrap__padded__mask_below
	local.get	0
	i32.const	-7
	i32.add 
	i32.load8_u	0
	i32.and 
	i32.or  
	i32.const	7
	local.get	3
	call	key_wrap__padded__mask_below
	local.get	0
	i32.const	-8
	i32.add 
	i32.load8_u	0
	i32.and 
	i32.or  
	i64.extend_i32_u
	i64.const	255
	i64.and 
	i64.or  
                                        # fallthrough-return
	end_function
                                        # -- End function
	.section	.text.key_wrap__padded__mask_below,"",@
	.type	key_wrap__padded__mask_below,@function # -- Begin function key_wrap__padded__mask_below
key_wrap__padded__mask_below:           # @key_wrap__padded__mask_below
	.functype	key_wrap__padded__mask_below (i32, i32) -> (i32)
# %bb.0:                                # %start
	local.get	0
	local.get	1
	i32.sub 
	i32.const	24
	i32.shr_u
                                        # fallthrough-return
	end_function
                                        # -- End function
	.section	.text.aes_c__single_rounds__inverse_mixed,"",@
	.type	aes_c__single_rounds__inverse_mixed,@function # -- Begin function aes_c__single_rounds__inverse_mixed
aes_c__single_rounds__inverse_mixed:    # @aes_c__single_rounds__inverse_mixed
	.functype	aes_c__single_rounds__inverse_mixed (i32) -> ()
	.local  	v128, v128, v128, v128, v128, v128, v128, v128, v128, v128, v128, v128, v128, v128, v128, v128, v128
# %bb.0:                                # %start
	local.get	0
	local.get	0
	v128.load	0:p2align=0
	local.get	1
	i8x16.shuffle	0, 4, 8, 12, 1, 5, 9, 13, 2, 6, 10, 14, 3, 7, 11, 15
	local.tee	1
	v128.const	16, 16, 16, 16, 16, 16, 16, 16, 16, 16, 16, 16, 16, 16, 16, 16
	v128.and
	v128.const	0, 0, 0, 0, 0, 0, 0, 0, 0, 0, 0, 0, 0, 0, 0, 0
	local.tee	2
	i8x16.ne
	local.tee	3
	local.get	1
	i8x16.shuffle	4, 5, 6, 7, 8, 9, 10, 11, 12, 13, 14, 15, 0, 1, 2, 3
	local.get	3
	v128.xor
	local.tee	4
	local.get	1
	v128.const	32, 32, 32, 32, 32, 32, 32, 32, 32, 32, 32, 32, 32, 32, 32, 32
	v128.and
	local.get	2
	i8x16.ne
	local.tee	5
	v128.xor
	local.tee	6
	local.get	1
	i32.const	7
	i8x16.shr_s
	local.tee	7
	local.get	1
	i8x16.shuffle	4, 5, 6, 7, 8, 9, 10, 11, 12, 13, 14, 15, 0, 1, 2, 3
	local.get	7
	v128.xor
	local.tee	8
	v128.xor
	local.tee	9
	local.get	1
	i8x16.shuffle	8, 9, 10, 11, 12, 13, 14, 15, 0, 1, 2, 3, 4, 5, 6, 7
	local.get	5
	local.get	1
	i8x16.shuffle	4, 5, 6, 7, 8, 9, 10, 11, 12, 13, 14, 15, 0, 1, 2, 3
	local.get	5
	v128.xor
	local.tee	10
	local.get	1
	v128.const	64, 64, 64, 64, 64, 64, 64, 64, 64, 64, 64, 64, 64, 64, 64, 64
	v128.and
	local.get	2
	i8x16.ne
	local.tee	11
	v128.xor
	local.tee	5
	local.get	8
	local.get	3
	v128.xor
	local.get	1
	v128.const	8, 8, 8, 8, 8, 8, 8, 8, 8, 8, 8, 8, 8, 8, 8, 8
	v128.and
	local.get	2
	i8x16.ne
	local.tee	12
	local.get	1
	i8x16.shuffle	4, 5, 6, 7, 8, 9, 10, 11, 12, 13, 14, 15, 0, 1, 2, 3
	local.get	12
	v128.xor
	local.tee	13
	v128.xor
	local.tee	14
	local.get	11
	local.get	1
	i8x16.shuffle	4, 5, 6, 7, 8, 9, 10, 11, 12, 13, 14, 15, 0, 1, 2, 3
	local.get	11
	v128.xor
	local.tee	3
	v128.xor
	local.tee	11
	local.get	1
	i8x16.shuffle	8, 9, 10, 11, 12, 13, 14, 15, 0, 1, 2, 3, 4, 5, 6, 7
	v128.xor
	local.get	11
	v128.xor
	local.tee	11
	i32.const	1
	i8x16.shr_u
	v128.xor
	local.get	3
	local.get	7
	v128.xor
	local.tee	3
	v128.xor
	local.get	9
	v128.xor
	i32.const	1
	i8x16.shl
	v128.const	34, 34, 34, 34, 34, 34, 34, 34, 34, 34, 34, 34, 34, 34, 34, 34
	local.tee	9
	v128.and
	local.get	3
	local.get	10
	v128.xor
	local.get	8
	local.get	12
	v128.xor
	local.get	1
	v128.const	4, 4, 4, 4, 4, 4, 4, 4, 4, 4, 4, 4, 4, 4, 4, 4
	v128.and
	local.get	2
	i8x16.ne
	local.tee	7
	local.get	1
	i8x16.shuffle	4, 5, 6, 7, 8, 9, 10, 11, 12, 13, 14, 15, 0, 1, 2, 3
	local.get	7
	v128.xor
	local.tee	12
	v128.xor
	local.tee	10
	v128.xor
	local.tee	15
	local.get	1
	i8x16.shuffle	8, 9, 10, 11, 12, 13, 14, 15, 0, 1, 2, 3, 4, 5, 6, 7
	local.get	14
	local.get	1
	v128.const	2, 2, 2, 2, 2, 2, 2, 2, 2, 2, 2, 2, 2, 2, 2, 2
	v128.and
	local.get	2
	i8x16.ne
	local.tee	2
	local.get	1
	i8x16.shuffle	4, 5, 6, 7, 8, 9, 10, 11, 12, 13, 14, 15, 0, 1, 2, 3
	local.get	2
	v128.xor
	local.tee	16
	local.get	7
	v128.xor
	local.tee	7
	local.get	4
	v128.xor
	local.get	3
	local.get	5
	v128.xor
	local.tee	4
	v128.xor
	local.tee	17
	local.get	1
	i8x16.shuffle	8, 9, 10, 11, 12, 13, 14, 15, 0, 1, 2, 3, 4, 5, 6, 7
	v128.xor
	local.get	17
	v128.xor
	local.tee	14
	i32.const	1
	i8x16.shr_u
	v128.xor
	local.get	6
	v128.xor
	local.get	15
	v128.xor
	i32.const	1
	i8x16.shl
	v128.const	-86, -86, -86, -86, -86, -86, -86, -86, -86, -86, -86, -86, -86, -86, -86, -86
	local.tee	6
	v128.and
	local.get	14
	v128.xor
	local.tee	14
	i32.const	2
	i8x16.shr_u
	v128.xor
	local.get	11
	v128.xor
	i32.const	2
	i8x16.shl
	local.get	13
	local.get	1
	v128.const	1, 1, 1, 1, 1, 1, 1, 1, 1, 1, 1, 1, 1, 1, 1, 1
	v128.and
	i8x16.neg
	local.tee	1
	local.get	1
	i8x16.shuffle	4, 5, 6, 7, 8, 9, 10, 11, 12, 13, 14, 15, 0, 1, 2, 3
	local.get	1
	v128.xor
	local.tee	11
	local.get	8
	v128.xor
	local.get	2
	v128.xor
	local.tee	2
	v128.xor
	local.get	5
	v128.xor
	local.tee	13
	local.get	1
	i8x16.shuffle	8, 9, 10, 11, 12, 13, 14, 15, 0, 1, 2, 3, 4, 5, 6, 7
	local.get	7
	local.get	12
	local.get	8
	local.get	1
	v128.xor
	local.tee	1
	v128.xor
	local.get	3
	v128.xor
	local.tee	8
	local.get	1
	i8x16.shuffle	8, 9, 10, 11, 12, 13, 14, 15, 0, 1, 2, 3, 4, 5, 6, 7
	v128.xor
	local.get	8
	v128.xor
	local.tee	8
	i32.const	1
	i8x16.shr_u
	v128.xor
	local.get	10
	v128.xor
	local.get	13
	v128.xor
	i32.const	1
	i8x16.shl
	local.get	9
	v128.and
	local.get	4
	local.get	16
	v128.xor
	local.tee	3
	local.get	1
	i8x16.shuffle	8, 9, 10, 11, 12, 13, 14, 15, 0, 1, 2, 3, 4, 5, 6, 7
	local.get	1
	local.get	5
	local.get	11
	v128.xor
	local.tee	5
	local.get	1
	i8x16.shuffle	8, 9, 10, 11, 12, 13, 14, 15, 0, 1, 2, 3, 4, 5, 6, 7
	v128.xor
	local.get	5
	v128.xor
	local.tee	1
	i32.const	1
	i8x16.shr_u
	v128.xor
	local.get	2
	v128.xor
	local.get	3
	v128.xor
	i32.const	1
	i8x16.shl
	local.get	6
	v128.and
	local.get	1
	v128.xor
	local.tee	1
	i32.const	2
	i8x16.shr_u
	v128.xor
	local.get	8
	v128.xor
	i32.const	2
	i8x16.shl
	v128.const	-52, -52, -52, -52, -52, -52, -52, -52, -52, -52, -52, -52, -52, -52, -52, -52
	v128.and
	local.get	1
	v128.xor
	local.tee	1
	i32.const	4
	i8x16.shr_u
	v128.xor
	local.get	14
	v128.xor
	i32.const	4
	i8x16.shl
	local.get	1
	v128.xor
	local.get	1
	i8x16.shuffle	0, 4, 8, 12, 1, 5, 9, 13, 2, 6, 10, 14, 3, 7, 11, 15
	v128.store	0:p2align=0
                                        # fallthrough-return
	end_function
                                        # -- End function
	.section	.text.aes_c__single_rounds__inverse_round,"",@
	.type	aes_c__single_rounds__inverse_round,@function # -- Begin function aes_c__single_rounds__inverse_round
aes_c__single_rounds__inverse_round:    # @aes_c__single_rounds__inverse_round
	.functype	aes_c__single_rounds__inverse_round (i32, i32) -> ()
	.local  	i32, v128, v128, v128, v128, v128, v128, v128, v128, v128, v128, v128, v128, v128, v128, v128, v128, v128, v128
# %bb.0:                                # %start
	global.get	__stack_pointer
	i32.const	128
	i32.sub 
	local.tee	2
	global.set	__stack_pointer
	local.get	2
	local.get	0
	v128.load	0:p2align=0
	local.get	3
	i8x16.shuffle	0, 4, 8, 12, 1, 5, 9, 13, 2, 6, 10, 14, 3, 7, 11, 15
	local.tee	3
	i32.const	7
	i8x16.shr_s
	v128.store	112
	local.get	2
	local.get	3
	v128.const	64, 64, 64, 64, 64, 64, 64, 64, 64, 64, 64, 64, 64, 64, 64, 64
	local.tee	4
	v128.and
	v128.const	0, 0, 0, 0, 0, 0, 0, 0, 0, 0, 0, 0, 0, 0, 0, 0
	local.tee	5
	i8x16.eq
	v128.store	96
	local.get	2
	local.get	3
	v128.const	32, 32, 32, 32, 32, 32, 32, 32, 32, 32, 32, 32, 32, 32, 32, 32
	v128.and
	local.get	5
	i8x16.eq
	v128.store	80
	local.get	2
	local.get	3
	v128.const	16, 16, 16, 16, 16, 16, 16, 16, 16, 16, 16, 16, 16, 16, 16, 16
	v128.and
	local.get	5
	i8x16.ne
	v128.store	64
	local.get	2
	local.get	3
	v128.const	8, 8, 8, 8, 8, 8, 8, 8, 8, 8, 8, 8, 8, 8, 8, 8
	v128.and
	local.get	5
	i8x16.ne
	v128.store	48
	local.get	2
	local.get	3
	v128.const	4, 4, 4, 4, 4, 4, 4, 4, 4, 4, 4, 4, 4, 4, 4, 4
	v128.and
	local.get	5
	i8x16.ne
	v128.store	32
	local.get	2
	local.get	3
	v128.const	2, 2, 2, 2, 2, 2, 2, 2, 2, 2, 2, 2, 2, 2, 2, 2
	local.tee	6
	v128.and
	local.get	5
	i8x16.eq
	v128.store	16
	local.get	2
	local.get	3
	v128.const	1, 1, 1, 1, 1, 1, 1, 1, 1, 1, 1, 1, 1, 1, 1, 1
	local.tee	5
	v128.and
	v128.const	-1, -1, -1, -1, -1, -1, -1, -1, -1, -1, -1, -1, -1, -1, -1, -1
	i8x16.add
	v128.store	0
	local.get	2
	call	aes_planes__soft__sbox__inv_sub_bytes____e29e0540aa8bc136_
	local.get	2
	i32.const	16
	i64.const	280375465082880
	i64.const	1095216726015
	call	aes_planes__soft__shifts__swap_columns____e29e0540aa8bc136_
	local.get	2
	i32.const	8
	i64.const	71777214277877760
	i64.const	71777214277877760
	call	aes_planes__soft__shifts__swap_columns____e29e0540aa8bc136_
	local.get	0
	local.get	1
	v128.load	0:p2align=0
	local.get	2
	v128.load	64
	local.tee	7
	local.get	3
	i8x16.shuffle	4, 5, 6, 7, 8, 9, 10, 11, 12, 13, 14, 15, 0, 1, 2, 3
	local.get	7
	v128.xor
	local.tee	8
	local.get	2
	v128.load	80
	local.tee	3
	v128.xor
	local.tee	9
	local.get	2
	v128.load	96
	local.tee	10
	local.get	3
	i8x16.shuffle	4, 5, 6, 7, 8, 9, 10, 11, 12, 13, 14, 15, 0, 1, 2, 3
	local.get	10
	v128.xor
	local.tee	11
	local.get	2
	v128.load	112
	local.tee	12
	v128.xor
	local.tee	13
	local.get	3
	local.get	3
	i8x16.shuffle	4, 5, 6, 7, 8, 9, 10, 11, 12, 13, 14, 15, 0, 1, 2, 3
	local.get	3
	v128.xor
	local.tee	14
	v128.xor
	local.get	2
	v128.load	32
	local.tee	15
	local.get	3
	i8x16.shuffle	4, 5, 6, 7, 8, 9, 10, 11, 12, 13, 14, 15, 0, 1, 2, 3
	local.get	15
	v128.xor
	local.tee	16
	local.get	2
	v128.load	48
	local.tee	17
	v128.xor
	local.get	12
	local.get	3
	i8x16.shuffle	4, 5, 6, 7, 8, 9, 10, 11, 12, 13, 14, 15, 0, 1, 2, 3
	local.get	12
	v128.xor
	local.tee	3
	v128.xor
	local.tee	18
	v128.xor
	local.tee	12
	local.get	3
	i8x16.shuffle	8, 9, 10, 11, 12, 13, 14, 15, 0, 1, 2, 3, 4, 5, 6, 7
	v128.xor
	local.get	12
	v128.xor
	i32.const	1
	i8x16.shl
	local.get	6
	v128.and
	local.get	17
	local.get	3
	i8x16.shuffle	4, 5, 6, 7, 8, 9, 10, 11, 12, 13, 14, 15, 0, 1, 2, 3
	local.get	17
	v128.xor
	local.tee	17
	local.get	7
	v128.xor
	local.get	3
	v128.xor
	local.tee	19
	local.get	8
	local.get	2
	v128.load	16
	local.tee	12
	local.get	3
	i8x16.shuffle	4, 5, 6, 7, 8, 9, 10, 11, 12, 13, 14, 15, 0, 1, 2, 3
	local.get	12
	v128.xor
	local.tee	20
	local.get	15
	v128.xor
	local.tee	15
	v128.xor
	local.get	13
	local.get	14
	local.get	10
	v128.xor
	local.tee	7
	v128.xor
	local.tee	8
	v128.xor
	local.tee	10
	local.get	3
	i8x16.shuffle	8, 9, 10, 11, 12, 13, 14, 15, 0, 1, 2, 3, 4, 5, 6, 7
	v128.xor
	local.get	10
	v128.xor
	local.get	5
	v128.and
	v128.or
	i32.const	4
	i8x16.shl
	local.get	7
	local.get	19
	local.get	11
	v128.xor
	local.tee	10
	local.get	3
	i8x16.shuffle	8, 9, 10, 11, 12, 13, 14, 15, 0, 1, 2, 3, 4, 5, 6, 7
	v128.xor
	local.get	10
	v128.xor
	i32.const	6
	i8x16.shl
	local.get	4
	v128.and
	local.get	13
	local.get	3
	local.get	9
	v128.xor
	local.tee	10
	local.get	3
	i8x16.shuffle	8, 9, 10, 11, 12, 13, 14, 15, 0, 1, 2, 3, 4, 5, 6, 7
	v128.xor
	local.get	10
	v128.xor
	i32.const	7
	i8x16.shl
	v128.or
	v128.or
	local.get	18
	local.get	7
	local.get	17
	v128.xor
	local.get	2
	v128.load	0
	local.tee	10
	local.get	3
	i8x16.shuffle	4, 5, 6, 7, 8, 9, 10, 11, 12, 13, 14, 15, 0, 1, 2, 3
	local.get	10
	v128.xor
	local.tee	17
	local.get	12
	v128.xor
	local.get	3
	v128.xor
	local.tee	12
	v128.xor
	local.tee	4
	local.get	3
	i8x16.shuffle	8, 9, 10, 11, 12, 13, 14, 15, 0, 1, 2, 3, 4, 5, 6, 7
	v128.xor
	local.get	4
	v128.xor
	i32.const	1
	i8x16.shl
	local.get	6
	v128.and
	local.get	15
	local.get	13
	local.get	16
	v128.xor
	local.get	3
	local.get	10
	v128.xor
	local.tee	3
	v128.xor
	local.tee	13
	local.get	3
	i8x16.shuffle	8, 9, 10, 11, 12, 13, 14, 15, 0, 1, 2, 3, 4, 5, 6, 7
	v128.xor
	local.get	13
	v128.xor
	local.get	5
	v128.and
	v128.or
	i32.const	2
	i8x16.shl
	local.get	7
	local.get	17
	v128.xor
	local.tee	13
	local.get	3
	i8x16.shuffle	8, 9, 10, 11, 12, 13, 14, 15, 0, 1, 2, 3, 4, 5, 6, 7
	local.get	13
	v128.xor
	local.get	3
	v128.xor
	local.get	5
	v128.and
	local.get	12
	local.get	8
	local.get	20
	v128.xor
	local.tee	3
	local.get	3
	i8x16.shuffle	8, 9, 10, 11, 12, 13, 14, 15, 0, 1, 2, 3, 4, 5, 6, 7
	v128.xor
	local.get	3
	v128.xor
	i32.const	1
	i8x16.shl
	local.get	6
	v128.and
	v128.or
	v128.or
	v128.or
	local.get	3
	i8x16.shuffle	0, 4, 8, 12, 1, 5, 9, 13, 2, 6, 10, 14, 3, 7, 11, 15
	v128.xor
	v128.store	0:p2align=0
	local.get	2
	i32.const	128
	i32.add 
	global.set	__stack_pointer
                                        # fallthrough-return
	end_function
                                        # -- End function
	.section	.text.aes_c__single_rounds__inverse_rounds,"",@
	.type	aes_c__single_rounds__inverse_rounds,@function # -- Begin function aes_c__single_rounds__inverse_rounds
aes_c__single_rounds__inverse_rounds:   # @aes_c__single_rounds__inverse_rounds
	.functype	aes_c__single_rounds__inverse_rounds (i32, i32) -> ()
	.local  	i32, i32, v128, v128, v128, i32, v128, v128, v128, i32, v128, v128, i32, v128, v128, v128, v128, v128, v128, v128, i32, v128, v128, v128, i32, v128, v128, i32, v128, v128, v128, v128, v128, v128, v128
# %bb.0:                                # %start
	global.get	__stack_pointer
	i32.const	128
	i32.sub 
	local.tee	2
	global.set	__stack_pointer
	local.get	2
	local.get	0
	i32.const	64
	i32.add 
	local.tee	3
	v128.load	0:p2align=0
	local.get	4
	i8x16.shuffle	0, 4, 8, 12, 1, 5, 9, 13, 2, 6, 10, 14, 3, 7, 11, 15
	local.tee	5
	i32.const	1
	i8x16.shr_u
	local.tee	6
	local.get	0
	i32.const	80
	i32.add 
	local.tee	7
	v128.load	0:p2align=0
	local.get	4
	i8x16.shuffle	0, 4, 8, 12, 1, 5, 9, 13, 2, 6, 10, 14, 3, 7, 11, 15
	local.tee	8
	v128.const	85, 85, 85, 85, 85, 85, 85, 85, 85, 85, 85, 85, 85, 85, 85, 85
	local.tee	4
	v128.bitselect
	local.tee	9
	i32.const	2
	i8x16.shr_u
	local.tee	10
	local.get	0
	i32.const	96
	i32.add 
	local.tee	11
	v128.load	0:p2align=0
	local.get	4
	i8x16.shuffle	0, 4, 8, 12, 1, 5, 9, 13, 2, 6, 10, 14, 3, 7, 11, 15
	local.tee	12
	i32.const	1
	i8x16.shr_u
	local.tee	13
	local.get	0
	i32.const	112
	i32.add 
	local.tee	14
	v128.load	0:p2align=0
	local.get	4
	i8x16.shuffle	0, 4, 8, 12, 1, 5, 9, 13, 2, 6, 10, 14, 3, 7, 11, 15
	local.tee	15
	local.get	4
	v128.bitselect
	local.tee	16
	v128.const	51, 51, 51, 51, 51, 51, 51, 51, 51, 51, 51, 51, 51, 51, 51, 51
	local.tee	17
	v128.bitselect
	local.tee	18
	v128.const	15, 15, 15, 15, 15, 15, 15, 15, 15, 15, 15, 15, 15, 15, 15, 15
	local.tee	19
	v128.and
	local.get	0
	v128.load	0:p2align=0
	local.get	4
	i8x16.shuffle	0, 4, 8, 12, 1, 5, 9, 13, 2, 6, 10, 14, 3, 7, 11, 15
	local.tee	20
	i32.const	1
	i8x16.shr_u
	local.tee	21
	local.get	0
	i32.const	16
	i32.add 
	local.tee	22
	v128.load	0:p2align=0
	local.get	4
	i8x16.shuffle	0, 4, 8, 12, 1, 5, 9, 13, 2, 6, 10, 14, 3, 7, 11, 15
	local.tee	23
	local.get	4
	v128.bitselect
	local.tee	24
	i32.const	2
	i8x16.shr_u
	local.tee	25
	local.get	0
	i32.const	32
	i32.add 
	local.tee	26
	v128.load	0:p2align=0
	local.get	4
	i8x16.shuffle	0, 4, 8, 12, 1, 5, 9, 13, 2, 6, 10, 14, 3, 7, 11, 15
	local.tee	27
	i32.const	1
	i8x16.shr_u
	local.tee	28
	local.get	0
	i32.const	48
	i32.add 
	local.tee	29
	v128.load	0:p2align=0
	local.get	4
	i8x16.shuffle	0, 4, 8, 12, 1, 5, 9, 13, 2, 6, 10, 14, 3, 7, 11, 15
	local.tee	30
	local.get	4
	v128.bitselect
	local.tee	31
	local.get	17
	v128.bitselect
	local.tee	32
	i32.const	4
	i8x16.shr_u
	v128.xor
	local.tee	33
	local.get	18
	v128.xor
	v128.store	112
	local.get	2
	local.get	33
	i32.const	4
	i8x16.shl
	local.get	32
	v128.xor
	v128.store	48
	local.get	2
	local.get	8
	local.get	6
	v128.xor
	local.get	4
	v128.and
	i32.const	1
	i8x16.shl
	local.get	5
	v128.xor
	local.tee	5
	i32.const	2
	i8x16.shr_u
	local.tee	6
	local.get	15
	local.get	13
	v128.xor
	local.get	4
	v128.and
	i32.const	1
	i8x16.shl
	local.get	12
	v128.xor
	local.tee	8
	local.get	17
	v128.bitselect
	local.tee	12
	local.get	12
	local.get	19
	v128.and
	local.get	23
	local.get	21
	v128.xor
	local.get	4
	v128.and
	i32.const	1
	i8x16.shl
	local.get	20
	v128.xor
	local.tee	12
	i32.const	2
	i8x16.shr_u
	local.tee	13
	local.get	30
	local.get	28
	v128.xor
	local.get	4
	v128.and
	i32.const	1
	i8x16.shl
	local.get	27
	v128.xor
	local.tee	15
	local.get	17
	v128.bitselect
	local.tee	18
	i32.const	4
	i8x16.shr_u
	v128.xor
	local.tee	20
	v128.xor
	v128.not
	v128.store	96
	local.get	2
	local.get	16
	local.get	10
	v128.xor
	local.get	17
	v128.and
	i32.const	2
	i8x16.shl
	local.get	9
	v128.xor
	local.tee	9
	local.get	9
	local.get	19
	v128.and
	local.get	31
	local.get	25
	v128.xor
	local.get	17
	v128.and
	i32.const	2
	i8x16.shl
	local.get	24
	v128.xor
	local.tee	9
	i32.const	4
	i8x16.shr_u
	v128.xor
	local.tee	10
	v128.xor
	v128.not
	v128.store	80
	local.get	2
	local.get	20
	i32.const	4
	i8x16.shl
	local.get	18
	v128.xor
	v128.store	32
	local.get	2
	local.get	9
	local.get	10
	i32.const	4
	i8x16.shl
	v128.xor
	v128.not
	v128.store	16
	local.get	2
	local.get	8
	local.get	6
	v128.xor
	local.get	17
	v128.and
	i32.const	2
	i8x16.shl
	local.get	5
	v128.xor
	local.tee	5
	local.get	19
	v128.and
	local.get	15
	local.get	13
	v128.xor
	local.get	17
	v128.and
	i32.const	2
	i8x16.shl
	local.get	12
	v128.xor
	local.tee	6
	i32.const	4
	i8x16.shr_u
	v128.xor
	local.tee	8
	local.get	5
	v128.xor
	v128.store	64
	local.get	2
	local.get	6
	local.get	8
	i32.const	4
	i8x16.shl
	v128.xor
	v128.not
	v128.store	0
	local.get	2
	call	aes_planes__soft__sbox__inv_sub_bytes____e29e0540aa8bc136_
	local.get	2
	i32.const	16
	i64.const	280375465082880
	i64.const	1095216726015
	call	aes_planes__soft__shifts__swap_columns____e29e0540aa8bc136_
	local.get	2
	i32.const	8
	i64.const	71777214277877760
	i64.const	71777214277877760
	call	aes_planes__soft__shifts__swap_columns____e29e0540aa8bc136_
	local.get	2
	v128.load	0
	local.set	6
	local.get	2
	local.get	2
	v128.load	48
	local.tee	10
	local.get	4
	i8x16.shuffle	4, 5, 6, 7, 8, 9, 10, 11, 12, 13, 14, 15, 0, 1, 2, 3
	local.get	10
	v128.xor
	local.tee	18
	local.get	2
	v128.load	64
	local.tee	8
	v128.xor
	local.get	2
	v128.load	112
	local.tee	9
	local.get	4
	i8x16.shuffle	4, 5, 6, 7, 8, 9, 10, 11, 12, 13, 14, 15, 0, 1, 2, 3
	local.get	9
	v128.xor
	local.tee	5
	v128.xor
	local.tee	20
	local.get	8
	local.get	4
	i8x16.shuffle	4, 5, 6, 7, 8, 9, 10, 11, 12, 13, 14, 15, 0, 1, 2, 3
	local.get	8
	v128.xor
	local.tee	21
	local.get	2
	v128.load	16
	local.tee	12
	local.get	4
	i8x16.shuffle	4, 5, 6, 7, 8, 9, 10, 11, 12, 13, 14, 15, 0, 1, 2, 3
	local.get	12
	v128.xor
	local.tee	23
	local.get	2
	v128.load	32
	local.tee	13
	v128.xor
	local.tee	24
	v128.xor
	local.get	2
	v128.load	96
	local.tee	15
	local.get	4
	i8x16.shuffle	4, 5, 6, 7, 8, 9, 10, 11, 12, 13, 14, 15, 0, 1, 2, 3
	local.get	15
	v128.xor
	local.tee	25
	local.get	9
	v128.xor
	local.tee	8
	local.get	2
	v128.load	80
	local.tee	16
	local.get	4
	i8x16.shuffle	4, 5, 6, 7, 8, 9, 10, 11, 12, 13, 14, 15, 0, 1, 2, 3
	local.get	16
	v128.xor
	local.tee	27
	local.get	15
	v128.xor
	local.tee	9
	v128.xor
	local.tee	28
	v128.xor
	local.tee	15
	local.get	4
	i8x16.shuffle	8, 9, 10, 11, 12, 13, 14, 15, 0, 1, 2, 3, 4, 5, 6, 7
	v128.xor
	local.get	15
	v128.xor
	local.tee	15
	v128.store	64
	local.get	2
	local.get	21
	local.get	16
	v128.xor
	local.tee	16
	local.get	8
	local.get	27
	v128.xor
	local.get	10
	local.get	13
	local.get	13
	local.get	4
	i8x16.shuffle	4, 5, 6, 7, 8, 9, 10, 11, 12, 13, 14, 15, 0, 1, 2, 3
	v128.xor
	local.tee	21
	v128.xor
	local.get	5
	v128.xor
	local.tee	27
	v128.xor
	local.tee	10
	local.get	4
	i8x16.shuffle	8, 9, 10, 11, 12, 13, 14, 15, 0, 1, 2, 3, 4, 5, 6, 7
	v128.xor
	local.get	10
	v128.xor
	local.tee	10
	v128.store	80
	local.get	2
	local.get	9
	local.get	20
	local.get	25
	v128.xor
	local.tee	13
	local.get	4
	i8x16.shuffle	8, 9, 10, 11, 12, 13, 14, 15, 0, 1, 2, 3, 4, 5, 6, 7
	v128.xor
	local.get	13
	v128.xor
	local.tee	13
	v128.store	96
	local.get	14
	local.get	15
	i32.const	1
	i8x16.shr_u
	local.tee	20
	local.get	10
	local.get	4
	v128.bitselect
	local.tee	25
	i32.const	2
	i8x16.shr_u
	local.tee	30
	local.get	13
	i32.const	1
	i8x16.shr_u
	local.tee	31
	local.get	8
	local.get	5
	local.get	16
	v128.xor
	local.tee	16
	local.get	4
	i8x16.shuffle	8, 9, 10, 11, 12, 13, 14, 15, 0, 1, 2, 3, 4, 5, 6, 7
	v128.xor
	local.get	16
	v128.xor
	local.tee	16
	local.get	4
	v128.bitselect
	local.tee	32
	local.get	17
	v128.bitselect
	local.tee	33
	local.get	19
	v128.and
	local.get	9
	local.get	6
	local.get	6
	local.get	4
	i8x16.shuffle	4, 5, 6, 7, 8, 9, 10, 11, 12, 13, 14, 15, 0, 1, 2, 3
	v128.xor
	local.tee	34
	v128.xor
	local.tee	35
	local.get	4
	i8x16.shuffle	8, 9, 10, 11, 12, 13, 14, 15, 0, 1, 2, 3, 4, 5, 6, 7
	local.get	35
	v128.xor
	local.get	5
	local.get	6
	v128.xor
	local.tee	6
	v128.xor
	local.tee	35
	i32.const	1
	i8x16.shr_u
	local.tee	36
	local.get	34
	local.get	12
	v128.xor
	local.get	5
	v128.xor
	local.tee	5
	local.get	28
	local.get	23
	v128.xor
	local.tee	12
	local.get	4
	i8x16.shuffle	8, 9, 10, 11, 12, 13, 14, 15, 0, 1, 2, 3, 4, 5, 6, 7
	v128.xor
	local.get	12
	v128.xor
	local.tee	12
	local.get	4
	v128.bitselect
	local.tee	23
	i32.const	2
	i8x16.shr_u
	local.tee	28
	local.get	24
	local.get	8
	local.get	21
	v128.xor
	local.get	6
	v128.xor
	local.tee	6
	local.get	4
	i8x16.shuffle	8, 9, 10, 11, 12, 13, 14, 15, 0, 1, 2, 3, 4, 5, 6, 7
	v128.xor
	local.get	6
	v128.xor
	local.tee	6
	i32.const	1
	i8x16.shr_u
	local.tee	8
	local.get	27
	local.get	9
	local.get	18
	v128.xor
	local.get	5
	v128.xor
	local.tee	5
	local.get	4
	i8x16.shuffle	8, 9, 10, 11, 12, 13, 14, 15, 0, 1, 2, 3, 4, 5, 6, 7
	v128.xor
	local.get	5
	v128.xor
	local.tee	5
	local.get	4
	v128.bitselect
	local.tee	9
	local.get	17
	v128.bitselect
	local.tee	18
	i32.const	4
	i8x16.shr_u
	v128.xor
	local.tee	21
	local.get	33
	v128.xor
	local.get	4
	i8x16.shuffle	0, 4, 8, 12, 1, 5, 9, 13, 2, 6, 10, 14, 3, 7, 11, 15
	v128.store	0:p2align=0
	local.get	29
	local.get	21
	i32.const	4
	i8x16.shl
	local.get	18
	v128.xor
	local.get	4
	i8x16.shuffle	0, 4, 8, 12, 1, 5, 9, 13, 2, 6, 10, 14, 3, 7, 11, 15
	v128.store	0:p2align=0
	local.get	11
	local.get	20
	local.get	10
	v128.xor
	local.get	4
	v128.and
	i32.const	1
	i8x16.shl
	local.get	15
	v128.xor
	local.tee	10
	i32.const	2
	i8x16.shr_u
	local.tee	15
	local.get	31
	local.get	16
	v128.xor
	local.get	4
	v128.and
	i32.const	1
	i8x16.shl
	local.get	13
	v128.xor
	local.tee	13
	local.get	17
	v128.bitselect
	local.tee	16
	local.get	19
	v128.and
	local.get	12
	local.get	36
	v128.xor
	local.get	4
	v128.and
	i32.const	1
	i8x16.shl
	local.get	35
	v128.xor
	local.tee	12
	i32.const	2
	i8x16.shr_u
	local.tee	18
	local.get	8
	local.get	5
	v128.xor
	local.get	4
	v128.and
	i32.const	1
	i8x16.shl
	local.get	6
	v128.xor
	local.tee	4
	local.get	17
	v128.bitselect
	local.tee	5
	i32.const	4
	i8x16.shr_u
	v128.xor
	local.tee	6
	local.get	16
	v128.xor
	local.get	4
	i8x16.shuffle	0, 4, 8, 12, 1, 5, 9, 13, 2, 6, 10, 14, 3, 7, 11, 15
	v128.store	0:p2align=0
	local.get	7
	local.get	30
	local.get	32
	v128.xor
	local.get	17
	v128.and
	i32.const	2
	i8x16.shl
	local.get	25
	v128.xor
	local.tee	8
	local.get	19
	v128.and
	local.get	9
	local.get	28
	v128.xor
	local.get	17
	v128.and
	i32.const	2
	i8x16.shl
	local.get	23
	v128.xor
	local.tee	9
	i32.const	4
	i8x16.shr_u
	v128.xor
	local.tee	16
	local.get	8
	v128.xor
	local.get	4
	i8x16.shuffle	0, 4, 8, 12, 1, 5, 9, 13, 2, 6, 10, 14, 3, 7, 11, 15
	v128.store	0:p2align=0
	local.get	26
	local.get	6
	i32.const	4
	i8x16.shl
	local.get	5
	v128.xor
	local.get	4
	i8x16.shuffle	0, 4, 8, 12, 1, 5, 9, 13, 2, 6, 10, 14, 3, 7, 11, 15
	v128.store	0:p2align=0
	local.get	22
	local.get	16
	i32.const	4
	i8x16.shl
	local.get	9
	v128.xor
	local.get	4
	i8x16.shuffle	0, 4, 8, 12, 1, 5, 9, 13, 2, 6, 10, 14, 3, 7, 11, 15
	v128.store	0:p2align=0
	local.get	3
	local.get	15
	local.get	13
	v128.xor
	local.get	17
	v128.and
	i32.const	2
	i8x16.shl
	local.get	10
	v128.xor
	local.tee	5
	local.get	19
	v128.and
	local.get	4
	local.get	18
	v128.xor
	local.get	17
	v128.and
	i32.const	2
	i8x16.shl
	local.get	12
	v128.xor
	local.tee	4
	i32.const	4
	i8x16.shr_u
	v128.xor
	local.tee	17
	local.get	5
	v128.xor
	local.get	4
	i8x16.shuffle	0, 4, 8, 12, 1, 5, 9, 13, 2, 6, 10, 14, 3, 7, 11, 15
	v128.store	0:p2align=0
	local.get	0
	local.get	17
	i32.const	4
	i8x16.shl
	local.get	4
	v128.xor
	local.get	4
	i8x16.shuffle	0, 4, 8, 12, 1, 5, 9, 13, 2, 6, 10, 14, 3, 7, 11, 15
	v128.store	0:p2align=0
	local.get	0
	local.get	1
	v128.load	0:p2align=0
	local.get	0
	v128.load	0:p2align=0
	v128.xor
	v128.store	0:p2align=0
	local.get	22
	local.get	1
	i32.const	16
	i32.add 
	v128.load	0:p2align=0
	local.get	22
	v128.load	0:p2align=0
	v128.xor
	v128.store	0:p2align=0
	local.get	26
	local.get	1
	i32.const	32
	i32.add 
	v128.load	0:p2align=0
	local.get	26
	v128.load	0:p2align=0
	v128.xor
	v128.store	0:p2align=0
	local.get	29
	local.get	1
	i32.const	48
	i32.add 
	v128.load	0:p2align=0
	local.get	29
	v128.load	0:p2align=0
	v128.xor
	v128.store	0:p2align=0
	local.get	3
	local.get	1
	i32.const	64
	i32.add 
	v128.load	0:p2align=0
	local.get	3
	v128.load	0:p2align=0
	v128.xor
	v128.store	0:p2align=0
	local.get	7
	local.get	1
	i32.const	80
	i32.add 
	v128.load	0:p2align=0
	local.get	7
	v128.load	0:p2align=0
	v128.xor
	v128.store	0:p2align=0
	local.get	11
	local.get	1
	i32.const	96
	i32.add 
	v128.load	0:p2align=0
	local.get	11
	v128.load	0:p2align=0
	v128.xor
	v128.store	0:p2align=0
	local.get	14
	local.get	1
	i32.const	112
	i32.add 
	v128.load	0:p2align=0
	local.get	14
	v128.load	0:p2align=0
	v128.xor
	v128.store	0:p2align=0
	local.get	2
	i32.const	128
	i32.add 
	global.set	__stack_pointer
                                        # fallthrough-return
	end_function
                                        # -- End function
	.section	.text.cmac__pieces__Message__is_tag_so_far____ef80964e0b8d42c0_,"",@
	.type	cmac__pieces__Message__is_tag_so_far____ef80964e0b8d42c0_,@function # -- Begin function cmac__pieces__Message__is_tag_so_far____ef80964e0b8d42c0_
cmac__pieces__Message__is_tag_so_far____ef80964e0b8d42c0_: # @cmac__pieces__Message__is_tag_so_far____ef80964e0b8d42c0_
	.functype	cmac__pieces__Message__is_tag_so_far____ef80964e0b8d42c0_ (i32, i32, i32, i64) -> (i32)
	.local  	i32, i64
# %bb.0:                                # %start
	global.get	__stack_pointer
	i32.const	32
	i32.sub 
	local.tee	4
	global.set	__stack_pointer
	local.get	4
	v128.const	0, 0
	v128.store	0:p2align=3
	local.get	4
	local.get	1
	local.get	0
	i32.const	16
	i32.add 
	local.get	0
	i32.const	32
	i32.add 
	local.get	0
	i32.const	8
	i32.add 
	i64.load	0
	local.tee	5
	i64.const	16
	local.get	5
	i64.const	16
	i64.lt_u
	i64.select
	call	cmac__tags__tag_at_end____ef80964e0b8d42c0_
	local.get	4
	local.get	4
	v128.load	0:p2align=3
	v128.store	16:p2align=3
	block   	
	local.get	3
	i32.wrap_i64
	local.tee	0
	i32.eqz
	br_if   	0                               # 0: down to label208
# %bb.1:                                # %start
	local.get	4
	i32.const	16
	i32.add 
	local.get	2
	local.get	0
	memory.copy	0, 0
.LBB55_2:                               # %start
	end_block                               # label208:
	local.get	4
	i32.const	16
	i32.add 
	local.get	4
	call	aes_cipher__blocks__difference
	local.set	0
	local.get	4
	i32.const	32
	i32.add 
	global.set	__stack_pointer
	local.get	0
	i32.eqz
                                        # fallthrough-return
	end_function
                                        # -- End function
	.section	.text.cmac__tags__is_tag_start____ef80964e0b8d42c0_,"",@
	.type	cmac__tags__is_tag_start____ef80964e0b8d42c0_,@function # -- Begin function cmac__tags__is_tag_start____ef80964e0b8d42c0_
cmac__tags__is_tag_start____ef80964e0b8d42c0_: # @cmac__tags__is_tag_start____ef80964e0b8d42c0_
	.functype	cmac__tags__is_tag_start____ef80964e0b8d42c0_ (i32, i32, i64, i32, i64) -> (i32)
	.local  	i32
# %bb.0:                                # %start
	global.get	__stack_pointer
	i32.const	32
	i32.sub 
	local.tee	5
	global.set	__stack_pointer
	local.get	5
	local.get	0
	local.get	1
	local.get	2
	call	cmac__tags__tag____ef80964e0b8d42c0_
	local.get	5
	local.get	5
	v128.load	0:p2align=0
	v128.store	16:p2align=3
	block   	
	local.get	4
	i32.wrap_i64
	local.tee	1
	i32.eqz
	br_if   	0                               # 0: down to label209
# %bb.1:                                # %start
	local.get	5
	i32.const	16
	i32.add 
	local.get	3
	local.get	1
	memory.copy	0, 0
.LBB56_2:                               # %start
	end_block                               # label209:
	local.get	5
	i32.const	16
	i32.add 
	local.get	5
	call	aes_cipher__blocks__difference
	local.set	1
	local.get	5
	i32.const	32
	i32.add 
	global.set	__stack_pointer
	local.get	1
	i32.eqz
                                        # fallthrough-return
	end_function
                                        # -- End function
	.section	.text.aes_c__single_rounds__mixed,"",@
	.type	aes_c__single_rounds__mixed,@function # -- Begin function aes_c__single_rounds__mixed
aes_c__single_rounds__mixed:            # @aes_c__single_rounds__mixed
	.functype	aes_c__single_rounds__mixed (i32) -> ()
	.local  	v128, v128, v128, v128, v128, v128, v128, v128, v128, v128
# %bb.0:                                # %start
	local.get	0
	local.get	0
	v128.load	0:p2align=0
	local.get	1
	i8x16.shuffle	0, 4, 8, 12, 1, 5, 9, 13, 2, 6, 10, 14, 3, 7, 11, 15
	local.tee	1
	i32.const	7
	i8x16.shr_s
	local.tee	2
	local.get	1
	i8x16.shuffle	4, 5, 6, 7, 8, 9, 10, 11, 12, 13, 14, 15, 0, 1, 2, 3
	local.tee	3
	local.get	2
	v128.xor
	local.tee	4
	local.get	1
	i8x16.shuffle	8, 9, 10, 11, 12, 13, 14, 15, 0, 1, 2, 3, 4, 5, 6, 7
	local.get	3
	v128.xor
	local.get	1
	v128.const	64, 64, 64, 64, 64, 64, 64, 64, 64, 64, 64, 64, 64, 64, 64, 64
	v128.and
	v128.const	0, 0, 0, 0, 0, 0, 0, 0, 0, 0, 0, 0, 0, 0, 0, 0
	local.tee	2
	i8x16.ne
	local.tee	3
	local.get	1
	i8x16.shuffle	4, 5, 6, 7, 8, 9, 10, 11, 12, 13, 14, 15, 0, 1, 2, 3
	local.tee	5
	local.get	3
	v128.xor
	local.tee	3
	v128.xor
	local.get	5
	local.get	3
	local.get	1
	i8x16.shuffle	8, 9, 10, 11, 12, 13, 14, 15, 0, 1, 2, 3, 4, 5, 6, 7
	v128.xor
	local.get	1
	v128.const	32, 32, 32, 32, 32, 32, 32, 32, 32, 32, 32, 32, 32, 32, 32, 32
	v128.and
	local.get	2
	i8x16.ne
	local.tee	3
	local.get	1
	i8x16.shuffle	4, 5, 6, 7, 8, 9, 10, 11, 12, 13, 14, 15, 0, 1, 2, 3
	local.tee	5
	local.get	3
	v128.xor
	local.tee	3
	v128.xor
	local.tee	6
	v128.xor
	i32.const	1
	i8x16.shl
	v128.const	34, 34, 34, 34, 34, 34, 34, 34, 34, 34, 34, 34, 34, 34, 34, 34
	local.tee	7
	v128.and
	local.get	3
	local.get	1
	i8x16.shuffle	8, 9, 10, 11, 12, 13, 14, 15, 0, 1, 2, 3, 4, 5, 6, 7
	local.get	4
	local.get	1
	v128.const	16, 16, 16, 16, 16, 16, 16, 16, 16, 16, 16, 16, 16, 16, 16, 16
	v128.and
	local.get	2
	i8x16.ne
	local.tee	3
	local.get	1
	i8x16.shuffle	4, 5, 6, 7, 8, 9, 10, 11, 12, 13, 14, 15, 0, 1, 2, 3
	local.tee	8
	local.get	3
	v128.xor
	local.tee	3
	local.get	1
	i8x16.shuffle	8, 9, 10, 11, 12, 13, 14, 15, 0, 1, 2, 3, 4, 5, 6, 7
	v128.xor
	local.get	8
	v128.xor
	local.get	1
	v128.const	8, 8, 8, 8, 8, 8, 8, 8, 8, 8, 8, 8, 8, 8, 8, 8
	v128.and
	local.get	2
	i8x16.ne
	local.tee	8
	local.get	1
	i8x16.shuffle	4, 5, 6, 7, 8, 9, 10, 11, 12, 13, 14, 15, 0, 1, 2, 3
	local.tee	9
	local.get	8
	v128.xor
	local.tee	8
	v128.xor
	local.tee	10
	i32.const	1
	i8x16.shr_u
	v128.xor
	local.get	5
	v128.xor
	local.get	3
	v128.xor
	i32.const	1
	i8x16.shl
	v128.const	-86, -86, -86, -86, -86, -86, -86, -86, -86, -86, -86, -86, -86, -86, -86, -86
	local.tee	3
	v128.and
	local.get	10
	v128.xor
	local.tee	5
	i32.const	2
	i8x16.shr_u
	v128.xor
	local.get	6
	v128.xor
	i32.const	2
	i8x16.shl
	local.get	4
	local.get	8
	local.get	1
	i8x16.shuffle	8, 9, 10, 11, 12, 13, 14, 15, 0, 1, 2, 3, 4, 5, 6, 7
	v128.xor
	local.get	9
	v128.xor
	local.get	1
	v128.const	4, 4, 4, 4, 4, 4, 4, 4, 4, 4, 4, 4, 4, 4, 4, 4
	v128.and
	local.get	2
	i8x16.ne
	local.tee	6
	local.get	1
	i8x16.shuffle	4, 5, 6, 7, 8, 9, 10, 11, 12, 13, 14, 15, 0, 1, 2, 3
	local.tee	8
	local.get	6
	v128.xor
	local.tee	6
	v128.xor
	local.get	8
	local.get	6
	local.get	1
	i8x16.shuffle	8, 9, 10, 11, 12, 13, 14, 15, 0, 1, 2, 3, 4, 5, 6, 7
	v128.xor
	local.get	1
	v128.const	2, 2, 2, 2, 2, 2, 2, 2, 2, 2, 2, 2, 2, 2, 2, 2
	v128.and
	local.get	2
	i8x16.ne
	local.tee	2
	local.get	1
	i8x16.shuffle	4, 5, 6, 7, 8, 9, 10, 11, 12, 13, 14, 15, 0, 1, 2, 3
	local.tee	6
	local.get	2
	v128.xor
	local.tee	2
	v128.xor
	local.tee	8
	v128.xor
	i32.const	1
	i8x16.shl
	local.get	7
	v128.and
	local.get	2
	local.get	1
	i8x16.shuffle	8, 9, 10, 11, 12, 13, 14, 15, 0, 1, 2, 3, 4, 5, 6, 7
	local.get	1
	v128.const	1, 1, 1, 1, 1, 1, 1, 1, 1, 1, 1, 1, 1, 1, 1, 1
	v128.and
	i8x16.neg
	local.tee	1
	local.get	1
	i8x16.shuffle	4, 5, 6, 7, 8, 9, 10, 11, 12, 13, 14, 15, 0, 1, 2, 3
	local.tee	2
	local.get	2
	local.get	1
	v128.xor
	local.tee	1
	local.get	1
	i8x16.shuffle	8, 9, 10, 11, 12, 13, 14, 15, 0, 1, 2, 3, 4, 5, 6, 7
	v128.xor
	local.get	4
	v128.xor
	local.tee	2
	i32.const	1
	i8x16.shr_u
	v128.xor
	local.get	4
	v128.xor
	local.get	1
	v128.xor
	local.get	6
	v128.xor
	i32.const	1
	i8x16.shl
	local.get	3
	v128.and
	local.get	2
	v128.xor
	local.tee	1
	i32.const	2
	i8x16.shr_u
	v128.xor
	local.get	8
	v128.xor
	i32.const	2
	i8x16.shl
	v128.const	-52, -52, -52, -52, -52, -52, -52, -52, -52, -52, -52, -52, -52, -52, -52, -52
	v128.and
	local.get	1
	v128.xor
	local.tee	1
	i32.const	4
	i8x16.shr_u
	v128.xor
	local.get	5
	v128.xor
	i32.const	4
	i8x16.shl
	local.get	1
	v128.xor
	local.get	1
	i8x16.shuffle	0, 4, 8, 12, 1, 5, 9, 13, 2, 6, 10, 14, 3, 7, 11, 15
	v128.store	0:p2align=0
                                        # fallthrough-return
	end_function
                                        # -- End function
	.section	.text.aes_c__stream__fotsgure_aes_add_keystream,"",@
	.type	aes_c__stream__fotsgure_aes_add_keystream,@function # -- Begin function aes_c__stream__fotsgure_aes_add_keystream
aes_c__stream__fotsgure_aes_add_keystream: # @aes_c__stream__fotsgure_aes_add_keystream
	.functype	aes_c__stream__fotsgure_aes_add_keystream (i32, i32, i32, i64) -> (i32)
	.local  	i32, i32, i64, i32, i32, i64
# %bb.0:                                # %start
	global.get	__stack_pointer
	i32.const	32
	i32.sub 
	local.tee	4
	global.set	__stack_pointer
	i32.const	4
	local.set	5
	block   	
	local.get	3
	local.get	1
	i32.const	16
	i32.add 
	i64.load	0
	local.tee	6
	i64.const	-1
	i64.xor 
	i64.gt_u
	br_if   	0                               # 0: down to label210
# %bb.1:                                # %join.3.i
	i32.const	2
	local.set	5
	local.get	0
	i32.load	0
	local.tee	7
	i32.const	-16
	i32.add 
	local.tee	8
	i32.const	16
	i32.gt_u
	br_if   	0                               # 0: down to label210
# %bb.2:                                # %join.3.i
	i32.const	1
	local.get	8
	i32.shl 
	i32.const	65793
	i32.and 
	i32.eqz
	br_if   	0                               # 0: down to label210
# %bb.3:                                # %then.1
	i32.const	0
	local.set	5
	local.get	4
	i32.const	0
	i32.store	20
	local.get	4
	i32.const	0
	i32.store	4
	local.get	4
	local.get	0
	i32.const	4
	i32.add 
	local.tee	0
	i32.store	16
	local.get	4
	local.get	0
	i32.store	0
	local.get	4
	local.get	7
	i32.const	2
	i32.shr_u
	i32.const	7
	i32.add 
	i64.extend_i32_u
	local.tee	9
	i64.store	24
	local.get	4
	local.get	9
	i64.store	8
	local.get	4
	local.get	1
	local.get	6
	local.get	2
	local.get	3
	call	aes_ctr__add_in_batches__add_keystream____ef80964e0b8d42c0_
	local.get	1
	i32.const	16
	i32.add 
	local.tee	1
	local.get	1
	i64.load	0
	local.get	3
	i64.add 
	i64.store	0
.LBB58_4:                               # %join.3
	end_block                               # label210:
	local.get	4
	i32.const	32
	i32.add 
	global.set	__stack_pointer
	local.get	5
                                        # fallthrough-return
	end_function
                                        # -- End function
	.section	.text.aes_c__single_rounds__round,"",@
	.type	aes_c__single_rounds__round,@function # -- Begin function aes_c__single_rounds__round
aes_c__single_rounds__round:            # @aes_c__single_rounds__round
	.functype	aes_c__single_rounds__round (i32, i32) -> ()
	.local  	i32, v128, v128, v128, v128, v128, v128, v128
# %bb.0:                                # %start
	global.get	__stack_pointer
	i32.const	128
	i32.sub 
	local.tee	2
	global.set	__stack_pointer
	local.get	2
	local.get	0
	v128.load	0:p2align=0
	local.get	3
	i8x16.shuffle	0, 4, 8, 12, 1, 5, 9, 13, 2, 6, 10, 14, 3, 7, 11, 15
	local.tee	3
	i32.const	7
	i8x16.shr_s
	v128.store	112
	local.get	2
	local.get	3
	v128.const	64, 64, 64, 64, 64, 64, 64, 64, 64, 64, 64, 64, 64, 64, 64, 64
	local.tee	4
	v128.and
	v128.const	0, 0, 0, 0, 0, 0, 0, 0, 0, 0, 0, 0, 0, 0, 0, 0
	local.tee	5
	i8x16.ne
	v128.store	96
	local.get	2
	local.get	3
	v128.const	32, 32, 32, 32, 32, 32, 32, 32, 32, 32, 32, 32, 32, 32, 32, 32
	v128.and
	local.get	5
	i8x16.ne
	v128.store	80
	local.get	2
	local.get	3
	v128.const	16, 16, 16, 16, 16, 16, 16, 16, 16, 16, 16, 16, 16, 16, 16, 16
	v128.and
	local.get	5
	i8x16.ne
	v128.store	64
	local.get	2
	local.get	3
	v128.const	8, 8, 8, 8, 8, 8, 8, 8, 8, 8, 8, 8, 8, 8, 8, 8
	v128.and
	local.get	5
	i8x16.ne
	v128.store	48
	local.get	2
	local.get	3
	v128.const	4, 4, 4, 4, 4, 4, 4, 4, 4, 4, 4, 4, 4, 4, 4, 4
	v128.and
	local.get	5
	i8x16.ne
	v128.store	32
	local.get	2
	local.get	3
	v128.const	2, 2, 2, 2, 2, 2, 2, 2, 2, 2, 2, 2, 2, 2, 2, 2
	local.tee	6
	v128.and
	local.get	5
	i8x16.ne
	v128.store	16
	local.get	2
	local.get	3
	v128.const	1, 1, 1, 1, 1, 1, 1, 1, 1, 1, 1, 1, 1, 1, 1, 1
	local.tee	5
	v128.and
	i8x16.neg
	v128.store	0
	local.get	2
	call	aes_planes__soft__sbox__sub_bytes____e29e0540aa8bc136_
	local.get	2
	local.get	2
	v128.load	96
	v128.not
	v128.store	96
	local.get	2
	local.get	2
	v128.load	80
	v128.not
	v128.store	80
	local.get	2
	local.get	2
	v128.load	16
	v128.not
	v128.store	16
	local.get	2
	local.get	2
	v128.load	0
	v128.not
	v128.store	0
	local.get	2
	i32.const	16
	i64.const	1095216660480
	i64.const	280375465148415
	call	aes_planes__soft__shifts__swap_columns____e29e0540aa8bc136_
	local.get	2
	i32.const	8
	i64.const	71777214277877760
	i64.const	71777214277877760
	call	aes_planes__soft__shifts__swap_columns____e29e0540aa8bc136_
	local.get	0
	local.get	1
	v128.load	0:p2align=0
	local.get	2
	v128.load	112
	local.tee	3
	local.get	3
	i8x16.shuffle	4, 5, 6, 7, 8, 9, 10, 11, 12, 13, 14, 15, 0, 1, 2, 3
	local.tee	7
	local.get	7
	local.get	3
	v128.xor
	local.tee	3
	local.get	3
	i8x16.shuffle	8, 9, 10, 11, 12, 13, 14, 15, 0, 1, 2, 3, 4, 5, 6, 7
	v128.xor
	local.get	2
	v128.load	96
	local.tee	7
	local.get	3
	i8x16.shuffle	4, 5, 6, 7, 8, 9, 10, 11, 12, 13, 14, 15, 0, 1, 2, 3
	local.tee	8
	local.get	7
	v128.xor
	local.tee	7
	v128.xor
	i32.const	7
	i8x16.shl
	local.get	8
	local.get	7
	local.get	3
	i8x16.shuffle	8, 9, 10, 11, 12, 13, 14, 15, 0, 1, 2, 3, 4, 5, 6, 7
	v128.xor
	local.get	2
	v128.load	80
	local.tee	7
	local.get	3
	i8x16.shuffle	4, 5, 6, 7, 8, 9, 10, 11, 12, 13, 14, 15, 0, 1, 2, 3
	local.tee	8
	local.get	7
	v128.xor
	local.tee	7
	v128.xor
	i32.const	6
	i8x16.shl
	local.get	4
	v128.and
	v128.or
	local.get	8
	local.get	7
	local.get	3
	i8x16.shuffle	8, 9, 10, 11, 12, 13, 14, 15, 0, 1, 2, 3, 4, 5, 6, 7
	v128.xor
	local.get	2
	v128.load	64
	local.tee	4
	local.get	3
	i8x16.shuffle	4, 5, 6, 7, 8, 9, 10, 11, 12, 13, 14, 15, 0, 1, 2, 3
	local.tee	7
	local.get	4
	v128.xor
	local.tee	4
	v128.xor
	i32.const	1
	i8x16.shl
	local.get	6
	v128.and
	local.get	7
	local.get	4
	local.get	3
	i8x16.shuffle	8, 9, 10, 11, 12, 13, 14, 15, 0, 1, 2, 3, 4, 5, 6, 7
	v128.xor
	local.get	2
	v128.load	48
	local.tee	4
	local.get	3
	i8x16.shuffle	4, 5, 6, 7, 8, 9, 10, 11, 12, 13, 14, 15, 0, 1, 2, 3
	local.tee	7
	local.get	4
	v128.xor
	local.tee	4
	v128.xor
	local.get	3
	v128.xor
	local.get	5
	v128.and
	v128.or
	i32.const	4
	i8x16.shl
	v128.or
	local.get	7
	local.get	4
	local.get	3
	i8x16.shuffle	8, 9, 10, 11, 12, 13, 14, 15, 0, 1, 2, 3, 4, 5, 6, 7
	v128.xor
	local.get	2
	v128.load	32
	local.tee	4
	local.get	3
	i8x16.shuffle	4, 5, 6, 7, 8, 9, 10, 11, 12, 13, 14, 15, 0, 1, 2, 3
	local.tee	7
	local.get	4
	v128.xor
	local.tee	4
	v128.xor
	local.get	3
	v128.xor
	i32.const	1
	i8x16.shl
	local.get	6
	v128.and
	local.get	7
	local.get	4
	local.get	3
	i8x16.shuffle	8, 9, 10, 11, 12, 13, 14, 15, 0, 1, 2, 3, 4, 5, 6, 7
	v128.xor
	local.get	2
	v128.load	16
	local.tee	4
	local.get	3
	i8x16.shuffle	4, 5, 6, 7, 8, 9, 10, 11, 12, 13, 14, 15, 0, 1, 2, 3
	local.tee	7
	local.get	4
	v128.xor
	local.tee	4
	v128.xor
	local.get	5
	v128.and
	v128.or
	i32.const	2
	i8x16.shl
	local.get	2
	v128.load	0
	local.tee	8
	local.get	3
	i8x16.shuffle	4, 5, 6, 7, 8, 9, 10, 11, 12, 13, 14, 15, 0, 1, 2, 3
	local.tee	9
	local.get	8
	v128.xor
	local.tee	8
	local.get	3
	i8x16.shuffle	8, 9, 10, 11, 12, 13, 14, 15, 0, 1, 2, 3, 4, 5, 6, 7
	local.get	9
	v128.xor
	local.get	3
	v128.xor
	local.get	5
	v128.and
	local.get	7
	local.get	4
	local.get	3
	i8x16.shuffle	8, 9, 10, 11, 12, 13, 14, 15, 0, 1, 2, 3, 4, 5, 6, 7
	v128.xor
	local.get	8
	v128.xor
	local.get	3
	v128.xor
	i32.const	1
	i8x16.shl
	local.get	6
	v128.and
	v128.or
	v128.or
	v128.or
	local.get	3
	i8x16.shuffle	0, 4, 8, 12, 1, 5, 9, 13, 2, 6, 10, 14, 3, 7, 11, 15
	v128.xor
	v128.store	0:p2align=0
	local.get	2
	i32.const	128
	i32.add 
	global.set	__stack_pointer
                                        # fallthrough-return
	end_function
                                        # -- End function
	.section	.text.aes_c__single_rounds__rounds,"",@
	.type	aes_c__single_rounds__rounds,@function # -- Begin function aes_c__single_rounds__rounds
aes_c__single_rounds__rounds:           # @aes_c__single_rounds__rounds
	.functype	aes_c__single_rounds__rounds (i32, i32) -> ()
	.local  	i32, i32, v128, v128, v128, i32, v128, v128, v128, i32, v128, v128, i32, v128, v128, v128, v128, v128, v128, v128, i32, v128, v128, v128, i32, v128, v128, i32, v128, v128, v128, v128
# %bb.0:                                # %start
	global.get	__stack_pointer
	i32.const	128
	i32.sub 
	local.tee	2
	global.set	__stack_pointer
	local.get	2
	local.get	0
	i32.const	64
	i32.add 
	local.tee	3
	v128.load	0:p2align=0
	local.get	4
	i8x16.shuffle	0, 4, 8, 12, 1, 5, 9, 13, 2, 6, 10, 14, 3, 7, 11, 15
	local.tee	5
	i32.const	1
	i8x16.shr_u
	local.tee	6
	local.get	0
	i32.const	80
	i32.add 
	local.tee	7
	v128.load	0:p2align=0
	local.get	4
	i8x16.shuffle	0, 4, 8, 12, 1, 5, 9, 13, 2, 6, 10, 14, 3, 7, 11, 15
	local.tee	8
	v128.const	85, 85, 85, 85, 85, 85, 85, 85, 85, 85, 85, 85, 85, 85, 85, 85
	local.tee	4
	v128.bitselect
	local.tee	9
	i32.const	2
	i8x16.shr_u
	local.tee	10
	local.get	0
	i32.const	96
	i32.add 
	local.tee	11
	v128.load	0:p2align=0
	local.get	4
	i8x16.shuffle	0, 4, 8, 12, 1, 5, 9, 13, 2, 6, 10, 14, 3, 7, 11, 15
	local.tee	12
	i32.const	1
	i8x16.shr_u
	local.tee	13
	local.get	0
	i32.const	112
	i32.add 
	local.tee	14
	v128.load	0:p2align=0
	local.get	4
	i8x16.shuffle	0, 4, 8, 12, 1, 5, 9, 13, 2, 6, 10, 14, 3, 7, 11, 15
	local.tee	15
	local.get	4
	v128.bitselect
	local.tee	16
	v128.const	51, 51, 51, 51, 51, 51, 51, 51, 51, 51, 51, 51, 51, 51, 51, 51
	local.tee	17
	v128.bitselect
	local.tee	18
	v128.const	15, 15, 15, 15, 15, 15, 15, 15, 15, 15, 15, 15, 15, 15, 15, 15
	local.tee	19
	v128.and
	local.get	0
	v128.load	0:p2align=0
	local.get	4
	i8x16.shuffle	0, 4, 8, 12, 1, 5, 9, 13, 2, 6, 10, 14, 3, 7, 11, 15
	local.tee	20
	i32.const	1
	i8x16.shr_u
	local.tee	21
	local.get	0
	i32.const	16
	i32.add 
	local.tee	22
	v128.load	0:p2align=0
	local.get	4
	i8x16.shuffle	0, 4, 8, 12, 1, 5, 9, 13, 2, 6, 10, 14, 3, 7, 11, 15
	local.tee	23
	local.get	4
	v128.bitselect
	local.tee	24
	i32.const	2
	i8x16.shr_u
	local.tee	25
	local.get	0
	i32.const	32
	i32.add 
	local.tee	26
	v128.load	0:p2align=0
	local.get	4
	i8x16.shuffle	0, 4, 8, 12, 1, 5, 9, 13, 2, 6, 10, 14, 3, 7, 11, 15
	local.tee	27
	i32.const	1
	i8x16.shr_u
	local.tee	28
	local.get	0
	i32.const	48
	i32.add 
	local.tee	29
	v128.load	0:p2align=0
	local.get	4
	i8x16.shuffle	0, 4, 8, 12, 1, 5, 9, 13, 2, 6, 10, 14, 3, 7, 11, 15
	local.tee	30
	local.get	4
	v128.bitselect
	local.tee	31
	local.get	17
	v128.bitselect
	local.tee	32
	i32.const	4
	i8x16.shr_u
	v128.xor
	local.tee	33
	local.get	18
	v128.xor
	v128.store	112
	local.get	2
	local.get	33
	i32.const	4
	i8x16.shl
	local.get	32
	v128.xor
	v128.store	48
	local.get	2
	local.get	8
	local.get	6
	v128.xor
	local.get	4
	v128.and
	i32.const	1
	i8x16.shl
	local.get	5
	v128.xor
	local.tee	5
	i32.const	2
	i8x16.shr_u
	local.tee	6
	local.get	15
	local.get	13
	v128.xor
	local.get	4
	v128.and
	i32.const	1
	i8x16.shl
	local.get	12
	v128.xor
	local.tee	8
	local.get	17
	v128.bitselect
	local.tee	12
	local.get	19
	v128.and
	local.get	23
	local.get	21
	v128.xor
	local.get	4
	v128.and
	i32.const	1
	i8x16.shl
	local.get	20
	v128.xor
	local.tee	13
	i32.const	2
	i8x16.shr_u
	local.tee	15
	local.get	30
	local.get	28
	v128.xor
	local.get	4
	v128.and
	i32.const	1
	i8x16.shl
	local.get	27
	v128.xor
	local.tee	18
	local.get	17
	v128.bitselect
	local.tee	20
	i32.const	4
	i8x16.shr_u
	v128.xor
	local.tee	21
	local.get	12
	v128.xor
	v128.store	96
	local.get	2
	local.get	16
	local.get	10
	v128.xor
	local.get	17
	v128.and
	i32.const	2
	i8x16.shl
	local.get	9
	v128.xor
	local.tee	9
	local.get	19
	v128.and
	local.get	31
	local.get	25
	v128.xor
	local.get	17
	v128.and
	i32.const	2
	i8x16.shl
	local.get	24
	v128.xor
	local.tee	10
	i32.const	4
	i8x16.shr_u
	v128.xor
	local.tee	12
	local.get	9
	v128.xor
	v128.store	80
	local.get	2
	local.get	21
	i32.const	4
	i8x16.shl
	local.get	20
	v128.xor
	v128.store	32
	local.get	2
	local.get	12
	i32.const	4
	i8x16.shl
	local.get	10
	v128.xor
	v128.store	16
	local.get	2
	local.get	8
	local.get	6
	v128.xor
	local.get	17
	v128.and
	i32.const	2
	i8x16.shl
	local.get	5
	v128.xor
	local.tee	5
	local.get	19
	v128.and
	local.get	18
	local.get	15
	v128.xor
	local.get	17
	v128.and
	i32.const	2
	i8x16.shl
	local.get	13
	v128.xor
	local.tee	6
	i32.const	4
	i8x16.shr_u
	v128.xor
	local.tee	8
	local.get	5
	v128.xor
	v128.store	64
	local.get	2
	local.get	8
	i32.const	4
	i8x16.shl
	local.get	6
	v128.xor
	v128.store	0
	local.get	2
	call	aes_planes__soft__sbox__sub_bytes____e29e0540aa8bc136_
	local.get	2
	local.get	2
	v128.load	96
	v128.not
	v128.store	96
	local.get	2
	local.get	2
	v128.load	80
	v128.not
	v128.store	80
	local.get	2
	local.get	2
	v128.load	16
	v128.not
	v128.store	16
	local.get	2
	local.get	2
	v128.load	0
	v128.not
	v128.store	0
	local.get	2
	i32.const	16
	i64.const	1095216660480
	i64.const	280375465148415
	call	aes_planes__soft__shifts__swap_columns____e29e0540aa8bc136_
	local.get	2
	i32.const	8
	i64.const	71777214277877760
	i64.const	71777214277877760
	call	aes_planes__soft__shifts__swap_columns____e29e0540aa8bc136_
	local.get	2
	v128.load	48
	local.set	5
	local.get	2
	v128.load	32
	local.set	6
	local.get	2
	v128.load	112
	local.set	8
	local.get	2
	v128.load	16
	local.set	9
	local.get	2
	v128.load	0
	local.set	10
	local.get	2
	local.get	2
	v128.load	96
	local.tee	12
	local.get	4
	i8x16.shuffle	4, 5, 6, 7, 8, 9, 10, 11, 12, 13, 14, 15, 0, 1, 2, 3
	local.tee	13
	local.get	13
	local.get	12
	v128.xor
	local.tee	15
	local.get	4
	i8x16.shuffle	8, 9, 10, 11, 12, 13, 14, 15, 0, 1, 2, 3, 4, 5, 6, 7
	v128.xor
	local.get	2
	v128.load	80
	local.tee	12
	local.get	4
	i8x16.shuffle	4, 5, 6, 7, 8, 9, 10, 11, 12, 13, 14, 15, 0, 1, 2, 3
	local.tee	13
	local.get	12
	v128.xor
	local.tee	16
	v128.xor
	local.tee	12
	v128.store	96
	local.get	2
	local.get	2
	v128.load	64
	local.tee	18
	local.get	4
	i8x16.shuffle	4, 5, 6, 7, 8, 9, 10, 11, 12, 13, 14, 15, 0, 1, 2, 3
	local.tee	20
	local.get	20
	local.get	18
	v128.xor
	local.tee	18
	local.get	4
	i8x16.shuffle	8, 9, 10, 11, 12, 13, 14, 15, 0, 1, 2, 3, 4, 5, 6, 7
	v128.xor
	local.get	5
	local.get	5
	local.get	4
	i8x16.shuffle	4, 5, 6, 7, 8, 9, 10, 11, 12, 13, 14, 15, 0, 1, 2, 3
	local.tee	20
	v128.xor
	local.tee	21
	v128.xor
	local.get	8
	local.get	8
	local.get	4
	i8x16.shuffle	4, 5, 6, 7, 8, 9, 10, 11, 12, 13, 14, 15, 0, 1, 2, 3
	local.tee	23
	v128.xor
	local.tee	5
	v128.xor
	local.tee	8
	v128.store	64
	local.get	2
	local.get	13
	local.get	16
	local.get	4
	i8x16.shuffle	8, 9, 10, 11, 12, 13, 14, 15, 0, 1, 2, 3, 4, 5, 6, 7
	v128.xor
	local.get	18
	v128.xor
	local.tee	13
	v128.store	80
	local.get	14
	local.get	8
	i32.const	1
	i8x16.shr_u
	local.tee	16
	local.get	13
	local.get	4
	v128.bitselect
	local.tee	18
	i32.const	2
	i8x16.shr_u
	local.tee	24
	local.get	12
	i32.const	1
	i8x16.shr_u
	local.tee	25
	local.get	23
	local.get	5
	local.get	4
	i8x16.shuffle	8, 9, 10, 11, 12, 13, 14, 15, 0, 1, 2, 3, 4, 5, 6, 7
	v128.xor
	local.get	15
	v128.xor
	local.tee	15
	local.get	4
	v128.bitselect
	local.tee	23
	local.get	17
	v128.bitselect
	local.tee	27
	local.get	19
	v128.and
	local.get	10
	local.get	10
	local.get	4
	i8x16.shuffle	4, 5, 6, 7, 8, 9, 10, 11, 12, 13, 14, 15, 0, 1, 2, 3
	local.tee	28
	v128.xor
	local.tee	10
	local.get	4
	i8x16.shuffle	8, 9, 10, 11, 12, 13, 14, 15, 0, 1, 2, 3, 4, 5, 6, 7
	local.get	28
	v128.xor
	local.get	5
	v128.xor
	local.tee	28
	i32.const	1
	i8x16.shr_u
	local.tee	30
	local.get	9
	local.get	4
	i8x16.shuffle	4, 5, 6, 7, 8, 9, 10, 11, 12, 13, 14, 15, 0, 1, 2, 3
	local.tee	31
	local.get	31
	local.get	9
	v128.xor
	local.tee	9
	local.get	4
	i8x16.shuffle	8, 9, 10, 11, 12, 13, 14, 15, 0, 1, 2, 3, 4, 5, 6, 7
	v128.xor
	local.get	10
	v128.xor
	local.get	5
	v128.xor
	local.tee	10
	local.get	4
	v128.bitselect
	local.tee	31
	i32.const	2
	i8x16.shr_u
	local.tee	32
	local.get	6
	local.get	4
	i8x16.shuffle	4, 5, 6, 7, 8, 9, 10, 11, 12, 13, 14, 15, 0, 1, 2, 3
	local.tee	33
	local.get	33
	local.get	6
	v128.xor
	local.tee	6
	local.get	4
	i8x16.shuffle	8, 9, 10, 11, 12, 13, 14, 15, 0, 1, 2, 3, 4, 5, 6, 7
	v128.xor
	local.get	9
	v128.xor
	local.tee	9
	i32.const	1
	i8x16.shr_u
	local.tee	33
	local.get	20
	local.get	21
	local.get	4
	i8x16.shuffle	8, 9, 10, 11, 12, 13, 14, 15, 0, 1, 2, 3, 4, 5, 6, 7
	v128.xor
	local.get	6
	v128.xor
	local.get	5
	v128.xor
	local.tee	5
	local.get	4
	v128.bitselect
	local.tee	6
	local.get	17
	v128.bitselect
	local.tee	20
	i32.const	4
	i8x16.shr_u
	v128.xor
	local.tee	21
	local.get	27
	v128.xor
	local.get	4
	i8x16.shuffle	0, 4, 8, 12, 1, 5, 9, 13, 2, 6, 10, 14, 3, 7, 11, 15
	v128.store	0:p2align=0
	local.get	29
	local.get	21
	i32.const	4
	i8x16.shl
	local.get	20
	v128.xor
	local.get	4
	i8x16.shuffle	0, 4, 8, 12, 1, 5, 9, 13, 2, 6, 10, 14, 3, 7, 11, 15
	v128.store	0:p2align=0
	local.get	11
	local.get	16
	local.get	13
	v128.xor
	local.get	4
	v128.and
	i32.const	1
	i8x16.shl
	local.get	8
	v128.xor
	local.tee	8
	i32.const	2
	i8x16.shr_u
	local.tee	13
	local.get	15
	local.get	25
	v128.xor
	local.get	4
	v128.and
	i32.const	1
	i8x16.shl
	local.get	12
	v128.xor
	local.tee	12
	local.get	17
	v128.bitselect
	local.tee	15
	local.get	19
	v128.and
	local.get	30
	local.get	10
	v128.xor
	local.get	4
	v128.and
	i32.const	1
	i8x16.shl
	local.get	28
	v128.xor
	local.tee	10
	i32.const	2
	i8x16.shr_u
	local.tee	16
	local.get	5
	local.get	33
	v128.xor
	local.get	4
	v128.and
	i32.const	1
	i8x16.shl
	local.get	9
	v128.xor
	local.tee	4
	local.get	17
	v128.bitselect
	local.tee	5
	i32.const	4
	i8x16.shr_u
	v128.xor
	local.tee	9
	local.get	15
	v128.xor
	local.get	4
	i8x16.shuffle	0, 4, 8, 12, 1, 5, 9, 13, 2, 6, 10, 14, 3, 7, 11, 15
	v128.store	0:p2align=0
	local.get	7
	local.get	23
	local.get	24
	v128.xor
	local.get	17
	v128.and
	i32.const	2
	i8x16.shl
	local.get	18
	v128.xor
	local.tee	15
	local.get	19
	v128.and
	local.get	32
	local.get	6
	v128.xor
	local.get	17
	v128.and
	i32.const	2
	i8x16.shl
	local.get	31
	v128.xor
	local.tee	6
	i32.const	4
	i8x16.shr_u
	v128.xor
	local.tee	18
	local.get	15
	v128.xor
	local.get	4
	i8x16.shuffle	0, 4, 8, 12, 1, 5, 9, 13, 2, 6, 10, 14, 3, 7, 11, 15
	v128.store	0:p2align=0
	local.get	26
	local.get	9
	i32.const	4
	i8x16.shl
	local.get	5
	v128.xor
	local.get	4
	i8x16.shuffle	0, 4, 8, 12, 1, 5, 9, 13, 2, 6, 10, 14, 3, 7, 11, 15
	v128.store	0:p2align=0
	local.get	22
	local.get	18
	i32.const	4
	i8x16.shl
	local.get	6
	v128.xor
	local.get	4
	i8x16.shuffle	0, 4, 8, 12, 1, 5, 9, 13, 2, 6, 10, 14, 3, 7, 11, 15
	v128.store	0:p2align=0
	local.get	3
	local.get	12
	local.get	13
	v128.xor
	local.get	17
	v128.and
	i32.const	2
	i8x16.shl
	local.get	8
	v128.xor
	local.tee	5
	local.get	19
	v128.and
	local.get	16
	local.get	4
	v128.xor
	local.get	17
	v128.and
	i32.const	2
	i8x16.shl
	local.get	10
	v128.xor
	local.tee	4
	i32.const	4
	i8x16.shr_u
	v128.xor
	local.tee	17
	local.get	5
	v128.xor
	local.get	4
	i8x16.shuffle	0, 4, 8, 12, 1, 5, 9, 13, 2, 6, 10, 14, 3, 7, 11, 15
	v128.store	0:p2align=0
	local.get	0
	local.get	17
	i32.const	4
	i8x16.shl
	local.get	4
	v128.xor
	local.get	4
	i8x16.shuffle	0, 4, 8, 12, 1, 5, 9, 13, 2, 6, 10, 14, 3, 7, 11, 15
	v128.store	0:p2align=0
	local.get	0
	local.get	1
	v128.load	0:p2align=0
	local.get	0
	v128.load	0:p2align=0
	v128.xor
	v128.store	0:p2align=0
	local.get	22
	local.get	1
	i32.const	16
	i32.add 
	v128.load	0:p2align=0
	local.get	22
	v128.load	0:p2align=0
	v128.xor
	v128.store	0:p2align=0
	local.get	26
	local.get	1
	i32.const	32
	i32.add 
	v128.load	0:p2align=0
	local.get	26
	v128.load	0:p2align=0
	v128.xor
	v128.store	0:p2align=0
	local.get	29
	local.get	1
	i32.const	48
	i32.add 
	v128.load	0:p2align=0
	local.get	29
	v128.load	0:p2align=0
	v128.xor
	v128.store	0:p2align=0
	local.get	3
	local.get	1
	i32.const	64
	i32.add 
	v128.load	0:p2align=0
	local.get	3
	v128.load	0:p2align=0
	v128.xor
	v128.store	0:p2align=0
	local.get	7
	local.get	1
	i32.const	80
	i32.add 
	v128.load	0:p2align=0
	local.get	7
	v128.load	0:p2align=0
	v128.xor
	v128.store	0:p2align=0
	local.get	11
	local.get	1
	i32.const	96
	i32.add 
	v128.load	0:p2align=0
	local.get	11
	v128.load	0:p2align=0
	v128.xor
	v128.store	0:p2align=0
	local.get	14
	local.get	1
	i32.const	112
	i32.add 
	v128.load	0:p2align=0
	local.get	14
	v128.load	0:p2align=0
	v128.xor
	v128.store	0:p2align=0
	local.get	2
	i32.const	128
	i32.add 
	global.set	__stack_pointer
                                        # fallthrough-return
	end_function
                                        # -- End function
	.section	.text.ccm__mode__decrypt____ef80964e0b8d42c0_,"",@
	.type	ccm__mode__decrypt____ef80964e0b8d42c0_,@function # -- Begin function ccm__mode__decrypt____ef80964e0b8d42c0_
ccm__mode__decrypt____ef80964e0b8d42c0_: # @ccm__mode__decrypt____ef80964e0b8d42c0_
	.functype	ccm__mode__decrypt____ef80964e0b8d42c0_ (i32, i32, i32, i64, i32, i64, i32, i64, i32, i64) -> ()
	.local  	i32, i32, i32, i32
# %bb.0:                                # %start
	global.get	__stack_pointer
	i32.const	48
	i32.sub 
	local.tee	10
	global.set	__stack_pointer
	local.get	10
	i32.const	8
	i32.add 
	local.get	3
	local.get	7
	local.get	9
	call	ccm__formatting__check
	block   	
	block   	
	local.get	10
	i32.load8_u	8
	i32.const	1
	i32.ne  
	br_if   	0                               # 0: down to label212
# %bb.1:                                # %arm.1
	local.get	10
	i32.load8_u	9
	local.set	6
	local.get	0
	i32.const	1
	i32.store16	0:p2align=0
	local.get	0
	i32.const	2
	i32.add 
	local.get	6
	i32.store8	0
	br      	1                               # 1: down to label211
.LBB61_2:                               # %join.4
	end_block                               # label212:
	local.get	10
	i64.const	0
	i64.store	16
	local.get	10
	i64.const	0
	i64.store	23:p2align=0
	block   	
	local.get	3
	i32.wrap_i64
	local.tee	11
	i32.eqz
	local.tee	12
	br_if   	0                               # 0: down to label213
# %bb.3:                                # %join.4
	local.get	10
	i32.const	16
	i32.add 
	local.get	2
	local.get	11
	memory.copy	0, 0
.LBB61_4:                               # %join.4
	end_block                               # label213:
	local.get	10
	i32.const	14
	local.get	11
	i32.sub 
	local.tee	13
	i32.store8	32
	local.get	10
	local.get	10
	i64.load	16
	i64.store	33:p2align=0
	local.get	10
	local.get	10
	i64.load	23:p2align=0
	i64.store	40:p2align=0
	local.get	1
	local.get	10
	i32.const	32
	i32.add 
	i64.const	16
	local.get	6
	local.get	7
	call	aes_ctr__add_in_batches__add_keystream____ef80964e0b8d42c0_
	local.get	1
	local.get	2
	local.get	3
	local.get	9
	local.get	4
	local.get	5
	local.get	6
	local.get	7
	local.get	10
	i32.const	16
	i32.add 
	call	ccm__message__put_tag____ef80964e0b8d42c0_
	local.get	10
	local.get	10
	v128.load	16:p2align=0
	v128.store	32:p2align=3
	block   	
	local.get	9
	i32.wrap_i64
	local.tee	4
	i32.eqz
	br_if   	0                               # 0: down to label214
# %bb.5:                                # %join.4
	local.get	10
	i32.const	32
	i32.add 
	local.get	8
	local.get	4
	memory.copy	0, 0
.LBB61_6:                               # %join.4
	end_block                               # label214:
	block   	
	local.get	10
	i32.const	32
	i32.add 
	local.get	10
	i32.const	16
	i32.add 
	call	aes_cipher__blocks__difference
	br_if   	0                               # 0: down to label215
# %bb.7:                                # %then.5
	local.get	0
	i32.const	0
	i32.store16	0:p2align=0
	local.get	0
	i32.const	2
	i32.add 
	i32.const	0
	i32.store8	0
	br      	1                               # 1: down to label211
.LBB61_8:                               # %join.7
	end_block                               # label215:
	local.get	10
	i64.const	0
	i64.store	16
	local.get	10
	i64.const	0
	i64.store	23:p2align=0
	block   	
	local.get	12
	br_if   	0                               # 0: down to label216
# %bb.9:                                # %join.7
	local.get	10
	i32.const	16
	i32.add 
	local.get	2
	local.get	11
	memory.copy	0, 0
.LBB61_10:                              # %join.7
	end_block                               # label216:
	local.get	10
	local.get	13
	i32.store8	32
	local.get	10
	local.get	10
	i64.load	16
	i64.store	33:p2align=0
	local.get	10
	local.get	10
	i64.load	23:p2align=0
	i64.store	40:p2align=0
	local.get	1
	local.get	10
	i32.const	32
	i32.add 
	i64.const	16
	local.get	6
	local.get	7
	call	aes_ctr__add_in_batches__add_keystream____ef80964e0b8d42c0_
	local.get	0
	i32.const	2
	i32.add 
	i32.const	0
	i32.store8	0
	local.get	0
	i32.const	257
	i32.store16	0:p2align=0
.LBB61_11:                              # %common.ret
	end_block                               # label211:
	local.get	10
	i32.const	48
	i32.add 
	global.set	__stack_pointer
                                        # fallthrough-return
	end_function
                                        # -- End function
	.section	.text.ccm__formatting__check,"",@
	.type	ccm__formatting__check,@function # -- Begin function ccm__formatting__check
ccm__formatting__check:                 # @ccm__formatting__check
	.functype	ccm__formatting__check (i32, i64, i64, i64) -> ()
	.local  	i32, i32
# %bb.0:                                # %start
	i32.const	1
	local.set	4
	i32.const	0
	local.set	5
	block   	
	local.get	3
	i64.const	-4
	i64.add 
	i64.const	12
	i64.gt_u
	br_if   	0                               # 0: down to label217
# %bb.1:                                # %start
	local.get	3
	i64.const	1
	i64.and 
	i32.wrap_i64
	br_if   	0                               # 0: down to label217
# %bb.2:                                # %after.1
	i32.const	1
	local.set	5
	i32.const	1
	local.set	4
	local.get	1
	i64.const	-14
	i64.add 
	i64.const	-7
	i64.lt_u
	br_if   	0                               # 0: down to label217
# %bb.3:                                # %after.15
	i32.const	2
	i32.const	0
	local.get	1
	i64.const	7
	i64.ne  
	local.get	2
	local.get	1
	i64.const	3
	i64.shl 
	i64.const	120
	i64.xor 
	i64.shr_u
	i64.const	0
	i64.ne  
	i32.and 
	local.tee	4
	i32.select
	local.set	5
.LBB62_4:                               # %return.13
	end_block                               # label217:
	local.get	0
	local.get	5
	i32.store8	1
	local.get	0
	local.get	4
	i32.store8	0
                                        # fallthrough-return
	end_function
                                        # -- End function
	.section	.text.ccm__message__put_tag____ef80964e0b8d42c0_,"",@
	.type	ccm__message__put_tag____ef80964e0b8d42c0_,@function # -- Begin function ccm__message__put_tag____ef80964e0b8d42c0_
ccm__message__put_tag____ef80964e0b8d42c0_: # @ccm__message__put_tag____ef80964e0b8d42c0_
	.functype	ccm__message__put_tag____ef80964e0b8d42c0_ (i32, i32, i64, i64, i32, i64, i32, i64, i32) -> ()
	.local  	i32, i32, i32, i32, i64, i32, i32, i32, v128, v128, v128, v128, v128, v128, v128, v128, v128, v128, v128
# %bb.0:                                # %start
	global.get	__stack_pointer
	i32.const	48
	i32.sub 
	local.tee	9
	global.set	__stack_pointer
	local.get	9
	i64.const	0
	i64.store	16
	local.get	9
	i64.const	0
	i64.store	23:p2align=0
	local.get	9
	local.get	7
	i64.const	56
	i64.shl 
	local.get	7
	i64.const	65280
	i64.and 
	i64.const	40
	i64.shl 
	i64.or  
	local.get	7
	i64.const	16711680
	i64.and 
	i64.const	24
	i64.shl 
	local.get	7
	i64.const	4278190080
	i64.and 
	i64.const	8
	i64.shl 
	i64.or  
	i64.or  
	local.get	7
	i64.const	8
	i64.shr_u
	i64.const	4278190080
	i64.and 
	local.get	7
	i64.const	24
	i64.shr_u
	i64.const	16711680
	i64.and 
	i64.or  
	local.get	7
	i64.const	40
	i64.shr_u
	i64.const	65280
	i64.and 
	local.get	7
	i64.const	56
	i64.shr_u
	i64.or  
	i64.or  
	i64.or  
	i64.store	8
	block   	
	local.get	2
	i32.wrap_i64
	local.tee	10
	i32.eqz
	local.tee	11
	br_if   	0                               # 0: down to label218
# %bb.1:                                # %start
	local.get	9
	i32.const	16
	i32.add 
	local.get	1
	local.get	10
	memory.copy	0, 0
.LBB63_2:                               # %start
	end_block                               # label218:
	local.get	9
	i32.const	14
	i32.const	78
	local.get	5
	i64.eqz
	local.tee	12
	i32.select
	i64.const	0
	local.get	3
	i64.const	-2
	i64.add 
	local.tee	13
	local.get	13
	local.get	3
	i64.gt_u
	i64.select
	i64.const	2
	i64.shl 
	i64.const	248
	i64.and 
	local.get	2
	i64.sub 
	i32.wrap_i64
	i32.add 
	i32.store8	32
	local.get	9
	local.get	9
	i64.load	16
	i64.store	33:p2align=0
	local.get	9
	local.get	9
	i64.load	23:p2align=0
	i64.store	40:p2align=0
	block   	
	block   	
	local.get	9
	i32.const	32
	i32.add 
	i32.const	1
	i32.or  
	local.get	10
	i32.add 
	local.tee	14
	i64.extend_i32_u
	local.get	9
	i32.const	8
	i32.add 
	local.get	10
	i32.add 
	i32.const	-7
	i32.add 
	local.tee	15
	i64.extend_i32_u
	i64.sub 
	i64.const	15
	local.get	2
	i64.sub 
	local.tee	2
	i64.ge_u
	br_if   	0                               # 0: down to label220
# %bb.3:                                # %join.7.i.i.i.i.i.i.preheader.i
	i32.const	15
	local.get	10
	i32.sub 
	local.tee	16
	i32.eqz
	br_if   	1                               # 1: down to label219
# %bb.4:                                # %join.7.i.i.i.i.i.i.preheader.i
	local.get	14
	local.get	15
	local.get	16
	memory.copy	0, 0
	br      	1                               # 1: down to label219
.LBB63_5:                               # %apart.2.i.i.i.i.i.i.i
	end_block                               # label220:
	local.get	2
	i32.wrap_i64
	local.tee	16
	i32.eqz
	br_if   	0                               # 0: down to label219
# %bb.6:                                # %apart.2.i.i.i.i.i.i.i
	local.get	14
	local.get	15
	local.get	16
	memory.copy	0, 0
.LBB63_7:                               # %ccm__formatting__first_block.exit
	end_block                               # label219:
	local.get	8
	local.get	9
	v128.load	32
	local.tee	17
	v128.store	0:p2align=0
	i32.const	16
	local.set	14
	v128.const	0, 1, 28, 29, 45, 44, 49, 48, 39, 38, 59, 58, 10, 11, 22, 23
	local.tee	18
	local.get	17
	local.get	0
	i32.const	16
	i32.add 
	i32.load	0:p2align=0
	local.tee	16
	v128.load	0:p2align=0
	v128.xor
	local.tee	17
	v128.const	15, 15, 15, 15, 15, 15, 15, 15, 15, 15, 15, 15, 15, 15, 15, 15
	local.tee	19
	v128.and
	i8x16.swizzle
	v128.const	0, 134, 253, 123, 142, 8, 115, 245, 119, 241, 138, 12, 249, 127, 4, 130
	local.tee	20
	local.get	17
	i32.const	4
	i8x16.shr_u
	i8x16.swizzle
	v128.xor
	local.set	21
	block   	
	local.get	0
	i32.const	24
	i32.add 
	i64.load	0:p2align=0
	local.tee	2
	i64.const	-1
	i64.add 
	local.tee	3
	i64.const	2
	i64.lt_u
	br_if   	0                               # 0: down to label221
# %bb.8:                                # %join.5.i.i914.preheader
	local.get	2
	i64.const	-2
	i64.add 
	local.set	2
.LBB63_9:                               # %join.5.i.i914
                                        # =>This Inner Loop Header: Depth=1
	loop    	                                # label222:
	local.get	16
	local.get	14
	i32.add 
	v128.load	0:p2align=0
	v128.const	0, 209, 229, 247, 230, 37, 18, 195, 38, 192, 55, 210, 244, 3, 17, 52
	v128.const	128, 1, 9, 14, 13, 11, 7, 6, 15, 2, 12, 5, 10, 4, 3, 8
	local.tee	17
	local.get	17
	local.get	21
	i32.const	4
	i8x16.shr_u
	local.tee	22
	local.get	21
	local.get	19
	v128.and
	local.tee	21
	v128.xor
	local.tee	23
	i8x16.swizzle
	v128.const	128, 2, 1, 15, 9, 5, 14, 12, 13, 4, 11, 10, 7, 8, 6, 3
	local.get	21
	i8x16.swizzle
	local.tee	21
	v128.xor
	i8x16.swizzle
	local.get	22
	v128.xor
	local.tee	24
	i8x16.swizzle
	v128.const	0, 124, 32, 207, 146, 1, 239, 147, 179, 33, 238, 206, 125, 178, 93, 92
	local.get	17
	local.get	17
	local.get	22
	i8x16.swizzle
	local.get	21
	v128.xor
	i8x16.swizzle
	local.get	23
	v128.xor
	local.tee	17
	i8x16.swizzle
	v128.xor
	v128.const	0, 230, 114, 183, 229, 198, 197, 35, 81, 180, 3, 113, 32, 151, 82, 148
	local.get	24
	i8x16.swizzle
	v128.const	0, 195, 79, 12, 252, 124, 67, 128, 207, 51, 63, 112, 191, 179, 240, 140
	local.get	17
	i8x16.swizzle
	v128.xor
	local.tee	17
	local.get	14
	i32.const	48
	i32.and 
	local.tee	15
	v128.load	.Lstatic.4:p2align=0
	local.tee	21
	i8x16.swizzle
	v128.xor
	local.tee	22
	local.get	21
	i8x16.swizzle
	v128.xor
	local.get	17
	local.get	15
	v128.load	.Lstatic.5:p2align=0
	i8x16.swizzle
	v128.xor
	local.get	22
	v128.xor
	local.set	21
	local.get	14
	i32.const	16
	i32.add 
	local.set	14
	local.get	2
	i64.const	-1
	i64.add 
	local.tee	2
	i64.const	0
	i64.ne  
	br_if   	0                               # 0: up to label222
.LBB63_10:                              # %aes_permute__blocks__process_block____aedbc4fd156a355d_.exit1658
	end_loop
	end_block                               # label221:
	local.get	8
	v128.const	0, 159, 97, 22, 194, 42, 119, 232, 137, 75, 93, 60, 181, 163, 212, 254
	local.tee	25
	v128.const	128, 1, 9, 14, 13, 11, 7, 6, 15, 2, 12, 5, 10, 4, 3, 8
	local.tee	17
	local.get	17
	local.get	21
	i32.const	4
	i8x16.shr_u
	local.tee	22
	local.get	21
	local.get	19
	v128.and
	local.tee	21
	v128.xor
	local.tee	23
	i8x16.swizzle
	v128.const	128, 2, 1, 15, 9, 5, 14, 12, 13, 4, 11, 10, 7, 8, 6, 3
	local.tee	26
	local.get	21
	i8x16.swizzle
	local.tee	21
	v128.xor
	i8x16.swizzle
	local.get	22
	v128.xor
	i8x16.swizzle
	v128.const	0, 203, 215, 176, 33, 141, 103, 172, 123, 90, 234, 61, 70, 246, 145, 28
	local.tee	27
	local.get	17
	local.get	17
	local.get	22
	i8x16.swizzle
	local.get	21
	v128.xor
	i8x16.swizzle
	local.get	23
	v128.xor
	i8x16.swizzle
	v128.xor
	local.get	3
	i32.wrap_i64
	i32.const	4
	i32.shl 
	local.tee	14
	i32.const	48
	i32.and 
	v128.load	.Lstatic.3:p2align=0
	i8x16.swizzle
	local.get	16
	local.get	14
	i32.add 
	v128.load	0:p2align=0
	v128.xor
	v128.store	0:p2align=0
	block   	
	local.get	12
	br_if   	0                               # 0: down to label223
# %bb.11:                               # %join.3.i
	local.get	9
	v128.const	0, 0
	v128.store	32:p2align=3
	local.get	5
	i64.const	56
	i64.shl 
	local.get	5
	i64.const	65280
	i64.and 
	i64.const	40
	i64.shl 
	i64.or  
	local.get	5
	i64.const	16711680
	i64.and 
	i64.const	24
	i64.shl 
	local.get	5
	i64.const	4278190080
	i64.and 
	i64.const	8
	i64.shl 
	i64.or  
	i64.or  
	local.get	5
	i64.const	8
	i64.shr_u
	i64.const	4278190080
	i64.and 
	local.get	5
	i64.const	24
	i64.shr_u
	i64.const	16711680
	i64.and 
	i64.or  
	local.get	5
	i64.const	40
	i64.shr_u
	i64.const	65280
	i64.and 
	local.get	5
	i64.const	56
	i64.shr_u
	i64.or  
	i64.or  
	i64.or  
	local.set	2
	block   	
	block   	
	local.get	5
	i64.const	65279
	i64.gt_u
	br_if   	0                               # 0: down to label225
# %bb.12:                               # %then.1.i.i
	local.get	9
	local.get	2
	i64.const	48
	i64.shr_u
	i64.store16	32
	i64.const	2
	local.set	2
	br      	1                               # 1: down to label224
.LBB63_13:                              # %join.3.i.i
	end_block                               # label225:
	local.get	9
	i32.const	65279
	i32.store16	32
	local.get	9
	local.get	2
	i64.const	32
	i64.shr_u
	i64.store32	34:p2align=1
	i64.const	6
	local.set	2
.LBB63_14:                              # %ccm__formatting__put_length.exit.i
	end_block                               # label224:
	block   	
	i64.const	16
	local.get	2
	i64.sub 
	local.tee	3
	local.get	5
	local.get	3
	local.get	5
	i64.lt_u
	i64.select
	local.tee	3
	i32.wrap_i64
	local.tee	14
	i32.eqz
	br_if   	0                               # 0: down to label226
# %bb.15:                               # %ccm__formatting__put_length.exit.i
	local.get	9
	i32.const	32
	i32.add 
	local.get	2
	i32.wrap_i64
	i32.or  
	local.get	4
	local.get	14
	memory.copy	0, 0
.LBB63_16:                              # %ccm__formatting__put_length.exit.i
	end_block                               # label226:
	local.get	0
	local.get	8
	local.get	9
	i32.const	32
	i32.add 
	i64.const	16
	call	cmac__chaining__chain____ef80964e0b8d42c0_
	local.get	0
	local.get	8
	local.get	4
	local.get	14
	i32.add 
	local.get	5
	local.get	3
	i64.sub 
	call	cmac__chaining__chain____ef80964e0b8d42c0_
.LBB63_17:                              # %ccm__message__chain_additional____ef80964e0b8d42c0_.exit
	end_block                               # label223:
	local.get	0
	local.get	8
	local.get	6
	local.get	7
	call	cmac__chaining__chain____ef80964e0b8d42c0_
	local.get	9
	i64.const	0
	i64.store	39:p2align=0
	local.get	9
	i64.const	0
	i64.store	32
	block   	
	local.get	11
	br_if   	0                               # 0: down to label227
# %bb.18:                               # %ccm__message__chain_additional____ef80964e0b8d42c0_.exit
	local.get	9
	i32.const	32
	i32.add 
	local.get	1
	local.get	10
	memory.copy	0, 0
.LBB63_19:                              # %ccm__message__chain_additional____ef80964e0b8d42c0_.exit
	end_block                               # label227:
	i32.const	16
	local.set	14
	local.get	18
	local.get	0
	i32.const	16
	i32.add 
	i32.load	0:p2align=0
	local.tee	16
	v128.load	0:p2align=0
	local.get	9
	i32.const	32
	i32.add 
	i32.const	14
	i32.add 
	local.get	9
	i32.const	45
	i32.add 
	local.get	9
	i32.const	44
	i32.add 
	local.get	9
	i32.const	43
	i32.add 
	local.get	9
	i32.const	42
	i32.add 
	local.get	9
	i32.const	41
	i32.add 
	local.get	9
	i32.const	40
	i32.add 
	local.get	9
	i32.const	32
	i32.add 
	i32.const	7
	i32.or  
	local.get	9
	i32.const	32
	i32.add 
	i32.const	6
	i32.or  
	local.get	9
	i32.const	32
	i32.add 
	i32.const	5
	i32.or  
	local.get	9
	i32.const	32
	i32.add 
	i32.const	4
	i32.or  
	local.get	9
	i32.const	32
	i32.add 
	i32.const	3
	i32.or  
	local.get	9
	i32.const	32
	i32.add 
	i32.const	2
	i32.or  
	local.get	9
	i32.const	32
	i32.add 
	i32.const	1
	i32.or  
	local.get	9
	i32.const	14
	local.get	10
	i32.sub 
	i8x16.splat
	v128.load8_lane	32, 1
	v128.load8_lane	0, 2
	v128.load8_lane	0, 3
	v128.load8_lane	0, 4
	v128.load8_lane	0, 5
	v128.load8_lane	0, 6
	v128.load8_lane	0, 7
	v128.load8_lane	0, 8
	v128.load8_lane	0, 9
	v128.load8_lane	0, 10
	v128.load8_lane	0, 11
	v128.load8_lane	0, 12
	v128.load8_lane	0, 13
	v128.load8_lane	0, 14
	v128.load8_lane	0, 15
	v128.xor
	local.tee	21
	local.get	19
	v128.and
	i8x16.swizzle
	local.get	20
	local.get	21
	i32.const	4
	i8x16.shr_u
	i8x16.swizzle
	v128.xor
	local.set	21
	block   	
	local.get	0
	i32.const	24
	i32.add 
	i64.load	0:p2align=0
	local.tee	2
	i64.const	-1
	i64.add 
	local.tee	7
	i64.const	2
	i64.lt_u
	br_if   	0                               # 0: down to label228
# %bb.20:                               # %join.5.i.i.preheader
	local.get	2
	i64.const	-2
	i64.add 
	local.set	2
.LBB63_21:                              # %join.5.i.i
                                        # =>This Inner Loop Header: Depth=1
	loop    	                                # label229:
	local.get	16
	local.get	14
	i32.add 
	v128.load	0:p2align=0
	v128.const	0, 209, 229, 247, 230, 37, 18, 195, 38, 192, 55, 210, 244, 3, 17, 52
	local.get	17
	local.get	17
	local.get	21
	i32.const	4
	i8x16.shr_u
	local.tee	22
	local.get	21
	local.get	19
	v128.and
	local.tee	21
	v128.xor
	local.tee	23
	i8x16.swizzle
	local.get	26
	local.get	21
	i8x16.swizzle
	local.tee	21
	v128.xor
	i8x16.swizzle
	local.get	22
	v128.xor
	local.tee	24
	i8x16.swizzle
	v128.const	0, 124, 32, 207, 146, 1, 239, 147, 179, 33, 238, 206, 125, 178, 93, 92
	local.get	17
	local.get	17
	local.get	22
	i8x16.swizzle
	local.get	21
	v128.xor
	i8x16.swizzle
	local.get	23
	v128.xor
	local.tee	21
	i8x16.swizzle
	v128.xor
	v128.const	0, 230, 114, 183, 229, 198, 197, 35, 81, 180, 3, 113, 32, 151, 82, 148
	local.get	24
	i8x16.swizzle
	v128.const	0, 195, 79, 12, 252, 124, 67, 128, 207, 51, 63, 112, 191, 179, 240, 140
	local.get	21
	i8x16.swizzle
	v128.xor
	local.tee	21
	local.get	14
	i32.const	48
	i32.and 
	local.tee	15
	v128.load	.Lstatic.4:p2align=0
	local.tee	22
	i8x16.swizzle
	v128.xor
	local.tee	23
	local.get	22
	i8x16.swizzle
	v128.xor
	local.get	21
	local.get	15
	v128.load	.Lstatic.5:p2align=0
	i8x16.swizzle
	v128.xor
	local.get	23
	v128.xor
	local.set	21
	local.get	14
	i32.const	16
	i32.add 
	local.set	14
	local.get	2
	i64.const	-1
	i64.add 
	local.tee	2
	i64.const	0
	i64.ne  
	br_if   	0                               # 0: up to label229
.LBB63_22:                              # %aes_permute__blocks__process_block____aedbc4fd156a355d_.exit
	end_loop
	end_block                               # label228:
	local.get	8
	local.get	25
	local.get	17
	local.get	17
	local.get	21
	i32.const	4
	i8x16.shr_u
	local.tee	22
	local.get	21
	local.get	19
	v128.and
	local.tee	21
	v128.xor
	local.tee	19
	i8x16.swizzle
	local.get	26
	local.get	21
	i8x16.swizzle
	local.tee	21
	v128.xor
	i8x16.swizzle
	local.get	22
	v128.xor
	i8x16.swizzle
	local.get	27
	local.get	17
	local.get	17
	local.get	22
	i8x16.swizzle
	local.get	21
	v128.xor
	i8x16.swizzle
	local.get	19
	v128.xor
	i8x16.swizzle
	v128.xor
	local.get	7
	i32.wrap_i64
	i32.const	4
	i32.shl 
	local.tee	14
	i32.const	48
	i32.and 
	v128.load	.Lstatic.3:p2align=0
	i8x16.swizzle
	local.get	16
	local.get	14
	i32.add 
	v128.load	0:p2align=0
	v128.xor
	local.get	8
	v128.load	0:p2align=0
	v128.xor
	v128.store	0:p2align=0
	local.get	9
	i32.const	48
	i32.add 
	global.set	__stack_pointer
                                        # fallthrough-return
	end_function
                                        # -- End function
	.section	.text.aes_cipher__zeroize__stack__wipe_stack____1024_,"",@
	.type	aes_cipher__zeroize__stack__wipe_stack____1024_,@function # -- Begin function aes_cipher__zeroize__stack__wipe_stack____1024_
aes_cipher__zeroize__stack__wipe_stack____1024_: # @aes_cipher__zeroize__stack__wipe_stack____1024_
	.functype	aes_cipher__zeroize__stack__wipe_stack____1024_ () -> ()
	.local  	i32, i64
# %bb.0:                                # %start
	global.get	__stack_pointer
	i32.const	1040
	i32.sub 
	local.tee	0
	global.set	__stack_pointer
	local.get	0
	i32.const	16
	i32.add 
	i32.const	0
	i32.const	1024
	memory.fill	0
	local.get	0
	i64.const	0
	i64.store	8
	#APP
	#NO_APP
	local.get	0
	i64.load	8
	local.set	1
	#APP
	#NO_APP
	block   	
	local.get	1
	i64.const	1024
	i64.ge_u
	br_if   	0                               # 0: down to label230
# %bb.1:                                # %then.1
	local.get	0
	i32.const	16
	i32.add 
	local.get	1
	i32.wrap_i64
	i32.add 
	i64.load8_u	0
	local.set	1
	#APP
	#NO_APP
	local.get	0
	i64.load	8
	drop
	local.get	0
	local.get	1
	i64.store	8
	#APP
	#NO_APP
.LBB64_2:                               # %common.ret
	end_block                               # label230:
	local.get	0
	i32.const	1040
	i32.add 
	global.set	__stack_pointer
                                        # fallthrough-return
	end_function
                                        # -- End function
	.section	.text.ccm__mode__encrypt____ef80964e0b8d42c0_,"",@
	.type	ccm__mode__encrypt____ef80964e0b8d42c0_,@function # -- Begin function ccm__mode__encrypt____ef80964e0b8d42c0_
ccm__mode__encrypt____ef80964e0b8d42c0_: # @ccm__mode__encrypt____ef80964e0b8d42c0_
	.functype	ccm__mode__encrypt____ef80964e0b8d42c0_ (i32, i32, i32, i64, i32, i64, i32, i64, i32, i64) -> ()
	.local  	i32, i32
# %bb.0:                                # %start
	global.get	__stack_pointer
	i32.const	64
	i32.sub 
	local.tee	10
	global.set	__stack_pointer
	local.get	10
	i32.const	8
	i32.add 
	local.get	3
	local.get	7
	local.get	9
	call	ccm__formatting__check
	block   	
	block   	
	local.get	10
	i32.load8_u	8
	local.tee	11
	br_if   	0                               # 0: down to label232
# %bb.1:                                # %arm.1
	local.get	1
	local.get	2
	local.get	3
	local.get	9
	local.get	4
	local.get	5
	local.get	6
	local.get	7
	local.get	10
	i32.const	16
	i32.add 
	call	ccm__message__put_tag____ef80964e0b8d42c0_
	block   	
	local.get	9
	i32.wrap_i64
	local.tee	4
	i32.eqz
	br_if   	0                               # 0: down to label233
# %bb.2:                                # %arm.1
	local.get	8
	local.get	10
	i32.const	16
	i32.add 
	local.get	4
	memory.copy	0, 0
.LBB65_3:                               # %arm.1
	end_block                               # label233:
	local.get	10
	i64.const	0
	i64.store	48
	local.get	10
	i64.const	0
	i64.store	55:p2align=0
	block   	
	local.get	3
	i32.wrap_i64
	local.tee	4
	i32.eqz
	br_if   	0                               # 0: down to label234
# %bb.4:                                # %arm.1
	local.get	10
	i32.const	48
	i32.add 
	local.get	2
	local.get	4
	memory.copy	0, 0
.LBB65_5:                               # %arm.1
	end_block                               # label234:
	local.get	10
	i32.const	14
	local.get	4
	i32.sub 
	i32.store8	32
	local.get	10
	local.get	10
	i64.load	48
	i64.store	33:p2align=0
	local.get	10
	local.get	10
	i64.load	55:p2align=0
	i64.store	40:p2align=0
	local.get	1
	local.get	10
	i32.const	32
	i32.add 
	i64.const	16
	local.get	6
	local.get	7
	call	aes_ctr__add_in_batches__add_keystream____ef80964e0b8d42c0_
	i32.const	0
	local.set	6
	br      	1                               # 1: down to label231
.LBB65_6:                               # %arm.2
	end_block                               # label232:
	local.get	10
	i32.load8_u	9
	local.set	6
.LBB65_7:                               # %return.5
	end_block                               # label231:
	local.get	0
	local.get	6
	i32.store8	1
	local.get	0
	local.get	11
	i32.store8	0
	local.get	10
	i32.const	64
	i32.add 
	global.set	__stack_pointer
                                        # fallthrough-return
	end_function
                                        # -- End function
	.section	.text.fotsgure_aes_version,"",@
	.globl	fotsgure_aes_version            # -- Begin function fotsgure_aes_version
	.type	fotsgure_aes_version,@function
fotsgure_aes_version:                   # @fotsgure_aes_version
	.functype	fotsgure_aes_version () -> (i32)
# %bb.0:
	i32.const	400
                                        # fallthrough-return
	end_function
                                        # -- End function
	.section	.text.fotsgure_aes_set_key,"",@
	.globl	fotsgure_aes_set_key            # -- Begin function fotsgure_aes_set_key
	.type	fotsgure_aes_set_key,@function
fotsgure_aes_set_key:                   # @fotsgure_aes_set_key
	.functype	fotsgure_aes_set_key (i32, i32, i32) -> (i32)
# %bb.0:
	local.get	0
	local.get	1
	i32.const	0
	i32.const	4096
	local.get	1
	i32.select
	i32.add 
	local.get	2
	i64.extend_i32_u
	call	aes_c__kept__fotsgure_aes_set_key
                                        # fallthrough-return
	end_function
                                        # -- End function
	.section	.text.fotsgure_aes_key_length,"",@
	.globl	fotsgure_aes_key_length         # -- Begin function fotsgure_aes_key_length
	.type	fotsgure_aes_key_length,@function
fotsgure_aes_key_length:                # @fotsgure_aes_key_length
	.functype	fotsgure_aes_key_length (i32) -> (i32)
# %bb.0:
	local.get	0
	i32.load	0
	local.tee	0
	local.get	0
	i32.const	0
	local.get	0
	i32.const	-9
	i32.and 
	i32.const	16
	i32.eq  
	i32.select
	local.get	0
	i32.const	32
	i32.eq  
	i32.select
                                        # fallthrough-return
	end_function
                                        # -- End function
	.section	.text.fotsgure_aes_wipe,"",@
	.globl	fotsgure_aes_wipe               # -- Begin function fotsgure_aes_wipe
	.type	fotsgure_aes_wipe,@function
fotsgure_aes_wipe:                      # @fotsgure_aes_wipe
	.functype	fotsgure_aes_wipe (i32) -> ()
# %bb.0:
	local.get	0
	i32.const	0
	i32.const	484
	memory.fill	0
	local.get	0
	i32.const	4
	i32.add 
	call	aes_cipher__zeroize__elements__zeroize_elements____530874d131791bfe_
	local.get	0
	i32.const	244
	i32.add 
	call	aes_cipher__zeroize__elements__zeroize_elements____530874d131791bfe_
                                        # fallthrough-return
	end_function
                                        # -- End function
	.section	.text.fotsgure_aes_encrypt_blocks,"",@
	.globl	fotsgure_aes_encrypt_blocks     # -- Begin function fotsgure_aes_encrypt_blocks
	.type	fotsgure_aes_encrypt_blocks,@function
fotsgure_aes_encrypt_blocks:            # @fotsgure_aes_encrypt_blocks
	.functype	fotsgure_aes_encrypt_blocks (i32, i32, i32) -> (i32)
	.local  	i32, i64, i32
# %bb.0:
	global.get	__stack_pointer
	i32.const	32
	i32.sub 
	local.tee	3
	global.set	__stack_pointer
	block   	
	block   	
	local.get	0
	i64.load32_u	0
	local.tee	4
	i64.const	32
	i64.eq  
	br_if   	0                               # 0: down to label236
# %bb.1:
	i32.const	2
	local.set	5
	local.get	4
	i64.const	4294967287
	i64.and 
	i64.const	16
	i64.ne  
	br_if   	1                               # 1: down to label235
.LBB70_2:                               # %join.3.i.i
	end_block                               # label236:
	i32.const	0
	local.set	5
	local.get	3
	i32.const	0
	i32.store	20
	local.get	3
	i32.const	0
	i32.store	4
	local.get	3
	local.get	0
	i32.const	4
	i32.add 
	local.tee	0
	i32.store	16
	local.get	3
	local.get	0
	i32.store	0
	local.get	3
	local.get	4
	i64.const	2
	i64.shr_u
	i64.const	7
	i64.add 
	local.tee	4
	i64.store	24
	local.get	3
	local.get	4
	i64.store	8
	local.get	3
	local.get	1
	i32.const	0
	i32.const	4096
	local.get	1
	i32.select
	i32.add 
	local.get	2
	i64.extend_i32_u
	call	aes_hybrid__borrowed_cipher__BorrowedCipher__process_blocks____ee6d29ed0cc28f94_
.LBB70_3:                               # %wide_fotsgure_aes_encrypt_blocks.exit
	end_block                               # label235:
	local.get	3
	i32.const	32
	i32.add 
	global.set	__stack_pointer
	local.get	5
                                        # fallthrough-return
	end_function
                                        # -- End function
	.section	.text.fotsgure_aes_decrypt_blocks,"",@
	.globl	fotsgure_aes_decrypt_blocks     # -- Begin function fotsgure_aes_decrypt_blocks
	.type	fotsgure_aes_decrypt_blocks,@function
fotsgure_aes_decrypt_blocks:            # @fotsgure_aes_decrypt_blocks
	.functype	fotsgure_aes_decrypt_blocks (i32, i32, i32) -> (i32)
# %bb.0:
	local.get	0
	local.get	1
	i32.const	0
	i32.const	4096
	local.get	1
	i32.select
	i32.add 
	local.get	2
	i64.extend_i32_u
	call	aes_c__blocks__fotsgure_aes_decrypt_blocks
                                        # fallthrough-return
	end_function
                                        # -- End function
	.section	.text.fotsgure_aes_encrypt_blocks_to,"",@
	.globl	fotsgure_aes_encrypt_blocks_to  # -- Begin function fotsgure_aes_encrypt_blocks_to
	.type	fotsgure_aes_encrypt_blocks_to,@function
fotsgure_aes_encrypt_blocks_to:         # @fotsgure_aes_encrypt_blocks_to
	.functype	fotsgure_aes_encrypt_blocks_to (i32, i32, i32, i32, i32) -> (i32)
	.local  	i32, i32, i32, i32, i32, i32, i64, i64, i64, i64
# %bb.0:
	global.get	__stack_pointer
	i32.const	32
	i32.sub 
	local.tee	5
	global.set	__stack_pointer
	i32.const	3
	local.set	6
	block   	
	local.get	2
	local.get	4
	i32.ne  
	br_if   	0                               # 0: down to label237
# %bb.1:                                # %join.3.i.i
	i32.const	2
	local.set	6
	local.get	0
	i32.load	0
	i32.const	-16
	i32.add 
	local.tee	4
	i32.const	16
	i32.gt_u
	br_if   	0                               # 0: down to label237
# %bb.2:                                # %join.3.i.i
	i32.const	1
	local.get	4
	i32.shl 
	i32.const	65793
	i32.and 
	i32.eqz
	br_if   	0                               # 0: down to label237
# %bb.3:                                # %join.6.i.i
	block   	
	block   	
	local.get	3
	i32.const	0
	i32.const	4096
	local.get	3
	i32.select
	local.tee	7
	i32.add 
	local.tee	8
	i64.extend_i32_u
	local.get	1
	i32.const	0
	i32.const	4096
	local.get	1
	i32.select
	local.tee	9
	i32.add 
	local.tee	10
	i64.extend_i32_u
	i64.sub 
	local.get	2
	i64.extend_i32_u
	local.tee	11
	i64.const	4
	i64.shl 
	local.tee	12
	i64.ge_u
	br_if   	0                               # 0: down to label239
# %bb.4:                                # %join.7.i.i.i.i.i.i.i.i.preheader
	local.get	11
	i64.const	3
	i64.and 
	local.set	12
	i64.const	0
	local.set	13
	block   	
	local.get	2
	i32.const	-1
	i32.add 
	i32.const	3
	i32.lt_u
	br_if   	0                               # 0: down to label240
# %bb.5:                                # %join.7.i.i.i.i.i.i.i.i.preheader.new
	local.get	11
	i64.const	4294967292
	i64.and 
	local.set	14
	i64.const	0
	local.set	13
	i32.const	0
	local.set	6
.LBB72_6:                               # %join.7.i.i.i.i.i.i.i.i
                                        # =>This Inner Loop Header: Depth=1
	loop    	                                # label241:
	local.get	8
	local.get	6
	i32.add 
	local.tee	2
	local.get	10
	local.get	6
	i32.add 
	local.tee	4
	v128.load	0:p2align=0
	v128.store	0:p2align=0
	local.get	2
	i32.const	16
	i32.add 
	local.get	4
	i32.const	16
	i32.add 
	v128.load	0:p2align=0
	v128.store	0:p2align=0
	local.get	2
	i32.const	32
	i32.add 
	local.get	4
	i32.const	32
	i32.add 
	v128.load	0:p2align=0
	v128.store	0:p2align=0
	local.get	2
	i32.const	48
	i32.add 
	local.get	4
	i32.const	48
	i32.add 
	v128.load	0:p2align=0
	v128.store	0:p2align=0
	local.get	6
	i32.const	64
	i32.add 
	local.set	6
	local.get	14
	local.get	13
	i64.const	4
	i64.add 
	local.tee	13
	i64.ne  
	br_if   	0                               # 0: up to label241
# %bb.7:                                # %core__slice__edits__slice_T__copy_from_slice____b9e87c6de6ee7501_.exit.i.i.loopexit.unr-lcssa
	end_loop
	local.get	12
	i64.eqz
	br_if   	2                               # 2: down to label238
.LBB72_8:                               # %join.7.i.i.i.i.i.i.i.i.epil.preheader
	end_block                               # label240:
	local.get	3
	local.get	7
	local.get	13
	i32.wrap_i64
	i32.const	4
	i32.shl 
	local.tee	2
	i32.add 
	i32.add 
	local.set	6
	local.get	1
	local.get	9
	local.get	2
	i32.add 
	i32.add 
	local.set	2
.LBB72_9:                               # %join.7.i.i.i.i.i.i.i.i.epil
                                        # =>This Inner Loop Header: Depth=1
	loop    	                                # label242:
	local.get	6
	local.get	2
	v128.load	0:p2align=0
	v128.store	0:p2align=0
	local.get	6
	i32.const	16
	i32.add 
	local.set	6
	local.get	2
	i32.const	16
	i32.add 
	local.set	2
	local.get	12
	i64.const	-1
	i64.add 
	local.tee	12
	i64.const	0
	i64.ne  
	br_if   	0                               # 0: up to label242
	br      	2                               # 2: down to label238
.LBB72_10:                              # %apart.2.i.i.i.i.i.i.i.i
	end_loop
	end_block                               # label239:
	local.get	12
	i32.wrap_i64
	local.tee	6
	i32.eqz
	br_if   	0                               # 0: down to label238
# %bb.11:                               # %apart.2.i.i.i.i.i.i.i.i
	local.get	8
	local.get	10
	local.get	6
	memory.copy	0, 0
.LBB72_12:                              # %core__slice__edits__slice_T__copy_from_slice____b9e87c6de6ee7501_.exit.i.i
	end_block                               # label238:
	i32.const	0
	local.set	6
	local.get	5
	i32.const	0
	i32.store	20
	local.get	5
	i32.const	0
	i32.store	4
	local.get	5
	local.get	0
	i32.const	4
	i32.add 
	local.tee	2
	i32.store	16
	local.get	5
	local.get	2
	i32.store	0
	local.get	5
	local.get	0
	i32.load	0
	i32.const	2
	i32.shr_u
	i32.const	7
	i32.add 
	i64.extend_i32_u
	local.tee	12
	i64.store	24
	local.get	5
	local.get	12
	i64.store	8
	local.get	5
	local.get	8
	local.get	11
	call	aes_hybrid__borrowed_cipher__BorrowedCipher__process_blocks____ee6d29ed0cc28f94_
.LBB72_13:                              # %wide_fotsgure_aes_encrypt_blocks_to.exit
	end_block                               # label237:
	local.get	5
	i32.const	32
	i32.add 
	global.set	__stack_pointer
	local.get	6
                                        # fallthrough-return
	end_function
                                        # -- End function
	.section	.text.fotsgure_aes_decrypt_blocks_to,"",@
	.globl	fotsgure_aes_decrypt_blocks_to  # -- Begin function fotsgure_aes_decrypt_blocks_to
	.type	fotsgure_aes_decrypt_blocks_to,@function
fotsgure_aes_decrypt_blocks_to:         # @fotsgure_aes_decrypt_blocks_to
	.functype	fotsgure_aes_decrypt_blocks_to (i32, i32, i32, i32, i32) -> (i32)
	.local  	i32, i32, i32, i32, i32, i32, i64, i64, i64, i64
# %bb.0:
	global.get	__stack_pointer
	i32.const	32
	i32.sub 
	local.tee	5
	global.set	__stack_pointer
	i32.const	3
	local.set	6
	block   	
	local.get	2
	local.get	4
	i32.ne  
	br_if   	0                               # 0: down to label243
# %bb.1:                                # %join.3.i.i
	i32.const	2
	local.set	6
	local.get	0
	i32.load	0
	i32.const	-16
	i32.add 
	local.tee	4
	i32.const	16
	i32.gt_u
	br_if   	0                               # 0: down to label243
# %bb.2:                                # %join.3.i.i
	i32.const	1
	local.get	4
	i32.shl 
	i32.const	65793
	i32.and 
	i32.eqz
	br_if   	0                               # 0: down to label243
# %bb.3:                                # %join.6.i.i
	block   	
	block   	
	local.get	3
	i32.const	0
	i32.const	4096
	local.get	3
	i32.select
	local.tee	7
	i32.add 
	local.tee	8
	i64.extend_i32_u
	local.get	1
	i32.const	0
	i32.const	4096
	local.get	1
	i32.select
	local.tee	9
	i32.add 
	local.tee	10
	i64.extend_i32_u
	i64.sub 
	local.get	2
	i64.extend_i32_u
	local.tee	11
	i64.const	4
	i64.shl 
	local.tee	12
	i64.ge_u
	br_if   	0                               # 0: down to label245
# %bb.4:                                # %join.7.i.i.i.i.i.i.i.i.preheader
	local.get	11
	i64.const	3
	i64.and 
	local.set	12
	i64.const	0
	local.set	13
	block   	
	local.get	2
	i32.const	-1
	i32.add 
	i32.const	3
	i32.lt_u
	br_if   	0                               # 0: down to label246
# %bb.5:                                # %join.7.i.i.i.i.i.i.i.i.preheader.new
	local.get	11
	i64.const	4294967292
	i64.and 
	local.set	14
	i64.const	0
	local.set	13
	i32.const	0
	local.set	6
.LBB73_6:                               # %join.7.i.i.i.i.i.i.i.i
                                        # =>This Inner Loop Header: Depth=1
	loop    	                                # label247:
	local.get	8
	local.get	6
	i32.add 
	local.tee	2
	local.get	10
	local.get	6
	i32.add 
	local.tee	4
	v128.load	0:p2align=0
	v128.store	0:p2align=0
	local.get	2
	i32.const	16
	i32.add 
	local.get	4
	i32.const	16
	i32.add 
	v128.load	0:p2align=0
	v128.store	0:p2align=0
	local.get	2
	i32.const	32
	i32.add 
	local.get	4
	i32.const	32
	i32.add 
	v128.load	0:p2align=0
	v128.store	0:p2align=0
	local.get	2
	i32.const	48
	i32.add 
	local.get	4
	i32.const	48
	i32.add 
	v128.load	0:p2align=0
	v128.store	0:p2align=0
	local.get	6
	i32.const	64
	i32.add 
	local.set	6
	local.get	14
	local.get	13
	i64.const	4
	i64.add 
	local.tee	13
	i64.ne  
	br_if   	0                               # 0: up to label247
# %bb.7:                                # %core__slice__edits__slice_T__copy_from_slice____b9e87c6de6ee7501_.exit.i.i.loopexit.unr-lcssa
	end_loop
	local.get	12
	i64.eqz
	br_if   	2                               # 2: down to label244
.LBB73_8:                               # %join.7.i.i.i.i.i.i.i.i.epil.preheader
	end_block                               # label246:
	local.get	3
	local.get	7
	local.get	13
	i32.wrap_i64
	i32.const	4
	i32.shl 
	local.tee	2
	i32.add 
	i32.add 
	local.set	6
	local.get	1
	local.get	9
	local.get	2
	i32.add 
	i32.add 
	local.set	2
.LBB73_9:                               # %join.7.i.i.i.i.i.i.i.i.epil
                                        # =>This Inner Loop Header: Depth=1
	loop    	                                # label248:
	local.get	6
	local.get	2
	v128.load	0:p2align=0
	v128.store	0:p2align=0
	local.get	6
	i32.const	16
	i32.add 
	local.set	6
	local.get	2
	i32.const	16
	i32.add 
	local.set	2
	local.get	12
	i64.const	-1
	i64.add 
	local.tee	12
	i64.const	0
	i64.ne  
	br_if   	0                               # 0: up to label248
	br      	2                               # 2: down to label244
.LBB73_10:                              # %apart.2.i.i.i.i.i.i.i.i
	end_loop
	end_block                               # label245:
	local.get	12
	i32.wrap_i64
	local.tee	6
	i32.eqz
	br_if   	0                               # 0: down to label244
# %bb.11:                               # %apart.2.i.i.i.i.i.i.i.i
	local.get	8
	local.get	10
	local.get	6
	memory.copy	0, 0
.LBB73_12:                              # %core__slice__edits__slice_T__copy_from_slice____b9e87c6de6ee7501_.exit.i.i
	end_block                               # label244:
	i32.const	0
	local.set	6
	local.get	5
	i32.const	0
	i32.store	20
	local.get	5
	i32.const	0
	i32.store	4
	local.get	5
	local.get	0
	i32.const	244
	i32.add 
	i32.store	16
	local.get	5
	local.get	0
	i32.const	4
	i32.add 
	i32.store	0
	local.get	5
	local.get	0
	i32.load	0
	i32.const	2
	i32.shr_u
	i32.const	7
	i32.add 
	i64.extend_i32_u
	local.tee	12
	i64.store	24
	local.get	5
	local.get	12
	i64.store	8
	local.get	5
	local.get	8
	local.get	11
	call	aes_hybrid__borrowed_cipher__BorrowedCipher__process_blocks____b6eb981607e07ed4_
.LBB73_13:                              # %wide_fotsgure_aes_decrypt_blocks_to.exit
	end_block                               # label243:
	local.get	5
	i32.const	32
	i32.add 
	global.set	__stack_pointer
	local.get	6
                                        # fallthrough-return
	end_function
                                        # -- End function
	.section	.text.fotsgure_aes_add_keystream,"",@
	.globl	fotsgure_aes_add_keystream      # -- Begin function fotsgure_aes_add_keystream
	.type	fotsgure_aes_add_keystream,@function
fotsgure_aes_add_keystream:             # @fotsgure_aes_add_keystream
	.functype	fotsgure_aes_add_keystream (i32, i32, i32, i32) -> (i32)
# %bb.0:
	local.get	0
	local.get	1
	local.get	2
	i32.const	0
	i32.const	4096
	local.get	2
	i32.select
	i32.add 
	local.get	3
	i64.extend_i32_u
	call	aes_c__stream__fotsgure_aes_add_keystream
                                        # fallthrough-return
	end_function
                                        # -- End function
	.section	.text.fotsgure_aes_add_keystream_to,"",@
	.globl	fotsgure_aes_add_keystream_to   # -- Begin function fotsgure_aes_add_keystream_to
	.type	fotsgure_aes_add_keystream_to,@function
fotsgure_aes_add_keystream_to:          # @fotsgure_aes_add_keystream_to
	.functype	fotsgure_aes_add_keystream_to (i32, i32, i32, i32, i32, i32) -> (i32)
	.local  	i64, i32, i32, i32, i64, i64, i64
# %bb.0:
	block   	
	local.get	3
	local.get	5
	i32.eq  
	br_if   	0                               # 0: down to label249
# %bb.1:
	i32.const	3
	return
.LBB75_2:                               # %join.3.i.i
	end_block                               # label249:
	block   	
	local.get	3
	i64.extend_i32_u
	local.tee	6
	local.get	1
	i32.const	16
	i32.add 
	i64.load	0
	i64.const	-1
	i64.xor 
	i64.le_u
	br_if   	0                               # 0: down to label250
# %bb.3:
	i32.const	4
	return
.LBB75_4:                               # %join.3.i.i.i
	end_block                               # label250:
	i32.const	2
	local.set	5
	block   	
	local.get	0
	i32.load	0
	i32.const	-16
	i32.add 
	local.tee	7
	i32.const	16
	i32.gt_u
	br_if   	0                               # 0: down to label251
# %bb.5:                                # %join.3.i.i.i
	i32.const	1
	local.get	7
	i32.shl 
	i32.const	65793
	i32.and 
	i32.eqz
	br_if   	0                               # 0: down to label251
# %bb.6:                                # %join.6.i.i
	block   	
	block   	
	local.get	4
	i32.const	0
	i32.const	4096
	local.get	4
	i32.select
	local.tee	8
	i32.add 
	local.tee	7
	i64.extend_i32_u
	local.get	2
	i32.const	0
	i32.const	4096
	local.get	2
	i32.select
	local.tee	9
	i32.add 
	local.tee	5
	i64.extend_i32_u
	i64.sub 
	local.get	6
	i64.ge_u
	br_if   	0                               # 0: down to label253
# %bb.7:                                # %join.7.i.i.i.i.i.i.i.i.preheader
	i64.const	0
	local.set	10
	block   	
	local.get	3
	i32.const	16
	i32.lt_u
	br_if   	0                               # 0: down to label254
# %bb.8:                                # %vector.memcheck
	local.get	4
	local.get	8
	i32.add 
	local.get	5
	i32.sub 
	i32.const	16
	i32.lt_u
	br_if   	0                               # 0: down to label254
# %bb.9:                                # %vector.ph
	local.get	7
	local.set	3
	local.get	6
	i64.const	4294967280
	i64.and 
	local.tee	10
	local.set	11
.LBB75_10:                              # %vector.body
                                        # =>This Inner Loop Header: Depth=1
	loop    	                                # label255:
	local.get	3
	local.get	5
	v128.load	0:p2align=0
	v128.store	0:p2align=0
	local.get	3
	i32.const	16
	i32.add 
	local.set	3
	local.get	5
	i32.const	16
	i32.add 
	local.set	5
	local.get	11
	i64.const	-16
	i64.add 
	local.tee	11
	i64.const	0
	i64.ne  
	br_if   	0                               # 0: up to label255
# %bb.11:                               # %middle.block
	end_loop
	local.get	10
	local.get	6
	i64.eq  
	br_if   	2                               # 2: down to label252
.LBB75_12:                              # %join.7.i.i.i.i.i.i.i.i.preheader2
	end_block                               # label254:
	local.get	10
	local.set	12
	block   	
	local.get	6
	i64.const	3
	i64.and 
	local.tee	11
	i64.eqz
	br_if   	0                               # 0: down to label256
# %bb.13:                               # %join.7.i.i.i.i.i.i.i.i.prol.preheader
	local.get	10
	local.get	11
	i64.add 
	local.set	12
	local.get	4
	local.get	8
	local.get	10
	i32.wrap_i64
	local.tee	5
	i32.add 
	i32.add 
	local.set	3
	local.get	2
	local.get	9
	local.get	5
	i32.add 
	i32.add 
	local.set	5
.LBB75_14:                              # %join.7.i.i.i.i.i.i.i.i.prol
                                        # =>This Inner Loop Header: Depth=1
	loop    	                                # label257:
	local.get	3
	local.get	5
	i32.load8_u	0
	i32.store8	0
	local.get	3
	i32.const	1
	i32.add 
	local.set	3
	local.get	5
	i32.const	1
	i32.add 
	local.set	5
	local.get	11
	i64.const	-1
	i64.add 
	local.tee	11
	i64.const	0
	i64.ne  
	br_if   	0                               # 0: up to label257
.LBB75_15:                              # %join.7.i.i.i.i.i.i.i.i.prol.loopexit
	end_loop
	end_block                               # label256:
	local.get	10
	local.get	6
	i64.sub 
	i64.const	-4
	i64.gt_u
	br_if   	1                               # 1: down to label252
# %bb.16:                               # %join.7.i.i.i.i.i.i.i.i.preheader3
	local.get	6
	local.get	12
	i64.sub 
	local.set	11
	local.get	2
	local.get	9
	local.get	12
	i32.wrap_i64
	local.tee	5
	i32.add 
	i32.add 
	local.set	3
	local.get	4
	local.get	8
	local.get	5
	i32.add 
	i32.add 
	local.set	5
.LBB75_17:                              # %join.7.i.i.i.i.i.i.i.i
                                        # =>This Inner Loop Header: Depth=1
	loop    	                                # label258:
	local.get	5
	local.get	3
	i32.load8_u	0
	i32.store8	0
	local.get	5
	i32.const	1
	i32.add 
	local.get	3
	i32.const	1
	i32.add 
	i32.load8_u	0
	i32.store8	0
	local.get	5
	i32.const	2
	i32.add 
	local.get	3
	i32.const	2
	i32.add 
	i32.load8_u	0
	i32.store8	0
	local.get	5
	i32.const	3
	i32.add 
	local.get	3
	i32.const	3
	i32.add 
	i32.load8_u	0
	i32.store8	0
	local.get	3
	i32.const	4
	i32.add 
	local.set	3
	local.get	5
	i32.const	4
	i32.add 
	local.set	5
	local.get	11
	i64.const	-4
	i64.add 
	local.tee	11
	i64.const	0
	i64.ne  
	br_if   	0                               # 0: up to label258
	br      	2                               # 2: down to label252
.LBB75_18:                              # %apart.2.i.i.i.i.i.i.i.i
	end_loop
	end_block                               # label253:
	local.get	3
	i32.eqz
	br_if   	0                               # 0: down to label252
# %bb.19:                               # %apart.2.i.i.i.i.i.i.i.i
	local.get	7
	local.get	5
	local.get	3
	memory.copy	0, 0
.LBB75_20:                              # %core__slice__edits__slice_T__copy_from_slice___i8_20_core__clone__U8Clone___.exit.i.i
	end_block                               # label252:
	local.get	0
	local.get	1
	local.get	7
	local.get	6
	call	aes_c__stream__fotsgure_aes_add_keystream
	local.set	5
.LBB75_21:                              # %wide_fotsgure_aes_add_keystream_to.exit
	end_block                               # label251:
	local.get	5
                                        # fallthrough-return
	end_function
                                        # -- End function
	.section	.text.fotsgure_aes_cbc_encrypt,"",@
	.globl	fotsgure_aes_cbc_encrypt        # -- Begin function fotsgure_aes_cbc_encrypt
	.type	fotsgure_aes_cbc_encrypt,@function
fotsgure_aes_cbc_encrypt:               # @fotsgure_aes_cbc_encrypt
	.functype	fotsgure_aes_cbc_encrypt (i32, i32, i32, i32) -> (i32)
	.local  	i64, i32, v128, i32, i64, i64, i32, i32, v128, i64, v128, v128, v128, v128, v128, v128
# %bb.0:
	block   	
	block   	
	local.get	0
	i64.load32_u	0
	local.tee	4
	i64.const	32
	i64.eq  
	br_if   	0                               # 0: down to label260
# %bb.1:
	i32.const	2
	local.set	5
	local.get	4
	i64.const	4294967287
	i64.and 
	i64.const	16
	i64.ne  
	br_if   	1                               # 1: down to label259
.LBB76_2:                               # %join.3.i.i
	end_block                               # label260:
	local.get	1
	v128.load	0:p2align=0
	local.set	6
	block   	
	local.get	3
	i32.eqz
	br_if   	0                               # 0: down to label261
# %bb.3:                                # %join.5.i.preheader.i.i
	local.get	2
	i32.const	0
	i32.const	4096
	local.get	2
	i32.select
	i32.add 
	local.set	7
	local.get	3
	i64.extend_i32_u
	local.set	8
	local.get	4
	i64.const	2
	i64.shr_u
	local.tee	4
	i64.const	5
	i64.add 
	local.set	9
	local.get	0
	i32.const	4
	i32.add 
	local.tee	10
	local.get	4
	i32.wrap_i64
	i32.const	4
	i32.shl 
	i32.const	96
	i32.add 
	local.tee	5
	i32.add 
	local.set	11
	local.get	5
	i32.const	48
	i32.and 
	v128.load	.Lstatic.3:p2align=0
	local.set	12
	i64.const	0
	local.set	13
.LBB76_4:                               # %join.5.i.i.i
                                        # =>This Loop Header: Depth=1
                                        #     Child Loop BB76_5 Depth 2
	loop    	                                # label262:
	v128.const	0, 1, 28, 29, 45, 44, 49, 48, 39, 38, 59, 58, 10, 11, 22, 23
	local.get	7
	local.get	13
	i32.wrap_i64
	i32.const	4
	i32.shl 
	i32.add 
	local.tee	2
	v128.load	0:p2align=0
	local.get	6
	v128.xor
	local.get	10
	v128.load	0:p2align=0
	v128.xor
	local.tee	6
	v128.const	15, 15, 15, 15, 15, 15, 15, 15, 15, 15, 15, 15, 15, 15, 15, 15
	local.tee	14
	v128.and
	i8x16.swizzle
	v128.const	0, 134, 253, 123, 142, 8, 115, 245, 119, 241, 138, 12, 249, 127, 4, 130
	local.get	6
	i32.const	4
	i8x16.shr_u
	i8x16.swizzle
	v128.xor
	local.set	15
	i32.const	16
	local.set	5
	local.get	9
	local.set	4
.LBB76_5:                               # %join.5.i.i.i.i.i
                                        #   Parent Loop BB76_4 Depth=1
                                        # =>  This Inner Loop Header: Depth=2
	loop    	                                # label263:
	local.get	0
	local.get	5
	i32.add 
	i32.const	4
	i32.add 
	v128.load	0:p2align=0
	v128.const	0, 209, 229, 247, 230, 37, 18, 195, 38, 192, 55, 210, 244, 3, 17, 52
	v128.const	128, 1, 9, 14, 13, 11, 7, 6, 15, 2, 12, 5, 10, 4, 3, 8
	local.tee	6
	local.get	6
	local.get	15
	i32.const	4
	i8x16.shr_u
	local.tee	16
	local.get	15
	local.get	14
	v128.and
	local.tee	15
	v128.xor
	local.tee	17
	i8x16.swizzle
	v128.const	128, 2, 1, 15, 9, 5, 14, 12, 13, 4, 11, 10, 7, 8, 6, 3
	local.tee	18
	local.get	15
	i8x16.swizzle
	local.tee	15
	v128.xor
	i8x16.swizzle
	local.get	16
	v128.xor
	local.tee	19
	i8x16.swizzle
	v128.const	0, 124, 32, 207, 146, 1, 239, 147, 179, 33, 238, 206, 125, 178, 93, 92
	local.get	6
	local.get	6
	local.get	16
	i8x16.swizzle
	local.get	15
	v128.xor
	i8x16.swizzle
	local.get	17
	v128.xor
	local.tee	15
	i8x16.swizzle
	v128.xor
	v128.const	0, 230, 114, 183, 229, 198, 197, 35, 81, 180, 3, 113, 32, 151, 82, 148
	local.get	19
	i8x16.swizzle
	v128.const	0, 195, 79, 12, 252, 124, 67, 128, 207, 51, 63, 112, 191, 179, 240, 140
	local.get	15
	i8x16.swizzle
	v128.xor
	local.tee	15
	local.get	5
	i32.const	48
	i32.and 
	local.tee	3
	v128.load	.Lstatic.4:p2align=0
	local.tee	16
	i8x16.swizzle
	v128.xor
	local.tee	17
	local.get	16
	i8x16.swizzle
	v128.xor
	local.get	15
	local.get	3
	v128.load	.Lstatic.5:p2align=0
	i8x16.swizzle
	v128.xor
	local.get	17
	v128.xor
	local.set	15
	local.get	5
	i32.const	16
	i32.add 
	local.set	5
	local.get	4
	i64.const	-1
	i64.add 
	local.tee	4
	i64.const	0
	i64.ne  
	br_if   	0                               # 0: up to label263
# %bb.6:                                # %aes_permute__blocks__process_block____aedbc4fd156a355d_.exit.i.i.i
                                        #   in Loop: Header=BB76_4 Depth=1
	end_loop
	local.get	2
	local.get	11
	v128.load	0:p2align=0
	v128.const	0, 159, 97, 22, 194, 42, 119, 232, 137, 75, 93, 60, 181, 163, 212, 254
	local.get	6
	local.get	6
	local.get	15
	i32.const	4
	i8x16.shr_u
	local.tee	16
	local.get	15
	local.get	14
	v128.and
	local.tee	15
	v128.xor
	local.tee	17
	i8x16.swizzle
	local.get	18
	local.get	15
	i8x16.swizzle
	local.tee	15
	v128.xor
	i8x16.swizzle
	local.get	16
	v128.xor
	i8x16.swizzle
	v128.const	0, 203, 215, 176, 33, 141, 103, 172, 123, 90, 234, 61, 70, 246, 145, 28
	local.get	6
	local.get	6
	local.get	16
	i8x16.swizzle
	local.get	15
	v128.xor
	i8x16.swizzle
	local.get	17
	v128.xor
	i8x16.swizzle
	v128.xor
	local.get	12
	i8x16.swizzle
	v128.xor
	local.tee	6
	v128.store	0:p2align=0
	local.get	13
	i64.const	1
	i64.add 
	local.tee	13
	local.get	8
	i64.ne  
	br_if   	0                               # 0: up to label262
.LBB76_7:                               # %cbc__chain__Cbc__encrypt_blocks____ef80964e0b8d42c0_.exit.i.i
	end_loop
	end_block                               # label261:
	local.get	1
	local.get	6
	v128.store	0:p2align=0
	i32.const	0
	local.set	5
.LBB76_8:                               # %wide_fotsgure_aes_cbc_encrypt.exit
	end_block                               # label259:
	local.get	5
                                        # fallthrough-return
	end_function
                                        # -- End function
	.section	.text.fotsgure_aes_cbc_decrypt,"",@
	.globl	fotsgure_aes_cbc_decrypt        # -- Begin function fotsgure_aes_cbc_decrypt
	.type	fotsgure_aes_cbc_decrypt,@function
fotsgure_aes_cbc_decrypt:               # @fotsgure_aes_cbc_decrypt
	.functype	fotsgure_aes_cbc_decrypt (i32, i32, i32, i32) -> (i32)
	.local  	i32, i64, i32, i64, i32, i32, i64, i64
# %bb.0:
	global.get	__stack_pointer
	i32.const	1056
	i32.sub 
	local.tee	4
	global.set	__stack_pointer
	block   	
	block   	
	local.get	0
	i64.load32_u	0
	local.tee	5
	i64.const	32
	i64.eq  
	br_if   	0                               # 0: down to label265
# %bb.1:
	i32.const	2
	local.set	6
	local.get	5
	i64.const	4294967287
	i64.and 
	i64.const	16
	i64.ne  
	br_if   	1                               # 1: down to label264
.LBB77_2:                               # %join.3.i.i
	end_block                               # label265:
	local.get	4
	local.get	3
	i64.extend_i32_u
	local.tee	7
	i64.store	24
	local.get	4
	i32.const	0
	i32.store	20
	local.get	4
	local.get	2
	i32.const	0
	i32.const	4096
	local.get	2
	i32.select
	local.tee	8
	i32.add 
	local.tee	9
	i32.store	16
	local.get	4
	local.get	1
	v128.load	0:p2align=0
	v128.store	0
	local.get	0
	i32.const	244
	i32.add 
	local.set	6
	local.get	5
	i64.const	2
	i64.shr_u
	i64.const	7
	i64.add 
	local.set	10
	block   	
	block   	
	local.get	3
	i32.const	8
	i32.lt_u
	br_if   	0                               # 0: down to label267
# %bb.3:                                # %then.1.i.i.i.i
	local.get	0
	i32.const	4
	i32.add 
	local.get	10
	local.get	6
	local.get	10
	local.get	4
	call	aes_hybrid__closures__lend_planes____f679257bbe3eb97f_
	br      	1                               # 1: down to label266
.LBB77_4:                               # %else.2.i.i.i.i
	end_block                               # label267:
	local.get	3
	i32.eqz
	br_if   	0                               # 0: down to label266
# %bb.5:                                # %join.5.lr.ph.i.i.i.i.i
	local.get	4
	i32.const	32
	i32.add 
	i32.const	0
	i32.const	1024
	memory.fill	0
	block   	
	block   	
	local.get	4
	i32.const	32
	i32.add 
	i64.extend_i32_u
	local.get	9
	i64.extend_i32_u
	i64.sub 
	local.get	7
	i64.const	4
	i64.shl 
	local.tee	5
	i64.ge_u
	br_if   	0                               # 0: down to label269
# %bb.6:                                # %join.7.i.i.i.i.i.i.i.preheader.i.i.i.i.i
	local.get	3
	i32.const	4
	i32.shl 
	local.tee	0
	i32.eqz
	br_if   	1                               # 1: down to label268
# %bb.7:                                # %join.7.i.i.i.i.i.i.i.preheader.i.i.i.i.i
	local.get	4
	i32.const	32
	i32.add 
	local.get	9
	local.get	0
	memory.copy	0, 0
	br      	1                               # 1: down to label268
.LBB77_8:                               # %apart.2.i.i.i.i.i.i.i.i.i.i.i.i
	end_block                               # label269:
	local.get	5
	i32.wrap_i64
	local.tee	0
	i32.eqz
	br_if   	0                               # 0: down to label268
# %bb.9:                                # %apart.2.i.i.i.i.i.i.i.i.i.i.i.i
	local.get	4
	i32.const	32
	i32.add 
	local.get	9
	local.get	0
	memory.copy	0, 0
.LBB77_10:                              # %core__slice__edits__slice_T__copy_from_slice____8d9c6ea053e2f245_.exit.i.i.i.i.i.i
	end_block                               # label268:
	i64.const	0
	local.set	11
	block   	
	local.get	3
	i32.const	4
	i32.lt_u
	br_if   	0                               # 0: down to label270
# %bb.11:                               # %loop.7.preheader.i.i.i.i.loopexit.i.i.i
	i64.const	4
	local.set	11
	local.get	6
	local.get	10
	local.get	9
	i64.const	4
	call	aes_permute__blocks__process_on_lanes____e7683a4e90f73162_
.LBB77_12:                              # %loop.7.preheader.i.i.i.i.i.i.i
	end_block                               # label270:
	block   	
	local.get	7
	local.get	11
	i64.le_u
	br_if   	0                               # 0: down to label271
# %bb.13:                               # %join.10.i.i.i.i.i.i.i.preheader
	local.get	7
	local.get	11
	i64.sub 
	local.set	5
	local.get	2
	local.get	8
	local.get	11
	i32.wrap_i64
	i32.const	4
	i32.shl 
	i32.add 
	i32.add 
	local.set	0
.LBB77_14:                              # %join.10.i.i.i.i.i.i.i
                                        # =>This Inner Loop Header: Depth=1
	loop    	                                # label272:
	local.get	6
	local.get	10
	local.get	0
	i64.const	1
	call	aes_permute__blocks__process_on_lanes____e7683a4e90f73162_
	local.get	0
	i32.const	16
	i32.add 
	local.set	0
	local.get	5
	i64.const	-1
	i64.add 
	local.tee	5
	i64.const	0
	i64.ne  
	br_if   	0                               # 0: up to label272
.LBB77_15:                              # %join.7.lr.ph.i.i.i.i.i.i
	end_loop
	end_block                               # label271:
	block   	
	block   	
	block   	
	local.get	3
	i32.const	1
	i32.ne  
	br_if   	0                               # 0: down to label275
# %bb.16:
	local.get	4
	local.set	6
	i64.const	0
	local.set	5
	br      	1                               # 1: down to label274
.LBB77_17:                              # %join.7.lr.ph.i.i.i.i.i.i.new
	end_block                               # label275:
	local.get	7
	i64.const	1
	i64.and 
	local.set	11
	local.get	7
	i64.const	6
	i64.and 
	local.set	10
	local.get	4
	i32.const	16
	i32.add 
	local.set	6
	local.get	4
	local.set	3
	i64.const	0
	local.set	5
	local.get	9
	local.set	0
.LBB77_18:                              # %join.7.i.i.i.i.i.i
                                        # =>This Inner Loop Header: Depth=1
	loop    	                                # label276:
	local.get	0
	local.get	0
	v128.load	0:p2align=0
	local.get	3
	v128.load	0:p2align=0
	v128.xor
	v128.store	0:p2align=0
	local.get	0
	i32.const	16
	i32.add 
	local.tee	3
	local.get	3
	v128.load	0:p2align=0
	local.get	6
	i32.const	16
	i32.add 
	v128.load	0:p2align=0
	v128.xor
	v128.store	0:p2align=0
	local.get	0
	i32.const	32
	i32.add 
	local.set	0
	local.get	6
	i32.const	32
	i32.add 
	local.tee	6
	local.set	3
	local.get	10
	local.get	5
	i64.const	2
	i64.add 
	local.tee	5
	i64.ne  
	br_if   	0                               # 0: up to label276
# %bb.19:                               # %cbc__decryption__unchain_part____625643f3508b39e7_.exit.loopexit.i.i.i.i.i.unr-lcssa
	end_loop
	local.get	11
	i64.eqz
	br_if   	1                               # 1: down to label273
.LBB77_20:                              # %join.7.i.i.i.i.i.i.epil.preheader
	end_block                               # label274:
	local.get	9
	local.get	5
	i32.wrap_i64
	i32.const	4
	i32.shl 
	local.tee	0
	i32.add 
	local.tee	3
	local.get	3
	v128.load	0:p2align=0
	local.get	6
	v128.load	0:p2align=0
	v128.xor
	v128.store	0:p2align=0
	local.get	4
	i32.const	32
	i32.add 
	local.get	0
	i32.add 
	local.set	6
.LBB77_21:                              # %cbc__decryption__unchain_part____625643f3508b39e7_.exit.loopexit.i.i.i.i.i
	end_block                               # label273:
	local.get	4
	local.get	6
	v128.load	0:p2align=0
	v128.store	0
.LBB77_22:                              # %cbc__chain__Cbc__decrypt_blocks____bc4275ba8002e6b4_.exit.i.i
	end_block                               # label266:
	local.get	1
	local.get	4
	v128.load	0
	v128.store	0:p2align=0
	i32.const	0
	local.set	6
.LBB77_23:                              # %wide_fotsgure_aes_cbc_decrypt.exit
	end_block                               # label264:
	local.get	4
	i32.const	1056
	i32.add 
	global.set	__stack_pointer
	local.get	6
                                        # fallthrough-return
	end_function
                                        # -- End function
	.section	.text.fotsgure_aes_wrap,"",@
	.globl	fotsgure_aes_wrap               # -- Begin function fotsgure_aes_wrap
	.type	fotsgure_aes_wrap,@function
fotsgure_aes_wrap:                      # @fotsgure_aes_wrap
	.functype	fotsgure_aes_wrap (i32, i32, i32, i32, i32) -> (i32)
	.local  	i32, i64, i32
# %bb.0:
	global.get	__stack_pointer
	i32.const	32
	i32.sub 
	local.tee	5
	global.set	__stack_pointer
	block   	
	block   	
	local.get	0
	i64.load32_u	0
	local.tee	6
	i64.const	32
	i64.eq  
	br_if   	0                               # 0: down to label278
# %bb.1:
	i32.const	2
	local.set	7
	local.get	6
	i64.const	4294967287
	i64.and 
	i64.const	16
	i64.ne  
	br_if   	1                               # 1: down to label277
.LBB78_2:                               # %join.3.i.i
	end_block                               # label278:
	local.get	5
	i32.const	0
	i32.store	20
	local.get	5
	i32.const	0
	i32.store	4
	local.get	5
	local.get	0
	i32.const	4
	i32.add 
	local.tee	0
	i32.store	16
	local.get	5
	local.get	0
	i32.store	0
	local.get	5
	local.get	6
	i64.const	2
	i64.shr_u
	i64.const	7
	i64.add 
	local.tee	6
	i64.store	24
	local.get	5
	local.get	6
	i64.store	8
	i32.const	5
	i32.const	0
	local.get	5
	local.get	1
	i32.const	0
	i32.const	4096
	local.get	1
	i32.select
	i32.add 
	local.get	2
	i64.extend_i32_u
	local.get	3
	i32.const	0
	i32.const	4096
	local.get	3
	i32.select
	i32.add 
	local.get	4
	i64.extend_i32_u
	call	key_wrap__wrapping__wrap____ef80964e0b8d42c0_
	i32.const	255
	i32.and 
	i32.select
	local.set	7
	call	aes_cipher__zeroize__stack__wipe_stack____512_
.LBB78_3:                               # %wide_fotsgure_aes_wrap.exit
	end_block                               # label277:
	local.get	5
	i32.const	32
	i32.add 
	global.set	__stack_pointer
	local.get	7
                                        # fallthrough-return
	end_function
                                        # -- End function
	.section	.text.fotsgure_aes_unwrap,"",@
	.globl	fotsgure_aes_unwrap             # -- Begin function fotsgure_aes_unwrap
	.type	fotsgure_aes_unwrap,@function
fotsgure_aes_unwrap:                    # @fotsgure_aes_unwrap
	.functype	fotsgure_aes_unwrap (i32, i32, i32, i32, i32) -> (i32)
	.local  	i32, i64, i32
# %bb.0:
	global.get	__stack_pointer
	i32.const	48
	i32.sub 
	local.tee	5
	global.set	__stack_pointer
	block   	
	block   	
	local.get	0
	i64.load32_u	0
	local.tee	6
	i64.const	32
	i64.eq  
	br_if   	0                               # 0: down to label280
# %bb.1:
	i32.const	2
	local.set	7
	local.get	6
	i64.const	4294967287
	i64.and 
	i64.const	16
	i64.ne  
	br_if   	1                               # 1: down to label279
.LBB79_2:                               # %join.3.i.i
	end_block                               # label280:
	local.get	5
	i32.const	0
	i32.store	36
	local.get	5
	i32.const	0
	i32.store	20
	local.get	5
	local.get	0
	i32.const	244
	i32.add 
	i32.store	32
	local.get	5
	local.get	0
	i32.const	4
	i32.add 
	i32.store	16
	local.get	5
	local.get	6
	i64.const	2
	i64.shr_u
	i64.const	7
	i64.add 
	local.tee	6
	i64.store	40
	local.get	5
	local.get	6
	i64.store	24
	local.get	5
	i32.const	8
	i32.add 
	local.get	5
	i32.const	16
	i32.add 
	local.get	1
	i32.const	0
	i32.const	4096
	local.get	1
	i32.select
	i32.add 
	local.get	2
	i64.extend_i32_u
	local.get	3
	i32.const	0
	i32.const	4096
	local.get	3
	i32.select
	i32.add 
	local.get	4
	i64.extend_i32_u
	call	key_wrap__wrapping__unwrap____bc4275ba8002e6b4_
	i32.const	6
	i32.const	5
	local.get	5
	i32.load8_u	9
	i32.select
	i32.const	0
	local.get	5
	i32.load8_u	8
	i32.select
	local.set	7
	call	aes_cipher__zeroize__stack__wipe_stack____512_
.LBB79_3:                               # %wide_fotsgure_aes_unwrap.exit
	end_block                               # label279:
	local.get	5
	i32.const	48
	i32.add 
	global.set	__stack_pointer
	local.get	7
                                        # fallthrough-return
	end_function
                                        # -- End function
	.section	.text.fotsgure_aes_wrap_padded,"",@
	.globl	fotsgure_aes_wrap_padded        # -- Begin function fotsgure_aes_wrap_padded
	.type	fotsgure_aes_wrap_padded,@function
fotsgure_aes_wrap_padded:               # @fotsgure_aes_wrap_padded
	.functype	fotsgure_aes_wrap_padded (i32, i32, i32, i32, i32) -> (i32)
	.local  	i32, i64, i32
# %bb.0:
	global.get	__stack_pointer
	i32.const	32
	i32.sub 
	local.tee	5
	global.set	__stack_pointer
	block   	
	block   	
	local.get	0
	i64.load32_u	0
	local.tee	6
	i64.const	32
	i64.eq  
	br_if   	0                               # 0: down to label282
# %bb.1:
	i32.const	2
	local.set	7
	local.get	6
	i64.const	4294967287
	i64.and 
	i64.const	16
	i64.ne  
	br_if   	1                               # 1: down to label281
.LBB80_2:                               # %join.3.i.i
	end_block                               # label282:
	local.get	5
	i32.const	0
	i32.store	20
	local.get	5
	i32.const	0
	i32.store	4
	local.get	5
	local.get	0
	i32.const	4
	i32.add 
	local.tee	0
	i32.store	16
	local.get	5
	local.get	0
	i32.store	0
	local.get	5
	local.get	6
	i64.const	2
	i64.shr_u
	i64.const	7
	i64.add 
	local.tee	6
	i64.store	24
	local.get	5
	local.get	6
	i64.store	8
	i32.const	5
	i32.const	0
	local.get	5
	local.get	1
	i32.const	0
	i32.const	4096
	local.get	1
	i32.select
	i32.add 
	local.get	2
	i64.extend_i32_u
	local.get	3
	i32.const	0
	i32.const	4096
	local.get	3
	i32.select
	i32.add 
	local.get	4
	i64.extend_i32_u
	call	key_wrap__padded__wrap_padded____ef80964e0b8d42c0_
	i32.const	255
	i32.and 
	i32.select
	local.set	7
	call	aes_cipher__zeroize__stack__wipe_stack____512_
.LBB80_3:                               # %wide_fotsgure_aes_wrap_padded.exit
	end_block                               # label281:
	local.get	5
	i32.const	32
	i32.add 
	global.set	__stack_pointer
	local.get	7
                                        # fallthrough-return
	end_function
                                        # -- End function
	.section	.text.fotsgure_aes_unwrap_padded,"",@
	.globl	fotsgure_aes_unwrap_padded      # -- Begin function fotsgure_aes_unwrap_padded
	.type	fotsgure_aes_unwrap_padded,@function
fotsgure_aes_unwrap_padded:             # @fotsgure_aes_unwrap_padded
	.functype	fotsgure_aes_unwrap_padded (i32, i32, i32, i32, i32, i32) -> (i32)
	.local  	i32, i64, i32
# %bb.0:
	global.get	__stack_pointer
	i32.const	48
	i32.sub 
	local.tee	6
	global.set	__stack_pointer
	local.get	6
	i64.const	0
	i64.store	40
	block   	
	block   	
	local.get	0
	i64.load32_u	0
	local.tee	7
	i64.const	32
	i64.eq  
	br_if   	0                               # 0: down to label284
# %bb.1:
	local.get	7
	i64.const	4294967287
	i64.and 
	i64.const	16
	i64.eq  
	br_if   	0                               # 0: down to label284
# %bb.2:
	i32.const	2
	local.set	0
	i32.const	0
	local.set	8
	br      	1                               # 1: down to label283
.LBB81_3:                               # %join.3.i.i
	end_block                               # label284:
	i32.const	0
	local.set	8
	local.get	6
	i32.const	0
	i32.store	28
	local.get	6
	i32.const	0
	i32.store	12
	local.get	6
	local.get	0
	i32.const	244
	i32.add 
	i32.store	24
	local.get	6
	local.get	0
	i32.const	4
	i32.add 
	i32.store	8
	local.get	6
	local.get	7
	i64.const	2
	i64.shr_u
	i64.const	7
	i64.add 
	local.tee	7
	i64.store	32
	local.get	6
	local.get	7
	i64.store	16
	local.get	6
	i32.const	40
	i32.add 
	local.get	6
	i32.const	8
	i32.add 
	local.get	1
	i32.const	0
	i32.const	4096
	local.get	1
	i32.select
	i32.add 
	local.get	2
	i64.extend_i32_u
	local.get	3
	i32.const	0
	i32.const	4096
	local.get	3
	i32.select
	i32.add 
	local.get	4
	i64.extend_i32_u
	call	key_wrap__padded__unwrap_padded____bc4275ba8002e6b4_
	call	aes_cipher__zeroize__stack__wipe_stack____512_
	block   	
	local.get	6
	i32.load8_u	40
	br_if   	0                               # 0: down to label285
# %bb.4:                                # %arm.4.i.i
	i32.const	0
	local.set	0
	local.get	6
	i32.load	44
	local.set	8
	br      	1                               # 1: down to label283
.LBB81_5:                               # %arm.5.i.i
	end_block                               # label285:
	i32.const	6
	i32.const	5
	local.get	6
	i32.load8_u	41
	i32.select
	local.set	0
.LBB81_6:                               # %wide_fotsgure_aes_unwrap_padded.exit
	end_block                               # label283:
	local.get	5
	local.get	8
	i32.store	0
	local.get	6
	i32.const	48
	i32.add 
	global.set	__stack_pointer
	local.get	0
                                        # fallthrough-return
	end_function
                                        # -- End function
	.section	.text.fotsgure_aes_cmac,"",@
	.globl	fotsgure_aes_cmac               # -- Begin function fotsgure_aes_cmac
	.type	fotsgure_aes_cmac,@function
fotsgure_aes_cmac:                      # @fotsgure_aes_cmac
	.functype	fotsgure_aes_cmac (i32, i32, i32, i32) -> (i32)
	.local  	i32, i64, i32
# %bb.0:
	global.get	__stack_pointer
	i32.const	48
	i32.sub 
	local.tee	4
	global.set	__stack_pointer
	block   	
	block   	
	local.get	0
	i64.load32_u	0
	local.tee	5
	i64.const	32
	i64.eq  
	br_if   	0                               # 0: down to label287
# %bb.1:
	i32.const	2
	local.set	6
	local.get	5
	i64.const	4294967287
	i64.and 
	i64.const	16
	i64.ne  
	br_if   	1                               # 1: down to label286
.LBB82_2:                               # %join.3.i.i
	end_block                               # label287:
	i32.const	0
	local.set	6
	local.get	4
	i32.const	0
	i32.store	20
	local.get	4
	i32.const	0
	i32.store	4
	local.get	4
	local.get	0
	i32.const	4
	i32.add 
	local.tee	0
	i32.store	16
	local.get	4
	local.get	0
	i32.store	0
	local.get	4
	local.get	5
	i64.const	2
	i64.shr_u
	i64.const	7
	i64.add 
	local.tee	5
	i64.store	24
	local.get	4
	local.get	5
	i64.store	8
	local.get	4
	i32.const	32
	i32.add 
	local.get	4
	local.get	1
	i32.const	0
	i32.const	4096
	local.get	1
	i32.select
	i32.add 
	local.get	2
	i64.extend_i32_u
	call	cmac__tags__tag____ef80964e0b8d42c0_
	local.get	3
	local.get	4
	v128.load	32:p2align=0
	v128.store	0:p2align=0
	call	aes_cipher__zeroize__stack__wipe_stack____768_
.LBB82_3:                               # %wide_fotsgure_aes_cmac.exit
	end_block                               # label286:
	local.get	4
	i32.const	48
	i32.add 
	global.set	__stack_pointer
	local.get	6
                                        # fallthrough-return
	end_function
                                        # -- End function
	.section	.text.fotsgure_aes_cmac_verify,"",@
	.globl	fotsgure_aes_cmac_verify        # -- Begin function fotsgure_aes_cmac_verify
	.type	fotsgure_aes_cmac_verify,@function
fotsgure_aes_cmac_verify:               # @fotsgure_aes_cmac_verify
	.functype	fotsgure_aes_cmac_verify (i32, i32, i32, i32, i32) -> (i32)
	.local  	i32, i64
# %bb.0:
	global.get	__stack_pointer
	i32.const	32
	i32.sub 
	local.tee	5
	global.set	__stack_pointer
	block   	
	block   	
	local.get	0
	i64.load32_u	0
	local.tee	6
	i64.const	32
	i64.eq  
	br_if   	0                               # 0: down to label289
# %bb.1:
	local.get	6
	i64.const	4294967287
	i64.and 
	i64.const	16
	i64.eq  
	br_if   	0                               # 0: down to label289
# %bb.2:
	i32.const	2
	local.set	0
	br      	1                               # 1: down to label288
.LBB83_3:                               # %join.3.i.i
	end_block                               # label289:
	block   	
	local.get	4
	i32.const	-4
	i32.add 
	i32.const	12
	i32.le_u
	br_if   	0                               # 0: down to label290
# %bb.4:
	i32.const	7
	local.set	0
	br      	1                               # 1: down to label288
.LBB83_5:                               # %join.6.i.i
	end_block                               # label290:
	local.get	5
	i32.const	0
	i32.store	20
	local.get	5
	i32.const	0
	i32.store	4
	local.get	5
	local.get	0
	i32.const	4
	i32.add 
	local.tee	0
	i32.store	16
	local.get	5
	local.get	0
	i32.store	0
	local.get	5
	local.get	6
	i64.const	2
	i64.shr_u
	i64.const	7
	i64.add 
	local.tee	6
	i64.store	24
	local.get	5
	local.get	6
	i64.store	8
	i32.const	0
	i32.const	6
	local.get	5
	local.get	1
	i32.const	0
	i32.const	4096
	local.get	1
	i32.select
	i32.add 
	local.get	2
	i64.extend_i32_u
	local.get	3
	i32.const	0
	i32.const	4096
	local.get	3
	i32.select
	i32.add 
	local.get	4
	i64.extend_i32_u
	call	cmac__tags__is_tag_start____ef80964e0b8d42c0_
	i32.select
	local.set	0
	call	aes_cipher__zeroize__stack__wipe_stack____768_
.LBB83_6:                               # %wide_fotsgure_aes_cmac_verify.exit
	end_block                               # label288:
	local.get	5
	i32.const	32
	i32.add 
	global.set	__stack_pointer
	local.get	0
                                        # fallthrough-return
	end_function
                                        # -- End function
	.section	.text.fotsgure_aes_cmac_begin,"",@
	.globl	fotsgure_aes_cmac_begin         # -- Begin function fotsgure_aes_cmac_begin
	.type	fotsgure_aes_cmac_begin,@function
fotsgure_aes_cmac_begin:                # @fotsgure_aes_cmac_begin
	.functype	fotsgure_aes_cmac_begin (i32, i32) -> (i32)
	.local  	i32, v128
# %bb.0:
	i32.const	2
	local.set	2
	block   	
	local.get	0
	i32.load	0
	i32.const	-16
	i32.add 
	local.tee	0
	i32.const	16
	i32.gt_u
	br_if   	0                               # 0: down to label291
# %bb.1:
	i32.const	1
	local.get	0
	i32.shl 
	i32.const	65793
	i32.and 
	i32.eqz
	br_if   	0                               # 0: down to label291
# %bb.2:                                # %join.3.i.i
	local.get	1
	i64.const	1
	i64.store	0
	local.get	1
	i32.const	40
	i32.add 
	i64.const	0
	i64.store	0:p2align=0
	local.get	1
	i32.const	24
	i32.add 
	v128.const	0, 0
	local.tee	3
	v128.store	0:p2align=0
	local.get	1
	i32.const	8
	i32.add 
	local.get	3
	v128.store	0:p2align=0
	i32.const	0
	local.set	2
.LBB84_3:                               # %wide_fotsgure_aes_cmac_begin.exit
	end_block                               # label291:
	local.get	2
                                        # fallthrough-return
	end_function
                                        # -- End function
	.section	.text.fotsgure_aes_cmac_update,"",@
	.globl	fotsgure_aes_cmac_update        # -- Begin function fotsgure_aes_cmac_update
	.type	fotsgure_aes_cmac_update,@function
fotsgure_aes_cmac_update:               # @fotsgure_aes_cmac_update
	.functype	fotsgure_aes_cmac_update (i32, i32, i32, i32) -> (i32)
	.local  	i32, i64, i32
# %bb.0:
	global.get	__stack_pointer
	i32.const	32
	i32.sub 
	local.tee	4
	global.set	__stack_pointer
	block   	
	block   	
	local.get	0
	i64.load32_u	0
	local.tee	5
	i64.const	32
	i64.eq  
	br_if   	0                               # 0: down to label293
# %bb.1:
	i32.const	2
	local.set	6
	local.get	5
	i64.const	4294967287
	i64.and 
	i64.const	16
	i64.ne  
	br_if   	1                               # 1: down to label292
.LBB85_2:                               # %join.3.i.i
	end_block                               # label293:
	local.get	4
	i32.const	0
	i32.store	20
	local.get	4
	i32.const	0
	i32.store	4
	local.get	4
	local.get	0
	i32.const	4
	i32.add 
	local.tee	0
	i32.store	16
	local.get	4
	local.get	0
	i32.store	0
	local.get	4
	local.get	5
	i64.const	2
	i64.shr_u
	i64.const	7
	i64.add 
	local.tee	5
	i64.store	24
	local.get	4
	local.get	5
	i64.store	8
	i32.const	10
	local.set	6
	block   	
	local.get	1
	i64.load	0
	i64.const	1
	i64.ne  
	br_if   	0                               # 0: down to label294
# %bb.3:                                # %join.3.i.i.i
	local.get	1
	i32.const	8
	i32.add 
	local.get	4
	local.get	2
	i32.const	0
	i32.const	4096
	local.get	2
	i32.select
	i32.add 
	local.get	3
	i64.extend_i32_u
	call	cmac__chain_in_pieces__ChainInPieces__extend____ef80964e0b8d42c0_
	i32.const	0
	local.set	6
.LBB85_4:                               # %cmac__pieces__Message__update____ef80964e0b8d42c0_.exit.i.i
	end_block                               # label294:
	call	aes_cipher__zeroize__stack__wipe_stack____768_
.LBB85_5:                               # %wide_fotsgure_aes_cmac_update.exit
	end_block                               # label292:
	local.get	4
	i32.const	32
	i32.add 
	global.set	__stack_pointer
	local.get	6
                                        # fallthrough-return
	end_function
                                        # -- End function
	.section	.text.fotsgure_aes_cmac_finish,"",@
	.globl	fotsgure_aes_cmac_finish        # -- Begin function fotsgure_aes_cmac_finish
	.type	fotsgure_aes_cmac_finish,@function
fotsgure_aes_cmac_finish:               # @fotsgure_aes_cmac_finish
	.functype	fotsgure_aes_cmac_finish (i32, i32, i32) -> (i32)
	.local  	i32, i64, i32
# %bb.0:
	global.get	__stack_pointer
	i32.const	48
	i32.sub 
	local.tee	3
	global.set	__stack_pointer
	block   	
	block   	
	local.get	0
	i64.load32_u	0
	local.tee	4
	i64.const	32
	i64.eq  
	br_if   	0                               # 0: down to label296
# %bb.1:
	i32.const	2
	local.set	5
	local.get	4
	i64.const	4294967287
	i64.and 
	i64.const	16
	i64.ne  
	br_if   	1                               # 1: down to label295
.LBB86_2:                               # %join.3.i.i
	end_block                               # label296:
	i32.const	0
	local.set	5
	local.get	3
	i32.const	0
	i32.store	20
	local.get	3
	i32.const	0
	i32.store	4
	local.get	3
	local.get	0
	i32.const	4
	i32.add 
	local.tee	0
	i32.store	16
	local.get	3
	local.get	0
	i32.store	0
	local.get	3
	local.get	4
	i64.const	2
	i64.shr_u
	i64.const	7
	i64.add 
	local.tee	4
	i64.store	24
	local.get	3
	local.get	4
	i64.store	8
	block   	
	local.get	1
	i64.load	0
	i64.const	1
	i64.eq  
	br_if   	0                               # 0: down to label297
# %bb.3:                                # %cmac__pieces__Message__finish____ef80964e0b8d42c0_.exit.i.i
	call	aes_cipher__zeroize__stack__wipe_stack____768_
	i32.const	10
	local.set	5
	br      	1                               # 1: down to label295
.LBB86_4:                               # %arm.4.i.i
	end_block                               # label297:
	local.get	3
	v128.const	0, 0
	v128.store	32:p2align=3
	local.get	3
	i32.const	32
	i32.add 
	local.get	3
	local.get	1
	i32.const	16
	i32.add 
	local.get	1
	i32.const	32
	i32.add 
	local.get	1
	i32.const	8
	i32.add 
	i64.load	0
	local.tee	4
	i64.const	16
	local.get	4
	i64.const	16
	i64.lt_u
	i64.select
	call	cmac__tags__tag_at_end____ef80964e0b8d42c0_
	local.get	1
	call	cmac__pieces__MessageZeroize__zeroize
	call	aes_cipher__zeroize__stack__wipe_stack____768_
	local.get	2
	local.get	3
	v128.load	32:p2align=3
	v128.store	0:p2align=0
.LBB86_5:                               # %wide_fotsgure_aes_cmac_finish.exit
	end_block                               # label295:
	local.get	3
	i32.const	48
	i32.add 
	global.set	__stack_pointer
	local.get	5
                                        # fallthrough-return
	end_function
                                        # -- End function
	.section	.text.fotsgure_aes_cmac_accept,"",@
	.globl	fotsgure_aes_cmac_accept        # -- Begin function fotsgure_aes_cmac_accept
	.type	fotsgure_aes_cmac_accept,@function
fotsgure_aes_cmac_accept:               # @fotsgure_aes_cmac_accept
	.functype	fotsgure_aes_cmac_accept (i32, i32, i32, i32) -> (i32)
	.local  	i32, i64
# %bb.0:
	global.get	__stack_pointer
	i32.const	32
	i32.sub 
	local.tee	4
	global.set	__stack_pointer
	block   	
	block   	
	local.get	0
	i64.load32_u	0
	local.tee	5
	i64.const	32
	i64.eq  
	br_if   	0                               # 0: down to label299
# %bb.1:
	local.get	5
	i64.const	4294967287
	i64.and 
	i64.const	16
	i64.eq  
	br_if   	0                               # 0: down to label299
# %bb.2:
	i32.const	2
	local.set	0
	br      	1                               # 1: down to label298
.LBB87_3:                               # %join.3.i.i
	end_block                               # label299:
	block   	
	local.get	3
	i32.const	-4
	i32.add 
	i32.const	12
	i32.le_u
	br_if   	0                               # 0: down to label300
# %bb.4:
	i32.const	7
	local.set	0
	br      	1                               # 1: down to label298
.LBB87_5:                               # %join.6.i.i
	end_block                               # label300:
	local.get	4
	i32.const	0
	i32.store	20
	local.get	4
	i32.const	0
	i32.store	4
	local.get	4
	local.get	0
	i32.const	4
	i32.add 
	local.tee	0
	i32.store	16
	local.get	4
	local.get	0
	i32.store	0
	local.get	4
	local.get	5
	i64.const	2
	i64.shr_u
	i64.const	7
	i64.add 
	local.tee	5
	i64.store	24
	local.get	4
	local.get	5
	i64.store	8
	block   	
	block   	
	local.get	1
	i64.load	0
	i64.const	1
	i64.eq  
	br_if   	0                               # 0: down to label302
# %bb.6:
	i32.const	10
	local.set	0
	br      	1                               # 1: down to label301
.LBB87_7:                               # %join.3.i.i.i
	end_block                               # label302:
	block   	
	local.get	1
	local.get	4
	local.get	2
	i32.const	0
	i32.const	4096
	local.get	2
	i32.select
	i32.add 
	local.get	3
	i64.extend_i32_u
	call	cmac__pieces__Message__is_tag_so_far____ef80964e0b8d42c0_
	br_if   	0                               # 0: down to label303
# %bb.8:
	i32.const	6
	local.set	0
	br      	1                               # 1: down to label301
.LBB87_9:                               # %join.7.i.i.i
	end_block                               # label303:
	local.get	1
	call	cmac__pieces__MessageZeroize__zeroize
	i32.const	0
	local.set	0
.LBB87_10:                              # %cmac__pieces__Message__accept____ef80964e0b8d42c0_.exit.i.i
	end_block                               # label301:
	call	aes_cipher__zeroize__stack__wipe_stack____768_
.LBB87_11:                              # %wide_fotsgure_aes_cmac_accept.exit
	end_block                               # label298:
	local.get	4
	i32.const	32
	i32.add 
	global.set	__stack_pointer
	local.get	0
                                        # fallthrough-return
	end_function
                                        # -- End function
	.section	.text.fotsgure_aes_cmac_wipe,"",@
	.globl	fotsgure_aes_cmac_wipe          # -- Begin function fotsgure_aes_cmac_wipe
	.type	fotsgure_aes_cmac_wipe,@function
fotsgure_aes_cmac_wipe:                 # @fotsgure_aes_cmac_wipe
	.functype	fotsgure_aes_cmac_wipe (i32) -> ()
	.local  	v128
# %bb.0:
	local.get	0
	v128.const	0, 0
	local.tee	1
	v128.store	32:p2align=0
	local.get	0
	local.get	1
	v128.store	16:p2align=0
	local.get	0
	local.get	1
	v128.store	0:p2align=0
	local.get	0
	call	cmac__pieces__MessageZeroize__zeroize
                                        # fallthrough-return
	end_function
                                        # -- End function
	.section	.text.fotsgure_aes_ccm_seal,"",@
	.globl	fotsgure_aes_ccm_seal           # -- Begin function fotsgure_aes_ccm_seal
	.type	fotsgure_aes_ccm_seal,@function
fotsgure_aes_ccm_seal:                  # @fotsgure_aes_ccm_seal
	.functype	fotsgure_aes_ccm_seal (i32, i32, i32, i32, i32, i32, i32, i32, i32) -> (i32)
	.local  	i32, i64, i32
# %bb.0:
	global.get	__stack_pointer
	i32.const	48
	i32.sub 
	local.tee	9
	global.set	__stack_pointer
	block   	
	block   	
	local.get	0
	i64.load32_u	0
	local.tee	10
	i64.const	32
	i64.eq  
	br_if   	0                               # 0: down to label305
# %bb.1:
	i32.const	2
	local.set	11
	local.get	10
	i64.const	4294967287
	i64.and 
	i64.const	16
	i64.ne  
	br_if   	1                               # 1: down to label304
.LBB89_2:                               # %join.3.i.i
	end_block                               # label305:
	i32.const	0
	local.set	11
	local.get	9
	i32.const	0
	i32.store	36
	local.get	9
	i32.const	0
	i32.store	20
	local.get	9
	local.get	0
	i32.const	4
	i32.add 
	local.tee	0
	i32.store	32
	local.get	9
	local.get	0
	i32.store	16
	local.get	9
	local.get	10
	i64.const	2
	i64.shr_u
	i64.const	7
	i64.add 
	local.tee	10
	i64.store	40
	local.get	9
	local.get	10
	i64.store	24
	local.get	9
	i32.const	8
	i32.add 
	local.get	9
	i32.const	16
	i32.add 
	local.get	1
	i32.const	0
	i32.const	4096
	local.get	1
	i32.select
	i32.add 
	local.get	2
	i64.extend_i32_u
	local.get	3
	i32.const	0
	i32.const	4096
	local.get	3
	i32.select
	i32.add 
	local.get	4
	i64.extend_i32_u
	local.get	5
	i32.const	0
	i32.const	4096
	local.get	5
	i32.select
	i32.add 
	local.get	6
	i64.extend_i32_u
	local.get	7
	i32.const	0
	i32.const	4096
	local.get	7
	i32.select
	i32.add 
	local.get	8
	i64.extend_i32_u
	call	ccm__mode__encrypt____ef80964e0b8d42c0_
	local.get	9
	i32.load8_u	9
	local.set	7
	local.get	9
	i32.load8_u	8
	local.set	0
	call	aes_cipher__zeroize__stack__wipe_stack____1024_
	local.get	0
	i32.eqz
	br_if   	0                               # 0: down to label304
# %bb.3:                                # %arm.5.i.i
	local.get	7
	i32.const	255
	i32.and 
	i32.const	7
	i32.add 
	local.set	11
.LBB89_4:                               # %wide_fotsgure_aes_ccm_seal.exit
	end_block                               # label304:
	local.get	9
	i32.const	48
	i32.add 
	global.set	__stack_pointer
	local.get	11
                                        # fallthrough-return
	end_function
                                        # -- End function
	.section	.text.fotsgure_aes_ccm_open,"",@
	.globl	fotsgure_aes_ccm_open           # -- Begin function fotsgure_aes_ccm_open
	.type	fotsgure_aes_ccm_open,@function
fotsgure_aes_ccm_open:                  # @fotsgure_aes_ccm_open
	.functype	fotsgure_aes_ccm_open (i32, i32, i32, i32, i32, i32, i32, i32, i32) -> (i32)
	.local  	i32, i64, i32
# %bb.0:
	global.get	__stack_pointer
	i32.const	48
	i32.sub 
	local.tee	9
	global.set	__stack_pointer
	block   	
	block   	
	local.get	0
	i64.load32_u	0
	local.tee	10
	i64.const	32
	i64.eq  
	br_if   	0                               # 0: down to label307
# %bb.1:
	local.get	10
	i64.const	4294967287
	i64.and 
	i64.const	16
	i64.eq  
	br_if   	0                               # 0: down to label307
# %bb.2:
	i32.const	2
	local.set	11
	br      	1                               # 1: down to label306
.LBB90_3:                               # %join.3.i.i
	end_block                               # label307:
	i32.const	0
	local.set	11
	local.get	9
	i32.const	0
	i32.store	28
	local.get	9
	i32.const	0
	i32.store	12
	local.get	9
	local.get	0
	i32.const	4
	i32.add 
	local.tee	0
	i32.store	24
	local.get	9
	local.get	0
	i32.store	8
	local.get	9
	local.get	10
	i64.const	2
	i64.shr_u
	i64.const	7
	i64.add 
	local.tee	10
	i64.store	32
	local.get	9
	local.get	10
	i64.store	16
	local.get	9
	i32.const	45
	i32.add 
	local.get	9
	i32.const	8
	i32.add 
	local.get	1
	i32.const	0
	i32.const	4096
	local.get	1
	i32.select
	i32.add 
	local.get	2
	i64.extend_i32_u
	local.get	3
	i32.const	0
	i32.const	4096
	local.get	3
	i32.select
	i32.add 
	local.get	4
	i64.extend_i32_u
	local.get	5
	i32.const	0
	i32.const	4096
	local.get	5
	i32.select
	i32.add 
	local.get	6
	i64.extend_i32_u
	local.get	7
	i32.const	0
	i32.const	4096
	local.get	7
	i32.select
	i32.add 
	local.get	8
	i64.extend_i32_u
	call	ccm__mode__decrypt____ef80964e0b8d42c0_
	call	aes_cipher__zeroize__stack__wipe_stack____1024_
	local.get	9
	i32.load8_u	45
	i32.eqz
	br_if   	0                               # 0: down to label306
# %bb.4:                                # %arm.5.i.i
	block   	
	local.get	9
	i32.load8_u	46
	i32.eqz
	br_if   	0                               # 0: down to label308
# %bb.5:
	i32.const	6
	local.set	11
	br      	1                               # 1: down to label306
.LBB90_6:                               # %arm.8.i.i
	end_block                               # label308:
	local.get	9
	i32.load8_u	47
	i32.const	7
	i32.add 
	local.set	11
.LBB90_7:                               # %wide_fotsgure_aes_ccm_open.exit
	end_block                               # label306:
	local.get	9
	i32.const	48
	i32.add 
	global.set	__stack_pointer
	local.get	11
                                        # fallthrough-return
	end_function
                                        # -- End function
	.section	.text.fotsgure_aes_cipher_round,"",@
	.globl	fotsgure_aes_cipher_round       # -- Begin function fotsgure_aes_cipher_round
	.type	fotsgure_aes_cipher_round,@function
fotsgure_aes_cipher_round:              # @fotsgure_aes_cipher_round
	.functype	fotsgure_aes_cipher_round (i32, i32) -> ()
# %bb.0:
	local.get	0
	local.get	1
	call	aes_c__single_rounds__round
	call	aes_cipher__zeroize__stack__wipe_stack____512_
                                        # fallthrough-return
	end_function
                                        # -- End function
	.section	.text.fotsgure_aes_equiv_inv_cipher_round,"",@
	.globl	fotsgure_aes_equiv_inv_cipher_round # -- Begin function fotsgure_aes_equiv_inv_cipher_round
	.type	fotsgure_aes_equiv_inv_cipher_round,@function
fotsgure_aes_equiv_inv_cipher_round:    # @fotsgure_aes_equiv_inv_cipher_round
	.functype	fotsgure_aes_equiv_inv_cipher_round (i32, i32) -> ()
# %bb.0:
	local.get	0
	local.get	1
	call	aes_c__single_rounds__inverse_round
	call	aes_cipher__zeroize__stack__wipe_stack____512_
                                        # fallthrough-return
	end_function
                                        # -- End function
	.section	.text.fotsgure_aes_cipher_round_par,"",@
	.globl	fotsgure_aes_cipher_round_par   # -- Begin function fotsgure_aes_cipher_round_par
	.type	fotsgure_aes_cipher_round_par,@function
fotsgure_aes_cipher_round_par:          # @fotsgure_aes_cipher_round_par
	.functype	fotsgure_aes_cipher_round_par (i32, i32) -> ()
# %bb.0:
	local.get	0
	local.get	1
	call	aes_c__single_rounds__rounds
	call	aes_cipher__zeroize__stack__wipe_stack____512_
                                        # fallthrough-return
	end_function
                                        # -- End function
	.section	.text.fotsgure_aes_equiv_inv_cipher_round_par,"",@
	.globl	fotsgure_aes_equiv_inv_cipher_round_par # -- Begin function fotsgure_aes_equiv_inv_cipher_round_par
	.type	fotsgure_aes_equiv_inv_cipher_round_par,@function
fotsgure_aes_equiv_inv_cipher_round_par: # @fotsgure_aes_equiv_inv_cipher_round_par
	.functype	fotsgure_aes_equiv_inv_cipher_round_par (i32, i32) -> ()
# %bb.0:
	local.get	0
	local.get	1
	call	aes_c__single_rounds__inverse_rounds
	call	aes_cipher__zeroize__stack__wipe_stack____512_
                                        # fallthrough-return
	end_function
                                        # -- End function
	.section	.text.fotsgure_aes_mix_columns,"",@
	.globl	fotsgure_aes_mix_columns        # -- Begin function fotsgure_aes_mix_columns
	.type	fotsgure_aes_mix_columns,@function
fotsgure_aes_mix_columns:               # @fotsgure_aes_mix_columns
	.functype	fotsgure_aes_mix_columns (i32) -> ()
# %bb.0:
	local.get	0
	call	aes_c__single_rounds__mixed
	call	aes_cipher__zeroize__stack__wipe_stack____512_
                                        # fallthrough-return
	end_function
                                        # -- End function
	.section	.text.fotsgure_aes_inv_mix_columns,"",@
	.globl	fotsgure_aes_inv_mix_columns    # -- Begin function fotsgure_aes_inv_mix_columns
	.type	fotsgure_aes_inv_mix_columns,@function
fotsgure_aes_inv_mix_columns:           # @fotsgure_aes_inv_mix_columns
	.functype	fotsgure_aes_inv_mix_columns (i32) -> ()
# %bb.0:
	local.get	0
	call	aes_c__single_rounds__inverse_mixed
	call	aes_cipher__zeroize__stack__wipe_stack____512_
                                        # fallthrough-return
	end_function
                                        # -- End function
	.section	.text.fotsgure_aes_encrypt_blocks_with,"",@
	.globl	fotsgure_aes_encrypt_blocks_with # -- Begin function fotsgure_aes_encrypt_blocks_with
	.type	fotsgure_aes_encrypt_blocks_with,@function
fotsgure_aes_encrypt_blocks_with:       # @fotsgure_aes_encrypt_blocks_with
	.functype	fotsgure_aes_encrypt_blocks_with (i32, i32, i32, i32) -> (i32)
	.local  	i32, i64, i32, i32
# %bb.0:
	global.get	__stack_pointer
	i32.const	288
	i32.sub 
	local.tee	4
	global.set	__stack_pointer
	local.get	1
	i64.extend_i32_u
	local.set	5
	block   	
	block   	
	local.get	1
	i32.const	32
	i32.eq  
	br_if   	0                               # 0: down to label310
# %bb.1:
	i32.const	1
	local.set	6
	local.get	5
	i64.const	4294967287
	i64.and 
	i64.const	16
	i64.ne  
	br_if   	1                               # 1: down to label309
.LBB97_2:                               # %join.3.i.i
	end_block                               # label310:
	i32.const	0
	local.set	6
	local.get	4
	i32.const	64
	i32.add 
	i32.const	0
	i32.const	224
	memory.fill	0
	local.get	4
	i32.const	48
	i32.add 
	local.tee	7
	local.get	0
	i32.const	0
	i32.const	4096
	local.get	0
	i32.select
	i32.add 
	local.get	5
	call	aes_permute__lane_keys__expand_lanes
	local.get	4
	local.get	5
	i64.const	2
	i64.shr_u
	i64.const	7
	i64.add 
	local.tee	5
	i64.store	32
	local.get	4
	i32.const	0
	i32.store	28
	local.get	4
	local.get	7
	i32.store	24
	local.get	4
	local.get	5
	i64.store	16
	local.get	4
	i32.const	0
	i32.store	12
	local.get	4
	local.get	7
	i32.store	8
	local.get	4
	local.get	1
	i32.store	44
	local.get	4
	i32.const	8
	i32.add 
	local.get	2
	i32.const	0
	i32.const	4096
	local.get	2
	i32.select
	i32.add 
	local.get	3
	i64.extend_i32_u
	call	aes_hybrid__borrowed_cipher__BorrowedCipher__process_blocks____ee6d29ed0cc28f94_
	local.get	4
	i32.const	0
	i32.store	44
	local.get	7
	call	aes_cipher__zeroize__elements__zeroize_elements____530874d131791bfe_
.LBB97_3:                               # %wide_fotsgure_aes_encrypt_blocks_with.exit
	end_block                               # label309:
	local.get	4
	i32.const	288
	i32.add 
	global.set	__stack_pointer
	local.get	6
                                        # fallthrough-return
	end_function
                                        # -- End function
	.section	.text.fotsgure_aes_decrypt_blocks_with,"",@
	.globl	fotsgure_aes_decrypt_blocks_with # -- Begin function fotsgure_aes_decrypt_blocks_with
	.type	fotsgure_aes_decrypt_blocks_with,@function
fotsgure_aes_decrypt_blocks_with:       # @fotsgure_aes_decrypt_blocks_with
	.functype	fotsgure_aes_decrypt_blocks_with (i32, i32, i32, i32) -> (i32)
	.local  	i32, i32
# %bb.0:
	global.get	__stack_pointer
	i32.const	496
	i32.sub 
	local.tee	4
	global.set	__stack_pointer
	local.get	4
	i32.const	12
	i32.add 
	i32.const	0
	i32.const	484
	memory.fill	0
	i32.const	1
	local.set	5
	block   	
	local.get	4
	i32.const	12
	i32.add 
	local.get	0
	i32.const	0
	i32.const	4096
	local.get	0
	i32.select
	i32.add 
	local.get	1
	i64.extend_i32_u
	call	aes_c__kept__fotsgure_aes_set_key
	br_if   	0                               # 0: down to label311
# %bb.1:                                # %join.3.i.i
	local.get	4
	i32.const	12
	i32.add 
	local.get	2
	i32.const	0
	i32.const	4096
	local.get	2
	i32.select
	i32.add 
	local.get	3
	i64.extend_i32_u
	call	aes_c__blocks__fotsgure_aes_decrypt_blocks
	local.set	5
	local.get	4
	i32.const	0
	i32.store	12
	local.get	4
	i32.const	16
	i32.add 
	call	aes_cipher__zeroize__elements__zeroize_elements____530874d131791bfe_
	local.get	4
	i32.const	256
	i32.add 
	call	aes_cipher__zeroize__elements__zeroize_elements____530874d131791bfe_
.LBB98_2:                               # %wide_fotsgure_aes_decrypt_blocks_with.exit
	end_block                               # label311:
	local.get	4
	i32.const	496
	i32.add 
	global.set	__stack_pointer
	local.get	5
                                        # fallthrough-return
	end_function
                                        # -- End function
	.section	.text.fotsgure_aes_add_keystream_with,"",@
	.globl	fotsgure_aes_add_keystream_with # -- Begin function fotsgure_aes_add_keystream_with
	.type	fotsgure_aes_add_keystream_with,@function
fotsgure_aes_add_keystream_with:        # @fotsgure_aes_add_keystream_with
	.functype	fotsgure_aes_add_keystream_with (i32, i32, i32, i32, i32) -> (i32)
	.local  	i32, i64, i64, i32, i64, i32
# %bb.0:
	global.get	__stack_pointer
	i32.const	288
	i32.sub 
	local.tee	5
	global.set	__stack_pointer
	local.get	1
	i64.extend_i32_u
	local.set	6
	block   	
	block   	
	local.get	1
	i32.const	32
	i32.eq  
	br_if   	0                               # 0: down to label313
# %bb.1:
	local.get	6
	i64.const	4294967287
	i64.and 
	i64.const	16
	i64.eq  
	br_if   	0                               # 0: down to label313
# %bb.2:
	i32.const	1
	local.set	4
	br      	1                               # 1: down to label312
.LBB99_3:                               # %join.3.i.i
	end_block                               # label313:
	block   	
	local.get	4
	i64.extend_i32_u
	local.tee	7
	local.get	2
	i32.const	16
	i32.add 
	local.tee	8
	i64.load	0
	local.tee	9
	i64.const	-1
	i64.xor 
	i64.le_u
	br_if   	0                               # 0: down to label314
# %bb.4:
	i32.const	4
	local.set	4
	br      	1                               # 1: down to label312
.LBB99_5:                               # %join.6.i.i
	end_block                               # label314:
	i32.const	0
	local.set	4
	local.get	5
	i32.const	64
	i32.add 
	i32.const	0
	i32.const	224
	memory.fill	0
	local.get	5
	i32.const	48
	i32.add 
	local.tee	10
	local.get	0
	i32.const	0
	i32.const	4096
	local.get	0
	i32.select
	i32.add 
	local.get	6
	call	aes_permute__lane_keys__expand_lanes
	local.get	5
	local.get	6
	i64.const	2
	i64.shr_u
	i64.const	7
	i64.add 
	local.tee	6
	i64.store	32
	local.get	5
	i32.const	0
	i32.store	28
	local.get	5
	local.get	10
	i32.store	24
	local.get	5
	local.get	6
	i64.store	16
	local.get	5
	i32.const	0
	i32.store	12
	local.get	5
	local.get	10
	i32.store	8
	local.get	5
	local.get	1
	i32.store	44
	local.get	5
	i32.const	8
	i32.add 
	local.get	2
	local.get	9
	local.get	3
	i32.const	0
	i32.const	4096
	local.get	3
	i32.select
	i32.add 
	local.get	7
	call	aes_ctr__add_in_batches__add_keystream____ef80964e0b8d42c0_
	local.get	8
	local.get	8
	i64.load	0
	local.get	7
	i64.add 
	i64.store	0
	local.get	5
	i32.const	0
	i32.store	44
	local.get	10
	call	aes_cipher__zeroize__elements__zeroize_elements____530874d131791bfe_
.LBB99_6:                               # %wide_fotsgure_aes_add_keystream_with.exit
	end_block                               # label312:
	local.get	5
	i32.const	288
	i32.add 
	global.set	__stack_pointer
	local.get	4
                                        # fallthrough-return
	end_function
                                        # -- End function
	.type	.Lstatic.0,@object              # @static.0
	.section	.rodata..Lstatic.0,"",@
.Lstatic.0:
	.ascii	"\001\002\004\b\020 @\200\0336"
	.size	.Lstatic.0, 10

	.type	.Lstatic.1,@object              # @static.1
	.section	.rodata..Lstatic.1,"",@
.Lstatic.1:
	.ascii	"\000\001\034\035-,10'&;:\n\013\026\027"
	.size	.Lstatic.1, 16

	.type	.Lstatic.2,@object              # @static.2
	.section	.rodata..Lstatic.2,"",@
.Lstatic.2:
	.ascii	"\000\206\375{\216\bs\365w\361\212\f\371\177\004\202"
	.size	.Lstatic.2, 16

	.type	.Lstatic.3,@object              # @static.3
	.section	.rodata..Lstatic.3,"",@
.Lstatic.3:
	.ascii	"\000\001\002\003\004\005\006\007\b\t\n\013\f\r\016\017\000\005\n\017\004\t\016\003\b\r\002\007\f\001\006\013\000\t\002\013\004\r\006\017\b\001\n\003\f\005\016\007\000\r\n\007\004\001\016\013\b\005\002\017\f\t\006\003"
	.size	.Lstatic.3, 64

	.type	.Lstatic.4,@object              # @static.4
	.section	.rodata..Lstatic.4,"",@
.Lstatic.4:
	.ascii	"\001\002\003\000\005\006\007\004\t\n\013\b\r\016\017\f\005\006\007\004\t\n\013\b\r\016\017\f\001\002\003\000\t\n\013\b\r\016\017\f\001\002\003\000\005\006\007\004\r\016\017\f\001\002\003\000\005\006\007\004\t\n\013\b"
	.size	.Lstatic.4, 64

	.type	.Lstatic.5,@object              # @static.5
	.section	.rodata..Lstatic.5,"",@
.Lstatic.5:
	.ascii	"\003\000\001\002\007\004\005\006\013\b\t\n\017\f\r\016\017\f\r\016\003\000\001\002\007\004\005\006\013\b\t\n\013\b\t\n\017\f\r\016\003\000\001\002\007\004\005\006\007\004\005\006\013\b\t\n\017\f\r\016\003\000\001\002"
	.size	.Lstatic.5, 64

	.type	.Lstatic.6,@object              # @static.6
	.section	.rodata..Lstatic.6,"",@
.Lstatic.6:
	.ascii	"\002\003\000\001\006\007\004\005\n\013\b\t\016\017\f\r\n\013\b\t\016\017\f\r\002\003\000\001\006\007\004\005\002\003\000\001\006\007\004\005\n\013\b\t\016\017\f\r\n\013\b\t\016\017\f\r\002\003\000\001\006\007\004\005"
	.size	.Lstatic.6, 64

	.type	.Lstatic.8,@object              # @static.8
	.section	.rodata..Lstatic.8,"",@
.Lstatic.8:
	.skip	16,166
	.size	.Lstatic.8, 16

	.ident	"rattle logic=dac8208d650f15bf3e2dc313a14fa4c783a3acf887bdfab66e1714b038d9e11b"
	.section	.custom_section.producers,"",@
	.int8	1
	.int8	12
	.ascii	"processed-by"
	.int8	1
	.int8	77
	.ascii	"rattle logic=dac8208d650f15bf3e2dc313a14fa4c783a3acf887bdfab66e1714b038d9e11b"
	.int8	0
	.section	.rodata..Lstatic.8,"",@
	.section	.custom_section.target_features,"",@
	.int8	3
	.int8	43
	.int8	11
	.ascii	"bulk-memory"
	.int8	43
	.int8	15
	.ascii	"bulk-memory-opt"
	.int8	43
	.int8	7
	.ascii	"simd128"
	.section	.rodata..Lstatic.8,"",@
