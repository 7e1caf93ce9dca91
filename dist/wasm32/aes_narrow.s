# Made by tools/dist from the proved crate aes_c; BUILD says from what. Don't edit it.
	.file	"rattle"
	.functype	memset (i32, i32, i32) -> (i32)
	.functype	memcpy (i32, i32, i32) -> (i32)
	.functype	memmove (i32, i32, i32) -> (i32)
	.globaltype	__stack_pointer, i32
	.functype	aes_narrow__word_room__expand_words____6af90bfc14753d47_ (i32, i32, i64) -> ()
	.functype	aes_planes__soft__word__word32__U32Word__in_every_slot (i32, i32) -> ()
	.functype	aes_planes__soft__word__word32__U32Word__constant_planes (i32, i32) -> ()
	.functype	aes_cipher__zeroize__stack__wipe_stack____768_ () -> ()
	.functype	aes_ctr__add_in_batches__add_keystream____4f733d09d7f6c6b4_ (i32, i32, i64, i32, i64) -> ()
	.functype	aes_narrow__blocks__process_all_batches____1a21aa7f601e7603_ (i32, i64, i32, i64) -> ()
	.functype	aes_soft__soft__blocks__filled_up__process_filled_up____1a21aa7f601e7603_ (i32, i64, i32, i64) -> ()
	.functype	aes_soft__soft__ciphers__planes__process_outlined____18f5f0e5023a24e4_ (i32, i32, i64, i32) -> ()
	.functype	aes_planes__soft__word__word32__U32Word__rotate_planes (i32, i32, i32, i32) -> ()
	.functype	aes_planes__soft__word__word32__U32Word__rotate_rows_and_columns (i32, i32, i32) -> (i32)
	.functype	aes_cipher__zeroize__stack__wipe_stack____1024_ () -> ()
	.functype	aes_narrow__borrowed_words__call_to_encrypt____b6a72634b88802f3_ (i32, i64, i32) -> ()
	.functype	aes_ctr__add_in_batches__add_next____a8e061590e9ece31_ (i32, i32, i64, i64, i32, i64) -> (i64)
	.functype	aes_cipher__zeroize__stack__wipe_stack____2032_ () -> ()
	.functype	aes_cipher__zeroize__elements__zeroize_elements____54a2bb646728b9ee_ (i32) -> ()
	.functype	cmac__tags__tag____4f733d09d7f6c6b4_ (i32, i32, i32, i64) -> ()
	.functype	cmac__chaining__chain____4f733d09d7f6c6b4_ (i32, i32, i32, i64) -> ()
	.functype	cmac__tags__tag_at_end____4f733d09d7f6c6b4_ (i32, i32, i32, i32, i64) -> ()
	.functype	cmac__pieces__MessageZeroize__zeroize (i32) -> ()
	.functype	aes_cipher__zeroize__elements__zeroize_elements____331496ca003a3905_ (i32) -> ()
	.functype	cmac__chain_in_pieces__ChainInPieces__extend____4f733d09d7f6c6b4_ (i32, i32, i32, i64) -> ()
	.functype	key_wrap__wrapping__wrap____4f733d09d7f6c6b4_ (i32, i32, i64, i32, i64) -> (i32)
	.functype	key_wrap__steps__wrap_in_place____4f733d09d7f6c6b4_ (i32, i32, i32, i64) -> ()
	.functype	key_wrap__steps__encrypt_halves____4f733d09d7f6c6b4_ (i32, i32, i32) -> ()
	.functype	aes_cipher__zeroize__stack__wipe_stack____512_ () -> ()
	.functype	key_wrap__padded__wrap_padded____4f733d09d7f6c6b4_ (i32, i32, i64, i32, i64) -> (i32)
	.functype	aes_narrow__borrowed_words__call_to_decrypt____a8a74a144d92a363_ (i32, i64, i32) -> ()
	.functype	aes_soft__soft__blocks__filled_up__process_filled_up____a3dcb71d05bd149b_ (i32, i64, i32, i64) -> ()
	.functype	aes_soft__soft__ciphers__planes__process_outlined____4da0d9798c91611c_ (i32, i32, i64, i32) -> ()
	.functype	aes_c__blocks__fotsgure_aes_decrypt_blocks (i32, i32, i64) -> (i32)
	.functype	aes_narrow__blocks__process_all_batches____a3dcb71d05bd149b_ (i32, i64, i32, i64) -> ()
	.functype	key_wrap__wrapping__unwrap____10c636071cb6e37c_ (i32, i32, i32, i64, i32, i64) -> ()
	.functype	key_wrap__steps__unwrap_in_place____10c636071cb6e37c_ (i32, i32, i32, i64) -> ()
	.functype	key_wrap__steps__decrypt_halves____10c636071cb6e37c_ (i32, i32, i32) -> ()
	.functype	aes_cipher__zeroize__elements__zeroize_elements____51e2d7e6a2c2e10f_ (i32) -> ()
	.functype	aes_cipher__blocks__difference (i32, i32) -> (i32)
	.functype	key_wrap__padded__unwrap_padded____10c636071cb6e37c_ (i32, i32, i32, i64, i32, i64) -> ()
	.functype	key_wrap__padded__difference (i32, i32, i64) -> (i64)
	.functype	key_wrap__padded__mask_below (i32, i32) -> (i32)
	.functype	aes_c__single_rounds__inverse_mixed (i32) -> ()
	.functype	aes_c__single_rounds__inverse_round (i32, i32) -> ()
	.functype	aes_c__single_rounds__inverse_rounds (i32, i32) -> ()
	.functype	cmac__pieces__Message__is_tag_so_far____4f733d09d7f6c6b4_ (i32, i32, i32, i64) -> (i32)
	.functype	cmac__tags__is_tag_start____4f733d09d7f6c6b4_ (i32, i32, i64, i32, i64) -> (i32)
	.functype	aes_c__single_rounds__mixed (i32) -> ()
	.functype	aes_c__stream__fotsgure_aes_add_keystream (i32, i32, i32, i64) -> (i32)
	.functype	aes_c__single_rounds__round (i32, i32) -> ()
	.functype	aes_c__single_rounds__rounds (i32, i32) -> ()
	.functype	aes_c__kept__fotsgure_aes_set_key (i32, i32, i64) -> (i32)
	.functype	ccm__mode__decrypt____4f733d09d7f6c6b4_ (i32, i32, i32, i64, i32, i64, i32, i64, i32, i64) -> ()
	.functype	ccm__formatting__check (i32, i64, i64, i64) -> ()
	.functype	ccm__message__put_tag____4f733d09d7f6c6b4_ (i32, i32, i64, i64, i32, i64, i32, i64, i32) -> ()
	.functype	ccm__mode__encrypt____4f733d09d7f6c6b4_ (i32, i32, i32, i64, i32, i64, i32, i64, i32, i64) -> ()
	.functype	fotsgure_aes_version () -> (i32)
	.functype	fotsgure_aes_set_key (i32, i32, i32) -> (i32)
	.functype	fotsgure_aes_key_length (i32) -> (i32)
	.functype	fotsgure_aes_wipe (i32) -> ()
	.functype	fotsgure_aes_encrypt_blocks (i32, i32, i32) -> (i32)
	.functype	fotsgure_aes_decrypt_blocks (i32, i32, i32) -> (i32)
	.functype	fotsgure_aes_encrypt_blocks_to (i32, i32, i32, i32, i32) -> (i32)
	.functype	fotsgure_aes_decrypt_blocks_to (i32, i32, i32, i32, i32) -> (i32)
	.functype	fotsgure_aes_add_keystream (i32, i32, i32, i32) -> (i32)
	.functype	fotsgure_aes_add_keystream_to (i32, i32, i32, i32, i32, i32) -> (i32)
	.functype	fotsgure_aes_cbc_encrypt (i32, i32, i32, i32) -> (i32)
	.functype	fotsgure_aes_cbc_decrypt (i32, i32, i32, i32) -> (i32)
	.functype	fotsgure_aes_wrap (i32, i32, i32, i32, i32) -> (i32)
	.functype	fotsgure_aes_unwrap (i32, i32, i32, i32, i32) -> (i32)
	.functype	fotsgure_aes_wrap_padded (i32, i32, i32, i32, i32) -> (i32)
	.functype	fotsgure_aes_unwrap_padded (i32, i32, i32, i32, i32, i32) -> (i32)
	.functype	fotsgure_aes_cmac (i32, i32, i32, i32) -> (i32)
	.functype	fotsgure_aes_cmac_verify (i32, i32, i32, i32, i32) -> (i32)
	.functype	fotsgure_aes_cmac_begin (i32, i32) -> (i32)
	.functype	fotsgure_aes_cmac_update (i32, i32, i32, i32) -> (i32)
	.functype	fotsgure_aes_cmac_finish (i32, i32, i32) -> (i32)
	.functype	fotsgure_aes_cmac_accept (i32, i32, i32, i32) -> (i32)
	.functype	fotsgure_aes_cmac_wipe (i32) -> ()
	.functype	fotsgure_aes_ccm_seal (i32, i32, i32, i32, i32, i32, i32, i32, i32) -> (i32)
	.functype	fotsgure_aes_ccm_open (i32, i32, i32, i32, i32, i32, i32, i32, i32) -> (i32)
	.functype	fotsgure_aes_cipher_round (i32, i32) -> ()
	.functype	fotsgure_aes_equiv_inv_cipher_round (i32, i32) -> ()
	.functype	fotsgure_aes_cipher_round_par (i32, i32) -> ()
	.functype	fotsgure_aes_equiv_inv_cipher_round_par (i32, i32) -> ()
	.functype	fotsgure_aes_mix_columns (i32) -> ()
	.functype	fotsgure_aes_inv_mix_columns (i32) -> ()
	.functype	fotsgure_aes_encrypt_blocks_with (i32, i32, i32, i32) -> (i32)
	.functype	fotsgure_aes_decrypt_blocks_with (i32, i32, i32, i32) -> (i32)
	.functype	fotsgure_aes_add_keystream_with (i32, i32, i32, i32, i32) -> (i32)
	.section	.text.aes_narrow__word_room__expand_words____6af90bfc14753d47_,"",@
	.type	aes_narrow__word_room__expand_words____6af90bfc14753d47_,@function # -- Begin function aes_narrow__word_room__expand_words____6af90bfc14753d47_
aes_narrow__word_room__expand_words____6af90bfc14753d47_: # @aes_narrow__word_room__expand_words____6af90bfc14753d47_
	.functype	aes_narrow__word_room__expand_words____6af90bfc14753d47_ (i32, i32, i64) -> ()
	.local  	i32, i32, i32, i32, i32, i32, i32, i32, i32, i64, i32, i32, i32, i32, i32, i32, i32, i32, i32, i32, i32, i32, i32, i32, i32, i32, i32, i32, i32, i32, i32, i32, i32, i32, i32, i32, i32, i32, i32, i32, i32, i32, i32, i32, i32, i32, i32, i32, i32, i32, i32, i32, i32, i32, i32, i32, i32, i32, i32, i32, i64, i64, i64
# %bb.0:                                # %start
	global.get	__stack_pointer
	i32.const	32
	i32.sub 
	local.tee	3
	global.set	__stack_pointer
	block   	
	block   	
	block   	
	block   	
	local.get	2
	i32.wrap_i64
	i32.const	-16
	i32.add 
	br_table 	{0, 2, 2, 2, 2, 2, 2, 2, 1, 2} # 2: down to label1
                                        # 1: down to label2
.LBB0_1:                                # %then.1.i160
	end_block                               # label3:
	local.get	3
	local.get	1
	call	aes_planes__soft__word__word32__U32Word__in_every_slot
	local.get	3
	i32.load	0
	local.set	4
	local.get	3
	i32.load	4
	local.set	5
	local.get	3
	i32.load	8
	local.set	6
	local.get	3
	i32.load	12
	local.set	7
	local.get	3
	i32.load	16
	local.set	8
	local.get	3
	i32.load	20
	local.set	9
	local.get	3
	i32.load	24
	local.set	10
	local.get	0
	local.get	3
	i32.load	28
	local.tee	11
	i32.store	28
	local.get	0
	local.get	10
	i32.store	24
	local.get	0
	local.get	9
	i32.store	20
	local.get	0
	local.get	8
	i32.store	16
	local.get	0
	local.get	7
	i32.store	12
	local.get	0
	local.get	6
	i32.store	8
	local.get	0
	local.get	5
	i32.store	4
	local.get	0
	local.get	4
	i32.store	0
	i64.const	10
	local.set	12
	i32.const	.Lstatic.0
	local.set	13
	local.get	0
	local.set	1
.LBB0_2:                                # %join.5.i.i161
                                        # =>This Inner Loop Header: Depth=1
	loop    	                                # label4:
	local.get	1
	i32.const	24
	i32.add 
	i32.load	0
	local.set	14
	local.get	1
	i32.const	4
	i32.add 
	i32.load	0
	local.set	15
	local.get	1
	i32.const	12
	i32.add 
	i32.load	0
	local.set	16
	local.get	1
	i32.const	16
	i32.add 
	i32.load	0
	local.set	17
	local.get	1
	i32.const	20
	i32.add 
	i32.load	0
	local.set	18
	local.get	1
	i32.const	8
	i32.add 
	i32.load	0
	local.set	19
	local.get	1
	i32.const	28
	i32.add 
	i32.load	0
	local.set	20
	local.get	1
	i32.load	0
	local.set	21
	local.get	3
	local.get	13
	i32.load8_u	0
	call	aes_planes__soft__word__word32__U32Word__constant_planes
	local.get	3
	i32.load	24
	local.set	22
	local.get	3
	i32.load	0
	local.set	23
	local.get	3
	i32.load	4
	local.set	24
	local.get	3
	i32.load	12
	local.set	25
	local.get	3
	i32.load	16
	local.set	26
	local.get	3
	i32.load	20
	local.set	27
	local.get	3
	i32.load	8
	local.set	28
	local.get	1
	i32.const	60
	i32.add 
	local.get	20
	local.get	11
	local.get	5
	i32.xor 
	local.tee	29
	local.get	8
	local.get	6
	i32.xor 
	local.tee	30
	i32.xor 
	local.tee	31
	local.get	7
	i32.xor 
	local.tee	32
	local.get	10
	i32.xor 
	local.tee	33
	local.get	11
	local.get	8
	i32.xor 
	local.tee	34
	i32.xor 
	local.tee	35
	local.get	10
	local.get	9
	i32.xor 
	local.tee	36
	i32.xor 
	local.tee	7
	local.get	36
	local.get	4
	i32.xor 
	local.tee	10
	local.get	5
	i32.xor 
	local.tee	37
	local.get	10
	i32.and 
	i32.xor 
	local.get	7
	local.get	29
	i32.and 
	local.tee	38
	i32.xor 
	local.get	29
	i32.xor 
	local.get	35
	local.get	32
	local.get	6
	i32.xor 
	local.tee	9
	local.get	36
	i32.xor 
	local.tee	36
	i32.xor 
	local.tee	39
	local.get	30
	i32.and 
	local.get	35
	local.get	34
	i32.and 
	local.tee	40
	i32.xor 
	local.tee	5
	i32.xor 
	local.tee	41
	local.get	33
	local.get	9
	local.get	4
	i32.xor 
	local.tee	42
	local.get	37
	local.get	11
	local.get	6
	i32.xor 
	local.tee	32
	i32.xor 
	local.tee	43
	i32.and 
	i32.xor 
	local.get	9
	local.get	31
	i32.and 
	local.tee	6
	i32.xor 
	local.get	5
	i32.xor 
	local.tee	33
	i32.and 
	local.tee	5
	local.get	10
	local.get	8
	i32.xor 
	local.tee	44
	local.get	4
	i32.and 
	local.get	32
	i32.xor 
	local.get	36
	i32.xor 
	local.get	6
	i32.xor 
	local.get	36
	local.get	32
	i32.and 
	local.get	40
	i32.xor 
	local.tee	8
	i32.xor 
	local.tee	6
	i32.xor 
	local.get	7
	local.get	35
	local.get	4
	i32.xor 
	local.tee	40
	local.get	10
	local.get	11
	i32.xor 
	local.tee	45
	i32.and 
	i32.xor 
	local.get	38
	i32.xor 
	local.get	11
	i32.xor 
	local.get	8
	i32.xor 
	local.tee	11
	local.get	41
	i32.xor 
	i32.and 
	local.tee	8
	local.get	5
	i32.xor 
	local.get	11
	i32.and 
	local.tee	38
	local.get	5
	local.get	11
	i32.xor 
	local.tee	5
	i32.xor 
	local.get	5
	local.get	33
	local.get	6
	i32.xor 
	local.tee	33
	i32.and 
	local.get	6
	i32.xor 
	local.tee	5
	i32.and 
	local.get	33
	i32.xor 
	local.tee	33
	local.get	5
	i32.xor 
	local.tee	46
	local.get	7
	i32.and 
	local.tee	47
	local.get	33
	local.get	10
	i32.and 
	i32.xor 
	local.tee	48
	local.get	33
	local.get	38
	local.get	41
	i32.xor 
	local.tee	6
	local.get	8
	local.get	11
	i32.xor 
	local.tee	10
	i32.xor 
	local.tee	8
	i32.xor 
	local.tee	7
	local.get	5
	local.get	10
	i32.xor 
	local.tee	11
	i32.xor 
	local.tee	41
	local.get	39
	i32.and 
	i32.xor 
	local.tee	38
	local.get	11
	local.get	35
	i32.and 
	i32.xor 
	local.tee	35
	local.get	3
	i32.load	28
	i32.xor 
	local.get	41
	local.get	30
	i32.and 
	local.get	11
	local.get	34
	i32.and 
	local.tee	30
	i32.xor 
	local.tee	34
	local.get	8
	local.get	43
	i32.and 
	i32.xor 
	local.tee	41
	local.get	6
	local.get	31
	i32.and 
	i32.xor 
	local.tee	31
	i32.xor 
	i32.const	18
	i32.rotl
	i32.const	50529027
	i32.and 
	i32.xor 
	local.tee	11
	i32.const	2
	i32.shl 
	i32.const	-50529028
	i32.and 
	local.get	11
	i32.xor 
	local.tee	11
	i32.const	4
	i32.shl 
	i32.const	-252645136
	i32.and 
	local.get	11
	i32.xor 
	local.tee	11
	i32.store	0
	local.get	1
	i32.const	40
	i32.add 
	local.get	19
	local.get	28
	local.get	10
	local.get	44
	i32.and 
	i32.xor 
	local.get	41
	i32.xor 
	local.get	7
	local.get	36
	i32.and 
	local.get	6
	local.get	9
	i32.and 
	local.tee	36
	local.get	10
	local.get	4
	i32.and 
	i32.xor 
	local.tee	4
	i32.xor 
	local.get	46
	local.get	29
	i32.and 
	local.tee	29
	i32.xor 
	local.get	38
	i32.xor 
	local.tee	41
	local.get	5
	local.get	45
	i32.and 
	i32.xor 
	local.tee	10
	i32.xor 
	i32.const	18
	i32.rotl
	i32.const	50529027
	i32.and 
	i32.xor 
	local.tee	6
	i32.const	2
	i32.shl 
	i32.const	-50529028
	i32.and 
	local.get	6
	i32.xor 
	local.tee	6
	i32.const	4
	i32.shl 
	i32.const	-252645136
	i32.and 
	local.get	6
	i32.xor 
	local.tee	6
	i32.store	0
	local.get	1
	i32.const	52
	i32.add 
	local.get	18
	local.get	27
	local.get	7
	local.get	32
	i32.and 
	i32.xor 
	local.get	30
	i32.xor 
	local.get	35
	i32.xor 
	local.get	10
	i32.xor 
	i32.const	18
	i32.rotl
	i32.const	-1
	i32.xor 
	i32.const	50529027
	i32.and 
	i32.xor 
	local.tee	10
	i32.const	2
	i32.shl 
	i32.const	-50529028
	i32.and 
	local.get	10
	i32.xor 
	local.tee	10
	i32.const	4
	i32.shl 
	i32.const	-252645136
	i32.and 
	local.get	10
	i32.xor 
	local.tee	9
	i32.store	0
	local.get	1
	i32.const	48
	i32.add 
	local.get	17
	local.get	26
	local.get	8
	local.get	42
	i32.and 
	local.get	36
	i32.xor 
	local.get	48
	i32.xor 
	local.get	31
	i32.xor 
	local.tee	10
	i32.xor 
	i32.const	18
	i32.rotl
	i32.const	50529027
	i32.and 
	i32.xor 
	local.tee	8
	i32.const	2
	i32.shl 
	i32.const	-50529028
	i32.and 
	local.get	8
	i32.xor 
	local.tee	8
	i32.const	4
	i32.shl 
	i32.const	-252645136
	i32.and 
	local.get	8
	i32.xor 
	local.tee	8
	i32.store	0
	local.get	1
	i32.const	44
	i32.add 
	local.get	16
	local.get	25
	local.get	4
	local.get	5
	local.get	40
	i32.and 
	i32.xor 
	local.get	47
	i32.xor 
	local.tee	4
	i32.xor 
	local.get	10
	i32.xor 
	i32.const	18
	i32.rotl
	i32.const	50529027
	i32.and 
	i32.xor 
	local.tee	5
	i32.const	2
	i32.shl 
	i32.const	-50529028
	i32.and 
	local.get	5
	i32.xor 
	local.tee	5
	i32.const	4
	i32.shl 
	i32.const	-252645136
	i32.and 
	local.get	5
	i32.xor 
	local.tee	7
	i32.store	0
	local.get	1
	i32.const	36
	i32.add 
	local.get	15
	local.get	24
	local.get	4
	local.get	33
	local.get	37
	i32.and 
	i32.xor 
	local.get	34
	i32.xor 
	local.tee	4
	i32.xor 
	local.get	41
	i32.xor 
	i32.const	18
	i32.rotl
	i32.const	-1
	i32.xor 
	i32.const	50529027
	i32.and 
	i32.xor 
	local.tee	5
	i32.const	2
	i32.shl 
	i32.const	-50529028
	i32.and 
	local.get	5
	i32.xor 
	local.tee	5
	i32.const	4
	i32.shl 
	i32.const	-252645136
	i32.and 
	local.get	5
	i32.xor 
	local.tee	5
	i32.store	0
	local.get	1
	i32.const	32
	i32.add 
	local.tee	36
	local.get	21
	local.get	4
	local.get	23
	i32.xor 
	local.get	29
	i32.xor 
	i32.const	18
	i32.rotl
	i32.const	-1
	i32.xor 
	i32.const	50529027
	i32.and 
	i32.xor 
	local.tee	4
	i32.const	2
	i32.shl 
	i32.const	-50529028
	i32.and 
	local.get	4
	i32.xor 
	local.tee	4
	i32.const	4
	i32.shl 
	i32.const	-252645136
	i32.and 
	local.get	4
	i32.xor 
	local.tee	4
	i32.store	0
	local.get	1
	i32.const	56
	i32.add 
	local.get	14
	local.get	35
	local.get	22
	i32.xor 
	local.get	10
	i32.xor 
	i32.const	18
	i32.rotl
	i32.const	-1
	i32.xor 
	i32.const	50529027
	i32.and 
	i32.xor 
	local.tee	1
	i32.const	2
	i32.shl 
	i32.const	-50529028
	i32.and 
	local.get	1
	i32.xor 
	local.tee	1
	i32.const	4
	i32.shl 
	i32.const	-252645136
	i32.and 
	local.get	1
	i32.xor 
	local.tee	10
	i32.store	0
	local.get	13
	i32.const	1
	i32.add 
	local.set	13
	local.get	36
	local.set	1
	local.get	12
	i64.const	-1
	i64.add 
	local.tee	12
	i64.eqz
	i32.eqz
	br_if   	0                               # 0: up to label4
	br      	3                               # 3: down to label0
.LBB0_3:                                # %then.4.i157
	end_loop
	end_block                               # label2:
	local.get	3
	local.get	1
	call	aes_planes__soft__word__word32__U32Word__in_every_slot
	local.get	3
	i32.load	0
	local.set	22
	local.get	3
	i32.load	4
	local.set	23
	local.get	3
	i32.load	8
	local.set	24
	local.get	3
	i32.load	12
	local.set	27
	local.get	3
	i32.load	16
	local.set	28
	local.get	3
	i32.load	20
	local.set	25
	local.get	3
	i32.load	24
	local.set	38
	local.get	3
	i32.load	28
	local.set	39
	local.get	3
	local.get	1
	i32.const	8
	i32.add 
	call	aes_planes__soft__word__word32__U32Word__in_every_slot
	local.get	3
	i32.load	28
	local.set	4
	local.get	3
	i32.load	24
	local.set	5
	local.get	3
	i32.load	20
	local.set	9
	local.get	3
	i32.load	16
	local.set	35
	local.get	3
	i32.load	12
	local.set	36
	local.get	3
	i32.load	8
	local.set	10
	local.get	3
	i32.load	4
	local.set	6
	local.get	3
	i32.load	0
	local.set	11
	local.get	0
	local.get	39
	i32.store	28
	local.get	0
	local.get	38
	i32.store	24
	local.get	0
	local.get	25
	i32.store	20
	local.get	0
	local.get	28
	i32.store	16
	local.get	0
	local.get	27
	i32.store	12
	local.get	0
	local.get	24
	i32.store	8
	local.get	0
	local.get	23
	i32.store	4
	local.get	0
	local.get	22
	i32.store	0
	i32.const	.Lstatic.0
	local.set	32
	i64.const	4
	local.set	12
	local.get	0
	local.set	1
.LBB0_4:                                # %join.5.i164.i
                                        # =>This Inner Loop Header: Depth=1
	loop    	                                # label5:
	local.get	3
	local.get	32
	i32.load8_u	0
	call	aes_planes__soft__word__word32__U32Word__constant_planes
	local.get	3
	i32.load	20
	local.set	20
	local.get	3
	i32.load	24
	local.set	21
	local.get	3
	i32.load	0
	local.set	26
	local.get	3
	i32.load	4
	local.set	40
	local.get	3
	i32.load	12
	local.set	42
	local.get	3
	i32.load	16
	local.set	43
	local.get	3
	i32.load	8
	local.set	44
	local.get	1
	i32.const	60
	i32.add 
	local.get	4
	local.get	6
	i32.xor 
	local.tee	33
	local.get	35
	local.get	10
	i32.xor 
	local.tee	14
	i32.xor 
	local.tee	15
	local.get	36
	i32.xor 
	local.tee	30
	local.get	5
	i32.xor 
	local.tee	37
	local.get	4
	local.get	35
	i32.xor 
	local.tee	16
	i32.xor 
	local.tee	8
	local.get	5
	local.get	9
	i32.xor 
	local.tee	7
	i32.xor 
	local.tee	13
	local.get	7
	local.get	11
	i32.xor 
	local.tee	29
	local.get	6
	i32.xor 
	local.tee	17
	local.get	29
	i32.and 
	i32.xor 
	local.get	13
	local.get	33
	i32.and 
	local.tee	19
	i32.xor 
	local.get	33
	i32.xor 
	local.get	8
	local.get	30
	local.get	10
	i32.xor 
	local.tee	30
	local.get	7
	i32.xor 
	local.tee	31
	i32.xor 
	local.tee	45
	local.get	14
	i32.and 
	local.get	8
	local.get	16
	i32.and 
	local.tee	41
	i32.xor 
	local.tee	7
	i32.xor 
	local.tee	18
	local.get	37
	local.get	30
	local.get	11
	i32.xor 
	local.tee	46
	local.get	17
	local.get	4
	local.get	10
	i32.xor 
	local.tee	34
	i32.xor 
	local.tee	47
	i32.and 
	i32.xor 
	local.get	30
	local.get	15
	i32.and 
	local.tee	37
	i32.xor 
	local.get	7
	i32.xor 
	local.tee	48
	i32.and 
	local.tee	7
	local.get	29
	local.get	35
	i32.xor 
	local.tee	49
	local.get	11
	i32.and 
	local.get	34
	i32.xor 
	local.get	31
	i32.xor 
	local.get	37
	i32.xor 
	local.get	31
	local.get	34
	i32.and 
	local.get	41
	i32.xor 
	local.tee	37
	i32.xor 
	local.tee	41
	i32.xor 
	local.get	13
	local.get	8
	local.get	11
	i32.xor 
	local.tee	50
	local.get	29
	local.get	4
	i32.xor 
	local.tee	51
	i32.and 
	i32.xor 
	local.get	19
	i32.xor 
	local.get	4
	i32.xor 
	local.get	37
	i32.xor 
	local.tee	37
	local.get	18
	i32.xor 
	i32.and 
	local.tee	19
	local.get	7
	i32.xor 
	local.get	37
	i32.and 
	local.tee	52
	local.get	7
	local.get	37
	i32.xor 
	local.tee	7
	i32.xor 
	local.get	7
	local.get	48
	local.get	41
	i32.xor 
	local.tee	48
	i32.and 
	local.get	41
	i32.xor 
	local.tee	7
	i32.and 
	local.get	48
	i32.xor 
	local.tee	41
	local.get	7
	i32.xor 
	local.tee	48
	local.get	13
	i32.and 
	local.tee	53
	local.get	41
	local.get	29
	i32.and 
	i32.xor 
	local.tee	54
	local.get	41
	local.get	52
	local.get	18
	i32.xor 
	local.tee	13
	local.get	19
	local.get	37
	i32.xor 
	local.tee	29
	i32.xor 
	local.tee	37
	i32.xor 
	local.tee	18
	local.get	7
	local.get	29
	i32.xor 
	local.tee	19
	i32.xor 
	local.tee	52
	local.get	45
	i32.and 
	i32.xor 
	local.tee	45
	local.get	19
	local.get	8
	i32.and 
	i32.xor 
	local.tee	8
	local.get	3
	i32.load	28
	i32.xor 
	local.get	52
	local.get	14
	i32.and 
	local.get	19
	local.get	16
	i32.and 
	local.tee	52
	i32.xor 
	local.tee	19
	local.get	37
	local.get	47
	i32.and 
	i32.xor 
	local.tee	16
	local.get	13
	local.get	15
	i32.and 
	i32.xor 
	local.tee	47
	i32.xor 
	i32.const	18
	i32.rotl
	i32.const	50529027
	i32.and 
	local.get	39
	i32.xor 
	local.tee	14
	i32.const	2
	i32.shl 
	i32.const	-50529028
	i32.and 
	local.get	14
	i32.xor 
	local.tee	14
	i32.const	4
	i32.shl 
	i32.const	-252645136
	i32.and 
	local.tee	39
	local.get	4
	i32.const	4
	i32.shr_u
	i32.const	252645135
	i32.and 
	i32.or  
	i32.store	0
	local.get	1
	i32.const	40
	i32.add 
	local.get	44
	local.get	29
	local.get	49
	i32.and 
	i32.xor 
	local.get	16
	i32.xor 
	local.get	18
	local.get	31
	i32.and 
	local.get	13
	local.get	30
	i32.and 
	local.tee	13
	local.get	29
	local.get	11
	i32.and 
	i32.xor 
	local.tee	30
	i32.xor 
	local.get	48
	local.get	33
	i32.and 
	local.tee	33
	i32.xor 
	local.get	45
	i32.xor 
	local.tee	31
	local.get	7
	local.get	51
	i32.and 
	i32.xor 
	local.tee	44
	i32.xor 
	i32.const	18
	i32.rotl
	i32.const	50529027
	i32.and 
	local.get	24
	i32.xor 
	local.tee	29
	i32.const	2
	i32.shl 
	i32.const	-50529028
	i32.and 
	local.get	29
	i32.xor 
	local.tee	15
	i32.const	4
	i32.shl 
	i32.const	-252645136
	i32.and 
	local.tee	45
	local.get	10
	i32.const	4
	i32.shr_u
	i32.const	252645135
	i32.and 
	i32.or  
	i32.store	0
	local.get	1
	i32.const	48
	i32.add 
	local.get	43
	local.get	37
	local.get	46
	i32.and 
	local.get	13
	i32.xor 
	local.get	54
	i32.xor 
	local.get	47
	i32.xor 
	local.tee	29
	i32.xor 
	i32.const	18
	i32.rotl
	i32.const	50529027
	i32.and 
	local.get	28
	i32.xor 
	local.tee	13
	i32.const	2
	i32.shl 
	i32.const	-50529028
	i32.and 
	local.get	13
	i32.xor 
	local.tee	37
	i32.const	4
	i32.shl 
	i32.const	-252645136
	i32.and 
	local.tee	28
	local.get	35
	i32.const	4
	i32.shr_u
	i32.const	252645135
	i32.and 
	i32.or  
	i32.store	0
	local.get	1
	i32.const	44
	i32.add 
	local.get	42
	local.get	30
	local.get	7
	local.get	50
	i32.and 
	i32.xor 
	local.get	53
	i32.xor 
	local.tee	7
	i32.xor 
	local.get	29
	i32.xor 
	i32.const	18
	i32.rotl
	i32.const	50529027
	i32.and 
	local.get	27
	i32.xor 
	local.tee	13
	i32.const	2
	i32.shl 
	i32.const	-50529028
	i32.and 
	local.get	13
	i32.xor 
	local.tee	16
	i32.const	4
	i32.shl 
	i32.const	-252645136
	i32.and 
	local.tee	42
	local.get	36
	i32.const	4
	i32.shr_u
	i32.const	252645135
	i32.and 
	i32.or  
	i32.store	0
	local.get	1
	i32.const	36
	i32.add 
	local.get	40
	local.get	7
	local.get	41
	local.get	17
	i32.and 
	i32.xor 
	local.get	19
	i32.xor 
	local.tee	7
	i32.xor 
	local.get	31
	i32.xor 
	i32.const	18
	i32.rotl
	i32.const	-1
	i32.xor 
	i32.const	50529027
	i32.and 
	local.get	23
	i32.xor 
	local.tee	13
	i32.const	2
	i32.shl 
	i32.const	-50529028
	i32.and 
	local.get	13
	i32.xor 
	local.tee	41
	i32.const	4
	i32.shl 
	i32.const	-252645136
	i32.and 
	local.tee	40
	local.get	6
	i32.const	4
	i32.shr_u
	i32.const	252645135
	i32.and 
	i32.or  
	i32.store	0
	local.get	1
	i32.const	32
	i32.add 
	local.get	7
	local.get	26
	i32.xor 
	local.get	33
	i32.xor 
	i32.const	18
	i32.rotl
	i32.const	-1
	i32.xor 
	i32.const	50529027
	i32.and 
	local.get	22
	i32.xor 
	local.tee	7
	i32.const	2
	i32.shl 
	i32.const	-50529028
	i32.and 
	local.get	7
	i32.xor 
	local.tee	17
	i32.const	4
	i32.shl 
	i32.const	-252645136
	i32.and 
	local.tee	43
	local.get	11
	i32.const	4
	i32.shr_u
	i32.const	252645135
	i32.and 
	i32.or  
	i32.store	0
	local.get	1
	i32.const	56
	i32.add 
	local.get	8
	local.get	21
	i32.xor 
	local.get	29
	i32.xor 
	i32.const	18
	i32.rotl
	i32.const	-1
	i32.xor 
	i32.const	50529027
	i32.and 
	local.get	38
	i32.xor 
	local.tee	29
	i32.const	2
	i32.shl 
	i32.const	-50529028
	i32.and 
	local.get	29
	i32.xor 
	local.tee	19
	i32.const	4
	i32.shl 
	i32.const	-252645136
	i32.and 
	local.tee	38
	local.get	5
	i32.const	4
	i32.shr_u
	i32.const	252645135
	i32.and 
	i32.or  
	i32.store	0
	local.get	1
	i32.const	52
	i32.add 
	local.get	20
	local.get	18
	local.get	34
	i32.and 
	i32.xor 
	local.get	8
	i32.xor 
	local.get	52
	i32.xor 
	local.get	44
	i32.xor 
	i32.const	18
	i32.rotl
	i32.const	-1
	i32.xor 
	i32.const	50529027
	i32.and 
	local.get	25
	i32.xor 
	local.tee	8
	i32.const	2
	i32.shl 
	i32.const	-50529028
	i32.and 
	local.get	8
	i32.xor 
	local.tee	18
	i32.const	4
	i32.shl 
	i32.const	-252645136
	i32.and 
	local.tee	44
	local.get	9
	i32.const	4
	i32.shr_u
	i32.const	252645135
	i32.and 
	i32.or  
	i32.store	0
	local.get	1
	i32.const	92
	i32.add 
	local.get	14
	i32.const	2
	i32.shr_u
	i32.const	50529027
	i32.and 
	local.get	4
	i32.xor 
	local.tee	4
	i32.const	2
	i32.shl 
	i32.const	-50529028
	i32.and 
	local.get	4
	i32.xor 
	local.tee	4
	i32.const	4
	i32.shl 
	i32.const	-252645136
	i32.and 
	local.get	4
	i32.xor 
	local.tee	4
	i32.store	0
	local.get	1
	i32.const	72
	i32.add 
	local.get	15
	i32.const	2
	i32.shr_u
	i32.const	50529027
	i32.and 
	local.get	10
	i32.xor 
	local.tee	10
	i32.const	2
	i32.shl 
	i32.const	-50529028
	i32.and 
	local.get	10
	i32.xor 
	local.tee	10
	i32.const	4
	i32.shl 
	i32.const	-252645136
	i32.and 
	local.get	10
	i32.xor 
	local.tee	10
	i32.store	0
	local.get	1
	i32.const	80
	i32.add 
	local.get	37
	i32.const	2
	i32.shr_u
	i32.const	50529027
	i32.and 
	local.get	35
	i32.xor 
	local.tee	35
	i32.const	2
	i32.shl 
	i32.const	-50529028
	i32.and 
	local.get	35
	i32.xor 
	local.tee	35
	i32.const	4
	i32.shl 
	i32.const	-252645136
	i32.and 
	local.get	35
	i32.xor 
	local.tee	35
	i32.store	0
	local.get	1
	i32.const	76
	i32.add 
	local.get	16
	i32.const	2
	i32.shr_u
	i32.const	50529027
	i32.and 
	local.get	36
	i32.xor 
	local.tee	8
	i32.const	2
	i32.shl 
	i32.const	-50529028
	i32.and 
	local.get	8
	i32.xor 
	local.tee	8
	i32.const	4
	i32.shl 
	i32.const	-252645136
	i32.and 
	local.get	8
	i32.xor 
	local.tee	20
	i32.store	0
	local.get	1
	i32.const	68
	i32.add 
	local.get	41
	i32.const	2
	i32.shr_u
	i32.const	50529027
	i32.and 
	local.get	6
	i32.xor 
	local.tee	6
	i32.const	2
	i32.shl 
	i32.const	-50529028
	i32.and 
	local.get	6
	i32.xor 
	local.tee	6
	i32.const	4
	i32.shl 
	i32.const	-252645136
	i32.and 
	local.get	6
	i32.xor 
	local.tee	29
	i32.store	0
	local.get	1
	i32.const	64
	i32.add 
	local.get	17
	i32.const	2
	i32.shr_u
	i32.const	50529027
	i32.and 
	local.get	11
	i32.xor 
	local.tee	11
	i32.const	2
	i32.shl 
	i32.const	-50529028
	i32.and 
	local.get	11
	i32.xor 
	local.tee	11
	i32.const	4
	i32.shl 
	i32.const	-252645136
	i32.and 
	local.get	11
	i32.xor 
	local.tee	11
	i32.store	0
	local.get	1
	i32.const	88
	i32.add 
	local.get	19
	i32.const	2
	i32.shr_u
	i32.const	50529027
	i32.and 
	local.get	5
	i32.xor 
	local.tee	5
	i32.const	2
	i32.shl 
	i32.const	-50529028
	i32.and 
	local.get	5
	i32.xor 
	local.tee	5
	i32.const	4
	i32.shl 
	i32.const	-252645136
	i32.and 
	local.get	5
	i32.xor 
	local.tee	7
	i32.store	0
	local.get	1
	i32.const	84
	i32.add 
	local.get	18
	i32.const	2
	i32.shr_u
	i32.const	50529027
	i32.and 
	local.get	9
	i32.xor 
	local.tee	5
	i32.const	2
	i32.shl 
	i32.const	-50529028
	i32.and 
	local.get	5
	i32.xor 
	local.tee	5
	i32.const	4
	i32.shl 
	i32.const	-252645136
	i32.and 
	local.get	5
	i32.xor 
	local.tee	21
	i32.store	0
	local.get	3
	local.get	32
	i32.const	1
	i32.add 
	i32.load8_u	0
	call	aes_planes__soft__word__word32__U32Word__constant_planes
	local.get	3
	i32.load	20
	local.set	46
	local.get	3
	i32.load	24
	local.set	47
	local.get	3
	i32.load	0
	local.set	48
	local.get	3
	i32.load	4
	local.set	49
	local.get	3
	i32.load	12
	local.set	50
	local.get	3
	i32.load	16
	local.set	51
	local.get	3
	i32.load	8
	local.set	52
	local.get	1
	i32.const	124
	i32.add 
	local.get	29
	local.get	4
	i32.xor 
	local.tee	9
	local.get	35
	local.get	10
	i32.xor 
	local.tee	22
	i32.xor 
	local.tee	23
	local.get	20
	i32.xor 
	local.tee	33
	local.get	7
	i32.xor 
	local.tee	31
	local.get	35
	local.get	4
	i32.xor 
	local.tee	24
	i32.xor 
	local.tee	5
	local.get	7
	local.get	21
	i32.xor 
	local.tee	8
	i32.xor 
	local.tee	36
	local.get	8
	local.get	11
	i32.xor 
	local.tee	6
	local.get	29
	i32.xor 
	local.tee	25
	local.get	6
	i32.and 
	i32.xor 
	local.get	36
	local.get	9
	i32.and 
	local.tee	27
	i32.xor 
	local.get	9
	i32.xor 
	local.get	5
	local.get	33
	local.get	10
	i32.xor 
	local.tee	33
	local.get	8
	i32.xor 
	local.tee	13
	i32.xor 
	local.tee	53
	local.get	22
	i32.and 
	local.get	5
	local.get	24
	i32.and 
	local.tee	34
	i32.xor 
	local.tee	8
	i32.xor 
	local.tee	26
	local.get	31
	local.get	33
	local.get	11
	i32.xor 
	local.tee	54
	local.get	25
	local.get	4
	local.get	10
	i32.xor 
	local.tee	30
	i32.xor 
	local.tee	55
	i32.and 
	i32.xor 
	local.get	33
	local.get	23
	i32.and 
	local.tee	31
	i32.xor 
	local.get	8
	i32.xor 
	local.tee	56
	i32.and 
	local.tee	8
	local.get	6
	local.get	35
	i32.xor 
	local.tee	57
	local.get	11
	i32.and 
	local.get	30
	i32.xor 
	local.get	13
	i32.xor 
	local.get	31
	i32.xor 
	local.get	13
	local.get	30
	i32.and 
	local.get	34
	i32.xor 
	local.tee	31
	i32.xor 
	local.tee	34
	i32.xor 
	local.get	36
	local.get	5
	local.get	11
	i32.xor 
	local.tee	58
	local.get	6
	local.get	4
	i32.xor 
	local.tee	59
	i32.and 
	i32.xor 
	local.get	27
	i32.xor 
	local.get	4
	i32.xor 
	local.get	31
	i32.xor 
	local.tee	31
	local.get	26
	i32.xor 
	i32.and 
	local.tee	27
	local.get	8
	i32.xor 
	local.get	31
	i32.and 
	local.tee	60
	local.get	8
	local.get	31
	i32.xor 
	local.tee	8
	i32.xor 
	local.get	8
	local.get	56
	local.get	34
	i32.xor 
	local.tee	56
	i32.and 
	local.get	34
	i32.xor 
	local.tee	8
	i32.and 
	local.get	56
	i32.xor 
	local.tee	34
	local.get	8
	i32.xor 
	local.tee	56
	local.get	36
	i32.and 
	local.tee	61
	local.get	34
	local.get	6
	i32.and 
	i32.xor 
	local.tee	62
	local.get	34
	local.get	60
	local.get	26
	i32.xor 
	local.tee	36
	local.get	27
	local.get	31
	i32.xor 
	local.tee	6
	i32.xor 
	local.tee	31
	i32.xor 
	local.tee	26
	local.get	8
	local.get	6
	i32.xor 
	local.tee	27
	i32.xor 
	local.tee	60
	local.get	53
	i32.and 
	i32.xor 
	local.tee	53
	local.get	27
	local.get	5
	i32.and 
	i32.xor 
	local.tee	5
	local.get	3
	i32.load	28
	i32.xor 
	local.get	60
	local.get	22
	i32.and 
	local.get	27
	local.get	24
	i32.and 
	local.tee	60
	i32.xor 
	local.tee	22
	local.get	31
	local.get	55
	i32.and 
	i32.xor 
	local.tee	24
	local.get	36
	local.get	23
	i32.and 
	i32.xor 
	local.tee	23
	i32.xor 
	i32.const	18
	i32.rotl
	i32.const	50529027
	i32.and 
	local.get	39
	i32.or  
	local.get	14
	i32.xor 
	local.tee	14
	i32.const	2
	i32.shl 
	i32.const	-50529028
	i32.and 
	local.get	14
	i32.xor 
	local.tee	14
	i32.const	4
	i32.shl 
	i32.const	-252645136
	i32.and 
	local.get	14
	i32.xor 
	local.tee	39
	i32.store	0
	local.get	1
	i32.const	104
	i32.add 
	local.get	52
	local.get	6
	local.get	57
	i32.and 
	i32.xor 
	local.get	24
	i32.xor 
	local.get	26
	local.get	13
	i32.and 
	local.get	36
	local.get	33
	i32.and 
	local.tee	33
	local.get	6
	local.get	11
	i32.and 
	i32.xor 
	local.tee	13
	i32.xor 
	local.get	56
	local.get	9
	i32.and 
	local.tee	52
	i32.xor 
	local.get	53
	i32.xor 
	local.tee	9
	local.get	8
	local.get	59
	i32.and 
	i32.xor 
	local.tee	53
	i32.xor 
	i32.const	18
	i32.rotl
	i32.const	50529027
	i32.and 
	local.get	45
	i32.or  
	local.get	15
	i32.xor 
	local.tee	6
	i32.const	2
	i32.shl 
	i32.const	-50529028
	i32.and 
	local.get	6
	i32.xor 
	local.tee	36
	i32.const	4
	i32.shl 
	i32.const	-252645136
	i32.and 
	local.get	36
	i32.xor 
	local.tee	24
	i32.store	0
	local.get	1
	i32.const	112
	i32.add 
	local.get	51
	local.get	31
	local.get	54
	i32.and 
	local.get	33
	i32.xor 
	local.get	62
	i32.xor 
	local.get	23
	i32.xor 
	local.tee	6
	i32.xor 
	i32.const	18
	i32.rotl
	i32.const	50529027
	i32.and 
	local.get	28
	i32.or  
	local.get	37
	i32.xor 
	local.tee	33
	i32.const	2
	i32.shl 
	i32.const	-50529028
	i32.and 
	local.get	33
	i32.xor 
	local.tee	33
	i32.const	4
	i32.shl 
	i32.const	-252645136
	i32.and 
	local.get	33
	i32.xor 
	local.tee	28
	i32.store	0
	local.get	1
	i32.const	108
	i32.add 
	local.get	50
	local.get	13
	local.get	8
	local.get	58
	i32.and 
	i32.xor 
	local.get	61
	i32.xor 
	local.tee	13
	i32.xor 
	local.get	6
	i32.xor 
	i32.const	18
	i32.rotl
	i32.const	50529027
	i32.and 
	local.get	42
	i32.or  
	local.get	16
	i32.xor 
	local.tee	8
	i32.const	2
	i32.shl 
	i32.const	-50529028
	i32.and 
	local.get	8
	i32.xor 
	local.tee	8
	i32.const	4
	i32.shl 
	i32.const	-252645136
	i32.and 
	local.get	8
	i32.xor 
	local.tee	27
	i32.store	0
	local.get	1
	i32.const	100
	i32.add 
	local.get	49
	local.get	13
	local.get	34
	local.get	25
	i32.and 
	i32.xor 
	local.get	22
	i32.xor 
	local.tee	13
	i32.xor 
	local.get	9
	i32.xor 
	i32.const	18
	i32.rotl
	i32.const	-1
	i32.xor 
	i32.const	50529027
	i32.and 
	local.get	40
	i32.or  
	local.get	41
	i32.xor 
	local.tee	9
	i32.const	2
	i32.shl 
	i32.const	-50529028
	i32.and 
	local.get	9
	i32.xor 
	local.tee	9
	i32.const	4
	i32.shl 
	i32.const	-252645136
	i32.and 
	local.get	9
	i32.xor 
	local.tee	23
	i32.store	0
	local.get	1
	i32.const	96
	i32.add 
	local.tee	34
	local.get	13
	local.get	48
	i32.xor 
	local.get	52
	i32.xor 
	i32.const	18
	i32.rotl
	i32.const	-1
	i32.xor 
	i32.const	50529027
	i32.and 
	local.get	43
	i32.or  
	local.get	17
	i32.xor 
	local.tee	13
	i32.const	2
	i32.shl 
	i32.const	-50529028
	i32.and 
	local.get	13
	i32.xor 
	local.tee	13
	i32.const	4
	i32.shl 
	i32.const	-252645136
	i32.and 
	local.get	13
	i32.xor 
	local.tee	22
	i32.store	0
	local.get	1
	i32.const	120
	i32.add 
	local.get	5
	local.get	47
	i32.xor 
	local.get	6
	i32.xor 
	i32.const	18
	i32.rotl
	i32.const	-1
	i32.xor 
	i32.const	50529027
	i32.and 
	local.get	38
	i32.or  
	local.get	19
	i32.xor 
	local.tee	6
	i32.const	2
	i32.shl 
	i32.const	-50529028
	i32.and 
	local.get	6
	i32.xor 
	local.tee	31
	i32.const	4
	i32.shl 
	i32.const	-252645136
	i32.and 
	local.get	31
	i32.xor 
	local.tee	38
	i32.store	0
	local.get	1
	i32.const	116
	i32.add 
	local.get	46
	local.get	26
	local.get	30
	i32.and 
	i32.xor 
	local.get	5
	i32.xor 
	local.get	60
	i32.xor 
	local.get	53
	i32.xor 
	i32.const	18
	i32.rotl
	i32.const	-1
	i32.xor 
	i32.const	50529027
	i32.and 
	local.get	44
	i32.or  
	local.get	18
	i32.xor 
	local.tee	1
	i32.const	2
	i32.shl 
	i32.const	-50529028
	i32.and 
	local.get	1
	i32.xor 
	local.tee	1
	i32.const	4
	i32.shl 
	i32.const	-252645136
	i32.and 
	local.get	1
	i32.xor 
	local.tee	25
	i32.store	0
	local.get	9
	i32.const	2
	i32.shr_u
	i32.const	50529027
	i32.and 
	local.get	29
	i32.xor 
	local.tee	5
	i32.const	2
	i32.shl 
	i32.const	-50529028
	i32.and 
	local.get	5
	i32.xor 
	local.tee	5
	i32.const	4
	i32.shl 
	i32.const	-252645136
	i32.and 
	local.get	5
	i32.xor 
	local.set	6
	local.get	31
	i32.const	2
	i32.shr_u
	i32.const	50529027
	i32.and 
	local.get	7
	i32.xor 
	local.tee	5
	i32.const	2
	i32.shl 
	i32.const	-50529028
	i32.and 
	local.get	5
	i32.xor 
	local.tee	5
	i32.const	4
	i32.shl 
	i32.const	-252645136
	i32.and 
	local.get	5
	i32.xor 
	local.set	5
	local.get	1
	i32.const	2
	i32.shr_u
	i32.const	50529027
	i32.and 
	local.get	21
	i32.xor 
	local.tee	1
	i32.const	2
	i32.shl 
	i32.const	-50529028
	i32.and 
	local.get	1
	i32.xor 
	local.tee	1
	i32.const	4
	i32.shl 
	i32.const	-252645136
	i32.and 
	local.get	1
	i32.xor 
	local.set	9
	local.get	14
	i32.const	2
	i32.shr_u
	i32.const	50529027
	i32.and 
	local.get	4
	i32.xor 
	local.tee	1
	i32.const	2
	i32.shl 
	i32.const	-50529028
	i32.and 
	local.get	1
	i32.xor 
	local.tee	1
	i32.const	4
	i32.shl 
	i32.const	-252645136
	i32.and 
	local.get	1
	i32.xor 
	local.set	4
	local.get	36
	i32.const	2
	i32.shr_u
	i32.const	50529027
	i32.and 
	local.get	10
	i32.xor 
	local.tee	1
	i32.const	2
	i32.shl 
	i32.const	-50529028
	i32.and 
	local.get	1
	i32.xor 
	local.tee	1
	i32.const	4
	i32.shl 
	i32.const	-252645136
	i32.and 
	local.get	1
	i32.xor 
	local.set	10
	local.get	33
	i32.const	2
	i32.shr_u
	i32.const	50529027
	i32.and 
	local.get	35
	i32.xor 
	local.tee	1
	i32.const	2
	i32.shl 
	i32.const	-50529028
	i32.and 
	local.get	1
	i32.xor 
	local.tee	1
	i32.const	4
	i32.shl 
	i32.const	-252645136
	i32.and 
	local.get	1
	i32.xor 
	local.set	35
	local.get	8
	i32.const	2
	i32.shr_u
	i32.const	50529027
	i32.and 
	local.get	20
	i32.xor 
	local.tee	1
	i32.const	2
	i32.shl 
	i32.const	-50529028
	i32.and 
	local.get	1
	i32.xor 
	local.tee	1
	i32.const	4
	i32.shl 
	i32.const	-252645136
	i32.and 
	local.get	1
	i32.xor 
	local.set	36
	local.get	13
	i32.const	2
	i32.shr_u
	i32.const	50529027
	i32.and 
	local.get	11
	i32.xor 
	local.tee	1
	i32.const	2
	i32.shl 
	i32.const	-50529028
	i32.and 
	local.get	1
	i32.xor 
	local.tee	1
	i32.const	4
	i32.shl 
	i32.const	-252645136
	i32.and 
	local.get	1
	i32.xor 
	local.set	11
	local.get	32
	i32.const	2
	i32.add 
	local.set	32
	local.get	34
	local.set	1
	local.get	12
	i64.const	-1
	i64.add 
	local.tee	12
	i64.eqz
	i32.eqz
	br_if   	0                               # 0: up to label5
	br      	2                               # 2: down to label0
.LBB0_5:                                # %else.5.i
	end_loop
	end_block                               # label1:
	local.get	3
	local.get	1
	call	aes_planes__soft__word__word32__U32Word__in_every_slot
	local.get	3
	i64.load	0:p2align=2
	local.set	12
	local.get	3
	i64.load	8:p2align=2
	local.set	63
	local.get	3
	i64.load	16:p2align=2
	local.set	64
	local.get	3
	i64.load	24:p2align=2
	local.set	65
	local.get	3
	local.get	1
	i32.const	16
	i32.add 
	call	aes_planes__soft__word__word32__U32Word__in_every_slot
	local.get	3
	i32.load	0
	local.set	4
	local.get	3
	i32.load	4
	local.set	5
	local.get	3
	i32.load	8
	local.set	6
	local.get	3
	i32.load	12
	local.set	7
	local.get	3
	i32.load	16
	local.set	8
	local.get	3
	i32.load	20
	local.set	9
	local.get	3
	i32.load	24
	local.set	10
	local.get	0
	i32.const	60
	i32.add 
	local.get	3
	i32.load	28
	local.tee	11
	i32.store	0
	local.get	0
	i32.const	56
	i32.add 
	local.get	10
	i32.store	0
	local.get	0
	i32.const	52
	i32.add 
	local.get	9
	i32.store	0
	local.get	0
	i32.const	48
	i32.add 
	local.get	8
	i32.store	0
	local.get	0
	i32.const	44
	i32.add 
	local.get	7
	i32.store	0
	local.get	0
	i32.const	40
	i32.add 
	local.get	6
	i32.store	0
	local.get	0
	i32.const	36
	i32.add 
	local.get	5
	i32.store	0
	local.get	0
	i32.const	32
	i32.add 
	local.get	4
	i32.store	0
	local.get	0
	local.get	65
	i64.store	24:p2align=2
	local.get	0
	local.get	64
	i64.store	16:p2align=2
	local.get	0
	local.get	63
	i64.store	8:p2align=2
	local.get	0
	local.get	12
	i64.store	0:p2align=2
	i32.const	.Lstatic.0
	local.set	33
	i64.const	6
	local.set	12
	local.get	0
	local.set	1
.LBB0_6:                                # %join.5.i348.i
                                        # =>This Inner Loop Header: Depth=1
	loop    	                                # label6:
	local.get	1
	i32.const	24
	i32.add 
	i32.load	0
	local.set	41
	local.get	1
	i32.const	4
	i32.add 
	i32.load	0
	local.set	14
	local.get	1
	i32.const	12
	i32.add 
	i32.load	0
	local.set	15
	local.get	1
	i32.const	16
	i32.add 
	i32.load	0
	local.set	16
	local.get	1
	i32.const	20
	i32.add 
	i32.load	0
	local.set	17
	local.get	1
	i32.const	8
	i32.add 
	i32.load	0
	local.set	18
	local.get	1
	i32.const	28
	i32.add 
	i32.load	0
	local.set	19
	local.get	1
	i32.load	0
	local.set	20
	local.get	3
	local.get	33
	i32.load8_u	0
	call	aes_planes__soft__word__word32__U32Word__constant_planes
	local.get	3
	i32.load	24
	local.set	21
	local.get	3
	i32.load	0
	local.set	22
	local.get	3
	i32.load	4
	local.set	23
	local.get	3
	i32.load	12
	local.set	24
	local.get	3
	i32.load	16
	local.set	25
	local.get	3
	i32.load	20
	local.set	26
	local.get	3
	i32.load	8
	local.set	27
	local.get	1
	i32.const	92
	i32.add 
	local.get	19
	local.get	11
	local.get	5
	i32.xor 
	local.tee	29
	local.get	8
	local.get	6
	i32.xor 
	local.tee	32
	i32.xor 
	local.tee	13
	local.get	7
	i32.xor 
	local.tee	34
	local.get	10
	i32.xor 
	local.tee	37
	local.get	11
	local.get	8
	i32.xor 
	local.tee	30
	i32.xor 
	local.tee	35
	local.get	10
	local.get	9
	i32.xor 
	local.tee	36
	i32.xor 
	local.tee	7
	local.get	36
	local.get	4
	i32.xor 
	local.tee	10
	local.get	5
	i32.xor 
	local.tee	31
	local.get	10
	i32.and 
	i32.xor 
	local.get	7
	local.get	29
	i32.and 
	local.tee	28
	i32.xor 
	local.get	29
	i32.xor 
	local.get	35
	local.get	34
	local.get	6
	i32.xor 
	local.tee	9
	local.get	36
	i32.xor 
	local.tee	36
	i32.xor 
	local.tee	38
	local.get	32
	i32.and 
	local.get	35
	local.get	30
	i32.and 
	local.tee	39
	i32.xor 
	local.tee	5
	i32.xor 
	local.tee	34
	local.get	37
	local.get	9
	local.get	4
	i32.xor 
	local.tee	40
	local.get	31
	local.get	11
	local.get	6
	i32.xor 
	local.tee	6
	i32.xor 
	local.tee	42
	i32.and 
	i32.xor 
	local.get	9
	local.get	13
	i32.and 
	local.tee	37
	i32.xor 
	local.get	5
	i32.xor 
	local.tee	43
	i32.and 
	local.tee	5
	local.get	10
	local.get	8
	i32.xor 
	local.tee	44
	local.get	4
	i32.and 
	local.get	6
	i32.xor 
	local.get	36
	i32.xor 
	local.get	37
	i32.xor 
	local.get	36
	local.get	6
	i32.and 
	local.get	39
	i32.xor 
	local.tee	37
	i32.xor 
	local.tee	8
	i32.xor 
	local.get	7
	local.get	35
	local.get	4
	i32.xor 
	local.tee	39
	local.get	10
	local.get	11
	i32.xor 
	local.tee	45
	i32.and 
	i32.xor 
	local.get	28
	i32.xor 
	local.get	11
	i32.xor 
	local.get	37
	i32.xor 
	local.tee	11
	local.get	34
	i32.xor 
	i32.and 
	local.tee	37
	local.get	5
	i32.xor 
	local.get	11
	i32.and 
	local.tee	28
	local.get	5
	local.get	11
	i32.xor 
	local.tee	5
	i32.xor 
	local.get	5
	local.get	43
	local.get	8
	i32.xor 
	local.tee	43
	i32.and 
	local.get	8
	i32.xor 
	local.tee	5
	i32.and 
	local.get	43
	i32.xor 
	local.tee	8
	local.get	5
	i32.xor 
	local.tee	43
	local.get	7
	i32.and 
	local.tee	46
	local.get	8
	local.get	10
	i32.and 
	i32.xor 
	local.tee	47
	local.get	8
	local.get	28
	local.get	34
	i32.xor 
	local.tee	7
	local.get	37
	local.get	11
	i32.xor 
	local.tee	10
	i32.xor 
	local.tee	34
	i32.xor 
	local.tee	37
	local.get	5
	local.get	10
	i32.xor 
	local.tee	11
	i32.xor 
	local.tee	28
	local.get	38
	i32.and 
	i32.xor 
	local.tee	38
	local.get	11
	local.get	35
	i32.and 
	i32.xor 
	local.tee	35
	local.get	3
	i32.load	28
	i32.xor 
	local.get	28
	local.get	32
	i32.and 
	local.get	11
	local.get	30
	i32.and 
	local.tee	32
	i32.xor 
	local.tee	30
	local.get	34
	local.get	42
	i32.and 
	i32.xor 
	local.tee	28
	local.get	7
	local.get	13
	i32.and 
	i32.xor 
	local.tee	13
	i32.xor 
	i32.const	18
	i32.rotl
	i32.const	50529027
	i32.and 
	i32.xor 
	local.tee	11
	i32.const	2
	i32.shl 
	i32.const	-50529028
	i32.and 
	local.get	11
	i32.xor 
	local.tee	11
	i32.const	4
	i32.shl 
	i32.const	-252645136
	i32.and 
	local.get	11
	i32.xor 
	local.tee	11
	i32.store	0
	local.get	1
	i32.const	72
	i32.add 
	local.get	18
	local.get	27
	local.get	10
	local.get	44
	i32.and 
	i32.xor 
	local.get	28
	i32.xor 
	local.get	37
	local.get	36
	i32.and 
	local.get	7
	local.get	9
	i32.and 
	local.tee	7
	local.get	10
	local.get	4
	i32.and 
	i32.xor 
	local.tee	4
	i32.xor 
	local.get	43
	local.get	29
	i32.and 
	local.tee	9
	i32.xor 
	local.get	38
	i32.xor 
	local.tee	36
	local.get	5
	local.get	45
	i32.and 
	i32.xor 
	local.tee	10
	i32.xor 
	i32.const	18
	i32.rotl
	i32.const	50529027
	i32.and 
	i32.xor 
	local.tee	29
	i32.const	2
	i32.shl 
	i32.const	-50529028
	i32.and 
	local.get	29
	i32.xor 
	local.tee	29
	i32.const	4
	i32.shl 
	i32.const	-252645136
	i32.and 
	local.get	29
	i32.xor 
	local.tee	29
	i32.store	0
	local.get	1
	i32.const	84
	i32.add 
	local.get	17
	local.get	26
	local.get	37
	local.get	6
	i32.and 
	i32.xor 
	local.get	32
	i32.xor 
	local.get	35
	i32.xor 
	local.get	10
	i32.xor 
	i32.const	18
	i32.rotl
	i32.const	-1
	i32.xor 
	i32.const	50529027
	i32.and 
	i32.xor 
	local.tee	10
	i32.const	2
	i32.shl 
	i32.const	-50529028
	i32.and 
	local.get	10
	i32.xor 
	local.tee	10
	i32.const	4
	i32.shl 
	i32.const	-252645136
	i32.and 
	local.get	10
	i32.xor 
	local.tee	32
	i32.store	0
	local.get	1
	i32.const	80
	i32.add 
	local.get	16
	local.get	25
	local.get	34
	local.get	40
	i32.and 
	local.get	7
	i32.xor 
	local.get	47
	i32.xor 
	local.get	13
	i32.xor 
	local.tee	10
	i32.xor 
	i32.const	18
	i32.rotl
	i32.const	50529027
	i32.and 
	i32.xor 
	local.tee	6
	i32.const	2
	i32.shl 
	i32.const	-50529028
	i32.and 
	local.get	6
	i32.xor 
	local.tee	6
	i32.const	4
	i32.shl 
	i32.const	-252645136
	i32.and 
	local.get	6
	i32.xor 
	local.tee	6
	i32.store	0
	local.get	1
	i32.const	76
	i32.add 
	local.get	15
	local.get	24
	local.get	4
	local.get	5
	local.get	39
	i32.and 
	i32.xor 
	local.get	46
	i32.xor 
	local.tee	4
	i32.xor 
	local.get	10
	i32.xor 
	i32.const	18
	i32.rotl
	i32.const	50529027
	i32.and 
	i32.xor 
	local.tee	5
	i32.const	2
	i32.shl 
	i32.const	-50529028
	i32.and 
	local.get	5
	i32.xor 
	local.tee	5
	i32.const	4
	i32.shl 
	i32.const	-252645136
	i32.and 
	local.get	5
	i32.xor 
	local.tee	34
	i32.store	0
	local.get	1
	i32.const	68
	i32.add 
	local.get	14
	local.get	23
	local.get	4
	local.get	8
	local.get	31
	i32.and 
	i32.xor 
	local.get	30
	i32.xor 
	local.tee	4
	i32.xor 
	local.get	36
	i32.xor 
	i32.const	18
	i32.rotl
	i32.const	-1
	i32.xor 
	i32.const	50529027
	i32.and 
	i32.xor 
	local.tee	5
	i32.const	2
	i32.shl 
	i32.const	-50529028
	i32.and 
	local.get	5
	i32.xor 
	local.tee	5
	i32.const	4
	i32.shl 
	i32.const	-252645136
	i32.and 
	local.get	5
	i32.xor 
	local.tee	5
	i32.store	0
	local.get	1
	i32.const	64
	i32.add 
	local.tee	15
	local.get	20
	local.get	4
	local.get	22
	i32.xor 
	local.get	9
	i32.xor 
	i32.const	18
	i32.rotl
	i32.const	-1
	i32.xor 
	i32.const	50529027
	i32.and 
	i32.xor 
	local.tee	4
	i32.const	2
	i32.shl 
	i32.const	-50529028
	i32.and 
	local.get	4
	i32.xor 
	local.tee	4
	i32.const	4
	i32.shl 
	i32.const	-252645136
	i32.and 
	local.get	4
	i32.xor 
	local.tee	4
	i32.store	0
	local.get	1
	i32.const	88
	i32.add 
	local.get	41
	local.get	35
	local.get	21
	i32.xor 
	local.get	10
	i32.xor 
	i32.const	18
	i32.rotl
	i32.const	-1
	i32.xor 
	i32.const	50529027
	i32.and 
	i32.xor 
	local.tee	35
	i32.const	2
	i32.shl 
	i32.const	-50529028
	i32.and 
	local.get	35
	i32.xor 
	local.tee	35
	i32.const	4
	i32.shl 
	i32.const	-252645136
	i32.and 
	local.get	35
	i32.xor 
	local.tee	10
	i32.store	0
	local.get	1
	i32.const	124
	i32.add 
	local.get	5
	local.get	11
	i32.xor 
	local.tee	7
	local.get	6
	local.get	29
	i32.xor 
	local.tee	13
	i32.xor 
	local.tee	30
	local.get	34
	i32.xor 
	local.tee	9
	local.get	10
	i32.xor 
	local.tee	41
	local.get	6
	local.get	11
	i32.xor 
	local.tee	31
	i32.xor 
	local.tee	35
	local.get	10
	local.get	32
	i32.xor 
	local.tee	36
	i32.xor 
	local.tee	8
	local.get	36
	local.get	4
	i32.xor 
	local.tee	10
	local.get	5
	i32.xor 
	local.tee	34
	local.get	10
	i32.and 
	i32.xor 
	local.get	8
	local.get	7
	i32.and 
	local.tee	32
	i32.xor 
	local.get	7
	i32.xor 
	local.get	35
	local.get	9
	local.get	29
	i32.xor 
	local.tee	9
	local.get	36
	i32.xor 
	local.tee	36
	i32.xor 
	local.tee	16
	local.get	13
	i32.and 
	local.get	35
	local.get	31
	i32.and 
	local.tee	14
	i32.xor 
	local.tee	5
	i32.xor 
	local.tee	37
	local.get	41
	local.get	9
	local.get	4
	i32.xor 
	local.tee	17
	local.get	34
	local.get	11
	local.get	29
	i32.xor 
	local.tee	29
	i32.xor 
	local.tee	18
	i32.and 
	i32.xor 
	local.get	9
	local.get	30
	i32.and 
	local.tee	41
	i32.xor 
	local.get	5
	i32.xor 
	local.tee	19
	i32.and 
	local.tee	5
	local.get	10
	local.get	6
	i32.xor 
	local.tee	20
	local.get	4
	i32.and 
	local.get	29
	i32.xor 
	local.get	36
	i32.xor 
	local.get	41
	i32.xor 
	local.get	36
	local.get	29
	i32.and 
	local.get	14
	i32.xor 
	local.tee	41
	i32.xor 
	local.tee	6
	i32.xor 
	local.get	8
	local.get	35
	local.get	4
	i32.xor 
	local.tee	21
	local.get	10
	local.get	11
	i32.xor 
	local.tee	22
	i32.and 
	i32.xor 
	local.get	32
	i32.xor 
	local.get	11
	i32.xor 
	local.get	41
	i32.xor 
	local.tee	11
	local.get	37
	i32.xor 
	i32.and 
	local.tee	41
	local.get	5
	i32.xor 
	local.get	11
	i32.and 
	local.tee	14
	local.get	5
	local.get	11
	i32.xor 
	local.tee	5
	i32.xor 
	local.get	5
	local.get	19
	local.get	6
	i32.xor 
	local.tee	32
	i32.and 
	local.get	6
	i32.xor 
	local.tee	5
	i32.and 
	local.get	32
	i32.xor 
	local.tee	32
	local.get	14
	local.get	37
	i32.xor 
	local.tee	37
	local.get	41
	local.get	11
	i32.xor 
	local.tee	6
	i32.xor 
	local.tee	41
	i32.xor 
	local.tee	14
	local.get	5
	local.get	6
	i32.xor 
	local.tee	11
	i32.xor 
	local.tee	19
	local.get	13
	i32.and 
	local.get	11
	local.get	31
	i32.and 
	local.tee	13
	i32.xor 
	local.tee	31
	local.get	41
	local.get	18
	i32.and 
	i32.xor 
	local.tee	18
	local.get	37
	local.get	30
	i32.and 
	i32.xor 
	local.tee	30
	local.get	32
	local.get	5
	i32.xor 
	local.tee	23
	local.get	8
	i32.and 
	local.tee	24
	local.get	32
	local.get	10
	i32.and 
	i32.xor 
	local.tee	10
	local.get	19
	local.get	16
	i32.and 
	i32.xor 
	local.tee	16
	local.get	11
	local.get	35
	i32.and 
	i32.xor 
	local.tee	35
	i32.xor 
	i32.const	6
	i32.shr_u
	i32.const	50529027
	i32.and 
	local.get	1
	i32.const	60
	i32.add 
	i32.load	0
	i32.xor 
	local.tee	11
	i32.const	2
	i32.shl 
	i32.const	-50529028
	i32.and 
	local.get	11
	i32.xor 
	local.tee	11
	i32.const	4
	i32.shl 
	i32.const	-252645136
	i32.and 
	local.get	11
	i32.xor 
	local.tee	11
	i32.store	0
	local.get	1
	i32.const	112
	i32.add 
	local.get	41
	local.get	17
	i32.and 
	local.get	37
	local.get	9
	i32.and 
	local.tee	9
	i32.xor 
	local.get	10
	i32.xor 
	local.get	30
	i32.xor 
	local.tee	10
	i32.const	6
	i32.shr_u
	i32.const	50529027
	i32.and 
	local.get	1
	i32.const	48
	i32.add 
	i32.load	0
	i32.xor 
	local.tee	8
	i32.const	2
	i32.shl 
	i32.const	-50529028
	i32.and 
	local.get	8
	i32.xor 
	local.tee	8
	i32.const	4
	i32.shl 
	i32.const	-252645136
	i32.and 
	local.get	8
	i32.xor 
	local.tee	8
	i32.store	0
	local.get	1
	i32.const	104
	i32.add 
	local.get	18
	local.get	6
	local.get	20
	i32.and 
	i32.xor 
	local.get	14
	local.get	36
	i32.and 
	local.get	9
	local.get	6
	local.get	4
	i32.and 
	i32.xor 
	local.tee	4
	i32.xor 
	local.get	23
	local.get	7
	i32.and 
	local.tee	7
	i32.xor 
	local.get	16
	i32.xor 
	local.tee	9
	local.get	5
	local.get	22
	i32.and 
	i32.xor 
	local.tee	36
	i32.xor 
	i32.const	6
	i32.shr_u
	i32.const	50529027
	i32.and 
	local.get	1
	i32.const	40
	i32.add 
	i32.load	0
	i32.xor 
	local.tee	6
	i32.const	2
	i32.shl 
	i32.const	-50529028
	i32.and 
	local.get	6
	i32.xor 
	local.tee	6
	i32.const	4
	i32.shl 
	i32.const	-252645136
	i32.and 
	local.get	6
	i32.xor 
	local.tee	6
	i32.store	0
	local.get	1
	i32.const	100
	i32.add 
	local.get	4
	local.get	5
	local.get	21
	i32.and 
	i32.xor 
	local.get	24
	i32.xor 
	local.tee	30
	local.get	32
	local.get	34
	i32.and 
	i32.xor 
	local.get	31
	i32.xor 
	local.tee	4
	local.get	9
	i32.xor 
	i32.const	-1
	i32.xor 
	i32.const	6
	i32.shr_u
	i32.const	50529027
	i32.and 
	local.get	1
	i32.const	36
	i32.add 
	i32.load	0
	i32.xor 
	local.tee	5
	i32.const	2
	i32.shl 
	i32.const	-50529028
	i32.and 
	local.get	5
	i32.xor 
	local.tee	5
	i32.const	4
	i32.shl 
	i32.const	-252645136
	i32.and 
	local.get	5
	i32.xor 
	local.tee	5
	i32.store	0
	local.get	1
	i32.const	96
	i32.add 
	local.get	4
	local.get	7
	i32.xor 
	i32.const	-1
	i32.xor 
	i32.const	6
	i32.shr_u
	i32.const	50529027
	i32.and 
	local.get	1
	i32.const	32
	i32.add 
	i32.load	0
	i32.xor 
	local.tee	4
	i32.const	2
	i32.shl 
	i32.const	-50529028
	i32.and 
	local.get	4
	i32.xor 
	local.tee	4
	i32.const	4
	i32.shl 
	i32.const	-252645136
	i32.and 
	local.get	4
	i32.xor 
	local.tee	4
	i32.store	0
	local.get	1
	i32.const	116
	i32.add 
	local.get	13
	local.get	14
	local.get	29
	i32.and 
	i32.xor 
	local.get	35
	i32.xor 
	local.get	36
	i32.xor 
	i32.const	-1
	i32.xor 
	i32.const	6
	i32.shr_u
	i32.const	50529027
	i32.and 
	local.get	1
	i32.const	52
	i32.add 
	i32.load	0
	i32.xor 
	local.tee	29
	i32.const	2
	i32.shl 
	i32.const	-50529028
	i32.and 
	local.get	29
	i32.xor 
	local.tee	29
	i32.const	4
	i32.shl 
	i32.const	-252645136
	i32.and 
	local.get	29
	i32.xor 
	local.tee	9
	i32.store	0
	local.get	1
	i32.const	108
	i32.add 
	local.get	10
	local.get	30
	i32.xor 
	i32.const	6
	i32.shr_u
	i32.const	50529027
	i32.and 
	local.get	1
	i32.const	44
	i32.add 
	i32.load	0
	i32.xor 
	local.tee	29
	i32.const	2
	i32.shl 
	i32.const	-50529028
	i32.and 
	local.get	29
	i32.xor 
	local.tee	29
	i32.const	4
	i32.shl 
	i32.const	-252645136
	i32.and 
	local.get	29
	i32.xor 
	local.tee	7
	i32.store	0
	local.get	1
	i32.const	120
	i32.add 
	local.get	35
	local.get	10
	i32.xor 
	i32.const	-1
	i32.xor 
	i32.const	6
	i32.shr_u
	i32.const	50529027
	i32.and 
	local.get	1
	i32.const	56
	i32.add 
	i32.load	0
	i32.xor 
	local.tee	1
	i32.const	2
	i32.shl 
	i32.const	-50529028
	i32.and 
	local.get	1
	i32.xor 
	local.tee	1
	i32.const	4
	i32.shl 
	i32.const	-252645136
	i32.and 
	local.get	1
	i32.xor 
	local.tee	10
	i32.store	0
	local.get	33
	i32.const	1
	i32.add 
	local.set	33
	local.get	15
	local.set	1
	local.get	12
	i64.const	-1
	i64.add 
	local.tee	12
	i64.const	0
	i64.ne  
	br_if   	0                               # 0: up to label6
# %bb.7:                                # %after.1.i.i
	end_loop
	local.get	0
	i32.const	476
	i32.add 
	local.get	0
	i32.load	412
	local.get	11
	local.get	5
	i32.xor 
	local.tee	29
	local.get	8
	local.get	6
	i32.xor 
	local.tee	36
	i32.xor 
	local.tee	32
	local.get	7
	i32.xor 
	local.tee	30
	local.get	10
	i32.xor 
	local.tee	31
	local.get	11
	local.get	8
	i32.xor 
	local.tee	33
	i32.xor 
	local.tee	1
	local.get	10
	local.get	9
	i32.xor 
	local.tee	7
	i32.xor 
	local.tee	10
	local.get	7
	local.get	4
	i32.xor 
	local.tee	35
	local.get	5
	i32.xor 
	local.tee	13
	local.get	35
	i32.and 
	i32.xor 
	local.get	10
	local.get	29
	i32.and 
	local.tee	34
	i32.xor 
	local.get	29
	i32.xor 
	local.get	1
	local.get	30
	local.get	6
	i32.xor 
	local.tee	5
	local.get	7
	i32.xor 
	local.tee	7
	i32.xor 
	local.tee	41
	local.get	36
	i32.and 
	local.get	1
	local.get	33
	i32.and 
	local.tee	37
	i32.xor 
	local.tee	9
	i32.xor 
	local.tee	30
	local.get	31
	local.get	5
	local.get	4
	i32.xor 
	local.tee	14
	local.get	13
	local.get	11
	local.get	6
	i32.xor 
	local.tee	6
	i32.xor 
	local.tee	15
	i32.and 
	i32.xor 
	local.get	5
	local.get	32
	i32.and 
	local.tee	31
	i32.xor 
	local.get	9
	i32.xor 
	local.tee	16
	i32.and 
	local.tee	9
	local.get	35
	local.get	8
	i32.xor 
	local.tee	17
	local.get	4
	i32.and 
	local.get	6
	i32.xor 
	local.get	7
	i32.xor 
	local.get	31
	i32.xor 
	local.get	7
	local.get	6
	i32.and 
	local.get	37
	i32.xor 
	local.tee	8
	i32.xor 
	local.tee	31
	i32.xor 
	local.get	10
	local.get	1
	local.get	4
	i32.xor 
	local.tee	18
	local.get	35
	local.get	11
	i32.xor 
	local.tee	19
	i32.and 
	i32.xor 
	local.get	34
	i32.xor 
	local.get	11
	i32.xor 
	local.get	8
	i32.xor 
	local.tee	8
	local.get	30
	i32.xor 
	i32.and 
	local.tee	34
	local.get	9
	i32.xor 
	local.get	8
	i32.and 
	local.tee	37
	local.get	9
	local.get	8
	i32.xor 
	local.tee	11
	i32.xor 
	local.get	11
	local.get	16
	local.get	31
	i32.xor 
	local.tee	9
	i32.and 
	local.get	31
	i32.xor 
	local.tee	11
	i32.and 
	local.get	9
	i32.xor 
	local.tee	9
	local.get	37
	local.get	30
	i32.xor 
	local.tee	30
	local.get	34
	local.get	8
	i32.xor 
	local.tee	8
	i32.xor 
	local.tee	31
	i32.xor 
	local.tee	34
	local.get	11
	local.get	8
	i32.xor 
	local.tee	37
	i32.xor 
	local.tee	16
	local.get	36
	i32.and 
	local.get	37
	local.get	33
	i32.and 
	local.tee	36
	i32.xor 
	local.tee	33
	local.get	31
	local.get	15
	i32.and 
	i32.xor 
	local.tee	15
	local.get	30
	local.get	32
	i32.and 
	i32.xor 
	local.tee	32
	local.get	9
	local.get	11
	i32.xor 
	local.tee	20
	local.get	10
	i32.and 
	local.tee	10
	local.get	9
	local.get	35
	i32.and 
	i32.xor 
	local.tee	35
	local.get	16
	local.get	41
	i32.and 
	i32.xor 
	local.tee	41
	local.get	37
	local.get	1
	i32.and 
	i32.xor 
	local.tee	1
	i32.xor 
	i32.const	18
	i32.rotl
	i32.const	50529027
	i32.and 
	i32.xor 
	local.tee	37
	i32.const	2
	i32.shl 
	i32.const	-50529028
	i32.and 
	local.get	37
	i32.xor 
	local.tee	37
	i32.const	4
	i32.shl 
	i32.const	-252645136
	i32.and 
	local.get	37
	i32.xor 
	i32.store	0
	local.get	0
	i32.const	464
	i32.add 
	local.get	0
	i32.load	400
	local.get	31
	local.get	14
	i32.and 
	local.get	30
	local.get	5
	i32.and 
	local.tee	5
	i32.xor 
	local.get	35
	i32.xor 
	local.get	32
	i32.xor 
	local.tee	35
	i32.const	18
	i32.rotl
	i32.const	50529027
	i32.and 
	i32.xor 
	local.tee	32
	i32.const	2
	i32.shl 
	i32.const	-50529028
	i32.and 
	local.get	32
	i32.xor 
	local.tee	32
	i32.const	4
	i32.shl 
	i32.const	-252645136
	i32.and 
	local.get	32
	i32.xor 
	i32.store	0
	local.get	0
	i32.const	456
	i32.add 
	local.get	0
	i32.load	392
	local.get	15
	local.get	8
	local.get	17
	i32.and 
	i32.xor 
	local.get	34
	local.get	7
	i32.and 
	local.get	5
	local.get	8
	local.get	4
	i32.and 
	i32.xor 
	local.tee	4
	i32.xor 
	local.get	20
	local.get	29
	i32.and 
	local.tee	5
	i32.xor 
	local.get	41
	i32.xor 
	local.tee	8
	local.get	11
	local.get	19
	i32.and 
	i32.xor 
	local.tee	29
	i32.xor 
	i32.const	18
	i32.rotl
	i32.const	50529027
	i32.and 
	i32.xor 
	local.tee	7
	i32.const	2
	i32.shl 
	i32.const	-50529028
	i32.and 
	local.get	7
	i32.xor 
	local.tee	7
	i32.const	4
	i32.shl 
	i32.const	-252645136
	i32.and 
	local.get	7
	i32.xor 
	i32.store	0
	local.get	0
	i32.const	452
	i32.add 
	local.get	0
	i32.load	388
	local.get	4
	local.get	11
	local.get	18
	i32.and 
	i32.xor 
	local.get	10
	i32.xor 
	local.tee	4
	local.get	9
	local.get	13
	i32.and 
	i32.xor 
	local.get	33
	i32.xor 
	local.tee	11
	local.get	8
	i32.xor 
	i32.const	18
	i32.rotl
	i32.const	-1
	i32.xor 
	i32.const	50529027
	i32.and 
	i32.xor 
	local.tee	10
	i32.const	2
	i32.shl 
	i32.const	-50529028
	i32.and 
	local.get	10
	i32.xor 
	local.tee	10
	i32.const	4
	i32.shl 
	i32.const	-252645136
	i32.and 
	local.get	10
	i32.xor 
	i32.store	0
	local.get	0
	i32.const	448
	i32.add 
	local.get	0
	i32.load	384
	local.get	11
	local.get	5
	i32.xor 
	i32.const	18
	i32.rotl
	i32.const	-1
	i32.xor 
	i32.const	50529027
	i32.and 
	i32.xor 
	local.tee	11
	i32.const	2
	i32.shl 
	i32.const	-50529028
	i32.and 
	local.get	11
	i32.xor 
	local.tee	11
	i32.const	4
	i32.shl 
	i32.const	-252645136
	i32.and 
	local.get	11
	i32.xor 
	i32.store	0
	local.get	0
	i32.const	468
	i32.add 
	local.get	0
	i32.load	404
	local.get	36
	local.get	34
	local.get	6
	i32.and 
	i32.xor 
	local.get	1
	i32.xor 
	local.get	29
	i32.xor 
	i32.const	18
	i32.rotl
	i32.const	-1
	i32.xor 
	i32.const	50529027
	i32.and 
	i32.xor 
	local.tee	11
	i32.const	2
	i32.shl 
	i32.const	-50529028
	i32.and 
	local.get	11
	i32.xor 
	local.tee	11
	i32.const	4
	i32.shl 
	i32.const	-252645136
	i32.and 
	local.get	11
	i32.xor 
	i32.store	0
	local.get	0
	i32.const	460
	i32.add 
	local.get	0
	i32.load	396
	local.get	35
	local.get	4
	i32.xor 
	i32.const	18
	i32.rotl
	i32.const	50529027
	i32.and 
	i32.xor 
	local.tee	4
	i32.const	2
	i32.shl 
	i32.const	-50529028
	i32.and 
	local.get	4
	i32.xor 
	local.tee	4
	i32.const	4
	i32.shl 
	i32.const	-252645136
	i32.and 
	local.get	4
	i32.xor 
	i32.store	0
	local.get	0
	i32.const	472
	i32.add 
	local.get	0
	i32.load	408
	local.get	1
	local.get	35
	i32.xor 
	i32.const	-1061158720
	i32.xor 
	i32.const	18
	i32.rotl
	i32.const	50529027
	i32.and 
	i32.xor 
	local.tee	1
	i32.const	2
	i32.shl 
	i32.const	-50529028
	i32.and 
	local.get	1
	i32.xor 
	local.tee	1
	i32.const	4
	i32.shl 
	i32.const	-252645136
	i32.and 
	local.get	1
	i32.xor 
	i32.store	0
.LBB0_8:                                # %aes_planes__expansion__expand____389ec886eeff95cb_.exit
	end_block                               # label0:
	local.get	2
	i64.const	2
	i64.shr_u
	local.tee	63
	i64.const	6
	i64.add 
	local.set	64
	i64.const	-6
	local.set	12
.LBB0_9:                                # %join.5.i
                                        # =>This Inner Loop Header: Depth=1
	loop    	                                # label7:
	local.get	0
	i32.const	60
	i32.add 
	local.tee	29
	i32.load	0
	local.set	1
	local.get	0
	i32.const	56
	i32.add 
	local.tee	7
	i32.load	0
	local.set	4
	local.get	0
	i32.const	52
	i32.add 
	local.tee	9
	i32.load	0
	local.set	11
	local.get	0
	i32.const	48
	i32.add 
	local.tee	36
	i32.load	0
	local.set	35
	local.get	0
	i32.const	44
	i32.add 
	local.tee	32
	i32.load	0
	local.set	10
	local.get	0
	i32.const	40
	i32.add 
	local.tee	33
	i32.load	0
	local.set	5
	local.get	0
	i32.const	36
	i32.add 
	local.tee	13
	i32.load	0
	local.set	6
	local.get	0
	i32.const	32
	i32.add 
	local.tee	0
	i32.load	0
	local.set	8
	block   	
	local.get	12
	i64.const	7
	i64.add 
	local.tee	2
	local.get	64
	i64.ge_u
	br_if   	0                               # 0: down to label8
# %bb.10:                               # %ok.10.i
                                        #   in Loop: Header=BB0_9 Depth=1
	block   	
	block   	
	block   	
	local.get	2
	i32.wrap_i64
	i32.const	3
	i32.and 
	br_table 	{3, 0, 1, 2, 3}         # 0: down to label11
                                        # 1: down to label10
                                        # 2: down to label9
                                        # 3: down to label8
.LBB0_11:                               # %then.1.i
                                        #   in Loop: Header=BB0_9 Depth=1
	end_block                               # label11:
	local.get	1
	i32.const	4
	i32.shr_u
	local.get	1
	i32.xor 
	i32.const	51317760
	i32.and 
	i32.const	17
	i32.mul 
	local.get	1
	i32.xor 
	local.tee	1
	i32.const	2
	i32.shr_u
	local.get	1
	i32.xor 
	i32.const	855651072
	i32.and 
	i32.const	5
	i32.mul 
	local.get	1
	i32.xor 
	local.set	1
	local.get	4
	i32.const	4
	i32.shr_u
	local.get	4
	i32.xor 
	i32.const	51317760
	i32.and 
	i32.const	17
	i32.mul 
	local.get	4
	i32.xor 
	local.tee	4
	i32.const	2
	i32.shr_u
	local.get	4
	i32.xor 
	i32.const	855651072
	i32.and 
	i32.const	5
	i32.mul 
	local.get	4
	i32.xor 
	local.set	4
	local.get	11
	i32.const	4
	i32.shr_u
	local.get	11
	i32.xor 
	i32.const	51317760
	i32.and 
	i32.const	17
	i32.mul 
	local.get	11
	i32.xor 
	local.tee	11
	i32.const	2
	i32.shr_u
	local.get	11
	i32.xor 
	i32.const	855651072
	i32.and 
	i32.const	5
	i32.mul 
	local.get	11
	i32.xor 
	local.set	11
	local.get	35
	i32.const	4
	i32.shr_u
	local.get	35
	i32.xor 
	i32.const	51317760
	i32.and 
	i32.const	17
	i32.mul 
	local.get	35
	i32.xor 
	local.tee	35
	i32.const	2
	i32.shr_u
	local.get	35
	i32.xor 
	i32.const	855651072
	i32.and 
	i32.const	5
	i32.mul 
	local.get	35
	i32.xor 
	local.set	35
	local.get	10
	i32.const	4
	i32.shr_u
	local.get	10
	i32.xor 
	i32.const	51317760
	i32.and 
	i32.const	17
	i32.mul 
	local.get	10
	i32.xor 
	local.tee	10
	i32.const	2
	i32.shr_u
	local.get	10
	i32.xor 
	i32.const	855651072
	i32.and 
	i32.const	5
	i32.mul 
	local.get	10
	i32.xor 
	local.set	10
	local.get	5
	i32.const	4
	i32.shr_u
	local.get	5
	i32.xor 
	i32.const	51317760
	i32.and 
	i32.const	17
	i32.mul 
	local.get	5
	i32.xor 
	local.tee	5
	i32.const	2
	i32.shr_u
	local.get	5
	i32.xor 
	i32.const	855651072
	i32.and 
	i32.const	5
	i32.mul 
	local.get	5
	i32.xor 
	local.set	5
	local.get	6
	i32.const	4
	i32.shr_u
	local.get	6
	i32.xor 
	i32.const	51317760
	i32.and 
	i32.const	17
	i32.mul 
	local.get	6
	i32.xor 
	local.tee	6
	i32.const	2
	i32.shr_u
	local.get	6
	i32.xor 
	i32.const	855651072
	i32.and 
	i32.const	5
	i32.mul 
	local.get	6
	i32.xor 
	local.set	6
	local.get	8
	i32.const	4
	i32.shr_u
	local.get	8
	i32.xor 
	i32.const	51317760
	i32.and 
	i32.const	17
	i32.mul 
	local.get	8
	i32.xor 
	local.tee	8
	i32.const	2
	i32.shr_u
	local.get	8
	i32.xor 
	i32.const	855651072
	i32.and 
	i32.const	5
	i32.mul 
	local.get	8
	i32.xor 
	local.set	8
	br      	2                               # 2: down to label8
.LBB0_12:                               # %then.4.i
                                        #   in Loop: Header=BB0_9 Depth=1
	end_block                               # label10:
	local.get	1
	i32.const	4
	i32.shr_u
	local.get	1
	i32.xor 
	i32.const	251662080
	i32.and 
	i32.const	17
	i32.mul 
	local.get	1
	i32.xor 
	local.set	1
	local.get	4
	i32.const	4
	i32.shr_u
	local.get	4
	i32.xor 
	i32.const	251662080
	i32.and 
	i32.const	17
	i32.mul 
	local.get	4
	i32.xor 
	local.set	4
	local.get	11
	i32.const	4
	i32.shr_u
	local.get	11
	i32.xor 
	i32.const	251662080
	i32.and 
	i32.const	17
	i32.mul 
	local.get	11
	i32.xor 
	local.set	11
	local.get	35
	i32.const	4
	i32.shr_u
	local.get	35
	i32.xor 
	i32.const	251662080
	i32.and 
	i32.const	17
	i32.mul 
	local.get	35
	i32.xor 
	local.set	35
	local.get	10
	i32.const	4
	i32.shr_u
	local.get	10
	i32.xor 
	i32.const	251662080
	i32.and 
	i32.const	17
	i32.mul 
	local.get	10
	i32.xor 
	local.set	10
	local.get	5
	i32.const	4
	i32.shr_u
	local.get	5
	i32.xor 
	i32.const	251662080
	i32.and 
	i32.const	17
	i32.mul 
	local.get	5
	i32.xor 
	local.set	5
	local.get	6
	i32.const	4
	i32.shr_u
	local.get	6
	i32.xor 
	i32.const	251662080
	i32.and 
	i32.const	17
	i32.mul 
	local.get	6
	i32.xor 
	local.set	6
	local.get	8
	i32.const	4
	i32.shr_u
	local.get	8
	i32.xor 
	i32.const	251662080
	i32.and 
	i32.const	17
	i32.mul 
	local.get	8
	i32.xor 
	local.set	8
	br      	1                               # 1: down to label8
.LBB0_13:                               # %then.7.i
                                        #   in Loop: Header=BB0_9 Depth=1
	end_block                               # label9:
	local.get	1
	i32.const	4
	i32.shr_u
	local.get	1
	i32.xor 
	i32.const	202310400
	i32.and 
	i32.const	17
	i32.mul 
	local.get	1
	i32.xor 
	local.tee	1
	i32.const	2
	i32.shr_u
	local.get	1
	i32.xor 
	i32.const	855651072
	i32.and 
	i32.const	5
	i32.mul 
	local.get	1
	i32.xor 
	local.set	1
	local.get	4
	i32.const	4
	i32.shr_u
	local.get	4
	i32.xor 
	i32.const	202310400
	i32.and 
	i32.const	17
	i32.mul 
	local.get	4
	i32.xor 
	local.tee	4
	i32.const	2
	i32.shr_u
	local.get	4
	i32.xor 
	i32.const	855651072
	i32.and 
	i32.const	5
	i32.mul 
	local.get	4
	i32.xor 
	local.set	4
	local.get	11
	i32.const	4
	i32.shr_u
	local.get	11
	i32.xor 
	i32.const	202310400
	i32.and 
	i32.const	17
	i32.mul 
	local.get	11
	i32.xor 
	local.tee	11
	i32.const	2
	i32.shr_u
	local.get	11
	i32.xor 
	i32.const	855651072
	i32.and 
	i32.const	5
	i32.mul 
	local.get	11
	i32.xor 
	local.set	11
	local.get	35
	i32.const	4
	i32.shr_u
	local.get	35
	i32.xor 
	i32.const	202310400
	i32.and 
	i32.const	17
	i32.mul 
	local.get	35
	i32.xor 
	local.tee	35
	i32.const	2
	i32.shr_u
	local.get	35
	i32.xor 
	i32.const	855651072
	i32.and 
	i32.const	5
	i32.mul 
	local.get	35
	i32.xor 
	local.set	35
	local.get	10
	i32.const	4
	i32.shr_u
	local.get	10
	i32.xor 
	i32.const	202310400
	i32.and 
	i32.const	17
	i32.mul 
	local.get	10
	i32.xor 
	local.tee	10
	i32.const	2
	i32.shr_u
	local.get	10
	i32.xor 
	i32.const	855651072
	i32.and 
	i32.const	5
	i32.mul 
	local.get	10
	i32.xor 
	local.set	10
	local.get	5
	i32.const	4
	i32.shr_u
	local.get	5
	i32.xor 
	i32.const	202310400
	i32.and 
	i32.const	17
	i32.mul 
	local.get	5
	i32.xor 
	local.tee	5
	i32.const	2
	i32.shr_u
	local.get	5
	i32.xor 
	i32.const	855651072
	i32.and 
	i32.const	5
	i32.mul 
	local.get	5
	i32.xor 
	local.set	5
	local.get	6
	i32.const	4
	i32.shr_u
	local.get	6
	i32.xor 
	i32.const	202310400
	i32.and 
	i32.const	17
	i32.mul 
	local.get	6
	i32.xor 
	local.tee	6
	i32.const	2
	i32.shr_u
	local.get	6
	i32.xor 
	i32.const	855651072
	i32.and 
	i32.const	5
	i32.mul 
	local.get	6
	i32.xor 
	local.set	6
	local.get	8
	i32.const	4
	i32.shr_u
	local.get	8
	i32.xor 
	i32.const	202310400
	i32.and 
	i32.const	17
	i32.mul 
	local.get	8
	i32.xor 
	local.tee	8
	i32.const	2
	i32.shr_u
	local.get	8
	i32.xor 
	i32.const	855651072
	i32.and 
	i32.const	5
	i32.mul 
	local.get	8
	i32.xor 
	local.set	8
.LBB0_14:                               # %join.8.i
                                        #   in Loop: Header=BB0_9 Depth=1
	end_block                               # label8:
	local.get	29
	local.get	1
	i32.store	0
	local.get	7
	local.get	4
	i32.const	-1
	i32.xor 
	i32.store	0
	local.get	9
	local.get	11
	i32.const	-1
	i32.xor 
	i32.store	0
	local.get	36
	local.get	35
	i32.store	0
	local.get	32
	local.get	10
	i32.store	0
	local.get	33
	local.get	5
	i32.store	0
	local.get	13
	local.get	6
	i32.const	-1
	i32.xor 
	i32.store	0
	local.get	0
	local.get	8
	i32.const	-1
	i32.xor 
	i32.store	0
	local.get	63
	local.get	12
	i64.const	1
	i64.add 
	local.tee	12
	i64.ne  
	br_if   	0                               # 0: up to label7
# %bb.15:                               # %aes_soft__soft__key_layout__store____dfb00681c6d298fe_.exit
	end_loop
	local.get	3
	i32.const	32
	i32.add 
	global.set	__stack_pointer
                                        # fallthrough-return
	end_function
                                        # -- End function
	.section	.text.aes_planes__soft__word__word32__U32Word__in_every_slot,"",@
	.type	aes_planes__soft__word__word32__U32Word__in_every_slot,@function # -- Begin function aes_planes__soft__word__word32__U32Word__in_every_slot
aes_planes__soft__word__word32__U32Word__in_every_slot: # @aes_planes__soft__word__word32__U32Word__in_every_slot
	.functype	aes_planes__soft__word__word32__U32Word__in_every_slot (i32, i32) -> ()
	.local  	i32, i32, i32, i32, i32, i32, i32, i32, i32, i32, i32, i32, i32, i32
# %bb.0:                                # %start
	local.get	0
	local.get	1
	i32.load	12:p2align=0
	local.tee	2
	local.get	2
	i32.const	1
	i32.shr_u
	i32.xor 
	i32.const	1431655765
	i32.and 
	local.tee	3
	local.get	2
	i32.xor 
	local.tee	4
	local.get	1
	i32.load	8:p2align=0
	local.tee	5
	local.get	5
	i32.const	1
	i32.shr_u
	i32.xor 
	i32.const	1431655765
	i32.and 
	local.tee	6
	local.get	5
	i32.xor 
	local.tee	7
	i32.const	2
	i32.shr_u
	i32.xor 
	i32.const	858993459
	i32.and 
	local.tee	8
	local.get	4
	i32.xor 
	local.tee	9
	local.get	1
	i32.load	4:p2align=0
	local.tee	4
	local.get	4
	i32.const	1
	i32.shr_u
	i32.xor 
	i32.const	1431655765
	i32.and 
	local.tee	10
	local.get	4
	i32.xor 
	local.tee	11
	local.get	1
	i32.load	0:p2align=0
	local.tee	1
	local.get	1
	i32.const	1
	i32.shr_u
	i32.xor 
	i32.const	1431655765
	i32.and 
	local.tee	12
	local.get	1
	i32.xor 
	local.tee	13
	i32.const	2
	i32.shr_u
	i32.xor 
	i32.const	858993459
	i32.and 
	local.tee	14
	local.get	11
	i32.xor 
	local.tee	11
	i32.const	4
	i32.shr_u
	i32.xor 
	i32.const	252645135
	i32.and 
	local.tee	15
	local.get	9
	i32.xor 
	i32.store	28:p2align=0
	local.get	0
	local.get	2
	local.get	3
	i32.const	1
	i32.shl 
	i32.xor 
	local.tee	2
	local.get	5
	local.get	6
	i32.const	1
	i32.shl 
	i32.xor 
	local.tee	5
	i32.const	2
	i32.shr_u
	i32.xor 
	i32.const	858993459
	i32.and 
	local.tee	3
	local.get	2
	i32.xor 
	local.tee	2
	local.get	4
	local.get	10
	i32.const	1
	i32.shl 
	i32.xor 
	local.tee	4
	local.get	1
	local.get	12
	i32.const	1
	i32.shl 
	i32.xor 
	local.tee	1
	i32.const	2
	i32.shr_u
	i32.xor 
	i32.const	858993459
	i32.and 
	local.tee	6
	local.get	4
	i32.xor 
	local.tee	4
	i32.const	4
	i32.shr_u
	i32.xor 
	i32.const	252645135
	i32.and 
	local.tee	9
	local.get	2
	i32.xor 
	i32.store	24:p2align=0
	local.get	0
	local.get	8
	i32.const	2
	i32.shl 
	local.get	7
	i32.xor 
	local.tee	2
	local.get	14
	i32.const	2
	i32.shl 
	local.get	13
	i32.xor 
	local.tee	7
	i32.const	4
	i32.shr_u
	i32.xor 
	i32.const	252645135
	i32.and 
	local.tee	8
	local.get	2
	i32.xor 
	i32.store	20:p2align=0
	local.get	0
	local.get	15
	i32.const	4
	i32.shl 
	local.get	11
	i32.xor 
	i32.store	12:p2align=0
	local.get	0
	local.get	3
	i32.const	2
	i32.shl 
	local.get	5
	i32.xor 
	local.tee	2
	local.get	6
	i32.const	2
	i32.shl 
	local.get	1
	i32.xor 
	local.tee	1
	i32.const	4
	i32.shr_u
	i32.xor 
	i32.const	252645135
	i32.and 
	local.tee	5
	local.get	2
	i32.xor 
	i32.store	16:p2align=0
	local.get	0
	local.get	9
	i32.const	4
	i32.shl 
	local.get	4
	i32.xor 
	i32.store	8:p2align=0
	local.get	0
	local.get	8
	i32.const	4
	i32.shl 
	local.get	7
	i32.xor 
	i32.store	4:p2align=0
	local.get	0
	local.get	5
	i32.const	4
	i32.shl 
	local.get	1
	i32.xor 
	i32.store	0:p2align=0
                                        # fallthrough-return
	end_function
                                        # -- End function
	.section	.text.aes_planes__soft__word__word32__U32Word__constant_planes,"",@
	.type	aes_planes__soft__word__word32__U32Word__constant_planes,@function # -- Begin function aes_planes__soft__word__word32__U32Word__constant_planes
aes_planes__soft__word__word32__U32Word__constant_planes: # @aes_planes__soft__word__word32__U32Word__constant_planes
	.functype	aes_planes__soft__word__word32__U32Word__constant_planes (i32, i32) -> ()
# %bb.0:                                # %start
	local.get	0
	local.get	1
	i32.const	64
	i32.and 
	i32.const	768
	i32.mul 
	i32.store	24:p2align=0
	local.get	0
	local.get	1
	i32.const	1
	i32.shr_u
	i32.const	64
	i32.and 
	i32.const	768
	i32.mul 
	i32.store	28:p2align=0
	local.get	0
	local.get	1
	i32.const	1
	i32.shl 
	i32.const	64
	i32.and 
	i32.const	768
	i32.mul 
	i32.store	20:p2align=0
	local.get	0
	local.get	1
	i32.const	2
	i32.shl 
	i32.const	64
	i32.and 
	i32.const	768
	i32.mul 
	i32.store	16:p2align=0
	local.get	0
	local.get	1
	i32.const	3
	i32.shl 
	i32.const	64
	i32.and 
	i32.const	768
	i32.mul 
	i32.store	12:p2align=0
	local.get	0
	local.get	1
	i32.const	4
	i32.shl 
	i32.const	64
	i32.and 
	i32.const	768
	i32.mul 
	i32.store	8:p2align=0
	local.get	0
	local.get	1
	i32.const	5
	i32.shl 
	i32.const	64
	i32.and 
	i32.const	768
	i32.mul 
	i32.store	4:p2align=0
	local.get	0
	local.get	1
	i32.const	6
	i32.shl 
	i32.const	64
	i32.and 
	i32.const	768
	i32.mul 
	i32.store	0:p2align=0
                                        # fallthrough-return
	end_function
                                        # -- End function
	.section	.text.aes_cipher__zeroize__stack__wipe_stack____768_,"",@
	.type	aes_cipher__zeroize__stack__wipe_stack____768_,@function # -- Begin function aes_cipher__zeroize__stack__wipe_stack____768_
aes_cipher__zeroize__stack__wipe_stack____768_: # @aes_cipher__zeroize__stack__wipe_stack____768_
	.functype	aes_cipher__zeroize__stack__wipe_stack____768_ () -> ()
	.local  	i32, i64
# %bb.0:                                # %start
	global.get	__stack_pointer
	i32.const	784
	i32.sub 
	local.tee	0
	global.set	__stack_pointer
	local.get	0
	i32.const	16
	i32.add 
	i32.const	0
	i32.const	768
	call	memset
	drop
	local.get	0
	i64.const	0
	i64.store	8
	#APP
	#NO_APP
	local.get	0
	i64.load	8
	local.set	1
	#APP
	#NO_APP
	block   	
	local.get	1
	i64.const	768
	i64.ge_u
	br_if   	0                               # 0: down to label12
# %bb.1:                                # %then.1
	local.get	0
	i32.const	16
	i32.add 
	local.get	1
	i32.wrap_i64
	i32.add 
	i64.load8_u	0
	local.set	1
	#APP
	#NO_APP
	local.get	0
	i64.load	8
	drop
	local.get	0
	local.get	1
	i64.store	8
	#APP
	#NO_APP
.LBB3_2:                                # %common.ret
	end_block                               # label12:
	local.get	0
	i32.const	784
	i32.add 
	global.set	__stack_pointer
                                        # fallthrough-return
	end_function
                                        # -- End function
	.section	.text.aes_ctr__add_in_batches__add_keystream____4f733d09d7f6c6b4_,"",@
	.type	aes_ctr__add_in_batches__add_keystream____4f733d09d7f6c6b4_,@function # -- Begin function aes_ctr__add_in_batches__add_keystream____4f733d09d7f6c6b4_
aes_ctr__add_in_batches__add_keystream____4f733d09d7f6c6b4_: # @aes_ctr__add_in_batches__add_keystream____4f733d09d7f6c6b4_
	.functype	aes_ctr__add_in_batches__add_keystream____4f733d09d7f6c6b4_ (i32, i32, i64, i32, i64) -> ()
	.local  	i32, i64, i64, i64, i64, i64, i32, i32, i32, i32, i32, i32, i32, i32, i32, i32, i32, i32, i32, i32, i32, i32, i32, i32, i32, i32, i32, i32, i32, i32, i32, i32, i32, i32, i32, i32, i32
# %bb.0:                                # %start
	global.get	__stack_pointer
	i32.const	64
	i32.sub 
	local.tee	5
	global.set	__stack_pointer
	local.get	5
	local.get	1
	i64.load	8:p2align=0
	i64.store	8
	local.get	5
	local.get	1
	i64.load	0:p2align=0
	i64.store	0
	i64.const	0
	local.set	6
	local.get	5
	i64.const	0
	i64.store	16
	block   	
	block   	
	local.get	4
	i64.const	16
	local.get	2
	i64.const	15
	i64.and 
	local.tee	7
	i64.sub 
	i64.gt_u
	br_if   	0                               # 0: down to label14
# %bb.1:                                # %then.1.i
	local.get	5
	local.get	5
	i64.load	8
	local.tee	8
	i64.const	56
	i64.shl 
	local.get	8
	i64.const	65280
	i64.and 
	i64.const	40
	i64.shl 
	i64.or  
	local.get	8
	i64.const	16711680
	i64.and 
	i64.const	24
	i64.shl 
	local.get	8
	i64.const	4278190080
	i64.and 
	i64.const	8
	i64.shl 
	i64.or  
	i64.or  
	local.get	8
	i64.const	8
	i64.shr_u
	i64.const	4278190080
	i64.and 
	local.get	8
	i64.const	24
	i64.shr_u
	i64.const	16711680
	i64.and 
	i64.or  
	local.get	8
	i64.const	40
	i64.shr_u
	i64.const	65280
	i64.and 
	local.get	8
	i64.const	56
	i64.shr_u
	i64.or  
	i64.or  
	i64.or  
	local.tee	9
	local.get	2
	i64.const	4
	i64.shr_u
	i64.add 
	local.tee	10
	i64.const	32
	i64.shr_u
	i64.store8	59
	local.get	5
	local.get	10
	i64.const	40
	i64.shr_u
	i64.store8	58
	local.get	5
	local.get	10
	i64.const	48
	i64.shr_u
	i64.store8	57
	local.get	5
	local.get	10
	i64.const	56
	i64.shr_u
	i64.store8	56
	local.get	5
	local.get	10
	i32.wrap_i64
	local.tee	1
	i32.store8	63
	local.get	5
	local.get	1
	i32.const	8
	i32.shr_u
	i32.store8	62
	local.get	5
	local.get	1
	i32.const	16
	i32.shr_u
	i32.store8	61
	local.get	5
	local.get	1
	i32.const	24
	i32.shr_u
	i32.store8	60
	local.get	5
	local.get	5
	i64.load	0
	local.tee	8
	i64.const	56
	i64.shl 
	local.get	8
	i64.const	65280
	i64.and 
	i64.const	40
	i64.shl 
	i64.or  
	local.get	8
	i64.const	16711680
	i64.and 
	i64.const	24
	i64.shl 
	local.get	8
	i64.const	4278190080
	i64.and 
	i64.const	8
	i64.shl 
	i64.or  
	i64.or  
	local.get	8
	i64.const	8
	i64.shr_u
	i64.const	4278190080
	i64.and 
	local.get	8
	i64.const	24
	i64.shr_u
	i64.const	16711680
	i64.and 
	i64.or  
	local.get	8
	i64.const	40
	i64.shr_u
	i64.const	65280
	i64.and 
	local.get	8
	i64.const	56
	i64.shr_u
	i64.or  
	i64.or  
	i64.or  
	local.get	10
	local.get	9
	i64.lt_u
	i64.extend_i32_u
	i64.add 
	local.tee	8
	i64.const	32
	i64.shr_u
	i64.store8	51
	local.get	5
	local.get	8
	i64.const	40
	i64.shr_u
	i64.store8	50
	local.get	5
	local.get	8
	i64.const	48
	i64.shr_u
	i64.store8	49
	local.get	5
	local.get	8
	i64.const	56
	i64.shr_u
	i64.store8	48
	local.get	5
	local.get	8
	i32.wrap_i64
	local.tee	1
	i32.store8	55
	local.get	5
	local.get	1
	i32.const	8
	i32.shr_u
	i32.store8	54
	local.get	5
	local.get	1
	i32.const	16
	i32.shr_u
	i32.store8	53
	local.get	5
	local.get	1
	i32.const	24
	i32.shr_u
	i32.store8	52
	local.get	0
	i32.load	0:p2align=0
	local.get	0
	i64.load	8:p2align=0
	local.get	5
	i32.const	48
	i32.add 
	i64.const	1
	call	aes_narrow__blocks__process_all_batches____1a21aa7f601e7603_
	call	aes_cipher__zeroize__stack__wipe_stack____1024_
	block   	
	local.get	7
	i64.eqz
	br_if   	0                               # 0: down to label15
# %bb.2:                                # %then.1.i
	local.get	4
	i64.eqz
	br_if   	0                               # 0: down to label15
# %bb.3:                                # %join.8.i72.i.i.preheader
	i64.const	0
	local.set	8
	block   	
	local.get	4
	i64.const	1
	i64.eq  
	br_if   	0                               # 0: down to label16
# %bb.4:                                # %join.8.i72.i.i.preheader.new
	local.get	4
	i64.const	1
	i64.and 
	local.set	9
	local.get	4
	i64.const	4294967294
	i64.and 
	local.set	10
	local.get	5
	i32.const	48
	i32.add 
	local.get	2
	i32.wrap_i64
	i32.const	15
	i32.and 
	i32.add 
	local.set	0
	i64.const	0
	local.set	8
	local.get	3
	local.set	1
.LBB4_5:                                # %join.8.i72.i.i
                                        # =>This Inner Loop Header: Depth=1
	loop    	                                # label17:
	local.get	1
	local.get	1
	i32.load8_u	0
	local.get	0
	i32.load8_u	0
	i32.xor 
	i32.store8	0
	local.get	1
	i32.const	1
	i32.add 
	local.tee	11
	local.get	11
	i32.load8_u	0
	local.get	0
	i32.const	1
	i32.add 
	i32.load8_u	0
	i32.xor 
	i32.store8	0
	local.get	1
	i32.const	2
	i32.add 
	local.set	1
	local.get	0
	i32.const	2
	i32.add 
	local.set	0
	local.get	10
	local.get	8
	i64.const	2
	i64.add 
	local.tee	8
	i64.ne  
	br_if   	0                               # 0: up to label17
# %bb.6:                                # %join.3.i.i.i.loopexit.unr-lcssa
	end_loop
	local.get	4
	local.set	6
	local.get	9
	i64.eqz
	br_if   	1                               # 1: down to label15
.LBB4_7:                                # %join.8.i72.i.i.epil.preheader
	end_block                               # label16:
	local.get	3
	local.get	8
	i32.wrap_i64
	i32.add 
	local.tee	1
	local.get	1
	i32.load8_u	0
	local.get	5
	i32.const	48
	i32.add 
	local.get	8
	local.get	7
	i64.add 
	i32.wrap_i64
	i32.add 
	i32.load8_u	0
	i32.xor 
	i32.store8	0
	local.get	4
	local.set	6
.LBB4_8:                                # %join.3.i.i.i
	end_block                               # label15:
	block   	
	local.get	4
	local.get	6
	i64.sub 
	local.tee	10
	i64.const	16
	i64.lt_u
	br_if   	0                               # 0: down to label18
# %bb.9:                                # %join.8.i.i.i.preheader
	i64.const	0
	local.get	6
	i64.sub 
	local.set	8
	local.get	3
	local.get	6
	i32.wrap_i64
	local.tee	0
	i32.add 
	local.set	1
	local.get	2
	i32.wrap_i64
	i32.const	15
	i32.and 
	local.get	0
	i32.add 
	local.set	11
.LBB4_10:                               # %join.8.i.i.i
                                        # =>This Inner Loop Header: Depth=1
	loop    	                                # label19:
	local.get	5
	i32.const	48
	i32.add 
	local.get	11
	i32.const	-16
	i32.and 
	i32.add 
	local.tee	0
	i32.load8_u	0
	local.set	12
	local.get	0
	i32.load8_u	1
	local.set	13
	local.get	0
	i32.load8_u	2
	local.set	14
	local.get	0
	i32.load8_u	3
	local.set	15
	local.get	0
	i32.load8_u	4
	local.set	16
	local.get	0
	i32.load8_u	5
	local.set	17
	local.get	0
	i32.load8_u	6
	local.set	18
	local.get	0
	i32.load8_u	7
	local.set	19
	local.get	0
	i32.load8_u	8
	local.set	20
	local.get	0
	i32.load8_u	9
	local.set	21
	local.get	0
	i32.load8_u	10
	local.set	22
	local.get	0
	i32.load8_u	11
	local.set	23
	local.get	0
	i32.load8_u	12
	local.set	24
	local.get	0
	i32.load8_u	13
	local.set	25
	local.get	0
	i32.load8_u	14
	local.set	26
	local.get	1
	i32.load8_u	0
	local.set	27
	local.get	1
	i32.load8_u	1
	local.set	28
	local.get	1
	i32.load8_u	2
	local.set	29
	local.get	1
	i32.load8_u	3
	local.set	30
	local.get	1
	i32.load8_u	4
	local.set	31
	local.get	1
	i32.load8_u	5
	local.set	32
	local.get	1
	i32.load8_u	6
	local.set	33
	local.get	1
	i32.load8_u	7
	local.set	34
	local.get	1
	i32.load8_u	8
	local.set	35
	local.get	1
	i32.load8_u	9
	local.set	36
	local.get	1
	i32.load8_u	10
	local.set	37
	local.get	1
	i32.load8_u	11
	local.set	38
	local.get	1
	i32.load8_u	12
	local.set	39
	local.get	1
	i32.load8_u	13
	local.set	40
	local.get	1
	i32.load8_u	14
	local.set	41
	local.get	1
	local.get	0
	i32.load8_u	15
	local.get	1
	i32.load8_u	15
	i32.xor 
	i32.store8	15
	local.get	1
	local.get	26
	local.get	41
	i32.xor 
	i32.store8	14
	local.get	1
	local.get	25
	local.get	40
	i32.xor 
	i32.store8	13
	local.get	1
	local.get	24
	local.get	39
	i32.xor 
	i32.store8	12
	local.get	1
	local.get	23
	local.get	38
	i32.xor 
	i32.store8	11
	local.get	1
	local.get	22
	local.get	37
	i32.xor 
	i32.store8	10
	local.get	1
	local.get	21
	local.get	36
	i32.xor 
	i32.store8	9
	local.get	1
	local.get	20
	local.get	35
	i32.xor 
	i32.store8	8
	local.get	1
	local.get	19
	local.get	34
	i32.xor 
	i32.store8	7
	local.get	1
	local.get	18
	local.get	33
	i32.xor 
	i32.store8	6
	local.get	1
	local.get	17
	local.get	32
	i32.xor 
	i32.store8	5
	local.get	1
	local.get	16
	local.get	31
	i32.xor 
	i32.store8	4
	local.get	1
	local.get	15
	local.get	30
	i32.xor 
	i32.store8	3
	local.get	1
	local.get	14
	local.get	29
	i32.xor 
	i32.store8	2
	local.get	1
	local.get	13
	local.get	28
	i32.xor 
	i32.store8	1
	local.get	1
	local.get	12
	local.get	27
	i32.xor 
	i32.store8	0
	local.get	11
	i32.const	16
	i32.add 
	local.set	11
	local.get	1
	i32.const	16
	i32.add 
	local.set	1
	local.get	4
	local.get	8
	i64.const	-16
	i64.add 
	local.tee	8
	i64.add 
	local.tee	10
	i64.const	15
	i64.gt_u
	br_if   	0                               # 0: up to label19
# %bb.11:                               # %after.4.i.i.i.loopexit
	end_loop
	i64.const	0
	local.get	8
	i64.sub 
	local.set	6
.LBB4_12:                               # %after.4.i.i.i
	end_block                               # label18:
	local.get	6
	local.get	4
	i64.ge_u
	br_if   	1                               # 1: down to label13
# %bb.13:                               # %then.9.i.i.i
	local.get	10
	i64.eqz
	br_if   	1                               # 1: down to label13
# %bb.14:                               # %join.8.i15.i.i.preheader
	local.get	6
	i32.wrap_i64
	local.set	15
	local.get	6
	local.get	7
	i64.add 
	i32.wrap_i64
	i32.const	-16
	i32.and 
	local.set	16
	local.get	10
	i64.const	3
	i64.and 
	local.set	8
	i64.const	0
	local.set	4
	block   	
	local.get	10
	i64.const	4
	i64.lt_u
	br_if   	0                               # 0: down to label20
# %bb.15:                               # %join.8.i15.i.i.preheader.new
	local.get	3
	local.get	15
	i32.add 
	local.set	13
	local.get	5
	i32.const	48
	i32.add 
	local.get	16
	i32.add 
	local.set	14
	local.get	10
	i64.const	12
	i64.and 
	local.set	10
	i64.const	0
	local.set	4
	i32.const	0
	local.set	0
.LBB4_16:                               # %join.8.i15.i.i
                                        # =>This Inner Loop Header: Depth=1
	loop    	                                # label21:
	local.get	13
	local.get	0
	i32.add 
	local.tee	1
	local.get	1
	i32.load8_u	0
	local.get	14
	local.get	0
	i32.add 
	local.tee	11
	i32.load8_u	0
	i32.xor 
	i32.store8	0
	local.get	1
	i32.const	1
	i32.add 
	local.tee	12
	local.get	12
	i32.load8_u	0
	local.get	11
	i32.const	1
	i32.add 
	i32.load8_u	0
	i32.xor 
	i32.store8	0
	local.get	1
	i32.const	2
	i32.add 
	local.tee	12
	local.get	12
	i32.load8_u	0
	local.get	11
	i32.const	2
	i32.add 
	i32.load8_u	0
	i32.xor 
	i32.store8	0
	local.get	1
	i32.const	3
	i32.add 
	local.tee	1
	local.get	1
	i32.load8_u	0
	local.get	11
	i32.const	3
	i32.add 
	i32.load8_u	0
	i32.xor 
	i32.store8	0
	local.get	0
	i32.const	4
	i32.add 
	local.set	0
	local.get	10
	local.get	4
	i64.const	4
	i64.add 
	local.tee	4
	i64.ne  
	br_if   	0                               # 0: up to label21
# %bb.17:                               # %aes_ctr__add_in_batches__add_to_one____72982bb057555e7c_.exit.i.loopexit.unr-lcssa
	end_loop
	local.get	8
	i64.eqz
	br_if   	2                               # 2: down to label13
.LBB4_18:                               # %join.8.i15.i.i.epil.preheader
	end_block                               # label20:
	local.get	3
	local.get	15
	local.get	4
	i32.wrap_i64
	local.tee	0
	i32.add 
	i32.add 
	local.set	1
	local.get	5
	i32.const	48
	i32.add 
	local.get	16
	local.get	0
	i32.add 
	i32.add 
	local.set	0
.LBB4_19:                               # %join.8.i15.i.i.epil
                                        # =>This Inner Loop Header: Depth=1
	loop    	                                # label22:
	local.get	1
	local.get	1
	i32.load8_u	0
	local.get	0
	i32.load8_u	0
	i32.xor 
	i32.store8	0
	local.get	0
	i32.const	1
	i32.add 
	local.set	0
	local.get	1
	i32.const	1
	i32.add 
	local.set	1
	local.get	8
	i64.const	-1
	i64.add 
	local.tee	8
	i64.const	0
	i64.ne  
	br_if   	0                               # 0: up to label22
	br      	2                               # 2: down to label13
.LBB4_20:                               # %else.2.i
	end_loop
	end_block                               # label14:
	local.get	5
	local.get	4
	i64.store	40
	local.get	5
	i32.const	0
	i32.store	36
	local.get	5
	local.get	3
	i32.store	32
	local.get	5
	local.get	2
	i64.store	24
	local.get	5
	local.get	5
	i32.store	16
	local.get	0
	i32.load	0:p2align=0
	local.get	0
	i64.load	8:p2align=0
	local.get	5
	i32.const	16
	i32.add 
	call	aes_narrow__borrowed_words__call_to_encrypt____b6a72634b88802f3_
	call	aes_cipher__zeroize__stack__wipe_stack____2032_
.LBB4_21:                               # %aes_ctr__add_in_batches__add_stream____72982bb057555e7c_.exit
	end_block                               # label13:
	local.get	5
	i32.const	64
	i32.add 
	global.set	__stack_pointer
                                        # fallthrough-return
	end_function
                                        # -- End function
	.section	.text.aes_narrow__blocks__process_all_batches____1a21aa7f601e7603_,"",@
	.type	aes_narrow__blocks__process_all_batches____1a21aa7f601e7603_,@function # -- Begin function aes_narrow__blocks__process_all_batches____1a21aa7f601e7603_
aes_narrow__blocks__process_all_batches____1a21aa7f601e7603_: # @aes_narrow__blocks__process_all_batches____1a21aa7f601e7603_
	.functype	aes_narrow__blocks__process_all_batches____1a21aa7f601e7603_ (i32, i64, i32, i64) -> ()
	.local  	i64, i64
# %bb.0:                                # %start
	block   	
	local.get	3
	i64.eqz
	br_if   	0                               # 0: down to label23
# %bb.1:                                # %join.5.preheader
	i64.const	0
	local.set	4
.LBB5_2:                                # %join.5
                                        # =>This Inner Loop Header: Depth=1
	loop    	                                # label24:
	local.get	0
	local.get	1
	local.get	2
	local.get	4
	i32.wrap_i64
	i32.const	4
	i32.shl 
	i32.add 
	local.get	3
	local.get	4
	i64.sub 
	local.tee	5
	i64.const	2
	local.get	5
	i64.const	2
	i64.lt_u
	i64.select
	local.tee	5
	call	aes_soft__soft__blocks__filled_up__process_filled_up____1a21aa7f601e7603_
	local.get	5
	local.get	4
	i64.add 
	local.tee	4
	local.get	3
	i64.lt_u
	br_if   	0                               # 0: up to label24
.LBB5_3:                                # %after.1
	end_loop
	end_block                               # label23:
                                        # fallthrough-return
	end_function
                                        # -- End function
	.section	.text.aes_soft__soft__blocks__filled_up__process_filled_up____1a21aa7f601e7603_,"",@
	.type	aes_soft__soft__blocks__filled_up__process_filled_up____1a21aa7f601e7603_,@function # -- Begin function aes_soft__soft__blocks__filled_up__process_filled_up____1a21aa7f601e7603_
aes_soft__soft__blocks__filled_up__process_filled_up____1a21aa7f601e7603_: # @aes_soft__soft__blocks__filled_up__process_filled_up____1a21aa7f601e7603_
	.functype	aes_soft__soft__blocks__filled_up__process_filled_up____1a21aa7f601e7603_ (i32, i64, i32, i64) -> ()
	.local  	i32, i64, i64, i32
# %bb.0:                                # %start
	global.get	__stack_pointer
	i32.const	128
	i32.sub 
	local.tee	4
	global.set	__stack_pointer
	local.get	4
	i64.const	0
	i64.store	88
	local.get	4
	i64.const	0
	i64.store	80
	local.get	4
	i64.const	0
	i64.store	72
	local.get	4
	i64.const	0
	i64.store	64
	local.get	4
	i64.const	0
	i64.store	32
	local.get	4
	i64.const	0
	i64.store	40
	local.get	4
	i64.const	0
	i64.store	48
	local.get	4
	i64.const	0
	i64.store	56
	local.get	4
	i64.const	0
	i64.store	0
	local.get	4
	i64.const	0
	i64.store	8
	local.get	4
	i64.const	0
	i64.store	16
	local.get	4
	i64.const	0
	i64.store	24
	local.get	4
	local.get	2
	i64.load	0:p2align=0
	local.tee	5
	i64.store	96
	local.get	4
	local.get	2
	i64.load	8:p2align=0
	local.tee	6
	i64.store	104
	local.get	4
	local.get	6
	i64.store	120
	local.get	4
	local.get	5
	i64.store	112
	local.get	1
	i64.const	3
	i64.shr_u
	i64.const	-1
	i64.add 
	local.set	1
	block   	
	block   	
	local.get	3
	i64.const	0
	i64.eq  
	br_if   	0                               # 0: down to label26
# %bb.1:                                # %join.8.i
	local.get	4
	local.get	2
	i64.load	8:p2align=0
	i64.store	104
	local.get	4
	local.get	2
	i64.load	0:p2align=0
	i64.store	96
	local.get	3
	i64.const	1
	i64.eq  
	br_if   	0                               # 0: down to label26
# %bb.2:                                # %join.8.i.1
	local.get	4
	local.get	4
	i64.load	96
	i64.store	32
	local.get	4
	local.get	4
	i64.load	104
	i64.store	40
	local.get	4
	local.get	2
	i64.load	24:p2align=0
	local.tee	5
	i64.store	120
	local.get	4
	local.get	2
	i64.load	16:p2align=0
	local.tee	6
	i64.store	112
	local.get	4
	local.get	6
	i64.store	48
	local.get	4
	local.get	5
	i64.store	56
	br      	1                               # 1: down to label25
.LBB6_3:                                # %then.6.i
	end_block                               # label26:
	local.get	4
	local.get	4
	i64.load	120
	i64.store	56
	local.get	4
	local.get	4
	i64.load	112
	i64.store	48
	local.get	4
	local.get	4
	i64.load	104
	i64.store	40
	local.get	4
	local.get	4
	i64.load	96
	i64.store	32
.LBB6_4:                                # %aes_soft__soft__blocks__filled_up__filled_up____7d3b633001169d8c_.exit
	end_block                               # label25:
	local.get	4
	local.get	0
	local.get	1
	local.get	4
	i32.const	32
	i32.add 
	call	aes_soft__soft__ciphers__planes__process_outlined____18f5f0e5023a24e4_
	local.get	4
	local.get	4
	i64.load	24
	i64.store	88
	local.get	4
	local.get	4
	i64.load	16
	i64.store	80
	local.get	4
	local.get	4
	i64.load	8
	i64.store	72
	local.get	4
	local.get	4
	i64.load	0
	i64.store	64
	block   	
	local.get	3
	i64.eqz
	br_if   	0                               # 0: down to label27
# %bb.5:                                # %join.8.i22.preheader
	i64.const	0
	local.set	1
	block   	
	local.get	3
	i64.const	1
	i64.eq  
	local.tee	0
	br_if   	0                               # 0: down to label28
# %bb.6:                                # %join.8.i22.preheader.new
	i64.const	1
	i64.const	2
	local.get	0
	i64.select
	local.tee	1
	i64.const	1
	i64.and 
	local.set	5
	local.get	1
	i64.const	2
	i64.and 
	local.set	3
	i64.const	0
	local.set	1
	local.get	4
	i32.const	64
	i32.add 
	local.set	0
	local.get	2
	local.set	7
.LBB6_7:                                # %join.8.i22
                                        # =>This Inner Loop Header: Depth=1
	loop    	                                # label29:
	local.get	7
	local.get	0
	i64.load	8:p2align=0
	i64.store	8:p2align=0
	local.get	7
	local.get	0
	i64.load	0:p2align=0
	i64.store	0:p2align=0
	local.get	7
	i32.const	16
	i32.add 
	local.get	0
	i32.const	16
	i32.add 
	i64.load	0:p2align=0
	i64.store	0:p2align=0
	local.get	7
	i32.const	24
	i32.add 
	local.get	0
	i32.const	24
	i32.add 
	i64.load	0:p2align=0
	i64.store	0:p2align=0
	local.get	7
	i32.const	32
	i32.add 
	local.set	7
	local.get	0
	i32.const	32
	i32.add 
	local.set	0
	local.get	3
	local.get	1
	i64.const	2
	i64.add 
	local.tee	1
	i64.ne  
	br_if   	0                               # 0: up to label29
# %bb.8:                                # %aes_soft__soft__blocks__filled_up__copy_first____7d3b633001169d8c_.exit.loopexit.unr-lcssa
	end_loop
	local.get	5
	i64.eqz
	br_if   	1                               # 1: down to label27
.LBB6_9:                                # %join.8.i22.epil.preheader
	end_block                               # label28:
	local.get	2
	local.get	1
	i32.wrap_i64
	i32.const	4
	i32.shl 
	local.tee	0
	i32.add 
	local.tee	7
	local.get	4
	i32.const	64
	i32.add 
	local.get	0
	i32.add 
	local.tee	0
	i64.load	8:p2align=0
	i64.store	8:p2align=0
	local.get	7
	local.get	0
	i64.load	0:p2align=0
	i64.store	0:p2align=0
.LBB6_10:                               # %aes_soft__soft__blocks__filled_up__copy_first____7d3b633001169d8c_.exit
	end_block                               # label27:
	local.get	4
	i32.const	128
	i32.add 
	global.set	__stack_pointer
                                        # fallthrough-return
	end_function
                                        # -- End function
	.section	.text.aes_soft__soft__ciphers__planes__process_outlined____18f5f0e5023a24e4_,"",@
	.type	aes_soft__soft__ciphers__planes__process_outlined____18f5f0e5023a24e4_,@function # -- Begin function aes_soft__soft__ciphers__planes__process_outlined____18f5f0e5023a24e4_
aes_soft__soft__ciphers__planes__process_outlined____18f5f0e5023a24e4_: # @aes_soft__soft__ciphers__planes__process_outlined____18f5f0e5023a24e4_
	.functype	aes_soft__soft__ciphers__planes__process_outlined____18f5f0e5023a24e4_ (i32, i32, i64, i32) -> ()
	.local  	i32, i32, i32, i32, i32, i32, i32, i32, i32, i32, i32, i32, i32, i32, i32, i32, i64, i64, i32, i32, i32, i32, i32, i32, i32, i32, i32, i32, i32, i32, i32
# %bb.0:                                # %start
	global.get	__stack_pointer
	i32.const	96
	i32.sub 
	local.tee	4
	global.set	__stack_pointer
	local.get	3
	i32.load	28:p2align=0
	local.tee	5
	local.get	3
	i32.load	12:p2align=0
	local.tee	6
	i32.const	1
	i32.shr_u
	i32.xor 
	i32.const	1431655765
	i32.and 
	local.tee	7
	local.get	5
	i32.xor 
	local.tee	5
	local.get	3
	i32.load	24:p2align=0
	local.tee	8
	local.get	3
	i32.load	8:p2align=0
	local.tee	9
	i32.const	1
	i32.shr_u
	i32.xor 
	i32.const	1431655765
	i32.and 
	local.tee	10
	local.get	8
	i32.xor 
	local.tee	11
	i32.const	2
	i32.shr_u
	i32.xor 
	i32.const	858993459
	i32.and 
	local.tee	12
	local.get	5
	i32.xor 
	local.tee	5
	local.get	1
	i32.load	28
	i32.xor 
	local.get	5
	local.get	3
	i32.load	20:p2align=0
	local.tee	8
	local.get	3
	i32.load	4:p2align=0
	local.tee	13
	i32.const	1
	i32.shr_u
	i32.xor 
	i32.const	1431655765
	i32.and 
	local.tee	14
	local.get	8
	i32.xor 
	local.tee	8
	local.get	3
	i32.load	16:p2align=0
	local.tee	15
	local.get	3
	i32.load	0:p2align=0
	local.tee	3
	i32.const	1
	i32.shr_u
	i32.xor 
	i32.const	1431655765
	i32.and 
	local.tee	16
	local.get	15
	i32.xor 
	local.tee	15
	i32.const	2
	i32.shr_u
	i32.xor 
	i32.const	858993459
	i32.and 
	local.tee	17
	local.get	8
	i32.xor 
	local.tee	18
	i32.const	4
	i32.shr_u
	i32.xor 
	i32.const	252645135
	i32.and 
	local.tee	19
	i32.xor 
	local.set	5
	local.get	7
	i32.const	1
	i32.shl 
	local.get	6
	i32.xor 
	local.tee	6
	local.get	10
	i32.const	1
	i32.shl 
	local.get	9
	i32.xor 
	local.tee	7
	i32.const	2
	i32.shr_u
	i32.xor 
	i32.const	858993459
	i32.and 
	local.tee	9
	local.get	6
	i32.xor 
	local.tee	6
	local.get	1
	i32.load	24
	i32.xor 
	local.get	6
	local.get	14
	i32.const	1
	i32.shl 
	local.get	13
	i32.xor 
	local.tee	8
	local.get	16
	i32.const	1
	i32.shl 
	local.get	3
	i32.xor 
	local.tee	3
	i32.const	2
	i32.shr_u
	i32.xor 
	i32.const	858993459
	i32.and 
	local.tee	10
	local.get	8
	i32.xor 
	local.tee	13
	i32.const	4
	i32.shr_u
	i32.xor 
	i32.const	252645135
	i32.and 
	local.tee	6
	i32.xor 
	local.set	8
	local.get	12
	i32.const	2
	i32.shl 
	local.get	11
	i32.xor 
	local.tee	11
	local.get	1
	i32.load	20
	i32.xor 
	local.get	11
	local.get	17
	i32.const	2
	i32.shl 
	local.get	15
	i32.xor 
	local.tee	14
	i32.const	4
	i32.shr_u
	i32.xor 
	i32.const	252645135
	i32.and 
	local.tee	11
	i32.xor 
	local.set	12
	local.get	9
	i32.const	2
	i32.shl 
	local.get	7
	i32.xor 
	local.tee	7
	local.get	1
	i32.load	16
	i32.xor 
	local.get	7
	local.get	10
	i32.const	2
	i32.shl 
	local.get	3
	i32.xor 
	local.tee	3
	i32.const	4
	i32.shr_u
	i32.xor 
	i32.const	252645135
	i32.and 
	local.tee	15
	i32.xor 
	local.set	9
	local.get	19
	i32.const	4
	i32.shl 
	local.get	1
	i32.load	12
	i32.xor 
	local.get	18
	i32.xor 
	local.set	7
	local.get	6
	i32.const	4
	i32.shl 
	local.get	1
	i32.load	8
	i32.xor 
	local.get	13
	i32.xor 
	local.set	10
	local.get	11
	i32.const	4
	i32.shl 
	local.get	1
	i32.load	4
	i32.xor 
	local.get	14
	i32.xor 
	local.set	13
	local.get	15
	i32.const	4
	i32.shl 
	local.get	1
	i32.load	0
	i32.xor 
	local.get	3
	i32.xor 
	local.set	6
	block   	
	local.get	2
	i64.const	-2
	i64.add 
	local.tee	20
	i64.const	2
	i64.shr_u
	local.tee	21
	i64.eqz
	br_if   	0                               # 0: down to label30
# %bb.1:                                # %join.7.lr.ph.i
	local.get	1
	local.set	3
.LBB7_2:                                # %join.7.i
                                        # =>This Inner Loop Header: Depth=1
	loop    	                                # label31:
	local.get	4
	local.get	13
	local.get	5
	i32.xor 
	local.tee	11
	local.get	10
	local.get	9
	i32.xor 
	local.tee	15
	i32.xor 
	local.tee	16
	local.get	7
	i32.xor 
	local.tee	19
	local.get	8
	i32.xor 
	local.tee	22
	local.get	9
	local.get	5
	i32.xor 
	local.tee	17
	i32.xor 
	local.tee	7
	local.get	12
	local.get	8
	i32.xor 
	local.tee	14
	i32.xor 
	local.tee	12
	local.get	6
	local.get	14
	i32.xor 
	local.tee	8
	local.get	13
	i32.xor 
	local.tee	18
	local.get	8
	i32.and 
	i32.xor 
	local.get	12
	local.get	11
	i32.and 
	local.tee	23
	i32.xor 
	local.get	11
	i32.xor 
	local.get	7
	local.get	19
	local.get	10
	i32.xor 
	local.tee	13
	local.get	14
	i32.xor 
	local.tee	14
	i32.xor 
	local.tee	24
	local.get	15
	i32.and 
	local.get	7
	local.get	17
	i32.and 
	local.tee	25
	i32.xor 
	local.tee	26
	i32.xor 
	local.tee	19
	local.get	22
	local.get	13
	local.get	6
	i32.xor 
	local.tee	27
	local.get	18
	local.get	10
	local.get	5
	i32.xor 
	local.tee	10
	i32.xor 
	local.tee	28
	i32.and 
	i32.xor 
	local.get	13
	local.get	16
	i32.and 
	local.tee	29
	i32.xor 
	local.get	26
	i32.xor 
	local.tee	26
	i32.and 
	local.tee	22
	local.get	8
	local.get	9
	i32.xor 
	local.tee	30
	local.get	6
	i32.and 
	local.get	10
	i32.xor 
	local.get	14
	i32.xor 
	local.get	29
	i32.xor 
	local.get	14
	local.get	10
	i32.and 
	local.get	25
	i32.xor 
	local.tee	9
	i32.xor 
	local.tee	25
	i32.xor 
	local.get	12
	local.get	7
	local.get	6
	i32.xor 
	local.tee	29
	local.get	8
	local.get	5
	i32.xor 
	local.tee	31
	i32.and 
	i32.xor 
	local.get	23
	i32.xor 
	local.get	5
	i32.xor 
	local.get	9
	i32.xor 
	local.tee	5
	local.get	19
	i32.xor 
	i32.and 
	local.tee	9
	local.get	22
	i32.xor 
	local.get	5
	i32.and 
	local.tee	32
	local.get	19
	i32.xor 
	local.tee	19
	local.get	9
	local.get	5
	i32.xor 
	local.tee	9
	i32.xor 
	local.tee	23
	local.get	27
	i32.and 
	local.get	19
	local.get	13
	i32.and 
	local.tee	27
	i32.xor 
	local.get	32
	local.get	22
	local.get	5
	i32.xor 
	local.tee	5
	i32.xor 
	local.get	5
	local.get	26
	local.get	25
	i32.xor 
	local.tee	13
	i32.and 
	local.get	25
	i32.xor 
	local.tee	5
	i32.and 
	local.get	13
	i32.xor 
	local.tee	13
	local.get	5
	i32.xor 
	local.tee	25
	local.get	12
	i32.and 
	local.tee	26
	local.get	13
	local.get	8
	i32.and 
	i32.xor 
	local.tee	32
	i32.xor 
	local.get	13
	local.get	23
	i32.xor 
	local.tee	12
	local.get	5
	local.get	9
	i32.xor 
	local.tee	22
	i32.xor 
	local.tee	33
	local.get	15
	i32.and 
	local.get	22
	local.get	17
	i32.and 
	local.tee	15
	i32.xor 
	local.tee	17
	local.get	23
	local.get	28
	i32.and 
	i32.xor 
	local.tee	23
	local.get	19
	local.get	16
	i32.and 
	i32.xor 
	local.tee	16
	i32.xor 
	local.tee	8
	i32.store	16
	local.get	4
	local.get	8
	local.get	32
	local.get	33
	local.get	24
	i32.and 
	i32.xor 
	local.tee	19
	local.get	22
	local.get	7
	i32.and 
	i32.xor 
	local.tee	7
	i32.xor 
	local.tee	22
	i32.store	24
	local.get	4
	local.get	12
	local.get	10
	i32.and 
	local.get	15
	i32.xor 
	local.get	7
	i32.xor 
	local.get	12
	local.get	14
	i32.and 
	local.get	27
	local.get	9
	local.get	6
	i32.and 
	i32.xor 
	local.tee	6
	i32.xor 
	local.get	25
	local.get	11
	i32.and 
	local.tee	10
	i32.xor 
	local.get	19
	i32.xor 
	local.tee	11
	local.get	5
	local.get	31
	i32.and 
	i32.xor 
	local.tee	12
	i32.xor 
	local.tee	14
	i32.store	20
	local.get	4
	local.get	6
	local.get	5
	local.get	29
	i32.and 
	i32.xor 
	local.get	26
	i32.xor 
	local.tee	5
	local.get	13
	local.get	18
	i32.and 
	i32.xor 
	local.get	17
	i32.xor 
	local.tee	6
	local.get	11
	i32.xor 
	local.tee	11
	i32.store	4
	local.get	4
	local.get	16
	local.get	7
	i32.xor 
	local.tee	7
	i32.store	28
	local.get	4
	local.get	23
	local.get	9
	local.get	30
	i32.and 
	i32.xor 
	local.get	12
	i32.xor 
	local.tee	9
	i32.store	8
	local.get	4
	local.get	8
	local.get	5
	i32.xor 
	local.tee	5
	i32.store	12
	local.get	4
	local.get	6
	local.get	10
	i32.xor 
	local.tee	6
	i32.store	0
	local.get	4
	i32.const	32
	i32.add 
	local.get	4
	i32.const	1
	i32.const	1
	call	aes_planes__soft__word__word32__U32Word__rotate_planes
	local.get	4
	local.get	11
	local.get	4
	i32.load	36
	local.tee	10
	i32.xor 
	i32.store	36
	local.get	4
	local.get	6
	local.get	4
	i32.load	32
	local.tee	11
	i32.xor 
	i32.store	32
	local.get	4
	local.get	5
	local.get	4
	i32.load	44
	local.tee	6
	i32.xor 
	i32.store	44
	local.get	4
	local.get	9
	local.get	4
	i32.load	40
	local.tee	12
	i32.xor 
	i32.store	40
	local.get	4
	local.get	14
	local.get	4
	i32.load	52
	local.tee	9
	i32.xor 
	i32.store	52
	local.get	4
	local.get	8
	local.get	4
	i32.load	48
	local.tee	13
	i32.xor 
	i32.store	48
	local.get	4
	local.get	7
	local.get	4
	i32.load	60
	local.tee	8
	i32.xor 
	i32.store	60
	local.get	4
	local.get	22
	local.get	4
	i32.load	56
	local.tee	7
	i32.xor 
	i32.store	56
	local.get	4
	local.get	4
	i64.load	32:p2align=2
	i64.store	64
	local.get	4
	local.get	4
	i64.load	40:p2align=2
	i64.store	72
	local.get	4
	local.get	4
	i64.load	48:p2align=2
	i64.store	80
	local.get	4
	local.get	4
	i64.load	56:p2align=2
	i64.store	88
	local.get	4
	i32.load	76
	local.set	14
	local.get	4
	i32.load	80
	local.set	15
	local.get	4
	i32.load	72
	local.set	16
	local.get	4
	i32.load	68
	local.set	17
	local.get	4
	i32.load	64
	local.set	18
	local.get	4
	i32.load	92
	local.set	5
	local.get	4
	i32.load	84
	local.set	19
	local.get	4
	i32.load	88
	local.set	22
	local.get	4
	i32.const	32
	i32.add 
	local.get	4
	i32.const	64
	i32.add 
	i32.const	2
	i32.const	2
	call	aes_planes__soft__word__word32__U32Word__rotate_planes
	local.get	4
	local.get	8
	local.get	22
	local.get	4
	i32.load	60
	i32.xor 
	i32.xor 
	i32.store	60
	local.get	4
	local.get	7
	local.get	19
	local.get	4
	i32.load	56
	i32.xor 
	i32.xor 
	i32.store	56
	local.get	4
	local.get	5
	local.get	11
	local.get	4
	i32.load	32
	i32.xor 
	i32.xor 
	i32.store	32
	local.get	4
	local.get	5
	local.get	10
	local.get	18
	local.get	4
	i32.load	36
	i32.xor 
	i32.xor 
	i32.xor 
	i32.store	36
	local.get	4
	local.get	12
	local.get	17
	local.get	4
	i32.load	40
	i32.xor 
	i32.xor 
	i32.store	40
	local.get	4
	local.get	5
	local.get	6
	local.get	16
	local.get	4
	i32.load	44
	i32.xor 
	i32.xor 
	i32.xor 
	i32.store	44
	local.get	4
	local.get	9
	local.get	15
	local.get	4
	i32.load	52
	i32.xor 
	i32.xor 
	i32.store	52
	local.get	4
	local.get	5
	local.get	13
	local.get	14
	local.get	4
	i32.load	48
	i32.xor 
	i32.xor 
	i32.xor 
	i32.store	48
	local.get	4
	local.get	4
	i64.load	56:p2align=2
	i64.store	24
	local.get	4
	local.get	4
	i64.load	32:p2align=2
	i64.store	0
	local.get	4
	local.get	4
	i64.load	40:p2align=2
	i64.store	8
	local.get	4
	local.get	4
	i64.load	48:p2align=2
	i64.store	16
	local.get	4
	local.get	4
	i32.load	12
	local.get	3
	i32.const	44
	i32.add 
	i32.load	0
	i32.xor 
	local.get	4
	i32.load	28
	local.get	3
	i32.const	60
	i32.add 
	i32.load	0
	i32.xor 
	local.tee	5
	local.get	4
	i32.load	4
	local.get	3
	i32.const	36
	i32.add 
	i32.load	0
	i32.xor 
	local.tee	11
	i32.xor 
	local.tee	9
	local.get	4
	i32.load	16
	local.get	3
	i32.const	48
	i32.add 
	i32.load	0
	i32.xor 
	local.tee	14
	local.get	4
	i32.load	8
	local.get	3
	i32.const	40
	i32.add 
	i32.load	0
	i32.xor 
	local.tee	13
	i32.xor 
	local.tee	15
	i32.xor 
	local.tee	16
	i32.xor 
	local.tee	19
	local.get	4
	i32.load	24
	local.get	3
	i32.const	56
	i32.add 
	i32.load	0
	i32.xor 
	local.tee	7
	i32.xor 
	local.tee	22
	local.get	5
	local.get	14
	i32.xor 
	local.tee	17
	i32.xor 
	local.tee	6
	local.get	4
	i32.load	20
	local.get	3
	i32.const	52
	i32.add 
	i32.load	0
	i32.xor 
	local.get	7
	i32.xor 
	local.tee	12
	i32.xor 
	local.tee	10
	local.get	12
	local.get	4
	i32.load	0
	local.get	3
	i32.const	32
	i32.add 
	i32.load	0
	i32.xor 
	local.tee	7
	i32.xor 
	local.tee	8
	local.get	11
	i32.xor 
	local.tee	18
	local.get	8
	i32.and 
	i32.xor 
	local.get	10
	local.get	9
	i32.and 
	local.tee	23
	i32.xor 
	local.get	9
	i32.xor 
	local.get	6
	local.get	19
	local.get	13
	i32.xor 
	local.tee	11
	local.get	12
	i32.xor 
	local.tee	12
	i32.xor 
	local.tee	24
	local.get	15
	i32.and 
	local.get	6
	local.get	17
	i32.and 
	local.tee	25
	i32.xor 
	local.tee	26
	i32.xor 
	local.tee	19
	local.get	22
	local.get	11
	local.get	7
	i32.xor 
	local.tee	27
	local.get	18
	local.get	5
	local.get	13
	i32.xor 
	local.tee	13
	i32.xor 
	local.tee	28
	i32.and 
	i32.xor 
	local.get	11
	local.get	16
	i32.and 
	local.tee	29
	i32.xor 
	local.get	26
	i32.xor 
	local.tee	26
	i32.and 
	local.tee	22
	local.get	8
	local.get	14
	i32.xor 
	local.tee	30
	local.get	7
	i32.and 
	local.get	13
	i32.xor 
	local.get	12
	i32.xor 
	local.get	29
	i32.xor 
	local.get	12
	local.get	13
	i32.and 
	local.get	25
	i32.xor 
	local.tee	14
	i32.xor 
	local.tee	25
	i32.xor 
	local.get	10
	local.get	6
	local.get	7
	i32.xor 
	local.tee	29
	local.get	8
	local.get	5
	i32.xor 
	local.tee	31
	i32.and 
	i32.xor 
	local.get	23
	i32.xor 
	local.get	5
	i32.xor 
	local.get	14
	i32.xor 
	local.tee	5
	local.get	19
	i32.xor 
	i32.and 
	local.tee	14
	local.get	22
	i32.xor 
	local.get	5
	i32.and 
	local.tee	32
	local.get	19
	i32.xor 
	local.tee	19
	local.get	14
	local.get	5
	i32.xor 
	local.tee	14
	i32.xor 
	local.tee	23
	local.get	27
	i32.and 
	local.get	19
	local.get	11
	i32.and 
	local.tee	27
	i32.xor 
	local.get	32
	local.get	22
	local.get	5
	i32.xor 
	local.tee	5
	i32.xor 
	local.get	5
	local.get	26
	local.get	25
	i32.xor 
	local.tee	11
	i32.and 
	local.get	25
	i32.xor 
	local.tee	5
	i32.and 
	local.get	11
	i32.xor 
	local.tee	11
	local.get	5
	i32.xor 
	local.tee	25
	local.get	10
	i32.and 
	local.tee	26
	local.get	11
	local.get	8
	i32.and 
	i32.xor 
	local.tee	32
	i32.xor 
	local.get	11
	local.get	23
	i32.xor 
	local.tee	10
	local.get	5
	local.get	14
	i32.xor 
	local.tee	22
	i32.xor 
	local.tee	33
	local.get	15
	i32.and 
	local.get	22
	local.get	17
	i32.and 
	local.tee	15
	i32.xor 
	local.tee	17
	local.get	23
	local.get	28
	i32.and 
	i32.xor 
	local.tee	23
	local.get	19
	local.get	16
	i32.and 
	i32.xor 
	local.tee	16
	i32.xor 
	local.tee	8
	i32.store	16
	local.get	4
	local.get	8
	local.get	32
	local.get	33
	local.get	24
	i32.and 
	i32.xor 
	local.tee	19
	local.get	22
	local.get	6
	i32.and 
	i32.xor 
	local.tee	6
	i32.xor 
	local.tee	22
	i32.store	24
	local.get	4
	local.get	10
	local.get	13
	i32.and 
	local.get	15
	i32.xor 
	local.get	6
	i32.xor 
	local.get	10
	local.get	12
	i32.and 
	local.get	27
	local.get	14
	local.get	7
	i32.and 
	i32.xor 
	local.tee	7
	i32.xor 
	local.get	25
	local.get	9
	i32.and 
	local.tee	9
	i32.xor 
	local.get	19
	i32.xor 
	local.tee	10
	local.get	5
	local.get	31
	i32.and 
	i32.xor 
	local.tee	12
	i32.xor 
	local.tee	13
	i32.store	20
	local.get	4
	local.get	7
	local.get	5
	local.get	29
	i32.and 
	i32.xor 
	local.get	26
	i32.xor 
	local.tee	5
	local.get	11
	local.get	18
	i32.and 
	i32.xor 
	local.get	17
	i32.xor 
	local.tee	7
	local.get	10
	i32.xor 
	local.tee	10
	i32.store	4
	local.get	4
	local.get	16
	local.get	6
	i32.xor 
	local.tee	6
	i32.store	28
	local.get	4
	local.get	23
	local.get	14
	local.get	30
	i32.and 
	i32.xor 
	local.get	12
	i32.xor 
	local.tee	11
	i32.store	8
	local.get	4
	local.get	8
	local.get	5
	i32.xor 
	local.tee	5
	i32.store	12
	local.get	4
	local.get	7
	local.get	9
	i32.xor 
	local.tee	7
	i32.store	0
	local.get	4
	i32.const	32
	i32.add 
	local.get	4
	i32.const	1
	i32.const	2
	call	aes_planes__soft__word__word32__U32Word__rotate_planes
	local.get	4
	local.get	10
	local.get	4
	i32.load	36
	local.tee	9
	i32.xor 
	i32.store	36
	local.get	4
	local.get	7
	local.get	4
	i32.load	32
	local.tee	10
	i32.xor 
	i32.store	32
	local.get	4
	local.get	5
	local.get	4
	i32.load	44
	local.tee	7
	i32.xor 
	i32.store	44
	local.get	4
	local.get	11
	local.get	4
	i32.load	40
	local.tee	12
	i32.xor 
	i32.store	40
	local.get	4
	local.get	13
	local.get	4
	i32.load	52
	local.tee	11
	i32.xor 
	i32.store	52
	local.get	4
	local.get	8
	local.get	4
	i32.load	48
	local.tee	13
	i32.xor 
	i32.store	48
	local.get	4
	local.get	6
	local.get	4
	i32.load	60
	local.tee	8
	i32.xor 
	i32.store	60
	local.get	4
	local.get	22
	local.get	4
	i32.load	56
	local.tee	6
	i32.xor 
	i32.store	56
	local.get	4
	local.get	4
	i64.load	32:p2align=2
	i64.store	64
	local.get	4
	local.get	4
	i64.load	40:p2align=2
	i64.store	72
	local.get	4
	local.get	4
	i64.load	48:p2align=2
	i64.store	80
	local.get	4
	local.get	4
	i64.load	56:p2align=2
	i64.store	88
	local.get	4
	i32.load	76
	local.set	14
	local.get	4
	i32.load	80
	local.set	15
	local.get	4
	i32.load	72
	local.set	16
	local.get	4
	i32.load	68
	local.set	17
	local.get	4
	i32.load	64
	local.set	18
	local.get	4
	i32.load	92
	local.set	5
	local.get	4
	i32.load	84
	local.set	19
	local.get	4
	i32.load	88
	local.set	22
	local.get	4
	i32.const	32
	i32.add 
	local.get	4
	i32.const	64
	i32.add 
	i32.const	2
	i32.const	0
	call	aes_planes__soft__word__word32__U32Word__rotate_planes
	local.get	4
	local.get	8
	local.get	22
	local.get	4
	i32.load	60
	i32.xor 
	i32.xor 
	i32.store	60
	local.get	4
	local.get	6
	local.get	19
	local.get	4
	i32.load	56
	i32.xor 
	i32.xor 
	i32.store	56
	local.get	4
	local.get	5
	local.get	10
	local.get	4
	i32.load	32
	i32.xor 
	i32.xor 
	i32.store	32
	local.get	4
	local.get	5
	local.get	9
	local.get	18
	local.get	4
	i32.load	36
	i32.xor 
	i32.xor 
	i32.xor 
	i32.store	36
	local.get	4
	local.get	12
	local.get	17
	local.get	4
	i32.load	40
	i32.xor 
	i32.xor 
	i32.store	40
	local.get	4
	local.get	5
	local.get	7
	local.get	16
	local.get	4
	i32.load	44
	i32.xor 
	i32.xor 
	i32.xor 
	i32.store	44
	local.get	4
	local.get	11
	local.get	15
	local.get	4
	i32.load	52
	i32.xor 
	i32.xor 
	i32.store	52
	local.get	4
	local.get	5
	local.get	13
	local.get	14
	local.get	4
	i32.load	48
	i32.xor 
	i32.xor 
	i32.xor 
	i32.store	48
	local.get	4
	local.get	4
	i64.load	56:p2align=2
	i64.store	24
	local.get	4
	local.get	4
	i64.load	32:p2align=2
	i64.store	0
	local.get	4
	local.get	4
	i64.load	40:p2align=2
	i64.store	8
	local.get	4
	local.get	4
	i64.load	48:p2align=2
	i64.store	16
	local.get	4
	local.get	4
	i32.load	12
	local.get	3
	i32.const	76
	i32.add 
	i32.load	0
	i32.xor 
	local.get	4
	i32.load	28
	local.get	3
	i32.const	92
	i32.add 
	i32.load	0
	i32.xor 
	local.tee	5
	local.get	4
	i32.load	4
	local.get	3
	i32.const	68
	i32.add 
	i32.load	0
	i32.xor 
	local.tee	11
	i32.xor 
	local.tee	9
	local.get	4
	i32.load	16
	local.get	3
	i32.const	80
	i32.add 
	i32.load	0
	i32.xor 
	local.tee	14
	local.get	4
	i32.load	8
	local.get	3
	i32.const	72
	i32.add 
	i32.load	0
	i32.xor 
	local.tee	13
	i32.xor 
	local.tee	15
	i32.xor 
	local.tee	16
	i32.xor 
	local.tee	19
	local.get	4
	i32.load	24
	local.get	3
	i32.const	88
	i32.add 
	i32.load	0
	i32.xor 
	local.tee	7
	i32.xor 
	local.tee	22
	local.get	5
	local.get	14
	i32.xor 
	local.tee	17
	i32.xor 
	local.tee	6
	local.get	4
	i32.load	20
	local.get	3
	i32.const	84
	i32.add 
	i32.load	0
	i32.xor 
	local.get	7
	i32.xor 
	local.tee	12
	i32.xor 
	local.tee	10
	local.get	12
	local.get	4
	i32.load	0
	local.get	3
	i32.const	64
	i32.add 
	i32.load	0
	i32.xor 
	local.tee	7
	i32.xor 
	local.tee	8
	local.get	11
	i32.xor 
	local.tee	18
	local.get	8
	i32.and 
	i32.xor 
	local.get	10
	local.get	9
	i32.and 
	local.tee	23
	i32.xor 
	local.get	9
	i32.xor 
	local.get	6
	local.get	19
	local.get	13
	i32.xor 
	local.tee	11
	local.get	12
	i32.xor 
	local.tee	12
	i32.xor 
	local.tee	24
	local.get	15
	i32.and 
	local.get	6
	local.get	17
	i32.and 
	local.tee	25
	i32.xor 
	local.tee	26
	i32.xor 
	local.tee	19
	local.get	22
	local.get	11
	local.get	7
	i32.xor 
	local.tee	27
	local.get	18
	local.get	5
	local.get	13
	i32.xor 
	local.tee	13
	i32.xor 
	local.tee	28
	i32.and 
	i32.xor 
	local.get	11
	local.get	16
	i32.and 
	local.tee	29
	i32.xor 
	local.get	26
	i32.xor 
	local.tee	26
	i32.and 
	local.tee	22
	local.get	8
	local.get	14
	i32.xor 
	local.tee	30
	local.get	7
	i32.and 
	local.get	13
	i32.xor 
	local.get	12
	i32.xor 
	local.get	29
	i32.xor 
	local.get	12
	local.get	13
	i32.and 
	local.get	25
	i32.xor 
	local.tee	14
	i32.xor 
	local.tee	25
	i32.xor 
	local.get	10
	local.get	6
	local.get	7
	i32.xor 
	local.tee	29
	local.get	8
	local.get	5
	i32.xor 
	local.tee	31
	i32.and 
	i32.xor 
	local.get	23
	i32.xor 
	local.get	5
	i32.xor 
	local.get	14
	i32.xor 
	local.tee	5
	local.get	19
	i32.xor 
	i32.and 
	local.tee	14
	local.get	22
	i32.xor 
	local.get	5
	i32.and 
	local.tee	32
	local.get	19
	i32.xor 
	local.tee	19
	local.get	14
	local.get	5
	i32.xor 
	local.tee	14
	i32.xor 
	local.tee	23
	local.get	27
	i32.and 
	local.get	19
	local.get	11
	i32.and 
	local.tee	27
	i32.xor 
	local.get	32
	local.get	22
	local.get	5
	i32.xor 
	local.tee	5
	i32.xor 
	local.get	5
	local.get	26
	local.get	25
	i32.xor 
	local.tee	11
	i32.and 
	local.get	25
	i32.xor 
	local.tee	5
	i32.and 
	local.get	11
	i32.xor 
	local.tee	11
	local.get	5
	i32.xor 
	local.tee	25
	local.get	10
	i32.and 
	local.tee	26
	local.get	11
	local.get	8
	i32.and 
	i32.xor 
	local.tee	32
	i32.xor 
	local.get	11
	local.get	23
	i32.xor 
	local.tee	10
	local.get	5
	local.get	14
	i32.xor 
	local.tee	22
	i32.xor 
	local.tee	33
	local.get	15
	i32.and 
	local.get	22
	local.get	17
	i32.and 
	local.tee	15
	i32.xor 
	local.tee	17
	local.get	23
	local.get	28
	i32.and 
	i32.xor 
	local.tee	23
	local.get	19
	local.get	16
	i32.and 
	i32.xor 
	local.tee	16
	i32.xor 
	local.tee	8
	i32.store	16
	local.get	4
	local.get	8
	local.get	32
	local.get	33
	local.get	24
	i32.and 
	i32.xor 
	local.tee	19
	local.get	22
	local.get	6
	i32.and 
	i32.xor 
	local.tee	6
	i32.xor 
	local.tee	22
	i32.store	24
	local.get	4
	local.get	10
	local.get	13
	i32.and 
	local.get	15
	i32.xor 
	local.get	6
	i32.xor 
	local.get	10
	local.get	12
	i32.and 
	local.get	27
	local.get	14
	local.get	7
	i32.and 
	i32.xor 
	local.tee	7
	i32.xor 
	local.get	25
	local.get	9
	i32.and 
	local.tee	9
	i32.xor 
	local.get	19
	i32.xor 
	local.tee	10
	local.get	5
	local.get	31
	i32.and 
	i32.xor 
	local.tee	12
	i32.xor 
	local.tee	13
	i32.store	20
	local.get	4
	local.get	7
	local.get	5
	local.get	29
	i32.and 
	i32.xor 
	local.get	26
	i32.xor 
	local.tee	5
	local.get	11
	local.get	18
	i32.and 
	i32.xor 
	local.get	17
	i32.xor 
	local.tee	7
	local.get	10
	i32.xor 
	local.tee	10
	i32.store	4
	local.get	4
	local.get	16
	local.get	6
	i32.xor 
	local.tee	6
	i32.store	28
	local.get	4
	local.get	23
	local.get	14
	local.get	30
	i32.and 
	i32.xor 
	local.get	12
	i32.xor 
	local.tee	11
	i32.store	8
	local.get	4
	local.get	8
	local.get	5
	i32.xor 
	local.tee	5
	i32.store	12
	local.get	4
	local.get	7
	local.get	9
	i32.xor 
	local.tee	7
	i32.store	0
	local.get	4
	i32.const	32
	i32.add 
	local.get	4
	i32.const	1
	i32.const	3
	call	aes_planes__soft__word__word32__U32Word__rotate_planes
	local.get	4
	local.get	10
	local.get	4
	i32.load	36
	local.tee	9
	i32.xor 
	i32.store	36
	local.get	4
	local.get	7
	local.get	4
	i32.load	32
	local.tee	10
	i32.xor 
	i32.store	32
	local.get	4
	local.get	5
	local.get	4
	i32.load	44
	local.tee	7
	i32.xor 
	i32.store	44
	local.get	4
	local.get	11
	local.get	4
	i32.load	40
	local.tee	12
	i32.xor 
	i32.store	40
	local.get	4
	local.get	13
	local.get	4
	i32.load	52
	local.tee	11
	i32.xor 
	i32.store	52
	local.get	4
	local.get	8
	local.get	4
	i32.load	48
	local.tee	13
	i32.xor 
	i32.store	48
	local.get	4
	local.get	6
	local.get	4
	i32.load	60
	local.tee	8
	i32.xor 
	i32.store	60
	local.get	4
	local.get	22
	local.get	4
	i32.load	56
	local.tee	6
	i32.xor 
	i32.store	56
	local.get	4
	local.get	4
	i64.load	32:p2align=2
	i64.store	64
	local.get	4
	local.get	4
	i64.load	40:p2align=2
	i64.store	72
	local.get	4
	local.get	4
	i64.load	48:p2align=2
	i64.store	80
	local.get	4
	local.get	4
	i64.load	56:p2align=2
	i64.store	88
	local.get	4
	i32.load	76
	local.set	14
	local.get	4
	i32.load	80
	local.set	15
	local.get	4
	i32.load	72
	local.set	16
	local.get	4
	i32.load	68
	local.set	17
	local.get	4
	i32.load	64
	local.set	18
	local.get	4
	i32.load	92
	local.set	5
	local.get	4
	i32.load	84
	local.set	19
	local.get	4
	i32.load	88
	local.set	22
	local.get	4
	i32.const	32
	i32.add 
	local.get	4
	i32.const	64
	i32.add 
	i32.const	2
	i32.const	2
	call	aes_planes__soft__word__word32__U32Word__rotate_planes
	local.get	4
	local.get	8
	local.get	22
	local.get	4
	i32.load	60
	i32.xor 
	i32.xor 
	i32.store	60
	local.get	4
	local.get	6
	local.get	19
	local.get	4
	i32.load	56
	i32.xor 
	i32.xor 
	i32.store	56
	local.get	4
	local.get	5
	local.get	10
	local.get	4
	i32.load	32
	i32.xor 
	i32.xor 
	i32.store	32
	local.get	4
	local.get	5
	local.get	9
	local.get	18
	local.get	4
	i32.load	36
	i32.xor 
	i32.xor 
	i32.xor 
	i32.store	36
	local.get	4
	local.get	12
	local.get	17
	local.get	4
	i32.load	40
	i32.xor 
	i32.xor 
	i32.store	40
	local.get	4
	local.get	5
	local.get	7
	local.get	16
	local.get	4
	i32.load	44
	i32.xor 
	i32.xor 
	i32.xor 
	i32.store	44
	local.get	4
	local.get	11
	local.get	15
	local.get	4
	i32.load	52
	i32.xor 
	i32.xor 
	i32.store	52
	local.get	4
	local.get	5
	local.get	13
	local.get	14
	local.get	4
	i32.load	48
	i32.xor 
	i32.xor 
	i32.xor 
	i32.store	48
	local.get	4
	local.get	4
	i64.load	56:p2align=2
	i64.store	24
	local.get	4
	local.get	4
	i64.load	32:p2align=2
	i64.store	0
	local.get	4
	local.get	4
	i64.load	40:p2align=2
	i64.store	8
	local.get	4
	local.get	4
	i64.load	48:p2align=2
	i64.store	16
	local.get	4
	local.get	4
	i32.load	12
	local.get	3
	i32.const	108
	i32.add 
	i32.load	0
	i32.xor 
	local.get	4
	i32.load	28
	local.get	3
	i32.const	124
	i32.add 
	i32.load	0
	i32.xor 
	local.tee	5
	local.get	4
	i32.load	4
	local.get	3
	i32.const	100
	i32.add 
	i32.load	0
	i32.xor 
	local.tee	11
	i32.xor 
	local.tee	9
	local.get	4
	i32.load	16
	local.get	3
	i32.const	112
	i32.add 
	i32.load	0
	i32.xor 
	local.tee	14
	local.get	4
	i32.load	8
	local.get	3
	i32.const	104
	i32.add 
	i32.load	0
	i32.xor 
	local.tee	13
	i32.xor 
	local.tee	15
	i32.xor 
	local.tee	16
	i32.xor 
	local.tee	19
	local.get	4
	i32.load	24
	local.get	3
	i32.const	120
	i32.add 
	i32.load	0
	i32.xor 
	local.tee	7
	i32.xor 
	local.tee	22
	local.get	5
	local.get	14
	i32.xor 
	local.tee	17
	i32.xor 
	local.tee	6
	local.get	4
	i32.load	20
	local.get	3
	i32.const	116
	i32.add 
	i32.load	0
	i32.xor 
	local.get	7
	i32.xor 
	local.tee	12
	i32.xor 
	local.tee	10
	local.get	12
	local.get	4
	i32.load	0
	local.get	3
	i32.const	96
	i32.add 
	i32.load	0
	i32.xor 
	local.tee	7
	i32.xor 
	local.tee	8
	local.get	11
	i32.xor 
	local.tee	18
	local.get	8
	i32.and 
	i32.xor 
	local.get	10
	local.get	9
	i32.and 
	local.tee	23
	i32.xor 
	local.get	9
	i32.xor 
	local.get	6
	local.get	19
	local.get	13
	i32.xor 
	local.tee	11
	local.get	12
	i32.xor 
	local.tee	12
	i32.xor 
	local.tee	24
	local.get	15
	i32.and 
	local.get	6
	local.get	17
	i32.and 
	local.tee	25
	i32.xor 
	local.tee	26
	i32.xor 
	local.tee	19
	local.get	22
	local.get	11
	local.get	7
	i32.xor 
	local.tee	27
	local.get	18
	local.get	5
	local.get	13
	i32.xor 
	local.tee	13
	i32.xor 
	local.tee	28
	i32.and 
	i32.xor 
	local.get	11
	local.get	16
	i32.and 
	local.tee	29
	i32.xor 
	local.get	26
	i32.xor 
	local.tee	26
	i32.and 
	local.tee	22
	local.get	8
	local.get	14
	i32.xor 
	local.tee	30
	local.get	7
	i32.and 
	local.get	13
	i32.xor 
	local.get	12
	i32.xor 
	local.get	29
	i32.xor 
	local.get	12
	local.get	13
	i32.and 
	local.get	25
	i32.xor 
	local.tee	14
	i32.xor 
	local.tee	25
	i32.xor 
	local.get	10
	local.get	6
	local.get	7
	i32.xor 
	local.tee	29
	local.get	8
	local.get	5
	i32.xor 
	local.tee	31
	i32.and 
	i32.xor 
	local.get	23
	i32.xor 
	local.get	5
	i32.xor 
	local.get	14
	i32.xor 
	local.tee	5
	local.get	19
	i32.xor 
	i32.and 
	local.tee	14
	local.get	22
	i32.xor 
	local.get	5
	i32.and 
	local.tee	32
	local.get	19
	i32.xor 
	local.tee	19
	local.get	14
	local.get	5
	i32.xor 
	local.tee	14
	i32.xor 
	local.tee	23
	local.get	27
	i32.and 
	local.get	19
	local.get	11
	i32.and 
	local.tee	27
	i32.xor 
	local.get	32
	local.get	22
	local.get	5
	i32.xor 
	local.tee	5
	i32.xor 
	local.get	5
	local.get	26
	local.get	25
	i32.xor 
	local.tee	11
	i32.and 
	local.get	25
	i32.xor 
	local.tee	5
	i32.and 
	local.get	11
	i32.xor 
	local.tee	11
	local.get	5
	i32.xor 
	local.tee	25
	local.get	10
	i32.and 
	local.tee	26
	local.get	11
	local.get	8
	i32.and 
	i32.xor 
	local.tee	32
	i32.xor 
	local.get	11
	local.get	23
	i32.xor 
	local.tee	10
	local.get	5
	local.get	14
	i32.xor 
	local.tee	22
	i32.xor 
	local.tee	33
	local.get	15
	i32.and 
	local.get	22
	local.get	17
	i32.and 
	local.tee	15
	i32.xor 
	local.tee	17
	local.get	23
	local.get	28
	i32.and 
	i32.xor 
	local.tee	23
	local.get	19
	local.get	16
	i32.and 
	i32.xor 
	local.tee	16
	i32.xor 
	local.tee	8
	i32.store	16
	local.get	4
	local.get	8
	local.get	32
	local.get	33
	local.get	24
	i32.and 
	i32.xor 
	local.tee	19
	local.get	22
	local.get	6
	i32.and 
	i32.xor 
	local.tee	6
	i32.xor 
	local.tee	22
	i32.store	24
	local.get	4
	local.get	10
	local.get	13
	i32.and 
	local.get	15
	i32.xor 
	local.get	6
	i32.xor 
	local.get	10
	local.get	12
	i32.and 
	local.get	27
	local.get	14
	local.get	7
	i32.and 
	i32.xor 
	local.tee	7
	i32.xor 
	local.get	25
	local.get	9
	i32.and 
	local.tee	9
	i32.xor 
	local.get	19
	i32.xor 
	local.tee	10
	local.get	5
	local.get	31
	i32.and 
	i32.xor 
	local.tee	12
	i32.xor 
	local.tee	13
	i32.store	20
	local.get	4
	local.get	7
	local.get	5
	local.get	29
	i32.and 
	i32.xor 
	local.get	26
	i32.xor 
	local.tee	5
	local.get	11
	local.get	18
	i32.and 
	i32.xor 
	local.get	17
	i32.xor 
	local.tee	7
	local.get	10
	i32.xor 
	local.tee	10
	i32.store	4
	local.get	4
	local.get	16
	local.get	6
	i32.xor 
	local.tee	6
	i32.store	28
	local.get	4
	local.get	23
	local.get	14
	local.get	30
	i32.and 
	i32.xor 
	local.get	12
	i32.xor 
	local.tee	11
	i32.store	8
	local.get	4
	local.get	8
	local.get	5
	i32.xor 
	local.tee	5
	i32.store	12
	local.get	4
	local.get	7
	local.get	9
	i32.xor 
	local.tee	7
	i32.store	0
	local.get	4
	i32.const	32
	i32.add 
	local.get	4
	i32.const	1
	i32.const	0
	call	aes_planes__soft__word__word32__U32Word__rotate_planes
	local.get	4
	local.get	10
	local.get	4
	i32.load	36
	local.tee	9
	i32.xor 
	i32.store	36
	local.get	4
	local.get	7
	local.get	4
	i32.load	32
	local.tee	10
	i32.xor 
	i32.store	32
	local.get	4
	local.get	5
	local.get	4
	i32.load	44
	local.tee	7
	i32.xor 
	i32.store	44
	local.get	4
	local.get	11
	local.get	4
	i32.load	40
	local.tee	12
	i32.xor 
	i32.store	40
	local.get	4
	local.get	13
	local.get	4
	i32.load	52
	local.tee	11
	i32.xor 
	i32.store	52
	local.get	4
	local.get	8
	local.get	4
	i32.load	48
	local.tee	13
	i32.xor 
	i32.store	48
	local.get	4
	local.get	6
	local.get	4
	i32.load	60
	local.tee	8
	i32.xor 
	i32.store	60
	local.get	4
	local.get	22
	local.get	4
	i32.load	56
	local.tee	6
	i32.xor 
	i32.store	56
	local.get	4
	local.get	4
	i64.load	32:p2align=2
	i64.store	64
	local.get	4
	local.get	4
	i64.load	40:p2align=2
	i64.store	72
	local.get	4
	local.get	4
	i64.load	48:p2align=2
	i64.store	80
	local.get	4
	local.get	4
	i64.load	56:p2align=2
	i64.store	88
	local.get	4
	i32.load	76
	local.set	14
	local.get	4
	i32.load	80
	local.set	15
	local.get	4
	i32.load	72
	local.set	16
	local.get	4
	i32.load	68
	local.set	17
	local.get	4
	i32.load	64
	local.set	18
	local.get	4
	i32.load	92
	local.set	5
	local.get	4
	i32.load	84
	local.set	19
	local.get	4
	i32.load	88
	local.set	22
	local.get	4
	i32.const	32
	i32.add 
	local.get	4
	i32.const	64
	i32.add 
	i32.const	2
	i32.const	0
	call	aes_planes__soft__word__word32__U32Word__rotate_planes
	local.get	4
	local.get	8
	local.get	22
	local.get	4
	i32.load	60
	i32.xor 
	i32.xor 
	i32.store	60
	local.get	4
	local.get	6
	local.get	19
	local.get	4
	i32.load	56
	i32.xor 
	i32.xor 
	i32.store	56
	local.get	4
	local.get	5
	local.get	10
	local.get	4
	i32.load	32
	i32.xor 
	i32.xor 
	i32.store	32
	local.get	4
	local.get	5
	local.get	9
	local.get	18
	local.get	4
	i32.load	36
	i32.xor 
	i32.xor 
	i32.xor 
	i32.store	36
	local.get	4
	local.get	12
	local.get	17
	local.get	4
	i32.load	40
	i32.xor 
	i32.xor 
	i32.store	40
	local.get	4
	local.get	5
	local.get	7
	local.get	16
	local.get	4
	i32.load	44
	i32.xor 
	i32.xor 
	i32.xor 
	i32.store	44
	local.get	4
	local.get	11
	local.get	15
	local.get	4
	i32.load	52
	i32.xor 
	i32.xor 
	i32.store	52
	local.get	4
	local.get	5
	local.get	13
	local.get	14
	local.get	4
	i32.load	48
	i32.xor 
	i32.xor 
	i32.xor 
	i32.store	48
	local.get	4
	local.get	4
	i64.load	56:p2align=2
	i64.store	24
	local.get	4
	local.get	4
	i64.load	32:p2align=2
	i64.store	0
	local.get	4
	local.get	4
	i64.load	40:p2align=2
	i64.store	8
	local.get	4
	local.get	4
	i64.load	48:p2align=2
	i64.store	16
	local.get	3
	i32.const	128
	i32.add 
	local.tee	11
	i32.load	0
	local.set	6
	local.get	3
	i32.const	132
	i32.add 
	i32.load	0
	local.set	13
	local.get	3
	i32.const	136
	i32.add 
	i32.load	0
	local.set	10
	local.get	3
	i32.const	140
	i32.add 
	i32.load	0
	local.set	7
	local.get	3
	i32.const	144
	i32.add 
	i32.load	0
	local.set	9
	local.get	3
	i32.const	148
	i32.add 
	i32.load	0
	local.set	12
	local.get	3
	i32.const	152
	i32.add 
	i32.load	0
	local.set	8
	local.get	4
	i32.load	0
	local.set	14
	local.get	4
	i32.load	4
	local.set	15
	local.get	4
	i32.load	8
	local.set	16
	local.get	4
	i32.load	12
	local.set	17
	local.get	4
	i32.load	16
	local.set	18
	local.get	4
	i32.load	20
	local.set	19
	local.get	4
	i32.load	24
	local.set	22
	local.get	4
	local.get	4
	i32.load	28
	local.get	3
	i32.const	156
	i32.add 
	i32.load	0
	i32.xor 
	local.tee	5
	i32.store	28
	local.get	4
	local.get	22
	local.get	8
	i32.xor 
	local.tee	8
	i32.store	24
	local.get	4
	local.get	19
	local.get	12
	i32.xor 
	local.tee	12
	i32.store	20
	local.get	4
	local.get	18
	local.get	9
	i32.xor 
	local.tee	9
	i32.store	16
	local.get	4
	local.get	17
	local.get	7
	i32.xor 
	local.tee	7
	i32.store	12
	local.get	4
	local.get	16
	local.get	10
	i32.xor 
	local.tee	10
	i32.store	8
	local.get	4
	local.get	15
	local.get	13
	i32.xor 
	local.tee	13
	i32.store	4
	local.get	4
	local.get	14
	local.get	6
	i32.xor 
	local.tee	6
	i32.store	0
	local.get	11
	local.set	3
	local.get	21
	i64.const	-1
	i64.add 
	local.tee	21
	i64.const	0
	i64.ne  
	br_if   	0                               # 0: up to label31
.LBB7_3:                                # %after.3.i
	end_loop
	end_block                               # label30:
	local.get	4
	local.get	13
	local.get	5
	i32.xor 
	local.tee	11
	local.get	10
	local.get	9
	i32.xor 
	local.tee	14
	i32.xor 
	local.tee	15
	local.get	7
	i32.xor 
	local.tee	19
	local.get	8
	i32.xor 
	local.tee	22
	local.get	9
	local.get	5
	i32.xor 
	local.tee	16
	i32.xor 
	local.tee	3
	local.get	12
	local.get	8
	i32.xor 
	local.tee	17
	i32.xor 
	local.tee	8
	local.get	6
	local.get	17
	i32.xor 
	local.tee	7
	local.get	13
	i32.xor 
	local.tee	18
	local.get	7
	i32.and 
	i32.xor 
	local.get	8
	local.get	11
	i32.and 
	local.tee	25
	i32.xor 
	local.get	11
	i32.xor 
	local.get	3
	local.get	19
	local.get	10
	i32.xor 
	local.tee	12
	local.get	17
	i32.xor 
	local.tee	13
	i32.xor 
	local.tee	23
	local.get	14
	i32.and 
	local.get	3
	local.get	16
	i32.and 
	local.tee	24
	i32.xor 
	local.tee	19
	i32.xor 
	local.tee	17
	local.get	22
	local.get	12
	local.get	6
	i32.xor 
	local.tee	26
	local.get	18
	local.get	10
	local.get	5
	i32.xor 
	local.tee	10
	i32.xor 
	local.tee	27
	i32.and 
	i32.xor 
	local.get	12
	local.get	15
	i32.and 
	local.tee	22
	i32.xor 
	local.get	19
	i32.xor 
	local.tee	28
	i32.and 
	local.tee	19
	local.get	7
	local.get	9
	i32.xor 
	local.tee	29
	local.get	6
	i32.and 
	local.get	10
	i32.xor 
	local.get	13
	i32.xor 
	local.get	22
	i32.xor 
	local.get	13
	local.get	10
	i32.and 
	local.get	24
	i32.xor 
	local.tee	9
	i32.xor 
	local.tee	22
	i32.xor 
	local.get	8
	local.get	3
	local.get	6
	i32.xor 
	local.tee	24
	local.get	7
	local.get	5
	i32.xor 
	local.tee	30
	i32.and 
	i32.xor 
	local.get	25
	i32.xor 
	local.get	5
	i32.xor 
	local.get	9
	i32.xor 
	local.tee	5
	local.get	17
	i32.xor 
	i32.and 
	local.tee	9
	local.get	19
	i32.xor 
	local.get	5
	i32.and 
	local.tee	31
	local.get	17
	i32.xor 
	local.tee	17
	local.get	9
	local.get	5
	i32.xor 
	local.tee	9
	i32.xor 
	local.tee	25
	local.get	26
	i32.and 
	local.get	17
	local.get	12
	i32.and 
	local.tee	26
	i32.xor 
	local.get	31
	local.get	19
	local.get	5
	i32.xor 
	local.tee	5
	i32.xor 
	local.get	5
	local.get	28
	local.get	22
	i32.xor 
	local.tee	12
	i32.and 
	local.get	22
	i32.xor 
	local.tee	5
	i32.and 
	local.get	12
	i32.xor 
	local.tee	12
	local.get	5
	i32.xor 
	local.tee	22
	local.get	8
	i32.and 
	local.tee	28
	local.get	12
	local.get	7
	i32.and 
	i32.xor 
	local.tee	31
	i32.xor 
	local.get	12
	local.get	25
	i32.xor 
	local.tee	8
	local.get	5
	local.get	9
	i32.xor 
	local.tee	19
	i32.xor 
	local.tee	32
	local.get	14
	i32.and 
	local.get	19
	local.get	16
	i32.and 
	local.tee	14
	i32.xor 
	local.tee	16
	local.get	25
	local.get	27
	i32.and 
	i32.xor 
	local.tee	25
	local.get	17
	local.get	15
	i32.and 
	i32.xor 
	local.tee	15
	i32.xor 
	local.tee	7
	i32.store	16
	local.get	4
	local.get	7
	local.get	31
	local.get	32
	local.get	23
	i32.and 
	i32.xor 
	local.tee	17
	local.get	19
	local.get	3
	i32.and 
	i32.xor 
	local.tee	3
	i32.xor 
	local.tee	19
	i32.store	24
	local.get	4
	local.get	8
	local.get	10
	i32.and 
	local.get	14
	i32.xor 
	local.get	3
	i32.xor 
	local.get	8
	local.get	13
	i32.and 
	local.get	26
	local.get	9
	local.get	6
	i32.and 
	i32.xor 
	local.tee	6
	i32.xor 
	local.get	22
	local.get	11
	i32.and 
	local.tee	8
	i32.xor 
	local.get	17
	i32.xor 
	local.tee	10
	local.get	5
	local.get	30
	i32.and 
	i32.xor 
	local.tee	11
	i32.xor 
	local.tee	13
	i32.store	20
	local.get	4
	local.get	6
	local.get	5
	local.get	24
	i32.and 
	i32.xor 
	local.get	28
	i32.xor 
	local.tee	5
	local.get	12
	local.get	18
	i32.and 
	i32.xor 
	local.get	16
	i32.xor 
	local.tee	6
	local.get	10
	i32.xor 
	local.tee	10
	i32.store	4
	local.get	4
	local.get	15
	local.get	3
	i32.xor 
	local.tee	3
	i32.store	28
	local.get	4
	local.get	25
	local.get	9
	local.get	29
	i32.and 
	i32.xor 
	local.get	11
	i32.xor 
	local.tee	9
	i32.store	8
	local.get	4
	local.get	7
	local.get	5
	i32.xor 
	local.tee	5
	i32.store	12
	local.get	4
	local.get	6
	local.get	8
	i32.xor 
	local.tee	6
	i32.store	0
	local.get	4
	i32.const	32
	i32.add 
	local.get	4
	i32.const	1
	i32.const	1
	call	aes_planes__soft__word__word32__U32Word__rotate_planes
	local.get	4
	local.get	10
	local.get	4
	i32.load	36
	local.tee	8
	i32.xor 
	i32.store	36
	local.get	4
	local.get	6
	local.get	4
	i32.load	32
	local.tee	10
	i32.xor 
	i32.store	32
	local.get	4
	local.get	5
	local.get	4
	i32.load	44
	local.tee	6
	i32.xor 
	i32.store	44
	local.get	4
	local.get	9
	local.get	4
	i32.load	40
	local.tee	5
	i32.xor 
	i32.store	40
	local.get	4
	local.get	13
	local.get	4
	i32.load	52
	local.tee	9
	i32.xor 
	i32.store	52
	local.get	4
	local.get	7
	local.get	4
	i32.load	48
	local.tee	11
	i32.xor 
	i32.store	48
	local.get	4
	local.get	3
	local.get	4
	i32.load	60
	local.tee	7
	i32.xor 
	i32.store	60
	local.get	4
	local.get	19
	local.get	4
	i32.load	56
	local.tee	12
	i32.xor 
	i32.store	56
	local.get	4
	local.get	4
	i64.load	32:p2align=2
	i64.store	64
	local.get	4
	local.get	4
	i64.load	40:p2align=2
	i64.store	72
	local.get	4
	local.get	4
	i64.load	48:p2align=2
	i64.store	80
	local.get	4
	local.get	4
	i64.load	56:p2align=2
	i64.store	88
	local.get	4
	i32.load	76
	local.set	13
	local.get	4
	i32.load	80
	local.set	14
	local.get	4
	i32.load	72
	local.set	15
	local.get	4
	i32.load	68
	local.set	16
	local.get	4
	i32.load	64
	local.set	17
	local.get	4
	i32.load	92
	local.set	3
	local.get	4
	i32.load	84
	local.set	18
	local.get	4
	i32.load	88
	local.set	19
	local.get	4
	i32.const	32
	i32.add 
	local.get	4
	i32.const	64
	i32.add 
	i32.const	2
	i32.const	2
	call	aes_planes__soft__word__word32__U32Word__rotate_planes
	local.get	4
	local.get	7
	local.get	19
	local.get	4
	i32.load	60
	i32.xor 
	i32.xor 
	i32.store	60
	local.get	4
	local.get	12
	local.get	18
	local.get	4
	i32.load	56
	i32.xor 
	i32.xor 
	i32.store	56
	local.get	4
	local.get	3
	local.get	10
	local.get	4
	i32.load	32
	i32.xor 
	i32.xor 
	i32.store	32
	local.get	4
	local.get	3
	local.get	8
	local.get	17
	local.get	4
	i32.load	36
	i32.xor 
	i32.xor 
	i32.xor 
	i32.store	36
	local.get	4
	local.get	5
	local.get	16
	local.get	4
	i32.load	40
	i32.xor 
	i32.xor 
	i32.store	40
	local.get	4
	local.get	3
	local.get	6
	local.get	15
	local.get	4
	i32.load	44
	i32.xor 
	i32.xor 
	i32.xor 
	i32.store	44
	local.get	4
	local.get	9
	local.get	14
	local.get	4
	i32.load	52
	i32.xor 
	i32.xor 
	i32.store	52
	local.get	4
	local.get	3
	local.get	11
	local.get	13
	local.get	4
	i32.load	48
	i32.xor 
	i32.xor 
	i32.xor 
	i32.store	48
	local.get	4
	local.get	4
	i64.load	56:p2align=2
	i64.store	24
	local.get	4
	local.get	4
	i64.load	32:p2align=2
	i64.store	0
	local.get	4
	local.get	4
	i64.load	40:p2align=2
	i64.store	8
	local.get	4
	local.get	4
	i64.load	48:p2align=2
	i64.store	16
	local.get	4
	i32.load	28
	local.get	1
	local.get	20
	i64.const	-4
	i64.and 
	local.tee	21
	i32.wrap_i64
	i32.const	5
	i32.shl 
	i32.add 
	local.tee	3
	i32.load	60
	i32.xor 
	local.set	5
	local.get	4
	i32.load	24
	local.get	3
	i32.load	56
	i32.xor 
	local.set	9
	local.get	4
	i32.load	20
	local.get	3
	i32.load	52
	i32.xor 
	local.set	11
	local.get	4
	i32.load	16
	local.get	3
	i32.load	48
	i32.xor 
	local.set	7
	local.get	4
	i32.load	12
	local.get	3
	i32.load	44
	i32.xor 
	local.set	12
	local.get	4
	i32.load	8
	local.get	3
	i32.load	40
	i32.xor 
	local.set	8
	local.get	4
	i32.load	4
	local.get	3
	i32.load	36
	i32.xor 
	local.set	10
	local.get	4
	i32.load	0
	local.get	3
	i32.load	32
	i32.xor 
	local.set	6
	block   	
	block   	
	local.get	21
	i64.const	2
	i64.or  
	local.get	2
	i64.ge_u
	br_if   	0                               # 0: down to label33
# %bb.4:                                # %then.11.i
	local.get	4
	local.get	5
	local.get	10
	i32.xor 
	local.tee	13
	local.get	7
	local.get	8
	i32.xor 
	local.tee	14
	i32.xor 
	local.tee	15
	local.get	12
	i32.xor 
	local.tee	18
	local.get	9
	i32.xor 
	local.tee	19
	local.get	5
	local.get	7
	i32.xor 
	local.tee	16
	i32.xor 
	local.tee	3
	local.get	9
	local.get	11
	i32.xor 
	local.tee	12
	i32.xor 
	local.tee	11
	local.get	12
	local.get	6
	i32.xor 
	local.tee	9
	local.get	10
	i32.xor 
	local.tee	17
	local.get	9
	i32.and 
	i32.xor 
	local.get	11
	local.get	13
	i32.and 
	local.tee	25
	i32.xor 
	local.get	13
	i32.xor 
	local.get	3
	local.get	18
	local.get	8
	i32.xor 
	local.tee	10
	local.get	12
	i32.xor 
	local.tee	12
	i32.xor 
	local.tee	23
	local.get	14
	i32.and 
	local.get	3
	local.get	16
	i32.and 
	local.tee	22
	i32.xor 
	local.tee	24
	i32.xor 
	local.tee	18
	local.get	19
	local.get	10
	local.get	6
	i32.xor 
	local.tee	26
	local.get	17
	local.get	5
	local.get	8
	i32.xor 
	local.tee	8
	i32.xor 
	local.tee	27
	i32.and 
	i32.xor 
	local.get	10
	local.get	15
	i32.and 
	local.tee	28
	i32.xor 
	local.get	24
	i32.xor 
	local.tee	24
	i32.and 
	local.tee	19
	local.get	9
	local.get	7
	i32.xor 
	local.tee	29
	local.get	6
	i32.and 
	local.get	8
	i32.xor 
	local.get	12
	i32.xor 
	local.get	28
	i32.xor 
	local.get	12
	local.get	8
	i32.and 
	local.get	22
	i32.xor 
	local.tee	7
	i32.xor 
	local.tee	22
	i32.xor 
	local.get	11
	local.get	3
	local.get	6
	i32.xor 
	local.tee	28
	local.get	9
	local.get	5
	i32.xor 
	local.tee	30
	i32.and 
	i32.xor 
	local.get	25
	i32.xor 
	local.get	5
	i32.xor 
	local.get	7
	i32.xor 
	local.tee	5
	local.get	18
	i32.xor 
	i32.and 
	local.tee	7
	local.get	19
	i32.xor 
	local.get	5
	i32.and 
	local.tee	31
	local.get	18
	i32.xor 
	local.tee	18
	local.get	7
	local.get	5
	i32.xor 
	local.tee	7
	i32.xor 
	local.tee	25
	local.get	26
	i32.and 
	local.get	18
	local.get	10
	i32.and 
	local.tee	26
	i32.xor 
	local.get	31
	local.get	19
	local.get	5
	i32.xor 
	local.tee	5
	i32.xor 
	local.get	5
	local.get	24
	local.get	22
	i32.xor 
	local.tee	10
	i32.and 
	local.get	22
	i32.xor 
	local.tee	5
	i32.and 
	local.get	10
	i32.xor 
	local.tee	10
	local.get	5
	i32.xor 
	local.tee	22
	local.get	11
	i32.and 
	local.tee	24
	local.get	10
	local.get	9
	i32.and 
	i32.xor 
	local.tee	31
	i32.xor 
	local.get	10
	local.get	25
	i32.xor 
	local.tee	11
	local.get	5
	local.get	7
	i32.xor 
	local.tee	19
	i32.xor 
	local.tee	32
	local.get	14
	i32.and 
	local.get	19
	local.get	16
	i32.and 
	local.tee	14
	i32.xor 
	local.tee	16
	local.get	25
	local.get	27
	i32.and 
	i32.xor 
	local.tee	25
	local.get	18
	local.get	15
	i32.and 
	i32.xor 
	local.tee	15
	i32.xor 
	local.tee	9
	i32.store	16
	local.get	4
	local.get	9
	local.get	31
	local.get	32
	local.get	23
	i32.and 
	i32.xor 
	local.tee	18
	local.get	19
	local.get	3
	i32.and 
	i32.xor 
	local.tee	3
	i32.xor 
	local.tee	19
	i32.store	24
	local.get	4
	local.get	11
	local.get	8
	i32.and 
	local.get	14
	i32.xor 
	local.get	3
	i32.xor 
	local.get	11
	local.get	12
	i32.and 
	local.get	26
	local.get	7
	local.get	6
	i32.and 
	i32.xor 
	local.tee	6
	i32.xor 
	local.get	22
	local.get	13
	i32.and 
	local.tee	8
	i32.xor 
	local.get	18
	i32.xor 
	local.tee	11
	local.get	5
	local.get	30
	i32.and 
	i32.xor 
	local.tee	12
	i32.xor 
	local.tee	13
	i32.store	20
	local.get	4
	local.get	6
	local.get	5
	local.get	28
	i32.and 
	i32.xor 
	local.get	24
	i32.xor 
	local.tee	5
	local.get	10
	local.get	17
	i32.and 
	i32.xor 
	local.get	16
	i32.xor 
	local.tee	6
	local.get	11
	i32.xor 
	local.tee	10
	i32.store	4
	local.get	4
	local.get	15
	local.get	3
	i32.xor 
	local.tee	3
	i32.store	28
	local.get	4
	local.get	25
	local.get	7
	local.get	29
	i32.and 
	i32.xor 
	local.get	12
	i32.xor 
	local.tee	7
	i32.store	8
	local.get	4
	local.get	9
	local.get	5
	i32.xor 
	local.tee	5
	i32.store	12
	local.get	4
	local.get	6
	local.get	8
	i32.xor 
	local.tee	6
	i32.store	0
	local.get	4
	i32.const	32
	i32.add 
	local.get	4
	i32.const	1
	i32.const	2
	call	aes_planes__soft__word__word32__U32Word__rotate_planes
	local.get	4
	local.get	4
	i32.load	36
	local.tee	8
	local.get	10
	i32.xor 
	i32.store	36
	local.get	4
	local.get	4
	i32.load	32
	local.tee	10
	local.get	6
	i32.xor 
	i32.store	32
	local.get	4
	local.get	4
	i32.load	44
	local.tee	6
	local.get	5
	i32.xor 
	i32.store	44
	local.get	4
	local.get	4
	i32.load	40
	local.tee	5
	local.get	7
	i32.xor 
	i32.store	40
	local.get	4
	local.get	4
	i32.load	52
	local.tee	7
	local.get	13
	i32.xor 
	i32.store	52
	local.get	4
	local.get	4
	i32.load	48
	local.tee	11
	local.get	9
	i32.xor 
	i32.store	48
	local.get	4
	local.get	4
	i32.load	60
	local.tee	9
	local.get	3
	i32.xor 
	i32.store	60
	local.get	4
	local.get	4
	i32.load	56
	local.tee	12
	local.get	19
	i32.xor 
	i32.store	56
	local.get	4
	local.get	4
	i64.load	32:p2align=2
	i64.store	64
	local.get	4
	local.get	4
	i64.load	40:p2align=2
	i64.store	72
	local.get	4
	local.get	4
	i64.load	48:p2align=2
	i64.store	80
	local.get	4
	local.get	4
	i64.load	56:p2align=2
	i64.store	88
	local.get	4
	i32.load	76
	local.set	13
	local.get	4
	i32.load	80
	local.set	14
	local.get	4
	i32.load	72
	local.set	15
	local.get	4
	i32.load	68
	local.set	16
	local.get	4
	i32.load	64
	local.set	17
	local.get	4
	i32.load	92
	local.set	3
	local.get	4
	i32.load	84
	local.set	18
	local.get	4
	i32.load	88
	local.set	19
	local.get	4
	i32.const	32
	i32.add 
	local.get	4
	i32.const	64
	i32.add 
	i32.const	2
	i32.const	0
	call	aes_planes__soft__word__word32__U32Word__rotate_planes
	local.get	4
	local.get	9
	local.get	19
	local.get	4
	i32.load	60
	i32.xor 
	i32.xor 
	i32.store	60
	local.get	4
	local.get	12
	local.get	18
	local.get	4
	i32.load	56
	i32.xor 
	i32.xor 
	i32.store	56
	local.get	4
	local.get	3
	local.get	10
	local.get	4
	i32.load	32
	i32.xor 
	i32.xor 
	i32.store	32
	local.get	4
	local.get	3
	local.get	8
	local.get	17
	local.get	4
	i32.load	36
	i32.xor 
	i32.xor 
	i32.xor 
	i32.store	36
	local.get	4
	local.get	5
	local.get	16
	local.get	4
	i32.load	40
	i32.xor 
	i32.xor 
	i32.store	40
	local.get	4
	local.get	3
	local.get	6
	local.get	15
	local.get	4
	i32.load	44
	i32.xor 
	i32.xor 
	i32.xor 
	i32.store	44
	local.get	4
	local.get	7
	local.get	14
	local.get	4
	i32.load	52
	i32.xor 
	i32.xor 
	i32.store	52
	local.get	4
	local.get	3
	local.get	11
	local.get	13
	local.get	4
	i32.load	48
	i32.xor 
	i32.xor 
	i32.xor 
	i32.store	48
	local.get	4
	local.get	4
	i64.load	56:p2align=2
	i64.store	24
	local.get	4
	local.get	4
	i64.load	32:p2align=2
	i64.store	0
	local.get	4
	local.get	4
	i64.load	40:p2align=2
	i64.store	8
	local.get	4
	local.get	4
	i64.load	48:p2align=2
	i64.store	16
	local.get	4
	local.get	4
	i32.load	12
	local.get	1
	local.get	20
	i32.wrap_i64
	i32.const	5
	i32.shl 
	i32.add 
	local.tee	3
	i32.load	12
	i32.xor 
	local.get	4
	i32.load	28
	local.get	3
	i32.load	28
	i32.xor 
	local.tee	5
	local.get	4
	i32.load	4
	local.get	3
	i32.load	4
	i32.xor 
	local.tee	10
	i32.xor 
	local.tee	8
	local.get	4
	i32.load	16
	local.get	3
	i32.load	16
	i32.xor 
	local.tee	13
	local.get	4
	i32.load	8
	local.get	3
	i32.load	8
	i32.xor 
	local.tee	12
	i32.xor 
	local.tee	14
	i32.xor 
	local.tee	15
	i32.xor 
	local.tee	18
	local.get	4
	i32.load	24
	local.get	3
	i32.load	24
	i32.xor 
	local.tee	7
	i32.xor 
	local.tee	19
	local.get	5
	local.get	13
	i32.xor 
	local.tee	16
	i32.xor 
	local.tee	6
	local.get	4
	i32.load	20
	local.get	3
	i32.load	20
	i32.xor 
	local.get	7
	i32.xor 
	local.tee	11
	i32.xor 
	local.tee	9
	local.get	11
	local.get	4
	i32.load	0
	local.get	3
	i32.load	0
	i32.xor 
	local.tee	3
	i32.xor 
	local.tee	7
	local.get	10
	i32.xor 
	local.tee	17
	local.get	7
	i32.and 
	i32.xor 
	local.get	9
	local.get	8
	i32.and 
	local.tee	25
	i32.xor 
	local.get	8
	i32.xor 
	local.get	6
	local.get	18
	local.get	12
	i32.xor 
	local.tee	10
	local.get	11
	i32.xor 
	local.tee	11
	i32.xor 
	local.tee	23
	local.get	14
	i32.and 
	local.get	6
	local.get	16
	i32.and 
	local.tee	22
	i32.xor 
	local.tee	24
	i32.xor 
	local.tee	18
	local.get	19
	local.get	10
	local.get	3
	i32.xor 
	local.tee	26
	local.get	17
	local.get	5
	local.get	12
	i32.xor 
	local.tee	12
	i32.xor 
	local.tee	27
	i32.and 
	i32.xor 
	local.get	10
	local.get	15
	i32.and 
	local.tee	28
	i32.xor 
	local.get	24
	i32.xor 
	local.tee	24
	i32.and 
	local.tee	19
	local.get	7
	local.get	13
	i32.xor 
	local.tee	29
	local.get	3
	i32.and 
	local.get	12
	i32.xor 
	local.get	11
	i32.xor 
	local.get	28
	i32.xor 
	local.get	11
	local.get	12
	i32.and 
	local.get	22
	i32.xor 
	local.tee	13
	i32.xor 
	local.tee	22
	i32.xor 
	local.get	9
	local.get	6
	local.get	3
	i32.xor 
	local.tee	28
	local.get	7
	local.get	5
	i32.xor 
	local.tee	30
	i32.and 
	i32.xor 
	local.get	25
	i32.xor 
	local.get	5
	i32.xor 
	local.get	13
	i32.xor 
	local.tee	5
	local.get	18
	i32.xor 
	i32.and 
	local.tee	13
	local.get	19
	i32.xor 
	local.get	5
	i32.and 
	local.tee	31
	local.get	18
	i32.xor 
	local.tee	18
	local.get	13
	local.get	5
	i32.xor 
	local.tee	13
	i32.xor 
	local.tee	25
	local.get	26
	i32.and 
	local.get	18
	local.get	10
	i32.and 
	local.tee	26
	i32.xor 
	local.get	31
	local.get	19
	local.get	5
	i32.xor 
	local.tee	5
	i32.xor 
	local.get	5
	local.get	24
	local.get	22
	i32.xor 
	local.tee	10
	i32.and 
	local.get	22
	i32.xor 
	local.tee	5
	i32.and 
	local.get	10
	i32.xor 
	local.tee	10
	local.get	5
	i32.xor 
	local.tee	22
	local.get	9
	i32.and 
	local.tee	24
	local.get	10
	local.get	7
	i32.and 
	i32.xor 
	local.tee	31
	i32.xor 
	local.get	10
	local.get	25
	i32.xor 
	local.tee	9
	local.get	5
	local.get	13
	i32.xor 
	local.tee	19
	i32.xor 
	local.tee	32
	local.get	14
	i32.and 
	local.get	19
	local.get	16
	i32.and 
	local.tee	14
	i32.xor 
	local.tee	16
	local.get	25
	local.get	27
	i32.and 
	i32.xor 
	local.tee	25
	local.get	18
	local.get	15
	i32.and 
	i32.xor 
	local.tee	15
	i32.xor 
	local.tee	7
	i32.store	16
	local.get	4
	local.get	7
	local.get	31
	local.get	32
	local.get	23
	i32.and 
	i32.xor 
	local.tee	18
	local.get	19
	local.get	6
	i32.and 
	i32.xor 
	local.tee	6
	i32.xor 
	local.tee	19
	i32.store	24
	local.get	4
	local.get	9
	local.get	12
	i32.and 
	local.get	14
	i32.xor 
	local.get	6
	i32.xor 
	local.get	9
	local.get	11
	i32.and 
	local.get	26
	local.get	13
	local.get	3
	i32.and 
	i32.xor 
	local.tee	3
	i32.xor 
	local.get	22
	local.get	8
	i32.and 
	local.tee	8
	i32.xor 
	local.get	18
	i32.xor 
	local.tee	9
	local.get	5
	local.get	30
	i32.and 
	i32.xor 
	local.tee	11
	i32.xor 
	local.tee	12
	i32.store	20
	local.get	4
	local.get	3
	local.get	5
	local.get	28
	i32.and 
	i32.xor 
	local.get	24
	i32.xor 
	local.tee	3
	local.get	10
	local.get	17
	i32.and 
	i32.xor 
	local.get	16
	i32.xor 
	local.tee	5
	local.get	9
	i32.xor 
	local.tee	9
	i32.store	4
	local.get	4
	local.get	15
	local.get	6
	i32.xor 
	local.tee	6
	i32.store	28
	local.get	4
	local.get	25
	local.get	13
	local.get	29
	i32.and 
	i32.xor 
	local.get	11
	i32.xor 
	local.tee	10
	i32.store	8
	local.get	4
	local.get	7
	local.get	3
	i32.xor 
	local.tee	3
	i32.store	12
	local.get	4
	local.get	5
	local.get	8
	i32.xor 
	local.tee	5
	i32.store	0
	local.get	4
	i32.const	32
	i32.add 
	local.get	4
	i32.const	1
	i32.const	3
	call	aes_planes__soft__word__word32__U32Word__rotate_planes
	local.get	4
	local.get	9
	local.get	4
	i32.load	36
	local.tee	8
	i32.xor 
	i32.store	36
	local.get	4
	local.get	5
	local.get	4
	i32.load	32
	local.tee	9
	i32.xor 
	i32.store	32
	local.get	4
	local.get	3
	local.get	4
	i32.load	44
	local.tee	5
	i32.xor 
	i32.store	44
	local.get	4
	local.get	10
	local.get	4
	i32.load	40
	local.tee	11
	i32.xor 
	i32.store	40
	local.get	4
	local.get	12
	local.get	4
	i32.load	52
	local.tee	10
	i32.xor 
	i32.store	52
	local.get	4
	local.get	7
	local.get	4
	i32.load	48
	local.tee	12
	i32.xor 
	i32.store	48
	local.get	4
	local.get	6
	local.get	4
	i32.load	60
	local.tee	7
	i32.xor 
	i32.store	60
	local.get	4
	local.get	19
	local.get	4
	i32.load	56
	local.tee	6
	i32.xor 
	i32.store	56
	local.get	4
	local.get	4
	i64.load	32:p2align=2
	i64.store	64
	local.get	4
	local.get	4
	i64.load	40:p2align=2
	i64.store	72
	local.get	4
	local.get	4
	i64.load	48:p2align=2
	i64.store	80
	local.get	4
	local.get	4
	i64.load	56:p2align=2
	i64.store	88
	local.get	4
	i32.load	76
	local.set	13
	local.get	4
	i32.load	80
	local.set	14
	local.get	4
	i32.load	72
	local.set	15
	local.get	4
	i32.load	68
	local.set	16
	local.get	4
	i32.load	64
	local.set	17
	local.get	4
	i32.load	92
	local.set	3
	local.get	4
	i32.load	84
	local.set	18
	local.get	4
	i32.load	88
	local.set	19
	local.get	4
	i32.const	32
	i32.add 
	local.get	4
	i32.const	64
	i32.add 
	i32.const	2
	i32.const	2
	call	aes_planes__soft__word__word32__U32Word__rotate_planes
	local.get	4
	local.get	7
	local.get	19
	local.get	4
	i32.load	60
	i32.xor 
	i32.xor 
	i32.store	60
	local.get	4
	local.get	6
	local.get	18
	local.get	4
	i32.load	56
	i32.xor 
	i32.xor 
	i32.store	56
	local.get	4
	local.get	3
	local.get	9
	local.get	4
	i32.load	32
	i32.xor 
	i32.xor 
	i32.store	32
	local.get	4
	local.get	3
	local.get	8
	local.get	17
	local.get	4
	i32.load	36
	i32.xor 
	i32.xor 
	i32.xor 
	i32.store	36
	local.get	4
	local.get	11
	local.get	16
	local.get	4
	i32.load	40
	i32.xor 
	i32.xor 
	i32.store	40
	local.get	4
	local.get	3
	local.get	5
	local.get	15
	local.get	4
	i32.load	44
	i32.xor 
	i32.xor 
	i32.xor 
	i32.store	44
	local.get	4
	local.get	10
	local.get	14
	local.get	4
	i32.load	52
	i32.xor 
	i32.xor 
	i32.store	52
	local.get	4
	local.get	3
	local.get	12
	local.get	13
	local.get	4
	i32.load	48
	i32.xor 
	i32.xor 
	i32.xor 
	i32.store	48
	local.get	4
	local.get	4
	i64.load	56:p2align=2
	i64.store	24
	local.get	4
	local.get	4
	i64.load	32:p2align=2
	i64.store	0
	local.get	4
	local.get	4
	i64.load	40:p2align=2
	i64.store	8
	local.get	4
	local.get	4
	i64.load	48:p2align=2
	i64.store	16
	local.get	4
	i32.load	28
	local.get	1
	local.get	2
	i32.wrap_i64
	i32.const	5
	i32.shl 
	local.tee	23
	i32.add 
	local.tee	5
	i32.const	-4
	i32.add 
	i32.load	0
	i32.xor 
	local.set	3
	local.get	4
	i32.load	24
	local.get	5
	i32.const	-8
	i32.add 
	i32.load	0
	i32.xor 
	local.set	13
	local.get	4
	i32.load	20
	local.get	5
	i32.const	-12
	i32.add 
	i32.load	0
	i32.xor 
	local.set	11
	local.get	4
	i32.load	16
	local.get	5
	i32.const	-16
	i32.add 
	i32.load	0
	i32.xor 
	local.set	9
	local.get	4
	i32.load	12
	local.get	5
	i32.const	-20
	i32.add 
	i32.load	0
	i32.xor 
	local.set	7
	local.get	4
	i32.load	8
	local.get	5
	i32.const	-24
	i32.add 
	i32.load	0
	i32.xor 
	local.set	8
	local.get	4
	i32.load	4
	local.get	5
	i32.const	-28
	i32.add 
	i32.load	0
	i32.xor 
	local.set	12
	local.get	4
	i32.load	0
	local.get	5
	i32.const	-32
	i32.add 
	i32.load	0
	i32.xor 
	local.set	5
	br      	1                               # 1: down to label32
.LBB7_5:                                # %else.12.i
	end_block                               # label33:
	local.get	2
	i32.wrap_i64
	i32.const	5
	i32.shl 
	local.set	23
	local.get	5
	i32.const	4
	i32.shr_u
	local.get	5
	i32.xor 
	i32.const	251662080
	i32.and 
	i32.const	17
	i32.mul 
	local.get	5
	i32.xor 
	local.set	3
	local.get	9
	i32.const	4
	i32.shr_u
	local.get	9
	i32.xor 
	i32.const	251662080
	i32.and 
	i32.const	17
	i32.mul 
	local.get	9
	i32.xor 
	local.set	13
	local.get	11
	i32.const	4
	i32.shr_u
	local.get	11
	i32.xor 
	i32.const	251662080
	i32.and 
	i32.const	17
	i32.mul 
	local.get	11
	i32.xor 
	local.set	11
	local.get	7
	i32.const	4
	i32.shr_u
	local.get	7
	i32.xor 
	i32.const	251662080
	i32.and 
	i32.const	17
	i32.mul 
	local.get	7
	i32.xor 
	local.set	9
	local.get	12
	i32.const	4
	i32.shr_u
	local.get	12
	i32.xor 
	i32.const	251662080
	i32.and 
	i32.const	17
	i32.mul 
	local.get	12
	i32.xor 
	local.set	7
	local.get	8
	i32.const	4
	i32.shr_u
	local.get	8
	i32.xor 
	i32.const	251662080
	i32.and 
	i32.const	17
	i32.mul 
	local.get	8
	i32.xor 
	local.set	8
	local.get	10
	i32.const	4
	i32.shr_u
	local.get	10
	i32.xor 
	i32.const	251662080
	i32.and 
	i32.const	17
	i32.mul 
	local.get	10
	i32.xor 
	local.set	12
	local.get	6
	i32.const	4
	i32.shr_u
	local.get	6
	i32.xor 
	i32.const	251662080
	i32.and 
	i32.const	17
	i32.mul 
	local.get	6
	i32.xor 
	local.set	5
.LBB7_6:                                # %aes_soft__soft__ciphers__planes__EncryptPlaneCipher__process_planes____42add9d049d0c5fd_.exit
	end_block                               # label32:
	local.get	0
	local.get	3
	local.get	12
	i32.xor 
	local.tee	10
	local.get	9
	local.get	8
	i32.xor 
	local.tee	15
	i32.xor 
	local.tee	16
	local.get	7
	i32.xor 
	local.tee	14
	local.get	13
	i32.xor 
	local.tee	22
	local.get	3
	local.get	9
	i32.xor 
	local.tee	17
	i32.xor 
	local.tee	6
	local.get	13
	local.get	11
	i32.xor 
	local.tee	13
	i32.xor 
	local.tee	11
	local.get	13
	local.get	5
	i32.xor 
	local.tee	7
	local.get	12
	i32.xor 
	local.tee	18
	local.get	7
	i32.and 
	i32.xor 
	local.get	11
	local.get	10
	i32.and 
	local.tee	25
	i32.xor 
	local.get	10
	i32.xor 
	local.get	6
	local.get	14
	local.get	8
	i32.xor 
	local.tee	12
	local.get	13
	i32.xor 
	local.tee	13
	i32.xor 
	local.tee	24
	local.get	15
	i32.and 
	local.get	6
	local.get	17
	i32.and 
	local.tee	26
	i32.xor 
	local.tee	27
	i32.xor 
	local.tee	19
	local.get	22
	local.get	12
	local.get	5
	i32.xor 
	local.tee	28
	local.get	18
	local.get	3
	local.get	8
	i32.xor 
	local.tee	14
	i32.xor 
	local.tee	29
	i32.and 
	i32.xor 
	local.get	12
	local.get	16
	i32.and 
	local.tee	22
	i32.xor 
	local.get	27
	i32.xor 
	local.tee	27
	i32.and 
	local.tee	8
	local.get	7
	local.get	9
	i32.xor 
	local.tee	30
	local.get	5
	i32.and 
	local.get	14
	i32.xor 
	local.get	13
	i32.xor 
	local.get	22
	i32.xor 
	local.get	13
	local.get	14
	i32.and 
	local.get	26
	i32.xor 
	local.tee	22
	i32.xor 
	local.tee	9
	i32.xor 
	local.get	11
	local.get	6
	local.get	5
	i32.xor 
	local.tee	26
	local.get	7
	local.get	3
	i32.xor 
	local.tee	31
	i32.and 
	i32.xor 
	local.get	25
	i32.xor 
	local.get	3
	i32.xor 
	local.get	22
	i32.xor 
	local.tee	3
	local.get	19
	i32.xor 
	i32.and 
	local.tee	22
	local.get	8
	i32.xor 
	local.get	3
	i32.and 
	local.tee	25
	local.get	8
	local.get	3
	i32.xor 
	local.tee	8
	i32.xor 
	local.get	8
	local.get	27
	local.get	9
	i32.xor 
	local.tee	27
	i32.and 
	local.get	9
	i32.xor 
	local.tee	8
	i32.and 
	local.get	27
	i32.xor 
	local.tee	9
	local.get	8
	i32.xor 
	local.tee	27
	local.get	11
	i32.and 
	local.tee	32
	local.get	9
	local.get	7
	i32.and 
	i32.xor 
	local.tee	33
	local.get	9
	local.get	25
	local.get	19
	i32.xor 
	local.tee	11
	local.get	22
	local.get	3
	i32.xor 
	local.tee	7
	i32.xor 
	local.tee	19
	i32.xor 
	local.tee	22
	local.get	8
	local.get	7
	i32.xor 
	local.tee	25
	i32.xor 
	local.tee	34
	local.get	24
	i32.and 
	i32.xor 
	local.tee	24
	local.get	25
	local.get	6
	i32.and 
	i32.xor 
	local.tee	6
	local.get	1
	local.get	23
	i32.add 
	local.tee	3
	i32.load	28
	i32.xor 
	local.get	34
	local.get	15
	i32.and 
	local.get	25
	local.get	17
	i32.and 
	local.tee	15
	i32.xor 
	local.tee	17
	local.get	19
	local.get	29
	i32.and 
	i32.xor 
	local.tee	25
	local.get	11
	local.get	16
	i32.and 
	i32.xor 
	local.tee	16
	i32.xor 
	local.tee	23
	local.get	6
	local.get	3
	i32.load	24
	i32.xor 
	local.get	19
	local.get	28
	i32.and 
	local.get	11
	local.get	12
	i32.and 
	local.tee	12
	i32.xor 
	local.get	33
	i32.xor 
	local.get	16
	i32.xor 
	local.tee	11
	i32.xor 
	local.tee	16
	i32.const	1
	i32.shr_u
	i32.xor 
	i32.const	1431655765
	i32.and 
	local.tee	19
	local.get	23
	i32.xor 
	local.tee	23
	local.get	3
	i32.load	20
	local.get	22
	local.get	14
	i32.and 
	i32.xor 
	local.get	15
	i32.xor 
	local.get	6
	i32.xor 
	local.get	22
	local.get	13
	i32.and 
	local.get	12
	local.get	7
	local.get	5
	i32.and 
	i32.xor 
	local.tee	5
	i32.xor 
	local.get	27
	local.get	10
	i32.and 
	local.tee	6
	i32.xor 
	local.get	24
	i32.xor 
	local.tee	10
	local.get	8
	local.get	31
	i32.and 
	i32.xor 
	local.tee	12
	i32.xor 
	local.tee	13
	local.get	11
	local.get	3
	i32.load	16
	i32.xor 
	local.tee	14
	i32.const	1
	i32.shr_u
	i32.xor 
	i32.const	1431655765
	i32.and 
	local.tee	15
	local.get	13
	i32.xor 
	local.tee	13
	i32.const	2
	i32.shr_u
	i32.xor 
	i32.const	858993459
	i32.and 
	local.tee	22
	local.get	23
	i32.xor 
	local.tee	23
	local.get	5
	local.get	8
	local.get	26
	i32.and 
	i32.xor 
	local.get	32
	i32.xor 
	local.tee	5
	local.get	3
	i32.load	12
	i32.xor 
	local.get	11
	i32.xor 
	local.tee	8
	local.get	7
	local.get	30
	i32.and 
	local.get	3
	i32.load	8
	i32.xor 
	local.get	25
	i32.xor 
	local.get	12
	i32.xor 
	local.tee	7
	i32.const	1
	i32.shr_u
	i32.xor 
	i32.const	1431655765
	i32.and 
	local.tee	11
	local.get	8
	i32.xor 
	local.tee	8
	local.get	10
	local.get	3
	i32.load	4
	i32.xor 
	local.get	5
	local.get	9
	local.get	18
	i32.and 
	i32.xor 
	local.get	17
	i32.xor 
	local.tee	5
	i32.xor 
	local.tee	9
	local.get	6
	local.get	3
	i32.load	0
	i32.xor 
	local.get	5
	i32.xor 
	local.tee	3
	i32.const	1
	i32.shr_u
	i32.xor 
	i32.const	1431655765
	i32.and 
	local.tee	5
	local.get	9
	i32.xor 
	local.tee	6
	i32.const	2
	i32.shr_u
	i32.xor 
	i32.const	858993459
	i32.and 
	local.tee	9
	local.get	8
	i32.xor 
	local.tee	8
	i32.const	4
	i32.shr_u
	i32.xor 
	i32.const	252645135
	i32.and 
	local.tee	10
	local.get	23
	i32.xor 
	i32.store	28:p2align=0
	local.get	0
	local.get	22
	i32.const	2
	i32.shl 
	local.get	13
	i32.xor 
	local.tee	12
	local.get	9
	i32.const	2
	i32.shl 
	local.get	6
	i32.xor 
	local.tee	6
	i32.const	4
	i32.shr_u
	i32.xor 
	i32.const	252645135
	i32.and 
	local.tee	9
	local.get	12
	i32.xor 
	i32.store	24:p2align=0
	local.get	0
	local.get	10
	i32.const	4
	i32.shl 
	local.get	8
	i32.xor 
	i32.store	20:p2align=0
	local.get	0
	local.get	19
	i32.const	1
	i32.shl 
	local.get	16
	i32.xor 
	local.tee	8
	local.get	15
	i32.const	1
	i32.shl 
	local.get	14
	i32.xor 
	local.tee	10
	i32.const	2
	i32.shr_u
	i32.xor 
	i32.const	858993459
	i32.and 
	local.tee	12
	local.get	8
	i32.xor 
	local.tee	8
	local.get	11
	i32.const	1
	i32.shl 
	local.get	7
	i32.xor 
	local.tee	7
	local.get	5
	i32.const	1
	i32.shl 
	local.get	3
	i32.xor 
	local.tee	3
	i32.const	2
	i32.shr_u
	i32.xor 
	i32.const	858993459
	i32.and 
	local.tee	5
	local.get	7
	i32.xor 
	local.tee	7
	i32.const	4
	i32.shr_u
	i32.xor 
	i32.const	252645135
	i32.and 
	local.tee	11
	local.get	8
	i32.xor 
	i32.store	12:p2align=0
	local.get	0
	local.get	9
	i32.const	4
	i32.shl 
	local.get	6
	i32.xor 
	i32.store	16:p2align=0
	local.get	0
	local.get	12
	i32.const	2
	i32.shl 
	local.get	10
	i32.xor 
	local.tee	6
	local.get	5
	i32.const	2
	i32.shl 
	local.get	3
	i32.xor 
	local.tee	3
	i32.const	4
	i32.shr_u
	i32.xor 
	i32.const	252645135
	i32.and 
	local.tee	5
	local.get	6
	i32.xor 
	i32.store	8:p2align=0
	local.get	0
	local.get	11
	i32.const	4
	i32.shl 
	local.get	7
	i32.xor 
	i32.store	4:p2align=0
	local.get	0
	local.get	5
	i32.const	4
	i32.shl 
	local.get	3
	i32.xor 
	i32.store	0:p2align=0
	local.get	4
	i32.const	96
	i32.add 
	global.set	__stack_pointer
                                        # fallthrough-return
	end_function
                                        # -- End function
	.section	.text.aes_planes__soft__word__word32__U32Word__rotate_planes,"",@
	.type	aes_planes__soft__word__word32__U32Word__rotate_planes,@function # -- Begin function aes_planes__soft__word__word32__U32Word__rotate_planes
aes_planes__soft__word__word32__U32Word__rotate_planes: # @aes_planes__soft__word__word32__U32Word__rotate_planes
	.functype	aes_planes__soft__word__word32__U32Word__rotate_planes (i32, i32, i32, i32) -> ()
	.local  	i32, i32, i32, i32, i32, i32, i32
# %bb.0:                                # %start
	local.get	1
	i32.load	0
	local.get	2
	local.get	3
	call	aes_planes__soft__word__word32__U32Word__rotate_rows_and_columns
	local.set	4
	local.get	1
	i32.load	4
	local.get	2
	local.get	3
	call	aes_planes__soft__word__word32__U32Word__rotate_rows_and_columns
	local.set	5
	local.get	1
	i32.load	8
	local.get	2
	local.get	3
	call	aes_planes__soft__word__word32__U32Word__rotate_rows_and_columns
	local.set	6
	local.get	1
	i32.load	12
	local.get	2
	local.get	3
	call	aes_planes__soft__word__word32__U32Word__rotate_rows_and_columns
	local.set	7
	local.get	1
	i32.load	16
	local.get	2
	local.get	3
	call	aes_planes__soft__word__word32__U32Word__rotate_rows_and_columns
	local.set	8
	local.get	1
	i32.load	20
	local.get	2
	local.get	3
	call	aes_planes__soft__word__word32__U32Word__rotate_rows_and_columns
	local.set	9
	local.get	1
	i32.load	24
	local.get	2
	local.get	3
	call	aes_planes__soft__word__word32__U32Word__rotate_rows_and_columns
	local.set	10
	local.get	0
	local.get	1
	i32.load	28
	local.get	2
	local.get	3
	call	aes_planes__soft__word__word32__U32Word__rotate_rows_and_columns
	i32.store	28:p2align=0
	local.get	0
	local.get	10
	i32.store	24:p2align=0
	local.get	0
	local.get	9
	i32.store	20:p2align=0
	local.get	0
	local.get	8
	i32.store	16:p2align=0
	local.get	0
	local.get	7
	i32.store	12:p2align=0
	local.get	0
	local.get	6
	i32.store	8:p2align=0
	local.get	0
	local.get	5
	i32.store	4:p2align=0
	local.get	0
	local.get	4
	i32.store	0:p2align=0
                                        # fallthrough-return
	end_function
                                        # -- End function
	.section	.text.aes_planes__soft__word__word32__U32Word__rotate_rows_and_columns,"",@
	.type	aes_planes__soft__word__word32__U32Word__rotate_rows_and_columns,@function # -- Begin function aes_planes__soft__word__word32__U32Word__rotate_rows_and_columns
aes_planes__soft__word__word32__U32Word__rotate_rows_and_columns: # @aes_planes__soft__word__word32__U32Word__rotate_rows_and_columns
	.functype	aes_planes__soft__word__word32__U32Word__rotate_rows_and_columns (i32, i32, i32) -> (i32)
	.local  	i32
# %bb.0:                                # %start
	local.get	1
	i32.const	3
	i32.shl 
	local.set	1
	block   	
	local.get	2
	br_if   	0                               # 0: down to label34
# %bb.1:                                # %then.1.i
	local.get	0
	local.get	1
	i32.rotr
	return
.LBB9_2:                                # %join.3.i
	end_block                               # label34:
	local.get	0
	local.get	2
	i32.const	1
	i32.shl 
	local.tee	3
	local.get	1
	i32.or  
	i32.rotr
	local.get	0
	local.get	1
	local.get	3
	i32.add 
	i32.const	24
	i32.add 
	i32.rotr
	local.tee	0
	i32.xor 
	i32.const	30
	local.get	2
	i32.const	255
	i32.and 
	local.tee	2
	i32.shr_u
	i32.const	5
	i32.and 
	i32.const	60
	local.get	2
	i32.shr_u
	i32.const	16
	i32.and 
	i32.or  
	i32.const	50529027
	i32.mul 
	i32.and 
	local.get	0
	i32.xor 
                                        # fallthrough-return
	end_function
                                        # -- End function
	.section	.text.aes_cipher__zeroize__stack__wipe_stack____1024_,"",@
	.type	aes_cipher__zeroize__stack__wipe_stack____1024_,@function # -- Begin function aes_cipher__zeroize__stack__wipe_stack____1024_
aes_cipher__zeroize__stack__wipe_stack____1024_: # @aes_cipher__zeroize__stack__wipe_stack____1024_
	.functype	aes_cipher__zeroize__stack__wipe_stack____1024_ () -> ()
	.local  	i32, i64
# %bb.0:                                # %start
	global.get	__stack_pointer
	i32.const	1040
	i32.sub 
	local.tee	0
	global.set	__stack_pointer
	local.get	0
	i32.const	16
	i32.add 
	i32.const	0
	i32.const	1024
	call	memset
	drop
	local.get	0
	i64.const	0
	i64.store	8
	#APP
	#NO_APP
	local.get	0
	i64.load	8
	local.set	1
	#APP
	#NO_APP
	block   	
	local.get	1
	i64.const	1024
	i64.ge_u
	br_if   	0                               # 0: down to label35
# %bb.1:                                # %then.1
	local.get	0
	i32.const	16
	i32.add 
	local.get	1
	i32.wrap_i64
	i32.add 
	i64.load8_u	0
	local.set	1
	#APP
	#NO_APP
	local.get	0
	i64.load	8
	drop
	local.get	0
	local.get	1
	i64.store	8
	#APP
	#NO_APP
.LBB10_2:                               # %common.ret
	end_block                               # label35:
	local.get	0
	i32.const	1040
	i32.add 
	global.set	__stack_pointer
                                        # fallthrough-return
	end_function
                                        # -- End function
	.section	.text.aes_narrow__borrowed_words__call_to_encrypt____b6a72634b88802f3_,"",@
	.type	aes_narrow__borrowed_words__call_to_encrypt____b6a72634b88802f3_,@function # -- Begin function aes_narrow__borrowed_words__call_to_encrypt____b6a72634b88802f3_
aes_narrow__borrowed_words__call_to_encrypt____b6a72634b88802f3_: # @aes_narrow__borrowed_words__call_to_encrypt____b6a72634b88802f3_
	.functype	aes_narrow__borrowed_words__call_to_encrypt____b6a72634b88802f3_ (i32, i64, i32) -> ()
	.local  	i32, i32, i64, i32, i64, i64, i64, i32, i64, i64, i64, i64, i32, i32, i32, i32, i32, i32, i32, i32, i32, i32, i32, i32, i32, i32, i32, i32, i32, i32, i32, i32, i32, i32, i32, i32, i32, i32, i32, i32, i32, i32, i32, i32, i32, i32, i32, i32, i32, i32, i32, i32, i32, i32, i32, i32, i32, i32
# %bb.0:                                # %start
	global.get	__stack_pointer
	i32.const	272
	i32.sub 
	local.tee	3
	global.set	__stack_pointer
	local.get	3
	local.get	1
	i64.store	8
	local.get	3
	i32.const	0
	i32.store	4
	local.get	3
	local.get	0
	i32.store	0
	local.get	2
	i32.const	16
	i32.add 
	i32.load	0
	local.set	4
	local.get	2
	i32.const	24
	i32.add 
	i64.load	0
	local.set	5
	local.get	2
	i32.load	0
	local.set	6
	block   	
	block   	
	local.get	2
	i32.const	8
	i32.add 
	i64.load	0
	local.tee	7
	i64.const	15
	i64.and 
	i64.eqz
	i32.eqz
	br_if   	0                               # 0: down to label37
# %bb.1:
	i64.const	0
	local.set	8
	br      	1                               # 1: down to label36
.LBB11_2:                               # %then.1.i.i
	end_block                               # label37:
	local.get	3
	local.get	6
	local.get	7
	i64.const	0
	local.get	4
	local.get	5
	call	aes_ctr__add_in_batches__add_next____a8e061590e9ece31_
	local.set	8
.LBB11_3:                               # %join.3.i.i
	end_block                               # label36:
	block   	
	local.get	5
	local.get	8
	i64.sub 
	local.tee	9
	i64.const	32
	i64.lt_u
	br_if   	0                               # 0: down to label38
# %bb.4:                                # %join.11.lr.ph.i.i
	local.get	4
	local.get	8
	i32.wrap_i64
	i32.add 
	local.set	2
	local.get	3
	i32.const	16
	i32.add 
	i32.const	32
	i32.add 
	local.set	10
.LBB11_5:                               # %join.11.i.i
                                        # =>This Inner Loop Header: Depth=1
	loop    	                                # label39:
	local.get	10
	i32.const	0
	i32.const	224
	call	memset
	drop
	local.get	3
	local.get	6
	i64.load	8:p2align=0
	local.tee	11
	i64.const	56
	i64.shl 
	local.get	11
	i64.const	65280
	i64.and 
	i64.const	40
	i64.shl 
	i64.or  
	local.get	11
	i64.const	16711680
	i64.and 
	i64.const	24
	i64.shl 
	local.get	11
	i64.const	4278190080
	i64.and 
	i64.const	8
	i64.shl 
	i64.or  
	i64.or  
	local.get	11
	i64.const	8
	i64.shr_u
	i64.const	4278190080
	i64.and 
	local.get	11
	i64.const	24
	i64.shr_u
	i64.const	16711680
	i64.and 
	i64.or  
	local.get	11
	i64.const	40
	i64.shr_u
	i64.const	65280
	i64.and 
	local.get	11
	i64.const	56
	i64.shr_u
	i64.or  
	i64.or  
	i64.or  
	local.tee	12
	local.get	7
	local.get	8
	i64.add 
	i64.const	4
	i64.shr_u
	i64.add 
	local.tee	13
	i64.const	32
	i64.shr_u
	i64.store8	27
	local.get	3
	local.get	13
	i64.const	40
	i64.shr_u
	i64.store8	26
	local.get	3
	local.get	13
	i64.const	48
	i64.shr_u
	i64.store8	25
	local.get	3
	local.get	13
	i64.const	56
	i64.shr_u
	i64.store8	24
	local.get	3
	local.get	13
	i64.const	1
	i64.add 
	local.tee	14
	i64.const	32
	i64.shr_u
	i64.store8	43
	local.get	3
	local.get	14
	i64.const	40
	i64.shr_u
	i64.store8	42
	local.get	3
	local.get	14
	i64.const	48
	i64.shr_u
	i64.store8	41
	local.get	3
	local.get	14
	i64.const	56
	i64.shr_u
	i64.store8	40
	local.get	3
	local.get	13
	i32.wrap_i64
	local.tee	15
	i32.store8	31
	local.get	3
	local.get	15
	i32.const	8
	i32.shr_u
	i32.store8	30
	local.get	3
	local.get	15
	i32.const	16
	i32.shr_u
	i32.store8	29
	local.get	3
	local.get	15
	i32.const	24
	i32.shr_u
	i32.store8	28
	local.get	3
	local.get	14
	i32.wrap_i64
	local.tee	15
	i32.store8	47
	local.get	3
	local.get	15
	i32.const	8
	i32.shr_u
	i32.store8	46
	local.get	3
	local.get	15
	i32.const	16
	i32.shr_u
	i32.store8	45
	local.get	3
	local.get	15
	i32.const	24
	i32.shr_u
	i32.store8	44
	local.get	3
	local.get	6
	i64.load	0:p2align=0
	local.tee	11
	i64.const	56
	i64.shl 
	local.get	11
	i64.const	65280
	i64.and 
	i64.const	40
	i64.shl 
	i64.or  
	local.get	11
	i64.const	16711680
	i64.and 
	i64.const	24
	i64.shl 
	local.get	11
	i64.const	4278190080
	i64.and 
	i64.const	8
	i64.shl 
	i64.or  
	i64.or  
	local.get	11
	i64.const	8
	i64.shr_u
	i64.const	4278190080
	i64.and 
	local.get	11
	i64.const	24
	i64.shr_u
	i64.const	16711680
	i64.and 
	i64.or  
	local.get	11
	i64.const	40
	i64.shr_u
	i64.const	65280
	i64.and 
	local.get	11
	i64.const	56
	i64.shr_u
	i64.or  
	i64.or  
	i64.or  
	local.get	13
	local.get	12
	i64.lt_u
	i64.extend_i32_u
	i64.add 
	local.tee	11
	i64.const	32
	i64.shr_u
	i64.store8	19
	local.get	3
	local.get	11
	i64.const	40
	i64.shr_u
	i64.store8	18
	local.get	3
	local.get	11
	i64.const	48
	i64.shr_u
	i64.store8	17
	local.get	3
	local.get	11
	i64.const	56
	i64.shr_u
	i64.store8	16
	local.get	3
	local.get	11
	local.get	14
	i64.eqz
	i64.extend_i32_u
	i64.add 
	local.tee	13
	i64.const	32
	i64.shr_u
	i64.store8	35
	local.get	3
	local.get	13
	i64.const	40
	i64.shr_u
	i64.store8	34
	local.get	3
	local.get	13
	i64.const	48
	i64.shr_u
	i64.store8	33
	local.get	3
	local.get	13
	i64.const	56
	i64.shr_u
	i64.store8	32
	local.get	3
	local.get	11
	i32.wrap_i64
	local.tee	15
	i32.store8	23
	local.get	3
	local.get	15
	i32.const	8
	i32.shr_u
	i32.store8	22
	local.get	3
	local.get	15
	i32.const	16
	i32.shr_u
	i32.store8	21
	local.get	3
	local.get	15
	i32.const	24
	i32.shr_u
	i32.store8	20
	local.get	3
	local.get	13
	i32.wrap_i64
	local.tee	15
	i32.store8	39
	local.get	3
	local.get	15
	i32.const	8
	i32.shr_u
	i32.store8	38
	local.get	3
	local.get	15
	i32.const	16
	i32.shr_u
	i32.store8	37
	local.get	3
	local.get	15
	i32.const	24
	i32.shr_u
	i32.store8	36
	local.get	0
	local.get	1
	local.get	3
	i32.const	16
	i32.add 
	i64.const	2
	call	aes_soft__soft__blocks__filled_up__process_filled_up____1a21aa7f601e7603_
	local.get	2
	i32.load8_u	0
	local.set	15
	local.get	2
	i32.load8_u	1
	local.set	16
	local.get	2
	i32.load8_u	2
	local.set	17
	local.get	2
	i32.load8_u	3
	local.set	18
	local.get	2
	i32.load8_u	4
	local.set	19
	local.get	2
	i32.load8_u	5
	local.set	20
	local.get	2
	i32.load8_u	6
	local.set	21
	local.get	2
	i32.load8_u	7
	local.set	22
	local.get	2
	i32.load8_u	8
	local.set	23
	local.get	2
	i32.load8_u	9
	local.set	24
	local.get	2
	i32.load8_u	10
	local.set	25
	local.get	2
	i32.load8_u	11
	local.set	26
	local.get	2
	i32.load8_u	12
	local.set	27
	local.get	2
	i32.load8_u	13
	local.set	28
	local.get	2
	i32.load8_u	14
	local.set	29
	local.get	3
	i32.load8_u	16
	local.set	30
	local.get	3
	i32.load8_u	17
	local.set	31
	local.get	3
	i32.load8_u	18
	local.set	32
	local.get	3
	i32.load8_u	19
	local.set	33
	local.get	3
	i32.load8_u	20
	local.set	34
	local.get	3
	i32.load8_u	21
	local.set	35
	local.get	3
	i32.load8_u	22
	local.set	36
	local.get	3
	i32.load8_u	23
	local.set	37
	local.get	3
	i32.load8_u	24
	local.set	38
	local.get	3
	i32.load8_u	25
	local.set	39
	local.get	3
	i32.load8_u	26
	local.set	40
	local.get	3
	i32.load8_u	27
	local.set	41
	local.get	3
	i32.load8_u	28
	local.set	42
	local.get	3
	i32.load8_u	29
	local.set	43
	local.get	3
	i32.load8_u	30
	local.set	44
	local.get	2
	local.get	3
	i32.load8_u	31
	local.get	2
	i32.load8_u	15
	i32.xor 
	i32.store8	15
	local.get	2
	local.get	44
	local.get	29
	i32.xor 
	i32.store8	14
	local.get	2
	local.get	43
	local.get	28
	i32.xor 
	i32.store8	13
	local.get	2
	local.get	42
	local.get	27
	i32.xor 
	i32.store8	12
	local.get	2
	local.get	41
	local.get	26
	i32.xor 
	i32.store8	11
	local.get	2
	local.get	40
	local.get	25
	i32.xor 
	i32.store8	10
	local.get	2
	local.get	39
	local.get	24
	i32.xor 
	i32.store8	9
	local.get	2
	local.get	38
	local.get	23
	i32.xor 
	i32.store8	8
	local.get	2
	local.get	37
	local.get	22
	i32.xor 
	i32.store8	7
	local.get	2
	local.get	36
	local.get	21
	i32.xor 
	i32.store8	6
	local.get	2
	local.get	35
	local.get	20
	i32.xor 
	i32.store8	5
	local.get	2
	local.get	34
	local.get	19
	i32.xor 
	i32.store8	4
	local.get	2
	local.get	33
	local.get	18
	i32.xor 
	i32.store8	3
	local.get	2
	local.get	32
	local.get	17
	i32.xor 
	i32.store8	2
	local.get	2
	local.get	31
	local.get	16
	i32.xor 
	i32.store8	1
	local.get	2
	local.get	30
	local.get	15
	i32.xor 
	i32.store8	0
	local.get	2
	i32.const	16
	i32.add 
	local.tee	15
	i32.load8_u	0
	local.set	16
	local.get	2
	i32.const	17
	i32.add 
	local.tee	17
	i32.load8_u	0
	local.set	18
	local.get	2
	i32.const	18
	i32.add 
	local.tee	19
	i32.load8_u	0
	local.set	20
	local.get	2
	i32.const	19
	i32.add 
	local.tee	21
	i32.load8_u	0
	local.set	22
	local.get	2
	i32.const	20
	i32.add 
	local.tee	23
	i32.load8_u	0
	local.set	24
	local.get	2
	i32.const	21
	i32.add 
	local.tee	25
	i32.load8_u	0
	local.set	26
	local.get	2
	i32.const	22
	i32.add 
	local.tee	27
	i32.load8_u	0
	local.set	28
	local.get	2
	i32.const	23
	i32.add 
	local.tee	29
	i32.load8_u	0
	local.set	30
	local.get	2
	i32.const	24
	i32.add 
	local.tee	31
	i32.load8_u	0
	local.set	32
	local.get	2
	i32.const	25
	i32.add 
	local.tee	33
	i32.load8_u	0
	local.set	34
	local.get	2
	i32.const	26
	i32.add 
	local.tee	35
	i32.load8_u	0
	local.set	36
	local.get	2
	i32.const	27
	i32.add 
	local.tee	37
	i32.load8_u	0
	local.set	38
	local.get	2
	i32.const	28
	i32.add 
	local.tee	39
	i32.load8_u	0
	local.set	40
	local.get	2
	i32.const	29
	i32.add 
	local.tee	41
	i32.load8_u	0
	local.set	42
	local.get	2
	i32.const	30
	i32.add 
	local.tee	43
	i32.load8_u	0
	local.set	44
	local.get	3
	i32.load8_u	32
	local.set	45
	local.get	3
	i32.load8_u	33
	local.set	46
	local.get	3
	i32.load8_u	34
	local.set	47
	local.get	3
	i32.load8_u	35
	local.set	48
	local.get	3
	i32.load8_u	36
	local.set	49
	local.get	3
	i32.load8_u	37
	local.set	50
	local.get	3
	i32.load8_u	38
	local.set	51
	local.get	3
	i32.load8_u	39
	local.set	52
	local.get	3
	i32.load8_u	40
	local.set	53
	local.get	3
	i32.load8_u	41
	local.set	54
	local.get	3
	i32.load8_u	42
	local.set	55
	local.get	3
	i32.load8_u	43
	local.set	56
	local.get	3
	i32.load8_u	44
	local.set	57
	local.get	3
	i32.load8_u	45
	local.set	58
	local.get	3
	i32.load8_u	46
	local.set	59
	local.get	2
	i32.const	31
	i32.add 
	local.tee	60
	local.get	3
	i32.load8_u	47
	local.get	60
	i32.load8_u	0
	i32.xor 
	i32.store8	0
	local.get	43
	local.get	59
	local.get	44
	i32.xor 
	i32.store8	0
	local.get	41
	local.get	58
	local.get	42
	i32.xor 
	i32.store8	0
	local.get	39
	local.get	57
	local.get	40
	i32.xor 
	i32.store8	0
	local.get	37
	local.get	56
	local.get	38
	i32.xor 
	i32.store8	0
	local.get	35
	local.get	55
	local.get	36
	i32.xor 
	i32.store8	0
	local.get	33
	local.get	54
	local.get	34
	i32.xor 
	i32.store8	0
	local.get	31
	local.get	53
	local.get	32
	i32.xor 
	i32.store8	0
	local.get	29
	local.get	52
	local.get	30
	i32.xor 
	i32.store8	0
	local.get	27
	local.get	51
	local.get	28
	i32.xor 
	i32.store8	0
	local.get	25
	local.get	50
	local.get	26
	i32.xor 
	i32.store8	0
	local.get	23
	local.get	49
	local.get	24
	i32.xor 
	i32.store8	0
	local.get	21
	local.get	48
	local.get	22
	i32.xor 
	i32.store8	0
	local.get	19
	local.get	47
	local.get	20
	i32.xor 
	i32.store8	0
	local.get	17
	local.get	46
	local.get	18
	i32.xor 
	i32.store8	0
	local.get	15
	local.get	45
	local.get	16
	i32.xor 
	i32.store8	0
	local.get	2
	i32.const	32
	i32.add 
	local.set	2
	local.get	8
	i64.const	32
	i64.add 
	local.set	8
	local.get	9
	i64.const	-32
	i64.add 
	local.tee	9
	i64.const	31
	i64.gt_u
	br_if   	0                               # 0: up to label39
.LBB11_6:                               # %loop.13.preheader.i.i
	end_loop
	end_block                               # label38:
	block   	
	local.get	8
	local.get	5
	i64.ge_u
	br_if   	0                               # 0: down to label40
.LBB11_7:                               # %join.16.i.i
                                        # =>This Inner Loop Header: Depth=1
	loop    	                                # label41:
	local.get	3
	local.get	6
	local.get	7
	local.get	8
	local.get	4
	local.get	5
	call	aes_ctr__add_in_batches__add_next____a8e061590e9ece31_
	local.tee	8
	local.get	5
	i64.lt_u
	br_if   	0                               # 0: up to label41
.LBB11_8:                               # %aes_ctr__add_in_batches__AddStreamBlockCipherEncClosure__call____b3b189439790eae9_.exit
	end_loop
	end_block                               # label40:
	local.get	3
	i32.const	272
	i32.add 
	global.set	__stack_pointer
                                        # fallthrough-return
	end_function
                                        # -- End function
	.section	.text.aes_ctr__add_in_batches__add_next____a8e061590e9ece31_,"",@
	.type	aes_ctr__add_in_batches__add_next____a8e061590e9ece31_,@function # -- Begin function aes_ctr__add_in_batches__add_next____a8e061590e9ece31_
aes_ctr__add_in_batches__add_next____a8e061590e9ece31_: # @aes_ctr__add_in_batches__add_next____a8e061590e9ece31_
	.functype	aes_ctr__add_in_batches__add_next____a8e061590e9ece31_ (i32, i32, i64, i64, i32, i64) -> (i64)
	.local  	i32, i64, i64, i64, i64, i32, i64, i32, i32, i32, i32, i32, i32, i32, i32, i32, i32, i32, i32, i32, i32, i32, i32, i32, i32, i32, i32, i32, i32, i32, i32, i32, i32, i32, i32, i32, i32, i32, i32
# %bb.0:                                # %start
	global.get	__stack_pointer
	i32.const	256
	i32.sub 
	local.tee	6
	global.set	__stack_pointer
	local.get	6
	i32.const	32
	i32.add 
	i32.const	0
	i32.const	224
	call	memset
	drop
	local.get	6
	local.get	1
	i64.load	8:p2align=0
	local.tee	7
	i64.const	56
	i64.shl 
	local.get	7
	i64.const	65280
	i64.and 
	i64.const	40
	i64.shl 
	i64.or  
	local.get	7
	i64.const	16711680
	i64.and 
	i64.const	24
	i64.shl 
	local.get	7
	i64.const	4278190080
	i64.and 
	i64.const	8
	i64.shl 
	i64.or  
	i64.or  
	local.get	7
	i64.const	8
	i64.shr_u
	i64.const	4278190080
	i64.and 
	local.get	7
	i64.const	24
	i64.shr_u
	i64.const	16711680
	i64.and 
	i64.or  
	local.get	7
	i64.const	40
	i64.shr_u
	i64.const	65280
	i64.and 
	local.get	7
	i64.const	56
	i64.shr_u
	i64.or  
	i64.or  
	i64.or  
	local.tee	8
	local.get	3
	local.get	2
	i64.add 
	local.tee	9
	i64.const	4
	i64.shr_u
	i64.add 
	local.tee	2
	i64.const	32
	i64.shr_u
	i64.store8	11
	local.get	6
	local.get	2
	i64.const	40
	i64.shr_u
	i64.store8	10
	local.get	6
	local.get	2
	i64.const	48
	i64.shr_u
	i64.store8	9
	local.get	6
	local.get	2
	i64.const	56
	i64.shr_u
	i64.store8	8
	local.get	6
	local.get	2
	i64.const	1
	i64.add 
	local.tee	10
	i64.const	32
	i64.shr_u
	i64.store8	27
	local.get	6
	local.get	10
	i64.const	40
	i64.shr_u
	i64.store8	26
	local.get	6
	local.get	10
	i64.const	48
	i64.shr_u
	i64.store8	25
	local.get	6
	local.get	10
	i64.const	56
	i64.shr_u
	i64.store8	24
	local.get	6
	local.get	2
	i32.wrap_i64
	local.tee	11
	i32.store8	15
	local.get	6
	local.get	11
	i32.const	8
	i32.shr_u
	i32.store8	14
	local.get	6
	local.get	11
	i32.const	16
	i32.shr_u
	i32.store8	13
	local.get	6
	local.get	11
	i32.const	24
	i32.shr_u
	i32.store8	12
	local.get	6
	local.get	10
	i32.wrap_i64
	local.tee	11
	i32.store8	31
	local.get	6
	local.get	11
	i32.const	8
	i32.shr_u
	i32.store8	30
	local.get	6
	local.get	11
	i32.const	16
	i32.shr_u
	i32.store8	29
	local.get	6
	local.get	11
	i32.const	24
	i32.shr_u
	i32.store8	28
	local.get	6
	local.get	1
	i64.load	0:p2align=0
	local.tee	7
	i64.const	56
	i64.shl 
	local.get	7
	i64.const	65280
	i64.and 
	i64.const	40
	i64.shl 
	i64.or  
	local.get	7
	i64.const	16711680
	i64.and 
	i64.const	24
	i64.shl 
	local.get	7
	i64.const	4278190080
	i64.and 
	i64.const	8
	i64.shl 
	i64.or  
	i64.or  
	local.get	7
	i64.const	8
	i64.shr_u
	i64.const	4278190080
	i64.and 
	local.get	7
	i64.const	24
	i64.shr_u
	i64.const	16711680
	i64.and 
	i64.or  
	local.get	7
	i64.const	40
	i64.shr_u
	i64.const	65280
	i64.and 
	local.get	7
	i64.const	56
	i64.shr_u
	i64.or  
	i64.or  
	i64.or  
	local.get	2
	local.get	8
	i64.lt_u
	i64.extend_i32_u
	i64.add 
	local.tee	7
	i64.const	32
	i64.shr_u
	i64.store8	3
	local.get	6
	local.get	7
	i64.const	40
	i64.shr_u
	i64.store8	2
	local.get	6
	local.get	7
	i64.const	48
	i64.shr_u
	i64.store8	1
	local.get	6
	local.get	7
	i64.const	56
	i64.shr_u
	i64.store8	0
	local.get	6
	local.get	7
	local.get	10
	i64.eqz
	i64.extend_i32_u
	i64.add 
	local.tee	2
	i64.const	32
	i64.shr_u
	i64.store8	19
	local.get	6
	local.get	2
	i64.const	40
	i64.shr_u
	i64.store8	18
	local.get	6
	local.get	2
	i64.const	48
	i64.shr_u
	i64.store8	17
	local.get	6
	local.get	2
	i64.const	56
	i64.shr_u
	i64.store8	16
	local.get	6
	local.get	7
	i32.wrap_i64
	local.tee	11
	i32.store8	7
	local.get	6
	local.get	11
	i32.const	8
	i32.shr_u
	i32.store8	6
	local.get	6
	local.get	11
	i32.const	16
	i32.shr_u
	i32.store8	5
	local.get	6
	local.get	11
	i32.const	24
	i32.shr_u
	i32.store8	4
	local.get	6
	local.get	2
	i32.wrap_i64
	local.tee	11
	i32.store8	23
	local.get	6
	local.get	11
	i32.const	8
	i32.shr_u
	i32.store8	22
	local.get	6
	local.get	11
	i32.const	16
	i32.shr_u
	i32.store8	21
	local.get	6
	local.get	11
	i32.const	24
	i32.shr_u
	i32.store8	20
	local.get	0
	i64.load	8:p2align=0
	local.set	7
	local.get	0
	i32.load	0:p2align=0
	local.set	11
	block   	
	block   	
	local.get	9
	i64.const	15
	i64.and 
	local.tee	12
	local.get	5
	local.get	3
	i64.sub 
	local.tee	2
	i64.const	32
	local.get	12
	i64.sub 
	local.tee	10
	local.get	2
	local.get	10
	i64.lt_u
	i64.select
	local.tee	2
	i64.add 
	i64.const	15
	i64.add 
	i64.const	112
	i64.and 
	i64.const	16
	i64.ne  
	br_if   	0                               # 0: down to label43
# %bb.1:                                # %then.1.i.i.i
	local.get	11
	local.get	7
	local.get	6
	i64.const	1
	call	aes_soft__soft__blocks__filled_up__process_filled_up____1a21aa7f601e7603_
	br      	1                               # 1: down to label42
.LBB12_2:                               # %else.2.i.i.i
	end_block                               # label43:
	local.get	11
	local.get	7
	local.get	6
	i64.const	2
	call	aes_soft__soft__blocks__filled_up__process_filled_up____1a21aa7f601e7603_
.LBB12_3:                               # %aes_ctr__keystream__fill_by_backend____a8e061590e9ece31_.exit
	end_block                               # label42:
	local.get	4
	local.get	3
	i32.wrap_i64
	local.tee	13
	i32.add 
	local.set	14
	block   	
	block   	
	local.get	12
	i64.eqz
	i32.eqz
	br_if   	0                               # 0: down to label45
# %bb.4:
	i64.const	0
	local.set	8
	br      	1                               # 1: down to label44
.LBB12_5:                               # %then.1.i
	end_block                               # label45:
	local.get	2
	i64.const	16
	local.get	12
	i64.sub 
	local.tee	7
	local.get	2
	local.get	7
	i64.lt_u
	i64.select
	local.set	8
	local.get	5
	local.get	3
	i64.eq  
	br_if   	0                               # 0: down to label44
# %bb.6:                                # %join.8.i85.preheader
	i64.const	0
	local.set	7
	block   	
	local.get	8
	i64.const	1
	i64.eq  
	br_if   	0                               # 0: down to label46
# %bb.7:                                # %join.8.i85.preheader.new
	local.get	8
	i64.const	1
	i64.and 
	local.set	5
	local.get	8
	i64.const	30
	i64.and 
	local.set	10
	local.get	6
	local.get	9
	i32.wrap_i64
	i32.const	15
	i32.and 
	i32.add 
	local.set	1
	i64.const	0
	local.set	7
	local.get	14
	local.set	11
.LBB12_8:                               # %join.8.i85
                                        # =>This Inner Loop Header: Depth=1
	loop    	                                # label47:
	local.get	11
	local.get	11
	i32.load8_u	0
	local.get	1
	i32.load8_u	0
	i32.xor 
	i32.store8	0
	local.get	11
	i32.const	1
	i32.add 
	local.tee	0
	local.get	0
	i32.load8_u	0
	local.get	1
	i32.const	1
	i32.add 
	i32.load8_u	0
	i32.xor 
	i32.store8	0
	local.get	11
	i32.const	2
	i32.add 
	local.set	11
	local.get	1
	i32.const	2
	i32.add 
	local.set	1
	local.get	10
	local.get	7
	i64.const	2
	i64.add 
	local.tee	7
	i64.ne  
	br_if   	0                               # 0: up to label47
# %bb.9:                                # %join.3.i.loopexit.unr-lcssa
	end_loop
	local.get	5
	i64.eqz
	br_if   	1                               # 1: down to label44
.LBB12_10:                              # %join.8.i85.epil.preheader
	end_block                               # label46:
	local.get	14
	local.get	7
	i32.wrap_i64
	i32.add 
	local.tee	11
	local.get	11
	i32.load8_u	0
	local.get	6
	local.get	7
	local.get	12
	i64.add 
	i32.wrap_i64
	i32.add 
	i32.load8_u	0
	i32.xor 
	i32.store8	0
.LBB12_11:                              # %join.3.i
	end_block                               # label44:
	block   	
	local.get	2
	local.get	8
	i64.sub 
	local.tee	10
	i64.const	16
	i64.lt_u
	br_if   	0                               # 0: down to label48
# %bb.12:                               # %join.8.i.preheader
	i64.const	0
	local.get	8
	i64.sub 
	local.set	7
	local.get	4
	local.get	8
	i32.wrap_i64
	local.tee	1
	local.get	13
	i32.add 
	i32.add 
	local.set	11
	local.get	9
	i32.wrap_i64
	i32.const	15
	i32.and 
	local.get	1
	i32.add 
	local.set	0
.LBB12_13:                              # %join.8.i
                                        # =>This Inner Loop Header: Depth=1
	loop    	                                # label49:
	local.get	6
	local.get	0
	i32.const	-16
	i32.and 
	i32.add 
	local.tee	1
	i32.load8_u	0
	local.set	15
	local.get	1
	i32.load8_u	1
	local.set	16
	local.get	1
	i32.load8_u	2
	local.set	17
	local.get	1
	i32.load8_u	3
	local.set	18
	local.get	1
	i32.load8_u	4
	local.set	19
	local.get	1
	i32.load8_u	5
	local.set	20
	local.get	1
	i32.load8_u	6
	local.set	21
	local.get	1
	i32.load8_u	7
	local.set	22
	local.get	1
	i32.load8_u	8
	local.set	23
	local.get	1
	i32.load8_u	9
	local.set	24
	local.get	1
	i32.load8_u	10
	local.set	25
	local.get	1
	i32.load8_u	11
	local.set	26
	local.get	1
	i32.load8_u	12
	local.set	27
	local.get	1
	i32.load8_u	13
	local.set	28
	local.get	1
	i32.load8_u	14
	local.set	29
	local.get	11
	i32.load8_u	0
	local.set	30
	local.get	11
	i32.load8_u	1
	local.set	31
	local.get	11
	i32.load8_u	2
	local.set	32
	local.get	11
	i32.load8_u	3
	local.set	33
	local.get	11
	i32.load8_u	4
	local.set	34
	local.get	11
	i32.load8_u	5
	local.set	35
	local.get	11
	i32.load8_u	6
	local.set	36
	local.get	11
	i32.load8_u	7
	local.set	37
	local.get	11
	i32.load8_u	8
	local.set	38
	local.get	11
	i32.load8_u	9
	local.set	39
	local.get	11
	i32.load8_u	10
	local.set	40
	local.get	11
	i32.load8_u	11
	local.set	41
	local.get	11
	i32.load8_u	12
	local.set	42
	local.get	11
	i32.load8_u	13
	local.set	43
	local.get	11
	i32.load8_u	14
	local.set	44
	local.get	11
	local.get	1
	i32.load8_u	15
	local.get	11
	i32.load8_u	15
	i32.xor 
	i32.store8	15
	local.get	11
	local.get	29
	local.get	44
	i32.xor 
	i32.store8	14
	local.get	11
	local.get	28
	local.get	43
	i32.xor 
	i32.store8	13
	local.get	11
	local.get	27
	local.get	42
	i32.xor 
	i32.store8	12
	local.get	11
	local.get	26
	local.get	41
	i32.xor 
	i32.store8	11
	local.get	11
	local.get	25
	local.get	40
	i32.xor 
	i32.store8	10
	local.get	11
	local.get	24
	local.get	39
	i32.xor 
	i32.store8	9
	local.get	11
	local.get	23
	local.get	38
	i32.xor 
	i32.store8	8
	local.get	11
	local.get	22
	local.get	37
	i32.xor 
	i32.store8	7
	local.get	11
	local.get	21
	local.get	36
	i32.xor 
	i32.store8	6
	local.get	11
	local.get	20
	local.get	35
	i32.xor 
	i32.store8	5
	local.get	11
	local.get	19
	local.get	34
	i32.xor 
	i32.store8	4
	local.get	11
	local.get	18
	local.get	33
	i32.xor 
	i32.store8	3
	local.get	11
	local.get	17
	local.get	32
	i32.xor 
	i32.store8	2
	local.get	11
	local.get	16
	local.get	31
	i32.xor 
	i32.store8	1
	local.get	11
	local.get	15
	local.get	30
	i32.xor 
	i32.store8	0
	local.get	11
	i32.const	16
	i32.add 
	local.set	11
	local.get	0
	i32.const	16
	i32.add 
	local.set	0
	local.get	2
	local.get	7
	i64.const	-16
	i64.add 
	local.tee	7
	i64.add 
	local.tee	10
	i64.const	15
	i64.gt_u
	br_if   	0                               # 0: up to label49
# %bb.14:                               # %after.4.i.loopexit
	end_loop
	i64.const	0
	local.get	7
	i64.sub 
	local.set	8
.LBB12_15:                              # %after.4.i
	end_block                               # label48:
	block   	
	local.get	8
	local.get	2
	i64.ge_u
	br_if   	0                               # 0: down to label50
# %bb.16:                               # %then.9.i
	local.get	10
	i64.eqz
	br_if   	0                               # 0: down to label50
# %bb.17:                               # %join.8.i28.preheader
	local.get	8
	i32.wrap_i64
	local.set	15
	local.get	8
	local.get	12
	i64.add 
	i32.wrap_i64
	i32.const	-16
	i32.and 
	local.set	16
	local.get	10
	i64.const	3
	i64.and 
	local.set	7
	i64.const	0
	local.set	8
	block   	
	local.get	10
	i64.const	4
	i64.lt_u
	br_if   	0                               # 0: down to label51
# %bb.18:                               # %join.8.i28.preheader.new
	local.get	14
	local.get	15
	i32.add 
	local.set	11
	local.get	6
	local.get	16
	i32.add 
	local.set	1
	i64.const	0
	local.set	8
	i64.const	0
	local.get	10
	i64.const	12
	i64.and 
	i64.sub 
	local.set	10
.LBB12_19:                              # %join.8.i28
                                        # =>This Inner Loop Header: Depth=1
	loop    	                                # label52:
	local.get	11
	local.get	11
	i32.load8_u	0
	local.get	1
	i32.load8_u	0
	i32.xor 
	i32.store8	0
	local.get	11
	i32.const	1
	i32.add 
	local.tee	0
	local.get	0
	i32.load8_u	0
	local.get	1
	i32.const	1
	i32.add 
	i32.load8_u	0
	i32.xor 
	i32.store8	0
	local.get	11
	i32.const	2
	i32.add 
	local.tee	0
	local.get	0
	i32.load8_u	0
	local.get	1
	i32.const	2
	i32.add 
	i32.load8_u	0
	i32.xor 
	i32.store8	0
	local.get	11
	i32.const	3
	i32.add 
	local.tee	0
	local.get	0
	i32.load8_u	0
	local.get	1
	i32.const	3
	i32.add 
	i32.load8_u	0
	i32.xor 
	i32.store8	0
	local.get	11
	i32.const	4
	i32.add 
	local.set	11
	local.get	1
	i32.const	4
	i32.add 
	local.set	1
	local.get	10
	local.get	8
	i64.const	-4
	i64.add 
	local.tee	8
	i64.ne  
	br_if   	0                               # 0: up to label52
# %bb.20:                               # %aes_ctr__add_blocks__add_blocks.exit.loopexit.unr-lcssa
	end_loop
	local.get	7
	i64.eqz
	br_if   	1                               # 1: down to label50
# %bb.21:
	i64.const	0
	local.get	8
	i64.sub 
	local.set	8
.LBB12_22:                              # %join.8.i28.epil.preheader
	end_block                               # label51:
	local.get	4
	local.get	15
	local.get	8
	i32.wrap_i64
	local.tee	1
	i32.add 
	local.get	13
	i32.add 
	i32.add 
	local.set	11
	local.get	6
	local.get	16
	local.get	1
	i32.add 
	i32.add 
	local.set	1
.LBB12_23:                              # %join.8.i28.epil
                                        # =>This Inner Loop Header: Depth=1
	loop    	                                # label53:
	local.get	11
	local.get	11
	i32.load8_u	0
	local.get	1
	i32.load8_u	0
	i32.xor 
	i32.store8	0
	local.get	1
	i32.const	1
	i32.add 
	local.set	1
	local.get	11
	i32.const	1
	i32.add 
	local.set	11
	local.get	7
	i64.const	-1
	i64.add 
	local.tee	7
	i64.const	0
	i64.ne  
	br_if   	0                               # 0: up to label53
.LBB12_24:                              # %aes_ctr__add_blocks__add_blocks.exit
	end_loop
	end_block                               # label50:
	local.get	6
	i32.const	256
	i32.add 
	global.set	__stack_pointer
	local.get	2
	local.get	3
	i64.add 
                                        # fallthrough-return
	end_function
                                        # -- End function
	.section	.text.aes_cipher__zeroize__stack__wipe_stack____2032_,"",@
	.type	aes_cipher__zeroize__stack__wipe_stack____2032_,@function # -- Begin function aes_cipher__zeroize__stack__wipe_stack____2032_
aes_cipher__zeroize__stack__wipe_stack____2032_: # @aes_cipher__zeroize__stack__wipe_stack____2032_
	.functype	aes_cipher__zeroize__stack__wipe_stack____2032_ () -> ()
	.local  	i32, i64
# %bb.0:                                # %start
	global.get	__stack_pointer
	i32.const	2048
	i32.sub 
	local.tee	0
	global.set	__stack_pointer
	local.get	0
	i32.const	16
	i32.add 
	i32.const	0
	i32.const	2032
	call	memset
	drop
	local.get	0
	i64.const	0
	i64.store	8
	#APP
	#NO_APP
	local.get	0
	i64.load	8
	local.set	1
	#APP
	#NO_APP
	block   	
	local.get	1
	i64.const	2032
	i64.ge_u
	br_if   	0                               # 0: down to label54
# %bb.1:                                # %then.1
	local.get	0
	i32.const	16
	i32.add 
	local.get	1
	i32.wrap_i64
	i32.add 
	i64.load8_u	0
	local.set	1
	#APP
	#NO_APP
	local.get	0
	i64.load	8
	drop
	local.get	0
	local.get	1
	i64.store	8
	#APP
	#NO_APP
.LBB13_2:                               # %common.ret
	end_block                               # label54:
	local.get	0
	i32.const	2048
	i32.add 
	global.set	__stack_pointer
                                        # fallthrough-return
	end_function
                                        # -- End function
	.section	.text.aes_cipher__zeroize__elements__zeroize_elements____54a2bb646728b9ee_,"",@
	.type	aes_cipher__zeroize__elements__zeroize_elements____54a2bb646728b9ee_,@function # -- Begin function aes_cipher__zeroize__elements__zeroize_elements____54a2bb646728b9ee_
aes_cipher__zeroize__elements__zeroize_elements____54a2bb646728b9ee_: # @aes_cipher__zeroize__elements__zeroize_elements____54a2bb646728b9ee_
	.functype	aes_cipher__zeroize__elements__zeroize_elements____54a2bb646728b9ee_ (i32) -> ()
	.local  	i32, i64, i64, i32, i32
# %bb.0:                                # %start
	global.get	__stack_pointer
	i32.const	16
	i32.sub 
	local.tee	1
	global.set	__stack_pointer
	i64.const	0
	local.set	2
	local.get	1
	i64.const	0
	i64.store	8
	#APP
	#NO_APP
	local.get	1
	i64.load	8
	local.set	3
	#APP
	#NO_APP
	block   	
	block   	
	local.get	3
	i64.const	120
	i64.lt_u
	br_if   	0                               # 0: down to label56
# %bb.1:                                # %aes_cipher__zeroize__observe____94bc162b3f62047f_.exit12
	local.get	0
	i32.const	0
	i32.const	480
	call	memset
	drop
	br      	1                               # 1: down to label55
.LBB14_2:                               # %then.1.i
	end_block                               # label56:
	local.get	0
	local.get	3
	i32.wrap_i64
	i32.const	2
	i32.shl 
	i32.add 
	local.tee	4
	i32.load8_u	0
	local.set	5
	local.get	0
	i32.const	0
	i32.const	480
	call	memset
	drop
	local.get	5
	local.get	4
	i32.load8_u	0
	i32.and 
	i64.extend_i32_u
	local.set	2
.LBB14_3:                               # %aes_cipher__zeroize__observe____94bc162b3f62047f_.exit
	end_block                               # label55:
	#APP
	#NO_APP
	local.get	1
	i64.load	8
	drop
	local.get	1
	local.get	2
	i64.store	8
	#APP
	#NO_APP
	local.get	1
	i32.const	16
	i32.add 
	global.set	__stack_pointer
                                        # fallthrough-return
	end_function
                                        # -- End function
	.section	.text.cmac__tags__tag____4f733d09d7f6c6b4_,"",@
	.type	cmac__tags__tag____4f733d09d7f6c6b4_,@function # -- Begin function cmac__tags__tag____4f733d09d7f6c6b4_
cmac__tags__tag____4f733d09d7f6c6b4_:   # @cmac__tags__tag____4f733d09d7f6c6b4_
	.functype	cmac__tags__tag____4f733d09d7f6c6b4_ (i32, i32, i32, i64) -> ()
	.local  	i32, i64
# %bb.0:                                # %start
	global.get	__stack_pointer
	i32.const	32
	i32.sub 
	local.tee	4
	global.set	__stack_pointer
	local.get	4
	i64.const	0
	i64.store	8
	local.get	4
	i64.const	0
	i64.store	0
	local.get	1
	local.get	4
	local.get	2
	local.get	3
	local.get	3
	i64.const	0
	i64.ne  
	i64.extend_i32_u
	i64.sub 
	i64.const	4294967280
	i64.and 
	local.tee	5
	call	cmac__chaining__chain____4f733d09d7f6c6b4_
	local.get	4
	i32.const	16
	i32.add 
	local.get	1
	local.get	4
	local.get	2
	local.get	5
	i32.wrap_i64
	i32.add 
	local.get	3
	local.get	5
	i64.sub 
	call	cmac__tags__tag_at_end____4f733d09d7f6c6b4_
	local.get	0
	local.get	4
	i64.load	24:p2align=0
	i64.store	8:p2align=0
	local.get	0
	local.get	4
	i64.load	16:p2align=0
	i64.store	0:p2align=0
	local.get	4
	i32.const	32
	i32.add 
	global.set	__stack_pointer
                                        # fallthrough-return
	end_function
                                        # -- End function
	.section	.text.cmac__chaining__chain____4f733d09d7f6c6b4_,"",@
	.type	cmac__chaining__chain____4f733d09d7f6c6b4_,@function # -- Begin function cmac__chaining__chain____4f733d09d7f6c6b4_
cmac__chaining__chain____4f733d09d7f6c6b4_: # @cmac__chaining__chain____4f733d09d7f6c6b4_
	.functype	cmac__chaining__chain____4f733d09d7f6c6b4_ (i32, i32, i32, i64) -> ()
	.local  	i32, i64, i32, i64, i32, i32, i32, i32, i32, i32, i32, i32, i32, i32, i32, i32, i32, i32, i32, i32, i32, i32, i32, i32, i32, i32, i32, i32, i32, i32, i32, i32, i32, i32, i32
# %bb.0:                                # %start
	global.get	__stack_pointer
	i32.const	16
	i32.sub 
	local.tee	4
	global.set	__stack_pointer
	block   	
	local.get	3
	i64.eqz
	br_if   	0                               # 0: down to label57
# %bb.1:                                # %join.5.lr.ph
	local.get	3
	i64.const	4
	i64.shr_u
	local.get	3
	i64.const	15
	i64.and 
	i64.const	0
	i64.ne  
	i64.extend_i32_u
	i64.add 
	local.set	5
	i32.const	0
	local.set	6
	i64.const	16
	local.set	7
.LBB16_2:                               # %join.5
                                        # =>This Inner Loop Header: Depth=1
	loop    	                                # label58:
	local.get	4
	i64.const	0
	i64.store	8
	local.get	4
	i64.const	0
	i64.store	0
	local.get	4
	local.get	2
	local.get	6
	local.get	3
	local.get	7
	local.get	3
	local.get	7
	i64.lt_u
	i64.select
	i32.wrap_i64
	i32.add 
	call	memcpy
	local.set	8
	local.get	1
	i32.load8_u	0
	local.set	9
	local.get	1
	i32.load8_u	1
	local.set	10
	local.get	1
	i32.load8_u	2
	local.set	11
	local.get	1
	i32.load8_u	3
	local.set	12
	local.get	1
	i32.load8_u	4
	local.set	13
	local.get	1
	i32.load8_u	5
	local.set	14
	local.get	1
	i32.load8_u	6
	local.set	15
	local.get	1
	i32.load8_u	7
	local.set	16
	local.get	1
	i32.load8_u	8
	local.set	17
	local.get	1
	i32.load8_u	9
	local.set	18
	local.get	1
	i32.load8_u	10
	local.set	19
	local.get	1
	i32.load8_u	11
	local.set	20
	local.get	1
	i32.load8_u	12
	local.set	21
	local.get	1
	i32.load8_u	13
	local.set	22
	local.get	1
	i32.load8_u	14
	local.set	23
	local.get	8
	i32.load8_u	0
	local.set	24
	local.get	8
	i32.load8_u	1
	local.set	25
	local.get	8
	i32.load8_u	2
	local.set	26
	local.get	8
	i32.load8_u	3
	local.set	27
	local.get	8
	i32.load8_u	4
	local.set	28
	local.get	8
	i32.load8_u	5
	local.set	29
	local.get	8
	i32.load8_u	6
	local.set	30
	local.get	8
	i32.load8_u	7
	local.set	31
	local.get	8
	i32.load8_u	8
	local.set	32
	local.get	8
	i32.load8_u	9
	local.set	33
	local.get	8
	i32.load8_u	10
	local.set	34
	local.get	8
	i32.load8_u	11
	local.set	35
	local.get	8
	i32.load8_u	12
	local.set	36
	local.get	8
	i32.load8_u	13
	local.set	37
	local.get	8
	i32.load8_u	14
	local.set	38
	local.get	1
	local.get	8
	i32.load8_u	15
	local.get	1
	i32.load8_u	15
	i32.xor 
	i32.store8	15
	local.get	1
	local.get	38
	local.get	23
	i32.xor 
	i32.store8	14
	local.get	1
	local.get	37
	local.get	22
	i32.xor 
	i32.store8	13
	local.get	1
	local.get	36
	local.get	21
	i32.xor 
	i32.store8	12
	local.get	1
	local.get	35
	local.get	20
	i32.xor 
	i32.store8	11
	local.get	1
	local.get	34
	local.get	19
	i32.xor 
	i32.store8	10
	local.get	1
	local.get	33
	local.get	18
	i32.xor 
	i32.store8	9
	local.get	1
	local.get	32
	local.get	17
	i32.xor 
	i32.store8	8
	local.get	1
	local.get	31
	local.get	16
	i32.xor 
	i32.store8	7
	local.get	1
	local.get	30
	local.get	15
	i32.xor 
	i32.store8	6
	local.get	1
	local.get	29
	local.get	14
	i32.xor 
	i32.store8	5
	local.get	1
	local.get	28
	local.get	13
	i32.xor 
	i32.store8	4
	local.get	1
	local.get	27
	local.get	12
	i32.xor 
	i32.store8	3
	local.get	1
	local.get	26
	local.get	11
	i32.xor 
	i32.store8	2
	local.get	1
	local.get	25
	local.get	10
	i32.xor 
	i32.store8	1
	local.get	1
	local.get	24
	local.get	9
	i32.xor 
	i32.store8	0
	local.get	0
	i32.load	0:p2align=0
	local.get	0
	i64.load	8:p2align=0
	local.get	1
	i64.const	1
	call	aes_narrow__blocks__process_all_batches____1a21aa7f601e7603_
	local.get	6
	i32.const	-16
	i32.add 
	local.set	6
	local.get	7
	i64.const	16
	i64.add 
	local.set	7
	local.get	2
	i32.const	16
	i32.add 
	local.set	2
	call	aes_cipher__zeroize__stack__wipe_stack____1024_
	local.get	5
	i64.const	-1
	i64.add 
	local.tee	5
	i64.const	0
	i64.ne  
	br_if   	0                               # 0: up to label58
.LBB16_3:                               # %after.1
	end_loop
	end_block                               # label57:
	local.get	4
	i32.const	16
	i32.add 
	global.set	__stack_pointer
                                        # fallthrough-return
	end_function
                                        # -- End function
	.section	.text.cmac__tags__tag_at_end____4f733d09d7f6c6b4_,"",@
	.type	cmac__tags__tag_at_end____4f733d09d7f6c6b4_,@function # -- Begin function cmac__tags__tag_at_end____4f733d09d7f6c6b4_
cmac__tags__tag_at_end____4f733d09d7f6c6b4_: # @cmac__tags__tag_at_end____4f733d09d7f6c6b4_
	.functype	cmac__tags__tag_at_end____4f733d09d7f6c6b4_ (i32, i32, i32, i32, i64) -> ()
	.local  	i32, i64, i64, i32, i64, i32, i32, i32, i32, i64, i64, i32, i32, i32, i32, i32, i32, i32, i32, i32, i32, i64, i64
# %bb.0:                                # %start
	global.get	__stack_pointer
	i32.const	48
	i32.sub 
	local.tee	5
	global.set	__stack_pointer
	local.get	5
	i64.const	0
	i64.store	40
	local.get	5
	i64.const	0
	i64.store	32
	local.get	1
	i32.load	0:p2align=0
	local.get	1
	i64.load	8:p2align=0
	local.get	5
	i32.const	32
	i32.add 
	i64.const	1
	call	aes_narrow__blocks__process_all_batches____1a21aa7f601e7603_
	call	aes_cipher__zeroize__stack__wipe_stack____1024_
	local.get	5
	i64.const	0
	i64.store	16
	local.get	5
	i64.const	0
	i64.store	24
	local.get	5
	i64.load	32
	local.set	6
	local.get	5
	i64.load	40
	local.set	7
	local.get	5
	i32.const	16
	i32.add 
	local.get	3
	local.get	4
	i32.wrap_i64
	local.tee	8
	call	memcpy
	drop
	local.get	7
	i64.const	56
	i64.shl 
	local.tee	9
	local.get	7
	i64.const	65280
	i64.and 
	i64.const	40
	i64.shl 
	i64.or  
	local.get	7
	i64.const	16711680
	i64.and 
	i64.const	24
	i64.shl 
	local.get	7
	i64.const	4278190080
	i64.and 
	i64.const	8
	i64.shl 
	i64.or  
	i64.or  
	local.get	7
	i64.const	8
	i64.shr_u
	i64.const	4278190080
	i64.and 
	local.get	7
	i64.const	24
	i64.shr_u
	i64.const	16711680
	i64.and 
	i64.or  
	local.get	7
	i64.const	40
	i64.shr_u
	i64.const	65280
	i64.and 
	local.get	7
	i64.const	56
	i64.shr_u
	i64.or  
	i64.or  
	i64.or  
	local.tee	7
	i64.const	31
	i64.shr_u
	i32.wrap_i64
	local.tee	10
	i32.const	16
	i32.shr_u
	local.tee	11
	i64.extend_i32_u
	i64.const	255
	i64.and 
	i64.const	8
	i64.shl 
	local.get	10
	i32.const	24
	i32.shr_u
	local.tee	12
	i64.extend_i32_u
	i64.or  
	local.get	7
	i64.const	7
	i64.shr_u
	i64.const	4278190080
	i64.and 
	i64.or  
	local.get	10
	i32.const	65280
	i32.and 
	i32.const	8
	i32.shr_u
	local.tee	13
	i64.extend_i32_u
	i64.const	16
	i64.shl 
	i64.or  
	local.get	7
	i64.const	1
	i64.shl 
	local.tee	7
	i32.wrap_i64
	local.tee	3
	i32.const	24
	i32.shr_u
	i64.extend_i32_u
	i64.const	32
	i64.shl 
	local.get	3
	i32.const	16
	i32.shr_u
	i64.extend_i32_u
	i64.const	255
	i64.and 
	i64.const	40
	i64.shl 
	i64.or  
	i64.or  
	local.tee	14
	local.get	3
	i32.const	65280
	i32.and 
	i32.const	8
	i32.shr_u
	i64.extend_i32_u
	i64.const	48
	i64.shl 
	local.get	6
	i64.const	56
	i64.shl 
	local.tee	15
	i64.const	63
	i64.shr_s
	i64.const	135
	i64.and 
	local.get	7
	i64.xor 
	i64.const	56
	i64.shl 
	i64.or  
	i64.or  
	local.set	7
	local.get	15
	local.get	6
	i64.const	65280
	i64.and 
	i64.const	40
	i64.shl 
	i64.or  
	local.get	6
	i64.const	16711680
	i64.and 
	i64.const	24
	i64.shl 
	local.get	6
	i64.const	4278190080
	i64.and 
	i64.const	8
	i64.shl 
	i64.or  
	i64.or  
	local.get	6
	i64.const	8
	i64.shr_u
	i64.const	4278190080
	i64.and 
	local.get	6
	i64.const	24
	i64.shr_u
	i64.const	16711680
	i64.and 
	i64.or  
	local.get	6
	i64.const	40
	i64.shr_u
	i64.const	65280
	i64.and 
	local.get	6
	i64.const	56
	i64.shr_u
	i64.or  
	i64.or  
	i64.or  
	local.tee	6
	i64.const	31
	i64.shr_u
	i32.wrap_i64
	local.tee	3
	i32.const	16
	i32.shr_u
	local.set	16
	local.get	3
	i32.const	24
	i32.shr_u
	local.set	17
	local.get	6
	i64.const	1
	i64.shl 
	local.get	9
	i64.const	63
	i64.shr_u
	i64.or  
	i32.wrap_i64
	local.tee	18
	i32.const	16
	i32.shr_u
	local.set	19
	local.get	18
	i32.const	24
	i32.shr_u
	local.set	20
	local.get	3
	i32.const	65280
	i32.and 
	i32.const	8
	i32.shr_u
	local.set	21
	local.get	18
	i32.const	65280
	i32.and 
	i32.const	8
	i32.shr_u
	local.set	22
	block   	
	block   	
	local.get	4
	i64.const	16
	i64.ne  
	br_if   	0                               # 0: down to label60
# %bb.1:                                # %then.1.i
	local.get	5
	i32.load8_u	27
	local.get	10
	i32.xor 
	local.set	10
	local.get	5
	i32.load8_u	26
	local.get	13
	i32.xor 
	local.set	8
	local.get	5
	i32.load8_u	25
	local.get	11
	i32.xor 
	local.set	11
	local.get	5
	i32.load8_u	24
	local.get	12
	i32.xor 
	local.set	12
	local.get	5
	i32.load8_u	23
	local.get	18
	i32.xor 
	local.set	18
	local.get	5
	i32.load8_u	22
	local.get	22
	i32.xor 
	local.set	22
	local.get	5
	i32.load8_u	21
	local.get	19
	i32.xor 
	local.set	19
	local.get	5
	i32.load8_u	20
	local.get	20
	i32.xor 
	local.set	20
	local.get	5
	i32.load8_u	19
	local.get	3
	i32.xor 
	local.set	3
	local.get	5
	i32.load8_u	18
	local.get	21
	i32.xor 
	local.set	21
	local.get	5
	i32.load8_u	17
	local.get	16
	i32.xor 
	local.set	16
	local.get	5
	i32.load8_u	16
	local.get	17
	i32.xor 
	local.set	17
	local.get	5
	i32.load8_u	31
	local.get	7
	i64.const	56
	i64.shr_u
	i32.wrap_i64
	i32.xor 
	local.set	13
	local.get	5
	i32.load8_u	30
	local.get	7
	i64.const	48
	i64.shr_u
	i32.wrap_i64
	i32.xor 
	local.set	23
	local.get	5
	i32.load8_u	29
	local.get	14
	i64.const	40
	i64.shr_u
	i32.wrap_i64
	i32.xor 
	local.set	24
	local.get	5
	i32.load8_u	28
	local.get	14
	i64.const	32
	i64.shr_u
	i32.wrap_i64
	i32.xor 
	local.set	25
	br      	1                               # 1: down to label59
.LBB17_2:                               # %else.2.i
	end_block                               # label60:
	local.get	5
	i32.const	16
	i32.add 
	local.get	8
	i32.add 
	i32.const	128
	i32.store8	0
	local.get	5
	i32.load8_u	27
	local.get	7
	i64.const	56
	i64.shl 
	local.tee	4
	local.get	7
	i64.const	65280
	i64.and 
	i64.const	40
	i64.shl 
	i64.or  
	local.get	7
	i64.const	16711680
	i64.and 
	i64.const	24
	i64.shl 
	local.get	7
	i64.const	4278190080
	i64.and 
	i64.const	8
	i64.shl 
	i64.or  
	i64.or  
	local.get	7
	i64.const	8
	i64.shr_u
	i64.const	4278190080
	i64.and 
	local.get	7
	i64.const	24
	i64.shr_u
	i64.const	16711680
	i64.and 
	i64.or  
	local.get	7
	i64.const	40
	i64.shr_u
	i64.const	65280
	i64.and 
	local.get	7
	i64.const	56
	i64.shr_u
	i64.or  
	i64.or  
	i64.or  
	local.tee	7
	i64.const	31
	i64.shr_u
	i32.wrap_i64
	local.tee	8
	i32.xor 
	local.set	10
	local.get	5
	i32.load8_u	25
	local.get	8
	i32.const	16
	i32.shr_u
	i32.xor 
	local.set	11
	local.get	5
	i32.load8_u	24
	local.get	8
	i32.const	24
	i32.shr_u
	i32.xor 
	local.set	12
	local.get	5
	i32.load8_u	26
	local.get	8
	i32.const	65280
	i32.and 
	i32.const	8
	i32.shr_u
	i32.xor 
	local.set	8
	local.get	5
	i32.load8_u	31
	local.get	18
	i64.extend_i32_u
	local.tee	9
	i64.const	56
	i64.shl 
	local.get	22
	i64.extend_i32_u
	i64.const	48
	i64.shl 
	local.tee	14
	i64.or  
	local.get	19
	i64.extend_i32_u
	i64.const	255
	i64.and 
	i64.const	40
	i64.shl 
	local.tee	15
	i64.or  
	local.get	20
	i64.extend_i32_u
	i64.const	32
	i64.shl 
	local.tee	26
	i64.or  
	local.get	3
	i64.extend_i32_u
	i64.const	255
	i64.and 
	i64.const	24
	i64.shl 
	i64.or  
	local.get	21
	i64.extend_i32_u
	i64.const	16
	i64.shl 
	i64.or  
	local.get	16
	i64.extend_i32_u
	i64.const	255
	i64.and 
	i64.const	8
	i64.shl 
	i64.or  
	local.get	17
	i64.extend_i32_u
	i64.or  
	local.tee	6
	i64.const	56
	i64.shl 
	local.tee	27
	i64.const	63
	i64.shr_s
	i64.const	135
	i64.and 
	local.get	7
	i64.const	1
	i64.shl 
	i64.xor 
	i32.wrap_i64
	local.tee	3
	i32.xor 
	local.set	13
	local.get	5
	i32.load8_u	29
	local.get	3
	i32.const	16
	i32.shr_u
	i32.xor 
	local.set	24
	local.get	5
	i32.load8_u	28
	local.get	3
	i32.const	24
	i32.shr_u
	i32.xor 
	local.set	25
	local.get	5
	i32.load8_u	30
	local.get	3
	i32.const	65280
	i32.and 
	i32.const	8
	i32.shr_u
	i32.xor 
	local.set	23
	local.get	5
	i32.load8_u	19
	local.get	27
	local.get	6
	i64.const	65280
	i64.and 
	i64.const	40
	i64.shl 
	i64.or  
	local.get	6
	i64.const	16711680
	i64.and 
	i64.const	24
	i64.shl 
	local.get	6
	i64.const	4278190080
	i64.and 
	i64.const	8
	i64.shl 
	i64.or  
	i64.or  
	local.get	26
	i64.const	8
	i64.shr_u
	local.get	15
	i64.const	24
	i64.shr_u
	i64.or  
	local.get	14
	i64.const	40
	i64.shr_u
	local.get	9
	i64.const	255
	i64.and 
	i64.or  
	i64.or  
	i64.or  
	local.tee	6
	i64.const	31
	i64.shr_u
	i32.wrap_i64
	local.tee	21
	i32.xor 
	local.set	3
	local.get	5
	i32.load8_u	23
	local.get	6
	i64.const	1
	i64.shl 
	local.get	4
	i64.const	63
	i64.shr_u
	i64.or  
	i32.wrap_i64
	local.tee	22
	i32.xor 
	local.set	18
	local.get	5
	i32.load8_u	17
	local.get	21
	i32.const	16
	i32.shr_u
	i32.xor 
	local.set	16
	local.get	5
	i32.load8_u	16
	local.get	21
	i32.const	24
	i32.shr_u
	i32.xor 
	local.set	17
	local.get	5
	i32.load8_u	21
	local.get	22
	i32.const	16
	i32.shr_u
	i32.xor 
	local.set	19
	local.get	5
	i32.load8_u	20
	local.get	22
	i32.const	24
	i32.shr_u
	i32.xor 
	local.set	20
	local.get	5
	i32.load8_u	18
	local.get	21
	i32.const	65280
	i32.and 
	i32.const	8
	i32.shr_u
	i32.xor 
	local.set	21
	local.get	5
	i32.load8_u	22
	local.get	22
	i32.const	65280
	i32.and 
	i32.const	8
	i32.shr_u
	i32.xor 
	local.set	22
.LBB17_3:                               # %cmac__tags__last_block____4f733d09d7f6c6b4_.exit
	end_block                               # label59:
	local.get	5
	local.get	2
	i32.load8_u	15
	local.get	13
	i32.xor 
	i32.store8	15
	local.get	5
	local.get	2
	i32.load8_u	14
	local.get	23
	i32.xor 
	i32.store8	14
	local.get	5
	local.get	2
	i32.load8_u	13
	local.get	24
	i32.xor 
	i32.store8	13
	local.get	5
	local.get	2
	i32.load8_u	12
	local.get	25
	i32.xor 
	i32.store8	12
	local.get	5
	local.get	2
	i32.load8_u	11
	local.get	10
	i32.xor 
	i32.store8	11
	local.get	5
	local.get	2
	i32.load8_u	10
	local.get	8
	i32.xor 
	i32.store8	10
	local.get	5
	local.get	2
	i32.load8_u	9
	local.get	11
	i32.xor 
	i32.store8	9
	local.get	5
	local.get	2
	i32.load8_u	8
	local.get	12
	i32.xor 
	i32.store8	8
	local.get	5
	local.get	2
	i32.load8_u	7
	local.get	18
	i32.xor 
	i32.store8	7
	local.get	5
	local.get	2
	i32.load8_u	6
	local.get	22
	i32.xor 
	i32.store8	6
	local.get	5
	local.get	2
	i32.load8_u	5
	local.get	19
	i32.xor 
	i32.store8	5
	local.get	5
	local.get	2
	i32.load8_u	4
	local.get	20
	i32.xor 
	i32.store8	4
	local.get	5
	local.get	2
	i32.load8_u	3
	local.get	3
	i32.xor 
	i32.store8	3
	local.get	5
	local.get	2
	i32.load8_u	2
	local.get	21
	i32.xor 
	i32.store8	2
	local.get	5
	local.get	2
	i32.load8_u	1
	local.get	16
	i32.xor 
	i32.store8	1
	local.get	5
	local.get	2
	i32.load8_u	0
	local.get	17
	i32.xor 
	i32.store8	0
	local.get	1
	i32.load	0:p2align=0
	local.get	1
	i64.load	8:p2align=0
	local.get	5
	i64.const	1
	call	aes_narrow__blocks__process_all_batches____1a21aa7f601e7603_
	call	aes_cipher__zeroize__stack__wipe_stack____1024_
	local.get	0
	local.get	5
	i64.load	8:p2align=0
	i64.store	8:p2align=0
	local.get	0
	local.get	5
	i64.load	0:p2align=0
	i64.store	0:p2align=0
	local.get	5
	i32.const	48
	i32.add 
	global.set	__stack_pointer
                                        # fallthrough-return
	end_function
                                        # -- End function
	.section	.text.cmac__pieces__MessageZeroize__zeroize,"",@
	.type	cmac__pieces__MessageZeroize__zeroize,@function # -- Begin function cmac__pieces__MessageZeroize__zeroize
cmac__pieces__MessageZeroize__zeroize:  # @cmac__pieces__MessageZeroize__zeroize
	.functype	cmac__pieces__MessageZeroize__zeroize (i32) -> ()
# %bb.0:                                # %start
	local.get	0
	i64.const	0
	i64.store	8
	local.get	0
	i64.const	0
	i64.store	0
	local.get	0
	i32.const	16
	i32.add 
	call	aes_cipher__zeroize__elements__zeroize_elements____331496ca003a3905_
	local.get	0
	i32.const	32
	i32.add 
	call	aes_cipher__zeroize__elements__zeroize_elements____331496ca003a3905_
                                        # fallthrough-return
	end_function
                                        # -- End function
	.section	.text.aes_cipher__zeroize__elements__zeroize_elements____331496ca003a3905_,"",@
	.type	aes_cipher__zeroize__elements__zeroize_elements____331496ca003a3905_,@function # -- Begin function aes_cipher__zeroize__elements__zeroize_elements____331496ca003a3905_
aes_cipher__zeroize__elements__zeroize_elements____331496ca003a3905_: # @aes_cipher__zeroize__elements__zeroize_elements____331496ca003a3905_
	.functype	aes_cipher__zeroize__elements__zeroize_elements____331496ca003a3905_ (i32) -> ()
	.local  	i32
# %bb.0:                                # %start
	global.get	__stack_pointer
	i32.const	16
	i32.sub 
	local.tee	1
	i64.const	0
	i64.store	8
	#APP
	#NO_APP
	local.get	1
	i64.load	8
	drop
	#APP
	#NO_APP
	local.get	0
	i64.const	0
	i64.store	8:p2align=0
	local.get	0
	i64.const	0
	i64.store	0:p2align=0
	#APP
	#NO_APP
	local.get	1
	i64.load	8
	drop
	local.get	1
	i64.const	0
	i64.store	8
	#APP
	#NO_APP
                                        # fallthrough-return
	end_function
                                        # -- End function
	.section	.text.cmac__chain_in_pieces__ChainInPieces__extend____4f733d09d7f6c6b4_,"",@
	.type	cmac__chain_in_pieces__ChainInPieces__extend____4f733d09d7f6c6b4_,@function # -- Begin function cmac__chain_in_pieces__ChainInPieces__extend____4f733d09d7f6c6b4_
cmac__chain_in_pieces__ChainInPieces__extend____4f733d09d7f6c6b4_: # @cmac__chain_in_pieces__ChainInPieces__extend____4f733d09d7f6c6b4_
	.functype	cmac__chain_in_pieces__ChainInPieces__extend____4f733d09d7f6c6b4_ (i32, i32, i32, i64) -> ()
	.local  	i64, i64, i64, i32, i32, i64, i32, i32, i64, i32, i32, i32, i64
# %bb.0:                                # %start
	block   	
	block   	
	block   	
	block   	
	block   	
	local.get	3
	i64.const	16
	local.get	0
	i64.load	0
	local.tee	4
	i64.const	16
	local.get	4
	i64.const	16
	i64.lt_u
	i64.select
	local.tee	5
	i64.sub 
	local.tee	6
	i64.gt_u
	br_if   	0                               # 0: down to label65
# %bb.1:                                # %then.1
	local.get	5
	local.get	3
	i64.add 
	local.set	6
	local.get	0
	local.get	5
	i32.wrap_i64
	local.tee	1
	i32.add 
	local.tee	7
	i32.const	24
	i32.add 
	local.tee	8
	i64.extend_i32_u
	local.get	2
	i64.extend_i32_u
	i64.sub 
	local.get	3
	i64.ge_u
	br_if   	1                               # 1: down to label64
# %bb.2:                                # %join.7.i.i.i.i.i.i.preheader
	local.get	3
	i64.const	3
	i64.and 
	local.set	4
	i64.const	0
	local.set	9
	block   	
	local.get	3
	i64.const	4
	i64.lt_u
	br_if   	0                               # 0: down to label66
# %bb.3:                                # %join.7.i.i.i.i.i.i.preheader.new
	local.get	3
	i64.const	4294967292
	i64.and 
	local.set	3
	i64.const	0
	local.set	9
	i32.const	0
	local.set	8
.LBB20_4:                               # %join.7.i.i.i.i.i.i
                                        # =>This Inner Loop Header: Depth=1
	loop    	                                # label67:
	local.get	7
	local.get	8
	i32.add 
	local.tee	10
	i32.const	24
	i32.add 
	local.get	2
	local.get	8
	i32.add 
	local.tee	11
	i32.load8_u	0
	i32.store8	0
	local.get	10
	i32.const	25
	i32.add 
	local.get	11
	i32.const	1
	i32.add 
	i32.load8_u	0
	i32.store8	0
	local.get	10
	i32.const	26
	i32.add 
	local.get	11
	i32.const	2
	i32.add 
	i32.load8_u	0
	i32.store8	0
	local.get	10
	i32.const	27
	i32.add 
	local.get	11
	i32.const	3
	i32.add 
	i32.load8_u	0
	i32.store8	0
	local.get	8
	i32.const	4
	i32.add 
	local.set	8
	local.get	3
	local.get	9
	i64.const	4
	i64.add 
	local.tee	9
	i64.ne  
	br_if   	0                               # 0: up to label67
# %bb.5:                                # %common.ret.loopexit72.unr-lcssa
	end_loop
	local.get	4
	i64.eqz
	br_if   	5                               # 5: down to label61
.LBB20_6:                               # %join.7.i.i.i.i.i.i.epil.preheader
	end_block                               # label66:
	local.get	2
	local.get	9
	i32.wrap_i64
	local.tee	10
	i32.add 
	local.set	8
	local.get	10
	local.get	1
	i32.add 
	local.get	0
	i32.add 
	i32.const	24
	i32.add 
	local.set	10
.LBB20_7:                               # %join.7.i.i.i.i.i.i.epil
                                        # =>This Inner Loop Header: Depth=1
	loop    	                                # label68:
	local.get	10
	local.get	8
	i32.load8_u	0
	i32.store8	0
	local.get	10
	i32.const	1
	i32.add 
	local.set	10
	local.get	8
	i32.const	1
	i32.add 
	local.set	8
	local.get	4
	i64.const	-1
	i64.add 
	local.tee	4
	i64.const	0
	i64.ne  
	br_if   	0                               # 0: up to label68
	br      	5                               # 5: down to label61
.LBB20_8:                               # %join.3
	end_loop
	end_block                               # label65:
	local.get	3
	local.get	6
	i64.sub 
	local.set	12
	local.get	2
	local.get	6
	i32.wrap_i64
	local.tee	8
	i32.add 
	local.set	13
	local.get	0
	i32.const	24
	i32.add 
	local.tee	14
	local.get	5
	i32.wrap_i64
	local.tee	15
	i32.add 
	local.tee	10
	i64.extend_i32_u
	local.get	2
	i64.extend_i32_u
	i64.sub 
	local.get	6
	i64.ge_u
	br_if   	1                               # 1: down to label63
# %bb.9:                                # %join.7.i.i.i.i.i.i39.preheader
	local.get	6
	i64.const	3
	i64.and 
	local.set	4
	i64.const	0
	local.set	9
	block   	
	local.get	5
	i64.const	-13
	i64.add 
	i64.const	3
	i64.lt_u
	br_if   	0                               # 0: down to label69
# %bb.10:                               # %join.7.i.i.i.i.i.i39.preheader.new
	local.get	0
	local.get	15
	i32.add 
	local.set	7
	local.get	6
	i64.const	28
	i64.and 
	local.set	6
	i64.const	0
	local.set	9
	i32.const	0
	local.set	8
.LBB20_11:                              # %join.7.i.i.i.i.i.i39
                                        # =>This Inner Loop Header: Depth=1
	loop    	                                # label70:
	local.get	7
	local.get	8
	i32.add 
	local.tee	10
	i32.const	24
	i32.add 
	local.get	2
	local.get	8
	i32.add 
	local.tee	11
	i32.load8_u	0
	i32.store8	0
	local.get	10
	i32.const	25
	i32.add 
	local.get	11
	i32.const	1
	i32.add 
	i32.load8_u	0
	i32.store8	0
	local.get	10
	i32.const	26
	i32.add 
	local.get	11
	i32.const	2
	i32.add 
	i32.load8_u	0
	i32.store8	0
	local.get	10
	i32.const	27
	i32.add 
	local.get	11
	i32.const	3
	i32.add 
	i32.load8_u	0
	i32.store8	0
	local.get	8
	i32.const	4
	i32.add 
	local.set	8
	local.get	6
	local.get	9
	i64.const	4
	i64.add 
	local.tee	9
	i64.ne  
	br_if   	0                               # 0: up to label70
# %bb.12:                               # %core__slice__edits__slice_T__copy_from_slice___i8_20_core__clone__U8Clone___.exit46.loopexit.unr-lcssa
	end_loop
	local.get	4
	i64.eqz
	br_if   	3                               # 3: down to label62
.LBB20_13:                              # %join.7.i.i.i.i.i.i39.epil.preheader
	end_block                               # label69:
	local.get	2
	local.get	9
	i32.wrap_i64
	local.tee	10
	i32.add 
	local.set	8
	local.get	10
	local.get	15
	i32.add 
	local.get	0
	i32.add 
	i32.const	24
	i32.add 
	local.set	10
.LBB20_14:                              # %join.7.i.i.i.i.i.i39.epil
                                        # =>This Inner Loop Header: Depth=1
	loop    	                                # label71:
	local.get	10
	local.get	8
	i32.load8_u	0
	i32.store8	0
	local.get	10
	i32.const	1
	i32.add 
	local.set	10
	local.get	8
	i32.const	1
	i32.add 
	local.set	8
	local.get	4
	i64.const	-1
	i64.add 
	local.tee	4
	i64.const	0
	i64.ne  
	br_if   	0                               # 0: up to label71
	br      	3                               # 3: down to label62
.LBB20_15:                              # %apart.2.i.i.i.i.i.i
	end_loop
	end_block                               # label64:
	local.get	8
	local.get	2
	local.get	3
	i32.wrap_i64
	call	memmove
	drop
	local.get	0
	local.get	6
	i64.store	0
	return
.LBB20_16:                              # %apart.2.i.i.i.i.i.i37
	end_block                               # label63:
	local.get	10
	local.get	2
	local.get	8
	call	memmove
	drop
.LBB20_17:                              # %core__slice__edits__slice_T__copy_from_slice___i8_20_core__clone__U8Clone___.exit46
	end_block                               # label62:
	local.get	1
	local.get	0
	i32.const	8
	i32.add 
	local.tee	8
	local.get	14
	i64.const	16
	call	cmac__chaining__chain____4f733d09d7f6c6b4_
	local.get	1
	local.get	8
	local.get	13
	local.get	12
	i64.const	-1
	i64.add 
	i64.const	-16
	i64.and 
	local.tee	16
	call	cmac__chaining__chain____4f733d09d7f6c6b4_
	block   	
	block   	
	block   	
	local.get	14
	i64.extend_i32_u
	local.get	13
	local.get	16
	i32.wrap_i64
	local.tee	1
	i32.add 
	local.tee	8
	i64.extend_i32_u
	i64.sub 
	local.get	12
	local.get	16
	i64.sub 
	local.tee	6
	i64.ge_u
	br_if   	0                               # 0: down to label74
# %bb.18:                               # %join.7.i.i.i.i.i.i60.preheader
	local.get	12
	i64.const	3
	i64.and 
	local.set	4
	i64.const	0
	local.set	9
	local.get	3
	local.get	5
	i64.add 
	local.get	16
	i64.sub 
	i64.const	-17
	i64.add 
	i64.const	3
	i64.lt_u
	br_if   	2                               # 2: down to label72
# %bb.19:                               # %join.7.i.i.i.i.i.i60.preheader.new
	local.get	6
	local.get	4
	i64.sub 
	local.set	3
	local.get	2
	local.get	1
	local.get	15
	i32.sub 
	i32.add 
	local.set	7
	i64.const	0
	local.set	9
	i32.const	0
	local.set	8
.LBB20_20:                              # %join.7.i.i.i.i.i.i60
                                        # =>This Inner Loop Header: Depth=1
	loop    	                                # label75:
	local.get	0
	local.get	8
	i32.add 
	local.tee	10
	i32.const	24
	i32.add 
	local.get	7
	local.get	8
	i32.add 
	local.tee	11
	i32.const	16
	i32.add 
	i32.load8_u	0
	i32.store8	0
	local.get	10
	i32.const	25
	i32.add 
	local.get	11
	i32.const	17
	i32.add 
	i32.load8_u	0
	i32.store8	0
	local.get	10
	i32.const	26
	i32.add 
	local.get	11
	i32.const	18
	i32.add 
	i32.load8_u	0
	i32.store8	0
	local.get	10
	i32.const	27
	i32.add 
	local.get	11
	i32.const	19
	i32.add 
	i32.load8_u	0
	i32.store8	0
	local.get	8
	i32.const	4
	i32.add 
	local.set	8
	local.get	3
	local.get	9
	i64.const	4
	i64.add 
	local.tee	9
	i64.ne  
	br_if   	0                               # 0: up to label75
	br      	2                               # 2: down to label73
.LBB20_21:                              # %apart.2.i.i.i.i.i.i58
	end_loop
	end_block                               # label74:
	local.get	14
	local.get	8
	local.get	6
	i32.wrap_i64
	call	memmove
	drop
	local.get	0
	local.get	6
	i64.store	0
	return
.LBB20_22:                              # %common.ret.loopexit.unr-lcssa
	end_block                               # label73:
	local.get	4
	i64.eqz
	br_if   	1                               # 1: down to label61
.LBB20_23:                              # %join.7.i.i.i.i.i.i60.epil.preheader
	end_block                               # label72:
	local.get	9
	i32.wrap_i64
	local.tee	10
	local.get	0
	i32.add 
	i32.const	24
	i32.add 
	local.set	8
	local.get	1
	local.get	10
	i32.add 
	local.get	15
	i32.sub 
	local.get	2
	i32.add 
	i32.const	16
	i32.add 
	local.set	10
.LBB20_24:                              # %join.7.i.i.i.i.i.i60.epil
                                        # =>This Inner Loop Header: Depth=1
	loop    	                                # label76:
	local.get	8
	local.get	10
	i32.load8_u	0
	i32.store8	0
	local.get	8
	i32.const	1
	i32.add 
	local.set	8
	local.get	10
	i32.const	1
	i32.add 
	local.set	10
	local.get	4
	i64.const	-1
	i64.add 
	local.tee	4
	i64.eqz
	i32.eqz
	br_if   	0                               # 0: up to label76
.LBB20_25:                              # %common.ret
	end_loop
	end_block                               # label61:
	local.get	0
	local.get	6
	i64.store	0
                                        # fallthrough-return
	end_function
                                        # -- End function
	.section	.text.key_wrap__wrapping__wrap____4f733d09d7f6c6b4_,"",@
	.type	key_wrap__wrapping__wrap____4f733d09d7f6c6b4_,@function # -- Begin function key_wrap__wrapping__wrap____4f733d09d7f6c6b4_
key_wrap__wrapping__wrap____4f733d09d7f6c6b4_: # @key_wrap__wrapping__wrap____4f733d09d7f6c6b4_
	.functype	key_wrap__wrapping__wrap____4f733d09d7f6c6b4_ (i32, i32, i64, i32, i64) -> (i32)
	.local  	i32, i64, i32, i64, i32, i32
# %bb.0:                                # %start
	i32.const	1
	local.set	5
	block   	
	local.get	2
	i64.const	2
	i64.lt_u
	br_if   	0                               # 0: down to label77
# %bb.1:                                # %start
	local.get	4
	local.get	2
	i64.const	1
	i64.add 
	i64.ne  
	br_if   	0                               # 0: down to label77
# %bb.2:                                # %arm.12
	local.get	3
	i64.const	-6438275382588823898
	i64.store	0:p2align=0
	local.get	4
	i64.const	-1
	i64.add 
	local.set	6
	block   	
	block   	
	local.get	3
	i32.const	8
	i32.add 
	local.tee	7
	i64.extend_i32_u
	local.get	1
	i64.extend_i32_u
	i64.sub 
	local.get	2
	i64.const	3
	i64.shl 
	local.tee	4
	i64.ge_u
	br_if   	0                               # 0: down to label79
# %bb.3:                                # %join.7.i.i.i.i.i.i.preheader
	local.get	2
	i64.const	3
	i64.and 
	local.set	4
	i64.const	0
	local.set	8
	block   	
	local.get	2
	i64.const	4
	i64.lt_u
	br_if   	0                               # 0: down to label80
# %bb.4:                                # %join.7.i.i.i.i.i.i.preheader.new
	local.get	2
	i64.const	4294967292
	i64.and 
	local.set	2
	i64.const	0
	local.set	8
	i32.const	0
	local.set	5
.LBB21_5:                               # %join.7.i.i.i.i.i.i
                                        # =>This Inner Loop Header: Depth=1
	loop    	                                # label81:
	local.get	3
	local.get	5
	i32.add 
	local.tee	9
	i32.const	8
	i32.add 
	local.get	1
	local.get	5
	i32.add 
	local.tee	10
	i64.load	0:p2align=0
	i64.store	0:p2align=0
	local.get	9
	i32.const	16
	i32.add 
	local.get	10
	i32.const	8
	i32.add 
	i64.load	0:p2align=0
	i64.store	0:p2align=0
	local.get	9
	i32.const	24
	i32.add 
	local.get	10
	i32.const	16
	i32.add 
	i64.load	0:p2align=0
	i64.store	0:p2align=0
	local.get	9
	i32.const	32
	i32.add 
	local.get	10
	i32.const	24
	i32.add 
	i64.load	0:p2align=0
	i64.store	0:p2align=0
	local.get	5
	i32.const	32
	i32.add 
	local.set	5
	local.get	2
	local.get	8
	i64.const	4
	i64.add 
	local.tee	8
	i64.ne  
	br_if   	0                               # 0: up to label81
# %bb.6:                                # %core__slice__edits__slice_T__copy_from_slice____76f67ba6cf9709da_.exit.loopexit.unr-lcssa
	end_loop
	local.get	4
	i64.eqz
	br_if   	2                               # 2: down to label78
.LBB21_7:                               # %join.7.i.i.i.i.i.i.epil.preheader
	end_block                               # label80:
	local.get	1
	local.get	8
	i32.wrap_i64
	i32.const	3
	i32.shl 
	local.tee	9
	i32.add 
	local.set	5
	local.get	9
	local.get	3
	i32.add 
	i32.const	8
	i32.add 
	local.set	9
.LBB21_8:                               # %join.7.i.i.i.i.i.i.epil
                                        # =>This Inner Loop Header: Depth=1
	loop    	                                # label82:
	local.get	9
	local.get	5
	i64.load	0:p2align=0
	i64.store	0:p2align=0
	local.get	9
	i32.const	8
	i32.add 
	local.set	9
	local.get	5
	i32.const	8
	i32.add 
	local.set	5
	local.get	4
	i64.const	-1
	i64.add 
	local.tee	4
	i64.const	0
	i64.ne  
	br_if   	0                               # 0: up to label82
	br      	2                               # 2: down to label78
.LBB21_9:                               # %apart.2.i.i.i.i.i.i
	end_loop
	end_block                               # label79:
	local.get	7
	local.get	1
	local.get	4
	i32.wrap_i64
	call	memmove
	drop
.LBB21_10:                              # %core__slice__edits__slice_T__copy_from_slice____76f67ba6cf9709da_.exit
	end_block                               # label78:
	local.get	0
	local.get	3
	local.get	7
	local.get	6
	call	key_wrap__steps__wrap_in_place____4f733d09d7f6c6b4_
	i32.const	0
	local.set	5
.LBB21_11:                              # %return.10
	end_block                               # label77:
	local.get	5
                                        # fallthrough-return
	end_function
                                        # -- End function
	.section	.text.key_wrap__steps__wrap_in_place____4f733d09d7f6c6b4_,"",@
	.type	key_wrap__steps__wrap_in_place____4f733d09d7f6c6b4_,@function # -- Begin function key_wrap__steps__wrap_in_place____4f733d09d7f6c6b4_
key_wrap__steps__wrap_in_place____4f733d09d7f6c6b4_: # @key_wrap__steps__wrap_in_place____4f733d09d7f6c6b4_
	.functype	key_wrap__steps__wrap_in_place____4f733d09d7f6c6b4_ (i32, i32, i32, i64) -> ()
	.local  	i64, i32, i64
# %bb.0:                                # %start
	block   	
	local.get	3
	i64.eqz
	br_if   	0                               # 0: down to label83
# %bb.1:                                # %join.5.i.preheader
	i64.const	0
	local.set	4
	local.get	2
	local.set	5
.LBB22_2:                               # %join.5.i
                                        # =>This Inner Loop Header: Depth=1
	loop    	                                # label84:
	local.get	0
	local.get	1
	local.get	5
	call	key_wrap__steps__encrypt_halves____4f733d09d7f6c6b4_
	local.get	1
	local.get	1
	i64.load	0:p2align=0
	local.get	4
	i64.const	1
	i64.add 
	local.tee	4
	i64.const	56
	i64.shl 
	local.get	4
	i64.const	65280
	i64.and 
	i64.const	40
	i64.shl 
	i64.or  
	local.get	4
	i64.const	16711680
	i64.and 
	i64.const	24
	i64.shl 
	local.get	4
	i64.const	4278190080
	i64.and 
	i64.const	8
	i64.shl 
	i64.or  
	i64.or  
	local.get	4
	i64.const	8
	i64.shr_u
	i64.const	4278190080
	i64.and 
	local.get	4
	i64.const	24
	i64.shr_u
	i64.const	16711680
	i64.and 
	i64.or  
	local.get	4
	i64.const	40
	i64.shr_u
	i64.const	65280
	i64.and 
	local.get	4
	i64.const	56
	i64.shr_u
	i64.or  
	i64.or  
	i64.or  
	i64.xor 
	i64.store	0:p2align=0
	local.get	5
	i32.const	8
	i32.add 
	local.set	5
	local.get	3
	local.get	4
	i64.ne  
	br_if   	0                               # 0: up to label84
# %bb.3:                                # %join.5.lr.ph.i.1
	end_loop
	i64.const	0
	local.set	6
	local.get	2
	local.set	5
.LBB22_4:                               # %join.5.i.1
                                        # =>This Inner Loop Header: Depth=1
	loop    	                                # label85:
	local.get	0
	local.get	1
	local.get	5
	call	key_wrap__steps__encrypt_halves____4f733d09d7f6c6b4_
	local.get	1
	local.get	1
	i64.load	0:p2align=0
	local.get	6
	i64.const	1
	i64.add 
	local.tee	6
	local.get	3
	i64.add 
	local.tee	4
	i64.const	56
	i64.shl 
	local.get	4
	i64.const	65280
	i64.and 
	i64.const	40
	i64.shl 
	i64.or  
	local.get	4
	i64.const	16711680
	i64.and 
	i64.const	24
	i64.shl 
	local.get	4
	i64.const	4278190080
	i64.and 
	i64.const	8
	i64.shl 
	i64.or  
	i64.or  
	local.get	4
	i64.const	8
	i64.shr_u
	i64.const	4278190080
	i64.and 
	local.get	4
	i64.const	24
	i64.shr_u
	i64.const	16711680
	i64.and 
	i64.or  
	local.get	4
	i64.const	40
	i64.shr_u
	i64.const	65280
	i64.and 
	local.get	4
	i64.const	56
	i64.shr_u
	i64.or  
	i64.or  
	i64.or  
	i64.xor 
	i64.store	0:p2align=0
	local.get	5
	i32.const	8
	i32.add 
	local.set	5
	local.get	3
	local.get	6
	i64.ne  
	br_if   	0                               # 0: up to label85
# %bb.5:                                # %join.5.lr.ph.i.2
	end_loop
	local.get	3
	i64.const	1
	i64.shl 
	i64.const	1
	i64.or  
	local.set	4
	local.get	2
	local.set	5
	local.get	3
	local.set	6
.LBB22_6:                               # %join.5.i.2
                                        # =>This Inner Loop Header: Depth=1
	loop    	                                # label86:
	local.get	0
	local.get	1
	local.get	5
	call	key_wrap__steps__encrypt_halves____4f733d09d7f6c6b4_
	local.get	1
	local.get	1
	i64.load	0:p2align=0
	local.get	4
	i64.const	56
	i64.shl 
	local.get	4
	i64.const	65280
	i64.and 
	i64.const	40
	i64.shl 
	i64.or  
	local.get	4
	i64.const	16711680
	i64.and 
	i64.const	24
	i64.shl 
	local.get	4
	i64.const	4278190080
	i64.and 
	i64.const	8
	i64.shl 
	i64.or  
	i64.or  
	local.get	4
	i64.const	8
	i64.shr_u
	i64.const	4278190080
	i64.and 
	local.get	4
	i64.const	24
	i64.shr_u
	i64.const	16711680
	i64.and 
	i64.or  
	local.get	4
	i64.const	40
	i64.shr_u
	i64.const	65280
	i64.and 
	local.get	4
	i64.const	56
	i64.shr_u
	i64.or  
	i64.or  
	i64.or  
	i64.xor 
	i64.store	0:p2align=0
	local.get	5
	i32.const	8
	i32.add 
	local.set	5
	local.get	4
	i64.const	1
	i64.add 
	local.set	4
	local.get	6
	i64.const	-1
	i64.add 
	local.tee	6
	i64.const	0
	i64.ne  
	br_if   	0                               # 0: up to label86
# %bb.7:                                # %join.5.lr.ph.i.3
	end_loop
	local.get	3
	i64.const	3
	i64.mul 
	i64.const	1
	i64.add 
	local.set	4
	local.get	2
	local.set	5
	local.get	3
	local.set	6
.LBB22_8:                               # %join.5.i.3
                                        # =>This Inner Loop Header: Depth=1
	loop    	                                # label87:
	local.get	0
	local.get	1
	local.get	5
	call	key_wrap__steps__encrypt_halves____4f733d09d7f6c6b4_
	local.get	1
	local.get	1
	i64.load	0:p2align=0
	local.get	4
	i64.const	56
	i64.shl 
	local.get	4
	i64.const	65280
	i64.and 
	i64.const	40
	i64.shl 
	i64.or  
	local.get	4
	i64.const	16711680
	i64.and 
	i64.const	24
	i64.shl 
	local.get	4
	i64.const	4278190080
	i64.and 
	i64.const	8
	i64.shl 
	i64.or  
	i64.or  
	local.get	4
	i64.const	8
	i64.shr_u
	i64.const	4278190080
	i64.and 
	local.get	4
	i64.const	24
	i64.shr_u
	i64.const	16711680
	i64.and 
	i64.or  
	local.get	4
	i64.const	40
	i64.shr_u
	i64.const	65280
	i64.and 
	local.get	4
	i64.const	56
	i64.shr_u
	i64.or  
	i64.or  
	i64.or  
	i64.xor 
	i64.store	0:p2align=0
	local.get	5
	i32.const	8
	i32.add 
	local.set	5
	local.get	4
	i64.const	1
	i64.add 
	local.set	4
	local.get	6
	i64.const	-1
	i64.add 
	local.tee	6
	i64.const	0
	i64.ne  
	br_if   	0                               # 0: up to label87
# %bb.9:                                # %join.5.lr.ph.i.4
	end_loop
	local.get	3
	i64.const	2
	i64.shl 
	i64.const	1
	i64.or  
	local.set	4
	local.get	2
	local.set	5
	local.get	3
	local.set	6
.LBB22_10:                              # %join.5.i.4
                                        # =>This Inner Loop Header: Depth=1
	loop    	                                # label88:
	local.get	0
	local.get	1
	local.get	5
	call	key_wrap__steps__encrypt_halves____4f733d09d7f6c6b4_
	local.get	1
	local.get	1
	i64.load	0:p2align=0
	local.get	4
	i64.const	56
	i64.shl 
	local.get	4
	i64.const	65280
	i64.and 
	i64.const	40
	i64.shl 
	i64.or  
	local.get	4
	i64.const	16711680
	i64.and 
	i64.const	24
	i64.shl 
	local.get	4
	i64.const	4278190080
	i64.and 
	i64.const	8
	i64.shl 
	i64.or  
	i64.or  
	local.get	4
	i64.const	8
	i64.shr_u
	i64.const	4278190080
	i64.and 
	local.get	4
	i64.const	24
	i64.shr_u
	i64.const	16711680
	i64.and 
	i64.or  
	local.get	4
	i64.const	40
	i64.shr_u
	i64.const	65280
	i64.and 
	local.get	4
	i64.const	56
	i64.shr_u
	i64.or  
	i64.or  
	i64.or  
	i64.xor 
	i64.store	0:p2align=0
	local.get	5
	i32.const	8
	i32.add 
	local.set	5
	local.get	4
	i64.const	1
	i64.add 
	local.set	4
	local.get	6
	i64.const	-1
	i64.add 
	local.tee	6
	i64.const	0
	i64.ne  
	br_if   	0                               # 0: up to label88
# %bb.11:                               # %join.5.lr.ph.i.5
	end_loop
	local.get	3
	i64.const	5
	i64.mul 
	i64.const	1
	i64.add 
	local.set	4
.LBB22_12:                              # %join.5.i.5
                                        # =>This Inner Loop Header: Depth=1
	loop    	                                # label89:
	local.get	0
	local.get	1
	local.get	2
	call	key_wrap__steps__encrypt_halves____4f733d09d7f6c6b4_
	local.get	1
	local.get	1
	i64.load	0:p2align=0
	local.get	4
	i64.const	56
	i64.shl 
	local.get	4
	i64.const	65280
	i64.and 
	i64.const	40
	i64.shl 
	i64.or  
	local.get	4
	i64.const	16711680
	i64.and 
	i64.const	24
	i64.shl 
	local.get	4
	i64.const	4278190080
	i64.and 
	i64.const	8
	i64.shl 
	i64.or  
	i64.or  
	local.get	4
	i64.const	8
	i64.shr_u
	i64.const	4278190080
	i64.and 
	local.get	4
	i64.const	24
	i64.shr_u
	i64.const	16711680
	i64.and 
	i64.or  
	local.get	4
	i64.const	40
	i64.shr_u
	i64.const	65280
	i64.and 
	local.get	4
	i64.const	56
	i64.shr_u
	i64.or  
	i64.or  
	i64.or  
	i64.xor 
	i64.store	0:p2align=0
	local.get	2
	i32.const	8
	i32.add 
	local.set	2
	local.get	4
	i64.const	1
	i64.add 
	local.set	4
	local.get	3
	i64.const	-1
	i64.add 
	local.tee	3
	i64.const	0
	i64.ne  
	br_if   	0                               # 0: up to label89
.LBB22_13:                              # %key_wrap__steps__wrap_turn____4f733d09d7f6c6b4_.exit.5
	end_loop
	end_block                               # label83:
                                        # fallthrough-return
	end_function
                                        # -- End function
	.section	.text.key_wrap__steps__encrypt_halves____4f733d09d7f6c6b4_,"",@
	.type	key_wrap__steps__encrypt_halves____4f733d09d7f6c6b4_,@function # -- Begin function key_wrap__steps__encrypt_halves____4f733d09d7f6c6b4_
key_wrap__steps__encrypt_halves____4f733d09d7f6c6b4_: # @key_wrap__steps__encrypt_halves____4f733d09d7f6c6b4_
	.functype	key_wrap__steps__encrypt_halves____4f733d09d7f6c6b4_ (i32, i32, i32) -> ()
	.local  	i32
# %bb.0:                                # %start
	global.get	__stack_pointer
	i32.const	16
	i32.sub 
	local.tee	3
	global.set	__stack_pointer
	local.get	3
	local.get	2
	i64.load	0:p2align=0
	i64.store	8
	local.get	3
	local.get	1
	i64.load	0:p2align=0
	i64.store	0
	local.get	0
	i32.load	0:p2align=0
	local.get	0
	i64.load	8:p2align=0
	local.get	3
	i64.const	1
	call	aes_narrow__blocks__process_all_batches____1a21aa7f601e7603_
	call	aes_cipher__zeroize__stack__wipe_stack____1024_
	local.get	1
	local.get	3
	i64.load	0
	i64.store	0:p2align=0
	local.get	2
	local.get	3
	i64.load	8
	i64.store	0:p2align=0
	local.get	3
	i32.const	16
	i32.add 
	global.set	__stack_pointer
                                        # fallthrough-return
	end_function
                                        # -- End function
	.section	.text.aes_cipher__zeroize__stack__wipe_stack____512_,"",@
	.type	aes_cipher__zeroize__stack__wipe_stack____512_,@function # -- Begin function aes_cipher__zeroize__stack__wipe_stack____512_
aes_cipher__zeroize__stack__wipe_stack____512_: # @aes_cipher__zeroize__stack__wipe_stack____512_
	.functype	aes_cipher__zeroize__stack__wipe_stack____512_ () -> ()
	.local  	i32, i64
# %bb.0:                                # %start
	global.get	__stack_pointer
	i32.const	528
	i32.sub 
	local.tee	0
	global.set	__stack_pointer
	local.get	0
	i32.const	16
	i32.add 
	i32.const	0
	i32.const	512
	call	memset
	drop
	local.get	0
	i64.const	0
	i64.store	8
	#APP
	#NO_APP
	local.get	0
	i64.load	8
	local.set	1
	#APP
	#NO_APP
	block   	
	local.get	1
	i64.const	512
	i64.ge_u
	br_if   	0                               # 0: down to label90
# %bb.1:                                # %then.1
	local.get	0
	i32.const	16
	i32.add 
	local.get	1
	i32.wrap_i64
	i32.add 
	i64.load8_u	0
	local.set	1
	#APP
	#NO_APP
	local.get	0
	i64.load	8
	drop
	local.get	0
	local.get	1
	i64.store	8
	#APP
	#NO_APP
.LBB24_2:                               # %common.ret
	end_block                               # label90:
	local.get	0
	i32.const	528
	i32.add 
	global.set	__stack_pointer
                                        # fallthrough-return
	end_function
                                        # -- End function
	.section	.text.key_wrap__padded__wrap_padded____4f733d09d7f6c6b4_,"",@
	.type	key_wrap__padded__wrap_padded____4f733d09d7f6c6b4_,@function # -- Begin function key_wrap__padded__wrap_padded____4f733d09d7f6c6b4_
key_wrap__padded__wrap_padded____4f733d09d7f6c6b4_: # @key_wrap__padded__wrap_padded____4f733d09d7f6c6b4_
	.functype	key_wrap__padded__wrap_padded____4f733d09d7f6c6b4_ (i32, i32, i64, i32, i64) -> (i32)
	.local  	i32, i32, i64, i32, i64, i64, i64, i64, i32
# %bb.0:                                # %start
	global.get	__stack_pointer
	i32.const	16
	i32.sub 
	local.tee	5
	global.set	__stack_pointer
	i32.const	1
	local.set	6
	block   	
	local.get	2
	i64.eqz
	br_if   	0                               # 0: down to label91
# %bb.1:                                # %start
	local.get	4
	local.get	2
	i64.const	7
	i64.add 
	i64.const	3
	i64.shr_u
	i64.const	1
	i64.add 
	i64.ne  
	br_if   	0                               # 0: down to label91
# %bb.2:                                # %arm.5
	local.get	3
	local.get	2
	i64.const	56
	i64.shl 
	local.get	2
	i64.const	65280
	i64.and 
	i64.const	40
	i64.shl 
	i64.or  
	local.get	2
	i64.const	-6460033620986822656
	i64.or  
	local.tee	7
	i64.const	16711680
	i64.and 
	i64.const	24
	i64.shl 
	local.get	7
	i64.const	4278190080
	i64.and 
	i64.const	8
	i64.shl 
	i64.or  
	i64.or  
	local.get	7
	i64.const	8
	i64.shr_u
	i64.const	4278190080
	i64.and 
	local.get	7
	i64.const	24
	i64.shr_u
	i64.const	16711680
	i64.and 
	i64.or  
	local.get	7
	i64.const	40
	i64.shr_u
	i64.const	65280
	i64.and 
	local.get	7
	i64.const	56
	i64.shr_u
	i64.or  
	i64.or  
	i64.or  
	i64.store	0:p2align=0
	local.get	3
	i32.const	8
	i32.add 
	local.set	8
	block   	
	block   	
	local.get	4
	i64.const	-1
	i64.add 
	local.tee	9
	i64.eqz
	br_if   	0                               # 0: down to label93
# %bb.3:                                # %join.5.i.preheader
	i64.const	0
	local.set	10
	block   	
	block   	
	local.get	4
	i64.const	2
	i64.eq  
	br_if   	0                               # 0: down to label95
# %bb.4:                                # %join.5.i.preheader.new
	local.get	9
	i64.const	1
	i64.and 
	local.set	11
	local.get	3
	i32.const	16
	i32.add 
	local.set	6
	local.get	9
	i64.const	-2
	i64.and 
	local.set	12
	local.get	2
	local.set	7
	local.get	1
	local.set	13
	i64.const	0
	local.set	10
.LBB25_5:                               # %join.5.i
                                        # =>This Inner Loop Header: Depth=1
	loop    	                                # label96:
	local.get	5
	i64.const	0
	i64.store	8
	local.get	5
	i32.const	8
	i32.add 
	local.get	13
	local.get	7
	i64.const	8
	local.get	7
	i64.const	8
	i64.lt_u
	i64.select
	i32.wrap_i64
	call	memcpy
	drop
	local.get	6
	i32.const	-8
	i32.add 
	local.get	5
	i64.load	8
	i64.store	0:p2align=0
	local.get	5
	i64.const	0
	i64.store	8
	local.get	5
	i32.const	8
	i32.add 
	local.get	13
	i32.const	8
	i32.add 
	local.get	7
	i64.const	-8
	i64.add 
	local.tee	4
	i64.const	8
	local.get	4
	i64.const	8
	i64.lt_u
	i64.select
	i32.wrap_i64
	call	memcpy
	drop
	local.get	6
	local.get	5
	i64.load	8
	i64.store	0:p2align=0
	local.get	7
	i64.const	-16
	i64.add 
	local.set	7
	local.get	13
	i32.const	16
	i32.add 
	local.set	13
	local.get	6
	i32.const	16
	i32.add 
	local.set	6
	local.get	12
	local.get	10
	i64.const	2
	i64.add 
	local.tee	10
	i64.ne  
	br_if   	0                               # 0: up to label96
# %bb.6:                                # %key_wrap__padded__fill.exit.unr-lcssa
	end_loop
	local.get	11
	i64.eqz
	br_if   	1                               # 1: down to label94
.LBB25_7:                               # %join.5.i.epil.preheader
	end_block                               # label95:
	local.get	5
	i64.const	0
	i64.store	8
	local.get	5
	i32.const	8
	i32.add 
	local.get	1
	local.get	10
	i64.const	3
	i64.shl 
	local.tee	7
	i32.wrap_i64
	local.tee	6
	i32.add 
	local.get	2
	local.get	7
	i64.sub 
	local.tee	7
	i64.const	8
	local.get	7
	i64.const	8
	i64.lt_u
	i64.select
	i32.wrap_i64
	call	memcpy
	drop
	local.get	8
	local.get	6
	i32.add 
	local.get	5
	i64.load	8
	i64.store	0:p2align=0
.LBB25_8:                               # %key_wrap__padded__fill.exit
	end_block                               # label94:
	local.get	9
	i64.const	1
	i64.ne  
	br_if   	0                               # 0: down to label93
# %bb.9:                                # %then.1.i
	local.get	0
	local.get	3
	local.get	8
	call	key_wrap__steps__encrypt_halves____4f733d09d7f6c6b4_
	br      	1                               # 1: down to label92
.LBB25_10:                              # %else.2.i
	end_block                               # label93:
	local.get	0
	local.get	3
	local.get	8
	local.get	9
	call	key_wrap__steps__wrap_in_place____4f733d09d7f6c6b4_
.LBB25_11:                              # %return.4
	end_block                               # label92:
	i32.const	0
	local.set	6
.LBB25_12:                              # %return.4
	end_block                               # label91:
	local.get	5
	i32.const	16
	i32.add 
	global.set	__stack_pointer
	local.get	6
                                        # fallthrough-return
	end_function
                                        # -- End function
	.section	.text.aes_narrow__borrowed_words__call_to_decrypt____a8a74a144d92a363_,"",@
	.type	aes_narrow__borrowed_words__call_to_decrypt____a8a74a144d92a363_,@function # -- Begin function aes_narrow__borrowed_words__call_to_decrypt____a8a74a144d92a363_
aes_narrow__borrowed_words__call_to_decrypt____a8a74a144d92a363_: # @aes_narrow__borrowed_words__call_to_decrypt____a8a74a144d92a363_
	.functype	aes_narrow__borrowed_words__call_to_decrypt____a8a74a144d92a363_ (i32, i64, i32) -> ()
	.local  	i32, i64, i32, i64, i64, i32, i32, i32, i64, i64, i64, i32, i32, i32, i32, i32, i32, i32, i32, i32, i32, i32, i32, i32, i32, i32, i32, i32
# %bb.0:                                # %start
	global.get	__stack_pointer
	i32.const	1024
	i32.sub 
	local.tee	3
	global.set	__stack_pointer
	block   	
	local.get	2
	i32.const	24
	i32.add 
	i64.load	0
	local.tee	4
	i64.eqz
	br_if   	0                               # 0: down to label97
# %bb.1:                                # %join.5.lr.ph.i.i
	local.get	2
	i32.const	16
	i32.add 
	i32.load	0
	local.set	5
	i64.const	0
	local.set	6
	local.get	3
	i64.extend_i32_u
	local.set	7
.LBB26_2:                               # %join.5.i.i
                                        # =>This Loop Header: Depth=1
                                        #     Child Loop BB26_7 Depth 2
                                        #     Child Loop BB26_11 Depth 2
                                        #     Child Loop BB26_13 Depth 2
	loop    	                                # label98:
	local.get	3
	i32.const	0
	i32.const	1024
	call	memset
	local.set	8
	block   	
	block   	
	local.get	7
	local.get	5
	local.get	6
	i32.wrap_i64
	i32.const	4
	i32.shl 
	local.tee	9
	i32.add 
	local.tee	10
	i64.extend_i32_u
	i64.sub 
	local.get	4
	local.get	6
	i64.sub 
	local.tee	11
	i64.const	64
	local.get	11
	i64.const	64
	i64.lt_u
	i64.select
	local.tee	12
	i64.const	4
	i64.shl 
	local.tee	13
	i64.ge_u
	br_if   	0                               # 0: down to label100
# %bb.3:                                # %join.7.i.i.i.i.i.i.i.preheader.i.i
                                        #   in Loop: Header=BB26_2 Depth=1
	local.get	8
	local.get	10
	local.get	12
	i32.wrap_i64
	i32.const	4
	i32.shl 
	call	memcpy
	drop
	br      	1                               # 1: down to label99
.LBB26_4:                               # %apart.2.i.i.i.i.i.i.i.i.i
                                        #   in Loop: Header=BB26_2 Depth=1
	end_block                               # label100:
	local.get	8
	local.get	10
	local.get	13
	i32.wrap_i64
	call	memcpy
	drop
.LBB26_5:                               # %core__slice__edits__slice_T__copy_from_slice____8d9c6ea053e2f245_.exit.i.i.i
                                        #   in Loop: Header=BB26_2 Depth=1
	end_block                               # label99:
	i64.const	0
	local.set	13
	block   	
	local.get	11
	i64.const	2
	i64.lt_u
	br_if   	0                               # 0: down to label101
# %bb.6:                                # %join.5.i.i.i.i.preheader
                                        #   in Loop: Header=BB26_2 Depth=1
	i64.const	0
	local.set	11
	local.get	10
	local.set	14
.LBB26_7:                               # %join.5.i.i.i.i
                                        #   Parent Loop BB26_2 Depth=1
                                        # =>  This Inner Loop Header: Depth=2
	loop    	                                # label102:
	local.get	0
	local.get	1
	local.get	14
	i64.const	2
	call	aes_soft__soft__blocks__filled_up__process_filled_up____a3dcb71d05bd149b_
	local.get	14
	i32.const	32
	i32.add 
	local.set	14
	local.get	12
	local.get	11
	i64.const	-2
	i64.add 
	local.tee	11
	i64.add 
	i64.const	1
	i64.gt_u
	br_if   	0                               # 0: up to label102
# %bb.8:                                # %loop.7.preheader.i.i.i.i.loopexit
                                        #   in Loop: Header=BB26_2 Depth=1
	end_loop
	i64.const	0
	local.get	11
	i64.sub 
	local.set	13
.LBB26_9:                               # %loop.7.preheader.i.i.i.i
                                        #   in Loop: Header=BB26_2 Depth=1
	end_block                               # label101:
	block   	
	local.get	12
	local.get	13
	i64.le_u
	br_if   	0                               # 0: down to label103
# %bb.10:                               # %join.10.i.i.i.i.preheader
                                        #   in Loop: Header=BB26_2 Depth=1
	local.get	12
	local.get	13
	i64.sub 
	local.set	11
	local.get	5
	local.get	9
	local.get	13
	i32.wrap_i64
	i32.const	4
	i32.shl 
	i32.add 
	i32.add 
	local.set	14
.LBB26_11:                              # %join.10.i.i.i.i
                                        #   Parent Loop BB26_2 Depth=1
                                        # =>  This Inner Loop Header: Depth=2
	loop    	                                # label104:
	local.get	0
	local.get	1
	local.get	14
	i64.const	1
	call	aes_soft__soft__blocks__filled_up__process_filled_up____a3dcb71d05bd149b_
	local.get	14
	i32.const	16
	i32.add 
	local.set	14
	local.get	11
	i64.const	-1
	i64.add 
	local.tee	11
	i64.const	0
	i64.ne  
	br_if   	0                               # 0: up to label104
.LBB26_12:                              # %join.7.lr.ph.i.i.i
                                        #   in Loop: Header=BB26_2 Depth=1
	end_loop
	end_block                               # label103:
	local.get	12
	local.get	6
	i64.add 
	local.set	6
	local.get	2
	i32.load8_u	15
	local.set	15
	local.get	2
	i32.load8_u	14
	local.set	16
	local.get	2
	i32.load8_u	13
	local.set	17
	local.get	2
	i32.load8_u	12
	local.set	18
	local.get	2
	i32.load8_u	11
	local.set	19
	local.get	2
	i32.load8_u	10
	local.set	20
	local.get	2
	i32.load8_u	9
	local.set	21
	local.get	2
	i32.load8_u	8
	local.set	22
	local.get	2
	i32.load8_u	7
	local.set	23
	local.get	2
	i32.load8_u	6
	local.set	24
	local.get	2
	i32.load8_u	5
	local.set	25
	local.get	2
	i32.load8_u	4
	local.set	26
	local.get	2
	i32.load8_u	3
	local.set	27
	local.get	2
	i32.load8_u	2
	local.set	28
	local.get	2
	i32.load8_u	1
	local.set	29
	local.get	2
	i32.load8_u	0
	local.set	30
	i32.const	0
	local.set	9
.LBB26_13:                              # %join.7.i.i.i
                                        #   Parent Loop BB26_2 Depth=1
                                        # =>  This Inner Loop Header: Depth=2
	loop    	                                # label105:
	local.get	10
	local.get	9
	i32.add 
	local.tee	14
	local.get	14
	i32.load8_u	0
	local.get	30
	i32.xor 
	i32.store8	0
	local.get	14
	i32.const	15
	i32.add 
	local.tee	30
	local.get	30
	i32.load8_u	0
	local.get	15
	i32.xor 
	i32.store8	0
	local.get	14
	i32.const	14
	i32.add 
	local.tee	15
	local.get	15
	i32.load8_u	0
	local.get	16
	i32.xor 
	i32.store8	0
	local.get	14
	i32.const	13
	i32.add 
	local.tee	15
	local.get	15
	i32.load8_u	0
	local.get	17
	i32.xor 
	i32.store8	0
	local.get	14
	i32.const	12
	i32.add 
	local.tee	15
	local.get	15
	i32.load8_u	0
	local.get	18
	i32.xor 
	i32.store8	0
	local.get	14
	i32.const	11
	i32.add 
	local.tee	15
	local.get	15
	i32.load8_u	0
	local.get	19
	i32.xor 
	i32.store8	0
	local.get	14
	i32.const	10
	i32.add 
	local.tee	15
	local.get	15
	i32.load8_u	0
	local.get	20
	i32.xor 
	i32.store8	0
	local.get	14
	i32.const	9
	i32.add 
	local.tee	15
	local.get	15
	i32.load8_u	0
	local.get	21
	i32.xor 
	i32.store8	0
	local.get	14
	i32.const	8
	i32.add 
	local.tee	15
	local.get	15
	i32.load8_u	0
	local.get	22
	i32.xor 
	i32.store8	0
	local.get	14
	i32.const	7
	i32.add 
	local.tee	15
	local.get	15
	i32.load8_u	0
	local.get	23
	i32.xor 
	i32.store8	0
	local.get	14
	i32.const	6
	i32.add 
	local.tee	15
	local.get	15
	i32.load8_u	0
	local.get	24
	i32.xor 
	i32.store8	0
	local.get	14
	i32.const	5
	i32.add 
	local.tee	15
	local.get	15
	i32.load8_u	0
	local.get	25
	i32.xor 
	i32.store8	0
	local.get	14
	i32.const	4
	i32.add 
	local.tee	15
	local.get	15
	i32.load8_u	0
	local.get	26
	i32.xor 
	i32.store8	0
	local.get	14
	i32.const	3
	i32.add 
	local.tee	15
	local.get	15
	i32.load8_u	0
	local.get	27
	i32.xor 
	i32.store8	0
	local.get	14
	i32.const	2
	i32.add 
	local.tee	15
	local.get	15
	i32.load8_u	0
	local.get	28
	i32.xor 
	i32.store8	0
	local.get	14
	i32.const	1
	i32.add 
	local.tee	14
	local.get	14
	i32.load8_u	0
	local.get	29
	i32.xor 
	i32.store8	0
	local.get	2
	local.get	8
	local.get	9
	i32.add 
	local.tee	14
	i32.const	15
	i32.add 
	i32.load8_u	0
	local.tee	15
	i32.store8	15
	local.get	2
	local.get	14
	i32.const	14
	i32.add 
	i32.load8_u	0
	local.tee	16
	i32.store8	14
	local.get	2
	local.get	14
	i32.const	13
	i32.add 
	i32.load8_u	0
	local.tee	17
	i32.store8	13
	local.get	2
	local.get	14
	i32.const	12
	i32.add 
	i32.load8_u	0
	local.tee	18
	i32.store8	12
	local.get	2
	local.get	14
	i32.const	11
	i32.add 
	i32.load8_u	0
	local.tee	19
	i32.store8	11
	local.get	2
	local.get	14
	i32.const	10
	i32.add 
	i32.load8_u	0
	local.tee	20
	i32.store8	10
	local.get	2
	local.get	14
	i32.const	9
	i32.add 
	i32.load8_u	0
	local.tee	21
	i32.store8	9
	local.get	2
	local.get	14
	i32.const	8
	i32.add 
	i32.load8_u	0
	local.tee	22
	i32.store8	8
	local.get	2
	local.get	14
	i32.const	7
	i32.add 
	i32.load8_u	0
	local.tee	23
	i32.store8	7
	local.get	2
	local.get	14
	i32.const	6
	i32.add 
	i32.load8_u	0
	local.tee	24
	i32.store8	6
	local.get	2
	local.get	14
	i32.const	5
	i32.add 
	i32.load8_u	0
	local.tee	25
	i32.store8	5
	local.get	2
	local.get	14
	i32.const	4
	i32.add 
	i32.load8_u	0
	local.tee	26
	i32.store8	4
	local.get	2
	local.get	14
	i32.const	3
	i32.add 
	i32.load8_u	0
	local.tee	27
	i32.store8	3
	local.get	2
	local.get	14
	i32.const	2
	i32.add 
	i32.load8_u	0
	local.tee	28
	i32.store8	2
	local.get	2
	local.get	14
	i32.const	1
	i32.add 
	i32.load8_u	0
	local.tee	29
	i32.store8	1
	local.get	2
	local.get	14
	i32.load8_u	0
	local.tee	30
	i32.store8	0
	local.get	9
	i32.const	16
	i32.add 
	local.set	9
	local.get	12
	i64.const	-1
	i64.add 
	local.tee	12
	i64.const	0
	i64.ne  
	br_if   	0                               # 0: up to label105
# %bb.14:                               # %cbc__decryption__unchain_part____c3f6a2486d05430b_.exit.loopexit.i.i
                                        #   in Loop: Header=BB26_2 Depth=1
	end_loop
	local.get	6
	local.get	4
	i64.lt_u
	br_if   	0                               # 0: up to label98
.LBB26_15:                              # %cbc__decryption__ChainBlockCipherDecClosure__call____c3f6a2486d05430b_.exit
	end_loop
	end_block                               # label97:
	local.get	3
	i32.const	1024
	i32.add 
	global.set	__stack_pointer
                                        # fallthrough-return
	end_function
                                        # -- End function
	.section	.text.aes_soft__soft__blocks__filled_up__process_filled_up____a3dcb71d05bd149b_,"",@
	.type	aes_soft__soft__blocks__filled_up__process_filled_up____a3dcb71d05bd149b_,@function # -- Begin function aes_soft__soft__blocks__filled_up__process_filled_up____a3dcb71d05bd149b_
aes_soft__soft__blocks__filled_up__process_filled_up____a3dcb71d05bd149b_: # @aes_soft__soft__blocks__filled_up__process_filled_up____a3dcb71d05bd149b_
	.functype	aes_soft__soft__blocks__filled_up__process_filled_up____a3dcb71d05bd149b_ (i32, i64, i32, i64) -> ()
	.local  	i32, i64, i64, i32
# %bb.0:                                # %start
	global.get	__stack_pointer
	i32.const	128
	i32.sub 
	local.tee	4
	global.set	__stack_pointer
	local.get	4
	i64.const	0
	i64.store	88
	local.get	4
	i64.const	0
	i64.store	80
	local.get	4
	i64.const	0
	i64.store	72
	local.get	4
	i64.const	0
	i64.store	64
	local.get	4
	i64.const	0
	i64.store	32
	local.get	4
	i64.const	0
	i64.store	40
	local.get	4
	i64.const	0
	i64.store	48
	local.get	4
	i64.const	0
	i64.store	56
	local.get	4
	i64.const	0
	i64.store	0
	local.get	4
	i64.const	0
	i64.store	8
	local.get	4
	i64.const	0
	i64.store	16
	local.get	4
	i64.const	0
	i64.store	24
	local.get	4
	local.get	2
	i64.load	0:p2align=0
	local.tee	5
	i64.store	96
	local.get	4
	local.get	2
	i64.load	8:p2align=0
	local.tee	6
	i64.store	104
	local.get	4
	local.get	6
	i64.store	120
	local.get	4
	local.get	5
	i64.store	112
	local.get	1
	i64.const	3
	i64.shr_u
	i64.const	-1
	i64.add 
	local.set	1
	block   	
	block   	
	local.get	3
	i64.const	0
	i64.eq  
	br_if   	0                               # 0: down to label107
# %bb.1:                                # %join.8.i
	local.get	4
	local.get	2
	i64.load	8:p2align=0
	i64.store	104
	local.get	4
	local.get	2
	i64.load	0:p2align=0
	i64.store	96
	local.get	3
	i64.const	1
	i64.eq  
	br_if   	0                               # 0: down to label107
# %bb.2:                                # %join.8.i.1
	local.get	4
	local.get	4
	i64.load	96
	i64.store	32
	local.get	4
	local.get	4
	i64.load	104
	i64.store	40
	local.get	4
	local.get	2
	i64.load	24:p2align=0
	local.tee	5
	i64.store	120
	local.get	4
	local.get	2
	i64.load	16:p2align=0
	local.tee	6
	i64.store	112
	local.get	4
	local.get	6
	i64.store	48
	local.get	4
	local.get	5
	i64.store	56
	br      	1                               # 1: down to label106
.LBB27_3:                               # %then.6.i
	end_block                               # label107:
	local.get	4
	local.get	4
	i64.load	120
	i64.store	56
	local.get	4
	local.get	4
	i64.load	112
	i64.store	48
	local.get	4
	local.get	4
	i64.load	104
	i64.store	40
	local.get	4
	local.get	4
	i64.load	96
	i64.store	32
.LBB27_4:                               # %aes_soft__soft__blocks__filled_up__filled_up____7d3b633001169d8c_.exit
	end_block                               # label106:
	local.get	4
	local.get	0
	local.get	1
	local.get	4
	i32.const	32
	i32.add 
	call	aes_soft__soft__ciphers__planes__process_outlined____4da0d9798c91611c_
	local.get	4
	local.get	4
	i64.load	24
	i64.store	88
	local.get	4
	local.get	4
	i64.load	16
	i64.store	80
	local.get	4
	local.get	4
	i64.load	8
	i64.store	72
	local.get	4
	local.get	4
	i64.load	0
	i64.store	64
	block   	
	local.get	3
	i64.eqz
	br_if   	0                               # 0: down to label108
# %bb.5:                                # %join.8.i22.preheader
	i64.const	0
	local.set	1
	block   	
	local.get	3
	i64.const	1
	i64.eq  
	local.tee	0
	br_if   	0                               # 0: down to label109
# %bb.6:                                # %join.8.i22.preheader.new
	i64.const	1
	i64.const	2
	local.get	0
	i64.select
	local.tee	1
	i64.const	1
	i64.and 
	local.set	5
	local.get	1
	i64.const	2
	i64.and 
	local.set	3
	i64.const	0
	local.set	1
	local.get	4
	i32.const	64
	i32.add 
	local.set	0
	local.get	2
	local.set	7
.LBB27_7:                               # %join.8.i22
                                        # =>This Inner Loop Header: Depth=1
	loop    	                                # label110:
	local.get	7
	local.get	0
	i64.load	8:p2align=0
	i64.store	8:p2align=0
	local.get	7
	local.get	0
	i64.load	0:p2align=0
	i64.store	0:p2align=0
	local.get	7
	i32.const	16
	i32.add 
	local.get	0
	i32.const	16
	i32.add 
	i64.load	0:p2align=0
	i64.store	0:p2align=0
	local.get	7
	i32.const	24
	i32.add 
	local.get	0
	i32.const	24
	i32.add 
	i64.load	0:p2align=0
	i64.store	0:p2align=0
	local.get	7
	i32.const	32
	i32.add 
	local.set	7
	local.get	0
	i32.const	32
	i32.add 
	local.set	0
	local.get	3
	local.get	1
	i64.const	2
	i64.add 
	local.tee	1
	i64.ne  
	br_if   	0                               # 0: up to label110
# %bb.8:                                # %aes_soft__soft__blocks__filled_up__copy_first____7d3b633001169d8c_.exit.loopexit.unr-lcssa
	end_loop
	local.get	5
	i64.eqz
	br_if   	1                               # 1: down to label108
.LBB27_9:                               # %join.8.i22.epil.preheader
	end_block                               # label109:
	local.get	2
	local.get	1
	i32.wrap_i64
	i32.const	4
	i32.shl 
	local.tee	0
	i32.add 
	local.tee	7
	local.get	4
	i32.const	64
	i32.add 
	local.get	0
	i32.add 
	local.tee	0
	i64.load	8:p2align=0
	i64.store	8:p2align=0
	local.get	7
	local.get	0
	i64.load	0:p2align=0
	i64.store	0:p2align=0
.LBB27_10:                              # %aes_soft__soft__blocks__filled_up__copy_first____7d3b633001169d8c_.exit
	end_block                               # label108:
	local.get	4
	i32.const	128
	i32.add 
	global.set	__stack_pointer
                                        # fallthrough-return
	end_function
                                        # -- End function
	.section	.text.aes_soft__soft__ciphers__planes__process_outlined____4da0d9798c91611c_,"",@
	.type	aes_soft__soft__ciphers__planes__process_outlined____4da0d9798c91611c_,@function # -- Begin function aes_soft__soft__ciphers__planes__process_outlined____4da0d9798c91611c_
aes_soft__soft__ciphers__planes__process_outlined____4da0d9798c91611c_: # @aes_soft__soft__ciphers__planes__process_outlined____4da0d9798c91611c_
	.functype	aes_soft__soft__ciphers__planes__process_outlined____4da0d9798c91611c_ (i32, i32, i64, i32) -> ()
	.local  	i32, i32, i32, i32, i32, i32, i32, i32, i32, i32, i32, i32, i32, i32, i32, i32, i32, i32, i32, i32, i32, i32, i32, i32, i32, i32, i32, i32, i32, i32, i64, i64, i64, i32, i32, i32, i32, i32, i32, i32, i32, i32, i32
# %bb.0:                                # %start
	global.get	__stack_pointer
	i32.const	96
	i32.sub 
	local.tee	4
	global.set	__stack_pointer
	local.get	3
	i32.load	28:p2align=0
	local.tee	5
	local.get	3
	i32.load	12:p2align=0
	local.tee	6
	i32.const	1
	i32.shr_u
	i32.xor 
	i32.const	1431655765
	i32.and 
	local.tee	7
	i32.const	1
	i32.shl 
	local.get	6
	i32.xor 
	local.tee	6
	local.get	3
	i32.load	24:p2align=0
	local.tee	8
	local.get	3
	i32.load	8:p2align=0
	local.tee	9
	i32.const	1
	i32.shr_u
	i32.xor 
	i32.const	1431655765
	i32.and 
	local.tee	10
	i32.const	1
	i32.shl 
	local.get	9
	i32.xor 
	local.tee	9
	i32.const	2
	i32.shr_u
	i32.xor 
	i32.const	858993459
	i32.and 
	local.tee	11
	local.get	6
	i32.xor 
	local.tee	6
	local.get	3
	i32.load	20:p2align=0
	local.tee	12
	local.get	3
	i32.load	4:p2align=0
	local.tee	13
	i32.const	1
	i32.shr_u
	i32.xor 
	i32.const	1431655765
	i32.and 
	local.tee	14
	i32.const	1
	i32.shl 
	local.get	13
	i32.xor 
	local.tee	13
	local.get	3
	i32.load	16:p2align=0
	local.tee	15
	local.get	3
	i32.load	0:p2align=0
	local.tee	3
	i32.const	1
	i32.shr_u
	i32.xor 
	i32.const	1431655765
	i32.and 
	local.tee	16
	i32.const	1
	i32.shl 
	local.get	3
	i32.xor 
	local.tee	17
	i32.const	2
	i32.shr_u
	i32.xor 
	i32.const	858993459
	i32.and 
	local.tee	18
	local.get	13
	i32.xor 
	local.tee	13
	i32.const	4
	i32.shr_u
	i32.xor 
	i32.const	252645135
	i32.and 
	local.tee	19
	i32.const	4
	i32.shl 
	local.get	1
	local.get	2
	i32.wrap_i64
	i32.const	5
	i32.shl 
	i32.add 
	local.tee	3
	i32.load	8
	i32.xor 
	local.get	13
	i32.xor 
	local.tee	20
	local.get	7
	local.get	5
	i32.xor 
	local.tee	5
	local.get	10
	local.get	8
	i32.xor 
	local.tee	7
	i32.const	2
	i32.shr_u
	i32.xor 
	i32.const	858993459
	i32.and 
	local.tee	8
	i32.const	2
	i32.shl 
	local.get	7
	i32.xor 
	local.tee	21
	local.get	14
	local.get	12
	i32.xor 
	local.tee	7
	local.get	16
	local.get	15
	i32.xor 
	local.tee	10
	i32.const	2
	i32.shr_u
	i32.xor 
	i32.const	858993459
	i32.and 
	local.tee	13
	i32.const	2
	i32.shl 
	local.get	10
	i32.xor 
	local.tee	10
	i32.const	4
	i32.shr_u
	i32.xor 
	i32.const	252645135
	i32.and 
	local.tee	22
	i32.const	4
	i32.shl 
	local.get	3
	i32.load	4
	i32.xor 
	local.get	10
	i32.xor 
	local.tee	12
	i32.xor 
	local.tee	15
	local.get	8
	local.get	5
	i32.xor 
	local.tee	5
	local.get	3
	i32.load	28
	i32.xor 
	local.get	5
	local.get	13
	local.get	7
	i32.xor 
	local.tee	10
	i32.const	4
	i32.shr_u
	i32.xor 
	i32.const	252645135
	i32.and 
	local.tee	23
	i32.xor 
	local.tee	13
	local.get	11
	i32.const	2
	i32.shl 
	local.get	9
	i32.xor 
	local.tee	5
	local.get	3
	i32.load	16
	i32.xor 
	local.get	5
	local.get	18
	i32.const	2
	i32.shl 
	local.get	17
	i32.xor 
	local.tee	11
	i32.const	4
	i32.shr_u
	i32.xor 
	i32.const	252645135
	i32.and 
	local.tee	17
	i32.xor 
	local.tee	5
	i32.xor 
	local.tee	14
	local.get	6
	local.get	3
	i32.load	24
	i32.xor 
	local.get	19
	i32.xor 
	local.tee	7
	i32.xor 
	local.tee	16
	local.get	14
	i32.and 
	i32.xor 
	local.get	13
	local.get	7
	i32.xor 
	local.tee	8
	local.get	23
	i32.const	4
	i32.shl 
	local.get	3
	i32.load	12
	i32.xor 
	local.get	10
	i32.xor 
	local.tee	9
	local.get	17
	i32.const	4
	i32.shl 
	local.get	3
	i32.load	0
	i32.xor 
	local.get	11
	i32.xor 
	local.tee	17
	i32.xor 
	local.tee	18
	i32.xor 
	local.tee	6
	i32.xor 
	local.get	8
	local.get	12
	local.get	17
	i32.xor 
	local.tee	19
	i32.xor 
	local.tee	24
	local.get	7
	local.get	5
	i32.xor 
	local.tee	10
	local.get	21
	local.get	3
	i32.load	20
	i32.xor 
	local.get	22
	i32.xor 
	local.tee	11
	local.get	20
	i32.xor 
	local.tee	25
	i32.xor 
	local.tee	26
	i32.and 
	local.tee	27
	i32.xor 
	local.get	6
	local.get	5
	local.get	9
	i32.xor 
	local.tee	5
	local.get	15
	i32.xor 
	local.tee	20
	i32.xor 
	local.get	5
	i32.and 
	local.tee	28
	local.get	16
	local.get	9
	i32.xor 
	local.tee	29
	local.get	20
	i32.and 
	i32.xor 
	local.tee	30
	i32.xor 
	local.tee	21
	local.get	11
	local.get	9
	i32.xor 
	local.get	7
	local.get	12
	i32.xor 
	local.tee	12
	i32.xor 
	local.tee	22
	local.get	5
	local.get	19
	i32.xor 
	local.tee	23
	i32.or  
	local.get	10
	local.get	5
	local.get	17
	i32.xor 
	local.tee	31
	i32.and 
	i32.xor 
	local.get	30
	i32.xor 
	local.tee	17
	i32.and 
	local.tee	7
	local.get	10
	local.get	19
	i32.xor 
	local.tee	19
	local.get	13
	local.get	25
	i32.xor 
	local.tee	13
	i32.and 
	local.get	18
	i32.xor 
	local.get	27
	i32.xor 
	local.get	28
	local.get	6
	local.get	8
	i32.and 
	i32.xor 
	local.tee	25
	i32.xor 
	local.tee	9
	i32.xor 
	local.get	22
	local.get	23
	i32.and 
	local.get	19
	local.get	11
	i32.xor 
	local.tee	27
	local.get	12
	local.get	18
	i32.xor 
	local.tee	18
	i32.and 
	i32.xor 
	local.get	5
	i32.xor 
	local.get	11
	i32.xor 
	local.get	25
	i32.xor 
	local.tee	11
	local.get	17
	i32.xor 
	local.tee	25
	i32.and 
	local.get	11
	i32.xor 
	local.tee	12
	local.get	13
	i32.and 
	local.tee	28
	local.get	25
	local.get	9
	local.get	17
	i32.and 
	i32.const	-1
	i32.xor 
	i32.and 
	local.get	7
	i32.xor 
	local.tee	13
	local.get	14
	i32.and 
	i32.xor 
	local.tee	25
	local.get	7
	local.get	21
	local.get	11
	i32.and 
	local.get	21
	local.get	9
	i32.xor 
	local.tee	17
	i32.and 
	i32.xor 
	local.get	17
	i32.xor 
	local.tee	14
	local.get	10
	i32.and 
	local.tee	21
	i32.xor 
	local.get	14
	local.get	13
	i32.xor 
	local.tee	10
	local.get	6
	i32.and 
	local.tee	30
	i32.xor 
	local.get	12
	local.get	13
	i32.xor 
	local.tee	32
	local.get	24
	i32.and 
	local.get	10
	local.get	8
	i32.and 
	local.tee	24
	i32.xor 
	local.tee	33
	i32.xor 
	local.get	7
	local.get	11
	i32.xor 
	local.get	17
	i32.and 
	local.get	9
	i32.xor 
	local.tee	7
	local.get	14
	i32.xor 
	local.tee	11
	local.get	22
	i32.and 
	local.tee	8
	local.get	7
	local.get	18
	i32.and 
	i32.xor 
	local.get	14
	local.get	31
	i32.and 
	local.tee	14
	local.get	13
	local.get	16
	i32.and 
	i32.xor 
	local.tee	16
	i32.xor 
	local.get	7
	local.get	12
	i32.xor 
	local.tee	9
	local.get	6
	local.get	15
	i32.xor 
	i32.and 
	local.tee	13
	i32.xor 
	local.tee	15
	i32.xor 
	local.set	6
	local.get	32
	local.get	26
	i32.and 
	local.tee	17
	local.get	7
	local.get	27
	i32.and 
	local.tee	18
	i32.xor 
	local.tee	22
	local.get	24
	i32.xor 
	local.get	25
	local.get	12
	local.get	19
	i32.and 
	local.tee	19
	i32.xor 
	local.tee	12
	i32.xor 
	local.get	9
	local.get	10
	i32.xor 
	local.tee	10
	local.get	20
	i32.and 
	local.get	14
	i32.xor 
	local.get	11
	local.get	23
	i32.and 
	local.tee	11
	local.get	21
	i32.xor 
	local.get	13
	i32.xor 
	local.tee	13
	i32.xor 
	local.tee	14
	i32.xor 
	local.set	7
	local.get	10
	local.get	29
	i32.and 
	local.tee	20
	local.get	8
	i32.xor 
	local.get	14
	i32.xor 
	local.set	10
	local.get	12
	local.get	11
	i32.xor 
	local.get	20
	local.get	30
	i32.xor 
	local.tee	12
	i32.xor 
	local.get	15
	i32.xor 
	local.set	11
	local.get	8
	local.get	18
	i32.xor 
	local.get	12
	local.get	13
	i32.xor 
	local.tee	8
	i32.xor 
	local.set	12
	local.get	17
	local.get	28
	i32.xor 
	local.get	8
	i32.xor 
	local.set	13
	local.get	22
	local.get	16
	i32.xor 
	local.get	8
	i32.xor 
	local.set	8
	local.get	9
	local.get	5
	i32.and 
	local.get	19
	i32.xor 
	local.get	33
	i32.xor 
	local.set	5
	local.get	2
	i64.const	-2
	i64.add 
	local.tee	34
	i64.const	2
	i64.shr_u
	local.set	35
	block   	
	block   	
	local.get	34
	i64.const	-4
	i64.and 
	local.tee	36
	i64.const	2
	i64.or  
	local.get	2
	i64.ge_u
	br_if   	0                               # 0: down to label112
# %bb.1:                                # %then.3.i
	local.get	4
	local.get	3
	i32.const	-16
	i32.add 
	i32.load	0
	local.get	13
	i32.xor 
	local.tee	9
	i32.store	16
	local.get	4
	local.get	3
	i32.const	-24
	i32.add 
	i32.load	0
	local.get	8
	i32.xor 
	local.tee	8
	i32.store	8
	local.get	4
	local.get	3
	i32.const	-20
	i32.add 
	i32.load	0
	local.get	7
	i32.xor 
	local.tee	7
	i32.store	12
	local.get	4
	local.get	3
	i32.const	-28
	i32.add 
	i32.load	0
	local.get	10
	i32.xor 
	local.tee	10
	i32.store	4
	local.get	4
	local.get	3
	i32.const	-4
	i32.add 
	i32.load	0
	local.get	12
	i32.xor 
	local.tee	12
	i32.store	28
	local.get	4
	local.get	3
	i32.const	-32
	i32.add 
	i32.load	0
	local.get	5
	i32.xor 
	local.tee	13
	i32.store	0
	local.get	4
	local.get	3
	i32.const	-8
	i32.add 
	i32.load	0
	local.get	6
	i32.xor 
	local.tee	6
	i32.store	24
	local.get	4
	local.get	3
	i32.const	-12
	i32.add 
	i32.load	0
	local.get	11
	i32.xor 
	local.tee	11
	i32.store	20
	local.get	4
	i32.const	32
	i32.add 
	local.get	4
	i32.const	1
	i32.const	3
	call	aes_planes__soft__word__word32__U32Word__rotate_planes
	local.get	4
	local.get	4
	i32.load	52
	local.get	11
	i32.xor 
	local.tee	14
	local.get	6
	i32.xor 
	local.tee	5
	local.get	4
	i32.load	32
	local.get	13
	i32.xor 
	local.tee	3
	i32.xor 
	i32.store	32
	local.get	4
	local.get	4
	i32.load	56
	local.get	6
	i32.xor 
	local.tee	15
	local.get	12
	i32.xor 
	local.tee	6
	local.get	5
	i32.xor 
	local.tee	16
	local.get	4
	i32.load	36
	local.get	10
	i32.xor 
	local.tee	17
	i32.xor 
	i32.store	36
	local.get	4
	local.get	5
	local.get	4
	i32.load	44
	local.get	7
	i32.xor 
	local.tee	18
	i32.xor 
	local.get	3
	local.get	10
	i32.xor 
	local.get	4
	i32.load	60
	local.get	12
	i32.xor 
	local.tee	3
	i32.xor 
	local.tee	10
	i32.xor 
	i32.store	44
	local.get	4
	local.get	6
	local.get	4
	i32.load	40
	local.get	8
	i32.xor 
	local.tee	12
	i32.xor 
	local.get	3
	local.get	13
	i32.xor 
	local.tee	13
	i32.xor 
	i32.store	40
	local.get	4
	local.get	3
	local.get	4
	i32.load	48
	local.get	9
	i32.xor 
	local.tee	19
	local.get	11
	i32.xor 
	local.tee	11
	i32.xor 
	i32.store	60
	local.get	4
	local.get	18
	local.get	9
	i32.xor 
	local.get	3
	i32.xor 
	local.tee	9
	local.get	15
	i32.xor 
	i32.store	56
	local.get	4
	local.get	6
	local.get	14
	i32.xor 
	local.get	12
	local.get	7
	i32.xor 
	local.get	3
	i32.xor 
	local.tee	3
	i32.xor 
	i32.store	52
	local.get	4
	local.get	16
	local.get	17
	local.get	8
	i32.xor 
	local.tee	7
	i32.xor 
	local.get	19
	i32.xor 
	i32.store	48
	local.get	4
	local.get	4
	i64.load	32:p2align=2
	i64.store	64
	local.get	4
	local.get	4
	i64.load	40:p2align=2
	i64.store	72
	local.get	4
	local.get	4
	i64.load	56:p2align=2
	i64.store	88
	local.get	4
	local.get	4
	i64.load	48:p2align=2
	i64.store	80
	local.get	4
	i32.load	88
	local.set	8
	local.get	4
	i32.load	92
	local.set	12
	local.get	4
	i32.load	80
	local.set	14
	local.get	4
	i32.load	84
	local.set	15
	local.get	4
	i32.load	72
	local.set	16
	local.get	4
	i32.load	76
	local.set	17
	local.get	4
	i32.load	64
	local.set	18
	local.get	4
	i32.load	68
	local.set	19
	local.get	4
	i32.const	32
	i32.add 
	local.get	4
	i32.const	64
	i32.add 
	i32.const	2
	i32.const	2
	call	aes_planes__soft__word__word32__U32Word__rotate_planes
	local.get	4
	local.get	19
	local.get	4
	i32.load	36
	i32.xor 
	local.get	10
	i32.xor 
	i32.store	36
	local.get	4
	local.get	18
	local.get	4
	i32.load	32
	i32.xor 
	local.get	13
	i32.xor 
	i32.store	32
	local.get	4
	local.get	17
	local.get	4
	i32.load	44
	i32.xor 
	local.get	3
	i32.xor 
	i32.store	44
	local.get	4
	local.get	16
	local.get	4
	i32.load	40
	i32.xor 
	local.get	7
	i32.xor 
	i32.store	40
	local.get	4
	local.get	15
	local.get	4
	i32.load	52
	i32.xor 
	local.get	11
	i32.xor 
	i32.store	52
	local.get	4
	local.get	14
	local.get	4
	i32.load	48
	i32.xor 
	local.get	9
	i32.xor 
	i32.store	48
	local.get	4
	local.get	12
	local.get	4
	i32.load	60
	i32.xor 
	local.get	6
	i32.xor 
	i32.store	60
	local.get	4
	local.get	8
	local.get	4
	i32.load	56
	i32.xor 
	local.get	5
	i32.xor 
	i32.store	56
	local.get	4
	local.get	4
	i64.load	32:p2align=2
	i64.store	0
	local.get	4
	local.get	4
	i64.load	40:p2align=2
	i64.store	8
	local.get	4
	local.get	4
	i64.load	48:p2align=2
	i64.store	16
	local.get	4
	local.get	4
	i64.load	56:p2align=2
	i64.store	24
	local.get	1
	local.get	34
	i32.wrap_i64
	i32.const	5
	i32.shl 
	i32.add 
	local.tee	3
	i32.load	0
	local.set	24
	local.get	3
	i32.load	20
	local.set	25
	local.get	3
	i32.load	24
	local.set	26
	local.get	3
	i32.load	28
	local.set	27
	local.get	3
	i32.load	4
	local.set	28
	local.get	3
	i32.load	12
	local.set	29
	local.get	3
	i32.load	8
	local.set	30
	local.get	4
	local.get	4
	i32.load	8
	local.tee	20
	local.get	4
	i32.load	4
	local.tee	12
	i32.xor 
	local.tee	13
	local.get	4
	i32.load	28
	local.tee	14
	local.get	4
	i32.load	16
	local.tee	5
	i32.xor 
	local.tee	15
	local.get	4
	i32.load	24
	local.tee	7
	i32.xor 
	local.tee	16
	local.get	15
	i32.and 
	i32.xor 
	local.get	14
	local.get	7
	i32.xor 
	local.tee	8
	local.get	4
	i32.load	12
	local.tee	9
	local.get	4
	i32.load	0
	local.tee	17
	i32.xor 
	local.tee	18
	i32.xor 
	local.tee	6
	i32.xor 
	local.get	8
	local.get	12
	local.get	17
	i32.xor 
	local.tee	19
	i32.xor 
	local.tee	31
	local.get	7
	local.get	5
	i32.xor 
	local.tee	10
	local.get	4
	i32.load	20
	local.tee	11
	local.get	20
	i32.xor 
	local.tee	32
	i32.xor 
	local.tee	33
	i32.and 
	local.tee	37
	i32.xor 
	local.get	6
	local.get	5
	local.get	9
	i32.xor 
	local.tee	5
	local.get	13
	i32.xor 
	local.tee	20
	i32.xor 
	local.get	5
	i32.and 
	local.tee	38
	local.get	16
	local.get	9
	i32.xor 
	local.tee	39
	local.get	20
	i32.and 
	i32.xor 
	local.tee	40
	i32.xor 
	local.tee	21
	local.get	11
	local.get	9
	i32.xor 
	local.get	7
	local.get	12
	i32.xor 
	local.tee	12
	i32.xor 
	local.tee	22
	local.get	5
	local.get	19
	i32.xor 
	local.tee	23
	i32.or  
	local.get	10
	local.get	5
	local.get	17
	i32.xor 
	local.tee	41
	i32.and 
	i32.xor 
	local.get	40
	i32.xor 
	local.tee	17
	i32.and 
	local.tee	7
	local.get	10
	local.get	19
	i32.xor 
	local.tee	19
	local.get	14
	local.get	32
	i32.xor 
	local.tee	14
	i32.and 
	local.get	18
	i32.xor 
	local.get	37
	i32.xor 
	local.get	38
	local.get	6
	local.get	8
	i32.and 
	i32.xor 
	local.tee	32
	i32.xor 
	local.tee	9
	i32.xor 
	local.get	22
	local.get	23
	i32.and 
	local.get	19
	local.get	11
	i32.xor 
	local.tee	37
	local.get	12
	local.get	18
	i32.xor 
	local.tee	18
	i32.and 
	i32.xor 
	local.get	5
	i32.xor 
	local.get	11
	i32.xor 
	local.get	32
	i32.xor 
	local.tee	11
	local.get	17
	i32.xor 
	local.tee	32
	i32.and 
	local.get	11
	i32.xor 
	local.tee	12
	local.get	14
	i32.and 
	local.tee	38
	local.get	3
	i32.load	16
	i32.xor 
	local.get	12
	local.get	32
	local.get	9
	local.get	17
	i32.and 
	i32.const	-1
	i32.xor 
	i32.and 
	local.get	7
	i32.xor 
	local.tee	3
	i32.xor 
	local.tee	32
	local.get	33
	i32.and 
	local.tee	33
	i32.xor 
	local.get	7
	local.get	11
	i32.xor 
	local.get	21
	local.get	9
	i32.xor 
	local.tee	14
	i32.and 
	local.get	9
	i32.xor 
	local.tee	9
	local.get	12
	i32.xor 
	local.tee	17
	local.get	7
	local.get	21
	local.get	11
	i32.and 
	local.get	14
	i32.and 
	i32.xor 
	local.get	14
	i32.xor 
	local.tee	7
	local.get	3
	i32.xor 
	local.tee	11
	i32.xor 
	local.tee	14
	local.get	39
	i32.and 
	local.tee	21
	local.get	11
	local.get	6
	i32.and 
	local.tee	39
	i32.xor 
	local.tee	40
	local.get	9
	local.get	7
	i32.xor 
	local.tee	42
	local.get	23
	i32.and 
	local.tee	23
	local.get	7
	local.get	10
	i32.and 
	local.tee	43
	i32.xor 
	local.get	17
	local.get	6
	local.get	13
	i32.xor 
	i32.and 
	local.tee	13
	i32.xor 
	local.tee	44
	i32.xor 
	local.tee	6
	i32.xor 
	local.tee	10
	i32.store	16
	local.get	4
	local.get	30
	local.get	7
	local.get	41
	i32.and 
	local.tee	41
	local.get	3
	local.get	16
	i32.and 
	i32.xor 
	local.tee	16
	i32.xor 
	local.get	33
	local.get	9
	local.get	37
	i32.and 
	local.tee	30
	i32.xor 
	local.tee	33
	i32.xor 
	local.get	6
	i32.xor 
	local.tee	7
	i32.store	8
	local.get	4
	local.get	29
	local.get	11
	local.get	8
	i32.and 
	local.tee	37
	i32.xor 
	local.get	33
	i32.xor 
	local.get	38
	local.get	3
	local.get	15
	i32.and 
	i32.xor 
	local.tee	15
	local.get	12
	local.get	19
	i32.and 
	local.tee	19
	i32.xor 
	local.tee	29
	i32.xor 
	local.get	14
	local.get	20
	i32.and 
	local.get	41
	i32.xor 
	local.get	44
	i32.xor 
	local.tee	11
	i32.xor 
	local.tee	8
	i32.store	12
	local.get	4
	local.get	28
	local.get	42
	local.get	22
	i32.and 
	local.tee	3
	i32.xor 
	local.get	21
	i32.xor 
	local.get	11
	i32.xor 
	local.tee	11
	i32.store	4
	local.get	4
	local.get	30
	local.get	27
	i32.xor 
	local.get	3
	i32.xor 
	local.get	6
	i32.xor 
	local.tee	12
	i32.store	28
	local.get	4
	local.get	43
	local.get	26
	i32.xor 
	local.get	15
	i32.xor 
	local.get	39
	i32.xor 
	local.get	32
	local.get	31
	i32.and 
	local.get	37
	i32.xor 
	local.tee	6
	i32.xor 
	local.get	3
	local.get	9
	local.get	18
	i32.and 
	i32.xor 
	local.get	16
	i32.xor 
	local.get	13
	i32.xor 
	local.tee	9
	i32.xor 
	local.tee	3
	i32.store	24
	local.get	4
	local.get	23
	local.get	25
	i32.xor 
	local.get	29
	i32.xor 
	local.get	40
	i32.xor 
	local.get	9
	i32.xor 
	local.tee	9
	i32.store	20
	local.get	4
	local.get	24
	local.get	17
	local.get	5
	i32.and 
	i32.xor 
	local.get	19
	i32.xor 
	local.get	6
	i32.xor 
	local.tee	13
	i32.store	0
	local.get	4
	i32.const	32
	i32.add 
	local.get	4
	i32.const	1
	i32.const	2
	call	aes_planes__soft__word__word32__U32Word__rotate_planes
	local.get	4
	local.get	4
	i32.load	52
	local.get	9
	i32.xor 
	local.tee	14
	local.get	3
	i32.xor 
	local.tee	5
	local.get	4
	i32.load	32
	local.get	13
	i32.xor 
	local.tee	15
	i32.xor 
	i32.store	32
	local.get	4
	local.get	4
	i32.load	56
	local.get	3
	i32.xor 
	local.tee	16
	local.get	12
	i32.xor 
	local.tee	6
	local.get	5
	i32.xor 
	local.tee	17
	local.get	4
	i32.load	36
	local.get	11
	i32.xor 
	local.tee	18
	i32.xor 
	i32.store	36
	local.get	4
	local.get	5
	local.get	4
	i32.load	44
	local.get	8
	i32.xor 
	local.tee	19
	i32.xor 
	local.get	15
	local.get	11
	i32.xor 
	local.get	4
	i32.load	60
	local.get	12
	i32.xor 
	local.tee	3
	i32.xor 
	local.tee	11
	i32.xor 
	i32.store	44
	local.get	4
	local.get	6
	local.get	4
	i32.load	40
	local.get	7
	i32.xor 
	local.tee	12
	i32.xor 
	local.get	3
	local.get	13
	i32.xor 
	local.tee	13
	i32.xor 
	i32.store	40
	local.get	4
	local.get	3
	local.get	4
	i32.load	48
	local.get	10
	i32.xor 
	local.tee	15
	local.get	9
	i32.xor 
	local.tee	9
	i32.xor 
	i32.store	60
	local.get	4
	local.get	19
	local.get	10
	i32.xor 
	local.get	3
	i32.xor 
	local.tee	10
	local.get	16
	i32.xor 
	i32.store	56
	local.get	4
	local.get	6
	local.get	14
	i32.xor 
	local.get	12
	local.get	8
	i32.xor 
	local.get	3
	i32.xor 
	local.tee	3
	i32.xor 
	i32.store	52
	local.get	4
	local.get	17
	local.get	18
	local.get	7
	i32.xor 
	local.tee	7
	i32.xor 
	local.get	15
	i32.xor 
	i32.store	48
	local.get	4
	local.get	4
	i64.load	32:p2align=2
	i64.store	64
	local.get	4
	local.get	4
	i64.load	40:p2align=2
	i64.store	72
	local.get	4
	local.get	4
	i64.load	56:p2align=2
	i64.store	88
	local.get	4
	local.get	4
	i64.load	48:p2align=2
	i64.store	80
	local.get	4
	i32.load	88
	local.set	8
	local.get	4
	i32.load	92
	local.set	12
	local.get	4
	i32.load	80
	local.set	14
	local.get	4
	i32.load	84
	local.set	15
	local.get	4
	i32.load	72
	local.set	16
	local.get	4
	i32.load	76
	local.set	17
	local.get	4
	i32.load	64
	local.set	18
	local.get	4
	i32.load	68
	local.set	19
	local.get	4
	i32.const	32
	i32.add 
	local.get	4
	i32.const	64
	i32.add 
	i32.const	2
	i32.const	0
	call	aes_planes__soft__word__word32__U32Word__rotate_planes
	local.get	4
	local.get	19
	local.get	4
	i32.load	36
	i32.xor 
	local.get	11
	i32.xor 
	i32.store	36
	local.get	4
	local.get	18
	local.get	4
	i32.load	32
	i32.xor 
	local.get	13
	i32.xor 
	i32.store	32
	local.get	4
	local.get	17
	local.get	4
	i32.load	44
	i32.xor 
	local.get	3
	i32.xor 
	i32.store	44
	local.get	4
	local.get	16
	local.get	4
	i32.load	40
	i32.xor 
	local.get	7
	i32.xor 
	i32.store	40
	local.get	4
	local.get	15
	local.get	4
	i32.load	52
	i32.xor 
	local.get	9
	i32.xor 
	i32.store	52
	local.get	4
	local.get	14
	local.get	4
	i32.load	48
	i32.xor 
	local.get	10
	i32.xor 
	i32.store	48
	local.get	4
	local.get	12
	local.get	4
	i32.load	60
	i32.xor 
	local.get	6
	i32.xor 
	i32.store	60
	local.get	4
	local.get	8
	local.get	4
	i32.load	56
	i32.xor 
	local.get	5
	i32.xor 
	i32.store	56
	local.get	4
	local.get	4
	i64.load	32:p2align=2
	i64.store	0
	local.get	4
	local.get	4
	i64.load	40:p2align=2
	i64.store	8
	local.get	4
	local.get	4
	i64.load	48:p2align=2
	i64.store	16
	local.get	4
	local.get	4
	i64.load	56:p2align=2
	i64.store	24
	local.get	4
	i32.load	8
	local.tee	19
	local.get	4
	i32.load	4
	local.tee	11
	i32.xor 
	local.tee	14
	local.get	4
	i32.load	28
	local.tee	12
	local.get	4
	i32.load	16
	local.tee	3
	i32.xor 
	local.tee	13
	local.get	4
	i32.load	24
	local.tee	6
	i32.xor 
	local.tee	15
	local.get	13
	i32.and 
	i32.xor 
	local.get	12
	local.get	6
	i32.xor 
	local.tee	7
	local.get	4
	i32.load	12
	local.tee	8
	local.get	4
	i32.load	0
	local.tee	16
	i32.xor 
	local.tee	17
	i32.xor 
	local.tee	5
	i32.xor 
	local.get	7
	local.get	11
	local.get	16
	i32.xor 
	local.tee	18
	i32.xor 
	local.tee	23
	local.get	6
	local.get	3
	i32.xor 
	local.tee	9
	local.get	4
	i32.load	20
	local.tee	10
	local.get	19
	i32.xor 
	local.tee	24
	i32.xor 
	local.tee	25
	i32.and 
	local.tee	26
	i32.xor 
	local.get	5
	local.get	3
	local.get	8
	i32.xor 
	local.tee	3
	local.get	14
	i32.xor 
	local.tee	19
	i32.xor 
	local.get	3
	i32.and 
	local.tee	27
	local.get	15
	local.get	8
	i32.xor 
	local.tee	28
	local.get	19
	i32.and 
	i32.xor 
	local.tee	29
	i32.xor 
	local.tee	20
	local.get	10
	local.get	8
	i32.xor 
	local.get	6
	local.get	11
	i32.xor 
	local.tee	11
	i32.xor 
	local.tee	21
	local.get	3
	local.get	18
	i32.xor 
	local.tee	22
	i32.or  
	local.get	9
	local.get	3
	local.get	16
	i32.xor 
	local.tee	30
	i32.and 
	i32.xor 
	local.get	29
	i32.xor 
	local.tee	16
	i32.and 
	local.tee	6
	local.get	9
	local.get	18
	i32.xor 
	local.tee	18
	local.get	12
	local.get	24
	i32.xor 
	local.tee	12
	i32.and 
	local.get	17
	i32.xor 
	local.get	26
	i32.xor 
	local.get	27
	local.get	5
	local.get	7
	i32.and 
	i32.xor 
	local.tee	24
	i32.xor 
	local.tee	8
	i32.xor 
	local.get	21
	local.get	22
	i32.and 
	local.get	18
	local.get	10
	i32.xor 
	local.tee	26
	local.get	11
	local.get	17
	i32.xor 
	local.tee	17
	i32.and 
	i32.xor 
	local.get	3
	i32.xor 
	local.get	10
	i32.xor 
	local.get	24
	i32.xor 
	local.tee	10
	local.get	16
	i32.xor 
	local.tee	24
	i32.and 
	local.get	10
	i32.xor 
	local.tee	11
	local.get	12
	i32.and 
	local.tee	27
	local.get	24
	local.get	8
	local.get	16
	i32.and 
	i32.const	-1
	i32.xor 
	i32.and 
	local.get	6
	i32.xor 
	local.tee	12
	local.get	13
	i32.and 
	i32.xor 
	local.tee	24
	local.get	6
	local.get	20
	local.get	10
	i32.and 
	local.get	20
	local.get	8
	i32.xor 
	local.tee	16
	i32.and 
	i32.xor 
	local.get	16
	i32.xor 
	local.tee	13
	local.get	9
	i32.and 
	local.tee	20
	i32.xor 
	local.get	13
	local.get	12
	i32.xor 
	local.tee	9
	local.get	5
	i32.and 
	local.tee	29
	i32.xor 
	local.get	11
	local.get	12
	i32.xor 
	local.tee	31
	local.get	23
	i32.and 
	local.get	9
	local.get	7
	i32.and 
	local.tee	23
	i32.xor 
	local.tee	32
	i32.xor 
	local.get	6
	local.get	10
	i32.xor 
	local.get	16
	i32.and 
	local.get	8
	i32.xor 
	local.tee	6
	local.get	13
	i32.xor 
	local.tee	8
	local.get	21
	i32.and 
	local.tee	7
	local.get	6
	local.get	17
	i32.and 
	i32.xor 
	local.get	13
	local.get	30
	i32.and 
	local.tee	10
	local.get	12
	local.get	15
	i32.and 
	i32.xor 
	local.tee	16
	i32.xor 
	local.get	6
	local.get	11
	i32.xor 
	local.tee	13
	local.get	5
	local.get	14
	i32.xor 
	i32.and 
	local.tee	5
	i32.xor 
	local.tee	12
	i32.xor 
	local.set	14
	local.get	31
	local.get	25
	i32.and 
	local.tee	17
	local.get	6
	local.get	26
	i32.and 
	local.tee	21
	i32.xor 
	local.tee	25
	local.get	23
	i32.xor 
	local.get	24
	local.get	11
	local.get	18
	i32.and 
	local.tee	11
	i32.xor 
	local.tee	15
	i32.xor 
	local.get	13
	local.get	9
	i32.xor 
	local.tee	9
	local.get	19
	i32.and 
	local.get	10
	i32.xor 
	local.get	8
	local.get	22
	i32.and 
	local.tee	8
	local.get	20
	i32.xor 
	local.get	5
	i32.xor 
	local.tee	5
	i32.xor 
	local.tee	10
	i32.xor 
	local.set	6
	local.get	9
	local.get	28
	i32.and 
	local.tee	9
	local.get	7
	i32.xor 
	local.get	10
	i32.xor 
	local.set	10
	local.get	15
	local.get	8
	i32.xor 
	local.get	9
	local.get	29
	i32.xor 
	local.tee	8
	i32.xor 
	local.get	12
	i32.xor 
	local.set	15
	local.get	7
	local.get	21
	i32.xor 
	local.get	8
	local.get	5
	i32.xor 
	local.tee	5
	i32.xor 
	local.set	12
	local.get	17
	local.get	27
	i32.xor 
	local.get	5
	i32.xor 
	local.set	9
	local.get	25
	local.get	16
	i32.xor 
	local.get	5
	i32.xor 
	local.set	8
	local.get	13
	local.get	3
	i32.and 
	local.get	11
	i32.xor 
	local.get	32
	i32.xor 
	local.set	5
	br      	1                               # 1: down to label111
.LBB28_2:                               # %else.4.i
	end_block                               # label112:
	local.get	12
	i32.const	4
	i32.shr_u
	local.get	12
	i32.xor 
	i32.const	251662080
	i32.and 
	i32.const	17
	i32.mul 
	local.get	12
	i32.xor 
	local.set	12
	local.get	6
	i32.const	4
	i32.shr_u
	local.get	6
	i32.xor 
	i32.const	251662080
	i32.and 
	i32.const	17
	i32.mul 
	local.get	6
	i32.xor 
	local.set	14
	local.get	11
	i32.const	4
	i32.shr_u
	local.get	11
	i32.xor 
	i32.const	251662080
	i32.and 
	i32.const	17
	i32.mul 
	local.get	11
	i32.xor 
	local.set	15
	local.get	13
	i32.const	4
	i32.shr_u
	local.get	13
	i32.xor 
	i32.const	251662080
	i32.and 
	i32.const	17
	i32.mul 
	local.get	13
	i32.xor 
	local.set	9
	local.get	7
	i32.const	4
	i32.shr_u
	local.get	7
	i32.xor 
	i32.const	251662080
	i32.and 
	i32.const	17
	i32.mul 
	local.get	7
	i32.xor 
	local.set	6
	local.get	8
	i32.const	4
	i32.shr_u
	local.get	8
	i32.xor 
	i32.const	251662080
	i32.and 
	i32.const	17
	i32.mul 
	local.get	8
	i32.xor 
	local.set	8
	local.get	10
	i32.const	4
	i32.shr_u
	local.get	10
	i32.xor 
	i32.const	251662080
	i32.and 
	i32.const	17
	i32.mul 
	local.get	10
	i32.xor 
	local.set	10
	local.get	5
	i32.const	4
	i32.shr_u
	local.get	5
	i32.xor 
	i32.const	251662080
	i32.and 
	i32.const	17
	i32.mul 
	local.get	5
	i32.xor 
	local.set	5
.LBB28_3:                               # %join.5.i
	end_block                               # label111:
	local.get	4
	local.get	1
	local.get	36
	i32.wrap_i64
	i32.const	5
	i32.shl 
	i32.add 
	local.tee	3
	i32.load	48
	local.get	9
	i32.xor 
	local.tee	7
	i32.store	16
	local.get	4
	local.get	3
	i32.load	40
	local.get	8
	i32.xor 
	local.tee	8
	i32.store	8
	local.get	4
	local.get	3
	i32.load	44
	local.get	6
	i32.xor 
	local.tee	9
	i32.store	12
	local.get	4
	local.get	3
	i32.load	36
	local.get	10
	i32.xor 
	local.tee	10
	i32.store	4
	local.get	4
	local.get	3
	i32.load	60
	local.get	12
	i32.xor 
	local.tee	11
	i32.store	28
	local.get	4
	local.get	3
	i32.load	32
	local.get	5
	i32.xor 
	local.tee	12
	i32.store	0
	local.get	4
	local.get	3
	i32.load	56
	local.get	14
	i32.xor 
	local.tee	6
	i32.store	24
	local.get	4
	local.get	3
	i32.load	52
	local.get	15
	i32.xor 
	local.tee	13
	i32.store	20
	local.get	4
	i32.const	32
	i32.add 
	local.get	4
	i32.const	1
	i32.const	1
	call	aes_planes__soft__word__word32__U32Word__rotate_planes
	local.get	4
	local.get	4
	i32.load	52
	local.get	13
	i32.xor 
	local.tee	14
	local.get	6
	i32.xor 
	local.tee	5
	local.get	4
	i32.load	32
	local.get	12
	i32.xor 
	local.tee	3
	i32.xor 
	i32.store	32
	local.get	4
	local.get	4
	i32.load	56
	local.get	6
	i32.xor 
	local.tee	15
	local.get	11
	i32.xor 
	local.tee	6
	local.get	5
	i32.xor 
	local.tee	16
	local.get	4
	i32.load	36
	local.get	10
	i32.xor 
	local.tee	17
	i32.xor 
	i32.store	36
	local.get	4
	local.get	5
	local.get	4
	i32.load	44
	local.get	9
	i32.xor 
	local.tee	18
	i32.xor 
	local.get	3
	local.get	10
	i32.xor 
	local.get	4
	i32.load	60
	local.get	11
	i32.xor 
	local.tee	3
	i32.xor 
	local.tee	10
	i32.xor 
	i32.store	44
	local.get	4
	local.get	6
	local.get	4
	i32.load	40
	local.get	8
	i32.xor 
	local.tee	11
	i32.xor 
	local.get	3
	local.get	12
	i32.xor 
	local.tee	12
	i32.xor 
	i32.store	40
	local.get	4
	local.get	3
	local.get	4
	i32.load	48
	local.get	7
	i32.xor 
	local.tee	19
	local.get	13
	i32.xor 
	local.tee	13
	i32.xor 
	i32.store	60
	local.get	4
	local.get	18
	local.get	7
	i32.xor 
	local.get	3
	i32.xor 
	local.tee	7
	local.get	15
	i32.xor 
	i32.store	56
	local.get	4
	local.get	6
	local.get	14
	i32.xor 
	local.get	11
	local.get	9
	i32.xor 
	local.get	3
	i32.xor 
	local.tee	3
	i32.xor 
	i32.store	52
	local.get	4
	local.get	16
	local.get	17
	local.get	8
	i32.xor 
	local.tee	8
	i32.xor 
	local.get	19
	i32.xor 
	i32.store	48
	local.get	4
	local.get	4
	i64.load	32:p2align=2
	i64.store	64
	local.get	4
	local.get	4
	i64.load	40:p2align=2
	i64.store	72
	local.get	4
	local.get	4
	i64.load	56:p2align=2
	i64.store	88
	local.get	4
	local.get	4
	i64.load	48:p2align=2
	i64.store	80
	local.get	4
	i32.load	88
	local.set	9
	local.get	4
	i32.load	92
	local.set	11
	local.get	4
	i32.load	80
	local.set	14
	local.get	4
	i32.load	84
	local.set	15
	local.get	4
	i32.load	72
	local.set	16
	local.get	4
	i32.load	76
	local.set	17
	local.get	4
	i32.load	64
	local.set	18
	local.get	4
	i32.load	68
	local.set	19
	local.get	4
	i32.const	32
	i32.add 
	local.get	4
	i32.const	64
	i32.add 
	i32.const	2
	i32.const	2
	call	aes_planes__soft__word__word32__U32Word__rotate_planes
	local.get	4
	local.get	19
	local.get	4
	i32.load	36
	i32.xor 
	local.get	10
	i32.xor 
	i32.store	36
	local.get	4
	local.get	18
	local.get	4
	i32.load	32
	i32.xor 
	local.get	12
	i32.xor 
	i32.store	32
	local.get	4
	local.get	17
	local.get	4
	i32.load	44
	i32.xor 
	local.get	3
	i32.xor 
	i32.store	44
	local.get	4
	local.get	16
	local.get	4
	i32.load	40
	i32.xor 
	local.get	8
	i32.xor 
	i32.store	40
	local.get	4
	local.get	15
	local.get	4
	i32.load	52
	i32.xor 
	local.get	13
	i32.xor 
	i32.store	52
	local.get	4
	local.get	14
	local.get	4
	i32.load	48
	i32.xor 
	local.get	7
	i32.xor 
	i32.store	48
	local.get	4
	local.get	11
	local.get	4
	i32.load	60
	i32.xor 
	local.get	6
	i32.xor 
	i32.store	60
	local.get	4
	local.get	9
	local.get	4
	i32.load	56
	i32.xor 
	local.get	5
	i32.xor 
	i32.store	56
	local.get	4
	local.get	4
	i64.load	32:p2align=2
	i64.store	0
	local.get	4
	local.get	4
	i64.load	40:p2align=2
	i64.store	8
	local.get	4
	local.get	4
	i64.load	48:p2align=2
	i64.store	16
	local.get	4
	local.get	4
	i64.load	56:p2align=2
	i64.store	24
	local.get	4
	i32.load	8
	local.tee	19
	local.get	4
	i32.load	4
	local.tee	11
	i32.xor 
	local.tee	14
	local.get	4
	i32.load	28
	local.tee	12
	local.get	4
	i32.load	16
	local.tee	3
	i32.xor 
	local.tee	13
	local.get	4
	i32.load	24
	local.tee	6
	i32.xor 
	local.tee	15
	local.get	13
	i32.and 
	i32.xor 
	local.get	12
	local.get	6
	i32.xor 
	local.tee	7
	local.get	4
	i32.load	12
	local.tee	8
	local.get	4
	i32.load	0
	local.tee	16
	i32.xor 
	local.tee	17
	i32.xor 
	local.tee	5
	i32.xor 
	local.get	7
	local.get	11
	local.get	16
	i32.xor 
	local.tee	18
	i32.xor 
	local.tee	23
	local.get	6
	local.get	3
	i32.xor 
	local.tee	9
	local.get	4
	i32.load	20
	local.tee	10
	local.get	19
	i32.xor 
	local.tee	24
	i32.xor 
	local.tee	25
	i32.and 
	local.tee	26
	i32.xor 
	local.get	5
	local.get	3
	local.get	8
	i32.xor 
	local.tee	3
	local.get	14
	i32.xor 
	local.tee	19
	i32.xor 
	local.get	3
	i32.and 
	local.tee	27
	local.get	15
	local.get	8
	i32.xor 
	local.tee	28
	local.get	19
	i32.and 
	i32.xor 
	local.tee	29
	i32.xor 
	local.tee	20
	local.get	10
	local.get	8
	i32.xor 
	local.get	6
	local.get	11
	i32.xor 
	local.tee	11
	i32.xor 
	local.tee	21
	local.get	3
	local.get	18
	i32.xor 
	local.tee	22
	i32.or  
	local.get	9
	local.get	3
	local.get	16
	i32.xor 
	local.tee	30
	i32.and 
	i32.xor 
	local.get	29
	i32.xor 
	local.tee	16
	i32.and 
	local.tee	6
	local.get	9
	local.get	18
	i32.xor 
	local.tee	18
	local.get	12
	local.get	24
	i32.xor 
	local.tee	12
	i32.and 
	local.get	17
	i32.xor 
	local.get	26
	i32.xor 
	local.get	27
	local.get	5
	local.get	7
	i32.and 
	i32.xor 
	local.tee	24
	i32.xor 
	local.tee	8
	i32.xor 
	local.get	21
	local.get	22
	i32.and 
	local.get	18
	local.get	10
	i32.xor 
	local.tee	26
	local.get	11
	local.get	17
	i32.xor 
	local.tee	17
	i32.and 
	i32.xor 
	local.get	3
	i32.xor 
	local.get	10
	i32.xor 
	local.get	24
	i32.xor 
	local.tee	10
	local.get	16
	i32.xor 
	local.tee	24
	i32.and 
	local.get	10
	i32.xor 
	local.tee	11
	local.get	12
	i32.and 
	local.tee	27
	local.get	24
	local.get	8
	local.get	16
	i32.and 
	i32.const	-1
	i32.xor 
	i32.and 
	local.get	6
	i32.xor 
	local.tee	12
	local.get	13
	i32.and 
	i32.xor 
	local.tee	24
	local.get	6
	local.get	20
	local.get	10
	i32.and 
	local.get	20
	local.get	8
	i32.xor 
	local.tee	16
	i32.and 
	i32.xor 
	local.get	16
	i32.xor 
	local.tee	13
	local.get	9
	i32.and 
	local.tee	20
	i32.xor 
	local.get	13
	local.get	12
	i32.xor 
	local.tee	9
	local.get	5
	i32.and 
	local.tee	29
	i32.xor 
	local.get	11
	local.get	12
	i32.xor 
	local.tee	31
	local.get	23
	i32.and 
	local.get	9
	local.get	7
	i32.and 
	local.tee	23
	i32.xor 
	local.tee	32
	i32.xor 
	local.get	6
	local.get	10
	i32.xor 
	local.get	16
	i32.and 
	local.get	8
	i32.xor 
	local.tee	6
	local.get	13
	i32.xor 
	local.tee	10
	local.get	21
	i32.and 
	local.tee	8
	local.get	6
	local.get	17
	i32.and 
	i32.xor 
	local.get	13
	local.get	30
	i32.and 
	local.tee	13
	local.get	12
	local.get	15
	i32.and 
	i32.xor 
	local.tee	15
	i32.xor 
	local.get	6
	local.get	11
	i32.xor 
	local.tee	12
	local.get	5
	local.get	14
	i32.xor 
	i32.and 
	local.tee	5
	i32.xor 
	local.tee	14
	i32.xor 
	local.set	7
	local.get	31
	local.get	25
	i32.and 
	local.tee	16
	local.get	6
	local.get	26
	i32.and 
	local.tee	17
	i32.xor 
	local.tee	21
	local.get	23
	i32.xor 
	local.get	24
	local.get	11
	local.get	18
	i32.and 
	local.tee	18
	i32.xor 
	local.tee	11
	i32.xor 
	local.get	12
	local.get	9
	i32.xor 
	local.tee	6
	local.get	19
	i32.and 
	local.get	13
	i32.xor 
	local.get	10
	local.get	22
	i32.and 
	local.tee	9
	local.get	20
	i32.xor 
	local.get	5
	i32.xor 
	local.tee	10
	i32.xor 
	local.tee	13
	i32.xor 
	local.set	5
	local.get	6
	local.get	28
	i32.and 
	local.tee	19
	local.get	8
	i32.xor 
	local.get	13
	i32.xor 
	local.set	6
	local.get	11
	local.get	9
	i32.xor 
	local.get	19
	local.get	29
	i32.xor 
	local.tee	9
	i32.xor 
	local.get	14
	i32.xor 
	local.set	13
	local.get	8
	local.get	17
	i32.xor 
	local.get	9
	local.get	10
	i32.xor 
	local.tee	8
	i32.xor 
	local.set	11
	local.get	16
	local.get	27
	i32.xor 
	local.get	8
	i32.xor 
	local.set	9
	local.get	21
	local.get	15
	i32.xor 
	local.get	8
	i32.xor 
	local.set	10
	local.get	12
	local.get	3
	i32.and 
	local.get	18
	i32.xor 
	local.get	32
	i32.xor 
	local.set	17
	block   	
	local.get	35
	i64.eqz
	br_if   	0                               # 0: down to label113
# %bb.4:                                # %join.10.lr.ph.i
	local.get	35
	i32.wrap_i64
	i32.const	7
	i32.shl 
	local.get	1
	i32.add 
	i32.const	-96
	i32.add 
	local.set	3
.LBB28_5:                               # %join.10.i
                                        # =>This Inner Loop Header: Depth=1
	loop    	                                # label114:
	local.get	4
	local.get	3
	i32.const	112
	i32.add 
	i32.load	0
	local.get	9
	i32.xor 
	local.tee	8
	i32.store	16
	local.get	4
	local.get	3
	i32.const	104
	i32.add 
	i32.load	0
	local.get	10
	i32.xor 
	local.tee	9
	i32.store	8
	local.get	4
	local.get	3
	i32.const	108
	i32.add 
	i32.load	0
	local.get	5
	i32.xor 
	local.tee	10
	i32.store	12
	local.get	4
	local.get	3
	i32.const	100
	i32.add 
	i32.load	0
	local.get	6
	i32.xor 
	local.tee	5
	i32.store	4
	local.get	4
	local.get	3
	i32.const	124
	i32.add 
	i32.load	0
	local.get	11
	i32.xor 
	local.tee	11
	i32.store	28
	local.get	4
	local.get	3
	i32.const	96
	i32.add 
	i32.load	0
	local.get	17
	i32.xor 
	local.tee	12
	i32.store	0
	local.get	4
	local.get	3
	i32.const	120
	i32.add 
	i32.load	0
	local.get	7
	i32.xor 
	local.tee	7
	i32.store	24
	local.get	4
	local.get	3
	i32.const	116
	i32.add 
	i32.load	0
	local.get	13
	i32.xor 
	local.tee	13
	i32.store	20
	local.get	4
	i32.const	32
	i32.add 
	local.get	4
	i32.const	1
	i32.const	0
	call	aes_planes__soft__word__word32__U32Word__rotate_planes
	local.get	4
	local.get	4
	i32.load	52
	local.get	13
	i32.xor 
	local.tee	14
	local.get	7
	i32.xor 
	local.tee	6
	local.get	4
	i32.load	32
	local.get	12
	i32.xor 
	local.tee	15
	i32.xor 
	i32.store	32
	local.get	4
	local.get	4
	i32.load	56
	local.get	7
	i32.xor 
	local.tee	16
	local.get	11
	i32.xor 
	local.tee	7
	local.get	6
	i32.xor 
	local.tee	17
	local.get	4
	i32.load	36
	local.get	5
	i32.xor 
	local.tee	18
	i32.xor 
	i32.store	36
	local.get	4
	local.get	6
	local.get	4
	i32.load	44
	local.get	10
	i32.xor 
	local.tee	19
	i32.xor 
	local.get	15
	local.get	5
	i32.xor 
	local.get	4
	i32.load	60
	local.get	11
	i32.xor 
	local.tee	5
	i32.xor 
	local.tee	11
	i32.xor 
	i32.store	44
	local.get	4
	local.get	7
	local.get	4
	i32.load	40
	local.get	9
	i32.xor 
	local.tee	15
	i32.xor 
	local.get	5
	local.get	12
	i32.xor 
	local.tee	12
	i32.xor 
	i32.store	40
	local.get	4
	local.get	5
	local.get	4
	i32.load	48
	local.get	8
	i32.xor 
	local.tee	20
	local.get	13
	i32.xor 
	local.tee	13
	i32.xor 
	i32.store	60
	local.get	4
	local.get	19
	local.get	8
	i32.xor 
	local.get	5
	i32.xor 
	local.tee	8
	local.get	16
	i32.xor 
	i32.store	56
	local.get	4
	local.get	7
	local.get	14
	i32.xor 
	local.get	15
	local.get	10
	i32.xor 
	local.get	5
	i32.xor 
	local.tee	5
	i32.xor 
	i32.store	52
	local.get	4
	local.get	17
	local.get	18
	local.get	9
	i32.xor 
	local.tee	9
	i32.xor 
	local.get	20
	i32.xor 
	i32.store	48
	local.get	4
	local.get	4
	i64.load	32:p2align=2
	i64.store	64
	local.get	4
	local.get	4
	i64.load	40:p2align=2
	i64.store	72
	local.get	4
	local.get	4
	i64.load	56:p2align=2
	i64.store	88
	local.get	4
	local.get	4
	i64.load	48:p2align=2
	i64.store	80
	local.get	4
	i32.load	88
	local.set	10
	local.get	4
	i32.load	92
	local.set	14
	local.get	4
	i32.load	80
	local.set	15
	local.get	4
	i32.load	84
	local.set	16
	local.get	4
	i32.load	72
	local.set	17
	local.get	4
	i32.load	76
	local.set	18
	local.get	4
	i32.load	64
	local.set	19
	local.get	4
	i32.load	68
	local.set	20
	local.get	4
	i32.const	32
	i32.add 
	local.get	4
	i32.const	64
	i32.add 
	i32.const	2
	i32.const	0
	call	aes_planes__soft__word__word32__U32Word__rotate_planes
	local.get	4
	local.get	20
	local.get	4
	i32.load	36
	i32.xor 
	local.get	11
	i32.xor 
	i32.store	36
	local.get	4
	local.get	19
	local.get	4
	i32.load	32
	i32.xor 
	local.get	12
	i32.xor 
	i32.store	32
	local.get	4
	local.get	18
	local.get	4
	i32.load	44
	i32.xor 
	local.get	5
	i32.xor 
	i32.store	44
	local.get	4
	local.get	17
	local.get	4
	i32.load	40
	i32.xor 
	local.get	9
	i32.xor 
	i32.store	40
	local.get	4
	local.get	16
	local.get	4
	i32.load	52
	i32.xor 
	local.get	13
	i32.xor 
	i32.store	52
	local.get	4
	local.get	15
	local.get	4
	i32.load	48
	i32.xor 
	local.get	8
	i32.xor 
	i32.store	48
	local.get	4
	local.get	14
	local.get	4
	i32.load	60
	i32.xor 
	local.get	7
	i32.xor 
	i32.store	60
	local.get	4
	local.get	10
	local.get	4
	i32.load	56
	i32.xor 
	local.get	6
	i32.xor 
	i32.store	56
	local.get	4
	local.get	4
	i64.load	32:p2align=2
	i64.store	0
	local.get	4
	local.get	4
	i64.load	40:p2align=2
	i64.store	8
	local.get	4
	local.get	4
	i64.load	48:p2align=2
	i64.store	16
	local.get	4
	local.get	4
	i64.load	56:p2align=2
	i64.store	24
	local.get	3
	i32.const	64
	i32.add 
	i32.load	0
	local.set	24
	local.get	3
	i32.const	84
	i32.add 
	i32.load	0
	local.set	25
	local.get	3
	i32.const	88
	i32.add 
	i32.load	0
	local.set	26
	local.get	3
	i32.const	92
	i32.add 
	i32.load	0
	local.set	27
	local.get	3
	i32.const	68
	i32.add 
	i32.load	0
	local.set	28
	local.get	3
	i32.const	76
	i32.add 
	i32.load	0
	local.set	29
	local.get	3
	i32.const	72
	i32.add 
	i32.load	0
	local.set	30
	local.get	4
	local.get	4
	i32.load	8
	local.tee	20
	local.get	4
	i32.load	4
	local.tee	12
	i32.xor 
	local.tee	14
	local.get	4
	i32.load	28
	local.tee	13
	local.get	4
	i32.load	16
	local.tee	5
	i32.xor 
	local.tee	15
	local.get	4
	i32.load	24
	local.tee	7
	i32.xor 
	local.tee	16
	local.get	15
	i32.and 
	i32.xor 
	local.get	13
	local.get	7
	i32.xor 
	local.tee	8
	local.get	4
	i32.load	12
	local.tee	9
	local.get	4
	i32.load	0
	local.tee	17
	i32.xor 
	local.tee	18
	i32.xor 
	local.tee	6
	i32.xor 
	local.get	8
	local.get	12
	local.get	17
	i32.xor 
	local.tee	19
	i32.xor 
	local.tee	31
	local.get	7
	local.get	5
	i32.xor 
	local.tee	10
	local.get	4
	i32.load	20
	local.tee	11
	local.get	20
	i32.xor 
	local.tee	32
	i32.xor 
	local.tee	33
	i32.and 
	local.tee	37
	i32.xor 
	local.get	6
	local.get	5
	local.get	9
	i32.xor 
	local.tee	5
	local.get	14
	i32.xor 
	local.tee	20
	i32.xor 
	local.get	5
	i32.and 
	local.tee	38
	local.get	16
	local.get	9
	i32.xor 
	local.tee	39
	local.get	20
	i32.and 
	i32.xor 
	local.tee	40
	i32.xor 
	local.tee	21
	local.get	11
	local.get	9
	i32.xor 
	local.get	7
	local.get	12
	i32.xor 
	local.tee	12
	i32.xor 
	local.tee	22
	local.get	5
	local.get	19
	i32.xor 
	local.tee	23
	i32.or  
	local.get	10
	local.get	5
	local.get	17
	i32.xor 
	local.tee	41
	i32.and 
	i32.xor 
	local.get	40
	i32.xor 
	local.tee	17
	i32.and 
	local.tee	7
	local.get	10
	local.get	19
	i32.xor 
	local.tee	19
	local.get	13
	local.get	32
	i32.xor 
	local.tee	13
	i32.and 
	local.get	18
	i32.xor 
	local.get	37
	i32.xor 
	local.get	38
	local.get	6
	local.get	8
	i32.and 
	i32.xor 
	local.tee	32
	i32.xor 
	local.tee	9
	i32.xor 
	local.get	22
	local.get	23
	i32.and 
	local.get	19
	local.get	11
	i32.xor 
	local.tee	37
	local.get	12
	local.get	18
	i32.xor 
	local.tee	38
	i32.and 
	i32.xor 
	local.get	5
	i32.xor 
	local.get	11
	i32.xor 
	local.get	32
	i32.xor 
	local.tee	11
	local.get	17
	i32.xor 
	local.tee	18
	i32.and 
	local.get	11
	i32.xor 
	local.tee	12
	local.get	13
	i32.and 
	local.tee	32
	local.get	3
	i32.const	80
	i32.add 
	i32.load	0
	i32.xor 
	local.get	12
	local.get	18
	local.get	9
	local.get	17
	i32.and 
	i32.const	-1
	i32.xor 
	i32.and 
	local.get	7
	i32.xor 
	local.tee	13
	i32.xor 
	local.tee	40
	local.get	33
	i32.and 
	local.tee	33
	i32.xor 
	local.get	7
	local.get	11
	i32.xor 
	local.get	21
	local.get	9
	i32.xor 
	local.tee	17
	i32.and 
	local.get	9
	i32.xor 
	local.tee	9
	local.get	12
	i32.xor 
	local.tee	18
	local.get	7
	local.get	21
	local.get	11
	i32.and 
	local.get	17
	i32.and 
	i32.xor 
	local.get	17
	i32.xor 
	local.tee	7
	local.get	13
	i32.xor 
	local.tee	11
	i32.xor 
	local.tee	17
	local.get	39
	i32.and 
	local.tee	21
	local.get	11
	local.get	6
	i32.and 
	local.tee	39
	i32.xor 
	local.tee	42
	local.get	9
	local.get	7
	i32.xor 
	local.tee	43
	local.get	23
	i32.and 
	local.tee	23
	local.get	7
	local.get	10
	i32.and 
	local.tee	44
	i32.xor 
	local.get	18
	local.get	6
	local.get	14
	i32.xor 
	i32.and 
	local.tee	45
	i32.xor 
	local.tee	46
	i32.xor 
	local.tee	6
	i32.xor 
	local.tee	10
	i32.store	16
	local.get	4
	local.get	30
	local.get	7
	local.get	41
	i32.and 
	local.tee	7
	local.get	13
	local.get	16
	i32.and 
	i32.xor 
	local.tee	16
	i32.xor 
	local.get	33
	local.get	9
	local.get	37
	i32.and 
	local.tee	30
	i32.xor 
	local.tee	33
	i32.xor 
	local.get	6
	i32.xor 
	local.tee	14
	i32.store	8
	local.get	4
	local.get	29
	local.get	11
	local.get	8
	i32.and 
	local.tee	37
	i32.xor 
	local.get	33
	i32.xor 
	local.get	32
	local.get	13
	local.get	15
	i32.and 
	i32.xor 
	local.tee	13
	local.get	12
	local.get	19
	i32.and 
	local.tee	15
	i32.xor 
	local.tee	19
	i32.xor 
	local.get	17
	local.get	20
	i32.and 
	local.get	7
	i32.xor 
	local.get	46
	i32.xor 
	local.tee	11
	i32.xor 
	local.tee	8
	i32.store	12
	local.get	4
	local.get	28
	local.get	43
	local.get	22
	i32.and 
	local.tee	7
	i32.xor 
	local.get	21
	i32.xor 
	local.get	11
	i32.xor 
	local.tee	11
	i32.store	4
	local.get	4
	local.get	30
	local.get	27
	i32.xor 
	local.get	7
	i32.xor 
	local.get	6
	i32.xor 
	local.tee	12
	i32.store	28
	local.get	4
	local.get	44
	local.get	26
	i32.xor 
	local.get	13
	i32.xor 
	local.get	39
	i32.xor 
	local.get	40
	local.get	31
	i32.and 
	local.get	37
	i32.xor 
	local.tee	6
	i32.xor 
	local.get	7
	local.get	9
	local.get	38
	i32.and 
	i32.xor 
	local.get	16
	i32.xor 
	local.get	45
	i32.xor 
	local.tee	9
	i32.xor 
	local.tee	7
	i32.store	24
	local.get	4
	local.get	23
	local.get	25
	i32.xor 
	local.get	19
	i32.xor 
	local.get	42
	i32.xor 
	local.get	9
	i32.xor 
	local.tee	9
	i32.store	20
	local.get	4
	local.get	24
	local.get	18
	local.get	5
	i32.and 
	i32.xor 
	local.get	15
	i32.xor 
	local.get	6
	i32.xor 
	local.tee	13
	i32.store	0
	local.get	4
	i32.const	32
	i32.add 
	local.get	4
	i32.const	1
	i32.const	3
	call	aes_planes__soft__word__word32__U32Word__rotate_planes
	local.get	4
	local.get	4
	i32.load	52
	local.get	9
	i32.xor 
	local.tee	15
	local.get	7
	i32.xor 
	local.tee	6
	local.get	4
	i32.load	32
	local.get	13
	i32.xor 
	local.tee	5
	i32.xor 
	i32.store	32
	local.get	4
	local.get	4
	i32.load	56
	local.get	7
	i32.xor 
	local.tee	16
	local.get	12
	i32.xor 
	local.tee	7
	local.get	6
	i32.xor 
	local.tee	17
	local.get	4
	i32.load	36
	local.get	11
	i32.xor 
	local.tee	18
	i32.xor 
	i32.store	36
	local.get	4
	local.get	6
	local.get	4
	i32.load	44
	local.get	8
	i32.xor 
	local.tee	19
	i32.xor 
	local.get	5
	local.get	11
	i32.xor 
	local.get	4
	i32.load	60
	local.get	12
	i32.xor 
	local.tee	5
	i32.xor 
	local.tee	11
	i32.xor 
	i32.store	44
	local.get	4
	local.get	7
	local.get	4
	i32.load	40
	local.get	14
	i32.xor 
	local.tee	12
	i32.xor 
	local.get	5
	local.get	13
	i32.xor 
	local.tee	13
	i32.xor 
	i32.store	40
	local.get	4
	local.get	5
	local.get	4
	i32.load	48
	local.get	10
	i32.xor 
	local.tee	20
	local.get	9
	i32.xor 
	local.tee	9
	i32.xor 
	i32.store	60
	local.get	4
	local.get	19
	local.get	10
	i32.xor 
	local.get	5
	i32.xor 
	local.tee	10
	local.get	16
	i32.xor 
	i32.store	56
	local.get	4
	local.get	7
	local.get	15
	i32.xor 
	local.get	12
	local.get	8
	i32.xor 
	local.get	5
	i32.xor 
	local.tee	5
	i32.xor 
	i32.store	52
	local.get	4
	local.get	17
	local.get	18
	local.get	14
	i32.xor 
	local.tee	8
	i32.xor 
	local.get	20
	i32.xor 
	i32.store	48
	local.get	4
	local.get	4
	i64.load	32:p2align=2
	i64.store	64
	local.get	4
	local.get	4
	i64.load	40:p2align=2
	i64.store	72
	local.get	4
	local.get	4
	i64.load	56:p2align=2
	i64.store	88
	local.get	4
	local.get	4
	i64.load	48:p2align=2
	i64.store	80
	local.get	4
	i32.load	88
	local.set	12
	local.get	4
	i32.load	92
	local.set	14
	local.get	4
	i32.load	80
	local.set	15
	local.get	4
	i32.load	84
	local.set	16
	local.get	4
	i32.load	72
	local.set	17
	local.get	4
	i32.load	76
	local.set	18
	local.get	4
	i32.load	64
	local.set	19
	local.get	4
	i32.load	68
	local.set	20
	local.get	4
	i32.const	32
	i32.add 
	local.get	4
	i32.const	64
	i32.add 
	i32.const	2
	i32.const	2
	call	aes_planes__soft__word__word32__U32Word__rotate_planes
	local.get	4
	local.get	20
	local.get	4
	i32.load	36
	i32.xor 
	local.get	11
	i32.xor 
	i32.store	36
	local.get	4
	local.get	19
	local.get	4
	i32.load	32
	i32.xor 
	local.get	13
	i32.xor 
	i32.store	32
	local.get	4
	local.get	18
	local.get	4
	i32.load	44
	i32.xor 
	local.get	5
	i32.xor 
	i32.store	44
	local.get	4
	local.get	17
	local.get	4
	i32.load	40
	i32.xor 
	local.get	8
	i32.xor 
	i32.store	40
	local.get	4
	local.get	16
	local.get	4
	i32.load	52
	i32.xor 
	local.get	9
	i32.xor 
	i32.store	52
	local.get	4
	local.get	15
	local.get	4
	i32.load	48
	i32.xor 
	local.get	10
	i32.xor 
	i32.store	48
	local.get	4
	local.get	14
	local.get	4
	i32.load	60
	i32.xor 
	local.get	7
	i32.xor 
	i32.store	60
	local.get	4
	local.get	12
	local.get	4
	i32.load	56
	i32.xor 
	local.get	6
	i32.xor 
	i32.store	56
	local.get	4
	local.get	4
	i64.load	32:p2align=2
	i64.store	0
	local.get	4
	local.get	4
	i64.load	40:p2align=2
	i64.store	8
	local.get	4
	local.get	4
	i64.load	48:p2align=2
	i64.store	16
	local.get	4
	local.get	4
	i64.load	56:p2align=2
	i64.store	24
	local.get	3
	i32.const	32
	i32.add 
	i32.load	0
	local.set	24
	local.get	3
	i32.const	52
	i32.add 
	i32.load	0
	local.set	25
	local.get	3
	i32.const	56
	i32.add 
	i32.load	0
	local.set	26
	local.get	3
	i32.const	60
	i32.add 
	i32.load	0
	local.set	27
	local.get	3
	i32.const	36
	i32.add 
	i32.load	0
	local.set	28
	local.get	3
	i32.const	44
	i32.add 
	i32.load	0
	local.set	29
	local.get	3
	i32.const	40
	i32.add 
	i32.load	0
	local.set	30
	local.get	4
	local.get	4
	i32.load	8
	local.tee	20
	local.get	4
	i32.load	4
	local.tee	12
	i32.xor 
	local.tee	14
	local.get	4
	i32.load	28
	local.tee	13
	local.get	4
	i32.load	16
	local.tee	5
	i32.xor 
	local.tee	15
	local.get	4
	i32.load	24
	local.tee	7
	i32.xor 
	local.tee	16
	local.get	15
	i32.and 
	i32.xor 
	local.get	13
	local.get	7
	i32.xor 
	local.tee	8
	local.get	4
	i32.load	12
	local.tee	9
	local.get	4
	i32.load	0
	local.tee	17
	i32.xor 
	local.tee	18
	i32.xor 
	local.tee	6
	i32.xor 
	local.get	8
	local.get	12
	local.get	17
	i32.xor 
	local.tee	19
	i32.xor 
	local.tee	31
	local.get	7
	local.get	5
	i32.xor 
	local.tee	10
	local.get	4
	i32.load	20
	local.tee	11
	local.get	20
	i32.xor 
	local.tee	32
	i32.xor 
	local.tee	33
	i32.and 
	local.tee	37
	i32.xor 
	local.get	6
	local.get	5
	local.get	9
	i32.xor 
	local.tee	5
	local.get	14
	i32.xor 
	local.tee	20
	i32.xor 
	local.get	5
	i32.and 
	local.tee	38
	local.get	16
	local.get	9
	i32.xor 
	local.tee	39
	local.get	20
	i32.and 
	i32.xor 
	local.tee	40
	i32.xor 
	local.tee	21
	local.get	11
	local.get	9
	i32.xor 
	local.get	7
	local.get	12
	i32.xor 
	local.tee	12
	i32.xor 
	local.tee	22
	local.get	5
	local.get	19
	i32.xor 
	local.tee	23
	i32.or  
	local.get	10
	local.get	5
	local.get	17
	i32.xor 
	local.tee	41
	i32.and 
	i32.xor 
	local.get	40
	i32.xor 
	local.tee	17
	i32.and 
	local.tee	7
	local.get	10
	local.get	19
	i32.xor 
	local.tee	19
	local.get	13
	local.get	32
	i32.xor 
	local.tee	13
	i32.and 
	local.get	18
	i32.xor 
	local.get	37
	i32.xor 
	local.get	38
	local.get	6
	local.get	8
	i32.and 
	i32.xor 
	local.tee	32
	i32.xor 
	local.tee	9
	i32.xor 
	local.get	22
	local.get	23
	i32.and 
	local.get	19
	local.get	11
	i32.xor 
	local.tee	37
	local.get	12
	local.get	18
	i32.xor 
	local.tee	38
	i32.and 
	i32.xor 
	local.get	5
	i32.xor 
	local.get	11
	i32.xor 
	local.get	32
	i32.xor 
	local.tee	11
	local.get	17
	i32.xor 
	local.tee	18
	i32.and 
	local.get	11
	i32.xor 
	local.tee	12
	local.get	13
	i32.and 
	local.tee	32
	local.get	3
	i32.const	48
	i32.add 
	i32.load	0
	i32.xor 
	local.get	12
	local.get	18
	local.get	9
	local.get	17
	i32.and 
	i32.const	-1
	i32.xor 
	i32.and 
	local.get	7
	i32.xor 
	local.tee	13
	i32.xor 
	local.tee	40
	local.get	33
	i32.and 
	local.tee	33
	i32.xor 
	local.get	7
	local.get	11
	i32.xor 
	local.get	21
	local.get	9
	i32.xor 
	local.tee	17
	i32.and 
	local.get	9
	i32.xor 
	local.tee	9
	local.get	12
	i32.xor 
	local.tee	18
	local.get	7
	local.get	21
	local.get	11
	i32.and 
	local.get	17
	i32.and 
	i32.xor 
	local.get	17
	i32.xor 
	local.tee	7
	local.get	13
	i32.xor 
	local.tee	11
	i32.xor 
	local.tee	17
	local.get	39
	i32.and 
	local.tee	21
	local.get	11
	local.get	6
	i32.and 
	local.tee	39
	i32.xor 
	local.tee	42
	local.get	9
	local.get	7
	i32.xor 
	local.tee	43
	local.get	23
	i32.and 
	local.tee	23
	local.get	7
	local.get	10
	i32.and 
	local.tee	44
	i32.xor 
	local.get	18
	local.get	6
	local.get	14
	i32.xor 
	i32.and 
	local.tee	45
	i32.xor 
	local.tee	46
	i32.xor 
	local.tee	6
	i32.xor 
	local.tee	10
	i32.store	16
	local.get	4
	local.get	30
	local.get	7
	local.get	41
	i32.and 
	local.tee	7
	local.get	13
	local.get	16
	i32.and 
	i32.xor 
	local.tee	16
	i32.xor 
	local.get	33
	local.get	9
	local.get	37
	i32.and 
	local.tee	30
	i32.xor 
	local.tee	33
	i32.xor 
	local.get	6
	i32.xor 
	local.tee	14
	i32.store	8
	local.get	4
	local.get	29
	local.get	11
	local.get	8
	i32.and 
	local.tee	37
	i32.xor 
	local.get	33
	i32.xor 
	local.get	32
	local.get	13
	local.get	15
	i32.and 
	i32.xor 
	local.tee	13
	local.get	12
	local.get	19
	i32.and 
	local.tee	15
	i32.xor 
	local.tee	19
	i32.xor 
	local.get	17
	local.get	20
	i32.and 
	local.get	7
	i32.xor 
	local.get	46
	i32.xor 
	local.tee	11
	i32.xor 
	local.tee	8
	i32.store	12
	local.get	4
	local.get	28
	local.get	43
	local.get	22
	i32.and 
	local.tee	7
	i32.xor 
	local.get	21
	i32.xor 
	local.get	11
	i32.xor 
	local.tee	11
	i32.store	4
	local.get	4
	local.get	30
	local.get	27
	i32.xor 
	local.get	7
	i32.xor 
	local.get	6
	i32.xor 
	local.tee	12
	i32.store	28
	local.get	4
	local.get	44
	local.get	26
	i32.xor 
	local.get	13
	i32.xor 
	local.get	39
	i32.xor 
	local.get	40
	local.get	31
	i32.and 
	local.get	37
	i32.xor 
	local.tee	6
	i32.xor 
	local.get	7
	local.get	9
	local.get	38
	i32.and 
	i32.xor 
	local.get	16
	i32.xor 
	local.get	45
	i32.xor 
	local.tee	9
	i32.xor 
	local.tee	7
	i32.store	24
	local.get	4
	local.get	23
	local.get	25
	i32.xor 
	local.get	19
	i32.xor 
	local.get	42
	i32.xor 
	local.get	9
	i32.xor 
	local.tee	9
	i32.store	20
	local.get	4
	local.get	24
	local.get	18
	local.get	5
	i32.and 
	i32.xor 
	local.get	15
	i32.xor 
	local.get	6
	i32.xor 
	local.tee	13
	i32.store	0
	local.get	4
	i32.const	32
	i32.add 
	local.get	4
	i32.const	1
	i32.const	2
	call	aes_planes__soft__word__word32__U32Word__rotate_planes
	local.get	4
	local.get	4
	i32.load	52
	local.get	9
	i32.xor 
	local.tee	15
	local.get	7
	i32.xor 
	local.tee	6
	local.get	4
	i32.load	32
	local.get	13
	i32.xor 
	local.tee	5
	i32.xor 
	i32.store	32
	local.get	4
	local.get	4
	i32.load	56
	local.get	7
	i32.xor 
	local.tee	16
	local.get	12
	i32.xor 
	local.tee	7
	local.get	6
	i32.xor 
	local.tee	17
	local.get	4
	i32.load	36
	local.get	11
	i32.xor 
	local.tee	18
	i32.xor 
	i32.store	36
	local.get	4
	local.get	6
	local.get	4
	i32.load	44
	local.get	8
	i32.xor 
	local.tee	19
	i32.xor 
	local.get	5
	local.get	11
	i32.xor 
	local.get	4
	i32.load	60
	local.get	12
	i32.xor 
	local.tee	5
	i32.xor 
	local.tee	11
	i32.xor 
	i32.store	44
	local.get	4
	local.get	7
	local.get	4
	i32.load	40
	local.get	14
	i32.xor 
	local.tee	12
	i32.xor 
	local.get	5
	local.get	13
	i32.xor 
	local.tee	13
	i32.xor 
	i32.store	40
	local.get	4
	local.get	5
	local.get	4
	i32.load	48
	local.get	10
	i32.xor 
	local.tee	20
	local.get	9
	i32.xor 
	local.tee	9
	i32.xor 
	i32.store	60
	local.get	4
	local.get	19
	local.get	10
	i32.xor 
	local.get	5
	i32.xor 
	local.tee	10
	local.get	16
	i32.xor 
	i32.store	56
	local.get	4
	local.get	7
	local.get	15
	i32.xor 
	local.get	12
	local.get	8
	i32.xor 
	local.get	5
	i32.xor 
	local.tee	5
	i32.xor 
	i32.store	52
	local.get	4
	local.get	17
	local.get	18
	local.get	14
	i32.xor 
	local.tee	8
	i32.xor 
	local.get	20
	i32.xor 
	i32.store	48
	local.get	4
	local.get	4
	i64.load	32:p2align=2
	i64.store	64
	local.get	4
	local.get	4
	i64.load	40:p2align=2
	i64.store	72
	local.get	4
	local.get	4
	i64.load	56:p2align=2
	i64.store	88
	local.get	4
	local.get	4
	i64.load	48:p2align=2
	i64.store	80
	local.get	4
	i32.load	88
	local.set	12
	local.get	4
	i32.load	92
	local.set	14
	local.get	4
	i32.load	80
	local.set	15
	local.get	4
	i32.load	84
	local.set	16
	local.get	4
	i32.load	72
	local.set	17
	local.get	4
	i32.load	76
	local.set	18
	local.get	4
	i32.load	64
	local.set	19
	local.get	4
	i32.load	68
	local.set	20
	local.get	4
	i32.const	32
	i32.add 
	local.get	4
	i32.const	64
	i32.add 
	i32.const	2
	i32.const	0
	call	aes_planes__soft__word__word32__U32Word__rotate_planes
	local.get	4
	local.get	20
	local.get	4
	i32.load	36
	i32.xor 
	local.get	11
	i32.xor 
	i32.store	36
	local.get	4
	local.get	19
	local.get	4
	i32.load	32
	i32.xor 
	local.get	13
	i32.xor 
	i32.store	32
	local.get	4
	local.get	18
	local.get	4
	i32.load	44
	i32.xor 
	local.get	5
	i32.xor 
	i32.store	44
	local.get	4
	local.get	17
	local.get	4
	i32.load	40
	i32.xor 
	local.get	8
	i32.xor 
	i32.store	40
	local.get	4
	local.get	16
	local.get	4
	i32.load	52
	i32.xor 
	local.get	9
	i32.xor 
	i32.store	52
	local.get	4
	local.get	15
	local.get	4
	i32.load	48
	i32.xor 
	local.get	10
	i32.xor 
	i32.store	48
	local.get	4
	local.get	14
	local.get	4
	i32.load	60
	i32.xor 
	local.get	7
	i32.xor 
	i32.store	60
	local.get	4
	local.get	12
	local.get	4
	i32.load	56
	i32.xor 
	local.get	6
	i32.xor 
	i32.store	56
	local.get	4
	local.get	4
	i64.load	32:p2align=2
	i64.store	0
	local.get	4
	local.get	4
	i64.load	40:p2align=2
	i64.store	8
	local.get	4
	local.get	4
	i64.load	48:p2align=2
	i64.store	16
	local.get	4
	local.get	4
	i64.load	56:p2align=2
	i64.store	24
	local.get	3
	i32.const	20
	i32.add 
	i32.load	0
	local.set	24
	local.get	3
	i32.const	24
	i32.add 
	i32.load	0
	local.set	25
	local.get	3
	i32.const	28
	i32.add 
	i32.load	0
	local.set	26
	local.get	3
	i32.const	4
	i32.add 
	i32.load	0
	local.set	27
	local.get	3
	i32.const	12
	i32.add 
	i32.load	0
	local.set	28
	local.get	3
	i32.const	8
	i32.add 
	i32.load	0
	local.set	29
	local.get	3
	i32.load	0
	local.set	30
	local.get	4
	local.get	4
	i32.load	8
	local.tee	20
	local.get	4
	i32.load	4
	local.tee	12
	i32.xor 
	local.tee	14
	local.get	4
	i32.load	28
	local.tee	13
	local.get	4
	i32.load	16
	local.tee	5
	i32.xor 
	local.tee	15
	local.get	4
	i32.load	24
	local.tee	7
	i32.xor 
	local.tee	16
	local.get	15
	i32.and 
	i32.xor 
	local.get	13
	local.get	7
	i32.xor 
	local.tee	8
	local.get	4
	i32.load	12
	local.tee	9
	local.get	4
	i32.load	0
	local.tee	17
	i32.xor 
	local.tee	18
	i32.xor 
	local.tee	6
	i32.xor 
	local.get	8
	local.get	12
	local.get	17
	i32.xor 
	local.tee	19
	i32.xor 
	local.tee	31
	local.get	7
	local.get	5
	i32.xor 
	local.tee	10
	local.get	4
	i32.load	20
	local.tee	11
	local.get	20
	i32.xor 
	local.tee	32
	i32.xor 
	local.tee	33
	i32.and 
	local.tee	37
	i32.xor 
	local.get	6
	local.get	5
	local.get	9
	i32.xor 
	local.tee	5
	local.get	14
	i32.xor 
	local.tee	20
	i32.xor 
	local.get	5
	i32.and 
	local.tee	38
	local.get	16
	local.get	9
	i32.xor 
	local.tee	39
	local.get	20
	i32.and 
	i32.xor 
	local.tee	40
	i32.xor 
	local.tee	21
	local.get	11
	local.get	9
	i32.xor 
	local.get	7
	local.get	12
	i32.xor 
	local.tee	12
	i32.xor 
	local.tee	22
	local.get	5
	local.get	19
	i32.xor 
	local.tee	23
	i32.or  
	local.get	10
	local.get	5
	local.get	17
	i32.xor 
	local.tee	41
	i32.and 
	i32.xor 
	local.get	40
	i32.xor 
	local.tee	17
	i32.and 
	local.tee	7
	local.get	10
	local.get	19
	i32.xor 
	local.tee	19
	local.get	13
	local.get	32
	i32.xor 
	local.tee	13
	i32.and 
	local.get	18
	i32.xor 
	local.get	37
	i32.xor 
	local.get	38
	local.get	6
	local.get	8
	i32.and 
	i32.xor 
	local.tee	32
	i32.xor 
	local.tee	9
	i32.xor 
	local.get	22
	local.get	23
	i32.and 
	local.get	19
	local.get	11
	i32.xor 
	local.tee	37
	local.get	12
	local.get	18
	i32.xor 
	local.tee	38
	i32.and 
	i32.xor 
	local.get	5
	i32.xor 
	local.get	11
	i32.xor 
	local.get	32
	i32.xor 
	local.tee	11
	local.get	17
	i32.xor 
	local.tee	18
	i32.and 
	local.get	11
	i32.xor 
	local.tee	12
	local.get	13
	i32.and 
	local.tee	32
	local.get	3
	i32.const	16
	i32.add 
	i32.load	0
	i32.xor 
	local.get	12
	local.get	18
	local.get	9
	local.get	17
	i32.and 
	i32.const	-1
	i32.xor 
	i32.and 
	local.get	7
	i32.xor 
	local.tee	13
	i32.xor 
	local.tee	40
	local.get	33
	i32.and 
	local.tee	33
	i32.xor 
	local.get	7
	local.get	11
	i32.xor 
	local.get	21
	local.get	9
	i32.xor 
	local.tee	17
	i32.and 
	local.get	9
	i32.xor 
	local.tee	9
	local.get	12
	i32.xor 
	local.tee	18
	local.get	7
	local.get	21
	local.get	11
	i32.and 
	local.get	17
	i32.and 
	i32.xor 
	local.get	17
	i32.xor 
	local.tee	7
	local.get	13
	i32.xor 
	local.tee	11
	i32.xor 
	local.tee	17
	local.get	39
	i32.and 
	local.tee	21
	local.get	11
	local.get	6
	i32.and 
	local.tee	39
	i32.xor 
	local.tee	42
	local.get	9
	local.get	7
	i32.xor 
	local.tee	43
	local.get	23
	i32.and 
	local.tee	23
	local.get	7
	local.get	10
	i32.and 
	local.tee	44
	i32.xor 
	local.get	18
	local.get	6
	local.get	14
	i32.xor 
	i32.and 
	local.tee	45
	i32.xor 
	local.tee	46
	i32.xor 
	local.tee	6
	i32.xor 
	local.tee	10
	i32.store	16
	local.get	4
	local.get	29
	local.get	7
	local.get	41
	i32.and 
	local.tee	7
	local.get	13
	local.get	16
	i32.and 
	i32.xor 
	local.tee	16
	i32.xor 
	local.get	33
	local.get	9
	local.get	37
	i32.and 
	local.tee	29
	i32.xor 
	local.tee	33
	i32.xor 
	local.get	6
	i32.xor 
	local.tee	14
	i32.store	8
	local.get	4
	local.get	28
	local.get	11
	local.get	8
	i32.and 
	local.tee	37
	i32.xor 
	local.get	33
	i32.xor 
	local.get	32
	local.get	13
	local.get	15
	i32.and 
	i32.xor 
	local.tee	13
	local.get	12
	local.get	19
	i32.and 
	local.tee	15
	i32.xor 
	local.tee	19
	i32.xor 
	local.get	17
	local.get	20
	i32.and 
	local.get	7
	i32.xor 
	local.get	46
	i32.xor 
	local.tee	11
	i32.xor 
	local.tee	8
	i32.store	12
	local.get	4
	local.get	27
	local.get	43
	local.get	22
	i32.and 
	local.tee	7
	i32.xor 
	local.get	21
	i32.xor 
	local.get	11
	i32.xor 
	local.tee	11
	i32.store	4
	local.get	4
	local.get	29
	local.get	26
	i32.xor 
	local.get	7
	i32.xor 
	local.get	6
	i32.xor 
	local.tee	12
	i32.store	28
	local.get	4
	local.get	44
	local.get	25
	i32.xor 
	local.get	13
	i32.xor 
	local.get	39
	i32.xor 
	local.get	40
	local.get	31
	i32.and 
	local.get	37
	i32.xor 
	local.tee	6
	i32.xor 
	local.get	7
	local.get	9
	local.get	38
	i32.and 
	i32.xor 
	local.get	16
	i32.xor 
	local.get	45
	i32.xor 
	local.tee	9
	i32.xor 
	local.tee	7
	i32.store	24
	local.get	4
	local.get	23
	local.get	24
	i32.xor 
	local.get	19
	i32.xor 
	local.get	42
	i32.xor 
	local.get	9
	i32.xor 
	local.tee	9
	i32.store	20
	local.get	4
	local.get	30
	local.get	18
	local.get	5
	i32.and 
	i32.xor 
	local.get	15
	i32.xor 
	local.get	6
	i32.xor 
	local.tee	13
	i32.store	0
	local.get	4
	i32.const	32
	i32.add 
	local.get	4
	i32.const	1
	i32.const	1
	call	aes_planes__soft__word__word32__U32Word__rotate_planes
	local.get	4
	local.get	4
	i32.load	52
	local.get	9
	i32.xor 
	local.tee	15
	local.get	7
	i32.xor 
	local.tee	6
	local.get	4
	i32.load	32
	local.get	13
	i32.xor 
	local.tee	5
	i32.xor 
	i32.store	32
	local.get	4
	local.get	4
	i32.load	56
	local.get	7
	i32.xor 
	local.tee	16
	local.get	12
	i32.xor 
	local.tee	7
	local.get	6
	i32.xor 
	local.tee	17
	local.get	4
	i32.load	36
	local.get	11
	i32.xor 
	local.tee	18
	i32.xor 
	i32.store	36
	local.get	4
	local.get	6
	local.get	4
	i32.load	44
	local.get	8
	i32.xor 
	local.tee	19
	i32.xor 
	local.get	5
	local.get	11
	i32.xor 
	local.get	4
	i32.load	60
	local.get	12
	i32.xor 
	local.tee	5
	i32.xor 
	local.tee	11
	i32.xor 
	i32.store	44
	local.get	4
	local.get	7
	local.get	4
	i32.load	40
	local.get	14
	i32.xor 
	local.tee	12
	i32.xor 
	local.get	5
	local.get	13
	i32.xor 
	local.tee	13
	i32.xor 
	i32.store	40
	local.get	4
	local.get	5
	local.get	4
	i32.load	48
	local.get	10
	i32.xor 
	local.tee	20
	local.get	9
	i32.xor 
	local.tee	9
	i32.xor 
	i32.store	60
	local.get	4
	local.get	19
	local.get	10
	i32.xor 
	local.get	5
	i32.xor 
	local.tee	10
	local.get	16
	i32.xor 
	i32.store	56
	local.get	4
	local.get	7
	local.get	15
	i32.xor 
	local.get	12
	local.get	8
	i32.xor 
	local.get	5
	i32.xor 
	local.tee	5
	i32.xor 
	i32.store	52
	local.get	4
	local.get	17
	local.get	18
	local.get	14
	i32.xor 
	local.tee	8
	i32.xor 
	local.get	20
	i32.xor 
	i32.store	48
	local.get	4
	local.get	4
	i64.load	32:p2align=2
	i64.store	64
	local.get	4
	local.get	4
	i64.load	40:p2align=2
	i64.store	72
	local.get	4
	local.get	4
	i64.load	56:p2align=2
	i64.store	88
	local.get	4
	local.get	4
	i64.load	48:p2align=2
	i64.store	80
	local.get	4
	i32.load	88
	local.set	12
	local.get	4
	i32.load	92
	local.set	14
	local.get	4
	i32.load	80
	local.set	15
	local.get	4
	i32.load	84
	local.set	16
	local.get	4
	i32.load	72
	local.set	17
	local.get	4
	i32.load	76
	local.set	18
	local.get	4
	i32.load	64
	local.set	19
	local.get	4
	i32.load	68
	local.set	20
	local.get	4
	i32.const	32
	i32.add 
	local.get	4
	i32.const	64
	i32.add 
	i32.const	2
	i32.const	2
	call	aes_planes__soft__word__word32__U32Word__rotate_planes
	local.get	4
	local.get	20
	local.get	4
	i32.load	36
	i32.xor 
	local.get	11
	i32.xor 
	i32.store	36
	local.get	4
	local.get	19
	local.get	4
	i32.load	32
	i32.xor 
	local.get	13
	i32.xor 
	i32.store	32
	local.get	4
	local.get	18
	local.get	4
	i32.load	44
	i32.xor 
	local.get	5
	i32.xor 
	i32.store	44
	local.get	4
	local.get	17
	local.get	4
	i32.load	40
	i32.xor 
	local.get	8
	i32.xor 
	i32.store	40
	local.get	4
	local.get	16
	local.get	4
	i32.load	52
	i32.xor 
	local.get	9
	i32.xor 
	i32.store	52
	local.get	4
	local.get	15
	local.get	4
	i32.load	48
	i32.xor 
	local.get	10
	i32.xor 
	i32.store	48
	local.get	4
	local.get	14
	local.get	4
	i32.load	60
	i32.xor 
	local.get	7
	i32.xor 
	i32.store	60
	local.get	4
	local.get	12
	local.get	4
	i32.load	56
	i32.xor 
	local.get	6
	i32.xor 
	i32.store	56
	local.get	4
	local.get	4
	i64.load	32:p2align=2
	i64.store	0
	local.get	4
	local.get	4
	i64.load	40:p2align=2
	i64.store	8
	local.get	4
	local.get	4
	i64.load	48:p2align=2
	i64.store	16
	local.get	4
	local.get	4
	i64.load	56:p2align=2
	i64.store	24
	local.get	4
	local.get	4
	i32.load	8
	local.tee	20
	local.get	4
	i32.load	4
	local.tee	12
	i32.xor 
	local.tee	14
	local.get	4
	i32.load	28
	local.tee	13
	local.get	4
	i32.load	16
	local.tee	5
	i32.xor 
	local.tee	15
	local.get	4
	i32.load	24
	local.tee	7
	i32.xor 
	local.tee	16
	local.get	15
	i32.and 
	i32.xor 
	local.get	13
	local.get	7
	i32.xor 
	local.tee	8
	local.get	4
	i32.load	12
	local.tee	9
	local.get	4
	i32.load	0
	local.tee	17
	i32.xor 
	local.tee	18
	i32.xor 
	local.tee	6
	i32.xor 
	local.get	8
	local.get	12
	local.get	17
	i32.xor 
	local.tee	19
	i32.xor 
	local.tee	25
	local.get	7
	local.get	5
	i32.xor 
	local.tee	10
	local.get	4
	i32.load	20
	local.tee	11
	local.get	20
	i32.xor 
	local.tee	24
	i32.xor 
	local.tee	26
	i32.and 
	local.tee	27
	i32.xor 
	local.get	6
	local.get	5
	local.get	9
	i32.xor 
	local.tee	5
	local.get	14
	i32.xor 
	local.tee	20
	i32.xor 
	local.get	5
	i32.and 
	local.tee	28
	local.get	16
	local.get	9
	i32.xor 
	local.tee	29
	local.get	20
	i32.and 
	i32.xor 
	local.tee	30
	i32.xor 
	local.tee	21
	local.get	11
	local.get	9
	i32.xor 
	local.get	7
	local.get	12
	i32.xor 
	local.tee	9
	i32.xor 
	local.tee	22
	local.get	5
	local.get	19
	i32.xor 
	local.tee	23
	i32.or  
	local.get	10
	local.get	5
	local.get	17
	i32.xor 
	local.tee	31
	i32.and 
	i32.xor 
	local.get	30
	i32.xor 
	local.tee	17
	i32.and 
	local.tee	7
	local.get	22
	local.get	23
	i32.and 
	local.get	10
	local.get	19
	i32.xor 
	local.tee	19
	local.get	11
	i32.xor 
	local.tee	30
	local.get	9
	local.get	18
	i32.xor 
	local.tee	32
	i32.and 
	i32.xor 
	local.get	5
	i32.xor 
	local.get	11
	i32.xor 
	local.get	28
	local.get	6
	local.get	8
	i32.and 
	i32.xor 
	local.tee	11
	i32.xor 
	local.tee	9
	i32.xor 
	local.get	21
	local.get	19
	local.get	13
	local.get	24
	i32.xor 
	local.tee	28
	i32.and 
	local.get	18
	i32.xor 
	local.get	27
	i32.xor 
	local.get	11
	i32.xor 
	local.tee	11
	i32.xor 
	local.tee	18
	i32.and 
	local.get	11
	i32.xor 
	local.tee	12
	local.get	7
	local.get	11
	i32.xor 
	local.get	9
	local.get	17
	i32.xor 
	local.tee	27
	i32.and 
	local.get	9
	i32.xor 
	local.tee	13
	i32.xor 
	local.tee	24
	local.get	5
	i32.and 
	local.get	13
	local.get	19
	i32.and 
	local.tee	19
	i32.xor 
	local.get	13
	local.get	27
	local.get	11
	local.get	17
	i32.and 
	i32.const	-1
	i32.xor 
	i32.and 
	local.get	7
	i32.xor 
	local.tee	5
	i32.xor 
	local.tee	27
	local.get	25
	i32.and 
	local.get	7
	local.get	21
	local.get	9
	i32.and 
	local.get	18
	i32.and 
	i32.xor 
	local.get	18
	i32.xor 
	local.tee	7
	local.get	5
	i32.xor 
	local.tee	9
	local.get	8
	i32.and 
	local.tee	18
	i32.xor 
	local.tee	21
	i32.xor 
	local.tee	17
	i32.store	0
	local.get	4
	local.get	12
	local.get	7
	i32.xor 
	local.tee	11
	local.get	22
	i32.and 
	local.tee	8
	local.get	12
	local.get	30
	i32.and 
	local.tee	22
	i32.xor 
	local.get	24
	local.get	9
	i32.xor 
	local.tee	25
	local.get	29
	i32.and 
	local.tee	29
	local.get	9
	local.get	6
	i32.and 
	local.tee	9
	i32.xor 
	local.tee	30
	local.get	11
	local.get	23
	i32.and 
	local.tee	23
	local.get	7
	local.get	10
	i32.and 
	local.tee	10
	i32.xor 
	local.get	24
	local.get	6
	local.get	14
	i32.xor 
	i32.and 
	local.tee	14
	i32.xor 
	local.tee	24
	i32.xor 
	local.tee	6
	i32.xor 
	local.tee	11
	i32.store	28
	local.get	4
	local.get	13
	local.get	28
	i32.and 
	local.tee	28
	local.get	5
	local.get	15
	i32.and 
	i32.xor 
	local.tee	13
	local.get	10
	i32.xor 
	local.get	9
	i32.xor 
	local.get	21
	i32.xor 
	local.get	8
	local.get	12
	local.get	32
	i32.and 
	i32.xor 
	local.get	7
	local.get	31
	i32.and 
	local.tee	10
	local.get	5
	local.get	16
	i32.and 
	i32.xor 
	local.tee	12
	i32.xor 
	local.get	14
	i32.xor 
	local.tee	5
	i32.xor 
	local.tee	7
	i32.store	24
	local.get	4
	local.get	13
	local.get	19
	i32.xor 
	local.tee	14
	local.get	23
	i32.xor 
	local.get	30
	i32.xor 
	local.get	5
	i32.xor 
	local.tee	13
	i32.store	20
	local.get	4
	local.get	27
	local.get	26
	i32.and 
	local.tee	5
	local.get	28
	i32.xor 
	local.get	6
	i32.xor 
	local.tee	9
	i32.store	16
	local.get	4
	local.get	5
	local.get	22
	i32.xor 
	local.tee	15
	local.get	18
	i32.xor 
	local.get	14
	i32.xor 
	local.get	25
	local.get	20
	i32.and 
	local.get	10
	i32.xor 
	local.get	24
	i32.xor 
	local.tee	14
	i32.xor 
	local.tee	5
	i32.store	12
	local.get	4
	local.get	15
	local.get	12
	i32.xor 
	local.get	6
	i32.xor 
	local.tee	10
	i32.store	8
	local.get	4
	local.get	29
	local.get	8
	i32.xor 
	local.get	14
	i32.xor 
	local.tee	6
	i32.store	4
	local.get	3
	i32.const	-128
	i32.add 
	local.set	3
	local.get	35
	i64.const	-1
	i64.add 
	local.tee	35
	i64.const	0
	i64.ne  
	br_if   	0                               # 0: up to label114
.LBB28_6:                               # %aes_soft__soft__ciphers__planes__DecryptPlaneCipher__process_planes____42add9d049d0c5fd_.exit
	end_loop
	end_block                               # label113:
	local.get	0
	local.get	1
	i32.load	28
	local.get	11
	i32.xor 
	local.tee	3
	local.get	1
	i32.load	24
	local.get	7
	i32.xor 
	local.tee	7
	i32.const	1
	i32.shr_u
	i32.xor 
	i32.const	1431655765
	i32.and 
	local.tee	8
	local.get	3
	i32.xor 
	local.tee	3
	local.get	1
	i32.load	20
	local.get	13
	i32.xor 
	local.tee	11
	local.get	1
	i32.load	16
	local.get	9
	i32.xor 
	local.tee	9
	i32.const	1
	i32.shr_u
	i32.xor 
	i32.const	1431655765
	i32.and 
	local.tee	12
	local.get	11
	i32.xor 
	local.tee	11
	i32.const	2
	i32.shr_u
	i32.xor 
	i32.const	858993459
	i32.and 
	local.tee	13
	local.get	3
	i32.xor 
	local.tee	3
	local.get	1
	i32.load	12
	local.get	5
	i32.xor 
	local.tee	5
	local.get	1
	i32.load	8
	local.get	10
	i32.xor 
	local.tee	10
	i32.const	1
	i32.shr_u
	i32.xor 
	i32.const	1431655765
	i32.and 
	local.tee	14
	local.get	5
	i32.xor 
	local.tee	5
	local.get	1
	i32.load	4
	local.get	6
	i32.xor 
	local.tee	6
	local.get	1
	i32.load	0
	local.get	17
	i32.xor 
	local.tee	15
	i32.const	1
	i32.shr_u
	i32.xor 
	i32.const	1431655765
	i32.and 
	local.tee	16
	local.get	6
	i32.xor 
	local.tee	6
	i32.const	2
	i32.shr_u
	i32.xor 
	i32.const	858993459
	i32.and 
	local.tee	17
	local.get	5
	i32.xor 
	local.tee	5
	i32.const	4
	i32.shr_u
	i32.xor 
	i32.const	252645135
	i32.and 
	local.tee	18
	local.get	3
	i32.xor 
	i32.store	28:p2align=0
	local.get	0
	local.get	13
	i32.const	2
	i32.shl 
	local.get	11
	i32.xor 
	local.tee	3
	local.get	17
	i32.const	2
	i32.shl 
	local.get	6
	i32.xor 
	local.tee	6
	i32.const	4
	i32.shr_u
	i32.xor 
	i32.const	252645135
	i32.and 
	local.tee	11
	local.get	3
	i32.xor 
	i32.store	24:p2align=0
	local.get	0
	local.get	18
	i32.const	4
	i32.shl 
	local.get	5
	i32.xor 
	i32.store	20:p2align=0
	local.get	0
	local.get	8
	i32.const	1
	i32.shl 
	local.get	7
	i32.xor 
	local.tee	3
	local.get	12
	i32.const	1
	i32.shl 
	local.get	9
	i32.xor 
	local.tee	5
	i32.const	2
	i32.shr_u
	i32.xor 
	i32.const	858993459
	i32.and 
	local.tee	7
	local.get	3
	i32.xor 
	local.tee	3
	local.get	14
	i32.const	1
	i32.shl 
	local.get	10
	i32.xor 
	local.tee	8
	local.get	16
	i32.const	1
	i32.shl 
	local.get	15
	i32.xor 
	local.tee	9
	i32.const	2
	i32.shr_u
	i32.xor 
	i32.const	858993459
	i32.and 
	local.tee	10
	local.get	8
	i32.xor 
	local.tee	8
	i32.const	4
	i32.shr_u
	i32.xor 
	i32.const	252645135
	i32.and 
	local.tee	12
	local.get	3
	i32.xor 
	i32.store	12:p2align=0
	local.get	0
	local.get	11
	i32.const	4
	i32.shl 
	local.get	6
	i32.xor 
	i32.store	16:p2align=0
	local.get	0
	local.get	7
	i32.const	2
	i32.shl 
	local.get	5
	i32.xor 
	local.tee	3
	local.get	10
	i32.const	2
	i32.shl 
	local.get	9
	i32.xor 
	local.tee	5
	i32.const	4
	i32.shr_u
	i32.xor 
	i32.const	252645135
	i32.and 
	local.tee	6
	local.get	3
	i32.xor 
	i32.store	8:p2align=0
	local.get	0
	local.get	12
	i32.const	4
	i32.shl 
	local.get	8
	i32.xor 
	i32.store	4:p2align=0
	local.get	0
	local.get	6
	i32.const	4
	i32.shl 
	local.get	5
	i32.xor 
	i32.store	0:p2align=0
	local.get	4
	i32.const	96
	i32.add 
	global.set	__stack_pointer
                                        # fallthrough-return
	end_function
                                        # -- End function
	.section	.text.aes_c__blocks__fotsgure_aes_decrypt_blocks,"",@
	.type	aes_c__blocks__fotsgure_aes_decrypt_blocks,@function # -- Begin function aes_c__blocks__fotsgure_aes_decrypt_blocks
aes_c__blocks__fotsgure_aes_decrypt_blocks: # @aes_c__blocks__fotsgure_aes_decrypt_blocks
	.functype	aes_c__blocks__fotsgure_aes_decrypt_blocks (i32, i32, i64) -> (i32)
	.local  	i64, i32
# %bb.0:                                # %start
	block   	
	block   	
	local.get	0
	i64.load32_u	0
	local.tee	3
	i64.const	32
	i64.eq  
	br_if   	0                               # 0: down to label116
# %bb.1:                                # %start
	i32.const	2
	local.set	4
	local.get	3
	i64.const	4294967287
	i64.and 
	i64.const	16
	i64.ne  
	br_if   	1                               # 1: down to label115
.LBB29_2:                               # %join.3
	end_block                               # label116:
	local.get	0
	i32.const	4
	i32.add 
	local.get	3
	i64.const	1
	i64.shl 
	i64.const	56
	i64.add 
	local.get	1
	local.get	2
	call	aes_narrow__blocks__process_all_batches____a3dcb71d05bd149b_
	call	aes_cipher__zeroize__stack__wipe_stack____1024_
	i32.const	0
	local.set	4
.LBB29_3:                               # %common.ret
	end_block                               # label115:
	local.get	4
                                        # fallthrough-return
	end_function
                                        # -- End function
	.section	.text.aes_narrow__blocks__process_all_batches____a3dcb71d05bd149b_,"",@
	.type	aes_narrow__blocks__process_all_batches____a3dcb71d05bd149b_,@function # -- Begin function aes_narrow__blocks__process_all_batches____a3dcb71d05bd149b_
aes_narrow__blocks__process_all_batches____a3dcb71d05bd149b_: # @aes_narrow__blocks__process_all_batches____a3dcb71d05bd149b_
	.functype	aes_narrow__blocks__process_all_batches____a3dcb71d05bd149b_ (i32, i64, i32, i64) -> ()
	.local  	i64, i64
# %bb.0:                                # %start
	block   	
	local.get	3
	i64.eqz
	br_if   	0                               # 0: down to label117
# %bb.1:                                # %join.5.preheader
	i64.const	0
	local.set	4
.LBB30_2:                               # %join.5
                                        # =>This Inner Loop Header: Depth=1
	loop    	                                # label118:
	local.get	0
	local.get	1
	local.get	2
	local.get	4
	i32.wrap_i64
	i32.const	4
	i32.shl 
	i32.add 
	local.get	3
	local.get	4
	i64.sub 
	local.tee	5
	i64.const	2
	local.get	5
	i64.const	2
	i64.lt_u
	i64.select
	local.tee	5
	call	aes_soft__soft__blocks__filled_up__process_filled_up____a3dcb71d05bd149b_
	local.get	5
	local.get	4
	i64.add 
	local.tee	4
	local.get	3
	i64.lt_u
	br_if   	0                               # 0: up to label118
.LBB30_3:                               # %after.1
	end_loop
	end_block                               # label117:
                                        # fallthrough-return
	end_function
                                        # -- End function
	.section	.text.key_wrap__wrapping__unwrap____10c636071cb6e37c_,"",@
	.type	key_wrap__wrapping__unwrap____10c636071cb6e37c_,@function # -- Begin function key_wrap__wrapping__unwrap____10c636071cb6e37c_
key_wrap__wrapping__unwrap____10c636071cb6e37c_: # @key_wrap__wrapping__unwrap____10c636071cb6e37c_
	.functype	key_wrap__wrapping__unwrap____10c636071cb6e37c_ (i32, i32, i32, i64, i32, i64) -> ()
	.local  	i32, i32, i32, i64, i64, i64, i32
# %bb.0:                                # %start
	global.get	__stack_pointer
	i32.const	16
	i32.sub 
	local.tee	6
	global.set	__stack_pointer
	i32.const	1
	local.set	7
	i32.const	0
	local.set	8
	block   	
	local.get	5
	i64.const	2
	i64.lt_u
	br_if   	0                               # 0: down to label119
# %bb.1:                                # %start
	local.get	3
	local.get	5
	i64.const	1
	i64.add 
	i64.ne  
	br_if   	0                               # 0: down to label119
# %bb.2:                                # %after.1
	block   	
	block   	
	local.get	4
	i64.extend_i32_u
	local.get	2
	i32.const	8
	i32.add 
	local.tee	7
	i64.extend_i32_u
	i64.sub 
	local.get	3
	i64.const	-1
	i64.add 
	local.tee	9
	i64.const	3
	i64.shl 
	local.tee	10
	i64.ge_u
	br_if   	0                               # 0: down to label121
# %bb.3:                                # %join.7.i.i.i.i.i.i.i.i.preheader
	local.get	9
	i64.const	3
	i64.and 
	local.set	10
	i64.const	0
	local.set	11
	block   	
	local.get	3
	i64.const	-2
	i64.add 
	i64.const	3
	i64.lt_u
	br_if   	0                               # 0: down to label122
# %bb.4:                                # %join.7.i.i.i.i.i.i.i.i.preheader.new
	local.get	9
	i64.const	-4
	i64.and 
	local.set	3
	i64.const	0
	local.set	11
	i32.const	0
	local.set	7
.LBB31_5:                               # %join.7.i.i.i.i.i.i.i.i
                                        # =>This Inner Loop Header: Depth=1
	loop    	                                # label123:
	local.get	4
	local.get	7
	i32.add 
	local.tee	8
	local.get	2
	local.get	7
	i32.add 
	local.tee	12
	i32.const	8
	i32.add 
	i64.load	0:p2align=0
	i64.store	0:p2align=0
	local.get	8
	i32.const	8
	i32.add 
	local.get	12
	i32.const	16
	i32.add 
	i64.load	0:p2align=0
	i64.store	0:p2align=0
	local.get	8
	i32.const	16
	i32.add 
	local.get	12
	i32.const	24
	i32.add 
	i64.load	0:p2align=0
	i64.store	0:p2align=0
	local.get	8
	i32.const	24
	i32.add 
	local.get	12
	i32.const	32
	i32.add 
	i64.load	0:p2align=0
	i64.store	0:p2align=0
	local.get	7
	i32.const	32
	i32.add 
	local.set	7
	local.get	3
	local.get	11
	i64.const	4
	i64.add 
	local.tee	11
	i64.ne  
	br_if   	0                               # 0: up to label123
# %bb.6:                                # %key_wrap__wrapping__unwrap_all____10c636071cb6e37c_.exit.loopexit.unr-lcssa
	end_loop
	local.get	10
	i64.eqz
	br_if   	2                               # 2: down to label120
.LBB31_7:                               # %join.7.i.i.i.i.i.i.i.i.epil.preheader
	end_block                               # label122:
	local.get	4
	local.get	11
	i32.wrap_i64
	i32.const	3
	i32.shl 
	local.tee	8
	i32.add 
	local.set	7
	local.get	8
	local.get	2
	i32.add 
	i32.const	8
	i32.add 
	local.set	8
.LBB31_8:                               # %join.7.i.i.i.i.i.i.i.i.epil
                                        # =>This Inner Loop Header: Depth=1
	loop    	                                # label124:
	local.get	7
	local.get	8
	i64.load	0:p2align=0
	i64.store	0:p2align=0
	local.get	7
	i32.const	8
	i32.add 
	local.set	7
	local.get	8
	i32.const	8
	i32.add 
	local.set	8
	local.get	10
	i64.const	-1
	i64.add 
	local.tee	10
	i64.const	0
	i64.ne  
	br_if   	0                               # 0: up to label124
	br      	2                               # 2: down to label120
.LBB31_9:                               # %apart.2.i.i.i.i.i.i.i.i
	end_loop
	end_block                               # label121:
	local.get	4
	local.get	7
	local.get	10
	i32.wrap_i64
	call	memmove
	drop
.LBB31_10:                              # %key_wrap__wrapping__unwrap_all____10c636071cb6e37c_.exit
	end_block                               # label120:
	local.get	6
	local.get	2
	i64.load	0:p2align=0
	i64.store	0
	local.get	1
	local.get	6
	local.get	4
	local.get	5
	call	key_wrap__steps__unwrap_in_place____10c636071cb6e37c_
	local.get	6
	i64.load	0
	local.set	10
	local.get	6
	i64.const	-6438275382588823898
	i64.store	8
	local.get	6
	local.get	10
	i64.store	0
	block   	
	local.get	6
	i32.const	.Lstatic.2
	call	aes_cipher__blocks__difference
	br_if   	0                               # 0: down to label125
# %bb.11:
	i32.const	0
	local.set	8
	i32.const	0
	local.set	7
	br      	1                               # 1: down to label119
.LBB31_12:                              # %loop.5.preheader.i
	end_block                               # label125:
	local.get	5
	i32.wrap_i64
	i32.const	3
	i32.shl 
	i32.const	-8
	i32.add 
	local.set	7
	local.get	7
	local.get	4
	i32.const	0
	local.get	7
	call	memset
	i32.add 
	i64.const	0
	i64.store	0:p2align=0
	i32.const	1
	local.set	8
	i32.const	1
	local.set	7
.LBB31_13:                              # %return.10
	end_block                               # label119:
	local.get	0
	local.get	8
	i32.store8	1
	local.get	0
	local.get	7
	i32.store8	0
	local.get	6
	i32.const	16
	i32.add 
	global.set	__stack_pointer
                                        # fallthrough-return
	end_function
                                        # -- End function
	.section	.text.key_wrap__steps__unwrap_in_place____10c636071cb6e37c_,"",@
	.type	key_wrap__steps__unwrap_in_place____10c636071cb6e37c_,@function # -- Begin function key_wrap__steps__unwrap_in_place____10c636071cb6e37c_
key_wrap__steps__unwrap_in_place____10c636071cb6e37c_: # @key_wrap__steps__unwrap_in_place____10c636071cb6e37c_
	.functype	key_wrap__steps__unwrap_in_place____10c636071cb6e37c_ (i32, i32, i32, i64) -> ()
	.local  	i64, i32, i32, i64
# %bb.0:                                # %start
	block   	
	local.get	3
	i64.eqz
	br_if   	0                               # 0: down to label126
# %bb.1:                                # %join.5.lr.ph.i
	local.get	3
	i64.const	6
	i64.mul 
	local.set	4
	local.get	3
	i32.wrap_i64
	local.tee	5
	i32.const	3
	i32.shl 
	local.get	2
	i32.add 
	i32.const	-8
	i32.add 
	local.set	6
	local.get	3
	local.set	7
.LBB32_2:                               # %join.5.i
                                        # =>This Inner Loop Header: Depth=1
	loop    	                                # label127:
	local.get	1
	local.get	4
	i64.const	56
	i64.shl 
	local.get	4
	i64.const	65280
	i64.and 
	i64.const	40
	i64.shl 
	i64.or  
	local.get	4
	i64.const	16711680
	i64.and 
	i64.const	24
	i64.shl 
	local.get	4
	i64.const	4278190080
	i64.and 
	i64.const	8
	i64.shl 
	i64.or  
	i64.or  
	local.get	4
	i64.const	8
	i64.shr_u
	i64.const	4278190080
	i64.and 
	local.get	4
	i64.const	24
	i64.shr_u
	i64.const	16711680
	i64.and 
	i64.or  
	local.get	4
	i64.const	40
	i64.shr_u
	i64.const	65280
	i64.and 
	local.get	4
	i64.const	56
	i64.shr_u
	i64.or  
	i64.or  
	i64.or  
	local.get	1
	i64.load	0:p2align=0
	i64.xor 
	i64.store	0:p2align=0
	local.get	0
	local.get	1
	local.get	6
	call	key_wrap__steps__decrypt_halves____10c636071cb6e37c_
	local.get	6
	i32.const	-8
	i32.add 
	local.set	6
	local.get	4
	i64.const	-1
	i64.add 
	local.set	4
	local.get	7
	i64.const	-1
	i64.add 
	local.tee	7
	i64.const	0
	i64.ne  
	br_if   	0                               # 0: up to label127
# %bb.3:                                # %join.5.lr.ph.i.1
	end_loop
	local.get	3
	i64.const	5
	i64.mul 
	local.set	4
	local.get	5
	i32.const	3
	i32.shl 
	local.get	2
	i32.add 
	i32.const	-8
	i32.add 
	local.set	6
	local.get	3
	local.set	7
.LBB32_4:                               # %join.5.i.1
                                        # =>This Inner Loop Header: Depth=1
	loop    	                                # label128:
	local.get	1
	local.get	4
	i64.const	56
	i64.shl 
	local.get	4
	i64.const	65280
	i64.and 
	i64.const	40
	i64.shl 
	i64.or  
	local.get	4
	i64.const	16711680
	i64.and 
	i64.const	24
	i64.shl 
	local.get	4
	i64.const	4278190080
	i64.and 
	i64.const	8
	i64.shl 
	i64.or  
	i64.or  
	local.get	4
	i64.const	8
	i64.shr_u
	i64.const	4278190080
	i64.and 
	local.get	4
	i64.const	24
	i64.shr_u
	i64.const	16711680
	i64.and 
	i64.or  
	local.get	4
	i64.const	40
	i64.shr_u
	i64.const	65280
	i64.and 
	local.get	4
	i64.const	56
	i64.shr_u
	i64.or  
	i64.or  
	i64.or  
	local.get	1
	i64.load	0:p2align=0
	i64.xor 
	i64.store	0:p2align=0
	local.get	0
	local.get	1
	local.get	6
	call	key_wrap__steps__decrypt_halves____10c636071cb6e37c_
	local.get	6
	i32.const	-8
	i32.add 
	local.set	6
	local.get	4
	i64.const	-1
	i64.add 
	local.set	4
	local.get	7
	i64.const	-1
	i64.add 
	local.tee	7
	i64.const	0
	i64.ne  
	br_if   	0                               # 0: up to label128
# %bb.5:                                # %join.5.lr.ph.i.2
	end_loop
	local.get	3
	i64.const	2
	i64.shl 
	local.set	4
	local.get	5
	i32.const	3
	i32.shl 
	local.get	2
	i32.add 
	i32.const	-8
	i32.add 
	local.set	6
	local.get	3
	local.set	7
.LBB32_6:                               # %join.5.i.2
                                        # =>This Inner Loop Header: Depth=1
	loop    	                                # label129:
	local.get	1
	local.get	4
	i64.const	56
	i64.shl 
	local.get	4
	i64.const	65280
	i64.and 
	i64.const	40
	i64.shl 
	i64.or  
	local.get	4
	i64.const	16711680
	i64.and 
	i64.const	24
	i64.shl 
	local.get	4
	i64.const	4278190080
	i64.and 
	i64.const	8
	i64.shl 
	i64.or  
	i64.or  
	local.get	4
	i64.const	8
	i64.shr_u
	i64.const	4278190080
	i64.and 
	local.get	4
	i64.const	24
	i64.shr_u
	i64.const	16711680
	i64.and 
	i64.or  
	local.get	4
	i64.const	40
	i64.shr_u
	i64.const	65280
	i64.and 
	local.get	4
	i64.const	56
	i64.shr_u
	i64.or  
	i64.or  
	i64.or  
	local.get	1
	i64.load	0:p2align=0
	i64.xor 
	i64.store	0:p2align=0
	local.get	0
	local.get	1
	local.get	6
	call	key_wrap__steps__decrypt_halves____10c636071cb6e37c_
	local.get	6
	i32.const	-8
	i32.add 
	local.set	6
	local.get	4
	i64.const	-1
	i64.add 
	local.set	4
	local.get	7
	i64.const	-1
	i64.add 
	local.tee	7
	i64.const	0
	i64.ne  
	br_if   	0                               # 0: up to label129
# %bb.7:                                # %join.5.lr.ph.i.3
	end_loop
	local.get	3
	i64.const	3
	i64.mul 
	local.set	4
	local.get	5
	i32.const	3
	i32.shl 
	local.get	2
	i32.add 
	i32.const	-8
	i32.add 
	local.set	6
	local.get	3
	local.set	7
.LBB32_8:                               # %join.5.i.3
                                        # =>This Inner Loop Header: Depth=1
	loop    	                                # label130:
	local.get	1
	local.get	4
	i64.const	56
	i64.shl 
	local.get	4
	i64.const	65280
	i64.and 
	i64.const	40
	i64.shl 
	i64.or  
	local.get	4
	i64.const	16711680
	i64.and 
	i64.const	24
	i64.shl 
	local.get	4
	i64.const	4278190080
	i64.and 
	i64.const	8
	i64.shl 
	i64.or  
	i64.or  
	local.get	4
	i64.const	8
	i64.shr_u
	i64.const	4278190080
	i64.and 
	local.get	4
	i64.const	24
	i64.shr_u
	i64.const	16711680
	i64.and 
	i64.or  
	local.get	4
	i64.const	40
	i64.shr_u
	i64.const	65280
	i64.and 
	local.get	4
	i64.const	56
	i64.shr_u
	i64.or  
	i64.or  
	i64.or  
	local.get	1
	i64.load	0:p2align=0
	i64.xor 
	i64.store	0:p2align=0
	local.get	0
	local.get	1
	local.get	6
	call	key_wrap__steps__decrypt_halves____10c636071cb6e37c_
	local.get	6
	i32.const	-8
	i32.add 
	local.set	6
	local.get	4
	i64.const	-1
	i64.add 
	local.set	4
	local.get	7
	i64.const	-1
	i64.add 
	local.tee	7
	i64.const	0
	i64.ne  
	br_if   	0                               # 0: up to label130
# %bb.9:                                # %join.5.lr.ph.i.4
	end_loop
	local.get	3
	i64.const	1
	i64.shl 
	local.set	4
	local.get	5
	i32.const	3
	i32.shl 
	local.get	2
	i32.add 
	i32.const	-8
	i32.add 
	local.set	6
	local.get	3
	local.set	7
.LBB32_10:                              # %join.5.i.4
                                        # =>This Inner Loop Header: Depth=1
	loop    	                                # label131:
	local.get	1
	local.get	4
	i64.const	56
	i64.shl 
	local.get	4
	i64.const	65280
	i64.and 
	i64.const	40
	i64.shl 
	i64.or  
	local.get	4
	i64.const	16711680
	i64.and 
	i64.const	24
	i64.shl 
	local.get	4
	i64.const	4278190080
	i64.and 
	i64.const	8
	i64.shl 
	i64.or  
	i64.or  
	local.get	4
	i64.const	8
	i64.shr_u
	i64.const	4278190080
	i64.and 
	local.get	4
	i64.const	24
	i64.shr_u
	i64.const	16711680
	i64.and 
	i64.or  
	local.get	4
	i64.const	40
	i64.shr_u
	i64.const	65280
	i64.and 
	local.get	4
	i64.const	56
	i64.shr_u
	i64.or  
	i64.or  
	i64.or  
	local.get	1
	i64.load	0:p2align=0
	i64.xor 
	i64.store	0:p2align=0
	local.get	0
	local.get	1
	local.get	6
	call	key_wrap__steps__decrypt_halves____10c636071cb6e37c_
	local.get	6
	i32.const	-8
	i32.add 
	local.set	6
	local.get	4
	i64.const	-1
	i64.add 
	local.set	4
	local.get	7
	i64.const	-1
	i64.add 
	local.tee	7
	i64.const	0
	i64.ne  
	br_if   	0                               # 0: up to label131
# %bb.11:                               # %join.5.i.5.preheader
	end_loop
	local.get	5
	i32.const	3
	i32.shl 
	local.get	2
	i32.add 
	i32.const	-8
	i32.add 
	local.set	6
.LBB32_12:                              # %join.5.i.5
                                        # =>This Inner Loop Header: Depth=1
	loop    	                                # label132:
	local.get	1
	local.get	3
	i64.const	56
	i64.shl 
	local.get	3
	i64.const	65280
	i64.and 
	i64.const	40
	i64.shl 
	i64.or  
	local.get	3
	i64.const	16711680
	i64.and 
	i64.const	24
	i64.shl 
	local.get	3
	i64.const	4278190080
	i64.and 
	i64.const	8
	i64.shl 
	i64.or  
	i64.or  
	local.get	3
	i64.const	8
	i64.shr_u
	i64.const	4278190080
	i64.and 
	local.get	3
	i64.const	24
	i64.shr_u
	i64.const	16711680
	i64.and 
	i64.or  
	local.get	3
	i64.const	40
	i64.shr_u
	i64.const	65280
	i64.and 
	local.get	3
	i64.const	56
	i64.shr_u
	i64.or  
	i64.or  
	i64.or  
	local.get	1
	i64.load	0:p2align=0
	i64.xor 
	i64.store	0:p2align=0
	local.get	0
	local.get	1
	local.get	6
	call	key_wrap__steps__decrypt_halves____10c636071cb6e37c_
	local.get	6
	i32.const	-8
	i32.add 
	local.set	6
	local.get	3
	i64.const	-1
	i64.add 
	local.tee	3
	i64.const	0
	i64.ne  
	br_if   	0                               # 0: up to label132
.LBB32_13:                              # %key_wrap__steps__unwrap_turn____10c636071cb6e37c_.exit.5
	end_loop
	end_block                               # label126:
                                        # fallthrough-return
	end_function
                                        # -- End function
	.section	.text.key_wrap__steps__decrypt_halves____10c636071cb6e37c_,"",@
	.type	key_wrap__steps__decrypt_halves____10c636071cb6e37c_,@function # -- Begin function key_wrap__steps__decrypt_halves____10c636071cb6e37c_
key_wrap__steps__decrypt_halves____10c636071cb6e37c_: # @key_wrap__steps__decrypt_halves____10c636071cb6e37c_
	.functype	key_wrap__steps__decrypt_halves____10c636071cb6e37c_ (i32, i32, i32) -> ()
	.local  	i32
# %bb.0:                                # %start
	global.get	__stack_pointer
	i32.const	16
	i32.sub 
	local.tee	3
	global.set	__stack_pointer
	local.get	3
	local.get	2
	i64.load	0:p2align=0
	i64.store	8
	local.get	3
	local.get	1
	i64.load	0:p2align=0
	i64.store	0
	local.get	0
	i32.load	0:p2align=0
	local.get	0
	i64.load	8:p2align=0
	local.get	3
	i64.const	1
	call	aes_narrow__blocks__process_all_batches____a3dcb71d05bd149b_
	call	aes_cipher__zeroize__stack__wipe_stack____1024_
	local.get	1
	local.get	3
	i64.load	0
	i64.store	0:p2align=0
	local.get	2
	local.get	3
	i64.load	8
	i64.store	0:p2align=0
	local.get	3
	call	aes_cipher__zeroize__elements__zeroize_elements____51e2d7e6a2c2e10f_
	local.get	3
	i32.const	16
	i32.add 
	global.set	__stack_pointer
                                        # fallthrough-return
	end_function
                                        # -- End function
	.section	.text.aes_cipher__zeroize__elements__zeroize_elements____51e2d7e6a2c2e10f_,"",@
	.type	aes_cipher__zeroize__elements__zeroize_elements____51e2d7e6a2c2e10f_,@function # -- Begin function aes_cipher__zeroize__elements__zeroize_elements____51e2d7e6a2c2e10f_
aes_cipher__zeroize__elements__zeroize_elements____51e2d7e6a2c2e10f_: # @aes_cipher__zeroize__elements__zeroize_elements____51e2d7e6a2c2e10f_
	.functype	aes_cipher__zeroize__elements__zeroize_elements____51e2d7e6a2c2e10f_ (i32) -> ()
	.local  	i32
# %bb.0:                                # %start
	global.get	__stack_pointer
	i32.const	16
	i32.sub 
	local.tee	1
	i64.const	0
	i64.store	8
	#APP
	#NO_APP
	local.get	1
	i64.load	8
	drop
	#APP
	#NO_APP
	local.get	0
	i64.const	0
	i64.store	8:p2align=0
	local.get	0
	i64.const	0
	i64.store	0:p2align=0
	#APP
	#NO_APP
	local.get	1
	i64.load	8
	drop
	local.get	1
	i64.const	0
	i64.store	8
	#APP
	#NO_APP
                                        # fallthrough-return
	end_function
                                        # -- End function
	.section	.text.aes_cipher__blocks__difference,"",@
	.type	aes_cipher__blocks__difference,@function # -- Begin function aes_cipher__blocks__difference
aes_cipher__blocks__difference:         # @aes_cipher__blocks__difference
	.functype	aes_cipher__blocks__difference (i32, i32) -> (i32)
# %bb.0:                                # %start
	local.get	1
	i32.load8_u	15
	local.get	0
	i32.load8_u	15
	i32.xor 
	local.get	1
	i32.load8_u	14
	local.get	0
	i32.load8_u	14
	i32.xor 
	local.get	1
	i32.load8_u	13
	local.get	0
	i32.load8_u	13
	i32.xor 
	local.get	1
	i32.load8_u	12
	local.get	0
	i32.load8_u	12
	i32.xor 
	local.get	1
	i32.load8_u	11
	local.get	0
	i32.load8_u	11
	i32.xor 
	local.get	1
	i32.load8_u	10
	local.get	0
	i32.load8_u	10
	i32.xor 
	local.get	1
	i32.load8_u	9
	local.get	0
	i32.load8_u	9
	i32.xor 
	local.get	1
	i32.load8_u	8
	local.get	0
	i32.load8_u	8
	i32.xor 
	local.get	1
	i32.load8_u	7
	local.get	0
	i32.load8_u	7
	i32.xor 
	local.get	1
	i32.load8_u	6
	local.get	0
	i32.load8_u	6
	i32.xor 
	local.get	1
	i32.load8_u	5
	local.get	0
	i32.load8_u	5
	i32.xor 
	local.get	1
	i32.load8_u	4
	local.get	0
	i32.load8_u	4
	i32.xor 
	local.get	1
	i32.load8_u	3
	local.get	0
	i32.load8_u	3
	i32.xor 
	local.get	1
	i32.load8_u	2
	local.get	0
	i32.load8_u	2
	i32.xor 
	local.get	1
	i32.load8_u	1
	local.get	0
	i32.load8_u	1
	i32.xor 
	local.get	1
	i32.load8_u	0
	local.get	0
	i32.load8_u	0
	i32.xor 
	i32.or  
	i32.or  
	i32.or  
	i32.or  
	i32.or  
	i32.or  
	i32.or  
	i32.or  
	i32.or  
	i32.or  
	i32.or  
	i32.or  
	i32.or  
	i32.or  
	i32.or  
                                        # fallthrough-return
	end_function
                                        # -- End function
	.section	.text.key_wrap__padded__unwrap_padded____10c636071cb6e37c_,"",@
	.type	key_wrap__padded__unwrap_padded____10c636071cb6e37c_,@function # -- Begin function key_wrap__padded__unwrap_padded____10c636071cb6e37c_
key_wrap__padded__unwrap_padded____10c636071cb6e37c_: # @key_wrap__padded__unwrap_padded____10c636071cb6e37c_
	.functype	key_wrap__padded__unwrap_padded____10c636071cb6e37c_ (i32, i32, i32, i64, i32, i64) -> ()
	.local  	i32, i64, i32, i64, i64, i64, i32, i32
# %bb.0:                                # %start
	global.get	__stack_pointer
	i32.const	16
	i32.sub 
	local.tee	6
	global.set	__stack_pointer
	block   	
	block   	
	block   	
	local.get	5
	i64.const	-1
	i64.add 
	local.tee	7
	i64.const	536870911
	i64.gt_u
	br_if   	0                               # 0: down to label135
# %bb.1:                                # %start
	local.get	3
	local.get	5
	i64.const	1
	i64.add 
	i64.eq  
	br_if   	1                               # 1: down to label134
.LBB36_2:                               # %join.5
	end_block                               # label135:
	local.get	0
	i32.const	1
	i32.store16	0:p2align=0
	local.get	0
	i32.const	4
	i32.add 
	i32.const	0
	i32.store	0:p2align=0
	br      	1                               # 1: down to label133
.LBB36_3:                               # %after.1
	end_block                               # label134:
	block   	
	block   	
	local.get	4
	i64.extend_i32_u
	local.get	2
	i32.const	8
	i32.add 
	local.tee	8
	i64.extend_i32_u
	i64.sub 
	local.get	3
	i64.const	-1
	i64.add 
	local.tee	9
	i64.const	3
	i64.shl 
	local.tee	10
	i64.ge_u
	br_if   	0                               # 0: down to label137
# %bb.4:                                # %join.7.i.i.i.i.i.i.i.preheader
	local.get	9
	i64.const	3
	i64.and 
	local.set	10
	i64.const	0
	local.set	11
	block   	
	local.get	3
	i64.const	-2
	i64.add 
	i64.const	3
	i64.lt_u
	br_if   	0                               # 0: down to label138
# %bb.5:                                # %join.7.i.i.i.i.i.i.i.preheader.new
	local.get	9
	i64.const	-4
	i64.and 
	local.set	3
	i64.const	0
	local.set	11
	i32.const	0
	local.set	8
.LBB36_6:                               # %join.7.i.i.i.i.i.i.i
                                        # =>This Inner Loop Header: Depth=1
	loop    	                                # label139:
	local.get	4
	local.get	8
	i32.add 
	local.tee	12
	local.get	2
	local.get	8
	i32.add 
	local.tee	13
	i32.const	8
	i32.add 
	i64.load	0:p2align=0
	i64.store	0:p2align=0
	local.get	12
	i32.const	8
	i32.add 
	local.get	13
	i32.const	16
	i32.add 
	i64.load	0:p2align=0
	i64.store	0:p2align=0
	local.get	12
	i32.const	16
	i32.add 
	local.get	13
	i32.const	24
	i32.add 
	i64.load	0:p2align=0
	i64.store	0:p2align=0
	local.get	12
	i32.const	24
	i32.add 
	local.get	13
	i32.const	32
	i32.add 
	i64.load	0:p2align=0
	i64.store	0:p2align=0
	local.get	8
	i32.const	32
	i32.add 
	local.set	8
	local.get	3
	local.get	11
	i64.const	4
	i64.add 
	local.tee	11
	i64.ne  
	br_if   	0                               # 0: up to label139
# %bb.7:                                # %key_wrap__wrapping__copy_apart.exit.loopexit.unr-lcssa
	end_loop
	local.get	10
	i64.eqz
	br_if   	2                               # 2: down to label136
.LBB36_8:                               # %join.7.i.i.i.i.i.i.i.epil.preheader
	end_block                               # label138:
	local.get	4
	local.get	11
	i32.wrap_i64
	i32.const	3
	i32.shl 
	local.tee	12
	i32.add 
	local.set	8
	local.get	12
	local.get	2
	i32.add 
	i32.const	8
	i32.add 
	local.set	12
.LBB36_9:                               # %join.7.i.i.i.i.i.i.i.epil
                                        # =>This Inner Loop Header: Depth=1
	loop    	                                # label140:
	local.get	8
	local.get	12
	i64.load	0:p2align=0
	i64.store	0:p2align=0
	local.get	8
	i32.const	8
	i32.add 
	local.set	8
	local.get	12
	i32.const	8
	i32.add 
	local.set	12
	local.get	10
	i64.const	-1
	i64.add 
	local.tee	10
	i64.const	0
	i64.ne  
	br_if   	0                               # 0: up to label140
	br      	2                               # 2: down to label136
.LBB36_10:                              # %apart.2.i.i.i.i.i.i.i
	end_loop
	end_block                               # label137:
	local.get	4
	local.get	8
	local.get	10
	i32.wrap_i64
	call	memmove
	drop
.LBB36_11:                              # %key_wrap__wrapping__copy_apart.exit
	end_block                               # label136:
	local.get	6
	local.get	2
	i64.load	0:p2align=0
	i64.store	8
	block   	
	block   	
	block   	
	local.get	5
	i64.const	1
	i64.eq  
	br_if   	0                               # 0: down to label143
# %bb.12:                               # %key_wrap__steps__unwrap_string____10c636071cb6e37c_.exit
	local.get	1
	local.get	6
	i32.const	8
	i32.add 
	local.get	4
	local.get	5
	call	key_wrap__steps__unwrap_in_place____10c636071cb6e37c_
	local.get	6
	i32.const	8
	i32.add 
	local.get	4
	local.get	5
	call	key_wrap__padded__difference
	i64.eqz
	br_if   	1                               # 1: down to label142
# %bb.13:                               # %join.8.i.preheader
	local.get	4
	i32.const	0
	local.get	5
	i32.wrap_i64
	i32.const	3
	i32.shl 
	i32.const	-8
	i32.add 
	call	memset
	drop
	br      	2                               # 2: down to label141
.LBB36_14:                              # %key_wrap__steps__unwrap_string____10c636071cb6e37c_.exit.thread
	end_block                               # label143:
	local.get	1
	local.get	6
	i32.const	8
	i32.add 
	local.get	4
	call	key_wrap__steps__decrypt_halves____10c636071cb6e37c_
	local.get	6
	i32.const	8
	i32.add 
	local.get	4
	local.get	5
	call	key_wrap__padded__difference
	i64.eqz
	i32.eqz
	br_if   	1                               # 1: down to label141
.LBB36_15:                              # %join.16
	end_block                               # label142:
	local.get	0
	i32.const	0
	i32.store16	0:p2align=0
	local.get	0
	i32.const	4
	i32.add 
	local.get	6
	i32.load	12
	local.tee	8
	i32.const	16711935
	i32.and 
	i32.const	8
	i32.rotr
	local.get	8
	i32.const	24
	i32.rotr
	i32.const	16711935
	i32.and 
	i32.or  
	i32.store	0:p2align=0
	br      	1                               # 1: down to label133
.LBB36_16:                              # %core__slice__edits__slice_T__fill____1e8902aced0720be_.exit
	end_block                               # label141:
	local.get	4
	local.get	7
	i32.wrap_i64
	i32.const	3
	i32.shl 
	i32.add 
	i64.const	0
	i64.store	0:p2align=0
	local.get	0
	i32.const	4
	i32.add 
	i32.const	0
	i32.store	0:p2align=0
	local.get	0
	i32.const	257
	i32.store16	0:p2align=0
.LBB36_17:                              # %common.ret
	end_block                               # label133:
	local.get	6
	i32.const	16
	i32.add 
	global.set	__stack_pointer
                                        # fallthrough-return
	end_function
                                        # -- End function
	.section	.text.key_wrap__padded__difference,"",@
	.type	key_wrap__padded__difference,@function # -- Begin function key_wrap__padded__difference
key_wrap__padded__difference:           # @key_wrap__padded__difference
	.functype	key_wrap__padded__difference (i32, i32, i64) -> (i64)
	.local  	i32, i64, i32
# %bb.0:                                # %start
	i32.const	0
	local.get	2
	i64.const	3
	i64.shl 
	local.get	0
	i32.const	4
	i32.add 
	i32.load	0:p2align=0
	local.tee	3
	i32.const	16711935
	i32.and 
	i32.const	8
	i32.rotr
	local.get	3
	i32.const	24
	i32.rotr
	i32.const	16711935
	i32.and 
	i32.or  
	i64.extend_i32_u
	i64.sub 
	local.tee	4
	i32.wrap_i64
	i32.const	7
	i32.and 
	local.tee	3
	call	key_wrap__padded__mask_below
	local.set	5
	local.get	4
	i64.const	3
	i64.shr_u
	local.get	0
	i32.load	0:p2align=0
	local.tee	0
	i32.const	16711935
	i32.and 
	i32.const	8
	i32.rotr
	local.get	0
	i32.const	24
	i32.rotr
	i32.const	16711935
	i32.and 
	i32.or  
	i32.const	1504093786
	i32.add 
	i64.extend_i32_u
	i64.or  
	i32.const	1
	local.get	3
	call	key_wrap__padded__mask_below
	local.get	1
	local.get	2
	i32.wrap_i64
	i32.const	3
	i32.shl 
	i32.add 
	local.tee	0
	i32.const	-2
	i32.add 
	i32.load8_u	0
	i32.and 
	local.get	5
	local.get	0
	i32.const	-1
	i32.add 
	i32.load8_u	0
	i32.and 
	i32.or  
	i32.const	2
	local.get	3
	call	key_wrap__padded__mask_below
	local.get	0
	i32.const	-3
	i32.add 
	i32.load8_u	0
	i32.and 
	i32.or  
	i32.const	3
	local.get	3
	call	key_wrap__padded__mask_below
	local.get	0
	i32.const	-4
	i32.add 
	i32.load8_u	0
	i32.and 
	i32.or  
	i32.const	4
	local.get	3
	call	key_wrap__padded__mask_below
	local.get	0
	i32.const	-5
	i32.add 
	i32.load8_u	0
	i32.and 
	i32.or  
	i32.const	5
	local.get	3
	call	key_wrap__padded__mask_below
	local.get	0
	i32.const	-6
	i32.add 
	i32.load8_u	0
	i32.and 
	i32.or  
	i32.const	6
	local.get	3
	call	key_wrap__padded__mask_below
	local.get	0
	i32.const	-7
	i32.add 
	i32.load8_u	0
	i32.and 
	i32.or  
	i32.const	7
	local.get	3
	call	key_wrap__padded__mask_below
	local.get	0
	i32.const	-8
	i32.add 
	i32.load8_u	0
	i32.and 
	i32.or  
	i64.extend_i32_u
	i64.const	255
	i64.and 
	i64.or  
                                        # fallthrough-return
	end_function
                                        # -- End function
	.section	.text.key_wrap__padded__mask_below,"",@
	.type	key_wrap__padded__mask_below,@function # -- Begin function key_wrap__padded__mask_below
key_wrap__padded__mask_below:           # @key_wrap__padded__mask_below
	.functype	key_wrap__padded__mask_below (i32, i32) -> (i32)
# %bb.0:                                # %start
	local.get	0
	local.get	1
	i32.sub 
	i32.const	24
	i32.shr_u
                                        # fallthrough-return
	end_function
                                        # -- End function
	.section	.text.aes_c__single_rounds__inverse_mixed,"",@
	.type	aes_c__single_rounds__inverse_mixed,@function # -- Begin function aes_c__single_rounds__inverse_mixed
aes_c__single_rounds__inverse_mixed:    # @aes_c__single_rounds__inverse_mixed
	.functype	aes_c__single_rounds__inverse_mixed (i32) -> ()
	.local  	i32, i32, i32, i32, i32, i32, i32, i32, i32, i32, i32, i32, i32, i32, i32, i32, i32
# %bb.0:                                # %start
	global.get	__stack_pointer
	i32.const	96
	i32.sub 
	local.tee	1
	global.set	__stack_pointer
	local.get	1
	local.get	0
	call	aes_planes__soft__word__word32__U32Word__in_every_slot
	local.get	1
	i32.const	32
	i32.add 
	local.get	1
	i32.const	1
	i32.const	0
	call	aes_planes__soft__word__word32__U32Word__rotate_planes
	local.get	1
	local.get	1
	i32.load	20
	local.tee	2
	local.get	1
	i32.load	52
	i32.xor 
	local.tee	3
	local.get	1
	i32.load	24
	local.tee	4
	i32.xor 
	local.tee	5
	local.get	1
	i32.load	0
	local.tee	6
	local.get	1
	i32.load	32
	i32.xor 
	local.tee	7
	i32.xor 
	i32.store	32
	local.get	1
	local.get	4
	local.get	1
	i32.load	56
	i32.xor 
	local.tee	8
	local.get	1
	i32.load	28
	local.tee	4
	i32.xor 
	local.tee	9
	local.get	5
	i32.xor 
	local.tee	10
	local.get	1
	i32.load	4
	local.tee	11
	local.get	1
	i32.load	36
	i32.xor 
	local.tee	12
	i32.xor 
	i32.store	36
	local.get	1
	local.get	5
	local.get	1
	i32.load	12
	local.tee	13
	local.get	1
	i32.load	44
	i32.xor 
	local.tee	14
	i32.xor 
	local.get	11
	local.get	7
	i32.xor 
	local.get	4
	local.get	1
	i32.load	60
	i32.xor 
	local.tee	4
	i32.xor 
	local.tee	7
	i32.xor 
	i32.store	44
	local.get	1
	local.get	9
	local.get	1
	i32.load	8
	local.tee	11
	local.get	1
	i32.load	40
	i32.xor 
	local.tee	15
	i32.xor 
	local.get	4
	local.get	6
	i32.xor 
	local.tee	16
	i32.xor 
	i32.store	40
	local.get	1
	i32.load	16
	local.set	6
	local.get	1
	i32.load	48
	local.set	17
	local.get	1
	local.get	9
	local.get	3
	i32.xor 
	local.get	13
	local.get	15
	i32.xor 
	local.get	4
	i32.xor 
	local.tee	3
	i32.xor 
	i32.store	52
	local.get	1
	local.get	10
	local.get	12
	local.get	11
	i32.xor 
	local.tee	11
	i32.xor 
	local.get	6
	local.get	17
	i32.xor 
	local.tee	10
	i32.xor 
	i32.store	48
	local.get	1
	local.get	4
	local.get	10
	local.get	2
	i32.xor 
	local.tee	2
	i32.xor 
	i32.store	60
	local.get	1
	local.get	6
	local.get	14
	i32.xor 
	local.get	4
	i32.xor 
	local.tee	4
	local.get	8
	i32.xor 
	i32.store	56
	local.get	1
	local.get	1
	i64.load	48:p2align=2
	i64.store	80
	local.get	1
	local.get	1
	i64.load	40:p2align=2
	i64.store	72
	local.get	1
	local.get	1
	i64.load	32:p2align=2
	i64.store	64
	local.get	1
	local.get	1
	i64.load	56:p2align=2
	i64.store	88
	local.get	1
	i32.load	88
	local.set	6
	local.get	1
	i32.load	92
	local.set	8
	local.get	1
	i32.load	80
	local.set	10
	local.get	1
	i32.load	84
	local.set	12
	local.get	1
	i32.load	72
	local.set	13
	local.get	1
	i32.load	76
	local.set	14
	local.get	1
	i32.load	64
	local.set	15
	local.get	1
	i32.load	68
	local.set	17
	local.get	1
	i32.const	32
	i32.add 
	local.get	1
	i32.const	64
	i32.add 
	i32.const	2
	i32.const	0
	call	aes_planes__soft__word__word32__U32Word__rotate_planes
	local.get	1
	local.get	17
	local.get	1
	i32.load	36
	i32.xor 
	local.get	7
	i32.xor 
	i32.store	36
	local.get	1
	local.get	15
	local.get	1
	i32.load	32
	i32.xor 
	local.get	16
	i32.xor 
	i32.store	32
	local.get	1
	local.get	14
	local.get	1
	i32.load	44
	i32.xor 
	local.get	3
	i32.xor 
	i32.store	44
	local.get	1
	local.get	13
	local.get	1
	i32.load	40
	i32.xor 
	local.get	11
	i32.xor 
	i32.store	40
	local.get	1
	local.get	12
	local.get	1
	i32.load	52
	i32.xor 
	local.get	2
	i32.xor 
	i32.store	52
	local.get	1
	local.get	10
	local.get	1
	i32.load	48
	i32.xor 
	local.get	4
	i32.xor 
	i32.store	48
	local.get	1
	local.get	8
	local.get	1
	i32.load	60
	i32.xor 
	local.get	9
	i32.xor 
	i32.store	60
	local.get	1
	local.get	6
	local.get	1
	i32.load	56
	i32.xor 
	local.get	5
	i32.xor 
	i32.store	56
	local.get	1
	local.get	1
	i64.load	32:p2align=2
	i64.store	0
	local.get	1
	local.get	1
	i64.load	40:p2align=2
	i64.store	8
	local.get	1
	local.get	1
	i64.load	48:p2align=2
	i64.store	16
	local.get	1
	local.get	1
	i64.load	56:p2align=2
	i64.store	24
	local.get	0
	local.get	1
	i32.load	28
	i32.const	1
	i32.shl 
	i32.const	-1431655766
	i32.and 
	local.get	1
	i32.load	24
	i32.const	1431655765
	i32.and 
	i32.or  
	local.tee	4
	local.get	1
	i32.load	20
	i32.const	1
	i32.shl 
	i32.const	-1431655766
	i32.and 
	local.get	1
	i32.load	16
	i32.const	1431655765
	i32.and 
	i32.or  
	local.tee	5
	i32.const	2
	i32.shr_u
	i32.xor 
	i32.const	858993459
	i32.and 
	local.tee	9
	local.get	4
	i32.xor 
	local.tee	4
	local.get	1
	i32.load	12
	i32.const	1
	i32.shl 
	i32.const	-1431655766
	i32.and 
	local.get	1
	i32.load	8
	i32.const	1431655765
	i32.and 
	i32.or  
	local.tee	6
	local.get	1
	i32.load	4
	i32.const	1
	i32.shl 
	i32.const	-1431655766
	i32.and 
	local.get	1
	i32.load	0
	i32.const	1431655765
	i32.and 
	i32.or  
	local.tee	2
	i32.const	2
	i32.shr_u
	i32.xor 
	i32.const	858993459
	i32.and 
	local.tee	3
	local.get	6
	i32.xor 
	local.tee	6
	i32.const	4
	i32.shr_u
	i32.xor 
	i32.const	252645135
	i32.and 
	local.tee	7
	local.get	4
	i32.xor 
	i32.store	12:p2align=0
	local.get	0
	local.get	9
	i32.const	2
	i32.shl 
	local.get	5
	i32.xor 
	local.tee	4
	local.get	3
	i32.const	2
	i32.shl 
	local.get	2
	i32.xor 
	local.tee	5
	i32.const	4
	i32.shr_u
	i32.xor 
	i32.const	252645135
	i32.and 
	local.tee	9
	local.get	4
	i32.xor 
	i32.store	8:p2align=0
	local.get	0
	local.get	7
	i32.const	4
	i32.shl 
	local.get	6
	i32.xor 
	i32.store	4:p2align=0
	local.get	0
	local.get	9
	i32.const	4
	i32.shl 
	local.get	5
	i32.xor 
	i32.store	0:p2align=0
	local.get	1
	i32.const	96
	i32.add 
	global.set	__stack_pointer
                                        # fallthrough-return
	end_function
                                        # -- End function
	.section	.text.aes_c__single_rounds__inverse_round,"",@
	.type	aes_c__single_rounds__inverse_round,@function # -- Begin function aes_c__single_rounds__inverse_round
aes_c__single_rounds__inverse_round:    # @aes_c__single_rounds__inverse_round
	.functype	aes_c__single_rounds__inverse_round (i32, i32) -> ()
	.local  	i32, i32, i32, i32, i32, i32, i32, i32, i32, i32, i32, i32, i32, i32, i32, i32, i32, i32, i32, i32, i32, i32, i32, i32, i32, i32, i32, i32, i32, i32, i32, i32, i32
# %bb.0:                                # %start
	global.get	__stack_pointer
	i32.const	96
	i32.sub 
	local.tee	2
	global.set	__stack_pointer
	local.get	2
	local.get	0
	call	aes_planes__soft__word__word32__U32Word__in_every_slot
	local.get	2
	local.get	2
	i32.load	28
	local.tee	3
	local.get	2
	i32.load	16
	local.tee	4
	i32.xor 
	local.tee	5
	local.get	2
	i32.load	24
	local.tee	6
	i32.and 
	local.get	2
	i32.load	8
	local.tee	7
	local.get	2
	i32.load	4
	local.tee	8
	i32.xor 
	local.tee	9
	i32.const	-1
	i32.xor 
	local.tee	10
	i32.xor 
	local.get	3
	local.get	6
	i32.const	-1
	i32.xor 
	local.tee	11
	i32.xor 
	local.tee	12
	local.get	2
	i32.load	12
	local.tee	13
	local.get	2
	i32.load	0
	local.tee	14
	i32.const	-1
	i32.xor 
	local.tee	15
	i32.xor 
	local.tee	16
	i32.xor 
	local.tee	17
	i32.xor 
	local.get	12
	local.get	8
	local.get	14
	i32.xor 
	local.tee	18
	i32.xor 
	local.tee	19
	local.get	4
	local.get	11
	i32.xor 
	local.tee	14
	local.get	7
	local.get	2
	i32.load	20
	i32.const	-1
	i32.xor 
	local.tee	20
	i32.xor 
	local.tee	21
	i32.xor 
	local.tee	22
	i32.and 
	local.tee	23
	i32.xor 
	local.get	17
	local.get	9
	i32.xor 
	local.get	4
	local.get	13
	i32.xor 
	local.tee	4
	i32.and 
	local.tee	24
	local.get	5
	local.get	11
	i32.xor 
	local.tee	25
	local.get	13
	i32.xor 
	local.tee	26
	local.get	4
	local.get	10
	i32.xor 
	local.tee	27
	i32.and 
	i32.xor 
	local.tee	28
	i32.xor 
	local.tee	11
	local.get	13
	local.get	20
	i32.xor 
	local.get	6
	local.get	8
	i32.xor 
	local.tee	8
	i32.xor 
	local.tee	7
	local.get	4
	local.get	18
	i32.xor 
	local.tee	9
	i32.or  
	local.get	14
	local.get	4
	local.get	15
	i32.xor 
	local.tee	15
	i32.and 
	i32.xor 
	local.get	28
	i32.xor 
	local.tee	6
	i32.and 
	local.tee	13
	local.get	14
	local.get	18
	i32.xor 
	local.tee	18
	local.get	3
	local.get	21
	i32.xor 
	local.tee	21
	i32.and 
	local.get	16
	i32.xor 
	local.get	23
	i32.xor 
	local.get	24
	local.get	17
	local.get	12
	i32.and 
	i32.xor 
	local.tee	23
	i32.xor 
	local.tee	3
	local.get	6
	i32.and 
	local.get	7
	local.get	9
	i32.and 
	local.get	18
	local.get	20
	i32.xor 
	local.tee	24
	local.get	8
	local.get	16
	i32.xor 
	local.tee	28
	i32.and 
	i32.xor 
	local.get	20
	i32.xor 
	local.get	4
	i32.xor 
	local.get	23
	i32.xor 
	local.tee	20
	local.get	6
	i32.xor 
	local.tee	8
	i32.and 
	i32.xor 
	local.get	8
	i32.xor 
	local.tee	6
	local.get	13
	local.get	3
	i32.xor 
	local.get	8
	i32.and 
	local.get	20
	i32.xor 
	local.tee	8
	i32.xor 
	local.tee	23
	local.get	22
	i32.and 
	local.tee	22
	local.get	13
	local.get	20
	i32.xor 
	local.get	11
	local.get	3
	i32.xor 
	local.tee	16
	i32.and 
	local.get	3
	i32.xor 
	local.tee	3
	local.get	24
	i32.and 
	local.tee	24
	i32.xor 
	local.tee	29
	local.get	6
	local.get	25
	i32.and 
	local.get	13
	local.get	20
	local.get	11
	i32.and 
	local.get	16
	i32.and 
	i32.xor 
	local.get	16
	i32.xor 
	local.tee	13
	local.get	15
	i32.and 
	local.tee	16
	i32.xor 
	local.tee	15
	i32.xor 
	local.get	13
	local.get	6
	i32.xor 
	local.tee	20
	local.get	3
	local.get	8
	i32.xor 
	local.tee	11
	i32.xor 
	local.tee	25
	local.get	26
	i32.and 
	local.tee	26
	local.get	20
	local.get	17
	i32.and 
	local.tee	30
	i32.xor 
	local.tee	31
	local.get	11
	local.get	17
	local.get	10
	i32.xor 
	i32.and 
	local.tee	10
	local.get	13
	local.get	14
	i32.and 
	local.tee	32
	i32.xor 
	local.get	13
	local.get	3
	i32.xor 
	local.tee	33
	local.get	9
	i32.and 
	local.tee	9
	i32.xor 
	local.tee	14
	i32.xor 
	local.tee	17
	i32.xor 
	local.tee	13
	i32.const	4
	i32.shr_u
	local.get	13
	i32.xor 
	i32.const	51317760
	i32.and 
	i32.const	17
	i32.mul 
	local.get	13
	i32.xor 
	local.tee	13
	i32.const	2
	i32.shr_u
	local.get	13
	i32.xor 
	i32.const	855651072
	i32.and 
	i32.const	5
	i32.mul 
	local.get	13
	i32.xor 
	local.tee	13
	i32.store	8
	local.get	2
	local.get	29
	local.get	20
	local.get	12
	i32.and 
	local.tee	34
	i32.xor 
	local.get	6
	local.get	5
	i32.and 
	local.get	8
	local.get	21
	i32.and 
	local.tee	20
	i32.xor 
	local.tee	5
	local.get	8
	local.get	18
	i32.and 
	local.tee	18
	i32.xor 
	local.tee	21
	i32.xor 
	local.get	25
	local.get	27
	i32.and 
	local.get	16
	i32.xor 
	local.get	14
	i32.xor 
	local.tee	6
	i32.xor 
	local.tee	12
	i32.const	4
	i32.shr_u
	local.get	12
	i32.xor 
	i32.const	51317760
	i32.and 
	i32.const	17
	i32.mul 
	local.get	12
	i32.xor 
	local.tee	12
	i32.const	2
	i32.shr_u
	local.get	12
	i32.xor 
	i32.const	855651072
	i32.and 
	i32.const	5
	i32.mul 
	local.get	12
	i32.xor 
	local.tee	14
	i32.store	12
	local.get	2
	local.get	22
	local.get	20
	i32.xor 
	local.get	17
	i32.xor 
	local.tee	12
	i32.const	4
	i32.shr_u
	local.get	12
	i32.xor 
	i32.const	51317760
	i32.and 
	i32.const	17
	i32.mul 
	local.get	12
	i32.xor 
	local.tee	12
	i32.const	2
	i32.shr_u
	local.get	12
	i32.xor 
	i32.const	855651072
	i32.and 
	i32.const	5
	i32.mul 
	local.get	12
	i32.xor 
	local.tee	20
	i32.store	16
	local.get	2
	local.get	26
	local.get	33
	local.get	7
	i32.and 
	local.tee	12
	i32.xor 
	local.get	6
	i32.xor 
	local.tee	6
	i32.const	4
	i32.shr_u
	local.get	6
	i32.xor 
	i32.const	51317760
	i32.and 
	i32.const	17
	i32.mul 
	local.get	6
	i32.xor 
	local.tee	6
	i32.const	2
	i32.shr_u
	local.get	6
	i32.xor 
	i32.const	855651072
	i32.and 
	i32.const	5
	i32.mul 
	local.get	6
	i32.xor 
	local.tee	6
	i32.store	4
	local.get	2
	local.get	12
	local.get	24
	i32.xor 
	local.get	17
	i32.xor 
	local.tee	17
	i32.const	4
	i32.shr_u
	local.get	17
	i32.xor 
	i32.const	51317760
	i32.and 
	i32.const	17
	i32.mul 
	local.get	17
	i32.xor 
	local.tee	17
	i32.const	2
	i32.shr_u
	local.get	17
	i32.xor 
	i32.const	855651072
	i32.and 
	i32.const	5
	i32.mul 
	local.get	17
	i32.xor 
	local.tee	8
	i32.store	28
	local.get	2
	local.get	5
	local.get	32
	i32.xor 
	local.get	30
	i32.xor 
	local.get	23
	local.get	19
	i32.and 
	local.get	34
	i32.xor 
	local.tee	5
	i32.xor 
	local.get	10
	local.get	3
	local.get	28
	i32.and 
	i32.xor 
	local.get	12
	i32.xor 
	local.get	15
	i32.xor 
	local.tee	3
	i32.xor 
	local.tee	17
	i32.const	4
	i32.shr_u
	local.get	17
	i32.xor 
	i32.const	51317760
	i32.and 
	i32.const	17
	i32.mul 
	local.get	17
	i32.xor 
	local.tee	17
	i32.const	2
	i32.shr_u
	local.get	17
	i32.xor 
	i32.const	855651072
	i32.and 
	i32.const	5
	i32.mul 
	local.get	17
	i32.xor 
	local.tee	12
	i32.store	24
	local.get	2
	local.get	21
	local.get	9
	i32.xor 
	local.get	31
	i32.xor 
	local.get	3
	i32.xor 
	local.tee	17
	i32.const	4
	i32.shr_u
	local.get	17
	i32.xor 
	i32.const	51317760
	i32.and 
	i32.const	17
	i32.mul 
	local.get	17
	i32.xor 
	local.tee	17
	i32.const	2
	i32.shr_u
	local.get	17
	i32.xor 
	i32.const	855651072
	i32.and 
	i32.const	5
	i32.mul 
	local.get	17
	i32.xor 
	local.tee	3
	i32.store	20
	local.get	2
	local.get	11
	local.get	4
	i32.and 
	local.get	18
	i32.xor 
	local.get	5
	i32.xor 
	local.tee	4
	i32.const	4
	i32.shr_u
	local.get	4
	i32.xor 
	i32.const	51317760
	i32.and 
	i32.const	17
	i32.mul 
	local.get	4
	i32.xor 
	local.tee	4
	i32.const	2
	i32.shr_u
	local.get	4
	i32.xor 
	i32.const	855651072
	i32.and 
	i32.const	5
	i32.mul 
	local.get	4
	i32.xor 
	local.tee	5
	i32.store	0
	local.get	2
	i32.const	32
	i32.add 
	local.get	2
	i32.const	1
	i32.const	0
	call	aes_planes__soft__word__word32__U32Word__rotate_planes
	local.get	2
	local.get	3
	local.get	2
	i32.load	52
	i32.xor 
	local.tee	10
	local.get	12
	i32.xor 
	local.tee	17
	local.get	5
	local.get	2
	i32.load	32
	i32.xor 
	local.tee	11
	i32.xor 
	i32.store	32
	local.get	2
	local.get	12
	local.get	2
	i32.load	56
	i32.xor 
	local.tee	16
	local.get	8
	i32.xor 
	local.tee	12
	local.get	17
	i32.xor 
	local.tee	18
	local.get	6
	local.get	2
	i32.load	36
	i32.xor 
	local.tee	7
	i32.xor 
	i32.store	36
	local.get	2
	local.get	3
	local.get	20
	local.get	2
	i32.load	48
	i32.xor 
	local.tee	9
	i32.xor 
	local.tee	3
	local.get	8
	local.get	2
	i32.load	60
	i32.xor 
	local.tee	4
	i32.xor 
	i32.store	60
	local.get	2
	local.get	16
	local.get	14
	local.get	2
	i32.load	44
	i32.xor 
	local.tee	8
	local.get	20
	i32.xor 
	local.get	4
	i32.xor 
	local.tee	20
	i32.xor 
	i32.store	56
	local.get	2
	local.get	13
	local.get	2
	i32.load	40
	i32.xor 
	local.tee	16
	local.get	4
	local.get	5
	i32.xor 
	local.tee	5
	i32.xor 
	local.get	12
	i32.xor 
	i32.store	40
	local.get	2
	local.get	6
	local.get	11
	i32.xor 
	local.get	4
	i32.xor 
	local.tee	6
	local.get	8
	i32.xor 
	local.get	17
	i32.xor 
	i32.store	44
	local.get	2
	local.get	4
	local.get	14
	i32.xor 
	local.get	16
	i32.xor 
	local.tee	4
	local.get	10
	i32.xor 
	local.get	12
	i32.xor 
	i32.store	52
	local.get	2
	local.get	18
	local.get	9
	i32.xor 
	local.get	7
	local.get	13
	i32.xor 
	local.tee	13
	i32.xor 
	i32.store	48
	local.get	2
	local.get	2
	i64.load	32:p2align=2
	i64.store	64
	local.get	2
	local.get	2
	i64.load	56:p2align=2
	i64.store	88
	local.get	2
	local.get	2
	i64.load	40:p2align=2
	i64.store	72
	local.get	2
	local.get	2
	i64.load	48:p2align=2
	i64.store	80
	local.get	2
	i32.load	88
	local.set	14
	local.get	2
	i32.load	92
	local.set	8
	local.get	2
	i32.load	80
	local.set	10
	local.get	2
	i32.load	84
	local.set	11
	local.get	2
	i32.load	72
	local.set	16
	local.get	2
	i32.load	76
	local.set	18
	local.get	2
	i32.load	64
	local.set	7
	local.get	2
	i32.load	68
	local.set	9
	local.get	2
	i32.const	32
	i32.add 
	local.get	2
	i32.const	64
	i32.add 
	i32.const	2
	i32.const	0
	call	aes_planes__soft__word__word32__U32Word__rotate_planes
	local.get	2
	local.get	9
	local.get	2
	i32.load	36
	i32.xor 
	local.get	6
	i32.xor 
	i32.store	36
	local.get	2
	local.get	7
	local.get	2
	i32.load	32
	i32.xor 
	local.get	5
	i32.xor 
	i32.store	32
	local.get	2
	local.get	18
	local.get	2
	i32.load	44
	i32.xor 
	local.get	4
	i32.xor 
	i32.store	44
	local.get	2
	local.get	16
	local.get	2
	i32.load	40
	i32.xor 
	local.get	13
	i32.xor 
	i32.store	40
	local.get	2
	local.get	11
	local.get	2
	i32.load	52
	i32.xor 
	local.get	3
	i32.xor 
	i32.store	52
	local.get	2
	local.get	10
	local.get	2
	i32.load	48
	i32.xor 
	local.get	20
	i32.xor 
	i32.store	48
	local.get	2
	local.get	8
	local.get	2
	i32.load	60
	i32.xor 
	local.get	12
	i32.xor 
	i32.store	60
	local.get	2
	local.get	14
	local.get	2
	i32.load	56
	i32.xor 
	local.get	17
	i32.xor 
	i32.store	56
	local.get	2
	local.get	2
	i64.load	32:p2align=2
	i64.store	0
	local.get	2
	local.get	2
	i64.load	40:p2align=2
	i64.store	8
	local.get	2
	local.get	2
	i64.load	48:p2align=2
	i64.store	16
	local.get	2
	local.get	2
	i64.load	56:p2align=2
	i64.store	24
	local.get	1
	i32.load8_u	1
	local.set	17
	local.get	1
	i32.load8_u	2
	local.set	12
	local.get	1
	i32.load8_u	3
	local.set	13
	local.get	1
	i32.load8_u	0
	local.set	14
	local.get	1
	i32.load8_u	5
	local.set	20
	local.get	1
	i32.load8_u	6
	local.set	3
	local.get	1
	i32.load8_u	7
	local.set	6
	local.get	1
	i32.load8_u	9
	local.set	8
	local.get	1
	i32.load8_u	10
	local.set	5
	local.get	1
	i32.load8_u	11
	local.set	10
	local.get	1
	i32.load8_u	4
	local.set	11
	local.get	1
	i32.load8_u	8
	local.set	16
	local.get	1
	i32.load8_u	13
	local.set	18
	local.get	1
	i32.load8_u	14
	local.set	7
	local.get	1
	i32.load8_u	15
	local.set	9
	local.get	0
	local.get	2
	i32.load	28
	i32.const	1
	i32.shl 
	i32.const	-1431655766
	i32.and 
	local.get	2
	i32.load	24
	i32.const	1431655765
	i32.and 
	i32.or  
	local.tee	4
	local.get	2
	i32.load	20
	i32.const	1
	i32.shl 
	i32.const	-1431655766
	i32.and 
	local.get	2
	i32.load	16
	i32.const	1431655765
	i32.and 
	i32.or  
	local.tee	15
	i32.const	2
	i32.shr_u
	i32.xor 
	i32.const	858993459
	i32.and 
	local.tee	19
	local.get	4
	i32.xor 
	local.tee	4
	local.get	2
	i32.load	12
	i32.const	1
	i32.shl 
	i32.const	-1431655766
	i32.and 
	local.get	2
	i32.load	8
	i32.const	1431655765
	i32.and 
	i32.or  
	local.tee	21
	local.get	2
	i32.load	4
	i32.const	1
	i32.shl 
	i32.const	-1431655766
	i32.and 
	local.get	2
	i32.load	0
	i32.const	1431655765
	i32.and 
	i32.or  
	local.tee	22
	i32.const	2
	i32.shr_u
	i32.xor 
	i32.const	858993459
	i32.and 
	local.tee	23
	local.get	21
	i32.xor 
	local.tee	21
	i32.const	4
	i32.shr_u
	i32.xor 
	i32.const	252645135
	i32.and 
	local.tee	24
	local.get	4
	i32.xor 
	local.tee	4
	local.get	1
	i32.load8_u	12
	i32.xor 
	i32.store8	12
	local.get	0
	local.get	9
	local.get	4
	i32.const	24
	i32.shr_u
	i32.xor 
	i32.store8	15
	local.get	0
	local.get	7
	local.get	4
	i32.const	16
	i32.shr_u
	i32.xor 
	i32.store8	14
	local.get	0
	local.get	18
	local.get	4
	i32.const	8
	i32.shr_u
	i32.xor 
	i32.store8	13
	local.get	0
	local.get	16
	local.get	19
	i32.const	2
	i32.shl 
	local.get	15
	i32.xor 
	local.tee	1
	local.get	23
	i32.const	2
	i32.shl 
	local.get	22
	i32.xor 
	local.tee	18
	i32.const	4
	i32.shr_u
	i32.xor 
	i32.const	252645135
	i32.and 
	local.tee	7
	local.get	1
	i32.xor 
	local.tee	1
	i32.xor 
	i32.store8	8
	local.get	0
	local.get	11
	local.get	24
	i32.const	4
	i32.shl 
	local.get	21
	i32.xor 
	local.tee	4
	i32.xor 
	i32.store8	4
	local.get	0
	local.get	10
	local.get	1
	i32.const	24
	i32.shr_u
	i32.xor 
	i32.store8	11
	local.get	0
	local.get	5
	local.get	1
	i32.const	16
	i32.shr_u
	i32.xor 
	i32.store8	10
	local.get	0
	local.get	8
	local.get	1
	i32.const	8
	i32.shr_u
	i32.xor 
	i32.store8	9
	local.get	0
	local.get	6
	local.get	4
	i32.const	24
	i32.shr_u
	i32.xor 
	i32.store8	7
	local.get	0
	local.get	3
	local.get	4
	i32.const	16
	i32.shr_u
	i32.xor 
	i32.store8	6
	local.get	0
	local.get	20
	local.get	4
	i32.const	8
	i32.shr_u
	i32.xor 
	i32.store8	5
	local.get	0
	local.get	14
	local.get	7
	i32.const	4
	i32.shl 
	local.get	18
	i32.xor 
	local.tee	1
	i32.xor 
	i32.store8	0
	local.get	0
	local.get	13
	local.get	1
	i32.const	24
	i32.shr_u
	i32.xor 
	i32.store8	3
	local.get	0
	local.get	12
	local.get	1
	i32.const	16
	i32.shr_u
	i32.xor 
	i32.store8	2
	local.get	0
	local.get	17
	local.get	1
	i32.const	8
	i32.shr_u
	i32.xor 
	i32.store8	1
	local.get	2
	i32.const	96
	i32.add 
	global.set	__stack_pointer
                                        # fallthrough-return
	end_function
                                        # -- End function
	.section	.text.aes_c__single_rounds__inverse_rounds,"",@
	.type	aes_c__single_rounds__inverse_rounds,@function # -- Begin function aes_c__single_rounds__inverse_rounds
aes_c__single_rounds__inverse_rounds:   # @aes_c__single_rounds__inverse_rounds
	.functype	aes_c__single_rounds__inverse_rounds (i32, i32) -> ()
	.local  	i32, i64, i32, i32, i32, i32, i32, i32, i32, i32, i32, i32, i32, i32, i32, i32, i32, i32, i32, i32, i32, i32, i32, i32, i32, i32, i32, i32, i32, i32, i32, i32, i32, i32, i32, i32, i32, i32, i32, i32, i32, i32, i32, i32, i32, i32, i32, i32, i32, i32
# %bb.0:                                # %start
	global.get	__stack_pointer
	i32.const	96
	i32.sub 
	local.tee	2
	global.set	__stack_pointer
	i64.const	-2
	local.set	3
	local.get	0
	local.set	4
.LBB41_1:                               # %join.5.i.i
                                        # =>This Inner Loop Header: Depth=1
	loop    	                                # label144:
	local.get	2
	local.get	4
	i32.const	28
	i32.add 
	local.tee	5
	i32.load	0:p2align=0
	local.tee	6
	local.get	4
	i32.const	12
	i32.add 
	local.tee	7
	i32.load	0:p2align=0
	local.tee	8
	i32.const	1
	i32.shr_u
	i32.xor 
	i32.const	1431655765
	i32.and 
	local.tee	9
	i32.const	1
	i32.shl 
	local.get	8
	i32.xor 
	local.tee	10
	local.get	4
	i32.const	24
	i32.add 
	local.tee	11
	i32.load	0:p2align=0
	local.tee	12
	local.get	4
	i32.const	8
	i32.add 
	local.tee	13
	i32.load	0:p2align=0
	local.tee	8
	i32.const	1
	i32.shr_u
	i32.xor 
	i32.const	1431655765
	i32.and 
	local.tee	14
	i32.const	1
	i32.shl 
	local.get	8
	i32.xor 
	local.tee	8
	i32.const	2
	i32.shr_u
	i32.xor 
	i32.const	858993459
	i32.and 
	local.tee	15
	i32.const	2
	i32.shl 
	local.get	8
	i32.xor 
	local.tee	8
	local.get	4
	i32.const	20
	i32.add 
	local.tee	16
	i32.load	0:p2align=0
	local.tee	17
	local.get	4
	i32.const	4
	i32.add 
	local.tee	18
	i32.load	0:p2align=0
	local.tee	19
	i32.const	1
	i32.shr_u
	i32.xor 
	i32.const	1431655765
	i32.and 
	local.tee	20
	i32.const	1
	i32.shl 
	local.get	19
	i32.xor 
	local.tee	19
	local.get	4
	i32.const	16
	i32.add 
	local.tee	21
	i32.load	0:p2align=0
	local.tee	22
	local.get	4
	i32.load	0:p2align=0
	local.tee	23
	i32.const	1
	i32.shr_u
	i32.xor 
	i32.const	1431655765
	i32.and 
	local.tee	24
	i32.const	1
	i32.shl 
	local.get	23
	i32.xor 
	local.tee	23
	i32.const	2
	i32.shr_u
	i32.xor 
	i32.const	858993459
	i32.and 
	local.tee	25
	i32.const	2
	i32.shl 
	local.get	23
	i32.xor 
	local.tee	26
	i32.const	4
	i32.shr_u
	i32.xor 
	i32.const	252645135
	i32.and 
	local.tee	27
	local.get	8
	i32.xor 
	local.tee	8
	local.get	9
	local.get	6
	i32.xor 
	local.tee	6
	local.get	14
	local.get	12
	i32.xor 
	local.tee	9
	i32.const	2
	i32.shr_u
	i32.xor 
	i32.const	858993459
	i32.and 
	local.tee	12
	local.get	6
	i32.xor 
	local.tee	6
	local.get	20
	local.get	17
	i32.xor 
	local.tee	14
	local.get	24
	local.get	22
	i32.xor 
	local.tee	20
	i32.const	2
	i32.shr_u
	i32.xor 
	i32.const	858993459
	i32.and 
	local.tee	23
	local.get	14
	i32.xor 
	local.tee	14
	i32.const	4
	i32.shr_u
	i32.xor 
	i32.const	252645135
	i32.and 
	local.tee	24
	local.get	6
	i32.xor 
	local.tee	17
	i32.xor 
	local.tee	22
	local.get	15
	local.get	10
	i32.xor 
	local.tee	6
	local.get	25
	local.get	19
	i32.xor 
	local.tee	10
	i32.const	4
	i32.shr_u
	i32.xor 
	i32.const	252645135
	i32.and 
	local.tee	25
	local.get	6
	i32.xor 
	local.tee	15
	i32.and 
	local.get	12
	i32.const	2
	i32.shl 
	local.get	9
	i32.xor 
	local.tee	28
	local.get	23
	i32.const	2
	i32.shl 
	local.get	20
	i32.xor 
	local.tee	6
	i32.const	4
	i32.shr_u
	i32.xor 
	i32.const	252645135
	i32.and 
	local.tee	29
	i32.const	4
	i32.shl 
	local.get	6
	i32.xor 
	local.tee	19
	local.get	25
	i32.const	4
	i32.shl 
	local.get	10
	i32.xor 
	local.tee	30
	i32.xor 
	local.tee	31
	i32.const	-1
	i32.xor 
	local.tee	23
	i32.xor 
	local.get	24
	i32.const	4
	i32.shl 
	local.get	14
	i32.xor 
	local.tee	9
	local.get	27
	i32.const	4
	i32.shl 
	local.get	26
	i32.xor 
	local.tee	12
	i32.const	-1
	i32.xor 
	local.tee	32
	i32.xor 
	local.tee	20
	local.get	17
	local.get	15
	i32.const	-1
	i32.xor 
	local.tee	24
	i32.xor 
	local.tee	10
	i32.xor 
	local.tee	6
	i32.xor 
	local.get	12
	local.get	19
	i32.xor 
	local.tee	25
	local.get	10
	i32.xor 
	local.tee	33
	local.get	8
	local.get	24
	i32.xor 
	local.tee	12
	local.get	30
	local.get	28
	local.get	29
	i32.xor 
	i32.const	-1
	i32.xor 
	local.tee	14
	i32.xor 
	local.tee	28
	i32.xor 
	local.tee	29
	i32.and 
	local.tee	30
	i32.xor 
	local.get	6
	local.get	31
	i32.xor 
	local.get	8
	local.get	9
	i32.xor 
	local.tee	8
	i32.and 
	local.tee	31
	local.get	22
	local.get	24
	i32.xor 
	local.tee	34
	local.get	9
	i32.xor 
	local.tee	35
	local.get	8
	local.get	23
	i32.xor 
	local.tee	36
	i32.and 
	i32.xor 
	local.tee	37
	i32.xor 
	local.tee	24
	local.get	25
	local.get	8
	i32.xor 
	local.tee	26
	local.get	9
	local.get	14
	i32.xor 
	local.get	19
	local.get	15
	i32.xor 
	local.tee	19
	i32.xor 
	local.tee	27
	i32.or  
	local.get	8
	local.get	32
	i32.xor 
	local.tee	32
	local.get	12
	i32.and 
	i32.xor 
	local.get	37
	i32.xor 
	local.tee	15
	i32.and 
	local.tee	9
	local.get	25
	local.get	12
	i32.xor 
	local.tee	25
	local.get	28
	local.get	17
	i32.xor 
	local.tee	28
	i32.and 
	local.get	20
	i32.xor 
	local.get	30
	i32.xor 
	local.get	31
	local.get	6
	local.get	10
	i32.and 
	i32.xor 
	local.tee	30
	i32.xor 
	local.tee	17
	local.get	15
	i32.and 
	local.get	26
	local.get	27
	i32.and 
	local.get	25
	local.get	14
	i32.xor 
	local.tee	31
	local.get	20
	local.get	19
	i32.xor 
	local.tee	37
	i32.and 
	i32.xor 
	local.get	14
	i32.xor 
	local.get	8
	i32.xor 
	local.get	30
	i32.xor 
	local.tee	14
	local.get	15
	i32.xor 
	local.tee	19
	i32.and 
	i32.xor 
	local.get	19
	i32.xor 
	local.tee	15
	local.get	19
	local.get	9
	local.get	17
	i32.xor 
	i32.and 
	local.get	14
	i32.xor 
	local.tee	19
	i32.xor 
	local.tee	30
	local.get	29
	i32.and 
	local.tee	29
	local.get	19
	local.get	28
	i32.and 
	local.tee	38
	i32.xor 
	local.get	15
	local.get	9
	local.get	24
	local.get	17
	i32.xor 
	local.tee	28
	local.get	24
	i32.and 
	local.get	14
	i32.and 
	i32.xor 
	local.get	28
	i32.xor 
	local.tee	20
	i32.xor 
	local.tee	24
	local.get	14
	local.get	9
	i32.xor 
	local.get	28
	i32.and 
	local.get	17
	i32.xor 
	local.tee	9
	local.get	19
	i32.xor 
	local.tee	14
	i32.xor 
	local.tee	28
	local.get	35
	i32.and 
	local.tee	35
	local.get	24
	local.get	6
	i32.and 
	local.tee	39
	i32.xor 
	local.tee	40
	local.get	14
	local.get	6
	local.get	23
	i32.xor 
	i32.and 
	local.tee	23
	local.get	20
	local.get	12
	i32.and 
	local.tee	41
	i32.xor 
	local.get	20
	local.get	9
	i32.xor 
	local.tee	42
	local.get	26
	i32.and 
	local.tee	26
	i32.xor 
	local.tee	43
	i32.xor 
	local.tee	6
	i32.xor 
	local.tee	12
	i32.const	4
	i32.shr_u
	local.get	12
	i32.xor 
	i32.const	51317760
	i32.and 
	i32.const	17
	i32.mul 
	local.get	12
	i32.xor 
	local.tee	12
	i32.const	2
	i32.shr_u
	local.get	12
	i32.xor 
	i32.const	855651072
	i32.and 
	i32.const	5
	i32.mul 
	local.get	12
	i32.xor 
	local.tee	12
	i32.store	16
	local.get	2
	local.get	29
	local.get	9
	local.get	31
	i32.and 
	local.tee	31
	i32.xor 
	local.tee	29
	local.get	15
	local.get	34
	i32.and 
	local.get	20
	local.get	32
	i32.and 
	local.tee	20
	i32.xor 
	local.tee	32
	i32.xor 
	local.get	6
	i32.xor 
	local.tee	17
	i32.const	4
	i32.shr_u
	local.get	17
	i32.xor 
	i32.const	51317760
	i32.and 
	i32.const	17
	i32.mul 
	local.get	17
	i32.xor 
	local.tee	17
	i32.const	2
	i32.shr_u
	local.get	17
	i32.xor 
	i32.const	855651072
	i32.and 
	i32.const	5
	i32.mul 
	local.get	17
	i32.xor 
	local.tee	17
	i32.store	8
	local.get	2
	local.get	29
	local.get	24
	local.get	10
	i32.and 
	local.tee	24
	i32.xor 
	local.get	15
	local.get	22
	i32.and 
	local.get	38
	i32.xor 
	local.tee	22
	local.get	19
	local.get	25
	i32.and 
	local.tee	25
	i32.xor 
	local.tee	29
	i32.xor 
	local.get	28
	local.get	36
	i32.and 
	local.get	20
	i32.xor 
	local.get	43
	i32.xor 
	local.tee	19
	i32.xor 
	local.tee	10
	i32.const	4
	i32.shr_u
	local.get	10
	i32.xor 
	i32.const	51317760
	i32.and 
	i32.const	17
	i32.mul 
	local.get	10
	i32.xor 
	local.tee	10
	i32.const	2
	i32.shr_u
	local.get	10
	i32.xor 
	i32.const	855651072
	i32.and 
	i32.const	5
	i32.mul 
	local.get	10
	i32.xor 
	local.tee	15
	i32.store	12
	local.get	2
	local.get	35
	local.get	42
	local.get	27
	i32.and 
	local.tee	10
	i32.xor 
	local.get	19
	i32.xor 
	local.tee	19
	i32.const	4
	i32.shr_u
	local.get	19
	i32.xor 
	i32.const	51317760
	i32.and 
	i32.const	17
	i32.mul 
	local.get	19
	i32.xor 
	local.tee	19
	i32.const	2
	i32.shr_u
	local.get	19
	i32.xor 
	i32.const	855651072
	i32.and 
	i32.const	5
	i32.mul 
	local.get	19
	i32.xor 
	local.tee	19
	i32.store	4
	local.get	2
	local.get	10
	local.get	31
	i32.xor 
	local.get	6
	i32.xor 
	local.tee	6
	i32.const	4
	i32.shr_u
	local.get	6
	i32.xor 
	i32.const	51317760
	i32.and 
	i32.const	17
	i32.mul 
	local.get	6
	i32.xor 
	local.tee	6
	i32.const	2
	i32.shr_u
	local.get	6
	i32.xor 
	i32.const	855651072
	i32.and 
	i32.const	5
	i32.mul 
	local.get	6
	i32.xor 
	local.tee	20
	i32.store	28
	local.get	2
	local.get	22
	local.get	41
	i32.xor 
	local.get	39
	i32.xor 
	local.get	30
	local.get	33
	i32.and 
	local.get	24
	i32.xor 
	local.tee	24
	i32.xor 
	local.get	23
	local.get	9
	local.get	37
	i32.and 
	i32.xor 
	local.get	10
	i32.xor 
	local.get	32
	i32.xor 
	local.tee	9
	i32.xor 
	local.tee	6
	i32.const	4
	i32.shr_u
	local.get	6
	i32.xor 
	i32.const	51317760
	i32.and 
	i32.const	17
	i32.mul 
	local.get	6
	i32.xor 
	local.tee	6
	i32.const	2
	i32.shr_u
	local.get	6
	i32.xor 
	i32.const	855651072
	i32.and 
	i32.const	5
	i32.mul 
	local.get	6
	i32.xor 
	local.tee	10
	i32.store	24
	local.get	2
	local.get	29
	local.get	26
	i32.xor 
	local.get	40
	i32.xor 
	local.get	9
	i32.xor 
	local.tee	6
	i32.const	4
	i32.shr_u
	local.get	6
	i32.xor 
	i32.const	51317760
	i32.and 
	i32.const	17
	i32.mul 
	local.get	6
	i32.xor 
	local.tee	6
	i32.const	2
	i32.shr_u
	local.get	6
	i32.xor 
	i32.const	855651072
	i32.and 
	i32.const	5
	i32.mul 
	local.get	6
	i32.xor 
	local.tee	22
	i32.store	20
	local.get	2
	local.get	14
	local.get	8
	i32.and 
	local.get	25
	i32.xor 
	local.get	24
	i32.xor 
	local.tee	8
	i32.const	4
	i32.shr_u
	local.get	8
	i32.xor 
	i32.const	51317760
	i32.and 
	i32.const	17
	i32.mul 
	local.get	8
	i32.xor 
	local.tee	8
	i32.const	2
	i32.shr_u
	local.get	8
	i32.xor 
	i32.const	855651072
	i32.and 
	i32.const	5
	i32.mul 
	local.get	8
	i32.xor 
	local.tee	14
	i32.store	0
	i32.const	0
	local.set	6
	local.get	2
	i32.const	32
	i32.add 
	local.get	2
	i32.const	1
	i32.const	0
	call	aes_planes__soft__word__word32__U32Word__rotate_planes
	local.get	2
	local.get	22
	local.get	2
	i32.load	52
	i32.xor 
	local.tee	8
	local.get	10
	i32.xor 
	local.tee	9
	local.get	14
	local.get	2
	i32.load	32
	i32.xor 
	local.tee	23
	i32.xor 
	i32.store	32
	local.get	2
	local.get	10
	local.get	2
	i32.load	56
	i32.xor 
	local.tee	24
	local.get	20
	i32.xor 
	local.tee	10
	local.get	9
	i32.xor 
	local.tee	25
	local.get	19
	local.get	2
	i32.load	36
	i32.xor 
	local.tee	26
	i32.xor 
	i32.store	36
	local.get	2
	local.get	10
	local.get	8
	i32.xor 
	local.get	20
	local.get	2
	i32.load	60
	i32.xor 
	local.tee	8
	local.get	15
	i32.xor 
	local.get	17
	local.get	2
	i32.load	40
	i32.xor 
	local.tee	20
	i32.xor 
	local.tee	27
	i32.xor 
	i32.store	52
	local.get	2
	local.get	26
	local.get	17
	i32.xor 
	local.tee	17
	local.get	12
	local.get	2
	i32.load	48
	i32.xor 
	local.tee	26
	i32.xor 
	local.get	25
	i32.xor 
	i32.store	48
	local.get	2
	local.get	26
	local.get	22
	i32.xor 
	local.tee	22
	local.get	8
	i32.xor 
	i32.store	60
	local.get	2
	local.get	15
	local.get	2
	i32.load	44
	i32.xor 
	local.tee	15
	local.get	12
	i32.xor 
	local.get	8
	i32.xor 
	local.tee	12
	local.get	24
	i32.xor 
	i32.store	56
	local.get	2
	local.get	8
	local.get	14
	i32.xor 
	local.tee	14
	local.get	20
	i32.xor 
	local.get	10
	i32.xor 
	i32.store	40
	local.get	2
	local.get	19
	local.get	23
	i32.xor 
	local.get	8
	i32.xor 
	local.tee	8
	local.get	15
	i32.xor 
	local.get	9
	i32.xor 
	i32.store	44
	local.get	2
	local.get	2
	i64.load	32:p2align=2
	i64.store	64
	local.get	2
	local.get	2
	i64.load	48:p2align=2
	i64.store	80
	local.get	2
	local.get	2
	i64.load	56:p2align=2
	i64.store	88
	local.get	2
	local.get	2
	i64.load	40:p2align=2
	i64.store	72
	local.get	2
	i32.load	88
	local.set	15
	local.get	2
	i32.load	92
	local.set	19
	local.get	2
	i32.load	80
	local.set	20
	local.get	2
	i32.load	84
	local.set	23
	local.get	2
	i32.load	72
	local.set	24
	local.get	2
	i32.load	76
	local.set	25
	local.get	2
	i32.load	64
	local.set	26
	local.get	2
	i32.load	68
	local.set	28
	local.get	2
	i32.const	32
	i32.add 
	local.get	2
	i32.const	64
	i32.add 
	i32.const	2
	i32.const	0
	call	aes_planes__soft__word__word32__U32Word__rotate_planes
	local.get	2
	local.get	28
	local.get	2
	i32.load	36
	i32.xor 
	local.get	8
	i32.xor 
	i32.store	36
	local.get	2
	local.get	26
	local.get	2
	i32.load	32
	i32.xor 
	local.get	14
	i32.xor 
	i32.store	32
	local.get	2
	local.get	25
	local.get	2
	i32.load	44
	i32.xor 
	local.get	27
	i32.xor 
	i32.store	44
	local.get	2
	local.get	24
	local.get	2
	i32.load	40
	i32.xor 
	local.get	17
	i32.xor 
	i32.store	40
	local.get	2
	local.get	23
	local.get	2
	i32.load	52
	i32.xor 
	local.get	22
	i32.xor 
	i32.store	52
	local.get	2
	local.get	20
	local.get	2
	i32.load	48
	i32.xor 
	local.get	12
	i32.xor 
	i32.store	48
	local.get	2
	local.get	19
	local.get	2
	i32.load	60
	i32.xor 
	local.get	10
	i32.xor 
	i32.store	60
	local.get	2
	local.get	15
	local.get	2
	i32.load	56
	i32.xor 
	local.get	9
	i32.xor 
	i32.store	56
	local.get	2
	local.get	2
	i64.load	32:p2align=2
	i64.store	0
	local.get	2
	local.get	2
	i64.load	40:p2align=2
	i64.store	8
	local.get	2
	local.get	2
	i64.load	48:p2align=2
	i64.store	16
	local.get	2
	local.get	2
	i64.load	56:p2align=2
	i64.store	24
	local.get	5
	local.get	2
	i32.load	28
	local.tee	8
	local.get	2
	i32.load	24
	local.tee	9
	i32.const	1
	i32.shr_u
	i32.xor 
	i32.const	1431655765
	i32.and 
	local.tee	10
	local.get	8
	i32.xor 
	local.tee	8
	local.get	2
	i32.load	20
	local.tee	12
	local.get	2
	i32.load	16
	local.tee	14
	i32.const	1
	i32.shr_u
	i32.xor 
	i32.const	1431655765
	i32.and 
	local.tee	17
	local.get	12
	i32.xor 
	local.tee	12
	i32.const	2
	i32.shr_u
	i32.xor 
	i32.const	858993459
	i32.and 
	local.tee	15
	local.get	8
	i32.xor 
	local.tee	8
	local.get	2
	i32.load	12
	local.tee	19
	local.get	2
	i32.load	8
	local.tee	20
	i32.const	1
	i32.shr_u
	i32.xor 
	i32.const	1431655765
	i32.and 
	local.tee	22
	local.get	19
	i32.xor 
	local.tee	19
	local.get	2
	i32.load	4
	local.tee	23
	local.get	2
	i32.load	0
	local.tee	24
	i32.const	1
	i32.shr_u
	i32.xor 
	i32.const	1431655765
	i32.and 
	local.tee	25
	local.get	23
	i32.xor 
	local.tee	23
	i32.const	2
	i32.shr_u
	i32.xor 
	i32.const	858993459
	i32.and 
	local.tee	26
	local.get	19
	i32.xor 
	local.tee	19
	i32.const	4
	i32.shr_u
	i32.xor 
	i32.const	252645135
	i32.and 
	local.tee	27
	local.get	8
	i32.xor 
	i32.store	0:p2align=0
	local.get	11
	local.get	15
	i32.const	2
	i32.shl 
	local.get	12
	i32.xor 
	local.tee	8
	local.get	26
	i32.const	2
	i32.shl 
	local.get	23
	i32.xor 
	local.tee	12
	i32.const	4
	i32.shr_u
	i32.xor 
	i32.const	252645135
	i32.and 
	local.tee	15
	local.get	8
	i32.xor 
	i32.store	0:p2align=0
	local.get	16
	local.get	27
	i32.const	4
	i32.shl 
	local.get	19
	i32.xor 
	i32.store	0:p2align=0
	local.get	7
	local.get	9
	local.get	10
	i32.const	1
	i32.shl 
	i32.xor 
	local.tee	8
	local.get	14
	local.get	17
	i32.const	1
	i32.shl 
	i32.xor 
	local.tee	9
	i32.const	2
	i32.shr_u
	i32.xor 
	i32.const	858993459
	i32.and 
	local.tee	10
	local.get	8
	i32.xor 
	local.tee	8
	local.get	20
	local.get	22
	i32.const	1
	i32.shl 
	i32.xor 
	local.tee	14
	local.get	24
	local.get	25
	i32.const	1
	i32.shl 
	i32.xor 
	local.tee	17
	i32.const	2
	i32.shr_u
	i32.xor 
	i32.const	858993459
	i32.and 
	local.tee	19
	local.get	14
	i32.xor 
	local.tee	14
	i32.const	4
	i32.shr_u
	i32.xor 
	i32.const	252645135
	i32.and 
	local.tee	20
	local.get	8
	i32.xor 
	i32.store	0:p2align=0
	local.get	21
	local.get	15
	i32.const	4
	i32.shl 
	local.get	12
	i32.xor 
	i32.store	0:p2align=0
	local.get	13
	local.get	10
	i32.const	2
	i32.shl 
	local.get	9
	i32.xor 
	local.tee	8
	local.get	19
	i32.const	2
	i32.shl 
	local.get	17
	i32.xor 
	local.tee	9
	i32.const	4
	i32.shr_u
	i32.xor 
	i32.const	252645135
	i32.and 
	local.tee	10
	local.get	8
	i32.xor 
	i32.store	0:p2align=0
	local.get	18
	local.get	20
	i32.const	4
	i32.shl 
	local.get	14
	i32.xor 
	i32.store	0:p2align=0
	local.get	4
	local.get	10
	i32.const	4
	i32.shl 
	local.get	9
	i32.xor 
	i32.store	0:p2align=0
	local.get	4
	i32.const	32
	i32.add 
	local.set	4
	local.get	3
	i64.const	2
	i64.add 
	local.tee	3
	i64.const	6
	i64.lt_u
	br_if   	0                               # 0: up to label144
# %bb.2:                                # %join.5.i2.i.preheader
	end_loop
	i64.const	8
	local.set	3
.LBB41_3:                               # %join.5.i2.i
                                        # =>This Inner Loop Header: Depth=1
	loop    	                                # label145:
	local.get	1
	local.get	6
	i32.add 
	local.tee	8
	i32.const	1
	i32.add 
	i32.load8_u	0
	local.set	9
	local.get	0
	local.get	6
	i32.add 
	local.tee	4
	i32.const	1
	i32.add 
	local.tee	10
	i32.load8_u	0
	local.set	12
	local.get	8
	i32.const	2
	i32.add 
	i32.load8_u	0
	local.set	14
	local.get	4
	i32.const	2
	i32.add 
	local.tee	17
	i32.load8_u	0
	local.set	15
	local.get	8
	i32.const	3
	i32.add 
	i32.load8_u	0
	local.set	19
	local.get	4
	i32.const	3
	i32.add 
	local.tee	20
	i32.load8_u	0
	local.set	22
	local.get	8
	i32.const	4
	i32.add 
	i32.load8_u	0
	local.set	23
	local.get	4
	i32.const	4
	i32.add 
	local.tee	24
	i32.load8_u	0
	local.set	25
	local.get	8
	i32.const	5
	i32.add 
	i32.load8_u	0
	local.set	26
	local.get	4
	i32.const	5
	i32.add 
	local.tee	27
	i32.load8_u	0
	local.set	28
	local.get	8
	i32.const	6
	i32.add 
	i32.load8_u	0
	local.set	5
	local.get	4
	i32.const	6
	i32.add 
	local.tee	7
	i32.load8_u	0
	local.set	11
	local.get	8
	i32.const	7
	i32.add 
	i32.load8_u	0
	local.set	13
	local.get	4
	i32.const	7
	i32.add 
	local.tee	16
	i32.load8_u	0
	local.set	18
	local.get	8
	i32.const	8
	i32.add 
	i32.load8_u	0
	local.set	21
	local.get	4
	i32.const	8
	i32.add 
	local.tee	29
	i32.load8_u	0
	local.set	30
	local.get	8
	i32.const	9
	i32.add 
	i32.load8_u	0
	local.set	31
	local.get	4
	i32.const	9
	i32.add 
	local.tee	32
	i32.load8_u	0
	local.set	33
	local.get	8
	i32.const	10
	i32.add 
	i32.load8_u	0
	local.set	34
	local.get	4
	i32.const	10
	i32.add 
	local.tee	35
	i32.load8_u	0
	local.set	36
	local.get	8
	i32.const	11
	i32.add 
	i32.load8_u	0
	local.set	37
	local.get	4
	i32.const	11
	i32.add 
	local.tee	38
	i32.load8_u	0
	local.set	39
	local.get	8
	i32.const	12
	i32.add 
	i32.load8_u	0
	local.set	40
	local.get	4
	i32.const	12
	i32.add 
	local.tee	41
	i32.load8_u	0
	local.set	42
	local.get	8
	i32.const	13
	i32.add 
	i32.load8_u	0
	local.set	43
	local.get	4
	i32.const	13
	i32.add 
	local.tee	44
	i32.load8_u	0
	local.set	45
	local.get	8
	i32.const	14
	i32.add 
	i32.load8_u	0
	local.set	46
	local.get	4
	i32.const	14
	i32.add 
	local.tee	47
	i32.load8_u	0
	local.set	48
	local.get	8
	i32.const	15
	i32.add 
	i32.load8_u	0
	local.set	49
	local.get	4
	i32.const	15
	i32.add 
	local.tee	50
	i32.load8_u	0
	local.set	51
	local.get	4
	local.get	8
	i32.load8_u	0
	local.get	4
	i32.load8_u	0
	i32.xor 
	i32.store8	0
	local.get	50
	local.get	49
	local.get	51
	i32.xor 
	i32.store8	0
	local.get	47
	local.get	46
	local.get	48
	i32.xor 
	i32.store8	0
	local.get	44
	local.get	43
	local.get	45
	i32.xor 
	i32.store8	0
	local.get	41
	local.get	40
	local.get	42
	i32.xor 
	i32.store8	0
	local.get	38
	local.get	37
	local.get	39
	i32.xor 
	i32.store8	0
	local.get	35
	local.get	34
	local.get	36
	i32.xor 
	i32.store8	0
	local.get	32
	local.get	31
	local.get	33
	i32.xor 
	i32.store8	0
	local.get	29
	local.get	21
	local.get	30
	i32.xor 
	i32.store8	0
	local.get	16
	local.get	13
	local.get	18
	i32.xor 
	i32.store8	0
	local.get	7
	local.get	5
	local.get	11
	i32.xor 
	i32.store8	0
	local.get	27
	local.get	26
	local.get	28
	i32.xor 
	i32.store8	0
	local.get	24
	local.get	23
	local.get	25
	i32.xor 
	i32.store8	0
	local.get	20
	local.get	19
	local.get	22
	i32.xor 
	i32.store8	0
	local.get	17
	local.get	14
	local.get	15
	i32.xor 
	i32.store8	0
	local.get	10
	local.get	9
	local.get	12
	i32.xor 
	i32.store8	0
	local.get	6
	i32.const	16
	i32.add 
	local.set	6
	local.get	3
	i64.const	-1
	i64.add 
	local.tee	3
	i64.const	0
	i64.ne  
	br_if   	0                               # 0: up to label145
# %bb.4:                                # %aes_soft__soft__hazmat__par__equiv_inv_cipher_round_par____e817d94f9a7b6ba6_.exit
	end_loop
	local.get	2
	i32.const	96
	i32.add 
	global.set	__stack_pointer
                                        # fallthrough-return
	end_function
                                        # -- End function
	.section	.text.cmac__pieces__Message__is_tag_so_far____4f733d09d7f6c6b4_,"",@
	.type	cmac__pieces__Message__is_tag_so_far____4f733d09d7f6c6b4_,@function # -- Begin function cmac__pieces__Message__is_tag_so_far____4f733d09d7f6c6b4_
cmac__pieces__Message__is_tag_so_far____4f733d09d7f6c6b4_: # @cmac__pieces__Message__is_tag_so_far____4f733d09d7f6c6b4_
	.functype	cmac__pieces__Message__is_tag_so_far____4f733d09d7f6c6b4_ (i32, i32, i32, i64) -> (i32)
	.local  	i32, i64
# %bb.0:                                # %start
	global.get	__stack_pointer
	i32.const	32
	i32.sub 
	local.tee	4
	global.set	__stack_pointer
	local.get	4
	local.get	1
	local.get	0
	i32.const	16
	i32.add 
	local.get	0
	i32.const	32
	i32.add 
	local.get	0
	i32.const	8
	i32.add 
	i64.load	0
	local.tee	5
	i64.const	16
	local.get	5
	i64.const	16
	i64.lt_u
	i64.select
	call	cmac__tags__tag_at_end____4f733d09d7f6c6b4_
	local.get	4
	local.get	4
	i64.load	8:p2align=0
	i64.store	24
	local.get	4
	local.get	4
	i64.load	0:p2align=0
	i64.store	16
	local.get	4
	i32.const	16
	i32.add 
	local.get	2
	local.get	3
	i32.wrap_i64
	call	memcpy
	drop
	local.get	4
	i32.const	16
	i32.add 
	local.get	4
	call	aes_cipher__blocks__difference
	local.set	0
	local.get	4
	i32.const	32
	i32.add 
	global.set	__stack_pointer
	local.get	0
	i32.eqz
                                        # fallthrough-return
	end_function
                                        # -- End function
	.section	.text.cmac__tags__is_tag_start____4f733d09d7f6c6b4_,"",@
	.type	cmac__tags__is_tag_start____4f733d09d7f6c6b4_,@function # -- Begin function cmac__tags__is_tag_start____4f733d09d7f6c6b4_
cmac__tags__is_tag_start____4f733d09d7f6c6b4_: # @cmac__tags__is_tag_start____4f733d09d7f6c6b4_
	.functype	cmac__tags__is_tag_start____4f733d09d7f6c6b4_ (i32, i32, i64, i32, i64) -> (i32)
	.local  	i32
# %bb.0:                                # %start
	global.get	__stack_pointer
	i32.const	32
	i32.sub 
	local.tee	5
	global.set	__stack_pointer
	local.get	5
	local.get	0
	local.get	1
	local.get	2
	call	cmac__tags__tag____4f733d09d7f6c6b4_
	local.get	5
	local.get	5
	i64.load	8:p2align=0
	i64.store	24
	local.get	5
	local.get	5
	i64.load	0:p2align=0
	i64.store	16
	local.get	5
	i32.const	16
	i32.add 
	local.get	3
	local.get	4
	i32.wrap_i64
	call	memcpy
	drop
	local.get	5
	i32.const	16
	i32.add 
	local.get	5
	call	aes_cipher__blocks__difference
	local.set	1
	local.get	5
	i32.const	32
	i32.add 
	global.set	__stack_pointer
	local.get	1
	i32.eqz
                                        # fallthrough-return
	end_function
                                        # -- End function
	.section	.text.aes_c__single_rounds__mixed,"",@
	.type	aes_c__single_rounds__mixed,@function # -- Begin function aes_c__single_rounds__mixed
aes_c__single_rounds__mixed:            # @aes_c__single_rounds__mixed
	.functype	aes_c__single_rounds__mixed (i32) -> ()
	.local  	i32, i32, i32, i32, i32, i32, i32, i32, i32, i32, i32, i32, i32, i32, i32, i32, i32
# %bb.0:                                # %start
	global.get	__stack_pointer
	i32.const	96
	i32.sub 
	local.tee	1
	global.set	__stack_pointer
	local.get	1
	local.get	0
	call	aes_planes__soft__word__word32__U32Word__in_every_slot
	local.get	1
	i32.const	32
	i32.add 
	local.get	1
	i32.const	1
	i32.const	0
	call	aes_planes__soft__word__word32__U32Word__rotate_planes
	local.get	1
	local.get	1
	i32.load	4
	local.get	1
	i32.load	36
	local.tee	2
	i32.xor 
	i32.store	36
	local.get	1
	local.get	1
	i32.load	0
	local.get	1
	i32.load	32
	local.tee	3
	i32.xor 
	i32.store	32
	local.get	1
	local.get	1
	i32.load	12
	local.get	1
	i32.load	44
	local.tee	4
	i32.xor 
	i32.store	44
	local.get	1
	local.get	1
	i32.load	8
	local.get	1
	i32.load	40
	local.tee	5
	i32.xor 
	i32.store	40
	local.get	1
	i32.load	24
	local.set	6
	local.get	1
	i32.load	56
	local.set	7
	local.get	1
	i32.load	28
	local.set	8
	local.get	1
	i32.load	60
	local.set	9
	local.get	1
	i32.load	16
	local.set	10
	local.get	1
	i32.load	48
	local.set	11
	local.get	1
	local.get	1
	i32.load	20
	local.get	1
	i32.load	52
	local.tee	12
	i32.xor 
	i32.store	52
	local.get	1
	local.get	10
	local.get	11
	i32.xor 
	i32.store	48
	local.get	1
	local.get	8
	local.get	9
	i32.xor 
	i32.store	60
	local.get	1
	local.get	6
	local.get	7
	i32.xor 
	i32.store	56
	local.get	1
	local.get	1
	i64.load	48:p2align=2
	i64.store	80
	local.get	1
	local.get	1
	i64.load	40:p2align=2
	i64.store	72
	local.get	1
	local.get	1
	i64.load	32:p2align=2
	i64.store	64
	local.get	1
	local.get	1
	i64.load	56:p2align=2
	i64.store	88
	local.get	1
	i32.load	76
	local.set	8
	local.get	1
	i32.load	80
	local.set	10
	local.get	1
	i32.load	72
	local.set	13
	local.get	1
	i32.load	68
	local.set	14
	local.get	1
	i32.load	64
	local.set	15
	local.get	1
	i32.load	92
	local.set	6
	local.get	1
	i32.load	84
	local.set	16
	local.get	1
	i32.load	88
	local.set	17
	local.get	1
	i32.const	32
	i32.add 
	local.get	1
	i32.const	64
	i32.add 
	i32.const	2
	i32.const	0
	call	aes_planes__soft__word__word32__U32Word__rotate_planes
	local.get	1
	local.get	9
	local.get	17
	local.get	1
	i32.load	60
	i32.xor 
	i32.xor 
	i32.store	60
	local.get	1
	local.get	7
	local.get	16
	local.get	1
	i32.load	56
	i32.xor 
	i32.xor 
	i32.store	56
	local.get	1
	local.get	6
	local.get	3
	local.get	1
	i32.load	32
	i32.xor 
	i32.xor 
	i32.store	32
	local.get	1
	local.get	6
	local.get	2
	local.get	15
	local.get	1
	i32.load	36
	i32.xor 
	i32.xor 
	i32.xor 
	i32.store	36
	local.get	1
	local.get	5
	local.get	14
	local.get	1
	i32.load	40
	i32.xor 
	i32.xor 
	i32.store	40
	local.get	1
	local.get	6
	local.get	4
	local.get	13
	local.get	1
	i32.load	44
	i32.xor 
	i32.xor 
	i32.xor 
	i32.store	44
	local.get	1
	local.get	12
	local.get	10
	local.get	1
	i32.load	52
	i32.xor 
	i32.xor 
	i32.store	52
	local.get	1
	local.get	6
	local.get	11
	local.get	8
	local.get	1
	i32.load	48
	i32.xor 
	i32.xor 
	i32.xor 
	i32.store	48
	local.get	1
	local.get	1
	i64.load	56:p2align=2
	i64.store	24
	local.get	1
	local.get	1
	i64.load	32:p2align=2
	i64.store	0
	local.get	1
	local.get	1
	i64.load	40:p2align=2
	i64.store	8
	local.get	1
	local.get	1
	i64.load	48:p2align=2
	i64.store	16
	local.get	0
	local.get	1
	i32.load	28
	i32.const	1
	i32.shl 
	i32.const	-1431655766
	i32.and 
	local.get	1
	i32.load	24
	i32.const	1431655765
	i32.and 
	i32.or  
	local.tee	6
	local.get	1
	i32.load	20
	i32.const	1
	i32.shl 
	i32.const	-1431655766
	i32.and 
	local.get	1
	i32.load	16
	i32.const	1431655765
	i32.and 
	i32.or  
	local.tee	7
	i32.const	2
	i32.shr_u
	i32.xor 
	i32.const	858993459
	i32.and 
	local.tee	9
	local.get	6
	i32.xor 
	local.tee	6
	local.get	1
	i32.load	12
	i32.const	1
	i32.shl 
	i32.const	-1431655766
	i32.and 
	local.get	1
	i32.load	8
	i32.const	1431655765
	i32.and 
	i32.or  
	local.tee	11
	local.get	1
	i32.load	4
	i32.const	1
	i32.shl 
	i32.const	-1431655766
	i32.and 
	local.get	1
	i32.load	0
	i32.const	1431655765
	i32.and 
	i32.or  
	local.tee	2
	i32.const	2
	i32.shr_u
	i32.xor 
	i32.const	858993459
	i32.and 
	local.tee	3
	local.get	11
	i32.xor 
	local.tee	11
	i32.const	4
	i32.shr_u
	i32.xor 
	i32.const	252645135
	i32.and 
	local.tee	4
	local.get	6
	i32.xor 
	i32.store	12:p2align=0
	local.get	0
	local.get	9
	i32.const	2
	i32.shl 
	local.get	7
	i32.xor 
	local.tee	6
	local.get	3
	i32.const	2
	i32.shl 
	local.get	2
	i32.xor 
	local.tee	7
	i32.const	4
	i32.shr_u
	i32.xor 
	i32.const	252645135
	i32.and 
	local.tee	9
	local.get	6
	i32.xor 
	i32.store	8:p2align=0
	local.get	0
	local.get	4
	i32.const	4
	i32.shl 
	local.get	11
	i32.xor 
	i32.store	4:p2align=0
	local.get	0
	local.get	9
	i32.const	4
	i32.shl 
	local.get	7
	i32.xor 
	i32.store	0:p2align=0
	local.get	1
	i32.const	96
	i32.add 
	global.set	__stack_pointer
                                        # fallthrough-return
	end_function
                                        # -- End function
	.section	.text.aes_c__stream__fotsgure_aes_add_keystream,"",@
	.type	aes_c__stream__fotsgure_aes_add_keystream,@function # -- Begin function aes_c__stream__fotsgure_aes_add_keystream
aes_c__stream__fotsgure_aes_add_keystream: # @aes_c__stream__fotsgure_aes_add_keystream
	.functype	aes_c__stream__fotsgure_aes_add_keystream (i32, i32, i32, i64) -> (i32)
	.local  	i32, i32, i64, i32, i32
# %bb.0:                                # %start
	global.get	__stack_pointer
	i32.const	16
	i32.sub 
	local.tee	4
	global.set	__stack_pointer
	i32.const	4
	local.set	5
	block   	
	local.get	3
	local.get	1
	i32.const	16
	i32.add 
	i64.load	0
	local.tee	6
	i64.const	-1
	i64.xor 
	i64.gt_u
	br_if   	0                               # 0: down to label146
# %bb.1:                                # %join.3.i
	i32.const	2
	local.set	5
	local.get	0
	i32.load	0
	local.tee	7
	i32.const	-16
	i32.add 
	local.tee	8
	i32.const	16
	i32.gt_u
	br_if   	0                               # 0: down to label146
# %bb.2:                                # %join.3.i
	i32.const	1
	local.get	8
	i32.shl 
	i32.const	65793
	i32.and 
	i32.eqz
	br_if   	0                               # 0: down to label146
# %bb.3:                                # %then.1
	i32.const	0
	local.set	5
	local.get	4
	i32.const	0
	i32.store	4
	local.get	4
	local.get	0
	i32.const	4
	i32.add 
	i32.store	0
	local.get	4
	local.get	7
	i64.extend_i32_u
	i64.const	1
	i64.shl 
	i64.const	56
	i64.add 
	i64.store	8
	local.get	4
	local.get	1
	local.get	6
	local.get	2
	local.get	3
	call	aes_ctr__add_in_batches__add_keystream____4f733d09d7f6c6b4_
	local.get	1
	i32.const	16
	i32.add 
	local.tee	1
	local.get	1
	i64.load	0
	local.get	3
	i64.add 
	i64.store	0
.LBB45_4:                               # %join.3
	end_block                               # label146:
	local.get	4
	i32.const	16
	i32.add 
	global.set	__stack_pointer
	local.get	5
                                        # fallthrough-return
	end_function
                                        # -- End function
	.section	.text.aes_c__single_rounds__round,"",@
	.type	aes_c__single_rounds__round,@function # -- Begin function aes_c__single_rounds__round
aes_c__single_rounds__round:            # @aes_c__single_rounds__round
	.functype	aes_c__single_rounds__round (i32, i32) -> ()
	.local  	i32, i32, i32, i32, i32, i32, i32, i32, i32, i32, i32, i32, i32, i32, i32, i32, i32, i32, i32, i32, i32, i32, i32, i32, i32, i32, i32, i32, i32
# %bb.0:                                # %start
	global.get	__stack_pointer
	i32.const	96
	i32.sub 
	local.tee	2
	global.set	__stack_pointer
	local.get	2
	local.get	0
	call	aes_planes__soft__word__word32__U32Word__in_every_slot
	local.get	2
	local.get	2
	i32.load	28
	local.tee	3
	local.get	2
	i32.load	4
	local.tee	4
	i32.xor 
	local.tee	5
	local.get	2
	i32.load	16
	local.tee	6
	local.get	2
	i32.load	8
	local.tee	7
	i32.xor 
	local.tee	8
	i32.xor 
	local.tee	9
	local.get	2
	i32.load	12
	i32.xor 
	local.tee	10
	local.get	2
	i32.load	24
	local.tee	11
	i32.xor 
	local.tee	12
	local.get	3
	local.get	6
	i32.xor 
	local.tee	13
	i32.xor 
	local.tee	14
	local.get	11
	local.get	2
	i32.load	20
	i32.xor 
	local.tee	15
	i32.xor 
	local.tee	16
	local.get	15
	local.get	2
	i32.load	0
	local.tee	11
	i32.xor 
	local.tee	17
	local.get	4
	i32.xor 
	local.tee	18
	local.get	17
	i32.and 
	i32.xor 
	local.get	16
	local.get	5
	i32.and 
	local.tee	19
	i32.xor 
	local.get	5
	i32.xor 
	local.get	14
	local.get	10
	local.get	7
	i32.xor 
	local.tee	4
	local.get	15
	i32.xor 
	local.tee	15
	i32.xor 
	local.tee	20
	local.get	8
	i32.and 
	local.get	14
	local.get	13
	i32.and 
	local.tee	21
	i32.xor 
	local.tee	10
	i32.xor 
	local.tee	22
	local.get	12
	local.get	4
	local.get	11
	i32.xor 
	local.tee	23
	local.get	18
	local.get	3
	local.get	7
	i32.xor 
	local.tee	7
	i32.xor 
	local.tee	24
	i32.and 
	i32.xor 
	local.get	4
	local.get	9
	i32.and 
	local.tee	12
	i32.xor 
	local.get	10
	i32.xor 
	local.tee	25
	i32.and 
	local.tee	10
	local.get	17
	local.get	6
	i32.xor 
	local.tee	26
	local.get	11
	i32.and 
	local.get	7
	i32.xor 
	local.get	15
	i32.xor 
	local.get	12
	i32.xor 
	local.get	15
	local.get	7
	i32.and 
	local.get	21
	i32.xor 
	local.tee	6
	i32.xor 
	local.tee	12
	i32.xor 
	local.get	16
	local.get	14
	local.get	11
	i32.xor 
	local.tee	21
	local.get	17
	local.get	3
	i32.xor 
	local.tee	27
	i32.and 
	i32.xor 
	local.get	19
	i32.xor 
	local.get	3
	i32.xor 
	local.get	6
	i32.xor 
	local.tee	6
	local.get	22
	i32.xor 
	i32.and 
	local.tee	19
	local.get	10
	i32.xor 
	local.get	6
	i32.and 
	local.tee	28
	local.get	10
	local.get	6
	i32.xor 
	local.tee	3
	i32.xor 
	local.get	3
	local.get	25
	local.get	12
	i32.xor 
	local.tee	10
	i32.and 
	local.get	12
	i32.xor 
	local.tee	3
	i32.and 
	local.get	10
	i32.xor 
	local.tee	10
	local.get	3
	i32.xor 
	local.tee	25
	local.get	16
	i32.and 
	local.tee	29
	local.get	10
	local.get	17
	i32.and 
	i32.xor 
	local.tee	30
	local.get	10
	local.get	28
	local.get	22
	i32.xor 
	local.tee	16
	local.get	19
	local.get	6
	i32.xor 
	local.tee	17
	i32.xor 
	local.tee	6
	i32.xor 
	local.tee	22
	local.get	3
	local.get	17
	i32.xor 
	local.tee	12
	i32.xor 
	local.tee	28
	local.get	20
	i32.and 
	i32.xor 
	local.tee	20
	local.get	12
	local.get	14
	i32.and 
	i32.xor 
	local.tee	19
	local.get	6
	local.get	23
	i32.and 
	local.get	16
	local.get	4
	i32.and 
	local.tee	4
	i32.xor 
	local.get	30
	i32.xor 
	local.get	28
	local.get	8
	i32.and 
	local.get	12
	local.get	13
	i32.and 
	local.tee	8
	i32.xor 
	local.tee	13
	local.get	6
	local.get	24
	i32.and 
	i32.xor 
	local.tee	6
	local.get	16
	local.get	9
	i32.and 
	i32.xor 
	local.tee	9
	i32.xor 
	local.tee	14
	i32.xor 
	i32.const	-1
	i32.xor 
	local.tee	16
	i32.const	4
	i32.shr_u
	local.get	16
	i32.xor 
	i32.const	202310400
	i32.and 
	local.tee	12
	i32.const	4
	i32.shl 
	local.get	16
	i32.xor 
	local.get	12
	i32.xor 
	local.tee	16
	i32.const	2
	i32.shr_u
	local.get	16
	i32.xor 
	i32.const	855651072
	i32.and 
	i32.const	5
	i32.mul 
	local.get	16
	i32.xor 
	local.tee	16
	i32.store	24
	local.get	2
	local.get	8
	local.get	22
	local.get	7
	i32.and 
	i32.xor 
	local.get	19
	i32.xor 
	local.get	22
	local.get	15
	i32.and 
	local.get	4
	local.get	17
	local.get	11
	i32.and 
	i32.xor 
	local.tee	4
	i32.xor 
	local.get	25
	local.get	5
	i32.and 
	local.tee	5
	i32.xor 
	local.get	20
	i32.xor 
	local.tee	15
	local.get	3
	local.get	27
	i32.and 
	i32.xor 
	local.tee	7
	i32.xor 
	i32.const	-1
	i32.xor 
	local.tee	11
	i32.const	4
	i32.shr_u
	local.get	11
	i32.xor 
	i32.const	202310400
	i32.and 
	local.tee	8
	i32.const	4
	i32.shl 
	local.get	11
	i32.xor 
	local.get	8
	i32.xor 
	local.tee	11
	i32.const	2
	i32.shr_u
	local.get	11
	i32.xor 
	i32.const	855651072
	i32.and 
	i32.const	5
	i32.mul 
	local.get	11
	i32.xor 
	local.tee	11
	i32.store	20
	local.get	2
	local.get	4
	local.get	3
	local.get	21
	i32.and 
	i32.xor 
	local.get	29
	i32.xor 
	local.tee	4
	local.get	10
	local.get	18
	i32.and 
	i32.xor 
	local.get	13
	i32.xor 
	local.tee	10
	local.get	15
	i32.xor 
	i32.const	-1
	i32.xor 
	local.tee	3
	i32.const	4
	i32.shr_u
	local.get	3
	i32.xor 
	i32.const	202310400
	i32.and 
	local.tee	15
	i32.const	4
	i32.shl 
	local.get	3
	i32.xor 
	local.get	15
	i32.xor 
	local.tee	3
	i32.const	2
	i32.shr_u
	local.get	3
	i32.xor 
	i32.const	855651072
	i32.and 
	i32.const	5
	i32.mul 
	local.get	3
	i32.xor 
	local.tee	15
	i32.store	4
	local.get	2
	local.get	10
	local.get	5
	i32.xor 
	i32.const	-1
	i32.xor 
	local.tee	3
	i32.const	4
	i32.shr_u
	local.get	3
	i32.xor 
	i32.const	202310400
	i32.and 
	local.tee	5
	i32.const	4
	i32.shl 
	local.get	3
	i32.xor 
	local.get	5
	i32.xor 
	local.tee	3
	i32.const	2
	i32.shr_u
	local.get	3
	i32.xor 
	i32.const	855651072
	i32.and 
	i32.const	5
	i32.mul 
	local.get	3
	i32.xor 
	local.tee	5
	i32.store	0
	local.get	2
	local.get	9
	local.get	19
	i32.xor 
	local.tee	3
	i32.const	4
	i32.shr_u
	local.get	3
	i32.xor 
	i32.const	202310400
	i32.and 
	i32.const	17
	i32.mul 
	local.get	3
	i32.xor 
	local.tee	3
	i32.const	2
	i32.shr_u
	local.get	3
	i32.xor 
	i32.const	855651072
	i32.and 
	i32.const	5
	i32.mul 
	local.get	3
	i32.xor 
	local.tee	10
	i32.store	28
	local.get	2
	local.get	14
	i32.const	4
	i32.shr_u
	local.get	14
	i32.xor 
	i32.const	202310400
	i32.and 
	i32.const	17
	i32.mul 
	local.get	14
	i32.xor 
	local.tee	3
	i32.const	2
	i32.shr_u
	local.get	3
	i32.xor 
	i32.const	855651072
	i32.and 
	i32.const	5
	i32.mul 
	local.get	3
	i32.xor 
	local.tee	8
	i32.store	16
	local.get	2
	local.get	6
	local.get	17
	local.get	26
	i32.and 
	i32.xor 
	local.get	7
	i32.xor 
	local.tee	3
	i32.const	4
	i32.shr_u
	local.get	3
	i32.xor 
	i32.const	202310400
	i32.and 
	i32.const	17
	i32.mul 
	local.get	3
	i32.xor 
	local.tee	3
	i32.const	2
	i32.shr_u
	local.get	3
	i32.xor 
	i32.const	855651072
	i32.and 
	i32.const	5
	i32.mul 
	local.get	3
	i32.xor 
	local.tee	17
	i32.store	8
	local.get	2
	local.get	14
	local.get	4
	i32.xor 
	local.tee	3
	i32.const	4
	i32.shr_u
	local.get	3
	i32.xor 
	i32.const	202310400
	i32.and 
	i32.const	17
	i32.mul 
	local.get	3
	i32.xor 
	local.tee	3
	i32.const	2
	i32.shr_u
	local.get	3
	i32.xor 
	i32.const	855651072
	i32.and 
	i32.const	5
	i32.mul 
	local.get	3
	i32.xor 
	local.tee	3
	i32.store	12
	local.get	2
	i32.const	32
	i32.add 
	local.get	2
	i32.const	1
	i32.const	0
	call	aes_planes__soft__word__word32__U32Word__rotate_planes
	local.get	2
	local.get	15
	local.get	2
	i32.load	36
	local.tee	14
	i32.xor 
	i32.store	36
	local.get	2
	local.get	5
	local.get	2
	i32.load	32
	local.tee	4
	i32.xor 
	i32.store	32
	local.get	2
	local.get	3
	local.get	2
	i32.load	44
	local.tee	5
	i32.xor 
	i32.store	44
	local.get	2
	local.get	17
	local.get	2
	i32.load	40
	local.tee	15
	i32.xor 
	i32.store	40
	local.get	2
	local.get	11
	local.get	2
	i32.load	52
	local.tee	17
	i32.xor 
	i32.store	52
	local.get	2
	local.get	8
	local.get	2
	i32.load	48
	local.tee	11
	i32.xor 
	i32.store	48
	local.get	2
	local.get	10
	local.get	2
	i32.load	60
	local.tee	7
	i32.xor 
	i32.store	60
	local.get	2
	local.get	16
	local.get	2
	i32.load	56
	local.tee	6
	i32.xor 
	i32.store	56
	local.get	2
	local.get	2
	i64.load	32:p2align=2
	i64.store	64
	local.get	2
	local.get	2
	i64.load	40:p2align=2
	i64.store	72
	local.get	2
	local.get	2
	i64.load	48:p2align=2
	i64.store	80
	local.get	2
	local.get	2
	i64.load	56:p2align=2
	i64.store	88
	local.get	2
	i32.load	76
	local.set	16
	local.get	2
	i32.load	80
	local.set	10
	local.get	2
	i32.load	72
	local.set	8
	local.get	2
	i32.load	68
	local.set	9
	local.get	2
	i32.load	64
	local.set	13
	local.get	2
	i32.load	92
	local.set	3
	local.get	2
	i32.load	84
	local.set	18
	local.get	2
	i32.load	88
	local.set	22
	local.get	2
	i32.const	32
	i32.add 
	local.get	2
	i32.const	64
	i32.add 
	i32.const	2
	i32.const	0
	call	aes_planes__soft__word__word32__U32Word__rotate_planes
	local.get	2
	local.get	7
	local.get	22
	local.get	2
	i32.load	60
	i32.xor 
	i32.xor 
	i32.store	60
	local.get	2
	local.get	6
	local.get	18
	local.get	2
	i32.load	56
	i32.xor 
	i32.xor 
	i32.store	56
	local.get	2
	local.get	3
	local.get	4
	local.get	2
	i32.load	32
	i32.xor 
	i32.xor 
	i32.store	32
	local.get	2
	local.get	3
	local.get	14
	local.get	13
	local.get	2
	i32.load	36
	i32.xor 
	i32.xor 
	i32.xor 
	i32.store	36
	local.get	2
	local.get	15
	local.get	9
	local.get	2
	i32.load	40
	i32.xor 
	i32.xor 
	i32.store	40
	local.get	2
	local.get	3
	local.get	5
	local.get	8
	local.get	2
	i32.load	44
	i32.xor 
	i32.xor 
	i32.xor 
	i32.store	44
	local.get	2
	local.get	17
	local.get	10
	local.get	2
	i32.load	52
	i32.xor 
	i32.xor 
	i32.store	52
	local.get	2
	local.get	3
	local.get	11
	local.get	16
	local.get	2
	i32.load	48
	i32.xor 
	i32.xor 
	i32.xor 
	i32.store	48
	local.get	2
	local.get	2
	i64.load	56:p2align=2
	i64.store	24
	local.get	2
	local.get	2
	i64.load	32:p2align=2
	i64.store	0
	local.get	2
	local.get	2
	i64.load	40:p2align=2
	i64.store	8
	local.get	2
	local.get	2
	i64.load	48:p2align=2
	i64.store	16
	local.get	1
	i32.load8_u	1
	local.set	14
	local.get	1
	i32.load8_u	2
	local.set	11
	local.get	1
	i32.load8_u	3
	local.set	17
	local.get	1
	i32.load8_u	0
	local.set	5
	local.get	1
	i32.load8_u	5
	local.set	16
	local.get	1
	i32.load8_u	6
	local.set	4
	local.get	1
	i32.load8_u	7
	local.set	15
	local.get	1
	i32.load8_u	9
	local.set	7
	local.get	1
	i32.load8_u	10
	local.set	6
	local.get	1
	i32.load8_u	11
	local.set	10
	local.get	1
	i32.load8_u	4
	local.set	8
	local.get	1
	i32.load8_u	8
	local.set	9
	local.get	1
	i32.load8_u	13
	local.set	13
	local.get	1
	i32.load8_u	14
	local.set	18
	local.get	1
	i32.load8_u	15
	local.set	22
	local.get	0
	local.get	2
	i32.load	28
	i32.const	1
	i32.shl 
	i32.const	-1431655766
	i32.and 
	local.get	2
	i32.load	24
	i32.const	1431655765
	i32.and 
	i32.or  
	local.tee	3
	local.get	2
	i32.load	20
	i32.const	1
	i32.shl 
	i32.const	-1431655766
	i32.and 
	local.get	2
	i32.load	16
	i32.const	1431655765
	i32.and 
	i32.or  
	local.tee	12
	i32.const	2
	i32.shr_u
	i32.xor 
	i32.const	858993459
	i32.and 
	local.tee	19
	local.get	3
	i32.xor 
	local.tee	3
	local.get	2
	i32.load	12
	i32.const	1
	i32.shl 
	i32.const	-1431655766
	i32.and 
	local.get	2
	i32.load	8
	i32.const	1431655765
	i32.and 
	i32.or  
	local.tee	20
	local.get	2
	i32.load	4
	i32.const	1
	i32.shl 
	i32.const	-1431655766
	i32.and 
	local.get	2
	i32.load	0
	i32.const	1431655765
	i32.and 
	i32.or  
	local.tee	21
	i32.const	2
	i32.shr_u
	i32.xor 
	i32.const	858993459
	i32.and 
	local.tee	23
	local.get	20
	i32.xor 
	local.tee	20
	i32.const	4
	i32.shr_u
	i32.xor 
	i32.const	252645135
	i32.and 
	local.tee	24
	local.get	3
	i32.xor 
	local.tee	3
	local.get	1
	i32.load8_u	12
	i32.xor 
	i32.store8	12
	local.get	0
	local.get	22
	local.get	3
	i32.const	24
	i32.shr_u
	i32.xor 
	i32.store8	15
	local.get	0
	local.get	18
	local.get	3
	i32.const	16
	i32.shr_u
	i32.xor 
	i32.store8	14
	local.get	0
	local.get	13
	local.get	3
	i32.const	8
	i32.shr_u
	i32.xor 
	i32.store8	13
	local.get	0
	local.get	9
	local.get	19
	i32.const	2
	i32.shl 
	local.get	12
	i32.xor 
	local.tee	1
	local.get	23
	i32.const	2
	i32.shl 
	local.get	21
	i32.xor 
	local.tee	13
	i32.const	4
	i32.shr_u
	i32.xor 
	i32.const	252645135
	i32.and 
	local.tee	18
	local.get	1
	i32.xor 
	local.tee	1
	i32.xor 
	i32.store8	8
	local.get	0
	local.get	8
	local.get	24
	i32.const	4
	i32.shl 
	local.get	20
	i32.xor 
	local.tee	3
	i32.xor 
	i32.store8	4
	local.get	0
	local.get	10
	local.get	1
	i32.const	24
	i32.shr_u
	i32.xor 
	i32.store8	11
	local.get	0
	local.get	6
	local.get	1
	i32.const	16
	i32.shr_u
	i32.xor 
	i32.store8	10
	local.get	0
	local.get	7
	local.get	1
	i32.const	8
	i32.shr_u
	i32.xor 
	i32.store8	9
	local.get	0
	local.get	15
	local.get	3
	i32.const	24
	i32.shr_u
	i32.xor 
	i32.store8	7
	local.get	0
	local.get	4
	local.get	3
	i32.const	16
	i32.shr_u
	i32.xor 
	i32.store8	6
	local.get	0
	local.get	16
	local.get	3
	i32.const	8
	i32.shr_u
	i32.xor 
	i32.store8	5
	local.get	0
	local.get	5
	local.get	18
	i32.const	4
	i32.shl 
	local.get	13
	i32.xor 
	local.tee	1
	i32.xor 
	i32.store8	0
	local.get	0
	local.get	17
	local.get	1
	i32.const	24
	i32.shr_u
	i32.xor 
	i32.store8	3
	local.get	0
	local.get	11
	local.get	1
	i32.const	16
	i32.shr_u
	i32.xor 
	i32.store8	2
	local.get	0
	local.get	14
	local.get	1
	i32.const	8
	i32.shr_u
	i32.xor 
	i32.store8	1
	local.get	2
	i32.const	96
	i32.add 
	global.set	__stack_pointer
                                        # fallthrough-return
	end_function
                                        # -- End function
	.section	.text.aes_c__single_rounds__rounds,"",@
	.type	aes_c__single_rounds__rounds,@function # -- Begin function aes_c__single_rounds__rounds
aes_c__single_rounds__rounds:           # @aes_c__single_rounds__rounds
	.functype	aes_c__single_rounds__rounds (i32, i32) -> ()
	.local  	i32, i64, i32, i32, i32, i32, i32, i32, i32, i32, i32, i32, i32, i32, i32, i32, i32, i32, i32, i32, i32, i32, i32, i32, i32, i32, i32, i32, i32, i32, i32, i32, i32, i32, i32, i32, i32, i32, i32, i32, i32, i32, i32, i32, i32, i32, i32, i32, i32, i32
# %bb.0:                                # %start
	global.get	__stack_pointer
	i32.const	96
	i32.sub 
	local.tee	2
	global.set	__stack_pointer
	i64.const	-2
	local.set	3
	local.get	0
	local.set	4
.LBB47_1:                               # %join.5.i.i
                                        # =>This Inner Loop Header: Depth=1
	loop    	                                # label147:
	local.get	2
	local.get	4
	i32.const	28
	i32.add 
	local.tee	5
	i32.load	0:p2align=0
	local.tee	6
	local.get	4
	i32.const	12
	i32.add 
	local.tee	7
	i32.load	0:p2align=0
	local.tee	8
	i32.const	1
	i32.shr_u
	i32.xor 
	i32.const	1431655765
	i32.and 
	local.tee	9
	local.get	6
	i32.xor 
	local.tee	6
	local.get	4
	i32.const	24
	i32.add 
	local.tee	10
	i32.load	0:p2align=0
	local.tee	11
	local.get	4
	i32.const	8
	i32.add 
	local.tee	12
	i32.load	0:p2align=0
	local.tee	13
	i32.const	1
	i32.shr_u
	i32.xor 
	i32.const	1431655765
	i32.and 
	local.tee	14
	local.get	11
	i32.xor 
	local.tee	11
	i32.const	2
	i32.shr_u
	i32.xor 
	i32.const	858993459
	i32.and 
	local.tee	15
	local.get	6
	i32.xor 
	local.tee	6
	local.get	4
	i32.const	20
	i32.add 
	local.tee	16
	i32.load	0:p2align=0
	local.tee	17
	local.get	4
	i32.const	4
	i32.add 
	local.tee	18
	i32.load	0:p2align=0
	local.tee	19
	i32.const	1
	i32.shr_u
	i32.xor 
	i32.const	1431655765
	i32.and 
	local.tee	20
	local.get	17
	i32.xor 
	local.tee	17
	local.get	4
	i32.const	16
	i32.add 
	local.tee	21
	i32.load	0:p2align=0
	local.tee	22
	local.get	4
	i32.load	0:p2align=0
	local.tee	23
	i32.const	1
	i32.shr_u
	i32.xor 
	i32.const	1431655765
	i32.and 
	local.tee	24
	local.get	22
	i32.xor 
	local.tee	22
	i32.const	2
	i32.shr_u
	i32.xor 
	i32.const	858993459
	i32.and 
	local.tee	25
	local.get	17
	i32.xor 
	local.tee	17
	i32.const	4
	i32.shr_u
	i32.xor 
	i32.const	252645135
	i32.and 
	local.tee	26
	i32.const	4
	i32.shl 
	local.get	17
	i32.xor 
	local.get	15
	i32.const	2
	i32.shl 
	local.get	11
	i32.xor 
	local.tee	11
	local.get	25
	i32.const	2
	i32.shl 
	local.get	22
	i32.xor 
	local.tee	15
	i32.const	4
	i32.shr_u
	i32.xor 
	i32.const	252645135
	i32.and 
	local.tee	17
	i32.const	4
	i32.shl 
	local.get	15
	i32.xor 
	local.tee	22
	local.get	26
	local.get	6
	i32.xor 
	local.tee	6
	i32.xor 
	local.tee	15
	local.get	9
	i32.const	1
	i32.shl 
	local.get	8
	i32.xor 
	local.tee	8
	local.get	14
	i32.const	1
	i32.shl 
	local.get	13
	i32.xor 
	local.tee	9
	i32.const	2
	i32.shr_u
	i32.xor 
	i32.const	858993459
	i32.and 
	local.tee	13
	local.get	8
	i32.xor 
	local.tee	8
	local.get	20
	i32.const	1
	i32.shl 
	local.get	19
	i32.xor 
	local.tee	14
	local.get	24
	i32.const	1
	i32.shl 
	local.get	23
	i32.xor 
	local.tee	20
	i32.const	2
	i32.shr_u
	i32.xor 
	i32.const	858993459
	i32.and 
	local.tee	23
	local.get	14
	i32.xor 
	local.tee	14
	i32.const	4
	i32.shr_u
	i32.xor 
	i32.const	252645135
	i32.and 
	local.tee	25
	i32.const	4
	i32.shl 
	local.get	14
	i32.xor 
	local.tee	19
	local.get	13
	i32.const	2
	i32.shl 
	local.get	9
	i32.xor 
	local.tee	9
	local.get	23
	i32.const	2
	i32.shl 
	local.get	20
	i32.xor 
	local.tee	14
	i32.const	4
	i32.shr_u
	i32.xor 
	i32.const	252645135
	i32.and 
	local.tee	26
	local.get	9
	i32.xor 
	local.tee	20
	i32.xor 
	local.tee	23
	i32.xor 
	local.tee	24
	i32.xor 
	local.tee	27
	local.get	25
	local.get	8
	i32.xor 
	local.tee	9
	i32.xor 
	local.tee	28
	local.get	20
	local.get	6
	i32.xor 
	local.tee	25
	i32.xor 
	local.tee	8
	local.get	17
	local.get	11
	i32.xor 
	local.get	9
	i32.xor 
	local.tee	17
	i32.xor 
	local.tee	13
	local.get	26
	i32.const	4
	i32.shl 
	local.get	14
	i32.xor 
	local.tee	9
	local.get	17
	i32.xor 
	local.tee	11
	local.get	22
	i32.xor 
	local.tee	26
	local.get	11
	i32.and 
	i32.xor 
	local.get	13
	local.get	15
	i32.and 
	local.tee	29
	i32.xor 
	local.get	15
	i32.xor 
	local.get	8
	local.get	27
	local.get	19
	i32.xor 
	local.tee	14
	local.get	17
	i32.xor 
	local.tee	17
	i32.xor 
	local.tee	30
	local.get	23
	i32.and 
	local.get	8
	local.get	25
	i32.and 
	local.tee	31
	i32.xor 
	local.tee	22
	i32.xor 
	local.tee	27
	local.get	28
	local.get	14
	local.get	9
	i32.xor 
	local.tee	32
	local.get	26
	local.get	19
	local.get	6
	i32.xor 
	local.tee	19
	i32.xor 
	local.tee	33
	i32.and 
	i32.xor 
	local.get	14
	local.get	24
	i32.and 
	local.tee	28
	i32.xor 
	local.get	22
	i32.xor 
	local.tee	34
	i32.and 
	local.tee	22
	local.get	11
	local.get	20
	i32.xor 
	local.tee	35
	local.get	9
	i32.and 
	local.get	19
	i32.xor 
	local.get	17
	i32.xor 
	local.get	28
	i32.xor 
	local.get	17
	local.get	19
	i32.and 
	local.get	31
	i32.xor 
	local.tee	20
	i32.xor 
	local.tee	28
	i32.xor 
	local.get	13
	local.get	8
	local.get	9
	i32.xor 
	local.tee	31
	local.get	11
	local.get	6
	i32.xor 
	local.tee	36
	i32.and 
	i32.xor 
	local.get	29
	i32.xor 
	local.get	6
	i32.xor 
	local.get	20
	i32.xor 
	local.tee	20
	local.get	27
	i32.xor 
	i32.and 
	local.tee	29
	local.get	22
	i32.xor 
	local.get	20
	i32.and 
	local.tee	37
	local.get	22
	local.get	20
	i32.xor 
	local.tee	6
	i32.xor 
	local.get	6
	local.get	34
	local.get	28
	i32.xor 
	local.tee	22
	i32.and 
	local.get	28
	i32.xor 
	local.tee	6
	i32.and 
	local.get	22
	i32.xor 
	local.tee	22
	local.get	6
	i32.xor 
	local.tee	34
	local.get	13
	i32.and 
	local.tee	38
	local.get	22
	local.get	11
	i32.and 
	i32.xor 
	local.tee	39
	local.get	22
	local.get	37
	local.get	27
	i32.xor 
	local.tee	13
	local.get	29
	local.get	20
	i32.xor 
	local.tee	11
	i32.xor 
	local.tee	20
	i32.xor 
	local.tee	27
	local.get	6
	local.get	11
	i32.xor 
	local.tee	28
	i32.xor 
	local.tee	37
	local.get	30
	i32.and 
	i32.xor 
	local.tee	30
	local.get	28
	local.get	8
	i32.and 
	i32.xor 
	local.tee	29
	local.get	20
	local.get	32
	i32.and 
	local.get	13
	local.get	14
	i32.and 
	local.tee	14
	i32.xor 
	local.get	39
	i32.xor 
	local.get	37
	local.get	23
	i32.and 
	local.get	28
	local.get	25
	i32.and 
	local.tee	23
	i32.xor 
	local.tee	25
	local.get	20
	local.get	33
	i32.and 
	i32.xor 
	local.tee	20
	local.get	13
	local.get	24
	i32.and 
	i32.xor 
	local.tee	24
	i32.xor 
	local.tee	8
	i32.xor 
	i32.const	-1
	i32.xor 
	local.tee	13
	i32.const	4
	i32.shr_u
	local.get	13
	i32.xor 
	i32.const	202310400
	i32.and 
	local.tee	28
	i32.const	4
	i32.shl 
	local.get	13
	i32.xor 
	local.get	28
	i32.xor 
	local.tee	13
	i32.const	2
	i32.shr_u
	local.get	13
	i32.xor 
	i32.const	855651072
	i32.and 
	i32.const	5
	i32.mul 
	local.get	13
	i32.xor 
	local.tee	13
	i32.store	24
	local.get	2
	local.get	23
	local.get	27
	local.get	19
	i32.and 
	i32.xor 
	local.get	29
	i32.xor 
	local.get	27
	local.get	17
	i32.and 
	local.get	14
	local.get	11
	local.get	9
	i32.and 
	i32.xor 
	local.tee	14
	i32.xor 
	local.get	34
	local.get	15
	i32.and 
	local.tee	15
	i32.xor 
	local.get	30
	i32.xor 
	local.tee	17
	local.get	6
	local.get	36
	i32.and 
	i32.xor 
	local.tee	19
	i32.xor 
	i32.const	-1
	i32.xor 
	local.tee	9
	i32.const	4
	i32.shr_u
	local.get	9
	i32.xor 
	i32.const	202310400
	i32.and 
	local.tee	23
	i32.const	4
	i32.shl 
	local.get	9
	i32.xor 
	local.get	23
	i32.xor 
	local.tee	9
	i32.const	2
	i32.shr_u
	local.get	9
	i32.xor 
	i32.const	855651072
	i32.and 
	i32.const	5
	i32.mul 
	local.get	9
	i32.xor 
	local.tee	9
	i32.store	20
	local.get	2
	local.get	14
	local.get	6
	local.get	31
	i32.and 
	i32.xor 
	local.get	38
	i32.xor 
	local.tee	14
	local.get	22
	local.get	26
	i32.and 
	i32.xor 
	local.get	25
	i32.xor 
	local.tee	22
	local.get	17
	i32.xor 
	i32.const	-1
	i32.xor 
	local.tee	6
	i32.const	4
	i32.shr_u
	local.get	6
	i32.xor 
	i32.const	202310400
	i32.and 
	local.tee	17
	i32.const	4
	i32.shl 
	local.get	6
	i32.xor 
	local.get	17
	i32.xor 
	local.tee	6
	i32.const	2
	i32.shr_u
	local.get	6
	i32.xor 
	i32.const	855651072
	i32.and 
	i32.const	5
	i32.mul 
	local.get	6
	i32.xor 
	local.tee	17
	i32.store	4
	local.get	2
	local.get	22
	local.get	15
	i32.xor 
	i32.const	-1
	i32.xor 
	local.tee	6
	i32.const	4
	i32.shr_u
	local.get	6
	i32.xor 
	i32.const	202310400
	i32.and 
	local.tee	15
	i32.const	4
	i32.shl 
	local.get	6
	i32.xor 
	local.get	15
	i32.xor 
	local.tee	6
	i32.const	2
	i32.shr_u
	local.get	6
	i32.xor 
	i32.const	855651072
	i32.and 
	i32.const	5
	i32.mul 
	local.get	6
	i32.xor 
	local.tee	15
	i32.store	0
	local.get	2
	local.get	24
	local.get	29
	i32.xor 
	local.tee	6
	i32.const	4
	i32.shr_u
	local.get	6
	i32.xor 
	i32.const	202310400
	i32.and 
	i32.const	17
	i32.mul 
	local.get	6
	i32.xor 
	local.tee	6
	i32.const	2
	i32.shr_u
	local.get	6
	i32.xor 
	i32.const	855651072
	i32.and 
	i32.const	5
	i32.mul 
	local.get	6
	i32.xor 
	local.tee	22
	i32.store	28
	local.get	2
	local.get	8
	i32.const	4
	i32.shr_u
	local.get	8
	i32.xor 
	i32.const	202310400
	i32.and 
	i32.const	17
	i32.mul 
	local.get	8
	i32.xor 
	local.tee	6
	i32.const	2
	i32.shr_u
	local.get	6
	i32.xor 
	i32.const	855651072
	i32.and 
	i32.const	5
	i32.mul 
	local.get	6
	i32.xor 
	local.tee	23
	i32.store	16
	local.get	2
	local.get	20
	local.get	11
	local.get	35
	i32.and 
	i32.xor 
	local.get	19
	i32.xor 
	local.tee	6
	i32.const	4
	i32.shr_u
	local.get	6
	i32.xor 
	i32.const	202310400
	i32.and 
	i32.const	17
	i32.mul 
	local.get	6
	i32.xor 
	local.tee	6
	i32.const	2
	i32.shr_u
	local.get	6
	i32.xor 
	i32.const	855651072
	i32.and 
	i32.const	5
	i32.mul 
	local.get	6
	i32.xor 
	local.tee	11
	i32.store	8
	local.get	2
	local.get	8
	local.get	14
	i32.xor 
	local.tee	6
	i32.const	4
	i32.shr_u
	local.get	6
	i32.xor 
	i32.const	202310400
	i32.and 
	i32.const	17
	i32.mul 
	local.get	6
	i32.xor 
	local.tee	6
	i32.const	2
	i32.shr_u
	local.get	6
	i32.xor 
	i32.const	855651072
	i32.and 
	i32.const	5
	i32.mul 
	local.get	6
	i32.xor 
	local.tee	6
	i32.store	12
	i32.const	0
	local.set	8
	local.get	2
	i32.const	32
	i32.add 
	local.get	2
	i32.const	1
	i32.const	0
	call	aes_planes__soft__word__word32__U32Word__rotate_planes
	local.get	2
	local.get	17
	local.get	2
	i32.load	36
	local.tee	14
	i32.xor 
	i32.store	36
	local.get	2
	local.get	15
	local.get	2
	i32.load	32
	local.tee	17
	i32.xor 
	i32.store	32
	local.get	2
	local.get	6
	local.get	2
	i32.load	44
	local.tee	15
	i32.xor 
	i32.store	44
	local.get	2
	local.get	11
	local.get	2
	i32.load	40
	local.tee	19
	i32.xor 
	i32.store	40
	local.get	2
	local.get	9
	local.get	2
	i32.load	52
	local.tee	11
	i32.xor 
	i32.store	52
	local.get	2
	local.get	23
	local.get	2
	i32.load	48
	local.tee	9
	i32.xor 
	i32.store	48
	local.get	2
	local.get	22
	local.get	2
	i32.load	60
	local.tee	20
	i32.xor 
	i32.store	60
	local.get	2
	local.get	13
	local.get	2
	i32.load	56
	local.tee	22
	i32.xor 
	i32.store	56
	local.get	2
	local.get	2
	i64.load	32:p2align=2
	i64.store	64
	local.get	2
	local.get	2
	i64.load	40:p2align=2
	i64.store	72
	local.get	2
	local.get	2
	i64.load	48:p2align=2
	i64.store	80
	local.get	2
	local.get	2
	i64.load	56:p2align=2
	i64.store	88
	local.get	2
	i32.load	76
	local.set	13
	local.get	2
	i32.load	80
	local.set	23
	local.get	2
	i32.load	72
	local.set	24
	local.get	2
	i32.load	68
	local.set	25
	local.get	2
	i32.load	64
	local.set	26
	local.get	2
	i32.load	92
	local.set	6
	local.get	2
	i32.load	84
	local.set	27
	local.get	2
	i32.load	88
	local.set	28
	local.get	2
	i32.const	32
	i32.add 
	local.get	2
	i32.const	64
	i32.add 
	i32.const	2
	i32.const	0
	call	aes_planes__soft__word__word32__U32Word__rotate_planes
	local.get	2
	local.get	20
	local.get	28
	local.get	2
	i32.load	60
	i32.xor 
	i32.xor 
	i32.store	60
	local.get	2
	local.get	22
	local.get	27
	local.get	2
	i32.load	56
	i32.xor 
	i32.xor 
	i32.store	56
	local.get	2
	local.get	6
	local.get	17
	local.get	2
	i32.load	32
	i32.xor 
	i32.xor 
	i32.store	32
	local.get	2
	local.get	6
	local.get	14
	local.get	26
	local.get	2
	i32.load	36
	i32.xor 
	i32.xor 
	i32.xor 
	i32.store	36
	local.get	2
	local.get	19
	local.get	25
	local.get	2
	i32.load	40
	i32.xor 
	i32.xor 
	i32.store	40
	local.get	2
	local.get	6
	local.get	15
	local.get	24
	local.get	2
	i32.load	44
	i32.xor 
	i32.xor 
	i32.xor 
	i32.store	44
	local.get	2
	local.get	11
	local.get	23
	local.get	2
	i32.load	52
	i32.xor 
	i32.xor 
	i32.store	52
	local.get	2
	local.get	6
	local.get	9
	local.get	13
	local.get	2
	i32.load	48
	i32.xor 
	i32.xor 
	i32.xor 
	i32.store	48
	local.get	2
	local.get	2
	i64.load	56:p2align=2
	i64.store	24
	local.get	2
	local.get	2
	i64.load	32:p2align=2
	i64.store	0
	local.get	2
	local.get	2
	i64.load	40:p2align=2
	i64.store	8
	local.get	2
	local.get	2
	i64.load	48:p2align=2
	i64.store	16
	local.get	5
	local.get	2
	i32.load	28
	local.tee	6
	local.get	2
	i32.load	24
	local.tee	9
	i32.const	1
	i32.shr_u
	i32.xor 
	i32.const	1431655765
	i32.and 
	local.tee	11
	local.get	6
	i32.xor 
	local.tee	6
	local.get	2
	i32.load	20
	local.tee	15
	local.get	2
	i32.load	16
	local.tee	13
	i32.const	1
	i32.shr_u
	i32.xor 
	i32.const	1431655765
	i32.and 
	local.tee	14
	local.get	15
	i32.xor 
	local.tee	15
	i32.const	2
	i32.shr_u
	i32.xor 
	i32.const	858993459
	i32.and 
	local.tee	17
	local.get	6
	i32.xor 
	local.tee	6
	local.get	2
	i32.load	12
	local.tee	19
	local.get	2
	i32.load	8
	local.tee	20
	i32.const	1
	i32.shr_u
	i32.xor 
	i32.const	1431655765
	i32.and 
	local.tee	22
	local.get	19
	i32.xor 
	local.tee	19
	local.get	2
	i32.load	4
	local.tee	23
	local.get	2
	i32.load	0
	local.tee	24
	i32.const	1
	i32.shr_u
	i32.xor 
	i32.const	1431655765
	i32.and 
	local.tee	25
	local.get	23
	i32.xor 
	local.tee	23
	i32.const	2
	i32.shr_u
	i32.xor 
	i32.const	858993459
	i32.and 
	local.tee	26
	local.get	19
	i32.xor 
	local.tee	19
	i32.const	4
	i32.shr_u
	i32.xor 
	i32.const	252645135
	i32.and 
	local.tee	27
	local.get	6
	i32.xor 
	i32.store	0:p2align=0
	local.get	10
	local.get	17
	i32.const	2
	i32.shl 
	local.get	15
	i32.xor 
	local.tee	6
	local.get	26
	i32.const	2
	i32.shl 
	local.get	23
	i32.xor 
	local.tee	15
	i32.const	4
	i32.shr_u
	i32.xor 
	i32.const	252645135
	i32.and 
	local.tee	17
	local.get	6
	i32.xor 
	i32.store	0:p2align=0
	local.get	16
	local.get	27
	i32.const	4
	i32.shl 
	local.get	19
	i32.xor 
	i32.store	0:p2align=0
	local.get	7
	local.get	9
	local.get	11
	i32.const	1
	i32.shl 
	i32.xor 
	local.tee	6
	local.get	13
	local.get	14
	i32.const	1
	i32.shl 
	i32.xor 
	local.tee	9
	i32.const	2
	i32.shr_u
	i32.xor 
	i32.const	858993459
	i32.and 
	local.tee	11
	local.get	6
	i32.xor 
	local.tee	6
	local.get	20
	local.get	22
	i32.const	1
	i32.shl 
	i32.xor 
	local.tee	13
	local.get	24
	local.get	25
	i32.const	1
	i32.shl 
	i32.xor 
	local.tee	14
	i32.const	2
	i32.shr_u
	i32.xor 
	i32.const	858993459
	i32.and 
	local.tee	19
	local.get	13
	i32.xor 
	local.tee	13
	i32.const	4
	i32.shr_u
	i32.xor 
	i32.const	252645135
	i32.and 
	local.tee	20
	local.get	6
	i32.xor 
	i32.store	0:p2align=0
	local.get	21
	local.get	17
	i32.const	4
	i32.shl 
	local.get	15
	i32.xor 
	i32.store	0:p2align=0
	local.get	12
	local.get	11
	i32.const	2
	i32.shl 
	local.get	9
	i32.xor 
	local.tee	6
	local.get	19
	i32.const	2
	i32.shl 
	local.get	14
	i32.xor 
	local.tee	9
	i32.const	4
	i32.shr_u
	i32.xor 
	i32.const	252645135
	i32.and 
	local.tee	11
	local.get	6
	i32.xor 
	i32.store	0:p2align=0
	local.get	18
	local.get	20
	i32.const	4
	i32.shl 
	local.get	13
	i32.xor 
	i32.store	0:p2align=0
	local.get	4
	local.get	11
	i32.const	4
	i32.shl 
	local.get	9
	i32.xor 
	i32.store	0:p2align=0
	local.get	4
	i32.const	32
	i32.add 
	local.set	4
	local.get	3
	i64.const	2
	i64.add 
	local.tee	3
	i64.const	6
	i64.lt_u
	br_if   	0                               # 0: up to label147
# %bb.2:                                # %join.5.i.i.i.preheader
	end_loop
	i64.const	8
	local.set	3
.LBB47_3:                               # %join.5.i.i.i
                                        # =>This Inner Loop Header: Depth=1
	loop    	                                # label148:
	local.get	1
	local.get	8
	i32.add 
	local.tee	6
	i32.const	1
	i32.add 
	i32.load8_u	0
	local.set	9
	local.get	0
	local.get	8
	i32.add 
	local.tee	4
	i32.const	1
	i32.add 
	local.tee	11
	i32.load8_u	0
	local.set	15
	local.get	6
	i32.const	2
	i32.add 
	i32.load8_u	0
	local.set	13
	local.get	4
	i32.const	2
	i32.add 
	local.tee	14
	i32.load8_u	0
	local.set	17
	local.get	6
	i32.const	3
	i32.add 
	i32.load8_u	0
	local.set	19
	local.get	4
	i32.const	3
	i32.add 
	local.tee	20
	i32.load8_u	0
	local.set	22
	local.get	6
	i32.const	4
	i32.add 
	i32.load8_u	0
	local.set	23
	local.get	4
	i32.const	4
	i32.add 
	local.tee	24
	i32.load8_u	0
	local.set	25
	local.get	6
	i32.const	5
	i32.add 
	i32.load8_u	0
	local.set	26
	local.get	4
	i32.const	5
	i32.add 
	local.tee	27
	i32.load8_u	0
	local.set	28
	local.get	6
	i32.const	6
	i32.add 
	i32.load8_u	0
	local.set	29
	local.get	4
	i32.const	6
	i32.add 
	local.tee	5
	i32.load8_u	0
	local.set	7
	local.get	6
	i32.const	7
	i32.add 
	i32.load8_u	0
	local.set	10
	local.get	4
	i32.const	7
	i32.add 
	local.tee	12
	i32.load8_u	0
	local.set	16
	local.get	6
	i32.const	8
	i32.add 
	i32.load8_u	0
	local.set	18
	local.get	4
	i32.const	8
	i32.add 
	local.tee	21
	i32.load8_u	0
	local.set	30
	local.get	6
	i32.const	9
	i32.add 
	i32.load8_u	0
	local.set	31
	local.get	4
	i32.const	9
	i32.add 
	local.tee	32
	i32.load8_u	0
	local.set	33
	local.get	6
	i32.const	10
	i32.add 
	i32.load8_u	0
	local.set	34
	local.get	4
	i32.const	10
	i32.add 
	local.tee	35
	i32.load8_u	0
	local.set	36
	local.get	6
	i32.const	11
	i32.add 
	i32.load8_u	0
	local.set	37
	local.get	4
	i32.const	11
	i32.add 
	local.tee	38
	i32.load8_u	0
	local.set	39
	local.get	6
	i32.const	12
	i32.add 
	i32.load8_u	0
	local.set	40
	local.get	4
	i32.const	12
	i32.add 
	local.tee	41
	i32.load8_u	0
	local.set	42
	local.get	6
	i32.const	13
	i32.add 
	i32.load8_u	0
	local.set	43
	local.get	4
	i32.const	13
	i32.add 
	local.tee	44
	i32.load8_u	0
	local.set	45
	local.get	6
	i32.const	14
	i32.add 
	i32.load8_u	0
	local.set	46
	local.get	4
	i32.const	14
	i32.add 
	local.tee	47
	i32.load8_u	0
	local.set	48
	local.get	6
	i32.const	15
	i32.add 
	i32.load8_u	0
	local.set	49
	local.get	4
	i32.const	15
	i32.add 
	local.tee	50
	i32.load8_u	0
	local.set	51
	local.get	4
	local.get	6
	i32.load8_u	0
	local.get	4
	i32.load8_u	0
	i32.xor 
	i32.store8	0
	local.get	50
	local.get	49
	local.get	51
	i32.xor 
	i32.store8	0
	local.get	47
	local.get	46
	local.get	48
	i32.xor 
	i32.store8	0
	local.get	44
	local.get	43
	local.get	45
	i32.xor 
	i32.store8	0
	local.get	41
	local.get	40
	local.get	42
	i32.xor 
	i32.store8	0
	local.get	38
	local.get	37
	local.get	39
	i32.xor 
	i32.store8	0
	local.get	35
	local.get	34
	local.get	36
	i32.xor 
	i32.store8	0
	local.get	32
	local.get	31
	local.get	33
	i32.xor 
	i32.store8	0
	local.get	21
	local.get	18
	local.get	30
	i32.xor 
	i32.store8	0
	local.get	12
	local.get	10
	local.get	16
	i32.xor 
	i32.store8	0
	local.get	5
	local.get	29
	local.get	7
	i32.xor 
	i32.store8	0
	local.get	27
	local.get	26
	local.get	28
	i32.xor 
	i32.store8	0
	local.get	24
	local.get	23
	local.get	25
	i32.xor 
	i32.store8	0
	local.get	20
	local.get	19
	local.get	22
	i32.xor 
	i32.store8	0
	local.get	14
	local.get	13
	local.get	17
	i32.xor 
	i32.store8	0
	local.get	11
	local.get	9
	local.get	15
	i32.xor 
	i32.store8	0
	local.get	8
	i32.const	16
	i32.add 
	local.set	8
	local.get	3
	i64.const	-1
	i64.add 
	local.tee	3
	i64.const	0
	i64.ne  
	br_if   	0                               # 0: up to label148
# %bb.4:                                # %aes_soft__soft__hazmat__par__cipher_round_par____e817d94f9a7b6ba6_.exit
	end_loop
	local.get	2
	i32.const	96
	i32.add 
	global.set	__stack_pointer
                                        # fallthrough-return
	end_function
                                        # -- End function
	.section	.text.aes_c__kept__fotsgure_aes_set_key,"",@
	.type	aes_c__kept__fotsgure_aes_set_key,@function # -- Begin function aes_c__kept__fotsgure_aes_set_key
aes_c__kept__fotsgure_aes_set_key:      # @aes_c__kept__fotsgure_aes_set_key
	.functype	aes_c__kept__fotsgure_aes_set_key (i32, i32, i64) -> (i32)
# %bb.0:                                # %start
	block   	
	local.get	2
	i64.const	32
	i64.eq  
	br_if   	0                               # 0: down to label149
# %bb.1:                                # %start
	local.get	2
	i64.const	4294967287
	i64.and 
	i64.const	16
	i64.eq  
	br_if   	0                               # 0: down to label149
# %bb.2:                                # %then.1
	local.get	0
	i32.const	0
	i32.const	484
	call	memset
	drop
	i32.const	1
	return
.LBB48_3:                               # %join.3
	end_block                               # label149:
	local.get	0
	i32.const	4
	i32.add 
	i32.const	0
	i32.const	480
	call	memset
	local.get	1
	local.get	2
	call	aes_narrow__word_room__expand_words____6af90bfc14753d47_
	call	aes_cipher__zeroize__stack__wipe_stack____768_
	local.get	0
	local.get	2
	i64.store32	0
	i32.const	0
                                        # fallthrough-return
	end_function
                                        # -- End function
	.section	.text.ccm__mode__decrypt____4f733d09d7f6c6b4_,"",@
	.type	ccm__mode__decrypt____4f733d09d7f6c6b4_,@function # -- Begin function ccm__mode__decrypt____4f733d09d7f6c6b4_
ccm__mode__decrypt____4f733d09d7f6c6b4_: # @ccm__mode__decrypt____4f733d09d7f6c6b4_
	.functype	ccm__mode__decrypt____4f733d09d7f6c6b4_ (i32, i32, i32, i64, i32, i64, i32, i64, i32, i64) -> ()
	.local  	i32, i32, i32
# %bb.0:                                # %start
	global.get	__stack_pointer
	i32.const	48
	i32.sub 
	local.tee	10
	global.set	__stack_pointer
	local.get	10
	i32.const	8
	i32.add 
	local.get	3
	local.get	7
	local.get	9
	call	ccm__formatting__check
	block   	
	block   	
	local.get	10
	i32.load8_u	8
	i32.const	1
	i32.ne  
	br_if   	0                               # 0: down to label151
# %bb.1:                                # %arm.1
	local.get	10
	i32.load8_u	9
	local.set	6
	local.get	0
	i32.const	1
	i32.store16	0:p2align=0
	local.get	0
	i32.const	2
	i32.add 
	local.get	6
	i32.store8	0
	br      	1                               # 1: down to label150
.LBB49_2:                               # %join.4
	end_block                               # label151:
	local.get	10
	i64.const	0
	i64.store	16
	local.get	10
	i64.const	0
	i64.store	23:p2align=0
	local.get	10
	i32.const	16
	i32.add 
	local.get	2
	local.get	3
	i32.wrap_i64
	local.tee	11
	call	memcpy
	drop
	local.get	10
	i32.const	14
	local.get	11
	i32.sub 
	local.tee	12
	i32.store8	32
	local.get	10
	local.get	10
	i64.load	16
	i64.store	33:p2align=0
	local.get	10
	local.get	10
	i64.load	23:p2align=0
	i64.store	40:p2align=0
	local.get	1
	local.get	10
	i32.const	32
	i32.add 
	i64.const	16
	local.get	6
	local.get	7
	call	aes_ctr__add_in_batches__add_keystream____4f733d09d7f6c6b4_
	local.get	1
	local.get	2
	local.get	3
	local.get	9
	local.get	4
	local.get	5
	local.get	6
	local.get	7
	local.get	10
	i32.const	16
	i32.add 
	call	ccm__message__put_tag____4f733d09d7f6c6b4_
	local.get	10
	local.get	10
	i64.load	24:p2align=0
	i64.store	40
	local.get	10
	local.get	10
	i64.load	16:p2align=0
	i64.store	32
	local.get	10
	i32.const	32
	i32.add 
	local.get	8
	local.get	9
	i32.wrap_i64
	call	memcpy
	drop
	block   	
	local.get	10
	i32.const	32
	i32.add 
	local.get	10
	i32.const	16
	i32.add 
	call	aes_cipher__blocks__difference
	br_if   	0                               # 0: down to label152
# %bb.3:                                # %then.5
	local.get	0
	i32.const	0
	i32.store16	0:p2align=0
	local.get	0
	i32.const	2
	i32.add 
	i32.const	0
	i32.store8	0
	br      	1                               # 1: down to label150
.LBB49_4:                               # %join.7
	end_block                               # label152:
	local.get	10
	i64.const	0
	i64.store	16
	local.get	10
	i64.const	0
	i64.store	23:p2align=0
	local.get	10
	i32.const	16
	i32.add 
	local.get	2
	local.get	11
	call	memcpy
	drop
	local.get	10
	local.get	12
	i32.store8	32
	local.get	10
	local.get	10
	i64.load	16
	i64.store	33:p2align=0
	local.get	10
	local.get	10
	i64.load	23:p2align=0
	i64.store	40:p2align=0
	local.get	1
	local.get	10
	i32.const	32
	i32.add 
	i64.const	16
	local.get	6
	local.get	7
	call	aes_ctr__add_in_batches__add_keystream____4f733d09d7f6c6b4_
	local.get	0
	i32.const	2
	i32.add 
	i32.const	0
	i32.store8	0
	local.get	0
	i32.const	257
	i32.store16	0:p2align=0
.LBB49_5:                               # %common.ret
	end_block                               # label150:
	local.get	10
	i32.const	48
	i32.add 
	global.set	__stack_pointer
                                        # fallthrough-return
	end_function
                                        # -- End function
	.section	.text.ccm__formatting__check,"",@
	.type	ccm__formatting__check,@function # -- Begin function ccm__formatting__check
ccm__formatting__check:                 # @ccm__formatting__check
	.functype	ccm__formatting__check (i32, i64, i64, i64) -> ()
	.local  	i32, i32
# %bb.0:                                # %start
	i32.const	1
	local.set	4
	i32.const	0
	local.set	5
	block   	
	local.get	3
	i64.const	-4
	i64.add 
	i64.const	12
	i64.gt_u
	br_if   	0                               # 0: down to label153
# %bb.1:                                # %start
	local.get	3
	i64.const	1
	i64.and 
	i32.wrap_i64
	br_if   	0                               # 0: down to label153
# %bb.2:                                # %after.1
	i32.const	1
	local.set	5
	i32.const	1
	local.set	4
	local.get	1
	i64.const	-14
	i64.add 
	i64.const	-7
	i64.lt_u
	br_if   	0                               # 0: down to label153
# %bb.3:                                # %after.15
	i32.const	2
	i32.const	0
	local.get	1
	i64.const	7
	i64.ne  
	local.get	2
	local.get	1
	i64.const	3
	i64.shl 
	i64.const	120
	i64.xor 
	i64.shr_u
	i64.const	0
	i64.ne  
	i32.and 
	local.tee	4
	i32.select
	local.set	5
.LBB50_4:                               # %return.13
	end_block                               # label153:
	local.get	0
	local.get	5
	i32.store8	1
	local.get	0
	local.get	4
	i32.store8	0
                                        # fallthrough-return
	end_function
                                        # -- End function
	.section	.text.ccm__message__put_tag____4f733d09d7f6c6b4_,"",@
	.type	ccm__message__put_tag____4f733d09d7f6c6b4_,@function # -- Begin function ccm__message__put_tag____4f733d09d7f6c6b4_
ccm__message__put_tag____4f733d09d7f6c6b4_: # @ccm__message__put_tag____4f733d09d7f6c6b4_
	.functype	ccm__message__put_tag____4f733d09d7f6c6b4_ (i32, i32, i64, i64, i32, i64, i32, i64, i32) -> ()
	.local  	i32, i32, i32, i32, i64, i32, i32, i32, i32, i32, i32, i32, i32, i32, i32, i32, i32, i32, i32, i32, i32, i32, i32, i32, i32, i32, i32, i32
# %bb.0:                                # %start
	global.get	__stack_pointer
	i32.const	64
	i32.sub 
	local.tee	9
	global.set	__stack_pointer
	local.get	9
	i64.const	0
	i64.store	16
	local.get	9
	i64.const	0
	i64.store	8
	local.get	9
	i64.const	0
	i64.store	32
	local.get	9
	i64.const	0
	i64.store	39:p2align=0
	local.get	9
	local.get	7
	i64.const	56
	i64.shl 
	local.get	7
	i64.const	65280
	i64.and 
	i64.const	40
	i64.shl 
	i64.or  
	local.get	7
	i64.const	16711680
	i64.and 
	i64.const	24
	i64.shl 
	local.get	7
	i64.const	4278190080
	i64.and 
	i64.const	8
	i64.shl 
	i64.or  
	i64.or  
	local.get	7
	i64.const	8
	i64.shr_u
	i64.const	4278190080
	i64.and 
	local.get	7
	i64.const	24
	i64.shr_u
	i64.const	16711680
	i64.and 
	i64.or  
	local.get	7
	i64.const	40
	i64.shr_u
	i64.const	65280
	i64.and 
	local.get	7
	i64.const	56
	i64.shr_u
	i64.or  
	i64.or  
	i64.or  
	i64.store	24
	local.get	9
	i32.const	32
	i32.add 
	local.get	1
	local.get	2
	i32.wrap_i64
	local.tee	10
	call	memcpy
	drop
	local.get	9
	i32.const	49
	i32.add 
	local.tee	11
	local.get	9
	i64.load	32
	i64.store	0:p2align=0
	local.get	9
	i32.const	56
	i32.add 
	local.get	9
	i64.load	39:p2align=0
	i64.store	0:p2align=0
	local.get	9
	i32.const	14
	i32.const	78
	local.get	5
	i64.eqz
	local.tee	12
	i32.select
	i64.const	0
	local.get	3
	i64.const	-2
	i64.add 
	local.tee	13
	local.get	13
	local.get	3
	i64.gt_u
	i64.select
	i64.const	2
	i64.shl 
	i64.const	248
	i64.and 
	local.get	2
	i64.sub 
	i32.wrap_i64
	i32.add 
	i32.store8	48
	block   	
	block   	
	local.get	11
	local.get	10
	i32.add 
	local.tee	11
	i64.extend_i32_u
	local.get	9
	i32.const	24
	i32.add 
	local.get	10
	i32.add 
	i32.const	-7
	i32.add 
	local.tee	14
	i64.extend_i32_u
	i64.sub 
	i64.const	15
	local.get	2
	i64.sub 
	local.tee	2
	i64.ge_u
	br_if   	0                               # 0: down to label155
# %bb.1:                                # %join.7.i.i.i.i.i.i.preheader.i
	local.get	11
	local.get	14
	i32.const	15
	local.get	10
	i32.sub 
	call	memcpy
	drop
	br      	1                               # 1: down to label154
.LBB51_2:                               # %apart.2.i.i.i.i.i.i.i
	end_block                               # label155:
	local.get	11
	local.get	14
	local.get	2
	i32.wrap_i64
	call	memcpy
	drop
.LBB51_3:                               # %ccm__formatting__first_block.exit
	end_block                               # label154:
	local.get	9
	i64.load	48:p2align=0
	local.set	2
	local.get	8
	local.get	9
	i64.load	56:p2align=0
	i64.store	8:p2align=0
	local.get	8
	local.get	2
	i64.store	0:p2align=0
	local.get	0
	i32.load	0:p2align=0
	local.get	0
	i64.load	8:p2align=0
	local.get	8
	i64.const	1
	call	aes_narrow__blocks__process_all_batches____1a21aa7f601e7603_
	call	aes_cipher__zeroize__stack__wipe_stack____1024_
	block   	
	local.get	12
	br_if   	0                               # 0: down to label156
# %bb.4:                                # %join.3.i
	local.get	9
	i64.const	0
	i64.store	56
	local.get	9
	i64.const	0
	i64.store	48
	local.get	5
	i64.const	56
	i64.shl 
	local.get	5
	i64.const	65280
	i64.and 
	i64.const	40
	i64.shl 
	i64.or  
	local.get	5
	i64.const	16711680
	i64.and 
	i64.const	24
	i64.shl 
	local.get	5
	i64.const	4278190080
	i64.and 
	i64.const	8
	i64.shl 
	i64.or  
	i64.or  
	local.get	5
	i64.const	8
	i64.shr_u
	i64.const	4278190080
	i64.and 
	local.get	5
	i64.const	24
	i64.shr_u
	i64.const	16711680
	i64.and 
	i64.or  
	local.get	5
	i64.const	40
	i64.shr_u
	i64.const	65280
	i64.and 
	local.get	5
	i64.const	56
	i64.shr_u
	i64.or  
	i64.or  
	i64.or  
	local.set	2
	block   	
	block   	
	local.get	5
	i64.const	65279
	i64.gt_u
	br_if   	0                               # 0: down to label158
# %bb.5:                                # %then.1.i.i
	local.get	9
	local.get	2
	i64.const	48
	i64.shr_u
	i64.store16	48
	i64.const	2
	local.set	2
	br      	1                               # 1: down to label157
.LBB51_6:                               # %join.3.i.i
	end_block                               # label158:
	local.get	9
	i32.const	65279
	i32.store16	48
	local.get	9
	local.get	2
	i64.const	32
	i64.shr_u
	i64.store32	50:p2align=1
	i64.const	6
	local.set	2
.LBB51_7:                               # %ccm__formatting__put_length.exit.i
	end_block                               # label157:
	local.get	9
	i32.const	48
	i32.add 
	local.get	2
	i32.wrap_i64
	i32.or  
	local.get	4
	i64.const	16
	local.get	2
	i64.sub 
	local.tee	2
	local.get	5
	local.get	2
	local.get	5
	i64.lt_u
	i64.select
	local.tee	2
	i32.wrap_i64
	local.tee	11
	call	memcpy
	drop
	local.get	0
	local.get	8
	local.get	9
	i32.const	48
	i32.add 
	i64.const	16
	call	cmac__chaining__chain____4f733d09d7f6c6b4_
	local.get	0
	local.get	8
	local.get	4
	local.get	11
	i32.add 
	local.get	5
	local.get	2
	i64.sub 
	call	cmac__chaining__chain____4f733d09d7f6c6b4_
.LBB51_8:                               # %ccm__message__chain_additional____4f733d09d7f6c6b4_.exit
	end_block                               # label156:
	local.get	0
	local.get	8
	local.get	6
	local.get	7
	call	cmac__chaining__chain____4f733d09d7f6c6b4_
	local.get	9
	i64.const	0
	i64.store	55:p2align=0
	local.get	9
	i64.const	0
	i64.store	48
	local.get	9
	i32.const	48
	i32.add 
	local.get	1
	local.get	10
	call	memcpy
	drop
	local.get	9
	i32.const	14
	local.get	10
	i32.sub 
	i32.store8	8
	local.get	9
	local.get	9
	i32.load8_u	62
	i32.store8	23
	local.get	9
	local.get	9
	i32.load16_u	60
	i32.store16	21:p2align=0
	local.get	9
	local.get	9
	i32.load	56
	i32.store	17:p2align=0
	local.get	9
	local.get	9
	i64.load	48
	i64.store	9:p2align=0
	local.get	0
	i32.load	0:p2align=0
	local.get	0
	i64.load	8:p2align=0
	local.get	9
	i32.const	8
	i32.add 
	i64.const	1
	call	aes_narrow__blocks__process_all_batches____1a21aa7f601e7603_
	call	aes_cipher__zeroize__stack__wipe_stack____1024_
	local.get	8
	i32.load8_u	0
	local.set	0
	local.get	8
	i32.load8_u	1
	local.set	10
	local.get	8
	i32.load8_u	2
	local.set	1
	local.get	8
	i32.load8_u	3
	local.set	4
	local.get	8
	i32.load8_u	4
	local.set	6
	local.get	8
	i32.load8_u	5
	local.set	11
	local.get	8
	i32.load8_u	6
	local.set	12
	local.get	8
	i32.load8_u	7
	local.set	14
	local.get	8
	i32.load8_u	8
	local.set	15
	local.get	8
	i32.load8_u	9
	local.set	16
	local.get	8
	i32.load8_u	10
	local.set	17
	local.get	8
	i32.load8_u	11
	local.set	18
	local.get	8
	i32.load8_u	12
	local.set	19
	local.get	8
	i32.load8_u	13
	local.set	20
	local.get	8
	i32.load8_u	14
	local.set	21
	local.get	9
	i32.load8_u	8
	local.set	22
	local.get	9
	i32.load8_u	9
	local.set	23
	local.get	9
	i32.load8_u	10
	local.set	24
	local.get	9
	i32.load8_u	11
	local.set	25
	local.get	9
	i32.load8_u	12
	local.set	26
	local.get	9
	i32.load8_u	13
	local.set	27
	local.get	9
	i32.load8_u	14
	local.set	28
	local.get	9
	i32.load8_u	15
	local.set	29
	local.get	9
	i32.load8_u	16
	local.set	30
	local.get	9
	i32.load8_u	17
	local.set	31
	local.get	9
	i32.load8_u	18
	local.set	32
	local.get	9
	i32.load8_u	19
	local.set	33
	local.get	9
	i32.load8_u	20
	local.set	34
	local.get	9
	i32.load8_u	21
	local.set	35
	local.get	9
	i32.load8_u	22
	local.set	36
	local.get	8
	local.get	9
	i32.load8_u	23
	local.get	8
	i32.load8_u	15
	i32.xor 
	i32.store8	15
	local.get	8
	local.get	36
	local.get	21
	i32.xor 
	i32.store8	14
	local.get	8
	local.get	35
	local.get	20
	i32.xor 
	i32.store8	13
	local.get	8
	local.get	34
	local.get	19
	i32.xor 
	i32.store8	12
	local.get	8
	local.get	33
	local.get	18
	i32.xor 
	i32.store8	11
	local.get	8
	local.get	32
	local.get	17
	i32.xor 
	i32.store8	10
	local.get	8
	local.get	31
	local.get	16
	i32.xor 
	i32.store8	9
	local.get	8
	local.get	30
	local.get	15
	i32.xor 
	i32.store8	8
	local.get	8
	local.get	29
	local.get	14
	i32.xor 
	i32.store8	7
	local.get	8
	local.get	28
	local.get	12
	i32.xor 
	i32.store8	6
	local.get	8
	local.get	27
	local.get	11
	i32.xor 
	i32.store8	5
	local.get	8
	local.get	26
	local.get	6
	i32.xor 
	i32.store8	4
	local.get	8
	local.get	25
	local.get	4
	i32.xor 
	i32.store8	3
	local.get	8
	local.get	24
	local.get	1
	i32.xor 
	i32.store8	2
	local.get	8
	local.get	23
	local.get	10
	i32.xor 
	i32.store8	1
	local.get	8
	local.get	22
	local.get	0
	i32.xor 
	i32.store8	0
	local.get	9
	i32.const	64
	i32.add 
	global.set	__stack_pointer
                                        # fallthrough-return
	end_function
                                        # -- End function
	.section	.text.ccm__mode__encrypt____4f733d09d7f6c6b4_,"",@
	.type	ccm__mode__encrypt____4f733d09d7f6c6b4_,@function # -- Begin function ccm__mode__encrypt____4f733d09d7f6c6b4_
ccm__mode__encrypt____4f733d09d7f6c6b4_: # @ccm__mode__encrypt____4f733d09d7f6c6b4_
	.functype	ccm__mode__encrypt____4f733d09d7f6c6b4_ (i32, i32, i32, i64, i32, i64, i32, i64, i32, i64) -> ()
	.local  	i32, i32
# %bb.0:                                # %start
	global.get	__stack_pointer
	i32.const	64
	i32.sub 
	local.tee	10
	global.set	__stack_pointer
	local.get	10
	i32.const	8
	i32.add 
	local.get	3
	local.get	7
	local.get	9
	call	ccm__formatting__check
	block   	
	block   	
	local.get	10
	i32.load8_u	8
	local.tee	11
	br_if   	0                               # 0: down to label160
# %bb.1:                                # %arm.1
	local.get	1
	local.get	2
	local.get	3
	local.get	9
	local.get	4
	local.get	5
	local.get	6
	local.get	7
	local.get	10
	i32.const	16
	i32.add 
	call	ccm__message__put_tag____4f733d09d7f6c6b4_
	local.get	8
	local.get	10
	i32.const	16
	i32.add 
	local.get	9
	i32.wrap_i64
	call	memcpy
	drop
	local.get	10
	i64.const	0
	i64.store	48
	local.get	10
	i64.const	0
	i64.store	55:p2align=0
	local.get	10
	i32.const	48
	i32.add 
	local.get	2
	local.get	3
	i32.wrap_i64
	local.tee	8
	call	memcpy
	drop
	local.get	10
	i32.const	14
	local.get	8
	i32.sub 
	i32.store8	32
	local.get	10
	local.get	10
	i64.load	48
	i64.store	33:p2align=0
	local.get	10
	local.get	10
	i64.load	55:p2align=0
	i64.store	40:p2align=0
	local.get	1
	local.get	10
	i32.const	32
	i32.add 
	i64.const	16
	local.get	6
	local.get	7
	call	aes_ctr__add_in_batches__add_keystream____4f733d09d7f6c6b4_
	i32.const	0
	local.set	6
	br      	1                               # 1: down to label159
.LBB52_2:                               # %arm.2
	end_block                               # label160:
	local.get	10
	i32.load8_u	9
	local.set	6
.LBB52_3:                               # %return.5
	end_block                               # label159:
	local.get	0
	local.get	6
	i32.store8	1
	local.get	0
	local.get	11
	i32.store8	0
	local.get	10
	i32.const	64
	i32.add 
	global.set	__stack_pointer
                                        # fallthrough-return
	end_function
                                        # -- End function
	.section	.text.fotsgure_aes_version,"",@
	.globl	fotsgure_aes_version            # -- Begin function fotsgure_aes_version
	.type	fotsgure_aes_version,@function
fotsgure_aes_version:                   # @fotsgure_aes_version
	.functype	fotsgure_aes_version () -> (i32)
# %bb.0:
	i32.const	400
                                        # fallthrough-return
	end_function
                                        # -- End function
	.section	.text.fotsgure_aes_set_key,"",@
	.globl	fotsgure_aes_set_key            # -- Begin function fotsgure_aes_set_key
	.type	fotsgure_aes_set_key,@function
fotsgure_aes_set_key:                   # @fotsgure_aes_set_key
	.functype	fotsgure_aes_set_key (i32, i32, i32) -> (i32)
# %bb.0:
	local.get	0
	local.get	1
	i32.const	0
	i32.const	4096
	local.get	1
	i32.select
	i32.add 
	local.get	2
	i64.extend_i32_u
	call	aes_c__kept__fotsgure_aes_set_key
                                        # fallthrough-return
	end_function
                                        # -- End function
	.section	.text.fotsgure_aes_key_length,"",@
	.globl	fotsgure_aes_key_length         # -- Begin function fotsgure_aes_key_length
	.type	fotsgure_aes_key_length,@function
fotsgure_aes_key_length:                # @fotsgure_aes_key_length
	.functype	fotsgure_aes_key_length (i32) -> (i32)
# %bb.0:
	local.get	0
	i32.load	0
	local.tee	0
	local.get	0
	i32.const	0
	local.get	0
	i32.const	-9
	i32.and 
	i32.const	16
	i32.eq  
	i32.select
	local.get	0
	i32.const	32
	i32.eq  
	i32.select
                                        # fallthrough-return
	end_function
                                        # -- End function
	.section	.text.fotsgure_aes_wipe,"",@
	.globl	fotsgure_aes_wipe               # -- Begin function fotsgure_aes_wipe
	.type	fotsgure_aes_wipe,@function
fotsgure_aes_wipe:                      # @fotsgure_aes_wipe
	.functype	fotsgure_aes_wipe (i32) -> ()
# %bb.0:
	local.get	0
	i32.const	0
	i32.const	484
	call	memset
	i32.const	4
	i32.add 
	call	aes_cipher__zeroize__elements__zeroize_elements____54a2bb646728b9ee_
                                        # fallthrough-return
	end_function
                                        # -- End function
	.section	.text.fotsgure_aes_encrypt_blocks,"",@
	.globl	fotsgure_aes_encrypt_blocks     # -- Begin function fotsgure_aes_encrypt_blocks
	.type	fotsgure_aes_encrypt_blocks,@function
fotsgure_aes_encrypt_blocks:            # @fotsgure_aes_encrypt_blocks
	.functype	fotsgure_aes_encrypt_blocks (i32, i32, i32) -> (i32)
	.local  	i64, i32
# %bb.0:
	block   	
	block   	
	local.get	0
	i64.load32_u	0
	local.tee	3
	i64.const	32
	i64.eq  
	br_if   	0                               # 0: down to label162
# %bb.1:
	i32.const	2
	local.set	4
	local.get	3
	i64.const	4294967287
	i64.and 
	i64.const	16
	i64.ne  
	br_if   	1                               # 1: down to label161
.LBB57_2:                               # %join.3.i.i
	end_block                               # label162:
	i32.const	0
	local.set	4
	local.get	0
	i32.const	4
	i32.add 
	local.get	3
	i64.const	1
	i64.shl 
	i64.const	56
	i64.add 
	local.get	1
	i32.const	0
	i32.const	4096
	local.get	1
	i32.select
	i32.add 
	local.get	2
	i64.extend_i32_u
	call	aes_narrow__blocks__process_all_batches____1a21aa7f601e7603_
	call	aes_cipher__zeroize__stack__wipe_stack____1024_
.LBB57_3:                               # %wide_fotsgure_aes_encrypt_blocks.exit
	end_block                               # label161:
	local.get	4
                                        # fallthrough-return
	end_function
                                        # -- End function
	.section	.text.fotsgure_aes_decrypt_blocks,"",@
	.globl	fotsgure_aes_decrypt_blocks     # -- Begin function fotsgure_aes_decrypt_blocks
	.type	fotsgure_aes_decrypt_blocks,@function
fotsgure_aes_decrypt_blocks:            # @fotsgure_aes_decrypt_blocks
	.functype	fotsgure_aes_decrypt_blocks (i32, i32, i32) -> (i32)
# %bb.0:
	local.get	0
	local.get	1
	i32.const	0
	i32.const	4096
	local.get	1
	i32.select
	i32.add 
	local.get	2
	i64.extend_i32_u
	call	aes_c__blocks__fotsgure_aes_decrypt_blocks
                                        # fallthrough-return
	end_function
                                        # -- End function
	.section	.text.fotsgure_aes_encrypt_blocks_to,"",@
	.globl	fotsgure_aes_encrypt_blocks_to  # -- Begin function fotsgure_aes_encrypt_blocks_to
	.type	fotsgure_aes_encrypt_blocks_to,@function
fotsgure_aes_encrypt_blocks_to:         # @fotsgure_aes_encrypt_blocks_to
	.functype	fotsgure_aes_encrypt_blocks_to (i32, i32, i32, i32, i32) -> (i32)
	.local  	i32, i32, i32, i32, i32, i64, i64, i64, i64, i64
# %bb.0:
	i32.const	3
	local.set	5
	block   	
	local.get	2
	local.get	4
	i32.ne  
	br_if   	0                               # 0: down to label163
# %bb.1:                                # %join.3.i.i
	i32.const	2
	local.set	5
	local.get	0
	i32.load	0
	i32.const	-16
	i32.add 
	local.tee	4
	i32.const	16
	i32.gt_u
	br_if   	0                               # 0: down to label163
# %bb.2:                                # %join.3.i.i
	i32.const	1
	local.get	4
	i32.shl 
	i32.const	65793
	i32.and 
	i32.eqz
	br_if   	0                               # 0: down to label163
# %bb.3:                                # %join.6.i.i
	block   	
	block   	
	local.get	3
	i32.const	0
	i32.const	4096
	local.get	3
	i32.select
	local.tee	6
	i32.add 
	local.tee	7
	i64.extend_i32_u
	local.get	1
	i32.const	0
	i32.const	4096
	local.get	1
	i32.select
	local.tee	8
	i32.add 
	local.tee	9
	i64.extend_i32_u
	i64.sub 
	local.get	2
	i64.extend_i32_u
	local.tee	10
	i64.const	4
	i64.shl 
	local.tee	11
	i64.ge_u
	br_if   	0                               # 0: down to label165
# %bb.4:                                # %join.7.i.i.i.i.i.i.i.i.preheader
	local.get	10
	i64.const	3
	i64.and 
	local.set	11
	i64.const	0
	local.set	12
	block   	
	local.get	2
	i32.const	-1
	i32.add 
	i32.const	3
	i32.lt_u
	br_if   	0                               # 0: down to label166
# %bb.5:                                # %join.7.i.i.i.i.i.i.i.i.preheader.new
	local.get	10
	i64.const	4294967292
	i64.and 
	local.set	13
	i64.const	0
	local.set	12
	i32.const	0
	local.set	4
.LBB59_6:                               # %join.7.i.i.i.i.i.i.i.i
                                        # =>This Inner Loop Header: Depth=1
	loop    	                                # label167:
	local.get	9
	local.get	4
	i32.add 
	local.tee	5
	i64.load	0:p2align=0
	local.set	14
	local.get	7
	local.get	4
	i32.add 
	local.tee	2
	local.get	5
	i64.load	8:p2align=0
	i64.store	8:p2align=0
	local.get	2
	local.get	14
	i64.store	0:p2align=0
	local.get	5
	i32.const	16
	i32.add 
	i64.load	0:p2align=0
	local.set	14
	local.get	2
	i32.const	24
	i32.add 
	local.get	5
	i32.const	24
	i32.add 
	i64.load	0:p2align=0
	i64.store	0:p2align=0
	local.get	2
	i32.const	16
	i32.add 
	local.get	14
	i64.store	0:p2align=0
	local.get	5
	i32.const	32
	i32.add 
	i64.load	0:p2align=0
	local.set	14
	local.get	2
	i32.const	40
	i32.add 
	local.get	5
	i32.const	40
	i32.add 
	i64.load	0:p2align=0
	i64.store	0:p2align=0
	local.get	2
	i32.const	32
	i32.add 
	local.get	14
	i64.store	0:p2align=0
	local.get	5
	i32.const	48
	i32.add 
	i64.load	0:p2align=0
	local.set	14
	local.get	2
	i32.const	56
	i32.add 
	local.get	5
	i32.const	56
	i32.add 
	i64.load	0:p2align=0
	i64.store	0:p2align=0
	local.get	2
	i32.const	48
	i32.add 
	local.get	14
	i64.store	0:p2align=0
	local.get	4
	i32.const	64
	i32.add 
	local.set	4
	local.get	13
	local.get	12
	i64.const	4
	i64.add 
	local.tee	12
	i64.ne  
	br_if   	0                               # 0: up to label167
# %bb.7:                                # %core__slice__edits__slice_T__copy_from_slice____b9e87c6de6ee7501_.exit.i.i.loopexit.unr-lcssa
	end_loop
	local.get	11
	i64.eqz
	br_if   	2                               # 2: down to label164
.LBB59_8:                               # %join.7.i.i.i.i.i.i.i.i.epil.preheader
	end_block                               # label166:
	local.get	3
	local.get	6
	local.get	12
	i32.wrap_i64
	i32.const	4
	i32.shl 
	local.tee	2
	i32.add 
	i32.add 
	local.set	5
	local.get	1
	local.get	8
	local.get	2
	i32.add 
	i32.add 
	local.set	2
.LBB59_9:                               # %join.7.i.i.i.i.i.i.i.i.epil
                                        # =>This Inner Loop Header: Depth=1
	loop    	                                # label168:
	local.get	2
	i64.load	0:p2align=0
	local.set	12
	local.get	5
	local.get	2
	i64.load	8:p2align=0
	i64.store	8:p2align=0
	local.get	5
	local.get	12
	i64.store	0:p2align=0
	local.get	5
	i32.const	16
	i32.add 
	local.set	5
	local.get	2
	i32.const	16
	i32.add 
	local.set	2
	local.get	11
	i64.const	-1
	i64.add 
	local.tee	11
	i64.const	0
	i64.ne  
	br_if   	0                               # 0: up to label168
	br      	2                               # 2: down to label164
.LBB59_10:                              # %apart.2.i.i.i.i.i.i.i.i
	end_loop
	end_block                               # label165:
	local.get	7
	local.get	9
	local.get	11
	i32.wrap_i64
	call	memmove
	drop
.LBB59_11:                              # %core__slice__edits__slice_T__copy_from_slice____b9e87c6de6ee7501_.exit.i.i
	end_block                               # label164:
	local.get	0
	i32.const	4
	i32.add 
	local.get	0
	i64.load32_u	0
	i64.const	1
	i64.shl 
	i64.const	56
	i64.add 
	local.get	7
	local.get	10
	call	aes_narrow__blocks__process_all_batches____1a21aa7f601e7603_
	call	aes_cipher__zeroize__stack__wipe_stack____1024_
	i32.const	0
	local.set	5
.LBB59_12:                              # %wide_fotsgure_aes_encrypt_blocks_to.exit
	end_block                               # label163:
	local.get	5
                                        # fallthrough-return
	end_function
                                        # -- End function
	.section	.text.fotsgure_aes_decrypt_blocks_to,"",@
	.globl	fotsgure_aes_decrypt_blocks_to  # -- Begin function fotsgure_aes_decrypt_blocks_to
	.type	fotsgure_aes_decrypt_blocks_to,@function
fotsgure_aes_decrypt_blocks_to:         # @fotsgure_aes_decrypt_blocks_to
	.functype	fotsgure_aes_decrypt_blocks_to (i32, i32, i32, i32, i32) -> (i32)
	.local  	i32, i32, i32, i32, i32, i64, i64, i64, i64, i64
# %bb.0:
	i32.const	3
	local.set	5
	block   	
	local.get	2
	local.get	4
	i32.ne  
	br_if   	0                               # 0: down to label169
# %bb.1:                                # %join.3.i.i
	i32.const	2
	local.set	5
	local.get	0
	i32.load	0
	i32.const	-16
	i32.add 
	local.tee	4
	i32.const	16
	i32.gt_u
	br_if   	0                               # 0: down to label169
# %bb.2:                                # %join.3.i.i
	i32.const	1
	local.get	4
	i32.shl 
	i32.const	65793
	i32.and 
	i32.eqz
	br_if   	0                               # 0: down to label169
# %bb.3:                                # %join.6.i.i
	block   	
	block   	
	local.get	3
	i32.const	0
	i32.const	4096
	local.get	3
	i32.select
	local.tee	6
	i32.add 
	local.tee	7
	i64.extend_i32_u
	local.get	1
	i32.const	0
	i32.const	4096
	local.get	1
	i32.select
	local.tee	8
	i32.add 
	local.tee	9
	i64.extend_i32_u
	i64.sub 
	local.get	2
	i64.extend_i32_u
	local.tee	10
	i64.const	4
	i64.shl 
	local.tee	11
	i64.ge_u
	br_if   	0                               # 0: down to label171
# %bb.4:                                # %join.7.i.i.i.i.i.i.i.i.preheader
	local.get	10
	i64.const	3
	i64.and 
	local.set	11
	i64.const	0
	local.set	12
	block   	
	local.get	2
	i32.const	-1
	i32.add 
	i32.const	3
	i32.lt_u
	br_if   	0                               # 0: down to label172
# %bb.5:                                # %join.7.i.i.i.i.i.i.i.i.preheader.new
	local.get	10
	i64.const	4294967292
	i64.and 
	local.set	13
	i64.const	0
	local.set	12
	i32.const	0
	local.set	4
.LBB60_6:                               # %join.7.i.i.i.i.i.i.i.i
                                        # =>This Inner Loop Header: Depth=1
	loop    	                                # label173:
	local.get	9
	local.get	4
	i32.add 
	local.tee	5
	i64.load	0:p2align=0
	local.set	14
	local.get	7
	local.get	4
	i32.add 
	local.tee	2
	local.get	5
	i64.load	8:p2align=0
	i64.store	8:p2align=0
	local.get	2
	local.get	14
	i64.store	0:p2align=0
	local.get	5
	i32.const	16
	i32.add 
	i64.load	0:p2align=0
	local.set	14
	local.get	2
	i32.const	24
	i32.add 
	local.get	5
	i32.const	24
	i32.add 
	i64.load	0:p2align=0
	i64.store	0:p2align=0
	local.get	2
	i32.const	16
	i32.add 
	local.get	14
	i64.store	0:p2align=0
	local.get	5
	i32.const	32
	i32.add 
	i64.load	0:p2align=0
	local.set	14
	local.get	2
	i32.const	40
	i32.add 
	local.get	5
	i32.const	40
	i32.add 
	i64.load	0:p2align=0
	i64.store	0:p2align=0
	local.get	2
	i32.const	32
	i32.add 
	local.get	14
	i64.store	0:p2align=0
	local.get	5
	i32.const	48
	i32.add 
	i64.load	0:p2align=0
	local.set	14
	local.get	2
	i32.const	56
	i32.add 
	local.get	5
	i32.const	56
	i32.add 
	i64.load	0:p2align=0
	i64.store	0:p2align=0
	local.get	2
	i32.const	48
	i32.add 
	local.get	14
	i64.store	0:p2align=0
	local.get	4
	i32.const	64
	i32.add 
	local.set	4
	local.get	13
	local.get	12
	i64.const	4
	i64.add 
	local.tee	12
	i64.ne  
	br_if   	0                               # 0: up to label173
# %bb.7:                                # %core__slice__edits__slice_T__copy_from_slice____b9e87c6de6ee7501_.exit.i.i.loopexit.unr-lcssa
	end_loop
	local.get	11
	i64.eqz
	br_if   	2                               # 2: down to label170
.LBB60_8:                               # %join.7.i.i.i.i.i.i.i.i.epil.preheader
	end_block                               # label172:
	local.get	3
	local.get	6
	local.get	12
	i32.wrap_i64
	i32.const	4
	i32.shl 
	local.tee	2
	i32.add 
	i32.add 
	local.set	5
	local.get	1
	local.get	8
	local.get	2
	i32.add 
	i32.add 
	local.set	2
.LBB60_9:                               # %join.7.i.i.i.i.i.i.i.i.epil
                                        # =>This Inner Loop Header: Depth=1
	loop    	                                # label174:
	local.get	2
	i64.load	0:p2align=0
	local.set	12
	local.get	5
	local.get	2
	i64.load	8:p2align=0
	i64.store	8:p2align=0
	local.get	5
	local.get	12
	i64.store	0:p2align=0
	local.get	5
	i32.const	16
	i32.add 
	local.set	5
	local.get	2
	i32.const	16
	i32.add 
	local.set	2
	local.get	11
	i64.const	-1
	i64.add 
	local.tee	11
	i64.const	0
	i64.ne  
	br_if   	0                               # 0: up to label174
	br      	2                               # 2: down to label170
.LBB60_10:                              # %apart.2.i.i.i.i.i.i.i.i
	end_loop
	end_block                               # label171:
	local.get	7
	local.get	9
	local.get	11
	i32.wrap_i64
	call	memmove
	drop
.LBB60_11:                              # %core__slice__edits__slice_T__copy_from_slice____b9e87c6de6ee7501_.exit.i.i
	end_block                               # label170:
	local.get	0
	i32.const	4
	i32.add 
	local.get	0
	i64.load32_u	0
	i64.const	1
	i64.shl 
	i64.const	56
	i64.add 
	local.get	7
	local.get	10
	call	aes_narrow__blocks__process_all_batches____a3dcb71d05bd149b_
	call	aes_cipher__zeroize__stack__wipe_stack____1024_
	i32.const	0
	local.set	5
.LBB60_12:                              # %wide_fotsgure_aes_decrypt_blocks_to.exit
	end_block                               # label169:
	local.get	5
                                        # fallthrough-return
	end_function
                                        # -- End function
	.section	.text.fotsgure_aes_add_keystream,"",@
	.globl	fotsgure_aes_add_keystream      # -- Begin function fotsgure_aes_add_keystream
	.type	fotsgure_aes_add_keystream,@function
fotsgure_aes_add_keystream:             # @fotsgure_aes_add_keystream
	.functype	fotsgure_aes_add_keystream (i32, i32, i32, i32) -> (i32)
# %bb.0:
	local.get	0
	local.get	1
	local.get	2
	i32.const	0
	i32.const	4096
	local.get	2
	i32.select
	i32.add 
	local.get	3
	i64.extend_i32_u
	call	aes_c__stream__fotsgure_aes_add_keystream
                                        # fallthrough-return
	end_function
                                        # -- End function
	.section	.text.fotsgure_aes_add_keystream_to,"",@
	.globl	fotsgure_aes_add_keystream_to   # -- Begin function fotsgure_aes_add_keystream_to
	.type	fotsgure_aes_add_keystream_to,@function
fotsgure_aes_add_keystream_to:          # @fotsgure_aes_add_keystream_to
	.functype	fotsgure_aes_add_keystream_to (i32, i32, i32, i32, i32, i32) -> (i32)
	.local  	i64, i32, i32, i32, i32, i32, i64, i64, i64
# %bb.0:
	block   	
	local.get	3
	local.get	5
	i32.eq  
	br_if   	0                               # 0: down to label175
# %bb.1:
	i32.const	3
	return
.LBB62_2:                               # %join.3.i.i
	end_block                               # label175:
	block   	
	local.get	3
	i64.extend_i32_u
	local.tee	6
	local.get	1
	i32.const	16
	i32.add 
	i64.load	0
	i64.const	-1
	i64.xor 
	i64.le_u
	br_if   	0                               # 0: down to label176
# %bb.3:
	i32.const	4
	return
.LBB62_4:                               # %join.3.i.i.i
	end_block                               # label176:
	i32.const	2
	local.set	5
	block   	
	local.get	0
	i32.load	0
	i32.const	-16
	i32.add 
	local.tee	7
	i32.const	16
	i32.gt_u
	br_if   	0                               # 0: down to label177
# %bb.5:                                # %join.3.i.i.i
	i32.const	1
	local.get	7
	i32.shl 
	i32.const	65793
	i32.and 
	i32.eqz
	br_if   	0                               # 0: down to label177
# %bb.6:                                # %join.6.i.i
	block   	
	block   	
	local.get	4
	i32.const	0
	i32.const	4096
	local.get	4
	i32.select
	local.tee	8
	i32.add 
	local.tee	9
	i64.extend_i32_u
	local.get	2
	i32.const	0
	i32.const	4096
	local.get	2
	i32.select
	local.tee	10
	i32.add 
	local.tee	11
	i64.extend_i32_u
	i64.sub 
	local.get	6
	i64.ge_u
	br_if   	0                               # 0: down to label179
# %bb.7:                                # %join.7.i.i.i.i.i.i.i.i.preheader
	local.get	6
	i64.const	3
	i64.and 
	local.set	12
	i64.const	0
	local.set	13
	block   	
	local.get	3
	i32.const	4
	i32.lt_u
	br_if   	0                               # 0: down to label180
# %bb.8:                                # %join.7.i.i.i.i.i.i.i.i.preheader.new
	local.get	6
	i64.const	4294967292
	i64.and 
	local.set	14
	i64.const	0
	local.set	13
	i32.const	0
	local.set	3
.LBB62_9:                               # %join.7.i.i.i.i.i.i.i.i
                                        # =>This Inner Loop Header: Depth=1
	loop    	                                # label181:
	local.get	9
	local.get	3
	i32.add 
	local.tee	5
	local.get	11
	local.get	3
	i32.add 
	local.tee	7
	i32.load8_u	0
	i32.store8	0
	local.get	5
	i32.const	1
	i32.add 
	local.get	7
	i32.const	1
	i32.add 
	i32.load8_u	0
	i32.store8	0
	local.get	5
	i32.const	2
	i32.add 
	local.get	7
	i32.const	2
	i32.add 
	i32.load8_u	0
	i32.store8	0
	local.get	5
	i32.const	3
	i32.add 
	local.get	7
	i32.const	3
	i32.add 
	i32.load8_u	0
	i32.store8	0
	local.get	3
	i32.const	4
	i32.add 
	local.set	3
	local.get	14
	local.get	13
	i64.const	4
	i64.add 
	local.tee	13
	i64.ne  
	br_if   	0                               # 0: up to label181
# %bb.10:                               # %core__slice__edits__slice_T__copy_from_slice___i8_20_core__clone__U8Clone___.exit.i.i.loopexit.unr-lcssa
	end_loop
	local.get	12
	i64.eqz
	br_if   	2                               # 2: down to label178
.LBB62_11:                              # %join.7.i.i.i.i.i.i.i.i.epil.preheader
	end_block                               # label180:
	local.get	4
	local.get	8
	local.get	13
	i32.wrap_i64
	local.tee	5
	i32.add 
	i32.add 
	local.set	3
	local.get	2
	local.get	10
	local.get	5
	i32.add 
	i32.add 
	local.set	5
.LBB62_12:                              # %join.7.i.i.i.i.i.i.i.i.epil
                                        # =>This Inner Loop Header: Depth=1
	loop    	                                # label182:
	local.get	3
	local.get	5
	i32.load8_u	0
	i32.store8	0
	local.get	3
	i32.const	1
	i32.add 
	local.set	3
	local.get	5
	i32.const	1
	i32.add 
	local.set	5
	local.get	12
	i64.const	-1
	i64.add 
	local.tee	12
	i64.const	0
	i64.ne  
	br_if   	0                               # 0: up to label182
	br      	2                               # 2: down to label178
.LBB62_13:                              # %apart.2.i.i.i.i.i.i.i.i
	end_loop
	end_block                               # label179:
	local.get	9
	local.get	11
	local.get	3
	call	memmove
	drop
.LBB62_14:                              # %core__slice__edits__slice_T__copy_from_slice___i8_20_core__clone__U8Clone___.exit.i.i
	end_block                               # label178:
	local.get	0
	local.get	1
	local.get	9
	local.get	6
	call	aes_c__stream__fotsgure_aes_add_keystream
	local.set	5
.LBB62_15:                              # %wide_fotsgure_aes_add_keystream_to.exit
	end_block                               # label177:
	local.get	5
                                        # fallthrough-return
	end_function
                                        # -- End function
	.section	.text.fotsgure_aes_cbc_encrypt,"",@
	.globl	fotsgure_aes_cbc_encrypt        # -- Begin function fotsgure_aes_cbc_encrypt
	.type	fotsgure_aes_cbc_encrypt,@function
fotsgure_aes_cbc_encrypt:               # @fotsgure_aes_cbc_encrypt
	.functype	fotsgure_aes_cbc_encrypt (i32, i32, i32, i32) -> (i32)
	.local  	i32, i64, i32, i64, i32, i32, i32, i32, i32, i32, i32, i32, i32, i32, i32, i32, i32, i32, i32, i32, i32, i32, i32, i32, i32, i32, i32, i32, i32, i32, i32, i32
# %bb.0:
	global.get	__stack_pointer
	i32.const	16
	i32.sub 
	local.tee	4
	global.set	__stack_pointer
	block   	
	block   	
	local.get	0
	i64.load32_u	0
	local.tee	5
	i64.const	32
	i64.eq  
	br_if   	0                               # 0: down to label184
# %bb.1:
	i32.const	2
	local.set	6
	local.get	5
	i64.const	4294967287
	i64.and 
	i64.const	16
	i64.ne  
	br_if   	1                               # 1: down to label183
.LBB63_2:                               # %join.3.i.i
	end_block                               # label184:
	local.get	4
	local.get	1
	i64.load	8:p2align=0
	i64.store	8
	local.get	4
	local.get	1
	i64.load	0:p2align=0
	i64.store	0
	block   	
	local.get	3
	i32.eqz
	br_if   	0                               # 0: down to label185
# %bb.3:                                # %join.5.lr.ph.i.i.i
	local.get	2
	i32.const	0
	i32.const	4096
	local.get	2
	i32.select
	i32.add 
	local.set	6
	local.get	3
	i64.extend_i32_u
	local.set	7
	local.get	0
	i32.const	4
	i32.add 
	local.set	8
	local.get	5
	i64.const	1
	i64.shl 
	i64.const	56
	i64.add 
	local.set	5
	local.get	4
	i32.load8_u	15
	local.set	0
	local.get	4
	i32.load8_u	14
	local.set	3
	local.get	4
	i32.load8_u	13
	local.set	2
	local.get	4
	i32.load8_u	12
	local.set	9
	local.get	4
	i32.load8_u	11
	local.set	10
	local.get	4
	i32.load8_u	10
	local.set	11
	local.get	4
	i32.load8_u	9
	local.set	12
	local.get	4
	i32.load8_u	8
	local.set	13
	local.get	4
	i32.load8_u	7
	local.set	14
	local.get	4
	i32.load8_u	6
	local.set	15
	local.get	4
	i32.load8_u	5
	local.set	16
	local.get	4
	i32.load8_u	4
	local.set	17
	local.get	4
	i32.load8_u	3
	local.set	18
	local.get	4
	i32.load8_u	2
	local.set	19
	local.get	4
	i32.load8_u	1
	local.set	20
	local.get	4
	i32.load8_u	0
	local.set	21
.LBB63_4:                               # %join.5.i.i.i
                                        # =>This Inner Loop Header: Depth=1
	loop    	                                # label186:
	local.get	4
	local.get	6
	i32.load8_u	0
	local.get	21
	i32.xor 
	i32.store8	0
	local.get	4
	local.get	6
	i32.const	15
	i32.add 
	local.tee	21
	i32.load8_u	0
	local.get	0
	i32.xor 
	i32.store8	15
	local.get	4
	local.get	6
	i32.const	14
	i32.add 
	local.tee	22
	i32.load8_u	0
	local.get	3
	i32.xor 
	i32.store8	14
	local.get	4
	local.get	6
	i32.const	13
	i32.add 
	local.tee	23
	i32.load8_u	0
	local.get	2
	i32.xor 
	i32.store8	13
	local.get	4
	local.get	6
	i32.const	12
	i32.add 
	local.tee	24
	i32.load8_u	0
	local.get	9
	i32.xor 
	i32.store8	12
	local.get	4
	local.get	6
	i32.const	11
	i32.add 
	local.tee	25
	i32.load8_u	0
	local.get	10
	i32.xor 
	i32.store8	11
	local.get	4
	local.get	6
	i32.const	10
	i32.add 
	local.tee	26
	i32.load8_u	0
	local.get	11
	i32.xor 
	i32.store8	10
	local.get	4
	local.get	6
	i32.const	9
	i32.add 
	local.tee	27
	i32.load8_u	0
	local.get	12
	i32.xor 
	i32.store8	9
	local.get	4
	local.get	6
	i32.const	8
	i32.add 
	local.tee	28
	i32.load8_u	0
	local.get	13
	i32.xor 
	i32.store8	8
	local.get	4
	local.get	6
	i32.const	7
	i32.add 
	local.tee	29
	i32.load8_u	0
	local.get	14
	i32.xor 
	i32.store8	7
	local.get	4
	local.get	6
	i32.const	6
	i32.add 
	local.tee	30
	i32.load8_u	0
	local.get	15
	i32.xor 
	i32.store8	6
	local.get	4
	local.get	6
	i32.const	5
	i32.add 
	local.tee	31
	i32.load8_u	0
	local.get	16
	i32.xor 
	i32.store8	5
	local.get	4
	local.get	6
	i32.const	4
	i32.add 
	local.tee	32
	i32.load8_u	0
	local.get	17
	i32.xor 
	i32.store8	4
	local.get	4
	local.get	6
	i32.const	3
	i32.add 
	local.tee	33
	i32.load8_u	0
	local.get	18
	i32.xor 
	i32.store8	3
	local.get	4
	local.get	6
	i32.const	2
	i32.add 
	local.tee	34
	i32.load8_u	0
	local.get	19
	i32.xor 
	i32.store8	2
	local.get	4
	local.get	6
	i32.const	1
	i32.add 
	local.tee	35
	i32.load8_u	0
	local.get	20
	i32.xor 
	i32.store8	1
	local.get	8
	local.get	5
	local.get	4
	i64.const	1
	call	aes_narrow__blocks__process_all_batches____1a21aa7f601e7603_
	call	aes_cipher__zeroize__stack__wipe_stack____1024_
	local.get	21
	local.get	4
	i32.load8_u	15
	local.tee	0
	i32.store8	0
	local.get	22
	local.get	4
	i32.load8_u	14
	local.tee	3
	i32.store8	0
	local.get	23
	local.get	4
	i32.load8_u	13
	local.tee	2
	i32.store8	0
	local.get	24
	local.get	4
	i32.load8_u	12
	local.tee	9
	i32.store8	0
	local.get	25
	local.get	4
	i32.load8_u	11
	local.tee	10
	i32.store8	0
	local.get	26
	local.get	4
	i32.load8_u	10
	local.tee	11
	i32.store8	0
	local.get	27
	local.get	4
	i32.load8_u	9
	local.tee	12
	i32.store8	0
	local.get	28
	local.get	4
	i32.load8_u	8
	local.tee	13
	i32.store8	0
	local.get	29
	local.get	4
	i32.load8_u	7
	local.tee	14
	i32.store8	0
	local.get	30
	local.get	4
	i32.load8_u	6
	local.tee	15
	i32.store8	0
	local.get	31
	local.get	4
	i32.load8_u	5
	local.tee	16
	i32.store8	0
	local.get	32
	local.get	4
	i32.load8_u	4
	local.tee	17
	i32.store8	0
	local.get	33
	local.get	4
	i32.load8_u	3
	local.tee	18
	i32.store8	0
	local.get	34
	local.get	4
	i32.load8_u	2
	local.tee	19
	i32.store8	0
	local.get	35
	local.get	4
	i32.load8_u	1
	local.tee	20
	i32.store8	0
	local.get	6
	local.get	4
	i32.load8_u	0
	local.tee	21
	i32.store8	0
	local.get	6
	i32.const	16
	i32.add 
	local.set	6
	local.get	7
	i64.const	-1
	i64.add 
	local.tee	7
	i64.const	0
	i64.ne  
	br_if   	0                               # 0: up to label186
.LBB63_5:                               # %cbc__chain__Cbc__encrypt_blocks____4f733d09d7f6c6b4_.exit.i.i
	end_loop
	end_block                               # label185:
	local.get	1
	local.get	4
	i64.load	8
	i64.store	8:p2align=0
	local.get	1
	local.get	4
	i64.load	0
	i64.store	0:p2align=0
	i32.const	0
	local.set	6
.LBB63_6:                               # %wide_fotsgure_aes_cbc_encrypt.exit
	end_block                               # label183:
	local.get	4
	i32.const	16
	i32.add 
	global.set	__stack_pointer
	local.get	6
                                        # fallthrough-return
	end_function
                                        # -- End function
	.section	.text.fotsgure_aes_cbc_decrypt,"",@
	.globl	fotsgure_aes_cbc_decrypt        # -- Begin function fotsgure_aes_cbc_decrypt
	.type	fotsgure_aes_cbc_decrypt,@function
fotsgure_aes_cbc_decrypt:               # @fotsgure_aes_cbc_decrypt
	.functype	fotsgure_aes_cbc_decrypt (i32, i32, i32, i32) -> (i32)
	.local  	i32, i64, i32
# %bb.0:
	global.get	__stack_pointer
	i32.const	32
	i32.sub 
	local.tee	4
	global.set	__stack_pointer
	block   	
	block   	
	local.get	0
	i64.load32_u	0
	local.tee	5
	i64.const	32
	i64.eq  
	br_if   	0                               # 0: down to label188
# %bb.1:
	i32.const	2
	local.set	6
	local.get	5
	i64.const	4294967287
	i64.and 
	i64.const	16
	i64.ne  
	br_if   	1                               # 1: down to label187
.LBB64_2:                               # %join.3.i.i
	end_block                               # label188:
	i32.const	0
	local.set	6
	local.get	4
	i32.const	0
	i32.store	20
	local.get	4
	local.get	1
	i64.load	8:p2align=0
	i64.store	8
	local.get	4
	local.get	1
	i64.load	0:p2align=0
	i64.store	0
	local.get	4
	local.get	3
	i64.extend_i32_u
	i64.store	24
	local.get	4
	local.get	2
	i32.const	0
	i32.const	4096
	local.get	2
	i32.select
	i32.add 
	i32.store	16
	local.get	0
	i32.const	4
	i32.add 
	local.get	5
	i64.const	1
	i64.shl 
	i64.const	56
	i64.add 
	local.get	4
	call	aes_narrow__borrowed_words__call_to_decrypt____a8a74a144d92a363_
	call	aes_cipher__zeroize__stack__wipe_stack____2032_
	local.get	1
	local.get	4
	i64.load	8
	i64.store	8:p2align=0
	local.get	1
	local.get	4
	i64.load	0
	i64.store	0:p2align=0
.LBB64_3:                               # %wide_fotsgure_aes_cbc_decrypt.exit
	end_block                               # label187:
	local.get	4
	i32.const	32
	i32.add 
	global.set	__stack_pointer
	local.get	6
                                        # fallthrough-return
	end_function
                                        # -- End function
	.section	.text.fotsgure_aes_wrap,"",@
	.globl	fotsgure_aes_wrap               # -- Begin function fotsgure_aes_wrap
	.type	fotsgure_aes_wrap,@function
fotsgure_aes_wrap:                      # @fotsgure_aes_wrap
	.functype	fotsgure_aes_wrap (i32, i32, i32, i32, i32) -> (i32)
	.local  	i32, i64, i32
# %bb.0:
	global.get	__stack_pointer
	i32.const	16
	i32.sub 
	local.tee	5
	global.set	__stack_pointer
	block   	
	block   	
	local.get	0
	i64.load32_u	0
	local.tee	6
	i64.const	32
	i64.eq  
	br_if   	0                               # 0: down to label190
# %bb.1:
	i32.const	2
	local.set	7
	local.get	6
	i64.const	4294967287
	i64.and 
	i64.const	16
	i64.ne  
	br_if   	1                               # 1: down to label189
.LBB65_2:                               # %join.3.i.i
	end_block                               # label190:
	local.get	5
	local.get	0
	i32.const	4
	i32.add 
	i32.store	0
	local.get	5
	local.get	6
	i64.const	1
	i64.shl 
	i64.const	56
	i64.add 
	i64.store	8
	local.get	5
	i32.const	0
	i32.store	4
	i32.const	5
	i32.const	0
	local.get	5
	local.get	1
	i32.const	0
	i32.const	4096
	local.get	1
	i32.select
	i32.add 
	local.get	2
	i64.extend_i32_u
	local.get	3
	i32.const	0
	i32.const	4096
	local.get	3
	i32.select
	i32.add 
	local.get	4
	i64.extend_i32_u
	call	key_wrap__wrapping__wrap____4f733d09d7f6c6b4_
	i32.const	255
	i32.and 
	i32.select
	local.set	7
	call	aes_cipher__zeroize__stack__wipe_stack____512_
.LBB65_3:                               # %wide_fotsgure_aes_wrap.exit
	end_block                               # label189:
	local.get	5
	i32.const	16
	i32.add 
	global.set	__stack_pointer
	local.get	7
                                        # fallthrough-return
	end_function
                                        # -- End function
	.section	.text.fotsgure_aes_unwrap,"",@
	.globl	fotsgure_aes_unwrap             # -- Begin function fotsgure_aes_unwrap
	.type	fotsgure_aes_unwrap,@function
fotsgure_aes_unwrap:                    # @fotsgure_aes_unwrap
	.functype	fotsgure_aes_unwrap (i32, i32, i32, i32, i32) -> (i32)
	.local  	i32, i64, i32
# %bb.0:
	global.get	__stack_pointer
	i32.const	32
	i32.sub 
	local.tee	5
	global.set	__stack_pointer
	block   	
	block   	
	local.get	0
	i64.load32_u	0
	local.tee	6
	i64.const	32
	i64.eq  
	br_if   	0                               # 0: down to label192
# %bb.1:
	i32.const	2
	local.set	7
	local.get	6
	i64.const	4294967287
	i64.and 
	i64.const	16
	i64.ne  
	br_if   	1                               # 1: down to label191
.LBB66_2:                               # %join.3.i.i
	end_block                               # label192:
	local.get	5
	local.get	0
	i32.const	4
	i32.add 
	i32.store	16
	local.get	5
	local.get	6
	i64.const	1
	i64.shl 
	i64.const	56
	i64.add 
	i64.store	24
	local.get	5
	i32.const	0
	i32.store	20
	local.get	5
	i32.const	8
	i32.add 
	local.get	5
	i32.const	16
	i32.add 
	local.get	1
	i32.const	0
	i32.const	4096
	local.get	1
	i32.select
	i32.add 
	local.get	2
	i64.extend_i32_u
	local.get	3
	i32.const	0
	i32.const	4096
	local.get	3
	i32.select
	i32.add 
	local.get	4
	i64.extend_i32_u
	call	key_wrap__wrapping__unwrap____10c636071cb6e37c_
	i32.const	6
	i32.const	5
	local.get	5
	i32.load8_u	9
	i32.select
	i32.const	0
	local.get	5
	i32.load8_u	8
	i32.select
	local.set	7
	call	aes_cipher__zeroize__stack__wipe_stack____512_
.LBB66_3:                               # %wide_fotsgure_aes_unwrap.exit
	end_block                               # label191:
	local.get	5
	i32.const	32
	i32.add 
	global.set	__stack_pointer
	local.get	7
                                        # fallthrough-return
	end_function
                                        # -- End function
	.section	.text.fotsgure_aes_wrap_padded,"",@
	.globl	fotsgure_aes_wrap_padded        # -- Begin function fotsgure_aes_wrap_padded
	.type	fotsgure_aes_wrap_padded,@function
fotsgure_aes_wrap_padded:               # @fotsgure_aes_wrap_padded
	.functype	fotsgure_aes_wrap_padded (i32, i32, i32, i32, i32) -> (i32)
	.local  	i32, i64, i32
# %bb.0:
	global.get	__stack_pointer
	i32.const	16
	i32.sub 
	local.tee	5
	global.set	__stack_pointer
	block   	
	block   	
	local.get	0
	i64.load32_u	0
	local.tee	6
	i64.const	32
	i64.eq  
	br_if   	0                               # 0: down to label194
# %bb.1:
	i32.const	2
	local.set	7
	local.get	6
	i64.const	4294967287
	i64.and 
	i64.const	16
	i64.ne  
	br_if   	1                               # 1: down to label193
.LBB67_2:                               # %join.3.i.i
	end_block                               # label194:
	local.get	5
	local.get	0
	i32.const	4
	i32.add 
	i32.store	0
	local.get	5
	local.get	6
	i64.const	1
	i64.shl 
	i64.const	56
	i64.add 
	i64.store	8
	local.get	5
	i32.const	0
	i32.store	4
	i32.const	5
	i32.const	0
	local.get	5
	local.get	1
	i32.const	0
	i32.const	4096
	local.get	1
	i32.select
	i32.add 
	local.get	2
	i64.extend_i32_u
	local.get	3
	i32.const	0
	i32.const	4096
	local.get	3
	i32.select
	i32.add 
	local.get	4
	i64.extend_i32_u
	call	key_wrap__padded__wrap_padded____4f733d09d7f6c6b4_
	i32.const	255
	i32.and 
	i32.select
	local.set	7
	call	aes_cipher__zeroize__stack__wipe_stack____512_
.LBB67_3:                               # %wide_fotsgure_aes_wrap_padded.exit
	end_block                               # label193:
	local.get	5
	i32.const	16
	i32.add 
	global.set	__stack_pointer
	local.get	7
                                        # fallthrough-return
	end_function
                                        # -- End function
	.section	.text.fotsgure_aes_unwrap_padded,"",@
	.globl	fotsgure_aes_unwrap_padded      # -- Begin function fotsgure_aes_unwrap_padded
	.type	fotsgure_aes_unwrap_padded,@function
fotsgure_aes_unwrap_padded:             # @fotsgure_aes_unwrap_padded
	.functype	fotsgure_aes_unwrap_padded (i32, i32, i32, i32, i32, i32) -> (i32)
	.local  	i32, i64
# %bb.0:
	global.get	__stack_pointer
	i32.const	32
	i32.sub 
	local.tee	6
	global.set	__stack_pointer
	local.get	6
	i64.const	0
	i64.store	24
	block   	
	block   	
	local.get	0
	i64.load32_u	0
	local.tee	7
	i64.const	32
	i64.eq  
	br_if   	0                               # 0: down to label196
# %bb.1:
	local.get	7
	i64.const	4294967287
	i64.and 
	i64.const	16
	i64.eq  
	br_if   	0                               # 0: down to label196
# %bb.2:
	i32.const	2
	local.set	3
	i32.const	0
	local.set	0
	br      	1                               # 1: down to label195
.LBB68_3:                               # %join.3.i.i
	end_block                               # label196:
	local.get	6
	local.get	0
	i32.const	4
	i32.add 
	i32.store	8
	local.get	6
	local.get	7
	i64.const	1
	i64.shl 
	i64.const	56
	i64.add 
	i64.store	16
	i32.const	0
	local.set	0
	local.get	6
	i32.const	0
	i32.store	12
	local.get	6
	i32.const	24
	i32.add 
	local.get	6
	i32.const	8
	i32.add 
	local.get	1
	i32.const	0
	i32.const	4096
	local.get	1
	i32.select
	i32.add 
	local.get	2
	i64.extend_i32_u
	local.get	3
	i32.const	0
	i32.const	4096
	local.get	3
	i32.select
	i32.add 
	local.get	4
	i64.extend_i32_u
	call	key_wrap__padded__unwrap_padded____10c636071cb6e37c_
	call	aes_cipher__zeroize__stack__wipe_stack____512_
	block   	
	local.get	6
	i32.load8_u	24
	br_if   	0                               # 0: down to label197
# %bb.4:                                # %arm.4.i.i
	i32.const	0
	local.set	3
	local.get	6
	i32.load	28
	local.set	0
	br      	1                               # 1: down to label195
.LBB68_5:                               # %arm.5.i.i
	end_block                               # label197:
	i32.const	6
	i32.const	5
	local.get	6
	i32.load8_u	25
	i32.select
	local.set	3
.LBB68_6:                               # %wide_fotsgure_aes_unwrap_padded.exit
	end_block                               # label195:
	local.get	5
	local.get	0
	i32.store	0
	local.get	6
	i32.const	32
	i32.add 
	global.set	__stack_pointer
	local.get	3
                                        # fallthrough-return
	end_function
                                        # -- End function
	.section	.text.fotsgure_aes_cmac,"",@
	.globl	fotsgure_aes_cmac               # -- Begin function fotsgure_aes_cmac
	.type	fotsgure_aes_cmac,@function
fotsgure_aes_cmac:                      # @fotsgure_aes_cmac
	.functype	fotsgure_aes_cmac (i32, i32, i32, i32) -> (i32)
	.local  	i32, i64, i32
# %bb.0:
	global.get	__stack_pointer
	i32.const	32
	i32.sub 
	local.tee	4
	global.set	__stack_pointer
	block   	
	block   	
	local.get	0
	i64.load32_u	0
	local.tee	5
	i64.const	32
	i64.eq  
	br_if   	0                               # 0: down to label199
# %bb.1:
	i32.const	2
	local.set	6
	local.get	5
	i64.const	4294967287
	i64.and 
	i64.const	16
	i64.ne  
	br_if   	1                               # 1: down to label198
.LBB69_2:                               # %join.3.i.i
	end_block                               # label199:
	i32.const	0
	local.set	6
	local.get	4
	i32.const	0
	i32.store	4
	local.get	4
	local.get	0
	i32.const	4
	i32.add 
	i32.store	0
	local.get	4
	local.get	5
	i64.const	1
	i64.shl 
	i64.const	56
	i64.add 
	i64.store	8
	local.get	4
	i32.const	16
	i32.add 
	local.get	4
	local.get	1
	i32.const	0
	i32.const	4096
	local.get	1
	i32.select
	i32.add 
	local.get	2
	i64.extend_i32_u
	call	cmac__tags__tag____4f733d09d7f6c6b4_
	local.get	3
	local.get	4
	i64.load	24:p2align=0
	i64.store	8:p2align=0
	local.get	3
	local.get	4
	i64.load	16:p2align=0
	i64.store	0:p2align=0
	call	aes_cipher__zeroize__stack__wipe_stack____768_
.LBB69_3:                               # %wide_fotsgure_aes_cmac.exit
	end_block                               # label198:
	local.get	4
	i32.const	32
	i32.add 
	global.set	__stack_pointer
	local.get	6
                                        # fallthrough-return
	end_function
                                        # -- End function
	.section	.text.fotsgure_aes_cmac_verify,"",@
	.globl	fotsgure_aes_cmac_verify        # -- Begin function fotsgure_aes_cmac_verify
	.type	fotsgure_aes_cmac_verify,@function
fotsgure_aes_cmac_verify:               # @fotsgure_aes_cmac_verify
	.functype	fotsgure_aes_cmac_verify (i32, i32, i32, i32, i32) -> (i32)
	.local  	i32, i64
# %bb.0:
	global.get	__stack_pointer
	i32.const	16
	i32.sub 
	local.tee	5
	global.set	__stack_pointer
	block   	
	block   	
	local.get	0
	i64.load32_u	0
	local.tee	6
	i64.const	32
	i64.eq  
	br_if   	0                               # 0: down to label201
# %bb.1:
	local.get	6
	i64.const	4294967287
	i64.and 
	i64.const	16
	i64.eq  
	br_if   	0                               # 0: down to label201
# %bb.2:
	i32.const	2
	local.set	0
	br      	1                               # 1: down to label200
.LBB70_3:                               # %join.3.i.i
	end_block                               # label201:
	block   	
	local.get	4
	i32.const	-4
	i32.add 
	i32.const	12
	i32.le_u
	br_if   	0                               # 0: down to label202
# %bb.4:
	i32.const	7
	local.set	0
	br      	1                               # 1: down to label200
.LBB70_5:                               # %join.6.i.i
	end_block                               # label202:
	local.get	5
	local.get	0
	i32.const	4
	i32.add 
	i32.store	0
	local.get	5
	local.get	6
	i64.const	1
	i64.shl 
	i64.const	56
	i64.add 
	i64.store	8
	local.get	5
	i32.const	0
	i32.store	4
	i32.const	0
	i32.const	6
	local.get	5
	local.get	1
	i32.const	0
	i32.const	4096
	local.get	1
	i32.select
	i32.add 
	local.get	2
	i64.extend_i32_u
	local.get	3
	i32.const	0
	i32.const	4096
	local.get	3
	i32.select
	i32.add 
	local.get	4
	i64.extend_i32_u
	call	cmac__tags__is_tag_start____4f733d09d7f6c6b4_
	i32.select
	local.set	0
	call	aes_cipher__zeroize__stack__wipe_stack____768_
.LBB70_6:                               # %wide_fotsgure_aes_cmac_verify.exit
	end_block                               # label200:
	local.get	5
	i32.const	16
	i32.add 
	global.set	__stack_pointer
	local.get	0
                                        # fallthrough-return
	end_function
                                        # -- End function
	.section	.text.fotsgure_aes_cmac_begin,"",@
	.globl	fotsgure_aes_cmac_begin         # -- Begin function fotsgure_aes_cmac_begin
	.type	fotsgure_aes_cmac_begin,@function
fotsgure_aes_cmac_begin:                # @fotsgure_aes_cmac_begin
	.functype	fotsgure_aes_cmac_begin (i32, i32) -> (i32)
	.local  	i32
# %bb.0:
	i32.const	2
	local.set	2
	block   	
	local.get	0
	i32.load	0
	i32.const	-16
	i32.add 
	local.tee	0
	i32.const	16
	i32.gt_u
	br_if   	0                               # 0: down to label203
# %bb.1:
	i32.const	1
	local.get	0
	i32.shl 
	i32.const	65793
	i32.and 
	i32.eqz
	br_if   	0                               # 0: down to label203
# %bb.2:                                # %join.3.i.i
	local.get	1
	i64.const	1
	i64.store	0
	local.get	1
	i32.const	40
	i32.add 
	i64.const	0
	i64.store	0:p2align=0
	local.get	1
	i32.const	32
	i32.add 
	i64.const	0
	i64.store	0:p2align=0
	local.get	1
	i32.const	24
	i32.add 
	i64.const	0
	i64.store	0:p2align=0
	local.get	1
	i32.const	16
	i32.add 
	i64.const	0
	i64.store	0:p2align=0
	local.get	1
	i32.const	8
	i32.add 
	i64.const	0
	i64.store	0:p2align=0
	i32.const	0
	local.set	2
.LBB71_3:                               # %wide_fotsgure_aes_cmac_begin.exit
	end_block                               # label203:
	local.get	2
                                        # fallthrough-return
	end_function
                                        # -- End function
	.section	.text.fotsgure_aes_cmac_update,"",@
	.globl	fotsgure_aes_cmac_update        # -- Begin function fotsgure_aes_cmac_update
	.type	fotsgure_aes_cmac_update,@function
fotsgure_aes_cmac_update:               # @fotsgure_aes_cmac_update
	.functype	fotsgure_aes_cmac_update (i32, i32, i32, i32) -> (i32)
	.local  	i32, i64, i32
# %bb.0:
	global.get	__stack_pointer
	i32.const	16
	i32.sub 
	local.tee	4
	global.set	__stack_pointer
	block   	
	block   	
	local.get	0
	i64.load32_u	0
	local.tee	5
	i64.const	32
	i64.eq  
	br_if   	0                               # 0: down to label205
# %bb.1:
	i32.const	2
	local.set	6
	local.get	5
	i64.const	4294967287
	i64.and 
	i64.const	16
	i64.ne  
	br_if   	1                               # 1: down to label204
.LBB72_2:                               # %join.3.i.i
	end_block                               # label205:
	local.get	4
	i32.const	0
	i32.store	4
	local.get	4
	local.get	0
	i32.const	4
	i32.add 
	i32.store	0
	local.get	4
	local.get	5
	i64.const	1
	i64.shl 
	i64.const	56
	i64.add 
	i64.store	8
	i32.const	10
	local.set	6
	block   	
	local.get	1
	i64.load	0
	i64.const	1
	i64.ne  
	br_if   	0                               # 0: down to label206
# %bb.3:                                # %join.3.i.i.i
	local.get	1
	i32.const	8
	i32.add 
	local.get	4
	local.get	2
	i32.const	0
	i32.const	4096
	local.get	2
	i32.select
	i32.add 
	local.get	3
	i64.extend_i32_u
	call	cmac__chain_in_pieces__ChainInPieces__extend____4f733d09d7f6c6b4_
	i32.const	0
	local.set	6
.LBB72_4:                               # %cmac__pieces__Message__update____4f733d09d7f6c6b4_.exit.i.i
	end_block                               # label206:
	call	aes_cipher__zeroize__stack__wipe_stack____768_
.LBB72_5:                               # %wide_fotsgure_aes_cmac_update.exit
	end_block                               # label204:
	local.get	4
	i32.const	16
	i32.add 
	global.set	__stack_pointer
	local.get	6
                                        # fallthrough-return
	end_function
                                        # -- End function
	.section	.text.fotsgure_aes_cmac_finish,"",@
	.globl	fotsgure_aes_cmac_finish        # -- Begin function fotsgure_aes_cmac_finish
	.type	fotsgure_aes_cmac_finish,@function
fotsgure_aes_cmac_finish:               # @fotsgure_aes_cmac_finish
	.functype	fotsgure_aes_cmac_finish (i32, i32, i32) -> (i32)
	.local  	i32, i64, i32
# %bb.0:
	global.get	__stack_pointer
	i32.const	32
	i32.sub 
	local.tee	3
	global.set	__stack_pointer
	block   	
	block   	
	local.get	0
	i64.load32_u	0
	local.tee	4
	i64.const	32
	i64.eq  
	br_if   	0                               # 0: down to label208
# %bb.1:
	i32.const	2
	local.set	5
	local.get	4
	i64.const	4294967287
	i64.and 
	i64.const	16
	i64.ne  
	br_if   	1                               # 1: down to label207
.LBB73_2:                               # %join.3.i.i
	end_block                               # label208:
	i32.const	0
	local.set	5
	local.get	3
	i32.const	0
	i32.store	4
	local.get	3
	local.get	0
	i32.const	4
	i32.add 
	i32.store	0
	local.get	3
	local.get	4
	i64.const	1
	i64.shl 
	i64.const	56
	i64.add 
	i64.store	8
	block   	
	local.get	1
	i64.load	0
	i64.const	1
	i64.eq  
	br_if   	0                               # 0: down to label209
# %bb.3:                                # %cmac__pieces__Message__finish____4f733d09d7f6c6b4_.exit.i.i
	call	aes_cipher__zeroize__stack__wipe_stack____768_
	i32.const	10
	local.set	5
	br      	1                               # 1: down to label207
.LBB73_4:                               # %arm.4.i.i
	end_block                               # label209:
	local.get	3
	i32.const	16
	i32.add 
	local.get	3
	local.get	1
	i32.const	16
	i32.add 
	local.get	1
	i32.const	32
	i32.add 
	local.get	1
	i32.const	8
	i32.add 
	i64.load	0
	local.tee	4
	i64.const	16
	local.get	4
	i64.const	16
	i64.lt_u
	i64.select
	call	cmac__tags__tag_at_end____4f733d09d7f6c6b4_
	local.get	1
	call	cmac__pieces__MessageZeroize__zeroize
	call	aes_cipher__zeroize__stack__wipe_stack____768_
	local.get	2
	local.get	3
	i64.load	24:p2align=0
	i64.store	8:p2align=0
	local.get	2
	local.get	3
	i64.load	16:p2align=0
	i64.store	0:p2align=0
.LBB73_5:                               # %wide_fotsgure_aes_cmac_finish.exit
	end_block                               # label207:
	local.get	3
	i32.const	32
	i32.add 
	global.set	__stack_pointer
	local.get	5
                                        # fallthrough-return
	end_function
                                        # -- End function
	.section	.text.fotsgure_aes_cmac_accept,"",@
	.globl	fotsgure_aes_cmac_accept        # -- Begin function fotsgure_aes_cmac_accept
	.type	fotsgure_aes_cmac_accept,@function
fotsgure_aes_cmac_accept:               # @fotsgure_aes_cmac_accept
	.functype	fotsgure_aes_cmac_accept (i32, i32, i32, i32) -> (i32)
	.local  	i32, i64
# %bb.0:
	global.get	__stack_pointer
	i32.const	16
	i32.sub 
	local.tee	4
	global.set	__stack_pointer
	block   	
	block   	
	local.get	0
	i64.load32_u	0
	local.tee	5
	i64.const	32
	i64.eq  
	br_if   	0                               # 0: down to label211
# %bb.1:
	local.get	5
	i64.const	4294967287
	i64.and 
	i64.const	16
	i64.eq  
	br_if   	0                               # 0: down to label211
# %bb.2:
	i32.const	2
	local.set	0
	br      	1                               # 1: down to label210
.LBB74_3:                               # %join.3.i.i
	end_block                               # label211:
	block   	
	local.get	3
	i32.const	-4
	i32.add 
	i32.const	12
	i32.le_u
	br_if   	0                               # 0: down to label212
# %bb.4:
	i32.const	7
	local.set	0
	br      	1                               # 1: down to label210
.LBB74_5:                               # %join.6.i.i
	end_block                               # label212:
	local.get	4
	i32.const	0
	i32.store	4
	local.get	4
	local.get	0
	i32.const	4
	i32.add 
	i32.store	0
	local.get	4
	local.get	5
	i64.const	1
	i64.shl 
	i64.const	56
	i64.add 
	i64.store	8
	block   	
	block   	
	local.get	1
	i64.load	0
	i64.const	1
	i64.eq  
	br_if   	0                               # 0: down to label214
# %bb.6:
	i32.const	10
	local.set	0
	br      	1                               # 1: down to label213
.LBB74_7:                               # %join.3.i.i.i
	end_block                               # label214:
	block   	
	local.get	1
	local.get	4
	local.get	2
	i32.const	0
	i32.const	4096
	local.get	2
	i32.select
	i32.add 
	local.get	3
	i64.extend_i32_u
	call	cmac__pieces__Message__is_tag_so_far____4f733d09d7f6c6b4_
	br_if   	0                               # 0: down to label215
# %bb.8:
	i32.const	6
	local.set	0
	br      	1                               # 1: down to label213
.LBB74_9:                               # %join.7.i.i.i
	end_block                               # label215:
	local.get	1
	call	cmac__pieces__MessageZeroize__zeroize
	i32.const	0
	local.set	0
.LBB74_10:                              # %cmac__pieces__Message__accept____4f733d09d7f6c6b4_.exit.i.i
	end_block                               # label213:
	call	aes_cipher__zeroize__stack__wipe_stack____768_
.LBB74_11:                              # %wide_fotsgure_aes_cmac_accept.exit
	end_block                               # label210:
	local.get	4
	i32.const	16
	i32.add 
	global.set	__stack_pointer
	local.get	0
                                        # fallthrough-return
	end_function
                                        # -- End function
	.section	.text.fotsgure_aes_cmac_wipe,"",@
	.globl	fotsgure_aes_cmac_wipe          # -- Begin function fotsgure_aes_cmac_wipe
	.type	fotsgure_aes_cmac_wipe,@function
fotsgure_aes_cmac_wipe:                 # @fotsgure_aes_cmac_wipe
	.functype	fotsgure_aes_cmac_wipe (i32) -> ()
# %bb.0:
	local.get	0
	i64.const	0
	i64.store	40:p2align=0
	local.get	0
	i64.const	0
	i64.store	32:p2align=0
	local.get	0
	i64.const	0
	i64.store	24:p2align=0
	local.get	0
	i64.const	0
	i64.store	16:p2align=0
	local.get	0
	i64.const	0
	i64.store	8:p2align=0
	local.get	0
	i64.const	0
	i64.store	0:p2align=0
	local.get	0
	call	cmac__pieces__MessageZeroize__zeroize
                                        # fallthrough-return
	end_function
                                        # -- End function
	.section	.text.fotsgure_aes_ccm_seal,"",@
	.globl	fotsgure_aes_ccm_seal           # -- Begin function fotsgure_aes_ccm_seal
	.type	fotsgure_aes_ccm_seal,@function
fotsgure_aes_ccm_seal:                  # @fotsgure_aes_ccm_seal
	.functype	fotsgure_aes_ccm_seal (i32, i32, i32, i32, i32, i32, i32, i32, i32) -> (i32)
	.local  	i32, i64, i32
# %bb.0:
	global.get	__stack_pointer
	i32.const	32
	i32.sub 
	local.tee	9
	global.set	__stack_pointer
	block   	
	block   	
	local.get	0
	i64.load32_u	0
	local.tee	10
	i64.const	32
	i64.eq  
	br_if   	0                               # 0: down to label217
# %bb.1:
	i32.const	2
	local.set	11
	local.get	10
	i64.const	4294967287
	i64.and 
	i64.const	16
	i64.ne  
	br_if   	1                               # 1: down to label216
.LBB76_2:                               # %join.3.i.i
	end_block                               # label217:
	i32.const	0
	local.set	11
	local.get	9
	i32.const	0
	i32.store	20
	local.get	9
	local.get	0
	i32.const	4
	i32.add 
	i32.store	16
	local.get	9
	local.get	10
	i64.const	1
	i64.shl 
	i64.const	56
	i64.add 
	i64.store	24
	local.get	9
	i32.const	8
	i32.add 
	local.get	9
	i32.const	16
	i32.add 
	local.get	1
	i32.const	0
	i32.const	4096
	local.get	1
	i32.select
	i32.add 
	local.get	2
	i64.extend_i32_u
	local.get	3
	i32.const	0
	i32.const	4096
	local.get	3
	i32.select
	i32.add 
	local.get	4
	i64.extend_i32_u
	local.get	5
	i32.const	0
	i32.const	4096
	local.get	5
	i32.select
	i32.add 
	local.get	6
	i64.extend_i32_u
	local.get	7
	i32.const	0
	i32.const	4096
	local.get	7
	i32.select
	i32.add 
	local.get	8
	i64.extend_i32_u
	call	ccm__mode__encrypt____4f733d09d7f6c6b4_
	local.get	9
	i32.load8_u	9
	local.set	7
	local.get	9
	i32.load8_u	8
	local.set	0
	call	aes_cipher__zeroize__stack__wipe_stack____1024_
	local.get	0
	i32.eqz
	br_if   	0                               # 0: down to label216
# %bb.3:                                # %arm.5.i.i
	local.get	7
	i32.const	255
	i32.and 
	i32.const	7
	i32.add 
	local.set	11
.LBB76_4:                               # %wide_fotsgure_aes_ccm_seal.exit
	end_block                               # label216:
	local.get	9
	i32.const	32
	i32.add 
	global.set	__stack_pointer
	local.get	11
                                        # fallthrough-return
	end_function
                                        # -- End function
	.section	.text.fotsgure_aes_ccm_open,"",@
	.globl	fotsgure_aes_ccm_open           # -- Begin function fotsgure_aes_ccm_open
	.type	fotsgure_aes_ccm_open,@function
fotsgure_aes_ccm_open:                  # @fotsgure_aes_ccm_open
	.functype	fotsgure_aes_ccm_open (i32, i32, i32, i32, i32, i32, i32, i32, i32) -> (i32)
	.local  	i32, i64, i32
# %bb.0:
	global.get	__stack_pointer
	i32.const	32
	i32.sub 
	local.tee	9
	global.set	__stack_pointer
	block   	
	block   	
	local.get	0
	i64.load32_u	0
	local.tee	10
	i64.const	32
	i64.eq  
	br_if   	0                               # 0: down to label219
# %bb.1:
	local.get	10
	i64.const	4294967287
	i64.and 
	i64.const	16
	i64.eq  
	br_if   	0                               # 0: down to label219
# %bb.2:
	i32.const	2
	local.set	11
	br      	1                               # 1: down to label218
.LBB77_3:                               # %join.3.i.i
	end_block                               # label219:
	i32.const	0
	local.set	11
	local.get	9
	i32.const	0
	i32.store	12
	local.get	9
	local.get	0
	i32.const	4
	i32.add 
	i32.store	8
	local.get	9
	local.get	10
	i64.const	1
	i64.shl 
	i64.const	56
	i64.add 
	i64.store	16
	local.get	9
	i32.const	29
	i32.add 
	local.get	9
	i32.const	8
	i32.add 
	local.get	1
	i32.const	0
	i32.const	4096
	local.get	1
	i32.select
	i32.add 
	local.get	2
	i64.extend_i32_u
	local.get	3
	i32.const	0
	i32.const	4096
	local.get	3
	i32.select
	i32.add 
	local.get	4
	i64.extend_i32_u
	local.get	5
	i32.const	0
	i32.const	4096
	local.get	5
	i32.select
	i32.add 
	local.get	6
	i64.extend_i32_u
	local.get	7
	i32.const	0
	i32.const	4096
	local.get	7
	i32.select
	i32.add 
	local.get	8
	i64.extend_i32_u
	call	ccm__mode__decrypt____4f733d09d7f6c6b4_
	call	aes_cipher__zeroize__stack__wipe_stack____1024_
	local.get	9
	i32.load8_u	29
	i32.eqz
	br_if   	0                               # 0: down to label218
# %bb.4:                                # %arm.5.i.i
	block   	
	local.get	9
	i32.load8_u	30
	i32.eqz
	br_if   	0                               # 0: down to label220
# %bb.5:
	i32.const	6
	local.set	11
	br      	1                               # 1: down to label218
.LBB77_6:                               # %arm.8.i.i
	end_block                               # label220:
	local.get	9
	i32.load8_u	31
	i32.const	7
	i32.add 
	local.set	11
.LBB77_7:                               # %wide_fotsgure_aes_ccm_open.exit
	end_block                               # label218:
	local.get	9
	i32.const	32
	i32.add 
	global.set	__stack_pointer
	local.get	11
                                        # fallthrough-return
	end_function
                                        # -- End function
	.section	.text.fotsgure_aes_cipher_round,"",@
	.globl	fotsgure_aes_cipher_round       # -- Begin function fotsgure_aes_cipher_round
	.type	fotsgure_aes_cipher_round,@function
fotsgure_aes_cipher_round:              # @fotsgure_aes_cipher_round
	.functype	fotsgure_aes_cipher_round (i32, i32) -> ()
# %bb.0:
	local.get	0
	local.get	1
	call	aes_c__single_rounds__round
	call	aes_cipher__zeroize__stack__wipe_stack____512_
                                        # fallthrough-return
	end_function
                                        # -- End function
	.section	.text.fotsgure_aes_equiv_inv_cipher_round,"",@
	.globl	fotsgure_aes_equiv_inv_cipher_round # -- Begin function fotsgure_aes_equiv_inv_cipher_round
	.type	fotsgure_aes_equiv_inv_cipher_round,@function
fotsgure_aes_equiv_inv_cipher_round:    # @fotsgure_aes_equiv_inv_cipher_round
	.functype	fotsgure_aes_equiv_inv_cipher_round (i32, i32) -> ()
# %bb.0:
	local.get	0
	local.get	1
	call	aes_c__single_rounds__inverse_round
	call	aes_cipher__zeroize__stack__wipe_stack____512_
                                        # fallthrough-return
	end_function
                                        # -- End function
	.section	.text.fotsgure_aes_cipher_round_par,"",@
	.globl	fotsgure_aes_cipher_round_par   # -- Begin function fotsgure_aes_cipher_round_par
	.type	fotsgure_aes_cipher_round_par,@function
fotsgure_aes_cipher_round_par:          # @fotsgure_aes_cipher_round_par
	.functype	fotsgure_aes_cipher_round_par (i32, i32) -> ()
# %bb.0:
	local.get	0
	local.get	1
	call	aes_c__single_rounds__rounds
	call	aes_cipher__zeroize__stack__wipe_stack____512_
                                        # fallthrough-return
	end_function
                                        # -- End function
	.section	.text.fotsgure_aes_equiv_inv_cipher_round_par,"",@
	.globl	fotsgure_aes_equiv_inv_cipher_round_par # -- Begin function fotsgure_aes_equiv_inv_cipher_round_par
	.type	fotsgure_aes_equiv_inv_cipher_round_par,@function
fotsgure_aes_equiv_inv_cipher_round_par: # @fotsgure_aes_equiv_inv_cipher_round_par
	.functype	fotsgure_aes_equiv_inv_cipher_round_par (i32, i32) -> ()
# %bb.0:
	local.get	0
	local.get	1
	call	aes_c__single_rounds__inverse_rounds
	call	aes_cipher__zeroize__stack__wipe_stack____512_
                                        # fallthrough-return
	end_function
                                        # -- End function
	.section	.text.fotsgure_aes_mix_columns,"",@
	.globl	fotsgure_aes_mix_columns        # -- Begin function fotsgure_aes_mix_columns
	.type	fotsgure_aes_mix_columns,@function
fotsgure_aes_mix_columns:               # @fotsgure_aes_mix_columns
	.functype	fotsgure_aes_mix_columns (i32) -> ()
# %bb.0:
	local.get	0
	call	aes_c__single_rounds__mixed
	call	aes_cipher__zeroize__stack__wipe_stack____512_
                                        # fallthrough-return
	end_function
                                        # -- End function
	.section	.text.fotsgure_aes_inv_mix_columns,"",@
	.globl	fotsgure_aes_inv_mix_columns    # -- Begin function fotsgure_aes_inv_mix_columns
	.type	fotsgure_aes_inv_mix_columns,@function
fotsgure_aes_inv_mix_columns:           # @fotsgure_aes_inv_mix_columns
	.functype	fotsgure_aes_inv_mix_columns (i32) -> ()
# %bb.0:
	local.get	0
	call	aes_c__single_rounds__inverse_mixed
	call	aes_cipher__zeroize__stack__wipe_stack____512_
                                        # fallthrough-return
	end_function
                                        # -- End function
	.section	.text.fotsgure_aes_encrypt_blocks_with,"",@
	.globl	fotsgure_aes_encrypt_blocks_with # -- Begin function fotsgure_aes_encrypt_blocks_with
	.type	fotsgure_aes_encrypt_blocks_with,@function
fotsgure_aes_encrypt_blocks_with:       # @fotsgure_aes_encrypt_blocks_with
	.functype	fotsgure_aes_encrypt_blocks_with (i32, i32, i32, i32) -> (i32)
	.local  	i32, i64, i32, i32
# %bb.0:
	global.get	__stack_pointer
	i32.const	496
	i32.sub 
	local.tee	4
	global.set	__stack_pointer
	local.get	1
	i64.extend_i32_u
	local.set	5
	block   	
	block   	
	local.get	1
	i32.const	32
	i32.eq  
	br_if   	0                               # 0: down to label222
# %bb.1:
	i32.const	1
	local.set	6
	local.get	5
	i64.const	4294967287
	i64.and 
	i64.const	16
	i64.ne  
	br_if   	1                               # 1: down to label221
.LBB84_2:                               # %join.3.i.i
	end_block                               # label222:
	i32.const	0
	local.set	6
	local.get	4
	i32.const	12
	i32.add 
	i32.const	0
	i32.const	484
	call	memset
	drop
	local.get	4
	i32.const	16
	i32.add 
	local.tee	7
	local.get	0
	i32.const	0
	i32.const	4096
	local.get	0
	i32.select
	i32.add 
	local.get	5
	call	aes_narrow__word_room__expand_words____6af90bfc14753d47_
	call	aes_cipher__zeroize__stack__wipe_stack____768_
	local.get	4
	local.get	1
	i32.store	12
	local.get	7
	local.get	5
	i64.const	1
	i64.shl 
	i64.const	56
	i64.add 
	local.get	2
	i32.const	0
	i32.const	4096
	local.get	2
	i32.select
	i32.add 
	local.get	3
	i64.extend_i32_u
	call	aes_narrow__blocks__process_all_batches____1a21aa7f601e7603_
	call	aes_cipher__zeroize__stack__wipe_stack____1024_
	local.get	4
	i32.const	0
	i32.store	12
	local.get	7
	call	aes_cipher__zeroize__elements__zeroize_elements____54a2bb646728b9ee_
.LBB84_3:                               # %wide_fotsgure_aes_encrypt_blocks_with.exit
	end_block                               # label221:
	local.get	4
	i32.const	496
	i32.add 
	global.set	__stack_pointer
	local.get	6
                                        # fallthrough-return
	end_function
                                        # -- End function
	.section	.text.fotsgure_aes_decrypt_blocks_with,"",@
	.globl	fotsgure_aes_decrypt_blocks_with # -- Begin function fotsgure_aes_decrypt_blocks_with
	.type	fotsgure_aes_decrypt_blocks_with,@function
fotsgure_aes_decrypt_blocks_with:       # @fotsgure_aes_decrypt_blocks_with
	.functype	fotsgure_aes_decrypt_blocks_with (i32, i32, i32, i32) -> (i32)
	.local  	i32, i32
# %bb.0:
	global.get	__stack_pointer
	i32.const	496
	i32.sub 
	local.tee	4
	global.set	__stack_pointer
	local.get	4
	i32.const	12
	i32.add 
	i32.const	0
	i32.const	484
	call	memset
	drop
	i32.const	1
	local.set	5
	block   	
	local.get	4
	i32.const	12
	i32.add 
	local.get	0
	i32.const	0
	i32.const	4096
	local.get	0
	i32.select
	i32.add 
	local.get	1
	i64.extend_i32_u
	call	aes_c__kept__fotsgure_aes_set_key
	br_if   	0                               # 0: down to label223
# %bb.1:                                # %join.3.i.i
	local.get	4
	i32.const	12
	i32.add 
	local.get	2
	i32.const	0
	i32.const	4096
	local.get	2
	i32.select
	i32.add 
	local.get	3
	i64.extend_i32_u
	call	aes_c__blocks__fotsgure_aes_decrypt_blocks
	local.set	5
	local.get	4
	i32.const	0
	i32.store	12
	local.get	4
	i32.const	16
	i32.add 
	call	aes_cipher__zeroize__elements__zeroize_elements____54a2bb646728b9ee_
.LBB85_2:                               # %wide_fotsgure_aes_decrypt_blocks_with.exit
	end_block                               # label223:
	local.get	4
	i32.const	496
	i32.add 
	global.set	__stack_pointer
	local.get	5
                                        # fallthrough-return
	end_function
                                        # -- End function
	.section	.text.fotsgure_aes_add_keystream_with,"",@
	.globl	fotsgure_aes_add_keystream_with # -- Begin function fotsgure_aes_add_keystream_with
	.type	fotsgure_aes_add_keystream_with,@function
fotsgure_aes_add_keystream_with:        # @fotsgure_aes_add_keystream_with
	.functype	fotsgure_aes_add_keystream_with (i32, i32, i32, i32, i32) -> (i32)
	.local  	i32, i64, i64, i32, i32
# %bb.0:
	global.get	__stack_pointer
	i32.const	512
	i32.sub 
	local.tee	5
	global.set	__stack_pointer
	local.get	1
	i64.extend_i32_u
	local.set	6
	block   	
	block   	
	local.get	1
	i32.const	32
	i32.eq  
	br_if   	0                               # 0: down to label225
# %bb.1:
	local.get	6
	i64.const	4294967287
	i64.and 
	i64.const	16
	i64.eq  
	br_if   	0                               # 0: down to label225
# %bb.2:
	i32.const	1
	local.set	4
	br      	1                               # 1: down to label224
.LBB86_3:                               # %join.3.i.i
	end_block                               # label225:
	block   	
	local.get	4
	i64.extend_i32_u
	local.tee	7
	local.get	2
	i32.const	16
	i32.add 
	local.tee	8
	i64.load	0
	i64.const	-1
	i64.xor 
	i64.le_u
	br_if   	0                               # 0: down to label226
# %bb.4:
	i32.const	4
	local.set	4
	br      	1                               # 1: down to label224
.LBB86_5:                               # %join.6.i.i
	end_block                               # label226:
	i32.const	0
	local.set	4
	local.get	5
	i32.const	28
	i32.add 
	i32.const	0
	i32.const	484
	call	memset
	drop
	local.get	5
	i32.const	32
	i32.add 
	local.tee	9
	local.get	0
	i32.const	0
	i32.const	4096
	local.get	0
	i32.select
	i32.add 
	local.get	6
	call	aes_narrow__word_room__expand_words____6af90bfc14753d47_
	call	aes_cipher__zeroize__stack__wipe_stack____768_
	local.get	5
	local.get	6
	i64.const	1
	i64.shl 
	i64.const	56
	i64.add 
	i64.store	16
	local.get	5
	i32.const	0
	i32.store	12
	local.get	5
	local.get	9
	i32.store	8
	local.get	5
	local.get	1
	i32.store	28
	local.get	5
	i32.const	8
	i32.add 
	local.get	2
	local.get	8
	i64.load	0
	local.get	3
	i32.const	0
	i32.const	4096
	local.get	3
	i32.select
	i32.add 
	local.get	7
	call	aes_ctr__add_in_batches__add_keystream____4f733d09d7f6c6b4_
	local.get	8
	local.get	8
	i64.load	0
	local.get	7
	i64.add 
	i64.store	0
	local.get	5
	i32.const	0
	i32.store	28
	local.get	9
	call	aes_cipher__zeroize__elements__zeroize_elements____54a2bb646728b9ee_
.LBB86_6:                               # %wide_fotsgure_aes_add_keystream_with.exit
	end_block                               # label224:
	local.get	5
	i32.const	512
	i32.add 
	global.set	__stack_pointer
	local.get	4
                                        # fallthrough-return
	end_function
                                        # -- End function
	.type	.Lstatic.0,@object              # @static.0
	.section	.rodata..Lstatic.0,"",@
.Lstatic.0:
	.ascii	"\001\002\004\b\020 @\200\0336"
	.size	.Lstatic.0, 10

	.type	.Lstatic.2,@object              # @static.2
	.section	.rodata..Lstatic.2,"",@
.Lstatic.2:
	.skip	16,166
	.size	.Lstatic.2, 16

	.ident	"rattle logic=dac8208d650f15bf3e2dc313a14fa4c783a3acf887bdfab66e1714b038d9e11b"
	.section	.custom_section.producers,"",@
	.int8	1
	.int8	12
	.ascii	"processed-by"
	.int8	1
	.int8	77
	.ascii	"rattle logic=dac8208d650f15bf3e2dc313a14fa4c783a3acf887bdfab66e1714b038d9e11b"
	.int8	0
	.section	.rodata..Lstatic.2,"",@
