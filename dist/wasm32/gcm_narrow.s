# Made by tools/dist from the proved crate gcm_c; BUILD says from what. Don't edit it.
	.file	"rattle"
	.functype	memset (i32, i32, i32) -> (i32)
	.functype	memcpy (i32, i32, i32) -> (i32)
	.functype	memmove (i32, i32, i32) -> (i32)
	.globaltype	__stack_pointer, i32
	.functype	aes_cipher__zeroize__elements__zeroize_elements____54a2bb646728b9ee_ (i32) -> ()
	.functype	aes_cipher__zeroize__elements__zeroize_elements____d3d1c9d97fea966e_ (i32) -> ()
	.functype	gcm__message_state__MessageZeroize__zeroize (i32) -> ()
	.functype	aes_cipher__zeroize__elements__zeroize_elements____3b2097f0eef5a37b_ (i32) -> ()
	.functype	aes_narrow__word_room__expand_words____6af90bfc14753d47_ (i32, i32, i64) -> ()
	.functype	aes_planes__soft__word__word32__U32Word__in_every_slot (i32, i32) -> ()
	.functype	aes_planes__soft__word__word32__U32Word__constant_planes (i32, i32) -> ()
	.functype	aes_cipher__zeroize__stack__wipe_stack____768_ () -> ()
	.functype	gcm__mode__BorrowedGcm__start____c01aad2b5fbc92b1_ (i32, i32, i32, i64) -> ()
	.functype	gcm__mode__BorrowedGcm__put_pre_counter____c01aad2b5fbc92b1_ (i32, i32, i64, i32) -> ()
	.functype	gcm__single_blocks__hash_singly____165deadc48559e33_ (i32, i32, i64, i64, i32, i64) -> ()
	.functype	gcm__bitwise__product_bitwise (i32, i64, i64, i64, i64) -> ()
	.functype	gcm__tags__hash_lengths____d9ba0fa9ccec4268_ (i32, i32, i64, i64, i64, i64) -> ()
	.functype	gcm__tags__lengths_of (i32, i64, i64) -> ()
	.functype	aes_cipher__zeroize__stack__wipe_stack____512_ () -> ()
	.functype	gcm__mode__BorrowedGcm__end____c01aad2b5fbc92b1_ (i32, i32, i32, i32) -> (i32)
	.functype	gcm__mode__BorrowedGcm__put_tag_so_far____c01aad2b5fbc92b1_ (i32, i32, i32) -> ()
	.functype	aes_narrow__blocks__process_all_batches____f6c900d3ac1e47b9_ (i32, i64, i32, i64) -> ()
	.functype	aes_soft__soft__blocks__filled_up__process_filled_up____f6c900d3ac1e47b9_ (i32, i64, i32, i64) -> ()
	.functype	aes_soft__soft__ciphers__planes__process_outlined____dc651273b304e77a_ (i32, i32, i64, i32) -> ()
	.functype	aes_planes__soft__word__word32__U32Word__rotate_planes (i32, i32, i32, i32) -> ()
	.functype	aes_planes__soft__word__word32__U32Word__rotate_rows_and_columns (i32, i32, i32) -> (i32)
	.functype	aes_cipher__zeroize__stack__wipe_stack____1024_ () -> ()
	.functype	gcm__mode__BorrowedGcm__hash_so_far____c01aad2b5fbc92b1_ (i32, i32, i32) -> ()
	.functype	gcm__tags__add_masked (i64, i64, i32) -> ()
	.functype	gcm__mode__put_subkey____107cc7d9d0728059_ (i32, i32) -> ()
	.functype	gcm__mode__BorrowedGcm__compare____c01aad2b5fbc92b1_ (i32, i32, i64, i32, i64, i32, i64, i32, i32) -> (i32)
	.functype	gcm__mode__BorrowedGcm__put_tag____c01aad2b5fbc92b1_ (i32, i32, i32, i64, i32, i64, i32) -> ()
	.functype	aes_cipher__blocks__difference (i32, i32) -> (i32)
	.functype	gcm__gctr__add_gctr____099a9bc28799ce6c_ (i32, i32, i64, i32, i64) -> ()
	.functype	aes_narrow__borrowed_words__call_to_encrypt____1305835a18aa05db_ (i32, i64, i32) -> ()
	.functype	aes_ctr__add_in_batches__add_next____8f445e75de4b0592_ (i32, i32, i64, i64, i32, i64) -> (i64)
	.functype	aes_narrow__borrowed_words__BorrowedWordsBlockCipherEncBackend__encrypt_first_blocks____5b4689a38c32c9c5_ (i32, i64, i32) -> ()
	.functype	aes_cipher__zeroize__stack__wipe_stack____2032_ () -> ()
	.functype	aes_cipher__zeroize__stack__wipe_stack____1536_ () -> ()
	.functype	gcm_c__whole__fotsgure_gcm_seal (i32, i32, i64, i32, i64, i32, i64, i32) -> (i32)
	.functype	gcm_c__whole_to__copy (i32, i64, i32) -> ()
	.functype	gcm_c__siv__fotsgure_gcm_siv_open (i32, i32, i32, i64, i32, i64, i32) -> (i32)
	.functype	gcm_siv__course__open_in____a4ece9b7a9859b66_ (i32, i64, i32, i32, i64, i32, i64, i32) -> (i32)
	.functype	gcm_siv__keys__derive_and_prepare____a4ece9b7a9859b66_ (i32, i64, i32, i32, i32) -> ()
	.functype	aes_cipher__zeroize__elements__zeroize_elements____82a118249f09cfc6_ (i32, i64) -> ()
	.functype	gcm_siv__message__open____bc93ff5f0cc4cd41_ (i32, i32, i32, i32, i64, i32, i64, i32) -> (i32)
	.functype	gcm_siv__message__put_tag____bc93ff5f0cc4cd41_ (i32, i32, i32, i32, i64, i32, i64, i32) -> ()
	.functype	gcm__single_blocks__hash_singly____4042f4b97f1aa5e1_ (i32, i32, i64, i64, i32, i64) -> ()
	.functype	gcm_siv__message__process_text____a556ffa628b2ee02_ (i32, i32, i32, i64) -> ()
	.functype	aes_narrow__borrowed_words__call_to_encrypt____d0e731d912aff965_ (i32, i64, i32) -> ()
	.functype	aes_ctr__add_in_batches__add_next____9f5b6b63b811461e_ (i32, i32, i64, i64, i32, i64) -> (i64)
	.functype	aes_cipher__zeroize__stack__wipe_stack____2816_ () -> ()
	.functype	gcm_c__siv__fotsgure_gcm_siv_seal (i32, i32, i32, i64, i32, i64, i32) -> (i32)
	.functype	gcm_siv__course__seal_in____a4ece9b7a9859b66_ (i32, i32, i64, i32, i32, i64, i32, i64) -> ()
	.functype	gcm_siv__message__seal____bc93ff5f0cc4cd41_ (i32, i32, i32, i32, i32, i64, i32, i64) -> ()
	.functype	gcm__hash_room__hash_piece____d9ba0fa9ccec4268_ (i32, i32, i32, i64, i32, i64) -> ()
	.functype	gcm__mode__BorrowedGcm__enter_phase____c01aad2b5fbc92b1_ (i32, i32, i32, i32, i64) -> ()
	.functype	gcm__mode__BorrowedGcm__is_tag_so_far____c01aad2b5fbc92b1_ (i32, i32, i32) -> (i32)
	.functype	gcm__mode__BorrowedGcm__is_short_tag_so_far____c01aad2b5fbc92b1_ (i32, i32, i32, i64) -> (i32)
	.functype	fotsgure_gcm_version () -> (i32)
	.functype	fotsgure_gcm_set_key (i32, i32, i32) -> (i32)
	.functype	fotsgure_gcm_set_key_of (i32, i32) -> (i32)
	.functype	fotsgure_gcm_key_length (i32) -> (i32)
	.functype	fotsgure_gcm_wipe (i32) -> ()
	.functype	fotsgure_gcm_seal (i32, i32, i32, i32, i32, i32, i32, i32) -> (i32)
	.functype	fotsgure_gcm_seal_to (i32, i32, i32, i32, i32, i32, i32, i32, i32, i32) -> (i32)
	.functype	fotsgure_gcm_seal_next (i32, i32, i32, i32, i32, i32, i32, i32) -> (i32)
	.functype	fotsgure_gcm_open (i32, i32, i32, i32, i32, i32, i32, i32, i32) -> (i32)
	.functype	fotsgure_gcm_open_to (i32, i32, i32, i32, i32, i32, i32, i32, i32, i32, i32) -> (i32)
	.functype	fotsgure_gcm_begin (i32, i32, i32, i32) -> (i32)
	.functype	fotsgure_gcm_begin_next (i32, i32, i32, i32) -> (i32)
	.functype	fotsgure_gcm_additional (i32, i32, i32, i32) -> (i32)
	.functype	fotsgure_gcm_encrypt (i32, i32, i32, i32) -> (i32)
	.functype	fotsgure_gcm_finish (i32, i32, i32) -> (i32)
	.functype	fotsgure_gcm_verify (i32, i32, i32, i32) -> (i32)
	.functype	fotsgure_gcm_accept (i32, i32, i32, i32) -> (i32)
	.functype	fotsgure_gcm_accept_short (i32, i32, i32, i32, i32) -> (i32)
	.functype	fotsgure_gcm_decrypt (i32, i32, i32, i32) -> (i32)
	.functype	fotsgure_gcm_decrypt_unverified (i32, i32, i32, i32) -> (i32)
	.functype	fotsgure_gcm_finish_unverified (i32, i32, i32) -> (i32)
	.functype	fotsgure_gcm_wipe_message (i32) -> ()
	.functype	fotsgure_gcm_siv_set_key (i32, i32, i32) -> (i32)
	.functype	fotsgure_gcm_siv_seal (i32, i32, i32, i32, i32, i32, i32) -> (i32)
	.functype	fotsgure_gcm_siv_seal_to (i32, i32, i32, i32, i32, i32, i32, i32, i32) -> (i32)
	.functype	fotsgure_gcm_siv_open (i32, i32, i32, i32, i32, i32, i32) -> (i32)
	.functype	fotsgure_gcm_siv_open_to (i32, i32, i32, i32, i32, i32, i32, i32, i32) -> (i32)
	.functype	fotsgure_gcm_siv_wipe (i32) -> ()
	.section	.text.aes_cipher__zeroize__elements__zeroize_elements____54a2bb646728b9ee_,"",@
	.type	aes_cipher__zeroize__elements__zeroize_elements____54a2bb646728b9ee_,@function # -- Begin function aes_cipher__zeroize__elements__zeroize_elements____54a2bb646728b9ee_
aes_cipher__zeroize__elements__zeroize_elements____54a2bb646728b9ee_: # @aes_cipher__zeroize__elements__zeroize_elements____54a2bb646728b9ee_
	.functype	aes_cipher__zeroize__elements__zeroize_elements____54a2bb646728b9ee_ (i32) -> ()
	.local  	i32, i64, i64, i32, i32
# %bb.0:                                # %start
	global.get	__stack_pointer
	i32.const	16
	i32.sub 
	local.tee	1
	global.set	__stack_pointer
	i64.const	0
	local.set	2
	local.get	1
	i64.const	0
	i64.store	8
	#APP
	#NO_APP
	local.get	1
	i64.load	8
	local.set	3
	#APP
	#NO_APP
	block   	
	block   	
	local.get	3
	i64.const	120
	i64.lt_u
	br_if   	0                               # 0: down to label1
# %bb.1:                                # %aes_cipher__zeroize__observe____94bc162b3f62047f_.exit12
	local.get	0
	i32.const	0
	i32.const	480
	call	memset
	drop
	br      	1                               # 1: down to label0
.LBB0_2:                                # %then.1.i
	end_block                               # label1:
	local.get	0
	local.get	3
	i32.wrap_i64
	i32.const	2
	i32.shl 
	i32.add 
	local.tee	4
	i32.load8_u	0
	local.set	5
	local.get	0
	i32.const	0
	i32.const	480
	call	memset
	drop
	local.get	5
	local.get	4
	i32.load8_u	0
	i32.and 
	i64.extend_i32_u
	local.set	2
.LBB0_3:                                # %aes_cipher__zeroize__observe____94bc162b3f62047f_.exit
	end_block                               # label0:
	#APP
	#NO_APP
	local.get	1
	i64.load	8
	drop
	local.get	1
	local.get	2
	i64.store	8
	#APP
	#NO_APP
	local.get	1
	i32.const	16
	i32.add 
	global.set	__stack_pointer
                                        # fallthrough-return
	end_function
                                        # -- End function
	.section	.text.aes_cipher__zeroize__elements__zeroize_elements____d3d1c9d97fea966e_,"",@
	.type	aes_cipher__zeroize__elements__zeroize_elements____d3d1c9d97fea966e_,@function # -- Begin function aes_cipher__zeroize__elements__zeroize_elements____d3d1c9d97fea966e_
aes_cipher__zeroize__elements__zeroize_elements____d3d1c9d97fea966e_: # @aes_cipher__zeroize__elements__zeroize_elements____d3d1c9d97fea966e_
	.functype	aes_cipher__zeroize__elements__zeroize_elements____d3d1c9d97fea966e_ (i32) -> ()
	.local  	i32
# %bb.0:                                # %start
	global.get	__stack_pointer
	i32.const	16
	i32.sub 
	local.tee	1
	i64.const	0
	i64.store	8
	#APP
	#NO_APP
	local.get	1
	i64.load	8
	drop
	#APP
	#NO_APP
	local.get	0
	i64.const	0
	i64.store	8:p2align=0
	local.get	0
	i64.const	0
	i64.store	0:p2align=0
	#APP
	#NO_APP
	local.get	1
	i64.load	8
	drop
	local.get	1
	i64.const	0
	i64.store	8
	#APP
	#NO_APP
                                        # fallthrough-return
	end_function
                                        # -- End function
	.section	.text.gcm__message_state__MessageZeroize__zeroize,"",@
	.type	gcm__message_state__MessageZeroize__zeroize,@function # -- Begin function gcm__message_state__MessageZeroize__zeroize
gcm__message_state__MessageZeroize__zeroize: # @gcm__message_state__MessageZeroize__zeroize
	.functype	gcm__message_state__MessageZeroize__zeroize (i32) -> ()
# %bb.0:                                # %start
	local.get	0
	i64.const	0
	i64.store	24
	local.get	0
	i64.const	0
	i64.store	16
	local.get	0
	i64.const	0
	i64.store	8
	local.get	0
	i64.const	0
	i64.store	0
	local.get	0
	i32.const	32
	i32.add 
	call	aes_cipher__zeroize__elements__zeroize_elements____3b2097f0eef5a37b_
	local.get	0
	i32.const	48
	i32.add 
	call	aes_cipher__zeroize__elements__zeroize_elements____3b2097f0eef5a37b_
	local.get	0
	i32.const	64
	i32.add 
	call	aes_cipher__zeroize__elements__zeroize_elements____3b2097f0eef5a37b_
                                        # fallthrough-return
	end_function
                                        # -- End function
	.section	.text.aes_cipher__zeroize__elements__zeroize_elements____3b2097f0eef5a37b_,"",@
	.type	aes_cipher__zeroize__elements__zeroize_elements____3b2097f0eef5a37b_,@function # -- Begin function aes_cipher__zeroize__elements__zeroize_elements____3b2097f0eef5a37b_
aes_cipher__zeroize__elements__zeroize_elements____3b2097f0eef5a37b_: # @aes_cipher__zeroize__elements__zeroize_elements____3b2097f0eef5a37b_
	.functype	aes_cipher__zeroize__elements__zeroize_elements____3b2097f0eef5a37b_ (i32) -> ()
	.local  	i32
# %bb.0:                                # %start
	global.get	__stack_pointer
	i32.const	16
	i32.sub 
	local.tee	1
	i64.const	0
	i64.store	8
	#APP
	#NO_APP
	local.get	1
	i64.load	8
	drop
	#APP
	#NO_APP
	local.get	0
	i64.const	0
	i64.store	8:p2align=0
	local.get	0
	i64.const	0
	i64.store	0:p2align=0
	#APP
	#NO_APP
	local.get	1
	i64.load	8
	drop
	local.get	1
	i64.const	0
	i64.store	8
	#APP
	#NO_APP
                                        # fallthrough-return
	end_function
                                        # -- End function
	.section	.text.aes_narrow__word_room__expand_words____6af90bfc14753d47_,"",@
	.type	aes_narrow__word_room__expand_words____6af90bfc14753d47_,@function # -- Begin function aes_narrow__word_room__expand_words____6af90bfc14753d47_
aes_narrow__word_room__expand_words____6af90bfc14753d47_: # @aes_narrow__word_room__expand_words____6af90bfc14753d47_
	.functype	aes_narrow__word_room__expand_words____6af90bfc14753d47_ (i32, i32, i64) -> ()
	.local  	i32, i32, i32, i32, i32, i32, i32, i32, i32, i64, i32, i32, i32, i32, i32, i32, i32, i32, i32, i32, i32, i32, i32, i32, i32, i32, i32, i32, i32, i32, i32, i32, i32, i32, i32, i32, i32, i32, i32, i32, i32, i32, i32, i32, i32, i32, i32, i32, i32, i32, i32, i32, i32, i32, i32, i32, i32, i32, i32, i32, i64, i64, i64
# %bb.0:                                # %start
	global.get	__stack_pointer
	i32.const	32
	i32.sub 
	local.tee	3
	global.set	__stack_pointer
	block   	
	block   	
	block   	
	block   	
	local.get	2
	i32.wrap_i64
	i32.const	-16
	i32.add 
	br_table 	{0, 2, 2, 2, 2, 2, 2, 2, 1, 2} # 2: down to label3
                                        # 1: down to label4
.LBB4_1:                                # %then.1.i160
	end_block                               # label5:
	local.get	3
	local.get	1
	call	aes_planes__soft__word__word32__U32Word__in_every_slot
	local.get	3
	i32.load	0
	local.set	4
	local.get	3
	i32.load	4
	local.set	5
	local.get	3
	i32.load	8
	local.set	6
	local.get	3
	i32.load	12
	local.set	7
	local.get	3
	i32.load	16
	local.set	8
	local.get	3
	i32.load	20
	local.set	9
	local.get	3
	i32.load	24
	local.set	10
	local.get	0
	local.get	3
	i32.load	28
	local.tee	11
	i32.store	28
	local.get	0
	local.get	10
	i32.store	24
	local.get	0
	local.get	9
	i32.store	20
	local.get	0
	local.get	8
	i32.store	16
	local.get	0
	local.get	7
	i32.store	12
	local.get	0
	local.get	6
	i32.store	8
	local.get	0
	local.get	5
	i32.store	4
	local.get	0
	local.get	4
	i32.store	0
	i64.const	10
	local.set	12
	i32.const	.Lstatic.0
	local.set	13
	local.get	0
	local.set	1
.LBB4_2:                                # %join.5.i.i161
                                        # =>This Inner Loop Header: Depth=1
	loop    	                                # label6:
	local.get	1
	i32.const	24
	i32.add 
	i32.load	0
	local.set	14
	local.get	1
	i32.const	4
	i32.add 
	i32.load	0
	local.set	15
	local.get	1
	i32.const	12
	i32.add 
	i32.load	0
	local.set	16
	local.get	1
	i32.const	16
	i32.add 
	i32.load	0
	local.set	17
	local.get	1
	i32.const	20
	i32.add 
	i32.load	0
	local.set	18
	local.get	1
	i32.const	8
	i32.add 
	i32.load	0
	local.set	19
	local.get	1
	i32.const	28
	i32.add 
	i32.load	0
	local.set	20
	local.get	1
	i32.load	0
	local.set	21
	local.get	3
	local.get	13
	i32.load8_u	0
	call	aes_planes__soft__word__word32__U32Word__constant_planes
	local.get	3
	i32.load	24
	local.set	22
	local.get	3
	i32.load	0
	local.set	23
	local.get	3
	i32.load	4
	local.set	24
	local.get	3
	i32.load	12
	local.set	25
	local.get	3
	i32.load	16
	local.set	26
	local.get	3
	i32.load	20
	local.set	27
	local.get	3
	i32.load	8
	local.set	28
	local.get	1
	i32.const	60
	i32.add 
	local.get	20
	local.get	11
	local.get	5
	i32.xor 
	local.tee	29
	local.get	8
	local.get	6
	i32.xor 
	local.tee	30
	i32.xor 
	local.tee	31
	local.get	7
	i32.xor 
	local.tee	32
	local.get	10
	i32.xor 
	local.tee	33
	local.get	11
	local.get	8
	i32.xor 
	local.tee	34
	i32.xor 
	local.tee	35
	local.get	10
	local.get	9
	i32.xor 
	local.tee	36
	i32.xor 
	local.tee	7
	local.get	36
	local.get	4
	i32.xor 
	local.tee	10
	local.get	5
	i32.xor 
	local.tee	37
	local.get	10
	i32.and 
	i32.xor 
	local.get	7
	local.get	29
	i32.and 
	local.tee	38
	i32.xor 
	local.get	29
	i32.xor 
	local.get	35
	local.get	32
	local.get	6
	i32.xor 
	local.tee	9
	local.get	36
	i32.xor 
	local.tee	36
	i32.xor 
	local.tee	39
	local.get	30
	i32.and 
	local.get	35
	local.get	34
	i32.and 
	local.tee	40
	i32.xor 
	local.tee	5
	i32.xor 
	local.tee	41
	local.get	33
	local.get	9
	local.get	4
	i32.xor 
	local.tee	42
	local.get	37
	local.get	11
	local.get	6
	i32.xor 
	local.tee	32
	i32.xor 
	local.tee	43
	i32.and 
	i32.xor 
	local.get	9
	local.get	31
	i32.and 
	local.tee	6
	i32.xor 
	local.get	5
	i32.xor 
	local.tee	33
	i32.and 
	local.tee	5
	local.get	10
	local.get	8
	i32.xor 
	local.tee	44
	local.get	4
	i32.and 
	local.get	32
	i32.xor 
	local.get	36
	i32.xor 
	local.get	6
	i32.xor 
	local.get	36
	local.get	32
	i32.and 
	local.get	40
	i32.xor 
	local.tee	8
	i32.xor 
	local.tee	6
	i32.xor 
	local.get	7
	local.get	35
	local.get	4
	i32.xor 
	local.tee	40
	local.get	10
	local.get	11
	i32.xor 
	local.tee	45
	i32.and 
	i32.xor 
	local.get	38
	i32.xor 
	local.get	11
	i32.xor 
	local.get	8
	i32.xor 
	local.tee	11
	local.get	41
	i32.xor 
	i32.and 
	local.tee	8
	local.get	5
	i32.xor 
	local.get	11
	i32.and 
	local.tee	38
	local.get	5
	local.get	11
	i32.xor 
	local.tee	5
	i32.xor 
	local.get	5
	local.get	33
	local.get	6
	i32.xor 
	local.tee	33
	i32.and 
	local.get	6
	i32.xor 
	local.tee	5
	i32.and 
	local.get	33
	i32.xor 
	local.tee	33
	local.get	5
	i32.xor 
	local.tee	46
	local.get	7
	i32.and 
	local.tee	47
	local.get	33
	local.get	10
	i32.and 
	i32.xor 
	local.tee	48
	local.get	33
	local.get	38
	local.get	41
	i32.xor 
	local.tee	6
	local.get	8
	local.get	11
	i32.xor 
	local.tee	10
	i32.xor 
	local.tee	8
	i32.xor 
	local.tee	7
	local.get	5
	local.get	10
	i32.xor 
	local.tee	11
	i32.xor 
	local.tee	41
	local.get	39
	i32.and 
	i32.xor 
	local.tee	38
	local.get	11
	local.get	35
	i32.and 
	i32.xor 
	local.tee	35
	local.get	3
	i32.load	28
	i32.xor 
	local.get	41
	local.get	30
	i32.and 
	local.get	11
	local.get	34
	i32.and 
	local.tee	30
	i32.xor 
	local.tee	34
	local.get	8
	local.get	43
	i32.and 
	i32.xor 
	local.tee	41
	local.get	6
	local.get	31
	i32.and 
	i32.xor 
	local.tee	31
	i32.xor 
	i32.const	18
	i32.rotl
	i32.const	50529027
	i32.and 
	i32.xor 
	local.tee	11
	i32.const	2
	i32.shl 
	i32.const	-50529028
	i32.and 
	local.get	11
	i32.xor 
	local.tee	11
	i32.const	4
	i32.shl 
	i32.const	-252645136
	i32.and 
	local.get	11
	i32.xor 
	local.tee	11
	i32.store	0
	local.get	1
	i32.const	40
	i32.add 
	local.get	19
	local.get	28
	local.get	10
	local.get	44
	i32.and 
	i32.xor 
	local.get	41
	i32.xor 
	local.get	7
	local.get	36
	i32.and 
	local.get	6
	local.get	9
	i32.and 
	local.tee	36
	local.get	10
	local.get	4
	i32.and 
	i32.xor 
	local.tee	4
	i32.xor 
	local.get	46
	local.get	29
	i32.and 
	local.tee	29
	i32.xor 
	local.get	38
	i32.xor 
	local.tee	41
	local.get	5
	local.get	45
	i32.and 
	i32.xor 
	local.tee	10
	i32.xor 
	i32.const	18
	i32.rotl
	i32.const	50529027
	i32.and 
	i32.xor 
	local.tee	6
	i32.const	2
	i32.shl 
	i32.const	-50529028
	i32.and 
	local.get	6
	i32.xor 
	local.tee	6
	i32.const	4
	i32.shl 
	i32.const	-252645136
	i32.and 
	local.get	6
	i32.xor 
	local.tee	6
	i32.store	0
	local.get	1
	i32.const	52
	i32.add 
	local.get	18
	local.get	27
	local.get	7
	local.get	32
	i32.and 
	i32.xor 
	local.get	30
	i32.xor 
	local.get	35
	i32.xor 
	local.get	10
	i32.xor 
	i32.const	18
	i32.rotl
	i32.const	-1
	i32.xor 
	i32.const	50529027
	i32.and 
	i32.xor 
	local.tee	10
	i32.const	2
	i32.shl 
	i32.const	-50529028
	i32.and 
	local.get	10
	i32.xor 
	local.tee	10
	i32.const	4
	i32.shl 
	i32.const	-252645136
	i32.and 
	local.get	10
	i32.xor 
	local.tee	9
	i32.store	0
	local.get	1
	i32.const	48
	i32.add 
	local.get	17
	local.get	26
	local.get	8
	local.get	42
	i32.and 
	local.get	36
	i32.xor 
	local.get	48
	i32.xor 
	local.get	31
	i32.xor 
	local.tee	10
	i32.xor 
	i32.const	18
	i32.rotl
	i32.const	50529027
	i32.and 
	i32.xor 
	local.tee	8
	i32.const	2
	i32.shl 
	i32.const	-50529028
	i32.and 
	local.get	8
	i32.xor 
	local.tee	8
	i32.const	4
	i32.shl 
	i32.const	-252645136
	i32.and 
	local.get	8
	i32.xor 
	local.tee	8
	i32.store	0
	local.get	1
	i32.const	44
	i32.add 
	local.get	16
	local.get	25
	local.get	4
	local.get	5
	local.get	40
	i32.and 
	i32.xor 
	local.get	47
	i32.xor 
	local.tee	4
	i32.xor 
	local.get	10
	i32.xor 
	i32.const	18
	i32.rotl
	i32.const	50529027
	i32.and 
	i32.xor 
	local.tee	5
	i32.const	2
	i32.shl 
	i32.const	-50529028
	i32.and 
	local.get	5
	i32.xor 
	local.tee	5
	i32.const	4
	i32.shl 
	i32.const	-252645136
	i32.and 
	local.get	5
	i32.xor 
	local.tee	7
	i32.store	0
	local.get	1
	i32.const	36
	i32.add 
	local.get	15
	local.get	24
	local.get	4
	local.get	33
	local.get	37
	i32.and 
	i32.xor 
	local.get	34
	i32.xor 
	local.tee	4
	i32.xor 
	local.get	41
	i32.xor 
	i32.const	18
	i32.rotl
	i32.const	-1
	i32.xor 
	i32.const	50529027
	i32.and 
	i32.xor 
	local.tee	5
	i32.const	2
	i32.shl 
	i32.const	-50529028
	i32.and 
	local.get	5
	i32.xor 
	local.tee	5
	i32.const	4
	i32.shl 
	i32.const	-252645136
	i32.and 
	local.get	5
	i32.xor 
	local.tee	5
	i32.store	0
	local.get	1
	i32.const	32
	i32.add 
	local.tee	36
	local.get	21
	local.get	4
	local.get	23
	i32.xor 
	local.get	29
	i32.xor 
	i32.const	18
	i32.rotl
	i32.const	-1
	i32.xor 
	i32.const	50529027
	i32.and 
	i32.xor 
	local.tee	4
	i32.const	2
	i32.shl 
	i32.const	-50529028
	i32.and 
	local.get	4
	i32.xor 
	local.tee	4
	i32.const	4
	i32.shl 
	i32.const	-252645136
	i32.and 
	local.get	4
	i32.xor 
	local.tee	4
	i32.store	0
	local.get	1
	i32.const	56
	i32.add 
	local.get	14
	local.get	35
	local.get	22
	i32.xor 
	local.get	10
	i32.xor 
	i32.const	18
	i32.rotl
	i32.const	-1
	i32.xor 
	i32.const	50529027
	i32.and 
	i32.xor 
	local.tee	1
	i32.const	2
	i32.shl 
	i32.const	-50529028
	i32.and 
	local.get	1
	i32.xor 
	local.tee	1
	i32.const	4
	i32.shl 
	i32.const	-252645136
	i32.and 
	local.get	1
	i32.xor 
	local.tee	10
	i32.store	0
	local.get	13
	i32.const	1
	i32.add 
	local.set	13
	local.get	36
	local.set	1
	local.get	12
	i64.const	-1
	i64.add 
	local.tee	12
	i64.eqz
	i32.eqz
	br_if   	0                               # 0: up to label6
	br      	3                               # 3: down to label2
.LBB4_3:                                # %then.4.i157
	end_loop
	end_block                               # label4:
	local.get	3
	local.get	1
	call	aes_planes__soft__word__word32__U32Word__in_every_slot
	local.get	3
	i32.load	0
	local.set	22
	local.get	3
	i32.load	4
	local.set	23
	local.get	3
	i32.load	8
	local.set	24
	local.get	3
	i32.load	12
	local.set	27
	local.get	3
	i32.load	16
	local.set	28
	local.get	3
	i32.load	20
	local.set	25
	local.get	3
	i32.load	24
	local.set	38
	local.get	3
	i32.load	28
	local.set	39
	local.get	3
	local.get	1
	i32.const	8
	i32.add 
	call	aes_planes__soft__word__word32__U32Word__in_every_slot
	local.get	3
	i32.load	28
	local.set	4
	local.get	3
	i32.load	24
	local.set	5
	local.get	3
	i32.load	20
	local.set	9
	local.get	3
	i32.load	16
	local.set	35
	local.get	3
	i32.load	12
	local.set	36
	local.get	3
	i32.load	8
	local.set	10
	local.get	3
	i32.load	4
	local.set	6
	local.get	3
	i32.load	0
	local.set	11
	local.get	0
	local.get	39
	i32.store	28
	local.get	0
	local.get	38
	i32.store	24
	local.get	0
	local.get	25
	i32.store	20
	local.get	0
	local.get	28
	i32.store	16
	local.get	0
	local.get	27
	i32.store	12
	local.get	0
	local.get	24
	i32.store	8
	local.get	0
	local.get	23
	i32.store	4
	local.get	0
	local.get	22
	i32.store	0
	i32.const	.Lstatic.0
	local.set	32
	i64.const	4
	local.set	12
	local.get	0
	local.set	1
.LBB4_4:                                # %join.5.i164.i
                                        # =>This Inner Loop Header: Depth=1
	loop    	                                # label7:
	local.get	3
	local.get	32
	i32.load8_u	0
	call	aes_planes__soft__word__word32__U32Word__constant_planes
	local.get	3
	i32.load	20
	local.set	20
	local.get	3
	i32.load	24
	local.set	21
	local.get	3
	i32.load	0
	local.set	26
	local.get	3
	i32.load	4
	local.set	40
	local.get	3
	i32.load	12
	local.set	42
	local.get	3
	i32.load	16
	local.set	43
	local.get	3
	i32.load	8
	local.set	44
	local.get	1
	i32.const	60
	i32.add 
	local.get	4
	local.get	6
	i32.xor 
	local.tee	33
	local.get	35
	local.get	10
	i32.xor 
	local.tee	14
	i32.xor 
	local.tee	15
	local.get	36
	i32.xor 
	local.tee	30
	local.get	5
	i32.xor 
	local.tee	37
	local.get	4
	local.get	35
	i32.xor 
	local.tee	16
	i32.xor 
	local.tee	8
	local.get	5
	local.get	9
	i32.xor 
	local.tee	7
	i32.xor 
	local.tee	13
	local.get	7
	local.get	11
	i32.xor 
	local.tee	29
	local.get	6
	i32.xor 
	local.tee	17
	local.get	29
	i32.and 
	i32.xor 
	local.get	13
	local.get	33
	i32.and 
	local.tee	19
	i32.xor 
	local.get	33
	i32.xor 
	local.get	8
	local.get	30
	local.get	10
	i32.xor 
	local.tee	30
	local.get	7
	i32.xor 
	local.tee	31
	i32.xor 
	local.tee	45
	local.get	14
	i32.and 
	local.get	8
	local.get	16
	i32.and 
	local.tee	41
	i32.xor 
	local.tee	7
	i32.xor 
	local.tee	18
	local.get	37
	local.get	30
	local.get	11
	i32.xor 
	local.tee	46
	local.get	17
	local.get	4
	local.get	10
	i32.xor 
	local.tee	34
	i32.xor 
	local.tee	47
	i32.and 
	i32.xor 
	local.get	30
	local.get	15
	i32.and 
	local.tee	37
	i32.xor 
	local.get	7
	i32.xor 
	local.tee	48
	i32.and 
	local.tee	7
	local.get	29
	local.get	35
	i32.xor 
	local.tee	49
	local.get	11
	i32.and 
	local.get	34
	i32.xor 
	local.get	31
	i32.xor 
	local.get	37
	i32.xor 
	local.get	31
	local.get	34
	i32.and 
	local.get	41
	i32.xor 
	local.tee	37
	i32.xor 
	local.tee	41
	i32.xor 
	local.get	13
	local.get	8
	local.get	11
	i32.xor 
	local.tee	50
	local.get	29
	local.get	4
	i32.xor 
	local.tee	51
	i32.and 
	i32.xor 
	local.get	19
	i32.xor 
	local.get	4
	i32.xor 
	local.get	37
	i32.xor 
	local.tee	37
	local.get	18
	i32.xor 
	i32.and 
	local.tee	19
	local.get	7
	i32.xor 
	local.get	37
	i32.and 
	local.tee	52
	local.get	7
	local.get	37
	i32.xor 
	local.tee	7
	i32.xor 
	local.get	7
	local.get	48
	local.get	41
	i32.xor 
	local.tee	48
	i32.and 
	local.get	41
	i32.xor 
	local.tee	7
	i32.and 
	local.get	48
	i32.xor 
	local.tee	41
	local.get	7
	i32.xor 
	local.tee	48
	local.get	13
	i32.and 
	local.tee	53
	local.get	41
	local.get	29
	i32.and 
	i32.xor 
	local.tee	54
	local.get	41
	local.get	52
	local.get	18
	i32.xor 
	local.tee	13
	local.get	19
	local.get	37
	i32.xor 
	local.tee	29
	i32.xor 
	local.tee	37
	i32.xor 
	local.tee	18
	local.get	7
	local.get	29
	i32.xor 
	local.tee	19
	i32.xor 
	local.tee	52
	local.get	45
	i32.and 
	i32.xor 
	local.tee	45
	local.get	19
	local.get	8
	i32.and 
	i32.xor 
	local.tee	8
	local.get	3
	i32.load	28
	i32.xor 
	local.get	52
	local.get	14
	i32.and 
	local.get	19
	local.get	16
	i32.and 
	local.tee	52
	i32.xor 
	local.tee	19
	local.get	37
	local.get	47
	i32.and 
	i32.xor 
	local.tee	16
	local.get	13
	local.get	15
	i32.and 
	i32.xor 
	local.tee	47
	i32.xor 
	i32.const	18
	i32.rotl
	i32.const	50529027
	i32.and 
	local.get	39
	i32.xor 
	local.tee	14
	i32.const	2
	i32.shl 
	i32.const	-50529028
	i32.and 
	local.get	14
	i32.xor 
	local.tee	14
	i32.const	4
	i32.shl 
	i32.const	-252645136
	i32.and 
	local.tee	39
	local.get	4
	i32.const	4
	i32.shr_u
	i32.const	252645135
	i32.and 
	i32.or  
	i32.store	0
	local.get	1
	i32.const	40
	i32.add 
	local.get	44
	local.get	29
	local.get	49
	i32.and 
	i32.xor 
	local.get	16
	i32.xor 
	local.get	18
	local.get	31
	i32.and 
	local.get	13
	local.get	30
	i32.and 
	local.tee	13
	local.get	29
	local.get	11
	i32.and 
	i32.xor 
	local.tee	30
	i32.xor 
	local.get	48
	local.get	33
	i32.and 
	local.tee	33
	i32.xor 
	local.get	45
	i32.xor 
	local.tee	31
	local.get	7
	local.get	51
	i32.and 
	i32.xor 
	local.tee	44
	i32.xor 
	i32.const	18
	i32.rotl
	i32.const	50529027
	i32.and 
	local.get	24
	i32.xor 
	local.tee	29
	i32.const	2
	i32.shl 
	i32.const	-50529028
	i32.and 
	local.get	29
	i32.xor 
	local.tee	15
	i32.const	4
	i32.shl 
	i32.const	-252645136
	i32.and 
	local.tee	45
	local.get	10
	i32.const	4
	i32.shr_u
	i32.const	252645135
	i32.and 
	i32.or  
	i32.store	0
	local.get	1
	i32.const	48
	i32.add 
	local.get	43
	local.get	37
	local.get	46
	i32.and 
	local.get	13
	i32.xor 
	local.get	54
	i32.xor 
	local.get	47
	i32.xor 
	local.tee	29
	i32.xor 
	i32.const	18
	i32.rotl
	i32.const	50529027
	i32.and 
	local.get	28
	i32.xor 
	local.tee	13
	i32.const	2
	i32.shl 
	i32.const	-50529028
	i32.and 
	local.get	13
	i32.xor 
	local.tee	37
	i32.const	4
	i32.shl 
	i32.const	-252645136
	i32.and 
	local.tee	28
	local.get	35
	i32.const	4
	i32.shr_u
	i32.const	252645135
	i32.and 
	i32.or  
	i32.store	0
	local.get	1
	i32.const	44
	i32.add 
	local.get	42
	local.get	30
	local.get	7
	local.get	50
	i32.and 
	i32.xor 
	local.get	53
	i32.xor 
	local.tee	7
	i32.xor 
	local.get	29
	i32.xor 
	i32.const	18
	i32.rotl
	i32.const	50529027
	i32.and 
	local.get	27
	i32.xor 
	local.tee	13
	i32.const	2
	i32.shl 
	i32.const	-50529028
	i32.and 
	local.get	13
	i32.xor 
	local.tee	16
	i32.const	4
	i32.shl 
	i32.const	-252645136
	i32.and 
	local.tee	42
	local.get	36
	i32.const	4
	i32.shr_u
	i32.const	252645135
	i32.and 
	i32.or  
	i32.store	0
	local.get	1
	i32.const	36
	i32.add 
	local.get	40
	local.get	7
	local.get	41
	local.get	17
	i32.and 
	i32.xor 
	local.get	19
	i32.xor 
	local.tee	7
	i32.xor 
	local.get	31
	i32.xor 
	i32.const	18
	i32.rotl
	i32.const	-1
	i32.xor 
	i32.const	50529027
	i32.and 
	local.get	23
	i32.xor 
	local.tee	13
	i32.const	2
	i32.shl 
	i32.const	-50529028
	i32.and 
	local.get	13
	i32.xor 
	local.tee	41
	i32.const	4
	i32.shl 
	i32.const	-252645136
	i32.and 
	local.tee	40
	local.get	6
	i32.const	4
	i32.shr_u
	i32.const	252645135
	i32.and 
	i32.or  
	i32.store	0
	local.get	1
	i32.const	32
	i32.add 
	local.get	7
	local.get	26
	i32.xor 
	local.get	33
	i32.xor 
	i32.const	18
	i32.rotl
	i32.const	-1
	i32.xor 
	i32.const	50529027
	i32.and 
	local.get	22
	i32.xor 
	local.tee	7
	i32.const	2
	i32.shl 
	i32.const	-50529028
	i32.and 
	local.get	7
	i32.xor 
	local.tee	17
	i32.const	4
	i32.shl 
	i32.const	-252645136
	i32.and 
	local.tee	43
	local.get	11
	i32.const	4
	i32.shr_u
	i32.const	252645135
	i32.and 
	i32.or  
	i32.store	0
	local.get	1
	i32.const	56
	i32.add 
	local.get	8
	local.get	21
	i32.xor 
	local.get	29
	i32.xor 
	i32.const	18
	i32.rotl
	i32.const	-1
	i32.xor 
	i32.const	50529027
	i32.and 
	local.get	38
	i32.xor 
	local.tee	29
	i32.const	2
	i32.shl 
	i32.const	-50529028
	i32.and 
	local.get	29
	i32.xor 
	local.tee	19
	i32.const	4
	i32.shl 
	i32.const	-252645136
	i32.and 
	local.tee	38
	local.get	5
	i32.const	4
	i32.shr_u
	i32.const	252645135
	i32.and 
	i32.or  
	i32.store	0
	local.get	1
	i32.const	52
	i32.add 
	local.get	20
	local.get	18
	local.get	34
	i32.and 
	i32.xor 
	local.get	8
	i32.xor 
	local.get	52
	i32.xor 
	local.get	44
	i32.xor 
	i32.const	18
	i32.rotl
	i32.const	-1
	i32.xor 
	i32.const	50529027
	i32.and 
	local.get	25
	i32.xor 
	local.tee	8
	i32.const	2
	i32.shl 
	i32.const	-50529028
	i32.and 
	local.get	8
	i32.xor 
	local.tee	18
	i32.const	4
	i32.shl 
	i32.const	-252645136
	i32.and 
	local.tee	44
	local.get	9
	i32.const	4
	i32.shr_u
	i32.const	252645135
	i32.and 
	i32.or  
	i32.store	0
	local.get	1
	i32.const	92
	i32.add 
	local.get	14
	i32.const	2
	i32.shr_u
	i32.const	50529027
	i32.and 
	local.get	4
	i32.xor 
	local.tee	4
	i32.const	2
	i32.shl 
	i32.const	-50529028
	i32.and 
	local.get	4
	i32.xor 
	local.tee	4
	i32.const	4
	i32.shl 
	i32.const	-252645136
	i32.and 
	local.get	4
	i32.xor 
	local.tee	4
	i32.store	0
	local.get	1
	i32.const	72
	i32.add 
	local.get	15
	i32.const	2
	i32.shr_u
	i32.const	50529027
	i32.and 
	local.get	10
	i32.xor 
	local.tee	10
	i32.const	2
	i32.shl 
	i32.const	-50529028
	i32.and 
	local.get	10
	i32.xor 
	local.tee	10
	i32.const	4
	i32.shl 
	i32.const	-252645136
	i32.and 
	local.get	10
	i32.xor 
	local.tee	10
	i32.store	0
	local.get	1
	i32.const	80
	i32.add 
	local.get	37
	i32.const	2
	i32.shr_u
	i32.const	50529027
	i32.and 
	local.get	35
	i32.xor 
	local.tee	35
	i32.const	2
	i32.shl 
	i32.const	-50529028
	i32.and 
	local.get	35
	i32.xor 
	local.tee	35
	i32.const	4
	i32.shl 
	i32.const	-252645136
	i32.and 
	local.get	35
	i32.xor 
	local.tee	35
	i32.store	0
	local.get	1
	i32.const	76
	i32.add 
	local.get	16
	i32.const	2
	i32.shr_u
	i32.const	50529027
	i32.and 
	local.get	36
	i32.xor 
	local.tee	8
	i32.const	2
	i32.shl 
	i32.const	-50529028
	i32.and 
	local.get	8
	i32.xor 
	local.tee	8
	i32.const	4
	i32.shl 
	i32.const	-252645136
	i32.and 
	local.get	8
	i32.xor 
	local.tee	20
	i32.store	0
	local.get	1
	i32.const	68
	i32.add 
	local.get	41
	i32.const	2
	i32.shr_u
	i32.const	50529027
	i32.and 
	local.get	6
	i32.xor 
	local.tee	6
	i32.const	2
	i32.shl 
	i32.const	-50529028
	i32.and 
	local.get	6
	i32.xor 
	local.tee	6
	i32.const	4
	i32.shl 
	i32.const	-252645136
	i32.and 
	local.get	6
	i32.xor 
	local.tee	29
	i32.store	0
	local.get	1
	i32.const	64
	i32.add 
	local.get	17
	i32.const	2
	i32.shr_u
	i32.const	50529027
	i32.and 
	local.get	11
	i32.xor 
	local.tee	11
	i32.const	2
	i32.shl 
	i32.const	-50529028
	i32.and 
	local.get	11
	i32.xor 
	local.tee	11
	i32.const	4
	i32.shl 
	i32.const	-252645136
	i32.and 
	local.get	11
	i32.xor 
	local.tee	11
	i32.store	0
	local.get	1
	i32.const	88
	i32.add 
	local.get	19
	i32.const	2
	i32.shr_u
	i32.const	50529027
	i32.and 
	local.get	5
	i32.xor 
	local.tee	5
	i32.const	2
	i32.shl 
	i32.const	-50529028
	i32.and 
	local.get	5
	i32.xor 
	local.tee	5
	i32.const	4
	i32.shl 
	i32.const	-252645136
	i32.and 
	local.get	5
	i32.xor 
	local.tee	7
	i32.store	0
	local.get	1
	i32.const	84
	i32.add 
	local.get	18
	i32.const	2
	i32.shr_u
	i32.const	50529027
	i32.and 
	local.get	9
	i32.xor 
	local.tee	5
	i32.const	2
	i32.shl 
	i32.const	-50529028
	i32.and 
	local.get	5
	i32.xor 
	local.tee	5
	i32.const	4
	i32.shl 
	i32.const	-252645136
	i32.and 
	local.get	5
	i32.xor 
	local.tee	21
	i32.store	0
	local.get	3
	local.get	32
	i32.const	1
	i32.add 
	i32.load8_u	0
	call	aes_planes__soft__word__word32__U32Word__constant_planes
	local.get	3
	i32.load	20
	local.set	46
	local.get	3
	i32.load	24
	local.set	47
	local.get	3
	i32.load	0
	local.set	48
	local.get	3
	i32.load	4
	local.set	49
	local.get	3
	i32.load	12
	local.set	50
	local.get	3
	i32.load	16
	local.set	51
	local.get	3
	i32.load	8
	local.set	52
	local.get	1
	i32.const	124
	i32.add 
	local.get	29
	local.get	4
	i32.xor 
	local.tee	9
	local.get	35
	local.get	10
	i32.xor 
	local.tee	22
	i32.xor 
	local.tee	23
	local.get	20
	i32.xor 
	local.tee	33
	local.get	7
	i32.xor 
	local.tee	31
	local.get	35
	local.get	4
	i32.xor 
	local.tee	24
	i32.xor 
	local.tee	5
	local.get	7
	local.get	21
	i32.xor 
	local.tee	8
	i32.xor 
	local.tee	36
	local.get	8
	local.get	11
	i32.xor 
	local.tee	6
	local.get	29
	i32.xor 
	local.tee	25
	local.get	6
	i32.and 
	i32.xor 
	local.get	36
	local.get	9
	i32.and 
	local.tee	27
	i32.xor 
	local.get	9
	i32.xor 
	local.get	5
	local.get	33
	local.get	10
	i32.xor 
	local.tee	33
	local.get	8
	i32.xor 
	local.tee	13
	i32.xor 
	local.tee	53
	local.get	22
	i32.and 
	local.get	5
	local.get	24
	i32.and 
	local.tee	34
	i32.xor 
	local.tee	8
	i32.xor 
	local.tee	26
	local.get	31
	local.get	33
	local.get	11
	i32.xor 
	local.tee	54
	local.get	25
	local.get	4
	local.get	10
	i32.xor 
	local.tee	30
	i32.xor 
	local.tee	55
	i32.and 
	i32.xor 
	local.get	33
	local.get	23
	i32.and 
	local.tee	31
	i32.xor 
	local.get	8
	i32.xor 
	local.tee	56
	i32.and 
	local.tee	8
	local.get	6
	local.get	35
	i32.xor 
	local.tee	57
	local.get	11
	i32.and 
	local.get	30
	i32.xor 
	local.get	13
	i32.xor 
	local.get	31
	i32.xor 
	local.get	13
	local.get	30
	i32.and 
	local.get	34
	i32.xor 
	local.tee	31
	i32.xor 
	local.tee	34
	i32.xor 
	local.get	36
	local.get	5
	local.get	11
	i32.xor 
	local.tee	58
	local.get	6
	local.get	4
	i32.xor 
	local.tee	59
	i32.and 
	i32.xor 
	local.get	27
	i32.xor 
	local.get	4
	i32.xor 
	local.get	31
	i32.xor 
	local.tee	31
	local.get	26
	i32.xor 
	i32.and 
	local.tee	27
	local.get	8
	i32.xor 
	local.get	31
	i32.and 
	local.tee	60
	local.get	8
	local.get	31
	i32.xor 
	local.tee	8
	i32.xor 
	local.get	8
	local.get	56
	local.get	34
	i32.xor 
	local.tee	56
	i32.and 
	local.get	34
	i32.xor 
	local.tee	8
	i32.and 
	local.get	56
	i32.xor 
	local.tee	34
	local.get	8
	i32.xor 
	local.tee	56
	local.get	36
	i32.and 
	local.tee	61
	local.get	34
	local.get	6
	i32.and 
	i32.xor 
	local.tee	62
	local.get	34
	local.get	60
	local.get	26
	i32.xor 
	local.tee	36
	local.get	27
	local.get	31
	i32.xor 
	local.tee	6
	i32.xor 
	local.tee	31
	i32.xor 
	local.tee	26
	local.get	8
	local.get	6
	i32.xor 
	local.tee	27
	i32.xor 
	local.tee	60
	local.get	53
	i32.and 
	i32.xor 
	local.tee	53
	local.get	27
	local.get	5
	i32.and 
	i32.xor 
	local.tee	5
	local.get	3
	i32.load	28
	i32.xor 
	local.get	60
	local.get	22
	i32.and 
	local.get	27
	local.get	24
	i32.and 
	local.tee	60
	i32.xor 
	local.tee	22
	local.get	31
	local.get	55
	i32.and 
	i32.xor 
	local.tee	24
	local.get	36
	local.get	23
	i32.and 
	i32.xor 
	local.tee	23
	i32.xor 
	i32.const	18
	i32.rotl
	i32.const	50529027
	i32.and 
	local.get	39
	i32.or  
	local.get	14
	i32.xor 
	local.tee	14
	i32.const	2
	i32.shl 
	i32.const	-50529028
	i32.and 
	local.get	14
	i32.xor 
	local.tee	14
	i32.const	4
	i32.shl 
	i32.const	-252645136
	i32.and 
	local.get	14
	i32.xor 
	local.tee	39
	i32.store	0
	local.get	1
	i32.const	104
	i32.add 
	local.get	52
	local.get	6
	local.get	57
	i32.and 
	i32.xor 
	local.get	24
	i32.xor 
	local.get	26
	local.get	13
	i32.and 
	local.get	36
	local.get	33
	i32.and 
	local.tee	33
	local.get	6
	local.get	11
	i32.and 
	i32.xor 
	local.tee	13
	i32.xor 
	local.get	56
	local.get	9
	i32.and 
	local.tee	52
	i32.xor 
	local.get	53
	i32.xor 
	local.tee	9
	local.get	8
	local.get	59
	i32.and 
	i32.xor 
	local.tee	53
	i32.xor 
	i32.const	18
	i32.rotl
	i32.const	50529027
	i32.and 
	local.get	45
	i32.or  
	local.get	15
	i32.xor 
	local.tee	6
	i32.const	2
	i32.shl 
	i32.const	-50529028
	i32.and 
	local.get	6
	i32.xor 
	local.tee	36
	i32.const	4
	i32.shl 
	i32.const	-252645136
	i32.and 
	local.get	36
	i32.xor 
	local.tee	24
	i32.store	0
	local.get	1
	i32.const	112
	i32.add 
	local.get	51
	local.get	31
	local.get	54
	i32.and 
	local.get	33
	i32.xor 
	local.get	62
	i32.xor 
	local.get	23
	i32.xor 
	local.tee	6
	i32.xor 
	i32.const	18
	i32.rotl
	i32.const	50529027
	i32.and 
	local.get	28
	i32.or  
	local.get	37
	i32.xor 
	local.tee	33
	i32.const	2
	i32.shl 
	i32.const	-50529028
	i32.and 
	local.get	33
	i32.xor 
	local.tee	33
	i32.const	4
	i32.shl 
	i32.const	-252645136
	i32.and 
	local.get	33
	i32.xor 
	local.tee	28
	i32.store	0
	local.get	1
	i32.const	108
	i32.add 
	local.get	50
	local.get	13
	local.get	8
	local.get	58
	i32.and 
	i32.xor 
	local.get	61
	i32.xor 
	local.tee	13
	i32.xor 
	local.get	6
	i32.xor 
	i32.const	18
	i32.rotl
	i32.const	50529027
	i32.and 
	local.get	42
	i32.or  
	local.get	16
	i32.xor 
	local.tee	8
	i32.const	2
	i32.shl 
	i32.const	-50529028
	i32.and 
	local.get	8
	i32.xor 
	local.tee	8
	i32.const	4
	i32.shl 
	i32.const	-252645136
	i32.and 
	local.get	8
	i32.xor 
	local.tee	27
	i32.store	0
	local.get	1
	i32.const	100
	i32.add 
	local.get	49
	local.get	13
	local.get	34
	local.get	25
	i32.and 
	i32.xor 
	local.get	22
	i32.xor 
	local.tee	13
	i32.xor 
	local.get	9
	i32.xor 
	i32.const	18
	i32.rotl
	i32.const	-1
	i32.xor 
	i32.const	50529027
	i32.and 
	local.get	40
	i32.or  
	local.get	41
	i32.xor 
	local.tee	9
	i32.const	2
	i32.shl 
	i32.const	-50529028
	i32.and 
	local.get	9
	i32.xor 
	local.tee	9
	i32.const	4
	i32.shl 
	i32.const	-252645136
	i32.and 
	local.get	9
	i32.xor 
	local.tee	23
	i32.store	0
	local.get	1
	i32.const	96
	i32.add 
	local.tee	34
	local.get	13
	local.get	48
	i32.xor 
	local.get	52
	i32.xor 
	i32.const	18
	i32.rotl
	i32.const	-1
	i32.xor 
	i32.const	50529027
	i32.and 
	local.get	43
	i32.or  
	local.get	17
	i32.xor 
	local.tee	13
	i32.const	2
	i32.shl 
	i32.const	-50529028
	i32.and 
	local.get	13
	i32.xor 
	local.tee	13
	i32.const	4
	i32.shl 
	i32.const	-252645136
	i32.and 
	local.get	13
	i32.xor 
	local.tee	22
	i32.store	0
	local.get	1
	i32.const	120
	i32.add 
	local.get	5
	local.get	47
	i32.xor 
	local.get	6
	i32.xor 
	i32.const	18
	i32.rotl
	i32.const	-1
	i32.xor 
	i32.const	50529027
	i32.and 
	local.get	38
	i32.or  
	local.get	19
	i32.xor 
	local.tee	6
	i32.const	2
	i32.shl 
	i32.const	-50529028
	i32.and 
	local.get	6
	i32.xor 
	local.tee	31
	i32.const	4
	i32.shl 
	i32.const	-252645136
	i32.and 
	local.get	31
	i32.xor 
	local.tee	38
	i32.store	0
	local.get	1
	i32.const	116
	i32.add 
	local.get	46
	local.get	26
	local.get	30
	i32.and 
	i32.xor 
	local.get	5
	i32.xor 
	local.get	60
	i32.xor 
	local.get	53
	i32.xor 
	i32.const	18
	i32.rotl
	i32.const	-1
	i32.xor 
	i32.const	50529027
	i32.and 
	local.get	44
	i32.or  
	local.get	18
	i32.xor 
	local.tee	1
	i32.const	2
	i32.shl 
	i32.const	-50529028
	i32.and 
	local.get	1
	i32.xor 
	local.tee	1
	i32.const	4
	i32.shl 
	i32.const	-252645136
	i32.and 
	local.get	1
	i32.xor 
	local.tee	25
	i32.store	0
	local.get	9
	i32.const	2
	i32.shr_u
	i32.const	50529027
	i32.and 
	local.get	29
	i32.xor 
	local.tee	5
	i32.const	2
	i32.shl 
	i32.const	-50529028
	i32.and 
	local.get	5
	i32.xor 
	local.tee	5
	i32.const	4
	i32.shl 
	i32.const	-252645136
	i32.and 
	local.get	5
	i32.xor 
	local.set	6
	local.get	31
	i32.const	2
	i32.shr_u
	i32.const	50529027
	i32.and 
	local.get	7
	i32.xor 
	local.tee	5
	i32.const	2
	i32.shl 
	i32.const	-50529028
	i32.and 
	local.get	5
	i32.xor 
	local.tee	5
	i32.const	4
	i32.shl 
	i32.const	-252645136
	i32.and 
	local.get	5
	i32.xor 
	local.set	5
	local.get	1
	i32.const	2
	i32.shr_u
	i32.const	50529027
	i32.and 
	local.get	21
	i32.xor 
	local.tee	1
	i32.const	2
	i32.shl 
	i32.const	-50529028
	i32.and 
	local.get	1
	i32.xor 
	local.tee	1
	i32.const	4
	i32.shl 
	i32.const	-252645136
	i32.and 
	local.get	1
	i32.xor 
	local.set	9
	local.get	14
	i32.const	2
	i32.shr_u
	i32.const	50529027
	i32.and 
	local.get	4
	i32.xor 
	local.tee	1
	i32.const	2
	i32.shl 
	i32.const	-50529028
	i32.and 
	local.get	1
	i32.xor 
	local.tee	1
	i32.const	4
	i32.shl 
	i32.const	-252645136
	i32.and 
	local.get	1
	i32.xor 
	local.set	4
	local.get	36
	i32.const	2
	i32.shr_u
	i32.const	50529027
	i32.and 
	local.get	10
	i32.xor 
	local.tee	1
	i32.const	2
	i32.shl 
	i32.const	-50529028
	i32.and 
	local.get	1
	i32.xor 
	local.tee	1
	i32.const	4
	i32.shl 
	i32.const	-252645136
	i32.and 
	local.get	1
	i32.xor 
	local.set	10
	local.get	33
	i32.const	2
	i32.shr_u
	i32.const	50529027
	i32.and 
	local.get	35
	i32.xor 
	local.tee	1
	i32.const	2
	i32.shl 
	i32.const	-50529028
	i32.and 
	local.get	1
	i32.xor 
	local.tee	1
	i32.const	4
	i32.shl 
	i32.const	-252645136
	i32.and 
	local.get	1
	i32.xor 
	local.set	35
	local.get	8
	i32.const	2
	i32.shr_u
	i32.const	50529027
	i32.and 
	local.get	20
	i32.xor 
	local.tee	1
	i32.const	2
	i32.shl 
	i32.const	-50529028
	i32.and 
	local.get	1
	i32.xor 
	local.tee	1
	i32.const	4
	i32.shl 
	i32.const	-252645136
	i32.and 
	local.get	1
	i32.xor 
	local.set	36
	local.get	13
	i32.const	2
	i32.shr_u
	i32.const	50529027
	i32.and 
	local.get	11
	i32.xor 
	local.tee	1
	i32.const	2
	i32.shl 
	i32.const	-50529028
	i32.and 
	local.get	1
	i32.xor 
	local.tee	1
	i32.const	4
	i32.shl 
	i32.const	-252645136
	i32.and 
	local.get	1
	i32.xor 
	local.set	11
	local.get	32
	i32.const	2
	i32.add 
	local.set	32
	local.get	34
	local.set	1
	local.get	12
	i64.const	-1
	i64.add 
	local.tee	12
	i64.eqz
	i32.eqz
	br_if   	0                               # 0: up to label7
	br      	2                               # 2: down to label2
.LBB4_5:                                # %else.5.i
	end_loop
	end_block                               # label3:
	local.get	3
	local.get	1
	call	aes_planes__soft__word__word32__U32Word__in_every_slot
	local.get	3
	i64.load	0:p2align=2
	local.set	12
	local.get	3
	i64.load	8:p2align=2
	local.set	63
	local.get	3
	i64.load	16:p2align=2
	local.set	64
	local.get	3
	i64.load	24:p2align=2
	local.set	65
	local.get	3
	local.get	1
	i32.const	16
	i32.add 
	call	aes_planes__soft__word__word32__U32Word__in_every_slot
	local.get	3
	i32.load	0
	local.set	4
	local.get	3
	i32.load	4
	local.set	5
	local.get	3
	i32.load	8
	local.set	6
	local.get	3
	i32.load	12
	local.set	7
	local.get	3
	i32.load	16
	local.set	8
	local.get	3
	i32.load	20
	local.set	9
	local.get	3
	i32.load	24
	local.set	10
	local.get	0
	i32.const	60
	i32.add 
	local.get	3
	i32.load	28
	local.tee	11
	i32.store	0
	local.get	0
	i32.const	56
	i32.add 
	local.get	10
	i32.store	0
	local.get	0
	i32.const	52
	i32.add 
	local.get	9
	i32.store	0
	local.get	0
	i32.const	48
	i32.add 
	local.get	8
	i32.store	0
	local.get	0
	i32.const	44
	i32.add 
	local.get	7
	i32.store	0
	local.get	0
	i32.const	40
	i32.add 
	local.get	6
	i32.store	0
	local.get	0
	i32.const	36
	i32.add 
	local.get	5
	i32.store	0
	local.get	0
	i32.const	32
	i32.add 
	local.get	4
	i32.store	0
	local.get	0
	local.get	65
	i64.store	24:p2align=2
	local.get	0
	local.get	64
	i64.store	16:p2align=2
	local.get	0
	local.get	63
	i64.store	8:p2align=2
	local.get	0
	local.get	12
	i64.store	0:p2align=2
	i32.const	.Lstatic.0
	local.set	33
	i64.const	6
	local.set	12
	local.get	0
	local.set	1
.LBB4_6:                                # %join.5.i348.i
                                        # =>This Inner Loop Header: Depth=1
	loop    	                                # label8:
	local.get	1
	i32.const	24
	i32.add 
	i32.load	0
	local.set	41
	local.get	1
	i32.const	4
	i32.add 
	i32.load	0
	local.set	14
	local.get	1
	i32.const	12
	i32.add 
	i32.load	0
	local.set	15
	local.get	1
	i32.const	16
	i32.add 
	i32.load	0
	local.set	16
	local.get	1
	i32.const	20
	i32.add 
	i32.load	0
	local.set	17
	local.get	1
	i32.const	8
	i32.add 
	i32.load	0
	local.set	18
	local.get	1
	i32.const	28
	i32.add 
	i32.load	0
	local.set	19
	local.get	1
	i32.load	0
	local.set	20
	local.get	3
	local.get	33
	i32.load8_u	0
	call	aes_planes__soft__word__word32__U32Word__constant_planes
	local.get	3
	i32.load	24
	local.set	21
	local.get	3
	i32.load	0
	local.set	22
	local.get	3
	i32.load	4
	local.set	23
	local.get	3
	i32.load	12
	local.set	24
	local.get	3
	i32.load	16
	local.set	25
	local.get	3
	i32.load	20
	local.set	26
	local.get	3
	i32.load	8
	local.set	27
	local.get	1
	i32.const	92
	i32.add 
	local.get	19
	local.get	11
	local.get	5
	i32.xor 
	local.tee	29
	local.get	8
	local.get	6
	i32.xor 
	local.tee	32
	i32.xor 
	local.tee	13
	local.get	7
	i32.xor 
	local.tee	34
	local.get	10
	i32.xor 
	local.tee	37
	local.get	11
	local.get	8
	i32.xor 
	local.tee	30
	i32.xor 
	local.tee	35
	local.get	10
	local.get	9
	i32.xor 
	local.tee	36
	i32.xor 
	local.tee	7
	local.get	36
	local.get	4
	i32.xor 
	local.tee	10
	local.get	5
	i32.xor 
	local.tee	31
	local.get	10
	i32.and 
	i32.xor 
	local.get	7
	local.get	29
	i32.and 
	local.tee	28
	i32.xor 
	local.get	29
	i32.xor 
	local.get	35
	local.get	34
	local.get	6
	i32.xor 
	local.tee	9
	local.get	36
	i32.xor 
	local.tee	36
	i32.xor 
	local.tee	38
	local.get	32
	i32.and 
	local.get	35
	local.get	30
	i32.and 
	local.tee	39
	i32.xor 
	local.tee	5
	i32.xor 
	local.tee	34
	local.get	37
	local.get	9
	local.get	4
	i32.xor 
	local.tee	40
	local.get	31
	local.get	11
	local.get	6
	i32.xor 
	local.tee	6
	i32.xor 
	local.tee	42
	i32.and 
	i32.xor 
	local.get	9
	local.get	13
	i32.and 
	local.tee	37
	i32.xor 
	local.get	5
	i32.xor 
	local.tee	43
	i32.and 
	local.tee	5
	local.get	10
	local.get	8
	i32.xor 
	local.tee	44
	local.get	4
	i32.and 
	local.get	6
	i32.xor 
	local.get	36
	i32.xor 
	local.get	37
	i32.xor 
	local.get	36
	local.get	6
	i32.and 
	local.get	39
	i32.xor 
	local.tee	37
	i32.xor 
	local.tee	8
	i32.xor 
	local.get	7
	local.get	35
	local.get	4
	i32.xor 
	local.tee	39
	local.get	10
	local.get	11
	i32.xor 
	local.tee	45
	i32.and 
	i32.xor 
	local.get	28
	i32.xor 
	local.get	11
	i32.xor 
	local.get	37
	i32.xor 
	local.tee	11
	local.get	34
	i32.xor 
	i32.and 
	local.tee	37
	local.get	5
	i32.xor 
	local.get	11
	i32.and 
	local.tee	28
	local.get	5
	local.get	11
	i32.xor 
	local.tee	5
	i32.xor 
	local.get	5
	local.get	43
	local.get	8
	i32.xor 
	local.tee	43
	i32.and 
	local.get	8
	i32.xor 
	local.tee	5
	i32.and 
	local.get	43
	i32.xor 
	local.tee	8
	local.get	5
	i32.xor 
	local.tee	43
	local.get	7
	i32.and 
	local.tee	46
	local.get	8
	local.get	10
	i32.and 
	i32.xor 
	local.tee	47
	local.get	8
	local.get	28
	local.get	34
	i32.xor 
	local.tee	7
	local.get	37
	local.get	11
	i32.xor 
	local.tee	10
	i32.xor 
	local.tee	34
	i32.xor 
	local.tee	37
	local.get	5
	local.get	10
	i32.xor 
	local.tee	11
	i32.xor 
	local.tee	28
	local.get	38
	i32.and 
	i32.xor 
	local.tee	38
	local.get	11
	local.get	35
	i32.and 
	i32.xor 
	local.tee	35
	local.get	3
	i32.load	28
	i32.xor 
	local.get	28
	local.get	32
	i32.and 
	local.get	11
	local.get	30
	i32.and 
	local.tee	32
	i32.xor 
	local.tee	30
	local.get	34
	local.get	42
	i32.and 
	i32.xor 
	local.tee	28
	local.get	7
	local.get	13
	i32.and 
	i32.xor 
	local.tee	13
	i32.xor 
	i32.const	18
	i32.rotl
	i32.const	50529027
	i32.and 
	i32.xor 
	local.tee	11
	i32.const	2
	i32.shl 
	i32.const	-50529028
	i32.and 
	local.get	11
	i32.xor 
	local.tee	11
	i32.const	4
	i32.shl 
	i32.const	-252645136
	i32.and 
	local.get	11
	i32.xor 
	local.tee	11
	i32.store	0
	local.get	1
	i32.const	72
	i32.add 
	local.get	18
	local.get	27
	local.get	10
	local.get	44
	i32.and 
	i32.xor 
	local.get	28
	i32.xor 
	local.get	37
	local.get	36
	i32.and 
	local.get	7
	local.get	9
	i32.and 
	local.tee	7
	local.get	10
	local.get	4
	i32.and 
	i32.xor 
	local.tee	4
	i32.xor 
	local.get	43
	local.get	29
	i32.and 
	local.tee	9
	i32.xor 
	local.get	38
	i32.xor 
	local.tee	36
	local.get	5
	local.get	45
	i32.and 
	i32.xor 
	local.tee	10
	i32.xor 
	i32.const	18
	i32.rotl
	i32.const	50529027
	i32.and 
	i32.xor 
	local.tee	29
	i32.const	2
	i32.shl 
	i32.const	-50529028
	i32.and 
	local.get	29
	i32.xor 
	local.tee	29
	i32.const	4
	i32.shl 
	i32.const	-252645136
	i32.and 
	local.get	29
	i32.xor 
	local.tee	29
	i32.store	0
	local.get	1
	i32.const	84
	i32.add 
	local.get	17
	local.get	26
	local.get	37
	local.get	6
	i32.and 
	i32.xor 
	local.get	32
	i32.xor 
	local.get	35
	i32.xor 
	local.get	10
	i32.xor 
	i32.const	18
	i32.rotl
	i32.const	-1
	i32.xor 
	i32.const	50529027
	i32.and 
	i32.xor 
	local.tee	10
	i32.const	2
	i32.shl 
	i32.const	-50529028
	i32.and 
	local.get	10
	i32.xor 
	local.tee	10
	i32.const	4
	i32.shl 
	i32.const	-252645136
	i32.and 
	local.get	10
	i32.xor 
	local.tee	32
	i32.store	0
	local.get	1
	i32.const	80
	i32.add 
	local.get	16
	local.get	25
	local.get	34
	local.get	40
	i32.and 
	local.get	7
	i32.xor 
	local.get	47
	i32.xor 
	local.get	13
	i32.xor 
	local.tee	10
	i32.xor 
	i32.const	18
	i32.rotl
	i32.const	50529027
	i32.and 
	i32.xor 
	local.tee	6
	i32.const	2
	i32.shl 
	i32.const	-50529028
	i32.and 
	local.get	6
	i32.xor 
	local.tee	6
	i32.const	4
	i32.shl 
	i32.const	-252645136
	i32.and 
	local.get	6
	i32.xor 
	local.tee	6
	i32.store	0
	local.get	1
	i32.const	76
	i32.add 
	local.get	15
	local.get	24
	local.get	4
	local.get	5
	local.get	39
	i32.and 
	i32.xor 
	local.get	46
	i32.xor 
	local.tee	4
	i32.xor 
	local.get	10
	i32.xor 
	i32.const	18
	i32.rotl
	i32.const	50529027
	i32.and 
	i32.xor 
	local.tee	5
	i32.const	2
	i32.shl 
	i32.const	-50529028
	i32.and 
	local.get	5
	i32.xor 
	local.tee	5
	i32.const	4
	i32.shl 
	i32.const	-252645136
	i32.and 
	local.get	5
	i32.xor 
	local.tee	34
	i32.store	0
	local.get	1
	i32.const	68
	i32.add 
	local.get	14
	local.get	23
	local.get	4
	local.get	8
	local.get	31
	i32.and 
	i32.xor 
	local.get	30
	i32.xor 
	local.tee	4
	i32.xor 
	local.get	36
	i32.xor 
	i32.const	18
	i32.rotl
	i32.const	-1
	i32.xor 
	i32.const	50529027
	i32.and 
	i32.xor 
	local.tee	5
	i32.const	2
	i32.shl 
	i32.const	-50529028
	i32.and 
	local.get	5
	i32.xor 
	local.tee	5
	i32.const	4
	i32.shl 
	i32.const	-252645136
	i32.and 
	local.get	5
	i32.xor 
	local.tee	5
	i32.store	0
	local.get	1
	i32.const	64
	i32.add 
	local.tee	15
	local.get	20
	local.get	4
	local.get	22
	i32.xor 
	local.get	9
	i32.xor 
	i32.const	18
	i32.rotl
	i32.const	-1
	i32.xor 
	i32.const	50529027
	i32.and 
	i32.xor 
	local.tee	4
	i32.const	2
	i32.shl 
	i32.const	-50529028
	i32.and 
	local.get	4
	i32.xor 
	local.tee	4
	i32.const	4
	i32.shl 
	i32.const	-252645136
	i32.and 
	local.get	4
	i32.xor 
	local.tee	4
	i32.store	0
	local.get	1
	i32.const	88
	i32.add 
	local.get	41
	local.get	35
	local.get	21
	i32.xor 
	local.get	10
	i32.xor 
	i32.const	18
	i32.rotl
	i32.const	-1
	i32.xor 
	i32.const	50529027
	i32.and 
	i32.xor 
	local.tee	35
	i32.const	2
	i32.shl 
	i32.const	-50529028
	i32.and 
	local.get	35
	i32.xor 
	local.tee	35
	i32.const	4
	i32.shl 
	i32.const	-252645136
	i32.and 
	local.get	35
	i32.xor 
	local.tee	10
	i32.store	0
	local.get	1
	i32.const	124
	i32.add 
	local.get	5
	local.get	11
	i32.xor 
	local.tee	7
	local.get	6
	local.get	29
	i32.xor 
	local.tee	13
	i32.xor 
	local.tee	30
	local.get	34
	i32.xor 
	local.tee	9
	local.get	10
	i32.xor 
	local.tee	41
	local.get	6
	local.get	11
	i32.xor 
	local.tee	31
	i32.xor 
	local.tee	35
	local.get	10
	local.get	32
	i32.xor 
	local.tee	36
	i32.xor 
	local.tee	8
	local.get	36
	local.get	4
	i32.xor 
	local.tee	10
	local.get	5
	i32.xor 
	local.tee	34
	local.get	10
	i32.and 
	i32.xor 
	local.get	8
	local.get	7
	i32.and 
	local.tee	32
	i32.xor 
	local.get	7
	i32.xor 
	local.get	35
	local.get	9
	local.get	29
	i32.xor 
	local.tee	9
	local.get	36
	i32.xor 
	local.tee	36
	i32.xor 
	local.tee	16
	local.get	13
	i32.and 
	local.get	35
	local.get	31
	i32.and 
	local.tee	14
	i32.xor 
	local.tee	5
	i32.xor 
	local.tee	37
	local.get	41
	local.get	9
	local.get	4
	i32.xor 
	local.tee	17
	local.get	34
	local.get	11
	local.get	29
	i32.xor 
	local.tee	29
	i32.xor 
	local.tee	18
	i32.and 
	i32.xor 
	local.get	9
	local.get	30
	i32.and 
	local.tee	41
	i32.xor 
	local.get	5
	i32.xor 
	local.tee	19
	i32.and 
	local.tee	5
	local.get	10
	local.get	6
	i32.xor 
	local.tee	20
	local.get	4
	i32.and 
	local.get	29
	i32.xor 
	local.get	36
	i32.xor 
	local.get	41
	i32.xor 
	local.get	36
	local.get	29
	i32.and 
	local.get	14
	i32.xor 
	local.tee	41
	i32.xor 
	local.tee	6
	i32.xor 
	local.get	8
	local.get	35
	local.get	4
	i32.xor 
	local.tee	21
	local.get	10
	local.get	11
	i32.xor 
	local.tee	22
	i32.and 
	i32.xor 
	local.get	32
	i32.xor 
	local.get	11
	i32.xor 
	local.get	41
	i32.xor 
	local.tee	11
	local.get	37
	i32.xor 
	i32.and 
	local.tee	41
	local.get	5
	i32.xor 
	local.get	11
	i32.and 
	local.tee	14
	local.get	5
	local.get	11
	i32.xor 
	local.tee	5
	i32.xor 
	local.get	5
	local.get	19
	local.get	6
	i32.xor 
	local.tee	32
	i32.and 
	local.get	6
	i32.xor 
	local.tee	5
	i32.and 
	local.get	32
	i32.xor 
	local.tee	32
	local.get	14
	local.get	37
	i32.xor 
	local.tee	37
	local.get	41
	local.get	11
	i32.xor 
	local.tee	6
	i32.xor 
	local.tee	41
	i32.xor 
	local.tee	14
	local.get	5
	local.get	6
	i32.xor 
	local.tee	11
	i32.xor 
	local.tee	19
	local.get	13
	i32.and 
	local.get	11
	local.get	31
	i32.and 
	local.tee	13
	i32.xor 
	local.tee	31
	local.get	41
	local.get	18
	i32.and 
	i32.xor 
	local.tee	18
	local.get	37
	local.get	30
	i32.and 
	i32.xor 
	local.tee	30
	local.get	32
	local.get	5
	i32.xor 
	local.tee	23
	local.get	8
	i32.and 
	local.tee	24
	local.get	32
	local.get	10
	i32.and 
	i32.xor 
	local.tee	10
	local.get	19
	local.get	16
	i32.and 
	i32.xor 
	local.tee	16
	local.get	11
	local.get	35
	i32.and 
	i32.xor 
	local.tee	35
	i32.xor 
	i32.const	6
	i32.shr_u
	i32.const	50529027
	i32.and 
	local.get	1
	i32.const	60
	i32.add 
	i32.load	0
	i32.xor 
	local.tee	11
	i32.const	2
	i32.shl 
	i32.const	-50529028
	i32.and 
	local.get	11
	i32.xor 
	local.tee	11
	i32.const	4
	i32.shl 
	i32.const	-252645136
	i32.and 
	local.get	11
	i32.xor 
	local.tee	11
	i32.store	0
	local.get	1
	i32.const	112
	i32.add 
	local.get	41
	local.get	17
	i32.and 
	local.get	37
	local.get	9
	i32.and 
	local.tee	9
	i32.xor 
	local.get	10
	i32.xor 
	local.get	30
	i32.xor 
	local.tee	10
	i32.const	6
	i32.shr_u
	i32.const	50529027
	i32.and 
	local.get	1
	i32.const	48
	i32.add 
	i32.load	0
	i32.xor 
	local.tee	8
	i32.const	2
	i32.shl 
	i32.const	-50529028
	i32.and 
	local.get	8
	i32.xor 
	local.tee	8
	i32.const	4
	i32.shl 
	i32.const	-252645136
	i32.and 
	local.get	8
	i32.xor 
	local.tee	8
	i32.store	0
	local.get	1
	i32.const	104
	i32.add 
	local.get	18
	local.get	6
	local.get	20
	i32.and 
	i32.xor 
	local.get	14
	local.get	36
	i32.and 
	local.get	9
	local.get	6
	local.get	4
	i32.and 
	i32.xor 
	local.tee	4
	i32.xor 
	local.get	23
	local.get	7
	i32.and 
	local.tee	7
	i32.xor 
	local.get	16
	i32.xor 
	local.tee	9
	local.get	5
	local.get	22
	i32.and 
	i32.xor 
	local.tee	36
	i32.xor 
	i32.const	6
	i32.shr_u
	i32.const	50529027
	i32.and 
	local.get	1
	i32.const	40
	i32.add 
	i32.load	0
	i32.xor 
	local.tee	6
	i32.const	2
	i32.shl 
	i32.const	-50529028
	i32.and 
	local.get	6
	i32.xor 
	local.tee	6
	i32.const	4
	i32.shl 
	i32.const	-252645136
	i32.and 
	local.get	6
	i32.xor 
	local.tee	6
	i32.store	0
	local.get	1
	i32.const	100
	i32.add 
	local.get	4
	local.get	5
	local.get	21
	i32.and 
	i32.xor 
	local.get	24
	i32.xor 
	local.tee	30
	local.get	32
	local.get	34
	i32.and 
	i32.xor 
	local.get	31
	i32.xor 
	local.tee	4
	local.get	9
	i32.xor 
	i32.const	-1
	i32.xor 
	i32.const	6
	i32.shr_u
	i32.const	50529027
	i32.and 
	local.get	1
	i32.const	36
	i32.add 
	i32.load	0
	i32.xor 
	local.tee	5
	i32.const	2
	i32.shl 
	i32.const	-50529028
	i32.and 
	local.get	5
	i32.xor 
	local.tee	5
	i32.const	4
	i32.shl 
	i32.const	-252645136
	i32.and 
	local.get	5
	i32.xor 
	local.tee	5
	i32.store	0
	local.get	1
	i32.const	96
	i32.add 
	local.get	4
	local.get	7
	i32.xor 
	i32.const	-1
	i32.xor 
	i32.const	6
	i32.shr_u
	i32.const	50529027
	i32.and 
	local.get	1
	i32.const	32
	i32.add 
	i32.load	0
	i32.xor 
	local.tee	4
	i32.const	2
	i32.shl 
	i32.const	-50529028
	i32.and 
	local.get	4
	i32.xor 
	local.tee	4
	i32.const	4
	i32.shl 
	i32.const	-252645136
	i32.and 
	local.get	4
	i32.xor 
	local.tee	4
	i32.store	0
	local.get	1
	i32.const	116
	i32.add 
	local.get	13
	local.get	14
	local.get	29
	i32.and 
	i32.xor 
	local.get	35
	i32.xor 
	local.get	36
	i32.xor 
	i32.const	-1
	i32.xor 
	i32.const	6
	i32.shr_u
	i32.const	50529027
	i32.and 
	local.get	1
	i32.const	52
	i32.add 
	i32.load	0
	i32.xor 
	local.tee	29
	i32.const	2
	i32.shl 
	i32.const	-50529028
	i32.and 
	local.get	29
	i32.xor 
	local.tee	29
	i32.const	4
	i32.shl 
	i32.const	-252645136
	i32.and 
	local.get	29
	i32.xor 
	local.tee	9
	i32.store	0
	local.get	1
	i32.const	108
	i32.add 
	local.get	10
	local.get	30
	i32.xor 
	i32.const	6
	i32.shr_u
	i32.const	50529027
	i32.and 
	local.get	1
	i32.const	44
	i32.add 
	i32.load	0
	i32.xor 
	local.tee	29
	i32.const	2
	i32.shl 
	i32.const	-50529028
	i32.and 
	local.get	29
	i32.xor 
	local.tee	29
	i32.const	4
	i32.shl 
	i32.const	-252645136
	i32.and 
	local.get	29
	i32.xor 
	local.tee	7
	i32.store	0
	local.get	1
	i32.const	120
	i32.add 
	local.get	35
	local.get	10
	i32.xor 
	i32.const	-1
	i32.xor 
	i32.const	6
	i32.shr_u
	i32.const	50529027
	i32.and 
	local.get	1
	i32.const	56
	i32.add 
	i32.load	0
	i32.xor 
	local.tee	1
	i32.const	2
	i32.shl 
	i32.const	-50529028
	i32.and 
	local.get	1
	i32.xor 
	local.tee	1
	i32.const	4
	i32.shl 
	i32.const	-252645136
	i32.and 
	local.get	1
	i32.xor 
	local.tee	10
	i32.store	0
	local.get	33
	i32.const	1
	i32.add 
	local.set	33
	local.get	15
	local.set	1
	local.get	12
	i64.const	-1
	i64.add 
	local.tee	12
	i64.const	0
	i64.ne  
	br_if   	0                               # 0: up to label8
# %bb.7:                                # %after.1.i.i
	end_loop
	local.get	0
	i32.const	476
	i32.add 
	local.get	0
	i32.load	412
	local.get	11
	local.get	5
	i32.xor 
	local.tee	29
	local.get	8
	local.get	6
	i32.xor 
	local.tee	36
	i32.xor 
	local.tee	32
	local.get	7
	i32.xor 
	local.tee	30
	local.get	10
	i32.xor 
	local.tee	31
	local.get	11
	local.get	8
	i32.xor 
	local.tee	33
	i32.xor 
	local.tee	1
	local.get	10
	local.get	9
	i32.xor 
	local.tee	7
	i32.xor 
	local.tee	10
	local.get	7
	local.get	4
	i32.xor 
	local.tee	35
	local.get	5
	i32.xor 
	local.tee	13
	local.get	35
	i32.and 
	i32.xor 
	local.get	10
	local.get	29
	i32.and 
	local.tee	34
	i32.xor 
	local.get	29
	i32.xor 
	local.get	1
	local.get	30
	local.get	6
	i32.xor 
	local.tee	5
	local.get	7
	i32.xor 
	local.tee	7
	i32.xor 
	local.tee	41
	local.get	36
	i32.and 
	local.get	1
	local.get	33
	i32.and 
	local.tee	37
	i32.xor 
	local.tee	9
	i32.xor 
	local.tee	30
	local.get	31
	local.get	5
	local.get	4
	i32.xor 
	local.tee	14
	local.get	13
	local.get	11
	local.get	6
	i32.xor 
	local.tee	6
	i32.xor 
	local.tee	15
	i32.and 
	i32.xor 
	local.get	5
	local.get	32
	i32.and 
	local.tee	31
	i32.xor 
	local.get	9
	i32.xor 
	local.tee	16
	i32.and 
	local.tee	9
	local.get	35
	local.get	8
	i32.xor 
	local.tee	17
	local.get	4
	i32.and 
	local.get	6
	i32.xor 
	local.get	7
	i32.xor 
	local.get	31
	i32.xor 
	local.get	7
	local.get	6
	i32.and 
	local.get	37
	i32.xor 
	local.tee	8
	i32.xor 
	local.tee	31
	i32.xor 
	local.get	10
	local.get	1
	local.get	4
	i32.xor 
	local.tee	18
	local.get	35
	local.get	11
	i32.xor 
	local.tee	19
	i32.and 
	i32.xor 
	local.get	34
	i32.xor 
	local.get	11
	i32.xor 
	local.get	8
	i32.xor 
	local.tee	8
	local.get	30
	i32.xor 
	i32.and 
	local.tee	34
	local.get	9
	i32.xor 
	local.get	8
	i32.and 
	local.tee	37
	local.get	9
	local.get	8
	i32.xor 
	local.tee	11
	i32.xor 
	local.get	11
	local.get	16
	local.get	31
	i32.xor 
	local.tee	9
	i32.and 
	local.get	31
	i32.xor 
	local.tee	11
	i32.and 
	local.get	9
	i32.xor 
	local.tee	9
	local.get	37
	local.get	30
	i32.xor 
	local.tee	30
	local.get	34
	local.get	8
	i32.xor 
	local.tee	8
	i32.xor 
	local.tee	31
	i32.xor 
	local.tee	34
	local.get	11
	local.get	8
	i32.xor 
	local.tee	37
	i32.xor 
	local.tee	16
	local.get	36
	i32.and 
	local.get	37
	local.get	33
	i32.and 
	local.tee	36
	i32.xor 
	local.tee	33
	local.get	31
	local.get	15
	i32.and 
	i32.xor 
	local.tee	15
	local.get	30
	local.get	32
	i32.and 
	i32.xor 
	local.tee	32
	local.get	9
	local.get	11
	i32.xor 
	local.tee	20
	local.get	10
	i32.and 
	local.tee	10
	local.get	9
	local.get	35
	i32.and 
	i32.xor 
	local.tee	35
	local.get	16
	local.get	41
	i32.and 
	i32.xor 
	local.tee	41
	local.get	37
	local.get	1
	i32.and 
	i32.xor 
	local.tee	1
	i32.xor 
	i32.const	18
	i32.rotl
	i32.const	50529027
	i32.and 
	i32.xor 
	local.tee	37
	i32.const	2
	i32.shl 
	i32.const	-50529028
	i32.and 
	local.get	37
	i32.xor 
	local.tee	37
	i32.const	4
	i32.shl 
	i32.const	-252645136
	i32.and 
	local.get	37
	i32.xor 
	i32.store	0
	local.get	0
	i32.const	464
	i32.add 
	local.get	0
	i32.load	400
	local.get	31
	local.get	14
	i32.and 
	local.get	30
	local.get	5
	i32.and 
	local.tee	5
	i32.xor 
	local.get	35
	i32.xor 
	local.get	32
	i32.xor 
	local.tee	35
	i32.const	18
	i32.rotl
	i32.const	50529027
	i32.and 
	i32.xor 
	local.tee	32
	i32.const	2
	i32.shl 
	i32.const	-50529028
	i32.and 
	local.get	32
	i32.xor 
	local.tee	32
	i32.const	4
	i32.shl 
	i32.const	-252645136
	i32.and 
	local.get	32
	i32.xor 
	i32.store	0
	local.get	0
	i32.const	456
	i32.add 
	local.get	0
	i32.load	392
	local.get	15
	local.get	8
	local.get	17
	i32.and 
	i32.xor 
	local.get	34
	local.get	7
	i32.and 
	local.get	5
	local.get	8
	local.get	4
	i32.and 
	i32.xor 
	local.tee	4
	i32.xor 
	local.get	20
	local.get	29
	i32.and 
	local.tee	5
	i32.xor 
	local.get	41
	i32.xor 
	local.tee	8
	local.get	11
	local.get	19
	i32.and 
	i32.xor 
	local.tee	29
	i32.xor 
	i32.const	18
	i32.rotl
	i32.const	50529027
	i32.and 
	i32.xor 
	local.tee	7
	i32.const	2
	i32.shl 
	i32.const	-50529028
	i32.and 
	local.get	7
	i32.xor 
	local.tee	7
	i32.const	4
	i32.shl 
	i32.const	-252645136
	i32.and 
	local.get	7
	i32.xor 
	i32.store	0
	local.get	0
	i32.const	452
	i32.add 
	local.get	0
	i32.load	388
	local.get	4
	local.get	11
	local.get	18
	i32.and 
	i32.xor 
	local.get	10
	i32.xor 
	local.tee	4
	local.get	9
	local.get	13
	i32.and 
	i32.xor 
	local.get	33
	i32.xor 
	local.tee	11
	local.get	8
	i32.xor 
	i32.const	18
	i32.rotl
	i32.const	-1
	i32.xor 
	i32.const	50529027
	i32.and 
	i32.xor 
	local.tee	10
	i32.const	2
	i32.shl 
	i32.const	-50529028
	i32.and 
	local.get	10
	i32.xor 
	local.tee	10
	i32.const	4
	i32.shl 
	i32.const	-252645136
	i32.and 
	local.get	10
	i32.xor 
	i32.store	0
	local.get	0
	i32.const	448
	i32.add 
	local.get	0
	i32.load	384
	local.get	11
	local.get	5
	i32.xor 
	i32.const	18
	i32.rotl
	i32.const	-1
	i32.xor 
	i32.const	50529027
	i32.and 
	i32.xor 
	local.tee	11
	i32.const	2
	i32.shl 
	i32.const	-50529028
	i32.and 
	local.get	11
	i32.xor 
	local.tee	11
	i32.const	4
	i32.shl 
	i32.const	-252645136
	i32.and 
	local.get	11
	i32.xor 
	i32.store	0
	local.get	0
	i32.const	468
	i32.add 
	local.get	0
	i32.load	404
	local.get	36
	local.get	34
	local.get	6
	i32.and 
	i32.xor 
	local.get	1
	i32.xor 
	local.get	29
	i32.xor 
	i32.const	18
	i32.rotl
	i32.const	-1
	i32.xor 
	i32.const	50529027
	i32.and 
	i32.xor 
	local.tee	11
	i32.const	2
	i32.shl 
	i32.const	-50529028
	i32.and 
	local.get	11
	i32.xor 
	local.tee	11
	i32.const	4
	i32.shl 
	i32.const	-252645136
	i32.and 
	local.get	11
	i32.xor 
	i32.store	0
	local.get	0
	i32.const	460
	i32.add 
	local.get	0
	i32.load	396
	local.get	35
	local.get	4
	i32.xor 
	i32.const	18
	i32.rotl
	i32.const	50529027
	i32.and 
	i32.xor 
	local.tee	4
	i32.const	2
	i32.shl 
	i32.const	-50529028
	i32.and 
	local.get	4
	i32.xor 
	local.tee	4
	i32.const	4
	i32.shl 
	i32.const	-252645136
	i32.and 
	local.get	4
	i32.xor 
	i32.store	0
	local.get	0
	i32.const	472
	i32.add 
	local.get	0
	i32.load	408
	local.get	1
	local.get	35
	i32.xor 
	i32.const	-1061158720
	i32.xor 
	i32.const	18
	i32.rotl
	i32.const	50529027
	i32.and 
	i32.xor 
	local.tee	1
	i32.const	2
	i32.shl 
	i32.const	-50529028
	i32.and 
	local.get	1
	i32.xor 
	local.tee	1
	i32.const	4
	i32.shl 
	i32.const	-252645136
	i32.and 
	local.get	1
	i32.xor 
	i32.store	0
.LBB4_8:                                # %aes_planes__expansion__expand____389ec886eeff95cb_.exit
	end_block                               # label2:
	local.get	2
	i64.const	2
	i64.shr_u
	local.tee	63
	i64.const	6
	i64.add 
	local.set	64
	i64.const	-6
	local.set	12
.LBB4_9:                                # %join.5.i
                                        # =>This Inner Loop Header: Depth=1
	loop    	                                # label9:
	local.get	0
	i32.const	60
	i32.add 
	local.tee	29
	i32.load	0
	local.set	1
	local.get	0
	i32.const	56
	i32.add 
	local.tee	7
	i32.load	0
	local.set	4
	local.get	0
	i32.const	52
	i32.add 
	local.tee	9
	i32.load	0
	local.set	11
	local.get	0
	i32.const	48
	i32.add 
	local.tee	36
	i32.load	0
	local.set	35
	local.get	0
	i32.const	44
	i32.add 
	local.tee	32
	i32.load	0
	local.set	10
	local.get	0
	i32.const	40
	i32.add 
	local.tee	33
	i32.load	0
	local.set	5
	local.get	0
	i32.const	36
	i32.add 
	local.tee	13
	i32.load	0
	local.set	6
	local.get	0
	i32.const	32
	i32.add 
	local.tee	0
	i32.load	0
	local.set	8
	block   	
	local.get	12
	i64.const	7
	i64.add 
	local.tee	2
	local.get	64
	i64.ge_u
	br_if   	0                               # 0: down to label10
# %bb.10:                               # %ok.10.i
                                        #   in Loop: Header=BB4_9 Depth=1
	block   	
	block   	
	block   	
	local.get	2
	i32.wrap_i64
	i32.const	3
	i32.and 
	br_table 	{3, 0, 1, 2, 3}         # 0: down to label13
                                        # 1: down to label12
                                        # 2: down to label11
                                        # 3: down to label10
.LBB4_11:                               # %then.1.i
                                        #   in Loop: Header=BB4_9 Depth=1
	end_block                               # label13:
	local.get	1
	i32.const	4
	i32.shr_u
	local.get	1
	i32.xor 
	i32.const	51317760
	i32.and 
	i32.const	17
	i32.mul 
	local.get	1
	i32.xor 
	local.tee	1
	i32.const	2
	i32.shr_u
	local.get	1
	i32.xor 
	i32.const	855651072
	i32.and 
	i32.const	5
	i32.mul 
	local.get	1
	i32.xor 
	local.set	1
	local.get	4
	i32.const	4
	i32.shr_u
	local.get	4
	i32.xor 
	i32.const	51317760
	i32.and 
	i32.const	17
	i32.mul 
	local.get	4
	i32.xor 
	local.tee	4
	i32.const	2
	i32.shr_u
	local.get	4
	i32.xor 
	i32.const	855651072
	i32.and 
	i32.const	5
	i32.mul 
	local.get	4
	i32.xor 
	local.set	4
	local.get	11
	i32.const	4
	i32.shr_u
	local.get	11
	i32.xor 
	i32.const	51317760
	i32.and 
	i32.const	17
	i32.mul 
	local.get	11
	i32.xor 
	local.tee	11
	i32.const	2
	i32.shr_u
	local.get	11
	i32.xor 
	i32.const	855651072
	i32.and 
	i32.const	5
	i32.mul 
	local.get	11
	i32.xor 
	local.set	11
	local.get	35
	i32.const	4
	i32.shr_u
	local.get	35
	i32.xor 
	i32.const	51317760
	i32.and 
	i32.const	17
	i32.mul 
	local.get	35
	i32.xor 
	local.tee	35
	i32.const	2
	i32.shr_u
	local.get	35
	i32.xor 
	i32.const	855651072
	i32.and 
	i32.const	5
	i32.mul 
	local.get	35
	i32.xor 
	local.set	35
	local.get	10
	i32.const	4
	i32.shr_u
	local.get	10
	i32.xor 
	i32.const	51317760
	i32.and 
	i32.const	17
	i32.mul 
	local.get	10
	i32.xor 
	local.tee	10
	i32.const	2
	i32.shr_u
	local.get	10
	i32.xor 
	i32.const	855651072
	i32.and 
	i32.const	5
	i32.mul 
	local.get	10
	i32.xor 
	local.set	10
	local.get	5
	i32.const	4
	i32.shr_u
	local.get	5
	i32.xor 
	i32.const	51317760
	i32.and 
	i32.const	17
	i32.mul 
	local.get	5
	i32.xor 
	local.tee	5
	i32.const	2
	i32.shr_u
	local.get	5
	i32.xor 
	i32.const	855651072
	i32.and 
	i32.const	5
	i32.mul 
	local.get	5
	i32.xor 
	local.set	5
	local.get	6
	i32.const	4
	i32.shr_u
	local.get	6
	i32.xor 
	i32.const	51317760
	i32.and 
	i32.const	17
	i32.mul 
	local.get	6
	i32.xor 
	local.tee	6
	i32.const	2
	i32.shr_u
	local.get	6
	i32.xor 
	i32.const	855651072
	i32.and 
	i32.const	5
	i32.mul 
	local.get	6
	i32.xor 
	local.set	6
	local.get	8
	i32.const	4
	i32.shr_u
	local.get	8
	i32.xor 
	i32.const	51317760
	i32.and 
	i32.const	17
	i32.mul 
	local.get	8
	i32.xor 
	local.tee	8
	i32.const	2
	i32.shr_u
	local.get	8
	i32.xor 
	i32.const	855651072
	i32.and 
	i32.const	5
	i32.mul 
	local.get	8
	i32.xor 
	local.set	8
	br      	2                               # 2: down to label10
.LBB4_12:                               # %then.4.i
                                        #   in Loop: Header=BB4_9 Depth=1
	end_block                               # label12:
	local.get	1
	i32.const	4
	i32.shr_u
	local.get	1
	i32.xor 
	i32.const	251662080
	i32.and 
	i32.const	17
	i32.mul 
	local.get	1
	i32.xor 
	local.set	1
	local.get	4
	i32.const	4
	i32.shr_u
	local.get	4
	i32.xor 
	i32.const	251662080
	i32.and 
	i32.const	17
	i32.mul 
	local.get	4
	i32.xor 
	local.set	4
	local.get	11
	i32.const	4
	i32.shr_u
	local.get	11
	i32.xor 
	i32.const	251662080
	i32.and 
	i32.const	17
	i32.mul 
	local.get	11
	i32.xor 
	local.set	11
	local.get	35
	i32.const	4
	i32.shr_u
	local.get	35
	i32.xor 
	i32.const	251662080
	i32.and 
	i32.const	17
	i32.mul 
	local.get	35
	i32.xor 
	local.set	35
	local.get	10
	i32.const	4
	i32.shr_u
	local.get	10
	i32.xor 
	i32.const	251662080
	i32.and 
	i32.const	17
	i32.mul 
	local.get	10
	i32.xor 
	local.set	10
	local.get	5
	i32.const	4
	i32.shr_u
	local.get	5
	i32.xor 
	i32.const	251662080
	i32.and 
	i32.const	17
	i32.mul 
	local.get	5
	i32.xor 
	local.set	5
	local.get	6
	i32.const	4
	i32.shr_u
	local.get	6
	i32.xor 
	i32.const	251662080
	i32.and 
	i32.const	17
	i32.mul 
	local.get	6
	i32.xor 
	local.set	6
	local.get	8
	i32.const	4
	i32.shr_u
	local.get	8
	i32.xor 
	i32.const	251662080
	i32.and 
	i32.const	17
	i32.mul 
	local.get	8
	i32.xor 
	local.set	8
	br      	1                               # 1: down to label10
.LBB4_13:                               # %then.7.i
                                        #   in Loop: Header=BB4_9 Depth=1
	end_block                               # label11:
	local.get	1
	i32.const	4
	i32.shr_u
	local.get	1
	i32.xor 
	i32.const	202310400
	i32.and 
	i32.const	17
	i32.mul 
	local.get	1
	i32.xor 
	local.tee	1
	i32.const	2
	i32.shr_u
	local.get	1
	i32.xor 
	i32.const	855651072
	i32.and 
	i32.const	5
	i32.mul 
	local.get	1
	i32.xor 
	local.set	1
	local.get	4
	i32.const	4
	i32.shr_u
	local.get	4
	i32.xor 
	i32.const	202310400
	i32.and 
	i32.const	17
	i32.mul 
	local.get	4
	i32.xor 
	local.tee	4
	i32.const	2
	i32.shr_u
	local.get	4
	i32.xor 
	i32.const	855651072
	i32.and 
	i32.const	5
	i32.mul 
	local.get	4
	i32.xor 
	local.set	4
	local.get	11
	i32.const	4
	i32.shr_u
	local.get	11
	i32.xor 
	i32.const	202310400
	i32.and 
	i32.const	17
	i32.mul 
	local.get	11
	i32.xor 
	local.tee	11
	i32.const	2
	i32.shr_u
	local.get	11
	i32.xor 
	i32.const	855651072
	i32.and 
	i32.const	5
	i32.mul 
	local.get	11
	i32.xor 
	local.set	11
	local.get	35
	i32.const	4
	i32.shr_u
	local.get	35
	i32.xor 
	i32.const	202310400
	i32.and 
	i32.const	17
	i32.mul 
	local.get	35
	i32.xor 
	local.tee	35
	i32.const	2
	i32.shr_u
	local.get	35
	i32.xor 
	i32.const	855651072
	i32.and 
	i32.const	5
	i32.mul 
	local.get	35
	i32.xor 
	local.set	35
	local.get	10
	i32.const	4
	i32.shr_u
	local.get	10
	i32.xor 
	i32.const	202310400
	i32.and 
	i32.const	17
	i32.mul 
	local.get	10
	i32.xor 
	local.tee	10
	i32.const	2
	i32.shr_u
	local.get	10
	i32.xor 
	i32.const	855651072
	i32.and 
	i32.const	5
	i32.mul 
	local.get	10
	i32.xor 
	local.set	10
	local.get	5
	i32.const	4
	i32.shr_u
	local.get	5
	i32.xor 
	i32.const	202310400
	i32.and 
	i32.const	17
	i32.mul 
	local.get	5
	i32.xor 
	local.tee	5
	i32.const	2
	i32.shr_u
	local.get	5
	i32.xor 
	i32.const	855651072
	i32.and 
	i32.const	5
	i32.mul 
	local.get	5
	i32.xor 
	local.set	5
	local.get	6
	i32.const	4
	i32.shr_u
	local.get	6
	i32.xor 
	i32.const	202310400
	i32.and 
	i32.const	17
	i32.mul 
	local.get	6
	i32.xor 
	local.tee	6
	i32.const	2
	i32.shr_u
	local.get	6
	i32.xor 
	i32.const	855651072
	i32.and 
	i32.const	5
	i32.mul 
	local.get	6
	i32.xor 
	local.set	6
	local.get	8
	i32.const	4
	i32.shr_u
	local.get	8
	i32.xor 
	i32.const	202310400
	i32.and 
	i32.const	17
	i32.mul 
	local.get	8
	i32.xor 
	local.tee	8
	i32.const	2
	i32.shr_u
	local.get	8
	i32.xor 
	i32.const	855651072
	i32.and 
	i32.const	5
	i32.mul 
	local.get	8
	i32.xor 
	local.set	8
.LBB4_14:                               # %join.8.i
                                        #   in Loop: Header=BB4_9 Depth=1
	end_block                               # label10:
	local.get	29
	local.get	1
	i32.store	0
	local.get	7
	local.get	4
	i32.const	-1
	i32.xor 
	i32.store	0
	local.get	9
	local.get	11
	i32.const	-1
	i32.xor 
	i32.store	0
	local.get	36
	local.get	35
	i32.store	0
	local.get	32
	local.get	10
	i32.store	0
	local.get	33
	local.get	5
	i32.store	0
	local.get	13
	local.get	6
	i32.const	-1
	i32.xor 
	i32.store	0
	local.get	0
	local.get	8
	i32.const	-1
	i32.xor 
	i32.store	0
	local.get	63
	local.get	12
	i64.const	1
	i64.add 
	local.tee	12
	i64.ne  
	br_if   	0                               # 0: up to label9
# %bb.15:                               # %aes_soft__soft__key_layout__store____dfb00681c6d298fe_.exit
	end_loop
	local.get	3
	i32.const	32
	i32.add 
	global.set	__stack_pointer
                                        # fallthrough-return
	end_function
                                        # -- End function
	.section	.text.aes_planes__soft__word__word32__U32Word__in_every_slot,"",@
	.type	aes_planes__soft__word__word32__U32Word__in_every_slot,@function # -- Begin function aes_planes__soft__word__word32__U32Word__in_every_slot
aes_planes__soft__word__word32__U32Word__in_every_slot: # @aes_planes__soft__word__word32__U32Word__in_every_slot
	.functype	aes_planes__soft__word__word32__U32Word__in_every_slot (i32, i32) -> ()
	.local  	i32, i32, i32, i32, i32, i32, i32, i32, i32, i32, i32, i32, i32, i32
# %bb.0:                                # %start
	local.get	0
	local.get	1
	i32.load	12:p2align=0
	local.tee	2
	local.get	2
	i32.const	1
	i32.shr_u
	i32.xor 
	i32.const	1431655765
	i32.and 
	local.tee	3
	local.get	2
	i32.xor 
	local.tee	4
	local.get	1
	i32.load	8:p2align=0
	local.tee	5
	local.get	5
	i32.const	1
	i32.shr_u
	i32.xor 
	i32.const	1431655765
	i32.and 
	local.tee	6
	local.get	5
	i32.xor 
	local.tee	7
	i32.const	2
	i32.shr_u
	i32.xor 
	i32.const	858993459
	i32.and 
	local.tee	8
	local.get	4
	i32.xor 
	local.tee	9
	local.get	1
	i32.load	4:p2align=0
	local.tee	4
	local.get	4
	i32.const	1
	i32.shr_u
	i32.xor 
	i32.const	1431655765
	i32.and 
	local.tee	10
	local.get	4
	i32.xor 
	local.tee	11
	local.get	1
	i32.load	0:p2align=0
	local.tee	1
	local.get	1
	i32.const	1
	i32.shr_u
	i32.xor 
	i32.const	1431655765
	i32.and 
	local.tee	12
	local.get	1
	i32.xor 
	local.tee	13
	i32.const	2
	i32.shr_u
	i32.xor 
	i32.const	858993459
	i32.and 
	local.tee	14
	local.get	11
	i32.xor 
	local.tee	11
	i32.const	4
	i32.shr_u
	i32.xor 
	i32.const	252645135
	i32.and 
	local.tee	15
	local.get	9
	i32.xor 
	i32.store	28:p2align=0
	local.get	0
	local.get	2
	local.get	3
	i32.const	1
	i32.shl 
	i32.xor 
	local.tee	2
	local.get	5
	local.get	6
	i32.const	1
	i32.shl 
	i32.xor 
	local.tee	5
	i32.const	2
	i32.shr_u
	i32.xor 
	i32.const	858993459
	i32.and 
	local.tee	3
	local.get	2
	i32.xor 
	local.tee	2
	local.get	4
	local.get	10
	i32.const	1
	i32.shl 
	i32.xor 
	local.tee	4
	local.get	1
	local.get	12
	i32.const	1
	i32.shl 
	i32.xor 
	local.tee	1
	i32.const	2
	i32.shr_u
	i32.xor 
	i32.const	858993459
	i32.and 
	local.tee	6
	local.get	4
	i32.xor 
	local.tee	4
	i32.const	4
	i32.shr_u
	i32.xor 
	i32.const	252645135
	i32.and 
	local.tee	9
	local.get	2
	i32.xor 
	i32.store	24:p2align=0
	local.get	0
	local.get	8
	i32.const	2
	i32.shl 
	local.get	7
	i32.xor 
	local.tee	2
	local.get	14
	i32.const	2
	i32.shl 
	local.get	13
	i32.xor 
	local.tee	7
	i32.const	4
	i32.shr_u
	i32.xor 
	i32.const	252645135
	i32.and 
	local.tee	8
	local.get	2
	i32.xor 
	i32.store	20:p2align=0
	local.get	0
	local.get	15
	i32.const	4
	i32.shl 
	local.get	11
	i32.xor 
	i32.store	12:p2align=0
	local.get	0
	local.get	3
	i32.const	2
	i32.shl 
	local.get	5
	i32.xor 
	local.tee	2
	local.get	6
	i32.const	2
	i32.shl 
	local.get	1
	i32.xor 
	local.tee	1
	i32.const	4
	i32.shr_u
	i32.xor 
	i32.const	252645135
	i32.and 
	local.tee	5
	local.get	2
	i32.xor 
	i32.store	16:p2align=0
	local.get	0
	local.get	9
	i32.const	4
	i32.shl 
	local.get	4
	i32.xor 
	i32.store	8:p2align=0
	local.get	0
	local.get	8
	i32.const	4
	i32.shl 
	local.get	7
	i32.xor 
	i32.store	4:p2align=0
	local.get	0
	local.get	5
	i32.const	4
	i32.shl 
	local.get	1
	i32.xor 
	i32.store	0:p2align=0
                                        # fallthrough-return
	end_function
                                        # -- End function
	.section	.text.aes_planes__soft__word__word32__U32Word__constant_planes,"",@
	.type	aes_planes__soft__word__word32__U32Word__constant_planes,@function # -- Begin function aes_planes__soft__word__word32__U32Word__constant_planes
aes_planes__soft__word__word32__U32Word__constant_planes: # @aes_planes__soft__word__word32__U32Word__constant_planes
	.functype	aes_planes__soft__word__word32__U32Word__constant_planes (i32, i32) -> ()
# %bb.0:                                # %start
	local.get	0
	local.get	1
	i32.const	64
	i32.and 
	i32.const	768
	i32.mul 
	i32.store	24:p2align=0
	local.get	0
	local.get	1
	i32.const	1
	i32.shr_u
	i32.const	64
	i32.and 
	i32.const	768
	i32.mul 
	i32.store	28:p2align=0
	local.get	0
	local.get	1
	i32.const	1
	i32.shl 
	i32.const	64
	i32.and 
	i32.const	768
	i32.mul 
	i32.store	20:p2align=0
	local.get	0
	local.get	1
	i32.const	2
	i32.shl 
	i32.const	64
	i32.and 
	i32.const	768
	i32.mul 
	i32.store	16:p2align=0
	local.get	0
	local.get	1
	i32.const	3
	i32.shl 
	i32.const	64
	i32.and 
	i32.const	768
	i32.mul 
	i32.store	12:p2align=0
	local.get	0
	local.get	1
	i32.const	4
	i32.shl 
	i32.const	64
	i32.and 
	i32.const	768
	i32.mul 
	i32.store	8:p2align=0
	local.get	0
	local.get	1
	i32.const	5
	i32.shl 
	i32.const	64
	i32.and 
	i32.const	768
	i32.mul 
	i32.store	4:p2align=0
	local.get	0
	local.get	1
	i32.const	6
	i32.shl 
	i32.const	64
	i32.and 
	i32.const	768
	i32.mul 
	i32.store	0:p2align=0
                                        # fallthrough-return
	end_function
                                        # -- End function
	.section	.text.aes_cipher__zeroize__stack__wipe_stack____768_,"",@
	.type	aes_cipher__zeroize__stack__wipe_stack____768_,@function # -- Begin function aes_cipher__zeroize__stack__wipe_stack____768_
aes_cipher__zeroize__stack__wipe_stack____768_: # @aes_cipher__zeroize__stack__wipe_stack____768_
	.functype	aes_cipher__zeroize__stack__wipe_stack____768_ () -> ()
	.local  	i32, i64
# %bb.0:                                # %start
	global.get	__stack_pointer
	i32.const	784
	i32.sub 
	local.tee	0
	global.set	__stack_pointer
	local.get	0
	i32.const	16
	i32.add 
	i32.const	0
	i32.const	768
	call	memset
	drop
	local.get	0
	i64.const	0
	i64.store	8
	#APP
	#NO_APP
	local.get	0
	i64.load	8
	local.set	1
	#APP
	#NO_APP
	block   	
	local.get	1
	i64.const	768
	i64.ge_u
	br_if   	0                               # 0: down to label14
# %bb.1:                                # %then.1
	local.get	0
	i32.const	16
	i32.add 
	local.get	1
	i32.wrap_i64
	i32.add 
	i64.load8_u	0
	local.set	1
	#APP
	#NO_APP
	local.get	0
	i64.load	8
	drop
	local.get	0
	local.get	1
	i64.store	8
	#APP
	#NO_APP
.LBB7_2:                                # %common.ret
	end_block                               # label14:
	local.get	0
	i32.const	784
	i32.add 
	global.set	__stack_pointer
                                        # fallthrough-return
	end_function
                                        # -- End function
	.section	.text.gcm__mode__BorrowedGcm__start____c01aad2b5fbc92b1_,"",@
	.type	gcm__mode__BorrowedGcm__start____c01aad2b5fbc92b1_,@function # -- Begin function gcm__mode__BorrowedGcm__start____c01aad2b5fbc92b1_
gcm__mode__BorrowedGcm__start____c01aad2b5fbc92b1_: # @gcm__mode__BorrowedGcm__start____c01aad2b5fbc92b1_
	.functype	gcm__mode__BorrowedGcm__start____c01aad2b5fbc92b1_ (i32, i32, i32, i64) -> ()
# %bb.0:                                # %start
	local.get	0
	local.get	2
	local.get	3
	local.get	1
	i32.const	32
	i32.add 
	call	gcm__mode__BorrowedGcm__put_pre_counter____c01aad2b5fbc92b1_
	local.get	1
	i64.const	0
	i64.store	0
	local.get	1
	i32.const	24
	i32.add 
	i64.const	1
	i64.store	0
	local.get	1
	i64.const	0
	i64.store	8
	local.get	1
	i64.const	0
	i64.store	16
	local.get	1
	i32.const	48
	i32.add 
	i64.const	0
	i64.store	0:p2align=0
	local.get	1
	i32.const	56
	i32.add 
	i64.const	0
	i64.store	0:p2align=0
	local.get	1
	i32.const	64
	i32.add 
	i64.const	0
	i64.store	0:p2align=0
	local.get	1
	i32.const	72
	i32.add 
	i64.const	0
	i64.store	0:p2align=0
	block   	
	local.get	3
	i64.const	12
	i64.eq  
	br_if   	0                               # 0: down to label15
# %bb.1:                                # %then.1.i
	call	aes_cipher__zeroize__stack__wipe_stack____512_
.LBB8_2:                                # %gcm__pieces__wipe_stack_after.exit
	end_block                               # label15:
                                        # fallthrough-return
	end_function
                                        # -- End function
	.section	.text.gcm__mode__BorrowedGcm__put_pre_counter____c01aad2b5fbc92b1_,"",@
	.type	gcm__mode__BorrowedGcm__put_pre_counter____c01aad2b5fbc92b1_,@function # -- Begin function gcm__mode__BorrowedGcm__put_pre_counter____c01aad2b5fbc92b1_
gcm__mode__BorrowedGcm__put_pre_counter____c01aad2b5fbc92b1_: # @gcm__mode__BorrowedGcm__put_pre_counter____c01aad2b5fbc92b1_
	.functype	gcm__mode__BorrowedGcm__put_pre_counter____c01aad2b5fbc92b1_ (i32, i32, i64, i32) -> ()
	.local  	i32, i64, i32, i32, i32, i32, i32, i32, i32, i32, i32, i32, i32, i32, i32
# %bb.0:                                # %start
	global.get	__stack_pointer
	i32.const	64
	i32.sub 
	local.tee	4
	global.set	__stack_pointer
	block   	
	block   	
	local.get	2
	i64.const	12
	i64.ne  
	br_if   	0                               # 0: down to label17
# %bb.1:                                # %then.1
	local.get	4
	i32.const	0
	i32.store8	62
	local.get	4
	i32.const	0
	i32.store16	60
	local.get	4
	local.get	1
	i32.load	8:p2align=0
	i32.store	56
	local.get	4
	local.get	1
	i64.load	0:p2align=0
	local.tee	5
	i64.store	48
	local.get	4
	local.get	5
	i64.store	32
	local.get	4
	local.get	4
	i64.load	55:p2align=0
	i64.store	39:p2align=0
	local.get	3
	local.get	4
	i64.load	39:p2align=0
	i64.store	7:p2align=0
	local.get	3
	local.get	4
	i64.load	32
	i64.store	0:p2align=0
	i32.const	1
	local.set	1
	br      	1                               # 1: down to label16
.LBB9_2:                                # %else.2
	end_block                               # label17:
	local.get	4
	local.get	0
	i32.const	16
	i32.add 
	local.tee	0
	i32.load	0
	local.tee	6
	i64.load	0:p2align=0
	local.tee	5
	i64.const	56
	i64.shl 
	local.get	5
	i64.const	65280
	i64.and 
	i64.const	40
	i64.shl 
	i64.or  
	local.get	5
	i64.const	16711680
	i64.and 
	i64.const	24
	i64.shl 
	local.get	5
	i64.const	4278190080
	i64.and 
	i64.const	8
	i64.shl 
	i64.or  
	i64.or  
	local.get	5
	i64.const	8
	i64.shr_u
	i64.const	4278190080
	i64.and 
	local.get	5
	i64.const	24
	i64.shr_u
	i64.const	16711680
	i64.and 
	i64.or  
	local.get	5
	i64.const	40
	i64.shr_u
	i64.const	65280
	i64.and 
	local.get	5
	i64.const	56
	i64.shr_u
	i64.or  
	i64.or  
	i64.or  
	i64.store	56
	local.get	4
	local.get	6
	i64.load	8:p2align=0
	local.tee	5
	i64.const	56
	i64.shl 
	local.get	5
	i64.const	65280
	i64.and 
	i64.const	40
	i64.shl 
	i64.or  
	local.get	5
	i64.const	16711680
	i64.and 
	i64.const	24
	i64.shl 
	local.get	5
	i64.const	4278190080
	i64.and 
	i64.const	8
	i64.shl 
	i64.or  
	i64.or  
	local.get	5
	i64.const	8
	i64.shr_u
	i64.const	4278190080
	i64.and 
	local.get	5
	i64.const	24
	i64.shr_u
	i64.const	16711680
	i64.and 
	i64.or  
	local.get	5
	i64.const	40
	i64.shr_u
	i64.const	65280
	i64.and 
	local.get	5
	i64.const	56
	i64.shr_u
	i64.or  
	i64.or  
	i64.or  
	i64.store	48
	local.get	4
	i32.const	16
	i32.add 
	local.get	4
	i32.const	48
	i32.add 
	i64.const	0
	i64.const	0
	local.get	1
	local.get	2
	call	gcm__single_blocks__hash_singly____165deadc48559e33_
	local.get	4
	local.get	0
	local.get	4
	i64.load	16
	local.get	4
	i64.load	24
	i64.const	0
	local.get	2
	call	gcm__tags__hash_lengths____d9ba0fa9ccec4268_
	local.get	4
	i32.load8_u	0
	local.set	1
	local.get	4
	i32.load8_u	15
	local.set	0
	local.get	4
	i32.load8_u	14
	local.set	6
	local.get	4
	i32.load8_u	13
	local.set	7
	local.get	4
	i32.load8_u	12
	local.set	8
	local.get	4
	i32.load8_u	11
	local.set	9
	local.get	4
	i32.load8_u	10
	local.set	10
	local.get	4
	i32.load8_u	9
	local.set	11
	local.get	4
	i32.load8_u	8
	local.set	12
	local.get	4
	i32.load8_u	7
	local.set	13
	local.get	4
	i32.load8_u	6
	local.set	14
	local.get	4
	i32.load8_u	5
	local.set	15
	local.get	4
	i32.load8_u	4
	local.set	16
	local.get	4
	i32.load8_u	3
	local.set	17
	local.get	4
	i32.load8_u	2
	local.set	18
	local.get	3
	local.get	4
	i32.load8_u	1
	i32.store8	14
	local.get	3
	local.get	18
	i32.store8	13
	local.get	3
	local.get	17
	i32.store8	12
	local.get	3
	local.get	16
	i32.store8	11
	local.get	3
	local.get	15
	i32.store8	10
	local.get	3
	local.get	14
	i32.store8	9
	local.get	3
	local.get	13
	i32.store8	8
	local.get	3
	local.get	12
	i32.store8	7
	local.get	3
	local.get	11
	i32.store8	6
	local.get	3
	local.get	10
	i32.store8	5
	local.get	3
	local.get	9
	i32.store8	4
	local.get	3
	local.get	8
	i32.store8	3
	local.get	3
	local.get	7
	i32.store8	2
	local.get	3
	local.get	6
	i32.store8	1
	local.get	3
	local.get	0
	i32.store8	0
.LBB9_3:                                # %join.3
	end_block                               # label16:
	local.get	3
	local.get	1
	i32.store8	15
	local.get	4
	i32.const	64
	i32.add 
	global.set	__stack_pointer
                                        # fallthrough-return
	end_function
                                        # -- End function
	.section	.text.gcm__single_blocks__hash_singly____165deadc48559e33_,"",@
	.type	gcm__single_blocks__hash_singly____165deadc48559e33_,@function # -- Begin function gcm__single_blocks__hash_singly____165deadc48559e33_
gcm__single_blocks__hash_singly____165deadc48559e33_: # @gcm__single_blocks__hash_singly____165deadc48559e33_
	.functype	gcm__single_blocks__hash_singly____165deadc48559e33_ (i32, i32, i64, i64, i32, i64) -> ()
	.local  	i32, i64, i64, i64, i32, i64, i32
# %bb.0:                                # %start
	global.get	__stack_pointer
	i32.const	48
	i32.sub 
	local.tee	6
	global.set	__stack_pointer
	block   	
	local.get	5
	i64.const	4
	i64.shr_u
	local.tee	7
	i64.eqz
	br_if   	0                               # 0: down to label18
# %bb.1:                                # %join.5.i.lr.ph
	local.get	1
	i64.load	8
	local.set	8
	local.get	1
	i64.load	0
	local.set	9
	local.get	4
	local.set	10
.LBB10_2:                               # %join.5.i
                                        # =>This Inner Loop Header: Depth=1
	loop    	                                # label19:
	local.get	6
	i32.const	16
	i32.add 
	local.get	10
	i64.load	8:p2align=0
	local.tee	11
	i64.const	56
	i64.shl 
	local.get	11
	i64.const	65280
	i64.and 
	i64.const	40
	i64.shl 
	i64.or  
	local.get	11
	i64.const	16711680
	i64.and 
	i64.const	24
	i64.shl 
	local.get	11
	i64.const	4278190080
	i64.and 
	i64.const	8
	i64.shl 
	i64.or  
	i64.or  
	local.get	11
	i64.const	8
	i64.shr_u
	i64.const	4278190080
	i64.and 
	local.get	11
	i64.const	24
	i64.shr_u
	i64.const	16711680
	i64.and 
	i64.or  
	local.get	11
	i64.const	40
	i64.shr_u
	i64.const	65280
	i64.and 
	local.get	11
	i64.const	56
	i64.shr_u
	i64.or  
	i64.or  
	i64.or  
	local.get	2
	i64.xor 
	local.get	10
	i64.load	0:p2align=0
	local.tee	11
	i64.const	56
	i64.shl 
	local.get	11
	i64.const	65280
	i64.and 
	i64.const	40
	i64.shl 
	i64.or  
	local.get	11
	i64.const	16711680
	i64.and 
	i64.const	24
	i64.shl 
	local.get	11
	i64.const	4278190080
	i64.and 
	i64.const	8
	i64.shl 
	i64.or  
	i64.or  
	local.get	11
	i64.const	8
	i64.shr_u
	i64.const	4278190080
	i64.and 
	local.get	11
	i64.const	24
	i64.shr_u
	i64.const	16711680
	i64.and 
	i64.or  
	local.get	11
	i64.const	40
	i64.shr_u
	i64.const	65280
	i64.and 
	local.get	11
	i64.const	56
	i64.shr_u
	i64.or  
	i64.or  
	i64.or  
	local.get	3
	i64.xor 
	local.get	9
	local.get	8
	call	gcm__bitwise__product_bitwise
	local.get	10
	i32.const	16
	i32.add 
	local.set	10
	local.get	6
	i64.load	24
	local.set	3
	local.get	6
	i64.load	16
	local.set	2
	local.get	7
	i64.const	-1
	i64.add 
	local.tee	7
	i64.const	0
	i64.ne  
	br_if   	0                               # 0: up to label19
.LBB10_3:                               # %gcm__single_blocks__hash_whole____165deadc48559e33_.exit
	end_loop
	end_block                               # label18:
	block   	
	local.get	5
	i64.const	15
	i64.and 
	local.tee	11
	i64.const	0
	i64.eq  
	br_if   	0                               # 0: down to label20
# %bb.4:                                # %join.3
	local.get	6
	i64.const	0
	i64.store	40
	local.get	6
	i64.const	0
	i64.store	32
	block   	
	block   	
	local.get	6
	i32.const	32
	i32.add 
	i64.extend_i32_u
	local.get	4
	local.get	5
	i32.wrap_i64
	local.tee	12
	i32.const	-16
	i32.and 
	i32.add 
	local.tee	10
	i64.extend_i32_u
	i64.sub 
	local.get	11
	i64.ge_u
	br_if   	0                               # 0: down to label22
# %bb.5:                                # %join.7.i.i.i.i.i.i.preheader
	local.get	6
	i32.const	32
	i32.add 
	local.get	10
	local.get	12
	i32.const	15
	i32.and 
	call	memcpy
	drop
	br      	1                               # 1: down to label21
.LBB10_6:                               # %apart.2.i.i.i.i.i.i
	end_block                               # label22:
	local.get	6
	i32.const	32
	i32.add 
	local.get	10
	local.get	11
	i32.wrap_i64
	call	memcpy
	drop
.LBB10_7:                               # %core__slice__edits__slice_T__copy_from_slice___i8_20_core__clone__U8Clone___.exit
	end_block                               # label21:
	local.get	6
	local.get	6
	i64.load	40
	local.tee	11
	i64.const	56
	i64.shl 
	local.get	11
	i64.const	65280
	i64.and 
	i64.const	40
	i64.shl 
	i64.or  
	local.get	11
	i64.const	16711680
	i64.and 
	i64.const	24
	i64.shl 
	local.get	11
	i64.const	4278190080
	i64.and 
	i64.const	8
	i64.shl 
	i64.or  
	i64.or  
	local.get	11
	i64.const	8
	i64.shr_u
	i64.const	4278190080
	i64.and 
	local.get	11
	i64.const	24
	i64.shr_u
	i64.const	16711680
	i64.and 
	i64.or  
	local.get	11
	i64.const	40
	i64.shr_u
	i64.const	65280
	i64.and 
	local.get	11
	i64.const	56
	i64.shr_u
	i64.or  
	i64.or  
	i64.or  
	local.get	2
	i64.xor 
	local.get	6
	i64.load	32
	local.tee	11
	i64.const	56
	i64.shl 
	local.get	11
	i64.const	65280
	i64.and 
	i64.const	40
	i64.shl 
	i64.or  
	local.get	11
	i64.const	16711680
	i64.and 
	i64.const	24
	i64.shl 
	local.get	11
	i64.const	4278190080
	i64.and 
	i64.const	8
	i64.shl 
	i64.or  
	i64.or  
	local.get	11
	i64.const	8
	i64.shr_u
	i64.const	4278190080
	i64.and 
	local.get	11
	i64.const	24
	i64.shr_u
	i64.const	16711680
	i64.and 
	i64.or  
	local.get	11
	i64.const	40
	i64.shr_u
	i64.const	65280
	i64.and 
	local.get	11
	i64.const	56
	i64.shr_u
	i64.or  
	i64.or  
	i64.or  
	local.get	3
	i64.xor 
	local.get	1
	i64.load	0
	local.get	1
	i64.load	8
	call	gcm__bitwise__product_bitwise
	local.get	6
	i64.load	8
	local.set	3
	local.get	6
	i64.load	0
	local.set	2
.LBB10_8:                               # %common.ret
	end_block                               # label20:
	local.get	0
	local.get	2
	i64.store	0
	local.get	0
	local.get	3
	i64.store	8
	local.get	6
	i32.const	48
	i32.add 
	global.set	__stack_pointer
                                        # fallthrough-return
	end_function
                                        # -- End function
	.section	.text.gcm__bitwise__product_bitwise,"",@
	.type	gcm__bitwise__product_bitwise,@function # -- Begin function gcm__bitwise__product_bitwise
gcm__bitwise__product_bitwise:          # @gcm__bitwise__product_bitwise
	.functype	gcm__bitwise__product_bitwise (i32, i64, i64, i64, i64) -> ()
	.local  	i32, i64, i64, i64, i64, i64, i64, i64
# %bb.0:                                # %start
	i32.const	128
	local.set	5
	i64.const	0
	local.set	6
	i64.const	0
	local.set	7
.LBB11_1:                               # %join.5
                                        # =>This Inner Loop Header: Depth=1
	loop    	                                # label23:
	local.get	1
	i64.const	62
	i64.shr_u
	local.set	8
	local.get	6
	local.get	2
	i64.const	63
	i64.shr_s
	local.tee	9
	local.get	3
	i64.and 
	i64.xor 
	local.get	2
	i64.const	1
	i64.shl 
	i64.const	63
	i64.shr_s
	local.tee	10
	local.get	3
	i64.const	1
	i64.shr_u
	local.get	4
	i64.const	63
	i64.shl 
	i64.or  
	local.tee	11
	i64.and 
	i64.xor 
	local.set	6
	local.get	3
	i64.const	62
	i64.shl 
	local.set	12
	local.get	7
	local.get	9
	local.get	4
	i64.and 
	i64.xor 
	local.get	10
	i64.const	0
	local.get	3
	i64.const	1
	i64.and 
	i64.sub 
	i64.const	-2233785415175766016
	i64.and 
	local.get	4
	i64.const	1
	i64.shr_u
	local.tee	3
	i64.xor 
	local.tee	4
	i64.and 
	i64.xor 
	local.set	7
	local.get	1
	i64.const	2
	i64.shl 
	local.set	1
	local.get	11
	i64.const	1
	i64.shr_u
	local.get	3
	i64.const	63
	i64.shl 
	i64.or  
	local.set	3
	local.get	12
	i64.const	63
	i64.shr_s
	i64.const	-2233785415175766016
	i64.and 
	local.get	4
	i64.const	1
	i64.shr_u
	i64.xor 
	local.set	4
	local.get	8
	local.get	2
	i64.const	2
	i64.shl 
	i64.or  
	local.set	2
	local.get	5
	i32.const	-2
	i32.add 
	local.tee	5
	br_if   	0                               # 0: up to label23
# %bb.2:                                # %after.1
	end_loop
	local.get	0
	local.get	6
	i64.store	0
	local.get	0
	local.get	7
	i64.store	8
                                        # fallthrough-return
	end_function
                                        # -- End function
	.section	.text.gcm__tags__hash_lengths____d9ba0fa9ccec4268_,"",@
	.type	gcm__tags__hash_lengths____d9ba0fa9ccec4268_,@function # -- Begin function gcm__tags__hash_lengths____d9ba0fa9ccec4268_
gcm__tags__hash_lengths____d9ba0fa9ccec4268_: # @gcm__tags__hash_lengths____d9ba0fa9ccec4268_
	.functype	gcm__tags__hash_lengths____d9ba0fa9ccec4268_ (i32, i32, i64, i64, i64, i64) -> ()
	.local  	i32
# %bb.0:                                # %start
	global.get	__stack_pointer
	i32.const	32
	i32.sub 
	local.tee	6
	global.set	__stack_pointer
	local.get	6
	i32.const	16
	i32.add 
	local.get	4
	local.get	5
	call	gcm__tags__lengths_of
	local.get	6
	local.get	6
	i64.load	24
	local.tee	5
	i64.const	56
	i64.shl 
	local.get	5
	i64.const	65280
	i64.and 
	i64.const	40
	i64.shl 
	i64.or  
	local.get	5
	i64.const	16711680
	i64.and 
	i64.const	24
	i64.shl 
	local.get	5
	i64.const	4278190080
	i64.and 
	i64.const	8
	i64.shl 
	i64.or  
	i64.or  
	local.get	5
	i64.const	8
	i64.shr_u
	i64.const	4278190080
	i64.and 
	local.get	5
	i64.const	24
	i64.shr_u
	i64.const	16711680
	i64.and 
	i64.or  
	local.get	5
	i64.const	40
	i64.shr_u
	i64.const	65280
	i64.and 
	local.get	5
	i64.const	56
	i64.shr_u
	i64.or  
	i64.or  
	i64.or  
	local.get	2
	i64.xor 
	local.get	6
	i64.load	16
	local.tee	5
	i64.const	56
	i64.shl 
	local.get	5
	i64.const	65280
	i64.and 
	i64.const	40
	i64.shl 
	i64.or  
	local.get	5
	i64.const	16711680
	i64.and 
	i64.const	24
	i64.shl 
	local.get	5
	i64.const	4278190080
	i64.and 
	i64.const	8
	i64.shl 
	i64.or  
	i64.or  
	local.get	5
	i64.const	8
	i64.shr_u
	i64.const	4278190080
	i64.and 
	local.get	5
	i64.const	24
	i64.shr_u
	i64.const	16711680
	i64.and 
	i64.or  
	local.get	5
	i64.const	40
	i64.shr_u
	i64.const	65280
	i64.and 
	local.get	5
	i64.const	56
	i64.shr_u
	i64.or  
	i64.or  
	i64.or  
	local.get	3
	i64.xor 
	local.get	1
	i32.load	0
	local.tee	1
	i64.load	8:p2align=0
	local.tee	5
	i64.const	56
	i64.shl 
	local.get	5
	i64.const	65280
	i64.and 
	i64.const	40
	i64.shl 
	i64.or  
	local.get	5
	i64.const	16711680
	i64.and 
	i64.const	24
	i64.shl 
	local.get	5
	i64.const	4278190080
	i64.and 
	i64.const	8
	i64.shl 
	i64.or  
	i64.or  
	local.get	5
	i64.const	8
	i64.shr_u
	i64.const	4278190080
	i64.and 
	local.get	5
	i64.const	24
	i64.shr_u
	i64.const	16711680
	i64.and 
	i64.or  
	local.get	5
	i64.const	40
	i64.shr_u
	i64.const	65280
	i64.and 
	local.get	5
	i64.const	56
	i64.shr_u
	i64.or  
	i64.or  
	i64.or  
	local.get	1
	i64.load	0:p2align=0
	local.tee	5
	i64.const	56
	i64.shl 
	local.get	5
	i64.const	65280
	i64.and 
	i64.const	40
	i64.shl 
	i64.or  
	local.get	5
	i64.const	16711680
	i64.and 
	i64.const	24
	i64.shl 
	local.get	5
	i64.const	4278190080
	i64.and 
	i64.const	8
	i64.shl 
	i64.or  
	i64.or  
	local.get	5
	i64.const	8
	i64.shr_u
	i64.const	4278190080
	i64.and 
	local.get	5
	i64.const	24
	i64.shr_u
	i64.const	16711680
	i64.and 
	i64.or  
	local.get	5
	i64.const	40
	i64.shr_u
	i64.const	65280
	i64.and 
	local.get	5
	i64.const	56
	i64.shr_u
	i64.or  
	i64.or  
	i64.or  
	call	gcm__bitwise__product_bitwise
	local.get	6
	i64.load	8
	local.set	5
	local.get	0
	local.get	6
	i64.load	0
	i64.store	0
	local.get	0
	local.get	5
	i64.store	8
	local.get	6
	i32.const	32
	i32.add 
	global.set	__stack_pointer
                                        # fallthrough-return
	end_function
                                        # -- End function
	.section	.text.gcm__tags__lengths_of,"",@
	.type	gcm__tags__lengths_of,@function # -- Begin function gcm__tags__lengths_of
gcm__tags__lengths_of:                  # @gcm__tags__lengths_of
	.functype	gcm__tags__lengths_of (i32, i64, i64) -> ()
# %bb.0:                                # %start
	local.get	0
	local.get	2
	i64.const	43
	i64.shl 
	i64.const	71776119061217280
	i64.and 
	local.get	2
	i64.const	59
	i64.shl 
	i64.or  
	local.get	2
	i64.const	27
	i64.shl 
	i64.const	280375465082880
	i64.and 
	i64.or  
	local.get	2
	i64.const	11
	i64.shl 
	i64.const	1095216660480
	i64.and 
	i64.or  
	local.get	2
	i64.const	5
	i64.shr_u
	i64.const	4278190080
	i64.and 
	i64.or  
	local.get	2
	i64.const	21
	i64.shr_u
	i64.const	16711680
	i64.and 
	i64.or  
	local.get	2
	i64.const	37
	i64.shr_u
	i64.const	65280
	i64.and 
	i64.or  
	local.get	2
	i64.const	53
	i64.shr_u
	i64.or  
	i64.store	8:p2align=0
	local.get	0
	local.get	1
	i64.const	43
	i64.shl 
	i64.const	71776119061217280
	i64.and 
	local.get	1
	i64.const	59
	i64.shl 
	i64.or  
	local.get	1
	i64.const	27
	i64.shl 
	i64.const	280375465082880
	i64.and 
	i64.or  
	local.get	1
	i64.const	11
	i64.shl 
	i64.const	1095216660480
	i64.and 
	i64.or  
	local.get	1
	i64.const	5
	i64.shr_u
	i64.const	4278190080
	i64.and 
	i64.or  
	local.get	1
	i64.const	21
	i64.shr_u
	i64.const	16711680
	i64.and 
	i64.or  
	local.get	1
	i64.const	37
	i64.shr_u
	i64.const	65280
	i64.and 
	i64.or  
	local.get	1
	i64.const	53
	i64.shr_u
	i64.or  
	i64.store	0:p2align=0
                                        # fallthrough-return
	end_function
                                        # -- End function
	.section	.text.aes_cipher__zeroize__stack__wipe_stack____512_,"",@
	.type	aes_cipher__zeroize__stack__wipe_stack____512_,@function # -- Begin function aes_cipher__zeroize__stack__wipe_stack____512_
aes_cipher__zeroize__stack__wipe_stack____512_: # @aes_cipher__zeroize__stack__wipe_stack____512_
	.functype	aes_cipher__zeroize__stack__wipe_stack____512_ () -> ()
	.local  	i32, i64
# %bb.0:                                # %start
	global.get	__stack_pointer
	i32.const	528
	i32.sub 
	local.tee	0
	global.set	__stack_pointer
	local.get	0
	i32.const	16
	i32.add 
	i32.const	0
	i32.const	512
	call	memset
	drop
	local.get	0
	i64.const	0
	i64.store	8
	#APP
	#NO_APP
	local.get	0
	i64.load	8
	local.set	1
	#APP
	#NO_APP
	block   	
	local.get	1
	i64.const	512
	i64.ge_u
	br_if   	0                               # 0: down to label24
# %bb.1:                                # %then.1
	local.get	0
	i32.const	16
	i32.add 
	local.get	1
	i32.wrap_i64
	i32.add 
	i64.load8_u	0
	local.set	1
	#APP
	#NO_APP
	local.get	0
	i64.load	8
	drop
	local.get	0
	local.get	1
	i64.store	8
	#APP
	#NO_APP
.LBB14_2:                               # %common.ret
	end_block                               # label24:
	local.get	0
	i32.const	528
	i32.add 
	global.set	__stack_pointer
                                        # fallthrough-return
	end_function
                                        # -- End function
	.section	.text.gcm__mode__BorrowedGcm__end____c01aad2b5fbc92b1_,"",@
	.type	gcm__mode__BorrowedGcm__end____c01aad2b5fbc92b1_,@function # -- Begin function gcm__mode__BorrowedGcm__end____c01aad2b5fbc92b1_
gcm__mode__BorrowedGcm__end____c01aad2b5fbc92b1_: # @gcm__mode__BorrowedGcm__end____c01aad2b5fbc92b1_
	.functype	gcm__mode__BorrowedGcm__end____c01aad2b5fbc92b1_ (i32, i32, i32, i32) -> (i32)
	.local  	i32, i64, i32
# %bb.0:                                # %start
	i32.const	1
	local.set	4
	block   	
	block   	
	local.get	1
	i32.const	24
	i32.add 
	i64.load	0
	local.tee	5
	i32.wrap_i64
	i32.const	0
	local.get	5
	i64.const	5
	i64.lt_u
	i32.select
	i32.const	255
	i32.and 
	local.tee	6
	i32.const	1
	i32.eq  
	br_if   	0                               # 0: down to label26
# %bb.1:                                # %start
	local.get	6
	local.get	2
	i32.const	255
	i32.and 
	i32.ne  
	br_if   	1                               # 1: down to label25
.LBB15_2:                               # %join.3
	end_block                               # label26:
	local.get	0
	local.get	1
	local.get	3
	call	gcm__mode__BorrowedGcm__put_tag_so_far____c01aad2b5fbc92b1_
	call	aes_cipher__zeroize__stack__wipe_stack____512_
	local.get	1
	call	gcm__message_state__MessageZeroize__zeroize
	i32.const	0
	local.set	4
.LBB15_3:                               # %return.4
	end_block                               # label25:
	local.get	4
                                        # fallthrough-return
	end_function
                                        # -- End function
	.section	.text.gcm__mode__BorrowedGcm__put_tag_so_far____c01aad2b5fbc92b1_,"",@
	.type	gcm__mode__BorrowedGcm__put_tag_so_far____c01aad2b5fbc92b1_,@function # -- Begin function gcm__mode__BorrowedGcm__put_tag_so_far____c01aad2b5fbc92b1_
gcm__mode__BorrowedGcm__put_tag_so_far____c01aad2b5fbc92b1_: # @gcm__mode__BorrowedGcm__put_tag_so_far____c01aad2b5fbc92b1_
	.functype	gcm__mode__BorrowedGcm__put_tag_so_far____c01aad2b5fbc92b1_ (i32, i32, i32) -> ()
	.local  	i32, i64
# %bb.0:                                # %start
	global.get	__stack_pointer
	i32.const	32
	i32.sub 
	local.tee	3
	global.set	__stack_pointer
	local.get	1
	i32.const	32
	i32.add 
	i64.load	0:p2align=0
	local.set	4
	local.get	2
	local.get	1
	i32.const	40
	i32.add 
	i64.load	0:p2align=0
	i64.store	8:p2align=0
	local.get	2
	local.get	4
	i64.store	0:p2align=0
	local.get	0
	i32.load	0:p2align=0
	local.get	0
	i64.load	8:p2align=0
	local.get	2
	i64.const	1
	call	aes_narrow__blocks__process_all_batches____f6c900d3ac1e47b9_
	call	aes_cipher__zeroize__stack__wipe_stack____1024_
	local.get	3
	i32.const	16
	i32.add 
	local.get	0
	local.get	1
	call	gcm__mode__BorrowedGcm__hash_so_far____c01aad2b5fbc92b1_
	local.get	3
	local.get	0
	i32.const	16
	i32.add 
	local.get	3
	i64.load	16
	local.get	3
	i64.load	24
	local.get	1
	i64.load	0
	local.tee	4
	i64.const	2305843009213693951
	local.get	4
	i64.const	2305843009213693951
	i64.lt_u
	i64.select
	local.get	1
	i32.const	8
	i32.add 
	i64.load	0
	local.tee	4
	i64.const	68719476704
	local.get	4
	i64.const	68719476704
	i64.lt_u
	i64.select
	call	gcm__tags__hash_lengths____d9ba0fa9ccec4268_
	local.get	3
	i64.load	0
	local.get	3
	i64.load	8
	local.get	2
	call	gcm__tags__add_masked
	local.get	3
	i32.const	32
	i32.add 
	global.set	__stack_pointer
                                        # fallthrough-return
	end_function
                                        # -- End function
	.section	.text.aes_narrow__blocks__process_all_batches____f6c900d3ac1e47b9_,"",@
	.type	aes_narrow__blocks__process_all_batches____f6c900d3ac1e47b9_,@function # -- Begin function aes_narrow__blocks__process_all_batches____f6c900d3ac1e47b9_
aes_narrow__blocks__process_all_batches____f6c900d3ac1e47b9_: # @aes_narrow__blocks__process_all_batches____f6c900d3ac1e47b9_
	.functype	aes_narrow__blocks__process_all_batches____f6c900d3ac1e47b9_ (i32, i64, i32, i64) -> ()
	.local  	i64, i64
# %bb.0:                                # %start
	i64.const	0
	local.set	4
.LBB17_1:                               # %join.5
                                        # =>This Inner Loop Header: Depth=1
	loop    	                                # label27:
	local.get	0
	local.get	1
	local.get	2
	local.get	4
	i32.wrap_i64
	i32.const	4
	i32.shl 
	i32.add 
	local.get	3
	local.get	4
	i64.sub 
	local.tee	5
	i64.const	2
	local.get	5
	i64.const	2
	i64.lt_u
	i64.select
	local.tee	5
	call	aes_soft__soft__blocks__filled_up__process_filled_up____f6c900d3ac1e47b9_
	local.get	5
	local.get	4
	i64.add 
	local.tee	4
	local.get	3
	i64.lt_u
	br_if   	0                               # 0: up to label27
# %bb.2:                                # %after.1
	end_loop
                                        # fallthrough-return
	end_function
                                        # -- End function
	.section	.text.aes_soft__soft__blocks__filled_up__process_filled_up____f6c900d3ac1e47b9_,"",@
	.type	aes_soft__soft__blocks__filled_up__process_filled_up____f6c900d3ac1e47b9_,@function # -- Begin function aes_soft__soft__blocks__filled_up__process_filled_up____f6c900d3ac1e47b9_
aes_soft__soft__blocks__filled_up__process_filled_up____f6c900d3ac1e47b9_: # @aes_soft__soft__blocks__filled_up__process_filled_up____f6c900d3ac1e47b9_
	.functype	aes_soft__soft__blocks__filled_up__process_filled_up____f6c900d3ac1e47b9_ (i32, i64, i32, i64) -> ()
	.local  	i32, i64, i64, i32
# %bb.0:                                # %start
	global.get	__stack_pointer
	i32.const	128
	i32.sub 
	local.tee	4
	global.set	__stack_pointer
	local.get	4
	i64.const	0
	i64.store	88
	local.get	4
	i64.const	0
	i64.store	80
	local.get	4
	i64.const	0
	i64.store	72
	local.get	4
	i64.const	0
	i64.store	64
	local.get	4
	i64.const	0
	i64.store	32
	local.get	4
	i64.const	0
	i64.store	40
	local.get	4
	i64.const	0
	i64.store	48
	local.get	4
	i64.const	0
	i64.store	56
	local.get	4
	i64.const	0
	i64.store	0
	local.get	4
	i64.const	0
	i64.store	8
	local.get	4
	i64.const	0
	i64.store	16
	local.get	4
	i64.const	0
	i64.store	24
	local.get	4
	local.get	2
	i64.load	0:p2align=0
	local.tee	5
	i64.store	96
	local.get	4
	local.get	2
	i64.load	8:p2align=0
	local.tee	6
	i64.store	104
	local.get	4
	local.get	6
	i64.store	120
	local.get	4
	local.get	5
	i64.store	112
	local.get	1
	i64.const	3
	i64.shr_u
	i64.const	-1
	i64.add 
	local.set	1
	block   	
	block   	
	local.get	3
	i64.const	0
	i64.eq  
	br_if   	0                               # 0: down to label29
# %bb.1:                                # %join.8.i
	local.get	4
	local.get	2
	i64.load	8:p2align=0
	i64.store	104
	local.get	4
	local.get	2
	i64.load	0:p2align=0
	i64.store	96
	local.get	3
	i64.const	1
	i64.eq  
	br_if   	0                               # 0: down to label29
# %bb.2:                                # %join.8.i.1
	local.get	4
	local.get	4
	i64.load	96
	i64.store	32
	local.get	4
	local.get	4
	i64.load	104
	i64.store	40
	local.get	4
	local.get	2
	i64.load	24:p2align=0
	local.tee	5
	i64.store	120
	local.get	4
	local.get	2
	i64.load	16:p2align=0
	local.tee	6
	i64.store	112
	local.get	4
	local.get	6
	i64.store	48
	local.get	4
	local.get	5
	i64.store	56
	br      	1                               # 1: down to label28
.LBB18_3:                               # %then.6.i
	end_block                               # label29:
	local.get	4
	local.get	4
	i64.load	120
	i64.store	56
	local.get	4
	local.get	4
	i64.load	112
	i64.store	48
	local.get	4
	local.get	4
	i64.load	104
	i64.store	40
	local.get	4
	local.get	4
	i64.load	96
	i64.store	32
.LBB18_4:                               # %aes_soft__soft__blocks__filled_up__filled_up____ee324ebdabaa1892_.exit
	end_block                               # label28:
	local.get	4
	local.get	0
	local.get	1
	local.get	4
	i32.const	32
	i32.add 
	call	aes_soft__soft__ciphers__planes__process_outlined____dc651273b304e77a_
	local.get	4
	local.get	4
	i64.load	24
	i64.store	88
	local.get	4
	local.get	4
	i64.load	16
	i64.store	80
	local.get	4
	local.get	4
	i64.load	8
	i64.store	72
	local.get	4
	local.get	4
	i64.load	0
	i64.store	64
	block   	
	local.get	3
	i64.eqz
	br_if   	0                               # 0: down to label30
# %bb.5:                                # %join.8.i22.preheader
	i64.const	0
	local.set	1
	block   	
	local.get	3
	i64.const	1
	i64.eq  
	local.tee	0
	br_if   	0                               # 0: down to label31
# %bb.6:                                # %join.8.i22.preheader.new
	i64.const	1
	i64.const	2
	local.get	0
	i64.select
	local.tee	1
	i64.const	1
	i64.and 
	local.set	5
	local.get	1
	i64.const	2
	i64.and 
	local.set	3
	i64.const	0
	local.set	1
	local.get	4
	i32.const	64
	i32.add 
	local.set	0
	local.get	2
	local.set	7
.LBB18_7:                               # %join.8.i22
                                        # =>This Inner Loop Header: Depth=1
	loop    	                                # label32:
	local.get	7
	local.get	0
	i64.load	8:p2align=0
	i64.store	8:p2align=0
	local.get	7
	local.get	0
	i64.load	0:p2align=0
	i64.store	0:p2align=0
	local.get	7
	i32.const	16
	i32.add 
	local.get	0
	i32.const	16
	i32.add 
	i64.load	0:p2align=0
	i64.store	0:p2align=0
	local.get	7
	i32.const	24
	i32.add 
	local.get	0
	i32.const	24
	i32.add 
	i64.load	0:p2align=0
	i64.store	0:p2align=0
	local.get	7
	i32.const	32
	i32.add 
	local.set	7
	local.get	0
	i32.const	32
	i32.add 
	local.set	0
	local.get	3
	local.get	1
	i64.const	2
	i64.add 
	local.tee	1
	i64.ne  
	br_if   	0                               # 0: up to label32
# %bb.8:                                # %aes_soft__soft__blocks__filled_up__copy_first____ee324ebdabaa1892_.exit.loopexit.unr-lcssa
	end_loop
	local.get	5
	i64.eqz
	br_if   	1                               # 1: down to label30
.LBB18_9:                               # %join.8.i22.epil.preheader
	end_block                               # label31:
	local.get	2
	local.get	1
	i32.wrap_i64
	i32.const	4
	i32.shl 
	local.tee	0
	i32.add 
	local.tee	7
	local.get	4
	i32.const	64
	i32.add 
	local.get	0
	i32.add 
	local.tee	0
	i64.load	8:p2align=0
	i64.store	8:p2align=0
	local.get	7
	local.get	0
	i64.load	0:p2align=0
	i64.store	0:p2align=0
.LBB18_10:                              # %aes_soft__soft__blocks__filled_up__copy_first____ee324ebdabaa1892_.exit
	end_block                               # label30:
	local.get	4
	i32.const	128
	i32.add 
	global.set	__stack_pointer
                                        # fallthrough-return
	end_function
                                        # -- End function
	.section	.text.aes_soft__soft__ciphers__planes__process_outlined____dc651273b304e77a_,"",@
	.type	aes_soft__soft__ciphers__planes__process_outlined____dc651273b304e77a_,@function # -- Begin function aes_soft__soft__ciphers__planes__process_outlined____dc651273b304e77a_
aes_soft__soft__ciphers__planes__process_outlined____dc651273b304e77a_: # @aes_soft__soft__ciphers__planes__process_outlined____dc651273b304e77a_
	.functype	aes_soft__soft__ciphers__planes__process_outlined____dc651273b304e77a_ (i32, i32, i64, i32) -> ()
	.local  	i32, i32, i32, i32, i32, i32, i32, i32, i32, i32, i32, i32, i32, i32, i32, i32, i64, i64, i32, i32, i32, i32, i32, i32, i32, i32, i32, i32, i32, i32, i32
# %bb.0:                                # %start
	global.get	__stack_pointer
	i32.const	96
	i32.sub 
	local.tee	4
	global.set	__stack_pointer
	local.get	3
	i32.load	28:p2align=0
	local.tee	5
	local.get	3
	i32.load	12:p2align=0
	local.tee	6
	i32.const	1
	i32.shr_u
	i32.xor 
	i32.const	1431655765
	i32.and 
	local.tee	7
	local.get	5
	i32.xor 
	local.tee	5
	local.get	3
	i32.load	24:p2align=0
	local.tee	8
	local.get	3
	i32.load	8:p2align=0
	local.tee	9
	i32.const	1
	i32.shr_u
	i32.xor 
	i32.const	1431655765
	i32.and 
	local.tee	10
	local.get	8
	i32.xor 
	local.tee	11
	i32.const	2
	i32.shr_u
	i32.xor 
	i32.const	858993459
	i32.and 
	local.tee	12
	local.get	5
	i32.xor 
	local.tee	5
	local.get	1
	i32.load	28
	i32.xor 
	local.get	5
	local.get	3
	i32.load	20:p2align=0
	local.tee	8
	local.get	3
	i32.load	4:p2align=0
	local.tee	13
	i32.const	1
	i32.shr_u
	i32.xor 
	i32.const	1431655765
	i32.and 
	local.tee	14
	local.get	8
	i32.xor 
	local.tee	8
	local.get	3
	i32.load	16:p2align=0
	local.tee	15
	local.get	3
	i32.load	0:p2align=0
	local.tee	3
	i32.const	1
	i32.shr_u
	i32.xor 
	i32.const	1431655765
	i32.and 
	local.tee	16
	local.get	15
	i32.xor 
	local.tee	15
	i32.const	2
	i32.shr_u
	i32.xor 
	i32.const	858993459
	i32.and 
	local.tee	17
	local.get	8
	i32.xor 
	local.tee	18
	i32.const	4
	i32.shr_u
	i32.xor 
	i32.const	252645135
	i32.and 
	local.tee	19
	i32.xor 
	local.set	5
	local.get	7
	i32.const	1
	i32.shl 
	local.get	6
	i32.xor 
	local.tee	6
	local.get	10
	i32.const	1
	i32.shl 
	local.get	9
	i32.xor 
	local.tee	7
	i32.const	2
	i32.shr_u
	i32.xor 
	i32.const	858993459
	i32.and 
	local.tee	9
	local.get	6
	i32.xor 
	local.tee	6
	local.get	1
	i32.load	24
	i32.xor 
	local.get	6
	local.get	14
	i32.const	1
	i32.shl 
	local.get	13
	i32.xor 
	local.tee	8
	local.get	16
	i32.const	1
	i32.shl 
	local.get	3
	i32.xor 
	local.tee	3
	i32.const	2
	i32.shr_u
	i32.xor 
	i32.const	858993459
	i32.and 
	local.tee	10
	local.get	8
	i32.xor 
	local.tee	13
	i32.const	4
	i32.shr_u
	i32.xor 
	i32.const	252645135
	i32.and 
	local.tee	6
	i32.xor 
	local.set	8
	local.get	12
	i32.const	2
	i32.shl 
	local.get	11
	i32.xor 
	local.tee	11
	local.get	1
	i32.load	20
	i32.xor 
	local.get	11
	local.get	17
	i32.const	2
	i32.shl 
	local.get	15
	i32.xor 
	local.tee	14
	i32.const	4
	i32.shr_u
	i32.xor 
	i32.const	252645135
	i32.and 
	local.tee	11
	i32.xor 
	local.set	12
	local.get	9
	i32.const	2
	i32.shl 
	local.get	7
	i32.xor 
	local.tee	7
	local.get	1
	i32.load	16
	i32.xor 
	local.get	7
	local.get	10
	i32.const	2
	i32.shl 
	local.get	3
	i32.xor 
	local.tee	3
	i32.const	4
	i32.shr_u
	i32.xor 
	i32.const	252645135
	i32.and 
	local.tee	15
	i32.xor 
	local.set	9
	local.get	19
	i32.const	4
	i32.shl 
	local.get	1
	i32.load	12
	i32.xor 
	local.get	18
	i32.xor 
	local.set	7
	local.get	6
	i32.const	4
	i32.shl 
	local.get	1
	i32.load	8
	i32.xor 
	local.get	13
	i32.xor 
	local.set	10
	local.get	11
	i32.const	4
	i32.shl 
	local.get	1
	i32.load	4
	i32.xor 
	local.get	14
	i32.xor 
	local.set	13
	local.get	15
	i32.const	4
	i32.shl 
	local.get	1
	i32.load	0
	i32.xor 
	local.get	3
	i32.xor 
	local.set	6
	block   	
	local.get	2
	i64.const	-2
	i64.add 
	local.tee	20
	i64.const	2
	i64.shr_u
	local.tee	21
	i64.eqz
	br_if   	0                               # 0: down to label33
# %bb.1:                                # %join.7.lr.ph.i
	local.get	1
	local.set	3
.LBB19_2:                               # %join.7.i
                                        # =>This Inner Loop Header: Depth=1
	loop    	                                # label34:
	local.get	4
	local.get	13
	local.get	5
	i32.xor 
	local.tee	11
	local.get	10
	local.get	9
	i32.xor 
	local.tee	15
	i32.xor 
	local.tee	16
	local.get	7
	i32.xor 
	local.tee	19
	local.get	8
	i32.xor 
	local.tee	22
	local.get	9
	local.get	5
	i32.xor 
	local.tee	17
	i32.xor 
	local.tee	7
	local.get	12
	local.get	8
	i32.xor 
	local.tee	14
	i32.xor 
	local.tee	12
	local.get	6
	local.get	14
	i32.xor 
	local.tee	8
	local.get	13
	i32.xor 
	local.tee	18
	local.get	8
	i32.and 
	i32.xor 
	local.get	12
	local.get	11
	i32.and 
	local.tee	23
	i32.xor 
	local.get	11
	i32.xor 
	local.get	7
	local.get	19
	local.get	10
	i32.xor 
	local.tee	13
	local.get	14
	i32.xor 
	local.tee	14
	i32.xor 
	local.tee	24
	local.get	15
	i32.and 
	local.get	7
	local.get	17
	i32.and 
	local.tee	25
	i32.xor 
	local.tee	26
	i32.xor 
	local.tee	19
	local.get	22
	local.get	13
	local.get	6
	i32.xor 
	local.tee	27
	local.get	18
	local.get	10
	local.get	5
	i32.xor 
	local.tee	10
	i32.xor 
	local.tee	28
	i32.and 
	i32.xor 
	local.get	13
	local.get	16
	i32.and 
	local.tee	29
	i32.xor 
	local.get	26
	i32.xor 
	local.tee	26
	i32.and 
	local.tee	22
	local.get	8
	local.get	9
	i32.xor 
	local.tee	30
	local.get	6
	i32.and 
	local.get	10
	i32.xor 
	local.get	14
	i32.xor 
	local.get	29
	i32.xor 
	local.get	14
	local.get	10
	i32.and 
	local.get	25
	i32.xor 
	local.tee	9
	i32.xor 
	local.tee	25
	i32.xor 
	local.get	12
	local.get	7
	local.get	6
	i32.xor 
	local.tee	29
	local.get	8
	local.get	5
	i32.xor 
	local.tee	31
	i32.and 
	i32.xor 
	local.get	23
	i32.xor 
	local.get	5
	i32.xor 
	local.get	9
	i32.xor 
	local.tee	5
	local.get	19
	i32.xor 
	i32.and 
	local.tee	9
	local.get	22
	i32.xor 
	local.get	5
	i32.and 
	local.tee	32
	local.get	19
	i32.xor 
	local.tee	19
	local.get	9
	local.get	5
	i32.xor 
	local.tee	9
	i32.xor 
	local.tee	23
	local.get	27
	i32.and 
	local.get	19
	local.get	13
	i32.and 
	local.tee	27
	i32.xor 
	local.get	32
	local.get	22
	local.get	5
	i32.xor 
	local.tee	5
	i32.xor 
	local.get	5
	local.get	26
	local.get	25
	i32.xor 
	local.tee	13
	i32.and 
	local.get	25
	i32.xor 
	local.tee	5
	i32.and 
	local.get	13
	i32.xor 
	local.tee	13
	local.get	5
	i32.xor 
	local.tee	25
	local.get	12
	i32.and 
	local.tee	26
	local.get	13
	local.get	8
	i32.and 
	i32.xor 
	local.tee	32
	i32.xor 
	local.get	13
	local.get	23
	i32.xor 
	local.tee	12
	local.get	5
	local.get	9
	i32.xor 
	local.tee	22
	i32.xor 
	local.tee	33
	local.get	15
	i32.and 
	local.get	22
	local.get	17
	i32.and 
	local.tee	15
	i32.xor 
	local.tee	17
	local.get	23
	local.get	28
	i32.and 
	i32.xor 
	local.tee	23
	local.get	19
	local.get	16
	i32.and 
	i32.xor 
	local.tee	16
	i32.xor 
	local.tee	8
	i32.store	16
	local.get	4
	local.get	8
	local.get	32
	local.get	33
	local.get	24
	i32.and 
	i32.xor 
	local.tee	19
	local.get	22
	local.get	7
	i32.and 
	i32.xor 
	local.tee	7
	i32.xor 
	local.tee	22
	i32.store	24
	local.get	4
	local.get	12
	local.get	10
	i32.and 
	local.get	15
	i32.xor 
	local.get	7
	i32.xor 
	local.get	12
	local.get	14
	i32.and 
	local.get	27
	local.get	9
	local.get	6
	i32.and 
	i32.xor 
	local.tee	6
	i32.xor 
	local.get	25
	local.get	11
	i32.and 
	local.tee	10
	i32.xor 
	local.get	19
	i32.xor 
	local.tee	11
	local.get	5
	local.get	31
	i32.and 
	i32.xor 
	local.tee	12
	i32.xor 
	local.tee	14
	i32.store	20
	local.get	4
	local.get	6
	local.get	5
	local.get	29
	i32.and 
	i32.xor 
	local.get	26
	i32.xor 
	local.tee	5
	local.get	13
	local.get	18
	i32.and 
	i32.xor 
	local.get	17
	i32.xor 
	local.tee	6
	local.get	11
	i32.xor 
	local.tee	11
	i32.store	4
	local.get	4
	local.get	16
	local.get	7
	i32.xor 
	local.tee	7
	i32.store	28
	local.get	4
	local.get	23
	local.get	9
	local.get	30
	i32.and 
	i32.xor 
	local.get	12
	i32.xor 
	local.tee	9
	i32.store	8
	local.get	4
	local.get	8
	local.get	5
	i32.xor 
	local.tee	5
	i32.store	12
	local.get	4
	local.get	6
	local.get	10
	i32.xor 
	local.tee	6
	i32.store	0
	local.get	4
	i32.const	32
	i32.add 
	local.get	4
	i32.const	1
	i32.const	1
	call	aes_planes__soft__word__word32__U32Word__rotate_planes
	local.get	4
	local.get	11
	local.get	4
	i32.load	36
	local.tee	10
	i32.xor 
	i32.store	36
	local.get	4
	local.get	6
	local.get	4
	i32.load	32
	local.tee	11
	i32.xor 
	i32.store	32
	local.get	4
	local.get	5
	local.get	4
	i32.load	44
	local.tee	6
	i32.xor 
	i32.store	44
	local.get	4
	local.get	9
	local.get	4
	i32.load	40
	local.tee	12
	i32.xor 
	i32.store	40
	local.get	4
	local.get	14
	local.get	4
	i32.load	52
	local.tee	9
	i32.xor 
	i32.store	52
	local.get	4
	local.get	8
	local.get	4
	i32.load	48
	local.tee	13
	i32.xor 
	i32.store	48
	local.get	4
	local.get	7
	local.get	4
	i32.load	60
	local.tee	8
	i32.xor 
	i32.store	60
	local.get	4
	local.get	22
	local.get	4
	i32.load	56
	local.tee	7
	i32.xor 
	i32.store	56
	local.get	4
	local.get	4
	i64.load	32:p2align=2
	i64.store	64
	local.get	4
	local.get	4
	i64.load	40:p2align=2
	i64.store	72
	local.get	4
	local.get	4
	i64.load	48:p2align=2
	i64.store	80
	local.get	4
	local.get	4
	i64.load	56:p2align=2
	i64.store	88
	local.get	4
	i32.load	76
	local.set	14
	local.get	4
	i32.load	80
	local.set	15
	local.get	4
	i32.load	72
	local.set	16
	local.get	4
	i32.load	68
	local.set	17
	local.get	4
	i32.load	64
	local.set	18
	local.get	4
	i32.load	92
	local.set	5
	local.get	4
	i32.load	84
	local.set	19
	local.get	4
	i32.load	88
	local.set	22
	local.get	4
	i32.const	32
	i32.add 
	local.get	4
	i32.const	64
	i32.add 
	i32.const	2
	i32.const	2
	call	aes_planes__soft__word__word32__U32Word__rotate_planes
	local.get	4
	local.get	8
	local.get	22
	local.get	4
	i32.load	60
	i32.xor 
	i32.xor 
	i32.store	60
	local.get	4
	local.get	7
	local.get	19
	local.get	4
	i32.load	56
	i32.xor 
	i32.xor 
	i32.store	56
	local.get	4
	local.get	5
	local.get	11
	local.get	4
	i32.load	32
	i32.xor 
	i32.xor 
	i32.store	32
	local.get	4
	local.get	5
	local.get	10
	local.get	18
	local.get	4
	i32.load	36
	i32.xor 
	i32.xor 
	i32.xor 
	i32.store	36
	local.get	4
	local.get	12
	local.get	17
	local.get	4
	i32.load	40
	i32.xor 
	i32.xor 
	i32.store	40
	local.get	4
	local.get	5
	local.get	6
	local.get	16
	local.get	4
	i32.load	44
	i32.xor 
	i32.xor 
	i32.xor 
	i32.store	44
	local.get	4
	local.get	9
	local.get	15
	local.get	4
	i32.load	52
	i32.xor 
	i32.xor 
	i32.store	52
	local.get	4
	local.get	5
	local.get	13
	local.get	14
	local.get	4
	i32.load	48
	i32.xor 
	i32.xor 
	i32.xor 
	i32.store	48
	local.get	4
	local.get	4
	i64.load	56:p2align=2
	i64.store	24
	local.get	4
	local.get	4
	i64.load	32:p2align=2
	i64.store	0
	local.get	4
	local.get	4
	i64.load	40:p2align=2
	i64.store	8
	local.get	4
	local.get	4
	i64.load	48:p2align=2
	i64.store	16
	local.get	4
	local.get	4
	i32.load	12
	local.get	3
	i32.const	44
	i32.add 
	i32.load	0
	i32.xor 
	local.get	4
	i32.load	28
	local.get	3
	i32.const	60
	i32.add 
	i32.load	0
	i32.xor 
	local.tee	5
	local.get	4
	i32.load	4
	local.get	3
	i32.const	36
	i32.add 
	i32.load	0
	i32.xor 
	local.tee	11
	i32.xor 
	local.tee	9
	local.get	4
	i32.load	16
	local.get	3
	i32.const	48
	i32.add 
	i32.load	0
	i32.xor 
	local.tee	14
	local.get	4
	i32.load	8
	local.get	3
	i32.const	40
	i32.add 
	i32.load	0
	i32.xor 
	local.tee	13
	i32.xor 
	local.tee	15
	i32.xor 
	local.tee	16
	i32.xor 
	local.tee	19
	local.get	4
	i32.load	24
	local.get	3
	i32.const	56
	i32.add 
	i32.load	0
	i32.xor 
	local.tee	7
	i32.xor 
	local.tee	22
	local.get	5
	local.get	14
	i32.xor 
	local.tee	17
	i32.xor 
	local.tee	6
	local.get	4
	i32.load	20
	local.get	3
	i32.const	52
	i32.add 
	i32.load	0
	i32.xor 
	local.get	7
	i32.xor 
	local.tee	12
	i32.xor 
	local.tee	10
	local.get	12
	local.get	4
	i32.load	0
	local.get	3
	i32.const	32
	i32.add 
	i32.load	0
	i32.xor 
	local.tee	7
	i32.xor 
	local.tee	8
	local.get	11
	i32.xor 
	local.tee	18
	local.get	8
	i32.and 
	i32.xor 
	local.get	10
	local.get	9
	i32.and 
	local.tee	23
	i32.xor 
	local.get	9
	i32.xor 
	local.get	6
	local.get	19
	local.get	13
	i32.xor 
	local.tee	11
	local.get	12
	i32.xor 
	local.tee	12
	i32.xor 
	local.tee	24
	local.get	15
	i32.and 
	local.get	6
	local.get	17
	i32.and 
	local.tee	25
	i32.xor 
	local.tee	26
	i32.xor 
	local.tee	19
	local.get	22
	local.get	11
	local.get	7
	i32.xor 
	local.tee	27
	local.get	18
	local.get	5
	local.get	13
	i32.xor 
	local.tee	13
	i32.xor 
	local.tee	28
	i32.and 
	i32.xor 
	local.get	11
	local.get	16
	i32.and 
	local.tee	29
	i32.xor 
	local.get	26
	i32.xor 
	local.tee	26
	i32.and 
	local.tee	22
	local.get	8
	local.get	14
	i32.xor 
	local.tee	30
	local.get	7
	i32.and 
	local.get	13
	i32.xor 
	local.get	12
	i32.xor 
	local.get	29
	i32.xor 
	local.get	12
	local.get	13
	i32.and 
	local.get	25
	i32.xor 
	local.tee	14
	i32.xor 
	local.tee	25
	i32.xor 
	local.get	10
	local.get	6
	local.get	7
	i32.xor 
	local.tee	29
	local.get	8
	local.get	5
	i32.xor 
	local.tee	31
	i32.and 
	i32.xor 
	local.get	23
	i32.xor 
	local.get	5
	i32.xor 
	local.get	14
	i32.xor 
	local.tee	5
	local.get	19
	i32.xor 
	i32.and 
	local.tee	14
	local.get	22
	i32.xor 
	local.get	5
	i32.and 
	local.tee	32
	local.get	19
	i32.xor 
	local.tee	19
	local.get	14
	local.get	5
	i32.xor 
	local.tee	14
	i32.xor 
	local.tee	23
	local.get	27
	i32.and 
	local.get	19
	local.get	11
	i32.and 
	local.tee	27
	i32.xor 
	local.get	32
	local.get	22
	local.get	5
	i32.xor 
	local.tee	5
	i32.xor 
	local.get	5
	local.get	26
	local.get	25
	i32.xor 
	local.tee	11
	i32.and 
	local.get	25
	i32.xor 
	local.tee	5
	i32.and 
	local.get	11
	i32.xor 
	local.tee	11
	local.get	5
	i32.xor 
	local.tee	25
	local.get	10
	i32.and 
	local.tee	26
	local.get	11
	local.get	8
	i32.and 
	i32.xor 
	local.tee	32
	i32.xor 
	local.get	11
	local.get	23
	i32.xor 
	local.tee	10
	local.get	5
	local.get	14
	i32.xor 
	local.tee	22
	i32.xor 
	local.tee	33
	local.get	15
	i32.and 
	local.get	22
	local.get	17
	i32.and 
	local.tee	15
	i32.xor 
	local.tee	17
	local.get	23
	local.get	28
	i32.and 
	i32.xor 
	local.tee	23
	local.get	19
	local.get	16
	i32.and 
	i32.xor 
	local.tee	16
	i32.xor 
	local.tee	8
	i32.store	16
	local.get	4
	local.get	8
	local.get	32
	local.get	33
	local.get	24
	i32.and 
	i32.xor 
	local.tee	19
	local.get	22
	local.get	6
	i32.and 
	i32.xor 
	local.tee	6
	i32.xor 
	local.tee	22
	i32.store	24
	local.get	4
	local.get	10
	local.get	13
	i32.and 
	local.get	15
	i32.xor 
	local.get	6
	i32.xor 
	local.get	10
	local.get	12
	i32.and 
	local.get	27
	local.get	14
	local.get	7
	i32.and 
	i32.xor 
	local.tee	7
	i32.xor 
	local.get	25
	local.get	9
	i32.and 
	local.tee	9
	i32.xor 
	local.get	19
	i32.xor 
	local.tee	10
	local.get	5
	local.get	31
	i32.and 
	i32.xor 
	local.tee	12
	i32.xor 
	local.tee	13
	i32.store	20
	local.get	4
	local.get	7
	local.get	5
	local.get	29
	i32.and 
	i32.xor 
	local.get	26
	i32.xor 
	local.tee	5
	local.get	11
	local.get	18
	i32.and 
	i32.xor 
	local.get	17
	i32.xor 
	local.tee	7
	local.get	10
	i32.xor 
	local.tee	10
	i32.store	4
	local.get	4
	local.get	16
	local.get	6
	i32.xor 
	local.tee	6
	i32.store	28
	local.get	4
	local.get	23
	local.get	14
	local.get	30
	i32.and 
	i32.xor 
	local.get	12
	i32.xor 
	local.tee	11
	i32.store	8
	local.get	4
	local.get	8
	local.get	5
	i32.xor 
	local.tee	5
	i32.store	12
	local.get	4
	local.get	7
	local.get	9
	i32.xor 
	local.tee	7
	i32.store	0
	local.get	4
	i32.const	32
	i32.add 
	local.get	4
	i32.const	1
	i32.const	2
	call	aes_planes__soft__word__word32__U32Word__rotate_planes
	local.get	4
	local.get	10
	local.get	4
	i32.load	36
	local.tee	9
	i32.xor 
	i32.store	36
	local.get	4
	local.get	7
	local.get	4
	i32.load	32
	local.tee	10
	i32.xor 
	i32.store	32
	local.get	4
	local.get	5
	local.get	4
	i32.load	44
	local.tee	7
	i32.xor 
	i32.store	44
	local.get	4
	local.get	11
	local.get	4
	i32.load	40
	local.tee	12
	i32.xor 
	i32.store	40
	local.get	4
	local.get	13
	local.get	4
	i32.load	52
	local.tee	11
	i32.xor 
	i32.store	52
	local.get	4
	local.get	8
	local.get	4
	i32.load	48
	local.tee	13
	i32.xor 
	i32.store	48
	local.get	4
	local.get	6
	local.get	4
	i32.load	60
	local.tee	8
	i32.xor 
	i32.store	60
	local.get	4
	local.get	22
	local.get	4
	i32.load	56
	local.tee	6
	i32.xor 
	i32.store	56
	local.get	4
	local.get	4
	i64.load	32:p2align=2
	i64.store	64
	local.get	4
	local.get	4
	i64.load	40:p2align=2
	i64.store	72
	local.get	4
	local.get	4
	i64.load	48:p2align=2
	i64.store	80
	local.get	4
	local.get	4
	i64.load	56:p2align=2
	i64.store	88
	local.get	4
	i32.load	76
	local.set	14
	local.get	4
	i32.load	80
	local.set	15
	local.get	4
	i32.load	72
	local.set	16
	local.get	4
	i32.load	68
	local.set	17
	local.get	4
	i32.load	64
	local.set	18
	local.get	4
	i32.load	92
	local.set	5
	local.get	4
	i32.load	84
	local.set	19
	local.get	4
	i32.load	88
	local.set	22
	local.get	4
	i32.const	32
	i32.add 
	local.get	4
	i32.const	64
	i32.add 
	i32.const	2
	i32.const	0
	call	aes_planes__soft__word__word32__U32Word__rotate_planes
	local.get	4
	local.get	8
	local.get	22
	local.get	4
	i32.load	60
	i32.xor 
	i32.xor 
	i32.store	60
	local.get	4
	local.get	6
	local.get	19
	local.get	4
	i32.load	56
	i32.xor 
	i32.xor 
	i32.store	56
	local.get	4
	local.get	5
	local.get	10
	local.get	4
	i32.load	32
	i32.xor 
	i32.xor 
	i32.store	32
	local.get	4
	local.get	5
	local.get	9
	local.get	18
	local.get	4
	i32.load	36
	i32.xor 
	i32.xor 
	i32.xor 
	i32.store	36
	local.get	4
	local.get	12
	local.get	17
	local.get	4
	i32.load	40
	i32.xor 
	i32.xor 
	i32.store	40
	local.get	4
	local.get	5
	local.get	7
	local.get	16
	local.get	4
	i32.load	44
	i32.xor 
	i32.xor 
	i32.xor 
	i32.store	44
	local.get	4
	local.get	11
	local.get	15
	local.get	4
	i32.load	52
	i32.xor 
	i32.xor 
	i32.store	52
	local.get	4
	local.get	5
	local.get	13
	local.get	14
	local.get	4
	i32.load	48
	i32.xor 
	i32.xor 
	i32.xor 
	i32.store	48
	local.get	4
	local.get	4
	i64.load	56:p2align=2
	i64.store	24
	local.get	4
	local.get	4
	i64.load	32:p2align=2
	i64.store	0
	local.get	4
	local.get	4
	i64.load	40:p2align=2
	i64.store	8
	local.get	4
	local.get	4
	i64.load	48:p2align=2
	i64.store	16
	local.get	4
	local.get	4
	i32.load	12
	local.get	3
	i32.const	76
	i32.add 
	i32.load	0
	i32.xor 
	local.get	4
	i32.load	28
	local.get	3
	i32.const	92
	i32.add 
	i32.load	0
	i32.xor 
	local.tee	5
	local.get	4
	i32.load	4
	local.get	3
	i32.const	68
	i32.add 
	i32.load	0
	i32.xor 
	local.tee	11
	i32.xor 
	local.tee	9
	local.get	4
	i32.load	16
	local.get	3
	i32.const	80
	i32.add 
	i32.load	0
	i32.xor 
	local.tee	14
	local.get	4
	i32.load	8
	local.get	3
	i32.const	72
	i32.add 
	i32.load	0
	i32.xor 
	local.tee	13
	i32.xor 
	local.tee	15
	i32.xor 
	local.tee	16
	i32.xor 
	local.tee	19
	local.get	4
	i32.load	24
	local.get	3
	i32.const	88
	i32.add 
	i32.load	0
	i32.xor 
	local.tee	7
	i32.xor 
	local.tee	22
	local.get	5
	local.get	14
	i32.xor 
	local.tee	17
	i32.xor 
	local.tee	6
	local.get	4
	i32.load	20
	local.get	3
	i32.const	84
	i32.add 
	i32.load	0
	i32.xor 
	local.get	7
	i32.xor 
	local.tee	12
	i32.xor 
	local.tee	10
	local.get	12
	local.get	4
	i32.load	0
	local.get	3
	i32.const	64
	i32.add 
	i32.load	0
	i32.xor 
	local.tee	7
	i32.xor 
	local.tee	8
	local.get	11
	i32.xor 
	local.tee	18
	local.get	8
	i32.and 
	i32.xor 
	local.get	10
	local.get	9
	i32.and 
	local.tee	23
	i32.xor 
	local.get	9
	i32.xor 
	local.get	6
	local.get	19
	local.get	13
	i32.xor 
	local.tee	11
	local.get	12
	i32.xor 
	local.tee	12
	i32.xor 
	local.tee	24
	local.get	15
	i32.and 
	local.get	6
	local.get	17
	i32.and 
	local.tee	25
	i32.xor 
	local.tee	26
	i32.xor 
	local.tee	19
	local.get	22
	local.get	11
	local.get	7
	i32.xor 
	local.tee	27
	local.get	18
	local.get	5
	local.get	13
	i32.xor 
	local.tee	13
	i32.xor 
	local.tee	28
	i32.and 
	i32.xor 
	local.get	11
	local.get	16
	i32.and 
	local.tee	29
	i32.xor 
	local.get	26
	i32.xor 
	local.tee	26
	i32.and 
	local.tee	22
	local.get	8
	local.get	14
	i32.xor 
	local.tee	30
	local.get	7
	i32.and 
	local.get	13
	i32.xor 
	local.get	12
	i32.xor 
	local.get	29
	i32.xor 
	local.get	12
	local.get	13
	i32.and 
	local.get	25
	i32.xor 
	local.tee	14
	i32.xor 
	local.tee	25
	i32.xor 
	local.get	10
	local.get	6
	local.get	7
	i32.xor 
	local.tee	29
	local.get	8
	local.get	5
	i32.xor 
	local.tee	31
	i32.and 
	i32.xor 
	local.get	23
	i32.xor 
	local.get	5
	i32.xor 
	local.get	14
	i32.xor 
	local.tee	5
	local.get	19
	i32.xor 
	i32.and 
	local.tee	14
	local.get	22
	i32.xor 
	local.get	5
	i32.and 
	local.tee	32
	local.get	19
	i32.xor 
	local.tee	19
	local.get	14
	local.get	5
	i32.xor 
	local.tee	14
	i32.xor 
	local.tee	23
	local.get	27
	i32.and 
	local.get	19
	local.get	11
	i32.and 
	local.tee	27
	i32.xor 
	local.get	32
	local.get	22
	local.get	5
	i32.xor 
	local.tee	5
	i32.xor 
	local.get	5
	local.get	26
	local.get	25
	i32.xor 
	local.tee	11
	i32.and 
	local.get	25
	i32.xor 
	local.tee	5
	i32.and 
	local.get	11
	i32.xor 
	local.tee	11
	local.get	5
	i32.xor 
	local.tee	25
	local.get	10
	i32.and 
	local.tee	26
	local.get	11
	local.get	8
	i32.and 
	i32.xor 
	local.tee	32
	i32.xor 
	local.get	11
	local.get	23
	i32.xor 
	local.tee	10
	local.get	5
	local.get	14
	i32.xor 
	local.tee	22
	i32.xor 
	local.tee	33
	local.get	15
	i32.and 
	local.get	22
	local.get	17
	i32.and 
	local.tee	15
	i32.xor 
	local.tee	17
	local.get	23
	local.get	28
	i32.and 
	i32.xor 
	local.tee	23
	local.get	19
	local.get	16
	i32.and 
	i32.xor 
	local.tee	16
	i32.xor 
	local.tee	8
	i32.store	16
	local.get	4
	local.get	8
	local.get	32
	local.get	33
	local.get	24
	i32.and 
	i32.xor 
	local.tee	19
	local.get	22
	local.get	6
	i32.and 
	i32.xor 
	local.tee	6
	i32.xor 
	local.tee	22
	i32.store	24
	local.get	4
	local.get	10
	local.get	13
	i32.and 
	local.get	15
	i32.xor 
	local.get	6
	i32.xor 
	local.get	10
	local.get	12
	i32.and 
	local.get	27
	local.get	14
	local.get	7
	i32.and 
	i32.xor 
	local.tee	7
	i32.xor 
	local.get	25
	local.get	9
	i32.and 
	local.tee	9
	i32.xor 
	local.get	19
	i32.xor 
	local.tee	10
	local.get	5
	local.get	31
	i32.and 
	i32.xor 
	local.tee	12
	i32.xor 
	local.tee	13
	i32.store	20
	local.get	4
	local.get	7
	local.get	5
	local.get	29
	i32.and 
	i32.xor 
	local.get	26
	i32.xor 
	local.tee	5
	local.get	11
	local.get	18
	i32.and 
	i32.xor 
	local.get	17
	i32.xor 
	local.tee	7
	local.get	10
	i32.xor 
	local.tee	10
	i32.store	4
	local.get	4
	local.get	16
	local.get	6
	i32.xor 
	local.tee	6
	i32.store	28
	local.get	4
	local.get	23
	local.get	14
	local.get	30
	i32.and 
	i32.xor 
	local.get	12
	i32.xor 
	local.tee	11
	i32.store	8
	local.get	4
	local.get	8
	local.get	5
	i32.xor 
	local.tee	5
	i32.store	12
	local.get	4
	local.get	7
	local.get	9
	i32.xor 
	local.tee	7
	i32.store	0
	local.get	4
	i32.const	32
	i32.add 
	local.get	4
	i32.const	1
	i32.const	3
	call	aes_planes__soft__word__word32__U32Word__rotate_planes
	local.get	4
	local.get	10
	local.get	4
	i32.load	36
	local.tee	9
	i32.xor 
	i32.store	36
	local.get	4
	local.get	7
	local.get	4
	i32.load	32
	local.tee	10
	i32.xor 
	i32.store	32
	local.get	4
	local.get	5
	local.get	4
	i32.load	44
	local.tee	7
	i32.xor 
	i32.store	44
	local.get	4
	local.get	11
	local.get	4
	i32.load	40
	local.tee	12
	i32.xor 
	i32.store	40
	local.get	4
	local.get	13
	local.get	4
	i32.load	52
	local.tee	11
	i32.xor 
	i32.store	52
	local.get	4
	local.get	8
	local.get	4
	i32.load	48
	local.tee	13
	i32.xor 
	i32.store	48
	local.get	4
	local.get	6
	local.get	4
	i32.load	60
	local.tee	8
	i32.xor 
	i32.store	60
	local.get	4
	local.get	22
	local.get	4
	i32.load	56
	local.tee	6
	i32.xor 
	i32.store	56
	local.get	4
	local.get	4
	i64.load	32:p2align=2
	i64.store	64
	local.get	4
	local.get	4
	i64.load	40:p2align=2
	i64.store	72
	local.get	4
	local.get	4
	i64.load	48:p2align=2
	i64.store	80
	local.get	4
	local.get	4
	i64.load	56:p2align=2
	i64.store	88
	local.get	4
	i32.load	76
	local.set	14
	local.get	4
	i32.load	80
	local.set	15
	local.get	4
	i32.load	72
	local.set	16
	local.get	4
	i32.load	68
	local.set	17
	local.get	4
	i32.load	64
	local.set	18
	local.get	4
	i32.load	92
	local.set	5
	local.get	4
	i32.load	84
	local.set	19
	local.get	4
	i32.load	88
	local.set	22
	local.get	4
	i32.const	32
	i32.add 
	local.get	4
	i32.const	64
	i32.add 
	i32.const	2
	i32.const	2
	call	aes_planes__soft__word__word32__U32Word__rotate_planes
	local.get	4
	local.get	8
	local.get	22
	local.get	4
	i32.load	60
	i32.xor 
	i32.xor 
	i32.store	60
	local.get	4
	local.get	6
	local.get	19
	local.get	4
	i32.load	56
	i32.xor 
	i32.xor 
	i32.store	56
	local.get	4
	local.get	5
	local.get	10
	local.get	4
	i32.load	32
	i32.xor 
	i32.xor 
	i32.store	32
	local.get	4
	local.get	5
	local.get	9
	local.get	18
	local.get	4
	i32.load	36
	i32.xor 
	i32.xor 
	i32.xor 
	i32.store	36
	local.get	4
	local.get	12
	local.get	17
	local.get	4
	i32.load	40
	i32.xor 
	i32.xor 
	i32.store	40
	local.get	4
	local.get	5
	local.get	7
	local.get	16
	local.get	4
	i32.load	44
	i32.xor 
	i32.xor 
	i32.xor 
	i32.store	44
	local.get	4
	local.get	11
	local.get	15
	local.get	4
	i32.load	52
	i32.xor 
	i32.xor 
	i32.store	52
	local.get	4
	local.get	5
	local.get	13
	local.get	14
	local.get	4
	i32.load	48
	i32.xor 
	i32.xor 
	i32.xor 
	i32.store	48
	local.get	4
	local.get	4
	i64.load	56:p2align=2
	i64.store	24
	local.get	4
	local.get	4
	i64.load	32:p2align=2
	i64.store	0
	local.get	4
	local.get	4
	i64.load	40:p2align=2
	i64.store	8
	local.get	4
	local.get	4
	i64.load	48:p2align=2
	i64.store	16
	local.get	4
	local.get	4
	i32.load	12
	local.get	3
	i32.const	108
	i32.add 
	i32.load	0
	i32.xor 
	local.get	4
	i32.load	28
	local.get	3
	i32.const	124
	i32.add 
	i32.load	0
	i32.xor 
	local.tee	5
	local.get	4
	i32.load	4
	local.get	3
	i32.const	100
	i32.add 
	i32.load	0
	i32.xor 
	local.tee	11
	i32.xor 
	local.tee	9
	local.get	4
	i32.load	16
	local.get	3
	i32.const	112
	i32.add 
	i32.load	0
	i32.xor 
	local.tee	14
	local.get	4
	i32.load	8
	local.get	3
	i32.const	104
	i32.add 
	i32.load	0
	i32.xor 
	local.tee	13
	i32.xor 
	local.tee	15
	i32.xor 
	local.tee	16
	i32.xor 
	local.tee	19
	local.get	4
	i32.load	24
	local.get	3
	i32.const	120
	i32.add 
	i32.load	0
	i32.xor 
	local.tee	7
	i32.xor 
	local.tee	22
	local.get	5
	local.get	14
	i32.xor 
	local.tee	17
	i32.xor 
	local.tee	6
	local.get	4
	i32.load	20
	local.get	3
	i32.const	116
	i32.add 
	i32.load	0
	i32.xor 
	local.get	7
	i32.xor 
	local.tee	12
	i32.xor 
	local.tee	10
	local.get	12
	local.get	4
	i32.load	0
	local.get	3
	i32.const	96
	i32.add 
	i32.load	0
	i32.xor 
	local.tee	7
	i32.xor 
	local.tee	8
	local.get	11
	i32.xor 
	local.tee	18
	local.get	8
	i32.and 
	i32.xor 
	local.get	10
	local.get	9
	i32.and 
	local.tee	23
	i32.xor 
	local.get	9
	i32.xor 
	local.get	6
	local.get	19
	local.get	13
	i32.xor 
	local.tee	11
	local.get	12
	i32.xor 
	local.tee	12
	i32.xor 
	local.tee	24
	local.get	15
	i32.and 
	local.get	6
	local.get	17
	i32.and 
	local.tee	25
	i32.xor 
	local.tee	26
	i32.xor 
	local.tee	19
	local.get	22
	local.get	11
	local.get	7
	i32.xor 
	local.tee	27
	local.get	18
	local.get	5
	local.get	13
	i32.xor 
	local.tee	13
	i32.xor 
	local.tee	28
	i32.and 
	i32.xor 
	local.get	11
	local.get	16
	i32.and 
	local.tee	29
	i32.xor 
	local.get	26
	i32.xor 
	local.tee	26
	i32.and 
	local.tee	22
	local.get	8
	local.get	14
	i32.xor 
	local.tee	30
	local.get	7
	i32.and 
	local.get	13
	i32.xor 
	local.get	12
	i32.xor 
	local.get	29
	i32.xor 
	local.get	12
	local.get	13
	i32.and 
	local.get	25
	i32.xor 
	local.tee	14
	i32.xor 
	local.tee	25
	i32.xor 
	local.get	10
	local.get	6
	local.get	7
	i32.xor 
	local.tee	29
	local.get	8
	local.get	5
	i32.xor 
	local.tee	31
	i32.and 
	i32.xor 
	local.get	23
	i32.xor 
	local.get	5
	i32.xor 
	local.get	14
	i32.xor 
	local.tee	5
	local.get	19
	i32.xor 
	i32.and 
	local.tee	14
	local.get	22
	i32.xor 
	local.get	5
	i32.and 
	local.tee	32
	local.get	19
	i32.xor 
	local.tee	19
	local.get	14
	local.get	5
	i32.xor 
	local.tee	14
	i32.xor 
	local.tee	23
	local.get	27
	i32.and 
	local.get	19
	local.get	11
	i32.and 
	local.tee	27
	i32.xor 
	local.get	32
	local.get	22
	local.get	5
	i32.xor 
	local.tee	5
	i32.xor 
	local.get	5
	local.get	26
	local.get	25
	i32.xor 
	local.tee	11
	i32.and 
	local.get	25
	i32.xor 
	local.tee	5
	i32.and 
	local.get	11
	i32.xor 
	local.tee	11
	local.get	5
	i32.xor 
	local.tee	25
	local.get	10
	i32.and 
	local.tee	26
	local.get	11
	local.get	8
	i32.and 
	i32.xor 
	local.tee	32
	i32.xor 
	local.get	11
	local.get	23
	i32.xor 
	local.tee	10
	local.get	5
	local.get	14
	i32.xor 
	local.tee	22
	i32.xor 
	local.tee	33
	local.get	15
	i32.and 
	local.get	22
	local.get	17
	i32.and 
	local.tee	15
	i32.xor 
	local.tee	17
	local.get	23
	local.get	28
	i32.and 
	i32.xor 
	local.tee	23
	local.get	19
	local.get	16
	i32.and 
	i32.xor 
	local.tee	16
	i32.xor 
	local.tee	8
	i32.store	16
	local.get	4
	local.get	8
	local.get	32
	local.get	33
	local.get	24
	i32.and 
	i32.xor 
	local.tee	19
	local.get	22
	local.get	6
	i32.and 
	i32.xor 
	local.tee	6
	i32.xor 
	local.tee	22
	i32.store	24
	local.get	4
	local.get	10
	local.get	13
	i32.and 
	local.get	15
	i32.xor 
	local.get	6
	i32.xor 
	local.get	10
	local.get	12
	i32.and 
	local.get	27
	local.get	14
	local.get	7
	i32.and 
	i32.xor 
	local.tee	7
	i32.xor 
	local.get	25
	local.get	9
	i32.and 
	local.tee	9
	i32.xor 
	local.get	19
	i32.xor 
	local.tee	10
	local.get	5
	local.get	31
	i32.and 
	i32.xor 
	local.tee	12
	i32.xor 
	local.tee	13
	i32.store	20
	local.get	4
	local.get	7
	local.get	5
	local.get	29
	i32.and 
	i32.xor 
	local.get	26
	i32.xor 
	local.tee	5
	local.get	11
	local.get	18
	i32.and 
	i32.xor 
	local.get	17
	i32.xor 
	local.tee	7
	local.get	10
	i32.xor 
	local.tee	10
	i32.store	4
	local.get	4
	local.get	16
	local.get	6
	i32.xor 
	local.tee	6
	i32.store	28
	local.get	4
	local.get	23
	local.get	14
	local.get	30
	i32.and 
	i32.xor 
	local.get	12
	i32.xor 
	local.tee	11
	i32.store	8
	local.get	4
	local.get	8
	local.get	5
	i32.xor 
	local.tee	5
	i32.store	12
	local.get	4
	local.get	7
	local.get	9
	i32.xor 
	local.tee	7
	i32.store	0
	local.get	4
	i32.const	32
	i32.add 
	local.get	4
	i32.const	1
	i32.const	0
	call	aes_planes__soft__word__word32__U32Word__rotate_planes
	local.get	4
	local.get	10
	local.get	4
	i32.load	36
	local.tee	9
	i32.xor 
	i32.store	36
	local.get	4
	local.get	7
	local.get	4
	i32.load	32
	local.tee	10
	i32.xor 
	i32.store	32
	local.get	4
	local.get	5
	local.get	4
	i32.load	44
	local.tee	7
	i32.xor 
	i32.store	44
	local.get	4
	local.get	11
	local.get	4
	i32.load	40
	local.tee	12
	i32.xor 
	i32.store	40
	local.get	4
	local.get	13
	local.get	4
	i32.load	52
	local.tee	11
	i32.xor 
	i32.store	52
	local.get	4
	local.get	8
	local.get	4
	i32.load	48
	local.tee	13
	i32.xor 
	i32.store	48
	local.get	4
	local.get	6
	local.get	4
	i32.load	60
	local.tee	8
	i32.xor 
	i32.store	60
	local.get	4
	local.get	22
	local.get	4
	i32.load	56
	local.tee	6
	i32.xor 
	i32.store	56
	local.get	4
	local.get	4
	i64.load	32:p2align=2
	i64.store	64
	local.get	4
	local.get	4
	i64.load	40:p2align=2
	i64.store	72
	local.get	4
	local.get	4
	i64.load	48:p2align=2
	i64.store	80
	local.get	4
	local.get	4
	i64.load	56:p2align=2
	i64.store	88
	local.get	4
	i32.load	76
	local.set	14
	local.get	4
	i32.load	80
	local.set	15
	local.get	4
	i32.load	72
	local.set	16
	local.get	4
	i32.load	68
	local.set	17
	local.get	4
	i32.load	64
	local.set	18
	local.get	4
	i32.load	92
	local.set	5
	local.get	4
	i32.load	84
	local.set	19
	local.get	4
	i32.load	88
	local.set	22
	local.get	4
	i32.const	32
	i32.add 
	local.get	4
	i32.const	64
	i32.add 
	i32.const	2
	i32.const	0
	call	aes_planes__soft__word__word32__U32Word__rotate_planes
	local.get	4
	local.get	8
	local.get	22
	local.get	4
	i32.load	60
	i32.xor 
	i32.xor 
	i32.store	60
	local.get	4
	local.get	6
	local.get	19
	local.get	4
	i32.load	56
	i32.xor 
	i32.xor 
	i32.store	56
	local.get	4
	local.get	5
	local.get	10
	local.get	4
	i32.load	32
	i32.xor 
	i32.xor 
	i32.store	32
	local.get	4
	local.get	5
	local.get	9
	local.get	18
	local.get	4
	i32.load	36
	i32.xor 
	i32.xor 
	i32.xor 
	i32.store	36
	local.get	4
	local.get	12
	local.get	17
	local.get	4
	i32.load	40
	i32.xor 
	i32.xor 
	i32.store	40
	local.get	4
	local.get	5
	local.get	7
	local.get	16
	local.get	4
	i32.load	44
	i32.xor 
	i32.xor 
	i32.xor 
	i32.store	44
	local.get	4
	local.get	11
	local.get	15
	local.get	4
	i32.load	52
	i32.xor 
	i32.xor 
	i32.store	52
	local.get	4
	local.get	5
	local.get	13
	local.get	14
	local.get	4
	i32.load	48
	i32.xor 
	i32.xor 
	i32.xor 
	i32.store	48
	local.get	4
	local.get	4
	i64.load	56:p2align=2
	i64.store	24
	local.get	4
	local.get	4
	i64.load	32:p2align=2
	i64.store	0
	local.get	4
	local.get	4
	i64.load	40:p2align=2
	i64.store	8
	local.get	4
	local.get	4
	i64.load	48:p2align=2
	i64.store	16
	local.get	3
	i32.const	128
	i32.add 
	local.tee	11
	i32.load	0
	local.set	6
	local.get	3
	i32.const	132
	i32.add 
	i32.load	0
	local.set	13
	local.get	3
	i32.const	136
	i32.add 
	i32.load	0
	local.set	10
	local.get	3
	i32.const	140
	i32.add 
	i32.load	0
	local.set	7
	local.get	3
	i32.const	144
	i32.add 
	i32.load	0
	local.set	9
	local.get	3
	i32.const	148
	i32.add 
	i32.load	0
	local.set	12
	local.get	3
	i32.const	152
	i32.add 
	i32.load	0
	local.set	8
	local.get	4
	i32.load	0
	local.set	14
	local.get	4
	i32.load	4
	local.set	15
	local.get	4
	i32.load	8
	local.set	16
	local.get	4
	i32.load	12
	local.set	17
	local.get	4
	i32.load	16
	local.set	18
	local.get	4
	i32.load	20
	local.set	19
	local.get	4
	i32.load	24
	local.set	22
	local.get	4
	local.get	4
	i32.load	28
	local.get	3
	i32.const	156
	i32.add 
	i32.load	0
	i32.xor 
	local.tee	5
	i32.store	28
	local.get	4
	local.get	22
	local.get	8
	i32.xor 
	local.tee	8
	i32.store	24
	local.get	4
	local.get	19
	local.get	12
	i32.xor 
	local.tee	12
	i32.store	20
	local.get	4
	local.get	18
	local.get	9
	i32.xor 
	local.tee	9
	i32.store	16
	local.get	4
	local.get	17
	local.get	7
	i32.xor 
	local.tee	7
	i32.store	12
	local.get	4
	local.get	16
	local.get	10
	i32.xor 
	local.tee	10
	i32.store	8
	local.get	4
	local.get	15
	local.get	13
	i32.xor 
	local.tee	13
	i32.store	4
	local.get	4
	local.get	14
	local.get	6
	i32.xor 
	local.tee	6
	i32.store	0
	local.get	11
	local.set	3
	local.get	21
	i64.const	-1
	i64.add 
	local.tee	21
	i64.const	0
	i64.ne  
	br_if   	0                               # 0: up to label34
.LBB19_3:                               # %after.3.i
	end_loop
	end_block                               # label33:
	local.get	4
	local.get	13
	local.get	5
	i32.xor 
	local.tee	11
	local.get	10
	local.get	9
	i32.xor 
	local.tee	14
	i32.xor 
	local.tee	15
	local.get	7
	i32.xor 
	local.tee	19
	local.get	8
	i32.xor 
	local.tee	22
	local.get	9
	local.get	5
	i32.xor 
	local.tee	16
	i32.xor 
	local.tee	3
	local.get	12
	local.get	8
	i32.xor 
	local.tee	17
	i32.xor 
	local.tee	8
	local.get	6
	local.get	17
	i32.xor 
	local.tee	7
	local.get	13
	i32.xor 
	local.tee	18
	local.get	7
	i32.and 
	i32.xor 
	local.get	8
	local.get	11
	i32.and 
	local.tee	25
	i32.xor 
	local.get	11
	i32.xor 
	local.get	3
	local.get	19
	local.get	10
	i32.xor 
	local.tee	12
	local.get	17
	i32.xor 
	local.tee	13
	i32.xor 
	local.tee	23
	local.get	14
	i32.and 
	local.get	3
	local.get	16
	i32.and 
	local.tee	24
	i32.xor 
	local.tee	19
	i32.xor 
	local.tee	17
	local.get	22
	local.get	12
	local.get	6
	i32.xor 
	local.tee	26
	local.get	18
	local.get	10
	local.get	5
	i32.xor 
	local.tee	10
	i32.xor 
	local.tee	27
	i32.and 
	i32.xor 
	local.get	12
	local.get	15
	i32.and 
	local.tee	22
	i32.xor 
	local.get	19
	i32.xor 
	local.tee	28
	i32.and 
	local.tee	19
	local.get	7
	local.get	9
	i32.xor 
	local.tee	29
	local.get	6
	i32.and 
	local.get	10
	i32.xor 
	local.get	13
	i32.xor 
	local.get	22
	i32.xor 
	local.get	13
	local.get	10
	i32.and 
	local.get	24
	i32.xor 
	local.tee	9
	i32.xor 
	local.tee	22
	i32.xor 
	local.get	8
	local.get	3
	local.get	6
	i32.xor 
	local.tee	24
	local.get	7
	local.get	5
	i32.xor 
	local.tee	30
	i32.and 
	i32.xor 
	local.get	25
	i32.xor 
	local.get	5
	i32.xor 
	local.get	9
	i32.xor 
	local.tee	5
	local.get	17
	i32.xor 
	i32.and 
	local.tee	9
	local.get	19
	i32.xor 
	local.get	5
	i32.and 
	local.tee	31
	local.get	17
	i32.xor 
	local.tee	17
	local.get	9
	local.get	5
	i32.xor 
	local.tee	9
	i32.xor 
	local.tee	25
	local.get	26
	i32.and 
	local.get	17
	local.get	12
	i32.and 
	local.tee	26
	i32.xor 
	local.get	31
	local.get	19
	local.get	5
	i32.xor 
	local.tee	5
	i32.xor 
	local.get	5
	local.get	28
	local.get	22
	i32.xor 
	local.tee	12
	i32.and 
	local.get	22
	i32.xor 
	local.tee	5
	i32.and 
	local.get	12
	i32.xor 
	local.tee	12
	local.get	5
	i32.xor 
	local.tee	22
	local.get	8
	i32.and 
	local.tee	28
	local.get	12
	local.get	7
	i32.and 
	i32.xor 
	local.tee	31
	i32.xor 
	local.get	12
	local.get	25
	i32.xor 
	local.tee	8
	local.get	5
	local.get	9
	i32.xor 
	local.tee	19
	i32.xor 
	local.tee	32
	local.get	14
	i32.and 
	local.get	19
	local.get	16
	i32.and 
	local.tee	14
	i32.xor 
	local.tee	16
	local.get	25
	local.get	27
	i32.and 
	i32.xor 
	local.tee	25
	local.get	17
	local.get	15
	i32.and 
	i32.xor 
	local.tee	15
	i32.xor 
	local.tee	7
	i32.store	16
	local.get	4
	local.get	7
	local.get	31
	local.get	32
	local.get	23
	i32.and 
	i32.xor 
	local.tee	17
	local.get	19
	local.get	3
	i32.and 
	i32.xor 
	local.tee	3
	i32.xor 
	local.tee	19
	i32.store	24
	local.get	4
	local.get	8
	local.get	10
	i32.and 
	local.get	14
	i32.xor 
	local.get	3
	i32.xor 
	local.get	8
	local.get	13
	i32.and 
	local.get	26
	local.get	9
	local.get	6
	i32.and 
	i32.xor 
	local.tee	6
	i32.xor 
	local.get	22
	local.get	11
	i32.and 
	local.tee	8
	i32.xor 
	local.get	17
	i32.xor 
	local.tee	10
	local.get	5
	local.get	30
	i32.and 
	i32.xor 
	local.tee	11
	i32.xor 
	local.tee	13
	i32.store	20
	local.get	4
	local.get	6
	local.get	5
	local.get	24
	i32.and 
	i32.xor 
	local.get	28
	i32.xor 
	local.tee	5
	local.get	12
	local.get	18
	i32.and 
	i32.xor 
	local.get	16
	i32.xor 
	local.tee	6
	local.get	10
	i32.xor 
	local.tee	10
	i32.store	4
	local.get	4
	local.get	15
	local.get	3
	i32.xor 
	local.tee	3
	i32.store	28
	local.get	4
	local.get	25
	local.get	9
	local.get	29
	i32.and 
	i32.xor 
	local.get	11
	i32.xor 
	local.tee	9
	i32.store	8
	local.get	4
	local.get	7
	local.get	5
	i32.xor 
	local.tee	5
	i32.store	12
	local.get	4
	local.get	6
	local.get	8
	i32.xor 
	local.tee	6
	i32.store	0
	local.get	4
	i32.const	32
	i32.add 
	local.get	4
	i32.const	1
	i32.const	1
	call	aes_planes__soft__word__word32__U32Word__rotate_planes
	local.get	4
	local.get	10
	local.get	4
	i32.load	36
	local.tee	8
	i32.xor 
	i32.store	36
	local.get	4
	local.get	6
	local.get	4
	i32.load	32
	local.tee	10
	i32.xor 
	i32.store	32
	local.get	4
	local.get	5
	local.get	4
	i32.load	44
	local.tee	6
	i32.xor 
	i32.store	44
	local.get	4
	local.get	9
	local.get	4
	i32.load	40
	local.tee	5
	i32.xor 
	i32.store	40
	local.get	4
	local.get	13
	local.get	4
	i32.load	52
	local.tee	9
	i32.xor 
	i32.store	52
	local.get	4
	local.get	7
	local.get	4
	i32.load	48
	local.tee	11
	i32.xor 
	i32.store	48
	local.get	4
	local.get	3
	local.get	4
	i32.load	60
	local.tee	7
	i32.xor 
	i32.store	60
	local.get	4
	local.get	19
	local.get	4
	i32.load	56
	local.tee	12
	i32.xor 
	i32.store	56
	local.get	4
	local.get	4
	i64.load	32:p2align=2
	i64.store	64
	local.get	4
	local.get	4
	i64.load	40:p2align=2
	i64.store	72
	local.get	4
	local.get	4
	i64.load	48:p2align=2
	i64.store	80
	local.get	4
	local.get	4
	i64.load	56:p2align=2
	i64.store	88
	local.get	4
	i32.load	76
	local.set	13
	local.get	4
	i32.load	80
	local.set	14
	local.get	4
	i32.load	72
	local.set	15
	local.get	4
	i32.load	68
	local.set	16
	local.get	4
	i32.load	64
	local.set	17
	local.get	4
	i32.load	92
	local.set	3
	local.get	4
	i32.load	84
	local.set	18
	local.get	4
	i32.load	88
	local.set	19
	local.get	4
	i32.const	32
	i32.add 
	local.get	4
	i32.const	64
	i32.add 
	i32.const	2
	i32.const	2
	call	aes_planes__soft__word__word32__U32Word__rotate_planes
	local.get	4
	local.get	7
	local.get	19
	local.get	4
	i32.load	60
	i32.xor 
	i32.xor 
	i32.store	60
	local.get	4
	local.get	12
	local.get	18
	local.get	4
	i32.load	56
	i32.xor 
	i32.xor 
	i32.store	56
	local.get	4
	local.get	3
	local.get	10
	local.get	4
	i32.load	32
	i32.xor 
	i32.xor 
	i32.store	32
	local.get	4
	local.get	3
	local.get	8
	local.get	17
	local.get	4
	i32.load	36
	i32.xor 
	i32.xor 
	i32.xor 
	i32.store	36
	local.get	4
	local.get	5
	local.get	16
	local.get	4
	i32.load	40
	i32.xor 
	i32.xor 
	i32.store	40
	local.get	4
	local.get	3
	local.get	6
	local.get	15
	local.get	4
	i32.load	44
	i32.xor 
	i32.xor 
	i32.xor 
	i32.store	44
	local.get	4
	local.get	9
	local.get	14
	local.get	4
	i32.load	52
	i32.xor 
	i32.xor 
	i32.store	52
	local.get	4
	local.get	3
	local.get	11
	local.get	13
	local.get	4
	i32.load	48
	i32.xor 
	i32.xor 
	i32.xor 
	i32.store	48
	local.get	4
	local.get	4
	i64.load	56:p2align=2
	i64.store	24
	local.get	4
	local.get	4
	i64.load	32:p2align=2
	i64.store	0
	local.get	4
	local.get	4
	i64.load	40:p2align=2
	i64.store	8
	local.get	4
	local.get	4
	i64.load	48:p2align=2
	i64.store	16
	local.get	4
	i32.load	28
	local.get	1
	local.get	20
	i64.const	-4
	i64.and 
	local.tee	21
	i32.wrap_i64
	i32.const	5
	i32.shl 
	i32.add 
	local.tee	3
	i32.load	60
	i32.xor 
	local.set	5
	local.get	4
	i32.load	24
	local.get	3
	i32.load	56
	i32.xor 
	local.set	9
	local.get	4
	i32.load	20
	local.get	3
	i32.load	52
	i32.xor 
	local.set	11
	local.get	4
	i32.load	16
	local.get	3
	i32.load	48
	i32.xor 
	local.set	7
	local.get	4
	i32.load	12
	local.get	3
	i32.load	44
	i32.xor 
	local.set	12
	local.get	4
	i32.load	8
	local.get	3
	i32.load	40
	i32.xor 
	local.set	8
	local.get	4
	i32.load	4
	local.get	3
	i32.load	36
	i32.xor 
	local.set	10
	local.get	4
	i32.load	0
	local.get	3
	i32.load	32
	i32.xor 
	local.set	6
	block   	
	block   	
	local.get	21
	i64.const	2
	i64.or  
	local.get	2
	i64.ge_u
	br_if   	0                               # 0: down to label36
# %bb.4:                                # %then.11.i
	local.get	4
	local.get	5
	local.get	10
	i32.xor 
	local.tee	13
	local.get	7
	local.get	8
	i32.xor 
	local.tee	14
	i32.xor 
	local.tee	15
	local.get	12
	i32.xor 
	local.tee	18
	local.get	9
	i32.xor 
	local.tee	19
	local.get	5
	local.get	7
	i32.xor 
	local.tee	16
	i32.xor 
	local.tee	3
	local.get	9
	local.get	11
	i32.xor 
	local.tee	12
	i32.xor 
	local.tee	11
	local.get	12
	local.get	6
	i32.xor 
	local.tee	9
	local.get	10
	i32.xor 
	local.tee	17
	local.get	9
	i32.and 
	i32.xor 
	local.get	11
	local.get	13
	i32.and 
	local.tee	25
	i32.xor 
	local.get	13
	i32.xor 
	local.get	3
	local.get	18
	local.get	8
	i32.xor 
	local.tee	10
	local.get	12
	i32.xor 
	local.tee	12
	i32.xor 
	local.tee	23
	local.get	14
	i32.and 
	local.get	3
	local.get	16
	i32.and 
	local.tee	22
	i32.xor 
	local.tee	24
	i32.xor 
	local.tee	18
	local.get	19
	local.get	10
	local.get	6
	i32.xor 
	local.tee	26
	local.get	17
	local.get	5
	local.get	8
	i32.xor 
	local.tee	8
	i32.xor 
	local.tee	27
	i32.and 
	i32.xor 
	local.get	10
	local.get	15
	i32.and 
	local.tee	28
	i32.xor 
	local.get	24
	i32.xor 
	local.tee	24
	i32.and 
	local.tee	19
	local.get	9
	local.get	7
	i32.xor 
	local.tee	29
	local.get	6
	i32.and 
	local.get	8
	i32.xor 
	local.get	12
	i32.xor 
	local.get	28
	i32.xor 
	local.get	12
	local.get	8
	i32.and 
	local.get	22
	i32.xor 
	local.tee	7
	i32.xor 
	local.tee	22
	i32.xor 
	local.get	11
	local.get	3
	local.get	6
	i32.xor 
	local.tee	28
	local.get	9
	local.get	5
	i32.xor 
	local.tee	30
	i32.and 
	i32.xor 
	local.get	25
	i32.xor 
	local.get	5
	i32.xor 
	local.get	7
	i32.xor 
	local.tee	5
	local.get	18
	i32.xor 
	i32.and 
	local.tee	7
	local.get	19
	i32.xor 
	local.get	5
	i32.and 
	local.tee	31
	local.get	18
	i32.xor 
	local.tee	18
	local.get	7
	local.get	5
	i32.xor 
	local.tee	7
	i32.xor 
	local.tee	25
	local.get	26
	i32.and 
	local.get	18
	local.get	10
	i32.and 
	local.tee	26
	i32.xor 
	local.get	31
	local.get	19
	local.get	5
	i32.xor 
	local.tee	5
	i32.xor 
	local.get	5
	local.get	24
	local.get	22
	i32.xor 
	local.tee	10
	i32.and 
	local.get	22
	i32.xor 
	local.tee	5
	i32.and 
	local.get	10
	i32.xor 
	local.tee	10
	local.get	5
	i32.xor 
	local.tee	22
	local.get	11
	i32.and 
	local.tee	24
	local.get	10
	local.get	9
	i32.and 
	i32.xor 
	local.tee	31
	i32.xor 
	local.get	10
	local.get	25
	i32.xor 
	local.tee	11
	local.get	5
	local.get	7
	i32.xor 
	local.tee	19
	i32.xor 
	local.tee	32
	local.get	14
	i32.and 
	local.get	19
	local.get	16
	i32.and 
	local.tee	14
	i32.xor 
	local.tee	16
	local.get	25
	local.get	27
	i32.and 
	i32.xor 
	local.tee	25
	local.get	18
	local.get	15
	i32.and 
	i32.xor 
	local.tee	15
	i32.xor 
	local.tee	9
	i32.store	16
	local.get	4
	local.get	9
	local.get	31
	local.get	32
	local.get	23
	i32.and 
	i32.xor 
	local.tee	18
	local.get	19
	local.get	3
	i32.and 
	i32.xor 
	local.tee	3
	i32.xor 
	local.tee	19
	i32.store	24
	local.get	4
	local.get	11
	local.get	8
	i32.and 
	local.get	14
	i32.xor 
	local.get	3
	i32.xor 
	local.get	11
	local.get	12
	i32.and 
	local.get	26
	local.get	7
	local.get	6
	i32.and 
	i32.xor 
	local.tee	6
	i32.xor 
	local.get	22
	local.get	13
	i32.and 
	local.tee	8
	i32.xor 
	local.get	18
	i32.xor 
	local.tee	11
	local.get	5
	local.get	30
	i32.and 
	i32.xor 
	local.tee	12
	i32.xor 
	local.tee	13
	i32.store	20
	local.get	4
	local.get	6
	local.get	5
	local.get	28
	i32.and 
	i32.xor 
	local.get	24
	i32.xor 
	local.tee	5
	local.get	10
	local.get	17
	i32.and 
	i32.xor 
	local.get	16
	i32.xor 
	local.tee	6
	local.get	11
	i32.xor 
	local.tee	10
	i32.store	4
	local.get	4
	local.get	15
	local.get	3
	i32.xor 
	local.tee	3
	i32.store	28
	local.get	4
	local.get	25
	local.get	7
	local.get	29
	i32.and 
	i32.xor 
	local.get	12
	i32.xor 
	local.tee	7
	i32.store	8
	local.get	4
	local.get	9
	local.get	5
	i32.xor 
	local.tee	5
	i32.store	12
	local.get	4
	local.get	6
	local.get	8
	i32.xor 
	local.tee	6
	i32.store	0
	local.get	4
	i32.const	32
	i32.add 
	local.get	4
	i32.const	1
	i32.const	2
	call	aes_planes__soft__word__word32__U32Word__rotate_planes
	local.get	4
	local.get	4
	i32.load	36
	local.tee	8
	local.get	10
	i32.xor 
	i32.store	36
	local.get	4
	local.get	4
	i32.load	32
	local.tee	10
	local.get	6
	i32.xor 
	i32.store	32
	local.get	4
	local.get	4
	i32.load	44
	local.tee	6
	local.get	5
	i32.xor 
	i32.store	44
	local.get	4
	local.get	4
	i32.load	40
	local.tee	5
	local.get	7
	i32.xor 
	i32.store	40
	local.get	4
	local.get	4
	i32.load	52
	local.tee	7
	local.get	13
	i32.xor 
	i32.store	52
	local.get	4
	local.get	4
	i32.load	48
	local.tee	11
	local.get	9
	i32.xor 
	i32.store	48
	local.get	4
	local.get	4
	i32.load	60
	local.tee	9
	local.get	3
	i32.xor 
	i32.store	60
	local.get	4
	local.get	4
	i32.load	56
	local.tee	12
	local.get	19
	i32.xor 
	i32.store	56
	local.get	4
	local.get	4
	i64.load	32:p2align=2
	i64.store	64
	local.get	4
	local.get	4
	i64.load	40:p2align=2
	i64.store	72
	local.get	4
	local.get	4
	i64.load	48:p2align=2
	i64.store	80
	local.get	4
	local.get	4
	i64.load	56:p2align=2
	i64.store	88
	local.get	4
	i32.load	76
	local.set	13
	local.get	4
	i32.load	80
	local.set	14
	local.get	4
	i32.load	72
	local.set	15
	local.get	4
	i32.load	68
	local.set	16
	local.get	4
	i32.load	64
	local.set	17
	local.get	4
	i32.load	92
	local.set	3
	local.get	4
	i32.load	84
	local.set	18
	local.get	4
	i32.load	88
	local.set	19
	local.get	4
	i32.const	32
	i32.add 
	local.get	4
	i32.const	64
	i32.add 
	i32.const	2
	i32.const	0
	call	aes_planes__soft__word__word32__U32Word__rotate_planes
	local.get	4
	local.get	9
	local.get	19
	local.get	4
	i32.load	60
	i32.xor 
	i32.xor 
	i32.store	60
	local.get	4
	local.get	12
	local.get	18
	local.get	4
	i32.load	56
	i32.xor 
	i32.xor 
	i32.store	56
	local.get	4
	local.get	3
	local.get	10
	local.get	4
	i32.load	32
	i32.xor 
	i32.xor 
	i32.store	32
	local.get	4
	local.get	3
	local.get	8
	local.get	17
	local.get	4
	i32.load	36
	i32.xor 
	i32.xor 
	i32.xor 
	i32.store	36
	local.get	4
	local.get	5
	local.get	16
	local.get	4
	i32.load	40
	i32.xor 
	i32.xor 
	i32.store	40
	local.get	4
	local.get	3
	local.get	6
	local.get	15
	local.get	4
	i32.load	44
	i32.xor 
	i32.xor 
	i32.xor 
	i32.store	44
	local.get	4
	local.get	7
	local.get	14
	local.get	4
	i32.load	52
	i32.xor 
	i32.xor 
	i32.store	52
	local.get	4
	local.get	3
	local.get	11
	local.get	13
	local.get	4
	i32.load	48
	i32.xor 
	i32.xor 
	i32.xor 
	i32.store	48
	local.get	4
	local.get	4
	i64.load	56:p2align=2
	i64.store	24
	local.get	4
	local.get	4
	i64.load	32:p2align=2
	i64.store	0
	local.get	4
	local.get	4
	i64.load	40:p2align=2
	i64.store	8
	local.get	4
	local.get	4
	i64.load	48:p2align=2
	i64.store	16
	local.get	4
	local.get	4
	i32.load	12
	local.get	1
	local.get	20
	i32.wrap_i64
	i32.const	5
	i32.shl 
	i32.add 
	local.tee	3
	i32.load	12
	i32.xor 
	local.get	4
	i32.load	28
	local.get	3
	i32.load	28
	i32.xor 
	local.tee	5
	local.get	4
	i32.load	4
	local.get	3
	i32.load	4
	i32.xor 
	local.tee	10
	i32.xor 
	local.tee	8
	local.get	4
	i32.load	16
	local.get	3
	i32.load	16
	i32.xor 
	local.tee	13
	local.get	4
	i32.load	8
	local.get	3
	i32.load	8
	i32.xor 
	local.tee	12
	i32.xor 
	local.tee	14
	i32.xor 
	local.tee	15
	i32.xor 
	local.tee	18
	local.get	4
	i32.load	24
	local.get	3
	i32.load	24
	i32.xor 
	local.tee	7
	i32.xor 
	local.tee	19
	local.get	5
	local.get	13
	i32.xor 
	local.tee	16
	i32.xor 
	local.tee	6
	local.get	4
	i32.load	20
	local.get	3
	i32.load	20
	i32.xor 
	local.get	7
	i32.xor 
	local.tee	11
	i32.xor 
	local.tee	9
	local.get	11
	local.get	4
	i32.load	0
	local.get	3
	i32.load	0
	i32.xor 
	local.tee	3
	i32.xor 
	local.tee	7
	local.get	10
	i32.xor 
	local.tee	17
	local.get	7
	i32.and 
	i32.xor 
	local.get	9
	local.get	8
	i32.and 
	local.tee	25
	i32.xor 
	local.get	8
	i32.xor 
	local.get	6
	local.get	18
	local.get	12
	i32.xor 
	local.tee	10
	local.get	11
	i32.xor 
	local.tee	11
	i32.xor 
	local.tee	23
	local.get	14
	i32.and 
	local.get	6
	local.get	16
	i32.and 
	local.tee	22
	i32.xor 
	local.tee	24
	i32.xor 
	local.tee	18
	local.get	19
	local.get	10
	local.get	3
	i32.xor 
	local.tee	26
	local.get	17
	local.get	5
	local.get	12
	i32.xor 
	local.tee	12
	i32.xor 
	local.tee	27
	i32.and 
	i32.xor 
	local.get	10
	local.get	15
	i32.and 
	local.tee	28
	i32.xor 
	local.get	24
	i32.xor 
	local.tee	24
	i32.and 
	local.tee	19
	local.get	7
	local.get	13
	i32.xor 
	local.tee	29
	local.get	3
	i32.and 
	local.get	12
	i32.xor 
	local.get	11
	i32.xor 
	local.get	28
	i32.xor 
	local.get	11
	local.get	12
	i32.and 
	local.get	22
	i32.xor 
	local.tee	13
	i32.xor 
	local.tee	22
	i32.xor 
	local.get	9
	local.get	6
	local.get	3
	i32.xor 
	local.tee	28
	local.get	7
	local.get	5
	i32.xor 
	local.tee	30
	i32.and 
	i32.xor 
	local.get	25
	i32.xor 
	local.get	5
	i32.xor 
	local.get	13
	i32.xor 
	local.tee	5
	local.get	18
	i32.xor 
	i32.and 
	local.tee	13
	local.get	19
	i32.xor 
	local.get	5
	i32.and 
	local.tee	31
	local.get	18
	i32.xor 
	local.tee	18
	local.get	13
	local.get	5
	i32.xor 
	local.tee	13
	i32.xor 
	local.tee	25
	local.get	26
	i32.and 
	local.get	18
	local.get	10
	i32.and 
	local.tee	26
	i32.xor 
	local.get	31
	local.get	19
	local.get	5
	i32.xor 
	local.tee	5
	i32.xor 
	local.get	5
	local.get	24
	local.get	22
	i32.xor 
	local.tee	10
	i32.and 
	local.get	22
	i32.xor 
	local.tee	5
	i32.and 
	local.get	10
	i32.xor 
	local.tee	10
	local.get	5
	i32.xor 
	local.tee	22
	local.get	9
	i32.and 
	local.tee	24
	local.get	10
	local.get	7
	i32.and 
	i32.xor 
	local.tee	31
	i32.xor 
	local.get	10
	local.get	25
	i32.xor 
	local.tee	9
	local.get	5
	local.get	13
	i32.xor 
	local.tee	19
	i32.xor 
	local.tee	32
	local.get	14
	i32.and 
	local.get	19
	local.get	16
	i32.and 
	local.tee	14
	i32.xor 
	local.tee	16
	local.get	25
	local.get	27
	i32.and 
	i32.xor 
	local.tee	25
	local.get	18
	local.get	15
	i32.and 
	i32.xor 
	local.tee	15
	i32.xor 
	local.tee	7
	i32.store	16
	local.get	4
	local.get	7
	local.get	31
	local.get	32
	local.get	23
	i32.and 
	i32.xor 
	local.tee	18
	local.get	19
	local.get	6
	i32.and 
	i32.xor 
	local.tee	6
	i32.xor 
	local.tee	19
	i32.store	24
	local.get	4
	local.get	9
	local.get	12
	i32.and 
	local.get	14
	i32.xor 
	local.get	6
	i32.xor 
	local.get	9
	local.get	11
	i32.and 
	local.get	26
	local.get	13
	local.get	3
	i32.and 
	i32.xor 
	local.tee	3
	i32.xor 
	local.get	22
	local.get	8
	i32.and 
	local.tee	8
	i32.xor 
	local.get	18
	i32.xor 
	local.tee	9
	local.get	5
	local.get	30
	i32.and 
	i32.xor 
	local.tee	11
	i32.xor 
	local.tee	12
	i32.store	20
	local.get	4
	local.get	3
	local.get	5
	local.get	28
	i32.and 
	i32.xor 
	local.get	24
	i32.xor 
	local.tee	3
	local.get	10
	local.get	17
	i32.and 
	i32.xor 
	local.get	16
	i32.xor 
	local.tee	5
	local.get	9
	i32.xor 
	local.tee	9
	i32.store	4
	local.get	4
	local.get	15
	local.get	6
	i32.xor 
	local.tee	6
	i32.store	28
	local.get	4
	local.get	25
	local.get	13
	local.get	29
	i32.and 
	i32.xor 
	local.get	11
	i32.xor 
	local.tee	10
	i32.store	8
	local.get	4
	local.get	7
	local.get	3
	i32.xor 
	local.tee	3
	i32.store	12
	local.get	4
	local.get	5
	local.get	8
	i32.xor 
	local.tee	5
	i32.store	0
	local.get	4
	i32.const	32
	i32.add 
	local.get	4
	i32.const	1
	i32.const	3
	call	aes_planes__soft__word__word32__U32Word__rotate_planes
	local.get	4
	local.get	9
	local.get	4
	i32.load	36
	local.tee	8
	i32.xor 
	i32.store	36
	local.get	4
	local.get	5
	local.get	4
	i32.load	32
	local.tee	9
	i32.xor 
	i32.store	32
	local.get	4
	local.get	3
	local.get	4
	i32.load	44
	local.tee	5
	i32.xor 
	i32.store	44
	local.get	4
	local.get	10
	local.get	4
	i32.load	40
	local.tee	11
	i32.xor 
	i32.store	40
	local.get	4
	local.get	12
	local.get	4
	i32.load	52
	local.tee	10
	i32.xor 
	i32.store	52
	local.get	4
	local.get	7
	local.get	4
	i32.load	48
	local.tee	12
	i32.xor 
	i32.store	48
	local.get	4
	local.get	6
	local.get	4
	i32.load	60
	local.tee	7
	i32.xor 
	i32.store	60
	local.get	4
	local.get	19
	local.get	4
	i32.load	56
	local.tee	6
	i32.xor 
	i32.store	56
	local.get	4
	local.get	4
	i64.load	32:p2align=2
	i64.store	64
	local.get	4
	local.get	4
	i64.load	40:p2align=2
	i64.store	72
	local.get	4
	local.get	4
	i64.load	48:p2align=2
	i64.store	80
	local.get	4
	local.get	4
	i64.load	56:p2align=2
	i64.store	88
	local.get	4
	i32.load	76
	local.set	13
	local.get	4
	i32.load	80
	local.set	14
	local.get	4
	i32.load	72
	local.set	15
	local.get	4
	i32.load	68
	local.set	16
	local.get	4
	i32.load	64
	local.set	17
	local.get	4
	i32.load	92
	local.set	3
	local.get	4
	i32.load	84
	local.set	18
	local.get	4
	i32.load	88
	local.set	19
	local.get	4
	i32.const	32
	i32.add 
	local.get	4
	i32.const	64
	i32.add 
	i32.const	2
	i32.const	2
	call	aes_planes__soft__word__word32__U32Word__rotate_planes
	local.get	4
	local.get	7
	local.get	19
	local.get	4
	i32.load	60
	i32.xor 
	i32.xor 
	i32.store	60
	local.get	4
	local.get	6
	local.get	18
	local.get	4
	i32.load	56
	i32.xor 
	i32.xor 
	i32.store	56
	local.get	4
	local.get	3
	local.get	9
	local.get	4
	i32.load	32
	i32.xor 
	i32.xor 
	i32.store	32
	local.get	4
	local.get	3
	local.get	8
	local.get	17
	local.get	4
	i32.load	36
	i32.xor 
	i32.xor 
	i32.xor 
	i32.store	36
	local.get	4
	local.get	11
	local.get	16
	local.get	4
	i32.load	40
	i32.xor 
	i32.xor 
	i32.store	40
	local.get	4
	local.get	3
	local.get	5
	local.get	15
	local.get	4
	i32.load	44
	i32.xor 
	i32.xor 
	i32.xor 
	i32.store	44
	local.get	4
	local.get	10
	local.get	14
	local.get	4
	i32.load	52
	i32.xor 
	i32.xor 
	i32.store	52
	local.get	4
	local.get	3
	local.get	12
	local.get	13
	local.get	4
	i32.load	48
	i32.xor 
	i32.xor 
	i32.xor 
	i32.store	48
	local.get	4
	local.get	4
	i64.load	56:p2align=2
	i64.store	24
	local.get	4
	local.get	4
	i64.load	32:p2align=2
	i64.store	0
	local.get	4
	local.get	4
	i64.load	40:p2align=2
	i64.store	8
	local.get	4
	local.get	4
	i64.load	48:p2align=2
	i64.store	16
	local.get	4
	i32.load	28
	local.get	1
	local.get	2
	i32.wrap_i64
	i32.const	5
	i32.shl 
	local.tee	23
	i32.add 
	local.tee	5
	i32.const	-4
	i32.add 
	i32.load	0
	i32.xor 
	local.set	3
	local.get	4
	i32.load	24
	local.get	5
	i32.const	-8
	i32.add 
	i32.load	0
	i32.xor 
	local.set	13
	local.get	4
	i32.load	20
	local.get	5
	i32.const	-12
	i32.add 
	i32.load	0
	i32.xor 
	local.set	11
	local.get	4
	i32.load	16
	local.get	5
	i32.const	-16
	i32.add 
	i32.load	0
	i32.xor 
	local.set	9
	local.get	4
	i32.load	12
	local.get	5
	i32.const	-20
	i32.add 
	i32.load	0
	i32.xor 
	local.set	7
	local.get	4
	i32.load	8
	local.get	5
	i32.const	-24
	i32.add 
	i32.load	0
	i32.xor 
	local.set	8
	local.get	4
	i32.load	4
	local.get	5
	i32.const	-28
	i32.add 
	i32.load	0
	i32.xor 
	local.set	12
	local.get	4
	i32.load	0
	local.get	5
	i32.const	-32
	i32.add 
	i32.load	0
	i32.xor 
	local.set	5
	br      	1                               # 1: down to label35
.LBB19_5:                               # %else.12.i
	end_block                               # label36:
	local.get	2
	i32.wrap_i64
	i32.const	5
	i32.shl 
	local.set	23
	local.get	5
	i32.const	4
	i32.shr_u
	local.get	5
	i32.xor 
	i32.const	251662080
	i32.and 
	i32.const	17
	i32.mul 
	local.get	5
	i32.xor 
	local.set	3
	local.get	9
	i32.const	4
	i32.shr_u
	local.get	9
	i32.xor 
	i32.const	251662080
	i32.and 
	i32.const	17
	i32.mul 
	local.get	9
	i32.xor 
	local.set	13
	local.get	11
	i32.const	4
	i32.shr_u
	local.get	11
	i32.xor 
	i32.const	251662080
	i32.and 
	i32.const	17
	i32.mul 
	local.get	11
	i32.xor 
	local.set	11
	local.get	7
	i32.const	4
	i32.shr_u
	local.get	7
	i32.xor 
	i32.const	251662080
	i32.and 
	i32.const	17
	i32.mul 
	local.get	7
	i32.xor 
	local.set	9
	local.get	12
	i32.const	4
	i32.shr_u
	local.get	12
	i32.xor 
	i32.const	251662080
	i32.and 
	i32.const	17
	i32.mul 
	local.get	12
	i32.xor 
	local.set	7
	local.get	8
	i32.const	4
	i32.shr_u
	local.get	8
	i32.xor 
	i32.const	251662080
	i32.and 
	i32.const	17
	i32.mul 
	local.get	8
	i32.xor 
	local.set	8
	local.get	10
	i32.const	4
	i32.shr_u
	local.get	10
	i32.xor 
	i32.const	251662080
	i32.and 
	i32.const	17
	i32.mul 
	local.get	10
	i32.xor 
	local.set	12
	local.get	6
	i32.const	4
	i32.shr_u
	local.get	6
	i32.xor 
	i32.const	251662080
	i32.and 
	i32.const	17
	i32.mul 
	local.get	6
	i32.xor 
	local.set	5
.LBB19_6:                               # %aes_soft__soft__ciphers__planes__EncryptPlaneCipher__process_planes____49ec3a76f5e72ccf_.exit
	end_block                               # label35:
	local.get	0
	local.get	3
	local.get	12
	i32.xor 
	local.tee	10
	local.get	9
	local.get	8
	i32.xor 
	local.tee	15
	i32.xor 
	local.tee	16
	local.get	7
	i32.xor 
	local.tee	14
	local.get	13
	i32.xor 
	local.tee	22
	local.get	3
	local.get	9
	i32.xor 
	local.tee	17
	i32.xor 
	local.tee	6
	local.get	13
	local.get	11
	i32.xor 
	local.tee	13
	i32.xor 
	local.tee	11
	local.get	13
	local.get	5
	i32.xor 
	local.tee	7
	local.get	12
	i32.xor 
	local.tee	18
	local.get	7
	i32.and 
	i32.xor 
	local.get	11
	local.get	10
	i32.and 
	local.tee	25
	i32.xor 
	local.get	10
	i32.xor 
	local.get	6
	local.get	14
	local.get	8
	i32.xor 
	local.tee	12
	local.get	13
	i32.xor 
	local.tee	13
	i32.xor 
	local.tee	24
	local.get	15
	i32.and 
	local.get	6
	local.get	17
	i32.and 
	local.tee	26
	i32.xor 
	local.tee	27
	i32.xor 
	local.tee	19
	local.get	22
	local.get	12
	local.get	5
	i32.xor 
	local.tee	28
	local.get	18
	local.get	3
	local.get	8
	i32.xor 
	local.tee	14
	i32.xor 
	local.tee	29
	i32.and 
	i32.xor 
	local.get	12
	local.get	16
	i32.and 
	local.tee	22
	i32.xor 
	local.get	27
	i32.xor 
	local.tee	27
	i32.and 
	local.tee	8
	local.get	7
	local.get	9
	i32.xor 
	local.tee	30
	local.get	5
	i32.and 
	local.get	14
	i32.xor 
	local.get	13
	i32.xor 
	local.get	22
	i32.xor 
	local.get	13
	local.get	14
	i32.and 
	local.get	26
	i32.xor 
	local.tee	22
	i32.xor 
	local.tee	9
	i32.xor 
	local.get	11
	local.get	6
	local.get	5
	i32.xor 
	local.tee	26
	local.get	7
	local.get	3
	i32.xor 
	local.tee	31
	i32.and 
	i32.xor 
	local.get	25
	i32.xor 
	local.get	3
	i32.xor 
	local.get	22
	i32.xor 
	local.tee	3
	local.get	19
	i32.xor 
	i32.and 
	local.tee	22
	local.get	8
	i32.xor 
	local.get	3
	i32.and 
	local.tee	25
	local.get	8
	local.get	3
	i32.xor 
	local.tee	8
	i32.xor 
	local.get	8
	local.get	27
	local.get	9
	i32.xor 
	local.tee	27
	i32.and 
	local.get	9
	i32.xor 
	local.tee	8
	i32.and 
	local.get	27
	i32.xor 
	local.tee	9
	local.get	8
	i32.xor 
	local.tee	27
	local.get	11
	i32.and 
	local.tee	32
	local.get	9
	local.get	7
	i32.and 
	i32.xor 
	local.tee	33
	local.get	9
	local.get	25
	local.get	19
	i32.xor 
	local.tee	11
	local.get	22
	local.get	3
	i32.xor 
	local.tee	7
	i32.xor 
	local.tee	19
	i32.xor 
	local.tee	22
	local.get	8
	local.get	7
	i32.xor 
	local.tee	25
	i32.xor 
	local.tee	34
	local.get	24
	i32.and 
	i32.xor 
	local.tee	24
	local.get	25
	local.get	6
	i32.and 
	i32.xor 
	local.tee	6
	local.get	1
	local.get	23
	i32.add 
	local.tee	3
	i32.load	28
	i32.xor 
	local.get	34
	local.get	15
	i32.and 
	local.get	25
	local.get	17
	i32.and 
	local.tee	15
	i32.xor 
	local.tee	17
	local.get	19
	local.get	29
	i32.and 
	i32.xor 
	local.tee	25
	local.get	11
	local.get	16
	i32.and 
	i32.xor 
	local.tee	16
	i32.xor 
	local.tee	23
	local.get	6
	local.get	3
	i32.load	24
	i32.xor 
	local.get	19
	local.get	28
	i32.and 
	local.get	11
	local.get	12
	i32.and 
	local.tee	12
	i32.xor 
	local.get	33
	i32.xor 
	local.get	16
	i32.xor 
	local.tee	11
	i32.xor 
	local.tee	16
	i32.const	1
	i32.shr_u
	i32.xor 
	i32.const	1431655765
	i32.and 
	local.tee	19
	local.get	23
	i32.xor 
	local.tee	23
	local.get	3
	i32.load	20
	local.get	22
	local.get	14
	i32.and 
	i32.xor 
	local.get	15
	i32.xor 
	local.get	6
	i32.xor 
	local.get	22
	local.get	13
	i32.and 
	local.get	12
	local.get	7
	local.get	5
	i32.and 
	i32.xor 
	local.tee	5
	i32.xor 
	local.get	27
	local.get	10
	i32.and 
	local.tee	6
	i32.xor 
	local.get	24
	i32.xor 
	local.tee	10
	local.get	8
	local.get	31
	i32.and 
	i32.xor 
	local.tee	12
	i32.xor 
	local.tee	13
	local.get	11
	local.get	3
	i32.load	16
	i32.xor 
	local.tee	14
	i32.const	1
	i32.shr_u
	i32.xor 
	i32.const	1431655765
	i32.and 
	local.tee	15
	local.get	13
	i32.xor 
	local.tee	13
	i32.const	2
	i32.shr_u
	i32.xor 
	i32.const	858993459
	i32.and 
	local.tee	22
	local.get	23
	i32.xor 
	local.tee	23
	local.get	5
	local.get	8
	local.get	26
	i32.and 
	i32.xor 
	local.get	32
	i32.xor 
	local.tee	5
	local.get	3
	i32.load	12
	i32.xor 
	local.get	11
	i32.xor 
	local.tee	8
	local.get	7
	local.get	30
	i32.and 
	local.get	3
	i32.load	8
	i32.xor 
	local.get	25
	i32.xor 
	local.get	12
	i32.xor 
	local.tee	7
	i32.const	1
	i32.shr_u
	i32.xor 
	i32.const	1431655765
	i32.and 
	local.tee	11
	local.get	8
	i32.xor 
	local.tee	8
	local.get	10
	local.get	3
	i32.load	4
	i32.xor 
	local.get	5
	local.get	9
	local.get	18
	i32.and 
	i32.xor 
	local.get	17
	i32.xor 
	local.tee	5
	i32.xor 
	local.tee	9
	local.get	6
	local.get	3
	i32.load	0
	i32.xor 
	local.get	5
	i32.xor 
	local.tee	3
	i32.const	1
	i32.shr_u
	i32.xor 
	i32.const	1431655765
	i32.and 
	local.tee	5
	local.get	9
	i32.xor 
	local.tee	6
	i32.const	2
	i32.shr_u
	i32.xor 
	i32.const	858993459
	i32.and 
	local.tee	9
	local.get	8
	i32.xor 
	local.tee	8
	i32.const	4
	i32.shr_u
	i32.xor 
	i32.const	252645135
	i32.and 
	local.tee	10
	local.get	23
	i32.xor 
	i32.store	28:p2align=0
	local.get	0
	local.get	22
	i32.const	2
	i32.shl 
	local.get	13
	i32.xor 
	local.tee	12
	local.get	9
	i32.const	2
	i32.shl 
	local.get	6
	i32.xor 
	local.tee	6
	i32.const	4
	i32.shr_u
	i32.xor 
	i32.const	252645135
	i32.and 
	local.tee	9
	local.get	12
	i32.xor 
	i32.store	24:p2align=0
	local.get	0
	local.get	10
	i32.const	4
	i32.shl 
	local.get	8
	i32.xor 
	i32.store	20:p2align=0
	local.get	0
	local.get	19
	i32.const	1
	i32.shl 
	local.get	16
	i32.xor 
	local.tee	8
	local.get	15
	i32.const	1
	i32.shl 
	local.get	14
	i32.xor 
	local.tee	10
	i32.const	2
	i32.shr_u
	i32.xor 
	i32.const	858993459
	i32.and 
	local.tee	12
	local.get	8
	i32.xor 
	local.tee	8
	local.get	11
	i32.const	1
	i32.shl 
	local.get	7
	i32.xor 
	local.tee	7
	local.get	5
	i32.const	1
	i32.shl 
	local.get	3
	i32.xor 
	local.tee	3
	i32.const	2
	i32.shr_u
	i32.xor 
	i32.const	858993459
	i32.and 
	local.tee	5
	local.get	7
	i32.xor 
	local.tee	7
	i32.const	4
	i32.shr_u
	i32.xor 
	i32.const	252645135
	i32.and 
	local.tee	11
	local.get	8
	i32.xor 
	i32.store	12:p2align=0
	local.get	0
	local.get	9
	i32.const	4
	i32.shl 
	local.get	6
	i32.xor 
	i32.store	16:p2align=0
	local.get	0
	local.get	12
	i32.const	2
	i32.shl 
	local.get	10
	i32.xor 
	local.tee	6
	local.get	5
	i32.const	2
	i32.shl 
	local.get	3
	i32.xor 
	local.tee	3
	i32.const	4
	i32.shr_u
	i32.xor 
	i32.const	252645135
	i32.and 
	local.tee	5
	local.get	6
	i32.xor 
	i32.store	8:p2align=0
	local.get	0
	local.get	11
	i32.const	4
	i32.shl 
	local.get	7
	i32.xor 
	i32.store	4:p2align=0
	local.get	0
	local.get	5
	i32.const	4
	i32.shl 
	local.get	3
	i32.xor 
	i32.store	0:p2align=0
	local.get	4
	i32.const	96
	i32.add 
	global.set	__stack_pointer
                                        # fallthrough-return
	end_function
                                        # -- End function
	.section	.text.aes_planes__soft__word__word32__U32Word__rotate_planes,"",@
	.type	aes_planes__soft__word__word32__U32Word__rotate_planes,@function # -- Begin function aes_planes__soft__word__word32__U32Word__rotate_planes
aes_planes__soft__word__word32__U32Word__rotate_planes: # @aes_planes__soft__word__word32__U32Word__rotate_planes
	.functype	aes_planes__soft__word__word32__U32Word__rotate_planes (i32, i32, i32, i32) -> ()
	.local  	i32, i32, i32, i32, i32, i32, i32
# %bb.0:                                # %start
	local.get	1
	i32.load	0
	local.get	2
	local.get	3
	call	aes_planes__soft__word__word32__U32Word__rotate_rows_and_columns
	local.set	4
	local.get	1
	i32.load	4
	local.get	2
	local.get	3
	call	aes_planes__soft__word__word32__U32Word__rotate_rows_and_columns
	local.set	5
	local.get	1
	i32.load	8
	local.get	2
	local.get	3
	call	aes_planes__soft__word__word32__U32Word__rotate_rows_and_columns
	local.set	6
	local.get	1
	i32.load	12
	local.get	2
	local.get	3
	call	aes_planes__soft__word__word32__U32Word__rotate_rows_and_columns
	local.set	7
	local.get	1
	i32.load	16
	local.get	2
	local.get	3
	call	aes_planes__soft__word__word32__U32Word__rotate_rows_and_columns
	local.set	8
	local.get	1
	i32.load	20
	local.get	2
	local.get	3
	call	aes_planes__soft__word__word32__U32Word__rotate_rows_and_columns
	local.set	9
	local.get	1
	i32.load	24
	local.get	2
	local.get	3
	call	aes_planes__soft__word__word32__U32Word__rotate_rows_and_columns
	local.set	10
	local.get	0
	local.get	1
	i32.load	28
	local.get	2
	local.get	3
	call	aes_planes__soft__word__word32__U32Word__rotate_rows_and_columns
	i32.store	28:p2align=0
	local.get	0
	local.get	10
	i32.store	24:p2align=0
	local.get	0
	local.get	9
	i32.store	20:p2align=0
	local.get	0
	local.get	8
	i32.store	16:p2align=0
	local.get	0
	local.get	7
	i32.store	12:p2align=0
	local.get	0
	local.get	6
	i32.store	8:p2align=0
	local.get	0
	local.get	5
	i32.store	4:p2align=0
	local.get	0
	local.get	4
	i32.store	0:p2align=0
                                        # fallthrough-return
	end_function
                                        # -- End function
	.section	.text.aes_planes__soft__word__word32__U32Word__rotate_rows_and_columns,"",@
	.type	aes_planes__soft__word__word32__U32Word__rotate_rows_and_columns,@function # -- Begin function aes_planes__soft__word__word32__U32Word__rotate_rows_and_columns
aes_planes__soft__word__word32__U32Word__rotate_rows_and_columns: # @aes_planes__soft__word__word32__U32Word__rotate_rows_and_columns
	.functype	aes_planes__soft__word__word32__U32Word__rotate_rows_and_columns (i32, i32, i32) -> (i32)
	.local  	i32
# %bb.0:                                # %start
	local.get	1
	i32.const	3
	i32.shl 
	local.set	1
	block   	
	local.get	2
	br_if   	0                               # 0: down to label37
# %bb.1:                                # %then.1.i
	local.get	0
	local.get	1
	i32.rotr
	return
.LBB21_2:                               # %join.3.i
	end_block                               # label37:
	local.get	0
	local.get	2
	i32.const	1
	i32.shl 
	local.tee	3
	local.get	1
	i32.or  
	i32.rotr
	local.get	0
	local.get	1
	local.get	3
	i32.add 
	i32.const	24
	i32.add 
	i32.rotr
	local.tee	0
	i32.xor 
	i32.const	30
	local.get	2
	i32.const	255
	i32.and 
	local.tee	2
	i32.shr_u
	i32.const	5
	i32.and 
	i32.const	60
	local.get	2
	i32.shr_u
	i32.const	16
	i32.and 
	i32.or  
	i32.const	50529027
	i32.mul 
	i32.and 
	local.get	0
	i32.xor 
                                        # fallthrough-return
	end_function
                                        # -- End function
	.section	.text.aes_cipher__zeroize__stack__wipe_stack____1024_,"",@
	.type	aes_cipher__zeroize__stack__wipe_stack____1024_,@function # -- Begin function aes_cipher__zeroize__stack__wipe_stack____1024_
aes_cipher__zeroize__stack__wipe_stack____1024_: # @aes_cipher__zeroize__stack__wipe_stack____1024_
	.functype	aes_cipher__zeroize__stack__wipe_stack____1024_ () -> ()
	.local  	i32, i64
# %bb.0:                                # %start
	global.get	__stack_pointer
	i32.const	1040
	i32.sub 
	local.tee	0
	global.set	__stack_pointer
	local.get	0
	i32.const	16
	i32.add 
	i32.const	0
	i32.const	1024
	call	memset
	drop
	local.get	0
	i64.const	0
	i64.store	8
	#APP
	#NO_APP
	local.get	0
	i64.load	8
	local.set	1
	#APP
	#NO_APP
	block   	
	local.get	1
	i64.const	1024
	i64.ge_u
	br_if   	0                               # 0: down to label38
# %bb.1:                                # %then.1
	local.get	0
	i32.const	16
	i32.add 
	local.get	1
	i32.wrap_i64
	i32.add 
	i64.load8_u	0
	local.set	1
	#APP
	#NO_APP
	local.get	0
	i64.load	8
	drop
	local.get	0
	local.get	1
	i64.store	8
	#APP
	#NO_APP
.LBB22_2:                               # %common.ret
	end_block                               # label38:
	local.get	0
	i32.const	1040
	i32.add 
	global.set	__stack_pointer
                                        # fallthrough-return
	end_function
                                        # -- End function
	.section	.text.gcm__mode__BorrowedGcm__hash_so_far____c01aad2b5fbc92b1_,"",@
	.type	gcm__mode__BorrowedGcm__hash_so_far____c01aad2b5fbc92b1_,@function # -- Begin function gcm__mode__BorrowedGcm__hash_so_far____c01aad2b5fbc92b1_
gcm__mode__BorrowedGcm__hash_so_far____c01aad2b5fbc92b1_: # @gcm__mode__BorrowedGcm__hash_so_far____c01aad2b5fbc92b1_
	.functype	gcm__mode__BorrowedGcm__hash_so_far____c01aad2b5fbc92b1_ (i32, i32, i32) -> ()
	.local  	i32, i64, i64, i64, i64
# %bb.0:                                # %start
	global.get	__stack_pointer
	i32.const	32
	i32.sub 
	local.tee	3
	global.set	__stack_pointer
	local.get	2
	i32.const	0
	i32.const	8
	local.get	2
	i32.const	24
	i32.add 
	i64.load	0
	i64.const	1
	i64.eq  
	i32.select
	i32.add 
	i64.load	0
	local.set	4
	local.get	2
	i32.const	56
	i32.add 
	i64.load	0
	local.set	5
	local.get	2
	i32.const	48
	i32.add 
	i64.load	0
	local.set	6
	local.get	3
	local.get	1
	i32.const	16
	i32.add 
	i32.load	0
	local.tee	1
	i64.load	0:p2align=0
	local.tee	7
	i64.const	56
	i64.shl 
	local.get	7
	i64.const	65280
	i64.and 
	i64.const	40
	i64.shl 
	i64.or  
	local.get	7
	i64.const	16711680
	i64.and 
	i64.const	24
	i64.shl 
	local.get	7
	i64.const	4278190080
	i64.and 
	i64.const	8
	i64.shl 
	i64.or  
	i64.or  
	local.get	7
	i64.const	8
	i64.shr_u
	i64.const	4278190080
	i64.and 
	local.get	7
	i64.const	24
	i64.shr_u
	i64.const	16711680
	i64.and 
	i64.or  
	local.get	7
	i64.const	40
	i64.shr_u
	i64.const	65280
	i64.and 
	local.get	7
	i64.const	56
	i64.shr_u
	i64.or  
	i64.or  
	i64.or  
	i64.store	24
	local.get	3
	local.get	1
	i64.load	8:p2align=0
	local.tee	7
	i64.const	56
	i64.shl 
	local.get	7
	i64.const	65280
	i64.and 
	i64.const	40
	i64.shl 
	i64.or  
	local.get	7
	i64.const	16711680
	i64.and 
	i64.const	24
	i64.shl 
	local.get	7
	i64.const	4278190080
	i64.and 
	i64.const	8
	i64.shl 
	i64.or  
	i64.or  
	local.get	7
	i64.const	8
	i64.shr_u
	i64.const	4278190080
	i64.and 
	local.get	7
	i64.const	24
	i64.shr_u
	i64.const	16711680
	i64.and 
	i64.or  
	local.get	7
	i64.const	40
	i64.shr_u
	i64.const	65280
	i64.and 
	local.get	7
	i64.const	56
	i64.shr_u
	i64.or  
	i64.or  
	i64.or  
	i64.store	16
	local.get	3
	local.get	3
	i32.const	16
	i32.add 
	local.get	5
	i64.const	56
	i64.shl 
	local.get	5
	i64.const	65280
	i64.and 
	i64.const	40
	i64.shl 
	i64.or  
	local.get	5
	i64.const	16711680
	i64.and 
	i64.const	24
	i64.shl 
	local.get	5
	i64.const	4278190080
	i64.and 
	i64.const	8
	i64.shl 
	i64.or  
	i64.or  
	local.get	5
	i64.const	8
	i64.shr_u
	i64.const	4278190080
	i64.and 
	local.get	5
	i64.const	24
	i64.shr_u
	i64.const	16711680
	i64.and 
	i64.or  
	local.get	5
	i64.const	40
	i64.shr_u
	i64.const	65280
	i64.and 
	local.get	5
	i64.const	56
	i64.shr_u
	i64.or  
	i64.or  
	i64.or  
	local.get	6
	i64.const	56
	i64.shl 
	local.get	6
	i64.const	65280
	i64.and 
	i64.const	40
	i64.shl 
	i64.or  
	local.get	6
	i64.const	16711680
	i64.and 
	i64.const	24
	i64.shl 
	local.get	6
	i64.const	4278190080
	i64.and 
	i64.const	8
	i64.shl 
	i64.or  
	i64.or  
	local.get	6
	i64.const	8
	i64.shr_u
	i64.const	4278190080
	i64.and 
	local.get	6
	i64.const	24
	i64.shr_u
	i64.const	16711680
	i64.and 
	i64.or  
	local.get	6
	i64.const	40
	i64.shr_u
	i64.const	65280
	i64.and 
	local.get	6
	i64.const	56
	i64.shr_u
	i64.or  
	i64.or  
	i64.or  
	local.get	2
	i32.const	64
	i32.add 
	local.get	4
	i64.const	15
	i64.and 
	call	gcm__single_blocks__hash_singly____165deadc48559e33_
	local.get	3
	i64.load	0
	local.set	5
	local.get	0
	local.get	3
	i64.load	8
	i64.store	8
	local.get	0
	local.get	5
	i64.store	0
	local.get	3
	i32.const	32
	i32.add 
	global.set	__stack_pointer
                                        # fallthrough-return
	end_function
                                        # -- End function
	.section	.text.gcm__tags__add_masked,"",@
	.type	gcm__tags__add_masked,@function # -- Begin function gcm__tags__add_masked
gcm__tags__add_masked:                  # @gcm__tags__add_masked
	.functype	gcm__tags__add_masked (i64, i64, i32) -> ()
	.local  	i32, i32
# %bb.0:                                # %start
	local.get	2
	local.get	2
	i32.load8_u	15
	local.get	0
	i32.wrap_i64
	local.tee	3
	i32.xor 
	i32.store8	15
	local.get	2
	local.get	2
	i32.load8_u	7
	local.get	1
	i32.wrap_i64
	local.tee	4
	i32.xor 
	i32.store8	7
	local.get	2
	local.get	2
	i32.load8_u	14
	local.get	3
	i32.const	8
	i32.shr_u
	i32.xor 
	i32.store8	14
	local.get	2
	local.get	2
	i32.load8_u	13
	local.get	3
	i32.const	16
	i32.shr_u
	i32.xor 
	i32.store8	13
	local.get	2
	local.get	2
	i32.load8_u	12
	local.get	3
	i32.const	24
	i32.shr_u
	i32.xor 
	i32.store8	12
	local.get	2
	local.get	2
	i32.load8_u	11
	local.get	0
	i64.const	32
	i64.shr_u
	i32.wrap_i64
	i32.xor 
	i32.store8	11
	local.get	2
	local.get	2
	i32.load8_u	10
	local.get	0
	i64.const	40
	i64.shr_u
	i32.wrap_i64
	i32.xor 
	i32.store8	10
	local.get	2
	local.get	2
	i32.load8_u	9
	local.get	0
	i64.const	48
	i64.shr_u
	i32.wrap_i64
	i32.xor 
	i32.store8	9
	local.get	2
	local.get	2
	i32.load8_u	8
	local.get	0
	i64.const	56
	i64.shr_u
	i32.wrap_i64
	i32.xor 
	i32.store8	8
	local.get	2
	local.get	2
	i32.load8_u	6
	local.get	4
	i32.const	8
	i32.shr_u
	i32.xor 
	i32.store8	6
	local.get	2
	local.get	2
	i32.load8_u	5
	local.get	4
	i32.const	16
	i32.shr_u
	i32.xor 
	i32.store8	5
	local.get	2
	local.get	2
	i32.load8_u	4
	local.get	4
	i32.const	24
	i32.shr_u
	i32.xor 
	i32.store8	4
	local.get	2
	local.get	2
	i32.load8_u	3
	local.get	1
	i64.const	32
	i64.shr_u
	i32.wrap_i64
	i32.xor 
	i32.store8	3
	local.get	2
	local.get	2
	i32.load8_u	2
	local.get	1
	i64.const	40
	i64.shr_u
	i32.wrap_i64
	i32.xor 
	i32.store8	2
	local.get	2
	local.get	2
	i32.load8_u	1
	local.get	1
	i64.const	48
	i64.shr_u
	i32.wrap_i64
	i32.xor 
	i32.store8	1
	local.get	2
	local.get	2
	i32.load8_u	0
	local.get	1
	i64.const	56
	i64.shr_u
	i32.wrap_i64
	i32.xor 
	i32.store8	0
                                        # fallthrough-return
	end_function
                                        # -- End function
	.section	.text.gcm__mode__put_subkey____107cc7d9d0728059_,"",@
	.type	gcm__mode__put_subkey____107cc7d9d0728059_,@function # -- Begin function gcm__mode__put_subkey____107cc7d9d0728059_
gcm__mode__put_subkey____107cc7d9d0728059_: # @gcm__mode__put_subkey____107cc7d9d0728059_
	.functype	gcm__mode__put_subkey____107cc7d9d0728059_ (i32, i32) -> ()
	.local  	i32, i64, i64, i64, i64, i64, i64, i32
# %bb.0:                                # %start
	global.get	__stack_pointer
	i32.const	16
	i32.sub 
	local.tee	2
	global.set	__stack_pointer
	local.get	2
	i64.const	0
	i64.store	8
	local.get	2
	i64.const	0
	i64.store	0
	local.get	0
	i32.load	0:p2align=0
	local.get	0
	i64.load	8:p2align=0
	local.get	2
	i64.const	1
	call	aes_narrow__blocks__process_all_batches____f6c900d3ac1e47b9_
	call	aes_cipher__zeroize__stack__wipe_stack____1024_
	local.get	1
	local.get	2
	i64.load	8
	local.tee	3
	i64.store8	8
	local.get	1
	local.get	2
	i64.load	0
	local.tee	4
	i64.store8	0
	local.get	1
	local.get	3
	i64.const	24
	i64.shr_u
	local.tee	5
	i64.store8	11
	local.get	1
	local.get	3
	i64.const	16
	i64.shr_u
	i64.store8	10
	local.get	1
	local.get	3
	i64.const	8
	i64.shr_u
	local.tee	6
	i64.store8	9
	local.get	1
	local.get	4
	i64.const	24
	i64.shr_u
	local.tee	7
	i64.store8	3
	local.get	1
	local.get	4
	i64.const	16
	i64.shr_u
	i64.store8	2
	local.get	1
	local.get	4
	i64.const	8
	i64.shr_u
	local.tee	8
	i64.store8	1
	local.get	1
	local.get	6
	i64.const	4278190080
	i64.and 
	local.get	5
	i64.const	16711680
	i64.and 
	i64.or  
	local.get	3
	i64.const	40
	i64.shr_u
	i64.const	65280
	i64.and 
	local.get	3
	i64.const	56
	i64.shr_u
	i64.or  
	i64.or  
	i32.wrap_i64
	local.tee	0
	i32.store8	15
	local.get	1
	local.get	8
	i64.const	4278190080
	i64.and 
	local.get	7
	i64.const	16711680
	i64.and 
	i64.or  
	local.get	4
	i64.const	40
	i64.shr_u
	i64.const	65280
	i64.and 
	local.get	4
	i64.const	56
	i64.shr_u
	i64.or  
	i64.or  
	i32.wrap_i64
	local.tee	9
	i32.store8	7
	local.get	1
	local.get	0
	i32.const	8
	i32.shr_u
	i32.store8	14
	local.get	1
	local.get	0
	i32.const	16
	i32.shr_u
	i32.store8	13
	local.get	1
	local.get	0
	i32.const	24
	i32.shr_u
	i32.store8	12
	local.get	1
	local.get	9
	i32.const	8
	i32.shr_u
	i32.store8	6
	local.get	1
	local.get	9
	i32.const	16
	i32.shr_u
	i32.store8	5
	local.get	1
	local.get	9
	i32.const	24
	i32.shr_u
	i32.store8	4
	local.get	2
	call	aes_cipher__zeroize__elements__zeroize_elements____3b2097f0eef5a37b_
	local.get	2
	i32.const	16
	i32.add 
	global.set	__stack_pointer
                                        # fallthrough-return
	end_function
                                        # -- End function
	.section	.text.gcm__mode__BorrowedGcm__compare____c01aad2b5fbc92b1_,"",@
	.type	gcm__mode__BorrowedGcm__compare____c01aad2b5fbc92b1_,@function # -- Begin function gcm__mode__BorrowedGcm__compare____c01aad2b5fbc92b1_
gcm__mode__BorrowedGcm__compare____c01aad2b5fbc92b1_: # @gcm__mode__BorrowedGcm__compare____c01aad2b5fbc92b1_
	.functype	gcm__mode__BorrowedGcm__compare____c01aad2b5fbc92b1_ (i32, i32, i64, i32, i64, i32, i64, i32, i32) -> (i32)
	.local  	i32
# %bb.0:                                # %start
	global.get	__stack_pointer
	i32.const	16
	i32.sub 
	local.tee	9
	global.set	__stack_pointer
	block   	
	block   	
	local.get	2
	i64.eqz
	i32.eqz
	br_if   	0                               # 0: down to label40
# %bb.1:
	i32.const	1
	local.set	8
	br      	1                               # 1: down to label39
.LBB26_2:                               # %else.7
	end_block                               # label40:
	local.get	0
	local.get	1
	local.get	2
	local.get	8
	call	gcm__mode__BorrowedGcm__put_pre_counter____c01aad2b5fbc92b1_
	local.get	0
	local.get	8
	local.get	3
	local.get	4
	local.get	5
	local.get	6
	local.get	9
	call	gcm__mode__BorrowedGcm__put_tag____c01aad2b5fbc92b1_
	local.get	7
	local.get	9
	call	aes_cipher__blocks__difference
	i32.const	0
	i32.ne  
	local.set	8
	local.get	9
	call	aes_cipher__zeroize__elements__zeroize_elements____3b2097f0eef5a37b_
.LBB26_3:                               # %return.13
	end_block                               # label39:
	local.get	9
	i32.const	16
	i32.add 
	global.set	__stack_pointer
	local.get	8
                                        # fallthrough-return
	end_function
                                        # -- End function
	.section	.text.gcm__mode__BorrowedGcm__put_tag____c01aad2b5fbc92b1_,"",@
	.type	gcm__mode__BorrowedGcm__put_tag____c01aad2b5fbc92b1_,@function # -- Begin function gcm__mode__BorrowedGcm__put_tag____c01aad2b5fbc92b1_
gcm__mode__BorrowedGcm__put_tag____c01aad2b5fbc92b1_: # @gcm__mode__BorrowedGcm__put_tag____c01aad2b5fbc92b1_
	.functype	gcm__mode__BorrowedGcm__put_tag____c01aad2b5fbc92b1_ (i32, i32, i32, i64, i32, i64, i32) -> ()
	.local  	i32, i64, i64, i64, i64, i64
# %bb.0:                                # %start
	global.get	__stack_pointer
	i32.const	80
	i32.sub 
	local.tee	7
	global.set	__stack_pointer
	local.get	1
	i64.load	0:p2align=0
	local.set	8
	local.get	6
	local.get	1
	i64.load	8:p2align=0
	i64.store	8:p2align=0
	local.get	6
	local.get	8
	i64.store	0:p2align=0
	local.get	0
	i32.load	0:p2align=0
	local.get	0
	i64.load	8:p2align=0
	local.get	6
	i64.const	1
	call	aes_narrow__blocks__process_all_batches____f6c900d3ac1e47b9_
	call	aes_cipher__zeroize__stack__wipe_stack____1024_
	local.get	7
	local.get	0
	i32.const	16
	i32.add 
	local.tee	0
	i32.load	0
	local.tee	1
	i64.load	0:p2align=0
	local.tee	8
	i64.const	56
	i64.shl 
	local.get	8
	i64.const	65280
	i64.and 
	i64.const	40
	i64.shl 
	i64.or  
	local.get	8
	i64.const	16711680
	i64.and 
	i64.const	24
	i64.shl 
	local.get	8
	i64.const	4278190080
	i64.and 
	i64.const	8
	i64.shl 
	i64.or  
	i64.or  
	local.get	8
	i64.const	8
	i64.shr_u
	i64.const	4278190080
	i64.and 
	local.get	8
	i64.const	24
	i64.shr_u
	i64.const	16711680
	i64.and 
	i64.or  
	local.get	8
	i64.const	40
	i64.shr_u
	i64.const	65280
	i64.and 
	local.get	8
	i64.const	56
	i64.shr_u
	i64.or  
	i64.or  
	i64.or  
	i64.store	72
	local.get	7
	local.get	1
	i64.load	8:p2align=0
	local.tee	8
	i64.const	56
	i64.shl 
	local.get	8
	i64.const	65280
	i64.and 
	i64.const	40
	i64.shl 
	i64.or  
	local.get	8
	i64.const	16711680
	i64.and 
	i64.const	24
	i64.shl 
	local.get	8
	i64.const	4278190080
	i64.and 
	i64.const	8
	i64.shl 
	i64.or  
	i64.or  
	local.get	8
	i64.const	8
	i64.shr_u
	i64.const	4278190080
	i64.and 
	local.get	8
	i64.const	24
	i64.shr_u
	i64.const	16711680
	i64.and 
	i64.or  
	local.get	8
	i64.const	40
	i64.shr_u
	i64.const	65280
	i64.and 
	local.get	8
	i64.const	56
	i64.shr_u
	i64.or  
	i64.or  
	i64.or  
	i64.store	64
	local.get	7
	i32.const	32
	i32.add 
	local.get	7
	i32.const	64
	i32.add 
	i64.const	0
	i64.const	0
	local.get	2
	local.get	3
	call	gcm__single_blocks__hash_singly____165deadc48559e33_
	local.get	7
	i64.load	40
	local.set	9
	local.get	7
	i64.load	32
	local.set	10
	local.get	7
	i32.const	48
	i32.add 
	local.get	3
	local.get	5
	call	gcm__tags__lengths_of
	local.get	7
	i64.load	56
	local.set	8
	local.get	7
	i64.load	48
	local.set	3
	local.get	7
	local.get	0
	i32.load	0
	local.tee	0
	i64.load	0:p2align=0
	local.tee	11
	i64.const	56
	i64.shl 
	local.get	11
	i64.const	65280
	i64.and 
	i64.const	40
	i64.shl 
	i64.or  
	local.get	11
	i64.const	16711680
	i64.and 
	i64.const	24
	i64.shl 
	local.get	11
	i64.const	4278190080
	i64.and 
	i64.const	8
	i64.shl 
	i64.or  
	i64.or  
	local.get	11
	i64.const	8
	i64.shr_u
	i64.const	4278190080
	i64.and 
	local.get	11
	i64.const	24
	i64.shr_u
	i64.const	16711680
	i64.and 
	i64.or  
	local.get	11
	i64.const	40
	i64.shr_u
	i64.const	65280
	i64.and 
	local.get	11
	i64.const	56
	i64.shr_u
	i64.or  
	i64.or  
	i64.or  
	local.tee	12
	i64.store	72
	local.get	7
	local.get	0
	i64.load	8:p2align=0
	local.tee	11
	i64.const	56
	i64.shl 
	local.get	11
	i64.const	65280
	i64.and 
	i64.const	40
	i64.shl 
	i64.or  
	local.get	11
	i64.const	16711680
	i64.and 
	i64.const	24
	i64.shl 
	local.get	11
	i64.const	4278190080
	i64.and 
	i64.const	8
	i64.shl 
	i64.or  
	i64.or  
	local.get	11
	i64.const	8
	i64.shr_u
	i64.const	4278190080
	i64.and 
	local.get	11
	i64.const	24
	i64.shr_u
	i64.const	16711680
	i64.and 
	i64.or  
	local.get	11
	i64.const	40
	i64.shr_u
	i64.const	65280
	i64.and 
	local.get	11
	i64.const	56
	i64.shr_u
	i64.or  
	i64.or  
	i64.or  
	local.tee	11
	i64.store	64
	local.get	7
	i32.const	16
	i32.add 
	local.get	7
	i32.const	64
	i32.add 
	local.get	10
	local.get	9
	local.get	4
	local.get	5
	call	gcm__single_blocks__hash_singly____165deadc48559e33_
	local.get	7
	local.get	7
	i64.load	16
	local.get	8
	i64.const	56
	i64.shl 
	local.get	8
	i64.const	65280
	i64.and 
	i64.const	40
	i64.shl 
	i64.or  
	local.get	8
	i64.const	16711680
	i64.and 
	i64.const	24
	i64.shl 
	local.get	8
	i64.const	4278190080
	i64.and 
	i64.const	8
	i64.shl 
	i64.or  
	i64.or  
	local.get	8
	i64.const	8
	i64.shr_u
	i64.const	4278190080
	i64.and 
	local.get	8
	i64.const	24
	i64.shr_u
	i64.const	16711680
	i64.and 
	i64.or  
	local.get	8
	i64.const	40
	i64.shr_u
	i64.const	65280
	i64.and 
	local.get	8
	i64.const	56
	i64.shr_u
	i64.or  
	i64.or  
	i64.or  
	i64.xor 
	local.get	7
	i64.load	24
	local.get	3
	i64.const	56
	i64.shl 
	local.get	3
	i64.const	65280
	i64.and 
	i64.const	40
	i64.shl 
	i64.or  
	local.get	3
	i64.const	16711680
	i64.and 
	i64.const	24
	i64.shl 
	local.get	3
	i64.const	4278190080
	i64.and 
	i64.const	8
	i64.shl 
	i64.or  
	i64.or  
	local.get	3
	i64.const	8
	i64.shr_u
	i64.const	4278190080
	i64.and 
	local.get	3
	i64.const	24
	i64.shr_u
	i64.const	16711680
	i64.and 
	i64.or  
	local.get	3
	i64.const	40
	i64.shr_u
	i64.const	65280
	i64.and 
	local.get	3
	i64.const	56
	i64.shr_u
	i64.or  
	i64.or  
	i64.or  
	i64.xor 
	local.get	11
	local.get	12
	call	gcm__bitwise__product_bitwise
	local.get	7
	i64.load	0
	local.get	7
	i64.load	8
	local.get	6
	call	gcm__tags__add_masked
	local.get	7
	i32.const	80
	i32.add 
	global.set	__stack_pointer
                                        # fallthrough-return
	end_function
                                        # -- End function
	.section	.text.aes_cipher__blocks__difference,"",@
	.type	aes_cipher__blocks__difference,@function # -- Begin function aes_cipher__blocks__difference
aes_cipher__blocks__difference:         # @aes_cipher__blocks__difference
	.functype	aes_cipher__blocks__difference (i32, i32) -> (i32)
# %bb.0:                                # %start
	local.get	1
	i32.load8_u	15
	local.get	0
	i32.load8_u	15
	i32.xor 
	local.get	1
	i32.load8_u	14
	local.get	0
	i32.load8_u	14
	i32.xor 
	local.get	1
	i32.load8_u	13
	local.get	0
	i32.load8_u	13
	i32.xor 
	local.get	1
	i32.load8_u	12
	local.get	0
	i32.load8_u	12
	i32.xor 
	local.get	1
	i32.load8_u	11
	local.get	0
	i32.load8_u	11
	i32.xor 
	local.get	1
	i32.load8_u	10
	local.get	0
	i32.load8_u	10
	i32.xor 
	local.get	1
	i32.load8_u	9
	local.get	0
	i32.load8_u	9
	i32.xor 
	local.get	1
	i32.load8_u	8
	local.get	0
	i32.load8_u	8
	i32.xor 
	local.get	1
	i32.load8_u	7
	local.get	0
	i32.load8_u	7
	i32.xor 
	local.get	1
	i32.load8_u	6
	local.get	0
	i32.load8_u	6
	i32.xor 
	local.get	1
	i32.load8_u	5
	local.get	0
	i32.load8_u	5
	i32.xor 
	local.get	1
	i32.load8_u	4
	local.get	0
	i32.load8_u	4
	i32.xor 
	local.get	1
	i32.load8_u	3
	local.get	0
	i32.load8_u	3
	i32.xor 
	local.get	1
	i32.load8_u	2
	local.get	0
	i32.load8_u	2
	i32.xor 
	local.get	1
	i32.load8_u	1
	local.get	0
	i32.load8_u	1
	i32.xor 
	local.get	1
	i32.load8_u	0
	local.get	0
	i32.load8_u	0
	i32.xor 
	i32.or  
	i32.or  
	i32.or  
	i32.or  
	i32.or  
	i32.or  
	i32.or  
	i32.or  
	i32.or  
	i32.or  
	i32.or  
	i32.or  
	i32.or  
	i32.or  
	i32.or  
                                        # fallthrough-return
	end_function
                                        # -- End function
	.section	.text.gcm__gctr__add_gctr____099a9bc28799ce6c_,"",@
	.type	gcm__gctr__add_gctr____099a9bc28799ce6c_,@function # -- Begin function gcm__gctr__add_gctr____099a9bc28799ce6c_
gcm__gctr__add_gctr____099a9bc28799ce6c_: # @gcm__gctr__add_gctr____099a9bc28799ce6c_
	.functype	gcm__gctr__add_gctr____099a9bc28799ce6c_ (i32, i32, i64, i32, i64) -> ()
	.local  	i32, i64, i64, i64, i64, i64, i64, i32, i32, i32, i32, i32, i32, i32, i32, i32, i32, i32, i32, i32, i32, i32, i32, i32, i32, i32, i32, i32, i32, i32, i32, i32, i32, i32, i32, i32, i32, i32
# %bb.0:                                # %start
	global.get	__stack_pointer
	i32.const	64
	i32.sub 
	local.tee	5
	global.set	__stack_pointer
	block   	
	local.get	4
	i64.eqz
	br_if   	0                               # 0: down to label41
# %bb.1:                                # %then.1
	local.get	5
	local.get	1
	i64.load	8:p2align=0
	i64.store	8
	local.get	5
	local.get	1
	i64.load	0:p2align=0
	i64.store	0
	i64.const	0
	local.set	6
	local.get	5
	i64.const	0
	i64.store	16
	block   	
	local.get	4
	i64.const	16
	local.get	2
	i64.const	15
	i64.and 
	local.tee	7
	i64.sub 
	i64.gt_u
	br_if   	0                               # 0: down to label42
# %bb.2:                                # %then.1.i
	local.get	5
	local.get	5
	i64.load	8
	local.tee	8
	i64.store8	56
	local.get	5
	local.get	5
	i64.load	0
	local.tee	9
	i64.store8	48
	local.get	5
	local.get	8
	i64.const	16
	i64.shr_u
	i64.store8	58
	local.get	5
	local.get	9
	i64.const	16
	i64.shr_u
	i64.store8	50
	local.get	5
	local.get	9
	i64.const	24
	i64.shr_u
	local.tee	10
	i64.store8	51
	local.get	5
	local.get	9
	i64.const	8
	i64.shr_u
	local.tee	11
	i64.store8	49
	local.get	5
	local.get	11
	i64.const	4278190080
	i64.and 
	local.get	10
	i64.const	16711680
	i64.and 
	i64.or  
	local.get	9
	i64.const	40
	i64.shr_u
	i64.const	65280
	i64.and 
	local.get	9
	i64.const	56
	i64.shr_u
	i64.or  
	i64.or  
	i32.wrap_i64
	local.tee	1
	i32.store8	55
	local.get	5
	local.get	1
	i32.const	8
	i32.shr_u
	i32.store8	54
	local.get	5
	local.get	1
	i32.const	16
	i32.shr_u
	i32.store8	53
	local.get	5
	local.get	1
	i32.const	24
	i32.shr_u
	i32.store8	52
	local.get	5
	local.get	8
	i64.const	24
	i64.shr_u
	local.tee	9
	i64.store8	59
	local.get	5
	local.get	8
	i64.const	8
	i64.shr_u
	local.tee	10
	i64.store8	57
	local.get	5
	local.get	10
	i64.const	4278190080
	i64.and 
	local.get	9
	i64.const	16711680
	i64.and 
	i64.or  
	local.get	8
	i64.const	40
	i64.shr_u
	i64.const	65280
	i64.and 
	local.get	8
	i64.const	56
	i64.shr_u
	i64.or  
	i64.or  
	i32.wrap_i64
	local.get	2
	i64.const	4
	i64.shr_u
	i32.wrap_i64
	i32.add 
	local.tee	1
	i32.store8	63
	local.get	5
	local.get	1
	i32.const	8
	i32.shr_u
	i32.store8	62
	local.get	5
	local.get	1
	i32.const	16
	i32.shr_u
	i32.store8	61
	local.get	5
	local.get	1
	i32.const	24
	i32.shr_u
	i32.store8	60
	local.get	0
	i32.load	0:p2align=0
	local.get	0
	i64.load	8:p2align=0
	local.get	5
	i32.const	48
	i32.add 
	i64.const	1
	call	aes_narrow__blocks__process_all_batches____f6c900d3ac1e47b9_
	call	aes_cipher__zeroize__stack__wipe_stack____1024_
	block   	
	local.get	7
	i64.eqz
	br_if   	0                               # 0: down to label43
# %bb.3:                                # %join.8.i72.i.i.preheader
	i64.const	0
	local.set	8
	block   	
	local.get	4
	i64.const	1
	i64.eq  
	br_if   	0                               # 0: down to label44
# %bb.4:                                # %join.8.i72.i.i.preheader.new
	local.get	4
	i64.const	1
	i64.and 
	local.set	10
	local.get	4
	i64.const	4294967294
	i64.and 
	local.set	9
	local.get	5
	i32.const	48
	i32.add 
	local.get	2
	i32.wrap_i64
	i32.const	15
	i32.and 
	i32.add 
	local.set	0
	i64.const	0
	local.set	8
	local.get	3
	local.set	1
.LBB29_5:                               # %join.8.i72.i.i
                                        # =>This Inner Loop Header: Depth=1
	loop    	                                # label45:
	local.get	1
	local.get	1
	i32.load8_u	0
	local.get	0
	i32.load8_u	0
	i32.xor 
	i32.store8	0
	local.get	1
	i32.const	1
	i32.add 
	local.tee	12
	local.get	12
	i32.load8_u	0
	local.get	0
	i32.const	1
	i32.add 
	i32.load8_u	0
	i32.xor 
	i32.store8	0
	local.get	1
	i32.const	2
	i32.add 
	local.set	1
	local.get	0
	i32.const	2
	i32.add 
	local.set	0
	local.get	9
	local.get	8
	i64.const	2
	i64.add 
	local.tee	8
	i64.ne  
	br_if   	0                               # 0: up to label45
# %bb.6:                                # %join.3.i.i.i.loopexit.unr-lcssa
	end_loop
	local.get	4
	local.set	6
	local.get	10
	i64.eqz
	br_if   	1                               # 1: down to label43
.LBB29_7:                               # %join.8.i72.i.i.epil.preheader
	end_block                               # label44:
	local.get	3
	local.get	8
	i32.wrap_i64
	i32.add 
	local.tee	1
	local.get	1
	i32.load8_u	0
	local.get	5
	i32.const	48
	i32.add 
	local.get	8
	local.get	7
	i64.add 
	i32.wrap_i64
	i32.add 
	i32.load8_u	0
	i32.xor 
	i32.store8	0
	local.get	4
	local.set	6
.LBB29_8:                               # %join.3.i.i.i
	end_block                               # label43:
	block   	
	local.get	4
	local.get	6
	i64.sub 
	local.tee	9
	i64.const	16
	i64.lt_u
	br_if   	0                               # 0: down to label46
# %bb.9:                                # %join.8.i.i.i.preheader
	i64.const	0
	local.get	6
	i64.sub 
	local.set	8
	local.get	3
	local.get	6
	i32.wrap_i64
	local.tee	0
	i32.add 
	local.set	1
	local.get	2
	i32.wrap_i64
	i32.const	15
	i32.and 
	local.get	0
	i32.add 
	local.set	12
.LBB29_10:                              # %join.8.i.i.i
                                        # =>This Inner Loop Header: Depth=1
	loop    	                                # label47:
	local.get	5
	i32.const	48
	i32.add 
	local.get	12
	i32.const	-16
	i32.and 
	i32.add 
	local.tee	0
	i32.load8_u	0
	local.set	13
	local.get	0
	i32.load8_u	1
	local.set	14
	local.get	0
	i32.load8_u	2
	local.set	15
	local.get	0
	i32.load8_u	3
	local.set	16
	local.get	0
	i32.load8_u	4
	local.set	17
	local.get	0
	i32.load8_u	5
	local.set	18
	local.get	0
	i32.load8_u	6
	local.set	19
	local.get	0
	i32.load8_u	7
	local.set	20
	local.get	0
	i32.load8_u	8
	local.set	21
	local.get	0
	i32.load8_u	9
	local.set	22
	local.get	0
	i32.load8_u	10
	local.set	23
	local.get	0
	i32.load8_u	11
	local.set	24
	local.get	0
	i32.load8_u	12
	local.set	25
	local.get	0
	i32.load8_u	13
	local.set	26
	local.get	0
	i32.load8_u	14
	local.set	27
	local.get	1
	i32.load8_u	0
	local.set	28
	local.get	1
	i32.load8_u	1
	local.set	29
	local.get	1
	i32.load8_u	2
	local.set	30
	local.get	1
	i32.load8_u	3
	local.set	31
	local.get	1
	i32.load8_u	4
	local.set	32
	local.get	1
	i32.load8_u	5
	local.set	33
	local.get	1
	i32.load8_u	6
	local.set	34
	local.get	1
	i32.load8_u	7
	local.set	35
	local.get	1
	i32.load8_u	8
	local.set	36
	local.get	1
	i32.load8_u	9
	local.set	37
	local.get	1
	i32.load8_u	10
	local.set	38
	local.get	1
	i32.load8_u	11
	local.set	39
	local.get	1
	i32.load8_u	12
	local.set	40
	local.get	1
	i32.load8_u	13
	local.set	41
	local.get	1
	i32.load8_u	14
	local.set	42
	local.get	1
	local.get	0
	i32.load8_u	15
	local.get	1
	i32.load8_u	15
	i32.xor 
	i32.store8	15
	local.get	1
	local.get	27
	local.get	42
	i32.xor 
	i32.store8	14
	local.get	1
	local.get	26
	local.get	41
	i32.xor 
	i32.store8	13
	local.get	1
	local.get	25
	local.get	40
	i32.xor 
	i32.store8	12
	local.get	1
	local.get	24
	local.get	39
	i32.xor 
	i32.store8	11
	local.get	1
	local.get	23
	local.get	38
	i32.xor 
	i32.store8	10
	local.get	1
	local.get	22
	local.get	37
	i32.xor 
	i32.store8	9
	local.get	1
	local.get	21
	local.get	36
	i32.xor 
	i32.store8	8
	local.get	1
	local.get	20
	local.get	35
	i32.xor 
	i32.store8	7
	local.get	1
	local.get	19
	local.get	34
	i32.xor 
	i32.store8	6
	local.get	1
	local.get	18
	local.get	33
	i32.xor 
	i32.store8	5
	local.get	1
	local.get	17
	local.get	32
	i32.xor 
	i32.store8	4
	local.get	1
	local.get	16
	local.get	31
	i32.xor 
	i32.store8	3
	local.get	1
	local.get	15
	local.get	30
	i32.xor 
	i32.store8	2
	local.get	1
	local.get	14
	local.get	29
	i32.xor 
	i32.store8	1
	local.get	1
	local.get	13
	local.get	28
	i32.xor 
	i32.store8	0
	local.get	12
	i32.const	16
	i32.add 
	local.set	12
	local.get	1
	i32.const	16
	i32.add 
	local.set	1
	local.get	4
	local.get	8
	i64.const	-16
	i64.add 
	local.tee	8
	i64.add 
	local.tee	9
	i64.const	15
	i64.gt_u
	br_if   	0                               # 0: up to label47
# %bb.11:                               # %after.4.i.i.i.loopexit
	end_loop
	i64.const	0
	local.get	8
	i64.sub 
	local.set	6
.LBB29_12:                              # %after.4.i.i.i
	end_block                               # label46:
	local.get	6
	local.get	4
	i64.ge_u
	br_if   	1                               # 1: down to label41
# %bb.13:                               # %then.9.i.i.i
	local.get	9
	i64.eqz
	br_if   	1                               # 1: down to label41
# %bb.14:                               # %join.8.i15.i.i.preheader
	local.get	6
	i32.wrap_i64
	local.set	16
	local.get	6
	local.get	7
	i64.add 
	i32.wrap_i64
	i32.const	-16
	i32.and 
	local.set	17
	local.get	9
	i64.const	3
	i64.and 
	local.set	8
	i64.const	0
	local.set	4
	block   	
	local.get	9
	i64.const	4
	i64.lt_u
	br_if   	0                               # 0: down to label48
# %bb.15:                               # %join.8.i15.i.i.preheader.new
	local.get	3
	local.get	16
	i32.add 
	local.set	14
	local.get	5
	i32.const	48
	i32.add 
	local.get	17
	i32.add 
	local.set	15
	local.get	9
	i64.const	12
	i64.and 
	local.set	9
	i64.const	0
	local.set	4
	i32.const	0
	local.set	0
.LBB29_16:                              # %join.8.i15.i.i
                                        # =>This Inner Loop Header: Depth=1
	loop    	                                # label49:
	local.get	14
	local.get	0
	i32.add 
	local.tee	1
	local.get	1
	i32.load8_u	0
	local.get	15
	local.get	0
	i32.add 
	local.tee	12
	i32.load8_u	0
	i32.xor 
	i32.store8	0
	local.get	1
	i32.const	1
	i32.add 
	local.tee	13
	local.get	13
	i32.load8_u	0
	local.get	12
	i32.const	1
	i32.add 
	i32.load8_u	0
	i32.xor 
	i32.store8	0
	local.get	1
	i32.const	2
	i32.add 
	local.tee	13
	local.get	13
	i32.load8_u	0
	local.get	12
	i32.const	2
	i32.add 
	i32.load8_u	0
	i32.xor 
	i32.store8	0
	local.get	1
	i32.const	3
	i32.add 
	local.tee	1
	local.get	1
	i32.load8_u	0
	local.get	12
	i32.const	3
	i32.add 
	i32.load8_u	0
	i32.xor 
	i32.store8	0
	local.get	0
	i32.const	4
	i32.add 
	local.set	0
	local.get	9
	local.get	4
	i64.const	4
	i64.add 
	local.tee	4
	i64.ne  
	br_if   	0                               # 0: up to label49
# %bb.17:                               # %aes_ctr__add_in_batches__add_to_one____9f2532018b56b7e7_.exit.i.loopexit.unr-lcssa
	end_loop
	local.get	8
	i64.eqz
	br_if   	2                               # 2: down to label41
.LBB29_18:                              # %join.8.i15.i.i.epil.preheader
	end_block                               # label48:
	local.get	3
	local.get	16
	local.get	4
	i32.wrap_i64
	local.tee	0
	i32.add 
	i32.add 
	local.set	1
	local.get	5
	i32.const	48
	i32.add 
	local.get	17
	local.get	0
	i32.add 
	i32.add 
	local.set	0
.LBB29_19:                              # %join.8.i15.i.i.epil
                                        # =>This Inner Loop Header: Depth=1
	loop    	                                # label50:
	local.get	1
	local.get	1
	i32.load8_u	0
	local.get	0
	i32.load8_u	0
	i32.xor 
	i32.store8	0
	local.get	0
	i32.const	1
	i32.add 
	local.set	0
	local.get	1
	i32.const	1
	i32.add 
	local.set	1
	local.get	8
	i64.const	-1
	i64.add 
	local.tee	8
	i64.const	0
	i64.ne  
	br_if   	0                               # 0: up to label50
	br      	2                               # 2: down to label41
.LBB29_20:                              # %else.2.i
	end_loop
	end_block                               # label42:
	local.get	5
	local.get	4
	i64.store	40
	local.get	5
	i32.const	0
	i32.store	36
	local.get	5
	local.get	3
	i32.store	32
	local.get	5
	local.get	2
	i64.store	24
	local.get	5
	local.get	5
	i32.store	16
	local.get	0
	i32.load	0:p2align=0
	local.get	0
	i64.load	8:p2align=0
	local.get	5
	i32.const	16
	i32.add 
	call	aes_narrow__borrowed_words__call_to_encrypt____1305835a18aa05db_
	call	aes_cipher__zeroize__stack__wipe_stack____2032_
.LBB29_21:                              # %join.3
	end_block                               # label41:
	local.get	5
	i32.const	64
	i32.add 
	global.set	__stack_pointer
                                        # fallthrough-return
	end_function
                                        # -- End function
	.section	.text.aes_narrow__borrowed_words__call_to_encrypt____1305835a18aa05db_,"",@
	.type	aes_narrow__borrowed_words__call_to_encrypt____1305835a18aa05db_,@function # -- Begin function aes_narrow__borrowed_words__call_to_encrypt____1305835a18aa05db_
aes_narrow__borrowed_words__call_to_encrypt____1305835a18aa05db_: # @aes_narrow__borrowed_words__call_to_encrypt____1305835a18aa05db_
	.functype	aes_narrow__borrowed_words__call_to_encrypt____1305835a18aa05db_ (i32, i64, i32) -> ()
	.local  	i32, i32, i64, i32, i64, i64, i64, i32, i64, i64, i32, i64, i64, i64, i32, i32, i32, i32, i32, i32, i32, i32, i32, i32, i32, i32, i32, i32, i32, i32, i32, i32, i32, i32, i32, i32, i32, i32, i32, i32, i32, i32, i32, i32, i32, i32, i32, i32, i32, i32, i32, i32, i32, i32, i32, i32, i32, i32, i32
# %bb.0:                                # %start
	global.get	__stack_pointer
	i32.const	272
	i32.sub 
	local.tee	3
	global.set	__stack_pointer
	local.get	3
	local.get	1
	i64.store	8
	local.get	3
	i32.const	0
	i32.store	4
	local.get	3
	local.get	0
	i32.store	0
	local.get	2
	i32.const	16
	i32.add 
	i32.load	0
	local.set	4
	local.get	2
	i32.const	24
	i32.add 
	i64.load	0
	local.set	5
	local.get	2
	i32.load	0
	local.set	6
	block   	
	block   	
	local.get	2
	i32.const	8
	i32.add 
	i64.load	0
	local.tee	7
	i64.const	15
	i64.and 
	i64.eqz
	i32.eqz
	br_if   	0                               # 0: down to label52
# %bb.1:
	i64.const	0
	local.set	8
	br      	1                               # 1: down to label51
.LBB30_2:                               # %then.1.i.i
	end_block                               # label52:
	local.get	3
	local.get	6
	local.get	7
	i64.const	0
	local.get	4
	local.get	5
	call	aes_ctr__add_in_batches__add_next____8f445e75de4b0592_
	local.set	8
.LBB30_3:                               # %join.3.i.i
	end_block                               # label51:
	block   	
	local.get	5
	local.get	8
	i64.sub 
	local.tee	9
	i64.const	32
	i64.lt_u
	br_if   	0                               # 0: down to label53
# %bb.4:                                # %join.11.lr.ph.i.i
	local.get	4
	local.get	8
	i32.wrap_i64
	i32.add 
	local.set	2
	local.get	3
	i32.const	16
	i32.add 
	i32.const	32
	i32.add 
	local.set	10
.LBB30_5:                               # %join.11.i.i
                                        # =>This Inner Loop Header: Depth=1
	loop    	                                # label54:
	local.get	10
	i32.const	0
	i32.const	224
	call	memset
	drop
	local.get	3
	local.get	6
	i64.load	8:p2align=0
	local.tee	11
	i64.store8	40
	local.get	3
	local.get	11
	i64.store8	24
	local.get	3
	local.get	6
	i64.load	0:p2align=0
	local.tee	12
	i64.const	255
	i64.and 
	i32.wrap_i64
	local.tee	13
	i32.store8	32
	local.get	3
	local.get	13
	i32.store8	16
	local.get	3
	local.get	11
	i64.const	56
	i64.shl 
	local.get	11
	i64.const	65280
	i64.and 
	i64.const	40
	i64.shl 
	i64.or  
	local.tee	14
	i64.const	48
	i64.shr_u
	local.tee	15
	i64.store8	41
	local.get	3
	local.get	15
	i64.store8	25
	local.get	3
	local.get	14
	local.get	11
	i64.const	16711680
	i64.and 
	i64.const	24
	i64.shl 
	local.get	11
	i64.const	4278190080
	i64.and 
	i64.const	8
	i64.shl 
	i64.or  
	i64.or  
	local.tee	14
	i64.const	40
	i64.shr_u
	local.tee	15
	i64.store8	42
	local.get	3
	local.get	12
	i64.const	8
	i64.shr_u
	i64.const	4278190080
	i64.and 
	local.get	12
	i64.const	24
	i64.shr_u
	i64.const	16711680
	i64.and 
	i64.or  
	local.get	12
	i64.const	40
	i64.shr_u
	i64.const	65280
	i64.and 
	local.get	12
	i64.const	56
	i64.shr_u
	i64.or  
	i64.or  
	i32.wrap_i64
	local.tee	13
	i32.store8	39
	local.get	3
	local.get	12
	i64.const	56
	i64.shl 
	local.get	12
	i64.const	65280
	i64.and 
	i64.const	40
	i64.shl 
	i64.or  
	local.tee	16
	i64.const	48
	i64.shr_u
	i32.wrap_i64
	local.tee	17
	i32.store8	33
	local.get	3
	local.get	15
	i64.store8	26
	local.get	3
	local.get	13
	i32.store8	23
	local.get	3
	local.get	17
	i32.store8	17
	local.get	3
	local.get	14
	i64.const	32
	i64.shr_u
	i32.wrap_i64
	local.tee	18
	i32.store8	43
	local.get	3
	local.get	13
	i32.const	16
	i32.shr_u
	local.tee	19
	i32.store8	37
	local.get	3
	local.get	13
	i32.const	24
	i32.shr_u
	local.tee	20
	i32.store8	36
	local.get	3
	local.get	16
	local.get	12
	i64.const	16711680
	i64.and 
	i64.const	24
	i64.shl 
	local.get	12
	i64.const	4278190080
	i64.and 
	i64.const	8
	i64.shl 
	i64.or  
	i64.or  
	i64.const	32
	i64.shr_u
	i32.wrap_i64
	local.tee	17
	i32.store8	35
	local.get	3
	local.get	18
	i32.store8	27
	local.get	3
	local.get	19
	i32.store8	21
	local.get	3
	local.get	20
	i32.store8	20
	local.get	3
	local.get	17
	i32.store8	19
	local.get	3
	local.get	13
	i32.const	65280
	i32.and 
	i32.const	8
	i32.shr_u
	local.tee	13
	i32.store8	38
	local.get	3
	local.get	13
	i32.store8	22
	local.get	3
	local.get	17
	i32.const	65280
	i32.and 
	i32.const	8
	i32.shr_u
	local.tee	17
	i32.store8	34
	local.get	3
	local.get	11
	i64.const	8
	i64.shr_u
	i64.const	4278190080
	i64.and 
	local.get	11
	i64.const	24
	i64.shr_u
	i64.const	16711680
	i64.and 
	i64.or  
	local.get	11
	i64.const	40
	i64.shr_u
	i64.const	65280
	i64.and 
	local.get	11
	i64.const	56
	i64.shr_u
	i64.or  
	i64.or  
	i32.wrap_i64
	local.get	7
	local.get	8
	i64.add 
	i64.const	4
	i64.shr_u
	i32.wrap_i64
	i32.add 
	local.tee	13
	i32.store8	31
	local.get	3
	local.get	13
	i32.const	8
	i32.shr_u
	i32.store8	30
	local.get	3
	local.get	13
	i32.const	16
	i32.shr_u
	i32.store8	29
	local.get	3
	local.get	13
	i32.const	24
	i32.shr_u
	i32.store8	28
	local.get	3
	local.get	17
	i32.store8	18
	local.get	3
	local.get	13
	i32.const	1
	i32.add 
	local.tee	13
	i32.store8	47
	local.get	3
	local.get	13
	i32.const	8
	i32.shr_u
	i32.store8	46
	local.get	3
	local.get	13
	i32.const	16
	i32.shr_u
	i32.store8	45
	local.get	3
	local.get	13
	i32.const	24
	i32.shr_u
	i32.store8	44
	local.get	0
	local.get	1
	local.get	3
	i32.const	16
	i32.add 
	i64.const	2
	call	aes_soft__soft__blocks__filled_up__process_filled_up____f6c900d3ac1e47b9_
	local.get	2
	i32.load8_u	0
	local.set	13
	local.get	2
	i32.load8_u	1
	local.set	17
	local.get	2
	i32.load8_u	2
	local.set	18
	local.get	2
	i32.load8_u	3
	local.set	19
	local.get	2
	i32.load8_u	4
	local.set	20
	local.get	2
	i32.load8_u	5
	local.set	21
	local.get	2
	i32.load8_u	6
	local.set	22
	local.get	2
	i32.load8_u	7
	local.set	23
	local.get	2
	i32.load8_u	8
	local.set	24
	local.get	2
	i32.load8_u	9
	local.set	25
	local.get	2
	i32.load8_u	10
	local.set	26
	local.get	2
	i32.load8_u	11
	local.set	27
	local.get	2
	i32.load8_u	12
	local.set	28
	local.get	2
	i32.load8_u	13
	local.set	29
	local.get	2
	i32.load8_u	14
	local.set	30
	local.get	3
	i32.load8_u	16
	local.set	31
	local.get	3
	i32.load8_u	17
	local.set	32
	local.get	3
	i32.load8_u	18
	local.set	33
	local.get	3
	i32.load8_u	19
	local.set	34
	local.get	3
	i32.load8_u	20
	local.set	35
	local.get	3
	i32.load8_u	21
	local.set	36
	local.get	3
	i32.load8_u	22
	local.set	37
	local.get	3
	i32.load8_u	23
	local.set	38
	local.get	3
	i32.load8_u	24
	local.set	39
	local.get	3
	i32.load8_u	25
	local.set	40
	local.get	3
	i32.load8_u	26
	local.set	41
	local.get	3
	i32.load8_u	27
	local.set	42
	local.get	3
	i32.load8_u	28
	local.set	43
	local.get	3
	i32.load8_u	29
	local.set	44
	local.get	3
	i32.load8_u	30
	local.set	45
	local.get	2
	local.get	3
	i32.load8_u	31
	local.get	2
	i32.load8_u	15
	i32.xor 
	i32.store8	15
	local.get	2
	local.get	45
	local.get	30
	i32.xor 
	i32.store8	14
	local.get	2
	local.get	44
	local.get	29
	i32.xor 
	i32.store8	13
	local.get	2
	local.get	43
	local.get	28
	i32.xor 
	i32.store8	12
	local.get	2
	local.get	42
	local.get	27
	i32.xor 
	i32.store8	11
	local.get	2
	local.get	41
	local.get	26
	i32.xor 
	i32.store8	10
	local.get	2
	local.get	40
	local.get	25
	i32.xor 
	i32.store8	9
	local.get	2
	local.get	39
	local.get	24
	i32.xor 
	i32.store8	8
	local.get	2
	local.get	38
	local.get	23
	i32.xor 
	i32.store8	7
	local.get	2
	local.get	37
	local.get	22
	i32.xor 
	i32.store8	6
	local.get	2
	local.get	36
	local.get	21
	i32.xor 
	i32.store8	5
	local.get	2
	local.get	35
	local.get	20
	i32.xor 
	i32.store8	4
	local.get	2
	local.get	34
	local.get	19
	i32.xor 
	i32.store8	3
	local.get	2
	local.get	33
	local.get	18
	i32.xor 
	i32.store8	2
	local.get	2
	local.get	32
	local.get	17
	i32.xor 
	i32.store8	1
	local.get	2
	local.get	31
	local.get	13
	i32.xor 
	i32.store8	0
	local.get	2
	i32.const	16
	i32.add 
	local.tee	13
	i32.load8_u	0
	local.set	17
	local.get	2
	i32.const	17
	i32.add 
	local.tee	18
	i32.load8_u	0
	local.set	19
	local.get	2
	i32.const	18
	i32.add 
	local.tee	20
	i32.load8_u	0
	local.set	21
	local.get	2
	i32.const	19
	i32.add 
	local.tee	22
	i32.load8_u	0
	local.set	23
	local.get	2
	i32.const	20
	i32.add 
	local.tee	24
	i32.load8_u	0
	local.set	25
	local.get	2
	i32.const	21
	i32.add 
	local.tee	26
	i32.load8_u	0
	local.set	27
	local.get	2
	i32.const	22
	i32.add 
	local.tee	28
	i32.load8_u	0
	local.set	29
	local.get	2
	i32.const	23
	i32.add 
	local.tee	30
	i32.load8_u	0
	local.set	31
	local.get	2
	i32.const	24
	i32.add 
	local.tee	32
	i32.load8_u	0
	local.set	33
	local.get	2
	i32.const	25
	i32.add 
	local.tee	34
	i32.load8_u	0
	local.set	35
	local.get	2
	i32.const	26
	i32.add 
	local.tee	36
	i32.load8_u	0
	local.set	37
	local.get	2
	i32.const	27
	i32.add 
	local.tee	38
	i32.load8_u	0
	local.set	39
	local.get	2
	i32.const	28
	i32.add 
	local.tee	40
	i32.load8_u	0
	local.set	41
	local.get	2
	i32.const	29
	i32.add 
	local.tee	42
	i32.load8_u	0
	local.set	43
	local.get	2
	i32.const	30
	i32.add 
	local.tee	44
	i32.load8_u	0
	local.set	45
	local.get	3
	i32.load8_u	32
	local.set	46
	local.get	3
	i32.load8_u	33
	local.set	47
	local.get	3
	i32.load8_u	34
	local.set	48
	local.get	3
	i32.load8_u	35
	local.set	49
	local.get	3
	i32.load8_u	36
	local.set	50
	local.get	3
	i32.load8_u	37
	local.set	51
	local.get	3
	i32.load8_u	38
	local.set	52
	local.get	3
	i32.load8_u	39
	local.set	53
	local.get	3
	i32.load8_u	40
	local.set	54
	local.get	3
	i32.load8_u	41
	local.set	55
	local.get	3
	i32.load8_u	42
	local.set	56
	local.get	3
	i32.load8_u	43
	local.set	57
	local.get	3
	i32.load8_u	44
	local.set	58
	local.get	3
	i32.load8_u	45
	local.set	59
	local.get	3
	i32.load8_u	46
	local.set	60
	local.get	2
	i32.const	31
	i32.add 
	local.tee	61
	local.get	3
	i32.load8_u	47
	local.get	61
	i32.load8_u	0
	i32.xor 
	i32.store8	0
	local.get	44
	local.get	60
	local.get	45
	i32.xor 
	i32.store8	0
	local.get	42
	local.get	59
	local.get	43
	i32.xor 
	i32.store8	0
	local.get	40
	local.get	58
	local.get	41
	i32.xor 
	i32.store8	0
	local.get	38
	local.get	57
	local.get	39
	i32.xor 
	i32.store8	0
	local.get	36
	local.get	56
	local.get	37
	i32.xor 
	i32.store8	0
	local.get	34
	local.get	55
	local.get	35
	i32.xor 
	i32.store8	0
	local.get	32
	local.get	54
	local.get	33
	i32.xor 
	i32.store8	0
	local.get	30
	local.get	53
	local.get	31
	i32.xor 
	i32.store8	0
	local.get	28
	local.get	52
	local.get	29
	i32.xor 
	i32.store8	0
	local.get	26
	local.get	51
	local.get	27
	i32.xor 
	i32.store8	0
	local.get	24
	local.get	50
	local.get	25
	i32.xor 
	i32.store8	0
	local.get	22
	local.get	49
	local.get	23
	i32.xor 
	i32.store8	0
	local.get	20
	local.get	48
	local.get	21
	i32.xor 
	i32.store8	0
	local.get	18
	local.get	47
	local.get	19
	i32.xor 
	i32.store8	0
	local.get	13
	local.get	46
	local.get	17
	i32.xor 
	i32.store8	0
	local.get	2
	i32.const	32
	i32.add 
	local.set	2
	local.get	8
	i64.const	32
	i64.add 
	local.set	8
	local.get	9
	i64.const	-32
	i64.add 
	local.tee	9
	i64.const	31
	i64.gt_u
	br_if   	0                               # 0: up to label54
.LBB30_6:                               # %loop.13.preheader.i.i
	end_loop
	end_block                               # label53:
	block   	
	local.get	8
	local.get	5
	i64.ge_u
	br_if   	0                               # 0: down to label55
.LBB30_7:                               # %join.16.i.i
                                        # =>This Inner Loop Header: Depth=1
	loop    	                                # label56:
	local.get	3
	local.get	6
	local.get	7
	local.get	8
	local.get	4
	local.get	5
	call	aes_ctr__add_in_batches__add_next____8f445e75de4b0592_
	local.tee	8
	local.get	5
	i64.lt_u
	br_if   	0                               # 0: up to label56
.LBB30_8:                               # %aes_ctr__add_in_batches__AddStreamBlockCipherEncClosure__call____5af79e2f176a0632_.exit
	end_loop
	end_block                               # label55:
	local.get	3
	i32.const	272
	i32.add 
	global.set	__stack_pointer
                                        # fallthrough-return
	end_function
                                        # -- End function
	.section	.text.aes_ctr__add_in_batches__add_next____8f445e75de4b0592_,"",@
	.type	aes_ctr__add_in_batches__add_next____8f445e75de4b0592_,@function # -- Begin function aes_ctr__add_in_batches__add_next____8f445e75de4b0592_
aes_ctr__add_in_batches__add_next____8f445e75de4b0592_: # @aes_ctr__add_in_batches__add_next____8f445e75de4b0592_
	.functype	aes_ctr__add_in_batches__add_next____8f445e75de4b0592_ (i32, i32, i64, i64, i32, i64) -> (i64)
	.local  	i32, i64, i64, i64, i64, i64, i32, i32, i32, i32, i32, i32, i32, i32, i32, i32, i32, i32, i32, i32, i32, i32, i32, i32, i32, i32, i32, i32, i32, i32, i32, i32, i32, i32, i32, i32, i32, i32, i32
# %bb.0:                                # %start
	global.get	__stack_pointer
	i32.const	256
	i32.sub 
	local.tee	6
	global.set	__stack_pointer
	local.get	6
	i32.const	32
	i32.add 
	i32.const	0
	i32.const	224
	call	memset
	drop
	local.get	6
	local.get	1
	i64.load	8:p2align=0
	local.tee	7
	i64.store8	24
	local.get	6
	local.get	7
	i64.store8	8
	local.get	6
	local.get	1
	i64.load	0:p2align=0
	local.tee	8
	i64.const	255
	i64.and 
	i32.wrap_i64
	local.tee	1
	i32.store8	16
	local.get	6
	local.get	1
	i32.store8	0
	local.get	6
	local.get	7
	i64.const	56
	i64.shl 
	local.get	7
	i64.const	65280
	i64.and 
	i64.const	40
	i64.shl 
	i64.or  
	local.tee	9
	i64.const	48
	i64.shr_u
	local.tee	10
	i64.store8	25
	local.get	6
	local.get	10
	i64.store8	9
	local.get	6
	local.get	9
	local.get	7
	i64.const	16711680
	i64.and 
	i64.const	24
	i64.shl 
	local.get	7
	i64.const	4278190080
	i64.and 
	i64.const	8
	i64.shl 
	i64.or  
	i64.or  
	local.tee	9
	i64.const	40
	i64.shr_u
	local.tee	10
	i64.store8	26
	local.get	6
	local.get	8
	i64.const	8
	i64.shr_u
	i64.const	4278190080
	i64.and 
	local.get	8
	i64.const	24
	i64.shr_u
	i64.const	16711680
	i64.and 
	i64.or  
	local.get	8
	i64.const	40
	i64.shr_u
	i64.const	65280
	i64.and 
	local.get	8
	i64.const	56
	i64.shr_u
	i64.or  
	i64.or  
	i32.wrap_i64
	local.tee	1
	i32.store8	23
	local.get	6
	local.get	8
	i64.const	56
	i64.shl 
	local.get	8
	i64.const	65280
	i64.and 
	i64.const	40
	i64.shl 
	i64.or  
	local.tee	11
	i64.const	48
	i64.shr_u
	i32.wrap_i64
	local.tee	12
	i32.store8	17
	local.get	6
	local.get	10
	i64.store8	10
	local.get	6
	local.get	1
	i32.store8	7
	local.get	6
	local.get	12
	i32.store8	1
	local.get	6
	local.get	9
	i64.const	32
	i64.shr_u
	i32.wrap_i64
	local.tee	13
	i32.store8	27
	local.get	6
	local.get	1
	i32.const	16
	i32.shr_u
	local.tee	14
	i32.store8	21
	local.get	6
	local.get	1
	i32.const	24
	i32.shr_u
	local.tee	15
	i32.store8	20
	local.get	6
	local.get	11
	local.get	8
	i64.const	16711680
	i64.and 
	i64.const	24
	i64.shl 
	local.get	8
	i64.const	4278190080
	i64.and 
	i64.const	8
	i64.shl 
	i64.or  
	i64.or  
	i64.const	32
	i64.shr_u
	i32.wrap_i64
	local.tee	12
	i32.store8	19
	local.get	6
	local.get	13
	i32.store8	11
	local.get	6
	local.get	14
	i32.store8	5
	local.get	6
	local.get	15
	i32.store8	4
	local.get	6
	local.get	12
	i32.store8	3
	local.get	6
	local.get	1
	i32.const	65280
	i32.and 
	i32.const	8
	i32.shr_u
	local.tee	1
	i32.store8	22
	local.get	6
	local.get	1
	i32.store8	6
	local.get	6
	local.get	12
	i32.const	65280
	i32.and 
	i32.const	8
	i32.shr_u
	local.tee	12
	i32.store8	18
	local.get	6
	local.get	7
	i64.const	8
	i64.shr_u
	i64.const	4278190080
	i64.and 
	local.get	7
	i64.const	24
	i64.shr_u
	i64.const	16711680
	i64.and 
	i64.or  
	local.get	7
	i64.const	40
	i64.shr_u
	i64.const	65280
	i64.and 
	local.get	7
	i64.const	56
	i64.shr_u
	i64.or  
	i64.or  
	i32.wrap_i64
	local.get	3
	local.get	2
	i64.add 
	local.tee	10
	i64.const	4
	i64.shr_u
	i32.wrap_i64
	i32.add 
	local.tee	1
	i32.store8	15
	local.get	6
	local.get	1
	i32.const	8
	i32.shr_u
	i32.store8	14
	local.get	6
	local.get	1
	i32.const	16
	i32.shr_u
	i32.store8	13
	local.get	6
	local.get	1
	i32.const	24
	i32.shr_u
	i32.store8	12
	local.get	6
	local.get	12
	i32.store8	2
	local.get	6
	local.get	1
	i32.const	1
	i32.add 
	local.tee	1
	i32.store8	31
	local.get	6
	local.get	1
	i32.const	8
	i32.shr_u
	i32.store8	30
	local.get	6
	local.get	1
	i32.const	16
	i32.shr_u
	i32.store8	29
	local.get	6
	local.get	1
	i32.const	24
	i32.shr_u
	i32.store8	28
	local.get	0
	local.get	10
	i64.const	15
	i64.and 
	local.tee	9
	local.get	5
	local.get	3
	i64.sub 
	local.tee	7
	i64.const	32
	local.get	9
	i64.sub 
	local.tee	8
	local.get	7
	local.get	8
	i64.lt_u
	i64.select
	local.tee	8
	i64.add 
	i64.const	15
	i64.add 
	i64.const	4
	i64.shr_u
	local.get	6
	call	aes_narrow__borrowed_words__BorrowedWordsBlockCipherEncBackend__encrypt_first_blocks____5b4689a38c32c9c5_
	local.get	4
	local.get	3
	i32.wrap_i64
	local.tee	16
	i32.add 
	local.set	17
	block   	
	block   	
	local.get	9
	i64.eqz
	i32.eqz
	br_if   	0                               # 0: down to label58
# %bb.1:
	i64.const	0
	local.set	2
	br      	1                               # 1: down to label57
.LBB31_2:                               # %then.1.i
	end_block                               # label58:
	local.get	8
	i64.const	16
	local.get	9
	i64.sub 
	local.tee	7
	local.get	8
	local.get	7
	i64.lt_u
	i64.select
	local.set	2
	local.get	5
	local.get	3
	i64.eq  
	br_if   	0                               # 0: down to label57
# %bb.3:                                # %join.8.i85.preheader
	i64.const	0
	local.set	7
	block   	
	local.get	2
	i64.const	1
	i64.eq  
	br_if   	0                               # 0: down to label59
# %bb.4:                                # %join.8.i85.preheader.new
	local.get	2
	i64.const	1
	i64.and 
	local.set	11
	local.get	2
	i64.const	30
	i64.and 
	local.set	5
	local.get	6
	local.get	10
	i32.wrap_i64
	i32.const	15
	i32.and 
	i32.add 
	local.set	12
	i64.const	0
	local.set	7
	local.get	17
	local.set	1
.LBB31_5:                               # %join.8.i85
                                        # =>This Inner Loop Header: Depth=1
	loop    	                                # label60:
	local.get	1
	local.get	1
	i32.load8_u	0
	local.get	12
	i32.load8_u	0
	i32.xor 
	i32.store8	0
	local.get	1
	i32.const	1
	i32.add 
	local.tee	0
	local.get	0
	i32.load8_u	0
	local.get	12
	i32.const	1
	i32.add 
	i32.load8_u	0
	i32.xor 
	i32.store8	0
	local.get	1
	i32.const	2
	i32.add 
	local.set	1
	local.get	12
	i32.const	2
	i32.add 
	local.set	12
	local.get	5
	local.get	7
	i64.const	2
	i64.add 
	local.tee	7
	i64.ne  
	br_if   	0                               # 0: up to label60
# %bb.6:                                # %join.3.i.loopexit.unr-lcssa
	end_loop
	local.get	11
	i64.eqz
	br_if   	1                               # 1: down to label57
.LBB31_7:                               # %join.8.i85.epil.preheader
	end_block                               # label59:
	local.get	17
	local.get	7
	i32.wrap_i64
	i32.add 
	local.tee	1
	local.get	1
	i32.load8_u	0
	local.get	6
	local.get	7
	local.get	9
	i64.add 
	i32.wrap_i64
	i32.add 
	i32.load8_u	0
	i32.xor 
	i32.store8	0
.LBB31_8:                               # %join.3.i
	end_block                               # label57:
	block   	
	local.get	8
	local.get	2
	i64.sub 
	local.tee	5
	i64.const	16
	i64.lt_u
	br_if   	0                               # 0: down to label61
# %bb.9:                                # %join.8.i.preheader
	i64.const	0
	local.get	2
	i64.sub 
	local.set	7
	local.get	4
	local.get	2
	i32.wrap_i64
	local.tee	12
	local.get	16
	i32.add 
	i32.add 
	local.set	1
	local.get	10
	i32.wrap_i64
	i32.const	15
	i32.and 
	local.get	12
	i32.add 
	local.set	0
.LBB31_10:                              # %join.8.i
                                        # =>This Inner Loop Header: Depth=1
	loop    	                                # label62:
	local.get	6
	local.get	0
	i32.const	-16
	i32.and 
	i32.add 
	local.tee	12
	i32.load8_u	0
	local.set	13
	local.get	12
	i32.load8_u	1
	local.set	14
	local.get	12
	i32.load8_u	2
	local.set	15
	local.get	12
	i32.load8_u	3
	local.set	18
	local.get	12
	i32.load8_u	4
	local.set	19
	local.get	12
	i32.load8_u	5
	local.set	20
	local.get	12
	i32.load8_u	6
	local.set	21
	local.get	12
	i32.load8_u	7
	local.set	22
	local.get	12
	i32.load8_u	8
	local.set	23
	local.get	12
	i32.load8_u	9
	local.set	24
	local.get	12
	i32.load8_u	10
	local.set	25
	local.get	12
	i32.load8_u	11
	local.set	26
	local.get	12
	i32.load8_u	12
	local.set	27
	local.get	12
	i32.load8_u	13
	local.set	28
	local.get	12
	i32.load8_u	14
	local.set	29
	local.get	1
	i32.load8_u	0
	local.set	30
	local.get	1
	i32.load8_u	1
	local.set	31
	local.get	1
	i32.load8_u	2
	local.set	32
	local.get	1
	i32.load8_u	3
	local.set	33
	local.get	1
	i32.load8_u	4
	local.set	34
	local.get	1
	i32.load8_u	5
	local.set	35
	local.get	1
	i32.load8_u	6
	local.set	36
	local.get	1
	i32.load8_u	7
	local.set	37
	local.get	1
	i32.load8_u	8
	local.set	38
	local.get	1
	i32.load8_u	9
	local.set	39
	local.get	1
	i32.load8_u	10
	local.set	40
	local.get	1
	i32.load8_u	11
	local.set	41
	local.get	1
	i32.load8_u	12
	local.set	42
	local.get	1
	i32.load8_u	13
	local.set	43
	local.get	1
	i32.load8_u	14
	local.set	44
	local.get	1
	local.get	12
	i32.load8_u	15
	local.get	1
	i32.load8_u	15
	i32.xor 
	i32.store8	15
	local.get	1
	local.get	29
	local.get	44
	i32.xor 
	i32.store8	14
	local.get	1
	local.get	28
	local.get	43
	i32.xor 
	i32.store8	13
	local.get	1
	local.get	27
	local.get	42
	i32.xor 
	i32.store8	12
	local.get	1
	local.get	26
	local.get	41
	i32.xor 
	i32.store8	11
	local.get	1
	local.get	25
	local.get	40
	i32.xor 
	i32.store8	10
	local.get	1
	local.get	24
	local.get	39
	i32.xor 
	i32.store8	9
	local.get	1
	local.get	23
	local.get	38
	i32.xor 
	i32.store8	8
	local.get	1
	local.get	22
	local.get	37
	i32.xor 
	i32.store8	7
	local.get	1
	local.get	21
	local.get	36
	i32.xor 
	i32.store8	6
	local.get	1
	local.get	20
	local.get	35
	i32.xor 
	i32.store8	5
	local.get	1
	local.get	19
	local.get	34
	i32.xor 
	i32.store8	4
	local.get	1
	local.get	18
	local.get	33
	i32.xor 
	i32.store8	3
	local.get	1
	local.get	15
	local.get	32
	i32.xor 
	i32.store8	2
	local.get	1
	local.get	14
	local.get	31
	i32.xor 
	i32.store8	1
	local.get	1
	local.get	13
	local.get	30
	i32.xor 
	i32.store8	0
	local.get	1
	i32.const	16
	i32.add 
	local.set	1
	local.get	0
	i32.const	16
	i32.add 
	local.set	0
	local.get	8
	local.get	7
	i64.const	-16
	i64.add 
	local.tee	7
	i64.add 
	local.tee	5
	i64.const	15
	i64.gt_u
	br_if   	0                               # 0: up to label62
# %bb.11:                               # %after.4.i.loopexit
	end_loop
	i64.const	0
	local.get	7
	i64.sub 
	local.set	2
.LBB31_12:                              # %after.4.i
	end_block                               # label61:
	block   	
	local.get	2
	local.get	8
	i64.ge_u
	br_if   	0                               # 0: down to label63
# %bb.13:                               # %then.9.i
	local.get	5
	i64.eqz
	br_if   	0                               # 0: down to label63
# %bb.14:                               # %join.8.i28.preheader
	local.get	2
	i32.wrap_i64
	local.set	13
	local.get	2
	local.get	9
	i64.add 
	i32.wrap_i64
	i32.const	-16
	i32.and 
	local.set	14
	local.get	5
	i64.const	3
	i64.and 
	local.set	7
	i64.const	0
	local.set	2
	block   	
	local.get	5
	i64.const	4
	i64.lt_u
	br_if   	0                               # 0: down to label64
# %bb.15:                               # %join.8.i28.preheader.new
	local.get	17
	local.get	13
	i32.add 
	local.set	1
	local.get	6
	local.get	14
	i32.add 
	local.set	12
	i64.const	0
	local.set	2
	i64.const	0
	local.get	5
	i64.const	12
	i64.and 
	i64.sub 
	local.set	5
.LBB31_16:                              # %join.8.i28
                                        # =>This Inner Loop Header: Depth=1
	loop    	                                # label65:
	local.get	1
	local.get	1
	i32.load8_u	0
	local.get	12
	i32.load8_u	0
	i32.xor 
	i32.store8	0
	local.get	1
	i32.const	1
	i32.add 
	local.tee	0
	local.get	0
	i32.load8_u	0
	local.get	12
	i32.const	1
	i32.add 
	i32.load8_u	0
	i32.xor 
	i32.store8	0
	local.get	1
	i32.const	2
	i32.add 
	local.tee	0
	local.get	0
	i32.load8_u	0
	local.get	12
	i32.const	2
	i32.add 
	i32.load8_u	0
	i32.xor 
	i32.store8	0
	local.get	1
	i32.const	3
	i32.add 
	local.tee	0
	local.get	0
	i32.load8_u	0
	local.get	12
	i32.const	3
	i32.add 
	i32.load8_u	0
	i32.xor 
	i32.store8	0
	local.get	1
	i32.const	4
	i32.add 
	local.set	1
	local.get	12
	i32.const	4
	i32.add 
	local.set	12
	local.get	5
	local.get	2
	i64.const	-4
	i64.add 
	local.tee	2
	i64.ne  
	br_if   	0                               # 0: up to label65
# %bb.17:                               # %aes_ctr__add_blocks__add_blocks.exit.loopexit.unr-lcssa
	end_loop
	local.get	7
	i64.eqz
	br_if   	1                               # 1: down to label63
# %bb.18:
	i64.const	0
	local.get	2
	i64.sub 
	local.set	2
.LBB31_19:                              # %join.8.i28.epil.preheader
	end_block                               # label64:
	local.get	4
	local.get	13
	local.get	2
	i32.wrap_i64
	local.tee	12
	i32.add 
	local.get	16
	i32.add 
	i32.add 
	local.set	1
	local.get	6
	local.get	14
	local.get	12
	i32.add 
	i32.add 
	local.set	12
.LBB31_20:                              # %join.8.i28.epil
                                        # =>This Inner Loop Header: Depth=1
	loop    	                                # label66:
	local.get	1
	local.get	1
	i32.load8_u	0
	local.get	12
	i32.load8_u	0
	i32.xor 
	i32.store8	0
	local.get	12
	i32.const	1
	i32.add 
	local.set	12
	local.get	1
	i32.const	1
	i32.add 
	local.set	1
	local.get	7
	i64.const	-1
	i64.add 
	local.tee	7
	i64.const	0
	i64.ne  
	br_if   	0                               # 0: up to label66
.LBB31_21:                              # %aes_ctr__add_blocks__add_blocks.exit
	end_loop
	end_block                               # label63:
	local.get	6
	i32.const	256
	i32.add 
	global.set	__stack_pointer
	local.get	8
	local.get	3
	i64.add 
                                        # fallthrough-return
	end_function
                                        # -- End function
	.section	.text.aes_narrow__borrowed_words__BorrowedWordsBlockCipherEncBackend__encrypt_first_blocks____5b4689a38c32c9c5_,"",@
	.type	aes_narrow__borrowed_words__BorrowedWordsBlockCipherEncBackend__encrypt_first_blocks____5b4689a38c32c9c5_,@function # -- Begin function aes_narrow__borrowed_words__BorrowedWordsBlockCipherEncBackend__encrypt_first_blocks____5b4689a38c32c9c5_
aes_narrow__borrowed_words__BorrowedWordsBlockCipherEncBackend__encrypt_first_blocks____5b4689a38c32c9c5_: # @aes_narrow__borrowed_words__BorrowedWordsBlockCipherEncBackend__encrypt_first_blocks____5b4689a38c32c9c5_
	.functype	aes_narrow__borrowed_words__BorrowedWordsBlockCipherEncBackend__encrypt_first_blocks____5b4689a38c32c9c5_ (i32, i64, i32) -> ()
	.local  	i64
# %bb.0:                                # %start
	local.get	0
	i64.load	8:p2align=0
	local.set	3
	local.get	0
	i32.load	0:p2align=0
	local.set	0
	block   	
	local.get	1
	i64.const	1
	i64.ne  
	br_if   	0                               # 0: down to label67
# %bb.1:                                # %then.1.i
	local.get	0
	local.get	3
	local.get	2
	i64.const	1
	call	aes_soft__soft__blocks__filled_up__process_filled_up____f6c900d3ac1e47b9_
	return
.LBB32_2:                               # %else.2.i
	end_block                               # label67:
	local.get	0
	local.get	3
	local.get	2
	i64.const	2
	call	aes_soft__soft__blocks__filled_up__process_filled_up____f6c900d3ac1e47b9_
                                        # fallthrough-return
	end_function
                                        # -- End function
	.section	.text.aes_cipher__zeroize__stack__wipe_stack____2032_,"",@
	.type	aes_cipher__zeroize__stack__wipe_stack____2032_,@function # -- Begin function aes_cipher__zeroize__stack__wipe_stack____2032_
aes_cipher__zeroize__stack__wipe_stack____2032_: # @aes_cipher__zeroize__stack__wipe_stack____2032_
	.functype	aes_cipher__zeroize__stack__wipe_stack____2032_ () -> ()
	.local  	i32, i64
# %bb.0:                                # %start
	global.get	__stack_pointer
	i32.const	2048
	i32.sub 
	local.tee	0
	global.set	__stack_pointer
	local.get	0
	i32.const	16
	i32.add 
	i32.const	0
	i32.const	2032
	call	memset
	drop
	local.get	0
	i64.const	0
	i64.store	8
	#APP
	#NO_APP
	local.get	0
	i64.load	8
	local.set	1
	#APP
	#NO_APP
	block   	
	local.get	1
	i64.const	2032
	i64.ge_u
	br_if   	0                               # 0: down to label68
# %bb.1:                                # %then.1
	local.get	0
	i32.const	16
	i32.add 
	local.get	1
	i32.wrap_i64
	i32.add 
	i64.load8_u	0
	local.set	1
	#APP
	#NO_APP
	local.get	0
	i64.load	8
	drop
	local.get	0
	local.get	1
	i64.store	8
	#APP
	#NO_APP
.LBB33_2:                               # %common.ret
	end_block                               # label68:
	local.get	0
	i32.const	2048
	i32.add 
	global.set	__stack_pointer
                                        # fallthrough-return
	end_function
                                        # -- End function
	.section	.text.aes_cipher__zeroize__stack__wipe_stack____1536_,"",@
	.type	aes_cipher__zeroize__stack__wipe_stack____1536_,@function # -- Begin function aes_cipher__zeroize__stack__wipe_stack____1536_
aes_cipher__zeroize__stack__wipe_stack____1536_: # @aes_cipher__zeroize__stack__wipe_stack____1536_
	.functype	aes_cipher__zeroize__stack__wipe_stack____1536_ () -> ()
	.local  	i32, i64
# %bb.0:                                # %start
	global.get	__stack_pointer
	i32.const	1552
	i32.sub 
	local.tee	0
	global.set	__stack_pointer
	local.get	0
	i32.const	16
	i32.add 
	i32.const	0
	i32.const	1536
	call	memset
	drop
	local.get	0
	i64.const	0
	i64.store	8
	#APP
	#NO_APP
	local.get	0
	i64.load	8
	local.set	1
	#APP
	#NO_APP
	block   	
	local.get	1
	i64.const	1536
	i64.ge_u
	br_if   	0                               # 0: down to label69
# %bb.1:                                # %then.1
	local.get	0
	i32.const	16
	i32.add 
	local.get	1
	i32.wrap_i64
	i32.add 
	i64.load8_u	0
	local.set	1
	#APP
	#NO_APP
	local.get	0
	i64.load	8
	drop
	local.get	0
	local.get	1
	i64.store	8
	#APP
	#NO_APP
.LBB34_2:                               # %common.ret
	end_block                               # label69:
	local.get	0
	i32.const	1552
	i32.add 
	global.set	__stack_pointer
                                        # fallthrough-return
	end_function
                                        # -- End function
	.section	.text.gcm_c__whole__fotsgure_gcm_seal,"",@
	.type	gcm_c__whole__fotsgure_gcm_seal,@function # -- Begin function gcm_c__whole__fotsgure_gcm_seal
gcm_c__whole__fotsgure_gcm_seal:        # @gcm_c__whole__fotsgure_gcm_seal
	.functype	gcm_c__whole__fotsgure_gcm_seal (i32, i32, i64, i32, i64, i32, i64, i32) -> (i32)
	.local  	i32, i32, i32, i32
# %bb.0:                                # %start
	global.get	__stack_pointer
	i32.const	64
	i32.sub 
	local.tee	8
	global.set	__stack_pointer
	block   	
	block   	
	local.get	2
	i64.eqz
	i32.eqz
	br_if   	0                               # 0: down to label71
# %bb.1:
	i32.const	3
	local.set	9
	br      	1                               # 1: down to label70
.LBB35_2:                               # %after.11.i
	end_block                               # label71:
	i32.const	2
	local.set	9
	local.get	0
	i32.load	0
	local.tee	10
	i32.const	-16
	i32.add 
	local.tee	11
	i32.const	16
	i32.gt_u
	br_if   	0                               # 0: down to label70
# %bb.3:                                # %after.11.i
	i32.const	1
	local.get	11
	i32.shl 
	i32.const	65793
	i32.and 
	i32.eqz
	br_if   	0                               # 0: down to label70
# %bb.4:                                # %join.3
	i32.const	0
	local.set	9
	local.get	8
	i32.const	0
	i32.store	44
	local.get	8
	i32.const	0
	i32.store	28
	local.get	8
	local.get	0
	i32.const	484
	i32.add 
	i32.store	40
	local.get	8
	local.get	0
	i32.const	4
	i32.add 
	i32.store	24
	local.get	8
	local.get	10
	i64.extend_i32_u
	i64.const	1
	i64.shl 
	i64.const	56
	i64.add 
	i64.store	32
	local.get	8
	i32.const	24
	i32.add 
	local.get	1
	local.get	2
	local.get	8
	i32.const	48
	i32.add 
	call	gcm__mode__BorrowedGcm__put_pre_counter____c01aad2b5fbc92b1_
	local.get	8
	i32.const	24
	i32.add 
	local.get	8
	i32.const	48
	i32.add 
	i64.const	16
	local.get	5
	local.get	6
	call	gcm__gctr__add_gctr____099a9bc28799ce6c_
	local.get	8
	i32.const	24
	i32.add 
	local.get	8
	i32.const	48
	i32.add 
	local.get	3
	local.get	4
	local.get	5
	local.get	6
	local.get	8
	i32.const	8
	i32.add 
	call	gcm__mode__BorrowedGcm__put_tag____c01aad2b5fbc92b1_
	local.get	8
	i32.const	48
	i32.add 
	call	aes_cipher__zeroize__elements__zeroize_elements____3b2097f0eef5a37b_
	call	aes_cipher__zeroize__stack__wipe_stack____1536_
	local.get	7
	local.get	8
	i64.load	16:p2align=0
	i64.store	8:p2align=0
	local.get	7
	local.get	8
	i64.load	8:p2align=0
	i64.store	0:p2align=0
.LBB35_5:                               # %common.ret
	end_block                               # label70:
	local.get	8
	i32.const	64
	i32.add 
	global.set	__stack_pointer
	local.get	9
                                        # fallthrough-return
	end_function
                                        # -- End function
	.section	.text.gcm_c__whole_to__copy,"",@
	.type	gcm_c__whole_to__copy,@function # -- Begin function gcm_c__whole_to__copy
gcm_c__whole_to__copy:                  # @gcm_c__whole_to__copy
	.functype	gcm_c__whole_to__copy (i32, i64, i32) -> ()
	.local  	i64, i64, i32, i32, i32
# %bb.0:                                # %start
	block   	
	local.get	2
	i64.extend_i32_u
	local.get	0
	i64.extend_i32_u
	i64.sub 
	local.get	1
	i64.ge_u
	br_if   	0                               # 0: down to label72
# %bb.1:                                # %join.7.i.i.i.i.i.i.preheader
	local.get	1
	i64.const	3
	i64.and 
	local.set	3
	i64.const	0
	local.set	4
	block   	
	block   	
	local.get	1
	i64.const	4
	i64.lt_u
	br_if   	0                               # 0: down to label74
# %bb.2:                                # %join.7.i.i.i.i.i.i.preheader.new
	local.get	1
	i64.const	4294967292
	i64.and 
	local.set	1
	i64.const	0
	local.set	4
	i32.const	0
	local.set	5
.LBB36_3:                               # %join.7.i.i.i.i.i.i
                                        # =>This Inner Loop Header: Depth=1
	loop    	                                # label75:
	local.get	2
	local.get	5
	i32.add 
	local.tee	6
	local.get	0
	local.get	5
	i32.add 
	local.tee	7
	i32.load8_u	0
	i32.store8	0
	local.get	6
	i32.const	1
	i32.add 
	local.get	7
	i32.const	1
	i32.add 
	i32.load8_u	0
	i32.store8	0
	local.get	6
	i32.const	2
	i32.add 
	local.get	7
	i32.const	2
	i32.add 
	i32.load8_u	0
	i32.store8	0
	local.get	6
	i32.const	3
	i32.add 
	local.get	7
	i32.const	3
	i32.add 
	i32.load8_u	0
	i32.store8	0
	local.get	5
	i32.const	4
	i32.add 
	local.set	5
	local.get	1
	local.get	4
	i64.const	4
	i64.add 
	local.tee	4
	i64.ne  
	br_if   	0                               # 0: up to label75
# %bb.4:                                # %core__slice__edits__slice_T__copy_from_slice___i8_20_core__clone__U8Clone___.exit.loopexit.unr-lcssa
	end_loop
	local.get	3
	i64.eqz
	br_if   	1                               # 1: down to label73
.LBB36_5:                               # %join.7.i.i.i.i.i.i.epil.preheader
	end_block                               # label74:
	local.get	2
	local.get	4
	i32.wrap_i64
	local.tee	6
	i32.add 
	local.set	5
	local.get	0
	local.get	6
	i32.add 
	local.set	6
.LBB36_6:                               # %join.7.i.i.i.i.i.i.epil
                                        # =>This Inner Loop Header: Depth=1
	loop    	                                # label76:
	local.get	5
	local.get	6
	i32.load8_u	0
	i32.store8	0
	local.get	5
	i32.const	1
	i32.add 
	local.set	5
	local.get	6
	i32.const	1
	i32.add 
	local.set	6
	local.get	3
	i64.const	-1
	i64.add 
	local.tee	3
	i64.const	0
	i64.ne  
	br_if   	0                               # 0: up to label76
.LBB36_7:                               # %core__slice__edits__slice_T__copy_from_slice___i8_20_core__clone__U8Clone___.exit
	end_loop
	end_block                               # label73:
	return
.LBB36_8:                               # %apart.2.i.i.i.i.i.i
	end_block                               # label72:
	local.get	2
	local.get	0
	local.get	1
	i32.wrap_i64
	call	memmove
	drop
                                        # fallthrough-return
	end_function
                                        # -- End function
	.section	.text.gcm_c__siv__fotsgure_gcm_siv_open,"",@
	.type	gcm_c__siv__fotsgure_gcm_siv_open,@function # -- Begin function gcm_c__siv__fotsgure_gcm_siv_open
gcm_c__siv__fotsgure_gcm_siv_open:      # @gcm_c__siv__fotsgure_gcm_siv_open
	.functype	gcm_c__siv__fotsgure_gcm_siv_open (i32, i32, i32, i64, i32, i64, i32) -> (i32)
	.local  	i32, i32, i32, i64
# %bb.0:                                # %start
	global.get	__stack_pointer
	i32.const	16
	i32.sub 
	local.tee	7
	global.set	__stack_pointer
	i32.const	2
	local.set	8
	block   	
	block   	
	local.get	0
	i32.load	0
	local.tee	9
	i32.const	-16
	i32.add 
	br_table 	{0, 1, 1, 1, 1, 1, 1, 1, 1, 1, 1, 1, 1, 1, 1, 1, 0, 1} # 1: down to label77
                                        # 0: down to label78
.LBB37_1:                               # %join.3
	end_block                               # label78:
	local.get	7
	local.get	0
	i32.const	4
	i32.add 
	i32.store	0
	local.get	7
	local.get	9
	i64.extend_i32_u
	local.tee	10
	i64.const	1
	i64.shl 
	i64.const	56
	i64.add 
	i64.store	8
	local.get	7
	i32.const	0
	i32.store	4
	i32.const	0
	i32.const	6
	local.get	7
	local.get	10
	local.get	1
	local.get	2
	local.get	3
	local.get	4
	local.get	5
	local.get	6
	call	gcm_siv__course__open_in____a4ece9b7a9859b66_
	i32.select
	local.set	8
.LBB37_2:                               # %common.ret
	end_block                               # label77:
	local.get	7
	i32.const	16
	i32.add 
	global.set	__stack_pointer
	local.get	8
                                        # fallthrough-return
	end_function
                                        # -- End function
	.section	.text.gcm_siv__course__open_in____a4ece9b7a9859b66_,"",@
	.type	gcm_siv__course__open_in____a4ece9b7a9859b66_,@function # -- Begin function gcm_siv__course__open_in____a4ece9b7a9859b66_
gcm_siv__course__open_in____a4ece9b7a9859b66_: # @gcm_siv__course__open_in____a4ece9b7a9859b66_
	.functype	gcm_siv__course__open_in____a4ece9b7a9859b66_ (i32, i64, i32, i32, i64, i32, i64, i32) -> (i32)
	.local  	i32, i32
# %bb.0:                                # %start
	global.get	__stack_pointer
	i32.const	512
	i32.sub 
	local.tee	8
	global.set	__stack_pointer
	local.get	8
	i32.const	16
	i32.add 
	i32.const	0
	i32.const	480
	call	memset
	local.set	9
	local.get	8
	i32.const	0
	i32.store	12
	local.get	0
	local.get	1
	local.get	2
	local.get	8
	i32.const	12
	i32.add 
	local.get	8
	i32.const	496
	i32.add 
	call	gcm_siv__keys__derive_and_prepare____a4ece9b7a9859b66_
	local.get	8
	i32.const	12
	i32.add 
	local.get	8
	i32.const	496
	i32.add 
	local.get	2
	local.get	3
	local.get	4
	local.get	5
	local.get	6
	local.get	7
	call	gcm_siv__message__open____bc93ff5f0cc4cd41_
	local.set	2
	local.get	8
	i32.const	0
	i32.store	12
	local.get	9
	call	aes_cipher__zeroize__elements__zeroize_elements____54a2bb646728b9ee_
	local.get	8
	i32.const	496
	i32.add 
	call	aes_cipher__zeroize__elements__zeroize_elements____d3d1c9d97fea966e_
	call	aes_cipher__zeroize__stack__wipe_stack____2816_
	local.get	8
	i32.const	512
	i32.add 
	global.set	__stack_pointer
	local.get	2
                                        # fallthrough-return
	end_function
                                        # -- End function
	.section	.text.gcm_siv__keys__derive_and_prepare____a4ece9b7a9859b66_,"",@
	.type	gcm_siv__keys__derive_and_prepare____a4ece9b7a9859b66_,@function # -- Begin function gcm_siv__keys__derive_and_prepare____a4ece9b7a9859b66_
gcm_siv__keys__derive_and_prepare____a4ece9b7a9859b66_: # @gcm_siv__keys__derive_and_prepare____a4ece9b7a9859b66_
	.functype	gcm_siv__keys__derive_and_prepare____a4ece9b7a9859b66_ (i32, i64, i32, i32, i32) -> ()
	.local  	i32, i32, i64, i64, i64, i64
# %bb.0:                                # %start
	global.get	__stack_pointer
	i32.const	96
	i32.sub 
	local.tee	5
	global.set	__stack_pointer
	local.get	5
	i32.const	0
	i32.store	0
	local.get	5
	i32.const	1
	i32.store	16
	local.get	5
	i32.const	2
	i32.store	32
	local.get	5
	i32.const	3
	i32.store	48
	local.get	5
	i32.const	5
	i32.store	80
	local.get	5
	local.get	2
	i32.load	8:p2align=0
	local.tee	6
	i32.store	12
	local.get	5
	local.get	2
	i64.load	0:p2align=0
	local.tee	7
	i64.store	4:p2align=2
	local.get	5
	local.get	7
	i64.store	20:p2align=2
	local.get	5
	local.get	6
	i32.store	28
	local.get	5
	local.get	7
	i64.store	36:p2align=2
	local.get	5
	local.get	6
	i32.store	44
	local.get	5
	local.get	7
	i64.store	52:p2align=2
	local.get	5
	local.get	6
	i32.store	60
	local.get	5
	local.get	7
	i64.store	68:p2align=2
	local.get	5
	local.get	6
	i32.store	76
	local.get	5
	local.get	7
	i64.store	84:p2align=2
	local.get	5
	local.get	6
	i32.store	92
	local.get	5
	i32.const	4
	i32.store	64
	local.get	0
	i32.load	0:p2align=0
	local.get	0
	i64.load	8:p2align=0
	local.get	5
	local.get	1
	i64.const	3
	i64.shr_u
	i64.const	2
	i64.add 
	call	aes_narrow__blocks__process_all_batches____f6c900d3ac1e47b9_
	call	aes_cipher__zeroize__stack__wipe_stack____1024_
	local.get	4
	local.get	5
	i64.load	0
	local.tee	8
	i64.const	33
	i64.shr_u
	i64.store8	11
	local.get	4
	local.get	8
	i64.const	41
	i64.shr_u
	i64.store8	10
	local.get	4
	local.get	8
	i64.const	49
	i64.shr_u
	i64.store8	9
	local.get	4
	local.get	5
	i64.load	16
	local.tee	7
	i64.const	33
	i64.shr_u
	i64.store8	3
	local.get	4
	local.get	7
	i64.const	41
	i64.shr_u
	i64.store8	2
	local.get	4
	local.get	7
	i64.const	49
	i64.shr_u
	i64.store8	1
	local.get	4
	local.get	8
	i64.const	1
	i64.shr_u
	local.tee	9
	i32.wrap_i64
	local.tee	6
	i32.store8	15
	local.get	4
	local.get	7
	i64.const	1
	i64.shr_u
	local.tee	10
	i32.wrap_i64
	local.tee	2
	i32.store8	7
	local.get	4
	local.get	6
	i32.const	8
	i32.shr_u
	i32.store8	14
	i32.const	16
	local.set	0
	local.get	4
	local.get	6
	i32.const	16
	i32.shr_u
	i32.store8	13
	local.get	4
	local.get	6
	i32.const	24
	i32.shr_u
	i32.store8	12
	local.get	4
	local.get	9
	local.get	7
	i64.const	63
	i64.shl 
	i64.or  
	i64.const	56
	i64.shr_u
	i64.store8	8
	local.get	4
	local.get	2
	i32.const	8
	i32.shr_u
	i32.store8	6
	local.get	4
	local.get	2
	i32.const	16
	i32.shr_u
	i32.store8	5
	local.get	4
	local.get	2
	i32.const	24
	i32.shr_u
	i32.store8	4
	local.get	4
	local.get	10
	i64.const	0
	local.get	8
	i64.const	1
	i64.and 
	i64.sub 
	i64.const	-2233785415175766016
	i64.and 
	i64.xor 
	i64.const	56
	i64.shr_u
	i64.store8	0
	local.get	5
	local.get	7
	i64.store	8
	local.get	5
	i64.load	32
	local.set	7
	local.get	5
	local.get	5
	i64.load	64
	i64.store	32
	local.get	5
	local.get	5
	i64.load	48
	i64.store	24
	local.get	5
	local.get	7
	i64.store	16
	local.get	5
	local.get	5
	i64.load	80
	i64.store	40
	local.get	3
	i32.const	4
	i32.add 
	i32.const	0
	i32.const	480
	call	memset
	local.set	4
	local.get	5
	i32.const	16
	i32.add 
	local.set	6
	block   	
	block   	
	local.get	1
	i64.const	16
	i64.ne  
	br_if   	0                               # 0: down to label80
# %bb.1:                                # %then.1.i
	local.get	4
	local.get	6
	i64.const	16
	call	aes_narrow__word_room__expand_words____6af90bfc14753d47_
	call	aes_cipher__zeroize__stack__wipe_stack____768_
	br      	1                               # 1: down to label79
.LBB39_2:                               # %else.2.i
	end_block                               # label80:
	local.get	4
	local.get	6
	i64.const	32
	call	aes_narrow__word_room__expand_words____6af90bfc14753d47_
	call	aes_cipher__zeroize__stack__wipe_stack____768_
	i32.const	32
	local.set	0
.LBB39_3:                               # %gcm_siv__keys__set_encryption_key____a556ffa628b2ee02_.exit
	end_block                               # label79:
	local.get	3
	local.get	0
	i32.store	0
	local.get	5
	i64.const	6
	call	aes_cipher__zeroize__elements__zeroize_elements____82a118249f09cfc6_
	local.get	5
	i32.const	96
	i32.add 
	global.set	__stack_pointer
                                        # fallthrough-return
	end_function
                                        # -- End function
	.section	.text.aes_cipher__zeroize__elements__zeroize_elements____82a118249f09cfc6_,"",@
	.type	aes_cipher__zeroize__elements__zeroize_elements____82a118249f09cfc6_,@function # -- Begin function aes_cipher__zeroize__elements__zeroize_elements____82a118249f09cfc6_
aes_cipher__zeroize__elements__zeroize_elements____82a118249f09cfc6_: # @aes_cipher__zeroize__elements__zeroize_elements____82a118249f09cfc6_
	.functype	aes_cipher__zeroize__elements__zeroize_elements____82a118249f09cfc6_ (i32, i64) -> ()
	.local  	i32, i64, i32, i32
# %bb.0:                                # %start
	global.get	__stack_pointer
	i32.const	16
	i32.sub 
	local.tee	2
	i64.const	0
	i64.store	8
	#APP
	#NO_APP
	local.get	2
	i64.load	8
	local.set	3
	#APP
	#NO_APP
	i32.const	0
	local.set	4
	block   	
	local.get	3
	local.get	1
	i64.ge_u
	local.tee	5
	br_if   	0                               # 0: down to label81
# %bb.1:                                # %then.1.i8
	local.get	0
	local.get	3
	i32.wrap_i64
	i32.const	4
	i32.shl 
	i32.add 
	i32.load8_u	0
	local.set	4
.LBB40_2:                               # %join.6.i
	end_block                               # label81:
	local.get	0
	i64.const	0
	i64.store	8:p2align=0
	local.get	0
	i64.const	0
	i64.store	0:p2align=0
	block   	
	local.get	1
	i64.const	1
	i64.eq  
	br_if   	0                               # 0: down to label82
# %bb.3:                                # %join.6.i.1
	local.get	0
	i32.const	24
	i32.add 
	i64.const	0
	i64.store	0:p2align=0
	local.get	0
	i32.const	16
	i32.add 
	i64.const	0
	i64.store	0:p2align=0
	local.get	1
	i64.const	2
	i64.eq  
	br_if   	0                               # 0: down to label82
# %bb.4:                                # %join.6.i.2
	local.get	0
	i32.const	40
	i32.add 
	i64.const	0
	i64.store	0:p2align=0
	local.get	0
	i32.const	32
	i32.add 
	i64.const	0
	i64.store	0:p2align=0
	local.get	1
	i64.const	3
	i64.eq  
	br_if   	0                               # 0: down to label82
# %bb.5:                                # %join.6.i.3
	local.get	0
	i32.const	56
	i32.add 
	i64.const	0
	i64.store	0:p2align=0
	local.get	0
	i32.const	48
	i32.add 
	i64.const	0
	i64.store	0:p2align=0
	local.get	1
	i64.const	4
	i64.eq  
	br_if   	0                               # 0: down to label82
# %bb.6:                                # %join.6.i.4
	local.get	0
	i32.const	72
	i32.add 
	i64.const	0
	i64.store	0:p2align=0
	local.get	0
	i32.const	64
	i32.add 
	i64.const	0
	i64.store	0:p2align=0
	local.get	1
	i64.const	5
	i64.eq  
	br_if   	0                               # 0: down to label82
# %bb.7:                                # %join.6.i.5
	local.get	0
	i32.const	88
	i32.add 
	i64.const	0
	i64.store	0:p2align=0
	local.get	0
	i32.const	80
	i32.add 
	i64.const	0
	i64.store	0:p2align=0
.LBB40_8:                               # %aes_cipher__zeroize__overwrite____8c2be25e1e7027ab_.exit
	end_block                               # label82:
	i64.const	0
	local.set	1
	block   	
	local.get	5
	br_if   	0                               # 0: down to label83
# %bb.9:                                # %then.1.i
	local.get	0
	local.get	3
	i32.wrap_i64
	i32.const	4
	i32.shl 
	i32.add 
	i32.load8_u	0
	local.get	4
	i32.and 
	i64.extend_i32_u
	i64.const	255
	i64.and 
	local.set	1
.LBB40_10:                              # %aes_cipher__zeroize__observe____aefc49fcc22ee515_.exit
	end_block                               # label83:
	#APP
	#NO_APP
	local.get	2
	i64.load	8
	drop
	local.get	2
	local.get	1
	i64.store	8
	#APP
	#NO_APP
                                        # fallthrough-return
	end_function
                                        # -- End function
	.section	.text.gcm_siv__message__open____bc93ff5f0cc4cd41_,"",@
	.type	gcm_siv__message__open____bc93ff5f0cc4cd41_,@function # -- Begin function gcm_siv__message__open____bc93ff5f0cc4cd41_
gcm_siv__message__open____bc93ff5f0cc4cd41_: # @gcm_siv__message__open____bc93ff5f0cc4cd41_
	.functype	gcm_siv__message__open____bc93ff5f0cc4cd41_ (i32, i32, i32, i32, i64, i32, i64, i32) -> (i32)
	.local  	i32
# %bb.0:                                # %start
	global.get	__stack_pointer
	i32.const	16
	i32.sub 
	local.tee	8
	global.set	__stack_pointer
	local.get	0
	local.get	7
	local.get	5
	local.get	6
	call	gcm_siv__message__process_text____a556ffa628b2ee02_
	local.get	0
	local.get	1
	local.get	2
	local.get	3
	local.get	4
	local.get	5
	local.get	6
	local.get	8
	call	gcm_siv__message__put_tag____bc93ff5f0cc4cd41_
	local.get	7
	local.get	8
	call	aes_cipher__blocks__difference
	local.set	3
	local.get	8
	i64.const	1
	call	aes_cipher__zeroize__elements__zeroize_elements____82a118249f09cfc6_
	block   	
	local.get	3
	i32.eqz
	br_if   	0                               # 0: down to label84
# %bb.1:                                # %join.3
	local.get	0
	local.get	7
	local.get	5
	local.get	6
	call	gcm_siv__message__process_text____a556ffa628b2ee02_
.LBB41_2:                               # %common.ret
	end_block                               # label84:
	local.get	8
	i32.const	16
	i32.add 
	global.set	__stack_pointer
	local.get	3
	i32.eqz
                                        # fallthrough-return
	end_function
                                        # -- End function
	.section	.text.gcm_siv__message__put_tag____bc93ff5f0cc4cd41_,"",@
	.type	gcm_siv__message__put_tag____bc93ff5f0cc4cd41_,@function # -- Begin function gcm_siv__message__put_tag____bc93ff5f0cc4cd41_
gcm_siv__message__put_tag____bc93ff5f0cc4cd41_: # @gcm_siv__message__put_tag____bc93ff5f0cc4cd41_
	.functype	gcm_siv__message__put_tag____bc93ff5f0cc4cd41_ (i32, i32, i32, i32, i64, i32, i64, i32) -> ()
	.local  	i32, i64, i64, i64, i64, i64, i32, i32, i32, i32, i32, i32, i32, i32, i32, i32, i32, i32, i32, i32, i32, i32, i32, i32, i32, i32, i32, i32
# %bb.0:                                # %start
	global.get	__stack_pointer
	i32.const	64
	i32.sub 
	local.tee	8
	global.set	__stack_pointer
	local.get	8
	local.get	1
	i64.load	0:p2align=0
	local.tee	9
	i64.const	56
	i64.shl 
	local.get	9
	i64.const	65280
	i64.and 
	i64.const	40
	i64.shl 
	i64.or  
	local.get	9
	i64.const	16711680
	i64.and 
	i64.const	24
	i64.shl 
	local.get	9
	i64.const	4278190080
	i64.and 
	i64.const	8
	i64.shl 
	i64.or  
	i64.or  
	local.get	9
	i64.const	8
	i64.shr_u
	i64.const	4278190080
	i64.and 
	local.get	9
	i64.const	24
	i64.shr_u
	i64.const	16711680
	i64.and 
	i64.or  
	local.get	9
	i64.const	40
	i64.shr_u
	i64.const	65280
	i64.and 
	local.get	9
	i64.const	56
	i64.shr_u
	i64.or  
	i64.or  
	i64.or  
	local.tee	10
	i64.store	56
	local.get	8
	local.get	1
	i64.load	8:p2align=0
	local.tee	9
	i64.const	56
	i64.shl 
	local.get	9
	i64.const	65280
	i64.and 
	i64.const	40
	i64.shl 
	i64.or  
	local.get	9
	i64.const	16711680
	i64.and 
	i64.const	24
	i64.shl 
	local.get	9
	i64.const	4278190080
	i64.and 
	i64.const	8
	i64.shl 
	i64.or  
	i64.or  
	local.get	9
	i64.const	8
	i64.shr_u
	i64.const	4278190080
	i64.and 
	local.get	9
	i64.const	24
	i64.shr_u
	i64.const	16711680
	i64.and 
	i64.or  
	local.get	9
	i64.const	40
	i64.shr_u
	i64.const	65280
	i64.and 
	local.get	9
	i64.const	56
	i64.shr_u
	i64.or  
	i64.or  
	i64.or  
	local.tee	9
	i64.store	48
	local.get	8
	i32.const	32
	i32.add 
	local.get	8
	i32.const	48
	i32.add 
	i64.const	0
	i64.const	0
	local.get	3
	local.get	4
	call	gcm__single_blocks__hash_singly____4042f4b97f1aa5e1_
	local.get	8
	i32.const	16
	i32.add 
	local.get	8
	i32.const	48
	i32.add 
	local.get	8
	i64.load	32
	local.get	8
	i64.load	40
	local.get	5
	local.get	6
	call	gcm__single_blocks__hash_singly____4042f4b97f1aa5e1_
	local.get	8
	local.get	8
	i64.load	16
	local.get	4
	i64.const	11
	i64.shl 
	i64.const	1095216660480
	i64.and 
	local.tee	11
	local.get	4
	i64.const	59
	i64.shl 
	local.tee	12
	i64.or  
	local.get	4
	i64.const	5
	i64.shr_u
	i64.const	117440512
	i64.and 
	i64.or  
	local.get	4
	i64.const	27
	i64.shl 
	i64.const	280375465082880
	i64.and 
	local.tee	13
	i64.or  
	local.get	4
	i64.const	43
	i64.shl 
	i64.const	71776119061217280
	i64.and 
	i64.or  
	local.tee	4
	i64.const	117440512
	i64.and 
	i64.const	8
	i64.shl 
	local.get	11
	i64.const	8
	i64.shr_u
	local.get	13
	i64.const	24
	i64.shr_u
	i64.or  
	local.get	4
	i64.const	40
	i64.shr_u
	i64.const	65280
	i64.and 
	local.get	12
	i64.const	56
	i64.shr_u
	i64.or  
	i64.or  
	i64.or  
	i64.xor 
	local.get	8
	i64.load	24
	local.get	6
	i64.const	3
	i64.shl 
	i64.const	30064771072
	i64.and 
	local.get	6
	i64.const	43
	i64.shl 
	i64.const	71776119061217280
	i64.and 
	local.tee	4
	local.get	6
	i64.const	59
	i64.shl 
	local.tee	11
	i64.or  
	local.get	6
	i64.const	27
	i64.shl 
	i64.const	280375465082880
	i64.and 
	local.tee	12
	i64.or  
	local.get	6
	i64.const	11
	i64.shl 
	i64.const	1095216660480
	i64.and 
	i64.or  
	i64.const	8
	i64.shr_u
	local.get	12
	i64.const	24
	i64.shr_u
	i64.or  
	i64.const	4294901760
	i64.and 
	local.get	4
	i64.const	40
	i64.shr_u
	local.get	11
	i64.const	56
	i64.shr_u
	i64.or  
	i64.or  
	i64.or  
	i64.xor 
	local.get	9
	local.get	10
	call	gcm__bitwise__product_bitwise
	local.get	8
	i32.load8_u	0
	local.set	1
	local.get	8
	i32.load8_u	1
	local.set	3
	local.get	8
	i32.load8_u	2
	local.set	5
	local.get	8
	i32.load8_u	3
	local.set	14
	local.get	8
	i32.load8_u	4
	local.set	15
	local.get	8
	i32.load8_u	5
	local.set	16
	local.get	8
	i32.load8_u	6
	local.set	17
	local.get	8
	i32.load8_u	7
	local.set	18
	local.get	8
	i32.load8_u	8
	local.set	19
	local.get	8
	i32.load8_u	9
	local.set	20
	local.get	8
	i32.load8_u	10
	local.set	21
	local.get	8
	i32.load8_u	11
	local.set	22
	local.get	8
	i32.load16_u	12
	local.set	23
	local.get	8
	i32.load8_u	14
	local.set	24
	local.get	2
	i32.load8_u	0
	local.set	25
	local.get	2
	i32.load8_u	1
	local.set	26
	local.get	2
	i32.load8_u	2
	local.set	27
	local.get	2
	i32.load8_u	3
	local.set	28
	local.get	2
	i32.load8_u	4
	local.set	29
	local.get	2
	i32.load8_u	5
	local.set	30
	local.get	2
	i32.load8_u	6
	local.set	31
	local.get	2
	i32.load8_u	7
	local.set	32
	local.get	2
	i32.load8_u	8
	local.set	33
	local.get	2
	i32.load8_u	9
	local.set	34
	local.get	2
	i32.load8_u	10
	local.set	35
	local.get	2
	i32.load8_u	11
	local.set	2
	local.get	7
	local.get	8
	i32.load8_u	15
	i32.const	127
	i32.and 
	i32.store8	15
	local.get	7
	local.get	24
	i32.store8	14
	local.get	7
	local.get	23
	i32.store16	12:p2align=0
	local.get	7
	local.get	22
	local.get	2
	i32.xor 
	i32.store8	11
	local.get	7
	local.get	21
	local.get	35
	i32.xor 
	i32.store8	10
	local.get	7
	local.get	20
	local.get	34
	i32.xor 
	i32.store8	9
	local.get	7
	local.get	19
	local.get	33
	i32.xor 
	i32.store8	8
	local.get	7
	local.get	18
	local.get	32
	i32.xor 
	i32.store8	7
	local.get	7
	local.get	17
	local.get	31
	i32.xor 
	i32.store8	6
	local.get	7
	local.get	16
	local.get	30
	i32.xor 
	i32.store8	5
	local.get	7
	local.get	15
	local.get	29
	i32.xor 
	i32.store8	4
	local.get	7
	local.get	14
	local.get	28
	i32.xor 
	i32.store8	3
	local.get	7
	local.get	5
	local.get	27
	i32.xor 
	i32.store8	2
	local.get	7
	local.get	3
	local.get	26
	i32.xor 
	i32.store8	1
	local.get	7
	local.get	1
	local.get	25
	i32.xor 
	i32.store8	0
	local.get	0
	i32.const	4
	i32.add 
	local.get	0
	i64.load32_u	0
	i64.const	1
	i64.shl 
	i64.const	56
	i64.add 
	local.get	7
	i64.const	1
	call	aes_narrow__blocks__process_all_batches____f6c900d3ac1e47b9_
	call	aes_cipher__zeroize__stack__wipe_stack____1024_
	local.get	8
	i32.const	64
	i32.add 
	global.set	__stack_pointer
                                        # fallthrough-return
	end_function
                                        # -- End function
	.section	.text.gcm__single_blocks__hash_singly____4042f4b97f1aa5e1_,"",@
	.type	gcm__single_blocks__hash_singly____4042f4b97f1aa5e1_,@function # -- Begin function gcm__single_blocks__hash_singly____4042f4b97f1aa5e1_
gcm__single_blocks__hash_singly____4042f4b97f1aa5e1_: # @gcm__single_blocks__hash_singly____4042f4b97f1aa5e1_
	.functype	gcm__single_blocks__hash_singly____4042f4b97f1aa5e1_ (i32, i32, i64, i64, i32, i64) -> ()
	.local  	i32, i64, i64, i64, i32, i32
# %bb.0:                                # %start
	global.get	__stack_pointer
	i32.const	48
	i32.sub 
	local.tee	6
	global.set	__stack_pointer
	block   	
	local.get	5
	i64.const	4
	i64.shr_u
	local.tee	7
	i64.eqz
	br_if   	0                               # 0: down to label85
# %bb.1:                                # %join.5.i.lr.ph
	local.get	1
	i64.load	8
	local.set	8
	local.get	1
	i64.load	0
	local.set	9
	local.get	4
	local.set	10
.LBB43_2:                               # %join.5.i
                                        # =>This Inner Loop Header: Depth=1
	loop    	                                # label86:
	local.get	6
	i32.const	16
	i32.add 
	local.get	10
	i64.load	0:p2align=0
	local.get	2
	i64.xor 
	local.get	10
	i32.const	8
	i32.add 
	i64.load	0:p2align=0
	local.get	3
	i64.xor 
	local.get	9
	local.get	8
	call	gcm__bitwise__product_bitwise
	local.get	10
	i32.const	16
	i32.add 
	local.set	10
	local.get	6
	i64.load	24
	local.set	3
	local.get	6
	i64.load	16
	local.set	2
	local.get	7
	i64.const	-1
	i64.add 
	local.tee	7
	i64.const	0
	i64.ne  
	br_if   	0                               # 0: up to label86
.LBB43_3:                               # %gcm__single_blocks__hash_whole____4042f4b97f1aa5e1_.exit
	end_loop
	end_block                               # label85:
	block   	
	local.get	5
	i64.const	15
	i64.and 
	local.tee	7
	i64.const	0
	i64.eq  
	br_if   	0                               # 0: down to label87
# %bb.4:                                # %join.3
	local.get	6
	i64.const	0
	i64.store	40
	local.get	6
	i64.const	0
	i64.store	32
	block   	
	block   	
	local.get	6
	i32.const	32
	i32.add 
	i64.extend_i32_u
	local.get	4
	local.get	5
	i32.wrap_i64
	local.tee	11
	i32.const	-16
	i32.and 
	i32.add 
	local.tee	10
	i64.extend_i32_u
	i64.sub 
	local.get	7
	i64.ge_u
	br_if   	0                               # 0: down to label89
# %bb.5:                                # %join.7.i.i.i.i.i.i.preheader
	local.get	6
	i32.const	32
	i32.add 
	local.get	10
	local.get	11
	i32.const	15
	i32.and 
	call	memcpy
	drop
	br      	1                               # 1: down to label88
.LBB43_6:                               # %apart.2.i.i.i.i.i.i
	end_block                               # label89:
	local.get	6
	i32.const	32
	i32.add 
	local.get	10
	local.get	7
	i32.wrap_i64
	call	memcpy
	drop
.LBB43_7:                               # %core__slice__edits__slice_T__copy_from_slice___i8_20_core__clone__U8Clone___.exit
	end_block                               # label88:
	local.get	6
	local.get	6
	i64.load	32
	local.get	2
	i64.xor 
	local.get	6
	i64.load	40
	local.get	3
	i64.xor 
	local.get	1
	i64.load	0
	local.get	1
	i64.load	8
	call	gcm__bitwise__product_bitwise
	local.get	6
	i64.load	8
	local.set	3
	local.get	6
	i64.load	0
	local.set	2
.LBB43_8:                               # %common.ret
	end_block                               # label87:
	local.get	0
	local.get	2
	i64.store	0
	local.get	0
	local.get	3
	i64.store	8
	local.get	6
	i32.const	48
	i32.add 
	global.set	__stack_pointer
                                        # fallthrough-return
	end_function
                                        # -- End function
	.section	.text.gcm_siv__message__process_text____a556ffa628b2ee02_,"",@
	.type	gcm_siv__message__process_text____a556ffa628b2ee02_,@function # -- Begin function gcm_siv__message__process_text____a556ffa628b2ee02_
gcm_siv__message__process_text____a556ffa628b2ee02_: # @gcm_siv__message__process_text____a556ffa628b2ee02_
	.functype	gcm_siv__message__process_text____a556ffa628b2ee02_ (i32, i32, i32, i64) -> ()
	.local  	i32, i64, i32, i32, i64, i32, i32, i32, i32, i32, i32, i32, i32, i32, i32, i32, i32, i32, i32, i32, i32, i32, i32, i32, i32, i32, i32, i32, i32, i32, i32
# %bb.0:                                # %start
	global.get	__stack_pointer
	i32.const	64
	i32.sub 
	local.tee	4
	global.set	__stack_pointer
	local.get	0
	i64.load32_u	0
	local.set	5
	local.get	4
	local.get	1
	i32.load8_u	15
	i32.const	-128
	i32.or  
	local.tee	6
	i32.store8	15
	local.get	4
	local.get	1
	i64.load	7:p2align=0
	i64.store	7:p2align=0
	local.get	4
	local.get	1
	i64.load	0:p2align=0
	i64.store	0
	local.get	4
	i64.const	0
	i64.store	16
	local.get	0
	i32.const	4
	i32.add 
	local.set	0
	local.get	5
	i64.const	1
	i64.shl 
	i64.const	56
	i64.add 
	local.set	5
	block   	
	block   	
	block   	
	local.get	3
	i64.const	16
	i64.gt_u
	local.tee	7
	br_if   	0                               # 0: down to label92
# %bb.1:                                # %then.1.i.i
	local.get	4
	local.get	6
	i32.store8	63
	local.get	4
	local.get	4
	i32.load	0
	i32.store	48
	local.get	4
	local.get	1
	i64.load	4:p2align=0
	i64.store	52:p2align=2
	local.get	4
	local.get	1
	i32.load	11:p2align=0
	i32.store	59:p2align=0
	local.get	0
	local.get	5
	local.get	4
	i32.const	48
	i32.add 
	i64.const	1
	call	aes_narrow__blocks__process_all_batches____f6c900d3ac1e47b9_
	call	aes_cipher__zeroize__stack__wipe_stack____1024_
	block   	
	local.get	7
	br_if   	0                               # 0: down to label93
# %bb.2:                                # %then.1.i.i
	local.get	3
	i32.wrap_i64
	br_table 	{3, 0, 0, 0, 0, 0, 0, 0, 0, 0, 0, 0, 0, 0, 0, 0, 2, 3} # 0: down to label93
                                        # 2: down to label91
                                        # 3: down to label90
.LBB44_3:                               # %join.8.i10.i.i.i.preheader
	end_block                               # label93:
	local.get	3
	i64.const	3
	i64.and 
	local.set	5
	i64.const	0
	local.set	8
	block   	
	local.get	3
	i64.const	-1
	i64.add 
	i64.const	3
	i64.lt_u
	br_if   	0                               # 0: down to label94
# %bb.4:                                # %join.8.i10.i.i.i.preheader.new
	local.get	3
	i64.const	28
	i64.and 
	local.set	3
	i64.const	0
	local.set	8
	i32.const	0
	local.set	0
.LBB44_5:                               # %join.8.i10.i.i.i
                                        # =>This Inner Loop Header: Depth=1
	loop    	                                # label95:
	local.get	2
	local.get	0
	i32.add 
	local.tee	1
	local.get	1
	i32.load8_u	0
	local.get	4
	i32.const	48
	i32.add 
	local.get	0
	i32.add 
	local.tee	6
	i32.load8_u	0
	i32.xor 
	i32.store8	0
	local.get	1
	i32.const	1
	i32.add 
	local.tee	7
	local.get	7
	i32.load8_u	0
	local.get	6
	i32.const	1
	i32.add 
	i32.load8_u	0
	i32.xor 
	i32.store8	0
	local.get	1
	i32.const	2
	i32.add 
	local.tee	7
	local.get	7
	i32.load8_u	0
	local.get	6
	i32.const	2
	i32.add 
	i32.load8_u	0
	i32.xor 
	i32.store8	0
	local.get	1
	i32.const	3
	i32.add 
	local.tee	1
	local.get	1
	i32.load8_u	0
	local.get	6
	i32.const	3
	i32.add 
	i32.load8_u	0
	i32.xor 
	i32.store8	0
	local.get	0
	i32.const	4
	i32.add 
	local.set	0
	local.get	3
	local.get	8
	i64.const	4
	i64.add 
	local.tee	8
	i64.ne  
	br_if   	0                               # 0: up to label95
# %bb.6:                                # %aes_ctr__add_in_batches__add_to_one____3853cb094ce32add_.exit.i.i.loopexit.unr-lcssa
	end_loop
	local.get	5
	i64.eqz
	br_if   	3                               # 3: down to label90
.LBB44_7:                               # %join.8.i10.i.i.i.epil.preheader
	end_block                               # label94:
	local.get	2
	local.get	8
	i32.wrap_i64
	local.tee	0
	i32.add 
	local.set	1
	local.get	4
	i32.const	48
	i32.add 
	local.get	0
	i32.add 
	local.set	0
.LBB44_8:                               # %join.8.i10.i.i.i.epil
                                        # =>This Inner Loop Header: Depth=1
	loop    	                                # label96:
	local.get	1
	local.get	1
	i32.load8_u	0
	local.get	0
	i32.load8_u	0
	i32.xor 
	i32.store8	0
	local.get	0
	i32.const	1
	i32.add 
	local.set	0
	local.get	1
	i32.const	1
	i32.add 
	local.set	1
	local.get	5
	i64.const	-1
	i64.add 
	local.tee	5
	i64.const	0
	i64.ne  
	br_if   	0                               # 0: up to label96
	br      	3                               # 3: down to label90
.LBB44_9:                               # %else.2.i.i
	end_loop
	end_block                               # label92:
	local.get	4
	local.get	3
	i64.store	40
	local.get	4
	i32.const	0
	i32.store	36
	local.get	4
	local.get	2
	i32.store	32
	local.get	4
	i64.const	0
	i64.store	24
	local.get	4
	local.get	4
	i32.store	16
	local.get	0
	local.get	5
	local.get	4
	i32.const	16
	i32.add 
	call	aes_narrow__borrowed_words__call_to_encrypt____d0e731d912aff965_
	call	aes_cipher__zeroize__stack__wipe_stack____2032_
	br      	1                               # 1: down to label90
.LBB44_10:                              # %after.4.i.thread.i.i.i
	end_block                               # label91:
	local.get	2
	i32.load8_u	0
	local.set	1
	local.get	2
	i32.load8_u	1
	local.set	0
	local.get	2
	i32.load8_u	2
	local.set	6
	local.get	2
	i32.load8_u	3
	local.set	7
	local.get	2
	i32.load8_u	4
	local.set	9
	local.get	2
	i32.load8_u	5
	local.set	10
	local.get	2
	i32.load8_u	6
	local.set	11
	local.get	2
	i32.load8_u	7
	local.set	12
	local.get	2
	i32.load8_u	8
	local.set	13
	local.get	2
	i32.load8_u	9
	local.set	14
	local.get	2
	i32.load8_u	10
	local.set	15
	local.get	2
	i32.load8_u	11
	local.set	16
	local.get	2
	i32.load8_u	12
	local.set	17
	local.get	2
	i32.load8_u	13
	local.set	18
	local.get	2
	i32.load8_u	14
	local.set	19
	local.get	4
	i32.load8_u	48
	local.set	20
	local.get	4
	i32.load8_u	49
	local.set	21
	local.get	4
	i32.load8_u	50
	local.set	22
	local.get	4
	i32.load8_u	51
	local.set	23
	local.get	4
	i32.load8_u	52
	local.set	24
	local.get	4
	i32.load8_u	53
	local.set	25
	local.get	4
	i32.load8_u	54
	local.set	26
	local.get	4
	i32.load8_u	55
	local.set	27
	local.get	4
	i32.load8_u	56
	local.set	28
	local.get	4
	i32.load8_u	57
	local.set	29
	local.get	4
	i32.load8_u	58
	local.set	30
	local.get	4
	i32.load8_u	59
	local.set	31
	local.get	4
	i32.load8_u	60
	local.set	32
	local.get	4
	i32.load8_u	61
	local.set	33
	local.get	4
	i32.load8_u	62
	local.set	34
	local.get	2
	local.get	4
	i32.load8_u	63
	local.get	2
	i32.load8_u	15
	i32.xor 
	i32.store8	15
	local.get	2
	local.get	34
	local.get	19
	i32.xor 
	i32.store8	14
	local.get	2
	local.get	33
	local.get	18
	i32.xor 
	i32.store8	13
	local.get	2
	local.get	32
	local.get	17
	i32.xor 
	i32.store8	12
	local.get	2
	local.get	31
	local.get	16
	i32.xor 
	i32.store8	11
	local.get	2
	local.get	30
	local.get	15
	i32.xor 
	i32.store8	10
	local.get	2
	local.get	29
	local.get	14
	i32.xor 
	i32.store8	9
	local.get	2
	local.get	28
	local.get	13
	i32.xor 
	i32.store8	8
	local.get	2
	local.get	27
	local.get	12
	i32.xor 
	i32.store8	7
	local.get	2
	local.get	26
	local.get	11
	i32.xor 
	i32.store8	6
	local.get	2
	local.get	25
	local.get	10
	i32.xor 
	i32.store8	5
	local.get	2
	local.get	24
	local.get	9
	i32.xor 
	i32.store8	4
	local.get	2
	local.get	23
	local.get	7
	i32.xor 
	i32.store8	3
	local.get	2
	local.get	22
	local.get	6
	i32.xor 
	i32.store8	2
	local.get	2
	local.get	21
	local.get	0
	i32.xor 
	i32.store8	1
	local.get	2
	local.get	20
	local.get	1
	i32.xor 
	i32.store8	0
.LBB44_11:                              # %gcm_siv__counters__add_keystream____099a9bc28799ce6c_.exit
	end_block                               # label90:
	local.get	4
	i32.const	64
	i32.add 
	global.set	__stack_pointer
                                        # fallthrough-return
	end_function
                                        # -- End function
	.section	.text.aes_narrow__borrowed_words__call_to_encrypt____d0e731d912aff965_,"",@
	.type	aes_narrow__borrowed_words__call_to_encrypt____d0e731d912aff965_,@function # -- Begin function aes_narrow__borrowed_words__call_to_encrypt____d0e731d912aff965_
aes_narrow__borrowed_words__call_to_encrypt____d0e731d912aff965_: # @aes_narrow__borrowed_words__call_to_encrypt____d0e731d912aff965_
	.functype	aes_narrow__borrowed_words__call_to_encrypt____d0e731d912aff965_ (i32, i64, i32) -> ()
	.local  	i32, i32, i64, i32, i64, i64, i64, i32, i32, i32, i32, i64, i32, i32, i32, i32, i32, i32, i32, i32, i32, i32, i32, i32, i32, i32, i32, i32, i32, i32, i32, i32, i32, i32, i32, i32, i32, i32, i32, i32, i32, i32, i32, i32, i32, i32, i32, i32, i32, i32, i32, i32, i32, i32, i32, i32, i32, i32
# %bb.0:                                # %start
	global.get	__stack_pointer
	i32.const	272
	i32.sub 
	local.tee	3
	global.set	__stack_pointer
	local.get	3
	local.get	1
	i64.store	8
	local.get	3
	i32.const	0
	i32.store	4
	local.get	3
	local.get	0
	i32.store	0
	local.get	2
	i32.const	16
	i32.add 
	i32.load	0
	local.set	4
	local.get	2
	i32.const	24
	i32.add 
	i64.load	0
	local.set	5
	local.get	2
	i32.load	0
	local.set	6
	block   	
	block   	
	local.get	2
	i32.const	8
	i32.add 
	i64.load	0
	local.tee	7
	i64.const	15
	i64.and 
	i64.eqz
	i32.eqz
	br_if   	0                               # 0: down to label98
# %bb.1:
	i64.const	0
	local.set	8
	br      	1                               # 1: down to label97
.LBB45_2:                               # %then.1.i.i
	end_block                               # label98:
	local.get	3
	local.get	6
	local.get	7
	i64.const	0
	local.get	4
	local.get	5
	call	aes_ctr__add_in_batches__add_next____9f5b6b63b811461e_
	local.set	8
.LBB45_3:                               # %join.3.i.i
	end_block                               # label97:
	block   	
	local.get	5
	local.get	8
	i64.sub 
	local.tee	9
	i64.const	32
	i64.lt_u
	br_if   	0                               # 0: down to label99
# %bb.4:                                # %join.11.lr.ph.i.i
	local.get	6
	i32.const	4
	i32.add 
	local.set	10
	local.get	4
	local.get	8
	i32.wrap_i64
	i32.add 
	local.set	2
	local.get	3
	i32.const	16
	i32.add 
	i32.const	32
	i32.add 
	local.set	11
	local.get	3
	i32.const	16
	i32.add 
	i32.const	20
	i32.add 
	local.set	12
	local.get	3
	i32.const	16
	i32.add 
	i32.const	4
	i32.add 
	local.set	13
.LBB45_5:                               # %join.11.i.i
                                        # =>This Inner Loop Header: Depth=1
	loop    	                                # label100:
	local.get	11
	i32.const	0
	i32.const	224
	call	memset
	drop
	local.get	13
	local.get	10
	i64.load	0:p2align=0
	local.tee	14
	i64.store	0:p2align=0
	local.get	13
	local.get	10
	i32.load	8:p2align=0
	local.tee	15
	i32.store	8:p2align=0
	local.get	12
	local.get	14
	i64.store	0:p2align=0
	local.get	12
	local.get	15
	i32.store	8:p2align=0
	local.get	3
	local.get	6
	i32.load	0:p2align=0
	local.get	7
	local.get	8
	i64.add 
	i64.const	4
	i64.shr_u
	i32.wrap_i64
	i32.add 
	local.tee	15
	i32.store	16
	local.get	3
	local.get	15
	i32.const	1
	i32.add 
	i32.store	32
	local.get	0
	local.get	1
	local.get	3
	i32.const	16
	i32.add 
	i64.const	2
	call	aes_soft__soft__blocks__filled_up__process_filled_up____f6c900d3ac1e47b9_
	local.get	2
	i32.load8_u	0
	local.set	15
	local.get	2
	i32.load8_u	1
	local.set	16
	local.get	2
	i32.load8_u	2
	local.set	17
	local.get	2
	i32.load8_u	3
	local.set	18
	local.get	2
	i32.load8_u	4
	local.set	19
	local.get	2
	i32.load8_u	5
	local.set	20
	local.get	2
	i32.load8_u	6
	local.set	21
	local.get	2
	i32.load8_u	7
	local.set	22
	local.get	2
	i32.load8_u	8
	local.set	23
	local.get	2
	i32.load8_u	9
	local.set	24
	local.get	2
	i32.load8_u	10
	local.set	25
	local.get	2
	i32.load8_u	11
	local.set	26
	local.get	2
	i32.load8_u	12
	local.set	27
	local.get	2
	i32.load8_u	13
	local.set	28
	local.get	2
	i32.load8_u	14
	local.set	29
	local.get	3
	i32.load8_u	16
	local.set	30
	local.get	3
	i32.load8_u	17
	local.set	31
	local.get	3
	i32.load8_u	18
	local.set	32
	local.get	3
	i32.load8_u	19
	local.set	33
	local.get	3
	i32.load8_u	20
	local.set	34
	local.get	3
	i32.load8_u	21
	local.set	35
	local.get	3
	i32.load8_u	22
	local.set	36
	local.get	3
	i32.load8_u	23
	local.set	37
	local.get	3
	i32.load8_u	24
	local.set	38
	local.get	3
	i32.load8_u	25
	local.set	39
	local.get	3
	i32.load8_u	26
	local.set	40
	local.get	3
	i32.load8_u	27
	local.set	41
	local.get	3
	i32.load8_u	28
	local.set	42
	local.get	3
	i32.load8_u	29
	local.set	43
	local.get	3
	i32.load8_u	30
	local.set	44
	local.get	2
	local.get	3
	i32.load8_u	31
	local.get	2
	i32.load8_u	15
	i32.xor 
	i32.store8	15
	local.get	2
	local.get	44
	local.get	29
	i32.xor 
	i32.store8	14
	local.get	2
	local.get	43
	local.get	28
	i32.xor 
	i32.store8	13
	local.get	2
	local.get	42
	local.get	27
	i32.xor 
	i32.store8	12
	local.get	2
	local.get	41
	local.get	26
	i32.xor 
	i32.store8	11
	local.get	2
	local.get	40
	local.get	25
	i32.xor 
	i32.store8	10
	local.get	2
	local.get	39
	local.get	24
	i32.xor 
	i32.store8	9
	local.get	2
	local.get	38
	local.get	23
	i32.xor 
	i32.store8	8
	local.get	2
	local.get	37
	local.get	22
	i32.xor 
	i32.store8	7
	local.get	2
	local.get	36
	local.get	21
	i32.xor 
	i32.store8	6
	local.get	2
	local.get	35
	local.get	20
	i32.xor 
	i32.store8	5
	local.get	2
	local.get	34
	local.get	19
	i32.xor 
	i32.store8	4
	local.get	2
	local.get	33
	local.get	18
	i32.xor 
	i32.store8	3
	local.get	2
	local.get	32
	local.get	17
	i32.xor 
	i32.store8	2
	local.get	2
	local.get	31
	local.get	16
	i32.xor 
	i32.store8	1
	local.get	2
	local.get	30
	local.get	15
	i32.xor 
	i32.store8	0
	local.get	2
	i32.const	16
	i32.add 
	local.tee	15
	i32.load8_u	0
	local.set	16
	local.get	2
	i32.const	17
	i32.add 
	local.tee	17
	i32.load8_u	0
	local.set	18
	local.get	2
	i32.const	18
	i32.add 
	local.tee	19
	i32.load8_u	0
	local.set	20
	local.get	2
	i32.const	19
	i32.add 
	local.tee	21
	i32.load8_u	0
	local.set	22
	local.get	2
	i32.const	20
	i32.add 
	local.tee	23
	i32.load8_u	0
	local.set	24
	local.get	2
	i32.const	21
	i32.add 
	local.tee	25
	i32.load8_u	0
	local.set	26
	local.get	2
	i32.const	22
	i32.add 
	local.tee	27
	i32.load8_u	0
	local.set	28
	local.get	2
	i32.const	23
	i32.add 
	local.tee	29
	i32.load8_u	0
	local.set	30
	local.get	2
	i32.const	24
	i32.add 
	local.tee	31
	i32.load8_u	0
	local.set	32
	local.get	2
	i32.const	25
	i32.add 
	local.tee	33
	i32.load8_u	0
	local.set	34
	local.get	2
	i32.const	26
	i32.add 
	local.tee	35
	i32.load8_u	0
	local.set	36
	local.get	2
	i32.const	27
	i32.add 
	local.tee	37
	i32.load8_u	0
	local.set	38
	local.get	2
	i32.const	28
	i32.add 
	local.tee	39
	i32.load8_u	0
	local.set	40
	local.get	2
	i32.const	29
	i32.add 
	local.tee	41
	i32.load8_u	0
	local.set	42
	local.get	2
	i32.const	30
	i32.add 
	local.tee	43
	i32.load8_u	0
	local.set	44
	local.get	3
	i32.load8_u	32
	local.set	45
	local.get	3
	i32.load8_u	33
	local.set	46
	local.get	3
	i32.load8_u	34
	local.set	47
	local.get	3
	i32.load8_u	35
	local.set	48
	local.get	3
	i32.load8_u	36
	local.set	49
	local.get	3
	i32.load8_u	37
	local.set	50
	local.get	3
	i32.load8_u	38
	local.set	51
	local.get	3
	i32.load8_u	39
	local.set	52
	local.get	3
	i32.load8_u	40
	local.set	53
	local.get	3
	i32.load8_u	41
	local.set	54
	local.get	3
	i32.load8_u	42
	local.set	55
	local.get	3
	i32.load8_u	43
	local.set	56
	local.get	3
	i32.load8_u	44
	local.set	57
	local.get	3
	i32.load8_u	45
	local.set	58
	local.get	3
	i32.load8_u	46
	local.set	59
	local.get	2
	i32.const	31
	i32.add 
	local.tee	60
	local.get	3
	i32.load8_u	47
	local.get	60
	i32.load8_u	0
	i32.xor 
	i32.store8	0
	local.get	43
	local.get	59
	local.get	44
	i32.xor 
	i32.store8	0
	local.get	41
	local.get	58
	local.get	42
	i32.xor 
	i32.store8	0
	local.get	39
	local.get	57
	local.get	40
	i32.xor 
	i32.store8	0
	local.get	37
	local.get	56
	local.get	38
	i32.xor 
	i32.store8	0
	local.get	35
	local.get	55
	local.get	36
	i32.xor 
	i32.store8	0
	local.get	33
	local.get	54
	local.get	34
	i32.xor 
	i32.store8	0
	local.get	31
	local.get	53
	local.get	32
	i32.xor 
	i32.store8	0
	local.get	29
	local.get	52
	local.get	30
	i32.xor 
	i32.store8	0
	local.get	27
	local.get	51
	local.get	28
	i32.xor 
	i32.store8	0
	local.get	25
	local.get	50
	local.get	26
	i32.xor 
	i32.store8	0
	local.get	23
	local.get	49
	local.get	24
	i32.xor 
	i32.store8	0
	local.get	21
	local.get	48
	local.get	22
	i32.xor 
	i32.store8	0
	local.get	19
	local.get	47
	local.get	20
	i32.xor 
	i32.store8	0
	local.get	17
	local.get	46
	local.get	18
	i32.xor 
	i32.store8	0
	local.get	15
	local.get	45
	local.get	16
	i32.xor 
	i32.store8	0
	local.get	2
	i32.const	32
	i32.add 
	local.set	2
	local.get	8
	i64.const	32
	i64.add 
	local.set	8
	local.get	9
	i64.const	-32
	i64.add 
	local.tee	9
	i64.const	31
	i64.gt_u
	br_if   	0                               # 0: up to label100
.LBB45_6:                               # %loop.13.preheader.i.i
	end_loop
	end_block                               # label99:
	block   	
	local.get	8
	local.get	5
	i64.ge_u
	br_if   	0                               # 0: down to label101
.LBB45_7:                               # %join.16.i.i
                                        # =>This Inner Loop Header: Depth=1
	loop    	                                # label102:
	local.get	3
	local.get	6
	local.get	7
	local.get	8
	local.get	4
	local.get	5
	call	aes_ctr__add_in_batches__add_next____9f5b6b63b811461e_
	local.tee	8
	local.get	5
	i64.lt_u
	br_if   	0                               # 0: up to label102
.LBB45_8:                               # %aes_ctr__add_in_batches__AddStreamBlockCipherEncClosure__call____dc401293e4f3bac2_.exit
	end_loop
	end_block                               # label101:
	local.get	3
	i32.const	272
	i32.add 
	global.set	__stack_pointer
                                        # fallthrough-return
	end_function
                                        # -- End function
	.section	.text.aes_ctr__add_in_batches__add_next____9f5b6b63b811461e_,"",@
	.type	aes_ctr__add_in_batches__add_next____9f5b6b63b811461e_,@function # -- Begin function aes_ctr__add_in_batches__add_next____9f5b6b63b811461e_
aes_ctr__add_in_batches__add_next____9f5b6b63b811461e_: # @aes_ctr__add_in_batches__add_next____9f5b6b63b811461e_
	.functype	aes_ctr__add_in_batches__add_next____9f5b6b63b811461e_ (i32, i32, i64, i64, i32, i64) -> (i64)
	.local  	i32, i64, i32, i64, i64, i32, i32, i64, i64, i32, i32, i32, i32, i32, i32, i32, i32, i32, i32, i32, i32, i32, i32, i32, i32, i32, i32, i32, i32, i32, i32, i32, i32, i32, i32, i32, i32, i32, i32
# %bb.0:                                # %start
	global.get	__stack_pointer
	i32.const	256
	i32.sub 
	local.tee	6
	global.set	__stack_pointer
	local.get	6
	i32.const	32
	i32.add 
	i32.const	0
	i32.const	224
	call	memset
	drop
	local.get	6
	local.get	1
	i64.load	4:p2align=0
	local.tee	7
	i64.store	4:p2align=2
	local.get	6
	local.get	1
	i32.load	12:p2align=0
	local.tee	8
	i32.store	12
	local.get	6
	local.get	7
	i64.store	20:p2align=2
	local.get	6
	local.get	8
	i32.store	28
	local.get	6
	local.get	1
	i32.load	0:p2align=0
	local.get	3
	local.get	2
	i64.add 
	local.tee	9
	i64.const	4
	i64.shr_u
	i32.wrap_i64
	i32.add 
	local.tee	1
	i32.store	0
	local.get	6
	local.get	1
	i32.const	1
	i32.add 
	i32.store	16
	local.get	0
	local.get	9
	i64.const	15
	i64.and 
	local.tee	10
	local.get	5
	local.get	3
	i64.sub 
	local.tee	2
	i64.const	32
	local.get	10
	i64.sub 
	local.tee	7
	local.get	2
	local.get	7
	i64.lt_u
	i64.select
	local.tee	2
	i64.add 
	i64.const	15
	i64.add 
	i64.const	4
	i64.shr_u
	local.get	6
	call	aes_narrow__borrowed_words__BorrowedWordsBlockCipherEncBackend__encrypt_first_blocks____5b4689a38c32c9c5_
	local.get	4
	local.get	3
	i32.wrap_i64
	local.tee	11
	i32.add 
	local.set	12
	block   	
	block   	
	local.get	10
	i64.eqz
	i32.eqz
	br_if   	0                               # 0: down to label104
# %bb.1:
	i64.const	0
	local.set	13
	br      	1                               # 1: down to label103
.LBB46_2:                               # %then.1.i
	end_block                               # label104:
	local.get	2
	i64.const	16
	local.get	10
	i64.sub 
	local.tee	7
	local.get	2
	local.get	7
	i64.lt_u
	i64.select
	local.set	13
	local.get	5
	local.get	3
	i64.eq  
	br_if   	0                               # 0: down to label103
# %bb.3:                                # %join.8.i85.preheader
	i64.const	0
	local.set	5
	block   	
	local.get	13
	i64.const	1
	i64.eq  
	br_if   	0                               # 0: down to label105
# %bb.4:                                # %join.8.i85.preheader.new
	local.get	13
	i64.const	1
	i64.and 
	local.set	14
	local.get	13
	i64.const	30
	i64.and 
	local.set	7
	local.get	6
	local.get	9
	i32.wrap_i64
	i32.const	15
	i32.and 
	i32.add 
	local.set	0
	i64.const	0
	local.set	5
	local.get	12
	local.set	1
.LBB46_5:                               # %join.8.i85
                                        # =>This Inner Loop Header: Depth=1
	loop    	                                # label106:
	local.get	1
	local.get	1
	i32.load8_u	0
	local.get	0
	i32.load8_u	0
	i32.xor 
	i32.store8	0
	local.get	1
	i32.const	1
	i32.add 
	local.tee	8
	local.get	8
	i32.load8_u	0
	local.get	0
	i32.const	1
	i32.add 
	i32.load8_u	0
	i32.xor 
	i32.store8	0
	local.get	1
	i32.const	2
	i32.add 
	local.set	1
	local.get	0
	i32.const	2
	i32.add 
	local.set	0
	local.get	7
	local.get	5
	i64.const	2
	i64.add 
	local.tee	5
	i64.ne  
	br_if   	0                               # 0: up to label106
# %bb.6:                                # %join.3.i.loopexit.unr-lcssa
	end_loop
	local.get	14
	i64.eqz
	br_if   	1                               # 1: down to label103
.LBB46_7:                               # %join.8.i85.epil.preheader
	end_block                               # label105:
	local.get	12
	local.get	5
	i32.wrap_i64
	i32.add 
	local.tee	1
	local.get	1
	i32.load8_u	0
	local.get	6
	local.get	5
	local.get	10
	i64.add 
	i32.wrap_i64
	i32.add 
	i32.load8_u	0
	i32.xor 
	i32.store8	0
.LBB46_8:                               # %join.3.i
	end_block                               # label103:
	block   	
	local.get	2
	local.get	13
	i64.sub 
	local.tee	7
	i64.const	16
	i64.lt_u
	br_if   	0                               # 0: down to label107
# %bb.9:                                # %join.8.i.preheader
	i64.const	0
	local.get	13
	i64.sub 
	local.set	5
	local.get	4
	local.get	13
	i32.wrap_i64
	local.tee	0
	local.get	11
	i32.add 
	i32.add 
	local.set	1
	local.get	9
	i32.wrap_i64
	i32.const	15
	i32.and 
	local.get	0
	i32.add 
	local.set	8
.LBB46_10:                              # %join.8.i
                                        # =>This Inner Loop Header: Depth=1
	loop    	                                # label108:
	local.get	6
	local.get	8
	i32.const	-16
	i32.and 
	i32.add 
	local.tee	0
	i32.load8_u	0
	local.set	15
	local.get	0
	i32.load8_u	1
	local.set	16
	local.get	0
	i32.load8_u	2
	local.set	17
	local.get	0
	i32.load8_u	3
	local.set	18
	local.get	0
	i32.load8_u	4
	local.set	19
	local.get	0
	i32.load8_u	5
	local.set	20
	local.get	0
	i32.load8_u	6
	local.set	21
	local.get	0
	i32.load8_u	7
	local.set	22
	local.get	0
	i32.load8_u	8
	local.set	23
	local.get	0
	i32.load8_u	9
	local.set	24
	local.get	0
	i32.load8_u	10
	local.set	25
	local.get	0
	i32.load8_u	11
	local.set	26
	local.get	0
	i32.load8_u	12
	local.set	27
	local.get	0
	i32.load8_u	13
	local.set	28
	local.get	0
	i32.load8_u	14
	local.set	29
	local.get	1
	i32.load8_u	0
	local.set	30
	local.get	1
	i32.load8_u	1
	local.set	31
	local.get	1
	i32.load8_u	2
	local.set	32
	local.get	1
	i32.load8_u	3
	local.set	33
	local.get	1
	i32.load8_u	4
	local.set	34
	local.get	1
	i32.load8_u	5
	local.set	35
	local.get	1
	i32.load8_u	6
	local.set	36
	local.get	1
	i32.load8_u	7
	local.set	37
	local.get	1
	i32.load8_u	8
	local.set	38
	local.get	1
	i32.load8_u	9
	local.set	39
	local.get	1
	i32.load8_u	10
	local.set	40
	local.get	1
	i32.load8_u	11
	local.set	41
	local.get	1
	i32.load8_u	12
	local.set	42
	local.get	1
	i32.load8_u	13
	local.set	43
	local.get	1
	i32.load8_u	14
	local.set	44
	local.get	1
	local.get	0
	i32.load8_u	15
	local.get	1
	i32.load8_u	15
	i32.xor 
	i32.store8	15
	local.get	1
	local.get	29
	local.get	44
	i32.xor 
	i32.store8	14
	local.get	1
	local.get	28
	local.get	43
	i32.xor 
	i32.store8	13
	local.get	1
	local.get	27
	local.get	42
	i32.xor 
	i32.store8	12
	local.get	1
	local.get	26
	local.get	41
	i32.xor 
	i32.store8	11
	local.get	1
	local.get	25
	local.get	40
	i32.xor 
	i32.store8	10
	local.get	1
	local.get	24
	local.get	39
	i32.xor 
	i32.store8	9
	local.get	1
	local.get	23
	local.get	38
	i32.xor 
	i32.store8	8
	local.get	1
	local.get	22
	local.get	37
	i32.xor 
	i32.store8	7
	local.get	1
	local.get	21
	local.get	36
	i32.xor 
	i32.store8	6
	local.get	1
	local.get	20
	local.get	35
	i32.xor 
	i32.store8	5
	local.get	1
	local.get	19
	local.get	34
	i32.xor 
	i32.store8	4
	local.get	1
	local.get	18
	local.get	33
	i32.xor 
	i32.store8	3
	local.get	1
	local.get	17
	local.get	32
	i32.xor 
	i32.store8	2
	local.get	1
	local.get	16
	local.get	31
	i32.xor 
	i32.store8	1
	local.get	1
	local.get	15
	local.get	30
	i32.xor 
	i32.store8	0
	local.get	1
	i32.const	16
	i32.add 
	local.set	1
	local.get	8
	i32.const	16
	i32.add 
	local.set	8
	local.get	2
	local.get	5
	i64.const	-16
	i64.add 
	local.tee	5
	i64.add 
	local.tee	7
	i64.const	15
	i64.gt_u
	br_if   	0                               # 0: up to label108
# %bb.11:                               # %after.4.i.loopexit
	end_loop
	i64.const	0
	local.get	5
	i64.sub 
	local.set	13
.LBB46_12:                              # %after.4.i
	end_block                               # label107:
	block   	
	local.get	13
	local.get	2
	i64.ge_u
	br_if   	0                               # 0: down to label109
# %bb.13:                               # %then.9.i
	local.get	7
	i64.eqz
	br_if   	0                               # 0: down to label109
# %bb.14:                               # %join.8.i28.preheader
	local.get	13
	i32.wrap_i64
	local.set	15
	local.get	13
	local.get	10
	i64.add 
	i32.wrap_i64
	i32.const	-16
	i32.and 
	local.set	16
	local.get	7
	i64.const	3
	i64.and 
	local.set	5
	i64.const	0
	local.set	13
	block   	
	local.get	7
	i64.const	4
	i64.lt_u
	br_if   	0                               # 0: down to label110
# %bb.15:                               # %join.8.i28.preheader.new
	local.get	12
	local.get	15
	i32.add 
	local.set	1
	local.get	6
	local.get	16
	i32.add 
	local.set	0
	i64.const	0
	local.set	13
	i64.const	0
	local.get	7
	i64.const	12
	i64.and 
	i64.sub 
	local.set	7
.LBB46_16:                              # %join.8.i28
                                        # =>This Inner Loop Header: Depth=1
	loop    	                                # label111:
	local.get	1
	local.get	1
	i32.load8_u	0
	local.get	0
	i32.load8_u	0
	i32.xor 
	i32.store8	0
	local.get	1
	i32.const	1
	i32.add 
	local.tee	8
	local.get	8
	i32.load8_u	0
	local.get	0
	i32.const	1
	i32.add 
	i32.load8_u	0
	i32.xor 
	i32.store8	0
	local.get	1
	i32.const	2
	i32.add 
	local.tee	8
	local.get	8
	i32.load8_u	0
	local.get	0
	i32.const	2
	i32.add 
	i32.load8_u	0
	i32.xor 
	i32.store8	0
	local.get	1
	i32.const	3
	i32.add 
	local.tee	8
	local.get	8
	i32.load8_u	0
	local.get	0
	i32.const	3
	i32.add 
	i32.load8_u	0
	i32.xor 
	i32.store8	0
	local.get	1
	i32.const	4
	i32.add 
	local.set	1
	local.get	0
	i32.const	4
	i32.add 
	local.set	0
	local.get	7
	local.get	13
	i64.const	-4
	i64.add 
	local.tee	13
	i64.ne  
	br_if   	0                               # 0: up to label111
# %bb.17:                               # %aes_ctr__add_blocks__add_blocks.exit.loopexit.unr-lcssa
	end_loop
	local.get	5
	i64.eqz
	br_if   	1                               # 1: down to label109
# %bb.18:
	i64.const	0
	local.get	13
	i64.sub 
	local.set	13
.LBB46_19:                              # %join.8.i28.epil.preheader
	end_block                               # label110:
	local.get	4
	local.get	15
	local.get	13
	i32.wrap_i64
	local.tee	0
	i32.add 
	local.get	11
	i32.add 
	i32.add 
	local.set	1
	local.get	6
	local.get	16
	local.get	0
	i32.add 
	i32.add 
	local.set	0
.LBB46_20:                              # %join.8.i28.epil
                                        # =>This Inner Loop Header: Depth=1
	loop    	                                # label112:
	local.get	1
	local.get	1
	i32.load8_u	0
	local.get	0
	i32.load8_u	0
	i32.xor 
	i32.store8	0
	local.get	0
	i32.const	1
	i32.add 
	local.set	0
	local.get	1
	i32.const	1
	i32.add 
	local.set	1
	local.get	5
	i64.const	-1
	i64.add 
	local.tee	5
	i64.const	0
	i64.ne  
	br_if   	0                               # 0: up to label112
.LBB46_21:                              # %aes_ctr__add_blocks__add_blocks.exit
	end_loop
	end_block                               # label109:
	local.get	6
	i32.const	256
	i32.add 
	global.set	__stack_pointer
	local.get	2
	local.get	3
	i64.add 
                                        # fallthrough-return
	end_function
                                        # -- End function
	.section	.text.aes_cipher__zeroize__stack__wipe_stack____2816_,"",@
	.type	aes_cipher__zeroize__stack__wipe_stack____2816_,@function # -- Begin function aes_cipher__zeroize__stack__wipe_stack____2816_
aes_cipher__zeroize__stack__wipe_stack____2816_: # @aes_cipher__zeroize__stack__wipe_stack____2816_
	.functype	aes_cipher__zeroize__stack__wipe_stack____2816_ () -> ()
	.local  	i32, i64
# %bb.0:                                # %start
	global.get	__stack_pointer
	i32.const	2832
	i32.sub 
	local.tee	0
	global.set	__stack_pointer
	local.get	0
	i32.const	16
	i32.add 
	i32.const	0
	i32.const	2816
	call	memset
	drop
	local.get	0
	i64.const	0
	i64.store	8
	#APP
	#NO_APP
	local.get	0
	i64.load	8
	local.set	1
	#APP
	#NO_APP
	block   	
	local.get	1
	i64.const	2816
	i64.ge_u
	br_if   	0                               # 0: down to label113
# %bb.1:                                # %then.1
	local.get	0
	i32.const	16
	i32.add 
	local.get	1
	i32.wrap_i64
	i32.add 
	i64.load8_u	0
	local.set	1
	#APP
	#NO_APP
	local.get	0
	i64.load	8
	drop
	local.get	0
	local.get	1
	i64.store	8
	#APP
	#NO_APP
.LBB47_2:                               # %common.ret
	end_block                               # label113:
	local.get	0
	i32.const	2832
	i32.add 
	global.set	__stack_pointer
                                        # fallthrough-return
	end_function
                                        # -- End function
	.section	.text.gcm_c__siv__fotsgure_gcm_siv_seal,"",@
	.type	gcm_c__siv__fotsgure_gcm_siv_seal,@function # -- Begin function gcm_c__siv__fotsgure_gcm_siv_seal
gcm_c__siv__fotsgure_gcm_siv_seal:      # @gcm_c__siv__fotsgure_gcm_siv_seal
	.functype	gcm_c__siv__fotsgure_gcm_siv_seal (i32, i32, i32, i64, i32, i64, i32) -> (i32)
	.local  	i32, i32, i32, i64
# %bb.0:                                # %start
	global.get	__stack_pointer
	i32.const	32
	i32.sub 
	local.tee	7
	global.set	__stack_pointer
	i32.const	2
	local.set	8
	block   	
	block   	
	local.get	0
	i32.load	0
	local.tee	9
	i32.const	-16
	i32.add 
	br_table 	{0, 1, 1, 1, 1, 1, 1, 1, 1, 1, 1, 1, 1, 1, 1, 1, 0, 1} # 1: down to label114
                                        # 0: down to label115
.LBB48_1:                               # %join.3
	end_block                               # label115:
	i32.const	0
	local.set	8
	local.get	7
	i32.const	0
	i32.store	4
	local.get	7
	local.get	0
	i32.const	4
	i32.add 
	i32.store	0
	local.get	7
	local.get	9
	i64.extend_i32_u
	local.tee	10
	i64.const	1
	i64.shl 
	i64.const	56
	i64.add 
	i64.store	8
	local.get	7
	i32.const	16
	i32.add 
	local.get	7
	local.get	10
	local.get	1
	local.get	2
	local.get	3
	local.get	4
	local.get	5
	call	gcm_siv__course__seal_in____a4ece9b7a9859b66_
	local.get	6
	local.get	7
	i64.load	24:p2align=0
	i64.store	8:p2align=0
	local.get	6
	local.get	7
	i64.load	16:p2align=0
	i64.store	0:p2align=0
.LBB48_2:                               # %common.ret
	end_block                               # label114:
	local.get	7
	i32.const	32
	i32.add 
	global.set	__stack_pointer
	local.get	8
                                        # fallthrough-return
	end_function
                                        # -- End function
	.section	.text.gcm_siv__course__seal_in____a4ece9b7a9859b66_,"",@
	.type	gcm_siv__course__seal_in____a4ece9b7a9859b66_,@function # -- Begin function gcm_siv__course__seal_in____a4ece9b7a9859b66_
gcm_siv__course__seal_in____a4ece9b7a9859b66_: # @gcm_siv__course__seal_in____a4ece9b7a9859b66_
	.functype	gcm_siv__course__seal_in____a4ece9b7a9859b66_ (i32, i32, i64, i32, i32, i64, i32, i64) -> ()
	.local  	i32, i32
# %bb.0:                                # %start
	global.get	__stack_pointer
	i32.const	528
	i32.sub 
	local.tee	8
	global.set	__stack_pointer
	local.get	8
	i32.const	32
	i32.add 
	i32.const	0
	i32.const	480
	call	memset
	local.set	9
	local.get	8
	i32.const	0
	i32.store	28
	local.get	1
	local.get	2
	local.get	3
	local.get	8
	i32.const	28
	i32.add 
	local.get	8
	i32.const	512
	i32.add 
	call	gcm_siv__keys__derive_and_prepare____a4ece9b7a9859b66_
	local.get	8
	i32.const	12
	i32.add 
	local.get	8
	i32.const	28
	i32.add 
	local.get	8
	i32.const	512
	i32.add 
	local.get	3
	local.get	4
	local.get	5
	local.get	6
	local.get	7
	call	gcm_siv__message__seal____bc93ff5f0cc4cd41_
	local.get	8
	i32.const	0
	i32.store	28
	local.get	9
	call	aes_cipher__zeroize__elements__zeroize_elements____54a2bb646728b9ee_
	local.get	8
	i32.const	512
	i32.add 
	call	aes_cipher__zeroize__elements__zeroize_elements____d3d1c9d97fea966e_
	call	aes_cipher__zeroize__stack__wipe_stack____2816_
	local.get	0
	local.get	8
	i64.load	20:p2align=0
	i64.store	8:p2align=0
	local.get	0
	local.get	8
	i64.load	12:p2align=0
	i64.store	0:p2align=0
	local.get	8
	i32.const	528
	i32.add 
	global.set	__stack_pointer
                                        # fallthrough-return
	end_function
                                        # -- End function
	.section	.text.gcm_siv__message__seal____bc93ff5f0cc4cd41_,"",@
	.type	gcm_siv__message__seal____bc93ff5f0cc4cd41_,@function # -- Begin function gcm_siv__message__seal____bc93ff5f0cc4cd41_
gcm_siv__message__seal____bc93ff5f0cc4cd41_: # @gcm_siv__message__seal____bc93ff5f0cc4cd41_
	.functype	gcm_siv__message__seal____bc93ff5f0cc4cd41_ (i32, i32, i32, i32, i32, i64, i32, i64) -> ()
	.local  	i32
# %bb.0:                                # %start
	global.get	__stack_pointer
	i32.const	16
	i32.sub 
	local.tee	8
	global.set	__stack_pointer
	local.get	1
	local.get	2
	local.get	3
	local.get	4
	local.get	5
	local.get	6
	local.get	7
	local.get	8
	call	gcm_siv__message__put_tag____bc93ff5f0cc4cd41_
	local.get	1
	local.get	8
	local.get	6
	local.get	7
	call	gcm_siv__message__process_text____a556ffa628b2ee02_
	local.get	0
	local.get	8
	i64.load	8:p2align=0
	i64.store	8:p2align=0
	local.get	0
	local.get	8
	i64.load	0:p2align=0
	i64.store	0:p2align=0
	local.get	8
	i32.const	16
	i32.add 
	global.set	__stack_pointer
                                        # fallthrough-return
	end_function
                                        # -- End function
	.section	.text.gcm__hash_room__hash_piece____d9ba0fa9ccec4268_,"",@
	.type	gcm__hash_room__hash_piece____d9ba0fa9ccec4268_,@function # -- Begin function gcm__hash_room__hash_piece____d9ba0fa9ccec4268_
gcm__hash_room__hash_piece____d9ba0fa9ccec4268_: # @gcm__hash_room__hash_piece____d9ba0fa9ccec4268_
	.functype	gcm__hash_room__hash_piece____d9ba0fa9ccec4268_ (i32, i32, i32, i64, i32, i64) -> ()
	.local  	i32, i64, i32, i64, i64, i32, i32, i32, i64, i32, i64, i64, i32, i32, i32, i32, i32, i32, i32
# %bb.0:                                # %start
	global.get	__stack_pointer
	i32.const	48
	i32.sub 
	local.tee	6
	global.set	__stack_pointer
	block   	
	block   	
	block   	
	block   	
	block   	
	local.get	5
	i64.const	16
	local.get	3
	i64.sub 
	local.tee	7
	i64.ge_u
	br_if   	0                               # 0: down to label120
# %bb.1:                                # %then.1
	local.get	2
	local.get	3
	i32.wrap_i64
	local.tee	8
	i32.add 
	local.tee	1
	i64.extend_i32_u
	local.get	4
	i64.extend_i32_u
	i64.sub 
	local.get	5
	i64.ge_u
	br_if   	1                               # 1: down to label119
# %bb.2:                                # %join.7.i.i.i.i.i.i.preheader
	local.get	5
	i64.const	3
	i64.and 
	local.set	9
	i64.const	0
	local.set	10
	block   	
	local.get	5
	i64.const	4
	i64.lt_u
	br_if   	0                               # 0: down to label121
# %bb.3:                                # %join.7.i.i.i.i.i.i.preheader.new
	local.get	5
	i64.const	4294967292
	i64.and 
	local.set	5
	i64.const	0
	local.set	10
	i32.const	0
	local.set	11
.LBB51_4:                               # %join.7.i.i.i.i.i.i
                                        # =>This Inner Loop Header: Depth=1
	loop    	                                # label122:
	local.get	1
	local.get	11
	i32.add 
	local.tee	12
	local.get	4
	local.get	11
	i32.add 
	local.tee	13
	i32.load8_u	0
	i32.store8	0
	local.get	12
	i32.const	1
	i32.add 
	local.get	13
	i32.const	1
	i32.add 
	i32.load8_u	0
	i32.store8	0
	local.get	12
	i32.const	2
	i32.add 
	local.get	13
	i32.const	2
	i32.add 
	i32.load8_u	0
	i32.store8	0
	local.get	12
	i32.const	3
	i32.add 
	local.get	13
	i32.const	3
	i32.add 
	i32.load8_u	0
	i32.store8	0
	local.get	11
	i32.const	4
	i32.add 
	local.set	11
	local.get	5
	local.get	10
	i64.const	4
	i64.add 
	local.tee	10
	i64.ne  
	br_if   	0                               # 0: up to label122
# %bb.5:                                # %common.ret.loopexit.unr-lcssa
	end_loop
	local.get	9
	i64.eqz
	br_if   	5                               # 5: down to label116
.LBB51_6:                               # %join.7.i.i.i.i.i.i.epil.preheader
	end_block                               # label121:
	local.get	4
	local.get	10
	i32.wrap_i64
	local.tee	12
	i32.add 
	local.set	11
	local.get	2
	local.get	12
	local.get	8
	i32.add 
	i32.add 
	local.set	12
.LBB51_7:                               # %join.7.i.i.i.i.i.i.epil
                                        # =>This Inner Loop Header: Depth=1
	loop    	                                # label123:
	local.get	12
	local.get	11
	i32.load8_u	0
	i32.store8	0
	local.get	12
	i32.const	1
	i32.add 
	local.set	12
	local.get	11
	i32.const	1
	i32.add 
	local.set	11
	local.get	9
	i64.const	-1
	i64.add 
	local.tee	9
	i64.const	0
	i64.ne  
	br_if   	0                               # 0: up to label123
	br      	5                               # 5: down to label116
.LBB51_8:                               # %join.3
	end_loop
	end_block                               # label120:
	local.get	5
	local.get	7
	i64.sub 
	local.set	14
	local.get	4
	local.get	7
	i32.wrap_i64
	local.tee	11
	i32.add 
	local.set	15
	local.get	1
	i64.load	8:p2align=0
	local.set	16
	local.get	1
	i64.load	0:p2align=0
	local.set	17
	local.get	2
	local.get	3
	i32.wrap_i64
	local.tee	18
	i32.add 
	local.tee	8
	i64.extend_i32_u
	local.get	4
	i64.extend_i32_u
	i64.sub 
	local.get	7
	i64.ge_u
	br_if   	1                               # 1: down to label118
# %bb.9:                                # %join.7.i.i.i.i.i.i38.preheader
	local.get	7
	i64.const	3
	i64.and 
	local.set	9
	i64.const	0
	local.set	10
	block   	
	local.get	3
	i64.const	15
	i64.xor 
	i64.const	3
	i64.lt_u
	br_if   	0                               # 0: down to label124
# %bb.10:                               # %join.7.i.i.i.i.i.i38.preheader.new
	local.get	7
	i64.const	28
	i64.and 
	local.set	5
	i64.const	0
	local.set	10
	i32.const	0
	local.set	11
.LBB51_11:                              # %join.7.i.i.i.i.i.i38
                                        # =>This Inner Loop Header: Depth=1
	loop    	                                # label125:
	local.get	8
	local.get	11
	i32.add 
	local.tee	12
	local.get	4
	local.get	11
	i32.add 
	local.tee	13
	i32.load8_u	0
	i32.store8	0
	local.get	12
	i32.const	1
	i32.add 
	local.get	13
	i32.const	1
	i32.add 
	i32.load8_u	0
	i32.store8	0
	local.get	12
	i32.const	2
	i32.add 
	local.get	13
	i32.const	2
	i32.add 
	i32.load8_u	0
	i32.store8	0
	local.get	12
	i32.const	3
	i32.add 
	local.get	13
	i32.const	3
	i32.add 
	i32.load8_u	0
	i32.store8	0
	local.get	11
	i32.const	4
	i32.add 
	local.set	11
	local.get	5
	local.get	10
	i64.const	4
	i64.add 
	local.tee	10
	i64.ne  
	br_if   	0                               # 0: up to label125
# %bb.12:                               # %core__slice__edits__slice_T__copy_from_slice___i8_20_core__clone__U8Clone___.exit45.loopexit.unr-lcssa
	end_loop
	local.get	9
	i64.eqz
	br_if   	3                               # 3: down to label117
.LBB51_13:                              # %join.7.i.i.i.i.i.i38.epil.preheader
	end_block                               # label124:
	local.get	4
	local.get	10
	i32.wrap_i64
	local.tee	12
	i32.add 
	local.set	11
	local.get	2
	local.get	12
	local.get	18
	i32.add 
	i32.add 
	local.set	12
.LBB51_14:                              # %join.7.i.i.i.i.i.i38.epil
                                        # =>This Inner Loop Header: Depth=1
	loop    	                                # label126:
	local.get	12
	local.get	11
	i32.load8_u	0
	i32.store8	0
	local.get	12
	i32.const	1
	i32.add 
	local.set	12
	local.get	11
	i32.const	1
	i32.add 
	local.set	11
	local.get	9
	i64.const	-1
	i64.add 
	local.tee	9
	i64.const	0
	i64.ne  
	br_if   	0                               # 0: up to label126
	br      	3                               # 3: down to label117
.LBB51_15:                              # %apart.2.i.i.i.i.i.i
	end_loop
	end_block                               # label119:
	local.get	1
	local.get	4
	local.get	5
	i32.wrap_i64
	call	memmove
	drop
	br      	2                               # 2: down to label116
.LBB51_16:                              # %apart.2.i.i.i.i.i.i36
	end_block                               # label118:
	local.get	8
	local.get	4
	local.get	11
	call	memmove
	drop
.LBB51_17:                              # %core__slice__edits__slice_T__copy_from_slice___i8_20_core__clone__U8Clone___.exit45
	end_block                               # label117:
	local.get	6
	i32.const	16
	i32.add 
	local.get	2
	i64.load	8:p2align=0
	local.get	16
	i64.xor 
	local.tee	9
	i64.const	56
	i64.shl 
	local.get	9
	i64.const	65280
	i64.and 
	i64.const	40
	i64.shl 
	i64.or  
	local.get	9
	i64.const	16711680
	i64.and 
	i64.const	24
	i64.shl 
	local.get	9
	i64.const	4278190080
	i64.and 
	i64.const	8
	i64.shl 
	i64.or  
	i64.or  
	local.get	9
	i64.const	8
	i64.shr_u
	i64.const	4278190080
	i64.and 
	local.get	9
	i64.const	24
	i64.shr_u
	i64.const	16711680
	i64.and 
	i64.or  
	local.get	9
	i64.const	40
	i64.shr_u
	i64.const	65280
	i64.and 
	local.get	9
	i64.const	56
	i64.shr_u
	i64.or  
	i64.or  
	i64.or  
	local.get	2
	i64.load	0:p2align=0
	local.get	17
	i64.xor 
	local.tee	9
	i64.const	56
	i64.shl 
	local.get	9
	i64.const	65280
	i64.and 
	i64.const	40
	i64.shl 
	i64.or  
	local.get	9
	i64.const	16711680
	i64.and 
	i64.const	24
	i64.shl 
	local.get	9
	i64.const	4278190080
	i64.and 
	i64.const	8
	i64.shl 
	i64.or  
	i64.or  
	local.get	9
	i64.const	8
	i64.shr_u
	i64.const	4278190080
	i64.and 
	local.get	9
	i64.const	24
	i64.shr_u
	i64.const	16711680
	i64.and 
	i64.or  
	local.get	9
	i64.const	40
	i64.shr_u
	i64.const	65280
	i64.and 
	local.get	9
	i64.const	56
	i64.shr_u
	i64.or  
	i64.or  
	i64.or  
	local.get	0
	i32.load	0
	local.tee	11
	i64.load	8:p2align=0
	local.tee	9
	i64.const	56
	i64.shl 
	local.get	9
	i64.const	65280
	i64.and 
	i64.const	40
	i64.shl 
	i64.or  
	local.get	9
	i64.const	16711680
	i64.and 
	i64.const	24
	i64.shl 
	local.get	9
	i64.const	4278190080
	i64.and 
	i64.const	8
	i64.shl 
	i64.or  
	i64.or  
	local.get	9
	i64.const	8
	i64.shr_u
	i64.const	4278190080
	i64.and 
	local.get	9
	i64.const	24
	i64.shr_u
	i64.const	16711680
	i64.and 
	i64.or  
	local.get	9
	i64.const	40
	i64.shr_u
	i64.const	65280
	i64.and 
	local.get	9
	i64.const	56
	i64.shr_u
	i64.or  
	i64.or  
	i64.or  
	local.get	11
	i64.load	0:p2align=0
	local.tee	9
	i64.const	56
	i64.shl 
	local.get	9
	i64.const	65280
	i64.and 
	i64.const	40
	i64.shl 
	i64.or  
	local.get	9
	i64.const	16711680
	i64.and 
	i64.const	24
	i64.shl 
	local.get	9
	i64.const	4278190080
	i64.and 
	i64.const	8
	i64.shl 
	i64.or  
	i64.or  
	local.get	9
	i64.const	8
	i64.shr_u
	i64.const	4278190080
	i64.and 
	local.get	9
	i64.const	24
	i64.shr_u
	i64.const	16711680
	i64.and 
	i64.or  
	local.get	9
	i64.const	40
	i64.shr_u
	i64.const	65280
	i64.and 
	local.get	9
	i64.const	56
	i64.shr_u
	i64.or  
	i64.or  
	i64.or  
	call	gcm__bitwise__product_bitwise
	local.get	6
	i64.load	24
	local.set	3
	local.get	6
	i64.load	16
	local.set	7
	block   	
	block   	
	local.get	2
	i64.extend_i32_u
	local.get	15
	local.get	14
	i64.const	4294967280
	i64.and 
	local.tee	16
	i32.wrap_i64
	local.tee	19
	i32.add 
	local.tee	11
	i64.extend_i32_u
	i64.sub 
	local.get	14
	i64.const	15
	i64.and 
	local.tee	5
	i64.ge_u
	br_if   	0                               # 0: down to label128
# %bb.18:                               # %join.7.i.i.i.i.i.i67.preheader
	local.get	14
	i64.const	3
	i64.and 
	local.set	9
	i64.const	0
	local.set	10
	block   	
	local.get	5
	i64.const	4
	i64.lt_u
	br_if   	0                               # 0: down to label129
# %bb.19:                               # %join.7.i.i.i.i.i.i67.preheader.new
	local.get	14
	i64.const	12
	i64.and 
	local.set	5
	local.get	4
	local.get	19
	local.get	18
	i32.sub 
	i32.add 
	local.set	8
	i64.const	0
	local.set	10
	i32.const	0
	local.set	11
.LBB51_20:                              # %join.7.i.i.i.i.i.i67
                                        # =>This Inner Loop Header: Depth=1
	loop    	                                # label130:
	local.get	2
	local.get	11
	i32.add 
	local.tee	12
	local.get	8
	local.get	11
	i32.add 
	local.tee	13
	i32.const	16
	i32.add 
	i32.load8_u	0
	i32.store8	0
	local.get	12
	i32.const	1
	i32.add 
	local.get	13
	i32.const	17
	i32.add 
	i32.load8_u	0
	i32.store8	0
	local.get	12
	i32.const	2
	i32.add 
	local.get	13
	i32.const	18
	i32.add 
	i32.load8_u	0
	i32.store8	0
	local.get	12
	i32.const	3
	i32.add 
	local.get	13
	i32.const	19
	i32.add 
	i32.load8_u	0
	i32.store8	0
	local.get	11
	i32.const	4
	i32.add 
	local.set	11
	local.get	5
	local.get	10
	i64.const	4
	i64.add 
	local.tee	10
	i64.ne  
	br_if   	0                               # 0: up to label130
# %bb.21:                               # %core__slice__edits__slice_T__copy_from_slice___i8_20_core__clone__U8Clone___.exit74.loopexit.unr-lcssa
	end_loop
	local.get	9
	i64.eqz
	br_if   	2                               # 2: down to label127
.LBB51_22:                              # %join.7.i.i.i.i.i.i67.epil.preheader
	end_block                               # label129:
	local.get	2
	local.get	10
	i32.wrap_i64
	local.tee	12
	i32.add 
	local.set	11
	local.get	19
	local.get	12
	i32.add 
	local.get	18
	i32.sub 
	local.get	4
	i32.add 
	i32.const	16
	i32.add 
	local.set	12
.LBB51_23:                              # %join.7.i.i.i.i.i.i67.epil
                                        # =>This Inner Loop Header: Depth=1
	loop    	                                # label131:
	local.get	11
	local.get	12
	i32.load8_u	0
	i32.store8	0
	local.get	11
	i32.const	1
	i32.add 
	local.set	11
	local.get	12
	i32.const	1
	i32.add 
	local.set	12
	local.get	9
	i64.const	-1
	i64.add 
	local.tee	9
	i64.const	0
	i64.ne  
	br_if   	0                               # 0: up to label131
	br      	2                               # 2: down to label127
.LBB51_24:                              # %apart.2.i.i.i.i.i.i65
	end_loop
	end_block                               # label128:
	local.get	2
	local.get	11
	local.get	5
	i32.wrap_i64
	call	memmove
	drop
.LBB51_25:                              # %core__slice__edits__slice_T__copy_from_slice___i8_20_core__clone__U8Clone___.exit74
	end_block                               # label127:
	local.get	6
	local.get	0
	i32.load	0
	local.tee	11
	i64.load	0:p2align=0
	local.tee	9
	i64.const	56
	i64.shl 
	local.get	9
	i64.const	65280
	i64.and 
	i64.const	40
	i64.shl 
	i64.or  
	local.get	9
	i64.const	16711680
	i64.and 
	i64.const	24
	i64.shl 
	local.get	9
	i64.const	4278190080
	i64.and 
	i64.const	8
	i64.shl 
	i64.or  
	i64.or  
	local.get	9
	i64.const	8
	i64.shr_u
	i64.const	4278190080
	i64.and 
	local.get	9
	i64.const	24
	i64.shr_u
	i64.const	16711680
	i64.and 
	i64.or  
	local.get	9
	i64.const	40
	i64.shr_u
	i64.const	65280
	i64.and 
	local.get	9
	i64.const	56
	i64.shr_u
	i64.or  
	i64.or  
	i64.or  
	i64.store	40
	local.get	6
	local.get	11
	i64.load	8:p2align=0
	local.tee	9
	i64.const	56
	i64.shl 
	local.get	9
	i64.const	65280
	i64.and 
	i64.const	40
	i64.shl 
	i64.or  
	local.get	9
	i64.const	16711680
	i64.and 
	i64.const	24
	i64.shl 
	local.get	9
	i64.const	4278190080
	i64.and 
	i64.const	8
	i64.shl 
	i64.or  
	i64.or  
	local.get	9
	i64.const	8
	i64.shr_u
	i64.const	4278190080
	i64.and 
	local.get	9
	i64.const	24
	i64.shr_u
	i64.const	16711680
	i64.and 
	i64.or  
	local.get	9
	i64.const	40
	i64.shr_u
	i64.const	65280
	i64.and 
	local.get	9
	i64.const	56
	i64.shr_u
	i64.or  
	i64.or  
	i64.or  
	i64.store	32
	local.get	6
	local.get	6
	i32.const	32
	i32.add 
	local.get	7
	local.get	3
	local.get	15
	local.get	16
	call	gcm__single_blocks__hash_singly____165deadc48559e33_
	local.get	6
	i32.load8_u	15
	local.set	11
	local.get	6
	i32.load8_u	14
	local.set	12
	local.get	6
	i32.load8_u	13
	local.set	13
	local.get	6
	i32.load8_u	12
	local.set	4
	local.get	6
	i32.load8_u	11
	local.set	2
	local.get	6
	i32.load8_u	10
	local.set	8
	local.get	6
	i32.load8_u	9
	local.set	0
	local.get	6
	i32.load8_u	8
	local.set	15
	local.get	6
	i32.load8_u	7
	local.set	18
	local.get	6
	i32.load8_u	6
	local.set	19
	local.get	6
	i32.load8_u	5
	local.set	20
	local.get	6
	i32.load8_u	4
	local.set	21
	local.get	6
	i32.load8_u	3
	local.set	22
	local.get	6
	i32.load8_u	2
	local.set	23
	local.get	6
	i32.load8_u	1
	local.set	24
	local.get	1
	local.get	6
	i32.load8_u	0
	i32.store8	15
	local.get	1
	local.get	24
	i32.store8	14
	local.get	1
	local.get	23
	i32.store8	13
	local.get	1
	local.get	22
	i32.store8	12
	local.get	1
	local.get	21
	i32.store8	11
	local.get	1
	local.get	20
	i32.store8	10
	local.get	1
	local.get	19
	i32.store8	9
	local.get	1
	local.get	18
	i32.store8	8
	local.get	1
	local.get	15
	i32.store8	7
	local.get	1
	local.get	0
	i32.store8	6
	local.get	1
	local.get	8
	i32.store8	5
	local.get	1
	local.get	2
	i32.store8	4
	local.get	1
	local.get	4
	i32.store8	3
	local.get	1
	local.get	13
	i32.store8	2
	local.get	1
	local.get	12
	i32.store8	1
	local.get	1
	local.get	11
	i32.store8	0
.LBB51_26:                              # %common.ret
	end_block                               # label116:
	local.get	6
	i32.const	48
	i32.add 
	global.set	__stack_pointer
                                        # fallthrough-return
	end_function
                                        # -- End function
	.section	.text.gcm__mode__BorrowedGcm__enter_phase____c01aad2b5fbc92b1_,"",@
	.type	gcm__mode__BorrowedGcm__enter_phase____c01aad2b5fbc92b1_,@function # -- Begin function gcm__mode__BorrowedGcm__enter_phase____c01aad2b5fbc92b1_
gcm__mode__BorrowedGcm__enter_phase____c01aad2b5fbc92b1_: # @gcm__mode__BorrowedGcm__enter_phase____c01aad2b5fbc92b1_
	.functype	gcm__mode__BorrowedGcm__enter_phase____c01aad2b5fbc92b1_ (i32, i32, i32, i32, i64) -> ()
	.local  	i32, i32, i32, i64, i32, i32, i32, i32, i32, i32, i32, i32, i32, i32, i32, i32
# %bb.0:                                # %start
	global.get	__stack_pointer
	i32.const	16
	i32.sub 
	local.tee	5
	global.set	__stack_pointer
	i32.const	0
	local.set	6
	i32.const	1
	local.set	7
	block   	
	block   	
	local.get	2
	i32.const	24
	i32.add 
	i64.load	0
	local.tee	8
	i32.wrap_i64
	i32.const	0
	local.get	8
	i64.const	5
	i64.lt_u
	i32.select
	i32.const	255
	i32.and 
	local.tee	9
	i32.const	1
	i32.eq  
	br_if   	0                               # 0: down to label133
# %bb.1:                                # %start
	local.get	9
	local.get	3
	i32.const	255
	i32.and 
	i32.ne  
	br_if   	1                               # 1: down to label132
.LBB52_2:                               # %join.3
	end_block                               # label133:
	i64.const	-1
	local.get	4
	local.get	2
	i32.const	8
	i32.add 
	i64.load	0
	i64.add 
	local.tee	8
	local.get	8
	local.get	4
	i64.lt_u
	i64.select
	local.tee	4
	i64.const	68719476704
	i64.gt_u
	local.set	6
	block   	
	local.get	9
	i32.const	1
	i32.eq  
	br_if   	0                               # 0: down to label134
# %bb.3:
	local.get	6
	local.set	7
	br      	1                               # 1: down to label132
.LBB52_4:                               # %join.3
	end_block                               # label134:
	local.get	6
	local.set	7
	local.get	4
	i64.const	68719476704
	i64.gt_u
	br_if   	0                               # 0: down to label132
# %bb.5:                                # %then.8
	local.get	5
	local.get	1
	local.get	2
	call	gcm__mode__BorrowedGcm__hash_so_far____c01aad2b5fbc92b1_
	local.get	5
	i32.load8_u	15
	local.set	6
	local.get	5
	i32.load8_u	14
	local.set	7
	local.get	5
	i32.load8_u	13
	local.set	9
	local.get	5
	i32.load8_u	12
	local.set	1
	local.get	5
	i32.load8_u	11
	local.set	10
	local.get	5
	i32.load8_u	10
	local.set	11
	local.get	5
	i32.load8_u	9
	local.set	12
	local.get	5
	i32.load8_u	8
	local.set	13
	local.get	5
	i32.load8_u	7
	local.set	14
	local.get	5
	i32.load8_u	6
	local.set	15
	local.get	5
	i32.load8_u	5
	local.set	16
	local.get	5
	i32.load8_u	4
	local.set	17
	local.get	5
	i32.load8_u	3
	local.set	18
	local.get	5
	i32.load8_u	2
	local.set	19
	local.get	5
	i32.load8_u	1
	local.set	20
	local.get	2
	i32.const	63
	i32.add 
	local.get	5
	i32.load8_u	0
	i32.store8	0
	local.get	2
	i32.const	62
	i32.add 
	local.get	20
	i32.store8	0
	local.get	2
	i32.const	61
	i32.add 
	local.get	19
	i32.store8	0
	local.get	2
	i32.const	60
	i32.add 
	local.get	18
	i32.store8	0
	local.get	2
	i32.const	59
	i32.add 
	local.get	17
	i32.store8	0
	local.get	2
	i32.const	58
	i32.add 
	local.get	16
	i32.store8	0
	local.get	2
	i32.const	57
	i32.add 
	local.get	15
	i32.store8	0
	local.get	2
	i32.const	56
	i32.add 
	local.get	14
	i32.store8	0
	local.get	2
	i32.const	55
	i32.add 
	local.get	13
	i32.store8	0
	local.get	2
	i32.const	54
	i32.add 
	local.get	12
	i32.store8	0
	local.get	2
	i32.const	53
	i32.add 
	local.get	11
	i32.store8	0
	local.get	2
	i32.const	52
	i32.add 
	local.get	10
	i32.store8	0
	local.get	2
	i32.const	51
	i32.add 
	local.get	1
	i32.store8	0
	local.get	2
	i32.const	50
	i32.add 
	local.get	9
	i32.store8	0
	local.get	2
	i32.const	49
	i32.add 
	local.get	7
	i32.store8	0
	local.get	2
	i32.const	48
	i32.add 
	local.get	6
	i32.store8	0
	local.get	2
	i32.const	24
	i32.add 
	local.get	3
	i64.extend_i32_u
	i64.const	255
	i64.and 
	i64.store	0
	i32.const	0
	local.set	6
	i32.const	0
	local.set	7
.LBB52_6:                               # %return.4
	end_block                               # label132:
	local.get	0
	local.get	6
	i32.store8	1
	local.get	0
	local.get	7
	i32.store8	0
	local.get	5
	i32.const	16
	i32.add 
	global.set	__stack_pointer
                                        # fallthrough-return
	end_function
                                        # -- End function
	.section	.text.gcm__mode__BorrowedGcm__is_tag_so_far____c01aad2b5fbc92b1_,"",@
	.type	gcm__mode__BorrowedGcm__is_tag_so_far____c01aad2b5fbc92b1_,@function # -- Begin function gcm__mode__BorrowedGcm__is_tag_so_far____c01aad2b5fbc92b1_
gcm__mode__BorrowedGcm__is_tag_so_far____c01aad2b5fbc92b1_: # @gcm__mode__BorrowedGcm__is_tag_so_far____c01aad2b5fbc92b1_
	.functype	gcm__mode__BorrowedGcm__is_tag_so_far____c01aad2b5fbc92b1_ (i32, i32, i32) -> (i32)
	.local  	i32
# %bb.0:                                # %start
	global.get	__stack_pointer
	i32.const	16
	i32.sub 
	local.tee	3
	global.set	__stack_pointer
	local.get	0
	local.get	1
	local.get	3
	call	gcm__mode__BorrowedGcm__put_tag_so_far____c01aad2b5fbc92b1_
	local.get	2
	local.get	3
	call	aes_cipher__blocks__difference
	local.set	1
	local.get	3
	call	aes_cipher__zeroize__elements__zeroize_elements____3b2097f0eef5a37b_
	local.get	3
	i32.const	16
	i32.add 
	global.set	__stack_pointer
	local.get	1
	i32.eqz
                                        # fallthrough-return
	end_function
                                        # -- End function
	.section	.text.gcm__mode__BorrowedGcm__is_short_tag_so_far____c01aad2b5fbc92b1_,"",@
	.type	gcm__mode__BorrowedGcm__is_short_tag_so_far____c01aad2b5fbc92b1_,@function # -- Begin function gcm__mode__BorrowedGcm__is_short_tag_so_far____c01aad2b5fbc92b1_
gcm__mode__BorrowedGcm__is_short_tag_so_far____c01aad2b5fbc92b1_: # @gcm__mode__BorrowedGcm__is_short_tag_so_far____c01aad2b5fbc92b1_
	.functype	gcm__mode__BorrowedGcm__is_short_tag_so_far____c01aad2b5fbc92b1_ (i32, i32, i32, i64) -> (i32)
	.local  	i32
# %bb.0:                                # %start
	global.get	__stack_pointer
	i32.const	32
	i32.sub 
	local.tee	4
	global.set	__stack_pointer
	local.get	0
	local.get	1
	local.get	4
	i32.const	16
	i32.add 
	call	gcm__mode__BorrowedGcm__put_tag_so_far____c01aad2b5fbc92b1_
	local.get	4
	local.get	4
	i64.load	24:p2align=0
	i64.store	8
	local.get	4
	local.get	4
	i64.load	16:p2align=0
	i64.store	0
	local.get	4
	local.get	2
	local.get	3
	i32.wrap_i64
	call	memcpy
	local.tee	4
	local.get	4
	i32.const	16
	i32.add 
	call	aes_cipher__blocks__difference
	local.set	1
	local.get	4
	i32.const	16
	i32.add 
	call	aes_cipher__zeroize__elements__zeroize_elements____3b2097f0eef5a37b_
	local.get	4
	call	aes_cipher__zeroize__elements__zeroize_elements____3b2097f0eef5a37b_
	local.get	4
	i32.const	32
	i32.add 
	global.set	__stack_pointer
	local.get	1
	i32.eqz
                                        # fallthrough-return
	end_function
                                        # -- End function
	.section	.text.fotsgure_gcm_version,"",@
	.globl	fotsgure_gcm_version            # -- Begin function fotsgure_gcm_version
	.type	fotsgure_gcm_version,@function
fotsgure_gcm_version:                   # @fotsgure_gcm_version
	.functype	fotsgure_gcm_version () -> (i32)
# %bb.0:
	i32.const	400
                                        # fallthrough-return
	end_function
                                        # -- End function
	.section	.text.fotsgure_gcm_set_key,"",@
	.globl	fotsgure_gcm_set_key            # -- Begin function fotsgure_gcm_set_key
	.type	fotsgure_gcm_set_key,@function
fotsgure_gcm_set_key:                   # @fotsgure_gcm_set_key
	.functype	fotsgure_gcm_set_key (i32, i32, i32) -> (i32)
	.local  	i32, i64, i32, i32
# %bb.0:
	global.get	__stack_pointer
	i32.const	16
	i32.sub 
	local.tee	3
	global.set	__stack_pointer
	local.get	2
	i64.extend_i32_u
	local.set	4
	block   	
	block   	
	local.get	2
	i32.const	32
	i32.eq  
	br_if   	0                               # 0: down to label136
# %bb.1:
	local.get	4
	i64.const	4294967287
	i64.and 
	i64.const	16
	i64.eq  
	br_if   	0                               # 0: down to label136
# %bb.2:                                # %then.1.i.i
	local.get	0
	i32.const	0
	i32.const	500
	call	memset
	drop
	i32.const	1
	local.set	5
	br      	1                               # 1: down to label135
.LBB56_3:                               # %join.3.i.i
	end_block                               # label136:
	i32.const	0
	local.set	5
	local.get	0
	i32.const	4
	i32.add 
	i32.const	0
	i32.const	480
	call	memset
	local.tee	6
	local.get	1
	i32.const	0
	i32.const	4096
	local.get	1
	i32.select
	i32.add 
	local.get	4
	call	aes_narrow__word_room__expand_words____6af90bfc14753d47_
	call	aes_cipher__zeroize__stack__wipe_stack____768_
	local.get	0
	local.get	2
	i32.store	0
	local.get	3
	local.get	4
	i64.const	1
	i64.shl 
	i64.const	56
	i64.add 
	i64.store	8
	local.get	3
	i32.const	0
	i32.store	4
	local.get	3
	local.get	6
	i32.store	0
	local.get	3
	local.get	0
	i32.const	484
	i32.add 
	call	gcm__mode__put_subkey____107cc7d9d0728059_
	call	aes_cipher__zeroize__stack__wipe_stack____512_
.LBB56_4:                               # %wide_fotsgure_gcm_set_key.exit
	end_block                               # label135:
	local.get	3
	i32.const	16
	i32.add 
	global.set	__stack_pointer
	local.get	5
                                        # fallthrough-return
	end_function
                                        # -- End function
	.section	.text.fotsgure_gcm_set_key_of,"",@
	.globl	fotsgure_gcm_set_key_of         # -- Begin function fotsgure_gcm_set_key_of
	.type	fotsgure_gcm_set_key_of,@function
fotsgure_gcm_set_key_of:                # @fotsgure_gcm_set_key_of
	.functype	fotsgure_gcm_set_key_of (i32, i32) -> (i32)
	.local  	i32, i32, i64
# %bb.0:
	global.get	__stack_pointer
	i32.const	16
	i32.sub 
	local.tee	2
	global.set	__stack_pointer
	local.get	1
	i32.load	0
	local.tee	3
	i64.extend_i32_u
	local.set	4
	block   	
	block   	
	local.get	3
	i32.const	32
	i32.eq  
	br_if   	0                               # 0: down to label138
# %bb.1:
	local.get	4
	i64.const	4294967287
	i64.and 
	i64.const	16
	i64.eq  
	br_if   	0                               # 0: down to label138
# %bb.2:                                # %then.1.i.i
	local.get	0
	i32.const	0
	i32.const	500
	call	memset
	local.tee	0
	i32.const	4
	i32.add 
	call	aes_cipher__zeroize__elements__zeroize_elements____54a2bb646728b9ee_
	local.get	0
	i32.const	484
	i32.add 
	call	aes_cipher__zeroize__elements__zeroize_elements____d3d1c9d97fea966e_
	i32.const	2
	local.set	1
	br      	1                               # 1: down to label137
.LBB57_3:                               # %join.3.i.i
	end_block                               # label138:
	local.get	0
	local.get	3
	i32.store	0
	local.get	0
	i32.const	4
	i32.add 
	local.get	1
	i32.const	4
	i32.add 
	i32.const	480
	call	memmove
	local.set	3
	local.get	2
	local.get	4
	i64.const	1
	i64.shl 
	i64.const	56
	i64.add 
	i64.store	8
	i32.const	0
	local.set	1
	local.get	2
	i32.const	0
	i32.store	4
	local.get	2
	local.get	3
	i32.store	0
	local.get	2
	local.get	0
	i32.const	484
	i32.add 
	call	gcm__mode__put_subkey____107cc7d9d0728059_
	call	aes_cipher__zeroize__stack__wipe_stack____512_
.LBB57_4:                               # %wide_fotsgure_gcm_set_key_of.exit
	end_block                               # label137:
	local.get	2
	i32.const	16
	i32.add 
	global.set	__stack_pointer
	local.get	1
                                        # fallthrough-return
	end_function
                                        # -- End function
	.section	.text.fotsgure_gcm_key_length,"",@
	.globl	fotsgure_gcm_key_length         # -- Begin function fotsgure_gcm_key_length
	.type	fotsgure_gcm_key_length,@function
fotsgure_gcm_key_length:                # @fotsgure_gcm_key_length
	.functype	fotsgure_gcm_key_length (i32) -> (i32)
# %bb.0:
	local.get	0
	i32.load	0
	local.tee	0
	local.get	0
	i32.const	0
	local.get	0
	i32.const	-9
	i32.and 
	i32.const	16
	i32.eq  
	i32.select
	local.get	0
	i32.const	32
	i32.eq  
	i32.select
                                        # fallthrough-return
	end_function
                                        # -- End function
	.section	.text.fotsgure_gcm_wipe,"",@
	.globl	fotsgure_gcm_wipe               # -- Begin function fotsgure_gcm_wipe
	.type	fotsgure_gcm_wipe,@function
fotsgure_gcm_wipe:                      # @fotsgure_gcm_wipe
	.functype	fotsgure_gcm_wipe (i32) -> ()
# %bb.0:
	local.get	0
	i32.const	0
	i32.const	500
	call	memset
	local.tee	0
	i32.const	4
	i32.add 
	call	aes_cipher__zeroize__elements__zeroize_elements____54a2bb646728b9ee_
	local.get	0
	i32.const	484
	i32.add 
	call	aes_cipher__zeroize__elements__zeroize_elements____d3d1c9d97fea966e_
                                        # fallthrough-return
	end_function
                                        # -- End function
	.section	.text.fotsgure_gcm_seal,"",@
	.globl	fotsgure_gcm_seal               # -- Begin function fotsgure_gcm_seal
	.type	fotsgure_gcm_seal,@function
fotsgure_gcm_seal:                      # @fotsgure_gcm_seal
	.functype	fotsgure_gcm_seal (i32, i32, i32, i32, i32, i32, i32, i32) -> (i32)
# %bb.0:
	local.get	0
	local.get	1
	i32.const	0
	i32.const	4096
	local.get	1
	i32.select
	i32.add 
	local.get	2
	i64.extend_i32_u
	local.get	3
	i32.const	0
	i32.const	4096
	local.get	3
	i32.select
	i32.add 
	local.get	4
	i64.extend_i32_u
	local.get	5
	i32.const	0
	i32.const	4096
	local.get	5
	i32.select
	i32.add 
	local.get	6
	i64.extend_i32_u
	local.get	7
	call	gcm_c__whole__fotsgure_gcm_seal
                                        # fallthrough-return
	end_function
                                        # -- End function
	.section	.text.fotsgure_gcm_seal_to,"",@
	.globl	fotsgure_gcm_seal_to            # -- Begin function fotsgure_gcm_seal_to
	.type	fotsgure_gcm_seal_to,@function
fotsgure_gcm_seal_to:                   # @fotsgure_gcm_seal_to
	.functype	fotsgure_gcm_seal_to (i32, i32, i32, i32, i32, i32, i32, i32, i32, i32) -> (i32)
	.local  	i32, i64
# %bb.0:
	block   	
	local.get	6
	local.get	8
	i32.eq  
	br_if   	0                               # 0: down to label139
# %bb.1:
	i32.const	10
	return
.LBB61_2:                               # %join.3.i.i
	end_block                               # label139:
	block   	
	local.get	2
	br_if   	0                               # 0: down to label140
# %bb.3:
	i32.const	3
	return
.LBB61_4:                               # %after.11.i.i.i
	end_block                               # label140:
	i32.const	2
	local.set	8
	block   	
	local.get	0
	i32.load	0
	i32.const	-16
	i32.add 
	local.tee	10
	i32.const	16
	i32.gt_u
	br_if   	0                               # 0: down to label141
# %bb.5:                                # %after.11.i.i.i
	i32.const	1
	local.get	10
	i32.shl 
	i32.const	65793
	i32.and 
	i32.eqz
	br_if   	0                               # 0: down to label141
# %bb.6:                                # %join.6.i.i
	local.get	5
	i32.const	0
	i32.const	4096
	local.get	5
	i32.select
	i32.add 
	local.get	6
	i64.extend_i32_u
	local.tee	11
	local.get	7
	i32.const	0
	i32.const	4096
	local.get	7
	i32.select
	i32.add 
	local.tee	6
	call	gcm_c__whole_to__copy
	local.get	0
	local.get	1
	i32.const	0
	i32.const	4096
	local.get	1
	i32.select
	i32.add 
	local.get	2
	i64.extend_i32_u
	local.get	3
	i32.const	0
	i32.const	4096
	local.get	3
	i32.select
	i32.add 
	local.get	4
	i64.extend_i32_u
	local.get	6
	local.get	11
	local.get	9
	call	gcm_c__whole__fotsgure_gcm_seal
	local.set	8
.LBB61_7:                               # %wide_fotsgure_gcm_seal_to.exit
	end_block                               # label141:
	local.get	8
                                        # fallthrough-return
	end_function
                                        # -- End function
	.section	.text.fotsgure_gcm_seal_next,"",@
	.globl	fotsgure_gcm_seal_next          # -- Begin function fotsgure_gcm_seal_next
	.type	fotsgure_gcm_seal_next,@function
fotsgure_gcm_seal_next:                 # @fotsgure_gcm_seal_next
	.functype	fotsgure_gcm_seal_next (i32, i32, i32, i32, i32, i32, i32, i32) -> (i32)
	.local  	i64, i64
# %bb.0:
	block   	
	local.get	1
	i32.const	4
	i32.add 
	i64.load	0:p2align=0
	i64.const	-1
	i64.ne  
	br_if   	0                               # 0: down to label142
# %bb.1:                                # %gcm__counter__Counter__is_over.exit.i.i
	local.get	1
	i32.load	0:p2align=0
	i32.const	-1
	i32.ne  
	br_if   	0                               # 0: down to label142
# %bb.2:
	i32.const	7
	return
.LBB62_3:                               # %join.3.i.i
	end_block                               # label142:
	block   	
	local.get	0
	local.get	1
	i64.const	12
	local.get	3
	i32.const	0
	i32.const	4096
	local.get	3
	i32.select
	i32.add 
	local.get	4
	i64.extend_i32_u
	local.get	5
	i32.const	0
	i32.const	4096
	local.get	5
	i32.select
	i32.add 
	local.get	6
	i64.extend_i32_u
	local.get	7
	call	gcm_c__whole__fotsgure_gcm_seal
	local.tee	5
	br_if   	0                               # 0: down to label143
# %bb.4:                                # %then.4.i.i
	local.get	1
	i32.load	0:p2align=0
	local.tee	5
	i32.const	16711935
	i32.and 
	i32.const	8
	i32.rotr
	local.get	5
	i32.const	24
	i32.rotr
	i32.const	16711935
	i32.and 
	i32.or  
	local.set	3
	block   	
	block   	
	block   	
	local.get	1
	i32.const	4
	i32.add 
	i64.load	0:p2align=0
	local.tee	8
	i64.const	-1
	i64.eq  
	br_if   	0                               # 0: down to label146
# %bb.5:                                # %gcm__counter__nonce_after.exit.thread.i.i.i
	local.get	8
	i64.const	56
	i64.shl 
	local.get	8
	i64.const	65280
	i64.and 
	i64.const	40
	i64.shl 
	i64.or  
	local.get	8
	i64.const	16711680
	i64.and 
	i64.const	24
	i64.shl 
	local.get	8
	i64.const	4278190080
	i64.and 
	i64.const	8
	i64.shl 
	i64.or  
	i64.or  
	local.get	8
	i64.const	8
	i64.shr_u
	i64.const	4278190080
	i64.and 
	local.get	8
	i64.const	24
	i64.shr_u
	i64.const	16711680
	i64.and 
	i64.or  
	local.get	8
	i64.const	40
	i64.shr_u
	i64.const	65280
	i64.and 
	local.get	8
	i64.const	56
	i64.shr_u
	i64.or  
	i64.or  
	i64.or  
	i64.const	1
	i64.add 
	local.tee	9
	i64.const	56
	i64.shl 
	local.get	9
	i64.const	65280
	i64.and 
	i64.const	40
	i64.shl 
	i64.or  
	local.get	9
	i64.const	16711680
	i64.and 
	i64.const	24
	i64.shl 
	local.get	9
	i64.const	4278190080
	i64.and 
	i64.const	8
	i64.shl 
	i64.or  
	i64.or  
	local.get	9
	i64.const	8
	i64.shr_u
	i64.const	4278190080
	i64.and 
	local.get	9
	i64.const	24
	i64.shr_u
	i64.const	16711680
	i64.and 
	i64.or  
	local.get	9
	i64.const	40
	i64.shr_u
	i64.const	65280
	i64.and 
	local.get	9
	i64.const	56
	i64.shr_u
	i64.or  
	i64.or  
	i64.or  
	local.set	9
	br      	1                               # 1: down to label145
.LBB62_6:                               # %gcm__counter__nonce_after.exit.i.i.i
	end_block                               # label146:
	local.get	5
	i32.const	-1
	i32.eq  
	br_if   	1                               # 1: down to label144
# %bb.7:
	local.get	3
	i32.const	1
	i32.add 
	local.set	3
	i64.const	0
	local.set	9
.LBB62_8:                               # %arm.1.i.i.i
	end_block                               # label145:
	local.get	1
	i32.const	4
	i32.add 
	local.get	9
	i64.store	0:p2align=0
	local.get	1
	local.get	3
	i32.const	16711935
	i32.and 
	i32.const	8
	i32.rotr
	local.get	3
	i32.const	24
	i32.rotr
	i32.const	16711935
	i32.and 
	i32.or  
	i32.store	0:p2align=0
.LBB62_9:                               # %gcm__counter__Counter__take.exit.i.i
	end_block                               # label144:
	local.get	2
	local.get	8
	i64.store	4:p2align=0
	local.get	2
	local.get	5
	i32.store	0:p2align=0
	i32.const	0
	local.set	5
.LBB62_10:                              # %wide_fotsgure_gcm_seal_next.exit
	end_block                               # label143:
	local.get	5
                                        # fallthrough-return
	end_function
                                        # -- End function
	.section	.text.fotsgure_gcm_open,"",@
	.globl	fotsgure_gcm_open               # -- Begin function fotsgure_gcm_open
	.type	fotsgure_gcm_open,@function
fotsgure_gcm_open:                      # @fotsgure_gcm_open
	.functype	fotsgure_gcm_open (i32, i32, i32, i32, i32, i32, i32, i32, i32) -> (i32)
	.local  	i32, i32, i32, i64
# %bb.0:
	global.get	__stack_pointer
	i32.const	64
	i32.sub 
	local.tee	9
	global.set	__stack_pointer
	block   	
	block   	
	local.get	8
	i32.const	16
	i32.eq  
	br_if   	0                               # 0: down to label148
# %bb.1:
	i32.const	4
	local.set	8
	br      	1                               # 1: down to label147
.LBB63_2:                               # %join.3.i.i
	end_block                               # label148:
	block   	
	local.get	2
	br_if   	0                               # 0: down to label149
# %bb.3:
	i32.const	3
	local.set	8
	br      	1                               # 1: down to label147
.LBB63_4:                               # %after.11.i.i.i
	end_block                               # label149:
	i32.const	2
	local.set	8
	local.get	0
	i32.load	0
	local.tee	10
	i32.const	-16
	i32.add 
	local.tee	11
	i32.const	16
	i32.gt_u
	br_if   	0                               # 0: down to label147
# %bb.5:                                # %after.11.i.i.i
	i32.const	1
	local.get	11
	i32.shl 
	i32.const	65793
	i32.and 
	i32.eqz
	br_if   	0                               # 0: down to label147
# %bb.6:                                # %join.6.i.i
	local.get	9
	i32.const	0
	i32.store	28
	local.get	9
	i32.const	0
	i32.store	12
	local.get	9
	local.get	7
	i32.const	0
	i32.const	4096
	local.get	7
	i32.select
	i32.add 
	local.tee	8
	i64.load	8:p2align=0
	i64.store	40
	local.get	9
	local.get	8
	i64.load	0:p2align=0
	i64.store	32
	local.get	9
	local.get	0
	i32.const	484
	i32.add 
	i32.store	24
	local.get	9
	local.get	0
	i32.const	4
	i32.add 
	i32.store	8
	local.get	9
	local.get	10
	i64.extend_i32_u
	i64.const	1
	i64.shl 
	i64.const	56
	i64.add 
	i64.store	16
	local.get	9
	i64.const	0
	i64.store	56
	local.get	9
	i64.const	0
	i64.store	48
	i32.const	6
	local.set	8
	block   	
	local.get	9
	i32.const	8
	i32.add 
	local.get	1
	i32.const	0
	i32.const	4096
	local.get	1
	i32.select
	i32.add 
	local.get	2
	i64.extend_i32_u
	local.get	3
	i32.const	0
	i32.const	4096
	local.get	3
	i32.select
	i32.add 
	local.get	4
	i64.extend_i32_u
	local.get	5
	i32.const	0
	i32.const	4096
	local.get	5
	i32.select
	i32.add 
	local.tee	0
	local.get	6
	i64.extend_i32_u
	local.tee	12
	local.get	9
	i32.const	32
	i32.add 
	local.get	9
	i32.const	48
	i32.add 
	call	gcm__mode__BorrowedGcm__compare____c01aad2b5fbc92b1_
	i32.const	255
	i32.and 
	br_if   	0                               # 0: down to label150
# %bb.7:                                # %then.1.i.i.i
	local.get	9
	i32.const	8
	i32.add 
	local.get	9
	i32.const	48
	i32.add 
	i64.const	16
	local.get	0
	local.get	12
	call	gcm__gctr__add_gctr____099a9bc28799ce6c_
	i32.const	0
	local.set	8
.LBB63_8:                               # %gcm__mode__BorrowedGcm__decrypt____c01aad2b5fbc92b1_.exit.i.i
	end_block                               # label150:
	local.get	9
	i32.const	48
	i32.add 
	call	aes_cipher__zeroize__elements__zeroize_elements____3b2097f0eef5a37b_
	call	aes_cipher__zeroize__stack__wipe_stack____1536_
.LBB63_9:                               # %wide_fotsgure_gcm_open.exit
	end_block                               # label147:
	local.get	9
	i32.const	64
	i32.add 
	global.set	__stack_pointer
	local.get	8
                                        # fallthrough-return
	end_function
                                        # -- End function
	.section	.text.fotsgure_gcm_open_to,"",@
	.globl	fotsgure_gcm_open_to            # -- Begin function fotsgure_gcm_open_to
	.type	fotsgure_gcm_open_to,@function
fotsgure_gcm_open_to:                   # @fotsgure_gcm_open_to
	.functype	fotsgure_gcm_open_to (i32, i32, i32, i32, i32, i32, i32, i32, i32, i32, i32) -> (i32)
	.local  	i32, i32, i32, i32, i64, i64, i64, i64
# %bb.0:
	global.get	__stack_pointer
	i32.const	64
	i32.sub 
	local.tee	11
	global.set	__stack_pointer
	block   	
	block   	
	local.get	6
	local.get	8
	i32.eq  
	br_if   	0                               # 0: down to label152
# %bb.1:
	i32.const	10
	local.set	8
	br      	1                               # 1: down to label151
.LBB64_2:                               # %join.3.i.i
	end_block                               # label152:
	block   	
	local.get	10
	i32.const	16
	i32.eq  
	br_if   	0                               # 0: down to label153
# %bb.3:
	i32.const	4
	local.set	8
	br      	1                               # 1: down to label151
.LBB64_4:                               # %join.6.i.i
	end_block                               # label153:
	block   	
	local.get	2
	br_if   	0                               # 0: down to label154
# %bb.5:
	i32.const	3
	local.set	8
	br      	1                               # 1: down to label151
.LBB64_6:                               # %after.11.i.i.i
	end_block                               # label154:
	i32.const	2
	local.set	8
	local.get	0
	i32.load	0
	local.tee	12
	i32.const	-16
	i32.add 
	local.tee	10
	i32.const	16
	i32.gt_u
	br_if   	0                               # 0: down to label151
# %bb.7:                                # %after.11.i.i.i
	i32.const	1
	local.get	10
	i32.shl 
	i32.const	65793
	i32.and 
	i32.eqz
	br_if   	0                               # 0: down to label151
# %bb.8:                                # %join.9.i.i
	local.get	7
	i32.const	0
	i32.const	4096
	local.get	7
	i32.select
	local.tee	13
	i32.add 
	local.set	14
	local.get	11
	i32.const	0
	i32.store	28
	local.get	11
	i32.const	0
	i32.store	12
	local.get	11
	local.get	9
	i32.const	0
	i32.const	4096
	local.get	9
	i32.select
	i32.add 
	local.tee	8
	i64.load	8:p2align=0
	i64.store	40
	local.get	11
	local.get	8
	i64.load	0:p2align=0
	i64.store	32
	local.get	11
	local.get	0
	i32.const	484
	i32.add 
	i32.store	24
	local.get	11
	local.get	0
	i32.const	4
	i32.add 
	i32.store	8
	local.get	11
	local.get	12
	i64.extend_i32_u
	i64.const	1
	i64.shl 
	i64.const	56
	i64.add 
	i64.store	16
	local.get	11
	i64.const	0
	i64.store	56
	local.get	11
	i64.const	0
	i64.store	48
	block   	
	block   	
	block   	
	block   	
	local.get	11
	i32.const	8
	i32.add 
	local.get	1
	i32.const	0
	i32.const	4096
	local.get	1
	i32.select
	i32.add 
	local.get	2
	i64.extend_i32_u
	local.get	3
	i32.const	0
	i32.const	4096
	local.get	3
	i32.select
	i32.add 
	local.get	4
	i64.extend_i32_u
	local.get	5
	i32.const	0
	i32.const	4096
	local.get	5
	i32.select
	local.tee	2
	i32.add 
	local.tee	0
	local.get	6
	i64.extend_i32_u
	local.tee	15
	local.get	11
	i32.const	32
	i32.add 
	local.get	11
	i32.const	48
	i32.add 
	call	gcm__mode__BorrowedGcm__compare____c01aad2b5fbc92b1_
	i32.const	255
	i32.and 
	br_if   	0                               # 0: down to label158
# %bb.9:                                # %then.1.i.i.i
	local.get	14
	i64.extend_i32_u
	local.get	0
	i64.extend_i32_u
	i64.sub 
	local.get	15
	i64.ge_u
	br_if   	1                               # 1: down to label157
# %bb.10:                               # %join.7.i.i.i.i.i.i.i.i.i.preheader
	local.get	15
	i64.const	3
	i64.and 
	local.set	16
	i64.const	0
	local.set	17
	block   	
	local.get	6
	i32.const	4
	i32.lt_u
	br_if   	0                               # 0: down to label159
# %bb.11:                               # %join.7.i.i.i.i.i.i.i.i.i.preheader.new
	local.get	15
	i64.const	4294967292
	i64.and 
	local.set	18
	i64.const	0
	local.set	17
	i32.const	0
	local.set	6
.LBB64_12:                              # %join.7.i.i.i.i.i.i.i.i.i
                                        # =>This Inner Loop Header: Depth=1
	loop    	                                # label160:
	local.get	14
	local.get	6
	i32.add 
	local.tee	8
	local.get	0
	local.get	6
	i32.add 
	local.tee	10
	i32.load8_u	0
	i32.store8	0
	local.get	8
	i32.const	1
	i32.add 
	local.get	10
	i32.const	1
	i32.add 
	i32.load8_u	0
	i32.store8	0
	local.get	8
	i32.const	2
	i32.add 
	local.get	10
	i32.const	2
	i32.add 
	i32.load8_u	0
	i32.store8	0
	local.get	8
	i32.const	3
	i32.add 
	local.get	10
	i32.const	3
	i32.add 
	i32.load8_u	0
	i32.store8	0
	local.get	6
	i32.const	4
	i32.add 
	local.set	6
	local.get	18
	local.get	17
	i64.const	4
	i64.add 
	local.tee	17
	i64.ne  
	br_if   	0                               # 0: up to label160
# %bb.13:                               # %core__slice__edits__slice_T__copy_from_slice___i8_20_core__clone__U8Clone___.exit.i.i.i.loopexit.unr-lcssa
	end_loop
	local.get	16
	i64.eqz
	br_if   	3                               # 3: down to label156
.LBB64_14:                              # %join.7.i.i.i.i.i.i.i.i.i.epil.preheader
	end_block                               # label159:
	local.get	7
	local.get	13
	local.get	17
	i32.wrap_i64
	local.tee	8
	i32.add 
	i32.add 
	local.set	6
	local.get	5
	local.get	2
	local.get	8
	i32.add 
	i32.add 
	local.set	8
.LBB64_15:                              # %join.7.i.i.i.i.i.i.i.i.i.epil
                                        # =>This Inner Loop Header: Depth=1
	loop    	                                # label161:
	local.get	6
	local.get	8
	i32.load8_u	0
	i32.store8	0
	local.get	6
	i32.const	1
	i32.add 
	local.set	6
	local.get	8
	i32.const	1
	i32.add 
	local.set	8
	local.get	16
	i64.const	-1
	i64.add 
	local.tee	16
	i64.const	0
	i64.ne  
	br_if   	0                               # 0: up to label161
	br      	3                               # 3: down to label156
.LBB64_16:                              # %else.2.i.i.i
	end_loop
	end_block                               # label158:
	i32.const	6
	local.set	8
	local.get	6
	i32.eqz
	br_if   	2                               # 2: down to label155
# %bb.17:                               # %loop.5.preheader.i.i.i.i
	block   	
	local.get	15
	i64.const	-1
	i64.add 
	local.tee	16
	i64.eqz
	br_if   	0                               # 0: down to label162
# %bb.18:                               # %join.8.preheader.i.i.i.i
	local.get	14
	i32.const	0
	local.get	6
	i32.const	-1
	i32.add 
	call	memset
	drop
.LBB64_19:                              # %after.4.i.i.i.i
	end_block                               # label162:
	local.get	14
	local.get	16
	i32.wrap_i64
	i32.add 
	i32.const	0
	i32.store8	0
	br      	2                               # 2: down to label155
.LBB64_20:                              # %apart.2.i.i.i.i.i.i.i.i.i
	end_block                               # label157:
	local.get	14
	local.get	0
	local.get	6
	call	memmove
	drop
.LBB64_21:                              # %core__slice__edits__slice_T__copy_from_slice___i8_20_core__clone__U8Clone___.exit.i.i.i
	end_block                               # label156:
	local.get	11
	i32.const	8
	i32.add 
	local.get	11
	i32.const	48
	i32.add 
	i64.const	16
	local.get	14
	local.get	15
	call	gcm__gctr__add_gctr____099a9bc28799ce6c_
	i32.const	0
	local.set	8
.LBB64_22:                              # %gcm__mode__BorrowedGcm__decrypt_to____c01aad2b5fbc92b1_.exit.i.i
	end_block                               # label155:
	local.get	11
	i32.const	48
	i32.add 
	call	aes_cipher__zeroize__elements__zeroize_elements____3b2097f0eef5a37b_
	call	aes_cipher__zeroize__stack__wipe_stack____1536_
.LBB64_23:                              # %wide_fotsgure_gcm_open_to.exit
	end_block                               # label151:
	local.get	11
	i32.const	64
	i32.add 
	global.set	__stack_pointer
	local.get	8
                                        # fallthrough-return
	end_function
                                        # -- End function
	.section	.text.fotsgure_gcm_begin,"",@
	.globl	fotsgure_gcm_begin              # -- Begin function fotsgure_gcm_begin
	.type	fotsgure_gcm_begin,@function
fotsgure_gcm_begin:                     # @fotsgure_gcm_begin
	.functype	fotsgure_gcm_begin (i32, i32, i32, i32) -> (i32)
	.local  	i32, i32, i32, i32
# %bb.0:
	global.get	__stack_pointer
	i32.const	32
	i32.sub 
	local.tee	4
	global.set	__stack_pointer
	block   	
	block   	
	local.get	3
	br_if   	0                               # 0: down to label164
# %bb.1:
	i32.const	3
	local.set	5
	br      	1                               # 1: down to label163
.LBB65_2:                               # %after.1.i.i
	end_block                               # label164:
	i32.const	2
	local.set	5
	local.get	0
	i32.load	0
	local.tee	6
	i32.const	-16
	i32.add 
	local.tee	7
	i32.const	16
	i32.gt_u
	br_if   	0                               # 0: down to label163
# %bb.3:                                # %after.1.i.i
	i32.const	1
	local.get	7
	i32.shl 
	i32.const	65793
	i32.and 
	i32.eqz
	br_if   	0                               # 0: down to label163
# %bb.4:                                # %join.13.i.i
	i32.const	0
	local.set	5
	local.get	4
	i32.const	0
	i32.store	28
	local.get	4
	i32.const	0
	i32.store	12
	local.get	4
	local.get	0
	i32.const	484
	i32.add 
	i32.store	24
	local.get	4
	local.get	0
	i32.const	4
	i32.add 
	i32.store	8
	local.get	4
	local.get	6
	i64.extend_i32_u
	i64.const	1
	i64.shl 
	i64.const	56
	i64.add 
	i64.store	16
	local.get	4
	i32.const	8
	i32.add 
	local.get	1
	local.get	2
	i32.const	0
	i32.const	4096
	local.get	2
	i32.select
	i32.add 
	local.get	3
	i64.extend_i32_u
	call	gcm__mode__BorrowedGcm__start____c01aad2b5fbc92b1_
.LBB65_5:                               # %wide_fotsgure_gcm_begin.exit
	end_block                               # label163:
	local.get	4
	i32.const	32
	i32.add 
	global.set	__stack_pointer
	local.get	5
                                        # fallthrough-return
	end_function
                                        # -- End function
	.section	.text.fotsgure_gcm_begin_next,"",@
	.globl	fotsgure_gcm_begin_next         # -- Begin function fotsgure_gcm_begin_next
	.type	fotsgure_gcm_begin_next,@function
fotsgure_gcm_begin_next:                # @fotsgure_gcm_begin_next
	.functype	fotsgure_gcm_begin_next (i32, i32, i32, i32) -> (i32)
	.local  	i32, i64, i32, i32, i32, i64
# %bb.0:
	global.get	__stack_pointer
	i32.const	64
	i32.sub 
	local.tee	4
	global.set	__stack_pointer
	block   	
	block   	
	local.get	2
	i32.const	4
	i32.add 
	i64.load	0:p2align=0
	local.tee	5
	i64.const	-1
	i64.ne  
	br_if   	0                               # 0: down to label166
# %bb.1:                                # %gcm__counter__Counter__is_over.exit.i.i
	local.get	2
	i32.load	0:p2align=0
	i32.const	-1
	i32.ne  
	br_if   	0                               # 0: down to label166
# %bb.2:
	i32.const	7
	local.set	6
	br      	1                               # 1: down to label165
.LBB66_3:                               # %join.3.i.i
	end_block                               # label166:
	i32.const	2
	local.set	6
	local.get	0
	i32.load	0
	local.tee	7
	i32.const	-16
	i32.add 
	local.tee	8
	i32.const	16
	i32.gt_u
	br_if   	0                               # 0: down to label165
# %bb.4:                                # %join.3.i.i
	i32.const	1
	local.get	8
	i32.shl 
	i32.const	65793
	i32.and 
	i32.eqz
	br_if   	0                               # 0: down to label165
# %bb.5:                                # %join.6.i.i
	local.get	4
	i32.const	0
	i32.store	44
	local.get	4
	i32.const	0
	i32.store	28
	local.get	4
	local.get	0
	i32.const	484
	i32.add 
	i32.store	40
	local.get	4
	local.get	0
	i32.const	4
	i32.add 
	i32.store	24
	local.get	4
	local.get	7
	i64.extend_i32_u
	i64.const	1
	i64.shl 
	i64.const	56
	i64.add 
	i64.store	32
	local.get	2
	i32.load	0:p2align=0
	local.tee	0
	i32.const	16711935
	i32.and 
	i32.const	8
	i32.rotr
	local.get	0
	i32.const	24
	i32.rotr
	i32.const	16711935
	i32.and 
	i32.or  
	local.set	6
	block   	
	block   	
	block   	
	local.get	5
	i64.const	-1
	i64.eq  
	br_if   	0                               # 0: down to label169
# %bb.6:                                # %gcm__counter__nonce_after.exit.thread.i.i.i.i
	local.get	5
	i64.const	56
	i64.shl 
	local.get	5
	i64.const	65280
	i64.and 
	i64.const	40
	i64.shl 
	i64.or  
	local.get	5
	i64.const	16711680
	i64.and 
	i64.const	24
	i64.shl 
	local.get	5
	i64.const	4278190080
	i64.and 
	i64.const	8
	i64.shl 
	i64.or  
	i64.or  
	local.get	5
	i64.const	8
	i64.shr_u
	i64.const	4278190080
	i64.and 
	local.get	5
	i64.const	24
	i64.shr_u
	i64.const	16711680
	i64.and 
	i64.or  
	local.get	5
	i64.const	40
	i64.shr_u
	i64.const	65280
	i64.and 
	local.get	5
	i64.const	56
	i64.shr_u
	i64.or  
	i64.or  
	i64.or  
	i64.const	1
	i64.add 
	local.tee	9
	i64.const	56
	i64.shl 
	local.get	9
	i64.const	65280
	i64.and 
	i64.const	40
	i64.shl 
	i64.or  
	local.get	9
	i64.const	16711680
	i64.and 
	i64.const	24
	i64.shl 
	local.get	9
	i64.const	4278190080
	i64.and 
	i64.const	8
	i64.shl 
	i64.or  
	i64.or  
	local.get	9
	i64.const	8
	i64.shr_u
	i64.const	4278190080
	i64.and 
	local.get	9
	i64.const	24
	i64.shr_u
	i64.const	16711680
	i64.and 
	i64.or  
	local.get	9
	i64.const	40
	i64.shr_u
	i64.const	65280
	i64.and 
	local.get	9
	i64.const	56
	i64.shr_u
	i64.or  
	i64.or  
	i64.or  
	local.set	9
	br      	1                               # 1: down to label168
.LBB66_7:                               # %gcm__counter__nonce_after.exit.i.i.i.i
	end_block                               # label169:
	local.get	0
	i32.const	-1
	i32.eq  
	br_if   	1                               # 1: down to label167
# %bb.8:
	local.get	6
	i32.const	1
	i32.add 
	local.set	6
	i64.const	0
	local.set	9
.LBB66_9:                               # %arm.1.i.i.i.i
	end_block                               # label168:
	local.get	2
	i32.const	4
	i32.add 
	local.get	9
	i64.store	0:p2align=0
	local.get	2
	local.get	6
	i32.const	16711935
	i32.and 
	i32.const	8
	i32.rotr
	local.get	6
	i32.const	24
	i32.rotr
	i32.const	16711935
	i32.and 
	i32.or  
	i32.store	0:p2align=0
.LBB66_10:                              # %gcm__mode__BorrowedGcm__begin_next____c01aad2b5fbc92b1_.exit.i.i
	end_block                               # label167:
	local.get	4
	local.get	5
	i64.store	56:p2align=2
	local.get	4
	local.get	0
	i32.store	52
	local.get	4
	i32.const	24
	i32.add 
	local.get	4
	i32.const	52
	i32.add 
	i64.const	12
	local.get	1
	i32.const	32
	i32.add 
	call	gcm__mode__BorrowedGcm__put_pre_counter____c01aad2b5fbc92b1_
	local.get	1
	i64.const	0
	i64.store	0
	local.get	1
	i32.const	24
	i32.add 
	i64.const	1
	i64.store	0
	local.get	1
	i64.const	0
	i64.store	8
	local.get	1
	i64.const	0
	i64.store	16
	local.get	1
	i32.const	48
	i32.add 
	i64.const	0
	i64.store	0:p2align=0
	local.get	1
	i32.const	56
	i32.add 
	i64.const	0
	i64.store	0:p2align=0
	local.get	1
	i32.const	64
	i32.add 
	i64.const	0
	i64.store	0:p2align=0
	local.get	1
	i32.const	72
	i32.add 
	i64.const	0
	i64.store	0:p2align=0
	local.get	4
	local.get	4
	i32.load	60
	local.tee	1
	i32.store	16
	local.get	4
	local.get	4
	i64.load	52:p2align=2
	local.tee	5
	i64.store	8
	local.get	3
	local.get	1
	i32.store	8:p2align=0
	local.get	3
	local.get	5
	i64.store	0:p2align=0
	i32.const	0
	local.set	6
.LBB66_11:                              # %wide_fotsgure_gcm_begin_next.exit
	end_block                               # label165:
	local.get	4
	i32.const	64
	i32.add 
	global.set	__stack_pointer
	local.get	6
                                        # fallthrough-return
	end_function
                                        # -- End function
	.section	.text.fotsgure_gcm_additional,"",@
	.globl	fotsgure_gcm_additional         # -- Begin function fotsgure_gcm_additional
	.type	fotsgure_gcm_additional,@function
fotsgure_gcm_additional:                # @fotsgure_gcm_additional
	.functype	fotsgure_gcm_additional (i32, i32, i32, i32) -> (i32)
	.local  	i32, i32, i32, i32, i64, i64, i64
# %bb.0:
	global.get	__stack_pointer
	i32.const	32
	i32.sub 
	local.tee	4
	global.set	__stack_pointer
	i32.const	2
	local.set	5
	block   	
	local.get	0
	i32.load	0
	local.tee	6
	i32.const	-16
	i32.add 
	local.tee	7
	i32.const	16
	i32.gt_u
	br_if   	0                               # 0: down to label170
# %bb.1:
	i32.const	1
	local.get	7
	i32.shl 
	i32.const	65793
	i32.and 
	i32.eqz
	br_if   	0                               # 0: down to label170
# %bb.2:                                # %join.3.i.i
	local.get	4
	i32.const	0
	i32.store	28
	local.get	4
	i32.const	0
	i32.store	12
	local.get	4
	local.get	0
	i32.const	484
	i32.add 
	i32.store	24
	local.get	4
	local.get	0
	i32.const	4
	i32.add 
	i32.store	8
	local.get	4
	local.get	6
	i64.extend_i32_u
	i64.const	1
	i64.shl 
	i64.const	56
	i64.add 
	i64.store	16
	block   	
	local.get	1
	i32.const	24
	i32.add 
	i64.load	0
	i64.const	1
	i64.eq  
	br_if   	0                               # 0: down to label171
# %bb.3:
	i32.const	8
	local.set	5
	br      	1                               # 1: down to label170
.LBB67_4:                               # %join.3.i.i.i
	end_block                               # label171:
	block   	
	i64.const	-1
	local.get	3
	i64.extend_i32_u
	local.tee	8
	local.get	1
	i64.load	0
	local.tee	9
	i64.add 
	local.tee	10
	local.get	10
	local.get	8
	i64.lt_u
	i64.select
	i64.const	2305843009213693951
	i64.le_u
	br_if   	0                               # 0: down to label172
# %bb.5:
	i32.const	5
	local.set	5
	br      	1                               # 1: down to label170
.LBB67_6:                               # %arm.4.i.i
	end_block                               # label172:
	local.get	4
	i32.const	24
	i32.add 
	local.get	1
	i32.const	48
	i32.add 
	local.get	1
	i32.const	64
	i32.add 
	local.get	9
	i64.const	15
	i64.and 
	local.get	2
	i32.const	0
	i32.const	4096
	local.get	2
	i32.select
	i32.add 
	local.get	8
	call	gcm__hash_room__hash_piece____d9ba0fa9ccec4268_
	call	aes_cipher__zeroize__stack__wipe_stack____512_
	local.get	1
	local.get	1
	i64.load	0
	local.get	8
	i64.add 
	i64.store	0
	i32.const	0
	local.set	5
.LBB67_7:                               # %wide_fotsgure_gcm_additional.exit
	end_block                               # label170:
	local.get	4
	i32.const	32
	i32.add 
	global.set	__stack_pointer
	local.get	5
                                        # fallthrough-return
	end_function
                                        # -- End function
	.section	.text.fotsgure_gcm_encrypt,"",@
	.globl	fotsgure_gcm_encrypt            # -- Begin function fotsgure_gcm_encrypt
	.type	fotsgure_gcm_encrypt,@function
fotsgure_gcm_encrypt:                   # @fotsgure_gcm_encrypt
	.functype	fotsgure_gcm_encrypt (i32, i32, i32, i32) -> (i32)
	.local  	i32, i32, i32, i32, i64
# %bb.0:
	global.get	__stack_pointer
	i32.const	32
	i32.sub 
	local.tee	4
	global.set	__stack_pointer
	i32.const	2
	local.set	5
	block   	
	local.get	0
	i32.load	0
	local.tee	6
	i32.const	-16
	i32.add 
	local.tee	7
	i32.const	16
	i32.gt_u
	br_if   	0                               # 0: down to label173
# %bb.1:
	i32.const	1
	local.get	7
	i32.shl 
	i32.const	65793
	i32.and 
	i32.eqz
	br_if   	0                               # 0: down to label173
# %bb.2:                                # %join.3.i.i
	i32.const	0
	local.set	5
	local.get	4
	i32.const	0
	i32.store	28
	local.get	4
	i32.const	0
	i32.store	12
	local.get	4
	local.get	0
	i32.const	484
	i32.add 
	i32.store	24
	local.get	4
	local.get	0
	i32.const	4
	i32.add 
	i32.store	8
	local.get	4
	local.get	6
	i64.extend_i32_u
	i64.const	1
	i64.shl 
	i64.const	56
	i64.add 
	i64.store	16
	local.get	4
	local.get	4
	i32.const	8
	i32.add 
	local.get	1
	i32.const	2
	local.get	3
	i64.extend_i32_u
	local.tee	8
	call	gcm__mode__BorrowedGcm__enter_phase____c01aad2b5fbc92b1_
	block   	
	local.get	4
	i32.load8_u	0
	br_if   	0                               # 0: down to label174
# %bb.3:                                # %arm.1.i.i.i
	local.get	4
	i32.const	8
	i32.add 
	local.get	1
	i32.const	32
	i32.add 
	local.get	1
	i32.const	8
	i32.add 
	local.tee	0
	i64.load	0
	i64.const	16
	i64.add 
	local.get	2
	i32.const	0
	i32.const	4096
	local.get	2
	i32.select
	i32.add 
	local.tee	7
	local.get	8
	call	gcm__gctr__add_gctr____099a9bc28799ce6c_
	local.get	4
	i32.const	24
	i32.add 
	local.get	1
	i32.const	48
	i32.add 
	local.get	1
	i32.const	64
	i32.add 
	local.get	0
	i64.load	0
	i64.const	15
	i64.and 
	local.get	7
	local.get	8
	call	gcm__hash_room__hash_piece____d9ba0fa9ccec4268_
	local.get	0
	local.get	0
	i64.load	0
	local.get	8
	i64.add 
	i64.store	0
	call	aes_cipher__zeroize__stack__wipe_stack____1536_
	br      	1                               # 1: down to label173
.LBB68_4:                               # %arm.2.i.i.i
	end_block                               # label174:
	i32.const	5
	i32.const	8
	local.get	4
	i32.load8_u	1
	i32.const	1
	i32.and 
	i32.select
	local.set	5
.LBB68_5:                               # %wide_fotsgure_gcm_encrypt.exit
	end_block                               # label173:
	local.get	4
	i32.const	32
	i32.add 
	global.set	__stack_pointer
	local.get	5
                                        # fallthrough-return
	end_function
                                        # -- End function
	.section	.text.fotsgure_gcm_finish,"",@
	.globl	fotsgure_gcm_finish             # -- Begin function fotsgure_gcm_finish
	.type	fotsgure_gcm_finish,@function
fotsgure_gcm_finish:                    # @fotsgure_gcm_finish
	.functype	fotsgure_gcm_finish (i32, i32, i32) -> (i32)
	.local  	i32, i32, i32, i32, i64, i64
# %bb.0:
	global.get	__stack_pointer
	i32.const	64
	i32.sub 
	local.tee	3
	global.set	__stack_pointer
	i32.const	2
	local.set	4
	block   	
	local.get	0
	i32.load	0
	local.tee	5
	i32.const	-16
	i32.add 
	local.tee	6
	i32.const	16
	i32.gt_u
	br_if   	0                               # 0: down to label175
# %bb.1:
	i32.const	1
	local.get	6
	i32.shl 
	i32.const	65793
	i32.and 
	i32.eqz
	br_if   	0                               # 0: down to label175
# %bb.2:                                # %join.3.i.i
	i32.const	0
	local.set	4
	local.get	3
	i32.const	0
	i32.store	44
	local.get	3
	i32.const	0
	i32.store	28
	local.get	3
	local.get	0
	i32.const	484
	i32.add 
	i32.store	40
	local.get	3
	local.get	0
	i32.const	4
	i32.add 
	i32.store	24
	local.get	3
	local.get	5
	i64.extend_i32_u
	i64.const	1
	i64.shl 
	i64.const	56
	i64.add 
	i64.store	32
	local.get	3
	i64.const	0
	i64.store	56
	local.get	3
	i64.const	0
	i64.store	48
	block   	
	local.get	3
	i32.const	24
	i32.add 
	local.get	1
	i32.const	2
	local.get	3
	i32.const	48
	i32.add 
	call	gcm__mode__BorrowedGcm__end____c01aad2b5fbc92b1_
	i32.const	255
	i32.and 
	br_if   	0                               # 0: down to label176
# %bb.3:                                # %arm.4.i.i
	local.get	3
	local.get	3
	i64.load	56
	local.tee	7
	i64.store	16
	local.get	3
	local.get	3
	i64.load	48
	local.tee	8
	i64.store	8
	local.get	2
	local.get	7
	i64.store	8:p2align=0
	local.get	2
	local.get	8
	i64.store	0:p2align=0
	br      	1                               # 1: down to label175
.LBB69_4:                               # %arm.5.i.i
	end_block                               # label176:
	i32.const	8
	local.set	4
.LBB69_5:                               # %wide_fotsgure_gcm_finish.exit
	end_block                               # label175:
	local.get	3
	i32.const	64
	i32.add 
	global.set	__stack_pointer
	local.get	4
                                        # fallthrough-return
	end_function
                                        # -- End function
	.section	.text.fotsgure_gcm_verify,"",@
	.globl	fotsgure_gcm_verify             # -- Begin function fotsgure_gcm_verify
	.type	fotsgure_gcm_verify,@function
fotsgure_gcm_verify:                    # @fotsgure_gcm_verify
	.functype	fotsgure_gcm_verify (i32, i32, i32, i32) -> (i32)
	.local  	i32, i32, i32, i32, i64
# %bb.0:
	global.get	__stack_pointer
	i32.const	32
	i32.sub 
	local.tee	4
	global.set	__stack_pointer
	i32.const	2
	local.set	5
	block   	
	local.get	0
	i32.load	0
	local.tee	6
	i32.const	-16
	i32.add 
	local.tee	7
	i32.const	16
	i32.gt_u
	br_if   	0                               # 0: down to label177
# %bb.1:
	i32.const	1
	local.get	7
	i32.shl 
	i32.const	65793
	i32.and 
	i32.eqz
	br_if   	0                               # 0: down to label177
# %bb.2:                                # %join.3.i.i
	i32.const	0
	local.set	5
	local.get	4
	i32.const	0
	i32.store	28
	local.get	4
	i32.const	0
	i32.store	12
	local.get	4
	local.get	0
	i32.const	484
	i32.add 
	i32.store	24
	local.get	4
	local.get	0
	i32.const	4
	i32.add 
	i32.store	8
	local.get	4
	local.get	6
	i64.extend_i32_u
	i64.const	1
	i64.shl 
	i64.const	56
	i64.add 
	i64.store	16
	local.get	4
	local.get	4
	i32.const	8
	i32.add 
	local.get	1
	i32.const	3
	local.get	3
	i64.extend_i32_u
	local.tee	8
	call	gcm__mode__BorrowedGcm__enter_phase____c01aad2b5fbc92b1_
	block   	
	local.get	4
	i32.load8_u	0
	br_if   	0                               # 0: down to label178
# %bb.3:                                # %arm.1.i.i.i
	local.get	4
	i32.const	24
	i32.add 
	local.get	1
	i32.const	48
	i32.add 
	local.get	1
	i32.const	64
	i32.add 
	local.get	1
	i32.const	8
	i32.add 
	local.tee	0
	i64.load	0
	i64.const	15
	i64.and 
	local.get	2
	i32.const	0
	i32.const	4096
	local.get	2
	i32.select
	i32.add 
	local.get	8
	call	gcm__hash_room__hash_piece____d9ba0fa9ccec4268_
	local.get	0
	local.get	0
	i64.load	0
	local.get	8
	i64.add 
	i64.store	0
	call	aes_cipher__zeroize__stack__wipe_stack____512_
	br      	1                               # 1: down to label177
.LBB70_4:                               # %arm.2.i.i.i
	end_block                               # label178:
	i32.const	5
	i32.const	8
	local.get	4
	i32.load8_u	1
	i32.const	1
	i32.and 
	i32.select
	local.set	5
.LBB70_5:                               # %wide_fotsgure_gcm_verify.exit
	end_block                               # label177:
	local.get	4
	i32.const	32
	i32.add 
	global.set	__stack_pointer
	local.get	5
                                        # fallthrough-return
	end_function
                                        # -- End function
	.section	.text.fotsgure_gcm_accept,"",@
	.globl	fotsgure_gcm_accept             # -- Begin function fotsgure_gcm_accept
	.type	fotsgure_gcm_accept,@function
fotsgure_gcm_accept:                    # @fotsgure_gcm_accept
	.functype	fotsgure_gcm_accept (i32, i32, i32, i32) -> (i32)
	.local  	i32, i32, i32, i64
# %bb.0:
	global.get	__stack_pointer
	i32.const	48
	i32.sub 
	local.tee	4
	global.set	__stack_pointer
	block   	
	block   	
	local.get	3
	i32.const	16
	i32.eq  
	br_if   	0                               # 0: down to label180
# %bb.1:
	i32.const	4
	local.set	3
	br      	1                               # 1: down to label179
.LBB71_2:                               # %join.3.i.i
	end_block                               # label180:
	i32.const	2
	local.set	3
	local.get	0
	i32.load	0
	local.tee	5
	i32.const	-16
	i32.add 
	local.tee	6
	i32.const	16
	i32.gt_u
	br_if   	0                               # 0: down to label179
# %bb.3:                                # %join.3.i.i
	i32.const	1
	local.get	6
	i32.shl 
	i32.const	65793
	i32.and 
	i32.eqz
	br_if   	0                               # 0: down to label179
# %bb.4:                                # %join.6.i.i
	local.get	4
	i32.const	0
	i32.store	44
	local.get	4
	i32.const	0
	i32.store	28
	local.get	4
	local.get	0
	i32.const	484
	i32.add 
	i32.store	40
	local.get	4
	local.get	0
	i32.const	4
	i32.add 
	i32.store	24
	local.get	4
	local.get	2
	i32.const	0
	i32.const	4096
	local.get	2
	i32.select
	i32.add 
	local.tee	3
	i64.load	0:p2align=0
	i64.store	8
	local.get	4
	local.get	3
	i64.load	8:p2align=0
	i64.store	16
	local.get	4
	local.get	5
	i64.extend_i32_u
	i64.const	1
	i64.shl 
	i64.const	56
	i64.add 
	i64.store	32
	i32.const	8
	local.set	3
	block   	
	local.get	1
	i32.const	24
	i32.add 
	i64.load	0
	local.tee	7
	i32.wrap_i64
	i32.const	0
	local.get	7
	i64.const	5
	i64.lt_u
	i32.select
	i32.const	255
	i32.and 
	i32.const	-1
	i32.add 
	br_table 	{0, 1, 0, 1}            # 1: down to label179
                                        # 0: down to label181
.LBB71_5:                               # %join.3.i.i.i
	end_block                               # label181:
	local.get	4
	i32.const	24
	i32.add 
	local.get	1
	local.get	4
	i32.const	8
	i32.add 
	call	gcm__mode__BorrowedGcm__is_tag_so_far____c01aad2b5fbc92b1_
	local.set	3
	call	aes_cipher__zeroize__stack__wipe_stack____1536_
	block   	
	local.get	3
	br_if   	0                               # 0: down to label182
# %bb.6:
	i32.const	6
	local.set	3
	br      	1                               # 1: down to label179
.LBB71_7:                               # %arm.7.i.i
	end_block                               # label182:
	local.get	1
	i32.const	16
	i32.add 
	i64.const	0
	i64.store	0
	local.get	1
	i32.const	24
	i32.add 
	i64.const	4
	i64.store	0
	i32.const	0
	local.set	3
.LBB71_8:                               # %wide_fotsgure_gcm_accept.exit
	end_block                               # label179:
	local.get	4
	i32.const	48
	i32.add 
	global.set	__stack_pointer
	local.get	3
                                        # fallthrough-return
	end_function
                                        # -- End function
	.section	.text.fotsgure_gcm_accept_short,"",@
	.globl	fotsgure_gcm_accept_short       # -- Begin function fotsgure_gcm_accept_short
	.type	fotsgure_gcm_accept_short,@function
fotsgure_gcm_accept_short:              # @fotsgure_gcm_accept_short
	.functype	fotsgure_gcm_accept_short (i32, i32, i32, i32, i32) -> (i32)
	.local  	i32, i32, i64, i64
# %bb.0:
	global.get	__stack_pointer
	i32.const	32
	i32.sub 
	local.tee	5
	global.set	__stack_pointer
	i32.const	4
	local.set	6
	block   	
	local.get	4
	local.get	2
	i32.ne  
	br_if   	0                               # 0: down to label183
# %bb.1:
	local.get	2
	i32.const	4
	i32.eq  
	local.get	2
	i32.const	8
	i32.eq  
	i32.or  
	local.get	2
	i64.extend_i32_u
	local.tee	7
	i64.const	4294967292
	i64.and 
	i64.const	12
	i64.eq  
	i32.or  
	i32.eqz
	br_if   	0                               # 0: down to label183
# %bb.2:                                # %join.3.i.i
	i32.const	2
	local.set	6
	local.get	0
	i32.load	0
	local.tee	4
	i32.const	-16
	i32.add 
	local.tee	2
	i32.const	16
	i32.gt_u
	br_if   	0                               # 0: down to label183
# %bb.3:                                # %join.3.i.i
	i32.const	1
	local.get	2
	i32.shl 
	i32.const	65793
	i32.and 
	i32.eqz
	br_if   	0                               # 0: down to label183
# %bb.4:                                # %join.6.i.i
	local.get	5
	i32.const	0
	i32.store	28
	local.get	5
	i32.const	0
	i32.store	12
	local.get	5
	local.get	0
	i32.const	484
	i32.add 
	i32.store	24
	local.get	5
	local.get	0
	i32.const	4
	i32.add 
	i32.store	8
	local.get	5
	local.get	4
	i64.extend_i32_u
	i64.const	1
	i64.shl 
	i64.const	56
	i64.add 
	i64.store	16
	i32.const	8
	local.set	6
	block   	
	local.get	1
	i32.const	24
	i32.add 
	i64.load	0
	local.tee	8
	i32.wrap_i64
	i32.const	0
	local.get	8
	i64.const	5
	i64.lt_u
	i32.select
	i32.const	255
	i32.and 
	i32.const	-1
	i32.add 
	br_table 	{0, 1, 0, 1}            # 1: down to label183
                                        # 0: down to label184
.LBB72_5:                               # %join.7.i.i.i
	end_block                               # label184:
	local.get	5
	i32.const	8
	i32.add 
	local.get	1
	local.get	3
	i32.const	0
	i32.const	4096
	local.get	3
	i32.select
	i32.add 
	local.get	7
	call	gcm__mode__BorrowedGcm__is_short_tag_so_far____c01aad2b5fbc92b1_
	local.set	2
	call	aes_cipher__zeroize__stack__wipe_stack____1536_
	block   	
	local.get	2
	br_if   	0                               # 0: down to label185
# %bb.6:
	i32.const	6
	local.set	6
	br      	1                               # 1: down to label183
.LBB72_7:                               # %arm.7.i.i
	end_block                               # label185:
	local.get	1
	i32.const	16
	i32.add 
	i64.const	0
	i64.store	0
	local.get	1
	i32.const	24
	i32.add 
	i64.const	4
	i64.store	0
	i32.const	0
	local.set	6
.LBB72_8:                               # %wide_fotsgure_gcm_accept_short.exit
	end_block                               # label183:
	local.get	5
	i32.const	32
	i32.add 
	global.set	__stack_pointer
	local.get	6
                                        # fallthrough-return
	end_function
                                        # -- End function
	.section	.text.fotsgure_gcm_decrypt,"",@
	.globl	fotsgure_gcm_decrypt            # -- Begin function fotsgure_gcm_decrypt
	.type	fotsgure_gcm_decrypt,@function
fotsgure_gcm_decrypt:                   # @fotsgure_gcm_decrypt
	.functype	fotsgure_gcm_decrypt (i32, i32, i32, i32) -> (i32)
	.local  	i32, i32, i32, i32, i64, i64, i64
# %bb.0:
	global.get	__stack_pointer
	i32.const	32
	i32.sub 
	local.tee	4
	global.set	__stack_pointer
	i32.const	2
	local.set	5
	block   	
	local.get	0
	i32.load	0
	local.tee	6
	i32.const	-16
	i32.add 
	local.tee	7
	i32.const	16
	i32.gt_u
	br_if   	0                               # 0: down to label186
# %bb.1:
	i32.const	1
	local.get	7
	i32.shl 
	i32.const	65793
	i32.and 
	i32.eqz
	br_if   	0                               # 0: down to label186
# %bb.2:                                # %join.3.i.i
	local.get	4
	i32.const	0
	i32.store	28
	local.get	4
	i32.const	0
	i32.store	12
	local.get	4
	local.get	0
	i32.const	484
	i32.add 
	i32.store	24
	local.get	4
	local.get	0
	i32.const	4
	i32.add 
	i32.store	8
	local.get	4
	local.get	6
	i64.extend_i32_u
	i64.const	1
	i64.shl 
	i64.const	56
	i64.add 
	i64.store	16
	block   	
	local.get	1
	i32.const	24
	i32.add 
	i64.load	0
	i64.const	4
	i64.eq  
	br_if   	0                               # 0: down to label187
# %bb.3:
	i32.const	8
	local.set	5
	br      	1                               # 1: down to label186
.LBB73_4:                               # %join.3.i.i.i
	end_block                               # label187:
	block   	
	local.get	1
	i32.const	8
	i32.add 
	i64.load	0
	local.tee	8
	i64.const	68719476704
	local.get	8
	i64.const	68719476704
	i64.lt_u
	i64.select
	i64.const	-1
	local.get	3
	i64.extend_i32_u
	local.tee	8
	local.get	1
	i32.const	16
	i32.add 
	local.tee	0
	i64.load	0
	local.tee	9
	i64.add 
	local.tee	10
	local.get	10
	local.get	8
	i64.lt_u
	i64.select
	i64.ge_u
	br_if   	0                               # 0: down to label188
# %bb.5:
	i32.const	5
	local.set	5
	br      	1                               # 1: down to label186
.LBB73_6:                               # %arm.4.i.i
	end_block                               # label188:
	local.get	4
	i32.const	8
	i32.add 
	local.get	1
	i32.const	32
	i32.add 
	local.get	9
	i64.const	16
	i64.add 
	local.get	2
	i32.const	0
	i32.const	4096
	local.get	2
	i32.select
	i32.add 
	local.get	8
	call	gcm__gctr__add_gctr____099a9bc28799ce6c_
	local.get	0
	local.get	0
	i64.load	0
	local.get	8
	i64.add 
	i64.store	0
	call	aes_cipher__zeroize__stack__wipe_stack____1536_
	i32.const	0
	local.set	5
.LBB73_7:                               # %wide_fotsgure_gcm_decrypt.exit
	end_block                               # label186:
	local.get	4
	i32.const	32
	i32.add 
	global.set	__stack_pointer
	local.get	5
                                        # fallthrough-return
	end_function
                                        # -- End function
	.section	.text.fotsgure_gcm_decrypt_unverified,"",@
	.globl	fotsgure_gcm_decrypt_unverified # -- Begin function fotsgure_gcm_decrypt_unverified
	.type	fotsgure_gcm_decrypt_unverified,@function
fotsgure_gcm_decrypt_unverified:        # @fotsgure_gcm_decrypt_unverified
	.functype	fotsgure_gcm_decrypt_unverified (i32, i32, i32, i32) -> (i32)
	.local  	i32, i32, i32, i32, i64, i64
# %bb.0:
	global.get	__stack_pointer
	i32.const	32
	i32.sub 
	local.tee	4
	global.set	__stack_pointer
	i32.const	2
	local.set	5
	block   	
	local.get	0
	i32.load	0
	local.tee	6
	i32.const	-16
	i32.add 
	local.tee	7
	i32.const	16
	i32.gt_u
	br_if   	0                               # 0: down to label189
# %bb.1:
	i32.const	1
	local.get	7
	i32.shl 
	i32.const	65793
	i32.and 
	i32.eqz
	br_if   	0                               # 0: down to label189
# %bb.2:                                # %join.3.i.i
	i32.const	0
	local.set	5
	local.get	4
	i32.const	0
	i32.store	28
	local.get	4
	i32.const	0
	i32.store	12
	local.get	4
	local.get	0
	i32.const	484
	i32.add 
	i32.store	24
	local.get	4
	local.get	0
	i32.const	4
	i32.add 
	i32.store	8
	local.get	4
	local.get	6
	i64.extend_i32_u
	i64.const	1
	i64.shl 
	i64.const	56
	i64.add 
	i64.store	16
	local.get	4
	local.get	4
	i32.const	8
	i32.add 
	local.get	1
	i32.const	3
	local.get	3
	i64.extend_i32_u
	local.tee	8
	call	gcm__mode__BorrowedGcm__enter_phase____c01aad2b5fbc92b1_
	block   	
	local.get	4
	i32.load8_u	0
	br_if   	0                               # 0: down to label190
# %bb.3:                                # %arm.1.i.i.i
	local.get	4
	i32.const	24
	i32.add 
	local.get	1
	i32.const	48
	i32.add 
	local.get	1
	i32.const	64
	i32.add 
	local.get	1
	i32.const	8
	i32.add 
	local.tee	0
	i64.load	0
	local.tee	9
	i64.const	15
	i64.and 
	local.get	2
	i32.const	0
	i32.const	4096
	local.get	2
	i32.select
	i32.add 
	local.tee	7
	local.get	8
	call	gcm__hash_room__hash_piece____d9ba0fa9ccec4268_
	local.get	0
	local.get	0
	i64.load	0
	local.get	8
	i64.add 
	i64.store	0
	local.get	4
	i32.const	8
	i32.add 
	local.get	1
	i32.const	32
	i32.add 
	local.get	9
	i64.const	16
	i64.add 
	local.get	7
	local.get	8
	call	gcm__gctr__add_gctr____099a9bc28799ce6c_
	call	aes_cipher__zeroize__stack__wipe_stack____1536_
	br      	1                               # 1: down to label189
.LBB74_4:                               # %arm.2.i.i.i
	end_block                               # label190:
	i32.const	5
	i32.const	8
	local.get	4
	i32.load8_u	1
	i32.const	1
	i32.and 
	i32.select
	local.set	5
.LBB74_5:                               # %wide_fotsgure_gcm_decrypt_unverified.exit
	end_block                               # label189:
	local.get	4
	i32.const	32
	i32.add 
	global.set	__stack_pointer
	local.get	5
                                        # fallthrough-return
	end_function
                                        # -- End function
	.section	.text.fotsgure_gcm_finish_unverified,"",@
	.globl	fotsgure_gcm_finish_unverified  # -- Begin function fotsgure_gcm_finish_unverified
	.type	fotsgure_gcm_finish_unverified,@function
fotsgure_gcm_finish_unverified:         # @fotsgure_gcm_finish_unverified
	.functype	fotsgure_gcm_finish_unverified (i32, i32, i32) -> (i32)
	.local  	i32, i32, i32, i32
# %bb.0:
	global.get	__stack_pointer
	i32.const	32
	i32.sub 
	local.tee	3
	global.set	__stack_pointer
	i32.const	2
	local.set	4
	block   	
	local.get	0
	i32.load	0
	local.tee	5
	i32.const	-16
	i32.add 
	local.tee	6
	i32.const	16
	i32.gt_u
	br_if   	0                               # 0: down to label191
# %bb.1:
	i32.const	1
	local.get	6
	i32.shl 
	i32.const	65793
	i32.and 
	i32.eqz
	br_if   	0                               # 0: down to label191
# %bb.2:                                # %join.3.i.i
	local.get	3
	i32.const	0
	i32.store	28
	local.get	3
	i32.const	0
	i32.store	12
	local.get	3
	local.get	0
	i32.const	484
	i32.add 
	i32.store	24
	local.get	3
	local.get	0
	i32.const	4
	i32.add 
	i32.store	8
	local.get	3
	local.get	5
	i64.extend_i32_u
	i64.const	1
	i64.shl 
	i64.const	56
	i64.add 
	i64.store	16
	local.get	3
	i32.const	8
	i32.add 
	local.get	1
	i32.const	3
	local.get	2
	call	gcm__mode__BorrowedGcm__end____c01aad2b5fbc92b1_
	i32.const	255
	i32.and 
	i32.const	3
	i32.shl 
	local.set	4
.LBB75_3:                               # %wide_fotsgure_gcm_finish_unverified.exit
	end_block                               # label191:
	local.get	3
	i32.const	32
	i32.add 
	global.set	__stack_pointer
	local.get	4
                                        # fallthrough-return
	end_function
                                        # -- End function
	.section	.text.fotsgure_gcm_wipe_message,"",@
	.globl	fotsgure_gcm_wipe_message       # -- Begin function fotsgure_gcm_wipe_message
	.type	fotsgure_gcm_wipe_message,@function
fotsgure_gcm_wipe_message:              # @fotsgure_gcm_wipe_message
	.functype	fotsgure_gcm_wipe_message (i32) -> ()
# %bb.0:
	local.get	0
	i32.const	0
	i32.const	80
	call	memset
	call	gcm__message_state__MessageZeroize__zeroize
                                        # fallthrough-return
	end_function
                                        # -- End function
	.section	.text.fotsgure_gcm_siv_set_key,"",@
	.globl	fotsgure_gcm_siv_set_key        # -- Begin function fotsgure_gcm_siv_set_key
	.type	fotsgure_gcm_siv_set_key,@function
fotsgure_gcm_siv_set_key:               # @fotsgure_gcm_siv_set_key
	.functype	fotsgure_gcm_siv_set_key (i32, i32, i32) -> (i32)
# %bb.0:
	block   	
	block   	
	local.get	2
	i32.const	-16
	i32.add 
	br_table 	{1, 0, 0, 0, 0, 0, 0, 0, 0, 0, 0, 0, 0, 0, 0, 0, 1, 0} # 0: down to label193
                                        # 1: down to label192
.LBB77_1:                               # %then.1.i.i
	end_block                               # label193:
	local.get	0
	i32.const	0
	i32.const	484
	call	memset
	drop
	i32.const	1
	return
.LBB77_2:                               # %join.3.i.i
	end_block                               # label192:
	local.get	0
	i32.const	4
	i32.add 
	i32.const	0
	i32.const	480
	call	memset
	local.get	1
	i32.const	0
	i32.const	4096
	local.get	1
	i32.select
	i32.add 
	local.get	2
	i64.extend_i32_u
	call	aes_narrow__word_room__expand_words____6af90bfc14753d47_
	call	aes_cipher__zeroize__stack__wipe_stack____768_
	local.get	0
	local.get	2
	i32.store	0
	i32.const	0
                                        # fallthrough-return
	end_function
                                        # -- End function
	.section	.text.fotsgure_gcm_siv_seal,"",@
	.globl	fotsgure_gcm_siv_seal           # -- Begin function fotsgure_gcm_siv_seal
	.type	fotsgure_gcm_siv_seal,@function
fotsgure_gcm_siv_seal:                  # @fotsgure_gcm_siv_seal
	.functype	fotsgure_gcm_siv_seal (i32, i32, i32, i32, i32, i32, i32) -> (i32)
# %bb.0:
	local.get	0
	local.get	1
	local.get	2
	i32.const	0
	i32.const	4096
	local.get	2
	i32.select
	i32.add 
	local.get	3
	i64.extend_i32_u
	local.get	4
	i32.const	0
	i32.const	4096
	local.get	4
	i32.select
	i32.add 
	local.get	5
	i64.extend_i32_u
	local.get	6
	call	gcm_c__siv__fotsgure_gcm_siv_seal
                                        # fallthrough-return
	end_function
                                        # -- End function
	.section	.text.fotsgure_gcm_siv_seal_to,"",@
	.globl	fotsgure_gcm_siv_seal_to        # -- Begin function fotsgure_gcm_siv_seal_to
	.type	fotsgure_gcm_siv_seal_to,@function
fotsgure_gcm_siv_seal_to:               # @fotsgure_gcm_siv_seal_to
	.functype	fotsgure_gcm_siv_seal_to (i32, i32, i32, i32, i32, i32, i32, i32, i32) -> (i32)
	.local  	i32, i64, i32, i32, i32, i64, i64, i64, i64
# %bb.0:
	block   	
	local.get	5
	local.get	7
	i32.eq  
	br_if   	0                               # 0: down to label194
# %bb.1:
	i32.const	10
	return
.LBB79_2:                               # %join.3.i.i
	end_block                               # label194:
	i32.const	2
	local.set	7
	block   	
	block   	
	local.get	0
	i32.load	0
	i32.const	-16
	i32.add 
	br_table 	{0, 1, 1, 1, 1, 1, 1, 1, 1, 1, 1, 1, 1, 1, 1, 1, 0, 1} # 1: down to label195
                                        # 0: down to label196
.LBB79_3:                               # %join.6.i.i
	end_block                               # label196:
	local.get	2
	i32.const	0
	i32.const	4096
	local.get	2
	i32.select
	i32.add 
	local.set	9
	local.get	3
	i64.extend_i32_u
	local.set	10
	block   	
	block   	
	local.get	6
	i32.const	0
	i32.const	4096
	local.get	6
	i32.select
	local.tee	11
	i32.add 
	local.tee	3
	i64.extend_i32_u
	local.get	4
	i32.const	0
	i32.const	4096
	local.get	4
	i32.select
	local.tee	12
	i32.add 
	local.tee	13
	i64.extend_i32_u
	i64.sub 
	local.get	5
	i64.extend_i32_u
	local.tee	14
	i64.ge_u
	br_if   	0                               # 0: down to label198
# %bb.4:                                # %join.7.i.i.i.i.i.i.i.i.preheader
	local.get	14
	i64.const	3
	i64.and 
	local.set	15
	i64.const	0
	local.set	16
	block   	
	local.get	5
	i32.const	4
	i32.lt_u
	br_if   	0                               # 0: down to label199
# %bb.5:                                # %join.7.i.i.i.i.i.i.i.i.preheader.new
	local.get	14
	i64.const	4294967292
	i64.and 
	local.set	17
	i64.const	0
	local.set	16
	i32.const	0
	local.set	5
.LBB79_6:                               # %join.7.i.i.i.i.i.i.i.i
                                        # =>This Inner Loop Header: Depth=1
	loop    	                                # label200:
	local.get	3
	local.get	5
	i32.add 
	local.tee	7
	local.get	13
	local.get	5
	i32.add 
	local.tee	2
	i32.load8_u	0
	i32.store8	0
	local.get	7
	i32.const	1
	i32.add 
	local.get	2
	i32.const	1
	i32.add 
	i32.load8_u	0
	i32.store8	0
	local.get	7
	i32.const	2
	i32.add 
	local.get	2
	i32.const	2
	i32.add 
	i32.load8_u	0
	i32.store8	0
	local.get	7
	i32.const	3
	i32.add 
	local.get	2
	i32.const	3
	i32.add 
	i32.load8_u	0
	i32.store8	0
	local.get	5
	i32.const	4
	i32.add 
	local.set	5
	local.get	17
	local.get	16
	i64.const	4
	i64.add 
	local.tee	16
	i64.ne  
	br_if   	0                               # 0: up to label200
# %bb.7:                                # %core__slice__edits__slice_T__copy_from_slice___i8_20_core__clone__U8Clone___.exit.i.i.loopexit.unr-lcssa
	end_loop
	local.get	15
	i64.eqz
	br_if   	2                               # 2: down to label197
.LBB79_8:                               # %join.7.i.i.i.i.i.i.i.i.epil.preheader
	end_block                               # label199:
	local.get	6
	local.get	11
	local.get	16
	i32.wrap_i64
	local.tee	7
	i32.add 
	i32.add 
	local.set	5
	local.get	4
	local.get	12
	local.get	7
	i32.add 
	i32.add 
	local.set	7
.LBB79_9:                               # %join.7.i.i.i.i.i.i.i.i.epil
                                        # =>This Inner Loop Header: Depth=1
	loop    	                                # label201:
	local.get	5
	local.get	7
	i32.load8_u	0
	i32.store8	0
	local.get	5
	i32.const	1
	i32.add 
	local.set	5
	local.get	7
	i32.const	1
	i32.add 
	local.set	7
	local.get	15
	i64.const	-1
	i64.add 
	local.tee	15
	i64.const	0
	i64.ne  
	br_if   	0                               # 0: up to label201
	br      	2                               # 2: down to label197
.LBB79_10:                              # %apart.2.i.i.i.i.i.i.i.i
	end_loop
	end_block                               # label198:
	local.get	3
	local.get	13
	local.get	5
	call	memmove
	drop
.LBB79_11:                              # %core__slice__edits__slice_T__copy_from_slice___i8_20_core__clone__U8Clone___.exit.i.i
	end_block                               # label197:
	local.get	0
	local.get	1
	local.get	9
	local.get	10
	local.get	3
	local.get	14
	local.get	8
	call	gcm_c__siv__fotsgure_gcm_siv_seal
	local.set	7
.LBB79_12:                              # %wide_fotsgure_gcm_siv_seal_to.exit
	end_block                               # label195:
	local.get	7
                                        # fallthrough-return
	end_function
                                        # -- End function
	.section	.text.fotsgure_gcm_siv_open,"",@
	.globl	fotsgure_gcm_siv_open           # -- Begin function fotsgure_gcm_siv_open
	.type	fotsgure_gcm_siv_open,@function
fotsgure_gcm_siv_open:                  # @fotsgure_gcm_siv_open
	.functype	fotsgure_gcm_siv_open (i32, i32, i32, i32, i32, i32, i32) -> (i32)
# %bb.0:
	local.get	0
	local.get	1
	local.get	2
	i32.const	0
	i32.const	4096
	local.get	2
	i32.select
	i32.add 
	local.get	3
	i64.extend_i32_u
	local.get	4
	i32.const	0
	i32.const	4096
	local.get	4
	i32.select
	i32.add 
	local.get	5
	i64.extend_i32_u
	local.get	6
	call	gcm_c__siv__fotsgure_gcm_siv_open
                                        # fallthrough-return
	end_function
                                        # -- End function
	.section	.text.fotsgure_gcm_siv_open_to,"",@
	.globl	fotsgure_gcm_siv_open_to        # -- Begin function fotsgure_gcm_siv_open_to
	.type	fotsgure_gcm_siv_open_to,@function
fotsgure_gcm_siv_open_to:               # @fotsgure_gcm_siv_open_to
	.functype	fotsgure_gcm_siv_open_to (i32, i32, i32, i32, i32, i32, i32, i32, i32) -> (i32)
	.local  	i32, i64, i32, i32, i32, i32, i64, i64, i64, i64
# %bb.0:
	block   	
	local.get	5
	local.get	7
	i32.eq  
	br_if   	0                               # 0: down to label202
# %bb.1:
	i32.const	10
	return
.LBB81_2:                               # %join.3.i.i
	end_block                               # label202:
	i32.const	2
	local.set	7
	block   	
	block   	
	local.get	0
	i32.load	0
	i32.const	-16
	i32.add 
	br_table 	{0, 1, 1, 1, 1, 1, 1, 1, 1, 1, 1, 1, 1, 1, 1, 1, 0, 1} # 1: down to label203
                                        # 0: down to label204
.LBB81_3:                               # %join.6.i.i
	end_block                               # label204:
	local.get	2
	i32.const	0
	i32.const	4096
	local.get	2
	i32.select
	i32.add 
	local.set	9
	local.get	3
	i64.extend_i32_u
	local.set	10
	block   	
	block   	
	local.get	6
	i32.const	0
	i32.const	4096
	local.get	6
	i32.select
	local.tee	11
	i32.add 
	local.tee	12
	i64.extend_i32_u
	local.get	4
	i32.const	0
	i32.const	4096
	local.get	4
	i32.select
	local.tee	13
	i32.add 
	local.tee	14
	i64.extend_i32_u
	i64.sub 
	local.get	5
	i64.extend_i32_u
	local.tee	15
	i64.ge_u
	br_if   	0                               # 0: down to label206
# %bb.4:                                # %join.7.i.i.i.i.i.i.i.i.preheader
	local.get	15
	i64.const	3
	i64.and 
	local.set	16
	i64.const	0
	local.set	17
	block   	
	local.get	5
	i32.const	4
	i32.lt_u
	br_if   	0                               # 0: down to label207
# %bb.5:                                # %join.7.i.i.i.i.i.i.i.i.preheader.new
	local.get	15
	i64.const	4294967292
	i64.and 
	local.set	18
	i64.const	0
	local.set	17
	i32.const	0
	local.set	7
.LBB81_6:                               # %join.7.i.i.i.i.i.i.i.i
                                        # =>This Inner Loop Header: Depth=1
	loop    	                                # label208:
	local.get	12
	local.get	7
	i32.add 
	local.tee	2
	local.get	14
	local.get	7
	i32.add 
	local.tee	3
	i32.load8_u	0
	i32.store8	0
	local.get	2
	i32.const	1
	i32.add 
	local.get	3
	i32.const	1
	i32.add 
	i32.load8_u	0
	i32.store8	0
	local.get	2
	i32.const	2
	i32.add 
	local.get	3
	i32.const	2
	i32.add 
	i32.load8_u	0
	i32.store8	0
	local.get	2
	i32.const	3
	i32.add 
	local.get	3
	i32.const	3
	i32.add 
	i32.load8_u	0
	i32.store8	0
	local.get	7
	i32.const	4
	i32.add 
	local.set	7
	local.get	18
	local.get	17
	i64.const	4
	i64.add 
	local.tee	17
	i64.ne  
	br_if   	0                               # 0: up to label208
# %bb.7:                                # %core__slice__edits__slice_T__copy_from_slice___i8_20_core__clone__U8Clone___.exit.i.i.loopexit.unr-lcssa
	end_loop
	local.get	16
	i64.eqz
	br_if   	2                               # 2: down to label205
.LBB81_8:                               # %join.7.i.i.i.i.i.i.i.i.epil.preheader
	end_block                               # label207:
	local.get	6
	local.get	11
	local.get	17
	i32.wrap_i64
	local.tee	2
	i32.add 
	i32.add 
	local.set	7
	local.get	4
	local.get	13
	local.get	2
	i32.add 
	i32.add 
	local.set	2
.LBB81_9:                               # %join.7.i.i.i.i.i.i.i.i.epil
                                        # =>This Inner Loop Header: Depth=1
	loop    	                                # label209:
	local.get	7
	local.get	2
	i32.load8_u	0
	i32.store8	0
	local.get	7
	i32.const	1
	i32.add 
	local.set	7
	local.get	2
	i32.const	1
	i32.add 
	local.set	2
	local.get	16
	i64.const	-1
	i64.add 
	local.tee	16
	i64.const	0
	i64.ne  
	br_if   	0                               # 0: up to label209
	br      	2                               # 2: down to label205
.LBB81_10:                              # %apart.2.i.i.i.i.i.i.i.i
	end_loop
	end_block                               # label206:
	local.get	12
	local.get	14
	local.get	5
	call	memmove
	drop
.LBB81_11:                              # %core__slice__edits__slice_T__copy_from_slice___i8_20_core__clone__U8Clone___.exit.i.i
	end_block                               # label205:
	block   	
	local.get	0
	local.get	1
	local.get	9
	local.get	10
	local.get	12
	local.get	15
	local.get	8
	call	gcm_c__siv__fotsgure_gcm_siv_open
	local.tee	7
	br_if   	0                               # 0: down to label210
# %bb.12:
	i32.const	0
	return
.LBB81_13:                              # %then.7.i.i
	end_block                               # label210:
	local.get	5
	i32.eqz
	br_if   	0                               # 0: down to label203
# %bb.14:                               # %loop.5.preheader.i.i.i
	block   	
	local.get	15
	i64.const	-1
	i64.add 
	local.tee	16
	i64.eqz
	br_if   	0                               # 0: down to label211
# %bb.15:                               # %join.8.preheader.i.i.i
	local.get	12
	i32.const	0
	local.get	5
	i32.const	-1
	i32.add 
	call	memset
	drop
.LBB81_16:                              # %after.4.i.i.i
	end_block                               # label211:
	local.get	12
	local.get	16
	i32.wrap_i64
	i32.add 
	i32.const	0
	i32.store8	0
.LBB81_17:                              # %wide_fotsgure_gcm_siv_open_to.exit
	end_block                               # label203:
	local.get	7
                                        # fallthrough-return
	end_function
                                        # -- End function
	.section	.text.fotsgure_gcm_siv_wipe,"",@
	.globl	fotsgure_gcm_siv_wipe           # -- Begin function fotsgure_gcm_siv_wipe
	.type	fotsgure_gcm_siv_wipe,@function
fotsgure_gcm_siv_wipe:                  # @fotsgure_gcm_siv_wipe
	.functype	fotsgure_gcm_siv_wipe (i32) -> ()
# %bb.0:
	local.get	0
	i32.const	0
	i32.const	484
	call	memset
	i32.const	4
	i32.add 
	call	aes_cipher__zeroize__elements__zeroize_elements____54a2bb646728b9ee_
                                        # fallthrough-return
	end_function
                                        # -- End function
	.type	.Lstatic.0,@object              # @static.0
	.section	.rodata..Lstatic.0,"",@
.Lstatic.0:
	.ascii	"\001\002\004\b\020 @\200\0336"
	.size	.Lstatic.0, 10

	.ident	"rattle logic=dac8208d650f15bf3e2dc313a14fa4c783a3acf887bdfab66e1714b038d9e11b"
	.section	.custom_section.producers,"",@
	.int8	1
	.int8	12
	.ascii	"processed-by"
	.int8	1
	.int8	77
	.ascii	"rattle logic=dac8208d650f15bf3e2dc313a14fa4c783a3acf887bdfab66e1714b038d9e11b"
	.int8	0
	.section	.rodata..Lstatic.0,"",@
