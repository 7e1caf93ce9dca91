# Made by tools/dist from the proved crate gcm_c; BUILD says from what. Don't edit it.
	.file	"rattle"
	.globaltype	__stack_pointer, i32
	.functype	aes_cipher__zeroize__elements__zeroize_elements____530874d131791bfe_ (i32) -> ()
	.functype	gcm_c__kept__fotsgure_gcm_wipe (i32) -> ()
	.functype	aes_cipher__zeroize__elements__zeroize_elements____d3d1c9d97fea966e_ (i32, i64) -> ()
	.functype	gcm__message_state__MessageZeroize__zeroize (i32) -> ()
	.functype	aes_cipher__zeroize__elements__zeroize_elements____3b2097f0eef5a37b_ (i32) -> ()
	.functype	aes_permute__lane_keys__expand_lanes (i32, i32, i64) -> ()
	.functype	gcm__mode__BorrowedGcm__start____c13ce517942629d6_ (i32, i32, i32, i64) -> ()
	.functype	gcm__mode__BorrowedGcm__put_pre_counter____c13ce517942629d6_ (i32, i32, i64, i32) -> ()
	.functype	gcm__hash_room__MultiplesRoomHashRoom__hash_on (i32, i32, i64, i64, i32, i64) -> ()
	.functype	gcm__multiples__Multiples__three_products (i32, i32, i32, i32, i32) -> ()
	.functype	gcm__multiples__Multiples__block_product (i32, i32, i32) -> ()
	.functype	gcm__multiples__Multiples__two_products (i32, i32, i32, i32) -> ()
	.functype	gcm__tags__hash_lengths____84904cd934dcda78_ (i32, i32, i64, i64, i64, i64) -> ()
	.functype	gcm__tags__lengths_of (i32, i64, i64) -> ()
	.functype	aes_cipher__zeroize__stack__wipe_stack____512_ () -> ()
	.functype	gcm__mode__BorrowedGcm__end____c13ce517942629d6_ (i32, i32, i32, i32) -> (i32)
	.functype	gcm__mode__BorrowedGcm__put_tag_so_far____c13ce517942629d6_ (i32, i32, i32) -> ()
	.functype	gcm__tags__put_mask____ed3b81e0963a9ab3_ (i32, i32, i32) -> ()
	.functype	gcm__mode__BorrowedGcm__hash_so_far____c13ce517942629d6_ (i32, i32, i32) -> ()
	.functype	gcm__tags__add_masked (i64, i64, i32) -> ()
	.functype	gcm_c__kept__prepare_multiples (i32) -> ()
	.functype	gcm__mode__put_subkey____a407e1eb9411991d_ (i32, i32) -> ()
	.functype	gcm__multiples__put_multiples (i32, i64, i64) -> ()
	.functype	gcm__multiples__next_power (i32, i32, i64, i64) -> ()
	.functype	gcm__multiples__put_table (i32, i64, i64) -> ()
	.functype	gcm__mode__BorrowedGcm__compare____c13ce517942629d6_ (i32, i32, i64, i32, i64, i32, i64, i32, i32) -> (i32)
	.functype	gcm__mode__BorrowedGcm__put_tag____c13ce517942629d6_ (i32, i32, i32, i64, i32, i64, i32) -> ()
	.functype	aes_cipher__blocks__difference (i32, i32) -> (i32)
	.functype	gcm__gctr__add_gctr____ed3b81e0963a9ab3_ (i32, i32, i64, i32, i64) -> ()
	.functype	aes_hybrid__borrowed_cipher__BorrowedCipher__process_blocks____19237d6279b3cf3a_ (i32, i32, i64) -> ()
	.functype	aes_hybrid__batches__process_on_planes____2a076538018b6fb3_ (i32, i64, i32, i64) -> ()
	.functype	aes_hybrid__plane_keys__store_planes____fab3fa1ddd682008_ (i32, i32, i64) -> ()
	.functype	aes_hybrid__batches__process_batches_and_rest____2a076538018b6fb3_ (i32, i64, i32, i64) -> ()
	.functype	aes_soft__soft__ciphers__planes__process_outlined____bddb9db0bc69ed2a_ (i32, i32, i64, i32) -> ()
	.functype	aes_soft__soft__ciphers__planes__EncryptPlaneCipher__process_planes____eab796f82dda8b4f_ (i32, i64, i32) -> ()
	.functype	aes_planes__soft__sbox__sub_bytes____fab3fa1ddd682008_ (i32) -> ()
	.functype	aes_soft__soft__blocks__filled_up__process_filled_up____2a076538018b6fb3_ (i32, i64, i32, i64) -> ()
	.functype	aes_cipher__zeroize__zeroize_words____fab3fa1ddd682008_ (i32) -> ()
	.functype	aes_cipher__zeroize__stack__wipe_stack____1792_ () -> ()
	.functype	aes_permute__blocks__process_on_lanes____06aaae76f5856d0a_ (i32, i64, i32, i64) -> ()
	.functype	aes_hybrid__closures__lend_planes____8383eef3f4ca9323_ (i32, i64, i32, i64, i32) -> ()
	.functype	aes_hybrid__closures__call_to_work____8383eef3f4ca9323_ (i32, i32, i64, i32) -> ()
	.functype	aes_ctr__add_in_batches__add_next____849d7687381e9207_ (i32, i32, i64, i64, i32, i64) -> (i64)
	.functype	aes_cipher__zeroize__stack__wipe_stack____2032_ () -> ()
	.functype	aes_ctr__add_in_batches__add_next____6a304718cc059ec9_ (i32, i32, i64, i64, i32, i64) -> (i64)
	.functype	aes_cipher__zeroize__stack__wipe_stack____1536_ () -> ()
	.functype	gcm_c__whole__fotsgure_gcm_seal (i32, i32, i64, i32, i64, i32, i64, i32) -> (i32)
	.functype	gcm_c__whole_to__copy (i32, i64, i32) -> ()
	.functype	gcm_c__siv__fotsgure_gcm_siv_open (i32, i32, i32, i64, i32, i64, i32) -> (i32)
	.functype	gcm_siv__course__open_in____b1a7be6fe22fdaa9_ (i32, i64, i32, i32, i64, i32, i64, i32) -> (i32)
	.functype	gcm_siv__keys__derive_and_prepare____b1a7be6fe22fdaa9_ (i32, i64, i32, i32, i32) -> ()
	.functype	gcm_siv__keys__derive____ed3b81e0963a9ab3_ (i32, i64, i32, i32) -> ()
	.functype	gcm_siv__keys__first_halves (i32, i32, i32) -> ()
	.functype	gcm_siv__keys__set_encryption_key____66aa1833bfd7fef8_ (i32, i64, i32) -> ()
	.functype	aes_cipher__zeroize__elements__zeroize_elements____82a118249f09cfc6_ (i32, i64) -> ()
	.functype	gcm_siv__message__open____f940bb35374b8583_ (i32, i32, i32, i32, i64, i32, i64, i32) -> (i32)
	.functype	gcm_siv__message__put_tag____f940bb35374b8583_ (i32, i32, i32, i32, i64, i32, i64, i32) -> ()
	.functype	gcm__single_blocks__hash_singly____a9149335c466a3fd_ (i32, i32, i32, i32, i64) -> ()
	.functype	gcm__multiples__Table__product (i32, i32, i32) -> ()
	.functype	gcm_siv__hash__bytes_of (i32, i32) -> ()
	.functype	gcm_siv__message__tag_input (i32, i32, i32) -> ()
	.functype	gcm_siv__message__process_text____66aa1833bfd7fef8_ (i32, i32, i32, i64) -> ()
	.functype	aes_hybrid__closures__lend_planes____4eff1f6a6667429a_ (i32, i64, i32, i64, i32) -> ()
	.functype	aes_hybrid__closures__call_to_work____4eff1f6a6667429a_ (i32, i32, i64, i32) -> ()
	.functype	aes_ctr__add_in_batches__add_next____4d6730d4b1bb99fd_ (i32, i32, i64, i64, i32, i64) -> (i64)
	.functype	aes_cipher__zeroize__stack__wipe_stack____2816_ () -> ()
	.functype	gcm_siv__course__open_in____40c030eaacddd0c9_ (i32, i64, i32, i32, i64, i32, i64, i32) -> (i32)
	.functype	gcm_siv__keys__derive_and_prepare____40c030eaacddd0c9_ (i32, i64, i32, i32, i32) -> ()
	.functype	gcm_siv__message__open____2b34360e0e51af73_ (i32, i32, i32, i32, i64, i32, i64, i32) -> (i32)
	.functype	gcm_siv__message__put_tag____2b34360e0e51af73_ (i32, i32, i32, i32, i64, i32, i64, i32) -> ()
	.functype	gcm_c__siv__fotsgure_gcm_siv_seal (i32, i32, i32, i64, i32, i64, i32) -> (i32)
	.functype	gcm_siv__course__seal_in____b1a7be6fe22fdaa9_ (i32, i32, i64, i32, i32, i64, i32, i64) -> ()
	.functype	gcm_siv__message__seal____f940bb35374b8583_ (i32, i32, i32, i32, i32, i64, i32, i64) -> ()
	.functype	gcm_siv__course__seal_in____40c030eaacddd0c9_ (i32, i32, i64, i32, i32, i64, i32, i64) -> ()
	.functype	gcm_siv__message__seal____2b34360e0e51af73_ (i32, i32, i32, i32, i32, i64, i32, i64) -> ()
	.functype	gcm__hash_room__hash_piece____84904cd934dcda78_ (i32, i32, i32, i64, i32, i64) -> ()
	.functype	gcm__mode__BorrowedGcm__enter_phase____c13ce517942629d6_ (i32, i32, i32, i32, i64) -> ()
	.functype	gcm__mode__BorrowedGcm__is_tag_so_far____c13ce517942629d6_ (i32, i32, i32) -> (i32)
	.functype	gcm__mode__BorrowedGcm__is_short_tag_so_far____c13ce517942629d6_ (i32, i32, i32, i64) -> (i32)
	.functype	fotsgure_gcm_version () -> (i32)
	.functype	fotsgure_gcm_set_key (i32, i32, i32) -> (i32)
	.functype	fotsgure_gcm_set_key_of (i32, i32) -> (i32)
	.functype	fotsgure_gcm_key_length (i32) -> (i32)
	.functype	fotsgure_gcm_wipe (i32) -> ()
	.functype	fotsgure_gcm_seal (i32, i32, i32, i32, i32, i32, i32, i32) -> (i32)
	.functype	fotsgure_gcm_seal_to (i32, i32, i32, i32, i32, i32, i32, i32, i32, i32) -> (i32)
	.functype	fotsgure_gcm_seal_next (i32, i32, i32, i32, i32, i32, i32, i32) -> (i32)
	.functype	fotsgure_gcm_open (i32, i32, i32, i32, i32, i32, i32, i32, i32) -> (i32)
	.functype	fotsgure_gcm_open_to (i32, i32, i32, i32, i32, i32, i32, i32, i32, i32, i32) -> (i32)
	.functype	fotsgure_gcm_begin (i32, i32, i32, i32) -> (i32)
	.functype	fotsgure_gcm_begin_next (i32, i32, i32, i32) -> (i32)
	.functype	fotsgure_gcm_additional (i32, i32, i32, i32) -> (i32)
	.functype	fotsgure_gcm_encrypt (i32, i32, i32, i32) -> (i32)
	.functype	fotsgure_gcm_finish (i32, i32, i32) -> (i32)
	.functype	fotsgure_gcm_verify (i32, i32, i32, i32) -> (i32)
	.functype	fotsgure_gcm_accept (i32, i32, i32, i32) -> (i32)
	.functype	fotsgure_gcm_accept_short (i32, i32, i32, i32, i32) -> (i32)
	.functype	fotsgure_gcm_decrypt (i32, i32, i32, i32) -> (i32)
	.functype	fotsgure_gcm_decrypt_unverified (i32, i32, i32, i32) -> (i32)
	.functype	fotsgure_gcm_finish_unverified (i32, i32, i32) -> (i32)
	.functype	fotsgure_gcm_wipe_message (i32) -> ()
	.functype	fotsgure_gcm_siv_set_key (i32, i32, i32) -> (i32)
	.functype	fotsgure_gcm_siv_seal (i32, i32, i32, i32, i32, i32, i32) -> (i32)
	.functype	fotsgure_gcm_siv_seal_to (i32, i32, i32, i32, i32, i32, i32, i32, i32) -> (i32)
	.functype	fotsgure_gcm_siv_open (i32, i32, i32, i32, i32, i32, i32) -> (i32)
	.functype	fotsgure_gcm_siv_open_to (i32, i32, i32, i32, i32, i32, i32, i32, i32) -> (i32)
	.functype	fotsgure_gcm_siv_wipe (i32) -> ()
	.section	.text.aes_cipher__zeroize__elements__zeroize_elements____530874d131791bfe_,"",@
	.type	aes_cipher__zeroize__elements__zeroize_elements____530874d131791bfe_,@function # -- Begin function aes_cipher__zeroize__elements__zeroize_elements____530874d131791bfe_
aes_cipher__zeroize__elements__zeroize_elements____530874d131791bfe_: # @aes_cipher__zeroize__elements__zeroize_elements____530874d131791bfe_
	.functype	aes_cipher__zeroize__elements__zeroize_elements____530874d131791bfe_ (i32) -> ()
	.local  	i64, i32, i64, i32, i32
# %bb.0:                                # %start
	i64.const	0
	local.set	1
	global.get	__stack_pointer
	i32.const	16
	i32.sub 
	local.tee	2
	i64.const	0
	i64.store	8
	#APP
	#NO_APP
	local.get	2
	i64.load	8
	local.set	3
	#APP
	#NO_APP
	block   	
	block   	
	local.get	3
	i64.const	14
	i64.gt_u
	br_if   	0                               # 0: down to label1
# %bb.1:                                # %then.1.i8
	local.get	0
	local.get	3
	i32.wrap_i64
	i32.const	4
	i32.shl 
	i32.add 
	local.tee	4
	i32.load8_u	0
	local.set	5
	local.get	0
	i32.const	0
	i32.const	240
	memory.fill	0
	local.get	5
	local.get	4
	i32.load8_u	0
	i32.and 
	i64.extend_i32_u
	i64.const	255
	i64.and 
	local.set	1
	br      	1                               # 1: down to label0
.LBB0_2:                                # %aes_cipher__zeroize__observe____3f54e6b29a41109e_.exit.critedge
	end_block                               # label1:
	local.get	0
	i32.const	0
	i32.const	240
	memory.fill	0
.LBB0_3:                                # %aes_cipher__zeroize__observe____3f54e6b29a41109e_.exit
	end_block                               # label0:
	#APP
	#NO_APP
	local.get	2
	i64.load	8
	drop
	local.get	2
	local.get	1
	i64.store	8
	#APP
	#NO_APP
                                        # fallthrough-return
	end_function
                                        # -- End function
	.section	.text.gcm_c__kept__fotsgure_gcm_wipe,"",@
	.type	gcm_c__kept__fotsgure_gcm_wipe,@function # -- Begin function gcm_c__kept__fotsgure_gcm_wipe
gcm_c__kept__fotsgure_gcm_wipe:         # @gcm_c__kept__fotsgure_gcm_wipe
	.functype	gcm_c__kept__fotsgure_gcm_wipe (i32) -> ()
	.local  	i32, i32, i64, i32, v128
# %bb.0:                                # %start
	global.get	__stack_pointer
	i32.const	4608
	i32.sub 
	local.tee	1
	global.set	__stack_pointer
	i32.const	0
	local.set	2
	local.get	1
	i32.const	3072
	i32.add 
	i32.const	0
	i32.const	1536
	memory.fill	0
	i64.const	1536
	local.set	3
.LBB1_1:                                # %repeat.1.i
                                        # =>This Inner Loop Header: Depth=1
	loop    	                                # label2:
	local.get	1
	i32.const	3072
	i32.add 
	local.get	2
	i32.add 
	local.tee	4
	v128.const	0, 0
	local.tee	5
	v128.store	0:p2align=0
	local.get	4
	i32.const	16
	i32.add 
	local.get	5
	v128.store	0:p2align=0
	local.get	4
	i32.const	32
	i32.add 
	local.get	5
	v128.store	0:p2align=0
	local.get	4
	i32.const	48
	i32.add 
	local.get	5
	v128.store	0:p2align=0
	local.get	4
	i32.const	64
	i32.add 
	local.get	5
	v128.store	0:p2align=0
	local.get	4
	i32.const	80
	i32.add 
	local.get	5
	v128.store	0:p2align=0
	local.get	4
	i32.const	96
	i32.add 
	local.get	5
	v128.store	0:p2align=0
	local.get	4
	i32.const	112
	i32.add 
	local.get	5
	v128.store	0:p2align=0
	local.get	2
	i32.const	128
	i32.add 
	local.set	2
	local.get	3
	i64.const	-128
	i64.add 
	local.tee	3
	i64.const	0
	i64.ne  
	br_if   	0                               # 0: up to label2
# %bb.2:                                # %aes_cipher__zeroize__ArrayZeroize__zero____47155e507dd69676_.exit
	end_loop
	local.get	1
	i32.const	1536
	i32.add 
	local.get	1
	i32.const	3072
	i32.add 
	i32.const	1536
	memory.copy	0, 0
	local.get	1
	local.get	1
	i32.const	1536
	i32.add 
	i32.const	1536
	memory.copy	0, 0
	local.get	0
	i32.const	4
	i32.add 
	local.tee	4
	i32.const	0
	i32.const	240
	memory.fill	0
	local.get	0
	i32.const	244
	i32.add 
	local.tee	2
	local.get	1
	i32.const	1536
	memory.copy	0, 0
	local.get	0
	i32.const	0
	i32.store	0
	local.get	4
	call	aes_cipher__zeroize__elements__zeroize_elements____530874d131791bfe_
	local.get	2
	i64.const	96
	call	aes_cipher__zeroize__elements__zeroize_elements____d3d1c9d97fea966e_
	local.get	1
	i32.const	4608
	i32.add 
	global.set	__stack_pointer
                                        # fallthrough-return
	end_function
                                        # -- End function
	.section	.text.aes_cipher__zeroize__elements__zeroize_elements____d3d1c9d97fea966e_,"",@
	.type	aes_cipher__zeroize__elements__zeroize_elements____d3d1c9d97fea966e_,@function # -- Begin function aes_cipher__zeroize__elements__zeroize_elements____d3d1c9d97fea966e_
aes_cipher__zeroize__elements__zeroize_elements____d3d1c9d97fea966e_: # @aes_cipher__zeroize__elements__zeroize_elements____d3d1c9d97fea966e_
	.functype	aes_cipher__zeroize__elements__zeroize_elements____d3d1c9d97fea966e_ (i32, i64) -> ()
	.local  	i32, i64, i32, i32, i64, i32, v128
# %bb.0:                                # %start
	global.get	__stack_pointer
	i32.const	16
	i32.sub 
	local.tee	2
	i64.const	0
	i64.store	8
	#APP
	#NO_APP
	local.get	2
	i64.load	8
	local.set	3
	#APP
	#NO_APP
	i32.const	0
	local.set	4
	block   	
	local.get	3
	local.get	1
	i64.ge_u
	local.tee	5
	br_if   	0                               # 0: down to label3
# %bb.1:                                # %then.1.i8
	local.get	0
	local.get	3
	i32.wrap_i64
	i32.const	4
	i32.shl 
	i32.add 
	i32.load8_u	0
	local.set	4
.LBB2_2:                                # %aes_cipher__zeroize__observe____32a0ae3c0a3d48e0_.exit12
	end_block                               # label3:
	local.get	1
	i64.const	124
	i64.and 
	local.set	6
	local.get	1
	i64.const	3
	i64.and 
	local.set	1
	local.get	0
	local.set	7
.LBB2_3:                                # %join.6.i
                                        # =>This Inner Loop Header: Depth=1
	loop    	                                # label4:
	local.get	7
	v128.const	0, 0
	local.tee	8
	v128.store	0:p2align=0
	local.get	7
	i32.const	16
	i32.add 
	local.get	8
	v128.store	0:p2align=0
	local.get	7
	i32.const	32
	i32.add 
	local.get	8
	v128.store	0:p2align=0
	local.get	7
	i32.const	48
	i32.add 
	local.get	8
	v128.store	0:p2align=0
	local.get	7
	i32.const	64
	i32.add 
	local.set	7
	local.get	6
	i64.const	-4
	i64.add 
	local.tee	6
	i64.const	0
	i64.ne  
	br_if   	0                               # 0: up to label4
# %bb.4:                                # %aes_cipher__zeroize__overwrite____8898ba818a1b9c8b_.exit.unr-lcssa
	end_loop
	block   	
	local.get	1
	i64.eqz
	br_if   	0                               # 0: down to label5
.LBB2_5:                                # %join.6.i.epil
                                        # =>This Inner Loop Header: Depth=1
	loop    	                                # label6:
	local.get	7
	local.get	8
	v128.store	0:p2align=0
	local.get	7
	i32.const	16
	i32.add 
	local.set	7
	local.get	1
	i64.const	-1
	i64.add 
	local.tee	1
	i64.const	0
	i64.ne  
	br_if   	0                               # 0: up to label6
.LBB2_6:                                # %aes_cipher__zeroize__overwrite____8898ba818a1b9c8b_.exit
	end_loop
	end_block                               # label5:
	i64.const	0
	local.set	6
	block   	
	local.get	5
	br_if   	0                               # 0: down to label7
# %bb.7:                                # %then.1.i
	local.get	0
	local.get	3
	i32.wrap_i64
	i32.const	4
	i32.shl 
	i32.add 
	i32.load8_u	0
	local.get	4
	i32.and 
	i64.extend_i32_u
	i64.const	255
	i64.and 
	local.set	6
.LBB2_8:                                # %aes_cipher__zeroize__observe____32a0ae3c0a3d48e0_.exit
	end_block                               # label7:
	#APP
	#NO_APP
	local.get	2
	i64.load	8
	drop
	local.get	2
	local.get	6
	i64.store	8
	#APP
	#NO_APP
                                        # fallthrough-return
	end_function
                                        # -- End function
	.section	.text.gcm__message_state__MessageZeroize__zeroize,"",@
	.type	gcm__message_state__MessageZeroize__zeroize,@function # -- Begin function gcm__message_state__MessageZeroize__zeroize
gcm__message_state__MessageZeroize__zeroize: # @gcm__message_state__MessageZeroize__zeroize
	.functype	gcm__message_state__MessageZeroize__zeroize (i32) -> ()
	.local  	v128
# %bb.0:                                # %start
	local.get	0
	v128.const	0, 0
	local.tee	1
	v128.store	16:p2align=3
	local.get	0
	local.get	1
	v128.store	0:p2align=3
	local.get	0
	i32.const	32
	i32.add 
	call	aes_cipher__zeroize__elements__zeroize_elements____3b2097f0eef5a37b_
	local.get	0
	i32.const	48
	i32.add 
	call	aes_cipher__zeroize__elements__zeroize_elements____3b2097f0eef5a37b_
	local.get	0
	i32.const	64
	i32.add 
	call	aes_cipher__zeroize__elements__zeroize_elements____3b2097f0eef5a37b_
                                        # fallthrough-return
	end_function
                                        # -- End function
	.section	.text.aes_cipher__zeroize__elements__zeroize_elements____3b2097f0eef5a37b_,"",@
	.type	aes_cipher__zeroize__elements__zeroize_elements____3b2097f0eef5a37b_,@function # -- Begin function aes_cipher__zeroize__elements__zeroize_elements____3b2097f0eef5a37b_
aes_cipher__zeroize__elements__zeroize_elements____3b2097f0eef5a37b_: # @aes_cipher__zeroize__elements__zeroize_elements____3b2097f0eef5a37b_
	.functype	aes_cipher__zeroize__elements__zeroize_elements____3b2097f0eef5a37b_ (i32) -> ()
	.local  	i32
# %bb.0:                                # %start
	global.get	__stack_pointer
	i32.const	16
	i32.sub 
	local.tee	1
	i64.const	0
	i64.store	8
	#APP
	#NO_APP
	local.get	1
	i64.load	8
	drop
	#APP
	#NO_APP
	local.get	0
	v128.const	0, 0
	v128.store	0:p2align=0
	#APP
	#NO_APP
	local.get	1
	i64.load	8
	drop
	local.get	1
	i64.const	0
	i64.store	8
	#APP
	#NO_APP
                                        # fallthrough-return
	end_function
                                        # -- End function
	.section	.text.aes_permute__lane_keys__expand_lanes,"",@
	.type	aes_permute__lane_keys__expand_lanes,@function # -- Begin function aes_permute__lane_keys__expand_lanes
aes_permute__lane_keys__expand_lanes:   # @aes_permute__lane_keys__expand_lanes
	.functype	aes_permute__lane_keys__expand_lanes (i32, i32, i64) -> ()
	.local  	v128, v128, v128, v128, v128, v128, v128, i32, i32, v128, i32, v128, v128, v128, v128, i32, v128, v128, v128
# %bb.0:                                # %start
	v128.const	0, 1, 28, 29, 45, 44, 49, 48, 39, 38, 59, 58, 10, 11, 22, 23
	local.tee	3
	local.get	1
	v128.load	0:p2align=0
	local.tee	4
	v128.const	15, 15, 15, 15, 15, 15, 15, 15, 15, 15, 15, 15, 15, 15, 15, 15
	local.tee	5
	v128.and
	i8x16.swizzle
	v128.const	0, 134, 253, 123, 142, 8, 115, 245, 119, 241, 138, 12, 249, 127, 4, 130
	local.tee	6
	local.get	4
	i32.const	4
	i8x16.shr_u
	i8x16.swizzle
	v128.xor
	local.set	7
	block   	
	block   	
	block   	
	block   	
	local.get	2
	i32.wrap_i64
	i32.const	-16
	i32.add 
	br_table 	{0, 2, 2, 2, 2, 2, 2, 2, 1, 2} # 2: down to label9
                                        # 1: down to label10
.LBB5_1:                                # %then.1.i
	end_block                               # label11:
	local.get	0
	v128.const	0, 1, 92, 93, 224, 225, 188, 189, 80, 81, 12, 13, 176, 177, 236, 237
	local.tee	8
	local.get	7
	local.get	5
	v128.and
	i8x16.swizzle
	v128.const	0, 178, 181, 7, 58, 136, 143, 61, 172, 30, 25, 171, 150, 36, 35, 145
	local.tee	9
	local.get	7
	i32.const	4
	i8x16.shr_u
	i8x16.swizzle
	v128.xor
	v128.store	0:p2align=0
	i32.const	.Lstatic.0
	local.set	1
	i32.const	16
	local.set	10
	i32.const	48
	local.set	11
	i64.const	10
	local.set	2
.LBB5_2:                                # %join.5.i
                                        # =>This Inner Loop Header: Depth=1
	loop    	                                # label12:
	v128.const	0, 195, 79, 12, 252, 124, 67, 128, 207, 51, 63, 112, 191, 179, 240, 140
	v128.const	128, 1, 9, 14, 13, 11, 7, 6, 15, 2, 12, 5, 10, 4, 3, 8
	local.tee	4
	local.get	4
	local.get	7
	local.get	4
	i8x16.shuffle	13, 14, 15, 12, 13, 14, 15, 12, 13, 14, 15, 12, 13, 14, 15, 12
	local.tee	6
	i32.const	4
	i8x16.shr_u
	local.tee	3
	i8x16.swizzle
	v128.const	128, 2, 1, 15, 9, 5, 14, 12, 13, 4, 11, 10, 7, 8, 6, 3
	local.get	6
	local.get	5
	v128.and
	local.tee	6
	i8x16.swizzle
	local.tee	12
	v128.xor
	i8x16.swizzle
	local.get	3
	local.get	6
	v128.xor
	local.tee	6
	v128.xor
	i8x16.swizzle
	v128.const	0, 230, 114, 183, 229, 198, 197, 35, 81, 180, 3, 113, 32, 151, 82, 148
	local.get	4
	local.get	4
	local.get	6
	i8x16.swizzle
	local.get	12
	v128.xor
	i8x16.swizzle
	local.get	3
	v128.xor
	i8x16.swizzle
	v128.xor
	v128.const	0, 0, 0, 0, 0, 0, 0, 0, 0, 0, 0, 0, 0, 0, 0, 0
	local.tee	4
	local.get	1
	i32.load8_u	0
	local.tee	13
	i32.const	4
	i32.shr_u
	i32.load8_u	.Lstatic.2
	local.get	13
	i32.const	15
	i32.and 
	i32.load8_u	.Lstatic.1
	i32.xor 
	i8x16.replace_lane	0
	local.get	7
	v128.xor
	local.tee	7
	local.get	4
	i8x16.shuffle	16, 16, 16, 16, 0, 1, 2, 3, 4, 5, 6, 7, 8, 9, 10, 11
	local.get	7
	v128.xor
	local.tee	7
	local.get	4
	i8x16.shuffle	16, 16, 16, 16, 16, 16, 16, 16, 0, 1, 2, 3, 4, 5, 6, 7
	v128.xor
	local.get	7
	v128.xor
	v128.const	110, 110, 110, 110, 110, 110, 110, 110, 110, 110, 110, 110, 110, 110, 110, 110
	local.tee	4
	v128.xor
	local.set	7
	block   	
	block   	
	local.get	2
	i64.const	1
	i64.ne  
	br_if   	0                               # 0: down to label14
# %bb.3:                                # %then.4.i427
                                        #   in Loop: Header=BB5_2 Depth=1
	local.get	9
	local.get	7
	i32.const	4
	i8x16.shr_u
	i8x16.swizzle
	local.get	8
	local.get	7
	local.get	5
	v128.and
	i8x16.swizzle
	v128.xor
	v128.const	99, 99, 99, 99, 99, 99, 99, 99, 99, 99, 99, 99, 99, 99, 99, 99
	v128.xor
	local.set	4
	i32.const	160
	local.set	13
	br      	1                               # 1: down to label13
.LBB5_4:                                # %join.6.i
                                        #   in Loop: Header=BB5_2 Depth=1
	end_block                               # label14:
	local.get	7
	local.get	11
	i32.const	48
	i32.and 
	v128.load	.Lstatic.3:p2align=0
	i8x16.swizzle
	local.get	4
	v128.xor
	local.set	4
	local.get	10
	local.set	13
.LBB5_5:                                # %aes_permute__lane_keys__stored_key.exit
                                        #   in Loop: Header=BB5_2 Depth=1
	end_block                               # label13:
	local.get	0
	local.get	13
	i32.add 
	local.get	4
	v128.store	0:p2align=0
	local.get	11
	i32.const	48
	i32.add 
	local.set	11
	local.get	10
	i32.const	16
	i32.add 
	local.set	10
	local.get	1
	i32.const	1
	i32.add 
	local.set	1
	local.get	2
	i64.const	-1
	i64.add 
	local.tee	2
	i64.eqz
	i32.eqz
	br_if   	0                               # 0: up to label12
	br      	3                               # 3: down to label8
.LBB5_6:                                # %then.4.i
	end_loop
	end_block                               # label10:
	local.get	1
	i32.const	23
	i32.add 
	local.get	1
	i32.const	22
	i32.add 
	local.get	1
	i32.const	21
	i32.add 
	local.get	1
	i32.const	20
	i32.add 
	local.get	1
	i32.const	19
	i32.add 
	local.get	1
	i32.const	18
	i32.add 
	local.get	1
	i32.const	17
	i32.add 
	local.get	1
	i32.const	16
	i32.add 
	local.get	4
	local.get	4
	i8x16.shuffle	8, 9, 10, 11, 12, 13, 14, 15, 0, 0, 0, 0, 0, 0, 0, 0
	v128.load8_lane	0, 8
	v128.load8_lane	0, 9
	v128.load8_lane	0, 10
	v128.load8_lane	0, 11
	v128.load8_lane	0, 12
	v128.load8_lane	0, 13
	v128.load8_lane	0, 14
	v128.load8_lane	0, 15
	local.set	4
	local.get	0
	v128.const	0, 1, 92, 93, 224, 225, 188, 189, 80, 81, 12, 13, 176, 177, 236, 237
	local.tee	14
	local.get	7
	local.get	5
	v128.and
	i8x16.swizzle
	v128.const	0, 178, 181, 7, 58, 136, 143, 61, 172, 30, 25, 171, 150, 36, 35, 145
	local.tee	15
	local.get	7
	i32.const	4
	i8x16.shr_u
	i8x16.swizzle
	v128.xor
	v128.store	0:p2align=0
	local.get	3
	local.get	4
	local.get	5
	v128.and
	i8x16.swizzle
	local.get	6
	local.get	4
	i32.const	4
	i8x16.shr_u
	i8x16.swizzle
	v128.xor
	local.set	6
	i64.const	12
	local.set	2
	i32.const	144
	local.set	1
	i32.const	.Lstatic.0
	local.set	10
	i32.const	48
	local.set	11
.LBB5_7:                                # %join.5.i611
                                        # =>This Inner Loop Header: Depth=1
	loop    	                                # label15:
	local.get	0
	local.get	11
	i32.add 
	local.tee	13
	i32.const	-32
	i32.add 
	local.get	6
	v128.const	0, 195, 79, 12, 252, 124, 67, 128, 207, 51, 63, 112, 191, 179, 240, 140
	local.tee	9
	v128.const	128, 1, 9, 14, 13, 11, 7, 6, 15, 2, 12, 5, 10, 4, 3, 8
	local.tee	3
	local.get	3
	local.get	6
	local.get	4
	i8x16.shuffle	13, 14, 15, 12, 13, 14, 15, 12, 13, 14, 15, 12, 13, 14, 15, 12
	local.tee	12
	i32.const	4
	i8x16.shr_u
	local.tee	4
	i8x16.swizzle
	v128.const	128, 2, 1, 15, 9, 5, 14, 12, 13, 4, 11, 10, 7, 8, 6, 3
	local.tee	16
	local.get	12
	local.get	5
	v128.and
	local.tee	12
	i8x16.swizzle
	local.tee	8
	v128.xor
	i8x16.swizzle
	local.get	4
	local.get	12
	v128.xor
	local.tee	12
	v128.xor
	i8x16.swizzle
	v128.const	0, 230, 114, 183, 229, 198, 197, 35, 81, 180, 3, 113, 32, 151, 82, 148
	local.tee	17
	local.get	3
	local.get	3
	local.get	12
	i8x16.swizzle
	local.get	8
	v128.xor
	i8x16.swizzle
	local.get	4
	v128.xor
	i8x16.swizzle
	v128.xor
	v128.const	0, 0, 0, 0, 0, 0, 0, 0, 0, 0, 0, 0, 0, 0, 0, 0
	local.tee	4
	local.get	10
	i32.load8_u	0
	local.tee	18
	i32.const	4
	i32.shr_u
	i32.load8_u	.Lstatic.2
	local.get	18
	i32.const	15
	i32.and 
	i32.load8_u	.Lstatic.1
	i32.xor 
	i8x16.replace_lane	0
	local.get	7
	v128.xor
	local.tee	7
	local.get	4
	i8x16.shuffle	16, 16, 16, 16, 0, 1, 2, 3, 4, 5, 6, 7, 8, 9, 10, 11
	local.get	7
	v128.xor
	local.tee	7
	local.get	4
	i8x16.shuffle	16, 16, 16, 16, 16, 16, 16, 16, 0, 1, 2, 3, 4, 5, 6, 7
	v128.xor
	local.get	7
	v128.xor
	v128.const	110, 110, 110, 110, 110, 110, 110, 110, 110, 110, 110, 110, 110, 110, 110, 110
	local.tee	12
	v128.xor
	local.tee	8
	i8x16.shuffle	8, 9, 10, 11, 12, 13, 14, 15, 16, 17, 18, 19, 20, 21, 22, 23
	local.get	1
	i32.const	-96
	i32.add 
	i32.const	48
	i32.and 
	v128.load	.Lstatic.3:p2align=0
	i8x16.swizzle
	local.get	12
	v128.xor
	v128.store	0:p2align=0
	local.get	13
	i32.const	-16
	i32.add 
	local.get	6
	local.get	4
	i8x16.shuffle	16, 16, 16, 16, 0, 1, 2, 3, 4, 5, 6, 7, 8, 9, 10, 11
	local.get	6
	v128.xor
	local.tee	7
	local.get	4
	i8x16.shuffle	16, 16, 16, 16, 16, 16, 16, 16, 0, 1, 2, 3, 4, 5, 6, 7
	local.get	8
	local.get	4
	i8x16.shuffle	4, 5, 6, 7, 4, 5, 6, 7, 4, 5, 6, 7, 4, 5, 6, 7
	v128.xor
	local.get	7
	v128.xor
	local.tee	7
	local.get	1
	i32.const	-48
	i32.add 
	i32.const	48
	i32.and 
	v128.load	.Lstatic.3:p2align=0
	i8x16.swizzle
	local.get	12
	v128.xor
	v128.store	0:p2align=0
	local.get	7
	local.get	4
	i8x16.shuffle	16, 16, 16, 16, 0, 1, 2, 3, 4, 5, 6, 7, 8, 9, 10, 11
	local.get	7
	v128.xor
	local.tee	6
	local.get	4
	i8x16.shuffle	16, 16, 16, 16, 16, 16, 16, 16, 0, 1, 2, 3, 4, 5, 6, 7
	local.get	9
	local.get	3
	local.get	3
	local.get	7
	local.get	4
	i8x16.shuffle	13, 14, 15, 12, 13, 14, 15, 12, 13, 14, 15, 12, 13, 14, 15, 12
	local.tee	19
	i32.const	4
	i8x16.shr_u
	local.tee	7
	i8x16.swizzle
	local.get	16
	local.get	19
	local.get	5
	v128.and
	local.tee	19
	i8x16.swizzle
	local.tee	16
	v128.xor
	i8x16.swizzle
	local.get	7
	local.get	19
	v128.xor
	local.tee	19
	v128.xor
	i8x16.swizzle
	local.get	17
	local.get	3
	local.get	3
	local.get	19
	i8x16.swizzle
	local.get	16
	v128.xor
	i8x16.swizzle
	local.get	7
	v128.xor
	i8x16.swizzle
	v128.xor
	local.get	4
	local.get	10
	i32.const	1
	i32.add 
	i32.load8_u	0
	local.tee	13
	i32.const	4
	i32.shr_u
	i32.load8_u	.Lstatic.2
	local.get	13
	i32.const	15
	i32.and 
	i32.load8_u	.Lstatic.1
	i32.xor 
	i8x16.replace_lane	0
	local.get	8
	v128.xor
	local.tee	7
	local.get	4
	i8x16.shuffle	16, 16, 16, 16, 0, 1, 2, 3, 4, 5, 6, 7, 8, 9, 10, 11
	local.get	7
	v128.xor
	local.tee	7
	local.get	4
	i8x16.shuffle	16, 16, 16, 16, 16, 16, 16, 16, 0, 1, 2, 3, 4, 5, 6, 7
	v128.xor
	local.get	7
	v128.xor
	local.get	12
	v128.xor
	local.tee	7
	local.get	4
	i8x16.shuffle	4, 5, 6, 7, 4, 5, 6, 7, 4, 5, 6, 7, 4, 5, 6, 7
	v128.xor
	local.set	4
	block   	
	block   	
	local.get	2
	i64.const	3
	i64.ne  
	br_if   	0                               # 0: down to label17
# %bb.8:                                # %then.4.i1339.i
                                        #   in Loop: Header=BB5_7 Depth=1
	local.get	14
	local.get	7
	local.get	5
	v128.and
	i8x16.swizzle
	local.get	15
	local.get	7
	i32.const	4
	i8x16.shr_u
	i8x16.swizzle
	v128.xor
	v128.const	99, 99, 99, 99, 99, 99, 99, 99, 99, 99, 99, 99, 99, 99, 99, 99
	v128.xor
	local.set	3
	i32.const	192
	local.set	13
	br      	1                               # 1: down to label16
.LBB5_9:                                # %join.6.i1337.i
                                        #   in Loop: Header=BB5_7 Depth=1
	end_block                               # label17:
	local.get	7
	local.get	1
	i32.const	48
	i32.and 
	v128.load	.Lstatic.3:p2align=0
	i8x16.swizzle
	local.get	12
	v128.xor
	local.set	3
	local.get	11
	local.set	13
.LBB5_10:                               # %aes_permute__lane_keys__stored_key.exit1342.i
                                        #   in Loop: Header=BB5_7 Depth=1
	end_block                               # label16:
	local.get	4
	local.get	6
	v128.xor
	local.set	6
	local.get	0
	local.get	13
	i32.add 
	local.get	3
	v128.store	0:p2align=0
	local.get	10
	i32.const	2
	i32.add 
	local.set	10
	local.get	1
	i32.const	144
	i32.add 
	local.set	1
	local.get	11
	i32.const	48
	i32.add 
	local.set	11
	local.get	2
	i64.const	-3
	i64.add 
	local.tee	2
	i64.eqz
	i32.eqz
	br_if   	0                               # 0: up to label15
	br      	2                               # 2: down to label8
.LBB5_11:                               # %else.5.i
	end_loop
	end_block                               # label9:
	local.get	1
	i32.const	16
	i32.add 
	v128.load	0:p2align=0
	local.set	4
	local.get	0
	v128.const	0, 1, 92, 93, 224, 225, 188, 189, 80, 81, 12, 13, 176, 177, 236, 237
	local.tee	20
	local.get	7
	local.get	5
	v128.and
	i8x16.swizzle
	v128.const	0, 178, 181, 7, 58, 136, 143, 61, 172, 30, 25, 171, 150, 36, 35, 145
	local.tee	21
	local.get	7
	i32.const	4
	i8x16.shr_u
	i8x16.swizzle
	v128.xor
	v128.store	0:p2align=0
	local.get	0
	local.get	3
	local.get	4
	local.get	5
	v128.and
	i8x16.swizzle
	local.get	6
	local.get	4
	i32.const	4
	i8x16.shr_u
	i8x16.swizzle
	v128.xor
	local.tee	6
	v128.const	110, 110, 110, 110, 110, 110, 110, 110, 110, 110, 110, 110, 110, 110, 110, 110
	local.tee	12
	v128.xor
	local.get	4
	i8x16.shuffle	0, 13, 10, 7, 4, 1, 14, 11, 8, 5, 2, 15, 12, 9, 6, 3
	v128.store	16:p2align=0
	local.get	0
	i32.const	32
	i32.add 
	local.set	1
	i64.const	6
	local.set	2
	i32.const	.Lstatic.0
	local.set	11
	i32.const	96
	local.set	10
.LBB5_12:                               # %join.5.i651
                                        # =>This Inner Loop Header: Depth=1
	loop    	                                # label18:
	local.get	1
	v128.const	0, 230, 114, 183, 229, 198, 197, 35, 81, 180, 3, 113, 32, 151, 82, 148
	local.tee	8
	v128.const	128, 1, 9, 14, 13, 11, 7, 6, 15, 2, 12, 5, 10, 4, 3, 8
	local.tee	4
	local.get	4
	local.get	6
	local.get	4
	i8x16.shuffle	13, 14, 15, 12, 13, 14, 15, 12, 13, 14, 15, 12, 13, 14, 15, 12
	local.tee	9
	i32.const	4
	i8x16.shr_u
	local.tee	3
	local.get	9
	local.get	5
	v128.and
	local.tee	16
	v128.xor
	local.tee	17
	i8x16.swizzle
	v128.const	128, 2, 1, 15, 9, 5, 14, 12, 13, 4, 11, 10, 7, 8, 6, 3
	local.tee	9
	local.get	16
	i8x16.swizzle
	local.tee	19
	v128.xor
	i8x16.swizzle
	local.get	3
	v128.xor
	i8x16.swizzle
	v128.const	0, 195, 79, 12, 252, 124, 67, 128, 207, 51, 63, 112, 191, 179, 240, 140
	local.tee	16
	local.get	4
	local.get	4
	local.get	3
	i8x16.swizzle
	local.get	19
	v128.xor
	i8x16.swizzle
	local.get	17
	v128.xor
	i8x16.swizzle
	v128.xor
	v128.const	0, 0, 0, 0, 0, 0, 0, 0, 0, 0, 0, 0, 0, 0, 0, 0
	local.tee	3
	local.get	11
	i32.load8_u	0
	local.tee	13
	i32.const	4
	i32.shr_u
	i32.load8_u	.Lstatic.2
	local.get	13
	i32.const	15
	i32.and 
	i32.load8_u	.Lstatic.1
	i32.xor 
	i8x16.replace_lane	0
	local.get	7
	v128.xor
	local.tee	7
	local.get	3
	i8x16.shuffle	16, 16, 16, 16, 0, 1, 2, 3, 4, 5, 6, 7, 8, 9, 10, 11
	local.get	7
	v128.xor
	local.tee	7
	local.get	3
	i8x16.shuffle	16, 16, 16, 16, 16, 16, 16, 16, 0, 1, 2, 3, 4, 5, 6, 7
	v128.xor
	local.get	7
	v128.xor
	local.tee	15
	local.get	12
	v128.xor
	local.tee	7
	local.get	10
	i32.const	32
	i32.and 
	v128.load	.Lstatic.3:p2align=0
	i8x16.swizzle
	local.get	12
	v128.xor
	v128.store	0:p2align=0
	local.get	1
	i32.const	16
	i32.add 
	local.get	6
	local.get	3
	i8x16.shuffle	16, 16, 16, 16, 0, 1, 2, 3, 4, 5, 6, 7, 8, 9, 10, 11
	local.get	6
	v128.xor
	local.tee	17
	local.get	3
	i8x16.shuffle	16, 16, 16, 16, 16, 16, 16, 16, 0, 1, 2, 3, 4, 5, 6, 7
	local.get	16
	local.get	4
	local.get	4
	local.get	7
	local.get	4
	i8x16.shuffle	12, 13, 14, 15, 12, 13, 14, 15, 12, 13, 14, 15, 12, 13, 14, 15
	local.tee	19
	i32.const	4
	i8x16.shr_u
	local.tee	6
	i8x16.swizzle
	local.get	9
	local.get	19
	local.get	5
	v128.and
	local.tee	19
	i8x16.swizzle
	local.tee	14
	v128.xor
	i8x16.swizzle
	local.get	6
	local.get	19
	v128.xor
	local.tee	19
	v128.xor
	i8x16.swizzle
	v128.xor
	local.get	8
	local.get	4
	local.get	4
	local.get	19
	i8x16.swizzle
	local.get	14
	v128.xor
	i8x16.swizzle
	local.get	6
	v128.xor
	i8x16.swizzle
	v128.xor
	local.get	17
	v128.xor
	local.get	12
	v128.xor
	local.tee	6
	local.get	10
	i32.const	48
	i32.add 
	i32.const	48
	i32.and 
	v128.load	.Lstatic.3:p2align=0
	i8x16.swizzle
	local.get	12
	v128.xor
	v128.store	0:p2align=0
	local.get	11
	i32.const	1
	i32.add 
	local.set	11
	local.get	10
	i32.const	96
	i32.add 
	local.set	10
	local.get	1
	i32.const	32
	i32.add 
	local.set	1
	local.get	2
	i64.const	-1
	i64.add 
	local.tee	2
	i64.const	0
	i64.ne  
	br_if   	0                               # 0: up to label18
# %bb.13:                               # %aes_planes__expansion__expand_256____05c2c6c54e82e59f_.exit
	end_loop
	local.get	0
	local.get	20
	local.get	15
	v128.const	224, 110, 110, 110, 110, 110, 110, 110, 110, 110, 110, 110, 110, 110, 110, 110
	v128.xor
	local.tee	7
	local.get	3
	i8x16.shuffle	16, 16, 16, 16, 0, 1, 2, 3, 4, 5, 6, 7, 8, 9, 10, 11
	local.get	7
	v128.xor
	local.tee	17
	local.get	3
	i8x16.shuffle	16, 16, 16, 16, 16, 16, 16, 16, 0, 1, 2, 3, 4, 5, 6, 7
	local.get	16
	local.get	4
	local.get	4
	local.get	6
	local.get	4
	i8x16.shuffle	13, 14, 15, 12, 13, 14, 15, 12, 13, 14, 15, 12, 13, 14, 15, 12
	local.tee	3
	i32.const	4
	i8x16.shr_u
	local.tee	7
	i8x16.swizzle
	local.get	9
	local.get	3
	local.get	5
	v128.and
	local.tee	3
	i8x16.swizzle
	local.tee	6
	v128.xor
	i8x16.swizzle
	local.get	7
	local.get	3
	v128.xor
	local.tee	3
	v128.xor
	i8x16.swizzle
	v128.xor
	local.get	8
	local.get	4
	local.get	4
	local.get	3
	i8x16.swizzle
	local.get	6
	v128.xor
	i8x16.swizzle
	local.get	7
	v128.xor
	i8x16.swizzle
	v128.xor
	local.get	17
	v128.xor
	local.get	12
	v128.xor
	local.tee	4
	local.get	5
	v128.and
	i8x16.swizzle
	local.get	21
	local.get	4
	i32.const	4
	i8x16.shr_u
	i8x16.swizzle
	v128.xor
	v128.const	99, 99, 99, 99, 99, 99, 99, 99, 99, 99, 99, 99, 99, 99, 99, 99
	v128.xor
	v128.store	224:p2align=0
.LBB5_14:                               # %aes_planes__expansion__expand____05c2c6c54e82e59f_.exit
	end_block                               # label8:
                                        # fallthrough-return
	end_function
                                        # -- End function
	.section	.text.gcm__mode__BorrowedGcm__start____c13ce517942629d6_,"",@
	.type	gcm__mode__BorrowedGcm__start____c13ce517942629d6_,@function # -- Begin function gcm__mode__BorrowedGcm__start____c13ce517942629d6_
gcm__mode__BorrowedGcm__start____c13ce517942629d6_: # @gcm__mode__BorrowedGcm__start____c13ce517942629d6_
	.functype	gcm__mode__BorrowedGcm__start____c13ce517942629d6_ (i32, i32, i32, i64) -> ()
	.local  	v128
# %bb.0:                                # %start
	local.get	0
	local.get	2
	local.get	3
	local.get	1
	i32.const	32
	i32.add 
	call	gcm__mode__BorrowedGcm__put_pre_counter____c13ce517942629d6_
	local.get	1
	i64.const	0
	i64.store	0
	local.get	1
	i32.const	24
	i32.add 
	i64.const	1
	i64.store	0
	local.get	1
	v128.const	0, 0
	local.tee	4
	v128.store	8:p2align=3
	local.get	1
	i32.const	48
	i32.add 
	local.get	4
	v128.store	0:p2align=0
	local.get	1
	i32.const	64
	i32.add 
	local.get	4
	v128.store	0:p2align=0
	block   	
	local.get	3
	i64.const	12
	i64.eq  
	br_if   	0                               # 0: down to label19
# %bb.1:                                # %then.1.i
	call	aes_cipher__zeroize__stack__wipe_stack____512_
.LBB6_2:                                # %gcm__pieces__wipe_stack_after.exit
	end_block                               # label19:
                                        # fallthrough-return
	end_function
                                        # -- End function
	.section	.text.gcm__mode__BorrowedGcm__put_pre_counter____c13ce517942629d6_,"",@
	.type	gcm__mode__BorrowedGcm__put_pre_counter____c13ce517942629d6_,@function # -- Begin function gcm__mode__BorrowedGcm__put_pre_counter____c13ce517942629d6_
gcm__mode__BorrowedGcm__put_pre_counter____c13ce517942629d6_: # @gcm__mode__BorrowedGcm__put_pre_counter____c13ce517942629d6_
	.functype	gcm__mode__BorrowedGcm__put_pre_counter____c13ce517942629d6_ (i32, i32, i64, i32) -> ()
	.local  	i32, v128
# %bb.0:                                # %start
	global.get	__stack_pointer
	i32.const	64
	i32.sub 
	local.tee	4
	global.set	__stack_pointer
	block   	
	block   	
	local.get	2
	i64.const	12
	i64.ne  
	br_if   	0                               # 0: down to label21
# %bb.1:                                # %then.1
	local.get	4
	i32.const	0
	i32.store8	62
	local.get	4
	i32.const	0
	i32.store16	60
	local.get	4
	local.get	1
	i32.load	8:p2align=0
	i32.store	56
	local.get	4
	local.get	1
	i64.load	0:p2align=0
	local.tee	2
	i64.store	48
	local.get	4
	local.get	2
	i64.store	32
	local.get	4
	local.get	4
	i64.load	55:p2align=0
	i64.store	39:p2align=0
	local.get	3
	local.get	4
	i64.load	39:p2align=0
	i64.store	7:p2align=0
	local.get	3
	local.get	4
	i64.load	32
	i64.store	0:p2align=0
	i32.const	1
	local.set	1
	br      	1                               # 1: down to label20
.LBB7_2:                                # %else.2
	end_block                               # label21:
	local.get	4
	i32.const	16
	i32.add 
	local.get	0
	i32.const	32
	i32.add 
	local.tee	0
	i32.load	0
	i64.const	0
	i64.const	0
	local.get	1
	local.get	2
	call	gcm__hash_room__MultiplesRoomHashRoom__hash_on
	local.get	4
	local.get	0
	local.get	4
	i64.load	16
	local.get	4
	i64.load	24
	i64.const	0
	local.get	2
	call	gcm__tags__hash_lengths____84904cd934dcda78_
	local.get	3
	local.get	4
	v128.load	0
	local.tee	5
	v128.store8_lane	14, 1
	local.get	3
	local.get	5
	v128.store8_lane	13, 2
	local.get	3
	local.get	5
	v128.store8_lane	12, 3
	local.get	3
	local.get	5
	v128.store8_lane	11, 4
	local.get	3
	local.get	5
	v128.store8_lane	10, 5
	local.get	3
	local.get	5
	v128.store8_lane	9, 6
	local.get	3
	local.get	5
	v128.store8_lane	8, 7
	local.get	3
	local.get	5
	v128.store8_lane	7, 8
	local.get	3
	local.get	5
	v128.store8_lane	6, 9
	local.get	3
	local.get	5
	v128.store8_lane	5, 10
	local.get	3
	local.get	5
	v128.store8_lane	4, 11
	local.get	3
	local.get	5
	v128.store8_lane	3, 12
	local.get	3
	local.get	5
	v128.store8_lane	2, 13
	local.get	3
	local.get	5
	v128.store8_lane	1, 14
	local.get	3
	local.get	5
	v128.store8_lane	0, 15
	local.get	5
	i8x16.extract_lane_u	0
	local.set	1
.LBB7_3:                                # %join.3
	end_block                               # label20:
	local.get	3
	local.get	1
	i32.store8	15
	local.get	4
	i32.const	64
	i32.add 
	global.set	__stack_pointer
                                        # fallthrough-return
	end_function
                                        # -- End function
	.section	.text.gcm__hash_room__MultiplesRoomHashRoom__hash_on,"",@
	.type	gcm__hash_room__MultiplesRoomHashRoom__hash_on,@function # -- Begin function gcm__hash_room__MultiplesRoomHashRoom__hash_on
gcm__hash_room__MultiplesRoomHashRoom__hash_on: # @gcm__hash_room__MultiplesRoomHashRoom__hash_on
	.functype	gcm__hash_room__MultiplesRoomHashRoom__hash_on (i32, i32, i64, i64, i32, i64) -> ()
	.local  	i32, v128, v128, i64, i32, i32
# %bb.0:                                # %start
	global.get	__stack_pointer
	i32.const	80
	i32.sub 
	local.tee	6
	global.set	__stack_pointer
	local.get	6
	i32.const	0
	i32.store	12
	local.get	6
	local.get	1
	i32.store	8
	local.get	6
	local.get	2
	i64x2.splat
	local.get	3
	i64x2.replace_lane	1
	local.get	7
	i8x16.shuffle	15, 14, 13, 12, 11, 10, 9, 8, 7, 6, 5, 4, 3, 2, 1, 0
	local.tee	7
	v128.store	64
	local.get	5
	i64.const	48
	i64.div_u
	local.set	3
	block   	
	local.get	5
	i64.const	48
	i64.lt_u
	br_if   	0                               # 0: down to label22
# %bb.1:                                # %join.5.i.preheader
	local.get	3
	local.set	2
	local.get	4
	local.set	1
.LBB8_2:                                # %join.5.i
                                        # =>This Inner Loop Header: Depth=1
	loop    	                                # label23:
	local.get	6
	local.get	6
	v128.load	64
	local.get	1
	v128.load	0:p2align=0
	v128.xor
	v128.store	48
	local.get	6
	local.get	1
	i32.const	16
	i32.add 
	v128.load	0:p2align=0
	v128.store	32
	local.get	6
	local.get	1
	i32.const	32
	i32.add 
	v128.load	0:p2align=0
	v128.store	16
	local.get	1
	i32.const	48
	i32.add 
	local.set	1
	local.get	6
	i32.const	64
	i32.add 
	local.get	6
	i32.const	8
	i32.add 
	local.get	6
	i32.const	48
	i32.add 
	local.get	6
	i32.const	32
	i32.add 
	local.get	6
	i32.const	16
	i32.add 
	call	gcm__multiples__Multiples__three_products
	local.get	2
	i64.const	-1
	i64.add 
	local.tee	2
	i64.const	0
	i64.ne  
	br_if   	0                               # 0: up to label23
# %bb.3:                                # %gcm__hash__hash_threes____4e0b07d5b1f54653_.exit.loopexit
	end_loop
	local.get	6
	v128.load	64
	local.set	7
.LBB8_4:                                # %gcm__hash__hash_threes____4e0b07d5b1f54653_.exit
	end_block                               # label22:
	local.get	6
	v128.const	0, 0
	local.tee	8
	v128.store	48
	block   	
	local.get	5
	local.get	3
	i64.const	48
	i64.mul 
	local.tee	2
	i64.eq  
	br_if   	0                               # 0: down to label24
# %bb.5:                                # %join.3.i
	block   	
	block   	
	local.get	5
	local.get	2
	i64.sub 
	local.tee	9
	i64.const	16
	i64.gt_u
	br_if   	0                               # 0: down to label26
# %bb.6:                                # %then.4.i
	local.get	4
	local.get	2
	i32.wrap_i64
	local.tee	10
	i32.add 
	local.set	1
	block   	
	local.get	9
	i64.const	16
	i64.eq  
	br_if   	0                               # 0: down to label27
# %bb.7:                                # %join.3.i133
	local.get	6
	local.get	8
	v128.store	64:p2align=3
	block   	
	local.get	6
	i32.const	64
	i32.add 
	i64.extend_i32_u
	local.get	1
	i64.extend_i32_u
	i64.sub 
	local.get	9
	i64.ge_u
	br_if   	0                               # 0: down to label28
# %bb.8:                                # %join.7.i.i.i.i.i.i.preheader
	block   	
	local.get	5
	i32.wrap_i64
	local.get	10
	i32.sub 
	local.tee	4
	i32.eqz
	br_if   	0                               # 0: down to label29
# %bb.9:                                # %join.7.i.i.i.i.i.i.preheader
	local.get	6
	i32.const	64
	i32.add 
	local.get	1
	local.get	4
	memory.copy	0, 0
.LBB8_10:                               # %join.7.i.i.i.i.i.i.preheader
	end_block                               # label29:
	local.get	6
	i32.const	64
	i32.add 
	local.set	1
	br      	1                               # 1: down to label27
.LBB8_11:                               # %apart.2.i.i.i.i.i.i
	end_block                               # label28:
	block   	
	local.get	9
	i32.wrap_i64
	local.tee	4
	i32.eqz
	br_if   	0                               # 0: down to label30
# %bb.12:                               # %apart.2.i.i.i.i.i.i
	local.get	6
	i32.const	64
	i32.add 
	local.get	1
	local.get	4
	memory.copy	0, 0
.LBB8_13:                               # %apart.2.i.i.i.i.i.i
	end_block                               # label30:
	local.get	6
	i32.const	64
	i32.add 
	local.set	1
.LBB8_14:                               # %gcm__hash__zero_filled.exit184
	end_block                               # label27:
	local.get	6
	local.get	1
	v128.load	0:p2align=0
	local.get	7
	v128.xor
	v128.store	32
	local.get	6
	i32.const	48
	i32.add 
	local.get	6
	i32.const	8
	i32.add 
	local.get	6
	i32.const	32
	i32.add 
	call	gcm__multiples__Multiples__block_product
	br      	1                               # 1: down to label25
.LBB8_15:                               # %join.6.i
	end_block                               # label26:
	local.get	6
	local.get	4
	local.get	3
	i32.wrap_i64
	local.tee	11
	i32.const	48
	i32.mul 
	i32.add 
	local.tee	10
	v128.load	0:p2align=0
	local.get	7
	v128.xor
	v128.store	32
	block   	
	local.get	9
	i64.const	32
	i64.gt_u
	br_if   	0                               # 0: down to label31
# %bb.16:                               # %then.7.i
	local.get	4
	local.get	2
	i64.const	16
	i64.add 
	local.tee	2
	i32.wrap_i64
	i32.add 
	local.set	1
	block   	
	local.get	5
	local.get	2
	i64.sub 
	local.tee	2
	i64.const	16
	i64.eq  
	br_if   	0                               # 0: down to label32
# %bb.17:                               # %join.3.i79
	local.get	6
	local.get	8
	v128.store	64:p2align=3
	block   	
	local.get	6
	i32.const	64
	i32.add 
	i64.extend_i32_u
	local.get	1
	i64.extend_i32_u
	i64.sub 
	local.get	2
	i64.ge_u
	br_if   	0                               # 0: down to label33
# %bb.18:                               # %join.7.i.i.i.i.i.i225.preheader
	block   	
	local.get	5
	i32.wrap_i64
	local.get	11
	i32.const	-48
	i32.mul 
	i32.add 
	i32.const	-16
	i32.add 
	local.tee	4
	i32.eqz
	br_if   	0                               # 0: down to label34
# %bb.19:                               # %join.7.i.i.i.i.i.i225.preheader
	local.get	6
	i32.const	64
	i32.add 
	local.get	1
	local.get	4
	memory.copy	0, 0
.LBB8_20:                               # %join.7.i.i.i.i.i.i225.preheader
	end_block                               # label34:
	local.get	6
	i32.const	64
	i32.add 
	local.set	1
	br      	1                               # 1: down to label32
.LBB8_21:                               # %apart.2.i.i.i.i.i.i223
	end_block                               # label33:
	block   	
	local.get	2
	i32.wrap_i64
	local.tee	4
	i32.eqz
	br_if   	0                               # 0: down to label35
# %bb.22:                               # %apart.2.i.i.i.i.i.i223
	local.get	6
	i32.const	64
	i32.add 
	local.get	1
	local.get	4
	memory.copy	0, 0
.LBB8_23:                               # %apart.2.i.i.i.i.i.i223
	end_block                               # label35:
	local.get	6
	i32.const	64
	i32.add 
	local.set	1
.LBB8_24:                               # %gcm__hash__zero_filled.exit130
	end_block                               # label32:
	local.get	6
	local.get	1
	v128.load	0:p2align=0
	v128.store	16
	local.get	6
	i32.const	48
	i32.add 
	local.get	6
	i32.const	8
	i32.add 
	local.get	6
	i32.const	32
	i32.add 
	local.get	6
	i32.const	16
	i32.add 
	call	gcm__multiples__Multiples__two_products
	br      	1                               # 1: down to label25
.LBB8_25:                               # %join.9.i
	end_block                               # label31:
	local.get	4
	local.get	2
	i64.const	32
	i64.add 
	local.tee	2
	i32.wrap_i64
	i32.add 
	local.set	1
	block   	
	local.get	5
	local.get	2
	i64.sub 
	local.tee	2
	i64.const	16
	i64.eq  
	br_if   	0                               # 0: down to label36
# %bb.26:                               # %join.3.i71
	local.get	6
	local.get	8
	v128.store	64:p2align=3
	block   	
	local.get	6
	i32.const	64
	i32.add 
	i64.extend_i32_u
	local.get	1
	i64.extend_i32_u
	i64.sub 
	local.get	2
	i64.ge_u
	br_if   	0                               # 0: down to label37
# %bb.27:                               # %join.7.i.i.i.i.i.i239.preheader
	block   	
	local.get	5
	i32.wrap_i64
	local.get	11
	i32.const	-48
	i32.mul 
	i32.add 
	i32.const	-32
	i32.add 
	local.tee	4
	i32.eqz
	br_if   	0                               # 0: down to label38
# %bb.28:                               # %join.7.i.i.i.i.i.i239.preheader
	local.get	6
	i32.const	64
	i32.add 
	local.get	1
	local.get	4
	memory.copy	0, 0
.LBB8_29:                               # %join.7.i.i.i.i.i.i239.preheader
	end_block                               # label38:
	local.get	6
	i32.const	64
	i32.add 
	local.set	1
	br      	1                               # 1: down to label36
.LBB8_30:                               # %apart.2.i.i.i.i.i.i237
	end_block                               # label37:
	block   	
	local.get	2
	i32.wrap_i64
	local.tee	4
	i32.eqz
	br_if   	0                               # 0: down to label39
# %bb.31:                               # %apart.2.i.i.i.i.i.i237
	local.get	6
	i32.const	64
	i32.add 
	local.get	1
	local.get	4
	memory.copy	0, 0
.LBB8_32:                               # %apart.2.i.i.i.i.i.i237
	end_block                               # label39:
	local.get	6
	i32.const	64
	i32.add 
	local.set	1
.LBB8_33:                               # %gcm__hash__zero_filled.exit
	end_block                               # label36:
	local.get	6
	local.get	1
	v128.load	0:p2align=0
	v128.store	16
	local.get	6
	local.get	10
	i32.const	16
	i32.add 
	v128.load	0:p2align=0
	v128.store	64
	local.get	6
	i32.const	48
	i32.add 
	local.get	6
	i32.const	8
	i32.add 
	local.get	6
	i32.const	32
	i32.add 
	local.get	6
	i32.const	64
	i32.add 
	local.get	6
	i32.const	16
	i32.add 
	call	gcm__multiples__Multiples__three_products
.LBB8_34:                               # %gcm__hash__hash_last_group____4e0b07d5b1f54653_.exit
	end_block                               # label25:
	local.get	6
	v128.load	48
	local.set	7
.LBB8_35:                               # %gcm__hash__hash_last_group____4e0b07d5b1f54653_.exit
	end_block                               # label24:
	local.get	0
	local.get	7
	i64x2.extract_lane	0
	local.tee	2
	i64.const	56
	i64.shl 
	local.get	2
	i64.const	65280
	i64.and 
	i64.const	40
	i64.shl 
	i64.or  
	local.get	2
	i64.const	16711680
	i64.and 
	i64.const	24
	i64.shl 
	local.get	2
	i64.const	4278190080
	i64.and 
	i64.const	8
	i64.shl 
	i64.or  
	i64.or  
	local.get	2
	i64.const	8
	i64.shr_u
	i64.const	4278190080
	i64.and 
	local.get	2
	i64.const	24
	i64.shr_u
	i64.const	16711680
	i64.and 
	i64.or  
	local.get	2
	i64.const	40
	i64.shr_u
	i64.const	65280
	i64.and 
	local.get	2
	i64.const	56
	i64.shr_u
	i64.or  
	i64.or  
	i64.or  
	i64.store	8
	local.get	0
	local.get	7
	i64x2.extract_lane	1
	local.tee	2
	i64.const	56
	i64.shl 
	local.get	2
	i64.const	65280
	i64.and 
	i64.const	40
	i64.shl 
	i64.or  
	local.get	2
	i64.const	16711680
	i64.and 
	i64.const	24
	i64.shl 
	local.get	2
	i64.const	4278190080
	i64.and 
	i64.const	8
	i64.shl 
	i64.or  
	i64.or  
	local.get	2
	i64.const	8
	i64.shr_u
	i64.const	4278190080
	i64.and 
	local.get	2
	i64.const	24
	i64.shr_u
	i64.const	16711680
	i64.and 
	i64.or  
	local.get	2
	i64.const	40
	i64.shr_u
	i64.const	65280
	i64.and 
	local.get	2
	i64.const	56
	i64.shr_u
	i64.or  
	i64.or  
	i64.or  
	i64.store	0
	local.get	6
	i32.const	80
	i32.add 
	global.set	__stack_pointer
                                        # fallthrough-return
	end_function
                                        # -- End function
	.section	.text.gcm__multiples__Multiples__three_products,"",@
	.type	gcm__multiples__Multiples__three_products,@function # -- Begin function gcm__multiples__Multiples__three_products
gcm__multiples__Multiples__three_products: # @gcm__multiples__Multiples__three_products
	.functype	gcm__multiples__Multiples__three_products (i32, i32, i32, i32, i32) -> ()
	.local  	v128, v128, v128, v128, v128, v128, v128, v128, i64, v128, v128, v128, i32, i32, i32, i32, i32, i32, i32, i32, i32, v128, v128, i64, i64
# %bb.0:                                # %start
	local.get	4
	v128.load	0:p2align=0
	local.tee	5
	i32.const	4
	i8x16.shr_u
	local.set	6
	local.get	5
	v128.const	15, 15, 15, 15, 15, 15, 15, 15, 15, 15, 15, 15, 15, 15, 15, 15
	local.tee	7
	v128.and
	local.set	8
	local.get	3
	v128.load	0:p2align=0
	local.tee	5
	i32.const	4
	i8x16.shr_u
	local.set	9
	local.get	5
	local.get	7
	v128.and
	local.set	10
	local.get	2
	v128.load	0:p2align=0
	local.tee	5
	i32.const	4
	i8x16.shr_u
	local.set	11
	local.get	5
	local.get	7
	v128.and
	local.set	12
	local.get	1
	i32.load	0
	local.set	4
	i64.const	8
	local.set	13
	v128.const	0, 0, 0, 0, 0, 0, 0, 0, 0, 0, 0, 0, 0, 0, 0, 0
	local.tee	14
	local.set	15
	local.get	14
	local.set	16
	local.get	14
	local.set	7
	local.get	14
	local.set	5
.LBB9_1:                                # %join.5.i
                                        # =>This Inner Loop Header: Depth=1
	loop    	                                # label40:
	local.get	4
	i32.const	1520
	i32.add 
	local.set	3
	local.get	4
	i32.const	1264
	i32.add 
	local.set	2
	local.get	4
	i32.const	1008
	i32.add 
	local.set	1
	local.get	4
	i32.const	752
	i32.add 
	local.set	17
	local.get	4
	i32.const	496
	i32.add 
	local.set	18
	local.get	4
	i32.const	240
	i32.add 
	local.set	19
	local.get	4
	i32.const	1504
	i32.add 
	local.set	20
	local.get	4
	i32.const	1248
	i32.add 
	local.set	21
	local.get	4
	i32.const	992
	i32.add 
	local.set	22
	local.get	4
	i32.const	736
	i32.add 
	local.set	23
	local.get	4
	i32.const	480
	i32.add 
	local.set	24
	local.get	4
	i32.const	224
	i32.add 
	local.set	25
	local.get	7
	local.get	15
	i8x16.shuffle	15, 16, 17, 18, 19, 20, 21, 22, 23, 24, 25, 26, 27, 28, 29, 30
	local.set	15
	local.get	4
	i32.const	-32
	i32.add 
	local.set	4
	local.get	5
	local.get	16
	i8x16.shuffle	15, 16, 17, 18, 19, 20, 21, 22, 23, 24, 25, 26, 27, 28, 29, 30
	local.set	16
	local.get	21
	v128.load	0:p2align=0
	local.get	11
	i8x16.swizzle
	local.get	20
	v128.load	0:p2align=0
	local.get	12
	i8x16.swizzle
	v128.xor
	local.get	22
	v128.load	0:p2align=0
	local.get	10
	i8x16.swizzle
	v128.xor
	local.get	23
	v128.load	0:p2align=0
	local.get	9
	i8x16.swizzle
	v128.xor
	local.get	24
	v128.load	0:p2align=0
	local.get	8
	i8x16.swizzle
	v128.xor
	local.get	25
	v128.load	0:p2align=0
	local.get	6
	i8x16.swizzle
	v128.xor
	local.get	14
	local.get	7
	i8x16.shuffle	0, 16, 17, 18, 19, 20, 21, 22, 23, 24, 25, 26, 27, 28, 29, 30
	v128.xor
	local.tee	26
	local.set	7
	local.get	2
	v128.load	0:p2align=0
	local.get	11
	i8x16.swizzle
	local.get	3
	v128.load	0:p2align=0
	local.get	12
	i8x16.swizzle
	v128.xor
	local.get	1
	v128.load	0:p2align=0
	local.get	10
	i8x16.swizzle
	v128.xor
	local.get	17
	v128.load	0:p2align=0
	local.get	9
	i8x16.swizzle
	v128.xor
	local.get	18
	v128.load	0:p2align=0
	local.get	8
	i8x16.swizzle
	v128.xor
	local.get	19
	v128.load	0:p2align=0
	local.get	6
	i8x16.swizzle
	v128.xor
	local.get	14
	local.get	5
	i8x16.shuffle	0, 16, 17, 18, 19, 20, 21, 22, 23, 24, 25, 26, 27, 28, 29, 30
	v128.xor
	local.tee	27
	local.set	5
	local.get	13
	i64.const	-1
	i64.add 
	local.tee	13
	i64.const	0
	i64.ne  
	br_if   	0                               # 0: up to label40
# %bb.2:                                # %gcm__multiples__shifted_sum____21b77b0062812be4_.exit
	end_loop
	local.get	0
	v128.const	0, 0, 0, 0, 0, 0, 0, 0, 0, 0, 0, 0, 0, 0, 0, 0
	local.get	27
	i8x16.shuffle	0, 1, 2, 3, 4, 5, 6, 7, 16, 17, 18, 19, 20, 21, 22, 23
	local.get	26
	v128.xor
	local.get	27
	local.get	16
	i8x16.shuffle	8, 9, 10, 11, 12, 13, 14, 15, 16, 17, 18, 19, 20, 21, 22, 23
	local.get	15
	v128.xor
	local.tee	7
	i64x2.extract_lane	1
	local.tee	13
	i64.const	56
	i64.shl 
	local.get	13
	i64.const	65280
	i64.and 
	i64.const	40
	i64.shl 
	i64.or  
	local.get	13
	i64.const	16711680
	i64.and 
	i64.const	24
	i64.shl 
	local.get	13
	i64.const	4278190080
	i64.and 
	i64.const	8
	i64.shl 
	i64.or  
	i64.or  
	local.get	13
	i64.const	8
	i64.shr_u
	i64.const	4278190080
	i64.and 
	local.get	13
	i64.const	24
	i64.shr_u
	i64.const	16711680
	i64.and 
	i64.or  
	local.get	13
	i64.const	40
	i64.shr_u
	i64.const	65280
	i64.and 
	local.get	13
	i64.const	56
	i64.shr_u
	i64.or  
	i64.or  
	i64.or  
	local.tee	28
	i64.const	2
	i64.shr_u
	local.get	7
	i64x2.extract_lane	0
	local.tee	13
	i64.const	56
	i64.shr_u
	local.tee	29
	i64.const	62
	i64.shl 
	i64.or  
	local.get	28
	i64.const	1
	i64.shr_u
	local.get	29
	i64.const	63
	i64.shl 
	i64.or  
	i64.xor 
	local.get	28
	i64.const	7
	i64.shr_u
	local.get	29
	i64.const	57
	i64.shl 
	i64.or  
	i64.xor 
	local.get	28
	i64.xor 
	i64x2.splat
	local.get	13
	i64.const	56
	i64.shl 
	local.get	13
	i64.const	65280
	i64.and 
	i64.const	40
	i64.shl 
	i64.or  
	local.get	13
	i64.const	16711680
	i64.and 
	i64.const	24
	i64.shl 
	local.get	13
	i64.const	4278190080
	i64.and 
	i64.const	8
	i64.shl 
	i64.or  
	i64.or  
	local.get	13
	i64.const	8
	i64.shr_u
	i64.const	4278190080
	i64.and 
	local.get	13
	i64.const	24
	i64.shr_u
	i64.const	16711680
	i64.and 
	i64.or  
	local.get	13
	i64.const	40
	i64.shr_u
	i64.const	65280
	i64.and 
	local.get	29
	i64.or  
	i64.or  
	i64.or  
	local.tee	13
	i64.const	2
	i64.shr_u
	local.get	13
	i64.const	1
	i64.shr_u
	i64.xor 
	local.get	13
	i64.const	7
	i64.shr_u
	i64.xor 
	local.get	13
	i64.xor 
	i64x2.replace_lane	1
	local.get	7
	i8x16.shuffle	15, 14, 13, 12, 11, 10, 9, 8, 7, 6, 5, 4, 3, 2, 1, 0
	v128.xor
	v128.store	0:p2align=0
                                        # fallthrough-return
	end_function
                                        # -- End function
	.section	.text.gcm__multiples__Multiples__block_product,"",@
	.type	gcm__multiples__Multiples__block_product,@function # -- Begin function gcm__multiples__Multiples__block_product
gcm__multiples__Multiples__block_product: # @gcm__multiples__Multiples__block_product
	.functype	gcm__multiples__Multiples__block_product (i32, i32, i32) -> ()
	.local  	v128, v128, v128, i64, v128, v128, v128, v128, v128, i32, i32, v128, i64, i64
# %bb.0:                                # %start
	local.get	1
	i32.load	0
	i32.const	496
	i32.add 
	local.set	1
	local.get	2
	v128.load	0:p2align=0
	local.tee	3
	i32.const	4
	i8x16.shr_u
	local.set	4
	local.get	3
	v128.const	15, 15, 15, 15, 15, 15, 15, 15, 15, 15, 15, 15, 15, 15, 15, 15
	v128.and
	local.set	5
	i64.const	8
	local.set	6
	v128.const	0, 0, 0, 0, 0, 0, 0, 0, 0, 0, 0, 0, 0, 0, 0, 0
	local.tee	7
	local.set	8
	local.get	7
	local.set	9
	local.get	7
	local.set	3
	local.get	7
	local.set	10
.LBB10_1:                               # %join.5.i
                                        # =>This Inner Loop Header: Depth=1
	loop    	                                # label41:
	local.get	1
	v128.load	0:p2align=0
	local.set	11
	local.get	1
	i32.const	-256
	i32.add 
	local.set	2
	local.get	1
	i32.const	-16
	i32.add 
	local.set	12
	local.get	1
	i32.const	-272
	i32.add 
	local.set	13
	local.get	3
	local.get	8
	i8x16.shuffle	15, 16, 17, 18, 19, 20, 21, 22, 23, 24, 25, 26, 27, 28, 29, 30
	local.set	8
	local.get	1
	i32.const	-32
	i32.add 
	local.set	1
	local.get	10
	local.get	9
	i8x16.shuffle	15, 16, 17, 18, 19, 20, 21, 22, 23, 24, 25, 26, 27, 28, 29, 30
	local.set	9
	local.get	13
	v128.load	0:p2align=0
	local.get	4
	i8x16.swizzle
	local.get	12
	v128.load	0:p2align=0
	local.get	5
	i8x16.swizzle
	v128.xor
	local.get	7
	local.get	3
	i8x16.shuffle	0, 16, 17, 18, 19, 20, 21, 22, 23, 24, 25, 26, 27, 28, 29, 30
	v128.xor
	local.tee	14
	local.set	3
	local.get	2
	v128.load	0:p2align=0
	local.get	4
	i8x16.swizzle
	local.get	11
	local.get	5
	i8x16.swizzle
	v128.xor
	local.get	7
	local.get	10
	i8x16.shuffle	0, 16, 17, 18, 19, 20, 21, 22, 23, 24, 25, 26, 27, 28, 29, 30
	v128.xor
	local.tee	11
	local.set	10
	local.get	6
	i64.const	-1
	i64.add 
	local.tee	6
	i64.const	0
	i64.ne  
	br_if   	0                               # 0: up to label41
# %bb.2:                                # %gcm__multiples__shifted_sum____29e205ae42dcf28f_.exit
	end_loop
	local.get	0
	v128.const	0, 0, 0, 0, 0, 0, 0, 0, 0, 0, 0, 0, 0, 0, 0, 0
	local.get	11
	i8x16.shuffle	0, 1, 2, 3, 4, 5, 6, 7, 16, 17, 18, 19, 20, 21, 22, 23
	local.get	14
	v128.xor
	local.get	11
	local.get	9
	i8x16.shuffle	8, 9, 10, 11, 12, 13, 14, 15, 16, 17, 18, 19, 20, 21, 22, 23
	local.get	8
	v128.xor
	local.tee	3
	i64x2.extract_lane	1
	local.tee	6
	i64.const	56
	i64.shl 
	local.get	6
	i64.const	65280
	i64.and 
	i64.const	40
	i64.shl 
	i64.or  
	local.get	6
	i64.const	16711680
	i64.and 
	i64.const	24
	i64.shl 
	local.get	6
	i64.const	4278190080
	i64.and 
	i64.const	8
	i64.shl 
	i64.or  
	i64.or  
	local.get	6
	i64.const	8
	i64.shr_u
	i64.const	4278190080
	i64.and 
	local.get	6
	i64.const	24
	i64.shr_u
	i64.const	16711680
	i64.and 
	i64.or  
	local.get	6
	i64.const	40
	i64.shr_u
	i64.const	65280
	i64.and 
	local.get	6
	i64.const	56
	i64.shr_u
	i64.or  
	i64.or  
	i64.or  
	local.tee	15
	i64.const	2
	i64.shr_u
	local.get	3
	i64x2.extract_lane	0
	local.tee	6
	i64.const	56
	i64.shr_u
	local.tee	16
	i64.const	62
	i64.shl 
	i64.or  
	local.get	15
	i64.const	1
	i64.shr_u
	local.get	16
	i64.const	63
	i64.shl 
	i64.or  
	i64.xor 
	local.get	15
	i64.const	7
	i64.shr_u
	local.get	16
	i64.const	57
	i64.shl 
	i64.or  
	i64.xor 
	local.get	15
	i64.xor 
	i64x2.splat
	local.get	6
	i64.const	56
	i64.shl 
	local.get	6
	i64.const	65280
	i64.and 
	i64.const	40
	i64.shl 
	i64.or  
	local.get	6
	i64.const	16711680
	i64.and 
	i64.const	24
	i64.shl 
	local.get	6
	i64.const	4278190080
	i64.and 
	i64.const	8
	i64.shl 
	i64.or  
	i64.or  
	local.get	6
	i64.const	8
	i64.shr_u
	i64.const	4278190080
	i64.and 
	local.get	6
	i64.const	24
	i64.shr_u
	i64.const	16711680
	i64.and 
	i64.or  
	local.get	6
	i64.const	40
	i64.shr_u
	i64.const	65280
	i64.and 
	local.get	16
	i64.or  
	i64.or  
	i64.or  
	local.tee	6
	i64.const	2
	i64.shr_u
	local.get	6
	i64.const	1
	i64.shr_u
	i64.xor 
	local.get	6
	i64.const	7
	i64.shr_u
	i64.xor 
	local.get	6
	i64.xor 
	i64x2.replace_lane	1
	local.get	3
	i8x16.shuffle	15, 14, 13, 12, 11, 10, 9, 8, 7, 6, 5, 4, 3, 2, 1, 0
	v128.xor
	v128.store	0:p2align=0
                                        # fallthrough-return
	end_function
                                        # -- End function
	.section	.text.gcm__multiples__Multiples__two_products,"",@
	.type	gcm__multiples__Multiples__two_products,@function # -- Begin function gcm__multiples__Multiples__two_products
gcm__multiples__Multiples__two_products: # @gcm__multiples__Multiples__two_products
	.functype	gcm__multiples__Multiples__two_products (i32, i32, i32, i32) -> ()
	.local  	v128, v128, v128, v128, v128, v128, i64, v128, v128, v128, i32, i32, i32, i32, i32, i32, v128, v128, i64, i64
# %bb.0:                                # %start
	local.get	3
	v128.load	0:p2align=0
	local.tee	4
	i32.const	4
	i8x16.shr_u
	local.set	5
	local.get	4
	v128.const	15, 15, 15, 15, 15, 15, 15, 15, 15, 15, 15, 15, 15, 15, 15, 15
	local.tee	6
	v128.and
	local.set	7
	local.get	2
	v128.load	0:p2align=0
	local.tee	4
	i32.const	4
	i8x16.shr_u
	local.set	8
	local.get	4
	local.get	6
	v128.and
	local.set	9
	local.get	1
	i32.load	0
	local.set	3
	i64.const	8
	local.set	10
	v128.const	0, 0, 0, 0, 0, 0, 0, 0, 0, 0, 0, 0, 0, 0, 0, 0
	local.tee	11
	local.set	12
	local.get	11
	local.set	13
	local.get	11
	local.set	4
	local.get	11
	local.set	6
.LBB11_1:                               # %join.5.i
                                        # =>This Inner Loop Header: Depth=1
	loop    	                                # label42:
	local.get	3
	i32.const	1008
	i32.add 
	local.set	2
	local.get	3
	i32.const	752
	i32.add 
	local.set	1
	local.get	3
	i32.const	496
	i32.add 
	local.set	14
	local.get	3
	i32.const	240
	i32.add 
	local.set	15
	local.get	3
	i32.const	992
	i32.add 
	local.set	16
	local.get	3
	i32.const	736
	i32.add 
	local.set	17
	local.get	3
	i32.const	480
	i32.add 
	local.set	18
	local.get	3
	i32.const	224
	i32.add 
	local.set	19
	local.get	4
	local.get	12
	i8x16.shuffle	15, 16, 17, 18, 19, 20, 21, 22, 23, 24, 25, 26, 27, 28, 29, 30
	local.set	12
	local.get	3
	i32.const	-32
	i32.add 
	local.set	3
	local.get	6
	local.get	13
	i8x16.shuffle	15, 16, 17, 18, 19, 20, 21, 22, 23, 24, 25, 26, 27, 28, 29, 30
	local.set	13
	local.get	17
	v128.load	0:p2align=0
	local.get	8
	i8x16.swizzle
	local.get	16
	v128.load	0:p2align=0
	local.get	9
	i8x16.swizzle
	v128.xor
	local.get	18
	v128.load	0:p2align=0
	local.get	7
	i8x16.swizzle
	v128.xor
	local.get	19
	v128.load	0:p2align=0
	local.get	5
	i8x16.swizzle
	v128.xor
	local.get	11
	local.get	4
	i8x16.shuffle	0, 16, 17, 18, 19, 20, 21, 22, 23, 24, 25, 26, 27, 28, 29, 30
	v128.xor
	local.tee	20
	local.set	4
	local.get	1
	v128.load	0:p2align=0
	local.get	8
	i8x16.swizzle
	local.get	2
	v128.load	0:p2align=0
	local.get	9
	i8x16.swizzle
	v128.xor
	local.get	14
	v128.load	0:p2align=0
	local.get	7
	i8x16.swizzle
	v128.xor
	local.get	15
	v128.load	0:p2align=0
	local.get	5
	i8x16.swizzle
	v128.xor
	local.get	11
	local.get	6
	i8x16.shuffle	0, 16, 17, 18, 19, 20, 21, 22, 23, 24, 25, 26, 27, 28, 29, 30
	v128.xor
	local.tee	21
	local.set	6
	local.get	10
	i64.const	-1
	i64.add 
	local.tee	10
	i64.const	0
	i64.ne  
	br_if   	0                               # 0: up to label42
# %bb.2:                                # %gcm__multiples__shifted_sum____8860c9ef4de2646f_.exit
	end_loop
	local.get	0
	v128.const	0, 0, 0, 0, 0, 0, 0, 0, 0, 0, 0, 0, 0, 0, 0, 0
	local.get	21
	i8x16.shuffle	0, 1, 2, 3, 4, 5, 6, 7, 16, 17, 18, 19, 20, 21, 22, 23
	local.get	20
	v128.xor
	local.get	21
	local.get	13
	i8x16.shuffle	8, 9, 10, 11, 12, 13, 14, 15, 16, 17, 18, 19, 20, 21, 22, 23
	local.get	12
	v128.xor
	local.tee	4
	i64x2.extract_lane	1
	local.tee	10
	i64.const	56
	i64.shl 
	local.get	10
	i64.const	65280
	i64.and 
	i64.const	40
	i64.shl 
	i64.or  
	local.get	10
	i64.const	16711680
	i64.and 
	i64.const	24
	i64.shl 
	local.get	10
	i64.const	4278190080
	i64.and 
	i64.const	8
	i64.shl 
	i64.or  
	i64.or  
	local.get	10
	i64.const	8
	i64.shr_u
	i64.const	4278190080
	i64.and 
	local.get	10
	i64.const	24
	i64.shr_u
	i64.const	16711680
	i64.and 
	i64.or  
	local.get	10
	i64.const	40
	i64.shr_u
	i64.const	65280
	i64.and 
	local.get	10
	i64.const	56
	i64.shr_u
	i64.or  
	i64.or  
	i64.or  
	local.tee	22
	i64.const	2
	i64.shr_u
	local.get	4
	i64x2.extract_lane	0
	local.tee	10
	i64.const	56
	i64.shr_u
	local.tee	23
	i64.const	62
	i64.shl 
	i64.or  
	local.get	22
	i64.const	1
	i64.shr_u
	local.get	23
	i64.const	63
	i64.shl 
	i64.or  
	i64.xor 
	local.get	22
	i64.const	7
	i64.shr_u
	local.get	23
	i64.const	57
	i64.shl 
	i64.or  
	i64.xor 
	local.get	22
	i64.xor 
	i64x2.splat
	local.get	10
	i64.const	56
	i64.shl 
	local.get	10
	i64.const	65280
	i64.and 
	i64.const	40
	i64.shl 
	i64.or  
	local.get	10
	i64.const	16711680
	i64.and 
	i64.const	24
	i64.shl 
	local.get	10
	i64.const	4278190080
	i64.and 
	i64.const	8
	i64.shl 
	i64.or  
	i64.or  
	local.get	10
	i64.const	8
	i64.shr_u
	i64.const	4278190080
	i64.and 
	local.get	10
	i64.const	24
	i64.shr_u
	i64.const	16711680
	i64.and 
	i64.or  
	local.get	10
	i64.const	40
	i64.shr_u
	i64.const	65280
	i64.and 
	local.get	23
	i64.or  
	i64.or  
	i64.or  
	local.tee	10
	i64.const	2
	i64.shr_u
	local.get	10
	i64.const	1
	i64.shr_u
	i64.xor 
	local.get	10
	i64.const	7
	i64.shr_u
	i64.xor 
	local.get	10
	i64.xor 
	i64x2.replace_lane	1
	local.get	4
	i8x16.shuffle	15, 14, 13, 12, 11, 10, 9, 8, 7, 6, 5, 4, 3, 2, 1, 0
	v128.xor
	v128.store	0:p2align=0
                                        # fallthrough-return
	end_function
                                        # -- End function
	.section	.text.gcm__tags__hash_lengths____84904cd934dcda78_,"",@
	.type	gcm__tags__hash_lengths____84904cd934dcda78_,@function # -- Begin function gcm__tags__hash_lengths____84904cd934dcda78_
gcm__tags__hash_lengths____84904cd934dcda78_: # @gcm__tags__hash_lengths____84904cd934dcda78_
	.functype	gcm__tags__hash_lengths____84904cd934dcda78_ (i32, i32, i64, i64, i64, i64) -> ()
	.local  	i32, v128
# %bb.0:                                # %start
	global.get	__stack_pointer
	i32.const	64
	i32.sub 
	local.tee	6
	global.set	__stack_pointer
	local.get	6
	local.get	4
	local.get	5
	call	gcm__tags__lengths_of
	local.get	1
	i32.load	0
	local.set	1
	local.get	6
	i64.load	8
	local.set	5
	local.get	6
	i64.load	0
	local.set	4
	local.get	6
	v128.const	0, 0
	v128.store	48
	local.get	6
	i32.const	0
	i32.store	44
	local.get	6
	local.get	1
	i32.store	40
	local.get	6
	local.get	5
	i64.const	56
	i64.shl 
	local.get	5
	i64.const	65280
	i64.and 
	i64.const	40
	i64.shl 
	i64.or  
	local.get	5
	i64.const	16711680
	i64.and 
	i64.const	24
	i64.shl 
	local.get	5
	i64.const	4278190080
	i64.and 
	i64.const	8
	i64.shl 
	i64.or  
	i64.or  
	local.get	5
	i64.const	8
	i64.shr_u
	i64.const	4278190080
	i64.and 
	local.get	5
	i64.const	24
	i64.shr_u
	i64.const	16711680
	i64.and 
	i64.or  
	local.get	5
	i64.const	40
	i64.shr_u
	i64.const	65280
	i64.and 
	local.get	5
	i64.const	56
	i64.shr_u
	i64.or  
	i64.or  
	i64.or  
	local.get	2
	i64.xor 
	i64x2.splat
	local.get	4
	i64.const	56
	i64.shl 
	local.get	4
	i64.const	65280
	i64.and 
	i64.const	40
	i64.shl 
	i64.or  
	local.get	4
	i64.const	16711680
	i64.and 
	i64.const	24
	i64.shl 
	local.get	4
	i64.const	4278190080
	i64.and 
	i64.const	8
	i64.shl 
	i64.or  
	i64.or  
	local.get	4
	i64.const	8
	i64.shr_u
	i64.const	4278190080
	i64.and 
	local.get	4
	i64.const	24
	i64.shr_u
	i64.const	16711680
	i64.and 
	i64.or  
	local.get	4
	i64.const	40
	i64.shr_u
	i64.const	65280
	i64.and 
	local.get	4
	i64.const	56
	i64.shr_u
	i64.or  
	i64.or  
	i64.or  
	local.get	3
	i64.xor 
	i64x2.replace_lane	1
	local.get	7
	i8x16.shuffle	15, 14, 13, 12, 11, 10, 9, 8, 7, 6, 5, 4, 3, 2, 1, 0
	v128.store	16
	local.get	6
	i32.const	48
	i32.add 
	local.get	6
	i32.const	40
	i32.add 
	local.get	6
	i32.const	16
	i32.add 
	call	gcm__multiples__Multiples__block_product
	local.get	6
	i64.load	56
	local.set	5
	local.get	0
	local.get	6
	i64.load	48
	local.tee	4
	i64.const	56
	i64.shl 
	local.get	4
	i64.const	65280
	i64.and 
	i64.const	40
	i64.shl 
	i64.or  
	local.get	4
	i64.const	16711680
	i64.and 
	i64.const	24
	i64.shl 
	local.get	4
	i64.const	4278190080
	i64.and 
	i64.const	8
	i64.shl 
	i64.or  
	i64.or  
	local.get	4
	i64.const	8
	i64.shr_u
	i64.const	4278190080
	i64.and 
	local.get	4
	i64.const	24
	i64.shr_u
	i64.const	16711680
	i64.and 
	i64.or  
	local.get	4
	i64.const	40
	i64.shr_u
	i64.const	65280
	i64.and 
	local.get	4
	i64.const	56
	i64.shr_u
	i64.or  
	i64.or  
	i64.or  
	i64.store	8
	local.get	0
	local.get	5
	i64.const	56
	i64.shl 
	local.get	5
	i64.const	65280
	i64.and 
	i64.const	40
	i64.shl 
	i64.or  
	local.get	5
	i64.const	16711680
	i64.and 
	i64.const	24
	i64.shl 
	local.get	5
	i64.const	4278190080
	i64.and 
	i64.const	8
	i64.shl 
	i64.or  
	i64.or  
	local.get	5
	i64.const	8
	i64.shr_u
	i64.const	4278190080
	i64.and 
	local.get	5
	i64.const	24
	i64.shr_u
	i64.const	16711680
	i64.and 
	i64.or  
	local.get	5
	i64.const	40
	i64.shr_u
	i64.const	65280
	i64.and 
	local.get	5
	i64.const	56
	i64.shr_u
	i64.or  
	i64.or  
	i64.or  
	i64.store	0
	local.get	6
	i32.const	64
	i32.add 
	global.set	__stack_pointer
                                        # fallthrough-return
	end_function
                                        # -- End function
	.section	.text.gcm__tags__lengths_of,"",@
	.type	gcm__tags__lengths_of,@function # -- Begin function gcm__tags__lengths_of
gcm__tags__lengths_of:                  # @gcm__tags__lengths_of
	.functype	gcm__tags__lengths_of (i32, i64, i64) -> ()
	.local  	v128
# %bb.0:                                # %start
	local.get	0
	local.get	1
	i64x2.splat
	local.get	2
	i64x2.replace_lane	1
	local.tee	3
	i32.const	43
	i64x2.shl
	v128.const	71776119061217280, 71776119061217280
	v128.and
	local.get	3
	i32.const	59
	i64x2.shl
	v128.or
	local.get	3
	i32.const	27
	i64x2.shl
	v128.const	280375465082880, 280375465082880
	v128.and
	v128.or
	local.get	3
	i32.const	11
	i64x2.shl
	v128.const	1095216660480, 1095216660480
	v128.and
	v128.or
	local.get	3
	i32.const	5
	i64x2.shr_u
	v128.const	4278190080, 4278190080
	v128.and
	v128.or
	local.get	3
	i32.const	21
	i64x2.shr_u
	v128.const	16711680, 16711680
	v128.and
	v128.or
	local.get	3
	i32.const	37
	i64x2.shr_u
	v128.const	65280, 65280
	v128.and
	v128.or
	local.get	3
	i32.const	53
	i64x2.shr_u
	v128.or
	v128.store	0:p2align=0
                                        # fallthrough-return
	end_function
                                        # -- End function
	.section	.text.aes_cipher__zeroize__stack__wipe_stack____512_,"",@
	.type	aes_cipher__zeroize__stack__wipe_stack____512_,@function # -- Begin function aes_cipher__zeroize__stack__wipe_stack____512_
aes_cipher__zeroize__stack__wipe_stack____512_: # @aes_cipher__zeroize__stack__wipe_stack____512_
	.functype	aes_cipher__zeroize__stack__wipe_stack____512_ () -> ()
	.local  	i32, i64
# %bb.0:                                # %start
	global.get	__stack_pointer
	i32.const	528
	i32.sub 
	local.tee	0
	global.set	__stack_pointer
	local.get	0
	i32.const	16
	i32.add 
	i32.const	0
	i32.const	512
	memory.fill	0
	local.get	0
	i64.const	0
	i64.store	8
	#APP
	#NO_APP
	local.get	0
	i64.load	8
	local.set	1
	#APP
	#NO_APP
	block   	
	local.get	1
	i64.const	512
	i64.ge_u
	br_if   	0                               # 0: down to label43
# %bb.1:                                # %then.1
	local.get	0
	i32.const	16
	i32.add 
	local.get	1
	i32.wrap_i64
	i32.add 
	i64.load8_u	0
	local.set	1
	#APP
	#NO_APP
	local.get	0
	i64.load	8
	drop
	local.get	0
	local.get	1
	i64.store	8
	#APP
	#NO_APP
.LBB14_2:                               # %common.ret
	end_block                               # label43:
	local.get	0
	i32.const	528
	i32.add 
	global.set	__stack_pointer
                                        # fallthrough-return
	end_function
                                        # -- End function
	.section	.text.gcm__mode__BorrowedGcm__end____c13ce517942629d6_,"",@
	.type	gcm__mode__BorrowedGcm__end____c13ce517942629d6_,@function # -- Begin function gcm__mode__BorrowedGcm__end____c13ce517942629d6_
gcm__mode__BorrowedGcm__end____c13ce517942629d6_: # @gcm__mode__BorrowedGcm__end____c13ce517942629d6_
	.functype	gcm__mode__BorrowedGcm__end____c13ce517942629d6_ (i32, i32, i32, i32) -> (i32)
	.local  	i32, i64, i32
# %bb.0:                                # %start
	i32.const	1
	local.set	4
	block   	
	block   	
	local.get	1
	i32.const	24
	i32.add 
	i64.load	0
	local.tee	5
	i32.wrap_i64
	i32.const	0
	local.get	5
	i64.const	5
	i64.lt_u
	i32.select
	i32.const	255
	i32.and 
	local.tee	6
	i32.const	1
	i32.eq  
	br_if   	0                               # 0: down to label45
# %bb.1:                                # %start
	local.get	6
	local.get	2
	i32.const	255
	i32.and 
	i32.ne  
	br_if   	1                               # 1: down to label44
.LBB15_2:                               # %join.3
	end_block                               # label45:
	local.get	0
	local.get	1
	local.get	3
	call	gcm__mode__BorrowedGcm__put_tag_so_far____c13ce517942629d6_
	call	aes_cipher__zeroize__stack__wipe_stack____512_
	local.get	1
	call	gcm__message_state__MessageZeroize__zeroize
	i32.const	0
	local.set	4
.LBB15_3:                               # %return.4
	end_block                               # label44:
	local.get	4
                                        # fallthrough-return
	end_function
                                        # -- End function
	.section	.text.gcm__mode__BorrowedGcm__put_tag_so_far____c13ce517942629d6_,"",@
	.type	gcm__mode__BorrowedGcm__put_tag_so_far____c13ce517942629d6_,@function # -- Begin function gcm__mode__BorrowedGcm__put_tag_so_far____c13ce517942629d6_
gcm__mode__BorrowedGcm__put_tag_so_far____c13ce517942629d6_: # @gcm__mode__BorrowedGcm__put_tag_so_far____c13ce517942629d6_
	.functype	gcm__mode__BorrowedGcm__put_tag_so_far____c13ce517942629d6_ (i32, i32, i32) -> ()
	.local  	i32, i64
# %bb.0:                                # %start
	global.get	__stack_pointer
	i32.const	32
	i32.sub 
	local.tee	3
	global.set	__stack_pointer
	local.get	0
	local.get	1
	i32.const	32
	i32.add 
	local.get	2
	call	gcm__tags__put_mask____ed3b81e0963a9ab3_
	local.get	3
	i32.const	16
	i32.add 
	local.get	0
	local.get	1
	call	gcm__mode__BorrowedGcm__hash_so_far____c13ce517942629d6_
	local.get	3
	local.get	0
	i32.const	32
	i32.add 
	local.get	3
	i64.load	16
	local.get	3
	i64.load	24
	local.get	1
	i64.load	0
	local.tee	4
	i64.const	2305843009213693951
	local.get	4
	i64.const	2305843009213693951
	i64.lt_u
	i64.select
	local.get	1
	i32.const	8
	i32.add 
	i64.load	0
	local.tee	4
	i64.const	68719476704
	local.get	4
	i64.const	68719476704
	i64.lt_u
	i64.select
	call	gcm__tags__hash_lengths____84904cd934dcda78_
	local.get	3
	i64.load	0
	local.get	3
	i64.load	8
	local.get	2
	call	gcm__tags__add_masked
	local.get	3
	i32.const	32
	i32.add 
	global.set	__stack_pointer
                                        # fallthrough-return
	end_function
                                        # -- End function
	.section	.text.gcm__tags__put_mask____ed3b81e0963a9ab3_,"",@
	.type	gcm__tags__put_mask____ed3b81e0963a9ab3_,@function # -- Begin function gcm__tags__put_mask____ed3b81e0963a9ab3_
gcm__tags__put_mask____ed3b81e0963a9ab3_: # @gcm__tags__put_mask____ed3b81e0963a9ab3_
	.functype	gcm__tags__put_mask____ed3b81e0963a9ab3_ (i32, i32, i32) -> ()
	.local  	i32, v128, v128, v128, i64, i64, v128, v128, v128
# %bb.0:                                # %start
	local.get	2
	local.get	1
	v128.load	0:p2align=0
	v128.store	0:p2align=0
	i32.const	16
	local.set	1
	v128.const	0, 1, 28, 29, 45, 44, 49, 48, 39, 38, 59, 58, 10, 11, 22, 23
	local.get	0
	i32.const	16
	i32.add 
	i32.load	0:p2align=0
	local.tee	3
	v128.load	0:p2align=0
	local.get	2
	v128.load	0:p2align=0
	v128.xor
	local.tee	4
	v128.const	15, 15, 15, 15, 15, 15, 15, 15, 15, 15, 15, 15, 15, 15, 15, 15
	local.tee	5
	v128.and
	i8x16.swizzle
	v128.const	0, 134, 253, 123, 142, 8, 115, 245, 119, 241, 138, 12, 249, 127, 4, 130
	local.get	4
	i32.const	4
	i8x16.shr_u
	i8x16.swizzle
	v128.xor
	local.set	6
	block   	
	local.get	0
	i32.const	24
	i32.add 
	i64.load	0:p2align=0
	local.tee	7
	i64.const	-1
	i64.add 
	local.tee	8
	i64.const	2
	i64.lt_u
	br_if   	0                               # 0: down to label46
# %bb.1:                                # %join.5.i.preheader
	local.get	7
	i64.const	-2
	i64.add 
	local.set	7
.LBB17_2:                               # %join.5.i
                                        # =>This Inner Loop Header: Depth=1
	loop    	                                # label47:
	local.get	3
	local.get	1
	i32.add 
	v128.load	0:p2align=0
	v128.const	0, 209, 229, 247, 230, 37, 18, 195, 38, 192, 55, 210, 244, 3, 17, 52
	v128.const	128, 1, 9, 14, 13, 11, 7, 6, 15, 2, 12, 5, 10, 4, 3, 8
	local.tee	4
	local.get	4
	local.get	6
	i32.const	4
	i8x16.shr_u
	local.tee	9
	local.get	6
	local.get	5
	v128.and
	local.tee	6
	v128.xor
	local.tee	10
	i8x16.swizzle
	v128.const	128, 2, 1, 15, 9, 5, 14, 12, 13, 4, 11, 10, 7, 8, 6, 3
	local.get	6
	i8x16.swizzle
	local.tee	6
	v128.xor
	i8x16.swizzle
	local.get	9
	v128.xor
	local.tee	11
	i8x16.swizzle
	v128.const	0, 124, 32, 207, 146, 1, 239, 147, 179, 33, 238, 206, 125, 178, 93, 92
	local.get	4
	local.get	4
	local.get	9
	i8x16.swizzle
	local.get	6
	v128.xor
	i8x16.swizzle
	local.get	10
	v128.xor
	local.tee	4
	i8x16.swizzle
	v128.xor
	v128.const	0, 230, 114, 183, 229, 198, 197, 35, 81, 180, 3, 113, 32, 151, 82, 148
	local.get	11
	i8x16.swizzle
	v128.const	0, 195, 79, 12, 252, 124, 67, 128, 207, 51, 63, 112, 191, 179, 240, 140
	local.get	4
	i8x16.swizzle
	v128.xor
	local.tee	4
	local.get	1
	i32.const	48
	i32.and 
	local.tee	0
	v128.load	.Lstatic.5:p2align=0
	local.tee	6
	i8x16.swizzle
	v128.xor
	local.tee	9
	local.get	6
	i8x16.swizzle
	v128.xor
	local.get	4
	local.get	0
	v128.load	.Lstatic.6:p2align=0
	i8x16.swizzle
	v128.xor
	local.get	9
	v128.xor
	local.set	6
	local.get	1
	i32.const	16
	i32.add 
	local.set	1
	local.get	7
	i64.const	-1
	i64.add 
	local.tee	7
	i64.const	0
	i64.ne  
	br_if   	0                               # 0: up to label47
.LBB17_3:                               # %aes_permute__blocks__process_vector____06aaae76f5856d0a_.exit
	end_loop
	end_block                               # label46:
	local.get	2
	v128.const	0, 159, 97, 22, 194, 42, 119, 232, 137, 75, 93, 60, 181, 163, 212, 254
	v128.const	128, 1, 9, 14, 13, 11, 7, 6, 15, 2, 12, 5, 10, 4, 3, 8
	local.tee	4
	local.get	4
	local.get	6
	i32.const	4
	i8x16.shr_u
	local.tee	9
	local.get	6
	local.get	5
	v128.and
	local.tee	6
	v128.xor
	local.tee	10
	i8x16.swizzle
	v128.const	128, 2, 1, 15, 9, 5, 14, 12, 13, 4, 11, 10, 7, 8, 6, 3
	local.get	6
	i8x16.swizzle
	local.tee	6
	v128.xor
	i8x16.swizzle
	local.get	9
	v128.xor
	i8x16.swizzle
	v128.const	0, 203, 215, 176, 33, 141, 103, 172, 123, 90, 234, 61, 70, 246, 145, 28
	local.get	4
	local.get	4
	local.get	9
	i8x16.swizzle
	local.get	6
	v128.xor
	i8x16.swizzle
	local.get	10
	v128.xor
	i8x16.swizzle
	v128.xor
	local.get	8
	i32.wrap_i64
	i32.const	4
	i32.shl 
	local.tee	1
	i32.const	48
	i32.and 
	v128.load	.Lstatic.3:p2align=0
	i8x16.swizzle
	local.get	3
	local.get	1
	i32.add 
	v128.load	0:p2align=0
	v128.xor
	v128.store	0:p2align=0
                                        # fallthrough-return
	end_function
                                        # -- End function
	.section	.text.gcm__mode__BorrowedGcm__hash_so_far____c13ce517942629d6_,"",@
	.type	gcm__mode__BorrowedGcm__hash_so_far____c13ce517942629d6_,@function # -- Begin function gcm__mode__BorrowedGcm__hash_so_far____c13ce517942629d6_
gcm__mode__BorrowedGcm__hash_so_far____c13ce517942629d6_: # @gcm__mode__BorrowedGcm__hash_so_far____c13ce517942629d6_
	.functype	gcm__mode__BorrowedGcm__hash_so_far____c13ce517942629d6_ (i32, i32, i32) -> ()
	.local  	i32, i64
# %bb.0:                                # %start
	global.get	__stack_pointer
	i32.const	16
	i32.sub 
	local.tee	3
	global.set	__stack_pointer
	local.get	3
	local.get	1
	i32.const	32
	i32.add 
	i32.load	0
	local.get	2
	i32.const	56
	i32.add 
	i64.load	0
	local.tee	4
	i64.const	56
	i64.shl 
	local.get	4
	i64.const	65280
	i64.and 
	i64.const	40
	i64.shl 
	i64.or  
	local.get	4
	i64.const	16711680
	i64.and 
	i64.const	24
	i64.shl 
	local.get	4
	i64.const	4278190080
	i64.and 
	i64.const	8
	i64.shl 
	i64.or  
	i64.or  
	local.get	4
	i64.const	8
	i64.shr_u
	i64.const	4278190080
	i64.and 
	local.get	4
	i64.const	24
	i64.shr_u
	i64.const	16711680
	i64.and 
	i64.or  
	local.get	4
	i64.const	40
	i64.shr_u
	i64.const	65280
	i64.and 
	local.get	4
	i64.const	56
	i64.shr_u
	i64.or  
	i64.or  
	i64.or  
	local.get	2
	i32.const	48
	i32.add 
	i64.load	0
	local.tee	4
	i64.const	56
	i64.shl 
	local.get	4
	i64.const	65280
	i64.and 
	i64.const	40
	i64.shl 
	i64.or  
	local.get	4
	i64.const	16711680
	i64.and 
	i64.const	24
	i64.shl 
	local.get	4
	i64.const	4278190080
	i64.and 
	i64.const	8
	i64.shl 
	i64.or  
	i64.or  
	local.get	4
	i64.const	8
	i64.shr_u
	i64.const	4278190080
	i64.and 
	local.get	4
	i64.const	24
	i64.shr_u
	i64.const	16711680
	i64.and 
	i64.or  
	local.get	4
	i64.const	40
	i64.shr_u
	i64.const	65280
	i64.and 
	local.get	4
	i64.const	56
	i64.shr_u
	i64.or  
	i64.or  
	i64.or  
	local.get	2
	i32.const	64
	i32.add 
	local.get	2
	i32.const	0
	i32.const	8
	local.get	2
	i32.const	24
	i32.add 
	i64.load	0
	i64.const	1
	i64.eq  
	i32.select
	i32.add 
	i64.load	0
	i64.const	15
	i64.and 
	call	gcm__hash_room__MultiplesRoomHashRoom__hash_on
	local.get	0
	local.get	3
	v128.load	0
	v128.store	0
	local.get	3
	i32.const	16
	i32.add 
	global.set	__stack_pointer
                                        # fallthrough-return
	end_function
                                        # -- End function
	.section	.text.gcm__tags__add_masked,"",@
	.type	gcm__tags__add_masked,@function # -- Begin function gcm__tags__add_masked
gcm__tags__add_masked:                  # @gcm__tags__add_masked
	.functype	gcm__tags__add_masked (i64, i64, i32) -> ()
	.local  	v128
# %bb.0:                                # %start
	local.get	2
	local.get	2
	v128.load	0:p2align=0
	local.get	0
	i64x2.splat
	local.get	1
	i64x2.replace_lane	1
	local.get	3
	i8x16.shuffle	15, 14, 13, 12, 11, 10, 9, 8, 7, 6, 5, 4, 3, 2, 1, 0
	v128.xor
	v128.store	0:p2align=0
                                        # fallthrough-return
	end_function
                                        # -- End function
	.section	.text.gcm_c__kept__prepare_multiples,"",@
	.type	gcm_c__kept__prepare_multiples,@function # -- Begin function gcm_c__kept__prepare_multiples
gcm_c__kept__prepare_multiples:         # @gcm_c__kept__prepare_multiples
	.functype	gcm_c__kept__prepare_multiples (i32) -> ()
	.local  	i32, i32, i64
# %bb.0:                                # %start
	global.get	__stack_pointer
	i32.const	32
	i32.sub 
	local.tee	1
	global.set	__stack_pointer
	local.get	1
	i32.const	0
	i32.store	20
	local.get	1
	i32.const	0
	i32.store	4
	local.get	1
	local.get	0
	i32.const	4
	i32.add 
	local.tee	2
	i32.store	16
	local.get	1
	local.get	2
	i32.store	0
	local.get	1
	local.get	0
	i32.load	0
	i32.const	2
	i32.shr_u
	i32.const	7
	i32.add 
	i64.extend_i32_u
	local.tee	3
	i64.store	24
	local.get	1
	local.get	3
	i64.store	8
	local.get	1
	local.get	0
	i32.const	244
	i32.add 
	call	gcm__mode__put_subkey____a407e1eb9411991d_
	call	aes_cipher__zeroize__stack__wipe_stack____512_
	local.get	1
	i32.const	32
	i32.add 
	global.set	__stack_pointer
                                        # fallthrough-return
	end_function
                                        # -- End function
	.section	.text.gcm__mode__put_subkey____a407e1eb9411991d_,"",@
	.type	gcm__mode__put_subkey____a407e1eb9411991d_,@function # -- Begin function gcm__mode__put_subkey____a407e1eb9411991d_
gcm__mode__put_subkey____a407e1eb9411991d_: # @gcm__mode__put_subkey____a407e1eb9411991d_
	.functype	gcm__mode__put_subkey____a407e1eb9411991d_ (i32, i32) -> ()
	.local  	i32, i32, i32, v128, v128, v128, i64, i64, v128, v128, v128
# %bb.0:                                # %start
	global.get	__stack_pointer
	i32.const	16
	i32.sub 
	local.tee	2
	global.set	__stack_pointer
	local.get	2
	v128.const	0, 0
	v128.store	0
	i32.const	16
	local.set	3
	v128.const	0, 1, 28, 29, 45, 44, 49, 48, 39, 38, 59, 58, 10, 11, 22, 23
	local.get	0
	i32.const	16
	i32.add 
	i32.load	0:p2align=0
	local.tee	4
	v128.load	0:p2align=0
	local.tee	5
	v128.const	15, 15, 15, 15, 15, 15, 15, 15, 15, 15, 15, 15, 15, 15, 15, 15
	local.tee	6
	v128.and
	i8x16.swizzle
	v128.const	0, 134, 253, 123, 142, 8, 115, 245, 119, 241, 138, 12, 249, 127, 4, 130
	local.get	5
	i32.const	4
	i8x16.shr_u
	i8x16.swizzle
	v128.xor
	local.set	7
	block   	
	local.get	0
	i32.const	24
	i32.add 
	i64.load	0:p2align=0
	local.tee	8
	i64.const	-1
	i64.add 
	local.tee	9
	i64.const	2
	i64.lt_u
	br_if   	0                               # 0: down to label48
# %bb.1:                                # %join.5.i.preheader
	local.get	8
	i64.const	-2
	i64.add 
	local.set	8
.LBB21_2:                               # %join.5.i
                                        # =>This Inner Loop Header: Depth=1
	loop    	                                # label49:
	local.get	4
	local.get	3
	i32.add 
	v128.load	0:p2align=0
	v128.const	0, 209, 229, 247, 230, 37, 18, 195, 38, 192, 55, 210, 244, 3, 17, 52
	v128.const	128, 1, 9, 14, 13, 11, 7, 6, 15, 2, 12, 5, 10, 4, 3, 8
	local.tee	5
	local.get	5
	local.get	7
	i32.const	4
	i8x16.shr_u
	local.tee	10
	local.get	7
	local.get	6
	v128.and
	local.tee	7
	v128.xor
	local.tee	11
	i8x16.swizzle
	v128.const	128, 2, 1, 15, 9, 5, 14, 12, 13, 4, 11, 10, 7, 8, 6, 3
	local.get	7
	i8x16.swizzle
	local.tee	7
	v128.xor
	i8x16.swizzle
	local.get	10
	v128.xor
	local.tee	12
	i8x16.swizzle
	v128.const	0, 124, 32, 207, 146, 1, 239, 147, 179, 33, 238, 206, 125, 178, 93, 92
	local.get	5
	local.get	5
	local.get	10
	i8x16.swizzle
	local.get	7
	v128.xor
	i8x16.swizzle
	local.get	11
	v128.xor
	local.tee	5
	i8x16.swizzle
	v128.xor
	v128.const	0, 230, 114, 183, 229, 198, 197, 35, 81, 180, 3, 113, 32, 151, 82, 148
	local.get	12
	i8x16.swizzle
	v128.const	0, 195, 79, 12, 252, 124, 67, 128, 207, 51, 63, 112, 191, 179, 240, 140
	local.get	5
	i8x16.swizzle
	v128.xor
	local.tee	5
	local.get	3
	i32.const	48
	i32.and 
	local.tee	0
	v128.load	.Lstatic.5:p2align=0
	local.tee	7
	i8x16.swizzle
	v128.xor
	local.tee	10
	local.get	7
	i8x16.swizzle
	v128.xor
	local.get	5
	local.get	0
	v128.load	.Lstatic.6:p2align=0
	i8x16.swizzle
	v128.xor
	local.get	10
	v128.xor
	local.set	7
	local.get	3
	i32.const	16
	i32.add 
	local.set	3
	local.get	8
	i64.const	-1
	i64.add 
	local.tee	8
	i64.const	0
	i64.ne  
	br_if   	0                               # 0: up to label49
.LBB21_3:                               # %aes_permute__blocks__process_vector____06aaae76f5856d0a_.exit
	end_loop
	end_block                               # label48:
	local.get	2
	v128.const	0, 159, 97, 22, 194, 42, 119, 232, 137, 75, 93, 60, 181, 163, 212, 254
	v128.const	128, 1, 9, 14, 13, 11, 7, 6, 15, 2, 12, 5, 10, 4, 3, 8
	local.tee	5
	local.get	5
	local.get	7
	i32.const	4
	i8x16.shr_u
	local.tee	10
	local.get	7
	local.get	6
	v128.and
	local.tee	7
	v128.xor
	local.tee	11
	i8x16.swizzle
	v128.const	128, 2, 1, 15, 9, 5, 14, 12, 13, 4, 11, 10, 7, 8, 6, 3
	local.get	7
	i8x16.swizzle
	local.tee	7
	v128.xor
	i8x16.swizzle
	local.get	10
	v128.xor
	i8x16.swizzle
	v128.const	0, 203, 215, 176, 33, 141, 103, 172, 123, 90, 234, 61, 70, 246, 145, 28
	local.get	5
	local.get	5
	local.get	10
	i8x16.swizzle
	local.get	7
	v128.xor
	i8x16.swizzle
	local.get	11
	v128.xor
	i8x16.swizzle
	v128.xor
	local.get	9
	i32.wrap_i64
	i32.const	4
	i32.shl 
	local.tee	3
	i32.const	48
	i32.and 
	v128.load	.Lstatic.3:p2align=0
	i8x16.swizzle
	local.get	4
	local.get	3
	i32.add 
	v128.load	0:p2align=0
	v128.xor
	v128.store	0
	local.get	1
	local.get	2
	i64.load	8
	local.tee	8
	i64.const	56
	i64.shl 
	local.get	8
	i64.const	65280
	i64.and 
	i64.const	40
	i64.shl 
	i64.or  
	local.get	8
	i64.const	16711680
	i64.and 
	i64.const	24
	i64.shl 
	local.get	8
	i64.const	4278190080
	i64.and 
	i64.const	8
	i64.shl 
	i64.or  
	i64.or  
	local.get	8
	i64.const	8
	i64.shr_u
	i64.const	4278190080
	i64.and 
	local.get	8
	i64.const	24
	i64.shr_u
	i64.const	16711680
	i64.and 
	i64.or  
	local.get	8
	i64.const	40
	i64.shr_u
	i64.const	65280
	i64.and 
	local.get	8
	i64.const	56
	i64.shr_u
	i64.or  
	i64.or  
	i64.or  
	local.get	2
	i64.load	0
	local.tee	8
	i64.const	56
	i64.shl 
	local.get	8
	i64.const	65280
	i64.and 
	i64.const	40
	i64.shl 
	i64.or  
	local.get	8
	i64.const	16711680
	i64.and 
	i64.const	24
	i64.shl 
	local.get	8
	i64.const	4278190080
	i64.and 
	i64.const	8
	i64.shl 
	i64.or  
	i64.or  
	local.get	8
	i64.const	8
	i64.shr_u
	i64.const	4278190080
	i64.and 
	local.get	8
	i64.const	24
	i64.shr_u
	i64.const	16711680
	i64.and 
	i64.or  
	local.get	8
	i64.const	40
	i64.shr_u
	i64.const	65280
	i64.and 
	local.get	8
	i64.const	56
	i64.shr_u
	i64.or  
	i64.or  
	i64.or  
	call	gcm__multiples__put_multiples
	local.get	2
	call	aes_cipher__zeroize__elements__zeroize_elements____3b2097f0eef5a37b_
	local.get	2
	i32.const	16
	i32.add 
	global.set	__stack_pointer
                                        # fallthrough-return
	end_function
                                        # -- End function
	.section	.text.gcm__multiples__put_multiples,"",@
	.type	gcm__multiples__put_multiples,@function # -- Begin function gcm__multiples__put_multiples
gcm__multiples__put_multiples:          # @gcm__multiples__put_multiples
	.functype	gcm__multiples__put_multiples (i32, i64, i64) -> ()
	.local  	i32, i64, i64
# %bb.0:                                # %start
	global.get	__stack_pointer
	i32.const	32
	i32.sub 
	local.tee	3
	global.set	__stack_pointer
	local.get	0
	local.get	1
	local.get	2
	call	gcm__multiples__put_table
	local.get	3
	i32.const	16
	i32.add 
	local.get	0
	local.get	1
	local.get	2
	call	gcm__multiples__next_power
	local.get	3
	local.get	0
	local.get	3
	i64.load	16
	local.tee	2
	local.get	3
	i64.load	24
	local.tee	1
	call	gcm__multiples__next_power
	local.get	3
	i64.load	8
	local.set	4
	local.get	3
	i64.load	0
	local.set	5
	local.get	0
	i32.const	512
	i32.add 
	local.get	2
	local.get	1
	call	gcm__multiples__put_table
	local.get	0
	i32.const	1024
	i32.add 
	local.get	5
	local.get	4
	call	gcm__multiples__put_table
	local.get	3
	i32.const	32
	i32.add 
	global.set	__stack_pointer
                                        # fallthrough-return
	end_function
                                        # -- End function
	.section	.text.gcm__multiples__next_power,"",@
	.type	gcm__multiples__next_power,@function # -- Begin function gcm__multiples__next_power
gcm__multiples__next_power:             # @gcm__multiples__next_power
	.functype	gcm__multiples__next_power (i32, i32, i64, i64) -> ()
	.local  	v128, v128, v128, v128, v128, v128, v128, v128, i32, i32, i32, v128, i64
# %bb.0:                                # %start
	local.get	1
	i32.const	496
	i32.add 
	local.set	1
	local.get	2
	i64x2.splat
	local.get	3
	i64x2.replace_lane	1
	local.get	4
	i8x16.shuffle	15, 14, 13, 12, 11, 10, 9, 8, 7, 6, 5, 4, 3, 2, 1, 0
	local.tee	4
	i32.const	4
	i8x16.shr_u
	local.set	5
	local.get	4
	v128.const	15, 15, 15, 15, 15, 15, 15, 15, 15, 15, 15, 15, 15, 15, 15, 15
	v128.and
	local.set	6
	i64.const	8
	local.set	2
	v128.const	0, 0, 0, 0, 0, 0, 0, 0, 0, 0, 0, 0, 0, 0, 0, 0
	local.tee	7
	local.set	8
	local.get	7
	local.set	9
	local.get	7
	local.set	4
	local.get	7
	local.set	10
.LBB23_1:                               # %join.5.i
                                        # =>This Inner Loop Header: Depth=1
	loop    	                                # label50:
	local.get	1
	v128.load	0:p2align=0
	local.set	11
	local.get	1
	i32.const	-256
	i32.add 
	local.set	12
	local.get	1
	i32.const	-16
	i32.add 
	local.set	13
	local.get	1
	i32.const	-272
	i32.add 
	local.set	14
	local.get	4
	local.get	8
	i8x16.shuffle	15, 16, 17, 18, 19, 20, 21, 22, 23, 24, 25, 26, 27, 28, 29, 30
	local.set	8
	local.get	1
	i32.const	-32
	i32.add 
	local.set	1
	local.get	10
	local.get	9
	i8x16.shuffle	15, 16, 17, 18, 19, 20, 21, 22, 23, 24, 25, 26, 27, 28, 29, 30
	local.set	9
	local.get	14
	v128.load	0:p2align=0
	local.get	5
	i8x16.swizzle
	local.get	13
	v128.load	0:p2align=0
	local.get	6
	i8x16.swizzle
	v128.xor
	local.get	7
	local.get	4
	i8x16.shuffle	0, 16, 17, 18, 19, 20, 21, 22, 23, 24, 25, 26, 27, 28, 29, 30
	v128.xor
	local.tee	15
	local.set	4
	local.get	12
	v128.load	0:p2align=0
	local.get	5
	i8x16.swizzle
	local.get	11
	local.get	6
	i8x16.swizzle
	v128.xor
	local.get	7
	local.get	10
	i8x16.shuffle	0, 16, 17, 18, 19, 20, 21, 22, 23, 24, 25, 26, 27, 28, 29, 30
	v128.xor
	local.tee	11
	local.set	10
	local.get	2
	i64.const	-1
	i64.add 
	local.tee	2
	i64.const	0
	i64.ne  
	br_if   	0                               # 0: up to label50
# %bb.2:                                # %gcm__multiples__shifted_sum____29e205ae42dcf28f_.exit
	end_loop
	local.get	0
	v128.const	0, 0, 0, 0, 0, 0, 0, 0, 0, 0, 0, 0, 0, 0, 0, 0
	local.get	11
	i8x16.shuffle	0, 1, 2, 3, 4, 5, 6, 7, 16, 17, 18, 19, 20, 21, 22, 23
	local.get	15
	v128.xor
	local.get	11
	local.get	9
	i8x16.shuffle	8, 9, 10, 11, 12, 13, 14, 15, 16, 17, 18, 19, 20, 21, 22, 23
	local.get	8
	v128.xor
	local.tee	4
	i64x2.extract_lane	1
	local.tee	2
	i64.const	56
	i64.shl 
	local.get	2
	i64.const	65280
	i64.and 
	i64.const	40
	i64.shl 
	i64.or  
	local.get	2
	i64.const	16711680
	i64.and 
	i64.const	24
	i64.shl 
	local.get	2
	i64.const	4278190080
	i64.and 
	i64.const	8
	i64.shl 
	i64.or  
	i64.or  
	local.get	2
	i64.const	8
	i64.shr_u
	i64.const	4278190080
	i64.and 
	local.get	2
	i64.const	24
	i64.shr_u
	i64.const	16711680
	i64.and 
	i64.or  
	local.get	2
	i64.const	40
	i64.shr_u
	i64.const	65280
	i64.and 
	local.get	2
	i64.const	56
	i64.shr_u
	i64.or  
	i64.or  
	i64.or  
	local.tee	3
	i64.const	2
	i64.shr_u
	local.get	4
	i64x2.extract_lane	0
	local.tee	2
	i64.const	56
	i64.shr_u
	local.tee	16
	i64.const	62
	i64.shl 
	i64.or  
	local.get	3
	i64.const	1
	i64.shr_u
	local.get	16
	i64.const	63
	i64.shl 
	i64.or  
	i64.xor 
	local.get	3
	i64.const	7
	i64.shr_u
	local.get	16
	i64.const	57
	i64.shl 
	i64.or  
	i64.xor 
	local.get	3
	i64.xor 
	i64x2.splat
	local.get	2
	i64.const	56
	i64.shl 
	local.get	2
	i64.const	65280
	i64.and 
	i64.const	40
	i64.shl 
	i64.or  
	local.get	2
	i64.const	16711680
	i64.and 
	i64.const	24
	i64.shl 
	local.get	2
	i64.const	4278190080
	i64.and 
	i64.const	8
	i64.shl 
	i64.or  
	i64.or  
	local.get	2
	i64.const	8
	i64.shr_u
	i64.const	4278190080
	i64.and 
	local.get	2
	i64.const	24
	i64.shr_u
	i64.const	16711680
	i64.and 
	i64.or  
	local.get	2
	i64.const	40
	i64.shr_u
	i64.const	65280
	i64.and 
	local.get	16
	i64.or  
	i64.or  
	i64.or  
	local.tee	2
	i64.const	2
	i64.shr_u
	local.get	2
	i64.const	1
	i64.shr_u
	i64.xor 
	local.get	2
	i64.const	7
	i64.shr_u
	i64.xor 
	local.get	2
	i64.xor 
	i64x2.replace_lane	1
	local.get	4
	i8x16.shuffle	15, 14, 13, 12, 11, 10, 9, 8, 7, 6, 5, 4, 3, 2, 1, 0
	v128.xor
	local.tee	4
	i64x2.extract_lane	0
	local.tee	2
	i64.const	56
	i64.shl 
	local.get	2
	i64.const	65280
	i64.and 
	i64.const	40
	i64.shl 
	i64.or  
	local.get	2
	i64.const	16711680
	i64.and 
	i64.const	24
	i64.shl 
	local.get	2
	i64.const	4278190080
	i64.and 
	i64.const	8
	i64.shl 
	i64.or  
	i64.or  
	local.get	2
	i64.const	8
	i64.shr_u
	i64.const	4278190080
	i64.and 
	local.get	2
	i64.const	24
	i64.shr_u
	i64.const	16711680
	i64.and 
	i64.or  
	local.get	2
	i64.const	40
	i64.shr_u
	i64.const	65280
	i64.and 
	local.get	2
	i64.const	56
	i64.shr_u
	i64.or  
	i64.or  
	i64.or  
	i64.store	8
	local.get	0
	local.get	4
	i64x2.extract_lane	1
	local.tee	2
	i64.const	56
	i64.shl 
	local.get	2
	i64.const	65280
	i64.and 
	i64.const	40
	i64.shl 
	i64.or  
	local.get	2
	i64.const	16711680
	i64.and 
	i64.const	24
	i64.shl 
	local.get	2
	i64.const	4278190080
	i64.and 
	i64.const	8
	i64.shl 
	i64.or  
	i64.or  
	local.get	2
	i64.const	8
	i64.shr_u
	i64.const	4278190080
	i64.and 
	local.get	2
	i64.const	24
	i64.shr_u
	i64.const	16711680
	i64.and 
	i64.or  
	local.get	2
	i64.const	40
	i64.shr_u
	i64.const	65280
	i64.and 
	local.get	2
	i64.const	56
	i64.shr_u
	i64.or  
	i64.or  
	i64.or  
	i64.store	0
                                        # fallthrough-return
	end_function
                                        # -- End function
	.section	.text.gcm__multiples__put_table,"",@
	.type	gcm__multiples__put_table,@function # -- Begin function gcm__multiples__put_table
gcm__multiples__put_table:              # @gcm__multiples__put_table
	.functype	gcm__multiples__put_table (i32, i64, i64) -> ()
	.local  	i64, i64, i64, i64, v128, v128, v128, v128, v128, i32, i32, v128, v128, v128, v128
# %bb.0:                                # %start
	i64.const	0
	local.set	3
	local.get	1
	i64.const	1
	i64.shr_u
	local.get	2
	i64.const	63
	i64.shl 
	i64.or  
	local.tee	4
	i64x2.splat
	i64.const	0
	local.get	1
	i64.const	1
	i64.and 
	i64.sub 
	i64.const	-2233785415175766016
	i64.and 
	local.get	2
	i64.const	1
	i64.shr_u
	local.tee	5
	i64.xor 
	local.tee	6
	i64x2.replace_lane	1
	local.get	8
	i8x16.shuffle	15, 14, 13, 12, 11, 10, 9, 8, 7, 6, 5, 4, 3, 2, 1, 0
	local.set	7
	local.get	4
	i64.const	1
	i64.shr_u
	local.get	5
	i64.const	63
	i64.shl 
	i64.or  
	local.tee	4
	i64x2.splat
	local.get	6
	i64.const	1
	i64.shr_u
	local.tee	5
	local.get	1
	i64.const	62
	i64.shl 
	i64.const	63
	i64.shr_s
	i64.const	-2233785415175766016
	i64.and 
	i64.xor 
	local.tee	6
	i64x2.replace_lane	1
	local.get	8
	i8x16.shuffle	15, 14, 13, 12, 11, 10, 9, 8, 7, 6, 5, 4, 3, 2, 1, 0
	local.set	9
	local.get	4
	i64.const	1
	i64.shr_u
	local.get	5
	i64.const	63
	i64.shl 
	i64.or  
	i64x2.splat
	local.get	6
	i64.const	1
	i64.shr_u
	local.get	1
	i64.const	61
	i64.shl 
	i64.const	63
	i64.shr_s
	i64.const	-2233785415175766016
	i64.and 
	i64.xor 
	i64x2.replace_lane	1
	local.get	8
	i8x16.shuffle	15, 14, 13, 12, 11, 10, 9, 8, 7, 6, 5, 4, 3, 2, 1, 0
	local.set	10
	local.get	1
	i64x2.splat
	local.get	2
	i64x2.replace_lane	1
	local.get	8
	i8x16.shuffle	15, 14, 13, 12, 11, 10, 9, 8, 7, 6, 5, 4, 3, 2, 1, 0
	local.set	11
	local.get	0
	local.set	12
.LBB24_1:                               # %join.5.i500
                                        # =>This Inner Loop Header: Depth=1
	loop    	                                # label51:
	local.get	12
	local.get	11
	local.get	3
	i32.wrap_i64
	local.tee	13
	i8x16.splat
	local.tee	8
	v128.const	128, 128, 128, 128, 128, 128, 128, 128, 0, 0, 0, 0, 0, 0, 0, 0
	local.tee	14
	v128.or
	i8x16.swizzle
	local.get	7
	local.get	8
	v128.const	128, 128, 128, 128, 0, 0, 0, 0, 128, 128, 128, 128, 0, 0, 0, 0
	local.tee	15
	v128.or
	i8x16.swizzle
	v128.xor
	local.get	9
	local.get	8
	v128.const	128, 128, 0, 0, 128, 128, 0, 0, 128, 128, 0, 0, 128, 128, 0, 0
	local.tee	16
	v128.or
	i8x16.swizzle
	v128.xor
	local.get	10
	local.get	8
	v128.const	128, 0, 128, 0, 128, 0, 128, 0, 128, 0, 128, 0, 128, 0, 128, 0
	local.tee	17
	v128.or
	i8x16.swizzle
	v128.xor
	v128.store	0:p2align=0
	local.get	12
	i32.const	16
	i32.add 
	local.get	11
	local.get	13
	i32.const	8
	i32.or  
	i8x16.splat
	local.tee	8
	local.get	14
	v128.or
	i8x16.swizzle
	local.get	7
	local.get	8
	local.get	15
	v128.or
	i8x16.swizzle
	v128.xor
	local.get	9
	local.get	8
	local.get	16
	v128.or
	i8x16.swizzle
	v128.xor
	local.get	10
	local.get	8
	local.get	17
	v128.or
	i8x16.swizzle
	v128.xor
	v128.store	0:p2align=0
	local.get	12
	i32.const	32
	i32.add 
	local.set	12
	local.get	3
	i64.const	1
	i64.add 
	local.tee	3
	i64.const	8
	i64.ne  
	br_if   	0                               # 0: up to label51
# %bb.2:                                # %gcm__multiples__put_rows.exit
	end_loop
	local.get	0
	i32.const	272
	i32.add 
	local.get	0
	v128.load	224:p2align=0
	i32.const	4
	i8x16.shl
	local.get	0
	i32.const	16
	i32.add 
	v128.load	0:p2align=0
	local.tee	8
	i32.const	4
	i8x16.shr_u
	v128.or
	v128.store	0:p2align=0
	local.get	0
	i32.const	256
	i32.add 
	local.get	0
	v128.load	0:p2align=0
	local.tee	7
	i32.const	4
	i8x16.shr_u
	v128.const	0, 28, 56, 36, 112, 108, 72, 84, 225, 253, 217, 197, 145, 141, 169, 181
	local.get	0
	v128.load	240:p2align=0
	v128.const	15, 15, 15, 15, 15, 15, 15, 15, 15, 15, 15, 15, 15, 15, 15, 15
	v128.and
	local.tee	9
	i8x16.swizzle
	v128.xor
	v128.store	0:p2align=0
	local.get	0
	i32.const	304
	i32.add 
	local.get	8
	i32.const	4
	i8x16.shl
	local.get	0
	i32.const	48
	i32.add 
	v128.load	0:p2align=0
	i32.const	4
	i8x16.shr_u
	v128.or
	v128.store	0:p2align=0
	local.get	0
	i32.const	288
	i32.add 
	local.get	7
	i32.const	4
	i8x16.shl
	local.get	0
	i32.const	32
	i32.add 
	v128.load	0:p2align=0
	i32.const	4
	i8x16.shr_u
	v128.or
	v128.const	0, 32, 64, 96, 128, 160, 192, 224, 0, 32, 64, 96, 128, 160, 192, 224
	local.get	9
	i8x16.swizzle
	v128.xor
	v128.store	0:p2align=0
	local.get	0
	i32.const	320
	i32.add 
	local.set	12
	i64.const	6
	local.set	3
.LBB24_3:                               # %join.5.i
                                        # =>This Inner Loop Header: Depth=1
	loop    	                                # label52:
	local.get	12
	i32.const	16
	i32.add 
	local.get	12
	i32.const	-272
	i32.add 
	v128.load	0:p2align=0
	i32.const	4
	i8x16.shl
	local.get	12
	i32.const	-240
	i32.add 
	v128.load	0:p2align=0
	i32.const	4
	i8x16.shr_u
	v128.or
	v128.store	0:p2align=0
	local.get	12
	local.get	12
	i32.const	-288
	i32.add 
	v128.load	0:p2align=0
	i32.const	4
	i8x16.shl
	local.get	12
	i32.const	-256
	i32.add 
	v128.load	0:p2align=0
	i32.const	4
	i8x16.shr_u
	v128.or
	v128.store	0:p2align=0
	local.get	12
	i32.const	32
	i32.add 
	local.set	12
	local.get	3
	i64.const	-1
	i64.add 
	local.tee	3
	i64.const	0
	i64.ne  
	br_if   	0                               # 0: up to label52
# %bb.4:                                # %gcm__moved_rows__put_moved_rows.exit
	end_loop
                                        # fallthrough-return
	end_function
                                        # -- End function
	.section	.text.gcm__mode__BorrowedGcm__compare____c13ce517942629d6_,"",@
	.type	gcm__mode__BorrowedGcm__compare____c13ce517942629d6_,@function # -- Begin function gcm__mode__BorrowedGcm__compare____c13ce517942629d6_
gcm__mode__BorrowedGcm__compare____c13ce517942629d6_: # @gcm__mode__BorrowedGcm__compare____c13ce517942629d6_
	.functype	gcm__mode__BorrowedGcm__compare____c13ce517942629d6_ (i32, i32, i64, i32, i64, i32, i64, i32, i32) -> (i32)
	.local  	i32
# %bb.0:                                # %start
	global.get	__stack_pointer
	i32.const	16
	i32.sub 
	local.tee	9
	global.set	__stack_pointer
	block   	
	block   	
	local.get	2
	i64.eqz
	i32.eqz
	br_if   	0                               # 0: down to label54
# %bb.1:
	i32.const	1
	local.set	8
	br      	1                               # 1: down to label53
.LBB25_2:                               # %else.7
	end_block                               # label54:
	local.get	0
	local.get	1
	local.get	2
	local.get	8
	call	gcm__mode__BorrowedGcm__put_pre_counter____c13ce517942629d6_
	local.get	0
	local.get	8
	local.get	3
	local.get	4
	local.get	5
	local.get	6
	local.get	9
	call	gcm__mode__BorrowedGcm__put_tag____c13ce517942629d6_
	local.get	7
	local.get	9
	call	aes_cipher__blocks__difference
	i32.const	0
	i32.ne  
	local.set	8
	local.get	9
	call	aes_cipher__zeroize__elements__zeroize_elements____3b2097f0eef5a37b_
.LBB25_3:                               # %return.13
	end_block                               # label53:
	local.get	9
	i32.const	16
	i32.add 
	global.set	__stack_pointer
	local.get	8
                                        # fallthrough-return
	end_function
                                        # -- End function
	.section	.text.gcm__mode__BorrowedGcm__put_tag____c13ce517942629d6_,"",@
	.type	gcm__mode__BorrowedGcm__put_tag____c13ce517942629d6_,@function # -- Begin function gcm__mode__BorrowedGcm__put_tag____c13ce517942629d6_
gcm__mode__BorrowedGcm__put_tag____c13ce517942629d6_: # @gcm__mode__BorrowedGcm__put_tag____c13ce517942629d6_
	.functype	gcm__mode__BorrowedGcm__put_tag____c13ce517942629d6_ (i32, i32, i32, i64, i32, i64, i32) -> ()
	.local  	i32, v128, v128, i64, v128, i64, i32
# %bb.0:                                # %start
	global.get	__stack_pointer
	i32.const	160
	i32.sub 
	local.tee	7
	global.set	__stack_pointer
	local.get	0
	local.get	1
	local.get	6
	call	gcm__tags__put_mask____ed3b81e0963a9ab3_
	local.get	7
	local.get	0
	i32.const	32
	i32.add 
	local.tee	0
	i32.load	0
	i64.const	0
	i64.const	0
	local.get	2
	local.get	3
	call	gcm__hash_room__MultiplesRoomHashRoom__hash_on
	local.get	7
	v128.load	0
	local.set	8
	local.get	7
	i32.const	16
	i32.add 
	local.get	3
	local.get	5
	call	gcm__tags__lengths_of
	local.get	0
	i32.load	0
	local.set	0
	local.get	7
	v128.load	16
	local.set	9
	local.get	7
	i32.const	0
	i32.store	44
	local.get	7
	local.get	0
	i32.store	40
	local.get	7
	local.get	8
	local.get	9
	i8x16.shuffle	15, 14, 13, 12, 11, 10, 9, 8, 7, 6, 5, 4, 3, 2, 1, 0
	local.tee	8
	v128.store	144
	local.get	5
	i32.wrap_i64
	local.tee	1
	i32.const	48
	i32.div_u
	local.tee	2
	i64.extend_i32_u
	local.set	10
	block   	
	local.get	5
	i64.const	48
	i64.lt_u
	br_if   	0                               # 0: down to label55
# %bb.1:                                # %join.5.i.i.i.i.preheader
	local.get	4
	local.set	0
	local.get	10
	local.set	3
.LBB26_2:                               # %join.5.i.i.i.i
                                        # =>This Inner Loop Header: Depth=1
	loop    	                                # label56:
	local.get	7
	local.get	7
	v128.load	144
	local.get	0
	v128.load	0:p2align=0
	v128.xor
	v128.store	128
	local.get	7
	local.get	0
	i32.const	16
	i32.add 
	v128.load	0:p2align=0
	v128.store	112
	local.get	7
	local.get	0
	i32.const	32
	i32.add 
	v128.load	0:p2align=0
	v128.store	96
	local.get	0
	i32.const	48
	i32.add 
	local.set	0
	local.get	7
	i32.const	144
	i32.add 
	local.get	7
	i32.const	40
	i32.add 
	local.get	7
	i32.const	128
	i32.add 
	local.get	7
	i32.const	112
	i32.add 
	local.get	7
	i32.const	96
	i32.add 
	call	gcm__multiples__Multiples__three_products
	local.get	3
	i64.const	-1
	i64.add 
	local.tee	3
	i64.const	0
	i64.ne  
	br_if   	0                               # 0: up to label56
# %bb.3:                                # %gcm__hash__hash_string_and_end____4e0b07d5b1f54653_.exit.loopexit.i.i
	end_loop
	local.get	7
	v128.load	144
	local.set	8
.LBB26_4:                               # %gcm__hash__hash_string_and_end____4e0b07d5b1f54653_.exit.i.i
	end_block                               # label55:
	local.get	7
	v128.const	0, 0
	local.tee	11
	v128.store	80
	local.get	7
	local.get	9
	v128.store	64
	block   	
	block   	
	local.get	5
	local.get	10
	i64.const	48
	i64.mul 
	local.tee	3
	i64.ne  
	br_if   	0                               # 0: down to label58
# %bb.5:                                # %then.1.i.i.i
	local.get	7
	local.get	8
	local.get	9
	v128.xor
	v128.store	144
	local.get	7
	i32.const	80
	i32.add 
	local.get	7
	i32.const	40
	i32.add 
	local.get	7
	i32.const	144
	i32.add 
	call	gcm__multiples__Multiples__block_product
	br      	1                               # 1: down to label57
.LBB26_6:                               # %join.3.i.i.i
	end_block                               # label58:
	block   	
	local.get	5
	local.get	3
	i64.sub 
	local.tee	12
	i64.const	16
	i64.gt_u
	br_if   	0                               # 0: down to label59
# %bb.7:                                # %then.4.i.i.i
	local.get	4
	local.get	3
	i32.wrap_i64
	local.tee	2
	i32.add 
	local.set	0
	block   	
	local.get	12
	i64.const	16
	i64.eq  
	br_if   	0                               # 0: down to label60
# %bb.8:                                # %join.3.i47.i.i.i
	local.get	7
	local.get	11
	v128.store	144:p2align=3
	block   	
	local.get	7
	i32.const	144
	i32.add 
	i64.extend_i32_u
	local.get	0
	i64.extend_i32_u
	i64.sub 
	local.get	12
	i64.ge_u
	br_if   	0                               # 0: down to label61
# %bb.9:                                # %join.7.i.i.i.i.i.i.preheader.i.i
	block   	
	local.get	1
	local.get	2
	i32.sub 
	local.tee	4
	i32.eqz
	br_if   	0                               # 0: down to label62
# %bb.10:                               # %join.7.i.i.i.i.i.i.preheader.i.i
	local.get	7
	i32.const	144
	i32.add 
	local.get	0
	local.get	4
	memory.copy	0, 0
.LBB26_11:                              # %join.7.i.i.i.i.i.i.preheader.i.i
	end_block                               # label62:
	local.get	7
	i32.const	144
	i32.add 
	local.set	0
	br      	1                               # 1: down to label60
.LBB26_12:                              # %apart.2.i.i.i.i.i.i.i.i
	end_block                               # label61:
	block   	
	local.get	12
	i32.wrap_i64
	local.tee	4
	i32.eqz
	br_if   	0                               # 0: down to label63
# %bb.13:                               # %apart.2.i.i.i.i.i.i.i.i
	local.get	7
	i32.const	144
	i32.add 
	local.get	0
	local.get	4
	memory.copy	0, 0
.LBB26_14:                              # %apart.2.i.i.i.i.i.i.i.i
	end_block                               # label63:
	local.get	7
	i32.const	144
	i32.add 
	local.set	0
.LBB26_15:                              # %gcm__hash__zero_filled.exit.i.i.i
	end_block                               # label60:
	local.get	7
	local.get	0
	v128.load	0:p2align=0
	local.get	8
	v128.xor
	v128.store	128
	local.get	7
	i32.const	80
	i32.add 
	local.get	7
	i32.const	40
	i32.add 
	local.get	7
	i32.const	128
	i32.add 
	local.get	7
	i32.const	64
	i32.add 
	call	gcm__multiples__Multiples__two_products
	br      	1                               # 1: down to label57
.LBB26_16:                              # %join.6.i.i.i
	end_block                               # label59:
	local.get	10
	i64.const	3
	i64.mul 
	local.set	10
	block   	
	local.get	12
	i64.const	32
	i64.gt_u
	br_if   	0                               # 0: down to label64
# %bb.17:                               # %then.7.i.i.i
	local.get	7
	local.get	4
	local.get	10
	i32.wrap_i64
	i32.const	4
	i32.shl 
	i32.add 
	v128.load	0:p2align=0
	local.get	8
	v128.xor
	v128.store	128
	local.get	4
	local.get	3
	i64.const	16
	i64.add 
	local.tee	3
	i32.wrap_i64
	i32.add 
	local.set	0
	block   	
	local.get	5
	local.get	3
	i64.sub 
	local.tee	3
	i64.const	16
	i64.eq  
	br_if   	0                               # 0: down to label65
# %bb.18:                               # %join.3.i54.i.i.i
	local.get	7
	local.get	11
	v128.store	144:p2align=3
	block   	
	local.get	7
	i32.const	144
	i32.add 
	i64.extend_i32_u
	local.get	0
	i64.extend_i32_u
	i64.sub 
	local.get	3
	i64.ge_u
	br_if   	0                               # 0: down to label66
# %bb.19:                               # %join.7.i.i.i.i.i.i81.preheader.i.i
	block   	
	local.get	1
	local.get	2
	i32.const	-48
	i32.mul 
	i32.add 
	i32.const	-16
	i32.add 
	local.tee	4
	i32.eqz
	br_if   	0                               # 0: down to label67
# %bb.20:                               # %join.7.i.i.i.i.i.i81.preheader.i.i
	local.get	7
	i32.const	144
	i32.add 
	local.get	0
	local.get	4
	memory.copy	0, 0
.LBB26_21:                              # %join.7.i.i.i.i.i.i81.preheader.i.i
	end_block                               # label67:
	local.get	7
	i32.const	144
	i32.add 
	local.set	0
	br      	1                               # 1: down to label65
.LBB26_22:                              # %apart.2.i.i.i.i.i.i79.i.i
	end_block                               # label66:
	block   	
	local.get	3
	i32.wrap_i64
	local.tee	4
	i32.eqz
	br_if   	0                               # 0: down to label68
# %bb.23:                               # %apart.2.i.i.i.i.i.i79.i.i
	local.get	7
	i32.const	144
	i32.add 
	local.get	0
	local.get	4
	memory.copy	0, 0
.LBB26_24:                              # %apart.2.i.i.i.i.i.i79.i.i
	end_block                               # label68:
	local.get	7
	i32.const	144
	i32.add 
	local.set	0
.LBB26_25:                              # %gcm__hash__zero_filled.exit105.i.i.i
	end_block                               # label65:
	local.get	7
	local.get	0
	v128.load	0:p2align=0
	v128.store	112
	local.get	7
	i32.const	80
	i32.add 
	local.get	7
	i32.const	40
	i32.add 
	local.get	7
	i32.const	128
	i32.add 
	local.get	7
	i32.const	112
	i32.add 
	local.get	7
	i32.const	64
	i32.add 
	call	gcm__multiples__Multiples__three_products
	br      	1                               # 1: down to label57
.LBB26_26:                              # %join.9.i.i.i.i
	end_block                               # label64:
	local.get	7
	local.get	11
	v128.store	128
	local.get	7
	local.get	4
	local.get	10
	i32.wrap_i64
	i32.const	4
	i32.shl 
	i32.add 
	local.tee	13
	v128.load	0:p2align=0
	local.get	8
	v128.xor
	v128.store	112
	local.get	4
	local.get	3
	i64.const	32
	i64.add 
	local.tee	3
	i32.wrap_i64
	i32.add 
	local.set	0
	block   	
	local.get	5
	local.get	3
	i64.sub 
	local.tee	3
	i64.const	16
	i64.eq  
	br_if   	0                               # 0: down to label69
# %bb.27:                               # %join.3.i108.i.i.i
	local.get	7
	local.get	11
	v128.store	144:p2align=3
	block   	
	local.get	7
	i32.const	144
	i32.add 
	i64.extend_i32_u
	local.get	0
	i64.extend_i32_u
	i64.sub 
	local.get	3
	i64.ge_u
	br_if   	0                               # 0: down to label70
# %bb.28:                               # %join.7.i.i.i.i.i.i123.preheader.i.i
	block   	
	local.get	1
	local.get	2
	i32.const	-48
	i32.mul 
	i32.add 
	i32.const	-32
	i32.add 
	local.tee	4
	i32.eqz
	br_if   	0                               # 0: down to label71
# %bb.29:                               # %join.7.i.i.i.i.i.i123.preheader.i.i
	local.get	7
	i32.const	144
	i32.add 
	local.get	0
	local.get	4
	memory.copy	0, 0
.LBB26_30:                              # %join.7.i.i.i.i.i.i123.preheader.i.i
	end_block                               # label71:
	local.get	7
	i32.const	144
	i32.add 
	local.set	0
	br      	1                               # 1: down to label69
.LBB26_31:                              # %apart.2.i.i.i.i.i.i121.i.i
	end_block                               # label70:
	block   	
	local.get	3
	i32.wrap_i64
	local.tee	4
	i32.eqz
	br_if   	0                               # 0: down to label72
# %bb.32:                               # %apart.2.i.i.i.i.i.i121.i.i
	local.get	7
	i32.const	144
	i32.add 
	local.get	0
	local.get	4
	memory.copy	0, 0
.LBB26_33:                              # %apart.2.i.i.i.i.i.i121.i.i
	end_block                               # label72:
	local.get	7
	i32.const	144
	i32.add 
	local.set	0
.LBB26_34:                              # %gcm__hash__hash_last_group____4e0b07d5b1f54653_.exit.i.i.i
	end_block                               # label69:
	local.get	7
	local.get	0
	v128.load	0:p2align=0
	v128.store	96
	local.get	7
	local.get	13
	i32.const	16
	i32.add 
	v128.load	0:p2align=0
	v128.store	144
	local.get	7
	i32.const	128
	i32.add 
	local.get	7
	i32.const	40
	i32.add 
	local.get	7
	i32.const	112
	i32.add 
	local.get	7
	i32.const	144
	i32.add 
	local.get	7
	i32.const	96
	i32.add 
	call	gcm__multiples__Multiples__three_products
	local.get	7
	local.get	7
	v128.load	128
	local.get	9
	v128.xor
	v128.store	48
	local.get	7
	i32.const	80
	i32.add 
	local.get	7
	i32.const	40
	i32.add 
	local.get	7
	i32.const	48
	i32.add 
	call	gcm__multiples__Multiples__block_product
.LBB26_35:                              # %gcm__tags__hash____84904cd934dcda78_.exit
	end_block                               # label57:
	local.get	7
	i64.load	88
	local.tee	3
	i64.const	56
	i64.shl 
	local.get	3
	i64.const	65280
	i64.and 
	i64.const	40
	i64.shl 
	i64.or  
	local.get	3
	i64.const	16711680
	i64.and 
	i64.const	24
	i64.shl 
	local.get	3
	i64.const	4278190080
	i64.and 
	i64.const	8
	i64.shl 
	i64.or  
	i64.or  
	local.get	3
	i64.const	8
	i64.shr_u
	i64.const	4278190080
	i64.and 
	local.get	3
	i64.const	24
	i64.shr_u
	i64.const	16711680
	i64.and 
	i64.or  
	local.get	3
	i64.const	40
	i64.shr_u
	i64.const	65280
	i64.and 
	local.get	3
	i64.const	56
	i64.shr_u
	i64.or  
	i64.or  
	i64.or  
	local.get	7
	i64.load	80
	local.tee	3
	i64.const	56
	i64.shl 
	local.get	3
	i64.const	65280
	i64.and 
	i64.const	40
	i64.shl 
	i64.or  
	local.get	3
	i64.const	16711680
	i64.and 
	i64.const	24
	i64.shl 
	local.get	3
	i64.const	4278190080
	i64.and 
	i64.const	8
	i64.shl 
	i64.or  
	i64.or  
	local.get	3
	i64.const	8
	i64.shr_u
	i64.const	4278190080
	i64.and 
	local.get	3
	i64.const	24
	i64.shr_u
	i64.const	16711680
	i64.and 
	i64.or  
	local.get	3
	i64.const	40
	i64.shr_u
	i64.const	65280
	i64.and 
	local.get	3
	i64.const	56
	i64.shr_u
	i64.or  
	i64.or  
	i64.or  
	local.get	6
	call	gcm__tags__add_masked
	local.get	7
	i32.const	160
	i32.add 
	global.set	__stack_pointer
                                        # fallthrough-return
	end_function
                                        # -- End function
	.section	.text.aes_cipher__blocks__difference,"",@
	.type	aes_cipher__blocks__difference,@function # -- Begin function aes_cipher__blocks__difference
aes_cipher__blocks__difference:         # @aes_cipher__blocks__difference
	.functype	aes_cipher__blocks__difference (i32, i32) -> (i32)
# %bb.0:                                # %start
	local.get	1
	i32.load8_u	15
	local.get	0
	i32.load8_u	15
	i32.xor 
	local.get	1
	i32.load8_u	14
	local.get	0
	i32.load8_u	14
	i32.xor 
	local.get	1
	i32.load8_u	13
	local.get	0
	i32.load8_u	13
	i32.xor 
	local.get	1
	i32.load8_u	12
	local.get	0
	i32.load8_u	12
	i32.xor 
	local.get	1
	i32.load8_u	11
	local.get	0
	i32.load8_u	11
	i32.xor 
	local.get	1
	i32.load8_u	10
	local.get	0
	i32.load8_u	10
	i32.xor 
	local.get	1
	i32.load8_u	9
	local.get	0
	i32.load8_u	9
	i32.xor 
	local.get	1
	i32.load8_u	8
	local.get	0
	i32.load8_u	8
	i32.xor 
	local.get	1
	i32.load8_u	7
	local.get	0
	i32.load8_u	7
	i32.xor 
	local.get	1
	i32.load8_u	6
	local.get	0
	i32.load8_u	6
	i32.xor 
	local.get	1
	i32.load8_u	5
	local.get	0
	i32.load8_u	5
	i32.xor 
	local.get	1
	i32.load8_u	4
	local.get	0
	i32.load8_u	4
	i32.xor 
	local.get	1
	i32.load8_u	3
	local.get	0
	i32.load8_u	3
	i32.xor 
	local.get	1
	i32.load8_u	2
	local.get	0
	i32.load8_u	2
	i32.xor 
	local.get	1
	i32.load8_u	1
	local.get	0
	i32.load8_u	1
	i32.xor 
	local.get	1
	i32.load8_u	0
	local.get	0
	i32.load8_u	0
	i32.xor 
	i32.or  
	i32.or  
	i32.or  
	i32.or  
	i32.or  
	i32.or  
	i32.or  
	i32.or  
	i32.or  
	i32.or  
	i32.or  
	i32.or  
	i32.or  
	i32.or  
	i32.or  
                                        # fallthrough-return
	end_function
                                        # -- End function
	.section	.text.gcm__gctr__add_gctr____ed3b81e0963a9ab3_,"",@
	.type	gcm__gctr__add_gctr____ed3b81e0963a9ab3_,@function # -- Begin function gcm__gctr__add_gctr____ed3b81e0963a9ab3_
gcm__gctr__add_gctr____ed3b81e0963a9ab3_: # @gcm__gctr__add_gctr____ed3b81e0963a9ab3_
	.functype	gcm__gctr__add_gctr____ed3b81e0963a9ab3_ (i32, i32, i64, i32, i64) -> ()
	.local  	i32, i64, i64, i64, v128, i64, i64, i32, i32
# %bb.0:                                # %start
	global.get	__stack_pointer
	i32.const	304
	i32.sub 
	local.tee	5
	global.set	__stack_pointer
	block   	
	local.get	4
	i64.eqz
	br_if   	0                               # 0: down to label73
# %bb.1:                                # %then.1
	local.get	5
	local.get	1
	v128.load	0:p2align=0
	v128.store	0:p2align=3
	i64.const	0
	local.set	6
	local.get	5
	i64.const	0
	i64.store	16
	block   	
	local.get	4
	i64.const	16
	local.get	2
	i64.const	15
	i64.and 
	local.tee	7
	i64.sub 
	i64.gt_u
	br_if   	0                               # 0: down to label74
# %bb.2:                                # %then.1.i
	local.get	5
	local.get	5
	i64.load	8
	local.tee	8
	i64.const	56
	i64.shl 
	local.get	8
	i64.const	65280
	i64.and 
	i64.const	40
	i64.shl 
	i64.or  
	local.get	8
	i64.const	16711680
	i64.and 
	i64.const	24
	i64.shl 
	local.get	8
	i64.const	4278190080
	i64.and 
	i64.const	8
	i64.shl 
	i64.or  
	i64.or  
	local.get	8
	i64.const	8
	i64.shr_u
	i64.const	4278190080
	i64.and 
	local.get	8
	i64.const	24
	i64.shr_u
	i64.const	16711680
	i64.and 
	i64.or  
	local.get	8
	i64.const	40
	i64.shr_u
	i64.const	65280
	i64.and 
	local.get	8
	i64.const	56
	i64.shr_u
	i64.or  
	i64.or  
	local.tee	8
	i64.or  
	i64.const	-4294967296
	i64.and 
	local.get	8
	i32.wrap_i64
	local.get	2
	i64.const	4
	i64.shr_u
	i32.wrap_i64
	i32.add 
	i64.extend_i32_u
	i64.or  
	i64x2.splat
	local.get	5
	i64.load	0
	local.tee	8
	i64.const	56
	i64.shl 
	local.get	8
	i64.const	65280
	i64.and 
	i64.const	40
	i64.shl 
	i64.or  
	local.get	8
	i64.const	16711680
	i64.and 
	i64.const	24
	i64.shl 
	local.get	8
	i64.const	4278190080
	i64.and 
	i64.const	8
	i64.shl 
	i64.or  
	i64.or  
	local.get	8
	i64.const	8
	i64.shr_u
	i64.const	4278190080
	i64.and 
	local.get	8
	i64.const	24
	i64.shr_u
	i64.const	16711680
	i64.and 
	i64.or  
	local.get	8
	i64.const	40
	i64.shr_u
	i64.const	65280
	i64.and 
	local.get	8
	i64.const	56
	i64.shr_u
	i64.or  
	i64.or  
	i64.or  
	i64x2.replace_lane	1
	local.get	9
	i8x16.shuffle	15, 14, 13, 12, 11, 10, 9, 8, 7, 6, 5, 4, 3, 2, 1, 0
	v128.store	48:p2align=0
	local.get	0
	i32.const	16
	i32.add 
	i32.load	0:p2align=0
	local.get	0
	i32.const	24
	i32.add 
	i64.load	0:p2align=0
	local.get	5
	i32.const	48
	i32.add 
	i64.const	1
	call	aes_permute__blocks__process_on_lanes____06aaae76f5856d0a_
	block   	
	local.get	7
	i64.eqz
	br_if   	0                               # 0: down to label75
# %bb.3:                                # %join.8.i72.i.i.preheader
	i64.const	0
	local.set	8
	block   	
	local.get	4
	i64.const	1
	i64.eq  
	br_if   	0                               # 0: down to label76
# %bb.4:                                # %join.8.i72.i.i.preheader.new
	local.get	4
	i64.const	1
	i64.and 
	local.set	10
	local.get	4
	i64.const	4294967294
	i64.and 
	local.set	11
	local.get	5
	i32.const	48
	i32.add 
	local.get	2
	i32.wrap_i64
	i32.const	15
	i32.and 
	i32.add 
	local.set	12
	i64.const	0
	local.set	8
	local.get	3
	local.set	1
.LBB28_5:                               # %join.8.i72.i.i
                                        # =>This Inner Loop Header: Depth=1
	loop    	                                # label77:
	local.get	1
	local.get	1
	i32.load8_u	0
	local.get	12
	i32.load8_u	0
	i32.xor 
	i32.store8	0
	local.get	1
	i32.const	1
	i32.add 
	local.tee	0
	local.get	0
	i32.load8_u	0
	local.get	12
	i32.const	1
	i32.add 
	i32.load8_u	0
	i32.xor 
	i32.store8	0
	local.get	1
	i32.const	2
	i32.add 
	local.set	1
	local.get	12
	i32.const	2
	i32.add 
	local.set	12
	local.get	11
	local.get	8
	i64.const	2
	i64.add 
	local.tee	8
	i64.ne  
	br_if   	0                               # 0: up to label77
# %bb.6:                                # %join.3.i.i.i.loopexit.unr-lcssa
	end_loop
	local.get	4
	local.set	6
	local.get	10
	i64.eqz
	br_if   	1                               # 1: down to label75
.LBB28_7:                               # %join.8.i72.i.i.epil.preheader
	end_block                               # label76:
	local.get	3
	local.get	8
	i32.wrap_i64
	i32.add 
	local.tee	1
	local.get	1
	i32.load8_u	0
	local.get	5
	i32.const	48
	i32.add 
	local.get	8
	local.get	7
	i64.add 
	i32.wrap_i64
	i32.add 
	i32.load8_u	0
	i32.xor 
	i32.store8	0
	local.get	4
	local.set	6
.LBB28_8:                               # %join.3.i.i.i
	end_block                               # label75:
	block   	
	local.get	4
	local.get	6
	i64.sub 
	local.tee	8
	i64.const	16
	i64.lt_u
	br_if   	0                               # 0: down to label78
# %bb.9:                                # %join.8.i.i.i.preheader
	i64.const	0
	local.get	6
	i64.sub 
	local.set	11
	local.get	3
	local.get	6
	i32.wrap_i64
	local.tee	12
	i32.add 
	local.set	1
	local.get	2
	i32.wrap_i64
	i32.const	15
	i32.and 
	local.get	12
	i32.add 
	local.set	12
.LBB28_10:                              # %join.8.i.i.i
                                        # =>This Inner Loop Header: Depth=1
	loop    	                                # label79:
	local.get	1
	local.get	5
	i32.const	48
	i32.add 
	local.get	12
	i32.const	-16
	i32.and 
	i32.add 
	v128.load	0:p2align=0
	local.get	1
	v128.load	0:p2align=0
	v128.xor
	v128.store	0:p2align=0
	local.get	12
	i32.const	16
	i32.add 
	local.set	12
	local.get	1
	i32.const	16
	i32.add 
	local.set	1
	local.get	4
	local.get	11
	i64.const	-16
	i64.add 
	local.tee	11
	i64.add 
	local.tee	8
	i64.const	15
	i64.gt_u
	br_if   	0                               # 0: up to label79
# %bb.11:                               # %after.4.i.i.i.loopexit
	end_loop
	i64.const	0
	local.get	11
	i64.sub 
	local.set	6
.LBB28_12:                              # %after.4.i.i.i
	end_block                               # label78:
	local.get	6
	local.get	4
	i64.ge_u
	br_if   	1                               # 1: down to label73
# %bb.13:                               # %then.9.i.i.i
	local.get	8
	i64.eqz
	br_if   	1                               # 1: down to label73
# %bb.14:                               # %join.8.i15.i.i.preheader
	local.get	3
	local.get	6
	i32.wrap_i64
	i32.add 
	local.set	1
	local.get	5
	i32.const	48
	i32.add 
	local.get	6
	local.get	7
	i64.add 
	i32.wrap_i64
	i32.const	-16
	i32.and 
	i32.add 
	local.set	12
.LBB28_15:                              # %join.8.i15.i.i
                                        # =>This Inner Loop Header: Depth=1
	loop    	                                # label80:
	local.get	1
	local.get	1
	i32.load8_u	0
	local.get	12
	i32.load8_u	0
	i32.xor 
	i32.store8	0
	local.get	12
	i32.const	1
	i32.add 
	local.set	12
	local.get	1
	i32.const	1
	i32.add 
	local.set	1
	local.get	8
	i64.const	-1
	i64.add 
	local.tee	8
	i64.const	0
	i64.ne  
	br_if   	0                               # 0: up to label80
	br      	2                               # 2: down to label73
.LBB28_16:                              # %else.2.i
	end_loop
	end_block                               # label74:
	local.get	5
	i32.const	0
	i32.store	36
	local.get	5
	local.get	3
	i32.store	32
	local.get	5
	local.get	2
	i64.store	24
	local.get	5
	local.get	4
	i64.store	40
	local.get	5
	local.get	5
	i32.store	16
	block   	
	local.get	4
	local.get	7
	i64.add 
	i64.const	113
	i64.lt_u
	br_if   	0                               # 0: down to label81
# %bb.17:                               # %then.1.i.i
	local.get	0
	i32.load	0:p2align=0
	local.tee	1
	local.get	0
	i64.load	8:p2align=0
	local.tee	8
	local.get	1
	local.get	8
	local.get	5
	i32.const	16
	i32.add 
	call	aes_hybrid__closures__lend_planes____8383eef3f4ca9323_
	br      	1                               # 1: down to label73
.LBB28_18:                              # %else.2.i.i
	end_block                               # label81:
	block   	
	block   	
	local.get	7
	i64.eqz
	i32.eqz
	br_if   	0                               # 0: down to label83
# %bb.19:
	i64.const	0
	local.set	7
	br      	1                               # 1: down to label82
.LBB28_20:                              # %then.1.i.i9.i
	end_block                               # label83:
	local.get	0
	local.get	5
	local.get	2
	i64.const	0
	local.get	3
	local.get	4
	call	aes_ctr__add_in_batches__add_next____6a304718cc059ec9_
	local.set	7
.LBB28_21:                              # %join.3.i.i10.i
	end_block                               # label82:
	block   	
	local.get	4
	local.get	7
	i64.sub 
	i64.const	64
	i64.lt_u
	br_if   	0                               # 0: down to label84
# %bb.22:                               # %join.11.lr.ph.i.i.i
	local.get	5
	i64.load	0
	local.tee	8
	i64.const	56
	i64.shl 
	local.get	8
	i64.const	65280
	i64.and 
	i64.const	40
	i64.shl 
	i64.or  
	local.get	8
	i64.const	16711680
	i64.and 
	i64.const	24
	i64.shl 
	local.get	8
	i64.const	4278190080
	i64.and 
	i64.const	8
	i64.shl 
	i64.or  
	i64.or  
	local.get	8
	i64.const	8
	i64.shr_u
	i64.const	4278190080
	i64.and 
	local.get	8
	i64.const	24
	i64.shr_u
	i64.const	16711680
	i64.and 
	i64.or  
	local.get	8
	i64.const	40
	i64.shr_u
	i64.const	65280
	i64.and 
	local.get	8
	i64.const	56
	i64.shr_u
	i64.or  
	i64.or  
	i64.or  
	local.set	11
	local.get	5
	i64.load	8
	local.tee	8
	i64.const	56
	i64.shl 
	local.get	8
	i64.const	65280
	i64.and 
	i64.const	40
	i64.shl 
	i64.or  
	local.get	8
	i64.const	16711680
	i64.and 
	i64.const	24
	i64.shl 
	local.get	8
	i64.const	4278190080
	i64.and 
	i64.const	8
	i64.shl 
	i64.or  
	i64.or  
	local.get	8
	i64.const	8
	i64.shr_u
	i64.const	4278190080
	i64.and 
	local.get	8
	i64.const	24
	i64.shr_u
	i64.const	16711680
	i64.and 
	i64.or  
	local.get	8
	i64.const	40
	i64.shr_u
	i64.const	65280
	i64.and 
	local.get	8
	i64.const	56
	i64.shr_u
	i64.or  
	i64.or  
	local.tee	8
	i64.or  
	i64.const	-4294967296
	i64.and 
	local.set	6
	local.get	8
	i32.wrap_i64
	local.set	13
.LBB28_23:                              # %join.11.i.i.i
                                        # =>This Loop Header: Depth=1
                                        #     Child Loop BB28_24 Depth 2
	loop    	                                # label85:
	i32.const	0
	local.set	1
	local.get	5
	i32.const	48
	i32.add 
	i32.const	0
	i32.const	256
	memory.fill	0
	i64.const	4
	local.set	8
	local.get	13
	local.get	7
	local.get	2
	i64.add 
	i64.const	4
	i64.shr_u
	i32.wrap_i64
	i32.add 
	local.set	12
.LBB28_24:                              # %join.7.i.i.i.i.i
                                        #   Parent Loop BB28_23 Depth=1
                                        # =>  This Inner Loop Header: Depth=2
	loop    	                                # label86:
	local.get	5
	i32.const	48
	i32.add 
	local.get	1
	i32.add 
	local.get	6
	local.get	12
	i64.extend_i32_u
	i64.or  
	i64x2.splat
	local.get	11
	i64x2.replace_lane	1
	local.get	9
	i8x16.shuffle	15, 14, 13, 12, 11, 10, 9, 8, 7, 6, 5, 4, 3, 2, 1, 0
	v128.store	0
	local.get	1
	i32.const	16
	i32.add 
	local.set	1
	local.get	12
	i32.const	1
	i32.add 
	local.set	12
	local.get	8
	i64.const	-1
	i64.add 
	local.tee	8
	i64.const	0
	i64.ne  
	br_if   	0                               # 0: up to label86
# %bb.25:                               # %gcm__gctr__LastBitsCounterBlocks__put.exit.i.i.i.i
                                        #   in Loop: Header=BB28_23 Depth=1
	end_loop
	local.get	0
	i32.const	16
	i32.add 
	i32.load	0:p2align=0
	local.get	0
	i32.const	24
	i32.add 
	i64.load	0:p2align=0
	local.get	5
	i32.const	48
	i32.add 
	i64.const	4
	call	aes_permute__blocks__process_on_lanes____06aaae76f5856d0a_
	local.get	3
	local.get	7
	i32.wrap_i64
	i32.add 
	local.tee	1
	local.get	5
	v128.load	48
	local.get	1
	v128.load	0:p2align=0
	v128.xor
	v128.store	0:p2align=0
	local.get	1
	i32.const	16
	i32.add 
	local.tee	12
	local.get	5
	v128.load	64
	local.get	12
	v128.load	0:p2align=0
	v128.xor
	v128.store	0:p2align=0
	local.get	1
	i32.const	32
	i32.add 
	local.tee	12
	local.get	5
	v128.load	80
	local.get	12
	v128.load	0:p2align=0
	v128.xor
	v128.store	0:p2align=0
	local.get	1
	i32.const	48
	i32.add 
	local.tee	1
	local.get	5
	v128.load	96
	local.get	1
	v128.load	0:p2align=0
	v128.xor
	v128.store	0:p2align=0
	local.get	4
	local.get	7
	i64.const	64
	i64.add 
	local.tee	7
	i64.sub 
	i64.const	63
	i64.gt_u
	br_if   	0                               # 0: up to label85
.LBB28_26:                              # %loop.13.preheader.i.i.i
	end_loop
	end_block                               # label84:
	local.get	7
	local.get	4
	i64.ge_u
	br_if   	0                               # 0: down to label73
.LBB28_27:                              # %join.16.i.i.i
                                        # =>This Inner Loop Header: Depth=1
	loop    	                                # label87:
	local.get	0
	local.get	5
	local.get	2
	local.get	7
	local.get	3
	local.get	4
	call	aes_ctr__add_in_batches__add_next____6a304718cc059ec9_
	local.tee	7
	local.get	4
	i64.lt_u
	br_if   	0                               # 0: up to label87
.LBB28_28:                              # %join.3
	end_loop
	end_block                               # label73:
	local.get	5
	i32.const	304
	i32.add 
	global.set	__stack_pointer
                                        # fallthrough-return
	end_function
                                        # -- End function
	.section	.text.aes_hybrid__borrowed_cipher__BorrowedCipher__process_blocks____19237d6279b3cf3a_,"",@
	.type	aes_hybrid__borrowed_cipher__BorrowedCipher__process_blocks____19237d6279b3cf3a_,@function # -- Begin function aes_hybrid__borrowed_cipher__BorrowedCipher__process_blocks____19237d6279b3cf3a_
aes_hybrid__borrowed_cipher__BorrowedCipher__process_blocks____19237d6279b3cf3a_: # @aes_hybrid__borrowed_cipher__BorrowedCipher__process_blocks____19237d6279b3cf3a_
	.functype	aes_hybrid__borrowed_cipher__BorrowedCipher__process_blocks____19237d6279b3cf3a_ (i32, i32, i64) -> ()
	.local  	i64
# %bb.0:                                # %start
	i64.const	0
	local.set	3
	block   	
	local.get	2
	i64.const	15
	i64.lt_u
	br_if   	0                               # 0: down to label88
# %bb.1:                                # %join.6.i
	local.get	0
	i32.load	0:p2align=0
	local.get	0
	i64.load	8:p2align=0
	local.get	1
	local.get	2
	local.get	2
	i64.const	7
	i64.and 
	local.tee	3
	i64.const	0
	local.get	3
	i64.const	6
	i64.lt_u
	i64.select
	i64.sub 
	local.tee	3
	call	aes_hybrid__batches__process_on_planes____2a076538018b6fb3_
.LBB29_2:                               # %aes_hybrid__borrowed_cipher__process_first_on_planes____19237d6279b3cf3a_.exit
	end_block                               # label88:
	local.get	0
	i32.const	16
	i32.add 
	i32.load	0:p2align=0
	local.get	0
	i32.const	24
	i32.add 
	i64.load	0:p2align=0
	local.get	1
	local.get	3
	i32.wrap_i64
	i32.const	4
	i32.shl 
	i32.add 
	local.get	2
	local.get	3
	i64.sub 
	call	aes_permute__blocks__process_on_lanes____06aaae76f5856d0a_
                                        # fallthrough-return
	end_function
                                        # -- End function
	.section	.text.aes_hybrid__batches__process_on_planes____2a076538018b6fb3_,"",@
	.type	aes_hybrid__batches__process_on_planes____2a076538018b6fb3_,@function # -- Begin function aes_hybrid__batches__process_on_planes____2a076538018b6fb3_
aes_hybrid__batches__process_on_planes____2a076538018b6fb3_: # @aes_hybrid__batches__process_on_planes____2a076538018b6fb3_
	.functype	aes_hybrid__batches__process_on_planes____2a076538018b6fb3_ (i32, i64, i32, i64) -> ()
	.local  	i32
# %bb.0:                                # %start
	global.get	__stack_pointer
	i32.const	1920
	i32.sub 
	local.tee	4
	global.set	__stack_pointer
	local.get	4
	i32.const	128
	i32.add 
	i32.const	0
	i32.const	1792
	memory.fill	0
	local.get	4
	local.get	0
	local.get	1
	call	aes_hybrid__plane_keys__store_planes____fab3fa1ddd682008_
	local.get	4
	local.get	1
	i64.const	3
	i64.shl 
	local.get	2
	local.get	3
	call	aes_hybrid__batches__process_batches_and_rest____2a076538018b6fb3_
	local.get	4
	call	aes_cipher__zeroize__zeroize_words____fab3fa1ddd682008_
	call	aes_cipher__zeroize__stack__wipe_stack____1792_
	local.get	4
	i32.const	1920
	i32.add 
	global.set	__stack_pointer
                                        # fallthrough-return
	end_function
                                        # -- End function
	.section	.text.aes_hybrid__plane_keys__store_planes____fab3fa1ddd682008_,"",@
	.type	aes_hybrid__plane_keys__store_planes____fab3fa1ddd682008_,@function # -- Begin function aes_hybrid__plane_keys__store_planes____fab3fa1ddd682008_
aes_hybrid__plane_keys__store_planes____fab3fa1ddd682008_: # @aes_hybrid__plane_keys__store_planes____fab3fa1ddd682008_
	.functype	aes_hybrid__plane_keys__store_planes____fab3fa1ddd682008_ (i32, i32, i64) -> ()
	.local  	v128, v128, v128, v128, v128, v128, v128, v128, v128, i64, i32, i64, i32
# %bb.0:                                # %start
	local.get	0
	local.get	1
	v128.load	0:p2align=0
	local.get	3
	i8x16.shuffle	0, 4, 8, 12, 1, 5, 9, 13, 2, 6, 10, 14, 3, 7, 11, 15
	local.tee	3
	i32.const	7
	i8x16.shr_s
	v128.store	112
	local.get	0
	local.get	3
	v128.const	64, 64, 64, 64, 64, 64, 64, 64, 64, 64, 64, 64, 64, 64, 64, 64
	local.tee	4
	v128.and
	v128.const	0, 0, 0, 0, 0, 0, 0, 0, 0, 0, 0, 0, 0, 0, 0, 0
	local.tee	5
	i8x16.ne
	v128.store	96
	local.get	0
	local.get	3
	v128.const	32, 32, 32, 32, 32, 32, 32, 32, 32, 32, 32, 32, 32, 32, 32, 32
	local.tee	6
	v128.and
	local.get	5
	i8x16.ne
	v128.store	80
	local.get	0
	local.get	3
	v128.const	16, 16, 16, 16, 16, 16, 16, 16, 16, 16, 16, 16, 16, 16, 16, 16
	local.tee	7
	v128.and
	local.get	5
	i8x16.ne
	v128.store	64
	local.get	0
	local.get	3
	v128.const	8, 8, 8, 8, 8, 8, 8, 8, 8, 8, 8, 8, 8, 8, 8, 8
	local.tee	8
	v128.and
	local.get	5
	i8x16.ne
	v128.store	48
	local.get	0
	local.get	3
	v128.const	4, 4, 4, 4, 4, 4, 4, 4, 4, 4, 4, 4, 4, 4, 4, 4
	local.tee	9
	v128.and
	local.get	5
	i8x16.ne
	v128.store	32
	local.get	0
	local.get	3
	v128.const	2, 2, 2, 2, 2, 2, 2, 2, 2, 2, 2, 2, 2, 2, 2, 2
	local.tee	10
	v128.and
	local.get	5
	i8x16.ne
	v128.store	16
	local.get	0
	local.get	3
	v128.const	1, 1, 1, 1, 1, 1, 1, 1, 1, 1, 1, 1, 1, 1, 1, 1
	local.tee	11
	v128.and
	i8x16.neg
	v128.store	0
	block   	
	local.get	2
	i64.const	-1
	i64.add 
	local.tee	12
	i64.const	2
	i64.lt_u
	br_if   	0                               # 0: down to label89
# %bb.1:                                # %join.5.preheader
	local.get	1
	i32.const	16
	i32.add 
	local.set	13
	local.get	2
	i64.const	-2
	i64.add 
	local.set	14
	local.get	0
	local.set	15
.LBB31_2:                               # %join.5
                                        # =>This Inner Loop Header: Depth=1
	loop    	                                # label90:
	local.get	15
	i32.const	240
	i32.add 
	v128.const	0, 1, 92, 93, 224, 225, 188, 189, 80, 81, 12, 13, 176, 177, 236, 237
	local.get	13
	v128.load	0:p2align=0
	local.tee	3
	v128.const	15, 15, 15, 15, 15, 15, 15, 15, 15, 15, 15, 15, 15, 15, 15, 15
	v128.and
	i8x16.swizzle
	v128.const	0, 178, 181, 7, 58, 136, 143, 61, 172, 30, 25, 171, 150, 36, 35, 145
	local.get	3
	i32.const	4
	i8x16.shr_u
	i8x16.swizzle
	v128.xor
	local.get	3
	i8x16.shuffle	0, 4, 8, 12, 1, 5, 9, 13, 2, 6, 10, 14, 3, 7, 11, 15
	local.tee	3
	i32.const	7
	i8x16.shr_s
	v128.store	0
	local.get	15
	i32.const	224
	i32.add 
	local.get	3
	local.get	4
	v128.and
	local.get	5
	i8x16.ne
	v128.store	0
	local.get	15
	i32.const	208
	i32.add 
	local.get	3
	local.get	6
	v128.and
	local.get	5
	i8x16.ne
	v128.store	0
	local.get	15
	i32.const	192
	i32.add 
	local.get	3
	local.get	7
	v128.and
	local.get	5
	i8x16.ne
	v128.store	0
	local.get	15
	i32.const	176
	i32.add 
	local.get	3
	local.get	8
	v128.and
	local.get	5
	i8x16.ne
	v128.store	0
	local.get	15
	i32.const	160
	i32.add 
	local.get	3
	local.get	9
	v128.and
	local.get	5
	i8x16.ne
	v128.store	0
	local.get	15
	i32.const	144
	i32.add 
	local.get	3
	local.get	10
	v128.and
	local.get	5
	i8x16.ne
	v128.store	0
	local.get	15
	i32.const	128
	i32.add 
	local.tee	15
	local.get	3
	local.get	11
	v128.and
	i8x16.neg
	v128.store	0
	local.get	13
	i32.const	16
	i32.add 
	local.set	13
	local.get	14
	i64.const	-1
	i64.add 
	local.tee	14
	i64.const	0
	i64.ne  
	br_if   	0                               # 0: up to label90
.LBB31_3:                               # %after.1
	end_loop
	end_block                               # label89:
	local.get	0
	local.get	2
	i32.wrap_i64
	i32.const	7
	i32.shl 
	i32.add 
	local.tee	15
	i32.const	-16
	i32.add 
	local.get	1
	local.get	12
	i32.wrap_i64
	i32.const	4
	i32.shl 
	i32.add 
	v128.load	0:p2align=0
	local.get	3
	i8x16.shuffle	0, 4, 8, 12, 1, 5, 9, 13, 2, 6, 10, 14, 3, 7, 11, 15
	local.tee	3
	i32.const	7
	i8x16.shr_s
	v128.store	0
	local.get	15
	i32.const	-32
	i32.add 
	local.get	3
	local.get	4
	v128.and
	local.get	5
	i8x16.ne
	v128.store	0
	local.get	15
	i32.const	-48
	i32.add 
	local.get	3
	local.get	6
	v128.and
	local.get	5
	i8x16.ne
	v128.store	0
	local.get	15
	i32.const	-64
	i32.add 
	local.get	3
	local.get	7
	v128.and
	local.get	5
	i8x16.ne
	v128.store	0
	local.get	15
	i32.const	-80
	i32.add 
	local.get	3
	local.get	8
	v128.and
	local.get	5
	i8x16.ne
	v128.store	0
	local.get	15
	i32.const	-96
	i32.add 
	local.get	3
	local.get	9
	v128.and
	local.get	5
	i8x16.ne
	v128.store	0
	local.get	15
	i32.const	-112
	i32.add 
	local.get	3
	local.get	10
	v128.and
	local.get	5
	i8x16.ne
	v128.store	0
	local.get	15
	i32.const	-128
	i32.add 
	local.get	3
	local.get	11
	v128.and
	i8x16.neg
	v128.store	0
                                        # fallthrough-return
	end_function
                                        # -- End function
	.section	.text.aes_hybrid__batches__process_batches_and_rest____2a076538018b6fb3_,"",@
	.type	aes_hybrid__batches__process_batches_and_rest____2a076538018b6fb3_,@function # -- Begin function aes_hybrid__batches__process_batches_and_rest____2a076538018b6fb3_
aes_hybrid__batches__process_batches_and_rest____2a076538018b6fb3_: # @aes_hybrid__batches__process_batches_and_rest____2a076538018b6fb3_
	.functype	aes_hybrid__batches__process_batches_and_rest____2a076538018b6fb3_ (i32, i64, i32, i64) -> ()
	.local  	i32, i64, i64, i64, i32, i32, v128, v128, v128, i32, v128, v128, v128, i32, v128, v128, i32, v128, v128, v128, v128, v128, v128, v128, i32, v128, v128, v128, i32, v128, v128, i32, v128, v128, v128, v128
# %bb.0:                                # %join.5.i.lr.ph
	global.get	__stack_pointer
	i32.const	128
	i32.sub 
	local.tee	4
	global.set	__stack_pointer
	local.get	3
	i64.const	1073741816
	i64.and 
	local.set	5
	local.get	1
	i64.const	3
	i64.shr_u
	i64.const	-1
	i64.add 
	local.set	6
	i64.const	0
	local.set	7
	local.get	2
	local.set	8
.LBB32_1:                               # %join.5.i
                                        # =>This Inner Loop Header: Depth=1
	loop    	                                # label91:
	local.get	4
	local.get	8
	i32.const	64
	i32.add 
	local.tee	9
	v128.load	0:p2align=0
	local.get	10
	i8x16.shuffle	0, 4, 8, 12, 1, 5, 9, 13, 2, 6, 10, 14, 3, 7, 11, 15
	local.tee	11
	i32.const	1
	i8x16.shr_u
	local.tee	12
	local.get	8
	i32.const	80
	i32.add 
	local.tee	13
	v128.load	0:p2align=0
	local.get	10
	i8x16.shuffle	0, 4, 8, 12, 1, 5, 9, 13, 2, 6, 10, 14, 3, 7, 11, 15
	local.tee	14
	v128.const	85, 85, 85, 85, 85, 85, 85, 85, 85, 85, 85, 85, 85, 85, 85, 85
	local.tee	10
	v128.bitselect
	local.tee	15
	i32.const	2
	i8x16.shr_u
	local.tee	16
	local.get	8
	i32.const	96
	i32.add 
	local.tee	17
	v128.load	0:p2align=0
	local.get	10
	i8x16.shuffle	0, 4, 8, 12, 1, 5, 9, 13, 2, 6, 10, 14, 3, 7, 11, 15
	local.tee	18
	i32.const	1
	i8x16.shr_u
	local.tee	19
	local.get	8
	i32.const	112
	i32.add 
	local.tee	20
	v128.load	0:p2align=0
	local.get	10
	i8x16.shuffle	0, 4, 8, 12, 1, 5, 9, 13, 2, 6, 10, 14, 3, 7, 11, 15
	local.tee	21
	local.get	10
	v128.bitselect
	local.tee	22
	v128.const	51, 51, 51, 51, 51, 51, 51, 51, 51, 51, 51, 51, 51, 51, 51, 51
	local.tee	23
	v128.bitselect
	local.tee	24
	v128.const	15, 15, 15, 15, 15, 15, 15, 15, 15, 15, 15, 15, 15, 15, 15, 15
	local.tee	25
	v128.and
	local.get	8
	v128.load	0:p2align=0
	local.get	10
	i8x16.shuffle	0, 4, 8, 12, 1, 5, 9, 13, 2, 6, 10, 14, 3, 7, 11, 15
	local.tee	26
	i32.const	1
	i8x16.shr_u
	local.tee	27
	local.get	8
	i32.const	16
	i32.add 
	local.tee	28
	v128.load	0:p2align=0
	local.get	10
	i8x16.shuffle	0, 4, 8, 12, 1, 5, 9, 13, 2, 6, 10, 14, 3, 7, 11, 15
	local.tee	29
	local.get	10
	v128.bitselect
	local.tee	30
	i32.const	2
	i8x16.shr_u
	local.tee	31
	local.get	8
	i32.const	32
	i32.add 
	local.tee	32
	v128.load	0:p2align=0
	local.get	10
	i8x16.shuffle	0, 4, 8, 12, 1, 5, 9, 13, 2, 6, 10, 14, 3, 7, 11, 15
	local.tee	33
	i32.const	1
	i8x16.shr_u
	local.tee	34
	local.get	8
	i32.const	48
	i32.add 
	local.tee	35
	v128.load	0:p2align=0
	local.get	10
	i8x16.shuffle	0, 4, 8, 12, 1, 5, 9, 13, 2, 6, 10, 14, 3, 7, 11, 15
	local.tee	36
	local.get	10
	v128.bitselect
	local.tee	37
	local.get	23
	v128.bitselect
	local.tee	38
	i32.const	4
	i8x16.shr_u
	v128.xor
	local.tee	39
	local.get	24
	v128.xor
	v128.store	112
	local.get	4
	local.get	39
	i32.const	4
	i8x16.shl
	local.get	38
	v128.xor
	v128.store	48
	local.get	4
	local.get	14
	local.get	12
	v128.xor
	local.get	10
	v128.and
	i32.const	1
	i8x16.shl
	local.get	11
	v128.xor
	local.tee	11
	i32.const	2
	i8x16.shr_u
	local.tee	12
	local.get	21
	local.get	19
	v128.xor
	local.get	10
	v128.and
	i32.const	1
	i8x16.shl
	local.get	18
	v128.xor
	local.tee	14
	local.get	23
	v128.bitselect
	local.tee	18
	local.get	25
	v128.and
	local.get	29
	local.get	27
	v128.xor
	local.get	10
	v128.and
	i32.const	1
	i8x16.shl
	local.get	26
	v128.xor
	local.tee	19
	i32.const	2
	i8x16.shr_u
	local.tee	21
	local.get	36
	local.get	34
	v128.xor
	local.get	10
	v128.and
	i32.const	1
	i8x16.shl
	local.get	33
	v128.xor
	local.tee	24
	local.get	23
	v128.bitselect
	local.tee	26
	i32.const	4
	i8x16.shr_u
	v128.xor
	local.tee	27
	local.get	18
	v128.xor
	v128.store	96
	local.get	4
	local.get	22
	local.get	16
	v128.xor
	local.get	23
	v128.and
	i32.const	2
	i8x16.shl
	local.get	15
	v128.xor
	local.tee	15
	local.get	25
	v128.and
	local.get	37
	local.get	31
	v128.xor
	local.get	23
	v128.and
	i32.const	2
	i8x16.shl
	local.get	30
	v128.xor
	local.tee	16
	i32.const	4
	i8x16.shr_u
	v128.xor
	local.tee	18
	local.get	15
	v128.xor
	v128.store	80
	local.get	4
	local.get	27
	i32.const	4
	i8x16.shl
	local.get	26
	v128.xor
	v128.store	32
	local.get	4
	local.get	18
	i32.const	4
	i8x16.shl
	local.get	16
	v128.xor
	v128.store	16
	local.get	4
	local.get	14
	local.get	12
	v128.xor
	local.get	23
	v128.and
	i32.const	2
	i8x16.shl
	local.get	11
	v128.xor
	local.tee	11
	local.get	25
	v128.and
	local.get	24
	local.get	21
	v128.xor
	local.get	23
	v128.and
	i32.const	2
	i8x16.shl
	local.get	19
	v128.xor
	local.tee	12
	i32.const	4
	i8x16.shr_u
	v128.xor
	local.tee	14
	local.get	11
	v128.xor
	v128.store	64
	local.get	4
	local.get	14
	i32.const	4
	i8x16.shl
	local.get	12
	v128.xor
	v128.store	0
	local.get	0
	local.get	6
	local.get	4
	call	aes_soft__soft__ciphers__planes__EncryptPlaneCipher__process_planes____eab796f82dda8b4f_
	local.get	20
	local.get	4
	v128.load	64
	local.tee	11
	i32.const	1
	i8x16.shr_u
	local.tee	12
	local.get	4
	v128.load	80
	local.tee	14
	local.get	10
	v128.bitselect
	local.tee	15
	i32.const	2
	i8x16.shr_u
	local.tee	16
	local.get	4
	v128.load	96
	local.tee	18
	i32.const	1
	i8x16.shr_u
	local.tee	19
	local.get	4
	v128.load	112
	local.tee	21
	local.get	10
	v128.bitselect
	local.tee	22
	local.get	23
	v128.bitselect
	local.tee	24
	local.get	25
	v128.and
	local.get	4
	v128.load	0
	local.tee	26
	i32.const	1
	i8x16.shr_u
	local.tee	27
	local.get	4
	v128.load	16
	local.tee	29
	local.get	10
	v128.bitselect
	local.tee	30
	i32.const	2
	i8x16.shr_u
	local.tee	31
	local.get	4
	v128.load	32
	local.tee	33
	i32.const	1
	i8x16.shr_u
	local.tee	34
	local.get	4
	v128.load	48
	local.tee	36
	local.get	10
	v128.bitselect
	local.tee	37
	local.get	23
	v128.bitselect
	local.tee	38
	i32.const	4
	i8x16.shr_u
	v128.xor
	local.tee	39
	local.get	24
	v128.xor
	local.get	10
	i8x16.shuffle	0, 4, 8, 12, 1, 5, 9, 13, 2, 6, 10, 14, 3, 7, 11, 15
	v128.store	0:p2align=0
	local.get	35
	local.get	39
	i32.const	4
	i8x16.shl
	local.get	38
	v128.xor
	local.get	10
	i8x16.shuffle	0, 4, 8, 12, 1, 5, 9, 13, 2, 6, 10, 14, 3, 7, 11, 15
	v128.store	0:p2align=0
	local.get	17
	local.get	11
	local.get	14
	local.get	12
	v128.xor
	local.get	10
	v128.and
	i32.const	1
	i8x16.shl
	v128.xor
	local.tee	11
	i32.const	2
	i8x16.shr_u
	local.tee	12
	local.get	18
	local.get	21
	local.get	19
	v128.xor
	local.get	10
	v128.and
	i32.const	1
	i8x16.shl
	v128.xor
	local.tee	14
	local.get	23
	v128.bitselect
	local.tee	18
	local.get	25
	v128.and
	local.get	26
	local.get	29
	local.get	27
	v128.xor
	local.get	10
	v128.and
	i32.const	1
	i8x16.shl
	v128.xor
	local.tee	19
	i32.const	2
	i8x16.shr_u
	local.tee	21
	local.get	33
	local.get	36
	local.get	34
	v128.xor
	local.get	10
	v128.and
	i32.const	1
	i8x16.shl
	v128.xor
	local.tee	10
	local.get	23
	v128.bitselect
	local.tee	24
	i32.const	4
	i8x16.shr_u
	v128.xor
	local.tee	26
	local.get	18
	v128.xor
	local.get	10
	i8x16.shuffle	0, 4, 8, 12, 1, 5, 9, 13, 2, 6, 10, 14, 3, 7, 11, 15
	v128.store	0:p2align=0
	local.get	13
	local.get	22
	local.get	16
	v128.xor
	local.get	23
	v128.and
	i32.const	2
	i8x16.shl
	local.get	15
	v128.xor
	local.tee	15
	local.get	25
	v128.and
	local.get	37
	local.get	31
	v128.xor
	local.get	23
	v128.and
	i32.const	2
	i8x16.shl
	local.get	30
	v128.xor
	local.tee	16
	i32.const	4
	i8x16.shr_u
	v128.xor
	local.tee	18
	local.get	15
	v128.xor
	local.get	10
	i8x16.shuffle	0, 4, 8, 12, 1, 5, 9, 13, 2, 6, 10, 14, 3, 7, 11, 15
	v128.store	0:p2align=0
	local.get	32
	local.get	26
	i32.const	4
	i8x16.shl
	local.get	24
	v128.xor
	local.get	10
	i8x16.shuffle	0, 4, 8, 12, 1, 5, 9, 13, 2, 6, 10, 14, 3, 7, 11, 15
	v128.store	0:p2align=0
	local.get	28
	local.get	18
	i32.const	4
	i8x16.shl
	local.get	16
	v128.xor
	local.get	10
	i8x16.shuffle	0, 4, 8, 12, 1, 5, 9, 13, 2, 6, 10, 14, 3, 7, 11, 15
	v128.store	0:p2align=0
	local.get	9
	local.get	14
	local.get	12
	v128.xor
	local.get	23
	v128.and
	i32.const	2
	i8x16.shl
	local.get	11
	v128.xor
	local.tee	11
	local.get	25
	v128.and
	local.get	10
	local.get	21
	v128.xor
	local.get	23
	v128.and
	i32.const	2
	i8x16.shl
	local.get	19
	v128.xor
	local.tee	10
	i32.const	4
	i8x16.shr_u
	v128.xor
	local.tee	23
	local.get	11
	v128.xor
	local.get	10
	i8x16.shuffle	0, 4, 8, 12, 1, 5, 9, 13, 2, 6, 10, 14, 3, 7, 11, 15
	v128.store	0:p2align=0
	local.get	8
	local.get	23
	i32.const	4
	i8x16.shl
	local.get	10
	v128.xor
	local.get	10
	i8x16.shuffle	0, 4, 8, 12, 1, 5, 9, 13, 2, 6, 10, 14, 3, 7, 11, 15
	v128.store	0:p2align=0
	local.get	8
	i32.const	128
	i32.add 
	local.set	8
	local.get	7
	i64.const	8
	i64.add 
	local.tee	7
	local.get	5
	i64.lt_u
	br_if   	0                               # 0: up to label91
# %bb.2:                                # %aes_soft__soft__blocks__slices__process_batches_under____083782f7c613e34b_.exit
	end_loop
	block   	
	local.get	5
	local.get	3
	i64.eq  
	br_if   	0                               # 0: down to label92
# %bb.3:                                # %then.3
	local.get	0
	local.get	1
	local.get	2
	local.get	5
	i32.wrap_i64
	i32.const	4
	i32.shl 
	i32.add 
	local.get	3
	i64.const	7
	i64.and 
	call	aes_soft__soft__blocks__filled_up__process_filled_up____2a076538018b6fb3_
.LBB32_4:                               # %join.5
	end_block                               # label92:
	local.get	4
	i32.const	128
	i32.add 
	global.set	__stack_pointer
                                        # fallthrough-return
	end_function
                                        # -- End function
	.section	.text.aes_soft__soft__ciphers__planes__process_outlined____bddb9db0bc69ed2a_,"",@
	.type	aes_soft__soft__ciphers__planes__process_outlined____bddb9db0bc69ed2a_,@function # -- Begin function aes_soft__soft__ciphers__planes__process_outlined____bddb9db0bc69ed2a_
aes_soft__soft__ciphers__planes__process_outlined____bddb9db0bc69ed2a_: # @aes_soft__soft__ciphers__planes__process_outlined____bddb9db0bc69ed2a_
	.functype	aes_soft__soft__ciphers__planes__process_outlined____bddb9db0bc69ed2a_ (i32, i32, i64, i32) -> ()
	.local  	i32, v128, v128, v128, v128, v128, v128, v128, v128, v128, v128, v128, v128, v128, v128, v128, v128, v128, v128, v128, v128, v128, v128, v128, v128
# %bb.0:                                # %start
	global.get	__stack_pointer
	i32.const	128
	i32.sub 
	local.tee	4
	global.set	__stack_pointer
	local.get	4
	local.get	3
	v128.load	64:p2align=0
	local.get	5
	i8x16.shuffle	0, 4, 8, 12, 1, 5, 9, 13, 2, 6, 10, 14, 3, 7, 11, 15
	local.tee	6
	i32.const	1
	i8x16.shr_u
	local.tee	7
	local.get	3
	v128.load	80:p2align=0
	local.get	5
	i8x16.shuffle	0, 4, 8, 12, 1, 5, 9, 13, 2, 6, 10, 14, 3, 7, 11, 15
	local.tee	8
	v128.const	85, 85, 85, 85, 85, 85, 85, 85, 85, 85, 85, 85, 85, 85, 85, 85
	local.tee	5
	v128.bitselect
	local.tee	9
	i32.const	2
	i8x16.shr_u
	local.tee	10
	local.get	3
	v128.load	96:p2align=0
	local.get	5
	i8x16.shuffle	0, 4, 8, 12, 1, 5, 9, 13, 2, 6, 10, 14, 3, 7, 11, 15
	local.tee	11
	i32.const	1
	i8x16.shr_u
	local.tee	12
	local.get	3
	v128.load	112:p2align=0
	local.get	5
	i8x16.shuffle	0, 4, 8, 12, 1, 5, 9, 13, 2, 6, 10, 14, 3, 7, 11, 15
	local.tee	13
	local.get	5
	v128.bitselect
	local.tee	14
	v128.const	51, 51, 51, 51, 51, 51, 51, 51, 51, 51, 51, 51, 51, 51, 51, 51
	local.tee	15
	v128.bitselect
	local.tee	16
	v128.const	15, 15, 15, 15, 15, 15, 15, 15, 15, 15, 15, 15, 15, 15, 15, 15
	local.tee	17
	v128.and
	local.get	3
	v128.load	0:p2align=0
	local.get	5
	i8x16.shuffle	0, 4, 8, 12, 1, 5, 9, 13, 2, 6, 10, 14, 3, 7, 11, 15
	local.tee	18
	i32.const	1
	i8x16.shr_u
	local.tee	19
	local.get	3
	v128.load	16:p2align=0
	local.get	5
	i8x16.shuffle	0, 4, 8, 12, 1, 5, 9, 13, 2, 6, 10, 14, 3, 7, 11, 15
	local.tee	20
	local.get	5
	v128.bitselect
	local.tee	21
	i32.const	2
	i8x16.shr_u
	local.tee	22
	local.get	3
	v128.load	32:p2align=0
	local.get	5
	i8x16.shuffle	0, 4, 8, 12, 1, 5, 9, 13, 2, 6, 10, 14, 3, 7, 11, 15
	local.tee	23
	i32.const	1
	i8x16.shr_u
	local.tee	24
	local.get	3
	v128.load	48:p2align=0
	local.get	5
	i8x16.shuffle	0, 4, 8, 12, 1, 5, 9, 13, 2, 6, 10, 14, 3, 7, 11, 15
	local.tee	25
	local.get	5
	v128.bitselect
	local.tee	26
	local.get	15
	v128.bitselect
	local.tee	27
	i32.const	4
	i8x16.shr_u
	v128.xor
	local.tee	28
	local.get	16
	v128.xor
	v128.store	112
	local.get	4
	local.get	28
	i32.const	4
	i8x16.shl
	local.get	27
	v128.xor
	v128.store	48
	local.get	4
	local.get	8
	local.get	7
	v128.xor
	local.get	5
	v128.and
	i32.const	1
	i8x16.shl
	local.get	6
	v128.xor
	local.tee	6
	i32.const	2
	i8x16.shr_u
	local.tee	7
	local.get	13
	local.get	12
	v128.xor
	local.get	5
	v128.and
	i32.const	1
	i8x16.shl
	local.get	11
	v128.xor
	local.tee	8
	local.get	15
	v128.bitselect
	local.tee	11
	local.get	17
	v128.and
	local.get	20
	local.get	19
	v128.xor
	local.get	5
	v128.and
	i32.const	1
	i8x16.shl
	local.get	18
	v128.xor
	local.tee	12
	i32.const	2
	i8x16.shr_u
	local.tee	13
	local.get	25
	local.get	24
	v128.xor
	local.get	5
	v128.and
	i32.const	1
	i8x16.shl
	local.get	23
	v128.xor
	local.tee	16
	local.get	15
	v128.bitselect
	local.tee	18
	i32.const	4
	i8x16.shr_u
	v128.xor
	local.tee	19
	local.get	11
	v128.xor
	v128.store	96
	local.get	4
	local.get	14
	local.get	10
	v128.xor
	local.get	15
	v128.and
	i32.const	2
	i8x16.shl
	local.get	9
	v128.xor
	local.tee	9
	local.get	17
	v128.and
	local.get	26
	local.get	22
	v128.xor
	local.get	15
	v128.and
	i32.const	2
	i8x16.shl
	local.get	21
	v128.xor
	local.tee	10
	i32.const	4
	i8x16.shr_u
	v128.xor
	local.tee	11
	local.get	9
	v128.xor
	v128.store	80
	local.get	4
	local.get	19
	i32.const	4
	i8x16.shl
	local.get	18
	v128.xor
	v128.store	32
	local.get	4
	local.get	11
	i32.const	4
	i8x16.shl
	local.get	10
	v128.xor
	v128.store	16
	local.get	4
	local.get	8
	local.get	7
	v128.xor
	local.get	15
	v128.and
	i32.const	2
	i8x16.shl
	local.get	6
	v128.xor
	local.tee	6
	local.get	17
	v128.and
	local.get	16
	local.get	13
	v128.xor
	local.get	15
	v128.and
	i32.const	2
	i8x16.shl
	local.get	12
	v128.xor
	local.tee	7
	i32.const	4
	i8x16.shr_u
	v128.xor
	local.tee	8
	local.get	6
	v128.xor
	v128.store	64
	local.get	4
	local.get	8
	i32.const	4
	i8x16.shl
	local.get	7
	v128.xor
	v128.store	0
	local.get	1
	local.get	2
	local.get	4
	call	aes_soft__soft__ciphers__planes__EncryptPlaneCipher__process_planes____eab796f82dda8b4f_
	local.get	0
	local.get	4
	v128.load	64
	local.tee	6
	i32.const	1
	i8x16.shr_u
	local.tee	7
	local.get	4
	v128.load	80
	local.tee	8
	local.get	5
	v128.bitselect
	local.tee	9
	i32.const	2
	i8x16.shr_u
	local.tee	10
	local.get	4
	v128.load	96
	local.tee	11
	i32.const	1
	i8x16.shr_u
	local.tee	12
	local.get	4
	v128.load	112
	local.tee	13
	local.get	5
	v128.bitselect
	local.tee	14
	local.get	15
	v128.bitselect
	local.tee	16
	local.get	17
	v128.and
	local.get	4
	v128.load	0
	local.tee	18
	i32.const	1
	i8x16.shr_u
	local.tee	19
	local.get	4
	v128.load	16
	local.tee	20
	local.get	5
	v128.bitselect
	local.tee	21
	i32.const	2
	i8x16.shr_u
	local.tee	22
	local.get	4
	v128.load	32
	local.tee	23
	i32.const	1
	i8x16.shr_u
	local.tee	24
	local.get	4
	v128.load	48
	local.tee	25
	local.get	5
	v128.bitselect
	local.tee	26
	local.get	15
	v128.bitselect
	local.tee	27
	i32.const	4
	i8x16.shr_u
	v128.xor
	local.tee	28
	local.get	16
	v128.xor
	local.get	5
	i8x16.shuffle	0, 4, 8, 12, 1, 5, 9, 13, 2, 6, 10, 14, 3, 7, 11, 15
	v128.store	112:p2align=0
	local.get	0
	local.get	28
	i32.const	4
	i8x16.shl
	local.get	27
	v128.xor
	local.get	5
	i8x16.shuffle	0, 4, 8, 12, 1, 5, 9, 13, 2, 6, 10, 14, 3, 7, 11, 15
	v128.store	48:p2align=0
	local.get	0
	local.get	6
	local.get	8
	local.get	7
	v128.xor
	local.get	5
	v128.and
	i32.const	1
	i8x16.shl
	v128.xor
	local.tee	6
	i32.const	2
	i8x16.shr_u
	local.tee	7
	local.get	11
	local.get	13
	local.get	12
	v128.xor
	local.get	5
	v128.and
	i32.const	1
	i8x16.shl
	v128.xor
	local.tee	8
	local.get	15
	v128.bitselect
	local.tee	11
	local.get	17
	v128.and
	local.get	18
	local.get	20
	local.get	19
	v128.xor
	local.get	5
	v128.and
	i32.const	1
	i8x16.shl
	v128.xor
	local.tee	12
	i32.const	2
	i8x16.shr_u
	local.tee	13
	local.get	23
	local.get	25
	local.get	24
	v128.xor
	local.get	5
	v128.and
	i32.const	1
	i8x16.shl
	v128.xor
	local.tee	5
	local.get	15
	v128.bitselect
	local.tee	16
	i32.const	4
	i8x16.shr_u
	v128.xor
	local.tee	18
	local.get	11
	v128.xor
	local.get	5
	i8x16.shuffle	0, 4, 8, 12, 1, 5, 9, 13, 2, 6, 10, 14, 3, 7, 11, 15
	v128.store	96:p2align=0
	local.get	0
	local.get	14
	local.get	10
	v128.xor
	local.get	15
	v128.and
	i32.const	2
	i8x16.shl
	local.get	9
	v128.xor
	local.tee	9
	local.get	17
	v128.and
	local.get	26
	local.get	22
	v128.xor
	local.get	15
	v128.and
	i32.const	2
	i8x16.shl
	local.get	21
	v128.xor
	local.tee	10
	i32.const	4
	i8x16.shr_u
	v128.xor
	local.tee	11
	local.get	9
	v128.xor
	local.get	5
	i8x16.shuffle	0, 4, 8, 12, 1, 5, 9, 13, 2, 6, 10, 14, 3, 7, 11, 15
	v128.store	80:p2align=0
	local.get	0
	local.get	18
	i32.const	4
	i8x16.shl
	local.get	16
	v128.xor
	local.get	5
	i8x16.shuffle	0, 4, 8, 12, 1, 5, 9, 13, 2, 6, 10, 14, 3, 7, 11, 15
	v128.store	32:p2align=0
	local.get	0
	local.get	11
	i32.const	4
	i8x16.shl
	local.get	10
	v128.xor
	local.get	5
	i8x16.shuffle	0, 4, 8, 12, 1, 5, 9, 13, 2, 6, 10, 14, 3, 7, 11, 15
	v128.store	16:p2align=0
	local.get	0
	local.get	8
	local.get	7
	v128.xor
	local.get	15
	v128.and
	i32.const	2
	i8x16.shl
	local.get	6
	v128.xor
	local.tee	6
	local.get	17
	v128.and
	local.get	5
	local.get	13
	v128.xor
	local.get	15
	v128.and
	i32.const	2
	i8x16.shl
	local.get	12
	v128.xor
	local.tee	5
	i32.const	4
	i8x16.shr_u
	v128.xor
	local.tee	15
	local.get	6
	v128.xor
	local.get	5
	i8x16.shuffle	0, 4, 8, 12, 1, 5, 9, 13, 2, 6, 10, 14, 3, 7, 11, 15
	v128.store	64:p2align=0
	local.get	0
	local.get	15
	i32.const	4
	i8x16.shl
	local.get	5
	v128.xor
	local.get	5
	i8x16.shuffle	0, 4, 8, 12, 1, 5, 9, 13, 2, 6, 10, 14, 3, 7, 11, 15
	v128.store	0:p2align=0
	local.get	4
	i32.const	128
	i32.add 
	global.set	__stack_pointer
                                        # fallthrough-return
	end_function
                                        # -- End function
	.section	.text.aes_soft__soft__ciphers__planes__EncryptPlaneCipher__process_planes____eab796f82dda8b4f_,"",@
	.type	aes_soft__soft__ciphers__planes__EncryptPlaneCipher__process_planes____eab796f82dda8b4f_,@function # -- Begin function aes_soft__soft__ciphers__planes__EncryptPlaneCipher__process_planes____eab796f82dda8b4f_
aes_soft__soft__ciphers__planes__EncryptPlaneCipher__process_planes____eab796f82dda8b4f_: # @aes_soft__soft__ciphers__planes__EncryptPlaneCipher__process_planes____eab796f82dda8b4f_
	.functype	aes_soft__soft__ciphers__planes__EncryptPlaneCipher__process_planes____eab796f82dda8b4f_ (i32, i64, i32) -> ()
	.local  	i32, i64, i64, i32, v128, v128, v128, v128, v128, v128, v128, v128, i32, v128, v128, v128, v128, v128
# %bb.0:                                # %start
	global.get	__stack_pointer
	i32.const	128
	i32.sub 
	local.tee	3
	global.set	__stack_pointer
	local.get	3
	local.get	2
	i32.const	128
	memory.copy	0, 0
	local.get	3
	local.get	3
	v128.load	112
	local.get	0
	v128.load	112
	v128.xor
	v128.store	112
	local.get	3
	local.get	3
	v128.load	96
	local.get	0
	v128.load	96
	v128.xor
	v128.store	96
	local.get	3
	local.get	3
	v128.load	80
	local.get	0
	v128.load	80
	v128.xor
	v128.store	80
	local.get	3
	local.get	3
	v128.load	64
	local.get	0
	v128.load	64
	v128.xor
	v128.store	64
	local.get	3
	local.get	3
	v128.load	48
	local.get	0
	v128.load	48
	v128.xor
	v128.store	48
	local.get	3
	local.get	3
	v128.load	32
	local.get	0
	v128.load	32
	v128.xor
	v128.store	32
	local.get	3
	local.get	3
	v128.load	16
	local.get	0
	v128.load	16
	v128.xor
	v128.store	16
	local.get	3
	local.get	3
	v128.load	0
	local.get	0
	v128.load	0
	v128.xor
	v128.store	0
	block   	
	local.get	1
	i64.const	-2
	i64.add 
	local.tee	4
	i64.const	2
	i64.shr_u
	local.tee	5
	i64.eqz
	br_if   	0                               # 0: down to label93
# %bb.1:                                # %join.7.preheader
	local.get	0
	local.set	6
.LBB34_2:                               # %join.7
                                        # =>This Inner Loop Header: Depth=1
	loop    	                                # label94:
	local.get	3
	call	aes_planes__soft__sbox__sub_bytes____fab3fa1ddd682008_
	local.get	3
	local.get	3
	v128.load	112
	local.tee	7
	local.get	7
	local.get	7
	i8x16.shuffle	5, 6, 7, 4, 9, 10, 11, 8, 13, 14, 15, 12, 1, 2, 3, 0
	local.tee	8
	v128.xor
	local.tee	7
	local.get	7
	i8x16.shuffle	10, 11, 8, 9, 14, 15, 12, 13, 2, 3, 0, 1, 6, 7, 4, 5
	local.get	6
	i32.const	240
	i32.add 
	v128.load	0
	v128.xor
	local.get	8
	v128.xor
	local.get	3
	v128.load	96
	local.tee	8
	local.get	8
	local.get	7
	i8x16.shuffle	5, 6, 7, 4, 9, 10, 11, 8, 13, 14, 15, 12, 1, 2, 3, 0
	local.tee	8
	v128.xor
	local.tee	9
	v128.xor
	v128.store	112
	local.get	3
	local.get	9
	local.get	7
	i8x16.shuffle	10, 11, 8, 9, 14, 15, 12, 13, 2, 3, 0, 1, 6, 7, 4, 5
	local.get	6
	i32.const	224
	i32.add 
	v128.load	0
	v128.xor
	local.get	8
	v128.xor
	local.get	3
	v128.load	80
	local.tee	8
	local.get	8
	local.get	7
	i8x16.shuffle	5, 6, 7, 4, 9, 10, 11, 8, 13, 14, 15, 12, 1, 2, 3, 0
	local.tee	8
	v128.xor
	local.tee	9
	v128.xor
	v128.store	96
	local.get	3
	local.get	9
	local.get	7
	i8x16.shuffle	10, 11, 8, 9, 14, 15, 12, 13, 2, 3, 0, 1, 6, 7, 4, 5
	local.get	6
	i32.const	208
	i32.add 
	v128.load	0
	v128.xor
	local.get	8
	v128.xor
	local.get	3
	v128.load	64
	local.tee	8
	local.get	8
	local.get	7
	i8x16.shuffle	5, 6, 7, 4, 9, 10, 11, 8, 13, 14, 15, 12, 1, 2, 3, 0
	local.tee	8
	v128.xor
	local.tee	9
	v128.xor
	v128.store	80
	local.get	3
	local.get	3
	v128.load	32
	local.tee	10
	local.get	10
	local.get	7
	i8x16.shuffle	5, 6, 7, 4, 9, 10, 11, 8, 13, 14, 15, 12, 1, 2, 3, 0
	local.tee	10
	v128.xor
	local.tee	11
	local.get	7
	i8x16.shuffle	10, 11, 8, 9, 14, 15, 12, 13, 2, 3, 0, 1, 6, 7, 4, 5
	local.get	6
	i32.const	160
	i32.add 
	v128.load	0
	v128.xor
	local.get	10
	v128.xor
	local.get	3
	v128.load	16
	local.tee	10
	local.get	10
	local.get	7
	i8x16.shuffle	5, 6, 7, 4, 9, 10, 11, 8, 13, 14, 15, 12, 1, 2, 3, 0
	local.tee	10
	v128.xor
	local.tee	12
	v128.xor
	v128.store	32
	local.get	3
	local.get	3
	v128.load	0
	local.tee	13
	local.get	13
	local.get	7
	i8x16.shuffle	5, 6, 7, 4, 9, 10, 11, 8, 13, 14, 15, 12, 1, 2, 3, 0
	local.tee	13
	v128.xor
	local.tee	14
	local.get	7
	i8x16.shuffle	10, 11, 8, 9, 14, 15, 12, 13, 2, 3, 0, 1, 6, 7, 4, 5
	local.get	6
	i32.const	128
	i32.add 
	v128.load	0
	v128.xor
	local.get	13
	v128.xor
	local.get	7
	v128.xor
	v128.store	0
	local.get	3
	local.get	9
	local.get	7
	i8x16.shuffle	10, 11, 8, 9, 14, 15, 12, 13, 2, 3, 0, 1, 6, 7, 4, 5
	local.get	6
	i32.const	192
	i32.add 
	v128.load	0
	v128.xor
	local.get	8
	v128.xor
	local.get	3
	v128.load	48
	local.tee	8
	local.get	8
	local.get	7
	i8x16.shuffle	5, 6, 7, 4, 9, 10, 11, 8, 13, 14, 15, 12, 1, 2, 3, 0
	local.tee	8
	v128.xor
	local.tee	9
	v128.xor
	local.get	7
	v128.xor
	v128.store	64
	local.get	3
	local.get	9
	local.get	7
	i8x16.shuffle	10, 11, 8, 9, 14, 15, 12, 13, 2, 3, 0, 1, 6, 7, 4, 5
	local.get	6
	i32.const	176
	i32.add 
	v128.load	0
	v128.xor
	local.get	8
	v128.xor
	local.get	11
	v128.xor
	local.get	7
	v128.xor
	v128.store	48
	local.get	3
	local.get	12
	local.get	7
	i8x16.shuffle	10, 11, 8, 9, 14, 15, 12, 13, 2, 3, 0, 1, 6, 7, 4, 5
	local.get	6
	i32.const	144
	i32.add 
	v128.load	0
	v128.xor
	local.get	10
	v128.xor
	local.get	14
	v128.xor
	local.get	7
	v128.xor
	v128.store	16
	local.get	3
	call	aes_planes__soft__sbox__sub_bytes____fab3fa1ddd682008_
	local.get	3
	local.get	3
	v128.load	112
	local.tee	7
	local.get	7
	local.get	7
	i8x16.shuffle	6, 7, 4, 5, 10, 11, 8, 9, 14, 15, 12, 13, 2, 3, 0, 1
	local.tee	8
	v128.xor
	local.tee	7
	local.get	7
	i8x16.shuffle	8, 9, 10, 11, 12, 13, 14, 15, 0, 1, 2, 3, 4, 5, 6, 7
	local.get	6
	i32.const	368
	i32.add 
	v128.load	0
	v128.xor
	local.get	8
	v128.xor
	local.get	3
	v128.load	96
	local.tee	8
	local.get	8
	local.get	7
	i8x16.shuffle	6, 7, 4, 5, 10, 11, 8, 9, 14, 15, 12, 13, 2, 3, 0, 1
	local.tee	8
	v128.xor
	local.tee	9
	v128.xor
	v128.store	112
	local.get	3
	local.get	9
	local.get	7
	i8x16.shuffle	8, 9, 10, 11, 12, 13, 14, 15, 0, 1, 2, 3, 4, 5, 6, 7
	local.get	6
	i32.const	352
	i32.add 
	v128.load	0
	v128.xor
	local.get	8
	v128.xor
	local.get	3
	v128.load	80
	local.tee	8
	local.get	8
	local.get	7
	i8x16.shuffle	6, 7, 4, 5, 10, 11, 8, 9, 14, 15, 12, 13, 2, 3, 0, 1
	local.tee	8
	v128.xor
	local.tee	9
	v128.xor
	v128.store	96
	local.get	3
	local.get	9
	local.get	7
	i8x16.shuffle	8, 9, 10, 11, 12, 13, 14, 15, 0, 1, 2, 3, 4, 5, 6, 7
	local.get	6
	i32.const	336
	i32.add 
	v128.load	0
	v128.xor
	local.get	8
	v128.xor
	local.get	3
	v128.load	64
	local.tee	8
	local.get	8
	local.get	7
	i8x16.shuffle	6, 7, 4, 5, 10, 11, 8, 9, 14, 15, 12, 13, 2, 3, 0, 1
	local.tee	8
	v128.xor
	local.tee	9
	v128.xor
	v128.store	80
	local.get	3
	local.get	3
	v128.load	32
	local.tee	10
	local.get	10
	local.get	7
	i8x16.shuffle	6, 7, 4, 5, 10, 11, 8, 9, 14, 15, 12, 13, 2, 3, 0, 1
	local.tee	10
	v128.xor
	local.tee	11
	local.get	7
	i8x16.shuffle	8, 9, 10, 11, 12, 13, 14, 15, 0, 1, 2, 3, 4, 5, 6, 7
	local.get	6
	i32.const	288
	i32.add 
	v128.load	0
	v128.xor
	local.get	10
	v128.xor
	local.get	3
	v128.load	16
	local.tee	10
	local.get	10
	local.get	7
	i8x16.shuffle	6, 7, 4, 5, 10, 11, 8, 9, 14, 15, 12, 13, 2, 3, 0, 1
	local.tee	10
	v128.xor
	local.tee	12
	v128.xor
	v128.store	32
	local.get	3
	local.get	3
	v128.load	0
	local.tee	13
	local.get	13
	local.get	7
	i8x16.shuffle	6, 7, 4, 5, 10, 11, 8, 9, 14, 15, 12, 13, 2, 3, 0, 1
	local.tee	13
	v128.xor
	local.tee	14
	local.get	7
	i8x16.shuffle	8, 9, 10, 11, 12, 13, 14, 15, 0, 1, 2, 3, 4, 5, 6, 7
	local.get	6
	i32.const	256
	i32.add 
	v128.load	0
	v128.xor
	local.get	13
	v128.xor
	local.get	7
	v128.xor
	v128.store	0
	local.get	3
	local.get	9
	local.get	7
	i8x16.shuffle	8, 9, 10, 11, 12, 13, 14, 15, 0, 1, 2, 3, 4, 5, 6, 7
	local.get	6
	i32.const	320
	i32.add 
	v128.load	0
	v128.xor
	local.get	8
	v128.xor
	local.get	3
	v128.load	48
	local.tee	8
	local.get	8
	local.get	7
	i8x16.shuffle	6, 7, 4, 5, 10, 11, 8, 9, 14, 15, 12, 13, 2, 3, 0, 1
	local.tee	8
	v128.xor
	local.tee	9
	v128.xor
	local.get	7
	v128.xor
	v128.store	64
	local.get	3
	local.get	9
	local.get	7
	i8x16.shuffle	8, 9, 10, 11, 12, 13, 14, 15, 0, 1, 2, 3, 4, 5, 6, 7
	local.get	6
	i32.const	304
	i32.add 
	v128.load	0
	v128.xor
	local.get	8
	v128.xor
	local.get	11
	v128.xor
	local.get	7
	v128.xor
	v128.store	48
	local.get	3
	local.get	12
	local.get	7
	i8x16.shuffle	8, 9, 10, 11, 12, 13, 14, 15, 0, 1, 2, 3, 4, 5, 6, 7
	local.get	6
	i32.const	272
	i32.add 
	v128.load	0
	v128.xor
	local.get	10
	v128.xor
	local.get	14
	v128.xor
	local.get	7
	v128.xor
	v128.store	16
	local.get	3
	call	aes_planes__soft__sbox__sub_bytes____fab3fa1ddd682008_
	local.get	3
	local.get	3
	v128.load	112
	local.tee	7
	local.get	7
	local.get	7
	i8x16.shuffle	7, 4, 5, 6, 11, 8, 9, 10, 15, 12, 13, 14, 3, 0, 1, 2
	local.tee	8
	v128.xor
	local.tee	7
	local.get	7
	i8x16.shuffle	10, 11, 8, 9, 14, 15, 12, 13, 2, 3, 0, 1, 6, 7, 4, 5
	local.get	6
	i32.const	496
	i32.add 
	v128.load	0
	v128.xor
	local.get	8
	v128.xor
	local.get	3
	v128.load	96
	local.tee	8
	local.get	8
	local.get	7
	i8x16.shuffle	7, 4, 5, 6, 11, 8, 9, 10, 15, 12, 13, 14, 3, 0, 1, 2
	local.tee	8
	v128.xor
	local.tee	9
	v128.xor
	v128.store	112
	local.get	3
	local.get	9
	local.get	7
	i8x16.shuffle	10, 11, 8, 9, 14, 15, 12, 13, 2, 3, 0, 1, 6, 7, 4, 5
	local.get	6
	i32.const	480
	i32.add 
	v128.load	0
	v128.xor
	local.get	8
	v128.xor
	local.get	3
	v128.load	80
	local.tee	8
	local.get	8
	local.get	7
	i8x16.shuffle	7, 4, 5, 6, 11, 8, 9, 10, 15, 12, 13, 14, 3, 0, 1, 2
	local.tee	8
	v128.xor
	local.tee	9
	v128.xor
	v128.store	96
	local.get	3
	local.get	9
	local.get	7
	i8x16.shuffle	10, 11, 8, 9, 14, 15, 12, 13, 2, 3, 0, 1, 6, 7, 4, 5
	local.get	6
	i32.const	464
	i32.add 
	v128.load	0
	v128.xor
	local.get	8
	v128.xor
	local.get	3
	v128.load	64
	local.tee	8
	local.get	8
	local.get	7
	i8x16.shuffle	7, 4, 5, 6, 11, 8, 9, 10, 15, 12, 13, 14, 3, 0, 1, 2
	local.tee	8
	v128.xor
	local.tee	9
	v128.xor
	v128.store	80
	local.get	3
	local.get	3
	v128.load	32
	local.tee	10
	local.get	10
	local.get	7
	i8x16.shuffle	7, 4, 5, 6, 11, 8, 9, 10, 15, 12, 13, 14, 3, 0, 1, 2
	local.tee	10
	v128.xor
	local.tee	11
	local.get	7
	i8x16.shuffle	10, 11, 8, 9, 14, 15, 12, 13, 2, 3, 0, 1, 6, 7, 4, 5
	local.get	6
	i32.const	416
	i32.add 
	v128.load	0
	v128.xor
	local.get	10
	v128.xor
	local.get	3
	v128.load	16
	local.tee	10
	local.get	10
	local.get	7
	i8x16.shuffle	7, 4, 5, 6, 11, 8, 9, 10, 15, 12, 13, 14, 3, 0, 1, 2
	local.tee	10
	v128.xor
	local.tee	12
	v128.xor
	v128.store	32
	local.get	3
	local.get	3
	v128.load	0
	local.tee	13
	local.get	13
	local.get	7
	i8x16.shuffle	7, 4, 5, 6, 11, 8, 9, 10, 15, 12, 13, 14, 3, 0, 1, 2
	local.tee	13
	v128.xor
	local.tee	14
	local.get	7
	i8x16.shuffle	10, 11, 8, 9, 14, 15, 12, 13, 2, 3, 0, 1, 6, 7, 4, 5
	local.get	6
	i32.const	384
	i32.add 
	v128.load	0
	v128.xor
	local.get	13
	v128.xor
	local.get	7
	v128.xor
	v128.store	0
	local.get	3
	local.get	9
	local.get	7
	i8x16.shuffle	10, 11, 8, 9, 14, 15, 12, 13, 2, 3, 0, 1, 6, 7, 4, 5
	local.get	6
	i32.const	448
	i32.add 
	v128.load	0
	v128.xor
	local.get	8
	v128.xor
	local.get	3
	v128.load	48
	local.tee	8
	local.get	8
	local.get	7
	i8x16.shuffle	7, 4, 5, 6, 11, 8, 9, 10, 15, 12, 13, 14, 3, 0, 1, 2
	local.tee	8
	v128.xor
	local.tee	9
	v128.xor
	local.get	7
	v128.xor
	v128.store	64
	local.get	3
	local.get	9
	local.get	7
	i8x16.shuffle	10, 11, 8, 9, 14, 15, 12, 13, 2, 3, 0, 1, 6, 7, 4, 5
	local.get	6
	i32.const	432
	i32.add 
	v128.load	0
	v128.xor
	local.get	8
	v128.xor
	local.get	11
	v128.xor
	local.get	7
	v128.xor
	v128.store	48
	local.get	3
	local.get	12
	local.get	7
	i8x16.shuffle	10, 11, 8, 9, 14, 15, 12, 13, 2, 3, 0, 1, 6, 7, 4, 5
	local.get	6
	i32.const	400
	i32.add 
	v128.load	0
	v128.xor
	local.get	10
	v128.xor
	local.get	14
	v128.xor
	local.get	7
	v128.xor
	v128.store	16
	local.get	3
	call	aes_planes__soft__sbox__sub_bytes____fab3fa1ddd682008_
	local.get	3
	local.get	3
	v128.load	112
	local.tee	7
	local.get	7
	local.get	7
	i8x16.shuffle	4, 5, 6, 7, 8, 9, 10, 11, 12, 13, 14, 15, 0, 1, 2, 3
	local.tee	8
	v128.xor
	local.tee	7
	local.get	7
	i8x16.shuffle	8, 9, 10, 11, 12, 13, 14, 15, 0, 1, 2, 3, 4, 5, 6, 7
	local.get	6
	i32.const	624
	i32.add 
	v128.load	0
	v128.xor
	local.get	8
	v128.xor
	local.get	3
	v128.load	96
	local.tee	8
	local.get	8
	local.get	7
	i8x16.shuffle	4, 5, 6, 7, 8, 9, 10, 11, 12, 13, 14, 15, 0, 1, 2, 3
	local.tee	8
	v128.xor
	local.tee	9
	v128.xor
	v128.store	112
	local.get	3
	local.get	9
	local.get	7
	i8x16.shuffle	8, 9, 10, 11, 12, 13, 14, 15, 0, 1, 2, 3, 4, 5, 6, 7
	local.get	6
	i32.const	608
	i32.add 
	v128.load	0
	v128.xor
	local.get	8
	v128.xor
	local.get	3
	v128.load	80
	local.tee	8
	local.get	8
	local.get	7
	i8x16.shuffle	4, 5, 6, 7, 8, 9, 10, 11, 12, 13, 14, 15, 0, 1, 2, 3
	local.tee	8
	v128.xor
	local.tee	9
	v128.xor
	v128.store	96
	local.get	3
	local.get	9
	local.get	7
	i8x16.shuffle	8, 9, 10, 11, 12, 13, 14, 15, 0, 1, 2, 3, 4, 5, 6, 7
	local.get	6
	i32.const	592
	i32.add 
	v128.load	0
	v128.xor
	local.get	8
	v128.xor
	local.get	3
	v128.load	64
	local.tee	8
	local.get	8
	local.get	7
	i8x16.shuffle	4, 5, 6, 7, 8, 9, 10, 11, 12, 13, 14, 15, 0, 1, 2, 3
	local.tee	8
	v128.xor
	local.tee	9
	v128.xor
	v128.store	80
	local.get	3
	local.get	3
	v128.load	32
	local.tee	10
	local.get	10
	local.get	7
	i8x16.shuffle	4, 5, 6, 7, 8, 9, 10, 11, 12, 13, 14, 15, 0, 1, 2, 3
	local.tee	10
	v128.xor
	local.tee	11
	local.get	7
	i8x16.shuffle	8, 9, 10, 11, 12, 13, 14, 15, 0, 1, 2, 3, 4, 5, 6, 7
	local.get	6
	i32.const	544
	i32.add 
	v128.load	0
	v128.xor
	local.get	10
	v128.xor
	local.get	3
	v128.load	16
	local.tee	10
	local.get	10
	local.get	7
	i8x16.shuffle	4, 5, 6, 7, 8, 9, 10, 11, 12, 13, 14, 15, 0, 1, 2, 3
	local.tee	10
	v128.xor
	local.tee	12
	v128.xor
	v128.store	32
	local.get	3
	local.get	3
	v128.load	0
	local.tee	13
	local.get	13
	local.get	7
	i8x16.shuffle	4, 5, 6, 7, 8, 9, 10, 11, 12, 13, 14, 15, 0, 1, 2, 3
	local.tee	13
	v128.xor
	local.tee	14
	local.get	7
	i8x16.shuffle	8, 9, 10, 11, 12, 13, 14, 15, 0, 1, 2, 3, 4, 5, 6, 7
	local.get	6
	i32.const	512
	i32.add 
	local.tee	15
	v128.load	0
	v128.xor
	local.get	13
	v128.xor
	local.get	7
	v128.xor
	v128.store	0
	local.get	3
	local.get	9
	local.get	7
	i8x16.shuffle	8, 9, 10, 11, 12, 13, 14, 15, 0, 1, 2, 3, 4, 5, 6, 7
	local.get	6
	i32.const	576
	i32.add 
	v128.load	0
	v128.xor
	local.get	8
	v128.xor
	local.get	3
	v128.load	48
	local.tee	8
	local.get	8
	local.get	7
	i8x16.shuffle	4, 5, 6, 7, 8, 9, 10, 11, 12, 13, 14, 15, 0, 1, 2, 3
	local.tee	8
	v128.xor
	local.tee	9
	v128.xor
	local.get	7
	v128.xor
	v128.store	64
	local.get	3
	local.get	9
	local.get	7
	i8x16.shuffle	8, 9, 10, 11, 12, 13, 14, 15, 0, 1, 2, 3, 4, 5, 6, 7
	local.get	6
	i32.const	560
	i32.add 
	v128.load	0
	v128.xor
	local.get	8
	v128.xor
	local.get	11
	v128.xor
	local.get	7
	v128.xor
	v128.store	48
	local.get	3
	local.get	12
	local.get	7
	i8x16.shuffle	8, 9, 10, 11, 12, 13, 14, 15, 0, 1, 2, 3, 4, 5, 6, 7
	local.get	6
	i32.const	528
	i32.add 
	v128.load	0
	v128.xor
	local.get	10
	v128.xor
	local.get	14
	v128.xor
	local.get	7
	v128.xor
	v128.store	16
	local.get	15
	local.set	6
	local.get	5
	i64.const	-1
	i64.add 
	local.tee	5
	i64.const	0
	i64.ne  
	br_if   	0                               # 0: up to label94
.LBB34_3:                               # %after.3
	end_loop
	end_block                               # label93:
	local.get	3
	call	aes_planes__soft__sbox__sub_bytes____fab3fa1ddd682008_
	local.get	3
	local.get	3
	v128.load	112
	local.tee	7
	local.get	7
	local.get	7
	i8x16.shuffle	5, 6, 7, 4, 9, 10, 11, 8, 13, 14, 15, 12, 1, 2, 3, 0
	local.tee	8
	v128.xor
	local.tee	7
	local.get	7
	i8x16.shuffle	10, 11, 8, 9, 14, 15, 12, 13, 2, 3, 0, 1, 6, 7, 4, 5
	local.get	0
	local.get	4
	i64.const	-4
	i64.and 
	local.tee	5
	i32.wrap_i64
	i32.const	7
	i32.shl 
	i32.add 
	local.tee	6
	v128.load	240
	v128.xor
	local.get	8
	v128.xor
	local.get	3
	v128.load	96
	local.tee	8
	local.get	8
	local.get	7
	i8x16.shuffle	5, 6, 7, 4, 9, 10, 11, 8, 13, 14, 15, 12, 1, 2, 3, 0
	local.tee	8
	v128.xor
	local.tee	10
	v128.xor
	local.tee	9
	v128.store	112
	local.get	3
	local.get	10
	local.get	7
	i8x16.shuffle	10, 11, 8, 9, 14, 15, 12, 13, 2, 3, 0, 1, 6, 7, 4, 5
	local.get	6
	v128.load	224
	v128.xor
	local.get	8
	v128.xor
	local.get	3
	v128.load	80
	local.tee	8
	local.get	8
	local.get	7
	i8x16.shuffle	5, 6, 7, 4, 9, 10, 11, 8, 13, 14, 15, 12, 1, 2, 3, 0
	local.tee	8
	v128.xor
	local.tee	11
	v128.xor
	local.tee	10
	v128.store	96
	local.get	3
	local.get	11
	local.get	7
	i8x16.shuffle	10, 11, 8, 9, 14, 15, 12, 13, 2, 3, 0, 1, 6, 7, 4, 5
	local.get	6
	v128.load	208
	v128.xor
	local.get	8
	v128.xor
	local.get	3
	v128.load	64
	local.tee	8
	local.get	8
	local.get	7
	i8x16.shuffle	5, 6, 7, 4, 9, 10, 11, 8, 13, 14, 15, 12, 1, 2, 3, 0
	local.tee	8
	v128.xor
	local.tee	14
	v128.xor
	local.tee	11
	v128.store	80
	local.get	3
	local.get	3
	v128.load	32
	local.tee	12
	local.get	12
	local.get	7
	i8x16.shuffle	5, 6, 7, 4, 9, 10, 11, 8, 13, 14, 15, 12, 1, 2, 3, 0
	local.tee	12
	v128.xor
	local.tee	16
	local.get	7
	i8x16.shuffle	10, 11, 8, 9, 14, 15, 12, 13, 2, 3, 0, 1, 6, 7, 4, 5
	local.get	6
	v128.load	160
	v128.xor
	local.get	12
	v128.xor
	local.get	3
	v128.load	16
	local.tee	12
	local.get	12
	local.get	7
	i8x16.shuffle	5, 6, 7, 4, 9, 10, 11, 8, 13, 14, 15, 12, 1, 2, 3, 0
	local.tee	17
	v128.xor
	local.tee	18
	v128.xor
	local.tee	12
	v128.store	32
	local.get	3
	local.get	3
	v128.load	0
	local.tee	13
	local.get	13
	local.get	7
	i8x16.shuffle	5, 6, 7, 4, 9, 10, 11, 8, 13, 14, 15, 12, 1, 2, 3, 0
	local.tee	13
	v128.xor
	local.tee	19
	local.get	7
	i8x16.shuffle	10, 11, 8, 9, 14, 15, 12, 13, 2, 3, 0, 1, 6, 7, 4, 5
	local.get	6
	v128.load	128
	v128.xor
	local.get	13
	v128.xor
	local.get	7
	v128.xor
	local.tee	13
	v128.store	0
	local.get	3
	local.get	14
	local.get	7
	i8x16.shuffle	10, 11, 8, 9, 14, 15, 12, 13, 2, 3, 0, 1, 6, 7, 4, 5
	local.get	6
	v128.load	192
	v128.xor
	local.get	8
	v128.xor
	local.get	3
	v128.load	48
	local.tee	8
	local.get	8
	local.get	7
	i8x16.shuffle	5, 6, 7, 4, 9, 10, 11, 8, 13, 14, 15, 12, 1, 2, 3, 0
	local.tee	8
	v128.xor
	local.tee	20
	v128.xor
	local.get	7
	v128.xor
	local.tee	14
	v128.store	64
	local.get	3
	local.get	20
	local.get	7
	i8x16.shuffle	10, 11, 8, 9, 14, 15, 12, 13, 2, 3, 0, 1, 6, 7, 4, 5
	local.get	6
	v128.load	176
	v128.xor
	local.get	8
	v128.xor
	local.get	16
	v128.xor
	local.get	7
	v128.xor
	local.tee	16
	v128.store	48
	local.get	3
	local.get	18
	local.get	7
	i8x16.shuffle	10, 11, 8, 9, 14, 15, 12, 13, 2, 3, 0, 1, 6, 7, 4, 5
	local.get	6
	v128.load	144
	v128.xor
	local.get	17
	v128.xor
	local.get	19
	v128.xor
	local.get	7
	v128.xor
	local.tee	17
	v128.store	16
	block   	
	block   	
	local.get	5
	i64.const	2
	i64.or  
	local.get	1
	i64.ge_u
	br_if   	0                               # 0: down to label96
# %bb.4:                                # %then.11
	local.get	3
	call	aes_planes__soft__sbox__sub_bytes____fab3fa1ddd682008_
	local.get	3
	local.get	3
	v128.load	112
	local.tee	7
	local.get	7
	local.get	7
	i8x16.shuffle	6, 7, 4, 5, 10, 11, 8, 9, 14, 15, 12, 13, 2, 3, 0, 1
	local.tee	8
	v128.xor
	local.tee	7
	local.get	7
	i8x16.shuffle	8, 9, 10, 11, 12, 13, 14, 15, 0, 1, 2, 3, 4, 5, 6, 7
	local.get	0
	local.get	4
	i32.wrap_i64
	i32.const	7
	i32.shl 
	i32.add 
	local.tee	6
	v128.load	112
	v128.xor
	local.get	8
	v128.xor
	local.get	3
	v128.load	96
	local.tee	8
	local.get	8
	local.get	7
	i8x16.shuffle	6, 7, 4, 5, 10, 11, 8, 9, 14, 15, 12, 13, 2, 3, 0, 1
	local.tee	8
	v128.xor
	local.tee	9
	v128.xor
	v128.store	112
	local.get	3
	local.get	9
	local.get	7
	i8x16.shuffle	8, 9, 10, 11, 12, 13, 14, 15, 0, 1, 2, 3, 4, 5, 6, 7
	local.get	6
	v128.load	96
	v128.xor
	local.get	8
	v128.xor
	local.get	3
	v128.load	80
	local.tee	8
	local.get	8
	local.get	7
	i8x16.shuffle	6, 7, 4, 5, 10, 11, 8, 9, 14, 15, 12, 13, 2, 3, 0, 1
	local.tee	8
	v128.xor
	local.tee	9
	v128.xor
	v128.store	96
	local.get	3
	local.get	9
	local.get	7
	i8x16.shuffle	8, 9, 10, 11, 12, 13, 14, 15, 0, 1, 2, 3, 4, 5, 6, 7
	local.get	6
	v128.load	80
	v128.xor
	local.get	8
	v128.xor
	local.get	3
	v128.load	64
	local.tee	8
	local.get	8
	local.get	7
	i8x16.shuffle	6, 7, 4, 5, 10, 11, 8, 9, 14, 15, 12, 13, 2, 3, 0, 1
	local.tee	8
	v128.xor
	local.tee	9
	v128.xor
	v128.store	80
	local.get	3
	local.get	3
	v128.load	32
	local.tee	10
	local.get	10
	local.get	7
	i8x16.shuffle	6, 7, 4, 5, 10, 11, 8, 9, 14, 15, 12, 13, 2, 3, 0, 1
	local.tee	10
	v128.xor
	local.tee	11
	local.get	7
	i8x16.shuffle	8, 9, 10, 11, 12, 13, 14, 15, 0, 1, 2, 3, 4, 5, 6, 7
	local.get	6
	v128.load	32
	v128.xor
	local.get	10
	v128.xor
	local.get	3
	v128.load	16
	local.tee	10
	local.get	10
	local.get	7
	i8x16.shuffle	6, 7, 4, 5, 10, 11, 8, 9, 14, 15, 12, 13, 2, 3, 0, 1
	local.tee	10
	v128.xor
	local.tee	12
	v128.xor
	v128.store	32
	local.get	3
	local.get	3
	v128.load	0
	local.tee	13
	local.get	13
	local.get	7
	i8x16.shuffle	6, 7, 4, 5, 10, 11, 8, 9, 14, 15, 12, 13, 2, 3, 0, 1
	local.tee	13
	v128.xor
	local.tee	14
	local.get	7
	i8x16.shuffle	8, 9, 10, 11, 12, 13, 14, 15, 0, 1, 2, 3, 4, 5, 6, 7
	local.get	6
	v128.load	0
	v128.xor
	local.get	13
	v128.xor
	local.get	7
	v128.xor
	v128.store	0
	local.get	3
	local.get	9
	local.get	7
	i8x16.shuffle	8, 9, 10, 11, 12, 13, 14, 15, 0, 1, 2, 3, 4, 5, 6, 7
	local.get	6
	v128.load	64
	v128.xor
	local.get	8
	v128.xor
	local.get	3
	v128.load	48
	local.tee	8
	local.get	8
	local.get	7
	i8x16.shuffle	6, 7, 4, 5, 10, 11, 8, 9, 14, 15, 12, 13, 2, 3, 0, 1
	local.tee	8
	v128.xor
	local.tee	9
	v128.xor
	local.get	7
	v128.xor
	v128.store	64
	local.get	3
	local.get	9
	local.get	7
	i8x16.shuffle	8, 9, 10, 11, 12, 13, 14, 15, 0, 1, 2, 3, 4, 5, 6, 7
	local.get	6
	v128.load	48
	v128.xor
	local.get	8
	v128.xor
	local.get	11
	v128.xor
	local.get	7
	v128.xor
	v128.store	48
	local.get	3
	local.get	12
	local.get	7
	i8x16.shuffle	8, 9, 10, 11, 12, 13, 14, 15, 0, 1, 2, 3, 4, 5, 6, 7
	local.get	6
	v128.load	16
	v128.xor
	local.get	10
	v128.xor
	local.get	14
	v128.xor
	local.get	7
	v128.xor
	v128.store	16
	local.get	3
	call	aes_planes__soft__sbox__sub_bytes____fab3fa1ddd682008_
	local.get	3
	v128.load	112
	local.tee	7
	local.get	7
	local.get	7
	i8x16.shuffle	7, 4, 5, 6, 11, 8, 9, 10, 15, 12, 13, 14, 3, 0, 1, 2
	local.tee	8
	v128.xor
	local.tee	7
	local.get	7
	i8x16.shuffle	10, 11, 8, 9, 14, 15, 12, 13, 2, 3, 0, 1, 6, 7, 4, 5
	local.get	0
	local.get	1
	i32.wrap_i64
	i32.const	7
	i32.shl 
	local.tee	15
	i32.add 
	local.tee	6
	i32.const	-16
	i32.add 
	v128.load	0
	v128.xor
	local.get	8
	v128.xor
	local.get	3
	v128.load	96
	local.tee	8
	local.get	8
	local.get	7
	i8x16.shuffle	7, 4, 5, 6, 11, 8, 9, 10, 15, 12, 13, 14, 3, 0, 1, 2
	local.tee	8
	v128.xor
	local.tee	10
	v128.xor
	local.set	9
	local.get	10
	local.get	7
	i8x16.shuffle	10, 11, 8, 9, 14, 15, 12, 13, 2, 3, 0, 1, 6, 7, 4, 5
	local.get	6
	i32.const	-32
	i32.add 
	v128.load	0
	v128.xor
	local.get	8
	v128.xor
	local.get	3
	v128.load	80
	local.tee	8
	local.get	8
	local.get	7
	i8x16.shuffle	7, 4, 5, 6, 11, 8, 9, 10, 15, 12, 13, 14, 3, 0, 1, 2
	local.tee	8
	v128.xor
	local.tee	11
	v128.xor
	local.set	10
	local.get	11
	local.get	7
	i8x16.shuffle	10, 11, 8, 9, 14, 15, 12, 13, 2, 3, 0, 1, 6, 7, 4, 5
	local.get	6
	i32.const	-48
	i32.add 
	v128.load	0
	v128.xor
	local.get	8
	v128.xor
	local.get	3
	v128.load	64
	local.tee	8
	local.get	8
	local.get	7
	i8x16.shuffle	7, 4, 5, 6, 11, 8, 9, 10, 15, 12, 13, 14, 3, 0, 1, 2
	local.tee	13
	v128.xor
	local.tee	14
	v128.xor
	local.set	11
	local.get	3
	v128.load	32
	local.tee	8
	local.get	8
	local.get	7
	i8x16.shuffle	7, 4, 5, 6, 11, 8, 9, 10, 15, 12, 13, 14, 3, 0, 1, 2
	local.tee	8
	v128.xor
	local.tee	16
	local.get	7
	i8x16.shuffle	10, 11, 8, 9, 14, 15, 12, 13, 2, 3, 0, 1, 6, 7, 4, 5
	local.get	6
	i32.const	-96
	i32.add 
	v128.load	0
	v128.xor
	local.get	8
	v128.xor
	local.get	3
	v128.load	16
	local.tee	8
	local.get	8
	local.get	7
	i8x16.shuffle	7, 4, 5, 6, 11, 8, 9, 10, 15, 12, 13, 14, 3, 0, 1, 2
	local.tee	17
	v128.xor
	local.tee	18
	v128.xor
	local.set	12
	local.get	3
	v128.load	0
	local.tee	8
	local.get	8
	local.get	7
	i8x16.shuffle	7, 4, 5, 6, 11, 8, 9, 10, 15, 12, 13, 14, 3, 0, 1, 2
	local.tee	8
	v128.xor
	local.tee	19
	local.get	7
	i8x16.shuffle	10, 11, 8, 9, 14, 15, 12, 13, 2, 3, 0, 1, 6, 7, 4, 5
	local.get	6
	i32.const	-128
	i32.add 
	v128.load	0
	v128.xor
	local.get	8
	v128.xor
	local.get	7
	v128.xor
	local.set	8
	local.get	14
	local.get	7
	i8x16.shuffle	10, 11, 8, 9, 14, 15, 12, 13, 2, 3, 0, 1, 6, 7, 4, 5
	local.get	6
	i32.const	-64
	i32.add 
	v128.load	0
	v128.xor
	local.get	13
	v128.xor
	local.get	3
	v128.load	48
	local.tee	13
	local.get	13
	local.get	7
	i8x16.shuffle	7, 4, 5, 6, 11, 8, 9, 10, 15, 12, 13, 14, 3, 0, 1, 2
	local.tee	13
	v128.xor
	local.tee	20
	v128.xor
	local.get	7
	v128.xor
	local.set	14
	local.get	20
	local.get	7
	i8x16.shuffle	10, 11, 8, 9, 14, 15, 12, 13, 2, 3, 0, 1, 6, 7, 4, 5
	local.get	6
	i32.const	-80
	i32.add 
	v128.load	0
	v128.xor
	local.get	13
	v128.xor
	local.get	16
	v128.xor
	local.get	7
	v128.xor
	local.set	16
	local.get	18
	local.get	7
	i8x16.shuffle	10, 11, 8, 9, 14, 15, 12, 13, 2, 3, 0, 1, 6, 7, 4, 5
	local.get	6
	i32.const	-112
	i32.add 
	v128.load	0
	v128.xor
	local.get	17
	v128.xor
	local.get	19
	v128.xor
	local.get	7
	v128.xor
	local.set	17
	br      	1                               # 1: down to label95
.LBB34_5:                               # %else.12
	end_block                               # label96:
	local.get	9
	local.get	9
	v128.const	0, 0, 0, 0, 0, 0, 0, 0, 0, 0, 0, 0, 0, 0, 0, 0
	local.tee	7
	i8x16.shuffle	2, 3, 4, 5, 6, 7, 8, 9, 10, 11, 12, 13, 14, 15, 16, 16
	local.get	9
	v128.xor
	v128.const	0, 0, 0, 0, 255, 255, 0, 0, 0, 0, 0, 0, 255, 255, 0, 0
	local.tee	8
	v128.and
	local.tee	18
	local.get	7
	i8x16.shuffle	16, 16, 0, 1, 2, 3, 4, 5, 6, 7, 8, 9, 10, 11, 12, 13
	v128.xor
	local.get	18
	v128.xor
	local.set	9
	local.get	10
	local.get	10
	local.get	7
	i8x16.shuffle	2, 3, 4, 5, 6, 7, 8, 9, 10, 11, 12, 13, 14, 15, 16, 16
	local.get	10
	v128.xor
	local.get	8
	v128.and
	local.tee	18
	local.get	7
	i8x16.shuffle	16, 16, 0, 1, 2, 3, 4, 5, 6, 7, 8, 9, 10, 11, 12, 13
	v128.xor
	local.get	18
	v128.xor
	local.set	10
	local.get	11
	local.get	11
	local.get	7
	i8x16.shuffle	2, 3, 4, 5, 6, 7, 8, 9, 10, 11, 12, 13, 14, 15, 16, 16
	local.get	11
	v128.xor
	local.get	8
	v128.and
	local.tee	18
	local.get	7
	i8x16.shuffle	16, 16, 0, 1, 2, 3, 4, 5, 6, 7, 8, 9, 10, 11, 12, 13
	v128.xor
	local.get	18
	v128.xor
	local.set	11
	local.get	14
	local.get	14
	local.get	7
	i8x16.shuffle	2, 3, 4, 5, 6, 7, 8, 9, 10, 11, 12, 13, 14, 15, 16, 16
	local.get	14
	v128.xor
	local.get	8
	v128.and
	local.tee	18
	local.get	7
	i8x16.shuffle	16, 16, 0, 1, 2, 3, 4, 5, 6, 7, 8, 9, 10, 11, 12, 13
	v128.xor
	local.get	18
	v128.xor
	local.set	14
	local.get	16
	local.get	16
	local.get	7
	i8x16.shuffle	2, 3, 4, 5, 6, 7, 8, 9, 10, 11, 12, 13, 14, 15, 16, 16
	local.get	16
	v128.xor
	local.get	8
	v128.and
	local.tee	18
	local.get	7
	i8x16.shuffle	16, 16, 0, 1, 2, 3, 4, 5, 6, 7, 8, 9, 10, 11, 12, 13
	v128.xor
	local.get	18
	v128.xor
	local.set	16
	local.get	12
	local.get	12
	local.get	7
	i8x16.shuffle	2, 3, 4, 5, 6, 7, 8, 9, 10, 11, 12, 13, 14, 15, 16, 16
	local.get	12
	v128.xor
	local.get	8
	v128.and
	local.tee	18
	local.get	7
	i8x16.shuffle	16, 16, 0, 1, 2, 3, 4, 5, 6, 7, 8, 9, 10, 11, 12, 13
	v128.xor
	local.get	18
	v128.xor
	local.set	12
	local.get	17
	local.get	17
	local.get	7
	i8x16.shuffle	2, 3, 4, 5, 6, 7, 8, 9, 10, 11, 12, 13, 14, 15, 16, 16
	local.get	17
	v128.xor
	local.get	8
	v128.and
	local.tee	18
	local.get	7
	i8x16.shuffle	16, 16, 0, 1, 2, 3, 4, 5, 6, 7, 8, 9, 10, 11, 12, 13
	v128.xor
	local.get	18
	v128.xor
	local.set	17
	local.get	13
	local.get	13
	local.get	7
	i8x16.shuffle	2, 3, 4, 5, 6, 7, 8, 9, 10, 11, 12, 13, 14, 15, 16, 16
	local.get	13
	v128.xor
	local.get	8
	v128.and
	local.tee	8
	local.get	7
	i8x16.shuffle	16, 16, 0, 1, 2, 3, 4, 5, 6, 7, 8, 9, 10, 11, 12, 13
	v128.xor
	local.get	8
	v128.xor
	local.set	8
	local.get	1
	i32.wrap_i64
	i32.const	7
	i32.shl 
	local.set	15
.LBB34_6:                               # %join.13
	end_block                               # label95:
	local.get	3
	local.get	9
	v128.store	112
	local.get	3
	local.get	10
	v128.store	96
	local.get	3
	local.get	11
	v128.store	80
	local.get	3
	local.get	14
	v128.store	64
	local.get	3
	local.get	16
	v128.store	48
	local.get	3
	local.get	12
	v128.store	32
	local.get	3
	local.get	17
	v128.store	16
	local.get	3
	local.get	8
	v128.store	0
	local.get	3
	call	aes_planes__soft__sbox__sub_bytes____fab3fa1ddd682008_
	local.get	3
	local.get	3
	v128.load	112
	local.get	0
	local.get	15
	i32.add 
	local.tee	6
	v128.load	112
	v128.xor
	v128.store	112
	local.get	3
	local.get	3
	v128.load	96
	local.get	6
	v128.load	96
	v128.xor
	v128.store	96
	local.get	3
	local.get	3
	v128.load	80
	local.get	6
	v128.load	80
	v128.xor
	v128.store	80
	local.get	3
	local.get	3
	v128.load	64
	local.get	6
	v128.load	64
	v128.xor
	v128.store	64
	local.get	3
	local.get	3
	v128.load	48
	local.get	6
	v128.load	48
	v128.xor
	v128.store	48
	local.get	3
	local.get	3
	v128.load	32
	local.get	6
	v128.load	32
	v128.xor
	v128.store	32
	local.get	3
	local.get	3
	v128.load	16
	local.get	6
	v128.load	16
	v128.xor
	v128.store	16
	local.get	3
	local.get	3
	v128.load	0
	local.get	6
	v128.load	0
	v128.xor
	v128.store	0
	local.get	2
	local.get	3
	i32.const	128
	memory.copy	0, 0
	local.get	3
	i32.const	128
	i32.add 
	global.set	__stack_pointer
                                        # fallthrough-return
	end_function
                                        # -- End function
	.section	.text.aes_planes__soft__sbox__sub_bytes____fab3fa1ddd682008_,"",@
	.type	aes_planes__soft__sbox__sub_bytes____fab3fa1ddd682008_,@function # -- Begin function aes_planes__soft__sbox__sub_bytes____fab3fa1ddd682008_
aes_planes__soft__sbox__sub_bytes____fab3fa1ddd682008_: # @aes_planes__soft__sbox__sub_bytes____fab3fa1ddd682008_
	.functype	aes_planes__soft__sbox__sub_bytes____fab3fa1ddd682008_ (i32) -> ()
	.local  	v128, v128, v128, v128, v128, v128, v128, v128, v128, v128, v128, v128, v128, v128, v128, v128, v128, v128, v128, v128, v128, v128, v128, v128, v128, v128, v128, v128
# %bb.0:                                # %start
	local.get	0
	local.get	0
	v128.load	96
	local.tee	1
	local.get	0
	v128.load	80
	v128.xor
	local.tee	2
	local.get	0
	v128.load	0
	local.tee	3
	v128.xor
	local.tee	4
	local.get	0
	v128.load	64
	local.tee	5
	v128.xor
	local.tee	6
	local.get	3
	v128.and
	local.get	0
	v128.load	112
	local.tee	7
	local.get	0
	v128.load	32
	local.tee	8
	v128.xor
	local.tee	9
	v128.xor
	local.get	7
	local.get	0
	v128.load	16
	local.tee	10
	v128.xor
	local.tee	11
	local.get	5
	local.get	8
	v128.xor
	local.tee	12
	v128.xor
	local.tee	13
	local.get	0
	v128.load	48
	v128.xor
	local.tee	14
	local.get	8
	v128.xor
	local.tee	8
	local.get	2
	v128.xor
	local.tee	15
	v128.xor
	local.get	8
	local.get	13
	v128.and
	local.tee	16
	v128.xor
	local.get	15
	local.get	9
	v128.and
	local.get	14
	local.get	1
	v128.xor
	local.tee	14
	local.get	7
	local.get	5
	v128.xor
	local.tee	17
	v128.xor
	local.tee	5
	local.get	17
	v128.and
	local.tee	18
	v128.xor
	local.tee	19
	v128.xor
	local.tee	1
	local.get	5
	local.get	2
	v128.xor
	local.tee	2
	local.get	4
	local.get	10
	v128.xor
	local.tee	20
	local.get	4
	v128.and
	v128.xor
	local.get	2
	local.get	11
	v128.and
	local.tee	21
	v128.xor
	local.get	11
	v128.xor
	local.get	5
	local.get	15
	v128.xor
	local.tee	22
	local.get	12
	v128.and
	local.get	18
	v128.xor
	local.tee	18
	v128.xor
	local.tee	10
	local.get	14
	local.get	8
	local.get	3
	v128.xor
	local.tee	23
	local.get	20
	local.get	9
	v128.xor
	local.tee	24
	v128.and
	v128.xor
	local.get	16
	v128.xor
	local.get	18
	v128.xor
	local.tee	16
	v128.and
	local.tee	18
	local.get	10
	local.get	2
	local.get	5
	local.get	3
	v128.xor
	local.tee	25
	local.get	4
	local.get	7
	v128.xor
	local.tee	26
	v128.and
	v128.xor
	local.get	21
	v128.xor
	local.get	7
	v128.xor
	local.get	19
	v128.xor
	local.tee	14
	v128.xor
	v128.bitselect
	local.get	14
	v128.and
	local.tee	19
	local.get	18
	local.get	14
	v128.xor
	local.tee	7
	v128.xor
	local.get	16
	local.get	1
	local.get	7
	v128.bitselect
	local.tee	7
	v128.and
	local.get	16
	local.get	1
	v128.xor
	v128.xor
	local.tee	16
	local.get	19
	local.get	10
	v128.xor
	local.tee	19
	local.get	10
	local.get	14
	local.get	18
	local.get	1
	v128.xor
	v128.bitselect
	local.tee	1
	v128.xor
	local.tee	10
	v128.xor
	local.tee	14
	local.get	7
	local.get	1
	v128.xor
	local.tee	18
	v128.xor
	local.tee	21
	local.get	12
	v128.and
	local.get	18
	local.get	17
	v128.and
	local.tee	12
	v128.xor
	local.tee	17
	local.get	10
	local.get	24
	v128.and
	v128.xor
	local.tee	24
	local.get	19
	local.get	13
	v128.and
	v128.xor
	local.tee	13
	local.get	16
	local.get	7
	v128.xor
	local.tee	27
	local.get	2
	v128.and
	local.tee	2
	local.get	16
	local.get	4
	v128.and
	v128.xor
	local.tee	28
	local.get	21
	local.get	22
	v128.and
	v128.xor
	local.tee	21
	local.get	18
	local.get	5
	v128.and
	v128.xor
	local.tee	4
	v128.xor
	v128.store	112
	local.get	0
	local.get	14
	local.get	9
	v128.and
	local.get	12
	v128.xor
	local.get	4
	v128.xor
	local.get	14
	local.get	15
	v128.and
	local.get	19
	local.get	8
	v128.and
	local.tee	5
	local.get	1
	local.get	3
	v128.and
	v128.xor
	local.tee	9
	v128.xor
	local.get	27
	local.get	11
	v128.and
	local.tee	11
	v128.xor
	local.get	21
	v128.xor
	local.tee	8
	local.get	7
	local.get	26
	v128.and
	v128.xor
	local.tee	15
	v128.xor
	v128.store	80
	local.get	0
	local.get	5
	local.get	10
	local.get	23
	v128.and
	v128.xor
	local.get	28
	v128.xor
	local.get	13
	v128.xor
	local.tee	3
	v128.store	64
	local.get	0
	local.get	24
	local.get	1
	local.get	6
	v128.and
	v128.xor
	local.get	15
	v128.xor
	v128.store	32
	local.get	0
	local.get	17
	local.get	16
	local.get	20
	v128.and
	v128.xor
	local.get	9
	local.get	7
	local.get	25
	v128.and
	v128.xor
	local.get	2
	v128.xor
	local.tee	7
	v128.xor
	local.tee	5
	local.get	8
	v128.xor
	v128.store	16
	local.get	0
	local.get	5
	local.get	11
	v128.xor
	v128.store	0
	local.get	0
	local.get	3
	local.get	4
	v128.xor
	v128.store	96
	local.get	0
	local.get	3
	local.get	7
	v128.xor
	v128.store	48
                                        # fallthrough-return
	end_function
                                        # -- End function
	.section	.text.aes_soft__soft__blocks__filled_up__process_filled_up____2a076538018b6fb3_,"",@
	.type	aes_soft__soft__blocks__filled_up__process_filled_up____2a076538018b6fb3_,@function # -- Begin function aes_soft__soft__blocks__filled_up__process_filled_up____2a076538018b6fb3_
aes_soft__soft__blocks__filled_up__process_filled_up____2a076538018b6fb3_: # @aes_soft__soft__blocks__filled_up__process_filled_up____2a076538018b6fb3_
	.functype	aes_soft__soft__blocks__filled_up__process_filled_up____2a076538018b6fb3_ (i32, i64, i32, i64) -> ()
	.local  	i32, v128, i32, i64
# %bb.0:                                # %start
	global.get	__stack_pointer
	i32.const	384
	i32.sub 
	local.tee	4
	global.set	__stack_pointer
	local.get	4
	i32.const	128
	i32.add 
	i32.const	0
	i32.const	128
	memory.fill	0
	local.get	4
	i32.const	0
	i32.const	128
	memory.fill	0
	local.get	4
	local.get	2
	v128.load	0:p2align=0
	local.tee	5
	v128.store	256:p2align=3
	local.get	4
	local.get	5
	v128.store	272:p2align=3
	local.get	4
	local.get	5
	v128.store	288:p2align=3
	local.get	4
	local.get	5
	v128.store	304:p2align=3
	local.get	4
	local.get	5
	v128.store	320:p2align=3
	local.get	4
	local.get	5
	v128.store	336:p2align=3
	local.get	4
	local.get	5
	v128.store	352:p2align=3
	local.get	4
	local.get	5
	v128.store	368:p2align=3
	local.get	1
	i64.const	3
	i64.shr_u
	i64.const	-1
	i64.add 
	local.set	1
	block   	
	block   	
	local.get	3
	i64.eqz
	br_if   	0                               # 0: down to label98
# %bb.1:                                # %join.8.i
	local.get	4
	local.get	2
	v128.load	0:p2align=0
	v128.store	256:p2align=3
	block   	
	local.get	3
	i64.const	1
	i64.eq  
	local.tee	6
	br_if   	0                               # 0: down to label99
# %bb.2:                                # %join.8.i.1
	local.get	4
	local.get	2
	v128.load	16:p2align=0
	v128.store	272:p2align=3
	local.get	3
	i64.const	2
	i64.eq  
	br_if   	0                               # 0: down to label99
# %bb.3:                                # %join.8.i.2
	local.get	4
	local.get	2
	v128.load	32:p2align=0
	v128.store	288:p2align=3
	local.get	3
	i64.const	3
	i64.eq  
	br_if   	0                               # 0: down to label99
# %bb.4:                                # %join.8.i.3
	local.get	4
	local.get	2
	v128.load	48:p2align=0
	v128.store	304:p2align=3
	local.get	3
	i64.const	4
	i64.eq  
	br_if   	0                               # 0: down to label99
# %bb.5:                                # %join.8.i.4
	local.get	4
	local.get	2
	v128.load	64:p2align=0
	v128.store	320:p2align=3
	local.get	3
	i64.const	5
	i64.eq  
	br_if   	0                               # 0: down to label99
# %bb.6:                                # %join.8.i.5
	local.get	4
	local.get	2
	v128.load	80:p2align=0
	v128.store	336:p2align=3
	local.get	3
	i64.const	6
	i64.eq  
	br_if   	0                               # 0: down to label99
# %bb.7:                                # %join.8.i.6
	local.get	4
	local.get	2
	v128.load	96:p2align=0
	v128.store	352:p2align=3
.LBB36_8:                               # %aes_soft__soft__blocks__filled_up__filled_up____65d77337c4222250_.exit
	end_block                               # label99:
	local.get	4
	local.get	0
	local.get	1
	local.get	4
	i32.const	256
	i32.add 
	call	aes_soft__soft__ciphers__planes__process_outlined____bddb9db0bc69ed2a_
	local.get	4
	i32.const	128
	i32.add 
	local.get	4
	i32.const	128
	memory.copy	0, 0
	i64.const	0
	local.set	1
	block   	
	local.get	6
	br_if   	0                               # 0: down to label100
# %bb.9:                                # %aes_soft__soft__blocks__filled_up__filled_up____65d77337c4222250_.exit.new
	local.get	3
	i64.const	1
	i64.and 
	local.set	7
	local.get	3
	i64.const	6
	i64.and 
	local.set	3
	i64.const	0
	local.set	1
	local.get	4
	i32.const	128
	i32.add 
	local.set	0
	local.get	2
	local.set	6
.LBB36_10:                              # %join.8.i22
                                        # =>This Inner Loop Header: Depth=1
	loop    	                                # label101:
	local.get	6
	local.get	0
	v128.load	0:p2align=0
	v128.store	0:p2align=0
	local.get	6
	i32.const	16
	i32.add 
	local.get	0
	i32.const	16
	i32.add 
	v128.load	0:p2align=0
	v128.store	0:p2align=0
	local.get	6
	i32.const	32
	i32.add 
	local.set	6
	local.get	0
	i32.const	32
	i32.add 
	local.set	0
	local.get	3
	local.get	1
	i64.const	2
	i64.add 
	local.tee	1
	i64.ne  
	br_if   	0                               # 0: up to label101
# %bb.11:                               # %aes_soft__soft__blocks__filled_up__copy_first____65d77337c4222250_.exit.loopexit.unr-lcssa
	end_loop
	local.get	7
	i64.eqz
	br_if   	2                               # 2: down to label97
.LBB36_12:                              # %join.8.i22.epil.preheader
	end_block                               # label100:
	local.get	2
	local.get	1
	i32.wrap_i64
	i32.const	4
	i32.shl 
	local.tee	0
	i32.add 
	local.get	4
	i32.const	128
	i32.add 
	local.get	0
	i32.add 
	v128.load	0:p2align=0
	v128.store	0:p2align=0
	br      	1                               # 1: down to label97
.LBB36_13:                              # %aes_soft__soft__blocks__filled_up__copy_first____65d77337c4222250_.exit.critedge
	end_block                               # label98:
	local.get	4
	local.get	0
	local.get	1
	local.get	4
	i32.const	256
	i32.add 
	call	aes_soft__soft__ciphers__planes__process_outlined____bddb9db0bc69ed2a_
	local.get	4
	i32.const	128
	i32.add 
	local.get	4
	i32.const	128
	memory.copy	0, 0
.LBB36_14:                              # %aes_soft__soft__blocks__filled_up__copy_first____65d77337c4222250_.exit
	end_block                               # label97:
	local.get	4
	i32.const	384
	i32.add 
	global.set	__stack_pointer
                                        # fallthrough-return
	end_function
                                        # -- End function
	.section	.text.aes_cipher__zeroize__zeroize_words____fab3fa1ddd682008_,"",@
	.type	aes_cipher__zeroize__zeroize_words____fab3fa1ddd682008_,@function # -- Begin function aes_cipher__zeroize__zeroize_words____fab3fa1ddd682008_
aes_cipher__zeroize__zeroize_words____fab3fa1ddd682008_: # @aes_cipher__zeroize__zeroize_words____fab3fa1ddd682008_
	.functype	aes_cipher__zeroize__zeroize_words____fab3fa1ddd682008_ (i32) -> ()
	.local  	i64, i32, i64, i32
# %bb.0:                                # %start
	i64.const	0
	local.set	1
	global.get	__stack_pointer
	i32.const	16
	i32.sub 
	local.tee	2
	i64.const	0
	i64.store	8
	#APP
	#NO_APP
	local.get	2
	i64.load	8
	local.set	3
	#APP
	#NO_APP
	block   	
	block   	
	local.get	3
	i64.const	120
	i64.lt_u
	br_if   	0                               # 0: down to label103
# %bb.1:                                # %aes_cipher__zeroize__observe____75b1955848bb803f_.exit12
	local.get	0
	i32.const	0
	i32.const	1920
	memory.fill	0
	br      	1                               # 1: down to label102
.LBB37_2:                               # %then.1.i
	end_block                               # label103:
	local.get	0
	local.get	3
	i32.wrap_i64
	i32.const	4
	i32.shl 
	i32.add 
	local.tee	4
	i64.load8_u	0
	local.set	1
	local.get	0
	i32.const	0
	i32.const	1920
	memory.fill	0
	local.get	1
	local.get	4
	i64.load8_u	0
	i64.and 
	local.set	1
.LBB37_3:                               # %aes_cipher__zeroize__observe____75b1955848bb803f_.exit
	end_block                               # label102:
	#APP
	#NO_APP
	local.get	2
	i64.load	8
	drop
	local.get	2
	local.get	1
	i64.store	8
	#APP
	#NO_APP
                                        # fallthrough-return
	end_function
                                        # -- End function
	.section	.text.aes_cipher__zeroize__stack__wipe_stack____1792_,"",@
	.type	aes_cipher__zeroize__stack__wipe_stack____1792_,@function # -- Begin function aes_cipher__zeroize__stack__wipe_stack____1792_
aes_cipher__zeroize__stack__wipe_stack____1792_: # @aes_cipher__zeroize__stack__wipe_stack____1792_
	.functype	aes_cipher__zeroize__stack__wipe_stack____1792_ () -> ()
	.local  	i32, i64
# %bb.0:                                # %start
	global.get	__stack_pointer
	i32.const	1808
	i32.sub 
	local.tee	0
	global.set	__stack_pointer
	local.get	0
	i32.const	16
	i32.add 
	i32.const	0
	i32.const	1792
	memory.fill	0
	local.get	0
	i64.const	0
	i64.store	8
	#APP
	#NO_APP
	local.get	0
	i64.load	8
	local.set	1
	#APP
	#NO_APP
	block   	
	local.get	1
	i64.const	1792
	i64.ge_u
	br_if   	0                               # 0: down to label104
# %bb.1:                                # %then.1
	local.get	0
	i32.const	16
	i32.add 
	local.get	1
	i32.wrap_i64
	i32.add 
	i64.load8_u	0
	local.set	1
	#APP
	#NO_APP
	local.get	0
	i64.load	8
	drop
	local.get	0
	local.get	1
	i64.store	8
	#APP
	#NO_APP
.LBB38_2:                               # %common.ret
	end_block                               # label104:
	local.get	0
	i32.const	1808
	i32.add 
	global.set	__stack_pointer
                                        # fallthrough-return
	end_function
                                        # -- End function
	.section	.text.aes_permute__blocks__process_on_lanes____06aaae76f5856d0a_,"",@
	.type	aes_permute__blocks__process_on_lanes____06aaae76f5856d0a_,@function # -- Begin function aes_permute__blocks__process_on_lanes____06aaae76f5856d0a_
aes_permute__blocks__process_on_lanes____06aaae76f5856d0a_: # @aes_permute__blocks__process_on_lanes____06aaae76f5856d0a_
	.functype	aes_permute__blocks__process_on_lanes____06aaae76f5856d0a_ (i32, i64, i32, i64) -> ()
	.local  	i64, i64, i64, i32, i32, v128, v128, v128, i32, v128, v128, v128, i64, v128, v128, v128, v128, v128, v128, i32, v128, v128, v128
# %bb.0:                                # %start
	i64.const	0
	local.set	4
	block   	
	local.get	3
	i64.const	2
	i64.lt_u
	br_if   	0                               # 0: down to label105
# %bb.1:                                # %join.5.lr.ph
	local.get	1
	i64.const	-2
	i64.add 
	local.set	5
	local.get	0
	local.get	1
	i64.const	-1
	i64.add 
	local.tee	6
	i32.wrap_i64
	i32.const	4
	i32.shl 
	local.tee	7
	i32.add 
	local.set	8
	local.get	7
	i32.const	48
	i32.and 
	v128.load	.Lstatic.3:p2align=0
	local.set	9
	i64.const	0
	local.set	4
.LBB39_2:                               # %join.5
                                        # =>This Loop Header: Depth=1
                                        #     Child Loop BB39_4 Depth 2
	loop    	                                # label106:
	v128.const	0, 1, 28, 29, 45, 44, 49, 48, 39, 38, 59, 58, 10, 11, 22, 23
	local.tee	10
	local.get	0
	v128.load	0:p2align=0
	local.tee	11
	local.get	2
	local.get	4
	i32.wrap_i64
	i32.const	4
	i32.shl 
	i32.add 
	local.tee	12
	v128.load	16:p2align=0
	v128.xor
	local.tee	13
	v128.const	15, 15, 15, 15, 15, 15, 15, 15, 15, 15, 15, 15, 15, 15, 15, 15
	local.tee	14
	v128.and
	i8x16.swizzle
	v128.const	0, 134, 253, 123, 142, 8, 115, 245, 119, 241, 138, 12, 249, 127, 4, 130
	local.tee	15
	local.get	13
	i32.const	4
	i8x16.shr_u
	i8x16.swizzle
	v128.xor
	local.set	13
	local.get	10
	local.get	11
	local.get	12
	v128.load	0:p2align=0
	v128.xor
	local.tee	11
	local.get	14
	v128.and
	i8x16.swizzle
	local.get	15
	local.get	11
	i32.const	4
	i8x16.shr_u
	i8x16.swizzle
	v128.xor
	local.set	15
	block   	
	local.get	6
	i64.const	2
	i64.lt_u
	br_if   	0                               # 0: down to label107
# %bb.3:                                # %join.5.i2620.preheader
                                        #   in Loop: Header=BB39_2 Depth=1
	i32.const	16
	local.set	7
	local.get	5
	local.set	16
.LBB39_4:                               # %join.5.i2620
                                        #   Parent Loop BB39_2 Depth=1
                                        # =>  This Inner Loop Header: Depth=2
	loop    	                                # label108:
	v128.const	0, 209, 229, 247, 230, 37, 18, 195, 38, 192, 55, 210, 244, 3, 17, 52
	local.tee	17
	v128.const	128, 1, 9, 14, 13, 11, 7, 6, 15, 2, 12, 5, 10, 4, 3, 8
	local.tee	10
	local.get	10
	local.get	13
	i32.const	4
	i8x16.shr_u
	local.tee	11
	local.get	13
	local.get	14
	v128.and
	local.tee	13
	v128.xor
	local.tee	18
	i8x16.swizzle
	v128.const	128, 2, 1, 15, 9, 5, 14, 12, 13, 4, 11, 10, 7, 8, 6, 3
	local.tee	19
	local.get	13
	i8x16.swizzle
	local.tee	13
	v128.xor
	i8x16.swizzle
	local.get	11
	v128.xor
	local.tee	20
	i8x16.swizzle
	v128.const	0, 124, 32, 207, 146, 1, 239, 147, 179, 33, 238, 206, 125, 178, 93, 92
	local.tee	21
	local.get	10
	local.get	10
	local.get	11
	i8x16.swizzle
	local.get	13
	v128.xor
	i8x16.swizzle
	local.get	18
	v128.xor
	local.tee	11
	i8x16.swizzle
	v128.xor
	v128.const	0, 230, 114, 183, 229, 198, 197, 35, 81, 180, 3, 113, 32, 151, 82, 148
	local.tee	22
	local.get	20
	i8x16.swizzle
	v128.const	0, 195, 79, 12, 252, 124, 67, 128, 207, 51, 63, 112, 191, 179, 240, 140
	local.tee	20
	local.get	11
	i8x16.swizzle
	v128.xor
	local.tee	13
	local.get	7
	i32.const	48
	i32.and 
	local.tee	23
	v128.load	.Lstatic.5:p2align=0
	local.tee	11
	i8x16.swizzle
	v128.xor
	local.tee	18
	local.get	11
	i8x16.swizzle
	local.get	13
	local.get	23
	v128.load	.Lstatic.6:p2align=0
	local.tee	24
	i8x16.swizzle
	v128.xor
	local.get	18
	v128.xor
	local.get	0
	local.get	7
	i32.add 
	v128.load	0:p2align=0
	local.tee	25
	v128.xor
	local.set	13
	local.get	17
	local.get	10
	local.get	10
	local.get	15
	i32.const	4
	i8x16.shr_u
	local.tee	18
	local.get	15
	local.get	14
	v128.and
	local.tee	15
	v128.xor
	local.tee	26
	i8x16.swizzle
	local.get	19
	local.get	15
	i8x16.swizzle
	local.tee	15
	v128.xor
	i8x16.swizzle
	local.get	18
	v128.xor
	local.tee	19
	i8x16.swizzle
	local.get	21
	local.get	10
	local.get	10
	local.get	18
	i8x16.swizzle
	local.get	15
	v128.xor
	i8x16.swizzle
	local.get	26
	v128.xor
	local.tee	10
	i8x16.swizzle
	v128.xor
	local.get	22
	local.get	19
	i8x16.swizzle
	local.get	20
	local.get	10
	i8x16.swizzle
	v128.xor
	local.tee	10
	local.get	11
	i8x16.swizzle
	v128.xor
	local.tee	15
	local.get	11
	i8x16.swizzle
	local.get	10
	local.get	24
	i8x16.swizzle
	v128.xor
	local.get	15
	v128.xor
	local.get	25
	v128.xor
	local.set	15
	local.get	7
	i32.const	16
	i32.add 
	local.set	7
	local.get	16
	i64.const	-1
	i64.add 
	local.tee	16
	i64.const	0
	i64.ne  
	br_if   	0                               # 0: up to label108
.LBB39_5:                               # %aes_permute__blocks__process_two_vectors____06aaae76f5856d0a_.exit
                                        #   in Loop: Header=BB39_2 Depth=1
	end_loop
	end_block                               # label107:
	local.get	12
	v128.const	0, 159, 97, 22, 194, 42, 119, 232, 137, 75, 93, 60, 181, 163, 212, 254
	local.tee	18
	v128.const	128, 1, 9, 14, 13, 11, 7, 6, 15, 2, 12, 5, 10, 4, 3, 8
	local.tee	10
	local.get	10
	local.get	13
	i32.const	4
	i8x16.shr_u
	local.tee	11
	local.get	13
	local.get	14
	v128.and
	local.tee	13
	v128.xor
	local.tee	17
	i8x16.swizzle
	v128.const	128, 2, 1, 15, 9, 5, 14, 12, 13, 4, 11, 10, 7, 8, 6, 3
	local.tee	19
	local.get	13
	i8x16.swizzle
	local.tee	13
	v128.xor
	i8x16.swizzle
	local.get	11
	v128.xor
	i8x16.swizzle
	v128.const	0, 203, 215, 176, 33, 141, 103, 172, 123, 90, 234, 61, 70, 246, 145, 28
	local.tee	20
	local.get	10
	local.get	10
	local.get	11
	i8x16.swizzle
	local.get	13
	v128.xor
	i8x16.swizzle
	local.get	17
	v128.xor
	i8x16.swizzle
	v128.xor
	local.get	9
	i8x16.swizzle
	local.get	8
	v128.load	0:p2align=0
	local.tee	13
	v128.xor
	v128.store	16:p2align=0
	local.get	12
	local.get	13
	local.get	18
	local.get	10
	local.get	10
	local.get	15
	i32.const	4
	i8x16.shr_u
	local.tee	11
	local.get	15
	local.get	14
	v128.and
	local.tee	15
	v128.xor
	local.tee	14
	i8x16.swizzle
	local.get	19
	local.get	15
	i8x16.swizzle
	local.tee	15
	v128.xor
	i8x16.swizzle
	local.get	11
	v128.xor
	i8x16.swizzle
	local.get	20
	local.get	10
	local.get	10
	local.get	11
	i8x16.swizzle
	local.get	15
	v128.xor
	i8x16.swizzle
	local.get	14
	v128.xor
	i8x16.swizzle
	v128.xor
	local.get	9
	i8x16.swizzle
	v128.xor
	v128.store	0:p2align=0
	local.get	3
	local.get	4
	i64.const	2
	i64.add 
	local.tee	4
	i64.sub 
	i64.const	1
	i64.gt_u
	br_if   	0                               # 0: up to label106
.LBB39_6:                               # %loop.7.preheader
	end_loop
	end_block                               # label105:
	block   	
	local.get	3
	local.get	4
	i64.eq  
	br_if   	0                               # 0: down to label109
# %bb.7:                                # %join.10.lr.ph
	local.get	1
	i64.const	-2
	i64.add 
	local.set	5
	local.get	0
	local.get	1
	i64.const	-1
	i64.add 
	local.tee	6
	i32.wrap_i64
	i32.const	4
	i32.shl 
	local.tee	7
	i32.add 
	local.set	8
	local.get	7
	i32.const	48
	i32.and 
	v128.load	.Lstatic.3:p2align=0
	local.set	17
.LBB39_8:                               # %join.10
                                        # =>This Loop Header: Depth=1
                                        #     Child Loop BB39_10 Depth 2
	loop    	                                # label110:
	v128.const	0, 1, 28, 29, 45, 44, 49, 48, 39, 38, 59, 58, 10, 11, 22, 23
	local.get	0
	v128.load	0:p2align=0
	local.get	2
	local.get	4
	i32.wrap_i64
	i32.const	4
	i32.shl 
	i32.add 
	local.tee	12
	v128.load	0:p2align=0
	v128.xor
	local.tee	10
	v128.const	15, 15, 15, 15, 15, 15, 15, 15, 15, 15, 15, 15, 15, 15, 15, 15
	local.tee	14
	v128.and
	i8x16.swizzle
	v128.const	0, 134, 253, 123, 142, 8, 115, 245, 119, 241, 138, 12, 249, 127, 4, 130
	local.get	10
	i32.const	4
	i8x16.shr_u
	i8x16.swizzle
	v128.xor
	local.set	11
	block   	
	local.get	6
	i64.const	2
	i64.lt_u
	br_if   	0                               # 0: down to label111
# %bb.9:                                # %join.5.i60.preheader
                                        #   in Loop: Header=BB39_8 Depth=1
	local.get	5
	local.set	16
	i32.const	16
	local.set	7
.LBB39_10:                              # %join.5.i60
                                        #   Parent Loop BB39_8 Depth=1
                                        # =>  This Inner Loop Header: Depth=2
	loop    	                                # label112:
	local.get	0
	local.get	7
	i32.add 
	v128.load	0:p2align=0
	v128.const	0, 209, 229, 247, 230, 37, 18, 195, 38, 192, 55, 210, 244, 3, 17, 52
	v128.const	128, 1, 9, 14, 13, 11, 7, 6, 15, 2, 12, 5, 10, 4, 3, 8
	local.tee	10
	local.get	10
	local.get	11
	i32.const	4
	i8x16.shr_u
	local.tee	13
	local.get	11
	local.get	14
	v128.and
	local.tee	11
	v128.xor
	local.tee	15
	i8x16.swizzle
	v128.const	128, 2, 1, 15, 9, 5, 14, 12, 13, 4, 11, 10, 7, 8, 6, 3
	local.get	11
	i8x16.swizzle
	local.tee	11
	v128.xor
	i8x16.swizzle
	local.get	13
	v128.xor
	local.tee	18
	i8x16.swizzle
	v128.const	0, 124, 32, 207, 146, 1, 239, 147, 179, 33, 238, 206, 125, 178, 93, 92
	local.get	10
	local.get	10
	local.get	13
	i8x16.swizzle
	local.get	11
	v128.xor
	i8x16.swizzle
	local.get	15
	v128.xor
	local.tee	10
	i8x16.swizzle
	v128.xor
	v128.const	0, 230, 114, 183, 229, 198, 197, 35, 81, 180, 3, 113, 32, 151, 82, 148
	local.get	18
	i8x16.swizzle
	v128.const	0, 195, 79, 12, 252, 124, 67, 128, 207, 51, 63, 112, 191, 179, 240, 140
	local.get	10
	i8x16.swizzle
	v128.xor
	local.tee	10
	local.get	7
	i32.const	48
	i32.and 
	local.tee	23
	v128.load	.Lstatic.5:p2align=0
	local.tee	11
	i8x16.swizzle
	v128.xor
	local.tee	13
	local.get	11
	i8x16.swizzle
	v128.xor
	local.get	10
	local.get	23
	v128.load	.Lstatic.6:p2align=0
	i8x16.swizzle
	v128.xor
	local.get	13
	v128.xor
	local.set	11
	local.get	7
	i32.const	16
	i32.add 
	local.set	7
	local.get	16
	i64.const	-1
	i64.add 
	local.tee	16
	i64.const	0
	i64.ne  
	br_if   	0                               # 0: up to label112
.LBB39_11:                              # %aes_permute__blocks__process_vector____06aaae76f5856d0a_.exit64
                                        #   in Loop: Header=BB39_8 Depth=1
	end_loop
	end_block                               # label111:
	local.get	12
	v128.const	0, 159, 97, 22, 194, 42, 119, 232, 137, 75, 93, 60, 181, 163, 212, 254
	v128.const	128, 1, 9, 14, 13, 11, 7, 6, 15, 2, 12, 5, 10, 4, 3, 8
	local.tee	10
	local.get	10
	local.get	11
	i32.const	4
	i8x16.shr_u
	local.tee	13
	local.get	11
	local.get	14
	v128.and
	local.tee	11
	v128.xor
	local.tee	15
	i8x16.swizzle
	v128.const	128, 2, 1, 15, 9, 5, 14, 12, 13, 4, 11, 10, 7, 8, 6, 3
	local.get	11
	i8x16.swizzle
	local.tee	11
	v128.xor
	i8x16.swizzle
	local.get	13
	v128.xor
	i8x16.swizzle
	v128.const	0, 203, 215, 176, 33, 141, 103, 172, 123, 90, 234, 61, 70, 246, 145, 28
	local.get	10
	local.get	10
	local.get	13
	i8x16.swizzle
	local.get	11
	v128.xor
	i8x16.swizzle
	local.get	15
	v128.xor
	i8x16.swizzle
	v128.xor
	local.get	17
	i8x16.swizzle
	local.get	8
	v128.load	0:p2align=0
	v128.xor
	v128.store	0:p2align=0
	local.get	3
	local.get	4
	i64.const	1
	i64.add 
	local.tee	4
	i64.ne  
	br_if   	0                               # 0: up to label110
.LBB39_12:                              # %after.11
	end_loop
	end_block                               # label109:
                                        # fallthrough-return
	end_function
                                        # -- End function
	.section	.text.aes_hybrid__closures__lend_planes____8383eef3f4ca9323_,"",@
	.type	aes_hybrid__closures__lend_planes____8383eef3f4ca9323_,@function # -- Begin function aes_hybrid__closures__lend_planes____8383eef3f4ca9323_
aes_hybrid__closures__lend_planes____8383eef3f4ca9323_: # @aes_hybrid__closures__lend_planes____8383eef3f4ca9323_
	.functype	aes_hybrid__closures__lend_planes____8383eef3f4ca9323_ (i32, i64, i32, i64, i32) -> ()
	.local  	i32
# %bb.0:                                # %start
	global.get	__stack_pointer
	i32.const	1952
	i32.sub 
	local.tee	5
	global.set	__stack_pointer
	local.get	5
	i32.const	160
	i32.add 
	i32.const	0
	i32.const	1792
	memory.fill	0
	local.get	5
	i32.const	32
	i32.add 
	local.get	0
	local.get	1
	call	aes_hybrid__plane_keys__store_planes____fab3fa1ddd682008_
	local.get	5
	local.get	3
	i64.store	24
	local.get	5
	i32.const	0
	i32.store	20
	local.get	5
	local.get	2
	i32.store	16
	local.get	5
	local.get	1
	i64.store	8
	local.get	5
	i32.const	0
	i32.store	4
	local.get	5
	local.get	0
	i32.store	0
	local.get	5
	local.get	5
	i32.const	32
	i32.add 
	local.get	1
	i64.const	3
	i64.shl 
	local.get	4
	call	aes_hybrid__closures__call_to_work____8383eef3f4ca9323_
	local.get	5
	i32.const	32
	i32.add 
	call	aes_cipher__zeroize__zeroize_words____fab3fa1ddd682008_
	call	aes_cipher__zeroize__stack__wipe_stack____2032_
	local.get	5
	i32.const	1952
	i32.add 
	global.set	__stack_pointer
                                        # fallthrough-return
	end_function
                                        # -- End function
	.section	.text.aes_hybrid__closures__call_to_work____8383eef3f4ca9323_,"",@
	.type	aes_hybrid__closures__call_to_work____8383eef3f4ca9323_,@function # -- Begin function aes_hybrid__closures__call_to_work____8383eef3f4ca9323_
aes_hybrid__closures__call_to_work____8383eef3f4ca9323_: # @aes_hybrid__closures__call_to_work____8383eef3f4ca9323_
	.functype	aes_hybrid__closures__call_to_work____8383eef3f4ca9323_ (i32, i32, i64, i32) -> ()
	.local  	i32, i32, i64, i32, i64, i64, i64, i64, i64, i64, v128, v128, v128, v128, v128, v128, v128, v128, v128, v128, v128, v128, v128, v128, v128, v128, v128, v128, v128, v128, v128, v128, v128, v128
# %bb.0:                                # %start
	global.get	__stack_pointer
	i32.const	416
	i32.sub 
	local.tee	4
	global.set	__stack_pointer
	local.get	4
	local.get	2
	i64.store	24
	local.get	4
	i32.const	0
	i32.store	20
	local.get	4
	local.get	1
	i32.store	16
	local.get	4
	i32.const	0
	i32.store	12
	local.get	4
	local.get	0
	i32.store	8
	local.get	3
	i32.const	16
	i32.add 
	i32.load	0
	local.set	5
	local.get	3
	i32.const	24
	i32.add 
	i64.load	0
	local.set	6
	local.get	3
	i32.load	0
	local.set	7
	block   	
	block   	
	local.get	3
	i32.const	8
	i32.add 
	i64.load	0
	local.tee	8
	i64.const	15
	i64.and 
	i64.eqz
	i32.eqz
	br_if   	0                               # 0: down to label114
# %bb.1:
	i64.const	0
	local.set	9
	br      	1                               # 1: down to label113
.LBB41_2:                               # %then.1.i.i
	end_block                               # label114:
	local.get	4
	i32.const	8
	i32.add 
	local.get	7
	local.get	8
	i64.const	0
	local.get	5
	local.get	6
	call	aes_ctr__add_in_batches__add_next____849d7687381e9207_
	local.set	9
.LBB41_3:                               # %join.3.i.i
	end_block                               # label113:
	block   	
	local.get	6
	local.get	9
	i64.sub 
	i64.const	128
	i64.lt_u
	br_if   	0                               # 0: down to label115
# %bb.4:                                # %join.11.lr.ph.i.i
	local.get	2
	i64.const	3
	i64.shr_u
	i64.const	-1
	i64.add 
	local.set	10
.LBB41_5:                               # %join.11.i.i
                                        # =>This Loop Header: Depth=1
                                        #     Child Loop BB41_6 Depth 2
	loop    	                                # label116:
	i32.const	0
	local.set	3
	local.get	4
	i32.const	32
	i32.add 
	i32.const	0
	i32.const	256
	memory.fill	0
	i64.const	8
	local.set	2
	local.get	7
	i64.load	0:p2align=0
	local.tee	11
	i64.const	56
	i64.shl 
	local.get	11
	i64.const	65280
	i64.and 
	i64.const	40
	i64.shl 
	i64.or  
	local.get	11
	i64.const	16711680
	i64.and 
	i64.const	24
	i64.shl 
	local.get	11
	i64.const	4278190080
	i64.and 
	i64.const	8
	i64.shl 
	i64.or  
	i64.or  
	local.get	11
	i64.const	8
	i64.shr_u
	i64.const	4278190080
	i64.and 
	local.get	11
	i64.const	24
	i64.shr_u
	i64.const	16711680
	i64.and 
	i64.or  
	local.get	11
	i64.const	40
	i64.shr_u
	i64.const	65280
	i64.and 
	local.get	11
	i64.const	56
	i64.shr_u
	i64.or  
	i64.or  
	i64.or  
	local.set	11
	local.get	7
	i64.load	8:p2align=0
	local.tee	12
	i64.const	56
	i64.shl 
	local.get	12
	i64.const	65280
	i64.and 
	i64.const	40
	i64.shl 
	i64.or  
	local.get	12
	i64.const	16711680
	i64.and 
	i64.const	24
	i64.shl 
	local.get	12
	i64.const	4278190080
	i64.and 
	i64.const	8
	i64.shl 
	i64.or  
	i64.or  
	local.get	12
	i64.const	8
	i64.shr_u
	i64.const	4278190080
	i64.and 
	local.get	12
	i64.const	24
	i64.shr_u
	i64.const	16711680
	i64.and 
	i64.or  
	local.get	12
	i64.const	40
	i64.shr_u
	i64.const	65280
	i64.and 
	local.get	12
	i64.const	56
	i64.shr_u
	i64.or  
	i64.or  
	local.tee	13
	i64.or  
	i64.const	-4294967296
	i64.and 
	local.set	12
	local.get	13
	i32.wrap_i64
	local.get	9
	local.get	8
	i64.add 
	i64.const	4
	i64.shr_u
	i32.wrap_i64
	i32.add 
	local.set	0
.LBB41_6:                               # %join.7.i.i.i.i
                                        #   Parent Loop BB41_5 Depth=1
                                        # =>  This Inner Loop Header: Depth=2
	loop    	                                # label117:
	local.get	4
	i32.const	32
	i32.add 
	local.get	3
	i32.add 
	local.get	12
	local.get	0
	i64.extend_i32_u
	i64.or  
	i64x2.splat
	local.get	11
	i64x2.replace_lane	1
	local.get	14
	i8x16.shuffle	15, 14, 13, 12, 11, 10, 9, 8, 7, 6, 5, 4, 3, 2, 1, 0
	v128.store	0
	local.get	3
	i32.const	16
	i32.add 
	local.set	3
	local.get	0
	i32.const	1
	i32.add 
	local.set	0
	local.get	2
	i64.const	-1
	i64.add 
	local.tee	2
	i64.const	0
	i64.ne  
	br_if   	0                               # 0: up to label117
# %bb.7:                                # %gcm__gctr__LastBitsCounterBlocks__put.exit.i.i.i
                                        #   in Loop: Header=BB41_5 Depth=1
	end_loop
	local.get	4
	local.get	4
	v128.load	96
	local.get	14
	i8x16.shuffle	0, 4, 8, 12, 1, 5, 9, 13, 2, 6, 10, 14, 3, 7, 11, 15
	local.tee	15
	i32.const	1
	i8x16.shr_u
	local.tee	16
	local.get	4
	v128.load	112
	local.get	14
	i8x16.shuffle	0, 4, 8, 12, 1, 5, 9, 13, 2, 6, 10, 14, 3, 7, 11, 15
	local.tee	17
	v128.const	85, 85, 85, 85, 85, 85, 85, 85, 85, 85, 85, 85, 85, 85, 85, 85
	local.tee	14
	v128.bitselect
	local.tee	18
	i32.const	2
	i8x16.shr_u
	local.tee	19
	local.get	4
	v128.load	128
	local.get	14
	i8x16.shuffle	0, 4, 8, 12, 1, 5, 9, 13, 2, 6, 10, 14, 3, 7, 11, 15
	local.tee	20
	i32.const	1
	i8x16.shr_u
	local.tee	21
	local.get	4
	v128.load	144
	local.get	14
	i8x16.shuffle	0, 4, 8, 12, 1, 5, 9, 13, 2, 6, 10, 14, 3, 7, 11, 15
	local.tee	22
	local.get	14
	v128.bitselect
	local.tee	23
	v128.const	51, 51, 51, 51, 51, 51, 51, 51, 51, 51, 51, 51, 51, 51, 51, 51
	local.tee	24
	v128.bitselect
	local.tee	25
	v128.const	15, 15, 15, 15, 15, 15, 15, 15, 15, 15, 15, 15, 15, 15, 15, 15
	local.tee	26
	v128.and
	local.get	4
	v128.load	32
	local.get	14
	i8x16.shuffle	0, 4, 8, 12, 1, 5, 9, 13, 2, 6, 10, 14, 3, 7, 11, 15
	local.tee	27
	i32.const	1
	i8x16.shr_u
	local.tee	28
	local.get	4
	v128.load	48
	local.get	14
	i8x16.shuffle	0, 4, 8, 12, 1, 5, 9, 13, 2, 6, 10, 14, 3, 7, 11, 15
	local.tee	29
	local.get	14
	v128.bitselect
	local.tee	30
	i32.const	2
	i8x16.shr_u
	local.tee	31
	local.get	4
	v128.load	64
	local.get	14
	i8x16.shuffle	0, 4, 8, 12, 1, 5, 9, 13, 2, 6, 10, 14, 3, 7, 11, 15
	local.tee	32
	i32.const	1
	i8x16.shr_u
	local.tee	33
	local.get	4
	v128.load	80
	local.get	14
	i8x16.shuffle	0, 4, 8, 12, 1, 5, 9, 13, 2, 6, 10, 14, 3, 7, 11, 15
	local.tee	34
	local.get	14
	v128.bitselect
	local.tee	35
	local.get	24
	v128.bitselect
	local.tee	36
	i32.const	4
	i8x16.shr_u
	v128.xor
	local.tee	37
	local.get	25
	v128.xor
	v128.store	400
	local.get	4
	local.get	37
	i32.const	4
	i8x16.shl
	local.get	36
	v128.xor
	v128.store	336
	local.get	4
	local.get	17
	local.get	16
	v128.xor
	local.get	14
	v128.and
	i32.const	1
	i8x16.shl
	local.get	15
	v128.xor
	local.tee	15
	i32.const	2
	i8x16.shr_u
	local.tee	16
	local.get	22
	local.get	21
	v128.xor
	local.get	14
	v128.and
	i32.const	1
	i8x16.shl
	local.get	20
	v128.xor
	local.tee	17
	local.get	24
	v128.bitselect
	local.tee	20
	local.get	26
	v128.and
	local.get	29
	local.get	28
	v128.xor
	local.get	14
	v128.and
	i32.const	1
	i8x16.shl
	local.get	27
	v128.xor
	local.tee	21
	i32.const	2
	i8x16.shr_u
	local.tee	22
	local.get	34
	local.get	33
	v128.xor
	local.get	14
	v128.and
	i32.const	1
	i8x16.shl
	local.get	32
	v128.xor
	local.tee	25
	local.get	24
	v128.bitselect
	local.tee	27
	i32.const	4
	i8x16.shr_u
	v128.xor
	local.tee	28
	local.get	20
	v128.xor
	v128.store	384
	local.get	4
	local.get	23
	local.get	19
	v128.xor
	local.get	24
	v128.and
	i32.const	2
	i8x16.shl
	local.get	18
	v128.xor
	local.tee	18
	local.get	26
	v128.and
	local.get	35
	local.get	31
	v128.xor
	local.get	24
	v128.and
	i32.const	2
	i8x16.shl
	local.get	30
	v128.xor
	local.tee	19
	i32.const	4
	i8x16.shr_u
	v128.xor
	local.tee	20
	local.get	18
	v128.xor
	v128.store	368
	local.get	4
	local.get	28
	i32.const	4
	i8x16.shl
	local.get	27
	v128.xor
	v128.store	320
	local.get	4
	local.get	20
	i32.const	4
	i8x16.shl
	local.get	19
	v128.xor
	v128.store	304
	local.get	4
	local.get	17
	local.get	16
	v128.xor
	local.get	24
	v128.and
	i32.const	2
	i8x16.shl
	local.get	15
	v128.xor
	local.tee	15
	local.get	26
	v128.and
	local.get	25
	local.get	22
	v128.xor
	local.get	24
	v128.and
	i32.const	2
	i8x16.shl
	local.get	21
	v128.xor
	local.tee	16
	i32.const	4
	i8x16.shr_u
	v128.xor
	local.tee	17
	local.get	15
	v128.xor
	v128.store	352
	local.get	4
	local.get	17
	i32.const	4
	i8x16.shl
	local.get	16
	v128.xor
	v128.store	288
	local.get	1
	local.get	10
	local.get	4
	i32.const	288
	i32.add 
	call	aes_soft__soft__ciphers__planes__EncryptPlaneCipher__process_planes____eab796f82dda8b4f_
	local.get	4
	local.get	4
	v128.load	352
	local.tee	15
	i32.const	1
	i8x16.shr_u
	local.tee	16
	local.get	4
	v128.load	368
	local.tee	17
	local.get	14
	v128.bitselect
	local.tee	18
	i32.const	2
	i8x16.shr_u
	local.tee	19
	local.get	4
	v128.load	384
	local.tee	20
	i32.const	1
	i8x16.shr_u
	local.tee	21
	local.get	4
	v128.load	400
	local.tee	22
	local.get	14
	v128.bitselect
	local.tee	23
	local.get	24
	v128.bitselect
	local.tee	25
	local.get	26
	v128.and
	local.get	4
	v128.load	288
	local.tee	27
	i32.const	1
	i8x16.shr_u
	local.tee	28
	local.get	4
	v128.load	304
	local.tee	29
	local.get	14
	v128.bitselect
	local.tee	30
	i32.const	2
	i8x16.shr_u
	local.tee	31
	local.get	4
	v128.load	320
	local.tee	32
	i32.const	1
	i8x16.shr_u
	local.tee	33
	local.get	4
	v128.load	336
	local.tee	34
	local.get	14
	v128.bitselect
	local.tee	35
	local.get	24
	v128.bitselect
	local.tee	36
	i32.const	4
	i8x16.shr_u
	v128.xor
	local.tee	37
	local.get	25
	v128.xor
	local.get	14
	i8x16.shuffle	0, 4, 8, 12, 1, 5, 9, 13, 2, 6, 10, 14, 3, 7, 11, 15
	v128.store	144
	local.get	4
	local.get	37
	i32.const	4
	i8x16.shl
	local.get	36
	v128.xor
	local.get	14
	i8x16.shuffle	0, 4, 8, 12, 1, 5, 9, 13, 2, 6, 10, 14, 3, 7, 11, 15
	v128.store	80
	local.get	4
	local.get	15
	local.get	17
	local.get	16
	v128.xor
	local.get	14
	v128.and
	i32.const	1
	i8x16.shl
	v128.xor
	local.tee	15
	i32.const	2
	i8x16.shr_u
	local.tee	16
	local.get	20
	local.get	22
	local.get	21
	v128.xor
	local.get	14
	v128.and
	i32.const	1
	i8x16.shl
	v128.xor
	local.tee	17
	local.get	24
	v128.bitselect
	local.tee	20
	local.get	26
	v128.and
	local.get	27
	local.get	29
	local.get	28
	v128.xor
	local.get	14
	v128.and
	i32.const	1
	i8x16.shl
	v128.xor
	local.tee	21
	i32.const	2
	i8x16.shr_u
	local.tee	22
	local.get	32
	local.get	34
	local.get	33
	v128.xor
	local.get	14
	v128.and
	i32.const	1
	i8x16.shl
	v128.xor
	local.tee	14
	local.get	24
	v128.bitselect
	local.tee	25
	i32.const	4
	i8x16.shr_u
	v128.xor
	local.tee	27
	local.get	20
	v128.xor
	local.get	14
	i8x16.shuffle	0, 4, 8, 12, 1, 5, 9, 13, 2, 6, 10, 14, 3, 7, 11, 15
	v128.store	128
	local.get	4
	local.get	23
	local.get	19
	v128.xor
	local.get	24
	v128.and
	i32.const	2
	i8x16.shl
	local.get	18
	v128.xor
	local.tee	18
	local.get	26
	v128.and
	local.get	35
	local.get	31
	v128.xor
	local.get	24
	v128.and
	i32.const	2
	i8x16.shl
	local.get	30
	v128.xor
	local.tee	19
	i32.const	4
	i8x16.shr_u
	v128.xor
	local.tee	20
	local.get	18
	v128.xor
	local.get	14
	i8x16.shuffle	0, 4, 8, 12, 1, 5, 9, 13, 2, 6, 10, 14, 3, 7, 11, 15
	v128.store	112
	local.get	4
	local.get	27
	i32.const	4
	i8x16.shl
	local.get	25
	v128.xor
	local.get	14
	i8x16.shuffle	0, 4, 8, 12, 1, 5, 9, 13, 2, 6, 10, 14, 3, 7, 11, 15
	v128.store	64
	local.get	4
	local.get	20
	i32.const	4
	i8x16.shl
	local.get	19
	v128.xor
	local.get	14
	i8x16.shuffle	0, 4, 8, 12, 1, 5, 9, 13, 2, 6, 10, 14, 3, 7, 11, 15
	v128.store	48
	local.get	4
	local.get	17
	local.get	16
	v128.xor
	local.get	24
	v128.and
	i32.const	2
	i8x16.shl
	local.get	15
	v128.xor
	local.tee	15
	local.get	26
	v128.and
	local.get	14
	local.get	22
	v128.xor
	local.get	24
	v128.and
	i32.const	2
	i8x16.shl
	local.get	21
	v128.xor
	local.tee	14
	i32.const	4
	i8x16.shr_u
	v128.xor
	local.tee	24
	local.get	15
	v128.xor
	local.get	14
	i8x16.shuffle	0, 4, 8, 12, 1, 5, 9, 13, 2, 6, 10, 14, 3, 7, 11, 15
	v128.store	96
	local.get	4
	local.get	24
	i32.const	4
	i8x16.shl
	local.get	14
	v128.xor
	local.get	14
	i8x16.shuffle	0, 4, 8, 12, 1, 5, 9, 13, 2, 6, 10, 14, 3, 7, 11, 15
	local.tee	14
	v128.store	32
	local.get	5
	local.get	9
	i32.wrap_i64
	i32.add 
	local.tee	3
	local.get	14
	local.get	3
	v128.load	0:p2align=0
	v128.xor
	v128.store	0:p2align=0
	local.get	3
	i32.const	16
	i32.add 
	local.tee	0
	local.get	4
	v128.load	48
	local.get	0
	v128.load	0:p2align=0
	v128.xor
	v128.store	0:p2align=0
	local.get	3
	i32.const	32
	i32.add 
	local.tee	0
	local.get	4
	v128.load	64
	local.get	0
	v128.load	0:p2align=0
	v128.xor
	v128.store	0:p2align=0
	local.get	3
	i32.const	48
	i32.add 
	local.tee	0
	local.get	4
	v128.load	80
	local.get	0
	v128.load	0:p2align=0
	v128.xor
	v128.store	0:p2align=0
	local.get	3
	i32.const	64
	i32.add 
	local.tee	0
	local.get	4
	v128.load	96
	local.get	0
	v128.load	0:p2align=0
	v128.xor
	v128.store	0:p2align=0
	local.get	3
	i32.const	80
	i32.add 
	local.tee	0
	local.get	4
	v128.load	112
	local.get	0
	v128.load	0:p2align=0
	v128.xor
	v128.store	0:p2align=0
	local.get	3
	i32.const	96
	i32.add 
	local.tee	0
	local.get	4
	v128.load	128
	local.get	0
	v128.load	0:p2align=0
	v128.xor
	v128.store	0:p2align=0
	local.get	3
	i32.const	112
	i32.add 
	local.tee	3
	local.get	4
	v128.load	144
	local.get	3
	v128.load	0:p2align=0
	v128.xor
	v128.store	0:p2align=0
	local.get	6
	local.get	9
	i64.const	128
	i64.add 
	local.tee	9
	i64.sub 
	i64.const	127
	i64.gt_u
	br_if   	0                               # 0: up to label116
.LBB41_8:                               # %loop.13.preheader.i.i
	end_loop
	end_block                               # label115:
	block   	
	local.get	9
	local.get	6
	i64.ge_u
	br_if   	0                               # 0: down to label118
.LBB41_9:                               # %join.16.i.i
                                        # =>This Inner Loop Header: Depth=1
	loop    	                                # label119:
	local.get	4
	i32.const	8
	i32.add 
	local.get	7
	local.get	8
	local.get	9
	local.get	5
	local.get	6
	call	aes_ctr__add_in_batches__add_next____849d7687381e9207_
	local.tee	9
	local.get	6
	i64.lt_u
	br_if   	0                               # 0: up to label119
.LBB41_10:                              # %aes_ctr__add_in_batches__AddStreamBlockCipherEncClosure__call____568a98508308736d_.exit
	end_loop
	end_block                               # label118:
	local.get	4
	i32.const	416
	i32.add 
	global.set	__stack_pointer
                                        # fallthrough-return
	end_function
                                        # -- End function
	.section	.text.aes_ctr__add_in_batches__add_next____849d7687381e9207_,"",@
	.type	aes_ctr__add_in_batches__add_next____849d7687381e9207_,@function # -- Begin function aes_ctr__add_in_batches__add_next____849d7687381e9207_
aes_ctr__add_in_batches__add_next____849d7687381e9207_: # @aes_ctr__add_in_batches__add_next____849d7687381e9207_
	.functype	aes_ctr__add_in_batches__add_next____849d7687381e9207_ (i32, i32, i64, i64, i32, i64) -> (i64)
	.local  	i32, i32, i64, i64, i64, i64, i64, v128, v128, v128, v128, v128, v128, v128, v128, v128, v128, v128, v128, v128, v128, v128, v128, v128, v128, v128, v128, v128, v128, v128, v128, i32, i32
# %bb.0:                                # %start
	global.get	__stack_pointer
	i32.const	384
	i32.sub 
	local.tee	6
	global.set	__stack_pointer
	i32.const	0
	local.set	7
	local.get	6
	i32.const	0
	i32.const	256
	memory.fill	0
	i64.const	8
	local.set	8
	local.get	1
	i64.load	0:p2align=0
	local.tee	9
	i64.const	56
	i64.shl 
	local.get	9
	i64.const	65280
	i64.and 
	i64.const	40
	i64.shl 
	i64.or  
	local.get	9
	i64.const	16711680
	i64.and 
	i64.const	24
	i64.shl 
	local.get	9
	i64.const	4278190080
	i64.and 
	i64.const	8
	i64.shl 
	i64.or  
	i64.or  
	local.get	9
	i64.const	8
	i64.shr_u
	i64.const	4278190080
	i64.and 
	local.get	9
	i64.const	24
	i64.shr_u
	i64.const	16711680
	i64.and 
	i64.or  
	local.get	9
	i64.const	40
	i64.shr_u
	i64.const	65280
	i64.and 
	local.get	9
	i64.const	56
	i64.shr_u
	i64.or  
	i64.or  
	i64.or  
	local.set	9
	local.get	1
	i64.load	8:p2align=0
	local.tee	10
	i64.const	56
	i64.shl 
	local.get	10
	i64.const	65280
	i64.and 
	i64.const	40
	i64.shl 
	i64.or  
	local.get	10
	i64.const	16711680
	i64.and 
	i64.const	24
	i64.shl 
	local.get	10
	i64.const	4278190080
	i64.and 
	i64.const	8
	i64.shl 
	i64.or  
	i64.or  
	local.get	10
	i64.const	8
	i64.shr_u
	i64.const	4278190080
	i64.and 
	local.get	10
	i64.const	24
	i64.shr_u
	i64.const	16711680
	i64.and 
	i64.or  
	local.get	10
	i64.const	40
	i64.shr_u
	i64.const	65280
	i64.and 
	local.get	10
	i64.const	56
	i64.shr_u
	i64.or  
	i64.or  
	local.tee	11
	i64.or  
	i64.const	-4294967296
	i64.and 
	local.set	10
	local.get	11
	i32.wrap_i64
	local.get	3
	local.get	2
	i64.add 
	local.tee	12
	i64.const	4
	i64.shr_u
	i32.wrap_i64
	i32.add 
	local.set	1
.LBB42_1:                               # %join.7.i.i
                                        # =>This Inner Loop Header: Depth=1
	loop    	                                # label120:
	local.get	6
	local.get	7
	i32.add 
	local.get	10
	local.get	1
	i64.extend_i32_u
	i64.or  
	i64x2.splat
	local.get	9
	i64x2.replace_lane	1
	local.get	13
	i8x16.shuffle	15, 14, 13, 12, 11, 10, 9, 8, 7, 6, 5, 4, 3, 2, 1, 0
	v128.store	0
	local.get	7
	i32.const	16
	i32.add 
	local.set	7
	local.get	1
	i32.const	1
	i32.add 
	local.set	1
	local.get	8
	i64.const	-1
	i64.add 
	local.tee	8
	i64.const	0
	i64.ne  
	br_if   	0                               # 0: up to label120
# %bb.2:                                # %gcm__gctr__LastBitsCounterBlocks__put.exit.i
	end_loop
	block   	
	block   	
	local.get	5
	local.get	3
	i64.sub 
	local.tee	8
	i64.const	128
	local.get	12
	i64.const	15
	i64.and 
	local.tee	11
	i64.sub 
	local.tee	9
	local.get	8
	local.get	9
	i64.lt_u
	i64.select
	local.tee	10
	local.get	11
	i64.add 
	local.tee	8
	i64.const	80
	i64.gt_u
	br_if   	0                               # 0: down to label122
# %bb.3:                                # %then.1.i.i
	local.get	0
	i32.load	0
	local.tee	7
	i32.const	16
	i32.add 
	i32.load	0:p2align=0
	local.get	7
	i32.const	24
	i32.add 
	i64.load	0:p2align=0
	local.get	6
	local.get	8
	i64.const	15
	i64.add 
	i64.const	4
	i64.shr_u
	call	aes_permute__blocks__process_on_lanes____06aaae76f5856d0a_
	br      	1                               # 1: down to label121
.LBB42_4:                               # %else.2.i.i
	end_block                               # label122:
	local.get	0
	i32.const	8
	i32.add 
	i32.load	0:p2align=0
	local.set	7
	local.get	0
	i32.const	16
	i32.add 
	i64.load	0:p2align=0
	local.set	8
	local.get	6
	local.get	6
	v128.load	64
	local.get	13
	i8x16.shuffle	0, 4, 8, 12, 1, 5, 9, 13, 2, 6, 10, 14, 3, 7, 11, 15
	local.tee	14
	i32.const	1
	i8x16.shr_u
	local.tee	15
	local.get	6
	v128.load	80
	local.get	13
	i8x16.shuffle	0, 4, 8, 12, 1, 5, 9, 13, 2, 6, 10, 14, 3, 7, 11, 15
	local.tee	16
	v128.const	85, 85, 85, 85, 85, 85, 85, 85, 85, 85, 85, 85, 85, 85, 85, 85
	local.tee	13
	v128.bitselect
	local.tee	17
	i32.const	2
	i8x16.shr_u
	local.tee	18
	local.get	6
	v128.load	96
	local.get	13
	i8x16.shuffle	0, 4, 8, 12, 1, 5, 9, 13, 2, 6, 10, 14, 3, 7, 11, 15
	local.tee	19
	i32.const	1
	i8x16.shr_u
	local.tee	20
	local.get	6
	v128.load	112
	local.get	13
	i8x16.shuffle	0, 4, 8, 12, 1, 5, 9, 13, 2, 6, 10, 14, 3, 7, 11, 15
	local.tee	21
	local.get	13
	v128.bitselect
	local.tee	22
	v128.const	51, 51, 51, 51, 51, 51, 51, 51, 51, 51, 51, 51, 51, 51, 51, 51
	local.tee	23
	v128.bitselect
	local.tee	24
	v128.const	15, 15, 15, 15, 15, 15, 15, 15, 15, 15, 15, 15, 15, 15, 15, 15
	local.tee	25
	v128.and
	local.get	6
	v128.load	0
	local.get	13
	i8x16.shuffle	0, 4, 8, 12, 1, 5, 9, 13, 2, 6, 10, 14, 3, 7, 11, 15
	local.tee	26
	i32.const	1
	i8x16.shr_u
	local.tee	27
	local.get	6
	v128.load	16
	local.get	13
	i8x16.shuffle	0, 4, 8, 12, 1, 5, 9, 13, 2, 6, 10, 14, 3, 7, 11, 15
	local.tee	28
	local.get	13
	v128.bitselect
	local.tee	29
	i32.const	2
	i8x16.shr_u
	local.tee	30
	local.get	6
	v128.load	32
	local.get	13
	i8x16.shuffle	0, 4, 8, 12, 1, 5, 9, 13, 2, 6, 10, 14, 3, 7, 11, 15
	local.tee	31
	i32.const	1
	i8x16.shr_u
	local.tee	32
	local.get	6
	v128.load	48
	local.get	13
	i8x16.shuffle	0, 4, 8, 12, 1, 5, 9, 13, 2, 6, 10, 14, 3, 7, 11, 15
	local.tee	33
	local.get	13
	v128.bitselect
	local.tee	34
	local.get	23
	v128.bitselect
	local.tee	35
	i32.const	4
	i8x16.shr_u
	v128.xor
	local.tee	36
	local.get	24
	v128.xor
	v128.store	368
	local.get	6
	local.get	36
	i32.const	4
	i8x16.shl
	local.get	35
	v128.xor
	v128.store	304
	local.get	6
	local.get	16
	local.get	15
	v128.xor
	local.get	13
	v128.and
	i32.const	1
	i8x16.shl
	local.get	14
	v128.xor
	local.tee	14
	i32.const	2
	i8x16.shr_u
	local.tee	15
	local.get	21
	local.get	20
	v128.xor
	local.get	13
	v128.and
	i32.const	1
	i8x16.shl
	local.get	19
	v128.xor
	local.tee	16
	local.get	23
	v128.bitselect
	local.tee	19
	local.get	25
	v128.and
	local.get	28
	local.get	27
	v128.xor
	local.get	13
	v128.and
	i32.const	1
	i8x16.shl
	local.get	26
	v128.xor
	local.tee	20
	i32.const	2
	i8x16.shr_u
	local.tee	21
	local.get	33
	local.get	32
	v128.xor
	local.get	13
	v128.and
	i32.const	1
	i8x16.shl
	local.get	31
	v128.xor
	local.tee	24
	local.get	23
	v128.bitselect
	local.tee	26
	i32.const	4
	i8x16.shr_u
	v128.xor
	local.tee	27
	local.get	19
	v128.xor
	v128.store	352
	local.get	6
	local.get	22
	local.get	18
	v128.xor
	local.get	23
	v128.and
	i32.const	2
	i8x16.shl
	local.get	17
	v128.xor
	local.tee	17
	local.get	25
	v128.and
	local.get	34
	local.get	30
	v128.xor
	local.get	23
	v128.and
	i32.const	2
	i8x16.shl
	local.get	29
	v128.xor
	local.tee	18
	i32.const	4
	i8x16.shr_u
	v128.xor
	local.tee	19
	local.get	17
	v128.xor
	v128.store	336
	local.get	6
	local.get	27
	i32.const	4
	i8x16.shl
	local.get	26
	v128.xor
	v128.store	288
	local.get	6
	local.get	19
	i32.const	4
	i8x16.shl
	local.get	18
	v128.xor
	v128.store	272
	local.get	6
	local.get	16
	local.get	15
	v128.xor
	local.get	23
	v128.and
	i32.const	2
	i8x16.shl
	local.get	14
	v128.xor
	local.tee	14
	local.get	25
	v128.and
	local.get	24
	local.get	21
	v128.xor
	local.get	23
	v128.and
	i32.const	2
	i8x16.shl
	local.get	20
	v128.xor
	local.tee	15
	i32.const	4
	i8x16.shr_u
	v128.xor
	local.tee	16
	local.get	14
	v128.xor
	v128.store	320
	local.get	6
	local.get	16
	i32.const	4
	i8x16.shl
	local.get	15
	v128.xor
	v128.store	256
	local.get	7
	local.get	8
	i64.const	3
	i64.shr_u
	i64.const	-1
	i64.add 
	local.get	6
	i32.const	256
	i32.add 
	call	aes_soft__soft__ciphers__planes__EncryptPlaneCipher__process_planes____eab796f82dda8b4f_
	local.get	6
	local.get	6
	v128.load	320
	local.tee	14
	i32.const	1
	i8x16.shr_u
	local.tee	15
	local.get	6
	v128.load	336
	local.tee	16
	local.get	13
	v128.bitselect
	local.tee	17
	i32.const	2
	i8x16.shr_u
	local.tee	18
	local.get	6
	v128.load	352
	local.tee	19
	i32.const	1
	i8x16.shr_u
	local.tee	20
	local.get	6
	v128.load	368
	local.tee	21
	local.get	13
	v128.bitselect
	local.tee	22
	local.get	23
	v128.bitselect
	local.tee	24
	local.get	25
	v128.and
	local.get	6
	v128.load	256
	local.tee	26
	i32.const	1
	i8x16.shr_u
	local.tee	27
	local.get	6
	v128.load	272
	local.tee	28
	local.get	13
	v128.bitselect
	local.tee	29
	i32.const	2
	i8x16.shr_u
	local.tee	30
	local.get	6
	v128.load	288
	local.tee	31
	i32.const	1
	i8x16.shr_u
	local.tee	32
	local.get	6
	v128.load	304
	local.tee	33
	local.get	13
	v128.bitselect
	local.tee	34
	local.get	23
	v128.bitselect
	local.tee	35
	i32.const	4
	i8x16.shr_u
	v128.xor
	local.tee	36
	local.get	24
	v128.xor
	local.get	13
	i8x16.shuffle	0, 4, 8, 12, 1, 5, 9, 13, 2, 6, 10, 14, 3, 7, 11, 15
	v128.store	112
	local.get	6
	local.get	36
	i32.const	4
	i8x16.shl
	local.get	35
	v128.xor
	local.get	13
	i8x16.shuffle	0, 4, 8, 12, 1, 5, 9, 13, 2, 6, 10, 14, 3, 7, 11, 15
	v128.store	48
	local.get	6
	local.get	14
	local.get	16
	local.get	15
	v128.xor
	local.get	13
	v128.and
	i32.const	1
	i8x16.shl
	v128.xor
	local.tee	14
	i32.const	2
	i8x16.shr_u
	local.tee	15
	local.get	19
	local.get	21
	local.get	20
	v128.xor
	local.get	13
	v128.and
	i32.const	1
	i8x16.shl
	v128.xor
	local.tee	16
	local.get	23
	v128.bitselect
	local.tee	19
	local.get	25
	v128.and
	local.get	26
	local.get	28
	local.get	27
	v128.xor
	local.get	13
	v128.and
	i32.const	1
	i8x16.shl
	v128.xor
	local.tee	20
	i32.const	2
	i8x16.shr_u
	local.tee	21
	local.get	31
	local.get	33
	local.get	32
	v128.xor
	local.get	13
	v128.and
	i32.const	1
	i8x16.shl
	v128.xor
	local.tee	13
	local.get	23
	v128.bitselect
	local.tee	24
	i32.const	4
	i8x16.shr_u
	v128.xor
	local.tee	26
	local.get	19
	v128.xor
	local.get	13
	i8x16.shuffle	0, 4, 8, 12, 1, 5, 9, 13, 2, 6, 10, 14, 3, 7, 11, 15
	v128.store	96
	local.get	6
	local.get	22
	local.get	18
	v128.xor
	local.get	23
	v128.and
	i32.const	2
	i8x16.shl
	local.get	17
	v128.xor
	local.tee	17
	local.get	25
	v128.and
	local.get	34
	local.get	30
	v128.xor
	local.get	23
	v128.and
	i32.const	2
	i8x16.shl
	local.get	29
	v128.xor
	local.tee	18
	i32.const	4
	i8x16.shr_u
	v128.xor
	local.tee	19
	local.get	17
	v128.xor
	local.get	13
	i8x16.shuffle	0, 4, 8, 12, 1, 5, 9, 13, 2, 6, 10, 14, 3, 7, 11, 15
	v128.store	80
	local.get	6
	local.get	26
	i32.const	4
	i8x16.shl
	local.get	24
	v128.xor
	local.get	13
	i8x16.shuffle	0, 4, 8, 12, 1, 5, 9, 13, 2, 6, 10, 14, 3, 7, 11, 15
	v128.store	32
	local.get	6
	local.get	19
	i32.const	4
	i8x16.shl
	local.get	18
	v128.xor
	local.get	13
	i8x16.shuffle	0, 4, 8, 12, 1, 5, 9, 13, 2, 6, 10, 14, 3, 7, 11, 15
	v128.store	16
	local.get	6
	local.get	16
	local.get	15
	v128.xor
	local.get	23
	v128.and
	i32.const	2
	i8x16.shl
	local.get	14
	v128.xor
	local.tee	14
	local.get	25
	v128.and
	local.get	13
	local.get	21
	v128.xor
	local.get	23
	v128.and
	i32.const	2
	i8x16.shl
	local.get	20
	v128.xor
	local.tee	13
	i32.const	4
	i8x16.shr_u
	v128.xor
	local.tee	23
	local.get	14
	v128.xor
	local.get	13
	i8x16.shuffle	0, 4, 8, 12, 1, 5, 9, 13, 2, 6, 10, 14, 3, 7, 11, 15
	v128.store	64
	local.get	6
	local.get	23
	i32.const	4
	i8x16.shl
	local.get	13
	v128.xor
	local.get	13
	i8x16.shuffle	0, 4, 8, 12, 1, 5, 9, 13, 2, 6, 10, 14, 3, 7, 11, 15
	v128.store	0
.LBB42_5:                               # %aes_ctr__keystream__fill_by_backend____849d7687381e9207_.exit
	end_block                               # label121:
	local.get	4
	local.get	3
	i32.wrap_i64
	local.tee	37
	i32.add 
	local.set	38
	block   	
	block   	
	local.get	11
	i64.eqz
	i32.eqz
	br_if   	0                               # 0: down to label124
# %bb.6:
	i64.const	0
	local.set	2
	br      	1                               # 1: down to label123
.LBB42_7:                               # %then.1.i
	end_block                               # label124:
	local.get	10
	i64.const	16
	local.get	11
	i64.sub 
	local.tee	8
	local.get	10
	local.get	8
	i64.lt_u
	i64.select
	local.set	2
	local.get	5
	local.get	3
	i64.eq  
	br_if   	0                               # 0: down to label123
# %bb.8:                                # %join.8.i85.preheader
	i64.const	0
	local.set	8
	block   	
	local.get	2
	i64.const	1
	i64.eq  
	br_if   	0                               # 0: down to label125
# %bb.9:                                # %join.8.i85.preheader.new
	local.get	2
	i64.const	1
	i64.and 
	local.set	5
	local.get	2
	i64.const	30
	i64.and 
	local.set	9
	local.get	6
	local.get	12
	i32.wrap_i64
	i32.const	15
	i32.and 
	i32.or  
	local.set	1
	i64.const	0
	local.set	8
	local.get	38
	local.set	7
.LBB42_10:                              # %join.8.i85
                                        # =>This Inner Loop Header: Depth=1
	loop    	                                # label126:
	local.get	7
	local.get	7
	i32.load8_u	0
	local.get	1
	i32.load8_u	0
	i32.xor 
	i32.store8	0
	local.get	7
	i32.const	1
	i32.add 
	local.tee	0
	local.get	0
	i32.load8_u	0
	local.get	1
	i32.const	1
	i32.add 
	i32.load8_u	0
	i32.xor 
	i32.store8	0
	local.get	7
	i32.const	2
	i32.add 
	local.set	7
	local.get	1
	i32.const	2
	i32.add 
	local.set	1
	local.get	9
	local.get	8
	i64.const	2
	i64.add 
	local.tee	8
	i64.ne  
	br_if   	0                               # 0: up to label126
# %bb.11:                               # %join.3.i.loopexit.unr-lcssa
	end_loop
	local.get	5
	i64.eqz
	br_if   	1                               # 1: down to label123
.LBB42_12:                              # %join.8.i85.epil.preheader
	end_block                               # label125:
	local.get	38
	local.get	8
	i32.wrap_i64
	i32.add 
	local.tee	7
	local.get	7
	i32.load8_u	0
	local.get	6
	local.get	8
	local.get	11
	i64.add 
	i32.wrap_i64
	i32.add 
	i32.load8_u	0
	i32.xor 
	i32.store8	0
.LBB42_13:                              # %join.3.i
	end_block                               # label123:
	block   	
	local.get	10
	local.get	2
	i64.sub 
	local.tee	8
	i64.const	16
	i64.lt_u
	br_if   	0                               # 0: down to label127
# %bb.14:                               # %join.8.i.preheader
	i64.const	0
	local.get	2
	i64.sub 
	local.set	9
	local.get	4
	local.get	2
	i32.wrap_i64
	local.tee	1
	local.get	37
	i32.add 
	i32.add 
	local.set	7
	local.get	12
	i32.wrap_i64
	i32.const	15
	i32.and 
	local.get	1
	i32.add 
	local.set	1
.LBB42_15:                              # %join.8.i
                                        # =>This Inner Loop Header: Depth=1
	loop    	                                # label128:
	local.get	7
	local.get	6
	local.get	1
	i32.const	-16
	i32.and 
	i32.add 
	v128.load	0
	local.get	7
	v128.load	0:p2align=0
	v128.xor
	v128.store	0:p2align=0
	local.get	7
	i32.const	16
	i32.add 
	local.set	7
	local.get	1
	i32.const	16
	i32.add 
	local.set	1
	local.get	10
	local.get	9
	i64.const	-16
	i64.add 
	local.tee	9
	i64.add 
	local.tee	8
	i64.const	15
	i64.gt_u
	br_if   	0                               # 0: up to label128
# %bb.16:                               # %after.4.i.loopexit
	end_loop
	i64.const	0
	local.get	9
	i64.sub 
	local.set	2
.LBB42_17:                              # %after.4.i
	end_block                               # label127:
	block   	
	local.get	2
	local.get	10
	i64.ge_u
	br_if   	0                               # 0: down to label129
# %bb.18:                               # %then.9.i
	local.get	8
	i64.eqz
	br_if   	0                               # 0: down to label129
# %bb.19:                               # %join.8.i28.preheader
	local.get	38
	local.get	2
	i32.wrap_i64
	i32.add 
	local.set	7
	local.get	6
	local.get	2
	local.get	11
	i64.add 
	i32.wrap_i64
	i32.const	-16
	i32.and 
	i32.add 
	local.set	1
.LBB42_20:                              # %join.8.i28
                                        # =>This Inner Loop Header: Depth=1
	loop    	                                # label130:
	local.get	7
	local.get	7
	i32.load8_u	0
	local.get	1
	i32.load8_u	0
	i32.xor 
	i32.store8	0
	local.get	1
	i32.const	1
	i32.add 
	local.set	1
	local.get	7
	i32.const	1
	i32.add 
	local.set	7
	local.get	8
	i64.const	-1
	i64.add 
	local.tee	8
	i64.const	0
	i64.ne  
	br_if   	0                               # 0: up to label130
.LBB42_21:                              # %aes_ctr__add_blocks__add_blocks.exit
	end_loop
	end_block                               # label129:
	local.get	6
	i32.const	384
	i32.add 
	global.set	__stack_pointer
	local.get	10
	local.get	3
	i64.add 
                                        # fallthrough-return
	end_function
                                        # -- End function
	.section	.text.aes_cipher__zeroize__stack__wipe_stack____2032_,"",@
	.type	aes_cipher__zeroize__stack__wipe_stack____2032_,@function # -- Begin function aes_cipher__zeroize__stack__wipe_stack____2032_
aes_cipher__zeroize__stack__wipe_stack____2032_: # @aes_cipher__zeroize__stack__wipe_stack____2032_
	.functype	aes_cipher__zeroize__stack__wipe_stack____2032_ () -> ()
	.local  	i32, i64
# %bb.0:                                # %start
	global.get	__stack_pointer
	i32.const	2048
	i32.sub 
	local.tee	0
	global.set	__stack_pointer
	local.get	0
	i32.const	16
	i32.add 
	i32.const	0
	i32.const	2032
	memory.fill	0
	local.get	0
	i64.const	0
	i64.store	8
	#APP
	#NO_APP
	local.get	0
	i64.load	8
	local.set	1
	#APP
	#NO_APP
	block   	
	local.get	1
	i64.const	2032
	i64.ge_u
	br_if   	0                               # 0: down to label131
# %bb.1:                                # %then.1
	local.get	0
	i32.const	16
	i32.add 
	local.get	1
	i32.wrap_i64
	i32.add 
	i64.load8_u	0
	local.set	1
	#APP
	#NO_APP
	local.get	0
	i64.load	8
	drop
	local.get	0
	local.get	1
	i64.store	8
	#APP
	#NO_APP
.LBB43_2:                               # %common.ret
	end_block                               # label131:
	local.get	0
	i32.const	2048
	i32.add 
	global.set	__stack_pointer
                                        # fallthrough-return
	end_function
                                        # -- End function
	.section	.text.aes_ctr__add_in_batches__add_next____6a304718cc059ec9_,"",@
	.type	aes_ctr__add_in_batches__add_next____6a304718cc059ec9_,@function # -- Begin function aes_ctr__add_in_batches__add_next____6a304718cc059ec9_
aes_ctr__add_in_batches__add_next____6a304718cc059ec9_: # @aes_ctr__add_in_batches__add_next____6a304718cc059ec9_
	.functype	aes_ctr__add_in_batches__add_next____6a304718cc059ec9_ (i32, i32, i64, i64, i32, i64) -> (i64)
	.local  	i32, i32, i64, i64, i64, i64, i64, v128, i32, i32
# %bb.0:                                # %start
	global.get	__stack_pointer
	i32.const	256
	i32.sub 
	local.tee	6
	global.set	__stack_pointer
	i32.const	0
	local.set	7
	local.get	6
	i32.const	0
	i32.const	256
	memory.fill	0
	local.get	1
	i64.load	0:p2align=0
	local.tee	8
	i64.const	56
	i64.shl 
	local.get	8
	i64.const	65280
	i64.and 
	i64.const	40
	i64.shl 
	i64.or  
	local.get	8
	i64.const	16711680
	i64.and 
	i64.const	24
	i64.shl 
	local.get	8
	i64.const	4278190080
	i64.and 
	i64.const	8
	i64.shl 
	i64.or  
	i64.or  
	local.get	8
	i64.const	8
	i64.shr_u
	i64.const	4278190080
	i64.and 
	local.get	8
	i64.const	24
	i64.shr_u
	i64.const	16711680
	i64.and 
	i64.or  
	local.get	8
	i64.const	40
	i64.shr_u
	i64.const	65280
	i64.and 
	local.get	8
	i64.const	56
	i64.shr_u
	i64.or  
	i64.or  
	i64.or  
	local.set	9
	local.get	1
	i64.load	8:p2align=0
	local.tee	8
	i64.const	56
	i64.shl 
	local.get	8
	i64.const	65280
	i64.and 
	i64.const	40
	i64.shl 
	i64.or  
	local.get	8
	i64.const	16711680
	i64.and 
	i64.const	24
	i64.shl 
	local.get	8
	i64.const	4278190080
	i64.and 
	i64.const	8
	i64.shl 
	i64.or  
	i64.or  
	local.get	8
	i64.const	8
	i64.shr_u
	i64.const	4278190080
	i64.and 
	local.get	8
	i64.const	24
	i64.shr_u
	i64.const	16711680
	i64.and 
	i64.or  
	local.get	8
	i64.const	40
	i64.shr_u
	i64.const	65280
	i64.and 
	local.get	8
	i64.const	56
	i64.shr_u
	i64.or  
	i64.or  
	local.tee	10
	i64.or  
	i64.const	-4294967296
	i64.and 
	local.set	11
	i64.const	4
	local.set	8
	local.get	10
	i32.wrap_i64
	local.get	3
	local.get	2
	i64.add 
	local.tee	12
	i64.const	4
	i64.shr_u
	i32.wrap_i64
	i32.add 
	local.set	1
.LBB44_1:                               # %join.7.i.i
                                        # =>This Inner Loop Header: Depth=1
	loop    	                                # label132:
	local.get	6
	local.get	7
	i32.add 
	local.get	11
	local.get	1
	i64.extend_i32_u
	i64.or  
	i64x2.splat
	local.get	9
	i64x2.replace_lane	1
	local.get	13
	i8x16.shuffle	15, 14, 13, 12, 11, 10, 9, 8, 7, 6, 5, 4, 3, 2, 1, 0
	v128.store	0:p2align=0
	local.get	7
	i32.const	16
	i32.add 
	local.set	7
	local.get	1
	i32.const	1
	i32.add 
	local.set	1
	i64.const	0
	local.set	2
	local.get	8
	i64.const	-1
	i64.add 
	local.tee	8
	i64.const	0
	i64.ne  
	br_if   	0                               # 0: up to label132
# %bb.2:                                # %aes_ctr__keystream__fill_by_backend____6a304718cc059ec9_.exit
	end_loop
	local.get	0
	i32.const	16
	i32.add 
	i32.load	0:p2align=0
	local.get	0
	i32.const	24
	i32.add 
	i64.load	0:p2align=0
	local.get	6
	local.get	12
	i64.const	15
	i64.and 
	local.tee	10
	local.get	5
	local.get	3
	i64.sub 
	local.tee	8
	i64.const	64
	local.get	10
	i64.sub 
	local.tee	9
	local.get	8
	local.get	9
	i64.lt_u
	i64.select
	local.tee	11
	i64.add 
	i64.const	15
	i64.add 
	i64.const	4
	i64.shr_u
	call	aes_permute__blocks__process_on_lanes____06aaae76f5856d0a_
	local.get	4
	local.get	3
	i32.wrap_i64
	local.tee	14
	i32.add 
	local.set	15
	block   	
	local.get	10
	i64.eqz
	br_if   	0                               # 0: down to label133
# %bb.3:                                # %then.1.i
	local.get	11
	i64.const	16
	local.get	10
	i64.sub 
	local.tee	8
	local.get	11
	local.get	8
	i64.lt_u
	i64.select
	local.set	2
	local.get	5
	local.get	3
	i64.eq  
	br_if   	0                               # 0: down to label133
# %bb.4:                                # %join.8.i85.preheader
	i64.const	0
	local.set	8
	block   	
	local.get	2
	i64.const	1
	i64.eq  
	br_if   	0                               # 0: down to label134
# %bb.5:                                # %join.8.i85.preheader.new
	local.get	2
	i64.const	1
	i64.and 
	local.set	5
	local.get	2
	i64.const	30
	i64.and 
	local.set	9
	local.get	6
	local.get	12
	i32.wrap_i64
	i32.const	15
	i32.and 
	i32.add 
	local.set	1
	i64.const	0
	local.set	8
	local.get	15
	local.set	7
.LBB44_6:                               # %join.8.i85
                                        # =>This Inner Loop Header: Depth=1
	loop    	                                # label135:
	local.get	7
	local.get	7
	i32.load8_u	0
	local.get	1
	i32.load8_u	0
	i32.xor 
	i32.store8	0
	local.get	7
	i32.const	1
	i32.add 
	local.tee	0
	local.get	0
	i32.load8_u	0
	local.get	1
	i32.const	1
	i32.add 
	i32.load8_u	0
	i32.xor 
	i32.store8	0
	local.get	7
	i32.const	2
	i32.add 
	local.set	7
	local.get	1
	i32.const	2
	i32.add 
	local.set	1
	local.get	9
	local.get	8
	i64.const	2
	i64.add 
	local.tee	8
	i64.ne  
	br_if   	0                               # 0: up to label135
# %bb.7:                                # %join.3.i.loopexit.unr-lcssa
	end_loop
	local.get	5
	i64.eqz
	br_if   	1                               # 1: down to label133
.LBB44_8:                               # %join.8.i85.epil.preheader
	end_block                               # label134:
	local.get	15
	local.get	8
	i32.wrap_i64
	i32.add 
	local.tee	7
	local.get	7
	i32.load8_u	0
	local.get	6
	local.get	8
	local.get	10
	i64.add 
	i32.wrap_i64
	i32.add 
	i32.load8_u	0
	i32.xor 
	i32.store8	0
.LBB44_9:                               # %join.3.i
	end_block                               # label133:
	block   	
	local.get	11
	local.get	2
	i64.sub 
	local.tee	8
	i64.const	16
	i64.lt_u
	br_if   	0                               # 0: down to label136
# %bb.10:                               # %join.8.i.preheader
	i64.const	0
	local.get	2
	i64.sub 
	local.set	9
	local.get	4
	local.get	2
	i32.wrap_i64
	local.tee	1
	local.get	14
	i32.add 
	i32.add 
	local.set	7
	local.get	12
	i32.wrap_i64
	i32.const	15
	i32.and 
	local.get	1
	i32.add 
	local.set	1
.LBB44_11:                              # %join.8.i
                                        # =>This Inner Loop Header: Depth=1
	loop    	                                # label137:
	local.get	7
	local.get	6
	local.get	1
	i32.const	-16
	i32.and 
	i32.add 
	v128.load	0:p2align=0
	local.get	7
	v128.load	0:p2align=0
	v128.xor
	v128.store	0:p2align=0
	local.get	7
	i32.const	16
	i32.add 
	local.set	7
	local.get	1
	i32.const	16
	i32.add 
	local.set	1
	local.get	11
	local.get	9
	i64.const	-16
	i64.add 
	local.tee	9
	i64.add 
	local.tee	8
	i64.const	15
	i64.gt_u
	br_if   	0                               # 0: up to label137
# %bb.12:                               # %after.4.i.loopexit
	end_loop
	i64.const	0
	local.get	9
	i64.sub 
	local.set	2
.LBB44_13:                              # %after.4.i
	end_block                               # label136:
	block   	
	local.get	2
	local.get	11
	i64.ge_u
	br_if   	0                               # 0: down to label138
# %bb.14:                               # %then.9.i
	local.get	8
	i64.eqz
	br_if   	0                               # 0: down to label138
# %bb.15:                               # %join.8.i28.preheader
	local.get	15
	local.get	2
	i32.wrap_i64
	i32.add 
	local.set	7
	local.get	6
	local.get	2
	local.get	10
	i64.add 
	i32.wrap_i64
	i32.const	-16
	i32.and 
	i32.add 
	local.set	1
.LBB44_16:                              # %join.8.i28
                                        # =>This Inner Loop Header: Depth=1
	loop    	                                # label139:
	local.get	7
	local.get	7
	i32.load8_u	0
	local.get	1
	i32.load8_u	0
	i32.xor 
	i32.store8	0
	local.get	1
	i32.const	1
	i32.add 
	local.set	1
	local.get	7
	i32.const	1
	i32.add 
	local.set	7
	local.get	8
	i64.const	-1
	i64.add 
	local.tee	8
	i64.const	0
	i64.ne  
	br_if   	0                               # 0: up to label139
.LBB44_17:                              # %aes_ctr__add_blocks__add_blocks.exit
	end_loop
	end_block                               # label138:
	local.get	6
	i32.const	256
	i32.add 
	global.set	__stack_pointer
	local.get	11
	local.get	3
	i64.add 
                                        # fallthrough-return
	end_function
                                        # -- End function
	.section	.text.aes_cipher__zeroize__stack__wipe_stack____1536_,"",@
	.type	aes_cipher__zeroize__stack__wipe_stack____1536_,@function # -- Begin function aes_cipher__zeroize__stack__wipe_stack____1536_
aes_cipher__zeroize__stack__wipe_stack____1536_: # @aes_cipher__zeroize__stack__wipe_stack____1536_
	.functype	aes_cipher__zeroize__stack__wipe_stack____1536_ () -> ()
	.local  	i32, i64
# %bb.0:                                # %start
	global.get	__stack_pointer
	i32.const	1552
	i32.sub 
	local.tee	0
	global.set	__stack_pointer
	local.get	0
	i32.const	16
	i32.add 
	i32.const	0
	i32.const	1536
	memory.fill	0
	local.get	0
	i64.const	0
	i64.store	8
	#APP
	#NO_APP
	local.get	0
	i64.load	8
	local.set	1
	#APP
	#NO_APP
	block   	
	local.get	1
	i64.const	1536
	i64.ge_u
	br_if   	0                               # 0: down to label140
# %bb.1:                                # %then.1
	local.get	0
	i32.const	16
	i32.add 
	local.get	1
	i32.wrap_i64
	i32.add 
	i64.load8_u	0
	local.set	1
	#APP
	#NO_APP
	local.get	0
	i64.load	8
	drop
	local.get	0
	local.get	1
	i64.store	8
	#APP
	#NO_APP
.LBB45_2:                               # %common.ret
	end_block                               # label140:
	local.get	0
	i32.const	1552
	i32.add 
	global.set	__stack_pointer
                                        # fallthrough-return
	end_function
                                        # -- End function
	.section	.text.gcm_c__whole__fotsgure_gcm_seal,"",@
	.type	gcm_c__whole__fotsgure_gcm_seal,@function # -- Begin function gcm_c__whole__fotsgure_gcm_seal
gcm_c__whole__fotsgure_gcm_seal:        # @gcm_c__whole__fotsgure_gcm_seal
	.functype	gcm_c__whole__fotsgure_gcm_seal (i32, i32, i64, i32, i64, i32, i64, i32) -> (i32)
	.local  	i32, i32, i32, i32, i64
# %bb.0:                                # %start
	global.get	__stack_pointer
	i32.const	80
	i32.sub 
	local.tee	8
	global.set	__stack_pointer
	block   	
	block   	
	local.get	2
	i64.eqz
	i32.eqz
	br_if   	0                               # 0: down to label142
# %bb.1:
	i32.const	3
	local.set	9
	br      	1                               # 1: down to label141
.LBB46_2:                               # %after.11.i
	end_block                               # label142:
	i32.const	2
	local.set	9
	local.get	0
	i32.load	0
	local.tee	10
	i32.const	-16
	i32.add 
	local.tee	11
	i32.const	16
	i32.gt_u
	br_if   	0                               # 0: down to label141
# %bb.3:                                # %after.11.i
	i32.const	1
	local.get	11
	i32.shl 
	i32.const	65793
	i32.and 
	i32.eqz
	br_if   	0                               # 0: down to label141
# %bb.4:                                # %join.3
	i32.const	0
	local.set	9
	local.get	8
	i32.const	0
	i32.store	60
	local.get	8
	i32.const	0
	i32.store	44
	local.get	8
	i32.const	0
	i32.store	28
	local.get	8
	local.get	0
	i32.const	244
	i32.add 
	i32.store	56
	local.get	8
	local.get	0
	i32.const	4
	i32.add 
	local.tee	0
	i32.store	40
	local.get	8
	local.get	0
	i32.store	24
	local.get	8
	local.get	10
	i32.const	2
	i32.shr_u
	i32.const	7
	i32.add 
	i64.extend_i32_u
	local.tee	12
	i64.store	48
	local.get	8
	local.get	12
	i64.store	32
	local.get	8
	i32.const	24
	i32.add 
	local.get	1
	local.get	2
	local.get	8
	i32.const	64
	i32.add 
	call	gcm__mode__BorrowedGcm__put_pre_counter____c13ce517942629d6_
	local.get	8
	i32.const	24
	i32.add 
	local.get	8
	i32.const	64
	i32.add 
	i64.const	16
	local.get	5
	local.get	6
	call	gcm__gctr__add_gctr____ed3b81e0963a9ab3_
	local.get	8
	i32.const	24
	i32.add 
	local.get	8
	i32.const	64
	i32.add 
	local.get	3
	local.get	4
	local.get	5
	local.get	6
	local.get	8
	i32.const	8
	i32.add 
	call	gcm__mode__BorrowedGcm__put_tag____c13ce517942629d6_
	local.get	8
	i32.const	64
	i32.add 
	call	aes_cipher__zeroize__elements__zeroize_elements____3b2097f0eef5a37b_
	call	aes_cipher__zeroize__stack__wipe_stack____1536_
	local.get	7
	local.get	8
	v128.load	8:p2align=0
	v128.store	0:p2align=0
.LBB46_5:                               # %common.ret
	end_block                               # label141:
	local.get	8
	i32.const	80
	i32.add 
	global.set	__stack_pointer
	local.get	9
                                        # fallthrough-return
	end_function
                                        # -- End function
	.section	.text.gcm_c__whole_to__copy,"",@
	.type	gcm_c__whole_to__copy,@function # -- Begin function gcm_c__whole_to__copy
gcm_c__whole_to__copy:                  # @gcm_c__whole_to__copy
	.functype	gcm_c__whole_to__copy (i32, i64, i32) -> ()
	.local  	i64, i32, i32, i64, i64, i32
# %bb.0:                                # %start
	block   	
	block   	
	local.get	2
	i64.extend_i32_u
	local.get	0
	i64.extend_i32_u
	i64.sub 
	local.get	1
	i64.ge_u
	br_if   	0                               # 0: down to label144
# %bb.1:                                # %join.7.i.i.i.i.i.i.preheader
	i64.const	0
	local.set	3
	block   	
	local.get	1
	i64.const	16
	i64.lt_u
	br_if   	0                               # 0: down to label145
# %bb.2:                                # %join.7.i.i.i.i.i.i.preheader
	local.get	2
	local.get	0
	i32.sub 
	i32.const	16
	i32.lt_u
	br_if   	0                               # 0: down to label145
# %bb.3:                                # %vector.ph
	local.get	2
	local.set	4
	local.get	0
	local.set	5
	local.get	1
	i64.const	4294967280
	i64.and 
	local.tee	3
	local.set	6
.LBB47_4:                               # %vector.body
                                        # =>This Inner Loop Header: Depth=1
	loop    	                                # label146:
	local.get	4
	local.get	5
	v128.load	0:p2align=0
	v128.store	0:p2align=0
	local.get	4
	i32.const	16
	i32.add 
	local.set	4
	local.get	5
	i32.const	16
	i32.add 
	local.set	5
	local.get	6
	i64.const	-16
	i64.add 
	local.tee	6
	i64.const	0
	i64.ne  
	br_if   	0                               # 0: up to label146
# %bb.5:                                # %middle.block
	end_loop
	local.get	1
	local.get	3
	i64.eq  
	br_if   	2                               # 2: down to label143
.LBB47_6:                               # %join.7.i.i.i.i.i.i.preheader1
	end_block                               # label145:
	local.get	3
	local.set	7
	block   	
	local.get	1
	i64.const	3
	i64.and 
	local.tee	6
	i64.eqz
	br_if   	0                               # 0: down to label147
# %bb.7:                                # %join.7.i.i.i.i.i.i.prol.preheader
	local.get	3
	local.get	6
	i64.add 
	local.set	7
	local.get	2
	local.get	3
	i32.wrap_i64
	local.tee	5
	i32.add 
	local.set	4
	local.get	0
	local.get	5
	i32.add 
	local.set	5
.LBB47_8:                               # %join.7.i.i.i.i.i.i.prol
                                        # =>This Inner Loop Header: Depth=1
	loop    	                                # label148:
	local.get	4
	local.get	5
	i32.load8_u	0
	i32.store8	0
	local.get	4
	i32.const	1
	i32.add 
	local.set	4
	local.get	5
	i32.const	1
	i32.add 
	local.set	5
	local.get	6
	i64.const	-1
	i64.add 
	local.tee	6
	i64.const	0
	i64.ne  
	br_if   	0                               # 0: up to label148
.LBB47_9:                               # %join.7.i.i.i.i.i.i.prol.loopexit
	end_loop
	end_block                               # label147:
	local.get	3
	local.get	1
	i64.sub 
	i64.const	-4
	i64.gt_u
	br_if   	1                               # 1: down to label143
# %bb.10:                               # %join.7.i.i.i.i.i.i.preheader2
	local.get	1
	local.get	7
	i64.sub 
	local.set	6
	local.get	7
	i32.wrap_i64
	local.set	8
.LBB47_11:                              # %join.7.i.i.i.i.i.i
                                        # =>This Inner Loop Header: Depth=1
	loop    	                                # label149:
	local.get	2
	local.get	8
	i32.add 
	local.tee	4
	local.get	0
	local.get	8
	i32.add 
	local.tee	5
	i32.load8_u	0
	i32.store8	0
	local.get	4
	i32.const	1
	i32.add 
	local.get	5
	i32.const	1
	i32.add 
	i32.load8_u	0
	i32.store8	0
	local.get	4
	i32.const	2
	i32.add 
	local.get	5
	i32.const	2
	i32.add 
	i32.load8_u	0
	i32.store8	0
	local.get	4
	i32.const	3
	i32.add 
	local.get	5
	i32.const	3
	i32.add 
	i32.load8_u	0
	i32.store8	0
	local.get	0
	i32.const	4
	i32.add 
	local.set	0
	local.get	2
	i32.const	4
	i32.add 
	local.set	2
	local.get	6
	i64.const	-4
	i64.add 
	local.tee	6
	i64.const	0
	i64.ne  
	br_if   	0                               # 0: up to label149
	br      	2                               # 2: down to label143
.LBB47_12:                              # %apart.2.i.i.i.i.i.i
	end_loop
	end_block                               # label144:
	local.get	1
	i32.wrap_i64
	local.tee	4
	i32.eqz
	br_if   	0                               # 0: down to label143
# %bb.13:                               # %apart.2.i.i.i.i.i.i
	local.get	2
	local.get	0
	local.get	4
	memory.copy	0, 0
.LBB47_14:                              # %core__slice__edits__slice_T__copy_from_slice___i8_20_core__clone__U8Clone___.exit
	end_block                               # label143:
                                        # fallthrough-return
	end_function
                                        # -- End function
	.section	.text.gcm_c__siv__fotsgure_gcm_siv_open,"",@
	.type	gcm_c__siv__fotsgure_gcm_siv_open,@function # -- Begin function gcm_c__siv__fotsgure_gcm_siv_open
gcm_c__siv__fotsgure_gcm_siv_open:      # @gcm_c__siv__fotsgure_gcm_siv_open
	.functype	gcm_c__siv__fotsgure_gcm_siv_open (i32, i32, i32, i64, i32, i64, i32) -> (i32)
	.local  	i32, i32, i32, i64, i64
# %bb.0:                                # %start
	global.get	__stack_pointer
	i32.const	32
	i32.sub 
	local.tee	7
	global.set	__stack_pointer
	i32.const	2
	local.set	8
	block   	
	block   	
	local.get	0
	i32.load	0
	local.tee	9
	i32.const	-16
	i32.add 
	br_table 	{0, 1, 1, 1, 1, 1, 1, 1, 1, 1, 1, 1, 1, 1, 1, 1, 0, 1} # 1: down to label150
                                        # 0: down to label151
.LBB48_1:                               # %join.3
	end_block                               # label151:
	local.get	7
	i32.const	0
	i32.store	20
	local.get	7
	i32.const	0
	i32.store	4
	local.get	7
	local.get	0
	i32.const	4
	i32.add 
	local.tee	0
	i32.store	16
	local.get	7
	local.get	0
	i32.store	0
	local.get	7
	local.get	9
	i64.extend_i32_u
	local.tee	10
	i64.const	2
	i64.shr_u
	i64.const	7
	i64.add 
	local.tee	11
	i64.store	24
	local.get	7
	local.get	11
	i64.store	8
	block   	
	block   	
	local.get	3
	i64.const	160
	i64.gt_u
	br_if   	0                               # 0: down to label153
# %bb.2:                                # %join.3
	local.get	5
	i64.const	160
	local.get	3
	i64.sub 
	i64.gt_u
	br_if   	0                               # 0: down to label153
# %bb.3:                                # %then.1.i
	local.get	7
	local.get	10
	local.get	1
	local.get	2
	local.get	3
	local.get	4
	local.get	5
	local.get	6
	call	gcm_siv__course__open_in____b1a7be6fe22fdaa9_
	local.set	0
	br      	1                               # 1: down to label152
.LBB48_4:                               # %else.2.i
	end_block                               # label153:
	local.get	7
	local.get	10
	local.get	1
	local.get	2
	local.get	3
	local.get	4
	local.get	5
	local.get	6
	call	gcm_siv__course__open_in____40c030eaacddd0c9_
	local.set	0
.LBB48_5:                               # %gcm_siv__course__open_message____c90a668d6150d2aa_.exit
	end_block                               # label152:
	i32.const	0
	i32.const	6
	local.get	0
	i32.select
	local.set	8
.LBB48_6:                               # %common.ret
	end_block                               # label150:
	local.get	7
	i32.const	32
	i32.add 
	global.set	__stack_pointer
	local.get	8
                                        # fallthrough-return
	end_function
                                        # -- End function
	.section	.text.gcm_siv__course__open_in____b1a7be6fe22fdaa9_,"",@
	.type	gcm_siv__course__open_in____b1a7be6fe22fdaa9_,@function # -- Begin function gcm_siv__course__open_in____b1a7be6fe22fdaa9_
gcm_siv__course__open_in____b1a7be6fe22fdaa9_: # @gcm_siv__course__open_in____b1a7be6fe22fdaa9_
	.functype	gcm_siv__course__open_in____b1a7be6fe22fdaa9_ (i32, i64, i32, i32, i64, i32, i64, i32) -> (i32)
	.local  	i32
# %bb.0:                                # %start
	global.get	__stack_pointer
	i32.const	1280
	i32.sub 
	local.tee	8
	global.set	__stack_pointer
	local.get	8
	v128.const	0, 0
	v128.store	1264:p2align=0
	local.get	8
	i32.const	768
	i32.add 
	i32.const	0
	i32.const	496
	memory.fill	0
	local.get	8
	i32.const	256
	i32.add 
	local.get	8
	i32.const	768
	i32.add 
	i32.const	512
	memory.copy	0, 0
	local.get	8
	i32.const	12
	i32.add 
	i32.const	0
	i32.const	244
	memory.fill	0
	local.get	0
	local.get	1
	local.get	2
	local.get	8
	i32.const	12
	i32.add 
	local.get	8
	i32.const	256
	i32.add 
	call	gcm_siv__keys__derive_and_prepare____b1a7be6fe22fdaa9_
	local.get	8
	i32.const	12
	i32.add 
	local.get	8
	i32.const	256
	i32.add 
	local.get	2
	local.get	3
	local.get	4
	local.get	5
	local.get	6
	local.get	7
	call	gcm_siv__message__open____f940bb35374b8583_
	local.set	2
	local.get	8
	i32.const	0
	i32.store	12
	local.get	8
	i32.const	16
	i32.add 
	call	aes_cipher__zeroize__elements__zeroize_elements____530874d131791bfe_
	local.get	8
	i32.const	256
	i32.add 
	i64.const	32
	call	aes_cipher__zeroize__elements__zeroize_elements____d3d1c9d97fea966e_
	call	aes_cipher__zeroize__stack__wipe_stack____2816_
	local.get	8
	i32.const	1280
	i32.add 
	global.set	__stack_pointer
	local.get	2
                                        # fallthrough-return
	end_function
                                        # -- End function
	.section	.text.gcm_siv__keys__derive_and_prepare____b1a7be6fe22fdaa9_,"",@
	.type	gcm_siv__keys__derive_and_prepare____b1a7be6fe22fdaa9_,@function # -- Begin function gcm_siv__keys__derive_and_prepare____b1a7be6fe22fdaa9_
gcm_siv__keys__derive_and_prepare____b1a7be6fe22fdaa9_: # @gcm_siv__keys__derive_and_prepare____b1a7be6fe22fdaa9_
	.functype	gcm_siv__keys__derive_and_prepare____b1a7be6fe22fdaa9_ (i32, i64, i32, i32, i32) -> ()
	.local  	i32, i64, i64
# %bb.0:                                # %start
	global.get	__stack_pointer
	i32.const	192
	i32.sub 
	local.tee	5
	global.set	__stack_pointer
	local.get	5
	v128.const	0, 0
	v128.store	176:p2align=0
	local.get	5
	i32.const	96
	i32.add 
	i32.const	0
	i32.const	80
	memory.fill	0
	local.get	5
	local.get	5
	i32.const	96
	i32.add 
	i32.const	96
	memory.copy	0, 0
	local.get	0
	local.get	1
	local.get	2
	local.get	5
	call	gcm_siv__keys__derive____ed3b81e0963a9ab3_
	local.get	4
	local.get	5
	i64.load	0
	local.tee	6
	i64.const	1
	i64.shr_u
	local.get	5
	i64.load	8
	local.tee	7
	i64.const	63
	i64.shl 
	i64.or  
	local.get	7
	i64.const	1
	i64.shr_u
	i64.const	0
	local.get	6
	i64.const	1
	i64.and 
	i64.sub 
	i64.const	-2233785415175766016
	i64.and 
	i64.xor 
	call	gcm__multiples__put_table
	local.get	5
	local.get	1
	local.get	3
	call	gcm_siv__keys__set_encryption_key____66aa1833bfd7fef8_
	local.get	5
	i64.const	6
	call	aes_cipher__zeroize__elements__zeroize_elements____82a118249f09cfc6_
	local.get	5
	i32.const	192
	i32.add 
	global.set	__stack_pointer
                                        # fallthrough-return
	end_function
                                        # -- End function
	.section	.text.gcm_siv__keys__derive____ed3b81e0963a9ab3_,"",@
	.type	gcm_siv__keys__derive____ed3b81e0963a9ab3_,@function # -- Begin function gcm_siv__keys__derive____ed3b81e0963a9ab3_
gcm_siv__keys__derive____ed3b81e0963a9ab3_: # @gcm_siv__keys__derive____ed3b81e0963a9ab3_
	.functype	gcm_siv__keys__derive____ed3b81e0963a9ab3_ (i32, i64, i32, i32) -> ()
	.local  	i32, i32, i64
# %bb.0:                                # %start
	global.get	__stack_pointer
	i32.const	112
	i32.sub 
	local.tee	4
	global.set	__stack_pointer
	local.get	2
	i32.load	8:p2align=0
	local.set	5
	local.get	3
	local.get	2
	i64.load	0:p2align=0
	local.tee	6
	i64.store	4:p2align=0
	local.get	3
	i32.const	0
	i32.store	0:p2align=0
	local.get	3
	local.get	5
	i32.store	12:p2align=0
	local.get	3
	i32.const	1
	i32.store	16:p2align=0
	local.get	4
	local.get	5
	i32.store	88
	local.get	4
	local.get	6
	i64.store	80
	local.get	4
	local.get	6
	i64.store	64
	local.get	4
	local.get	5
	i32.store	72
	local.get	4
	local.get	6
	i64.store	48
	local.get	4
	local.get	5
	i32.store	56
	local.get	4
	local.get	6
	i64.store	32
	local.get	4
	local.get	5
	i32.store	40
	local.get	4
	local.get	6
	i64.store	16
	local.get	4
	local.get	5
	i32.store	24
	local.get	4
	local.get	6
	i64.store	0
	local.get	4
	local.get	5
	i32.store	8
	local.get	3
	local.get	4
	i32.load	72
	i32.store	28:p2align=0
	local.get	3
	local.get	4
	i64.load	64
	i64.store	20:p2align=0
	local.get	3
	i32.const	2
	i32.store	32:p2align=0
	local.get	3
	local.get	4
	i32.load	56
	i32.store	44:p2align=0
	local.get	3
	local.get	4
	i64.load	48
	i64.store	36:p2align=0
	local.get	3
	i32.const	3
	i32.store	48:p2align=0
	local.get	3
	local.get	4
	i32.load	40
	i32.store	60:p2align=0
	local.get	3
	local.get	4
	i64.load	32
	i64.store	52:p2align=0
	local.get	3
	i32.const	4
	i32.store	64:p2align=0
	local.get	3
	local.get	4
	i32.load	24
	i32.store	76:p2align=0
	local.get	3
	local.get	4
	i64.load	16
	i64.store	68:p2align=0
	local.get	3
	i32.const	5
	i32.store	80:p2align=0
	local.get	3
	local.get	4
	i32.load	8
	i32.store	92:p2align=0
	local.get	3
	local.get	4
	i64.load	0
	i64.store	84:p2align=0
	local.get	0
	local.get	3
	local.get	1
	i64.const	3
	i64.shr_u
	i64.const	2
	i64.add 
	call	aes_hybrid__borrowed_cipher__BorrowedCipher__process_blocks____19237d6279b3cf3a_
	local.get	4
	i32.const	96
	i32.add 
	local.get	3
	local.get	3
	i32.const	16
	i32.add 
	call	gcm_siv__keys__first_halves
	local.get	3
	local.get	4
	v128.load	96:p2align=0
	v128.store	0:p2align=0
	local.get	4
	i32.const	96
	i32.add 
	local.get	3
	i32.const	32
	i32.add 
	local.get	3
	i32.const	48
	i32.add 
	call	gcm_siv__keys__first_halves
	local.get	3
	local.get	4
	v128.load	96:p2align=0
	v128.store	16:p2align=0
	local.get	4
	i32.const	96
	i32.add 
	local.get	3
	i32.const	64
	i32.add 
	local.get	3
	i32.const	80
	i32.add 
	call	gcm_siv__keys__first_halves
	local.get	3
	local.get	4
	v128.load	96:p2align=0
	v128.store	32:p2align=0
	local.get	4
	i32.const	112
	i32.add 
	global.set	__stack_pointer
                                        # fallthrough-return
	end_function
                                        # -- End function
	.section	.text.gcm_siv__keys__first_halves,"",@
	.type	gcm_siv__keys__first_halves,@function # -- Begin function gcm_siv__keys__first_halves
gcm_siv__keys__first_halves:            # @gcm_siv__keys__first_halves
	.functype	gcm_siv__keys__first_halves (i32, i32, i32) -> ()
	.local  	i64
# %bb.0:                                # %start
	local.get	1
	i64.load	0:p2align=0
	local.set	3
	local.get	0
	local.get	2
	i64.load	0:p2align=0
	i64.store	8:p2align=0
	local.get	0
	local.get	3
	i64.store	0:p2align=0
                                        # fallthrough-return
	end_function
                                        # -- End function
	.section	.text.gcm_siv__keys__set_encryption_key____66aa1833bfd7fef8_,"",@
	.type	gcm_siv__keys__set_encryption_key____66aa1833bfd7fef8_,@function # -- Begin function gcm_siv__keys__set_encryption_key____66aa1833bfd7fef8_
gcm_siv__keys__set_encryption_key____66aa1833bfd7fef8_: # @gcm_siv__keys__set_encryption_key____66aa1833bfd7fef8_
	.functype	gcm_siv__keys__set_encryption_key____66aa1833bfd7fef8_ (i32, i64, i32) -> ()
	.local  	i32
# %bb.0:                                # %start
	local.get	2
	i32.const	4
	i32.add 
	local.tee	3
	i32.const	0
	i32.const	240
	memory.fill	0
	local.get	0
	i32.const	16
	i32.add 
	local.set	0
	block   	
	local.get	1
	i64.const	16
	i64.ne  
	br_if   	0                               # 0: down to label154
# %bb.1:                                # %then.1
	local.get	3
	local.get	0
	i64.const	16
	call	aes_permute__lane_keys__expand_lanes
	local.get	2
	i32.const	16
	i32.store	0
	return
.LBB53_2:                               # %else.2
	end_block                               # label154:
	local.get	3
	local.get	0
	i64.const	32
	call	aes_permute__lane_keys__expand_lanes
	local.get	2
	i32.const	32
	i32.store	0
                                        # fallthrough-return
	end_function
                                        # -- End function
	.section	.text.aes_cipher__zeroize__elements__zeroize_elements____82a118249f09cfc6_,"",@
	.type	aes_cipher__zeroize__elements__zeroize_elements____82a118249f09cfc6_,@function # -- Begin function aes_cipher__zeroize__elements__zeroize_elements____82a118249f09cfc6_
aes_cipher__zeroize__elements__zeroize_elements____82a118249f09cfc6_: # @aes_cipher__zeroize__elements__zeroize_elements____82a118249f09cfc6_
	.functype	aes_cipher__zeroize__elements__zeroize_elements____82a118249f09cfc6_ (i32, i64) -> ()
	.local  	i32, i64, i32, i32, v128
# %bb.0:                                # %start
	global.get	__stack_pointer
	i32.const	16
	i32.sub 
	local.tee	2
	i64.const	0
	i64.store	8
	#APP
	#NO_APP
	local.get	2
	i64.load	8
	local.set	3
	#APP
	#NO_APP
	i32.const	0
	local.set	4
	block   	
	local.get	3
	local.get	1
	i64.ge_u
	local.tee	5
	br_if   	0                               # 0: down to label155
# %bb.1:                                # %then.1.i8
	local.get	0
	local.get	3
	i32.wrap_i64
	i32.const	4
	i32.shl 
	i32.add 
	i32.load8_u	0
	local.set	4
.LBB54_2:                               # %join.6.i
	end_block                               # label155:
	local.get	0
	v128.const	0, 0
	local.tee	6
	v128.store	0:p2align=0
	block   	
	local.get	1
	i64.const	1
	i64.eq  
	br_if   	0                               # 0: down to label156
# %bb.3:                                # %join.6.i.1
	local.get	0
	i32.const	16
	i32.add 
	local.get	6
	v128.store	0:p2align=0
	local.get	1
	i64.const	2
	i64.eq  
	br_if   	0                               # 0: down to label156
# %bb.4:                                # %join.6.i.2
	local.get	0
	i32.const	32
	i32.add 
	local.get	6
	v128.store	0:p2align=0
	local.get	1
	i64.const	3
	i64.eq  
	br_if   	0                               # 0: down to label156
# %bb.5:                                # %join.6.i.3
	local.get	0
	i32.const	48
	i32.add 
	local.get	6
	v128.store	0:p2align=0
	local.get	1
	i64.const	4
	i64.eq  
	br_if   	0                               # 0: down to label156
# %bb.6:                                # %join.6.i.4
	local.get	0
	i32.const	64
	i32.add 
	local.get	6
	v128.store	0:p2align=0
	local.get	1
	i64.const	5
	i64.eq  
	br_if   	0                               # 0: down to label156
# %bb.7:                                # %join.6.i.5
	local.get	0
	i32.const	80
	i32.add 
	local.get	6
	v128.store	0:p2align=0
.LBB54_8:                               # %aes_cipher__zeroize__overwrite____8c2be25e1e7027ab_.exit
	end_block                               # label156:
	i64.const	0
	local.set	1
	block   	
	local.get	5
	br_if   	0                               # 0: down to label157
# %bb.9:                                # %then.1.i
	local.get	0
	local.get	3
	i32.wrap_i64
	i32.const	4
	i32.shl 
	i32.add 
	i32.load8_u	0
	local.get	4
	i32.and 
	i64.extend_i32_u
	i64.const	255
	i64.and 
	local.set	1
.LBB54_10:                              # %aes_cipher__zeroize__observe____aefc49fcc22ee515_.exit
	end_block                               # label157:
	#APP
	#NO_APP
	local.get	2
	i64.load	8
	drop
	local.get	2
	local.get	1
	i64.store	8
	#APP
	#NO_APP
                                        # fallthrough-return
	end_function
                                        # -- End function
	.section	.text.gcm_siv__message__open____f940bb35374b8583_,"",@
	.type	gcm_siv__message__open____f940bb35374b8583_,@function # -- Begin function gcm_siv__message__open____f940bb35374b8583_
gcm_siv__message__open____f940bb35374b8583_: # @gcm_siv__message__open____f940bb35374b8583_
	.functype	gcm_siv__message__open____f940bb35374b8583_ (i32, i32, i32, i32, i64, i32, i64, i32) -> (i32)
	.local  	i32
# %bb.0:                                # %start
	global.get	__stack_pointer
	i32.const	16
	i32.sub 
	local.tee	8
	global.set	__stack_pointer
	local.get	0
	local.get	7
	local.get	5
	local.get	6
	call	gcm_siv__message__process_text____66aa1833bfd7fef8_
	local.get	0
	local.get	1
	local.get	2
	local.get	3
	local.get	4
	local.get	5
	local.get	6
	local.get	8
	call	gcm_siv__message__put_tag____f940bb35374b8583_
	local.get	7
	local.get	8
	call	aes_cipher__blocks__difference
	local.set	3
	local.get	8
	i64.const	1
	call	aes_cipher__zeroize__elements__zeroize_elements____82a118249f09cfc6_
	block   	
	local.get	3
	i32.eqz
	br_if   	0                               # 0: down to label158
# %bb.1:                                # %join.3
	local.get	0
	local.get	7
	local.get	5
	local.get	6
	call	gcm_siv__message__process_text____66aa1833bfd7fef8_
.LBB55_2:                               # %common.ret
	end_block                               # label158:
	local.get	8
	i32.const	16
	i32.add 
	global.set	__stack_pointer
	local.get	3
	i32.eqz
                                        # fallthrough-return
	end_function
                                        # -- End function
	.section	.text.gcm_siv__message__put_tag____f940bb35374b8583_,"",@
	.type	gcm_siv__message__put_tag____f940bb35374b8583_,@function # -- Begin function gcm_siv__message__put_tag____f940bb35374b8583_
gcm_siv__message__put_tag____f940bb35374b8583_: # @gcm_siv__message__put_tag____f940bb35374b8583_
	.functype	gcm_siv__message__put_tag____f940bb35374b8583_ (i32, i32, i32, i32, i64, i32, i64, i32) -> ()
	.local  	i32, v128, v128, v128, v128, v128, v128, v128
# %bb.0:                                # %start
	global.get	__stack_pointer
	i32.const	128
	i32.sub 
	local.tee	8
	global.set	__stack_pointer
	local.get	8
	i64.const	32
	i64.store	40
	local.get	8
	i32.const	0
	i32.store	36
	local.get	8
	local.get	1
	i32.store	32
	local.get	8
	v128.const	0, 0
	local.tee	9
	v128.store	64
	local.get	8
	local.get	9
	v128.store	48
	local.get	8
	v128.const	0, 0, 0, 0, 0, 0, 0, 0, 0, 0, 0, 0, 0, 0, 0, 0
	local.tee	10
	v128.store	80
	local.get	8
	i32.const	64
	i32.add 
	local.get	8
	i32.const	32
	i32.add 
	local.get	8
	i32.const	80
	i32.add 
	local.get	3
	local.get	4
	call	gcm__single_blocks__hash_singly____a9149335c466a3fd_
	local.get	8
	i32.const	48
	i32.add 
	local.get	8
	i32.const	32
	i32.add 
	local.get	8
	i32.const	64
	i32.add 
	local.get	5
	local.get	6
	call	gcm__single_blocks__hash_singly____a9149335c466a3fd_
	local.get	8
	local.get	9
	v128.store	112
	local.get	8
	local.get	8
	v128.load	48
	local.get	10
	local.get	6
	i64.const	29
	i64.shr_u
	i32.wrap_i64
	i8x16.replace_lane	3
	local.get	6
	i64.const	21
	i64.shr_u
	i32.wrap_i64
	i8x16.replace_lane	4
	local.get	6
	i64.const	13
	i64.shr_u
	i32.wrap_i64
	i8x16.replace_lane	5
	local.get	6
	i64.const	5
	i64.shr_u
	i32.wrap_i64
	i8x16.replace_lane	6
	local.get	6
	i32.wrap_i64
	i32.const	3
	i32.shl 
	i8x16.replace_lane	7
	local.get	4
	i64.const	29
	i64.shr_u
	i32.wrap_i64
	i8x16.replace_lane	11
	local.get	4
	i32.wrap_i64
	local.tee	1
	i32.const	21
	i32.shr_u
	i8x16.replace_lane	12
	local.get	1
	i32.const	13
	i32.shr_u
	i8x16.replace_lane	13
	local.get	1
	i32.const	5
	i32.shr_u
	i8x16.replace_lane	14
	local.get	1
	i32.const	3
	i32.shl 
	i8x16.replace_lane	15
	v128.xor
	v128.store	96
	local.get	8
	i32.const	112
	i32.add 
	local.get	8
	i32.const	32
	i32.add 
	local.get	8
	i32.const	96
	i32.add 
	call	gcm__multiples__Table__product
	local.get	8
	local.get	8
	i32.const	112
	i32.add 
	call	gcm_siv__hash__bytes_of
	local.get	8
	i32.const	16
	i32.add 
	local.get	8
	local.get	2
	call	gcm_siv__message__tag_input
	local.get	7
	local.get	8
	v128.load	16:p2align=0
	v128.store	0:p2align=0
	v128.const	0, 1, 28, 29, 45, 44, 49, 48, 39, 38, 59, 58, 10, 11, 22, 23
	local.get	0
	i32.const	4
	i32.add 
	local.tee	5
	v128.load	0:p2align=2
	local.get	7
	v128.load	0:p2align=0
	v128.xor
	local.tee	9
	v128.const	15, 15, 15, 15, 15, 15, 15, 15, 15, 15, 15, 15, 15, 15, 15, 15
	local.tee	11
	v128.and
	i8x16.swizzle
	v128.const	0, 134, 253, 123, 142, 8, 115, 245, 119, 241, 138, 12, 249, 127, 4, 130
	local.get	9
	i32.const	4
	i8x16.shr_u
	i8x16.swizzle
	v128.xor
	local.set	10
	local.get	0
	i32.load	0
	local.tee	1
	i32.const	2
	i32.shr_u
	i32.const	6
	i32.add 
	local.set	2
	local.get	1
	i64.extend_i32_u
	i64.const	2
	i64.shr_u
	i64.const	5
	i64.add 
	local.set	6
	i32.const	16
	local.set	1
.LBB56_1:                               # %join.5.i.i
                                        # =>This Inner Loop Header: Depth=1
	loop    	                                # label159:
	local.get	0
	local.get	1
	i32.add 
	i32.const	4
	i32.add 
	v128.load	0:p2align=0
	v128.const	0, 209, 229, 247, 230, 37, 18, 195, 38, 192, 55, 210, 244, 3, 17, 52
	v128.const	128, 1, 9, 14, 13, 11, 7, 6, 15, 2, 12, 5, 10, 4, 3, 8
	local.tee	9
	local.get	9
	local.get	10
	i32.const	4
	i8x16.shr_u
	local.tee	12
	local.get	10
	local.get	11
	v128.and
	local.tee	10
	v128.xor
	local.tee	13
	i8x16.swizzle
	v128.const	128, 2, 1, 15, 9, 5, 14, 12, 13, 4, 11, 10, 7, 8, 6, 3
	local.tee	14
	local.get	10
	i8x16.swizzle
	local.tee	10
	v128.xor
	i8x16.swizzle
	local.get	12
	v128.xor
	local.tee	15
	i8x16.swizzle
	v128.const	0, 124, 32, 207, 146, 1, 239, 147, 179, 33, 238, 206, 125, 178, 93, 92
	local.get	9
	local.get	9
	local.get	12
	i8x16.swizzle
	local.get	10
	v128.xor
	i8x16.swizzle
	local.get	13
	v128.xor
	local.tee	10
	i8x16.swizzle
	v128.xor
	v128.const	0, 230, 114, 183, 229, 198, 197, 35, 81, 180, 3, 113, 32, 151, 82, 148
	local.get	15
	i8x16.swizzle
	v128.const	0, 195, 79, 12, 252, 124, 67, 128, 207, 51, 63, 112, 191, 179, 240, 140
	local.get	10
	i8x16.swizzle
	v128.xor
	local.tee	10
	local.get	1
	i32.const	48
	i32.and 
	local.tee	3
	v128.load	.Lstatic.5:p2align=0
	local.tee	12
	i8x16.swizzle
	v128.xor
	local.tee	13
	local.get	12
	i8x16.swizzle
	v128.xor
	local.get	10
	local.get	3
	v128.load	.Lstatic.6:p2align=0
	i8x16.swizzle
	v128.xor
	local.get	13
	v128.xor
	local.set	10
	local.get	1
	i32.const	16
	i32.add 
	local.set	1
	local.get	6
	i64.const	-1
	i64.add 
	local.tee	6
	i64.const	0
	i64.ne  
	br_if   	0                               # 0: up to label159
# %bb.2:                                # %gcm_c__siv__MessageRoomMessageKey__encrypt_block.exit
	end_loop
	local.get	7
	v128.const	0, 159, 97, 22, 194, 42, 119, 232, 137, 75, 93, 60, 181, 163, 212, 254
	local.get	9
	local.get	9
	local.get	10
	i32.const	4
	i8x16.shr_u
	local.tee	12
	local.get	10
	local.get	11
	v128.and
	local.tee	10
	v128.xor
	local.tee	13
	i8x16.swizzle
	local.get	14
	local.get	10
	i8x16.swizzle
	local.tee	10
	v128.xor
	i8x16.swizzle
	local.get	12
	v128.xor
	i8x16.swizzle
	v128.const	0, 203, 215, 176, 33, 141, 103, 172, 123, 90, 234, 61, 70, 246, 145, 28
	local.get	9
	local.get	9
	local.get	12
	i8x16.swizzle
	local.get	10
	v128.xor
	i8x16.swizzle
	local.get	13
	v128.xor
	i8x16.swizzle
	v128.xor
	local.get	2
	i32.const	4
	i32.shl 
	local.tee	1
	i32.const	48
	i32.and 
	v128.load	.Lstatic.3:p2align=0
	i8x16.swizzle
	local.get	5
	local.get	1
	i32.add 
	v128.load	0:p2align=0
	v128.xor
	v128.store	0:p2align=0
	local.get	8
	i32.const	128
	i32.add 
	global.set	__stack_pointer
                                        # fallthrough-return
	end_function
                                        # -- End function
	.section	.text.gcm__single_blocks__hash_singly____a9149335c466a3fd_,"",@
	.type	gcm__single_blocks__hash_singly____a9149335c466a3fd_,@function # -- Begin function gcm__single_blocks__hash_singly____a9149335c466a3fd_
gcm__single_blocks__hash_singly____a9149335c466a3fd_: # @gcm__single_blocks__hash_singly____a9149335c466a3fd_
	.functype	gcm__single_blocks__hash_singly____a9149335c466a3fd_ (i32, i32, i32, i32, i64) -> ()
	.local  	i32, v128, i64, v128, v128
# %bb.0:                                # %start
	global.get	__stack_pointer
	i32.const	32
	i32.sub 
	local.tee	5
	global.set	__stack_pointer
	local.get	2
	v128.load	0:p2align=0
	local.set	6
	block   	
	local.get	4
	i64.const	4
	i64.shr_u
	local.tee	7
	i64.eqz
	br_if   	0                               # 0: down to label160
# %bb.1:                                # %join.5.i.preheader
	local.get	3
	local.set	2
.LBB57_2:                               # %join.5.i
                                        # =>This Inner Loop Header: Depth=1
	loop    	                                # label161:
	local.get	2
	v128.load	0:p2align=0
	local.set	8
	local.get	5
	v128.const	0, 0
	v128.store	16
	local.get	5
	local.get	8
	local.get	6
	i8x16.shuffle	15, 14, 13, 12, 11, 10, 9, 8, 7, 6, 5, 4, 3, 2, 1, 0
	local.get	6
	v128.xor
	v128.store	0
	local.get	5
	i32.const	16
	i32.add 
	local.get	1
	local.get	5
	call	gcm__multiples__Table__product
	local.get	2
	i32.const	16
	i32.add 
	local.set	2
	local.get	5
	v128.load	16
	local.set	6
	local.get	7
	i64.const	-1
	i64.add 
	local.tee	7
	i64.const	0
	i64.ne  
	br_if   	0                               # 0: up to label161
.LBB57_3:                               # %gcm__single_blocks__hash_whole____a9149335c466a3fd_.exit
	end_loop
	end_block                               # label160:
	block   	
	local.get	4
	i64.const	15
	i64.and 
	local.tee	7
	i64.const	0
	i64.eq  
	br_if   	0                               # 0: down to label162
# %bb.4:                                # %join.3
	local.get	5
	v128.const	0, 0
	local.tee	8
	v128.store	16
	block   	
	block   	
	local.get	5
	i32.const	16
	i32.add 
	i64.extend_i32_u
	local.get	3
	local.get	4
	i32.wrap_i64
	local.tee	2
	i32.const	-16
	i32.and 
	i32.add 
	local.tee	3
	i64.extend_i32_u
	i64.sub 
	local.get	7
	i64.ge_u
	br_if   	0                               # 0: down to label164
# %bb.5:                                # %join.7.i.i.i.i.i.i.preheader
	local.get	2
	i32.const	15
	i32.and 
	local.tee	2
	i32.eqz
	br_if   	1                               # 1: down to label163
# %bb.6:                                # %join.7.i.i.i.i.i.i.preheader
	local.get	5
	i32.const	16
	i32.add 
	local.get	3
	local.get	2
	memory.copy	0, 0
	br      	1                               # 1: down to label163
.LBB57_7:                               # %apart.2.i.i.i.i.i.i
	end_block                               # label164:
	local.get	7
	i32.wrap_i64
	local.tee	2
	i32.eqz
	br_if   	0                               # 0: down to label163
# %bb.8:                                # %apart.2.i.i.i.i.i.i
	local.get	5
	i32.const	16
	i32.add 
	local.get	3
	local.get	2
	memory.copy	0, 0
.LBB57_9:                               # %core__slice__edits__slice_T__copy_from_slice___i8_20_core__clone__U8Clone___.exit
	end_block                               # label163:
	local.get	5
	v128.load	16
	local.set	9
	local.get	5
	local.get	8
	v128.store	16
	local.get	5
	local.get	9
	local.get	6
	i8x16.shuffle	15, 14, 13, 12, 11, 10, 9, 8, 7, 6, 5, 4, 3, 2, 1, 0
	local.get	6
	v128.xor
	v128.store	0
	local.get	5
	i32.const	16
	i32.add 
	local.get	1
	local.get	5
	call	gcm__multiples__Table__product
	local.get	5
	v128.load	16
	local.set	6
.LBB57_10:                              # %common.ret
	end_block                               # label162:
	local.get	0
	local.get	6
	v128.store	0:p2align=0
	local.get	5
	i32.const	32
	i32.add 
	global.set	__stack_pointer
                                        # fallthrough-return
	end_function
                                        # -- End function
	.section	.text.gcm__multiples__Table__product,"",@
	.type	gcm__multiples__Table__product,@function # -- Begin function gcm__multiples__Table__product
gcm__multiples__Table__product:         # @gcm__multiples__Table__product
	.functype	gcm__multiples__Table__product (i32, i32, i32) -> ()
	.local  	v128, v128, v128, i64, v128, v128, v128, v128, v128, i32, i32, v128, i64, i64
# %bb.0:                                # %start
	local.get	1
	i32.load	0:p2align=0
	i32.const	496
	i32.add 
	local.set	1
	local.get	2
	v128.load	0:p2align=0
	local.tee	3
	i32.const	4
	i8x16.shr_u
	local.set	4
	local.get	3
	v128.const	15, 15, 15, 15, 15, 15, 15, 15, 15, 15, 15, 15, 15, 15, 15, 15
	v128.and
	local.set	5
	i64.const	8
	local.set	6
	v128.const	0, 0, 0, 0, 0, 0, 0, 0, 0, 0, 0, 0, 0, 0, 0, 0
	local.tee	7
	local.set	8
	local.get	7
	local.set	9
	local.get	7
	local.set	3
	local.get	7
	local.set	10
.LBB58_1:                               # %join.5.i
                                        # =>This Inner Loop Header: Depth=1
	loop    	                                # label165:
	local.get	1
	v128.load	0:p2align=0
	local.set	11
	local.get	1
	i32.const	-256
	i32.add 
	local.set	2
	local.get	1
	i32.const	-16
	i32.add 
	local.set	12
	local.get	1
	i32.const	-272
	i32.add 
	local.set	13
	local.get	3
	local.get	8
	i8x16.shuffle	15, 16, 17, 18, 19, 20, 21, 22, 23, 24, 25, 26, 27, 28, 29, 30
	local.set	8
	local.get	1
	i32.const	-32
	i32.add 
	local.set	1
	local.get	10
	local.get	9
	i8x16.shuffle	15, 16, 17, 18, 19, 20, 21, 22, 23, 24, 25, 26, 27, 28, 29, 30
	local.set	9
	local.get	13
	v128.load	0:p2align=0
	local.get	4
	i8x16.swizzle
	local.get	12
	v128.load	0:p2align=0
	local.get	5
	i8x16.swizzle
	v128.xor
	local.get	7
	local.get	3
	i8x16.shuffle	0, 16, 17, 18, 19, 20, 21, 22, 23, 24, 25, 26, 27, 28, 29, 30
	v128.xor
	local.tee	14
	local.set	3
	local.get	2
	v128.load	0:p2align=0
	local.get	4
	i8x16.swizzle
	local.get	11
	local.get	5
	i8x16.swizzle
	v128.xor
	local.get	7
	local.get	10
	i8x16.shuffle	0, 16, 17, 18, 19, 20, 21, 22, 23, 24, 25, 26, 27, 28, 29, 30
	v128.xor
	local.tee	11
	local.set	10
	local.get	6
	i64.const	-1
	i64.add 
	local.tee	6
	i64.const	0
	i64.ne  
	br_if   	0                               # 0: up to label165
# %bb.2:                                # %gcm__multiples__shifted_sum____29e205ae42dcf28f_.exit
	end_loop
	local.get	0
	v128.const	0, 0, 0, 0, 0, 0, 0, 0, 0, 0, 0, 0, 0, 0, 0, 0
	local.get	11
	i8x16.shuffle	0, 1, 2, 3, 4, 5, 6, 7, 16, 17, 18, 19, 20, 21, 22, 23
	local.get	14
	v128.xor
	local.get	11
	local.get	9
	i8x16.shuffle	8, 9, 10, 11, 12, 13, 14, 15, 16, 17, 18, 19, 20, 21, 22, 23
	local.get	8
	v128.xor
	local.tee	3
	i64x2.extract_lane	1
	local.tee	6
	i64.const	56
	i64.shl 
	local.get	6
	i64.const	65280
	i64.and 
	i64.const	40
	i64.shl 
	i64.or  
	local.get	6
	i64.const	16711680
	i64.and 
	i64.const	24
	i64.shl 
	local.get	6
	i64.const	4278190080
	i64.and 
	i64.const	8
	i64.shl 
	i64.or  
	i64.or  
	local.get	6
	i64.const	8
	i64.shr_u
	i64.const	4278190080
	i64.and 
	local.get	6
	i64.const	24
	i64.shr_u
	i64.const	16711680
	i64.and 
	i64.or  
	local.get	6
	i64.const	40
	i64.shr_u
	i64.const	65280
	i64.and 
	local.get	6
	i64.const	56
	i64.shr_u
	i64.or  
	i64.or  
	i64.or  
	local.tee	15
	i64.const	2
	i64.shr_u
	local.get	3
	i64x2.extract_lane	0
	local.tee	6
	i64.const	56
	i64.shr_u
	local.tee	16
	i64.const	62
	i64.shl 
	i64.or  
	local.get	15
	i64.const	1
	i64.shr_u
	local.get	16
	i64.const	63
	i64.shl 
	i64.or  
	i64.xor 
	local.get	15
	i64.const	7
	i64.shr_u
	local.get	16
	i64.const	57
	i64.shl 
	i64.or  
	i64.xor 
	local.get	15
	i64.xor 
	i64x2.splat
	local.get	6
	i64.const	56
	i64.shl 
	local.get	6
	i64.const	65280
	i64.and 
	i64.const	40
	i64.shl 
	i64.or  
	local.get	6
	i64.const	16711680
	i64.and 
	i64.const	24
	i64.shl 
	local.get	6
	i64.const	4278190080
	i64.and 
	i64.const	8
	i64.shl 
	i64.or  
	i64.or  
	local.get	6
	i64.const	8
	i64.shr_u
	i64.const	4278190080
	i64.and 
	local.get	6
	i64.const	24
	i64.shr_u
	i64.const	16711680
	i64.and 
	i64.or  
	local.get	6
	i64.const	40
	i64.shr_u
	i64.const	65280
	i64.and 
	local.get	16
	i64.or  
	i64.or  
	i64.or  
	local.tee	6
	i64.const	2
	i64.shr_u
	local.get	6
	i64.const	1
	i64.shr_u
	i64.xor 
	local.get	6
	i64.const	7
	i64.shr_u
	i64.xor 
	local.get	6
	i64.xor 
	i64x2.replace_lane	1
	local.get	3
	i8x16.shuffle	15, 14, 13, 12, 11, 10, 9, 8, 7, 6, 5, 4, 3, 2, 1, 0
	v128.xor
	v128.store	0:p2align=0
                                        # fallthrough-return
	end_function
                                        # -- End function
	.section	.text.gcm_siv__hash__bytes_of,"",@
	.type	gcm_siv__hash__bytes_of,@function # -- Begin function gcm_siv__hash__bytes_of
gcm_siv__hash__bytes_of:                # @gcm_siv__hash__bytes_of
	.functype	gcm_siv__hash__bytes_of (i32, i32) -> ()
	.local  	i64, i64, i64, i64, i64, i64, i64, i64
# %bb.0:                                # %start
	local.get	1
	i64.load	8:p2align=0
	local.set	2
	local.get	0
	local.get	1
	i64.load	0:p2align=0
	local.tee	3
	i64.store8	15
	local.get	0
	local.get	2
	i64.store8	7
	local.get	0
	local.get	3
	i64.const	8
	i64.shr_u
	local.tee	4
	i64.store8	14
	local.get	0
	local.get	3
	i64.const	16
	i64.shr_u
	i64.store8	13
	local.get	0
	local.get	3
	i64.const	24
	i64.shr_u
	local.tee	5
	i64.store8	12
	local.get	0
	local.get	3
	i64.const	56
	i64.shr_u
	local.tee	6
	i64.store8	8
	local.get	0
	local.get	2
	i64.const	8
	i64.shr_u
	local.tee	7
	i64.store8	6
	local.get	0
	local.get	2
	i64.const	16
	i64.shr_u
	i64.store8	5
	local.get	0
	local.get	2
	i64.const	24
	i64.shr_u
	local.tee	8
	i64.store8	4
	local.get	0
	local.get	2
	i64.const	56
	i64.shr_u
	local.tee	9
	i64.store8	0
	local.get	0
	local.get	4
	i64.const	4278190080
	i64.and 
	local.get	5
	i64.const	16711680
	i64.and 
	i64.or  
	local.get	3
	i64.const	40
	i64.shr_u
	i64.const	65280
	i64.and 
	local.get	6
	i64.or  
	i64.or  
	i32.wrap_i64
	local.tee	1
	i32.const	24
	i32.shr_u
	i32.store8	11
	local.get	0
	local.get	1
	i32.const	16
	i32.shr_u
	i32.store8	10
	local.get	0
	local.get	1
	i32.const	8
	i32.shr_u
	i32.store8	9
	local.get	0
	local.get	7
	i64.const	4278190080
	i64.and 
	local.get	8
	i64.const	16711680
	i64.and 
	i64.or  
	local.get	2
	i64.const	40
	i64.shr_u
	i64.const	65280
	i64.and 
	local.get	9
	i64.or  
	i64.or  
	i32.wrap_i64
	local.tee	1
	i32.const	24
	i32.shr_u
	i32.store8	3
	local.get	0
	local.get	1
	i32.const	16
	i32.shr_u
	i32.store8	2
	local.get	0
	local.get	1
	i32.const	8
	i32.shr_u
	i32.store8	1
                                        # fallthrough-return
	end_function
                                        # -- End function
	.section	.text.gcm_siv__message__tag_input,"",@
	.type	gcm_siv__message__tag_input,@function # -- Begin function gcm_siv__message__tag_input
gcm_siv__message__tag_input:            # @gcm_siv__message__tag_input
	.functype	gcm_siv__message__tag_input (i32, i32, i32) -> ()
# %bb.0:                                # %start
	local.get	0
	local.get	2
	i32.const	11
	i32.add 
	local.get	2
	i32.const	10
	i32.add 
	local.get	2
	i32.const	9
	i32.add 
	local.get	2
	i32.const	8
	i32.add 
	local.get	2
	i32.const	7
	i32.add 
	local.get	2
	i32.const	6
	i32.add 
	local.get	2
	i32.const	5
	i32.add 
	local.get	2
	i32.const	4
	i32.add 
	local.get	2
	i32.const	3
	i32.add 
	local.get	2
	i32.const	2
	i32.add 
	local.get	2
	i32.const	1
	i32.add 
	local.get	2
	v128.const	0, 0, 0, 0, 0, 0, 0, 0, 0, 0, 0, 0, 0, 0, 0, 0
	v128.load8_lane	0, 0
	v128.load8_lane	0, 1
	v128.load8_lane	0, 2
	v128.load8_lane	0, 3
	v128.load8_lane	0, 4
	v128.load8_lane	0, 5
	v128.load8_lane	0, 6
	v128.load8_lane	0, 7
	v128.load8_lane	0, 8
	v128.load8_lane	0, 9
	v128.load8_lane	0, 10
	v128.load8_lane	0, 11
	local.get	1
	v128.load	0:p2align=0
	v128.xor
	v128.const	255, 255, 255, 255, 255, 255, 255, 255, 255, 255, 255, 255, 255, 255, 255, 127
	v128.and
	v128.store	0:p2align=0
                                        # fallthrough-return
	end_function
                                        # -- End function
	.section	.text.gcm_siv__message__process_text____66aa1833bfd7fef8_,"",@
	.type	gcm_siv__message__process_text____66aa1833bfd7fef8_,@function # -- Begin function gcm_siv__message__process_text____66aa1833bfd7fef8_
gcm_siv__message__process_text____66aa1833bfd7fef8_: # @gcm_siv__message__process_text____66aa1833bfd7fef8_
	.functype	gcm_siv__message__process_text____66aa1833bfd7fef8_ (i32, i32, i32, i64) -> ()
	.local  	i32, i32, i32, i32, i64, i64, i64, i32, i32, i32, i32, i32, i32, i32, i64, i64, i64, i32, i64, i64
# %bb.0:                                # %start
	global.get	__stack_pointer
	i32.const	304
	i32.sub 
	local.tee	4
	global.set	__stack_pointer
	local.get	0
	i32.load	0
	local.set	5
	local.get	4
	local.get	1
	i32.load8_u	15
	i32.const	-128
	i32.or  
	local.tee	6
	i32.store8	15
	local.get	4
	local.get	1
	i64.load	7:p2align=0
	i64.store	7:p2align=0
	local.get	4
	local.get	1
	i64.load	0:p2align=0
	i64.store	0
	local.get	4
	i64.const	0
	i64.store	16
	local.get	0
	i32.const	4
	i32.add 
	local.set	7
	local.get	5
	i32.const	2
	i32.shr_u
	i32.const	7
	i32.add 
	i64.extend_i32_u
	local.set	8
	block   	
	block   	
	local.get	3
	i64.const	16
	i64.gt_u
	local.tee	0
	br_if   	0                               # 0: down to label167
# %bb.1:                                # %then.1.i.i
	local.get	4
	local.get	6
	i32.store8	63
	local.get	4
	local.get	4
	i32.load	0
	i32.store	48
	local.get	4
	local.get	1
	i64.load	4:p2align=0
	i64.store	52:p2align=2
	local.get	4
	local.get	1
	i32.load	11:p2align=0
	i32.store	59:p2align=0
	local.get	7
	local.get	8
	local.get	4
	i32.const	48
	i32.add 
	i64.const	1
	call	aes_permute__blocks__process_on_lanes____06aaae76f5856d0a_
	block   	
	local.get	0
	br_if   	0                               # 0: down to label168
# %bb.2:                                # %then.1.i.i
	block   	
	local.get	3
	i32.wrap_i64
	br_table 	{3, 1, 1, 1, 1, 1, 1, 1, 1, 1, 1, 1, 1, 1, 1, 1, 0, 3} # 1: down to label168
                                        # 0: down to label169
                                        # 3: down to label166
.LBB61_3:                               # %after.4.i.thread.i.i.i
	end_block                               # label169:
	local.get	2
	local.get	4
	v128.load	48
	local.get	2
	v128.load	0:p2align=0
	v128.xor
	v128.store	0:p2align=0
	br      	2                               # 2: down to label166
.LBB61_4:                               # %join.8.i10.i.i.i.preheader
	end_block                               # label168:
	local.get	4
	i32.const	48
	i32.add 
	local.set	1
.LBB61_5:                               # %join.8.i10.i.i.i
                                        # =>This Inner Loop Header: Depth=1
	loop    	                                # label170:
	local.get	2
	local.get	2
	i32.load8_u	0
	local.get	1
	i32.load8_u	0
	i32.xor 
	i32.store8	0
	local.get	1
	i32.const	1
	i32.add 
	local.set	1
	local.get	2
	i32.const	1
	i32.add 
	local.set	2
	local.get	3
	i64.const	-1
	i64.add 
	local.tee	3
	i64.const	0
	i64.ne  
	br_if   	0                               # 0: up to label170
	br      	2                               # 2: down to label166
.LBB61_6:                               # %else.2.i.i
	end_loop
	end_block                               # label167:
	local.get	4
	i32.const	0
	i32.store	36
	local.get	4
	local.get	2
	i32.store	32
	local.get	4
	i64.const	0
	i64.store	24
	local.get	4
	local.get	3
	i64.store	40
	local.get	4
	local.get	4
	i32.store	16
	block   	
	local.get	3
	i64.const	113
	i64.lt_u
	br_if   	0                               # 0: down to label171
# %bb.7:                                # %then.1.i.i.i
	local.get	7
	local.get	8
	local.get	7
	local.get	8
	local.get	4
	i32.const	16
	i32.add 
	call	aes_hybrid__closures__lend_planes____4eff1f6a6667429a_
	br      	1                               # 1: down to label166
.LBB61_8:                               # %join.3.i.i.i.i
	end_block                               # label171:
	i64.const	0
	local.set	9
	block   	
	local.get	3
	i64.const	64
	i64.lt_u
	br_if   	0                               # 0: down to label172
# %bb.9:                                # %loop.13.preheader.i.i.loopexit.i.i
	local.get	4
	i32.const	112
	i32.add 
	i32.const	0
	i32.const	192
	memory.fill	0
	local.get	4
	local.get	6
	i32.store8	63
	local.get	4
	local.get	6
	i32.store8	79
	local.get	4
	local.get	6
	i32.store8	95
	local.get	4
	local.get	4
	i32.load	0
	local.tee	0
	i32.store	48
	local.get	4
	local.get	1
	i64.load	4:p2align=0
	local.tee	10
	i64.store	52:p2align=2
	local.get	4
	local.get	1
	i32.load	11:p2align=0
	local.tee	1
	i32.store	59:p2align=0
	local.get	4
	local.get	10
	i64.store	68:p2align=2
	local.get	4
	local.get	1
	i32.store	75:p2align=0
	local.get	4
	local.get	10
	i64.store	84:p2align=2
	local.get	4
	local.get	1
	i32.store	91:p2align=0
	local.get	4
	local.get	1
	i32.store	107:p2align=0
	local.get	4
	local.get	10
	i64.store	100:p2align=2
	local.get	4
	local.get	0
	i32.const	1
	i32.add 
	i32.store	64
	local.get	4
	local.get	0
	i32.const	2
	i32.add 
	i32.store	80
	local.get	4
	local.get	0
	i32.const	3
	i32.add 
	i32.store	96
	local.get	4
	local.get	6
	i32.store8	111
	local.get	7
	local.get	8
	local.get	4
	i32.const	48
	i32.add 
	i64.const	4
	call	aes_permute__blocks__process_on_lanes____06aaae76f5856d0a_
	local.get	2
	local.get	4
	v128.load	48
	local.get	2
	v128.load	0:p2align=0
	v128.xor
	v128.store	0:p2align=0
	local.get	2
	i32.const	16
	i32.add 
	local.tee	1
	local.get	4
	v128.load	64
	local.get	1
	v128.load	0:p2align=0
	v128.xor
	v128.store	0:p2align=0
	local.get	2
	i32.const	32
	i32.add 
	local.tee	1
	local.get	4
	v128.load	80
	local.get	1
	v128.load	0:p2align=0
	v128.xor
	v128.store	0:p2align=0
	local.get	2
	i32.const	48
	i32.add 
	local.tee	1
	local.get	4
	v128.load	96
	local.get	1
	v128.load	0:p2align=0
	v128.xor
	v128.store	0:p2align=0
	i64.const	64
	local.set	9
.LBB61_10:                              # %loop.13.preheader.i.i.i.i
	end_block                               # label172:
	local.get	9
	local.get	3
	i64.ge_u
	br_if   	0                               # 0: down to label166
# %bb.11:                               # %join.16.i.i.i.preheader.i
	local.get	4
	i32.const	100
	i32.add 
	local.set	11
	local.get	4
	i32.const	84
	i32.add 
	local.set	12
	local.get	4
	i32.const	68
	i32.add 
	local.set	13
	local.get	4
	i32.const	48
	i32.add 
	i32.const	4
	i32.add 
	local.set	14
	local.get	4
	i32.const	4
	i32.or  
	local.set	15
	local.get	4
	i32.const	112
	i32.add 
	local.set	16
	local.get	4
	i32.load	0
	local.set	17
.LBB61_12:                              # %join.16.i.i.i.i
                                        # =>This Loop Header: Depth=1
                                        #     Child Loop BB61_17 Depth 2
                                        #     Child Loop BB61_22 Depth 2
                                        #     Child Loop BB61_27 Depth 2
	loop    	                                # label173:
	local.get	16
	i32.const	0
	i32.const	192
	memory.fill	0
	local.get	14
	local.get	15
	i64.load	0:p2align=2
	local.tee	10
	i64.store	0:p2align=2
	local.get	14
	local.get	15
	i32.load	8
	local.tee	1
	i32.store	8
	local.get	13
	local.get	10
	i64.store	0:p2align=2
	local.get	13
	local.get	1
	i32.store	8
	local.get	12
	local.get	10
	i64.store	0:p2align=2
	local.get	12
	local.get	1
	i32.store	8
	local.get	11
	local.get	10
	i64.store	0:p2align=2
	local.get	11
	local.get	1
	i32.store	8
	local.get	4
	local.get	17
	local.get	9
	i64.const	4
	i64.shr_u
	i32.wrap_i64
	i32.add 
	local.tee	1
	i32.store	48
	local.get	4
	local.get	1
	i32.const	1
	i32.add 
	i32.store	64
	local.get	4
	local.get	1
	i32.const	2
	i32.add 
	i32.store	80
	local.get	4
	local.get	1
	i32.const	3
	i32.add 
	i32.store	96
	local.get	7
	local.get	8
	local.get	4
	i32.const	48
	i32.add 
	local.get	9
	i64.const	15
	i64.and 
	local.tee	18
	local.get	3
	local.get	9
	i64.sub 
	local.tee	10
	i64.const	64
	local.get	18
	i64.sub 
	local.tee	19
	local.get	10
	local.get	19
	i64.lt_u
	i64.select
	local.tee	20
	i64.add 
	i64.const	15
	i64.add 
	i64.const	4
	i64.shr_u
	call	aes_permute__blocks__process_on_lanes____06aaae76f5856d0a_
	local.get	2
	local.get	9
	i32.wrap_i64
	local.tee	6
	i32.add 
	local.set	21
	block   	
	block   	
	local.get	18
	i64.eqz
	i32.eqz
	br_if   	0                               # 0: down to label175
# %bb.13:                               #   in Loop: Header=BB61_12 Depth=1
	i64.const	0
	local.set	22
	br      	1                               # 1: down to label174
.LBB61_14:                              # %then.1.i.i4.i
                                        #   in Loop: Header=BB61_12 Depth=1
	end_block                               # label175:
	local.get	20
	i64.const	16
	local.get	18
	i64.sub 
	local.tee	10
	local.get	20
	local.get	10
	i64.lt_u
	i64.select
	local.set	22
	local.get	3
	local.get	9
	i64.eq  
	br_if   	0                               # 0: down to label174
# %bb.15:                               # %join.8.i85.i.i.preheader
                                        #   in Loop: Header=BB61_12 Depth=1
	i64.const	0
	local.set	10
	block   	
	local.get	22
	i64.const	1
	i64.eq  
	br_if   	0                               # 0: down to label176
# %bb.16:                               # %join.8.i85.i.i.preheader.new
                                        #   in Loop: Header=BB61_12 Depth=1
	local.get	22
	i64.const	1
	i64.and 
	local.set	23
	local.get	22
	i64.const	30
	i64.and 
	local.set	19
	local.get	4
	i32.const	48
	i32.add 
	local.get	6
	i32.const	15
	i32.and 
	i32.add 
	local.set	0
	i64.const	0
	local.set	10
	local.get	21
	local.set	1
.LBB61_17:                              # %join.8.i85.i.i
                                        #   Parent Loop BB61_12 Depth=1
                                        # =>  This Inner Loop Header: Depth=2
	loop    	                                # label177:
	local.get	1
	local.get	1
	i32.load8_u	0
	local.get	0
	i32.load8_u	0
	i32.xor 
	i32.store8	0
	local.get	1
	i32.const	1
	i32.add 
	local.tee	5
	local.get	5
	i32.load8_u	0
	local.get	0
	i32.const	1
	i32.add 
	i32.load8_u	0
	i32.xor 
	i32.store8	0
	local.get	1
	i32.const	2
	i32.add 
	local.set	1
	local.get	0
	i32.const	2
	i32.add 
	local.set	0
	local.get	19
	local.get	10
	i64.const	2
	i64.add 
	local.tee	10
	i64.ne  
	br_if   	0                               # 0: up to label177
# %bb.18:                               # %join.3.i.i.i.loopexit.unr-lcssa
                                        #   in Loop: Header=BB61_12 Depth=1
	end_loop
	local.get	23
	i64.eqz
	br_if   	1                               # 1: down to label174
.LBB61_19:                              # %join.8.i85.i.i.epil.preheader
                                        #   in Loop: Header=BB61_12 Depth=1
	end_block                               # label176:
	local.get	21
	local.get	10
	i32.wrap_i64
	i32.add 
	local.tee	1
	local.get	1
	i32.load8_u	0
	local.get	4
	i32.const	48
	i32.add 
	local.get	10
	local.get	18
	i64.add 
	i32.wrap_i64
	i32.add 
	i32.load8_u	0
	i32.xor 
	i32.store8	0
.LBB61_20:                              # %join.3.i.i.i
                                        #   in Loop: Header=BB61_12 Depth=1
	end_block                               # label174:
	block   	
	local.get	20
	local.get	22
	i64.sub 
	local.tee	10
	i64.const	16
	i64.lt_u
	br_if   	0                               # 0: down to label178
# %bb.21:                               # %join.8.i.i.i.preheader
                                        #   in Loop: Header=BB61_12 Depth=1
	i64.const	0
	local.get	22
	i64.sub 
	local.set	19
	local.get	6
	i32.const	15
	i32.and 
	local.get	22
	i32.wrap_i64
	local.tee	1
	i32.add 
	local.set	0
	local.get	2
	local.get	1
	local.get	6
	i32.add 
	i32.add 
	local.set	1
.LBB61_22:                              # %join.8.i.i.i
                                        #   Parent Loop BB61_12 Depth=1
                                        # =>  This Inner Loop Header: Depth=2
	loop    	                                # label179:
	local.get	1
	local.get	4
	i32.const	48
	i32.add 
	local.get	0
	i32.const	-16
	i32.and 
	i32.add 
	v128.load	0:p2align=2
	local.get	1
	v128.load	0:p2align=0
	v128.xor
	v128.store	0:p2align=0
	local.get	0
	i32.const	16
	i32.add 
	local.set	0
	local.get	1
	i32.const	16
	i32.add 
	local.set	1
	local.get	20
	local.get	19
	i64.const	-16
	i64.add 
	local.tee	19
	i64.add 
	local.tee	10
	i64.const	15
	i64.gt_u
	br_if   	0                               # 0: up to label179
# %bb.23:                               # %after.4.i.i.i.loopexit
                                        #   in Loop: Header=BB61_12 Depth=1
	end_loop
	i64.const	0
	local.get	19
	i64.sub 
	local.set	22
.LBB61_24:                              # %after.4.i.i.i
                                        #   in Loop: Header=BB61_12 Depth=1
	end_block                               # label178:
	block   	
	local.get	22
	local.get	20
	i64.ge_u
	br_if   	0                               # 0: down to label180
# %bb.25:                               # %then.9.i.i.i
                                        #   in Loop: Header=BB61_12 Depth=1
	local.get	10
	i64.eqz
	br_if   	0                               # 0: down to label180
# %bb.26:                               # %join.8.i28.i.i.preheader
                                        #   in Loop: Header=BB61_12 Depth=1
	local.get	21
	local.get	22
	i32.wrap_i64
	i32.add 
	local.set	1
	local.get	4
	i32.const	48
	i32.add 
	local.get	22
	local.get	18
	i64.add 
	i32.wrap_i64
	i32.const	-16
	i32.and 
	i32.add 
	local.set	0
.LBB61_27:                              # %join.8.i28.i.i
                                        #   Parent Loop BB61_12 Depth=1
                                        # =>  This Inner Loop Header: Depth=2
	loop    	                                # label181:
	local.get	1
	local.get	1
	i32.load8_u	0
	local.get	0
	i32.load8_u	0
	i32.xor 
	i32.store8	0
	local.get	0
	i32.const	1
	i32.add 
	local.set	0
	local.get	1
	i32.const	1
	i32.add 
	local.set	1
	local.get	10
	i64.const	-1
	i64.add 
	local.tee	10
	i64.const	0
	i64.ne  
	br_if   	0                               # 0: up to label181
.LBB61_28:                              # %aes_ctr__add_in_batches__add_next____67adacb97a8afb93_.exit.i
                                        #   in Loop: Header=BB61_12 Depth=1
	end_loop
	end_block                               # label180:
	local.get	20
	local.get	9
	i64.add 
	local.tee	9
	local.get	3
	i64.lt_u
	br_if   	0                               # 0: up to label173
.LBB61_29:                              # %gcm_siv__counters__add_keystream____ed3b81e0963a9ab3_.exit
	end_loop
	end_block                               # label166:
	local.get	4
	i32.const	304
	i32.add 
	global.set	__stack_pointer
                                        # fallthrough-return
	end_function
                                        # -- End function
	.section	.text.aes_hybrid__closures__lend_planes____4eff1f6a6667429a_,"",@
	.type	aes_hybrid__closures__lend_planes____4eff1f6a6667429a_,@function # -- Begin function aes_hybrid__closures__lend_planes____4eff1f6a6667429a_
aes_hybrid__closures__lend_planes____4eff1f6a6667429a_: # @aes_hybrid__closures__lend_planes____4eff1f6a6667429a_
	.functype	aes_hybrid__closures__lend_planes____4eff1f6a6667429a_ (i32, i64, i32, i64, i32) -> ()
	.local  	i32
# %bb.0:                                # %start
	global.get	__stack_pointer
	i32.const	1952
	i32.sub 
	local.tee	5
	global.set	__stack_pointer
	local.get	5
	i32.const	160
	i32.add 
	i32.const	0
	i32.const	1792
	memory.fill	0
	local.get	5
	i32.const	32
	i32.add 
	local.get	0
	local.get	1
	call	aes_hybrid__plane_keys__store_planes____fab3fa1ddd682008_
	local.get	5
	local.get	3
	i64.store	24
	local.get	5
	i32.const	0
	i32.store	20
	local.get	5
	local.get	2
	i32.store	16
	local.get	5
	local.get	1
	i64.store	8
	local.get	5
	i32.const	0
	i32.store	4
	local.get	5
	local.get	0
	i32.store	0
	local.get	5
	local.get	5
	i32.const	32
	i32.add 
	local.get	1
	i64.const	3
	i64.shl 
	local.get	4
	call	aes_hybrid__closures__call_to_work____4eff1f6a6667429a_
	local.get	5
	i32.const	32
	i32.add 
	call	aes_cipher__zeroize__zeroize_words____fab3fa1ddd682008_
	call	aes_cipher__zeroize__stack__wipe_stack____2032_
	local.get	5
	i32.const	1952
	i32.add 
	global.set	__stack_pointer
                                        # fallthrough-return
	end_function
                                        # -- End function
	.section	.text.aes_hybrid__closures__call_to_work____4eff1f6a6667429a_,"",@
	.type	aes_hybrid__closures__call_to_work____4eff1f6a6667429a_,@function # -- Begin function aes_hybrid__closures__call_to_work____4eff1f6a6667429a_
aes_hybrid__closures__call_to_work____4eff1f6a6667429a_: # @aes_hybrid__closures__call_to_work____4eff1f6a6667429a_
	.functype	aes_hybrid__closures__call_to_work____4eff1f6a6667429a_ (i32, i32, i64, i32) -> ()
	.local  	i32, i32, i64, i32, i64, i64, i64, i32, v128, v128, v128, v128, v128, v128, v128, v128, v128, v128, v128, v128, v128, v128, v128, v128, v128, v128, v128, v128, v128, v128, v128, v128
# %bb.0:                                # %start
	global.get	__stack_pointer
	i32.const	160
	i32.sub 
	local.tee	4
	global.set	__stack_pointer
	local.get	4
	local.get	2
	i64.store	24
	local.get	4
	i32.const	0
	i32.store	20
	local.get	4
	local.get	1
	i32.store	16
	local.get	4
	i32.const	0
	i32.store	12
	local.get	4
	local.get	0
	i32.store	8
	local.get	3
	i32.const	16
	i32.add 
	i32.load	0
	local.set	5
	local.get	3
	i32.const	24
	i32.add 
	i64.load	0
	local.set	6
	local.get	3
	i32.load	0
	local.set	7
	block   	
	block   	
	local.get	3
	i32.const	8
	i32.add 
	i64.load	0
	local.tee	8
	i64.const	15
	i64.and 
	i64.eqz
	i32.eqz
	br_if   	0                               # 0: down to label183
# %bb.1:
	i64.const	0
	local.set	9
	br      	1                               # 1: down to label182
.LBB63_2:                               # %then.1.i.i
	end_block                               # label183:
	local.get	4
	i32.const	8
	i32.add 
	local.get	7
	local.get	8
	i64.const	0
	local.get	5
	local.get	6
	call	aes_ctr__add_in_batches__add_next____4d6730d4b1bb99fd_
	local.set	9
.LBB63_3:                               # %join.3.i.i
	end_block                               # label182:
	block   	
	local.get	6
	local.get	9
	i64.sub 
	local.tee	10
	i64.const	128
	i64.lt_u
	br_if   	0                               # 0: down to label184
# %bb.4:                                # %join.11.lr.ph.i.i
	local.get	5
	local.get	9
	i32.wrap_i64
	i32.add 
	local.set	3
	local.get	2
	i64.const	3
	i64.shr_u
	i64.const	-1
	i64.add 
	local.set	2
.LBB63_5:                               # %join.11.i.i
                                        # =>This Inner Loop Header: Depth=1
	loop    	                                # label185:
	local.get	4
	local.get	7
	i32.load	0:p2align=0
	local.get	8
	local.get	9
	i64.add 
	i64.const	4
	i64.shr_u
	i32.wrap_i64
	i32.add 
	local.tee	0
	i32.const	4
	i32.add 
	local.tee	11
	i8x16.splat
	local.get	11
	i32.const	8
	i32.shr_u
	i8x16.replace_lane	1
	local.get	11
	i32.const	16
	i32.shr_u
	i8x16.replace_lane	2
	local.get	11
	i32.const	24
	i32.shr_u
	i8x16.replace_lane	3
	local.get	7
	i32.const	12
	i32.add 
	local.get	7
	v128.load64_zero	4:p2align=0
	v128.load32_lane	0:p2align=0, 2
	local.tee	12
	i8x16.shuffle	0, 16, 20, 24, 1, 17, 21, 25, 2, 18, 22, 26, 3, 19, 23, 27
	local.tee	13
	i32.const	1
	i8x16.shr_u
	local.tee	14
	local.get	0
	i32.const	5
	i32.add 
	i32x4.splat
	local.get	12
	local.get	15
	i8x16.shuffle	0, 1, 2, 3, 0, 1, 2, 3, 4, 5, 6, 7, 8, 9, 10, 11
	local.tee	16
	i8x16.shuffle	0, 20, 24, 28, 1, 21, 25, 29, 2, 22, 26, 30, 3, 23, 27, 31
	local.tee	17
	v128.const	85, 85, 85, 85, 85, 85, 85, 85, 85, 85, 85, 85, 85, 85, 85, 85
	local.tee	15
	v128.bitselect
	local.tee	18
	i32.const	2
	i8x16.shr_u
	local.tee	19
	local.get	0
	i32.const	6
	i32.add 
	i32x4.splat
	local.get	16
	i8x16.shuffle	0, 20, 24, 28, 1, 21, 25, 29, 2, 22, 26, 30, 3, 23, 27, 31
	local.tee	20
	i32.const	1
	i8x16.shr_u
	local.tee	21
	local.get	0
	i32.const	7
	i32.add 
	i32x4.splat
	local.get	16
	i8x16.shuffle	0, 20, 24, 28, 1, 21, 25, 29, 2, 22, 26, 30, 3, 23, 27, 31
	local.tee	22
	local.get	15
	v128.bitselect
	local.tee	23
	v128.const	51, 51, 51, 51, 51, 51, 51, 51, 51, 51, 51, 51, 51, 51, 51, 51
	local.tee	16
	v128.bitselect
	local.tee	24
	v128.const	15, 15, 15, 15, 15, 15, 15, 15, 15, 15, 15, 15, 15, 15, 15, 15
	local.tee	25
	v128.and
	local.get	0
	i8x16.splat
	local.get	0
	i32.const	8
	i32.shr_u
	i8x16.replace_lane	1
	local.get	0
	i32.const	16
	i32.shr_u
	i8x16.replace_lane	2
	local.get	0
	i32.const	24
	i32.shr_u
	i8x16.replace_lane	3
	local.get	12
	i8x16.shuffle	0, 16, 20, 24, 1, 17, 21, 25, 2, 18, 22, 26, 3, 19, 23, 27
	local.tee	26
	i32.const	1
	i8x16.shr_u
	local.tee	27
	local.get	0
	i32.const	1
	i32.add 
	local.tee	11
	i8x16.splat
	local.get	11
	i32.const	8
	i32.shr_u
	i8x16.replace_lane	1
	local.get	11
	i32.const	16
	i32.shr_u
	i8x16.replace_lane	2
	local.get	11
	i32.const	24
	i32.shr_u
	i8x16.replace_lane	3
	local.get	12
	i8x16.shuffle	0, 16, 20, 24, 1, 17, 21, 25, 2, 18, 22, 26, 3, 19, 23, 27
	local.tee	28
	local.get	15
	v128.bitselect
	local.tee	29
	i32.const	2
	i8x16.shr_u
	local.tee	30
	local.get	0
	i32.const	2
	i32.add 
	local.tee	11
	i8x16.splat
	local.get	11
	i32.const	8
	i32.shr_u
	i8x16.replace_lane	1
	local.get	11
	i32.const	16
	i32.shr_u
	i8x16.replace_lane	2
	local.get	11
	i32.const	24
	i32.shr_u
	i8x16.replace_lane	3
	local.get	12
	i8x16.shuffle	0, 16, 20, 24, 1, 17, 21, 25, 2, 18, 22, 26, 3, 19, 23, 27
	local.tee	31
	i32.const	1
	i8x16.shr_u
	local.tee	32
	local.get	0
	i32.const	3
	i32.add 
	local.tee	0
	i8x16.splat
	local.get	0
	i32.const	8
	i32.shr_u
	i8x16.replace_lane	1
	local.get	0
	i32.const	16
	i32.shr_u
	i8x16.replace_lane	2
	local.get	0
	i32.const	24
	i32.shr_u
	i8x16.replace_lane	3
	local.get	12
	i8x16.shuffle	0, 16, 20, 24, 1, 17, 21, 25, 2, 18, 22, 26, 3, 19, 23, 27
	local.tee	12
	local.get	15
	v128.bitselect
	local.tee	33
	local.get	16
	v128.bitselect
	local.tee	34
	i32.const	4
	i8x16.shr_u
	v128.xor
	local.tee	35
	local.get	24
	v128.xor
	v128.store	144
	local.get	4
	local.get	35
	i32.const	4
	i8x16.shl
	local.get	34
	v128.xor
	v128.store	80
	local.get	4
	local.get	17
	local.get	14
	v128.xor
	local.get	15
	v128.and
	i32.const	1
	i8x16.shl
	local.get	13
	v128.xor
	local.tee	13
	i32.const	2
	i8x16.shr_u
	local.tee	14
	local.get	22
	local.get	21
	v128.xor
	local.get	15
	v128.and
	i32.const	1
	i8x16.shl
	local.get	20
	v128.xor
	local.tee	17
	local.get	16
	v128.bitselect
	local.tee	20
	local.get	25
	v128.and
	local.get	28
	local.get	27
	v128.xor
	local.get	15
	v128.and
	i32.const	1
	i8x16.shl
	local.get	26
	v128.xor
	local.tee	21
	i32.const	2
	i8x16.shr_u
	local.tee	22
	local.get	12
	local.get	32
	v128.xor
	local.get	15
	v128.and
	i32.const	1
	i8x16.shl
	local.get	31
	v128.xor
	local.tee	12
	local.get	16
	v128.bitselect
	local.tee	24
	i32.const	4
	i8x16.shr_u
	v128.xor
	local.tee	26
	local.get	20
	v128.xor
	v128.store	128
	local.get	4
	local.get	23
	local.get	19
	v128.xor
	local.get	16
	v128.and
	i32.const	2
	i8x16.shl
	local.get	18
	v128.xor
	local.tee	18
	local.get	25
	v128.and
	local.get	33
	local.get	30
	v128.xor
	local.get	16
	v128.and
	i32.const	2
	i8x16.shl
	local.get	29
	v128.xor
	local.tee	19
	i32.const	4
	i8x16.shr_u
	v128.xor
	local.tee	20
	local.get	18
	v128.xor
	v128.store	112
	local.get	4
	local.get	26
	i32.const	4
	i8x16.shl
	local.get	24
	v128.xor
	v128.store	64
	local.get	4
	local.get	20
	i32.const	4
	i8x16.shl
	local.get	19
	v128.xor
	v128.store	48
	local.get	4
	local.get	17
	local.get	14
	v128.xor
	local.get	16
	v128.and
	i32.const	2
	i8x16.shl
	local.get	13
	v128.xor
	local.tee	13
	local.get	25
	v128.and
	local.get	12
	local.get	22
	v128.xor
	local.get	16
	v128.and
	i32.const	2
	i8x16.shl
	local.get	21
	v128.xor
	local.tee	12
	i32.const	4
	i8x16.shr_u
	v128.xor
	local.tee	14
	local.get	13
	v128.xor
	v128.store	96
	local.get	4
	local.get	14
	i32.const	4
	i8x16.shl
	local.get	12
	v128.xor
	v128.store	32
	local.get	1
	local.get	2
	local.get	4
	i32.const	32
	i32.add 
	call	aes_soft__soft__ciphers__planes__EncryptPlaneCipher__process_planes____eab796f82dda8b4f_
	local.get	3
	i32.const	112
	i32.add 
	local.tee	0
	local.get	4
	v128.load	96
	local.tee	12
	i32.const	1
	i8x16.shr_u
	local.tee	13
	local.get	4
	v128.load	112
	local.tee	14
	local.get	15
	v128.bitselect
	local.tee	17
	i32.const	2
	i8x16.shr_u
	local.tee	18
	local.get	4
	v128.load	128
	local.tee	19
	i32.const	1
	i8x16.shr_u
	local.tee	20
	local.get	4
	v128.load	144
	local.tee	21
	local.get	15
	v128.bitselect
	local.tee	22
	local.get	16
	v128.bitselect
	local.tee	23
	local.get	25
	v128.and
	local.get	4
	v128.load	32
	local.tee	24
	i32.const	1
	i8x16.shr_u
	local.tee	26
	local.get	4
	v128.load	48
	local.tee	27
	local.get	15
	v128.bitselect
	local.tee	28
	i32.const	2
	i8x16.shr_u
	local.tee	29
	local.get	4
	v128.load	64
	local.tee	30
	i32.const	1
	i8x16.shr_u
	local.tee	31
	local.get	4
	v128.load	80
	local.tee	32
	local.get	15
	v128.bitselect
	local.tee	33
	local.get	16
	v128.bitselect
	local.tee	34
	i32.const	4
	i8x16.shr_u
	v128.xor
	local.tee	35
	local.get	23
	v128.xor
	local.get	15
	i8x16.shuffle	0, 4, 8, 12, 1, 5, 9, 13, 2, 6, 10, 14, 3, 7, 11, 15
	local.get	0
	v128.load	0:p2align=0
	v128.xor
	v128.store	0:p2align=0
	local.get	3
	i32.const	48
	i32.add 
	local.tee	0
	local.get	35
	i32.const	4
	i8x16.shl
	local.get	34
	v128.xor
	local.get	15
	i8x16.shuffle	0, 4, 8, 12, 1, 5, 9, 13, 2, 6, 10, 14, 3, 7, 11, 15
	local.get	0
	v128.load	0:p2align=0
	v128.xor
	v128.store	0:p2align=0
	local.get	3
	i32.const	80
	i32.add 
	local.tee	0
	local.get	22
	local.get	18
	v128.xor
	local.get	16
	v128.and
	i32.const	2
	i8x16.shl
	local.get	17
	v128.xor
	local.tee	17
	local.get	25
	v128.and
	local.get	33
	local.get	29
	v128.xor
	local.get	16
	v128.and
	i32.const	2
	i8x16.shl
	local.get	28
	v128.xor
	local.tee	18
	i32.const	4
	i8x16.shr_u
	v128.xor
	local.tee	22
	local.get	17
	v128.xor
	local.get	15
	i8x16.shuffle	0, 4, 8, 12, 1, 5, 9, 13, 2, 6, 10, 14, 3, 7, 11, 15
	local.get	0
	v128.load	0:p2align=0
	v128.xor
	v128.store	0:p2align=0
	local.get	3
	i32.const	96
	i32.add 
	local.tee	0
	local.get	12
	local.get	14
	local.get	13
	v128.xor
	local.get	15
	v128.and
	i32.const	1
	i8x16.shl
	v128.xor
	local.tee	12
	i32.const	2
	i8x16.shr_u
	local.tee	13
	local.get	19
	local.get	21
	local.get	20
	v128.xor
	local.get	15
	v128.and
	i32.const	1
	i8x16.shl
	v128.xor
	local.tee	14
	local.get	16
	v128.bitselect
	local.tee	17
	local.get	25
	v128.and
	local.get	24
	local.get	27
	local.get	26
	v128.xor
	local.get	15
	v128.and
	i32.const	1
	i8x16.shl
	v128.xor
	local.tee	19
	i32.const	2
	i8x16.shr_u
	local.tee	20
	local.get	30
	local.get	32
	local.get	31
	v128.xor
	local.get	15
	v128.and
	i32.const	1
	i8x16.shl
	v128.xor
	local.tee	15
	local.get	16
	v128.bitselect
	local.tee	21
	i32.const	4
	i8x16.shr_u
	v128.xor
	local.tee	23
	local.get	17
	v128.xor
	local.get	15
	i8x16.shuffle	0, 4, 8, 12, 1, 5, 9, 13, 2, 6, 10, 14, 3, 7, 11, 15
	local.get	0
	v128.load	0:p2align=0
	v128.xor
	v128.store	0:p2align=0
	local.get	3
	i32.const	16
	i32.add 
	local.tee	0
	local.get	22
	i32.const	4
	i8x16.shl
	local.get	18
	v128.xor
	local.get	15
	i8x16.shuffle	0, 4, 8, 12, 1, 5, 9, 13, 2, 6, 10, 14, 3, 7, 11, 15
	local.get	0
	v128.load	0:p2align=0
	v128.xor
	v128.store	0:p2align=0
	local.get	3
	i32.const	32
	i32.add 
	local.tee	0
	local.get	23
	i32.const	4
	i8x16.shl
	local.get	21
	v128.xor
	local.get	15
	i8x16.shuffle	0, 4, 8, 12, 1, 5, 9, 13, 2, 6, 10, 14, 3, 7, 11, 15
	local.get	0
	v128.load	0:p2align=0
	v128.xor
	v128.store	0:p2align=0
	local.get	3
	i32.const	64
	i32.add 
	local.tee	0
	local.get	14
	local.get	13
	v128.xor
	local.get	16
	v128.and
	i32.const	2
	i8x16.shl
	local.get	12
	v128.xor
	local.tee	12
	local.get	25
	v128.and
	local.get	15
	local.get	20
	v128.xor
	local.get	16
	v128.and
	i32.const	2
	i8x16.shl
	local.get	19
	v128.xor
	local.tee	15
	i32.const	4
	i8x16.shr_u
	v128.xor
	local.tee	16
	local.get	12
	v128.xor
	local.get	15
	i8x16.shuffle	0, 4, 8, 12, 1, 5, 9, 13, 2, 6, 10, 14, 3, 7, 11, 15
	local.get	0
	v128.load	0:p2align=0
	v128.xor
	v128.store	0:p2align=0
	local.get	3
	local.get	16
	i32.const	4
	i8x16.shl
	local.get	15
	v128.xor
	local.get	15
	i8x16.shuffle	0, 4, 8, 12, 1, 5, 9, 13, 2, 6, 10, 14, 3, 7, 11, 15
	local.get	3
	v128.load	0:p2align=0
	v128.xor
	v128.store	0:p2align=0
	local.get	3
	i32.const	128
	i32.add 
	local.set	3
	local.get	9
	i64.const	128
	i64.add 
	local.set	9
	local.get	10
	i64.const	-128
	i64.add 
	local.tee	10
	i64.const	127
	i64.gt_u
	br_if   	0                               # 0: up to label185
.LBB63_6:                               # %loop.13.preheader.i.i
	end_loop
	end_block                               # label184:
	block   	
	local.get	9
	local.get	6
	i64.ge_u
	br_if   	0                               # 0: down to label186
.LBB63_7:                               # %join.16.i.i
                                        # =>This Inner Loop Header: Depth=1
	loop    	                                # label187:
	local.get	4
	i32.const	8
	i32.add 
	local.get	7
	local.get	8
	local.get	9
	local.get	5
	local.get	6
	call	aes_ctr__add_in_batches__add_next____4d6730d4b1bb99fd_
	local.tee	9
	local.get	6
	i64.lt_u
	br_if   	0                               # 0: up to label187
.LBB63_8:                               # %aes_ctr__add_in_batches__AddStreamBlockCipherEncClosure__call____ba6e0fd4d3166cbd_.exit
	end_loop
	end_block                               # label186:
	local.get	4
	i32.const	160
	i32.add 
	global.set	__stack_pointer
                                        # fallthrough-return
	end_function
                                        # -- End function
	.section	.text.aes_ctr__add_in_batches__add_next____4d6730d4b1bb99fd_,"",@
	.type	aes_ctr__add_in_batches__add_next____4d6730d4b1bb99fd_,@function # -- Begin function aes_ctr__add_in_batches__add_next____4d6730d4b1bb99fd_
aes_ctr__add_in_batches__add_next____4d6730d4b1bb99fd_: # @aes_ctr__add_in_batches__add_next____4d6730d4b1bb99fd_
	.functype	aes_ctr__add_in_batches__add_next____4d6730d4b1bb99fd_ (i32, i32, i64, i64, i32, i64) -> (i64)
	.local  	i32, i64, i32, i64, i32, i32, i32, i32, i64, v128, v128, v128, v128, v128, v128, v128, v128, v128, v128, v128, v128, v128, v128, v128, v128, v128, v128, v128, v128, v128, v128, v128, v128, i64, i64
# %bb.0:                                # %start
	global.get	__stack_pointer
	i32.const	384
	i32.sub 
	local.tee	6
	global.set	__stack_pointer
	local.get	6
	i32.const	128
	i32.add 
	i32.const	0
	i32.const	128
	memory.fill	0
	local.get	6
	local.get	1
	i64.load	4:p2align=0
	local.tee	7
	i64.store	4:p2align=2
	local.get	6
	local.get	1
	i32.load	12:p2align=0
	local.tee	8
	i32.store	12
	local.get	6
	local.get	7
	i64.store	20:p2align=2
	local.get	6
	local.get	8
	i32.store	28
	local.get	6
	local.get	7
	i64.store	36:p2align=2
	local.get	6
	local.get	8
	i32.store	44
	local.get	6
	local.get	7
	i64.store	52:p2align=2
	local.get	6
	local.get	8
	i32.store	60
	local.get	6
	local.get	7
	i64.store	68:p2align=2
	local.get	6
	local.get	8
	i32.store	76
	local.get	6
	local.get	1
	i32.load	0:p2align=0
	local.get	3
	local.get	2
	i64.add 
	local.tee	9
	i64.const	4
	i64.shr_u
	i32.wrap_i64
	i32.add 
	local.tee	8
	i32.store	0
	local.get	6
	local.get	8
	i32.const	1
	i32.add 
	local.tee	10
	i32.store	16
	local.get	6
	local.get	8
	i32.const	2
	i32.add 
	local.tee	11
	i32.store	32
	local.get	6
	local.get	8
	i32.const	3
	i32.add 
	local.tee	12
	i32.store	48
	local.get	6
	local.get	8
	i32.const	4
	i32.add 
	i32.store	64
	local.get	6
	local.get	8
	i32.const	5
	i32.add 
	i32.store	80
	local.get	6
	local.get	8
	i32.const	6
	i32.add 
	i32.store	96
	local.get	6
	local.get	8
	i32.const	7
	i32.add 
	i32.store	112
	local.get	6
	local.get	1
	i32.load	12:p2align=0
	local.tee	13
	i32.store	92
	local.get	6
	local.get	1
	i64.load	4:p2align=0
	local.tee	7
	i64.store	84:p2align=2
	local.get	6
	local.get	13
	i32.store	108
	local.get	6
	local.get	7
	i64.store	100:p2align=2
	local.get	6
	local.get	13
	i32.store	124
	local.get	6
	local.get	7
	i64.store	116:p2align=2
	block   	
	block   	
	local.get	5
	local.get	3
	i64.sub 
	local.tee	7
	i64.const	128
	local.get	9
	i64.const	15
	i64.and 
	local.tee	14
	i64.sub 
	local.tee	2
	local.get	7
	local.get	2
	i64.lt_u
	i64.select
	local.tee	2
	local.get	14
	i64.add 
	local.tee	7
	i64.const	80
	i64.gt_u
	br_if   	0                               # 0: down to label189
# %bb.1:                                # %then.1.i.i
	local.get	0
	i32.load	0
	local.tee	8
	i32.const	16
	i32.add 
	i32.load	0:p2align=0
	local.get	8
	i32.const	24
	i32.add 
	i64.load	0:p2align=0
	local.get	6
	local.get	7
	i64.const	15
	i64.add 
	i64.const	4
	i64.shr_u
	call	aes_permute__blocks__process_on_lanes____06aaae76f5856d0a_
	br      	1                               # 1: down to label188
.LBB64_2:                               # %else.2.i.i
	end_block                               # label189:
	local.get	0
	i32.const	8
	i32.add 
	i32.load	0:p2align=0
	local.set	1
	local.get	0
	i32.const	16
	i32.add 
	i64.load	0:p2align=0
	local.set	7
	local.get	6
	local.get	6
	v128.load	64:p2align=2
	local.get	15
	i8x16.shuffle	0, 4, 8, 12, 1, 5, 9, 13, 2, 6, 10, 14, 3, 7, 11, 15
	local.tee	16
	i32.const	1
	i8x16.shr_u
	local.tee	17
	local.get	6
	v128.load	80:p2align=2
	local.get	15
	i8x16.shuffle	0, 4, 8, 12, 1, 5, 9, 13, 2, 6, 10, 14, 3, 7, 11, 15
	local.tee	18
	v128.const	85, 85, 85, 85, 85, 85, 85, 85, 85, 85, 85, 85, 85, 85, 85, 85
	local.tee	15
	v128.bitselect
	local.tee	19
	i32.const	2
	i8x16.shr_u
	local.tee	20
	local.get	6
	v128.load	96:p2align=2
	local.get	15
	i8x16.shuffle	0, 4, 8, 12, 1, 5, 9, 13, 2, 6, 10, 14, 3, 7, 11, 15
	local.tee	21
	i32.const	1
	i8x16.shr_u
	local.tee	22
	local.get	6
	v128.load	112:p2align=2
	local.get	15
	i8x16.shuffle	0, 4, 8, 12, 1, 5, 9, 13, 2, 6, 10, 14, 3, 7, 11, 15
	local.tee	23
	local.get	15
	v128.bitselect
	local.tee	24
	v128.const	51, 51, 51, 51, 51, 51, 51, 51, 51, 51, 51, 51, 51, 51, 51, 51
	local.tee	25
	v128.bitselect
	local.tee	26
	v128.const	15, 15, 15, 15, 15, 15, 15, 15, 15, 15, 15, 15, 15, 15, 15, 15
	local.tee	27
	v128.and
	local.get	6
	i32.const	15
	i32.add 
	local.get	6
	i32.const	11
	i32.add 
	local.get	6
	i32.const	7
	i32.add 
	local.get	6
	i32.const	14
	i32.add 
	local.get	6
	i32.const	10
	i32.add 
	local.get	6
	i32.const	6
	i32.add 
	local.get	6
	i32.const	13
	i32.add 
	local.get	6
	i32.const	9
	i32.add 
	local.get	6
	i32.const	5
	i32.add 
	local.get	6
	i32.const	12
	i32.add 
	local.get	6
	i32.const	8
	i32.add 
	local.get	6
	i32.const	4
	i32.add 
	local.get	8
	i8x16.splat
	v128.load8_lane	0, 1
	v128.load8_lane	0, 2
	v128.load8_lane	0, 3
	local.get	8
	i32.const	8
	i32.shr_u
	i8x16.replace_lane	4
	v128.load8_lane	0, 5
	v128.load8_lane	0, 6
	v128.load8_lane	0, 7
	local.get	8
	i32.const	16
	i32.shr_u
	i8x16.replace_lane	8
	v128.load8_lane	0, 9
	v128.load8_lane	0, 10
	v128.load8_lane	0, 11
	local.get	8
	i32.const	24
	i32.shr_u
	i8x16.replace_lane	12
	v128.load8_lane	0, 13
	v128.load8_lane	0, 14
	v128.load8_lane	0, 15
	local.tee	28
	i32.const	1
	i8x16.shr_u
	local.tee	29
	local.get	6
	i32.const	31
	i32.add 
	local.get	6
	i32.const	27
	i32.add 
	local.get	6
	i32.const	23
	i32.add 
	local.get	6
	i32.const	30
	i32.add 
	local.get	6
	i32.const	26
	i32.add 
	local.get	6
	i32.const	22
	i32.add 
	local.get	6
	i32.const	29
	i32.add 
	local.get	6
	i32.const	25
	i32.add 
	local.get	6
	i32.const	21
	i32.add 
	local.get	6
	i32.const	28
	i32.add 
	local.get	6
	i32.const	24
	i32.add 
	local.get	6
	i32.const	20
	i32.add 
	local.get	10
	i8x16.splat
	v128.load8_lane	0, 1
	v128.load8_lane	0, 2
	v128.load8_lane	0, 3
	local.get	10
	i32.const	8
	i32.shr_u
	i8x16.replace_lane	4
	v128.load8_lane	0, 5
	v128.load8_lane	0, 6
	v128.load8_lane	0, 7
	local.get	10
	i32.const	16
	i32.shr_u
	i8x16.replace_lane	8
	v128.load8_lane	0, 9
	v128.load8_lane	0, 10
	v128.load8_lane	0, 11
	local.get	10
	i32.const	24
	i32.shr_u
	i8x16.replace_lane	12
	v128.load8_lane	0, 13
	v128.load8_lane	0, 14
	v128.load8_lane	0, 15
	local.tee	30
	local.get	15
	v128.bitselect
	local.tee	31
	i32.const	2
	i8x16.shr_u
	local.tee	32
	local.get	6
	i32.const	47
	i32.add 
	local.get	6
	i32.const	43
	i32.add 
	local.get	6
	i32.const	39
	i32.add 
	local.get	6
	i32.const	46
	i32.add 
	local.get	6
	i32.const	42
	i32.add 
	local.get	6
	i32.const	38
	i32.add 
	local.get	6
	i32.const	45
	i32.add 
	local.get	6
	i32.const	41
	i32.add 
	local.get	6
	i32.const	37
	i32.add 
	local.get	6
	i32.const	44
	i32.add 
	local.get	6
	i32.const	40
	i32.add 
	local.get	6
	i32.const	36
	i32.add 
	local.get	11
	i8x16.splat
	v128.load8_lane	0, 1
	v128.load8_lane	0, 2
	v128.load8_lane	0, 3
	local.get	11
	i32.const	8
	i32.shr_u
	i8x16.replace_lane	4
	v128.load8_lane	0, 5
	v128.load8_lane	0, 6
	v128.load8_lane	0, 7
	local.get	11
	i32.const	16
	i32.shr_u
	i8x16.replace_lane	8
	v128.load8_lane	0, 9
	v128.load8_lane	0, 10
	v128.load8_lane	0, 11
	local.get	11
	i32.const	24
	i32.shr_u
	i8x16.replace_lane	12
	v128.load8_lane	0, 13
	v128.load8_lane	0, 14
	v128.load8_lane	0, 15
	local.tee	33
	i32.const	1
	i8x16.shr_u
	local.tee	34
	local.get	6
	i32.const	63
	i32.add 
	local.get	6
	i32.const	59
	i32.add 
	local.get	6
	i32.const	55
	i32.add 
	local.get	6
	i32.const	62
	i32.add 
	local.get	6
	i32.const	58
	i32.add 
	local.get	6
	i32.const	54
	i32.add 
	local.get	6
	i32.const	61
	i32.add 
	local.get	6
	i32.const	57
	i32.add 
	local.get	6
	i32.const	53
	i32.add 
	local.get	6
	i32.const	60
	i32.add 
	local.get	6
	i32.const	56
	i32.add 
	local.get	6
	i32.const	52
	i32.add 
	local.get	12
	i8x16.splat
	v128.load8_lane	0, 1
	v128.load8_lane	0, 2
	v128.load8_lane	0, 3
	local.get	12
	i32.const	8
	i32.shr_u
	i8x16.replace_lane	4
	v128.load8_lane	0, 5
	v128.load8_lane	0, 6
	v128.load8_lane	0, 7
	local.get	12
	i32.const	16
	i32.shr_u
	i8x16.replace_lane	8
	v128.load8_lane	0, 9
	v128.load8_lane	0, 10
	v128.load8_lane	0, 11
	local.get	12
	i32.const	24
	i32.shr_u
	i8x16.replace_lane	12
	v128.load8_lane	0, 13
	v128.load8_lane	0, 14
	v128.load8_lane	0, 15
	local.tee	35
	local.get	15
	v128.bitselect
	local.tee	36
	local.get	25
	v128.bitselect
	local.tee	37
	i32.const	4
	i8x16.shr_u
	v128.xor
	local.tee	38
	local.get	26
	v128.xor
	v128.store	368
	local.get	6
	local.get	38
	i32.const	4
	i8x16.shl
	local.get	37
	v128.xor
	v128.store	304
	local.get	6
	local.get	18
	local.get	17
	v128.xor
	local.get	15
	v128.and
	i32.const	1
	i8x16.shl
	local.get	16
	v128.xor
	local.tee	16
	i32.const	2
	i8x16.shr_u
	local.tee	17
	local.get	23
	local.get	22
	v128.xor
	local.get	15
	v128.and
	i32.const	1
	i8x16.shl
	local.get	21
	v128.xor
	local.tee	18
	local.get	25
	v128.bitselect
	local.tee	21
	local.get	27
	v128.and
	local.get	28
	local.get	30
	local.get	29
	v128.xor
	local.get	15
	v128.and
	i32.const	1
	i8x16.shl
	v128.xor
	local.tee	22
	i32.const	2
	i8x16.shr_u
	local.tee	23
	local.get	33
	local.get	35
	local.get	34
	v128.xor
	local.get	15
	v128.and
	i32.const	1
	i8x16.shl
	v128.xor
	local.tee	26
	local.get	25
	v128.bitselect
	local.tee	28
	i32.const	4
	i8x16.shr_u
	v128.xor
	local.tee	29
	local.get	21
	v128.xor
	v128.store	352
	local.get	6
	local.get	24
	local.get	20
	v128.xor
	local.get	25
	v128.and
	i32.const	2
	i8x16.shl
	local.get	19
	v128.xor
	local.tee	19
	local.get	27
	v128.and
	local.get	36
	local.get	32
	v128.xor
	local.get	25
	v128.and
	i32.const	2
	i8x16.shl
	local.get	31
	v128.xor
	local.tee	20
	i32.const	4
	i8x16.shr_u
	v128.xor
	local.tee	21
	local.get	19
	v128.xor
	v128.store	336
	local.get	6
	local.get	29
	i32.const	4
	i8x16.shl
	local.get	28
	v128.xor
	v128.store	288
	local.get	6
	local.get	21
	i32.const	4
	i8x16.shl
	local.get	20
	v128.xor
	v128.store	272
	local.get	6
	local.get	18
	local.get	17
	v128.xor
	local.get	25
	v128.and
	i32.const	2
	i8x16.shl
	local.get	16
	v128.xor
	local.tee	16
	local.get	27
	v128.and
	local.get	26
	local.get	23
	v128.xor
	local.get	25
	v128.and
	i32.const	2
	i8x16.shl
	local.get	22
	v128.xor
	local.tee	17
	i32.const	4
	i8x16.shr_u
	v128.xor
	local.tee	18
	local.get	16
	v128.xor
	v128.store	320
	local.get	6
	local.get	18
	i32.const	4
	i8x16.shl
	local.get	17
	v128.xor
	v128.store	256
	local.get	1
	local.get	7
	i64.const	3
	i64.shr_u
	i64.const	-1
	i64.add 
	local.get	6
	i32.const	256
	i32.add 
	call	aes_soft__soft__ciphers__planes__EncryptPlaneCipher__process_planes____eab796f82dda8b4f_
	local.get	6
	local.get	6
	v128.load	320
	local.tee	16
	i32.const	1
	i8x16.shr_u
	local.tee	17
	local.get	6
	v128.load	336
	local.tee	18
	local.get	15
	v128.bitselect
	local.tee	19
	i32.const	2
	i8x16.shr_u
	local.tee	20
	local.get	6
	v128.load	352
	local.tee	21
	i32.const	1
	i8x16.shr_u
	local.tee	22
	local.get	6
	v128.load	368
	local.tee	23
	local.get	15
	v128.bitselect
	local.tee	24
	local.get	25
	v128.bitselect
	local.tee	26
	local.get	27
	v128.and
	local.get	6
	v128.load	256
	local.tee	28
	i32.const	1
	i8x16.shr_u
	local.tee	29
	local.get	6
	v128.load	272
	local.tee	30
	local.get	15
	v128.bitselect
	local.tee	31
	i32.const	2
	i8x16.shr_u
	local.tee	32
	local.get	6
	v128.load	288
	local.tee	33
	i32.const	1
	i8x16.shr_u
	local.tee	34
	local.get	6
	v128.load	304
	local.tee	35
	local.get	15
	v128.bitselect
	local.tee	36
	local.get	25
	v128.bitselect
	local.tee	37
	i32.const	4
	i8x16.shr_u
	v128.xor
	local.tee	38
	local.get	26
	v128.xor
	local.get	15
	i8x16.shuffle	0, 4, 8, 12, 1, 5, 9, 13, 2, 6, 10, 14, 3, 7, 11, 15
	v128.store	112:p2align=2
	local.get	6
	local.get	38
	i32.const	4
	i8x16.shl
	local.get	37
	v128.xor
	local.get	15
	i8x16.shuffle	0, 4, 8, 12, 1, 5, 9, 13, 2, 6, 10, 14, 3, 7, 11, 15
	v128.store	48:p2align=2
	local.get	6
	local.get	16
	local.get	18
	local.get	17
	v128.xor
	local.get	15
	v128.and
	i32.const	1
	i8x16.shl
	v128.xor
	local.tee	16
	i32.const	2
	i8x16.shr_u
	local.tee	17
	local.get	21
	local.get	23
	local.get	22
	v128.xor
	local.get	15
	v128.and
	i32.const	1
	i8x16.shl
	v128.xor
	local.tee	18
	local.get	25
	v128.bitselect
	local.tee	21
	local.get	27
	v128.and
	local.get	28
	local.get	30
	local.get	29
	v128.xor
	local.get	15
	v128.and
	i32.const	1
	i8x16.shl
	v128.xor
	local.tee	22
	i32.const	2
	i8x16.shr_u
	local.tee	23
	local.get	33
	local.get	35
	local.get	34
	v128.xor
	local.get	15
	v128.and
	i32.const	1
	i8x16.shl
	v128.xor
	local.tee	15
	local.get	25
	v128.bitselect
	local.tee	26
	i32.const	4
	i8x16.shr_u
	v128.xor
	local.tee	28
	local.get	21
	v128.xor
	local.get	15
	i8x16.shuffle	0, 4, 8, 12, 1, 5, 9, 13, 2, 6, 10, 14, 3, 7, 11, 15
	v128.store	96:p2align=2
	local.get	6
	local.get	24
	local.get	20
	v128.xor
	local.get	25
	v128.and
	i32.const	2
	i8x16.shl
	local.get	19
	v128.xor
	local.tee	19
	local.get	27
	v128.and
	local.get	36
	local.get	32
	v128.xor
	local.get	25
	v128.and
	i32.const	2
	i8x16.shl
	local.get	31
	v128.xor
	local.tee	20
	i32.const	4
	i8x16.shr_u
	v128.xor
	local.tee	21
	local.get	19
	v128.xor
	local.get	15
	i8x16.shuffle	0, 4, 8, 12, 1, 5, 9, 13, 2, 6, 10, 14, 3, 7, 11, 15
	v128.store	80:p2align=2
	local.get	6
	local.get	28
	i32.const	4
	i8x16.shl
	local.get	26
	v128.xor
	local.get	15
	i8x16.shuffle	0, 4, 8, 12, 1, 5, 9, 13, 2, 6, 10, 14, 3, 7, 11, 15
	v128.store	32:p2align=2
	local.get	6
	local.get	21
	i32.const	4
	i8x16.shl
	local.get	20
	v128.xor
	local.get	15
	i8x16.shuffle	0, 4, 8, 12, 1, 5, 9, 13, 2, 6, 10, 14, 3, 7, 11, 15
	v128.store	16:p2align=2
	local.get	6
	local.get	18
	local.get	17
	v128.xor
	local.get	25
	v128.and
	i32.const	2
	i8x16.shl
	local.get	16
	v128.xor
	local.tee	16
	local.get	27
	v128.and
	local.get	15
	local.get	23
	v128.xor
	local.get	25
	v128.and
	i32.const	2
	i8x16.shl
	local.get	22
	v128.xor
	local.tee	15
	i32.const	4
	i8x16.shr_u
	v128.xor
	local.tee	25
	local.get	16
	v128.xor
	local.get	15
	i8x16.shuffle	0, 4, 8, 12, 1, 5, 9, 13, 2, 6, 10, 14, 3, 7, 11, 15
	v128.store	64:p2align=2
	local.get	6
	local.get	25
	i32.const	4
	i8x16.shl
	local.get	15
	v128.xor
	local.get	15
	i8x16.shuffle	0, 4, 8, 12, 1, 5, 9, 13, 2, 6, 10, 14, 3, 7, 11, 15
	v128.store	0:p2align=2
.LBB64_3:                               # %aes_ctr__keystream__fill_by_backend____4d6730d4b1bb99fd_.exit
	end_block                               # label188:
	local.get	4
	local.get	3
	i32.wrap_i64
	local.tee	12
	i32.add 
	local.set	11
	block   	
	block   	
	local.get	14
	i64.eqz
	i32.eqz
	br_if   	0                               # 0: down to label191
# %bb.4:
	i64.const	0
	local.set	39
	br      	1                               # 1: down to label190
.LBB64_5:                               # %then.1.i
	end_block                               # label191:
	local.get	2
	i64.const	16
	local.get	14
	i64.sub 
	local.tee	7
	local.get	2
	local.get	7
	i64.lt_u
	i64.select
	local.set	39
	local.get	5
	local.get	3
	i64.eq  
	br_if   	0                               # 0: down to label190
# %bb.6:                                # %join.8.i85.preheader
	i64.const	0
	local.set	7
	block   	
	local.get	39
	i64.const	1
	i64.eq  
	br_if   	0                               # 0: down to label192
# %bb.7:                                # %join.8.i85.preheader.new
	local.get	39
	i64.const	1
	i64.and 
	local.set	40
	local.get	39
	i64.const	30
	i64.and 
	local.set	5
	local.get	6
	local.get	9
	i32.wrap_i64
	i32.const	15
	i32.and 
	i32.add 
	local.set	1
	i64.const	0
	local.set	7
	local.get	11
	local.set	8
.LBB64_8:                               # %join.8.i85
                                        # =>This Inner Loop Header: Depth=1
	loop    	                                # label193:
	local.get	8
	local.get	8
	i32.load8_u	0
	local.get	1
	i32.load8_u	0
	i32.xor 
	i32.store8	0
	local.get	8
	i32.const	1
	i32.add 
	local.tee	10
	local.get	10
	i32.load8_u	0
	local.get	1
	i32.const	1
	i32.add 
	i32.load8_u	0
	i32.xor 
	i32.store8	0
	local.get	8
	i32.const	2
	i32.add 
	local.set	8
	local.get	1
	i32.const	2
	i32.add 
	local.set	1
	local.get	5
	local.get	7
	i64.const	2
	i64.add 
	local.tee	7
	i64.ne  
	br_if   	0                               # 0: up to label193
# %bb.9:                                # %join.3.i.loopexit.unr-lcssa
	end_loop
	local.get	40
	i64.eqz
	br_if   	1                               # 1: down to label190
.LBB64_10:                              # %join.8.i85.epil.preheader
	end_block                               # label192:
	local.get	11
	local.get	7
	i32.wrap_i64
	i32.add 
	local.tee	8
	local.get	8
	i32.load8_u	0
	local.get	6
	local.get	7
	local.get	14
	i64.add 
	i32.wrap_i64
	i32.add 
	i32.load8_u	0
	i32.xor 
	i32.store8	0
.LBB64_11:                              # %join.3.i
	end_block                               # label190:
	block   	
	local.get	2
	local.get	39
	i64.sub 
	local.tee	7
	i64.const	16
	i64.lt_u
	br_if   	0                               # 0: down to label194
# %bb.12:                               # %join.8.i.preheader
	i64.const	0
	local.get	39
	i64.sub 
	local.set	5
	local.get	4
	local.get	39
	i32.wrap_i64
	local.tee	1
	local.get	12
	i32.add 
	i32.add 
	local.set	8
	local.get	9
	i32.wrap_i64
	i32.const	15
	i32.and 
	local.get	1
	i32.add 
	local.set	1
.LBB64_13:                              # %join.8.i
                                        # =>This Inner Loop Header: Depth=1
	loop    	                                # label195:
	local.get	8
	local.get	6
	local.get	1
	i32.const	-16
	i32.and 
	i32.add 
	v128.load	0:p2align=2
	local.get	8
	v128.load	0:p2align=0
	v128.xor
	v128.store	0:p2align=0
	local.get	8
	i32.const	16
	i32.add 
	local.set	8
	local.get	1
	i32.const	16
	i32.add 
	local.set	1
	local.get	2
	local.get	5
	i64.const	-16
	i64.add 
	local.tee	5
	i64.add 
	local.tee	7
	i64.const	15
	i64.gt_u
	br_if   	0                               # 0: up to label195
# %bb.14:                               # %after.4.i.loopexit
	end_loop
	i64.const	0
	local.get	5
	i64.sub 
	local.set	39
.LBB64_15:                              # %after.4.i
	end_block                               # label194:
	block   	
	local.get	39
	local.get	2
	i64.ge_u
	br_if   	0                               # 0: down to label196
# %bb.16:                               # %then.9.i
	local.get	7
	i64.eqz
	br_if   	0                               # 0: down to label196
# %bb.17:                               # %join.8.i28.preheader
	local.get	11
	local.get	39
	i32.wrap_i64
	i32.add 
	local.set	8
	local.get	6
	local.get	39
	local.get	14
	i64.add 
	i32.wrap_i64
	i32.const	-16
	i32.and 
	i32.add 
	local.set	1
.LBB64_18:                              # %join.8.i28
                                        # =>This Inner Loop Header: Depth=1
	loop    	                                # label197:
	local.get	8
	local.get	8
	i32.load8_u	0
	local.get	1
	i32.load8_u	0
	i32.xor 
	i32.store8	0
	local.get	1
	i32.const	1
	i32.add 
	local.set	1
	local.get	8
	i32.const	1
	i32.add 
	local.set	8
	local.get	7
	i64.const	-1
	i64.add 
	local.tee	7
	i64.const	0
	i64.ne  
	br_if   	0                               # 0: up to label197
.LBB64_19:                              # %aes_ctr__add_blocks__add_blocks.exit
	end_loop
	end_block                               # label196:
	local.get	6
	i32.const	384
	i32.add 
	global.set	__stack_pointer
	local.get	2
	local.get	3
	i64.add 
                                        # fallthrough-return
	end_function
                                        # -- End function
	.section	.text.aes_cipher__zeroize__stack__wipe_stack____2816_,"",@
	.type	aes_cipher__zeroize__stack__wipe_stack____2816_,@function # -- Begin function aes_cipher__zeroize__stack__wipe_stack____2816_
aes_cipher__zeroize__stack__wipe_stack____2816_: # @aes_cipher__zeroize__stack__wipe_stack____2816_
	.functype	aes_cipher__zeroize__stack__wipe_stack____2816_ () -> ()
	.local  	i32, i64
# %bb.0:                                # %start
	global.get	__stack_pointer
	i32.const	2832
	i32.sub 
	local.tee	0
	global.set	__stack_pointer
	local.get	0
	i32.const	16
	i32.add 
	i32.const	0
	i32.const	2816
	memory.fill	0
	local.get	0
	i64.const	0
	i64.store	8
	#APP
	#NO_APP
	local.get	0
	i64.load	8
	local.set	1
	#APP
	#NO_APP
	block   	
	local.get	1
	i64.const	2816
	i64.ge_u
	br_if   	0                               # 0: down to label198
# %bb.1:                                # %then.1
	local.get	0
	i32.const	16
	i32.add 
	local.get	1
	i32.wrap_i64
	i32.add 
	i64.load8_u	0
	local.set	1
	#APP
	#NO_APP
	local.get	0
	i64.load	8
	drop
	local.get	0
	local.get	1
	i64.store	8
	#APP
	#NO_APP
.LBB65_2:                               # %common.ret
	end_block                               # label198:
	local.get	0
	i32.const	2832
	i32.add 
	global.set	__stack_pointer
                                        # fallthrough-return
	end_function
                                        # -- End function
	.section	.text.gcm_siv__course__open_in____40c030eaacddd0c9_,"",@
	.type	gcm_siv__course__open_in____40c030eaacddd0c9_,@function # -- Begin function gcm_siv__course__open_in____40c030eaacddd0c9_
gcm_siv__course__open_in____40c030eaacddd0c9_: # @gcm_siv__course__open_in____40c030eaacddd0c9_
	.functype	gcm_siv__course__open_in____40c030eaacddd0c9_ (i32, i64, i32, i32, i64, i32, i64, i32) -> (i32)
	.local  	i32, i32, i64, i32, v128
# %bb.0:                                # %start
	global.get	__stack_pointer
	i32.const	4864
	i32.sub 
	local.tee	8
	global.set	__stack_pointer
	i32.const	0
	local.set	9
	local.get	8
	i32.const	3328
	i32.add 
	i32.const	0
	i32.const	1536
	memory.fill	0
	i64.const	1536
	local.set	10
.LBB66_1:                               # %repeat.1.i.i14
                                        # =>This Inner Loop Header: Depth=1
	loop    	                                # label199:
	local.get	8
	i32.const	3328
	i32.add 
	local.get	9
	i32.add 
	local.tee	11
	v128.const	0, 0
	local.tee	12
	v128.store	0:p2align=0
	local.get	11
	i32.const	16
	i32.add 
	local.get	12
	v128.store	0:p2align=0
	local.get	11
	i32.const	32
	i32.add 
	local.get	12
	v128.store	0:p2align=0
	local.get	11
	i32.const	48
	i32.add 
	local.get	12
	v128.store	0:p2align=0
	local.get	11
	i32.const	64
	i32.add 
	local.get	12
	v128.store	0:p2align=0
	local.get	11
	i32.const	80
	i32.add 
	local.get	12
	v128.store	0:p2align=0
	local.get	11
	i32.const	96
	i32.add 
	local.get	12
	v128.store	0:p2align=0
	local.get	11
	i32.const	112
	i32.add 
	local.get	12
	v128.store	0:p2align=0
	local.get	9
	i32.const	128
	i32.add 
	local.set	9
	local.get	10
	i64.const	-128
	i64.add 
	local.tee	10
	i64.const	0
	i64.ne  
	br_if   	0                               # 0: up to label199
# %bb.2:                                # %aes_cipher__zeroize__must_wipe__MustWipe__zeroed____5ac545ada1fa6909_.exit
	end_loop
	local.get	8
	i32.const	1792
	i32.add 
	local.get	8
	i32.const	3328
	i32.add 
	i32.const	1536
	memory.copy	0, 0
	local.get	8
	i32.const	256
	i32.add 
	local.get	8
	i32.const	1792
	i32.add 
	i32.const	1536
	memory.copy	0, 0
	local.get	8
	i32.const	12
	i32.add 
	i32.const	0
	i32.const	244
	memory.fill	0
	local.get	0
	local.get	1
	local.get	2
	local.get	8
	i32.const	12
	i32.add 
	local.get	8
	i32.const	256
	i32.add 
	call	gcm_siv__keys__derive_and_prepare____40c030eaacddd0c9_
	local.get	8
	i32.const	12
	i32.add 
	local.get	8
	i32.const	256
	i32.add 
	local.get	2
	local.get	3
	local.get	4
	local.get	5
	local.get	6
	local.get	7
	call	gcm_siv__message__open____2b34360e0e51af73_
	local.set	11
	local.get	8
	i32.const	0
	i32.store	12
	local.get	8
	i32.const	16
	i32.add 
	call	aes_cipher__zeroize__elements__zeroize_elements____530874d131791bfe_
	local.get	8
	i32.const	256
	i32.add 
	i64.const	96
	call	aes_cipher__zeroize__elements__zeroize_elements____d3d1c9d97fea966e_
	call	aes_cipher__zeroize__stack__wipe_stack____2816_
	local.get	8
	i32.const	4864
	i32.add 
	global.set	__stack_pointer
	local.get	11
                                        # fallthrough-return
	end_function
                                        # -- End function
	.section	.text.gcm_siv__keys__derive_and_prepare____40c030eaacddd0c9_,"",@
	.type	gcm_siv__keys__derive_and_prepare____40c030eaacddd0c9_,@function # -- Begin function gcm_siv__keys__derive_and_prepare____40c030eaacddd0c9_
gcm_siv__keys__derive_and_prepare____40c030eaacddd0c9_: # @gcm_siv__keys__derive_and_prepare____40c030eaacddd0c9_
	.functype	gcm_siv__keys__derive_and_prepare____40c030eaacddd0c9_ (i32, i64, i32, i32, i32) -> ()
	.local  	i32, i64, i64
# %bb.0:                                # %start
	global.get	__stack_pointer
	i32.const	192
	i32.sub 
	local.tee	5
	global.set	__stack_pointer
	local.get	5
	v128.const	0, 0
	v128.store	176:p2align=0
	local.get	5
	i32.const	96
	i32.add 
	i32.const	0
	i32.const	80
	memory.fill	0
	local.get	5
	local.get	5
	i32.const	96
	i32.add 
	i32.const	96
	memory.copy	0, 0
	local.get	0
	local.get	1
	local.get	2
	local.get	5
	call	gcm_siv__keys__derive____ed3b81e0963a9ab3_
	local.get	4
	local.get	5
	i64.load	0
	local.tee	6
	i64.const	1
	i64.shr_u
	local.get	5
	i64.load	8
	local.tee	7
	i64.const	63
	i64.shl 
	i64.or  
	local.get	7
	i64.const	1
	i64.shr_u
	i64.const	0
	local.get	6
	i64.const	1
	i64.and 
	i64.sub 
	i64.const	-2233785415175766016
	i64.and 
	i64.xor 
	call	gcm__multiples__put_multiples
	local.get	5
	local.get	1
	local.get	3
	call	gcm_siv__keys__set_encryption_key____66aa1833bfd7fef8_
	local.get	5
	i64.const	6
	call	aes_cipher__zeroize__elements__zeroize_elements____82a118249f09cfc6_
	local.get	5
	i32.const	192
	i32.add 
	global.set	__stack_pointer
                                        # fallthrough-return
	end_function
                                        # -- End function
	.section	.text.gcm_siv__message__open____2b34360e0e51af73_,"",@
	.type	gcm_siv__message__open____2b34360e0e51af73_,@function # -- Begin function gcm_siv__message__open____2b34360e0e51af73_
gcm_siv__message__open____2b34360e0e51af73_: # @gcm_siv__message__open____2b34360e0e51af73_
	.functype	gcm_siv__message__open____2b34360e0e51af73_ (i32, i32, i32, i32, i64, i32, i64, i32) -> (i32)
	.local  	i32
# %bb.0:                                # %start
	global.get	__stack_pointer
	i32.const	16
	i32.sub 
	local.tee	8
	global.set	__stack_pointer
	local.get	0
	local.get	7
	local.get	5
	local.get	6
	call	gcm_siv__message__process_text____66aa1833bfd7fef8_
	local.get	8
	v128.const	0, 0
	v128.store	0:p2align=3
	local.get	0
	local.get	1
	local.get	2
	local.get	3
	local.get	4
	local.get	5
	local.get	6
	local.get	8
	call	gcm_siv__message__put_tag____2b34360e0e51af73_
	local.get	7
	local.get	8
	call	aes_cipher__blocks__difference
	local.set	3
	local.get	8
	i64.const	1
	call	aes_cipher__zeroize__elements__zeroize_elements____82a118249f09cfc6_
	block   	
	local.get	3
	i32.eqz
	br_if   	0                               # 0: down to label200
# %bb.1:                                # %join.3
	local.get	0
	local.get	7
	local.get	5
	local.get	6
	call	gcm_siv__message__process_text____66aa1833bfd7fef8_
.LBB68_2:                               # %common.ret
	end_block                               # label200:
	local.get	8
	i32.const	16
	i32.add 
	global.set	__stack_pointer
	local.get	3
	i32.eqz
                                        # fallthrough-return
	end_function
                                        # -- End function
	.section	.text.gcm_siv__message__put_tag____2b34360e0e51af73_,"",@
	.type	gcm_siv__message__put_tag____2b34360e0e51af73_,@function # -- Begin function gcm_siv__message__put_tag____2b34360e0e51af73_
gcm_siv__message__put_tag____2b34360e0e51af73_: # @gcm_siv__message__put_tag____2b34360e0e51af73_
	.functype	gcm_siv__message__put_tag____2b34360e0e51af73_ (i32, i32, i32, i32, i64, i32, i64, i32) -> ()
	.local  	i32, v128, v128, i32, i32, i64, i64, i32, v128, v128, v128, v128, v128
# %bb.0:                                # %start
	global.get	__stack_pointer
	i32.const	192
	i32.sub 
	local.tee	8
	global.set	__stack_pointer
	local.get	8
	v128.const	0, 0
	local.tee	9
	v128.store	16:p2align=3
	local.get	8
	local.get	9
	v128.store	0:p2align=3
	local.get	8
	local.get	9
	v128.store	64:p2align=3
	local.get	8
	i32.const	0
	i32.store	60
	local.get	8
	local.get	1
	i32.store	56
	local.get	8
	v128.const	0, 0, 0, 0, 0, 0, 0, 0, 0, 0, 0, 0, 0, 0, 0, 0
	local.tee	10
	v128.store	32
	local.get	8
	local.get	10
	v128.store	176
	local.get	4
	i32.wrap_i64
	local.tee	11
	i32.const	48
	i32.div_u
	local.tee	12
	i64.extend_i32_u
	local.set	13
	block   	
	local.get	4
	i64.const	48
	i64.lt_u
	br_if   	0                               # 0: down to label201
# %bb.1:                                # %join.5.i.i38.preheader
	local.get	3
	local.set	1
	local.get	13
	local.set	14
.LBB69_2:                               # %join.5.i.i38
                                        # =>This Inner Loop Header: Depth=1
	loop    	                                # label202:
	local.get	8
	local.get	8
	v128.load	176
	local.get	1
	v128.load	0:p2align=0
	local.get	10
	i8x16.shuffle	15, 14, 13, 12, 11, 10, 9, 8, 7, 6, 5, 4, 3, 2, 1, 0
	v128.xor
	v128.store	160
	local.get	8
	local.get	1
	i32.const	16
	i32.add 
	v128.load	0:p2align=0
	local.get	10
	i8x16.shuffle	15, 14, 13, 12, 11, 10, 9, 8, 7, 6, 5, 4, 3, 2, 1, 0
	v128.store	144
	local.get	8
	local.get	1
	i32.const	32
	i32.add 
	v128.load	0:p2align=0
	local.get	10
	i8x16.shuffle	15, 14, 13, 12, 11, 10, 9, 8, 7, 6, 5, 4, 3, 2, 1, 0
	v128.store	128
	local.get	1
	i32.const	48
	i32.add 
	local.set	1
	local.get	8
	i32.const	176
	i32.add 
	local.get	8
	i32.const	56
	i32.add 
	local.get	8
	i32.const	160
	i32.add 
	local.get	8
	i32.const	144
	i32.add 
	local.get	8
	i32.const	128
	i32.add 
	call	gcm__multiples__Multiples__three_products
	local.get	14
	i64.const	-1
	i64.add 
	local.tee	14
	i64.const	0
	i64.ne  
	br_if   	0                               # 0: up to label202
# %bb.3:                                # %gcm__hash__hash_threes____1ace2c8123f9d1c9_.exit.loopexit.i
	end_loop
	local.get	8
	v128.load	176
	local.set	10
.LBB69_4:                               # %gcm__hash__hash_threes____1ace2c8123f9d1c9_.exit.i
	end_block                               # label201:
	local.get	8
	local.get	9
	v128.store	160
	block   	
	local.get	4
	local.get	13
	i64.const	48
	i64.mul 
	local.tee	14
	i64.eq  
	br_if   	0                               # 0: down to label203
# %bb.5:                                # %join.3.i.i
	block   	
	block   	
	local.get	4
	local.get	14
	i64.sub 
	local.tee	13
	i64.const	16
	i64.gt_u
	br_if   	0                               # 0: down to label205
# %bb.6:                                # %then.4.i.i
	local.get	3
	local.get	14
	i32.wrap_i64
	local.tee	12
	i32.add 
	local.set	1
	block   	
	local.get	13
	i64.const	16
	i64.eq  
	br_if   	0                               # 0: down to label206
# %bb.7:                                # %join.3.i.i97.i.i
	local.get	8
	local.get	9
	v128.store	176:p2align=3
	block   	
	local.get	8
	i32.const	176
	i32.add 
	i64.extend_i32_u
	local.get	1
	i64.extend_i32_u
	i64.sub 
	local.get	13
	i64.ge_u
	br_if   	0                               # 0: down to label207
# %bb.8:                                # %join.7.i.i.i.i.i.i.preheader.i
	block   	
	local.get	11
	local.get	12
	i32.sub 
	local.tee	3
	i32.eqz
	br_if   	0                               # 0: down to label208
# %bb.9:                                # %join.7.i.i.i.i.i.i.preheader.i
	local.get	8
	i32.const	176
	i32.add 
	local.get	1
	local.get	3
	memory.copy	0, 0
.LBB69_10:                              # %join.7.i.i.i.i.i.i.preheader.i
	end_block                               # label208:
	local.get	8
	i32.const	176
	i32.add 
	local.set	1
	br      	1                               # 1: down to label206
.LBB69_11:                              # %apart.2.i.i.i.i.i.i.i
	end_block                               # label207:
	block   	
	local.get	13
	i32.wrap_i64
	local.tee	3
	i32.eqz
	br_if   	0                               # 0: down to label209
# %bb.12:                               # %apart.2.i.i.i.i.i.i.i
	local.get	8
	i32.const	176
	i32.add 
	local.get	1
	local.get	3
	memory.copy	0, 0
.LBB69_13:                              # %apart.2.i.i.i.i.i.i.i
	end_block                               # label209:
	local.get	8
	i32.const	176
	i32.add 
	local.set	1
.LBB69_14:                              # %gcm__hash__last_block____1ace2c8123f9d1c9_.exit151.i.i
	end_block                               # label206:
	local.get	8
	local.get	1
	v128.load	0:p2align=0
	local.get	10
	i8x16.shuffle	15, 14, 13, 12, 11, 10, 9, 8, 7, 6, 5, 4, 3, 2, 1, 0
	local.get	10
	v128.xor
	v128.store	144
	local.get	8
	i32.const	160
	i32.add 
	local.get	8
	i32.const	56
	i32.add 
	local.get	8
	i32.const	144
	i32.add 
	call	gcm__multiples__Multiples__block_product
	br      	1                               # 1: down to label204
.LBB69_15:                              # %join.6.i.i
	end_block                               # label205:
	local.get	8
	local.get	3
	local.get	12
	i32.const	48
	i32.mul 
	i32.add 
	local.tee	15
	v128.load	0:p2align=0
	local.get	10
	i8x16.shuffle	15, 14, 13, 12, 11, 10, 9, 8, 7, 6, 5, 4, 3, 2, 1, 0
	local.get	10
	v128.xor
	v128.store	144
	block   	
	local.get	13
	i64.const	32
	i64.gt_u
	br_if   	0                               # 0: down to label210
# %bb.16:                               # %then.7.i.i
	local.get	3
	local.get	14
	i64.const	16
	i64.add 
	local.tee	14
	i32.wrap_i64
	i32.add 
	local.set	1
	block   	
	local.get	4
	local.get	14
	i64.sub 
	local.tee	14
	i64.const	16
	i64.eq  
	br_if   	0                               # 0: down to label211
# %bb.17:                               # %join.3.i.i38.i.i
	local.get	8
	local.get	9
	v128.store	176:p2align=3
	block   	
	local.get	8
	i32.const	176
	i32.add 
	i64.extend_i32_u
	local.get	1
	i64.extend_i32_u
	i64.sub 
	local.get	14
	i64.ge_u
	br_if   	0                               # 0: down to label212
# %bb.18:                               # %join.7.i.i.i.i.i.i147.preheader.i
	block   	
	local.get	11
	local.get	12
	i32.const	-48
	i32.mul 
	i32.add 
	i32.const	-16
	i32.add 
	local.tee	3
	i32.eqz
	br_if   	0                               # 0: down to label213
# %bb.19:                               # %join.7.i.i.i.i.i.i147.preheader.i
	local.get	8
	i32.const	176
	i32.add 
	local.get	1
	local.get	3
	memory.copy	0, 0
.LBB69_20:                              # %join.7.i.i.i.i.i.i147.preheader.i
	end_block                               # label213:
	local.get	8
	i32.const	176
	i32.add 
	local.set	1
	br      	1                               # 1: down to label211
.LBB69_21:                              # %apart.2.i.i.i.i.i.i145.i
	end_block                               # label212:
	block   	
	local.get	14
	i32.wrap_i64
	local.tee	3
	i32.eqz
	br_if   	0                               # 0: down to label214
# %bb.22:                               # %apart.2.i.i.i.i.i.i145.i
	local.get	8
	i32.const	176
	i32.add 
	local.get	1
	local.get	3
	memory.copy	0, 0
.LBB69_23:                              # %apart.2.i.i.i.i.i.i145.i
	end_block                               # label214:
	local.get	8
	i32.const	176
	i32.add 
	local.set	1
.LBB69_24:                              # %gcm__hash__last_block____1ace2c8123f9d1c9_.exit92.i.i
	end_block                               # label211:
	local.get	8
	local.get	1
	v128.load	0:p2align=0
	local.get	10
	i8x16.shuffle	15, 14, 13, 12, 11, 10, 9, 8, 7, 6, 5, 4, 3, 2, 1, 0
	v128.store	128
	local.get	8
	i32.const	160
	i32.add 
	local.get	8
	i32.const	56
	i32.add 
	local.get	8
	i32.const	144
	i32.add 
	local.get	8
	i32.const	128
	i32.add 
	call	gcm__multiples__Multiples__two_products
	br      	1                               # 1: down to label204
.LBB69_25:                              # %join.9.i.i
	end_block                               # label210:
	local.get	3
	local.get	14
	i64.const	32
	i64.add 
	local.tee	14
	i32.wrap_i64
	i32.add 
	local.set	1
	block   	
	local.get	4
	local.get	14
	i64.sub 
	local.tee	14
	i64.const	16
	i64.eq  
	br_if   	0                               # 0: down to label215
# %bb.26:                               # %join.3.i.i.i.i
	local.get	8
	local.get	9
	v128.store	176:p2align=3
	block   	
	local.get	8
	i32.const	176
	i32.add 
	i64.extend_i32_u
	local.get	1
	i64.extend_i32_u
	i64.sub 
	local.get	14
	i64.ge_u
	br_if   	0                               # 0: down to label216
# %bb.27:                               # %join.7.i.i.i.i.i.i161.preheader.i
	block   	
	local.get	11
	local.get	12
	i32.const	-48
	i32.mul 
	i32.add 
	i32.const	-32
	i32.add 
	local.tee	3
	i32.eqz
	br_if   	0                               # 0: down to label217
# %bb.28:                               # %join.7.i.i.i.i.i.i161.preheader.i
	local.get	8
	i32.const	176
	i32.add 
	local.get	1
	local.get	3
	memory.copy	0, 0
.LBB69_29:                              # %join.7.i.i.i.i.i.i161.preheader.i
	end_block                               # label217:
	local.get	8
	i32.const	176
	i32.add 
	local.set	1
	br      	1                               # 1: down to label215
.LBB69_30:                              # %apart.2.i.i.i.i.i.i159.i
	end_block                               # label216:
	block   	
	local.get	14
	i32.wrap_i64
	local.tee	3
	i32.eqz
	br_if   	0                               # 0: down to label218
# %bb.31:                               # %apart.2.i.i.i.i.i.i159.i
	local.get	8
	i32.const	176
	i32.add 
	local.get	1
	local.get	3
	memory.copy	0, 0
.LBB69_32:                              # %apart.2.i.i.i.i.i.i159.i
	end_block                               # label218:
	local.get	8
	i32.const	176
	i32.add 
	local.set	1
.LBB69_33:                              # %gcm__hash__last_block____1ace2c8123f9d1c9_.exit.i.i
	end_block                               # label215:
	local.get	8
	local.get	1
	v128.load	0:p2align=0
	local.get	10
	i8x16.shuffle	15, 14, 13, 12, 11, 10, 9, 8, 7, 6, 5, 4, 3, 2, 1, 0
	v128.store	128
	local.get	8
	local.get	15
	i32.const	16
	i32.add 
	v128.load	0:p2align=0
	local.get	10
	i8x16.shuffle	15, 14, 13, 12, 11, 10, 9, 8, 7, 6, 5, 4, 3, 2, 1, 0
	v128.store	176
	local.get	8
	i32.const	160
	i32.add 
	local.get	8
	i32.const	56
	i32.add 
	local.get	8
	i32.const	144
	i32.add 
	local.get	8
	i32.const	176
	i32.add 
	local.get	8
	i32.const	128
	i32.add 
	call	gcm__multiples__Multiples__three_products
.LBB69_34:                              # %gcm__hash__hash_last_group____1ace2c8123f9d1c9_.exit.i
	end_block                               # label204:
	local.get	8
	v128.load	160
	local.set	10
.LBB69_35:                              # %gcm__hash__hash_last_group____1ace2c8123f9d1c9_.exit.i
	end_block                               # label203:
	local.get	8
	local.get	10
	v128.store	176
	v128.const	0, 0, 0, 0, 0, 0, 0, 0, 0, 0, 0, 0, 0, 0, 0, 0
	local.get	6
	i64.const	29
	i64.shr_u
	i32.wrap_i64
	i8x16.replace_lane	3
	local.get	6
	i64.const	21
	i64.shr_u
	i32.wrap_i64
	i8x16.replace_lane	4
	local.get	6
	i64.const	13
	i64.shr_u
	i32.wrap_i64
	i8x16.replace_lane	5
	local.get	6
	i64.const	5
	i64.shr_u
	i32.wrap_i64
	i8x16.replace_lane	6
	local.get	6
	i32.wrap_i64
	local.tee	3
	i32.const	3
	i32.shl 
	i8x16.replace_lane	7
	local.get	4
	i64.const	29
	i64.shr_u
	i32.wrap_i64
	i8x16.replace_lane	11
	local.get	4
	i64.const	21
	i64.shr_u
	i32.wrap_i64
	i8x16.replace_lane	12
	local.get	4
	i64.const	13
	i64.shr_u
	i32.wrap_i64
	i8x16.replace_lane	13
	local.get	4
	i64.const	5
	i64.shr_u
	i32.wrap_i64
	i8x16.replace_lane	14
	local.get	11
	i32.const	3
	i32.shl 
	i8x16.replace_lane	15
	local.set	16
	local.get	3
	i32.const	48
	i32.div_u
	local.tee	11
	i64.extend_i32_u
	local.set	4
	block   	
	local.get	6
	i64.const	48
	i64.lt_u
	br_if   	0                               # 0: down to label219
# %bb.36:                               # %join.5.i.i.i.preheader
	local.get	5
	local.set	1
	local.get	4
	local.set	14
.LBB69_37:                              # %join.5.i.i.i
                                        # =>This Inner Loop Header: Depth=1
	loop    	                                # label220:
	local.get	8
	local.get	8
	v128.load	176
	local.get	1
	v128.load	0:p2align=0
	local.get	10
	i8x16.shuffle	15, 14, 13, 12, 11, 10, 9, 8, 7, 6, 5, 4, 3, 2, 1, 0
	v128.xor
	v128.store	160
	local.get	8
	local.get	1
	i32.const	16
	i32.add 
	v128.load	0:p2align=0
	local.get	10
	i8x16.shuffle	15, 14, 13, 12, 11, 10, 9, 8, 7, 6, 5, 4, 3, 2, 1, 0
	v128.store	144
	local.get	8
	local.get	1
	i32.const	32
	i32.add 
	v128.load	0:p2align=0
	local.get	10
	i8x16.shuffle	15, 14, 13, 12, 11, 10, 9, 8, 7, 6, 5, 4, 3, 2, 1, 0
	v128.store	128
	local.get	1
	i32.const	48
	i32.add 
	local.set	1
	local.get	8
	i32.const	176
	i32.add 
	local.get	8
	i32.const	56
	i32.add 
	local.get	8
	i32.const	160
	i32.add 
	local.get	8
	i32.const	144
	i32.add 
	local.get	8
	i32.const	128
	i32.add 
	call	gcm__multiples__Multiples__three_products
	local.get	14
	i64.const	-1
	i64.add 
	local.tee	14
	i64.const	0
	i64.ne  
	br_if   	0                               # 0: up to label220
# %bb.38:                               # %gcm__hash__hash_string_and_end____1ace2c8123f9d1c9_.exit.loopexit.i
	end_loop
	local.get	8
	v128.load	176
	local.set	10
.LBB69_39:                              # %gcm__hash__hash_string_and_end____1ace2c8123f9d1c9_.exit.i
	end_block                               # label219:
	local.get	8
	local.get	9
	v128.store	112
	local.get	8
	local.get	16
	v128.store	96
	block   	
	block   	
	local.get	6
	local.get	4
	i64.const	48
	i64.mul 
	local.tee	14
	i64.ne  
	br_if   	0                               # 0: down to label222
# %bb.40:                               # %then.1.i136.i
	local.get	8
	local.get	10
	local.get	16
	v128.xor
	v128.store	176
	local.get	8
	i32.const	112
	i32.add 
	local.get	8
	i32.const	56
	i32.add 
	local.get	8
	i32.const	176
	i32.add 
	call	gcm__multiples__Multiples__block_product
	br      	1                               # 1: down to label221
.LBB69_41:                              # %join.3.i58.i
	end_block                               # label222:
	block   	
	local.get	6
	local.get	14
	i64.sub 
	local.tee	13
	i64.const	16
	i64.gt_u
	br_if   	0                               # 0: down to label223
# %bb.42:                               # %then.4.i134.i
	local.get	5
	local.get	14
	i32.wrap_i64
	local.tee	11
	i32.add 
	local.set	1
	block   	
	local.get	13
	i64.const	16
	i64.eq  
	br_if   	0                               # 0: down to label224
# %bb.43:                               # %join.3.i.i30.i.i
	local.get	8
	local.get	9
	v128.store	176:p2align=3
	block   	
	local.get	8
	i32.const	176
	i32.add 
	i64.extend_i32_u
	local.get	1
	i64.extend_i32_u
	i64.sub 
	local.get	13
	i64.ge_u
	br_if   	0                               # 0: down to label225
# %bb.44:                               # %join.7.i.i.i.i.i.i176.preheader.i
	block   	
	local.get	3
	local.get	11
	i32.sub 
	local.tee	5
	i32.eqz
	br_if   	0                               # 0: down to label226
# %bb.45:                               # %join.7.i.i.i.i.i.i176.preheader.i
	local.get	8
	i32.const	176
	i32.add 
	local.get	1
	local.get	5
	memory.copy	0, 0
.LBB69_46:                              # %join.7.i.i.i.i.i.i176.preheader.i
	end_block                               # label226:
	local.get	8
	i32.const	176
	i32.add 
	local.set	1
	br      	1                               # 1: down to label224
.LBB69_47:                              # %apart.2.i.i.i.i.i.i174.i
	end_block                               # label225:
	block   	
	local.get	13
	i32.wrap_i64
	local.tee	5
	i32.eqz
	br_if   	0                               # 0: down to label227
# %bb.48:                               # %apart.2.i.i.i.i.i.i174.i
	local.get	8
	i32.const	176
	i32.add 
	local.get	1
	local.get	5
	memory.copy	0, 0
.LBB69_49:                              # %apart.2.i.i.i.i.i.i174.i
	end_block                               # label227:
	local.get	8
	i32.const	176
	i32.add 
	local.set	1
.LBB69_50:                              # %gcm__hash__last_block____1ace2c8123f9d1c9_.exit84.i.i
	end_block                               # label224:
	local.get	8
	local.get	1
	v128.load	0:p2align=0
	local.get	10
	i8x16.shuffle	15, 14, 13, 12, 11, 10, 9, 8, 7, 6, 5, 4, 3, 2, 1, 0
	local.get	10
	v128.xor
	v128.store	160
	local.get	8
	i32.const	112
	i32.add 
	local.get	8
	i32.const	56
	i32.add 
	local.get	8
	i32.const	160
	i32.add 
	local.get	8
	i32.const	96
	i32.add 
	call	gcm__multiples__Multiples__two_products
	br      	1                               # 1: down to label221
.LBB69_51:                              # %join.6.i59.i
	end_block                               # label223:
	local.get	4
	i64.const	3
	i64.mul 
	local.set	4
	block   	
	local.get	13
	i64.const	32
	i64.gt_u
	br_if   	0                               # 0: down to label228
# %bb.52:                               # %then.7.i73.i
	local.get	8
	local.get	5
	local.get	4
	i32.wrap_i64
	i32.const	4
	i32.shl 
	i32.add 
	v128.load	0:p2align=0
	local.get	10
	i8x16.shuffle	15, 14, 13, 12, 11, 10, 9, 8, 7, 6, 5, 4, 3, 2, 1, 0
	local.get	10
	v128.xor
	v128.store	160
	local.get	5
	local.get	14
	i64.const	16
	i64.add 
	local.tee	14
	i32.wrap_i64
	i32.add 
	local.set	1
	block   	
	local.get	6
	local.get	14
	i64.sub 
	local.tee	14
	i64.const	16
	i64.eq  
	br_if   	0                               # 0: down to label229
# %bb.53:                               # %join.3.i.i.i80.i
	local.get	8
	local.get	9
	v128.store	176:p2align=3
	block   	
	local.get	8
	i32.const	176
	i32.add 
	i64.extend_i32_u
	local.get	1
	i64.extend_i32_u
	i64.sub 
	local.get	14
	i64.ge_u
	br_if   	0                               # 0: down to label230
# %bb.54:                               # %join.7.i.i.i.i.i.i190.preheader.i
	block   	
	local.get	3
	local.get	11
	i32.const	-48
	i32.mul 
	i32.add 
	i32.const	-16
	i32.add 
	local.tee	5
	i32.eqz
	br_if   	0                               # 0: down to label231
# %bb.55:                               # %join.7.i.i.i.i.i.i190.preheader.i
	local.get	8
	i32.const	176
	i32.add 
	local.get	1
	local.get	5
	memory.copy	0, 0
.LBB69_56:                              # %join.7.i.i.i.i.i.i190.preheader.i
	end_block                               # label231:
	local.get	8
	i32.const	176
	i32.add 
	local.set	1
	br      	1                               # 1: down to label229
.LBB69_57:                              # %apart.2.i.i.i.i.i.i188.i
	end_block                               # label230:
	block   	
	local.get	14
	i32.wrap_i64
	local.tee	5
	i32.eqz
	br_if   	0                               # 0: down to label232
# %bb.58:                               # %apart.2.i.i.i.i.i.i188.i
	local.get	8
	i32.const	176
	i32.add 
	local.get	1
	local.get	5
	memory.copy	0, 0
.LBB69_59:                              # %apart.2.i.i.i.i.i.i188.i
	end_block                               # label232:
	local.get	8
	i32.const	176
	i32.add 
	local.set	1
.LBB69_60:                              # %gcm__hash__last_block____1ace2c8123f9d1c9_.exit.i128.i
	end_block                               # label229:
	local.get	8
	local.get	1
	v128.load	0:p2align=0
	local.get	10
	i8x16.shuffle	15, 14, 13, 12, 11, 10, 9, 8, 7, 6, 5, 4, 3, 2, 1, 0
	v128.store	144
	local.get	8
	i32.const	112
	i32.add 
	local.get	8
	i32.const	56
	i32.add 
	local.get	8
	i32.const	160
	i32.add 
	local.get	8
	i32.const	144
	i32.add 
	local.get	8
	i32.const	96
	i32.add 
	call	gcm__multiples__Multiples__three_products
	br      	1                               # 1: down to label221
.LBB69_61:                              # %join.9.i.i.i
	end_block                               # label228:
	local.get	8
	local.get	9
	v128.store	160
	local.get	8
	local.get	5
	local.get	4
	i32.wrap_i64
	i32.const	4
	i32.shl 
	i32.add 
	local.tee	12
	v128.load	0:p2align=0
	local.get	10
	i8x16.shuffle	15, 14, 13, 12, 11, 10, 9, 8, 7, 6, 5, 4, 3, 2, 1, 0
	local.get	10
	v128.xor
	v128.store	144
	local.get	5
	local.get	14
	i64.const	32
	i64.add 
	local.tee	14
	i32.wrap_i64
	i32.add 
	local.set	1
	block   	
	local.get	6
	local.get	14
	i64.sub 
	local.tee	14
	i64.const	16
	i64.eq  
	br_if   	0                               # 0: down to label233
# %bb.62:                               # %join.3.i.i.i.i.i
	local.get	8
	local.get	9
	v128.store	176:p2align=3
	block   	
	local.get	8
	i32.const	176
	i32.add 
	i64.extend_i32_u
	local.get	1
	i64.extend_i32_u
	i64.sub 
	local.get	14
	i64.ge_u
	br_if   	0                               # 0: down to label234
# %bb.63:                               # %join.7.i.i.i.i.i.i232.preheader.i
	block   	
	local.get	3
	local.get	11
	i32.const	-48
	i32.mul 
	i32.add 
	i32.const	-32
	i32.add 
	local.tee	5
	i32.eqz
	br_if   	0                               # 0: down to label235
# %bb.64:                               # %join.7.i.i.i.i.i.i232.preheader.i
	local.get	8
	i32.const	176
	i32.add 
	local.get	1
	local.get	5
	memory.copy	0, 0
.LBB69_65:                              # %join.7.i.i.i.i.i.i232.preheader.i
	end_block                               # label235:
	local.get	8
	i32.const	176
	i32.add 
	local.set	1
	br      	1                               # 1: down to label233
.LBB69_66:                              # %apart.2.i.i.i.i.i.i230.i
	end_block                               # label234:
	block   	
	local.get	14
	i32.wrap_i64
	local.tee	5
	i32.eqz
	br_if   	0                               # 0: down to label236
# %bb.67:                               # %apart.2.i.i.i.i.i.i230.i
	local.get	8
	i32.const	176
	i32.add 
	local.get	1
	local.get	5
	memory.copy	0, 0
.LBB69_68:                              # %apart.2.i.i.i.i.i.i230.i
	end_block                               # label236:
	local.get	8
	i32.const	176
	i32.add 
	local.set	1
.LBB69_69:                              # %gcm__hash__hash_last_group____1ace2c8123f9d1c9_.exit.i.i
	end_block                               # label233:
	local.get	8
	local.get	1
	v128.load	0:p2align=0
	local.get	10
	i8x16.shuffle	15, 14, 13, 12, 11, 10, 9, 8, 7, 6, 5, 4, 3, 2, 1, 0
	v128.store	128
	local.get	8
	local.get	12
	i32.const	16
	i32.add 
	v128.load	0:p2align=0
	local.get	10
	i8x16.shuffle	15, 14, 13, 12, 11, 10, 9, 8, 7, 6, 5, 4, 3, 2, 1, 0
	v128.store	176
	local.get	8
	i32.const	160
	i32.add 
	local.get	8
	i32.const	56
	i32.add 
	local.get	8
	i32.const	144
	i32.add 
	local.get	8
	i32.const	176
	i32.add 
	local.get	8
	i32.const	128
	i32.add 
	call	gcm__multiples__Multiples__three_products
	local.get	8
	local.get	8
	v128.load	160
	local.get	16
	v128.xor
	v128.store	80
	local.get	8
	i32.const	112
	i32.add 
	local.get	8
	i32.const	56
	i32.add 
	local.get	8
	i32.const	80
	i32.add 
	call	gcm__multiples__Multiples__block_product
.LBB69_70:                              # %gcm_siv__hash__MultiplesRoomPolyvalRoom__hash.exit
	end_block                               # label221:
	local.get	8
	local.get	8
	v128.load	112
	v128.store	32
	local.get	8
	i32.const	64
	i32.add 
	local.get	8
	i32.const	32
	i32.add 
	call	gcm_siv__hash__bytes_of
	local.get	8
	local.get	8
	v128.load	64:p2align=3
	v128.store	0:p2align=3
	local.get	8
	i32.const	16
	i32.add 
	local.get	8
	local.get	2
	call	gcm_siv__message__tag_input
	local.get	7
	local.get	8
	v128.load	16:p2align=3
	v128.store	0:p2align=0
	v128.const	0, 1, 28, 29, 45, 44, 49, 48, 39, 38, 59, 58, 10, 11, 22, 23
	local.get	0
	i32.const	4
	i32.add 
	local.tee	3
	v128.load	0:p2align=2
	local.get	7
	v128.load	0:p2align=0
	v128.xor
	local.tee	10
	v128.const	15, 15, 15, 15, 15, 15, 15, 15, 15, 15, 15, 15, 15, 15, 15, 15
	local.tee	17
	v128.and
	i8x16.swizzle
	v128.const	0, 134, 253, 123, 142, 8, 115, 245, 119, 241, 138, 12, 249, 127, 4, 130
	local.get	10
	i32.const	4
	i8x16.shr_u
	i8x16.swizzle
	v128.xor
	local.set	9
	local.get	0
	i32.load	0
	local.tee	1
	i32.const	2
	i32.shr_u
	i32.const	6
	i32.add 
	local.set	11
	local.get	1
	i64.extend_i32_u
	i64.const	2
	i64.shr_u
	i64.const	5
	i64.add 
	local.set	14
	i32.const	16
	local.set	1
.LBB69_71:                              # %join.5.i.i
                                        # =>This Inner Loop Header: Depth=1
	loop    	                                # label237:
	local.get	0
	local.get	1
	i32.add 
	i32.const	4
	i32.add 
	v128.load	0:p2align=0
	v128.const	0, 209, 229, 247, 230, 37, 18, 195, 38, 192, 55, 210, 244, 3, 17, 52
	v128.const	128, 1, 9, 14, 13, 11, 7, 6, 15, 2, 12, 5, 10, 4, 3, 8
	local.tee	10
	local.get	10
	local.get	9
	i32.const	4
	i8x16.shr_u
	local.tee	16
	local.get	9
	local.get	17
	v128.and
	local.tee	9
	v128.xor
	local.tee	18
	i8x16.swizzle
	v128.const	128, 2, 1, 15, 9, 5, 14, 12, 13, 4, 11, 10, 7, 8, 6, 3
	local.tee	19
	local.get	9
	i8x16.swizzle
	local.tee	9
	v128.xor
	i8x16.swizzle
	local.get	16
	v128.xor
	local.tee	20
	i8x16.swizzle
	v128.const	0, 124, 32, 207, 146, 1, 239, 147, 179, 33, 238, 206, 125, 178, 93, 92
	local.get	10
	local.get	10
	local.get	16
	i8x16.swizzle
	local.get	9
	v128.xor
	i8x16.swizzle
	local.get	18
	v128.xor
	local.tee	9
	i8x16.swizzle
	v128.xor
	v128.const	0, 230, 114, 183, 229, 198, 197, 35, 81, 180, 3, 113, 32, 151, 82, 148
	local.get	20
	i8x16.swizzle
	v128.const	0, 195, 79, 12, 252, 124, 67, 128, 207, 51, 63, 112, 191, 179, 240, 140
	local.get	9
	i8x16.swizzle
	v128.xor
	local.tee	9
	local.get	1
	i32.const	48
	i32.and 
	local.tee	5
	v128.load	.Lstatic.5:p2align=0
	local.tee	16
	i8x16.swizzle
	v128.xor
	local.tee	18
	local.get	16
	i8x16.swizzle
	v128.xor
	local.get	9
	local.get	5
	v128.load	.Lstatic.6:p2align=0
	i8x16.swizzle
	v128.xor
	local.get	18
	v128.xor
	local.set	9
	local.get	1
	i32.const	16
	i32.add 
	local.set	1
	local.get	14
	i64.const	-1
	i64.add 
	local.tee	14
	i64.const	0
	i64.ne  
	br_if   	0                               # 0: up to label237
# %bb.72:                               # %gcm_c__siv__MessageRoomMessageKey__encrypt_block.exit
	end_loop
	local.get	7
	v128.const	0, 159, 97, 22, 194, 42, 119, 232, 137, 75, 93, 60, 181, 163, 212, 254
	local.get	10
	local.get	10
	local.get	9
	i32.const	4
	i8x16.shr_u
	local.tee	16
	local.get	9
	local.get	17
	v128.and
	local.tee	9
	v128.xor
	local.tee	18
	i8x16.swizzle
	local.get	19
	local.get	9
	i8x16.swizzle
	local.tee	9
	v128.xor
	i8x16.swizzle
	local.get	16
	v128.xor
	i8x16.swizzle
	v128.const	0, 203, 215, 176, 33, 141, 103, 172, 123, 90, 234, 61, 70, 246, 145, 28
	local.get	10
	local.get	10
	local.get	16
	i8x16.swizzle
	local.get	9
	v128.xor
	i8x16.swizzle
	local.get	18
	v128.xor
	i8x16.swizzle
	v128.xor
	local.get	11
	i32.const	4
	i32.shl 
	local.tee	1
	i32.const	48
	i32.and 
	v128.load	.Lstatic.3:p2align=0
	i8x16.swizzle
	local.get	3
	local.get	1
	i32.add 
	v128.load	0:p2align=0
	v128.xor
	v128.store	0:p2align=0
	local.get	8
	i32.const	192
	i32.add 
	global.set	__stack_pointer
                                        # fallthrough-return
	end_function
                                        # -- End function
	.section	.text.gcm_c__siv__fotsgure_gcm_siv_seal,"",@
	.type	gcm_c__siv__fotsgure_gcm_siv_seal,@function # -- Begin function gcm_c__siv__fotsgure_gcm_siv_seal
gcm_c__siv__fotsgure_gcm_siv_seal:      # @gcm_c__siv__fotsgure_gcm_siv_seal
	.functype	gcm_c__siv__fotsgure_gcm_siv_seal (i32, i32, i32, i64, i32, i64, i32) -> (i32)
	.local  	i32, i32, i32, i64, i64, v128
# %bb.0:                                # %start
	global.get	__stack_pointer
	i32.const	64
	i32.sub 
	local.tee	7
	global.set	__stack_pointer
	i32.const	2
	local.set	8
	block   	
	block   	
	local.get	0
	i32.load	0
	local.tee	9
	i32.const	-16
	i32.add 
	br_table 	{0, 1, 1, 1, 1, 1, 1, 1, 1, 1, 1, 1, 1, 1, 1, 1, 0, 1} # 1: down to label238
                                        # 0: down to label239
.LBB70_1:                               # %join.3
	end_block                               # label239:
	local.get	7
	i32.const	0
	i32.store	20
	local.get	7
	i32.const	0
	i32.store	4
	local.get	7
	local.get	0
	i32.const	4
	i32.add 
	local.tee	0
	i32.store	16
	local.get	7
	local.get	0
	i32.store	0
	local.get	7
	local.get	9
	i64.extend_i32_u
	local.tee	10
	i64.const	2
	i64.shr_u
	i64.const	7
	i64.add 
	local.tee	11
	i64.store	24
	local.get	7
	local.get	11
	i64.store	8
	local.get	7
	v128.const	0, 0
	v128.store	48:p2align=3
	block   	
	block   	
	local.get	3
	i64.const	160
	i64.gt_u
	br_if   	0                               # 0: down to label241
# %bb.2:                                # %join.3
	local.get	5
	i64.const	160
	local.get	3
	i64.sub 
	i64.gt_u
	br_if   	0                               # 0: down to label241
# %bb.3:                                # %then.1.i
	local.get	7
	i32.const	48
	i32.add 
	local.get	7
	local.get	10
	local.get	1
	local.get	2
	local.get	3
	local.get	4
	local.get	5
	call	gcm_siv__course__seal_in____b1a7be6fe22fdaa9_
	br      	1                               # 1: down to label240
.LBB70_4:                               # %else.2.i
	end_block                               # label241:
	local.get	7
	i32.const	48
	i32.add 
	local.get	7
	local.get	10
	local.get	1
	local.get	2
	local.get	3
	local.get	4
	local.get	5
	call	gcm_siv__course__seal_in____40c030eaacddd0c9_
.LBB70_5:                               # %gcm_siv__course__seal_message____c90a668d6150d2aa_.exit
	end_block                               # label240:
	local.get	7
	local.get	7
	v128.load	48:p2align=3
	local.tee	12
	v128.store	32:p2align=3
	local.get	6
	local.get	12
	v128.store	0:p2align=0
	i32.const	0
	local.set	8
.LBB70_6:                               # %common.ret
	end_block                               # label238:
	local.get	7
	i32.const	64
	i32.add 
	global.set	__stack_pointer
	local.get	8
                                        # fallthrough-return
	end_function
                                        # -- End function
	.section	.text.gcm_siv__course__seal_in____b1a7be6fe22fdaa9_,"",@
	.type	gcm_siv__course__seal_in____b1a7be6fe22fdaa9_,@function # -- Begin function gcm_siv__course__seal_in____b1a7be6fe22fdaa9_
gcm_siv__course__seal_in____b1a7be6fe22fdaa9_: # @gcm_siv__course__seal_in____b1a7be6fe22fdaa9_
	.functype	gcm_siv__course__seal_in____b1a7be6fe22fdaa9_ (i32, i32, i64, i32, i32, i64, i32, i64) -> ()
	.local  	i32
# %bb.0:                                # %start
	global.get	__stack_pointer
	i32.const	1296
	i32.sub 
	local.tee	8
	global.set	__stack_pointer
	local.get	8
	v128.const	0, 0
	v128.store	1280:p2align=0
	local.get	8
	i32.const	784
	i32.add 
	i32.const	0
	i32.const	496
	memory.fill	0
	local.get	8
	i32.const	272
	i32.add 
	local.get	8
	i32.const	784
	i32.add 
	i32.const	512
	memory.copy	0, 0
	local.get	8
	i32.const	28
	i32.add 
	i32.const	0
	i32.const	244
	memory.fill	0
	local.get	1
	local.get	2
	local.get	3
	local.get	8
	i32.const	28
	i32.add 
	local.get	8
	i32.const	272
	i32.add 
	call	gcm_siv__keys__derive_and_prepare____b1a7be6fe22fdaa9_
	local.get	8
	i32.const	12
	i32.add 
	local.get	8
	i32.const	28
	i32.add 
	local.get	8
	i32.const	272
	i32.add 
	local.get	3
	local.get	4
	local.get	5
	local.get	6
	local.get	7
	call	gcm_siv__message__seal____f940bb35374b8583_
	local.get	8
	i32.const	0
	i32.store	28
	local.get	8
	i32.const	32
	i32.add 
	call	aes_cipher__zeroize__elements__zeroize_elements____530874d131791bfe_
	local.get	8
	i32.const	272
	i32.add 
	i64.const	32
	call	aes_cipher__zeroize__elements__zeroize_elements____d3d1c9d97fea966e_
	call	aes_cipher__zeroize__stack__wipe_stack____2816_
	local.get	0
	local.get	8
	v128.load	12:p2align=0
	v128.store	0:p2align=0
	local.get	8
	i32.const	1296
	i32.add 
	global.set	__stack_pointer
                                        # fallthrough-return
	end_function
                                        # -- End function
	.section	.text.gcm_siv__message__seal____f940bb35374b8583_,"",@
	.type	gcm_siv__message__seal____f940bb35374b8583_,@function # -- Begin function gcm_siv__message__seal____f940bb35374b8583_
gcm_siv__message__seal____f940bb35374b8583_: # @gcm_siv__message__seal____f940bb35374b8583_
	.functype	gcm_siv__message__seal____f940bb35374b8583_ (i32, i32, i32, i32, i32, i64, i32, i64) -> ()
	.local  	i32
# %bb.0:                                # %start
	global.get	__stack_pointer
	i32.const	16
	i32.sub 
	local.tee	8
	global.set	__stack_pointer
	local.get	1
	local.get	2
	local.get	3
	local.get	4
	local.get	5
	local.get	6
	local.get	7
	local.get	8
	call	gcm_siv__message__put_tag____f940bb35374b8583_
	local.get	1
	local.get	8
	local.get	6
	local.get	7
	call	gcm_siv__message__process_text____66aa1833bfd7fef8_
	local.get	0
	local.get	8
	v128.load	0:p2align=0
	v128.store	0:p2align=0
	local.get	8
	i32.const	16
	i32.add 
	global.set	__stack_pointer
                                        # fallthrough-return
	end_function
                                        # -- End function
	.section	.text.gcm_siv__course__seal_in____40c030eaacddd0c9_,"",@
	.type	gcm_siv__course__seal_in____40c030eaacddd0c9_,@function # -- Begin function gcm_siv__course__seal_in____40c030eaacddd0c9_
gcm_siv__course__seal_in____40c030eaacddd0c9_: # @gcm_siv__course__seal_in____40c030eaacddd0c9_
	.functype	gcm_siv__course__seal_in____40c030eaacddd0c9_ (i32, i32, i64, i32, i32, i64, i32, i64) -> ()
	.local  	i32, i32, i64, i32, v128
# %bb.0:                                # %start
	global.get	__stack_pointer
	i32.const	4880
	i32.sub 
	local.tee	8
	global.set	__stack_pointer
	i32.const	0
	local.set	9
	local.get	8
	i32.const	3344
	i32.add 
	i32.const	0
	i32.const	1536
	memory.fill	0
	i64.const	1536
	local.set	10
.LBB73_1:                               # %repeat.1.i.i14
                                        # =>This Inner Loop Header: Depth=1
	loop    	                                # label242:
	local.get	8
	i32.const	3344
	i32.add 
	local.get	9
	i32.add 
	local.tee	11
	v128.const	0, 0
	local.tee	12
	v128.store	0:p2align=0
	local.get	11
	i32.const	16
	i32.add 
	local.get	12
	v128.store	0:p2align=0
	local.get	11
	i32.const	32
	i32.add 
	local.get	12
	v128.store	0:p2align=0
	local.get	11
	i32.const	48
	i32.add 
	local.get	12
	v128.store	0:p2align=0
	local.get	11
	i32.const	64
	i32.add 
	local.get	12
	v128.store	0:p2align=0
	local.get	11
	i32.const	80
	i32.add 
	local.get	12
	v128.store	0:p2align=0
	local.get	11
	i32.const	96
	i32.add 
	local.get	12
	v128.store	0:p2align=0
	local.get	11
	i32.const	112
	i32.add 
	local.get	12
	v128.store	0:p2align=0
	local.get	9
	i32.const	128
	i32.add 
	local.set	9
	local.get	10
	i64.const	-128
	i64.add 
	local.tee	10
	i64.const	0
	i64.ne  
	br_if   	0                               # 0: up to label242
# %bb.2:                                # %aes_cipher__zeroize__must_wipe__MustWipe__zeroed____5ac545ada1fa6909_.exit
	end_loop
	local.get	8
	i32.const	1808
	i32.add 
	local.get	8
	i32.const	3344
	i32.add 
	i32.const	1536
	memory.copy	0, 0
	local.get	8
	i32.const	272
	i32.add 
	local.get	8
	i32.const	1808
	i32.add 
	i32.const	1536
	memory.copy	0, 0
	local.get	8
	i32.const	28
	i32.add 
	i32.const	0
	i32.const	244
	memory.fill	0
	local.get	1
	local.get	2
	local.get	3
	local.get	8
	i32.const	28
	i32.add 
	local.get	8
	i32.const	272
	i32.add 
	call	gcm_siv__keys__derive_and_prepare____40c030eaacddd0c9_
	local.get	8
	i32.const	12
	i32.add 
	local.get	8
	i32.const	28
	i32.add 
	local.get	8
	i32.const	272
	i32.add 
	local.get	3
	local.get	4
	local.get	5
	local.get	6
	local.get	7
	call	gcm_siv__message__seal____2b34360e0e51af73_
	local.get	8
	i32.const	0
	i32.store	28
	local.get	8
	i32.const	32
	i32.add 
	call	aes_cipher__zeroize__elements__zeroize_elements____530874d131791bfe_
	local.get	8
	i32.const	272
	i32.add 
	i64.const	96
	call	aes_cipher__zeroize__elements__zeroize_elements____d3d1c9d97fea966e_
	call	aes_cipher__zeroize__stack__wipe_stack____2816_
	local.get	0
	local.get	8
	v128.load	12:p2align=0
	v128.store	0:p2align=0
	local.get	8
	i32.const	4880
	i32.add 
	global.set	__stack_pointer
                                        # fallthrough-return
	end_function
                                        # -- End function
	.section	.text.gcm_siv__message__seal____2b34360e0e51af73_,"",@
	.type	gcm_siv__message__seal____2b34360e0e51af73_,@function # -- Begin function gcm_siv__message__seal____2b34360e0e51af73_
gcm_siv__message__seal____2b34360e0e51af73_: # @gcm_siv__message__seal____2b34360e0e51af73_
	.functype	gcm_siv__message__seal____2b34360e0e51af73_ (i32, i32, i32, i32, i32, i64, i32, i64) -> ()
	.local  	i32
# %bb.0:                                # %start
	global.get	__stack_pointer
	i32.const	16
	i32.sub 
	local.tee	8
	global.set	__stack_pointer
	local.get	8
	v128.const	0, 0
	v128.store	0:p2align=3
	local.get	1
	local.get	2
	local.get	3
	local.get	4
	local.get	5
	local.get	6
	local.get	7
	local.get	8
	call	gcm_siv__message__put_tag____2b34360e0e51af73_
	local.get	1
	local.get	8
	local.get	6
	local.get	7
	call	gcm_siv__message__process_text____66aa1833bfd7fef8_
	local.get	0
	local.get	8
	v128.load	0:p2align=3
	v128.store	0:p2align=0
	local.get	8
	i32.const	16
	i32.add 
	global.set	__stack_pointer
                                        # fallthrough-return
	end_function
                                        # -- End function
	.section	.text.gcm__hash_room__hash_piece____84904cd934dcda78_,"",@
	.type	gcm__hash_room__hash_piece____84904cd934dcda78_,@function # -- Begin function gcm__hash_room__hash_piece____84904cd934dcda78_
gcm__hash_room__hash_piece____84904cd934dcda78_: # @gcm__hash_room__hash_piece____84904cd934dcda78_
	.functype	gcm__hash_room__hash_piece____84904cd934dcda78_ (i32, i32, i32, i64, i32, i64) -> ()
	.local  	i32, i64, i32, i32, i32, i64, i64, i32, i64, i64, i32, i32, v128, i32
# %bb.0:                                # %start
	global.get	__stack_pointer
	i32.const	64
	i32.sub 
	local.tee	6
	global.set	__stack_pointer
	block   	
	block   	
	local.get	5
	i64.const	16
	local.get	3
	i64.sub 
	local.tee	7
	i64.ge_u
	br_if   	0                               # 0: down to label244
# %bb.1:                                # %then.1
	block   	
	local.get	2
	local.get	3
	i32.wrap_i64
	local.tee	8
	i32.add 
	local.tee	9
	i64.extend_i32_u
	local.get	4
	i64.extend_i32_u
	i64.sub 
	local.get	5
	i64.ge_u
	br_if   	0                               # 0: down to label245
# %bb.2:                                # %join.7.i.i.i.i.i.i.preheader
	i64.const	0
	local.set	3
	block   	
	local.get	5
	i64.const	16
	i64.lt_u
	br_if   	0                               # 0: down to label246
# %bb.3:                                # %vector.memcheck207
	local.get	2
	local.get	8
	i32.add 
	local.get	4
	i32.sub 
	i32.const	16
	i32.lt_u
	br_if   	0                               # 0: down to label246
# %bb.4:                                # %vector.ph211
	local.get	4
	local.set	10
	local.get	5
	i64.const	4294967280
	i64.and 
	local.tee	3
	local.set	11
.LBB75_5:                               # %vector.body214
                                        # =>This Inner Loop Header: Depth=1
	loop    	                                # label247:
	local.get	9
	local.get	10
	v128.load	0:p2align=0
	v128.store	0:p2align=0
	local.get	9
	i32.const	16
	i32.add 
	local.set	9
	local.get	10
	i32.const	16
	i32.add 
	local.set	10
	local.get	11
	i64.const	-16
	i64.add 
	local.tee	11
	i64.const	0
	i64.ne  
	br_if   	0                               # 0: up to label247
# %bb.6:                                # %middle.block216
	end_loop
	local.get	5
	local.get	3
	i64.eq  
	br_if   	3                               # 3: down to label243
.LBB75_7:                               # %join.7.i.i.i.i.i.i.preheader219
	end_block                               # label246:
	local.get	3
	local.set	7
	block   	
	local.get	5
	i64.const	3
	i64.and 
	local.tee	11
	i64.eqz
	br_if   	0                               # 0: down to label248
# %bb.8:                                # %join.7.i.i.i.i.i.i.prol.preheader
	local.get	3
	local.get	11
	i64.add 
	local.set	7
	local.get	4
	local.get	3
	i32.wrap_i64
	local.tee	10
	i32.add 
	local.set	9
	local.get	2
	local.get	10
	local.get	8
	i32.add 
	i32.add 
	local.set	10
.LBB75_9:                               # %join.7.i.i.i.i.i.i.prol
                                        # =>This Inner Loop Header: Depth=1
	loop    	                                # label249:
	local.get	10
	local.get	9
	i32.load8_u	0
	i32.store8	0
	local.get	10
	i32.const	1
	i32.add 
	local.set	10
	local.get	9
	i32.const	1
	i32.add 
	local.set	9
	local.get	11
	i64.const	-1
	i64.add 
	local.tee	11
	i64.const	0
	i64.ne  
	br_if   	0                               # 0: up to label249
.LBB75_10:                              # %join.7.i.i.i.i.i.i.prol.loopexit
	end_loop
	end_block                               # label248:
	local.get	3
	local.get	5
	i64.sub 
	i64.const	-4
	i64.gt_u
	br_if   	2                               # 2: down to label243
# %bb.11:                               # %join.7.i.i.i.i.i.i.preheader230
	local.get	5
	local.get	7
	i64.sub 
	local.set	11
	local.get	4
	local.get	7
	i32.wrap_i64
	local.tee	10
	i32.add 
	local.set	9
	local.get	2
	local.get	10
	local.get	8
	i32.add 
	i32.add 
	local.set	10
.LBB75_12:                              # %join.7.i.i.i.i.i.i
                                        # =>This Inner Loop Header: Depth=1
	loop    	                                # label250:
	local.get	10
	local.get	9
	i32.load8_u	0
	i32.store8	0
	local.get	10
	i32.const	1
	i32.add 
	local.get	9
	i32.const	1
	i32.add 
	i32.load8_u	0
	i32.store8	0
	local.get	10
	i32.const	2
	i32.add 
	local.get	9
	i32.const	2
	i32.add 
	i32.load8_u	0
	i32.store8	0
	local.get	10
	i32.const	3
	i32.add 
	local.get	9
	i32.const	3
	i32.add 
	i32.load8_u	0
	i32.store8	0
	local.get	9
	i32.const	4
	i32.add 
	local.set	9
	local.get	10
	i32.const	4
	i32.add 
	local.set	10
	local.get	11
	i64.const	-4
	i64.add 
	local.tee	11
	i64.eqz
	i32.eqz
	br_if   	0                               # 0: up to label250
	br      	3                               # 3: down to label243
.LBB75_13:                              # %apart.2.i.i.i.i.i.i
	end_loop
	end_block                               # label245:
	local.get	5
	i32.wrap_i64
	local.tee	10
	i32.eqz
	br_if   	1                               # 1: down to label243
# %bb.14:                               # %apart.2.i.i.i.i.i.i
	local.get	9
	local.get	4
	local.get	10
	memory.copy	0, 0
	br      	1                               # 1: down to label243
.LBB75_15:                              # %join.3
	end_block                               # label244:
	local.get	5
	local.get	7
	i64.sub 
	local.set	12
	local.get	4
	local.get	7
	i32.wrap_i64
	local.tee	9
	i32.add 
	local.set	13
	local.get	1
	i64.load	8:p2align=0
	local.set	14
	local.get	1
	i64.load	0:p2align=0
	local.set	15
	block   	
	block   	
	local.get	2
	local.get	3
	i32.wrap_i64
	local.tee	16
	i32.add 
	local.tee	17
	i64.extend_i32_u
	local.get	4
	i64.extend_i32_u
	i64.sub 
	local.get	7
	i64.ge_u
	br_if   	0                               # 0: down to label252
# %bb.16:                               # %join.7.i.i.i.i.i.i69.preheader
	i64.const	0
	local.set	5
	block   	
	block   	
	local.get	3
	i64.const	0
	i64.ne  
	br_if   	0                               # 0: down to label254
# %bb.17:                               # %join.7.i.i.i.i.i.i69.preheader
	local.get	2
	local.get	4
	i32.sub 
	i32.const	15
	i32.gt_u
	br_if   	1                               # 1: down to label253
.LBB75_18:                              # %join.7.i.i.i.i.i.i69.preheader220
	end_block                               # label254:
	local.get	7
	i64.const	3
	i64.and 
	local.set	11
	block   	
	local.get	3
	i64.const	15
	i64.xor 
	i64.const	3
	i64.lt_u
	br_if   	0                               # 0: down to label255
# %bb.19:                               # %join.7.i.i.i.i.i.i69.preheader220.new
	local.get	7
	i64.const	28
	i64.and 
	local.set	3
	i64.const	0
	local.set	5
	i32.const	0
	local.set	9
.LBB75_20:                              # %join.7.i.i.i.i.i.i69
                                        # =>This Inner Loop Header: Depth=1
	loop    	                                # label256:
	local.get	17
	local.get	9
	i32.add 
	local.tee	10
	local.get	4
	local.get	9
	i32.add 
	local.tee	8
	i32.load8_u	0
	i32.store8	0
	local.get	10
	i32.const	1
	i32.add 
	local.get	8
	i32.const	1
	i32.add 
	i32.load8_u	0
	i32.store8	0
	local.get	10
	i32.const	2
	i32.add 
	local.get	8
	i32.const	2
	i32.add 
	i32.load8_u	0
	i32.store8	0
	local.get	10
	i32.const	3
	i32.add 
	local.get	8
	i32.const	3
	i32.add 
	i32.load8_u	0
	i32.store8	0
	local.get	9
	i32.const	4
	i32.add 
	local.set	9
	local.get	3
	local.get	5
	i64.const	4
	i64.add 
	local.tee	5
	i64.ne  
	br_if   	0                               # 0: up to label256
# %bb.21:                               # %core__slice__edits__slice_T__copy_from_slice___i8_20_core__clone__U8Clone___.exit76.loopexit.unr-lcssa
	end_loop
	local.get	11
	i64.eqz
	br_if   	3                               # 3: down to label251
.LBB75_22:                              # %join.7.i.i.i.i.i.i69.epil.preheader
	end_block                               # label255:
	local.get	4
	local.get	5
	i32.wrap_i64
	local.tee	10
	i32.add 
	local.set	9
	local.get	2
	local.get	10
	local.get	16
	i32.add 
	i32.add 
	local.set	10
.LBB75_23:                              # %join.7.i.i.i.i.i.i69.epil
                                        # =>This Inner Loop Header: Depth=1
	loop    	                                # label257:
	local.get	10
	local.get	9
	i32.load8_u	0
	i32.store8	0
	local.get	10
	i32.const	1
	i32.add 
	local.set	10
	local.get	9
	i32.const	1
	i32.add 
	local.set	9
	local.get	11
	i64.const	-1
	i64.add 
	local.tee	11
	i64.const	0
	i64.ne  
	br_if   	0                               # 0: up to label257
	br      	3                               # 3: down to label251
.LBB75_24:                              # %vector.body
	end_loop
	end_block                               # label253:
	local.get	17
	local.get	4
	v128.load	0:p2align=0
	v128.store	0:p2align=0
	br      	1                               # 1: down to label251
.LBB75_25:                              # %apart.2.i.i.i.i.i.i67
	end_block                               # label252:
	local.get	9
	i32.eqz
	br_if   	0                               # 0: down to label251
# %bb.26:                               # %apart.2.i.i.i.i.i.i67
	local.get	17
	local.get	4
	local.get	9
	memory.copy	0, 0
.LBB75_27:                              # %core__slice__edits__slice_T__copy_from_slice___i8_20_core__clone__U8Clone___.exit76
	end_block                               # label251:
	local.get	2
	i64.load	8:p2align=0
	local.set	11
	local.get	2
	i64.load	0:p2align=0
	local.set	5
	local.get	0
	i32.load	0
	local.set	9
	local.get	6
	v128.const	0, 0
	v128.store	48
	local.get	6
	i32.const	0
	i32.store	44
	local.get	6
	local.get	9
	i32.store	40
	local.get	6
	local.get	11
	local.get	14
	i64.xor 
	local.tee	11
	i64.const	56
	i64.shl 
	local.get	11
	i64.const	65280
	i64.and 
	i64.const	40
	i64.shl 
	i64.or  
	local.get	11
	i64.const	16711680
	i64.and 
	i64.const	24
	i64.shl 
	local.get	11
	i64.const	4278190080
	i64.and 
	i64.const	8
	i64.shl 
	i64.or  
	i64.or  
	local.get	11
	i64.const	8
	i64.shr_u
	i64.const	4278190080
	i64.and 
	local.get	11
	i64.const	24
	i64.shr_u
	i64.const	16711680
	i64.and 
	i64.or  
	local.get	11
	i64.const	40
	i64.shr_u
	i64.const	65280
	i64.and 
	local.get	11
	i64.const	56
	i64.shr_u
	i64.or  
	i64.or  
	i64.or  
	i64x2.splat
	local.get	5
	local.get	15
	i64.xor 
	local.tee	11
	i64.const	56
	i64.shl 
	local.get	11
	i64.const	65280
	i64.and 
	i64.const	40
	i64.shl 
	i64.or  
	local.get	11
	i64.const	16711680
	i64.and 
	i64.const	24
	i64.shl 
	local.get	11
	i64.const	4278190080
	i64.and 
	i64.const	8
	i64.shl 
	i64.or  
	i64.or  
	local.get	11
	i64.const	8
	i64.shr_u
	i64.const	4278190080
	i64.and 
	local.get	11
	i64.const	24
	i64.shr_u
	i64.const	16711680
	i64.and 
	i64.or  
	local.get	11
	i64.const	40
	i64.shr_u
	i64.const	65280
	i64.and 
	local.get	11
	i64.const	56
	i64.shr_u
	i64.or  
	i64.or  
	i64.or  
	i64x2.replace_lane	1
	local.get	18
	i8x16.shuffle	15, 14, 13, 12, 11, 10, 9, 8, 7, 6, 5, 4, 3, 2, 1, 0
	v128.store	16
	local.get	6
	i32.const	48
	i32.add 
	local.get	6
	i32.const	40
	i32.add 
	local.get	6
	i32.const	16
	i32.add 
	call	gcm__multiples__Multiples__block_product
	local.get	6
	i64.load	48
	local.tee	11
	i64.const	56
	i64.shl 
	local.get	11
	i64.const	65280
	i64.and 
	i64.const	40
	i64.shl 
	i64.or  
	local.get	11
	i64.const	16711680
	i64.and 
	i64.const	24
	i64.shl 
	local.get	11
	i64.const	4278190080
	i64.and 
	i64.const	8
	i64.shl 
	i64.or  
	i64.or  
	local.get	11
	i64.const	8
	i64.shr_u
	i64.const	4278190080
	i64.and 
	local.get	11
	i64.const	24
	i64.shr_u
	i64.const	16711680
	i64.and 
	i64.or  
	local.get	11
	i64.const	40
	i64.shr_u
	i64.const	65280
	i64.and 
	local.get	11
	i64.const	56
	i64.shr_u
	i64.or  
	i64.or  
	i64.or  
	local.set	7
	local.get	6
	i64.load	56
	local.tee	11
	i64.const	56
	i64.shl 
	local.get	11
	i64.const	65280
	i64.and 
	i64.const	40
	i64.shl 
	i64.or  
	local.get	11
	i64.const	16711680
	i64.and 
	i64.const	24
	i64.shl 
	local.get	11
	i64.const	4278190080
	i64.and 
	i64.const	8
	i64.shl 
	i64.or  
	i64.or  
	local.get	11
	i64.const	8
	i64.shr_u
	i64.const	4278190080
	i64.and 
	local.get	11
	i64.const	24
	i64.shr_u
	i64.const	16711680
	i64.and 
	i64.or  
	local.get	11
	i64.const	40
	i64.shr_u
	i64.const	65280
	i64.and 
	local.get	11
	i64.const	56
	i64.shr_u
	i64.or  
	i64.or  
	i64.or  
	local.set	14
	block   	
	block   	
	local.get	2
	i64.extend_i32_u
	local.get	13
	local.get	12
	i64.const	4294967280
	i64.and 
	local.tee	15
	i32.wrap_i64
	local.tee	19
	i32.add 
	local.tee	9
	i64.extend_i32_u
	i64.sub 
	local.get	12
	i64.const	15
	i64.and 
	local.tee	3
	i64.ge_u
	br_if   	0                               # 0: down to label259
# %bb.28:                               # %join.7.i.i.i.i.i.i98.preheader
	local.get	12
	i64.const	3
	i64.and 
	local.set	11
	i64.const	0
	local.set	5
	block   	
	local.get	3
	i64.const	4
	i64.lt_u
	br_if   	0                               # 0: down to label260
# %bb.29:                               # %join.7.i.i.i.i.i.i98.preheader.new
	local.get	12
	i64.const	12
	i64.and 
	local.set	3
	local.get	4
	local.get	19
	local.get	16
	i32.sub 
	i32.add 
	local.set	17
	i64.const	0
	local.set	5
	i32.const	0
	local.set	9
.LBB75_30:                              # %join.7.i.i.i.i.i.i98
                                        # =>This Inner Loop Header: Depth=1
	loop    	                                # label261:
	local.get	2
	local.get	9
	i32.add 
	local.tee	10
	local.get	17
	local.get	9
	i32.add 
	local.tee	8
	i32.const	16
	i32.add 
	i32.load8_u	0
	i32.store8	0
	local.get	10
	i32.const	1
	i32.add 
	local.get	8
	i32.const	17
	i32.add 
	i32.load8_u	0
	i32.store8	0
	local.get	10
	i32.const	2
	i32.add 
	local.get	8
	i32.const	18
	i32.add 
	i32.load8_u	0
	i32.store8	0
	local.get	10
	i32.const	3
	i32.add 
	local.get	8
	i32.const	19
	i32.add 
	i32.load8_u	0
	i32.store8	0
	local.get	9
	i32.const	4
	i32.add 
	local.set	9
	local.get	3
	local.get	5
	i64.const	4
	i64.add 
	local.tee	5
	i64.ne  
	br_if   	0                               # 0: up to label261
# %bb.31:                               # %core__slice__edits__slice_T__copy_from_slice___i8_20_core__clone__U8Clone___.exit105.loopexit.unr-lcssa
	end_loop
	local.get	11
	i64.eqz
	br_if   	2                               # 2: down to label258
.LBB75_32:                              # %join.7.i.i.i.i.i.i98.epil.preheader
	end_block                               # label260:
	local.get	2
	local.get	5
	i32.wrap_i64
	local.tee	10
	i32.add 
	local.set	9
	local.get	19
	local.get	10
	i32.add 
	local.get	16
	i32.sub 
	local.get	4
	i32.add 
	i32.const	16
	i32.add 
	local.set	10
.LBB75_33:                              # %join.7.i.i.i.i.i.i98.epil
                                        # =>This Inner Loop Header: Depth=1
	loop    	                                # label262:
	local.get	9
	local.get	10
	i32.load8_u	0
	i32.store8	0
	local.get	9
	i32.const	1
	i32.add 
	local.set	9
	local.get	10
	i32.const	1
	i32.add 
	local.set	10
	local.get	11
	i64.const	-1
	i64.add 
	local.tee	11
	i64.const	0
	i64.ne  
	br_if   	0                               # 0: up to label262
	br      	2                               # 2: down to label258
.LBB75_34:                              # %apart.2.i.i.i.i.i.i96
	end_loop
	end_block                               # label259:
	local.get	3
	i32.wrap_i64
	local.tee	10
	i32.eqz
	br_if   	0                               # 0: down to label258
# %bb.35:                               # %apart.2.i.i.i.i.i.i96
	local.get	2
	local.get	9
	local.get	10
	memory.copy	0, 0
.LBB75_36:                              # %core__slice__edits__slice_T__copy_from_slice___i8_20_core__clone__U8Clone___.exit105
	end_block                               # label258:
	local.get	6
	local.get	0
	i32.load	0
	local.get	14
	local.get	7
	local.get	13
	local.get	15
	call	gcm__hash_room__MultiplesRoomHashRoom__hash_on
	local.get	1
	local.get	6
	v128.load	0
	local.get	18
	i8x16.shuffle	15, 14, 13, 12, 11, 10, 9, 8, 7, 6, 5, 4, 3, 2, 1, 0
	v128.store	0:p2align=0
.LBB75_37:                              # %common.ret
	end_block                               # label243:
	local.get	6
	i32.const	64
	i32.add 
	global.set	__stack_pointer
                                        # fallthrough-return
	end_function
                                        # -- End function
	.section	.text.gcm__mode__BorrowedGcm__enter_phase____c13ce517942629d6_,"",@
	.type	gcm__mode__BorrowedGcm__enter_phase____c13ce517942629d6_,@function # -- Begin function gcm__mode__BorrowedGcm__enter_phase____c13ce517942629d6_
gcm__mode__BorrowedGcm__enter_phase____c13ce517942629d6_: # @gcm__mode__BorrowedGcm__enter_phase____c13ce517942629d6_
	.functype	gcm__mode__BorrowedGcm__enter_phase____c13ce517942629d6_ (i32, i32, i32, i32, i64) -> ()
	.local  	i32, i32, i32, i64, i32, v128
# %bb.0:                                # %start
	global.get	__stack_pointer
	i32.const	16
	i32.sub 
	local.tee	5
	global.set	__stack_pointer
	i32.const	0
	local.set	6
	i32.const	1
	local.set	7
	block   	
	block   	
	local.get	2
	i32.const	24
	i32.add 
	i64.load	0
	local.tee	8
	i32.wrap_i64
	i32.const	0
	local.get	8
	i64.const	5
	i64.lt_u
	i32.select
	i32.const	255
	i32.and 
	local.tee	9
	i32.const	1
	i32.eq  
	br_if   	0                               # 0: down to label264
# %bb.1:                                # %start
	local.get	9
	local.get	3
	i32.const	255
	i32.and 
	i32.ne  
	br_if   	1                               # 1: down to label263
.LBB76_2:                               # %join.3
	end_block                               # label264:
	i64.const	-1
	local.get	4
	local.get	2
	i32.const	8
	i32.add 
	i64.load	0
	i64.add 
	local.tee	8
	local.get	8
	local.get	4
	i64.lt_u
	i64.select
	local.tee	4
	i64.const	68719476704
	i64.gt_u
	local.set	6
	block   	
	local.get	9
	i32.const	1
	i32.eq  
	br_if   	0                               # 0: down to label265
# %bb.3:
	local.get	6
	local.set	7
	br      	1                               # 1: down to label263
.LBB76_4:                               # %join.3
	end_block                               # label265:
	local.get	6
	local.set	7
	local.get	4
	i64.const	68719476704
	i64.gt_u
	br_if   	0                               # 0: down to label263
# %bb.5:                                # %then.8
	local.get	5
	local.get	1
	local.get	2
	call	gcm__mode__BorrowedGcm__hash_so_far____c13ce517942629d6_
	local.get	5
	v128.load	0
	local.set	10
	local.get	2
	i32.const	24
	i32.add 
	local.get	3
	i64.extend_i32_u
	i64.const	255
	i64.and 
	i64.store	0
	local.get	2
	i32.const	48
	i32.add 
	local.get	10
	local.get	10
	i8x16.shuffle	15, 14, 13, 12, 11, 10, 9, 8, 7, 6, 5, 4, 3, 2, 1, 0
	v128.store	0:p2align=0
	i32.const	0
	local.set	6
	i32.const	0
	local.set	7
.LBB76_6:                               # %return.4
	end_block                               # label263:
	local.get	0
	local.get	6
	i32.store8	1
	local.get	0
	local.get	7
	i32.store8	0
	local.get	5
	i32.const	16
	i32.add 
	global.set	__stack_pointer
                                        # fallthrough-return
	end_function
                                        # -- End function
	.section	.text.gcm__mode__BorrowedGcm__is_tag_so_far____c13ce517942629d6_,"",@
	.type	gcm__mode__BorrowedGcm__is_tag_so_far____c13ce517942629d6_,@function # -- Begin function gcm__mode__BorrowedGcm__is_tag_so_far____c13ce517942629d6_
gcm__mode__BorrowedGcm__is_tag_so_far____c13ce517942629d6_: # @gcm__mode__BorrowedGcm__is_tag_so_far____c13ce517942629d6_
	.functype	gcm__mode__BorrowedGcm__is_tag_so_far____c13ce517942629d6_ (i32, i32, i32) -> (i32)
	.local  	i32
# %bb.0:                                # %start
	global.get	__stack_pointer
	i32.const	16
	i32.sub 
	local.tee	3
	global.set	__stack_pointer
	local.get	0
	local.get	1
	local.get	3
	call	gcm__mode__BorrowedGcm__put_tag_so_far____c13ce517942629d6_
	local.get	2
	local.get	3
	call	aes_cipher__blocks__difference
	local.set	1
	local.get	3
	call	aes_cipher__zeroize__elements__zeroize_elements____3b2097f0eef5a37b_
	local.get	3
	i32.const	16
	i32.add 
	global.set	__stack_pointer
	local.get	1
	i32.eqz
                                        # fallthrough-return
	end_function
                                        # -- End function
	.section	.text.gcm__mode__BorrowedGcm__is_short_tag_so_far____c13ce517942629d6_,"",@
	.type	gcm__mode__BorrowedGcm__is_short_tag_so_far____c13ce517942629d6_,@function # -- Begin function gcm__mode__BorrowedGcm__is_short_tag_so_far____c13ce517942629d6_
gcm__mode__BorrowedGcm__is_short_tag_so_far____c13ce517942629d6_: # @gcm__mode__BorrowedGcm__is_short_tag_so_far____c13ce517942629d6_
	.functype	gcm__mode__BorrowedGcm__is_short_tag_so_far____c13ce517942629d6_ (i32, i32, i32, i64) -> (i32)
	.local  	i32
# %bb.0:                                # %start
	global.get	__stack_pointer
	i32.const	32
	i32.sub 
	local.tee	4
	global.set	__stack_pointer
	local.get	0
	local.get	1
	local.get	4
	i32.const	16
	i32.add 
	call	gcm__mode__BorrowedGcm__put_tag_so_far____c13ce517942629d6_
	local.get	4
	local.get	4
	v128.load	16:p2align=0
	v128.store	0:p2align=3
	block   	
	local.get	3
	i32.wrap_i64
	local.tee	1
	i32.eqz
	br_if   	0                               # 0: down to label266
# %bb.1:                                # %start
	local.get	4
	local.get	2
	local.get	1
	memory.copy	0, 0
.LBB78_2:                               # %start
	end_block                               # label266:
	local.get	4
	local.get	4
	i32.const	16
	i32.add 
	call	aes_cipher__blocks__difference
	local.set	1
	local.get	4
	i32.const	16
	i32.add 
	call	aes_cipher__zeroize__elements__zeroize_elements____3b2097f0eef5a37b_
	local.get	4
	call	aes_cipher__zeroize__elements__zeroize_elements____3b2097f0eef5a37b_
	local.get	4
	i32.const	32
	i32.add 
	global.set	__stack_pointer
	local.get	1
	i32.eqz
                                        # fallthrough-return
	end_function
                                        # -- End function
	.section	.text.fotsgure_gcm_version,"",@
	.globl	fotsgure_gcm_version            # -- Begin function fotsgure_gcm_version
	.type	fotsgure_gcm_version,@function
fotsgure_gcm_version:                   # @fotsgure_gcm_version
	.functype	fotsgure_gcm_version () -> (i32)
# %bb.0:
	i32.const	400
                                        # fallthrough-return
	end_function
                                        # -- End function
	.section	.text.fotsgure_gcm_set_key,"",@
	.globl	fotsgure_gcm_set_key            # -- Begin function fotsgure_gcm_set_key
	.type	fotsgure_gcm_set_key,@function
fotsgure_gcm_set_key:                   # @fotsgure_gcm_set_key
	.functype	fotsgure_gcm_set_key (i32, i32, i32) -> (i32)
	.local  	i64, i32
# %bb.0:
	local.get	2
	i64.extend_i32_u
	local.set	3
	block   	
	local.get	2
	i32.const	32
	i32.eq  
	br_if   	0                               # 0: down to label267
# %bb.1:
	local.get	3
	i64.const	4294967287
	i64.and 
	i64.const	16
	i64.eq  
	br_if   	0                               # 0: down to label267
# %bb.2:                                # %then.1.i.i
	local.get	0
	i32.const	0
	i32.const	1780
	memory.fill	0
	i32.const	1
	return
.LBB80_3:                               # %join.3.i.i
	end_block                               # label267:
	local.get	0
	i32.const	4
	i32.add 
	local.tee	4
	i32.const	0
	i32.const	240
	memory.fill	0
	local.get	4
	local.get	1
	i32.const	0
	i32.const	4096
	local.get	1
	i32.select
	i32.add 
	local.get	3
	call	aes_permute__lane_keys__expand_lanes
	local.get	0
	local.get	2
	i32.store	0
	local.get	0
	call	gcm_c__kept__prepare_multiples
	i32.const	0
                                        # fallthrough-return
	end_function
                                        # -- End function
	.section	.text.fotsgure_gcm_set_key_of,"",@
	.globl	fotsgure_gcm_set_key_of         # -- Begin function fotsgure_gcm_set_key_of
	.type	fotsgure_gcm_set_key_of,@function
fotsgure_gcm_set_key_of:                # @fotsgure_gcm_set_key_of
	.functype	fotsgure_gcm_set_key_of (i32, i32) -> (i32)
	.local  	i32, i32
# %bb.0:
	block   	
	block   	
	local.get	1
	i32.load	0
	local.tee	2
	i32.const	-16
	i32.add 
	local.tee	3
	i32.const	16
	i32.gt_u
	br_if   	0                               # 0: down to label269
# %bb.1:
	i32.const	1
	local.get	3
	i32.shl 
	i32.const	65793
	i32.and 
	br_if   	1                               # 1: down to label268
.LBB81_2:                               # %then.1.i.i
	end_block                               # label269:
	local.get	0
	call	gcm_c__kept__fotsgure_gcm_wipe
	i32.const	2
	return
.LBB81_3:                               # %join.3.i.i
	end_block                               # label268:
	local.get	0
	local.get	2
	i32.store	0
	local.get	0
	i32.const	4
	i32.add 
	local.get	1
	i32.const	4
	i32.add 
	i32.const	240
	memory.copy	0, 0
	local.get	0
	call	gcm_c__kept__prepare_multiples
	i32.const	0
                                        # fallthrough-return
	end_function
                                        # -- End function
	.section	.text.fotsgure_gcm_key_length,"",@
	.globl	fotsgure_gcm_key_length         # -- Begin function fotsgure_gcm_key_length
	.type	fotsgure_gcm_key_length,@function
fotsgure_gcm_key_length:                # @fotsgure_gcm_key_length
	.functype	fotsgure_gcm_key_length (i32) -> (i32)
# %bb.0:
	local.get	0
	i32.load	0
	local.tee	0
	local.get	0
	i32.const	0
	local.get	0
	i32.const	-9
	i32.and 
	i32.const	16
	i32.eq  
	i32.select
	local.get	0
	i32.const	32
	i32.eq  
	i32.select
                                        # fallthrough-return
	end_function
                                        # -- End function
	.section	.text.fotsgure_gcm_wipe,"",@
	.globl	fotsgure_gcm_wipe               # -- Begin function fotsgure_gcm_wipe
	.type	fotsgure_gcm_wipe,@function
fotsgure_gcm_wipe:                      # @fotsgure_gcm_wipe
	.functype	fotsgure_gcm_wipe (i32) -> ()
# %bb.0:
	local.get	0
	call	gcm_c__kept__fotsgure_gcm_wipe
                                        # fallthrough-return
	end_function
                                        # -- End function
	.section	.text.fotsgure_gcm_seal,"",@
	.globl	fotsgure_gcm_seal               # -- Begin function fotsgure_gcm_seal
	.type	fotsgure_gcm_seal,@function
fotsgure_gcm_seal:                      # @fotsgure_gcm_seal
	.functype	fotsgure_gcm_seal (i32, i32, i32, i32, i32, i32, i32, i32) -> (i32)
# %bb.0:
	local.get	0
	local.get	1
	i32.const	0
	i32.const	4096
	local.get	1
	i32.select
	i32.add 
	local.get	2
	i64.extend_i32_u
	local.get	3
	i32.const	0
	i32.const	4096
	local.get	3
	i32.select
	i32.add 
	local.get	4
	i64.extend_i32_u
	local.get	5
	i32.const	0
	i32.const	4096
	local.get	5
	i32.select
	i32.add 
	local.get	6
	i64.extend_i32_u
	local.get	7
	call	gcm_c__whole__fotsgure_gcm_seal
                                        # fallthrough-return
	end_function
                                        # -- End function
	.section	.text.fotsgure_gcm_seal_to,"",@
	.globl	fotsgure_gcm_seal_to            # -- Begin function fotsgure_gcm_seal_to
	.type	fotsgure_gcm_seal_to,@function
fotsgure_gcm_seal_to:                   # @fotsgure_gcm_seal_to
	.functype	fotsgure_gcm_seal_to (i32, i32, i32, i32, i32, i32, i32, i32, i32, i32) -> (i32)
	.local  	i32, i64
# %bb.0:
	block   	
	local.get	6
	local.get	8
	i32.eq  
	br_if   	0                               # 0: down to label270
# %bb.1:
	i32.const	10
	return
.LBB85_2:                               # %join.3.i.i
	end_block                               # label270:
	block   	
	local.get	2
	br_if   	0                               # 0: down to label271
# %bb.3:
	i32.const	3
	return
.LBB85_4:                               # %after.11.i.i.i
	end_block                               # label271:
	i32.const	2
	local.set	8
	block   	
	local.get	0
	i32.load	0
	i32.const	-16
	i32.add 
	local.tee	10
	i32.const	16
	i32.gt_u
	br_if   	0                               # 0: down to label272
# %bb.5:                                # %after.11.i.i.i
	i32.const	1
	local.get	10
	i32.shl 
	i32.const	65793
	i32.and 
	i32.eqz
	br_if   	0                               # 0: down to label272
# %bb.6:                                # %join.6.i.i
	local.get	5
	i32.const	0
	i32.const	4096
	local.get	5
	i32.select
	i32.add 
	local.get	6
	i64.extend_i32_u
	local.tee	11
	local.get	7
	i32.const	0
	i32.const	4096
	local.get	7
	i32.select
	i32.add 
	local.tee	6
	call	gcm_c__whole_to__copy
	local.get	0
	local.get	1
	i32.const	0
	i32.const	4096
	local.get	1
	i32.select
	i32.add 
	local.get	2
	i64.extend_i32_u
	local.get	3
	i32.const	0
	i32.const	4096
	local.get	3
	i32.select
	i32.add 
	local.get	4
	i64.extend_i32_u
	local.get	6
	local.get	11
	local.get	9
	call	gcm_c__whole__fotsgure_gcm_seal
	local.set	8
.LBB85_7:                               # %wide_fotsgure_gcm_seal_to.exit
	end_block                               # label272:
	local.get	8
                                        # fallthrough-return
	end_function
                                        # -- End function
	.section	.text.fotsgure_gcm_seal_next,"",@
	.globl	fotsgure_gcm_seal_next          # -- Begin function fotsgure_gcm_seal_next
	.type	fotsgure_gcm_seal_next,@function
fotsgure_gcm_seal_next:                 # @fotsgure_gcm_seal_next
	.functype	fotsgure_gcm_seal_next (i32, i32, i32, i32, i32, i32, i32, i32) -> (i32)
	.local  	i64, i64
# %bb.0:
	block   	
	local.get	1
	i32.const	4
	i32.add 
	i64.load	0:p2align=0
	i64.const	-1
	i64.ne  
	br_if   	0                               # 0: down to label273
# %bb.1:                                # %gcm__counter__Counter__is_over.exit.i.i
	local.get	1
	i32.load	0:p2align=0
	i32.const	-1
	i32.ne  
	br_if   	0                               # 0: down to label273
# %bb.2:
	i32.const	7
	return
.LBB86_3:                               # %join.3.i.i
	end_block                               # label273:
	block   	
	local.get	0
	local.get	1
	i64.const	12
	local.get	3
	i32.const	0
	i32.const	4096
	local.get	3
	i32.select
	i32.add 
	local.get	4
	i64.extend_i32_u
	local.get	5
	i32.const	0
	i32.const	4096
	local.get	5
	i32.select
	i32.add 
	local.get	6
	i64.extend_i32_u
	local.get	7
	call	gcm_c__whole__fotsgure_gcm_seal
	local.tee	5
	br_if   	0                               # 0: down to label274
# %bb.4:                                # %then.4.i.i
	local.get	1
	i32.load	0:p2align=0
	local.tee	5
	i32.const	16711935
	i32.and 
	i32.const	8
	i32.rotr
	local.get	5
	i32.const	24
	i32.rotr
	i32.const	16711935
	i32.and 
	i32.or  
	local.set	3
	block   	
	block   	
	block   	
	local.get	1
	i32.const	4
	i32.add 
	i64.load	0:p2align=0
	local.tee	8
	i64.const	-1
	i64.eq  
	br_if   	0                               # 0: down to label277
# %bb.5:                                # %gcm__counter__nonce_after.exit.thread.i.i.i
	local.get	8
	i64.const	56
	i64.shl 
	local.get	8
	i64.const	65280
	i64.and 
	i64.const	40
	i64.shl 
	i64.or  
	local.get	8
	i64.const	16711680
	i64.and 
	i64.const	24
	i64.shl 
	local.get	8
	i64.const	4278190080
	i64.and 
	i64.const	8
	i64.shl 
	i64.or  
	i64.or  
	local.get	8
	i64.const	8
	i64.shr_u
	i64.const	4278190080
	i64.and 
	local.get	8
	i64.const	24
	i64.shr_u
	i64.const	16711680
	i64.and 
	i64.or  
	local.get	8
	i64.const	40
	i64.shr_u
	i64.const	65280
	i64.and 
	local.get	8
	i64.const	56
	i64.shr_u
	i64.or  
	i64.or  
	i64.or  
	i64.const	1
	i64.add 
	local.tee	9
	i64.const	56
	i64.shl 
	local.get	9
	i64.const	65280
	i64.and 
	i64.const	40
	i64.shl 
	i64.or  
	local.get	9
	i64.const	16711680
	i64.and 
	i64.const	24
	i64.shl 
	local.get	9
	i64.const	4278190080
	i64.and 
	i64.const	8
	i64.shl 
	i64.or  
	i64.or  
	local.get	9
	i64.const	8
	i64.shr_u
	i64.const	4278190080
	i64.and 
	local.get	9
	i64.const	24
	i64.shr_u
	i64.const	16711680
	i64.and 
	i64.or  
	local.get	9
	i64.const	40
	i64.shr_u
	i64.const	65280
	i64.and 
	local.get	9
	i64.const	56
	i64.shr_u
	i64.or  
	i64.or  
	i64.or  
	local.set	9
	br      	1                               # 1: down to label276
.LBB86_6:                               # %gcm__counter__nonce_after.exit.i.i.i
	end_block                               # label277:
	local.get	5
	i32.const	-1
	i32.eq  
	br_if   	1                               # 1: down to label275
# %bb.7:
	local.get	3
	i32.const	1
	i32.add 
	local.set	3
	i64.const	0
	local.set	9
.LBB86_8:                               # %arm.1.i.i.i
	end_block                               # label276:
	local.get	1
	i32.const	4
	i32.add 
	local.get	9
	i64.store	0:p2align=0
	local.get	1
	local.get	3
	i32.const	16711935
	i32.and 
	i32.const	8
	i32.rotr
	local.get	3
	i32.const	24
	i32.rotr
	i32.const	16711935
	i32.and 
	i32.or  
	i32.store	0:p2align=0
.LBB86_9:                               # %gcm__counter__Counter__take.exit.i.i
	end_block                               # label275:
	local.get	2
	local.get	8
	i64.store	4:p2align=0
	local.get	2
	local.get	5
	i32.store	0:p2align=0
	i32.const	0
	local.set	5
.LBB86_10:                              # %wide_fotsgure_gcm_seal_next.exit
	end_block                               # label274:
	local.get	5
                                        # fallthrough-return
	end_function
                                        # -- End function
	.section	.text.fotsgure_gcm_open,"",@
	.globl	fotsgure_gcm_open               # -- Begin function fotsgure_gcm_open
	.type	fotsgure_gcm_open,@function
fotsgure_gcm_open:                      # @fotsgure_gcm_open
	.functype	fotsgure_gcm_open (i32, i32, i32, i32, i32, i32, i32, i32, i32) -> (i32)
	.local  	i32, i32, i32, i64
# %bb.0:
	global.get	__stack_pointer
	i32.const	80
	i32.sub 
	local.tee	9
	global.set	__stack_pointer
	block   	
	block   	
	local.get	8
	i32.const	16
	i32.eq  
	br_if   	0                               # 0: down to label279
# %bb.1:
	i32.const	4
	local.set	8
	br      	1                               # 1: down to label278
.LBB87_2:                               # %join.3.i.i
	end_block                               # label279:
	block   	
	local.get	2
	br_if   	0                               # 0: down to label280
# %bb.3:
	i32.const	3
	local.set	8
	br      	1                               # 1: down to label278
.LBB87_4:                               # %after.11.i.i.i
	end_block                               # label280:
	i32.const	2
	local.set	8
	local.get	0
	i32.load	0
	local.tee	10
	i32.const	-16
	i32.add 
	local.tee	11
	i32.const	16
	i32.gt_u
	br_if   	0                               # 0: down to label278
# %bb.5:                                # %after.11.i.i.i
	i32.const	1
	local.get	11
	i32.shl 
	i32.const	65793
	i32.and 
	i32.eqz
	br_if   	0                               # 0: down to label278
# %bb.6:                                # %join.6.i.i
	i32.const	0
	local.set	8
	local.get	9
	i32.const	0
	i32.store	44
	local.get	9
	i32.const	0
	i32.store	28
	local.get	9
	i32.const	0
	i32.store	12
	local.get	9
	local.get	7
	i32.const	0
	i32.const	4096
	local.get	7
	i32.select
	i32.add 
	v128.load	0:p2align=0
	v128.store	48:p2align=3
	local.get	9
	local.get	0
	i32.const	244
	i32.add 
	i32.store	40
	local.get	9
	local.get	0
	i32.const	4
	i32.add 
	local.tee	0
	i32.store	24
	local.get	9
	local.get	0
	i32.store	8
	local.get	9
	local.get	10
	i32.const	2
	i32.shr_u
	i32.const	7
	i32.add 
	i64.extend_i32_u
	local.tee	12
	i64.store	32
	local.get	9
	local.get	12
	i64.store	16
	local.get	9
	v128.const	0, 0
	v128.store	64:p2align=3
	block   	
	local.get	9
	i32.const	8
	i32.add 
	local.get	1
	i32.const	0
	i32.const	4096
	local.get	1
	i32.select
	i32.add 
	local.get	2
	i64.extend_i32_u
	local.get	3
	i32.const	0
	i32.const	4096
	local.get	3
	i32.select
	i32.add 
	local.get	4
	i64.extend_i32_u
	local.get	5
	i32.const	0
	i32.const	4096
	local.get	5
	i32.select
	i32.add 
	local.tee	0
	local.get	6
	i64.extend_i32_u
	local.tee	12
	local.get	9
	i32.const	48
	i32.add 
	local.get	9
	i32.const	64
	i32.add 
	call	gcm__mode__BorrowedGcm__compare____c13ce517942629d6_
	i32.const	255
	i32.and 
	br_if   	0                               # 0: down to label281
# %bb.7:                                # %then.1.i.i.i
	local.get	9
	i32.const	8
	i32.add 
	local.get	9
	i32.const	64
	i32.add 
	i64.const	16
	local.get	0
	local.get	12
	call	gcm__gctr__add_gctr____ed3b81e0963a9ab3_
	local.get	9
	i32.const	64
	i32.add 
	call	aes_cipher__zeroize__elements__zeroize_elements____3b2097f0eef5a37b_
	call	aes_cipher__zeroize__stack__wipe_stack____1536_
	br      	1                               # 1: down to label278
.LBB87_8:                               # %arm.8.critedge.i.i
	end_block                               # label281:
	local.get	9
	i32.const	64
	i32.add 
	call	aes_cipher__zeroize__elements__zeroize_elements____3b2097f0eef5a37b_
	call	aes_cipher__zeroize__stack__wipe_stack____1536_
	i32.const	6
	local.set	8
.LBB87_9:                               # %wide_fotsgure_gcm_open.exit
	end_block                               # label278:
	local.get	9
	i32.const	80
	i32.add 
	global.set	__stack_pointer
	local.get	8
                                        # fallthrough-return
	end_function
                                        # -- End function
	.section	.text.fotsgure_gcm_open_to,"",@
	.globl	fotsgure_gcm_open_to            # -- Begin function fotsgure_gcm_open_to
	.type	fotsgure_gcm_open_to,@function
fotsgure_gcm_open_to:                   # @fotsgure_gcm_open_to
	.functype	fotsgure_gcm_open_to (i32, i32, i32, i32, i32, i32, i32, i32, i32, i32, i32) -> (i32)
	.local  	i32, i32, i32, i64, i64, i64, i64
# %bb.0:
	global.get	__stack_pointer
	i32.const	80
	i32.sub 
	local.tee	11
	global.set	__stack_pointer
	block   	
	block   	
	local.get	6
	local.get	8
	i32.eq  
	br_if   	0                               # 0: down to label283
# %bb.1:
	i32.const	10
	local.set	8
	br      	1                               # 1: down to label282
.LBB88_2:                               # %join.3.i.i
	end_block                               # label283:
	block   	
	local.get	10
	i32.const	16
	i32.eq  
	br_if   	0                               # 0: down to label284
# %bb.3:
	i32.const	4
	local.set	8
	br      	1                               # 1: down to label282
.LBB88_4:                               # %join.6.i.i
	end_block                               # label284:
	block   	
	local.get	2
	br_if   	0                               # 0: down to label285
# %bb.5:
	i32.const	3
	local.set	8
	br      	1                               # 1: down to label282
.LBB88_6:                               # %after.11.i.i.i
	end_block                               # label285:
	i32.const	2
	local.set	8
	local.get	0
	i32.load	0
	local.tee	12
	i32.const	-16
	i32.add 
	local.tee	10
	i32.const	16
	i32.gt_u
	br_if   	0                               # 0: down to label282
# %bb.7:                                # %after.11.i.i.i
	i32.const	1
	local.get	10
	i32.shl 
	i32.const	65793
	i32.and 
	i32.eqz
	br_if   	0                               # 0: down to label282
# %bb.8:                                # %join.9.i.i
	local.get	7
	i32.const	0
	i32.const	4096
	local.get	7
	i32.select
	local.tee	13
	i32.add 
	local.set	10
	local.get	11
	i32.const	0
	i32.store	44
	local.get	11
	i32.const	0
	i32.store	28
	local.get	11
	i32.const	0
	i32.store	12
	local.get	11
	local.get	9
	i32.const	0
	i32.const	4096
	local.get	9
	i32.select
	i32.add 
	v128.load	0:p2align=0
	v128.store	48:p2align=3
	local.get	11
	local.get	0
	i32.const	244
	i32.add 
	i32.store	40
	local.get	11
	local.get	0
	i32.const	4
	i32.add 
	local.tee	8
	i32.store	24
	local.get	11
	local.get	8
	i32.store	8
	local.get	11
	local.get	12
	i32.const	2
	i32.shr_u
	i32.const	7
	i32.add 
	i64.extend_i32_u
	local.tee	14
	i64.store	32
	local.get	11
	local.get	14
	i64.store	16
	local.get	11
	v128.const	0, 0
	v128.store	64:p2align=3
	block   	
	block   	
	local.get	11
	i32.const	8
	i32.add 
	local.get	1
	i32.const	0
	i32.const	4096
	local.get	1
	i32.select
	i32.add 
	local.get	2
	i64.extend_i32_u
	local.get	3
	i32.const	0
	i32.const	4096
	local.get	3
	i32.select
	i32.add 
	local.get	4
	i64.extend_i32_u
	local.get	5
	i32.const	0
	i32.const	4096
	local.get	5
	i32.select
	local.tee	0
	i32.add 
	local.tee	8
	local.get	6
	i64.extend_i32_u
	local.tee	15
	local.get	11
	i32.const	48
	i32.add 
	local.get	11
	i32.const	64
	i32.add 
	call	gcm__mode__BorrowedGcm__compare____c13ce517942629d6_
	i32.const	255
	i32.and 
	br_if   	0                               # 0: down to label287
# %bb.9:                                # %then.1.i.i.i
	block   	
	block   	
	local.get	10
	i64.extend_i32_u
	local.get	8
	i64.extend_i32_u
	i64.sub 
	local.get	15
	i64.ge_u
	br_if   	0                               # 0: down to label289
# %bb.10:                               # %join.7.i.i.i.i.i.i.i.i.i.preheader
	i64.const	0
	local.set	16
	block   	
	local.get	6
	i32.const	16
	i32.lt_u
	br_if   	0                               # 0: down to label290
# %bb.11:                               # %vector.memcheck
	local.get	7
	local.get	13
	i32.add 
	local.get	8
	i32.sub 
	i32.const	16
	i32.lt_u
	br_if   	0                               # 0: down to label290
# %bb.12:                               # %vector.ph
	local.get	10
	local.set	6
	local.get	15
	i64.const	4294967280
	i64.and 
	local.tee	16
	local.set	14
.LBB88_13:                              # %vector.body
                                        # =>This Inner Loop Header: Depth=1
	loop    	                                # label291:
	local.get	6
	local.get	8
	v128.load	0:p2align=0
	v128.store	0:p2align=0
	local.get	6
	i32.const	16
	i32.add 
	local.set	6
	local.get	8
	i32.const	16
	i32.add 
	local.set	8
	local.get	14
	i64.const	-16
	i64.add 
	local.tee	14
	i64.const	0
	i64.ne  
	br_if   	0                               # 0: up to label291
# %bb.14:                               # %middle.block
	end_loop
	local.get	16
	local.get	15
	i64.eq  
	br_if   	2                               # 2: down to label288
.LBB88_15:                              # %join.7.i.i.i.i.i.i.i.i.i.preheader2
	end_block                               # label290:
	local.get	16
	local.set	17
	block   	
	local.get	15
	i64.const	3
	i64.and 
	local.tee	14
	i64.eqz
	br_if   	0                               # 0: down to label292
# %bb.16:                               # %join.7.i.i.i.i.i.i.i.i.i.prol.preheader
	local.get	16
	local.get	14
	i64.add 
	local.set	17
	local.get	7
	local.get	13
	local.get	16
	i32.wrap_i64
	local.tee	8
	i32.add 
	i32.add 
	local.set	6
	local.get	5
	local.get	0
	local.get	8
	i32.add 
	i32.add 
	local.set	8
.LBB88_17:                              # %join.7.i.i.i.i.i.i.i.i.i.prol
                                        # =>This Inner Loop Header: Depth=1
	loop    	                                # label293:
	local.get	6
	local.get	8
	i32.load8_u	0
	i32.store8	0
	local.get	6
	i32.const	1
	i32.add 
	local.set	6
	local.get	8
	i32.const	1
	i32.add 
	local.set	8
	local.get	14
	i64.const	-1
	i64.add 
	local.tee	14
	i64.const	0
	i64.ne  
	br_if   	0                               # 0: up to label293
.LBB88_18:                              # %join.7.i.i.i.i.i.i.i.i.i.prol.loopexit
	end_loop
	end_block                               # label292:
	local.get	16
	local.get	15
	i64.sub 
	i64.const	-4
	i64.gt_u
	br_if   	1                               # 1: down to label288
# %bb.19:                               # %join.7.i.i.i.i.i.i.i.i.i.preheader3
	local.get	15
	local.get	17
	i64.sub 
	local.set	14
	local.get	5
	local.get	0
	local.get	17
	i32.wrap_i64
	local.tee	8
	i32.add 
	i32.add 
	local.set	6
	local.get	7
	local.get	13
	local.get	8
	i32.add 
	i32.add 
	local.set	8
.LBB88_20:                              # %join.7.i.i.i.i.i.i.i.i.i
                                        # =>This Inner Loop Header: Depth=1
	loop    	                                # label294:
	local.get	8
	local.get	6
	i32.load8_u	0
	i32.store8	0
	local.get	8
	i32.const	1
	i32.add 
	local.get	6
	i32.const	1
	i32.add 
	i32.load8_u	0
	i32.store8	0
	local.get	8
	i32.const	2
	i32.add 
	local.get	6
	i32.const	2
	i32.add 
	i32.load8_u	0
	i32.store8	0
	local.get	8
	i32.const	3
	i32.add 
	local.get	6
	i32.const	3
	i32.add 
	i32.load8_u	0
	i32.store8	0
	local.get	6
	i32.const	4
	i32.add 
	local.set	6
	local.get	8
	i32.const	4
	i32.add 
	local.set	8
	local.get	14
	i64.const	-4
	i64.add 
	local.tee	14
	i64.const	0
	i64.ne  
	br_if   	0                               # 0: up to label294
	br      	2                               # 2: down to label288
.LBB88_21:                              # %apart.2.i.i.i.i.i.i.i.i.i
	end_loop
	end_block                               # label289:
	local.get	6
	i32.eqz
	br_if   	0                               # 0: down to label288
# %bb.22:                               # %apart.2.i.i.i.i.i.i.i.i.i
	local.get	10
	local.get	8
	local.get	6
	memory.copy	0, 0
.LBB88_23:                              # %core__slice__edits__slice_T__copy_from_slice___i8_20_core__clone__U8Clone___.exit.i.i.i
	end_block                               # label288:
	local.get	11
	i32.const	8
	i32.add 
	local.get	11
	i32.const	64
	i32.add 
	i64.const	16
	local.get	10
	local.get	15
	call	gcm__gctr__add_gctr____ed3b81e0963a9ab3_
	i32.const	0
	local.set	8
	br      	1                               # 1: down to label286
.LBB88_24:                              # %else.2.i.i.i
	end_block                               # label287:
	i32.const	6
	local.set	8
	local.get	6
	i32.eqz
	br_if   	0                               # 0: down to label286
# %bb.25:                               # %loop.5.preheader.i.i.i.i
	block   	
	local.get	15
	i64.const	-1
	i64.add 
	local.tee	14
	i64.eqz
	br_if   	0                               # 0: down to label295
# %bb.26:                               # %join.8.preheader.i.i.i.i
	local.get	6
	i32.const	-1
	i32.add 
	local.tee	6
	i32.eqz
	br_if   	0                               # 0: down to label295
# %bb.27:                               # %join.8.preheader.i.i.i.i
	local.get	10
	i32.const	0
	local.get	6
	memory.fill	0
.LBB88_28:                              # %after.4.i.i.i.i
	end_block                               # label295:
	local.get	10
	local.get	14
	i32.wrap_i64
	i32.add 
	i32.const	0
	i32.store8	0
.LBB88_29:                              # %gcm__mode__BorrowedGcm__decrypt_to____c13ce517942629d6_.exit.i.i
	end_block                               # label286:
	local.get	11
	i32.const	64
	i32.add 
	call	aes_cipher__zeroize__elements__zeroize_elements____3b2097f0eef5a37b_
	call	aes_cipher__zeroize__stack__wipe_stack____1536_
.LBB88_30:                              # %wide_fotsgure_gcm_open_to.exit
	end_block                               # label282:
	local.get	11
	i32.const	80
	i32.add 
	global.set	__stack_pointer
	local.get	8
                                        # fallthrough-return
	end_function
                                        # -- End function
	.section	.text.fotsgure_gcm_begin,"",@
	.globl	fotsgure_gcm_begin              # -- Begin function fotsgure_gcm_begin
	.type	fotsgure_gcm_begin,@function
fotsgure_gcm_begin:                     # @fotsgure_gcm_begin
	.functype	fotsgure_gcm_begin (i32, i32, i32, i32) -> (i32)
	.local  	i32, i32, i32, i32, i64
# %bb.0:
	global.get	__stack_pointer
	i32.const	48
	i32.sub 
	local.tee	4
	global.set	__stack_pointer
	block   	
	block   	
	local.get	3
	br_if   	0                               # 0: down to label297
# %bb.1:
	i32.const	3
	local.set	5
	br      	1                               # 1: down to label296
.LBB89_2:                               # %after.1.i.i
	end_block                               # label297:
	i32.const	2
	local.set	5
	local.get	0
	i32.load	0
	local.tee	6
	i32.const	-16
	i32.add 
	local.tee	7
	i32.const	16
	i32.gt_u
	br_if   	0                               # 0: down to label296
# %bb.3:                                # %after.1.i.i
	i32.const	1
	local.get	7
	i32.shl 
	i32.const	65793
	i32.and 
	i32.eqz
	br_if   	0                               # 0: down to label296
# %bb.4:                                # %join.13.i.i
	i32.const	0
	local.set	5
	local.get	4
	i32.const	0
	i32.store	44
	local.get	4
	i32.const	0
	i32.store	28
	local.get	4
	i32.const	0
	i32.store	12
	local.get	4
	local.get	0
	i32.const	244
	i32.add 
	i32.store	40
	local.get	4
	local.get	0
	i32.const	4
	i32.add 
	local.tee	0
	i32.store	24
	local.get	4
	local.get	0
	i32.store	8
	local.get	4
	local.get	6
	i32.const	2
	i32.shr_u
	i32.const	7
	i32.add 
	i64.extend_i32_u
	local.tee	8
	i64.store	32
	local.get	4
	local.get	8
	i64.store	16
	local.get	4
	i32.const	8
	i32.add 
	local.get	1
	local.get	2
	i32.const	0
	i32.const	4096
	local.get	2
	i32.select
	i32.add 
	local.get	3
	i64.extend_i32_u
	call	gcm__mode__BorrowedGcm__start____c13ce517942629d6_
.LBB89_5:                               # %wide_fotsgure_gcm_begin.exit
	end_block                               # label296:
	local.get	4
	i32.const	48
	i32.add 
	global.set	__stack_pointer
	local.get	5
                                        # fallthrough-return
	end_function
                                        # -- End function
	.section	.text.fotsgure_gcm_begin_next,"",@
	.globl	fotsgure_gcm_begin_next         # -- Begin function fotsgure_gcm_begin_next
	.type	fotsgure_gcm_begin_next,@function
fotsgure_gcm_begin_next:                # @fotsgure_gcm_begin_next
	.functype	fotsgure_gcm_begin_next (i32, i32, i32, i32) -> (i32)
	.local  	i32, i64, i32, i32, i32, i64, v128
# %bb.0:
	global.get	__stack_pointer
	i32.const	80
	i32.sub 
	local.tee	4
	global.set	__stack_pointer
	block   	
	block   	
	local.get	2
	i32.const	4
	i32.add 
	i64.load	0:p2align=0
	local.tee	5
	i64.const	-1
	i64.ne  
	br_if   	0                               # 0: down to label299
# %bb.1:                                # %gcm__counter__Counter__is_over.exit.i.i
	local.get	2
	i32.load	0:p2align=0
	i32.const	-1
	i32.ne  
	br_if   	0                               # 0: down to label299
# %bb.2:
	i32.const	7
	local.set	6
	br      	1                               # 1: down to label298
.LBB90_3:                               # %join.3.i.i
	end_block                               # label299:
	i32.const	2
	local.set	6
	local.get	0
	i32.load	0
	local.tee	7
	i32.const	-16
	i32.add 
	local.tee	8
	i32.const	16
	i32.gt_u
	br_if   	0                               # 0: down to label298
# %bb.4:                                # %join.3.i.i
	i32.const	1
	local.get	8
	i32.shl 
	i32.const	65793
	i32.and 
	i32.eqz
	br_if   	0                               # 0: down to label298
# %bb.5:                                # %join.6.i.i
	local.get	4
	i32.const	0
	i32.store	60
	local.get	4
	i32.const	0
	i32.store	44
	local.get	4
	i32.const	0
	i32.store	28
	local.get	4
	local.get	0
	i32.const	244
	i32.add 
	i32.store	56
	local.get	4
	local.get	0
	i32.const	4
	i32.add 
	local.tee	0
	i32.store	40
	local.get	4
	local.get	0
	i32.store	24
	local.get	4
	local.get	7
	i32.const	2
	i32.shr_u
	i32.const	7
	i32.add 
	i64.extend_i32_u
	local.tee	9
	i64.store	48
	local.get	4
	local.get	9
	i64.store	32
	local.get	2
	i32.load	0:p2align=0
	local.tee	0
	i32.const	16711935
	i32.and 
	i32.const	8
	i32.rotr
	local.get	0
	i32.const	24
	i32.rotr
	i32.const	16711935
	i32.and 
	i32.or  
	local.set	6
	block   	
	block   	
	block   	
	local.get	5
	i64.const	-1
	i64.eq  
	br_if   	0                               # 0: down to label302
# %bb.6:                                # %gcm__counter__nonce_after.exit.thread.i.i.i.i
	local.get	5
	i64.const	56
	i64.shl 
	local.get	5
	i64.const	65280
	i64.and 
	i64.const	40
	i64.shl 
	i64.or  
	local.get	5
	i64.const	16711680
	i64.and 
	i64.const	24
	i64.shl 
	local.get	5
	i64.const	4278190080
	i64.and 
	i64.const	8
	i64.shl 
	i64.or  
	i64.or  
	local.get	5
	i64.const	8
	i64.shr_u
	i64.const	4278190080
	i64.and 
	local.get	5
	i64.const	24
	i64.shr_u
	i64.const	16711680
	i64.and 
	i64.or  
	local.get	5
	i64.const	40
	i64.shr_u
	i64.const	65280
	i64.and 
	local.get	5
	i64.const	56
	i64.shr_u
	i64.or  
	i64.or  
	i64.or  
	i64.const	1
	i64.add 
	local.tee	9
	i64.const	56
	i64.shl 
	local.get	9
	i64.const	65280
	i64.and 
	i64.const	40
	i64.shl 
	i64.or  
	local.get	9
	i64.const	16711680
	i64.and 
	i64.const	24
	i64.shl 
	local.get	9
	i64.const	4278190080
	i64.and 
	i64.const	8
	i64.shl 
	i64.or  
	i64.or  
	local.get	9
	i64.const	8
	i64.shr_u
	i64.const	4278190080
	i64.and 
	local.get	9
	i64.const	24
	i64.shr_u
	i64.const	16711680
	i64.and 
	i64.or  
	local.get	9
	i64.const	40
	i64.shr_u
	i64.const	65280
	i64.and 
	local.get	9
	i64.const	56
	i64.shr_u
	i64.or  
	i64.or  
	i64.or  
	local.set	9
	br      	1                               # 1: down to label301
.LBB90_7:                               # %gcm__counter__nonce_after.exit.i.i.i.i
	end_block                               # label302:
	local.get	0
	i32.const	-1
	i32.eq  
	br_if   	1                               # 1: down to label300
# %bb.8:
	local.get	6
	i32.const	1
	i32.add 
	local.set	6
	i64.const	0
	local.set	9
.LBB90_9:                               # %arm.1.i.i.i.i
	end_block                               # label301:
	local.get	2
	i32.const	4
	i32.add 
	local.get	9
	i64.store	0:p2align=0
	local.get	2
	local.get	6
	i32.const	16711935
	i32.and 
	i32.const	8
	i32.rotr
	local.get	6
	i32.const	24
	i32.rotr
	i32.const	16711935
	i32.and 
	i32.or  
	i32.store	0:p2align=0
.LBB90_10:                              # %gcm__mode__BorrowedGcm__begin_next____c13ce517942629d6_.exit.i.i
	end_block                               # label300:
	local.get	4
	local.get	5
	i64.store	72:p2align=2
	local.get	4
	local.get	0
	i32.store	68
	local.get	4
	i32.const	24
	i32.add 
	local.get	4
	i32.const	68
	i32.add 
	i64.const	12
	local.get	1
	i32.const	32
	i32.add 
	call	gcm__mode__BorrowedGcm__put_pre_counter____c13ce517942629d6_
	local.get	1
	i64.const	0
	i64.store	0
	local.get	1
	i32.const	24
	i32.add 
	i64.const	1
	i64.store	0
	local.get	1
	v128.const	0, 0
	local.tee	10
	v128.store	8:p2align=3
	local.get	1
	i32.const	48
	i32.add 
	local.get	10
	v128.store	0:p2align=0
	local.get	1
	i32.const	64
	i32.add 
	local.get	10
	v128.store	0:p2align=0
	local.get	4
	local.get	4
	i32.load	76
	local.tee	1
	i32.store	16
	local.get	4
	local.get	4
	i64.load	68:p2align=2
	local.tee	5
	i64.store	8
	local.get	3
	local.get	1
	i32.store	8:p2align=0
	local.get	3
	local.get	5
	i64.store	0:p2align=0
	i32.const	0
	local.set	6
.LBB90_11:                              # %wide_fotsgure_gcm_begin_next.exit
	end_block                               # label298:
	local.get	4
	i32.const	80
	i32.add 
	global.set	__stack_pointer
	local.get	6
                                        # fallthrough-return
	end_function
                                        # -- End function
	.section	.text.fotsgure_gcm_additional,"",@
	.globl	fotsgure_gcm_additional         # -- Begin function fotsgure_gcm_additional
	.type	fotsgure_gcm_additional,@function
fotsgure_gcm_additional:                # @fotsgure_gcm_additional
	.functype	fotsgure_gcm_additional (i32, i32, i32, i32) -> (i32)
	.local  	i32, i32, i32, i32, i64, i64, i64
# %bb.0:
	global.get	__stack_pointer
	i32.const	48
	i32.sub 
	local.tee	4
	global.set	__stack_pointer
	i32.const	2
	local.set	5
	block   	
	local.get	0
	i32.load	0
	local.tee	6
	i32.const	-16
	i32.add 
	local.tee	7
	i32.const	16
	i32.gt_u
	br_if   	0                               # 0: down to label303
# %bb.1:
	i32.const	1
	local.get	7
	i32.shl 
	i32.const	65793
	i32.and 
	i32.eqz
	br_if   	0                               # 0: down to label303
# %bb.2:                                # %join.3.i.i
	local.get	4
	i32.const	0
	i32.store	44
	local.get	4
	i32.const	0
	i32.store	28
	local.get	4
	i32.const	0
	i32.store	12
	local.get	4
	local.get	0
	i32.const	244
	i32.add 
	i32.store	40
	local.get	4
	local.get	0
	i32.const	4
	i32.add 
	local.tee	0
	i32.store	24
	local.get	4
	local.get	0
	i32.store	8
	local.get	4
	local.get	6
	i32.const	2
	i32.shr_u
	i32.const	7
	i32.add 
	i64.extend_i32_u
	local.tee	8
	i64.store	32
	local.get	4
	local.get	8
	i64.store	16
	block   	
	local.get	1
	i32.const	24
	i32.add 
	i64.load	0
	i64.const	1
	i64.eq  
	br_if   	0                               # 0: down to label304
# %bb.3:
	i32.const	8
	local.set	5
	br      	1                               # 1: down to label303
.LBB91_4:                               # %join.3.i.i.i
	end_block                               # label304:
	block   	
	i64.const	-1
	local.get	3
	i64.extend_i32_u
	local.tee	8
	local.get	1
	i64.load	0
	local.tee	9
	i64.add 
	local.tee	10
	local.get	10
	local.get	8
	i64.lt_u
	i64.select
	i64.const	2305843009213693951
	i64.le_u
	br_if   	0                               # 0: down to label305
# %bb.5:
	i32.const	5
	local.set	5
	br      	1                               # 1: down to label303
.LBB91_6:                               # %arm.4.i.i
	end_block                               # label305:
	local.get	4
	i32.const	40
	i32.add 
	local.get	1
	i32.const	48
	i32.add 
	local.get	1
	i32.const	64
	i32.add 
	local.get	9
	i64.const	15
	i64.and 
	local.get	2
	i32.const	0
	i32.const	4096
	local.get	2
	i32.select
	i32.add 
	local.get	8
	call	gcm__hash_room__hash_piece____84904cd934dcda78_
	call	aes_cipher__zeroize__stack__wipe_stack____512_
	local.get	1
	local.get	1
	i64.load	0
	local.get	8
	i64.add 
	i64.store	0
	i32.const	0
	local.set	5
.LBB91_7:                               # %wide_fotsgure_gcm_additional.exit
	end_block                               # label303:
	local.get	4
	i32.const	48
	i32.add 
	global.set	__stack_pointer
	local.get	5
                                        # fallthrough-return
	end_function
                                        # -- End function
	.section	.text.fotsgure_gcm_encrypt,"",@
	.globl	fotsgure_gcm_encrypt            # -- Begin function fotsgure_gcm_encrypt
	.type	fotsgure_gcm_encrypt,@function
fotsgure_gcm_encrypt:                   # @fotsgure_gcm_encrypt
	.functype	fotsgure_gcm_encrypt (i32, i32, i32, i32) -> (i32)
	.local  	i32, i32, i32, i32, i64
# %bb.0:
	global.get	__stack_pointer
	i32.const	48
	i32.sub 
	local.tee	4
	global.set	__stack_pointer
	i32.const	2
	local.set	5
	block   	
	local.get	0
	i32.load	0
	local.tee	6
	i32.const	-16
	i32.add 
	local.tee	7
	i32.const	16
	i32.gt_u
	br_if   	0                               # 0: down to label306
# %bb.1:
	i32.const	1
	local.get	7
	i32.shl 
	i32.const	65793
	i32.and 
	i32.eqz
	br_if   	0                               # 0: down to label306
# %bb.2:                                # %join.3.i.i
	i32.const	0
	local.set	5
	local.get	4
	i32.const	0
	i32.store	44
	local.get	4
	i32.const	0
	i32.store	28
	local.get	4
	i32.const	0
	i32.store	12
	local.get	4
	local.get	0
	i32.const	244
	i32.add 
	i32.store	40
	local.get	4
	local.get	0
	i32.const	4
	i32.add 
	local.tee	0
	i32.store	24
	local.get	4
	local.get	0
	i32.store	8
	local.get	4
	local.get	6
	i32.const	2
	i32.shr_u
	i32.const	7
	i32.add 
	i64.extend_i32_u
	local.tee	8
	i64.store	32
	local.get	4
	local.get	8
	i64.store	16
	local.get	4
	local.get	4
	i32.const	8
	i32.add 
	local.get	1
	i32.const	2
	local.get	3
	i64.extend_i32_u
	local.tee	8
	call	gcm__mode__BorrowedGcm__enter_phase____c13ce517942629d6_
	block   	
	local.get	4
	i32.load8_u	0
	br_if   	0                               # 0: down to label307
# %bb.3:                                # %arm.1.i.i.i
	local.get	4
	i32.const	8
	i32.add 
	local.get	1
	i32.const	32
	i32.add 
	local.get	1
	i32.const	8
	i32.add 
	local.tee	0
	i64.load	0
	i64.const	16
	i64.add 
	local.get	2
	i32.const	0
	i32.const	4096
	local.get	2
	i32.select
	i32.add 
	local.tee	7
	local.get	8
	call	gcm__gctr__add_gctr____ed3b81e0963a9ab3_
	local.get	4
	i32.const	8
	i32.add 
	i32.const	32
	i32.add 
	local.get	1
	i32.const	48
	i32.add 
	local.get	1
	i32.const	64
	i32.add 
	local.get	0
	i64.load	0
	i64.const	15
	i64.and 
	local.get	7
	local.get	8
	call	gcm__hash_room__hash_piece____84904cd934dcda78_
	local.get	0
	local.get	0
	i64.load	0
	local.get	8
	i64.add 
	i64.store	0
	call	aes_cipher__zeroize__stack__wipe_stack____1536_
	br      	1                               # 1: down to label306
.LBB92_4:                               # %arm.2.i.i.i
	end_block                               # label307:
	i32.const	5
	i32.const	8
	local.get	4
	i32.load8_u	1
	i32.const	1
	i32.and 
	i32.select
	local.set	5
.LBB92_5:                               # %wide_fotsgure_gcm_encrypt.exit
	end_block                               # label306:
	local.get	4
	i32.const	48
	i32.add 
	global.set	__stack_pointer
	local.get	5
                                        # fallthrough-return
	end_function
                                        # -- End function
	.section	.text.fotsgure_gcm_finish,"",@
	.globl	fotsgure_gcm_finish             # -- Begin function fotsgure_gcm_finish
	.type	fotsgure_gcm_finish,@function
fotsgure_gcm_finish:                    # @fotsgure_gcm_finish
	.functype	fotsgure_gcm_finish (i32, i32, i32) -> (i32)
	.local  	i32, i32, i32, i32, i64, v128
# %bb.0:
	global.get	__stack_pointer
	i32.const	80
	i32.sub 
	local.tee	3
	global.set	__stack_pointer
	i32.const	2
	local.set	4
	block   	
	local.get	0
	i32.load	0
	local.tee	5
	i32.const	-16
	i32.add 
	local.tee	6
	i32.const	16
	i32.gt_u
	br_if   	0                               # 0: down to label308
# %bb.1:
	i32.const	1
	local.get	6
	i32.shl 
	i32.const	65793
	i32.and 
	i32.eqz
	br_if   	0                               # 0: down to label308
# %bb.2:                                # %join.3.i.i
	i32.const	0
	local.set	4
	local.get	3
	i32.const	0
	i32.store	60
	local.get	3
	i32.const	0
	i32.store	44
	local.get	3
	i32.const	0
	i32.store	28
	local.get	3
	local.get	0
	i32.const	244
	i32.add 
	i32.store	56
	local.get	3
	local.get	0
	i32.const	4
	i32.add 
	local.tee	0
	i32.store	40
	local.get	3
	local.get	0
	i32.store	24
	local.get	3
	local.get	5
	i32.const	2
	i32.shr_u
	i32.const	7
	i32.add 
	i64.extend_i32_u
	local.tee	7
	i64.store	48
	local.get	3
	local.get	7
	i64.store	32
	local.get	3
	v128.const	0, 0
	v128.store	64:p2align=3
	block   	
	local.get	3
	i32.const	24
	i32.add 
	local.get	1
	i32.const	2
	local.get	3
	i32.const	64
	i32.add 
	call	gcm__mode__BorrowedGcm__end____c13ce517942629d6_
	i32.const	255
	i32.and 
	br_if   	0                               # 0: down to label309
# %bb.3:                                # %arm.4.i.i
	local.get	3
	local.get	3
	v128.load	64:p2align=3
	local.tee	8
	v128.store	8:p2align=3
	local.get	2
	local.get	8
	v128.store	0:p2align=0
	br      	1                               # 1: down to label308
.LBB93_4:                               # %arm.5.i.i
	end_block                               # label309:
	i32.const	8
	local.set	4
.LBB93_5:                               # %wide_fotsgure_gcm_finish.exit
	end_block                               # label308:
	local.get	3
	i32.const	80
	i32.add 
	global.set	__stack_pointer
	local.get	4
                                        # fallthrough-return
	end_function
                                        # -- End function
	.section	.text.fotsgure_gcm_verify,"",@
	.globl	fotsgure_gcm_verify             # -- Begin function fotsgure_gcm_verify
	.type	fotsgure_gcm_verify,@function
fotsgure_gcm_verify:                    # @fotsgure_gcm_verify
	.functype	fotsgure_gcm_verify (i32, i32, i32, i32) -> (i32)
	.local  	i32, i32, i32, i32, i64
# %bb.0:
	global.get	__stack_pointer
	i32.const	48
	i32.sub 
	local.tee	4
	global.set	__stack_pointer
	i32.const	2
	local.set	5
	block   	
	local.get	0
	i32.load	0
	local.tee	6
	i32.const	-16
	i32.add 
	local.tee	7
	i32.const	16
	i32.gt_u
	br_if   	0                               # 0: down to label310
# %bb.1:
	i32.const	1
	local.get	7
	i32.shl 
	i32.const	65793
	i32.and 
	i32.eqz
	br_if   	0                               # 0: down to label310
# %bb.2:                                # %join.3.i.i
	i32.const	0
	local.set	5
	local.get	4
	i32.const	0
	i32.store	44
	local.get	4
	i32.const	0
	i32.store	28
	local.get	4
	i32.const	0
	i32.store	12
	local.get	4
	local.get	0
	i32.const	244
	i32.add 
	i32.store	40
	local.get	4
	local.get	0
	i32.const	4
	i32.add 
	local.tee	0
	i32.store	24
	local.get	4
	local.get	0
	i32.store	8
	local.get	4
	local.get	6
	i32.const	2
	i32.shr_u
	i32.const	7
	i32.add 
	i64.extend_i32_u
	local.tee	8
	i64.store	32
	local.get	4
	local.get	8
	i64.store	16
	local.get	4
	local.get	4
	i32.const	8
	i32.add 
	local.get	1
	i32.const	3
	local.get	3
	i64.extend_i32_u
	local.tee	8
	call	gcm__mode__BorrowedGcm__enter_phase____c13ce517942629d6_
	block   	
	local.get	4
	i32.load8_u	0
	br_if   	0                               # 0: down to label311
# %bb.3:                                # %arm.1.i.i.i
	local.get	4
	i32.const	40
	i32.add 
	local.get	1
	i32.const	48
	i32.add 
	local.get	1
	i32.const	64
	i32.add 
	local.get	1
	i32.const	8
	i32.add 
	local.tee	0
	i64.load	0
	i64.const	15
	i64.and 
	local.get	2
	i32.const	0
	i32.const	4096
	local.get	2
	i32.select
	i32.add 
	local.get	8
	call	gcm__hash_room__hash_piece____84904cd934dcda78_
	local.get	0
	local.get	0
	i64.load	0
	local.get	8
	i64.add 
	i64.store	0
	call	aes_cipher__zeroize__stack__wipe_stack____512_
	br      	1                               # 1: down to label310
.LBB94_4:                               # %arm.2.i.i.i
	end_block                               # label311:
	i32.const	5
	i32.const	8
	local.get	4
	i32.load8_u	1
	i32.const	1
	i32.and 
	i32.select
	local.set	5
.LBB94_5:                               # %wide_fotsgure_gcm_verify.exit
	end_block                               # label310:
	local.get	4
	i32.const	48
	i32.add 
	global.set	__stack_pointer
	local.get	5
                                        # fallthrough-return
	end_function
                                        # -- End function
	.section	.text.fotsgure_gcm_accept,"",@
	.globl	fotsgure_gcm_accept             # -- Begin function fotsgure_gcm_accept
	.type	fotsgure_gcm_accept,@function
fotsgure_gcm_accept:                    # @fotsgure_gcm_accept
	.functype	fotsgure_gcm_accept (i32, i32, i32, i32) -> (i32)
	.local  	i32, i32, i32, i64
# %bb.0:
	global.get	__stack_pointer
	i32.const	64
	i32.sub 
	local.tee	4
	global.set	__stack_pointer
	block   	
	block   	
	local.get	3
	i32.const	16
	i32.eq  
	br_if   	0                               # 0: down to label313
# %bb.1:
	i32.const	4
	local.set	3
	br      	1                               # 1: down to label312
.LBB95_2:                               # %join.3.i.i
	end_block                               # label313:
	i32.const	2
	local.set	3
	local.get	0
	i32.load	0
	local.tee	5
	i32.const	-16
	i32.add 
	local.tee	6
	i32.const	16
	i32.gt_u
	br_if   	0                               # 0: down to label312
# %bb.3:                                # %join.3.i.i
	i32.const	1
	local.get	6
	i32.shl 
	i32.const	65793
	i32.and 
	i32.eqz
	br_if   	0                               # 0: down to label312
# %bb.4:                                # %join.6.i.i
	local.get	4
	i32.const	0
	i32.store	60
	local.get	4
	i32.const	0
	i32.store	44
	local.get	4
	i32.const	0
	i32.store	28
	local.get	4
	local.get	0
	i32.const	244
	i32.add 
	i32.store	56
	local.get	4
	local.get	0
	i32.const	4
	i32.add 
	local.tee	3
	i32.store	40
	local.get	4
	local.get	3
	i32.store	24
	local.get	4
	local.get	2
	i32.const	0
	i32.const	4096
	local.get	2
	i32.select
	i32.add 
	v128.load	0:p2align=0
	v128.store	8:p2align=3
	local.get	4
	local.get	5
	i32.const	2
	i32.shr_u
	i32.const	7
	i32.add 
	i64.extend_i32_u
	local.tee	7
	i64.store	48
	local.get	4
	local.get	7
	i64.store	32
	i32.const	8
	local.set	3
	block   	
	local.get	1
	i32.const	24
	i32.add 
	i64.load	0
	local.tee	7
	i32.wrap_i64
	i32.const	0
	local.get	7
	i64.const	5
	i64.lt_u
	i32.select
	i32.const	255
	i32.and 
	i32.const	-1
	i32.add 
	br_table 	{0, 1, 0, 1}            # 1: down to label312
                                        # 0: down to label314
.LBB95_5:                               # %join.3.i.i.i
	end_block                               # label314:
	local.get	4
	i32.const	24
	i32.add 
	local.get	1
	local.get	4
	i32.const	8
	i32.add 
	call	gcm__mode__BorrowedGcm__is_tag_so_far____c13ce517942629d6_
	local.set	3
	call	aes_cipher__zeroize__stack__wipe_stack____1536_
	block   	
	local.get	3
	br_if   	0                               # 0: down to label315
# %bb.6:
	i32.const	6
	local.set	3
	br      	1                               # 1: down to label312
.LBB95_7:                               # %arm.7.i.i
	end_block                               # label315:
	local.get	1
	i32.const	16
	i32.add 
	i64.const	0
	i64.store	0
	local.get	1
	i32.const	24
	i32.add 
	i64.const	4
	i64.store	0
	i32.const	0
	local.set	3
.LBB95_8:                               # %wide_fotsgure_gcm_accept.exit
	end_block                               # label312:
	local.get	4
	i32.const	64
	i32.add 
	global.set	__stack_pointer
	local.get	3
                                        # fallthrough-return
	end_function
                                        # -- End function
	.section	.text.fotsgure_gcm_accept_short,"",@
	.globl	fotsgure_gcm_accept_short       # -- Begin function fotsgure_gcm_accept_short
	.type	fotsgure_gcm_accept_short,@function
fotsgure_gcm_accept_short:              # @fotsgure_gcm_accept_short
	.functype	fotsgure_gcm_accept_short (i32, i32, i32, i32, i32) -> (i32)
	.local  	i32, i32, i64, i64
# %bb.0:
	global.get	__stack_pointer
	i32.const	48
	i32.sub 
	local.tee	5
	global.set	__stack_pointer
	i32.const	4
	local.set	6
	block   	
	local.get	4
	local.get	2
	i32.ne  
	br_if   	0                               # 0: down to label316
# %bb.1:
	local.get	2
	i32.const	4
	i32.eq  
	local.get	2
	i32.const	8
	i32.eq  
	i32.or  
	local.get	2
	i64.extend_i32_u
	local.tee	7
	i64.const	4294967292
	i64.and 
	i64.const	12
	i64.eq  
	i32.or  
	i32.eqz
	br_if   	0                               # 0: down to label316
# %bb.2:                                # %join.3.i.i
	i32.const	2
	local.set	6
	local.get	0
	i32.load	0
	local.tee	4
	i32.const	-16
	i32.add 
	local.tee	2
	i32.const	16
	i32.gt_u
	br_if   	0                               # 0: down to label316
# %bb.3:                                # %join.3.i.i
	i32.const	1
	local.get	2
	i32.shl 
	i32.const	65793
	i32.and 
	i32.eqz
	br_if   	0                               # 0: down to label316
# %bb.4:                                # %join.6.i.i
	local.get	5
	i32.const	0
	i32.store	44
	local.get	5
	i32.const	0
	i32.store	28
	local.get	5
	i32.const	0
	i32.store	12
	local.get	5
	local.get	0
	i32.const	244
	i32.add 
	i32.store	40
	local.get	5
	local.get	0
	i32.const	4
	i32.add 
	local.tee	2
	i32.store	24
	local.get	5
	local.get	2
	i32.store	8
	local.get	5
	local.get	4
	i32.const	2
	i32.shr_u
	i32.const	7
	i32.add 
	i64.extend_i32_u
	local.tee	8
	i64.store	32
	local.get	5
	local.get	8
	i64.store	16
	i32.const	8
	local.set	6
	block   	
	local.get	1
	i32.const	24
	i32.add 
	i64.load	0
	local.tee	8
	i32.wrap_i64
	i32.const	0
	local.get	8
	i64.const	5
	i64.lt_u
	i32.select
	i32.const	255
	i32.and 
	i32.const	-1
	i32.add 
	br_table 	{0, 1, 0, 1}            # 1: down to label316
                                        # 0: down to label317
.LBB96_5:                               # %join.7.i.i.i
	end_block                               # label317:
	local.get	5
	i32.const	8
	i32.add 
	local.get	1
	local.get	3
	i32.const	0
	i32.const	4096
	local.get	3
	i32.select
	i32.add 
	local.get	7
	call	gcm__mode__BorrowedGcm__is_short_tag_so_far____c13ce517942629d6_
	local.set	2
	call	aes_cipher__zeroize__stack__wipe_stack____1536_
	block   	
	local.get	2
	br_if   	0                               # 0: down to label318
# %bb.6:
	i32.const	6
	local.set	6
	br      	1                               # 1: down to label316
.LBB96_7:                               # %arm.7.i.i
	end_block                               # label318:
	local.get	1
	i32.const	16
	i32.add 
	i64.const	0
	i64.store	0
	local.get	1
	i32.const	24
	i32.add 
	i64.const	4
	i64.store	0
	i32.const	0
	local.set	6
.LBB96_8:                               # %wide_fotsgure_gcm_accept_short.exit
	end_block                               # label316:
	local.get	5
	i32.const	48
	i32.add 
	global.set	__stack_pointer
	local.get	6
                                        # fallthrough-return
	end_function
                                        # -- End function
	.section	.text.fotsgure_gcm_decrypt,"",@
	.globl	fotsgure_gcm_decrypt            # -- Begin function fotsgure_gcm_decrypt
	.type	fotsgure_gcm_decrypt,@function
fotsgure_gcm_decrypt:                   # @fotsgure_gcm_decrypt
	.functype	fotsgure_gcm_decrypt (i32, i32, i32, i32) -> (i32)
	.local  	i32, i32, i32, i32, i64, i64, i64
# %bb.0:
	global.get	__stack_pointer
	i32.const	48
	i32.sub 
	local.tee	4
	global.set	__stack_pointer
	i32.const	2
	local.set	5
	block   	
	local.get	0
	i32.load	0
	local.tee	6
	i32.const	-16
	i32.add 
	local.tee	7
	i32.const	16
	i32.gt_u
	br_if   	0                               # 0: down to label319
# %bb.1:
	i32.const	1
	local.get	7
	i32.shl 
	i32.const	65793
	i32.and 
	i32.eqz
	br_if   	0                               # 0: down to label319
# %bb.2:                                # %join.3.i.i
	local.get	4
	i32.const	0
	i32.store	44
	local.get	4
	i32.const	0
	i32.store	28
	local.get	4
	i32.const	0
	i32.store	12
	local.get	4
	local.get	0
	i32.const	244
	i32.add 
	i32.store	40
	local.get	4
	local.get	0
	i32.const	4
	i32.add 
	local.tee	0
	i32.store	24
	local.get	4
	local.get	0
	i32.store	8
	local.get	4
	local.get	6
	i32.const	2
	i32.shr_u
	i32.const	7
	i32.add 
	i64.extend_i32_u
	local.tee	8
	i64.store	32
	local.get	4
	local.get	8
	i64.store	16
	block   	
	local.get	1
	i32.const	24
	i32.add 
	i64.load	0
	i64.const	4
	i64.eq  
	br_if   	0                               # 0: down to label320
# %bb.3:
	i32.const	8
	local.set	5
	br      	1                               # 1: down to label319
.LBB97_4:                               # %join.3.i.i.i
	end_block                               # label320:
	block   	
	local.get	1
	i32.const	8
	i32.add 
	i64.load	0
	local.tee	8
	i64.const	68719476704
	local.get	8
	i64.const	68719476704
	i64.lt_u
	i64.select
	i64.const	-1
	local.get	3
	i64.extend_i32_u
	local.tee	8
	local.get	1
	i32.const	16
	i32.add 
	local.tee	0
	i64.load	0
	local.tee	9
	i64.add 
	local.tee	10
	local.get	10
	local.get	8
	i64.lt_u
	i64.select
	i64.ge_u
	br_if   	0                               # 0: down to label321
# %bb.5:
	i32.const	5
	local.set	5
	br      	1                               # 1: down to label319
.LBB97_6:                               # %arm.4.i.i
	end_block                               # label321:
	local.get	4
	i32.const	8
	i32.add 
	local.get	1
	i32.const	32
	i32.add 
	local.get	9
	i64.const	16
	i64.add 
	local.get	2
	i32.const	0
	i32.const	4096
	local.get	2
	i32.select
	i32.add 
	local.get	8
	call	gcm__gctr__add_gctr____ed3b81e0963a9ab3_
	local.get	0
	local.get	0
	i64.load	0
	local.get	8
	i64.add 
	i64.store	0
	call	aes_cipher__zeroize__stack__wipe_stack____1536_
	i32.const	0
	local.set	5
.LBB97_7:                               # %wide_fotsgure_gcm_decrypt.exit
	end_block                               # label319:
	local.get	4
	i32.const	48
	i32.add 
	global.set	__stack_pointer
	local.get	5
                                        # fallthrough-return
	end_function
                                        # -- End function
	.section	.text.fotsgure_gcm_decrypt_unverified,"",@
	.globl	fotsgure_gcm_decrypt_unverified # -- Begin function fotsgure_gcm_decrypt_unverified
	.type	fotsgure_gcm_decrypt_unverified,@function
fotsgure_gcm_decrypt_unverified:        # @fotsgure_gcm_decrypt_unverified
	.functype	fotsgure_gcm_decrypt_unverified (i32, i32, i32, i32) -> (i32)
	.local  	i32, i32, i32, i32, i64, i64
# %bb.0:
	global.get	__stack_pointer
	i32.const	48
	i32.sub 
	local.tee	4
	global.set	__stack_pointer
	i32.const	2
	local.set	5
	block   	
	local.get	0
	i32.load	0
	local.tee	6
	i32.const	-16
	i32.add 
	local.tee	7
	i32.const	16
	i32.gt_u
	br_if   	0                               # 0: down to label322
# %bb.1:
	i32.const	1
	local.get	7
	i32.shl 
	i32.const	65793
	i32.and 
	i32.eqz
	br_if   	0                               # 0: down to label322
# %bb.2:                                # %join.3.i.i
	i32.const	0
	local.set	5
	local.get	4
	i32.const	0
	i32.store	44
	local.get	4
	i32.const	0
	i32.store	28
	local.get	4
	i32.const	0
	i32.store	12
	local.get	4
	local.get	0
	i32.const	244
	i32.add 
	i32.store	40
	local.get	4
	local.get	0
	i32.const	4
	i32.add 
	local.tee	0
	i32.store	24
	local.get	4
	local.get	0
	i32.store	8
	local.get	4
	local.get	6
	i32.const	2
	i32.shr_u
	i32.const	7
	i32.add 
	i64.extend_i32_u
	local.tee	8
	i64.store	32
	local.get	4
	local.get	8
	i64.store	16
	local.get	4
	local.get	4
	i32.const	8
	i32.add 
	local.get	1
	i32.const	3
	local.get	3
	i64.extend_i32_u
	local.tee	8
	call	gcm__mode__BorrowedGcm__enter_phase____c13ce517942629d6_
	block   	
	local.get	4
	i32.load8_u	0
	br_if   	0                               # 0: down to label323
# %bb.3:                                # %arm.1.i.i.i
	local.get	4
	i32.const	8
	i32.add 
	i32.const	32
	i32.add 
	local.get	1
	i32.const	48
	i32.add 
	local.get	1
	i32.const	64
	i32.add 
	local.get	1
	i32.const	8
	i32.add 
	local.tee	0
	i64.load	0
	local.tee	9
	i64.const	15
	i64.and 
	local.get	2
	i32.const	0
	i32.const	4096
	local.get	2
	i32.select
	i32.add 
	local.tee	7
	local.get	8
	call	gcm__hash_room__hash_piece____84904cd934dcda78_
	local.get	0
	local.get	0
	i64.load	0
	local.get	8
	i64.add 
	i64.store	0
	local.get	4
	i32.const	8
	i32.add 
	local.get	1
	i32.const	32
	i32.add 
	local.get	9
	i64.const	16
	i64.add 
	local.get	7
	local.get	8
	call	gcm__gctr__add_gctr____ed3b81e0963a9ab3_
	call	aes_cipher__zeroize__stack__wipe_stack____1536_
	br      	1                               # 1: down to label322
.LBB98_4:                               # %arm.2.i.i.i
	end_block                               # label323:
	i32.const	5
	i32.const	8
	local.get	4
	i32.load8_u	1
	i32.const	1
	i32.and 
	i32.select
	local.set	5
.LBB98_5:                               # %wide_fotsgure_gcm_decrypt_unverified.exit
	end_block                               # label322:
	local.get	4
	i32.const	48
	i32.add 
	global.set	__stack_pointer
	local.get	5
                                        # fallthrough-return
	end_function
                                        # -- End function
	.section	.text.fotsgure_gcm_finish_unverified,"",@
	.globl	fotsgure_gcm_finish_unverified  # -- Begin function fotsgure_gcm_finish_unverified
	.type	fotsgure_gcm_finish_unverified,@function
fotsgure_gcm_finish_unverified:         # @fotsgure_gcm_finish_unverified
	.functype	fotsgure_gcm_finish_unverified (i32, i32, i32) -> (i32)
	.local  	i32, i32, i32, i32, i64
# %bb.0:
	global.get	__stack_pointer
	i32.const	48
	i32.sub 
	local.tee	3
	global.set	__stack_pointer
	i32.const	2
	local.set	4
	block   	
	local.get	0
	i32.load	0
	local.tee	5
	i32.const	-16
	i32.add 
	local.tee	6
	i32.const	16
	i32.gt_u
	br_if   	0                               # 0: down to label324
# %bb.1:
	i32.const	1
	local.get	6
	i32.shl 
	i32.const	65793
	i32.and 
	i32.eqz
	br_if   	0                               # 0: down to label324
# %bb.2:                                # %join.3.i.i
	local.get	3
	i32.const	0
	i32.store	44
	local.get	3
	i32.const	0
	i32.store	28
	local.get	3
	i32.const	0
	i32.store	12
	local.get	3
	local.get	0
	i32.const	244
	i32.add 
	i32.store	40
	local.get	3
	local.get	0
	i32.const	4
	i32.add 
	local.tee	0
	i32.store	24
	local.get	3
	local.get	0
	i32.store	8
	local.get	3
	local.get	5
	i32.const	2
	i32.shr_u
	i32.const	7
	i32.add 
	i64.extend_i32_u
	local.tee	7
	i64.store	32
	local.get	3
	local.get	7
	i64.store	16
	local.get	3
	i32.const	8
	i32.add 
	local.get	1
	i32.const	3
	local.get	2
	call	gcm__mode__BorrowedGcm__end____c13ce517942629d6_
	i32.const	255
	i32.and 
	i32.const	3
	i32.shl 
	local.set	4
.LBB99_3:                               # %wide_fotsgure_gcm_finish_unverified.exit
	end_block                               # label324:
	local.get	3
	i32.const	48
	i32.add 
	global.set	__stack_pointer
	local.get	4
                                        # fallthrough-return
	end_function
                                        # -- End function
	.section	.text.fotsgure_gcm_wipe_message,"",@
	.globl	fotsgure_gcm_wipe_message       # -- Begin function fotsgure_gcm_wipe_message
	.type	fotsgure_gcm_wipe_message,@function
fotsgure_gcm_wipe_message:              # @fotsgure_gcm_wipe_message
	.functype	fotsgure_gcm_wipe_message (i32) -> ()
# %bb.0:
	local.get	0
	i32.const	0
	i32.const	80
	memory.fill	0
	local.get	0
	call	gcm__message_state__MessageZeroize__zeroize
                                        # fallthrough-return
	end_function
                                        # -- End function
	.section	.text.fotsgure_gcm_siv_set_key,"",@
	.globl	fotsgure_gcm_siv_set_key        # -- Begin function fotsgure_gcm_siv_set_key
	.type	fotsgure_gcm_siv_set_key,@function
fotsgure_gcm_siv_set_key:               # @fotsgure_gcm_siv_set_key
	.functype	fotsgure_gcm_siv_set_key (i32, i32, i32) -> (i32)
	.local  	i32
# %bb.0:
	block   	
	block   	
	local.get	2
	i32.const	-16
	i32.add 
	br_table 	{1, 0, 0, 0, 0, 0, 0, 0, 0, 0, 0, 0, 0, 0, 0, 0, 1, 0} # 0: down to label326
                                        # 1: down to label325
.LBB101_1:                              # %then.1.i.i
	end_block                               # label326:
	local.get	0
	i32.const	0
	i32.const	244
	memory.fill	0
	i32.const	1
	return
.LBB101_2:                              # %join.3.i.i
	end_block                               # label325:
	local.get	0
	i32.const	4
	i32.add 
	local.tee	3
	i32.const	0
	i32.const	240
	memory.fill	0
	local.get	3
	local.get	1
	i32.const	0
	i32.const	4096
	local.get	1
	i32.select
	i32.add 
	local.get	2
	i64.extend_i32_u
	call	aes_permute__lane_keys__expand_lanes
	local.get	0
	local.get	2
	i32.store	0
	i32.const	0
                                        # fallthrough-return
	end_function
                                        # -- End function
	.section	.text.fotsgure_gcm_siv_seal,"",@
	.globl	fotsgure_gcm_siv_seal           # -- Begin function fotsgure_gcm_siv_seal
	.type	fotsgure_gcm_siv_seal,@function
fotsgure_gcm_siv_seal:                  # @fotsgure_gcm_siv_seal
	.functype	fotsgure_gcm_siv_seal (i32, i32, i32, i32, i32, i32, i32) -> (i32)
# %bb.0:
	local.get	0
	local.get	1
	local.get	2
	i32.const	0
	i32.const	4096
	local.get	2
	i32.select
	i32.add 
	local.get	3
	i64.extend_i32_u
	local.get	4
	i32.const	0
	i32.const	4096
	local.get	4
	i32.select
	i32.add 
	local.get	5
	i64.extend_i32_u
	local.get	6
	call	gcm_c__siv__fotsgure_gcm_siv_seal
                                        # fallthrough-return
	end_function
                                        # -- End function
	.section	.text.fotsgure_gcm_siv_seal_to,"",@
	.globl	fotsgure_gcm_siv_seal_to        # -- Begin function fotsgure_gcm_siv_seal_to
	.type	fotsgure_gcm_siv_seal_to,@function
fotsgure_gcm_siv_seal_to:               # @fotsgure_gcm_siv_seal_to
	.functype	fotsgure_gcm_siv_seal_to (i32, i32, i32, i32, i32, i32, i32, i32, i32) -> (i32)
	.local  	i32, i64, i32, i64, i64, i64, i64
# %bb.0:
	block   	
	local.get	5
	local.get	7
	i32.eq  
	br_if   	0                               # 0: down to label327
# %bb.1:
	i32.const	10
	return
.LBB103_2:                              # %join.3.i.i
	end_block                               # label327:
	i32.const	2
	local.set	7
	block   	
	block   	
	local.get	0
	i32.load	0
	i32.const	-16
	i32.add 
	br_table 	{0, 1, 1, 1, 1, 1, 1, 1, 1, 1, 1, 1, 1, 1, 1, 1, 0, 1} # 1: down to label328
                                        # 0: down to label329
.LBB103_3:                              # %join.6.i.i
	end_block                               # label329:
	local.get	2
	i32.const	0
	i32.const	4096
	local.get	2
	i32.select
	i32.add 
	local.set	9
	local.get	3
	i64.extend_i32_u
	local.set	10
	block   	
	block   	
	local.get	6
	i32.const	0
	i32.const	4096
	local.get	6
	i32.select
	local.tee	3
	i32.add 
	local.tee	2
	i64.extend_i32_u
	local.get	4
	i32.const	0
	i32.const	4096
	local.get	4
	i32.select
	local.tee	11
	i32.add 
	local.tee	7
	i64.extend_i32_u
	i64.sub 
	local.get	5
	i64.extend_i32_u
	local.tee	12
	i64.ge_u
	br_if   	0                               # 0: down to label331
# %bb.4:                                # %join.7.i.i.i.i.i.i.i.i.preheader
	i64.const	0
	local.set	13
	block   	
	local.get	5
	i32.const	16
	i32.lt_u
	br_if   	0                               # 0: down to label332
# %bb.5:                                # %vector.memcheck
	local.get	6
	local.get	3
	i32.add 
	local.get	7
	i32.sub 
	i32.const	16
	i32.lt_u
	br_if   	0                               # 0: down to label332
# %bb.6:                                # %vector.ph
	local.get	2
	local.set	5
	local.get	12
	i64.const	4294967280
	i64.and 
	local.tee	13
	local.set	14
.LBB103_7:                              # %vector.body
                                        # =>This Inner Loop Header: Depth=1
	loop    	                                # label333:
	local.get	5
	local.get	7
	v128.load	0:p2align=0
	v128.store	0:p2align=0
	local.get	5
	i32.const	16
	i32.add 
	local.set	5
	local.get	7
	i32.const	16
	i32.add 
	local.set	7
	local.get	14
	i64.const	-16
	i64.add 
	local.tee	14
	i64.const	0
	i64.ne  
	br_if   	0                               # 0: up to label333
# %bb.8:                                # %middle.block
	end_loop
	local.get	13
	local.get	12
	i64.eq  
	br_if   	2                               # 2: down to label330
.LBB103_9:                              # %join.7.i.i.i.i.i.i.i.i.preheader2
	end_block                               # label332:
	local.get	13
	local.set	15
	block   	
	local.get	12
	i64.const	3
	i64.and 
	local.tee	14
	i64.eqz
	br_if   	0                               # 0: down to label334
# %bb.10:                               # %join.7.i.i.i.i.i.i.i.i.prol.preheader
	local.get	13
	local.get	14
	i64.add 
	local.set	15
	local.get	6
	local.get	3
	local.get	13
	i32.wrap_i64
	local.tee	5
	i32.add 
	i32.add 
	local.set	7
	local.get	4
	local.get	11
	local.get	5
	i32.add 
	i32.add 
	local.set	5
.LBB103_11:                             # %join.7.i.i.i.i.i.i.i.i.prol
                                        # =>This Inner Loop Header: Depth=1
	loop    	                                # label335:
	local.get	7
	local.get	5
	i32.load8_u	0
	i32.store8	0
	local.get	7
	i32.const	1
	i32.add 
	local.set	7
	local.get	5
	i32.const	1
	i32.add 
	local.set	5
	local.get	14
	i64.const	-1
	i64.add 
	local.tee	14
	i64.const	0
	i64.ne  
	br_if   	0                               # 0: up to label335
.LBB103_12:                             # %join.7.i.i.i.i.i.i.i.i.prol.loopexit
	end_loop
	end_block                               # label334:
	local.get	13
	local.get	12
	i64.sub 
	i64.const	-4
	i64.gt_u
	br_if   	1                               # 1: down to label330
# %bb.13:                               # %join.7.i.i.i.i.i.i.i.i.preheader3
	local.get	12
	local.get	15
	i64.sub 
	local.set	14
	local.get	4
	local.get	11
	local.get	15
	i32.wrap_i64
	local.tee	5
	i32.add 
	i32.add 
	local.set	7
	local.get	6
	local.get	3
	local.get	5
	i32.add 
	i32.add 
	local.set	5
.LBB103_14:                             # %join.7.i.i.i.i.i.i.i.i
                                        # =>This Inner Loop Header: Depth=1
	loop    	                                # label336:
	local.get	5
	local.get	7
	i32.load8_u	0
	i32.store8	0
	local.get	5
	i32.const	1
	i32.add 
	local.get	7
	i32.const	1
	i32.add 
	i32.load8_u	0
	i32.store8	0
	local.get	5
	i32.const	2
	i32.add 
	local.get	7
	i32.const	2
	i32.add 
	i32.load8_u	0
	i32.store8	0
	local.get	5
	i32.const	3
	i32.add 
	local.get	7
	i32.const	3
	i32.add 
	i32.load8_u	0
	i32.store8	0
	local.get	7
	i32.const	4
	i32.add 
	local.set	7
	local.get	5
	i32.const	4
	i32.add 
	local.set	5
	local.get	14
	i64.const	-4
	i64.add 
	local.tee	14
	i64.const	0
	i64.ne  
	br_if   	0                               # 0: up to label336
	br      	2                               # 2: down to label330
.LBB103_15:                             # %apart.2.i.i.i.i.i.i.i.i
	end_loop
	end_block                               # label331:
	local.get	5
	i32.eqz
	br_if   	0                               # 0: down to label330
# %bb.16:                               # %apart.2.i.i.i.i.i.i.i.i
	local.get	2
	local.get	7
	local.get	5
	memory.copy	0, 0
.LBB103_17:                             # %core__slice__edits__slice_T__copy_from_slice___i8_20_core__clone__U8Clone___.exit.i.i
	end_block                               # label330:
	local.get	0
	local.get	1
	local.get	9
	local.get	10
	local.get	2
	local.get	12
	local.get	8
	call	gcm_c__siv__fotsgure_gcm_siv_seal
	local.set	7
.LBB103_18:                             # %wide_fotsgure_gcm_siv_seal_to.exit
	end_block                               # label328:
	local.get	7
                                        # fallthrough-return
	end_function
                                        # -- End function
	.section	.text.fotsgure_gcm_siv_open,"",@
	.globl	fotsgure_gcm_siv_open           # -- Begin function fotsgure_gcm_siv_open
	.type	fotsgure_gcm_siv_open,@function
fotsgure_gcm_siv_open:                  # @fotsgure_gcm_siv_open
	.functype	fotsgure_gcm_siv_open (i32, i32, i32, i32, i32, i32, i32) -> (i32)
# %bb.0:
	local.get	0
	local.get	1
	local.get	2
	i32.const	0
	i32.const	4096
	local.get	2
	i32.select
	i32.add 
	local.get	3
	i64.extend_i32_u
	local.get	4
	i32.const	0
	i32.const	4096
	local.get	4
	i32.select
	i32.add 
	local.get	5
	i64.extend_i32_u
	local.get	6
	call	gcm_c__siv__fotsgure_gcm_siv_open
                                        # fallthrough-return
	end_function
                                        # -- End function
	.section	.text.fotsgure_gcm_siv_open_to,"",@
	.globl	fotsgure_gcm_siv_open_to        # -- Begin function fotsgure_gcm_siv_open_to
	.type	fotsgure_gcm_siv_open_to,@function
fotsgure_gcm_siv_open_to:               # @fotsgure_gcm_siv_open_to
	.functype	fotsgure_gcm_siv_open_to (i32, i32, i32, i32, i32, i32, i32, i32, i32) -> (i32)
	.local  	i32, i64, i32, i32, i64, i64, i64, i64
# %bb.0:
	block   	
	local.get	5
	local.get	7
	i32.eq  
	br_if   	0                               # 0: down to label337
# %bb.1:
	i32.const	10
	return
.LBB105_2:                              # %join.3.i.i
	end_block                               # label337:
	i32.const	2
	local.set	7
	block   	
	block   	
	local.get	0
	i32.load	0
	i32.const	-16
	i32.add 
	br_table 	{0, 1, 1, 1, 1, 1, 1, 1, 1, 1, 1, 1, 1, 1, 1, 1, 0, 1} # 1: down to label338
                                        # 0: down to label339
.LBB105_3:                              # %join.6.i.i
	end_block                               # label339:
	local.get	2
	i32.const	0
	i32.const	4096
	local.get	2
	i32.select
	i32.add 
	local.set	9
	local.get	3
	i64.extend_i32_u
	local.set	10
	block   	
	block   	
	local.get	6
	i32.const	0
	i32.const	4096
	local.get	6
	i32.select
	local.tee	11
	i32.add 
	local.tee	3
	i64.extend_i32_u
	local.get	4
	i32.const	0
	i32.const	4096
	local.get	4
	i32.select
	local.tee	12
	i32.add 
	local.tee	7
	i64.extend_i32_u
	i64.sub 
	local.get	5
	i64.extend_i32_u
	local.tee	13
	i64.ge_u
	br_if   	0                               # 0: down to label341
# %bb.4:                                # %join.7.i.i.i.i.i.i.i.i.preheader
	i64.const	0
	local.set	14
	block   	
	local.get	5
	i32.const	16
	i32.lt_u
	br_if   	0                               # 0: down to label342
# %bb.5:                                # %vector.memcheck
	local.get	6
	local.get	11
	i32.add 
	local.get	7
	i32.sub 
	i32.const	16
	i32.lt_u
	br_if   	0                               # 0: down to label342
# %bb.6:                                # %vector.ph
	local.get	3
	local.set	2
	local.get	13
	i64.const	4294967280
	i64.and 
	local.tee	14
	local.set	15
.LBB105_7:                              # %vector.body
                                        # =>This Inner Loop Header: Depth=1
	loop    	                                # label343:
	local.get	2
	local.get	7
	v128.load	0:p2align=0
	v128.store	0:p2align=0
	local.get	2
	i32.const	16
	i32.add 
	local.set	2
	local.get	7
	i32.const	16
	i32.add 
	local.set	7
	local.get	15
	i64.const	-16
	i64.add 
	local.tee	15
	i64.const	0
	i64.ne  
	br_if   	0                               # 0: up to label343
# %bb.8:                                # %middle.block
	end_loop
	local.get	14
	local.get	13
	i64.eq  
	br_if   	2                               # 2: down to label340
.LBB105_9:                              # %join.7.i.i.i.i.i.i.i.i.preheader2
	end_block                               # label342:
	local.get	14
	local.set	16
	block   	
	local.get	13
	i64.const	3
	i64.and 
	local.tee	15
	i64.eqz
	br_if   	0                               # 0: down to label344
# %bb.10:                               # %join.7.i.i.i.i.i.i.i.i.prol.preheader
	local.get	14
	local.get	15
	i64.add 
	local.set	16
	local.get	6
	local.get	11
	local.get	14
	i32.wrap_i64
	local.tee	2
	i32.add 
	i32.add 
	local.set	7
	local.get	4
	local.get	12
	local.get	2
	i32.add 
	i32.add 
	local.set	2
.LBB105_11:                             # %join.7.i.i.i.i.i.i.i.i.prol
                                        # =>This Inner Loop Header: Depth=1
	loop    	                                # label345:
	local.get	7
	local.get	2
	i32.load8_u	0
	i32.store8	0
	local.get	7
	i32.const	1
	i32.add 
	local.set	7
	local.get	2
	i32.const	1
	i32.add 
	local.set	2
	local.get	15
	i64.const	-1
	i64.add 
	local.tee	15
	i64.const	0
	i64.ne  
	br_if   	0                               # 0: up to label345
.LBB105_12:                             # %join.7.i.i.i.i.i.i.i.i.prol.loopexit
	end_loop
	end_block                               # label344:
	local.get	14
	local.get	13
	i64.sub 
	i64.const	-4
	i64.gt_u
	br_if   	1                               # 1: down to label340
# %bb.13:                               # %join.7.i.i.i.i.i.i.i.i.preheader3
	local.get	13
	local.get	16
	i64.sub 
	local.set	15
	local.get	4
	local.get	12
	local.get	16
	i32.wrap_i64
	local.tee	2
	i32.add 
	i32.add 
	local.set	7
	local.get	6
	local.get	11
	local.get	2
	i32.add 
	i32.add 
	local.set	2
.LBB105_14:                             # %join.7.i.i.i.i.i.i.i.i
                                        # =>This Inner Loop Header: Depth=1
	loop    	                                # label346:
	local.get	2
	local.get	7
	i32.load8_u	0
	i32.store8	0
	local.get	2
	i32.const	1
	i32.add 
	local.get	7
	i32.const	1
	i32.add 
	i32.load8_u	0
	i32.store8	0
	local.get	2
	i32.const	2
	i32.add 
	local.get	7
	i32.const	2
	i32.add 
	i32.load8_u	0
	i32.store8	0
	local.get	2
	i32.const	3
	i32.add 
	local.get	7
	i32.const	3
	i32.add 
	i32.load8_u	0
	i32.store8	0
	local.get	7
	i32.const	4
	i32.add 
	local.set	7
	local.get	2
	i32.const	4
	i32.add 
	local.set	2
	local.get	15
	i64.const	-4
	i64.add 
	local.tee	15
	i64.const	0
	i64.ne  
	br_if   	0                               # 0: up to label346
	br      	2                               # 2: down to label340
.LBB105_15:                             # %apart.2.i.i.i.i.i.i.i.i
	end_loop
	end_block                               # label341:
	local.get	5
	i32.eqz
	br_if   	0                               # 0: down to label340
# %bb.16:                               # %apart.2.i.i.i.i.i.i.i.i
	local.get	3
	local.get	7
	local.get	5
	memory.copy	0, 0
.LBB105_17:                             # %core__slice__edits__slice_T__copy_from_slice___i8_20_core__clone__U8Clone___.exit.i.i
	end_block                               # label340:
	block   	
	local.get	0
	local.get	1
	local.get	9
	local.get	10
	local.get	3
	local.get	13
	local.get	8
	call	gcm_c__siv__fotsgure_gcm_siv_open
	local.tee	7
	br_if   	0                               # 0: down to label347
# %bb.18:
	i32.const	0
	return
.LBB105_19:                             # %then.7.i.i
	end_block                               # label347:
	local.get	5
	i32.eqz
	br_if   	0                               # 0: down to label338
# %bb.20:                               # %loop.5.preheader.i.i.i
	block   	
	local.get	13
	i64.const	-1
	i64.add 
	local.tee	15
	i64.eqz
	br_if   	0                               # 0: down to label348
# %bb.21:                               # %join.8.preheader.i.i.i
	local.get	5
	i32.const	-1
	i32.add 
	local.tee	2
	i32.eqz
	br_if   	0                               # 0: down to label348
# %bb.22:                               # %join.8.preheader.i.i.i
	local.get	3
	i32.const	0
	local.get	2
	memory.fill	0
.LBB105_23:                             # %after.4.i.i.i
	end_block                               # label348:
	local.get	3
	local.get	15
	i32.wrap_i64
	i32.add 
	i32.const	0
	i32.store8	0
.LBB105_24:                             # %wide_fotsgure_gcm_siv_open_to.exit
	end_block                               # label338:
	local.get	7
                                        # fallthrough-return
	end_function
                                        # -- End function
	.section	.text.fotsgure_gcm_siv_wipe,"",@
	.globl	fotsgure_gcm_siv_wipe           # -- Begin function fotsgure_gcm_siv_wipe
	.type	fotsgure_gcm_siv_wipe,@function
fotsgure_gcm_siv_wipe:                  # @fotsgure_gcm_siv_wipe
	.functype	fotsgure_gcm_siv_wipe (i32) -> ()
# %bb.0:
	local.get	0
	i32.const	0
	i32.const	244
	memory.fill	0
	local.get	0
	i32.const	4
	i32.add 
	call	aes_cipher__zeroize__elements__zeroize_elements____530874d131791bfe_
                                        # fallthrough-return
	end_function
                                        # -- End function
	.type	.Lstatic.0,@object              # @static.0
	.section	.rodata..Lstatic.0,"",@
.Lstatic.0:
	.ascii	"\001\002\004\b\020 @\200\0336"
	.size	.Lstatic.0, 10

	.type	.Lstatic.1,@object              # @static.1
	.section	.rodata..Lstatic.1,"",@
.Lstatic.1:
	.ascii	"\000\001\034\035-,10'&;:\n\013\026\027"
	.size	.Lstatic.1, 16

	.type	.Lstatic.2,@object              # @static.2
	.section	.rodata..Lstatic.2,"",@
.Lstatic.2:
	.ascii	"\000\206\375{\216\bs\365w\361\212\f\371\177\004\202"
	.size	.Lstatic.2, 16

	.type	.Lstatic.3,@object              # @static.3
	.section	.rodata..Lstatic.3,"",@
.Lstatic.3:
	.ascii	"\000\001\002\003\004\005\006\007\b\t\n\013\f\r\016\017\000\005\n\017\004\t\016\003\b\r\002\007\f\001\006\013\000\t\002\013\004\r\006\017\b\001\n\003\f\005\016\007\000\r\n\007\004\001\016\013\b\005\002\017\f\t\006\003"
	.size	.Lstatic.3, 64

	.type	.Lstatic.5,@object              # @static.5
	.section	.rodata..Lstatic.5,"",@
.Lstatic.5:
	.ascii	"\001\002\003\000\005\006\007\004\t\n\013\b\r\016\017\f\005\006\007\004\t\n\013\b\r\016\017\f\001\002\003\000\t\n\013\b\r\016\017\f\001\002\003\000\005\006\007\004\r\016\017\f\001\002\003\000\005\006\007\004\t\n\013\b"
	.size	.Lstatic.5, 64

	.type	.Lstatic.6,@object              # @static.6
	.section	.rodata..Lstatic.6,"",@
.Lstatic.6:
	.ascii	"\003\000\001\002\007\004\005\006\013\b\t\n\017\f\r\016\017\f\r\016\003\000\001\002\007\004\005\006\013\b\t\n\013\b\t\n\017\f\r\016\003\000\001\002\007\004\005\006\007\004\005\006\013\b\t\n\017\f\r\016\003\000\001\002"
	.size	.Lstatic.6, 64

	.ident	"rattle logic=dac8208d650f15bf3e2dc313a14fa4c783a3acf887bdfab66e1714b038d9e11b"
	.section	.custom_section.producers,"",@
	.int8	1
	.int8	12
	.ascii	"processed-by"
	.int8	1
	.int8	77
	.ascii	"rattle logic=dac8208d650f15bf3e2dc313a14fa4c783a3acf887bdfab66e1714b038d9e11b"
	.int8	0
	.section	.rodata..Lstatic.6,"",@
	.section	.custom_section.target_features,"",@
	.int8	3
	.int8	43
	.int8	11
	.ascii	"bulk-memory"
	.int8	43
	.int8	15
	.ascii	"bulk-memory-opt"
	.int8	43
	.int8	7
	.ascii	"simd128"
	.section	.rodata..Lstatic.6,"",@
