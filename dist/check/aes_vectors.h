/* Examples of the standards, for aes.c. */

/* FIPS 197, appendix C: the key counts from 00 on. */
static const char *const c_plain = "00112233445566778899aabbccddeeff";
static const struct { size_t size; const char *cipher; } c_rows[] = {
    {16, "69c4e0d86a7b0430d8cdb78070b4c55a"},
    {24, "dda97ca4864cdfe06eaf70a0ec0d7191"},
    {32, "8ea2b7ca516745bfeafc49904b496089"},
};

/* SP 800-38A, F.5.1, F.5.3 and F.5.5. */
static const char *const f_iv = "f0f1f2f3f4f5f6f7f8f9fafbfcfdfeff";
static const char *const f_plain = "6bc1bee22e409f96e93d7e117393172aae2d8a571e03ac9c9eb76fac45af8e51"
                                   "30c81c46a35ce411e5fbc1191a0a52eff69f2445df4f9b17ad2b417be66c3710";
static const struct { size_t size; const char *key, *cipher; } f_rows[] = {
    {16, "2b7e151628aed2a6abf7158809cf4f3c",
     "874d6191b620e3261bef6864990db6ce9806f66b7970fdff8617187bb9fffdff"
     "5ae4df3edbd5d35e5b4f09020db03eab1e031dda2fbe03d1792170a0f3009cee"},
    {24, "8e73b0f7da0e6452c810f32b809079e562f8ead2522c6b7b",
     "1abc932417521ca24f2b0459fe7e6e0b090339ec0aa6faefd5ccc2c6f4ce8e94"
     "1e36b26bd1ebc670d1bd1d665620abf74f78a7f6d29809585a97daec58c6b050"},
    {32, "603deb1015ca71be2b73aef0857d77811f352c073b6108d72d9810a30914dff4",
     "601ec313775789a5b7a7f504bbf3d228f443e3ca4d62b59aca84e990cacaf5c5"
     "2b0930daa23de94ce87017ba2d84988ddfc9c58db67aada613c2dd08457941a6"},
};

/* SP 800-38A, F.2.1, F.2.3 and F.2.5: keys and text of F.5, in CBC under the initialization vector 00 01 .. 0f. */
static const char *const cbc_rows[] = {
    "7649abac8119b246cee98e9b12e9197d5086cb9b507219ee95db113a917678b2"
    "73bed6b8e3c1743b7116e69e222295163ff1caa1681fac09120eca307586e1a7",
    "4f021db243bc633d7178183a9fa071e8b4d9ada9ad7dedf4e5e738763f69145a"
    "571b242012fb7ae07fa9baac3df102e008b0e27988598881d920a9e64f5615cd",
    "f58c4c04d6e5f1ba779eabfb5f7bfbd69cfc4e967edb808d679f777bc6702c7d"
    "39f23369a9d9bacfa530e26304231461b2eb05e2c39be9fcda6c19078c6a9d1b",
};

/* RFC 3394, 4.1 to 4.6: the keys count from 00 on, and wrap the first bytes of the same data. */
static const char *const wrap_data = "00112233445566778899aabbccddeeff000102030405060708090a0b0c0d0e0f";
static const struct { size_t size, bytes; const char *wrapped; } wrap_rows[] = {
    {16, 16, "1fa68b0a8112b447aef34bd8fb5a7b829d3e862371d2cfe5"},
    {24, 16, "96778b25ae6ca435f92b5b97c050aed2468ab8a17ad84e5d"},
    {32, 16, "64e8c3f9ce0f5ba263e9777905818a2a93c8191e7d6e8ae7"},
    {24, 24, "031d33264e15d33268f24ec260743edce1c6c7ddee725a936ba814915c6762d2"},
    {32, 24, "a8f9bc1612c68b3ff6e6f4fbe30e71e4769c8b80a32cb8958cd5d17d6b254da1"},
    {32, 32, "28c9f404c4b810f4cbccb35cfb87f8263f5786e2d80ed326cbc7f0e71a99f43bfb988b9b7a02dd21"},
};

/* RFC 5649, 6, and rows of NIST's KWP_AE. */
static const struct { const char *key, *data, *wrapped; } padded_rows[] = {
    {"5840df6e29b02af1ab493b705bf16ea1ae8338f4dcc176a8", "c37b7e6492584340bed12207808941155068f738",
        "138bdeaa9b8fa7fc61f97742e72248ee5ae6ae5360d1ae6a5f54f373fa543b6a"},
    {"5840df6e29b02af1ab493b705bf16ea1ae8338f4dcc176a8", "466f7250617369", "afbeb0f07dfbf5419200f2ccb50bb24f"},
    {"be96dc195ec034d616486ed70e97fe83", "85b5437b6335ebba7635903a4493d12a77d9357a9e0dbc013456d85f1d3201",
        "974769b3a7b4d5d32985f87fddf9990631e5610fbfb278387b58b1f48e05c77d2fb7575c5169eb0e"},
    {"95da2700ca6fd9a52554ee2a8df1386f5b94a1a60ed8a4aef60a8d61ab5f225a", "d1", "06ba7ae6f3248cfdcf267507fa001bc4"},
    {"3517f0efa7f0c4d74f91af83ece5e7503bcc5ab82907a6e4b7ed34d87b69ab1d", "897e0456b289ad31",
        "0b06a9b635d50cda9d4210cb3a71f990"},
};

/* SP 800-38B, D.1 to D.3: tags of the first 0, 16, 40 and 64 bytes of the text of F.5, under its keys. */
static const size_t cmac_lengths[] = {0, 16, 40, 64};
static const char *const cmac_rows[][4] = {
    {"bb1d6929e95937287fa37d129b756746", "070a16b46b4d4144f79bdd9dd04a287c",
     "dfa66747de9ae63030ca32611497c827", "51f0bebf7e3b9d92fc49741779363cfe"},
    {"d17ddf46adaacde531cac483de7a9367", "9e99a7bf31e710900662f65e617c5184",
     "8a1de5be2eb31aad089a82e6ee908b0e", "a1d5df0eed790f794d77589659f39a11"},
    {"028962f61b7bf89efc6b551f4667d983", "28a7023f452e8f82bd4bf28d8c37c35c",
     "aaf3d8f1de5640c232f5b169b9c911e6", "e1992190549f6ed5696a2c056c315410"},
};

/* SP 800-38C, C.1 to C.3: the key is 40 41 .. 4f, the nonce counts from 10 on, the additional data from 00 on, the text from 20 on. */
static const struct { size_t nonce, additional, text, tag; const char *sealed, *tagged; } ccm_rows[] = {
    {7, 8, 4, 4, "7162015b", "4dac255d"},
    {8, 16, 16, 6, "d2a1f0e051ea5f62081a7792073d593d", "1fc64fbfaccd"},
    {12, 20, 24, 8, "e3b201a9f5b71a7a9b1ceaeccd97e70b6176aad9a4428aa5", "484392fbc1b09951"},
};
