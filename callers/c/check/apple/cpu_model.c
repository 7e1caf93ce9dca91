/* What check/choose.c needs of clang's library for macOS, which Linux doesn't have: the word that __builtin_cpu_supports reads. */
unsigned features_of_processor(void); /* in loader.c */

__attribute__((visibility("hidden"))) struct {
    unsigned vendor, type, subtype, features;
} __cpu_model;

__attribute__((visibility("hidden"))) int __cpu_indicator_init(void)
{
    __cpu_model.features = features_of_processor();
    return 0;
}
