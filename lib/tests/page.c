/* The first text of cost and cost_plain, at the beginning of a page: so the archive's code, which follows, lies at the same place of a page in both.
 * Where its loops lie makes more of a difference than what is measured. Not proved. */
__attribute__((aligned(4096))) void snmpsec_test_page(void);
void snmpsec_test_page(void) {}
