/* Asks for the first fault of the registers of the processor it runs on. */
#include <linux/init.h>
#include <linux/module.h>
#include <asm/msr.h>
#include <asm/processor.h>

#include "mtrr.h"

static void read_registers(struct mtrr_registers *r)
{
	static const u32 fixed[MTRR_FIXED_REGISTERS] = {
		0x250, 0x258, 0x259, 0x268, 0x269, 0x26a,
		0x26b, 0x26c, 0x26d, 0x26e, 0x26f};
	unsigned int i;

	memset(r, 0, sizeof(*r));
	r->width = boot_cpu_data.x86_phys_bits;
	rdmsrl(MTRR_MSR_CAPABILITIES, r->capabilities);
	for (i = 0; i < (r->capabilities & 0xff) && i < MTRR_MAX_PAIRS; i++) {
		rdmsrl(MTRR_MSR_PHYSBASE(i), r->pairs[i].base);
		rdmsrl(MTRR_MSR_PHYSMASK(i), r->pairs[i].mask);
	}
	for (i = 0; r->capabilities & 0x100 && i < MTRR_FIXED_REGISTERS; i++)
		rdmsrl(fixed[i], r->fixed[i]);
	rdmsrl(MTRR_MSR_PAT, r->pat);
	rdmsrl(MTRR_MSR_DEF_TYPE, r->default_type);
}

static int __init check_init(void)
{
	static struct mtrr_work work;
	static struct mtrr_registers now, tidied;
	struct mtrr_fault fault = {0, 0};
	struct mtrr_need need = {0, 0};

	read_registers(&now);
	if (mtrr_first_fault(&now, &fault) == MTRR_FAULT)
		pr_warn("mtrr_check: register %x has fault %u\n", fault.number,
			fault.reason);
	else if (mtrr_tidy(&now, 0, 1ull << 52, &work, &tidied, &need) ==
		 MTRR_DONE)
		pr_info("mtrr_check: %llu of %llu pairs are enough\n",
			(unsigned long long)need.needs,
			(unsigned long long)need.has);
	return 0;
}

static void __exit check_exit(void)
{
}

module_init(check_init);
module_exit(check_exit);
MODULE_LICENSE("GPL");
