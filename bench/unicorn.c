/* Runs an image many times by the Unicorn engine, up to an address: `unicorn fork|reset COUNT IMAGE STOP`. By `fork` each run is a process that is forked
 * where the image is ready, as a fork server has it; by `reset` all runs are in one process, which puts the registers and the whole memory back. Register 3
 * at the end of the last run is printed. `bench/fuzz` compiles it where it can: `cc -O2 unicorn.c -lunicorn` (Debian: libunicorn-dev). */
#include <elf.h>
#include <stdio.h>
#include <stdlib.h>
#include <string.h>
#include <sys/wait.h>
#include <unistd.h>
#include <unicorn/unicorn.h>

#define BASE 0x80000000u
#define SIZE 0x10000u

static unsigned char image[SIZE], memory[SIZE];
static unsigned start;

static void must(int holds, const char *what)
{
	if (!holds) {
		fprintf(stderr, "unicorn: %s\n", what);
		exit(1);
	}
}

/* puts the segments of an executable where they belong */
static void load(const char *name)
{
	static unsigned char file[1 << 20];
	FILE *from = fopen(name, "rb");
	must(from != NULL, name);
	size_t size = fread(file, 1, sizeof file, from);
	Elf32_Ehdr *header = (Elf32_Ehdr *)file;
	Elf32_Phdr *segment = (Elf32_Phdr *)(file + header->e_phoff);
	must(size > sizeof *header, "no executable");
	for (int n = 0; n < header->e_phnum; n++)
		if (segment[n].p_type == PT_LOAD)
			memcpy(image + (segment[n].p_vaddr - BASE), file + segment[n].p_offset, segment[n].p_filesz);
	start = header->e_entry;
}

static uc_engine *engine;
static uc_context *registers;

static void reset(void)
{
	must(uc_context_restore(engine, registers) == UC_ERR_OK, "registers");
	memcpy(memory, image, SIZE);
}

static void run(unsigned stop)
{
	must(uc_emu_start(engine, start, stop, 0, 0) == UC_ERR_OK, "a run");
}

static void run_forked(unsigned stop)
{
	int status;
	pid_t child = fork();
	must(child >= 0, "fork");
	if (child == 0) {
		run(stop);
		_exit(0);
	}
	waitpid(child, &status, 0);
	must(status == 0, "a child");
}

int main(int count, char **words)
{
	must(count == 5, "fork|reset COUNT IMAGE STOP");
	int is_forked = strcmp(words[1], "fork") == 0, runs = atoi(words[2]);
	unsigned stop = strtoul(words[4], NULL, 16), last;
	load(words[3]);
	must(uc_open(UC_ARCH_MIPS, UC_MODE_MIPS32 | UC_MODE_LITTLE_ENDIAN, &engine) == UC_ERR_OK, "the engine");
	must(uc_mem_map_ptr(engine, BASE, SIZE, UC_PROT_ALL, memory) == UC_ERR_OK, "memory");
	must(uc_context_alloc(engine, &registers) == UC_ERR_OK && uc_context_save(engine, registers) == UC_ERR_OK, "registers");
	memcpy(memory, image, SIZE);
	/* so that the code is translated once, and not in each child */
	run(stop);
	for (int n = 0; n < runs; n++) {
		if (is_forked) {
			run_forked(stop);
		} else {
			reset();
			run(stop);
		}
	}
	uc_reg_read(engine, UC_MIPS_REG_3, &last);
	printf("%u\n", last);
	return 0;
}
