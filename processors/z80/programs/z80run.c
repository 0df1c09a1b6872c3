/* z80run IMAGE: runs the image on z80ex until an instruction jumps to itself, and prints what compare.py compares. */
#include <stdio.h>
#include <stdlib.h>
#include <z80ex/z80ex.h>
static Z80EX_BYTE memory[65536], image[65536], io[65536];
static Z80EX_BYTE rd(Z80EX_CONTEXT *c, Z80EX_WORD a, int m1, void *u) { return memory[a]; }
static void wr(Z80EX_CONTEXT *c, Z80EX_WORD a, Z80EX_BYTE v, void *u) { memory[a] = v; }
static Z80EX_BYTE in(Z80EX_CONTEXT *c, Z80EX_WORD a, void *u) { return io[a]; }
static void out(Z80EX_CONTEXT *c, Z80EX_WORD a, Z80EX_BYTE v, void *u) { io[a] = v; }
static Z80EX_BYTE vector(Z80EX_CONTEXT *c, void *u) { return 0xff; }
int main(int argc, char **argv) {
  FILE *f = fopen(argv[1], "rb");
  fread(memory, 1, sizeof memory, f);
  for (int i = 0; i < 65536; i++) image[i] = memory[i];
  Z80EX_CONTEXT *cpu = z80ex_create(rd, 0, wr, 0, in, 0, out, 0, vector, 0);
  static const struct { Z80_REG_T reg; const char *name; } regs[] = {
    {regAF, "af"}, {regBC, "bc"}, {regDE, "de"}, {regHL, "hl"}, {regAF_, "af_"}, {regBC_, "bc_"}, {regDE_, "de_"}, {regHL_, "hl_"},
    {regIX, "ix"}, {regIY, "iy"}, {regSP, "sp"}};
  for (int i = 0; i < 11; i++) z80ex_set_reg(cpu, regs[i].reg, 0);
  z80ex_set_reg(cpu, regPC, 0);
  z80ex_set_reg(cpu, regI, 0);
  for (long steps = 0; steps < 10000000; ) {
    unsigned before = z80ex_get_reg(cpu, regPC);
    do z80ex_step(cpu); while (z80ex_last_op_type(cpu));
    if (z80ex_get_reg(cpu, regPC) == before && memory[before] == 0x18) {
      printf("steps %ld\ncounter %04x\n", steps, before);
      break;
    }
    steps++;
  }
  for (int i = 0; i < 11; i++) {
    unsigned v = z80ex_get_reg(cpu, regs[i].reg);
    printf("%s %04x\n", regs[i].name, i == 0 || i == 4 ? v & 0xffd7 : v);
  }
  for (int i = 0; i < 0xff00; i++) if (memory[i] != image[i]) printf("ram[%04x] %02x\n", i, memory[i]);
  for (int i = 0; i < 65536; i++) if (io[i]) printf("io[%04x] %02x\n", i, io[i]);
  return 0;
}
