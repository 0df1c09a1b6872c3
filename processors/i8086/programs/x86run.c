/* x86run IMAGE LAST: runs the image on libx86emu from 0000:0000 until the jump to itself at LAST, which R_TSC counts once, and prints
   what compare.py compares. */
#include <stdio.h>
#include <stdlib.h>
#include <x86emu.h>
static unsigned char image[0x100000];
int main(int argc, char **argv) {
  FILE *f = fopen(argv[1], "rb");
  size_t n = fread(image, 1, sizeof image, f);
  unsigned last = strtoul(argv[2], 0, 0);
  x86emu_t *emu = x86emu_new(X86EMU_PERM_RWX, 0);
  for (size_t i = 0; i < sizeof image; i++) x86emu_write_byte_noperm(emu, i, image[i]);
  x86emu_set_seg_register(emu, emu->x86.R_CS_SEL, 0);
  x86emu_set_seg_register(emu, emu->x86.R_DS_SEL, 0);
  x86emu_set_seg_register(emu, emu->x86.R_ES_SEL, 0);
  x86emu_set_seg_register(emu, emu->x86.R_SS_SEL, 0);
  emu->x86.R_AX = emu->x86.R_BX = emu->x86.R_CX = emu->x86.R_DX = emu->x86.R_SI = emu->x86.R_DI = emu->x86.R_BP = emu->x86.R_SP = 0;
  emu->x86.R_IP = 0;
  emu->x86.R_FLG = 2;
  emu->max_instr = 1000000;
  x86emu_run(emu, X86EMU_RUN_LOOP | X86EMU_RUN_MAX_INSTR);
  unsigned at = emu->x86.R_CS * 16 + emu->x86.R_IP;
  if (at != last) return 1;
  printf("steps %llu\ncounter %06x\n", (unsigned long long) emu->x86.R_TSC - 1, at);
  printf("AX %04x\nCX %04x\nDX %04x\nBX %04x\nSP %04x\nBP %04x\nSI %04x\nDI %04x\n", emu->x86.R_AX, emu->x86.R_CX, emu->x86.R_DX,
         emu->x86.R_BX, emu->x86.R_SP, emu->x86.R_BP, emu->x86.R_SI, emu->x86.R_DI);
  printf("ES %04x\nCS %04x\nSS %04x\nDS %04x\n", emu->x86.R_ES, emu->x86.R_CS, emu->x86.R_SS, emu->x86.R_DS);
  for (unsigned i = 0; i < 0x30000; i++) {
    unsigned b = x86emu_read_byte_noperm(emu, i);
    if (b != image[i]) printf("ram[%06x] %02x\n", i, b);
  }
  return 0;
}
