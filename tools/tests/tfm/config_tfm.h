/* The sizes of stacks, in the form of TF-M's configuration headers. */
#ifndef CRYPTO_STACK_SIZE
#define CRYPTO_STACK_SIZE               0x1B00
#endif

#define PS_STACK_SIZE                   0x700   /* protected storage */
#define ITS_STACK_SIZE                  (PS_STACK_SIZE + 0x20)
#define ATTEST_STACK_SIZE               0x700U
#define PLATFORM_SP_STACK_SIZE          0x500
#define FWU_STACK_SIZE                  (6 * 256)
#define CONFIG_TFM_IDLE_STACK_SIZE      0x100
