/* An application that tells its name and returns, so that the boot manager goes on to the next entry. One whose name begins
 * with an exclamation mark turns the machine off. The declarations are those of UEFI 2.10, 4.3, 4.5 and 12.4. */
typedef unsigned short CHAR16;
typedef unsigned long long UINTN;
#define API __attribute__((ms_abi))
#define ABORTED 0x8000000000000015ULL
#define SHUTDOWN 2

typedef struct {
    UINTN signature;
    unsigned revision, size, crc, reserved;
} HEAD;

typedef struct TEXT {
    void *reset;
    UINTN(API *output)(struct TEXT *, const CHAR16 *);
} TEXT;

typedef struct {
    HEAD head;
    void *services[10];
    void(API *reset)(int, UINTN, UINTN, void *);
} RUNTIME;

typedef struct {
    HEAD head;
    CHAR16 *vendor;
    unsigned revision;
    void *input_handle, *input, *output_handle;
    TEXT *output;
    void *error_handle, *error;
    RUNTIME *runtime;
    void *boot;
} TABLE;

static volatile CHAR16 name[32] = L"NAME@NAME@NAME@NAME@NAME@NAME";
/* An address, so that the image has a relocation. */
static const CHAR16 *volatile text = (const CHAR16 *)name;

UINTN API efi_main(void *image, TABLE *table) {
    (void)image;
    table->output->output(table->output, L"[ran ");
    table->output->output(table->output, (const CHAR16 *)text);
    table->output->output(table->output, L"]\r\n");
    if (text[0] == '!') {
        table->runtime->reset(SHUTDOWN, 0, 0, 0);
    }
    return ABORTED;
}
