#include "start.h"

#include <efilib.h>

/* For how many seconds what is started may do nothing, before the firmware starts the machine again (UEFI 2.10, 7.5).
 */
enum { WATCHDOG = 300 };

/* The first sub-type of a path in a firmware volume, and the last one (UEFI 2.10, 10.3.5). */
enum { IN_VOLUME = 6, VOLUME = 7 };

/* Loads what the bytes of a path lead to, which are given in two parts. */
static EFI_STATUS load(EFI_HANDLE parent, const void *front, size_t front_len, const uint8_t *rest, size_t rest_len,
                       EFI_HANDLE *image)
{
    uint8_t *path = bootkeep_allocate(front_len + rest_len);
    EFI_STATUS status;

    if (path == NULL)
        return EFI_OUT_OF_RESOURCES;
    CopyMem(path, (void *)front, front_len);
    CopyMem(path + front_len, (void *)rest, rest_len);
    status = BS->LoadImage(TRUE, parent, (EFI_DEVICE_PATH *)(void *)path, NULL, 0, image);
    /* It is loaded, and may not be started. */
    if (status == EFI_SECURITY_VIOLATION)
        BS->UnloadImage(*image);
    bootkeep_free(path);
    return status;
}

/* Loads a file on the file systems: on those of the partition that a node tells, or if that is no node, on any. */
static EFI_STATUS load_file(EFI_HANDLE parent, const uint8_t *node, size_t node_len, const uint8_t *file,
                            size_t file_len, EFI_HANDLE *image)
{
    EFI_HANDLE *handles = NULL;
    UINTN count = 0;
    EFI_STATUS status = LibLocateHandle(ByProtocol, &FileSystemProtocol, NULL, &count, &handles);

    if (!EFI_ERROR(status))
        status = EFI_NOT_FOUND;
    for (UINTN at = 0; at < count && EFI_ERROR(status) && status != EFI_OUT_OF_RESOURCES; at++) {
        EFI_DEVICE_PATH *device = DevicePathFromHandle(handles[at]), *end = device, *last = NULL;
        if (device == NULL)
            continue;
        for (; !IsDevicePathEnd(end); end = NextDevicePathNode(end))
            last = end;
        if (node_len > 0 && (last == NULL || (size_t)DevicePathNodeLength(last) != node_len ||
                             CompareMem(last, (void *)node, node_len) != 0))
            continue;
        status = load(parent, device, (size_t)((uint8_t *)end - (uint8_t *)device), file, file_len, image);
    }
    if (handles != NULL)
        FreePool(handles);
    return status;
}

/* Whether a node has this type and sub-type. */
static bool is_node(const uint8_t *node, uint8_t type, uint8_t sub_type)
{
    return node[0] == type && node[1] == sub_type;
}

bool is_startable(const uint8_t *option, const struct bootkeep_option_parts *parts)
{
    const uint8_t *node = option + parts->list;
    bool is_volume = is_node(node, MEDIA_DEVICE_PATH, IN_VOLUME) || is_node(node, MEDIA_DEVICE_PATH, VOLUME);

    return node[0] == HARDWARE_DEVICE_PATH || node[0] == ACPI_DEVICE_PATH || is_volume ||
           is_node(node, MEDIA_DEVICE_PATH, MEDIA_HARDDRIVE_DP) || is_node(node, MEDIA_DEVICE_PATH, MEDIA_FILEPATH_DP);
}

/* Loads what a path leads to. */
static EFI_STATUS load_path(EFI_HANDLE parent, const uint8_t *path, size_t path_len, EFI_HANDLE *image)
{
    size_t node_len = path[2] | (size_t)path[3] << 8;

    if (is_node(path, MEDIA_DEVICE_PATH, MEDIA_HARDDRIVE_DP))
        return load_file(parent, path, node_len, path + node_len, path_len - node_len, image);
    if (is_node(path, MEDIA_DEVICE_PATH, MEDIA_FILEPATH_DP))
        return load_file(parent, NULL, 0, path, path_len, image);
    return load(parent, NULL, 0, path, path_len, image);
}

/* Starts an image as the boot manager does: BootCurrent tells the entry, and is gone when the image comes back. */
static EFI_STATUS run(EFI_HANDLE image, uint16_t number, void *options, size_t options_len)
{
    static EFI_GUID standard = EFI_GLOBAL_VARIABLE;
    const UINT32 attributes = EFI_VARIABLE_BOOTSERVICE_ACCESS | EFI_VARIABLE_RUNTIME_ACCESS;
    EFI_LOADED_IMAGE *loaded;
    UINTN exit_len = 0;
    EFI_STATUS status = BS->HandleProtocol(image, &LoadedImageProtocol, (void **)&loaded);

    if (!EFI_ERROR(status))
        status = RT->SetVariable(L"BootCurrent", &standard, attributes, sizeof number, &number);
    if (EFI_ERROR(status)) {
        BS->UnloadImage(image);
        return status;
    }
    loaded->LoadOptions = options;
    loaded->LoadOptionsSize = (UINT32)options_len;
    BS->SetWatchdogTimer(WATCHDOG, 0, 0, NULL);
    status = BS->StartImage(image, &exit_len, NULL);
    BS->SetWatchdogTimer(0, 0, 0, NULL);
    RT->SetVariable(L"BootCurrent", &standard, attributes, 0, NULL);
    return status;
}

EFI_STATUS start_entry(EFI_HANDLE parent, uint16_t number, const uint8_t *option,
                       const struct bootkeep_option_parts *parts)
{
    struct bootkeep_refusal refusal;
    EFI_HANDLE image = NULL;
    EFI_STATUS status = EFI_NOT_FOUND;
    size_t path_len = 0;
    /* What is started may write to its options. */
    void *options = bootkeep_allocate(parts->optional_len + 1);

    if (options == NULL)
        return EFI_OUT_OF_RESOURCES;
    CopyMem(options, (void *)(option + parts->optional), parts->optional_len);
    if (bootkeep_path_check(option + parts->list, parts->list_len, &path_len, &refusal) == BOOTKEEP_DONE)
        status = load_path(parent, option + parts->list, path_len, &image);
    if (!EFI_ERROR(status))
        status = run(image, number, parts->optional_len > 0 ? options : NULL, parts->optional_len);
    bootkeep_free(options);
    return status;
}
