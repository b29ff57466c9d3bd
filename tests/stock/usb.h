/*
 * As much of libusb 1.0's face as a DFU client needs: the calls, structs and numbers that clients are compiled against. Names and
 * layouts are the library's own, since programs that were built for it must find them; the words are ours.
 */
#ifndef STOCK_USB_H
#define STOCK_USB_H

#include <stdint.h>
#include <sys/types.h>

enum {
    LIBUSB_SUCCESS = 0,
    LIBUSB_ERROR_IO = -1,
    LIBUSB_ERROR_INVALID_PARAM = -2,
    LIBUSB_ERROR_NO_DEVICE = -4,
    LIBUSB_ERROR_NOT_FOUND = -5,
    LIBUSB_ERROR_PIPE = -9 /* the device stalled the transfer */
};

typedef struct libusb_context libusb_context;
typedef struct libusb_device libusb_device;
typedef struct libusb_device_handle libusb_device_handle;

struct libusb_version {
    uint16_t major, minor, micro, nano;
    const char *rc, *describe;
};

struct libusb_device_descriptor {
    uint8_t bLength, bDescriptorType;
    uint16_t bcdUSB;
    uint8_t bDeviceClass, bDeviceSubClass, bDeviceProtocol, bMaxPacketSize0;
    uint16_t idVendor, idProduct, bcdDevice;
    uint8_t iManufacturer, iProduct, iSerialNumber, bNumConfigurations;
};

struct libusb_interface_descriptor {
    uint8_t bLength, bDescriptorType, bInterfaceNumber, bAlternateSetting, bNumEndpoints;
    uint8_t bInterfaceClass, bInterfaceSubClass, bInterfaceProtocol, iInterface;
    const void *endpoint;
    const uint8_t *extra;
    int extra_length;
};

struct libusb_interface {
    const struct libusb_interface_descriptor *altsetting;
    int num_altsetting;
};

struct libusb_config_descriptor {
    uint8_t bLength, bDescriptorType;
    uint16_t wTotalLength;
    uint8_t bNumInterfaces, bConfigurationValue, iConfiguration, bmAttributes, MaxPower;
    const struct libusb_interface *interface;
    const uint8_t *extra;
    int extra_length;
};

int libusb_init(libusb_context **context);
void libusb_exit(libusb_context *context);
int libusb_set_option(libusb_context *context, int option, ...);
const struct libusb_version *libusb_get_version(void);
const char *libusb_error_name(int code);

ssize_t libusb_get_device_list(libusb_context *context, libusb_device ***list);
void libusb_free_device_list(libusb_device **list, int unref);
libusb_device *libusb_ref_device(libusb_device *device);
void libusb_unref_device(libusb_device *device);

uint8_t libusb_get_bus_number(libusb_device *device);
uint8_t libusb_get_device_address(libusb_device *device);
int libusb_get_port_numbers(libusb_device *device, uint8_t *ports, int room);
int libusb_get_device_descriptor(libusb_device *device, struct libusb_device_descriptor *to);
int libusb_get_config_descriptor(libusb_device *device, uint8_t index, struct libusb_config_descriptor **to);
void libusb_free_config_descriptor(struct libusb_config_descriptor *config);

int libusb_open(libusb_device *device, libusb_device_handle **handle);
void libusb_close(libusb_device_handle *handle);
int libusb_claim_interface(libusb_device_handle *handle, int interface);
int libusb_release_interface(libusb_device_handle *handle, int interface);
int libusb_set_interface_alt_setting(libusb_device_handle *handle, int interface, int setting);
int libusb_reset_device(libusb_device_handle *handle);

/* A control transfer: the bytes that moved, or an error. */
int libusb_control_transfer(libusb_device_handle *handle, uint8_t type, uint8_t request, uint16_t value, uint16_t index,
                            uint8_t *data, uint16_t length, unsigned timeout);

#endif
