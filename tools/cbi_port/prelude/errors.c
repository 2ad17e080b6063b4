#include <string.h>
// The texts of errno's numbers as glibc has them, one behind another.
char *__cbi_error_text(int number) {
    char *text =
        "Success\0Operation not permitted\0No such file or directory\0No such process\0Interrupted system call\0Input/output error\0No such device or address\0"
        "Argument list too long\0Exec format error\0Bad file descriptor\0No child processes\0Resource temporarily unavailable\0Cannot allocate memory\0"
        "Permission denied\0Bad address\0Block device required\0Device or resource busy\0File exists\0Invalid cross-device link\0No such device\0"
        "Not a directory\0Is a directory\0Invalid argument\0Too many open files in system\0Too many open files\0Inappropriate ioctl for device\0"
        "Text file busy\0File too large\0No space left on device\0Illegal seek\0Read-only file system\0Too many links\0Broken pipe\0"
        "Numerical argument out of domain\0Numerical result out of range\0Resource deadlock avoided\0File name too long\0No locks available\0"
        "Function not implemented\0Directory not empty\0Too many levels of symbolic links\0\0No message of desired type\0Identifier removed\0"
        "Channel number out of range\0Level 2 not synchronized\0Level 3 halted\0Level 3 reset\0Link number out of range\0Protocol driver not attached\0"
        "No CSI structure available\0Level 2 halted\0Invalid exchange\0Invalid request descriptor\0Exchange full\0No anode\0Invalid request code\0"
        "Invalid slot\0\0Bad font file format\0Device not a stream\0No data available\0Timer expired\0Out of streams resources\0Machine is not on the network\0"
        "Package not installed\0Object is remote\0Link has been severed\0Advertise error\0Srmount error\0Communication error on send\0Protocol error\0"
        "Multihop attempted\0RFS specific error\0Bad message\0Value too large for defined data type\0Name not unique on network\0File descriptor in bad state\0"
        "Remote address changed\0Can not access a needed shared library\0Accessing a corrupted shared library\0.lib section in a.out corrupted\0"
        "Attempting to link in too many shared libraries\0Cannot exec a shared library directly\0Invalid or incomplete multibyte or wide character\0"
        "Interrupted system call should be restarted\0Streams pipe error\0Too many users\0Socket operation on non-socket\0Destination address required\0"
        "Message too long\0Protocol wrong type for socket\0Protocol not available\0Protocol not supported\0Socket type not supported\0Operation not supported\0"
        "Protocol family not supported\0Address family not supported by protocol\0Address already in use\0Cannot assign requested address\0Network is down\0"
        "Network is unreachable\0Network dropped connection on reset\0Software caused connection abort\0Connection reset by peer\0No buffer space available\0"
        "Transport endpoint is already connected\0Transport endpoint is not connected\0Cannot send after transport endpoint shutdown\0"
        "Too many references: cannot splice\0Connection timed out\0Connection refused\0Host is down\0No route to host\0Operation already in progress\0"
        "Operation now in progress\0Stale file handle\0Structure needs cleaning\0Not a XENIX named type file\0No XENIX semaphores available\0"
        "Is a named type file\0Remote I/O error\0Disk quota exceeded\0No medium found\0Wrong medium type\0Operation canceled\0Required key not available\0"
        "Key has expired\0Key has been revoked\0Key was rejected by service\0Owner died\0State not recoverable\0Operation not possible due to RF-kill\0"
        "Memory page has hardware error\0";
    while (number > 0) { while (*text) text++; text++; number--; }
    return text;
}
struct __cbi_error_state { char text[26]; };
struct __cbi_error_state __cbi_errors_said;
char *strerror(int number) {
    char *text = __cbi_errors_said.text; char *at; unsigned n = number; int k;
    if (number >= 0 && number <= 133 && *(at = __cbi_error_text(number))) return at;
    strcpy(text, "Unknown error ");
    at = text + 14;
    if (number < 0) { *at = '-'; at++; n = -n; }
    for (k = 1000000000; k > 1 && n / k == 0; k = k / 10) ;
    for (; k > 0; k = k / 10) { *at = '0' + n / k % 10; at++; }
    *at = 0;
    return text;
}
