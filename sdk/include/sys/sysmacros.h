/* A device's two numbers in a dev_t, as the kernel puts them into 32 bits. */
#ifndef _SYS_SYSMACROS_H
#define _SYS_SYSMACROS_H
#define major(device) ((unsigned)((device) >> 8 & 0xfff))
#define minor(device) ((unsigned)(((device) & 0xff) | ((device) >> 12 & 0xfff00)))
#define makedev(high, low) ((((unsigned)(high) & 0xfff) << 8) | ((unsigned)(low) & 0xff) | (((unsigned)(low) & 0xfff00) << 12))
#endif
