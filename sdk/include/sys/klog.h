/* The kernel's own log. */
#ifndef _SYS_KLOG_H
#define _SYS_KLOG_H
#ifdef __cplusplus
extern "C" {
#endif
int klogctl(int action, char *bytes, int count);
#ifdef __cplusplus
}
#endif
#endif
