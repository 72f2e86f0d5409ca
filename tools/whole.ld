/* How the parts of a program that has the C library in it follow one another (tools/whole). The kernel looks up sixteen pages of a file at
   a time, each time a program steps on one of them first: so what each audit calls stands side by side, and behind it what only other
   commands, faults and help call, which takes a tenth off a small audit. A name that a program or another version of the C library lacks is
   passed over. */
SECTIONS
{
  .text.audit :
  {
    /* from the words of a command line to an answer */
    *(.text.main .text.+threads* .text.hq_front* .text.hq_commands*audit* .text.hq_judging*giving* .text.hq_judging??piece* .text.hq_judging??place* .text.hq_judging??bodies* .text.hq_status* .text.hq_plain*explain*)
    /* jobs read, their order, conflicts judged, certificates printed */
    *(.text.hq_text* .text.hq_lines* .text.hq_jobtext* .text.hq_tables* .text.hq_signals* .text.hq_packet* .text.hq_footprint*)
    *(.text.hq_job?:* .text.hq_bits* .text.hq_rows* .text.hq_waits* .text.hq_schedule* .text.hq_order* .text.hq_parts*)
    *(.text.hq_fence* .text.hq_derive* .text.hq_cert?:* .text.*hq_certtext* .text.hq_audit*)
    /* the libraries beneath */
    *(.text.indexmap* .text.memchr* .text.*std_alloc??vec* .text.core??cmp??slices* .text.core??str??utf8* .text.std??fs* .text.std??io*)
    *libos_c.a:*(.text .text.*) *liblibc_c.a:*(.text .text.*)
    /* the C library: how a program starts */
    *crt1.o(.text) *crtbegin*.o(.text) *libc.a:libc-start.o(.text .text.*) *libc.a:libc-tls.o(.text .text.*) *libc.a:libc_early_init.o(.text .text.*)
    *libc.a:init-first.o(.text .text.*) *libc.a:init-misc.o(.text .text.*) *libc.a:get-cpuid-feature-leaf.o(.text .text.*)
    *libc.a:dl-tunables.o(.text .text.*) *libc.a:dl-support.o(.text .text.*) *libc.a:dl-early_allocate.o(.text .text.*)
    *libc.a:dl-tls.o(.text .text.*) *libc.a:dl-tls_init_tp.o(.text .text.*) *libc.a:dl-origin.o(.text .text.*)
    *libc.a:dl-object.o(.text .text.*) *libc.a:dl-lookup.o(.text .text.*) *libc.a:dl-find_object.o(.text .text.*)
    *libc.a:dl-setup_hash.o(.text .text.*) *libc.a:dl-debug.o(.text .text.*) *libc.a:dl-load.o(.text .text.*)
    *libgcc_eh.a:unwind-dw2-fde-dip.o(.text .text.*)
    *libc.a:elision-conf.o(.text .text.*) *libc.a:pthread_mutex_conf.o(.text .text.*) *libc.a:ctype-info.o(.text .text.*)
    *libc.a:cxa_atexit.o(.text .text.*) *libc.a:getenv.o(.text .text.*) *libc.a:sysv_signal.o(.text .text.*)
    *libc.a:bsd-_setjmp.o(.text .text.*) *libc.a:setjmp.o(.text .text.*) *libc.a:sigjmp.o(.text .text.*)
    *libc.a:sigaction.o(.text .text.*) *libc.a:libc_sigaction.o(.text .text.*) *libc.a:getrandom.o(.text .text.*)
    *libc.a:pthread_mutex_lock.o(.text .text.*) *libc.a:pthread_mutex_unlock.o(.text .text.*)
    /* memory and files */
    *libc.a:malloc.o(.text .text.*) *libc.a:brk.o(.text .text.*) *libc.a:sbrk.o(.text .text.*) *libc.a:getrlimit64.o(.text .text.*)
    *libc.a:open64.o(.text .text.*) *libc.a:read.o(.text .text.*) *libc.a:write.o(.text .text.*) *libc.a:close.o(.text .text.*)
    *libc.a:errno-loc.o(.text .text.*) *libc.a:_exit.o(.text .text.*)
    /* bytes and texts: what chooses a form for the processor, and the forms */
    *libc.a:mem*.o(.text) *libc.a:str*.o(.text) *libc.a:stp*.o(.text) *libc.a:wcs*.o(.text) *libc.a:wmem*.o(.text) *libc.a:rawmemchr.o(.text)
    *libc.a:memmove-*unaligned-erms.o(.text.*) *libc.a:memset-*unaligned-erms.o(.text.*)
    *libc.a:strlen-evex.o(.text.*) *libc.a:strcmp-evex.o(.text.*) *libc.a:strncmp-evex.o(.text.*) *libc.a:strchr-evex.o(.text.*)
    *libc.a:strrchr-evex.o(.text.*) *libc.a:strlen-avx2.o(.text.*) *libc.a:strcmp-avx2.o(.text.*) *libc.a:strncmp-avx2.o(.text.*)
    *libc.a:strchr-avx2.o(.text.*) *libc.a:strrchr-avx2.o(.text.*) *libc.a:strcspn-sse4.o(.text.*)
  }
}
INSERT BEFORE .text;
