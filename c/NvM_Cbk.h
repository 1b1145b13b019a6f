/* What the memory interface calls of an NVRAM Manager (SWS NVRAM Manager, chapter 8.4). The stack polls, so these do nothing; the
   generated file of another Fee that names them links. C90 and C++ read it. */
#ifndef NVM_CBK_H
#define NVM_CBK_H

#ifdef __cplusplus
extern "C" {
#endif

void NvM_JobEndNotification(void);
void NvM_JobErrorNotification(void);

#ifdef __cplusplus
}
#endif

#endif
