/* Read before a configuration by the C preprocessor, which then leaves what the configuration calls its objects, for
 * sdk/test and its relatives: `@@task "GREETER"`. */
#define CRE_TSK(id, ...) @@task #id
#define CRE_SEM(id, ...) @@semaphore #id
#define CRE_FLG(id, ...) @@flag #id
#define CRE_DTQ(id, ...) @@queue #id
#define CRE_SPN(id, ...) @@lock #id
#define CRE_MTX(id, ...) @@mutex #id
#define CRE_MPF(id, ...) @@pool #id
#define CRE_MBX(id, ...) @@mailbox #id
#define CRE_CYC(id, ...) @@cyclic #id
#define CRE_ALM(id, ...) @@alarm #id
#define DEF_INH(id, ...) @@line #id
