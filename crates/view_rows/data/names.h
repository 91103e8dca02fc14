/* What this system has beside the Microkit's system file. */
#ifndef SDDF_CONFIG_H
#define SDDF_CONFIG_H
#define SDDF_KIND_NET 0
#define SDDF_KIND_BYTE 1
#define SDDF_KIND_REQ 2
#define SDDF_KIND_RESP 3
#define SDDF_REGION_a_hb 0
#define SDDF_REGION_a_hb_SIZE 0x1000
#define SDDF_REGION_a_hb_PHYS_ADDR 0x10000000
#define SDDF_REGION_a_db 1
#define SDDF_REGION_a_db_SIZE 0x200000
#define SDDF_REGION_a_ub 2
#define SDDF_REGION_a_ub_SIZE 0x1000
#define SDDF_REGION_0a 3
#define SDDF_REGION_0a_SIZE 0x2000
#define SDDF_PD_a_hb_MAP_0_a_hb 0x2000000
#define SDDF_PD_a_hb_MAP_1_a_db 0x200000000
#define SDDF_PD_a_hb_IRQ_0 62
#define SDDF_PD_a_hb_IRQ_1 0
#define SDDF_PD_a_db_MAP_0_a_ub 0x1000
#define SDDF_PD_a_ub_MAP_0_0a 0x2000
#define SDDF_PD_a_hb_CHANNEL_0_a_db 1
#define SDDF_PD_a_db_CHANNEL_0_a_hb 2
#define SDDF_PD_a_ub_CHANNEL_1_0a 3
#define SDDF_PD_0a_CHANNEL_1_a_ub 4
#endif
