//! The sheets of Appendix B, typed from it: name, type, size and decimals of
//! every field after the first. Where a sheet's description says otherwise
//! than its columns, the columns are typed. There is no sheet for C305.

pub const SHEETS: [(&str, &str); 133] = [
    (
        "0000",
        "LFPD C 4 -; DT_INI N 8 -; DT_FIN N 8 -; NOME_EMPR C - -; CNPJ N 14 -; UF C 2 -; \
         IE C - -; COD_MUN N 7 -; IM C - -; VAZIO1 C 0 -; SUFRAMA C 9 -; COD_VER N 4 -; \
         COD_FIN N 1 -; COD_CTD N 2 -; PAIS C 6 -; FANTASIA C - -; NIRE N 11 -; CPF N 11 -; \
         VAZIO2 C 0 -",
    ),
    ("0001", "IND_DAD N 1 -"),
    (
        "0005",
        "NOME_RESP C - -; COD_ASSIN N 3 -; CPF_RESP N 11 -; CEP N 8 -; END C - -; NUM C - -; \
         COMPL C - -; BAIRRO C - -; CEP_CP N 8 -; CP N - -; FONE C - -; FAX C - -; EMAIL C - -",
    ),
    ("0025", "COD_BF_ICMS C 5 -; COD_BF_ISS C 5 -"),
    (
        "0030",
        "IND_ED N 1 -; IND_ARQ N 1 -; PRF_ISS N 1 -; PRF_ICMS N 1 -; PRF_RIDF N 1 -; \
         PRF_RUDF N 1 -; PRF_LMC N 1 -; PRF_RV N 1 -; PRF_RI N 1 -; IND_EC N 1 -; \
         IND_ISS N 1 -; IND_RT N 1 -; IND_ICMS N 1 -; IND_ST N 1 -; IND_AT N 1 -; \
         IND_IPI N 1 -; IND_RI N 1 -",
    ),
    (
        "0100",
        "NOME C - -; COD_ASSIN N 3 -; CNPJ N 14 -; CPF N 11 -; CRC C 10 -; CEP N 8 -; \
         END C - -; NUM C - -; COMPL C - -; BAIRRO C - -; UF C 2 -; COD_MUN N 7 -; \
         CEP_CP N 8 -; CP N - -; FONE C - -; FAX C - -; EMAIL C - -",
    ),
    (
        "0150",
        "COD_PART C - -; NOME C - -; COD_PAIS N 5 -; CNPJ N 14 -; CPF N 11 -; VAZIO C 0 -; \
         UF C 2 -; IE C - -; IE_ST C - -; COD_MUN N 7 -; IM C - -; SUFRAMA C 9 -",
    ),
    (
        "0175",
        "CEP N 8 -; END C - -; NUM C - -; COMPL C - -; BAIRRO C - -; CEP_CP N 8 -; CP N - -; \
         FONE C - -; FAX C - -",
    ),
    ("0200", "COD_ITEM C - -; DESCR_ITEM C - -; COD_GEN N 2 -; COD_LST N 4 -"),
    ("0205", "COD_ITEM_ANT C - -; DESCR_ITEM_ANT C - -; DT_INI N 8 -; DT_FIN N 8 -"),
    (
        "0210",
        "COD_ITEM_COMP C - -; UNID_ITEM C - -; QTD_COMP N - 6; UNID_COMP C - -; \
         DT_INI_COMP N 8 -; DT_FIN_COMP N 8 -; IND_ALT N - -; TX_ALT N - 6",
    ),
    ("0215", "COD_ITEM_ANP C - -; DT_INI N 8 -; DT_FIN N 8 -"),
    ("0400", "COD_NAT C - -; DESCR_NAT C - -; COP C 4 -"),
    ("0450", "COD_INF_OBS C - -; TXT C 65536 -"),
    ("0455", "NORMA C - -"),
    (
        "0460",
        "IND_DA C - -; DESCR_DA C - -; UF C 2 -; COD_MUN N 7 -; PER_REF N 6 -; NUM_DA C - -; \
         VL_DA N - 2; DT_VCTO N 8 -; VL_DESC N - 2; VL_MOR N - 2; VL_JRS N - 2; VL_MUL N - 2; \
         VL_PGTO N - 2; DT_PGTO N 8 -; AUT_BCO C - -",
    ),
    (
        "0465",
        "IND_OPER N 1 -; IND_EMIT N 1 -; CNPJ N 14 -; CPF N 11 -; UF C 2 -; IE C - -; \
         COD_MUN N 7 -; IM C - -; COD_MOD C 2 -; COD_SIT N 2 -; SER C - -; SUB N - -; \
         CHV_NFE_CTE C 45 -; NUM_DOC N - -; DT_DOC N 8 -; VL_DOC N - 2; VL_ISS N - 2; \
         VL_RT N - 2; VL_ICMS N - 2; VL_ICMS_ST N - 2; VL_AT N - 2; VL_IPI N - 2; VOL N - 2",
    ),
    (
        "0470",
        "COD_MOD C 2 -; ECF_CX N - -; ECF_FAB C 20 -; CRO N - -; CRZ N - -; NUM_DOC N - -; \
         DT_DOC N 8 -; VL_DOC N - 2; VL_ISS N - 2; VL_ICMS N - 2",
    ),
    ("0990", "QTD_LIN_0 N - -"),
    ("C001", "IND_DAD N 1 -"),
    (
        "C020",
        "IND_OPER N 1 -; IND_EMIT N 1 -; COD_PART C - -; COD_MOD C 2 -; COD_SIT N 2 -; \
         SER C - -; NUM_DOC N - -; CHV_NFE C 45 -; DT_EMIS N 8 -; DT_DOC N 8 -; COD_NAT C - -; \
         IND_PGTO N 1 -; VL_DOC N - 2; VL_DESC N - 2; VL_ACMO N - 2; VL_MERC N - 2; \
         VL_FRT N - 2; VL_SEG N - 2; VL_OUT_DA N - 2; VL_OP_ISS N - 2; VL_BC_ICMS N - 2; \
         VL_ICMS N - 2; VL_BC_ST N - 2; VL_ICMS_ST N - 2; VL_AT N - 2; VL_IPI N - 2; \
         COD_INF_OBS C - -",
    ),
    ("C040", "COD_MUN_SERV N 7 -; VL_BC_ISS N - 2; VL_ISS N - 2; VL_BC_RT_ISS N - 2; VL_RT_ISS N - 2"),
    (
        "C300",
        "NUM_ITEM N - -; COD_ITEM C - -; UNID C - -; VL_UNIT N - 6; QTD N - 6; \
         VL_DESC_I N - 2; VL_ACMO_I N - 2; VL_ITEM N - 2; COD_NCM N 8 -; CST N 4 -; \
         CFOP N 4 -; VL_BC_ICMS_I N - 2; ALIQ_ICMS N - 2; VL_ICMS_I N - 2; VL_BC_ST_I N - 2; \
         ALIQ_ST N - 2; VL_ICMS_ST_I N - 2; VL_BC_IPI N - 2; ALIQ_IPI N - 2; VL_IPI_I N - 2",
    ),
    ("C310", "CTISS N 2 -; VL_BC_ISS_I N - 2; ALIQ_ISS N - 2; VL_ISS_I N - 2"),
    (
        "C550",
        "CPF_CONS N 11 -; CNPJ_CONS N 14 -; COD_MOD C 2 -; COD_SIT N 2 -; SER C - -; \
         SUB N - -; NUM_DOC N - -; DT_DOC N 8 -; COP C 4 -; VL_DOC N - 2; VL_DESC N - 2; \
         VL_ACMO N - 2; VL_MERC N - 2; VL_BC_ICMS N - 2; VL_ICMS N - 2; COD_INF_OBS C - -",
    ),
    (
        "C560",
        "NUM_ITEM N - -; COD_ITEM C - -; UNID C - -; VL_UNIT N - 6; QTD N - 6; \
         VL_DESC_I N - 2; VL_ACMO_I N - 2; VL_ITEM N - 2; CST N 4 -; CFOP N 4 -; \
         VL_BC_ICMS_I N - 2; ALIQ_ICMS N - 2; VL_ICMS_I N - 2",
    ),
    (
        "C600",
        "CPF_CONS N 11 -; CNPJ_CONS N 14 -; COD_MOD C 2 -; COD_SIT N 2 -; ECF_CX N - -; \
         ECF_FAB C 20 -; CRO N - -; CRZ N - -; NUM_DOC N - -; DT_DOC N 8 -; COP C 4 -; \
         VL_DOC N - 2; VL_CANC_ICMS N - 2; VL_DESC_ICMS N - 2; VL_ACMO_ICMS N - 2; \
         VL_OP_ISS N - 2; VL_BC_ICMS N - 2; VL_ICMS N - 2; VL_ISN N - 2; VL_NT N - 2; \
         VL_ST N - 2",
    ),
    (
        "C605",
        "VL_CANC_ISS N - 2; VL_DESC_ISS N - 2; VL_ACMO_ISS N - 2; VL_BC_ISS N - 2; \
         VL_ISS N - 2; VL_ISN_ISS N - 2; VL_NT_ISS N - 2",
    ),
    (
        "C610",
        "NUM_ITEM N - -; COD_ITEM C - -; UNID C - -; VL_UNIT N - 6; QTD N - 6; \
         VL_DESC_I N - 2; VL_ACMO_I N - 2; VL_ITEM N - 2; CST N 4 -; CFOP N 4 -; \
         VL_BC_ICMS_I N - 2; ALIQ_ICMS N - 2; VL_ICMS_I N - 2; VL_ISN_I N - 2; VL_NT_I N - 2; \
         VL_ST_I N - 2",
    ),
    ("C615", "VL_BC_ISS_I N - 2; ALIQ_ISS N - 2; VL_ISS_I N - 2; VL_ISN_ISS_I N - 2; VL_NT_ISS_I N - 2"),
    ("C990", "QTD_LIN_C N - -"),
    ("E001", "IND_DAD N 1 -"),
    ("E003", "UF C 2 -; LIN_NOM C 4 -; CAMPO_INI N - -; QTD_CAMPO N - -"),
    (
        "E020",
        "IND_OPER N 1 -; IND_EMIT N 1 -; COD_PART C - -; COD_MOD C 2 -; COD_SIT N 2 -; \
         SER C - -; NUM_DOC N - -; CHV_NFE C 45 -; DT_EMIS N 8 -; DT_DOC N 8 -; COD_NAT C - -; \
         COP C 4 -; NUM_LCTO C - -; IND_PGTO N 1 -; VL_CONT N - 2; VL_OP_ISS N - 2; \
         VL_BC_ICMS N - 2; VL_ICMS N - 2; VL_ICMS_ST N - 2; VL_ST_E N - 2; VL_ST_S N - 2; \
         VL_AT N - 2; VL_ISNT_ICMS N - 2; VL_OUT_ICMS N - 2; VL_BC_IPI N - 2; VL_IPI N - 2; \
         VL_ISNT_IPI N - 2; VL_OUT_IPI N - 2; COD_INF_OBS C - -",
    ),
    (
        "E025",
        "VL_CONT_P N - 2; VL_OP_ISS_P N - 2; CFOP N 4 -; VL_BC_ICMS_P N - 2; ALIQ_ICMS N - 2; \
         VL_ICMS_P N - 2; VL_BC_ST_P N - 2; VL_ICMS_ST_P N - 2; VL_ISNT_ICMS_P N - 2; \
         VL_OUT_ICMS_P N - 2; VL_BC_IPI_P N - 2; VL_IPI_P N - 2; VL_ISNT_IPI_P N - 2; \
         VL_OUT_IPI_P N - 2; IND_PETR N 1 -; IND_IMUN N 1 -",
    ),
    (
        "E050",
        "COD_MOD C 2 -; QTD_CANC N - -; SER C - -; SUB N - -; NUM_DOC_INI N - -; \
         NUM_DOC_FIN N - -; DT_DOC N 8 -; COP C 4 -; NUM_LCTO C - -; VL_CONT N - 2; \
         VL_BC_ICMS N - 2; VL_ICMS N - 2; VL_ISNT_ICMS N - 2; VL_OUT_ICMS N - 2; \
         COD_INF_OBS C - -",
    ),
    (
        "E055",
        "VL_CONT_P N - 2; CFOP N 4 -; VL_BC_ICMS_P N - 2; ALIQ_ICMS N - 2; VL_ICMS_P N - 2; \
         VL_ISNT_ICMS_P N - 2; VL_OUT_ICMS_P N - 2; IND_IMUN N 1 -",
    ),
    (
        "E060",
        "COD_MOD C 2 -; ECF_CX N - -; ECF_FAB C 20 -; CRO N - -; CRZ N - -; DT_DOC N 8 -; \
         NUM_DOC_INI N - -; NUM_DOC_FIN N - -; GT_INI N - 2; GT_FIN N - 2; VL_BRT N - 2; \
         VL_CANCEL_ICMS N - 2; VL_DESC_ICMS N - 2; VL_ACMO_ICMS N - 2; VL_OP_ISS N - 2; \
         VL_LIQ N - 2; VL_BC_ICMS N - 2; VL_ICMS N - 2; VL_ISN N - 2; VL_NT N - 2; VL_ST N - 2; \
         COD_INF_OBS C - -",
    ),
    ("E065", "CFOP N 4 -; VL_BC_ICMS_P N - 2; ALIQ_ICMS N - 2; VL_ICMS_P N - 2; IND_IMUN N 1 -"),
    (
        "E080",
        "IND_TOT N 1 -; COD_MOD C 2 -; NUM_MR N - -; DT_DOC N 8 -; VL_BRT N - 2; \
         VL_CANC_ICMS N - 2; VL_DESC_ICMS N - 2; VL_ACMO_ICMS N - 2; VL_OP_ISS N - 2; \
         COP C 4 -; NUM_LCTO C - -; VL_CONT N - 2; VL_BC_ICMS N - 2; VL_ICMS N - 2; \
         VL_ISNT_ICMS N - 2; VL_ST N - 2; IND_OBS N 1 -",
    ),
    (
        "E085",
        "VL_CONT_P N - 2; VL_OP_ISS_P N - 2; CFOP N 4 -; VL_BC_ICMS_P N - 2; ALIQ_ICMS N - 2; \
         VL_ICMS_P N - 2; VL_ISNT_ICMS_P N - 2; VL_ST_P N - 2; IND_IMUN N 1 -",
    ),
    (
        "E100",
        "IND_OPER N 1 -; IND_EMIT N 1 -; COD_PART C - -; COD_MUN_SERV N 7 -; COD_MOD C 2 -; \
         COD_SIT N 2 -; QTD_CANC N - -; SER C - -; SUB N - -; COD_CONS N 2 -; NUM_DOC N - -; \
         QTD_DOC N - -; DT_EMIS N 8 -; DT_DOC N 8 -; COP C 4 -; NUM_LCTO C - -; VL_CONT N - 2; \
         VL_OP_ISS N - 2; VL_BC_ICMS N - 2; VL_ICMS N - 2; VL_ICMS_ST N - 2; \
         VL_ISNT_ICMS N - 2; VL_OUT_ICMS N - 2; COD_INF_OBS C - -",
    ),
    (
        "E105",
        "VL_CONT_P N - 2; VL_OP_ISS_P N - 2; CFOP N 4 -; VL_BC_ICMS_P N - 2; ALIQ_ICMS N - 2; \
         VL_ICMS_P N - 2; VL_ICMS_ST_P N - 2; VL_ISNT_ICMS_P N - 2; VL_OUT_ICMS_P N - 2; \
         IND_PETR N 1 -",
    ),
    (
        "E120",
        "IND_OPER N 1 -; IND_EMIT N 1 -; COD_PART C - -; COD_MUN_SERV N 7 -; COD_MOD C 2 -; \
         COD_SIT N 2 -; SER C - -; SUB N - -; NUM_DOC N - -; CHV_CTE C 45 -; DT_EMIS N 8 -; \
         DT_DOC N 8 -; COP C 4 -; NUM_LCTO C - -; IND_PGTO N 1 -; VL_CONT N - 2; CFOP N 4 -; \
         VL_BC_ICMS N - 2; ALIQ_ICMS N - 2; VL_ICMS N - 2; VL_ICMS_ST N - 2; \
         VL_ISNT_ICMS N - 2; VL_OUT_ICMS N - 2; COD_INF_OBS C - -",
    ),
    (
        "E140",
        "COD_MUN_SERV N 7 -; COD_MOD C 2 -; QTD_CANC N - -; SER C - -; SUB N - -; \
         NUM_DOC_INI N - -; NUM_DOC_FIN N - -; DT_DOC N 8 -; COP C 4 -; NUM_LCTO C - -; \
         VL_CONT N - 2; CFOP N 4 -; VL_BC_ICMS N - 2; ALIQ_ICMS N - 2; VL_ICMS N - 2; \
         VL_ISNT_ICMS N - 2; VL_OUT_ICMS N - 2; COD_INF_OBS C - -",
    ),
    ("E300", "DT_INI N 8 -; DT_FIN N 8 -"),
    (
        "E305",
        "IND_MRO N 1 -; IND_OPER N 1 -; DT_DOC N 8 -; COP C 4 -; NUM_LCTO C - -; \
         QTD_LCTO N - -; VL_CONT N - 2; VL_OP_ISS N - 2; VL_BC_ICMS N - 2; VL_ICMS N - 2; \
         VL_ICMS_ST N - 2; VL_ST_ENT N - 2; VL_ST_FNT N - 2; VL_ST_UF N - 2; VL_ST_OE N - 2; \
         VL_AT N - 2; VL_ISNT_ICMS N - 2; VL_OUT_ICMS N - 2; VL_BC_IPI N - 2; VL_IPI N - 2; \
         VL_ISNT_IPI N - 2; VL_OUT_IPI N - 2",
    ),
    (
        "E310",
        "VL_CONT N - 2; VL_OP_ISS N - 2; CFOP N 4 -; VL_BC_ICMS N - 2; VL_ICMS N - 2; \
         VL_ICMS_ST N - 2; VL_ISNT_ICMS N - 2; VL_OUT_ICMS N - 2; IND_IMUN N 1 -",
    ),
    (
        "E330",
        "IND_TOT N 1 -; VL_CONT N - 2; VL_OP_ISS N - 2; VL_BC_ICMS N - 2; VL_ICMS N - 2; \
         VL_ICMS_ST N - 2; VL_ST_ENT N - 2; VL_ST_FNT N - 2; VL_ST_UF N - 2; VL_ST_OE N - 2; \
         VL_AT N - 2; VL_ISNT_ICMS N - 2; VL_OUT_ICMS N - 2",
    ),
    (
        "E340",
        "VL_01 N - 2; VL_02 N - 2; VL_03 N - 2; VL_04 N - 2; VL_05 N - 2; VL_06 N - 2; \
         VL_07 N - 2; VL_08 N - 2; VL_09 N - 2; VL_10 N - 2; VL_11 N - 2; VL_12 N - 2; \
         VL_13 N - 2; VL_14 N - 2; VL_15 N - 2; VL_16 N - 2; VL_17 N - 2; VL_18 N - 2; \
         VL_19 N - 2; VL_20 N - 2; VL_21 N - 2; VL_22 N - 2; VL_99 N - 2",
    ),
    (
        "E350",
        "UF_AJ C 2 -; COD_AJ N 3 -; VL_AJ N - 2; NUM_DA C - -; NUM_PROC C - -; IND_PROC N 1 -; \
         DESCR_PROC C - -; COD_INF_OBS C - -; IND_AP N - -",
    ),
    (
        "E360",
        "UF_OR C 2 -; COD_OR N 3 -; PER_REF N 6 -; COD_REC C - -; VL_ICMS_REC N - 2; \
         DT_VCTO N 8 -; NUM_PROC C - -; IND_PROC N 1 -; DESCR_PROC C - -; COD_INF_OBS C - -",
    ),
    ("E500", "DT_INI N 8 -; DT_FIN N 8 -"),
    (
        "E520",
        "VL_CONT N - 2; CFOP N 4 -; VL_BC_IPI N - 2; VL_IPI N - 2; VL_ISNT_IPI N - 2; \
         VL_OUT_IPI N - 2",
    ),
    (
        "E525",
        "IND_TOT N 1 -; VL_CONT N - 2; VL_BC_IPI N - 2; VL_IPI N - 2; VL_ISNT_IPI N - 2; \
         VL_OUT_IPI N - 2",
    ),
    (
        "E540",
        "VL_001 N - 2; VL_002 N - 2; VL_003 N - 2; VL_004 N - 2; VL_005 N - 2; VL_006 N - 2; \
         VL_007 N - 2; VL_009 N - 2; VL_010 N - 2; VL_011 N - 2; VL_012 N - 2; VL_013 N - 2; \
         VL_008 N - 2; VL_016 N - 2; VL_017 N - 2",
    ),
    (
        "E550",
        "COD_AJ N 3 -; VL_AJ N - 2; IND_DOC C 1 -; NUM_DOC C - -; DESCR_AJ C - -; \
         COD_INF_OBS C - -",
    ),
    (
        "E560",
        "COD_OR_IPI C 4 -; PER_REF N 6 -; COD_REC_IPI N 4 -; VL_IPI_REC N - 2; DT_VCTO N 8 -; \
         IND_DOC N 1 -; NUM_DOC C - -; DESCR_AJ C - -; COD_INF_OBS C - -",
    ),
    ("E990", "QTD_LIN_E N - -"),
    ("F001", "IND_DAD N 1 -"),
    ("F020", "IND_RIDF N 1 -; DT_INI N 8 -; DT_FIN N 8 -; CRED C - -; UF_GR C - -"),
    ("F025", "UF_SF C 2 -; COD_MUN N 7 -; NUM_AUT N - -; DT_AUT N 8 -; COD_PART C - -"),
    ("F030", "IND_DOC N 2 -; COD_MOD C 2 -; SER C - -; SUB N - -; QTD_AUT N - -"),
    (
        "F035",
        "COD_MOD C 2 -; SER C - -; SUB N - -; DT_LIB N 8 -; NUM_DOC N - -; NUM_DOC_INI N - -; \
         NUM_DOC_FIN N - -; QTD_DEV N - -; COD_INF_OBS C - -",
    ),
    ("F200", "IND_LMC N 1 -; DT_INI N 8 -; DT_FIN N 8 -"),
    ("F205", "BOMBA C - -; EQP_FAB C - -; EQP_CNPJ N 14 -; EQP_MOD C - -; IND_BOMB N 1 -"),
    ("F210", "COD_ITEM C - -; COD_INF_OBS C - -"),
    (
        "F215",
        "IND_TOT N 1 -; DT_MOV N 8 -; ESTQ_INI N - 3; ENTRADAS N - 3; SAIDAS N - 3; \
         ESTQ_FIN N - 3; ESTQ_FECH N - 3; PERDAS N - 3; SOBRAS N - 3; VL_UNIT N - 3; \
         VL_SAID N - 2",
    ),
    (
        "F220",
        "TANQUE C - -; VOL_INI N - 3; VOL_ENTR N - 3; VOL_SAID N - 3; VOL_FECH N - 3; \
         VOL_PRD N - 3; VOL_SBR N - 3",
    ),
    (
        "F225",
        "IND_OPER N 1 -; IND_EMIT N 1 -; CNPJ N 14 -; UF C 2 -; IE C - -; COD_MOD C 2 -; \
         SER C - -; NUM_DOC N - -; DT_DOC N 8 -; VL_DOC N - 2; VL_ICMS N - 2; \
         VL_ICMS_ST N - 2; VOL N - 3; COD_INF_OBS C - -",
    ),
    ("F230", "BOMBA C - -; BICO C - -; ENC_FIN N - -; ENC_INI N - -; VOL_AFER N - 2"),
    ("F250", "IND_RV N 1 -; DT_INI N 8 -; DT_FIN N 8 -"),
    (
        "F255",
        "DT_ENTR N 8 -; IND_PROP N 1 -; COD_PART_ENT C - -; UF C 2 -; COD_MUN N 7 -; \
         ID_VEIC C - -; MARCA C - -; MODELO C - -; ANO N 4 -; DESCR C - -; CHASSI C - -; \
         MOTOR C - -; VL_VEIC N - 2; IND_NEG N 1 -; DT_SAID N 8 -; COD_PART_SAI C - -; \
         VL_OPER N - 2; COD_INF_OBS C - -",
    ),
    ("F990", "QTD_LIN_F N - -"),
    ("G001", "IND_DAD N 1 -"),
    ("G020", "IND_GEF N 1 -; DT_INI N 8 -; DT_FIN N 8 -"),
    (
        "G025",
        "IND_OPER N 1 -; IND_EMIT N 1 -; COD_MOD C 2 -; SER C - -; SUB N - -; \
         NUM_DOC_INI N - -; NUM_DOC_FIN N - -; QTD_DOC N - -; QTD_CANC N - -; VL_CONT N - 2; \
         VL_ISS N - 2; VL_RT_ISS N - 2; VL_ICMS N - 2; VL_ICMS_ST N - 2; VL_AT N - 2; \
         VL_IPI N - 2",
    ),
    (
        "G030",
        "COD_MOD C 2 -; ECF_CX N - -; CRO N - -; NUM_DOC_INI N - -; NUM_DOC_FIN N - -; \
         QTD_DOC N - -; VL_CONT N - 2; VL_ISS N - 2; VL_ICMS N - 2; VL_ST N - 2",
    ),
    (
        "G050",
        "IND_MRO N 1 -; IND_OPER N 1 -; DT_DOC N 8 -; COP C 4 -; QTD_LCTO N - -; \
         VL_CONT N - 2; VL_CONT_PRP N - 2; VL_CONT_OUT N - 2; VL_ISS N - 2; VL_RT_ISS N - 2; \
         VL_ICMS N - 2; VL_ICMS_ST N - 2; VL_ST_ENT N - 2; VL_ST_FNT N - 2; VL_ST_UF N - 2; \
         VL_ST_OE N - 2; VL_AT N - 2; VL_IPI N - 2",
    ),
    (
        "G400",
        "VL_CONT N - 2; VL_OP_ISS N - 2; CFOP N 4 -; VL_BC_ICMS N - 2; VL_ICMS N - 2; \
         VL_BC_ST N - 2; VL_ICMS_ST N - 2; VL_ISNT_ICMS N - 2; VL_OUT_ICMS N - 2",
    ),
    (
        "G410",
        "IND_TOT N 1 -; VL_CONT N - 2; VL_OP_ISS N - 2; VL_BC_ICMS N - 2; VL_ICMS N - 2; \
         VL_ICMS_ST N - 2; VL_ST_ENT N - 2; VL_ST_FNT N - 2; VL_ST_UF N - 2; VL_ST_OE N - 2; \
         VL_AT N - 2; VL_ISNT_ICMS N - 2; VL_OUT_ICMS N - 2",
    ),
    (
        "G420",
        "VL_01 N - 2; VL_02 N - 2; VL_03 N - 2; VL_04 N - 2; VL_05 N - 2; VL_06 N - 2; \
         VL_07 N - 2; VL_08 N - 2; VL_09 N - 2; VL_10 N - 2; VL_11 N - 2; VL_12 N - 2; \
         VL_13 N - 2; VL_14 N - 2; VL_15 N - 2; VL_16 N - 2; VL_17 N - 2; VL_18 N - 2; \
         VL_19 N - 2; VL_20 N - 2; VL_21 N - 2; VL_22 N - 2; VL_99 N - 2",
    ),
    ("G430", "COD_AJ N 3 -; VL_AJ N - 2"),
    (
        "G440",
        "UF_OR C 2 -; COD_OR N 3 -; PER_REF N 6 -; COD_REC C - -; VL_ICMS_REC N - 2; \
         DT_VCTO N 8 -",
    ),
    (
        "G450",
        "IND_OPER N 1 -; VL_CONT_NC N - 2; VL_CONT_C N - 2; VL_OP_ISS N - 2; \
         VL_BC_ICMS_NC N - 2; VL_BC_ICMS_C N - 2; VL_ICMS N - 2; VL_ICMS_ST N - 2; \
         VL_ICMS_PETR N - 2; VL_ICMS_EEL N - 2; VL_ICMS_ST_OUT N - 2; VL_AT N - 2; \
         VL_ISNT_ICMS N - 2; VL_OUT_ICMS N - 2",
    ),
    (
        "G460",
        "UF C 2 -; VL_CONT_NC_UF N - 2; VL_CONT_C_UF N - 2; VL_OP_ISS_UF N - 2; \
         VL_BC_ICMS_NC_UF N - 2; VL_BC_ICMS_C_UF N - 2; VL_ICMS_UF N - 2; VL_ICMS_ST_UF N - 2; \
         VL_ICMS_PETR_UF N - 2; VL_ICMS_EEL_UF N - 2; VL_ICMS_ST_OUT_UF N - 2; VL_AT_UF N - 2; \
         VL_ISNT_ICMS_UF N - 2; VL_OUT_ICMS_UF N - 2",
    ),
    ("G990", "QTD_LIN_G N - -"),
    ("H001", "IND_DAD N 1 -"),
    (
        "H020",
        "IND_DT N 1 -; DT_INV N 8 -; VL_ESTQ N - 2; VL_ICMS_REC N - 2; VL_IPI_REC N - 2; \
         VL_PIS_REC N - 2; VL_COFINS_REC N - 2; VL_TRIB_NC N - 2; VL_ESTQ_NC N - 2; \
         NUM_LCTO C - -; COD_INF_OBS C - -",
    ),
    (
        "H030",
        "IND_POSSE N 1 -; COD_PART C - -; IND_ITEM N 1 -; COD_NCM N 8 -; COD_ITEM C - -; \
         UNID C - -; VL_UNIT N - 6; QTD N - 6; VL_ITEM N - 2; VL_ICMS_REC_I N - 2; \
         VL_IPI_REC_I N - 2; VL_PIS_REC_I N - 2; VL_COFINS_REC_I N - 2; VL_TRIB_NC_I N - 2; \
         COD_INF_OBS C - -",
    ),
    ("H040", "IND_POSSE N 1 -; VL_SUB_POSSE N - 2"),
    ("H050", "IND_ITEM N 1 -; VL_SUB_ITEM N - 2"),
    ("H060", "COD_NCM N 8 -; VL_SUB_NCM N - 2"),
    ("H990", "QTD_LIN_H N - -"),
    ("8001", "IND_DAD N 1 -; UF C 2 -"),
    ("8020", "IND_QVA N 1 -; DT_INI N 8 -; DT_FIN N 8 -"),
    (
        "8030",
        "IND_TOT N 1 -; IND_OPER N 1 -; IND_DET N 1 -; COD_MUN N 7 -; VL_CONT_MUN N - 2; \
         VL_OP_ISS_MUN N - 2; VL_ICMS_ST_MUN N - 2; VL_TE_MUN N - 2; VL_TS_MUN N - 2; \
         VL_AD_MUN N - 4",
    ),
    (
        "8040",
        "IND_CFOP N 1 -; VL_CONT N - 2; VL_OP_ISS N - 2; CFOP N 4 -; VL_ICMS_ST N - 2; \
         VL_TE_CFOP N - 2; VL_TS_CFOP N - 2",
    ),
    ("8050", "VL_TE N - 2; VL_TS N - 2; VL_AD N - 4"),
    ("8100", "IND_QAB N 1 -; DT_INI N 8 -; DT_FIN N 8 -"),
    ("8110", "IND_ORIG N 1 -; VL_EEL N - 2; VL_COM N - 2; VL_ATV N - 2; VL_OUT N - 2"),
    // its last column has the numbers of the fields once more, and no decimals
    ("8160", "IND_QCA N 1 -; DT_INI N 8 -; DT_FIN N 8 -"),
    ("8165", "VL_REM N - 2; VL_ACUM N - 2; VL_PU N - 2; VL_TUT N - 2; VL_SLD N - 2"),
    (
        "8170",
        "VL_CA_EX N - 2; VL_CA_OS N - 2; NUM_PROC C - -; IND_PROC N 1 -; DESCR_PROC C - -; \
         COMENT C - -",
    ),
    ("8175", "IND_UT N 1 -; VL_UT N - 2; IE C - -; COMENT C - -"),
    ("8180", "IND_CD N 1 -; VL_DEB N - 2; COD_REC C - -; IE C - -; COMENT C - -"),
    ("8300", "IND_QCC N 1 -; DT_INI N 8 -; DT_FIN N 8 -"),
    (
        "8310",
        "IND_CC N 1 -; COD_CONS N 2 -; VL_CONT N - 2; VL_OP_ISS N - 2; VL_ICMS_ST N - 2; \
         VL_BC_ICMS N - 2; VL_ICMS N - 2; VL_ISNT_ICMS N - 2; VL_OUT_ICMS N - 2",
    ),
    ("8500", "IND_GIAF N 1 -; DT_INI N 8 -; DT_FIN N 8 -"),
    ("8505", "IND_BF N 1 -; DE_BF N 5 -; DT_BF N 8 -; IND_NAT N - -; IND_ICMS_MIN N 1 -"),
    ("8510", "DE_BF_AJ N 5 -; DT_BF_AJ N 8 -; IND_NAT_AJ N - -"),
    ("8515", "IND_AP N - -"),
    (
        "8525",
        "COD_ITEM C - -; DESCR_ITEM C - -; NBMSH N 10 -; UNID C - -; PCT_BF N - 2; PRZ_BF N 4 -",
    ),
    (
        "8530",
        "IND_OPER N 1 -; IND_EMIT N 1 -; COD_PART C - -; COD_MOD C 2 -; SER C - -; \
         NUM_DOC N - -; DT_DOC N 8 -; VL_CONT N - 2; VL_BC_ICMS N - 2; VL_ICMS N - 2",
    ),
    (
        "8535",
        "NUM_ITEM N - -; COD_ITEM C - -; CFOP N 4 -; VL_BC_ICMS_I N - 2; ALIQ_ICMS N - 2; \
         VL_ICMS_I N - 2; IND_AP N - -; IND_ESP N - -",
    ),
    (
        "8540",
        "VL_CONT_P N - 2; CFOP N 4 -; VL_BC_ICMS_P N - 2; ALIQ_ICMS N - 2; VL_ICMS_P N - 2; \
         IND_AP N - -; IND_ESP N - -",
    ),
    ("8545", "COD_BF_ICMS C 5 -; IND_AP N - -; IND_ESP N - -"),
    ("8550", "VL_CONT N - 2; CFOP N 4 -; VL_ICMS N - 2"),
    ("8555", "IND_INC N 2 -; VL_CONT N - 2; VL_ICMS N - 2"),
    (
        "8560",
        "VL_01 N - 2; VL_05 N - 2; VL_06 N - 2; VL_07 N - 2; VL_08 N - 2; VL_09 N - 2; \
         VL_10 N - 2; VL_11 N - 2; VL_12 N - 2; VL_13 N - 2; VL_14 N - 2",
    ),
    ("8565", "COD_AJ N 3 -; VL_AJ N - 2"),
    (
        "8570",
        "G1_01 N - 2; G1_02 N - 2; G1_03 N - 2; G1_04 N - 2; G1_05 N - 2; G1_06 N - 2; \
         G1_07 N - 2; G1_08 N - 2; G1_09 N - 2; G1_10 N - 2; G1_11 N - 2",
    ),
    (
        "8580",
        "G3_01 N - 2; G3_02 N - 2; G3_03 N - 2; G3_04 N - 2; G3_05 N - 2; G3_06 N - 2; \
         G3_07 N - 2; G3_08 N - 2; G3_09 N - 2",
    ),
    ("8585", "IND_FX N 1 -; G3_10 N - 2; G3_11 N - 2; G3_12 N - 2"),
    (
        "8590",
        "G4_01 N - 2; G4_02 N - 2; G4_03 N - 2; G4_04 N - 2; G4_05 N - 2; G4_06 N - 2; \
         G4_07 N - 2; G4_08 N - 2; G4_09 N - 2; G4_10 N - 2; G4_11 N - 2; G4_12 N - 2; \
         G4_13 N - 2; G4_14 N - 2",
    ),
    ("8990", "QTD_LIN_8 N - -"),
    ("9001", "IND_DAD N 1 -"),
    (
        "9020",
        "LEIAUTE C 4 -; ARQ_DT_INI N 8 -; ARQ_DT_FIN N 8 -; ARQ_NOME_EMPR C - -; \
         ARQ_CNPJ N 14 -; ARQ_UF C 2 -; ARQ_IE C 14 -; ARQ_COD_MUN N 7 -; ARQ_IM C - -; \
         VAZIO C 0 -; ARQ_SUFRAMA C 9 -; ARQ_COD_VER N 4 -; ARQ_COD_FIN N 1 -; \
         ARQ_COD_CTD N 2 -; ARQ_PAIS C 6 -; ARQ_CPF N 11 -; ARQ_FANTASIA C - -; \
         ARQ_QTD_LIN N - -; ARQ_NOME C - -; ASS_HASH C 128 -",
    ),
    ("9030", "ARQ_LIN_BLC C 4 -; ARQ_QTD_LIN_BLC N - -"),
    (
        "9040",
        "ARQ_CERT_AC C - -; ARQ_CERT_SER C - -; ARQ_CERT_EXP_DT N 8 -; ARQ_CERT_EXP_HR N 8 -; \
         ARQ_ALG C - -; ARQ_DT N 8 -; ARQ_HR N 8 -; ARQ_SIGN C - -; COD_ASSIN N 3 -; \
         ARQ_CERT C 65536 -; ARQ_ASS C 65536 -",
    ),
    ("9900", "LIN_BLC C 4 -; QTD_LIN_BLC N - -"),
    ("9990", "QTD_LIN_9 N - -"),
    ("9999", "QTD_LIN N - -"),
];
