" Vim syntax of the Fuzzy Control Language (IEC 61131-7:2000), in the profile that fuzz12 takes.
if exists('b:current_syntax')
  finish
endif

syntax case ignore
syntax keyword fclBlock FUNCTION_BLOCK END_FUNCTION_BLOCK VAR_INPUT VAR_OUTPUT END_VAR FUZZIFY END_FUZZIFY
syntax keyword fclBlock DEFUZZIFY END_DEFUZZIFY RULEBLOCK END_RULEBLOCK
syntax keyword fclSetting TERM RANGE METHOD DEFAULT ACCU ACT RULE WITH
syntax keyword fclCondition IF THEN IS AND OR NOT
syntax keyword fclType REAL
syntax keyword fclChoice MIN MAX PROD COGS NC
syntax keyword fclLeftOut VAR OPTION END_OPTION COG COA LM RM BDIF ASUM BSUM NSUM
syntax match fclNumber '\<\d\+\(\.\d\+\)\?\>'
syntax region fclComment start='(\*' end='\*)'
syntax region fclComment start='//' end='$'

highlight default link fclBlock Structure
highlight default link fclSetting Statement
highlight default link fclCondition Conditional
highlight default link fclType Type
highlight default link fclChoice Constant
highlight default link fclLeftOut Error
highlight default link fclNumber Number
highlight default link fclComment Comment

let b:current_syntax = 'fcl'
