(setq count 0)
