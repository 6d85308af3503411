// word 0 rule 1
    prfm pldl1keep, [x1, #64]
