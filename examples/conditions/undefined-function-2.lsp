(report-condition 5 (standard-output))
