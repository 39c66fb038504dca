tools/words examples/chest.vx --program "$program"
tools/words examples/denial.vx --program "$program"
tools/words examples/ask.vx --program "$program"
