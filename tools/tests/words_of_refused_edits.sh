tools/words cases/parents_and_removals_are_refused_by_their_cause.vx --program "$program"
tools/words cases/the_world_at_large_has_flags_and_nothing_else.vx --program "$program"
