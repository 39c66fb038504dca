tools/words examples/clock.vx --program "$program"
tools/words cases/the_first_of_three_pistons_has_the_cell.vx --program "$program"
tools/words cases/a_closed_wild_is_closed_to_machines.vx --program "$program"
