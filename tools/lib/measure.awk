# Prints the table of measures: one row for each hole and each cut that the program leaves on the plate, as text or, with csv=1, as comma
# separated values. Behind circles.awk, follow.awk, scale.awk and rows.awk.

END {
    find_rows()
    if (csv) print_csv()
    else print_text()
}

function print_text(    r) {
    measure_columns(n_rows)
    if (in_mm) print units_text()
    fill_heads()
    print cells_text()
    for (r = 1; r <= n_rows; r++) {
        fill_cells(r, 0)
        print cells_text()
    }
    print sum_text()
    if (limit) print "not over after 100,000 clock calls"
}

function print_csv(    r, c, text) {
    text = ends_csv(axes_shown(1), "")
    if (in_mm) text = text "," ends_csv(axes_in_mm(1), "_mm")
    text = text ",record,pass,line"
    if (n_arcs) text = text ",centre_x,centre_y,centre_z,radius" (in_mm ? ",centre_x_mm,centre_y_mm,centre_z_mm,radius_mm" : "") ",plane,turn"
    print "number,what," text
    for (r = 1; r <= n_rows; r++) {
        fill_cells(r, 1)
        text = cell[1]
        for (c = 2; c <= n_cells; c++) text = text "," cell[c]
        print text
    }
}

# The names of the columns of both ends and of the depth.
function ends_csv(shown, unit,    end, k, axis, text) {
    for (end = 1; end <= 2; end++) for (k = 1; k <= length(shown); k++) {
        axis = substr(shown, k, 1)
        text = text (end == 1 ? "from_" : "to_") axis (unit != "" && axis == "a" ? "_deg" : unit) ","
    }
    return text "depth" unit
}
