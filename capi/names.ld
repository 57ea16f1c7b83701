/* What the shared library shows: the proved exports of station_page, by the names of station_check.h.
 * station_check_check, station_check_compare, station_check_table, station_check_mark and
 * station_check_mark_rows stand in stated.c. */
station_check_differences = station_page_differences;
station_check_directions = station_page_directions;
station_check_comma_differences = station_page_comma_differences;
station_check_comma_directions = station_page_comma_directions;
station_check_comma_rows = station_page_comma_rows;
station_check_residuals = station_page_residuals;
station_check_report = station_page_report;
station_check_station = station_page_station;
station_check_means = station_page_means;
station_check_list = station_page_list;
station_check_list_rows = station_page_list_rows;
station_check_words = station_page_words;
station_check_change = station_page_change;
station_check_digest = station_page_digest;
station_check_explain = station_page_explain;
station_check_explanation = station_page_explanation;
station_check_columns = station_page_columns;
station_check_place = station_page_place;
station_check_instrument = station_page_instrument;
station_check_records = station_page_records;

VERSION { STATION_CHECK_1 { global: station_check_*; local: *; }; }
