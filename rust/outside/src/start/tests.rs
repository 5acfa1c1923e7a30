use super::*;

#[test]
fn the_untagged_vlan_of_each_port_starts_at_1_and_all_else_at_0() {
    let values = settings_at_start();
    for port in 0..64 {
        for field in 0..16 {
            let expected = i32::from(field == 2);
            assert_eq!(values[port * 16 + field], expected, "{port} {field}");
        }
    }
}

#[test]
fn the_start_values_are_refused_a_slice_that_is_not_1024_long() {
    for length in [0, 1, 1023, 1025, 2048] {
        let mut lent = vec![-1; length];
        assert_eq!(start_values(&mut lent), Err(Refusal::Length));
        assert_eq!(lent, vec![-1; length]);
    }
    let mut lent = [-1; SETTINGS];
    assert_eq!(start_values(&mut lent), Ok(()));
    assert_eq!(lent, settings_at_start());
}
