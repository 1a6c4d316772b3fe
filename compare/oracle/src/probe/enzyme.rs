use super::*;

/// Every site, in the order in which `digest` walks them.
pub fn all_sites(parameters: &EnzymeParameters, sequence: &str) -> Vec<DigestSite> {
    let mut sites = parameters.cleavage_sites(sequence);
    let missed = match parameters.enzyme {
        None => 0,
        _ => parameters.missed_cleavages,
    };
    if missed > 0 {
        parameters.missed_cleavage_sites(&mut sites, missed);
    }
    if parameters.is_semi_enzymatic() {
        parameters.semi_enzymatic_sites(&mut sites);
    }
    sites
}
